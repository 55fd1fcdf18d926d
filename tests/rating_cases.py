#!/usr/bin/env python3
"""The lines of crates/rating_cases, worked out with the independent program of tests/reference.

  rating_cases.py            prints the lines that the program has to print
  rating_cases.py --check    compares the program's gases and its file `stdout` with them
"""
import os
import re
import sys

sys.dont_write_bytecode = True
HERE = os.path.dirname(os.path.abspath(__file__))
sys.path.insert(0, os.path.join(HERE, 'reference'))
import independent as reference

CRATE = os.path.join(HERE, '..', 'crates', 'rating_cases')

GAS = (0, 970797, 16658, 2417, 346, 245, 11, 73, 125, 0, 84, 528, 8715, 0, 0, 0)
LESS = (0, 970697, 16658, 2417, 346, 245, 11, 73, 125, 0, 84, 528, 8715, 0, 0, 0)
LEAST = (0, 970698, 16658, 2417, 346, 245, 11, 73, 125, 0, 84, 528, 8715, 0, 0, 0)
ETHANE_99 = (0, 969901, 99, 20000, 5000, 5000, 0, 0, 0, 0, 0, 0, 0, 0, 0, 0)
ETHANE_100 = (0, 969900, 100, 20000, 5000, 5000, 0, 0, 0, 0, 0, 0, 0, 0, 0, 0)
# The greatest amount of hexanes+; one part more; the greatest before request One.
HEXANES = ((0, 964781, 16658, 2417, 346, 245, 11, 73, 125, 0, 6100, 528, 8715, 0, 0, 0),
           (0, 964780, 16658, 2417, 346, 245, 11, 73, 125, 0, 6101, 528, 8715, 0, 0, 0),
           (0, 955881, 16658, 2417, 346, 245, 11, 73, 125, 0, 15000, 528, 8715, 0, 0, 0))
TIES = ((0, 856641, 19981, 19981, 18632, 19263, 0, 0, 0, 0, 0, 65502, 0, 0, 0, 0),
        (0, 833065, 30857, 30857, 2859, 10119, 0, 0, 0, 0, 0, 92243, 0, 0, 0, 0),
        (0, 826050, 26606, 26606, 33680, 11276, 0, 0, 0, 0, 0, 75782, 0, 0, 0, 0))
BUTANE = (0, 413400, 150000, 60000, 40000, 40000, 500, 20000, 20000, 0, 6100, 100000, 150000, 0, 0, 0)

# Methane with ethane; with propane; with butane; with pentanes and hexanes+ for butane; with 10 parts of i-butane; with
# 10 parts of neo-pentane; without butane; without propane; without ethane.
LEAN = ((0, 970000, 10000, 0, 0, 0, 0, 0, 0, 0, 0, 20000, 0, 0, 0, 0),
        (0, 975000, 0, 5000, 0, 0, 0, 0, 0, 0, 0, 20000, 0, 0, 0, 0),
        (0, 960000, 0, 0, 0, 20000, 0, 0, 0, 0, 0, 20000, 0, 0, 0, 0),
        (0, 979000, 0, 0, 0, 0, 0, 5000, 5000, 0, 1000, 10000, 0, 0, 0, 0),
        (0, 989990, 0, 0, 10, 0, 0, 0, 0, 0, 0, 10000, 0, 0, 0, 0),
        (0, 989990, 0, 0, 0, 0, 10, 0, 0, 0, 0, 10000, 0, 0, 0, 0),
        (0, 950000, 30000, 10000, 0, 0, 0, 0, 0, 0, 0, 10000, 0, 0, 0, 0),
        (0, 950000, 30000, 0, 5000, 5000, 0, 0, 0, 0, 0, 10000, 0, 0, 0, 0),
        (0, 950000, 0, 30000, 5000, 5000, 0, 0, 0, 0, 0, 10000, 0, 0, 0, 0))
# Mix 1 of 000 Table A.10.
MIX_1 = (0, 835300, 34700, 0, 0, 0, 0, 0, 0, 0, 0, 0, 130000, 0, 0, 0)
# Methane and carbon dioxide alone; and a total of 999899.
ALONE = (0, 990000, 0, 0, 0, 0, 0, 0, 0, 0, 0, 10000, 0, 0, 0, 0)
ALONE_LESS = (0, 989899, 0, 0, 0, 0, 0, 0, 0, 0, 0, 10000, 0, 0, 0, 0)
# No methane.
NONE = (0, 0, 100000, 0, 0, 0, 0, 0, 0, 0, 0, 20000, 0, 0, 0, 0)

# 000's example 3 and mix 9 of its Table A.10.
EXAMPLE_3 = (0, 859910, 50360, 12000, 1909, 1727, 0, 364, 455, 0, 545, 13270, 9460, 0, 0, 50000)
MIX_9 = (0, 800000, 50000, 50000, 25000, 25000, 0, 0, 0, 0, 0, 0, 0, 0, 0, 50000)
# Hydrogen with methane; and ethane; propane; butane; ethane and propane; ethane and butane; propane and butane; with
# methane and much butane, where system 2 is chosen.
BLENDS = ((0, 900000, 0, 0, 0, 0, 0, 0, 0, 0, 0, 50000, 0, 0, 0, 50000),
          (0, 900000, 30000, 0, 0, 0, 0, 0, 0, 0, 0, 20000, 0, 0, 0, 50000),
          (0, 900000, 0, 30000, 0, 0, 0, 0, 0, 0, 0, 20000, 0, 0, 0, 50000),
          (0, 900000, 0, 0, 10000, 20000, 0, 0, 0, 0, 0, 20000, 0, 0, 0, 50000),
          (0, 880000, 30000, 20000, 0, 0, 0, 0, 0, 0, 0, 20000, 0, 0, 0, 50000),
          (0, 880000, 30000, 0, 0, 20000, 0, 0, 0, 0, 0, 20000, 0, 0, 0, 50000),
          (0, 880000, 0, 20000, 0, 30000, 0, 0, 0, 0, 0, 20000, 0, 0, 0, 50000),
          (0, 403400, 150000, 60000, 40000, 40000, 500, 20000, 20000, 0, 6100, 50000, 150000, 0, 0, 60000))
# Ethane 20000 beside hydrogen; the ends of hydrogen's range.
HYDROGEN_9 = (0, 979991, 20000, 0, 0, 0, 0, 0, 0, 0, 0, 0, 0, 0, 0, 9)
HYDROGEN_10 = (0, 979990, 20000, 0, 0, 0, 0, 0, 0, 0, 0, 0, 0, 0, 0, 10)
HYDROGEN_100000 = (0, 880000, 20000, 0, 0, 0, 0, 0, 0, 0, 0, 0, 0, 0, 0, 100000)
HYDROGEN_100001 = (0, 879999, 20000, 0, 0, 0, 0, 0, 0, 0, 0, 0, 0, 0, 0, 100001)
# Methane and a trace of hydrogen.
TRACE = (0, 989990, 0, 0, 0, 0, 0, 0, 0, 0, 0, 10000, 0, 0, 0, 10)
# Butane and hydrogen have equal remainders: one part is given out.
BUTANE_BEFORE_HYDROGEN = (0, 685996, 60000, 20000, 2000, 2002, 0, 0, 0, 0, 0, 50000, 150000, 0, 0, 30002)


def search(gas, allowance=4000):
    return reference.display(reference.search(gas, allowance))


def back(gas):
    return cross(gas, gas)


def cross(gas, other):
    """A gas with the split that is found for another."""
    return reference.display(reference.rate_split(gas, reference.search(other).split))


def cut(gas, count):
    """A gas with the first records of the split that is found for it."""
    return reference.display(reference.rate_split(gas, reference.search(gas).split[:count]))


def gas_lines(gas):
    return mixture(gas), search(gas), back(gas)


def mixture(gas):
    assert reference.check(gas) is None
    return 'MIXTURE %d %d %d %d %d\n' % reference.simplify(gas)


def text():
    lines = [search(GAS, 0), search(GAS), back(GAS), search(LESS), search(LEAST), search(ETHANE_99),
             search(ETHANE_100), *map(search, HEXANES), *map(mixture, TIES), *gas_lines(BUTANE),
             *(line for gas in (*LEAN, MIX_1) for line in gas_lines(gas)),
             mixture(ALONE), search(ALONE), search(ALONE, 0), search(ALONE_LESS), search(NONE),
             # six records and nine: for three systems, two, and methane alone, 16 before 7
             cross(GAS, LEAN[0]), cross(LEAN[0], GAS), cross(ALONE, LEAN[0]), cross(ALONE, GAS), cross(ALONE_LESS, GAS)]
    # blends; fifteen, twelve, nine and six records for five systems, fifteen for three and for methane alone
    blends = [*(line for gas in (EXAMPLE_3, MIX_9, *BLENDS) for line in gas_lines(gas)),
              search(EXAMPLE_3, 0), *map(search, (HYDROGEN_9, HYDROGEN_10, HYDROGEN_100000, HYDROGEN_100001)),
              search(TRACE), mixture(BUTANE_BEFORE_HYDROGEN),
              cut(EXAMPLE_3, 15), cut(EXAMPLE_3, 12), cut(EXAMPLE_3, 9), cut(EXAMPLE_3, 6), cut(EXAMPLE_3, 0),
              cross(EXAMPLE_3, MIX_9), cross(EXAMPLE_3, GAS), cross(GAS, EXAMPLE_3), cross(ALONE, EXAMPLE_3)]
    # what document 01 and 001 say of these gases
    assert lines[0] == 'REFUSED 11\n' and lines[3] == 'REFUSED 6\n' and lines[5] == 'REFUSED 5\n'
    assert (sum(LESS), sum(LEAST)) == (999899, 999900)
    # and request One
    assert lines[7].startswith('RATED') and lines[8] == lines[9] == 'REFUSED 5\n'
    assert reference.choose(reference.simplify(BUTANE)) == (2, 7, 8)
    # and request Five
    assert [len(reference.choose(reference.simplify(gas))) for gas in LEAN] == [2] * 6 + [3] * 3
    assert lines[-9:] == ['REFUSED %d\n' % n for n in (16, 16, 6, 5, 7, 7, 16, 16, 6)]
    # and Seven
    systems = [reference.choose(reference.simplify(gas)) for gas in (EXAMPLE_3, MIX_9, *BLENDS)]
    assert systems[:2] == [(1, 4, 5, 6, 8), (1, 5, 6, 7, 8)] and 2 in systems[-1]
    assert [len(s) for s in systems] == [5, 5, 2, 3, 3, 3, 3, 3, 3, 5]
    assert blends[-8:] == ['REFUSED %d\n' % n for n in (7, 7, 7, 7, 7, 7, 7, 16)] and blends[-9].startswith('RATED')
    return ''.join(lines + blends)


def main():
    if sys.argv[1:] == ['--check']:
        source = open(os.path.join(CRATE, 'src', 'main.rt'), encoding='utf-8').read()
        listed = {tuple(map(int, re.findall('[0-9]+', row))) for row in re.findall(r'\[(\s*0,[0-9,\s]+)\]', source)}
        if listed != {GAS, LESS, LEAST, ETHANE_99, ETHANE_100, *HEXANES, *TIES, BUTANE, *LEAN, MIX_1, ALONE, ALONE_LESS,
                      NONE, EXAMPLE_3, MIX_9, *BLENDS, HYDROGEN_9, HYDROGEN_10, HYDROGEN_100000, HYDROGEN_100001,
                      TRACE, BUTANE_BEFORE_HYDROGEN}:
            sys.exit('rating_cases.py: other gases than those of the program')
        if open(os.path.join(CRATE, 'stdout'), encoding='utf-8').read() != text():
            sys.exit('rating_cases.py: the file stdout holds other lines')
        print(f'rating_cases.py: {text().count(chr(10))} lines, as worked out by the reference')
    elif sys.argv[1:]:
        sys.exit(__doc__)
    else:
        print(text(), end='')


main()
