#!/usr/bin/env python3
"""The display programs themselves: every byte that they write, 0A included, compared with the independent program's
line.

  python3 tests/display.py PROGRAM MOLES

PROGRAM reads sheets, MOLES mole analyses.

The published gases, without a split and with the found one; the sheets kept in tests/data, at the limits of the spread
and of the search; document 01's own cases: totals and ethane at their limits, its seven bytes, one byte more, and none;
request One's: hexanes+ at its ceiling and above; request Five's: lean gases, with splits of six and nine records, and
methane alone; and request Seven's: hydrogen blends, with splits of fifteen records, codes about 15, the ends of
hydrogen's range, the longest sheet.

And request Two's, 16 amounts by code and a split's section: Table A.1 as analysed, with the found split and others, the
ends of each range and of the total, hydrogen, volumes made that are out of their ranges, methane alone; fewer bytes
than there must be and more, counts that are not allowed, and sheets.
"""
import os
import subprocess
import sys

sys.dont_write_bytecode = True
HERE = os.path.dirname(os.path.abspath(__file__))
sys.path.insert(0, os.path.join(HERE, 'reference'))
import independent as ref  # noqa: E402

TABLE_A1 = (0, 970797, 16658, 2417, 346, 245, 11, 73, 125, 0, 84, 528, 8715, 0, 0, 0)
LONGEST = 188


def data(name):
    with open(os.path.join(HERE, 'data', name), encoding='utf-8') as f:
        return [line.rstrip('\n') for line in f if not line.startswith('#')]


def published():
    """(name, sheet, line): the line of published-answers.txt, and the reference's for the found split put back."""
    answers = dict(line.split(' ', 1) for line in data('published-answers.txt'))
    for line in data('published.txt'):
        words = line.split()
        analysis = (0, *map(int, words[1:16]))
        yield words[0], ref.layout(analysis, None), answers[words[0]] + '\n'
        found = ref.search(analysis) if ref.check(analysis) is None else None
        if isinstance(found, ref.Rating):
            yield words[0] + ', split put back', ref.layout(analysis, found.split), None


def limits():
    """(name, sheet, line) of the sheets in tests/data."""
    for line in data('spread-limit.txt'):
        sheet, answer = line.split(' ', 1)
        yield 'spread at the limit', bytes.fromhex(sheet), answer + '\n'
    for line in data('search-limit.txt'):
        name, sheet, answer = line.split(' ', 2)
        yield name, bytes.fromhex(sheet), answer + '\n'


def changed(**amounts):
    a = list(TABLE_A1)
    for code, amount in amounts.items():
        a[int(code[1:])] = amount
    return ref.layout(a, None)


def scope():
    """(name, sheet, line) of document 01's own cases and request One's; None for a line left to the rules."""
    sheet = ref.layout(TABLE_A1, ref.search(TABLE_A1).split)
    assert len(sheet) == 111
    rest = TABLE_A1[1] + TABLE_A1[2]
    yield 'seven bytes', bytes.fromhex('01090000006400'), 'REFUSED 3\n'
    yield 'total 999899', changed(c1=970697), 'REFUSED 6\n'
    yield 'total 999900', changed(c1=970698), None
    yield 'total 1000100', changed(c1=970898), None
    yield 'total 1000101', changed(c1=970899), 'REFUSED 6\n'
    yield 'ethane 99', changed(c1=rest - 99, c2=99), 'REFUSED 5\n'
    yield 'ethane 100', changed(c1=rest - 100, c2=100), None
    for amount, line in ((6100, None), (6101, 'REFUSED 5\n'), (15000, 'REFUSED 5\n')):
        yield 'hexanes+ %d' % amount, changed(c1=970797 + 84 - amount, c10=amount), line
    yield '111 bytes', sheet, 'RATED 910787384 91 369794 0\n'
    yield 'one byte less', sheet[:-1], 'REFUSED 1\n'
    yield 'one byte more', sheet + b'\0', 'REFUSED 1\n'
    yield 'a thousand bytes more', sheet + bytes(1000), 'REFUSED 1\n'
    yield 'no bytes', b'', 'REFUSED 1\n'


BIOMETHANE = (0, 970000, 10000, 0, 0, 0, 0, 0, 0, 0, 0, 20000, 0, 0, 0, 0)      # two systems
NO_BUTANE = (0, 950000, 30000, 10000, 0, 0, 0, 0, 0, 0, 0, 10000, 0, 0, 0, 0)   # three
PENTANES = (0, 979990, 0, 0, 0, 0, 10, 0, 0, 0, 0, 20000, 0, 0, 0, 0)
METHANE = (0, 980000, 0, 0, 0, 0, 0, 0, 0, 0, 0, 20000, 0, 0, 0, 0)


def lean():
    """(name, sheet, line) of request Five; None for a line that it leaves to the rules."""
    for name, analysis in (('biomethane', BIOMETHANE), ('no butane', NO_BUTANE), ('neo-pentane alone', PENTANES)):
        split = ref.search(analysis).split
        yield name, ref.layout(analysis, None), None
        yield name + ', split put back', ref.layout(analysis, split), None
    six, nine = ref.search(BIOMETHANE).split, ref.search(NO_BUTANE).split
    yield 'nine records for two systems', ref.layout(BIOMETHANE, nine), 'REFUSED 7\n'
    yield 'six records for three systems', ref.layout(NO_BUTANE, six), 'REFUSED 7\n'
    yield 'parts of an absent component', ref.layout(BIOMETHANE, (*six[:5], (8, 14, 1))), 'REFUSED 8\n'
    for count in (3, 7, 24, 255):
        yield '%d records' % count, ref.layout(BIOMETHANE, (six * 43)[:count]), 'REFUSED 1\n'
    yield 'propane listed at 0', bytes.fromhex('0401000ecd1002000027100300000000' '0b00004e2000'), 'REFUSED 5\n'
    yield 'methane alone', ref.layout(METHANE, None), 'REFUSED 16\n'
    yield 'methane alone, six records', ref.layout(METHANE, six), 'REFUSED 16\n'
    yield 'methane alone, nine records', ref.layout(METHANE, nine), 'REFUSED 16\n'
    yield 'methane alone, total 999899', ref.layout((0, 979899, *METHANE[2:]), None), 'REFUSED 6\n'
    yield 'no methane', ref.layout((0, 0, *BIOMETHANE[2:]), None), 'REFUSED 5\n'


EXAMPLE_3 = (0, 859910, 50360, 12000, 1909, 1727, 0, 364, 455, 0, 545, 13270, 9460, 0, 0, 50000)        # five systems
HYDROGEN = (0, 900000, 0, 0, 0, 0, 0, 0, 0, 0, 0, 50000, 0, 0, 0, 50000)                                # two
FULL = (0, 800000, 60000, 20000, 1000, 1000, 100, 1000, 1000, 0, 1000, 50000, 14900, 0, 0, 50000)       # all twelve


def with_hydrogen(amount):
    return ref.layout((0, 980000 - amount, 20000, *[0] * 12, amount), None)


def listed(*codes):
    """Components with 100 parts each, no split."""
    return bytes([len(codes)]) + b''.join(bytes((c, 0, 0, 0, 100)) for c in codes) + b'\0'


def blends():
    """(name, sheet, line) of request Seven; None for a line that it leaves to the rules."""
    for name, analysis, records in (('example 3', EXAMPLE_3, 15), ('methane and hydrogen', HYDROGEN, 6),
                                    ('all components', FULL, 15)):
        split = ref.search(analysis).split
        assert len(split) == records
        yield name, ref.layout(analysis, None), None
        yield name + ', split put back', ref.layout(analysis, split), None
    fifteen = ref.search(FULL).split
    for count in (6, 9, 12, 18, 21):
        yield '%d records for five systems' % count, ref.layout(FULL, (fifteen * 2)[:count]), 'REFUSED 7\n'
    for count in (3, 7, 14, 16, 22, 24):
        yield '%d records for five systems' % count, ref.layout(FULL, (fifteen * 2)[:count]), 'REFUSED 1\n'
    longest = ref.layout(FULL, (fifteen * 2)[:21])
    assert len(longest) == LONGEST
    yield 'the longest sheet cut to 187 bytes', longest[:-1], 'REFUSED 1\n'
    yield '189 bytes', longest + b'\0', 'REFUSED 1\n'
    yield '189 bytes, the last one 0A', longest + b'\n', 'REFUSED 1\n'
    yield 'a thousand bytes more', longest + bytes(1000), 'REFUSED 1\n'
    yield 'thirteen components', listed(*range(1, 14)), 'REFUSED 1\n'
    for amount, line in ((9, 'REFUSED 5\n'), (10, None), (100000, None), (100001, 'REFUSED 5\n')):
        yield 'hydrogen %d' % amount, with_hydrogen(amount), line
    yield 'code 14', listed(1, 14), 'REFUSED 2\n'
    yield 'code 14, then 15', listed(1, 14, 15), 'REFUSED 2\n'
    yield 'code 16', listed(1, 16), 'REFUSED 2\n'
    yield 'code 15 before 12', listed(1, 15, 12), 'REFUSED 4\n'
    yield 'code 15 before 13', listed(1, 15, 13), 'REFUSED 3\n'
    yield 'code 15 twice', listed(1, 15, 15), 'REFUSED 4\n'
    yield 'methane at 100, hydrogen', listed(1, 15), 'REFUSED 5\n'


MOLES = (0, 970640, 16758, 2453, 356, 253, 11, 76, 132, 0, 91, 530, 8700, 0, 0, 0)      # Table A.1
LONGEST_MOLES = 191


def mole_bytes(moles, split=()):
    """What the program of mole analyses reads."""
    return b''.join(a.to_bytes(4, 'big') for a in moles) + bytes([len(split)]) \
        + b''.join(bytes([s, c]) + a.to_bytes(4, 'big') for s, c, a in split)


def rate_moles(data):
    """The independent program's answer to such bytes."""
    if len(data) < 65 or data[64] not in ref.SPLIT_COUNTS or len(data) != 65 + 6 * data[64]:
        return ref.Refusal(1)
    moles = tuple(int.from_bytes(data[at:at + 4], 'big') for at in range(0, 64, 4))
    split = [(data[at], data[at + 1], int.from_bytes(data[at + 2:at + 6], 'big')) for at in range(65, len(data), 6)]
    return ref.rate_split_moles(moles, split) if split else ref.search_moles(moles)


def other(**amounts):
    a = list(MOLES)
    for code, amount in amounts.items():
        a[int(code[1:])] = amount
    return a


def mole_ends():
    """(name, bytes, line) of both ends of each range, and one beyond each; methane is the rest of a million."""
    for code, (least, greatest) in ref.RANGE.items():
        for amount in (least - 1, least, greatest, greatest + 1):
            held = {1: amount, 2: 300} if code == 1 else {2: 20000, 11: 1000, code: amount}
            moles = [held.get(c, 0) for c in range(ref.CODES)]
            if code != 1:
                moles[1] = 1000000 - sum(moles)
            line = 'REFUSED 18\n' if code == 15 else None if least <= amount <= greatest else 'REFUSED 5\n'
            if (code, amount) == (1, least):
                line = 'REFUSED 15\n'      # no analysis in range has so little methane and a million in all
            answer = rate_moles(mole_bytes(moles))
            assert line or isinstance(answer, ref.Rating), (moles, answer)
            yield '%d of code %d in moles' % (amount, code), mole_bytes(moles), line


def of_moles():
    """(name, bytes, line) of request Two; None for a line that it leaves to the rules."""
    found = ref.search_moles(MOLES).split
    whole = mole_bytes(MOLES, found)
    yield 'Table A.1', mole_bytes(MOLES), 'RATED 910833230 91 436527 7\n'
    yield 'Table A.1, split put back', whole, 'RATED 910833230 91 436527 0\n'
    yield 'six of its records', mole_bytes(MOLES, found[:6]), 'REFUSED 7\n'
    yield 'a part less', mole_bytes(MOLES, ((*found[0][:2], found[0][2] - 1), *found[1:])), 'REFUSED 8\n'
    for total, line in ((999899, 'REFUSED 15\n'), (999900, None), (1000100, None), (1000101, 'REFUSED 15\n')):
        yield 'mole total %d' % total, mole_bytes(other(c1=total - 1000000 + MOLES[1])), line
    yield 'mole total 999899, a split', mole_bytes(other(c1=970539), found), 'REFUSED 15\n'
    yield 'ethane 99 and the total', mole_bytes(other(c1=970539, c2=99)), 'REFUSED 5\n'
    for code in (0, 9, 13, 14):
        yield 'an amount at %d' % code, mole_bytes(other(**{'c%d' % code: 1})), 'REFUSED 5\n'
    for amount in (1, 10, 50000, 4294967295):
        yield 'hydrogen %d' % amount, mole_bytes(other(c15=amount)), 'REFUSED 18\n'
        yield 'hydrogen %d, before 5' % amount, mole_bytes(other(c0=1, c2=99, c15=amount)), 'REFUSED 18\n'
    yield 'hydrogen, a split', mole_bytes(other(c15=10), found), 'REFUSED 18\n'
    yield 'nothing', bytes(65), 'REFUSED 5\n'
    yield 'bytes 255', bytes([255]) * 64 + bytes(1), 'REFUSED 18\n'
    yield 'methane alone', mole_bytes(METHANE), 'REFUSED 16\n'
    yield 'methane alone, a split', mole_bytes(METHANE, found), 'REFUSED 16\n'
    for name, analysis in (('biomethane', BIOMETHANE), ('no butane', NO_BUTANE), ('neo-pentane alone', PENTANES)):
        yield name + ' in moles', mole_bytes(analysis), None
        yield name + ' in moles, split put back', mole_bytes(analysis, ref.search_moles(analysis).split), None
    below = (0, 999000, 100, *[0] * 8, 900, 0, 0, 0, 0)
    assert ref.check(ref.volumes_of(below)) == ref.Refusal(5, 2)
    yield 'a volume made below its range', mole_bytes(below), None
    yield from mole_ends()
    longest = mole_bytes(MOLES, (found * 3)[:21])
    assert len(longest) == LONGEST_MOLES
    yield '191 bytes', longest, 'REFUSED 7\n'
    for size in (0, 1, 63, 64, 65, 66, 100, 118):
        yield '%d bytes of a split put back' % size, whole[:size], 'REFUSED 1\n'
    yield '190 bytes', longest[:-1], 'REFUSED 1\n'
    for more in (b'\0', b'\n', bytes(1000)):
        yield '%d bytes more' % len(more), longest + more, 'REFUSED 1\n'
        yield '%d bytes more, nine records' % len(more), whole + more, 'REFUSED 1\n'
        yield '%d bytes more, no split' % len(more), mole_bytes(MOLES) + more, 'REFUSED 1\n'
    for count in (1, 3, 7, 22, 24, 255):
        yield '%d records' % count, mole_bytes(MOLES, (found * 29)[:count]), 'REFUSED 1\n'


def compare(program, cases, answer):
    """Runs the program on each case; how many there are."""
    count = 0
    for name, data, line in cases:
        wanted = ref.display(answer(data))
        if line not in (None, wanted):
            sys.exit('display: %s: %r is known, the reference has %r' % (name, line, wanted))
        run = subprocess.run([program], input=data, capture_output=True)
        if (run.returncode, run.stdout, run.stderr) != (0, wanted.encode('ascii'), b''):
            sys.exit('display: %s: wrote %r for %r (status %d, errors %r)' % (
                name, run.stdout, wanted.encode('ascii'), run.returncode, run.stderr))
        count += 1
    return count


def main():
    if len(sys.argv) != 3:
        sys.exit(__doc__)
    sheets = compare(sys.argv[1], (*scope(), *lean(), *blends(), *published(), *limits()), ref.rate)
    analyses = list(of_moles())
    moles = compare(sys.argv[2], analyses, rate_moles)
    # Neither takes the other's bytes.
    compare(sys.argv[1], [(name + ' as a sheet', data, 'REFUSED 1\n') for name, data, _ in analyses], ref.rate)
    compare(sys.argv[2], [('sheet %d in moles' % i, ref.layout(TABLE_A1, split), 'REFUSED 1\n')
                          for i, split in enumerate((None, ref.search(TABLE_A1).split))], rate_moles)
    print('display: %d sheets of up to %d bytes, %d mole analyses of up to %d, and longer ones, print their lines, '
          'byte for byte' % (sheets, LONGEST, moles, LONGEST_MOLES))


if __name__ == '__main__':
    main()
