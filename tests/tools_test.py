#!/usr/bin/env python3
"""Tests tools/sheet.py: the bytes it makes, the names and amounts that it takes, the way back to lines, and what it
says of each kind of input that it cannot read; lines in mole percent, as ./rate --moles takes them; and that
README.md's tables are those of the tools.

  python3 tests/tools_test.py
"""
import os
import random
import re
import subprocess
import sys
import tempfile

sys.dont_write_bytecode = True
HERE = os.path.dirname(os.path.abspath(__file__))
ROOT = os.path.dirname(HERE)
sys.path.insert(0, os.path.join(HERE, 'reference'))
sys.path.insert(0, os.path.join(ROOT, 'tools'))
sys.path.insert(0, os.path.join(ROOT, 'python'))
import independent as ref  # noqa: E402
from ranges import RANGES  # noqa: E402
from saugrinte import gas, lines as tool  # noqa: E402

TOOL = os.path.join(ROOT, 'tools', 'sheet.py')
TABLE_A1 = (0, 970797, 16658, 2417, 346, 245, 11, 73, 125, 0, 84, 528, 8715, 0, 0, 0)
FOUND = ref.search(TABLE_A1).split
BIOMETHANE = (0, 970000, 300, 0, 0, 0, 0, 0, 0, 0, 0, 22000, 7700, 0, 0, 0)
BIOMETHANE_FOUND = ref.search(BIOMETHANE).split
EXAMPLE_3 = (0, 859910, 50360, 12000, 1909, 1727, 0, 364, 455, 0, 545, 13270, 9460, 0, 0, 50000)
EXAMPLE_3_FOUND = ref.search(EXAMPLE_3).split
NAMES = {1: 'methane', 2: 'ethane', 3: 'propane', 14: 'butane', 15: 'hydrogen'}


def split_lines(records):
    return ''.join('split %d %s %d.%04d\n' % (s, NAMES[c], a // 10000, a % 10000) for s, c, a in records)


def lines(path):
    with open(path, encoding='utf-8') as example:
        return example.read()


SPLIT = split_lines(FOUND)
EXAMPLE = os.path.join(ROOT, 'examples', 'table-a1.txt')
LINES = lines(EXAMPLE)
LEAN_LINES = lines(os.path.join(ROOT, 'examples', 'biomethane.txt'))
BLEND_LINES = lines(os.path.join(ROOT, 'examples', 'hydrogen.txt'))
COUNT = 'a split has three records for each of two to seven systems, and %d are given'

BY_VOLUME = 'amounts are percent by volume here; --moles is for lines in mole percent'

# Every component, from the last to the first, with 21 records: 188 bytes.
FULL = ('hydrogen', 'nitrogen', 'carbon-dioxide', 'hexanes+', 'n-pentane', 'i-pentane', 'neo-pentane', 'n-butane',
        'i-butane', 'propane', 'ethane', 'methane')
FULL_LINES = ''.join('%s 0.0010\n' % name for name in FULL)
FULL_SHEET = bytes([12]) + b''.join(bytes([c, 0, 0, 0, 10]) for c in (*range(1, 9), 10, 11, 12, 15)) \
    + bytes([21]) + bytes.fromhex('080f00002710') * 21

# (what it is, text, status, a part of the message)
WRONG = (
    ('an unknown component', 'methane 97.0797\nmethan 1\n', "line 2: 'methan' is none of methane, ethane,"),
    ('butane outside a split', 'butane 1\n',
     "line 1: 'butane' could be i-butane or n-butane: name each, as iC4 and nC4\n"),
    ('pentanes', 'C5 1\n',
     "line 1: 'C5' could be neo-pentane, i-pentane or n-pentane: name each, as neoC5, iC5 and nC5\n"),
    ('hexane', 'C6 1\n', "line 1: 'C6' could be hexane alone or all from hexane on: all of it together is C6+\n"),
    ('no amount', 'methane\n', 'line 1: a line is a component and its amount'),
    ('a sign alone', 'methane %\n', 'line 1: a line is a component and its amount'),
    ('two amounts', 'methane 97.0797 0.5\n', 'line 1: a line is a component and its amount'),
    ('carbon monoxide, its amount and another', 'CO 2 0.1\n', 'line 1: a line is a component and its amount'),
    ('a thousand in two words', 'methane 1 000\n', 'line 1: a line is a component and its amount'),
    ('two percent signs', 'methane 97 % %\n', 'line 1: a line is a component and its amount'),
    *(('moles', 'methane 97.0797%s\n' % unit, 'line 1: %s\n' % BY_VOLUME)
      for unit in (' mol%', ' % mol', ' mol', ' mol %', ' %mol', ' Mol-%', ' moles')),
    ('moles in a split', 'split 4 methane 31 mol\n', 'line 1: %s\n' % BY_VOLUME),
    ('parts in a million', 'methane 970797 ppm\n', 'line 1: a line is a component and its amount'),
    ('a retired code', '9 1\n', "line 1: '9' is none of methane, ethane,"),
    ('a code', '1 97\n', "line 1: '1' is none of methane, ethane,"),
    ('carbon monoxide', 'CO 2\n', "line 1: 'CO' is none of methane, ethane,"),
    ('ethylene', 'C2= 2\n', "line 1: 'C2=' is none of methane, ethane,"),
    ('one quote', '"methane 97\n', "line 1: '\"methane' is none of methane, ethane,"),
    ('no name', '"" 97\n', "line 1: '' is none of methane, ethane,"),
    ('words for an amount', 'methane much\n', "line 1: 'much' is not an amount such as 97.0797"),
    ('a comma for thousands', 'methane 1,234.5\n',
     "line 1: '1,234.5' is not an amount such as 97.0797: it has a comma and a point\n"),
    ('a point for thousands', 'methane 1.234,5\n', "line 1: '1.234,5' is not an amount such as 97.0797: it has"),
    ('two commas', 'methane 1,234,567\n', "line 1: '1,234,567' is not an amount such as 97.0797\n"),
    ('a comma and no decimals', 'methane 97,\n', "line 1: '97,' is not an amount"),
    ('a percent sign within', 'methane 9%7\n', "line 1: '9%7' is not an amount"),
    ('five decimals after a comma', 'methane 97,07971%\n', "line 1: '97,07971' has more than four decimals"),
    ('a sign', 'methane -1\n', "line 1: '-1' is not an amount"),
    ('an exponent', 'methane 1e2\n', "line 1: '1e2' is not an amount"),
    ('a point and no decimals', 'methane 97.\n', "line 1: '97.' is not an amount"),
    ('no whole', 'methane .5\n', "line 1: '.5' is not an amount"),
    ('digits of another script', 'methane \u0669\n', "line 1: '\u0669' is not an amount"),
    ('five decimals', 'methane 97.07971\n', "line 1: '97.07971' has more than four decimals"),
    ('a million figures', 'methane ' + '1' * 1000000 + '\n', "line 1: '%s...' does not fit the" % ('1' * 40)),
    ('a million letters', 'x' * 1000000 + ' 1\n', "line 1: '%s...' is none of" % ('x' * 40)),
    ('a million figures of a system', 'split ' + '1' * 1000000 + ' methane 1\n', "line 1: '%s...' is no" % ('1' * 40)),
    ('too many lines', '# %070d\n' % 0 * 15000, 'the lines have more than 1048576 bytes\n'),
    ('a byte 0', 'methane 97\nethane\0 1\n', 'line 2 has byte 00, which is no text\n'),
    ('a sheet', '\x01\x01\0\x0e\x4d\x10\0', 'this is a sheet already; --lines turns it into lines\n'),
    ('too large', 'methane 429496.7296\n', "line 1: '429496.7296' does not fit the sheet's four bytes"),
    ('twice', 'methane 97\n\nmethane 1\n', 'line 3: methane is listed twice'),
    *(('%d records' % n, 'split 8 butane 1\n' * n, COUNT % n) for n in (1, 3, 5, 7, 8, 10, 14, 16, 20, 22, 24, 255)),
    ('eight of nine records', SPLIT.split('\n', 1)[1], COUNT % 8),
    ('ten records and components', LINES + SPLIT + 'split 8 butane 1\n', COUNT % 10),
    ('hydrogen twice', 'hydrogen 5\nmethane 95\nhydrogen 5\n', 'line 3: hydrogen is listed twice'),
    ('twice under two names', 'methane 97\nC1 1\n', 'line 2: methane is listed twice'),
    ('a short split line', 'split 4 methane\n', 'line 1: a split line is: split SYSTEM COMPONENT AMOUNT'),
    ('a system in words', 'split four methane 1\n', "line 1: 'four' is not a system's number"),
    ('a system above a byte', 'split 256 methane 1\n', "line 1: '256' is not a system's number"),
    ('a component that splits have not', 'split 4 n-butane 1\n',
     "line 1: 'n-butane' is none of methane, ethane, propane, butane, hydrogen"),
    ('butane of a split by its short name', 'split 4 C4 1\n', "line 1: 'C4' is none of methane, ethane, propane,"),
    ('a split line with two amounts', 'split 4 methane 1 2\n', 'line 1: a split line is: split SYSTEM'),
    ('a split amount', 'split 4 methane x\n', "line 1: 'x' is not an amount"),
)

RIGHT = (
    ('the gas of 001 Table A.1', LINES, ref.layout(TABLE_A1, None)),
    ('with its found split', LINES + SPLIT, ref.layout(TABLE_A1, FOUND)),
    ('lines in another order', '\n'.join(reversed(LINES.split('\n'))), ref.layout(TABLE_A1, None)),
    ('comments and blank lines', '# gas\n\n  methane 40 # percent\n\tethane\t0.01\n',
     bytes.fromhex('020100061a80020000006400')),
    ('a gas without propane and butanes', LEAN_LINES, ref.layout(BIOMETHANE, None)),
    ('with its found split of six records', LEAN_LINES + split_lines(BIOMETHANE_FOUND),
     ref.layout(BIOMETHANE, BIOMETHANE_FOUND)),
    ('six records for a gas of nine', LINES + split_lines(BIOMETHANE_FOUND), ref.layout(TABLE_A1, BIOMETHANE_FOUND)),
    ('a hydrogen blend', BLEND_LINES, ref.layout(EXAMPLE_3, None)),
    ('with its found split of fifteen records', BLEND_LINES + split_lines(EXAMPLE_3_FOUND),
     ref.layout(EXAMPLE_3, EXAMPLE_3_FOUND)),
    ('hydrogen first', 'hydrogen 5.0\nnitrogen 5\nmethane 90\n', bytes.fromhex('0301000dbba00c0000c3500f0000c35000')),
    *(('%d records' % n, 'split 8 hydrogen 1\n' * n, bytes([0, n]) + bytes.fromhex('080f00002710') * n)
      for n in (6, 9, 12, 15, 18, 21)),
    ('the longest sheet', FULL_LINES + 'split 8 hydrogen 1\n' * 21, FULL_SHEET),
    ('methane alone', 'methane 97\n', bytes.fromhex('0101000ecd1000')),
    ('no line at all', '', bytes(2)),
    ('the largest amount', 'methane 429496.7295\n', bytes.fromhex('0101ffffffff00')),
    ('an amount of 0', 'nitrogen 0\n', bytes.fromhex('010c0000000000')),
    ('more than all', 'nitrogen 1234,5678\n', bytes.fromhex('010c00bc614e00')),
    ('a split in another hand', 'SPLIT 08 Butanes 1,0 %\nsplit 008 H2 1%\n' + 'split 8 hydrogen 1\n' * 4,
     bytes.fromhex('0006080e00002710') + bytes.fromhex('080f00002710') * 5),
)

# The gas of 001 Table A.1 as an analyser may print it, and in other hands.
ANALYSER = """C1 97,0797 %
C2 1,6658 %
C3 0,2417 %
i-C4 0,0346 %
n-C4 0,0245 %
neo-C5 0,0011 %
i-C5 0,0073 %
n-C5 0,0125 %
C6+ 0,0084 %
CO2 0,0528 %
N2 0,8715 %
"""
TEXTS = (
    ('an analyser', ANALYSER.encode()),
    ('a byte-order mark', b'\xef\xbb\xbf' + LINES.encode()),
    ('line ends CR LF', LINES.replace('\n', '\r\n').encode()),
    ('line ends CR', LINES.replace('\n', '\r').encode()),
    ('both, and no last line end', b'\xef\xbb\xbf' + LINES.strip().replace('\n', '\r\n').encode()),
    ('UTF-16, low byte first', b'\xff\xfe' + ANALYSER.encode('utf-16-le')),
    ('UTF-16, high byte first', b'\xfe\xff' + ANALYSER.replace('\n', '\r\n').encode('utf-16-be')),
    ('a comment that is not UTF-8', b'# caf\xe9, \x85\n' + LINES.encode()),
    ('a comment with a line separator', '# one \u2028 methane 1 \x85 methane 1\n'.encode() + LINES.encode()),
    ('blanks that do not break', LINES.replace(' ', '\u00a0').encode()),
)

# Every name, and what it means; each is taken in any case.
NAMES_TAKEN = {
    1: ('methane', 'C1', 'CH4'),
    2: ('ethane', 'C2', 'C2H6'),
    3: ('propane', 'C3', 'C3H8'),
    4: ('i-butane', 'iC4', 'i-C4', 'isobutane', 'iso-butane', 'iso butane', '"i butane"', 'isoC4', 'iC4H10', 'i-C4H10',
        '2-methylpropane'),
    5: ('n-butane', 'nC4', 'n-C4', 'n butane', 'nC4H10', 'n-C4H10'),
    6: ('neo-pentane', 'neopentane', 'neo pentane', 'neoC5', 'neo-C5', 'neo-C5H12', '2,2-dimethylpropane'),
    7: ('i-pentane', 'iC5', 'i-C5', 'isopentane', 'iso-pentane', 'isoC5', 'iC5H12', '2-methylbutane'),
    8: ('n-pentane', 'nC5', 'n-C5', 'nC5H12'),
    10: ('hexanes+', 'C6+', 'C6 +', 'nC6+', 'hexane+', 'n-hexane+', 'hexane plus', 'hexanes plus', 'C6 plus', 'C6-plus',
         'n-hexane and higher', 'hexane and higher', '"hexanes and higher"', 'C6 and higher'),
    11: ('carbon-dioxide', 'carbon dioxide', '"carbon dioxide"', "'carbon dioxide'", 'carbondioxide', 'carbon_dioxide',
         'CO2', 'CO\u2082'),
    12: ('nitrogen', 'N2', 'N\u2082'),
    15: ('hydrogen', 'H2', 'H\u2082'),
}
NAMES_OF_TWO = ('butane', 'butanes', 'C4', 'C4H10', 'pentane', 'pentanes', 'C5', 'C5H12', 'hexane', 'hexanes',
                'n-hexane', 'C6', 'nC6', 'C6H14', 'C5+', 'C5 plus', 'pentanes+', 'pentanes plus')
NO_NAMES = ('CO', 'O2', 'H2S', 'H2O', 'He', 'Ar', 'ethylene', 'C2H4', 'C2=', 'C3=', 'propylene', 'C7', 'C7+', 'C', 'N',
            'H', 'i', 'iC3', 'nC1', 'C0', 'meth ane 1', 'methane+', 'split', *map(str, range(300)))
AMOUNTS = (('97', 970000), ('97.0', 970000), ('97.0797', 970797), ('97,0797', 970797), ('97.0797%', 970797),
           ('97,0797 %', 970797), ('97,079', 970790), ('1,2345', 12345), ('1,234', 12340), ('0,0001', 1), ('0', 0),
           ('000097.5', 975000), ('429496,7295 %', 4294967295))

# What may stand after an amount in mole percent, and lines in mole percent that are turned away.
MOLE_UNITS = ('', '%', ' %', ' mol', 'mol', ' mol%', ' mol %', 'mol%', 'mol %', ' %mol', ' % mol', '%mol', '% mol',
              ' mole', ' mole%', ' mole %', ' % mole', ' MOL%', ' Mol %')
WRONG_MOLES = (
    *(('two units', 'C1 97%s\n' % units, 'a line is a component and its amount, as: methane 97.0797')
      for units in (' mol mol', ' % %', ' mol % %', ' % mol %', ' mol % mol', ' moles', ' ppm', ' mol/mol')),
    ('no amount', 'C1 mol %\n', 'a line is a component and its amount, as: methane 97.0797'),
    *(('volumes', 'C1 97%s\n' % unit,
       'amounts are mole percent here; lines in percent by volume are rated without --moles')
      for unit in (' vol', ' vol%', ' % vol', ' %vol', ' Vol-%')),
    *(('moles in a split', 'split 4 methane 31%s\n' % unit,
       "a split's amounts are percent of the simplified mixture, by volume") for unit in (' mol', ' mol%', ' % mol')),
    ('a name of two', 'C4 1 mol\n', "'C4' could be i-butane or n-butane: name each, as iC4 and nC4"),
    ('twice', 'C1 97 mol # methane 97\n', None),
    ('a fraction', 'C1 0.970640\n', "'0.970640' has more than four decimals; a part is 0.0001 %"),
)
MOLES = (0, 970640, 16758, 2453, 356, 253, 11, 76, 132, 0, 91, 530, 8700, 0, 0, 0)

# (what it is, sheet, a part of the message)
NO_LINES = (
    ('no bytes', b'', 'the sheet is torn: it has no bytes\n'),
    ('thirteen components', bytes([13, 1]), 'the sheet is torn: it counts 13 components, and 12 are the most\n'),
    ('no split count', bytes.fromhex('010100000001'),
     'the sheet is torn: it counts 1 component, and at least 1 byte is missing\n'),
    ('a byte less', FULL_SHEET[:-1],
     'the sheet is torn: 12 components and 21 split records make 188 bytes, and 1 byte is missing\n'),
    ('a byte more', FULL_SHEET + b'\0',
     'the sheet is torn: 12 components and 21 split records make 188 bytes, and at least 1 byte is left over\n'),
    ('three records', bytes([0, 3]) + bytes(18), 'the sheet is torn: it counts 3 split records, and only 0 or'),
    ('lines', LINES.encode(),
     'the sheet is torn: it counts 35 components, and 12 are the most (these are lines already)\n'),
    ('code 0', bytes([1, 0]) + bytes(5), 'record 1 has code 0, unknown\n'),
    ('code 9', bytes.fromhex('020100000001090000000100'), 'record 2 has code 9, retired\n'),
    ('code 13', bytes([1, 13]) + bytes(5), 'record 1 has code 13, retired\n'),
    ('code 14', bytes([1, 14]) + bytes(5), 'record 1 has code 14, unknown here: butanes stand in splits only\n'),
    ('code 16', bytes([1, 16]) + bytes(5), 'record 1 has code 16, unknown\n'),
    ('a code again', bytes.fromhex('020100000001010000000100'),
     'record 2 has code 1 (methane), out of order after code 1 (methane)\n'),
    ('a code of splits that is none', bytes([0, 6]) + bytes([4, 1, 0, 0, 0, 0]) + bytes([4, 5, 0, 0, 0, 0]) * 5,
     'split record 2 has code 5, which splits do not have\n'),
)

failures = 0


def run(text, *arguments):
    data = text if isinstance(text, bytes) else text.encode()
    got = subprocess.run([sys.executable, '-S', TOOL, *arguments], input=data, capture_output=True)
    return got.returncode, got.stdout, got.stderr.decode()


def expect(what, good, shown):
    global failures
    if not good:
        failures += 1
        print('tools: %s: %s' % (what, shown))


def sheet_of(text):
    """The sheet of lines, or what is wrong with them."""
    try:
        return tool.of_lines(text if isinstance(text, bytes) else text.encode())
    except ValueError as wrong:
        return str(wrong)


def one(code, amount):
    return bytes([1, code]) + amount.to_bytes(4, 'big') + b'\0'


def names():
    """Every name in every case means its code; one that could mean two things, or none, is turned away."""
    count = 0
    for code, taken in NAMES_TAKEN.items():
        for name in taken:
            for form in (name, name.upper(), name.lower(), name.title()):
                count += 1
                expect(form, sheet_of(form + ' 0.05\n') == one(code, 500), sheet_of(form + ' 0.05\n'))
    taken = {gas.key(name.strip('"\'')) for taken in NAMES_TAKEN.values() for name in taken}
    for name in NAMES_OF_TWO:
        for form in (name, name.upper(), name.lower()):
            said = sheet_of(form + ' 0.05\n')
            good = isinstance(said, str) and said.startswith("line 1: '%s' could be " % form)
            advised = re.findall(r'\b(?:neoC5|[in]C[45]\b|C6\+)', said) if good else ()
            expect(form, good and advised and all(gas.key(a) in taken for a in advised), said)
    for name in NO_NAMES:
        said = sheet_of(name + ' 0.05\n')
        expect('%s as a name' % name, isinstance(said, str) and said.startswith('line 1: '), said)
    expect('all names', set(gas.CODES) == taken, set(gas.CODES) ^ taken)
    expect('all names of two', set(gas.MEANINGS) == set(map(gas.key, NAMES_OF_TWO)), gas.MEANINGS.keys())
    for text, amount in AMOUNTS:
        expect(text, sheet_of('C1 %s\n' % text) == one(1, amount), sheet_of('C1 %s\n' % text))
    for what, text in TEXTS:
        expect(what, sheet_of(text) == ref.layout(TABLE_A1, None), sheet_of(text))
    return count


def mole_bytes(moles, split=()):
    """What the program of mole analyses reads."""
    return b''.join(a.to_bytes(4, 'big') for a in moles) + bytes([len(split)]) \
        + b''.join(bytes([s, c]) + a.to_bytes(4, 'big') for s, c, a in split)


def moles_of(text):
    """What is read of lines in mole percent, or what is wrong with them."""
    try:
        return tool.of_mole_lines(text if isinstance(text, bytes) else text.encode())
    except ValueError as wrong:
        return str(wrong)


def in_moles():
    """Lines in mole percent: the bytes made, the units taken and turned away; no sheet is made of them."""
    text = lines(os.path.join(ROOT, 'examples', 'moles.txt'))
    for what, given, moles, split in (
            ('the gas of 001 Table A.1', text, MOLES, ()), ('with a split', text + SPLIT, MOLES, FOUND),
            ('lines in another order', '\n'.join(reversed(text.split('\n'))), MOLES, ()),
            ('amounts of 0', text + 'hydrogen 0 mol %\n', MOLES, ()),
            ('hydrogen', 'hydrogen 5\nC1 429496,7295 mol\n', (0, 4294967295, *[0] * 13, 50000), ()),
            ('six records', '# none\n' + split_lines(BIOMETHANE_FOUND), (0,) * 16, BIOMETHANE_FOUND),
            ('the longest', '#' + text + 'split 8 hydrogen 1\n' * 21, MOLES, [(8, 15, 10000)] * 21)):
        wanted = (mole_bytes(moles, split), ref.layout(moles, split))
        expect('moles: ' + what, moles_of(given) == wanted, moles_of(given))
    expect('191 bytes', len(moles_of('C1 1\n' + 'split 8 hydrogen 1\n' * 21)[0]) == 191, '')
    for unit in MOLE_UNITS:
        for form in ('C1 97.064', 'Methane 97,0640', '"methane" 97.0640'):
            got = moles_of(form + unit + '\n')
            expect(form + unit, got == (mole_bytes((0, 970640, *[0] * 14)), one(1, 970640)), got)
    for what, given, message in WRONG_MOLES:
        got = moles_of('# 1\n' + given + given)
        expect('moles: %s' % what, got == ('line 2: ' + message if message else 'line 3: methane is listed twice'), got)
    away = '--moles takes lines in mole percent, and '
    for what, given, message in (
            ('no bytes', b'', 'there are none'),
            ('a byte 0', b'methane 97\n\0', 'line 2 has byte 00, which is no text'),
            ('a sheet', ref.layout(TABLE_A1, FOUND), 'this is a sheet, which has volumes: rate it without --moles'),
            ('its own bytes', mole_bytes(MOLES), 'line 1 has byte 00, which is no text')):
        expect('moles: ' + what, moles_of(given) == away + message, moles_of(given))
    said = 'sheet: mole amounts for the program rate_moles, which makes volumes from them; this is no sheet\n'
    for arguments in (('--moles',), ('--moles', '-'), ('--moles', '--', '-')):
        got = run(text, *arguments)
        expect(arguments, got == (0, mole_bytes(MOLES), said), got)
    got = run('hydrogen 1 mol %\nmethane 99 vol\n', '--moles')
    expect('a wrong line in moles', got[:2] == (1, b'') and got[2].startswith('sheet: line 2: amounts are mole percent'),
           got)
    for arguments in (('--lines', '--moles'), ('--moles', '--lines'), ('--moles', '--moles')):
        got = run(text, *arguments)
        expect(arguments, got[:2] == (2, b'') and got[2].startswith('sheet: %s and another way at once;' % arguments[1]),
               got)
    return len(MOLE_UNITS)


def there_and_back():
    """Lines of sheets make these sheets again, and lines of lines the same lines."""
    draw = random.Random(1)
    gases = [bytes(2), FULL_SHEET]
    for analysis in (TABLE_A1, BIOMETHANE, EXAMPLE_3):
        gases += [ref.layout(analysis, None), ref.layout(analysis, ref.search(analysis).split)]
    for _ in range(2000):
        codes = sorted(draw.sample(sorted(ref.RANGE), draw.randint(0, 12)))
        split = [(draw.randrange(256), draw.choice(ref.SPLIT_CODE), amount(draw))
                 for _ in range(draw.choice(ref.SPLIT_COUNTS))]
        gases.append(bytes([len(codes)]) + b''.join(bytes([c]) + amount(draw).to_bytes(4, 'big') for c in codes)
                     + bytes([len(split)]) + b''.join(bytes([s, c]) + a.to_bytes(4, 'big') for s, c, a in split))
    for bytes_of in gases:
        text = tool.lines(bytes_of)
        expect('there and back', sheet_of(text) == bytes_of and gas.is_text(text) == (len(text) > 0), bytes_of.hex())
        expect('lines of lines', tool.lines(sheet_of(text)) == text, text)
    return len(gases)


def amount(draw):
    return draw.choice((0, 1, 9999, 10000, 4294967295, draw.randrange(1 << 32), draw.randrange(1000001)))


def no_traceback():
    """Whatever bytes are given, each way ends with its output or with a message."""
    draw = random.Random(2)
    words = [b'methane', b'C1', b'hexanes+', b'split', b'4', b'97,0797', b'%', b'mol', b'#', b'"', b"'", b'.', b',',
             b' ', b'\0', b'\x01', b'\t', b'\n', b'\r', b'\xff', b'\xef\xbb\xbf', b'\xff\xfe', b'\xe2\x82\x82']
    count = 0
    for _ in range(5000):
        data = b' '.join(draw.choices(words, k=draw.randint(0, 12))) if draw.random() < 0.7 \
            else bytes(draw.choices(range(draw.choice((16, 256))), k=draw.randint(0, 40)))
        for act in (tool.of_lines, tool.lines, lambda data: b''.join(tool.of_mole_lines(data))):
            count += 1
            try:
                expect('an answer', isinstance(act(data), bytes), data)
            except ValueError as wrong:
                expect('a message', str(wrong) and len(str(wrong)) < 400 and '\n' not in str(wrong), data)
    return count


def tables():
    """README.md's tables of components and of refusals, and the reference's ranges, are those of the tools."""
    readme = lines(os.path.join(ROOT, 'README.md'))
    for c in gas.COMPONENTS:
        row = '| `%s` | `%s` | %d | %s | %s |' % (
            c.name, c.short, c.code, *map(gas.percent, RANGES.amounts[c.code]))
        expect('README.md has ' + row, readme.count(row + '\n') == 1, '')
    expect('rows', len(re.findall(r'(?m)^\| `[^`]+` \| `[^`]+` \| [0-9]+ \|', readme)) == len(gas.COMPONENTS), '')
    expect('ranges', RANGES.amounts == ref.RANGE and set(RANGES.amounts) == set(gas.BY_CODE), RANGES)
    words = dict(re.findall(r'(?m)^\| ([0-9]+) \| ([a-z ]+) \| .* \|$', readme))
    expect('words', words == {str(n): word for n, (word, _) in gas.REFUSALS.items()}, words)
    expect('the rest', (gas.RETIRED, gas.SPLITS_ONLY, (gas.REQUIRED,), gas.MOST_COMPONENTS, gas.SPLIT_COUNTS,
                        gas.LONGEST, RANGES.total, gas.SPREAD_LIMIT, tuple(gas.SPLIT_NAMES))
           == (ref.RETIRED, ref.SPLITS_ONLY, ref.REQUIRED, ref.MOST_COMPONENTS, ref.SPLIT_COUNTS, ref.LONGEST,
               (ref.LEAST_TOTAL, ref.GREATEST_TOTAL), ref.SPREAD_LIMIT, ref.SPLIT_CODE), '')


def shell(command, place):
    got = subprocess.run(['bash', '-c', command, 'bash', sys.executable, TOOL, EXAMPLE], cwd=place,
                         stdin=subprocess.DEVNULL, capture_output=True)
    return got.returncode, got.stdout, got.stderr.decode()


def commands(place):
    """Options, file names, and input or output that is not there."""
    table = ref.layout(TABLE_A1, None)
    for option in ('--help', '-h'):
        status, out, said = run('', option)
        expect(option, status == 0 and b'python3 tools/sheet.py --lines' in out and said == ''
               and all(c.name.encode() in out for c in gas.COMPONENTS), (status, out, said))
    for what, arguments in (('two files', ('a', 'b')), ('an option that is none', ('--sheet',)),
                            ('-x', ('-x', EXAMPLE)), ('two files after --', ('--', '-', '--lines'))):
        status, out, said = run('', *arguments)
        expect(what, (status, out, said.count('\n')) == (2, b'', 1) and said.startswith('sheet: '), (status, out, said))
    for arguments in ((), ('-',), ('--', '-'), ('--',)):
        expect(arguments, run(LINES, *arguments) == (0, table, ''), run(LINES, *arguments))
        got = run(table, '--lines', *arguments)
        expect(arguments, got[0] == 0 and sheet_of(got[1]) == table and got[2] == '', got)
    for name in ('-dash', '--lines', 'a blank', 'caf\u00e9'):
        with open(os.path.join(place, name), 'w', encoding='utf-8') as f:
            f.write(LINES)
        got = subprocess.run([sys.executable, TOOL, '--', name], cwd=place, capture_output=True)
        expect(name, (got.returncode, got.stdout, got.stderr) == (0, table, b''), got)
    for what, wanted, command in (
            ('a directory', 1, '"$1" "$2" .'), ('a directory, to lines', 1, '"$1" "$2" --lines .'),
            ('no input', 1, '"$1" "$2" <&-'),
            ('no name', 1, '"$1" "$2" ""'), ('a name that is too long', 1, '"$1" "$2" "$(printf %05000d 0)"'),
            ('a full output', 1, '"$1" "$2" "$3" >/dev/full'), ('no output', 1, '"$1" "$2" "$3" >&-'),
            ('help to a full output', 1, '"$1" "$2" --help >/dev/full'), ('zeros', 1, '"$1" "$2" /dev/zero'),
            ('zeros, to lines', 1, '"$1" "$2" --lines /dev/zero')):
        got = shell(command, place)
        expect(what, turned_away(*got) and got[0] == wanted and got[2].count('\n') == 1, got)
    for what, command in (('a shut pipe', '{ sleep 0.2; "$1" "$2" "$3"; echo $? >status; } | true; cat status'),
                          ('help to one', '{ sleep 0.2; "$1" "$2" --help; echo $? >status; } | true; cat status'),
                          ('no output, nowhere to say so', '"$1" "$2" "$3" >&- 2>&-; echo $?')):
        got = shell(command, place)
        expect(what, got == (0, b'1\n', ''), got)


def turned_away(status, out, said):
    return status == 1 and out == b'' and said.startswith('sheet: ') and 'Traceback' not in said


def main():
    expect('six records', len(BIOMETHANE_FOUND) == 6, BIOMETHANE_FOUND)
    expect('fifteen records', len(EXAMPLE_3_FOUND) == 15, EXAMPLE_3_FOUND)
    expect('188 bytes', len(FULL_SHEET) == 188, FULL_SHEET)
    for what, text, sheet in RIGHT:
        got = run(text)
        expect(what, got == (0, sheet, ''), got)
    got = run('', EXAMPLE)
    expect('a named file', got == (0, ref.layout(TABLE_A1, None), ''), got)
    for what, text, message in WRONG:
        status, out, said = run(text)
        expect(what, status == 1 and out == b'' and said.startswith('sheet: ' + message) and said.count('\n') == 1,
               (status, out, said))
    for what, data, message in NO_LINES:
        got = run(data, '--lines')
        expect(what, turned_away(*got) and got[2].startswith('sheet: ' + message) and got[2].count('\n') == 1, got)
    named, units, turned, tried = names(), in_moles(), there_and_back(), no_traceback()
    tables()
    with tempfile.TemporaryDirectory() as place:
        commands(place)
        status, out, said = run('', os.path.join(place, 'none'))
        expect('a file that is not there', turned_away(status, out, said), (status, out, said))
        with open(os.path.join(place, 'bytes'), 'wb') as f:
            f.write(b'methane 97\xff\n')
        status, out, said = run('', f.name)
        expect('bytes that are no text', turned_away(status, out, said), (status, out, said))
    if failures:
        sys.exit('tools: %d failed' % failures)
    print('tools: sheet.py makes %d sheets right, takes %d forms of names and %d units of moles, turns %d sheets into '
          'lines and back, turns %d inputs away with a clear message and ends well on %d more'
          % (len(RIGHT) + len(TEXTS) + 1, named, units, turned,
             len(WRONG) + len(WRONG_MOLES) + len(NO_LINES) + 2, tried))


if __name__ == '__main__':
    main()
