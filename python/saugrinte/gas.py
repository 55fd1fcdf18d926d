"""Names and units: the components as people write them, the refusals' words, how a sheet's bytes lie. Nothing here
decides an answer: the proved library does, and it has the ranges.

A part is 0.0001 % by volume, or in a mole analysis 0.0001 mole percent.
"""
from __future__ import annotations

import re
from collections import namedtuple

# The name and the short name are those of README.md's table; `others` are taken too.
Component = namedtuple('Component', 'code name short others')
COMPONENTS = tuple(Component(*row) for row in (
    (1, 'methane', 'C1', ('CH4',)),
    (2, 'ethane', 'C2', ('C2H6',)),
    (3, 'propane', 'C3', ('C3H8',)),
    (4, 'i-butane', 'iC4', ('isobutane', 'isoC4', 'iC4H10', '2-methylpropane')),
    (5, 'n-butane', 'nC4', ('nC4H10',)),
    (6, 'neo-pentane', 'neoC5', ('neoC5H12', '2,2-dimethylpropane')),
    (7, 'i-pentane', 'iC5', ('isopentane', 'isoC5', 'iC5H12', '2-methylbutane')),
    (8, 'n-pentane', 'nC5', ('nC5H12',)),
    (10, 'hexanes+', 'C6+', ('hexane+', 'n-hexane+', 'nC6+', 'hexane plus', 'hexanes plus', 'C6 plus',
                             'hexane and higher', 'n-hexane and higher', 'hexanes and higher', 'C6 and higher')),
    (11, 'carbon-dioxide', 'CO2', ()),
    (12, 'nitrogen', 'N2', ()),
    (15, 'hydrogen', 'H2', ()),
))
BY_CODE = {c.code: c for c in COMPONENTS}
RETIRED = (9, 13)
SPLITS_ONLY = 14
REQUIRED = 1
HYDROGEN = 15

# What stands after an amount in words: by volume, in moles.
PERCENT, MOLE_PERCENT = '%', 'mol %'
# A unit of moles at the end of a line, and a word that begins one; the same of volumes.
MOLES = re.compile('(?i) ?(?:mole? ?%|% ?mole?|mole?)$')
A_MOLE, A_VOLUME = re.compile('(?i)%?mol'), re.compile('(?i)%?vol')

# The components of a split.
SPLIT_NAMES = {1: 'methane', 2: 'ethane', 3: 'propane', SPLITS_ONLY: 'butane', 15: 'hydrogen'}

MOST_COMPONENTS = 12
SPLIT_COUNTS = (0, 6, 9, 12, 15, 18, 21)
PLACES = 16             # amounts of a mole analysis, by code from 0
LONGEST = 188
GREATEST_AMOUNT = 4294967295
SPREAD_LIMIT = 500000   # units (0.05), how far apart partial numbers may lie: drawn and quoted, it decides no rating

# Names that could mean more than one thing, with the names to use.
AMBIGUOUS = (
    (('butane', 'butanes', 'C4', 'C4H10'), 'i-butane or n-butane: name each, as iC4 and nC4'),
    (('pentane', 'pentanes', 'C5', 'C5H12'),
     'neo-pentane, i-pentane or n-pentane: name each, as neoC5, iC5 and nC5'),
    (('hexane', 'hexanes', 'n-hexane', 'C6', 'nC6', 'C6H14'),
     'hexane alone or all from hexane on: all of it together is C6+'),
    (('C5+', 'pentanes+', 'pentanes plus', 'C5 plus'),
     'any pentane and more: name each, as neoC5, iC5 and nC5, and all from hexane on as C6+'),
)

# A refusal's word, and when it is given.
REFUSALS = {
    1: ('torn', 'a count is not allowed, bytes are missing or bytes are left over'),
    2: ('unknown', 'a component has code 0, 14, 16 or above'),
    3: ('retired', 'a component has code 9 or 13'),
    4: ('out of order', 'a code is not above the one before'),
    5: ('out of range', 'an amount is outside its range, or methane is absent'),
    6: ('total', 'the amounts add up to less than 99.99 % or more than 100.01 %'),
    7: ('misfit', 'the split has not three records for each system chosen, or other systems or codes than expected'),
    8: ('unsummed', "a component's amounts in the split do not add up to the simplified mixture"),
    9: ('empty system', 'a system of the split has no parts'),
    10: ('wide', "the spread of the split's partial numbers is above 0.05"),
    11: ('unbalanced', 'the search found no split whose partial numbers have a spread of 0.05 or less'),
    12: ('no mixture', 'the amounts add up to 0 or to more than 100 %'),
    13: ('no system', 'a system is not in the table'),
    14: ('short blank', "the writer's buffer is too short"),
    15: ('mole total', 'the mole amounts add up to less than 99.99 mol % or more than 100.01 mol %'),
    16: ('too few', 'methane stands alone; ethane, propane, butanes, pentanes, hexanes+ or hydrogen must be there too'),
    17: ('share', "a share is outside the system's range"),
    18: ('hydrogen in moles', 'a mole analysis has hydrogen'),
}

# What is said of an answer to volumes that were made from moles, and the refusals that are such answers.
MADE = ' (volumes made from moles)'
OF_MADE = (7, 8, 9, 10, 11, 13, 16)
# Sentences that are others for a mole analysis.
OF_MOLES = {16: 'methane stands alone; ethane, propane, butanes, pentanes or hexanes+ must be there too'}


def key(name: str) -> str:
    """A name without case, blanks, hyphens and underscores; lowered figures (as in a formula) as plain ones."""
    lowered = {0x2080 + n: str(n) for n in range(10)}
    return re.sub('[\\s_\u2010-\u2013-]', '', name.translate(lowered).lower())


CODES = {key(name): c.code for c in COMPONENTS for name in (c.name, c.short, *c.others)}
SPLIT_CODES = {key(name): code for code, split_name in SPLIT_NAMES.items()
               for name in ((split_name, 'butanes') if code == SPLITS_ONLY
                            else (split_name, BY_CODE[code].short, *BY_CODE[code].others))}
MEANINGS = {key(name): meaning for names, meaning in AMBIGUOUS for name in names}

# Gases that the method leaves out here: a row that has one is not rated.
OUTSIDE = {
    'carbon-monoxide': ('CO', 'carbon monoxide'), 'ethylene': ('ethene', 'C2H4'), 'propylene': ('propene', 'C3H6'),
    'butylene': ('butene', 'C4H8'), 'butadiene': ('C4H6',), 'acetylene': ('ethyne', 'C2H2'),
    'hydrogen-sulphide': ('H2S', 'hydrogen sulfide'), 'oxygen': ('O2',), 'helium': ('He',), 'argon': ('Ar',),
    'water': ('H2O', 'moisture'), 'ammonia': ('NH3',), 'benzene': ('C6H6',), 'toluene': ('C7H8',),
    'heptane': ('heptanes', 'n-heptane', 'C7', 'nC7', 'C7H16', 'C7+', 'heptanes+'),
    'octane': ('octanes', 'n-octane', 'C8', 'nC8', 'C8H18', 'C8+', 'octanes+'),
    'nonane': ('nonanes', 'n-nonane', 'C9', 'nC9', 'C9H20', 'C9+', 'nonanes+'),
    'decane': ('decanes', 'n-decane', 'C10', 'nC10', 'C10+', 'decanes+'),
}
OUTSIDE_NAMES = {key(name): known for known, names in OUTSIDE.items() for name in (known, *names)}


def percent(parts: int) -> str:
    """An amount in percent, without zeros at the end."""
    return ('%d.%04d' % divmod(parts, 10000)).rstrip('0').rstrip('.')


NO_TEXT = re.compile(rb'[^\t\n\r\x20-\x7e\x80-\xff]')
UTF_16 = (b'\xff\xfe', b'\xfe\xff')


def is_text(data: bytes) -> bool:
    """Whether a file is lines: it has bytes, and no control characters but tab, line feed and carriage return; or it
    begins with the byte-order mark of UTF-16. A sheet that passes refusals 1 to 4 is no such text: its first byte is 0
    to 12, of which 9 and 10 alone are text, and of nine rising codes the first is 4 at most, which is not."""
    return data.startswith(UTF_16) or bool(data) and not NO_TEXT.search(data)


def no_text(data: bytes) -> str:
    """Where a file that is not lines has its first byte that is no text."""
    other = NO_TEXT.search(data)
    assert other is not None
    return 'line %d has byte %02X, which is no text' % (data.count(b'\n', 0, other.start()) + 1, other.group()[0])


def counted(number: int, thing: str) -> str:
    return '%d %s%s' % (number, thing, '' if number == 1 else 's')


def torn(sheet: bytes) -> str | None:
    """What tears a sheet, or None."""
    if not sheet:
        return 'it has no bytes'
    if sheet[0] > MOST_COMPONENTS:
        return 'it counts %d components, and %d are the most' % (sheet[0], MOST_COMPONENTS)
    second = 1 + 5 * sheet[0]
    if len(sheet) <= second:
        missing = second + 1 - len(sheet)
        return 'it counts %s, and at least %s missing' % (
            counted(sheet[0], 'component'), '1 byte is' if missing == 1 else '%d bytes are' % missing)
    if sheet[second] not in SPLIT_COUNTS:
        return 'it counts %s, and only 0 or a multiple of three from 6 to 21 may stand there' % (
            counted(sheet[second], 'split record'))
    whole = second + 1 + 6 * sheet[second]
    if len(sheet) == whole:
        return None
    differ = abs(len(sheet) - whole)
    return '%s and %s make %d bytes, and %s%s %s' % (
        counted(sheet[0], 'component'), counted(sheet[second], 'split record'), whole,
        'at least ' if len(sheet) > LONGEST else '', '1 byte is' if differ == 1 else '%d bytes are' % differ,
        'left over' if len(sheet) > whole else 'missing')


def listed(sheet: bytes) -> list[tuple[int, int]]:
    """The components [(code, parts)] of a sheet that is not torn."""
    return [(sheet[at], int.from_bytes(sheet[at + 1:at + 5], 'big')) for at in range(1, 1 + 5 * sheet[0], 5)]


def proposed(sheet: bytes) -> list[tuple[int, int, int]]:
    """The split's records [(system, code, parts)] of a sheet that is not torn."""
    return [(sheet[at], sheet[at + 1], int.from_bytes(sheet[at + 2:at + 6], 'big'))
            for at in range(2 + 5 * sheet[0], len(sheet), 6)]


def miscoded(sheet: bytes) -> tuple[int, str] | None:
    """(2, 3 or 4, what is wrong) with the first code at fault of a sheet that is not torn, or None. People count
    records from 1."""
    def named(code: int) -> str:
        return 'code %d (%s)' % (code, BY_CODE[code].name)

    before = 0
    for number, (code, _) in enumerate(listed(sheet), 1):
        if code in RETIRED:
            return 3, 'record %d has code %d, retired' % (number, code)
        if code == SPLITS_ONLY:
            return 2, 'record %d has code %d, unknown here: butanes stand in splits only' % (number, code)
        if code not in BY_CODE:
            return 2, 'record %d has code %d, unknown' % (number, code)
        if code <= before:
            return 4, 'record %d has %s, out of order after %s' % (number, named(code), named(before))
        before = code
    return None
