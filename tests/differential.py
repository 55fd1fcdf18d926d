#!/usr/bin/env python3
"""Compares drivers (tests/driver.c, linked with the library or the plain C program) with the reference, case by case.

  python3 tests/differential.py DRIVER..                  100000 sheets and what belongs to them
  python3 tests/differential.py DRIVER.. --long N SEED    N sheets of another seed
  ... --brief                                             the last line only
  ... --jobs N                                            processes at once; as many as processors if not said
  ... --wait                                              the drivers are being built meanwhile: cases wait for them

Seeded and repeatable, whatever the number of processes. Every answer and every buffer byte is compared, guards around
the buffers included; a found split is put back as a proposed one; the distance of ratings from the exact fraction
stays below 40 units. Ends with 1 at the first difference and prints that case; also where, of 100000 sheets or more,
a kind of case or a refusal's number occurred too seldom (LEAST).
"""
import argparse
import itertools
import multiprocessing
import os
import struct
import subprocess
import sys
import tempfile
import time

HERE = os.path.dirname(os.path.abspath(__file__))
sys.path.insert(0, os.path.join(HERE, 'reference'))
import gases  # noqa: E402
import independent as ref  # noqa: E402

DEFAULT_SHEETS, DEFAULT_SEED = 100000, 1
PART = 5000                 # sheets of one part: a seed and a run of the driver of its own
SEARCH_ONE_IN = 16          # good sheets that ask for a search
EXACT = 150                 # ratings of proposed splits compared with the exact fraction, in a part
SECONDS = 600               # the longest that the driver may take for a part, or to be built
DISTANCE = 40               # units; every rating is nearer than this to the exact one
WORD = struct.calcsize('P')
CODES, RECORDS = 16, 21     # sizes of the header's arrays
U32, U64, I64 = 1 << 32, 1 << 64, 1 << 63


class Difference(Exception):
    """Says what differs."""


# ------------------------------------------------------------ what the driver prints

def block(fill, data, size):
    """A buffer with its guards in base sixteen; None is a buffer left as it was."""
    guard = ('%02x' % fill) * 8
    return ' ' + guard + (('%02x' % fill) * size if data is None else data.hex()) + guard


def big(values, width):
    return b''.join(v.to_bytes(width, 'big') for v in values)


def figures(fill, result):
    if isinstance(result, ref.Refusal):
        return block(fill, None, 24)
    return block(fill, struct.pack('>3q', result.rating, result.spread, result.rounds), 24)


def split_blocks(fill, records):
    """The count and the three arrays; zeros after the records. None: no buffer is changed."""
    if records is None:
        return ''.join(block(fill, None, size) for size in (WORD, RECORDS, RECORDS, 4 * RECORDS))
    places = (*records, *((0, 0, 0),) * (RECORDS - len(records)))
    return (block(fill, big((len(records),), WORD), WORD) + block(fill, bytes(r[0] for r in places), RECORDS)
            + block(fill, bytes(r[1] for r in places), RECORDS)
            + block(fill, big((r[2] for r in places), 4), 4 * RECORDS))


def wide(analysis):
    """An amount for each of the header's places."""
    return tuple(analysis) + (0,) * (CODES - len(analysis))


def amounts(analysis):
    return big(wide(analysis), 4)


class Expected:
    """One answer: its number, and the line as printed."""
    __slots__ = ('number', 'line')

    def __init__(self, number, line):
        self.number, self.line = number, line


def replied(result, buffers):
    """An answer with its buffers: the number, and the place for 2 to 4, the code for 5, else 0."""
    number, place = 0, 0
    if isinstance(result, ref.Refusal):
        number, place = result.number, result.at if 2 <= result.number <= 5 else 0
    return Expected(number, '%d %d%s' % (number, place, buffers))


# ------------------------------------------------------------ the reference's answers

def search(analysis, allowance):
    return gases.searched(analysis) if allowance >= ref.MOST_ROUNDS else ref.search(analysis, allowance)


def given(count, records):
    """So many records; no split has the count where fewer are given, for the driver fills no record that fits."""
    return records[:count] if count <= len(records) else ()


def rate_split(analysis, count, records):
    return ref.rate_split(analysis, given(count, records))


def search_moles(moles, allowance):
    return gases.searched_moles(moles) if allowance >= ref.MOST_ROUNDS else ref.search_moles(moles, allowance)


def read(sheet):
    """The reading and the rating of a sheet."""
    got = ref.read(sheet)
    if isinstance(got, ref.Refusal):
        return got, got
    analysis, split = got
    return got, gases.searched(analysis) if split is None else ref.rate_split(analysis, split)


# ------------------------------------------------------------ cases

class Cases:
    """Lines for the driver and what is expected of them."""

    def __init__(self):
        self.items, self.fill = [], 0

    def next_fill(self):
        self.fill = (self.fill + 89) % 256
        return self.fill

    def add(self, kind, line, *expected):
        self.items.append((kind, line, expected))

    def rate(self, kind, sheet, result):
        fill = self.next_fill()
        found = None if isinstance(result, ref.Refusal) else () if sheet[1 + 5 * sheet[0]] else result.split
        self.add(kind, 'rate %02x %s' % (fill, sheet.hex() or '-'),
                 replied(result, figures(fill, result) + split_blocks(fill, found)))

    def read(self, kind, sheet, got):
        fill = self.next_fill()
        if isinstance(got, ref.Refusal):
            buffers = block(fill, None, 4 * CODES) + split_blocks(fill, None)
        else:
            analysis, split = got
            buffers = block(fill, amounts(analysis), 4 * CODES) + split_blocks(fill, split or ())
        self.add(kind, 'read %02x %s' % (fill, sheet.hex() or '-'), replied(got, buffers))

    def search(self, kind, analysis, allowance, result):
        fill = self.next_fill()
        found = None if isinstance(result, ref.Refusal) else result.split
        self.add(kind, 'search %02x %d %s' % (fill, allowance, amounts(analysis).hex()),
                 replied(result, figures(fill, result) + split_blocks(fill, found)))

    def split(self, kind, analysis, count, records, result):
        fill = self.next_fill()
        self.add(kind, 'split %02x %d %s %s' % (fill, count, amounts(analysis).hex(), packed(records)),
                 replied(result, figures(fill, result)))

    def search_moles(self, kind, moles, allowance):
        fill, result = self.next_fill(), search_moles(moles, allowance)
        found = None if isinstance(result, ref.Refusal) else result.split
        self.add(kind, 'search-moles %02x %d %s' % (fill, allowance, amounts(moles).hex()),
                 replied(result, figures(fill, result) + split_blocks(fill, found)))

    def split_moles(self, kind, moles, count, records):
        fill, result = self.next_fill(), ref.rate_split_moles(moles, given(count, records))
        self.add(kind, 'split-moles %02x %d %s %s' % (fill, count, amounts(moles).hex(), packed(records)),
                 replied(result, figures(fill, result)))

    def convert(self, kind, moles):
        fill, result = self.next_fill(), ref.convert(moles)
        made = None if isinstance(result, ref.Refusal) else amounts(result)
        self.add(kind, 'convert %02x %s' % (fill, amounts(moles).hex()),
                 replied(result, block(fill, made, 4 * CODES)))

    def write(self, kind, analysis, count, records, low, high):
        fill = self.next_fill()
        expected = []
        for room in range(low, high + 1):
            buffer = bytearray([fill]) * room
            if count not in ref.SPLIT_COUNTS:
                result = ref.Refusal(1)
            else:
                whole = (*(records or ()), *((fill, fill, fill * 0x01010101),) * RECORDS)[:count]
                result = ref.write(analysis, whole, buffer)
            length = None if isinstance(result, ref.Refusal) else big((result,), WORD)
            expected.append(replied(result, block(fill, bytes(buffer), room) + block(fill, length, WORD)))
        self.add(kind, 'write %02x %d %s %s %d %d' % (fill, count, amounts(analysis).hex(), packed(records), low, high),
                 *expected)

    def partial(self, kind, system, n1, n2, n3):
        fill = self.next_fill()
        result = ref.partial_number(system, n1, n2, n3)
        number = None if isinstance(result, ref.Refusal) else struct.pack('>q', result)
        self.add(kind, 'partial %02x %d %d %d %d' % (fill, system, n1, n2, n3),
                 replied(result, block(fill, number, 8)))

    def controller(self, rating, spread):
        both = float(rating) / 1e7, float(spread) / 1e7
        for units, double in zip((rating, spread), both):
            if abs(units) <= 1 << 53 and double != units / ref.UNITS:
                raise AssertionError('two roundings of %d differ from one' % units)
        self.add('controller', 'controller %d %d' % (rating, spread),
                 Expected(0, '0' + block(0, struct.pack('>2d', *both), 16)))

    def whole(self, rating):
        self.add('whole number', 'whole %d' % rating, Expected(0, '0 %d' % ref.whole_number(rating)))

    def code_range(self, code):
        self.add('range of a code', 'code-range %d' % code, Expected(0, '0 %d %d' % ref.code_range(code)))

    def total_range(self):
        self.add('range of the total', 'total-range', Expected(0, '0 %d %d' % (ref.LEAST_TOTAL, ref.GREATEST_TOTAL)))


def packed(records):
    """The records; the driver fills the places after them."""
    return b''.join(bytes((s, c)) + a.to_bytes(4, 'big') for s, c, a in records or ()).hex() or '-'


class Exact:
    """Ratings to be compared with the exact fraction: all found ones, and a sample of the others."""

    def __init__(self, seed):
        self.draw, self.left, self.seen = gases.Draw(seed + 77), EXACT, set()
        self.count, self.farthest = 0, 0

    def compare(self, analysis, records, rating, found):
        if not found:
            if not self.left or not self.draw.one_in(4):
                return
            self.left -= 1
        if (analysis, records) in self.seen:
            return
        self.seen.add((analysis, records))
        self.count += 1
        distance = abs(ref.exact_rating(analysis, records) - rating)
        self.farthest = max(self.farthest, distance)
        if distance >= DISTANCE:
            raise Difference('the rating %d of %s is %.1f units from the exact one'
                             % (rating, ref.layout(analysis, records).hex(), distance))


def sheet_cases(cases, exact, kind, sheet):
    got, result = read(sheet)
    cases.rate(kind, sheet, result)
    cases.read('read', sheet, got)
    if isinstance(got, ref.Refusal):
        return
    analysis, split = got
    cases.write('write back', analysis, len(split or ()), split, len(sheet), len(sheet))
    if isinstance(result, ref.Refusal):
        return
    exact.compare(analysis, result.split, result.rating, split is None)
    if split is None:
        back = ref.rate_split(analysis, result.split)
        if isinstance(back, ref.Refusal) or back[:3] != result[:3]:
            raise Difference('the reference does not rate the split found for %s' % sheet.hex())
        cases.search('found', analysis, ref.MOST_ROUNDS, result)
        cases.split('found, put back', analysis, len(result.split), result.split, back)
        cases.rate('found, put back as a sheet', ref.layout(analysis, result.split), back)


# ------------------------------------------------------------ cases that chance seldom finds

def half_gas(draw):
    """The inert mixture's n1 falls on a half: T is an odd number of 128ths of T and carbon dioxide."""
    while True:
        a = list(gases.even_gas(draw))
        a[6] = a[7] = a[8] = a[10] = 0
        unit = draw.between(6641, 7812)
        a[11] = unit * draw.pick((1, 3, 5, 7, 9, 11, 13))
        a[1] = 128 * unit - sum(a[2:6]) - a[11]
        a[12] = draw.between(999900, 1000100) - sum(a[:12])
        if min(a) >= 0 and not ref.check(a):
            total = sum(ref.tenths(a))
            quotient, rest = divmod(2 * ref.PARTS * total, total + 10 * a[11])
            if rest == 0 and quotient % 2 == 1:
                return tuple(a)


def fitness_tie_gas(draw):
    """Systems 2 and 4 equally fit: 100 times butane is 48 times methane."""
    while True:
        a = list(gases.butane_gas(draw))
        a[1] = 0
        near = 100 * ref.tenths(a)[3] // 480
        for methane in range(near - 30, near + 31):
            a[1] = methane
            a[12] = 0
            a[12] = max(draw.between(999900, 1000100) - sum(a), 0)
            if not ref.check(a):
                amounts = ref.simplify(a)
                if 100 * amounts[3] == 48 * amounts[0]:
                    return tuple(a)


def long_sheet(draw):
    """A count above 12 with as many records, codes rising as long as they can."""
    count = draw.pick((13, 13, 14, 15, 50, 51, 100, 255))
    listed = [(min(i + 1, 255), draw.below(U32)) for i in range(count)]
    return gases.sheet_of(listed, gases.random_records(draw) if draw.one_in(2) else None)


def seldom_cases(cases, exact, seed):
    draw = gases.Draw(seed + 3)
    for _ in range(20):
        sheet_cases(cases, exact, 'inert at a half', ref.layout(half_gas(draw), None))
    for _ in range(5):
        sheet_cases(cases, exact, 'fitness tie', ref.layout(fitness_tie_gas(draw), None))
    for _ in range(20):
        sheet_cases(cases, exact, 'count above 12', long_sheet(draw))


# Counts of a split's records; the large ones have the last binary digits of 6, 9 and 15.
COUNTS = (0, 1, 3, 5, 6, 7, 8, 9, 10, 12, 14, 15, 16, 18, 20, 21, 22, 24, 255, 256 + 6, 256 + 9, 256 + 15,
          U32 + 6, U32 + 9, U32 + 15, U64 - 1)

COMPONENTS = 'methane', 'ethane', 'propane', 'butane', 'hydrogen'
BUTANE_FROM = {'butanes': (4, 5), 'pentanes': (6, 7, 8), 'hexanes+': (10,), 'all': gases.BUTANE_CODES}
NUMBERS = {2: 'two', 3: 'three', 4: 'four', 5: 'five'}


def set_kinds():
    """(kind, components present beside methane, codes of butane): every set, butane from each source."""
    for components in gases.SETS:
        kind = 'present: ' + ', '.join(COMPONENTS[c] for c in sorted({ref.M, *components}))
        for source in BUTANE_FROM if ref.B in components else ('',):
            yield kind + (' from ' + source if source else ''), components, BUTANE_FROM.get(source)


def systems_word(analysis):
    amounts = ref.simplify(analysis)
    if len(ref.present(amounts)) < ref.FEWEST:
        return 'methane alone'
    return NUMBERS[len(ref.choose(amounts))] + ' systems'


def split_sheet_cases(cases, kind, analysis, records):
    """A proposed split in a sheet, and by the call."""
    sheet = ref.layout(analysis, records)
    got, result = read(sheet)
    cases.rate(kind, sheet, result)
    cases.read('read', sheet, got)
    cases.split(kind, analysis, len(records), records[:RECORDS], rate_split(analysis, len(records), records))


def cut_to(records, count):
    """The records, or so many of them, over again where they are too few."""
    return (records * (count // len(records) + 1))[:count]


# Counts that no sheet has, and counts that no gas here has; 12 and 18 beside five systems, 12 beside three.
WRONG_COUNTS = 3, 7, 24, 255
OTHER_COUNTS = 12, 18, 21


def count_cases(cases, draw, analysis):
    """Splits of as many records as the gas's systems take, right ones and wrong; of three more or less; of counts that
    are allowed and fit no gas; and of counts that are not allowed."""
    got = gases.searched(analysis)
    right = gases.start_split(analysis) if isinstance(got, ref.Refusal) else got.split
    systems = systems_word(analysis)
    for records in (right, gases.random_split(draw, analysis), gases.miscounted(draw, right)):
        split_sheet_cases(cases, '%d records, %s' % (len(records), systems), analysis, records)
    for count in OTHER_COUNTS:
        records = cut_to(right, count)
        split_sheet_cases(cases, '%d records, %s' % (count, systems), analysis, records)
        need = len(ref.layout(analysis, records))
        cases.write('write, %d records' % count, analysis, count, records, need - 1, need + 1)
    for count in WRONG_COUNTS:
        records, kind = cut_to(right, count), '%d records' % count
        split_sheet_cases(cases, kind, analysis, records)
        room = draw.pick((0, ref.LONGEST, len(ref.layout(analysis, records))))
        cases.write('write, ' + kind, analysis, count, records[:RECORDS], room, room)


def trace_gas(draw, code):
    """Methane, one component at its least amount, carbon dioxide and perhaps nitrogen."""
    a = [0] * ref.CODES
    a[code], a[11], a[12] = ref.RANGE[code][0], draw.between(300, 50000), draw.pick((0, draw.between(50, 50000)))
    a[1] = 1000000 - sum(a)
    return tuple(a)


def out_of_order_cases(cases, draw):
    """Methane and inert gases alone, out of total or out of range besides: 6 and 5 come before 16, and 16 before 7."""
    a = list(gases.alone_gas(draw))
    a[12] = max(a[12], 500)
    a[1] = min(a[1], 900000)
    total = draw.pick((999899, 1000101, draw.between(700000, 999899)))
    light = (0, total - sum(a[2:]), *a[2:])
    faulty = (0, 399999, *a[2:11], draw.pick((49, 100001)), *a[12:])
    fit = (0, 1000000 - sum(a[2:]), *a[2:])
    six = gases.start_split(fit)
    for kind, analysis in (('methane alone', fit), ('methane alone, out of total', light),
                           ('methane alone, out of range', faulty)):
        for records in (None, six, gases.miscounted(draw, six)):
            sheet = ref.layout(analysis, records)
            got, result = read(sheet)
            cases.rate(kind, sheet, result)
            cases.read('read', sheet, got)
            count = draw.pick(COUNTS)
            cases.split(kind, analysis, count, records or (), rate_split(analysis, count, records or ()))
        for allowance in (0, 4000, U32 - 1):
            cases.search(kind, analysis, allowance, search(analysis, allowance))


TRACES = 2, 3, *gases.BUTANE_CODES, 15


def lean_cases(cases, exact, seed):
    """Absent components: each set of those present, traces, counts of a split, the order of refusals."""
    draw = gases.Draw(seed + 4)
    for kind, components, codes in set_kinds():
        analysis = gases.set_gas(draw, components, codes)
        sheet_cases(cases, exact, kind, ref.layout(analysis, None))
        count_cases(cases, draw, analysis)
        got = gases.searched(analysis)
        if isinstance(got, ref.Rating):
            for allowance in {max(got.rounds, 1) - 1, got.rounds}:
                cases.search(kind, analysis, allowance, search(analysis, allowance))
    for code in TRACES:
        sheet_cases(cases, exact, 'trace of code %d' % code, ref.layout(trace_gas(draw, code), None))
    for _ in range(5):
        out_of_order_cases(cases, draw)


def both_cases(cases, exact, kind, analysis):
    """An analysis as a sheet, and by the calls that take no sheet."""
    sheet_cases(cases, exact, kind, ref.layout(analysis, None))
    cases.search(kind, analysis, ref.MOST_ROUNDS, search(analysis, ref.MOST_ROUNDS))
    records = gases.start_split(analysis)
    cases.split(kind, analysis, len(records), records, rate_split(analysis, len(records), records))
    cases.write(kind, analysis, 0, None, ref.LONGEST, ref.LONGEST)


HYDROGEN_ENDS = 9, 10, 100000, 100001


def with_hydrogen(draw, amount):
    """A blend with so much hydrogen, in range but for that; methane makes up the total."""
    while True:
        a = list(draw.pick((gases.even_blend, gases.small_blend, gases.lean_blend))(draw))
        a[15] = 0
        a[1] = 0
        a[1] = draw.between(999900, 1000100) - sum(a) - amount
        if ref.RANGE[1][0] <= a[1] <= ref.RANGE[1][1]:
            return (*a[:15], amount)


def full_blend(draw):
    """All twelve components listed."""
    return gases.gas(draw, draw.pick((gases.amount_even, gases.amount_small)), None, True)


def listed_cases(cases, exact, draw):
    """Codes of components about 15: out of order, 14, 16, twice; hydrogen listed at 0; also where twelve are listed."""
    for analysis in (gases.small_blend(draw), full_blend(draw)):
        listed = gases.listed_of(analysis)
        records = gases.start_split(analysis) if draw.one_in(2) else None
        hydrogen = listed[-1]
        for place in {*range(len(listed) - 1)} if len(listed) < 12 else {draw.below(11), 10}:
            moved = [*listed[:place], hydrogen, *listed[place:-1]]
            sheet_cases(cases, exact, '15 before another code', gases.sheet_of(moved, records))
        for code, kind in ((14, '14 in components'), (16, '16 in components'), (255, '255 in components')):
            sheet_cases(cases, exact, kind, gases.sheet_of([*listed[:-1], (code, hydrogen[1])], records))
        for code, kind in ((14, '14 before 15'), (16, '16 after 15'), (15, '15 twice'), (13, '13 before 15')):
            pair = [(code, 100), hydrogen] if code < 15 else [hydrogen, (code, 100)]
            fewer = [*listed[:-2], *pair] if len(listed) == 12 else [*listed[:-1], *pair]
            sheet_cases(cases, exact, kind, gases.sheet_of(fewer, records))
        sheet_cases(cases, exact, '15 listed at 0', gases.sheet_of([*listed[:-1], (15, 0)], records))


def length_cases(cases, exact, draw):
    """Sheets of 112 to 189 bytes: whole ones of many lengths, and the longest cut short and made longer."""
    analysis = full_blend(draw)
    right = gases.start_split(analysis)
    longest = ref.layout(analysis, cut_to(right, 21))
    assert len(longest) == ref.LONGEST
    for length in range(112, ref.LONGEST):
        sheet_cases(cases, exact, 'cut to 112 to 187 bytes', longest[:length])
    sheet_cases(cases, exact, '188 bytes', longest)
    sheet_cases(cases, exact, '189 bytes', longest + bytes([draw.below(256)]))
    # 189 bytes by their counts, each with all its records: 13 components and 20 split records
    thirteen = gases.sheet_of([*gases.listed_of(analysis), (16, 100)], cut_to(right, 20))
    sheet_cases(cases, exact, '13 components', thirteen)
    for listed in range(6, 13):
        while True:
            few = gases.gas(draw, gases.amount_small, 2, True)
            if sum(x > 0 for x in few) >= listed:
                break
        few = [(c, a) for c, a in gases.listed_of(few)]
        while len(few) > listed:            # of others than methane; what they had is methane's
            _, amount = few.pop(draw.between(1, len(few) - 1))
            few[0] = (1, few[0][1] + amount)
        for count in (12, 15, 18, 21):
            sheet = gases.sheet_of(few, cut_to(right, count))
            if len(sheet) >= 112:
                sheet_cases(cases, exact, '112 to 188 bytes', sheet)


def blend_split_cases(cases, draw, analysis):
    """A blend's split without its last system, with another system for one of its own, with hydrogen before its
    place."""
    right = gases.start_split(analysis)
    systems = sorted({s for s, _, _ in right})
    split_sheet_cases(cases, '12 records, five systems', analysis, right[:12])
    gone, other = draw.pick(systems), draw.pick([s for s in ref.BLEND_CANDIDATES if s not in systems])
    more = [(other, ref.SPLIT_CODE[c], 0) for _, c in ref.expected((other,))]
    swapped = sorted([*(r for r in right if r[0] != gone), *more])
    split_sheet_cases(cases, 'another system of a blend', analysis, tuple(swapped))
    place = draw.pick([i for i, r in enumerate(right) if r[1] == 15])
    early = (*right[:place - 1], right[place], right[place - 1], *right[place + 1:])
    split_sheet_cases(cases, 'hydrogen before its place', analysis, early)


def blend_cases(cases, exact, seed):
    """Hydrogen: the ends of its range, its code, ties of the choice, splits and sheets longer than other gases have."""
    draw = gases.Draw(seed + 5)
    for amount in HYDROGEN_ENDS:
        for _ in range(4):
            both_cases(cases, exact, 'hydrogen %d' % amount, with_hydrogen(draw, amount))
    for _ in range(8):
        both_cases(cases, exact, 'fitness tie of a blend', gases.fitness_tie_blend(draw))
    listed_cases(cases, exact, draw)
    length_cases(cases, exact, draw)
    for _ in range(6):
        blend_split_cases(cases, draw, gases.small_blend(draw))


# ------------------------------------------------------------ the ceiling of hexanes+

CEILING, BEFORE = 6100, 15000       # the greatest amount in range, and the one before request One
# In range; then out of it, 15000 and all between among them.
HEXANES = {'hexanes+ 6099': (CEILING - 1, CEILING - 1), 'hexanes+ 6100': (CEILING, CEILING),
           'hexanes+ 6101': (CEILING + 1, CEILING + 1), 'hexanes+ 6102 to 14999': (CEILING + 2, BEFORE - 1),
           'hexanes+ 15000': (BEFORE, BEFORE), 'hexanes+ 15001': (BEFORE + 1, BEFORE + 1)}


def with_hexanes(draw, amount):
    """Any gas with so much hexanes+, in range but for that; methane makes up the total."""
    while True:
        a = list(gases.any_gas(draw))
        a[10] = amount
        a[1] = 0
        a[1] = draw.between(999900, 1000100) - sum(a)
        if ref.RANGE[1][0] <= a[1] <= ref.RANGE[1][1]:
            return tuple(a)


def hexanes_cases(cases, exact, seed):
    """Hexanes+ about its ceiling; and above it, up to the ceiling before, beside another code at fault: the lower
    comes with 5."""
    draw = gases.Draw(seed + 7)
    for kind, (least, greatest) in HEXANES.items():
        for _ in range(4):
            analysis = with_hexanes(draw, draw.between(least, greatest))
            if least > CEILING and ref.check(analysis) != ref.Refusal(5, 10):
                raise Difference('the reference has %s for %s, 10 is at fault' % (ref.check(analysis), analysis))
            both_cases(cases, exact, kind, analysis)
    for other in gases.CODES:
        if other == 10:
            continue
        a = list(with_hexanes(draw, draw.between(CEILING + 1, BEFORE)))
        a[other] = wrong_amount(draw, other)
        code, kind = min(other, 10), 'hexanes+ and %d at fault' % other
        faulty_analysis_cases(cases, draw, kind, tuple(a), code)
        records = gases.random_records(draw) if draw.one_in(2) else None
        faulty_sheet_cases(cases, kind, gases.sheet_of(gases.listed_of(a), records), code)


# ------------------------------------------------------------ several codes at fault

NO_CODE = 0, 9, 13, 14      # no amount is legal there
ABSENT, AT_0, OUT = 'absent', 'at 0', 'out of range'
# How the lowest of the codes at fault in a sheet stands; and the others, all alike or the first of them and the last.
LOWEST = ABSENT, AT_0, OUT
OTHERS = (AT_0,), (OUT,), (AT_0, OUT), (OUT, AT_0)
EACH_WAY, EACH_CODE = 8, 4  # cases of a part


def fault_kinds():
    """(kind, the lowest, the others)"""
    for lowest in LOWEST:
        for others in OTHERS:
            yield 'at fault: ' + ', '.join((lowest, *others)), lowest, others


def wrong_amount(draw, code):
    """Neither 0 nor in range."""
    if code in NO_CODE:
        return draw.pick((1, 100, U32 - 1, draw.between(1, U32 - 1)))
    least, greatest = ref.RANGE[code]
    return draw.pick((1, least - 1, greatest + 1, U32 - 1, draw.between(greatest + 1, U32 - 1)))


def some_of(draw, items, count):
    """So many of the items, in their order."""
    left = list(items)
    while len(left) > count:
        left.pop(draw.below(len(left)))
    return left


def faulty_sheet(draw, stands):
    """A sheet of any gas, but for the codes that stand otherwise."""
    listed = dict(gases.listed_of(gases.any_gas(draw)))
    for code, how in stands.items():
        listed.pop(code, None)
        if how != ABSENT:
            listed[code] = 0 if how == AT_0 else wrong_amount(draw, code)
    return gases.sheet_of(sorted(listed.items()), gases.random_records(draw) if draw.one_in(2) else None)


def faulty_sheet_cases(cases, kind, sheet, code):
    """Read and rated. The sheet is made so that this code is the lowest at fault: the reference has to say so too."""
    got, result = read(sheet)
    if not got == result == ref.Refusal(5, code):
        raise Difference('the reference has %s for %s, the lowest at fault is %d' % (got, sheet.hex(), code))
    cases.read(kind, sheet, got)
    cases.rate(kind, sheet, result)


def faulty_analysis_cases(cases, draw, kind, analysis, code):
    """By each call that takes an analysis. It is made so that this code is the lowest at fault, as above."""
    got = ref.check(analysis)
    if got != ref.Refusal(5, code):
        raise Difference('the reference has %s for %s, the lowest at fault is %d' % (got, analysis, code))
    allowance = draw.pick((0, 1, ref.MOST_ROUNDS, U32 - 1))
    cases.search(kind, analysis, allowance, search(analysis, allowance))
    records = gases.random_records(draw)
    cases.split(kind, analysis, len(records), records, rate_split(analysis, len(records), records))
    room = draw.pick((0, ref.LONGEST))
    cases.write(kind, analysis, len(records), records, room, room)


def fault_cases(cases, seed):
    """Two to five codes at fault at once, and 15 alone, above which there is none."""
    draw = gases.Draw(seed + 6)
    for kind, lowest, others in fault_kinds():
        for _ in range(EACH_WAY):
            count = draw.between(len(others), 4)
            codes = [1, *some_of(draw, gases.CODES[1:], count)] if lowest == ABSENT \
                else some_of(draw, gases.CODES, 1 + count)
            between = [draw.pick(others) for _ in range(count - 2)]
            ways = [lowest, others[0], *between, others[-1]][:1 + count]
            faulty_sheet_cases(cases, kind, faulty_sheet(draw, dict(zip(codes, ways))), codes[0])
    for code in gases.CODES:
        for _ in range(EACH_CODE):
            above = some_of(draw, [c for c in gases.CODES if c > code], draw.between(1, 4))
            stands = {c: draw.pick((AT_0, OUT)) for c in (code, *above)}
            if code == 1 and draw.one_in(2):
                stands[code] = ABSENT
            faulty_sheet_cases(cases, 'at fault in a sheet: code %d' % code, faulty_sheet(draw, stands), code)
    for code in range(CODES):
        for i in range(EACH_CODE):
            above = some_of(draw, [c for c in range(CODES) if c > code], draw.between(1, 4))
            without = [c for c in NO_CODE if c > code]
            if without and i % 2:           # one of these at least
                above[-1] = draw.pick(without)
            a = list(gases.any_gas(draw))
            for c in (code, *above):
                a[c] = wrong_amount(draw, c)
            kind = 'at fault in an analysis: code %d' % code
            if code == 1 and i < EACH_CODE // 2:
                a[1], kind = 0, kind + ', absent'
            if code == 0 and i < EACH_CODE // 2:            # 0 goes before an absent methane
                a[1] = 0
            faulty_analysis_cases(cases, draw, kind, tuple(a), code)


# ------------------------------------------------------------ analyses in moles

MOLE_TOTALS = 999899, 999900, 1000100, 1000101
HYDROGEN_IN_MOLES = 1, 9, 10, 100000, 100001, U32 - 1
MOLE_GASES, MOLE_HALVES = 8, 2      # gases with found splits, and with a volume on a half, in a part
# Moles whose search would end rated after 4142, 4390 and 4675 rounds: refused 11 by an allowance of 5000 too.
LONG_MOLES = ((0, 737554, 18244, 101, 18571, 29185, 500, 19999, 19999, 0, 5698, 50, 149999, 0, 0, 0),
              (0, 784550, 6117, 100, 39999, 33125, 11, 10590, 19999, 0, 5509, 100000, 0, 0, 0, 0),
              (0, 637268, 8428, 101, 40000, 39351, 10, 5355, 19488, 0, 0, 99999, 150000, 0, 0, 0))
# Splits of a mole analysis: the found one, changed ones, the start, any that re-sums, another gas's, and the one found
# for the same amounts by volume.
MOLE_SPLITS = (*gases.FOUND_KINDS, *gases.WRONG_KINDS, 'start', 'wide', 'other-gas', 'of-volumes')


def mole_call_cases(cases, draw, kind, moles, wanted=None, allowances=(0, 3, ref.MOST_ROUNDS)):
    """By each call that takes moles; where 18, 5 or 15 is wanted, the reference has to say so too."""
    refusal = ref.check_moles(moles)
    if wanted is not None and refusal != wanted:
        raise Difference('the reference has %s for the moles %s, not %s' % (refusal, moles, wanted))
    cases.convert(kind + ', made', moles)
    cases.search_moles(kind, moles, draw.pick(allowances))
    records = gases.random_records(draw) if refusal else gases.start_split(ref.volumes_of(moles))
    count = draw.pick((len(records), len(records), draw.pick(COUNTS)))
    cases.split_moles(kind + ', proposed', moles, count, records)


def mole_end_cases(cases, draw):
    """Each code at either end of its range and one part beyond; each total at and beyond its ends."""
    for code in gases.MOLE_CODES:
        least, greatest = ref.RANGE[code]
        for word, amount in (('below', least - 1), ('least', least), ('greatest', greatest), ('above', greatest + 1)):
            moles = gases.moles_with(draw, code, amount)
            wanted = ref.Refusal(5, code) if word in ('below', 'above') else None
            mole_call_cases(cases, draw, 'moles, code %d %s' % (code, word), moles, wanted, (4000, 5000))
    for total in MOLE_TOTALS:
        for _ in range(3):
            a = list(gases.moles_with(draw, 12, draw.between(500, 50000)))
            a[12] += total - sum(a)
            wanted = None if ref.LEAST_TOTAL <= total <= ref.GREATEST_TOTAL else ref.Refusal(15)
            mole_call_cases(cases, draw, 'moles, total %d' % total, tuple(a), wanted, (4000, 5000))
    while True:                 # out of total and out of range: 5 goes before 15
        a = list(gases.mole_gas(draw))
        a[1] -= 500
        code = draw.pick(gases.MOLE_CODES)
        a[code] = wrong_amount(draw, code)
        if not 999900 <= sum(a) <= 1000100:
            return mole_call_cases(cases, draw, 'moles, range and total', tuple(a), ref.Refusal(5, code))


def mole_fault_cases(cases, draw):
    """Hydrogen alone, beside other faults and a wrong total: 18 goes before all; the lowest of several codes at fault,
    those that no analysis has among them."""
    for amount in HYDROGEN_IN_MOLES:
        a = list(gases.mole_gas(draw))
        a[15] = amount
        if amount <= 1000:      # the total stays as it was
            a[1] -= amount
        mole_call_cases(cases, draw, 'moles, hydrogen', tuple(a), ref.Refusal(18))
        for code in some_of(draw, range(15), draw.between(1, 3)):
            a[code] = wrong_amount(draw, code)
        mole_call_cases(cases, draw, 'moles, hydrogen and codes at fault', tuple(a), ref.Refusal(18))
        a = list(gases.mole_gas(draw))
        a[1], a[15] = draw.pick((0, a[1] - 5000, a[1] + 5000)), amount
        mole_call_cases(cases, draw, 'moles, hydrogen and total', tuple(a), ref.Refusal(18))
    for code in range(15):
        a = list(gases.mole_gas(draw))
        above = some_of(draw, range(code + 1, 15), draw.between(0, 3)) if code < 14 else ()
        for c in (code, *above):
            a[c] = wrong_amount(draw, c)
        if code == 1 and draw.one_in(2):
            a[1] = 0
        mole_call_cases(cases, draw, 'moles, at fault: code %d' % code, tuple(a), ref.Refusal(5, code))


def alone_mole_cases(cases, draw):
    """Methane and inert gases alone: 15 goes before 16, and 16 before 7 and 11."""
    a = list(gases.alone_gas(draw))
    mole_call_cases(cases, draw, 'moles, methane alone', tuple(a))
    a[12] = max(a[12], 500)
    a[1] = draw.pick((999899, 1000101)) - sum(a[2:])
    if ref.RANGE[1][0] <= a[1] <= ref.RANGE[1][1]:
        mole_call_cases(cases, draw, 'moles, methane alone and total', tuple(a), ref.Refusal(15))


def found_mole_cases(cases, exact, kind, moles):
    """The search at allowances about its rounds; the found split put back: the same rating and spread. It."""
    cases.convert(kind + ', made', moles)
    result = search_moles(moles, ref.MOST_ROUNDS)
    rounds = result.rounds if isinstance(result, ref.Rating) else ref.MOST_ROUNDS
    for allowance in sorted({0, max(rounds, 1) - 1, rounds, 4000, 4001, 5000, U32 - 1}):
        cases.search_moles(kind, moles, allowance)
    if isinstance(result, ref.Refusal):
        return None
    back = ref.rate_split_moles(moles, result.split)
    if isinstance(back, ref.Refusal) or back[:3] != result[:3]:
        raise Difference('the reference does not rate the split found for the moles %s' % (moles,))
    exact.compare(ref.volumes_of(moles), result.split, result.rating, True)
    cases.split_moles('moles, found, put back', moles, len(result.split), result.split)
    return result.split


def mole_split(draw, kind, moles, found):
    """The records of one of MOLE_SPLITS."""
    volumes = ref.volumes_of(moles)
    if kind in gases.FOUND_KINDS:
        return gases.changed(draw, kind, found)
    if kind in gases.WRONG_KINDS:
        return gases.changed(draw, kind, draw.pick((found, gases.random_split(draw, volumes))))
    if kind == 'start':
        return gases.start_split(volumes)
    if kind == 'wide':
        return gases.random_split(draw, volumes)
    if kind == 'other-gas':
        return gases.start_split(ref.volumes_of(gases.mole_gas(draw)))
    got = gases.searched(moles)
    return gases.start_split(moles) if isinstance(got, ref.Refusal) else got.split


def mole_cases(cases, exact, seed):
    """Mole analyses: ends of ranges and totals, what is turned away and in which order, volumes made that lie out of
    range or on a half, found splits and others."""
    draw = gases.Draw(seed + 8)
    mole_end_cases(cases, draw)
    mole_fault_cases(cases, draw)
    for _ in range(3):
        alone_mole_cases(cases, draw)
    for above, codes in enumerate((gases.BELOW, gases.ABOVE)):
        for code in codes:
            moles = gases.beyond_moles(draw, code, above)
            if ref.check(ref.volumes_of(moles)).number != 5:
                raise Difference('the volumes made from %s are in range' % (moles,))
            kind = 'moles, volume of code %d %s' % (code, 'above' if above else 'below')
            found_mole_cases(cases, exact, kind, moles)
    for _ in range(MOLE_HALVES):
        found_mole_cases(cases, exact, 'moles, volume on a half', gases.half_moles(draw))
    made = 0
    while made < MOLE_GASES:
        moles = gases.mole_gas(draw)
        found = found_mole_cases(cases, exact, 'moles', moles)
        if found is None:
            continue
        made += 1
        for kind in MOLE_SPLITS:
            records = mole_split(draw, kind, moles, found)
            cases.split_moles('moles, split ' + kind, moles, len(records), records)
        count = draw.pick([n for n in COUNTS if n != len(found)])
        cases.split_moles('moles, another count', moles, count, found)


def at_no_code(draw, analysis):
    a = list(wide(analysis))
    a[draw.pick(NO_CODE)] = draw.pick((1, 100, U32 - 1))
    return tuple(a)


def system_word(system):
    return '%d' % system if system in ref.SHARES or system in NO_SYSTEMS else 'no system'


def call_cases(cases, seed, sheets):
    """The single calls; so many for so many sheets."""
    draw = gases.Draw(seed + 1)
    for analysis, allowance in itertools.islice(gases.search_cases(seed), sheets // 200):
        kind = 'search, allowance ' + ('0' if allowance == 0 else 'to 4000' if allowance <= 4000 else 'above 4000')
        if draw.one_in(32):
            kind, analysis = 'search, amount at no code', at_no_code(draw, analysis)
        cases.search(kind, analysis, allowance, search(analysis, allowance))
    for kind, analysis, records in itertools.islice(gases.split_cases(seed), sheets // 10):
        kind = 'rate split ' + kind
        if draw.one_in(32):
            kind, analysis = 'rate split, amount at no code', at_no_code(draw, analysis)
        count = draw.pick(COUNTS) if draw.one_in(32) else len(records)
        if count != len(records):
            kind = 'rate split, another count'
        cases.split(kind, analysis, count, records, rate_split(analysis, count, records))
    for case in itertools.islice(gases.partial_cases(seed), sheets // 5):
        cases.partial('partial number, ' + system_word(case[0]), *case)
    for analysis, records, room in itertools.islice(gases.writer_cases(seed), sheets // 20):
        kind = 'write, a split' if records else 'write, no split'
        if draw.one_in(32):
            kind, analysis = 'write, amount at no code', at_no_code(draw, analysis)
        count = draw.pick(COUNTS) if draw.one_in(16) else len(records or ())
        if count != len(records or ()):
            kind = 'write, another count'
        cases.write(kind, analysis, count, records, room, room)
    for analysis, records, _ in itertools.islice(gases.writer_cases(seed + 2), sheets // 500):
        need = len(ref.layout(analysis, records))
        cases.write('write, every room', analysis, len(records or ()), records, 0, need + 3)
    for _ in range(sheets // 20):
        edge = draw.between(-200, 200) * ref.UNITS + draw.pick((0, 5000000, -5000000)) + draw.pick((-1, 0, 1))
        any_rating = draw.step() - I64
        rating = draw.pick((edge, any_rating, any_rating >> draw.below(64), I64 - 1, -I64, I64 - 5000000))
        cases.whole(rating)
        cases.controller(rating, draw.step() >> draw.below(64))
        cases.controller(draw.below(1200000000), draw.below(500001))


def data_lines(name):
    with open(os.path.join(HERE, 'data', name)) as lines:
        return [line.strip() for line in lines if not line.startswith('#')]


def known(cases, exact, kind, sheet, shown):
    """A sheet whose display line is kept beside it."""
    result = read(bytes.fromhex(sheet))[1]
    if ref.display(result).strip() != shown:
        raise Difference('the reference no longer prints %s for %s' % (shown, sheet))
    sheet_cases(cases, exact, kind, bytes.fromhex(sheet))
    return result


def long_mole_cases(cases):
    for moles in LONG_MOLES:
        for allowance in (4000, 4001, 5000, U32 - 1):
            cases.search_moles('moles, more than 4000 rounds', moles, allowance)


def range_cases(cases):
    """The ranges of every code, of codes that there are not, and of the total."""
    for code in (*range(CODES + 5), *(1 << n for n in range(5, 32)), *(U32 - CODES + code for code in range(CODES))):
        cases.code_range(code)
    cases.total_range()


def kept_cases(cases, exact):
    """The sheets kept in tests/data: spreads at the limit and one unit on either side, and searches that end at the
    limit, that need stride 1, 4001 rounds or more, or where a move would empty a system."""
    for line in data_lines('spread-limit.txt'):
        known(cases, exact, 'spread at the limit', *line.split(' ', 1))
    for line in data_lines('search-limit.txt'):
        what, sheet, shown = line.split(' ', 2)
        result = known(cases, exact, 'kept: ' + what, sheet, shown)
        analysis = ref.read(bytes.fromhex(sheet))[0]
        near = 4000 if isinstance(result, ref.Refusal) else result.rounds
        for allowance in (max(near, 1) - 1, near, near + 1, 4000, 4001, 5000, U32 - 1):
            cases.search('kept: ' + what, analysis, allowance, search(analysis, allowance))


# ------------------------------------------------------------ the driver

def await_driver(driver):
    """Waits for the driver; its folder has a file `failed` where it could not be built."""
    begin, failed = time.time(), os.path.join(os.path.dirname(driver), 'failed')
    while not os.path.exists(driver):
        if os.path.exists(failed) or time.time() - begin > SECONDS:
            raise Difference('the driver was not built')
        time.sleep(0.1)


def run(driver, lines, *options, under=()):
    with tempfile.TemporaryFile() as given:
        given.write(''.join(line + '\n' for line in lines).encode())
        given.seek(0)
        try:
            got = subprocess.run([*under, driver, *options], stdin=given, stdout=subprocess.PIPE, text=True,
                                 timeout=SECONDS)
        except subprocess.TimeoutExpired:
            raise Difference('the driver has not ended after %d seconds' % SECONDS) from None
    return got.returncode, got.stdout.split('\n')[:-1]


def compare(driver, cases, tally, *options, under=()):
    """Runs the cases, under another program where one is named, and ends at the first difference."""
    lines = [line for _, line, _ in cases.items]
    status, printed = run(driver, lines, *options, under=under)
    if status != 0:
        status, printed = run(driver, lines, '--flush', *options, under=under)
    at = 0
    for kind, line, expected in cases.items:
        for one in expected:
            if at >= len(printed):
                raise Difference('%s ended with status %s at this case (%s):\n  %s' % (driver, status, kind, line))
            if one.line != printed[at]:
                raise Difference('%s differs (%s)\n  case      %s\n  reference %s\n  driver    %s'
                                 % (kind, driver, line, one.line, printed[at]))
            tally[kind, one.number] = tally.get((kind, one.number), 0) + 1
            at += 1
    if at != len(printed) or status != 0:
        raise Difference('%s printed %d lines for %d, status %s' % (driver, len(printed), at, status))


def part_cases(seed, sheets, first):
    """The cases of one part, and the ratings compared with the exact fraction."""
    exact, cases = Exact(seed), Cases()
    if first:
        kept_cases(cases, exact)
        range_cases(cases)
        long_mole_cases(cases)
        for case in gases.share_cases(seed):
            cases.partial('ends of shares, ' + system_word(case[0]), *case)
    seldom_cases(cases, exact, seed)
    lean_cases(cases, exact, seed)
    blend_cases(cases, exact, seed)
    hexanes_cases(cases, exact, seed)
    fault_cases(cases, seed)
    mole_cases(cases, exact, seed)
    call_cases(cases, seed, sheets)
    for kind, sheet in itertools.islice(gases.sheets(seed, SEARCH_ONE_IN), sheets):
        sheet_cases(cases, exact, kind, sheet)
    return cases, exact


def part(job):
    """One part: (difference or None, tally, exact ratings compared, farthest). The reference's answers are worked out
    once, for all drivers; the tally is that of one of them."""
    drivers, seed, sheets, first, wait = job
    tally = {}
    try:
        cases, exact = part_cases(seed, sheets, first)
        for driver in drivers:
            if wait:
                await_driver(driver)
            tally = {}
            compare(driver, cases, tally)
    except Difference as difference:
        return '%s\n  (seed %d of this part)' % (difference, seed), tally, 0, 0
    return None, tally, exact.count, float(exact.farthest)


def show(tally):
    for kind in sorted({k for k, _ in tally}):
        print('%-28s %7d  ' % (kind, sum(n for (k, _), n in tally.items() if k == kind))
              + ' '.join('%d:%d' % (number, n) for (k, number), n in sorted(tally.items()) if k == kind))
    print("(after the colon the count, before it the refusal's number, 0 for an answer)")


# ------------------------------------------------------------ how often each kind of case must occur

# Numbers of no system, each with a kind of its own; the systems themselves stand in LEAST.
NO_SYSTEMS = 0, 9, 10, 11, 19, 21, U32 - 1


def least_of_moles(kind, searched, made, proposed):
    """The kinds of an analysis that each call with moles takes, with the numbers and how often at least."""
    return {kind: searched, kind + ', made': made, kind + ', proposed': proposed}


def refused_moles(kind, number, least):
    return least_of_moles(kind, {number: least}, {number: least}, {number: least})


def merged(*tables):
    return {kind: numbers for table in tables for kind, numbers in table.items()}


# Of DEFAULT_SHEETS sheets: for each kind the numbers (0 for an answer) and how often at least, about half of what the
# seed gives; of several codes at fault, of the ends of shares and of the cases kept in tests/data all.
LEAST = {
    # sheets without a split
    'search even_gas': {0: 260},
    'search limit_gas': {0: 200, 11: 10},
    'search rich_gas': {0: 140, 11: 120},
    'search small_gas': {0: 500},
    'search tie_gas': {0: 150},
    'search lean_gas': {0: 220, 11: 4},
    'search heavy_gas': {0: 120},
    'search rich_lean_gas': {11: 140},
    'search trace_gas': {0: 120},
    'search alone_gas': {16: 120},
    'search even_blend': {0: 130},
    'search small_blend': {0: 270},
    'search limit_blend': {0: 110, 11: 10},
    'search rich_blend': {0: 110, 11: 4},
    'search lean_blend': {0: 240, 11: 15},
    'search tie_blend': {0: 140},
    'search fitness_tie_blend': {0: 125},
    'inert at a half': {0: 200},
    'fitness tie': {0: 50},
    'found': {0: 3000},
    'found, put back': {0: 3000},
    'found, put back as a sheet': {0: 3000},
    # absent components
    **{kind: {0: 16, 11: 10} if components else {16: 10} for kind, components, _ in set_kinds()},
    **{'trace of code %d' % code: {11 if code == 15 else 0: 10} for code in TRACES},
    '6 records, methane alone': {16: 40},
    '6 records, two systems': {0: 120, 10: 120},
    '6 records, three systems': {7: 540},
    '9 records, methane alone': {16: 20},
    '9 records, two systems': {7: 140},
    '9 records, three systems': {0: 500, 10: 500},
    '15 records, five systems': {0: 80, 10: 80},
    **{'%d records, methane alone' % n: {16: 20} for n in OTHER_COUNTS},
    **{'%d records, two systems' % n: {7: 140} for n in OTHER_COUNTS},
    **{'%d records, three systems' % n: {7: 560} for n in OTHER_COUNTS},
    '12 records, five systems': {7: 230},
    '18 records, five systems': {7: 120},
    '21 records, five systems': {7: 80},
    **{'write, %d records' % n: {0: 800, 14: 400} for n in OTHER_COUNTS},
    **{'%d records' % n: {1: 400, 7: 390, 16: 10} for n in WRONG_COUNTS},
    **{'write, %d records' % n: {1: 400} for n in WRONG_COUNTS},
    'methane alone': {16: 450},
    'methane alone, out of total': {6: 450},
    'methane alone, out of range': {5: 450},
    # hydrogen
    'hydrogen 9': {5: 160},
    'hydrogen 10': {0: 100, 10: 40, 11: 15},
    'hydrogen 100000': {0: 120, 10: 40},
    'hydrogen 100001': {5: 160},
    'fitness tie of a blend': {0: 240, 10: 80},
    '15 before another code': {4: 100},
    **{kind: {2: 20} for kind in ('14 in components', '14 before 15', '16 in components', '16 after 15',
                                  '255 in components')},
    '13 before 15': {3: 20},
    '15 twice': {4: 20},
    '15 listed at 0': {5: 20},
    'another system of a blend': {7: 120},
    'hydrogen before its place': {7: 120},
    'cut to 112 to 187 bytes': {1: 760},
    '112 to 188 bytes': {7: 240, 8: 15},
    '188 bytes': {7: 10},
    '189 bytes': {1: 10},
    '13 components': {1: 10},
    # the ceiling of hexanes+: in range, above it, and beside another code at fault
    **{'hexanes+ %d' % amount: {0: 110, 10: 40, 11: 7} for amount in (6099, 6100)},
    **{'hexanes+ ' + amount: {5: 320} for amount in ('6101', '6102 to 14999', '15000', '15001')},
    **{'hexanes+ and %d at fault' % code: {5: 100} for code in (*range(1, 9), 11, 12, 15)},
    # several codes at fault: in a sheet how the lowest of them stands, and the others; the lowest; in an analysis
    **{'at fault: ' + ways: {5: 320} for ways in (
        'absent, at 0', 'absent, out of range', 'absent, at 0, out of range', 'absent, out of range, at 0',
        'at 0, at 0', 'at 0, out of range', 'at 0, at 0, out of range', 'at 0, out of range, at 0',
        'out of range, at 0', 'out of range, out of range', 'out of range, at 0, out of range',
        'out of range, out of range, at 0')},
    **{'at fault in a sheet: code %d' % code: {5: 160} for code in (*range(1, 9), 10, 11, 12, 15)},
    **{'at fault in an analysis: code %d' % code: {5: 240} for code in (0, *range(2, 16))},
    'at fault in an analysis: code 1': {5: 120},
    'at fault in an analysis: code 1, absent': {5: 120},
    # moles: ends of ranges and totals
    **merged(*(refused_moles('moles, code %d %s' % (code, end), 5, 10) for code in gases.MOLE_CODES
               for end in ('below', 'above'))),
    **merged(*(least_of_moles('moles, code %d %s' % (code, end), {0: 5}, {0: 10}, {10: 3})
               for code in gases.MOLE_CODES for end in ('least', 'greatest') if (code, end) != (1, 'least'))),
    **refused_moles('moles, code 1 least', 15, 10),         # the others cannot make up the total
    **merged(*(least_of_moles('moles, total %d' % total, {0: 15}, {0: 30}, {10: 12}) for total in MOLE_TOTALS[1:3])),
    **merged(*(refused_moles('moles, total %d' % total, 15, 30) for total in (MOLE_TOTALS[0], MOLE_TOTALS[3]))),
    **refused_moles('moles, range and total', 5, 10),
    # what is turned away, and in which order
    **merged(*(refused_moles('moles, ' + kind, 18, 60) for kind in (
        'hydrogen', 'hydrogen and codes at fault', 'hydrogen and total'))),
    **merged(*(refused_moles('moles, at fault: code %d' % code, 5, 10) for code in range(15))),
    **least_of_moles('moles, methane alone', {16: 30}, {0: 30}, {16: 30}),
    **refused_moles('moles, methane alone and total', 15, 30),
    # volumes made that lie out of range, rated all the same, or on a half
    **{'moles, volume of code %d below' % code: {0: 35} for code in gases.BELOW},
    **{'moles, volume of code %d above' % code: {0: 35} for code in gases.ABOVE},
    **{'moles, volume of code %d below, made' % code: {0: 10} for code in gases.BELOW},
    **{'moles, volume of code %d above, made' % code: {0: 10} for code in gases.ABOVE},
    'moles, volume on a half': {0: 100, 11: 40},
    'moles, volume on a half, made': {0: 20},
    # found splits, and others
    'moles': {0: 400, 11: 250, 16: 20},
    'moles, made': {0: 100},
    'moles, more than 4000 rounds': {11: 12},
    'moles, found, put back': {0: 170},
    **{'moles, split ' + kind: {0: 35, 10: 40} for kind in ('near', 'border')},
    **{'moles, split ' + kind: {8: 75} for kind in ('miss-by-one', 'miss', 'wrap', 'all-zero', 'of-volumes')},
    **{'moles, split ' + kind: {10: 75} for kind in ('start', 'wide')},
    **{'moles, split ' + kind: {7: 70} for kind in ('misfit', 'miscount')},
    'moles, split put-back': {0: 80},
    'moles, split empty': {9: 60, 10: 15},
    'moles, split other-gas': {7: 20, 8: 50},
    'moles, another count': {7: 75},
    # sheets with a split
    'split absent-held': {8: 800},
    'split alone': {16: 800},
    'split miscount': {7: 750},
    'split all-zero': {8: 900},
    'split border': {0: 900, 10: 900},
    'split empty': {9: 1000, 10: 400},
    'split misfit': {0: 100, 7: 1500, 10: 100},
    'split miss': {8: 900},
    'split miss-by-one': {8: 900},
    'split near': {0: 1000, 10: 1500},
    'split other-gas': {7: 500, 8: 900, 16: 50},
    'split put-back': {0: 1500},
    'split start': {10: 900},
    'split wide': {10: 900},
    'split wrap': {8: 1500},
    # damaged sheets
    'codes': {0: 40, 2: 1300, 3: 2200, 4: 4000, 5: 560, 6: 350, 7: 280, 8: 35, 11: 3, 16: 20},
    'count above 12': {1: 200},
    'flipped': {0: 40, 1: 150, 2: 300, 3: 30, 4: 150, 5: 800, 6: 300, 7: 300, 8: 600},
    'range': {0: 80, 5: 4000, 6: 600, 7: 300, 8: 300, 11: 5, 16: 10},
    'torn': {0: 200, 1: 5000, 7: 80},
    'total': {0: 150, 5: 70, 6: 1000, 7: 80, 8: 1000, 11: 20, 16: 80},
    'wild': {1: 1000, 2: 500, 3: 250, 4: 300, 5: 250},
    # all of them read, and the good ones written again
    'read': {0: 20000, 1: 7000, 2: 2000, 3: 2000, 4: 4000, 5: 6000, 6: 2500},
    'write back': {0: 20000},
    # single calls
    'search, allowance 0': {11: 30},
    'search, allowance above 4000': {0: 40, 11: 5},
    'search, allowance to 4000': {0: 60, 5: 3, 6: 2, 11: 60, 16: 5},
    'search, amount at no code': {5: 5},
    'rate split absent-held': {8: 190},
    'rate split alone': {16: 170},
    'rate split miscount': {7: 180},
    'rate split all-zero': {8: 200},
    'rate split border': {0: 200, 10: 200},
    'rate split empty': {9: 300, 10: 100},
    'rate split misfit': {0: 15, 7: 350, 10: 13},
    'rate split miss': {8: 200},
    'rate split miss-by-one': {8: 200},
    'rate split near': {0: 300, 5: 20, 6: 10, 10: 300},
    'rate split other-gas': {7: 120, 8: 200, 16: 10},
    'rate split put-back': {0: 400},
    'rate split start': {10: 200},
    'rate split wide': {10: 200},
    'rate split wrap': {8: 400},
    'rate split, amount at no code': {5: 150},
    'rate split, another count': {5: 5, 7: 110, 16: 5},
    **{'partial number, %d' % s: {0: 350, 12: 130} for s in range(1, 9)},
    **{'partial number, %d' % s: {0: 250, 12: 130, 17: 70} for s in (*range(12, 19), 20)},
    **{'partial number, %d' % s: {13: 75} for s in NO_SYSTEMS},
    'partial number, no system': {13: 500},
    # all of them, at the ends of each range and beyond
    **{'ends of shares, %d' % s: {0: 48, 12: 22} for s in range(1, 9)},
    **{'ends of shares, %d' % s: {0: 48, 12: 23, 17: 8} for s in range(12, 17)},
    **{'ends of shares, %d' % s: {0: 48, 12: 25, 17: 24} for s in (17, 18, 20)},
    **{'ends of shares, %d' % s: {13: 6} for s in NO_SYSTEMS},
    'ends of shares, no system': {13: 30},
    'write, no split': {0: 250, 5: 40, 6: 20, 14: 200},
    'write, a split': {0: 700, 5: 100, 6: 70, 14: 800},
    'write, amount at no code': {5: 70},
    'write, another count': {0: 4, 1: 110},
    'write, every room': {0: 300, 5: 900, 6: 400, 14: 7000},
    'controller': {0: 5000},
    'whole number': {0: 2500},
    'range of a code': {0: 64},
    'range of the total': {0: 1},
    # kept in tests/data
    'spread at the limit': {0: 15, 10: 9},
    'kept: blend-ends-at-500000': {0: 14, 11: 2},
    'kept: blend-lean-ends-at-500000': {0: 7, 11: 1},
    'kept: blend-lean-needs-more-than-4000': {11: 8},
    'kept: blend-lean-needs-stride-1': {0: 14, 11: 2},
    'kept: blend-lean-passes-500001': {0: 14, 11: 2},
    'kept: blend-lean-rated-at-the-start': {0: 8},
    'kept: blend-lean-unbalanced': {11: 8},
    'kept: blend-lean-would-empty': {11: 16},
    'kept: blend-needs-more-than-4000': {11: 8},
    'kept: blend-needs-stride-1': {0: 14, 11: 2},
    'kept: blend-unbalanced': {11: 8},
    'kept: blend-would-empty': {0: 7, 11: 9},
    'kept: ends-at-500000': {0: 21, 11: 3},
    'kept: lean-needs-stride-1': {0: 21, 11: 3},
    'kept: lean-rated-at-the-start': {0: 16},
    'kept: lean-unbalanced': {11: 8},
    'kept: lean-would-empty': {11: 24},
    'kept: needs-4001': {11: 8},
    'kept: needs-more-than-4000': {11: 32},
    'kept: needs-stride-1': {0: 56, 11: 8},
    'kept: passes-500001': {0: 28, 11: 4},
    'kept: would-empty': {11: 24},
}
# Each number, of all kinds together; and ratings compared with the exact fraction.
LEAST_NUMBERS = {0: 90000, 1: 20000, 2: 4500, 3: 5000, 4: 9000, 5: 21000, 6: 6300, 7: 11000, 8: 9000, 9: 1500,
                 10: 6000, 11: 1000, 12: 2000, 13: 1000, 14: 10000, 15: 300, 16: 2500, 17: 700, 18: 500}
LEAST_EXACT = 4000


def too_few(tally, compared):
    """A line for each kind of case, or number, that occurred less often than LEAST and LEAST_NUMBERS say."""
    for kind in sorted({k for k, _ in tally} - set(LEAST)):
        yield '%s: LEAST has no such kind' % kind
    for kind, numbers in LEAST.items():
        for number, least in numbers.items():
            if tally.get((kind, number), 0) < least:
                yield '%s, number %d: %d times, not %d' % (kind, number, tally.get((kind, number), 0), least)
    for number, least in LEAST_NUMBERS.items():
        times = sum(n for (_, other), n in tally.items() if other == number)
        if times < least:
            yield 'number %d: %d times, not %d' % (number, times, least)
    if compared < LEAST_EXACT:
        yield 'ratings compared with the exact fraction: %d, not %d' % (compared, LEAST_EXACT)


def main():
    parser = argparse.ArgumentParser()
    parser.add_argument('drivers', metavar='DRIVER', nargs='+')
    parser.add_argument('--long', nargs=2, type=int, metavar=('N', 'SEED'))
    parser.add_argument('--brief', action='store_true')
    parser.add_argument('--jobs', type=int, default=os.cpu_count() or 1)
    parser.add_argument('--wait', action='store_true')
    options = parser.parse_args()
    sheets, seed = options.long or (DEFAULT_SHEETS, DEFAULT_SEED)
    jobs = [(options.drivers, seed * 100000 + i, min(PART, sheets - i * PART), i == 0, options.wait)
            for i in range(-(-sheets // PART))]
    begin, tally, compared, farthest = time.time(), {}, 0, 0
    with multiprocessing.Pool(options.jobs) as pool:
        for difference, counts, exact, far in pool.imap(part, jobs):
            if difference:
                sys.exit('differential: ' + difference)
            for key, n in counts.items():
                tally[key] = tally.get(key, 0) + n
            compared, farthest = compared + exact, max(farthest, far)
    if not options.brief:
        show(tally)
    missed = list(too_few(tally, compared)) if sheets >= DEFAULT_SHEETS else []
    if missed:
        sys.exit('differential: cases that occurred too seldom\n  ' + '\n  '.join(missed))
    print('differential: %d sheets of seed %d, %d calls in all of each of %d drivers, no difference; %d ratings at '
          'most %.2f units from exact; %.0f s'
          % (sheets, seed, sum(tally.values()), len(options.drivers), compared, farthest, time.time() - begin))


if __name__ == '__main__':
    main()
