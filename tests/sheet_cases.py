#!/usr/bin/env python3
"""Cases for reading and writing sheets, with the answers that document 01 and requests One, Four, Five and
Seven fix.

sheet_cases.py           writes crates/sheet_cases/data/ and crates/sheet_cases/stdout
sheet_cases.py --check   compares those files with what is made here

The reader below is written from document 01 ("The register and the sheet",
"What is turned away") and these requests, apart from the program that is tested.

A data file is a count of cases in two bytes and the cases, all numbers high
byte first. A case is a length in two bytes and so many bytes: a sheet to read,
or in `writings` 16 amounts of four bytes, a split count, 21 split records, the
lowest code at fault (255 where none is) and the sheet that is to be written.
One line is printed for each:

  READ      16 amounts (indexed by code), SPLIT, split count, three fields a
            record, WRITE and its counts
  REFUSED   number, and for 2 to 4 the place, for 5 the code

The counts after WRITE are over buffers of 0 to 189 bytes: refused 1, refused 5
with the lowest code at fault, refused 6, refused 14, written, and anything else.
A refusal counts only where the buffer is unchanged, and 1, 6 and 14 only with
code 0; a writing only where the length is the sheet's, the sheet's bytes stand
first and the bytes after them are unchanged.
"""
import os
import sys

CRATE = os.path.join(os.path.dirname(os.path.abspath(__file__)), '..', 'crates', 'sheet_cases')

# Least and greatest amount in parts, by code.
RANGE = {1: (400000, 999700), 2: (100, 150000), 3: (100, 60000), 4: (10, 40000), 5: (10, 40000), 6: (10, 500),
         7: (10, 20000), 8: (10, 20000), 10: (10, 6100), 11: (50, 100000), 12: (50, 150000), 15: (10, 100000)}
RETIRED = (9, 13)
UNKNOWN = (0, 14, *range(16, 256))      # as components
REQUIRED = (1,)
LEAST_TOTAL, GREATEST_TOTAL = 999900, 1000100
MOST_COMPONENTS = 12
CODES = 16
MOST_RECORDS = 21
SPLIT_COUNTS = (0, *range(6, MOST_RECORDS + 1, 3))
COMPONENT_SIZE, SPLIT_SIZE = 5, 6
LARGEST_BUFFER = 189
NO_FAULT = 255
U32 = (1 << 32) - 1


def number(data):
    return int.from_bytes(data, 'big')


def sections(data):
    """The component and the split records, or None where the sheet is torn."""
    found, at = [], 0
    for size, allowed in ((COMPONENT_SIZE, range(MOST_COMPONENTS + 1)), (SPLIT_SIZE, SPLIT_COUNTS)):
        if at >= len(data) or data[at] not in allowed:
            return None
        first, at = at + 1, at + 1 + data[at] * size
        if at > len(data):
            return None
        found.append([data[i:i + size] for i in range(first, at, size)])
    return found if at == len(data) else None


def at_fault(code, amount, listed):
    """Is it listed with an amount outside its range, or absent and may not be?"""
    if not listed:
        return code in REQUIRED
    return code not in RANGE or not RANGE[code][0] <= amount <= RANGE[code][1]


def checked(amounts, listed):
    """(5, the lowest code at fault), (6, None), or (0, None) where the analysis is in range."""
    for code in range(CODES):
        if at_fault(code, amounts[code], code in listed):
            return 5, code
    return (0 if LEAST_TOTAL <= sum(amounts) <= GREATEST_TOTAL else 6), None


def read(data):
    """('READ', amounts, split), or ('REFUSED', number, place or code or None)."""
    found = sections(data)
    if found is None:
        return 'REFUSED', 1, None
    components, records = found
    amounts, before = [0] * CODES, 0
    for place, record in enumerate(components):
        code = record[0]
        if code in UNKNOWN:
            return 'REFUSED', 2, place
        if code in RETIRED:
            return 'REFUSED', 3, place
        if code <= before:
            return 'REFUSED', 4, place
        before, amounts[code] = code, number(record[1:])
    refused, code = checked(amounts, [record[0] for record in components])
    if refused:
        return 'REFUSED', refused, code
    return 'READ', amounts, [(r[0], r[1], number(r[2:])) for r in records]


def sheet(components, split=()):
    """The bytes of a sheet of any records."""
    out = bytes([len(components)])
    for code, amount in components:
        out += bytes([code]) + amount.to_bytes(4, 'big')
    out += bytes([len(split)])
    for system, code, amount in split:
        out += bytes([system, code]) + amount.to_bytes(4, 'big')
    return out


def written(length):
    """Counts of a sheet of this length, over every buffer."""
    return [0, 0, 0, min(length, LARGEST_BUFFER + 1), max(0, LARGEST_BUFFER + 1 - length), 0]


def line(data):
    answer = read(data)
    if answer[0] == 'READ':
        _, amounts, split = answer
        fields = ['READ', *amounts, 'SPLIT', len(split), *(x for r in split for x in r), 'WRITE', *written(len(data))]
    else:
        fields = [x for x in answer if x is not None]
    return ' '.join(map(str, fields))


# The gas of 001 Table A.1, and its starting split.
GAS = [(1, 970797), (2, 16658), (3, 2417), (4, 346), (5, 245), (6, 11), (7, 73), (8, 125), (10, 84), (11, 528),
       (12, 8715)]
START = [(4, 1, 326410), (4, 2, 8402), (4, 3, 1219), (7, 1, 326410), (7, 3, 1219), (7, 14, 765), (8, 1, 326409),
         (8, 2, 8401), (8, 14, 765)]
# Five components, and records that no split should have.
FIVE = [(1, 900000), (2, 60000), (3, 30000), (4, 5000), (5, 5000)]
ODD = [(0, 0, 0), (255, 255, U32), (20, 9, 1), (7, 13, 256), (7, 3, 65536), (7, 3, 16777216), (2, 14, 100), (1, 2, 3),
       (9, 9, 9)]

# Methane and ethane, and its starting split; methane alone.
LEAN = [(1, 970000), (2, 10000), (11, 20000)]
LEAN_START = [(4, 1, 494898), (4, 2, 5102), (4, 3, 0), (8, 1, 494898), (8, 2, 5102), (8, 14, 0)]
ALONE = [(1, 980000), (11, 20000)]

# All twelve components, and the fifteen records of five systems; as many records as there may be; methane and hydrogen.
BLEND = [(1, 800000), (2, 60000), (3, 20000), (4, 1000), (5, 1000), (6, 100), (7, 1000), (8, 1000), (10, 1000),
         (11, 50000), (12, 14900), (15, 50000)]
BLEND_SPLIT = [(1, 1, 171000), (1, 2, 21000), (1, 15, 17800), (4, 1, 170999), (4, 2, 21000), (4, 3, 10667),
               (5, 1, 170999), (5, 3, 10666), (5, 15, 17800), (6, 1, 170999), (6, 14, 6300), (6, 15, 17799),
               (8, 1, 170999), (8, 2, 20999), (8, 14, 6299)]
MOST = BLEND_SPLIT + ODD[:6]
HYDROGEN = [(1, 950000), (15, 50000)]


def truncations():
    for good in (sheet(GAS), sheet(FIVE, ODD), sheet(GAS, START), sheet(LEAN, LEAN_START), sheet(BLEND),
                 sheet(BLEND, BLEND_SPLIT), sheet(BLEND, MOST)):
        for n in range(len(good) + 1):
            yield good[:n]


def extensions():
    for good in (sheet(FIVE), sheet(GAS, START), sheet(LEAN, LEAN_START), sheet(BLEND, BLEND_SPLIT)):
        for byte in range(256):
            yield good + bytes([byte])
    for byte in (0, 10, 15, 255):
        yield sheet(BLEND, MOST) + bytes([byte])
    yield sheet(BLEND, MOST) + bytes(6)


def flips():
    for good in (sheet(GAS), sheet(FIVE, ODD), sheet(LEAN, LEAN_START), sheet(HYDROGEN, BLEND_SPLIT[:6])):
        for i in range(len(good)):
            for bit in range(8):
                yield good[:i] + bytes([good[i] ^ 1 << bit]) + good[i + 1:]


def counts():
    """Counts, each with so many records after it, and with one byte less and more."""
    many = [(k, 100) for k in range(1, 256)]
    for n in (0, 1, 10, 11, 12, 13, 14, 128, 255):
        whole = sheet(many[:n])
        yield from (whole, whole[:-1], whole + b'\0')
    # Twelve components that are known, and thirteen.
    for more in ([], [(15, 100)], [(16, 100)], [(255, 100)]):
        for split in ((), BLEND_SPLIT, MOST):
            yield sheet(BLEND + more, split)
    for n in (*range(26), 127, 128, 255):
        for base in (GAS, LEAN, ALONE, BLEND, HYDROGEN):
            whole = sheet(base, [(4, 1, n)] * n)
            yield from (whole, whole[:-1], whole + b'\0')
    # Counts with another one's records.
    for split, n in ((LEAN_START, 9), (START, 6), (BLEND_SPLIT, 12), (BLEND_SPLIT, 18), (BLEND_SPLIT[:12], 15),
                     (MOST, 18)):
        for base in (LEAN, BLEND):
            whole = sheet(base, split)
            at = 1 + COMPONENT_SIZE * len(base)
            yield whole[:at] + bytes([n]) + whole[at + 1:]
    for n in (8, 12, 13, 255):
        yield bytes([n]) + sheet(GAS)[1:]
        yield sheet(GAS)[:-1] + bytes([n])
        yield bytes([n]) + sheet(GAS, START)[1:]
        yield sheet(GAS, START)[:56] + bytes([n]) + sheet(GAS, START)[57:]


def put(records, place, code=None, amount=None):
    old = records[place]
    new = (old[0] if code is None else code, old[1] if amount is None else amount)
    return records[:place] + [new] + records[place + 1:]


def codes():
    for place in range(len(GAS)):
        for code in (0, 9, 13, 14, 15, 16, 128, 255):
            yield sheet(put(GAS, place, code))
            yield sheet(put(GAS, place, code), START)
    for place in range(len(BLEND)):
        for code in (0, 9, 13, 14, 15, 16, 17, 31, 255):
            yield sheet(put(BLEND, place, code))
            yield sheet(put(BLEND, place, code), BLEND_SPLIT)
        # hydrogen's record before another
        yield sheet(BLEND[:place] + BLEND[-1:] + BLEND[place:-1])
    for place in range(len(GAS)):
        for code in sorted({1, GAS[place - 1][0] - 1, GAS[place - 1][0], GAS[(place + 1) % len(GAS)][0]}):
            yield sheet(put(GAS, place, code))
    yield sheet(GAS[::-1])
    # The earlier record decides, then 2 before 3 before 4; 1 before all, 5 and 6 after.
    for first in (0, 9, 13, 14, 1, 15, 16):
        for second in (0, 9, 13, 14, 1, 15, 16):
            both = put(put(GAS, 4, first), 7, second)
            yield from (sheet(both), sheet(both) + b'\0', sheet(put(both, 0, None, 0)))
            yield sheet(put(both, 10, None, U32), START)
    # The code before counts also where its amount is out of range, and a retired code below it stays retired.
    yield sheet([(12, 8715), (9, 100)])
    yield sheet([(12, 8715), (11, 528)])
    yield sheet([(1, 0), (1, 970797)])
    yield sheet([(9, 100)])
    yield sheet([(13, 100)])
    yield sheet([(2, 100), (14, 100)])
    yield from (sheet([(15, 100)]), sheet([(16, 100)]), sheet([(15, 100), (14, 100)]), sheet([(15, 100), (15, 100)]))
    yield from (sheet([(15, 0), (12, 8715)]), sheet([(12, 8715), (15, 0)]), sheet([(15, 100), (13, 100)]))
    yield from (bytes([]), bytes([0]), bytes([0, 0]), bytes([0, 0, 0]))
    yield bytes.fromhex('01090000006400')


def amounts():
    """Each code at and about its ends, listed with the total kept where methane can keep it."""
    for base, place in [(GAS, place) for place in range(len(GAS))] + [(BLEND, 1), (BLEND, 11), (HYDROGEN, 1)]:
        code = base[place][0]
        least, greatest = RANGE[code]
        for amount in (0, 1, 49, 50, 99, 100, least - 1, least, least + 1, greatest - 1, greatest, greatest + 1,
                       1 << 24, 1 << 31, U32):
            if not 0 <= amount <= U32:
                continue
            changed = put(base, place, None, amount)
            if code != 1:
                rest = 1000000 - sum(x for c, x in changed if c != 1)
                changed = put(changed, 0, None, rest if 0 <= rest <= U32 else base[0][1])
            yield sheet(changed)
    # Each code left out: methane is at fault, the others absent.
    for base in (GAS, BLEND):
        for place, (code, amount) in enumerate(base):
            yield sheet(put(base, 0, None, base[0][1] + amount)[:place] + base[place + 1:])
            yield sheet(base[:place] + base[place + 1:])
    # Every set of codes 2 to 5 absent, also with neither inert gases nor pentanes, and each of them listed at 0.
    for bits in range(16):
        absent = {2 + k for k in range(4) if bits >> k & 1}
        for base in (GAS, FIVE, BLEND):
            left = sum(x for c, x in base if c in absent)
            yield sheet([(c, x + left if c == 1 else x) for c, x in base if c not in absent])
            yield sheet([(c, 0 if c in absent else x + left if c == 1 else x) for c, x in base])
    # Methane with one other, and alone.
    yield from (sheet(LEAN), sheet(LEAN, LEAN_START), sheet(LEAN, START), sheet(ALONE), sheet(ALONE, LEAN_START))
    yield from (sheet([(1, 999700), (12, 300)]), sheet([(1, 999700), (3, 300)]), sheet([(1, 999700), (6, 300)]))
    yield from (sheet([(1, 999690), (4, 10), (12, 300)]), sheet([(1, 999691), (4, 9), (12, 300)]))
    yield sheet([(1, 1000000)])
    # Methane at its ends.
    yield sheet([(1, 999700), (2, 100), (3, 100), (4, 50), (5, 50)])
    yield sheet([(1, 999701), (2, 100), (3, 100), (4, 50), (5, 49)])
    for methane, hexanes, hydrogen in ((400000, 6100, 0), (413900, 6100, 0), (400000, 6100, 13900),
                                       (399999, 6100, 13901), (399999, 6101, 13900)):
        yield sheet([(1, methane), (2, 150000), (3, 60000), (4, 40000), (5, 40000), (7, 20000), (8, 20000),
                     (10, hexanes), (11, 100000), (12, 150000)] + [(15, hydrogen)] * (hydrogen > 0))
    # Hexanes+ at its ceiling, above it, and at the ceiling before request One: listed in each kind of gas, with and
    # without a split; before it a code that is out of order, unknown or retired, or a byte left over; beside it another
    # code at fault, below and above; and a total out of range.
    for amount in (6099, 6100, 6101, 6102, 10000, 14999, 15000, 15001):
        for base, split in ((GAS, ()), (GAS, START), (BLEND, BLEND_SPLIT), ([(1, 990000), (10, 10000)], LEAN_START)):
            at = [c for c, _ in base].index(10)
            right = put(put(base, at, None, amount), 0, None, base[0][1] + base[at][1] - amount)
            yield from (sheet(right, split), sheet(right, split) + b'\0', sheet(right, split[:-1]))
            yield from (sheet(put(right, 0, code), split) for code in (0, 9, 10, 11))
            for other, wrong in ((0, 399999), (0, 999701), (len(base) - 1, 9), (len(base) - 1, U32)):
                yield sheet(put(right, other, None, wrong), split)
            for total in (-200, 200):
                yield sheet(put(right, 0, None, right[0][1] + total), split)
    # Ethane 99 and 100.
    yield sheet([(1, 969901), (2, 99), (3, 20000), (4, 5000), (5, 5000)])
    yield sheet([(1, 969900), (2, 100), (3, 20000), (4, 5000), (5, 5000)])
    # 5 before 6, one code at fault or two.
    yield sheet(put(put(GAS, 1, None, 99), 0, None, 400000))
    yield sheet(put(put(GAS, 1, None, 150001), 9, None, 100001))


def faults():
    """Several codes at fault, in the sheet that lists every code."""
    def wrong(amounts, absent=()):
        """BLEND with other amounts {code: amount}, and without some codes."""
        return sheet([(c, amounts.get(c, x)) for c, x in BLEND if c not in absent])

    # Listed at 0 beside an amount out of range, on either side; methane absent as well, or listed at 0.
    for others in ({6: 0, 7: 20001}, {2: 99, 6: 0}, {2: 150001, 6: 0, 7: 9}, {6: 9, 7: 0, 8: 20001},
                   {6: 0, 7: 9, 8: 0}):
        yield from (wrong(others), wrong(others, [1]), wrong({1: 0, **others}), wrong({1: 399999, **others}))
        yield wrong(others, [c for c, _ in BLEND if c not in others and c != 1])
        yield wrong(others, [c for c, _ in BLEND if c not in others])
    # Every two codes, each out of range or listed at 0; the first absent, which is a fault of methane alone; and the
    # first with all from the second on.
    for i, (first, _) in enumerate(BLEND):
        for second, _ in BLEND[i + 1:]:
            low, high = RANGE[first][0] - 1, RANGE[second][1] + 1
            yield from (wrong({first: low, second: high}), wrong({first: low, second: 0}))
            yield from (wrong({first: 0, second: high}), wrong({first: 0, second: 0}))
            yield from (wrong({second: high}, [first]), wrong({second: 0}, [first]))
            later = {c: RANGE[c][1] + 1 if c % 2 else 0 for c, _ in BLEND if c >= second}
            yield from (wrong({first: low, **later}), wrong({first: 0, **later}))
    # All of them at 0, from each code on; without methane too.
    for place in range(len(BLEND)):
        zeros = {c: 0 for c, _ in BLEND[place:]}
        yield from (wrong(zeros), wrong(zeros, [1]))


def totals():
    for base in (GAS, FIVE, LEAN, ALONE, BLEND, HYDROGEN):
        rest = sum(x for c, x in base if c != 1)
        for total in (999899, 999900, 999901, 1000000, 1000099, 1000100, 1000101, 600000, 1100000):
            for split in ((), START, LEAN_START, BLEND_SPLIT):
                yield sheet(put(base, 0, None, total - rest), split)
    # Totals that come into range only where they wrap at 32 bits.
    yield sheet(FIVE + [(11, 1 << 31), (12, 1 << 31)])
    yield sheet(FIVE + [(11, U32), (12, 1)])


def fields():
    yield from counts()
    yield from codes()
    yield from amounts()
    yield from faults()
    yield from totals()


def writings():
    """(amounts by code, split): what a reader would never hand on is refused too."""
    gas, five, lean, alone, blend, hydrogen = ([dict(base).get(code, 0) for code in range(CODES)]
                                               for base in (GAS, FIVE, LEAN, ALONE, BLEND, HYDROGEN))
    for split in ([], START, ODD, LEAN_START, BLEND_SPLIT, MOST):
        yield from ((gas, split), (five, split), (lean, split), (alone, split), ([0] * CODES, split))
        yield from ((blend, split), (hydrogen, split))
        for amount in (9, 10, 100000, 100001):
            yield [0, 900000 - amount, 100000] + [0] * 12 + [amount], split
        for amount in (6100, 6101, 15000):
            yield [0, 900000 - amount, 100000] + [0] * 7 + [amount] + [0] * 5, split
        yield blend[:14] + [1] + blend[15:], split
        for code in range(CODES):
            for amount in (0, 1, 9, 99, 100, 40000, 1000000, U32):
                yield gas[:code] + [amount] + gas[code + 1:], split
        for total in (999899, 999900, 1000100, 1000101):
            yield [0, total - sum(five[2:])] + five[2:], split
            yield [0, total - sum(gas[2:])] + gas[2:], split
        # Totals that come into range only where they wrap at 32 bits.
        yield five[:11] + [1 << 31, 1 << 31] + five[13:], split
        yield five[:11] + [U32, 1] + five[13:], split
    # Counts that are not allowed, before 5 and 6.
    for n in (*range(1, 25), 127, 128, 255):
        for split in ([(4, 1, n)] * n, (MOST * 13)[:n]):
            yield from ((gas, split), (lean, split), (alone, split), (blend, split))
            yield from (([0] * CODES, split), ([0, 900000] + gas[2:], split))
    # Several codes at fault, those without a range among them: every two, and all from each on; methane absent.
    def wrong(code):
        return RANGE[code][1] + 1 if code in RANGE else 1
    for first in range(CODES):
        for second in range(first + 1, CODES):
            yield [wrong(c) if c in (first, second) else x for c, x in enumerate(blend)], []
            yield [0 if c == 1 else wrong(c) if c in (first, second) else x for c, x in enumerate(gas)], START
        yield [wrong(c) if c >= first else x for c, x in enumerate(gas)], []
        yield [0 if c == 1 else wrong(c) if c >= first else x for c, x in enumerate(blend)], BLEND_SPLIT


def write_case(analysis, split):
    """The case's bytes, and its line."""
    refused, code = checked(analysis, [c for c in range(CODES) if analysis[c]])
    if len(split) not in SPLIT_COUNTS:
        refused, code = 1, None
    records = (split + [(0, 0, 0)] * MOST_RECORDS)[:MOST_RECORDS]
    body = b''.join(a.to_bytes(4, 'big') for a in analysis) + bytes([len(split)])
    body += b''.join(bytes([s, c]) + a.to_bytes(4, 'big') for s, c, a in records)
    body += bytes([NO_FAULT if code is None else code])
    if refused:
        counted = [LARGEST_BUFFER + 1 if number == refused else 0 for number in (1, 5, 6, 14)] + [0, 0]
    else:
        out = sheet([(c, analysis[c]) for c in range(CODES) if analysis[c]], split)
        counted, body = written(len(out)), body + out
    return body, ' '.join(map(str, ['WRITE', *counted]))


def packed(cases):
    """A data file."""
    out = len(cases).to_bytes(2, 'big')
    for data in cases:
        out += len(data).to_bytes(2, 'big') + data
    return out


def once(cases):
    return list(dict.fromkeys(cases))


def files():
    """Every file by its path under the crate."""
    made, out = {}, []
    for topic in (truncations, extensions, flips, fields):
        cases = once(topic())
        made['data/' + topic.__name__] = packed(cases)
        out += [topic.__name__] + [line(data) for data in cases]
    cases = once(write_case(a, s) for a, s in writings())
    made['data/writings'] = packed([data for data, _ in cases])
    out += ['writings'] + [text for _, text in cases]
    made['stdout'] = ('\n'.join(out) + '\n').encode()
    return made


def self_test():
    """What document 01 names, of the reader above."""
    assert line(bytes.fromhex('01090000006400')) == 'REFUSED 3 0'
    assert len(sheet(GAS, START)) == 111 and read(sheet(GAS, START))[0] == 'READ'
    rest = sum(x for c, x in GAS if c != 1)
    for total, answer in ((999899, 'REFUSED 6'), (999900, 'READ'), (1000100, 'READ'), (1000101, 'REFUSED 6')):
        assert line(sheet(put(GAS, 0, None, total - rest))).startswith(answer)
    assert line(sheet([(1, 969901), (2, 99), (3, 20000), (4, 5000), (5, 5000)])) == 'REFUSED 5 2'
    assert line(sheet([(1, 969900), (2, 100), (3, 20000), (4, 5000), (5, 5000)])).startswith('READ')
    # and request One
    for amount, answer in ((6100, 'READ'), (6101, 'REFUSED 5 10'), (15000, 'REFUSED 5 10'), (15001, 'REFUSED 5 10')):
        assert line(sheet([(1, 990000 - amount), (2, 10000), (10, amount)])).startswith(answer)
        assert line(sheet([(1, 990000 - amount), (2, 99), (10, amount)])) == 'REFUSED 5 2'
        assert line(sheet([(1, 990000 - amount), (10, amount), (9, 100)])) == 'REFUSED 3 2'
    # and request Four
    for records, code in (([(1, 970000), (6, 0), (7, 20001)], 6), ([(6, 0), (7, 20001)], 1),
                          ([(1, 970000), (2, 99), (6, 0)], 2), ([(1, 970000), (3, 60001), (6, 0), (8, 9)], 3),
                          ([(1, 970000), (8, 0), (15, 0)], 8), ([(1, 0), (2, 0)], 1), ([(2, 99), (6, 0)], 1)):
        assert line(sheet(records)) == 'REFUSED 5 %d' % code
    for amounts, code in (({0: 1, 1: 0, 2: 99}, 0), ({1: 0, 9: 1}, 1), ({9: 1, 10: 9}, 9), ({12: 49, 13: 1}, 12),
                          ({13: 1, 14: 1}, 13), ({14: 1, 15: 9}, 14)):
        analysis = [amounts.get(c, dict(GAS).get(c, 0)) for c in range(CODES)]
        assert checked(analysis, [c for c in range(CODES) if analysis[c]]) == (5, code)
    # and request Five
    assert line(sheet(LEAN, LEAN_START)).startswith('READ') and line(sheet(ALONE)).startswith('READ')
    assert line(sheet(GAS, START[:3])) == line(sheet(LEAN, START + START[:1])) == 'REFUSED 1'
    assert line(sheet(GAS[1:])) == 'REFUSED 5 1' and line(sheet(LEAN[:2] + [(3, 0)] + LEAN[2:])) == 'REFUSED 5 3'
    # and request Seven
    assert sum(x for _, x in BLEND) == sum(x for _, x in HYDROGEN) == 1000000
    assert len(sheet(BLEND, MOST)) == 188 == LARGEST_BUFFER - 1 and len(BLEND) == MOST_COMPONENTS
    assert line(sheet(BLEND, MOST)).startswith('READ') and line(sheet(HYDROGEN)).startswith('READ')
    assert line(sheet(BLEND, MOST) + b'\0') == line(sheet(BLEND + [(16, 1)])) == 'REFUSED 1'
    assert line(sheet([(1, 950000), (15, 50000), (12, 50)])) == 'REFUSED 4 2'
    assert line(sheet([(1, 950000), (14, 50000)])) == line(sheet([(1, 950000), (16, 50000)])) == 'REFUSED 2 1'
    for amount, answer in ((0, 'REFUSED 5'), (9, 'REFUSED 5'), (10, 'READ'), (100000, 'READ'), (100001, 'REFUSED 5')):
        assert line(sheet([(1, 900000 - amount), (2, 100000), (15, amount)])).startswith(answer)


def main():
    self_test()
    made = files()
    if sys.argv[1:] == ['--check']:
        wrong = []
        for path, data in made.items():
            full = os.path.join(CRATE, path)
            if not os.path.exists(full) or open(full, 'rb').read() != data:
                wrong.append(path)
        wrong += ['data/' + f for f in os.listdir(os.path.join(CRATE, 'data')) if 'data/' + f not in made]
        if wrong:
            sys.exit('sheet_cases.py: not as generated: ' + ' '.join(sorted(wrong)))
        print(f'sheet_cases.py: {made["stdout"].count(10)} lines, as generated')
        return
    if sys.argv[1:]:
        sys.exit(__doc__)
    os.makedirs(os.path.join(CRATE, 'data'), exist_ok=True)
    for path, data in made.items():
        with open(os.path.join(CRATE, path), 'wb') as out:
            out.write(data)


main()
