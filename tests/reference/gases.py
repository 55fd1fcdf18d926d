"""Seeded, repeatable sheets for comparing a program with the reference.

sheets(seed)        yields (kind, bytes) without end
answer(sheet)       the reference's answer to one sheet
search_cases(seed)  yields (analysis, allowance); answers by saugrinte.search
split_cases(seed)   yields (kind, analysis, records); by saugrinte.rate_split
partial_cases(seed) yields (system, n1, n2, n3); by saugrinte.partial_number
share_cases(seed)   the same, at the ends of the systems' ranges; comes to an end
writer_cases(seed)  yields (analysis, split or None, buffer size)

Command line:
  gases.py SEED COUNT           one line a sheet: kind, bytes in base sixteen,
                                display line
  gases.py --time SEED COUNT    seconds and answers by kind
  gases.py --rounds SEED COUNT  rounds, refusal 11 and seconds of searches
"""

import sys
import time
from functools import lru_cache
from itertools import combinations
from math import gcd
from typing import NamedTuple

import independent as ref

U32 = 1 << 32
CODES = sorted(ref.RANGE)
FULL = (1, 2, 3, 4, 5)      # in every gas that is not lean
BUTANE_CODES = (4, 5, 6, 7, 8, 10)      # what the mixture's butane comes from

# The components present beside methane, every set of them, none to all: the
# eight sets without hydrogen, then the same with it.
SETS = tuple(frozenset(c for place, c in enumerate((ref.E, ref.P, ref.B, ref.H))
                       if bits >> place & 1) for bits in range(16))


class Draw:
    """xorshift, 64 bits: left 13, right 7, left 17."""

    def __init__(self, seed):
        self.x = (seed * 0x9E3779B97F4A7C15 + 0x1234567) % (1 << 64) or 1
        for _ in range(8):
            self.step()

    def step(self):
        x = self.x
        x ^= x << 13 & 0xFFFFFFFFFFFFFFFF
        x ^= x >> 7
        x ^= x << 17 & 0xFFFFFFFFFFFFFFFF
        self.x = x
        return x

    def below(self, n):
        return (self.step() >> 16) % n

    def between(self, least, greatest):
        return least + self.below(greatest - least + 1)

    def one_in(self, n):
        return self.below(n) == 0

    def pick(self, items):
        return items[self.below(len(items))]


# ----------------------------------------------------------- analyses

def amount_even(draw, code):
    return draw.between(*ref.RANGE[code])


def amount_small(draw, code):
    """Even over the number of binary digits, so that traces are common."""
    least, greatest = ref.RANGE[code]
    room = greatest - least
    top = 1 << draw.below(room.bit_length() + 1)
    return least + draw.below(min(top, room + 1))


def amount_limit(draw, code):
    least, greatest = ref.RANGE[code]
    return draw.pick((least, least + 1, greatest - 1, greatest))


def amount_rich(draw, code):
    """Much butane and inert gas."""
    least, greatest = ref.RANGE[code]
    if code in (2, 3):
        return draw.between(least, greatest)
    return draw.between(greatest - greatest // 8, greatest)


def amount_high(draw, code):
    greatest = ref.RANGE[code][1]
    return draw.between(greatest // 2, greatest)


def amount_most(draw, code):
    greatest = ref.RANGE[code][1]
    return draw.between(greatest - greatest // 32, greatest)


def gas(draw, amount, absent_one_in=4, hydrogen=False):
    """An analysis in range; methane takes the rest of the total.  No code is
    absent where absent_one_in is None."""
    while True:
        a = [0] * ref.CODES
        for code in CODES[1:]:
            if code == 15:
                if not hydrogen:
                    continue
            elif code not in FULL and absent_one_in \
                    and draw.one_in(absent_one_in):
                continue
            a[code] = amount(draw, code)
        total = draw.pick((1000000, 999900, 1000100,
                           draw.between(999900, 1000100)))
        a[1] = total - sum(a)
        if not ref.check(a):
            return tuple(a)


def even_gas(draw):
    return gas(draw, amount_even)


def small_gas(draw):
    return gas(draw, amount_small)


def limits(draw, code):
    return draw.pick((amount_limit, amount_limit, amount_even))(draw, code)


def limit_gas(draw):
    return gas(draw, limits)


def butane_gas(draw, hydrogen=False):
    """Butane weighs as much as methane, 100 times the one 48 times the other,
    or more, so that system 2 can be chosen: nearly the most of all that makes
    butane, little methane, and inert gases for the rest."""
    while True:
        a = [0] * ref.CODES
        for code in BUTANE_CODES:
            a[code] = amount_most(draw, code)
        for code in (2, 3):
            a[code] = (amount_even if hydrogen else amount_most)(draw, code)
        if hydrogen:
            a[15] = amount_even(draw, 15)
        a[1] = draw.between(ref.RANGE[1][0], 100 * ref.tenths(a)[ref.B] // 480)
        rest = draw.between(999900, 1000100) - sum(a)
        if not 100 <= rest <= 250000:
            continue
        a[11] = draw.between(max(50, rest - 150000), min(100000, rest - 50))
        a[12] = rest - a[11]
        if not ref.check(a):
            return tuple(a)


def rich_gas(draw):
    return butane_gas(draw) if draw.one_in(2) else gas(draw, amount_rich, 64)


def tie_gas(draw):
    """Ethane equal to propane, or to butane, or all three: equal remainders."""
    while True:
        a = list(small_gas(draw))
        for code in (6, 7, 8, 10):
            a[code] = 0
        x = draw.between(100, 60000)
        first = draw.between(10, x - 10)
        which = draw.below(4)
        if which != 0:
            a[2] = x
        if which != 1:
            a[3] = x
        if which != 2:
            a[4], a[5] = first, x - first
        a[1] = 0
        a[1] = draw.between(999900, 1000100) - sum(a)
        if not ref.check(a):
            return tuple(a)


def some_of(draw, items):
    """At least one of the items: often one alone, or all."""
    which = draw.below(3)
    if which == 0:
        return (draw.pick(items),)
    if which == 1:
        return items
    return tuple(x for x in items if draw.one_in(2)) or items[:1]


def set_gas(draw, components, butanes=BUTANE_CODES):
    """An analysis in range with just these components beside methane; butane
    from some of the codes named."""
    while True:
        a = [0] * ref.CODES
        amount = draw.pick((amount_small, amount_small, amount_even,
                            amount_limit))
        codes = [code for c, code in ((ref.E, 2), (ref.P, 3), (ref.H, 15))
                 if c in components]
        if ref.B in components:
            codes += some_of(draw, butanes)
        for code in codes:
            a[code] = amount(draw, code)
        for code in (11, 12):
            if not draw.one_in(3):
                a[code] = amount(draw, code)
        a[1] = draw.pick((1000000, 999900, 1000100,
                          draw.between(999900, 1000100))) - sum(a)
        if not ref.check(a):
            return tuple(a)


def lean_gas(draw):
    """Two or three components present."""
    return set_gas(draw, draw.pick(SETS[1:7]))


def heavy_gas(draw):
    """Pentanes and hexanes+ in place of butanes, with or without others."""
    return set_gas(draw, draw.pick(SETS[4:8]), BUTANE_CODES[2:])


def rich_lean_gas(draw):
    """Much butane and no propane.  System 2 cannot be chosen: there is always
    methane enough to outweigh the butane."""
    while True:
        a = [0] * ref.CODES
        a[2] = amount_even(draw, 2)
        for code in (*BUTANE_CODES, 11, 12):
            a[code] = amount_rich(draw, code)
        a[1] = draw.between(999900, 1000100) - sum(a)
        if not ref.check(a):
            return tuple(a)


def trace_gas(draw):
    """One component beside methane, at its least amount or little more."""
    a = [0] * ref.CODES
    code = draw.pick((2, 3, *BUTANE_CODES, 15))
    a[code] = ref.RANGE[code][0] + draw.pick((0, 0, 1, draw.below(10)))
    inert = draw.pick((11, 12))
    a[inert] = draw.between(500, 100000)
    if draw.one_in(2):
        a[23 - inert] = draw.between(50, 100000)
    a[1] = draw.between(999900, 1000100) - sum(a)
    assert not ref.check(a)
    return tuple(a)


def alone_gas(draw):
    """Methane and inert gases alone: refused 16."""
    return set_gas(draw, SETS[0])


def even_blend(draw):
    return gas(draw, amount_even, 4, True)


def small_blend(draw):
    return gas(draw, amount_small, 4, True)


def limit_blend(draw):
    return gas(draw, limits, 4, True)


def rich_blend(draw):
    return butane_gas(draw, True) if draw.one_in(2) \
        else gas(draw, amount_rich, 64, True)


def lean_blend(draw):
    """Two to four components present, hydrogen one of them."""
    return set_gas(draw, draw.pick(SETS[8:15]))


def tie_blend(draw):
    """Hydrogen equal to ethane, to propane, or to butane, or to several of
    them: equal remainders."""
    while True:
        a = list(small_blend(draw))
        for code in (6, 7, 8, 10):
            a[code] = 0
        x = draw.between(100, 60000)
        first = draw.between(10, x - 10)
        same = draw.between(1, 7)
        a[15] = x
        if same & 1:
            a[2] = x
        if same & 2:
            a[3] = x
        if same & 4:
            a[4], a[5] = first, x - first
        a[1] = 0
        a[1] = draw.between(999900, 1000100) - sum(a)
        if not ref.check(a):
            return tuple(a)


def fitness_tie_blend(draw):
    """Systems that differ in one component are equally fit: two or more of
    ethane, propane, butane and hydrogen add as much to the fitness.  T is
    8000000, and all amounts are multiples of 4, so that the simplified ones
    are exactly 5/4 of these."""
    while True:
        a = [0] * ref.CODES
        k = draw.between(2, 500)
        equal = draw.between(3, 15)     # a bit for each of the four
        if equal in (4, 8):
            continue
        for bit, (code, share) in enumerate(((2, 128), (3, 120), (4, 96),
                                             (15, 100))):
            a[code] = share * k if equal >> bit & 1 else \
                4 * (amount_small(draw, code) // 4)
        a[4], a[5] = a[4] // 2, a[4] - a[4] // 2
        a[1] = 800000 - sum(a)
        a[11] = draw.between(50000, 100000)
        a[12] = 200000 - a[11]
        if not ref.check(a):
            amounts = ref.simplify(a)
            same = {ref.FITNESS_WEIGHT[c] * amounts[c]
                    for bit, c in enumerate((ref.E, ref.P, ref.B, ref.H))
                    if equal >> bit & 1}
            assert len(same) == 1
            return tuple(a)


BLENDS = (even_blend, small_blend, small_blend, limit_blend, rich_blend,
          lean_blend, lean_blend, tie_blend, fitness_tie_blend)
GASES = (even_gas, even_gas, small_gas, small_gas, small_gas, limit_gas,
         limit_gas, rich_gas, rich_gas, tie_gas, lean_gas, lean_gas, heavy_gas,
         rich_lean_gas, trace_gas, alone_gas, *BLENDS)


def any_gas(draw):
    return draw.pick(GASES)(draw)


# ------------------------------------------------------- mole analyses

# The same codes and ranges, and the same totals; no hydrogen.
MOLE_CODES = sorted(ref.FACTOR)
MOLE_GASES = tuple(make for make in GASES if make not in BLENDS)


def mole_gas(draw):
    while True:
        a = draw.pick(MOLE_GASES)(draw)
        if not a[ref.HYDROGEN]:
            return a


def moles_with(draw, code, amount):
    """A mole analysis with so much of a code, in range but for that.  Methane
    makes up the total, or where it is named, the others as far as they can."""
    while True:
        a = list(mole_gas(draw))
        a[code] = amount
        total = draw.between(999900, 1000100)
        if code != 1:
            a[1] = 0
            a[1] = total - sum(a)
            if in_own_range(a, 1):
                return tuple(a)
            continue
        a[2:] = [0] * (ref.CODES - 2)
        for other in draw.pick(((12, 2, 11), (3, 4, 12), (2, 10, 5), CODES[1:])):
            if other in MOLE_CODES and total - sum(a) >= ref.RANGE[other][0]:
                a[other] = min(total - sum(a), ref.RANGE[other][1])
        return tuple(a)


def in_own_range(analysis, code):
    least, greatest = ref.RANGE[code]
    return least <= analysis[code] <= greatest


def half_moles(draw):
    """Some volume amounts made fall on a half: the products add up to D
    millions for an even D, so that an amount's volume is its product over D,
    and methane's product is D/2 more than a multiple of D."""
    while True:
        a = list(draw.pick((small_gas, even_gas, lean_gas))(draw))
        a[11] = draw.between(*ref.RANGE[11])
        whole = sum(x * f for x, f in zip(a, FACTORS))
        d = 2 * (whole // (2 * sum(a)))
        step = d // gcd(FACTORS[1], d)
        a[1] = a[11] = a[12] = 0
        first = next((m for m in range(step)
                      if m * FACTORS[1] % d == d // 2), None)
        if a[ref.HYDROGEN] or first is None:
            continue
        others = sum(x * f for x, f in zip(a, FACTORS))
        inverse = pow(FACTORS[11], -1, FACTORS[12])
        found = []
        for methane in range(first, ref.RANGE[1][1] + 1, step):
            rest = 1000000 * d - others - methane * FACTORS[1]
            for carbon in range(rest * inverse % FACTORS[12],
                                ref.RANGE[11][1] + 1, FACTORS[12]):
                b = list(a)
                b[1], b[11] = methane, carbon
                b[12] = (rest - carbon * FACTORS[11]) // FACTORS[12]
                if min(b) >= 0 and not ref.check_moles(b):
                    found.append(tuple(b))
        if found:
            return draw.pick(found)


FACTORS = [ref.FACTOR.get(code, 0) for code in range(ref.CODES)]

# Where the volume made of an amount in range can lie outside that range: of
# the least amount below it, of the greatest above.
BELOW, ABOVE = (2, 3, 8, 10), (1, 2, 11, 12)


def beyond_moles(draw, code, above):
    """A mole analysis whose volume of a code is out of range, above it or
    below, and that is not methane alone."""
    end = ref.RANGE[code][above]
    while True:
        if above and code in (2, 11):       # among much that is heavy
            a = list(gas(draw, amount_high))
            a[12] = draw.pick((0, a[12]))
            a[code] = end
            a[1] = 0
            a[1] = draw.between(999900, 1000100) - sum(a)
        else:
            a = list(moles_with(draw, code, end))
        if ref.check_moles(a) or not any(a[2:11]):
            continue
        volume = ref.volumes_of(a)[code]
        if volume > end if above else volume < end:
            return tuple(a)


# -------------------------------------------------------------- splits

def held_of(records):
    held = {}
    for s, code, amount in records:
        held.setdefault(s, {})[ref.SPLIT_CODE.index(code)] = amount
    return held


def records_of(held):
    systems = sorted(held)
    return tuple((s, ref.SPLIT_CODE[c], held[s][c])
                 for s, c in ref.expected(systems))


def start_split(analysis):
    amounts = ref.simplify(analysis)
    return records_of(ref.start(amounts, ref.choose(amounts)))


def random_split(draw, analysis):
    """Re-sums; most are wide."""
    amounts = ref.simplify(analysis)
    systems = ref.choose(amounts)
    held = {s: {} for s in systems}
    for c in ref.COMPONENTS:
        sharing = [s for s in systems if c in ref.FORMULA_ORDER[s]]
        if not sharing:     # it is absent
            continue
        rest = amounts[c]
        for s in sharing[:-1]:
            held[s][c] = draw.between(0, rest)
            rest -= held[s][c]
        held[sharing[-1]][c] = rest
    return records_of(held)


def moved(draw, records, most):
    """A few parts carried between systems; still re-sums."""
    held = held_of(records)
    for _ in range(draw.between(1, 4)):
        c, giver, taker = draw.pick(ref.moves(sorted(held)))
        parts = min(held[giver][c], draw.between(0, most))
        held[giver][c] -= parts
        held[taker][c] += parts
    return records_of(held)


def emptied(draw, records):
    """All of one system carried to the others; re-sums."""
    held = held_of(records)
    drained = draw.pick(sorted(held))
    for c in list(held[drained]):
        takers = [s for s in sorted(held) if s != drained and c in held[s]]
        if takers:          # else it is absent
            held[draw.pick(takers)][c] += held[drained][c]
            held[drained][c] = 0
    if draw.one_in(4):      # one part left: no longer empty
        for c in held[drained]:
            giver = next((s for s in sorted(held) if s != drained
                          and held[s].get(c, 0) > 0), None)
            if giver is not None:
                held[giver][c] -= 1
                held[drained][c] += 1
                break
    return records_of(held)


def spread_at(held):
    return ref.spread_of([ref.number_of(s, held[s]) for s in held])


def border(draw, records):
    """From a found split along one move, to one part inside the spread limit
    or one part outside; the found split if the move never leaves it."""
    held = held_of(records)
    c, giver, taker = draw.pick(ref.moves(sorted(held)))
    least, greatest = 0, held[giver][c]
    if greatest == sum(held[giver].values()):
        greatest -= 1

    def at(parts):
        out = {s: dict(held[s]) for s in held}
        out[giver][c] -= parts
        out[taker][c] += parts
        return out

    if greatest < 1 or spread_at(at(greatest)) <= ref.SPREAD_LIMIT:
        return records
    while greatest - least > 1:
        middle = (least + greatest) // 2
        if spread_at(at(middle)) <= ref.SPREAD_LIMIT:
            least = middle
        else:
            greatest = middle
    return records_of(at(draw.pick((least, greatest))))


def off_by(draw, records, step):
    """One record changed by `step` parts, modulo 2^32."""
    out = [list(r) for r in records]
    out[draw.below(len(out))][2] += step
    return tuple((s, c, a % U32) for s, c, a in out)


def wrapped(draw, records):
    """Adds up modulo 2^32 only."""
    out = [list(r) for r in records]
    codes = [r[1] for r in records]
    code = draw.pick([c for c in ref.SPLIT_CODE if codes.count(c) > 1])
    same = [i for i in range(len(out)) if codes[i] == code]
    i = draw.pick(same)
    j = draw.pick([x for x in same if x != i])
    carried = draw.pick((out[i][2] + 1, draw.below(U32),
                         U32 // 2, U32 - 1 - out[j][2]))
    out[i][2] = (out[i][2] - carried) % U32
    out[j][2] = (out[j][2] + carried) % U32
    return tuple(map(tuple, out))


# Two to five of the systems.
CHOICES = tuple(s for n in (2, 3, 4, 5)
                for s in combinations(ref.BLEND_CANDIDATES, n))


def misfit(draw, records):
    """A wrong system, a wrong code, or records in another order."""
    out = [list(r) for r in records]
    which = draw.below(4)
    i = draw.below(len(out))
    if which == 0:
        out[i][0] = draw.pick((0, 1, 2, 3, 4, 5, 6, 7, 8, 20, 255))
    elif which == 1:
        out[i][1] = draw.pick((0, 1, 2, 3, 4, 5, 9, 13, 14, 15, 16, 255))
    elif which == 2:
        j = draw.below(len(out))
        out[i], out[j] = out[j], out[i]
    else:                   # all records of another choice
        systems = draw.pick([s for s in CHOICES if 3 * len(s) == len(out)])
        for record, (s, c) in zip(out, ref.expected(systems)):
            record[0], record[1] = s, ref.SPLIT_CODE[c]
    return tuple(map(tuple, out))


def miscounted(draw, records):
    """A system's three records too few, or three too many: six for nine,
    twelve for fifteen, and nine for six."""
    systems = sorted({s for s, _, _ in records})
    if len(systems) > 3 and draw.one_in(2) or len(systems) == 3:
        left_out = draw.pick((*systems, systems[-1]))
        return tuple(r for r in records if r[0] != left_out)
    other = draw.pick([s for s in ref.BLEND_CANDIDATES if s not in systems])
    more = tuple((s, ref.SPLIT_CODE[c], draw.pick((0, draw.below(1000))))
                 for s, c in ref.expected((other,)))
    out = records + more
    return tuple(sorted(out, key=lambda r: r[0])) if draw.one_in(2) else out


def absent_held(draw, analysis, records):
    """A record of an absent component with an amount that is not 0."""
    there = ref.present(ref.simplify(analysis))
    out = [list(r) for r in records]
    absent = [r for r in out if ref.SPLIT_CODE.index(r[1]) not in there]
    draw.pick(absent)[2] = draw.pick((1, 1, draw.between(1, 1000), U32 - 1))
    return tuple(map(tuple, out))


@lru_cache(maxsize=512)
def searched(analysis):
    return ref.search(analysis)


@lru_cache(maxsize=512)
def searched_moles(moles):
    return ref.search_moles(moles)


class Pool:
    """Gases with found splits; a new one now and then."""

    def __init__(self, draw, size=64, renew_one_in=64):
        self.draw, self.size, self.renew = draw, size, renew_one_in
        self.found = []

    def pick(self):
        if len(self.found) < 4 or self.draw.one_in(self.renew):
            while True:
                analysis = any_gas(self.draw)
                got = searched(analysis)
                if isinstance(got, ref.Rating):
                    break
            self.found.append((analysis, got.split))
            del self.found[:-self.size]
        return self.draw.pick(self.found)


def changed(draw, kind, found):
    """A split of one of these kinds, made from a found one or from another
    that re-sums."""
    if kind == "put-back":
        return found
    if kind == "near":
        return moved(draw, found, draw.pick((3, 30, 300, 3000)))
    if kind == "border":
        return border(draw, found)
    if kind == "miss-by-one":
        return off_by(draw, found, draw.pick((1, -1)))
    if kind == "miss":
        return off_by(draw, found, draw.below(U32))
    if kind == "wrap":
        return wrapped(draw, found)
    if kind == "empty":
        return emptied(draw, found)
    if kind == "all-zero":
        return tuple((s, c, 0) for s, c, _ in found)
    if kind == "misfit":
        return misfit(draw, found)
    if kind == "miscount":
        return miscounted(draw, found)
    raise ValueError(kind)


FOUND_KINDS = ("put-back", "near", "border")
WRONG_KINDS = ("miss-by-one", "miss", "wrap", "empty", "all-zero", "misfit",
               "miscount")


def any_split(draw, pool, kind):
    """(analysis, records) of one kind; see SPLIT_KINDS."""
    if kind == "wide":
        analysis = any_gas(draw)
        return analysis, random_split(draw, analysis)
    if kind == "start":
        analysis = any_gas(draw)
        return analysis, start_split(analysis)
    if kind == "absent-held":
        while True:         # with a record of an absent component
            analysis = draw.pick((lean_gas, lean_gas, trace_gas,
                                  lean_blend))(draw)
            there = ref.present(ref.simplify(analysis))
            if any(ref.SPLIT_CODE.index(code) not in there
                   for _, code, _ in start_split(analysis)):
                break
        return analysis, absent_held(draw, analysis, draw.pick(
            (start_split(analysis), random_split(draw, analysis))))
    if kind == "alone":     # two systems' records, or three's
        analysis = alone_gas(draw)
        records = start_split(analysis)
        return analysis, (miscounted(draw, records) if draw.one_in(2)
                          else misfit(draw, records))
    analysis, found = pool.pick()
    if kind in FOUND_KINDS:
        return analysis, changed(draw, kind, found)
    if draw.one_in(2):      # the rest also from splits not found
        analysis = any_gas(draw)
        found = random_split(draw, analysis)
    if kind in WRONG_KINDS:
        return analysis, changed(draw, kind, found)
    if kind == "other-gas":     # often one of the same systems
        systems = tuple(sorted({s for s, _, _ in found}))
        for _ in range(draw.pick((1, 20))):
            other = any_gas(draw)
            if ref.choose(ref.simplify(other)) == systems:
                break
        return other, found
    raise ValueError(kind)


SPLIT_KINDS = ("put-back", "put-back", "near", "near", "near", "border",
               "border", "wide", "start", "miss-by-one", "miss", "wrap",
               "wrap", "empty", "empty", "all-zero", "misfit", "misfit",
               "miscount", "absent-held", "alone", "other-gas", "other-gas")


# -------------------------------------------------------------- sheets

def sheet_of(listed, records, count=None, split_count=None):
    """A sheet of any records at all, legal or not."""
    out = bytearray([len(listed) if count is None else count])
    for code, amount in listed:
        out += bytes([code]) + (amount % U32).to_bytes(4, "big")
    records = records or ()
    out.append(len(records) if split_count is None else split_count)
    for s, code, amount in records:
        out += bytes([s, code]) + amount.to_bytes(4, "big")
    return bytes(out)


def listed_of(analysis):
    return [(c, a) for c, a in enumerate(analysis) if a]


def random_records(draw):
    return tuple((draw.below(256), draw.below(256), draw.below(U32))
                 for _ in range(draw.pick((6, 9, *ref.SPLIT_COUNTS[1:]))))


def own_records(draw, analysis, records):
    """The records, or as often some of this gas's systems."""
    if records and draw.one_in(2):
        return random_split(draw, analysis)
    return records


def range_sheet(draw, records):
    """One or two amounts at or over a limit.  Half of the time methane makes
    up the total, so that only the limit decides."""
    a = list(any_gas(draw))
    records = own_records(draw, a, records)
    changed = set()
    for _ in range(draw.pick((1, 1, 1, 2))):
        code = draw.pick(CODES)
        least, greatest = ref.RANGE[code]
        a[code] = draw.pick((least - 1, least, greatest, greatest + 1,
                             0, 1, U32 - 1, draw.below(U32)))
        changed.add(code)
    zero = [(c, 0) for c in changed if a[c] == 0 and not draw.one_in(3)]
    if 1 not in changed and draw.one_in(2):
        a[1] = (draw.between(999900, 1000100) - sum(a) + a[1]) % U32
    return sheet_of(sorted(listed_of(a) + zero), records)


def total_sheet(draw, records):
    a = list(any_gas(draw))
    records = own_records(draw, a, records)
    total = draw.pick((999899, 999900, 1000000, 1000100, 1000101,
                       draw.between(900000, 1100000)))
    a[1] += total - sum(a)
    return sheet_of(listed_of(a), records)


def codes_sheet(draw, records):
    """Codes out of order, unknown, retired, twice or absent."""
    listed = listed_of(any_gas(draw))
    for _ in range(draw.pick((1, 1, 2, 3))):
        i = draw.below(len(listed))
        which = draw.below(6)
        if which == 0:
            code = draw.pick((0, 9, 13, 14, 15, 16, 255, draw.below(256)))
            listed[i] = (code, listed[i][1])
        elif which == 1:
            j = draw.below(len(listed))
            listed[i], listed[j] = listed[j], listed[i]
        elif which == 2 and len(listed) > 1:
            del listed[draw.pick((0, i))]       # methane, or any
        elif which == 3 and len(listed) < ref.MOST_COMPONENTS:
            listed.insert(i, listed[i])
        elif which == 4 and len(listed) < ref.MOST_COMPONENTS:
            listed.insert(i, (draw.pick((9, 13)), draw.below(1000)))
        elif len(listed) < ref.MOST_COMPONENTS:
            listed.insert(i, (draw.below(17), draw.below(20000)))
    return sheet_of(listed, records)


def torn_sheet(draw, good):
    """Cut short, made longer, or a count changed."""
    which = draw.below(5)
    if which == 0:
        return good[:draw.below(len(good))]
    if which == 1:
        extra = draw.pick((1, 1, 5, 6, 18, 36, 54, 72, 90, draw.below(300)))
        return good + bytes(draw.pick((0, draw.below(256)))
                            for _ in range(extra))
    out = bytearray(good)
    second = 1 + 5 * out[0]
    if which == 2:
        out[0] = draw.pick((0, out[0] - 1, out[0] + 1, 11, 12, 13,
                            draw.below(256)))
    elif which == 3:
        out[second] = draw.pick((0, 1, 3, 6, 7, 8, 9, 10, 12, 15, 18, 21, 24,
                                 255, draw.below(256)))
    else:                   # both the count and the bytes
        n = draw.pick((3, 6, 7, 9, 12, 15, 18, 21, 24, 255, draw.below(26)))
        out[second:] = bytes([n]) + bytes(
            draw.below(256) for _ in range(6 * n))
    return bytes(out)


def flipped_sheet(draw, good):
    out = bytearray(good)
    for _ in range(draw.pick((1, 1, 1, 2, 3, 8))):
        bit = draw.below(8 * len(out))
        out[bit // 8] ^= 1 << bit % 8
    return bytes(out)


def wild_sheet(draw):
    """Random bytes; half with fitting counts and lengths."""
    if draw.one_in(2):
        return bytes(draw.below(256) for _ in range(draw.below(200)))
    listed = [(draw.below(18), draw.below(1 << draw.between(1, 32)))
              for _ in range(draw.below(13))]
    if draw.one_in(2):
        listed.sort()
    return sheet_of(listed, random_records(draw) if draw.one_in(2) else ())


def sheets(seed, search_one_in=16):
    """(kind, bytes) without end.  One sheet in `search_one_in` is a good one
    that asks for a search; a few of the damaged ones do as well."""
    draw = Draw(seed)
    pool = Pool(draw)
    while True:
        if draw.one_in(search_one_in):
            make = draw.pick(GASES)
            yield ("search " + make.__name__,
                   ref.layout(make(draw), None))
            continue
        which = draw.below(16)
        if which < 6:
            kind = draw.pick(SPLIT_KINDS)
            yield "split " + kind, ref.layout(*any_split(draw, pool, kind))
            continue
        if which < 8:       # a split that is never reached, nearly always
            records = random_records(draw)
        else:
            records = pool.pick()[1]
        if draw.one_in(8):
            records = None
        if which in (6, 8):
            yield "range", range_sheet(draw, records)
        elif which == 9:
            yield "total", total_sheet(draw, records)
        elif which in (7, 10, 11):
            yield "codes", codes_sheet(draw, records)
        elif which == 12:
            yield "wild", wild_sheet(draw)
        else:
            analysis, found = pool.pick()
            good = ref.layout(analysis, None if records is None else found)
            if which == 13:
                yield "flipped", flipped_sheet(draw, good)
            else:
                yield "torn", torn_sheet(draw, good)


class Answer(NamedTuple):
    number: int         # 0 when rated
    at: object          # place for 2 to 4, lowest code for 5, else None
    rating: object
    whole: object
    spread: object
    rounds: object
    split: object       # the found split; the given one for a proposed split
    analysis: object    # None when 1 to 6


def answer(sheet):
    got = ref.read(sheet)
    if isinstance(got, ref.Refusal):
        return Answer(got.number, got.at, *[None] * 6)
    analysis, split = got
    result = (searched(analysis) if split is None
              else ref.rate_split(analysis, split))
    if isinstance(result, ref.Refusal):
        return Answer(result.number, result.at, *[None] * 5, analysis)
    return Answer(0, None, *result, analysis)


# ----------------------------------------------------- cases for the calls

def unfit(draw, analysis):
    """The analysis with an amount or the total put out of range."""
    a = list(analysis)
    code = draw.pick(CODES)
    least, greatest = ref.RANGE[code]
    a[code] = draw.pick((0, 1, least - 1, greatest + 1, U32 - 1,
                         a[code] + 300, max(a[code] - 300, 0)))
    return tuple(a)


def search_cases(seed):
    """Allowances are often below the rounds that the gas needs, at them, or
    above 4000.  One analysis in 16 is out of range."""
    draw = Draw(seed)
    while True:
        analysis = any_gas(draw)
        if draw.one_in(16):
            analysis = unfit(draw, analysis)
        got = searched(analysis)
        near = got.rounds if isinstance(got, ref.Rating) else 4000
        yield analysis, draw.pick((
            0, 1, draw.below(12), max(near - 1, 0), near, near + 1,
            4000, 4001, U32 - 1))


def split_cases(seed):
    draw = Draw(seed)
    pool = Pool(draw)
    while True:
        kind = draw.pick(SPLIT_KINDS)
        analysis, records = any_split(draw, pool, kind)
        if draw.one_in(16):
            analysis = unfit(draw, analysis)
        yield kind, analysis, records


NO_SYSTEMS = (0, 9, 10, 11, 19, 21, U32 - 1)
# The same as a system in their last 8, 16 or 24 binary digits.
LONG_SYSTEMS = (258, 276, 65540, (1 << 24) + 7, (1 << 31) + 8)


def whole_shares(system, d):
    """Least and greatest amount of each component at the sum d."""
    return [(-(-least * d // 100), greatest * d // 100)
            for least, greatest in ref.SHARES[system]]


def filled(draw, system, place, n, d):
    """Amounts of sum d with n at one place; the two others in their ranges
    where that can be."""
    ends = whole_shares(system, d)
    i, j = (p for p in range(3) if p != place)
    rest = d - n
    least = max(ends[i][0], rest - ends[j][1], 0)
    greatest = min(ends[i][1], rest - ends[j][0], rest)
    out = [n, n, n]
    out[i] = (draw.between(least, greatest) if least <= greatest
              else min(ends[i][1], rest))
    out[j] = rest - out[i]
    return tuple(out)


def mixture(draw, system, d):
    """Amounts of sum d with every share in its range."""
    x, y, z = whole_shares(system, d)
    least, greatest = max(x[0], d - y[1] - z[1]), min(x[1], d - y[0] - z[0])
    return filled(draw, system, 0, draw.between(least, greatest), d)


def any_mixture(draw, d):
    """Amounts of sum d, whatever the shares."""
    n1 = draw.pick((0, d, draw.between(0, d)))
    n2 = draw.pick((0, d - n1, draw.between(0, d - n1)))
    return n1, n2, d - n1 - n2


def partial_cases(seed):
    """In range in the main; no systems, shares out of range, d of 0, above
    1000000, and sums that wrap 2^32."""
    draw = Draw(seed)
    while True:
        system = draw.pick(tuple(ref.SHARES)) if not draw.one_in(8) \
            else draw.pick((*NO_SYSTEMS, *LONG_SYSTEMS, draw.below(256)))
        which = draw.below(16)
        if which == 0:
            n = (0, 0, 0)
        elif which == 1:
            n = tuple(draw.below(U32) for _ in range(3))
        elif which == 2:    # wraps to a legal sum
            n1, n2 = draw.below(U32), draw.below(U32)
            n = (n1, n2, (draw.between(1, 1000000) - n1 - n2) % U32)
        else:
            d = draw.pick((1, 2, 3, 999999, 1000000, 1000001,
                           draw.between(1, 1000000), 1000000,
                           draw.between(1, 1000)))
            n = mixture(draw, system, d) \
                if system in ref.SHARES and which < 9 \
                else any_mixture(draw, d)
        yield (system, *n)


def share_cases(seed):
    """For every system, at several sums: each share at each end of its range,
    or as near to it as whole parts can be, and one part beyond it.  Then sums
    of 0, and large amounts, also such that wrap 2^32 to a sum of 100."""
    draw = Draw(seed)
    for system in ref.SHARES:
        for d in (1, 2, 20, 100, 999999, 1000000, 1000001,
                  100 * draw.between(2, 9999), draw.between(3, 999998)):
            for place, ends in enumerate(whole_shares(system, d)):
                for n, beyond in zip(ends, (-1, 1)):
                    yield (system, *filled(draw, system, place, n, d))
                    if 0 <= n + beyond <= d:
                        yield (system, *filled(draw, system, place, n + beyond,
                                               d))
        yield system, 0, 0, 0
        for large in (U32 - 1, U32 // 100, U32 // 100 + 1):
            for n in ((large, 0, 0), (0, large, 0), (0, 0, large),
                      (large, large, large), (large, U32 - large + 100, 0)):
                yield (system, *n)
    for system in (*NO_SYSTEMS, *LONG_SYSTEMS):
        for n in ((0, 0, 0), (1000000, 0, 0), (0, 0, 1), (1000001, 0, 0),
                  (U32 - 1, U32 - 1, U32 - 1), (800000, 150000, 50000)):
            yield (system, *n)


def writer_cases(seed):
    draw = Draw(seed)
    pool = Pool(draw)
    while True:
        analysis, records = any_split(draw, pool, draw.pick(SPLIT_KINDS))
        if draw.one_in(4):
            records = None
        elif draw.one_in(4):
            records = random_records(draw)
        if draw.one_in(8):
            analysis = unfit(draw, analysis)
        need = len(ref.layout(analysis, records))
        yield analysis, records, draw.pick(
            (need, need - 1, need + 1, 0, 1, 111, ref.LONGEST,
             draw.below(220)))


# -------------------------------------------------------- command line

def timed(seed, count):
    tally, numbers, most = {}, {}, (0.0, None)
    made = sheets(seed)
    begin = time.time()
    for _ in range(count):
        t = time.time()
        kind, sheet = next(made)
        got = answer(sheet)
        took = time.time() - t
        most = max(most, (took, kind))
        n, s = tally.get(kind, (0, 0.0))
        tally[kind] = n + 1, s + took
        numbers[kind, got.number] = numbers.get((kind, got.number), 0) + 1
    print("%d sheets in %.1f s; longest %.2f s (%s)"
          % (count, time.time() - begin, *most))
    for kind in sorted(tally):
        print("%-18s %6d %7.1f s " % (kind, *tally[kind]), " ".join(
            "%d:%d" % (n, c) for (k, n), c in sorted(numbers.items())
            if k == kind))


def rounds_table(seed, count):
    for make in (even_gas, small_gas, limit_gas, rich_gas, tie_gas, lean_gas,
                 heavy_gas, rich_lean_gas, trace_gas, *dict.fromkeys(BLENDS)):
        draw = Draw(seed)
        rounds, seconds, refused, chosen = [], [], 0, {}
        for _ in range(count):
            analysis = make(draw)
            systems = ref.choose(ref.simplify(analysis))
            chosen[systems] = chosen.get(systems, 0) + 1
            t = time.time()
            got = ref.search(analysis)
            seconds.append(time.time() - t)
            if isinstance(got, ref.Refusal):
                refused += 1
            else:
                rounds.append(got.rounds)
        rounds.sort()
        at = [rounds[len(rounds) * p // 100] for p in (10, 50, 90, 99)]
        print("%-17s rated %d, refused 11: %d; rounds mean %.1f, "
              "10/50/90/99 %% %s, most %d; seconds mean %.4f, most %.3f; %s"
              % (make.__name__, len(rounds), refused,
                 sum(rounds) / len(rounds), "/".join(map(str, at)),
                 rounds[-1], sum(seconds) / count, max(seconds), chosen))


def main(arguments):
    if arguments[0] == "--time":
        timed(int(arguments[1]), int(arguments[2]))
    elif arguments[0] == "--rounds":
        rounds_table(int(arguments[1]), int(arguments[2]))
    else:
        made = sheets(int(arguments[0]))
        for _ in range(int(arguments[1])):
            kind, sheet = next(made)
            print(kind.replace(" ", "-"), sheet.hex().upper() or "-",
                  ref.display(ref.rate(sheet)), end="")


if __name__ == "__main__":
    main(sys.argv[1:])
