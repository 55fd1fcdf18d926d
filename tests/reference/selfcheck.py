"""Checks the reference against document 01: the figures given there, the
limits of 19 and 40 units, found splits put back, and sums; and against the
requests One, Two and Four to Seven of document 02: the ceiling of hexanes+;
analyses in moles; the lowest code at fault; lean gases, the choice for each set
of components present; the systems, their rule and their ranges; hydrogen
blends.

selfcheck.py [SEED [GASES]]     default 1 and 300
"""

import itertools
import os
import sys
from fractions import Fraction

import gases
import independent as ref
from independent import Rating, Refusal

A1 = (0, 970797, 16658, 2417, 346, 245, 11, 73, 125, 0, 84, 528, 8715, 0, 0,
      0)
EXAMPLE_1 = (0, 900900, 55400, 13200, 2100, 1900, 0, 400, 500, 0, 600, 14600,
             10400, 0, 0, 0)
EXAMPLE_2 = (0, 866475, 1169, 94500, 0, 1461, 0, 0, 292, 0, 0, 36103, 0, 0, 0,
             0)
EXAMPLE_3 = (0, 859910, 50360, 12000, 1909, 1727, 0, 364, 455, 0, 545, 13270,
             9460, 0, 0, 50000)
A1_MOLES = (0, 970640, 16758, 2453, 356, 253, 11, 76, 132, 0, 91, 530, 8700, 0,
            0, 0)
MIX_9 = (0, 800000, 50000, 50000, 25000, 25000, 0, 0, 0, 0, 0, 0, 0, 0, 0,
         50000)


def marked_figures():
    assert ref.partial_number(20, 1000000, 0, 0) == 1000003000
    assert ref.partial_number(4, 1000000, 0, 0) == 998693500
    assert ref.partial_number(7, 1000000, 0, 0) == 973028600
    assert ref.partial_number(8, 1000000, 0, 0) == 983775100
    assert ref.partial_number(2, 1000000, 0, 0) == 335866010
    assert ref.partial_number(2, 0, 0, 1000000) == 102451300
    assert [ref.whole_number(x) for x in
            (765000000, 764999999, -5000000, -5000001)] == [77, 76, 0, -1]
    assert sum(A1) == 999999
    amounts = ref.simplify(A1)
    assert amounts == (979229, 16803, 2438, 1530, 0)
    assert ref.fitness(amounts) == {2: 1608265, 4: 48458257, 7: 47351032,
                                    8: 48416217}
    assert ref.choose(amounts) == (4, 7, 8)
    begin = ref.start(amounts, (4, 7, 8))
    assert [begin[s][ref.M] for s in (4, 7, 8)] == [326410, 326410, 326409]
    assert ref.inert(A1) == (999468, 532)
    # The inert case that decides the sign of a(2,2) of system 20: 101.42 with
    # plus, 101.36 with minus.
    plus = ref.exact_number(20, 985302, 14698, 0)
    term = ref.COEFFICIENTS[20][2][2] * Fraction(985302 * 14698, 10 ** 12) ** 2
    assert plus // 100000 == 10142 and (plus - 2 * term) // 100000 == 10136


def compared_figures():
    assert ref.search(A1, 0) == Refusal(11)
    assert isinstance(ref.search(A1), Rating)

    def sheet(**changed):
        a = list(A1)
        for name, amount in changed.items():
            a[int(name[1:])] = amount
        return ref.layout(a, None)

    # Totals by methane; A1 totals 999999.
    assert ref.read(sheet(c1=970797 - 100)) == Refusal(6)
    assert not isinstance(ref.read(sheet(c1=970797 - 99)), Refusal)
    assert not isinstance(ref.read(sheet(c1=970797 + 101)), Refusal)
    assert ref.read(sheet(c1=970797 + 102)) == Refusal(6)
    rest = 970797 + 16658
    assert ref.read(sheet(c2=99, c1=rest - 99)) == Refusal(5, 2)
    assert not isinstance(ref.read(sheet(c2=100, c1=rest - 100)), Refusal)
    assert ref.choose(ref.simplify(EXAMPLE_1)) == (4, 7, 8)
    assert ref.choose(ref.simplify(EXAMPLE_2)) == (4, 7, 8)
    assert ref.display(ref.rate(bytes.fromhex("01090000006400"))) == \
        "REFUSED 3\n"


def refusals():
    """Each number, and the order of the tests."""
    found = ref.search(A1)
    good = ref.layout(A1, found.split)
    assert len(good) == 111
    for size in range(len(good)):
        assert ref.read(good[:size]) == Refusal(1)
    assert ref.read(good + b"\0") == Refusal(1)
    assert ref.read(bytes([13]) + bytes(200)) == Refusal(1)
    assert ref.read(bytes([0, 1]) + bytes(6)) == Refusal(1)
    assert ref.read(bytes(2)) == Refusal(5, 1)

    def listed(*records):
        return ref.read(gases.sheet_of(records, ()))
    assert listed((0, 0)) == Refusal(2, 0)
    assert listed((1, 0), (14, 0)) == Refusal(2, 1)
    assert listed((9, 0), (14, 0)) == Refusal(3, 0)
    assert listed((12, 0), (9, 0)) == Refusal(3, 1)
    assert listed((12, 0), (13, 0)) == Refusal(3, 1)
    assert listed((1, 0), (2, 0), (2, 0)) == Refusal(4, 2)
    assert listed((2, 0), (1, 0), (0, 0)) == Refusal(4, 1)
    assert listed(*((c, ref.RANGE[c][0] if c < 6 else 0)
                    for c in sorted(ref.RANGE))) == Refusal(5, 6)

    def split(*changes):
        records = [list(r) for r in found.split]
        for place, column, figure in changes:
            records[place][column] = figure
        return ref.rate_split(A1, tuple(map(tuple, records)))
    assert split() == found._replace(rounds=0)
    assert split((0, 0, 2)) == split((0, 1, 2)) == Refusal(7)
    assert split((5, 1, 4)) == Refusal(7)
    assert split((0, 2, found.split[0][2] + 1)) == Refusal(8)
    assert split((0, 2, 2 ** 32 - 1)) == Refusal(8)
    # Wraps: 2^32 carried between two records of methane.
    assert split((0, 2, found.split[0][2] + 2 ** 31),
                 (3, 2, found.split[3][2] + 2 ** 31)) == Refusal(8)
    m, e, p, b, h = ref.simplify(A1)
    assert h == 0
    records = [(4, 1, m), (4, 2, e), (4, 3, p), (7, 1, 0), (7, 3, 0),
               (7, 14, 0), (8, 1, 0), (8, 2, 0), (8, 14, b)]
    assert ref.rate_split(A1, records) == Refusal(9)
    records[4], records[2] = (7, 3, 1), (4, 3, p - 1)
    assert ref.rate_split(A1, records) == Refusal(10)

    assert ref.partial_number(9, 0, 0, 0) == Refusal(13)
    assert ref.partial_number(4, 0, 0, 0) == Refusal(12)
    assert ref.partial_number(4, 1000000, 1, 0) == Refusal(12)
    assert ref.partial_number(4, 2 ** 32 - 1, 2, 0) == Refusal(12)

    for split in (None, found.split):
        sheet = ref.layout(A1, split)
        for room in (0, len(sheet) - 1, len(sheet), len(sheet) + 3, 200):
            buffer = bytearray(b"\xA5" * room)
            got = ref.write(A1, split, buffer)
            if room < len(sheet):
                assert got == Refusal(14) and buffer == b"\xA5" * room
            else:
                assert got == len(sheet)
                assert buffer == sheet + b"\xA5" * (room - len(sheet))
        assert ref.read(sheet) == (A1, split)
    thin = (0, 970797, 99, *A1[3:])
    assert ref.write(thin, None, bytearray()) == Refusal(5, 2)
    light = (0, 900000, *A1[2:])
    assert ref.write(light, None, bytearray()) == Refusal(6)


def ceiling():
    """Request One: 6100 parts of hexanes+ pass, 6101 to 15000 are refused 5 in
    sheets and analyses, after 1 to 4 and before 6; a lower code goes first."""
    def hexanes(amount, **others):
        a = [others.get("c%d" % c, A1[c]) for c in range(ref.CODES)]
        a[1] += A1[10] - amount
        a[10] = amount
        return tuple(a)
    for amount in (10, 84, 6099, 6100):
        got = ref.search(hexanes(amount))
        assert isinstance(got, Rating) and ref.check(hexanes(amount)) is None
        assert ref.rate_split(hexanes(amount), got.split)[:3] == got[:3]
    for amount in (6101, 6102, 10000, 14999, 15000, 15001):
        a = hexanes(amount)
        assert ref.check(a) == ref.search(a) == ref.rate_split(a, ()) == \
            ref.write(a, None, bytearray()) == Refusal(5, 10)
        assert ref.read(ref.layout(a, None)) == \
            ref.rate(ref.layout(a, ((4, 1, 0),) * 9)) == Refusal(5, 10)
        assert ref.check(hexanes(amount, c2=99)) == Refusal(5, 2)
        assert ref.check(hexanes(amount, c12=49)) == Refusal(5, 10)
        assert ref.check(hexanes(amount, c2=100)) == Refusal(5, 10)
        assert ref.read(ref.layout(a, None) + b"\0") == Refusal(1)
        listed = gases.listed_of(a)
        for code, wanted in ((16, 2), (13, 3), (10, 4)):
            assert ref.read(gases.sheet_of([*listed, (code, 1)], ())) == \
                Refusal(wanted, len(listed))
    assert ref.check(hexanes(6100, c2=100)) == Refusal(6)
    # All at the most but methane: system 2 is chosen.  And the greatest T.
    rich = (0, 413400, 150000, 60000, 40000, 40000, 500, 20000, 20000, 0, 6100,
            100000, 150000, 0, 0, 0)
    assert sum(rich) == 1000000 and not ref.check(rich)
    assert ref.simplify(rich) == (498745, 180967, 72387, 247901, 0)
    assert ref.choose(ref.simplify(rich)) == (2, 7, 8)
    assert isinstance(ref.search(rich), Rating)
    heavy = (0, 953500, 0, 0, 0, 0, 500, 20000, 20000, 0, 6100, 0, 0, 0, 0, 0)
    assert sum(heavy) == 1000100 and not ref.check(heavy)
    assert sum(ref.tenths(heavy)) == 10789800


def of(**amounts):
    """An analysis of these amounts, by code."""
    return tuple(amounts.get("c%d" % c, 0) for c in range(ref.CODES))


def moles_examples():
    """Request Two: the conversion, worked out by hand."""
    # 900000 * 9981 = 8982900000 and 100000 * 9920 = 992000000, in all
    # 9974900000: 900550.38... and 99449.61...
    assert ref.convert(of(c1=900000, c2=100000)) == of(c1=900550, c2=99450)
    # 950000 * 9981 = 9481950000 and 50000 * 9998 = 499900000, in all
    # 9981850000: 949919.10... and 50080.89...
    assert ref.convert(of(c1=950000, c12=50000)) == of(c1=949919, c12=50081)
    # The greatest methane, with 300 parts of n-butane: products 9978005700
    # and 2904300, in all 9980910000: 999709.01... and 290.98...
    greatest = of(c1=999700, c5=300)
    assert ref.convert(greatest) == of(c1=999709, c5=291)
    # The least hexanes+: 10 * 9155 of 9980973440 is 9.17...
    assert ref.convert(of(c1=999690, c2=300, c10=10)) == \
        of(c1=999693, c2=298, c10=9)
    # 001 Table A.1; its own volumes are one part away at most.
    assert sum(A1_MOLES) == 1000000
    assert ref.convert(A1_MOLES) == (0, 970797, 16658, 2416, 347, 245, 11, 73,
                                     125, 0, 83, 528, 8716, 0, 0, 0)
    # On a half, up: the products add up to 9978 millions, and methane's volume
    # is 909661 * 9981 / 9978 = 909934.5.
    half = of(c1=909661, c2=1139, c3=5177, c11=63178, c12=20810)
    assert sum(x * ref.FACTOR.get(c, 0) for c, x in enumerate(half)) == \
        9978000000
    assert 2 * 909661 * 9981 == 9978 * (2 * 909934 + 1)
    assert ref.convert(half) == of(c1=909935, c2=1132, c3=5100, c11=62982,
                                   c12=20852)
    assert sum(ref.convert(half)) == 1000001
    # The total is taken out: in proportion, the same volumes.
    assert ref.convert(of(c1=899910, c2=99990)) == \
        ref.convert(of(c1=900090, c2=100010)) == of(c1=900550, c2=99450)


def moles_refused():
    """The order 18, 5, 15, 16 and then 7 to 11; the volumes made are not
    tested, those of a volume analysis are."""
    def same(moles, wanted):
        for records in ((), ((4, 1, 0),) * 9):
            assert ref.rate_split_moles(moles, records) == wanted
        for allowance in (0, 4000, 2 ** 32 - 1):
            assert ref.search_moles(moles, allowance) == wanted
        assert wanted.number == 16 or ref.convert(moles) == wanted

    def changed(**amounts):
        return tuple(amounts.get("c%d" % c, A1_MOLES[c])
                     for c in range(ref.CODES))
    # 18 for any amount of hydrogen, before 5 and 15.
    for amount in (1, 9, 10, 100000, 100001, 2 ** 32 - 1):
        same(changed(c15=amount), Refusal(18))
        same(changed(c1=970640 - amount % 1000, c15=amount), Refusal(18))
        same(changed(c2=99, c15=amount), Refusal(18))
        same(changed(c0=1, c1=0, c15=amount), Refusal(18))
        same(changed(c9=1, c13=1, c14=1, c15=amount), Refusal(18))
        same(changed(c1=900000, c15=amount), Refusal(18))
        same(of(c15=amount), Refusal(18))
    # 5 with the lowest code, before 15; the ranges are those of volumes.
    for code in sorted(ref.FACTOR):
        least, greatest = ref.RANGE[code]
        for amount in (least - 1, greatest + 1, 2 ** 32 - 1):
            same(changed(**{"c%d" % code: amount}), Refusal(5, code))
            same(changed(**{"c%d" % code: amount, "c13": 1}), Refusal(5, code))
        if code != 1:
            for amount in (least, greatest):
                a = list(changed(**{"c%d" % code: amount}))
                a[1] += 1000000 - sum(a)
                assert ref.check_moles(a) is None
    assert ref.RANGE[10] == (10, 6100)
    same(changed(c1=0), Refusal(5, 1))
    same(of(), Refusal(5, 1))
    for code in NO_CODE:
        same(changed(**{"c%d" % code: 1}), Refusal(5, code))
        same(of(**{"c%d" % code: 1}), Refusal(5, min(code, 1)))
    same(changed(c2=99, c3=99, c12=49), Refusal(5, 2))
    same(changed(c1=900000, c12=49), Refusal(5, 12))
    # 15, before 16.
    for total, wanted in ((999899, 15), (999900, 0), (1000100, 0),
                          (1000101, 15)):
        moles = changed(c1=970640 + total - 1000000)
        alone = of(c1=980000, c11=total - 980000)
        if wanted:
            same(moles, Refusal(15))
            same(alone, Refusal(15))
        else:
            assert isinstance(ref.search_moles(moles), Rating)
            assert ref.search_moles(moles, 0) == Refusal(11)
            same(alone, Refusal(16))
    # A mole analysis never gives 6, a volume analysis never 15 or 18.
    assert ref.check(changed(c1=970640 - 101)) == Refusal(6)
    assert ref.check(changed(c1=900000, c15=70640)) is None

    # Volumes made out of their range are rated all the same.
    for moles, code in ((of(c1=999700, c5=300), 1),
                        (of(c1=989890, c2=100, c12=10010), 2),
                        (of(c1=999690, c2=300, c10=10), 10),
                        (of(c1=845000, c2=5000, c12=150000), 12)):
        volumes = ref.convert(moles)
        assert ref.check_moles(moles) is None
        assert ref.check(volumes) == Refusal(5, code)
        assert ref.search(volumes) == ref.rate_split(volumes, ()) == \
            Refusal(5, code)
        got = ref.search_moles(moles)
        assert isinstance(got, Rating)
        assert ref.rate_split_moles(moles, got.split) == got._replace(rounds=0)

    # The proposed split: 7 to 10 on the volumes made.
    found = ref.search_moles(A1_MOLES)
    amounts = ref.simplify(ref.convert(A1_MOLES))
    assert ref.rate_split_moles(A1_MOLES, found.split) == \
        found._replace(rounds=0)
    assert ref.rate_split_moles(A1_MOLES, found.split[:6]) == Refusal(7)
    records = list(found.split)
    records[0] = (4, 1, records[0][2] + 1)
    assert ref.rate_split_moles(A1_MOLES, records) == Refusal(8)
    assert ref.rate_split_moles(
        A1_MOLES, ref.search(A1_MOLES).split) == Refusal(8)
    m, e, p, b, _ = amounts
    records = [(4, 1, m), (4, 2, e), (4, 3, p), (7, 1, 0), (7, 3, 0),
               (7, 14, 0), (8, 1, 0), (8, 2, 0), (8, 14, b)]
    assert ref.rate_split_moles(A1_MOLES, records) == Refusal(9)
    assert ref.rate_split_moles(A1_MOLES, gases.start_split(
        ref.convert(A1_MOLES))) == Refusal(10)


def plain_volume(moles, code):
    """The volume of a code by 001's formula 1, as an exact fraction."""
    factors = (0, "0.9981", "0.9920", "0.9829", "0.9720", "0.9681", "0.9608",
               "0.9521", "0.9473", 0, "0.9155", "0.9947", "0.9998", 0, 0, 0)
    share = [Fraction(x, 10000) * Fraction(f) for x, f in zip(moles, factors)]
    return 10000 * 100 * share[code] / sum(share)


def moles(seed, count):
    """Volumes are the nearest whole parts, halves up; they add up to a million
    within 5 parts; none in range becomes 0, none absent is there.  What is
    rated is as the same volumes are where these are in range; found splits are
    put back, under 40 units from the exact fraction of the volumes."""
    draw = gases.Draw(seed)
    off, halves, beyond, rated, worst = set(), 0, 0, 0, Fraction(0)
    for n in range(count):
        a = gases.half_moles(draw) if n % 8 == 0 else gases.beyond_moles(
            draw, *draw.pick([*((c, False) for c in gases.BELOW),
                              *((c, True) for c in gases.ABOVE)])) \
            if n % 8 == 1 else gases.mole_gas(draw)
        volumes = ref.convert(a)
        assert volumes == ref.volumes_of(a) and len(volumes) == ref.CODES
        for code in range(ref.CODES):
            exact = plain_volume(a, code)
            assert (volumes[code] > 0) == (a[code] > 0)
            assert -Fraction(1, 2) < volumes[code] - exact <= Fraction(1, 2)
            halves += volumes[code] - exact == Fraction(1, 2)
        assert abs(sum(volumes) - 1000000) <= 5
        off.add(sum(volumes) - 1000000)
        if n % 4 > 1:
            continue
        got = ref.search_moles(a)
        if ref.check(volumes) is None:
            assert got == ref.search(volumes)
        else:
            beyond += 1
            assert ref.search(volumes).number == 5
        if isinstance(got, Refusal):
            assert got.number in (11, 16)
            continue
        rated += 1
        assert ref.rate_split_moles(a, got.split) == got._replace(rounds=0)
        assert resums(volumes, got.split) and got.spread <= ref.SPREAD_LIMIT
        assert ref.search_moles(a, got.rounds) == got
        if got.rounds:
            assert ref.search_moles(a, got.rounds - 1) == Refusal(11)
        worst = max(worst, abs(got.rating - ref.exact_rating(volumes,
                                                             got.split)))
    assert worst < 40 and {-1, 0, 1} <= off
    assert min(halves, beyond) >= count // 16
    return rated, worst


# How a code can stand in an analysis or a sheet.
ABSENT, AT_0, BELOW, WITHIN, ABOVE = "absent", "at 0", "below", "within", "above"
NO_CODE = (0, 9, 13, 14)


def amount_of(code, how):
    """Within is the least, so that no total is in range; a code that no
    analysis has is above at once."""
    least, greatest = ref.RANGE.get(code, (0, 0))
    return {ABSENT: 0, AT_0: 0, BELOW: least - 1, WITHIN: least,
            ABOVE: greatest + 1}[how]


def first_fault(stands):
    """Going up the codes, 5 with the first that is at fault, or 6."""
    for code in sorted(stands):
        if stands[code] in (AT_0, BELOW, ABOVE) or \
                stands[code] == ABSENT and code == 1:
            return Refusal(5, code)
    return Refusal(6)


def sheet_fault(stands):
    """What reading and rating give for a sheet whose codes stand so."""
    sheet = gases.sheet_of([(c, amount_of(c, stands[c])) for c in sorted(stands)
                            if stands[c] != ABSENT], ())
    got = ref.read(sheet)
    assert ref.rate(sheet) == got
    return got


def analysis_fault(stands):
    """What each call gives for an analysis whose codes stand so."""
    analysis = tuple(amount_of(c, stands.get(c, ABSENT))
                     for c in range(ref.CODES))
    got = ref.check(analysis)
    assert ref.search(analysis, 0) == got
    assert ref.rate_split(analysis, ()) == got
    assert ref.write(analysis, None, bytearray()) == got
    return got


def lowest_code(seed, count):
    """Request Four: of several codes at fault 5 carries the lowest, an absent
    one included, and in a sheet one listed at 0."""
    def listed(*records):
        return ref.read(gases.sheet_of(records, ()))

    def analysis(**amounts):
        return ref.check(tuple(amounts.get("c%d" % c, A1[c])
                               for c in range(ref.CODES)))
    # Listed at 0 below, between and above others; twice; methane absent, or
    # listed at 0; all at once.
    methane = (1, 970000)
    assert listed(methane, (6, 0), (7, 20001)) == Refusal(5, 6)
    assert listed((6, 0), (7, 20001)) == Refusal(5, 1)
    assert listed(methane, (2, 99), (6, 0)) == Refusal(5, 2)
    assert listed(methane, (2, 150001), (6, 0), (7, 9)) == Refusal(5, 2)
    assert listed(methane, (3, 0), (6, 501), (8, 0)) == Refusal(5, 3)
    assert listed(methane, (3, 60001), (6, 0), (8, 0)) == Refusal(5, 3)
    assert listed(methane, (8, 0), (12, 0), (15, 0)) == Refusal(5, 8)
    assert listed((1, 0), (2, 99), (3, 0)) == Refusal(5, 1)
    assert listed((1, 399999), (2, 0)) == Refusal(5, 1)
    assert listed((2, 0), (15, 0)) == listed((2, 99)) == Refusal(5, 1)
    assert listed(*((c, 0) for c in sorted(ref.RANGE))) == Refusal(5, 1)
    assert listed(*((c, 0) for c in sorted(ref.RANGE) if c > 1)) == \
        Refusal(5, 1)
    # An amount at 0, 9, 13 or 14 of an analysis.
    assert analysis(c0=1) == analysis(c0=1, c1=0, c2=99) == Refusal(5, 0)
    assert analysis(c1=0, c9=1, c14=1) == Refusal(5, 1)
    assert analysis(c9=1, c10=6101) == analysis(c9=1, c13=1) == Refusal(5, 9)
    assert analysis(c8=9, c9=1) == Refusal(5, 8)
    assert analysis(c12=49, c13=1, c14=1) == Refusal(5, 12)
    assert analysis(c13=1, c14=1, c15=9) == Refusal(5, 13)
    assert analysis(c14=2 ** 32 - 1, c15=100001) == Refusal(5, 14)
    assert analysis(c15=100001) == Refusal(5, 15)

    # Every two codes in every way, the others within or absent; then any.
    codes = sorted(ref.RANGE)
    within = dict.fromkeys(codes, WITHIN)
    alone = {**dict.fromkeys(codes, ABSENT), 1: WITHIN}
    in_sheet = (ABSENT, AT_0, BELOW, WITHIN, ABOVE)
    in_analysis = (ABSENT, BELOW, WITHIN, ABOVE)
    no_code = (ABSENT, ABOVE)
    cases = 0
    for base in (within, alone):
        for first, second in itertools.combinations(codes, 2):
            for how in itertools.product(in_sheet, repeat=2):
                stands = {**base, first: how[0], second: how[1]}
                assert sheet_fault(stands) == first_fault(stands), stands
                cases += 1
        for first, second in itertools.combinations(range(ref.CODES), 2):
            for how in itertools.product(*(
                    no_code if c in NO_CODE else in_analysis
                    for c in (first, second))):
                stands = {**base, first: how[0], second: how[1]}
                assert analysis_fault(stands) == first_fault(stands), stands
                cases += 1
    draw = gases.Draw(seed)
    seen = set()
    for _ in range(count):
        fine = draw.pick((1, 4, 16))

        def any_way(ways):
            return draw.pick(ways) if draw.one_in(fine) else ways[0]
        stands = {c: any_way((WITHIN, *in_sheet)) for c in codes}
        fault = sheet_fault(stands)
        assert fault == first_fault(stands), stands
        seen.add(("sheet", fault))
        stands = {c: any_way(no_code if c in NO_CODE else
                             (WITHIN, *in_analysis))
                  for c in range(ref.CODES)}
        fault = analysis_fault(stands)
        assert fault == first_fault(stands), stands
        seen.add(("analysis", fault))
        cases += 2
    assert {fault.at for kind, fault in seen if kind == "sheet"} == \
        {None, *codes}
    assert {fault.at for kind, fault in seen if kind == "analysis"} == \
        {None, *range(ref.CODES)}
    return cases


def lean():
    """Absent components: what is still refused, the order 1, 5, 6, 16, 7, the
    counts of a split, and records of absent components."""
    biomethane = (0, 970000, 10000, *[0] * 8, 20000, *[0] * 4)
    alone = (0, 980000, *[0] * 9, 20000, *[0] * 4)

    def listed(*records):
        return ref.rate(gases.sheet_of(records, ()))
    # Absent is no fault, listed at 0 is; methane must be there.
    assert isinstance(ref.rate(ref.layout(biomethane, None)), Rating)
    assert listed((1, 970000), (2, 10000), (3, 0), (11, 20000)) == \
        Refusal(5, 3)
    assert listed((2, 10000), (11, 20000)) == Refusal(5, 1)
    # 16 after 5 and 6, before 7 and 11; reading and writing don't test it.
    assert listed((1, 980000), (11, 20000)) == Refusal(16)
    assert listed((1, 980000), (11, 20101)) == Refusal(6)
    assert listed((1, 980000), (11, 49)) == Refusal(5, 11)
    assert ref.search(alone, 0) == ref.search(alone) == Refusal(16)
    for count in (0, 1, 6, 9, 12, 21):
        assert ref.rate_split(alone, ((4, 1, 0),) * count) == Refusal(16)
    sheet = ref.layout(alone, None)
    assert ref.read(sheet) == (alone, None)
    assert ref.write(alone, None, bytearray(12)) == 12

    # Counts of a split in a sheet and at the writer, 1 before 5.
    counts = (0, 6, 9, 12, 15, 18, 21)
    for count in range(256):
        records = ((4, 1, 7),) * count
        for analysis in (biomethane, alone, A1):
            sheet = ref.layout(analysis, records)
            room = bytearray(len(sheet))
            if count in counts:
                assert ref.read(sheet) == (analysis, records or None)
                assert ref.write(analysis, records, room) == len(sheet)
                assert room == sheet
            else:
                assert ref.read(sheet) == Refusal(1)
                assert ref.write(analysis, records, room) == Refusal(1)
        nothing = ref.write((0,) * 16, records, bytearray())
        assert nothing.number == (5 if count in counts else 1)
        if count != 6:
            assert ref.rate_split(biomethane, records) == Refusal(7)

    # Two systems, and three: the wrong count, and an absent component's parts.
    found = ref.search(biomethane)
    assert [(s, c) for s, c, _ in found.split] == [
        (4, 1), (4, 2), (4, 3), (8, 1), (8, 2), (8, 14)]
    assert found.split[2][2] == found.split[5][2] == 0
    assert ref.rate_split(biomethane, found.split) == found._replace(rounds=0)
    assert ref.rate_split(A1, ref.search(A1).split[:6]) == Refusal(7)
    held = list(found.split)
    held[2] = (4, 3, 1)
    assert ref.rate_split(biomethane, held) == Refusal(8)
    nine = (*found.split[:3], (7, 1, 0), (7, 3, 0), (7, 14, 0),
            *found.split[3:])
    assert ref.rate_split(biomethane, nine) == Refusal(7)

    # The choice for each set of components present, worked out by hand.
    x = 50000
    for amounts, systems in (
            ((0, 0, 0, 0), ()), ((1000000, 0, 0, 0), (4, 7)),
            ((900000, x, 0, 0), (4, 8)), ((900000, 0, x, 0), (4, 7)),
            ((900000, 0, 0, x), (7, 8)), ((0, x, x, 0), (2, 4)),
            ((0, x, 0, x), (2, 8)), ((0, 0, x, x), (2, 7)),
            ((900000, x, x, 0), (4, 7, 8)), ((900000, x, 0, x), (4, 7, 8)),
            ((900000, 0, x, x), (4, 7, 8)), ((0, x, x, x), (2, 7, 8)),
            ((0, 2 * x, 5 * x, 3 * x), (2, 4, 7)),
            ((1, 0, 0, 999999), (7, 8)), ((1, 499999, 500000, 0), (2, 4, 7)),
            # 2 and 4, both with two present: fitter, equally fit, less fit.
            ((100, 1, 0, 49), (2, 7, 8)), ((100, 1, 0, 48), (2, 7, 8)),
            ((100, 1, 0, 47), (4, 7, 8))):
        amounts = (*amounts, 0)
        assert ref.choose(amounts) == systems == plain_choice(amounts), amounts


def blends():
    """Hydrogen: its code and range, the sheet's sizes, equal remainders, the
    choice, the records' order, five systems, what is refused."""
    # Code 15 is known, 14 and 16 are not; it comes after 12 and is no duty.
    def listed(*records):
        return ref.rate(gases.sheet_of(records, ()))
    assert isinstance(ref.rate(ref.layout(EXAMPLE_3, None)), Rating)
    assert listed((1, 0), (14, 0), (15, 0)) == Refusal(2, 1)
    assert listed((1, 0), (16, 0)) == Refusal(2, 1)
    assert listed((1, 0), (15, 0), (12, 0)) == Refusal(4, 2)
    assert listed((1, 0), (15, 0), (13, 0)) == Refusal(3, 2)
    assert listed((1, 0), (15, 0), (15, 0)) == Refusal(4, 2)
    rest = 999990 - 20000
    for amount, wanted in ((0, 5), (9, 5), (10, 0), (100000, 0), (100001, 5)):
        got = ref.read(gases.sheet_of(
            ((1, rest - amount), (2, 20010), (15, amount)), ()))
        assert (got == Refusal(5, 15)) == (wanted == 5), amount
        assert isinstance(got, Refusal) == (wanted == 5)
        if amount:
            gas = (0, rest - amount, 20010, *[0] * 12, amount)
            assert (ref.check(gas) is None) == (wanted == 0)

    # Sizes of a sheet: 12 components, 21 records, 188 bytes.
    full = (0, 800000, 60000, 20000, 1000, 1000, 100, 1000, 1000, 0, 1000,
            50000, 14900, 0, 0, 50000)
    assert sum(full) == 1000000 and sum(x > 0 for x in full) == 12
    longest = ref.layout(full, ((1, 1, 7),) * 21)
    assert len(longest) == 188 == ref.LONGEST
    assert ref.read(longest) == (full, ((1, 1, 7),) * 21)
    assert ref.rate(longest) == Refusal(7)
    assert ref.read(longest + b"\0") == ref.read(longest[:-1]) == Refusal(1)
    thirteen = gases.sheet_of([*gases.listed_of(full), (16, 1)], None)
    assert ref.read(thirteen) == Refusal(1)

    # Times 10 into T, last among equal remainders: T is 8000000.
    def remainders(m, e, p, b, h):
        amounts = (700000 + m, 40000 + e, 20000 + p, 20000 + b, 20000 + h)
        gas = (0, *amounts[:3], 10000, amounts[3] - 10000, *[0] * 5, 50000,
               150000, 0, 0, amounts[4])
        assert sum(ref.tenths(gas)) == 8000000 and not ref.check(gas)
        assert ref.inert(gas) == (941176, 58824)
        return tuple(x - 5 * n // 4 for x, n in zip(ref.simplify(gas),
                                                    amounts))
    assert remainders(-2, 0, 0, 0, 2) == (1, 0, 0, 0, 0)
    assert remainders(0, -2, 0, 0, 2) == (0, 1, 0, 0, 0)
    assert remainders(0, 0, -2, 0, 2) == (0, 0, 1, 0, 0)
    assert remainders(0, 0, 0, -2, 2) == (0, 0, 0, 1, 0)
    assert remainders(-4, 0, -1, 2, 3) == (0, 0, 1, 0, 1)
    assert remainders(-8, 2, 2, 2, 2) == (0, 1, 1, 0, 0)
    assert remainders(-7, 1, 2, 2, 2) == (0, 0, 1, 1, 0)

    # 000's example 3, its fitness and its choice; mix 9 of Table A.10.
    amounts = ref.simplify(EXAMPLE_3)
    assert sum(EXAMPLE_3) == 1000000
    assert amounts == (876852, 51352, 12237, 8574, 50985)
    assert ref.choose(amounts) == (1, 4, 5, 6, 8)
    table_a9 = {1: 105906, 2: 11850, 4: 97749, 5: 99921, 6: 99668, 7: 91510,
                8: 97495}
    assert all(abs(ref.fitness((876849, 51356, 12236, 8574, 50985))[s] / 480
                   - w) <= 1 for s, w in table_a9.items())
    assert ref.choose((876849, 51356, 12236, 8574, 50985)) == (1, 4, 5, 6, 8)
    assert ref.choose(ref.simplify(MIX_9)) == (1, 5, 6, 7, 8)

    # Five systems: fifteen records in order; every other count misfits.
    found = ref.search(EXAMPLE_3)
    assert [(s, c) for s, c, _ in found.split] == [
        (1, 1), (1, 2), (1, 15), (4, 1), (4, 2), (4, 3), (5, 1), (5, 3),
        (5, 15), (6, 1), (6, 14), (6, 15), (8, 1), (8, 2), (8, 14)]
    assert ref.rate_split(EXAMPLE_3, found.split) == found._replace(rounds=0)
    for count in (0, 3, 6, 9, 12, 14, 16, 18, 21):
        records = (found.split * 2)[:count]
        assert ref.rate_split(EXAMPLE_3, records) == Refusal(7)
    swapped = list(found.split)
    swapped[10], swapped[11] = swapped[11], swapped[10]
    assert ref.rate_split(EXAMPLE_3, swapped) == Refusal(7)
    swapped = list(found.split)
    swapped[2] = (1, 15, swapped[2][2] + 1)
    assert ref.rate_split(EXAMPLE_3, swapped) == Refusal(8)

    # Methane and hydrogen are two components; the inert mixture's T has it.
    two = (0, 900000, *[0] * 9, 50000, 0, 0, 0, 50000)
    assert ref.choose(ref.simplify(two)) == (1, 5)
    assert ref.inert(two) == (950000, 50000)
    assert isinstance(ref.search(two), Rating)

    # The choice, worked out by hand; 1, 5 and 6 only where hydrogen is.
    x = 50000
    for amounts, systems in (
            ((0, 0, 0, 0, x), (1, 5)), ((900000, 0, 0, 0, x), (1, 5)),
            ((900000, x, 0, 0, x), (1, 4, 5)),
            ((900000, 0, x, 0, x), (1, 4, 5)),
            ((900000, 0, 0, x, x), (1, 6, 7)),
            ((900000, x, x, 0, x), (1, 4, 5)),
            ((900000, x, 0, x, x), (1, 6, 8)),
            ((900000, 0, x, x, x), (5, 6, 7)),
            ((900000, 1, 1, 1, 1), (1, 5, 6, 7, 8)),
            ((900000, 1, 1, 1, 0), (4, 7, 8)),
            ((0, x, x, x, x), (2, 5, 6, 8)), ((0, x, 0, 0, x), (1, 2, 5)),
            # Equally fit: 1 and 5, then 7 and 8; 1, 5 and 6; 5 and 6.
            ((900000, 16, 15, 1, x), (1, 4, 5, 6, 7)),
            ((900000, 16, 15, 12, x), (1, 4, 5, 6, 7)),
            ((900000, 15, 15, 12, x), (1, 4, 5, 6, 7))):
        assert ref.choose(amounts) == systems == plain_choice(amounts), amounts


def plain_choice(amounts):
    """The choice once more, by the number of ones of masks: bit c for
    component c."""
    masks = {2: 0b01110, 4: 0b00111, 7: 0b01101, 8: 0b01011}
    if amounts[4]:
        masks = {1: 0b10011, 5: 0b10101, 6: 0b11001, **masks}
    present = sum(1 << c for c in range(5) if amounts[c])
    weight = (48, 75, 80, 100, 96)
    chosen = set()
    for wanted in (1, 2):
        for c in (4, 2, 1, 3, 0):
            if not present >> c & 1 or \
                    sum(masks[s] >> c & 1 for s in chosen) >= wanted:
                continue
            best = None
            for s in sorted(masks):
                if s in chosen or not masks[s] >> c & 1:
                    continue
                key = (bin(masks[s] & present).count("1"),
                       sum(weight[x] * amounts[x] for x in range(5)
                           if masks[s] >> x & 1))
                if best is None or key > best[0]:
                    best = key, s
            chosen.add(best[1])
    return tuple(sorted(chosen))


def choices(seed, count):
    """Each component present is in two of the systems chosen; the choice is
    that by masks; and the number of systems: without hydrogen two for two
    components and three for more; with it two for methane and hydrogen, four
    or five for all five, and for others with methane three."""
    draw = gases.Draw(seed)
    seen = {}
    for _ in range(count):
        amounts = [draw.pick((0, 0, 1, draw.below(1000), draw.below(1000000)))
                   for _ in range(5)]
        chosen = ref.choose(amounts)
        assert chosen == plain_choice(amounts), amounts
        there = ref.present(amounts)
        if len(there) > 1:
            number = len(chosen)
            if ref.H not in there:
                assert number == (2 if len(there) == 2 else 3)
            elif len(there) == 5:
                assert number in (4, 5)
            elif ref.M in there:
                assert number == (2 if len(there) == 2 else 3)
            else:
                assert number in (3, 4)
            assert all(sum(c in ref.FORMULA_ORDER[s] for s in chosen) >= 2
                       for c in there)
            assert all(there & set(ref.FORMULA_ORDER[s]) for s in chosen)
        seen[frozenset(there)] = seen.get(frozenset(there), 0) + 1
    assert len(seen) == 32 and min(seen.values()) >= 20
    return len(seen)


PRINTED = ref.columns(ref.TABLE_A2)
EVERY_SHARE = ((0, 100), (0, 100), (0, 100))

# Components of the systems, in the order of the formula.
SYSTEMS = """
1 methane hydrogen ethane
2 propane ethane butane
3 hydrogen propane propylene
4 methane ethane propane
5 methane hydrogen propane
6 methane hydrogen butane
7 methane propane butane
8 methane ethane butane
12 methane propylene
13 ethane propylene
14 carbon-monoxide hydrogen
15 ethane ethylene
16 propane ethylene
17 butadiene
18 butylene
20 methane carbon-dioxide nitrogen
"""


def table_a2():
    """The systems that there are, what the rule leaves out, and that a
    component alone has nearly the same number in every system."""
    sums = {s: sum(abs(a) for row in rows for a in row)
            for s, rows in ref.SCALED.items()}
    assert list(sums) == [*range(1, 19), 20]
    assert {s: sums[s] for s in sums if s not in ref.COEFFICIENTS} == {
        9: 491617380592000, 10: 406188095304000, 11: 459686778793000}
    assert max(sums[s] for s in ref.COEFFICIENTS) == sums[20] == 1795922978600
    own = ref.columns(ref.TABLE_5)
    assert all(PRINTED[s][row] == own[s][row] for s in own for row in own[s])

    alone = {}
    for line in SYSTEMS.strip().split("\n"):
        system, *components = line.split()
        blank = 3 - len(components)
        assert ref.SHARES[int(system)][3 - blank:] == ((0, 0),) * blank
        for place, component in enumerate(components):
            n = [1000000 if p == place else 0 for p in range(3)]
            got = ref.partial_number(int(system), *n)
            alone.setdefault(component, []).append(got)
    for inert in ("carbon-dioxide", "nitrogen"):
        assert alone.pop(inert) == [Refusal(17)]
    assert len(alone) == 10
    for numbers in alone.values():
        assert max(numbers) - min(numbers) < 4 * ref.UNITS
    assert alone["carbon-monoxide"] == [750000000]
    assert alone["butadiene"] == [120000000]
    assert alone["butylene"] == [200000000]


def ranges():
    """Ends of ranges and one part beyond, blanks, and the order 13, 12, 17;
    ratings test no range."""
    def number(*case):
        got = ref.partial_number(*case)
        return got.number if isinstance(got, Refusal) else 0
    for system in (1, 2, 3, 4, 5, 6, 7, 8):
        for n in ((1, 0, 0), (0, 1, 0), (0, 0, 1), (333333, 333333, 333334)):
            assert number(system, *n) == 0
    for system in (12, 13, 14, 15, 16):
        assert number(system, 1000000, 0, 0) == 0
        assert number(system, 0, 1, 0) == 0
        assert number(system, 999999, 0, 1) == 17
        assert number(system, 999999, 1, 1) == 12
    for system in (17, 18):
        assert number(system, 1, 0, 0) == number(system, 1000000, 0, 0) == 0
        assert number(system, 999999, 1, 0) == 17
        assert number(system, 999999, 0, 1) == 17
        assert number(system, 0, 0, 0) == 12
    for n1, n2, n3, wanted in (
            (500000, 300000, 200000, 0), (499999, 300000, 200001, 17),
            (500000, 300001, 199999, 17), (500000, 0, 500000, 0),
            (499999, 0, 500000, 17), (499999, 0, 500001, 17),
            (10, 6, 4, 0), (9, 6, 5, 17), (10, 7, 3, 17), (1, 0, 1, 0),
            (1, 0, 0, 0), (0, 1, 0, 17), (1000000, 0, 0, 0),
            (0, 0, 0, 12), (0, 1000001, 0, 12)):
        assert number(20, n1, n2, n3) == wanted, (n1, n2, n3)
    for system in (0, 9, 10, 11, 19, 21, 2 ** 32 - 1):
        for n in ((0, 0, 0), (0, 0, 1), (1000000, 0, 0), (1000001, 0, 0)):
            assert number(system, *n) == 13

    # Ratings test no range: the number below 50 % methane is there for them.
    # No analysis in range leads to such a share: systems 2, 4, 7, 8 take every
    # share, and the inert mixture has never more carbon dioxide than here.
    below = ref.work(20, 100000, 900000, 1000000)
    assert number(20, 100000, 900000, 0) == 17
    assert abs(below - ref.exact_number(20, 100000, 900000, 0)) < 19
    inert = (0, 749680, 100, 100, 10, 10, 0, 0, 0, 0, 0, 100000, 150000, 0, 0,
             0)
    assert not ref.check(inert) and ref.inert(inert) == (882339, 117661)


def spread_limit():
    """Sheets with a spread at the limit and one unit beside it."""
    path = os.path.join(os.path.dirname(os.path.abspath(__file__)),
                        "..", "data", "spread-limit.txt")
    with open(path) as f:
        for line in f:
            if line.startswith("#"):
                continue
            sheet, display = line.split(" ", 1)
            assert ref.display(ref.rate(bytes.fromhex(sheet))) == display


# A second reading of the working rule and of the search, in the plainest form.

def plain_number(system, n1, n2, n3):
    d = n1 + n2 + n3
    divisions = 0

    def share(x, n):
        nonlocal divisions
        divisions += 1
        quotient = abs(x * n) // d
        return quotient if x >= 0 else -quotient

    rows = []
    for k in range(8):
        row = ref.COEFFICIENTS[system][k]
        value = row[ref.HIGHEST_L[k]]
        for l in range(ref.HIGHEST_L[k] - 1, -1, -1):
            value = share(value, n2) + row[l]
        rows.append(value)
    value = rows[7]
    for k in range(6, -1, -1):
        value = share(value, n1) + rows[k]
    assert divisions == 19
    return value


def plain_search(analysis, allowance):
    """The search over a flat list of records, everything worked out afresh
    for each move."""
    amounts = ref.simplify(analysis)
    systems = ref.choose(amounts)
    variables = {1: (1, 15, 2), 2: (3, 2, 14), 4: (1, 2, 3), 5: (1, 15, 3),
                 6: (1, 15, 14), 7: (1, 3, 14), 8: (1, 2, 14)}
    codes = (1, 2, 3, 14, 15)
    records = []
    for s in systems:
        for code in codes:
            if code in variables[s]:
                sharing = [x for x in systems if code in variables[x]]
                amount = amounts[codes.index(code)]
                share = amount // len(sharing)
                if sharing.index(s) < amount - share * len(sharing):
                    share += 1
                records.append((s, code, share))

    def numbers(records):
        amount = {(s, code): a for s, code, a in records}
        return [plain_number(s, *(amount[s, code] for code in variables[s]))
                for s in systems]

    def uneven(values):
        cuts = [abs(v) // 10000 * (1 if v >= 0 else -1) for v in values]
        return sum((cuts[i] - cuts[j]) ** 2
                   for i in range(len(cuts)) for j in range(i))

    rounds, stride = 0, 65536
    while True:
        now = numbers(records)
        if max(now) - min(now) <= 500000:
            return rounds, tuple(records)
        if rounds == min(allowance, 4000):
            return None
        better = None
        for code in codes:
            for i, (giver, c, has) in enumerate(records):
                for j, (taker, c2, _) in enumerate(records):
                    if better or c != code or c2 != code or i == j \
                            or has < stride:
                        continue
                    trial = list(records)
                    trial[i] = (giver, c, has - stride)
                    trial[j] = (taker, c, trial[j][2] + stride)
                    if any(sum(a for s, _, a in trial if s == x) == 0
                           for x in systems):
                        continue
                    if uneven(numbers(trial)) < uneven(now):
                        better = trial
        if better:
            records = better
            rounds += 1
        elif stride == 1:
            return None
        else:
            stride //= 2


def plain_shares(system, *amounts):
    """Whether the shares, as fractions, are in the ranges as printed."""
    for c, n in zip("xyz", amounts):
        least, greatest = (Fraction(PRINTED[system][c + end].replace("-", "0"))
                           for end in ("min", "max"))
        share = Fraction(100 * n, sum(amounts))
        if share < least or share > greatest:
            return False
    return True


def partial_limits(seed, count):
    """Under 19 units from exact, in range or not; the trimmed rule equals the
    full one."""
    cases = itertools.chain(gases.share_cases(seed), itertools.islice(
        gases.partial_cases(seed), count))
    worst, seen = Fraction(0), {}
    for case in cases:
        system, n1, n2, n3 = case
        d = n1 + n2 + n3
        got = ref.partial_number(*case)
        if system not in ref.COEFFICIENTS:
            assert got == ref.exact_number(*case) == Refusal(13)
        elif not 1 <= d <= 1000000:
            assert got == ref.exact_number(*case) == Refusal(12)
        else:
            number = plain_number(*case)
            fits = plain_shares(*case)
            assert ref.work(system, n1, n2, d) == number
            assert got == (number if fits else Refusal(17))
            exact = ref.exact_number(*case)
            assert d ** 7 % exact.denominator == 0
            worst = max(worst, abs(number - exact))
            seen[system, fits] = seen.get((system, fits), 0) + 1
    for system, ends in ref.SHARES.items():
        outside = seen.get((system, False), 0)
        assert seen[system, True] >= 50
        assert outside == 0 if ends == EVERY_SHARE else outside >= 10
    assert worst < 19
    return sum(seen.values()), worst


def resums(analysis, records):
    sums = [sum(a for _, code, a in records if code == c)
            for c in ref.SPLIT_CODE]
    return tuple(sums) == ref.simplify(analysis)


def found_splits(seed, count):
    """Under 40 units, put back, re-summed, and the same by the plain search."""
    draw = gases.Draw(seed)
    worst = Fraction(0)
    rated = 0
    kinds = {2: 0, 3: 0, 5: 0}
    for n in range(count):
        analysis = gases.any_gas(draw)
        amounts = ref.simplify(analysis)
        assert sum(amounts) == 1000000
        # Present exactly where the analysis has some, and then 9 parts or more.
        assert all(x >= 9 if raw else x == 0
                   for x, raw in zip(amounts, ref.tenths(analysis)))
        got = ref.search(analysis)
        if amounts[0] == 1000000:
            assert got == Refusal(16)
            continue
        kinds[len(ref.choose(amounts))] += 1
        if isinstance(got, Refusal):
            assert got == Refusal(11)
            if n % 16 == 0:
                assert plain_search(analysis, 4000) is None
            continue
        rated += 1
        assert got.spread <= ref.SPREAD_LIMIT and got.rounds <= 4000
        assert resums(analysis, got.split)
        assert sum(a for _, _, a in got.split) == 1000000
        back = ref.rate_split(analysis, got.split)
        assert back == got._replace(rounds=0)
        sheet = bytearray(152)
        size = ref.write(analysis, got.split, sheet)
        assert ref.rate(bytes(sheet[:size])) == back
        worst = max(worst, abs(got.rating - ref.exact_rating(analysis,
                                                             got.split)))
        # A smaller allowance refuses, the same or a larger one doesn't.
        assert ref.search(analysis, got.rounds) == got
        assert ref.search(analysis, 2 ** 32 - 1) == got
        if got.rounds:
            assert ref.search(analysis, got.rounds - 1) == Refusal(11)
        if got.rounds < (40 if len(got.split) < 15 else 30):
            assert plain_search(analysis, 4000) == (got.rounds, got.split)
    assert worst < 40 and min(kinds.values()) >= count // 10
    return rated, worst


def proposed_splits(seed, count):
    """Under 40 units; rated exactly when in range, re-summed, no system empty
    and the spread within the limit."""
    cases = gases.split_cases(seed)
    worst = Fraction(0)
    rated = 0
    for _ in range(count):
        kind, analysis, records = next(cases)
        got = ref.rate_split(analysis, records)
        fits = not ref.check(analysis) and \
            sum(x > 0 for x in ref.simplify(analysis)) > 1
        if fits:
            pairs = ref.expected(ref.choose(ref.simplify(analysis)))
            fits = [(s, c) for s, c, _ in records] == \
                [(s, ref.SPLIT_CODE[c]) for s, c in pairs] \
                and resums(analysis, records)
        if fits:
            held = gases.held_of(records)
            fits = all(sum(x.values()) for x in held.values())
        if fits:
            values = [plain_number(s, *(held[s][c]
                                        for c in ref.FORMULA_ORDER[s]))
                      for s in held]
            fits = max(values) - min(values) <= 500000
        assert isinstance(got, Rating) == fits, kind
        if fits:
            rated += 1
            worst = max(worst, abs(got.rating - ref.exact_rating(analysis,
                                                                 records)))
    assert worst < 40
    return rated, worst


def main(arguments):
    seed = int(arguments[0]) if arguments else 1
    count = int(arguments[1]) if len(arguments) > 1 else 300
    marked_figures()
    compared_figures()
    refusals()
    ceiling()
    moles_examples()
    moles_refused()
    faults = lowest_code(seed, 20 * count)
    lean()
    blends()
    sets = choices(seed, 20 * count)
    table_a2()
    ranges()
    spread_limit()
    print("figures and refusals of document 01, the ceiling of hexanes+, analyses in "
          "moles, the lowest code of %d analyses and sheets, lean gases, hydrogen "
          "blends, the choice for %d sets of components, Table A.2's rule and "
          "ranges: as written" % (faults, sets))
    rated, worst = moles(seed, 2 * count)
    print("moles: %d analyses to the nearest parts; %d rated and put back, farthest "
          "from exact %.3f units" % (2 * count, rated, worst))
    cases, worst = partial_limits(seed, 10 * count)
    print("partial numbers: %d of %d systems, farthest from exact %.3f units"
          % (cases, len(ref.SHARES), worst))
    rated, worst = found_splits(seed, count)
    print("found splits: %d of %d gases rated, put back and re-summed; "
          "farthest from exact %.3f units" % (rated, count, worst))
    rated, worst = proposed_splits(seed, 5 * count)
    print("proposed splits: %d of %d rated; farthest from exact %.3f units"
          % (rated, 5 * count, worst))


if __name__ == "__main__":
    main(sys.argv[1:])
