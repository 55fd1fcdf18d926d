"""Reference program for the methane number rating, written from document 01,
for the ceiling of hexanes+ from request One of document 02, for analyses in
moles from its request Two, for the code with refusal 5 from its request Four,
for lean gases from its request Five, for single systems from its request Six
and for hydrogen blends from its request Seven, alone.  Whole numbers and exact
fractions only.

An analysis is a tuple of 16 amounts in parts, indexed by code; 0 is absent,
and no amount is legal at 0, 9, 13 and 14.  Its amounts are volumes, and those
of a mole analysis moles: a call takes the one or the other.  A split is three
records (system, code, amount) for each system chosen.  A refusal is
Refusal(number, at): `at` is the record's place for 2 to 4, the lowest code at
fault for 5, else None.

Command line: reads a sheet on standard input, prints the display line.
"""

import sys
from decimal import Decimal
from fractions import Fraction
from functools import lru_cache
from itertools import combinations
from typing import NamedTuple

PARTS = 1000000            # parts in the whole
UNITS = 10000000           # units in one methane number
SPREAD_LIMIT = 500000
FIRST_STRIDE = 65536
MOST_ROUNDS = 4000
METHANE_NUMBER = 1000003000
LEAST_TOTAL, GREATEST_TOTAL = 999900, 1000100
MOST_COMPONENTS = 12
LONGEST = 188

RANGE = {
    1: (400000, 999700), 2: (100, 150000), 3: (100, 60000),
    4: (10, 40000), 5: (10, 40000), 6: (10, 500),
    7: (10, 20000), 8: (10, 20000), 10: (10, 6100),
    11: (50, 100000), 12: (50, 150000), 15: (10, 100000),
}
CODES = 16                 # places of an analysis
RETIRED = (9, 13)
SPLITS_ONLY = 14
REQUIRED = (1,)
SPLIT_COUNTS = (0, 6, 9, 12, 15, 18, 21)
FEWEST = 2                 # components present in a mixture that is rated

# 001 Table 2, in ten-thousandths: what a mole analysis may have.
FACTOR = {1: 9981, 2: 9920, 3: 9829, 4: 9720, 5: 9681, 6: 9608, 7: 9521,
          8: 9473, 10: 9155, 11: 9947, 12: 9998}
HYDROGEN = 15              # no mole analysis has it

# Components of the simplified mixture, and their codes in a split.
COMPONENTS = M, E, P, B, H = 0, 1, 2, 3, 4
SPLIT_CODE = (1, 2, 3, 14, 15)
FITNESS_WEIGHT = (48, 75, 80, 100, 96)

# Components of each system; the first two are the formula's variables.
FORMULA_ORDER = {1: (M, H, E), 2: (P, E, B), 4: (M, E, P), 5: (M, H, P),
                 6: (M, H, B), 7: (M, P, B), 8: (M, E, B)}
BLEND_CANDIDATES = (1, 2, 4, 5, 6, 7, 8)    # where hydrogen is present
CANDIDATES = (2, 4, 7, 8)                   # where it isn't
CHOICE_ORDER = (H, P, E, B, M)

# 000 Table A.2.  Each block begins with its systems; row akl has a(k,l), the
# last six the greatest and least share of x, y, z in percent, - for a blank.
TABLE_A2 = """
system              1              2              3              4              5              6              7
a00     4.3628190E+01  1.0245130E+01  1.8627940E+01  3.3539090E+01  3.4758040E+01  1.2299020E+01  1.0169140E+01
a10    -9.2508870E-02  8.5906610E-02 -1.2035810E-01 -1.0282240E-01 -5.1949050E-01 -7.5182070E-01  4.3666120E-01
a01    -1.0488580E-02  1.4982130E-01  1.0871090E-01  2.0683750E-01  5.4737050E-02 -4.5103700E-01  3.8170960E-02
a20     1.6449270E-02  7.3843960E-03  1.9298010E-02  2.3981410E-02  4.4054460E-02  5.1433330E-02 -8.7264540E-02
a11    -2.5007730E-03  9.5705040E-03 -1.3050630E-03  3.3161370E-03  2.6425310E-02  5.1261470E-02 -7.9478640E-03
a02    -4.3202740E-03  5.1369710E-03  1.7985000E-03 -3.5536890E-03 -1.0567810E-02  1.7866300E-02  1.0365010E-02
a30    -3.1191690E-04 -1.0036620E-04 -1.3018080E-03 -9.5847460E-04 -8.7433290E-04 -1.0241590E-03  5.9397950E-03
a21    -6.0486960E-05 -2.0203270E-04  2.9904470E-05 -2.4096040E-04 -1.0846450E-03 -1.6406520E-03  3.2678860E-04
a12    -5.3528010E-05 -4.5802770E-05  8.5613760E-05  3.9418400E-05 -3.5553270E-04 -1.0022400E-03  2.3714910E-04
a03     6.8507420E-05 -5.6856150E-05 -2.5836670E-05  5.0018560E-05  2.2897690E-04 -1.4279120E-04 -1.6152150E-04
a40     2.1223340E-06  4.1273050E-07  4.1692950E-05  2.0052880E-05  5.4767420E-06  6.6995630E-06 -1.8541270E-04
a31     2.1993700E-06  1.2511380E-06  2.0011240E-07  3.4585100E-06  1.1309800E-05  1.5661210E-05 -3.3085860E-07
a22     1.2109690E-06  3.1147030E-07 -6.8546460E-07  8.0364540E-07  7.9874880E-06  1.5763060E-05 -4.9758630E-06
a13     2.9706580E-07 -3.1401570E-07 -6.2626130E-07 -4.3338760E-07  7.4860850E-07  5.2498880E-06 -8.7822910E-07
a04    -6.7138020E-07  2.4039480E-07  1.1987890E-07 -2.5042560E-07 -1.6340240E-06  0.0000000E+00  7.7408400E-07
a50     0.0000000E+00  0.0000000E+00 -6.9526380E-07 -2.1154170E-07  0.0000000E+00  0.0000000E+00  2.9565980E-06
a60     0.0000000E+00  0.0000000E+00  5.7989840E-09  9.0540200E-10  0.0000000E+00  0.0000000E+00 -2.3370740E-08
a70     0.0000000E+00  0.0000000E+00 -1.9133740E-11  0.0000000E+00  0.0000000E+00  0.0000000E+00  7.3223480E-11
a05     0.0000000E+00  0.0000000E+00  0.0000000E+00  0.0000000E+00  0.0000000E+00  0.0000000E+00  0.0000000E+00
a06     0.0000000E+00  0.0000000E+00  0.0000000E+00  0.0000000E+00  0.0000000E+00  0.0000000E+00  0.0000000E+00
xmax            100.0          100.0          100.0          100.0          100.0          100.0          100.0
xmin              0.0            0.0            0.0            0.0            0.0            0.0            0.0
ymax            100.0          100.0          100.0          100.0          100.0          100.0          100.0
ymin              0.0            0.0            0.0            0.0            0.0            0.0            0.0
zmax            100.0          100.0          100.0          100.0          100.0          100.0          100.0
zmin              0.0            0.0            0.0            0.0            0.0            0.0            0.0
system              8              9             10             11             12             13             14
a00     1.0777610E+01 -1.2408570E+05  1.8388506E+05 -1.1788466E+05  5.9095515E+01  3.1550700E+01  0.0000000E+00
a10     1.6474900E-01  1.1938458E+04 -1.5396773E+04  1.1251043E+04  1.0602705E-01  7.9749400E-02  1.5000000E+00
a01    -1.4050070E-01 -1.9962282E+02 -1.4160386E+01 -2.6712519E+02 -3.4069240E+00 -1.7706875E-01  0.0000000E+00
a20    -5.1987300E-02 -4.8574811E+02  5.4158924E+02 -4.5492745E+02 -3.1884830E-03  4.8659675E-04 -7.5000000E-03
a11    -7.0448690E-03  7.8748002E+00  5.6775484E-01  1.0645736E+01  0.0000000E+00  0.0000000E+00 -7.5000000E-03
a02     1.6154370E-02  2.5929804E+00  1.1942148E+00  3.6669421E+00  1.5370325E-01  4.8659675E-04  0.0000000E+00
a30     3.9913150E-03  1.0855881E+01 -1.0358971E+01  1.0120505E+01 -1.0801210E-04  0.0000000E+00  0.0000000E+00
a21     1.4794820E-04 -1.0266703E-01 -7.7071033E-03 -1.3986048E-01  0.0000000E+00  0.0000000E+00  0.0000000E+00
a12     3.3848030E-04 -6.9109752E-02 -2.4873835E-02 -9.7497566E-02  0.0000000E+00  0.0000000E+00  0.0000000E+00
a03    -1.7546700E-04 -1.4504600E-02 -3.1209902E-02 -2.4662769E-02 -3.6748700E-03  0.0000000E+00  0.0000000E+00
a40    -1.2774870E-04 -1.4417120E-01  1.1603083E-01 -1.3401172E-01  8.4599300E-06  0.0000000E+00  0.0000000E+00
a31     2.7564440E-06  4.4431373E-04  3.3083382E-05  6.0764355E-04  0.0000000E+00  0.0000000E+00  0.0000000E+00
a22    -4.0416670E-06  4.5679208E-04  1.7311782E-04  6.4613035E-04  0.0000000E+00  0.0000000E+00  0.0000000E+00
a13    -1.9710210E-06  1.9871610E-04  4.1754490E-06  3.1927693E-04  0.0000000E+00  0.0000000E+00  0.0000000E+00
a04     6.0752130E-07  2.6937182E-05  1.5364226E-03  7.6292913E-05  4.6273625E-05  0.0000000E+00  0.0000000E+00
a50     2.0157030E-06  1.1395330E-03 -7.5743018E-04  1.0579750E-03 -1.3928745E-07  0.0000000E+00  0.0000000E+00
a60    -1.5580170E-08 -4.9703336E-06  2.6462473E-06 -4.6175613E-06  7.1638300E-10  0.0000000E+00  0.0000000E+00
a70     4.7976930E-11  9.2406348E-09 -3.7606039E-09  8.6063163E-09  0.0000000E+00  0.0000000E+00  0.0000000E+00
a05     0.0000000E+00  0.0000000E+00 -3.5650030E-05  0.0000000E+00 -2.9054230E-07  0.0000000E+00  0.0000000E+00
a06     0.0000000E+00  0.0000000E+00  3.0668448E-07  0.0000000E+00  7.1638300E-10  0.0000000E+00  0.0000000E+00
xmax            100.0          100.0          100.0          100.0          100.0          100.0          100.0
xmin              0.0           75.0           75.0           75.0            0.0            0.0            0.0
ymax            100.0           25.0           25.0           25.0          100.0          100.0          100.0
ymin              0.0            0.0            0.0            0.0            0.0            0.0            0.0
zmax            100.0           25.0           25.0           25.0              -              -              -
zmin              0.0            0.0            0.0            0.0              -              -              -
system             15             16             17             18             20
a00     2.9655595E+01  2.4494755E+01  1.2000000E+01  2.0000000E+01  2.9917430E+02
a10     1.7064685E-01  1.3676575E-01  0.0000000E+00  0.0000000E+00 -1.5119580E+01
a01    -1.2344405E-01 -5.4597900E-02  0.0000000E+00  0.0000000E+00 -3.1156360E-01
a20    -2.3601400E-04 -4.1083915E-04  0.0000000E+00  0.0000000E+00  7.6359480E-01
a11     0.0000000E+00  0.0000000E+00  0.0000000E+00  0.0000000E+00  4.5480690E-02
a02    -2.3601400E-04 -4.1083915E-04  0.0000000E+00  0.0000000E+00  1.1230410E-02
a30     0.0000000E+00  0.0000000E+00  0.0000000E+00  0.0000000E+00 -2.3762630E-02
a21     0.0000000E+00  0.0000000E+00  0.0000000E+00  0.0000000E+00 -7.8562940E-04
a12     0.0000000E+00  0.0000000E+00  0.0000000E+00  0.0000000E+00  6.5557090E-04
a03     0.0000000E+00  0.0000000E+00  0.0000000E+00  0.0000000E+00 -2.1468550E-03
a40     0.0000000E+00  0.0000000E+00  0.0000000E+00  0.0000000E+00  4.3554940E-04
a31     0.0000000E+00  0.0000000E+00  0.0000000E+00  0.0000000E+00  3.8606680E-06
a22     0.0000000E+00  0.0000000E+00  0.0000000E+00  0.0000000E+00  1.3816990E-06
a13     0.0000000E+00  0.0000000E+00  0.0000000E+00  0.0000000E+00 -7.9339020E-06
a04     0.0000000E+00  0.0000000E+00  0.0000000E+00  0.0000000E+00  6.6993640E-05
a50     0.0000000E+00  0.0000000E+00  0.0000000E+00  0.0000000E+00 -4.6077260E-06
a60     0.0000000E+00  0.0000000E+00  0.0000000E+00  0.0000000E+00  2.6105700E-08
a70     0.0000000E+00  0.0000000E+00  0.0000000E+00  0.0000000E+00 -6.1439140E-11
a05     0.0000000E+00  0.0000000E+00  0.0000000E+00  0.0000000E+00 -8.3693870E-07
a06     0.0000000E+00  0.0000000E+00  0.0000000E+00  0.0000000E+00  3.9280730E-09
xmax            100.0          100.0          100.0          100.0          100.0
xmin              0.0            0.0          100.0          100.0           50.0
ymax            100.0          100.0              -              -           30.0
ymin              0.0            0.0              -              -            0.0
zmax                -              -              -              -           50.0
zmin                -              -              -              -            0.0
"""

# 001 Table 5: what document 01 uses for these systems.  a(2,2) of system 20
# has the sign that 000 Table A.2 prints.
TABLE_5 = """
system              2              4              7              8             20
a00     1.0245130E+01  3.3539090E+01  1.0169140E+01  1.0777610E+01  2.9917430E+02
a10     8.5906610E-02 -1.0282240E-01  4.3666120E-01  1.6474900E-01 -1.5119580E+01
a01     1.4982130E-01  2.0683750E-01  3.8170960E-02 -1.4050070E-01 -3.1156360E-01
a20     7.3843960E-03  2.3981410E-02 -8.7264540E-02 -5.1987300E-02  7.6359480E-01
a11     9.5705040E-03  3.3161370E-03 -7.9478640E-03 -7.0448690E-03  4.5480690E-02
a02     5.1369710E-03 -3.5536890E-03  1.0365010E-02  1.6154370E-02  1.1230410E-02
a30    -1.0036620E-04 -9.5847460E-04  5.9397950E-03  3.9913150E-03 -2.3762630E-02
a21    -2.0203270E-04 -2.4096040E-04  3.2678860E-04  1.4794820E-04 -7.8562940E-04
a12    -4.5802770E-05  3.9418400E-05  2.3714910E-04  3.3848030E-04  6.5557090E-04
a03    -5.6856150E-05  5.0018560E-05 -1.6152150E-04 -1.7546700E-04 -2.1468550E-03
a40     4.1273050E-07  2.0052880E-05 -1.8541270E-04 -1.2774870E-04  4.3554940E-04
a31     1.2511380E-06  3.4585100E-06 -3.3085860E-07  2.7564440E-06  3.8606680E-06
a22     3.1147030E-07  8.0364540E-07 -4.9758630E-06 -4.0416670E-06  1.3816990E-06
a13    -3.1401570E-07 -4.3338760E-07 -8.7822910E-07 -1.9710210E-06 -7.9339020E-06
a04     2.4039480E-07 -2.5042560E-07  7.7408400E-07  6.0752130E-07  6.6993640E-05
a50     0.0000000E+00 -2.1154170E-07  2.9565980E-06  2.0157030E-06 -4.6077260E-06
a60     0.0000000E+00  9.0540200E-10 -2.3370740E-08 -1.5580170E-08  2.6105700E-08
a70     0.0000000E+00  0.0000000E+00  7.3223480E-11  4.7976930E-11 -6.1439140E-11
a05     0.0000000E+00  0.0000000E+00  0.0000000E+00  0.0000000E+00 -8.3693870E-07
a06     0.0000000E+00  0.0000000E+00  0.0000000E+00  0.0000000E+00  3.9280730E-09
"""
HIGHEST_L = (6, 3, 2, 1, 0, 0, 0, 0)      # for k = 0 to 7
GREATEST_SUM = 2000000000000               # of a system's magnitudes, in units


class Refusal(NamedTuple):
    number: int
    at: object = None


class Rating(NamedTuple):
    rating: int
    whole: int
    spread: int
    rounds: int
    split: tuple


def columns(text):
    """{system: {row: figure as it stands}} of a table's blocks."""
    out = {}
    for line in filter(None, text.split("\n")):
        row, *figures = line.split()
        if row == "system":
            systems = [int(figure) for figure in figures]
            continue
        assert len(figures) == len(systems)
        for system, figure in zip(systems, figures):
            out.setdefault(system, {})[row] = figure
    return out


def scaled(column):
    """rows[k][l] = a(k,l) * 100^(k+l) in units, exactly."""
    return [[Fraction(Decimal(column["a%d%d" % (k, l)])) * 100 ** (k + l)
             * UNITS for l in range(highest + 1)]
            for k, highest in enumerate(HIGHEST_L)]


def within_rule(rows):
    """Whole counts of units whose magnitudes add up to no more than allowed."""
    figures = [figure for row in rows for figure in row]
    return (all(figure.denominator == 1 for figure in figures)
            and sum(map(abs, figures)) <= GREATEST_SUM)


def shares(column):
    """Least and greatest share of x, y, z in percent; blanks are 0 to 0."""
    def percent(figure):
        return 0 if figure == "-" else int(Decimal(figure))
    return tuple((percent(column[c + "min"]), percent(column[c + "max"]))
                 for c in "xyz")


# Every system as printed, with document 01's own figures; of these the
# systems that there are.
SCALED = {s: scaled(column) for s, column in
          {**columns(TABLE_A2), **columns(TABLE_5)}.items()}
COEFFICIENTS = {s: [[int(figure) for figure in row] for row in rows]
                for s, rows in SCALED.items() if within_rule(rows)}
SHARES = {s: shares(columns(TABLE_A2)[s]) for s in COEFFICIENTS}


def steps(rows):
    """The rows from the highest k and, in each, the highest l.  Zeros before
    the first coefficient that isn't zero leave the result 0 and are dropped;
    selfcheck.py compares with all 19 divisions."""
    out = []
    for row in reversed(rows):
        row = list(reversed(row))
        while len(row) > 1 and row[0] == 0:
            row.pop(0)
        if out or row != [0]:
            out.append(tuple(row))
    return tuple(out)


STEPS = {s: steps(rows) for s, rows in COEFFICIENTS.items()}


# ---------------------------------------------------------------- the sheet

def read(sheet):
    """Refusal (1 to 6), or (analysis, split); split is None for count 0."""
    size = len(sheet)
    if size < 1 or sheet[0] > MOST_COMPONENTS:
        return Refusal(1)
    second = 1 + 5 * sheet[0]
    if size < second + 1 or sheet[second] not in SPLIT_COUNTS:
        return Refusal(1)
    if size != second + 1 + 6 * sheet[second]:
        return Refusal(1)

    listed = {}
    before = 0
    for place in range(sheet[0]):
        at = 1 + 5 * place
        code = sheet[at]
        if code == 0 or code == SPLITS_ONLY or code >= CODES:
            return Refusal(2, place)
        if code in RETIRED:
            return Refusal(3, place)
        if place > 0 and code <= before:
            return Refusal(4, place)
        before = code
        listed[code] = int.from_bytes(sheet[at + 1:at + 5], "big")
    refusal = check_listed(listed)
    if refusal:
        return refusal

    split = None
    if sheet[second]:
        split = tuple(
            (sheet[at], sheet[at + 1],
             int.from_bytes(sheet[at + 2:at + 6], "big"))
            for at in range(second + 1, size, 6))
    return tuple(listed.get(c, 0) for c in range(CODES)), split


def code_range(code):
    """1 and 0 for a code that no analysis has."""
    return RANGE.get(code, (1, 0))


def in_range(code, amount):
    """Never for a code that no analysis has."""
    least, greatest = code_range(code)
    return least <= amount <= greatest


def check_listed(listed, total=6):
    """5 or 6 for {code: amount} as listed, else None.  At fault are the codes
    that must be there and aren't, and those listed with an amount outside
    their range, 0 too; 5 carries the lowest of them all.  A total out of range
    has another number in a mole analysis."""
    fault = {c for c in REQUIRED if c not in listed}
    fault |= {c for c, amount in listed.items() if not in_range(c, amount)}
    if fault:
        return Refusal(5, min(fault))
    if not LEAST_TOTAL <= sum(listed.values()) <= GREATEST_TOTAL:
        return Refusal(total)
    return None


def check(analysis):
    """5 or 6 for an analysis, else None."""
    return check_listed({c: a for c, a in enumerate(analysis) if a})


def check_moles(moles):
    """18, 5 or 15 for a mole analysis, else None."""
    if moles[HYDROGEN]:
        return Refusal(18)
    return check_listed({c: a for c, a in enumerate(moles) if a}, 15)


def layout(analysis, split):
    """The sheet's bytes, with no test."""
    listed = [(c, a) for c, a in enumerate(analysis) if a]
    out = bytearray([len(listed)])
    for code, amount in listed:
        out += bytes([code]) + amount.to_bytes(4, "big")
    out.append(len(split) if split else 0)
    for system, code, amount in split or ():
        out += bytes([system, code]) + amount.to_bytes(4, "big")
    return bytes(out)


def write(analysis, split, buffer):
    """Refusal 1, 5, 6 or 14, or the sheet's length.  `buffer` is a bytearray;
    only the sheet's own bytes are changed, none by a refusal."""
    if len(split or ()) not in SPLIT_COUNTS:
        return Refusal(1)
    refusal = check(analysis)
    if refusal:
        return refusal
    sheet = layout(analysis, split)
    if len(sheet) > len(buffer):
        return Refusal(14)
    buffer[:len(sheet)] = sheet
    return len(sheet)


# -------------------------------------------------------- moles to volumes

def volumes_of(moles):
    """The volume amounts made from mole amounts, halves up, with no test."""
    products = [amount * FACTOR.get(c, 0) for c, amount in enumerate(moles)]
    whole = sum(products)
    return tuple((2 * PARTS * x + whole) // (2 * whole) for x in products)


def convert(moles):
    """Refusal 18, 5 or 15, or the volume amounts made."""
    return check_moles(moles) or volumes_of(moles)


# ------------------------------------------------------------ the mixture

def tenths(analysis):
    """The five components in tenths of a part, before scaling."""
    a = analysis
    return (10 * a[1], 10 * a[2], 10 * a[3],
            10 * (a[4] + a[5]) + 23 * (a[6] + a[7] + a[8]) + 53 * a[10],
            10 * a[15])


def simplify(analysis):
    """The simplified mixture: five amounts adding up to 1000000."""
    raw = tenths(analysis)
    total = sum(raw)
    amounts = [PARTS * x // total for x in raw]
    remainder = [PARTS * x % total for x in raw]
    missing = PARTS - sum(amounts)
    largest = sorted(COMPONENTS, key=lambda c: (-remainder[c], c))
    for c in largest[:missing]:
        amounts[c] += 1
    return tuple(amounts)


def candidates(amounts):
    """The systems to choose from."""
    return BLEND_CANDIDATES if amounts[H] else CANDIDATES


def fitness(amounts):
    """{system: fitness times 480}."""
    return {s: sum(FITNESS_WEIGHT[c] * amounts[c] for c in FORMULA_ORDER[s])
            for s in candidates(amounts)}


def present(amounts):
    """The set of components present."""
    return {c for c, amount in enumerate(amounts) if amount > 0}


def choose(amounts):
    """The chosen systems, rising.  More components present go before more
    fitness, and this before a lower number."""
    fit = fitness(amounts)
    there = present(amounts)
    chosen = []
    for wanted in (1, 2):
        for c in CHOICE_ORDER:
            if c not in there:
                continue
            if sum(c in FORMULA_ORDER[s] for s in chosen) < wanted:
                free = [s for s in fit
                        if c in FORMULA_ORDER[s] and s not in chosen]
                chosen.append(min(free, key=lambda s: (
                    -len(there & set(FORMULA_ORDER[s])), -fit[s], s)))
    if len(there) >= FEWEST:
        assert 3 * len(chosen) in SPLIT_COUNTS
    return tuple(sorted(chosen))


def turned_away(analysis):
    """16 or 13 for an analysis that has been tested, or made from moles, else
    None.  13 is for a chosen system that the rule of Table A.2 leaves out; it
    leaves out no candidate."""
    amounts = simplify(analysis)
    if len(present(amounts)) < FEWEST:
        return Refusal(16)
    if any(s not in COEFFICIENTS for s in choose(amounts)):
        return Refusal(13)
    return None


def inert(analysis):
    """n1 and n2 of system 20."""
    total = sum(tenths(analysis))
    whole = total + 10 * analysis[11]
    n1 = (2 * PARTS * total + whole) // (2 * whole)
    return n1, PARTS - n1


# -------------------------------------------------------- partial numbers

def cut(number, divisor):
    """Quotient with the fraction dropped towards zero."""
    return number // divisor if number >= 0 else -(-number // divisor)


@lru_cache(maxsize=1 << 14)
def work(system, n1, n2, d):
    """The working rule, for legal amounts."""
    result = 0
    for row in STEPS[system]:
        inner = row[0]
        for coefficient in row[1:]:
            inner *= n2
            inner = inner // d if inner >= 0 else -(-inner // d)
            inner += coefficient
        result *= n1
        result = result // d if result >= 0 else -(-result // d)
        result += inner
    return result


def no_number(system, n1, n2, n3):
    """13 or 12, else None."""
    if system not in COEFFICIENTS:
        return Refusal(13)
    if not 1 <= n1 + n2 + n3 <= PARTS:
        return Refusal(12)
    return None


def in_shares(system, amounts):
    """Whether each amount's share of their sum is in the system's range."""
    d = sum(amounts)
    return all(least * d <= 100 * n <= greatest * d
               for n, (least, greatest) in zip(amounts, SHARES[system]))


def partial_number(system, n1, n2, n3):
    """Refusal 13, 12 or 17, or the partial number in units."""
    refusal = no_number(system, n1, n2, n3)
    if refusal:
        return refusal
    if not in_shares(system, (n1, n2, n3)):
        return Refusal(17)
    return work(system, n1, n2, n1 + n2 + n3)


def exact_number(system, n1, n2, n3):
    """Refusal 13 or 12, or the exact value in units, whatever the shares."""
    refusal = no_number(system, n1, n2, n3)
    if refusal:
        return refusal
    d = n1 + n2 + n3
    # Over the one denominator d^7; no term has k + l above 7.
    numerator = 0
    for k, row in enumerate(COEFFICIENTS[system]):
        for l, coefficient in enumerate(row):
            numerator += coefficient * n1 ** k * n2 ** l * d ** (7 - k - l)
    return Fraction(numerator, d ** 7)


# ------------------------------------------------- the split and the rating

def expected(systems):
    """The (system, component) pairs of the records, three for each system,
    in order."""
    return [(s, c) for s in systems for c in sorted(FORMULA_ORDER[s])]


def number_of(system, held):
    """Partial number of a system holding {component: amount}."""
    first, second, third = (held[c] for c in FORMULA_ORDER[system])
    return work(system, first, second, first + second + third)


def spread_of(numbers):
    return max(numbers) - min(numbers)


def whole_number(rating):
    return (rating + UNITS // 2) // UNITS


def mean_and_inert(analysis, parts, numbers):
    mean = cut(sum(p * n for p, n in zip(parts, numbers)), PARTS)
    n1, n2 = inert(analysis)
    return mean + work(20, n1, n2, PARTS) - METHANE_NUMBER


def rate_split(analysis, records):
    """Refusal 5, 6, 16, 13 or 7 to 10, or the rating of a proposed split."""
    return check(analysis) or split_rating(analysis, records)


def rate_split_moles(moles, records):
    """Refusal 18, 5, 15, 16, 13 or 7 to 10, or the rating of a proposed split
    of the volumes made."""
    return check_moles(moles) or split_rating(volumes_of(moles), records)


def split_rating(analysis, records):
    """Refusal 16, 13 or 7 to 10, or the rating, of volumes without a test."""
    refusal = turned_away(analysis)
    if refusal:
        return refusal
    amounts = simplify(analysis)
    systems = choose(amounts)
    pairs = expected(systems)
    if [(s, code) for s, code, _ in records] != \
            [(s, SPLIT_CODE[c]) for s, c in pairs]:
        return Refusal(7)
    sums = [0] * len(COMPONENTS)
    held = {s: {} for s in systems}
    for (s, c), (_, _, amount) in zip(pairs, records):
        sums[c] += amount
        held[s][c] = amount
    if tuple(sums) != amounts:
        return Refusal(8)
    parts = [sum(held[s].values()) for s in systems]
    if 0 in parts:
        return Refusal(9)
    numbers = [number_of(s, held[s]) for s in systems]
    if spread_of(numbers) > SPREAD_LIMIT:
        return Refusal(10)
    rating = mean_and_inert(analysis, parts, numbers)
    return Rating(rating, whole_number(rating), spread_of(numbers), 0,
                  tuple(records))


def exact_rating(analysis, records):
    """The exact value of the rating at a split, in units."""
    held = {}
    for s, code, amount in records:
        held.setdefault(s, {})[SPLIT_CODE.index(code)] = amount
    mean = Fraction(0)
    for s, amounts in held.items():
        value = exact_number(s, *(amounts[c] for c in FORMULA_ORDER[s]))
        mean += value * sum(amounts.values()) / PARTS
    n1, n2 = inert(analysis)
    return mean + exact_number(20, n1, n2, 0) - METHANE_NUMBER


# ------------------------------------------------------------- the search

def start(amounts, systems):
    """{system: {component: amount}}, shared equally."""
    held = {s: {} for s in systems}
    for c in COMPONENTS:
        sharing = [s for s in systems if c in FORMULA_ORDER[s]]
        if not sharing:         # of an absent component
            continue
        share, odd = divmod(amounts[c], len(sharing))
        for place, s in enumerate(sharing):
            held[s][c] = share + (1 if place < odd else 0)
    return held


def moves(systems):
    """(component, from, to) in the written order."""
    return [(c, giver, taker)
            for c in COMPONENTS
            for giver in systems if c in FORMULA_ORDER[giver]
            for taker in systems if c in FORMULA_ORDER[taker]
            and taker != giver]


def imbalance(numbers):
    """Over every pair of the chosen systems."""
    return sum((x - y) ** 2 for x, y in
               combinations([cut(n, 10000) for n in numbers], 2))


def first_move(held, numbers, order, stride):
    """The numbers after the first move that lowers the imbalance, with the
    move carried out in `held`; None and no change if there is none."""
    now = imbalance(numbers.values())
    for c, giver, taker in order:
        if held[giver][c] < stride:
            continue
        if sum(held[giver].values()) == stride:
            continue
        held[giver][c] -= stride
        held[taker][c] += stride
        after = dict(numbers)
        after[giver] = number_of(giver, held[giver])
        after[taker] = number_of(taker, held[taker])
        if imbalance(after.values()) < now:
            return after
        held[giver][c] += stride
        held[taker][c] -= stride
    return None


def search(analysis, allowance=MOST_ROUNDS):
    """Refusal 5, 6, 16, 13 or 11, or the rating with its found split."""
    return check(analysis) or found_rating(analysis, allowance)


def search_moles(moles, allowance=MOST_ROUNDS):
    """Refusal 18, 5, 15, 16, 13 or 11, or the rating with the split found for
    the volumes made."""
    return check_moles(moles) or found_rating(volumes_of(moles), allowance)


def found_rating(analysis, allowance):
    """Refusal 16, 13 or 11, or the rating, of volumes without a test."""
    refusal = turned_away(analysis)
    if refusal:
        return refusal
    allowance = min(allowance, MOST_ROUNDS)
    amounts = simplify(analysis)
    systems = choose(amounts)
    order = moves(systems)
    held = start(amounts, systems)
    numbers = {s: number_of(s, held[s]) for s in systems}
    stride = FIRST_STRIDE
    rounds = 0
    while spread_of(numbers.values()) > SPREAD_LIMIT:
        if rounds == allowance:
            return Refusal(11)
        after = first_move(held, numbers, order, stride)
        if after:
            numbers = after
            rounds += 1
        elif stride == 1:
            return Refusal(11)
        else:
            stride //= 2
    parts = [sum(held[s].values()) for s in systems]
    rating = mean_and_inert(analysis, parts, numbers.values())
    split = tuple((s, SPLIT_CODE[c], held[s][c]) for s, c in expected(systems))
    return Rating(rating, whole_number(rating), spread_of(numbers.values()),
                  rounds, split)


def rate(sheet):
    """The answer to a sheet: Refusal 1 to 11, 16 or 13, or Rating."""
    got = read(sheet)
    if isinstance(got, Refusal):
        return got
    analysis, split = got
    if split is None:
        return search(analysis, MOST_ROUNDS)
    return rate_split(analysis, split)


def controller_record(answer):
    """Rating and spread as doubles.  Python's division of whole numbers is
    rounded once, to the nearest double."""
    return answer.rating / UNITS, answer.spread / UNITS


def display(answer):
    if isinstance(answer, Refusal):
        return "REFUSED %d\n" % answer.number
    return "RATED %d %d %d %d\n" % answer[:4]


def main():
    sys.stdout.write(display(rate(sys.stdin.buffer.read())))


if __name__ == "__main__":
    main()
