#!/usr/bin/env python3
"""The mixtures of crates/choice_cases and the systems that are chosen for them, worked out from 000 alone:
A.3.1 for the simplified mixtures of gases, formula (A.1) with the sums of Table A.3 as exact fractions for the
fitness, A.3.2.4 for the choice, request Five for absent components and request Seven for the candidates of a blend.

  choice_cases.py            prints the lines that the program has to print
  choice_cases.py --check    compares the program's mixtures and its file `stdout` with them
"""
from fractions import Fraction
from itertools import combinations, product

import cases

COMPONENTS = METHANE, ETHANE, PROPANE, BUTANE, HYDROGEN = range(5)
SYSTEMS = {
    1: {METHANE, HYDROGEN, ETHANE},
    2: {PROPANE, ETHANE, BUTANE},
    4: {METHANE, ETHANE, PROPANE},
    5: {METHANE, HYDROGEN, PROPANE},
    6: {METHANE, HYDROGEN, BUTANE},
    7: {METHANE, PROPANE, BUTANE},
    8: {METHANE, ETHANE, BUTANE},
}
NO_HYDROGEN = tuple(s for s in SYSTEMS if HYDROGEN not in SYSTEMS[s])           # the candidates of a gas without it
SUMS = {METHANE: 1000, ETHANE: 640, PROPANE: 600, BUTANE: 480, HYDROGEN: 500}   # Table A.3
SEQUENCE = (HYDROGEN, PROPANE, ETHANE, BUTANE, METHANE)                         # A.3.2.4


def simplified(gas):
    """A gas by codes, in parts: its mixture of 1000000 parts, the largest remainders rounded up."""
    amounts = [Fraction(gas.get(code, 0)) for code in (1, 2, 3)]
    amounts.append(gas.get(4, 0) + gas.get(5, 0)
                   + Fraction(23, 10) * (gas.get(6, 0) + gas.get(7, 0) + gas.get(8, 0))
                   + Fraction(53, 10) * gas.get(10, 0))
    amounts.append(Fraction(gas.get(15, 0)))
    shares = [1000000 * amount / sum(amounts) for amount in amounts]
    whole = [int(share) for share in shares]
    by_remainder = sorted(COMPONENTS, key=lambda c: (whole[c] - shares[c], c))
    for c in by_remainder[:1000000 - sum(whole)]:
        whole[c] += 1
    return tuple(whole)


def fitness(mixture, system):
    return sum(Fraction(mixture[c] * 100, SUMS[c]) for c in SYSTEMS[system])


def standing(mixture, system):
    """The number of components present goes before the fitness."""
    return sum(mixture[c] > 0 for c in SYSTEMS[system]), fitness(mixture, system)


def chosen_by(rank, sequence, candidates):
    taken = []
    for wanted in (1, 2):
        for c in sequence:
            if sum(c in SYSTEMS[s] for s in taken) < wanted:
                free = [s for s in candidates if c in SYSTEMS[s] and s not in taken]
                most = max(rank(s) for s in free)
                taken.append(min(s for s in free if rank(s) == most))
    return sorted(taken)


def chosen(mixture, sequence=SEQUENCE):
    """Absent components are passed over, and so are systems with hydrogen where it is absent."""
    return chosen_by(lambda s: standing(mixture, s), [c for c in sequence if mixture[c] > 0],
                     tuple(SYSTEMS) if mixture[HYDROGEN] else NO_HYDROGEN)


def sequences_that_matter():
    """Without hydrogen: the lists of four components, one named twice or not, that choose otherwise for some ranking of
    the systems."""
    ranks = [dict(zip(NO_HYDROGEN, r)).get for r in product(range(4), repeat=4)]
    expected = [chosen_by(rank, SEQUENCE[1:], NO_HYDROGEN) for rank in ranks]
    return [sequence for sequence in product(range(4), repeat=4)
            if [chosen_by(rank, sequence, NO_HYDROGEN) for rank in ranks] != expected]


def exchanges():
    """The sequence with two components exchanged, by these two."""
    for i, j in combinations(range(5), 2):
        sequence = list(SEQUENCE)
        sequence[i], sequence[j] = sequence[j], sequence[i]
        yield {SEQUENCE[i], SEQUENCE[j]}, sequence


def gas(*amounts):
    """Amounts of codes 1 to 8, 10 to 12 and 15."""
    return dict(zip((1, 2, 3, 4, 5, 6, 7, 8, 10, 11, 12, 15), amounts))


TABLE_A1 = gas(970797, 16658, 2417, 346, 245, 11, 73, 125, 84, 528, 8715)
EXAMPLE_1 = gas(900900, 55400, 13200, 2100, 1900, 0, 400, 500, 600, 14600, 10400)
EXAMPLE_2 = gas(866475, 1169, 94500, 0, 1461, 0, 0, 292, 0, 36103, 0)
BUTANE_RICH = gas(413400, 150000, 60000, 40000, 40000, 500, 20000, 20000, 6100, 100000, 150000)
EXAMPLE_3 = gas(859910, 50360, 12000, 1909, 1727, 0, 364, 455, 545, 13270, 9460, 50000)
MIX_9 = gas(800000, 50000, 50000, 25000, 25000, 0, 0, 0, 0, 0, 0, 50000)

MIXTURES = [
    simplified(TABLE_A1),
    simplified(EXAMPLE_1),
    simplified(EXAMPLE_2),
    simplified(BUTANE_RICH),
    (500000, 150000, 110000, 240000, 0),            # 2 and 4 are equally fit
    (100000, 400000, 300000, 200000, 0),
    (100000, 700000, 150000, 50000, 0),
    (300000, 50000, 600000, 50000, 0),
    (0, 0, 0, 0, 0),                                # none is present
    (1000000, 0, 0, 0, 0),                          # one
    (0, 1000000, 0, 0, 0),
    (0, 0, 1000000, 0, 0),
    (0, 0, 0, 1000000, 0),
    (989796, 10204, 0, 0, 0),                       # two
    (994898, 0, 5102, 0, 0),
    (979592, 0, 0, 20408, 0),
    (0, 500000, 500000, 0, 0),
    (0, 500000, 0, 500000, 0),
    (0, 0, 500000, 500000, 0),
    (999992, 8, 0, 0, 0),                           # hardly two
    (999992, 0, 8, 0, 0),
    (999992, 0, 0, 8, 0),
    (900000, 60000, 40000, 0, 0),                   # three
    (900000, 60000, 0, 40000, 0),
    (900000, 0, 60000, 40000, 0),
    (0, 300000, 300000, 400000, 0),
    (0, 200000, 500000, 300000, 0),
    (530000, 210000, 0, 260000, 0),                 # 2 goes before 4
    (500000, 260000, 0, 240000, 0),                 # 2 and 4 are equally fit
    (4294967295, 4294967295, 0, 0, 0),
    (4294967295, 4294967295, 4294967295, 4294967295, 0),
    simplified(EXAMPLE_3),
    (876849, 51356, 12236, 8574, 50985),            # the mixture of Table A.9
    simplified(MIX_9),
    (0, 0, 0, 0, 1000000),                          # hydrogen alone
    (949000, 0, 0, 0, 51000),                       # hydrogen and one
    (0, 949000, 0, 0, 51000),
    (0, 0, 949000, 0, 51000),
    (0, 0, 0, 949000, 51000),
    (999992, 0, 0, 0, 8),                           # hardly one
    (900000, 60000, 0, 0, 40000),                   # and two
    (900000, 0, 60000, 0, 40000),
    (900000, 0, 0, 60000, 40000),
    (0, 300000, 300000, 0, 400000),
    (0, 300000, 0, 300000, 400000),
    (0, 0, 300000, 300000, 400000),
    (800000, 60000, 40000, 0, 100000),              # and three
    (800000, 60000, 0, 40000, 100000),
    (800000, 0, 60000, 40000, 100000),
    (0, 300000, 200000, 100000, 400000),
    (999968, 8, 8, 8, 8),                           # hardly all five
    (900000, 16, 15, 1, 50000),                     # 1 and 5 are equally fit, then 7 and 8
    (900000, 16, 15, 12, 50000),                    # 1, 5 and 6
    (900000, 15, 15, 12, 50000),                    # 5 and 6
    (430000, 60000, 60000, 350000, 100000),         # 2 is taken
    (600000, 200000, 50000, 50000, 100000),         # much ethane; much propane; much butane
    (600000, 50000, 200000, 50000, 100000),
    (600000, 50000, 50000, 200000, 100000),
    (1, 781738, 857, 1, 883),                       # four systems; the order of the components can be seen
    (1, 151, 958, 739596, 610),
    (292, 169184, 985673, 1, 369),
    (974641, 1, 724397, 674186, 1),
    (140, 881, 1, 558, 845695),
    (4294967295, 4294967295, 4294967295, 4294967295, 4294967295),
]


def lines():
    return [' '.join(map(str, [len(chosen(m)), *chosen(m)])) + '\n' for m in MIXTURES]


def main():
    assert simplified(TABLE_A1) == (979229, 16803, 2438, 1530, 0)
    assert [chosen(m) for m in MIXTURES[:4]] == [[4, 7, 8]] * 3 + [[2, 7, 8]]
    # 000's choices of example 3 and of mix 9
    assert chosen(simplified(EXAMPLE_3)) == [1, 4, 5, 6, 8] and chosen(simplified(MIX_9)) == [1, 5, 6, 7, 8]
    # every set of components present; without hydrogen two choose two systems, three or four three
    sets = {}
    for m in MIXTURES:
        sets.setdefault(frozenset(c for c in COMPONENTS if m[c]), set()).add(len(chosen(m)))
    assert len(sets) == 32
    assert all(sizes == {min(len(there), 3)} for there, sizes in sets.items()
               if len(there) != 1 and HYDROGEN not in there)
    # with hydrogen and methane as many, but four or five for all five; without methane three or four
    assert all(sizes == {min(len(there), 3)} for there, sizes in sets.items()
               if 1 < len(there) < 5 and {METHANE, HYDROGEN} <= there)
    assert sets[frozenset(COMPONENTS)] == {4, 5}
    # without hydrogen no order of the components, nor one with a component left out, chooses otherwise; only one with
    # two left out
    matter = sequences_that_matter()
    assert all(len(set(sequence)) < 3 for sequence in matter) and (PROPANE, ETHANE, PROPANE, ETHANE) in matter
    # with it two components exchanged choose otherwise for one of these, but for butane and methane
    for two, sequence in exchanges():
        assert any(chosen(m, sequence) != chosen(m) for m in MIXTURES) == (two != {BUTANE, METHANE}), two
    hydrogen_last = (*SEQUENCE[1:], HYDROGEN)
    assert any(chosen(m, hydrogen_last) != chosen(m) for m in MIXTURES)
    cases.run("choice_cases", "choose", "mixtures", MIXTURES, lines())


main()
