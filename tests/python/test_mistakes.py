"""The numbers of known mistakes beside the independent program: each mistake is made there in its own way, without the
library's ranges, and the number must be the same.

  PYTHONPATH=python /usr/bin/python3 -m pytest tests/python/test_mistakes.py
"""
import importlib.util
import os
import sys
from fractions import Fraction
from functools import lru_cache

import pytest
from hypothesis import given, settings, strategies as st

from gases import ROOT, TABLE_A1, gases
from saugrinte import library, mistakes
from saugrinte.ratings import Refused, rate_parts


def independent():
    """The independent program, a module of its own."""
    file = os.path.join(ROOT, 'tests', 'reference', 'independent.py')
    spec = importlib.util.spec_from_file_location('independent_of_mistakes', file)
    module = importlib.util.module_from_spec(spec)
    sys.modules[spec.name] = module
    spec.loader.exec_module(module)
    return module


ref = independent()
EXAMPLE_3 = (0, 859910, 50360, 12000, 1909, 1727, 0, 364, 455, 0, 545, 13270, 9460, 0, 0, 50000)
LEAN = (0, 970000, 30000, *[0] * 13)
KEYS = [mistake.key for mistake in mistakes.MISTAKES]
FEW = settings(max_examples=120, deadline=None, database=None)


@st.composite
def gases_of_any_total(draw, moles):
    """Rich and poor gases, not only of 1000000 parts."""
    amounts = draw(gases(hydrogen=not moles, richest=draw(st.sampled_from((1, 6, 30)))))
    amounts[1] += draw(st.integers(ref.LEAST_TOTAL, ref.GREATEST_TOTAL)) - ref.PARTS
    return tuple(amounts)


def is_rated(amounts, moles):
    return not library.search(amounts, moles=moles)[0]


def gases_in(moles):
    """Amounts that are rated."""
    return gases_of_any_total(moles).filter(lambda amounts: is_rated(amounts, moles))


def gases_in_either():
    """(amounts, moles) that are rated."""
    return st.booleans().flatmap(lambda moles: st.tuples(gases_in(moles), st.just(moles)))


def volumes(amounts, moles):
    return ref.volumes_of(amounts) if moles else tuple(amounts)


def moved(amounts, codes, to):
    changed = list(amounts)
    for code in codes:
        changed[to] += changed[code]
        changed[code] = 0
    return tuple(changed)


# What the mistakes that change an analysis do to it.
CHANGED = {
    'hexanes-as-carbon-dioxide': ((10,), 11), 'hexanes-as-nitrogen': ((10,), 12),
    'pentanes-as-carbon-dioxide': ((6, 7, 8, 10), 11), 'pentanes-as-nitrogen': ((6, 7, 8, 10), 12),
    'carbon-dioxide-as-hexanes': ((11,), 10), 'nitrogen-as-hexanes': ((12,), 10),
    'butanes-left-out': ((4, 5), 12), 'butanes-and-heavier-left-out': ((4, 5, 6, 7, 8, 10), 12)}


def polynomial(x, y):
    """The inert system at shares, by the independent program's coefficients, in units."""
    return sum(coefficient * x ** k * y ** l for k, row in enumerate(ref.COEFFICIENTS[20])
               for l, coefficient in enumerate(row))


def inert(amounts, nitrogen):
    total, dioxide = sum(ref.tenths(amounts)), 10 * amounts[11]
    whole = total + dioxide + (10 * amounts[12] if nitrogen else 0)
    return polynomial(Fraction(total, whole), Fraction(dioxide, whole)) - ref.METHANE_NUMBER


@lru_cache(maxsize=4096)
def found(amounts):
    """The independent program's answer to volumes, whatever their ranges."""
    return ref.found_rating(amounts, ref.MOST_ROUNDS)


def mean(amounts):
    """The weighted mean at the split that is found."""
    return ref.exact_rating(amounts, found(amounts).split) - ref.exact_number(20, *ref.inert(amounts), 0) \
        + ref.METHANE_NUMBER


def folded_late(amounts):
    """Scaled with everything counted once, then pentanes and hexanes+ added to butane with their weights."""
    plain = sum(amounts) - amounts[11] - amounts[12]
    scaled = [Fraction(tenths, 10 * plain) for tenths in ref.tenths(amounts)]
    return mean(amounts) * sum(scaled) + inert(amounts, False)


def applies(key, amounts, moles):
    heavy, pentanes = any(amounts[c] for c in (6, 7, 8, 10)), any(amounts[c] for c in (6, 7, 8))
    return {'hexanes-as-carbon-dioxide': amounts[10], 'hexanes-as-nitrogen': amounts[10],
            'pentanes-as-carbon-dioxide': pentanes, 'pentanes-as-nitrogen': pentanes,
            'carbon-dioxide-as-hexanes': amounts[11], 'nitrogen-as-hexanes': amounts[12],
            'folded-after-scaling': heavy, 'nitrogen-in-inert': amounts[12],
            'butanes-left-out': amounts[4] or amounts[5],
            'butanes-and-heavier-left-out': (amounts[4] or amounts[5]) and heavy,
            'moles-as-volumes': moles, 'volumes-as-moles': not moles}[key]


def changed_by(key, amounts, moles):
    """The analysis that a mistake rates, and whether it is in moles; None for a mistake in the sums."""
    if key in CHANGED:
        return moved(amounts, *CHANGED[key]), moles
    return (tuple(amounts), not moles) if key in ('moles-as-volumes', 'volumes-as-moles') else None


def in_range(key, amounts, moles):
    changed = changed_by(key, amounts, moles)
    return changed is None or not (ref.check_moles if changed[1] else ref.check)(changed[0])


def made(key, amounts, moles):
    """The number of a mistake by the independent program, in units, whatever the ranges; None where there is none."""
    if key == 'folded-after-scaling':
        return round(folded_late(volumes(amounts, moles)))
    if key == 'nitrogen-in-inert':
        return round(mean(volumes(amounts, moles)) + inert(volumes(amounts, moles), True))
    changed, in_moles = changed_by(key, amounts, moles)
    if in_moles and changed[ref.HYDROGEN]:
        return None
    answer = found(volumes(changed, in_moles))
    return answer.rating if isinstance(answer, ref.Rating) else None


def by_detour(key, amounts, moles):
    """Whether a detour gives the number of a mistake that is out of range: hexanes+ above their range as butanes,
    another amount of nitrogen, the rest scaled. Worked out here with exact weights, and sure where it says so."""
    if CHANGED[key][1] == 11:
        return False
    changed = [Fraction(parts) for parts in moved(amounts, *CHANGED[key])]
    for code in (5, 4):
        weight = Fraction(53 * ref.FACTOR[10], 10 * ref.FACTOR[code]) if moles else Fraction(53, 10)
        taken = min(max(changed[10] - ref.RANGE[10][1], 0), (ref.RANGE[code][1] - changed[code]) / weight)
        changed[10], changed[code] = changed[10] - taken, changed[code] + taken * weight
    rest, most = sum(changed) - changed[12], ref.RANGE[12][1]
    if ref.LEAST_TOTAL - most <= rest <= ref.GREATEST_TOTAL:
        return changed[10] <= ref.RANGE[10][1] and changed[4] + 20 <= ref.RANGE[4][1]
    scale = Fraction(ref.PARTS - (most if rest < ref.PARTS - most else 0)) / rest
    return all(ref.RANGE[code][0] - Fraction(2, 5) <= parts * scale <= ref.RANGE[code][1] - 10
               for code, parts in enumerate(changed) if parts and code != 12)


# A detour's mixture is some parts beside the right one, and the method's own number may jump there, now and then by
# more than its spread and with a trace of hydrogen by whole numbers. So a detour is held to its play where there is no
# such trace and none of these changes of an amount makes the number jump.
PLAY, JUMP, TRACE = 400000, 200000, 1000
BESIDE = [(code, by) for code, steps in ((1, (7, 20, 50)), (5, (1, 2, 3, 5, 10))) for step in steps
          for by in (-step, step)]


def play(key, amounts, moles):
    """How far the library's number of a mistake may be from `made`, in units; None where that cannot be told."""
    if changed_by(key, amounts, moles) is None:
        return 5000
    if in_range(key, amounts, moles):
        return 0
    right = volumes(moved(amounts, *CHANGED[key]), moles)
    if 0 < right[ref.HYDROGEN] <= TRACE:
        return None
    for code, by in BESIDE:
        answer = found(tuple(max(parts + by, 0) if c == code else parts for c, parts in enumerate(right)))
        if not isinstance(answer, ref.Rating) or abs(answer.rating - made(key, amounts, moles)) > JUMP:
            return None
    return PLAY


def numbers(amounts, moles):
    return {m.mistake.key: m.units for m in mistakes.mistaken(amounts, moles)}


@FEW
@given(gases_in_either())
def test_every_mistake_that_applies_has_a_number_or_a_reason(gas):
    tried, untried = mistakes.tried(*gas)
    keys = [t.mistake.key for t in tried] + [u.mistake.key for u in untried]
    assert sorted(keys) == sorted(key for key in KEYS if applies(key, *gas))
    assert all(u.reason for u in untried)
    assert (tried, untried) == (mistakes.mistaken(*gas), mistakes.untried(*gas))


@FEW
@given(gases_in_either())
def test_what_is_not_tried(gas):
    """Only what the independent program has no number for, or no detour brings into range."""
    for key in (u.mistake.key for u in mistakes.untried(*gas)):
        if made(key, *gas) is not None:
            assert not in_range(key, *gas) and not (by_detour(key, *gas) and play(key, *gas)), key


@FEW
@given(gases_in_either())
def test_changed_analyses(gas):
    """In range the number is that of the changed analysis; else that of an analysis with the same mixture."""
    amounts, moles = gas
    for key, units in numbers(*gas).items():
        if key not in CHANGED:
            continue
        if in_range(key, *gas):
            assert units == made(key, *gas), key
            continue
        changed = moved(amounts, *CHANGED[key])
        assert CHANGED[key][1] in (10, 12), 'carbon dioxide out of range is refused'
        detour = mistakes.lightened(changed, moles) if CHANGED[key][1] == 10 else mistakes.fitted(changed)
        assert units == (ref.search_moles if moles else ref.search)(detour).rating, key
        same_mixture(volumes(changed, moles), volumes(detour, moles))
        if made(key, *gas) is not None and play(key, *gas) is not None:
            assert abs(units - made(key, *gas)) <= PLAY, key


def same_mixture(one, other):
    for a, b in zip(ref.simplify(one), ref.simplify(other)):
        assert abs(a - b) <= 12
    assert abs(ref.inert(one)[0] - ref.inert(other)[0]) <= 3


@FEW
@given(gases_in_either())
def test_numbers_put_together(gas):
    """Folding late and nitrogen in the inert mixture, within 0.0005 of what exact fractions give."""
    for key, units in numbers(*gas).items():
        if key in ('folded-after-scaling', 'nitrogen-in-inert'):
            assert abs(units - made(key, *gas)) < 5000, key


@FEW
@given(gases_in_either())
def test_the_other_unit(gas):
    key = 'moles-as-volumes' if gas[1] else 'volumes-as-moles'
    assert numbers(*gas).get(key) == made(key, *gas)


@settings(FEW, max_examples=60)
@given(st.integers(0, 8000), st.integers(0, 30000), st.integers(0, 40000), st.booleans())
def test_more_hexanes_than_their_range(hexanes, more, butane, moles):
    """Hexanes+ above their greatest amount, as butanes: the same mixture, however much nitrogen there was."""
    amounts = [0, 0, 20000, 1000, 0, butane, 0, 0, 0, 0, hexanes + 6100, 500, more, 0, 0, 0]
    amounts[1] = 1000000 - sum(amounts)
    light = mistakes.lightened(amounts, moles)
    assert light[10] <= 6100 and ref.LEAST_TOTAL <= sum(light) <= ref.GREATEST_TOTAL
    same_mixture(volumes(amounts, moles), volumes(light, moles))


@pytest.mark.parametrize('moles', (False, True))
def test_what_hexanes_count_for(moles):
    """Table A.1's rule of butane, as the library's answers have it."""
    weight = mistakes.butane_per_part(10, moles) / mistakes.butane_per_part(5, moles)
    right = Fraction(53 * (ref.FACTOR[10] if moles else 1), 10 * (ref.FACTOR[5] if moles else 1))
    assert abs(weight / right - 1) < Fraction(1, 10000)


def test_table_a1():
    got = numbers(TABLE_A1, False)
    assert set(got) == set(KEYS) - {'moles-as-volumes'}
    right = rate_parts(TABLE_A1).units
    assert right == 910787384
    # Heavy ends lower the number and inert gases raise it.
    assert right < got['hexanes-as-nitrogen'] < got['hexanes-as-carbon-dioxide'] < got['pentanes-as-nitrogen']
    assert got['nitrogen-as-hexanes'] < got['carbon-dioxide-as-hexanes'] < right < got['nitrogen-in-inert']
    assert right < got['folded-after-scaling'] and right < got['butanes-left-out']
    assert got['butanes-left-out'] < got['butanes-and-heavier-left-out']
    assert got['volumes-as-moles'] == rate_parts(TABLE_A1, moles=True).units


def test_a_gas_open_to_no_other_mistake():
    assert set(numbers(LEAN, False)) == {'volumes-as-moles'}
    assert set(numbers(LEAN, True)) == {'moles-as-volumes'}


def test_hydrogen_has_no_mole_rating():
    untried = {u.mistake.key: u.reason for u in mistakes.untried(EXAMPLE_3, False)}
    assert untried == {'volumes-as-moles': 'hydrogen 5 mol %: a gas with hydrogen is rated from volumes alone'}


@pytest.mark.parametrize('changes, key, reason', (
    ({11: 60000}, 'carbon-dioxide-as-hexanes', 'hexanes+ 6.0084 % is outside 0.001 to 0.61 %'),
    ({12: 150000}, 'nitrogen-as-hexanes', 'hexanes+ 15.0084 % is outside 0.001 to 0.61 %'),
    ({11: 99950}, 'hexanes-as-carbon-dioxide', 'carbon-dioxide 10.0034 % is outside 0.005 to 10 %'),
    ({11: 0, 10: 40}, 'hexanes-as-carbon-dioxide', 'carbon-dioxide 0.004 % is outside 0.005 to 10 %'),
    ({2: 0, 3: 0}, 'butanes-and-heavier-left-out', 'methane stands alone; ethane, propane, butanes, pentanes, '
     'hexanes+ or hydrogen must be there too')))
def test_reasons(changes, key, reason):
    """A mistake whose number the library refuses is told with the refusal of the changed analysis."""
    amounts = [changes.get(code, parts) for code, parts in enumerate(TABLE_A1)]
    amounts[1] += 1000000 - sum(amounts)
    assert key not in numbers(amounts, False)
    assert {u.mistake.key: u.reason for u in mistakes.untried(amounts, False)}[key] == reason


def test_left_out_where_nitrogen_has_no_room():
    """14.9 % nitrogen and 1 % butanes: the rest is scaled, and the number is that of the same mixture."""
    amounts = [0, 770797, 50000, 10203, 5000, 5000, 0, 0, 0, 0, 0, 10000, 149000, 0, 0, 0]
    changed = moved(amounts, (4, 5), 12)
    with pytest.raises(Refused):
        rate_parts(changed)
    assert abs(numbers(amounts, False)['butanes-left-out'] - found(changed).rating) < 100000


def test_keys_and_sentences_are_told_apart():
    assert len(set(KEYS)) == len(KEYS) == len({m.sentence for m in mistakes.MISTAKES})
    assert {m.kind for m in mistakes.MISTAKES} == {
        'heavy ends read as inert', 'an inert read as heavy ends', 'pentanes folded after scaling',
        'nitrogen in the inert mixture', 'butanes left out', 'moles taken for volumes'}
