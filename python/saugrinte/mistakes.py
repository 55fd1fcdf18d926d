"""Numbers that known mistakes give to a gas, so that an old number can be traced to the mistake that made it.

Every number is the library's own: the analysis (or its unit) is changed as the mistake changes it and rated again, or
figures that the library gave are put together otherwise. A mistake that applies and that the library will not rate
(an amount out of its range, say) is told with the refusal's words, not guessed.

Two facts of the rating are used. It depends on what the amounts are to each other, not on how much they add up to; and
nitrogen does not enter it, so nitrogen takes up what a mistake leaves out. Where that would be too much of it, the rest
is scaled to fit, in whole parts. More hexanes+ than their range allows count as so much butane as the library itself
makes of them. A number by such a detour is near the mistake's own and not the same: of some ten thousand gases that
chance picked, two in a thousand had one farther off than 0.05, since the search can end elsewhere for a part more or
less.
"""
from dataclasses import dataclass
from fractions import Fraction
from functools import cached_property, lru_cache
from typing import Callable, Sequence

from . import gas, library
from .ratings import Rating, Refused, rate_parts, refusal_of

N_BUTANE, HEXANES, CARBON_DIOXIDE, NITROGEN = 5, 10, 11, 12
BUTANES, PENTANES = (4, N_BUTANE), (6, 7, 8)
HEAVY = (*PENTANES, HEXANES)
INERT = (CARBON_DIOXIDE, NITROGEN)
INERT_SYSTEM = 20
WHOLE = 1000000         # parts of a simplified mixture, and of amounts that a partial number is asked of


@dataclass(frozen=True)
class Mistake:
    """A known mistake: a key for programs, what kind it is, and what was done."""
    key: str
    kind: str
    sentence: str


@dataclass(frozen=True)
class Mistaken:
    """The number, in units, that a mistake gives."""
    mistake: Mistake
    units: int


@dataclass(frozen=True)
class Untried:
    """A mistake that could have been made, and why the library cannot tell its number."""
    mistake: Mistake
    reason: str


# ------------------------------------------------------------ a gas and what the library says of it

@dataclass(frozen=True)
class Given:
    """An analysis in parts by code."""
    amounts: tuple[int, ...]
    moles: bool

    def has(self, *codes: int) -> bool:
        return any(self.amounts[code] for code in codes)

    @cached_property
    def rating(self) -> Rating:
        return rate_parts(self.amounts, moles=self.moles)

    @cached_property
    def volumes(self) -> Sequence[int]:
        """The amounts by volume."""
        if not self.moles:
            return self.amounts
        number, place, made = library.convert(self.amounts)
        if number:
            raise refusal_of(number, place, self.amounts, moles=True)
        return made

    @cached_property
    def combustible(self) -> Fraction:
        """What the simplified mixture adds up to before it is scaled, in parts: the components that nothing is folded
        into, against what the library's split has of them. All of them together have the least rounding."""
        kept = WHOLE - butane_of(self.rating)
        return Fraction(WHOLE * sum(self.volumes[code] for code in gas.SPLIT_NAMES if code in gas.BY_CODE), kept)

    @cached_property
    def plain(self) -> int:
        """The same with everything counted once."""
        return sum(parts for code, parts in enumerate(self.volumes) if code not in INERT)

    @cached_property
    def inert(self) -> int:
        """What the inert mixture adds to the mean of the partial numbers."""
        return inert_number(self.combustible, self.volumes[CARBON_DIOXIDE], 0) - inert_number(Fraction(WHOLE), 0, 0)


def butane_of(rating: Rating) -> int:
    return sum(record.parts for record in rating.split if record.component == gas.SPLIT_NAMES[gas.SPLITS_ONLY])


def inert_number(combustible: Fraction, carbon_dioxide: int, nitrogen: int) -> int:
    """The number of an inert mixture, its amounts scaled to the whole."""
    each = WHOLE / (combustible + carbon_dioxide + nitrogen)
    second, third = round(carbon_dioxide * each), round(nitrogen * each)
    number, units = library.partial_number(INERT_SYSTEM, WHOLE - second - third, second, third)
    if number:
        raise Refused(number, gas.REFUSALS[number][1])
    return units


# ------------------------------------------------------------ changed analyses

def moved(amounts: Sequence[int], codes: Sequence[int], to: int) -> list[int]:
    """The amounts of some codes counted as another's."""
    changed = [0 if code in codes else parts for code, parts in enumerate(amounts)]
    changed[to] += sum(amounts[code] for code in codes)
    return changed


def middle() -> int:
    return sum(library.ranges().total) // 2


def fitted(amounts: Sequence[int]) -> list[int]:
    """The same gas with another amount of nitrogen, and where that is not enough scaled, so that the total fits."""
    (least, greatest), (least_total, greatest_total) = library.ranges().amounts[NITROGEN], library.ranges().total
    rest = sum(amounts) - amounts[NITROGEN]
    nitrogen = 0 if rest >= least_total else min(max(middle() - rest, least), greatest)
    if not least_total <= rest + nitrogen <= greatest_total:
        each = Fraction(middle() - nitrogen, rest)
        amounts = [round(parts * each) for parts in amounts]
    return [nitrogen if code == NITROGEN else parts for code, parts in enumerate(amounts)]


@lru_cache(maxsize=None)
def butane_per_part(code: int, moles: bool) -> Fraction:
    """How much butane the library makes of a part of a component, for each part of methane: asked of methane with as
    much of it as its range allows."""
    greatest = library.ranges().amounts[code][1]
    methane = middle() - greatest
    butane = butane_of(rate_parts([{1: methane, code: greatest}.get(c, 0) for c in range(gas.PLACES)], moles=moles))
    return Fraction(butane * methane, greatest * (WHOLE - butane))


def lightened(amounts: Sequence[int], moles: bool) -> list[int]:
    """The same gas with hexanes+ above their greatest amount as butanes. What does not go into these stays."""
    changed, ranges = list(amounts), library.ranges().amounts
    for code in reversed(BUTANES):
        weight = butane_per_part(HEXANES, moles) / butane_per_part(code, moles)
        excess = max(changed[HEXANES] - ranges[HEXANES][1], 0)
        taken = min(excess, int((ranges[code][1] - changed[code]) / weight))
        changed[HEXANES] -= taken
        changed[code] += round(taken * weight)
    return fitted(changed)


def rated(amounts: Sequence[int], moles: bool, detour: Callable[[Sequence[int]], Sequence[int]]) -> int:
    """The number of a changed analysis, by a detour where it is refused; or the refusal of the changed analysis."""
    try:
        return rate_parts(amounts, moles=moles).units
    except Refused as refused:
        try:
            return rate_parts(detour(amounts), moles=moles).units
        except Refused:
            raise refused from None


# ------------------------------------------------------------ the mistakes

def as_nitrogen(given: Given, codes: Sequence[int]) -> int:
    """Components read as nitrogen, or left out, which is the same."""
    return rated(moved(given.amounts, codes, NITROGEN), given.moles, fitted)


def as_carbon_dioxide(given: Given, codes: Sequence[int]) -> int:
    return rate_parts(moved(given.amounts, codes, CARBON_DIOXIDE), moles=given.moles).units


def as_hexanes(given: Given, code: int) -> int:
    return rated(moved(given.amounts, (code,), HEXANES), given.moles, lambda amounts: lightened(amounts, given.moles))


def folded_late(given: Given) -> int:
    """Scaled with pentanes and hexanes+ counted once, and then folded: the parts in the mean add up to more than the
    whole by what the folding adds."""
    mean = given.rating.units - given.inert
    return round(mean * given.combustible / given.plain) + given.inert


def nitrogen_in_inert(given: Given) -> int:
    carbon_dioxide, nitrogen = (given.volumes[code] for code in INERT)
    return given.rating.units + inert_number(given.combustible, carbon_dioxide, nitrogen) \
        - inert_number(given.combustible, carbon_dioxide, 0)


def other_unit(given: Given) -> int:
    return rate_parts(given.amounts, moles=not given.moles).units


READ_AS_INERT = 'heavy ends read as inert'
READ_AS_HEAVY = 'an inert read as heavy ends'
LEFT_OUT = 'butanes left out'

# Each mistake, whether a gas is open to it, and its number.
TRIALS: tuple[tuple[Mistake, Callable[[Given], bool], Callable[[Given], int]], ...] = (
    (Mistake('hexanes-as-carbon-dioxide', READ_AS_INERT, 'hexanes+ counted as carbon dioxide'),
     lambda g: g.has(HEXANES), lambda g: as_carbon_dioxide(g, (HEXANES,))),
    (Mistake('hexanes-as-nitrogen', READ_AS_INERT, 'hexanes+ counted as nitrogen, or left out'),
     lambda g: g.has(HEXANES), lambda g: as_nitrogen(g, (HEXANES,))),
    (Mistake('pentanes-as-carbon-dioxide', READ_AS_INERT, 'pentanes and hexanes+ counted as carbon dioxide'),
     lambda g: g.has(*PENTANES), lambda g: as_carbon_dioxide(g, HEAVY)),
    (Mistake('pentanes-as-nitrogen', READ_AS_INERT, 'pentanes and hexanes+ counted as nitrogen, or left out'),
     lambda g: g.has(*PENTANES), lambda g: as_nitrogen(g, HEAVY)),
    (Mistake('carbon-dioxide-as-hexanes', READ_AS_HEAVY, 'carbon dioxide counted as hexanes+'),
     lambda g: g.has(CARBON_DIOXIDE), lambda g: as_hexanes(g, CARBON_DIOXIDE)),
    (Mistake('nitrogen-as-hexanes', READ_AS_HEAVY, 'nitrogen counted as hexanes+'),
     lambda g: g.has(NITROGEN), lambda g: as_hexanes(g, NITROGEN)),
    (Mistake('folded-after-scaling', 'pentanes folded after scaling',
             'pentanes and hexanes+ folded into butane after scaling to 100 %, not before'),
     lambda g: g.has(*HEAVY), folded_late),
    (Mistake('nitrogen-in-inert', 'nitrogen in the inert mixture', 'nitrogen taken into the inert mixture'),
     lambda g: g.has(NITROGEN), nitrogen_in_inert),
    (Mistake('butanes-left-out', LEFT_OUT, 'i-butane and n-butane left out'),
     lambda g: g.has(*BUTANES), lambda g: as_nitrogen(g, BUTANES)),
    (Mistake('butanes-and-heavier-left-out', LEFT_OUT, 'butanes, pentanes and hexanes+ left out'),
     lambda g: g.has(*BUTANES) and g.has(*HEAVY), lambda g: as_nitrogen(g, (*BUTANES, *HEAVY))),
    (Mistake('moles-as-volumes', 'moles taken for volumes', 'mole percent taken for percent by volume'),
     lambda g: g.moles, other_unit),
    (Mistake('volumes-as-moles', 'moles taken for volumes', 'percent by volume taken for mole percent'),
     lambda g: not g.moles, other_unit),
)
MISTAKES: tuple[Mistake, ...] = tuple(mistake for mistake, _, _ in TRIALS)


def tried(amounts: Sequence[int], moles: bool) -> tuple[list[Mistaken], list[Untried]]:
    """The numbers of all mistakes that a gas is open to, and the mistakes whose number the library cannot tell."""
    given = Given(tuple(amounts), moles)
    numbers, rest = [], []
    for mistake, applies, number in TRIALS:
        if not applies(given):
            continue
        try:
            numbers.append(Mistaken(mistake, number(given)))
        except Refused as refused:
            rest.append(Untried(mistake, refused.reason))
    return numbers, rest


def mistaken(amounts: Sequence[int], moles: bool) -> list[Mistaken]:
    """The numbers that known mistakes give to a gas, amounts in parts by code."""
    return tried(amounts, moles)[0]


def untried(amounts: Sequence[int], moles: bool) -> list[Untried]:
    """The mistakes whose number the library cannot tell, and why."""
    return tried(amounts, moles)[1]
