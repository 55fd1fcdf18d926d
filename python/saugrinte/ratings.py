"""Ratings as Python values: what the library answers, with names and decimals.

Every figure comes from the library. `units` are 0.0000001 of a methane number, `parts` 0.0001 %.
"""
import re
import sys
from dataclasses import dataclass
from decimal import Decimal
from numbers import Integral
from typing import Any, Callable, Iterable, Mapping, Optional, Sequence, Union

from . import gas, library, lines, words
from .amounts import Amount, AmountError, by_code, by_name, decimal_of, in_unit, parts_of

# Components of each system in the order of the formula, as the header lists them.
SYSTEMS: dict[int, tuple[str, ...]] = {
    1: ('methane', 'hydrogen', 'ethane'), 2: ('propane', 'ethane', 'butane'), 3: ('hydrogen', 'propane', 'propylene'),
    4: ('methane', 'ethane', 'propane'), 5: ('methane', 'hydrogen', 'propane'), 6: ('methane', 'hydrogen', 'butane'),
    7: ('methane', 'propane', 'butane'), 8: ('methane', 'ethane', 'butane'), 12: ('methane', 'propylene'),
    13: ('ethane', 'propylene'), 14: ('carbon-monoxide', 'hydrogen'), 15: ('ethane', 'ethylene'),
    16: ('propane', 'ethylene'), 17: ('butadiene',), 18: ('butylene',),
    20: ('methane', 'carbon-dioxide', 'nitrogen')}


def number_of(units: int) -> Decimal:
    """Units as a methane number, exactly."""
    return decimal_of(units, 7)


@dataclass(frozen=True)
class Record:
    """A record of a split: so many parts of a component in a system."""
    system: int
    component: str
    parts: int

    @property
    def percent(self) -> Decimal:
        return in_unit(self.parts)


@dataclass(frozen=True)
class SystemShare:
    """A chosen system with the parts that the split gives it, and its partial number."""
    system: int
    components: Mapping[str, int]
    parts: int
    units: int

    @property
    def partial_number(self) -> Decimal:
        return number_of(self.units)

    @property
    def percent(self) -> Decimal:
        return in_unit(self.parts)


@dataclass(frozen=True)
class Rating:
    """A methane number with its spread, the rounds of the search (0 for a proposed split) and the split."""
    units: int
    spread_units: int
    rounds: int
    split: tuple[Record, ...]
    moles: bool = False         # the volumes were made from moles

    @property
    def number(self) -> Decimal:
        """The methane number, to 0.0000001."""
        return number_of(self.units)

    @property
    def spread(self) -> Decimal:
        """The greatest partial number less the smallest."""
        return number_of(self.spread_units)

    @property
    def whole_number(self) -> int:
        return library.whole_number(self.units)

    @property
    def systems(self) -> tuple[SystemShare, ...]:
        """The chosen systems, each with what it holds and its partial number."""
        found = []
        for system in dict.fromkeys(record.system for record in self.split):
            parts = {r.component: r.parts for r in self.split if r.system == system}
            amounts = [parts.get(name, 0) for name in SYSTEMS[system]]
            _, units = library.partial_number(system, *amounts)
            found.append(SystemShare(system, parts, sum(amounts), units))
        return tuple(found)

    def as_dict(self) -> dict[str, Any]:
        """For JSON; numbers as text, so that no digit is lost."""
        return {'methane_number': str(self.number), 'whole_number': self.whole_number, 'spread': str(self.spread),
                'rounds': self.rounds, 'made_from_moles': self.moles,
                'systems': [{'system': s.system, 'percent': str(s.percent), 'partial_number': str(s.partial_number),
                             'components': {name: str(in_unit(parts)) for name, parts in s.components.items()}}
                            for s in self.systems]}


class Refused(ValueError):
    """A refusal of document 01's table: its number and word, and where they are known the component at fault with its
    amount and its range in percent (for a total, the total and its range), or the record's place from 0."""

    def __init__(self, number: int, reason: str, component: Optional[str] = None, amount: Optional[Decimal] = None,
                 range: Optional[tuple[Decimal, Decimal]] = None, place: Optional[int] = None) -> None:
        super().__init__(number, reason, component, amount, range, place)
        self.number, self.word = number, gas.REFUSALS[number][0]
        self.reason, self.component, self.amount, self.range, self.place = reason, component, amount, range, place

    def __str__(self) -> str:
        return '%d: %s' % (self.number, self.reason)

    def as_dict(self) -> dict[str, Any]:
        """For JSON."""
        return {'refusal': self.number, 'word': self.word, 'reason': self.reason, 'component': self.component,
                'amount': None if self.amount is None else str(self.amount),
                'range': self.range and [str(end) for end in self.range], 'place': self.place}


@dataclass(frozen=True)
class Sheet:
    """What a sheet holds: amounts in percent by component name, and the records of its split, none for a search."""
    analysis: Mapping[str, Decimal]
    split: tuple[Record, ...]


Split = Union[Rating, Iterable[Record], Mapping[int, Mapping[str, Amount]]]


def refusal_of(number: int, place: int, amounts: Sequence[int], split: Sequence[tuple[int, int, int]] = (),
               moles: bool = False, sheet: Optional[bytes] = None) -> Refused:
    """The exception of a refusal, with what the caller gave: an analysis in parts by code, or a sheet."""
    ranges = library.ranges()
    if sheet is None:
        sheet = lines.sheet({code: parts for code, parts in enumerate(amounts) if parts}, list(split)[:library.RECORDS])
    reason = words.reason(number, sheet, ranges, moles).removeprefix(gas.REFUSALS[number][0] + ': ')
    if len(split) > library.RECORDS:
        reason = 'the split has %d records, and %d are the most' % (len(split), library.RECORDS)
    if number in (2, 3, 4):
        return Refused(number, reason, place=place)
    if number == 5:
        code = place
        return Refused(5, reason, gas.BY_CODE[code].name, in_unit(amounts[code]),
                       (in_unit(ranges.amounts[code][0]), in_unit(ranges.amounts[code][1])))
    if number in (6, 15):
        return Refused(number, reason, None, in_unit(sum(amounts)),
                       (in_unit(ranges.total[0]), in_unit(ranges.total[1])))
    if number == 18:
        return Refused(18, reason, gas.BY_CODE[gas.HYDROGEN].name, in_unit(amounts[gas.HYDROGEN]))
    return Refused(number, reason)


def named(records: Iterable[tuple[int, int, int]]) -> tuple[Record, ...]:
    return tuple(Record(system, gas.SPLIT_NAMES.get(code, 'code %d' % code), parts) for system, code, parts in records)


def records_of(split: Split) -> list[tuple[int, int, int]]:
    """A split's records as the library takes them. A mapping {system: {component: percent}} is put in the order in
    which records stand: systems rising, components by code."""
    if isinstance(split, Rating):
        split = split.split
    if isinstance(split, Mapping):
        systems = sorted(split, key=within(255, 'system'))
        split = [record for system in systems for record in members(system, split[system])]
    records: list[Any] = list(split) if isinstance(split, Iterable) else [split]
    if not all(isinstance(record, Record) for record in records):
        raise AmountError('a split is a rating, records, or {system: {component: percent}}')
    system, parts = within(255, 'system'), within(gas.GREATEST_AMOUNT, 'count of parts')
    return [(system(record.system), split_code(record.component), parts(record.parts)) for record in records]


def members(system: int, given: Mapping[str, Amount]) -> list[Record]:
    """A system's records from its amounts in percent."""
    if not isinstance(given, Mapping):
        raise AmountError('a split is a rating, records, or {system: {component: percent}}')
    return [Record(system, name, parts_of(given[name])) for name in sorted(given, key=split_code)]


def within(greatest: int, what: str) -> Callable[[Any], int]:
    """A check that a figure is whole, not below 0 and not too great."""
    def check(value: Any) -> int:
        if isinstance(value, bool) or not isinstance(value, Integral) or not 0 <= int(value) <= greatest:
            raise AmountError('%s is no %s from 0 to %d' % (lines.shown(repr(value)), what, greatest))
        return int(value)

    return check


def split_code(name: str) -> int:
    code = gas.SPLIT_CODES.get(gas.key(name)) if isinstance(name, str) else None
    if code is None and isinstance(name, str) and re.fullmatch('code [0-9]{1,3}', name):
        code = within(255, 'code')(int(name[5:]))
    if code is None:
        raise AmountError("%s is none of %s" % (lines.shown(repr(name)), ', '.join(gas.SPLIT_NAMES.values())))
    return code


def rate_parts(amounts: Sequence[int], allowance: int = library.ALLOWANCE, moles: bool = False) -> Rating:
    """Rates amounts in parts by code. More rounds than the library allows count as that many, to the library."""
    allowance = min(within(sys.maxsize, 'allowance')(allowance), 0xffffffff)
    number, place, figures, split = library.search(amounts, allowance, moles)
    if number:
        raise refusal_of(number, place, amounts, moles=moles)
    return Rating(figures[0], figures[1], figures[2], named(split), moles)


def rate_split_parts(amounts: Sequence[int], split: Split, moles: bool = False) -> Rating:
    """The same with a proposed split."""
    records = records_of(split)
    number, place, figures = library.rate_split(amounts, records, moles)
    if number:
        raise refusal_of(number, place, amounts, records, moles)
    return Rating(figures[0], figures[1], figures[2], named(records), moles)


def rate(analysis: Mapping[str, Amount], *, unit: str = 'percent', allowance: int = library.ALLOWANCE) -> Rating:
    """Rates an analysis by volume, by the search. `unit` is percent, parts or fraction. Raises Refused, or AmountError
    where an amount cannot be read; a component at 0 is absent."""
    return rate_parts(by_code(analysis, unit), allowance)


def rate_split(analysis: Mapping[str, Amount], split: Split, *, unit: str = 'percent') -> Rating:
    """Rates an analysis by volume with a proposed split: a rating's own, records, or {system: {component: percent}}."""
    return rate_split_parts(by_code(analysis, unit), split)


def rate_moles(analysis: Mapping[str, Amount], *, unit: str = 'percent',
               allowance: int = library.ALLOWANCE) -> Rating:
    """Rates a mole analysis by the search, on the volumes made from it."""
    return rate_parts(by_code(analysis, unit), allowance, moles=True)


def rate_moles_split(analysis: Mapping[str, Amount], split: Split, *, unit: str = 'percent') -> Rating:
    """Rates a mole analysis with a proposed split of the volumes made."""
    return rate_split_parts(by_code(analysis, unit), split, moles=True)


def convert(moles: Mapping[str, Amount], *, unit: str = 'percent') -> dict[str, Decimal]:
    """The volumes made from a mole analysis, in the same unit."""
    amounts = by_code(moles, unit)
    number, place, made = library.convert(amounts)
    if number:
        raise refusal_of(number, place, amounts, moles=True)
    return by_name(made, unit)


def partial_number(system: int, amounts: Union[Mapping[str, Amount], Sequence[Amount]], *,
                   unit: str = 'percent') -> Decimal:
    """The partial number of a system at amounts of its components: by name, or in the formula's order (SYSTEMS)."""
    system = within(0xffffffff, 'system')(system)
    number, units = library.partial_number(system, *formula_amounts(system, amounts, unit))
    if number:
        raise Refused(number, gas.REFUSALS[number][1])
    return number_of(units)


def formula_amounts(system: int, amounts: Union[Mapping[str, Amount], Sequence[Amount]], unit: str) -> list[int]:
    """A system's three amounts in the formula's order, in parts."""
    known = SYSTEMS.get(system, ())
    if isinstance(amounts, Mapping):
        names = [component(name) for name in amounts]
        strange = [name for place, name in enumerate(names) if name not in known or name in names[:place]]
        if strange and known:
            raise AmountError('system %d has %s, each once, and not %s' % (
                system, ', '.join(known), ', '.join(strange)))
        given = {component(name): parts_of(amount, unit) for name, amount in amounts.items()}
        parts = [given.get(name, 0) for name in known]
    elif isinstance(amounts, Sequence) and not isinstance(amounts, (str, bytes)):
        parts = [parts_of(amount, unit) for amount in amounts]
    else:
        raise AmountError('amounts are three in the order of the formula, or by name')
    if len(parts) > 3:
        raise AmountError('a system has three amounts at most, and %d are given' % len(parts))
    return parts + [0] * (3 - len(parts))


def component(name: str) -> str:
    """The name that SYSTEMS has for a component, or the name itself."""
    key = gas.key(name) if isinstance(name, str) else ''
    if key in gas.SPLIT_CODES:
        return gas.SPLIT_NAMES[gas.SPLIT_CODES[key]]
    if key in gas.CODES:
        return gas.BY_CODE[gas.CODES[key]].name
    return gas.OUTSIDE_NAMES.get(key, lines.shown(str(name)))


def rate_sheet(sheet: bytes) -> Rating:
    """Rates a sheet: with its own split, or by the search where it has none."""
    number, place, figures, split = library.rate_sheet(sheet)
    if number:
        raise refusal_of(number, place, [] if gas.torn(sheet) else lines.amounts_in(sheet), sheet=bytes(sheet))
    return Rating(figures[0], figures[1], figures[2], named(split or library.read(sheet)[3]))


def rate_mole_sheet(sheet: bytes) -> Rating:
    """Rates a mole analysis from bytes laid out as a sheet is, which lines.of_mole_lines gives besides."""
    amounts, split = lines.amounts_in(sheet), named(gas.proposed(sheet))
    return rate_split_parts(amounts, split, moles=True) if split else rate_parts(amounts, moles=True)


def read_sheet(sheet: bytes) -> Sheet:
    """Reads a sheet; refused 1 to 6."""
    number, place, amounts, split = library.read(sheet)
    if number:
        raise refusal_of(number, place, [] if gas.torn(sheet) else lines.amounts_in(sheet), sheet=bytes(sheet))
    return Sheet(by_name(amounts), named(split))


def write_sheet(analysis: Mapping[str, Amount], split: Optional[Split] = None, *, unit: str = 'percent') -> bytes:
    """The sheet of an analysis and a split, or of none."""
    amounts, records = by_code(analysis, unit), [] if split is None else records_of(split)
    number, place, sheet = library.write(amounts, records)
    if number:
        raise refusal_of(number, place, amounts, records)
    return sheet


def version() -> str:
    """The library's version."""
    return library.version()
