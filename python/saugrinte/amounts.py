"""Amounts as people give them, and the whole parts that the library counts: exact, or an error; nothing is rounded.

A part is 0.0001 %. An amount may be a Decimal, text, an int, or a float that has no more decimals than the unit allows.
Counts are turned into decimals digit by digit, so the precision that a caller has set for Decimal plays no part.
"""
import re
from decimal import Decimal
from numbers import Integral
from typing import Iterable, Mapping, NamedTuple, Union

from . import gas
from .lines import known, shown

Amount = Union[Decimal, str, int, float]

# Parts in one of each unit, as a power of ten.
UNITS = {'percent': 4, 'parts': 0, 'fraction': 6}
DECIMALS = {'percent': 'more than four decimals; a part is 0.0001 %', 'parts': 'decimals; parts are whole',
            'fraction': 'more than six decimals; a part is 0.000001'}
NUMBER = re.compile(r'\+?([0-9]*)(?:[.,]([0-9]*))?(?:[eE]([+-]?[0-9]{1,2}))?')
THOUSANDS = re.compile(r'[0-9]{1,3}(?:[.,][0-9]{3})+')
LONGEST = 60                # characters of an amount


class AmountError(ValueError):
    """An amount, a name or a split that cannot be read, or an amount finer than a part."""


class Scaled(NamedTuple):
    """An amount in parts over a power of ten."""
    digits: int
    places: int

    @property
    def whole(self) -> bool:
        return self.digits % 10 ** self.places == 0


def exact(text: str, unit: str) -> Scaled:
    """Any amount that can be read, to its last digit. With parts, which are whole, `20,000` could be either."""
    found = NUMBER.fullmatch(text)
    if not found or not (found[1] or found[2]) or len(text) > LONGEST:
        why = ': it is below 0' if text.startswith('-') else ': it has a comma and a point' \
            if ',' in text and '.' in text else ''
        raise AmountError("'%s' is not an amount such as 97.0797%s" % (shown(text), why))
    if unit == 'parts' and THOUSANDS.fullmatch(text):
        raise AmountError("'%s' could have a thousands separator" % shown(text))
    whole, decimals, power = found.groups('')
    return scaled(int(whole + decimals), len(decimals) - int(power or 0), unit)


def scaled(digits: int, places: int, unit: str) -> Scaled:
    places -= UNITS[unit]
    return Scaled(digits * 10 ** -places, 0) if places < 0 else Scaled(digits, places)


def whole_parts(amount: Scaled, given: object, unit: str) -> int:
    """The parts of an amount, or AmountError."""
    parts, rest = divmod(amount.digits, 10 ** amount.places)
    if rest:
        raise AmountError("'%s' has %s" % (shown(str(given)), DECIMALS[unit]))
    if parts > gas.GREATEST_AMOUNT:
        raise AmountError("'%s' is more than any analysis has" % shown(str(given)))
    return parts


def parts_of_decimal(amount: Decimal, unit: str) -> int:
    sign, digits, exponent = amount.as_tuple()
    if not isinstance(exponent, int):
        raise AmountError("'%s' is not an amount" % amount)
    if sign and any(digits):
        raise AmountError("'%s' is below 0" % shown(str(amount)))
    if not -1000 < exponent < 100:
        raise AmountError("'%s' is not an amount such as 97.0797" % shown(str(amount)))
    return whole_parts(scaled(int(''.join(map(str, digits))), -exponent, unit), amount, unit)


def parts_of(amount: Amount, unit: str = 'percent') -> int:
    """An amount in parts. A float counts as the decimal that Python prints for it."""
    if unit not in UNITS:
        raise ValueError("'%s' is no unit; there are %s" % (unit, ', '.join(UNITS)))
    if isinstance(amount, str):
        return whole_parts(exact(amount.strip(), unit), amount, unit)
    if isinstance(amount, Decimal):
        return parts_of_decimal(amount, unit)
    if isinstance(amount, float):
        return parts_of_decimal(Decimal(float.__repr__(amount)), unit)
    if isinstance(amount, Integral) and not isinstance(amount, bool):
        return parts_of_decimal(Decimal(int(amount)), unit)
    raise AmountError('%s is not an amount: give a Decimal, text, an int or a float' % shown(repr(amount)))


def decimal_of(count: int, places: int) -> Decimal:
    """A count with so many decimals, exactly, whatever precision Decimal is set to."""
    return Decimal((int(count < 0), tuple(map(int, str(abs(count)))), -places))


def in_unit(parts: int, unit: str = 'percent') -> Decimal:
    """Parts in a unit, exactly."""
    return decimal_of(parts, UNITS[unit])


def by_code(analysis: Mapping[str, Amount], unit: str = 'percent') -> list[int]:
    """The amounts of an analysis by component name, in parts by code."""
    if not isinstance(analysis, Mapping):
        raise AmountError("an analysis gives each component its amount, as {'methane': '97.5', 'ethane': '2.5'}")
    amounts = [0] * gas.PLACES
    given = set()
    for name, amount in analysis.items():
        code = code_of(name)
        if code in given:
            raise AmountError('%s is given twice' % gas.BY_CODE[code].name)
        given.add(code)
        try:
            amounts[code] = parts_of(amount, unit)
        except AmountError as wrong:
            raise AmountError('%s: %s' % (gas.BY_CODE[code].name, wrong)) from None
    return amounts


def code_of(name: str) -> int:
    if not isinstance(name, str):
        raise AmountError("%s is no component's name" % shown(repr(name)))
    try:
        return known(name, gas.CODES, [c.name for c in gas.COMPONENTS])
    except ValueError as wrong:
        raise AmountError(str(wrong)) from None


def by_name(amounts: Iterable[int], unit: str = 'percent') -> dict[str, Decimal]:
    """The components that are present, by name."""
    return {gas.BY_CODE[code].name: in_unit(parts, unit) for code, parts in enumerate(amounts) if parts}
