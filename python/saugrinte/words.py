"""Answers in words: a rating with four decimals, a refusal with what is at fault, from its number and the bytes of a
sheet. The number stands whatever is said here: where the bytes do not show the detail, the refusal's word and sentence
are said. Of a mole analysis the same is said from a sheet that has its amounts, which are then mole percent.
"""
from __future__ import annotations

from collections import namedtuple
from collections.abc import Callable, Iterable

from . import gas

# What the words quote: {code: (least, greatest)} in parts, and (least, greatest) of the total.
Ranges = namedtuple('Ranges', 'amounts total')


def methane_number(units: int) -> str:
    """A rating in units of 0.0000001 with four decimals, halves up, also below zero."""
    rounded = (units + 500) // 1000
    return '%s%d.%04d' % ('-' if rounded < 0 else '', *divmod(abs(rounded), 10000))


def out_of_range(sheet: bytes, unit: str, ranges: Ranges) -> str | None:
    """All that is at fault, in the order of the codes: the first is the code that the C interface gives."""
    wrong = []
    components = dict(gas.listed(sheet))
    if gas.REQUIRED not in components:
        wrong.append('%s is absent' % gas.BY_CODE[gas.REQUIRED].name)
    for code, amount in sorted(components.items()):
        least, greatest = ranges.amounts[code]
        if not least <= amount <= greatest:
            wrong.append('%s %s %s is outside %s to %s %s%s' % (
                gas.BY_CODE[code].name, gas.percent(amount), unit, gas.percent(least), gas.percent(greatest), unit,
                '' if amount or code == gas.REQUIRED else ' (leave it out where it is absent)'))
    return '; '.join(wrong)


def total(sheet: bytes, unit: str, ranges: Ranges) -> str | None:
    amounts = sum(amount for _, amount in gas.listed(sheet))
    least, greatest = ranges.total
    if least <= amounts <= greatest:
        return None
    return 'the total is %s %s, outside %s to %s %s' % (
        gas.percent(amounts), unit, gas.percent(least), gas.percent(greatest), unit)


def hydrogen(sheet: bytes, unit: str, _: Ranges) -> str | None:
    amount = dict(gas.listed(sheet)).get(gas.HYDROGEN)
    return None if not amount else '%s %s %s: a gas with hydrogen is rated from volumes alone' % (
        gas.BY_CODE[gas.HYDROGEN].name, gas.percent(amount), unit)


def systems(records: Iterable[tuple[int, int, int]]) -> list[int]:
    """Systems in the order in which they first stand."""
    return list(dict.fromkeys(system for system, _, _ in records))


def misfit(sheet: bytes, *_: object) -> str | None:
    records = gas.proposed(sheet)
    if not records:
        return None
    return ("the split's %d records, of system%s %s, are not those expected: three for each system chosen for this gas"
            % (len(records), '' if len(systems(records)) == 1 else 's', ', '.join(map(str, systems(records)))))


def unsummed(sheet: bytes, *_: object) -> str | None:
    sums = dict.fromkeys(gas.SPLIT_NAMES, 0)
    records = gas.proposed(sheet)
    if not records:
        return None
    for _system, code, amount in records:
        sums[code] += amount
    given = {code for _system, code, _amount in records}
    return 'the split does not add up to the simplified mixture: it has %s, %s %% in all' % (
        ', '.join('%s %s %%' % (name, gas.percent(sums[code])) for code, name in gas.SPLIT_NAMES.items()
                  if code in given), gas.percent(sum(sums.values())))


def empty_system(sheet: bytes, *_: object) -> str | None:
    records = gas.proposed(sheet)
    empty = [system for system in systems(records) if not any(a for s, _, a in records if s == system)]
    return None if not empty else 'the split leaves system%s %s empty: all its amounts are 0' % (
        '' if len(empty) == 1 else 's', ', '.join(map(str, empty)))


def as_lines(sheet: bytes) -> str:
    """What to say besides of a torn sheet that may have been meant as lines."""
    if gas.is_text(sheet):
        return ' (it is text: for lines name the file, or - for standard input)'
    return ' (nor is it lines: %s)' % gas.no_text(sheet) if sheet[:1] >= b' ' else ''


DETAILS: dict[int, Callable[[bytes, str, Ranges], str | None]] = {
    5: out_of_range, 6: total, 7: misfit, 8: unsummed, 9: empty_system, 15: total, 18: hydrogen}


def detail(number: int, sheet: bytes, ranges: Ranges, unit: str = gas.PERCENT) -> str | None:
    """What is at fault, or nothing where the bytes do not show it. The unit is the amounts'; those of a split are
    always percent of the simplified mixture."""
    tear = gas.torn(sheet)
    if number == 1:
        return tear and 'the sheet is torn: ' + tear + as_lines(sheet)
    if tear:
        return None
    miscoded = gas.miscoded(sheet)
    if number in (2, 3, 4):
        return miscoded[1] if miscoded and miscoded[0] == number else None
    if miscoded or any(code not in gas.SPLIT_NAMES for _, code, _ in gas.proposed(sheet) if number == 8):
        return None
    return DETAILS[number](sheet, unit, ranges) if number in DETAILS else None


def reason(number: int, sheet: bytes, ranges: Ranges, moles: bool = False) -> str:
    """What is at fault, or the refusal's word and sentence. Of a mole analysis the sheet has its amounts, and it is
    said where the volumes made are meant."""
    unit = gas.MOLE_PERCENT if moles else gas.PERCENT
    word, sentence = gas.REFUSALS.get(number, ('refused', "README.md's table of refusals tells more"))
    if moles:
        sentence = gas.OF_MOLES.get(number, sentence)
    return (detail(number, sheet, ranges, unit) or '%s: %s' % (word, sentence)) \
        + (gas.MADE if moles and number in gas.OF_MADE else '')
