"""An analysis in plain lines as people write it, a component and its amount in each, and a sheet's bytes: from one to
the other and back. Ranges and totals are left to the rating.
"""
from __future__ import annotations

import re
from collections.abc import Iterable, Mapping, Sequence

from . import gas

MOST = 1 << 20          # bytes of lines


def shown(text: str) -> str:
    """Part of a line, fit for a message."""
    return ''.join(c if c.isprintable() else '?' for c in text[:40]) + ('...' if len(text) > 40 else '')


# ------------------------------------------------------------ lines to a sheet

def text_of(data: bytes) -> str:
    """Lines as text. What is not UTF-8 (in a comment, say) becomes \\xff and the like, which no name or amount has."""
    if len(data) > MOST:
        raise ValueError('the lines have more than %d bytes' % MOST)
    text = data.decode('utf-16' if data.startswith(gas.UTF_16) else 'utf-8', 'backslashreplace')
    return text[1:] if text.startswith('\ufeff') else text


def parts(text: str) -> int:
    """The amount in parts (0.0001 %), or ValueError saying what is wrong."""
    if not re.fullmatch(r'[0-9]+([.,][0-9]+)?', text):
        both = ': it has a comma and a point' if ',' in text and '.' in text else ''
        raise ValueError("'%s' is not an amount such as 97.0797%s" % (shown(text), both))
    whole, _, decimals = text.replace(',', '.').partition('.')
    whole = whole.lstrip('0')
    if len(decimals) > 4:
        raise ValueError("'%s' has more than four decimals; a part is 0.0001 %%" % shown(text))
    if len(whole) > 6 or int(whole or '0') * 10000 + int(decimals.ljust(4, '0')) > gas.GREATEST_AMOUNT:
        raise ValueError("'%s' does not fit the sheet's four bytes" % shown(text))
    return int(whole or '0') * 10000 + int(decimals.ljust(4, '0'))


def known(name: str, codes: Mapping[str, int], names: Iterable[str]) -> int:
    """The code of a name, or ValueError saying which names there are."""
    if len(name) > 1 and name[0] == name[-1] and name[0] in '"\'':
        name = name[1:-1]
    found = gas.key(name)
    if found in codes:
        return codes[found]
    if codes is gas.CODES and found in gas.MEANINGS:
        raise ValueError("'%s' could be %s" % (shown(name), gas.MEANINGS[found]))
    raise ValueError("'%s' is none of %s" % (shown(name), ', '.join(names)))


def record(words: list[str], form: str, moles: bool = False) -> tuple[str, str]:
    """Name and amount of a line's words, or ValueError. A word of the name that begins with a figure would be another
    amount: `CO 2 0.1` is not CO2."""
    if moles:
        if any(gas.A_VOLUME.match(word) for word in words[1:]):
            raise ValueError('amounts are mole percent here; lines in percent by volume are rated without --moles')
        words = gas.MOLES.sub(' %', ' '.join(words)).split()
    elif any(gas.A_MOLE.match(word) for word in words[1:]):
        raise ValueError('amounts are percent by volume here; --moles is for lines in mole percent')
    if words[-1:] == ['%']:
        words = words[:-1]
    elif words and words[-1].endswith('%') and words[-1][:1] in set('0123456789'):
        words = words[:-1] + [words[-1][:-1]]
    if len(words) < 2 or any(word[0] in '0123456789' for word in words[1:-1]):
        raise ValueError(form)
    return ' '.join(words[:-1]), words[-1]


def read(text: str, moles: bool = False) -> tuple[dict[int, int], list[tuple[int, int, int]]]:
    """The components {code: parts} and the split's records [(system, code, parts)]. The components may be in mole
    percent; a split is of volumes always."""
    components: dict[int, int] = {}
    split: list[tuple[int, int, int]] = []
    for number, line in enumerate(re.split('\r\n|\n|\r', text), 1):
        words = line.split('#')[0].split()
        try:
            if not words:
                continue
            if words[0].lower() == 'split':
                form = 'a split line is: split SYSTEM COMPONENT AMOUNT'
                if len(words) < 4:
                    raise ValueError(form)
                if not re.fullmatch('0*[0-9]{1,3}', words[1]) or int(words[1][-3:]) > 255:
                    raise ValueError("'%s' is not a system's number" % shown(words[1]))
                if moles and any(gas.A_MOLE.match(word) for word in words[3:]):
                    raise ValueError("a split's amounts are percent of the simplified mixture, by volume")
                name, amount = record(words[2:], form)
                code = known(name, gas.SPLIT_CODES, gas.SPLIT_NAMES.values())
                split.append((int(words[1][-3:]), code, parts(amount)))
                continue
            name, amount = record(words, 'a line is a component and its amount, as: methane 97.0797', moles)
            code = known(name, gas.CODES, [c.name for c in gas.COMPONENTS])
            if code in components:
                raise ValueError('%s is listed twice' % gas.BY_CODE[code].name)
            components[code] = parts(amount)
        except ValueError as wrong:
            raise ValueError('line %d: %s' % (number, wrong))
    if len(split) not in gas.SPLIT_COUNTS:
        raise ValueError('a split has three records for each of two to seven systems, and %d are given' % len(split))
    return components, split


def split_section(split: Sequence[tuple[int, int, int]]) -> bytes:
    return bytes([len(split)]) + b''.join(bytes([system, code]) + amount.to_bytes(4, 'big')
                                          for system, code, amount in split)


def sheet(components: Mapping[int, int], split: Sequence[tuple[int, int, int]]) -> bytes:
    out = bytearray([len(components)])
    for code in sorted(components):
        out += bytes([code]) + components[code].to_bytes(4, 'big')
    return bytes(out) + split_section(split)


def of_lines(data: bytes) -> bytes:
    """The sheet of lines, or ValueError saying which line is wrong and why."""
    if data and not gas.is_text(data):
        raise ValueError(gas.no_text(data) if gas.torn(data)
                         else 'this is a sheet already; --lines turns it into lines')
    return sheet(*read(text_of(data)))


def of_mole_lines(data: bytes) -> tuple[bytes, bytes]:
    """What the program of mole analyses reads of lines in mole percent, an amount for each code and the split, and a
    sheet that has the same; or ValueError. An amount of 0 is an absent one."""
    if not gas.is_text(data):
        raise ValueError('--moles takes lines in mole percent, and ' + (
            'there are none' if not data else gas.no_text(data) if gas.torn(data)
            else 'this is a sheet, which has volumes: rate it without --moles'))
    components, split = read(text_of(data), moles=True)
    present = {code: amount for code, amount in components.items() if amount}
    amounts = b''.join(present.get(code, 0).to_bytes(4, 'big') for code in range(gas.PLACES))
    return amounts + split_section(split), sheet(present, split)


# ------------------------------------------------------------ a sheet to lines

def amounts_in(sheet: bytes) -> list[int]:
    """The parts by code of a sheet that is not torn; codes that no analysis has are left out."""
    amounts = [0] * gas.PLACES
    for code, parts_of_it in gas.listed(sheet):
        if code < gas.PLACES:
            amounts[code] = parts_of_it
    return amounts


def lines(data: bytes) -> bytes:
    """The lines of a sheet, or ValueError saying what is wrong with it."""
    tear = gas.torn(data)
    if tear:
        raise ValueError('the sheet is torn: ' + tear + (' (these are lines already)' if gas.is_text(data) else ''))
    miscoded = gas.miscoded(data)
    if miscoded:
        raise ValueError(miscoded[1])
    out = ['%s %d.%04d\n' % (gas.BY_CODE[code].name, *divmod(amount, 10000)) for code, amount in gas.listed(data)]
    for number, (system, code, amount) in enumerate(gas.proposed(data), 1):
        if code not in gas.SPLIT_NAMES:
            raise ValueError('split record %d has code %d, which splits do not have' % (number, code))
        out.append('split %d %s %d.%04d\n' % (system, gas.SPLIT_NAMES[code], *divmod(amount, 10000)))
    return ''.join(out).encode('ascii')
