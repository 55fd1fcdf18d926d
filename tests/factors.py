#!/usr/bin/env python3
"""Compares the factors that make volume amounts from moles with the figures printed in 001 Table 2.

tests/data/factors.txt holds the table as printed. Each figure is read exactly and must be a whole count of
ten-thousandths: the entry of its code in `factors` of specs/Conversion.antt and in `FACTORS` of src/lib.rt of the crate
conversion, in the independent program and in the plain C program. A code without a figure has 0 there.
Exit status 1 and a message where a figure differs, is missing, or stands there in excess."""
import re

from texts import fail, text_of

DATA = 'tests/data/factors.txt'
SPEC, CODE = 'crates/conversion/specs/Conversion.antt', 'crates/conversion/src/lib.rt'
PLAIN, REFERENCE = 'tests/plain/saugrinte.c', 'tests/reference/independent.py'
PUBLISHED = 'tests/reference/published.py'
CODES = 16
PRINTED_CODES = [1, 2, 3, 4, 5, 6, 7, 8, 10, 11, 12]


def ten_thousandths(path, printed):
    found = re.fullmatch(r'0\.(\d{4})', printed)
    if not found:
        fail(f'{path}: {printed} is not printed as the paper prints')
    return int(found[1])


def printed_factors():
    """The figure of each code, 0 where the table has none."""
    table = {}
    for number, line in enumerate(text_of(DATA).splitlines(), 1):
        if not line.strip() or line.startswith('#'):
            continue
        found = re.fullmatch(r'(\d+) (\S+)', line)
        if not found:
            fail(f'{DATA}:{number}: not a code and a figure')
        if int(found[1]) in table:
            fail(f'{DATA}:{number}: code {found[1]} stands twice')
        table[int(found[1])] = ten_thousandths(f'{DATA}:{number}', found[2])
    if list(table) != PRINTED_CODES:
        fail(f'{DATA}: not the codes {PRINTED_CODES}')
    return [table.get(code, 0) for code in range(CODES)]


def figures(path, body, between):
    """The figures of a list, by code; `between` stands between two."""
    items = [item.strip() for item in body.strip().rstrip(between).split(between)]
    for item in items:
        if not re.fullmatch(r'\d[\d_]*', item):
            fail(f'{path}: {item} is no figure')
    return [int(item.replace('_', '')) for item in items]


def table_in(path, comment, pattern, between):
    """The one table that the pattern finds, comments left out."""
    found = re.findall(pattern, re.sub(comment, '', text_of(path)), re.M)
    if len(found) != 1:
        fail(f'{path}: {len(found)} tables of factors, not one')
    return figures(path, found[0], between)


def dictionary_in(path, figure):
    """The factors of a Python program, by code; `figure` is what a figure looks like there."""
    found = re.findall(r'^FACTOR = \{([^{}]*)\}$', re.sub(r'#.*', '', text_of(path)), re.M)
    if len(found) != 1:
        fail(f'{path}: {len(found)} tables of factors, not one')
    pairs = [pair.strip() for pair in found[0].strip().rstrip(',').split(',')]
    table = {}
    for pair in pairs:
        entry = re.fullmatch(r'(\d+):\s+' + figure, pair)
        if not entry or int(entry[1]) in table:
            fail(f'{path}: {pair} is no code with a figure, or stands twice')
        table[int(entry[1])] = entry[2]
    if max(table) >= CODES:
        fail(f'{path}: a factor of code {max(table)}')
    return table


def compare(path, found, wanted):
    if len(found) != len(wanted):
        fail(f'{path}: {len(found)} factors, not {len(wanted)}')
    for code, (figure, right) in enumerate(zip(found, wanted)):
        if figure != right:
            fail(f'{path}: the factor of code {code} is {figure}, printed {right}')


def main():
    wanted = printed_factors()
    reference, published = dictionary_in(REFERENCE, r'(\d+)'), dictionary_in(PUBLISHED, r'"(0\.\d+)"')
    compare(REFERENCE, [int(reference.get(code, 0)) for code in range(CODES)], wanted)
    compare(PUBLISHED, [ten_thousandths(PUBLISHED, published[code]) if code in published else 0
                        for code in range(CODES)], wanted)
    compare(PLAIN, table_in(PLAIN, r'/\*[\s\S]*?\*/', r'^static const uint64_t factors\[CODES\] = \{([^{}]*)\};$', ','),
            wanted)
    compare(SPEC, table_in(SPEC, r'(?m)(^|\s)--.*$', r'^factors\s*=\s+((?:\d[\d_]*\s*∷\s*)+)\[\]\s*$', '∷'), wanted)
    compare(CODE, table_in(CODE, r'//.*', r'^(?:pub )?const FACTORS: \[\w+; (?:CODES|\w+::CODES|16)\]\s*=\s*'
                           r'\[([^][]*)\];', ','), wanted)
    print(f'factors: OK, {len(PRINTED_CODES)} figures as printed and {CODES - len(PRINTED_CODES)} codes without one, '
          'in specs, code, the independent and the plain C program')


if __name__ == '__main__':
    main()
