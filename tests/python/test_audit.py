"""The command audit on archives with planted first numbers: right ones are passed over, mistakes are named, rows that
are refused are told and never rated. What is planted, and which mistakes give it, is the independent program's word.

  PYTHONPATH=python /usr/bin/python3 -m pytest tests/python/test_audit.py
"""
import csv
import io
import json
import os
import tempfile
from decimal import ROUND_HALF_UP, Decimal

import pytest
from click.testing import CliRunner
from hypothesis import given, settings, strategies as st

from gases import TABLE_A1
from saugrinte import audit, gas, library
from saugrinte.ratings import number_of, rate_parts
from test_mistakes import (CHANGED, KEYS, applies, by_detour, found, gases_in, in_range, is_rated, made, play, ref,
                           volumes)

COMPONENTS = [c.code for c in gas.COMPONENTS]
FEW = settings(max_examples=40, deadline=None, database=None)


def title(code, moles):
    return '%s [%s%%]' % (gas.BY_CODE[code].name, 'mol' if moles else 'vol')


def csv_of(rows, moles=False, retired=(), separator=';', comma=True):
    """An archive: a date, the components, columns of retired codes, the first number. A row is (amounts, first number,
    {retired code: parts})."""
    out = io.StringIO()
    writer = csv.writer(out, delimiter=separator, lineterminator='\n')
    writer.writerow(['date', *(title(code, moles) for code in COMPONENTS),
                     *('code %d [%s%%]' % (code, 'mol' if moles else 'vol') for code in retired), 'MN'])
    for place, (amounts, first, others) in enumerate(rows, 1):
        cells = [gas.percent(amounts[code]) if amounts[code] else '' for code in COMPONENTS]
        cells += [gas.percent(others[code]) if code in others else '' for code in retired]
        writer.writerow(['day %d' % place, *(cell.replace('.', ',') if comma else cell for cell in (*cells, first))])
    return out.getvalue()


def run(text, *options, first='MN'):
    """(status, standard output, what was said besides) of the command on a file with this text."""
    with tempfile.TemporaryDirectory() as folder:
        path = os.path.join(folder, 'archive.csv')
        with open(path, 'w', encoding='utf-8', newline='') as file:
            file.write(text)
        said = CliRunner().invoke(audit.command, [path, '--first', first, '--processes', '1', *options])
        if said.exception and not isinstance(said.exception, SystemExit):
            raise said.exception
        return said.exit_code, said.output[said.output.find('archive.csv, rated again'):], said.output


def audited(text, *options):
    """(status, the JSON object)."""
    status, _, output = run(text, '--json', *options)
    return status, json.loads(output[output.index('{"archive"'):])


def printed(units, decimals):
    """A number as a paper prints it."""
    return str(number_of(units).quantize(Decimal(1).scaleb(-decimals), ROUND_HALF_UP))


def allowed(decimals, allow='0.05'):
    return Decimal(allow) + Decimal('0.5').scaleb(-decimals)


def units_of(number):
    return int(Decimal(number) * ref.UNITS)


def right(amounts, moles):
    """The number by the independent program, in units."""
    return found(volumes(amounts, moles)).rating


def differs(amounts, moles, first, decimals):
    return abs(right(amounts, moles) - units_of(first)) > units_of(allowed(decimals))


def check_causes(row, amounts, moles, first, decimals):
    """What is said of a row's cause, beside the independent program's number of each mistake: one that gives the first
    number is named or said not to be tried, and no other is named."""
    named = {m['key']: units_of(m['gives']) for m in row['mistakes']}
    untried = {u['key'] for u in row['untried']}
    first, allow = units_of(first), units_of(allowed(decimals))
    gas_of = (amounts, moles)
    open_to = {key for key in KEYS if applies(key, *gas_of)}
    assert len(named) == len(row['mistakes']) and not set(named) & untried and set(named) | untried <= open_to
    far = [abs(units - first) for units in named.values()]
    assert far == sorted(far) and all(distance <= allow for distance in far)
    for key in open_to:
        number = made(key, *gas_of)
        if number is None:
            assert key in untried or not in_range(key, *gas_of), key
        elif key in untried:
            assert not in_range(key, *gas_of), key
            assert not by_detour(key, *gas_of) or play(key, *gas_of) is None, key
        elif key in named or abs(number - first) <= allow:
            most = play(key, *gas_of)
            if most is not None:
                assert key not in named or abs(named[key] - number) <= most, key
                assert key in named or abs(number - first) > allow - most, key


DECIMALS = st.integers(0, 4)


@st.composite
def archives(draw, row):
    """(moles, rows) of rows drawn by `row` of amounts and moles, with a separator and a decimal sign."""
    moles = draw(st.booleans())
    rows = [(amounts, draw(row)) for amounts in draw(st.lists(gases_in(moles), min_size=1, max_size=6))]
    separator = draw(st.sampled_from(';,\t'))
    return moles, rows, dict(separator=separator, comma=draw(st.booleans()))


@FEW
@given(archives(DECIMALS))
def test_right_numbers_are_passed_over(archive):
    moles, rows, form = archive
    text = csv_of([(amounts, printed(rate_parts(amounts, moles=moles).units, decimals), {})
                   for amounts, decimals in rows], moles, **form)
    status, said = audited(text)
    assert (status, said['rows'], said['agree'], said['findings']) == (0, len(rows), len(rows), [])
    assert not said['rows_not_rated'] and not said['rows_without_first']


def check_planted(rows, moles, form):
    """Audits rows of (amounts, decimals, the mistake that gave the first number, or None where the right one stands).
    A detour's play is less than is allowed, so that what is planted is named wherever its number can be tried."""
    plants = []
    for amounts, decimals, key in rows:
        units = right(amounts, moles) if key is None else made(key, amounts, moles)
        plants.append((amounts, printed(units, decimals), {}))
    differ = {place for place, (plant, row) in enumerate(zip(plants, rows), 1)
              if differs(plant[0], moles, plant[1], row[1])}
    status, said = audited(csv_of(plants, moles, **form))
    assert status == (1 if differ else 0)
    assert {row['row'] for row in said['findings']} == differ and len(said['findings']) == len(differ)
    assert (said['agree'], said['differ']) == (len(rows) - len(differ), len(differ))
    sizes = [abs(Decimal(row['difference'])) for row in said['findings']]
    assert sizes == sorted(sizes, reverse=True)
    for row in said['findings']:
        amounts, decimals, _ = rows[row['row'] - 1]
        check_causes(row, amounts, moles, plants[row['row'] - 1][1], decimals)
    return said


@settings(FEW, max_examples=60)
@given(archives(st.tuples(DECIMALS, st.integers(0, 10 ** 6))))
def test_planted_mistakes_are_named(archive):
    """The first number is that of any mistake which gives one, in range or not, or the right one."""
    moles, rows, form = archive
    planted = []
    for amounts, (decimals, index) in rows:
        keys = [None, *(key for key in KEYS if applies(key, amounts, moles) and made(key, amounts, moles) is not None)]
        planted.append((amounts, decimals, keys[index % len(keys)]))
    check_planted(planted, moles, form)


@st.composite
def out_of_range(draw, moles):
    """(amounts, a mistake that takes them out of range)."""
    key = draw(st.sampled_from(sorted(CHANGED)))
    codes, to = CHANGED[key]
    amounts, code = list(draw(gases_in(moles))), draw(st.sampled_from(codes))
    (least, greatest), (least_to, greatest_to) = ref.RANGE[code], ref.RANGE[to]
    if to == 10:
        amounts[code] = draw(st.integers(greatest_to, draw(st.sampled_from((2, 3, 7))) * greatest_to))
    elif draw(st.integers(0, 3)):
        amounts[code] = draw(st.integers(least, greatest))
        amounts[to] = greatest_to + 1 - draw(st.integers(1, amounts[code]))
    else:
        amounts = [0 if c in (*codes, to) else parts for c, parts in enumerate(amounts)]
        amounts[code] = draw(st.integers(least, least_to - 1))
    amounts[1] = ref.PARTS - sum(amounts[2:])
    return tuple(amounts), key


def planted_out_of_range(moles):
    return out_of_range(moles).filter(lambda drawn: is_rated(drawn[0], moles) and applies(drawn[1], drawn[0], moles)
                                      and not in_range(drawn[1], drawn[0], moles)
                                      and made(drawn[1], drawn[0], moles) is not None)


@settings(FEW, max_examples=60)
@given(st.booleans().flatmap(lambda moles: st.tuples(st.just(moles), st.lists(st.tuples(
    planted_out_of_range(moles), DECIMALS), min_size=1, max_size=4))))
def test_planted_mistakes_out_of_range(archive):
    """Named by a detour, or said not to be tried."""
    moles, rows = archive
    check_planted([(amounts, decimals, key) for (amounts, key), decimals in rows], moles, {})


@FEW
@given(archives(st.tuples(DECIMALS, st.sampled_from([None, 9, 13]), st.integers(1, 5000))))
def test_retired_codes_are_named_and_not_rated(archive):
    """Whatever the first number is, and though the other amounts would be rated."""
    moles, rows, form = archive
    plants = [(amounts, printed(rate_parts(amounts, moles=moles).units, decimals), {code: parts} if code else {})
              for amounts, (decimals, code, parts) in rows]
    status, said = audited(csv_of(plants, moles, retired=(9, 13), **form))
    retired = {place: code for place, (_, (_, code, _)) in enumerate(rows, 1) if code}
    assert status == (1 if retired else 0)
    assert [row['row'] for row in said['rows_not_rated']] == sorted(retired)
    for row in said['rows_not_rated']:
        assert (row['refusal'], row['word']) == (3, 'retired') and 'code %d' % retired[row['row']] in row['detail']
        assert 'number_again' not in row
    assert not said['findings'] and said['agree'] == len(rows) - len(retired)


@settings(FEW, max_examples=15)
@given(st.lists(st.decimals(0, 120, places=2), min_size=2, max_size=12), st.integers(1, 4))
def test_worst_first(firsts, worst):
    """By the size of the difference, equal ones by row, and no more than asked for; the counts are of all."""
    text = csv_of([(TABLE_A1, str(first), {}) for first in firsts])
    again = rate_parts(TABLE_A1).number
    sizes = {row: abs(again - first) for row, first in enumerate(firsts, 1) if abs(again - first) > allowed(2)}
    order = sorted(sizes, key=lambda row: (-sizes[row], row))
    assert [row['row'] for row in audited(text)[1]['findings']] == order
    said = audited(text, '--worst', str(worst))[1]
    assert [row['row'] for row in said['findings']] == order[:worst] and said['differ'] == len(order)


def test_chunks_count_on(monkeypatch):
    """Rows and lines are counted over chunks, quoted line ends and blank lines, and ties stay in the order of rows."""
    monkeypatch.setattr(audit, 'SIZE', 300)
    lines = csv_of([(TABLE_A1, '80' if place % 3 == 0 else '91', {}) for place in range(1, 31)]).splitlines()
    lines[4] = '"two\nlines"' + lines[4][lines[4].index(';'):]
    text = '\n'.join([*lines[:11], '', *lines[11:]]) + '\n'
    for options in ((), ('--worst', '4')):
        status, said = audited(text, *options)
        assert (status, said['rows'], said['differ']) == (1, 30, 10)
        found = [(row['row'], row['line'], row['label']) for row in said['findings']]
        assert found == [(row, row + 1 + (row > 4) + (row > 10), 'day %d' % row)
                         for row in range(3, 31, 3)][:4 if options else None]


@pytest.mark.parametrize('text, number, half', (
    ('91', '91', '0.5'), ('91.1', '91.1', '0.05'), ('91,08', '91.08', '0.005'), ('91.', '91', '0.5'),
    ('091.0000', '91', '0.00005'), ('-3,2', '-3.2', '0.05'), ('+4', '4', '0.5'),
    ('', None, None), ('n/a', None, None), ('9.1e1', None, None), ('91.0 ?', None, None), ('1,091.5', None, None),
    ('.5', None, None), ('9' * 10, None, None), ('NaN', None, None), ('٩١', None, None)))
def test_first_numbers(text, number, half):
    assert audit.first_number(text) == (None if number is None else (Decimal(number), Decimal(half)))


def test_what_is_allowed():
    """A whole number allows 0.55, to the end; --allow takes the place of the 0.05."""
    assert str(rate_parts(TABLE_A1).number) == '91.0787384'
    rows = csv_of([(TABLE_A1, first, {}) for first in (
        '91', '90', '92', '91.0', '91.2', '90.9', '91.02', '91.1287384', '91.1287385', '91.0287383', '91.028738')])

    def differ(*options):
        return [row['row'] for row in audited(rows, *options)[1]['findings']]

    assert differ() == [2, 3, 6, 5, 7, 9, 10]
    assert differ('--allow', '0.5') == [2]
    assert differ('--allow', '0,058') == [2, 3, 6, 5]
    assert differ('--allow', '0') == [2, 3, 6, 5, 4, 7, 11, 9, 10, 8]


def test_the_page():
    heavy = [8715 + 84 if code == 12 else 0 if code == 10 else parts for code, parts in enumerate(TABLE_A1)]
    rich = [6101 if code == 10 else parts for code, parts in enumerate(TABLE_A1)]
    rich[1] -= sum(rich) - 1000000
    text = csv_of([(TABLE_A1, '91.08', {}), (TABLE_A1, printed(rate_parts(heavy).units, 2), {}), (TABLE_A1, '50', {}),
                   (rich, '88', {}), (TABLE_A1, '91.42', {9: 84}), (TABLE_A1, '', {}), (TABLE_A1, '?', {})],
                  retired=(9,))
    status, page, _ = run(text)
    assert status == 1
    assert page == '''archive.csv, rated again beside 'MN' by library %s
7 rows: 1 agree, 2 differ, 2 not rated (3 retired: 1, 5 out of range: 1), 2 without a first number
allowed: 0.05 and half a unit of the first number's last decimal

Differ, worst first (difference: again less first):
  row 3 (line 4), day 3: first 50, again 91.0787, difference +41.0787
      no known mistake gives it
  row 2 (line 3), day 2: first 91,41, again 91.0787, difference -0.3313
      heavy ends read as inert: hexanes+ counted as nitrogen, or left out, gives 91.4141
      or heavy ends read as inert: hexanes+ counted as carbon dioxide, gives 91.4218

Not rated:
  row 4 (line 5), day 4: 5, out of range: hexanes+ 0.6101 %% is outside 0.001 to 0.61 %%; first 88
  row 5 (line 6), day 5: 3, retired: column 'code 9 [vol%%]' has an amount of code 9, retired: the row is not rated; %s

Without a first number:
  row 6 (line 7), day 6: no first number, again 91.0787
  row 7 (line 8), day 7: first number '?' is not readable, again 91.0787
''' % (library.version(), 'first 91,42')


@pytest.mark.parametrize('changes, key, moles', (
    ({}, 'nitrogen-as-hexanes', False), ({}, 'nitrogen-as-hexanes', True),
    ({11: 7528}, 'carbon-dioxide-as-hexanes', False), ({12: 15000}, 'nitrogen-as-hexanes', False),
    ({5: 6000, 12: 149000}, 'butanes-left-out', False), ({5: 6000, 12: 149000}, 'butanes-left-out', True),
    ({7: 0, 10: 6000, 12: 149500}, 'pentanes-as-nitrogen', False), ({10: 40, 12: 0}, 'hexanes-as-nitrogen', False)))
def test_named_by_a_detour(changes, key, moles):
    """More hexanes+ than their range has room for, too much nitrogen, or too little."""
    amounts = [changes.get(code, parts) for code, parts in enumerate(TABLE_A1)]
    amounts[1] += 1000000 - sum(amounts)
    assert not in_range(key, amounts, moles) and by_detour(key, amounts, moles) and play(key, amounts, moles)
    rows = check_planted([(amounts, 2, key)], moles, {})['findings']
    assert [key in [m['key'] for m in row['mistakes']] for row in rows] == [True]


def test_what_could_not_be_tried_is_said():
    amounts = [60528 if code == 11 else parts for code, parts in enumerate(TABLE_A1)]
    amounts[1] += 1000000 - sum(amounts)
    _, page, _ = run(csv_of([(amounts, '60', {})]))
    assert '''      no known mistake gives it
      could not be tried: carbon dioxide counted as hexanes+ (hexanes+ 6.0612 % is outside 0.001 to 0.61 %)
''' in page
    said = audited(csv_of([(amounts, '60', {})]))[1]['findings'][0]
    assert [u['key'] for u in said['untried']] == ['carbon-dioxide-as-hexanes'] and not said['mistakes']


def test_rows_that_cannot_be_read_are_told():
    lines = csv_of([(TABLE_A1, '91', {})] * 3).splitlines()
    lines[2] = lines[2].replace('97,0797', 'much')
    lines[3] = 'day 3;1,0'
    status, said = audited('\n'.join(lines) + '\n')
    assert status == 1 and said['agree'] == 1
    assert [(row['row'], row['refusal'], row['word']) for row in said['rows_not_rated']] \
        == [(2, None, 'unreadable'), (3, None, 'unreadable')]


def test_changed_amounts_are_told():
    short = [parts - 1000 if code == 1 else parts for code, parts in enumerate(TABLE_A1)]
    text = csv_of([(short, '80', {})])
    assert [row['refusal'] for row in audited(text)[1]['rows_not_rated']] == [6]
    assert audited(text, '--normalise')[1]['findings'][0]['changed'] == 'normalised from 99.8999 %'
    assert ', amounts normalised from 99.8999 %\n' in run(text, '--normalise')[1]


def test_absent_texts_are_no_first_numbers():
    text = csv_of([(TABLE_A1, '99', {}), (TABLE_A1, '91', {})])
    status, said = audited(text, '--absent', '99')
    assert status == 0 and [row['row'] for row in said['rows_without_first']] == [1]


def test_the_file_of_findings(tmp_path):
    """All rows that are found, whatever is printed, with the archive's separator and decimal sign."""
    file = tmp_path / 'findings.csv'
    file.write_text('old')
    text = csv_of([(TABLE_A1, '91.08', {}), (TABLE_A1, '91.42', {}), (TABLE_A1, '50', {}), (TABLE_A1, '60', {9: 10}),
                   (TABLE_A1, '', {})], retired=(9,))
    status, page, _ = run(text, '-o', str(file), '--worst', '1')
    assert status == 1 and 'and 1 more' in page
    rows = list(csv.DictReader(io.StringIO(file.read_text()), delimiter=';'))
    assert [(row['kind'], row['row'], row['line'], row['label']) for row in rows] == [
        ('differs', '3', '4', 'day 3'), ('differs', '2', '3', 'day 2'), ('not rated', '4', '5', 'day 4'),
        ('without a first number', '5', '6', 'day 5')]
    assert [(row['first_number'], row['number_again'], row['difference']) for row in rows] == [
        ('50', '91,0787384', '41,0787384'), ('91,42', '91,0787384', '-0,3412616'), ('60', '', ''),
        ('', '91,0787384', '')]
    assert (rows[1]['mistake'], rows[1]['gives']) == ('hexanes-as-carbon-dioxide', '91,4218044')
    assert rows[0]['mistake'] == '' and rows[0]['detail'].startswith('no known mistake gives it')
    assert (rows[2]['refusal'], rows[2]['word']) == ('3', 'retired')
    assert os.listdir(tmp_path) == ['findings.csv']


def test_nothing_is_written_over_the_archive(tmp_path):
    path = tmp_path / 'archive.csv'
    text = csv_of([(TABLE_A1, '91', {})])
    path.write_text(text)
    for output, message in ((path, 'is what is read'), (tmp_path / 'no' / 'file.csv', 'there is no folder')):
        said = CliRunner().invoke(audit.command, [str(path), '--first', 'MN', '-o', str(output)])
        assert said.exit_code == 2 and message in said.output
    assert path.read_text() == text and os.listdir(tmp_path) == ['archive.csv']


@pytest.mark.parametrize('first, options, message', (
    ('MZ', (), "there is no column 'MZ' for first numbers; columns that are no component's: 'date', 'MN'"),
    ('methane [vol%]', (), "column 'methane [vol%]' is a component's"),
    ('MN', ('--allow', 'much'), "'much' is no difference such as 0.1"),
    ('MN', ('--allow', '-1'), "'-1' is no difference"),
    ('MN', ('--worst', '0'), '--worst'),
    ('MN', ('--basis', 'mole'), 'is by volume, and --basis says mole')))
def test_wrong_commands(first, options, message):
    status, _, output = run(csv_of([(TABLE_A1, '91', {})]), *options, first=first)
    assert status == 2 and message in output


def test_two_columns_of_first_numbers():
    text = csv_of([(TABLE_A1, '91', {})]).replace('date', 'MN', 1)
    status, _, output = run(text)
    assert status == 2 and "there is more than one column 'MN'" in output


def test_no_file_and_no_first():
    for words in (['no-such-file.csv', '--first', 'MN'], [__file__]):
        assert CliRunner().invoke(audit.command, words).exit_code == 2


def test_titles_alone():
    status, said = audited(csv_of([]))
    assert (status, said['rows'], said['findings']) == (0, 0, [])
