"""The package's calls: what they answer is the library's, amounts are exact, refusals tell what is at fault."""
import doctest
import os
import re
import threading
from decimal import Decimal, Inexact, Rounded, localcontext

import pytest
from gases import EXAMPLE, ROOT, TABLE_A1, gases
from hypothesis import given, strategies as st

import saugrinte
from saugrinte import Record, amounts, gas, library, lines, ratings

TABLE = amounts.by_name(TABLE_A1)


def test_the_docstring_is_true():
    failed, tried = doctest.testmod(saugrinte)
    assert tried and not failed


def test_table_a1():
    rating = saugrinte.rate(TABLE)
    assert (rating.units, rating.whole_number, rating.spread_units, rating.rounds) == (910787384, 91, 369794, 8)
    assert rating.number == Decimal('91.0787384') and rating.spread == Decimal('0.0369794')
    assert [share.system for share in rating.systems] == [4, 7, 8]
    assert sum(share.parts for share in rating.systems) == 1000000
    numbers = [share.units for share in rating.systems]
    assert max(numbers) - min(numbers) == rating.spread_units
    assert rating.as_dict()['methane_number'] == '91.0787384'


@pytest.mark.parametrize('unit, places', [('percent', 4), ('parts', 0), ('fraction', 6)])
def test_units_and_forms_give_one_rating(unit, places):
    for form in (Decimal, str, lambda text: text.replace('.', ','), float if places else int):
        given_as = {name: form(str(Decimal(parts).scaleb(-places))) for name, parts in
                    amounts.by_name(TABLE_A1, 'parts').items()}
        assert saugrinte.rate(given_as, unit=unit).units == 910787384


@pytest.mark.parametrize('amount', [97.07971, '97.07971', Decimal('97.07971'), 0.1 + 0.2, float('nan'), float('inf'),
                                    '-1', -1, '', 'x', '1.2.3', '1,2.3', None, True, b'1', '1e400', '1e99', '٣', 10 ** 12,
                                    '1' * 50, '0.00001'])
def test_amounts_that_are_errors(amount):
    with pytest.raises(saugrinte.ratings.AmountError):
        saugrinte.rate({**TABLE, 'methane': amount})


@pytest.mark.parametrize('amount, parts', [('97.0797', 970797), (' 97,0797 ', 970797), ('97.07970000', 970797),
                                           (97, 970000), (0.5, 5000), ('1e1', 100000), (Decimal('1E+1'), 100000),
                                           ('0', 0), (0.0001, 1), (1e-4, 1), ('.5', 5000), ('5.', 50000)])
def test_amounts_that_are_read(amount, parts):
    assert amounts.parts_of(amount) == parts


@given(st.integers(0, 4294967295), st.sampled_from(sorted(amounts.UNITS)))
def test_parts_there_and_back(parts, unit):
    decimal = amounts.in_unit(parts, unit)
    for form in (decimal, str(decimal), '{:f}'.format(decimal), '{:f}'.format(decimal).replace('.', ',')):
        assert amounts.parts_of(form, unit) == parts


def test_names():
    short = {'C1': '97', 'c2h6': '2', 'Carbon dioxide': '1'}
    assert amounts.by_code(short)[:3] == [0, 970000, 20000]
    for wrong in ({'C4': 1}, {'butane': 1}, {'xenon': 1}, {'methane': 97, 'CH4': 1}, {'': 1}):
        with pytest.raises(ValueError):
            amounts.by_code(wrong)


def refused(call, *arguments, **more):
    with pytest.raises(saugrinte.Refused) as caught:
        call(*arguments, **more)
    return caught.value


def test_refusals_tell_what_is_at_fault():
    wrong = refused(saugrinte.rate, {**TABLE, 'ethane': '0.0099'})
    assert (wrong.number, wrong.word, wrong.component, wrong.amount, wrong.range) == (
        5, 'out of range', 'ethane', Decimal('0.0099'), (Decimal('0.01'), Decimal('15')))
    assert '0.0099' in str(wrong) and '5: ' in str(wrong)
    wrong = refused(saugrinte.rate, {'ethane': 5})
    assert (wrong.number, wrong.component, wrong.amount) == (5, 'methane', 0)
    wrong = refused(saugrinte.rate, {'methane': 99})
    assert (wrong.number, wrong.amount, wrong.range) == (6, 99, (Decimal('99.99'), Decimal('100.01')))
    assert refused(saugrinte.rate_moles, {'methane': 99}).number == 15
    assert refused(saugrinte.rate, {'methane': 98, 'nitrogen': 2}).number == 16
    wrong = refused(saugrinte.rate_moles, {'methane': 95, 'hydrogen': 5})
    assert (wrong.number, wrong.component, wrong.amount) == (18, 'hydrogen', 5)
    assert refused(saugrinte.rate, TABLE, allowance=0).number == 11
    assert refused(saugrinte.partial_number, 9, [1, 0, 0]).number == 13
    assert refused(saugrinte.partial_number, 4, [0, 0, 0]).number == 12
    assert refused(saugrinte.partial_number, 20, [0, 1, 0]).number == 17
    wrong = refused(saugrinte.rate_sheet, bytes.fromhex('01090000006400'))
    assert (wrong.number, wrong.word, wrong.place) == (3, 'retired', 0)
    assert refused(saugrinte.read_sheet, b'').number == 1
    assert refused(saugrinte.read_sheet, bytes.fromhex('010e0000006400')).number == 2
    assert refused(saugrinte.read_sheet, bytes.fromhex('0202000000640100000064') + b'\0').number == 4
    assert wrong.as_dict()['word'] == 'retired'


def test_refusals_of_splits():
    split = saugrinte.rate(TABLE).split
    assert refused(saugrinte.rate_split, TABLE, split[:6]).number == 7
    assert refused(saugrinte.rate_split, TABLE, split * 3).number == 7
    assert '27 records' in str(refused(saugrinte.rate_split, TABLE, split * 3))
    moved = [saugrinte.Record(r.system, r.component, r.parts + (n == 0)) for n, r in enumerate(split)]
    assert refused(saugrinte.rate_split, TABLE, moved).number == 8
    assert refused(saugrinte.write_sheet, TABLE, split[:4]).number == 1


def test_the_precision_of_decimal_plays_no_part():
    exact = Decimal('97.07970000000000000000000000000000001')
    for precision in (1, 4, 28):
        with localcontext() as context:
            context.prec, context.traps[Inexact], context.traps[Rounded] = precision, True, True
            rating = saugrinte.rate(TABLE)
            assert (rating.units, str(rating.number), str(rating.spread)) == (910787384, '91.0787384', '0.0369794')
            for amount in (exact, str(exact)):
                with pytest.raises(saugrinte.AmountError):
                    saugrinte.rate({**TABLE, 'methane': amount})
            assert refused(saugrinte.rate, {**TABLE, 'ethane': '0.0099'}).amount == Decimal('0.0099')


@pytest.mark.parametrize('analysis', [None, [], 'methane', 5, {None: 1}, {5: 1}, {b'methane': 1}, {'butane': 1}])
def test_analyses_that_are_none(analysis):
    for call in (saugrinte.rate, saugrinte.rate_moles, saugrinte.write_sheet, saugrinte.convert):
        with pytest.raises(saugrinte.AmountError):
            call(analysis)


def test_figures_never_wrap():
    split = saugrinte.rate(TABLE).split
    first, rest = split[0], list(split[1:])
    for wrong in (Record(first.system, first.component, first.parts + 2 ** 32),
                  Record(260, first.component, first.parts), Record(-252, first.component, first.parts),
                  Record(4, 'code 257', first.parts), Record(4, 'code x', 1), Record(4, 'methane', -1),
                  Record(4, 'methane', 1.0), Record(4, None, 1), ('4', 'methane', 1), None):
        for call in (saugrinte.rate_split, saugrinte.write_sheet):
            with pytest.raises(saugrinte.AmountError):
                call(TABLE, [wrong, *rest])
    for wrong in ({'4': {}}, {260: {'methane': 1}}, {4: None}, 5, {4: {'xenon': 1}}):
        with pytest.raises(saugrinte.AmountError):
            saugrinte.rate_split(TABLE, wrong)
    for wrong in (-1, 2.5, None, '4000', True):
        with pytest.raises(saugrinte.AmountError):
            saugrinte.rate(TABLE, allowance=wrong)
    assert saugrinte.rate(TABLE, allowance=2 ** 32) == saugrinte.rate(TABLE)


def test_partial_numbers():
    assert saugrinte.partial_number(20, {'CH4': 100}) == Decimal('100.0003')
    by_place = saugrinte.partial_number(8, ['90', '6', '4'])
    assert by_place == saugrinte.partial_number(8, {'butane': 4, 'C1': 90, 'ethane': '6'})
    assert saugrinte.partial_number(14, {'CO': 60, 'H2': 40}) == saugrinte.partial_number(14, [60, 40])
    for system, wrong in ((4, '100'), (4, {'methane': 90, 'CH4': 5}), (4, {'nitrogen': 5}), (4, [1, 2, 3, 4]),
                          ('4', [1]), (4.0, [1]), (None, [1]), (-1, [1]), (2 ** 32, [1]), (4, None)):
        with pytest.raises(saugrinte.AmountError):
            saugrinte.partial_number(system, wrong)


@given(gases(hydrogen=True))
def test_a_found_split_put_back(analysis):
    named = amounts.by_name(analysis)
    try:
        found = saugrinte.rate(named)
    except saugrinte.Refused as wrong:
        assert wrong.number == 11
        return
    for split in (found, found.split, {s.system: {name: amounts.in_unit(parts) for name, parts in s.components.items()}
                                       for s in found.systems}):
        put = saugrinte.rate_split(named, split)
        assert (put.units, put.spread_units, put.rounds, put.split) == (found.units, found.spread_units, 0, found.split)
    sheet = saugrinte.write_sheet(named, found)
    assert saugrinte.read_sheet(sheet) == saugrinte.Sheet(named, found.split)
    assert saugrinte.rate_sheet(sheet).units == found.units
    assert saugrinte.rate_sheet(saugrinte.write_sheet(named)) == found
    numbers = [share.units for share in found.systems]
    assert max(numbers) - min(numbers) == found.spread_units


@given(gases())
def test_moles(analysis):
    named = amounts.by_name(analysis)
    made = saugrinte.convert(named)
    assert set(made) == set(named)
    try:
        found = saugrinte.rate_moles(named)
    except saugrinte.Refused as wrong:
        assert wrong.number == 11
        return
    assert found.moles and saugrinte.rate_moles_split(named, found).units == found.units


@given(gases(hydrogen=True))
def test_text_to_analysis_and_back(analysis):
    sheet = saugrinte.write_sheet(amounts.by_name(analysis))
    text = lines.lines(sheet)
    assert lines.of_lines(text) == sheet
    assert saugrinte.read_sheet(lines.of_lines(text)).analysis == amounts.by_name(analysis)
    assert amounts.by_code(amounts.by_name(analysis, 'fraction'), 'fraction') == analysis


def test_tables_are_the_headers():
    with open(os.path.join(ROOT, 'include', 'saugrinte.h'), encoding='utf-8') as file:
        header = file.read()
    rows = re.findall(r'(?m)^ +(\d+)  ((?:[a-z ]+ \d+\.\.\d+ *){3})$', header)
    systems = {int(number): tuple(name.strip().replace(' ', '-') for name in re.findall(r'([a-z][a-z ]*) \d', names)
                                  if name.strip() != 'none') for number, names in rows}
    assert systems == ratings.SYSTEMS
    codes = dict(re.findall(r'SAUGRINTE_([A-Z0-9_]+) = (\d+),? +/\* \d+\.\.\d+ parts', header))
    assert sorted(map(int, codes.values())) == sorted(library.ranges().amounts) == sorted(gas.BY_CODE)
    sizes = dict(re.findall(r'#define SAUGRINTE_([A-Z]+) (\d+)', header))
    assert (library.CODES, library.RECORDS, library.LONGEST) == tuple(
        int(sizes[name]) for name in ('CODES', 'RECORDS', 'SHEET'))
    assert (gas.PLACES, gas.LONGEST, library.ALLOWANCE) == (library.CODES, library.LONGEST, int(sizes['ROUNDS']))
    assert library.version() == library.dotted(int(sizes['VERSION']))


def test_two_threads_get_their_own_answers():
    other = {**TABLE, 'methane': '96.0797', 'ethane': '2.6658'}
    right = {id(TABLE): saugrinte.rate(TABLE), id(other): saugrinte.rate(other)}
    wrong = []

    def run(analysis):
        for _ in range(300):
            if saugrinte.rate(analysis) != right[id(analysis)]:
                wrong.append(analysis)

    threads = [threading.Thread(target=run, args=(analysis,)) for analysis in (TABLE, other) * 2]
    for thread in threads:
        thread.start()
    for thread in threads:
        thread.join()
    assert not wrong


def test_a_library_that_is_not_there(monkeypatch, tmp_path):
    for content in (None, b'no library'):
        path = tmp_path / 'lib.so'
        if content:
            path.write_bytes(content)
        monkeypatch.setenv('SAUGRINTE_LIBRARY', str(path))
        library.library.cache_clear()
        with pytest.raises(library.Missing):
            library.library()
    monkeypatch.undo()
    library.library.cache_clear()
    assert saugrinte.rate(TABLE).units == 910787384


def test_the_version():
    assert saugrinte.__version__ == saugrinte.version()


def test_the_example_file():
    with open(EXAMPLE, 'rb') as file:
        assert saugrinte.rate_sheet(lines.of_lines(file.read())).units == 910787384
