"""Archives: titles, units, separators, cells, and rows that lie across chunks."""
import csv
import io

import pytest
from gases import TABLE_A1, gases
from hypothesis import given, strategies as st

from saugrinte import archive, gas
from saugrinte.archive import ArchiveError, Options, RowError, amounts_of, layout_of, title_of

NAMES = ['methane', 'ethane', 'propane', 'i-butane', 'n-butane', 'neo-pentane', 'i-pentane', 'n-pentane', 'hexanes+',
         'carbon-dioxide', 'nitrogen', 'hydrogen']


@pytest.mark.parametrize('title, code, unit, basis', [
    ('CH4', 1, None, None), ('Methane [mol%]', 1, 'percent', 'mole'), ('C1 (mol %)', 1, 'percent', 'mole'),
    ('Methane Vol.%', 1, 'percent', 'volume'), ('N2 vol-%', 12, 'percent', 'volume'),
    ('n-C4 [mol/mol]', 5, 'fraction', 'mole'), ('iC5 ppm', 7, 'parts', None),
    ('CO2 [ppmv]', 11, 'parts', 'volume'), ('C6+ %', 10, 'percent', None),
    ('Methane (C1)', 1, None, None), ('C1 (methane) mol %', 1, 'percent', 'mole'),
    ('methane, mol%', 1, 'percent', 'mole'), ('methane_mol%', 1, 'percent', 'mole'), ('code 10', 10, None, None),
    ('15', 15, None, None), ('H2 [vol]', 15, None, 'volume'), ('Ethane fraction', 2, 'fraction', None),
    ('i-Butane [% mol]', 4, 'percent', 'mole'), ('CH₄', 1, None, None)])
def test_titles(title, code, unit, basis):
    read = title_of(title)
    assert (read.kind, read.code, read.unit, read.basis) == ('live', code, unit, basis)


@pytest.mark.parametrize('title, kind', [
    ('date', 'carried'), ('remark', 'carried'), ('', 'carried'), ('Total [%]', 'carried'),
    ('calorific value [MJ/m3]', 'carried'), ('9', 'strange'), ('code 13', 'strange'),
    ('code 14', 'strange'), ('16', 'strange'), ('0', 'strange'),
    ('H2S [ppm]', 'outside'), ('CO', 'outside'), ('Helium [mol%]', 'outside'), ('C7+', 'outside'),
    ('butane', 'ambiguous'), ('C5 [mol%]', 'ambiguous'), ('1000', 'carried')])
def test_other_titles(title, kind):
    assert title_of(title).kind == kind


@pytest.mark.parametrize('title', [
    'CH4 % mol', 'CH4 % vol', 'CH4.mol%', 'CH4 molfrac', 'Methane (C1) [mol%]', 'CH4 ppm mol', 'CH4 [cmol/mol]',
    'CH4 [\u00b5mol/mol]', 'CH4 vpm', 'CH4 [% v/v]'])
def test_more_titles_of_methane(title):
    read = title_of(title)
    assert (read.kind, read.code) == ('live', 1) and read.unit and read.basis


@pytest.mark.parametrize('title', ['C6+ 47/35/17 mol%', 'Hexane Plus mol%', 'C6+', 'Hexanes+ [mol %]'])
def test_more_titles_of_hexanes(title):
    assert title_of(title).code == 10


@pytest.mark.parametrize('title', ['GC1.CH4', 'ST01 C2', 'n-C4 wt%', 'N2+O2', 'C6s [mol%]', 'neo-Pentan mol%', 'C1 raw',
                                   'Methan [Mol-%]', 'Ethan %', 'iso butane raw', 'Total C6+ [mol%]', 'C6+ sum mol%',
                                   'Sum C6+', 'normalised N2 [mol%]', 'i-Pentan', 'Hexan+', 'Butan', '2,2-DMP',
                                   'Heavies', 'Stickstoff'])
def test_a_title_that_looks_like_a_component_is_never_carried_in_silence(title):
    with pytest.raises(ArchiveError) as wrong:
        layout('CH4', title)
    assert '--column' in str(wrong.value) or 'unit' in str(wrong.value)
    assert layout('CH4', title, columns=((title, '-'),)).carried == (1,)


@pytest.mark.parametrize('title', ['methane number', 'Methanzahl', 'Total [%]', 'Sum mol%', 'Wobbe index', 'station',
                                   'density [kg/m3]', 'calorific value', 'unnormalised %', 'Time', 'remark', 'operator',
                                   'hexagon', 'MN', 'first number', 'temperature', 'Total', 'raw sum [%]'])
def test_titles_that_are_carried(title):
    assert layout('CH4', title).carried == (1,)


def test_bare_numbers_are_codes_where_methane_is_one():
    assert layout('1', '2').columns[1].code == 2
    with pytest.raises(ArchiveError) as wrong:
        layout('CH4', '2')
    assert 'code 2' in str(wrong.value)
    assert layout('CH4', '2024').carried == (1,)


def test_no_methane_no_run():
    with pytest.raises(ArchiveError) as wrong:
        layout('C2', 'C3')
    assert "no title is methane's" in str(wrong.value)


@pytest.mark.parametrize('cell', ['20,000', '20.000', '1,234,567', '970.797'])
def test_thousands_are_never_taken_for_decimals(cell):
    with pytest.raises(RowError):
        amounts_of(['900000', cell], layout('CH4', 'C2', unit='parts'))


def test_titles_that_are_errors():
    for title in ('CH4 [kg]', 'N2 (bar)', 'C1 (ethane)'):
        with pytest.raises(ArchiveError):
            title_of(title)


def layout(*titles, **options):
    return layout_of(titles, ';', Options(**{'unit': 'percent', 'basis': 'volume', **options}))


@pytest.mark.parametrize('titles, options, word', [
    (['CH4', 'C2'], {'unit': None}, '--unit'), (['CH4', 'C2'], {'basis': None}, '--basis'),
    (['CH4 [mol%]', 'C2 [vol%]'], {}, 'never added'), (['CH4 [mol%]'], {'basis': 'volume'}, '--basis says volume'),
    (['CH4', 'butane'], {}, 'i-butane or n-butane'), (['CH4', 'methane'], {}, 'both methane'),
    (['date', 'x'], {}, "no title is methane's"), (['CH4'], {'columns': (('C9', 'hexanes+'),)}, "no column 'C9'"),
    (['CH4', 'x'], {'columns': (('x', 'xenon'),)}, 'none of')])
def test_what_must_be_declared(titles, options, word):
    with pytest.raises(ArchiveError) as wrong:
        layout(*titles, **options)
    assert word in str(wrong.value)


def test_columns_as_declared():
    how = layout('CH4', 'C6', 'C7', 'butane', 'x',
                 columns=(('C6', 'hexanes+'), ('C7', 'hexanes+'), ('butane', 'n-butane'), ('CH4', '-'), ('x', 'C1')))
    amounts, _ = amounts_of(['99', '0.1', '0.2', '0.5', '98'], how)
    assert (amounts[1], amounts[10], amounts[5]) == (980000, 3000, 5000)


def test_units_in_the_titles_stand_beside_each_other():
    how = layout('CH4 [vol%]', 'CO2 [ppm]', 'N2', 'C2 fraction')
    amounts, _ = amounts_of(['90', '12', '1,5', '0.01'], how)
    assert (amounts[1], amounts[11], amounts[12], amounts[2]) == (900000, 12, 15000, 10000)


@pytest.mark.parametrize('cell', ['x', '-1', '1.2.3', '1,000.5', 'nan', 'inf', '1 2', '97.07971', '٣', '1e', 'e5', '--',
                                  '.', ',', '"', '9' * 20, '1e40'])
def test_cells_that_cannot_be_read(cell):
    with pytest.raises(RowError) as wrong:
        amounts_of([cell, '1'], layout('CH4', 'C2'))
    assert wrong.value.word == 'unreadable' and wrong.value.detail


@pytest.mark.parametrize('cell, parts', [('', 0), ('0', 0), ('0,0000', 0), (' 97,0797 ', 970797),
                                         ('97.07970', 970797), ('9.7e1', 970000), ('.5', 5000), ('95 %', 950000),
                                         ('+95', 950000),
                                         ('5.', 50000), ('007', 70000), ('n.d.', 0)])
def test_cells_that_are_read(cell, parts):
    assert amounts_of([cell, '1'], layout('CH4', 'C2', absent=('n.d.',)))[0][1] == parts


def test_outside_gases_and_rows_of_another_length():
    how = layout('CH4', 'CO')
    assert amounts_of(['97', '0.00'], how)[0][1] == 970000
    with pytest.raises(RowError) as wrong:
        amounts_of(['97', '0.1'], how)
    assert wrong.value.word == 'outside' and 'carbon-monoxide' in wrong.value.detail
    for cells in (['97'], ['97', '', '']):
        with pytest.raises(RowError):
            amounts_of(cells, how)


def test_strange_codes_are_refused_by_the_library():
    how = layout('1', '9', '13', '14', '16')
    for cells, number in ((['97', '1', '', '', ''], 3), (['97', '', '1', '', ''], 3), (['97', '0', '', '0,1', ''], 2),
                          (['97', '', '', '', '0.0001'], 2)):
        assert archive.strange_code(cells, how).number == number
    assert archive.strange_code(['97', '0', '', '0.0', ''], how) is None


def test_rounding_and_normalising_are_marked():
    how = layout('CH4', 'C2', rounded=True)
    assert amounts_of(['97.07965', '2'], how) == ([0, 970797, 20000] + [0] * 13, 'rounded')
    assert amounts_of(['97.0796', '2'], how)[1] == ''
    how = layout('CH4', 'C2', normalise=True)
    amounts, changed = amounts_of(['50', '1'], how)
    assert sum(amounts) == 1000000 and changed == 'normalised from 51 %'
    assert amounts_of(['98', '2'], how)[1] == '' and amounts_of(['', ''], how) == ([0] * 16, '')


@given(gases(hydrogen=True), st.sampled_from(['percent', 'parts', 'fraction']), st.sampled_from('.,'),
       st.permutations(range(12)))
def test_amounts_to_text_and_back(analysis, unit, point, order):
    codes = [sorted(gas.BY_CODE)[place] for place in order]
    cells = [archive_text(analysis[code], unit, point) for code in codes]
    how = layout(*(gas.BY_CODE[code].short for code in codes), unit=unit)
    assert amounts_of(cells, how) == (analysis, '')


def archive_text(parts, unit, point):
    if parts == 0:
        return ''
    whole = {'percent': 10000, 'parts': 1, 'fraction': 1000000}[unit]
    decimals = len(str(whole)) - 1
    return str(parts) if whole == 1 else '%d%s%0*d' % (parts // whole, point, decimals, parts % whole)


CELLS = st.lists(st.lists(st.text(st.sampled_from('ab;,"\n 1'), max_size=4), min_size=3, max_size=3), max_size=12)


@given(CELLS, st.sampled_from(';,\t'), st.integers(1, 40))
def test_records_lie_across_chunks(tmp_path_factory, rows, separator, size):
    text = io.StringIO()
    csv.writer(text, delimiter=separator, lineterminator='\n').writerows(rows)
    path = tmp_path_factory.mktemp('a') / 'a.csv'
    path.write_bytes(b'CH4\n' + text.getvalue().encode())
    how = layout_of(['CH4'], separator, Options(unit='percent', basis='volume'))
    opened = archive.Archive(str(path), how, b'CH4', 4, 2, path.stat().st_size, ())
    found, chunk_lines = [], 2
    for chunk in archive.chunks(opened, size):
        assert chunk.line == chunk_lines
        chunk_lines += chunk.data.count(b'\n')
        for _, raw in archive.records(chunk.data.decode(), separator):
            found.append(archive.cells_of(raw, separator))
    assert found == rows


def test_a_quote_that_is_not_closed_spoils_its_own_row_alone():
    text = '1;"a\n' + ''.join('%d;b\n' % n for n in range(2, 200))
    found = [raw for _, raw in archive.records(text, ';')]
    assert len(found) == 199 and found[0] == '1;"a' and found[-1] == '199;b'


@pytest.mark.parametrize('content, word', [(b'', 'no titles'), (b'\n\n', 'no titles'),
                                           ('CH4;C2\n'.encode('utf-16'), 'UTF-16'), (b'CH4\rC2', 'carriage return'),
                                           (b'"CH4;C2\n', 'not closed'),
                                           (b'CH4;C2,C3;x,N2\n', '--separator')])
def test_files_that_are_no_archives(tmp_path, content, word):
    path = tmp_path / 'a.csv'
    path.write_bytes(content)
    with pytest.raises(ArchiveError) as wrong:
        archive.open_archive(str(path), Options(unit='percent', basis='volume'))
    assert word in str(wrong.value)


@pytest.mark.parametrize('content, separator, comma', [
    (b'CH4;C2\n97,1;2\n', ';', True), (b'CH4,C2\n97.1,2\n', ',', False), (b'CH4\tC2\n"97,1"\t2\n', '\t', True),
    (b'\xef\xbb\xbfCH4;C2\r\n97.1;2,1\r\n', ';', False), (b'date;C1, mol%;C2, mol%\nx;1;2', ';', False),
    (b'CH4', ',', False)])
def test_separators_and_decimal_signs(tmp_path, content, separator, comma):
    path = tmp_path / 'a.csv'
    path.write_bytes(content)
    how = archive.open_archive(str(path), Options(unit='percent', basis=None if b'mol' in content else 'volume')).layout
    assert (how.separator, how.comma) == (separator, comma)


def test_figures_beside_normalised_amounts_are_declared(tmp_path):
    path = tmp_path / 'a.csv'
    path.write_text('date;C1 [vol%];C2 [vol%];x\n2024-01-01;97;2;0,5\n')
    assert archive.open_archive(str(path), Options()).layout.carried == (0, 3)
    with pytest.raises(ArchiveError) as wrong:
        archive.open_archive(str(path), Options(normalise=True))
    assert "column 'x'" in str(wrong.value)
    assert archive.open_archive(str(path), Options(normalise=True, columns=(('x', '-'),))).layout.carried == (0, 3)


def test_table_a1_in_every_form(tmp_path):
    for separator, point in ((';', ','), (';', '.'), (',', '.'), ('\t', ',')):
        path = tmp_path / 'a.csv'
        codes = sorted(gas.BY_CODE)
        path.write_text(separator.join(gas.BY_CODE[c].short + ' [vol%]' for c in codes) + '\n'
                        + separator.join(archive_text(TABLE_A1[c], 'percent', point) for c in codes) + '\n')
        opened = archive.open_archive(str(path), Options())
        (chunk,) = archive.chunks(opened)
        ((_, raw),) = archive.records(chunk.data.decode(), separator)
        assert amounts_of(archive.cells_of(raw, separator), opened.layout) == (TABLE_A1, '')
