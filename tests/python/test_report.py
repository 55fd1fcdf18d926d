"""Reports: pages are well formed and stand alone, the same input gives the same bytes, every figure is the library's,
what others wrote is escaped, and a long archive makes a short page."""
import io
import os
import threading
import time
from decimal import Decimal

import matplotlib
import pytest
from click.testing import CliRunner
from gases import EXAMPLE, ROOT, TABLE_A1, command, gases
from hypothesis import given, settings, strategies as st
from pages import Page

import saugrinte
from saugrinte import amounts, archive, batch, gas, library, lines, pictures, report
from saugrinte.command import answer_to as rated_by_command
from saugrinte.ratings import Rating, Refused, rate_parts

TABLE = amounts.by_name(TABLE_A1)
EVIL = '<script>alert("1")</script> \'&amp; $x^2$ \u4e2d --> ]]>'
TITLES = ';'.join(('time', *batch.ADDED))


def example(name):
    with open(os.path.join(ROOT, 'examples', name), 'rb') as file:
        return file.read()


def page_of(data, moles=False, plate=None, title='gas'):
    given_amounts, answer = report.answer_to(data, moles)
    return Page(report.gas_page(given_amounts, answer, moles=moles, title=title, plate=plate))


# ------------------------------------------------------------ a gas

def test_figures_are_the_librarys():
    rating = saugrinte.rate(TABLE)
    page = Page(report.gas_page(TABLE, rating, plate=80))
    assert '91.0787' in page.text and '91.0787384' in page.text and 'ample by 11.0787' in page.text
    assert [row[1:] for row in page.table('Partial numbers')[1:]] == [
        [str(s.percent), str(s.partial_number), format(s.partial_number - min(
            other.partial_number for other in rating.systems), 'f')] for s in rating.systems]
    assert page.table('Split by system and component, in percent of the simplified mixture')[1] == [
        'system 4', '31.0026', '0.8402', '0.1219', '\u2013', '31.9647']
    assert [row[2] for row in page.table('Amounts in percent by volume')[1:]] == [
        *(str(amount) for amount in TABLE.values()), '99.9999']
    assert len(page.pictures) == 4 and all(picture.attrib['role'] == 'img' for picture in page.pictures)
    assert 'system 7 91.0527' in page.alts[2] and 'The rating 91.0787 lies 0.0261 above the band' in page.alts[2]


def test_effects_are_ratings_of_changed_gases():
    number = rate_parts(TABLE_A1).units
    found = {effect.component: effect for effect in pictures.effects(TABLE_A1)}
    assert set(found) == {c.name for c in gas.COMPONENTS} - {'methane'}
    for name, effect in found.items():
        changed = {**TABLE, name: TABLE.get(name, 0) + amounts.in_unit(effect.parts)}
        changed['methane'] -= amounts.in_unit(effect.parts)
        assert effect.units == saugrinte.rate(changed).units - number
        assert effect.present == (name in TABLE)
    greatest = library.ranges().amounts[6][1]
    assert found['neo-pentane'].parts == greatest - TABLE_A1[6] and found['ethane'].parts == pictures.STEP
    changes = [effect.units for effect in pictures.effects(TABLE_A1)]
    assert changes == sorted(changes, reverse=True)


def test_effects_where_the_library_refuses():
    refused = [effect for effect in pictures.effects(TABLE_A1, moles=True) if effect.refused]
    assert [(effect.component, effect.refused.number) for effect in refused] == [('hydrogen', 18)]
    full = list(TABLE_A1)
    full[6] = library.ranges().amounts[6][1]
    full[1] -= full[6] - TABLE_A1[6]
    effect = next(effect for effect in pictures.effects(full) if effect.component == 'neo-pentane')
    assert effect.units is None and effect.refused.number == 5 and effect.refused.component == 'neo-pentane'
    assert 'neo-pentane refused 5' in Page(report.gas_page(amounts.by_name(full), rate_parts(full))).alts[3]
    with pytest.raises(Refused):
        pictures.effects([0] * 16)


@pytest.mark.parametrize('units, plate, said', [
    (910787384, 80, 'ample by 11.0787'), (910787384, 92, 'short by 0.9213'),
    (800000000, 80, 'ample by 0.0000'),
    (796000000, 80, 'short by 0.4000 (the whole number 80 meets the plate)'), (800000001, 80, 'ample by 0.0000001'),
    (-10000000, 0, 'short by 1.0000'), (794999999, 80, 'short by 0.5000')])
def test_verdicts(units, plate, said):
    rating = Rating(units, 0, 0, ())
    page = Page(pictures.number_picture(rating, plate))
    assert pictures.verdict(rating, plate) == said and said in page.alts[0]
    (line, same), (mark, _) = page.ends('number-plate'), *page.marks('number-mark')
    assert line == same and (mark < line) == (units < plate * 10 ** 7 - 10)
    assert not Page(pictures.number_picture(rating)).part('number-plate')


def test_pictures_have_what_their_words_say():
    rating, found = saugrinte.rate(TABLE), pictures.effects(TABLE_A1)
    page = Page(report.gas_page(TABLE, rating, plate=80))
    marks = {s.units: page.marks('partial-system-%d' % s.system) for s in rating.systems}
    assert all(len(mark) == 1 for mark in marks.values())
    left, right = page.ends('partial-limit')
    for units, [(x, _)] in marks.items():
        assert x == pytest.approx(left + (units - min(marks)) / gas.SPREAD_LIMIT * (right - left), abs=0.01)
    bars = {effect.component: page.ends('effects-' + effect.component) for effect in found}
    scale = (bars['hexanes+'][1] - bars['hexanes+'][0]) / next(-e.units for e in found if e.component == 'hexanes+')
    for effect in found:
        left, right = bars[effect.component]
        assert right - left == pytest.approx(abs(effect.units) * scale, abs=0.01)
        assert (left if effect.units > 0 else right) == pytest.approx(bars['hexanes+'][1], abs=0.01)


def test_moles():
    page = page_of(example('moles.txt'), moles=True, plate=92)
    assert '91.0833' in page.text and 'volumes made from moles' in page.text and 'short by 0.9167' in page.text
    made = saugrinte.convert(amounts.by_name(amounts.by_code(report.answer_to(example('moles.txt'), True)[0])))
    assert [row[3] for row in page.table('Amounts in mole percent')[1:-1]] == [str(amount) for amount in made.values()]
    assert 'hydrogen (absent) refused 18' in page.alts[3] and 'Refused, hydrogen: 18' in page.text


@pytest.mark.parametrize('name, moles', [('table-a1.txt', False), ('moles.txt', True)])
def test_lines_are_read_once(monkeypatch, name, moles):
    calls, read = [], lines.read
    monkeypatch.setattr(lines, 'read', lambda *given, **how: calls.append(given) or read(*given, **how))
    assert report.answer_to(example(name), moles)[1] == rated_by_command(example(name), moles)
    assert len(calls) == 2


@pytest.mark.parametrize('name, number', [('hydrogen.txt', '75.6142'), ('biomethane.txt', '100.5097')])
def test_other_examples(name, number):
    assert number in page_of(example(name)).text


def test_a_proposed_split():
    rating = saugrinte.rate(TABLE)
    text = example('table-a1.txt').decode() + ''.join(
        'split %d %s %s\n' % (r.system, r.component, r.percent) for r in rating.split)
    page = page_of(text.encode())
    assert '91.0787' in page.text and 'rounds of the search 0' in page.text
    moved = text.replace('split 4 methane 31.0026', 'split 4 methane 31.0036').replace(
        'split 8 methane 46.7721', 'split 8 methane 46.7711')
    assert 'Changes are from the number that the search finds, 91.0787.' in page_of(moved.encode()).text


@pytest.mark.parametrize('data, moles, said', [
    (b'methane 97\nethane 0.0099\n', False, ['Refused 5: out of range', 'ethane 0.0099 % is outside 0.01 to 15 %',
                                            'range 0.0100 to 15.0000 %']),
    (b'methane 97\nethane 1\n', False, ['Refused 6: total', 'total 98.0000 %', 'range 99.9900 to 100.0100 %']),
    (b'methane 99\nnitrogen 1\n', False, ['Refused 16: too few']),
    (b'methane 95\nhydrogen 5\n', True, ['Refused 18: hydrogen in moles', 'amount 5.0000 mol %']),
    (b'ethane 15\n', False, ['Refused 5', 'methane is absent', 'component methane', 'amount 0.0000 %']),
    (b'\1', False, ['Refused 1: torn', 'at least 6 bytes are missing']),
    (b'\1\x09\0\0\0\1\0', False, ['Refused 3: retired', 'record number 1'])])
def test_refusals(data, moles, said):
    page = page_of(data, moles, plate=80)
    for text in said:
        assert text in page.text
    assert not page.pictures and 'no methane number' in page.text


@pytest.mark.parametrize('moles, said', [
    (False, 'pentanes, hexanes+ or hydrogen must be there too'), (True, 'pentanes or hexanes+ must be there too')])
def test_a_refusal_says_one_thing(moles, said):
    text = page_of(b'methane 99\nnitrogen 1\n', moles).text
    assert text.count(said) == 2 and ('hydrogen' in text) != moles
    row = '\nx;;;;;16;too few;methane stands alone%s' % (gas.MADE if moles else '')
    assert archive_page(TITLES + row).table('Refused rows')[1][3].endswith(said)


def test_a_proposed_split_of_moles():
    rating = saugrinte.rate_moles(report.answer_to(example('moles.txt'), True)[0])
    text = example('moles.txt').decode() + ''.join(
        '\nsplit %d %s %s' % (r.system, r.component, r.percent) for r in rating.split)
    assert 'rounds of the search 0' in page_of(text.encode(), moles=True).text


def test_what_others_wrote_is_escaped():
    page = page_of(example('table-a1.txt'), title=EVIL)
    assert EVIL.split(' $')[0] in page.text and '<script' not in page.html


@settings(max_examples=6)
@given(gases(hydrogen=True), st.one_of(st.none(), st.integers(0, 120)))
def test_any_gas_has_a_page(analysis, plate):
    try:
        answer = rate_parts(analysis)
    except Refused as refused:
        answer = refused
    page = Page(report.gas_page(amounts.by_name(analysis), answer, plate=plate))
    assert ('Refused' in page.text) == isinstance(answer, Refused)
    assert isinstance(answer, Refused) or str(answer.number) in page.text
    assert len(page.html) < 400000


def test_the_same_input_gives_the_same_bytes():
    rating, settings_before = saugrinte.rate(TABLE), dict(matplotlib.rcParams)
    drawn, found = [], pictures.effects(TABLE_A1)
    draw = [lambda: drawn.append(pictures.partial_picture(rating)),
            lambda: drawn.append(pictures.effects_picture(found))]
    threads = [threading.Thread(target=one) for one in draw * 3]
    for thread in threads:
        thread.start()
    for thread in threads:
        thread.join()
    assert sorted(map(drawn.count, drawn)) == [3] * 6 and dict(matplotlib.rcParams) == settings_before
    here = report.gas_page(TABLE, rating, plate=80, title='t')
    assert all(picture in here for picture in drawn)
    assert command('report', EXAMPLE, '-o', '-', '--plate', '80', '--title', 't') == (0, here, '')


def test_settings_of_others_change_nothing():
    plain = pictures.split_picture(saugrinte.rate(TABLE))
    with matplotlib.rc_context({'font.size': 30, 'svg.fonttype': 'none', 'axes.facecolor': 'black'}):
        assert pictures.split_picture(saugrinte.rate(TABLE)) == plain


# ------------------------------------------------------------ archives

def archive_page(text, **how):
    return Page(report.archive_page(io.BytesIO(text.encode('utf-8', 'surrogateescape')), **how))


def rated_rows(count, start='2024-01-01T00:00:00'):
    """Rows of a rated archive: every tenth refused, every twentieth unreadable."""
    minute = time.mktime(time.strptime(start, '%Y-%m-%dT%H:%M:%S'))
    for n in range(count):
        when = time.strftime('%Y-%m-%dT%H:%M:%S', time.localtime(minute + 60 * n))
        if n % 10 == 9:
            yield when + ';;;;;5;out of range;ethane' if n % 20 == 9 else when + ';;;;;;unreadable;what'
        else:
            yield '%s;%d,%07d;%d;0,0300000;5;;;' % (when, 70 + n % 21, n % 10000000, 70 + n % 21)


def test_an_archive_that_batch_rated(tmp_path):
    raw, out = tmp_path / 'a.csv', tmp_path / 'rated.csv'
    rows = ['when\tnote\tCH4 [vol%]\tC2H6 [vol%]\tH2S [vol%]', '2024-01-01 00:00\t"a\nb"\t95\t5\t',
            '2024-01-01 01:00\t%s\t90\t10\t' % EVIL, '2024-01-01 02:00\tx\t80\t20\t', '2024-01-01 03:00\tx\t80\tn/a\t',
            '2024-01-01 04:00\tx\t95\t4\t1', '2024-01-01 05:00\tx\t94\t5\t']
    raw.write_text('\n'.join(rows) + '\n', encoding='utf-8')
    assert command('batch', raw, '-o', out)[0] == 0
    page = Page(report.archive_page(str(out), time_column='when', plate=80))
    numbers = [saugrinte.rate({'methane': m, 'ethane': e}).number for m, e in ((95, 5), (90, 10))]
    assert page.table('Rows') == [['', 'rows', '% of all'], ['rows', '6', '100.00'], ['rated', '2', '33.33'],
                                  ['refused', '2', '33.33'], ['unreadable', '2', '33.33'],
                                  ['below plate 80', str(sum(n < 80 for n in numbers)), '%.2f' % (
                                      sum(n < 80 for n in numbers) / 6 * 100)]]
    assert page.table('Refused rows')[1:] == [[str(n), *gas.REFUSALS[n][:1], '1', gas.REFUSALS[n][1]] for n in (5, 6)]
    assert page.table('Unreadable rows')[1:] == [['outside', '1'], ['unreadable', '1']]
    mean = (sum(numbers) / 2).quantize(Decimal('0.0000001'))
    assert page.table('Methane numbers')[1] == [str(min(numbers)), str(mean), str(max(numbers))]
    assert 'over time: 2 rows rated' in page.alts[0] and '2 refused, 2 unreadable' in page.alts[0]
    assert Page(report.archive_page(out)).alts[0].startswith('Methane number by row')


def test_lines_before_titles_and_titles_of_two_lines(tmp_path):
    raw, out, html = tmp_path / 'a.csv', tmp_path / 'rated.csv', tmp_path / 'a.html'
    for name, separator in archive.SEPARATORS.items():
        rows = [('Station: "A',), ('',), ('"gas\r\ntime"', '"CH4\r\n[vol%]"', 'C2H6 [vol%]', 'a;b\tc,d'),
                ('2024-01-01', '95', '5', 'x'), ('2024-01-02', '80', '20', 'y')]
        rows = [[cell.replace(separator, '') for cell in row] for row in rows]
        raw.write_bytes(b''.join(separator.join(row).encode() + b'\r\n' for row in rows))
        assert command('batch', raw, '-o', out, '--skip', '1', '--force', '--separator', name)[0] == 0
        assert run(out, '-o', html, '--skip', '1', '--time', 'gas time') == (0, '')
        page = Page(html.read_text(encoding='utf-8'))
        assert [row[1] for row in page.table('Rows')[1:]] == ['2', '1', '1', '0']
        assert Page(report.archive_page(out, skip=1)).table('Rows') == page.table('Rows')
        for skip in (0, 3):
            status, said = run(out, '-o', html, '--skip', skip)
            assert status == 1 and 'stand after 1 line (--skip 1)' in said
        with pytest.raises(ValueError, match='stand after 1 line'):
            report.archive_page(out)


def test_titles_as_long_as_batch_takes_them(tmp_path):
    raw, out = tmp_path / 'a.csv', tmp_path / 'rated.csv'
    titles = b'%s;CH4 [vol%%];C2H6 [vol%%]' % (b'x' * (archive.PEEKED - 30))
    raw.write_bytes(titles + b'\nx;95;5\n')
    assert command('batch', raw, '-o', out)[0] == 0
    assert 'by row: 1 row rated' in Page(report.archive_page(out)).alts[0]


def test_a_row_that_cannot_be_told_apart_is_unreadable():
    rows = list(rated_rows(30))
    bad = '"%s";;;;;;unreadable;x' % ('long ' * 40000)
    rows = [TITLES, *rows[:15], bad, *rows[15:], 'x\0\1"y;;;;;;unreadable;']
    page = archive_page('\n'.join(rows), time_column='time')
    assert [row[1] for row in page.table('Rows')[1:]] == ['32', '27', '2', '3']
    assert '2 rows have no time' in page.text and page.table('Unreadable rows')[1:] == [['unreadable', '3']]


@given(gases(hydrogen=True))
def test_no_sheet_is_an_archive(analysis):
    for sheet in (lines.sheet({code: parts for code, parts in enumerate(analysis) if parts}, []),
                  lines.sheet({1: 996638, 2: 3362}, [])):
        assert not report.rated_archive(sheet) and not report.is_table(sheet)
        assert not report.rated_archive(sheet + TITLES.encode()) and not report.is_table(b'\0;' + TITLES.encode())


def test_marks_of_rows():
    rows = [TITLES, *rated_rows(100)]
    page = archive_page('\n'.join(rows), time_column='time', plate=80)
    numbers = page.marks('archive-numbers')
    assert len(numbers) == 90 and len(page.marks('archive-refused')) == len(page.marks('archive-unreadable')) == 5
    (_, level), (_, same) = page.points('archive-plate')
    below = [x for x, y in numbers if y > level + 0.01]
    assert level == same and [x for x, _ in page.marks('archive-below')] == pytest.approx(sorted(below), abs=0.01)
    assert [x for x, _ in page.marks('archive-refused')] == sorted(x for x, _ in page.marks('archive-refused'))
    bare = archive_page('\n'.join([TITLES, *rows[1:10]]))
    assert not any(bare.part('archive-' + name) for name in ('plate', 'below', 'refused', 'unreadable'))
    many = archive_page('\n'.join([TITLES, *rated_rows(2000)]), plate=80)
    assert many.part('archive-band') and many.points('archive-mean') and many.points('archive-plate')


def test_few_rows_and_many():
    few = archive_page(TITLES + '\n' + '\n'.join(rated_rows(100)) + '\n', time_column='time', plate=80)
    below = sum(70 + n % 21 < 80 for n in range(100) if n % 10 != 9)
    assert few.table('Rows')[1:] == [['rows', '100', '100.00'], ['rated', '90', '90.00'], ['refused', '5', '5.00'],
                                     ['unreadable', '5', '5.00'], ['below plate 80', str(below), '%.2f' % below]]
    began = time.monotonic()
    many = archive_page(TITLES + '\n' + '\n'.join(rated_rows(200000)) + '\n', time_column='time', plate=80)
    assert time.monotonic() - began < 20
    assert many.table('Rows')[2:5] == [['rated', '180000', '90.00'], ['refused', '10000', '5.00'],
                                       ['unreadable', '10000', '5.00']]
    assert len(many.html) < 400000 and 'the band from the least to the greatest' in many.text
    assert 'each rated row' in few.text


@pytest.mark.parametrize('rows', [[], ['x;;;;;;unreadable;'], ['x;80.0;80;0;1;;;'], ['x;;;;;5;out of range;x'] * 3])
def test_archives_with_next_to_nothing(rows):
    page = archive_page('\n'.join([TITLES, *rows]), plate=70)
    assert page.table('Rows')[1][1] == str(len(rows)) and len(page.pictures) == 1


def test_separators_quotes_and_strange_cells():
    for separator in archive.SEPARATORS.values():
        evil = EVIL.replace(';', '').replace(',', '')
        rows = [('note', *batch.ADDED), ('"a%s ""b""\n c"' % separator, '80.5', '81', '0.01', '3', '', '', ''), (),
                ('x', '', '', '', '', '5', evil, ''), ('short',), ('\udcff', 'NaN', '', '', '', '', '', ''),
                ('"open', '80')]
        page = archive_page('\ufeff' + ''.join(separator.join(row) + '\r\n' for row in rows), title=EVIL)
        assert [row[1] for row in page.table('Rows')[1:]] == ['5', '1', '1', '3']
        assert '<script' not in page.html and '<script' in page.table('Refused rows')[1][1]


@pytest.mark.parametrize('text, seconds', [
    ('1970-01-02', 86400), ('1970-01-01T00:01:00Z', 60), ('1970-01-01 01:00:00+01:00', 0),
    ('1970-01-01 00:00:01.5', 1.5), ('02.01.1970', 86400), ('01.01.1970 00:02', 120), ('1970/01/02 00:00:01', 86401),
    ('1/2/1970', None), ('', None), ('yesterday', None), (' 1970-01-01 00:01 ', 60)])
def test_times(text, seconds):
    clock = report.Clock()
    assert clock.seconds(text) == clock.seconds(text) == seconds


def test_times_that_cannot_be_read():
    rows = TITLES + '\n2024-01-01;80;80;0;1;;;\nlater;81;81;0;1;;;\n2023-01-01;82;82;0;1;;;\n'
    assert '1 row has no time' in archive_page(rows, time_column='time').text
    with pytest.raises(ValueError, match="there is no column 'Zeit'; there are 'time'"):
        archive_page(rows, time_column='Zeit')
    with pytest.raises(ValueError, match="no time in column 'word' can be read"):
        archive_page(rows, time_column='word')


@settings(max_examples=40)
@given(st.lists(st.tuples(st.floats(-1e9, 1e10), st.sampled_from(['rated', 'refused', 'unreadable']),
                          st.floats(-50, 150)), max_size=300), st.integers(0, 3))
def test_bins_lose_nothing(rows, times):
    history, rows = pictures.History(), rows * 3 ** times
    for place, kind, number in rows:
        if kind == 'rated':
            history.rated(place, number, number < 50)
        else:
            getattr(history, kind)(place)
    numbers = [number for _, kind, number in rows if kind == 'rated']
    assert len(history.bins) <= pictures.MOST_BINS
    assert [history.count(kind) for kind in ('rows', 'rated', 'refused', 'unreadable', 'below')] == [
        len(rows), len(numbers), *(sum(kind == other for _, other, _ in rows) for kind in ('refused', 'unreadable')),
        sum(number < 50 for number in numbers)]
    rated = [one for one in history.ordered() if one.rated]
    if numbers:
        assert min(one.least for one in rated) == min(numbers) and max(one.greatest for one in rated) == max(numbers)
    assert (history.points is None) == (len(numbers) > pictures.MOST_POINTS)


# ------------------------------------------------------------ the command

def run(*arguments):
    """The command within this process: its status and what it said."""
    done = CliRunner().invoke(report.command, [str(argument) for argument in arguments])
    assert done.exception is None or isinstance(done.exception, SystemExit)
    return done.exit_code, done.output


def test_the_command(tmp_path):
    out = tmp_path / 'report.html'
    out.write_text('old')
    (tmp_path / 'sheet').write_bytes(saugrinte.write_sheet(TABLE))
    assert run(tmp_path / 'sheet', '-o', out, '--plate', '80') == (0, '')
    page = Page(out.read_text(encoding='utf-8'))
    assert '91.0787' in page.text and '<h1>sheet</h1>' in page.html
    assert sorted(os.listdir(tmp_path)) == ['report.html', 'sheet']
    (tmp_path / 'rated.csv').write_text(TITLES + '\n' + '\n'.join(rated_rows(30)))
    assert run(tmp_path / 'rated.csv', '-o', out, '--time', 'time', '--title', 'Week 1') == (0, '')
    assert '<h1>Week 1</h1>' in out.read_text(encoding='utf-8')
    with open(EXAMPLE, 'rb') as file:
        status, page, _ = command('report', '-', '-o', '-', stdin=file)
    assert status == 0 and '<h1>standard input</h1>' in Page(page).html
    sheet = saugrinte.write_sheet({'methane': '99.6638', 'ethane': '0.3362'})
    (tmp_path / 'sheet').write_bytes(sheet)
    assert b'\r"' in sheet and run(tmp_path / 'sheet', '-o', out, '--plate', '150') == (0, '')
    assert '97.5251' in Page(out.read_text(encoding='utf-8')).text


@pytest.mark.parametrize('text, options, said', [
    ('time;CH4 [vol%];C2H6 [vol%]\n1;95;5\n', [], 'run `saugrinte batch` on it first'),
    ('a,b,c,d,e\n1,2,3,4,5\n', [], 'run `saugrinte batch` on it first'),
    ('methane 97\nethan 3\n', [], "line 2: 'ethan' is none of methane"),
    ('methane 97\nethane 3\n', ['--time', 'x'], 'a gas has no column of times'),
    (TITLES + '\n', ['--moles'], 'this is a rated archive'),
    (TITLES + '\nx;80;80;0;1;;;\n', ['--time', 'Zeit'], "there is no column 'Zeit'"),
    ('methane 97 vol %\nethane 3\n', ['--moles'], 'amounts are mole percent here'),
    ('methane 97\nethane 3\n', ['--skip', '1'], 'a gas has no titles'),
    *(('methane 97\nethane 3\n', ['--plate', plate], "'%s' is not a whole number from 0 to 150" % plate)
      for plate in ('80.5', '151', '-1', '', '1000', 'x'))])
def test_what_the_command_turns_away(tmp_path, text, options, said):
    given_file, out = tmp_path / 'file', tmp_path / 'report.html'
    given_file.write_text(text)
    out.write_text('old')
    status, shown = run(given_file, '-o', out, *options)
    assert status and said in shown
    assert out.read_text() == 'old' and len(os.listdir(tmp_path)) == 2


def test_files_that_cannot_be_written(tmp_path):
    poor = tmp_path / 'poor.txt'
    poor.write_text('methane 97\n')
    status, said = run(poor, '-o', tmp_path / 'none' / 'report.html')
    assert status == 1 and 'there is no folder' in said
    assert run(poor, '-o', os.devnull)[0] == 0 and not os.path.isfile(os.devnull)


def test_times_are_found_by_their_title(tmp_path):
    """A column that says date or time and has one is taken, and the caption names it; another is not."""
    rated = tmp_path / 'rated.csv'
    for title, cell, said in (('Date', '2024-01-08', "over the times of column &#x27;Date&#x27;"),
                              ('sample time', '08.01.2024 12:00', 'column &#x27;sample time&#x27;'),
                              ('Date', 'monday', 'row by row'), ('estimate', '2024-01-08', 'row by row')):
        rated.write_text('%s;methane_number;whole_number;spread;rounds;refusal;word;detail\n%s;80,1;80;0,01;3;;;\n'
                         % (title, cell))
        assert said in report.archive_page(rated)
