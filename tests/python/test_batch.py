"""The command batch: each row has the answer of a single rating, whatever the archive's form; a run that was killed
leaves whole files and is gone on with; a cluster gives the same bytes."""
import csv
import os
import shutil
import signal
import subprocess
import sys
import time

import pytest
from gases import ENVIRONMENT, TABLE_A1, command, gases
from hypothesis import given, settings, strategies as st

import saugrinte
from saugrinte import amounts, batch, gas
from saugrinte.archive import Options, open_archive

CODES = sorted(gas.BY_CODE)


def cell(parts, comma=False):
    return ('%d.%04d' % divmod(parts, 10000)).replace('.', ',' if comma else '.') if parts else ''


def table(path, analyses, separator=';', comma=True, basis='vol', newline='\n'):
    """An archive with a number, the amounts and a remark in each row."""
    rows = [['row'] + ['%s [%s%%]' % (gas.BY_CODE[code].short, basis) for code in CODES] + ['remark']]
    rows += [[str(n)] + [cell(analysis[code], comma) for code in CODES] + ['r"%d' % n]
             for n, analysis in enumerate(analyses)]
    with open(path, 'w', newline='', encoding='utf-8') as file:
        csv.writer(file, delimiter=separator, lineterminator=newline).writerows(rows)


def rated(path, separator=';'):
    with open(path, newline='', encoding='utf-8') as file:
        return list(csv.DictReader(file, delimiter=separator))


def single(analysis, moles=False):
    """The cells that a row must have, from the single rating."""
    try:
        rating = (saugrinte.rate_moles if moles else saugrinte.rate)(amounts.by_name(analysis))
        return str(rating.number), str(rating.whole_number), '%.7f' % rating.spread, str(rating.rounds), '', ''
    except saugrinte.Refused as wrong:
        return '', '', '', '', str(wrong.number), wrong.word


def told(row):
    return tuple(row[name].replace(',', '.') for name in batch.ADDED[:6])


@st.composite
def analyses(draw):
    """Gases in range and out of it."""
    found = draw(st.lists(gases(hydrogen=True, richest=2), min_size=1, max_size=12))
    for analysis in found:
        if draw(st.integers(0, 3)) == 0:
            analysis[draw(st.sampled_from(CODES))] = draw(st.integers(0, 1200000))
    return found


@settings(max_examples=25)
@given(analyses(), st.sampled_from([(';', True), (';', False), (',', True), (',', False), ('\t', True)]),
       st.booleans(), st.sampled_from(['\n', '\r\n']))
def test_batch_equals_single_ratings(tmp_path_factory, found, form, moles, newline):
    place = tmp_path_factory.mktemp('b')
    source, output = str(place / 'a.csv'), str(place / 'r.csv')
    table(source, found, *form, 'mol' if moles else 'vol', newline)
    batch.rate_archive(open_archive(source, Options()), output, processes=1)
    rows = rated(output, form[0])
    assert [told(row) for row in rows] == [single(analysis, moles) for analysis in found]
    assert [row['row'] for row in rows] == [str(n) for n in range(len(found))]
    assert [row['remark'] for row in rows] == ['r"%d' % n for n in range(len(found))]
    with open(source, 'rb') as before, open(output, 'rb') as after:
        for old, new in zip(before.read().split(newline.encode()), after.read().split(newline.encode())):
            assert new.startswith(old)
    assert os.listdir(place) and sorted(os.listdir(place)) == ['a.csv', 'r.csv']


def test_chunks_do_not_show(tmp_path, monkeypatch):
    source, output = str(tmp_path / 'a.csv'), str(tmp_path / 'r.csv')
    table(source, [TABLE_A1, [0, 900000] + [0] * 14] * 40)
    whole = {}
    for size in (1 << 20, 3000, 400, 1):
        monkeypatch.setattr(batch, 'SIZE', size)
        batch.rate_archive(open_archive(source, Options()), output, force=True, processes=2)
        with open(output, 'rb') as file:
            whole[size] = file.read()
    assert len(set(whole.values())) == 1


BAD = '''row;C1;C2;code 9;CO;remark
1;98;2;;;good
2;98;;;;empty cell
3;98;2;0,1;;retired
4;98;1;;1;outside
5;98;2;0;0;zeros
6,98,2,,,other separator
7;98;2
8;98;2;;;too;many
9;x;2;;;no number
10;98;"2;;;unclosed
11;98,00001;2;;;too fine

12;98;2;;;last'''


def test_bad_rows_never_stop_the_run(tmp_path):
    source, output = tmp_path / 'a.csv', tmp_path / 'r.csv'
    source.write_text(BAD)
    status, out, said = command('batch', source, '-o', output, '--unit', 'percent', '--basis', 'volume')
    assert status == 0 and out == ''
    assert '12 rows, 3 rated, 2 refused (3 retired: 1, 6 total: 1), 1 outside, 6 unreadable' in said
    assert "'code 9'" in said and "'CO'" in said and 'carried along' in said
    rows = {row['row'].split(';')[0].split(',')[0]: row for row in rated(output)}
    words = {n: (row['refusal'], row['word']) for n, row in rows.items()}
    unreadable = ('', 'unreadable')
    assert words == {'1': ('', ''), '2': ('6', 'total'), '3': ('3', 'retired'), '4': ('', 'outside'), '5': ('', ''),
                     '6': unreadable, '7': unreadable, '8': unreadable, '9': unreadable, '10': unreadable,
                     '11': unreadable, '12': ('', '')}
    good = single([0, 980000, 20000] + [0] * 13)
    assert [n for n, row in rows.items() if told(row)[:4] == good[:4]] == ['1', '5', '12']
    assert all(row['methane_number'] == '' for n, row in rows.items() if n not in ('1', '5', '12'))
    assert '9' in rows['3']['detail'] and 'retired' in rows['3']['detail']
    assert '8;98;2;;;too;many' == rows['8']['row']


def test_units_are_never_guessed(tmp_path):
    source, output = tmp_path / 'a.csv', tmp_path / 'r.csv'
    source.write_text('C1;C2\n98;2\n')
    for options, word in (([], '--basis'), (['--basis', 'volume'], '--unit'), (['--unit', 'percent'], '--basis')):
        status, _, said = command('batch', source, '-o', output, *options)
        assert status == 1 and word in said and not output.exists()
    numbers = []
    for unit, row in (('percent', '98;2'), ('parts', '980000;20000'), ('fraction', '0,98;0,02')):
        source.write_text('C1;C2\n%s\n' % row)
        status, _, said = command('batch', source, '-o', output, '--basis', 'volume', '--unit', unit, '--force')
        assert status == 0 and 'by volume, in ' + unit in said
        numbers.append(rated(output)[0]['methane_number'].replace(',', '.'))
    assert numbers == [single([0, 980000, 20000] + [0] * 13)[0]] * 3


def test_what_is_changed_is_marked(tmp_path):
    source, output = tmp_path / 'a.csv', tmp_path / 'r.csv'
    source.write_text('C1 [vol%];C2 [vol%]\n98;2\n97;2\n98.00001;2\n')
    command('batch', source, '-o', output)
    assert 'changed' not in rated(output)[0] and [row['refusal'] for row in rated(output)] == ['', '6', '']
    status, _, said = command('batch', source, '-o', output, '--force', '--normalise', '--round')
    assert status == 0 and '2 with amounts changed as asked' in said
    assert [row['changed'] for row in rated(output)] == ['', 'normalised from 99 %', 'rounded']
    assert all(row['methane_number'] for row in rated(output))


def test_nothing_is_overwritten_unasked(tmp_path):
    source, output = tmp_path / 'a.csv', tmp_path / 'r.csv'
    table(source, [TABLE_A1])
    output.write_text('mine')
    status, _, said = command('batch', source, '-o', output)
    assert status == 1 and '--force' in said and output.read_text() == 'mine'
    status, _, said = command('batch', source, '-o', source, '--force')
    assert status == 1 and 'what is read' in said
    assert command('batch', source, '-o', output, '--force')[0] == 0
    assert command('batch', output, '-o', tmp_path / 'again.csv')[2].count("column 'methane_number' already")
    assert sorted(os.listdir(tmp_path)) == ['a.csv', 'r.csv']


def test_commands_that_are_wrong(tmp_path):
    for arguments in (['batch'], ['batch', tmp_path / 'none.csv', '-o', 'x'], ['nothing'], ['rate'],
                      ['batch', tmp_path, '-o', 'x', '--unit', 'bushels']):
        assert command(*arguments)[0] == 2
    (tmp_path / 'a.csv').write_text('C1 [vol%]\n98\n')
    status, _, said = command('batch', tmp_path / 'a.csv', '-o', tmp_path / 'no' / 'r.csv')
    assert status == 1 and 'there is no folder' in said and 'Traceback' not in said


def test_outputs_that_are_no_files(tmp_path):
    source = tmp_path / 'a.csv'
    table(source, [TABLE_A1])
    os.mkfifo(tmp_path / 'pipe')
    for output, word in ((tmp_path / 'pipe', 'no regular file'), ('-', 'no name for a file')):
        status, _, said = command('batch', source, '-o', output, '--force')
        assert status == 1 and word in said
    status, _, said = command('batch', tmp_path / 'pipe', '-o', tmp_path / 'r.csv')
    assert status == 1 and 'read twice' in said
    os.symlink('real.csv', tmp_path / 'link.csv')
    assert command('batch', source, '-o', tmp_path / 'link.csv')[0] == 0
    assert (tmp_path / 'link.csv').is_symlink() and rated(tmp_path / 'real.csv')
    assert sorted(os.listdir(tmp_path)) == ['a.csv', 'link.csv', 'pipe', 'real.csv']


def test_chunks_of_another_run_are_never_taken(tmp_path):
    """Whatever a folder has, --force begins with none of it, and one that is not batch's is left alone."""
    source, output = tmp_path / 'a.csv', tmp_path / 'r.csv'
    table(source, [TABLE_A1] * 3)
    parts = tmp_path / 'r.csv.parts'
    parts.mkdir()
    (parts / '00000000.csv').write_text('old\n')
    (parts / '00000000.csv.tally').write_text('{"rated": 12345}')
    status, _, said = command('batch', source, '-o', output, '--force')
    assert status == 0 and '3 rows, 3 rated' in said and len(rated(output)) == 3 and not parts.exists()
    parts.mkdir()
    (parts / 'mine').write_text('mine')
    status, _, said = command('batch', source, '-o', output, '--force')
    assert status == 1 and 'no run of batch' in said and (parts / 'mine').read_text() == 'mine'


def test_a_stray_quote_spoils_its_own_row_alone(tmp_path):
    source, output = tmp_path / 'a.csv', tmp_path / 'r.csv'
    rows = ['%d;98;2' % n for n in range(60)]
    rows[3], rows[30], rows[31], rows[32] = '"purged, see log;98;2', '"comment";98;2', '"6 inch;98;2', '"6 inch;98;2'
    rows[40] = '"two\nlines";98;2'
    source.write_text('row;C1 [vol%];C2 [vol%]\n' + '\n'.join(rows) + '\n')
    status, _, said = command('batch', source, '-o', output)
    assert status == 0 and '60 rows, 57 rated, 3 unreadable' in said
    assert [row['row'] for row in rated(output) if row['word']] == [rows[3], rows[31], rows[32]]


def test_rows_that_the_csv_module_cannot_read(tmp_path):
    source, output = tmp_path / 'a.csv', tmp_path / 'r.csv'
    for bad in ('"%s";98;2' % ('x' * 140000), '"a";98\rb;2', '\0;98;2'):
        source.write_text('row;C1 [vol%];C2 [vol%]\n' + bad + '\n1;98;2\n', newline='')
        status, _, said = command('batch', source, '-o', output, '--force')
        assert status == 0 and '2 rows' in said and 'Traceback' not in said


def test_lines_before_the_titles_and_titles_of_two_lines(tmp_path):
    source, output = tmp_path / 'a.csv', tmp_path / 'r.csv'
    source.write_text('Station: Emden\n\n"C1\n[vol%]";"C2\n[vol%]"\n98;2\n')
    status, _, said = command('batch', source, '-o', output, '--skip', '1')
    assert status == 0 and '1 row, 1 rated' in said
    assert output.read_text().startswith('Station: Emden\n\n"C1\n[vol%]";"C2\n[vol%]";methane_number')


def test_nothing_is_left_to_go_on_with(tmp_path):
    source, output = tmp_path / 'a.csv', tmp_path / 'r.csv'
    table(source, [TABLE_A1])
    assert command('batch', source, '-o', output, '--resume')[0] == 0
    before = output.read_bytes()
    status, _, said = command('batch', source, '-o', output, '--resume')
    assert status == 0 and 'no run is left' in said and output.read_bytes() == before


# ------------------------------------------------------------ stopped runs

def many(path, rows):
    """An archive of so many rows, of a few gases that differ."""
    some = [[0, 970797 - 10 * n, 16658 + 10 * n] + TABLE_A1[3:] for n in range(500)]
    lines = [';'.join(cell(analysis[code], True) for code in CODES) for analysis in some]
    with open(path, 'w') as file:
        file.write(';'.join('%s [vol%%]' % gas.BY_CODE[code].short for code in CODES) + '\n')
        for start in range(0, rows, 500):
            file.write('\n'.join(lines[:min(500, rows - start)]) + '\n')


def whole_of(path):
    with open(path, 'rb') as file:
        return file.read()


@pytest.fixture(scope='module')
def big(tmp_path_factory):
    """An archive of several chunks, and its rated one."""
    place = tmp_path_factory.mktemp('big')
    source, output = str(place / 'a.csv'), str(place / 'r.csv')
    many(source, 60000)
    batch.rate_archive(open_archive(source, Options()), output)
    return source, output


def begun(source, output, *options):
    return subprocess.Popen([sys.executable, '-m', 'saugrinte', 'batch', source, '-o', output, *options],
                            env=ENVIRONMENT, stderr=subprocess.PIPE, start_new_session=True)


def parts_done(output):
    try:
        return sum(name.endswith('.csv') for name in os.listdir(output + '.parts'))
    except FileNotFoundError:
        return 0


def until(true, seconds=30):
    limit = time.monotonic() + seconds
    while not true():
        assert time.monotonic() < limit
        time.sleep(0.005)


@pytest.mark.parametrize('signalled', [signal.SIGKILL, signal.SIGTERM, signal.SIGINT])
def test_what_was_written_is_whole_after_a_kill(big, tmp_path, signalled):
    source, right = big
    output = str(tmp_path / 'r.csv')
    run = begun(source, output, '--processes', '1')
    until(lambda: parts_done(output) >= 2 or run.poll() is not None)
    run.send_signal(signalled)
    run.wait()
    run.stderr.close()
    assert not os.path.exists(output)
    done = sorted(name for name in os.listdir(output + '.parts') if name.endswith('.csv'))
    assert len(done) >= 2
    rows = whole_of(right).split(b'\n', 1)[1]
    for name in done:
        part = whole_of(os.path.join(output + '.parts', name))
        assert part.endswith(b'\n') and part in rows
    status, _, said = command('batch', source, '-o', output)
    assert status == 1 and '--resume' in said
    first = os.path.join(output + '.parts', done[0])
    part = whole_of(first)
    with open(first, 'wb') as file:                 # it shows whether the chunk is taken as it lies there
        file.write(b'MARK' + part[4:])
    status, _, said = command('batch', source, '-o', output, '--resume')
    assert status == 0 and '60000 rows, 60000 rated' in said and os.listdir(tmp_path) == ['r.csv']
    assert whole_of(output) == whole_of(right).replace(part, b'MARK' + part[4:], 1)


def test_the_workers_end_with_a_killed_run(big, tmp_path):
    source, _ = big
    run = begun(source, str(tmp_path / 'r.csv'), '--processes', '2')
    until(lambda: parts_done(str(tmp_path / 'r.csv')) >= 1)
    run.kill()
    run.wait()
    run.stderr.close()
    until(lambda: not members(run.pid), 10)


def test_a_killed_worker_stops_the_run(big, tmp_path):
    """It never waits for ever; what was done is kept, and the run is gone on with."""
    source, right = big
    output = str(tmp_path / 'r.csv')
    for done in range(1, 4):
        run = begun(source, output, '--processes', '2', '--resume')
        until(lambda: parts_done(output) >= done and len(members(run.pid)) == 3 or run.poll() is not None)
        os.kill(max(int(pid) for pid in members(run.pid)), signal.SIGKILL)
        assert run.wait(20) == 1 and b'a process that rates was stopped' in run.stderr.read()
        run.stderr.close()
    assert command('batch', source, '-o', output, '--resume')[0] == 0
    assert whole_of(output) == whole_of(right)


def test_one_run_at_a_time(tmp_path):
    """A run that finds the folder taken leaves everything as it is, also where nothing but the lock is there yet."""
    source, output = tmp_path / 'a.csv', tmp_path / 'r.csv'
    table(source, [TABLE_A1] * 3)
    parts = batch.ChunkFolder(str(output), open_archive(str(source), Options()))
    os.mkdir(parts.folder)
    parts.take()
    for option in ('--resume', '--force', '--processes=1'):
        status, _, said = command('batch', source, '-o', output, option)
        assert status == 1 and 'a run is going on' in said and os.listdir(parts.folder) == ['lock']
    parts.leave()
    assert sorted(os.listdir(tmp_path)) == ['a.csv'] and command('batch', source, '-o', output)[0] == 0


def test_a_run_as_the_first_process_of_a_container(tmp_path):
    if subprocess.run(['unshare', '--pid', '--fork', 'true'], stderr=subprocess.DEVNULL).returncode:
        pytest.skip('unshare is not allowed here')
    table(tmp_path / 'a.csv', [TABLE_A1] * 3)
    run = subprocess.run(['unshare', '--pid', '--fork', sys.executable, '-m', 'saugrinte', 'batch', tmp_path / 'a.csv',
                          '-o', tmp_path / 'r.csv'], env=ENVIRONMENT, capture_output=True, text=True)
    assert run.returncode == 0 and '3 rows, 3 rated' in run.stderr


def test_defects_do_not_pass_for_bad_rows(big):
    """No row of a good archive is unreadable, whatever goes wrong within."""
    assert b'unreadable' not in whole_of(big[1])


def members(group):
    """The processes of a group."""
    found = []
    for name in filter(str.isdigit, os.listdir('/proc')):
        try:
            with open('/proc/%s/stat' % name) as file:
                fields = file.read().rsplit(')', 1)[1].split()
            if int(fields[2]) == group and fields[0] != 'Z':
                found.append(name)
        except (OSError, IndexError):
            pass
    return found


def test_another_archive_is_not_gone_on_with(big, tmp_path):
    source, output = str(tmp_path / 'a.csv'), str(tmp_path / 'r.csv')
    shutil.copy(big[0], source)
    run = begun(source, output, '--processes', '1')
    until(lambda: parts_done(output) >= 1)
    run.kill()
    run.wait()
    run.stderr.close()
    status, _, said = command('batch', source, '-o', output, '--resume', '--normalise')
    assert status == 1 and 'another layout' in said
    with open(source, 'a') as file:
        file.write('x\n')
    status, _, said = command('batch', source, '-o', output, '--resume')
    assert status == 1 and 'another size' in said
    assert command('batch', source, '-o', output, '--force')[0] == 0 and not os.path.exists(output + '.parts')


def test_memory_does_not_grow_with_the_archive(tmp_path):
    """The most memory of a process that rates, over ten times as many rows."""
    code = ('import re, sys, resource; from saugrinte.archive import *; from saugrinte.batch import *;'
            'rate_archive(open_archive(sys.argv[1], Options()), sys.argv[2], processes=2);'
            'print(resource.getrusage(resource.RUSAGE_CHILDREN).ru_maxrss, *re.findall("VmHWM:\\\\s*([0-9]+)",'
            'open("/proc/self/status").read()))')
    most = []
    for rows in (30000, 300000):
        source = str(tmp_path / ('%d.csv' % rows))
        many(source, rows)
        run = subprocess.run([sys.executable, '-c', code, source, source + '.rated'], capture_output=True, text=True,
                             env=ENVIRONMENT)
        most.append(max(map(int, run.stdout.split())))
    assert most[1] < most[0] + 30000 and most[1] < 120000


# ------------------------------------------------------------ a cluster

def free_port():
    import socket
    with socket.socket() as there:
        there.bind(('127.0.0.1', 0))
        return there.getsockname()[1]


def test_a_cluster_gives_the_same_bytes_though_a_worker_is_killed(big, tmp_path):
    pytest.importorskip('distributed')
    source, right = big
    output, port = str(tmp_path / 'r.csv'), free_port()
    quiet = {'env': ENVIRONMENT, 'stdout': subprocess.DEVNULL, 'stderr': subprocess.DEVNULL, 'cwd': tmp_path}
    address = 'tcp://127.0.0.1:%d' % port
    dask = [sys.executable, '-m']
    running = [subprocess.Popen(dask + ['distributed.cli.dask_scheduler', '--host', '127.0.0.1', '--port', str(port),
                                        '--no-dashboard', '--no-jupyter'], **quiet)]
    try:
        for _ in range(2):
            running.append(subprocess.Popen(dask + ['distributed.cli.dask_worker', address, '--nthreads', '1',
                                                    '--no-nanny', '--no-dashboard', '--host', '127.0.0.1'], **quiet))
        ready = 'import sys, distributed; distributed.Client(sys.argv[1], timeout=90).wait_for_workers(2, timeout=90)'
        subprocess.run([sys.executable, '-c', ready, address], check=True, stderr=subprocess.DEVNULL, env=ENVIRONMENT)
        run = begun(source, output, '--scheduler', address)
        until(lambda: parts_done(output) >= 4 or run.poll() is not None, 60)
        assert run.poll() is None
        running[1].kill()
        assert run.wait(120) == 0, run.stderr.read()
        run.stderr.close()
    finally:
        for process in running:
            process.kill()
            process.wait()
    assert whole_of(output) == whole_of(right)


def test_a_scheduler_that_is_not_there(big, tmp_path):
    pytest.importorskip('distributed')
    address = 'tcp://127.0.0.1:%d' % free_port()
    status, _, said = command('batch', big[0], '-o', tmp_path / 'r.csv', '--scheduler', address)
    assert status == 1 and 'cannot be reached' in said and 'Traceback' not in said
