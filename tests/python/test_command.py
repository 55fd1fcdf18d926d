"""The command for people: pages, JSON, statuses, the progress bar."""
import json
import os
import pty
import subprocess
import sys

import pytest
from gases import ENVIRONMENT, EXAMPLE, ROOT, TABLE_A1, command
from test_batch import table

import saugrinte
from saugrinte import amounts

MOLES = os.path.join(ROOT, 'examples', 'moles.txt')
PAGE = '''methane number  91.0787
whole number    91
amounts         percent by volume
spread          0.0370, at most 0.05
rounds          8

the split, in percent of the simplified mixture:
system  methane  ethane  propane  butane       sum  partial number
     4  31.0026  0.8402   0.1219       -   31.9647         91.0364
     7  20.1482       -   0.1219  0.0765   20.3466         91.0527
     8  46.7721  0.8401        -  0.0765   47.6887         91.0157
   all  97.9229  1.6803   0.2438  0.1530  100.0000
'''


def test_a_page_for_a_person():
    assert command('rate', EXAMPLE) == (0, PAGE, '')


def test_several_files(tmp_path):
    (tmp_path / 'sheet').write_bytes(saugrinte.write_sheet(amounts.by_name(TABLE_A1)))
    (tmp_path / 'poor.txt').write_text('methane 97\nethane 0.0099\n')
    (tmp_path / 'torn').write_bytes(b'\1')
    status, out, said = command('rate', EXAMPLE, tmp_path / 'sheet', tmp_path / 'poor.txt', tmp_path / 'torn')
    assert status == 0 and said == '' and out.count(PAGE) == 2
    assert 'refused 5, out of range: ethane 0.0099 % is outside 0.01 to 15 %' in out
    assert 'refused 1, torn: the sheet is torn' in out


def test_json_for_machines(tmp_path):
    status, out, said = command('rate', '--json', EXAMPLE, MOLES, tmp_path / 'none')
    rated, moles, none = map(json.loads, out.splitlines())
    assert status == 1 and rated['methane_number'] == '91.0787384' and rated['rounds'] == 8
    assert 'none: No such file' in said
    assert [share['system'] for share in rated['systems']] == [4, 7, 8] and moles['file'] == MOLES and none['error']
    (rated,) = map(json.loads, command('rate', '--moles', '--json', MOLES)[1].splitlines())
    assert rated['made_from_moles'] and rated['methane_number'] == '91.0833230'
    (tmp_path / 'hydrogen').write_text('methane 95\nhydrogen 5\n')
    (refused,) = map(json.loads, command('rate', '--moles', '--json', tmp_path / 'hydrogen')[1].splitlines())
    assert (refused['refusal'], refused['word'], refused['component'], refused['amount']) == (
        18, 'hydrogen in moles', 'hydrogen', '5.0000')


def test_standard_input_and_splits():
    with open(EXAMPLE, encoding='utf-8') as file:
        text = file.read()
    assert command('rate', '-', input=text) == (0, PAGE, '')
    split = ''.join('split %d %s %s\n' % (r.system, r.component, r.percent)
                    for r in saugrinte.rate(amounts.by_name(TABLE_A1)).split)
    assert command('rate', '-', input=text + split) == (0, PAGE.replace('rounds          8', 'rounds          0'), '')
    status, out, said = command('rate', '-', input='methane 97 mol\n')
    assert status == 1 and out == '' and '--moles' in said
    status, out, _ = command('rate', '--moles', MOLES)
    assert status == 0 and 'methane number  91.0833 (volumes made from moles)' in out


@pytest.mark.parametrize('name', ['', 'rate', 'batch', 'audit', 'report', 'serve', 'version'])
def test_help(name):
    status, out, said = command(*filter(None, [name]), '--help')
    assert status == 0 and out.startswith('Usage: saugrinte') and said == ''


def test_a_refusal_says_its_word_once(tmp_path):
    (tmp_path / 'poor.txt').write_text('methane 98\nnitrogen 2\n')
    said = command('rate', tmp_path / 'poor.txt')[1]
    assert said.startswith('refused 16, too few: methane stands alone')


def test_output_that_cannot_be_written():
    with open('/dev/full', 'w') as full:
        run = subprocess.run([sys.executable, '-m', 'saugrinte', 'rate', EXAMPLE], stdout=full, stderr=subprocess.PIPE,
                             env=ENVIRONMENT)
    assert run.returncode == 2 and b'standard output' in run.stderr and b'Traceback' not in run.stderr


def test_a_library_that_is_not_there(tmp_path):
    table(tmp_path / 'a.csv', [TABLE_A1])
    for arguments in (['rate', EXAMPLE], ['batch', tmp_path / 'a.csv', '-o', tmp_path / 'r.csv'],
                      ['report', EXAMPLE, '-o', tmp_path / 'r.html']):
        run = subprocess.run([sys.executable, '-m', 'saugrinte', *map(str, arguments)], capture_output=True, text=True,
                             env={**ENVIRONMENT, 'SAUGRINTE_LIBRARY': '/nowhere.so'})
        assert run.returncode == 2 and '/nowhere.so' in run.stderr and 'Traceback' not in run.stderr
    assert os.listdir(tmp_path) == ['a.csv']


def test_a_report_is_not_written_over_what_it_reads(tmp_path):
    (tmp_path / 'gas.txt').write_bytes(open(EXAMPLE, 'rb').read())
    status, _, said = command('report', tmp_path / 'gas.txt', '-o', tmp_path / 'x' / '..' / 'gas.txt')
    assert status == 1 and 'Traceback' not in said
    status, _, said = command('report', tmp_path / 'gas.txt', '-o', tmp_path / 'gas.txt')
    assert status == 1 and 'what is read' in said
    assert (tmp_path / 'gas.txt').read_bytes() == open(EXAMPLE, 'rb').read()


def test_version():
    assert command('version') == (0, saugrinte.version() + '\n', '')


def test_a_progress_bar_on_a_terminal_alone(tmp_path):
    table(tmp_path / 'a.csv', [TABLE_A1] * 50)
    main, other = pty.openpty()
    run = subprocess.Popen([sys.executable, '-m', 'saugrinte', 'batch', tmp_path / 'a.csv', '-o', tmp_path / 'r.csv'],
                           env=ENVIRONMENT, stderr=other)
    os.close(other)
    said = b''
    while True:
        try:
            more = os.read(main, 4096)
        except OSError:
            break
        if not more:
            break
        said += more
    os.close(main)
    assert run.wait() == 0 and b'B/s]' in said and b'50 rows, 50 rated' in said
    assert 'B/s]' not in command('batch', tmp_path / 'a.csv', '-o', tmp_path / 'other.csv')[2]
