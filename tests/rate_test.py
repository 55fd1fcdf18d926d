#!/usr/bin/env python3
"""Tests ./rate: the line of every file named, byte for byte, what standard error says of it, and the status.

  python3 tests/rate_test.py PROGRAM MOLES

PROGRAM is the display program, MOLES that of mole analyses. ./rate and the tools are copied beside them, so that
nothing is built here; where building is tested, a script stands for the toolchain.
"""
import os
import random
import shutil
import subprocess
import sys
import tempfile

sys.dont_write_bytecode = True
HERE = os.path.dirname(os.path.abspath(__file__))
ROOT = os.path.dirname(HERE)
sys.path.insert(0, os.path.join(HERE, 'reference'))
sys.path.insert(0, os.path.join(ROOT, 'tools'))
import independent as ref  # noqa: E402
import explain  # noqa: E402
from ranges import RANGES  # noqa: E402
from saugrinte import gas, lines as tool, words as said_of  # noqa: E402

TABLE_A1 = (0, 970797, 16658, 2417, 346, 245, 11, 73, 125, 0, 84, 528, 8715, 0, 0, 0)
BIOMETHANE = (0, 970000, 300, 0, 0, 0, 0, 0, 0, 0, 0, 22000, 7700, 0, 0, 0)
METHANE = (0, 980000, 0, 0, 0, 0, 0, 0, 0, 0, 0, 20000, 0, 0, 0, 0)
MOLES = (0, 970640, 16758, 2453, 356, 253, 11, 76, 132, 0, 91, 530, 8700, 0, 0, 0)       # Table A.1
FOUND = ref.search(TABLE_A1).split
SIX = ref.search(BIOMETHANE).split
TABLE = ref.layout(TABLE_A1, None)
FOLDERS = ('tools', 'python/saugrinte')
EXAMPLES = ('biomethane', 'hydrogen', 'table-a1')
LEFT = "the split's %s, are not those expected: three for each system chosen for this gas"
SIMPLIFIED = 'the split does not add up to the simplified mixture: it has '
MADE = ' (volumes made from moles)'
# What a command without Python may find.
COMMANDS = ('bash', 'env', 'dirname', 'readlink', 'find', 'mktemp', 'head', 'rm', 'cat', 'touch')

failures = 0


def expect(what, good, shown):
    global failures
    if not good:
        failures += 1
        print('rate: %s: %s' % (what, shown))


def changed(**amounts):
    a = list(TABLE_A1)
    for code, amount in amounts.items():
        a[int(code[1:])] = amount
    return ref.layout(a, None)


def components(*records):
    """A sheet of (code, parts), no split."""
    return bytes([len(records)]) + b''.join(bytes([c]) + a.to_bytes(4, 'big') for c, a in records) + b'\0'


def held(analysis, cells):
    """The sheet with a split: the chosen systems' records in order, amounts from {system: {component: parts}}."""
    return ref.layout(analysis, [(s, ref.SPLIT_CODE[c], cells[s][c])
                                 for s, c in ref.expected(ref.choose(ref.simplify(analysis)))])


def refused():
    """(sheet, number, words): each refusal of the display program with what is said of it."""
    whole = ref.layout(TABLE_A1, FOUND)
    assert len(whole) == 111 and len(TABLE) == 57
    torn = 'the sheet is torn: '
    yield b'', 1, torn + 'it has no bytes'
    yield bytes([13, 1]), 1, torn + 'it counts 13 components, and 12 are the most'
    yield b'\xff' + TABLE[1:], 1, torn + 'it counts 255 components, and 12 are the most (nor is it lines: line 1 has ' \
        'byte 01, which is no text)'
    yield TABLE[:49], 1, torn + 'it counts 11 components, and at least 8 bytes are missing'
    yield TABLE[:56], 1, torn + 'it counts 11 components, and at least 1 byte is missing'
    for count in (1, 3, 7, 24, 255):
        yield TABLE[:56] + bytes([count]), 1, torn + 'it counts %d split record%s, and only 0 or a multiple of three ' \
            'from 6 to 21 may stand there' % (count, '' if count == 1 else 's')
    yield whole[:-1], 1, torn + '11 components and 9 split records make 111 bytes, and 1 byte is missing'
    yield whole[:80], 1, torn + '11 components and 9 split records make 111 bytes, and 31 bytes are missing'
    yield whole + b'\0', 1, torn + '11 components and 9 split records make 111 bytes, and 1 byte is left over'
    yield TABLE + b'ab', 1, torn + '11 components and 0 split records make 57 bytes, and 2 bytes are left over'
    yield bytes(3), 1, torn + '0 components and 0 split records make 2 bytes, and 1 byte is left over'
    yield b'\x01\x01' + bytes(6), 1, torn + '1 component and 0 split records make 7 bytes, and 1 byte is left over'

    for code in (0, 16, 255):
        yield components((1, 970000), (code, 100)), 2, 'record 2 has code %d, unknown' % code
    yield components((14, 100)), 2, 'record 1 has code 14, unknown here: butanes stand in splits only'
    yield bytes.fromhex('01090000006400'), 3, 'record 1 has code 9, retired'
    yield components((1, 1), (9, 1)), 3, 'record 2 has code 9, retired'
    yield components((1, 1), (2, 1), (13, 1), (0, 1)), 3, 'record 3 has code 13, retired'
    yield components((1, 1), (3, 1), (2, 1), (9, 1)), 4, \
        'record 3 has code 2 (ethane), out of order after code 3 (propane)'
    yield components((1, 1), (15, 1), (15, 1)), 4, \
        'record 3 has code 15 (hydrogen), out of order after code 15 (hydrogen)'

    yield changed(c2=99), 5, 'ethane 0.0099 % is outside 0.01 to 15 %'
    yield changed(c2=150001), 5, 'ethane 15.0001 % is outside 0.01 to 15 %'
    yield changed(c1=399999), 5, 'methane 39.9999 % is outside 40 to 99.97 %'
    yield changed(c6=501, c10=9), 5, \
        'neo-pentane 0.0501 % is outside 0.001 to 0.05 %; hexanes+ 0.0009 % is outside 0.001 to 0.61 %'
    yield changed(c10=6101), 5, 'hexanes+ 0.6101 % is outside 0.001 to 0.61 %'
    yield changed(c10=15000), 5, 'hexanes+ 1.5 % is outside 0.001 to 0.61 %'
    yield changed(c15=4294967295), 5, 'hydrogen 429496.7295 % is outside 0.001 to 10 %'
    yield components((1, 970000), (12, 0)), 5, \
        'nitrogen 0 % is outside 0.005 to 15 % (leave it out where it is absent)'
    yield components((2, 150000)), 5, 'methane is absent'
    yield components((2, 5)), 5, 'methane is absent; ethane 0.0005 % is outside 0.01 to 15 %'
    yield components((1, 970000), (2, 99), (6, 0), (7, 20001)), 5, \
        'ethane 0.0099 % is outside 0.01 to 15 %; neo-pentane 0 % is outside 0.001 to 0.05 % (leave it out where it ' \
        'is absent); i-pentane 2.0001 % is outside 0.001 to 2 %'
    yield components((3, 0), (6, 501)), 5, \
        'methane is absent; propane 0 % is outside 0.01 to 6 % (leave it out where it is absent); neo-pentane ' \
        '0.0501 % is outside 0.001 to 0.05 %'
    yield bytes(2), 5, 'methane is absent'
    yield changed(c1=970697), 6, 'the total is 99.9899 %, outside 99.99 to 100.01 %'
    yield changed(c1=970899), 6, 'the total is 100.0101 %, outside 99.99 to 100.01 %'
    yield components((1, 400000)), 6, 'the total is 40 %, outside 99.99 to 100.01 %'

    yield ref.layout(TABLE_A1, SIX), 7, LEFT % '6 records, of systems 4, 8'
    yield ref.layout(BIOMETHANE, FOUND), 7, LEFT % '9 records, of systems 4, 7, 8'
    yield ref.layout(TABLE_A1, [(9, 7, 0)] * 9), 7, LEFT % '9 records, of system 9'
    yield ref.layout(TABLE_A1, [*FOUND[3:], *FOUND[:3]]), 7, LEFT % '9 records, of systems 7, 8, 4'
    first, *rest = FOUND
    yield ref.layout(TABLE_A1, [(*first[:2], first[2] - 1), *rest]), 8, \
        SIMPLIFIED + 'methane 97.9228 %, ethane 1.6803 %, propane 0.2438 %, butane 0.153 %, 99.9999 % in all'
    yield ref.layout(BIOMETHANE, [(s, c, 0) for s, c, _ in SIX]), 8, \
        SIMPLIFIED + 'methane 0 %, ethane 0 %, propane 0 %, butane 0 %, 0 % in all'
    m, e, p, b, _ = ref.simplify(TABLE_A1)
    yield held(TABLE_A1, {4: {0: m, 1: e, 2: p}, 7: {0: 0, 2: 0, 3: 0}, 8: {0: 0, 1: 0, 3: b}}), 9, \
        'the split leaves system 7 empty: all its amounts are 0'
    amounts = ref.simplify(TABLE_A1)
    yield held(TABLE_A1, ref.start(amounts, ref.choose(amounts))), 10, \
        "wide: the spread of the split's partial numbers is above 0.05"
    with open(os.path.join(HERE, 'data', 'search-limit.txt'), encoding='utf-8') as f:
        late = next(line.split()[1] for line in f if line.startswith('needs-more-than-4000 '))
    yield bytes.fromhex(late), 11, \
        'unbalanced: the search found no split whose partial numbers have a spread of 0.05 or less'
    yield ref.layout(METHANE, None), 16, \
        'too few: methane stands alone; ethane, propane, butanes, pentanes, hexanes+ or hydrogen must be there too'


class Place:
    """A copy of ./rate with its tools, and a program."""

    def __init__(self, path, program, moles):
        self.path = path
        self.program = os.path.join(path, 'crates', 'rate', 'out', 'rate')
        self.moles = os.path.join(path, 'crates', 'rate_moles', 'out', 'rate_moles')
        for made in (self.program, self.moles):
            os.makedirs(os.path.dirname(made))
        open(os.path.join(path, 'crates.txt'), 'w').close()
        shutil.copy(os.path.join(ROOT, 'rate'), path)
        for folder in FOLDERS:
            shutil.copytree(os.path.join(ROOT, folder), os.path.join(path, folder))
        os.makedirs(os.path.join(path, 'files'))
        self.files = os.path.join(path, 'files')
        self.bare = os.path.join(path, 'bare')
        os.makedirs(self.bare)
        for command in COMMANDS:
            os.symlink(shutil.which(command), os.path.join(self.bare, command))
        if program:
            shutil.copy(program, self.program)
            shutil.copy(moles, self.moles)

    def write(self, name, data):
        with open(os.path.join(self.files, name), 'wb') as f:
            f.write(data if isinstance(data, bytes) else data.encode())
        return name

    def script(self, path, text):
        with open(path, 'w') as f:
            f.write('#!/bin/bash\n' + text)
        os.chmod(path, 0o755)

    def run(self, *names, given=b'', path=None, by=None):
        """Status, output and errors, called from among the files."""
        environment = dict(os.environ, PATH=path or os.path.dirname(sys.executable) + ':' + os.environ['PATH'])
        got = subprocess.run([by or os.path.join(self.path, 'rate'), *names], input=given, cwd=self.files,
                             env=environment, capture_output=True)
        return got.returncode, got.stdout, got.stderr.decode('utf-8', 'surrogateescape')

    def shell(self, command):
        got = subprocess.run(['bash', '-c', command, 'bash', os.path.join(self.path, 'rate')], cwd=self.files,
                             stdin=subprocess.DEVNULL, capture_output=True)
        return got.returncode, got.stdout, got.stderr.decode()


def refusals(place):
    """Every refusal from a named file, and those that differ in kind from standard input too."""
    cases = list(refused())
    names = [place.write('sheet %d' % i, sheet) for i, (sheet, _, _) in enumerate(cases)]
    for sheet, number, _ in cases:
        if number != 11:
            expect('the reference', ref.display(ref.rate(sheet)) == 'REFUSED %d\n' % number, sheet.hex())
    got = place.run(*names)
    wanted = (0, ''.join('REFUSED %d\n' % number for _, number, _ in cases).encode(),
              ''.join('%s: %d: %s\n' % (name, number, words) for name, (_, number, words) in zip(names, cases)))
    for mine, theirs in zip(wanted[2].split('\n'), got[2].split('\n')):
        expect(mine, mine == theirs, theirs)
    expect('refusals', got == wanted, got[:2])
    numbers = [number for _, number, _ in cases]
    expect('every refusal', sorted(set(numbers)) == [*range(1, 12), 16], numbers)
    for number in sorted(set(numbers)):
        name, (sheet, _, words) = names[numbers.index(number)], cases[numbers.index(number)]
        wanted = (0, b'REFUSED %d\n' % number, '%d: %s\n' % (number, words))
        expect('%d from standard input' % number, place.run(given=sheet) == wanted, place.run(given=sheet))
        expect('%d, one file' % number, place.run(name) == wanted, place.run(name))
    return len(cases)


def ratings(place):
    """Lines and sheets, by name and from standard input, alone and together."""
    lines, said = {}, {}
    for name in EXAMPLES:
        with open(os.path.join(ROOT, 'examples', name + '.txt'), 'rb') as f:
            text = f.read()
        sheet = tool.of_lines(text)
        answer = ref.rate(sheet)
        lines[name], said[name] = ref.display(answer).encode(), 'methane number %.4f\n' % (answer.rating / ref.UNITS)
        for kind, data in (('.txt', text), ('.sheet', sheet), ('.back', tool.lines(sheet)),
                           ('.split', ref.layout(TABLE_A1, FOUND))):
            place.write(name + kind, data)
        for arguments, given in (((name + '.txt',), b''), ((name + '.sheet',), b''), ((name + '.back',), b''),
                                 ((), sheet), (('--',), sheet), (('-',), sheet), (('-',), text), (('--', '-'), text)):
            got = place.run(*arguments, given=given)
            expect((name, arguments), got == (0, lines[name], said[name]), got)
    expect('README.md', (lines['table-a1'], said['table-a1'])
           == (b'RATED 910787384 91 369794 8\n', 'methane number 91.0787\n'), (lines, said))
    got = place.run('table-a1.split')
    expect('a split', got == (0, b'RATED 910787384 91 369794 0\n', 'methane number 91.0787\n'), got)
    with open(os.path.join(place.files, 'hydrogen.txt'), 'rb') as f:
        hydrogen = f.read()
    got = place.run('table-a1.sheet', '-', 'biomethane.txt', '-', given=hydrogen)
    expect('several files', got == (
        0, lines['table-a1'] + lines['hydrogen'] + lines['biomethane'] + lines['hydrogen'],
        'table-a1.sheet: %s-: %sbiomethane.txt: %s-: %s' % (
            said['table-a1'], said['hydrogen'], said['biomethane'], said['hydrogen'])), got)
    got = place.run('table-a1.txt', by=os.path.relpath(os.path.join(place.path, 'rate'), place.files))
    expect('called by a path from here', got == (0, lines['table-a1'], said['table-a1']), got)
    os.symlink(os.path.join(place.path, 'rate'), os.path.join(place.files, 'a link'))
    got = place.run('table-a1.txt', by='./a link')
    expect('called by a link', got == (0, lines['table-a1'], said['table-a1']), got)
    for name in ('a blank.txt', ' ', '-dash', '--help', '--', 'two\nlines', 'caf\u00e9', 'a*?[b]', "'", '$(x)`y`\\'):
        place.write(name, hydrogen)
        got = place.run('--', name)
        expect(name, got == (0, lines['hydrogen'], said['hydrogen']), got)
        got = place.run('./' + name, 'hydrogen.txt')
        expect(name, got == (0, lines['hydrogen'] * 2, './%s: %shydrogen.txt: %s' % (
            name, said['hydrogen'], said['hydrogen'])), got)
    odd = os.fsdecode(b'\xff\xfe name')
    place.write(odd, hydrogen)
    got = place.run(odd, odd)
    expect('a name that is no text', got == (0, lines['hydrogen'] * 2, ('%s: %s' % (odd, said['hydrogen'])) * 2), got)


def kinds(place):
    """Which files are lines and which are sheets."""
    table, nine = tool.lines(TABLE), (0, 900000, 50000, 10000, 1000, 1000, 0, 1000, 1000, 0, 1000, 35000, 0, 0, 0, 0)
    ten = (*nine[:11], 25000, 10000, *nine[13:])
    assert [ref.layout(a, None)[0] for a in (nine, ten)] == [9, 10]
    rated, words = b'RATED 910787384 91 369794 8\n', 'methane number 91.0787\n'
    absent = (0, b'REFUSED 5\n', '5: methane is absent\n')
    for what, data, wanted in (
            ('a tab first', b'\t' + table, (0, rated, words)),
            ('an empty line first', b'\n' + table, (0, rated, words)),
            ('CR LF first', b'\r\n' + table, (0, rated, words)), ('a mark', b'\xef\xbb\xbf' + table, (0, rated, words)),
            ('UTF-16', b'\xff\xfe' + table.decode().encode('utf-16-le'), (0, rated, words)),
            ('a comment in another code', b'# \xe9\n' + table, (0, rated, words)),
            ('a tab alone', b'\t', absent), ('a line feed alone', b'\n', absent), ('CR alone', b'\r', absent),
            ('ten empty lines', b'\n' * 10, absent), ('a comment alone', b'# nothing', absent),
            ('no bytes', b'', (0, b'REFUSED 1\n', '1: the sheet is torn: it has no bytes\n')),
            ('a byte 0 in lines', table + b'\0', (
                0, b'REFUSED 1\n', '1: the sheet is torn: it counts 109 components, and 12 are the most '
                '(nor is it lines: line 12 has byte 00, which is no text)\n')),
            ('nine components', ref.layout(nine, None), None), ('ten components', ref.layout(ten, None), None)):
        if wanted is None:
            answer = ref.rate(data)
            wanted = (0, ref.display(answer).encode(), 'methane number %.4f\n' % (answer.rating / ref.UNITS))
        place.write('kind', data)
        expect(what, place.run('kind') == wanted, place.run('kind'))
    got = place.run(given=table)
    expect('lines where a sheet is read', got == (
        0, b'REFUSED 1\n', '1: the sheet is torn: it counts 109 components, and 12 are the most '
        '(it is text: for lines name the file, or - for standard input)\n'), got)
    longest = ref.layout((0, 800000, 60000, 20000, 1000, 1000, 100, 1000, 1000, 0, 1000, 50000, 14900, 0, 0, 50000),
                         (FOUND * 3)[:21])
    assert len(longest) == ref.LONGEST
    for data, wanted in ((longest, (7, LEFT % '21 records, of systems 4, 7, 8')),
                         (longest + b'\n', (1, 'the sheet is torn: 12 components and 21 split records make 188 bytes, '
                                                'and at least 1 byte is left over'))):
        place.write('longest', data)
        for got in (place.run(given=data), place.run('longest')):
            expect('%d bytes' % len(data), got == (0, b'REFUSED %d\n' % wanted[0], '%d: %s\n' % wanted), got)
    # No sheet that passes refusals 1 to 4 is text, whatever its amounts and its split.
    draw = random.Random(3)
    text = bytes(b for b in range(256) if gas.is_text(bytes([b])))
    expect('text', text == bytes([9, 10, 13, *range(32, 127), *range(128, 256)]), text)
    for count in (9, 10):
        for _ in range(2000):
            codes = draw.choices((9, 10, 13, 32, 255), k=count)
            sheet = bytes([count]) + b''.join(bytes([c, *draw.choices(text, k=4)]) for c in codes) \
                + bytes([9, *draw.choices(text, k=54)])
            expect('a sheet of text', gas.is_text(sheet) and ref.rate(sheet).number in (2, 3, 4), sheet.hex())
    for _ in range(3000):
        codes = sorted(draw.sample(sorted(ref.RANGE), draw.randint(0, 12)))
        sheet = bytes([len(codes)]) + b''.join(bytes([c, *draw.choices(text, k=4)]) for c in codes) + bytes([9]) \
            + bytes(draw.choices(text, k=54))
        expect('a sheet of known codes', not gas.is_text(sheet) and gas.torn(sheet) is None, sheet.hex())


def mole_lines(moles, split=None):
    """The lines of a mole analysis, with what is said of its unit in turn."""
    units = ('', ' mol', ' %', ' mol %', '%', 'mol%', ' % mol')
    return ''.join('%s %s%s\n' % (c.name, gas.percent(moles[c.code]), units[c.code % len(units)])
                   for c in gas.COMPONENTS if moles[c.code]) \
        + ''.join('split %d %s %s\n' % (s, gas.SPLIT_NAMES[c], gas.percent(a)) for s, c, a in split or ())


def other(**amounts):
    a = list(MOLES)
    for code, amount in amounts.items():
        a[int(code[1:])] = amount
    return tuple(a)


def refused_moles():
    """(moles, split, number, words): what is refused of the mole amounts, and of the volumes made."""
    yield other(c2=99), None, 5, 'ethane 0.0099 mol % is outside 0.01 to 15 mol %'
    yield other(c10=6101), None, 5, 'hexanes+ 0.6101 mol % is outside 0.001 to 0.61 mol %'
    yield other(c1=999701, c6=501, c12=49), None, 5, \
        'methane 99.9701 mol % is outside 40 to 99.97 mol %; neo-pentane 0.0501 mol % is outside 0.001 to 0.05 mol ' \
        '%; nitrogen 0.0049 mol % is outside 0.005 to 15 mol %'
    yield other(c1=0), None, 5, 'methane is absent'
    yield (0,) * 16, None, 5, 'methane is absent'
    yield other(c1=970539), None, 15, 'the total is 99.9899 mol %, outside 99.99 to 100.01 mol %'
    yield other(c1=970741), None, 15, 'the total is 100.0101 mol %, outside 99.99 to 100.01 mol %'
    yield other(c1=970539), ref.search_moles(MOLES).split, 15, \
        'the total is 99.9899 mol %, outside 99.99 to 100.01 mol %'
    for amount, percent in ((1, '0.0001'), (10, '0.001'), (50000, '5')):
        for moles in (other(c15=amount), other(c2=99, c15=amount)):
            yield moles, None, 18, 'hydrogen %s mol %%: a gas with hydrogen is rated from volumes alone' % percent
    yield METHANE, None, 16, \
        'too few: methane stands alone; ethane, propane, butanes, pentanes or hexanes+ must be there too' + MADE
    yield METHANE, SIX, 16, \
        'too few: methane stands alone; ethane, propane, butanes, pentanes or hexanes+ must be there too' + MADE
    yield MOLES, SIX, 7, LEFT % '6 records, of systems 4, 8' + MADE
    first, *rest = ref.search_moles(MOLES).split
    sums = [sum(a for _, c, a in (first, *rest) if c == code) for code in (1, 2, 3, 14)]
    sums[0] -= 1
    yield MOLES, [(*first[:2], first[2] - 1), *rest], 8, SIMPLIFIED + ', '.join(
        '%s %s %%' % pair for pair in zip(('methane', 'ethane', 'propane', 'butane'), map(gas.percent, sums))) \
        + ', 99.9999 % in all' + MADE
    m, e, p, b, _ = amounts = ref.simplify(ref.volumes_of(MOLES))
    yield MOLES, [(s, ref.SPLIT_CODE[c], {(4, 0): m, (4, 1): e, (4, 2): p, (8, 3): b}.get((s, c), 0))
                  for s, c in ref.expected((4, 7, 8))], 9, \
        'the split leaves system 7 empty: all its amounts are 0' + MADE
    held_at = ref.start(amounts, (4, 7, 8))
    yield MOLES, [(s, ref.SPLIT_CODE[c], held_at[s][c]) for s, c in ref.expected((4, 7, 8))], 10, \
        "wide: the spread of the split's partial numbers is above 0.05" + MADE


def rated_moles():
    """(what, moles, split) that are rated."""
    yield 'Table A.1', MOLES, None
    yield 'its split put back', MOLES, ref.search_moles(MOLES).split
    yield 'the least total', other(c1=970540), None
    yield 'the greatest total', other(c1=970740), None
    yield 'a biomethane', BIOMETHANE, None
    yield 'its split put back', BIOMETHANE, ref.search_moles(BIOMETHANE).split
    # The volume made of it is 99 parts, and no range is tested of volumes made.
    least = (0, 999000, 100, 0, 0, 0, 0, 0, 0, 0, 0, 900, 0, 0, 0, 0)
    expect('a volume below its range', ref.check(ref.volumes_of(least)) == ref.Refusal(5, 2), ref.volumes_of(least))
    yield 'volumes made that are out of range', least, None


def with_moles(place):
    """--moles: lines in mole percent by name and from standard input, rated and refused; sheets are turned away."""
    cases = [*refused_moles()]
    names = [place.write('moles %d' % i, mole_lines(moles, split)) for i, (moles, split, _, _) in enumerate(cases)]
    for moles, split, number, _ in cases:
        answer = ref.rate_split_moles(moles, split) if split else ref.search_moles(moles)
        expect('the reference', ref.display(answer) == 'REFUSED %d\n' % number, (moles, answer))
    numbers = [number for _, _, number, _ in cases]
    expect('every refusal', sorted(set(numbers)) == [5, 7, 8, 9, 10, 15, 16, 18], numbers)
    # A file without a line is turned away, so the analysis without an amount has a comment.
    names[4] = place.write('moles 4', '# nothing\n')
    got = place.run('--moles', *names)
    wanted = (0, ''.join('REFUSED %d\n' % number for number in numbers).encode(),
              ''.join('%s: %d: %s\n' % (name, *case[2:]) for name, case in zip(names, cases)))
    for mine, theirs in zip(wanted[2].split('\n'), got[2].split('\n')):
        expect(mine, mine == theirs, theirs)
    expect('refusals of moles', got == wanted, got[:2])
    for what, moles, split in rated_moles():
        answer = ref.rate_split_moles(moles, split) if split else ref.search_moles(moles)
        wanted = (0, ref.display(answer).encode(), 'methane number %.4f%s\n' % (answer.rating / ref.UNITS, MADE))
        text = mole_lines(moles, split)
        place.write('moles', text)
        place.write('--moles', text)
        for arguments, given in ((('--moles', 'moles'), ''), (('moles', '--moles'), ''), (('--moles',), text),
                                 (('--moles', '-'), text), (('--moles', '--'), text),
                                 (('--moles', '--', '--moles'), '')):
            got = place.run(*arguments, given=given.encode())
            expect((what, arguments), got == wanted, got)
    with open(os.path.join(ROOT, 'examples', 'moles.txt'), 'rb') as f:
        example = f.read()
    place.write('moles.txt', example)
    rated, said = b'RATED 910833230 91 436527 7\n', 'methane number 91.0833%s\n' % MADE
    for text in (example, example + b'hydrogen 0\n', example.replace(b'\n', b' mol %\r\n').replace(b'.', b',')
                 .replace(b'txt mol %', b'txt'), b'\xef\xbb\xbf' + example):
        got = place.run('--moles', given=text)
        expect('README.md', got == (0, rated, said), (text, got))
    lean = mole_lines(BIOMETHANE)
    wanted = ref.search_moles(BIOMETHANE)
    for absent in ('propane 0\n', 'hexanes+ 0.0000 mol %\nhydrogen 0\n'):
        got = place.run('--moles', given=(lean + absent).encode())
        expect('listed at 0', got[:2] == (0, ref.display(wanted).encode()), got)
    away = '--moles takes lines in mole percent, and '
    place.write('sheet', TABLE)
    place.write('torn', TABLE[:-1])
    place.write('empty', b'')
    sheet_said = 'rate: sheet: %sthis is a sheet, which has volumes: rate it without --moles\n' % away
    got = place.run('--moles', 'moles.txt', 'sheet', 'torn', 'empty', '-', 'moles.txt', given=example)
    expect('sheets', got == (1, rated * 3, 'moles.txt: %s%srate: torn: %sline 1 has byte 0B, which is no text\n'
                             'rate: empty: %sthere are none\n-: %smoles.txt: %s' % (
                                 said, sheet_said, away, away, said, said)), got)
    for arguments, given, what in ((('--moles', 'sheet'), b'', sheet_said),
                                   (('--moles',), TABLE, sheet_said.replace('rate: sheet', 'rate: standard input')),
                                   (('--moles',), b'', 'rate: standard input: %sthere are none\n' % away)):
        got = place.run(*arguments, given=given)
        expect((arguments, given), got == (1, b'', what), got)
    for text, message in (
            (b'methane 97\nbutane 3\n',
             "line 2: 'butane' could be i-butane or n-butane: name each, as iC4 and nC4"),
            (b'methane 97 vol%\n',
             'line 1: amounts are mole percent here; lines in percent by volume are rated without --moles'),
            (b'split 4 methane 31 mol %\n',
             "line 1: a split's amounts are percent of the simplified mixture, by volume")):
        got = place.run('--moles', given=text)
        expect(message, got == (1, b'', 'rate: standard input: %s\n' % message), got)
    got = place.run('moles 0')
    expect('mol without --moles', got[:2] == (1, b'') and got[2].endswith(
        ': amounts are percent by volume here; --moles is for lines in mole percent\n'), got)
    got = place.run('--moles', path=place.bare)
    expect('no Python', got == (2, b'', 'rate: python3 was not found; ./rate < SHEET works without it\n'), got)
    for arguments in (('--mole',), ('--moles', '-x'), ('--moles=1',)):
        got = place.run(*arguments)
        expect(arguments, got[0] == 2 and got[1] == b'' and got[2].startswith("rate: there is no option '-"), got)
    expect('help', place.run('--moles', '--help')[:2] == place.run('--help')[:2], '')
    return len(cases)


def words_of_moles(place):
    """Words of lines that no mole analysis here has, and whatever the number and the amounts."""
    for line, said in (('RATED -501 0 0 0', 'methane number -0.0001' + MADE),
                       ('REFUSED 11', '11: unbalanced: the search found no split whose partial numbers have a spread '
                        'of 0.05 or less' + MADE),
                       ('REFUSED 1', '1: torn: a count is not allowed, bytes are missing or bytes are left over'),
                       ('REFUSED 15', '15: mole total: the mole amounts add up to less than 99.99 mol % or more than '
                        '100.01 mol %'),
                       ('REFUSED 18', '18: hydrogen in moles: a mole analysis has hydrogen'),
                       ('REFUSED 99', "99: refused: README.md's table of refusals tells more"),
                       ('RATED 910833230 91 436527 7 EDGE', 'methane number 91.0833' + MADE)):
        place.script(place.moles, 'echo %s\n' % line)
        got = place.run('--moles', 'moles.txt')
        expect(line, got == (0, line.encode() + b'\n', said + '\n'), got)
    place.script(place.moles, 'exit 3\n')
    got = place.run('--moles', 'moles.txt')
    expect('a program that fails', got == (2, b'', 'rate: the display program ended with status 3\n'), got)
    draw, several = random.Random(5), 0
    for _ in range(1000):
        moles = [0] * 16
        for code, (least, greatest) in ref.RANGE.items():
            moles[code] = draw.choice((0, 1, least - 1, least, greatest, greatest + 1, draw.randint(least, greatest)))
        _, sheet = tool.of_mole_lines(b'#\n' + mole_lines(moles).encode())
        for number in (*range(20), 99):
            said = explain.explain('REFUSED %d\n' % number, sheet, moles=True)
            expect('words', said.startswith('%d: ' % number) and '\n' not in said and said.isascii(), (number, moles))
        answer = ref.check_moles(moles)
        if answer and answer.number == 5:
            said = explain.explain('REFUSED 5\n', sheet, moles=True)
            codes = [named(part) for part in said[len('5: '):].split('; ')]
            expect('the codes', codes == at_fault(sheet) and codes[:1] == [answer.at], (answer, said))
            several += len(codes) > 1
    expect('several codes of moles', several >= 100, several)


def statuses(place):
    """What cannot be read or understood, options, and standard output that is shut."""
    place.write('good', tool.lines(TABLE))
    place.write('bad', 'methane 97\nbutane 3\n')
    bad = "rate: bad: line 2: 'butane' could be i-butane or n-butane: name each, as iC4 and nC4\n"
    rated = b'RATED 910787384 91 369794 8\n'
    expect('lines that are not understood', place.run('bad') == (1, b'', bad), place.run('bad'))
    got = place.run('good', 'bad', 'none', '.', 'good')
    expect('some files', got == (1, rated * 2, 'good: methane number 91.0787\n' + bad
                                 + 'rate: none: No such file or directory\nrate: .: Is a directory\n'
                                 + 'good: methane number 91.0787\n'), got)
    got = place.run('-', given=b'methan 97\n')
    expect('standard input', got[:2] == (1, b'') and got[2].startswith("rate: standard input: line 1: 'methan' "), got)
    got = place.run('')
    expect('no name', got == (1, b'', 'rate: : No such file or directory\n'), got)
    for arguments in (('--help',), ('-h',), ('good', '--help'), ('-h', '--bad')):
        got = place.run(*arguments)
        expect(arguments, got[0] == 0 and b'./rate FILE...' in got[1] and got[2] == '', got)
    for arguments in (('--sheet',), ('good', '-x'), ('-x', '--'), ('--helping',)):
        got = place.run(*arguments)
        expect(arguments, got[0] == 2 and got[1] == b'' and got[2].startswith("rate: there is no option '-"), got)
    long = place.write('long', b'#' * (2 << 20))
    got = place.run(long)
    expect('2 MB of lines', got == (1, b'', 'rate: long: the lines have more than 1048576 bytes\n'), got)
    big = place.write('big', bytes(2 << 20))
    for command in ('"$1" %s' % big, '"$1" < /dev/zero', 'cat %s | "$1"' % big):
        got = place.shell(command)
        expect(command, got[:2] == (0, b'REFUSED 1\n') and ' bytes are left over\n' in got[2], got)
    for what, status, command in (
            ('a shut pipe', b'1\n', '{ sleep 0.2; "$1" good good; echo $? >status; } | true; cat status'),
            ('a full output', b'2\n', '"$1" good >/dev/full; echo $?'),
            ('a full output, a sheet', b'2\n', 'head -c 57 big | "$1" >/dev/full; echo $?'),
            ('no output', b'2\n', '"$1" good >&-; echo $?'), ('no input', b'1\n', '"$1" - <&-; echo $?'),
            ('no input, a sheet', b'1\n', '"$1" <&-; echo $?'), ('a directory, a sheet', b'1\n', '"$1" <.; echo $?')):
        got = place.shell(command)
        expect(what, got[1] == status and 'Traceback' not in got[2], got)
    got = place.shell('"$1" good 2>&-; "$1" <good 2>/dev/full; echo $?')
    expect('errors shut', got[:2] == (0, rated + b'REFUSED 1\n0\n'), got)
    got = place.shell('"$1" <(cat good) <(cat good) 2>/dev/null')
    expect('pipes by name', got == (0, rated * 2, ''), got)


def without_python(place):
    """A sheet is rated where Python is not there; files say what they need."""
    got = place.run(given=TABLE, path=place.bare)
    expect('no Python', got == (0, b'RATED 910787384 91 369794 8\n', 'methane number 91.0787\n'), got)
    got = place.run(given=bytes(2), path=place.bare)
    expect('no Python, refused', got == (0, b'REFUSED 5\n', ''), got)
    got = place.run('good', path=place.bare)
    expect('no Python, a file', got == (2, b'', 'rate: python3 was not found; ./rate < SHEET works without it\n'), got)
    expect('no Python, help', place.run('--help', path=place.bare)[0] == 0, '')


def at_fault(sheet):
    """All codes at fault of a sheet that 5 turns away, rising."""
    listed = {sheet[at]: int.from_bytes(sheet[at + 1:at + 5], 'big') for at in range(1, 1 + 5 * sheet[0], 5)}
    return [code for code, (least, greatest) in sorted(ref.RANGE.items())
            if (not least <= listed[code] <= greatest if code in listed else code in ref.REQUIRED)]


def named(part):
    """The code of the component whose name a part of the words begins with."""
    codes = [c.code for c in gas.COMPONENTS if part.startswith(c.name + ' ')]
    return codes[0] if len(codes) == 1 else None


def words(place):
    """Both ways to the words of a rating, the script's and Python's, at figures that no gas has; other programs."""
    for units, number in ((0, '0.0000'), (499, '0.0000'), (500, '0.0001'), (1499, '0.0001'), (1500, '0.0002'),
                          (-1, '0.0000'), (-500, '0.0000'), (-501, '-0.0001'), (-1500, '-0.0001'), (-1501, '-0.0002'),
                          (-10000000, '-1.0000'), (-123456789012, '-12345.6789'), (999999500, '100.0000'),
                          (999999499, '99.9999'), (910787384, '91.0787'), (9007199254740993, '900719925.4741')):
        place.script(place.program, 'echo RATED %d 0 0 0\n' % units)
        line = b'RATED %d 0 0 0\n' % units
        for got in (place.run(given=TABLE), place.run('table-a1.sheet')):
            expect(units, got == (0, line, 'methane number %s\n' % number), got)
    place.script(place.program, 'echo REFUSED 99\n')
    for got in (place.run(given=TABLE), place.run('table-a1.sheet')):
        expect('a number of later', got == (
            0, b'REFUSED 99\n', "99: refused: README.md's table of refusals tells more\n"), got)
    place.script(place.program, 'echo RATED 910787384 91 369794 8 EDGE\n')
    for got in (place.run(given=TABLE), place.run('table-a1.sheet')):
        expect('one field more', got[1:] == (b'RATED 910787384 91 369794 8 EDGE\n', 'methane number 91.0787\n'), got)
    for text in ('exit 3\n', 'kill -SEGV $$\n'):
        place.script(place.program, text)
        for got in (place.run(given=TABLE), place.run('table-a1.sheet')):
            expect(text, got[:2] == (2, b'') and 'the display program ended with status' in got[2], got)
    # Whatever the number and the bytes, words come, and begin with the number; those of 5 name all at fault.
    draw, several = random.Random(4), 0
    cases = [sheet for sheet, _, _ in refused()]
    for _ in range(3000):
        sheet = bytearray(draw.choice(cases))
        for _ in range(draw.randrange(4)):
            if sheet:
                sheet[draw.randrange(len(sheet))] = draw.choice((0, 1, 9, 13, 14, 15, 16, 255))
        sheet = bytes(sheet[:draw.randrange(len(sheet) + 1)] if draw.random() < 0.1 else sheet)
        for number in (*range(20), 99):
            said = explain.explain('REFUSED %d\n' % number, sheet)
            expect('words', said.startswith('%d: ' % number) and '\n' not in said and said.isascii(),
                   (number, sheet.hex()))
        answer = ref.read(sheet)
        if isinstance(answer, ref.Refusal) and answer.number < 7:
            detail = said_of.detail(answer.number, sheet, RANGES)
            expect('a detail', detail, (answer, sheet.hex()))
            if answer.number in (2, 3, 4):
                expect('the place', detail.startswith('record %d ' % (answer.at + 1)), (answer, detail))
            if answer.number == 5:
                codes = [named(part) for part in detail.split('; ')]
                expect('the codes', codes == at_fault(sheet), (answer, detail))
                expect('the lowest code', codes[:1] == [answer.at], (answer, detail))
                several += len(codes) > 1
    expect('several codes', several >= 200, several)


def building(path, program, moles):
    """Where the program is not there, or older than a source: the toolchain's script builds it, fails or is missing.
    Each of the two programs is built where it is needed."""
    place = Place(path, None, None)
    place.write('good', tool.lines(TABLE))
    building_said = 'rate: proving and building the program; this takes some minutes\n'
    got = place.run('good', path=place.bare + ':' + os.path.dirname(sys.executable))
    if shutil.which('rt', path=os.path.dirname(sys.executable)) is None:
        expect('no toolchain', got == (2, b'', 'rate: the Rattle toolchain (rt) was not found\n'), got)
    tools = place.bare + ':' + os.path.dirname(sys.executable)
    place.script(os.path.join(place.bare, 'rt'), 'echo "rt: $* failed in ${PWD##*/}"; exit 1\n')
    got = place.run('good', path=tools)
    expect('a build that fails', got == (2, b'', building_said + 'rt: run failed in rate\n'), got)
    expect('help needs no build', place.run('--help', path=tools)[0] == 0, '')
    place.script(os.path.join(place.bare, 'rt'), 'cat "%s" - >out/rate; /bin/chmod +x out/rate\n'
                 % os.path.abspath(program))
    rated = b'RATED 910787384 91 369794 8\n'
    got = place.run('-', given=tool.lines(TABLE), path=tools)
    expect('a build', got == (0, rated, building_said + 'methane number 91.0787\n'), got)
    got = place.run(given=TABLE, path=tools)
    expect('a second time', got == (0, rated, 'methane number 91.0787\n'), got)
    with open(os.path.join(path, 'crates', 'a.rt'), 'w') as f:
        f.write('newer\n')
    os.utime(place.program, (1, 1))
    got = place.run(given=TABLE, path=tools)
    expect('a source that is newer', got == (0, rated, building_said + 'methane number 91.0787\n'), got)
    place.script(os.path.join(place.bare, 'rt'), '[ "$* ${PWD##*/}" = "run rate_moles" ] && cat "%s" - >out/rate_moles '
                 '&& /bin/chmod +x out/rate_moles\n' % os.path.abspath(moles))
    lines = mole_lines(MOLES).encode()
    rated_moles, said = b'RATED 910833230 91 436527 7\n', 'methane number 91.0833%s\n' % MADE
    for what, before in (('a build for moles', building_said), ('moles a second time', '')):
        got = place.run('--moles', given=lines, path=tools)
        expect(what, got == (0, rated_moles, before + said), got)
    got = place.run(given=TABLE, path=tools)
    expect('the other program stays', got == (0, rated, 'methane number 91.0787\n'), got)
    os.utime(place.moles, (1, 1))
    got = place.run('--moles', given=lines, path=tools)
    expect('a source that is newer, moles', got == (0, rated_moles, building_said + said), got)


def main():
    if len(sys.argv) != 3:
        sys.exit(__doc__)
    with tempfile.TemporaryDirectory() as path:
        place = Place(os.path.join(path, 'a place'), *sys.argv[1:])
        count = refusals(place)
        ratings(place)
        kinds(place)
        count += with_moles(place)
        statuses(place)
        without_python(place)
        words(place)
        words_of_moles(place)
        building(os.path.join(path, 'building'), *sys.argv[1:])
        for folder in FOLDERS:
            left = sorted(os.listdir(os.path.join(place.path, folder)))
            expect('nothing is left in ' + folder, left == sorted(os.listdir(os.path.join(ROOT, folder))), left)
    if failures:
        sys.exit('rate: %d failed' % failures)
    print('rate: %d refusals in words, lines, sheets and moles by name, statuses and building stand' % count)


if __name__ == '__main__':
    main()
