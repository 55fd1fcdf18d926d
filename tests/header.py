#!/usr/bin/env python3
"""The header's constants against the library's sources, its definitions and the papers' words.

  python3 tests/header.py [DRIVER]      DRIVER: tests/driver.c with the library, which gives its ranges

Compared: the version, the sizes, the greatest allowance, each refusal with its word (README.md has document 01's
table), each component code with its name and its range in the register, that the library has the functions that the
header declares, and that each has the promise of the function that it calls, word for word: the must-fail edits of the
C interface wrong the functions that are called. With a driver also the ranges, of the codes and of the total, that
stand in the header's remarks with those that the library gives.
"""
import os
import re
import subprocess
import sys

ROOT = os.path.join(os.path.dirname(os.path.abspath(__file__)), '..')
LIVE, RETIRED, SPLITS_ONLY = 'live', 'retired', 'splits_only'
# Refusals whose name in the register is not their word.
WORD_OF = {'MOLE_SUM': 'MOLE_TOTAL', 'MOLE_BLEND': 'HYDROGEN_IN_MOLES'}


def text(*path):
    with open(os.path.join(ROOT, *path), encoding='utf-8') as f:
        return f.read()


def fail(what):
    sys.exit('header: ' + what)


def same(name, *found):
    """Every figure is there, and all are alike."""
    if None in found or len(set(found)) != 1:
        fail('%s differs: %s' % (name, ', '.join(map(str, found))))
    return found[0]


def constant(crate, name):
    """A number that the crate's source has as `const NAME`."""
    got = [m for file in sorted(os.listdir(os.path.join(ROOT, 'crates', crate, 'src')))
           for m in re.findall(r'^(?:pub(?:\(crate\))? )?const %s: \w+ = ([0-9]+);' % name,
                               text('crates', crate, 'src', file), re.M)]
    return int(got[0]) if len(got) == 1 else None


def definition(crate, file, name):
    """A number that a definition of the crate gives as `name = ..`."""
    got = re.search(r'^%s = ([0-9]+)$' % name, text('crates', crate, 'specs', file), re.M)
    return int(got.group(1)) if got else None


def upper(words):
    return re.sub('[^A-Z0-9]+', '_', words.upper()).strip('_')


def functions(crate):
    """Each function's parameters with its result and promise, on one line, and its body."""
    source = text('crates', crate, 'src', 'lib.rt')
    found = re.findall(r'^(?:pub )?(?:extern "C" )?fn (\w+)(.*?)^\{\n(.*?)^\}', source, re.M | re.S)
    return {name: (re.sub(r',? ?\)', ')', ' '.join(promise.split())).replace('( ', '('), body.strip())
            for name, promise, body in found}


def meanings(crate):
    """What the names that a source brings in stand for in a clause, and its public constants. A definition comes before
    a function of its name; a constant would come before it, so that no definition has a constant's name."""
    source = text('crates', crate, 'src', 'lib.rt')
    out = {name: (crate, name) for name in re.findall(r'^pub const (\w+):', source, re.M)}
    uses = [' '.join(line.split()) for line in re.findall(r'^(?:ghost )?use [^;]*;', source, re.M)]
    for line in sorted(uses, key=lambda line: line.startswith('ghost ')):
        found = re.fullmatch(r'ghost use (\S+)\.\{ ?([^{} ]+(?: [^{} ]+)*?),? ?\};', line) \
            or re.fullmatch(r'use (\S+)::(?:\{ ?)?(\w+(?:, \w+)*),?(?: ?\})?;', line)
        if not found or ' as ' in line:
            fail('not understood in crates/%s/src/lib.rt: %s' % (crate, line))
        for name in found[2].split(', '):
            if name.isupper() and name in out:
                fail('%s in crates/%s/src/lib.rt stands for two things' % (name, crate))
            out[name.strip('◌')] = (found[1], name)
    return out


def same_promise(name, promise, body):
    """An exported function hands its parameters on, and promises what the function that it calls promises."""
    call = re.fullmatch(r'(\w+)::(\w+)\(([\w, ]*)\)', body)
    if not call or re.findall(r'\w+', call[3]) != re.findall(r'(\w+): ', promise.partition(')')[0]):
        fail('%s does more than to hand its parameters on' % name)
    if functions(call[1])[call[2]][0] != promise:
        fail('%s and %s::%s have other parameters or promises' % (name, call[1], call[2]))
    here, there = meanings('saugrinte'), meanings(call[1])
    for word in set(re.findall(r'[^\s(){}\[\],;:&]+', promise)):
        if here.get(word) != there.get(word):
            fail('%s in the promises of %s and %s::%s is not the same' % (word, name, call[1], call[2]))


def remarks(body):
    """Each name of an enum with its value and the remark after it."""
    return {n: (int(v), remark)
            for n, v, remark in re.findall(r'^    SAUGRINTE_([A-Z_]+) = ([0-9]+),? +/\* (.*) \*/$', body, re.M)}


def range_of(register, code):
    """What the header says of a code by the register: its range, and whether it must be present."""
    status = re.search(r'^    entry %d \(?([^)\n]*?)\)? ∷$' % code, register, re.M).group(1).split()
    if status == [SPLITS_ONLY]:
        return 'in splits only'
    live, least, greatest, required = status
    return live == LIVE and least + '..' + greatest + ' parts' + ', and must be present' * (required == 'true')


def same_ranges(driver, refusals, codes):
    """The ranges in the header's remarks are those that the library gives: 1..0 where a code has none."""
    remarked = {code: remark.split()[0] for code, remark in codes.values() if ' parts' in remark}
    asked = [*range(max(remarked) + 2), 2 ** 32 - 1]
    said = subprocess.run([driver], input=''.join('code-range %d\n' % code for code in asked) + 'total-range\n',
                          stdout=subprocess.PIPE, text=True, check=True).stdout
    *given, total = ['..'.join(line.split()[1:]) for line in said.splitlines()]
    for code, found in zip(asked, given, strict=True):
        same('the range that the library gives code %d' % code, found, remarked.get(code, '1..0'))
    same('the range that the library gives the total', total,
         *(refusals[name][1].split()[-1] for name in ('TOTAL', 'MOLE_TOTAL')))


def sheet_bytes():
    """The bytes of the longest sheet by the source's own sum."""
    source = text('crates', 'sheet', 'src', 'lib.rt')
    rule = re.search(r'^pub const SHEET: usize = ([A-Z_0-9+* ]+);', source, re.M).group(1)
    return eval(re.sub('[A-Z_]+', lambda m: str(constant('sheet', m.group())), rule))


def main():
    header = text('include', 'saugrinte.h')
    macros = {n: int(v) for n, v in re.findall(r'^#define SAUGRINTE_([A-Z_]+) ([0-9]+)', header, re.M)}
    enums = re.findall(r'enum \{(.*?)\};', header, re.S)
    refusals, codes = ({n: int(v) for n, v in re.findall(r'SAUGRINTE_([A-Z_]+) = ([0-9]+)', body)} for body in enums)

    same('the version', macros['VERSION'], constant('saugrinte', 'VERSION'),
         definition('c_reply', 'Interface.antt', 'version'))
    same('the size of an analysis', macros['CODES'], constant('analysis', 'CODES'),
         definition('analysis', 'Register.antt', 'code_count'))
    same('the room for records', macros['RECORDS'], constant('sheet', 'RECORDS'),
         definition('sheet', 'Split.antt', 'record_count'), definition('split', 'Split.antt', 'record_count'))
    same('the greatest allowance', macros['ROUNDS'], constant('rating', 'ROUNDS'),
         definition('outcome', 'Rate.antt', 'most_rounds'))
    same('the longest sheet', macros['SHEET'], sheet_bytes())
    if re.search(r'\[(?!SAUGRINTE_CODES\]|SAUGRINTE_RECORDS\]|k\]|i\])', header):
        fail('an array without its named size')

    # refusals: README has document 01's table, and the register its words
    words = {int(n): w for n, w in re.findall(r'^\| ([0-9]+) \| ([a-z ]+) \|', text('README.md'), re.M)}
    register = text('crates', 'refusal', 'specs', 'Register.antt')
    entries = [(upper(w), WORD_OF.get(name.upper(), name.upper()))
               for name, w in re.findall(r'^    entry ([a-z_]+)_refusal "([a-z ]+)"', register, re.M)]
    if [w for w, _ in entries] != [name for _, name in entries] or {w for w, _ in entries} != set(map(upper, words.values())):
        fail("the words of the register of refusals are not document 01's")
    if refusals.pop('DONE') != 0 or refusals != {upper(w): n for n, w in words.items()}:
        fail('other refusals than in README.md: %s' % refusals)
    for name, n in refusals.items():
        if not re.search(r'SAUGRINTE_%s = %d,? +/\* %s: ' % (name, n, words[n]), header):
            fail('refusal %d is without its word' % n)
    if sorted(words) != list(range(1, len(words) + 1)):
        fail('refusals are not numbered from 1, or one is left out: %s' % sorted(words))

    # component codes: the register's entries, each under its name (a remark after it is left out)
    register = text('crates', 'analysis', 'specs', 'Register.antt')
    entries = re.findall(r'-- ([^\n(]+?)(?: \([^\n]*\))?\n    entry ([0-9]+) \(?(\w+)', register)
    wanted = {upper(name.split()[0] if status == SPLITS_ONLY else name): int(code)
              for name, code, status in entries if status != RETIRED}
    if codes != wanted or len(entries) != int(entries[-1][1]):
        fail('other codes than in the register: %s' % codes)
    if max(codes.values()) >= macros['CODES']:
        fail('a code without a place in an analysis')
    # and each one's range, in the remark after it
    for name, (code, remark) in remarks(enums[1]).items():
        same('the range of %s (code %s)' % (name, code), remark, range_of(register, code))
    if len(remarks(enums[1])) != len(codes):
        fail('a code without its range')
    for driver in sys.argv[1:]:
        same_ranges(driver, remarks(enums[0]), remarks(enums[1]))

    # functions
    declared = set(re.findall(r'^\w+ (saugrinte_\w+)\(', header, re.M))
    exported = set(re.findall(r'extern "C" fn (saugrinte_\w+)\(', text('crates', 'saugrinte', 'src', 'lib.rt')))
    if declared != exported:
        fail('functions of the header or of the library alone: %s' % sorted(declared ^ exported))
    handed_on = {name: f for name, f in functions('saugrinte').items() if name != 'saugrinte_version'}
    if len(handed_on) != len(exported) - 1:
        fail('the library has other functions than it exports')
    for name, (promise, body) in handed_on.items():
        same_promise(name, promise, body)
    print('header: version %d, %d sizes, %d refusals, %d codes with their ranges and %d functions are the library\'s'
          % (macros['VERSION'], len(macros) - 1, len(refusals), len(codes), len(declared)))


if __name__ == '__main__':
    main()
