#!/usr/bin/env python3
"""Programs that take moles for volumes, or add the one to the other: the compiler refuses each for its types.

  kinds.py        tries each in a copy of the crates

A must-fail edit has to reach the prover, and such a program does not: so these stand here. rt try compiles a program
with all crates below it and proves nothing; PROGRAM stands on every crate that is changed here.
"""
import glob
import os
import re
import shutil
import subprocess
import sys
import tempfile

sys.dont_write_bytecode = True
ROOT = os.path.join(os.path.dirname(os.path.abspath(__file__)), '..')

PROGRAM = 'rating_cases'

# crate, the line as it is, the line that is wrong, the type that is expected, the type that is found
PROGRAMS = (
    # mole amounts are added up as volumes, and the other way round
    ('analysis', 'if is_total_in_range(total(&moles.amounts)) {',
     'if is_total_in_range(total::<Volume>(&moles.amounts)) {', '&[Volume]', '&[Mole; 16]'),
    ('analysis', 'if is_total_in_range(total(&analysis.amounts)) {',
     'if is_total_in_range(total::<Mole>(&analysis.amounts)) {', '&[Mole]', '&[Volume; 16]'),
    # a mole amount is kept as a volume, without the conversion
    ('conversion', 'amounts[code] = share(product(*amount, factor(code)), sum);',
     'amounts[code] = *amount;', 'Volume', 'Mole'),
    # a volume is converted
    ('conversion', 'amounts[code] = share(product(*amount, factor(code)), sum);',
     'amounts[code] = share(product(amounts[code], factor(code)), sum);', 'Mole', 'Volume'),
    # moles are simplified as volumes
    ('mixture', 'Ok(of_volumes(volumes))', 'Ok(of_volumes(moles))', 'Analysis', 'MoleAnalysis'),
    # a mole amount of carbon dioxide in the inert mixture of volumes
    ('mixture', 'inert: methane_share(total, analysis.amounts[11]),',
     'inert: methane_share(total, analysis::Mole(analysis.amounts[11].0)),', 'Volume', 'Mole'),
    # moles are rated as volumes, and the other way round
    ('rating', 'rate_simplified_split(mixture::simplify_moles(moles), split)',
     'rate_simplified_split(mixture::simplify(moles), split)', 'Analysis', 'MoleAnalysis'),
    ('rating', 'rate_simplified_by_search(mixture::simplify(analysis), allowance)',
     'rate_simplified_by_search(mixture::simplify_moles(analysis), allowance)', 'MoleAnalysis', 'Analysis'),
)


def made():
    """A volume or a mole amount is made of a number in crates analysis and conversion alone; but for 0."""
    for path in sorted(glob.glob(os.path.join(ROOT, 'crates', '*', 'src', '*.rt'))):
        with open(path, encoding='utf-8') as f:
            source = re.sub(r'//[^\n]*', '', f.read())
        if os.path.relpath(path, ROOT).split(os.sep)[1] not in ('analysis', 'conversion') \
                and re.search(r'\b(Volume|Mole)\((?!0\))', source):
            sys.exit('kinds: %s makes an amount of a number' % os.path.relpath(path, ROOT))


def compiled(folder):
    """What the compiler says of the program, which is run where it passes."""
    run = subprocess.run(['rt', 'try'], cwd=os.path.join(folder, 'crates', PROGRAM), stdin=subprocess.DEVNULL,
                         stdout=subprocess.PIPE, stderr=subprocess.STDOUT, text=True)
    return run.returncode, run.stdout


def main():
    made()
    folder = tempfile.mkdtemp()
    try:
        shutil.copy(os.path.join(ROOT, 'crates.txt'), folder)
        shutil.copytree(os.path.join(ROOT, 'crates'), os.path.join(folder, 'crates'), symlinks=True,
                        ignore=shutil.ignore_patterns('out'))
        status, said = compiled(folder)
        if status:
            sys.exit('kinds: %s does not compile as it is:\n%s' % (PROGRAM, said[-2000:]))
        for crate, right, wrong, expected, found in PROGRAMS:
            path = os.path.join(folder, 'crates', crate, 'src', 'lib.rt')
            with open(path, encoding='utf-8') as f:
                source = f.read()
            if source.count(right) != 1:
                sys.exit('kinds: %s has not once the line %s' % (crate, right))
            with open(path, 'w', encoding='utf-8') as f:
                f.write(source.replace(right, wrong))
            status, said = compiled(folder)
            with open(path, 'w', encoding='utf-8') as f:
                f.write(source)
            wanted = 'error[mismatched-types]: expected `%s`, found `%s`' % (expected, found)
            if status == 0 or wanted not in said:
                sys.exit('kinds: %s with %s is not refused for its types (%s):\n%s'
                         % (crate, wrong, wanted, said[-2000:]))
    finally:
        shutil.rmtree(folder)
    print('kinds: %d programs that take moles for volumes, or add them, are refused for their types' % len(PROGRAMS))


if __name__ == '__main__':
    main()
