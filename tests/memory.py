#!/usr/bin/env python3
"""Calls of a driver (tests/driver.c) under valgrind, every buffer a block of just the size that is lent.

  python3 tests/memory.py DRIVER [--wait]       --wait: the driver is being built meanwhile

The compiler's back end is not proved. Ends with 1 where anything is reported (a byte beyond a buffer, a value that was
never set, memory not given back), where an answer is not the reference's, or where a call was made too seldom. Before
that a step beyond a buffer is made on purpose, and has to be reported.
"""
import os
import sys
import tempfile

import differential as d

SEED, SHEETS = 17, 5000
STATUS = 99                 # valgrind's, where it reports anything
# How often each call of the driver is made at least.
LEAST = {'rate': 5000, 'read': 5000, 'write': 2000, 'search': 300, 'split': 500, 'search-moles': 150,
         'split-moles': 200, 'convert': 100, 'partial': 2000, 'controller': 400, 'whole': 200,
         'code-range': 64, 'total-range': 1}


def valgrind(log):
    """Its command; without its optimisation, which would leave out a read whose value is not used."""
    return ('valgrind', '-q', '--error-exitcode=%d' % STATUS, '--exit-on-first-error=yes', '--leak-check=full',
            '--show-leak-kinds=all', '--errors-for-leak-kinds=all', '--vex-iropt-level=0', '--log-file=' + log)


def noticed(driver, under):
    """A byte beyond a lent block is read, which has to be reported, and the last byte of one, which has not; nor has
    the call of the version."""
    for line, status in (('touch 0 0', STATUS), ('touch 188 188', STATUS), ('touch 188 187', 0), ('version', 0)):
        got, _ = d.run(driver, [line], '--exact', under=under)
        if got != status:
            raise d.Difference('%s: valgrind ended with %d, not %d' % (line, got, status))


def main():
    arguments = [a for a in sys.argv[1:] if a != '--wait']
    if len(arguments) != 1:
        sys.exit(__doc__)
    driver, tally, made = arguments[0], {}, {}
    with tempfile.TemporaryDirectory() as place:
        log = os.path.join(place, 'log')
        try:
            cases, _ = d.part_cases(SEED, SHEETS, True)
            if '--wait' in sys.argv:
                d.await_driver(driver)
            noticed(driver, valgrind(os.devnull))
            d.compare(driver, cases, tally, '--exact', under=valgrind(log))
        except d.Difference as difference:
            said = open(log).read() if os.path.exists(log) else ''
            sys.exit('memory: %s\n%s' % (difference, said))
        said = open(log).read()
    if said:
        sys.exit('memory: valgrind reported\n' + said)
    for _, line, expected in cases.items:
        call = line.split()[0]
        made[call] = made.get(call, 0) + len(expected)
    for call in sorted({*LEAST, *made}):
        if made.get(call, 0) < LEAST.get(call, 1 << 30):
            sys.exit('memory: the call %s was made %d times, not %s' % (call, made.get(call, 0), LEAST.get(call)))
    print('memory: %d calls under valgrind with buffers of just their size, nothing reported, every answer right'
          % sum(tally.values()))


if __name__ == '__main__':
    main()
