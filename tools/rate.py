"""The files that ./rate names: each one's line on standard output, and what it means on standard error.

  python3 tools/rate.py PROGRAM FILE...             PROGRAM is the display program; ./rate --help tells the rest
  python3 tools/rate.py --moles PROGRAM FILE...     PROGRAM is that of mole analyses
"""
import subprocess
import sys

sys.dont_write_bytecode = True
from explain import explain  # noqa: E402
from sheet import content, put, say  # noqa: E402
from saugrinte import gas, lines  # noqa: E402


def answer(program, data):
    """The status and the line of the display program."""
    run = subprocess.run([program], input=data, stdout=subprocess.PIPE)
    return run.returncode, run.stdout


def given(data, moles):
    """What the program reads of a file's bytes, and the sheet that the words are taken from."""
    if moles:
        return lines.of_mole_lines(data)
    if gas.is_text(data):
        data = lines.of_lines(data)
    return data, data


def rate(program, data, shown, moles, start):
    """Rates what the program reads, and says it of the sheet that is shown; 0, or 2 where the program failed."""
    status, line = answer(program, data)
    put(line)
    if status:
        say('rate: %sthe display program ended with status %d' % (start, status))
        return 2
    words = explain(line.decode('ascii', 'replace'), shown, moles)
    if words:
        say(start + words)
    return 0


def main():
    moles = sys.argv[1:2] == ['--moles']
    program, *names = sys.argv[2 if moles else 1:]
    worst, standard_input = 0, None
    for name in names:
        try:
            if name != '-':
                data = content(name)
            else:
                data = standard_input = content(name) if standard_input is None else standard_input
            data, shown = given(data, moles)
        except (OSError, ValueError) as wrong:
            say('rate: %s: %s' % ('standard input' if name == '-' else name, getattr(wrong, 'strerror', None) or wrong))
            worst = max(worst, 1)
            continue
        worst = max(worst, rate(program, data, shown, moles, name + ': ' if len(names) > 1 else ''))
    return worst


if __name__ == '__main__':
    try:
        sys.exit(main())
    except BrokenPipeError:
        sys.exit(1)
    except OSError as wrong:
        say('rate: %s' % wrong)
        sys.exit(2)
    except KeyboardInterrupt:
        sys.exit(130)
