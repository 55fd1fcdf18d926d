"""Gases for the tests, and the command run as a user runs it."""
import os
import subprocess
import sys

from hypothesis import strategies as st

from saugrinte import library

ROOT = os.path.dirname(os.path.dirname(os.path.dirname(os.path.abspath(__file__))))
ENVIRONMENT = {**os.environ, 'PYTHONPATH': os.path.join(ROOT, 'python'), 'PYTHONDONTWRITEBYTECODE': '1'}
EXAMPLE = os.path.join(ROOT, 'examples', 'table-a1.txt')
# Codes 1 to 8 and 10 to 12 of 001 Table A.1.
TABLE_A1 = [0, 970797, 16658, 2417, 346, 245, 11, 73, 125, 0, 84, 528, 8715, 0, 0, 0]
HEAVY = (2, 3, 4, 5, 6, 7, 8, 10, 11, 12)


@st.composite
def gases(draw, hydrogen=False, richest=1):
    """Analyses in range in parts by code, with a total of 1000000; methane takes the rest."""
    ranges = library.ranges().amounts
    amounts = [0] * library.CODES
    codes = draw(st.lists(st.sampled_from(HEAVY + ((15,) if hydrogen else ())), unique=True, min_size=1))
    for code in codes:
        least, greatest = ranges[code]
        amounts[code] = draw(st.integers(least, max(least, greatest // richest)))
    if not any(amounts[code] for code in (2, 3, 4, 5, 6, 7, 8, 10, 15)):
        amounts[2] = ranges[2][0]
    while sum(amounts) > 1000000 - ranges[1][0]:
        code = max(HEAVY, key=lambda c: amounts[c])
        amounts[code] = max(ranges[code][0], amounts[code] // 2)
    amounts[1] = 1000000 - sum(amounts)
    if amounts[1] > ranges[1][1]:
        amounts[2] += amounts[1] - ranges[1][1] + ranges[2][0]
        amounts[1] = 1000000 - sum(amounts[2:])
    return amounts


def command(*arguments, **more):
    """The command's status, standard output and standard error."""
    run = subprocess.run([sys.executable, '-m', 'saugrinte', *map(str, arguments)], capture_output=True, text=True,
                         env=ENVIRONMENT, **more)
    return run.returncode, run.stdout, run.stderr
