"""The answer to a sheet in words: from the line that the display program printed, and the sheet's bytes for the detail.

  python3 tools/explain.py LINE SHEET        prints it; LINE as in 'REFUSED 5', SHEET is a file
"""
import os
import sys

sys.dont_write_bytecode = True
sys.path.insert(0, os.path.join(os.path.dirname(os.path.dirname(os.path.abspath(__file__))), 'python'))
from ranges import RANGES  # noqa: E402
from saugrinte import gas, words  # noqa: E402


def explain(line, sheet, moles=False):
    """The answer in words, or None for a line that is none of document 01's. That to a mole analysis is said from a
    sheet with its amounts and its split."""
    said = line.split()
    if said[:1] == ['RATED'] and len(said) > 1:
        return 'methane number ' + words.methane_number(int(said[1])) + (gas.MADE if moles else '')
    if said[:1] == ['REFUSED'] and len(said) > 1:
        number = int(said[1])
        return '%d: %s' % (number, words.reason(number, sheet, RANGES, moles))
    return None


def main():
    if len(sys.argv) != 3:
        sys.exit(__doc__)
    try:
        with open(sys.argv[2], 'rb') as file:
            said = explain(sys.argv[1], file.read())
    except OSError as wrong:
        sys.exit('explain: %s' % wrong)
    print(said or "explain: '%s' is no line of the display program" % sys.argv[1])


if __name__ == '__main__':
    main()
