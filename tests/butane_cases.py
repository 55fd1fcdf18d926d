#!/usr/bin/env python3
"""The analyses of crates/butane_cases and their butane, worked out by the sentences of 000 A.3.1 alone, with its
factors as printed: the quantity that stands after the butanes, after the pentanes and after hexanes+.

  butane_cases.py            prints the lines that the program has to print
  butane_cases.py --check    compares the program's analyses and its file `stdout` with them
"""
from decimal import Decimal

import cases

BUTANES, PENTANES, HEXANES = (4, 5), (6, 7, 8), (10,)
CODES = BUTANES + PENTANES + HEXANES
LARGEST = 2 ** 32 - 1

EXAMPLES = {(2100, 1900, 0, 400, 500, 600): "0.9250",           # 000's examples 1, 2 and 3, and the quantity of
            (0, 1461, 0, 0, 292, 0): "0.2133",                  # butanes in percent that A.3.1, A.4.1 and A.5.1 print
            (1909, 1727, 0, 364, 455, 545): "0.8408"}
ANALYSES = [
    *EXAMPLES,
    (346, 245, 11, 73, 125, 84),                    # the gas of 001 Table A.1
    (40000, 40000, 500, 20000, 20000, 6100),        # one rich in butane
    (0,) * 6,
    *(tuple(int(code == one) for code in CODES) for one in CODES),
    *(tuple(LARGEST * (code in group) for code in CODES) for group in (BUTANES, PENTANES, HEXANES)),
    (LARGEST,) * 6,
]


def steps(amounts):
    """The three quantities in parts, of amounts in parts."""
    gas = dict(zip(CODES, amounts))
    quantity = Decimal(0)
    for codes, factor in (BUTANES, "1"), (PENTANES, "2.3"), (HEXANES, "5.3"):
        quantity += sum(gas[code] for code in codes) * Decimal(factor)
        yield quantity


def tenths(quantity):
    whole = 10 * quantity
    assert whole == int(whole)
    return int(whole)


def lines():
    return [" ".join(str(tenths(quantity)) for quantity in steps(amounts)) + "\n" for amounts in ANALYSES]


def main():
    for amounts, printed in EXAMPLES.items():
        *_, last = steps(amounts)
        assert round(last / 10000, 4) == Decimal(printed), (amounts, last)
    cases.run("butane_cases", "put_butane", "analyses", ANALYSES, lines())


main()
