"""The ranges that the words of ./rate quote, which runs the display program and not the library; nothing is decided by
them. The Python package asks the library for its own.
"""
from saugrinte.words import Ranges

RANGES = Ranges(
    {1: (400000, 999700), 2: (100, 150000), 3: (100, 60000), 4: (10, 40000), 5: (10, 40000), 6: (10, 500),
     7: (10, 20000), 8: (10, 20000), 10: (10, 6100), 11: (50, 100000), 12: (50, 150000), 15: (10, 100000)},
    (999900, 1000100))
