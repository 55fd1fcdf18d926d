"""The proved library through its header, include/saugrinte.h: a function here for each call but the controller's
record, amounts in parts by code and numbers in units. What is refused comes back as its number and its place.

The shared object is looked for in the file that SAUGRINTE_LIBRARY names, then beside this file (where the wheel has
it), then where a checkout builds it.
"""
import ctypes
import os
import threading
from ctypes import POINTER, byref, c_char_p, c_int64, c_size_t, c_uint8, c_uint32
from functools import lru_cache
from typing import Any, Callable, Sequence

from .words import Ranges

INTERFACE = (1, 7)          # the header's first two figures: the same first, and at least the second
CODES = 16
RECORDS = 21
LONGEST = 188
ALLOWANCE = 4000

Amounts = c_uint32 * CODES
Bytes = c_uint8 * RECORDS
Parts = c_uint32 * RECORDS

Records = list[tuple[int, int, int]]        # (system, code, parts)


class Missing(RuntimeError):
    """The shared object is not there, or is not one for this package."""


class Answer(ctypes.Structure):
    _fields_ = [('number', c_uint32), ('place', c_uint32)]


class Figures(ctypes.Structure):
    _fields_ = [('rating', c_int64), ('spread', c_int64), ('rounds', c_int64)]


class Range(ctypes.Structure):
    _fields_ = [('least', c_uint32), ('greatest', c_uint32)]


class Room(threading.local):
    """Buffers that a call fills, of each thread its own."""

    def __init__(self) -> None:
        self.figures, self.count = Figures(), c_size_t()
        self.systems, self.codes, self.parts = Bytes(), Bytes(), Parts()
        self.found = (byref(self.count), self.systems, self.codes, self.parts)
        self.amounts = Amounts()

    def records(self) -> Records:
        """The split's records [(system, code, parts)] that stand here."""
        count = self.count.value
        return list(zip(self.systems[:count], self.codes[:count], self.parts[:count]))


ROOM = Room()


def path() -> str:
    """The shared object's file."""
    named = os.environ.get('SAUGRINTE_LIBRARY')
    if named:
        return named
    here = os.path.dirname(os.path.abspath(__file__))
    built = os.path.join(os.path.dirname(os.path.dirname(here)), 'target', 'shared', 'libsaugrinte.so')
    for file in (os.path.join(here, 'libsaugrinte.so'), built):
        if os.path.exists(file):
            return file
    raise Missing('libsaugrinte.so was not found beside the package (in a checkout, tools/shared builds it)')


@lru_cache(maxsize=None)
def library() -> Any:
    """The library, loaded once."""
    try:
        lib = ctypes.CDLL(path())
    except OSError as wrong:
        raise Missing(str(wrong)) from None
    amounts, found = POINTER(c_uint32), [POINTER(c_size_t), POINTER(c_uint8), POINTER(c_uint8), POINTER(c_uint32)]
    split = [c_size_t, *found[1:]]
    figures = POINTER(Figures)
    calls = {
        'version': (c_uint32, []),
        'rate': (Answer, [c_char_p, c_size_t, figures, *found]),
        'search': (Answer, [amounts, c_uint32, figures, *found]),
        'search_moles': (Answer, [amounts, c_uint32, figures, *found]),
        'rate_split': (Answer, [amounts, *split, figures]),
        'rate_split_moles': (Answer, [amounts, *split, figures]),
        'convert': (Answer, [amounts, amounts]),
        'partial_number': (Answer, [c_uint32, c_uint32, c_uint32, c_uint32, POINTER(c_int64)]),
        'read': (Answer, [c_char_p, c_size_t, amounts, *found]),
        'write': (Answer, [amounts, *split, POINTER(c_uint8), c_size_t, POINTER(c_size_t)]),
        'whole_number': (c_int64, [c_int64]),
        'code_range': (Range, [c_uint32]),
        'total_range': (Range, []),
    }
    for name, (result, arguments) in calls.items():
        try:
            call = getattr(lib, 'saugrinte_' + name)
        except AttributeError:
            raise Missing('%s has no saugrinte_%s' % (path(), name)) from None
        call.restype, call.argtypes = result, arguments
    there = lib.saugrinte_version()
    if there // 10000 != INTERFACE[0] or there // 100 % 100 < INTERFACE[1]:
        raise Missing('%s has version %s, and %d.%d is needed' % (path(), dotted(there), *INTERFACE))
    return lib


def dotted(figures: int) -> str:
    return '%d.%d.%d' % (figures // 10000, figures // 100 % 100, figures % 100)


def version() -> str:
    return dotted(library().saugrinte_version())


def records_in(split: Records) -> tuple[Any, ...]:
    """A split's records as the calls take them: count and three arrays."""
    count = len(split)
    room = list(split)[:RECORDS] + [(0, 0, 0)] * (RECORDS - count)
    return count, Bytes(*(r[0] for r in room)), Bytes(*(r[1] for r in room)), Parts(*(r[2] for r in room))


def searched(answer: Answer) -> tuple[int, int, Any, Any]:
    if answer.number:
        return answer.number, answer.place, None, None
    figures = ROOM.figures
    return 0, 0, (figures.rating, figures.spread, figures.rounds), ROOM.records()


def search(amounts: Sequence[int], allowance: int = ALLOWANCE, moles: bool = False) -> tuple[int, int, Any, Any]:
    """(0, 0, (rating, spread, rounds), records), or (number, place, None, None)."""
    lib = library()
    call = lib.saugrinte_search_moles if moles else lib.saugrinte_search
    return searched(call(Amounts(*amounts), allowance, byref(ROOM.figures), *ROOM.found))


def rate_sheet(sheet: bytes) -> tuple[int, int, Any, Any]:
    """The same of a sheet; the records are empty where it has its own split."""
    return searched(library().saugrinte_rate(bytes(sheet), len(sheet), byref(ROOM.figures), *ROOM.found))


def rate_split(amounts: Sequence[int], split: Records, moles: bool = False) -> tuple[int, int, Any]:
    """(0, 0, (rating, spread, 0)), or (number, place, None)."""
    lib = library()
    call = lib.saugrinte_rate_split_moles if moles else lib.saugrinte_rate_split
    return searched(call(Amounts(*amounts), *records_in(split), byref(ROOM.figures)))[:3]


def convert(moles: Sequence[int]) -> tuple[int, int, Any]:
    """(0, 0, the volumes made), or (number, place, None)."""
    made = Amounts()
    answer = library().saugrinte_convert(Amounts(*moles), made)
    return answer.number, answer.place, None if answer.number else list(made)


def partial_number(system: int, n1: int, n2: int, n3: int) -> tuple[int, Any]:
    """(0, the partial number in units), or (number, None)."""
    units = c_int64()
    answer = library().saugrinte_partial_number(system, n1, n2, n3, byref(units))
    return answer.number, None if answer.number else units.value


def read(sheet: bytes) -> tuple[int, int, Any, Any]:
    """(0, 0, amounts, records), or (number, place, None, None)."""
    amounts = Amounts()
    answer = library().saugrinte_read(bytes(sheet), len(sheet), amounts, *ROOM.found)
    if answer.number:
        return answer.number, answer.place, None, None
    return 0, 0, list(amounts), ROOM.records()


def write(amounts: Sequence[int], split: Records) -> tuple[int, int, Any]:
    """(0, 0, the sheet), or (number, place, None)."""
    sheet, length = (c_uint8 * LONGEST)(), c_size_t()
    answer = library().saugrinte_write(Amounts(*amounts), *records_in(split), sheet, LONGEST, byref(length))
    return answer.number, answer.place, None if answer.number else bytes(sheet[:length.value])


def whole_number(units: int) -> int:
    return library().saugrinte_whole_number(units)


@lru_cache(maxsize=None)
def ranges() -> Ranges:
    """The ranges of all live codes and of the total, in parts."""
    lib = library()
    amounts = ((code, lib.saugrinte_code_range(code)) for code in range(CODES))
    total = lib.saugrinte_total_range()
    return Ranges({code: (r.least, r.greatest) for code, r in amounts if r.least <= r.greatest},
                  (total.least, total.greatest))


def searcher(moles: bool = False) -> Callable[[Sequence[int]], tuple[int, ...]]:
    """A search for many analyses: a function from amounts to (0, 0, rating, spread, rounds, whole number), or (number,
    place). It uses one set of buffers, so it is for one thread."""
    lib = library()
    call = lib.saugrinte_search_moles if moles else lib.saugrinte_search
    whole = lib.saugrinte_whole_number
    room = Room()
    amounts, figures = room.amounts, room.figures
    arguments = (ALLOWANCE, byref(figures), *room.found)

    def answer(given: Sequence[int]) -> tuple[int, ...]:
        amounts[:] = given              # type: ignore[call-overload]
        said = call(amounts, *arguments)
        if said.number:
            return said.number, said.place
        rating = figures.rating
        return 0, 0, rating, figures.spread, figures.rounds, whole(rating)

    return answer
