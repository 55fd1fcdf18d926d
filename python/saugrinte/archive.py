"""Archives: a chromatograph's export, rows of cells under a row of titles. How the columns are to be read is decided
once, from the titles and from what the caller declares; then each row is read by itself.

Units are declared, by the titles (`CH4 [mol%]`) or by the caller, and never guessed. A cell that is empty or 0 is an
absent component. A row that cannot be read is an answer too, with what is wrong with it.
"""
import csv
import os
import re
import stat
from dataclasses import dataclass
from typing import Iterator, NamedTuple, Optional, Sequence

from . import gas, library, lines
from .amounts import DECIMALS, UNITS, AmountError, Scaled, exact
from .lines import shown

SEPARATORS = {'semicolon': ';', 'comma': ',', 'tab': '\t'}
BASES = ('volume', 'mole')

# A title's unit, in brackets or at its end; a column of a code.
BRACKETED = re.compile(r'^(.*?)[\s,_]*[\[(]([^\])]*)[\])]\s*$', re.DOTALL)
TRAILING = re.compile(r'''(?ix)^(.+?)[\s,._-]*(
    (?:(?:mole?|vol)[\s._-]*)?(?:%|percent|pct|ppmv?|frac(?:tion)?)(?:[\s._-]*(?:mole?|vol|v/v))?
    | (?:c|\u00b5|\u03bc|u)?mol/mol | m3/m3 | vpm)$''')
CODE = re.compile(r'(?i)^(?:code[\s_]*)?([0-9]{1,3})$')
# How hexanes+ are made up, as some analysers print it after the name: C6+ 47/35/17.
MADE_UP = re.compile(r'\s+[0-9]{1,3}/[0-9]{1,3}/[0-9]{1,3}\b')
# Titles that have methane's name, or a unit, and are no component's: a methane number, a total.
RATINGS = re.compile(r'(?i)(?:.*\W)?(?:methane[\s_-]*(?:number|index|no)|methanzahl)\b[^+]*')
TOTALS = re.compile(r'(?i)(?:un|not )?-?(?:normali[sz]ed|raw)?[\s_-]*(?:total|sum|summe|gesamt)?')
# Words that begin as a component's name does, in other languages too.
ALIKE = re.compile(r'(?i)(?:^|[^a-z])(?:neo|iso|[in])?-?(?:(?:meth|eth|prop|but|pent|hex|hept|oct|non)an|heav(?:y|ies)|'
                   r'stickstoff|kohlendioxid|wasserstoff|dmp\b)')

MOST_LINES = 50             # lines of one record
PEEKED = 1 << 18            # bytes in which the titles must end


class ArchiveError(ValueError):
    """The archive cannot be read as declared."""


class RowError(ValueError):
    """A row that is not given to the library: its word and what is wrong."""

    def __init__(self, word: str, detail: str) -> None:
        super().__init__(word, detail)
        self.word, self.detail = word, detail


@dataclass(frozen=True)
class Options:
    """What the caller declares of an archive."""
    unit: Optional[str] = None              # percent, parts or fraction, of columns whose title has none
    basis: Optional[str] = None             # volume or mole
    separator: Optional[str] = None
    columns: tuple[tuple[str, str], ...] = ()       # (title, component, or - to carry the column along)
    absent: tuple[str, ...] = ()            # texts that stand for an absent component
    normalise: bool = False                 # scale the amounts to 100 %
    rounded: bool = False                   # round amounts to parts
    skip: int = 0                           # lines before the titles
    known: tuple[str, ...] = ()             # titles of other columns that the caller names


class Column(NamedTuple):
    at: int                                 # its place among the titles
    code: int
    unit: str


@dataclass(frozen=True)
class Layout:
    """How rows are read. It goes to every process and machine that reads them."""
    titles: tuple[str, ...]
    separator: str
    comma: bool                             # amounts have a decimal comma, and so do the figures that are added
    moles: bool
    columns: tuple[Column, ...]
    strange: tuple[Column, ...]             # columns of codes that are retired or unknown
    outside: tuple[tuple[int, str], ...]    # columns of gases that the method leaves out
    carried: tuple[int, ...]                # the other columns
    absent: tuple[str, ...]                 # texts that stand for an absent component
    normalise: bool
    rounded: bool
    newline: str


@dataclass(frozen=True)
class Archive:
    """An archive's file with its layout."""
    path: str
    layout: Layout
    header: bytes                           # the line of titles as it stands, without its end
    offset: int                             # where the first row begins, in bytes
    line: int                               # and its line, from 1
    size: int
    notes: tuple[str, ...]                  # how it is read, for people


class Chunk(NamedTuple):
    """Whole rows of an archive."""
    number: int                             # from 0
    line: int                               # of the first row, from 1
    data: bytes


# ------------------------------------------------------------ titles

def unit_of(text: str) -> Optional[tuple[Optional[str], Optional[str]]]:
    """(unit, basis) that a title's text declares, or None where it is no unit. A part per million is a part."""
    plain = re.sub(r'[\s._-]', '', text.lower())
    plain = plain.replace('\u03bc', 'u').replace('\u00b5', 'u')
    ratios = {'mol/mol': ('fraction', 'mole'), 'mole/mole': ('fraction', 'mole'), 'm3/m3': ('fraction', 'volume'),
              'v/v': ('fraction', 'volume'), 'cmol/mol': ('percent', 'mole'), 'umol/mol': ('parts', 'mole'),
              'vpm': ('parts', 'volume'), '%v/v': ('percent', 'volume')}
    if plain in ratios:
        return ratios[plain]
    basis = '(mole?|vol|volume|v)?'
    found = re.fullmatch(basis + '(%|percent|pct|ppm|ppmv|parts|fraction|frac)?' + basis, plain)
    if not plain or not found or found[1] and found[3]:
        return None
    units = {'%': 'percent', 'percent': 'percent', 'pct': 'percent', 'ppm': 'parts', 'ppmv': 'parts', 'parts': 'parts',
             'fraction': 'fraction', 'frac': 'fraction', None: None}
    share = found[1] or found[3] or ('v' if found[2] == 'ppmv' else None)
    return units[found[2]], share and ('mole' if share.startswith('mol') else 'volume')


class Title(NamedTuple):
    """What a title says: a live code, a retired or unknown one, a gas outside, a name of two meanings, or nothing."""
    kind: str               # live, strange, outside, ambiguous, carried
    code: int
    name: str
    unit: Optional[str]
    basis: Optional[str]


def named(text: str) -> Optional[tuple[str, int, str]]:
    """(kind, code, name) of a component's name or code."""
    key = gas.key(text.strip().strip('"\''))
    if key in gas.CODES:
        return 'live', gas.CODES[key], gas.BY_CODE[gas.CODES[key]].name
    if key in gas.MEANINGS:
        return 'ambiguous', 0, gas.MEANINGS[key]
    if key in gas.OUTSIDE_NAMES:
        return 'outside', 0, gas.OUTSIDE_NAMES[key]
    code = CODE.match(text.strip())
    if code and int(code[1]) < 256:
        number = int(code[1])
        if number in gas.BY_CODE:
            return 'live', number, gas.BY_CODE[number].name
        return 'strange', number, 'code %d' % number
    return None


def title_of(text: str) -> Title:
    """Reads a title: a name with or without a unit, as `CH4`, `Methane [mol%]`, `C1 (methane) mol %`, `code 9`."""
    rest = MADE_UP.sub('', text)
    found, unit, basis = named(rest), None, None
    for form in (TRAILING, BRACKETED, TRAILING, BRACKETED):
        parts = form.match(rest)
        if found or not parts:
            continue
        declared = unit_of(parts[2])
        if declared:
            unit, basis = declared[0] or unit, declared[1] or basis
        elif not named(parts[2]):
            if named(parts[1]):
                raise ArchiveError("the unit '%s' of column '%s' is not known" % (shown(parts[2]), shown(text)))
            break
        rest = parts[1]
        found = named(rest)
        within = None if declared else named(parts[2])
        if within and found and within != found:
            raise ArchiveError("column '%s' names two components" % shown(text))
        found = found or within
    if not found:
        return Title('carried', 0, '', None, None)
    return Title(*found, unit, basis)


def looks_like_one(text: str) -> bool:
    """Has a title that is not understood a component's name in it, or the unit of one? It is not carried along in
    silence: a component that is not counted makes a wrong number."""
    if RATINGS.fullmatch(text):
        return False
    words = [word for word in re.split(r'[^\w+-]+', text) if word]
    pieces = words + [piece for word in words for piece in re.split(r'[+_-]', word) if len(piece) > 1]
    pieces += [a + ' ' + b for a, b in zip(words, words[1:])]
    if ALIKE.search(text) or any((named(piece) or ('carried',))[0] in ('live', 'ambiguous', 'outside')
                                 and not piece.isdigit() for piece in pieces):
        return True
    return any(parts and unit_of(parts[2]) and not TOTALS.fullmatch(parts[1])
               for parts in (TRAILING.match(text), BRACKETED.match(text)))


def declared_title(title: str, meaning: str) -> Title:
    """A column as the caller declares it, with the unit that the title has."""
    if meaning == '-':
        return Title('carried', 0, '', None, None)
    found = named(meaning)
    if not found or found[0] == 'ambiguous':
        raise ArchiveError("--column '%s=%s': '%s' is none of %s" % (
            shown(title), shown(meaning), shown(meaning), ', '.join(c.name for c in gas.COMPONENTS)))
    try:
        own = title_of(title)
    except ArchiveError:
        own = Title('carried', 0, '', None, None)
    if own.kind == 'carried':
        for form in (TRAILING, BRACKETED):
            parts = form.match(title)
            unit = parts and unit_of(parts[2])
            if unit:
                return Title(*found, *unit)
    return Title(*found, own.unit, own.basis)


def titles_of(cells: Sequence[str], options: Options) -> list[Title]:
    declared = dict(options.columns)
    missing = [title for title in declared if title not in cells]
    if missing:
        raise ArchiveError("there is no column '%s'; there are %s" % (
            shown(missing[0]), ', '.join("'%s'" % shown(cell) for cell in cells)))
    titles = [declared_title(cell, declared[cell]) if cell in declared else title_of(cell) for cell in cells]
    numbers = [cell for cell, title in zip(cells, titles)
               if cell.isdigit() and cell not in declared and title.kind in ('live', 'strange')]
    if numbers and str(gas.REQUIRED) not in numbers:
        raise ArchiveError("is column '%s' that of code %s? Name it 'code %s', or declare it, as --column '%s=-'" % (
            (shown(numbers[0]),) * 4))
    for cell, title in zip(cells, titles):
        if title.kind == 'carried' and cell not in declared and looks_like_one(cell):
            raise ArchiveError("column '%s' looks like a component's and is not understood: declare it, as --column "
                               "'%s=hexanes+', or '%s=-' to carry it along" % ((shown(cell),) * 3))
    return titles


def same_component(cells: Sequence[str], titles: Sequence[Title], options: Options) -> None:
    """Two columns of one component are added where the caller declares them, and else turned away."""
    seen: dict[int, str] = {}
    declared = dict(options.columns)
    for cell, title in zip(cells, titles):
        if title.kind == 'live':
            if title.code in seen and not (cell in declared and seen[title.code] in declared):
                raise ArchiveError("columns '%s' and '%s' are both %s; --column 'TITLE=-' leaves one out" % (
                    shown(seen[title.code]), shown(cell), title.name))
            seen.setdefault(title.code, cell)


def basis_of(cells: Sequence[str], titles: Sequence[Title], options: Options) -> str:
    bases = {title.basis: cell for cell, title in zip(cells, titles) if title.basis}
    if len(bases) > 1:
        raise ArchiveError("column '%s' is in moles and column '%s' by volume: these are never added" % (
            shown(bases['mole']), shown(bases['volume'])))
    said = next(iter(bases), None)
    if said and options.basis and said != options.basis:
        raise ArchiveError("column '%s' is by %s, and --basis says %s" % (shown(bases[said]), said, options.basis))
    if not said and not options.basis:
        raise ArchiveError('no title says whether amounts are by volume or by mole: give --basis volume or mole')
    return said or options.basis or ''


def unit_for(cell: str, title: Title, options: Options) -> str:
    if title.unit or options.unit:
        return title.unit or options.unit or ''
    raise ArchiveError("column '%s' has no unit in its title: give --unit percent, parts or fraction" % shown(cell))


def layout_of(cells: Sequence[str], separator: str, options: Options, newline: str = '\n',
              comma: bool = False) -> Layout:
    """How rows under these titles are read, or ArchiveError saying what must be declared."""
    titles = titles_of(cells, options)
    for cell, title in zip(cells, titles):
        if title.kind == 'ambiguous':
            raise ArchiveError("column '%s' could be %s; or declare it, as --column '%s=n-butane'" % (
                shown(cell), title.name, shown(cell)))
    if not any(title.code == gas.REQUIRED for title in titles):
        raise ArchiveError("no title is %s's; there are %s" % (
            gas.BY_CODE[gas.REQUIRED].name, ', '.join("'%s'" % shown(c) for c in cells)))
    same_component(cells, titles, options)
    basis = basis_of(cells, titles, options)
    of_kind = {kind: tuple(Column(index, title.code, unit_for(cells[index], title, options))
                           for index, title in enumerate(titles) if title.kind == kind) for kind in ('live', 'strange')}
    return Layout(tuple(cells), separator, comma, basis == 'mole', of_kind['live'], of_kind['strange'],
                  tuple((i, t.name) for i, t in enumerate(titles) if t.kind == 'outside'),
                  tuple(i for i, t in enumerate(titles) if t.kind == 'carried'),
                  options.absent, options.normalise, options.rounded, newline)


def notes_of(layout: Layout) -> tuple[str, ...]:
    """How the archive is read, for people."""
    def listed(indices):
        return ', '.join("'%s'" % shown(layout.titles[i]) for i in indices)

    notes = ['by %s, in %s: %s' % ('mole' if layout.moles else 'volume', unit, ', '.join(
        "%s '%s'" % (gas.BY_CODE[c.code].name, shown(layout.titles[c.at]))
        for c in layout.columns if c.unit == unit)) for unit in dict.fromkeys(c.unit for c in layout.columns)]
    if layout.strange:
        notes.append('retired or unknown codes, a row that has one is refused: '
                     + listed(c.at for c in layout.strange))
    if layout.outside:
        notes.append('gases outside the method, a row that has one is not rated: '
                     + listed(i for i, _ in layout.outside))
    if layout.carried:
        notes.append('carried along: ' + listed(layout.carried))
    return tuple(notes)


# ------------------------------------------------------------ records

def record_form(separator: str, strict: bool = False) -> 're.Pattern[str]':
    """A record whose quotes are closed. The strict form has quotes around whole cells alone."""
    s = re.escape(separator)
    field = r'(?:"(?:[^"]|"")*"(?!")[^%s]*|[^"%s][^%s]*|)' % (s, s, s)
    if strict:
        field = r'(?:"(?:[^"]|"")*"(?=%s|\r?\Z)|[^"%s]*)' % (s, s)
    return re.compile('%s(?:%s%s)*\r?' % (field, s, field))


def cells_of(raw: str, separator: str) -> list[str]:
    """The cells of a record; RowError where they cannot be told apart."""
    if '"' not in raw:
        return raw.split(separator)
    try:
        return next(csv.reader([raw], delimiter=separator), [])
    except csv.Error as wrong:
        raise RowError('unreadable', str(wrong)) from None


def records(text: str, separator: str) -> Iterator[tuple[int, str]]:
    """The records of whole lines, each with its line from 0. A quoted cell may have line ends in it; where a quote is
    not closed within some lines, or not at a cell's end, its line is a record of its own."""
    rows = text.split('\n')
    if rows and not rows[-1]:
        rows.pop()
    if '"' not in text:
        yield from enumerate(row[:-1] if row.endswith('\r') else row for row in rows)
        return
    forms, at = (record_form(separator), record_form(separator, strict=True)), 0
    while at < len(rows):
        end = record_end(rows, at, forms) or at + 1
        raw = '\n'.join(rows[at:end])
        yield at, raw[:-1] if raw.endswith('\r') else raw
        at = end


def record_end(rows: Sequence[str], at: int, forms: 'tuple[re.Pattern[str], ...]') -> Optional[int]:
    """The row after the record that begins in this one, None where its quote is not closed."""
    if '"' not in rows[at] or forms[0].fullmatch(rows[at]):
        return at + 1
    for end in range(at + 2, min(at + MOST_LINES, len(rows)) + 1):
        if '"' in rows[end - 1] and forms[0].fullmatch('\n'.join(rows[at:end])):
            return end if forms[1].fullmatch('\n'.join(rows[at:end])) else at + 1
    return None


def whole_records(data: bytes, separator: str) -> int:
    """How many of the bytes are whole records, when more may follow."""
    end = data.rfind(b'\n') + 1
    if b'"' not in data[:end]:
        return end
    rows = data[:end].decode('utf-8', 'surrogateescape').split('\n')[:-1]
    forms, at = (record_form(separator), record_form(separator, strict=True)), 0
    while at < len(rows):
        after = record_end(rows, at, forms)
        if after is None and at + MOST_LINES > len(rows):
            return len('\n'.join(rows[:at]).encode('utf-8', 'surrogateescape')) + (1 if at else 0)
        at = after or at + 1
    return end


def chunks(archive: Archive, size: int = 1 << 19) -> Iterator[Chunk]:
    """The archive's rows in chunks of about so many bytes. The same file and size give the same chunks."""
    index, line, kept = 0, archive.line, b''
    with open(archive.path, 'rb') as file:
        file.seek(archive.offset)
        while True:
            block = file.read(size)
            kept += block
            end = whole_records(kept, archive.layout.separator) if block else len(kept)
            if end:
                data, kept = kept[:end], kept[end:]
                yield Chunk(index, line, data)
                index, line = index + 1, line + data.count(b'\n')
            if not block:
                return


def separator_of(first: str, options: Options) -> str:
    """The separator: as declared, or the one in the titles; where there are several, the one that gives a component."""
    if options.separator:
        return SEPARATORS.get(options.separator, options.separator)
    there = [s for s in SEPARATORS.values() if s in first]
    if len(there) < 2:
        return there[0] if there else ','
    fit = [s for s in there if sum(title_kind(' '.join(cell.split())) == 'live' for cell in split_cells(first, s)) > 1]
    if len(fit) != 1:
        raise ArchiveError('the titles have several of ; , and tab in them: give --separator')
    return fit[0]


def split_cells(text: str, separator: str) -> list[str]:
    try:
        return cells_of(text, separator)
    except RowError:
        return []


def title_kind(cell: str) -> str:
    try:
        return title_of(cell).kind
    except ArchiveError:
        return ''


def has_comma(text: str, separator: str, layout: Layout) -> bool:
    """Have the first amounts with a decimal sign a comma?"""
    for _, raw in records(text, separator):
        try:
            cells = cells_of(raw, separator)
        except RowError:
            continue
        for column in layout.columns:
            cell = cells[column.at] if column.at < len(cells) else ''
            if ',' in cell or '.' in cell:
                return ',' in cell
    return False


def titles_end(start: bytes, at: int, options: Options) -> int:
    """Where the record of titles that begins here ends: at its line feed, or at the end of what was read."""
    end = start.find(b'\n', at)
    if end < 0 or b'"' not in start[at:end]:
        return len(start) if end < 0 else end
    first = start[at:end].decode('utf-8', 'surrogateescape')
    rows = start[at:].decode('utf-8', 'surrogateescape').split('\n')[:MOST_LINES]
    for separator in [separator_of(first, options)] if options.separator else SEPARATORS.values():
        after = record_end(rows, 0, (record_form(separator), record_form(separator, strict=True)))
        if after:
            return at + len('\n'.join(rows[:after]).encode('utf-8', 'surrogateescape'))
    raise ArchiveError('a quote in the titles is not closed')


def titles_start(start: bytes, options: Options) -> tuple[int, int]:
    """Where the titles begin, and their line: after the lines to skip and blank ones."""
    line, at = 1, 3 if start.startswith(b'\xef\xbb\xbf') else 0
    for _ in range(options.skip):
        at, line = start.find(b'\n', at) + 1 or len(start), line + 1
    while start[at:at + 1] in (b'\n', b'\r') and at < len(start):
        line, at = line + (start[at:at + 1] == b'\n'), at + 1
    return at, line


def peek(path: str) -> tuple[bytes, int]:
    """An archive's first bytes and its size. Chunks are read from the file again, so it must be one."""
    if not stat.S_ISREG(os.stat(path).st_mode):
        raise ArchiveError('this is no file that can be read twice; save what comes through it first')
    with open(path, 'rb') as file:
        return file.read(PEEKED), os.fstat(file.fileno()).st_size


def all_declared(rows: str, layout: Layout, options: Options) -> None:
    """Where amounts are scaled to 100 %, a component that is not counted would not show in the total: so a column of
    figures that is carried along must be declared."""
    declared = {*options.known, *(title for title, _ in options.columns)}
    read = (split_cells(raw, layout.separator) for _, raw in records(rows, layout.separator))
    cells: list[str] = next((row for row in read if len(row) == len(layout.titles)), [])
    for place in layout.carried if cells else ():
        title = layout.titles[place]
        if title not in declared and not RATINGS.fullmatch(title) and re.fullmatch(r'[0-9]+(?:[.,][0-9]+)?',
                                                                                   cells[place].strip()):
            raise ArchiveError("with --normalise, column '%s', which has figures, must be declared: --column '%s=-' "
                               "carries it along" % (shown(title), shown(title)))


def open_archive(path: str, options: Options) -> Archive:
    """Reads an archive's titles and first rows, or ArchiveError."""
    start, size = peek(path)
    if start.startswith(gas.UTF_16):
        raise ArchiveError('the file is UTF-16; save it as UTF-8')
    at, line = titles_start(start, options)
    end = titles_end(start, at, options)
    header = start[at:end].rstrip(b'\r')
    if not header.strip():
        raise ArchiveError('the file has no titles')
    if end == PEEKED:
        raise ArchiveError('no line end was found after the titles')
    newline = '\r\n' if start[at:end].endswith(b'\r') else '\n'
    text = header.decode('utf-8', 'surrogateescape')
    if re.search('\r(?!\n)', text):
        raise ArchiveError('lines end with a bare carriage return; save it with line feeds')
    separator = separator_of(text, options)
    try:
        cells = [' '.join(cell.split()) for cell in cells_of(text.replace('\r\n', '\n'), separator)]
    except RowError as wrong:
        raise ArchiveError('the titles cannot be read: %s' % wrong.detail) from None
    layout = layout_of(cells, separator, options, newline)
    rest = start[end + 1:]
    rows = rest[:rest.rfind(b'\n') + 1 or len(rest)].decode('utf-8', 'surrogateescape')
    if options.normalise:
        all_declared(rows, layout, options)
    if has_comma(rows, separator, layout):
        layout = layout_of(cells, separator, options, newline, comma=True)
    return Archive(path, layout, start[:at] + header, min(end + 1, size), line + 1 + header.count(b'\n'), size,
                   notes_of(layout))


# ------------------------------------------------------------ rows

POWERS = tuple(10 ** n for n in range(20))


def amount_in(cell: str, unit: str, title: str) -> Scaled:
    """The amount in a cell, to its last digit; percent may have its sign."""
    try:
        return exact(cell[:-1].rstrip() if unit == 'percent' and cell.endswith('%') else cell, unit)
    except AmountError as wrong:
        raise RowError('unreadable', "column '%s': %s" % (shown(title), wrong)) from None


def parts_in(cell: str, unit: str, layout: Layout, title: str) -> int:
    """The parts in a cell, exactly, or rounded halves up where the caller asks for it."""
    whole, point, decimals = cell.replace(',', '.').partition('.')
    places = UNITS[unit]
    digits = whole + decimals
    if len(decimals) <= places and len(digits) < 16 and digits.isascii() and digits.isdigit():
        return int(digits) * POWERS[places - len(decimals)]
    count, places = amount_in(cell, unit, title)
    parts, rest = divmod(count, 10 ** places)
    if rest:
        if not layout.rounded:
            raise RowError('unreadable', "column '%s': '%s' has %s (--round rounds it)" % (
                shown(title), shown(cell), DECIMALS[unit]))
        parts += 2 * rest >= 10 ** places
    return parts


def finer(cells: Sequence[str], layout: Layout) -> bool:
    """Has a row an amount that is no whole count of parts?"""
    for column in layout.columns:
        cell = cells[column.at].strip()
        if cell and cell not in layout.absent and not amount_in(cell, column.unit, layout.titles[column.at]).whole:
            return True
    return False


def present(cell: str, layout: Layout) -> bool:
    """Is there an amount in a cell? Not where it is empty, 0, or a text that stands for nothing."""
    cell = cell.strip()
    if not cell or cell in layout.absent or cell.strip('0.,') == '':
        return False
    try:
        return exact(cell, 'fraction').digits != 0
    except AmountError:
        return True


def scaled(amounts: list[int]) -> list[int]:
    """Amounts scaled to 100 %: rounded down, and the parts then missing one each to the largest remainders, equal ones
    to the lower codes. This is what --normalise does to an analysis before it is rated."""
    total = sum(amounts)
    if not total:
        return amounts
    down = [amount * 1000000 // total for amount in amounts]
    rest = sorted(range(len(amounts)), key=lambda code: (-(amounts[code] * 1000000 % total), code))
    for code in rest[:1000000 - sum(down)]:
        down[code] += 1
    return down


def amounts_of(cells: Sequence[str], layout: Layout) -> tuple[list[int], str]:
    """The amounts of a row in parts by code, and what was changed in them ('' for nothing); RowError where the row
    cannot be read or has a gas outside the method."""
    if len(cells) != len(layout.titles):
        raise RowError('unreadable', 'the row has %s and the titles %d' % (
            gas.counted(len(cells), 'cell'), len(layout.titles)))
    amounts = [0] * gas.PLACES
    for index, code, unit in layout.columns:
        cell = cells[index].strip()
        if cell and cell not in layout.absent:
            amounts[code] += parts_in(cell, unit, layout, layout.titles[index])
    for index, name in layout.outside:
        if present(cells[index], layout):
            raise RowError('outside', "column '%s': %s is outside the method" % (shown(layout.titles[index]), name))
    if max(amounts) > gas.GREATEST_AMOUNT:
        raise RowError('unreadable', '%s is more than any analysis has' % gas.BY_CODE[amounts.index(max(amounts))].name)
    changed = ''
    if layout.rounded and finer(cells, layout):
        changed = 'rounded'
    if layout.normalise and 0 < sum(amounts) != 1000000:
        changed = (changed + ' and ' if changed else '') + 'normalised from %s %%' % gas.percent(sum(amounts))
        amounts = scaled(amounts)
    return amounts, changed


def text_of(units: int, layout: Layout) -> str:
    """Units as a methane number with seven decimals, with the archive's decimal sign."""
    sign, units = ('-', -units) if units < 0 else ('', units)
    return '%s%d%s%07d' % (sign, units // 10000000, ',' if layout.comma else '.', units % 10000000)


def quoted(text: str, separator: str) -> str:
    """A cell's text, in quotes where it needs them."""
    if separator in text or '"' in text or '\n' in text or '\r' in text:
        return '"%s"' % text.replace('"', '""')
    return text


class Strange(NamedTuple):
    """A retired or unknown code in a row, with the number by which the library refuses it."""
    number: int
    detail: str


def strange_code(cells: Sequence[str], layout: Layout) -> Optional[Strange]:
    """The first column of a retired or unknown code in which a row has an amount. A sheet with that code is read by the
    library, which refuses it: the code's amount is never taken for another's."""
    for column in layout.strange:
        if column.at < len(cells) and present(cells[column.at], layout):
            number, _, _, _ = library.read(lines.sheet({column.code: 1}, []))
            return Strange(number, "column '%s' has an amount of code %d, %s" % (
                shown(layout.titles[column.at]), column.code, gas.REFUSALS[number][0]))
    return None
