"""Reports: one page of HTML for a gas or for a rated archive, with pictures and tables. The page needs nothing besides
itself, no script and no network, and prints on paper. Every figure in it comes from the library.
"""
import os
import re
import sys
from collections import Counter
from datetime import datetime, timezone
from decimal import Decimal, InvalidOperation
from html import escape
from itertools import chain
from typing import IO, TYPE_CHECKING, Iterable, Iterator, Mapping, NamedTuple, Optional, Sequence, Union

import click

from . import archive, batch, gas, library, lines, ratings
from .amounts import Amount, by_code, by_name, in_unit
from .ratings import Rating, Refused
from .words import methane_number

if TYPE_CHECKING:
    from .pictures import Effect

# Forms of time besides those of ISO 8601. Days and months between slashes could be either and are not taken.
TIMES = ('%d.%m.%Y %H:%M:%S', '%d.%m.%Y %H:%M', '%d.%m.%Y', '%Y/%m/%d %H:%M:%S', '%Y/%m/%d %H:%M', '%Y/%m/%d')
LONGEST_ROW = 1 << 24       # bytes
START = archive.PEEKED + 1024       # bytes in which the titles must end: those that batch reads, and those it adds
MOST_BEFORE = 50            # lines before the titles, when they are looked for
GREATEST_PLATE = 150        # an engine's plate states whole numbers from 0 to this

STYLE = '''
*{box-sizing:border-box}
body{font:16px/1.5 system-ui,-apple-system,"Segoe UI",Roboto,"DejaVu Sans",sans-serif;color:#222;background:#fff;
max-width:62rem;margin:0 auto;padding:1rem;overflow-wrap:break-word}
h1{font-size:1.35rem;line-height:1.25;margin:.2rem 0 1rem}
h2{font-size:1.1rem;margin:2rem 0 .6rem;border-bottom:1px solid #bbb;padding-bottom:.2rem}
.top{display:grid;grid-template-columns:repeat(auto-fit,minmax(min(100%,22rem),1fr));gap:1rem 2rem;align-items:center}
.number{font-size:clamp(2.6rem,13vw,4.2rem);font-weight:700;line-height:1.1;margin:0;
font-variant-numeric:tabular-nums}
.refused{font-size:clamp(1.6rem,8vw,2.4rem);color:#9c1c00}
.what{margin:0;color:#444}
.verdict{font-weight:700;margin:.5rem 0}
.reason{border-left:.35rem solid #9c1c00;padding:.3rem .8rem;margin:1rem 0;background:#fbf1ee}
dl{display:grid;grid-template-columns:max-content 1fr;gap:.15rem 1rem;margin:.8rem 0}
dt{color:#444}
dd{margin:0;font-variant-numeric:tabular-nums}
.pictures{columns:2 25rem;column-gap:2rem}
.pictures figure{margin:0 0 1.5rem}
figure{margin:0;break-inside:avoid}
.tables>div{max-width:100%}
.tables{display:flex;flex-wrap:wrap;gap:0 1.5rem;align-items:flex-start}
figcaption{font-size:.875rem;color:#444;margin-top:.3rem}
svg{display:block;max-width:100%;height:auto}
.wide svg{width:46rem}
.scroll{overflow-x:auto;margin:.6rem 0;max-width:100%}
table{border-collapse:collapse;font-variant-numeric:tabular-nums;font-size:.9rem}
caption{text-align:left;font-weight:600;padding:.3rem 0}
th,td{padding:.22rem .48rem;border-bottom:1px solid #ddd;text-align:right;white-space:nowrap}
th{font-weight:600}
th:first-child,td:first-child,td.text,th.text{text-align:left}
td.long,th.long{text-align:left}
td.long{white-space:normal;min-width:16rem}
tr.fault td{font-weight:700;background:#fbf1ee}
tr.sum td{border-top:2px solid #888;font-weight:600}
footer{margin-top:2.5rem;font-size:.85rem;color:#555;border-top:1px solid #bbb;padding-top:.5rem}
a{color:#0b57a4}
@page{margin:14mm}
@media print{body{max-width:none;padding:0;font-size:10pt}.noprint{display:none}h2{break-after:avoid}
table,tr,.top,.reason{break-inside:avoid}.scroll{overflow:visible}
.pictures{columns:2;column-gap:8mm}.top{grid-template-columns:1fr 1fr}.tables{gap:0 6mm}table{font-size:8pt}
th,td{padding:.15rem .35rem}.number{font-size:34pt}.refused{font-size:22pt}h1{font-size:14pt}
figcaption,footer{font-size:8.5pt}
.wide svg{width:140mm}
tr.fault td,.reason{background:none}a{color:inherit}}
'''


# ------------------------------------------------------------ HTML

class Cell(NamedTuple):
    """A table's cell of text, which stands to the left; long text may go over several lines."""
    text: object
    kind: str = 'text'


def shown(value: object) -> str:
    """A value as text; a Decimal without an exponent."""
    return format(value, 'f') if isinstance(value, Decimal) else str(value)


def page(title: str, body: str, style: str = '') -> str:
    """A whole page. The body is HTML, the title is text."""
    return ('<!DOCTYPE html>\n<html lang="en">\n<head>\n<meta charset="utf-8">\n'
            '<meta name="viewport" content="width=device-width, initial-scale=1">\n'
            '<title>%s</title>\n<style>%s%s</style>\n</head>\n<body>\n%s\n'
            '<footer>Worked out by the proved library Saugrinte %s: methane number by the MWM method, EN 16726 Annex A.'
            '</footer>\n</body>\n</html>\n' % (escape(title), STYLE, style, body, ratings.version()))


def table(caption: str, head: Sequence[object], rows: Iterable[Sequence[object]],
          marked: Mapping[int, str] = {}) -> str:
    """A table in a box of its own that scrolls; some rows, by their place, have a class."""
    def cell(tag: str, given: object) -> str:
        text, kind = given if isinstance(given, Cell) else (given, '')
        return '<%s%s>%s</%s>' % (tag, ' class="%s"' % kind if kind else '', escape(shown(text)), tag)

    def row(tag: str, cells: Sequence[object], kind: str = '') -> str:
        return '<tr%s>%s</tr>' % (' class="%s"' % kind if kind else '', ''.join(cell(tag, one) for one in cells))

    body = '\n'.join(row('td', cells, marked.get(at, '')) for at, cells in enumerate(rows))
    return ('<div class="scroll" tabindex="0" role="region" aria-label="%s"><table>\n<caption>%s</caption>\n'
            '<thead>%s</thead>\n<tbody>\n%s\n</tbody>\n</table></div>' % (
                escape(caption), escape(caption), row('th', head), body))


def tables(*boxes: str) -> str:
    """A section of tables, side by side where there is room."""
    return '<h2>Tables</h2>\n<div class="tables">\n%s\n</div>' % '\n'.join('<div>%s</div>' % box for box in boxes)


def figure(svg: str, caption: str) -> str:
    return '<figure>%s<figcaption>%s</figcaption></figure>' % (svg, escape(caption))


def facts(pairs: Iterable[tuple[str, object]]) -> str:
    return '<dl>%s</dl>' % ''.join('<dt>%s</dt><dd>%s</dd>' % (escape(name), escape(shown(value)))
                                   for name, value in pairs)


def paragraph(text: str, kind: str = '') -> str:
    return '<p%s>%s</p>' % (' class="%s"' % kind if kind else '', escape(text))


# ------------------------------------------------------------ a gas

Answer = Union[Rating, Refused]


def gas_page(amounts: Mapping[str, Amount], rating_or_refused: Answer, *, moles: bool = False,
             title: str = 'Methane number', plate: Optional[int] = None) -> str:
    """The page of a gas, amounts in percent by component name, with its rating or its refusal. `plate` is an engine's
    plate number, which the number is held against."""
    return page(title, gas_body(amounts, rating_or_refused, moles=moles, title=title, plate=plate))


def gas_body(amounts: Mapping[str, Amount], answer: Answer, *, moles: bool, title: str, plate: Optional[int]) -> str:
    parts = by_code(amounts)
    content = refused_body(parts, answer, moles) if isinstance(answer, Refused) else rated_body(
        parts, answer, moles, plate)
    return '<main>\n<h1>%s</h1>\n%s\n</main>' % (escape(title), content)


def rated_body(parts: Sequence[int], rating: Rating, moles: bool, plate: Optional[int]) -> str:
    from . import pictures
    verdict = '' if plate is None else paragraph(
        '%s, plate number %d' % (pictures.verdict(rating, plate), plate), 'verdict')
    top = '<div class="top"><div>%s%s%s%s</div>%s</div>' % (
        paragraph('methane number' + (gas.MADE if moles else ''), 'what'),
        paragraph(methane_number(rating.units), 'number'), verdict,
        facts([('whole number', rating.whole_number), ('to seven decimals', rating.number), ('spread', rating.spread),
               ('rounds of the search', rating.rounds)]),
        figure(pictures.number_picture(rating, plate), number_caption(plate)))
    return '\n'.join((top, '<h2>Pictures</h2>', gas_pictures(parts, rating, moles),
                      tables(amounts_table(parts, moles), split_table(rating) + partial_table(rating))))


def number_caption(plate: Optional[int]) -> str:
    if plate is None:
        return 'The number on its scale. With an engine\u2019s plate number given, its line would be here too.'
    return 'The number against the engine\u2019s plate number.'


def gas_pictures(parts: Sequence[int], rating: Rating, moles: bool) -> str:
    from . import pictures
    drawn = [
        figure(pictures.split_picture(rating), 'The simplified mixture, as it is split between %s. The tables have the '
               'figures.' % gas.counted(len(rating.systems), 'system')),
        figure(pictures.partial_picture(rating), 'The partial number of each system. The band is the spread, %s; the '
               'limit of the spread is drawn for comparison. The rating is corrected for carbon dioxide, so it can lie '
               'outside the band.' % methane_number(rating.spread_units))]
    try:
        effects = pictures.effects(parts, moles)
    except Refused as refused:
        return pictures_box(drawn) + paragraph('How the number answers to each component is not shown: the search '
                                               'refuses this gas, %s.' % refused)
    drawn.append(figure(pictures.effects_picture(effects, moles), effects_caption(
        effects, rating, ratings.rate_parts(parts, moles=moles), gas.percent(pictures.STEP))))
    return pictures_box(drawn)


def pictures_box(drawn: Sequence[str]) -> str:
    return '<div class="pictures">\n%s\n</div>' % '\n'.join(drawn)


def effects_caption(effects: Sequence['Effect'], rating: Rating, searched: Rating, step: str) -> str:
    moles = rating.moles
    base = '' if searched.units == rating.units else (
        ' Changes are from the number that the search finds, %s.' % methane_number(searched.units))
    return ('How the number answers: each bar is the gas rated again with %s %s more of one component and as much less '
            'methane.%s The search ends at a spread of up to 0.05, so every change has about that much play (grey). '
            'Hatched: components that the gas has not. Crossed: less than the whole step, as far as the range goes.%s'
            % (step, gas.MOLE_PERCENT if moles else gas.PERCENT, base, ''.join(
                ' Refused, %s: %s.' % (one.component, one.refused) for one in effects if one.refused)))


def amounts_table(parts: Sequence[int], moles: bool, fault: Optional[str] = None) -> str:
    """The amounts as given, and for moles the volumes made where the library makes them."""
    made = library.convert(parts)[2] if moles else None
    head = [Cell('component'), Cell('short'), gas.MOLE_PERCENT if moles else gas.PERCENT] + (
        ['% by volume, made'] if made else [])
    there = [c for c in gas.COMPONENTS if parts[c.code] or c.name == fault]
    rows = [[Cell(c.name), Cell(c.short), in_unit(parts[c.code])] + ([in_unit(made[c.code])] if made else [])
            for c in there]
    rows.append([Cell('total'), '', in_unit(sum(parts))] + ([in_unit(sum(made))] if made else []))
    marked = {at: 'fault' for at, c in enumerate(there) if c.name == fault}
    return table('Amounts in mole percent' if moles else 'Amounts in percent by volume', head, rows,
                 {**marked, len(there): 'sum'})


def split_table(rating: Rating) -> str:
    systems = rating.systems
    there = [name for name in gas.SPLIT_NAMES.values() if any(name in s.components for s in systems)]
    rows = [[Cell('system %d' % s.system)] + [in_unit(s.components[name]) if name in s.components else '\u2013'
                                              for name in there] + [s.percent] for s in systems]
    sums = [in_unit(sum(s.components.get(name, 0) for s in systems)) for name in there]
    rows.append([Cell('simplified mixture'), *sums, in_unit(sum(s.parts for s in systems))])
    return table('Split by system and component, in percent of the simplified mixture',
                 [Cell('system'), *there, 'sum'], rows, {len(systems): 'sum'})


def partial_table(rating: Rating) -> str:
    systems = rating.systems
    least = min(s.units for s in systems)
    return table('Partial numbers', [Cell('system'), 'share, %', 'partial number', 'above the least'],
                 [[Cell('system %d' % s.system), s.percent, s.partial_number, ratings.number_of(s.units - least)]
                  for s in systems])


def when_given(number: int, moles: bool) -> str:
    """When a refusal is given, of volumes or of moles."""
    told = gas.REFUSALS.get(number, ('', ''))[1]
    return gas.OF_MOLES.get(number, told) if moles else told


def refused_body(parts: Sequence[int], refused: Refused, moles: bool) -> str:
    unit = gas.MOLE_PERCENT if moles else gas.PERCENT
    what: list[tuple[str, object]] = [
        ('refusal', refused.number), ('word', refused.word), ('given when', when_given(refused.number, moles))]
    if refused.component:
        what.append(('component', refused.component))
    if refused.amount is not None:
        what.append(('amount' if refused.component else 'total', '%s %s' % (refused.amount, unit)))
    if refused.range:
        what.append(('range', '%s to %s %s' % (*refused.range, unit)))
    if refused.place is not None:
        what.append(('record', 'number %d' % (refused.place + 1)))
    return '\n'.join((paragraph('no methane number', 'what'),
                      paragraph('Refused %d: %s' % (refused.number, refused.word), 'number refused'),
                      paragraph(refused.reason, 'reason'), facts(what),
                      tables(amounts_table(parts, moles, refused.component)) if any(parts) else ''))


def answer_to(data: bytes, moles: bool) -> tuple[dict[str, Decimal], Answer]:
    """The amounts of a file of lines, or of a sheet, and its rating or refusal; ValueError where it cannot be read."""
    if moles:
        sheet = lines.of_mole_lines(data)[1]
    else:
        sheet = lines.of_lines(data) if gas.is_text(data) else data
    parts = [] if gas.torn(sheet) or gas.miscoded(sheet) else lines.amounts_in(sheet)
    try:
        return by_name(parts), ratings.rate_mole_sheet(sheet) if moles else ratings.rate_sheet(sheet)
    except Refused as refused:
        return by_name(parts), refused


def plate_of(text: str) -> int:
    """An engine's plate number; ValueError where the text is none."""
    if not re.fullmatch('[0-9]{1,3}', text.strip()) or int(text) > GREATEST_PLATE:
        raise ValueError("'%s' is not a whole number from 0 to %d, as an engine's plate states" % (
            lines.shown(text), GREATEST_PLATE))
    return int(text)


# ------------------------------------------------------------ a rated archive

class Titles(NamedTuple):
    """A table's titles, their separator, and where the rows begin in the first bytes."""
    cells: Sequence[str]
    separator: str
    offset: int


def titles_in(start: bytes, skip: int) -> Iterator[Titles]:
    """The titles of a file, of which these are the first bytes, as each separator parts them; none of a file that is no
    text up to their end, as a sheet is."""
    for name, separator in archive.SEPARATORS.items():
        options = archive.Options(separator=name, skip=skip)
        at, _ = archive.titles_start(start, options)
        try:
            end = archive.titles_end(start, at, options)
        except archive.ArchiveError:
            continue
        if gas.is_text(start[:end]):
            text = start[at:end].rstrip(b'\r').replace(b'\r\n', b'\n').decode('utf-8', 'replace')
            cells = archive.split_cells(text, separator)
            yield Titles([one_line(cell) for cell in cells], separator, end + 1)


def one_line(title: str) -> str:
    return ' '.join(title.split())


def rated_archive(start: bytes, skip: int = 0) -> Optional[Titles]:
    """The titles of a rated archive, of which these are the first bytes; None where the file is none."""
    return next((titles for titles in titles_in(start, skip) if set(batch.ADDED) <= set(titles.cells)), None)


def is_table(start: bytes, skip: int = 0) -> bool:
    """Whether the first line is titles rather than a component and its amount."""
    return any(len(cells) > 3 or sum(archive.title_kind(cell) == 'live' for cell in cells) > 1
               for cells, _, _ in titles_in(start, skip))


def told_of_table(start: bytes, skip: int) -> Optional[str]:
    """What there is to say of a table that is no rated archive as it is given; None where it is no table."""
    before = next((count for count in range(MOST_BEFORE + 1) if rated_archive(start, count)), None)
    if before is not None:
        return 'the titles of this rated archive stand after %s (--skip %d)' % (gas.counted(before, 'line'), before)
    return NOT_RATED if is_table(start, skip) else None


def rows_of(start: bytes, file: IO[bytes], separator: str) -> Iterator[list[str]]:
    """The rows of a file whose first bytes were read already. One whose cells cannot be told apart has none."""
    kept, block = start, b' '
    while block:
        block = file.read(1 << 20)
        kept += block
        end = archive.whole_records(kept, separator) if block else len(kept)
        if end == 0 and len(kept) > LONGEST_ROW:
            raise ValueError('a row has more than %d bytes' % LONGEST_ROW)
        for _, raw in archive.records(kept[:end].decode('utf-8', 'replace'), separator):
            if raw.strip():
                yield archive.split_cells(raw, separator)
        kept = kept[end:]


class Clock:
    """Reads times; the form that was right last is tried first."""

    def __init__(self) -> None:
        self.forms = list(TIMES)

    def seconds(self, text: str) -> Optional[float]:
        """Seconds from 1970 on, or None where it is no time. A time without a zone counts as UTC."""
        moment = self.moment(text.strip())
        if moment is None:
            return None
        return (moment if moment.tzinfo else moment.replace(tzinfo=timezone.utc)).timestamp()

    def moment(self, text: str) -> Optional[datetime]:
        try:
            return datetime.fromisoformat(text[:-1] + '+00:00' if text.endswith('Z') else text)
        except ValueError:
            pass
        for form in self.forms:
            try:
                found = datetime.strptime(text, form)
            except ValueError:
                continue
            self.forms.sort(key=lambda other: other != form)
            return found
        return None


def number_in(text: str) -> Optional[Decimal]:
    """A methane number as a rated archive has it, with a point or a comma."""
    try:
        number = Decimal(text.strip().replace(',', '.'))
    except InvalidOperation:
        return None
    return number if number.is_finite() and abs(number) < 10 ** 6 else None


class Summary:
    """What a rated archive's rows come to, gathered row by row."""

    def __init__(self, titles: Sequence[str], time_column: Optional[str], plate: Optional[int]) -> None:
        from . import pictures
        self.number, self.refusal, self.word, self.detail = (
            titles.index(name) for name in ('methane_number', 'refusal', 'word', 'detail'))
        self.time = None if time_column is None else place_of(time_column, titles)
        self.plate, self.clock, self.history = plate, Clock(), pictures.History()
        self.rows = self.rated = self.below = self.untimed = 0
        self.moles = False                  # a refusal says that volumes were made from moles
        self.refused: 'Counter[tuple[int, str]]' = Counter()
        self.unreadable: 'Counter[str]' = Counter()
        self.least: Optional[Decimal] = None
        self.greatest: Optional[Decimal] = None
        self.total = Decimal(0)

    def take(self, cells: Sequence[str]) -> None:
        self.rows += 1
        place: Optional[float] = self.rows
        if self.time is not None:
            place = self.clock.seconds(cells[self.time]) if self.time < len(cells) else None
            self.untimed += place is None
        number = number_in(cells[self.number]) if self.number < len(cells) else None
        if number is not None:
            self.take_number(number, place)
            return
        refusal, word, detail = (cells[at].strip() if at < len(cells) else '' for at in (
            self.refusal, self.word, self.detail))
        refused = refusal.isascii() and refusal.isdigit()
        self.moles |= detail.endswith(gas.MADE)
        if refused:
            self.refused[int(refusal[:9]), word[:60]] += 1
        else:
            self.unreadable[word[:60] or 'unreadable'] += 1
        if place is not None:
            (self.history.refused if refused else self.history.unreadable)(place)

    def take_number(self, number: Decimal, place: Optional[float]) -> None:
        below = self.plate is not None and number < self.plate
        self.rated += 1
        self.below += below
        self.total += number
        if self.least is None or number < self.least:
            self.least = number
        if self.greatest is None or number > self.greatest:
            self.greatest = number
        if place is not None:
            self.history.rated(place, float(number), below)


def place_of(column: str, titles: Sequence[str]) -> int:
    if one_line(column) not in titles:
        raise ValueError("there is no column '%s'; there are %s" % (
            lines.shown(column), ', '.join("'%s'" % lines.shown(title) for title in titles)))
    return titles.index(one_line(column))


def archive_page(path: Union[str, 'os.PathLike[str]', IO[bytes]], *, time_column: Optional[str] = None,
                 plate: Optional[int] = None, title: Optional[str] = None, skip: int = 0) -> str:
    """The page of a rated archive, as `saugrinte batch` writes it; over the times of a column, or else row by row.
    `skip` lines stand before its titles. Its rows are read once, in bounded memory. ValueError where it is none, or its
    times cannot be read."""
    if isinstance(path, (str, os.PathLike)):
        with open(path, 'rb') as file:
            return archive_page(file, time_column=time_column, plate=plate, skip=skip,
                                title=os.path.basename(os.fspath(path)) if title is None else title)
    start = path.read(START)
    rated = rated_archive(start, skip)
    if not rated:
        raise ValueError(told_of_table(start, skip) or
                         'this is no rated archive: its first row has not the titles %s' % ', '.join(batch.ADDED))
    title = 'Rated archive' if title is None else title
    return page(title, archive_body(rated, start, path, time_column=time_column, plate=plate, title=title))


TIME_TITLES = re.compile(r'(?i)\b(?:date|time|timestamp|datetime|datum|zeit|zeitpunkt|sampled)\b')
NOT_RATED = 'this is an archive that is not rated yet: run `saugrinte batch` on it first, and report what that writes'


def archive_body(rated: Titles, start: bytes, file: IO[bytes], *, time_column: Optional[str], plate: Optional[int],
                 title: str) -> str:
    from . import pictures
    rows = rows_of(start[rated.offset:], file, rated.separator)
    first = next(rows, None)
    if time_column is None and first is not None:
        time_column = times_in(rated.cells, first)
    summary = Summary(rated.cells, time_column, plate)
    for cells in () if first is None else chain([first], rows):
        summary.take(cells)
    if summary.rows and summary.untimed == summary.rows:
        raise ValueError("no time in column '%s' can be read; times are as 2025-12-31 23:59:00 or 31.12.2025 23:59"
                         % lines.shown(time_column or ''))
    svg = pictures.archive_picture(summary.history, plate, times=time_column is not None)
    return '<main>\n<h1>%s</h1>\n%s\n<div class="wide">%s</div>\n%s\n</main>' % (
        escape(title), archive_top(summary), figure(svg, archive_caption(summary, time_column)),
        tables(*archive_tables(summary)))


def times_in(titles: Sequence[str], row: Sequence[str]) -> Optional[str]:
    """The first column whose title says that it has times, and which has one; the caption names it."""
    clock = Clock()
    return next((title for title, cell in zip(titles, row)
                 if TIME_TITLES.search(title) and clock.seconds(cell) is not None), None)


def archive_top(summary: Summary) -> str:
    said = ['%d of %s rated' % (summary.rated, gas.counted(summary.rows, 'row'))]
    if summary.plate is not None:
        said.append('%d below plate number %d' % (summary.below, summary.plate))
    if summary.rated < summary.rows:
        said.append('%d refused, %d unreadable' % (sum(summary.refused.values()), sum(summary.unreadable.values())))
    return paragraph('; '.join(said), 'verdict')


def archive_caption(summary: Summary, time_column: Optional[str]) -> str:
    many = summary.history.points is None
    return 'The methane number %s: %s.%s%s' % (
        "over the times of column '%s'" % time_column if time_column is not None else 'row by row',
        'the mean, and the band from the least to the greatest, of rows that lie together' if many
        else 'each rated row',
        ' Marks below the picture are rows below the plate, refused and unreadable, where there are such.',
        ' %s no time that can be read and left out of the picture.' % (
            '1 row has' if summary.untimed == 1 else '%d rows have' % summary.untimed) if summary.untimed else '')


def share(count: int, rows: int) -> str:
    return '%.2f' % (100 * count / rows) if rows else ''


def archive_tables(summary: Summary) -> list[str]:
    refused, unreadable = sum(summary.refused.values()), sum(summary.unreadable.values())
    counts = [('rows', summary.rows), ('rated', summary.rated), ('refused', refused), ('unreadable', unreadable)]
    if summary.plate is not None:
        counts.append(('below plate %d' % summary.plate, summary.below))
    out = [table('Rows', [Cell(''), 'rows', '% of all'], [[Cell(name), count, share(count, summary.rows)]
                                                          for name, count in counts])]
    if summary.rated:
        mean = (summary.total / summary.rated).quantize(Decimal('0.0000001'))
        out.append(table('Methane numbers', ['least', 'mean', 'greatest'], [[summary.least, mean, summary.greatest]]))
    if refused:
        out.append(table('Refused rows', ['refusal', Cell('word'), 'rows', Cell('when', 'long')], [
            [number, Cell(word), count, Cell(when_given(number, summary.moles), 'long')]
            for (number, word), count in sorted(summary.refused.items())]))
    if unreadable:
        out.append(table('Unreadable rows', [Cell('word'), 'rows'], [
            [Cell(word), count] for word, count in sorted(summary.unreadable.items())]))
    return out


# ------------------------------------------------------------ the command

def write(path: str, text: str) -> None:
    """Writes a page whole, to standard output, or into a file that is no plain one."""
    data = text.encode('utf-8', 'replace')
    if path == '-':
        sys.stdout.buffer.write(data)
        sys.stdout.buffer.flush()
    elif os.path.exists(path) and not os.path.isfile(path):
        with open(path, 'wb') as file:
            file.write(data)
    else:
        batch.write_whole(os.path.realpath(path), data)


def reported(file: IO[bytes], *, moles: bool, time_column: Optional[str], plate: Optional[int], title: str,
             skip: int = 0) -> str:
    """The page's body of a file, whichever it is: lines, a sheet, or a rated archive. ValueError where it is none."""
    start = file.read(START)
    rated = rated_archive(start, skip)
    if rated:
        if moles:
            raise ValueError('this is a rated archive: whether it was in moles was said to `saugrinte batch`')
        return archive_body(rated, start, file, time_column=time_column, plate=plate, title=title)
    try:
        amounts, answer = answer_to(start + file.read(lines.MOST + 1), moles)
    except ValueError as wrong:
        raise ValueError(told_of_table(start, skip) or str(wrong)) from None
    if time_column is not None:
        raise ValueError('a gas has no column of times: these are for rated archives')
    if skip:
        raise ValueError('a gas has no titles, and no lines before them: these are for rated archives')
    return gas_body(amounts, answer, moles=moles, title=title, plate=plate)


def plate_given(context: click.Context, parameter: click.Parameter, text: Optional[str]) -> Optional[int]:
    try:
        return None if text is None else plate_of(text)
    except ValueError as wrong:
        raise click.BadParameter(str(wrong)) from None


@click.command('report', short_help='A page with pictures of a gas or of a rated archive.')
@click.argument('file', type=click.Path(exists=True, dir_okay=False, allow_dash=True))
@click.option('-o', '--output', required=True, metavar='REPORT.html', help='Where the page goes; - is standard output.')
@click.option('--plate', callback=plate_given, metavar='N',
              help='An engine\u2019s plate number, 0 to %d, to hold the numbers against.' % GREATEST_PLATE)
@click.option('--moles', is_flag=True, help='The lines are mole percent.')
@click.option('--time', 'time_column', metavar='COLUMN',
              help='The column of a rated archive that has times; else one whose title says date or time.')
@click.option('--skip', type=click.IntRange(0), default=0, metavar='N',
              help='Lines before the titles of a rated archive.')
@click.option('--title', metavar='TEXT', help='The page\u2019s title; the file\u2019s name where none is given.')
def command(file: str, output: str, plate: Optional[int], moles: bool, time_column: Optional[str], skip: int,
            title: Optional[str]) -> None:
    """Write a report of FILE: one page of HTML with pictures and tables that needs nothing besides itself.

    FILE is a gas, in lines or as a sheet, or a rated archive as `saugrinte batch` writes it.
    """
    name = 'standard input' if file == '-' else file
    title = os.path.basename(name) if title is None else title
    try:
        if output != '-' and (os.path.isfile(output) or not os.path.exists(output)):
            output = batch.output_of(output, file)
        with click.open_file(file, 'rb') as opened:
            body = reported(opened, moles=moles, time_column=time_column, plate=plate, title=title, skip=skip)
        write(output, page(title, body))
    except batch.BatchError as wrong:
        raise click.ClickException(str(wrong)) from None
    except (OSError, ValueError) as wrong:
        raise click.ClickException('%s: %s' % (
            getattr(wrong, 'filename', None) or name, getattr(wrong, 'strerror', None) or wrong)) from None
