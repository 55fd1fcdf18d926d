"""Rates an archive again beside the numbers that its first papers have, and tells which rows differ, by how much, and
which known mistake gives the first number.

A first number may differ from the number again by the method's spread, 0.05, and by half a unit of its own last
decimal: 91 by 0.55, 91.1 by 0.1, 91.08 by 0.055. A difference is the number again less the first number. A mistake is
named where the number that it gives lies as near to the first number; mistakes are worked out for rows that differ
alone. A row that the library refuses, that has a retired code or that cannot be read is named with its refusal and not
rated by guess. Rows count from 1, titles and blank lines left out; lines are those of the file.
"""
import heapq
import json
import os
import re
import sys
from collections import Counter
from dataclasses import dataclass, field, replace
from decimal import Decimal
from functools import partial
from typing import Any, Callable, Iterator, NamedTuple, Optional, Sequence, Union

import click

from . import gas, library
from .archive import Archive, ArchiveError, Layout, chunks, quoted, text_of
from .batch import SIZE, BatchError, answers, crew_of, output_of, write_whole
from .command import STOPPED, WRONG, archive_of, archive_options, progress_bar
from .gas import counted
from .lines import shown
from .mistakes import Mistaken, Untried, tried
from .ratings import number_of
from .words import methane_number

SPREAD = number_of(gas.SPREAD_LIMIT).normalize()
FIRST = re.compile(r'[+-]?([0-9]{1,9})(?:[.,]([0-9]{0,12}))?')
RETIRED = 3
UNEXPLAINED = 'no known mistake gives it'


# ------------------------------------------------------------ what is found

class Plan(NamedTuple):
    """What each process needs besides the layout."""
    first: int                          # the column of first numbers
    label: Optional[int]                # the first column that is neither that nor a component's
    allow: Decimal
    worst: Optional[int]                # no more findings of one chunk are wanted


@dataclass(frozen=True)
class Row:
    row: int
    line: int
    label: str
    first: str                          # as it stands


@dataclass(frozen=True)
class Finding(Row):
    """A row whose number again differs from the first by more than is allowed."""
    units: int
    difference: Decimal
    allowed: Decimal
    changed: str                        # what --normalise or --round did to the amounts
    mistakes: tuple[Mistaken, ...] = ()         # those that give the first number, nearest first
    untried: tuple[Untried, ...] = ()


@dataclass(frozen=True)
class NotRated(Row):
    """A row that is refused now (a number of the table), or not given to the library (0)."""
    number: int
    word: str
    detail: str


@dataclass(frozen=True)
class NoFirst(Row):
    """A row that is rated and whose first number is empty or no number."""
    units: int


@dataclass
class Found:
    """What a chunk or an archive has."""
    rows: int = 0
    differ: int = 0
    agree: int = 0
    findings: list[Finding] = field(default_factory=list)
    not_rated: list[NotRated] = field(default_factory=list)
    no_first: list[NoFirst] = field(default_factory=list)

    def add(self, other: 'Found') -> None:
        """Adds the next chunk's, whose rows then count on."""
        for name in ('findings', 'not_rated', 'no_first'):
            getattr(self, name).extend(replace(entry, row=entry.row + self.rows) for entry in getattr(other, name))
        self.rows, self.differ, self.agree = (
            self.rows + other.rows, self.differ + other.differ, self.agree + other.agree)


# ------------------------------------------------------------ rows

def first_number(text: str) -> Optional[tuple[Decimal, Decimal]]:
    """A printed number and half a unit of its last decimal; None where it is no number."""
    found = FIRST.fullmatch(text)
    if not found:
        return None
    return Decimal(text.replace(',', '.')), Decimal(5).scaleb(-1 - len(found[2] or ''))


def worst_first(finding: Finding) -> tuple[Decimal, int]:
    return -abs(finding.difference), finding.row


def explained(finding: Finding, amounts: Sequence[int], moles: bool) -> Finding:
    """A finding with the mistakes that give its first number."""
    first = number_of(finding.units) - finding.difference
    numbers, untried = tried(amounts, moles)
    far = [(abs(number_of(m.units) - first), place) for place, m in enumerate(numbers)]
    near = tuple(numbers[place] for distance, place in sorted(far) if distance <= finding.allowed)
    return replace(finding, mistakes=near, untried=tuple(untried))


def audit_chunk(plan: Plan, layout: Layout, line: int, data: bytes) -> Found:
    """What the rows of a chunk have, rows counted from 1 within it."""
    found = Found()
    differing: list[tuple[Finding, list[int]]] = []
    for at, raw, cells, amounts, answer in answers(data, line, layout):
        if not raw.strip():
            continue
        found.rows += 1
        first, label = (cells[index].strip() if index is not None and index < len(cells) else ''
                        for index in (plan.first, plan.label))
        row = (found.rows, at, label, first)
        if len(answer) <= 4:
            found.not_rated.append(NotRated(*row, *answer[:3]))
            continue
        printed = None if first in layout.absent else first_number(first)
        if printed is None:
            found.no_first.append(NoFirst(*row, answer[4]))
            continue
        difference, allowed = number_of(answer[4]) - printed[0], plan.allow + printed[1]
        if abs(difference) <= allowed:
            found.agree += 1
        else:
            differing.append((Finding(*row, answer[4], difference, allowed, answer[3]), amounts))
    found.differ = len(differing)
    if plan.worst is not None:
        differing = heapq.nsmallest(plan.worst, differing, key=lambda pair: worst_first(pair[0]))
    found.findings = [explained(finding, amounts, layout.moles) for finding, amounts in differing]
    return found


def audited(archive: Archive, plan: Plan, processes: Optional[int] = None,
            progress: Callable[[int], Any] = lambda size: None) -> Found:
    """What an archive has, findings worst first, all else in the order of rows."""
    by_chunk: dict[int, Found] = {}
    with crew_of(processes, None) as crew:
        for chunk, found in crew.mapped(partial(audit_chunk, plan), archive.layout, chunks(archive, SIZE)):
            by_chunk[chunk.number] = found
            progress(len(chunk.data))
    whole = Found()
    for index in sorted(by_chunk):
        whole.add(by_chunk.pop(index))
    whole.findings.sort(key=worst_first)
    return whole


def plan_of(layout: Layout, first: str, allow: Decimal = SPREAD, worst: Optional[int] = None) -> Plan:
    """The plan for a column of first numbers, or ArchiveError."""
    places = [index for index, title in enumerate(layout.titles) if title == first.strip()]
    others = ', '.join("'%s'" % shown(layout.titles[index]) for index in layout.carried) or 'none'
    if len(places) != 1:
        raise ArchiveError("%s column '%s' for first numbers; columns that are no component's: %s" % (
            'there is no' if not places else 'there is more than one', shown(first), others))
    if places[0] not in layout.carried:
        raise ArchiveError("column '%s' is a component's, and has no first numbers; columns that are none's: %s" % (
            shown(first), others))
    label = next((index for index in layout.carried if index != places[0]), None)
    return Plan(places[0], label, allow, worst)


# ------------------------------------------------------------ for people

def signed(difference: Decimal) -> str:
    return '%+.4f' % difference


def where(row: Row) -> str:
    return 'row %d (line %d)%s' % (row.row, row.line, ', ' + shown(row.label) if row.label else '')


def reasons(finding: Finding) -> Iterator[str]:
    """What is said of a finding's cause."""
    for place, mistaken in enumerate(finding.mistakes):
        yield '%s%s: %s, gives %s' % ('or ' if place else '', mistaken.mistake.kind, mistaken.mistake.sentence,
                                      methane_number(mistaken.units))
    if not finding.mistakes:
        yield UNEXPLAINED
        for untried in finding.untried:
            yield 'could not be tried: %s (%s)' % (untried.mistake.sentence, untried.reason)


def finding_lines(finding: Finding) -> Iterator[str]:
    yield '%s: first %s, again %s, difference %s%s' % (
        where(finding), shown(finding.first), methane_number(finding.units), signed(finding.difference),
        ', amounts %s' % finding.changed if finding.changed else '')
    yield from ('    ' + reason for reason in reasons(finding))


def refusal_of(row: NotRated) -> str:
    word = '%d, %s' % (row.number, row.word) if row.number else row.word
    return '%s: %s%s' % (word, row.detail, ': the row is not rated' if row.number == RETIRED else '')


def refused_lines(row: NotRated) -> Iterator[str]:
    yield '%s: %s%s' % (where(row), refusal_of(row), '; first %s' % shown(row.first) if row.first else '')


def missing_lines(row: NoFirst) -> Iterator[str]:
    said = "first number '%s' is not readable" % shown(row.first) if row.first else 'no first number'
    yield '%s: %s, again %s' % (where(row), said, methane_number(row.units))


def listed(title: str, entries: Sequence[Row], lines_of: Callable[[Any], Iterator[str]], count: int,
           worst: Optional[int]) -> list[str]:
    """A section of the page, or nothing where there are no such rows."""
    if not count:
        return []
    some = list(entries) if worst is None else list(entries[:worst])
    out = ['', title] + ['  ' + line for entry in some for line in lines_of(entry)]
    return out + (['  and %d more' % (count - len(some))] if count > len(some) else [])


def page(found: Found, archive: Archive, plan: Plan, worst: Optional[int]) -> str:
    """What is found, for a person."""
    kinds = Counter('%d %s' % (row.number, row.word) if row.number else row.word for row in found.not_rated)
    named = ' (%s)' % ', '.join('%s: %d' % kind for kind in sorted(kinds.items())) if kinds else ''
    out = ["%s, rated again beside '%s' by library %s" % (
               shown(os.path.basename(archive.path)), shown(archive.layout.titles[plan.first]), library.version()),
           '%s: %d agree, %d differ, %d not rated%s, %d without a first number' % (
               counted(found.rows, 'row'), found.agree, found.differ, len(found.not_rated), named, len(found.no_first)),
           "allowed: %s and half a unit of the first number's last decimal" % plan.allow.normalize().to_eng_string()]
    out += listed('Differ, worst first (difference: again less first):', found.findings, finding_lines, found.differ,
                  worst)
    out += listed('Not rated:', found.not_rated, refused_lines, len(found.not_rated), worst)
    out += listed('Without a first number:', found.no_first, missing_lines, len(found.no_first), worst)
    return '\n'.join(out)


# ------------------------------------------------------------ for machines

def entry(row: Row) -> dict[str, Any]:
    """A row for JSON; numbers as text, so that no digit is lost."""
    said: dict[str, Any] = {'row': row.row, 'line': row.line, 'label': row.label, 'first_number': row.first}
    if isinstance(row, NotRated):
        return {**said, 'refusal': row.number or None, 'word': row.word, 'detail': row.detail}
    said['number_again'] = str(number_of(row.units)) if isinstance(row, (Finding, NoFirst)) else None
    if not isinstance(row, Finding):
        return said
    return {**said, 'difference': str(row.difference), 'allowed': str(row.allowed), 'changed': row.changed or None,
            'mistakes': [{'key': m.mistake.key, 'kind': m.mistake.kind, 'mistake': m.mistake.sentence,
                          'gives': str(number_of(m.units))} for m in row.mistakes],
            'untried': [{'key': u.mistake.key, 'kind': u.mistake.kind, 'mistake': u.mistake.sentence,
                         'reason': u.reason} for u in row.untried]}


def as_dict(found: Found, archive: Archive, plan: Plan, worst: Optional[int]) -> dict[str, Any]:
    """What is found, for JSON."""
    return {'archive': archive.path, 'first': archive.layout.titles[plan.first], 'library': library.version(),
            'allow': str(plan.allow), 'rows': found.rows, 'agree': found.agree, 'differ': found.differ,
            'not_rated': len(found.not_rated), 'without_first': len(found.no_first),
            'findings': [entry(row) for row in found.findings[:worst]],
            'rows_not_rated': [entry(row) for row in found.not_rated[:worst]],
            'rows_without_first': [entry(row) for row in found.no_first[:worst]]}


COLUMNS = ('kind', 'row', 'line', 'label', 'first_number', 'number_again', 'difference', 'mistake', 'gives', 'refusal',
           'word', 'detail')


def cells(row: Union[Finding, NotRated, NoFirst], layout: Layout) -> list[str]:
    """A row of the findings' file; of the mistakes it names the nearest apart, and all in words."""
    place = [str(row.row), str(row.line), row.label, row.first]
    if isinstance(row, NotRated):
        return ['not rated', *place, '', '', '', '', str(row.number or ''), row.word, row.detail]
    if isinstance(row, NoFirst):
        return ['without a first number', *place, text_of(row.units, layout), *[''] * 6]
    nearest = row.mistakes[:1]
    difference = str(row.difference).replace('.', ',' if layout.comma else '.')
    return ['differs', *place, text_of(row.units, layout), difference,
            nearest[0].mistake.key if nearest else '', text_of(nearest[0].units, layout) if nearest else '', '', '',
            '; '.join(reasons(row))]


def findings_file(found: Found, layout: Layout) -> bytes:
    """All that is found as rows with the archive's separator, decimal sign and line ends."""
    entries: list[Any] = [*found.findings, *found.not_rated, *found.no_first]
    rows = [COLUMNS, *(cells(row, layout) for row in entries)]
    lines = (layout.separator.join(quoted(cell, layout.separator) for cell in row) for row in rows)
    return ''.join(line + layout.newline for line in lines).encode('utf-8', 'surrogateescape')


# ------------------------------------------------------------ the command

def as_allowance(context: click.Context, parameter: click.Parameter, value: Optional[str]) -> Decimal:
    if value is None:
        return SPREAD
    if not re.fullmatch(r'[0-9]{1,9}([.,][0-9]{1,12})?', value):
        raise click.BadParameter("'%s' is no difference such as 0.1" % shown(value))
    return Decimal(value.replace(',', '.'))


def stop(wrong: Union[Exception, str]) -> click.ClickException:
    """A command that cannot be carried out: status 2, for 1 says that something was found."""
    error = wrong if isinstance(wrong, click.ClickException) else click.ClickException(str(wrong))
    error.exit_code = WRONG
    return error


@click.command('audit')
@click.argument('archive', type=click.Path(exists=True, dir_okay=False))
@click.option('--first', required=True, metavar='COLUMN', help='The column with the numbers of the first papers.')
@archive_options
@click.option('--allow', metavar='D', callback=as_allowance,
              help="Difference that is allowed besides half a unit of the first number's last decimal; 0.05 else.")
@click.option('--worst', type=click.IntRange(1), metavar='N', help='Print no more than N rows of each list.')
@click.option('-o', '--output', type=click.Path(dir_okay=False), help='Write all rows that are found to this file.')
@click.option('--json', 'as_json', is_flag=True, help='Print one JSON object, not a page.')
@click.option('--processes', type=click.IntRange(1), help='How many; all processors else.')
def command(archive: str, first: str, allow: Decimal, worst: Optional[int], output: Optional[str], as_json: bool,
            processes: Optional[int], **how: Any) -> None:
    """Rate an archive again beside the numbers of its first papers.

    Lists the rows that differ by more than the method's own spread allows, worst first, and says which known mistake
    gives the first number where one does: heavy ends read as inert, an inert read as heavy ends, pentanes folded after
    scaling, nitrogen in the inert mixture, butanes left out, moles taken for volumes. Where none does, it says which
    could not be tried.

    A first number may have a decimal comma. It may differ by 0.05, the method's spread, and by half a unit of its last
    decimal: 91 by 0.55, 91.1 by 0.1. A program that solves for equal partial numbers, as the standard's own examples
    do, gives numbers up to 0.7 from these: for such an archive give --allow.

    Rows that are refused now, among them those with a retired code, are listed apart and not rated by guess. Rows
    without a first number that can be read are listed apart too.

    Status 0 where nothing differs and each row is rated, 1 where a row differs or is not rated, 2 where the command or
    the archive's titles are wrong.
    """
    try:
        opened = archive_of(archive, {**how, 'known': (first.strip(),)})
        plan = plan_of(opened.layout, first, allow, None if output else worst)
        output = output and output_of(output, archive)
        with progress_bar(opened, os.path.basename(archive)) as bar:
            found = audited(opened, plan, processes, bar.update)
        if output:
            write_whole(output, findings_file(found, opened.layout))
    except (click.ClickException, ArchiveError, BatchError) as wrong:
        raise stop(wrong) from None
    except OSError as wrong:
        raise stop('%s: %s' % (wrong.filename or output or archive, wrong.strerror)) from None
    except KeyboardInterrupt:
        click.echo('saugrinte: stopped', err=True)
        sys.exit(STOPPED)
    click.echo(json.dumps(as_dict(found, opened, plan, worst)) if as_json else page(found, opened, plan, worst))
    sys.exit(1 if found.differ or found.not_rated else 0)
