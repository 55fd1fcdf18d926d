"""The command `saugrinte`."""
import importlib
import json
import os
import sys
from typing import Any, Callable, Optional

import click

from . import gas, library, lines
from .amounts import UNITS, in_unit
from .archive import BASES, SEPARATORS, Archive, ArchiveError, Options, open_archive
from .ratings import Rating, Refused, rate_mole_sheet, rate_sheet
from .words import methane_number

UNREAD, WRONG, STOPPED = 1, 2, 130      # statuses: a file could not be read, a wrong command, an interrupt


class Commands(click.Group):
    """Commands in modules of their own, which are loaded when they are called."""
    APART = {'audit': 'audit', 'report': 'report', 'serve': 'serve'}

    def list_commands(self, context: click.Context) -> list[str]:
        return sorted({*super().list_commands(context), *self.APART})

    def get_command(self, context: click.Context, name: str) -> Optional[click.Command]:
        if name in self.APART:
            return importlib.import_module('saugrinte.' + self.APART[name]).command
        return super().get_command(context, name)


@click.group(cls=Commands, context_settings={'help_option_names': ['-h', '--help']})
def group() -> None:
    """Methane numbers by the MWM method (EN 16726 Annex A), worked out by a proved library."""


@group.command('version')
def show_version() -> None:
    """Print the library's version."""
    click.echo(library.version())


# ------------------------------------------------------------ rate

def content(name: str) -> bytes:
    with click.open_file(name, 'rb') as file:
        return file.read(lines.MOST + 1)


def answer_to(data: bytes, moles: bool) -> Rating:
    """The rating of a file's bytes, lines or a sheet."""
    if moles:
        return rate_mole_sheet(lines.of_mole_lines(data)[1])
    return rate_sheet(lines.of_lines(data) if gas.is_text(data) else data)


def page(rating: Rating) -> str:
    """A rating for a person."""
    out = ['methane number  ' + methane_number(rating.units) + (gas.MADE if rating.moles else ''),
           'whole number    %d' % rating.whole_number,
           'amounts         %s' % ('mole percent' if rating.moles else 'percent by volume'),
           'spread          %s, at most 0.05' % methane_number(rating.spread_units),
           'rounds          %d' % rating.rounds, '',
           'the split, in percent of the simplified mixture:']
    names = [name for name in gas.SPLIT_NAMES.values() if any(r.component == name for r in rating.split)]
    rows = [['system', *names, 'sum', 'partial number']]
    for share in rating.systems:
        rows.append([str(share.system), *('%.4f' % in_unit(share.components[name]) if name in share.components else '-'
                                          for name in names),
                     '%.4f' % share.percent, methane_number(share.units)])
    sums = [sum(r.parts for r in rating.split if r.component == name) for name in names]
    rows.append(['all', *('%.4f' % in_unit(parts) for parts in sums), '%.4f' % in_unit(sum(sums)), ''])
    widths = [max(len(row[i]) for row in rows) for i in range(len(rows[0]))]
    out += ['  '.join(cell.rjust(width) for cell, width in zip(row, widths)).rstrip() for row in rows]
    return '\n'.join(out)


def refusal_page(refused: Refused) -> str:
    """A refusal for a person."""
    return 'refused %d, %s: %s' % (refused.number, refused.word, refused.reason)


@group.command('rate')
@click.argument('files', metavar='FILE...', nargs=-1, required=True)
@click.option('--moles', is_flag=True, help='Amounts are mole percent; the volumes are made from them.')
@click.option('--json', 'as_json', is_flag=True, help='One JSON object for each file, a line each.')
def rate_files(files: tuple[str, ...], moles: bool, as_json: bool) -> None:
    """Rate files: an analysis in lines (`methane 97.0797`, percent) or a sheet; - is standard input.

    Status 0 where each file was answered, rated or refused; 1 where one could not be read.
    """
    status = 0
    for place, name in enumerate(files):
        said: dict[str, Any] = {'file': name}
        try:
            rating = answer_to(content(name), moles)
            text, said = page(rating), {**said, **rating.as_dict()}
        except Refused as refused:
            text, said = refusal_page(refused), {**said, **refused.as_dict()}
        except (OSError, ValueError) as wrong:
            message = getattr(wrong, 'strerror', None) or str(wrong)
            click.echo('saugrinte: %s: %s' % (name, message), err=True)
            status = UNREAD
            if not as_json:
                continue
            said['error'] = message
        if as_json:
            click.echo(json.dumps(said))
        else:
            click.echo(('' if place == 0 else '\n') + (name + '\n' if len(files) > 1 else '') + text)
    sys.exit(status)


# ------------------------------------------------------------ archives

def declared(context: click.Context, parameter: click.Parameter,
             values: tuple[str, ...]) -> tuple[tuple[str, ...], ...]:
    pairs = tuple(tuple(value.rsplit('=', 1)) for value in values)
    for pair in pairs:
        if len(pair) != 2:
            raise click.BadParameter("'%s' is not TITLE=COMPONENT" % pair[0])
    return pairs


ARCHIVE_OPTIONS = (
    click.option('--unit', type=click.Choice(list(UNITS)),
                 help='Unit of columns whose title has none; a part is 0.0001 %, or 1 ppm.'),
    click.option('--basis', type=click.Choice(BASES),
                 help='What amounts are shares of, where no title says it.'),
    click.option('--separator', type=click.Choice(list(SEPARATORS)), help='Between cells; found from the titles else.'),
    click.option('--column', 'columns', metavar='TITLE=COMPONENT', multiple=True, callback=declared,
                 help="What a column is; '-' for one to carry along. Several of one component are added."),
    click.option('--absent', metavar='TEXT', multiple=True,
                 help='A text in a cell that stands for an absent component.'),
    click.option('--normalise', '--normalize', is_flag=True,
                 help='Scale amounts to 100 %; rows so changed are marked.'),
    click.option('--round', 'rounded', is_flag=True,
                 help='Round amounts finer than a part, halves up; rows so changed are marked.'),
    click.option('--skip', type=click.IntRange(0), default=0, metavar='N',
                 help='Lines before the titles, which are kept as they are.'),
)


def archive_options(function: Callable[..., Any]) -> Callable[..., Any]:
    """The options that say how an archive is read; the function gets them as keywords."""
    for option in reversed(ARCHIVE_OPTIONS):
        function = option(function)
    return function


def archive_of(path: str, how: dict[str, Any], quiet: bool = False) -> Archive:
    """Opens an archive as the options say, and tells how it is read."""
    try:
        archive = open_archive(path, Options(**how))
    except ArchiveError as wrong:
        raise click.ClickException('%s: %s' % (path, wrong)) from None
    except OSError as wrong:
        raise click.ClickException('%s: %s' % (path, wrong.strerror)) from None
    for note in archive.notes:
        if not quiet:
            click.echo('saugrinte: ' + note, err=True)
    return archive


def progress_bar(archive: Archive, title: str) -> Any:
    """A progress bar on a terminal, nothing elsewhere."""
    from tqdm import tqdm
    tqdm.monitor_interval = 0
    return tqdm(total=archive.size - archive.offset, unit='B', unit_scale=True, desc=title, disable=None,
                file=sys.stderr)


@group.command('batch')
@click.argument('archive', type=click.Path(exists=True, dir_okay=False))
@click.option('-o', '--output', required=True, type=click.Path(dir_okay=False), help='The rated archive.')
@archive_options
@click.option('--resume', is_flag=True, help='Go on with a run that was stopped.')
@click.option('--force', is_flag=True, help='Write the output anew where it is there already.')
@click.option('--processes', type=click.IntRange(1), help='How many; all processors else.')
@click.option('--scheduler', metavar='ADDRESS', help='Rate on the workers of this dask scheduler.')
def batch_archive(archive: str, output: str, resume: bool, force: bool, processes: Optional[int],
                  scheduler: Optional[str], **how: Any) -> None:
    """Rate an archive: the same rows out, each with its methane number, whole number, spread and rounds, or with its
    refusal, word and detail.

    A row that cannot be read is marked and never stops the run. Rows that are done are kept in OUTPUT.parts, and OUTPUT
    appears when it is whole.
    """
    from .batch import BatchError, rate_archive, summary
    opened = archive_of(archive, how)
    if resume and os.path.isfile(output) and not os.path.exists(os.path.realpath(output) + '.parts'):
        click.echo('saugrinte: %s is there and no run is left to go on with' % output, err=True)
        return
    try:
        with progress_bar(opened, os.path.basename(archive)) as bar:
            tally = rate_archive(opened, output, resume=resume, force=force, processes=processes, scheduler=scheduler,
                                 progress=bar.update)
    except (ArchiveError, BatchError) as wrong:
        raise click.ClickException(str(wrong)) from None
    except OSError as wrong:
        raise click.ClickException('%s: %s' % (wrong.filename or output, wrong.strerror)) from None
    except KeyboardInterrupt:
        click.echo('saugrinte: stopped; --resume goes on', err=True)
        sys.exit(STOPPED)
    click.echo('saugrinte: %s: %s' % (output, summary(tally)), err=True)


def main() -> None:
    """Runs the command."""
    try:
        group(prog_name='saugrinte')
    except library.Missing as wrong:
        click.echo('saugrinte: %s' % wrong, err=True)
        sys.exit(WRONG)
    except OSError as wrong:                # standard output cannot be written
        click.echo('saugrinte: standard output: %s' % wrong.strerror, err=True)
        os.dup2(os.open(os.devnull, os.O_WRONLY), sys.stdout.fileno())
        sys.exit(WRONG)


if __name__ == '__main__':
    main()
