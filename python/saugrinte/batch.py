"""Rates an archive: the same rows out, each with its rating or its refusal.

The archive is cut into chunks, which are rated on all processors or on a dask cluster. Each chunk that is done is a
file of its own in the folder OUTPUT.parts, whole or not there; when all are done they are put together as OUTPUT, which
is whole or not there either. A run that was stopped is gone on with from the chunks that are there.
"""
import fcntl
import json
import os
import re
import secrets
import shutil
import signal
from collections import Counter
from contextlib import contextmanager
from multiprocessing import get_context
from multiprocessing.connection import Connection, wait
from typing import Any, Callable, Iterator, Optional

from . import gas, library
from .archive import (Archive, ArchiveError, Chunk, Layout, RowError, amounts_of, cells_of, chunks, quoted,
                      record_form, records, strange_code, text_of)
from .ratings import refusal_of

# The columns that are added, and the one more where amounts are rounded or normalised.
ADDED = ('methane_number', 'whole_number', 'spread', 'rounds', 'refusal', 'word', 'detail')
CHANGED = 'changed'
SIZE = 1 << 19              # bytes of a chunk


class BatchError(Exception):
    """The run cannot begin or go on."""


def added(layout: Layout) -> tuple[str, ...]:
    return ADDED + ((CHANGED,) if layout.normalise or layout.rounded else ())


# ------------------------------------------------------------ rows

def answers(data: bytes, line: int, layout: Layout) -> Iterator[tuple[int, str, list[str], list[int], tuple[Any, ...]]]:
    """Each row of a chunk: (line, row, cells, amounts, answer). The answer is (0, '', '', what was changed, rating,
    spread, rounds, whole number), or (number, word, detail, what was changed), the number 0 where the library was not
    asked."""
    search, separator, closed = library.searcher(layout.moles), layout.separator, record_form(layout.separator)
    for offset, raw in records(data.decode('utf-8', 'surrogateescape'), separator):
        cells: list[str] = []
        amounts: list[int] = []
        try:
            if '"' in raw and not closed.fullmatch(raw):
                raise RowError('unreadable', 'a quote is not closed')
            cells = cells_of(raw, separator)
            strange = strange_code(cells, layout) if layout.strange else None
            if strange:
                answer: tuple[Any, ...] = (strange.number, gas.REFUSALS[strange.number][0], strange.detail, '')
            else:
                amounts, changed = amounts_of(cells, layout)
                said = search(amounts)
                if said[0]:
                    refused = refusal_of(said[0], said[1], amounts, moles=layout.moles)
                    answer = (refused.number, refused.word, refused.reason, changed)
                else:
                    answer = (0, '', '', changed, *said[2:])
        except RowError as wrong:
            answer = (0, wrong.word, wrong.detail, '')
        except Exception as wrong:          # a bad row never stops the run
            answer = (0, 'unreadable', str(wrong) or type(wrong).__name__, '')
        yield line + offset, raw, cells, amounts, answer


def rated_row(raw: str, width: int, answer: tuple[Any, ...], layout: Layout) -> str:
    """A row with its answer. One with too few cells is filled up; one with too many, or whose cells are not known, goes
    into a single cell: the answer stands in its columns."""
    separator, columns = layout.separator, len(layout.titles)
    if width > columns or width == 0:
        raw, width = quoted(raw, separator), 1
    start = raw + separator * (columns - width)
    if len(answer) > 4:
        _, _, _, changed, rating, spread, rounds, whole = answer
        figures = (quoted(text_of(rating, layout), separator), str(whole), quoted(text_of(spread, layout), separator),
                   str(rounds), '', '', '')
    else:
        number, word, detail, changed = answer
        figures = ('', '', '', '', str(number) if number else '', word, quoted(detail, separator))
    row = start + separator + separator.join(figures)
    return row + separator + quoted(changed, separator) if layout.normalise or layout.rounded else row


def rate_chunk(layout: Layout, line: int, data: bytes) -> tuple[bytes, dict[str, int], str]:
    """The rows of a chunk rated, how many there are of each kind, and the library's version."""
    out: list[str] = []
    tally: 'Counter[str]' = Counter()
    newline = layout.newline
    for _, raw, cells, _, answer in answers(data, line, layout):
        if not raw.strip():
            out.append(raw)
            continue
        out.append(rated_row(raw, len(cells), answer, layout))
        tally['rated' if len(answer) > 4 else '%s %s' % (answer[0], answer[1]) if answer[0] else answer[1]] += 1
        tally['changed'] += bool(answer[3])
    text = newline.join(out) + newline if out else ''
    return text.encode('utf-8', 'surrogateescape'), dict(tally), library.version()


# ------------------------------------------------------------ processors

def bound_to(parent: int) -> None:
    """A worker leaves interrupts to the main process, and ends with it, even when that is killed."""
    import ctypes
    signal.signal(signal.SIGINT, signal.SIG_IGN)
    ctypes.CDLL(None).prctl(1, signal.SIGKILL, 0, 0, 0)        # PR_SET_PDEATHSIG
    if os.getppid() != parent:
        os._exit(1)


def work_on(parent: int, pipe: Connection, others: list[Connection]) -> None:
    """A worker: answers what comes through its pipe until that is shut."""
    bound_to(parent)
    for other in others:
        other.close()
    while True:
        try:
            function, arguments = pipe.recv()
        except EOFError:
            return
        try:
            answer = True, function(*arguments)
        except Exception as wrong:
            answer = False, wrong
        pipe.send(answer)


class Here:
    """All processors of this machine, a process and a pipe for each. Nothing is shared between them, so that a process
    that is killed stops the run and never leaves it waiting."""

    def __init__(self, processes: Optional[int] = None) -> None:
        context = get_context('fork')
        self.pipes: list[Connection] = []
        self.workers = []
        for _ in range(processes or len(os.sched_getaffinity(0))):
            here, there = context.Pipe()
            self.pipes.append(here)
            self.workers.append(context.Process(target=work_on, args=(os.getpid(), there, list(self.pipes)),
                                                daemon=True))
            self.workers[-1].start()
            there.close()

    def mapped(self, function: Callable[..., Any], layout: Layout,
               work: Iterator[Chunk]) -> Iterator[tuple[Chunk, Any]]:
        """The function's answer to each chunk, as they come; each process has one chunk at a time."""
        idle, busy = list(self.pipes), {}
        for chunk in work:
            pipe = idle.pop()
            self.spoken(pipe.send, (function, (layout, chunk.line, chunk.data)))
            busy[pipe] = chunk
            while not idle:
                yield from self.answered(busy, idle)
        while busy:
            yield from self.answered(busy, idle)

    def answered(self, busy: dict[Connection, Chunk], idle: list[Connection]) -> Iterator[tuple[Chunk, Any]]:
        ready: list[Any] = wait(list(busy))
        for pipe in ready:
            good, answer = self.spoken(pipe.recv)
            idle.append(pipe)
            if not good:
                raise answer
            yield busy.pop(pipe), answer

    @staticmethod
    def spoken(call: Callable[..., Any], *arguments: Any) -> Any:
        try:
            return call(*arguments)
        except (EOFError, ConnectionError):
            raise BatchError('a process that rates was stopped') from None

    def close(self) -> None:
        for pipe in self.pipes:
            pipe.close()
        for worker in self.workers:
            worker.terminate()
            worker.join()


class Cluster:
    """The workers of a dask scheduler. A chunk whose worker is lost is given to another."""

    def __init__(self, address: str) -> None:
        try:
            from distributed import Client
        except ImportError:
            raise BatchError('--scheduler needs the package distributed (Debian: python3-distributed)') from None
        try:
            self.client = Client(address, timeout=10)
            self.client.wait_for_workers(1, timeout=30)
        except Exception as wrong:
            if not isinstance(wrong, (OSError, ValueError)) and type(wrong).__name__ != 'TimeoutError':
                raise
            raise BatchError('the scheduler %s or its workers cannot be reached: %s' % (address, wrong)) from None
        self.most = max(4, 2 * sum(self.client.nthreads().values()))

    def mapped(self, function: Callable[..., Any], layout: Layout,
               work: Iterator[Chunk]) -> Iterator[tuple[Chunk, Any]]:
        """The function's answer to each chunk, as they come; only so many are under way at once."""
        under_way: dict[Any, Chunk] = {}
        for chunk in work:
            under_way[self.client.submit(function, layout, chunk.line, chunk.data, pure=False, retries=5)] = chunk
            while len(under_way) >= self.most:
                yield from self.answered(under_way)
        while under_way:
            yield from self.answered(under_way)

    @staticmethod
    def answered(under_way: dict[Any, Chunk]) -> Iterator[tuple[Chunk, Any]]:
        from distributed import wait as wait_for
        try:
            done = [(future, future.result()) for future in wait_for(list(under_way),
                                                                     return_when='FIRST_COMPLETED').done]
        except Exception as wrong:
            raise BatchError('the cluster could not rate a chunk: %s: %s' % (type(wrong).__name__, wrong)) from None
        for future, answer in done:
            yield under_way.pop(future), answer

    def close(self) -> None:
        self.client.close()


@contextmanager
def crew_of(processes: Optional[int], scheduler: Optional[str]) -> Iterator[Any]:
    crew: Any = Cluster(scheduler) if scheduler else Here(processes)
    try:
        yield crew
    finally:
        crew.close()


# ------------------------------------------------------------ files

def output_of(path: str, source: str) -> str:
    """The file that an output's name stands for; BatchError where it cannot be written or is the source itself."""
    if path == '-':
        raise BatchError('- is no name for a file here')
    real = os.path.realpath(path)
    if not os.path.isdir(os.path.dirname(real)):
        raise BatchError('there is no folder %s' % os.path.dirname(real))
    if os.path.lexists(real) and not os.path.isfile(real):
        raise BatchError('%s is no regular file' % path)
    if os.path.exists(real) and os.path.exists(source) and os.path.samefile(real, source):
        raise BatchError('%s is what is read: name another file' % path)
    return real


def write_whole(path: str, data: bytes) -> None:
    """A file that is whole or not there."""
    new = '%s.%s.new' % (path, secrets.token_hex(4))
    try:
        with open(new, 'xb') as file:
            file.write(data)
            file.flush()
            os.fsync(file.fileno())
        os.replace(new, path)
    except BaseException:
        if os.path.exists(new):
            os.unlink(new)
        raise


class ChunkFolder:
    """The folder OUTPUT.parts: what the run is, and each chunk that is done. One run at a time has it."""
    OURS = re.compile(r'(?:[0-9]{8}\.csv(?:\.tally)?|plan\.json)(?:\.\w+\.new)?|whole|lock')

    def __init__(self, output: str, archive: Archive) -> None:
        self.output, self.folder = output, output + '.parts'
        self.plan_file = os.path.join(self.folder, 'plan.json')
        state = os.stat(archive.path)
        self.plan: dict[str, Any] = {
            'archive': os.path.abspath(archive.path), 'size': state.st_size, 'changed': state.st_mtime_ns,
            'layout': repr(archive.layout), 'chunk': SIZE, 'library': library.version()}
        self.lock: Optional[int] = None

    def begin(self, resume: bool, force: bool) -> None:
        """Takes the folder for this run: a new one, or that of a run that was stopped."""
        there = os.path.lexists(self.folder)
        if os.path.exists(self.output) and not force and not (resume and there):
            raise BatchError('%s is there already: --force writes it anew' % self.output)
        if there and not all(self.OURS.fullmatch(name) for name in os.listdir(self.folder)):
            raise BatchError('%s is there already and is no run of batch' % self.folder)
        if not there:
            os.mkdir(self.folder)
        self.take()
        if resume and os.path.exists(self.plan_file):
            return self.go_on()
        if os.path.exists(self.plan_file) and not force:
            raise BatchError('%s has a run that was stopped: --resume goes on with it, --force begins anew'
                             % self.folder)
        self.clear()
        write_whole(self.plan_file, json.dumps(self.plan, indent=1).encode())

    def take(self) -> None:
        """Takes the lock, or BatchError where another run has it. One that was removed meanwhile is none."""
        name = os.path.join(self.folder, 'lock')
        lock = os.open(name, os.O_RDWR | os.O_CREAT | os.O_CLOEXEC, 0o644)
        try:
            fcntl.flock(lock, fcntl.LOCK_EX | fcntl.LOCK_NB)
            if not os.path.samestat(os.fstat(lock), os.stat(name)):
                raise FileNotFoundError
        except OSError:
            os.close(lock)
            raise BatchError('a run is going on in %s' % self.folder) from None
        self.lock = lock

    def go_on(self) -> None:
        with open(self.plan_file, encoding='utf-8') as file:
            told = json.load(file)
        differ = [name for name in self.plan if told.get(name) != self.plan[name]]
        if differ:
            raise BatchError('the run in %s had another %s: begin anew with --force' % (
                self.folder, ' and another '.join(differ)))

    def clear(self) -> None:
        """Removes all chunks, and then what tells of them."""
        names = sorted(name for name in os.listdir(self.folder) if name != 'lock')
        for name in sorted(names, key='plan.json'.__eq__):
            os.remove(os.path.join(self.folder, name))

    def leave(self) -> None:
        """Lets go of the folder; one that has nothing but the lock is removed."""
        if self.lock is not None:
            if os.listdir(self.folder) == ['lock']:
                os.remove(os.path.join(self.folder, 'lock'))
                os.rmdir(self.folder)
            os.close(self.lock)
            self.lock = None

    def name(self, number: int) -> str:
        return os.path.join(self.folder, '%08d.csv' % number)

    def has(self, number: int) -> bool:
        return os.path.exists(self.name(number))

    def put(self, number: int, data: bytes, tally: dict[str, int]) -> None:
        write_whole(self.name(number) + '.tally', json.dumps(tally).encode())
        write_whole(self.name(number), data)

    def tally(self, count: int) -> 'Counter[str]':
        tally: 'Counter[str]' = Counter()
        for number in range(count):
            with open(self.name(number) + '.tally', encoding='utf-8') as file:
                tally.update(json.load(file))
        return tally

    def finish(self, header: bytes, count: int) -> None:
        """Puts the chunks together as the output, and removes them."""
        whole = os.path.join(self.folder, 'whole')
        with open(whole, 'wb') as file:
            file.write(header)
            for number in range(count):
                with open(self.name(number), 'rb') as part:
                    shutil.copyfileobj(part, file, 1 << 20)
            file.flush()
            os.fsync(file.fileno())
        os.replace(whole, self.output)
        self.clear()


def header_of(archive: Archive) -> bytes:
    """The titles with those of the added columns."""
    layout = archive.layout
    taken = [title for title in added(layout) if title in layout.titles]
    if taken:
        raise ArchiveError("the archive has a column '%s' already" % taken[0])
    more = layout.separator + layout.separator.join(added(layout)) + layout.newline
    return archive.header + more.encode()


def rate_archive(archive: Archive, output: str, *, resume: bool = False, force: bool = False,
                 processes: Optional[int] = None, scheduler: Optional[str] = None,
                 progress: Callable[[int], Any] = lambda size: None) -> 'Counter[str]':
    """Rates an archive into a file. Returns how many rows there are of each kind; `progress` is told the bytes done."""
    header, folder = header_of(archive), ChunkFolder(output_of(output, archive.path), archive)
    count = 0

    def left() -> Iterator[Chunk]:
        nonlocal count
        for chunk in chunks(archive, SIZE):
            count = chunk.number + 1
            if folder.has(chunk.number):
                progress(len(chunk.data))
            else:
                yield chunk

    with crew_of(processes, scheduler) as crew:
        try:
            folder.begin(resume, force)
            for chunk, (data, tally, version) in crew.mapped(rate_chunk, archive.layout, left()):
                if version != folder.plan['library']:
                    raise BatchError('a worker has version %s of the library, and here is %s' % (
                        version, folder.plan['library']))
                folder.put(chunk.number, data, tally)
                progress(len(chunk.data))
            tally = folder.tally(count)
            folder.finish(header, count)
        finally:
            folder.leave()
    return tally


def summary(tally: 'Counter[str]') -> str:
    """How many rows there are of each kind, for people."""
    rows = sum(n for kind, n in tally.items() if kind != 'changed')
    refused = {kind: n for kind, n in tally.items() if kind[0].isdigit()}
    others = {kind: n for kind, n in tally.items() if kind not in refused and kind not in ('rated', 'changed')}
    said = ['%s, %d rated' % (gas.counted(rows, 'row'), tally['rated'])]
    if refused:
        said.append('%d refused (%s)' % (sum(refused.values()), ', '.join(
            '%s: %d' % item for item in sorted(refused.items(), key=lambda item: int(item[0].split()[0])))))
    said += ['%d %s' % (n, kind) for kind, n in sorted(others.items())]
    if tally['changed']:
        said.append('%d with amounts changed as asked' % tally['changed'])
    return ', '.join(said)
