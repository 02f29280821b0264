"""Late records: a new index of a history and of changes that came after it was written, in the order of time.

A history grows at its end alone. What comes late is merged with the changes that are there, and the whole is loaded into
a new file. It takes its name only when it is complete and sound, so that nothing is lost where the work is stopped.
"""
from __future__ import annotations

import contextlib
import heapq
import os
import shutil
import tempfile
from itertools import islice
from typing import IO, Iterable, Iterator, NamedTuple, Optional, Union

from .calendar import file_beside
from .changes import AnyChange, InvalidChange, LargeInstant, line_of
from .failures import DeltagraphError
from .process import Program
from .refusals import BadChange
from .script import Script
from .store import Store
from .words import IS_NUMBER, LARGEST_BATCH, bytes_of, text_of

PART = 1 << 18  # lines that are sorted in memory at once
BATCH = 1 << 16  # changes of one batch, unless an instant has more
BEFORE, AFTER = "before", "after"
OLD = 0  # the number of a change of the history; late ones are numbered from 1


class Line(NamedTuple):
    """A change on its way into the new file: its instant, its place among the late ones, and its line."""

    time: int
    number: int
    line: bytes


class Refusal(NamedTuple):
    """A change that cannot hold where it falls.

    `late` is its place among the late changes, from 1, or None for a change of the history that does not hold any more.
    """

    late: Optional[int]
    line: str
    reason: str

    def __str__(self) -> str:
        whose = "a change of the history" if self.late is None else f"late change {self.late}"
        return f"{whose}, `{self.line}`, cannot hold where it falls: {self.reason}"


class LateChangeRefused(DeltagraphError):
    """A change that cannot hold where it falls. The old file is as it was, and there is no new one."""

    def __init__(self, refused: Refusal) -> None:
        self.refused = refused
        super().__init__(str(refused))


class FileChanged(DeltagraphError):
    """The old file was changed while the new one was made. The new one is not there."""


class Rebuilt(NamedTuple):
    """What a rebuild made: changes in all, how many of them came late, and what was left out."""

    events: int
    late: int
    skipped: list[Refusal]


def rebuild(
    old: Union[str, "os.PathLike[str]"],
    late: Iterable[AnyChange],
    new: Union[str, "os.PathLike[str]", None] = None,
    *,
    at_equal_times: str = AFTER,
    skip_refused: bool = False,
    keep: bool = False,
    program: Program = None,
    dump: Program = None,
) -> Rebuilt:
    """Makes an index of the changes of an old one and of late ones, in the order of their times.

    Late changes may come in any order. Those of one instant keep the order in which they are given, and stand behind the
    history's own changes at that instant, or before them with `at_equal_times="before"`. The new index has the
    parameters of the old one. Without `new` it takes the place of the old file; with `keep` the old one stays there as
    its name with `.old` behind it. A calendar beside the old file goes with it.

    Raises `LateChangeRefused` for the first change that cannot hold where it falls, of the late ones or of the history;
    with `skip_refused` such changes are left out, and `Rebuilt.skipped` lists them. Raises `InvalidChange` for what is no
    change, `LargeInstant`, `FileChanged`, and what `Script` and `Store.load` raise. In all these cases the old file is as it
    was and the new one is not there.
    """
    if at_equal_times not in (BEFORE, AFTER):
        raise ValueError(f"at_equal_times is {BEFORE!r} or {AFTER!r}, and not {at_equal_times!r}")
    source = os.fspath(old)
    target = source if new is None else os.fspath(new)
    if new is not None and os.path.exists(target) and os.path.getsize(target):
        raise FileExistsError(f"{target} is there already")
    stood = _state(source)
    work = target + ".rebuilding"
    with contextlib.suppress(FileNotFoundError):
        os.remove(work)  # of a rebuild that was stopped
    try:
        with tempfile.TemporaryDirectory(dir=os.path.dirname(os.path.abspath(target))) as folder:
            made = _load(source, _sorted(_numbered(late), folder), work, at_equal_times, skip_refused, program, dump)
        if _state(source) != stood:
            raise FileChanged(f"{source} was changed while its rebuild was made")
        _settle(source, work, target, keep)
    finally:
        with contextlib.suppress(FileNotFoundError):
            os.remove(work)
    return made


def _state(path: str) -> tuple[int, int, int]:
    """By what a file that was changed is known."""
    found = os.stat(path)
    return found.st_ino, found.st_size, found.st_mtime_ns


def _settle(source: str, work: str, target: str, keep: bool) -> None:
    """Gives the new file its name. The folder is synced, as it is for a new file."""
    if keep and target == source:
        with contextlib.suppress(FileNotFoundError):
            os.remove(source + ".old")
        os.link(source, source + ".old")
    if target != source and os.path.exists(file_beside(source)):
        shutil.copyfile(file_beside(source), file_beside(target))
    os.replace(work, target)
    folder = os.open(os.path.dirname(os.path.abspath(target)), os.O_RDONLY)
    try:
        os.fsync(folder)
    finally:
        os.close(folder)


# The changes, in the order in which they go into the new file.


def _time_of(line: bytes) -> int:
    time = line[: line.find(b" ")]
    if not IS_NUMBER.fullmatch(text_of(time)):
        raise InvalidChange(f"{text_of(line.rstrip())!r} is no change: it begins with no instant")
    return int(time)


def _numbered(late: Iterable[AnyChange]) -> Iterator[Line]:
    for number, change in enumerate(late, 1):
        line = bytes_of(line_of(change)) + b"\n"
        yield Line(_time_of(line), number, line)


def _sorted(lines: Iterator[Line], folder: str) -> Iterator[Line]:
    """Late changes by their times, sorted part by part; all parts but a first one that has them all lie in files."""
    parts: list[Iterator[Line]] = []
    while part := sorted(islice(lines, PART)):
        if len(part) < PART and not parts:
            return iter(part)
        path = os.path.join(folder, str(len(parts)))
        with open(path, "wb") as file:
            file.writelines(b"%d %s" % (line.number, line.line) for line in part)
        parts.append(_read_part(path))
    return heapq.merge(*parts)


def _read_part(path: str) -> Iterator[Line]:
    with open(path, "rb") as file:
        for row in file:
            number, _, line = row.partition(b" ")
            yield Line(_time_of(line), int(number), line)


def _merged(old: Iterator[bytes], late: Iterator[Line], at_equal_times: str) -> Iterator[Line]:
    """The changes of both in the order of their times."""
    standing = (Line(_time_of(line), OLD, line) for line in old)
    both = (late, standing) if at_equal_times == BEFORE else (standing, late)
    return heapq.merge(*both, key=lambda line: line.time)


# The new file.


def _load(
    source: str,
    late: Iterator[Line],
    work: str,
    at_equal_times: str,
    skip_refused: bool,
    program: Program,
    dump: Program,
) -> Rebuilt:
    """Loads the changes into the new file, and has it verified."""
    skipped: list[Refusal] = []
    counts = [0, 0]
    with Script(source, dump) as script, Store(work, program) as store:
        store.create(*script.creation)
        word = "load"
        for batch in _batches(_merged(script.changes(), late, at_equal_times)):
            while batch:
                refused = _send(store, word, batch)
                if refused is None:
                    counts[0] += len(batch)
                    counts[1] += sum(line.number != OLD for line in batch)
                    word = "append"
                    break
                line = batch.pop(refused.line - 1)
                found = Refusal(line.number or None, text_of(line.line.rstrip(b"\n")), refused.reason_name)
                if not skip_refused:
                    raise LateChangeRefused(found)
                skipped.append(found)
        verified = store.verify()
        if not verified.sound:
            raise DeltagraphError(f"the new file is not sound: {verified.key}, column {verified.column}")
    return Rebuilt(counts[0], counts[1], skipped)


def _send(store: Store, word: str, batch: list[Line]) -> Optional[BadChange]:
    """Sends a batch. Gives the refusal of a change of it, and then nothing of the batch is in the file."""
    try:
        store.ask(f"{word} {len(batch)}", b"".join(line.line for line in batch))
    except BadChange as refused:
        return refused
    return None


def _batches(lines: Iterator[Line]) -> Iterator[list[Line]]:
    """Cuts changes into batches of about `BATCH`, none of which ends within an instant."""
    batch: list[Line] = []
    for line in lines:
        if len(batch) >= BATCH and line.time != batch[-1].time:
            yield batch
            batch = []
        if len(batch) == LARGEST_BATCH:
            begin = next(place for place, other in enumerate(batch) if other.time == line.time)
            if begin == 0:
                raise LargeInstant(str(line.time))
            yield batch[:begin]
            batch = batch[begin:]
        batch.append(line)
    if batch:
        yield batch


def lines_of_file(file: IO[bytes]) -> Iterator[bytes]:
    """The changes of a file of lines, without empty lines, comments and the commands of a script."""
    for line in file:
        words = line.split(b" ", 1)
        if line.strip() and not line.startswith(b"#") and words[0] not in (b"load", b"append", b"create"):
            yield line
