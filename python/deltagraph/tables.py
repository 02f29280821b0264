"""From a table of dated ties to an index, in one call.

    store = deltagraph.from_csv("ties.dg", "ties.csv")
    store = deltagraph.from_pandas("ties.dg", pandas.read_csv("ties.csv"), start="start", end="end", values=["weight"])

A row is a tie, as an edge of its own. Names become nodes, numbered from 1 as they first appear, and keep their text as
the value for the key `name`; the other columns are values of the tie.
"""
from __future__ import annotations

import csv
import gc
import heapq
import os
import re
import sys
from bisect import bisect_left, bisect_right
from collections import Counter, defaultdict
from contextlib import contextmanager
from fractions import Fraction
from itertools import chain, compress, groupby, islice, repeat
from operator import gt, itemgetter, not_
from typing import Any, Callable, Iterable, Iterator, NamedTuple, Optional, Sequence, Union

from .calendar import DAY, NOTE_KEY, Calendar, NoDate, is_date, seconds_of, seconds_to
from .changes import LargeInstant
from .failures import DeltagraphError
from .process import Program, find_program
from .refusals import IndexExists
from .snapshot import NAME
from .store import Store
from .words import LARGEST_BATCH, LAST_INSTANT, LONGEST_KEY, LONGEST_VALUE, bytes_of

ROWS = 1 << 9  # that are read together, and whose changes are made together: as much as stays in a cache
CHUNK = 1 << 16  # rows of one instant whose changes are made together
MOST_KNOWN = 1 << 14  # times that are remembered
WHOLE_NUMBER = re.compile(r"-?[0-9]{1,19}", re.ASCII)
PER_SECOND = {"s": 1, "ms": 1000, "us": 1_000_000, "ns": 1_000_000_000}  # units of numpy
SCALES = (1, 1000, 1_000_000, 1_000_000_000)  # instants of a second, of which the first that is fine enough is taken
TIMES = ("dates", "numbers", "seconds")

Path = Union[str, "os.PathLike[str]"]
Columns = Sequence[Any]  # of rows: sources, targets, starts, ends or None, and for each key values or None
Instant = tuple[int, int, bytes]  # the instant, how many changes, their lines
START, END = 2, 3  # among the columns


class BadTable(DeltagraphError, ValueError):
    """A table of which no history can be made; it tells the row. Nothing was written."""


def is_missing(value: Any) -> bool:
    return value is None or value == "" or value != value


def all_of(found: Any, keys: Sequence[Any]) -> Sequence[Any]:
    """What a dict or a list has for each of some keys."""
    return itemgetter(*keys)(found) if len(keys) > 1 else [found[key] for key in keys]


def checked(text: str) -> str:
    """A text that can be a value. Raises `BadTable` for another."""
    if "\n" in text or "\r" in text or len(bytes_of(text)) > LONGEST_VALUE:
        raise BadTable(f"{text[:80]!r} has an end of a line in it, or more than {LONGEST_VALUE} bytes")
    return text


def value_of(text: Optional[str]) -> Optional[str]:
    """A value, or None where one is missing. Raises `BadTable`."""
    return None if text is None else checked(text)


class OutOfOrder(Exception):
    """A row is earlier than the one before it."""


class Report(NamedTuple):
    """What became of a table. `calendar` is what its times are; instants are numbers of the table where it has none."""

    rows: int
    nodes: int
    ties: int
    changes: int
    first: Optional[int]  # instants
    last: Optional[int]
    calendar: Optional[Calendar]
    duplicates: int  # rows that say the same as an earlier one, in all columns that were taken
    disordered: int  # rows that begin before the row before them
    empty: int  # rows that end when they begin, which are left out

    def __str__(self) -> str:
        told = f"{self.rows:,} rows, {self.nodes:,} nodes, {self.ties:,} ties, {self.changes:,} changes"
        if self.first is not None and self.last is not None:
            text = self.calendar.text if self.calendar else "instant {}".format
            told += f", from {text(self.first)} to {text(self.last)}"
        for count, what in (
            (self.disordered, "rows earlier than the row before them, put in order"),
            (self.duplicates, "rows that repeat an earlier one, kept as ties of their own"),
            (self.empty, "rows that end when they begin, left out"),
        ):
            told += f"; {what}: {count:,}" if count else ""
        return told


# The script.


class Names(dict[Any, int]):
    """The names of nodes, numbered from 0 as they come."""

    def __init__(self) -> None:
        super().__init__()
        self.texts: list[str] = []

    def __missing__(self, name: Any) -> int:
        if is_missing(name):
            raise BadTable("a row has no name at one of its ends")
        self[name] = number = len(self.texts)
        self.texts.append(checked(str(name)))
        return number


class Ending(dict[int, list[str]]):
    """The changes with which ties end, of each instant that is still to come."""

    def __init__(self) -> None:
        super().__init__()
        self.due: list[int] = []  # a heap of these instants

    def __missing__(self, end: int) -> list[str]:
        heapq.heappush(self.due, end)
        self[end] = lines = []
        return lines

    def next(self) -> list[str]:
        """The changes of the first of these instants, which are forgotten."""
        return self.pop(heapq.heappop(self.due))


class Ties:
    """The changes that rows make, in the order of their times; what was made of them is counted.

    At an instant nodes come first, then ties that last, then ties that have an end, and then ties end. An instant of
    more than `CHUNK` rows has nodes and ties of so many rows, then of the next, before ties end.
    """

    def __init__(
        self,
        names: Names,
        keys: Sequence[str],
        directed: bool = True,
        name: str = NAME,
        note: Optional[str] = None,
    ) -> None:
        self.texts, self.keys, self.direction, self.name = names.texts, list(keys), "dir" if directed else "undir", name
        self.note = note
        self.ids: list[str] = []  # of the numbers of names, of which one that is no node yet has none
        self.nodes = self.ties = self.empty = 0
        self.ending = Ending()

    def instants(self, blocks: Iterable[Columns]) -> Iterator[Instant]:
        """The changes of each instant, of rows in the order of their starts. Raises `BadTable`."""
        for start, parts in groupby(self._beginnings(blocks), key=itemgetter(0)):
            yield from self._endings_before(start)
            yield self._instant(start, [lines for _, part in parts for lines in part])
        yield from self._endings_before(LAST_INSTANT + 1)

    # Changes are lines here to which the instant is still to be added.

    def _beginnings(self, blocks: Iterable[Columns]) -> Iterator[tuple[int, list[str]]]:
        """Instants and changes of theirs, without those of ties that end."""
        for block in by_instants(blocks):
            columns = self._without_empty(block)
            nodes, ties = self._nodes(columns), self._ties(lasting_first(columns))
            begin = 0
            for start, rows in Counter(columns[START]).items():
                yield start, [*nodes.get(start, ()), *ties[begin : begin + rows]]
                begin += rows

    def _without_empty(self, columns: Columns) -> Columns:
        """The rows that do not end when they begin. Raises `BadTable` for one that ends before."""
        lasts = [end is None or end > start for start, end in zip(columns[START], columns[END])]
        if all(lasts):
            return columns
        for last, source, target, start, end in zip(lasts, *columns[:4]):
            if not last and end < start:
                raise BadTable(f"the tie of {self.texts[source]} and {self.texts[target]} ends before it begins")
        self.empty += lasts.count(False)
        return [list(compress(column, lasts)) for column in columns]

    def _nodes(self, columns: Columns) -> dict[int, list[str]]:
        """The nodes that come with some rows, by instants."""
        ids, nodes = self.ids, defaultdict[int, list[str]](list)
        ids += [""] * (len(self.texts) - len(ids))
        for source, target, start in zip(*columns[:3]):
            if not ids[source]:
                nodes[start].append(self._node(source))
            if not ids[target]:
                nodes[start].append(self._node(target))
        return nodes

    def _node(self, number: int) -> str:
        self.nodes += 1
        self.ids[number] = node = str(self.nodes)
        lines = f"+node {node}\nnset {node} {self.name} {self.texts[number]}"
        if self.note is not None:
            lines += f"\nnset {node} {NOTE_KEY} {self.note}"
            self.note = None
        return lines

    def _ties(self, columns: Columns) -> list[str]:
        """How each tie begins; how it ends is kept."""
        sources, targets, starts, ends, *values = columns
        first, self.ties = self.ties + 1, self.ties + len(starts)
        ties = list(map(str, range(first, self.ties + 1)))
        sources, targets, direction = all_of(self.ids, sources), all_of(self.ids, targets), self.direction
        key, column = (self.keys[0], values[0]) if values else ("", repeat(None))
        begun = [
            f"+edge {tie} {source} {target} {direction}\neset {tie} {key} {value}"
            if value
            else f"+edge {tie} {source} {target} {direction}"
            for tie, source, target, value in zip(ties, sources, targets, column)
        ]
        for key, column in zip(self.keys[1:], values[1:]):
            begun = [
                f"{lines}\neset {tie} {key} {value}" if value else lines
                for lines, tie, value in zip(begun, ties, column)
            ]
        has_end = [end is not None for end in ends]
        self._end(*(list(compress(column, has_end)) for column in (ends, ties, *values)))
        return begun

    def _end(self, ends: Sequence[int], ties: Sequence[str], *values: Sequence[Optional[str]]) -> None:
        """Keeps how some ties end."""
        ended = [f"-edge {tie}" for tie in ties]
        for key, column in zip(reversed(self.keys), reversed(values)):
            ended = [
                f"edel {tie} {key}\n{lines}" if value else lines for lines, tie, value in zip(ended, ties, column)
            ]
        ending = self.ending
        for end, lines in zip(ends, ended):
            ending[end].append(lines)

    def _instant(self, time: int, changes: list[str]) -> Instant:
        """The changes of an instant, behind which ties end."""
        if self.ending.due and self.ending.due[0] == time:
            changes += self.ending.next()
        lines = "\n".join(changes)
        spelled = lines.replace("\n", f"\n{time} ")
        return time, lines.count("\n") + 1, bytes_of(f"{time} {spelled}\n")

    def _endings_before(self, time: int) -> Iterator[Instant]:
        due = self.ending.due
        while due and due[0] < time:
            yield self._instant(due[0], [])


def by_instants(blocks: Iterable[Columns]) -> Iterator[Columns]:
    """Rows in the order of their starts, in blocks of whole instants, or of `CHUNK` rows of an instant that has more."""
    held: list[list[Any]] = []
    for block in chain(blocks, ((),)):  # an empty one behind the last
        held = held or [[] for _ in block]
        for column, more in zip(held, block):
            column.extend(more)
        starts = held[START] if held else []
        begin, rows = 0, len(starts)
        while begin < rows - (CHUNK if block else 0):
            end = bisect_left(starts, starts[begin + ROWS], begin) if begin + ROWS < rows else rows
            if end == begin:  # an instant of more than `ROWS`
                end = bisect_right(starts, starts[begin], begin, min(begin + CHUNK, rows))
            yield [column[begin:end] for column in held]
            begin = end
        held = [column[begin:] for column in held]


def put_in_order(columns: Columns, order: Optional[list[int]] = None) -> Columns:
    """Rows in the order of their starts, and those of one start in the order of these places, else as they are."""
    order = list(range(len(columns[START]))) if order is None else order
    order.sort(key=columns[START].__getitem__)
    return [all_of(column, order) for column in columns]


def lasting_first(columns: Columns) -> Columns:
    """Rows in the order of their starts, of each instant first those without an end."""
    has_end = [end is not None for end in columns[END]]
    if not any(has_end):
        return columns
    places = range(len(has_end))
    return put_in_order(columns, [*compress(places, map(not_, has_end)), *compress(places, has_end)])


def disorders(starts: Sequence[int]) -> int:
    """How many rows begin before the row before them."""
    return sum(map(gt, starts, islice(starts, 1, None)))


def in_order(blocks: Iterable[Columns]) -> Iterator[Columns]:
    """Rows as they come. Raises `OutOfOrder` where one is earlier than the one before it."""
    last: Optional[int] = None
    for block in blocks:
        starts = block[START]
        if disorders(starts) or (last is not None and starts and starts[0] < last):
            raise OutOfOrder
        last = starts[-1] if starts else last
        yield block


def together(blocks: Iterable[Columns], width: int) -> Columns:
    """The rows of all blocks, each of so many columns."""
    columns: list[list[Any]] = [[] for _ in range(width)]
    for block in blocks:
        for column, more in zip(columns, block):
            column.extend(more)
    return columns


def moved(columns: Columns, shift: int) -> Columns:
    """Rows that begin and end so much later."""
    sources, targets, starts, ends, *values = columns
    starts = [start + shift for start in starts]
    return [sources, targets, starts, [None if end is None else end + shift for end in ends], *values]


def batches_of(instants: Iterable[Instant], most: int = LARGEST_BATCH) -> Iterator[tuple[int, bytes, int, int]]:
    """Instants together as batches: how many changes, their lines, the first and the last instant.

    Raises `LargeInstant` for an instant with more changes than a batch holds.
    """
    texts: list[bytes] = []
    held = first = last = 0
    for time, count, text in instants:
        if held and held + count > most:
            yield held, b"".join(texts), first, last
            texts, held = [], 0
        if count > LARGEST_BATCH:
            raise LargeInstant(str(time))
        first = first if held else time
        texts.append(text)
        held, last = held + count, time
    if held:
        yield held, b"".join(texts), first, last


# Times.


class Known(dict[Any, Any]):
    """What is made of texts or dates, each read once, as long as there are not too many."""

    def __init__(self, read: Callable[[Any], Any], scale: int = 1) -> None:
        super().__init__()
        self.read, self.scale = read, scale

    def __missing__(self, text: Any) -> Any:
        if len(self) > MOST_KNOWN:
            self.clear()
        found = self[text] = self.read(text)
        return found


class Finer(Exception):
    """A time is finer than the scale that was tried."""


def reader_of(times: str, scale: int) -> Callable[[Any], Optional[int]]:
    """What makes a number of a time; None of one that is missing."""

    def number(value: Any) -> Optional[int]:
        if is_missing(value):
            return None
        if isinstance(value, str) and not WHOLE_NUMBER.fullmatch(value):
            raise BadTable(f"{value!r} is no whole number (times='dates' takes dates)")
        if int(value) != float(value) if isinstance(value, float) else False:
            raise BadTable(f"{value!r} is no whole number")
        return int(value)

    def date(value: Any) -> Optional[int]:
        if is_missing(value):
            return None
        if not is_date(value):
            raise BadTable(f"{value!r} is no date (times='numbers' takes numbers)")
        try:
            found = (seconds_of(value) if isinstance(value, str) else seconds_to(value)) * scale
        except NoDate as error:
            raise BadTable(str(error)) from error
        if isinstance(found, Fraction):
            if found.denominator != 1:
                raise Finer
            found = found.numerator
        return found

    return date if times == "dates" else number


# Tables.


class Reading(NamedTuple):
    """What is made of the texts of rows."""

    names: Names
    times: Known
    values: Known

    def columns(self, sources: Any, targets: Any, starts: Any, ends: Any, values: Iterable[Any]) -> Columns:
        """The columns of rows, of which starts and ends are made already."""
        texts = [all_of(self.values, column) for column in values]
        return [all_of(self.names, sources), all_of(self.names, targets), starts, ends, *texts]


class Table(NamedTuple):
    """Rows of which starts and ends are not yet instants, and the keys of their values."""

    keys: list[str]
    blocks: Callable[[Reading], Iterator[Columns]]
    sample: Any  # the first start


def plan_of(names: Sequence[str], source: str, target: str, start: str, end: Optional[str], values: Any) -> list[str]:
    """The columns that are taken: the ends, start, end (or nothing) and the values. Raises `BadTable`."""
    listed = ", ".join(map(str, names))
    needed = [source, target, start, *([end] if end is not None and end != "end" else []), *(values or [])]
    for name in needed:
        if name not in names:
            raise BadTable(f"no column is named {name}: there are {listed}")
    ending = end if end is not None and end in names else ""
    taken = (source, target, start, ending)
    others = [name for name in names if name not in taken] if values is None else list(values)
    for key in others:
        spelled = bytes_of(str(key))
        if not 1 <= len(spelled) <= LONGEST_KEY or min(spelled) <= ord(" "):
            raise BadTable(f"{key!r} is no key: it has to have 1 to {LONGEST_KEY} bytes and no spaces; rename the column")
    return [*taken, *others]


def csv_table(file: Path, separator: str, encoding: str, wanted: Callable[[Sequence[str]], list[str]]) -> Table:
    """The table of a file. Raises `BadTable` where its first line does not name its columns."""
    try:
        with open(file, encoding=encoding, newline="") as stream:
            reader = csv.reader(stream, delimiter=separator, skipinitialspace=True)
            names = [name.strip() for name in next(reader, [])]
            first = next((row for row in reader if row), None)
    except (csv.Error, UnicodeDecodeError) as error:
        raise BadTable(f"{os.fspath(file)}: {error}") from error
    taken = wanted(names)
    places = [names.index(name) if name else -1 for name in taken]
    width = len(names)

    def blocks(reading: Reading) -> Iterator[Columns]:
        with open(file, encoding=encoding, newline="") as stream:
            reader = csv.reader(stream, delimiter=separator, skipinitialspace=True)
            next(reader)
            chunk: list[list[str]] = []
            done = 0
            try:
                while chunk := list(islice(reader, ROWS)):
                    if set(map(len, chunk)) != {width}:
                        chunk = [row for row in chunk if row and (len(row) > 1 or row[0].strip())]
                    yield fields(chunk, reading)
                    done += len(chunk)
            except (BadTable, csv.Error, UnicodeDecodeError) as error:
                raise BadTable(f"{os.fspath(file)}, {place_of(chunk, done, fields, reading, error)}") from error

    def fields(chunk: list[list[str]], reading: Reading) -> Columns:
        if set(map(len, chunk)) - {width}:
            found = next(len(row) for row in chunk if len(row) != width)
            raise BadTable(f"{found} fields, and {width} columns ({', '.join(names)})")
        columns = list(zip(*chunk)) or [()] * width
        at_source, at_target, at_start, at_end, *others = places
        ends = [None] * len(chunk) if at_end < 0 else all_of(reading.times, columns[at_end])
        starts = all_of(reading.times, columns[at_start])
        if None in starts:
            raise BadTable("it has no start")
        return reading.columns(columns[at_source], columns[at_target], starts, ends, [columns[at] for at in others])

    sample = None if first is None or len(first) <= places[2] else first[places[2]]
    return Table(taken[4:], blocks, sample)


def place_of(chunk: Any, done: int, fields: Any, reading: Reading, error: Exception) -> str:
    """Which row of a chunk is wrong, and why."""
    for number, row in enumerate(chunk, done + 1):
        try:
            fields([row], reading)
        except BadTable as reason:
            return f"row {number}: {reason}"
    return f"behind row {done}: {error}"


def frame_table(frame: Any, wanted: Callable[[Sequence[str]], list[str]]) -> Table:
    """The table of a frame of pandas."""
    taken = wanted(list(frame.columns))
    columns = [frame[name] if name else None for name in taken]

    def blocks(reading: Reading) -> Iterator[Columns]:
        sources, targets, starts, ends, *values = columns
        begins = times_of(starts, reading)
        if None in begins:
            raise BadTable(f"row {begins.index(None)} (from 0) has no {starts.name}")
        gone = [None] * len(begins) if ends is None else times_of(ends, reading)
        yield reading.columns(sources.tolist(), targets.tolist(), begins, gone, map(texts_of, values))

    missing = columns[2].isna().to_numpy()
    sample = columns[2].iloc[int((~missing).argmax())] if len(frame) else None
    return Table([str(name) for name in taken[4:]], blocks, sample)


def times_of(column: Any, reading: Reading) -> Sequence[Optional[int]]:
    """A column of times as numbers, and None where one is missing."""
    if getattr(column.dtype, "kind", "O") != "M":
        return all_of(reading.times, column.astype(object).where(column.notna(), None).tolist())
    import numpy

    if getattr(column.dtype, "tz", None) is not None:
        column = column.dt.tz_convert("UTC").dt.tz_localize(None)
    array = column.to_numpy()
    unit = PER_SECOND[numpy.datetime_data(array.dtype)[0]]
    missing, numbers = numpy.isnat(array), array.astype(numpy.int64)
    scale = reading.times.scale
    if unit > scale:
        if (numbers[~missing] % (unit // scale)).any():
            raise Finer
        numbers = numbers // (unit // scale)
    else:
        numbers = numbers * (scale // unit)
    found = numbers.tolist()
    for place in numpy.flatnonzero(missing).tolist():
        found[place] = None
    return found


def texts_of(column: Any) -> list[Optional[str]]:
    """A column of values as texts, and None where one is missing."""
    missing = column.isna()
    texts = column.astype(str).tolist() if column.dtype != object else [*map(str, column.tolist())]
    if missing.any():
        for place in missing.to_numpy().nonzero()[0].tolist():
            texts[place] = None
    return texts


def kind_of_times(times: Optional[str], sample: Any) -> str:
    """What the times of a table are, as told or else by the first: whole numbers, or dates."""
    if times is not None:
        if times not in TIMES:
            raise ValueError(f"{times!r} is none of {', '.join(TIMES)}")
        return times
    number = WHOLE_NUMBER.fullmatch(sample) is not None if isinstance(sample, str) else not is_date(sample)
    return "numbers" if number else "dates"


def settled_rows(table: Table, times: str) -> tuple[Columns, Names, int]:
    """All rows, and how many instants a second has: as few as their times need."""
    for scale in SCALES if times == "dates" else (1,):
        names = Names()
        reading = Reading(names, Known(reader_of(times, scale), scale), Known(value_of))
        try:
            return together(table.blocks(reading), 4 + len(table.keys)), names, scale
        except Finer:
            continue
    raise BadTable("a time is finer than a nanosecond")


def make(path: Path, table: Table, times: Optional[str], options: dict[str, Any]) -> Store:
    """Writes an index of a table, which is there when it is whole, and opens it."""
    index = os.fspath(path)
    if os.path.exists(index) and os.path.getsize(index):
        raise IndexExists(["refused", "3", "index-exists"], f"create over {index}")
    kind = kind_of_times(times, table.sample)
    find_program(options["program"])  # before the work of reading
    with uncollected():
        return _made(index, table, kind, options)


@contextmanager
def uncollected() -> Iterator[None]:
    """Keeps Python from looking for cycles, of which rows make none; it would take a third of the time."""
    enabled = gc.isenabled()
    gc.disable()
    try:
        yield
    finally:
        if enabled:
            gc.enable()


def _made(index: str, table: Table, kind: str, options: dict[str, Any]) -> Store:
    columns, names, scale = settled_rows(table, kind)
    rows = len(columns[START])
    disordered = disorders(columns[START])
    if disordered:
        columns = put_in_order(columns)
    of_instants = zip(*columns)
    duplicates = sum(count - len(set(islice(of_instants, count))) for count in Counter(columns[START]).values())
    earliest = columns[START][0] if rows else 0
    shift = -(earliest // (DAY * scale)) * DAY * scale if earliest < 0 and kind != "numbers" else 0
    if earliest + shift < 0:
        raise BadTable(f"the time {earliest} is below 0, where instants begin")
    if shift:
        columns = moved(columns, shift)
    calendar = None if kind == "numbers" else Calendar(Fraction(scale), shift)
    ties = Ties(names, table.keys, options["directed"], note=calendar.note() if calendar else None)
    new = index + ".new"
    begin: Optional[int] = None
    try:
        if os.path.exists(new):
            os.remove(new)
        with Store(new, options["program"]) as store:
            store.create(*options["create"])
            changes, last = 0, None
            for count, text, start, end in batches_of(ties.instants([columns])):
                begin = begin if changes else start
                store.ask(f"{'append' if changes else 'load'} {count}", text)
                changes, last = changes + count, end
        os.replace(new, index)
    finally:
        if os.path.exists(new):
            os.remove(new)
    made = Report(rows, ties.nodes, ties.ties, changes, begin, last, calendar, duplicates, disordered, ties.empty)
    store = Store(index, options["program"])
    store.report = made
    if not options["quiet"] and sys.stderr is not None:
        print(f"{index}: {made}", file=sys.stderr)
    return store


def from_csv(
    path: Path,
    file: Path,
    source: str = "source",
    target: str = "target",
    start: str = "start",
    end: Optional[str] = "end",
    values: Optional[Sequence[str]] = None,
    *,
    times: Optional[str] = None,
    directed: bool = True,
    separator: str = ",",
    encoding: str = "utf-8-sig",
    create: tuple[int, int, str] = (1024, 4, "intersection"),
    program: Program = None,
    quiet: bool = False,
) -> Store:
    """Makes an index of a file of dated ties whose first line names its columns, and opens it.

    The words are those of `from_pandas`. Needs neither numpy nor pandas.
    """
    table = csv_table(file, separator, encoding, lambda names: plan_of(names, source, target, start, end, values))
    return make(path, table, times, dict(directed=directed, create=create, program=program, quiet=quiet))


def from_pandas(
    path: Path,
    frame: Any,
    source: str = "source",
    target: str = "target",
    start: str = "start",
    end: Optional[str] = "end",
    values: Optional[Sequence[str]] = None,
    *,
    times: Optional[str] = None,
    directed: bool = True,
    create: tuple[int, int, str] = (1024, 4, "intersection"),
    program: Program = None,
    quiet: bool = False,
) -> Store:
    """Makes an index of a frame of dated ties, and opens it; the file is there when it is whole.

    A row is a tie from its `source` to its `target`, which is there from its `start` on and gone again at its `end`, or
    stays where that is missing, or no column is called `end`. `values` are the columns that are values of ties; without
    a word on them, all others. A row that ends when it begins is left out.

    Times are dates, as texts or of pandas, or whole numbers, which are instants as they are; `times` says "dates",
    "numbers", or "seconds" for numbers that are seconds since 1970. Dates become seconds, or finer instants where they
    need it, and the index itself tells so.

    What was found, out of order, or twice is told by one line on standard error, unless `quiet`, and by `store.report`.
    Raises `BadTable` with the row, and `IndexExists` where the file has an index already.
    """
    table = frame_table(frame, lambda names: plan_of(names, source, target, start, end, values))
    return make(path, table, times, dict(directed=directed, create=create, program=program, quiet=quiet))
