"""An index file, and a run of the program over it."""
from __future__ import annotations

import importlib.util
import operator
import os
import sys
from collections import deque
from itertools import islice
from typing import TYPE_CHECKING, Any, Callable, Iterable, Iterator, Optional, Sequence, TypeVar, Union

from .calendar import (
    NOTE_KEY,
    Calendar,
    Date,
    NoDate,
    calendar_of,
    is_date,
    noted,
    read_calendar,
    settled,
    write_calendar,
)
from .changes import AnyChange, batches, change_of, check_instants
from .failures import Closed, ProgramEnded, WrongProgram
from .process import Process, Program, Reply, find_program
from .refusals import BadChange, IndexesFull, NoIndex, NotIndexed, OutOfRange, Refused, UnknownKey, refusal
from .replies import (
    Generated,
    Indexed,
    Loaded,
    Plan,
    Pool,
    Potential,
    Span,
    Step,
    Tree,
    Verdict,
    Verification,
    record_of,
    step_or_potential,
)
from .snapshot import Snapshot, Snapshots
from .words import (
    COLUMNS,
    IS_NUMBER,
    LARGEST_BATCH,
    LAST_INSTANT,
    LONGEST_KEY,
    MOST_INSTANTS,
    MOST_TIMES,
    MOST_WORDS,
    OPERATORS,
    bytes_of,
    is_key,
    is_value,
    lines_after,
)

if TYPE_CHECKING:
    from .history import History

Time = Union[int, Date]
Progress = Callable[[int], None]
Result = TypeVar("Result")

SHOWN_AFTER = 1.0  # seconds, from which on a load shows a bar


class Store:
    """A run of the program over one index file, by `deltagraph.open`.

    A refusal of the program is an exception (`refusals`), and so is its end (`failures`); after a refusal the store
    goes on. `path` is the index file's, and `calendar` tells which dates the instants are.

    A time is an instant, as a number, or a date: a text as "2023", "2023-06", "2023-06-10" or "2023-06-10T12:30", a date
    or datetime of Python, a Timestamp of pandas or a datetime64 of numpy. `columns` is what is retrieved: `s`, the nodes
    and edges, with `n` the attributes of nodes and with `e` those of edges (`s`, `sn`, `se`, `sne`); `at`, `several` and
    `interval` take a `t` behind them for the messages of the instant, or of all that time.

    One thread at a time may use it.
    """

    def __init__(
        self, index: Union[str, "os.PathLike[str]"], program: Program = None, checked: bool = False, cache: int = 0
    ) -> None:
        self.path = os.fspath(index)
        self.report: Any = None  # of the table that the index was made of, by `from_pandas` or `from_csv`
        self._note: Optional[Calendar] = None  # what the index itself tells
        self._note_read = False  # whether it was asked
        self._forgotten: deque[tuple[int, bool]] = deque()  # handles of snapshots that nobody has any more
        self._program, self._checked, self._cache = find_program(program), checked, cache
        self._process: Optional[Process] = None
        self._closed = False
        # The program makes a file that is not there, and a question should make none.
        if os.path.exists(self.path):
            self._start()

    def _start(self) -> Process:
        # An absolute name does not begin with `-`, which would be taken for an option.
        self._process = Process(self._program, os.path.abspath(self.path), self._checked, self._cache)
        try:
            self._told(self._process.send("pool"))
        except ProgramEnded as ended:
            ended.command = ""  # nobody has asked yet
            raise
        return self._process

    # The session.

    def __repr__(self) -> str:
        return f"<Store {self.path!r}{', ended' if self.ended else ''}>"

    @property
    def ended(self) -> bool:
        """Whether the store is closed, or its program has ended."""
        return self._closed or (self._process is not None and self._process.ended)

    @property
    def process(self) -> Optional[int]:
        """The number of the program's process, or None before it was started."""
        return None if self._process is None else self._process.number

    def send(self, command: str, following: bytes = b"", short: bool = False) -> Reply:
        """Sends a command, with the lines that follow it, and does not wait for its reply.

        `following` has as many lines as the command asks for, each with its line feed; with `short` it is what there is
        of them at the end of the script. Raises ValueError where the command has no reply or other than its lines, and
        `NoIndex` where there is no file and it is not `create`.
        """
        if not command or command.startswith("#") or "\n" in command:
            raise ValueError(f"{command!r} is no command")
        given, due = following.count(b"\n"), lines_after(command)
        if given != due and not short:
            raise ValueError(f"`{command}` is followed by {due} lines, and not by {given}")
        process = self._process
        if process is None:
            if self._closed:
                raise Closed("the store is closed")
            if not command.startswith("create ") and not os.path.exists(self.path):
                raise NoIndex(["refused", "2", "no-index"], command)
            process = self._start()
        if self._forgotten:
            self._release_forgotten(process)
        reply = process.send(command, following)
        if short:
            process.end_script()
        return reply

    def ask(self, command: str, following: bytes = b"") -> Reply:
        """The reply to a command of the script language, as `send`; its head is there. Raises `Refused`."""
        return self._told(self.send(command, following))

    def _told(self, reply: Reply) -> Reply:
        head = reply.head()
        if head[0] == "refused":
            reply.finish()
            raise refusal(head, reply.command)
        if head[1] != reply.command.split(" ", 1)[0]:
            reply.kill()
            raise WrongProgram(f"`{reply.command}` was answered by `{' '.join(head)}`")
        if head[1] not in ("list", "several", "node", "neighbours", "find", "plan", "tree"):
            reply.finish()
        return reply

    def forget(self, handle: int, held: bool) -> None:
        """Gives a handle up before the next command; `held` where it holds a node of the index."""
        self._forgotten.append((handle, held))

    def _release_forgotten(self, process: Process) -> None:
        rested_on = []
        while self._forgotten:
            handle, held = self._forgotten.popleft()
            reply = process.send(f"release {handle}")
            if held and reply.head()[0] == "refused":  # a live handle rests on it still
                rested_on.append((handle, held))
            reply.drop()
        self._forgotten.extend(rested_on)

    def close(self) -> None:
        """Ends the session. Raises `ProgramEnded` where the program ends with another status than 0."""
        self._closed = True
        if self._process is not None:
            self._process.close()

    def kill(self) -> None:
        """Ends the session at once, whatever the program is doing, and nothing where it has ended.

        The file holds the history before the command without an answer, or after it. What is asked later raises `Killed`.
        """
        self._closed = True
        if self._process is not None:
            self._process.kill()

    def __enter__(self) -> "Store":
        return self

    def __exit__(self, *_: object) -> None:
        self.close()

    # Times.

    @property
    def calendar(self) -> Calendar:
        """What instants are: as the index tells, by its own note or the file beside it, else seconds since 1970.

        Raises `NoDate` where note and file contradict each other.
        """
        return self.told_calendar() or Calendar()

    def told_calendar(self) -> Optional[Calendar]:
        """What the index tells of its instants, by its own note or the file beside it, or None where it tells nothing.

        The first call reads the first graph, so that the next handle has a higher number.
        """
        note = self.noted_calendar()
        return settled(self.path, note, read_calendar(self.path))

    def noted_calendar(self) -> Optional[Calendar]:
        """What the index itself tells of its instants, by its own note, or None without one; asked as `told_calendar`."""
        if self._note_read or not os.path.exists(self.path):
            return self._note
        span = self.span()
        if span is not None:
            with self.at(span.first, "sn") as first:
                notes = (noted(value.value) for value in first.node_attributes() if value.key == NOTE_KEY)
                self._note = next((note for note in notes if note is not None), None)
            self._note_read = True
        return self._note

    def instant(self, time: Time) -> int:
        """The instant of a time. Raises `NoDate` for a date that is none, or that is before instant 0.

        A number is an instant as it is, and a number with a fraction a TypeError.
        """
        if is_date(time):
            return self.calendar.instant(time)
        try:
            return operator.index(time)
        except TypeError:
            raise TypeError(f"{time!r} is no time: times are whole numbers, or dates") from None

    def dates(self, *instants: int) -> list[str]:
        """Instants as dates."""
        return [self.calendar.text(instant) for instant in instants]

    def set_calendar(self, zero: Date, unit: str) -> Calendar:
        """Says which moment instant 0 is, and the unit of instants, and keeps both in a file beside the index.

        Raises `NoDate` where the index itself tells otherwise.
        """
        calendar, note = calendar_of(zero, unit), self.noted_calendar()
        if note is not None and not note.same(calendar):
            raise NoDate(f"the index itself tells that instant 0 is {note.text(0)} and that instants are {note.unit}")
        write_calendar(self.path, zero, unit)
        return calendar

    def span(self) -> Optional[Span]:
        """The first and the last instant of the history, or None where it has no event."""
        first, last = 0, LAST_INSTANT
        for outside in (first, last):
            try:
                self.ask(f"plan {outside} s").finish()
            except OutOfRange as refused:
                if refused.first is None or refused.last is None:
                    return None
                return Span(refused.first, refused.last)
        return Span(first, last)

    # Changes.

    def create(self, leaf_events: int = 1024, arity: int = 4, function: str = "balanced") -> None:
        """Makes an empty index in the file, which is made where it is not there.

        A leaf of it has `leaf_events` events (2 to 65,536), an interior node `arity` children (2 to 64), and `function`
        is `intersection`, `union`, `balanced`, or `skewed R` with the share R, of 256, that an interior node takes from its
        newest child.
        """
        self.ask(f"create {leaf_events} {arity} {function}")

    def upgrade(self) -> None:
        """Lets a file of the first form go on in the second. Raises `NewFormat` where it has that already."""
        self.ask("upgrade")

    def load(
        self,
        changes: Iterable[AnyChange],
        *,
        progress: Optional[Progress] = None,
        bar: Optional[bool] = None,
        batch: int = LARGEST_BATCH,
    ) -> Loaded:
        """Adds changes, in the order of their times, to the empty history: a first batch, and more behind it.

        A batch has at most `batch` changes, holds whole or not at all, and is in the file when `progress` is called
        with how many changes of the call are. No batch ends within an instant. With `bar` there is a bar of `tqdm`;
        without a word on it there is one on a terminal where `tqdm` is installed, from one second on.

        Raises `BadChange` for the first change that the graph before it does not allow, `InvalidChange` for one that
        cannot be written, and `LargeInstant` for more than 2^20 changes at one instant, of a list or a tuple before
        anything is sent, else before its batch is. Batches before it stay.
        """
        return self._add("load", changes, progress, bar, batch)

    def append(
        self,
        changes: Iterable[AnyChange],
        *,
        progress: Optional[Progress] = None,
        bar: Optional[bool] = None,
        batch: int = LARGEST_BATCH,
    ) -> Loaded:
        """Adds changes to the history, as `load`. The first of them is later than the history's last instant."""
        return self._add("append", changes, progress, bar, batch)

    def _add(
        self, word: str, changes: Iterable[AnyChange], progress: Optional[Progress], bar: Optional[bool], most: int
    ) -> Loaded:
        if hasattr(changes, "columns"):
            raise TypeError("a frame of ties is no list of changes: `deltagraph.from_pandas(path, frame)` makes an index of it")
        if not 1 <= most <= LARGEST_BATCH:
            raise ValueError(f"a batch has 1 to {LARGEST_BATCH} changes, and not {most}")
        total: Optional[int] = None
        if isinstance(changes, Sequence) and not isinstance(changes, (str, bytes)):
            total = len(changes)
            if total > LARGEST_BATCH:
                check_instants(changes)
        loaded: Optional[Loaded] = None
        shown = _bar(bar, total)
        try:
            for lines in batches(changes, most):
                added, parts = (loaded.events, loaded.batches) if loaded else (0, 0)
                try:
                    reply = self.ask(f"{word} {len(lines)}", bytes_of("\n".join(lines) + "\n"))
                except BadChange as refused:
                    refused.added, refused.text = added, lines[refused.line - 1]
                    refused.change = change_of(refused.text)
                    raise
                _, _, events, held, last = reply.head()
                loaded = Loaded(added + int(events), parts + 1, int(held), int(last))
                word = "append"
                if progress is not None:
                    progress(loaded.events)
                if shown is not None:
                    shown.update(int(events))
        finally:
            if shown is not None:
                shown.close()
        if loaded is None:
            span = self.span()
            return Loaded(0, 0, self.tree().events, span.last if span else None)
        return loaded

    def workload(self, seed: int, count: int) -> Generated:
        """Adds the first `count` generated changes of a seed to the empty history."""
        return Generated(*map(int, self.ask(f"workload {seed} {count}").head()[2:]))

    # Graphs.

    def at(self, time: Time, columns: str = "s") -> Snapshot:
        """The graph as of a time; with a `t` at the end of the columns, as `st`, with the messages of exactly that time."""
        instant = self.instant(time)
        _, _, handle, read = self._ask_of(f"at {instant} {_known(columns)}", time).head()
        return Snapshot(self, int(handle), columns, int(read), instant)

    def several(self, times: Iterable[Time], columns: str = "s") -> Snapshots:
        """The graphs as of some times, in their order, 32 together by a tree that reads each record once.

        All of them live at once, so that there are at most 127; `series` and `each` take any number.
        """
        found = Snapshots([], 0, 0)
        given = iter(times)
        try:
            while run := list(islice(given, MOST_INSTANTS)):
                found.add(self._run(run, columns))
        except Refused:
            found.release()
            raise
        return found

    def expression(
        self, words: Union[str, Sequence[Union[Time, str]]], columns: str = "s", *, instants: bool = False
    ) -> Snapshot:
        """The elements for which an expression over times holds, as "and 2020-03-01 not 2020-06-01": what was there on the
        first day and is not on the second.

        An expression is a time, `not` and an expression, or `and` or `or` and two of them. It has at most 8 times and 31
        words, and chooses among the elements that are there at one of its times, so that "not 2020-06-01" alone chooses
        nothing. As a text its words are as at the prompt, where a number is an instant; in a list times are as in `at`.
        Two snapshots have it by `&`, `|`, `-` and `^`. It may be no graph: an edge may be there without its ends.
        """
        if columns not in COLUMNS:
            raise ValueError(f"{columns!r} are no columns of an expression: they are {', '.join(COLUMNS)}")
        given = words.split() if isinstance(words, str) else list(words)
        as_typed = isinstance(words, str) or instants
        spelled = [self._spelled(word, as_typed) for word in given]
        times = len([word for word in spelled if word not in OPERATORS])
        if times > MOST_TIMES or len(spelled) > MOST_WORDS:
            raise ValueError(
                f"an expression has at most {MOST_TIMES} times and {MOST_WORDS} words, and this has {times} and {len(spelled)}"
            )
        command = f"expression {columns} {' '.join(spelled)}"
        dates = [word for word, text in zip(given, spelled) if word != text and is_date(word)]
        _, _, handle, read = self._ask_of(command, *dates).head()
        return Snapshot(self, int(handle), columns, int(read), None, words=spelled)

    def _spelled(self, word: Union[Time, str], as_typed: bool) -> str:
        """A word of an expression in the script language."""
        if isinstance(word, str) and (word in OPERATORS or (as_typed and IS_NUMBER.fullmatch(word))):
            return word
        return str(self.instant(word))

    def interval(self, begin: Time, end: Optional[Time] = None, columns: str = "s") -> Snapshot:
        """What was added from a time on and before another, whether or not it is there later: "2020-03" and "2020-04" are
        all of March. Without an end it is all from the beginning on.

        These are the nodes and edges that came, with `n` and `e` each value that was set, and with `t` all messages of that
        time. It may be no graph: an edge may be there without its ends, and a value without its node. What was there before
        and stayed is not among it.
        """
        first = self.instant(begin)
        if end is None:
            span = self.span()
            last = span.last + 1 if span is not None else first
        else:
            last = self.instant(end)
        times = [begin] if end is None else [begin, end]
        _, _, handle, read = self._ask_of(f"interval {first} {last} {_known(columns)}", *times).head()
        return Snapshot(self, int(handle), columns, int(read), None, between=(first, last))

    # Values.

    def index(self, key: str) -> Indexed:
        """Makes an index of a key, for this session: by it `find` knows the nodes of each value at each time.

        It reads one column of the whole history, once. Changes that are added later are in it too. There may be 16, and
        none is given up before the session ends. Raises `UnknownKey` where the history has no such text, and `AlreadyIndexed`
        where there is one, as of a `find` before.
        """
        _check_key(key)
        return Indexed(*map(int, self.ask(f"index {key}").head()[2:]))

    def find(self, key: str, value: str, time: Optional[Time] = None) -> list[int]:
        """The ids of the nodes that have this value for a key, in order, as of a time, or of the last instant without one.

        The first question by a key makes an index of it (`index`), and others by the same key read nothing. Behind 16 keys
        a further one is looked for among all values of that time.
        """
        _check_key(key)
        if not is_value(value):
            return []
        if time is None:
            span = self.span()
            if span is None:
                return []
            time = span.last
        command = f"find {self.instant(time)} {key} {value}"
        try:
            reply = self._ask_of(command, time)
        except NotIndexed:
            try:
                self.index(key)
            except UnknownKey:
                return []
            except IndexesFull:
                with self.at(time, "sn") as graph:
                    return [of.node for of in graph.node_attributes() if (of.key, of.value) == (key, value)]
            reply = self.ask(command)
        return [int(line[len("node ") :]) for line in reply.lines()]

    def _run(self, times: Sequence[Time], columns: str) -> Snapshots:
        instants = [self.instant(time) for time in times]
        reply = self._ask_of(f"several {_known(columns)} {' '.join(map(str, instants))}", *times)
        _, _, read, singly = reply.head()
        found = [list(map(int, line.split(" ")[1:])) for line in reply.lines()]
        snapshots = [Snapshot(self, handle, columns, single, instant) for handle, instant, single in found]
        return Snapshots(snapshots, int(read), int(singly))

    def each(self, times: Iterable[Time], f: Callable[[Snapshot], Result], columns: str = "s") -> Iterator[Result]:
        """What a function says of the graph as of each of any number of times, in their order.

        The graphs are retrieved 32 together, and released and cleaned away before the next ones.
        """
        given = iter(times)
        while run := list(islice(given, MOST_INSTANTS)):
            with self._run(run, columns) as snapshots:
                for snapshot in snapshots:
                    yield f(snapshot)
                    snapshot.release()
            self.clean()

    def series(self, times: Iterable[Time], f: Callable[[Snapshot], Any] = Snapshot.counts, columns: str = "s") -> Any:
        """What a function says of the graph as of each of any number of times, as a frame of pandas by these times.

        A function that gives a dictionary or a named tuple, as `Snapshot.counts`, makes a column of each of its names;
        any other makes a Series. Raises ImportError where pandas is not there; `each` needs none.
        """
        import pandas

        given = list(times)
        found = list(self.each(given, f, columns))
        index = pandas.Index(pandas.to_datetime(given) if given and all(map(is_date, given)) else given, name="time")
        if found and hasattr(found[0], "_fields"):
            return pandas.DataFrame(found, index, found[0]._fields).dropna(axis="columns", how="all")
        if found and isinstance(found[0], dict):
            return pandas.DataFrame(found, index)
        return pandas.Series(found, index, name=getattr(f, "__name__", None), dtype=None if found else object)

    def _ask_of(self, command: str, *times: Time) -> Reply:
        """The reply to a command that names times; where they are dates, a refusal tells the history's."""
        try:
            return self.ask(command)
        except OutOfRange as refused:
            if any(map(is_date, times)):
                refused.calendar, refused.told = self.calendar, self.told_calendar() is not None
            raise

    def history(self) -> "History":
        """The whole history, as spells and changes: what there was, from when to when. It is read from the file.

        Nothing of this reading is proved, and it takes the file as it is: `verify` first. Raises ImportError where
        numpy is not there.
        """
        from .history import History

        if not os.path.exists(self.path):
            raise NoIndex(["refused", "2", "no-index"], "history")
        return History(self.path, self.told_calendar())

    def changes(self, begin: Optional[Time] = None, end: Optional[Time] = None) -> Any:
        """The changes from a time on and before another, in their order, as a frame of pandas (`History.changes`).

        Without a begin they are from the first on, and without an end up to the last: together all changes. So
        `changes("2020-03", "2020-04")` are those of March.
        """
        first = None if begin is None else self.instant(begin)
        last = None if end is None else self.instant(end)
        return self.history().changes(begin=first, end=last)

    def materialise(self, node: str, columns: str = "s") -> Snapshot:
        """Holds a node of the index, `leaf 3` or `inner 2 1`, from which later retrievals go on for nothing."""
        _, _, handle, read = self.ask(f"materialise {node} {columns}").head()
        return Snapshot(self, int(handle), columns, int(read), None, node)

    def pool(self) -> Pool:
        """How many handles live, and how many elements are in memory for them and for the current graph."""
        return Pool(*map(int, self.ask("pool").head()[2:]))

    def clean(self, cells: Optional[int] = None) -> Optional[int]:
        """Gives the memory of released handles back: sweeps so many cells, or without a number all of them.

        Says how many cells are left where all were swept.
        """
        if cells is None:
            return int(self.ask("clean all").head()[3])
        self.ask(f"clean {cells}")
        return None

    # The index.

    def plan(self, time: Time, columns: str = "s") -> Plan:
        """The cheapest way through the index to the graph as of a time, with the potentials that show it."""
        reply = self._ask_of(f"plan {self.instant(time)} {columns}", time)
        steps: list[Step] = []
        potentials: list[Potential] = []
        for part in map(step_or_potential, reply.lines()):
            if isinstance(part, Step):
                steps.append(part)
            else:
                potentials.append(part)
        return Plan(int(reply.head()[2]), steps, potentials)

    def certify(
        self, time: Time, columns: str, certificate: Union[Plan, Iterable[Union[Step, Potential, str]]]
    ) -> Verdict:
        """Whether a certificate, a plan or its lines, shows that no way to the graph as of a time weighs less."""
        parts = certificate.lines() if isinstance(certificate, Plan) else certificate
        lines = [part if isinstance(part, str) else part.line() for part in parts]
        command = f"certify {self.instant(time)} {columns} {len(lines)}"
        told = " ".join(self.ask(command, bytes_of("".join(line + "\n" for line in lines))).head()[2:])
        return Verdict(told == "valid", told)

    def tree(self) -> Tree:
        """The parameters of the index and its records."""
        reply = self.ask("tree")
        leaf_events, arity, *function, events, leaves, _ = reply.head()[2:]
        records = [record_of(line) for line in reply.lines()]
        return Tree(int(leaf_events), int(arity), " ".join(function), int(events), int(leaves), records)

    def verify(self) -> Verification:
        """Whether every byte of the file is what its events determine; it costs what a load of them costs."""
        told, *rest = self.ask("verify").head()[2:]
        if told == "sound":
            return Verification(True, int(rest[0]), None, None)
        return Verification(False, None, " ".join(rest[:-1]), rest[-1])


def _check_key(key: str) -> None:
    """Raises ValueError for a text that no key may be."""
    if not is_key(key):
        raise ValueError(f"{key!r} is no key: keys have 1 to {LONGEST_KEY} bytes, all of them above that of a space")


def _known(columns: str) -> str:
    """Columns that there are. Others are a ValueError."""
    if (columns[:-1] if columns.endswith("t") else columns) not in COLUMNS:
        raise ValueError(f"{columns!r} are no columns: they are {', '.join(COLUMNS)}, and with a t behind them messages")
    return columns


def _bar(wanted: Optional[bool], total: Optional[int]) -> Any:
    """A bar of `tqdm`, or None where none is wanted. Raises ImportError where one is, and there is no `tqdm`."""
    if wanted is None:
        try:
            wanted = sys.stderr.isatty() and importlib.util.find_spec("tqdm") is not None
        except (AttributeError, ValueError):  # no standard error, or it is closed
            wanted = False
    if not wanted:
        return None
    return importlib.import_module("tqdm").tqdm(total=total, unit=" changes", delay=SHOWN_AFTER)
