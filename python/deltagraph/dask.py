"""A history over a Dask cluster. Each thread of a worker runs a program of its own over the index, and only reads it.

    import deltagraph.dask

    history = deltagraph.dask.History("ties.dg")               # one file that all workers can read
    history = deltagraph.dask.History(["ties.0", "ties.1"])    # or the parts of one
    history.counts(times)                                      # frames of Dask, and so are degrees and edges
    history.map(times, f)                                      # a bag of f(snapshot)
    history.map(times, f, whole=True)                          # the same, where f needs the whole graph of parts

docs/CLUSTER.md says which of these to take, and what it costs. It needs dask, numpy and pandas, and for more than the
threads of one process distributed.
"""
from __future__ import annotations

import atexit
import contextlib
import functools
import operator
import os
import signal
import threading
import weakref
from types import SimpleNamespace
from typing import Any, Callable, Iterable, Iterator, NamedTuple, Optional, Sequence, Union

import dask
import dask.bag
import dask.dataframe
import numpy
import pandas

from .calendar import Calendar, is_date
from .process import Program, find_program
from .refusals import NoIndex, OutOfRange
from .replies import KINDS, Counts, Neighbour, Node, Span
from .snapshot import Snapshot
from .store import Store, Time, _known
from .words import MOST_INSTANTS

try:
    import distributed
except ImportError:  # the schedulers of dask alone
    distributed = None

MOST_ROWS = 1 << 22  # of the edges or nodes of a run, by those of its last graph: some 140 MB of a frame
CLOSING = "deltagraph"  # the plugin of a worker

Path = Union[str, "os.PathLike[str]"]


class Index(NamedTuple):
    """An index file and how a worker opens it."""

    path: str
    program: Optional[list[str]]
    cache: int


class Look(NamedTuple):
    """What is asked of a file before its work is shared out: its span, its calendar, and the size of its last graph."""

    span: Optional[Span]
    calendar: Optional[Calendar]
    nodes: int = 0
    edges: int = 0


class Run(NamedTuple):
    """Neighbouring instants that a worker retrieves at once, and what a frame shows for each of them."""

    instants: list[int]
    times: Any


class History:
    """A history over a Dask cluster: one index file, or the parts of one.

    Every worker has to find a file under its path, for which a shared folder or a copy serves. Of parts each is an index
    of its own. All nodes are in each, and all else is in just one: the values of a node, an edge with its values, and the
    messages of a source.

    A time is an instant or a date, as in `Store`. Whatever the order of the times is, answers come in the order of
    the instants, each of them once: `instants` has them. They are parted into runs of neighbours, at most 32 and few
    enough for all threads to have some, and each run is retrieved at once.

    Frames show dates where the index tells what its instants are, else instants; `dates` says otherwise. Their ids are
    int64; an id above 2^63-1 is an OverflowError there, and `ids="uint64"` has it. `program` and `cache` are as in
    `deltagraph.open`; without a program each worker finds its own.

    A question looks at the files at once, and does its work when Dask computes it.
    """

    def __init__(
        self,
        index: Union[Path, Sequence[Path]],
        program: Program = None,
        cache: int = 0,
        dates: Optional[bool] = None,
        ids: str = "int64",
    ) -> None:
        paths = [index] if isinstance(index, (str, os.PathLike)) else list(index)
        if not paths:
            raise ValueError("a history has one file at least")
        if ids not in ("int64", "uint64"):
            raise ValueError(f"ids are int64 or uint64, and not {ids!r}")
        words = None if program is None else find_program(program)
        self.paths = [os.path.abspath(path) for path in paths]
        self.dates, self.ids = dates, ids
        self._indexes = [Index(path, words, cache) for path in self.paths]

    def __repr__(self) -> str:
        return f"<deltagraph.dask.History {', '.join(map(repr, self.paths))}>"

    # What the files say.

    def _look(self) -> list[Look]:
        return list(dask.compute(*[dask.delayed(_look, pure=False)(index) for index in self._indexes]))

    def span(self) -> Optional[Span]:
        """The first and the last instant of the history, or None where it has no event."""
        return _span_of(self._look())

    def instants(self, times: Iterable[Time]) -> list[int]:
        """The instants of some times, in order and each once. Raises `OutOfRange` for one outside of the history."""
        return _instants_of(self._look(), times)

    # Questions.

    def counts(self, times: Iterable[Time], columns: str = "s") -> Any:
        """A frame with a row for each instant: how many elements of each kind of the columns there are."""
        names = _counted(columns)
        looks = self._look()
        meta = self._meta(looks, {name: numpy.int64 for name in names})
        work = functools.partial(_counts, columns=columns)
        return self._frame(looks, self._runs(looks, times), work, _added_counts, meta)

    def degrees(self, times: Iterable[Time]) -> Any:
        """A frame with a row for each node of each instant: the time, the node and its degree, to which a loop gives one."""
        looks = self._look()
        meta = self._meta(looks, {"node": self.ids, "degree": numpy.int64})
        runs = self._runs(looks, times, max(look.nodes for look in looks))
        return self._frame(looks, runs, functools.partial(_degrees, ids=self.ids), _added_degrees, meta)

    def edges(self, times: Iterable[Time]) -> Any:
        """A frame with a row for each edge of each instant: the time, its id, its source and target and whether it has a
        direction. A partition has a run of instants, of one part, and is in order."""
        looks = self._look()
        ends = {name: self.ids for name in ("id", "source", "target")}
        meta = self._meta(looks, {**ends, "directed": bool})
        runs = self._runs(looks, times, max(look.edges for look in looks))
        work = functools.partial(_edges, ids=self.ids)
        return self._frame(looks, runs, work, None, meta)

    def map(self, times: Iterable[Time], f: Callable[[Any], Any], columns: str = "s", whole: bool = False) -> Any:
        """A bag of what a function says of the graph as of each instant. It is called where the graph is.

        Over parts it is called with the snapshots of one part after another. A part whose history has ended shows its
        last graph, and `snapshot.time` is then the last instant of the part; a part that has not begun is left out. With
        `whole` it is called with the whole graph of each instant, which has the methods of a snapshot.
        """
        _known(columns)
        looks = self._look()
        joined = whole and len(self.paths) > 1
        runs = self._runs(looks, times, max(look.nodes + look.edges for look in looks) if joined else 0)
        if joined:
            found = [one for run in runs for one in self._joined(run, f, columns, _calendar_of(looks))]
        else:
            work = dask.delayed(_mapped, pure=False)
            found = [work(index, run, f, columns) for index in self._indexes for run in runs]
        return dask.bag.from_delayed(found) if found else dask.bag.from_sequence([], npartitions=1)

    # How they are shared out.

    def _meta(self, looks: list[Look], columns: dict[str, Any]) -> Any:
        """An empty frame of these columns."""
        time = self._shown(looks, [])
        return pandas.DataFrame({"time": time, **{name: numpy.zeros(0, kind) for name, kind in columns.items()}})

    def _shown(self, looks: list[Look], instants: list[int]) -> Any:
        """What a frame shows for instants."""
        told = _calendar_of(looks)
        dates = self.dates if self.dates is not None else told is not None and told.dates
        numbers = numpy.array(instants, numpy.int64)
        return (told or Calendar()).moments(numbers) if dates else numbers

    def _runs(self, looks: list[Look], times: Iterable[Time], rows: int = 0) -> list[Run]:
        """Runs of neighbouring instants; `rows` is how large a graph is in memory."""
        instants = _instants_of(looks, times)
        most = _longest_run(len(instants), len(self.paths), _threads(), rows)
        runs = [instants[begin : begin + most] for begin in range(0, len(instants), most)]
        return [Run(run, self._shown(looks, run)) for run in runs]

    def _joined(self, run: Run, f: Callable[[Any], Any], columns: str, calendar: Optional[Calendar]) -> list[Any]:
        """What a function says of the whole graphs of a run: each is joined on one worker."""
        read, told = dask.delayed(_listings, pure=False), dask.delayed(_of_whole, pure=False)
        parts = [read(index, run, columns, place == 0) for place, index in enumerate(self._indexes)]
        return [
            told(f, instant, columns, calendar, *(part[place] for part in parts))
            for place, instant in enumerate(run.instants)
        ]

    def _frame(
        self, looks: list[Look], runs: list[Run], work: Callable[..., Any], join: Optional[Callable[..., Any]], meta: Any
    ) -> Any:
        """A frame of Dask: what is made of each run of each part, joined where it has to be."""
        made = []
        for run in runs:
            parts = [
                dask.delayed(work, pure=False)(index, run, first=place == 0) for place, index in enumerate(self._indexes)
            ]
            made += parts if join is None or len(parts) == 1 else [dask.delayed(join, pure=False)(*parts)]
        if not made:
            return dask.dataframe.from_pandas(meta, npartitions=1)
        return dask.dataframe.from_delayed(made, meta=meta)


def _longest_run(instants: int, parts: int, threads: int, rows: int) -> int:
    """How many instants are retrieved at once: at most 32, and fewer where threads would have none, or frames be large."""
    shared = -(-instants * parts // max(threads, 1))
    return max(1, min(MOST_INSTANTS, shared, MOST_ROWS // max(rows, 1)))


def _threads() -> int:
    """How many threads do the work."""
    if distributed is not None:
        with contextlib.suppress(ValueError):  # there is no client
            return sum(distributed.get_client().nthreads().values()) or 1
    return os.cpu_count() or 1


def _span_of(looks: list[Look]) -> Optional[Span]:
    spans = [look.span for look in looks if look.span is not None]
    return Span(min(span.first for span in spans), max(span.last for span in spans)) if spans else None


def _calendar_of(looks: list[Look]) -> Optional[Calendar]:
    """The calendar that a part tells: the note of a history is in one of them."""
    return next((look.calendar for look in looks if look.calendar is not None), None)


def _instants_of(looks: list[Look], times: Iterable[Time]) -> list[int]:
    span, told = _span_of(looks), _calendar_of(looks)
    found = set()
    for time in times:
        if is_date(time):
            instant = (told or Calendar()).instant(time)
        else:
            try:
                instant = operator.index(time)
            except TypeError:
                raise TypeError(f"{time!r} is no time: times are whole numbers, or dates") from None
        if span is None or not span.first <= instant <= span.last:
            ends = [str(end) for end in span] if span is not None else ["empty"]
            refused = OutOfRange(["refused", "7", "out-of-range", *ends], f"at {instant} s")
            if is_date(time):
                refused.calendar, refused.told = told or Calendar(), told is not None
            raise refused
        found.add(instant)
    return sorted(found)


# On a worker: the stores.


class _Held:
    """The store that a thread has open, if it has one. It is one, so that a worker over parts never holds them all."""

    def __init__(self, worker: Any) -> None:
        self.worker = worker  # whose thread it is, or None
        self.lock = threading.Lock()  # while its thread uses it
        self.store: Optional[Store] = None
        self._key: Any = None
        _all.add(self)

    def of(self, index: Index) -> Store:
        """The store of an index, opened anew where the file is another or has grown."""
        try:
            file = os.stat(index.path)
        except FileNotFoundError:
            raise NoIndex(["refused", "2", "no-index"], f"open {index.path}") from None
        key = (index, file.st_dev, file.st_ino, file.st_size, file.st_mtime_ns)
        if self.store is None or self.store.ended or self._key != key:
            self.close()
            self.store, self._key = Store(index.path, index.program, cache=index.cache), key
        return self.store

    def close(self) -> None:
        """Ends the program at once. It writes nothing, so there is nothing to wait for."""
        store, self.store = self.store, None
        if store is not None:
            store.kill()

    def end(self) -> None:
        """Closes the store of a thread that rests, and kills the program of one that is at work."""
        if self.lock.acquire(blocking=False):
            try:
                self.close()
            finally:
                self.lock.release()
        else:
            store = self.store
            if store is not None and store.process is not None and not store.ended:
                os.kill(store.process, signal.SIGKILL)

    def __del__(self) -> None:
        self.close()  # the thread is over


_all: "weakref.WeakSet[_Held]" = weakref.WeakSet()
_here = threading.local()


def close() -> None:
    """Ends all programs of this process. A worker does so by itself when it ends."""
    for held in list(_all):
        held.end()


atexit.register(close)


@contextlib.contextmanager
def _opened(index: Index) -> Iterator[Store]:
    """The store of this thread over an index."""
    held = getattr(_here, "held", None)
    if held is None:
        held = _here.held = _Held(_worker())
    with held.lock:
        yield held.of(index)


def _worker() -> Any:
    """The worker of this thread, which gets the plugin that ends its programs; or None in a thread of another scheduler."""
    if distributed is None:
        return None
    try:
        worker = distributed.get_worker()
    except ValueError:
        return None
    worker.loop.add_callback(_close_with, worker)
    return worker


async def _close_with(worker: Any) -> None:
    """Gives a worker the plugin, if it has none: to put another in its place would tear that down, with the programs."""
    if CLOSING not in worker.plugins:
        await worker.plugin_add(plugin=_Closing(), name=CLOSING)


class _Closing(distributed.WorkerPlugin if distributed is not None else object):  # type: ignore[misc]
    """Ends the programs of a worker with the worker. Others of the same process keep theirs."""

    def teardown(self, worker: Any) -> None:
        for held in list(_all):
            if held.worker is worker:
                held.end()


# On a worker: the questions.


def _look(index: Index) -> Look:
    with _opened(index) as store:
        span = store.span()
        if span is None:
            return Look(None, store.told_calendar())
        with store.at(span.last) as last:
            counts = last.counts()
        return Look(span, store.told_calendar(), counts.nodes, counts.edges)


def _each(index: Index, run: Run, columns: str, f: Callable[[Any], Any]) -> list[Any]:
    """What a function says of each graph of a run; the graph is None before the first instant of a part.

    Behind the last instant of a part its graph is that of the last, without messages, which are of one instant.
    """
    with _opened(index) as store:
        span = store.span()
        if span is None:
            return [f(None) for _ in run.instants]
        before = [instant for instant in run.instants if instant < span.first]
        within = [instant for instant in run.instants if span.first <= instant <= span.last]
        behind = [span.last for instant in run.instants if instant > span.last]
        found = [f(None) for _ in before]
        found += store.each(within, f, columns)
        found += store.each(behind, f, columns.rstrip("t"))
        return found


def _counted(columns: str) -> list[str]:
    """The kinds of elements that columns have, as `Counts` names them."""
    _known(columns)
    of = {"node_attributes": "n", "edge_attributes": "e", "messages": "t"}
    return [kind for kind in Counts._fields if of.get(kind, "s") in columns]


def _counts(index: Index, run: Run, first: bool, columns: str) -> Any:
    """The counts of a run. Nodes are in every part, and are counted in the first."""
    rows = _each(index, run, columns, lambda graph: Counts(0, 0, 0, 0, 0) if graph is None else graph.counts())
    found = {kind: numpy.array([getattr(row, kind) or 0 for row in rows], numpy.int64) for kind in _counted(columns)}
    if not first:
        found["nodes"] = numpy.zeros(len(rows), numpy.int64)
    return pandas.DataFrame({"time": run.times, **found})


def _added_counts(*frames: Any) -> Any:
    found = frames[0].copy()
    for frame in frames[1:]:
        for kind in frame.columns[1:]:
            found[kind] += frame[kind]
    return found


def _numbers(graph: Optional[Snapshot]) -> tuple[Any, Any, Any, Any, Any]:
    """The nodes, and the ids, sources, targets and directions of the edges of a graph, from the bytes of its listing."""
    from .arrays import edges_of, numbers_in

    sections: dict[bytes, list[bytes]] = {b"node": [], b"edge": []}
    if graph is not None:
        for kind, section in graph.sections():
            sections[kind].append(section)
    nodes = numbers_in(b"".join(sections[b"node"]).replace(b"node ", b""))
    return (nodes, *edges_of(b"".join(sections[b"edge"])))


def _as(numbers: Any, ids: str) -> Any:
    """Ids as a frame has them. One above 2^63-1 is an OverflowError where they are int64."""
    if ids == "int64" and len(numbers) and numbers.max() >= 1 << 63:
        raise OverflowError(f'the id {numbers.max()} is above 2^63-1: History(.., ids="uint64") has it')
    return numbers.astype(ids, copy=False)


def _degrees(index: Index, run: Run, first: bool, ids: str) -> Any:
    """The degrees of all nodes, or of another part than the first of those that have an edge in it."""

    def of(graph: Optional[Snapshot]) -> tuple[Any, Any]:
        nodes, _, sources, targets, _ = _numbers(graph)
        ends = numpy.concatenate((sources, targets[sources != targets]))
        degrees = numpy.bincount(numpy.searchsorted(nodes, ends), minlength=len(nodes)).astype(numpy.int64)
        kept = slice(None) if first else degrees > 0
        return nodes[kept], degrees[kept]

    found = _each(index, run, "s", of)
    times = numpy.repeat(run.times, [len(nodes) for nodes, _ in found])
    nodes, degrees = (numpy.concatenate(column) for column in zip(*found))
    return pandas.DataFrame({"time": times, "node": _as(nodes, ids), "degree": degrees})


def _added_degrees(*frames: Any) -> Any:
    return pandas.concat(frames).groupby(["time", "node"], as_index=False, sort=True).sum()


def _edges(index: Index, run: Run, first: bool, ids: str) -> Any:
    found = _each(index, run, "s", lambda graph: _numbers(graph)[1:])
    times = numpy.repeat(run.times, [len(of) for of, *_ in found])
    edges, sources, targets, directed = (numpy.concatenate(column) for column in zip(*found))
    ends = {"id": edges, "source": sources, "target": targets}
    return pandas.DataFrame({"time": times, **{name: _as(of, ids) for name, of in ends.items()}, "directed": directed})


def _mapped(index: Index, run: Run, f: Callable[[Any], Any], columns: str) -> list[Any]:
    found = _each(index, run, columns, lambda graph: None if graph is None else (f(graph),))
    return [one[0] for one in found if one is not None]


# On a worker: whole graphs of parts.


def _listings(index: Index, run: Run, columns: str, first: bool) -> list[dict[bytes, bytes]]:
    """The listing of each graph by its kinds. Nodes are in every part, and come from the first."""

    def of(graph: Optional[Snapshot]) -> dict[bytes, bytes]:
        found: dict[bytes, list[bytes]] = {}
        for kind, section in graph.sections() if graph is not None else ():
            if first or kind != b"node":
                found.setdefault(kind, []).append(section)
        return {kind: b"".join(sections) for kind, sections in found.items()}

    return _each(index, run, columns, of)


def _of_whole(
    f: Callable[[Any], Any], instant: int, columns: str, calendar: Optional[Calendar], *listings: dict[bytes, bytes]
) -> list[Any]:
    return [f(Whole(instant, columns, calendar, listings))]


class Whole(Snapshot):
    """The whole graph as of an instant, joined from its parts. It has the methods of a snapshot, and asks no program:
    `node` and `neighbours` go through all of it, and expressions are not made of it."""

    def __init__(
        self, instant: int, columns: str, calendar: Optional[Calendar], listings: Sequence[dict[bytes, bytes]]
    ) -> None:
        nobody: Any = SimpleNamespace(calendar=calendar or Calendar(), ended=True)
        super().__init__(nobody, 0, columns, 0, instant)
        self.released = True  # it has no handle
        self._sections = [joined for kind in KINDS if (joined := _joined([of.get(kind, b"") for of in listings]))]

    def __repr__(self) -> str:
        return f"<Whole time={self.time} columns={self.columns!r}>"

    def _pieces(self) -> Iterator[bytes]:
        yield from self._sections

    def counts(self) -> Counts:
        found = dict.fromkeys(KINDS, 0)
        for kind, section in self.sections():
            found[kind] += section.count(b"\n")
        of = [found[kind] for kind in (b"node", b"edge", b"nattr", b"eattr", b"msg")]
        return Counts(*of) if self.columns.endswith("t") else Counts(*of[:4])

    def node(self, node: Union[int, str]) -> Optional[Node]:
        number = self._id_of(node)
        if number is None or number not in self.nodes():
            return None
        degree = sum(number in (edge.source, edge.target) for edge in self.edges())
        return Node(number, degree, {of.key: of.value for of in self.node_attributes() if of.node == number})

    def neighbours(self, node: Union[int, str]) -> list[Neighbour]:
        number, found = self._id_of(node), []
        for edge in self.edges():
            if number in (edge.source, edge.target):
                side = "both" if not edge.directed else "out" if edge.source == number else "in"
                found.append(Neighbour(side, edge.id, edge.target if edge.source == number else edge.source))
        return found

    def find(self, key: str, value: str) -> list[int]:
        return [of.node for of in self.node_attributes() if (of.key, of.value) == (key, value)]

    def _with(self, other: Snapshot, made: Callable[[list[str], list[str]], list[str]]) -> Snapshot:
        raise ValueError("an expression is of graphs of one store, and this one is joined from parts")


def _joined(sections: list[bytes]) -> bytes:
    """Lines of one kind from all parts, in order. What begins with one number is in one part, and in order there."""
    given = [section for section in sections if section]
    if len(given) < 2:
        return b"".join(given)
    lines = [line for section in given for line in section[:-1].split(b"\n")]
    lines.sort(key=lambda line: int(line.split(b" ", 2)[1]))
    return b"\n".join(lines) + b"\n"
