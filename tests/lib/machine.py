"""A machine that answers commands as docs/SCRIPT.md says, over a plain list of events, and never with the program.

A new command is one method of `Machine`. Its row of the grammar stands above it; it gives the lines of its reply, or raises
`Refused` with the first refusal that holds. `interval`, `index` and `find` go by what the history says of its lists and of what
is recent alone, so that they answer over what any file says of these too (`ToldHistory` of judge.py).
"""
from __future__ import annotations

import copy
from collections import Counter
from itertools import islice
from typing import Any, Callable, Iterable, List, NamedTuple, Optional, Sequence

from tests.lib import grammar
from tests.lib.history import (
    COLUMNS,
    EDGE,
    EDGE_ATTR,
    LETTERS,
    MESSAGE,
    MESSAGES,
    NODE,
    NODE_ATTR,
    NODES,
    History,
    effect,
    key_order,
    put_in,
    replay,
)
from tests.lib.plans import IndexGraph, older_children, point

LINE_MOST = 4096  # bytes
LIVE_MOST = 127  # handles
HANDLE_MOST = 2**32 - 1
INDEXES_MOST = 16
EVENTS_MOST, NAMES_MOST = 2**28, 2**30
READ_AT_ONCE = 32  # older children, which one tree leads to
GRAPH_COLUMNS = "sne"

Reply = List[str]  # the lines of a reply, without the last one, `end`


class Refused(Exception):
    """A refusal: its number, its name and what follows these."""


class Held(NamedTuple):
    """What a handle holds: elements, in some columns. A base is of a node of the index; an overlay is a graph as of an instant,
    which may rest on a base."""

    elements: set[Any]
    columns: str
    node: Optional[str] = None
    is_overlay: bool = False
    rests_on: Optional[int] = None


class Row(NamedTuple):
    """A command of the grammar."""

    method: Callable[..., Reply]
    has_lines: bool  # whether as many lines follow as its last word says


COMMANDS: dict[str, Row] = {}


def command(form: str, has_lines: bool = False) -> Callable[[Callable[..., Reply]], Callable[..., Reply]]:
    def enter(method: Callable[..., Reply]) -> Callable[..., Reply]:
        COMMANDS[form] = Row(method, has_lines)
        return method

    return enter


class Machine:
    def __init__(self, history: Optional[History] = None, names: Iterable[bytes] = (), damaged: Iterable[tuple[str, int]] = ()):
        """Over a history and its names, or over no index. `damaged` are columns of records that are in no spelling."""
        self.history, self.names, self.damaged = history, list(names), set(damaged)
        self.handles: dict[int, Held] = {}
        self.next = 1
        self.indexed: dict[int, list[Any]] = {}  # by the numbers of their keys, the events that indexes of values were made of
        self.graphs: dict[Any, IndexGraph] = {}

    def opened(self) -> Machine:
        """The machine of a new run over the same file."""
        return Machine(self.history, self.names, self.damaged)

    def copy(self) -> Machine:
        """The same machine, which goes on by itself. A batch does not change a history, but puts another one in its place."""
        other = copy.copy(self)
        other.handles, other.graphs = dict(self.handles), dict(self.graphs)
        return other

    def file(self) -> bytes:
        """The bytes of the file in use, with the last gate; none where there is no index."""
        return self.history.file() if self.history else b""

    def answer(self, line: str, more: Sequence[str] = ()) -> str:
        """The reply to a command, behind which these lines stand."""
        try:
            reply = self.carry_out(bytes_of(line), [bytes_of(text) for text in more])
        except Refused as refused:
            reply = [f"refused {refused}"]
        return "".join(f"{row}\n" for row in [*reply, "end"])

    def reply(self, command_lines: str) -> Reply:
        """The lines of the reply to a command and what follows it, without the last one."""
        return self.answer(*split(command_lines)).split("\n")[:-2]

    def carry_out(self, line: bytes, more: list[bytes]) -> Reply:
        if len(line) > LINE_MOST:
            raise Refused("18 line-long")
        try:
            form, values = grammar.read(COMMANDS, line)
        except grammar.Left as left:
            raise Refused(f"1 syntax {left}") from None
        row = COMMANDS[form]
        if not row.has_lines:
            return row.method(self, *values)
        if len(more) < values[-1]:
            raise Refused(f"5 short-batch {len(more)} {values[-1]}")
        return row.method(self, *values, more)

    # ---- what commands need, each with its refusal

    def index_there(self) -> History:
        if self.history is None:
            raise Refused("2 no-index")
        return self.history

    def ends(self) -> tuple[int, int]:
        """The first and the last instant; the last is before the first where there is none."""
        return self.index_there().ends() or (0, -1)

    def in_range(self, *times: int, behind: int = 0) -> None:
        """Instants that are in range, or up to so many behind the last."""
        first, last = self.ends()
        if last < first:
            raise Refused("7 out-of-range empty")
        if not all(first <= time <= last + behind for time in times):
            raise Refused(f"7 out-of-range {first} {last}")

    def held(self, handle: int) -> Held:
        if handle not in self.handles:
            raise Refused(f"8 unknown-handle {handle}")
        return self.handles[handle]

    def overlay(self, handle: int) -> Held:
        if not self.held(handle).is_overlay:
            raise Refused(f"17 not-an-overlay {handle}")
        return self.handles[handle]

    def room_for(self, handles: int) -> None:
        if len(self.handles) + handles > LIVE_MOST:
            raise Refused(f"9 pool-full {len(self.handles)} {handles}")
        if self.next + handles > HANDLE_MOST + 1:
            raise Refused("19 handles-spent")

    def read(self, records: Iterable[str], columns: Iterable[int]) -> None:
        """These columns of records are read, in this order."""
        for key in records:
            for column in columns:
                if (key, column) in self.damaged:
                    raise Refused(f"15 damaged {key} {LETTERS[column]}")

    def events_in(self, key: str, columns: Iterable[int]) -> list[Any]:
        """The events in these columns of a list, which are read."""
        found = []
        for column in columns:
            self.read([key], [column])
            found += self.index_there().events_in(key, column)
        return found

    def bytes_of(self, records: Iterable[str], columns: Iterable[int]) -> int:
        sizes = self.index_there().sizes
        return sum(sizes[key][column] for key in records for column in columns)

    def give(self, held: Held) -> int:
        self.handles[self.next] = held
        self.next += 1
        return self.next - 1

    # ---- the file

    @command("create N32 N32 FUNCTION")
    def create(self, size: int, arity: int, function: str) -> Reply:
        if self.history is not None:
            raise Refused("3 index-exists")
        share = int(function.split(" ")[1]) if " " in function else 0
        if not (2 <= size <= 65536 and 2 <= arity <= 64 and share <= 256):
            raise Refused("4 parameters")
        self.history = History(size, arity, function)
        return ["ok create"]

    @command("load COUNT", has_lines=True)
    def load(self, count: int, lines: list[bytes]) -> Reply:
        self.is_unloaded()
        return self.add("load", lines)

    @command("append COUNT", has_lines=True)
    def append(self, count: int, lines: list[bytes]) -> Reply:
        return self.add("append", lines)

    @command("workload SEED COUNT")
    def workload(self, seed: int, count: int) -> Reply:
        self.is_unloaded()
        self.add("workload", generated(seed, count))
        graph = replay(self.index_there().events)
        nodes, edges = (sum(x[0] == kind for x in graph) for kind in (NODE, EDGE))
        return [f"ok workload {count} {self.ends()[1]} {nodes} {edges}"]

    @command("upgrade")
    def upgrade(self) -> Reply:
        if self.index_there().is_wide:
            raise Refused("21 new-format")
        self.history = self.index_there().copy()
        self.history.upgrade()
        return ["ok upgrade"]

    def is_unloaded(self) -> None:
        if self.index_there().events:
            raise Refused("20 already-loaded")

    def add(self, word: str, lines: list[bytes]) -> Reply:
        """Adds a batch of changes."""
        history = self.index_there()
        if len(history.events) + len(lines) > EVENTS_MOST or len(self.names) + 2 * len(lines) > NAMES_MOST:
            raise Refused(f"12 history-full {len(history.events)} {len(lines)}")
        batch = Batch(history.events, self.names)
        for number, line in enumerate(lines, 1):
            try:
                batch.take(line)
            except Bad as bad:
                raise Refused(f"6 bad-change {number} {bad}") from None
        if not history.is_wide and any(event[1] == "msg" for event in batch.events):
            raise Refused("22 old-format")
        children = older_children(history, len(lines))
        records = IndexGraph(history, GRAPH_COLUMNS, memory=False) if self.damaged and children else None
        for at in range(0, len(children), READ_AT_ONCE) if records else ():
            self.read(records.entered(children[at : at + READ_AT_ONCE]), [c for c in COLUMNS if c != MESSAGES])
        self.enter(batch)
        return [f"ok {word} {len(lines)} {len(history.events) + len(lines)} {batch.events[-1][0]}"]

    def enter(self, batch: Batch) -> None:
        """Adds a batch to the file, and to the indexes of values."""
        names = list(batch.numbers)
        self.history = self.index_there().copy()
        self.history.add(batch.events, names[len(self.names) :])
        self.indexed = {number: events + batch.events for number, events in self.indexed.items()}
        self.names, self.graphs = names, {}

    @command("verify")
    def verify(self) -> Reply:
        history = self.index_there()
        for key, column in sorted(self.damaged, key=lambda place: (key_order(place), place[1])):
            return [f"ok verify unsound {key} {LETTERS[column]}"]
        return [f"ok verify sound {len(history.sizes)}"]

    @command("tree")
    def tree(self) -> Reply:
        history = self.index_there()
        rows = [f"record {key} {' '.join(map(str, sizes))}" for key, sizes in sorted(history.sizes.items(), key=key_order)]
        events = len(history.events)
        return [f"ok tree {history.size} {history.arity} {history.function} {events} {events // history.size} {len(rows)}", *rows]

    # ---- retrievals

    def planned(self, columns: str) -> IndexGraph:
        """The graph of the index, with the bases that serve for these columns."""
        asked = set(columns) - {"t"}
        bases = tuple((handle, held.node) for handle, held in self.handles.items() if held.node and asked <= set(held.columns))
        if (columns, bases) not in self.graphs:
            self.graphs[columns, bases] = IndexGraph(self.index_there(), columns, bases=bases)
        return self.graphs[columns, bases]

    def graph_at(self, time: int, columns: str) -> set[Any]:
        """The elements as of an instant, with its messages where they are asked for."""
        events = self.index_there().events
        graph = cut(replay(event for event in events if event[0] <= time), columns)
        if "t" not in columns:
            return graph
        return graph | {put_in(event) for event in events if event[0] == time and event[1] == "msg"}

    def retrieved(self, columns: str, times: list[int]) -> tuple[int, list[tuple[int, int]]]:
        """Retrieves the graphs of these instants. What they weigh together, and of each its handle and what it weighs alone."""
        history = self.index_there()
        self.in_range(*times)
        self.room_for(len(times))
        graph, targets = self.planned(columns), [point(history, time) for time in times]
        self.read(graph.entered(targets), numbers_of(columns, but=MESSAGES))
        has_messages = "t" in columns
        if has_messages:
            self.read(history.heard(times)[0], [MESSAGES])
        singles = [graph.costs[target][0] + has_messages * history.heard([time])[1] for target, time in zip(targets, times)]
        rests = graph.rests(targets)
        weight = graph.tree_weight(targets) + has_messages * history.heard(times)[1]
        held = [Held(self.graph_at(time, columns), columns, is_overlay=True, rests_on=on) for time, on in zip(times, rests)]
        return weight, list(zip(map(self.give, held), singles))

    @command("at TIME TCOLS")
    def at(self, time: int, columns: str) -> Reply:
        _, [(handle, single)] = self.retrieved(columns, [time])
        return [f"ok at {handle} {single}"]

    @command("several TCOLS TIMES")
    def several(self, columns: str, times: list[int]) -> Reply:
        weight, given = self.retrieved(columns, times)
        rows = [f"handle {handle} {time} {single}" for time, (handle, single) in zip(times, given)]
        return [f"ok several {weight} {sum(single for _, single in given)}", *rows]

    @command("expression COLS EXPR")
    def expression(self, columns: str, words: list[Any]) -> Reply:
        times = list(dict.fromkeys(word for word in words if isinstance(word, int)))
        self.in_range(*times)
        self.room_for(1)
        graph, targets = self.planned(columns), [point(self.index_there(), time) for time in times]
        self.read(graph.entered(targets), numbers_of(columns))
        chosen = holding(list(words), {time: self.graph_at(time, columns) for time in times})
        return [f"ok expression {self.give(Held(chosen, columns))} {graph.tree_weight(targets)}"]

    @command("interval TIME TIME TCOLS")
    def interval(self, begin: int, end: int, columns: str) -> Reply:
        history = self.index_there()
        self.in_range(begin)
        self.in_range(end, behind=1)
        self.room_for(1)
        lists = [key for key, (first, last) in history.lists().items() if begin < end and first < end and begin <= last]
        events = [event for key in lists for event in self.events_in(key, numbers_of(columns))] + history.recent_events()
        handle = self.give(Held(added(events, begin, end, columns), columns))
        return [f"ok interval {handle} {self.bytes_of(lists, numbers_of(columns))}"]

    @command("materialise leaf N32 COLS")
    def materialise_leaf(self, number: int, columns: str) -> Reply:
        return self.hold(0, number, columns)

    @command("materialise inner N32 N32 COLS")
    def materialise_inner(self, height: int, number: int, columns: str) -> Reply:
        # An interior node has a height of 1 or more.
        return self.hold(height or None, number, columns)

    def hold(self, height: Optional[int], number: int, columns: str) -> Reply:
        history = self.index_there()
        leaves = len(history.events) // history.size
        if height is None or number < 1 or height > leaves or number * history.arity**height > leaves:
            raise Refused("11 unknown-node")
        self.room_for(1)
        node = f"inner {height} {number}" if height else f"leaf {number}"
        records = IndexGraph(history, columns, memory=False)
        self.read(records.entered([node]), numbers_of(columns))
        held = Held(cut(history.node(height, number, {}), columns), columns, node)
        return [f"ok materialise {self.give(held)} {records.costs[node][0]}"]

    # ---- what is asked of handles

    @command("list HANDLE")
    def list_(self, handle: int) -> Reply:
        rows = listing(self.held(handle).elements, self.names)
        return [f"ok list {handle} {len(rows)}", *rows]

    @command("counts HANDLE")
    def counts(self, handle: int) -> Reply:
        held = self.held(handle)
        kinds = [NODE, EDGE, NODE_ATTR, EDGE_ATTR] + [MESSAGE] * ("t" in held.columns)
        return [f"ok counts {handle} {' '.join(str(sum(x[0] == kind for x in held.elements)) for kind in kinds)}"]

    @command("node HANDLE ID")
    def node(self, handle: int, node: int) -> Reply:
        graph = self.overlay(handle).elements
        if (NODE, node) not in graph:
            return [f"ok node {handle} {node} no"]
        values = sorted(x for x in graph if x[:2] == (NODE_ATTR, node))
        rows = [f"attr {text_of(self.names[key])} {text_of(self.names[value])}" for _, _, key, value in values]
        return [f"ok node {handle} {node} yes {len(edges_at(graph, node))}", *rows]

    @command("neighbours HANDLE ID")
    def neighbours(self, handle: int, node: int) -> Reply:
        rows = edges_at(self.overlay(handle).elements, node)
        return [f"ok neighbours {handle} {node} {len(rows)}", *rows]

    @command("release HANDLE")
    def release(self, handle: int) -> Reply:
        self.held(handle)
        resting = [other for other, held in self.handles.items() if held.rests_on == handle]
        if resting:
            raise Refused(f"10 in-use {min(resting)}")
        del self.handles[handle]
        return [f"ok release {handle}"]

    # ---- indexes of values

    def name_number(self, text: bytes) -> Optional[int]:
        return self.names.index(text) if text in self.names else None

    @command("index KEY")
    def index(self, key: bytes) -> Reply:
        history, number = self.index_there(), self.name_number(key)
        if number is None:
            raise Refused("23 unknown-key")
        if number in self.indexed:
            raise Refused("25 already-indexed")
        if len(self.indexed) == INDEXES_MOST:
            raise Refused("26 indexes-full")
        found, lists = [], history.lists()
        for key, (first, last) in lists.items():
            events = self.events_in(key, [NODES])
            if not all(first <= event[0] <= last for event in events):
                raise Refused(f"15 damaged {key} {LETTERS[NODES]}")
            found += events
        self.indexed = {**self.indexed, number: found + history.recent_events()}
        return [f"ok index {additions(self.indexed[number], number)} {self.bytes_of(lists, [NODES])}"]

    @command("find TIME KEY VALUE")
    def find(self, time: int, key: bytes, value: bytes) -> Reply:
        self.in_range(time)
        number = self.name_number(key)
        if number not in self.indexed:
            raise Refused("24 not-indexed")
        graph = values_as_of(self.indexed[number], time)
        nodes = nodes_with(graph, number, self.name_number(value))
        return [f"ok find {len(nodes)}", *(f"node {node}" for node in nodes)]

    # ---- the pool

    def elements(self) -> set[Any]:
        """What the current graph and the live handles have together."""
        current = replay(self.history.events) if self.history else set()
        return current.union(*(held.elements for held in self.handles.values()))

    @command("pool")
    def pool(self) -> Reply:
        return [f"ok pool {len(self.handles)} {len(self.elements())}"]

    @command("clean SWEEP")
    def clean(self, cells: int) -> Reply:
        return ["ok clean"]

    @command("clean all")
    def clean_all(self) -> Reply:
        return [f"ok clean all {len(self.elements())}"]

    # ---- plans

    @command("plan TIME COLS")
    def plan(self, time: int, columns: str) -> Reply:
        self.in_range(time)
        rows, weight, steps = self.planned(columns).plan(point(self.index_there(), time))
        return [f"ok plan {weight} {steps}", *rows]

    @command("certify TIME COLS COUNT0", has_lines=True)
    def certify(self, time: int, columns: str, count: int, lines: list[bytes]) -> Reply:
        self.in_range(time)
        judged = self.planned(columns).judged(point(self.index_there(), time), [text_of(line) for line in lines[:count]])
        return [f"ok certify {judged}"]


def bytes_of(text: str) -> bytes:
    return text.encode(errors="surrogateescape")


def text_of(name: bytes) -> str:
    """The text of any bytes, from which they can be had again."""
    return name.decode(errors="surrogateescape")


def split(command_lines: str) -> tuple[str, list[str]]:
    """A command, and the lines that follow it."""
    line, *more = command_lines.split("\n")
    return line, more


def commands_of(script: bytes) -> list[str]:
    """The commands of a script, each with the lines that follow it: those that it asks for, as far as they are there."""
    *whole, last = (text_of(line) for line in script.split(b"\n"))
    lines = iter([line[:-1] if line.endswith("\r") else line for line in whole] + [last] * (last != ""))
    found = []
    for line in lines:
        if line and not line.startswith("#") or len(bytes_of(line)) > LINE_MOST:
            found.append("\n".join([line, *islice(lines, lines_behind(line))]))
    return found


def lines_behind(line: str) -> int:
    """How many lines a command asks for behind it."""
    try:
        form, values = grammar.read(COMMANDS, bytes_of(line))
    except grammar.Left:
        return 0
    return values[-1] if COMMANDS[form].has_lines and len(bytes_of(line)) <= LINE_MOST else 0


class Due:
    """What is due of commands over the file of a machine: their replies, and the machine of a new run before all of them and
    behind each."""

    def __init__(self, machine: Machine, commands: Sequence[str]):
        self.commands, self.replies, self.machines = list(commands), [], [machine.opened()]
        run = machine.opened()
        for one in commands:
            self.replies.append(bytes_of(run.answer(*split(one))))
            self.machines.append(run.opened())

    def behind(self, number: int) -> Due:
        """The same of the commands behind the first ones, in a new run."""
        return Due(self.machines[number], self.commands[number:])

    def steps(self) -> list[Machine]:
        """The machines over the files that the commands come to, one after another."""
        changed = [after for before, after in zip(self.machines, self.machines[1:]) if before.file() != after.file()]
        return [self.machines[0], *changed]


# ---- batches


class Bad(Exception):
    """The number of the reason against a line of a batch."""


CHANGES = ["+node ID", "-node ID", "+edge ID ID ID DIRECTION", "-edge ID", "msg ID ID VALUE"]
CHANGES += ["nset ID KEY VALUE", "ndel ID KEY", "eset ID KEY VALUE", "edel ID KEY"]
CHANGES = [f"TIME {form}" for form in CHANGES]


class Batch:
    """The changes of a batch, each tested over the graph before it."""

    def __init__(self, events: Sequence[Any], names: Sequence[bytes]):
        self.last: int = events[-1][0] + 1 if events else 0  # the earliest time of the next change
        self.numbers = {name: number for number, name in enumerate(names)}
        self.events: list[Any] = []
        self.nodes: set[int] = set()
        self.edges: dict[int, tuple[int, int, int]] = {}
        self.values: dict[tuple[int, int, int], int] = {}
        self.needs: Counter[tuple[int, int]] = Counter()  # how many edges and values need this node or edge
        for element in replay(events):
            self.put(element)

    def put(self, element: Any) -> None:
        kind, number, *rest = element
        if kind == NODE:
            self.nodes.add(number)
        elif kind == EDGE:
            self.edges[number] = tuple(rest)
        else:
            self.values[kind, number, rest[0]] = rest[1]
        self.needs.update(needed_by(element))

    def drop(self, element: Any) -> None:
        kind, number, *rest = element
        if kind == NODE:
            self.nodes.remove(number)
        elif kind == EDGE:
            del self.edges[number]
        else:
            del self.values[kind, number, rest[0]]
        self.needs.subtract(needed_by(element))

    def take(self, line: bytes) -> None:
        """Takes a line as the next event, or raises the first reason against it."""
        if len(line) > LINE_MOST:
            raise Bad(10)
        try:
            form, (time, *values) = grammar.read(CHANGES, line)
        except grammar.Left:
            raise Bad(10) from None
        if time < self.last:
            raise Bad(1)
        word = form.split(" ")[1]
        if word == "msg":
            event = self.message(time, *values)
        elif word in ("+node", "-node", "+edge", "-edge"):
            kind = NODE if word.endswith("node") else EDGE
            event = time, word[0], (kind, *(self.node if kind == NODE else self.edge)(word[0], *values))
        else:
            event = self.value(time, word, *values)
        self.last = time
        self.events.append(event)
        out, into = effect(event)
        if out:
            self.drop(out)
        if into:
            self.put(into)

    def node(self, sign: str, node: int) -> tuple[int, ...]:
        if sign == "+" and node in self.nodes:
            raise Bad(2)
        if sign == "-" and node not in self.nodes:
            raise Bad(3)
        if sign == "-" and self.needs[NODE, node]:
            raise Bad(4)
        return (node,)

    def edge(self, sign: str, edge: int, *ends: Any) -> tuple[int, ...]:
        if sign == "+":
            source, target, direction = ends
            if edge in self.edges:
                raise Bad(5)
            if not {source, target} <= self.nodes:
                raise Bad(8)
            return edge, source, target, int(direction == "dir")
        if edge not in self.edges:
            raise Bad(6)
        if self.needs[EDGE, edge]:
            raise Bad(7)
        return (edge, *self.edges[edge])

    def message(self, time: int, source: int, target: int, text: bytes) -> Any:
        if not {source, target} <= self.nodes:
            raise Bad(8)
        return time, "msg", source, target, self.number(text)

    def value(self, time: int, word: str, owner: int, key: bytes, *texts: bytes) -> Any:
        kind = NODE_ATTR if word[0] == "n" else EDGE_ATTR
        if owner not in (self.nodes if kind == NODE_ATTR else self.edges):
            raise Bad(3 if kind == NODE_ATTR else 6)
        if not texts and (kind, owner, self.numbers.get(key)) not in self.values:
            raise Bad(9)
        number = self.number(key)
        return time, kind, owner, number, self.values.get((kind, owner, number)), self.number(texts[0]) if texts else None

    def number(self, text: bytes) -> int:
        """The number of a name, which is a new one where no line had it before."""
        return self.numbers.setdefault(text, len(self.numbers))


def needed_by(element: Any) -> list[tuple[int, int]]:
    """The nodes and edges that have to be there while an element is."""
    kind, number, *rest = element
    if kind == EDGE:
        return [(NODE, end) for end in rest[:2]]
    return {NODE: [], NODE_ATTR: [(NODE, number)], EDGE_ATTR: [(EDGE, number)]}[kind]


def generated(seed: int, count: int) -> list[bytes]:
    """The lines of the generated changes of a seed."""
    x, lines = seed, []
    for i in range(count):
        x = (x * 6364136223846793005 + 1442695040888963407) % 2**64
        r, g = x >> 33, i // 8
        a, b, e = 2 * g + 1, 2 * g + 2, g + 1
        changes = [
            f"+node {a}",
            f"+node {b}",
            f"+edge {e} {a} {r % b + 1} {'undir' if r % 2 else 'dir'}",
            f"nset {a} kind v{r % 5}",
            f"nset {r % b + 1} kind v{r % 5}",
            f"eset {e} w {r % 100}",
            f"edel {e} w" if g % 2 else f"ndel {a} kind",
            f"-edge {e}" if g % 2 else f"nset {b} name n{g}",
        ]
        lines.append(f"{1000 + i // 2} {changes[i % 8]}".encode())
    return lines


# ---- what is asked of elements


def numbers_of(columns: str, but: Optional[int] = None) -> list[int]:
    """The numbers of the asked columns, in their order."""
    return [column for column in COLUMNS if LETTERS[column] in columns and column != but]


def cut(graph: set[Any], columns: str) -> set[Any]:
    """The elements of a graph in these columns."""
    return {x for x in graph if x[0] in (NODE, EDGE) or ("n" if x[0] == NODE_ATTR else "e") in columns}


def added(events: Sequence[Any], begin: int, end: int, columns: str) -> set[Any]:
    """What the events from an instant on and before another put in, in these columns."""
    kinds = {NODE: "s", EDGE: "s", NODE_ATTR: "n", EDGE_ATTR: "e", MESSAGE: "t"}
    found = (put_in(event) for event in events if begin <= event[0] < end)
    return {x for x in found if x is not None and kinds[x[0]] in columns}


def additions(events: Sequence[Any], key: Optional[int]) -> int:
    """How many events put in a value of a key at a node."""
    return sum(x is not None and x[0] == NODE_ATTR and x[2] == key for x in map(put_in, events))


def values_as_of(events: Sequence[Any], time: int) -> set[Any]:
    """The values of nodes that events set up to an instant, which may be any."""
    found: set[Any] = set()
    for event in events:
        if event[0] <= time and event[1] == NODE_ATTR:
            out, into = effect(event)
            found.discard(out)
            found.add(into)
    return found - {None}


def nodes_with(graph: set[Any], key: Optional[int], value: Optional[int]) -> list[int]:
    """The nodes of a graph that have this value."""
    return sorted(x[1] for x in graph if x[0] == NODE_ATTR and x[2:] == (key, value))


def holding(words: list[Any], graphs: dict[int, set[Any]]) -> set[Any]:
    """The elements for which an expression holds, among those that any of its graphs has. The words are taken off."""
    word = words.pop(0)
    if word == "not":
        return set.union(*graphs.values()) - holding(words, graphs)
    if word in ("and", "or"):
        one, other = holding(words, graphs), holding(words, graphs)
        return one & other if word == "and" else one | other
    return graphs[word]


def edges_at(graph: set[Any], node: int) -> list[str]:
    """The lines of the edges at a node, by their ids."""
    lines = []
    for _, edge, source, target, directed in sorted(x for x in graph if x[0] == EDGE):
        if node in (source, target):
            side = ("out" if node == source else "in") if directed else "both"
            lines.append(f"{side} {edge} {target if node == source else source}")
    return lines


def listing(elements: set[Any], names: Sequence[bytes]) -> list[str]:
    """The lines of elements, in their order."""
    lines = []
    for kind, *fields in sorted(elements):
        if kind == NODE:
            lines.append(f"node {fields[0]}")
        elif kind == EDGE:
            lines.append(f"edge {fields[0]} {fields[1]} {fields[2]} {'dir' if fields[3] else 'undir'}")
        elif kind == MESSAGE:
            lines.append(f"msg {fields[0]} {fields[1]} {text_of(names[fields[2]])}")
        else:
            word = "nattr" if kind == NODE_ATTR else "eattr"
            lines.append(f"{word} {fields[0]} {text_of(names[fields[1]])} {text_of(names[fields[2]])}")
    return lines
