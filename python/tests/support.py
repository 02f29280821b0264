"""What the tests share: the program, folders of their own, a model of a history, and a program that answers by rote."""
from __future__ import annotations

import json
import random
import sys
import tempfile
import unittest
from pathlib import Path
from typing import Any, Callable, Optional, Sequence, Union

import deltagraph
from deltagraph import Change, ProgramMissing
from deltagraph.process import find_program
from deltagraph.words import bytes_of

FOLDER = Path(__file__).resolve().parent

KEYS = ["name", "kind", "w", "\u56fe", "k\udcff", "a=b", "\x7f", "k" * 64]
VALUES = [
    "",
    " ",
    "Ada",
    "Ada  Lovelace ",
    "z\u00e9ro \u56fe",
    "line\u2028separator\x85\x0b\x0c",
    "byte \udcff\udcfe",
    "end",
    "\x00\t",
    "v" * 1024,
]


def program() -> list[str]:
    """The words of the program, or a skipped test where it is not built."""
    try:
        return find_program()
    except ProgramMissing as missing:
        raise unittest.SkipTest(str(missing)) from missing


class Case(unittest.TestCase):
    """A test with a folder of its own."""

    def setUp(self) -> None:
        held = tempfile.TemporaryDirectory()
        self.addCleanup(held.cleanup)
        self.folder = Path(held.name)
        self.index = self.folder / "history.dg"

    def open(self, index: Optional[Path] = None, checked: bool = False, cache: int = 0) -> deltagraph.Store:
        return deltagraph.open(index or self.index, program(), checked, cache)

    def store_of(self, changes: Sequence[str], *create: Any) -> deltagraph.Store:
        """A store over an index of these changes, which is closed with the test."""
        store = self.open()
        self.addCleanup(store.close)
        store.create(*create)
        store.load(changes)
        return store

    def by_rote(self, replies: dict[str, Any]) -> deltagraph.Store:
        """A store whose program gives these replies, by the first word of the command."""
        self.index.touch()
        return deltagraph.open(self.index, [sys.executable, str(FOLDER / "rote.py"), json.dumps(replies)])

    def refused(self, kind: type[deltagraph.Refused], run: Callable[..., object], *words: Any) -> Any:
        with self.assertRaises(kind) as raised:
            run(*words)
        self.assertIs(type(raised.exception), kind)
        self.assertIn(raised.exception.words(), str(raised.exception))
        return raised.exception


def lines(snapshot: deltagraph.Snapshot) -> list[bytes]:
    return list(snapshot.lines())


class Graph:
    """A graph as plain dictionaries."""

    def __init__(self) -> None:
        self.nodes: dict[int, dict[str, str]] = {}
        self.edges: dict[int, tuple[int, int, bool]] = {}
        self.values: dict[int, dict[str, str]] = {}  # of edges

    def copy(self) -> "Graph":
        made = Graph()
        made.nodes = {node: dict(values) for node, values in self.nodes.items()}
        made.edges = dict(self.edges)
        made.values = {edge: dict(values) for edge, values in self.values.items()}
        return made

    def at(self, node: int) -> list[tuple[str, int, int]]:
        """The edges at a node: side, id and other end."""
        found = []
        for edge, (source, target, directed) in sorted(self.edges.items()):
            if node in (source, target):
                side = "both" if not directed else "out" if source == node else "in"
                found.append((side, edge, target if source == node else source))
        return found


class Model:
    """A history: its changes, and the graph as of each of its instants."""

    def __init__(self, seed: int) -> None:
        self.random = random.Random(seed)
        self.time = self.random.choice([0, 1, 10, 2**62])
        self.now = Graph()
        self.changes: list[Change] = []
        self.graphs: dict[int, Graph] = {}
        self.messages: dict[int, set[tuple[int, int, str]]] = {}

    def grow(self, count: int) -> list[Change]:
        """More changes; their times go on where the last ones ended, and the first is later."""
        if self.changes:
            self.time += self.random.randrange(1, 5)
        made = []
        for _ in range(count):
            made.append(self._change())
            self.changes.append(made[-1])
            self.graphs[self.time] = self.now
            if self.random.random() < 0.5:
                self.graphs[self.time] = self.now.copy()
                self.time += self.random.randrange(1, 10)
        self.time = made[-1].time
        self.graphs[self.time] = self.now.copy()
        return made

    def graph(self, time: int) -> Graph:
        return self.graphs[max(known for known in self.graphs if known <= time)]

    def _change(self) -> Change:
        graph, pick, time = self.now, self.random, self.time
        nodes, edges = list(graph.nodes), list(graph.edges)
        free = [n for n in nodes if not graph.nodes[n] and not graph.at(n)]
        bare = [e for e in edges if not graph.values[e]]
        moves: list[Callable[[], Change]] = [self._add_node]
        if nodes:
            moves += [self._add_edge, self._add_edge, self._set_node, self._set_node, self._send, self._send]
        if edges:
            moves += [self._set_edge]
        if free:
            moves.append(lambda: self._drop(graph.nodes, pick.choice(free), deltagraph.RemoveNode))
        if bare:
            moves.append(lambda: self._drop(graph.edges, pick.choice(bare), deltagraph.RemoveEdge))
        owners = [(n, k) for n in nodes for k in graph.nodes[n]]
        if owners:
            moves.append(lambda: self._unset(graph.nodes, pick.choice(owners), deltagraph.UnsetNode))
        of_edges = [(e, k) for e in edges for k in graph.values[e]]
        if of_edges:
            moves.append(lambda: self._unset(graph.values, pick.choice(of_edges), deltagraph.UnsetEdge))
        return pick.choice(moves)()

    def _new(self, used: dict[int, Any]) -> int:
        while True:
            number = self.random.choice([self.random.randrange(40), self.random.randrange(2**64), 2**64 - 1])
            if number not in used:
                return number

    def _add_node(self) -> Change:
        node = self._new(self.now.nodes)
        self.now.nodes[node] = {}
        return deltagraph.AddNode(self.time, node)

    def _add_edge(self) -> Change:
        edge = self._new(self.now.edges)
        source, target = (self.random.choice(list(self.now.nodes)) for _ in range(2))
        directed = self.random.random() < 0.5
        self.now.edges[edge], self.now.values[edge] = (source, target, directed), {}
        return deltagraph.AddEdge(self.time, edge, source, target, directed)

    def _set_node(self) -> Change:
        node = self.random.choice(list(self.now.nodes))
        key, value = self.random.choice(KEYS), self.random.choice(VALUES)
        self.now.nodes[node][key] = value
        return deltagraph.SetNode(self.time, node, key, value)

    def _set_edge(self) -> Change:
        edge = self.random.choice(list(self.now.edges))
        key, value = self.random.choice(KEYS), self.random.choice(VALUES)
        self.now.values[edge][key] = value
        return deltagraph.SetEdge(self.time, edge, key, value)

    def _send(self) -> Change:
        source, target = (self.random.choice(list(self.now.nodes)) for _ in range(2))
        value = self.random.choice(VALUES)
        self.messages.setdefault(self.time, set()).add((source, target, value))
        return deltagraph.SendMessage(self.time, source, target, value)

    def _drop(self, held: dict[int, Any], number: int, kind: Callable[[int, int], Change]) -> Change:
        del held[number]
        self.now.values = {edge: values for edge, values in self.now.values.items() if edge in self.now.edges}
        return kind(self.time, number)

    def _unset(
        self, held: dict[int, dict[str, str]], of: tuple[int, str], kind: Callable[[int, int, str], Change]
    ) -> Change:
        del held[of[0]][of[1]]
        return kind(self.time, *of)


def parts_of(changes: Sequence[Change], count: int) -> list[list[Change]]:
    """The changes of each of so many parts. Nodes come and go in all of them; a value of a node, an edge with its values,
    and a message are in one, by the node, the edge and the source."""
    parts: list[list[Change]] = [[] for _ in range(count)]
    for change in changes:
        if isinstance(change, (deltagraph.AddNode, deltagraph.RemoveNode)):
            for part in parts:
                part.append(change)
        else:
            owner = change.source if isinstance(change, deltagraph.SendMessage) else change[1]
            parts[owner % count].append(change)
    return parts


def in_some_form(pick: random.Random, change: Change) -> Union[Change, tuple[Any, ...], str, bytes]:
    """A change as one of the forms that the client takes."""
    line = change.line()
    return pick.choice([change, change, line, line + "\n", bytes_of(line), (change[0], change.WORD, *change[1:])])
