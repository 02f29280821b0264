"""Whole histories beside the model, and beside histories written by hand."""
from __future__ import annotations

import importlib.util
import random
import shutil
import unittest
from pathlib import Path
from typing import Any

from deltagraph import NoIndex
from deltagraph.words import LARGEST_ID

from .support import Case, Model

FIRST_FORM = Path(__file__).resolve().parents[2] / "tests" / "transcripts" / "first_form"

BY_HAND = [
    "10 +node 1",
    "10 nset 1 name Ada",
    "10 +node 2",
    "20 +edge 5 1 2 dir",
    "20 eset 5 weight 2",
    "25 eset 5 weight 2",
    "30 msg 2 1 Hello, you",
    "30 eset 5 weight 007",
    "40 edel 5 weight",
    "40 -edge 5",
    "40 +edge 5 2 2 undir",
    "40 -edge 5",
    "50 +edge 5 2 1 undir",
    "60 nset 2 name Bob",
    "60 nset 2 clock times of the file times 1 and 0 more",
]


def rows(frame: Any) -> list[tuple[Any, ...]]:
    """The rows of a frame, with None for what is missing."""
    found = frame.astype(object)
    return [tuple(row) for row in found.where(frame.notna(), None).itertuples(index=False)]


def there(module: str) -> bool:
    return importlib.util.find_spec(module) is not None


@unittest.skipUnless(there("pandas"), "pandas is not installed")
class HistoryTests(Case):
    def test_spells(self) -> None:
        with self.open() as store:
            store.create(4, 2)
            store.load(BY_HAND)
            history = store.history()
            self.assertEqual(len(history), len(BY_HAND))
            self.assertEqual(rows(history.nodes()), [(1, 10, None), (2, 10, None)])
            self.assertEqual(rows(history.nodes(label="name")), [(1, "Ada", 10, None), (2, "Bob", 10, None)])
            edges = [(5, 1, 2, True, 20, 40), (5, 2, 1, False, 50, None)]
            self.assertEqual(rows(history.edges()), edges)
            named = [(5, "Ada", "Bob", True, 20, 40), (5, "Bob", "Ada", False, 50, None)]
            self.assertEqual(rows(history.edges(label="name")), named)
            self.assertEqual(rows(history.edges(label="none")), edges)
            names = [(1, "name", "Ada", 10, None), (2, "name", "Bob", 60, None)]
            self.assertEqual(rows(history.node_values()), names)
            weights = [(5, "weight", "2", 20, 30), (5, "weight", "007", 30, 40)]
            self.assertEqual(rows(history.edge_values()), weights)
            self.assertEqual(rows(history.edge_values("weight")), weights)
            self.assertEqual(rows(history.edge_values("none")), [])
            self.assertEqual(rows(history.messages()), [(2, 1, 30, "Hello, you")])
            self.assertEqual(rows(history.messages(label="name")), [("Bob", "Ada", 30, "Hello, you")])
            self.assertEqual(list(history.lines()), BY_HAND)
            changes = rows(store.changes())
            self.assertEqual(changes[3], (20, "+edge", 5, 1, 2, True, None, None))
            self.assertEqual(changes[6], (30, "msg", None, 2, 1, None, None, "Hello, you"))
            self.assertEqual(changes[8], (40, "edel", 5, None, None, None, "weight", None))
            self.assertEqual([row[:3] for row in changes], [words(line) for line in BY_HAND])
            self.assertEqual(rows(store.changes(20, 30)), changes[3:6])
            self.assertEqual(rows(store.changes(21)), changes[5:])
            self.assertEqual(rows(store.changes(end=10)), [])
            self.assertEqual(rows(store.changes(60, 20)), [])
            self.assertEqual(rows(store.changes(end="1970-01-01T00:00:21")), changes[:5])

    def test_dates(self) -> None:
        with self.open() as store:
            store.create()
            store.load(["10 +node 1", "20 +edge 1 1 1 dir", "30 -edge 1"])
            self.assertEqual(rows(store.history().edges()), [(1, 1, 1, True, 20, 30)])
            seconds = store.history().edges(dates=True)
            self.assertEqual(seconds.start.astype(str).tolist(), ["1970-01-01 00:00:20"])
            store.set_calendar("2020-01-01", "days")
            edges, nodes = store.history().edges(), store.history().nodes()
            self.assertEqual([str(day)[:10] for day in (edges.start[0], edges.end[0])], ["2020-01-21", "2020-01-31"])
            self.assertTrue(nodes.end.isna().all())
            self.assertEqual(rows(store.history().edges(dates=False)), [(1, 1, 1, True, 20, 30)])

    def test_numbers_of_a_key(self) -> None:
        with self.open() as store:
            store.create()
            store.load(["1 +node 1", "1 nset 1 size 5", "2 nset 1 size -7", "3 nset 1 age 1.5", "4 ndel 1 size"])
            sizes = store.history().node_values("size")
            self.assertEqual((sizes.value.dtype.kind, rows(sizes[["value", "start", "end"]])), ("i", [(5, 1, 2), (-7, 2, 4)]))
            self.assertEqual(store.history().node_values("age").value.tolist(), [1.5])

    def test_files_of_every_form(self) -> None:
        for pick in range(60):
            with self.subTest(pick):
                self.as_the_model(pick)
        first = self.folder / "first.dg"
        example = next(FIRST_FORM.glob("*.dg"))
        shutil.copy(example, first)
        with self.open(first) as store:
            before = list(store.history().lines())
            store.upgrade()
            span = store.span()
            assert span is not None
            store.append([f"{span.last + 1} +node 77", f"{span.last + 1} msg 77 77 after"])
            more = [f"{span.last + 1} +node 77", f"{span.last + 1} msg 77 77 after"]
            self.assertEqual(list(store.history().lines()), before + more)
            self.again(store, self.folder / "again.dg")

    def as_the_model(self, seed: int) -> None:
        pick, model = random.Random(seed), Model(seed)
        with self.open(self.folder / f"{seed}.dg") as store:
            store.create(pick.choice([2, 3, 5, 8]), pick.choice([2, 3, 4]))
            store.load(model.grow(pick.randrange(1, 60)), batch=pick.choice([1, 7, 1000]))
            for _ in range(pick.randrange(3)):
                store.append(model.grow(pick.randrange(1, 15)))
            history = store.history()
            self.assertEqual(list(history.lines()), [change.line() for change in model.changes])
            nodes, edges = rows(history.nodes(dates=False)), rows(history.edges(dates=False))
            node_values, edge_values = rows(history.node_values(dates=False)), rows(history.edge_values(dates=False))
            for time in pick.sample(sorted(model.graphs), min(5, len(model.graphs))):
                due = model.graph(time)
                self.assertEqual({row[0] for row in at(nodes, time)}, set(due.nodes))
                self.assertEqual({row[0]: row[1:4] for row in at(edges, time)}, due.edges)
                found = {(owner, key): value for owner, key, value, _, _ in at(node_values, time)}
                self.assertEqual(found, {(n, key): value for n in due.nodes for key, value in due.nodes[n].items()})
                found = {(owner, key): value for owner, key, value, _, _ in at(edge_values, time)}
                self.assertEqual(found, {(e, key): value for e in due.values for key, value in due.values[e].items()})

    def again(self, store: Any, index: Path) -> None:
        """A history that is written anew from its lines has the same graphs."""
        with self.open(index) as copy:
            copy.create()
            copy.load(store.history().lines())
            for change in store.history().lines():
                time = int(change.split(" ")[0])
                self.assertEqual(list(copy.at(time, "snet").lines()), list(store.at(time, "snet").lines()))

    def test_large_ids(self) -> None:
        with self.open() as store:
            store.create()
            store.load([f"1 +node {LARGEST_ID}", f"2 +edge {LARGEST_ID - 1} {LARGEST_ID} {LARGEST_ID} dir"])
            self.assertEqual(store.history().edges().id.tolist(), [LARGEST_ID - 1])
            self.assertEqual(store.history().nodes().id.tolist(), [LARGEST_ID])
            self.assertEqual(store.changes().id.tolist(), [LARGEST_ID, LARGEST_ID - 1])

    def test_no_history(self) -> None:
        with self.open() as store:
            store.create()
            self.assertEqual((len(store.history()), rows(store.history().edges()), rows(store.changes())), (0, [], []))
        self.index.write_bytes(b"\1DGRAPH9" + bytes(10))
        from deltagraph.history import History, NoHistory

        for content in (b"", b"name,date\n", b"\1DGRAPH9" + bytes(10), b"\1DGRAPH2" + bytes(9) + b"\1" + b"\xff" * 30):
            self.index.write_bytes(content)
            with self.subTest(content), self.assertRaises(NoHistory):
                History(self.index)
        self.index.unlink()
        with self.open() as store, self.assertRaises(NoIndex):
            store.history()


def words(line: str) -> tuple[Any, ...]:
    time, word, first, *_ = line.split(" ")
    return int(time), word, None if word == "msg" else int(first)


def at(spells: list[tuple[Any, ...]], time: int) -> list[tuple[Any, ...]]:
    """The rows of spells in which a time lies; start and end are the last columns."""
    return [row for row in spells if row[-2] <= time and (row[-1] is None or time < row[-1])]
