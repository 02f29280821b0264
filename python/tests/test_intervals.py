"""What was added between two times, and which nodes have a value, beside plain loops over the changes."""
from __future__ import annotations

import importlib.util
import random
from datetime import date
from typing import Any, Optional

import deltagraph
from deltagraph import (
    AddEdge,
    AddNode,
    AlreadyIndexed,
    Edge,
    IndexesFull,
    Message,
    NodeAttribute,
    NotAnOverlay,
    NotIndexed,
    OutOfRange,
    SendMessage,
    SetEdge,
    SetNode,
    UnknownKey,
    UnsetNode,
)

from .support import KEYS, VALUES, Case, Model, lines

CHANGES = [
    "10 +node 1",
    "10 +node 2",
    "10 nset 1 name Ada",
    "10 nset 2 name Bob",
    "20 +node 3",
    "20 nset 3 name Cleo",
    "20 +edge 5 1 2 dir",
    "20 msg 1 2 hello",
    "30 eset 5 weight 2",
    "30 msg 2 1 hello yourself",
    "30 nset 2 name Bob B",
    "40 edel 5 weight",
    "40 -edge 5",
    "40 ndel 3 name",
    "40 -node 3",
]


def added(model: Model, begin: int, end: int) -> dict[str, set[Any]]:
    """What changes from one instant on and before another add, by its kind: a set again to what it is adds nothing."""
    found: dict[str, set[Any]] = {"node": set(), "edge": set(), "nattr": set(), "eattr": set(), "msg": set()}
    values: dict[Any, Any] = {}
    for change in model.changes:
        owner = change[1:3] if len(change) > 2 else None
        before = values.get((type(change).__name__[-4:], owner))
        if isinstance(change, (SetNode, SetEdge)):
            values[type(change).__name__[-4:], owner] = change.value
        elif type(change).__name__.startswith("Unset"):
            values.pop((type(change).__name__[-4:], owner))
        if not begin <= change.time < end:
            continue
        if isinstance(change, AddNode):
            found["node"].add(change.id)
        elif isinstance(change, AddEdge):
            found["edge"].add((change.id, change.source, change.target, change.directed))
        elif isinstance(change, SendMessage):
            found["msg"].add((change.source, change.target, change.value))
        elif isinstance(change, (SetNode, SetEdge)) and before != change.value:
            found["nattr" if isinstance(change, SetNode) else "eattr"].add((change.id, change.key, change.value))
    return found


class Intervals(Case):
    def setUp(self) -> None:
        super().setUp()
        self.store = self.store_of(CHANGES, 2, 2)

    def test_what_was_added(self) -> None:
        with self.store.interval(20, 40, "snet") as found:
            self.assertEqual((list(found.nodes()), list(found.edges())), ([3], [Edge(5, 1, 2, True)]))
            self.assertEqual(list(found.node_attributes()), [NodeAttribute(2, "name", "Bob B"), NodeAttribute(3, "name", "Cleo")])
            self.assertEqual(list(found.messages()), [Message(1, 2, "hello"), Message(2, 1, "hello yourself")])
            self.assertEqual((found.counts().messages, len(found), found.time, found.between), (2, 1, None, (20, 40)))
            self.assertIn("between=(20, 40)", repr(found))
            self.assertTrue(3 in found and 1 not in found and "Cleo" in found and "Ada" not in found)
            self.assertEqual((found.find("name", "Cleo"), found.degree()), ([3], {3: 0, 1: 1, 2: 1}))
            for asked in (found.node, found.neighbours):
                with self.assertRaises(NotAnOverlay):
                    asked(3)
            with self.assertRaises(ValueError):
                found & self.store.at(40, "sne")
        self.assertEqual(self.store.pool().live, 0)

    def test_ends(self) -> None:
        self.assertEqual(lines(self.store.interval(30, columns="sne")), [b"nattr 2 name Bob B", b"eattr 5 weight 2"])
        self.assertEqual(self.store.interval(30).between, (30, 41))
        self.assertEqual(lines(self.store.interval(40, 20)), [])
        self.assertEqual(lines(self.store.interval(20, 20)), [])
        for begin, end in ((9, 20), (20, 42), (41, 41)):
            with self.assertRaisesRegex(OutOfRange, "from 10 to 40; an interval ends at 41 at the latest"):
                self.store.interval(begin, end)
        with self.assertRaises(ValueError):
            self.store.interval(10, 20, "sx")
        with self.open(self.folder / "empty.dg") as store:
            store.create()
            self.assertIsNone(self.refused(OutOfRange, store.interval, 5).first)

    def test_dates(self) -> None:
        self.store.set_calendar("2020-01-01", "days")
        due = lines(self.store.interval(20, 40))
        self.assertEqual(due, [b"node 3", b"edge 5 1 2 dir"])
        for words in (("2020-01-21", "2020-02-10"), (date(2020, 1, 21), "2020-02-10"), (20, "2020-02-10")):
            self.assertEqual(lines(self.store.interval(*words)), due)
        self.assertEqual(lines(self.store.interval("2020-02", columns="sn")), [])
        with self.assertRaises(OutOfRange) as refused:
            self.store.interval("2020-01-21", "2020-03")
        self.assertIn("from 2020-01-11 to 2020-02-10", str(refused.exception))

    def test_shown_in_a_notebook(self) -> None:
        self.assertIn("what was added from instant 20 on and before instant 40", self.store.interval(20, 40)._repr_html_())
        self.store.set_calendar("2020-01-01", "days")
        self.assertIn("from 2020-01-21 on and before 2020-02-10", self.store.interval(20, 40)._repr_html_())

    def test_exports_of_what_is_no_graph(self) -> None:
        found = self.store.interval(20, 40, "snet")
        if importlib.util.find_spec("networkx"):
            graph = found.to_networkx(label="name")
            self.assertEqual(sorted(map(str, graph.nodes)), ["1", "Bob B", "Cleo"])
            self.assertEqual(graph.edges[1, "Bob B", 5], {"weight": 2})
            sent = [values["message"] for _, _, values in graph.edges(data=True) if "message" in values]
            self.assertEqual(sent, ["hello", "hello yourself"])
        if importlib.util.find_spec("pandas"):
            nodes, edges = found.to_pandas(label="name")
            self.assertEqual((nodes.index.tolist(), nodes.name.tolist()), ([3], ["Cleo"]))
            self.assertEqual((edges.source.tolist(), edges.target.tolist(), edges.weight.tolist()), ([1], ["Bob B"], [2]))
        if importlib.util.find_spec("igraph") and importlib.util.find_spec("numpy"):
            self.assertEqual(found.to_igraph().vs["id"], [1, 2, 3])


class Values(Case):
    def test_an_index_and_what_it_finds(self) -> None:
        with self.open() as store:
            store.create(2, 2)
            store.load(CHANGES)
            with self.assertRaises(NotIndexed):
                store.ask("find 10 name Ada")
            self.refused(UnknownKey, store.index, "nothing")
            made = store.index("name")
            self.assertEqual((made.values, made.bytes_read > 0), (4, True))
            self.refused(AlreadyIndexed, store.index, "name")
            due = {"Ada": ([1], [1], [1], [1]), "Bob": ([2], [2], [], []), "Bob B": ([], [], [2], [2]), "Cleo": ([], [3], [3], [])}
            for name, ids in due.items():
                self.assertEqual(tuple(store.find("name", name, time) for time in (10, 20, 30, 40)), ids, name)
            store.append(["50 +node 3", "50 nset 3 name Ada", "60 nset 3 team ", "60 nset 1 team   a  b"])
            self.assertEqual((store.find("name", "Ada"), store.find("name", "Ada", 49)), ([1, 3], [1]))
            self.assertEqual((store.find("team", ""), store.find("team", "  a  b"), store.find("team", "a")), ([3], [1], []))
            self.assertEqual((store.find("nothing", "Ada"), store.find("name", "nobody")), ([], []))
            self.refused(OutOfRange, store.find, "name", "Ada", 61)
            self.assertEqual(store.at(50).find("name", "Ada"), [1, 3])
            self.assertEqual((store.at(50).node("Bob B"), store.at(20).degree("Bob")), (store.at(50).node(2), 1))

    def test_texts_that_nothing_is_called(self) -> None:
        with self.open() as store:
            store.create()
            self.assertEqual(store.find("name", "Ada"), [])
            store.load(CHANGES)
            for key in ("", "first name", "k" * 65, "a\nb"):
                for ask in (lambda: store.find(key, "Ada"), lambda: store.index(key)):
                    with self.assertRaisesRegex(ValueError, "is no key"):
                        ask()
            for value in ("Ada\n", "Ada\r", "v" * 1025):
                self.assertEqual(store.find("name", value), [])
            self.assertFalse("Ada\r" in store.at(40))

    def test_more_keys_than_indexes(self) -> None:
        with self.open() as store:
            store.create(2, 2)
            store.load(["10 +node 1", "10 +node 2", *(f"{20 + key} nset {1 + key % 2} k{key} v" for key in range(20))])
            for key in range(20):
                self.assertEqual(store.find(f"k{key}", "v"), [1 + key % 2])
                self.assertEqual(store.find(f"k{key}", "v", 20 + key - (key > 0)), [1] if not key else [])
            self.refused(IndexesFull, store.index, "k16")
            self.assertEqual(store.pool().live, 0)

    def test_an_index_is_of_its_session(self) -> None:
        with self.open() as store:
            store.create()
            store.load(CHANGES)
            store.index("name")
        with self.open() as store:
            self.assertEqual(store.find("name", "Cleo", 30), [3])
            self.refused(AlreadyIndexed, store.index, "name")


class Histories(Case):
    def test_random_histories(self) -> None:
        for seed in range(40):
            with self.subTest(seed=seed):
                self.history(seed)

    def history(self, seed: int) -> None:
        pick, model = random.Random(seed), Model(1000 + seed)
        with self.open(self.folder / f"{seed}.dg") as store:
            store.create(pick.choice([2, 3, 8]), pick.choice([2, 3]))
            for batch in range(pick.randrange(1, 5)):
                (store.append if batch else store.load)(model.grow(pick.randrange(1, 40)))
                first, last = model.changes[0].time, model.time
                for _ in range(4):
                    begin, end = pick.randint(first, last), pick.randint(first, last + 1)
                    self.same(store, model, begin, end, pick.choice(["s", "sn", "se", "sne"]) + pick.choice(["", "t"]))
                for _ in range(8):
                    self.found(store, model, pick)

    def same(self, store: deltagraph.Store, model: Model, begin: int, end: int, columns: str) -> None:
        due = added(model, begin, end)
        with store.interval(begin, end, columns) as found:
            self.assertEqual(list(found.nodes()), sorted(due["node"]))
            self.assertEqual(list(found.edges()), sorted(due["edge"]))
            self.assertEqual(set(found.node_attributes()), due["nattr"] if "n" in columns else set())
            self.assertEqual(set(found.edge_attributes()), due["eattr"] if "e" in columns else set())
            self.assertEqual(set(found.messages()), due["msg"] if "t" in columns else set())
            self.assertEqual(sum(count or 0 for count in found.counts()), len(lines(found)))

    def found(self, store: deltagraph.Store, model: Model, pick: random.Random) -> None:
        key, value = pick.choice(KEYS), pick.choice(VALUES)
        time: Optional[int] = pick.choice([None, pick.randint(model.changes[0].time, model.time)])
        of_nodes = [change for change in model.changes if isinstance(change, (SetNode, UnsetNode))]
        if of_nodes and pick.random() < 0.8:
            near = pick.choice(of_nodes)
            key, time = near.key, near.time
            value = near.value if isinstance(near, SetNode) else value
        graph = model.graph(model.time if time is None else time)
        due = sorted(node for node, values in graph.nodes.items() if values.get(key) == value)
        self.assertEqual(store.find(key, value, time), due, (key, value, time))
