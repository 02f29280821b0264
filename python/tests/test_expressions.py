"""Expressions over instants, beside plain sets of the lines of listings."""
from __future__ import annotations

import importlib.util
import random
from datetime import date
from typing import Any

import deltagraph
from deltagraph import NotAnOverlay, OutOfRange

from .support import Case, lines

CHANGES = [
    "10 +node 1",
    "10 +node 2",
    "10 nset 1 name Ada",
    "10 nset 2 name Bob",
    "20 +node 3",
    "20 +edge 5 1 2 dir",
    "20 eset 5 weight 2",
    "30 +edge 6 2 3 undir",
    "40 edel 5 weight",
    "40 -edge 5",
    "40 nset 1 name Ada L",
]


class Expressions(Case):
    def setUp(self) -> None:
        super().setUp()
        self.store = self.store_of(CHANGES, 2, 2)

    def test_texts_and_lists(self) -> None:
        with self.store.expression("and 30 not 10") as new:
            self.assertEqual(lines(new), [b"node 3", b"edge 5 1 2 dir", b"edge 6 2 3 undir"])
            self.assertEqual((new.counts().edges, len(new), new.time, new.words), (2, 1, None, ["and", "30", "not", "10"]))
            self.assertIn("of='and 30 not 10'", repr(new))
            self.assertTrue(3 in new and 1 not in new)
            self.assertEqual((new.degree(), new.degree(3)), ({3: 1, 1: 1, 2: 2}, 1))
            with self.assertRaises(NotAnOverlay):
                new.node(3)
        self.assertEqual(lines(self.store.expression(["and", 30, "not", 10])), lines(self.store.at(30) - self.store.at(10)))
        self.store.set_calendar("2020-01-01", "days")
        due = lines(self.store.expression("and 30 not 20"))
        for words in ("and 2020-01-31 not 2020-01-21", ["and", date(2020, 1, 31), "not", "2020-01-21"]):
            self.assertEqual(lines(self.store.expression(words)), due)
        with self.assertRaises(OutOfRange) as refused:
            self.store.expression(["or", "2020-01-31", "2020-03-01"])
        self.assertIn("from 2020-01-11 to 2020-02-10", str(refused.exception))

    def test_snapshots_in_pythons_words(self) -> None:
        one, two, three = self.store.several([10, 30, 40], "sne")
        first, second, third = (set(lines(graph)) for graph in (one, two, three))
        self.assertEqual(set(lines(one & two)), first & second)
        self.assertEqual(set(lines(one | three)), first | third)
        self.assertEqual(set(lines(two - three)), second - third)
        self.assertEqual(set(lines(one ^ three)), first ^ third)
        self.assertEqual(set(lines((one | two) & three - two)), (first | second) & (third - second))
        for other in (self.store.at(10, "s"), self.store.materialise("leaf 1", "sne")):
            with self.assertRaises(ValueError):
                one & other
        with self.assertRaises(TypeError):
            one & 5  # type: ignore[operator]
        with self.open() as another, self.assertRaises(ValueError):
            one - another.at(10, "sne")

    def test_what_is_too_long(self) -> None:
        eight = ["or"] * 7 + [10] * 8
        self.assertEqual(len(self.store.expression(eight)), 2)
        for words in (["or"] * 8 + [10] * 9, ["not"] * 31 + [10]):
            with self.assertRaisesRegex(ValueError, "at most 8 times and 31 words"):
                self.store.expression(words)
        for text in ("", "and 10", "and 10 20 30", "xor 10 20"):
            with self.assertRaises((deltagraph.Syntax, deltagraph.NoDate)):
                self.store.expression(text)
        with self.assertRaises(ValueError):
            self.store.expression("10", "st")

    def test_handles_come_back(self) -> None:
        for _ in range(300):
            self.store.at(30) - self.store.at(10)
        self.assertLess(self.store.pool()[0], 10)

    def test_random_expressions(self) -> None:
        rng = random.Random(8)
        graphs = {time: set(lines(self.store.at(time, "sne"))) for time in range(10, 41)}

        def made(depth: int) -> tuple[list[Any], Any]:
            """The words of an expression, and whether it holds for a line."""
            kind = rng.choice(["time", "not", "and", "or"]) if depth < 3 else "time"
            if kind == "time":
                time = rng.randrange(10, 41)
                return [time], lambda line: line in graphs[time]
            (words, holds), (others, other_holds) = made(depth + 1), made(depth + 1)
            if kind == "not":
                return ["not", *words], lambda line: not holds(line)
            if kind == "and":
                return ["and", *words, *others], lambda line: holds(line) and other_holds(line)
            return ["or", *words, *others], lambda line: holds(line) or other_holds(line)

        for _ in range(60):
            words, holds = made(0)
            known = set().union(*(graphs[word] for word in words if isinstance(word, int)))
            with self.store.expression(words, "sne") as found:
                self.assertEqual(set(lines(found)), {line for line in known if holds(line)}, words)

    def test_exports_of_what_is_no_graph(self) -> None:
        gone = self.store.at(30, "sne") - self.store.at(40, "sne")
        self.assertEqual(lines(gone), [b"edge 5 1 2 dir", b"nattr 1 name Ada", b"eattr 5 weight 2"])
        if importlib.util.find_spec("networkx"):
            graph = gone.to_networkx()
            self.assertEqual((sorted(graph.nodes), graph.edges[1, 2, 5]), ([1, 2], {"weight": 2}))
        if importlib.util.find_spec("pandas"):
            nodes, edges = gone.to_pandas(label="name")
            self.assertEqual((len(nodes), edges.source.tolist(), edges.target.tolist()), (0, ["Ada"], [2]))
        if importlib.util.find_spec("igraph") and importlib.util.find_spec("numpy"):
            self.assertEqual(gone.to_igraph().vs["id"], [1, 2])
