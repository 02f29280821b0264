"""Each refusal of docs/SCRIPT.md, by the program where it can be brought to it, and by rote."""
from __future__ import annotations

import os

import deltagraph
from deltagraph import refusals

from .support import Case

FIVE = ["10 +node 1", "20 +node 2", "30 +edge 5 1 2 dir", "40 nset 1 name A", "50 eset 5 w 1"]

# Number, name, what follows, the class, and what it tells.
BY_ROTE = [
    (1, "syntax", "8", deltagraph.Syntax, {"column": 8}),
    (2, "no-index", "", deltagraph.NoIndex, {}),
    (3, "index-exists", "", deltagraph.IndexExists, {}),
    (4, "parameters", "", deltagraph.Parameters, {}),
    (5, "short-batch", "3 9", deltagraph.ShortBatch, {"read": 3, "asked": 9}),
    (6, "bad-change", "17 10", deltagraph.BadChange, {"line": 17, "reason": 10, "reason_name": "form", "position": 17}),
    (7, "out-of-range", "10 40", deltagraph.OutOfRange, {"first": 10, "last": 40}),
    (7, "out-of-range", "empty", deltagraph.OutOfRange, {"first": None, "last": None}),
    (8, "unknown-handle", "4", deltagraph.UnknownHandle, {"handle": 4}),
    (9, "pool-full", "126 2", deltagraph.PoolFull, {"live": 126, "asked": 2}),
    (10, "in-use", "3", deltagraph.InUse, {"handle": 3}),
    (11, "unknown-node", "", deltagraph.UnknownNode, {}),
    (12, "history-full", "268435456 1", deltagraph.HistoryFull, {"held": 268435456, "batch": 1}),
    (
        13,
        "file-full",
        "281474976710657 281474976710656",
        deltagraph.FileFull,
        {"needed": 2**48 + 1, "limit": 2**48},
    ),
    (14, "store-read", "", deltagraph.StoreRead, {}),
    (15, "damaged", "down 2 7 n", deltagraph.Damaged, {"key": "down 2 7", "column": "n"}),
    (16, "out-of-memory", "", deltagraph.OutOfMemory, {}),
    (17, "not-an-overlay", "2", deltagraph.NotAnOverlay, {"handle": 2}),
    (18, "line-long", "", deltagraph.LineLong, {}),
    (19, "handles-spent", "", deltagraph.HandlesSpent, {}),
    (20, "already-loaded", "", deltagraph.AlreadyLoaded, {}),
    (21, "new-format", "", deltagraph.NewFormat, {}),
    (22, "old-format", "", deltagraph.OldFormat, {}),
    (23, "unknown-key", "", deltagraph.UnknownKey, {}),
    (24, "not-indexed", "", deltagraph.NotIndexed, {}),
    (25, "already-indexed", "", deltagraph.AlreadyIndexed, {}),
    (26, "indexes-full", "", deltagraph.IndexesFull, {}),
    (99, "of-tomorrow", "5 x", deltagraph.Refused, {"rest": ["5", "x"]}),
]


class Refusals(Case):
    def test_each_refusal_by_rote(self) -> None:
        for number, name, follows, kind, told in BY_ROTE:
            head = f"refused {number} {name} {follows}".rstrip()
            with self.subTest(head), self.by_rote({"at": f"{head}\nend\n"}) as store:
                refused = self.refused(kind, store.at, 5)
                self.assertEqual((refused.number, refused.name, refused.command), (number, name, "at 5 s"))
                self.assertEqual((refused.head, refused.words() != ""), (head, True))
                self.assertEqual({field: getattr(refused, field) for field in told}, told)
                self.assertEqual(store.pool(), (0, 0))

    def test_every_number_is_tried(self) -> None:
        self.assertEqual({row[0] for row in BY_ROTE} - {99}, set(refusals.OF_NUMBER))

    def test_refusals_of_the_program(self) -> None:
        with self.open() as store:
            self.refused(deltagraph.NoIndex, store.at, 10)
            self.refused(deltagraph.NoIndex, store.append, FIVE)
            self.refused(deltagraph.NoIndex, store.interval, 10, 20)
            self.refused(deltagraph.NoIndex, store.index, "name")
            self.refused(deltagraph.NoIndex, store.find, "name", "A", 10)
            self.assertFalse(self.index.exists())
            self.refused(deltagraph.Parameters, store.create, 1, 2)
            self.refused(deltagraph.Parameters, store.create, 2, 2, "skewed 257")
            self.refused(deltagraph.NoIndex, store.tree)
            self.refused(deltagraph.NoIndex, store.upgrade)
            store.create(2, 2)
            self.refused(deltagraph.IndexExists, store.create)
            self.refused(deltagraph.NewFormat, store.upgrade)
            self.assertIsNone(self.refused(deltagraph.OutOfRange, store.at, 10).first)
            store.load(FIVE)
            self.refused(deltagraph.AlreadyLoaded, store.load, ["60 +node 9"])
            self.refused(deltagraph.AlreadyLoaded, store.workload, 1, 8)
            self.assertEqual(self.refused(deltagraph.OutOfRange, store.several, [20, 51]).last, 50)
            self.assertEqual(self.refused(deltagraph.Syntax, store.ask, "at 20 ns").column, 7)
            self.assertEqual(self.refused(deltagraph.Syntax, store.ask, "lists 1").column, 5)
            self.assertIn("columns are missing", str(self.refused(deltagraph.Syntax, store.ask, "at 20")))
            self.assertNotIn("columns are missing", str(self.refused(deltagraph.Syntax, store.ask, "at 2x")))
            self.assertIn("`interval TIME TIME COLS`", str(self.refused(deltagraph.Syntax, store.ask, "interval 20 30")))
            self.assertNotIn("columns are missing", str(self.refused(deltagraph.Syntax, store.ask, "interval 20")))
            for wrong in ("find Rosa", "find Rosa Bauer", "find 20 name"):
                self.assertIn("`find TIME KEY VALUE`", str(self.refused(deltagraph.Syntax, store.ask, wrong)))
            self.assertNotIn("TIME", str(self.refused(deltagraph.Syntax, store.ask, "finds 20 name Rosa")))
            self.refused(deltagraph.LineLong, store.ask, "at " + "1" * 4096)
            self.refused(deltagraph.UnknownNode, store.materialise, "leaf 3")
            self.assertEqual(self.refused(deltagraph.UnknownHandle, store.ask, "list 9").handle, 9)
            self.assertEqual(self.refused(deltagraph.StoreRead, self.cut, store).number, 14)

    def test_a_year_as_an_instant(self) -> None:
        with self.open() as store:
            store.create(2, 2)
            store.load(["1262304000 +node 1", "1770940800 +node 2"])
            told = str(self.refused(deltagraph.OutOfRange, store.at, 2015))
            self.assertIn("from 1262304000 to 1770940800; for the year write 2015-01-01", told)
        self.index.unlink()
        with self.open() as store:
            store.create(2, 2)
            store.load(["1990 +node 1", "2010 +node 2"])
            self.assertNotIn("for the year", str(self.refused(deltagraph.OutOfRange, store.at, 1985)))

    def cut(self, store: deltagraph.Store) -> None:
        os.truncate(self.index, 20)
        store.at(10)

    def test_handles(self) -> None:
        with self.open() as store:
            store.create(2, 2)
            store.load(FIVE)
            base = store.materialise("leaf 1")
            self.assertEqual((base.time, base.held, base.counts().nodes), (None, "leaf 1", 2))
            self.assertEqual(self.refused(deltagraph.NotAnOverlay, base.node, 1).handle, base.handle)
            self.refused(deltagraph.NotAnOverlay, base.neighbours, 1)
            resting = store.at(20)
            self.assertEqual(resting.bytes_read, 0)
            self.assertEqual(self.refused(deltagraph.InUse, base.release).handle, resting.handle)
            resting.release()
            resting.release()
            base.release()
            self.refused(deltagraph.UnknownHandle, resting.counts)
            self.refused(deltagraph.UnknownHandle, lambda: next(resting.nodes()))
            kept = [store.at(50) for _ in range(126)]
            refused = self.refused(deltagraph.PoolFull, store.several, [10, 20])
            self.assertEqual((refused.live, refused.asked), (126, 2))
            self.assertEqual(store.several([]), [])
            kept.clear()
            self.assertEqual(store.pool().live, 0)
            self.assertEqual([of.time for of in store.several([10] * 100)], [10] * 100)

    def test_damage_is_named(self) -> None:
        with self.open() as store:
            store.create(2, 2, "intersection")
            store.load([*FIVE[:4], "50 -edge 5"])
        with open(self.index, "r+b") as file:
            file.seek(306)  # the number of the events of the first list
            file.write(b"\3")
        with self.open() as store:
            damaged = self.refused(deltagraph.Damaged, store.at, 10)
            self.assertEqual((damaged.key, damaged.column), ("list 0", "s"))
            self.assertEqual(store.verify(), (False, None, "list 0", "s"))
        with self.assertRaises(deltagraph.IndexRefused):
            self.open(checked=True)

    def test_batches_before_a_refused_one_stay(self) -> None:
        changes = [f"{time} +node {time % 7}" for time in range(20)]
        with self.open() as store:
            store.create()
            with self.assertRaises(deltagraph.BadChange) as raised:
                store.load(changes, batch=3)
            refused = raised.exception
            self.assertEqual((refused.added, refused.line, refused.position), (6, 2, 8))
            self.assertEqual((refused.change, refused.reason_name), (deltagraph.AddNode(7, 0), "node-exists"))
            self.assertEqual(store.span(), (0, 5))

    def test_numbers_that_are_not_whole(self) -> None:
        with self.open() as store:
            store.create()
            for change in (deltagraph.AddNode(1.0, 1), deltagraph.AddNode(1, True), (1, "+node", 1.5)):
                refused = self.refused(deltagraph.BadChange, store.load, [change])
                self.assertEqual((refused.reason_name, refused.change), ("form", None))

    def test_a_large_instant_of_a_list_sends_nothing(self) -> None:
        with self.open() as store:
            store.create()
            with self.assertRaises(deltagraph.LargeInstant):
                store.load(["1 +node 1", *["2 +node 1"] * (2**20 + 1)])
            self.assertIsNone(store.span())

    def test_an_invalid_change_sends_nothing_of_its_batch(self) -> None:
        with self.open() as store:
            store.create()
            with self.assertRaises(deltagraph.InvalidChange):
                store.load(["1 +node 1", deltagraph.SetNode(2, 1, "k", "a\nlist 1")])
            self.assertIsNone(store.span())

    def test_what_would_wait_for_ever_is_not_sent(self) -> None:
        with self.open() as store:
            store.create()
            for command in ("", "# a comment", "load 1", "certify 1 s 1", "pool\npool"):
                with self.assertRaises(ValueError):
                    store.ask(command)
            with self.assertRaises(ValueError):
                store.ask("pool", b"pool\n")
            self.assertEqual(store.load([]), (0, 0, 0, None))
            store.load(FIVE)
            self.assertEqual(store.append(iter(())), (0, 0, 5, 50))
