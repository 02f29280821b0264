"""Changes, their lines, and batches."""
from __future__ import annotations

import itertools
import random
import unittest

from deltagraph import AddEdge, AddNode, InvalidChange, LargeInstant, RemoveEdge, RemoveNode, SetEdge, SetNode
from deltagraph import SendMessage, UnsetEdge, UnsetNode
from deltagraph.changes import batches, change_of, check_instants, line_of
from deltagraph.words import LARGEST_BATCH, LARGEST_ID, LAST_INSTANT, lines_after

LINES = [
    (AddNode(10, 1), "10 +node 1"),
    (RemoveNode(LAST_INSTANT, LARGEST_ID), "9223372036854775807 -node 18446744073709551615"),
    (AddEdge(0, 5, 1, 2), "0 +edge 5 1 2 dir"),
    (AddEdge(30, 5, 1, 2, directed=False), "30 +edge 5 1 2 undir"),
    (RemoveEdge(50, 5), "50 -edge 5"),
    (SetNode(40, 1, "name", "Ada  L "), "40 nset 1 name Ada  L "),
    (SetNode(40, 1, "name", ""), "40 nset 1 name "),
    (UnsetNode(41, 1, "name"), "41 ndel 1 name"),
    (SetEdge(42, 5, "w", "1 2"), "42 eset 5 w 1 2"),
    (UnsetEdge(43, 5, "w"), "43 edel 5 w"),
    (SendMessage(44, 1, 2, " hi  you "), "44 msg 1 2  hi  you "),
    (SendMessage(44, 1, 1, ""), "44 msg 1 1 "),
]


class Changes(unittest.TestCase):
    def test_each_change_has_its_line_and_each_line_its_change(self) -> None:
        for change, line in LINES:
            with self.subTest(line):
                self.assertEqual(line_of(change), line)
                self.assertEqual(change_of(line), change)
                self.assertEqual(line_of(line.encode() + b"\n"), line)
                self.assertEqual(line_of((change[0], change.WORD, *change[1:])), line)

    def test_changes_of_other_kinds_differ(self) -> None:
        self.assertNotEqual(AddNode(1, 2), RemoveNode(1, 2))
        self.assertFalse(AddNode(1, 2) == (1, 2))
        self.assertTrue(AddNode(1, 2) == AddNode(1, 2) and not AddNode(1, 2) != AddNode(1, 2))
        self.assertEqual(repr(AddEdge(1, 2, 3, 4)), "AddEdge(time=1, id=2, source=3, target=4, directed=True)")
        self.assertEqual(len({AddNode(1, 2), RemoveNode(1, 2), AddNode(1, 2)}), 2)

    def test_what_no_line_can_say_is_invalid(self) -> None:
        invalid = [
            AddNode(-1, 1),
            AddNode(LAST_INSTANT + 1, 1),
            AddNode(1, LARGEST_ID + 1),
            AddEdge(1, 1, 2, -1),
            AddNode("1", 1),  # type: ignore[arg-type]
            SendMessage(1, 1, LARGEST_ID + 1, "v"),
            SendMessage(1, 1, 2, "a\nb"),
            SetNode(1, 1, "", "v"),
            SetNode(1, 1, "a key", "v"),
            SetNode(1, 1, "k" * 65, "v"),
            SetNode(1, 1, "\u56fe" * 22, "v"),
            SetNode(1, 1, "k", "a\nb"),
            SetNode(1, 1, "k", "a\rb"),
            SetNode(1, 1, "k", "v" * 1025),
            SetNode(1, 1, "k", "\u56fe" * 342),
            SetNode(1, 1, "k", "\ud800"),
            SetNode(1, 1, "k", 5),  # type: ignore[arg-type]
            UnsetEdge(1, 1, "\t"),
            "10 +node 1\n20 +node 2",
            "10 +node 1\n\n",
            b"10 +node 1\nlist 1",
            (10, "+nodes", 1),
            (10, "+node"),
            (10,),
            (),
            None,
            5,
        ]
        for change in invalid:
            with self.subTest(change), self.assertRaises(InvalidChange):
                line_of(change)  # type: ignore[arg-type]

    def test_lines_that_say_no_change(self) -> None:
        wrong = [
            "",
            "x",
            "10",
            "10 +node",
            "10 +node 01",
            "-1 +node 1",
            "10 +node 1 2",
            "10 +edge 1 2 3",
            "10 nset 1 k",
        ]
        for line in wrong + ["10 +edge 1 2 3 both", "10 +node \u0661", "10  +node 1", "10 ndel 1 k v", "10 +node 1 "]:
            self.assertIsNone(change_of(line), line)


class Batches(unittest.TestCase):
    def test_a_batch_ends_between_instants(self) -> None:
        pick = random.Random(1)
        for _ in range(300):
            times = sorted(pick.randrange(12) for _ in range(pick.randrange(40)))
            lines = [f"{time} +node {number}" for number, time in enumerate(times)]
            most = pick.randrange(1, 9)
            found = list(batches(iter(lines), most))
            self.assertEqual(list(itertools.chain(*found)), lines)
            for batch in found:
                instants = {line.split(" ")[0] for line in batch}
                self.assertTrue(batch and (len(batch) <= most or len(instants) == 1))
            for one, other in zip(found, found[1:]):
                self.assertNotEqual(one[-1].split(" ")[0], other[0].split(" ")[0])

    def test_a_full_instant_fits_and_one_more_does_not(self) -> None:
        line = "7 +node 1"
        full = [line] * LARGEST_BATCH
        self.assertEqual([len(batch) for batch in batches(["6 +node 1", *full, "8 +node 1"])], [1, LARGEST_BATCH, 1])
        check_instants(full)
        with self.assertRaises(LargeInstant) as raised:
            check_instants([*full, line])
        self.assertEqual(raised.exception.instant, "7")
        with self.assertRaises(LargeInstant):
            list(batches(itertools.repeat(line, LARGEST_BATCH + 1)))


class LinesAfter(unittest.TestCase):
    def test_lines_after_a_command(self) -> None:
        due = {
            "load 5": 5,
            "append 1048576": 1048576,
            "append 1048577": 0,
            "load 05": 0,
            "load 0": 0,
            "load 5 ": 0,
            "load": 0,
            "certify 20 s 2": 2,
            "certify 20 sen 2": 0,
            "certify 9223372036854775808 s 2": 0,
            "certify 20 s 0": 0,
            "list 5": 0,
        }
        self.assertEqual({command: lines_after(command) for command in due}, due)
