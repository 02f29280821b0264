"""Histories over Dask: over one file and over its parts, beside the model and histories written by hand.

All that is expected is made of the changes by plain Python.
"""
from __future__ import annotations

import importlib.util
import logging
import os
import pickle
import signal
import subprocess
import sys
import time
import unittest
from pathlib import Path
from typing import Any, Callable, Iterator, Optional, Sequence
from unittest import mock

import deltagraph
from deltagraph import Change, Span, failures
from deltagraph.replies import Neighbour, Node

from .support import FOLDER, Case, Graph, Model, parts_of, program

NEEDED = ("dask", "numpy", "pandas")
MISSING = [module for module in NEEDED if importlib.util.find_spec(module) is None]
CLUSTERS = not MISSING and importlib.util.find_spec("distributed") is not None

if not MISSING:
    import dask

    from deltagraph import dask as over
if CLUSTERS:
    import distributed

PATIENCE = 60.0  # seconds

# Part 1 of two begins late and ends early, and no part is empty.
TIES = [
    "1 +node 1",
    "1 nset 1 name Ada",
    "2 +node 2",
    "3 +node 3",
    "4 +edge 1 1 2 dir",
    "4 eset 1 w 5",
    "5 +edge 2 2 3 undir",
    "6 msg 1 2 hello",
    "6 msg 2 2 hello",
    "7 +edge 4 3 3 dir",
    "9 -edge 2",
    "12 nset 2 name Bo",
]


def known(model: Model, instant: int) -> Graph:
    return model.graph(instant)


def asked(model: Model, count: int) -> list[int]:
    """Some instants of a history, among which there are its ends and ones at which nothing happened."""
    first, last = model.changes[0].time, model.changes[-1].time
    drawn = [model.random.randint(first, last) for _ in range(count - 2)]
    return [last, *drawn, first]


def edge_rows(model: Model, instants: Sequence[int]) -> list[tuple[Any, ...]]:
    return [
        (instant, edge, *ends)
        for instant in sorted(set(instants))
        for edge, ends in sorted(known(model, instant).edges.items())
    ]


def degree_rows(model: Model, instants: Sequence[int]) -> list[tuple[int, int, int]]:
    found = []
    for instant in sorted(set(instants)):
        graph = known(model, instant)
        ends = [{source, target} for source, target, _ in graph.edges.values()]
        found += [(instant, node, sum(node in pair for pair in ends)) for node in sorted(graph.nodes)]
    return found


def count_rows(model: Model, instants: Sequence[int]) -> list[tuple[int, ...]]:
    found = []
    for instant in sorted(set(instants)):
        graph = known(model, instant)
        values = [sum(map(len, of.values())) for of in (graph.nodes, graph.values)]
        found.append((instant, len(graph.nodes), len(graph.edges), *values, len(model.messages.get(instant, ()))))
    return found


def rows(frame: Any) -> list[tuple[Any, ...]]:
    return [tuple(row) for row in frame.itertuples(index=False)]


def all_of(graph: Any) -> tuple[Any, ...]:
    """All that a graph has. The values of one owner come in the order of their names in the file, which may be any."""
    nodes, edges = list(graph.nodes()), list(map(tuple, graph.edges()))
    values = [list(map(tuple, of)) for of in (graph.node_attributes(), graph.edge_attributes(), graph.messages())]
    for of in values:
        if [row[0] for row in of] != sorted(row[0] for row in of):
            raise ValueError("these are not in order")
    return nodes, edges, *map(sorted, values), tuple(graph.counts())


def all_known(model: Model, instant: int) -> tuple[Any, ...]:
    graph = known(model, instant)
    values = [
        sorted((owner, key, value) for owner, of in held.items() for key, value in of.items())
        for held in (graph.nodes, graph.values)
    ]
    messages = sorted(model.messages.get(instant, ()))
    edges = [(edge, *ends) for edge, ends in sorted(graph.edges.items())]
    counts = (len(graph.nodes), len(edges), len(values[0]), len(values[1]), len(messages))
    return sorted(graph.nodes), edges, *values, messages, counts


class DaskCase(Case):
    def made(self, name: str, changes: Sequence[Any], leaf: int = 4) -> Path:
        path = self.folder / name
        with self.open(path) as store:
            store.create(leaf, 2)
            if changes:
                store.load(changes)
        return path

    def split(self, name: str, changes: Sequence[Change], count: int) -> list[Path]:
        return [self.made(f"{name}.{place}", part) for place, part in enumerate(parts_of(changes, count))]

    def history(self, index: Any, **words: Any) -> Any:
        return over.History(index, program(), **words)

    def both(self, model: Model, count: int) -> Iterator[tuple[str, Any]]:
        yield "one file", self.history(self.made("whole.dg", model.changes), ids="uint64")
        yield f"{count} parts", self.history(self.split("part", model.changes, count), ids="uint64")

    def as_the_model(self, history: Any, model: Model, instants: list[int]) -> None:
        counts, edges, degrees, graphs = dask.compute(
            history.counts(instants, "snet"),
            history.edges(instants),
            history.degrees(instants),
            history.map(instants, all_of, "snet", whole=True),
        )
        self.assertEqual(rows(counts), count_rows(model, instants))
        self.assertEqual(sorted(rows(edges)), edge_rows(model, instants))
        self.assertEqual(rows(degrees), degree_rows(model, instants))
        expected = [all_known(model, instant) for instant in sorted(set(instants))]
        self.assertEqual(graphs, expected)
        self.assertEqual(history.instants(instants), sorted(set(instants)))


@unittest.skipIf(MISSING, f"{', '.join(MISSING)}: not installed")
class WithoutACluster(DaskCase):
    def setUp(self) -> None:
        super().setUp()
        chosen = dask.config.set(scheduler="synchronous")
        chosen.__enter__()
        self.addCleanup(chosen.__exit__, None, None, None)
        self.addCleanup(over.close)

    def test_random_histories(self) -> None:
        for seed in range(16):
            model = Model(seed)
            model.grow(20 + 15 * seed)
            for name, history in self.both(model, 1 + seed % 6):
                with self.subTest(seed=seed, over=name):
                    self.as_the_model(history, model, asked(model, 12))
            for path in self.folder.iterdir():
                path.unlink()

    def test_threads_have_a_store_each(self) -> None:
        model = Model(3)
        model.grow(200)
        with dask.config.set(scheduler="threads", num_workers=4):
            for name, history in self.both(model, 3):
                with self.subTest(over=name):
                    self.as_the_model(history, model, asked(model, 70))

    def test_parts_of_other_spans(self) -> None:
        """A part that begins later and one that ends earlier: nothing is there before, and the last graph behind."""
        nodes = [f"{instant} +node {instant}" for instant in (1, 2, 3)]
        first = self.made("part.0", [*nodes, "20 +edge 2 1 2 dir"])
        later = self.made("part.1", ["2 +node 1", "2 +node 2", "4 +edge 1 1 2 undir", "4 msg 1 2 hello", "6 msg 1 2 again"])
        empty = self.made("part.2", [])
        history = self.history([first, later, empty])
        self.assertEqual(history.span(), Span(1, 20))
        times = [1, 2, 4, 6, 7, 20]
        counts = [(1, 1, 0, 0), (2, 2, 0, 0), (4, 3, 1, 1), (6, 3, 1, 1), (7, 3, 1, 0), (20, 3, 2, 0)]
        self.assertEqual(rows(history.counts(times, "st").compute()), counts)
        edges = [(4, 1), (6, 1), (7, 1), (20, 1), (20, 2)]
        self.assertEqual(sorted(rows(history.edges(times)[["time", "id"]].compute())), edges)
        degrees = [(1, 1, 0), (2, 1, 0), (2, 2, 0), (7, 1, 1), (7, 2, 1), (7, 3, 0), (20, 1, 2), (20, 2, 2), (20, 3, 0)]
        self.assertEqual(rows(history.degrees([1, 2, 7, 20]).compute()), degrees)
        seen = history.map([1, 2, 7, 20], lambda graph: (graph.time, list(graph.messages())), "st").compute()
        self.assertEqual(seen, [(1, []), (2, []), (7, []), (20, []), (2, []), (6, []), (6, [])])
        whole = history.map([6, 7], lambda graph: [tuple(of) for of in graph.messages()], "st", whole=True)
        self.assertEqual(whole.compute(), [[(1, 2, "again")], []])

    def test_whole_graphs_are_snapshots(self) -> None:
        def seen(graph: Any) -> list[Any]:
            return [
                (graph.time, len(graph), list(graph), 2 in graph, 9 in graph, graph.columns),
                (graph.node("Ada"), graph.node(3), graph.node(9), graph.degree(3), graph.degree()),
                (graph.neighbours(2), graph.neighbours("Ada"), graph.find("name", "Bo"), graph.find("name", "none")),
                [column.tolist() for column in graph.to_edges(arrays=True)],
                [table.reset_index().astype(object).values.tolist() for table in graph.to_pandas()],
            ]

        changes = [deltagraph.changes.change_of(line) for line in TIES]
        self.assertNotIn(None, changes)
        there = [
            (12, 3, [1, 2, 3], True, False, "sne"),
            (Node(1, 1, {"name": "Ada"}), Node(3, 1, {}), None, 1, {1: 1, 2: 1, 3: 1}),
            ([Neighbour("in", 1, 1)], [Neighbour("out", 1, 2)], [2], []),
            [[1, 4], [1, 3], [2, 3], [True, True]],
            [[[1, "Ada"], [2, "Bo"], [3, None]], [[1, 1, 2, True, 5.0], [4, 3, 3, True, None]]],
        ]
        for index in (self.made("whole.dg", changes), self.split("part", changes, 2)):
            history = self.history(index)
            found = history.map([12], seen, "sne", whole=True).compute()[0]
            found[-1] = [[[None if value != value else value for value in row] for row in table] for table in found[-1]]
            self.assertEqual(found, there)
        graphs = self.history(self.split("again", changes, 3)).map([8], repr, whole=True).compute()
        self.assertEqual(graphs, ["<Whole time=8 columns='s'>"])
        with self.assertRaises(ValueError):
            self.history(self.split("more", changes, 2)).map([8], lambda graph: graph & graph, whole=True).compute()

    def test_times(self) -> None:
        history = self.history(self.split("part", [deltagraph.changes.change_of(line) for line in TIES], 2))
        self.assertEqual(history.instants([7, 5, 7, 12]), [5, 7, 12])
        for times in ([0], [5, 13], [2**70]):
            with self.assertRaises(deltagraph.OutOfRange) as raised:
                history.edges(times)
            self.assertEqual((raised.exception.first, raised.exception.last), (1, 12))
        with self.assertRaises(TypeError):
            history.edges([1.5])
        with self.assertRaises(ValueError):
            history.counts([5], "nt")
        with self.assertRaises(ValueError):
            history.map([5], len, "x")
        self.assertEqual(rows(history.edges([]).compute()), [])
        self.assertEqual(history.map([], len).compute(), [])
        empty = self.history(self.made("empty.dg", []))
        self.assertIsNone(empty.span())
        with self.assertRaises(deltagraph.OutOfRange) as raised:
            empty.counts([1])
        self.assertIsNone(raised.exception.first)
        with self.assertRaises(ValueError):
            over.History([])
        with self.assertRaises(ValueError):
            over.History("part.0", ids="int32")
        with self.assertRaises(deltagraph.NoIndex):
            self.history(self.folder / "none.dg").span()

    def test_dates(self) -> None:
        """The note of the calendar is at a node, and so in one part alone."""
        lines = ["0 +node 1", "0 nset 1 clock seconds since 1970 times 1/86400 and -18262 more", "31 +node 2", "40 +edge 2 1 2 dir"]
        changes = [deltagraph.changes.change_of(line) for line in lines]
        whole, parts = self.made("whole.dg", changes), self.split("part", changes, 2)
        for index in (whole, parts):
            history = self.history(index)
            self.assertEqual(history.instants(["2020-02-01", "2020-01-10"]), [9, 31])
            found = history.edges(["2020-02-10", "2020-02-01"]).compute()
            self.assertEqual([str(moment)[:10] for moment in found.time], ["2020-02-10"])
            degrees = history.degrees(["2020-02-10"]).compute()
            self.assertEqual([(str(row.time)[:10], row.node, row.degree) for row in degrees.itertuples()], [("2020-02-10", 1, 1), ("2020-02-10", 2, 1)])
            numbers = self.history(index, dates=False).counts(["2020-02-10"]).compute()
            self.assertEqual(rows(numbers), [(40, 2, 1)])
            with self.assertRaises(deltagraph.OutOfRange) as raised:
                history.edges(["2021"])
            self.assertIn("from 2020-01-01 to 2020-02-10", str(raised.exception))

    def test_large_ids(self) -> None:
        large = 2**63
        index = self.made("large.dg", ["1 +node 1", f"2 +edge {large} 1 1 dir", f"3 +node {large}"])
        with self.assertRaises(OverflowError):
            self.history(index).edges([2]).compute()
        with self.assertRaises(OverflowError):
            self.history(index).degrees([3]).compute()
        history = self.history(index, ids="uint64")
        self.assertEqual(rows(history.edges([2]).compute()), [(2, large, 1, 1, True)])
        self.assertEqual(rows(history.degrees([3]).compute()), [(3, 1, 1), (3, large, 0)])

    def test_a_file_that_grows_or_is_another(self) -> None:
        index = self.made("grows.dg", ["1 +node 1"])
        history = self.history(index)
        self.assertEqual(rows(history.counts([1]).compute()), [(1, 1, 0)])
        with self.open(index) as store:
            store.append(["2 +node 2", "2 +edge 1 1 2 dir"])
        self.assertEqual(rows(history.counts([1, 2]).compute()), [(1, 1, 0), (2, 2, 1)])
        os.replace(self.made("other.dg", ["5 +node 7", "6 +node 8"]), index)
        self.assertEqual(history.span(), Span(5, 6))
        self.assertEqual(rows(history.degrees([6]).compute()), [(6, 7, 0), (6, 8, 0)])

    def test_a_function_that_fails(self) -> None:
        history = self.history(self.made("ties.dg", TIES))
        for _ in range(5):  # more than there are handles, if one were kept
            with self.assertRaises(ZeroDivisionError):
                history.map(list(range(1, 13)) * 3, lambda graph: 1 // (graph.time - 6)).compute()
        self.assertEqual(rows(history.counts([12]).compute()), [(12, 3, 2)])

    def test_how_many_instants_are_taken_at_once(self) -> None:
        for instants, parts, threads, rows, most in (
            (64, 1, 1, 0, 32),
            (64, 1, 4, 0, 16),
            (240, 1, 4, 0, 32),
            (65, 1, 4, 0, 17),
            (3, 1, 8, 0, 1),
            (0, 1, 8, 0, 1),
            (32, 4, 4, 0, 32),
            (32, 4, 16, 0, 8),
            (64, 1, 1, 1 << 20, 4),
            (64, 1, 1, 1 << 30, 1),
        ):
            with self.subTest((instants, parts, threads, rows)):
                self.assertEqual(over._longest_run(instants, parts, threads, rows), most)

    def test_a_part_is_held_alone(self) -> None:
        """A thread has one program at a time, so that none has all parts."""
        history = self.history(self.split("part", [deltagraph.changes.change_of(line) for line in TIES], 3))
        opened: list[Any] = []
        start = over.Store._start

        def counted(store: Any) -> Any:
            self.assertTrue(all(other.ended for other in opened))
            opened.append(store)
            return start(store)

        with mock.patch.object(over.Store, "_start", counted):
            history.edges([5, 6]).compute()
        self.assertGreaterEqual(len(opened), 3)


class Failures(unittest.TestCase):
    def test_they_go_to_another_process(self) -> None:
        refused = deltagraph.BadChange(["refused", "6", "bad-change", "3", "2"], "append 5")
        refused.added, refused.text = 7, "5 +node 1"
        ended: list[Exception] = [
            refused,
            deltagraph.OutOfRange(["refused", "7", "out-of-range", "1", "9"], "at 10 s"),
            deltagraph.NoIndex(["refused", "2", "no-index"], "pool"),
            failures.program_ended(7, ["no index"], "pool"),
            failures.program_ended(-9, [], "at 5 s"),
            failures.program_ended(77, ["a", "b"]),
            deltagraph.ProgramMissing("none"),
            deltagraph.LargeInstant("5"),
        ]
        for error in ended:
            with self.subTest(str(error)):
                again = pickle.loads(pickle.dumps(error))
                self.assertIs(type(again), type(error))
                self.assertEqual((str(again), vars(again)), (str(error), vars(error)))


def running(pids: Sequence[Optional[int]]) -> list[int]:
    """Those of some processes that still run."""
    found = []
    for pid in pids:
        try:
            with open(f"/proc/{pid}/stat", encoding="ascii", errors="replace") as file:
                if file.read().rsplit(")", 1)[1].split()[0] != "Z":
                    found.append(int(pid or 0))
        except (FileNotFoundError, ProcessLookupError):  # it ended before the file was opened, or before it was read
            pass
    return found


def process_of(graph: Any) -> int:
    return int(graph.store.process)


def comes(holds: Callable[[], bool]) -> bool:
    """Whether something comes to hold within a minute."""
    deadline = time.monotonic() + PATIENCE
    while not holds():
        if time.monotonic() > deadline:
            return False
        time.sleep(0.05)
    return True


@unittest.skipIf(MISSING, f"{', '.join(MISSING)}: not installed")
@unittest.skipUnless(CLUSTERS, "distributed: not installed")
class OverACluster(DaskCase):
    def cluster(self, workers: int, threads: int = 1) -> tuple[Any, list["subprocess.Popen[bytes]"]]:
        """A client of a cluster, and the processes of its workers, which nobody starts again. All end with the test."""
        found = distributed.LocalCluster(n_workers=0, dashboard_address=":0", silence_logs=logging.CRITICAL)
        self.addCleanup(found.close)
        client = distributed.Client(found)
        self.addCleanup(client.close)
        words = [sys.executable, "-B", "-m", "distributed.cli.dask_worker", found.scheduler_address, "--no-nanny"]
        words += ["--nthreads", str(threads), "--no-dashboard", "--local-directory", str(self.folder / "space")]
        places = [str(FOLDER.parent), os.environ.get("PYTHONPATH", "")]
        spoken = {**os.environ, "PYTHONPATH": os.pathsep.join(filter(None, places))}
        started = []
        for _ in range(workers):
            started.append(subprocess.Popen(words, env=spoken, stdout=subprocess.DEVNULL, stderr=subprocess.DEVNULL))
            self.addCleanup(started[-1].wait)
            self.addCleanup(started[-1].kill)
        client.wait_for_workers(workers, timeout=300)
        return client, started

    def test_answers(self) -> None:
        self.cluster(2, 2)
        model = Model(5)
        model.grow(300)
        for name, history in self.both(model, 3):
            with self.subTest(over=name):
                self.as_the_model(history, model, asked(model, 150))
                # Of 64 instants each of four threads has 16, and each of three parts two runs of 32.
                first = model.changes[0].time
                self.assertEqual(history.counts(range(first, first + 64)).npartitions, 2 if name == "3 parts" else 4)

    def test_a_worker_is_killed(self) -> None:
        """In the middle of a listing, when it has done some of its work: others do all of that again."""
        client, workers = self.cluster(3)
        model = Model(11)
        model.grow(300)
        instants = list(range(model.changes[0].time, model.changes[-1].time + 1))[:400]
        whole = self.made("whole.dg", model.changes)
        for name, index in (("one file", whole), ("parts", self.split("part", model.changes, 2))):
            with self.subTest(over=name):
                marker = self.folder / f"killed {name}"
                words = [sys.executable, str(FOLDER / "mortal.py"), str(marker), "45", *program()]
                history = over.History(index, words, ids="uint64")
                edges, degrees = dask.compute(history.edges(instants), history.degrees(instants))
                self.assertTrue(marker.exists())
                self.assertEqual(sorted(rows(edges)), edge_rows(model, instants))
                self.assertEqual(rows(degrees), degree_rows(model, instants))
                dead = [worker for worker in workers if worker.poll() is not None]
                self.assertEqual([worker.returncode for worker in dead], [-signal.SIGKILL] * (1 if index is whole else 2))
                self.assertEqual(len(client.nthreads()), 3 - len(dead))

    def at_work(self) -> tuple[Any, list["subprocess.Popen[bytes]"], list[int]]:
        """A client of a cluster that was asked something, its workers and their programs."""
        client, workers = self.cluster(2)
        history = self.history(self.made("ties.dg", TIES))
        programs = sorted(set(history.map(list(range(1, 13)), process_of).compute()))
        self.assertEqual(running(programs), programs)
        return client, workers, programs

    def test_programs_end_with_a_retired_worker(self) -> None:
        client, workers, programs = self.at_work()

        def are_retired() -> bool:
            # A worker stays while it has a result that no other can take, as it has until the client gives that up.
            client.retire_workers(list(client.nthreads()), close_workers=True)
            return not client.nthreads()

        self.assertTrue(comes(are_retired))
        for worker in workers:
            worker.wait(PATIENCE)
        self.assertEqual(running(programs), [])

    def ends_by(self, number: signal.Signals) -> None:
        _, workers, programs = self.at_work()
        for worker in workers:
            worker.send_signal(number)
        for worker in workers:
            worker.wait(PATIENCE)
        self.assertTrue(comes(lambda: not running(programs)))

    def test_programs_end_with_a_worker_that_is_told_to_end(self) -> None:
        self.ends_by(signal.SIGTERM)

    def test_programs_end_with_a_killed_worker(self) -> None:
        self.ends_by(signal.SIGKILL)

    def in_this_process(self, workers: int, threads: int) -> Any:
        """A client of a cluster whose workers are all in this process."""
        words = {"n_workers": workers, "threads_per_worker": threads, "processes": False}
        found = distributed.LocalCluster(**words, dashboard_address=":0", silence_logs=logging.CRITICAL)
        self.addCleanup(found.close)
        client = distributed.Client(found)
        self.addCleanup(client.close)
        return client

    def test_threads_of_a_worker_begin_at_once(self) -> None:
        """None of them ends the programs of the others."""
        self.in_this_process(1, 8)
        history = self.history(self.split("part", [deltagraph.changes.change_of(line) for line in TIES], 8))
        self.assertEqual(history.span(), Span(1, 12))
        self.assertEqual(rows(history.counts([12]).compute()), [(12, 3, 2)])

    def test_a_worker_ends_its_own_programs_alone(self) -> None:
        client = self.in_this_process(2, 1)
        history = self.history(self.made("ties.dg", TIES))
        programs = set(history.map(list(range(1, 13)), process_of).compute())
        of = {held.worker.address: process_of(held) for held in over._all if held.store is not None and not held.store.ended}
        self.assertEqual((set(of), set(of.values())), (set(client.nthreads()), programs))
        first, second = of
        self.assertTrue(comes(lambda: first in client.retire_workers([first], close_workers=True)))
        self.assertTrue(comes(lambda: not running([of[first]])))
        self.assertEqual(running([of[second]]), [of[second]])

    def test_failures_come_as_they_are(self) -> None:
        self.cluster(1)
        with self.assertRaises(deltagraph.NoIndex):
            self.history(self.folder / "none.dg").span()
        blank = self.folder / "text.dg"
        blank.write_text("this is no index at all, but a text of some length")
        with self.assertRaises(deltagraph.IndexRefused) as raised:
            self.history(blank).span()
        self.assertEqual(raised.exception.status, 7)
        history = self.history(self.made("ties.dg", TIES))
        with self.assertRaises(deltagraph.UnknownHandle) as unknown:
            history.map([1], lambda graph: graph.store.ask("counts 4000")).compute()
        self.assertEqual(unknown.exception.handle, 4000)
