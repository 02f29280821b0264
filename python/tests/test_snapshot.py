"""What a snapshot gives beside what the random histories compare."""
from __future__ import annotations

import importlib.util
import sys
import unittest
from unittest import mock

import deltagraph

from .support import Case

CHANGES = [
    "10 +node 1",
    "10 +node 2",
    "20 +edge 5 1 2 dir",
    "20 +edge 6 1 1 undir",
    "30 nset 1 name Ada",
    "30 eset 5 source here",
    "30 eset 6 key of networkx",
]


def there(module: str) -> bool:
    return importlib.util.find_spec(module) is not None


class Snapshots(Case):
    def setUp(self) -> None:
        super().setUp()
        self.store = self.store_of(CHANGES)

    def test_elements_in_their_order(self) -> None:
        found = list(self.store.at(30, "sne").elements())
        self.assertEqual(found[:4], [1, 2, deltagraph.Edge(5, 1, 2, True), deltagraph.Edge(6, 1, 1, False)])
        self.assertEqual(found[4], deltagraph.NodeAttribute(1, "name", "Ada"))
        self.assertEqual(found[5], deltagraph.EdgeAttribute(5, "source", "here"))
        self.assertEqual(list(self.store.at(30, "sne").lines())[2:4], [b"edge 5 1 2 dir", b"edge 6 1 1 undir"])

    def test_dictionaries(self) -> None:
        self.store.append(["40 +node 3", "40 nset 3 name Bo  b ", "40 msg 3 1 hello", "40 msg 3 2 ", "40 ndel 3 name", "40 -node 3"])
        graph = self.store.at(40, "snet").to_dicts()
        self.assertEqual((graph.nodes, graph.edges[6]), ({1: {"name": "Ada"}, 2: {}}, deltagraph.Edge(6, 1, 1, False)))
        self.assertEqual(graph.edge_values, {5: {"source": "here"}, 6: {"key": "of networkx"}})
        self.assertEqual((graph.messages, graph.gone()), ([(3, 1, "hello"), (3, 2, "")], [3]))
        self.assertEqual([graph.name(1), graph.name(1, "kind"), graph.name(2), graph.name(3)], ["Ada", "1", "2", "3"])
        plain = self.store.at(30, "s").to_dicts()
        self.assertEqual((plain.nodes, list(plain.edges), plain.edge_values), ({1: {}, 2: {}}, [5, 6], {5: {}, 6: {}}))
        self.assertEqual((plain.messages, plain.gone()), ([], []))

    def test_dictionaries_of_what_is_no_graph(self) -> None:
        with self.store.interval(20, 31, "sne") as added:
            graph = added.to_dicts()
        self.assertEqual((graph.nodes, list(graph.edges)), ({1: {"name": "Ada"}}, [5, 6]))
        with self.store.interval(30, 31, "sne") as added:
            graph = added.to_dicts()
        self.assertEqual((graph.edges, graph.edge_values), ({}, {5: {"source": "here"}, 6: {"key": "of networkx"}}))

    def test_a_loop_is_one_edge_at_its_node(self) -> None:
        with self.store.at(30, "s") as snapshot:
            self.assertEqual(snapshot.node(1), (1, 2, {}))
            self.assertEqual(snapshot.neighbours(1), [("out", 5, 2), ("both", 6, 1)])

    def test_a_with_releases(self) -> None:
        with self.store.several([10, 20]) as (one, other):
            self.assertEqual((self.store.pool().live, one.released), (2, False))
        self.assertEqual((self.store.pool().live, one.released, other.released), (0, True, True))
        with self.store.at(10) as snapshot:
            snapshot.release()
        self.assertEqual(self.store.pool().live, 0)

    def test_a_store_by_its_name(self) -> None:
        self.assertEqual(repr(self.store), f"<Store {str(self.index)!r}>")
        frame = type("Frame", (list,), {"columns": ["source"]})()
        with self.assertRaisesRegex(TypeError, "from_pandas"):
            self.store.append(frame)

    def test_finding_by_a_value(self) -> None:
        changes = ["10 +node 1", "10 nset 1 name Ada", "20 +node 2", "20 nset 2 name Ada", "30 nset 1 name Bob", "30 nset 1 age 7"]
        with self.open(self.folder / "named.dg") as store:
            store.create()
            self.assertEqual(store.find("name", "Ada"), [])
            store.load(changes)
            self.assertEqual((store.find("name", "Ada"), store.find("name", "Bob"), store.find("age", "7")), ([2], [1], [1]))
            self.assertEqual((store.find("name", "Ada", 20), store.find("name", "Eve"), store.find("age", "Ada")), ([1, 2], [], []))
            with store.at(20) as graph, self.assertRaisesRegex(LookupError, "2 nodes are named"):
                graph.node("Ada")

    def test_weights_of_several(self) -> None:
        snapshots = self.store.several([10, 20, 30], "sne")
        self.assertEqual(snapshots.bytes_singly, sum(snapshot.bytes_read for snapshot in snapshots))
        self.assertLessEqual(snapshots.bytes_read, snapshots.bytes_singly)

    def test_the_index(self) -> None:
        tree = self.store.tree()
        self.assertEqual(tree[:5], (1024, 4, "balanced", 7, 0))
        small = self.folder / "small.dg"
        with self.open(small) as store:
            store.create(2, 2, "intersection")
            store.load(["10 +node 1", "20 +node 2", "30 +edge 5 1 2 dir", "40 nset 1 name A", "50 -edge 5"])
            plan = store.plan(20)
            self.assertEqual((plan.weight, plan.steps[0]), (26, deltagraph.Step(1, "inner 1 1", 26)))
            self.assertEqual(plan.potentials[-1], deltagraph.Potential("leaf 2", 0))
            self.assertEqual(store.certify(20, "s", ["step 2 list 0 42", "step 4 leaf 1 0"]), (False, "potential root"))
            self.assertEqual(store.certify(20, "s", ["nothing"]), (False, "line 1"))
            self.assertEqual([record.key for record in store.tree().records][:2], ["list 0", "list 1"])
            self.assertEqual(store.several([20, 30, 20]).bytes_read, 66)

    def test_generated_changes(self) -> None:
        with self.open(self.folder / "workload.dg") as store:
            store.create()
            self.assertEqual(store.workload(7, 16), (16, 1007, 4, 1))

    @unittest.skipUnless(there("networkx"), "networkx is not installed")
    def test_keys_of_any_name_in_networkx(self) -> None:
        graph = self.store.at(30, "sne").to_networkx()
        self.assertEqual(graph.edges[1, 2, 5], {"source": "here"})
        self.assertEqual(graph.edges[1, 1, 6], {"key": "of networkx"})

    @unittest.skipUnless(there("numpy"), "numpy is not installed")
    def test_arrays(self) -> None:
        table = self.store.at(30).to_edges(arrays=True)
        self.assertEqual([str(column.dtype) for column in table], ["uint64", "uint64", "uint64", "bool"])
        self.assertEqual([column.tolist() for column in table], [[5, 6], [1, 1], [2, 1], [True, False]])

    @unittest.skipUnless(there("pandas"), "pandas is not installed")
    def test_frames(self) -> None:
        nodes, edges = self.store.at(30, "sne").to_pandas()
        self.assertEqual((nodes.loc[1, "name"], list(nodes.index)), ("Ada", [1, 2]))
        self.assertEqual(list(edges.columns), ["source", "target", "directed", "value_source", "key"])
        self.assertEqual(edges.loc[5, "value_source"], "here")

    def test_packages_that_are_not_there(self) -> None:
        with mock.patch.dict(sys.modules, {"networkx": None, "numpy": None, "pandas": None, "igraph": None}):
            for module in ("deltagraph.arrays", "deltagraph.history"):  # which have imported numpy already
                sys.modules.pop(module, None)
            snapshot = self.store.at(30)
            arrays = lambda: snapshot.to_edges(arrays=True)  # noqa: E731
            exports = snapshot.to_networkx, snapshot.to_pandas, snapshot.to_igraph, snapshot.to_arrays
            for run in (*exports, arrays, self.store.history, lambda: self.store.series([30])):
                with self.assertRaises(ImportError):
                    run()
