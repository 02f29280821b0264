"""Random histories beside a model of plain dictionaries."""
from __future__ import annotations

import random
from typing import Any, Optional

import deltagraph
from deltagraph import (
    AddEdge,
    AddNode,
    BadChange,
    RemoveEdge,
    RemoveNode,
    SendMessage,
    SetEdge,
    SetNode,
    UnsetEdge,
    UnsetNode,
)

from .support import Case, Graph, Model, in_some_form

HISTORIES = 200

try:
    import networkx
except ImportError:
    networkx = None


def first_bad(model: Model, time: int) -> list[tuple[Any, str]]:
    """Changes that the last graph does not allow, each with its reason."""
    graph, free = model.now, 41
    node, edge = next(iter(graph.nodes), None), next(iter(graph.edges), None)
    found: list[tuple[Any, str]] = [
        (AddNode(model.changes[-1].time, free), "time"),
        (RemoveNode(time, free), "no-node"),
        (SetNode(time, free, "k", "v"), "no-node"),
        (RemoveEdge(time, free), "no-edge"),
        (SetEdge(time, free, "k", "v"), "no-edge"),
        (AddEdge(time, free, free, free), "no-end"),
        (SendMessage(time, free, free, "v"), "no-end"),
        ("no change", "form"),
    ]
    if node is not None:
        found += [(AddNode(time, node), "node-exists"), (UnsetNode(time, node, "none"), "no-attribute")]
        if graph.nodes[node] or graph.at(node):
            found.append((RemoveNode(time, node), "node-in-use"))
    if edge is not None:
        source, target, _ = graph.edges[edge]
        found += [(AddEdge(time, edge, source, target), "edge-exists"), (UnsetEdge(time, edge, "none"), "no-attribute")]
        if graph.values[edge]:
            found.append((RemoveEdge(time, edge), "edge-in-use"))
    return found


class Histories(Case):
    def test_histories_are_as_the_model(self) -> None:
        for seed in range(HISTORIES):
            with self.subTest(seed=seed):
                self.history(seed)

    def history(self, seed: int) -> None:
        pick, model = random.Random(seed), Model(seed)
        index = self.folder / f"{seed}.dg"
        leaf, arity = pick.choice([2, 3, 5, 8]), pick.choice([2, 3, 4])
        told: list[int] = []
        with self.open(index) as store:
            store.create(leaf, arity, pick.choice(["intersection", "union", "balanced", "skewed 200"]))
            self.assertIsNone(store.span())
            changes = model.grow(pick.randrange(1, 40))
            forms = [in_some_form(pick, change) for change in changes]
            most = pick.choice([1, 3, 1000])
            loaded = store.load(iter(forms), batch=most, progress=told.append)
            self.assertEqual(loaded[::2], (len(changes), len(changes)))
            self.assertEqual((loaded.last, told[-1], len(told)), (model.time, len(changes), loaded.batches))
            self.asked(store, model, pick)
        with self.open(index, checked=seed % 7 == 0, cache=(0, 1, 64)[seed % 3]) as store:
            for _ in range(pick.randrange(3)):
                changes = model.grow(pick.randrange(1, 15))
                loaded = store.append(changes)
                self.assertEqual(loaded, (len(changes), 1, len(model.changes), model.time))
            self.bad(store, model, pick)
            self.asked(store, model, pick)
            self.assertTrue(store.verify().sound)

    def bad(self, store: deltagraph.Store, model: Model, pick: random.Random) -> None:
        """A refused batch tells its change, and changes nothing."""
        time, front = model.time + 1, pick.randrange(3)
        change, reason = pick.choice(first_bad(model, time))
        before = [AddNode(time, 100 + number) for number in range(front if reason != "time" else 0)]
        with self.assertRaises(BadChange) as raised:
            store.append([*before, change])
        refused = raised.exception
        self.assertEqual(refused.reason_name, reason)
        self.assertEqual((refused.position, refused.line, refused.added), (len(before) + 1, len(before) + 1, 0))
        self.assertEqual((refused.change, refused.text)[isinstance(change, str)], change)
        span = store.span()
        assert span is not None
        self.assertEqual(span.last, model.time)

    def asked(self, store: deltagraph.Store, model: Model, pick: random.Random) -> None:
        first, last = model.changes[0].time, model.time
        self.assertEqual(store.span(), (first, last))
        times = sorted(pick.choice([first, last, pick.randint(first, last)]) for _ in range(pick.randrange(1, 5)))
        columns, heard = pick.choice(["s", "sn", "se", "sne"]), pick.choice(["", "t"])
        if model.messages and heard:
            times = sorted([*times, pick.choice(sorted(model.messages))])
        with store.several(times, columns + heard) as snapshots:
            self.assertEqual([snapshot.time for snapshot in snapshots], times)
            self.assertEqual(snapshots.bytes_singly, sum(snapshot.bytes_read for snapshot in snapshots))
            for snapshot, time in zip(snapshots, times):
                self.same(snapshot, model.graph(time), columns, pick, model.messages.get(time, set()) if heard else None)
        with store.at(times[0], columns) as snapshot:
            self.same(snapshot, model.graph(times[0]), columns, pick, None)
            plan = store.plan(times[0], columns)
            self.assertEqual(plan.weight, snapshot.bytes_read)
            self.assertEqual(sum(step.weight for step in plan.steps), plan.weight)
            self.assertEqual(store.certify(times[0], columns, plan), (True, "valid"))
        self.assertEqual(store.pool().live, 0)
        now = model.now
        values = sum(map(len, now.nodes.values())) + sum(map(len, now.values.values()))
        self.assertEqual(store.clean(), len(now.nodes) + len(now.edges) + values)

    def same(
        self,
        found: deltagraph.Snapshot,
        due: Graph,
        columns: str,
        pick: random.Random,
        messages: Optional[set[tuple[int, int, str]]],
    ) -> None:
        of_nodes = due.nodes if "n" in columns else {node: {} for node in due.nodes}
        of_edges = due.values if "e" in columns else {edge: {} for edge in due.edges}
        edges = [(edge, *ends) for edge, ends in sorted(due.edges.items())]
        node_values = [(node, key, value) for node in of_nodes for key, value in of_nodes[node].items()]
        edge_values = [(edge, key, value) for edge in of_edges for key, value in of_edges[edge].items()]
        told = None if messages is None else len(messages)
        self.assertEqual(found.counts(), (len(due.nodes), len(edges), len(node_values), len(edge_values), told))
        listed_messages = list(found.messages())
        self.assertEqual((set(listed_messages), len(listed_messages)), (messages or set(), told or 0))
        self.assertEqual([message[:2] for message in listed_messages], sorted(message[:2] for message in messages or ()))
        self.assertEqual(list(found.nodes()), sorted(due.nodes))
        self.assertEqual(list(found.edges()), edges)
        self.assertEqual(list(zip(*found.to_edges())), edges)
        for listed, values in ((found.node_attributes(), node_values), (found.edge_attributes(), edge_values)):
            listed = list(listed)
            self.assertEqual(sorted(listed), sorted(values))
            self.assertEqual([owner for owner, _, _ in listed], sorted(owner for owner, _, _ in values))
        elements = list(found.elements())
        self.assertEqual((list(found), len(found)), (sorted(due.nodes), len(due.nodes)))
        self.assertEqual(found.degree(), {node: len(due.at(node)) for node in sorted(due.nodes)})
        self.assertEqual(elements[: len(due.nodes) + len(edges)], [*sorted(due.nodes), *edges])
        self.assertEqual(len(list(found.lines())), len(elements))
        for node in pick.sample(sorted(due.nodes), min(3, len(due.nodes))):
            self.assertEqual(found.neighbours(node), due.at(node))
            self.assertEqual(found.node(node), (node, len(due.at(node)), of_nodes[node]))
        self.assertIsNone(found.node(41))
        self.assertEqual(found.neighbours(41), [])
        if networkx is not None:
            self.in_networkx(found.to_networkx(), due, of_nodes, of_edges, messages or set())

    def in_networkx(
        self,
        graph: Any,
        due: Graph,
        of_nodes: dict[int, Any],
        of_edges: dict[int, Any],
        messages: set[tuple[int, int, str]],
    ) -> None:
        directed = bool(messages) or any(ends[2] for ends in due.edges.values())
        self.assertEqual((graph.is_directed(), graph.is_multigraph()), (directed, True))
        ends = {end: {} for message in messages for end in message[:2]}
        self.assertEqual(dict(graph.nodes(data=True)), {**ends, **of_nodes})
        arcs = {}
        for edge, (source, target, one_way) in due.edges.items():
            ends = (source, target)
            arcs[edge] = {ends, ends[::-1]} if directed and not one_way else {ends if directed else tuple(sorted(ends))}
        found: dict[int, set[Any]] = {}
        sent = set()
        for source, target, edge, values in graph.edges(keys=True, data=True):
            if isinstance(edge, str):
                sent.add((source, target, values["message"]))
                continue
            found.setdefault(edge, set()).add((source, target) if directed else tuple(sorted((source, target))))
            self.assertEqual(values, of_edges[edge])
        self.assertEqual((found, sent), (arcs, messages))
