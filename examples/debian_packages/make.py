#!/usr/bin/env python3
"""Writes the scripts and replies of two runs from `versions.csv` and `dependencies.csv`.

A package is a node from the time of its first version on, with its name, its section and, through
time, its version. A dependency is an edge to the package that it is on, from the time on at which the
installed version was made, or at which the other package was first there.

The replies are made here, from plain dictionaries, and never by the program. What the cheapest way to an instant
weighs comes from the model of the index in `tests/lib`, which knows nothing of the program either.
"""
import csv
import os
import sys
from datetime import datetime, timezone

sys.path.insert(0, os.path.join(os.path.dirname(os.path.abspath(__file__)), "..", ".."))
from tests.lib.history import EDGE, EDGE_ATTR, History, NODE, NODE_ATTR
from tests.lib.plans import IndexGraph, point


def seconds(year, month, day):
    return int(datetime(year, month, day, tzinfo=timezone.utc).timestamp())


# Each run: the times before which its batches end, and what it asks for, each as a handle. The first
# handle is given after the first batch of its run, and lists the same after the later ones.
RUNS = [
    (
        [seconds(2020, 1, 1), seconds(2022, 1, 1)],
        [(seconds(2018, 7, 1), "sn"), (seconds(2021, 8, 14), "sne")],
    ),
    (
        [seconds(2023, 6, 10), seconds(2100, 1, 1)],
        [(seconds(2018, 7, 1), "s"), (seconds(2023, 6, 9), "sne"), (seconds(2024, 1, 1), "se")],
    ),
]


def changes():
    """(time, the script's change, what it does to the graph), in the order of time."""
    with open("versions.csv", newline="") as file:
        versions = list(csv.DictReader(file))
    with open("dependencies.csv", newline="") as file:
        dependencies = list(csv.DictReader(file))
    ids, first, last, found = {}, {}, {}, []
    for row in versions:
        name, time = row["package"], int(row["time"])
        if name not in ids:
            node = ids[name] = len(ids) + 1
            first[name] = time
            found.append((time, 0, f"+node {node}", ("node", node)))
            for key, value in (("name", name), ("section", row["section"])):
                found.append((time, 1, f"nset {node} {key} {value}", ("nattr", node, key, value)))
        last[name] = time
        node = ids[name]
        found.append((time, 2, f"nset {node} version {row['version']}", ("nattr", node, "version", row["version"])))
    for number, row in enumerate(dependencies, 1):
        name, on = row["package"], row["on"]
        time = max(last[name], first[on])
        edge = (number, ids[name], ids[on])
        found.append((time, 3, "+edge %d %d %d dir" % edge, ("edge", *edge)))
        found.append((time, 4, f"eset {number} kind {row['kind']}", ("eattr", number, "kind", row["kind"])))
    found.sort(key=lambda change: change[:2])
    return [(time, line, what) for time, _, line, what in found]


class Graph:
    def __init__(self):
        self.nodes, self.edges, self.node_values, self.edge_values = set(), {}, {}, {}

    def apply(self, what):
        kind = what[0]
        if kind == "node":
            self.nodes.add(what[1])
        elif kind == "edge":
            self.edges[what[1]] = what[2:]
        else:
            values = self.node_values if kind == "nattr" else self.edge_values
            values[what[1], what[2]] = what[3]

    def listing(self, columns, numbers):
        """The lines of the elements; keys are ordered by the numbers of their names."""
        lines = [f"node {node}" for node in sorted(self.nodes)]
        lines += ["edge %d %d %d dir" % (edge, *ends) for edge, ends in sorted(self.edges.items())]
        for word, values, asked in (("nattr", self.node_values, "n"), ("eattr", self.edge_values, "e")):
            if asked in columns:
                ordered = sorted((owner, numbers[key], key, value) for (owner, key), value in values.items())
                lines += [f"{word} {owner} {key} {value}" for owner, _, key, value in ordered]
        return lines


def graph_at(history, time):
    graph = Graph()
    for at, _, what in history:
        if at <= time:
            graph.apply(what)
    return graph


class Index:
    """The model's index of the batches so far."""

    def __init__(self, numbers):
        self.numbers, self.values, self.history = numbers, {}, History(64, 4, "balanced")
        self.names = 0

    def event(self, time, what):
        if what[0] == "node":
            return time, "+", (NODE, what[1])
        if what[0] == "edge":
            return time, "+", (EDGE, *what[1:], 1)
        kind = NODE_ATTR if what[0] == "nattr" else EDGE_ATTR
        key, value = self.numbers[what[2]], self.numbers[what[3]]
        old = self.values.get((kind, what[1], key))
        self.values[kind, what[1], key] = value
        return time, kind, what[1], key, old, value

    def add(self, batch):
        known = {text for _, _, what in batch if what[0].endswith("attr") for text in what[2:]}
        ends = max([self.names] + [self.numbers[text] + 1 for text in known])
        new = sorted(self.numbers, key=self.numbers.get)[self.names : ends]
        self.history.add([self.event(time, what) for time, _, what in batch], [text.encode() for text in new])
        self.names = ends

    def weight(self, time, columns):
        """What the cheapest way to the instant weighs."""
        return IndexGraph(self.history, columns).costs[point(self.history, time)][0]


def write(name, lines):
    with open(name, "w") as file:
        file.write("\n".join(lines) + "\n")


def main():
    found = changes()
    numbers = {}  # of the names, by first appearance, a key before its value
    for _, _, what in found:
        if what[0].endswith("attr"):
            for text in what[2:]:
                numbers.setdefault(text, len(numbers))
    held, index = 0, Index(numbers)
    for run, (ends, asked) in enumerate(RUNS, 1):
        script, replies, handles = [], [], 0
        if held == 0:
            script.append("create 64 4 balanced")
            replies += ["ok create", "end"]
        for end in ends:
            batch = [change for change in found[held:] if change[0] < end]
            word = "append" if held else "load"
            script.append(f"{word} {len(batch)}")
            script += [f"{time} {line}" for time, line, _ in batch]
            held += len(batch)
            index.add(batch)
            replies += [f"ok {word} {len(batch)} {held} {batch[-1][0]}", "end"]
            for time, columns in asked[handles:] if end == ends[-1] else asked[:1]:
                handles += 1
                script.append(f"at {time} {columns}")
                replies += [f"ok at {handles} {index.weight(time, columns)}", "end"]
        for handle, (time, columns) in enumerate(asked, 1):
            lines = graph_at(found[:held], time).listing(columns, numbers)
            script.append(f"list {handle}")
            replies += [f"ok list {handle} {len(lines)}", *lines, "end"]
        write(f"{run}.script", script)
        write(f"{run}.replies", replies)


if __name__ == "__main__":
    main()
