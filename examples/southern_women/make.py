#!/usr/bin/env python3
"""Writes the scripts and replies of two runs from `attendance.csv` and the dates of the events.

The facts: who of 18 women was at which of 14 social events, and the dates of the events, from
Davis, Gardner and Gardner, "Deep South" (1941), figure 3, as the package networkx ships the
attendance (`davis_southern_women_graph`). The figure has no year; days are counted in a year of
365 days.

The first run makes the index and loads the history, the second asks for it as of several days. The
replies are made here, from plain sets, and never by the program. What the cheapest way to a day weighs comes
from the model of the index in `tests/lib`, which knows nothing of the program either.
"""
import csv
import os
import sys
from datetime import date

sys.path.insert(0, os.path.join(os.path.dirname(os.path.abspath(__file__)), "..", ".."))
from tests.lib.history import EDGE, History, NODE
from tests.lib.plans import IndexGraph, point

DATES = {  # event: month, day
    1: (6, 27), 2: (3, 2), 3: (4, 12), 4: (9, 26), 5: (2, 25), 6: (5, 19), 7: (3, 15),
    8: (9, 16), 9: (4, 8), 10: (6, 10), 11: (2, 23), 12: (4, 7), 13: (11, 21), 14: (8, 3),
}
EVENT_NODE = 100  # the node of event e is 100 + e
ASKED = ["53 s", "54 s", "66 s", "103 s", "216 sne", "325 s", "326 s", "400 s"]


def day(event):
    month, of_month = DATES[event]
    return (date(2026, month, of_month) - date(2025, 12, 31)).days


def changes(attendance, women):
    """(day, line, kind, ids) in the order of the days: the event, who comes for the first time, who is there."""
    seen, found = set(), []
    for event in sorted(DATES, key=day):
        there = [women[w] for w, e in attendance if e == event]
        t = day(event)
        found.append((t, f"+node {EVENT_NODE + event}", ("node", EVENT_NODE + event)))
        for woman in sorted(there):
            if woman not in seen:
                seen.add(woman)
                found.append((t, f"+node {woman}", ("node", woman)))
        for woman in sorted(there):
            edge = 100 * woman + event
            found.append((t, f"+edge {edge} {woman} {EVENT_NODE + event} undir",
                          ("edge", edge, woman, EVENT_NODE + event)))
    return found


def index_of(batch):
    """The model's index of the batch."""
    history, events = History(16, 4, "intersection"), []
    for t, _, what in batch:
        element = (NODE, what[1]) if what[0] == "node" else (EDGE, *what[1:], 0)
        events.append((t, "+", element))
    history.add(events, [])
    return history


def weight(history, times, columns):
    """What the tree of these days weighs, and what the single plan of each of them weighs."""
    graph = IndexGraph(history, columns)
    targets = [point(history, t) for t in times]
    return graph.tree_weight(targets), [graph.costs[target][0] for target in targets]


def write(name, lines):
    with open(name, "w") as file:
        file.write("\n".join(lines) + "\n")


def main():
    with open("attendance.csv", newline="") as file:
        attendance = [(row["woman"], int(row["event"])) for row in csv.DictReader(file)]
    women = {}
    for name, _ in attendance:
        women.setdefault(name, len(women) + 1)

    batch = changes(attendance, women)
    first, last = batch[0][0], batch[-1][0]
    script = ["# Who was at which event, through one year: women 1 to 18, events 101 to 114."]
    script += [f"# {number} {name}" for name, number in women.items()]
    script += ["create 16 4 intersection"]
    script += [f"load {len(batch)}"] + [f"{t} {line}" for t, line, _ in batch]
    write("1.script", script)
    write("1.replies", ["ok create", "end", f"ok load {len(batch)} {len(batch)} {last}", "end"])

    script, replies, handles, index = ["# The graph as of several days."], [], [], index_of(batch)
    for asked in ASKED:
        script.append(f"at {asked}")
        t, columns = int(asked.split()[0]), asked.split()[1]
        if first <= t <= last:
            handles.append(t)
            replies += [f"ok at {len(handles)} {weight(index, [t], columns)[0]}", "end"]
        else:
            replies += [f"refused 7 out-of-range {first} {last}", "end"]
    # All of them once more, by one tree.
    tree, singles = weight(index, handles, "s")
    script.append(f"several s {' '.join(map(str, handles))}")
    replies.append(f"ok several {tree} {sum(singles)}")
    replies += [f"handle {len(handles) + 1 + i} {t} {single}" for i, (t, single) in enumerate(zip(handles, singles))]
    replies.append("end")
    handles += handles
    for handle, t in enumerate(handles, 1):
        script.append(f"list {handle}")
        there = [what for at, _, what in batch if at <= t]
        nodes = sorted(what[1] for what in there if what[0] == "node")
        edges = sorted(what[1:] for what in there if what[0] == "edge")
        replies.append(f"ok list {handle} {len(nodes) + len(edges)}")
        replies += [f"node {node}" for node in nodes]
        replies += [f"edge {edge} {src} {dst} undir" for edge, src, dst in edges]
        replies.append("end")
    script.append(f"list {len(handles) + 1}")
    replies += [f"refused 8 unknown-handle {len(handles) + 1}", "end"]
    write("2.script", script)
    write("2.replies", replies)


if __name__ == "__main__":
    main()
