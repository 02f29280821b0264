#!/usr/bin/env python3
"""Writes the scripts and replies of two runs from `../southern_women/attendance.csv` and the days of the events.

Two women who are at one event meet there: on its day a message goes from each woman that is there to each one with a
greater number, and its value names the event. The women are numbered as in `../southern_women`, where the source of the
facts is told. Each is a node from her first event on, with her name.

The first run makes the index and loads the history, the second asks for several days, with and without an event. The
replies are made here, from plain sets, and never by the program. What the cheapest way to a day weighs, and the sizes
of the records, come from the model of the index in `tests/lib`, which knows nothing of the program either.
"""
import csv
import os
import sys

HERE = os.path.dirname(os.path.abspath(__file__))
WOMEN = os.path.join(HERE, "..", "southern_women")
sys.dont_write_bytecode = True
sys.path[:0] = [WOMEN, os.path.join(HERE, "..", "..")]
from tests.lib.history import History, NODE, NODE_ATTR, key_order
from tests.lib.plans import IndexGraph, point
from make import DATES, day  # of the women

SIZE, ARITY, FUNCTION = 16, 4, "balanced"
# Each with its columns: days with an event and without one, the first day and the last, and days outside.
SINGLE = [(53, "st"), (54, "st"), (55, "st"), (98, "snt"), (98, "sn"), (102, "snet"), (260, "st"), (325, "snt"), (326, "st")]
SEVERAL = [("st", [54, 74, 98, 215, 259]), ("set", [60, 61, 62, 161, 161]), ("snt", [56, 325])]
NODES = [(3, 1), (3, 14), (5, 18)]  # a handle and a woman


class Facts:
    """Who comes first on which day, and who meets whom, with the script's lines and the model's index of them."""

    def __init__(self, attendance, women):
        self.numbers, self.lines, self.events, self.new = {}, [], [], []
        self.first, self.messages = {}, set()  # the day of each woman; (day, source, target, value)
        self.names = {number: name for name, number in women.items()}
        for event in sorted(DATES, key=day):
            there = sorted(women[name] for name, at in attendance if at == event)
            self.add_women([woman for woman in there if woman not in self.first], day(event))
            pairs = [(a, b) for a in there for b in there if a < b]
            for a, b in pairs:
                self.messages.add((day(event), a, b, f"event {event}"))
                self.add(day(event), f"msg {a} {b} event {event}", "msg", a, b, self.number(f"event {event}"))
        self.index = History(SIZE, ARITY, FUNCTION)
        self.index.add(self.events, self.new)

    def add(self, time, line, *event):
        self.lines.append(f"{time} {line}")
        self.events.append((time, *event))

    def number(self, text):
        """The number of a name, by its first appearance."""
        if text not in self.numbers:
            self.numbers[text] = len(self.numbers)
            self.new.append(text.encode())
        return self.numbers[text]

    def add_women(self, women, time):
        for woman in women:
            self.first[woman] = time
            self.add(time, f"+node {woman}", "+", (NODE, woman))
            key = self.number("name")
            value = self.number(self.names[woman])
            self.add(time, f"nset {woman} name {self.names[woman]}", NODE_ATTR, woman, key, None, value)

    def span(self):
        return self.events[0][0], self.events[-1][0]

    def women(self, time):
        return sorted(woman for woman, first in self.first.items() if first <= time)

    def told(self, time):
        """The messages of exactly a day, by their ends and the numbers of their values."""
        of_day = [(a, b, self.numbers[value], value) for at, a, b, value in self.messages if at == time]
        return [f"{a} {b} {value}" for a, b, _, value in sorted(of_day)]

    def listing(self, time, columns):
        lines = [f"node {woman}" for woman in self.women(time)]
        lines += [f"nattr {woman} name {self.names[woman]}" for woman in self.women(time) if "n" in columns]
        return lines + [f"msg {message}" for message in self.told(time) if "t" in columns]

    def counts(self, time, columns):
        women = len(self.women(time))
        numbers = [women, 0, women if "n" in columns else 0, 0] + ([len(self.told(time))] if "t" in columns else [])
        return " ".join(map(str, numbers))

    def weight(self, times, columns):
        """What the tree of these days weighs, and what each of them weighs alone, with the messages asked for."""
        graph = IndexGraph(self.index, columns)
        targets = [point(self.index, time) for time in times]
        heard = [self.index.heard([time])[1] if "t" in columns else 0 for time in times]
        singles = [graph.costs[target][0] + more for target, more in zip(targets, heard)]
        return graph.tree_weight(targets) + ("t" in columns) * self.index.heard(times)[1], singles


def write(name, lines):
    with open(os.path.join(HERE, name), "w", encoding="utf-8") as file:
        file.write("\n".join(lines) + "\n")


def first_run(facts):
    count = len(facts.lines)
    write("1.script", [f"create {SIZE} {ARITY} {FUNCTION}", f"load {count}", *facts.lines])
    write("1.replies", ["ok create", "end", f"ok load {count} {count} {facts.span()[1]}", "end"])


def second_run(facts):
    script, replies, handles = ["# Days with an event and without one, each with its meetings."], [], []

    def ask(command, *reply):
        script.append(command)
        replies.extend([*reply, "end"])

    first, last = facts.span()
    for time, columns in SINGLE:
        if first <= time <= last:
            handles.append((time, columns))
            ask(f"at {time} {columns}", f"ok at {len(handles)} {facts.weight([time], columns)[1][0]}")
        else:
            ask(f"at {time} {columns}", f"refused 7 out-of-range {first} {last}")
    for columns, times in SEVERAL:
        tree, singles = facts.weight(times, columns)
        given = [f"handle {len(handles) + i} {t} {one}" for i, (t, one) in enumerate(zip(times, singles), 1)]
        ask(f"several {columns} {' '.join(map(str, times))}", f"ok several {tree} {sum(singles)}", *given)
        handles += [(time, columns) for time in times]
    for handle, of_handle in enumerate(handles, 1):
        ask(f"counts {handle}", f"ok counts {handle} {facts.counts(*of_handle)}")
        lines = facts.listing(*of_handle)
        ask(f"list {handle}", f"ok list {handle} {len(lines)}", *lines)
    for handle, woman in NODES:
        time, columns = handles[handle - 1]
        ask(f"neighbours {handle} {woman}", f"ok neighbours {handle} {woman} 0")
        if woman not in facts.women(time):
            ask(f"node {handle} {woman}", f"ok node {handle} {woman} no")
        else:
            values = [f"attr name {facts.names[woman]}"] if "n" in columns else []
            ask(f"node {handle} {woman}", f"ok node {handle} {woman} yes 0", *values)
    sizes = sorted(facts.index.sizes.items(), key=key_order)
    count = len(facts.events)
    records = [f"record {key} {' '.join(map(str, of_key))}" for key, of_key in sizes]
    ask("tree", f"ok tree {SIZE} {ARITY} {FUNCTION} {count} {count // SIZE} {len(sizes)}", *records)
    ask("verify", f"ok verify sound {len(sizes)}")
    write("2.script", script)
    write("2.replies", replies)


def main():
    with open(os.path.join(WOMEN, "attendance.csv"), newline="", encoding="utf-8") as file:
        attendance = [(row["woman"], int(row["event"])) for row in csv.DictReader(file)]
    women = {}
    for name, _ in attendance:
        women.setdefault(name, len(women) + 1)
    facts = Facts(attendance, women)
    first_run(facts)
    second_run(facts)


if __name__ == "__main__":
    main()
