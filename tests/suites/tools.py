"""Tests of tools/ and bench/ over the program.

What graphs are due is computed here from the rows of the files, instant by instant, and not by the tools.
"""
from __future__ import annotations

import csv
import gzip
import importlib
import importlib.machinery
import importlib.util
import io
import json
import os
import pty
import random
import re
import shutil
import signal
import subprocess
import sys
import traceback
import xml.etree.ElementTree as xml
from collections import Counter
from datetime import datetime, timezone
from html.parser import HTMLParser
from pathlib import Path
from typing import Any, Callable, Iterator, NamedTuple, Optional, Sequence, Union
from urllib.parse import unquote

ROOT = Path(__file__).resolve().parents[2]
sys.path[:0] = [str(ROOT / "tools"), str(ROOT / "python")]
sys.dont_write_bytecode = True
import deltagraph.changes
from deltagraph import Calendar, Counts, Graph, Store
from deltagraph.words import bytes_of, text_of
from history import History

LONGEST_DETAIL = 2000  # letters
SVG = "{http://www.w3.org/2000/svg}"
GRAPHML = "{http://graphml.graphdrawing.org/xmlns}"


class Tests:
    def __init__(self, built: str, folder: str) -> None:
        self.built, self.folder = os.path.abspath(built), Path(folder)
        self.passed = self.failed = 0

    def check(self, name: str, holds: bool, detail: object = "") -> None:
        if holds:
            self.passed += 1
        else:
            self.failed += 1
            print(f"{name}: {str(detail)[:LONGEST_DETAIL]}")

    def same(self, name: str, found: object, due: object) -> None:
        self.check(name, found == due, f"found {found!r}, and not {due!r}")

    def file(self, name: str, text: Union[str, bytes]) -> str:
        path = self.folder / name
        path.write_bytes(bytes_of(text) if isinstance(text, str) else text)
        return str(path)

    def one_line(self, name: str, ran: subprocess.CompletedProcess[bytes], status: int, *parts: str) -> None:
        """A tool ended with a status and one line on standard error that has these parts."""
        told = text_of(ran.stderr)
        fits = told.count("\n") == 1 and "Traceback" not in told and all(part in told for part in parts)
        self.check(name, ran.returncode == status and fits, (ran.returncode, told))

    def run(self, tool: str, *words: str, script: bytes = b"") -> subprocess.CompletedProcess[bytes]:
        # The time zone of the machine has no say.
        command, environment = self.command(tool, *words)
        return subprocess.run(command, input=script, capture_output=True, env=environment, cwd=self.folder)

    def command(self, tool: str, *words: str) -> tuple[list[str], dict[str, str]]:
        environment = {**os.environ, "DELTAGRAPH": self.built, "PYTHONDONTWRITEBYTECODE": "1", "TZ": "JST-9"}
        return [sys.executable, str(ROOT / tool), *words], environment

    def shell(self, line: str, tool: str, *words: str) -> subprocess.CompletedProcess[bytes]:
        """A tool in a line of bash, as `"$@" > /dev/full`."""
        command, environment = self.command(tool, *words)
        bash = ["bash", "-c", line, "bash", *command]
        return subprocess.run(bash, capture_output=True, env=environment, cwd=self.folder, stdin=subprocess.DEVNULL)

    def load(self, index: str, script: bytes) -> bytes:
        """The replies of the program to a script over an index that is made for it."""
        (self.folder / index).unlink(missing_ok=True)
        return self.replies(index, script)

    def replies(self, index: str, script: bytes) -> bytes:
        return subprocess.run([self.built, index], input=script, capture_output=True, cwd=self.folder).stdout

    def store(self, index: str) -> Store:
        return Store(self.folder / index, self.built)


# Edges, and the graph that their rows make at an instant.


class Row(NamedTuple):
    source: str
    target: str
    begin: int
    end: Optional[int]
    values: dict[str, str]


def holds(row: Row, time: int) -> bool:
    return row.begin <= time and (row.end is None or time < row.end)


def due_edges(rows: Sequence[Row], time: int, repeat: str, undirected: bool) -> Counter[Any]:
    """The edges as (source, target, values), by the rows that hold."""
    if repeat == "new":
        return Counter((row.source, row.target, frozenset(row.values.items())) for row in rows if holds(row, time))
    by_ends: dict[Any, list[Row]] = {}
    for row in rows:
        ends = tuple(sorted((row.source, row.target))) if undirected else (row.source, row.target)
        by_ends.setdefault(ends, []).append(row)
    found: Counter[Any] = Counter()
    for of_ends in by_ends.values():
        if any(holds(row, time) for row in of_ends):
            values = due_values(of_ends, time, repeat)
            first = min(of_ends, key=lambda row: row.begin)
            found[first.source, first.target, frozenset(values.items())] += 1
    return found


def due_values(rows: Sequence[Row], time: int, repeat: str) -> dict[str, str]:
    """The values of an edge of some rows, of which one holds."""
    begins = sorted({row.begin for row in rows if row.begin <= time})
    # It goes on where a row that began before ends no earlier than it.
    since = max(b for b in begins if not any(row.begin < b and (row.end is None or row.end >= b) for row in rows))
    ordered = sorted((row for row in rows if since <= row.begin <= time), key=lambda row: row.begin)
    if repeat == "ignore":
        return ordered[0].values
    merged = {key: value for row in ordered for key, value in row.values.items()}
    return {**merged, "count": str(sum(holds(row, time) for row in rows))}


def due_nodes(rows: Sequence[Row], time: int) -> set[str]:
    return {end for row in rows if row.begin <= time for end in (row.source, row.target)}


def read_edges(graph: Graph) -> Counter[Any]:
    return Counter(
        (graph.name(edge.source), graph.name(edge.target), frozenset(graph.edge_values[edge.id].items()))
        for edge in graph.edges.values()
    )


def due_queries(graph: Graph, node: int) -> tuple[Counts, list[tuple[str, int, int]]]:
    """The counts of a listed graph, and the edges at a node."""
    values = [sum(len(of_node) for of_node in graph.nodes.values())]
    values.append(sum(len(of_edge) for of_edge in graph.edge_values.values()))
    found = []
    for number, edge in graph.edges.items():
        if node in (edge.source, edge.target):
            side = "both" if not edge.directed else "out" if edge.source == node else "in"
            found.append((side, number, edge.target if edge.source == node else edge.source))
    return Counts(len(graph.nodes), len(graph.edges), *values), found


def random_rows(rng: random.Random, ends: bool, weights: bool) -> list[Row]:
    names = ["a", "b", "Ada", "x y" if rng.random() < 0.5 else "z", "é"]
    rows = []
    for _ in range(rng.choice([1, 3, 10, 40])):
        begin = rng.randrange(20)
        end = begin + rng.randrange(1, 8) if ends and rng.random() < 0.8 else None
        values = {"weight": rng.choice(["1", "2.5"])} if weights and rng.random() < 0.8 else {}
        rows.append(Row(rng.choice(names), rng.choice(names), begin, end, values))
    return rows


def file_of(rng: random.Random, rows: Sequence[Row], columns: Sequence[str], header: bool) -> str:
    lines = ["# a comment"] if rng.random() < 0.5 else []
    out = io.StringIO()
    table = csv.writer(out, lineterminator=rng.choice(["\n", "\r\n"]))
    if header:
        table.writerow(columns)
    for row in rows:
        of_row = {
            "source": row.source,
            "target": row.target,
            "time": str(row.begin),
            "end": "" if row.end is None else str(row.end),
            "weight": row.values.get("weight", ""),
        }
        table.writerow([of_row[column] for column in columns])
        if rng.random() < 0.1:
            out.write("% another\n\n")
    return "".join(line + "\n" for line in lines) + out.getvalue()


def convert_random(tests: Tests, seed: int) -> None:
    rng = random.Random(seed)
    ends, weights = rng.random() < 0.6, rng.random() < 0.5
    repeat, undirected, header = rng.choice(["new", "ignore", "count"]), rng.random() < 0.3, rng.random() < 0.5
    rows = random_rows(rng, ends, weights)
    columns = ["source", "target", "time"] + ["end"] * ends + ["weight"] * weights
    rng.shuffle(columns)
    path = tests.file("edges.csv", file_of(rng, rows, columns, header))
    words = ["--header"] if header else ["--columns", ",".join(columns)]
    words += ["--undirected"] * undirected + ["--repeat", repeat, "--batch", str(rng.choice([1, 5, 1000]))]
    words += ["--comments", "%#"]
    ran = tests.run("tools/edges2script", *words, "--create", "4", "2", "union", path)
    replies = tests.load("index", ran.stdout)
    name = f"random edges, seed {seed}"
    tests.check(name, ran.returncode == 0 and b"refused" not in replies, (ran.stderr, replies))
    with tests.store("index") as store:
        first, last = History(store).span()
        for time in range(first, last + 1):
            snapshot = store.at(time, "sne")
            graph = snapshot.to_dicts()
            asked = rng.choice(sorted(graph.nodes))
            found = read_edges(graph), {graph.name(node) for node in graph.nodes}
            due = due_edges(rows, time, repeat, undirected), due_nodes(rows, time)
            queried = snapshot.counts(), snapshot.neighbours(asked)
            if (found, queried) != (due, due_queries(graph, asked)):
                tests.same(f"{name}, instant {time}", (found, queried), (due, due_queries(graph, asked)))
                return
        directions = {edge.directed for edge in graph.edges.values()}
        tests.check(f"{name}, direction", directions <= {not undirected}, directions)


def convert_many(tests: Tests) -> None:
    for seed in range(25):
        convert_random(tests, seed)


# Forms, times and tables, each with the script that is due.

A_TO_B = ["+node 1", "nset 1 name a", "+node 2", "nset 2 name b", "+edge 1 1 2 dir"]


def at(time: int, lines: Sequence[str]) -> list[str]:
    return [f"{time} {line}" for line in lines]


def noted(clock: str) -> list[str]:
    """A_TO_B with a note of what instants are at its first node."""
    return [*A_TO_B[:2], f"nset 1 clock {clock}", *A_TO_B[2:]]


IN_SECONDS = "seconds since 1970 times 1 and 0 more"


def loop_of(name: str) -> list[str]:
    return ["5 +node 1", f"5 nset 1 name {name}", "5 +edge 1 1 1 dir"]


def sent(time: int, *values: str) -> list[str]:
    """The messages with these values from the first node to the second one."""
    return [f"{time} msg 1 2 {value}" for value in values]


MAILS = ["--columns", "source,target,time,subject", "--messages", "subject"]


SCRIPTS: list[tuple[str, list[str], Union[str, bytes], list[str]]] = [
    ("white space", [], "a b 5\n", at(5, A_TO_B)),
    ("tabs and spaces, with a byte order mark", [], "\ufeff a\t b  5\r\n", at(5, A_TO_B)),
    ("commas", [], "a, b,5", at(5, A_TO_B)),
    ("semicolons", ["--separator", "semicolon"], "a;b;5", at(5, A_TO_B)),
    ("a quoted field", [], '"a","b","5"', at(5, A_TO_B)),
    (
        "names with a space by tabs",
        ["--separator", "tab"],
        "a x\ta x\t5",
        ["5 +node 1", "5 nset 1 name a x", "5 +edge 1 1 1 dir"],
    ),
    ("the order of time", [], "b c 7\na b 5\n", at(5, A_TO_B) + at(7, ["+node 3", "nset 3 name c", "+edge 2 2 3 dir"])),
    ("KONECT", ["--form", "konect"], "% sym\na b -1 5\n", at(5, A_TO_B + ["eset 1 weight -1"])),
    ("a column that is skipped", ["--columns", "source,_,target,time"], "a 9 b 5\n", at(5, A_TO_B)),
    (
        "SocioPatterns, with classes",
        ["--columns", "time,source,target,source.class,target.class", "--contact", "20"],
        "20 a b X Y\n40 a b X Y\n80 b a Y X\n",
        ["20 +node 1", "20 nset 1 name a", "20 nset 1 class X", "20 +node 2", "20 nset 2 name b", "20 nset 2 class Y"]
        + ["20 +edge 1 1 2 undir", "60 -edge 1", "80 +edge 1 1 2 undir", "100 -edge 1"],
    ),
    (
        "ids that are kept",
        ["--keep-ids"],
        "07 18446744073709551615 5\n",
        ["5 +node 7", "5 +node 18446744073709551615", "5 +edge 1 7 18446744073709551615 dir"],
    ),
    ("another key for the names", ["--name", "label"], "a a 5", ["5 +node 1", "5 nset 1 label a", "5 +edge 1 1 1 dir"]),
    (
        "values are removed before their edge",
        ["--columns", "source,target,time,end,weight"],
        "a b 5 7 x\n",
        at(5, A_TO_B + ["eset 1 weight x"]) + at(7, ["edel 1 weight", "-edge 1"]),
    ),
    (
        "rows that follow on each other are one edge, as it began",
        ["--columns", "source,target,time,end,weight", "--repeat", "ignore"],
        "a b 5 7 x\na b 7 9 y\n",
        at(5, A_TO_B + ["eset 1 weight x"]) + at(9, ["edel 1 weight", "-edge 1"]),
    ),
    (
        "rows that follow on each other are counted",
        ["--columns", "source,target,time,end,weight", "--repeat", "count"],
        "a b 5 7 x\na b 7 9 y\na b 8 9 y\n",
        at(5, A_TO_B + ["eset 1 weight x", "eset 1 count 1"])
        + ["7 eset 1 weight y", "8 eset 1 count 2"]
        + at(9, ["edel 1 weight", "edel 1 count", "-edge 1"]),
    ),
    ("real numbers", ["--scale", "1000"], "a b 1.0059\n", at(1005, A_TO_B)),
    ("a scale that is a fraction", ["--scale", "1/60"], "a b 3e2\n", at(5, A_TO_B)),
    ("a shift", ["--shift", "-1000"], "a b 1005\n", at(1005 - 1000, A_TO_B)),
    ("a year", ["--times", "iso"], "a,b,1971\n", at(31536000, noted(IN_SECONDS))),
    ("a month", ["--times", "iso"], "a,b,1970-02\n", at(2678400, noted(IN_SECONDS))),
    ("a day", ["--times", "iso"], "a,b,1970-01-02\n", at(86400, noted(IN_SECONDS))),
    ("a day in another form", ["--times", "%d/%m/%Y"], "a,b,02/01/1970\n", at(86400, noted(IN_SECONDS))),
    ("a moment in another form", ["--times", "%d.%m.%y %H:%M"], "a,b,02.01.70 00:01\n", at(86460, noted(IN_SECONDS))),
    ("a moment in another zone", ["--times", "iso"], "a,b,1970-01-01T01:00:05+01:00\n", at(5, noted(IN_SECONDS))),
    (
        "a moment in UTC",
        ["--times", "iso", "--scale", "10"],
        "a,b,1970-01-01 00:00:00.500Z\n",
        at(5, noted("seconds since 1970 times 10 and 0 more")),
    ),
    (
        "dates before 1970",
        ["--times", "iso"],
        "a,b,1969-12-30T23:59:59\n",
        at(86399, noted("seconds since 1970 times 1 and 172800 more")),
    ),
    ("without a note of the clock", ["--times", "iso", "--no-clock"], "a,b,1969-12-31\n", at(0, A_TO_B)),
    (
        "what ends when it begins",
        ["--columns", "source,target,time,end"],
        "c d 5 5\na b 5 6\n",
        at(5, A_TO_B) + ["6 -edge 1"],
    ),
    ("SNAP", ["--form", "snap"], "# FromNodeId\tToNodeId\na\tb\t5\n", at(5, A_TO_B)),
    ("SNAP with weights", ["--form", "snap"], "a,b,-9,5\n", at(5, A_TO_B + ["eset 1 weight -9"])),
    (
        "SocioPatterns as it comes",
        ["--form", "sociopatterns"],
        "20\ta\tb\n40\tb\ta\n",
        at(20, A_TO_B[:4] + ["+edge 1 1 2 undir"]) + ["60 -edge 1"],
    ),
    ("a name that begins with a comment's sign", [], "#a,#a,5\n", loop_of("#a")),
    ("comments that are asked for", ["--comments", "#%"], "# x\na,b,5\n % y\n", at(5, A_TO_B)),
    ("Latin-1", ["--encoding", "latin-1"], b"M\xfcller,M\xfcller,5\n", loop_of("Müller")),
    ("bytes that are kept", ["--encoding", "bytes"], b"M\xfcller,M\xfcller,5\n", loop_of("M\udcfcller")),
    ("UTF-16", ["--encoding", "utf-16"], "ü,ü,5\n".encode("utf-16"), loop_of("ü")),
    ("a line feed in a quoted field", ["--join-lines", "--separator", "comma"], '"a\nb","a\nb",5\n', loop_of("a b")),
    ("a line feed in a field that is skipped", ["--columns", "source,_,target,time"], 'a,"x\ny",b,5\n', at(5, A_TO_B)),
    ("quotes that are letters", ["--no-quotes"], '"a,"a,5\n', loop_of('"a')),
    (
        "a header with names of its own",
        ["--source", "from", "--target", "to", "--time", "date", "--times", "iso", "--weight", "edge weight"],
        "to,from,edge weight,date\nb,a,2.5,1970-01-02\n",
        at(86400, noted(IN_SECONDS) + ["eset 1 weight 2.5"]),
    ),
    (
        "a weight beside other values",
        ["--weight", "w"],
        "source,target,time,w,kind\na,b,5,2.5,x\n",
        at(5, A_TO_B + ["eset 1 weight 2.5", "eset 1 kind x"]),
    ),
    (
        "values that are chosen",
        ["--values", "kind,source.team=the team"],
        "source,target,time,kind,other,the team\na,b,5,x,y,z\n",
        at(5, A_TO_B[:2] + ["nset 1 team z"] + A_TO_B[2:] + ["eset 1 kind x"]),
    ),
    (
        "an end that belongs to it",
        ["--columns", "source,target,time,end", "--closed"],
        "a b 5 7\n",
        at(5, A_TO_B) + ["8 -edge 1"],
    ),
    ("whole numbers with a point", [], "a,b,5.0\n", at(5, A_TO_B)),
    ("what is later", ["--after", "5"], "a b 5\nb c 7\n", ["7 +node 3", "7 nset 3 name c", "7 +edge 2 2 3 dir"]),
    ("messages without a value", ["--messages"], "a b 5\n", at(5, A_TO_B[:4]) + sent(5, "")),
    (
        "messages, of which equal ones are written as they come",
        MAILS,
        'a,b,5,"x, y,  z"\nb,a,5,\na,b,5,"x, y,  z"\na,b,7," \'x\' "\n',
        at(5, A_TO_B[:4]) + sent(5, "x, y,  z") + ["5 msg 2 1 "] + sent(5, "x, y,  z") + sent(7, " 'x' "),
    ),
    (
        "messages in no order",
        ["--columns", "time,source,target,size,text,source.team", "--messages", "text", "--batch", "3"],
        "7 b c 1 x red\n5 a b 2 y blue\n",
        at(5, A_TO_B[:2] + ["nset 1 team blue"] + A_TO_B[2:4])
        + sent(5, "y")
        + at(7, ["nset 2 team red", "+node 3", "nset 3 name c", "msg 2 3 x"]),
    ),
    (
        "messages of a table with names of its own",
        ["--source", "from", "--target", "to", "--time", "on", "--times", "iso", "--messages", "what was said"],
        'from,to,on,what was said,size (KB)\na,b,1970-01-02,"Yes, no",4\n',
        at(86400, noted(IN_SECONDS)[:5]) + sent(86400, "Yes, no"),
    ),
    (
        "a header that a message's column asks for",
        ["--messages", "x"],
        "source,target,time,x\na,b,5,y\n",
        at(5, A_TO_B[:4]) + sent(5, "y"),
    ),
    (
        "SocioPatterns as messages",
        ["--form", "sociopatterns", "--messages"],
        "20 a b X Y\n40 a b X Y\n",
        at(20, A_TO_B[:2] + ["nset 1 class X"] + A_TO_B[2:4] + ["nset 2 class Y"]) + sent(20, "") + sent(40, ""),
    ),
    ("payments", ["--form", "konect", "--messages", "weight"], "a b 2.5 5\n", at(5, A_TO_B[:4]) + sent(5, "2.5")),
    ("a message to itself", ["--messages", "--keep-ids"], "7 7 5\n", ["5 +node 7", "5 msg 7 7 "]),
    (
        "messages that are later",
        ["--after", "5", "--messages"],
        "a b 5\nb c 7\n",
        ["7 +node 3", "7 nset 3 name c", "7 msg 2 3 "],
    ),
    (
        "messages of a time that is spread",
        ["--spread", "3", "--messages"],
        "a b 5\n",
        at(15, noted("times of the file times 1 and 0 more, spread over 3")[:5]) + sent(15, ""),
    ),
]

TABLES: list[tuple[str, list[str], str, str, list[str]]] = [
    (
        "values of nodes",
        [],
        "id,field\na,logic\nb,\nc,sets\n",
        "a b 5\n",
        at(5, A_TO_B[:2] + ["nset 1 field logic"] + A_TO_B[2:]),
    ),
    (
        "values through time",
        [],
        "id,time,version\na,3,1.0\na,9,2.0\n",
        "a b 5\n",
        ["3 +node 1", "3 nset 1 name a", "3 nset 1 version 1.0", *at(5, A_TO_B[2:]), "9 nset 1 version 2.0"],
    ),
    (
        "edges without times",
        ["--columns", "source,target"],
        "id,time\nb,3\na,5\n",
        "a b\n",
        ["3 +node 1", "3 nset 1 name b", "5 +node 2", "5 nset 2 name a", "5 +edge 1 2 1 dir"],
    ),
    (
        "an edge without a time of which one end has one",
        ["--columns", "source,target"],
        "id,time\nb,3\na,5\n",
        "a c\n",
        [
            "3 +node 1",
            "3 nset 1 name b",
            "5 +node 2",
            "5 nset 2 name a",
            "5 +node 3",
            "5 nset 3 name c",
            "5 +edge 1 2 3 dir",
        ],
    ),
    (
        "edges without times that have no ends in the table",
        ["--columns", "source,target", "--skip-untimed"],
        "id,time\nb,3\n",
        "a c\n",
        ["3 +node 1", "3 nset 1 name b"],
    ),
    (
        "messages between nodes of a table, one of them without a time",
        ["--columns", "source,target,time,subject", "--messages", "subject"],
        "id,time,team\na,3,red\na,9,blue\nb,,green\n",
        "a,b,,x\nb,a,5,y\n",
        ["3 +node 1", "3 nset 1 name a", "3 nset 1 team red", "3 +node 2", "3 nset 2 name b", "3 nset 2 team green"]
        + ["3 msg 1 2 x", "5 msg 2 1 y", "9 nset 1 team blue"],
    ),
    (
        "a table whose header is skipped",
        ["--node-columns", "id,time", "--node-header"],
        "what,when\nb,3\n",
        "b b 5\n",
        ["3 +node 1", "3 nset 1 name b", "5 +edge 1 1 1 dir"],
    ),
    (
        "a table whose columns are named",
        ["--node-columns", "_,id,time"],
        "7,b,3\n",
        "a b 5\n",
        ["3 +node 1", "3 nset 1 name b", "5 +node 2", "5 nset 2 name a", "5 +edge 1 2 1 dir"],
    ),
]

WRONG: list[tuple[str, list[str], Union[str, bytes], str]] = [
    ("no whole number", ["--comments", "#"], "# x\na b 5\na b 5.5\n", "edges:3: '5.5' is no whole number"),
    ("no number", ["--scale", "1"], "a b x\n", "edges:1: 'x' is no number"),
    ("no date", ["--times", "iso"], "a b 1970-02-30\n", "edges:1: '1970-02-30' is no date"),
    ("a negative time", [], "a b 5\na b -5\n", "edges:2: the instant -5 is not from 0 to 2^63-1"),
    ("a time that is too late", [], "a b 9223372036854775808\n", "edges:1: the instant 9223372036854775808"),
    ("a contact that ends too late", ["--contact", "9"], "a b 9223372036854775800\n", "edges:1: the instant"),
    (
        "an end before its beginning",
        ["--columns", "source,target,time,end"],
        "a b 5 4\n",
        "edges:1: the edge ends before",
    ),
    ("too few fields", [], "a b 5\na b\n", "edges:2: 2 fields, and 3 columns"),
    ("too many fields", [], "a b 5 6\n", "edges:1: 4 fields, and 3 columns"),
    ("a node without a text", [], "a,,5\n", "edges:1: a node without a text"),
    ("a text that is too long", [], f"{'a' * 1025} b 5\n", "edges:1: a text of more than 1024 bytes"),
    ("a quote that does not end", [], 'a,"b,5\n', "edges:1: a quoted field is wrong"),
    ("a key with a space", ["--header"], "source,target,time,a key\n", "edges:1: 'a key' is no key"),
    ("a key that is too long", ["--header"], f"source,target,time,{'k' * 65}\n", "is no key"),
    ("a column that is missing", ["--header"], "source,to,time\n", "edges:1: no column is named target"),
    ("two columns of one name", ["--header"], "source,target,time,w,w\n", "edges:1: two columns are named w"),
    ("an id that is no number", ["--keep-ids"], "a 1 5\n", "edges:1: 'a' is no id"),
    (
        "an id that is too large",
        ["--keep-ids"],
        "1 18446744073709551616 5\n",
        "edges:1: '18446744073709551616' is no id",
    ),
    ("the key of the names", ["--columns", "source,target,time,source.name"], "a b 5 x\n", "the key name is that of"),
    ("the key of counts", ["--columns", "source,target,time,count", "--repeat", "count"], "a b 5 x\n", "the key count"),
    (
        "an edge without a time",
        ["--columns", "source,target"],
        "a b\n",
        "edges:1: neither the edge nor its ends have a time",
    ),
    (
        "times in a column of another name",
        ["--header"],
        "source,target,start,end\na,b,1,2\n",
        "edges:2: no column is named time: there are source, target, start, end (--time start)",
    ),
    ("a date that is no ISO 8601", ["--times", "iso"], "a,b,01/02/2015\n", "(--times '%d/%m/%Y', or '%m/%d/%Y'?)"),
    ("a date and no word on it", [], "a,b,1.2.15\n", "'1.2.15' is no whole number (--times '%d.%m.%Y'"),
    ("a date of another form", ["--times", "%Y"], "a,b,x\n", "edges:1: 'x' is no date of the form '%Y'"),
    ("a carriage return", [], "a\rb,b,5\n", "edges:1: a carriage return within a text"),
    (
        "a comment that is not asked for",
        [],
        "# FromNodeId ToNodeId\na b 5\n",
        "edges:1: 'ToNodeId' is no whole number; a comment?",
    ),
    (
        "a comment of more fields",
        [],
        "a b 5\n% sym of 3 and 4\n",
        "edges:2: 6 fields, and 3 columns (source,target,time); a comment? (--comments '%')",
    ),
    ("a line feed", ["--separator", "comma"], '"a\nb",b,5\n', "edges:1: a line feed within a text (--join-lines"),
    (
        "Latin-1 that is not told",
        [],
        b"a,b,5\nM\xfcller,b,5\n",
        "edges:2: a byte that is not in utf-8 (--encoding latin-1",
    ),
    (
        "UTF-16 that is not told",
        [],
        "a,b,5\n".encode("utf-16"),
        "edges:1: a byte that is not in utf-8 (--encoding utf-16)",
    ),
    ("tabs", ["--separator", "comma"], "a b\tc d\t5\n", "--separator tab"),
    (
        "tabs, and names with spaces",
        [],
        "a b\tc d\t5\n",
        "edges:1: 5 fields, and 3 columns (source,target,time); parted",
    ),
    (
        "semicolons that are not told",
        [],
        "a;b;5\n",
        "edges:1: 1 fields, and 3 columns (source,target,time); parted otherwise? (--separator semicolon)",
    ),
    ("a decimal comma", ["--separator", "tab", "--scale", "1"], "a\tb\t1,5\n", "'1,5' is no number (a point is wanted"),
    (
        "a header that is not told",
        [],
        "from,to,when\na,b,5\n",
        "edges:1: 'when' is no whole number; names of columns? (--header)",
    ),
    ("words for what times are", ["--time", "iso"], "source,target,when\na,b,5\n", "edges:1: no column is named iso"),
    ("a weight that is not there", ["--weight", "w"], "source,target,time\na,b,5\n", "edges:1: no column is named w"),
    (
        "the key of the clock",
        ["--times", "iso", "--columns", "source,target,time,source.clock"],
        "a,b,1970,x\n",
        "the key clock tells what instants are (--no-clock)",
    ),
    ("a column that is no key", ["--header"], "source,target,time,edge weight\n", "'edge weight' is no key"),
    ("a date without dashes", ["--times", "iso"], "a,b,20200101\n", "edges:1: '20200101' is no date"),
    ("a week", ["--times", "iso"], "a,b,2020-W05-1\n", "edges:1: '2020-W05-1' is no date"),
    ("a leap second", ["--times", "iso"], "a,b,2016-12-31T23:59:60Z\n", "is no date"),
    ("no JSON", ["--form", "jsonl"], '{"source": "a"\n', "edges:1: no object of JSON"),
    ("JSON that is too deep", ["--form", "jsonl"], "[" * 100_000 + "\n", "edges:1: no object of JSON"),
    (
        "a list in JSON",
        ["--form", "jsonl"],
        '{"source":"a","target":"b","time":5,"tags":[1]}\n',
        "the value of tags is no text",
    ),
    ("no XML", ["--form", "gexf"], "<gexf>", "edges: no XML"),
    ("leaves that are too small", ["--create", "1", "4", "union"], "a b 5\n", "--create is 2 to 65536"),
    ("no function", ["--create", "4", "4", "foo"], "a b 5\n", "one of intersection, union, balanced"),
    ("no encoding", ["--encoding", "latin-99"], "a b 5\n", "is no encoding"),
    (
        "a message with a column end",
        ["--columns", "source,target,time,end", "--messages="],
        "a b 5 6\n",
        "--columns: a message has no column end",
    ),
    (
        "a message with an end",
        ["--form", "jsonl", "--messages="],
        '{"source":"a","target":"b","time":5,"end":6}\n',
        "edges:1: a message has no end",
    ),
    ("a value that is too long", MAILS, f"a b 5 {'x' * 1025}\n", "edges:1: a text of more than 1024 bytes"),
    ("a value with a line feed", MAILS, 'a,b,5,"x\ny"\n', "edges:1: a line feed within a text (--join-lines"),
    ("a value with a carriage return", MAILS, "a,b,5,x\ry\n", "edges:1: a carriage return within a text"),
    (
        "a message's column that is not there",
        ["--header", "--messages", "x"],
        "source,target,time\n",
        "edges:1: no column is named x",
    ),
    (
        "a message's column that a form has with more fields",
        ["--form", "snap", "--messages", "weight"],
        "a b 5\n",
        "edges:1: no column is named weight",
    ),
    (
        "a message without a time",
        ["--columns", "source,target", "--messages="],
        "a b\n",
        "edges:1: neither the message nor its ends have a time",
    ),
    ("a value of a message's own", ["--messages=", "--values", "w=kind"], "a b 5\n", "does not go with --values w"),
    ("messages that are contacts", ["--messages=", "--contact", "20"], "a b 5\n", "does not go with --contact"),
    ("messages that are counted", ["--messages=", "--repeat", "count"], "a b 5\n", "does not go with --repeat"),
    ("messages without a direction", ["--messages=", "--undirected"], "a b 5\n", "does not go with --undirected"),
    ("messages that last", ["--messages=", "--closed"], "a b 5\n", "does not go with --closed"),
    ("messages that end", ["--messages=", "--end", "until"], "a b 5\n", "does not go with --end"),
    ("messages with a weight", ["--messages=", "--weight", "w"], "a b 5\n", "does not go with --weight"),
]


def convert_forms(tests: Tests) -> None:
    for name, words, text, due in SCRIPTS:
        ran = tests.run("tools/edges2script", *words, tests.file("edges", text))
        tests.same(name, changes_of(ran), due)
    for name, words, table, text, due in TABLES:
        files = [tests.file("edges", text), "--nodes", tests.file("nodes", table)]
        tests.same(name, changes_of(tests.run("tools/edges2script", *words, *files)), due)
    for name, words, text, reason in WRONG:
        tests.file("edges", text)
        ran = tests.run("tools/edges2script", *words, "edges")
        found = ran.returncode, ran.stdout, text_of(ran.stderr)
        tests.check(name, found[:2] == (2, b"") and reason in found[2], found)
    for words in ([], ["--messages"]):
        ran = tests.run("tools/edges2script", *words)
        tests.check(f"no file {words}", ran.returncode == 2 and b"required: EDGES" in ran.stderr, ran)
    missing = tests.run("tools/edges2script", "nowhere")
    tests.check("a file that is not there", missing.returncode == 2 and b"nowhere: No such file" in missing.stderr)
    (tests.folder / "edges.gz").write_bytes(gzip.compress(b"a b 5\n"))
    tests.same("a packed file", changes_of(tests.run("tools/edges2script", "edges.gz")), at(5, A_TO_B))
    tests.same("standard input", changes_of(tests.run("tools/edges2script", "-", script=b"a b 5\n")), at(5, A_TO_B))
    shifted = tests.run("tools/edges2script", "--times", "iso", tests.file("edges", "a b 1969-12-30\n"))
    tests.same(
        "a shift is told", shifted.stdout.split(b"\n")[0], b"# Times are seconds since 1970 times 1 and 172800 more."
    )


def changes_of(ran: subprocess.CompletedProcess[bytes]) -> list[str]:
    """The changes of a script, or what went wrong."""
    if ran.returncode:
        return [text_of(ran.stderr)]
    lines = text_of(ran.stdout).split("\n")[:-1]
    return [line for line in lines if re.match("[0-9]", line)]


def convert_batches(tests: Tests) -> None:
    cut = [len(batch) for batch in deltagraph.changes.batches((f"{t} x" for t in [1, 1, 2, 2, 2, 3, 4, 4]), 3)]
    tests.same("batches end between instants", cut, [2, 3, 3])
    longest, deltagraph.changes.LARGEST_BATCH = deltagraph.changes.LARGEST_BATCH, 2
    try:
        list(deltagraph.changes.batches(["1 x"] * 3, 2))
        tests.check("an instant that fits in no batch", False)
    except ValueError:
        tests.check("an instant that fits in no batch", True)
    deltagraph.changes.LARGEST_BATCH = longest
    rng = random.Random(1)
    lines = [f"n{rng.randrange(30)} n{rng.randrange(30)} {i // 3}\n" for i in range(300)]
    whole = tests.run("tools/edges2script", "--batch", "50", tests.file("edges", "".join(lines)))
    replies = tests.load("index", whole.stdout)
    tests.check("many batches", replies.count(b"\nok append") > 5 and b"refused" not in replies, replies)
    front = tests.run("tools/edges2script", tests.file("front", "".join(lines[:150])))
    rest = tests.run("tools/edges2script", "--after", "49", str(tests.folder / "edges"))
    tests.load("parts", front.stdout)
    tests.replies("parts", rest.stdout)
    with tests.store("index") as one, tests.store("parts") as other:
        _, last = History(one).span()
        tests.same("what is later is appended", other.at(last, "sne").to_dicts(), one.at(last, "sne").to_dicts())


# Snapshots.

ODD = [
    "plain",
    'with "quotes"',
    "back\\slash\\",
    'both \\" of <them> & more',
    "ü, é; 漢",
    "  spaces  ",
    "node",
    "a\tb",
    "",
]


def odd_history(tests: Tests, mixed: bool) -> tuple[dict[int, str], dict[int, tuple[int, int, str]]]:
    """Loads nodes with odd names and edges with odd values into `index`, and gives both."""
    names = dict(enumerate(ODD, 1))
    edges = {10 + i: (i, i % len(ODD) + 1, ODD[-i]) for i in names}
    lines = [f"5 +node {i}" for i in names] + [f"5 nset {i} name {text}" for i, text in names.items()]
    for edge, (source, target, text) in edges.items():
        lines += [f"5 +edge {edge} {source} {target} {'undir' if mixed and edge % 2 else 'dir'}"]
        lines += [f"5 eset {edge} label {text}", f"5 eset {edge} weight {edge}.5"]
    script = f"create 16 4 balanced\nload {len(lines)}\n" + "".join(line + "\n" for line in lines)
    replies = tests.load("index", script.encode())
    tests.check("odd texts are loaded", replies.startswith(b"ok create\nend\nok load"), replies)
    return names, edges


def snapshots(tests: Tests) -> None:
    for mixed in (False, True):
        names, edges = odd_history(tests, mixed)
        kind = "with edges of both kinds" if mixed else "directed"
        due_edges_of = sorted((str(s), str(t), text, f"{e}.5") for e, (s, t, text) in edges.items())
        graphml = tests.run("tools/snapshot", "index", "last").stdout
        found = graphml_of(graphml)
        tests.same(f"GraphML, {kind}: nodes", found[0], {str(node): text for node, text in names.items()})
        tests.same(f"GraphML, {kind}: edges", found[1], due_edges_of)
        apart = graphml.count(b'directed="false"')
        tests.same(f"GraphML, {kind}: directions", apart, sum(edge % 2 for edge in edges) if mixed else 0)
        if not mixed:
            read_by_networkx(tests, names, edges)
        dot = tests.run("tools/snapshot", "index", "5", "--format", "dot").stdout
        found = dot_of(text_of(dot))
        tests.same(f"DOT, {kind}: nodes", found[0], {str(node): text for node, text in names.items()})
        tests.same(f"DOT, {kind}: edges", found[1], due_edges_of)
        tests.same(f"DOT, {kind}: directions", dot.count(b'dir="none"'), apart)
        table = tests.run("tools/snapshot", "index", "5", "--format", "edges").stdout.decode()
        rows = list(csv.DictReader(io.StringIO(table, newline="")))
        due = sorted((names[s], names[t], str(e), text, f"{e}.5") for e, (s, t, text) in edges.items())
        listed = sorted((row["source"], row["target"], row["edge"], row["label"], row["weight"]) for row in rows)
        tests.same(f"a table of edges, {kind}", listed, due)
        table = tests.run("tools/snapshot", "index", "5", "--format", "nodes").stdout.decode()
        rows = list(csv.DictReader(io.StringIO(table, newline="")))
        listed_nodes = {int(row["node"]): row["name"] for row in rows}
        tests.same(f"a table of nodes, {kind}", listed_nodes, names)
    refused = tests.run("tools/snapshot", "index", "4")
    tests.check("an instant out of range", refused.returncode == 1 and b"out-of-range 5 5" in refused.stderr, refused)
    tests.same("an instant that is none", tests.run("tools/snapshot", "index", "x").returncode, 2)
    nothing = tests.run("tools/snapshot", "nothing", "5")
    made = (tests.folder / "nothing").exists()
    tests.check("an index that is not there is not made", nothing.returncode == 1 and not made, nothing)


def graphml_of(data: bytes) -> tuple[dict[str, str], list[tuple[str, ...]]]:
    """The names of nodes, and of edges the ends, label and weight."""
    root = xml.fromstring(data)
    keys = {key.get("id"): key.get("attr.name") for key in root.iter(f"{GRAPHML}key")}

    def values(element: xml.Element) -> dict[Optional[str], str]:
        return {keys[data.get("key")]: data.text or "" for data in element.iter(f"{GRAPHML}data")}

    nodes = {node.get("id", "")[1:]: values(node)["name"] for node in root.iter(f"{GRAPHML}node")}
    edges = []
    for edge in root.iter(f"{GRAPHML}edge"):
        of_edge = values(edge)
        ends = edge.get("source", "")[1:], edge.get("target", "")[1:]
        edges.append((*ends, of_edge["label"], of_edge["weight"]))
    return nodes, sorted(edges)


def read_by_networkx(tests: Tests, names: dict[int, str], edges: dict[int, tuple[int, int, str]]) -> None:
    try:
        networkx: Any = importlib.import_module("networkx")
    except ImportError:
        print("no networkx here: GraphML is read by the tests alone")
        return
    path = str(tests.folder / "graph.graphml")
    tests.run("tools/snapshot", "index", "last", "--numbers", "--output", path)
    graph = networkx.read_graphml(path)
    # It reads a text of nothing as none.
    found = {node: values.get("name") or "" for node, values in graph.nodes(data=True)}
    tests.same("GraphML by networkx: nodes", found, {f"n{node}": text for node, text in names.items()})
    weights = sorted((s, t, values["weight"]) for s, t, values in graph.edges(data=True))
    due = sorted((f"n{s}", f"n{t}", edge + 0.5) for edge, (s, t, _) in edges.items())
    tests.same("GraphML by networkx: edges", weights, due)


DOT_TOKEN = re.compile(r'\s*(?:"((?:[^"\\]|\\.)*)"|([\w.]+)|(->|--|[\[\]{}=,;]))', re.S)


def statements_of(text: str) -> Iterator[tuple[list[str], dict[str, str]]]:
    """The statements of DOT, of which it reads what the tool writes: what stands before the values, and these."""
    tokens = [
        unquoted(found[1]) if found[1] is not None else found[2] or found[3] for found in DOT_TOKEN.finditer(text)
    ]
    statement: list[str] = []
    for token in tokens[2:-1]:
        if token != ";":
            statement.append(token)
            continue
        start = statement.index("[")
        yield statement[:start], dict(zip(statement[start + 1 :: 4], statement[start + 3 :: 4]))
        statement = []


def dot_of(text: str) -> tuple[dict[str, str], list[tuple[str, ...]]]:
    """The same of DOT. `label` of an edge is a value and stands apart."""
    nodes, edges = {}, []
    for head, values in statements_of(text):
        if len(head) == 1:
            nodes[head[0]] = values["label"]
        else:
            edges.append((head[0], head[2], values["value_label"], values["weight"]))
    return nodes, sorted(edges)


def unquoted(text: str) -> str:
    return re.sub(r"\\(.)", r"\1", text, flags=re.S)


# Growth.


def growth(tests: Tests) -> None:
    rng = random.Random(2)
    rows = [Row(f"n{rng.randrange(40)}", f"n{rng.randrange(40)}", 100 + i * 3, 150 + i * 4, {}) for i in range(120)]
    text = "".join(f"{row.source} {row.target} {row.begin} {row.end}\n" for row in rows)
    words = ["--columns", "source,target,time,end", tests.file("edges", text)]
    tests.load("index", tests.run("tools/edges2script", *words).stdout)
    table = list(csv.reader(io.StringIO(tests.run("tools/growth", "index").stdout.decode())))
    tests.same("32 instants", len(table), 33)
    due = []
    for time in (int(row[0]) for row in table[1:]):
        nodes = len(due_nodes(rows, time))
        due.append([str(time), str(nodes), str(sum(holds(row, time) for row in rows)), str(nodes), "0"])
    tests.same("what grew", table[1:], due)
    for words, series in CHARTS:
        drawn(tests, words, series, due)
    chart = tests.run("tools/growth", "index", "--text", "--points", "9").stdout.decode()
    tests.same("equal series are one", chart.split("\n")[1], "n nodes = node values  e edges  * both")
    letters = Counter(letter for line in chart.split("\n")[3:21] for letter in line.split("+")[-1].split("|")[-1])
    tests.check("a chart has its letters", letters["e"] >= 5 and letters["n"] >= 5, chart)
    dated = tests.file("dated", "a,b,1999-05-01\nb,c,2001-02-03\nc,d,2003-04-05\n")
    tests.load("dated.dg", tests.run("tools/edges2script", "--times", "iso", "--columns", "source,target,time", dated).stdout)
    told = [tests.run("tools/growth", "dated.dg", *words).stdout.decode() for words in ([], ["--text"])]
    tests.same("a table counts the note of dates", told[0].split("\n")[1].split(",")[1:], ["2", "1", "3", "0"])
    tests.same("a chart does not", told[1].split("\n")[1], "n nodes = node values  e edges  * both")
    with tests.store("index") as store:
        for _ in range(130):
            snapshot = store.at(100, "s")
        tests.same("handles are given up", (snapshot.handle, store.pool().live), (130, 1))
    at_two = tests.run("tools/growth", "index", "--at", "first", "400").stdout.decode().split("\n")[1:3]
    tests.same("instants that are named", [line.split(",")[0] for line in at_two], ["100", "400"])
    many = tests.run("tools/growth", "index", "--columns", "s", "--at", *map(str, range(100, 400))).stdout.decode()
    found = [line.split(",")[:3] for line in many.split("\n")[1:-1]]
    due = [[str(t), str(len(due_nodes(rows, t))), str(sum(holds(row, t) for row in rows))] for t in range(100, 400)]
    tests.same("300 instants", found, due)
    tests.same("too many instants", tests.run("tools/growth", "index", "--points", "2001").returncode, 2)
    growth_by_dates(tests)


def short_way(tests: Tests) -> None:
    """Plain tables with commas, and the same with spaces, which go the long way, make the same scripts."""
    for seed in range(12):
        rng = random.Random(seed)
        dates = seed % 2 == 0
        text: Callable[[int], str] = (lambda day: f"{1940 + day}-03-01") if dates else str
        rows = []
        for _ in range(rng.randrange(1, 80)):
            begin, end = rng.randrange(40), rng.choice([None, 0, 1, 7])
            rows.append([rng.choice("abcd"), rng.choice("abcd"), text(begin), "" if end is None else text(begin + end), "x"])
        rows = [[*row[:3], row[3] or text(90), row[4]] for row in rows]  # white space leaves no field empty
        if seed % 3 == 0:
            rows.sort(key=lambda row: (len(row[2]), row[2]))
        words = ["--columns", "source,target,time,end,w", *(["--times", "iso"] if dates else [])]
        words += rng.choice([[], ["--undirected"], ["--closed"], ["--batch", "7"], ["--no-clock"]])
        scripts = []
        for separator in (",", " "):
            edges = tests.file("edges", "".join(separator.join(row) + "\n" for row in rows))
            ran = tests.run("tools/edges2script", *words, edges)
            scripts.append((ran.returncode, ran.stdout, ran.stderr))
        tests.check(f"the short way {seed}", scripts[0] == scripts[1] and scripts[0][0] == 0, scripts)


def growth_by_dates(tests: Tests) -> None:
    """The counts at the beginnings of months, weeks and so on of a history from 2019-11-20 to 2021-02-03."""
    days = ["2019-11-20", "2019-12-01", "2020-03-15", "2020-12-31", "2021-02-03"]
    text = "".join(f"a,b,{day}\n" for day in days)
    tests.load("index", tests.run("tools/edges2script", "--times", "iso", tests.file("edges", text)).stdout)
    months = [f"{y}-{m:02d}-01" for y in (2019, 2020, 2021) for m in range(1, 13)]
    months = [month for month in months if "2019-12-01" <= month <= "2021-02-01"]
    weeks = tests.run("tools/growth", "index", "--every", "week").stdout.decode().split("\n")
    tests.same("weeks begin on Mondays", (weeks[1].split(",")[0], len(weeks) - 2), ("2019-11-25", 63))
    for every, due in (
        ("month", months),
        ("quarter", [month for month in months if month[5:7] in ("01", "04", "07", "10")]),
        ("year", ["2020-01-01", "2021-01-01"]),
    ):
        lines = tests.run("tools/growth", "index", "--every", every, "--columns", "s").stdout.decode().split("\n")
        found = [(line.split(",")[0], line.split(",")[3]) for line in lines[1:-1]]
        tests.same(f"every {every}", found, [(day, str(sum(begin <= day for begin in days))) for day in due])
        tests.same(f"a date and its instant, every {every}", lines[0].split(",")[:2], ["date", "instant"])
    tests.one_line("no year begins", tests.run("tools/growth", "index", "--every", "year", "--to", "2019-12-15"), 2, "no year")
    tests.one_line("too many hours", tests.run("tools/growth", "index", "--every", "hour"), 2, "more than 2000")
    year = tests.run("tools/snapshot", "index", "2020")
    told = ["2020 is out of range: the history goes from 2019-11-20 to 2021-02-03", "for the year write 2020-01-01"]
    tests.one_line("a year that is taken as an instant", year, 1, *told)
    late = tests.run("tools/growth", "index", "--at", "2022-05")
    tests.one_line("a date behind the history", late, 1, "2022-05 is instant 1651363200, out of range", "to 2021-02-03")


# In the history of `growth` each node has one value, its name.
CHARTS: list[tuple[list[str], list[str]]] = [
    ([], ["nodes", "edges"]),
    (["--columns", "s", "--log", "--dates"], ["nodes", "edges"]),
]


def drawn(tests: Tests, words: list[str], series: list[str], due: list[list[str]]) -> None:
    """An SVG with these series, and with a point for each row of a table."""
    ran = tests.run("tools/growth", "index", "--svg", "growth.svg", "--title", "<&>", *words)
    drawing = xml.parse(tests.folder / "growth.svg").getroot() if ran.returncode == 0 else xml.Element("none")
    groups = {group.get("class"): group for group in drawing.iter(f"{SVG}g")}
    tests.same(f"an SVG has its series {words}", list(groups), series)
    for name, group in groups.items():
        points = group[0].get("points", "").split(" ")
        across = [float(point.split(",")[0]) for point in points]
        marks = [title.text for title in group.iter(f"{SVG}title")]
        column = ["nodes", "edges", "node values"].index(str(name)) + 1
        told = [f"{name}: {int(row[column]):,} at {row[0]}" for row in due]
        # A line has two corners between two points.
        tests.check(f"an SVG has its points {words} {name}", across == sorted(across) and len(points) == 63, points)
        heights = [point.split(",")[1] for point in points]
        tests.same(f"an SVG has steps {words} {name}", heights[:-1:2], heights[1::2])
        tests.same(f"an SVG tells its points {words} {name}", marks, told)


# Messages.

OF_EDGES = ["source", "target", "edge", "direction"]
TEXTS = ["hello", "Re: hello", "a, b,  c", " two  spaces ", "", 'with "quotes"', "ü, 漢"]


def due_messages(rows: Sequence[Row], time: int) -> list[tuple[str, str, str]]:
    """The messages of exactly an instant, equal ones once, as (source, target, value)."""
    return sorted({(row.source, row.target, row.values["subject"]) for row in rows if row.begin == time})


def read_messages(graph: Graph) -> list[tuple[str, str, str]]:
    return sorted((graph.name(source), graph.name(target), value) for source, target, value in graph.messages)


def random_messages(tests: Tests, seed: int, count: int) -> list[Row]:
    """Loads random messages into `index`, some of them more than once, and gives them."""
    rng = random.Random(seed)
    names = ["a", "b", "Ada", "x, y", "é"]
    ends = [(rng.choice(names), rng.choice(names), rng.randrange(20)) for _ in range(count)]
    rows = [Row(*of_one, None, {"subject": rng.choice(TEXTS)}) for of_one in ends]
    rows += rng.sample(rows, count // 3)
    out = io.StringIO()
    table = csv.writer(out, quoting=csv.QUOTE_ALL, lineterminator="\n")
    table.writerows([row.begin, row.source, row.values["subject"], row.target] for row in rows)
    words = ["--columns", "time,source,subject,target", "--messages", "subject"]
    words += ["--create", "4", "2", "balanced", "--batch", str(rng.choice([1, 7, 1000]))]
    ran = tests.run("tools/edges2script", *words, tests.file("edges.csv", out.getvalue()))
    replies = tests.load("index", ran.stdout)
    tests.check(f"messages, seed {seed}", ran.returncode == 0 and b"refused" not in replies, (ran.stderr, replies))
    return rows


def messages_of_instants(tests: Tests, seed: int) -> None:
    """At each instant those of exactly it are listed and counted, and only where they are asked for."""
    rows = random_messages(tests, seed, [1, 6, 60][seed % 3])
    with tests.store("index") as store:
        first, last = History(store).span()
        for time in range(first, last + 1):
            due = due_messages(rows, time)
            snapshots = [*store.several([time, time], "snt"), store.at(time, "sn")]
            graphs = [snapshot.to_dicts() for snapshot in snapshots]
            nodes = {graphs[0].name(node) for node in graphs[0].nodes}
            counts = [snapshot.counts().messages for snapshot in snapshots]
            found = [read_messages(graph) for graph in graphs], counts, nodes, graphs[0].edges
            due_found = [due, due, []], [len(due), len(due), None], due_nodes(rows, time), {}
            if found != due_found:
                tests.same(f"messages, seed {seed}, instant {time}", found, due_found)
                return
    tests.check(f"messages, seed {seed}", True)


Link = tuple[str, str, str, dict[str, str]]  # source, target, direction and values


def links_of(data: bytes) -> dict[str, Link]:
    """The edges of GraphML or GEXF by their ids."""
    parts: dict[str, list[xml.Element]] = {}
    for element in xml.fromstring(data).iter():
        parts.setdefault(element.tag.partition("}")[2], []).append(element)
    named = parts.get("key", []) + parts.get("attribute", [])
    titles = {key.get("id"): key.get("attr.name") or key.get("title") or "" for key in named}
    default = parts["graph"][0].get("edgedefault") or parts["graph"][0].get("defaultedgetype") or ""
    kinds = {"true": "directed", "false": "undirected", None: default}
    found = {}
    for edge in parts.get("edge", []):
        values = {titles[value.get("key")]: value.text or "" for value in edge if value.get("key")}
        values.update((titles[value.get("for")], value.get("value", "")) for value in edge.iter() if value.get("for"))
        kind = edge.get("type") or kinds[edge.get("directed")]
        found[edge.get("id", "")] = edge.get("source", "")[1:], edge.get("target", "")[1:], kind, values
    return found


def taken(tests: Tests, time: int, columns: str, form: str, *words: str) -> bytes:
    """The graph of `index` as of an instant, with these columns and in this form."""
    ran = tests.run("tools/snapshot", "index", str(time), "--columns", columns, "--format", form, *words)
    tests.same(f"a snapshot of {columns} as {form}", (ran.returncode, ran.stderr), (0, b""))
    return ran.stdout


def messages_beside_edges(tests: Tests, kind: str) -> None:
    """An edge whose own key is `message`, and messages with odd values, in each format and read back."""
    lines = [f"5 +node {i}" for i in range(1, len(ODD) + 1)] + [f"5 +edge 10 1 2 {kind}", "5 eset 10 message own"]
    lines += [f"6 msg {i} {i % len(ODD) + 1} {text}" for i, text in enumerate(ODD, 1)]
    lines += ["6 msg 1 2 plain", "7 msg 1 1 later", "8 msg 2 1 latest"]
    script = f"create 4 2 union\nload {len(lines)}\n" + "".join(line + "\n" for line in lines)
    tests.load("index", script.encode())
    due = {f"m{i}": (str(i), str(i % len(ODD) + 1), text) for i, text in enumerate(ODD, 1)}
    direction = "undirected" if kind == "undir" else "directed"
    for form in ("graphml", "gexf"):
        links = links_of(taken(tests, 6, "set", form))
        edge = links.pop("e10", None)
        tests.same(f"{form} with messages, {kind}: the edge", edge, ("1", "2", direction, {"value_message": "own"}))
        due_links = {name: (s, t, "directed", {"message": text}) for name, (s, t, text) in due.items()}
        tests.same(f"{form} with messages, {kind}", links, due_links)
        alone = links_of(taken(tests, 6, "se", form))
        tests.same(f"{form} without messages, {kind}", alone, {"e10": ("1", "2", direction, {"message": "own"})})
        kinds = Counter(link[2] for link in links_of(taken(tests, 6, "st", form, "--as", "undirected")).values())
        tests.same(f"{form} with edges alone undirected, {kind}", kinds, {"undirected": 1, "directed": len(due)})
    dot = text_of(taken(tests, 6, "set", "dot"))
    drawn = {values.pop("id"): (*head, values) for head, values in statements_of(dot) if len(head) > 1}
    of_edge = {"dir": "none", "message": "own"} if kind == "undir" else {"message": "own"}
    due_drawn: dict[str, Any] = {"10": ("1", "->", "2", of_edge)}
    due_drawn.update((n, (s, "->", t, {"style": "dashed", "label": text})) for n, (s, t, text) in due.items())
    tests.same(f"DOT with messages, {kind}", drawn, due_drawn)
    rows = list(csv.reader(io.StringIO(taken(tests, 6, "set", "edges").decode(), newline="")))
    due_rows = [[*OF_EDGES, "message", "value_message"], ["1", "2", "10", kind, "", "own"]]
    due_rows += [[s, t, name, "dir", text, ""] for name, (s, t, text) in due.items()]
    tests.same(f"a table with messages, {kind}", rows, due_rows)
    plain = list(csv.reader(io.StringIO(taken(tests, 6, "se", "edges").decode(), newline="")))
    tests.same(f"a table without messages, {kind}", plain, [[*OF_EDGES, "message"], ["1", "2", "10", kind, "own"]])


def messages_alone(tests: Tests) -> None:
    """Messages without edges are a directed graph, and an end that is gone again at their instant is there for them."""
    of_six = ["msg 1 2 7", "+node 9", "msg 9 2 8.5", "-node 2", "-node 9"]
    lines = ["5 +node 1", "5 +node 2", *at(6, of_six), "7 +node 3"]
    tests.load("index", f"create 4 2 union\nload {len(lines)}\n{chr(10).join(lines)}\n".encode())
    due = [("1", "7"), ("9", "8.5")]
    for form in ("graphml", "gexf"):
        found = taken(tests, 6, "snt", form, "--numbers")
        due_links = {f"m{i}": (s, "2", "directed", {"message": v}) for i, (s, v) in enumerate(due, 1)}
        tests.same(f"{form} of messages alone", links_of(found), due_links)
        tests.same(f"{form} of messages alone: nodes", found.count(b"<node "), 3)
        tests.same(f"{form} of messages that are numbers", found.count(b'type="double"'), 1)
        tests.same(f"{form} of an instant without messages", links_of(taken(tests, 5, "snt", form)), {})
    tests.same("a table of nodes has no message", taken(tests, 6, "st", "nodes"), b"node\n1\n")
    tests.same("a table without a message", taken(tests, 5, "st", "edges"), b"source,target,edge,direction,message\n")
    spells = tests.run("tools/timeline", "index", "--messages", "--at", "5", "6", "7", "--format", "gexf").stdout
    tests.same("spells of ends that are gone", (spells.count(b"<node "), spells.count(b"<edge ")), (4, 2))
    try:
        networkx: Any = importlib.import_module("networkx")
    except ImportError:
        return
    for form in ("graphml", "gexf"):
        taken(tests, 6, "snt", form, "--output", "then")
        read = getattr(networkx, f"read_{form}")(tests.folder / "then")
        told = sorted((s, t, values["message"]) for s, t, values in read.edges(data=True))
        tests.same(f"{form} of messages by networkx", told, [(f"n{s}", "n2", v) for s, v in due])
        tests.check(f"{form} of messages by networkx is directed", read.is_directed())


def messages_that_grow(tests: Tests, rows: Sequence[Row], times: Sequence[int]) -> None:
    """Growth counts the messages of exactly its instants, where they are asked for."""
    words = ["index", "--points", str(len(times)), "--columns"]
    table = list(csv.reader(io.StringIO(tests.run("tools/growth", *words, "st").stdout.decode())))
    due = [[str(t), str(len(due_nodes(rows, t))), "0", "0", "0", str(len(due_messages(rows, t)))] for t in times]
    tests.same("messages that grew", table, ["instant,nodes,edges,node_values,edge_values,messages".split(","), *due])
    plain = tests.run("tools/growth", *words, "s").stdout.split(b"\n")[0]
    tests.same("growth without messages", plain, b"instant,nodes,edges,node_values,edge_values")
    tests.run("tools/growth", "--svg", "growth.svg", *words, "st")
    groups = xml.parse(tests.folder / "growth.svg").getroot().iter(f"{SVG}g")
    marks = {group.get("class"): [title.text for title in group.iter(f"{SVG}title")] for group in groups}
    tests.same("an SVG has its messages", marks.get("messages"), [f"messages: {row[5]} at {row[0]}" for row in due])
    chart = tests.run("tools/growth", "--text", *words, "st").stdout.decode()
    tests.check("a chart has its messages", "m messages" in chart, chart)


def messages_of_page(tests: Tests, rows: Sequence[Row], times: Sequence[int]) -> None:
    """The page has an arrow for each two nodes with messages at an instant, and their count."""
    words = ["tools/timeline", "index", "--points", str(len(times))]
    of_times = [due_messages(rows, time) for time in times]
    for most, more in ((3000, []), (2, ["--most", "2"])):
        told = json.loads(script_of(tests.run(*words, "--messages", *more).stdout))
        names = [name for name, _ in told["nodes"]]
        found = [[count, sorted((names[s], names[t]) for s, t in arrows)] for count, arrows in told["messages"]]
        drawn = [{(s, t) for s, t, _ in of_time if s in names and t in names} for of_time in of_times]
        due = [[len(of_time), sorted(arrows)] for of_time, arrows in zip(of_times, drawn)]
        tests.same(f"a page with messages, of up to {most} nodes", found, due)
        tests.check(f"a page of up to {most} nodes", len(names) == min(most, len(due_nodes(rows, times[-1]))), names)
    page = script_of(tests.run(*words).stdout)
    tests.check("a page without messages", "messages" not in json.loads(page), page)
    root = xml.fromstring(tests.run(*words, "--messages", "--format", "gexf").stdout)
    parts = [element for element in root.iter() if element.tag.endswith(("}node", "}edge"))]
    labels = {part.get("id"): part.get("label") for part in parts}
    listed = []
    for part in (part for part in parts if part.tag.endswith("}edge")):
        bounds = [(spell.get("start"), spell.get("end")) for spell in part.iter() if spell.tag.endswith("}spell")]
        listed.append((bounds, labels[part.get("source")], labels[part.get("target")], part.get("label")))
    due_listed = [([(str(t), str(t))], *message) for t, of_time in zip(times, of_times) for message in of_time]
    tests.same("spells of messages", sorted(listed), sorted(due_listed))
    plain = tests.run(*words, "--format", "gexf").stdout
    tests.same("spells without messages", plain.count(b"<edge "), 0)


def messages_in_pictures(tests: Tests) -> None:
    rows = random_messages(tests, 3, 40)
    with tests.store("index") as store:
        first, last = History(store).span()
    times = list(range(first, last + 1))
    messages_that_grow(tests, rows, times)
    messages_of_page(tests, rows, times)


def messages(tests: Tests) -> None:
    for seed in range(6):
        messages_of_instants(tests, seed)
    for kind in ("dir", "undir"):
        messages_beside_edges(tests, kind)
    messages_alone(tests)
    messages_in_pictures(tests)


# What goes wrong: a line and a status, and no more.

TOOLS_ON_INDEX = [
    ["tools/snapshot", "index", "last"],
    ["tools/growth", "index"],
    ["tools/timeline", "index", "--points", "2"],
]


def failures(tests: Tests) -> None:
    tests.load("index", tests.run("tools/edges2script", tests.file("edges", "a b 5\n" * 3000)).stdout)
    for words in [["tools/edges2script", "edges"], *TOOLS_ON_INDEX]:
        name = words[0]
        full = tests.shell('"$@" > /dev/full', *words)
        tests.one_line(f"{name} on a full disk", full, 1, "standard output: No space left on device")
        tests.one_line(f"{name} with a closed output", tests.shell('"$@" >&-', *words), 1, "standard output is closed")
        closed = tests.shell('"$@" 2>&- | wc -c', *words)
        tests.check(f"{name} with closed errors", closed.returncode == 0 and int(closed.stdout) > 0, closed)
        piped = tests.shell('"$@" | head -c 1 > /dev/null; exit ${PIPESTATUS[0]}', *words)
        tests.check(
            f"{name} into a reader that ends", piped.stderr.count(b"\n") <= 1 and b"Trace" not in piped.stderr, piped
        )
        tests.one_line(
            f"{name} with wrong words", tests.shell('"$@" --foo 2>&1 | tail -n 1 >&2; exit 2', *words), 2, "--foo"
        )
    for words in TOOLS_ON_INDEX[:1] + TOOLS_ON_INDEX[2:]:
        ran = tests.run(*words, "--output", "no/folder")
        tests.one_line(f"{words[0]} into no folder", ran, 1, "no/folder: No such file or directory")
        ran = tests.run(*words, "--output", "/dev/full")
        tests.one_line(f"{words[0]} into a full file", ran, 1, "/dev/full: No space left on device")
    tests.one_line(
        "an SVG into no folder", tests.run("tools/growth", "index", "--svg", "no/svg"), 1, "no/svg: No such file"
    )
    tests.file("foreign", "not an index of any kind\n")
    (tests.folder / "folder").mkdir()
    for index, reason in (
        ("foreign", "the index is refused"),
        ("folder", "the index file failed"),
        ("none", "no such file"),
    ):
        for words in TOOLS_ON_INDEX:
            ran = tests.run(words[0], index, *words[2:])
            tests.one_line(f"{words[0]} over {index}", ran, 1, f"{index}: {reason}")
    tests.check("a question makes no index", not (tests.folder / "none").exists())
    ran = tests.run("tools/snapshot", "index", "last", "--program", "./nowhere")
    tests.one_line("no program", ran, 1, "./nowhere: No such file or directory")
    tests.one_line("a folder as edges", tests.run("tools/edges2script", "folder"), 2, "folder: Is a directory")
    tests.one_line("closed input", tests.shell('"$@" <&-', "tools/edges2script", "-"), 2, "-: standard input is closed")
    for name in ("x.gz", "x.gexf.gz", "x.graphml.gz"):
        ran = tests.run("tools/edges2script", tests.file(name, "a b 5\n"))
        tests.one_line(f"no gzip: {name}", ran, 2, f"{name}: Not a gzipped file")
    cut = gzip.compress(b"a b 5\n" * 1000)[:-9]
    tests.one_line("a gzip that is cut", tests.run("tools/edges2script", tests.file("x.gz", cut)), 2, "x.gz: ")
    interrupted(tests)


def interrupted(tests: Tests) -> None:
    """A tool that waits for its input is interrupted, and one that waits for a program that does not answer."""
    silent = tests.file("silent", "#!/bin/sh\nread line\nprintf 'ok pool 0 0\\nend\\n'\nexec sleep 1000\n")
    os.chmod(silent, 0o755)
    pipe = subprocess.PIPE
    # What is started in the background of a shell ignores interruptions.
    listen = lambda: signal.signal(signal.SIGINT, signal.SIG_DFL)  # noqa: E731
    for tool, *words in (["edges2script", "-"], ["growth", "index", "--at", "5", "--program", silent]):
        command, environment = tests.command(f"tools/{tool}", "--progress", *words)
        process = subprocess.Popen(
            command, stdin=pipe, stdout=pipe, stderr=pipe, env=environment, cwd=tests.folder, preexec_fn=listen
        )
        assert process.stderr is not None
        process.stderr.readline()  # it has begun to read, or to ask
        process.send_signal(signal.SIGINT)
        out, told = process.communicate()
        found = process.returncode, out, told
        tests.same(f"an interruption of {tool}", found, (130, b"", f"{tool}: interrupted\n".encode()))


# Large files.


def large(tests: Tests) -> None:
    peaks = []
    for count in (20_000, 200_000):
        tests.file("edges", "".join(f"n{i % 97} n{i % 89} {i // 2}\n" for i in range(count)))
        peaks.append(peak_of(tests, "edges2script", "--batch", "1000", "edges"))
    tests.check("memory does not grow with a file in order", peaks[1] < peaks[0] + 4096, peaks)
    rng = random.Random(5)
    lines = [f"n{rng.randrange(50)} n{rng.randrange(50)} {i}\n" for i in range(5000)]
    due = tests.run("tools/edges2script", tests.file("edges", "".join(lines))).stdout
    rng.shuffle(lines)
    shuffled = tests.run("tools/edges2script", "--progress", tests.file("edges", "".join(lines)))
    tests.same("lines in no order are sorted", shuffled.stdout == due, True)
    stages = [b"edges2script: reading", b"edges2script: sorting by time", b"edges2script: writing"]
    tests.same("progress where it is asked for", shuffled.stderr.split(b"\n")[:3], stages)
    unsorted = tests.shell('PATH=/nowhere "$@"', "tools/edges2script", "edges")
    tests.one_line("no sort", unsorted, 1, "the lines are not in the order of their times, and there is no `sort`")
    tests.one_line(
        "no progress where it is not", tests.run("tools/edges2script", "edges"), 0, "edges2script: nodes: 50"
    )
    on_terminal(tests)
    same = "".join(f"n{i} m{i} 2010\n" for i in range(210_000))
    one = tests.run("tools/edges2script", tests.file("edges", "a b 2009\n" + same + "a b 2011\n"))
    tests.one_line("too many changes at one instant", one, 2, "instant 2010", "1,050,000 changes", "--spread 2")
    tests.same("nothing is written", one.stdout, b"")
    spread = tests.run("tools/edges2script", "--spread", "2", "edges").stdout.split(b"\n")
    times = Counter(line.split(b" ")[0] for line in spread)
    found = [times[time] for time in (b"4018", b"4020", b"4021", b"4022")]
    tests.same("an instant that is spread", found, [6, 1 << 20, 1_050_000 - (1 << 20), 1])
    note = b"4018 nset 1 clock times of the file times 1 and 0 more, spread over 2"
    tests.check("a spread is noted", note in spread, spread[:5])


WATCHED = """\
import atexit, runpy, sys
def told():
    with open("/proc/self/status") as status, open("peak", "w") as out:
        out.write(next(line.split()[1] for line in status if line.startswith("VmHWM:")))
atexit.register(told)
sys.argv = sys.argv[1:]
sys.path.insert(0, sys.argv[0].rpartition("/")[0])
runpy.run_path(sys.argv[0], run_name="__main__")
"""


def peak_of(tests: Tests, tool: str, *words: str) -> int:
    """The peak of a tool's memory in KiB, from Linux; elsewhere nothing."""
    if not os.path.exists("/proc/self/status"):
        return 0
    (_, *command), environment = tests.command(f"tools/{tool}", *words)
    watched = [sys.executable, "-c", WATCHED, *command]
    ran = subprocess.run(watched, stdout=subprocess.DEVNULL, env=environment, cwd=tests.folder, stderr=subprocess.PIPE)
    tests.same(f"{tool} over a large file", ran.returncode, 0)
    return int((tests.folder / "peak").read_text())


def read_whole(terminal: int) -> bytes:
    """All that was written to a terminal whose other end is closed. It comes in pieces, and on Linux EIO ends it."""
    pieces = []
    while True:
        try:
            pieces.append(os.read(terminal, 1 << 16))
        except OSError:
            break
        if not pieces[-1]:
            break
    return b"".join(pieces)


def on_terminal(tests: Tests) -> None:
    ours, theirs = pty.openpty()
    command, environment = tests.command("tools/edges2script", "edges")
    subprocess.run(command, stdout=subprocess.DEVNULL, stderr=theirs, env=environment, cwd=tests.folder)
    os.close(theirs)
    told = read_whole(ours)
    os.close(ours)
    # One line in place of another, and at the end the summary alone.
    stages = b"edges2script: reading\r\x1b[Kedges2script: sorting by time\r\x1b[Kedges2script: writing\r\x1b[K"
    tests.check("progress on a terminal", told.startswith(stages + b"edges2script: nodes: 50"), told)


def spread_in_parts(tests: Tests) -> None:
    """The script of an instant with more changes than a small limit, cut by the tool and answered by the program."""
    loader = importlib.machinery.SourceFileLoader("edges2script", str(ROOT / "tools" / "edges2script"))
    spec = importlib.util.spec_from_loader("edges2script", loader)
    assert spec is not None
    tool: Any = importlib.util.module_from_spec(spec)
    sys.modules["edges2script"] = tool
    loader.exec_module(tool)
    tool.LARGEST_BATCH = 4
    rows = [f"n{i} m{i} 7\n" for i in range(5)] + ["n0 m1 8\n"]
    words, sys.argv = sys.argv, ["edges2script", "--spread", "10", tests.file("edges", "".join(rows))]
    written = io.BytesIO()
    out, sys.stdout = sys.stdout, io.TextIOWrapper(written)
    try:
        tool.write_script(tool.words())
        script = written.getvalue()
    finally:
        sys.argv, sys.stdout = words, out
    replies = tests.load("index", script)
    heads = [line for line in text_of(replies).split("\n") if line.startswith(("ok load", "ok append"))]
    # Five edges with two nodes each, and their texts, and a note, are 26 changes; the last two are in a batch with the
    # one of the next time.
    due = ["ok load 4 4 70"] + [f"ok append 4 {4 * i + 4} {70 + i}" for i in range(1, 6)]
    tests.same("parts of an instant", heads, due + ["ok append 3 27 80"])
    with tests.store("index") as store:
        asked = History(store)
        tests.same("a time of the file", (asked.instant("@7"), asked.instant("@8")), (79, 89))
        graph = store.at(79, "sne").to_dicts()
        found = sorted((graph.name(edge.source), graph.name(edge.target)) for edge in graph.edges.values())
        tests.same("the graph behind all parts", found, [(f"n{i}", f"m{i}") for i in range(5)])


# Dates.


def dates(tests: Tests) -> None:
    rows = "a,b,1955-03-01\nb,c,1975-06-01\n"
    tests.load("index", tests.run("tools/edges2script", "--times", "iso", tests.file("edges", rows)).stdout)
    for date, due in (("1955-03-01", 1), ("1975-05-31", 1), ("1975-06-01", 2), ("1955-03-02T06:00:00+02:00", 1)):
        table = tests.run("tools/snapshot", "index", date, "--format", "edges").stdout.decode()
        tests.same(f"edges as of {date}", len(table.split("\n")) - 2, due)
    ran = tests.run("tools/growth", "index", "--dates", "--svg", "growth.svg", "--from", "1960-01-01")
    drawing = xml.parse(tests.folder / "growth.svg").getroot() if ran.returncode == 0 else xml.Element("none")
    texts = [text.text or "" for text in drawing.iter(f"{SVG}text")]
    years = [int(text) for text in texts if re.fullmatch("19[0-9]{2}", text)]
    tests.check("years before 1970", len(years) > 2 and 1960 <= min(years) <= max(years) <= 1975, texts)
    with tests.store("index") as store:
        calendar, ends = store.told_calendar() or Calendar(), History(store).span()
        due_days = [datetime(1955, 3, 1, tzinfo=timezone.utc), datetime(1975, 6, 1, tzinfo=timezone.utc)]
        tests.same("the index tells what instants are", [calendar.moment(end) for end in ends], due_days)
    for text in ("1975-13-01", "yesterday", "1975/06/01", "-5"):
        tests.one_line(f"no date: {text}", tests.run("tools/snapshot", "index", "--", text), 2, repr(text))
    late = tests.run("tools/snapshot", "index", "1990-01-01")
    tests.one_line("a date that is out of range", late, 1, "out-of-range")
    script = "create 4 2 union\nload 1\n86400 +node 1\nappend 1\n864000 +node 2\n"
    tests.load("plain", script.encode())
    plain = tests.run("tools/snapshot", "plain", "1970-01-03", "--format", "nodes").stdout
    tests.same("a date where instants are seconds since 1970", plain, b"node\n1\n")


# Other forms of files.

JSON_LINES = """\
{"source": "a", "target": "b", "time": 5, "weight": 1.50, "kind": null, "seen": true}
{"source": "b", "target": "c", "time": 7, "end": 9}
"""

GRAPHML_FILE = """\
<?xml version="1.0"?>
<graphml xmlns="http://graphml.graphdrawing.org/xmlns">
  <key id="d0" for="edge" attr.name="timeset" attr.type="string"/>
  <key id="d1" for="node" attr.name="team" attr.type="string"><default>red</default></key>
  <graph edgedefault="undirected">
    <node id="a"/><node id="b"><data key="d1">blue</data></node>
    <edge source="a" target="b"><data key="d0">&lt;[5.0, 7.0]; [9.0, Infinity]&gt;</data></edge>
    <edge source="b" target="a" directed="true"><data key="d0">&lt;[6.0, 8.0, 10.0]&gt;</data></edge>
  </graph>
</graphml>
"""

# As Gephi writes it: spells, timestamps, dates, values that change.
GEXF_FILE = """\
<?xml version='1.0' encoding='UTF-8'?>
<gexf xmlns="http://gexf.net/1.3" version="1.3" xmlns:viz="http://gexf.net/1.3/viz">
  <graph defaultedgetype="directed" timeformat="date" timerepresentation="interval" mode="dynamic">
    <attributes class="node" mode="dynamic"><attribute id="size" title="size" type="integer"/></attributes>
    <nodes>
      <node id="7" label="Ada" start="1970-01-02">
        <attvalues><attvalue for="size" value="1" start="1970-01-02" end="1970-01-04"/>
          <attvalue for="size" value="2" start="1970-01-04" end="Infinity"/></attvalues>
        <viz:size value="10.0"/>
      </node>
      <node id="8" label="Bob"/>
    </nodes>
    <edges>
      <edge id="0" source="7" target="8" weight="2.0">
        <spells><spell start="1970-01-03" end="1970-01-05"/><spell start="1970-01-07"/></spells>
      </edge>
      <edge id="1" source="8" target="7" type="undirected" timestamp="1970-01-06"/>
    </edges>
  </graph>
</gexf>
"""

DAY = 86_400  # seconds

FORMS: list[tuple[str, str, list[str], str, list[str]]] = [
    (
        "JSON lines",
        "edges.jsonl",
        [],
        JSON_LINES,
        at(5, A_TO_B + ["eset 1 weight 1.50", "eset 1 seen true"])
        + at(7, ["+node 3", "nset 3 name c", "+edge 2 2 3 dir"])
        + ["9 -edge 2"],
    ),
    (
        "JSON lines with names of their own",
        "edges",
        ["--form", "jsonl", "--source", "from", "--target", "to", "--time", "at", "--values", ""],
        '{"from": "a", "to": "b", "at": "5", "x": 1}\n',
        at(5, A_TO_B),
    ),
    (
        "GraphML with intervals and moments",
        "edges.graphml",
        [],
        GRAPHML_FILE,
        at(5, ["+node 1", "nset 1 name a", "nset 1 team red", "+node 2", "nset 2 name b", "nset 2 team blue"])
        + ["5 +edge 1 1 2 undir", "6 +edge 2 2 1 dir", "7 -edge 1", "7 -edge 2", "8 +edge 3 2 1 dir"]
        + ["9 +edge 4 1 2 undir", "9 -edge 3", "10 +edge 5 2 1 dir", "11 -edge 5"],
    ),
    (
        "GEXF with spells",
        "edges.gexf",
        [],
        GEXF_FILE,
        at(DAY, ["+node 1", "nset 1 name Ada", f"nset 1 clock {IN_SECONDS}", "nset 1 size 1"])
        + at(2 * DAY, ["+node 2", "nset 2 name Bob", "+edge 1 1 2 dir", "eset 1 weight 2.0"])
        + [f"{3 * DAY} nset 1 size 2", f"{4 * DAY} edel 1 weight", f"{4 * DAY} -edge 1"]
        + [f"{5 * DAY} +edge 2 2 1 undir", f"{5 * DAY + 1} -edge 2"]
        + at(6 * DAY, ["+edge 3 1 2 dir", "eset 3 weight 2.0"]),
    ),
]


MESSAGES_IN_GEXF = """\
<gexf xmlns="http://gexf.net/1.3" version="1.3"><graph defaultedgetype="undirected">
  <attributes class="edge"><attribute id="0" title="said" type="string"/></attributes>
  <nodes><node id="7" label="a"/><node id="8" label="b"/></nodes>
  <edges>
    <edge id="0" source="7" target="8" weight="2.0" timestamps="&lt;[5.0, 7.0]&gt;">
      <attvalues><attvalue for="0" value="x &amp; y"/></attvalues></edge>
    <edge id="1" source="7" target="8"><spells><spell start="6" end="6"/></spells></edge>
  </edges>
</graph></gexf>
"""


def other_forms(tests: Tests) -> None:
    for name, file, words, text, due in FORMS:
        tests.same(name, changes_of(tests.run("tools/edges2script", *words, tests.file(file, text))), due)
    closed = tests.run("tools/edges2script", "--closed", "--form", "jsonl", tests.file("edges", JSON_LINES))
    tests.same("an end of JSON that belongs to it", changes_of(closed)[-1], "10 -edge 2")
    ran = tests.run("tools/edges2script", "--messages", "said", tests.file("edges.gexf", MESSAGES_IN_GEXF))
    due = at(5, A_TO_B[:4]) + sent(5, "x & y") + sent(6, "") + sent(7, "x & y")
    tests.same("messages of GEXF", changes_of(ran), due)
    tests.one_line("messages are counted", ran, 0, "messages: 3, changes: 7", "1 columns that messages have no place")
    ran = tests.run("tools/edges2script", "--messages", "kind", "--form", "jsonl", "edges.jsonl")
    tests.one_line("a message of JSON with an end", ran, 2, "edges.jsonl:2: a message has no end")
    text = "# x\na b 5\n# y\n"
    told = tests.run("tools/edges2script", "--comments", "#", tests.file("edges", text)).stderr
    tests.check("comments are counted", b"comments skipped: 2 lines" in told, told)
    told = tests.run("tools/edges2script", tests.file("edges", "#tag,b,10\n")).stderr
    tests.check("what looks like comments is counted", b"taken as they are: 1 lines that begin with #" in told, told)
    fifo = tests.shell('"$@" <(printf "b c 7\\n") <(printf "a b 5\\n")', "tools/edges2script")
    tests.same("pipes that are read twice", changes_of(fifo)[0], "5 +node 1")
    written_by_networkx(tests)


def written_by_networkx(tests: Tests) -> None:
    """Files with times that networkx writes are read, and what is written of them is read by networkx."""
    try:
        networkx: Any = importlib.import_module("networkx")
    except ImportError:
        print("no networkx here: GraphML and GEXF are read and written by the tests alone")
        return
    graph = networkx.MultiDiGraph()
    rng = random.Random(8)
    names = ["Ada", "Bob & <Co>", "é漢", 'a "b"', "e"]
    for edge in range(30):
        begin = rng.randrange(20)
        ends = rng.choice(names), rng.choice(names)
        graph.add_edge(
            *ends, key=edge, id=edge, time=begin, start=begin, end=begin + rng.randrange(1, 9), weight=edge / 4
        )
    graph.graph["mode"] = "dynamic"
    networkx.write_graphml(graph, tests.folder / "given.graphml")
    for _, _, values in graph.edges(data=True):
        del values["time"]
    networkx.write_gexf(graph, tests.folder / "given.gexf", version="1.2draft")
    rows = [(s, t, v["start"], v["end"], v["weight"]) for s, t, v in graph.edges(data=True)]
    for form in ("graphml", "gexf"):
        script = tests.run("tools/edges2script", f"given.{form}")
        tests.load("index", script.stdout)
        with tests.store("index") as store:
            first, last = History(store).span()
        for instant in range(first, last + 1, 3):
            due = sorted((s, t, w) for s, t, begin, end, w in rows if begin <= instant < end)
            words = [str(instant), "--numbers", "--ids", "name", "--output", "then." + form, "--format", form]
            ran = tests.run("tools/snapshot", "index", *words)
            read = getattr(networkx, f"read_{form}")(tests.folder / f"then.{form}")
            found = sorted((s, t, values["weight"]) for s, t, values in read.edges(data=True))
            tests.same(f"{form} from networkx, and back, at {instant}", (ran.returncode, found), (0, due))
    mixed_by_networkx(tests, networkx)


def mixed_by_networkx(tests: Tests, networkx: Any) -> None:
    """A graph with edges of both kinds, which networkx reads once they are made of one."""
    _, edges = odd_history(tests, True)
    both = sum(1 for edge, (s, t, _) in edges.items() if edge % 2 and s != t)
    for form in ("graphml", "gexf"):
        for kind, due in (("directed", len(edges) + both), ("undirected", len(edges))):
            path = str(tests.folder / f"one.{form}")
            tests.run("tools/snapshot", "index", "last", "--as", kind, "--format", form, "--output", path)
            read = getattr(networkx, f"read_{form}")(path)
            found = read.is_directed(), read.number_of_edges()
            tests.same(f"{form} of one kind: {kind}", found, (kind == "directed", due))
    same = "create 4 2 union\nload 4\n5 +node 1\n5 +node 2\n5 nset 1 name a\n5 nset 2 name a\n"
    tests.load("same", same.encode())
    tests.one_line(
        "two nodes of one name", tests.run("tools/snapshot", "same", "5", "--ids", "name"), 2, "2 nodes are named"
    )
    tests.load("odd", "create 4 2 union\nload 2\n5 +node 1\n5 nset 1 name a\x01b\n".encode())
    told = tests.run("tools/snapshot", "odd", "5")
    tests.one_line("what XML has no place for is told", told, 0, "U+FFFD in 1 texts")


# The page.


class PageParts(HTMLParser):
    """The texts of scripts, and the addresses that elements name."""

    def __init__(self) -> None:
        super().__init__()
        self.scripts: list[str] = []
        self.addresses: list[str] = []
        self.inside = False

    def handle_starttag(self, tag: str, attributes: list[tuple[str, Optional[str]]]) -> None:
        self.inside = tag == "script"
        if self.inside:
            self.scripts.append("")
        self.addresses += [str(value) for name, value in attributes if name in ("src", "href", "action", "srcset")]

    def handle_data(self, data: str) -> None:
        if self.inside:
            self.scripts[-1] += data

    def handle_endtag(self, tag: str) -> None:
        self.inside = False


def timeline(tests: Tests) -> None:
    rng = random.Random(4)
    rows = [Row(f"n{rng.randrange(12)}", "</script><b>", i, i + rng.randrange(1, 12), {}) for i in range(40)]
    rows += [Row(f"n{rng.randrange(12)}", f"n{rng.randrange(12)}", i, i + 5, {}) for i in range(40)]
    text = "".join(f"{row.source},{row.target},{row.begin},{row.end}\n" for row in rows)
    words = ["--columns", "source,target,time,end", tests.file("edges", text)]
    tests.load("index", tests.run("tools/edges2script", *words).stdout)
    last = max(row.end or 0 for row in rows)
    ran = tests.run("tools/timeline", "index", "--points", "45", "--title", "<Title> & more", "--start-at", "last")
    page = PageParts()
    page.feed(ran.stdout.decode())
    tests.same("a page has two scripts, and no address", (len(page.scripts), page.addresses), (2, []))
    outside = re.findall(r"https?:|url\(|@import|fetch\(|XMLHttp", ran.stdout.decode())
    tests.same("a page needs no network", outside, [])
    tests.check("a page has its title", b"<h1>&lt;Title&gt; &amp; more</h1>" in ran.stdout)
    told = json.loads(page.scripts[0])
    times = [int(label) for label in told["labels"]]
    tests.same("the instants of a page", (times[0], times[-1], len(times), told["start"]), (0, last, 45, 44))
    for place, time in enumerate(times):
        nodes = [name for name, runs in told["nodes"] if in_runs(runs, place)]
        edges = [(told["nodes"][s][0], told["nodes"][t][0]) for s, t, _, runs in told["edges"] if in_runs(runs, place)]
        due = sorted((row.source, row.target) for row in rows if holds(row, time))
        found = sorted(nodes), sorted(edges), told["counts"][place][:2]
        tests.same(f"a page at {time}", found, (sorted(due_nodes(rows, time)), due, [len(nodes), len(due)]))
    changes_of_page(tests, rows, times, told)
    spells_of_page(tests, rows, times)
    colours_of_page(tests)
    page_in_browser(tests)
    few = json.loads(script_of(tests.run("tools/timeline", "index", "--most", "3", "--at", "20", "first").stdout))
    most = Counter(end for row in rows if holds(row, 20) or holds(row, 0) for end in (row.source, row.target))
    due_names = {name for name, count in most.items() if count >= sorted(most.values())[-3]}
    tests.check("the nodes with most edges", {name for name, _ in few["nodes"]} <= due_names, (few["nodes"], most))
    tests.check("a page tells what it leaves out", few["left"].startswith("Drawn are 3 of "), few["left"])
    dated = json.loads(script_of(tests.run("tools/timeline", "index", "--dates", "--at", "first", "40").stdout))
    tests.same("dates of a page", dated["labels"], ["1970-01-01 00:00:00", "1970-01-01 00:00:40"])
    tests.same("too many instants", tests.run("tools/timeline", "index", "--points", "9999").returncode, 2)


def colours_of_page(tests: Tests) -> None:
    """The values of a key that change, of which eight have a colour, at each instant of a page."""
    rng = random.Random(9)
    changes, due = [], [dict[int, str]() for _ in range(30)]
    for time in range(30):
        if time:
            due[time].update(due[time - 1])
        else:
            changes += [f"0 +node {node}" for node in range(1, 21)]
        for node in rng.sample(range(1, 21), 3):
            value = rng.choice([None, *"abcdefghij"])
            if value is None and node in due[time]:
                changes.append(f"{time} ndel {node} kind")
                del due[time][node]
            elif value is not None:
                changes.append(f"{time} nset {node} kind {value}")
                due[time][node] = value
    tests.load("coloured", f"create 16 4 union\nload {len(changes)}\n{chr(10).join(changes)}\n".encode())
    ran = tests.run("tools/timeline", "coloured", "--colour", "kind", "--at", *map(str, range(30)))
    told = json.loads(script_of(ran.stdout))
    groups = told["groups"]
    owners = {value: sum(any(at.get(node) == value for at in due) for node in range(1, 21)) for value in "abcdefghij"}
    by_owners = sorted(owners, key=lambda value: (-owners[value], value))
    wanted = {"key": "kind", "names": by_owners[:8], "others": 2, "none": True}
    tests.same("the values that have colours", groups, wanted)
    for time in range(30):
        found = {}
        for node, (_, _, changed) in enumerate(told["nodes"], 1):
            place = [colour for begin, colour in zip(changed[::2], changed[1::2]) if begin <= time][-1]
            found[node] = None if place < 0 else "another" if place == 8 else groups["names"][place]
        others = {node: value if value in by_owners[:8] else "another" for node, value in due[time].items()}
        tests.same(f"colours at {time}", {node: value for node, value in found.items() if value}, others)
    tests.one_line("no such key", tests.run("tools/timeline", "coloured", "--colour", "no"), 2, "no node has a value for 'no'")


IN_PAGE = """<script>(function look() {
  if (document.body.dataset.settled !== "yes") { setTimeout(look, 20); return; }
  show(20);
  const plain = svgOf();
  find(nodes[edges.find((edge) => there(edge[3], now))[0]][0]);
  const told = { plain, found: svgOf(), ties: byId("found").textContent, ticks: byId("ticks").textContent };
  told.png = pngOf().toDataURL("image/png").slice(0, 22);
  told.ends = [...document.querySelectorAll(".ends")].map((part) => [...part.children].map((label) => label.textContent));
  told.saves = [...document.querySelectorAll("button")].map((button) => button.textContent);
  told.over = document.documentElement.scrollWidth - innerWidth;
  document.body.textContent = "told:" + encodeURIComponent(JSON.stringify(told)) + ":told";
})();</script></body>"""


def page_in_browser(tests: Tests) -> None:
    """The page in a browser, where there is one: what it draws, saves, and lets step back."""
    browser = shutil.which("chromium")
    if browser is None:
        return
    page = tests.run("tools/timeline", "index", "--points", "45").stdout.decode().replace("</body>", IN_PAGE)
    tests.file("page.html", page)
    words = [browser, "--headless", "--no-sandbox", "--disable-gpu", "--virtual-time-budget=60000", "--dump-dom"]
    shown = subprocess.run([*words, (tests.folder / "page.html").as_uri()], capture_output=True).stdout.decode()
    found = re.search("told:(.*):told", shown)
    if found is None:
        tests.check("a page in a browser", False, shown[-500:])
        return
    told, data = json.loads(unquote(found[1])), json.loads(script_of(page.encode()))
    drawn = [sum(in_runs(runs, 20) or in_runs(runs, 19) for *_, runs in data[kind]) for kind in ("edges", "nodes")]
    plain, focus = (xml.fromstring(told[name]) for name in ("plain", "found"))
    paths = list(plain.iter(f"{SVG}path"))
    filled = [path for path in paths if path.get("fill") != "none"]
    gone = sum(in_runs(runs, 19) and not in_runs(runs, 20) for _, runs in data["nodes"])
    tests.same("nodes of a saved picture", len(filled), drawn[1] - gone)
    # A node that is there is filled and has a line around it; one that is gone has a line alone.
    tests.same("lines of a saved picture", len(paths) - len(filled), drawn[0] + drawn[1])
    pale = sum(path.get("opacity") == "0.2" for path in focus.iter(f"{SVG}path"))
    tests.check("all but a node and its neighbours step back", 0 < pale < 2 * drawn[1], pale)
    tests.same("a found node tells its edges, and with whom", told["ties"], ties_told(data, 20))
    tests.check("labels stand under the slider", told["ticks"].startswith(data["labels"][0]), told["ticks"])
    labels = data["labels"]
    tests.same("labels stand under both charts", told["ends"], 2 * [[labels[0], labels[len(labels) // 2], labels[-1]]])
    tests.same("buttons", told["saves"], ["PNG", "SVG", "Play"])
    tests.same("a saved picture", told["png"], "data:image/png;base64,")
    tests.check("nothing stands over the side of the window", told["over"] <= 0, told["over"])


def ties_told(data: dict[str, Any], place: int) -> str:
    """What the page says of the node that the first edge at an instant comes from."""
    edges = [(source, target) for source, target, _, runs in data["edges"] if in_runs(runs, place)]
    node = edges[0][0]
    own = [ends for ends in edges if node in ends]
    others = sorted({data["nodes"][target if source == node else source][0] for source, target in own})
    more = f" and {len(others) - 12} more" if len(others) > 12 else ""
    many = "edge" if len(own) == 1 else "edges"
    return f"{data['nodes'][node][0]}: {len(own)} {many} drawn, with {', '.join(others[:12])}{more}"


def in_runs(runs: Sequence[int], place: int) -> bool:
    return any(start <= place < end for start, end in zip(runs[::2], runs[1::2]))


def script_of(page: bytes) -> str:
    found = PageParts()
    found.feed(page.decode())
    return found.scripts[0]


def spells_of_page(tests: Tests, rows: Sequence[Row], times: Sequence[int]) -> None:
    """The same instants as GEXF: at each of them the spells have the edges that the rows have."""
    words = ["index", "--format", "gexf", "--output", "page.gexf", "--points", "45"]
    tests.run("tools/timeline", *words)
    root = xml.parse(tests.folder / "page.gexf").getroot()
    space = root.tag.partition("}")[0] + "}"
    names = {node.get("id"): node.get("label", "") for node in root.iter(f"{space}node")}
    for time in times:
        found = []
        for edge in root.iter(f"{space}edge"):
            bounds = [(float(s.get("start", "")), float(s.get("end", ""))) for s in edge.iter(f"{space}spell")]
            if any(start <= time < end for start, end in bounds):
                found.append((names[edge.get("source")], names[edge.get("target")]))
        due = sorted((row.source, row.target) for row in rows if holds(row, time))
        if sorted(found) != due:
            tests.same(f"spells of GEXF at {time}", sorted(found), due)
            return
    tests.check("spells of GEXF", True)
    try:
        networkx: Any = importlib.import_module("networkx")
    except ImportError:
        return
    read = networkx.read_gexf(tests.folder / "page.gexf")
    seen = sum(any(holds(row, time) for time in times) for row in rows)
    tests.same("spells by networkx", (read.number_of_edges(), read.graph["mode"]), (seen, "dynamic"))


def changes_of_page(tests: Tests, rows: Sequence[Row], times: Sequence[int], told: dict[str, Any]) -> None:
    """What is new and gone between two instants of a page; each row is an edge of its own."""
    for place in range(1, len(times)):
        before, now = ([i for i, row in enumerate(rows) if holds(row, time)] for time in times[place - 1 : place + 1])
        nodes = len(due_nodes(rows, times[place])) - len(due_nodes(rows, times[place - 1]))
        due = [nodes, 0, len(set(now) - set(before)), len(set(before) - set(now))]
        if told["counts"][place][2:] != due:
            tests.same(f"what is new and gone at {times[place]}", told["counts"][place][2:], due)
            return
    tests.check("what is new and gone", True)


# Spells.


def spells(tests: Tests) -> None:
    """The tables of a history from its rows, where pandas is there; elsewhere a line that says what it needs."""
    if importlib.util.find_spec("pandas") is None:
        tests.one_line("spells without pandas", tests.run("tools/spells", "index"), 1, "needs numpy and pandas")
        return
    rng = random.Random(31)
    for seed in range(6):
        rows = random_rows(rng, ends=True, weights=seed % 2 == 1)
        rows = [row for row in rows if row.end is None or row.end > row.begin]
        lines = [f"{row.source},{row.target},{row.begin},{'' if row.end is None else row.end}\n" for row in rows]
        made = tests.run("tools/edges2script", "--columns", "source,target,time,end", tests.file("edges", "".join(lines)))
        tests.load("index", made.stdout)
        found = list(csv.DictReader(io.StringIO(tests.run("tools/spells", "index", "--verify").stdout.decode())))
        due = [(row.source, row.target, str(row.begin), "" if row.end is None else str(row.end)) for row in rows]
        told = [(row["source"], row["target"], row["start"], row["end"]) for row in found]
        tests.same(f"spells of edges {seed}", sorted(told), sorted(due))
        nodes = csv.DictReader(io.StringIO(tests.run("tools/spells", "index", "nodes").stdout.decode()))
        firsts: dict[str, int] = {}
        for row in rows:
            for end in (row.source, row.target):
                firsts[end] = min(firsts.get(end, row.begin), row.begin)
        tests.same(f"spells of nodes {seed}", {row["name"]: row["start"] for row in nodes}, {n: str(t) for n, t in firsts.items()})
    dated = "a,b,2020-03-01,2020-03-05\nb,a,1960-01-01,\n"
    made = tests.run("tools/edges2script", "--times", "iso", "--columns", "source,target,time,end", tests.file("edges", dated))
    tests.load("index", made.stdout)
    table = tests.run("tools/spells", "index", "--ids").stdout.decode().split("\n")[1:-1]
    # Edges, and nodes within a row, are numbered in the order of their times.
    tests.same("spells as dates", table, ["1,1,2,True,1960-01-01,", "2,2,1,True,2020-03-01,2020-03-05"])
    values = tests.run("tools/spells", "index", "node-values", "--key", "name").stdout.decode().split("\n")[1:-1]
    tests.same("spells of values", values, ["1,name,b,1960-01-01,", "2,name,a,1960-01-01,"])
    changes = tests.run("tools/spells", "index", "changes", "--instants").stdout.decode().split("\n")[1:-1]
    due_changes = [line for line in made.stdout.decode().split("\n") if line[:1].isdigit()]
    tests.same("a row for each change", len(changes), len(due_changes))
    tests.one_line("no such file", tests.run("tools/spells", "none"), 1, "none: no such file")
    tests.same("a table that there is not", tests.run("tools/spells", "index", "ties").returncode, 2)
    data = bytearray((tests.folder / "index").read_bytes())
    data[-1] ^= 1
    tests.file("damaged", bytes(data))
    tests.one_line("a damaged file", tests.run("tools/spells", "damaged", "--verify"), 1)
    if importlib.util.find_spec("pyarrow") is None:
        ran = tests.run("tools/spells", "index", "--output", "edges.parquet")
        tests.one_line("Parquet without pyarrow", ran, 1, "needs pyarrow")
    else:
        pandas: Any = importlib.import_module("pandas")
        tests.run("tools/spells", "index", "--output", "edges.parquet")
        tests.same("Parquet", len(pandas.read_parquet(tests.folder / "edges.parquet")), 2)


def spells_as_gexf(tests: Tests) -> None:
    """Nodes and edges with the spells that the changes tell, without pandas."""
    lines = ["10 +node 1", "10 +node 2", "10 nset 1 name Ana", "20 +edge 7 1 2 dir", "30 -edge 7", "40 +edge 7 2 1 undir", "50 nset 1 name A&B"]
    tests.load("index", bytes_of("".join(f"{line}\n" for line in ["create 4 2 union", f"load {len(lines)}", *lines])))
    ran = tests.run("tools/spells", "index", "--output", "history.gexf")
    graph = xml.parse(tests.folder / "history.gexf").getroot()
    space = "{http://www.gexf.net/1.2draft}"

    def told(kind: str, *names: str) -> list[Any]:
        found = graph.iter(space + kind)
        return [(*(one.get(name) for name in names), [(s.get("start"), s.get("end")) for s in one.iter(space + "spell")]) for one in found]

    tests.same("GEXF of a history ends well", ran.returncode, 0)
    nodes = [("n1", "A&B", [("10", "Infinity")]), ("n2", "2", [("10", "Infinity")])]
    tests.same("nodes of a history as GEXF", told("node", "id", "label"), nodes)
    edges = [("n1", "n2", None, [("20", "30")]), ("n2", "n1", "undirected", [("40", "Infinity")])]
    tests.same("edges of a history as GEXF", told("edge", "source", "target", "type"), edges)
    tests.one_line("no file for GEXF", tests.run("tools/spells", "none", "--format", "gexf"), 1, "none: no such file")


# Late records.

OLD_LINES = ["10 +node 1", "20 +node 2", "20 nset 2 name Bo", "30 +edge 7 1 2 dir"]
LATE_LINES = ["# late", "25 +node 3", "", "15 nset 1 name Ana "]


def rebuild(tests: Tests) -> None:
    """A rebuilt index is the one that all changes make in the order of their times."""

    def script(lines: Sequence[str]) -> bytes:
        return bytes_of("".join(f"{line}\n" for line in ["create 4 2 union", f"load {len(lines)}", *lines]))

    tests.load("old", script(OLD_LINES))
    before = (tests.folder / "old").read_bytes()
    late = tests.file("late", "".join(f"{line}\n" for line in LATE_LINES))
    ran = tests.run("tools/rebuild", "old", late, "new")
    tests.one_line("late changes are told", ran, 0, "rebuild: 6 changes, 2 of them late\n")
    whole = [OLD_LINES[0], LATE_LINES[3], *OLD_LINES[1:3], LATE_LINES[1], OLD_LINES[3]]
    tests.load("due", script(whole))
    due = (tests.folder / "due").read_bytes()
    tests.same("late changes take their places", (tests.folder / "new").read_bytes(), due)
    tests.one_line("a new file that is there", tests.run("tools/rebuild", "old", late, "new"), 2, "is there already")
    wrong = tests.file("wrong", "15 +edge 8 1 2 dir\n5 frob\n")
    tests.one_line("a late change that cannot hold", tests.run("tools/rebuild", "old", wrong), 2, "late change 2", "5 frob", "form")
    tests.same("the old file is as it was", (tests.folder / "old").read_bytes(), before)
    ran = tests.run("tools/rebuild", "old", wrong, "--skip-refused", "--keep")
    told = text_of(ran.stderr).split("\n")
    tests.same("what is left out is listed", [line.count("left out") for line in told], [1, 1, 1, 0])
    tests.same("nothing held", (tests.folder / "old").read_bytes(), before)
    tests.same("the old file is kept", (tests.folder / "old.old").read_bytes(), before)
    command, environment = tests.command("tools/rebuild", "old", "-", "--at-equal-times", "before")
    subprocess.run(command, input=b"20 msg 1 1 x\n", env=environment, cwd=tests.folder, capture_output=True)
    tests.load("due", script([OLD_LINES[0], "20 msg 1 1 x", *OLD_LINES[1:]]))
    tests.same("before those of its instant", (tests.folder / "old").read_bytes(), (tests.folder / "due").read_bytes())
    tests.one_line("no such file", tests.run("tools/rebuild", "none", late), 2, "none: no such file")
    tests.one_line("no such late file", tests.run("tools/rebuild", "old", "none"), 1, "none")


# Words.


def words_are_told(tests: Tests) -> None:
    """What bash completes are the options of --help, and the manual page has the commands of docs/SCRIPT.md."""
    source = f'source "{ROOT}/tools/completion.bash"; '
    for tool in ("edges2script", "snapshot", "growth", "spells", "timeline", "rebuild"):
        told = tests.run(f"tools/{tool}", "--help").stdout.decode()
        due = {option for line in re.findall(r"^  -.*$", told, re.M) for option in re.findall(r"--[a-z-]+", line)}
        offered = subprocess.run(["bash", "-c", f"{source}_deltagraph_options {tool}"], capture_output=True)
        tests.same(f"the options of {tool} are completed", set(offered.stdout.decode().split()), due)
    for line, due_words in (
        (["edges2script", "--form", "s"], ["snap", "sociopatterns"]),
        (["tools/growth", "--sv"], ["--svg"]),
        (["snapshot", "index", "la"], ["last"]),
        (["deltagraph", "--"], ["--cache", "--checked"]),
        (["growth", "--columns", "sne"], ["sne", "snet"]),
        (["edges2script", "--mes"], ["--messages"]),
    ):
        words = " ".join(f"'{word}'" for word in line)
        ask = f"COMP_WORDS=({words}); COMP_CWORD={len(line) - 1}; _deltagraph {line[0]} '{line[-1]}' '{line[-2]}'; "
        found = subprocess.run(["bash", "-c", f'{source}{ask}printf "%s\\n" "${{COMPREPLY[@]}}"'], capture_output=True)
        tests.same(f"what is completed of {line}", found.stdout.decode().split(), due_words)
    manual = (ROOT / "docs" / "deltagraph.1").read_text(encoding="utf-8")
    script = (ROOT / "docs" / "SCRIPT.md").read_text(encoding="utf-8")
    for part, marks in (("## Commands", r"^\| `([a-z]+)"), ("## Refusals", r"^\| [0-9]+ `([a-z-]+)`")):
        section = script.partition(part)[2].partition("\n## ")[0]
        missing = [word for word in re.findall(marks, section, re.M) if word not in manual]
        tests.same(f"the manual page has what is in {part[3:]}", missing, [])


# The benchmark.

LIAR = """#!/bin/sh
exec "{program}" "$1" | sed -u 's/^ok {word} \\(.*\\) [0-9]*$/ok {word} \\1 99/'
"""


BENCH_MEASURES = ["build", "cold retrieval", "100 retrievals", "100 releases and a sweep", "32 instants at once"]
BENCH_MEASURES += ["counts", "neighbours of a hub", "listing", "20 appends of 50", "20 appends of 50 over 20 graphs"]


def bench(tests: Tests) -> None:
    ran = tests.run("bench/run", "--events", "2000", "--appends", "20", "--folder", ".")
    text = ran.stdout.decode()
    tests.same("the benchmark ends well", (ran.returncode, text.count("none differs")), (0, 2))
    for measure in BENCH_MEASURES:
        cells = re.findall(rf"^\| {measure} \|(.*)\|$", text, re.M)
        tests.same(f"the benchmark has times and memory: {measure}", len(cells), 4)
    for word in ("counts", "neighbours"):
        bench_of_a_liar(tests, word)


def bench_of_a_liar(tests: Tests, word: str) -> None:
    liar = tests.file("liar", LIAR.format(program=tests.built, word=word))
    os.chmod(liar, 0o755)
    words = [
        "--program",
        liar,
        "--events",
        "50",
        "--appends",
        "1",
        "--networks",
        "workload",
        "--stores",
        "deltagraph,log",
    ]
    ran = tests.run("bench/run", *words, "--folder", ".")
    told = re.search(rf"{word}.* at instant [0-9]+: deltagraph has", text_of(ran.stderr))
    tests.check(f"a difference of {word} ends the benchmark", ran.returncode == 1 and told is not None, ran)


def main() -> int:
    tests = Tests(sys.argv[1], sys.argv[2])
    parts = [convert_many, convert_forms, convert_batches, other_forms, large, spread_in_parts, dates]
    parts += [snapshots, growth, short_way, timeline, spells, spells_as_gexf, rebuild, messages, failures, words_are_told, bench]
    for part in parts:
        try:
            part(tests)
        except Exception:  # what a test stands on is not as it has to be
            tests.check(part.__name__, False, traceback.format_exc())
    print(f"tools: {tests.passed} passed, {tests.failed} failed")
    return 1 if tests.failed else 0


if __name__ == "__main__":
    sys.exit(main())
