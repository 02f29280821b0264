"""Splits histories into parts, and reads them together. Which files are due is computed here, from the events that belong to
a part and from docs/FORMATS.md. What a listing over all parts has is due from the whole history, by replaying its events.

A split is killed before each of its writes and syncs, and within each write. The index is then as it was. Each file that it
was to write is blank, or an index without a batch, or its part, as docs/RUNNING.md says, and `deltagraph` answers over it what
the machine of lib/machine.py answers over such a history. Another split is refused where one of the files is an index.

  tests/run parts -- SEEDS     random histories with the seeds below SEEDS
"""

from __future__ import annotations

import os
import random
import signal
import subprocess
import sys
import tempfile
from typing import Optional, Sequence

from tests.lib import runs
from tests.lib.changes import Changes
from tests.lib.history import EDGE, NODE, NODE_ATTR, History
from tests.lib.machine import Due, Machine, commands_of, split
from tests.lib.plans import IndexGraph, point
from tests.lib.runs import Tests, content, in_use, is_blank, lines, put
from tests.suites.model import any_history

MOST_PARTS = 16
HISTORIES = 200
COLUMNS = ["s", "sn", "se", "sne"]
USAGE = b"dg_parts: usage: dg_parts split INDEX OUT P | read OUT P\n"
# Kinds of calls that fail, as `fail.c` counts them.
KINDS = ["alloc", "read", "write", "sync"]
MOST_CALLS = 5000
# What is killed: what the kill comes before, and what the library is told.
KILLS = [
    ("a write", {"fail_kind": "write"}),
    ("the back half of a write", {"fail_kind": "write", "fail_torn": 1}),
    ("a sync", {"fail_kind": "sync"}),
    ("a truncation", {"fail_kind": "truncate"}),
]
KILLED = 3  # parts of the split that is killed
# A history of which each of three parts has edges, values and messages.
MIXED = ["create 3 2 balanced", "load 9", "1 +node 1", "1 +node 2", "2 +node 3", "3 nset 1 name Ada", "3 nset 2 name Bo"]
MIXED += ["4 nset 3 kind tree", "5 +edge 1 1 2 dir", "5 +edge 2 2 3 undir", "6 +edge 3 3 1 dir", "append 10", "7 eset 1 w 5"]
MIXED += ["7 eset 2 w 6", "8 eset 3 w 5", "9 msg 1 2 hello", "9 msg 2 3 hello", "9 msg 3 1 again", "10 ndel 1 name"]
MIXED += ["11 edel 2 w", "12 -edge 2", "13 +node 4"]
ASK = ["verify", "tree", "at 9 snet", "list 1", "append 1\n20 +node 9", "verify"]


def part_of(event: tuple, parts: int) -> Optional[int]:
    """The number of the part that an event belongs to; none where it belongs to every part."""
    if event[1] in ("+", "-"):
        kind, number = event[2][:2]
        return None if kind == NODE else number % parts
    return event[2] % parts


def parts_of(history: History, names: Sequence[bytes], count: int) -> list[History]:
    """The parts of a history of fewer events than a batch may have."""
    made = []
    for number in range(count):
        part = History(history.size, history.arity, history.function)
        events = [event for event in history.events if part_of(event, count) in (None, number)]
        if events:
            part.add(events, names)
        made.append(part)
    return made


class Program:
    """The program, run over files of a folder."""

    def __init__(self, path: str, folder: str, library: str):
        self.path, self.folder, self.library = os.path.abspath(path), folder, library
        self.runs = 0

    def place(self, name: str) -> str:
        return os.path.join(self.folder, name)

    def run(self, *words: str, script: bytes = b"", **failing: object) -> subprocess.CompletedProcess:
        variables = {name.upper(): str(value) for name, value in failing.items()}
        if variables:
            variables["LD_PRELOAD"] = self.library
        self.runs += 1
        return subprocess.run(
            [self.path, *words], input=script, capture_output=True, cwd=self.folder, env={**os.environ, **variables}, timeout=60
        )

    def outs(self, count: int, name: str = "out") -> list[Optional[bytes]]:
        return [content(self.place(f"{name}.{number}")) for number in range(count)]

    def put_outs(self, images: Sequence[Optional[bytes]], name: str = "out") -> None:
        for number in range(MOST_PARTS):
            put(self.place(f"{name}.{number}"), images[number] if number < len(images) else None)


class Reader:
    """What a script over parts is answered: what the machine answers over the history that they are the parts of, but for the
    bytes that `at` reads, and for what is no command here."""

    def __init__(self, parts: Sequence[History], whole: History, names: Sequence[bytes]):
        self.parts, self.whole = [part for part in parts if part.events], Machine(whole, names)

    def reply(self, line: str) -> list[str]:
        word, *words = line.split(" ")
        if word not in ("at", "list", "release"):
            return ["refused 1 syntax 1"]
        if word == "at" and words[1] not in COLUMNS:
            return [f"refused 1 syntax {line.index('t', 2) + 1}"]
        reply = self.whole.reply(line)
        if word == "at" and reply[0].startswith("ok"):
            return [f"{reply[0].rsplit(' ', 1)[0]} {sum(self.weight(part, int(words[0]), words[1]) for part in self.parts)}"]
        return reply

    @staticmethod
    def weight(part: History, time: int, columns: str) -> int:
        """What a part reads of its graph as of an instant, which may lie outside of its own."""
        first, last = part.ends()
        return IndexGraph(part, columns).costs[point(part, min(time, last))][0] if first <= time else 0


def text_of(replies: Sequence[Sequence[str]]) -> bytes:
    return "".join(line + "\n" for reply in replies for line in [*reply, "end"]).encode()


def random_history(rng: random.Random) -> tuple[History, list[bytes]]:
    """A history of some batches, and the names that it brings."""
    history, changes = any_history(rng, rng.choice([2, 2, 3, 5]), rng.choice([2, 2, 3])), Changes(rng)
    changes.has_messages = history.is_wide
    for batch in range(rng.choice([0, 1, 1, 2, 5])):
        changes.time += 1 if batch else 0
        names: list[bytes] = []
        events = [changes.next(names)[1] for _ in range(rng.choice([1, 2, 5, 13, 60]))]
        history.add(events, names)
    return history, list(changes.names)


def random_script(rng: random.Random, ends: Optional[tuple[int, int]]) -> list[str]:
    """Commands over the parts of a history that has these ends."""
    asked, (first, last) = [], ends or (0, 0)
    for _ in range(rng.choice([3, 8, 20])):
        word = rng.choice(["at", "at", "list", "list", "release", "other"])
        if word == "at":
            asked.append(f"at {rng.randrange(max(0, first - 1), last + 2)} {rng.choice(COLUMNS)}")
        elif word == "other":
            asked.append(rng.choice(["plan 20 s", "at 20 st", "several s 20", "counts 1", "verify"]))
        else:
            asked.append(f"{word} {rng.randrange(1, 2 + sum(line.startswith('at ') for line in asked))}")
    return asked


def check_history(tests: Tests, program: Program, seed: int) -> None:
    """A random history is split, and read again."""
    rng = random.Random(seed)
    history, names = random_history(rng)
    count = rng.choice([1, 2, 2, 3, 5, 16])
    parts = parts_of(history, names, count)
    put(program.place("index"), history.file())
    # A file that is blank may be there, or none.
    program.put_outs([rng.choice([None, b"", b"\0" * 18]) for _ in range(count)])
    ran = program.run("split", "index", "out", str(count))
    tests.same(f"seed {seed}: split", (ran.returncode, ran.stdout, ran.stderr), (0, b"", b""))
    tests.same(f"seed {seed}: the index", content(program.place("index")), history.file())
    for number, (part, image) in enumerate(zip(parts, program.outs(count))):
        # Behind the bytes in use those of a longer blank file may stand.
        tests.check(f"seed {seed}: part {number}", image is not None and image[: len(part.file())] == part.file())
    reader, asked = Reader(parts, history, names), random_script(rng, history.ends())
    due = [reader.reply(line) for line in asked]
    ran = program.run("read", "out", str(count), script=lines(asked))
    tests.same(f"seed {seed}: read", (ran.returncode, ran.stdout, ran.stderr), (0, text_of(due), b""))
    tests.same(f"seed {seed}: the parts behind a reading", program.outs(count)[0][: len(parts[0].file())], parts[0].file())


def five() -> tuple[History, list[bytes]]:
    """The history of docs/FORMATS.md."""
    history = History(2, 2, "intersection")
    names = [b"name", b"A"]
    events = [(10, "+", (NODE, 1)), (20, "+", (NODE, 2)), (30, "+", (EDGE, 5, 1, 2, 1))]
    events += [(40, NODE_ATTR, 1, 0, None, 1), (50, "-", (EDGE, 5, 1, 2, 1))]
    history.add(events, names)
    return history, names


def check_words(tests: Tests, program: Program) -> None:
    """Words of no form are refused, and touch nothing."""
    program.put_outs([])
    wrong = [[], ["split"], ["read", "out"], ["split", "index", "out"], ["read", "out", "0"], ["read", "out", "17"]]
    wrong += [["read", "out", "02"], ["read", "out", "+2"], ["read", "", "2"], ["split", "", "out", "2"], ["split", "index", "", "2"]]
    wrong += [["read", "out", "2", "3"], ["splits", "index", "out", "2"], ["read", "out", "2 "], ["split", "index", "out", "2", "x"]]
    for words in wrong:
        ran = program.run(*words)
        tests.same(f"the words {words}", (ran.returncode, ran.stdout, ran.stderr), (2, b"", USAGE))
    tests.same("no part is made", program.outs(2), [None, None])


def check_statuses(tests: Tests, program: Program) -> None:
    """Each way to end that is not done, and what it leaves."""
    history, names = five()
    parts = parts_of(history, names, 2)
    images = [part.file() for part in parts]
    tests.same("the sizes of the parts", [len(image) for image in images], [202, 544])
    tests.same("the second part is the whole file", images[1], history.file())
    put(program.place("index"), history.file())
    program.put_outs([])
    ran = program.run("split", "index", "out", "2")
    tests.same("split in two", (ran.returncode, program.outs(2)), (0, images))
    ran = program.run("split", "index", "out", "2")
    tests.same("split again", (ran.returncode, program.outs(2)), (8, images))
    tests.check("an output exists", ran.stderr.startswith(b"dg_parts: an output exists\n"), ran.stderr)
    program.put_outs([None, images[1]])
    ran = program.run("split", "index", "out", "2")
    tests.same("the second exists", (ran.returncode, program.outs(2)[1]), (8, images[1]))
    tests.check("the first was not written", in_use(program.outs(2)[0] or b"") == b"")
    put(program.place("none"), None)
    ran = program.run("split", "none", "fresh", "2")
    tests.same("no index", ran.returncode, 10)
    tests.check("no index is said", ran.stderr.startswith(b"dg_parts: no index\n"), ran.stderr)
    put(program.place("index"), b"hello, this is no index file")
    ran = program.run("split", "index", "fresh", "2")
    tests.same("a foreign file", ran.returncode, 7)
    tests.check("it is refused", ran.stderr.startswith(b"dg_parts: the index is refused\n"), ran.stderr)
    check_readings(tests, program, images)


def check_readings(tests: Tests, program: Program, images: Sequence[bytes]) -> None:
    """The statuses of a reading, and its row of commands."""
    asked = ["at 30 s", "list 1", "at 9 s", "plan 20 s", "release 1", "list 1"]
    due = [["ok at 1 40"], ["ok list 1 3", "node 1", "node 2", "edge 5 1 2 dir"], ["refused 7 out-of-range 10 50"]]
    due += [["refused 1 syntax 1"], ["ok release 1"], ["refused 8 unknown-handle 1"]]
    program.put_outs(images)
    ran = program.run("read", "out", "2", script=lines(asked))
    tests.same("the row", (ran.returncode, ran.stdout), (0, text_of(due)))
    for number in range(2):
        program.put_outs([None if at == number else image for at, image in enumerate(images)])
        ran = program.run("read", "out", "2", script=lines(asked))
        tests.same(f"part {number} is not there", (ran.returncode, ran.stdout), (10, b""))
        program.put_outs([image[:30] if at == number else image for at, image in enumerate(images)])
        ran = program.run("read", "out", "2", script=lines(asked))
        tests.same(f"part {number} is cut", (ran.returncode, ran.stdout), (7, b""))
        tests.check("which part", f"part {number}".encode() in ran.stderr, ran.stderr)
    other = History(2, 2, "intersection")
    other.add([(10, "+", (NODE, 1))], [b"other"])
    program.put_outs([images[0], other.file()])
    ran = program.run("read", "out", "2", script=lines(asked))
    tests.same("other names", (ran.returncode, ran.stdout), (11, b""))
    tests.check("the parts differ", ran.stderr.startswith(b"dg_parts: the parts differ\n"), ran.stderr)
    empty = History(2, 2, "intersection")
    program.put_outs([empty.file(), empty.file()])
    ran = program.run("read", "out", "2", script=lines(["at 1 s", "at 0 s", "list 1"]))
    due = [["refused 7 out-of-range empty"]] * 2 + [["refused 8 unknown-handle 1"]]
    tests.same("no part has an event", (ran.returncode, ran.stdout), (0, text_of(due)))
    program.put_outs(images)
    ran = program.run("read", "out", "2", script=lines(["at 30 s"] * 128))
    due = [[f"ok at {handle} 40"] for handle in range(1, 128)] + [["refused 9 pool-full 127 1"]]
    tests.same("as many handles as there may be", (ran.returncode, ran.stdout), (0, text_of(due)))


def check_damage(tests: Tests, program: Program) -> None:
    """A list of one part is damaged: a retrieval that reads it names it, and another does not meet it."""
    history, names = five()
    images = [bytearray(part.file()) for part in parts_of(history, names, 2)]
    # The count of events of list 0, whose column stands behind the directory.
    images[0][202 - 43 : 202 - 39] = b"\xff" * 4
    images[1][303:307] = b"\xff" * 4
    for damaged in ([0], [1], [0, 1]):
        whole = [part.file() for part in parts_of(history, names, 2)]
        program.put_outs([bytes(images[at]) if at in damaged else whole[at] for at in range(2)])
        ran = program.run("read", "out", "2", script=lines(["at 15 s", "at 50 s", "list 1"]))
        tests.check(f"a damaged list of {damaged}", ran.returncode in (0, 7), (ran.returncode, ran.stderr))
        if ran.returncode == 0:
            first = ran.stdout.split(b"\n")[0]
            tests.check("it is named or not read", first in (b"refused 15 damaged list 0 s", b"ok at 1 42", b"ok at 1 84"), first)


def check_failures(tests: Tests, program: Program) -> None:
    """Each call of a split fails in turn: a status with its cause, and outs that are blank, a front, or whole."""
    history, names = five()
    images = [part.file() for part in parts_of(history, names, 2)]
    empty = History(2, 2, "intersection").file()
    put(program.place("index"), history.file())
    for kind in KINDS:
        for number in range(1, MOST_CALLS):
            program.put_outs([])
            ran = program.run("split", "index", "out", "2", fail_kind=kind, fail_at=number)
            case = f"{kind} {number} fails"
            if ran.returncode == 0:
                tests.same(case, program.outs(2), images)
                break
            tests.same(f"{case}: its status", ran.returncode, 6 if kind == "alloc" else 5)
            for image, due in zip(program.outs(2), images):
                held = in_use(image or b"")
                # Of a file that was being made the first bytes may be missing.
                tests.check(f"{case}: the outs", held in (b"", empty[:-1], due[:-1]), held)
            tests.same(f"{case}: the index", content(program.place("index")), history.file())
        else:
            tests.check(f"{kind}: some call does not fail", False)


class Kills:
    """Splits of one history that are killed."""

    def __init__(self, tests: Tests, program: Program, ordinary: runs.Program):
        self.tests, self.program, self.ordinary = tests, program, ordinary
        machine = Machine()
        for one in commands_of(lines(MIXED)):
            machine.answer(*split(one))
        self.index, parts = machine.file(), parts_of(machine.history, machine.names, KILLED)
        self.images = [part.file() for part in parts]
        self.states = [self.states_of(part, machine.names) for part in parts]
        self.met: set[tuple[int, bytes]] = set()  # the states in which an out was left

    @staticmethod
    def states_of(part: History, names: Sequence[bytes]) -> dict[bytes, Due]:
        """What may be in use of the file of a part, and what the ordinary program then answers: no index is there, or one
        without a batch, or the part."""
        made = [Machine(), Machine(History(part.size, part.arity, part.function)), Machine(part, names)]
        return {in_use(machine.file()): Due(machine, ASK) for machine in made}

    def all(self) -> None:
        put(self.program.place("index"), self.index)
        counts = {what: self.in_turn(what, **failing) for what, failing in KILLS}
        print("killed before", ", ".join(f"{what} {count} times" for what, count in counts.items()), flush=True)
        self.tests.same("no file is cut", counts.pop("a truncation"), 0)
        self.tests.check("all else is done more than once for each part", min(counts.values()) > KILLED, counts)
        for number, states in enumerate(self.states):
            left = [state for state in states if (number, state) in self.met]
            self.tests.same(f"what kills leave of part {number}", left, list(states))

    def in_turn(self, what: str, **failing: object) -> int:
        """Kills a split before each of these calls in turn, and gives how many there are."""
        count = 0
        while self.is_killed(f"killed before {what}, number {count + 1}", fail_at=count + 1, **failing):
            count += 1
        return count

    def is_killed(self, case: str, **failing: object) -> bool:
        """Whether there is such a call, so that the split was killed."""
        self.program.put_outs([])
        ran = self.program.run("split", "index", "out", str(KILLED), fail_deadly=1, **failing)
        outs = self.program.outs(KILLED)
        if ran.returncode == 0:
            self.tests.same(f"{case}, of which there are fewer", outs, self.images)
            return False
        self.tests.same(case, (ran.returncode, ran.stdout, ran.stderr), (-signal.SIGKILL, b"", b""))
        self.tests.check(f"{case}: the index", content(self.program.place("index")) == self.index)
        for number, image in enumerate(outs):
            self.open(f"{case}: part {number}", number, image)
        self.split_again(case, outs)
        return ran.returncode == -signal.SIGKILL

    def open(self, case: str, number: int, image: Optional[bytes]) -> None:
        """What a kill has left of a part is one of its states, in which the ordinary program answers and takes a batch."""
        held = in_use(image or b"")
        due = self.states[number].get(held)
        self.tests.check(f"{case} is one of its states", due is not None, held)
        if due is None:
            return
        self.met.add((number, held))
        ran, after = self.ordinary.over(image, lines(ASK))
        self.tests.same(f"{case} is opened", (ran.status, ran.replies, ran.errors), (0, b"".join(due.replies), b""))
        self.tests.check(f"{case} takes a batch", in_use(after) == in_use(due.machines[-1].file()))

    def split_again(self, case: str, outs: Sequence[Optional[bytes]]) -> None:
        """Behind a kill another split is refused where a part is an index. Else, and into new files, it makes all of them."""
        taken = [number for number, image in enumerate(outs) if not is_blank(image or b"")]
        ran, after = self.program.run("split", "index", "out", str(KILLED)), self.program.outs(KILLED)
        if taken:
            said = ran.stderr.startswith(b"dg_parts: an output exists\n") and f"part {taken[0]} ".encode() in ran.stderr
            self.tests.check(f"{case}, split again: it is refused", ran.returncode == 8 and said, (ran.returncode, ran.stderr))
            found, due = ([image or b"" for image in images] for images in (after, outs))
            self.tests.same(f"{case}, split again: nothing is written", found, due)
        else:
            self.tests.same(f"{case}, split again", (ran.returncode, ran.stderr, after), (0, b"", self.images))
        self.program.put_outs([], "fresh")
        ran = self.program.run("split", "index", "fresh", str(KILLED))
        found = ran.returncode, ran.stderr, self.program.outs(KILLED, "fresh")
        self.tests.same(f"{case}, split into new files", found, (0, b"", self.images))


def main() -> bool:
    path, folder, library, ordinary, *words = sys.argv[1:]
    seeds = int(words[0]) if words else HISTORIES
    tests, program = Tests("parts"), Program(path, folder, library)
    check_words(tests, program)
    check_statuses(tests, program)
    check_damage(tests, program)
    check_failures(tests, program)
    with tempfile.TemporaryDirectory(dir=folder) as other:
        Kills(tests, program, runs.Program(ordinary, other)).all()
    for seed in range(seeds):
        check_history(tests, program, seed)
    return tests.end(f", {program.runs} runs")


if __name__ == "__main__":
    sys.exit(main())
