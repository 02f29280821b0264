"""A disk that is full, a file that may not grow or be written any more, and memory that lacks: what a run says, and that
nothing is lost. And what must not cost more: two kinds of batches, values that are found, and an instant that is named again.

Each run ends with the status that docs/SCRIPT.md names, and its replies are a front of those that are due, with want of
memory in place of a command's that is then as if it were not in the script. What is due, and the file behind it, come from the
machine of lib/machine.py. The file holds the batches that were answered, byte for byte, and the next run, with room, adds the
others.
"""

import os
import random
import resource
import shutil
import signal
import subprocess
import sys
import tempfile
from typing import List, NamedTuple

from tests.lib.changes import Changes
from tests.lib.machine import Due, Machine
from tests.lib.runs import CREATE, FIVE, NEVER_REFUSED, RESTORE, UNSOUND, Program, Ran, Tests, content, in_use, lines, put

FAILED = "the index file failed"
TOO_LARGE = "{}: File too large (os error 27)"
NO_SPACE = "{}: No space left on device (os error 28)"
READ_ONLY = "{} may not be written: Read-only file system (os error 30)"
LIST_ENDS = (10).to_bytes(8, "big") + (20).to_bytes(8, "big")  # the instants of the first list of the five changes, in its row
NOT_PERMITTED = "{}: Operation not permitted (os error 1)"
PAGE = 4096  # bytes
STEP = 7  # bytes between two limits of a file's size
MEMORIES = [*range(4, 12), 12, 14, 16, 18, 20, 24, 28, 32, 40, 48, 56, 64, 80, 96, 112, 128, 160, 200, 256, 320, 400]  # MB
REPEATED = 256  # MB, for 400,000 messages, which take about 13 as a set and 29 as cells
NOT_LOADED = 127  # the status that the system's loader ends with, where it finds no room for the C library
TOLD = ["refused 16 out-of-memory"]


class Batches(NamedTuple):
    """Commands that make a history, the reply that is due to each, and what is in use of the file before them and behind each."""

    commands: List[str]
    replies: List[bytes]
    states: List[bytes]


class Foretold:
    """What is due of commands over the file of a machine. What some scripts begin with alike is carried out once."""

    def __init__(self, machine):
        self.known = {(): (machine, [])}

    def behind(self, commands):
        """The machine behind these commands, and its replies."""
        if commands not in self.known:
            before, replies = self.behind(commands[:-1])
            machine = before.copy()
            self.known[commands] = machine, [*replies, machine.reply(commands[-1])]
        return self.known[commands]


def batches(seed, sizes, value=""):
    """A history in batches of these sizes. With a value each batch sets it at a node of its own, so that it takes more room."""
    changes, commands = Changes(random.Random(seed)), ["create 4 2 balanced"]
    for batch, size in enumerate(sizes):
        changes.time += 1 if batch else 0
        made = [line for line, _ in (changes.next([]) for _ in range(size))]
        if value:
            made.append(f"{changes.time} +node {1000 + batch}")
            made.append(f"{changes.time} nset {1000 + batch} long {value}{batch}")
        commands.append("\n".join([f"{'append' if batch else 'load'} {len(made)}", *made]))
    due = Due(Machine(), commands)
    return Batches(commands, due.replies, [in_use(machine.file()) for machine in due.machines])


class Limits:
    def __init__(self, tests, program):
        self.tests, self.program = tests, program

    def limited(self, index, script, prepare=None, words=()):
        """A run whose process is prepared so before it begins."""
        command = [self.program.path, *words, index]
        ran = subprocess.run(command, input=script, capture_output=True, preexec_fn=prepare)
        return Ran(ran.returncode, ran.stdout, ran.stderr)

    def look(self, name, index, made, ran, reason, by_signal=None):
        """A run that may have ended before its time for this reason: the file holds what was answered, or the next batch
        too. And the rest is added by a run with room."""
        said = "".join(f"deltagraph: {line}\n" for line in (FAILED, reason.format(index))).encode()
        answered = ran.replies.count(b"end\n")
        if answered == len(made.commands):
            self.tests.same(f"{name}: a whole run", (ran.status, ran.errors), (0, b""))
        elif by_signal:
            self.tests.same(f"{name}: it ends by the signal", ran.status, -by_signal)
        else:
            self.tests.same(f"{name}: it ends", (ran.status, ran.errors), (5, said))
        self.tests.same(f"{name}: its replies", ran.replies, b"".join(made.replies[:answered]))
        held = in_use(content(index) or b"")
        whole = [k for k in (answered, answered + 1) if made.states[k : k + 1] == [held]]
        self.tests.check(f"{name}: the file holds what was answered", whole, (answered, len(held or b"")))
        return whole[0] if whole else 0

    def goes_on(self, name, index, made, held):
        """A run with room adds what is left, and the file is sound."""
        ran = self.program.run(index, lines([*made.commands[held:], "verify"]))
        self.tests.same(f"{name}: the rest is added", in_use(content(index)), made.states[-1])
        last = ran.commands()[0][-1:]
        self.tests.check(f"{name}: it is sound", ran.status == 0 and last and last[0][0].startswith("ok verify sound"), last)

    # ---- the file

    def long_lists(self):
        """A list whose column is longer than any events are is opened all the same, since a start believes the lengths of
        columns. It is damaged where it is read, behind the columns in front of it, and without memory for it: the file is
        sparse. Where the start itself reads it, the start is refused."""
        _, five = self.program.over(None, lines([CREATE, FIVE]))
        _, two = self.program.over(None, lines([CREATE, "load 2\n10 +node 1\n20 +node 2"]))
        asked = ["s", "se", "st", "snet"]
        script = ["at 50 s", "verify", *(f"at 10 {columns}" for columns in asked)]
        for more in (42, 43, 10**9, 10**12):
            for column in "snet":
                named, replies, handle = f"list 0 {column}", ["ok at 1 0", f"ok verify unsound list 0 {column}"], 1
                for columns in asked:
                    handle += column not in columns
                    replies.append(f"refused 15 damaged {named}" if column in columns else f"ok at {handle} 42")
                due = 0, "".join(f"{reply}\nend\n" for reply in replies).encode(), b""
                self.long_list(f"{more} bytes more in {named}", five, {column: more}, script, due)
                said = f"unsound at record list 0, column {column}: {UNSOUND}"
                self.long_list(f"{more} bytes more in {named}, checked", five, {column: more}, script, said, ("--checked",))
            said = f"damaged in record list 0, column s; {RESTORE}"
            self.long_list(f"{more} bytes more in a list that a start reads", two, {"s": more}, script, said)
        first = b"refused 15 damaged list 0 n\nend\n"
        self.long_list("the first of two columns", five, {"n": 5, "e": 10**9}, ["at 10 snet"], (0, first, b""))

    def long_list(self, name, image, longer, script, due, words=()):
        """A run with 64 MiB over a file whose first list has so many bytes more, zeros, behind what these columns have.
        `due` is a status, replies and errors, or why the start is refused."""
        index = self.program.place("index")
        row = image.rindex(LIST_ENDS) + len(LIST_ENDS)
        front, columns = bytearray(image), 18 + 16 + int.from_bytes(image[18:26], "big")
        holes, behind = [], columns
        for number, column in enumerate("snet"):
            place = row + 8 * number
            size = int.from_bytes(image[place : place + 8], "big")
            behind += size
            front[place : place + 8] = (size + longer.get(column, 0)).to_bytes(8, "big")
            holes.append((behind, longer.get(column, 0)))
        whole = int.from_bytes(image[26:34], "big") + sum(longer.values())
        front[26:34] = whole.to_bytes(8, "big")
        with open(index, "wb") as file:
            begin = 0
            for end, hole in holes:
                file.write(front[begin:end])
                file.seek(hole, os.SEEK_CUR)
                begin = end
            file.write(front[begin:])

        def prepare():
            resource.setrlimit(resource.RLIMIT_AS, (64 << 20, 64 << 20))

        if isinstance(due, str):
            due = 7, b"", f"deltagraph: the index is refused\ndeltagraph: {index}: {due}\n".encode()
        ran = self.limited(index, lines(script), prepare, words)
        self.tests.same(name, (ran.status, ran.replies, ran.errors), due)
        put(index, None)

    def longest_lists(self):
        """Lists of 65,536 edges and of 65,536 messages, whose columns are as long as columns can be, are read."""
        count = 65536
        nodes = [f"{i} +node {i}" for i in range(1, count + 1)]
        edges = [f"{count + i} +edge {i} 1 2 dir" for i in range(1, count + 1)]
        messages = [f"{2 * count + i} msg 1 2 m" for i in range(1, count + 1)]
        script = [f"create {count} 2 union"]
        for word, changes in (("load", nodes), ("append", edges), ("append", messages)):
            script.append("\n".join([f"{word} {count}", *changes]))
        instants = count + count // 2, 2 * count + count // 2
        script += [f"at {instants[0]} s", "counts 1", f"at {instants[1]} st", "counts 2", "verify", f"append 1\n{4 * count} -node 3"]
        ran, _ = self.program.over(None, lines(script))
        heads = [reply[0] for reply in ran.commands()[0]]
        self.tests.same("the longest lists, their status", (ran.status, len(heads)), (0, 10))
        self.tests.same("the longest list of edges", heads[5], f"ok counts 1 {count} {count // 2} 0 0")
        self.tests.same("the longest list of messages", heads[7], f"ok counts 2 {count} {count} 0 0 1")
        self.tests.check("the longest lists: sound", heads[8].startswith("ok verify sound"), heads[8])

    def size_of_file(self):
        """No file may pass a number of bytes, with the signal for it ignored or not."""
        made = batches(3, [6, 4, 1, 9, 5])
        index = self.program.place("limited")
        limits = range(0, len(made.states[-1]) + STEP + 1, STEP)
        for is_ignored in (True, False):
            for limit in limits if is_ignored else limits[::8]:

                def prepare():
                    signal.signal(signal.SIGXFSZ, signal.SIG_IGN if is_ignored else signal.SIG_DFL)
                    resource.setrlimit(resource.RLIMIT_FSIZE, (limit, limit))

                put(index, None)
                ran = self.limited(index, lines(made.commands), prepare)
                name = f"a file of at most {limit} bytes{'' if is_ignored else ', with the signal'}"
                held = self.look(name, index, made, ran, TOO_LARGE, None if is_ignored else signal.SIGXFSZ)
                self.goes_on(name, index, made, held)
        print(f"the size of a file: {len(limits)} limits, and each eighth with the signal", flush=True)

    def full_disk(self):
        """A device with so many pages left for the file, and one that takes no file more."""
        folder = self.program.place("full")
        os.mkdir(folder)
        if not mounted(folder, "size=128k"):
            print("no mounts here: no device is filled")
            return
        try:
            made = batches(4, [8, 30, 3, 40, 12], "v" * 1000)
            most = len(made.states[-1]) // PAGE + 3
            index, other = os.path.join(folder, "index"), os.path.join(folder, "other")
            for pages in range(most):
                put(index, None)
                put(other, bytes(128 * 1024 - pages * PAGE))
                ran = self.limited(index, lines(made.commands))
                name = f"a disk with {pages} pages left"
                held = self.look(name, index, made, ran, NO_SPACE)
                put(other, None)
                self.goes_on(name, index, made, held)
            print(f"a full disk: {most} rooms", flush=True)
        finally:
            subprocess.run(["umount", folder], check=True)
        if mounted(folder, "nr_inodes=1"):
            try:
                ran = self.limited(os.path.join(folder, "index"), b"pool\n")
                said = f"deltagraph: {FAILED}\ndeltagraph: {NO_SPACE.format(os.path.join(folder, 'index'))}\n".encode()
                self.tests.same("a disk that takes no file", (ran.status, ran.replies, ran.errors), (5, b"", said))
            finally:
                subprocess.run(["umount", folder], check=True)

    def disk_that_is_read(self):
        """A file on a device that is only read: what asks is answered, and the first batch ends the run."""
        folder = self.program.place("read")
        os.mkdir(folder)
        if not mounted(folder, "size=128k"):
            return
        try:
            made = batches(6, [6, 4, 9])
            index = os.path.join(folder, "index")
            self.program.run(index, lines(made.commands[:3]))
            before = content(index)
            if subprocess.run(["mount", "-o", "remount,ro", folder], capture_output=True).returncode != 0:
                return
            ran = self.limited(index, lines(["verify", "counts 1", *made.commands[3:]]))
            said = f"deltagraph: {FAILED}\ndeltagraph: {READ_ONLY.format(index)}\n".encode()
            self.tests.same("a disk that is read", (ran.status, ran.errors, content(index)), (5, said, before))
            replies = ran.commands()[0]
            self.tests.check("a disk that is read: it is sound", replies[0][0].startswith("ok verify sound"), replies)
            self.tests.same("a disk that is read: no more is answered", replies[1:], [["refused 8 unknown-handle 1"]])
            self.tests.same("a disk that is read, the file", in_use(before), made.states[3])
        finally:
            subprocess.run(["umount", folder], check=True)

    def no_more_writes(self):
        """A file that may not be written from some moment of a run on. That it cannot be changed by anyone is known of a
        file system on a device, and only its owner may say so."""
        made = batches(5, [6, 4, 1, 9])
        with tempfile.TemporaryDirectory() as folder:
            for before in range(1, len(made.commands)):
                index = os.path.join(folder, f"index{before}")
                pipe = subprocess.PIPE
                process = subprocess.Popen([self.program.path, index], stdin=pipe, stdout=pipe, stderr=pipe)
                answers = [self.ask(process, command) for command in made.commands[:before]]
                self.tests.same(f"written {before} times", answers, made.replies[:before])
                if not is_frozen(index, True):
                    process.communicate()
                    print("no file here that nobody may write: none turns so within a run")
                    return
                try:
                    name = f"no writes after {before} commands"
                    sound = self.ask(process, "verify")
                    self.tests.check(f"{name}: it is read", sound.startswith(b"ok verify sound"), sound)
                    more, said = process.communicate(lines(made.commands[before:]))
                    ran = Ran(process.returncode, b"".join(answers) + more, said)
                    self.tests.same(f"{name}: it is as it was", in_use(content(index)), made.states[before])
                finally:
                    is_frozen(index, False)
                held = self.look(name, index, made, ran, NOT_PERMITTED)
                self.goes_on(name, index, made, held)

    # ---- costs

    def cost(self, script, image=None):
        """The processor time, user's and system's, that a run over a file of these bytes, or over a new one, takes to its end."""
        index = self.program.place("costly")
        put(index, image)
        before = resource.getrusage(resource.RUSAGE_CHILDREN)
        ran = self.limited(index, script)
        after = resource.getrusage(resource.RUSAGE_CHILDREN)
        whole = ran.status == 0 and b"refused" not in ran.replies
        self.tests.check("a run whose cost is taken", whole, (ran.status, ran.errors, ran.replies[:200]))
        return after.ru_utime + after.ru_stime - before.ru_utime - before.ru_stime

    def times_as_much(self, name, most, script, other, image=None, runs=5):
        """The first script costs at most so many times what the other one does, by the least of several runs of each, in
        turn: what else a machine does makes a run dearer and never cheaper."""
        costs = [(self.cost(script, image), self.cost(other, image)) for _ in range(runs)]
        cost, other_cost = (min(taken) for taken in zip(*costs))
        print(f"{name}: {cost:.3f} s, {cost / other_cost:.1f} times {other_cost:.3f} s", flush=True)
        self.tests.check(f"{name}: at most {most} times as much", cost <= most * other_cost, (cost, other_cost))

    def costs(self):
        """What would grow with the square, if it were done the simple way."""
        crafted, plain = (batch_of_values(20000, is_crafted) for is_crafted in (True, False))
        self.times_as_much("a load of ids that were chosen", 4, crafted, plain)
        # All of these stand behind the last closed list.
        many, few = (single_appends(65536, count) for count in (20000, 5000))
        self.times_as_much("20,000 appends, beside 5,000", 8, many, few)
        # What is found costs the value's own comings and goings: there are 62,500 of this key, and one of each value.
        made, image = self.program.over(None, lines(["create 1024 4 union", "workload 7 1000000"]))
        self.tests.same("a million changes", made.status, 0)
        groups = [62500 * number // 20000 * 2 for number in range(20000)]
        finds = ["index name", *(f"find {1003 + 4 * group} name n{group}" for group in groups)]
        self.times_as_much("20,000 values found among 1,000,000 changes, beside the index", 5, lines(finds), lines(finds[:1]), image)

    def repeated_instant(self):
        """Many messages of one instant, which `several` names 32 times, are in memory once: with so little memory that there
        would be no room for them 32 times. The last handle has them all."""
        nodes, count = 1000, 400000
        messages = [f"2 msg {1 + i % nodes} {1 + i // nodes} m" for i in range(count)]
        load = "\n".join([f"load {nodes + count}", *(f"1 +node {i}" for i in range(1, nodes + 1)), *messages])
        made, image = self.program.over(None, lines(["create 1024 4 union", load]))
        self.tests.same("many messages of one instant", made.status, 0)

        def prepare():
            resource.setrlimit(resource.RLIMIT_AS, (REPEATED * 10**6, REPEATED * 10**6))

        index = self.program.place("repeated")
        put(index, image)
        ran = self.limited(index, lines(["several st " + " ".join(["2"] * 32), "counts 32"]), prepare)
        replies, _ = ran.commands()
        heads = [reply[0] for reply in replies]
        self.tests.check("an instant 32 times: it is retrieved", heads[:1] and heads[0].startswith("ok several "), (ran.status, heads))
        self.tests.same("an instant 32 times: its messages", heads[1:], [f"ok counts 32 {nodes} 0 0 0 {count}"])
        put(index, None)

    def ask(self, process, command):
        """Carries out one command, and gives its reply."""
        process.stdin.write(lines([command]))
        process.stdin.flush()
        reply = b""
        while not reply.endswith(b"end\n"):
            line = process.stdout.readline()
            if not line:
                return reply
            reply += line
        return reply

    # ---- memory

    def memory(self, name, script, foretold, words=()):
        """Runs with so much memory each, over the file of the machine that foretells them."""
        index, image, tally = self.program.place("little"), foretold.behind(())[0].file() or None, {}
        for size in MEMORIES:

            def prepare():
                resource.setrlimit(resource.RLIMIT_AS, (size * 10**6, size * 10**6))

            put(index, image)
            ran = self.limited(index, lines(script), prepare, words)
            came = self.came_of(f"{name}, {size} MB", script, image, foretold, ran, content(index))
            tally.setdefault(came, []).append(size)
        ends = [f"{came} at {', '.join(map(str, sizes))} MB" for came, sizes in tally.items()]
        print(f"{name}: {'; '.join(ends)}", flush=True)
        self.tests.check(f"{name}: a run is whole", "whole" in tally)

    def came_of(self, case, script, image, foretold, ran, after):
        """Looks at a run with little memory, and says what came of it."""
        if ran.status == NOT_LOADED:
            return "not loaded"
        if ran.status == 6:
            found = ran.replies, ran.errors, after or b""
            wanted = b"", b"deltagraph: out of memory\n", image or b""
            self.tests.check(f"{case}: nothing is done", found == wanted, found[:2])
            return "status 6"
        replies, rest = ran.commands()
        self.tests.same(f"{case}: status", (ran.status, ran.errors, rest), (0, b"", b""))
        refused = [i for i, reply in enumerate(replies) if reply == TOLD]
        never = [script[i] for i in refused if script[i].split()[0] in NEVER_REFUSED]
        self.tests.same(f"{case}: what is never refused", never, [])
        behind, due = foretold.behind(tuple(command for i, command in enumerate(script) if i not in refused))
        others = [reply for i, reply in enumerate(replies) if i not in refused]
        self.tests.check(f"{case}: all else is answered", others == due, refused)
        self.tests.check(f"{case}: the file", after == behind.file())
        return f"{len(refused)} refused" if refused else "whole"


def batch_of_values(count, is_crafted):
    """A script that loads so many nodes with a value each, under a key of its own. Crafted are the nodes' ids so that each
    id with the number of its key comes to one number, where key and id are put together by this multiplier."""
    multiplier, modulus = 0x9E3779B97F4A7C15, 2**64
    # The first key is name 0, the value name 1, and each further key the next name.
    keys = [0, *range(2, count + 1)]
    if is_crafted:
        ids = [(12345 - (2 * key + 2) * multiplier) % modulus for key in keys]
    else:
        ids = [(number * 6364136223846793005 + 1442695040888963407) % modulus for number in range(count)]
    nodes = [f"{1 + i // 10} +node {node}" for i, node in enumerate(ids)]
    values = [f"{200000 + i // 10} nset {node} k{i} v" for i, node in enumerate(ids)]
    return lines(["create 1024 4 intersection", "\n".join([f"load {2 * count}", *nodes, *values])])


def single_appends(size, count):
    """A script that adds so many nodes, each in a batch of its own, to an index with lists of this size."""
    batches_of_one = [f"{'append' if i > 1 else 'load'} 1\n{i} +node {i}" for i in range(1, count + 1)]
    return lines([f"create {size} 4 intersection", *batches_of_one])


def mounted(folder, options):
    if shutil.which("mount") is None:
        return False
    return subprocess.run(["mount", "-t", "tmpfs", "-o", options, "none", folder], capture_output=True).returncode == 0


def is_frozen(path, on):
    """Lets nobody write the file, or lets them again; whether that is so."""
    if shutil.which("chattr") is None:
        return False
    if subprocess.run(["chattr", "+i" if on else "-i", path], capture_output=True).returncode != 0:
        return False
    if on:
        try:
            os.close(os.open(path, os.O_WRONLY))
        except PermissionError:
            return True
        subprocess.run(["chattr", "-i", path], check=True)
    return not on


MAKE = ["create 1024 4 union", "workload 7 60000", "append 2\n90000 +node 1000000\n90001 nset 1000000 k v"]
ASK = [
    "at 20000 sne",
    "counts 1",
    "several sne 5000 10000 15000 25000",
    "materialise inner 1 1 s",
    "neighbours 1 5",
    "list 2",
    "verify",
    "release 1",
    "clean all",
    "pool",
    "append 2\n100000 +node 1000001\n100000 msg 1000000 1000001 hello",
    "at 100000 st",
    "counts 7",
    "expression sne and 20000 not 10000",
    "list 8",
    "interval 5000 90000 snet",
    "list 9",
    "index kind",
    "find 20000 kind v3",
    "append 2\n110000 nset 1000001 kind v3\n110000 nset 1000001 name again",
    "find 110000 kind v3",
]


def main():
    tests = Tests("limits")
    limits = Limits(tests, Program(*sys.argv[1:3]))
    limits.long_lists()
    limits.longest_lists()
    limits.costs()
    limits.repeated_instant()
    limits.size_of_file()
    limits.full_disk()
    limits.disk_that_is_read()
    limits.no_more_writes()
    new = Foretold(Machine())
    limits.memory("a new file", MAKE + ASK, new)
    made = Foretold(new.behind(tuple(MAKE))[0].opened())
    limits.memory("a file of 60,002 events", ASK, made)
    limits.memory("a file of 60,002 events that is checked", ASK[:3], made, ("--checked",))
    limits.memory("an empty file", ["pool", "create 2 2 union", "load 1\n1 +node 1", "at 1 s", "list 1"], new)
    return tests.end()


if __name__ == "__main__":
    sys.exit(main())
