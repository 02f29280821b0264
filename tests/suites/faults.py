"""Refuses each growth of memory in turn, fails each read, write and sync in turn, cuts the script behind each byte, and
gives standard output room for each number of bytes, over a few scripts.

Calls fail by lib/fail.c, which tests/run compiles.

What is due comes from the machine of lib/machine.py. A command that meets a failure is answered `refused 16
out-of-memory`, or `refused 14 store-read` where a read failed, and all else, the file too, is as the machine has it
without that command. Or the run ends before its first command with status 6, with nothing written and the file as it
was. A failed write or sync, and a failed read of the opening, ends the run with status 5: the replies are those of the
commands before, and the file holds the history before the command or behind it. A cut script is answered as far as its
commands stand whole, with status 3, and a sink takes the front of the replies, with status 4.

Reads and writes that move a byte or a few at once change nothing, and neither does a read, write or sync that is
interrupted.
"""

import errno
import os
import sys
from typing import List, NamedTuple, Tuple

from tests.lib.judge import Judgement
from tests.lib.machine import Due
from tests.lib.runs import CREATE, FIRST_FORM, FIVE, NEVER_REFUSED, Program, Tests, content, in_use, lines, put

KINDS = ["alloc", "read", "write", "sync"]
# Each kind of failure, the calls that it is of, and what the library is told besides.
TABLE = [
    ("alloc", "alloc", {}),
    ("allocs", "alloc", {"fail_many": 10**9}),
    ("read", "read", {}),
    ("reads", "read", {"fail_many": 10**9}),
    ("write", "write", {}),
    ("torn", "write", {"fail_torn": 1}),
    ("sync", "sync", {}),
]
CHECKED = ("--checked",)
UNCACHED, CACHED = ("--cache", "0"), ("--cache", "64")
MAKE = [CREATE, FIVE]
SCRIPTS = {
    "several": ["several s 20 30 20", "several s 30 20"],
    "expression": ["expression s and 30 not 20", "list 1", "expression s or 20 30", "list 2", "counts 1", "node 1 1"],
    "interval": ["interval 20 41 sn", "list 1", "interval 50 51 s", "interval 40 20 s", "append 2\n60 msg 1 2 hi\n60 -node 2"]
    + ["interval 10 61 snet", "list 4", "list 1", "node 4 1", "release 1", "pool"],
    "index": ["find 40 name A", "index name", "find 40 name A", "append 2\n60 nset 1 name B\n70 ndel 1 name", "find 60 name B"]
    + ["index name", "append 1\n70 nset 1 name C", "append 1\n80 nset 2 other A", "index other", "find 80 other A", "find 70 name A"],
    "append": ["at 40 sn", "append 2\n60 -node 2\n70 +node 3", "list 1", "at 70 sn", "list 2", "at 40 s"],
    "bases": ["materialise inner 1 1 s", "at 20 s", "at 20 sn", "release 1", "node 1 1", "release 2", "release 1", "list 1"],
    "sweeps": ["at 20 s", "at 40 s", "pool", "release 2", "clean 1", "at 30 s", "clean all", "pool"]
    + ["release 3", "release 1", "clean all"],
    "reads": ["at 10 s", "plan 20 s", "tree", "verify", "neighbours 1 1", "counts 1", "workload 7 5", "at 51 s", "list 2"],
    "messages": ["append 3\n60 msg 1 2 hi\n60 msg 2 1 hi\n61 +node 3", "at 60 st", "list 1", "several snet 60 61 30", "counts 2", "list 2"],
    "plans": ["at 20 sn", "node 1 1", "certify 20 s 2\nstep 2 list 0 42\nstep 4 leaf 1 0", "certify 30 sne 1\nhello"]
    + ["counts 1", "no"],
}
# Generated changes, in an index of three heights, with a batch that completes nodes whose children were there before.
LONGER = [
    "create 4 2 balanced",
    "workload 7 56",
    "at 1011 sne",
    "several sn 1003 1020 1026",
    "materialise inner 2 1 sne",
    "index kind",
    "append 9\n2000 +node 100\n2001 +node 101\n2002 +edge 100 100 101 dir\n2003 nset 100 kind v9\n2004 eset 100 w 3"
    "\n2005 +node 102\n2006 +node 103\n2007 +node 104\n2008 -node 104",
    "at 1009 se",
    "list 6",
    "find 2003 kind v9",
    "interval 1005 1020 sne",
    "verify",
]
# Over a file of the first form.
UPGRADE = ["append 1\n60 +node 9", "append 1\n61 msg 1 9 hello", "upgrade", "upgrade", "append 2\n70 +node 3\n70 +node 4", "at 60 s", "verify"]
PROBE = ["tree", "verify", "at 40 sn", "list 1"]


class Undisturbed(NamedTuple):
    """What the machine has of a script: its replies by command, the file, what is in use of that, and what a run over it answers
    to PROBE, with its status."""

    replies: List[List[str]]
    file: bytes
    held: bytes
    answers: Tuple[int, bytes]


class Faults:
    def __init__(self, tests, program, library):
        self.tests, self.program = tests, program
        self.loaded_first = {"LD_PRELOAD": library}
        self.known, self.probed = {}, {}

    def failing(self, script, image, words, **variables):
        """The run of a script over a file in which some call fails, and the file behind it."""
        made = {**self.loaded_first, **{name.upper(): str(value) for name, value in variables.items()}}
        ran, after = self.program.over(image, lines(script), words, made)
        return ran, after

    def without(self, script, image, words=()):
        """What is due with no failure, which the program does then."""
        key = tuple(script), image, words
        if key not in self.known:
            ran, after = self.program.over(image, lines(script), words)
            due = Due(Judgement(image or b"").machine(), script)
            file, answers = due.machines[-1].file(), b"".join(Due(due.machines[-1], PROBE).replies)
            found = ran.status, ran.replies, ran.errors, after
            self.tests.same("a run without a failure", found, (0, b"".join(due.replies), b"", file))
            replies = [reply.decode().split("\n")[:-2] for reply in due.replies]
            self.known[key] = Undisturbed(replies, file, in_use(file), (0, answers))
        return self.known[key]

    def probe(self, image):
        """What the history of a file answers."""
        if image not in self.probed:
            ran, _ = self.program.over(image, lines(PROBE))
            self.probed[image] = ran.status, ran.replies
        return self.probed[image]

    def calls(self, script, image, words):
        """How many calls of each kind a script makes."""
        tally = self.program.place("tally")
        put(tally, None)
        self.failing(script, image, words, fail_tally=tally)
        numbers = content(tally) or bytes(32)
        return {kind: int.from_bytes(numbers[8 * i : 8 * i + 8], sys.byteorder) for i, kind in enumerate(KINDS)}

    def fault_of(self, script, image, words, kind, ran, after):
        """What is wrong with a run in which calls of this kind failed, if something is; else what has come of it."""
        replies, rest = ran.commands()
        if rest:
            return "a reply is cut off", None
        if ran.status == 6:
            is_untouched = not replies and ran.errors == b"deltagraph: out of memory\n" and after in (image, None, b"")
            if kind not in ("alloc", "allocs") or not is_untouched:
                return "want of memory, but something was done", None
            return None, "status 6"
        if ran.status == 5:
            return self.fault_of_end(script, image, words, kind, ran, replies, after), "status 5"
        if ran.status != 0 or ran.errors:
            return f"status {ran.status}, {ran.errors}", None
        told = {"alloc": ["refused 16 out-of-memory"], "read": ["refused 14 store-read"]}.get(kind.rstrip("s"))
        refused = [i for i, reply in enumerate(replies) if reply == told]
        if any(script[i].split()[0] in NEVER_REFUSED for i in refused):
            return "a command is refused that never is", None
        if kind in ("alloc", "read") and len(refused) > 1:
            return "two commands are refused", None
        left = [command for i, command in enumerate(script) if i not in refused]
        due = self.without(left, image, words)
        if [reply for i, reply in enumerate(replies) if i not in refused] != due.replies:
            return f"other replies than without {[script[i] for i in refused]}", None
        if after != due.file:
            return "another file than without the refused command", None
        return None, "refused" if refused else "no effect"

    def fault_of_end(self, script, image, words, kind, ran, replies, after):
        """The same where the run has ended with status 5."""
        said = b"deltagraph: the index file failed\ndeltagraph: "
        if not ran.errors.startswith(said) or b"Input/output error" not in ran.errors:
            return f"other reasons: {ran.errors}"
        count = len(replies)
        before = self.without(script[:count], image, words)
        if replies != before.replies:
            return "other replies than before the failure"
        if kind in ("alloc", "allocs"):
            return "a file that failed for want of memory"
        if kind in ("read", "reads"):
            is_start = count == 0 and after in (image, None, b"")
            return None if is_start else "a failed read behind the first command ends the run"
        if count == len(script) > 0:
            return "the run failed behind its last command"
        if count == 0 and after in (image, b""):
            return None
        behind = self.without(script[: count + 1], image, words)
        if in_use(after) not in (before.held, behind.held):
            return "the bytes in use are of neither history"
        return None if self.probe(after) in (before.answers, behind.answers) else "the file holds neither history"

    def in_turn(self, name, script, image, words=()):
        """Each call of each kind fails in turn, and with `allocs` all growths from one on. Gives how many failures of each
        kind came to what."""
        most = self.calls(script, image, words)
        self.tests.check(f"{name}: its calls are seen", most["alloc"] > 10 and most["sync"] > 0, most)
        ends, met, count = [], {}, 0
        for kind, known, more in TABLE:
            tally = {}
            for number in range(1, most[known] + 1):
                ran, after = self.failing(script, image, words, fail_kind=known, fail_at=number, **more)
                fault, came = self.fault_of(script, image, words, kind, ran, after)
                self.tests.check(f"{name}: {kind} {number} of {most[known]} fails", fault is None, fault)
                tally[came] = tally.get(came, 0) + 1
                count += 1
            ends += [f"{number} {came} by {kind}" for came, number in sorted(tally.items(), key=str)]
            met[kind] = tally
        print(f"{name}: {count} failures: {', '.join(ends)}", flush=True)
        return met

    def cache(self, name, script, image):
        """With a cache a growth is refused by the same commands, and those of the cache itself by none. On one processor,
        so that the two halves of a start mostly follow one another."""
        processors = os.sched_getaffinity(0)
        os.sched_setaffinity(0, {min(processors)})
        plain = self.in_turn(f"{name}, no cache", script, image, UNCACHED)
        cached = self.in_turn(f"{name}, a cache", script, image, CACHED)
        os.sched_setaffinity(0, processors)
        self.tests.same(f"{name}: refused by alloc with a cache", cached["alloc"].get("refused"), plain["alloc"].get("refused"))
        # Growths that a start does without, as those for a thread, fall on other numbers from run to run.
        moved = abs(cached["alloc"].get("status 6", 0) - plain["alloc"].get("status 6", 0))
        self.tests.check(f"{name}: status 6 by alloc with a cache", moved <= plain["alloc"].get("no effect", 0), moved)
        more = cached["alloc"].get("no effect", 0) - plain["alloc"].get("no effect", 0)
        self.tests.check(f"{name}: growths of the cache", more > 0, more)

    def cuts(self, name, script):
        """The source fails behind each byte, and the sink when it has taken each number of bytes."""
        text = lines(script)
        ends, at = [], 0
        for command in script:
            at += len(command.encode()) + 1
            ends.append(at)
        replies = b"".join(Due(Judgement(b"").machine(), script).replies)
        for cut in range(len(text) + 1):
            due = self.without([command for command, end in zip(script, ends) if end <= cut], None)
            ran, after = self.failing(script, None, (), cut_at=cut)
            found = ran.status, ran.commands(), ran.errors, after
            wanted = 3, (due.replies, b""), b"deltagraph: reading the script failed\n", due.file
            self.tests.check(f"{name}: the script fails behind byte {cut}", found == wanted, found[:3])
        for room in range(len(replies)):
            ran, after = self.failing(script, None, (), sink_room=room)
            answered = replies[:room].count(b"end\n")
            files = [self.without(script[:count], None).held for count in (answered, min(answered + 1, len(script)))]
            found = ran.status, ran.replies, ran.errors
            wanted = 4, replies[:room], b"deltagraph: writing failed\n"
            self.tests.same(f"{name}: a sink with room for {room} bytes", found, wanted)
            self.tests.check(f"{name}: what a sink with room for {room} bytes leaves", in_use(after) in files)

    def pieces(self, name, script, image, words=()):
        """Reads and writes that move a few bytes at once."""
        for most in (1, 2, 3, 7, 64):
            ran, after = self.failing(script, image, words, piece_most=most)
            found = ran.status, ran.commands(), ran.errors, after
            self.tests.same(f"{name}: {most} bytes at once", found, self.whole(script, image, words))

    def interrupted(self, name, script, image, words=()):
        """Each read, write and sync in turn is interrupted, which is no failure."""
        most = self.calls(script, image, words)
        for kind in ("read", "write", "sync"):
            for number in range(1, most[kind] + 1):
                ran, after = self.failing(script, image, words, fail_kind=kind, fail_at=number, fail_error=errno.EINTR)
                found = ran.status, ran.commands(), ran.errors, after
                self.tests.same(f"{name}: {kind} {number} is interrupted", found, self.whole(script, image, words))

    def whole(self, script, image, words):
        due = self.without(script, image, words)
        return 0, (due.replies, b""), b"", due.file

    def asked_again(self, image):
        """A retrieval after failed reads is answered."""
        opening = self.calls([], image, ())["read"]
        for many in range(1, 4):
            ran, after = self.failing(["at 20 s"] * 4, image, (), fail_kind="read", fail_at=opening + 1, fail_many=many)
            due = [["refused 14 store-read"]] * many + [[f"ok at {handle} 26"] for handle in range(1, 5 - many)]
            self.tests.same(f"a retrieval after {many} failed reads", (ran.status, ran.commands()), (0, (due, b"")))
            self.tests.same(f"a retrieval after {many} failed reads, the file", after, image)


def main():
    tests = Tests("faults")
    faults = Faults(tests, Program(*sys.argv[1:3]), sys.argv[3])
    loaded = faults.without(MAKE, None).file
    for name, script in SCRIPTS.items():
        faults.in_turn(f"{name}, a new file", MAKE + script, None)
        faults.in_turn(f"{name}, an opened file", script, loaded)
    first_form = content(FIRST_FORM)
    faults.in_turn("an upgrade", UPGRADE, first_form)
    faults.pieces("an upgrade", UPGRADE, first_form)
    faults.interrupted("an upgrade", UPGRADE, first_form)
    faults.in_turn("several, a checked file", SCRIPTS["several"], loaded, CHECKED)
    faults.in_turn("a longer history", LONGER, None)
    longer = faults.without(LONGER[:2], None).file
    faults.in_turn("a longer history, a checked file", LONGER[2:], longer, CHECKED)
    faults.cache("a longer history, retrieved", LONGER[2:6] + LONGER[2:4] + LONGER[7:], longer)
    for name, script in SCRIPTS.items():
        faults.cuts(name, MAKE + script)
        faults.pieces(name, MAKE + script, None)
        faults.interrupted(name, MAKE + script, None)
    faults.interrupted("a longer history, a checked file", LONGER[2:], longer, CHECKED)
    faults.pieces("a longer history, a checked file", LONGER[2:], longer, CHECKED)
    faults.asked_again(loaded)
    return tests.end(f", {faults.program.runs} runs")


if __name__ == "__main__":
    sys.exit(main())
