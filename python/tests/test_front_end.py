"""The front end, through a pipe and through a terminal."""
from __future__ import annotations

import os
import pty
import select
import signal
import subprocess
import sys
import time
import unittest
from typing import Optional

from deltagraph.prompt import completions

from .support import FOLDER, Case, program

CHANGES = b"""create 2 2 balanced
load 7
10 +node 1
10 +node 2
20 +node 3
20 +edge 5 1 2 dir
30 +edge 6 2 3 undir
40 nset 1 name Ada L
40 nset 2 name \xff
"""
MADE = b"ok create\nend\nok load 7 7 40\nend\n"
PATIENCE = 60.0  # seconds


class FrontEnd(Case):
    def setUp(self) -> None:
        super().setUp()
        self.environment = {**os.environ, "PYTHONPATH": str(FOLDER.parent), "HOME": str(self.folder), "TERM": "dumb"}
        self.environment["DELTAGRAPH"] = program()[0]

    def words(self, *options: str) -> list[str]:
        return [sys.executable, "-m", "deltagraph", *options, str(self.index)]

    def run_script(self, script: bytes, *options: str) -> tuple[int, bytes, str]:
        """The status, the replies and what is told, of a script."""
        ran = subprocess.run(self.words(*options), input=script, capture_output=True, env=self.environment)
        return ran.returncode, ran.stdout, ran.stderr.decode()


class Scripts(FrontEnd):
    def test_replies_are_those_of_the_program(self) -> None:
        asked = b"# a comment\n\nat 40 sn\r\nlist 1\nseveral sne 10 40\nplan 20 s\npool\nfoo\nat 99 s\nverify\ntree\nclean all\n"
        asked += (
            b"append 2\n50 +node 9\n50 +node 9\nappend 3\n60 +node 11\nlist 1\ncertify 20 s 1\nx\n\xff \xfe\nlist 7"
        )
        status, replies, told = self.run_script(CHANGES + asked)
        other = self.folder / "other.dg"
        due = subprocess.run([*program(), str(other)], input=CHANGES + asked, capture_output=True)
        self.assertEqual((status, replies), (0, due.stdout))
        self.assertEqual(other.read_bytes(), self.index.read_bytes())
        self.assertIn("line 17, `foo`: this is no command from column 2 on (refused 1 syntax 2)", told)
        self.assertIn("line 18, `at 99 s`: the history goes from 10 to 40 (refused 7 out-of-range 10 40)", told)
        self.assertIn("line 24, `50 +node 9`: the node is in the graph already (refused 6 bad-change 2 2)", told)
        self.assertEqual(len(told.splitlines()), 7)

    def test_a_script_that_ends_within_a_batch(self) -> None:
        status, replies, told = self.run_script(CHANGES + b"append 3\n50 +node 9\n51 +node 10")
        self.assertEqual((status, replies), (0, MADE + b"refused 5 short-batch 2 3\nend\n"))
        self.assertIn("line 10, `append 3`: 3 lines had to follow, and there were 2", told)

    def test_last_and_first(self) -> None:
        status, replies, told = self.run_script(
            CHANGES
            + b"list last\nat first s\ncounts last\nseveral s 20 last\nnode last 2\nrelease last\nplan first s\n"
        )
        self.assertEqual(status, 0)
        self.assertTrue(replies.startswith(MADE + b"refused 0 unsent\nend\nok at 1 "))
        self.assertIn(b"ok counts 1 2 0 0 0\nend\n", replies)
        self.assertIn(b"ok node 3 2 yes 2\nend\nok release 3\nend\nok plan ", replies)
        self.assertIn("line 10, `list last`: no handle was given yet", told)

    def test_expressions(self) -> None:
        script = b"expression s and 30 not 20\nlist last\nexpression s and last not first\nlist last\nnode last 3\n"
        script += b":dates 2020-01-01 days\nexpression s and 2020-01-31 not 2020-01-21\ncounts last\nexpression s or 10\n"
        status, replies, told = self.run_script(CHANGES + script)
        for due in (
            b"ok list 1 1\nedge 6 2 3 undir\nend\n",
            b"ok list 2 3\nnode 3\nedge 5 1 2 dir\nedge 6 2 3 undir\nend\nrefused 17 not-an-overlay 2\n",
            b"ok counts 4 0 1 0 0\nend\nrefused 1 syntax 19\n",
        ):
            self.assertIn(due, replies)
        self.assertIn("handle 2 holds a node of the index, an expression or an interval", told)

    def test_intervals_and_values(self) -> None:
        script = b"interval 20 40 s\nlist last\ninterval first last sn\ncounts last\ninterval 30 end sn\ncounts last\n"
        script += b"node last 1\ninterval 20\ninterval 20 42 s\nfind 40 name Ada L\nindex name\nindex nothing\n"
        script += b"find last name Ada L\nfind first name Ada L\n:dates 2020-01-01 days\ninterval 2020-01-21 2020-01-31 s\nlist last\n"
        script += b"find 2020-02-10 name \xff\nfind end name x\n"
        status, replies, told = self.run_script(CHANGES + script)
        due = [
            b"ok list 1 3\nnode 3\nedge 5 1 2 dir\nedge 6 2 3 undir\nend\n",
            b"ok counts 2 3 2 0 0\nend\n",
            b"ok counts 3 0 1 2 0\nend\n",
            b"refused 17 not-an-overlay 3\nend\nrefused 1 syntax 12\nend\nrefused 7 out-of-range 10 40\nend\n",
            b"refused 24 not-indexed\nend\nok index 2 ",
            b"refused 23 unknown-key\nend\nok find 1\nnode 1\nend\nok find 0\nend\n",
            b"node 3\nedge 5 1 2 dir\nend\nok find 1\nnode 2\nend\nrefused 1 syntax 6\nend\n",
        ]
        for part in due:
            self.assertIn(part, replies)
        self.assertEqual((status, len(told.splitlines())), (0, 6))
        self.assertIn("the history goes from 10 to 40; an interval ends at 41 at the latest", told)
        self.assertIn("this session has no index of the key; `index KEY` makes one (refused 24 not-indexed)", told)

    def test_search_diff_and_top(self) -> None:
        script = b"search Ada L\nsearch Ada L @20\nsearch \xff @40\nsearch no one\ndiff 10 30\ndiff 30 10 s\ntop 2 degree 40\ntop 9 degree 10\n"
        status, replies, told = self.run_script(CHANGES + script)
        due = [
            b"ok search 1\n1 name Ada L\nend\n",
            b"ok search 0\nend\n",
            b"ok search 1\n2 name \xff\nend\n",
            b"ok search 0\nend\n",
            b"ok diff 0 3\n+ node 3\n+ edge 5 1 2 dir\n+ edge 6 2 3 undir\nend\n",
            b"ok diff 3 0\n- node 3\n- edge 5 1 2 dir\n- edge 6 2 3 undir\nend\n",
            b"ok top 2\n2 2 \xff\n1 1 Ada L\nend\n",
            b"ok top 0\nend\n",
        ]
        self.assertEqual((status, told, replies), (0, "", MADE + b"".join(due)))

    def test_a_loop_gives_one_degree(self) -> None:
        edges = [b"1 2", b"1 2", b"2 1", b"3 3", b"3 3"]
        lines = [b"10 +node %d" % node for node in (1, 2, 3)]
        lines += [b"20 +edge %d %s dir" % (number, ends) for number, ends in enumerate(edges)]
        script = b"create 2 2 union\nload 8\n" + b"".join(line + b"\n" for line in lines) + b"top 3 degree last\n"
        _, replies, _ = self.run_script(script)
        self.assertTrue(replies.endswith(b"ok top 3\n1 3\n2 3\n3 2\nend\n"), replies)

    def test_own_commands_in_other_forms(self) -> None:
        script = (
            b"search\ndiff 10\ndiff 10 x\ndiff 10 20 z\ntop 5\ntop x degree 10\ntop 5 degree y\ndiff 1 99\n:dates x\n"
        )
        status, replies, told = self.run_script(CHANGES + script, "--program", program()[0])
        self.assertEqual((status, len(told.splitlines()), replies.count(b"refused ")), (0, 9, 9))
        self.assertIn("`diff 1 99`: the history goes from 10 to 40", told)

    def test_dates(self) -> None:
        script = b":dates\n:dates 2020-01-01 days\n:dates\nat 2020-01-21 s\ncounts last\nseveral s 2020-01-11 2020-02-10\n"
        status, replies, told = self.run_script(CHANGES + script + b"at 2019-01-01 s\nat 2020-13-01 s\n")
        self.assertIn(b"ok :dates 1970-01-01 seconds\nend\nok :dates 2020-01-01 days\nend\n", replies)
        self.assertIn(b"ok counts 2 3 1 0 0\nend\n", replies)
        self.assertIn("line 16, `at 2019-01-01 s`: 2019-01-01 is before 2020-01-01", told)
        status, replies, told = self.run_script(b"diff 2020-01-11 last s\nat 2021-01-01 s\n")
        self.assertIn(b"ok diff 0 3\n", replies)
        self.assertIn("`at 2021-01-01 s`: the history goes from 2020-01-11 to 2020-02-10", told)

    def test_strict_ends_at_the_first_refusal(self) -> None:
        for wrong in (b"foo", b"at 99 s", b"list last", b"search", b"append 1\n40 +node 9"):
            self.index.unlink(missing_ok=True)
            status, replies, told = self.run_script(CHANGES + wrong + b"\nat 40 s\n", "--strict")
            self.assertEqual((status, replies.count(b"end\n")), (1, 3), wrong)
            self.assertTrue(replies.startswith(MADE + b"refused "))
            self.assertEqual(len(told.splitlines()), 1)
        self.assertEqual(self.run_script(b"at 40 s\n", "--strict")[0], 0)

    def test_quit_and_help(self) -> None:
        status, replies, _ = self.run_script(b":help\nquit\nat 5 s\n")
        self.assertTrue(status == 0 and replies.startswith(b"ok :help\n") and replies.endswith(b":quit\nend\n"))

    def test_a_question_makes_no_file(self) -> None:
        status, replies, told = self.run_script(b"at 5 s\nat last s\nsearch x\n")
        self.assertEqual((status, replies), (0, b"refused 2 no-index\nend\n" * 3))
        self.assertFalse(self.index.exists())

    def test_a_full_disk_and_a_closed_pipe(self) -> None:
        self.run_script(CHANGES)
        with open("/dev/full", "wb") as full:
            ran = subprocess.run(
                self.words(), input=b"at 40 s\n", stdout=full, stderr=subprocess.PIPE, env=self.environment
            )
        self.assertEqual((ran.returncode, ran.stderr), (4, b"deltagraph: writing failed: No space left on device\n"))
        reading, writing = os.pipe()
        os.close(reading)
        ran = subprocess.run(
            self.words(), input=b"at 40 s\n", stdout=writing, stderr=subprocess.PIPE, env=self.environment
        )
        os.close(writing)
        self.assertEqual((ran.returncode, ran.stderr), (4, b"deltagraph: writing failed: Broken pipe\n"))
        ran = subprocess.run(
            ["bash", "-c", 'exec "$0" "$@" <&-', *self.words()], stderr=subprocess.PIPE, env=self.environment
        )
        self.assertEqual(ran.returncode, 3)

    def test_ends_of_the_program(self) -> None:
        self.index.write_text("a text of more than eighteen bytes")
        status, replies, told = self.run_script(b"at 5 s\n")
        self.assertEqual((status, replies), (7, b""))
        self.assertIn("the index is refused", told)
        self.assertEqual(self.run_script(b"at 5 s\n", "--program", "no-such-program")[0], 2)
        self.assertEqual(self.run_script(b"at 5 s\n", "--program", "false")[0], 1)
        self.assertEqual(self.run_script(b"", "--no-such-option")[0], 2)
        killed = self.folder / "killed"
        killed.write_text("#!/bin/sh\nkill -9 $$\n")
        killed.chmod(0o755)
        self.assertEqual(self.run_script(b"at 5 s\n", "--program", str(killed))[0], 128 + signal.SIGKILL)


class Completions(unittest.TestCase):
    def test_words_at_their_places(self) -> None:
        for before, begun, due in (
            ("", "no", ["node"]),
            ("", "n", ["neighbours", "node"]),
            ("at ", "", ["first", "last"]),
            ("at 2015-01-01 ", "sn", ["sn", "sne", "snt", "snet"]),
            ("at 5 s ", "", []),
            ("several se 5 6 7 ", "l", ["last"]),
            ("list ", "", ["last"]),
            ("expression s and 5 ", "", ["and", "or", "not", "first", "last"]),
            ("", "in", ["index", "interval"]),
            ("interval 5 ", "e", ["end"]),
            ("interval 5 6 sn ", "", []),
            ("find ", "", ["first", "last"]),
            ("top 5 ", "", ["degree"]),
            ("what ", "", []),
        ):
            self.assertEqual(completions(before, begun), due, (before, begun))


class Terminals(FrontEnd):
    def start(self, *options: str) -> None:
        process, self.terminal = pty.fork()
        if process == 0:
            # What runs in the background of a shell ignores interrupts, and hands that on.
            signal.signal(signal.SIGINT, signal.SIG_DFL)
            os.execve(sys.executable, self.words(*options), self.environment)
        self.process: Optional[int] = process
        self.shown = b""
        self.addCleanup(self.stop)

    def stop(self) -> None:
        if self.process is not None:
            os.kill(self.process, signal.SIGKILL)
            os.waitpid(self.process, 0)
        os.close(self.terminal)

    def until(self, text: bytes) -> bytes:
        """What is shown up to this text."""
        deadline = time.monotonic() + PATIENCE
        while text not in self.shown:
            if not select.select([self.terminal], [], [], max(0.0, deadline - time.monotonic()))[0]:
                self.fail(f"no {text!r} in {self.shown!r}")
            try:
                self.shown += os.read(self.terminal, 4096)
            except OSError:
                self.fail(f"the end, and no {text!r} in {self.shown!r}")
        found, _, self.shown = self.shown.partition(text)
        return found

    def interrupt(self) -> None:
        """Presses the key of an interrupt until it is answered: between a prompt and the wait for a key it is missed."""
        deadline = time.monotonic() + PATIENCE
        while b"interrupted" not in self.shown and time.monotonic() < deadline:
            os.write(self.terminal, b"\x03")
            while select.select([self.terminal], [], [], 0.5)[0] and b"interrupted" not in self.shown:
                self.shown += os.read(self.terminal, 4096)
        self.until(b"interrupted")

    def say(self, line: bytes, prompt: bytes = b"deltagraph> ") -> bytes:
        """What is shown for a line, up to the next prompt."""
        os.write(self.terminal, line + b"\n")
        self.until(line)
        return self.until(prompt).replace(b"\r", b"").strip(b"\n")

    def ends(self, status: int) -> None:
        assert self.process is not None
        _, found = os.waitpid(self.process, 0)
        self.process = None
        self.assertEqual(os.WEXITSTATUS(found), status)

    def test_a_session(self) -> None:
        self.run_script(CHANGES)
        self.start()
        self.until(b"deltagraph> ")
        self.assertTrue(self.say(b"at 40 sn").startswith(b"ok at 1 "))
        self.assertEqual(self.say(b"node last 1 "), b"ok node 1 1 yes 1\nattr name Ada L")
        self.assertEqual(self.say(b"foo"), b"`foo`: this is no command from column 2 on (refused 1 syntax 2)")
        self.assertEqual(self.say(b":dates 2020-01-01 days"), b"ok :dates 2020-01-01 days")
        self.assertIn(b"from 2020-01-11 to 2020-02-10", self.say(b"at 2019-12-31 s") + self.say(b"at 2021-01-01 s"))
        self.assertIn(b"handle 4 2020-02-10 0", self.say(b"several s 2020-01-11 last"))
        self.say(b"append 2", b"... ")
        self.say(b"50 +node 8", b"... ")
        self.assertEqual(self.say(b"50 +node 9"), b"ok append 2 9 2020-02-20")
        self.assertIn(b"search NAME", self.say(b":help"))
        self.assertEqual(self.say(b"search Ada"), b"ok search 0\nno value is exactly `Ada`; so begin Ada L")
        self.assertEqual(self.say(b"search Eve"), b"ok search 0\nno value is exactly `Eve`")
        self.assertEqual(self.say(b"find 2020-02-20 name Ada L"), b"ok find 1\nnode 1")
        self.assertEqual(self.say(b"find first name Ada L"), b"ok find 0")
        self.assertIn(b"nothing in the history has this key (refused 23 unknown-key)", self.say(b"find last nothing x"))
        self.assertTrue(self.say(b"interval 2020-02-10 end").startswith(b"ok interval "))
        self.assertTrue(self.say(b"counts last").endswith(b" 2 0 2 0"))
        self.assertTrue(self.say(b"at 2020-02-20").startswith(b"ok at "))
        self.assertTrue(self.say(b"counts last").endswith(b" 5 2 2 0"))
        os.write(self.terminal, b"\x04")
        self.ends(0)
        self.assertIn("node last 1", (self.folder / ".deltagraph_history").read_text())

    def test_the_history_of_lines_is_there_again(self) -> None:
        (self.folder / ".deltagraph_history").write_text("pool\n")
        self.run_script(CHANGES)
        self.start()
        self.until(b"deltagraph> ")
        os.write(self.terminal, b"\x10\n")  # the line before
        self.until(b"ok pool 0 ")
        os.write(self.terminal, b":quit\n")
        self.ends(0)

    def test_an_end_within_a_batch(self) -> None:
        self.run_script(CHANGES)
        self.start()
        self.until(b"deltagraph> ")
        self.say(b"append 2", b"... ")
        self.say(b"50 +node 8", b"... ")
        os.write(self.terminal, b"\x04")
        self.until(b"2 lines had to follow, and there were 1")
        self.ends(0)

    def test_an_interrupt_leaves_the_session(self) -> None:
        self.run_script(CHANGES)
        self.start()
        self.until(b"deltagraph> ")
        self.say(b"append 2", b"... ")
        self.interrupt()
        self.until(b"deltagraph> ")
        self.assertTrue(self.say(b"pool").startswith(b"ok pool 0 "))
        with self.open() as store:
            self.assertEqual(store.span(), (10, 40))

    def test_strict_at_a_prompt(self) -> None:
        self.start("--strict")
        self.until(b"deltagraph> ")
        os.write(self.terminal, b"foo\n")
        self.until(b"there is no index")
        self.ends(1)
