"""Runs of the program: long scripts and replies, ends before their time, and other programs."""
from __future__ import annotations

import itertools
import os
import signal
import stat
import subprocess
import sys
from pathlib import Path
from unittest import mock

import deltagraph
from deltagraph.process import find_program

from .support import Case, program

LONG = 300_000  # lines


class LongReplies(Case):
    def test_a_long_listing_comes_in_pieces(self) -> None:
        with self.by_rote({"list": ["list", LONG, LONG, LONG]}) as store:
            snapshot = store.at(1, "sn")
            self.assertTrue(all(one == other for one, other in itertools.zip_longest(snapshot.nodes(), range(LONG))))
            self.assertEqual(sum(1 for edge in snapshot.edges() if edge[1:] == (1, 2, True)), LONG)
            self.assertEqual(sum(edge.id for edge in snapshot.edges()), LONG * (LONG - 1) // 2)
            self.assertEqual(sum(1 for value in snapshot.node_attributes() if value[1:] == ("name", "a name")), LONG)
            self.assertEqual(sum(1 for _ in snapshot.elements()), 3 * LONG)
            self.assertEqual(sum(1 for _ in snapshot.lines()), 3 * LONG)
            self.assertEqual([len(column) for column in snapshot.to_edges()], [LONG] * 4)

    def test_commands_within_a_listing(self) -> None:
        with self.by_rote({"list": ["list", LONG, 5, 5], "counts": "ok counts 1 2 3 4 5\nend\n"}) as store:
            snapshot = store.at(1, "sn")
            for node in itertools.islice(snapshot.nodes(), 3):
                self.assertEqual(snapshot.counts(), (2, 3, 4, 5, None))
                self.assertEqual(sum(1 for _ in snapshot.edges()), 5)
            together = zip(snapshot.nodes(), snapshot.nodes())
            self.assertEqual(sum(1 for one, other in together if one == other), LONG)

    def test_a_listing_that_is_left_off(self) -> None:
        with self.by_rote({"list": ["list", LONG, LONG, 0]}) as store:
            snapshot = store.at(1)
            self.assertEqual(next(snapshot.nodes()), 0)
            self.assertEqual(next(snapshot.edges()).id, 0)
            self.assertEqual(store.pool(), (0, 0))
            left = snapshot.nodes()
            next(left)

    def test_scripts_and_replies_that_are_long_together(self) -> None:
        lines = b"5 +node 1\n" * LONG
        with self.by_rote({"list": ["list", LONG, 0, 0]}) as store:
            replies = []
            for _ in range(4):
                replies.append(store.send("list 1"))
                replies.append(store.send(f"append {LONG}", lines))
            for reply in reversed(replies):
                self.assertEqual(reply.head()[0], "ok")
            self.assertEqual([len(reply.lines()) for reply in replies], [LONG, 0] * 4)

    def test_many_commands_at_once(self) -> None:
        with self.open() as store:
            store.create()
            store.workload(7, 800)
            kept = store.at(1100, "sn")  # one that is forgotten gives its handle up
            replies = [store.send(f"node {kept.handle} {node}") for node in range(3000)]
            self.assertEqual([int(reply.head()[3]) for reply in replies], list(range(3000)))

    def test_many_batches(self) -> None:
        changes = [deltagraph.AddNode(time // 2, time) for time in range(400)]
        with self.open() as store:
            store.create(8, 2)
            told: list[int] = []
            loaded = store.load((change for change in changes), batch=4, progress=told.append)
            self.assertEqual((loaded, told), ((400, 100, 400, 199), list(range(4, 401, 4))))
            self.assertEqual(store.at(100).counts().nodes, 202)
            self.assertTrue(store.verify().sound)

    def test_more_than_a_batch_is_cut(self) -> None:
        count = 2**20 + 3
        with self.by_rote({}) as store:
            told: list[int] = []
            loaded = store.load((f"{number // 4} +node 1" for number in range(count)), progress=told.append)
            self.assertEqual((loaded.events, loaded.batches, told), (count, 2, [2**20, count]))


class Ends(Case):
    def test_a_killed_program(self) -> None:
        store = self.open()
        store.create()
        store.load(["1 +node 1"])
        assert store.process is not None
        os.kill(store.process, signal.SIGKILL)
        with self.assertRaises(deltagraph.Killed) as raised:
            store.at(1)
        self.assertEqual((raised.exception.status, raised.exception.command), (-signal.SIGKILL, "at 1 s"))
        self.assertIn("SIGKILL", str(raised.exception))
        self.assertTrue(store.ended)
        with self.assertRaises(deltagraph.Killed):
            store.pool()
        store.close()
        with self.open() as store:
            self.assertEqual(store.span(), (1, 1))

    def test_commands_to_a_program_that_is_gone(self) -> None:
        store = self.by_rote({"clean": ["exit", 5, "", "deltagraph: the index file failed\n", 1]})
        replies = [store.send("clean 1"), *(store.send("at 5 s") for _ in range(100_000))]
        for reply in (replies[0], replies[-1]):
            with self.assertRaises(deltagraph.DiskFault) as raised:
                reply.head()
            self.assertEqual(raised.exception.command, "clean 1")

    def test_a_program_that_is_killed_within_a_listing(self) -> None:
        replies = {"list": ["kill", "ok list 1 3\nnode 1\nnode 2\nnod"]}
        with self.by_rote(replies) as store:
            found: list[int] = []
            with self.assertRaises(deltagraph.Killed):
                with store.at(1) as snapshot:
                    for node in snapshot.nodes():
                        found.append(node)
            self.assertEqual(found, [1, 2])

    def test_a_program_that_is_killed_in_a_load(self) -> None:
        lines = [f"{time} +node {time}" for time in range(3000)]
        with self.open() as store:
            store.create(8, 2)
            store.load(lines[:100])
            store.send("append 2900", "".join(line + "\n" for line in lines[100:]).encode())
            assert store.process is not None
            os.kill(store.process, signal.SIGKILL)
            with self.assertRaises(deltagraph.Killed):
                store.pool()
        with self.open() as store:
            span = store.span()
            assert span is not None
            self.assertIn(span.last, (99, 2999))
            self.assertTrue(store.verify().sound)

    def test_each_status_has_its_exception_and_all_lines(self) -> None:
        kinds = {
            2: deltagraph.WrongWords,
            3: deltagraph.SourceFault,
            4: deltagraph.SinkFault,
            5: deltagraph.DiskFault,
            6: deltagraph.NoMemory,
            7: deltagraph.IndexRefused,
            9: deltagraph.ScriptLimit,
            11: deltagraph.ProgramEnded,
            0: deltagraph.ProgramEnded,
        }
        for status, kind in kinds.items():
            with self.subTest(status), self.by_rote(
                {"at": ["exit", status, "", "deltagraph: a\nhistory: b\n", 1]}
            ) as store:
                with self.assertRaises(kind) as raised:
                    store.at(5)
                ended = raised.exception
                self.assertEqual((type(ended), ended.status, ended.command), (kind, status, "at 5 s"))
                self.assertEqual(ended.errors, ["deltagraph: a", "history: b"])
                self.assertIn("history: b", str(ended))

    def test_long_errors_do_not_stop_it(self) -> None:
        with self.by_rote({"at": ["exit", 5, "", "line\n", 100_000]}) as store:
            with self.assertRaises(deltagraph.DiskFault) as raised:
                store.at(5)
            self.assertEqual(len(raised.exception.errors), 100_000)

    def test_a_status_at_the_end(self) -> None:
        store = self.by_rote({"pool": "ok pool 0 0\nend\n", "clean": ["exit", 4, "ok clean\nend\n", "", 1]})
        store.clean(1)
        with self.assertRaises(deltagraph.SinkFault):
            store.close()
        store.close()
        with self.assertRaises(deltagraph.SinkFault):
            store.pool()

    def test_a_closed_store(self) -> None:
        with self.open() as store:
            store.create()
            reply = store.send("pool")
        self.assertTrue(store.ended)
        self.assertEqual(reply.head(), ["ok", "pool", "0", "0"])
        with self.open(self.folder / "none") as never:
            pass
        with self.assertRaises(deltagraph.Closed):
            never.create()
        for run in (store.pool, store.span, lambda: store.at(1)):
            with self.assertRaises(deltagraph.Closed):
                run()

    def test_a_file_that_another_makes_meanwhile(self) -> None:
        with self.open() as store, self.open() as other:
            self.assertRaises(deltagraph.NoIndex, store.span)
            other.create()
            other.load(["1 +node 1"])
            self.assertEqual(store.span(), (1, 1))

    def test_a_store_that_is_killed(self) -> None:
        store = self.open()
        store.create()
        store.load(["1 +node 1"])
        kept = store.at(1)
        store.send("list 1")
        store.kill()
        self.assertTrue(store.ended)
        kept.__exit__()
        store.kill()
        store.close()
        with self.assertRaises(deltagraph.Killed):
            store.pool()
        with self.open() as store:
            self.assertEqual(store.span(), (1, 1))
        never = self.open(self.folder / "none")
        never.kill()
        with self.assertRaises(deltagraph.Closed):
            never.create()

    def test_a_program_that_does_not_answer_is_killed(self) -> None:
        self.index.touch()
        store = deltagraph.open(self.index, ["sh", "-c", "read line; printf 'ok pool 0 0\\nend\\n'; exec sleep 1000"])
        store.send("verify")
        store.kill()
        with self.assertRaises(deltagraph.Killed) as raised:
            store.tree()
        self.assertEqual(raised.exception.command, "verify")

    def test_an_error_of_the_caller_stays(self) -> None:
        with self.assertRaises(ZeroDivisionError), self.open() as store:
            store.create()
            store.load(["1 +node 1"])
            with store.at(1):
                raise ZeroDivisionError


class Disks(Case):
    def test_a_file_that_may_not_grow(self) -> None:
        limited = ["bash", "-c", 'trap "" XFSZ; ulimit -f 4; exec "$0" "$@"', *program()]
        with deltagraph.open(self.index, limited) as store:
            store.create(8, 2)
            with self.assertRaises(deltagraph.DiskFault) as raised:
                for time in range(1000):
                    store.append([deltagraph.AddNode(time, time)])
            self.assertIn("deltagraph: ", raised.exception.errors[0])
            self.assertEqual((raised.exception.status, raised.exception.command), (5, "append 1"))
        with self.open() as store:
            span = store.span()
            assert span is not None
            self.assertIn(span.last, (time - 1, time))
            store.append([deltagraph.AddNode(2000, 2000)])
            self.assertTrue(store.verify().sound)

    def test_a_full_disk(self) -> None:
        mount = ["mount", "-t", "tmpfs", "-o", "size=64k", "tmpfs", str(self.folder)]
        try:
            subprocess.run(mount, check=True, capture_output=True)
        except (OSError, subprocess.CalledProcessError):
            self.skipTest("no file system can be mounted here")
        self.addCleanup(subprocess.run, ["umount", str(self.folder)], check=True)
        added = 0
        with self.open() as store:
            store.create(8, 2)
            with self.assertRaises(deltagraph.DiskFault):
                for time in range(1000):
                    added = store.append([deltagraph.AddNode(time, time)]).total
        with self.open() as store:
            self.assertIn(store.tree().events, (added, added + 1))
            self.assertTrue(store.verify().sound)

    def test_files_that_are_none(self) -> None:
        with self.assertRaises(deltagraph.DiskFault):
            self.open(self.folder)
        foreign = self.folder / "text"
        foreign.write_text("a text of more than eighteen bytes")
        with self.assertRaises(deltagraph.IndexRefused) as raised:
            self.open(foreign)
        self.assertIn("deltagraph: ", raised.exception.errors[0])
        with self.open(self.folder / "nowhere" / "index") as store:
            with self.assertRaises(deltagraph.DiskFault):
                store.create()

    def test_a_name_that_begins_as_an_option(self) -> None:
        before = Path.cwd()
        os.chdir(self.folder)
        try:
            with self.open(Path("--checked")) as store:
                store.create()
        finally:
            os.chdir(before)
        self.assertTrue((self.folder / "--checked").exists())


    def test_a_cache_that_is_too_large(self) -> None:
        with self.open() as store:
            store.create()
        for cache in (-1, 65537):
            with self.assertRaises(deltagraph.WrongWords):
                self.open(cache=cache)
        with self.open(cache=65536) as store:
            self.assertIsNone(store.span())


class WrongPrograms(Case):
    def test_programs_that_are_others(self) -> None:
        self.index.touch()
        for words, kind in (
            (["sh", "-c", "cat"], deltagraph.WrongProgram),
            (["cat"], deltagraph.ProgramEnded),
            (["sh", "-c", "cat > /dev/null & yes"], deltagraph.WrongProgram),
            (["sh", "-c", "tr -d '\\n' < /dev/zero"], deltagraph.WrongProgram),
            (["sh", "-c", "echo ok list 1 1; echo end; cat > /dev/null"], deltagraph.WrongProgram),
            (["sh", "-c", "printf 'ok pool 0 0\\nend\\nok more\\n'; cat > /dev/null"], deltagraph.WrongProgram),
            (["false"], deltagraph.ProgramEnded),
            (["true"], deltagraph.ProgramEnded),
            (["sh", "-c", "echo oh >&2; exit 3"], deltagraph.SourceFault),
        ):
            with self.subTest(words), self.assertRaises(kind):
                deltagraph.open(self.index, words).pool()

    def test_programs_that_are_not_there(self) -> None:
        plain = self.folder / "plain"
        plain.write_text("no program")
        for given in ("no-such-program", self.folder / "none", self.folder, plain, [str(plain), "word"]):
            with self.subTest(given), self.assertRaises(deltagraph.ProgramMissing):
                deltagraph.open(self.index, given)
        self.index.touch()
        plain.chmod(plain.stat().st_mode | stat.S_IXUSR)
        with self.assertRaises(deltagraph.ProgramMissing):
            deltagraph.open(self.index, plain)

    def test_where_the_program_is_found(self) -> None:
        named = self.folder / "deltagraph"
        named.write_text("#!/bin/sh\n")
        named.chmod(0o755)
        with mock.patch.dict(os.environ, {"DELTAGRAPH": str(named), "PATH": ""}):
            self.assertEqual(find_program(), [str(named)])
            self.assertEqual(find_program(sys.executable), [sys.executable])
            self.assertEqual(find_program([sys.executable, "-c"]), [sys.executable, "-c"])
        with mock.patch.dict(os.environ, {"PATH": str(self.folder)}):
            os.environ.pop("DELTAGRAPH", None)
            self.assertEqual(find_program(), [str(named)])


class Bars(Case):
    def test_a_bar_where_it_is_asked_for(self) -> None:
        module, shown = mock.MagicMock(), mock.MagicMock()
        module.tqdm.return_value = shown
        changes = [f"{time} +node {time}" for time in range(10)]
        with mock.patch.dict(sys.modules, {"tqdm": module}), self.by_rote({}) as store:
            store.load(changes, bar=True, batch=4)
            self.assertEqual([call.args for call in shown.update.call_args_list], [(4,), (4,), (2,)])
            self.assertEqual(module.tqdm.call_args.kwargs["total"], 10)
            shown.close.assert_called_once_with()
            store.load(changes)
            module.tqdm.assert_called_once()

    def test_no_bar_where_there_is_none(self) -> None:
        with mock.patch.dict(sys.modules, {"tqdm": None}), self.by_rote({}) as store:
            self.assertEqual(store.load(["1 +node 1"]).events, 1)
            with self.assertRaises(ImportError):
                store.load(["1 +node 1"], bar=True)
