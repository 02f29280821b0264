"""The script of an index, and late records, beside scripts written by hand and the model."""
from __future__ import annotations

import io
import random
import shutil
import subprocess
import unittest
from pathlib import Path
from typing import Iterator
from unittest import mock

import deltagraph
from deltagraph import rebuilding
from deltagraph.script import find_dump
from deltagraph.words import bytes_of, text_of

from .support import Case, Model, program

FIRST_FORM = Path(__file__).resolve().parents[2] / "tests" / "transcripts" / "first_form"

BY_HAND = [
    "10 +node 1",
    "10 nset 1 name Ada ",
    "10 +node 2",
    "20 +edge 5 1 2 dir",
    "20 eset 5 weight 2",
    "25 eset 5 weight 2",
    "30 msg 2 1 Hello, you",
    "30 msg 2 2 ",
    "40 edel 5 weight",
    "40 -edge 5",
    "40 +edge 5 2 2 undir",
    "50 nset 2 k\u00e9y a\udcffb",
]
MORE = ["60 ndel 1 name", "61 -edge 5"]


def dumped(index: Path) -> bytes:
    output = io.BytesIO()
    deltagraph.dump(index, output)
    return output.getvalue()


class WithDump(Case):
    def setUp(self) -> None:
        super().setUp()
        try:
            find_dump()
        except deltagraph.ProgramMissing as missing:
            self.skipTest(str(missing))

    def made(self, lines: list[str], name: str = "old.dg", *batches: list[str]) -> Path:
        index = self.folder / name
        with self.open(index) as store:
            store.create(3, 2, "skewed 100")
            store.load(lines)
            for batch in batches:
                store.append(batch)
        return index

    def rebuilt(self, old: Path, late: list[str], *words: object, **named: object) -> deltagraph.Rebuilt:
        return deltagraph.rebuild(old, late, *words, program=program(), **named)  # type: ignore


class ScriptTests(WithDump):
    def test_each_line_and_each_batch(self) -> None:
        index = self.made(BY_HAND, "old.dg", MORE)
        lines = ["create 3 2 skewed 100", f"load {len(BY_HAND)}", *BY_HAND, f"append {len(MORE)}", *MORE]
        self.assertEqual(dumped(index), bytes_of("".join(line + "\n" for line in lines)))
        with deltagraph.Script(index) as script:
            self.assertEqual(script.creation, (3, 2, "skewed 100"))
            batches = [[text_of(line) for line in batch] for batch in script.batches()]
        self.assertEqual(batches, [[line + "\n" for line in batch] for batch in (BY_HAND, MORE)])
        with deltagraph.Script(index, checked=True) as script:
            first = [next(batch) for batch in script.batches()]  # the rest of a batch may be left
        self.assertEqual(first, [bytes_of(BY_HAND[0] + "\n"), bytes_of(MORE[0] + "\n")])
        with deltagraph.Script(index) as script:
            self.assertEqual(next(script.changes()), bytes_of(BY_HAND[0] + "\n"))  # and so may all that follows

    def test_the_script_makes_the_file_again(self) -> None:
        for seed in range(40):
            pick, model = random.Random(seed), Model(seed)
            index, again = self.folder / f"{seed}.dg", self.folder / f"{seed}.again"
            with self.subTest(seed):
                with self.open(index) as store:
                    store.create(pick.choice([2, 3, 5]), pick.choice([2, 3]), pick.choice(["union", "balanced", "skewed 7"]))
                    store.load(model.grow(pick.randrange(1, 60)), batch=pick.choice([1, 7, 1000]))
                    for _ in range(pick.randrange(4)):
                        store.append(model.grow(pick.randrange(1, 15)))
                with deltagraph.Script(index) as script:
                    self.assertEqual([text_of(line) for line in script.changes()], [f"{c.line()}\n" for c in model.changes])
                with deltagraph.Script(index) as script, self.open(again) as store:
                    store.create(*script.creation)
                    word = "load"
                    for batch in script.batches():
                        lines = list(batch)
                        store.ask(f"{word} {len(lines)}", b"".join(lines))
                        word = "append"
                self.assertEqual(again.read_bytes(), index.read_bytes())

    def test_files_of_the_first_form(self) -> None:
        """They come back in the second form: the same batches, and the same graphs."""
        first, again = self.folder / "first.dg", self.folder / "again.dg"
        shutil.copy(next(FIRST_FORM.glob("*.dg")), first)
        for upgraded in (False, True):
            with self.open(first) as store:
                span = store.span()
                assert span is not None
                if upgraded:
                    store.upgrade()
                    store.append([f"{span.last + 1} +node 77", f"{span.last + 1} msg 77 77 after"])
            script = dumped(first)
            again.unlink(missing_ok=True)
            subprocess.run([*program(), str(again)], input=script, stdout=subprocess.DEVNULL, check=True)
            self.assertEqual(dumped(again), script)
            with self.open(first) as store, self.open(again) as other:
                self.assertNotEqual(first.read_bytes()[:8], again.read_bytes()[:8])
                self.assertTrue(other.verify().sound)
                for time in range(span.first, span.last + 1, max(1, (span.last - span.first) // 20)):
                    self.assertEqual(list(store.at(time, "sne").lines()), list(other.at(time, "sne").lines()))

    def test_the_changes_of_a_span(self) -> None:
        index = self.made(BY_HAND, "old.dg", MORE)
        whole = [*BY_HAND, *MORE]
        for begin, end in ((None, None), (20, 30), (21, None), (None, 10), (61, 62), (62, None), (30, 20), (10, 61), (0, 2**63 - 1)):
            due = [line for line in whole if (begin or 0) <= int(line.split()[0]) and (end is None or int(line.split()[0]) < end)]
            found = [text_of(line[:-1]) for line in deltagraph.changes_between(index, begin, end)]
            self.assertEqual(found, due, (begin, end))
        with self.assertRaises(deltagraph.EmptyFile):
            list(deltagraph.changes_between(self.index, 1, 2))
        for seed in range(12):
            pick, model = random.Random(seed), Model(seed)
            index = self.folder / f"{seed}.span"
            with self.open(index) as store:
                store.create(pick.choice([2, 3, 5]), 2)
                store.load(model.grow(pick.randrange(5, 60)), batch=pick.choice([1, 7]))
            times = sorted(change.time for change in model.changes)
            for _ in range(8):
                begin, end = (pick.choice(times) + pick.randrange(2) for _ in range(2))
                found = [text_of(line[:-1]) for line in deltagraph.changes_between(index, begin, end, checked=pick.random() < 0.2)]
                self.assertEqual(found, [change.line() for change in model.changes if begin <= change.time < end])

    def test_spells(self) -> None:
        index = self.made(BY_HAND, "old.dg", MORE)
        due = [
            ("edge-value", 5, 20, 40, None, None, None, "weight", "2"),
            ("edge", 5, 20, 40, 1, 2, True, None, None),
            ("node-value", 1, 10, 60, None, None, None, "name", "Ada "),
            ("edge", 5, 40, 61, 2, 2, False, None, None),
            ("node", 1, 10, None, None, None, None, None, None),
            ("node", 2, 10, None, None, None, None, None, None),
            ("node-value", 2, 50, None, None, None, None, "k\u00e9y", "a\udcffb"),
        ]
        self.assertEqual(list(deltagraph.spells(index)), due)
        for seed in range(15):
            pick, model = random.Random(seed), Model(seed)
            index = self.folder / f"{seed}.spells"
            with self.open(index) as store:
                store.create(3, 2)
                store.load(model.grow(pick.randrange(5, 80)))
            found = list(deltagraph.spells(index))
            for time in pick.sample(sorted(model.graphs), min(6, len(model.graphs))):
                graph = model.graph(time)
                then = [spell for spell in found if spell.start <= time and (spell.end is None or time < spell.end)]
                self.assertEqual({spell.id for spell in then if spell.what == "node"}, set(graph.nodes))
                edges = {spell.id: (spell.source, spell.target, spell.directed) for spell in then if spell.what == "edge"}
                self.assertEqual(edges, graph.edges)
                for what, due_values in (("node-value", graph.nodes), ("edge-value", graph.values)):
                    told = {(spell.id, spell.key): spell.value for spell in then if spell.what == what}
                    pairs = {(owner, key): value for owner, held in due_values.items() for key, value in held.items()}
                    self.assertEqual(told, pairs)

    def test_what_is_no_history(self) -> None:
        with self.assertRaises(deltagraph.EmptyFile):
            deltagraph.Script(self.index)
        self.index.touch()
        with self.assertRaises(deltagraph.EmptyFile) as raised:
            deltagraph.Script(self.index)
        self.assertEqual(raised.exception.status, 8)
        self.index.write_text("time,source,target\n" * 5)
        with self.assertRaises(deltagraph.IndexRefused):
            deltagraph.Script(self.index)
        with self.assertRaises(deltagraph.IndexRefused):
            list(deltagraph.changes_between(self.index))
        index = self.made(BY_HAND)
        image = index.read_bytes()
        place = image.index(b"Ada ") - 1
        index.write_bytes(image[:place] + b"\0" + image[place + 1 :])
        with self.assertRaises(deltagraph.IndexRefused):
            deltagraph.Script(index, checked=True)
        with self.assertRaises(deltagraph.ProgramMissing):
            deltagraph.Script(index, ["no-such-program"])


class RebuildTests(WithDump):
    def same_as(self, found: Path, lines: list[str]) -> None:
        """The file is the one that a load of these lines makes."""
        due = self.made(lines, "due.dg")
        self.assertEqual(found.read_bytes(), due.read_bytes())
        due.unlink()

    def test_late_changes_take_their_places(self) -> None:
        old, new = self.made(BY_HAND, "old.dg", MORE), self.folder / "new.dg"
        late = ["70 +node 9", "30 +node 7", "5 +node 8", "40 nset 7 name Eve", "30 nset 7 name Bo"]
        before = old.read_bytes()
        made = self.rebuilt(old, late, new)
        self.assertEqual(made, (19, 5, []))
        whole = ["5 +node 8", *BY_HAND[:8], "30 +node 7", "30 nset 7 name Bo", *BY_HAND[8:11], "40 nset 7 name Eve"]
        self.same_as(new, [*whole, BY_HAND[11], *MORE, "70 +node 9"])
        self.assertEqual(old.read_bytes(), before)
        self.assertEqual(sorted(path.name for path in self.folder.iterdir()), ["new.dg", "old.dg"])

    def test_before_the_changes_of_the_same_instant(self) -> None:
        old, new = self.made(["10 +node 1", "20 nset 1 name Ada"]), self.folder / "new.dg"
        late = ["20 nset 1 name Eve", "10 +node 3"]
        self.rebuilt(old, late, new, at_equal_times="before")
        self.same_as(new, ["10 +node 3", "10 +node 1", "20 nset 1 name Eve", "20 nset 1 name Ada"])
        with self.assertRaises(ValueError):
            self.rebuilt(old, late, self.folder / "other.dg", at_equal_times="with")
        with self.assertRaises(FileExistsError):
            self.rebuilt(old, late, new)

    def test_it_takes_the_name_of_the_old_file(self) -> None:
        old = self.made(BY_HAND)
        before = old.read_bytes()
        deltagraph.open(old, program()).set_calendar("2020-01-01", "days")
        self.rebuilt(old, ["15 +node 3"], keep=True)
        self.same_as(old, [*BY_HAND[:3], "15 +node 3", *BY_HAND[3:]])
        self.assertEqual((self.folder / "old.dg.old").read_bytes(), before)
        self.rebuilt(old, ["16 +node 4"], self.folder / "new.dg")
        with self.open(self.folder / "new.dg") as store:
            self.assertEqual(store.dates(0), ["2020-01-01"])
            self.assertEqual(store.at(16).counts().nodes, 4)

    def test_changes_that_cannot_hold(self) -> None:
        old, new = self.made(BY_HAND, "old.dg", MORE), self.folder / "new.dg"
        late = ["5 +node 8", "15 +edge 6 1 9 dir", "19 nset 2 name Bo", "19 -node 1", "35 ndel 1 name", "39 frob"]
        before = old.read_bytes()
        with self.assertRaises(deltagraph.LateChangeRefused) as raised:
            self.rebuilt(old, late, new)
        self.assertEqual(raised.exception.refused, (2, "15 +edge 6 1 9 dir", "no-end"))
        self.assertEqual((old.read_bytes(), new.exists()), (before, False))
        made = self.rebuilt(old, late, new, skip_refused=True)
        skipped = [(2, "15 +edge 6 1 9 dir", "no-end"), (4, "19 -node 1", "node-in-use"), (6, "39 frob", "form")]
        self.assertEqual(made, (16, 3, [*skipped, (None, "60 ndel 1 name", "no-attribute")]))
        whole = ["5 +node 8", *BY_HAND[:3], "19 nset 2 name Bo", *BY_HAND[3:8], "35 ndel 1 name", *BY_HAND[8:]]
        self.same_as(new, [*whole, MORE[1]])
        with self.assertRaises(deltagraph.InvalidChange):
            self.rebuilt(old, ["soon +node 5"], self.folder / "other.dg")

    def test_a_file_that_grows_meanwhile_keeps_its_name(self) -> None:
        old = self.made(BY_HAND)

        def late() -> Iterator[str]:
            yield "15 +node 3"
            with self.open(old) as store:
                store.append(MORE)

        with self.assertRaises(deltagraph.FileChanged):
            deltagraph.rebuild(old, late(), program=program())
        self.same_as_batches(old)
        self.assertEqual([path.name for path in self.folder.iterdir() if "rebuilding" in path.name], [])

    def same_as_batches(self, found: Path) -> None:
        due = self.made(BY_HAND, "due.dg", MORE)
        self.assertEqual(found.read_bytes(), due.read_bytes())
        due.unlink()

    def test_many_late_changes_are_sorted_in_files(self) -> None:
        pick = random.Random(4)
        for part, batch in ((3, 4), (1, 1), (5, 100)):
            with self.subTest(part), mock.patch.object(rebuilding, "PART", part), mock.patch.object(rebuilding, "BATCH", batch):
                old = self.made([f"{time} +node {time}" for time in range(10, 60, 2)])
                late = [f"{pick.randrange(70)} msg 10 10 {number}" for number in range(40)]
                late += [f"{time} nset 10 k {time}" for time in range(11, 50, 3)]
                pick.shuffle(late)
                made = self.rebuilt(old, late, self.folder / "new.dg", skip_refused=True)
                early = [line for line in late if int(line.split()[0]) < 10]
                self.assertEqual(len(made.skipped), len(early))
                kept = sorted([line for line in late if line not in early], key=lambda line: int(line.split()[0]))
                lines = sorted([f"{time} +node {time}" for time in range(10, 60, 2)] + kept, key=lambda line: int(line.split()[0]))
                with deltagraph.Script(self.folder / "new.dg") as script:
                    self.assertEqual([text_of(line[:-1]) for line in script.changes()], lines)
                for path in self.folder.iterdir():
                    path.unlink()

    def test_a_history_that_came_in_two_parts(self) -> None:
        """Some changes of a random history come late: the rebuilt one is that of all of them."""
        for seed in range(40):
            pick, model = random.Random(seed), Model(seed)
            model.grow(pick.randrange(5, 80))
            # What is last at its instant may come late, and stands there again; but for it nothing else may need it.
            lasts = [
                change
                for change, after in zip(model.changes, [*model.changes[1:], None])
                if isinstance(change, deltagraph.SendMessage) and (after is None or after.time != change.time)
            ]
            late = pick.sample(lasts, pick.randrange(len(lasts) + 1))
            places = {id(change) for change in late}
            old, new = self.folder / f"{seed}.old", self.folder / f"{seed}.new"
            rest = [change for change in model.changes if id(change) not in places]
            with self.subTest(seed), self.open(old) as store:
                store.create(3, 2, "skewed 100")
                store.load(rest)
                made = deltagraph.rebuild(old, late, new, program=program())
                self.assertEqual(made, (len(model.changes), len(late), []))
                self.same_as(new, [change.line() for change in model.changes])


if __name__ == "__main__":
    unittest.main()
