"""The machine of lib/machine.py, of which other suites ask what is due, answers the cases of transcripts/rules and the scripts
of transcripts/ and examples/ as they stand. The program takes no part."""
from __future__ import annotations

import re
import sys
from pathlib import Path
from typing import Iterator, NamedTuple

from tests.lib.judge import Judgement
from tests.lib.machine import Machine, bytes_of, commands_of, split, text_of
from tests.lib.runs import Tests

ROOT = Path(__file__).resolve().parents[2]
TOO_LARGE = ["two hundred thousand changes", "debian_packages"]  # for a machine that replays the history at each question
ESCAPES = {rb"\r": b"\r", rb"\t": b"\t"}


class Run(NamedTuple):
    title: str
    is_new: bool  # over no file
    script: bytes
    replies: list[str]  # without their last lines


def unescaped(text: str) -> bytes:
    return re.sub(rb"\\[rt]|\\x(..)", lambda m: bytes.fromhex(m[1].decode()) if m[1] else ESCAPES[m[0]], bytes_of(text))


def runs_of(transcript: Path) -> Iterator[Run]:
    """The runs of a transcript, as suites/transcripts.sh says how it is written."""
    run = None
    for line in text_of(transcript.read_bytes()).split("\n"):
        mark, _, rest = line.partition(" ")
        if mark in ("==", "--"):
            if run:
                yield run
            run = Run(rest, mark == "==", b"", [])
        elif run and mark in (">", ">>", ">|", ">>|"):
            text = unescaped(rest) if mark.startswith(">>") else bytes_of(rest)
            run = run._replace(script=run.script + text + b"\n" * (not mark.endswith("|")))
        elif run and line and mark not in ("#", "status"):
            run.replies.append(line)
    if run:
        yield run


def look_at_transcripts(tests: Tests) -> None:
    for transcript in sorted((ROOT / "tests" / "transcripts" / "rules").glob("*.transcript")):
        machine = Machine()
        for run in runs_of(transcript):
            machine = Machine() if run.is_new else machine.opened()
            if run.title not in TOO_LARGE:
                found = [line for one in commands_of(run.script) for line in machine.reply(one)]
                tests.same(f"{transcript.name}: {run.title}", found, run.replies)


def look_at_scripts(tests: Tests) -> None:
    folders = [*(ROOT / "examples").iterdir(), *(ROOT / "tests" / "transcripts").iterdir()]
    for folder in sorted(folder for folder in folders if folder.name not in TOO_LARGE):
        index = folder / "index.dg"
        machine = Judgement(index.read_bytes()).machine() if index.exists() else Machine()
        for script in sorted(folder.glob("*.script")):
            machine = machine.opened()
            found = "".join(machine.answer(*split(one)) for one in commands_of(script.read_bytes()))
            tests.check(f"{folder.name}/{script.name}", bytes_of(found) == script.with_suffix(".replies").read_bytes())


def main() -> bool:
    tests = Tests("machine")
    look_at_transcripts(tests)
    look_at_scripts(tests)
    return tests.end()


if __name__ == "__main__":
    sys.exit(main())
