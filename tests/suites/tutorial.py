"""Runs the commands of docs/TUTORIAL.md, SCRIPT.md, RECIPES.md and R.md and compares what they print.

  tests/run tutorial               says where they differ
  tests/run tutorial -- --write    puts what they print into the documents

A document is left out where a package that it needs is not there. In its blocks of ```console a line that begins with `$ `
is a command, and lines with `> ` go on with it; what follows is what it prints. All commands of a document run in one shell,
in an empty folder that has the folders of the repository in it.
"""
from __future__ import annotations

import importlib.util
import os
import shutil
import subprocess
import sys
from pathlib import Path
from typing import Iterator, NamedTuple, Union

from tests.lib.runs import Tests

ROOT = Path(__file__).resolve().parents[2]
DOCUMENTS = {"TUTORIAL": [], "SCRIPT": [], "RECIPES": ["numpy", "pandas", "igraph"], "R": ["numpy", "pandas", "Rscript"]}
MARK = "-- end of a command --"


class Command(NamedTuple):
    line: int  # of the document
    lines: list[str]
    printed: list[str]


def parts(text: str) -> Iterator[Union[str, Command]]:
    """The lines of the document in order, with its commands as such."""
    inside, command = False, None
    for number, line in enumerate(text.split("\n"), 1):
        if line.startswith("$ ") and inside:
            if command is not None:
                yield command
            command = Command(number, [line[2:]], [])
        elif (line + " ").startswith("> ") and command is not None and not command.printed:
            command.lines.append(line[2:])
        elif command is not None and line != "```":
            command.printed.append(line)
        else:
            if command is not None:
                yield command
            inside, command = line == "```console", None
            yield line


def printed_by(commands: list[Command], program: str, folder: str) -> list[list[str]]:
    """What each command prints, on standard output and standard error."""
    for name in ("tools", "examples", "tests", "docs", "python"):
        (Path(folder) / name).symlink_to(ROOT / name)
    own = Path(folder) / ".bin"
    own.mkdir()
    (own / "deltagraph").symlink_to(os.path.abspath(program))
    # The Python of this test, since another one may have other packages.
    (own / "python3").write_text(f'#!/bin/sh\nexec "{sys.executable}" "$@"\n')
    (own / "python3").chmod(0o755)
    script = "exec 2>&1\n" + "".join("\n".join(c.lines) + f"\necho '{MARK}'\n" for c in commands)
    path = os.pathsep.join([str(own), os.environ.get("PATH", "")])
    environment = {**os.environ, "PATH": path, "LC_ALL": "C.UTF-8", "TZ": "UTC", "PYTHONDONTWRITEBYTECODE": "1"}
    environment.pop("DELTAGRAPH", None)
    ran = subprocess.run(["bash"], input=script.encode(), stdout=subprocess.PIPE, cwd=folder, env=environment)
    outputs = ran.stdout.decode("utf-8", "replace").split(MARK + "\n")
    return [output.split("\n")[:-1] for output in outputs[: len(commands)]]


def is_there(package: str) -> bool:
    """Whether a package of Python is installed, or R with igraph."""
    if package != "Rscript":
        return importlib.util.find_spec(package) is not None
    asked = ["Rscript", "-e", "library(igraph)"]
    return shutil.which("Rscript") is not None and subprocess.run(asked, capture_output=True).returncode == 0


def look(tests: Tests, document: Path, program: str, folder: str, write: bool) -> None:
    """A case for each command of a document, that it prints what stands there; none where they are written anew."""
    found = list(parts(document.read_text(encoding="utf-8")))
    commands = [part for part in found if isinstance(part, Command)]
    printed = dict(zip((command.line for command in commands), printed_by(commands, program, folder)))
    if write:
        lines: list[str] = []
        for part in found:
            if isinstance(part, str):
                lines.append(part)
            else:
                more = [("> " + line).rstrip() for line in part.lines[1:]]
                lines += ["$ " + part.lines[0], *more, *printed.get(part.line, [])]
        document.write_text("\n".join(lines), encoding="utf-8")
        return
    for c in commands:
        tests.same(f"docs/{document.name}:{c.line}: `{c.lines[0]}`", printed.get(c.line), c.printed)


def main() -> bool:
    program, folder, *words = sys.argv[1:]
    tests = Tests("tutorial")
    for name, needed in DOCUMENTS.items():
        missing = [package for package in needed if not is_there(package)]
        if missing:
            print(f"no {' and no '.join(missing)} here: docs/{name}.md is left out")
            continue
        own = Path(folder).resolve() / f"of_{name}"
        own.mkdir()
        look(tests, ROOT / "docs" / f"{name}.md", program, str(own), "--write" in words)
    return tests.end()


if __name__ == "__main__":
    sys.exit(main())
