"""The whole history of an index as the script that makes it again, by the program `deltagraph-dump`.

That program is proved: what it writes over a sound file is the script of the file's own history. It is read line by
line, so that no length of a history takes memory.
"""
from __future__ import annotations

import os
import shutil
import subprocess
import tempfile
from pathlib import Path
from typing import IO, Iterator, NamedTuple, Optional, Union

from .failures import EmptyFile, ProgramMissing, WrongProgram, program_ended
from .process import Program
from .words import text_of

NAME = "deltagraph-dump"


def find_dump(given: Program = None) -> list[str]:
    """The words that start the program that writes a history as a script.

    They are those given; else $DELTAGRAPH_DUMP, the program that a wheel brought along, `deltagraph-dump` on the PATH, or
    the one that is built in the checkout that this file lies in. Raises `ProgramMissing`.
    """
    here = Path(__file__).resolve()
    own = here.parent / "bin" / NAME
    built = here.parents[2] / "crates" / "deltagraph_dump" / "out" / "deltagraph_dump"
    if given is None:
        found_there = os.environ.get("DELTAGRAPH_DUMP") or (own if own.is_file() else shutil.which(NAME))
        given = found_there or (built if built.is_file() else None)
    if given is None:
        raise ProgramMissing(f"the program `{NAME}` is not on the PATH; put it there, set $DELTAGRAPH_DUMP, or name one")
    words = [os.fspath(given)] if isinstance(given, (str, os.PathLike)) else list(given)
    found = shutil.which(words[0])
    if found is None:
        raise ProgramMissing(f"{words[0]}: no such program; name one, set $DELTAGRAPH_DUMP, or put it on the PATH")
    return [os.path.abspath(found), *words[1:]]


class Creation(NamedTuple):
    """The parameters of an index, as `Store.create` takes them."""

    leaf_events: int
    arity: int
    function: str


class _Run:
    """A run of the program over an index, whose output is read as it comes."""

    def __init__(self, index: Union[str, "os.PathLike[str]"], words: list[str]) -> None:
        path = os.fspath(index)
        if not os.path.exists(path):
            raise EmptyFile(EmptyFile.STATUS, [f"{path}: no such file"])
        self._errors: IO[bytes] = tempfile.TemporaryFile()
        try:
            command = [*words, os.path.abspath(path)]
            self._run = subprocess.Popen(command, stdin=subprocess.DEVNULL, stdout=subprocess.PIPE, stderr=self._errors)
        except OSError as error:
            raise ProgramMissing(f"{words[0]}: {error.strerror}") from error
        assert self._run.stdout is not None
        self.lines = self._run.stdout

    def end(self) -> None:
        """Takes the status behind the last line, and raises where it is not 0."""
        if self._errors.closed:
            return
        status = self._run.wait()
        self._errors.seek(0)
        told = text_of(self._errors.read()).splitlines()
        self.close()
        if status != 0:
            raise program_ended(status, told)

    def close(self) -> None:
        """Ends the program, if it is not over."""
        if self._run.poll() is None:
            self._run.kill()
        self.lines.close()
        self._run.wait()
        self._errors.close()


class Script:
    """The script of an index. `creation` is there at once; the changes come as they are asked for.

    Raises `EmptyFile` where the file has no index, `IndexRefused` where it is none or a damaged one, and other
    `ProgramEnded`; damage that is found on the way is raised behind the changes before it.
    """

    def __init__(self, index: Union[str, "os.PathLike[str]"], program: Program = None, checked: bool = False) -> None:
        self.path = os.fspath(index)
        words = [*find_dump(program), *(["--checked"] if checked else [])]
        self._run = _Run(index, words)
        first = text_of(self._run.lines.readline()).split()
        if not first:
            self._run.end()
        if len(first) < 4 or first[0] != "create":
            self.close()
            raise WrongProgram(f"{' '.join(words)} begins with {' '.join(first)!r}: this is not {NAME}")
        self.creation = Creation(int(first[1]), int(first[2]), " ".join(first[3:]))

    def batches(self) -> Iterator[Iterator[bytes]]:
        """The batches, each as its lines, with a line feed at each. A batch is to be read before the next."""
        while command := self._run.lines.readline():
            batch = self._batch(int(command.split()[1]))
            yield batch
            for _ in batch:  # what nobody took
                pass
        self._run.end()

    def _batch(self, count: int) -> Iterator[bytes]:
        for _ in range(count):
            line = self._run.lines.readline()
            if not line.endswith(b"\n"):
                self._run.end()
                raise WrongProgram(f"{NAME} ended within a batch")
            yield line

    def changes(self) -> Iterator[bytes]:
        """The lines of all changes, in their order, with a line feed at each."""
        for batch in self.batches():
            yield from batch

    def write(self, output: IO[bytes]) -> None:
        """Writes the whole script, of which nothing was taken yet, to an open file."""
        output.write(f"create {self.creation.leaf_events} {self.creation.arity} {self.creation.function}\n".encode())
        shutil.copyfileobj(self._run.lines, output)
        self._run.end()

    def close(self) -> None:
        """Ends the program, if it is not over."""
        self._run.close()

    def __enter__(self) -> "Script":
        return self

    def __exit__(self, *_: object) -> None:
        self.close()


def changes_between(
    index: Union[str, "os.PathLike[str]"],
    begin: Optional[int] = None,
    end: Optional[int] = None,
    program: Program = None,
    checked: bool = False,
) -> Iterator[bytes]:
    """The lines of the changes from one instant on and before another, with a line feed at each.

    Lists of the index outside of that span are not read. Raises as `Script`.
    """
    words = [*find_dump(program), *(["--checked"] if checked else [])]
    words += ["--from", str(begin or 0), *([] if end is None else ["--until", str(end)])]
    run = _Run(index, words)
    try:
        yield from run.lines
        run.end()
    finally:
        run.close()


class Spell(NamedTuple):
    """What was there from `start` on, and not any more from `end` on, which is None where it lasts.

    `what` is "node", "edge", "node-value" or "edge-value", and `id` the node, the edge, or the owner of the value.
    """

    what: str
    id: int
    start: int
    end: Optional[int]
    source: Optional[int] = None
    target: Optional[int] = None
    directed: Optional[bool] = None
    key: Optional[str] = None
    value: Optional[str] = None


def spells(index: Union[str, "os.PathLike[str]"], program: Program = None, checked: bool = False) -> Iterator[Spell]:
    """The spells of all nodes, edges and values, each when it ends, and those that last behind them.

    They come of the script of the index in one pass, which holds what is there and nothing of what was. What came and went
    at one instant is in no graph, and in no spell; messages have none. Raises as `Script`.
    """
    there: dict[tuple[str, int, str], Spell] = {}
    with Script(index, program, checked) as script:
        for line in script.changes():
            first, word, rest = text_of(line[:-1]).split(" ", 2)
            if word == "msg":
                continue
            time, begun = int(first), None
            if word.endswith("node") or word.endswith("edge"):
                what, (owner, *fields) = word[1:], rest.split(" ")
                key = ""
                if word == "+node":
                    begun = Spell(what, int(owner), time, None)
                elif word == "+edge":
                    begun = Spell(what, int(owner), time, None, int(fields[0]), int(fields[1]), fields[2] == "dir")
            else:
                what = "node-value" if word.startswith("n") else "edge-value"
                owner, key, *value = rest.split(" ", 2)
                if value:
                    begun = Spell(what, int(owner), time, None, key=key, value=value[0])
            place = (what, int(owner), key)
            ended = there.get(place)
            if ended is not None and begun is not None and ended.value == begun.value:
                continue  # it was set to what it was
            if ended is not None:
                del there[place]
                if ended.start != time:
                    yield ended._replace(end=time)
            if begun is not None:
                there[place] = begun
    yield from there.values()


def dump(
    index: Union[str, "os.PathLike[str]"], output: IO[bytes], program: Program = None, checked: bool = False
) -> None:
    """Writes the script that makes the index again, as bytes, to an open file."""
    with Script(index, program, checked) as script:
        script.write(output)
