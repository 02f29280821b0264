"""One run of the program: a pipe for its script, one for its replies and one for its errors.

All three are served together by `poll`, so that no length of a script or of a reply stops the two sides. Replies come
in the order of their commands; what is not yet asked for is kept as bytes.
"""
from __future__ import annotations

import contextlib
import os
import select
import shutil
import subprocess
from collections import deque
from pathlib import Path
from typing import IO, Iterator, Optional, Sequence, Union

from .failures import Closed, DeltagraphError, ProgramMissing, WrongProgram, program_ended
from .words import bytes_of, text_of

PIECE = 1 << 16  # bytes, of one read: what a pipe holds
LONGEST_LINE = 1 << 16  # bytes: more than any line of a reply has
GRACE = 10.0  # seconds, for a program that has closed its replies

Program = Union[str, "os.PathLike[str]", Sequence[str], None]


def find_program(given: Program = None) -> list[str]:
    """The words that start the program.

    They are those given, a name or several words; else $DELTAGRAPH, the program that a wheel brought along,
    `deltagraph` on the PATH, or the one that is built in the checkout that this file lies in. Raises `ProgramMissing`
    where the first word names no program.
    """
    here = Path(__file__).resolve()
    own = here.parent / "bin" / "deltagraph"
    built = here.parents[2] / "crates" / "deltagraph" / "out" / "deltagraph"
    if given is None:
        found_there = os.environ.get("DELTAGRAPH") or (own if own.is_file() else shutil.which("deltagraph"))
        given = found_there or (built if built.is_file() else None)
    if given is None:
        raise ProgramMissing("the program `deltagraph` is not on the PATH; put it there, set $DELTAGRAPH, or name one")
    words = [os.fspath(given)] if isinstance(given, (str, os.PathLike)) else list(given)
    found = shutil.which(words[0])
    if found is None:
        raise ProgramMissing(f"{words[0]}: no such program; name one, set $DELTAGRAPH, or put it on the PATH")
    return [os.path.abspath(found), *words[1:]]


class Reply:
    """The reply to one command: its head line, and then the lines of its body as they come."""

    def __init__(self, process: "Process", command: str) -> None:
        self.command = command
        self._process = process
        self._head: Optional[bytes] = None
        self._pieces: deque[bytes] = deque()
        self._complete = False
        self._wanted = True

    def head(self) -> list[str]:
        """The words of the head line, which is waited for."""
        while self._head is None:
            self._process.exchange()
        return text_of(self._head).split(" ")

    def pieces(self) -> Iterator[bytes]:
        """The body in pieces of whole lines, each with its line feed. What is not taken is dropped."""
        try:
            while True:
                while self._pieces:
                    yield self._pieces.popleft()
                if self._complete:
                    return
                self._process.exchange()
        finally:
            self.drop()

    def lines(self) -> list[str]:
        """The lines of the body. Only a line feed ends a line: a value may hold other separators."""
        return text_of(b"".join(self.pieces())).split("\n")[:-1]

    def drop(self) -> None:
        """Keeps nothing more of this reply."""
        self._wanted = False
        self._pieces.clear()

    def kill(self) -> None:
        """Ends the run of the program at once: it is another one."""
        self._process.kill()

    def finish(self) -> None:
        """Waits until the reply is there to its end."""
        while not self._complete:
            self._process.exchange()

    def take(self, lines: bytes) -> Optional[bytes]:
        """Takes whole lines. Gives those behind the end of the reply, or None where it goes on."""
        start = 0
        if self._head is None:
            start = lines.index(b"\n") + 1
            head = lines[: start - 1]
            if not head.startswith((b"ok ", b"refused ")):
                raise WrongProgram(f"`{self.command}` was answered by {text_of(head[:80])!r}: this is not deltagraph")
            self._head = head
        if lines.startswith(b"end\n", start):
            end = start
        else:
            found = lines.find(b"\nend\n", start)
            end = len(lines) if found < 0 else found + 1
        self._complete = end < len(lines)
        if self._wanted and end > start:
            self._pieces.append(lines[start:end])
        return lines[end + len(b"end\n") :] if self._complete else None


class Process:
    """A run of the program over an index file. It serves one thread at a time."""

    def __init__(self, program: Sequence[str], index: str, checked: bool = False, cache: int = 0) -> None:
        words = [*program, *(["--cache", str(cache)] if cache else []), *(["--checked"] if checked else []), index]
        pipe = subprocess.PIPE
        try:
            # In a session of its own, so that an interrupt at the keyboard does not end it within a command.
            self._run = subprocess.Popen(words, stdin=pipe, stdout=pipe, stderr=pipe, bufsize=0, start_new_session=True)
        except OSError as error:
            raise ProgramMissing(f"{program[0]}: {error.strerror}") from error
        assert self._run.stdin is not None and self._run.stdout is not None and self._run.stderr is not None
        self._script, self._replies, self._errors = self._run.stdin, self._run.stdout, self._run.stderr
        self._outgoing: deque[memoryview] = deque()
        self._pending: deque[Reply] = deque()
        self._rest = b""  # the front of a line whose end has not come
        self._told = b""  # what came on standard error
        self._script_ends = self._closed = False
        self._why: Optional[DeltagraphError] = None  # for what the run ended before its time
        self._poll = select.poll()
        self._poll.register(self._replies, select.POLLIN)
        self._poll.register(self._errors, select.POLLIN)
        os.set_blocking(self._script.fileno(), False)

    @property
    def number(self) -> int:
        """The number of the process."""
        return self._run.pid

    @property
    def ended(self) -> bool:
        """Whether the run is over, as far as was seen."""
        return self._closed

    def send(self, command: str, following: bytes = b"") -> Reply:
        """Sends a command with the lines that follow it. Its reply comes behind those of earlier commands."""
        if self._closed:
            raise self._why or Closed("the store is closed")
        if self._script_ends:
            raise Closed(f"the script has ended, and `{command}` cannot be sent")
        reply = Reply(self, command)
        self._pending.append(reply)
        self._outgoing.append(memoryview(bytes_of(command) + b"\n"))
        if following:
            self._outgoing.append(memoryview(following))
        self._write()
        return reply

    def end_script(self) -> None:
        """Ends the script behind what was sent. Replies that are due still come."""
        self._script_ends = True
        self._write()

    def exchange(self) -> None:
        """Waits until some of the replies came, and writes what can be written meanwhile.

        Raises `ProgramEnded` where no more comes, and `WrongProgram` where it is no reply.
        """
        if self._closed:
            raise self._why or Closed("the store was closed before the reply was read")
        if not self._serve():
            self._reap()
            raise self._why or Closed("the program ended")

    def close(self) -> None:
        """Ends the script, waits until all that was sent is done, and ends the run.

        Raises `ProgramEnded` where its status is not 0, unless that was told before.
        """
        if self._closed:
            return
        try:
            for reply in self._pending:
                reply.drop()
            self.end_script()
            while self._serve():
                pass
            self._reap()
        finally:
            self.kill()
        if self._why is not None:
            raise self._why

    def kill(self) -> None:
        """Ends the run at once, if it is not over."""
        if not self._closed:
            self._run.kill()
            self._reap()

    def _serve(self) -> bool:
        """Reads and writes until some of the replies came. Says whether any did, or their end."""
        while True:
            ready = {descriptor for descriptor, _ in self._poll.poll()}
            if self._errors.fileno() in ready:
                self._read_errors()
            if not self._script.closed and self._script.fileno() in ready:
                self._write()
            if self._replies.fileno() in ready:
                data = os.read(self._replies.fileno(), PIECE)
                self._feed(data)
                return bool(data)

    def _feed(self, data: bytes) -> None:
        cut = data.rfind(b"\n") + 1
        lines: Optional[bytes] = self._rest + data[:cut] if cut else b""
        self._rest = data[cut:] if cut else self._rest + data
        try:
            while lines:
                if not self._pending:
                    raise WrongProgram(f"{text_of(lines[:80])!r} came, and nothing was asked: this is not deltagraph")
                lines = self._pending[0].take(lines)
                if lines is not None:
                    self._pending.popleft()
            if len(self._rest) > LONGEST_LINE:
                raise WrongProgram(f"a line of more than {LONGEST_LINE} bytes came: this is not deltagraph")
        except WrongProgram as wrong:
            self.kill()
            self._why = wrong
            raise

    def _write(self) -> None:
        """Writes what the pipe takes. Where it is broken, what is left is dropped: the end of the replies tells why."""
        if self._script.closed:
            return
        broken = False
        try:
            while self._outgoing:
                written = os.write(self._script.fileno(), self._outgoing[0])
                self._outgoing[0] = self._outgoing[0][written:]
                if not self._outgoing[0]:
                    self._outgoing.popleft()
        except BlockingIOError:
            self._poll.register(self._script, select.POLLOUT)
            return
        except BrokenPipeError:
            self._outgoing.clear()
            broken = True
        self._forget(self._script)
        if self._script_ends or broken:
            self._script.close()

    def _forget(self, pipe: IO[bytes]) -> None:
        with contextlib.suppress(KeyError):  # it was not waited for
            self._poll.unregister(pipe)

    def _read_errors(self) -> None:
        data = os.read(self._errors.fileno(), PIECE)
        self._told += data
        if not data:
            self._forget(self._errors)

    def _reap(self) -> None:
        """Takes the status and the last errors of a run that is at its end, and closes the pipes."""
        self._closed = True
        self._script.close()
        try:
            self._run.wait(GRACE)
        except subprocess.TimeoutExpired:
            self._run.kill()
            self._run.wait()
        os.set_blocking(self._errors.fileno(), False)
        with contextlib.suppress(BlockingIOError):  # where another process holds the pipe open
            while data := os.read(self._errors.fileno(), PIECE):
                self._told += data
        self._errors.close()
        self._replies.close()
        if self._run.returncode != 0 or self._pending:
            command = self._pending[0].command if self._pending else ""
            self._why = program_ended(self._run.returncode, text_of(self._told).splitlines(), command)
        self._outgoing.clear()
        self._pending.clear()
