"""What the tools share beside the client: their words, how far they are, what they write, and how they end.

Who imports this first may import the client, whose folder lies beside this one.
"""
from __future__ import annotations

import argparse
import os
import sys
from contextlib import contextmanager
from pathlib import Path
from time import monotonic
from typing import IO, Callable, Iterable, Iterator, NoReturn, Optional

sys.path.insert(0, str(Path(__file__).resolve().parent.parent / "python"))

from deltagraph import DeltagraphError  # noqa: E402
from deltagraph.words import bytes_of  # noqa: E402

STATUS_FAILED = 1
STATUS_WRONG_INPUT = 2
STATUS_INTERRUPTED = 130


class WrongInput(Exception):
    """What was given is not as it has to be."""


class Failed(Exception):
    """A file, the program or another thing that is needed is not there, or fails."""


def shown(text: str) -> str:
    """A text for people: what is no UTF-8 in it is U+FFFD."""
    return bytes_of(text).decode("utf-8", "replace")


class Progress:
    """Lines about long work on standard error: on a terminal one that changes; with `wanted` one each few seconds."""

    EVERY = 2.0  # seconds
    CLEAR = "\r\033[K"
    shown = False  # a line that changes stands on the terminal

    def __init__(self, tool: str = "", wanted: bool = False) -> None:
        self.tool, self.wanted = tool, wanted
        self.terminal = sys.stderr is not None and sys.stderr.isatty()
        self.next = monotonic() + self.EVERY

    def stage(self, text: str) -> None:
        """Tells what begins."""
        if self.wanted or self.terminal:
            self.show(text)

    def tick(self, text: str) -> None:
        """Tells how far it is, if the last line is some time ago."""
        if (self.wanted or self.terminal) and monotonic() >= self.next:
            self.show(text)

    def show(self, text: str) -> None:
        self.next = monotonic() + self.EVERY
        say(f"{self.tool}: {text}", after="" if self.terminal else "\n")
        Progress.shown = self.terminal

    def done(self) -> None:
        """Takes the line that changes away."""
        say("", after="")


def parser_of(description: str, epilog: str) -> argparse.ArgumentParser:
    """A parser of words whose texts keep their lines."""
    form = argparse.RawDescriptionHelpFormatter
    return argparse.ArgumentParser(description=description, epilog=epilog, formatter_class=form)


def add_program(parser: argparse.ArgumentParser) -> None:
    parser.add_argument(
        "--program",
        metavar="FILE",
        help="the program; else $DELTAGRAPH, `deltagraph` on the PATH, or the one built in this repository",
    )


def add_progress(parser: argparse.ArgumentParser) -> None:
    parser.add_argument(
        "--progress", action="store_true", help="tell on standard error how far it is, where that is no terminal too"
    )


def say(text: str, after: str = "\n") -> None:
    """Writes to standard error, in place of a line that changes; where that is closed or full, the text is lost."""
    clear = Progress.CLEAR if Progress.shown else ""
    Progress.shown = False
    try:
        if sys.stderr is not None:
            sys.stderr.write(clear + text + after)
            sys.stderr.flush()
    except OSError:
        pass


def fail(tool: str, reason: object, status: int = STATUS_WRONG_INPUT) -> NoReturn:
    """Ends a tool with a line on standard error."""
    say(f"{tool}: {reason}")
    raise SystemExit(status)


def in_one_line(error: DeltagraphError) -> str:
    """What the client says of an error."""
    return "; ".join(line.strip() for line in str(error).split("\n"))


def system_reason(error: OSError) -> str:
    """What the system says against a file; without a name, it is standard output."""
    return f"{error.filename or 'standard output'}: {error.strerror or error}"


def run(tool: str, main: Callable[[], None]) -> NoReturn:
    """Runs a tool, and ends it with its status. Whatever fails is a line on standard error.

    Status 0 is a tool that is done, 1 what failed, 2 wrong words and input, 130 an interruption.
    """
    hold_descriptors()
    try:
        main()
        if sys.stdout is not None:
            sys.stdout.flush()
    except WrongInput as error:
        fail(tool, error)
    except Failed as error:
        fail(tool, error, STATUS_FAILED)
    except DeltagraphError as error:
        fail(tool, in_one_line(error), STATUS_FAILED)
    except BrokenPipeError:
        raise SystemExit(STATUS_FAILED)
    except OSError as error:
        fail(tool, system_reason(error), STATUS_FAILED)
    except MemoryError:
        fail(tool, "out of memory", STATUS_FAILED)
    except KeyboardInterrupt:
        fail(tool, "interrupted", STATUS_INTERRUPTED)
    finally:
        forget_output()
    raise SystemExit(0)


def output() -> IO[bytes]:
    """Standard output, for bytes. One that is closed is a `Failed`."""
    if sys.stdout is None:
        raise Failed("standard output is closed")
    out: IO[bytes] = sys.stdout.buffer
    return out


def write_lines(lines: Iterable[str], file: Optional[str] = None) -> None:
    """Writes lines to a file, or to standard output."""
    if file is not None:
        with naming(file), open(file, "wb") as out:
            out.writelines(bytes_of(line + "\n") for line in lines)
        return
    output().writelines(bytes_of(line + "\n") for line in lines)
    output().flush()


@contextmanager
def naming(file: str) -> Iterator[None]:
    """Names a file in what the system says against it."""
    try:
        yield
    except OSError as error:
        if error.filename is None:
            error.filename = file
        raise


def hold_descriptors() -> None:
    """Puts the empty device where a standard descriptor is closed, so that no file is opened there."""
    while True:
        descriptor = os.open(os.devnull, os.O_RDWR)
        if descriptor > 2:
            os.close(descriptor)
            return


def forget_output() -> None:
    """Lets what could not be written go, so that the interpreter does not try again."""
    try:
        if sys.stdout is not None:
            sys.stdout.flush()
    except OSError:
        empty = os.open(os.devnull, os.O_WRONLY)
        os.dup2(empty, sys.stdout.fileno())
