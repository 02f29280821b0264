"""What goes wrong with the program itself, and not with what it is asked."""
from __future__ import annotations

import signal
from typing import Any, Sequence


class DeltagraphError(Exception):
    """All errors of this package."""


class ProgramMissing(DeltagraphError):
    """There is no program of this name, or it cannot be started."""


class WrongProgram(DeltagraphError):
    """The program answers in another form than docs/SCRIPT.md has it, so it is another one. It is killed."""


class Closed(DeltagraphError):
    """The store was closed before."""


class ProgramEnded(DeltagraphError):
    """The program ended before it had answered everything, or with another status than 0.

    `status` is its exit status, or the number of the signal that killed it with a minus before it. `errors` has the
    lines that it wrote on standard error. `command` is the first command without an answer, or empty.
    """

    meaning = "it tells no cause"

    def __init__(self, status: int, errors: Sequence[str], command: str = "") -> None:
        self.status, self.errors, self.command = status, list(errors), command
        super().__init__()

    def __reduce__(self) -> tuple[Any, ...]:  # so that it goes to another process as it is
        return type(self), (self.status, self.errors, self.command), self.__dict__

    def __str__(self) -> str:
        before = f" before it answered `{self.command}`" if self.command else ""
        told = "".join(f"\n  {line}" for line in self.errors)
        return f"the program ended with status {self.status}{before}: {self.meaning}{told}"


class WrongWords(ProgramEnded):
    """Status 2: the name of the index is no word that the program takes, for one that is not UTF-8."""

    meaning = "it did not take its words"


class SourceFault(ProgramEnded):
    """Status 3: a read of the script failed."""

    meaning = "a read of the script failed"


class SinkFault(ProgramEnded):
    """Status 4: a write of a reply failed."""

    meaning = "a write of a reply failed"


class DiskFault(ProgramEnded):
    """Status 5: the index file failed. It holds the history before the command without an answer, or after it."""

    meaning = "the index file failed"


class NoMemory(ProgramEnded):
    """Status 6: memory was wanting before the first command."""

    meaning = "it had too little memory to begin"


class IndexRefused(ProgramEnded):
    """Status 7: the file is no index, or a damaged one; with `checked` also one that is not sound. It is untouched."""

    meaning = "the file is refused: it is no index, or it is damaged"


class EmptyFile(ProgramEnded):
    """Status 8, of `deltagraph-dump` alone: the file has no index."""

    STATUS = 8
    meaning = "the file has no index"


class ScriptLimit(ProgramEnded):
    """Status 9: the script had 2^40 bytes, and more was to come."""

    meaning = "the script is too long"


class Killed(ProgramEnded):
    """A signal ended the program. The file holds the history before the command without an answer, or after it."""

    def __init__(self, status: int, errors: Sequence[str], command: str = "") -> None:
        known = {int(one): one.name for one in signal.Signals}
        self.meaning = f"it was killed by {known.get(-status, f'signal {-status}')}"
        super().__init__(status, errors, command)


OF_STATUS: dict[int, type[ProgramEnded]] = {
    2: WrongWords,
    3: SourceFault,
    4: SinkFault,
    5: DiskFault,
    6: NoMemory,
    7: IndexRefused,
    EmptyFile.STATUS: EmptyFile,
    9: ScriptLimit,
}


def program_ended(status: int, errors: Sequence[str], command: str = "") -> ProgramEnded:
    """The exception of a status, as docs/SCRIPT.md has them."""
    if status < 0:
        return Killed(status, errors, command)
    return OF_STATUS.get(status, ProgramEnded)(status, errors, command)
