"""Changes, their lines, and how they are cut into batches.

A change is an object of one of the classes below, a tuple of its time, its word in the script and the other fields
(`(10, "+node", 1)`), or a line of the script as text or bytes, with or without a line feed at its end.
"""
from __future__ import annotations

from functools import lru_cache
from typing import ClassVar, Iterable, Iterator, NamedTuple, Optional, Sequence, Union

from .failures import DeltagraphError
from .words import LARGEST_BATCH, LARGEST_ID, LAST_INSTANT, LONGEST_KEY, LONGEST_VALUE, bytes_of, text_of


class InvalidChange(DeltagraphError, ValueError):
    """A change that no line of a script can say. Nothing of its batch was sent."""


class LargeInstant(DeltagraphError, ValueError):
    """More changes at one instant than a batch may have, which is 2^20. Nothing of their batch was sent.

    `instant` is the instant, as its lines have it.
    """

    def __init__(self, instant: str) -> None:
        self.instant = instant
        super().__init__(f"instant {instant} has more than {LARGEST_BATCH} changes, and all have to be in one batch")

    def __reduce__(self) -> tuple[type["LargeInstant"], tuple[str]]:  # so that it goes to another process as it is
        return type(self), (self.instant,)


def _outside(time: int, *ids: int) -> InvalidChange:
    """What is wrong with a time and some ids of which one is too small or too large."""
    if not 0 <= time <= LAST_INSTANT:
        return InvalidChange(f"{time} is no instant: instants go from 0 to {LAST_INSTANT}")
    wrong = next(number for number in ids if not 0 <= number <= LARGEST_ID)
    return InvalidChange(f"{wrong} is no id: ids go from 0 to {LARGEST_ID}")


@lru_cache(maxsize=1024)
def _key(key: str) -> str:
    spelled = bytes_of(key)
    if not 1 <= len(spelled) <= LONGEST_KEY or min(spelled) <= ord(" "):
        raise InvalidChange(f"{key!r} is no key: keys have 1 to {LONGEST_KEY} bytes, all of them above that of a space")
    return key


def _value(value: str) -> str:
    if value.isascii() and value.isprintable() and len(value) <= LONGEST_VALUE:
        return value
    if len(bytes_of(value)) > LONGEST_VALUE or "\n" in value or "\r" in value:
        raise InvalidChange(f"{value!r} is no value: values have up to {LONGEST_VALUE} bytes, and no end of a line")
    return value


# Changes are tuples, which are made fast, but changes of two kinds are never equal.


def _same(change: object, other: object) -> bool:
    return type(change) is type(other) and tuple.__eq__(change, other)


def _other(change: object, other: object) -> bool:
    return not _same(change, other)


class _Owner(NamedTuple):
    time: int
    id: int


class _OfOwner(_Owner):
    WORD: ClassVar[str] = ""
    __slots__ = ()
    __eq__, __ne__, __hash__ = _same, _other, tuple.__hash__

    def line(self) -> str:
        """The line of the script, without its line feed. Raises `InvalidChange` where there is none."""
        time, owner = self
        if 0 <= time <= LAST_INSTANT and 0 <= owner <= LARGEST_ID:
            return f"{time} {self.WORD} {owner}"
        raise _outside(time, owner)


class _OwnerKeyValue(NamedTuple):
    time: int
    id: int
    key: str
    value: str


class _OfValue(_OwnerKeyValue):
    WORD: ClassVar[str] = ""
    __slots__ = ()
    __eq__, __ne__, __hash__ = _same, _other, tuple.__hash__

    def line(self) -> str:
        """The line of the script, without its line feed. Raises `InvalidChange` where there is none."""
        time, owner, key, value = self
        if 0 <= time <= LAST_INSTANT and 0 <= owner <= LARGEST_ID:
            return f"{time} {self.WORD} {owner} {_key(key)} {_value(value)}"
        raise _outside(time, owner)


class _OwnerKey(NamedTuple):
    time: int
    id: int
    key: str


class _OfKey(_OwnerKey):
    WORD: ClassVar[str] = ""
    __slots__ = ()
    __eq__, __ne__, __hash__ = _same, _other, tuple.__hash__

    def line(self) -> str:
        """The line of the script, without its line feed. Raises `InvalidChange` where there is none."""
        time, owner, key = self
        if 0 <= time <= LAST_INSTANT and 0 <= owner <= LARGEST_ID:
            return f"{time} {self.WORD} {owner} {_key(key)}"
        raise _outside(time, owner)


class AddNode(_OfOwner):
    """A node comes."""

    WORD = "+node"
    __slots__ = ()


class RemoveNode(_OfOwner):
    """A node goes; it has neither edges nor attributes."""

    WORD = "-node"
    __slots__ = ()


class _Edge(NamedTuple):
    time: int
    id: int
    source: int
    target: int
    directed: bool = True


class AddEdge(_Edge):
    """An edge comes between two nodes that are there; a loop and several edges between two nodes are allowed."""

    WORD: ClassVar[str] = "+edge"
    __slots__ = ()
    __eq__, __ne__, __hash__ = _same, _other, tuple.__hash__

    def line(self) -> str:
        """The line of the script, without its line feed. Raises `InvalidChange` where there is none."""
        time, edge, source, target, directed = self
        within = 0 <= edge <= LARGEST_ID and 0 <= source <= LARGEST_ID and 0 <= target <= LARGEST_ID
        if within and 0 <= time <= LAST_INSTANT:
            return f"{time} +edge {edge} {source} {target} {'dir' if directed else 'undir'}"
        raise _outside(time, edge, source, target)


class RemoveEdge(_OfOwner):
    """An edge goes; it has no attributes."""

    WORD = "-edge"
    __slots__ = ()


class SetNode(_OfValue):
    """A node has a value for a key, in place of the one that it had."""

    WORD = "nset"
    __slots__ = ()


class UnsetNode(_OfKey):
    """A node's value for a key goes."""

    WORD = "ndel"
    __slots__ = ()


class SetEdge(_OfValue):
    """An edge has a value for a key, in place of the one that it had."""

    WORD = "eset"
    __slots__ = ()


class UnsetEdge(_OfKey):
    """An edge's value for a key goes."""

    WORD = "edel"
    __slots__ = ()


class _Message(NamedTuple):
    time: int
    source: int
    target: int
    value: str


class SendMessage(_Message):
    """A message goes from one node that is there to another, or to itself, at one instant, and changes no graph."""

    WORD: ClassVar[str] = "msg"
    __slots__ = ()
    __eq__, __ne__, __hash__ = _same, _other, tuple.__hash__

    def line(self) -> str:
        """The line of the script, without its line feed. Raises `InvalidChange` where there is none."""
        time, source, target, value = self
        if 0 <= time <= LAST_INSTANT and 0 <= source <= LARGEST_ID and 0 <= target <= LARGEST_ID:
            return f"{time} msg {source} {target} {_value(value)}"
        raise _outside(time, source, target)


Change = Union[AddNode, RemoveNode, AddEdge, RemoveEdge, SetNode, UnsetNode, SetEdge, UnsetEdge, SendMessage]
AnyChange = Union[Change, "tuple[object, ...]", str, bytes]
CLASSES: frozenset[type[Change]] = frozenset(
    (AddNode, RemoveNode, AddEdge, RemoveEdge, SetNode, UnsetNode, SetEdge, UnsetEdge, SendMessage)
)
OF_WORD: dict[str, type[Change]] = {kind.WORD: kind for kind in CLASSES}
DIRECTIONS = {"dir": True, "undir": False}


def change_of(line: str) -> Optional[Change]:
    """The change that a line of a script says, or None where it says none."""
    time, _, rest = line.partition(" ")
    word, _, rest = rest.partition(" ")
    kind = OF_WORD.get(word)
    if kind is None:
        return None
    fields: list[object] = list(rest.split(" ", 2 if issubclass(kind, (_OfValue, SendMessage)) else -1))
    try:
        if issubclass(kind, AddEdge):
            *ids, direction = fields
            change: Change = kind(int(time), *map(int, ids), DIRECTIONS[direction])  # type: ignore
        elif issubclass(kind, SendMessage):
            source, target, value = fields
            change = kind(int(time), int(source), int(target), value)  # type: ignore
        else:
            change = kind(int(time), int(fields[0]), *fields[1:])  # type: ignore
        return change if change.line() == line else None
    except (TypeError, ValueError, KeyError):
        return None


def line_of(change: AnyChange) -> str:
    """The line of a change, without its line feed. Raises `InvalidChange` where there is none.

    The program refuses what is written in another form than the script has, as an id that is no whole number.
    """
    kind = type(change)
    if kind is str and "\n" not in change:
        return change  # type: ignore
    try:
        if kind in CLASSES:
            return change.line()  # type: ignore
        if isinstance(change, (str, bytes)):
            return _one_line(text_of(change) if isinstance(change, bytes) else change)
        time, word, *fields = change
        return OF_WORD[word](time, *fields).line()  # type: ignore
    except InvalidChange as error:
        raise InvalidChange(f"{change!r}: {error}") from None
    except (TypeError, ValueError, KeyError, AttributeError) as error:
        raise InvalidChange(f"{change!r} is no change: {error!r}") from error


def _one_line(line: str) -> str:
    """A line without the line feed at its end."""
    if "\n" in line:
        line = line[:-1] if line.endswith("\n") else line
        if "\n" in line:
            raise InvalidChange("it is more than one line")
    return line


def time_of(change: AnyChange) -> str:
    """The time of a change as the script has it; of a line, its first word."""
    if isinstance(change, (str, bytes)):
        line = text_of(change) if isinstance(change, bytes) else change
        return line[: line.find(" ")]
    return str(change[0]) if change else ""


def check_instants(changes: Sequence[AnyChange]) -> None:
    """Raises `LargeInstant` where more changes stand together at one instant than a batch may have."""
    begin, instant = 0, ""
    for place, time in enumerate(map(time_of, changes)):
        if time != instant:
            begin, instant = place, time
        elif place - begin == LARGEST_BATCH:
            raise LargeInstant(instant)


def batches(changes: Iterable[AnyChange], most: int = LARGEST_BATCH) -> Iterator[list[str]]:
    """Cuts changes, in the order of their times, into the lines of batches of at most `most` changes.

    No batch ends within an instant, so an instant with more has a batch of its own. Raises `LargeInstant` for one that
    fits in none, before its batch is given, and `InvalidChange`.
    """
    lines: list[str] = []
    # Where the last instant begins among the lines, and its time with the space behind it; no line begins as "\n".
    begin, instant = 0, "\n"
    for line in map(line_of, changes):
        if not line.startswith(instant):
            if len(lines) >= most:
                yield lines
                lines = []
            begin, instant = len(lines), line[: line.find(" ") + 1] or "\n"
        elif len(lines) >= most:
            if begin:
                yield lines[:begin]
                lines = lines[begin:]
                begin = 0
            if len(lines) == LARGEST_BATCH:
                raise LargeInstant(instant.strip())
        lines.append(line)
    if lines:
        yield lines
