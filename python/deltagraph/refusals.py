"""The refusals of docs/SCRIPT.md, each with an exception of its own, and what they say in words."""
from __future__ import annotations

import re
from typing import TYPE_CHECKING, Any, Optional, Sequence

from .failures import DeltagraphError
from .words import bytes_of

if TYPE_CHECKING:
    from .calendar import Calendar
    from .changes import Change

REASONS = {
    1: ("time", "its time is not later than the history's last time, or is earlier than that of the change before it"),
    2: ("node-exists", "the node is in the graph already"),
    3: ("no-node", "the node is not in the graph"),
    4: ("node-in-use", "an edge of the graph ends at the node, or the node has an attribute"),
    5: ("edge-exists", "an edge of this id is in the graph already"),
    6: ("no-edge", "no edge of this id is in the graph"),
    7: ("edge-in-use", "the edge has an attribute"),
    8: ("no-end", "its source or its target is not in the graph"),
    9: ("no-attribute", "there is no value for this key"),
    10: ("form", "the line is too long, or is no change"),
}
YEAR = re.compile("[12][0-9]{3}", re.ASCII)
LAST_YEAR = 2999  # of these


class Refused(DeltagraphError):
    """A command was refused, and changed nothing.

    `number` and `name` are those of the refusal, `rest` the words behind them, and `command` the command's line.
    Refusals that this package does not know have this class.
    """

    def __init__(self, head: Sequence[str], command: str) -> None:
        self.number, self.name, self.rest, self.command = int(head[1]), head[2], list(head[3:]), command
        super().__init__()

    def __reduce__(self) -> tuple[Any, ...]:  # so that it goes to another process as it is
        return type(self), (self.head.split(" "), self.command), self.__dict__

    def words(self) -> str:
        """What is wrong, in words."""
        return "it was refused"

    @property
    def head(self) -> str:
        """The head line of the reply."""
        return " ".join(["refused", str(self.number), self.name, *self.rest])

    def __str__(self) -> str:
        return f"`{self.command}`: {self.words()} ({self.head})"


class Syntax(Refused):
    """1: the line is no command; `column`, from 1, is where it stops being one."""

    @property
    def column(self) -> int:
        return int(self.rest[0])

    def words(self) -> str:
        given = self.command.split(" ")
        times = {"at": "TIME", "plan": "TIME", "interval": "TIME TIME"}.get(given[0], "")
        if times and len(given) == 1 + len(times.split(" ")) and self.column == len(bytes_of(self.command)) + 1:
            return f"columns are missing: it is `{given[0]} {times} COLS`, with s, sn, se or sne for COLS"
        if given[0] == "find" and (self.column == len("find ") + 1 or len(given) < 4):
            return "it is `find TIME KEY VALUE`, with a whole value; a prompt has `search VALUE`, for all keys"
        return f"this is no command from column {self.column} on"


class NoIndex(Refused):
    """2: there is no index."""

    def words(self) -> str:
        return "there is no index in the file; `create` makes one"


class IndexExists(Refused):
    """3: `create`, and there is an index."""

    def words(self) -> str:
        return "there is an index in the file already"


class Parameters(Refused):
    """4: `create` with leaf lists of other than 2 to 65,536 events, or an arity of other than 2 to 64."""

    def words(self) -> str:
        return "leaf lists have 2 to 65536 events, and the arity is 2 to 64"


class ShortBatch(Refused):
    """5: the script ended before the lines of a batch or of a certificate: `read` of `asked`."""

    @property
    def read(self) -> int:
        return int(self.rest[0])

    @property
    def asked(self) -> int:
        return int(self.rest[1])

    def words(self) -> str:
        return f"{self.asked} lines had to follow, and there were {self.read}"


class BadChange(Refused):
    """6: a change of a batch is refused, and none of its batch holds.

    `line`, from 1, is the change's place in its batch, `reason` the number of the reason and `reason_name` its name.
    What `Store.load` and `Store.append` raise also has `added`, how many changes of the call hold in earlier batches;
    `position`, from 1, the change's place in the call; `text`, its line; and `change`, itself, or None for a line that
    is no change.
    """

    added: int = 0
    text: str = ""
    change: Optional["Change"] = None

    @property
    def line(self) -> int:
        return int(self.rest[0])

    @property
    def position(self) -> int:
        return self.added + self.line

    @property
    def reason(self) -> int:
        return int(self.rest[1])

    @property
    def reason_name(self) -> str:
        return REASONS.get(self.reason, ("unknown", ""))[0]

    @property
    def told(self) -> str:
        """The reason in words."""
        return REASONS.get(self.reason, ("", f"it has reason {self.reason} against it"))[1]

    def words(self) -> str:
        text = f", `{self.text}`," if self.text else ""
        before = f" {self.added} changes before its batch are in the index." if self.added else ""
        return f"change {self.position}{text} cannot be: {self.told}.{before}"


class OutOfRange(Refused):
    """7: an instant is not in the history. `first` and `last` are its ends, or None where it has no event.

    `calendar` is what tells the dates of the instants, where a date was asked for.
    """

    calendar: Optional["Calendar"] = None
    told = True  # whether the index tells its calendar

    @property
    def first(self) -> Optional[int]:
        return None if self.rest == ["empty"] else int(self.rest[0])

    @property
    def last(self) -> Optional[int]:
        return None if self.rest == ["empty"] else int(self.rest[1])

    def words(self) -> str:
        first, last, calendar = self.first, self.last, self.calendar
        if first is None or last is None:
            return "the history has no event yet"
        words = f"the history goes from {first} to {last}"
        if calendar is not None:
            words = f"the history goes from {calendar.text(first)} to {calendar.text(last)}, the instants {first} to {last}"
            words += "" if self.told else ", taken as seconds since 1970; a number is taken as an instant"
        if self.command.startswith("interval "):
            words += f"; an interval ends at {last + 1} at the latest, and so does one without an end"
        # Who writes 2015 may have meant the year, but not where instants are years.
        year = next((word for word in self.command.split(" ")[1:] if YEAR.fullmatch(word) and int(word) < first), None)
        return f"{words}; for the year write {year}-01-01" if year and first > LAST_YEAR else words


class UnknownHandle(Refused):
    """8: no such handle lives: it was released, or never given. `handle` is its number."""

    @property
    def handle(self) -> int:
        return int(self.rest[0])

    def words(self) -> str:
        return f"there is no handle {self.handle}"


class PoolFull(Refused):
    """9: `live` handles and those `asked` for are more than 127."""

    @property
    def live(self) -> int:
        return int(self.rest[0])

    @property
    def asked(self) -> int:
        return int(self.rest[1])

    def words(self) -> str:
        return f"{self.live} handles live, {self.asked} more are asked for, and there is room for 127; release some (`each` and `series` do)"


class InUse(Refused):
    """10: `release` of a base on which the live handle `handle` rests."""

    @property
    def handle(self) -> int:
        return int(self.rest[0])

    def words(self) -> str:
        return f"handle {self.handle} rests on it"


class UnknownNode(Refused):
    """11: `materialise` of a node that the index does not have."""

    def words(self) -> str:
        return "the index has no such node"


class HistoryFull(Refused):
    """12: the history has `held` events, and with the `batch` it would have too many, or too many names."""

    @property
    def held(self) -> int:
        return int(self.rest[0])

    @property
    def batch(self) -> int:
        return int(self.rest[1])

    def words(self) -> str:
        return f"the history has {self.held} events, and {self.batch} more are too many, or their names are"


class FileFull(Refused):
    """13: the index would need `needed` bytes, and has at most `limit`."""

    @property
    def needed(self) -> int:
        return int(self.rest[0])

    @property
    def limit(self) -> int:
        return int(self.rest[1])

    def words(self) -> str:
        return f"the index would have {self.needed} bytes, and has at most {self.limit}"


class StoreRead(Refused):
    """14: a read of the index file failed."""

    def words(self) -> str:
        return "a read of the index file failed"


class Damaged(Refused):
    """15: column `column` (s, n or e) of the record `key` of the index is damaged."""

    @property
    def key(self) -> str:
        return " ".join(self.rest[:-1])

    @property
    def column(self) -> str:
        return self.rest[-1]

    def words(self) -> str:
        return f"column {self.column} of the record `{self.key}` is damaged"


class OutOfMemory(Refused):
    """16: memory is wanting."""

    def words(self) -> str:
        return "there is too little memory"


class NotAnOverlay(Refused):
    """17: `node` or `neighbours` of a handle of a node of the index, of an expression or of an interval, which may be no graph."""

    @property
    def handle(self) -> int:
        return int(self.rest[0])

    def words(self) -> str:
        return f"handle {self.handle} holds a node of the index, an expression or an interval, and not a graph as of an instant"


class LineLong(Refused):
    """18: the line of the command has more than 4,096 bytes."""

    def words(self) -> str:
        return "the line has more than 4096 bytes"


class HandlesSpent(Refused):
    """19: all numbers of handles were given."""

    def words(self) -> str:
        return "all numbers of handles were given; begin a new session"


class AlreadyLoaded(Refused):
    """20: `load` or `workload`, and the history has an event."""

    def words(self) -> str:
        return "the history has events already; `append` adds more"


class NewFormat(Refused):
    """21: `upgrade`, and the file has the second form already."""

    def words(self) -> str:
        return "the file has the second form already"


class OldFormat(Refused):
    """22: a line of the batch is a message, and the file has the first form, which has none."""

    def words(self) -> str:
        return "the file has the first form, which has no messages; `upgrade` lets it go on in the second"


class UnknownKey(Refused):
    """23: `index` of a key that nothing in the history is called."""

    def words(self) -> str:
        return "nothing in the history has this key"


class NotIndexed(Refused):
    """24: `find` by a key of which this session has no index."""

    def words(self) -> str:
        return "this session has no index of the key; `index KEY` makes one"


class AlreadyIndexed(Refused):
    """25: `index` of a key of which this session has an index."""

    def words(self) -> str:
        return "this session has an index of the key already"


class IndexesFull(Refused):
    """26: `index`, and this session has 16 indexes."""

    def words(self) -> str:
        return "this session has 16 indexes, and no more may be; a new session begins with none"


OF_NUMBER: dict[int, type[Refused]] = {
    1: Syntax,
    2: NoIndex,
    3: IndexExists,
    4: Parameters,
    5: ShortBatch,
    6: BadChange,
    7: OutOfRange,
    8: UnknownHandle,
    9: PoolFull,
    10: InUse,
    11: UnknownNode,
    12: HistoryFull,
    13: FileFull,
    14: StoreRead,
    15: Damaged,
    16: OutOfMemory,
    17: NotAnOverlay,
    18: LineLong,
    19: HandlesSpent,
    20: AlreadyLoaded,
    21: NewFormat,
    22: OldFormat,
    23: UnknownKey,
    24: NotIndexed,
    25: AlreadyIndexed,
    26: IndexesFull,
}


def refusal(head: Sequence[str], command: str) -> Refused:
    """The exception of a refusal's head line."""
    return OF_NUMBER.get(int(head[1]), Refused)(head, command)
