"""The front end: commands of the script language, and some of its own, at a prompt or from a script.

In a script the replies are the program's own, byte for byte, on standard output, and what is wrong is told in words on
standard error; a command that the front end itself does not understand is answered by `refused 0 unsent`. At a prompt
the line `end` of a reply is left out, and instants are shown as dates where there is a calendar.
"""
from __future__ import annotations

import os
import re
import sys
from collections import Counter
from typing import Callable, Iterator, Optional, Protocol

from .failures import DeltagraphError, ProgramEnded
from .process import Reply
from .refusals import BadChange, NotIndexed, OutOfRange, Refused, refusal
from .store import Store
from .words import COLUMNS, NUMBER, OPERATORS, bytes_of, lines_after, text_of

HELP = """\
The commands are those of the script language (docs/SCRIPT.md), as
  at TIME COLS    the graph as of an instant, as a handle; COLS is s, sn, se or sne, and with a t behind it, as st,
                  the messages of the instant are there too; at a prompt it is sne where it is left out
  several COLS TIMES    list HANDLE    counts HANDLE    node HANDLE ID    neighbours HANDLE ID    release HANDLE
  expression COLS EXPR    what holds over several instants: EXPR is a TIME, `not EXPR`, `and EXPR EXPR` or `or EXPR EXPR`
  interval TIME TIME COLS    what was added from the first instant on and before the second, which may be `end`
  find TIME KEY VALUE    the nodes that have this value; `index KEY` comes before it, which at a prompt is done for you
  load COUNT, append COUNT    with the changes in the COUNT lines that follow
TIME is an instant, first or last of the history, or a date as 2015-03 or 2015-03-01. HANDLE may be last, which is the
last one that was given. And there are
  search NAME [@TIME]      the nodes with this value under any key, as of the last instant or of TIME
  diff TIME TIME [COLS]    what the second graph has not (-) and has (+) beside the first
  top COUNT degree TIME    the nodes of the highest degrees, with their names
  :dates ZERO UNIT         says which date instant 0 is, and the unit: seconds, days, ...; :dates alone tells it
  :help    :quit"""

# What may stand at each place of a command; what stands last may stand again.
HANDLES, TIMES, NOTHING = ("last",), ("first", "last"), ()
ENDS = (*TIMES, "end")  # of an interval
WITH_MESSAGES = (*COLUMNS, *(columns + "t" for columns in COLUMNS))
PLACES: dict[str, tuple[tuple[str, ...], ...]] = {
    "append": (NOTHING,),
    "at": (TIMES, WITH_MESSAGES, NOTHING),
    "certify": (TIMES, COLUMNS, NOTHING),
    "clean": (("all",), NOTHING),
    "counts": (HANDLES, NOTHING),
    "create": (NOTHING, NOTHING, ("balanced", "intersection", "skewed", "union"), NOTHING),
    "diff": (TIMES, TIMES, WITH_MESSAGES, NOTHING),
    "expression": (COLUMNS, (*OPERATORS, *TIMES)),
    "find": (TIMES, NOTHING),
    "index": (NOTHING,),
    "interval": (TIMES, ENDS, WITH_MESSAGES, NOTHING),
    "list": (HANDLES, NOTHING),
    "load": (NOTHING,),
    "materialise": (("inner", "leaf"), NOTHING, COLUMNS),
    "neighbours": (HANDLES, NOTHING),
    "node": (HANDLES, NOTHING),
    "plan": (TIMES, COLUMNS, NOTHING),
    "pool": (NOTHING,),
    "release": (HANDLES, NOTHING),
    "search": (NOTHING,),
    "several": (WITH_MESSAGES, TIMES),
    "top": (NOTHING, ("degree",), TIMES, NOTHING),
    "tree": (NOTHING,),
    "upgrade": (NOTHING,),
    "verify": (NOTHING,),
    "workload": (NOTHING,),
    ":dates": (NOTHING,),
    ":help": (NOTHING,),
    ":quit": (NOTHING,),
}

OF_HANDLES = ("list", "counts", "node", "neighbours", "release")
OF_TIMES = ("at", "plan", "certify", "find")
WITH_LAST = {"load": 4, "append": 4, "workload": 3}  # the word of a head line that is an instant

ALL_COLUMNS = "sne"
MOST_SHOWN = 10  # values that begin as one that was not found
LONGEST_SHOWN = 200  # letters, of a line that is told

STATUS_REFUSED = 1  # with --strict
STATUS_SINK = 4  # as of the program

AN_INSTANT = re.compile(NUMBER, re.ASCII)


def completions(before: str, begun: str) -> list[str]:
    """The words that begin so and may stand behind what stands before them on a line."""
    command, *words = before.split(" ")
    if not words:
        return [word for word in PLACES if word.startswith(begun)]
    places = PLACES.get(command, (NOTHING,))
    return [word for word in places[min(len(words), len(places)) - 1] if word.startswith(begun)]


class SinkFailed(DeltagraphError):
    """What was to be printed could not be written."""


class Wrong(DeltagraphError):
    """A command of the front end in another form than it has."""


class Lines(Protocol):
    """Where lines come from."""

    def read(self, prompt: str) -> Optional[bytes]:
        """The next line without its end, or None at the end of all."""


class Script:
    """Lines from a file or a pipe."""

    def __init__(self, file: Iterator[bytes]) -> None:
        self._file = file

    def read(self, prompt: str) -> Optional[bytes]:
        line = next(self._file, None)
        if line is None or not line.endswith(b"\n"):
            return line
        return line[:-2] if line.endswith(b"\r\n") else line[:-1]


class Typed:
    """Lines from a terminal, with editing and a history where there is `readline`."""

    def read(self, prompt: str) -> Optional[bytes]:
        try:
            return bytes_of(input(prompt))
        except EOFError:
            print()
            return None


class FrontEnd:
    """A session of a person or a script with a store."""

    def __init__(self, store: Store, lines: Lines, typed: bool, strict: bool) -> None:
        self.store, self.typed, self.strict = store, typed, strict
        self._lines, self._over = lines, False
        self._number = 0  # of the last line that was read
        self._last: Optional[str] = None  # the last handle that was given
        self._dated = typed  # whether instants are told as dates where the index tells its calendar
        self._own: dict[str, Callable[[str], None]] = {
            "search": self.search,
            "diff": self.diff,
            "top": self.top,
            ":dates": self.dates,
            ":help": self.help,
            "help": self.help,
        }

    def run(self) -> int:
        """Carries all lines out, and gives the status."""
        while True:
            try:
                read = self._read("deltagraph> ")
                if read is None or read in (b":quit", b"quit", b"exit"):
                    return 0
                if not read or read.startswith(b"#"):
                    continue
                text = text_of(read)
                # What is completed ends with a space, which no command does.
                wrong = self._obey(text.rstrip(" ") if self.typed else text, self._number)
            except KeyboardInterrupt:
                if not self.typed:
                    raise
                print("interrupted", file=sys.stderr)
                continue
            if wrong and self.strict:
                return STATUS_REFUSED

    def _read(self, prompt: str) -> Optional[bytes]:
        line = None if self._over else self._lines.read(prompt)
        self._over = line is None
        self._number += 1
        return line

    def _obey(self, text: str, number: int) -> bool:
        """Carries a command out, and says whether it was refused."""
        try:
            word, _, rest = text.partition(" ")
            if word in self._own:
                self._own[word](rest)
            else:
                self._command(text)
            return False
        except Refused as refused:
            if not self.typed:
                self._write(bytes_of(refused.head + "\nend\n"))
            if isinstance(refused, BadChange):
                number, text = number + refused.line, refused.text
            self._tell(number, text, self._words(refused))
        except (Wrong, ValueError, OSError) as error:
            if not self.typed:
                self._write(b"refused 0 unsent\nend\n")
            self._tell(number, text, str(error))
        return True

    def _tell(self, number: int, text: str, words: str) -> None:
        place = "" if self.typed else f"line {number}, "
        shown = text if len(text) <= LONGEST_SHOWN else text[:LONGEST_SHOWN] + ".."
        print(f"{place}`{shown}`: {words}", file=sys.stderr, flush=True)

    def _words(self, refused: Refused) -> str:
        if isinstance(refused, BadChange):
            return f"{refused.told} ({refused.head})"
        if isinstance(refused, OutOfRange) and self._dated:
            refused.calendar, refused.told = self.store.calendar, self.store.told_calendar() is not None
        return f"{refused.words()} ({refused.head})"

    # Commands of the script language.

    def _command(self, text: str) -> None:
        command = self._translated(text)
        if self.typed and command.startswith("find "):
            self._index_for(command)
        count = lines_after(command)
        following: list[bytes] = []
        while len(following) < count:
            line = self._read("... ")
            if line is None:
                break
            following.append(line)
        body = b"".join(line + b"\n" for line in following)
        reply = self.store.send(command, body, short=len(following) < count)
        try:
            self._show(reply, following)
        except BaseException:
            reply.drop()
            raise

    def _index_for(self, command: str) -> None:
        """Makes the index that a `find` needs, where there is none."""
        try:
            self.store.ask(command).drop()
        except NotIndexed:
            self.store.ask(f"index {command.split(' ')[2]}")
        except Refused:
            pass  # which is told when it is asked

    def _translated(self, text: str) -> str:
        """The command with numbers in place of dates, `first` and `last`."""
        words = text.split(" ")
        if words[0] in OF_HANDLES and words[1:2] == ["last"]:
            if self._last is None:
                raise Wrong("no handle was given yet; `at TIME COLS` gives one")
            words[1] = self._last
        elif words[0] in OF_TIMES:
            words[1:2] = map(self._instant, words[1:2])
            if self.typed and len(words) == 2 and words[0] == "at":
                words.append(ALL_COLUMNS)
        elif words[0] == "interval":
            words[1:2] = map(self._instant, words[1:2])
            words[2:3] = map(self._behind, words[2:3])
            if self.typed and len(words) == 3:
                words.append(ALL_COLUMNS)
        elif words[0] in ("several", "expression"):
            words[2:] = map(self._instant, words[2:])
        return " ".join(words)

    def _instant(self, word: str) -> str:
        """The instant of a word that stands for one; another word stays, for the program to refuse."""
        if word in ("first", "last"):
            span = self.store.span()
            if span is None:
                raise Wrong("the history has no event yet")
            return str(span.last if word == "last" else span.first)
        if re.match(r"[0-9]{4}-", word):
            self._dated = True
            return str(self.store.instant(word))
        return word

    def _behind(self, word: str) -> str:
        """The instant before which an interval ends; `end` is the one behind the last."""
        return str(int(self._instant("last")) + 1) if word == "end" else self._instant(word)

    def _show(self, reply: Reply, following: list[bytes]) -> None:
        head = reply.head()
        if head[0] == "refused":
            refused = refusal(head, reply.command)
            if isinstance(refused, BadChange):
                refused.text = text_of(following[refused.line - 1])
            raise refused
        if head[1] in ("at", "materialise", "expression", "interval"):
            self._last = head[2]
        told = self.typed and (head[1] in WITH_LAST or head[1] == "several")
        calendar = self.store.told_calendar() if told else None
        if calendar and head[1] in WITH_LAST:
            place = WITH_LAST[head[1]]
            head[place] = calendar.text(int(head[place]))
        self._write(bytes_of(" ".join(head) + "\n"))
        for piece in reply.pieces():
            if head[1] == "several":
                lines = [line.split(" ") for line in text_of(piece).split("\n")[:-1]]
                self._last = lines[-1][1]
                if calendar:
                    dated = [[word, handle, calendar.text(int(time)), of] for word, handle, time, of in lines]
                    piece = bytes_of("".join(" ".join(words) + "\n" for words in dated))
            self._write(piece)
        self._end()

    # Commands of the front end.

    def search(self, rest: str) -> None:
        """`search NAME [@TIME]`: a line for each node and key with this value."""
        name, mark, time = rest.rpartition(" @")
        if not mark or not (time in ("first", "last") or AN_INSTANT.fullmatch(time) or re.match(r"[0-9]{4}-", time)):
            name, time = rest, "last"
        if not name:
            raise Wrong("it is `search NAME` or `search NAME @TIME`")
        begin = []
        with self.store.at(int(self._whole(time)), "sn") as graph:
            found = []
            for node, key, value in graph.node_attributes():
                if value == name:
                    found.append(f"{node} {key} {value}")
                elif value.startswith(name):
                    begin.append(value)
        self._answer(f"ok search {len(found)}", found)
        if self.typed and not found:
            more = f", and {len(begin) - MOST_SHOWN} more" if len(begin) > MOST_SHOWN else ""
            near = f"; so begin {', '.join(begin[:MOST_SHOWN])}{more}" if begin else ""
            print(f"no value is exactly `{name}`{near}", file=sys.stderr)

    def diff(self, rest: str) -> None:
        """`diff TIME TIME [COLS]`: the elements that only the first graph has, and those that only the second has."""
        words = rest.split(" ")
        if len(words) not in (2, 3):
            raise Wrong("it is `diff TIME TIME` or `diff TIME TIME COLS`")
        columns = words[2] if len(words) == 3 else ALL_COLUMNS
        times = [int(self._whole(word)) for word in words[:2]]
        if columns.endswith("t"):  # expressions are of no messages
            gone, come = self._listed_apart(times, columns)
        else:
            first, second = map(str, times)
            gone, come = (self._chosen(f"and {a} not {b}", columns) for a, b in ((first, second), (second, first)))
        lines = [f"- {text_of(line)}" for line in gone] + [f"+ {text_of(line)}" for line in come]
        self._answer(f"ok diff {len(gone)} {len(come)}", lines)

    def _chosen(self, words: str, columns: str) -> list[bytes]:
        with self.store.expression(words, columns) as found:
            return list(found.lines())

    def _listed_apart(self, times: list[int], columns: str) -> tuple[list[bytes], list[bytes]]:
        """What only the first of two graphs has, and what only the second has, by their listings."""
        with self.store.several(times, columns) as (before, after):
            gone = dict.fromkeys(before.lines())
            come = []
            for line in after.lines():
                if line in gone:
                    del gone[line]
                else:
                    come.append(line)
        return list(gone), come

    def top(self, rest: str) -> None:
        """`top COUNT degree TIME`: a line for each node, its degree and its value for the key `name`."""
        words = rest.split(" ")
        if len(words) != 3 or words[1] != "degree" or not AN_INSTANT.fullmatch(words[0]):
            raise Wrong("it is `top COUNT degree TIME`")
        degrees: Counter[int] = Counter()
        with self.store.at(int(self._whole(words[2])), "sn") as graph:
            for _, source, target, _ in graph.edges():
                degrees[source] += 1
                degrees[target] += target != source
            found = sorted(degrees.items(), key=lambda of: (-of[1], of[0]))[: int(words[0])]
            nodes = [graph.node(node) for node, _ in found]
        lines = [f"{node.id} {node.degree} {node.attributes.get('name', '')}".rstrip() for node in nodes if node]
        self._answer(f"ok top {len(lines)}", lines)

    def dates(self, rest: str) -> None:
        """`:dates ZERO UNIT`: the date of instant 0, and the unit of instants."""
        if rest:
            zero, _, unit = rest.rpartition(" ")
            self.store.set_calendar(zero, unit)
        calendar = self.store.calendar
        told = f"{calendar.text(0)} {calendar.unit}"
        self._answer(f"ok :dates {told}", [])

    def help(self, rest: str) -> None:
        """`:help`."""
        self._answer("ok :help", HELP.split("\n"))

    def _whole(self, word: str) -> str:
        instant = self._instant(word)
        if not AN_INSTANT.fullmatch(instant):
            raise Wrong(f"`{word}` is no instant")
        return instant

    # What is printed.

    def _answer(self, head: str, lines: list[str]) -> None:
        self._write(bytes_of("".join(line + "\n" for line in [head, *lines])))
        self._end()

    def _end(self) -> None:
        if not self.typed:
            self._write(b"end\n")

    def _write(self, data: bytes) -> None:
        left = memoryview(data)
        try:
            while left:
                left = left[os.write(1, left) :]
        except OSError as error:
            raise SinkFailed(f"writing failed: {error.strerror}") from error


def ended_status(ended: ProgramEnded) -> int:
    """The status of the front end where the program ended: its own, or for a signal what a shell makes of it."""
    return 128 - ended.status if ended.status < 0 else ended.status or 1
