"""An index that a tool asks: its store, by the client, and instants as they are written on a command line."""
from __future__ import annotations

import argparse
import errno
import os
import re
from contextlib import contextmanager
from typing import Iterator, Optional

from command_line import Failed, WrongInput

import deltagraph
from deltagraph import Calendar, NoDate, NoIndex, OutOfRange, ProgramEnded, ProgramMissing, Span, Store
from deltagraph.calendar import seconds_of
from deltagraph.process import find_program
from deltagraph.words import COLUMNS, IS_NUMBER

TOLD_COLUMNS = (*COLUMNS, *(columns + "t" for columns in COLUMNS))  # with a `t` the messages of its instant


class History:
    """What a tool asks, by `store`, and what is taken for the instants that it names."""

    def __init__(self, store: Store) -> None:
        self.store = store
        self.texts: dict[int, str] = {}  # of instants, as they were written

    def span(self) -> Span:
        """The first and the last instant. A file without an event is a `Failed`."""
        try:
            found = self.store.span()
        except NoIndex:
            found = None
        if found is None:
            raise Failed(f"{self.store.path}: there is no history in this file")
        return found

    @property
    def calendar(self) -> Calendar:
        """What instants are. A file without an event is a `Failed`."""
        self.span()
        return self.store.calendar

    def instant(self, text: str) -> int:
        """An instant as it is written on a command line: a number, `first`, `last`, a date, or @T for a time T of a file.

        A date, or a time, has the instant behind all that happened at it. Another text is a `WrongInput`.
        """
        if text in ("first", "last"):
            return self.span()[text == "last"]
        if text.isascii() and text.isdecimal():
            found = int(text)
        elif re.fullmatch("@-?[0-9]+", text):
            found = self.calendar.last(int(text[1:]))
        elif "-" in text[1:]:
            found = self.calendar.last(seconds_of(text))
        else:
            raise WrongInput(f"{text!r} is no instant, and no date as 2024-06-10")
        if found < 0:
            raise Failed(f"{text} is before {self.calendar.text(0)}, which is instant 0")
        self.texts[found] = text
        return found

    def instants(self, options: argparse.Namespace) -> list[int]:
        """Those that --at names, or else up to --points of them, evenly spread from --from to --to."""
        if options.at:
            return sorted({self.instant(text) for text in options.at})
        first, last = self.instant(options.start), self.instant(options.end)
        if options.points == 1:
            return [last]
        return sorted({first + (last - first) * i // (options.points - 1) for i in range(options.points)})

    def out_of_range(self, refused: OutOfRange) -> str:
        """What was taken for an instant that is out of range, and the range as dates."""
        first, last = refused.first, refused.last
        if first is None or last is None:
            return str(refused)
        times = [int(word) for word in refused.command.split(" ") if IS_NUMBER.fullmatch(word)]
        time = next(time for time in times if not first <= time <= last)
        text = self.texts.get(time, str(time))
        words = f"{text} is out of range" if text == str(time) else f"{text} is instant {time}, out of range"
        dated = "-" in text[1:] or re.fullmatch("[12][0-9]{3}", text) is not None
        span = f"from {' to '.join(self.store.dates(first, last))}, the instants" if dated else "from"
        words += f": the history goes {span} {first} to {last}"
        if dated and text == str(time):
            words += f"; a number is an instant: for the year write {text}-01-01"
        return f"{words} ({refused.head})"


@contextmanager
def asked(index: str, program: Optional[str]) -> Iterator[History]:
    """The history in a file, while it is asked. Where that fails, the program is ended, whatever it is doing."""
    if not os.path.exists(index):
        raise Failed(f"{index}: no such file")
    try:
        with deltagraph.open(index, named(program)) as store:
            history = History(store)
            try:
                yield history
            except OutOfRange as refused:
                raise Failed(history.out_of_range(refused)) from refused
            except BaseException:
                store.kill()
                raise
    except NoDate as error:
        raise WrongInput(error) from error
    except ProgramEnded as ended:
        told = "; ".join(line.replace("deltagraph: ", "") for line in ended.errors)
        told = told.replace(os.path.abspath(index), os.path.join(".", index))
        reason = told or f"no answer to `{ended.command or 'pool'}`"
        raise Failed(f"{index}: {reason} (the program ended with status {ended.status})") from ended


def named(program: Optional[str]) -> list[str]:
    """The words that start the program: the one that is named here or in $DELTAGRAPH, else where the client finds it."""
    given = program or os.environ.get("DELTAGRAPH") or None
    try:
        return find_program(given)
    except ProgramMissing as missing:
        if given is None:
            raise Failed("no program: build it, put it on the PATH, or name it with --program") from missing
        is_there = os.sep in given and os.path.exists(given)
        raise Failed(f"{given}: {os.strerror(errno.EACCES if is_there else errno.ENOENT)}") from missing
