"""The short way of `edges2script`: a plain table whose rows are edges of their own becomes a script in one go.

It makes the very script that the long way makes, and leaves to that one whatever is not plain: other forms and options,
mistakes, which the long way tells, and files in no order that are too large for memory.
"""
from __future__ import annotations

import argparse
import csv
import gc
import mmap
import os
import re
from itertools import chain, islice
from typing import Any, Callable, Iterator, NamedTuple, Optional, Sequence

import command_line

from deltagraph.calendar import Calendar
from deltagraph.changes import LargeInstant
from deltagraph.tables import (
    END,
    START,
    BadTable,
    Columns,
    Known,
    Names,
    OutOfOrder,
    Reading,
    Ties,
    all_of,
    batches_of,
    in_order,
    moved,
    put_in_order,
    together,
    value_of,
)

SEPARATORS = {"comma": ",", "tab": "\t", "semicolon": ";"}
MOST_IN_MEMORY = 256 << 20  # bytes of a file in no order
ROWS = 1 << 9  # that are read together


class Plain(NamedTuple):
    """What the options say of a plain table. The functions raise a ValueError for what is none."""

    file: str
    columns: Callable[[Sequence[str]], tuple[list[int], list[str]]]  # places of ends, start, end and values; keys
    names: Optional[list[str]]  # of the columns, where the first line does not name them
    header: bool
    start: Callable[[str], Optional[int]]
    end: Callable[[str], Optional[int]]
    directed: bool
    name: str  # the key of the nodes' texts
    clock: Callable[[int], Calendar]  # by the first time
    noted: bool
    head: Callable[[Calendar], str]  # of the script
    batch: int


class Made(NamedTuple):
    """What is in a script."""

    nodes: int
    edges: int
    changes: int
    batches: int
    first: int
    last: int
    empty: int


class NotPlain(Exception):
    """A table for the long way."""


def separator_of(options: argparse.Namespace) -> Optional[str]:
    """What parts the fields of a table that may be plain, or nothing."""
    if options.separator is not None:
        return SEPARATORS.get(options.separator)
    with open(options.edges[0], encoding="utf-8-sig") as file:
        first = next((line for line in file if line.strip()), "")
    return "," if "," in first else None


def look(file: str, separator: str) -> None:
    """Raises `NotPlain` where bytes of a file may mean something else to the long way."""
    if not os.path.getsize(file):
        raise NotPlain
    with open(file, "rb") as given, mmap.mmap(given.fileno(), 0, access=mmap.ACCESS_READ) as content:
        # Comments, spaces in front of a separator, carriage returns within a line, and lines without anything.
        odd = rb"(?:^|\n)(?:\xef\xbb\xbf)?[ \t]*[#%%]|[ \t](?:%b|\r?\n)|\r(?!\n)|\x00|\n[ \t]+" % re.escape(separator.encode())
        if re.search(odd, content):
            raise NotPlain


def blocks_of(plain: Plain, separator: str, reading: Reading, ends: Known) -> Iterator[Columns]:
    """The rows of a table, as `Ties` wants them."""
    with open(plain.file, encoding="utf-8-sig", newline="") as stream:
        reader = csv.reader(stream, delimiter=separator, skipinitialspace=True, strict=True)
        lines = (row for row in reader if row)
        named = plain.names
        if plain.header:
            first = next(lines)
            named = named or first
        if named is None:
            raise NotPlain
        (at_source, at_target, at_start, at_end, *others), _ = plain.columns(named)
        while chunk := list(islice(lines, ROWS)):
            if set(map(len, chunk)) != {len(named)}:
                raise NotPlain
            columns = list(zip(*chunk))
            starts = all_of(reading.times, columns[at_start])
            if None in starts:
                raise NotPlain
            gone = [None] * len(chunk) if at_end < 0 else all_of(ends, columns[at_end])
            yield reading.columns(columns[at_source], columns[at_target], starts, gone, [columns[at] for at in others])


def keys_of(plain: Plain, separator: str) -> list[str]:
    if plain.names is not None:
        return plain.columns(plain.names)[1]
    with open(plain.file, encoding="utf-8-sig", newline="") as stream:
        lines = csv.reader(stream, delimiter=separator, skipinitialspace=True, strict=True)
        return plain.columns(next(row for row in lines if row))[1]


def write(plain: Plain, separator: str, out: str, progress: command_line.Progress) -> Made:
    """Writes the script into a file. Raises `NotPlain`, or what the long way will tell."""
    keys = keys_of(plain, separator)
    try:
        return written(plain, keys, *read(plain, separator), out)
    except OutOfOrder:
        if os.path.getsize(plain.file) > MOST_IN_MEMORY:
            raise NotPlain from None
    progress.stage("sorting by time")
    names, blocks = read(plain, separator)
    return written(plain, keys, names, iter([put_in_order(together(blocks, 4 + len(keys)))]), out)


def read(plain: Plain, separator: str) -> tuple[Names, Iterator[Columns]]:
    names = Names()
    return names, blocks_of(plain, separator, Reading(names, Known(plain.start), Known(value_of)), Known(plain.end))


def from_first(blocks: Iterator[Columns]) -> tuple[int, Columns]:
    """How many rows end when they begin before the first that does not, and the rest of its block.

    They are in no graph, and say nothing of the shift.
    """
    empty = 0
    for block in blocks:
        for place, (start, end) in enumerate(zip(block[START], block[END])):
            if start != end:
                return empty + place, [column[place:] for column in block]
        empty += len(block[START])
    raise NotPlain


def written(plain: Plain, keys: list[str], names: Names, blocks: Iterator[Columns], out: str) -> Made:
    empty, first_block = from_first(blocks)
    clock = plain.clock(first_block[START][0])
    blocks = in_order(chain((first_block,), blocks))
    if clock.shift:
        blocks = (moved(block, int(clock.shift)) for block in blocks)
    ties = Ties(names, keys, plain.directed, plain.name, clock.note() if plain.noted else None)
    changes = batches = first = last = 0
    with open(out, "wb") as script:
        script.write(plain.head(clock).encode())
        for count, text, begin, last in batches_of(ties.instants(blocks), plain.batch):
            first = first if batches else begin
            script.write(f"{'append' if batches else 'load'} {count}\n".encode())
            script.write(text)
            changes, batches = changes + count, batches + 1
    if not batches:
        raise NotPlain
    return Made(ties.nodes, ties.ties, changes, batches, first, last, ties.empty + empty)


def script(plain: Callable[[], Plain], options: argparse.Namespace, out: str, progress: command_line.Progress) -> Optional[Made]:
    """Writes the script of a plain table into a file and says what is in it; nothing for the long way."""
    if not may_be_plain(options):
        return None
    try:
        separator = separator_of(options)
        if separator is None:
            return None
        look(options.edges[0], separator)
        return write(plain(), separator, out, progress)
    except (NotPlain, BadTable, LargeInstant, ValueError, KeyError, csv.Error, OSError, StopIteration):
        return None
    finally:
        gc.collect()


def may_be_plain(options: argparse.Namespace) -> bool:
    """Whether the options say of rows what the short way knows."""
    others = (
        options.comments,
        options.no_quotes,
        options.join_lines,
        options.nodes,
        options.contact,
        options.keep_ids,
        options.skip_untimed,
        options.scale,
    )
    file = options.edges[0] if len(options.edges) == 1 else "-"
    return (
        not any(others)
        and options.messages is None
        and options.after is None
        and options.spread == 1
        and options.repeat == "new"
        and options.encoding == "utf-8"
        and options.form in (None, "table")
        and file != "-"
        and not file.endswith((".gz", ".jsonl", ".ndjson", ".graphml", ".gexf"))
        and os.path.isfile(file)
    )
