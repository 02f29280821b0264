"""Lines by their forms, which are written as docs/SCRIPT.md writes them: `at TIME TCOLS`. A line that fits none of some forms
leaves them at a column."""
from __future__ import annotations

import re
from functools import lru_cache
from typing import Any, Callable, Iterable, Optional

# Reads its part of a line from a place on: where that ends, and what it is; or where the line leaves it, and nothing.
Symbol = Callable[[bytes, int], "tuple[int, Any]"]

MOST_TIMES = 32  # of one `several`
MOST_OPERANDS, MOST_WORDS = 8, 31  # of an expression


DECIMAL = {0: re.compile(rb"0|[1-9][0-9]*"), 1: re.compile(rb"[1-9][0-9]*")}


def number(least: int, most: int) -> Symbol:
    """A number in decimal from 0 or 1 on, with no leading zero."""

    def read(line: bytes, at: int) -> tuple[int, Any]:
        found = DECIMAL[least].match(line, at)
        if found is None:
            return at, None
        digits = found.group()[: len(str(most))]
        if int(digits) > most:
            digits = digits[:-1]
        return at + len(digits), int(digits)

    return read


def word(*words: str) -> Symbol:
    known = [text.encode() for text in words]

    def read(line: bytes, at: int) -> tuple[int, Any]:
        end = at
        while end < len(line) and any(text.startswith(line[at : end + 1]) for text in known):
            end += 1
        return end, line[at:end].decode() if line[at:end] in known else None

    return read


def text(least: int, most: int, is_in: Callable[[int], bool]) -> Symbol:
    """So many bytes, each of which is one of these."""

    def read(line: bytes, at: int) -> tuple[int, Any]:
        end = at
        while end < len(line) and end - at < most and is_in(line[end]):
            end += 1
        return end, line[at:end] if end - at >= least else None

    return read


def function(line: bytes, at: int) -> tuple[int, Any]:
    end, name = word("intersection", "union", "balanced", "skewed")(line, at)
    if name != "skewed":
        return end, name
    if line[end : end + 1] != b" ":
        return end, None
    end, share = number(0, 2**32 - 1)(line, end + 1)
    return end, None if share is None else f"skewed {share}"


def times(line: bytes, at: int) -> tuple[int, Any]:
    found: list[int] = []
    while True:
        end, time = SYMBOLS["TIME"](line, at)
        if time is None:
            return end, None
        found.append(time)
        if len(found) == MOST_TIMES or line[end : end + 1] != b" ":
            return end, found
        at = end + 1


def expression(line: bytes, at: int) -> tuple[int, Any]:
    """The words of an expression, its instants as numbers. A word may stand where the whole can still end within the limits."""
    found: list[Any] = []
    due, operands = 1, 0  # how many operands have to follow, and how many stand there
    while True:
        if line[at : at + 1].isdigit():
            end, read = SYMBOLS["TIME"](line, at)
            due, operands = due - 1, operands + 1
        else:
            room = MOST_WORDS - len(found) - due
            allowed = ["not"] * (room >= 1) + ["and", "or"] * (room >= 2 and operands + due < MOST_OPERANDS)
            end, read = word(*allowed)(line, at)
            due += read in ("and", "or")
        if read is None:
            return end, None
        found.append(read)
        if due == 0:
            return end, found
        if line[end : end + 1] != b" ":
            return end, None
        at = end + 1


SYMBOLS: dict[str, Symbol] = {
    "TIME": number(0, 2**63 - 1),
    "ID": number(0, 2**64 - 1),
    "SEED": number(0, 2**64 - 1),
    "HANDLE": number(1, 2**32 - 1),
    "COUNT": number(1, 2**20),
    "COUNT0": number(0, 2**20),
    "SWEEP": number(1, 2**32 - 1),
    "N32": number(0, 2**32 - 1),
    "FUNCTION": function,
    "COLS": word("s", "sn", "se", "sne"),
    "TCOLS": word("s", "sn", "se", "sne", "st", "snt", "set", "snet"),
    "DIRECTION": word("dir", "undir"),
    "KEY": text(1, 64, lambda byte: byte > 32),
    "VALUE": text(0, 1024, lambda byte: byte not in b"\r\n"),
    "TIMES": times,
    "EXPR": expression,
}


class Left(Exception):
    """The line leaves the forms at this column, from 1."""


def read(forms: Iterable[str], line: bytes) -> tuple[str, list[Any]]:
    """The form that a line has, and what its symbols read."""
    most = 0
    for form in forms:
        end, values = fit(form, line)
        if values is not None:
            return form, values
        most = max(most, end)
    raise Left(most + 1)


def fit(form: str, line: bytes) -> tuple[int, Optional[list[Any]]]:
    """How far a line fits a form, and what its symbols read where it fits it whole."""
    at, values = 0, []
    for place, (symbol, is_word) in enumerate(symbols_of(form)):
        if place:
            if line[at : at + 1] != b" ":
                return at, None
            at += 1
        at, value = symbol(line, at)
        if value is None:
            return at, None
        if not is_word:
            values.append(value)
    return at, values if at == len(line) else None


@lru_cache(maxsize=None)
def symbols_of(form: str) -> list[tuple[Symbol, bool]]:
    """What reads each part of a form, and whether it is a word that stands there as such."""
    return [(SYMBOLS.get(part) or word(part), part not in SYMBOLS) for part in form.split(" ")]
