"""Numbers, names and limits of the script language (docs/SCRIPT.md).

Names are bytes. Here they are texts in UTF-8, in which a byte that is none is kept as a surrogate: `bytes_of` of
`text_of` gives the same bytes again.
"""
from __future__ import annotations

import re

LAST_INSTANT = 2**63 - 1
LARGEST_ID = 2**64 - 1
LONGEST_KEY = 64  # bytes
LONGEST_VALUE = 1024  # bytes
LONGEST_LINE = 4096  # bytes
LARGEST_BATCH = 1 << 20  # lines
MOST_INSTANTS = 32  # of one `several`
MOST_TIMES, MOST_WORDS = 8, 31  # of an expression
OPERATORS = ("and", "or", "not")  # of expressions
COLUMNS = ("s", "sn", "se", "sne")  # of a graph: structure, attributes of nodes, of edges

NUMBER = r"(?:0|[1-9][0-9]*)"
IS_NUMBER = re.compile(NUMBER, re.ASCII)
WITH_LINES = re.compile(rf"(?:(load|append)|certify {NUMBER} (?:s|sn|se|sne)) ({NUMBER})", re.ASCII)


def text_of(line: bytes) -> str:
    """The text of some bytes, of which each stays."""
    return line.decode("utf-8", "surrogateescape")


def bytes_of(text: str) -> bytes:
    """The bytes of a text, and those of `text_of` again. Raises UnicodeEncodeError for half a surrogate pair."""
    return text.encode("utf-8", "surrogateescape")


def is_key(text: str) -> bool:
    """Whether a key may be called so."""
    spelled = bytes_of(text)
    return 1 <= len(spelled) <= LONGEST_KEY and min(spelled) > ord(" ")


def is_value(text: str) -> bool:
    """Whether a value may be this text, which is the rest of a line."""
    return len(bytes_of(text)) <= LONGEST_VALUE and "\n" not in text and "\r" not in text


def lines_after(command: str) -> int:
    """How many lines follow a command: a batch of changes or a certificate, else none."""
    found = WITH_LINES.fullmatch(command) if len(command) <= LONGEST_LINE else None
    if found is None or len(found[2]) > len(str(LARGEST_BATCH)):
        return 0
    count = int(found[2])
    if count > LARGEST_BATCH:
        return 0
    if found[1] is None and int(command.split(" ")[1]) > LAST_INSTANT:
        return 0
    return count
