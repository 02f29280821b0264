"""Texts in XML."""
from __future__ import annotations

import re
from collections import Counter
from xml.sax.saxutils import escape, quoteattr

NOT_IN_XML = re.compile("[^\t\n\r\u0020-\ud7ff\ue000-\ufffd\U00010000-\U0010ffff]")

replaced: Counter[str] = Counter()  # texts with characters that XML has no place for


def in_xml(text: str) -> str:
    """The text with U+FFFD for what XML has no place for; `replaced` counts such texts."""
    found, times = NOT_IN_XML.subn("\ufffd", text)
    replaced["texts"] += times > 0
    return found


def content(text: str) -> str:
    return escape(in_xml(text))


def attribute(text: str) -> str:
    """The text in quotes."""
    return quoteattr(in_xml(text), {"\n": "&#10;", "\t": "&#9;"})
