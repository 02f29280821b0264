"""Listings as arrays of numpy, made from their bytes."""
from __future__ import annotations

import re
from typing import TYPE_CHECKING, Any, NamedTuple, Sequence

import numpy

from .calendar import NOTE_KEY, noted
from .words import text_of

if TYPE_CHECKING:
    from .snapshot import Snapshot

# As `snapshot --numbers` of the tools has them: 007 is a text, and so is a number that 64 bits do not hold.
WHOLE_NUMBER = re.compile(r"0|-?[1-9][0-9]{0,17}", re.ASCII)
REAL_NUMBER = re.compile(r"-?(?:0|[1-9][0-9]*)(?:\.[0-9]+)?(?:[eE][-+]?[0-9]+)?", re.ASCII)


class Values(NamedTuple):
    """The values of a key: whose they are, as ids in order, and the values."""

    owners: Any
    values: Any


class Arrays(NamedTuple):
    """A graph as arrays of numpy: the ids of its nodes, its edges by their ids, and the values of each key.

    Ids are int64, or uint64 where one is above 2^63-1.
    """

    nodes: Any
    ids: Any
    sources: Any
    targets: Any
    directed: Any
    node_values: dict[str, Values]
    edge_values: dict[str, Values]


def numbers_in(text: bytes) -> Any:
    """The numbers of a text, which are parted by spaces or line feeds."""
    return numpy.fromstring(text, numpy.uint64, sep=" ") if text else numpy.zeros(0, numpy.uint64)


def signed(ids: Any) -> Any:
    """Ids as int64, which other arrays and frames have; as they are where one is larger."""
    return ids.astype(numpy.int64) if not len(ids) or ids.max() < 1 << 63 else ids


def edges_of(section: bytes) -> tuple[Any, Any, Any, Any]:
    """The ids, the sources, the targets and the directions of the lines of edges."""
    plain = section.replace(b"edge ", b"").replace(b" undir", b" 0").replace(b" dir", b" 1")
    table = numbers_in(plain).reshape(-1, 4)
    return table[:, 0].copy(), table[:, 1].copy(), table[:, 2].copy(), table[:, 3] == 1


def arrays_of(snapshot: "Snapshot", numbers: bool = True) -> Arrays:
    """The arrays of a graph; with `numbers` values are numbers where a key has nothing else."""
    found: dict[bytes, list[bytes]] = {}
    for kind, section in snapshot.sections():
        found.setdefault(kind, []).append(section)
    whole = {kind: b"".join(sections) for kind, sections in found.items()}
    nodes = signed(numbers_in(whole.get(b"node", b"").replace(b"node ", b"")))
    ids, sources, targets, directed = edges_of(whole.get(b"edge", b""))
    # What tells the calendar of an index is no value of a node.
    whole[b"nattr"] = without_notes(whole.get(b"nattr", b""))
    of_nodes, of_edges = (values_of(whole.get(kind, b""), numbers) for kind in (b"nattr", b"eattr"))
    return Arrays(nodes, signed(ids), signed(sources), signed(targets), directed, of_nodes, of_edges)


def without_notes(section: bytes) -> bytes:
    """The lines of values of nodes without notes of the calendar, of which a graph has few."""
    key = f" {NOTE_KEY} ".encode()
    if key not in section:
        return section
    lines = section[:-1].split(b"\n")
    kept = [line for line in lines if not (line.split(b" ", 3)[2:3] == [key[1:-1]] and noted(text_of(line.split(b" ", 3)[3])))]
    return b"".join(line + b"\n" for line in kept)


def values_of(section: bytes, numbers: bool) -> dict[str, Values]:
    """The values of each key, from the lines of values of nodes or of edges."""
    owners: dict[bytes, list[bytes]] = {}
    values: dict[bytes, list[bytes]] = {}
    for line in section[:-1].split(b"\n") if section else ():
        _, owner, key, value = line.split(b" ", 3)
        try:
            owners[key].append(owner)
            values[key].append(value)
        except KeyError:
            owners[key], values[key] = [owner], [value]
    return {
        text_of(key): Values(signed(numbers_in(b" ".join(owners[key]))), column_of(values[key], numbers)) for key in owners
    }


def column_of(values: Sequence[bytes], numbers: bool) -> Any:
    """Values as an array: int64 where all are whole numbers, float64 where all are numbers, and else texts."""
    known = {value: text_of(value) for value in set(values)}
    kind: Any = object
    if numbers and all(map(REAL_NUMBER.fullmatch, known.values())):
        whole = all(map(WHOLE_NUMBER.fullmatch, known.values()))
        kind = numpy.int64 if whole else numpy.float64
        numeric = {value: int(text) if whole else float(text) for value, text in known.items()}
        return numpy.array([numeric[value] for value in values], kind)
    found = numpy.empty(len(values), object)
    found[:] = [known[value] for value in values]
    return found


def spread_over(ids: Any, values: Values) -> Any:
    """The values as a column over all ids, which are in order; what has none is None, or no number (nan).

    Values of owners that are not among the ids, as an expression may have them, are left out.
    """
    if len(values.owners) == len(ids) and (values.owners == ids).all():
        return values.values
    places = numpy.searchsorted(ids, values.owners)
    kept = places < len(ids)
    kept[kept] = ids[places[kept]] == values.owners[kept]
    column = numpy.full(len(ids), None, object) if values.values.dtype == object else numpy.full(len(ids), numpy.nan)
    column[places[kept]] = values.values[kept]
    return column
