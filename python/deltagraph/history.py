"""Whole histories: what there was, from when to when, and all changes, read from the index file by numpy.

The file is read as docs/FORMATS.md has it: the events of its lists, and behind them those of its recent pieces. Nothing
of this is proved, and what is read is taken as it is, so `verify` first where a file may have come to harm.
"""
from __future__ import annotations

import os
import struct
from typing import Any, Iterator, NamedTuple, Optional, Union

import numpy

from .arrays import column_of, signed
from .calendar import NOTE_KEY, Calendar, noted
from .failures import DeltagraphError
from .words import bytes_of, text_of

MAGIC = b"\1DGRAPH"
HEADER = 17  # bytes, in front of the first gate
PLACES = 1 << 20  # more than there are events in a list
MARKER = (8, 0)  # the size of the directory and the number of events of what `upgrade` writes
FORMS = {ord("1"): 3, ord("2"): 4}  # how many columns a record has
NODE_COMES, NODE_GOES, EDGE_COMES, EDGE_GOES = 1, 2, 3, 4
OF_NODE, OF_EDGE, OF_VALUE = 19, 36, 30  # bytes of an event
WORDS = ["+node", "-node", "+edge", "-edge", "nset", "ndel", "eset", "edel", "msg"]


class NoHistory(DeltagraphError, ValueError):
    """A file that is no index, or of which no history can be read."""


class Block(NamedTuple):
    """A list or a recent piece: where its columns begin, and their sizes in bytes."""

    start: int
    sizes: Any


class Structure(NamedTuple):
    """Events of nodes and edges, as arrays; `place` is that of an event in the whole history."""

    place: Any
    time: Any
    kind: Any
    id: Any
    source: Any
    target: Any
    directed: Any


class Changed(NamedTuple):
    """Events of values, or messages. Of these `owner` and `key` are the ends, and `new` is the value's name plus 1."""

    place: Any
    time: Any
    owner: Any
    key: Any
    old: Any
    new: Any


class History:
    """The whole history of an index, by `Store.history`.

    `nodes`, `edges`, `node_values` and `edge_values` are frames of pandas with a row for each spell: what is there from
    its `start` on, and not any more from its `end` on, which is missing where it lasts. What came and went at one
    instant is in no graph, and in no spell. `changes` and `lines` have every change.

    Starts, ends and times are dates where the index tells what its instants are, else instants; `dates` says otherwise.
    """

    def __init__(self, index: Union[str, "os.PathLike[str]"], calendar: Optional[Calendar] = None) -> None:
        self.calendar = calendar
        self.dated = calendar is not None and calendar.dates
        self.names: list[str] = []  # keys and values, by their numbers
        self._bytes = numpy.memmap(os.fspath(index), numpy.uint8, "r") if os.path.getsize(index) else numpy.zeros(0, "u1")
        try:
            blocks = self._blocks()
            self.structure, *self._values = self._columns(blocks)
        except (IndexError, ValueError, struct.error) as error:
            raise NoHistory(f"{os.fspath(index)}: no history can be read; `verify` tells more ({error})") from error

    def __len__(self) -> int:
        """How many changes there are."""
        return len(self.structure.time) + sum(len(values.time) for values in self._values)

    # The file.

    def _blocks(self) -> list[Block]:
        """The lists, and behind them the recent pieces."""
        file = self._bytes
        if bytes(file[: len(MAGIC)]) != MAGIC or int(file[len(MAGIC)]) not in FORMS:
            raise NoHistory("this is no index")
        columns = FORMS[int(file[len(MAGIC)])]
        lists: list[Block] = []
        recent: list[Block] = []
        gate = HEADER
        while file[gate] == 1:
            at = gate + 1
            directory, size, events = struct.unpack(">QQQ", bytes(file[at : at + 24]))
            if (directory, events) == MARKER:
                columns, gate = 4, at + 24
                continue
            closed, piece = self._segment(at, directory, columns)
            # The lists of a batch have the events of all pieces before it.
            recent = [*([] if closed else recent), piece]
            lists += closed
            gate = at + 16 + directory + size
        return lists + recent

    def _segment(self, at: int, directory: int, columns: int) -> tuple[list[Block], Block]:
        """The lists that a batch closes, and its piece; its names are added."""
        head = bytes(self._bytes[at : at + 16 + directory])
        read = 44
        for _ in range(struct.unpack(">I", head[40:44])[0]):
            size = head[read] << 8 | head[read + 1]
            self.names.append(text_of(head[read + 2 : read + 2 + size]))
            read += 2 + size
        lists, read = rows_in(head, read, 2 + columns)
        deltas, read = rows_in(head, read, columns)
        piece = numpy.frombuffer(head, ">u8", columns, read).astype(numpy.int64)
        start, closed = at + 16 + directory, []
        for row in lists:
            closed.append(Block(start, row[2:]))
            start += int(row[2:].sum())
        return closed, Block(start + int(deltas.sum()), piece)

    def _columns(self, blocks: list[Block]) -> tuple[Structure, Changed, Changed, Changed]:
        sizes = numpy.zeros((len(blocks), 4), numpy.int64)
        for place, block in enumerate(blocks):
            sizes[place, : len(block.sizes)] = block.sizes
        starts = numpy.array([block.start for block in blocks], numpy.int64).reshape(-1, 1)
        starts = starts + sizes.cumsum(1) - sizes
        values = [self._changed(starts[:, column], sizes[:, column], column == 3) for column in (1, 2, 3)]
        return (self._structure(starts[:, 0], sizes[:, 0]), *values)

    def _structure(self, starts: Any, sizes: Any) -> Structure:
        """Events of nodes and edges differ in size, so that all blocks are gone through in step."""
        file = self._bytes
        block = numpy.flatnonzero(sizes)
        at, stop = starts[block] + 4, (starts + sizes)[block]
        found, of = [numpy.zeros(0, numpy.int64)], [numpy.zeros(0, numpy.int64)]
        while len(at):
            found.append(at)
            of.append(block)
            at = at + numpy.where(file[at + 10] <= NODE_GOES, OF_NODE, OF_EDGE)
            goes_on = at < stop
            at, stop, block = at[goes_on], stop[goes_on], block[goes_on]
        at, block = numpy.concatenate(found), numpy.concatenate(of)
        order = numpy.lexsort((at, block))
        at, block = at[order], block[order]
        kind = numpy.asarray(file[at + 10])
        edge = at[kind > NODE_GOES]
        ends = [numpy.zeros(len(at), numpy.uint64) for _ in range(2)]
        for column, offset in zip(ends, (19, 27)):
            column[kind > NODE_GOES] = self._numbers(edge + offset, 8)
        directed = numpy.zeros(len(at), bool)
        directed[kind > NODE_GOES] = file[edge + 35] == 1
        place = block * PLACES + self._numbers(at, 2).astype(numpy.int64)
        return Structure(place, self._times(at), kind, self._numbers(at + 11, 8), *ends, directed)

    def _changed(self, starts: Any, sizes: Any, messages: bool) -> Changed:
        counts = numpy.maximum(sizes - 4, 0) // OF_VALUE
        block = numpy.repeat(numpy.arange(len(counts)), counts)
        within = numpy.arange(counts.sum()) - numpy.repeat(counts.cumsum() - counts, counts)
        at = starts[block] + 4 + OF_VALUE * within
        place = block * PLACES + self._numbers(at, 2).astype(numpy.int64)
        key, old = (self._numbers(at + 18, 8), None) if messages else (self._numbers(at + 18, 4), self._numbers(at + 22, 4))
        new = self._numbers(at + 26, 4) + numpy.uint64(messages)
        return Changed(place, self._times(at), self._numbers(at + 10, 8), key, old, new)

    def _times(self, at: Any) -> Any:
        return self._numbers(at + 2, 8).astype(numpy.int64)

    def _numbers(self, at: Any, size: int) -> Any:
        """Numbers of so many bytes at some offsets."""
        found = numpy.zeros(len(at), numpy.uint64)
        for byte in range(size):
            found = (found << numpy.uint64(8)) | self._bytes[at + byte].astype(numpy.uint64)
        return found

    # Frames.

    def nodes(self, label: Optional[str] = None, dates: Optional[bool] = None) -> Any:
        """A frame with `id`, `start` and `end` of the spells of nodes, and with a label its last value, as `name`."""
        import pandas

        of = self.structure
        which = numpy.flatnonzero(of.kind <= NODE_GOES)
        begins, start, end = spells(of.place[which], of.time[which], of.kind[which] == NODE_COMES, of.id[which])
        ids = signed(of.id[which][begins])
        frame = pandas.DataFrame({"id": ids, **self._span(start, end, dates)})
        if label is not None:
            frame.insert(1, label, self._named(label, ids))
        return frame

    def edges(self, label: Optional[str] = None, dates: Optional[bool] = None) -> Any:
        """A frame with `id`, `source`, `target`, `directed`, `start` and `end` of the spells of edges.

        With a label, as "name", source and target are the last values of the nodes for that key.
        """
        import pandas

        of = self.structure
        which = numpy.flatnonzero(of.kind >= EDGE_COMES)
        begins, start, end = spells(of.place[which], of.time[which], of.kind[which] == EDGE_COMES, of.id[which])
        which = which[begins]
        ends = [signed(of.source[which]), signed(of.target[which])]
        if label is not None:
            ends = [self._named(label, ids) for ids in ends]
        columns = {"id": signed(of.id[which]), "source": ends[0], "target": ends[1], "directed": of.directed[which]}
        return pandas.DataFrame({**columns, **self._span(start, end, dates)})

    def node_values(self, key: Optional[str] = None, dates: Optional[bool] = None) -> Any:
        """A frame with `node`, `key`, `value`, `start` and `end` of the spells of values at nodes.

        With a key it is of this one alone, and the values are numbers where all of them are written as numbers are.
        """
        return self._value_frame("node", self._values[0], key, dates)

    def edge_values(self, key: Optional[str] = None, dates: Optional[bool] = None) -> Any:
        """A frame with `edge`, `key`, `value`, `start` and `end` of the spells of values at edges, as `node_values`."""
        return self._value_frame("edge", self._values[1], key, dates)

    def messages(self, label: Optional[str] = None, dates: Optional[bool] = None) -> Any:
        """A frame with `source`, `target`, `time` and `value` of the messages, each of their lines a row.

        With a label, as "name", source and target are the last values of the nodes for that key.
        """
        import pandas

        of = self._values[2]
        ends = [signed(of.owner), signed(of.key)]
        if label is not None:
            ends = [self._named(label, ids) for ids in ends]
        columns = {"source": ends[0], "target": ends[1], "time": self._moments(of.time, dates)}
        return pandas.DataFrame({**columns, "value": self._texts(of.new)})

    def changes(self, dates: Optional[bool] = None, begin: Optional[int] = None, end: Optional[int] = None) -> Any:
        """A frame of all changes in their order: `time`, `change` (the word of the script), `id`, `source`, `target`,
        `directed`, `key` and `value`, of which each change has what its line has. The id of a value is its owner's.

        With `begin` or `end`, which are instants, it has those from `begin` on and before `end`."""
        import pandas

        order, parts = self._in_order()
        times = numpy.concatenate([part["time"] for part in parts])[order]
        first = 0 if begin is None else numpy.searchsorted(times, begin)
        last = len(times) if end is None else numpy.searchsorted(times, end)
        order = order[first : max(first, last)]
        whole = {name: numpy.concatenate([part[name] for part in parts])[order] for name in parts[0]}
        frame = pandas.DataFrame({"time": self._moments(whole["time"], dates)})
        frame["change"] = pandas.Categorical.from_codes(whole["word"], WORDS)
        for name, has in (("id", whole["word"] != WORDS.index("msg")), ("source", whole["ends"]), ("target", whole["ends"])):
            frame[name] = pandas.arrays.IntegerArray(signed(whole[name]), ~has)
        frame["directed"] = pandas.arrays.BooleanArray(whole["directed"], whole["word"] != WORDS.index("+edge"))
        for name in ("key", "value"):
            frame[name] = self._texts(whole[name])
        return frame

    def lines(self) -> Iterator[str]:
        """The changes as lines of a script, in their order: what makes the same history again."""
        order, parts = self._in_order()
        rows = zip(*(numpy.concatenate([part[name] for part in parts])[order].tolist() for name in parts[0]))
        names = ["", *self.names]
        for time, word, owner, source, target, _, directed, key, value in rows:
            name = WORDS[word]
            if name == "+edge":
                yield f"{time} +edge {owner} {source} {target} {'dir' if directed else 'undir'}"
            elif name == "msg":
                yield f"{time} msg {source} {target} {names[value]}"
            elif key:
                yield f"{time} {name} {owner} {names[key]}" + (f" {names[value]}" if value else "")
            else:
                yield f"{time} {name} {owner}"

    def _in_order(self) -> tuple[Any, list[dict[str, Any]]]:
        """The parts of all changes, and the order in which they stand one behind another."""
        of, (nodes, edges, messages) = self.structure, self._values
        none = numpy.zeros(len(of.time), numpy.uint64)
        comes = of.kind == EDGE_COMES
        ends = {"source": of.source, "target": of.target, "ends": comes, "directed": of.directed}
        parts = [{"time": of.time, "word": of.kind.astype(numpy.int8) - 1, "id": of.id, **ends, "key": none, "value": none}]
        for values, word in ((nodes, 4), (edges, 6), (messages, 8)):
            none = numpy.zeros(len(values.time), numpy.uint64)
            sent = numpy.full(len(none), word == 8)
            which = numpy.where(sent | (values.new > 0), word, word + 1).astype(numpy.int8)
            two = {"source": values.owner if word == 8 else none, "target": values.key if word == 8 else none}
            names = {"key": none if word == 8 else values.key + numpy.uint64(1), "value": values.new}
            owner = none if word == 8 else values.owner
            parts.append(
                {"time": values.time, "word": which, "id": owner, **two, "ends": sent, "directed": sent & False, **names}
            )
        places = numpy.concatenate([of.place, *(values.place for values in self._values)])
        return numpy.argsort(places, kind="stable"), parts

    def _value_frame(self, owner: str, of: Changed, key: Optional[str], dates: Optional[bool]) -> Any:
        import pandas

        changes = of.old != of.new
        if key is not None:
            number = self.names.index(key) if key in self.names else len(self.names)
            changes = changes & (of.key == numpy.uint64(number))
        elif owner == "node" and NOTE_KEY in self.names:  # what tells the calendar is no value of a node
            notes = [number for number, name in enumerate(self.names, 1) if noted(name)]
            tells = (of.key == numpy.uint64(self.names.index(NOTE_KEY))) & numpy.isin(of.new, numpy.array(notes, "u8"))
            changes = changes & ~tells
        place, time, ids, keys, _, new = (column[changes] for column in of)
        begins, start, end = spells(place, time, new > 0, ids, keys)
        values = self._texts(new[begins])
        if key is not None:
            values = column_of([bytes_of(text) for text in values], True)
        columns = {owner: signed(ids[begins]), "key": self._texts(keys[begins] + numpy.uint64(1)), "value": values}
        return pandas.DataFrame({**columns, **self._span(start, end, dates)})

    def _named(self, label: str, ids: Any) -> Any:
        """The last values of nodes for a key, or their ids where they have none."""
        import pandas

        of = self._values[0]
        number = self.names.index(label) if label in self.names else len(self.names)
        is_set = (of.key == numpy.uint64(number)) & (of.new > 0)
        last = pandas.Series(of.new[is_set], signed(of.owner[is_set])).groupby(level=0).last()
        names = numpy.array(["", *self.names], object)
        by_id = pandas.Series(names[last.to_numpy().astype(numpy.int64)], last.index)
        found = by_id.reindex(ids)
        return numpy.where(found.isna(), pandas.Series(ids, dtype=object), found)

    def _texts(self, numbers: Any) -> Any:
        """The names with some numbers from 1, with 0 for none, as a categorical column."""
        import pandas

        codes = numbers.astype(numpy.int64) - 1
        used, places = numpy.unique(codes, return_inverse=True)
        kept = used >= 0
        new = numpy.where(kept, kept.cumsum() - 1, -1)
        return pandas.Categorical.from_codes(new[places], pandas.Index([self.names[name] for name in used[kept].tolist()], dtype=object))

    def _moments(self, instants: Any, dates: Optional[bool]) -> Any:
        """Instants as dates, where these are wanted."""
        wanted = self.dated if dates is None else dates
        return (self.calendar or Calendar()).moments(instants) if wanted else instants

    def _span(self, start: Any, end: Any, dates: Optional[bool]) -> dict[str, Any]:
        """The columns of starts and ends, of which -1 is none."""
        import pandas

        lasts = end < 0
        ends = self._moments(numpy.where(lasts, start, end), dates)
        if self.dated if dates is None else dates:
            ends[lasts] = numpy.datetime64("NaT")
            return {"start": self._moments(start, dates), "end": ends}
        return {"start": start, "end": pandas.arrays.IntegerArray(ends, lasts)}


def rows_in(head: bytes, read: int, width: int) -> tuple[Any, int]:
    """The rows of a directory, whose number stands before them, and where they end."""
    (count,) = struct.unpack(">I", head[read : read + 4])
    rows = numpy.frombuffer(head, ">u8", count * width, read + 4).reshape(count, width)
    return rows.astype(numpy.int64), read + 4 + 8 * count * width


def spells(place: Any, time: Any, begins: Any, *of: Any) -> tuple[Any, Any, Any]:
    """The spells of some owners: which events begin them, in order, and their starts and ends, -1 for none.

    A spell ends with the next event of its owner. One that ends when it begins is left out.
    """
    order = numpy.lexsort((place, *of))
    follows = numpy.ones(max(len(order) - 1, 0), bool)
    for column in of:
        follows &= column[order][1:] == column[order][:-1]
    end = numpy.full(len(order), -1, numpy.int64)
    end[:-1][follows] = time[order][1:][follows]
    kept = begins[order] & (end != time[order])
    which, ends = order[kept], end[kept]
    back = numpy.argsort(place[which], kind="stable")
    return which[back], time[which][back], ends[back]
