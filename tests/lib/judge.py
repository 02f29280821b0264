"""What an index file is opened as, whether a start goes on with it, and whether it is what its own events determine, after
docs/FORMATS.md and docs/SCRIPT.md alone: of any bytes. The records that are due are those of history.py."""

import copy

from tests.lib.history import (
    COLUMNS,
    EDGE,
    EDGE_ATTR,
    FUNCTIONS,
    LETTERS,
    MESSAGES,
    NODE,
    NODE_ATTR,
    NODES,
    STRUCTURE,
    History,
    effect,
    event_column,
)
from tests.lib.machine import Machine
from tests.lib.plans import IndexGraph
from tests.lib.runs import FOREIGN, HEADER, OPEN, RESTORE, is_blank

NAME_MOST, KEY_MOST = 1024, 64  # bytes
BATCH_MOST, EVENTS_MOST = 2**20, 2**28
TIME_MOST = 2**63 - 1
FILE_MOST = 2**48


class Refused(Exception):
    """The start refuses the file, and says this."""


class Unread(Exception):
    """Bytes are in no spelling."""


class Wrong(Exception):
    """A record, and its first column that is not right."""


class Row:
    """A record of the file: where its columns begin, and their sizes; of a list its times too. And where the directory
    says the sizes, and of how many columns."""

    def __init__(self, offset, sizes, ends, place, lengths):
        self.offset, self.sizes, self.ends, self.place, self.lengths = offset, sizes, ends, place, lengths


class Batch:
    def __init__(self, events, first, last, names):
        self.events, self.first, self.last, self.names = events, first, last, names


def big(image, at, size):
    if at + size > len(image):
        raise Unread
    return int.from_bytes(image[at : at + size], "big")


class Opened:
    """A file by its header and its directories."""

    def __init__(self, image):
        self.image = image
        self.is_wide = image[1:8] == b"DGRAPH2"  # whether the next segment has the second form
        self.began_wide, self.marker = self.is_wide, None  # the number of batches before a marker
        self.size, code = big(image, 8, 4), image[16]
        share, self.arity = (big(image, 12, 2), big(image, 14, 2)) if self.is_wide else (0, big(image, 12, 4))
        has_function = 1 <= code <= 3 and share == 0 or self.is_wide and code == 4 and share <= 256
        in_range = 2 <= self.size <= 65536 and 2 <= self.arity <= 64 and has_function
        if image[0] != OPEN or image[1:8] not in (b"DGRAPH1", b"DGRAPH2") or not in_range:
            raise Refused(FOREIGN)
        self.function = f"skewed {share}" if code == 4 else FUNCTIONS[code - 1]
        self.batches, self.rows, self.names, self.used = [], {}, [], HEADER
        self.known, self.total = set(), 0
        while image[self.used - 1] == OPEN:
            try:
                self.read_segment()
            except Unread:
                raise Refused(f"damaged at offset {self.used}: the segment there breaks the format; {RESTORE}") from None

    def read_segment(self):
        image, at = self.image, self.used
        directory, columns = big(image, at, 8), big(image, at + 8, 8)
        gate = at + 16 + directory + columns
        if gate >= len(image) or gate >= FILE_MOST:
            raise Unread
        text, start = image[at + 16 : at + 16 + directory], at + 16
        if not self.is_wide and (directory, columns, text) == (8, 0, bytes(8)):
            self.is_wide, self.marker, self.used = True, len(self.batches), gate + 1
            return
        lengths = 4 if self.is_wide else 3
        batch = Batch(big(text, 0, 8), big(text, 8, 8), big(text, 16, 8), [])
        place = 28
        for _ in range(big(text, 24, 4)):
            size = big(text, place, 2)
            batch.names.append(text[place + 2 : place + 2 + size])
            place += 2 + size
            if place > len(text):
                raise Unread
        earliest = self.batches[-1].last + 1 if self.batches else 0
        if not 1 <= batch.events <= BATCH_MOST or self.total + batch.events > EVENTS_MOST:
            raise Unread
        if not earliest <= batch.first <= batch.last <= TIME_MOST:
            raise Unread
        for name in batch.names:
            if len(name) > NAME_MOST or b"\n" in name or b"\r" in name or name in self.known:
                raise Unread
            self.known.add(name)
        lists, deltas = self.due(batch.events)
        rows = (16 + 8 * lengths) * len(lists) + 8 * lengths * (len(deltas) + 1)
        if len(text) != place + 8 + rows or big(text, place, 4) != len(lists):
            raise Unread
        offset, last = at + 16 + directory, self.last_list(batch)

        def row(key, where, ends):
            nonlocal offset
            sizes = [big(text, where + 8 * i, 8) for i in range(lengths)] + [0] * (4 - lengths)
            if key.split(" ")[0] in ("top", "down") and sizes[MESSAGES]:
                raise Unread
            self.rows[key] = Row(offset, sizes, ends, start + where, lengths)
            offset += sum(sizes)

        place += 4
        for key in lists:
            ends = big(text, place, 8), big(text, place + 8, 8)
            if not last <= ends[0] <= ends[1] <= batch.last:
                raise Unread
            last = ends[1]
            row(key, place + 16, ends)
            place += 16 + 8 * lengths
        if big(text, place, 4) != len(deltas):
            raise Unread
        place += 4
        for key in [*deltas, f"piece {len(self.batches)}"]:
            row(key, place, None)
            place += 8 * lengths
        if offset != gate:
            raise Unread
        self.batches.append(batch)
        self.names += batch.names
        self.total += batch.events
        self.used = gate + 1

    def last_list(self, batch):
        """The time before which the first list of the next batch may not begin."""
        count = self.total // self.size
        if count:
            return self.rows[f"list {count - 1}"].ends[1]
        return self.batches[0].first if self.batches else batch.first

    def due(self, events):
        """The keys of the lists and of the deltas that a batch of so many events gives."""
        before, after = self.total // self.size, (self.total + events) // self.size
        deltas, height = [], 1
        while self.arity**height <= after:
            for node in range(before // self.arity**height + 1, after // self.arity**height + 1):
                deltas += [f"top {height}"] if node == 1 else []
                deltas += [f"down {height} {c}" for c in range((node - 1) * self.arity + 1, node * self.arity + 1)]
            height += 1
        return [f"list {i}" for i in range(before, after)], deltas

    def column(self, key, column):
        row = self.rows[key]
        start = row.offset + sum(row.sizes[:column])
        return self.image[start : start + row.sizes[column]]

    # ---- events

    def placed(self, key, column):
        """The events of a column with their positions."""
        text = self.column(key, column)
        if not text:
            return {}
        at, low, earliest, found = 4, 0, 0, {}
        count = big(text, 0, 4)
        if count == 0:
            raise Unread
        for _ in range(count):
            position, time = big(text, at, 2), big(text, at + 2, 8)
            if position < low or not earliest <= time <= TIME_MOST:
                raise Unread
            if column == STRUCTURE:
                kind = big(text, at + 10, 1)
                if not 1 <= kind <= 4:
                    raise Unread
                fields = [big(text, at + 11 + 8 * i, 8) for i in range(1 if kind < 3 else 3)]
                size = 19
                if kind > 2:
                    fields.append(big(text, at + 35, 1))
                    size = 36
                    if fields[-1] > 1:
                        raise Unread
                element = (NODE if kind < 3 else EDGE, *fields)
                found[position] = time, "+" if kind % 2 else "-", element
            elif column == MESSAGES:
                source, target, value = big(text, at + 10, 8), big(text, at + 18, 8), big(text, at + 26, 4)
                if value >= len(self.names):
                    raise Unread
                found[position] = time, "msg", source, target, value
                size = 30
            else:
                owner, key_number, old, new = big(text, at + 10, 8), *(big(text, at + 18 + 4 * i, 4) for i in range(3))
                if key_number >= len(self.names) or max(old, new) > len(self.names) or old == new == 0:
                    raise Unread
                kind = NODE_ATTR if column == NODES else EDGE_ATTR
                values = [number - 1 if number else None for number in (old, new)]
                found[position] = time, kind, owner, key_number, *values
                size = 30
            at, low, earliest = at + size, position + 1, time
        if at != len(text):
            raise Unread
        return found

    def events_of(self, key, count):
        found, total = {}, 0
        for column in COLUMNS:
            try:
                placed = self.placed(key, column)
            except Unread:
                raise Wrong(key, column) from None
            found.update(placed)
            total += len(placed)
        events = [found.get(position) for position in range(count)] if total == len(found) == count else [None]
        if None in events or any(a[0] > b[0] for a, b in zip(events, events[1:])):
            raise Wrong(key, STRUCTURE)
        return events

    def recent_pieces(self):
        """The batches of the recent pieces, each with its key, and with the numbers of events before it and in it."""
        before = 0
        for number, batch in enumerate(self.batches):
            behind = before + batch.events
            if behind // self.size == self.total // self.size:
                start = max(before, behind // self.size * self.size)
                yield batch, f"piece {number}", start, behind - start
            before = behind

    def own_events(self):
        """The events of the lists and of the recent pieces; or the first record of them that is not right."""
        graph, events = Graph(self.names), []

        def add(key, more, ends):
            if ends != (more[0][0], more[-1][0]) or (events and more[0][0] < events[-1][0]) or not all(map(graph.take, more)):
                raise Wrong(key, STRUCTURE)
            events.extend(more)

        lists = self.total // self.size
        for i in range(lists):
            add(f"list {i}", self.events_of(f"list {i}", self.size), self.rows[f"list {i}"].ends)
        before = 0
        for number, batch in enumerate(self.batches):
            key, behind = f"piece {number}", before + batch.events
            closed = behind // self.size
            start = max(before, closed * self.size)
            if closed == lists:
                more = self.events_of(key, behind - start)
                whole = [*events, *more][before:behind]
                if (batch.first, batch.last) != (whole[0][0], whole[-1][0]):
                    raise Wrong(key, STRUCTURE)
                if more:
                    add(key, more, (more[0][0], more[-1][0]))
            else:
                of_batch = events[before:behind]
                for column in COLUMNS:
                    ends_differ = column == STRUCTURE and (batch.first, batch.last) != (of_batch[0][0], of_batch[-1][0])
                    if ends_differ or self.column(key, column) != event_column(events[start:behind], column):
                        raise Wrong(key, column)
            before = behind
        return events


class ToldHistory:
    """What a file, sound or not, says of its lists and of what is recent, as `History` has it."""

    def __init__(self, opened):
        self.opened, self.sizes = opened, {key: row.sizes for key, row in opened.rows.items()}
        self.recent = [event for _, key, _, count in opened.recent_pieces() for event in opened.events_of(key, count)]
        self.times = [time for batch in opened.batches for time in (batch.first, batch.last)]

    def copy(self):
        other = copy.copy(self)
        other.recent, other.times = list(self.recent), list(self.times)
        return other

    def add(self, events, names):
        """Adds a batch that closes no list."""
        self.recent += events
        self.times += [events[0][0], events[-1][0]]

    def ends(self):
        return (self.times[0], self.times[-1]) if self.times else None

    def lists(self):
        return {key: row.ends for key, row in self.opened.rows.items() if row.ends is not None}

    def events_in(self, key, column):
        return [event for _, event in sorted(self.opened.placed(key, column).items())]

    def recent_events(self):
        return self.recent


class Graph:
    """A graph, as far as it says whether an event is what some change comes to."""

    def __init__(self, names):
        self.names = names
        self.nodes, self.edges, self.values = set(), {}, {}

    @classmethod
    def of(cls, elements, names):
        """The graph that these elements are; nothing where they are none."""
        graph = cls(names)
        graph.nodes = {x[1] for x in elements if x[0] == NODE}
        edges = [x for x in elements if x[0] == EDGE]
        values = [x for x in elements if x[0] in (NODE_ATTR, EDGE_ATTR)]
        graph.edges = {x[1]: x[2:] for x in edges}
        graph.values = {x[:3]: x[3] for x in values}
        has_ends = all(end in graph.nodes for x in edges for end in x[2:4])
        has_owners = all(x[1] in (graph.nodes if x[0] == NODE_ATTR else graph.edges) for x in values)
        is_single = len(edges) == len(graph.edges) and len(values) == len(graph.values)
        return graph if has_ends and has_owners and is_single else None

    def is_held(self, kind, owner):
        return any(of[:2] == (kind, owner) for of in self.values)

    def take(self, event):
        """Takes the event, where it is one that a change comes to."""
        if event[1] in ("+", "-"):
            return self.take_element(event[1], *event[2])
        if event[1] == "msg":
            return event[2] in self.nodes and event[3] in self.nodes
        _, kind, owner, key, old, new = event
        name, place = self.names[key], (kind, owner, key)
        there = owner in (self.nodes if kind == NODE_ATTR else self.edges)
        is_key = 1 <= len(name) <= KEY_MOST and all(byte > 32 for byte in name)
        if not there or not is_key or self.values.get(place) != old:
            return False
        self.values.pop(place, None)
        if new is not None:
            self.values[place] = new
        return True

    def take_element(self, sign, kind, number, *fields):
        if kind == NODE:
            if sign == "+":
                is_right = number not in self.nodes
                self.nodes.add(number)
            else:
                in_use = any(number in ends[:2] for ends in self.edges.values()) or self.is_held(NODE_ATTR, number)
                is_right = number in self.nodes and not in_use
                self.nodes.discard(number)
            return is_right
        if sign == "+":
            is_right = number not in self.edges and fields[0] in self.nodes and fields[1] in self.nodes
            self.edges[number] = tuple(fields)
        else:
            is_right = self.edges.get(number) == tuple(fields) and not self.is_held(EDGE_ATTR, number)
            self.edges.pop(number, None)
        return is_right


class Judgement:
    """What is due of any bytes: that they are no index, that their start is refused, or whether they are sound; and where
    they are, the history that they stand for."""

    histories = {}

    def __init__(self, image):
        self.is_blank, self.said, self.opened, self.soundness, self.history = is_blank(image), None, None, None, None
        if self.is_blank:
            return
        try:
            self.opened = Opened(image)
        except Refused as refused:
            self.said = str(refused)
            return
        try:
            events = self.opened.own_events()
            self.history = self.history_of(self.opened, events)
            self.compare_deltas()
            self.soundness = f"sound {sum(not key.startswith('piece') for key in self.opened.rows)}"
        except Wrong as wrong:
            key, column = wrong.args
            self.soundness = f"unsound {key} {LETTERS[column]}"

    def machine(self):
        """The machine over the history that the file stands for; over no index where it is blank. Over a file that is not sound
        it answers what goes by the lists and by what is recent alone: `interval`, `index` and `find`."""
        if self.is_blank:
            return Machine()
        if self.is_sound:
            return Machine(self.history, self.opened.names)
        told = ToldHistory(self.opened)
        damaged = [(key, column) for key in told.lists() for column in COLUMNS if self.is_damaged(key, column)]
        return Machine(told, self.opened.names, damaged)

    @property
    def is_sound(self):
        return self.soundness is not None and self.soundness.startswith("sound")

    @classmethod
    def history_of(cls, opened, events):
        """The history of these events in the batches that the directories tell."""
        cut = tuple((batch.events, tuple(batch.names)) for batch in opened.batches)
        key = opened.size, opened.arity, opened.function, opened.began_wide, opened.marker, tuple(events), cut
        if key not in cls.histories:
            if len(cls.histories) > 300:
                cls.histories.clear()
            history, at = History(opened.size, opened.arity, opened.function, opened.began_wide), 0
            for number, batch in enumerate(opened.batches):
                if number == opened.marker:
                    history.upgrade()
                history.add(events[at : at + batch.events], batch.names)
                at += batch.events
            if opened.marker == len(opened.batches):
                history.upgrade()
            cls.histories[key] = history
        return cls.histories[key]

    def compare_deltas(self):
        """Each top and down is that of the history."""
        due = self.history.file()

        def order(key):
            kind, *numbers = key.split(" ")
            return ["top", "down"].index(kind), [int(number) for number in numbers]

        for key in sorted((key for key in self.opened.rows if key.split(" ")[0] in ("top", "down")), key=order):
            for column, (offset, size) in enumerate(self.history.places[key]):
                if self.opened.column(key, column) != due[offset : offset + size]:
                    raise Wrong(key, column)

    def delta(self, key, column):
        """What a column of a top or a down takes out and puts in."""
        text, names = self.opened.column(key, column), len(self.opened.names)
        at, sides = 0, []
        if not text:
            return set(), set()
        for _ in range(2):
            count, last, found = big(text, at, 4), None, set()
            at += 4
            for _ in range(count):
                element, at = self.element_at(text, at, column, names)
                if (last is not None and element <= last) or (sides and element in sides[0]):
                    raise Unread
                last = element
                found.add(element)
            sides.append(found)
        if at != len(text) or not any(sides):
            raise Unread
        return tuple(sides)

    @staticmethod
    def element_at(text, at, column, names):
        if column == STRUCTURE:
            kind = big(text, at, 1)
            if kind not in (1, 2):
                raise Unread
            if kind == 1:
                return (NODE, big(text, at + 1, 8)), at + 9
            fields = [big(text, at + 1 + 8 * i, 8) for i in range(3)] + [big(text, at + 25, 1)]
            if fields[-1] > 1:
                raise Unread
            return (EDGE, *fields), at + 26
        key, value = big(text, at + 8, 4), big(text, at + 12, 4)
        if max(key, value) >= names:
            raise Unread
        return (NODE_ATTR if column == NODES else EDGE_ATTR, big(text, at, 8), key, value), at + 16

    def is_damaged(self, key, column):
        """Whether a column is in no spelling."""
        try:
            if key.split(" ")[0] in ("top", "down"):
                self.delta(key, column)
            else:
                self.opened.placed(key, column)
            return False
        except Unread:
            return True

    # ---- the start

    walks = {}

    def walk(self):
        """The edges, with their records, of the plan of the last leaf over the records alone."""
        opened = self.opened
        leaves = opened.total // opened.size
        key = opened.size, opened.arity, opened.total, tuple(tuple(row.sizes) for row in opened.rows.values())
        if leaves and key not in self.walks:
            history = History(opened.size, opened.arity, opened.function)
            history.events, history.sizes = range(opened.total), {name: row.sizes for name, row in opened.rows.items()}
            graph = IndexGraph(history, "sne", memory=False)
            steps = graph.walk(f"leaf {leaves}", ["root"], graph.costs)
            self.walks[key] = [(*graph.edges[i][:2], graph.records[i]) for i in steps]
        return self.walks[key] if leaves else []

    def last_leaf(self):
        """The elements to which the records of that plan lead; or the first column of them that is in no spelling."""
        walk = self.walk()
        for _, _, record in walk:
            for column in range(3):
                if record is not None and self.is_damaged(record, column):
                    raise Wrong(record, column)
        elements = set()
        for tail, head, record in walk:
            for column in range(3):
                for out, into in self.step(tail, head, record, column):
                    elements.difference_update(out)
                    elements.update(into)
        return elements

    def step(self, tail, head, record, column):
        """What a step takes out and puts in, one after another."""
        kind = (record or tail).split(" ")[0]
        if kind in ("top", "down"):
            out, into = self.delta(record, column)
            is_down = kind == "top" or self.height(tail) > self.height(head)
            yield (out, into) if is_down else (into, out)
        elif kind == "list":
            number, leaf = (int((tail if record is None else head).split(" ")[1]), tail if record else head)
            behind = leaf == f"leaf {number + 1}"
            effects = [self.effect(event) for _, event in sorted(self.opened.placed(f"list {number}", column).items())]
            if behind and record is None:
                yield from effects
            elif behind:
                yield from ((into, out) for out, into in reversed(effects))

    @staticmethod
    def height(node):
        return int(node.split(" ")[1]) if node.startswith("inner") else 0

    @staticmethod
    def effect(event):
        return tuple(set() if element is None else {element} for element in effect(event))

    def start_fault(self):
        """Why a start over the opened file is refused, or nothing."""
        opened, recent = self.opened, []
        try:
            for batch, key, start, count in opened.recent_pieces():
                recent.append((batch, start, opened.events_of(key, count)))
            graph = Graph.of(self.last_leaf(), opened.names)
        except Wrong as wrong:
            key, column = wrong.args
            return f"damaged in record {key}, column {LETTERS[column]}; {RESTORE}"
        if graph is None:
            return f"damaged: the records of the last leaf come to no graph; {RESTORE}"
        leaves = opened.total // opened.size
        last = opened.rows[f"list {leaves - 1}"].ends[1] if leaves else 0
        for batch, start, events in recent:
            for number, event in enumerate(events, start + 1):
                if not max(batch.first, last) <= event[0] <= batch.last or not graph.take(event):
                    return f"damaged at event {number}: it is none that a change comes to; {RESTORE}"
        return None
