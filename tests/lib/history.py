"""Events, the graphs that they make, and the index file of a history, byte for byte, in its two forms: after docs/FORMATS.md
and docs/SCRIPT.md alone, and never with the program."""

import copy

NODE, EDGE, NODE_ATTR, EDGE_ATTR, MESSAGE = range(5)
STRUCTURE, NODES, EDGES, MESSAGES = range(4)
COLUMNS = range(4)
LETTERS = "snet"
COLUMN_OF = {NODE: STRUCTURE, EDGE: STRUCTURE, NODE_ATTR: NODES, EDGE_ATTR: EDGES, MESSAGE: MESSAGES}
FUNCTIONS = ["intersection", "union", "balanced"]


def number(n, size):
    return n.to_bytes(size, "big")


# Elements are tuples in element order: a kind, and then the fields.


def fields(element):
    kind, *rest = element
    if kind == NODE:
        return number(rest[0], 8)
    if kind == EDGE:
        return b"".join(number(n, 8) for n in rest[:3]) + number(rest[3], 1)
    return number(rest[0], 8) + number(rest[1], 4) + number(rest[2], 4)


def share_of(function):
    """So many of 256 come from the last child."""
    return 128 if function == "balanced" else int(function.split(" ")[1])


def is_of_last(element, share):
    """Whether a skewed node takes the element from its last child."""
    value = 14695981039346656037
    for byte in bytes([element[0] + 1]) + fields(element):
        value = ((value ^ byte) * 1099511628211) % 2**64
    return value >> 56 < share


def combined(function, sets):
    if function == "intersection":
        return set.intersection(*sets)
    if function == "union":
        return set.union(*sets)
    first, last, share = sets[0], sets[-1], share_of(function)
    return {x for x in first | last if x in (last if is_of_last(x, share) else first)}


# Events are (time, sign, element) for nodes and edges, (time, kind, id, key, old, new) for values, and (time, "msg", source,
# target, value) for messages.


def effect(event):
    """The element that goes out and the one that comes in."""
    if event[1] == "+":
        return None, event[2]
    if event[1] == "-":
        return event[2], None
    if event[1] == "msg":
        return None, None
    _, kind, owner, key, old, new = event
    if old == new:
        return None, None
    out = None if old is None else (kind, owner, key, old)
    return out, None if new is None else (kind, owner, key, new)


def replay(events):
    graph = set()
    for event in events:
        out, into = effect(event)
        if out is not None:
            graph.remove(out)
        if into is not None:
            assert into not in graph
            graph.add(into)
    return graph


def put_in(event):
    """The element that comes in, or the message that is sent."""
    return (MESSAGE, *event[2:]) if event[1] == "msg" else effect(event)[1]


def column_of(event):
    if event[1] == "msg":
        return MESSAGES
    return COLUMN_OF[event[2][0] if event[1] in ("+", "-") else event[1]]


def event_column(events, column):
    parts = []
    for at, event in enumerate(events):
        if column_of(event) != column:
            continue
        head = number(at, 2) + number(event[0], 8)
        if event[1] == "msg":
            parts.append(head + number(event[2], 8) + number(event[3], 8) + number(event[4], 4))
        elif event[1] in ("+", "-"):
            kind = event[2][0]
            code = 1 + 2 * kind + (event[1] == "-")
            parts.append(head + bytes([code]) + fields(event[2]))
        else:
            _, _, owner, key, old, new = event
            values = [0 if value is None else value + 1 for value in (old, new)]
            parts.append(head + number(owner, 8) + b"".join(number(n, 4) for n in [key] + values))
    return number(len(parts), 4) + b"".join(parts) if parts else b""


def delta_column(before, after, column):
    def spelled(elements):
        chosen = sorted(x for x in elements if COLUMN_OF[x[0]] == column)
        code = column == STRUCTURE
        return len(chosen), b"".join((bytes([x[0] + 1]) if code else b"") + fields(x) for x in chosen)

    out, out_bytes = spelled(before - after)
    into, into_bytes = spelled(after - before)
    return number(out, 4) + out_bytes + number(into, 4) + into_bytes if out + into else b""


class History:
    def __init__(self, size, arity, function, is_wide=True):
        self.size, self.arity, self.function = size, arity, function
        self.is_wide = is_wide  # whether the next segment has the second form
        self.events, self.segments = [], 0
        self.sizes = {}  # the bytes of the columns of each list, top and down, by its key
        self.places = {}  # where the columns of each record stand in the file, by its key
        self.recent = []  # the keys of the recent pieces
        is_skewed = function not in FUNCTIONS
        code = bytes([4 if is_skewed else FUNCTIONS.index(function) + 1])
        if is_wide:
            share = share_of(function) if is_skewed else 0
            self.text = b"\1DGRAPH2" + number(size, 4) + number(share, 2) + number(arity, 2) + code
        else:
            self.text = b"\1DGRAPH1" + number(size, 4) + number(arity, 4) + code

    def copy(self):
        """The same history, which goes on by itself."""
        other = copy.copy(self)
        other.events, other.recent, other.sizes = list(self.events), list(self.recent), dict(self.sizes)
        other.places = {key: list(columns) for key, columns in self.places.items()}
        return other

    def file(self):
        return self.text + b"\0"

    def upgrade(self):
        """Adds the marker behind which segments have the second form."""
        self.text += b"\1" + number(8, 8) + number(0, 8) + number(0, 8)
        self.is_wide = True

    def heard(self, times):
        """The lists between whose times one of the instants lies, and the bytes of their columns of messages."""
        keys = [key for key, (first, last) in self.lists().items() if any(first <= time <= last for time in times)]
        return keys, sum(self.sizes[key][MESSAGES] for key in keys)

    def ends(self):
        """The first and the last instant; nothing where there is no event."""
        return (self.events[0][0], self.events[-1][0]) if self.events else None

    def lists(self):
        """The lists, each with its first and its last instant."""
        last = self.size - 1
        starts = range(0, len(self.events) - last, self.size)
        return {f"list {i}": (self.events[at][0], self.events[at + last][0]) for i, at in enumerate(starts)}

    def events_in(self, key, column):
        """The events in a column of a list."""
        start = int(key.split(" ")[1]) * self.size
        return [event for event in self.events[start : start + self.size] if column_of(event) == column]

    def recent_events(self):
        """The events behind the last list."""
        return self.events[len(self.events) // self.size * self.size :]

    def node(self, height, index, made):
        """The set of a leaf, of height 0, or of an interior node."""
        if (height, index) not in made:
            if height == 0:
                made[0, index] = replay(self.events[: index * self.size])
            else:
                children = [self.node(height - 1, c, made) for c in self.children(index)]
                made[height, index] = combined(self.function, children)
        return made[height, index]

    def children(self, index):
        return range((index - 1) * self.arity + 1, index * self.arity + 1)

    def add(self, events, names):
        """Adds the segment of a batch."""
        before = len(self.events)
        self.events += events
        after = len(self.events)
        leaves, leaves_after = before // self.size, after // self.size
        columns, made, keys = [], {}, []

        def row(four, key):
            assert self.is_wide or not four[MESSAGES]
            columns.extend(four)
            keys.append(key)
            if not key.startswith("piece"):
                self.sizes[key] = [len(c) for c in four]
            return b"".join(number(len(c), 8) for c in (four if self.is_wide else four[:MESSAGES]))

        lists = []
        for i in range(leaves, leaves_after):
            of_list = self.events[i * self.size : (i + 1) * self.size]
            ends = number(of_list[0][0], 8) + number(of_list[-1][0], 8)
            lists.append(ends + row([event_column(of_list, c) for c in COLUMNS], f"list {i}"))
        deltas = []
        height = 1
        while self.arity**height <= leaves_after:
            for index in range(leaves // self.arity**height + 1, leaves_after // self.arity**height + 1):
                graph = self.node(height, index, made)
                steps = [(f"top {height}", set(), graph)] if index == 1 else []
                steps += [(f"down {height} {c}", graph, self.node(height - 1, c, made)) for c in self.children(index)]
                deltas += [row([delta_column(a, b, c) for c in COLUMNS], key) for key, a, b in steps]
            height += 1
        behind = self.events[max(before, leaves_after * self.size) :]
        segment = f"piece {self.segments}"
        piece = row([event_column(behind, c) for c in COLUMNS], segment)
        directory = number(len(events), 8) + number(events[0][0], 8) + number(events[-1][0], 8)
        directory += number(len(names), 4) + b"".join(number(len(n), 2) + n for n in names)
        directory += number(len(lists), 4) + b"".join(lists)
        directory += number(len(deltas), 4) + b"".join(deltas) + piece
        blobs = b"".join(columns)
        offset = len(self.text) + 17 + len(directory)
        for i, column in enumerate(columns):
            self.places.setdefault(keys[i // len(COLUMNS)], []).append((offset, len(column)))
            offset += len(column)
        self.recent = ([] if leaves_after > leaves else self.recent) + [segment]
        self.segments += 1
        self.text += b"\1" + number(len(directory), 8) + number(len(blobs), 8) + directory + blobs


def key_order(sized):
    kind, *numbers = sized[0].split(" ")
    return ["list", "piece", "top", "down"].index(kind), [int(n) for n in numbers]
