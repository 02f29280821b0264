"""What replies say, and how the lines of a listing are read."""
from __future__ import annotations

from itertools import repeat
from typing import Iterator, NamedTuple, Optional, Union

from .words import text_of

KINDS = (b"node", b"edge", b"nattr", b"eattr", b"msg")  # of elements, in the order in which they are listed


class Loaded(NamedTuple):
    """How many events a call added, in how many batches; how many the history has, and its last instant."""

    events: int
    batches: int
    total: int
    last: Optional[int]


class Generated(NamedTuple):
    """Of generated changes: how many, the last instant, and the nodes and edges of the graph then."""

    events: int
    last: int
    nodes: int
    edges: int


class Span(NamedTuple):
    """The first and the last instant of a history."""

    first: int
    last: int


class Counts(NamedTuple):
    """How many elements of each kind a graph has, values at nodes and at edges among them; and how many messages, where
    its columns have them."""

    nodes: int
    edges: int
    node_attributes: int
    edge_attributes: int
    messages: Optional[int] = None


class Node(NamedTuple):
    """A node of a graph: its id, its degree, to which a loop gives one, and its values by their keys."""

    id: int
    degree: int
    attributes: dict[str, str]


class Neighbour(NamedTuple):
    """An edge at a node: its side (`out`, `in` or `both`), its id, and the node at its other end."""

    side: str
    edge: int
    node: int


class Edge(NamedTuple):
    """An edge of a graph."""

    id: int
    source: int
    target: int
    directed: bool


class NodeAttribute(NamedTuple):
    """A value at a node."""

    node: int
    key: str
    value: str


class EdgeAttribute(NamedTuple):
    """A value at an edge."""

    edge: int
    key: str
    value: str


class Message(NamedTuple):
    """A message of the instant of a graph."""

    source: int
    target: int
    value: str


class Graph(NamedTuple):
    """A graph in dictionaries by ids: the values of each node by their keys, the edges, and the values of each edge; and
    the messages, where its columns have them."""

    nodes: dict[int, dict[str, str]]
    edges: dict[int, Edge]
    edge_values: dict[int, dict[str, str]]
    messages: list[Message]

    def name(self, node: int, key: str = "name") -> str:
        """The node's value for a key, or its id where it has none."""
        return self.nodes.get(node, {}).get(key, str(node))

    def gone(self) -> list[int]:
        """The ends of messages that are no nodes of the graph: they were removed at its instant, behind the message."""
        ends = {end for source, target, _ in self.messages for end in (source, target)}
        return sorted(ends - self.nodes.keys())


class Pool(NamedTuple):
    """How many handles live, and how many elements their graphs and the current one have together."""

    live: int
    elements: int


class Indexed(NamedTuple):
    """Of an index of a key: how many changes gave a node a value of it, and how many bytes of the file were read."""

    values: int
    bytes_read: int


class Step(NamedTuple):
    """A step of a plan: the number of its edge of the index, the node that it enters, and its weight in bytes."""

    edge: int
    node: str
    weight: int

    def line(self) -> str:
        return f"step {self.edge} {self.node} {self.weight}"


class Potential(NamedTuple):
    """The least weight, in bytes, of a walk to a node of the index."""

    node: str
    weight: int

    def line(self) -> str:
        return f"potential {self.node} {self.weight}"


class Plan(NamedTuple):
    """The cheapest way to an instant, with the potentials that show that none is cheaper; weights are in bytes."""

    weight: int
    steps: list[Step]
    potentials: list[Potential]

    def lines(self) -> list[str]:
        """The lines of the certificate."""
        return [*(step.line() for step in self.steps), *(potential.line() for potential in self.potentials)]


class Verdict(NamedTuple):
    """What is said of a certificate: whether it holds, and `valid` or what is wrong, as `line 3` or `step 2`."""

    valid: bool
    told: str


class Verification(NamedTuple):
    """Whether the file is what its events determine: with its number of records, or the first wrong record's key and
    column."""

    sound: bool
    records: Optional[int]
    key: Optional[str]
    column: Optional[str]


class Record(NamedTuple):
    """A record of the index, and the bytes of its columns."""

    key: str
    structure: int
    node_attributes: int
    edge_attributes: int
    messages: int


class Tree(NamedTuple):
    """The parameters of an index, how many events and leaves it has, and its records."""

    leaf_events: int
    arity: int
    function: str
    events: int
    leaves: int
    records: list[Record]


def step_or_potential(line: str) -> Union[Step, Potential]:
    """What a line of a plan says."""
    word, *rest = line.split(" ")
    if word == "step":
        return Step(int(rest[0]), " ".join(rest[1:-1]), int(rest[-1]))
    return Potential(" ".join(rest[:-1]), int(rest[-1]))


def record_of(line: str) -> Record:
    """The record of a line of `tree`."""
    _, *key, structure, nodes, edges, messages = line.split(" ")
    return Record(" ".join(key), int(structure), int(nodes), int(edges), int(messages))


# A listing comes in pieces of whole lines, of the five kinds one after another. A piece is read at once, and its tuples
# are made without the call of their class, which would cost as much again.


def sections(pieces: Iterator[bytes]) -> Iterator[tuple[bytes, bytes]]:
    """The pieces of a listing, cut where the kind of the elements changes, each with its kind."""
    for piece in pieces:
        while piece:
            kind = piece[: piece.index(b" ")]
            begins = (piece.find(b"\n" + other + b" ") for other in KINDS[KINDS.index(kind) + 1 :])
            end = min((begin + 1 for begin in begins if begin >= 0), default=len(piece))
            yield kind, piece[:end]
            piece = piece[end:]


def nodes_in(section: bytes) -> Iterator[int]:
    return map(int, section.decode("ascii").split()[1::2])


def edges_in(section: bytes) -> Iterator[Edge]:
    return map(tuple.__new__, repeat(Edge), zip(*edge_columns(section)))


def edge_columns(section: bytes) -> tuple[Iterator[int], Iterator[int], Iterator[int], Iterator[bool]]:
    """The ids, the sources, the targets and the directions of edges."""
    words = section.decode("ascii").split()
    ids, sources, targets = (map(int, words[place::5]) for place in (1, 2, 3))
    return ids, sources, targets, map("dir".__eq__, words[4::5])


def node_attributes_in(section: bytes) -> Iterator[NodeAttribute]:
    lines = (line.split(" ", 3) for line in text_of(section[:-1]).split("\n"))
    return (tuple.__new__(NodeAttribute, (int(node), key, value)) for _, node, key, value in lines)


def messages_in(section: bytes) -> Iterator[Message]:
    lines = (line.split(" ", 3) for line in text_of(section[:-1]).split("\n"))
    return (tuple.__new__(Message, (int(source), int(target), value)) for _, source, target, value in lines)


def edge_attributes_in(section: bytes) -> Iterator[EdgeAttribute]:
    lines = (line.split(" ", 3) for line in text_of(section[:-1]).split("\n"))
    return (tuple.__new__(EdgeAttribute, (int(edge), key, value)) for _, edge, key, value in lines)
