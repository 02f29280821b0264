"""Graphs that the program holds by handles."""
from __future__ import annotations

import operator
from datetime import datetime
from itertools import chain
from typing import TYPE_CHECKING, Any, Callable, Iterator, NamedTuple, Optional, Sequence, TypeVar, Union

from . import replies
from .replies import Counts, Edge, EdgeAttribute, Graph, Message, Neighbour, Node, NodeAttribute

if TYPE_CHECKING:
    from .arrays import Arrays
    from .store import Store

NAME = "name"  # the key whose value is the name of a node

Element = TypeVar("Element")


class EdgeTable(NamedTuple):
    """Edges as four columns of one length: lists, or arrays of numpy (uint64, and bool for `directed`)."""

    ids: Any
    sources: Any
    targets: Any
    directed: Any


class Snapshot:
    """A graph that the program holds by a handle until it is released or forgotten, or the store is closed.

    `handle` is its number, `columns` what it has (`s`, with `n` or `e` the attributes of nodes or edges, and with `t` the
    messages of exactly its instant, or of all that time), `bytes_read` how much of the file led to it. `time` is its instant; of a node of the
    index, which `Store.materialise` holds, it is None, and `held` is that node. Of an expression, by `Store.expression`, it
    is None too, and `words` are those of the expression; and of what was added between two instants, by `Store.interval`,
    which are `between`. These may be no graphs, so `node` and `neighbours` are refused.

    Two snapshots with the same columns make an expression over their instants: `a & b` has what is in both, `a | b` what
    is in any, `a - b` what is in the first alone, and `a ^ b` what is in just one.

    As in networkx, `len` is the number of nodes, `in` asks for a node, and a loop goes over the nodes. Where a node is
    asked for, it is its id, or as a text its name: the value for the key `name`.

    Elements come as the program writes them. Other calls may be made while they come: what is left of a listing is then
    kept as bytes. A listing that is not read to its end is read and dropped.
    """

    def __init__(
        self,
        store: "Store",
        handle: int,
        columns: str,
        bytes_read: int,
        time: Optional[int],
        held: Optional[str] = None,
        words: Sequence[str] = (),
        between: Optional[tuple[int, int]] = None,
    ) -> None:
        self.store, self.handle, self.columns, self.bytes_read = store, handle, columns, bytes_read
        self.time, self.held, self.between = time, held, between
        self.words = list(words) if time is None else [str(time)]
        self.released = False
        self._ids: Optional[dict[str, list[int]]] = None  # of each name

    def __repr__(self) -> str:
        of = f"of={' '.join(self.words)!r}"
        for name, known in (("between", self.between), ("held", self.held), ("time", self.time)):
            of = of if known is None else f"{name}={known!r}"
        return f"<Snapshot handle={self.handle} {of} columns={self.columns!r}>"

    def _repr_html_(self) -> str:
        """How a notebook shows it: its date, its counts and, where it is small, a picture."""
        from .picture import shown

        return shown(self)

    def __del__(self) -> None:
        if not getattr(self, "released", True):
            self.store.forget(self.handle, self.held is not None)

    @property
    def date(self) -> Optional[datetime]:
        """The date of its instant, by the calendar of the store; None of a node of the index."""
        return None if self.time is None else self.store.calendar.date(self.time)

    def __len__(self) -> int:
        return self.counts().nodes

    def __bool__(self) -> bool:
        return True  # also without a node

    def __contains__(self, node: object) -> bool:
        if self.time is None:  # of which `node` is refused
            found = self._id_of(node) if isinstance(node, str) else node
            return any(found == other for other in self.nodes())
        return isinstance(node, (int, str)) and self.node(node) is not None

    def __iter__(self) -> Iterator[int]:
        return self.nodes()

    def __and__(self, other: "Snapshot") -> "Snapshot":
        return self._with(other, lambda a, b: ["and", *a, *b])

    def __or__(self, other: "Snapshot") -> "Snapshot":
        return self._with(other, lambda a, b: ["or", *a, *b])

    def __sub__(self, other: "Snapshot") -> "Snapshot":
        return self._with(other, lambda a, b: ["and", *a, "not", *b])

    def __xor__(self, other: "Snapshot") -> "Snapshot":
        return self._with(other, lambda a, b: ["or", "and", *a, "not", *b, "and", *b, "not", *a])

    def _with(self, other: "Snapshot", made: Callable[[list[str], list[str]], list[str]]) -> "Snapshot":
        """The elements of an expression over the instants of two snapshots."""
        if not isinstance(other, Snapshot):
            return NotImplemented
        if other.store is not self.store or not self.words or not other.words:
            raise ValueError("an expression is of graphs of one store, as of instants")
        if other.columns != self.columns:
            raise ValueError(f"an expression has one choice of columns, and these have {self.columns} and {other.columns}")
        return self.store.expression(made(self.words, other.words), self.columns, instants=True)

    def counts(self) -> Counts:
        """How many elements of each kind there are, without listing them."""
        return Counts(*map(int, self.store.ask(f"counts {self.handle}").head()[3:]))

    def node(self, node: Union[int, str]) -> Optional[Node]:
        """A node, by its id or its name, with its degree and its values, or None where the graph does not have it."""
        number = self._id_of(node)
        if number is None:
            return None
        reply = self.store.ask(f"node {self.handle} {number}")
        head = reply.head()
        if head[4] == "no":
            return None
        values = (line.split(" ", 2) for line in reply.lines())
        return Node(number, int(head[5]), {key: value for _, key, value in values})

    def neighbours(self, node: Union[int, str]) -> list[Neighbour]:
        """The edges at a node, by their ids; none where the graph does not have it."""
        number = self._id_of(node)
        if number is None:
            return []
        lines = (line.split(" ") for line in self.store.ask(f"neighbours {self.handle} {number}").lines())
        return [Neighbour(side, int(edge), int(other)) for side, edge, other in lines]

    def degree(self, node: Union[int, str, None] = None) -> Any:
        """The degree of a node, to which a loop gives one; without a node a dictionary of those of all nodes, by id.

        Raises KeyError for a node that is not there.
        """
        if node is not None and self.time is not None:
            found = self.node(node)
            if found is None:
                raise KeyError(node)
            return found.degree
        degrees = dict.fromkeys(self.nodes(), 0)
        for _, source, target, _ in self.edges():
            degrees[source] = degrees.get(source, 0) + 1
            if target != source:
                degrees[target] = degrees.get(target, 0) + 1
        if node is None:
            return degrees
        number = self._id_of(node)
        if number not in degrees:
            raise KeyError(node)
        return degrees[number]

    def find(self, key: str, value: str) -> list[int]:
        """The ids of the nodes with this value for a key, in order. Of a graph as of an instant it is `Store.find`."""
        if self.time is not None:
            return self.store.find(key, value, self.time)
        if key != NAME:
            return [of.node for of in self.node_attributes() if (of.key, of.value) == (key, value)]
        if self._ids is None:
            self._ids = {}
            for of in self.node_attributes():
                if of.key == NAME:
                    self._ids.setdefault(of.value, []).append(of.node)
        return self._ids.get(value, [])

    def _id_of(self, node: Union[int, str]) -> Optional[int]:
        """The id of a node, or None where no node has the name. A name of several nodes is a LookupError."""
        if not isinstance(node, str):
            return operator.index(node)
        found = self.find(NAME, node)
        if len(found) > 1:
            raise LookupError(f"{len(found)} nodes are named {node!r}: {', '.join(map(str, found[:5]))}")
        return found[0] if found else None

    def sections(self) -> Iterator[tuple[bytes, bytes]]:
        """The listing in pieces of whole lines of one kind each: the kind's word in the script, and the bytes."""
        return replies.sections(self._pieces())

    def lines(self) -> Iterator[bytes]:
        """The lines of the listing, in element order and without their line feeds."""
        return chain.from_iterable(piece[:-1].split(b"\n") for piece in self._pieces())

    def nodes(self) -> Iterator[int]:
        """The ids of the nodes, in order."""
        return chain.from_iterable(self._of_kind(b"node", replies.nodes_in))

    def edges(self) -> Iterator[Edge]:
        """The edges, by their ids."""
        return chain.from_iterable(self._of_kind(b"edge", replies.edges_in))

    def node_attributes(self) -> Iterator[NodeAttribute]:
        """The values at nodes, by the nodes' ids."""
        return chain.from_iterable(self._of_kind(b"nattr", replies.node_attributes_in))

    def edge_attributes(self) -> Iterator[EdgeAttribute]:
        """The values at edges, by the edges' ids."""
        return chain.from_iterable(self._of_kind(b"eattr", replies.edge_attributes_in))

    def messages(self) -> Iterator[Message]:
        """The messages of exactly its instant, or of all instants of an interval, by source, target and value; none where
        the columns have no `t`."""
        return chain.from_iterable(self._of_kind(b"msg", replies.messages_in))

    def elements(self) -> Iterator[Union[int, Edge, NodeAttribute, EdgeAttribute, Message]]:
        """All elements in element order, by one listing; a node is its id."""
        read: dict[bytes, Callable[[bytes], Iterator[Any]]] = {
            b"node": replies.nodes_in,
            b"edge": replies.edges_in,
            b"nattr": replies.node_attributes_in,
            b"eattr": replies.edge_attributes_in,
            b"msg": replies.messages_in,
        }
        return chain.from_iterable(read[kind](section) for kind, section in self.sections())

    def to_edges(self, arrays: bool = False) -> EdgeTable:
        """The edges as four columns: lists, or with `arrays` arrays of numpy. ImportError where it is not there."""
        if arrays:
            from .arrays import edges_of

            return EdgeTable(*edges_of(b"".join(section for kind, section in self.sections() if kind == b"edge")))
        table = EdgeTable([], [], [], [])
        for kind, section in self.sections():
            if kind == b"edge":
                for column, more in zip(table, replies.edge_columns(section)):
                    column.extend(more)
        return table

    def to_dicts(self) -> Graph:
        """All elements in dictionaries by ids, by one listing, which needs no other package; values are texts.

        What an expression or an interval has may be no graph: then the ends of an edge need not be among the nodes, a node
        that is not there is among them where it has a value, and an edge that is not there is among `edge_values` alone.
        Of several edges with one id, or several values for one key, it is the last one.
        """
        from .exports import dicts_of

        return dicts_of(self)

    def to_arrays(self) -> "Arrays":
        """Nodes, edges and values as arrays of numpy. Raises ImportError where it is not there.

        The values of a key are numbers where all of them are written as numbers are, and else texts.
        """
        from .arrays import arrays_of

        return arrays_of(self)

    def to_networkx(self, label: Optional[str] = None, numbers: bool = True) -> Any:
        """A graph of networkx with the attributes of the columns. Raises ImportError where networkx is not there.

        Nodes are their ids or, with a label as "name", their values for that key (and the id of a node without one). The
        values of a key are numbers where all are written as numbers are; with `numbers` false they are texts.

        It is a MultiGraph where no edge has a direction, else a MultiDiGraph; the key of an edge is its id. In a
        MultiDiGraph an edge without a direction is two arcs of this key, both of them with its attributes. What an
        expression or an interval has may be no graph: an end that is not among its nodes is a node without attributes, and the values of
        an edge that is not there are left out. Messages are
        arcs of a MultiDiGraph too, with the keys `msg 0`, `msg 1` and so on, and the value as their attribute `message`;
        an end that was removed at that very instant, behind the message, is then a node without attributes.
        """
        from .exports import networkx_of

        return networkx_of(self, label, numbers)

    def to_igraph(self, label: Optional[str] = None, numbers: bool = True) -> Any:
        """A graph of igraph with the attributes of the columns, and the ids of nodes and edges as their attribute `id`.

        It is directed where an edge is; then an edge without a direction is two. With a label, the attribute `name` of
        a node is its value for that key, and else that for the key `name` where there are any. Messages are left out.
        Raises ImportError where igraph or numpy is not there.
        """
        from .exports import igraph_of

        return igraph_of(self, label, numbers)

    def to_pandas(self, label: Optional[str] = None, numbers: bool = True) -> tuple[Any, Any]:
        """Two frames of pandas, of nodes and of edges, by their ids, with a column for each key; messages are left out.

        The frame of edges begins with `source`, `target` and `directed`; a key of one of these names stands there with
        `value_` before it. With a label as "name", source and target are the nodes' values for that key. The values of a
        key are numbers where all are written as numbers are; what has no value is missing. Raises ImportError where
        pandas is not there.
        """
        from .exports import pandas_of

        return pandas_of(self, label, numbers)

    def release(self) -> None:
        """Gives the handle up, and nothing where it was given up before. Its memory comes back by `Store.clean`.

        Raises `InUse` for a held node of the index on which a live handle rests.
        """
        if not self.released:
            self.store.ask(f"release {self.handle}")
            self.released = True

    def __enter__(self) -> "Snapshot":
        return self

    def __exit__(self, *_: object) -> None:
        # The end of the program, or of the session, gives up all handles.
        if not self.store.ended:
            self.release()

    def _pieces(self) -> Iterator[bytes]:
        yield from self.store.ask(f"list {self.handle}").pieces()

    def _of_kind(self, kind: bytes, read: Callable[[bytes], Iterator[Element]]) -> Iterator[Iterator[Element]]:
        """The elements of a kind, piece by piece."""
        last = replies.KINDS.index(kind)
        for found, section in self.sections():
            if found == kind:
                yield read(section)
            elif replies.KINDS.index(found) > last:
                return


class Snapshots(list[Snapshot]):
    """The graphs of one `Store.several`, in the order of their instants.

    `bytes_read` is how much of the file led to all of them, and `bytes_singly` how much would lead to each alone.
    """

    def __init__(self, snapshots: list[Snapshot], bytes_read: int, bytes_singly: int) -> None:
        super().__init__(snapshots)
        self.bytes_read, self.bytes_singly = bytes_read, bytes_singly

    def add(self, more: "Snapshots") -> None:
        """Takes the graphs of a further run."""
        self.extend(more)
        self.bytes_read += more.bytes_read
        self.bytes_singly += more.bytes_singly

    def release(self) -> None:
        """Gives all the handles up."""
        for snapshot in self:
            snapshot.release()

    def __enter__(self) -> "Snapshots":
        return self

    def __exit__(self, *_: object) -> None:
        for snapshot in self:
            snapshot.__exit__()
