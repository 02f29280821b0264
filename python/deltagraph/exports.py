"""Graphs in dictionaries, and for networkx, igraph and pandas."""
from __future__ import annotations

import importlib.util
import re
from typing import TYPE_CHECKING, Any, Optional

from . import replies
from .calendar import NOTE_KEY, noted
from .replies import Edge, EdgeAttribute, Graph, Message, NodeAttribute
from .snapshot import NAME
from .tables import uncollected

if TYPE_CHECKING:
    from .arrays import Arrays
    from .snapshot import Snapshot

WHOLE_NUMBER = re.compile(r"0|-?[1-9][0-9]{0,17}", re.ASCII)
REAL_NUMBER = re.compile(r"-?(?:0|[1-9][0-9]*)(?:\.[0-9]+)?(?:[eE][-+]?[0-9]+)?", re.ASCII)
OF_EDGES = ("source", "target", "directed")

AllValues = dict[int, dict[str, Any]]


def with_numbers(owners: AllValues) -> None:
    """Makes numbers of the values of each key that has nothing else."""
    kinds: dict[str, Any] = {}
    for values in owners.values():
        for key, value in values.items():
            kind = kinds.get(key, int)
            if kind is int and not WHOLE_NUMBER.fullmatch(value):
                kind = float
            if kind is float and not REAL_NUMBER.fullmatch(value):
                kind = str
            kinds[key] = kind
    numeric = {key: kind for key, kind in kinds.items() if kind is not str}
    if numeric:
        for values in owners.values():
            for key in numeric.keys() & values.keys():
                values[key] = numeric[key](values[key])


def labels_of(nodes: AllValues, label: Optional[str]) -> dict[int, Any]:
    """What each node is called: its value for a key, or its id where it has none. Two of one name are a ValueError."""
    names = {node: values.get(label, node) for node, values in nodes.items()} if label is not None else {}
    if len(set(names.values())) < len(names):
        seen: set[Any] = set()
        twice = next(name for name in names.values() if name in seen or seen.add(name))  # type: ignore[func-returns-value]
        raise ValueError(f"several nodes have {twice!r} for {label!r}, so that it names none of them")
    return names


def dicts_of(snapshot: "Snapshot") -> Graph:
    """As `Snapshot.to_dicts`."""
    graph = Graph({}, {}, {}, [])
    with uncollected():  # it makes many dictionaries and no cycles
        for kind, section in snapshot.sections():
            if kind == b"node":
                graph.nodes.update((node, {}) for node in replies.nodes_in(section))
            elif kind == b"edge":
                for edge in replies.edges_in(section):
                    graph.edges[edge.id], graph.edge_values[edge.id] = edge, {}
            elif kind == b"nattr":
                for node, key, value in replies.node_attributes_in(section):
                    graph.nodes.setdefault(node, {})[key] = value
            elif kind == b"eattr":
                for number, key, value in replies.edge_attributes_in(section):
                    graph.edge_values.setdefault(number, {})[key] = value
            else:
                graph.messages.extend(replies.messages_in(section))
    return graph


def networkx_of(snapshot: "Snapshot", label: Optional[str], numbers: bool) -> Any:
    """As `Snapshot.to_networkx`."""
    with uncollected():  # it makes many dictionaries and no cycles
        return made_networkx(snapshot, label, numbers)


def made_networkx(snapshot: "Snapshot", label: Optional[str], numbers: bool) -> Any:
    if not snapshot.columns.endswith("t") and snapshot.time is not None and importlib.util.find_spec("numpy") is not None:
        from .arrays import arrays_of

        found = arrays_of(snapshot, numbers)
        labels = found.node_values.get(label) if label is not None else None
        if labels is None or labels.values.dtype == object:  # a name is a text, also where all are numbers
            return networkx_from(found, label)
    import networkx

    nodes: AllValues = {}
    edges: list[Edge] = []
    of_edges: AllValues = {}
    messages: list[Message] = []
    for element in snapshot.elements():
        if isinstance(element, int):
            nodes[element] = {}
        elif isinstance(element, Edge):
            edges.append(element)
            of_edges[element.id] = {}
            if snapshot.time is None:  # its ends need not be there
                nodes.setdefault(element.source, {})
                nodes.setdefault(element.target, {})
        elif isinstance(element, NodeAttribute):
            if element.key != NOTE_KEY or noted(element.value) is None:
                nodes.setdefault(element.node, {})[element.key] = element.value
        elif isinstance(element, EdgeAttribute):
            of_edges.setdefault(element.edge, {})[element.key] = element.value
        else:
            messages.append(element)
    names = labels_of(nodes, label)
    if numbers:
        with_numbers(nodes)
        with_numbers(of_edges)
    directed = bool(messages) or any(edge.directed for edge in edges)
    graph = networkx.MultiDiGraph() if directed else networkx.MultiGraph()
    graph.add_nodes_from((names.get(node, node), values) for node, values in nodes.items())
    arcs = [(names.get(edge.source, edge.source), names.get(edge.target, edge.target), edge) for edge in edges]
    # The attributes are a dictionary of their own, since a key may be called as a word of networkx.
    graph.add_edges_from((source, target, edge.id, of_edges[edge.id]) for source, target, edge in arcs)
    if directed:
        back = (arc for arc in arcs if not arc[2].directed)
        graph.add_edges_from((target, source, edge.id, of_edges[edge.id]) for source, target, edge in back)
    for number, (source, target, value) in enumerate(messages):
        graph.add_edge(names.get(source, source), names.get(target, target), f"msg {number}", message=value)
    return graph


def networkx_from(found: "Arrays", label: Optional[str]) -> Any:
    """The same graph as `made_networkx` makes from a listing, from arrays, which is faster."""
    import networkx

    nodes, edges = values_by_owner(found.nodes, found.node_values), values_by_owner(found.ids, found.edge_values)
    names = labels_of(nodes, label)
    directed = bool(found.directed.any())
    graph = networkx.MultiDiGraph() if directed else networkx.MultiGraph()
    graph.add_nodes_from((names.get(node, node), values) for node, values in nodes.items())
    ends = [found.sources.tolist(), found.targets.tolist()]
    if names:
        ends = [list(map(names.__getitem__, column)) for column in ends]
    arcs = list(zip(*ends, edges, edges.values()))
    graph.add_edges_from(arcs)
    if directed:
        back = (arc for arc, is_arc in zip(arcs, found.directed.tolist()) if not is_arc)
        graph.add_edges_from((target, source, number, values) for source, target, number, values in back)
    return graph


def values_by_owner(ids: Any, values: Any) -> AllValues:
    """The values of each of some nodes or edges, by their keys."""
    if len(values) == 1:
        ((key, (owners, column)),) = values.items()
        if len(owners) == len(ids):
            return {owner: {key: value} for owner, value in zip(ids.tolist(), column.tolist())}
    all_values: AllValues = {owner: {} for owner in ids.tolist()}
    for key, (owners, column) in values.items():
        for owner, value in zip(owners.tolist(), column.tolist()):
            all_values[owner][key] = value
    return all_values


def pandas_of(snapshot: "Snapshot", label: Optional[str], numbers: bool) -> tuple[Any, Any]:
    """As `Snapshot.to_pandas`."""
    import pandas

    from .arrays import arrays_of, spread_over

    found = arrays_of(snapshot, numbers)
    nodes = pandas.DataFrame(
        {key: spread_over(found.nodes, values) for key, values in found.node_values.items()},
        index=pandas.Index(found.nodes, name="id"),
    )
    columns = {"source": found.sources, "target": found.targets, "directed": found.directed}
    if label is not None:
        whole = with_ends(snapshot, found)
        columns.update(source=named(whole, label, found.sources), target=named(whole, label, found.targets))
    for key, values in found.edge_values.items():
        columns[f"value_{key}" if key in OF_EDGES else key] = spread_over(found.ids, values)
    return nodes, pandas.DataFrame(columns, index=pandas.Index(found.ids, name="id"))


def named(found: Any, label: str, ids: Any) -> Any:
    """The nodes' values for a key, or their ids where they have none, as an array for some ids of nodes."""
    import numpy

    names = found.nodes.astype(object)
    values = found.node_values.get(label)
    if values is not None:
        names[numpy.searchsorted(found.nodes, values.owners)] = values.values
    return names[numpy.searchsorted(found.nodes, ids)]


def with_ends(snapshot: "Snapshot", found: Any) -> Any:
    """The arrays with all nodes that something belongs to. Of an expression, ends of edges need not be among its nodes."""
    if snapshot.time is not None:
        return found
    import numpy

    owners = [values.owners for values in found.node_values.values()]
    return found._replace(nodes=numpy.unique(numpy.concatenate((found.nodes, found.sources, found.targets, *owners))))


def igraph_of(snapshot: "Snapshot", label: Optional[str], numbers: bool) -> Any:
    """As `Snapshot.to_igraph`."""
    import igraph
    import numpy

    from .arrays import arrays_of, spread_over

    found = with_ends(snapshot, arrays_of(snapshot, numbers))
    arcs = numpy.column_stack([numpy.searchsorted(found.nodes, ends) for ends in (found.sources, found.targets)])
    directed = bool(found.directed.any())
    back = ~found.directed & (found.sources != found.targets) if directed else numpy.zeros(len(arcs), bool)
    graph = igraph.Graph(n=len(found.nodes), edges=numpy.concatenate((arcs, arcs[back][:, ::-1])), directed=directed)
    graph.vs["id"] = found.nodes.tolist()
    graph.es["id"] = numpy.concatenate((found.ids, found.ids[back])).tolist()
    for key, values in found.node_values.items():
        graph.vs[key] = missing_as_none(spread_over(found.nodes, values))
    for key, values in found.edge_values.items():
        column = spread_over(found.ids, values)
        graph.es[key] = missing_as_none(numpy.concatenate((column, column[back])))
    if label is not None and label != NAME:
        graph.vs[NAME] = named(found, label, found.nodes).tolist()
    return graph


def missing_as_none(column: Any) -> list[Any]:
    return [None if value != value else value for value in column.tolist()]
