"""How a notebook shows a snapshot: its counts, and a picture of a small graph."""
from __future__ import annotations

import math
from html import escape
from itertools import islice
from typing import TYPE_CHECKING

if TYPE_CHECKING:
    from .snapshot import Snapshot

MOST_NODES, MOST_EDGES = 120, 600
SIZE, MARGIN, RADIUS = 320, 40, 120  # of the picture, in pixels
MOST_NAMES = 24
LONGEST_NAME = 14  # letters


def shown(snapshot: "Snapshot") -> str:
    """The HTML of a snapshot."""
    if snapshot.released or snapshot.store.ended:
        return f"<p>{escape(repr(snapshot))}, released</p>"
    counts = snapshot.counts()
    of = snapshot.held or "the elements of " + " ".join(snapshot.words)
    told = snapshot.store.told_calendar()
    if snapshot.time is not None:
        of = f"the graph as of {told.text(snapshot.time) if told else f'instant {snapshot.time}'}"
    elif snapshot.between is not None:
        first, last = (told.text(instant) if told else f"instant {instant}" for instant in snapshot.between)
        of = f"what was added from {first} on and before {last}"
    rows = [(name.replace("_", " "), value) for name, value in zip(counts._fields, counts) if value is not None]
    cells = "".join(f"<tr><th>{name}</th><td>{value:,}</td></tr>" for name, value in rows)
    picture = ""
    if 0 < counts.nodes <= MOST_NODES and counts.edges <= MOST_EDGES and snapshot.time is not None:
        picture = circle(snapshot)
    return f"<div><b>{escape(of)}</b><table>{cells}</table>{picture}</div>"


def circle(snapshot: "Snapshot") -> str:
    """An SVG of the nodes on a circle, and the edges between them."""
    nodes = list(snapshot.nodes())
    middle = SIZE / 2
    at = {}
    for place, node in enumerate(nodes):
        angle = 2 * math.pi * place / len(nodes) - math.pi / 2
        at[node] = middle + RADIUS * math.cos(angle), middle + RADIUS * math.sin(angle)
    lines = []
    for _, source, target, _ in islice(snapshot.edges(), MOST_EDGES):
        (x, y), (to_x, to_y) = at[source], at[target]
        lines.append(f'<line x1="{x:.1f}" y1="{y:.1f}" x2="{to_x:.1f}" y2="{to_y:.1f}" stroke="#888888"/>')
    dots = [f'<circle cx="{x:.1f}" cy="{y:.1f}" r="4" fill="#0072b2"/>' for x, y in at.values()]
    names = {value.node: value.value for value in snapshot.node_attributes() if value.key == "name"}
    texts = []
    for node in nodes if len(nodes) <= MOST_NAMES else ():
        x, y = at[node]
        anchor = "middle" if abs(x - middle) < MARGIN / 2 else "start" if x > middle else "end"
        beside = middle + (x - middle) * 1.08, middle + (y - middle) * 1.08 + 4
        text = names.get(node, str(node))
        text = text if len(text) <= LONGEST_NAME else text[: LONGEST_NAME - 1] + "\u2026"
        text = escape(text.encode("utf-8", "replace").decode())
        texts.append(f'<text x="{beside[0]:.1f}" y="{beside[1]:.1f}" text-anchor="{anchor}">{text}</text>')
    whole = "".join(lines + dots + texts)
    return f'<svg width="{SIZE}" height="{SIZE}" font-size="10" font-family="sans-serif" overflow="visible">{whole}</svg>'
