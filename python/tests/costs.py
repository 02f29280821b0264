"""What the client costs: its own processor time for a million lines, beside plain loops over the same lines in a file.

  python3 python/tests/costs.py          the least of five runs each, in seconds

The program answers by rote, so that nothing of its own time is in the figures.
"""
from __future__ import annotations

import json
import sys
import tempfile
import time
from collections import deque
from pathlib import Path
from typing import Callable

sys.path.insert(0, str(Path(__file__).resolve().parents[1]))
import deltagraph
from deltagraph import AddEdge, AddNode, AnyChange, SetEdge, SetNode

MANY = 1_000_000  # lines
RUNS = 5


def least(*runs: Callable[[], object]) -> list[float]:
    """The least processor time of each, in turns."""
    found = [float("inf")] * len(runs)
    for _ in range(RUNS):
        for place, run in enumerate(runs):
            begin = time.process_time()
            run()
            found[place] = min(found[place], time.process_time() - begin)
    return found


def lines_of(file: Path) -> None:
    with file.open("rb") as lines:
        for _ in lines:
            pass


def edges_of(file: Path) -> None:
    with file.open("rb") as lines:
        for line in lines:
            _, edge, source, target, direction = line.split()
            (int(edge), int(source), int(target), direction == b"dir")


def values_of(file: Path) -> None:
    with file.open(encoding="utf-8", newline="\n") as lines:
        for line in lines:
            _, node, key, value = line.rstrip("\n").split(" ", 3)
            (int(node), key, value)


def nodes_of(file: Path) -> None:
    with file.open("rb") as lines:
        for line in lines:
            int(line[5:])


def changes() -> list[AnyChange]:
    found: list[AnyChange] = []
    for time_, node in enumerate(range(1, MANY // 4 + 1)):
        found += [AddNode(time_, node), SetNode(time_, node, "name", f"person {node}")]
        found += [AddEdge(time_, node, node, node // 2 + 1), SetEdge(time_, node, "w", "12")]
    return found


def main() -> None:
    rote = [sys.executable, str(Path(__file__).resolve().parent / "rote.py")]
    with tempfile.TemporaryDirectory() as folder:
        index, file = Path(folder) / "index", Path(folder) / "lines"
        index.touch()
        for name, kinds, plain in (
            ("nodes", [MANY, 0, 0], nodes_of),
            ("edges", [0, MANY, 0], edges_of),
            ("node_attributes", [0, 0, MANY], values_of),
        ):
            with deltagraph.open(index, [*rote, json.dumps({"list": ["list", *kinds]})]) as store:
                snapshot = store.at(1, "sn")
                with file.open("wb") as lines:
                    lines.writelines(line + b"\n" for line in snapshot.lines())
                bare, read, listed, elements = least(
                    lambda: lines_of(file),
                    lambda: plain(file),
                    lambda: deque(snapshot.lines(), 0),
                    lambda: deque(getattr(snapshot, name)(), 0),
                )
            print(
                f"{name}: lines of a file {bare:.2f}, lines() {listed:.2f}; read in a loop {read:.2f}, {name}() {elements:.2f}"
            )
        with deltagraph.open(index, [*rote, "{}"]) as store:
            made = changes()
            texts = [change.line() for change in made]  # type: ignore[union-attr]
            times = least(changes, lambda: store.load(texts, bar=False), lambda: store.load(made, bar=False))
        print("making changes {:.2f}, load of lines {:.2f}, load of changes {:.2f}".format(*times))


if __name__ == "__main__":
    main()
