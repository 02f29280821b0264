"""The changes that the benchmark uses: (time, line) in the order of their times, each allowed by those before it."""
from __future__ import annotations

from itertools import islice
from random import Random
from typing import Iterator

Change = tuple[int, str]

FIRST_INSTANT = 1000
CITATION_CHANGES_AN_INSTANT = 5
FIELDS = ("algebra", "geometry", "logic", "numbers", "sets")


def workload(seed: int, count: int) -> list[Change]:
    """A network with much coming and going, two changes an instant.

    Of eight changes two add nodes and one an edge; the others set and take values and, every second time, the edge. The
    numbers come from x -> x * 6364136223846793005 + 1442695040888963407 modulo 2^64, beginning at the seed; of each,
    all but the last 33 bits are used.
    """
    changes = []
    x = seed
    for i in range(count):
        x = (x * 6364136223846793005 + 1442695040888963407) % 2**64
        time = FIRST_INSTANT + i // 2
        changes.append((time, f"{time} {workload_change(i, x >> 33)}"))
    return changes


def workload_change(i: int, r: int) -> str:
    """Change number i, with the random number r."""
    group, step = divmod(i, 8)
    a, b, edge = 2 * group + 1, 2 * group + 2, group + 1
    if step == 0:
        return f"+node {a}"
    if step == 1:
        return f"+node {b}"
    if step == 2:
        return f"+edge {edge} {a} {r % b + 1} {'undir' if r % 2 else 'dir'}"
    if step == 3:
        return f"nset {a} kind v{r % 5}"
    if step == 4:
        return f"nset {r % b + 1} kind v{r % 5}"
    if step == 5:
        return f"eset {edge} w {r % 100}"
    if step == 6:
        return f"edel {edge} w" if group % 2 else f"ndel {a} kind"
    return f"-edge {edge}" if group % 2 else f"nset {b} name n{group}"


def citations(seed: int, count: int) -> list[Change]:
    """A citation network, which only grows: each paper has a field and cites earlier ones, rich ones more often.

    A paper is cited with a chance in proportion to one more than how often it is cited already, so that few have very
    many citations. Five changes share an instant.
    """
    lines = islice(citation_changes(Random(seed)), count)
    timed = ((FIRST_INSTANT + i // CITATION_CHANGES_AN_INSTANT, line) for i, line in enumerate(lines))
    return [(time, f"{time} {line}") for time, line in timed]


def citation_changes(random: Random) -> Iterator[str]:
    drawn: list[int] = []  # each paper, once and once more for each time that it is cited
    paper = edge = 0
    while True:
        paper += 1
        yield f"+node {paper}"
        yield f"nset {paper} field {FIELDS[int(random.random() * len(FIELDS))]}"
        cited: set[int] = set()
        while drawn and random.random() < 0.8 and len(cited) < 30:
            cited.add(drawn[int(random.random() * len(drawn))])
        for other in sorted(cited):
            edge += 1
            yield f"+edge {edge} {paper} {other} dir"
            if edge % 4 == 0:
                yield f"eset {edge} place {('text', 'notes')[edge % 8 == 0]}"
        drawn += [paper, *sorted(cited)]
