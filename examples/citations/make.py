#!/usr/bin/env python3
"""Writes `papers.csv` and `citations.csv`: a citation network that is made up, and grows as real ones do.

There are 400 papers from 1980 to 2019, more of them each year. A paper cites earlier ones, in proportion to one more
than how often they were cited by then, and twice as readily within its field; so few are cited very often and most
hardly ever.
"""
import csv
import random
from datetime import date, timedelta

PAPERS = 400
FIRST_DAY, DAYS = date(1980, 1, 1), 40 * 365
FIELDS = ["algebra", "geometry", "logic", "statistics"]


def main():
    rng = random.Random(1980)
    # The square root makes papers more frequent with time.
    days = sorted(int(DAYS * rng.random() ** 0.5) for _ in range(PAPERS))
    fields = [rng.choice(FIELDS) for _ in days]
    cited = [0] * PAPERS
    citations = []
    for paper in range(PAPERS):
        chosen = set()
        for _ in range(min(paper, rng.choice([0, 1, 2, 3, 4, 6]))):
            weights = [(1 + cited[p]) * (2 if fields[p] == fields[paper] else 1) for p in range(paper)]
            chosen.add(rng.choices(range(paper), weights)[0])
        for other in sorted(chosen):
            if days[other] < days[paper]:
                cited[other] += 1
                citations.append((paper, other))
    write("papers.csv", ["id", "time", "field"], [
        (f"p{paper + 1}", FIRST_DAY + timedelta(days[paper]), fields[paper]) for paper in range(PAPERS)
    ])
    write("citations.csv", ["source", "target"], [(f"p{a + 1}", f"p{b + 1}") for a, b in citations])


def write(name, columns, rows):
    with open(name, "w", newline="") as file:
        csv.writer(file, lineterminator="\n").writerows([columns, *rows])


if __name__ == "__main__":
    main()
