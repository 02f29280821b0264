#!/usr/bin/env python3
"""Writes `versions.csv` and `dependencies.csv` from what a Debian machine knows of its packages.

The facts: the sections, priorities and relations of the installed packages as `dpkg-query` gives them,
and the versions of a package with their dates from the changelog that it installs in
/usr/share/doc/PACKAGE (the changelog of its source). Taken are the packages of priority required,
important and standard and what they depend on, and of each the last version before 2018 and all later
ones.
"""
import csv
import gzip
import os
import re
import subprocess
from email.utils import parsedate_to_datetime

FIELDS = ["Package", "Priority", "Section", "Pre-Depends", "Depends", "Recommends"]
SINCE = 1514764800  # 2018-01-01, in seconds since 1970
ENTRY = re.compile(r"^\S+ \(([^)]+)\) ")
DATED = re.compile(r"^ -- .*>  (.*)$")


def installed():
    """The fields of each installed package, by its name."""
    form = "\\t".join("${%s}" % field for field in FIELDS) + "\\n"
    text = subprocess.run(["dpkg-query", "-W", "-f", form], capture_output=True, text=True, check=True).stdout
    rows = (dict(zip(FIELDS, line.split("\t"))) for line in text.splitlines())
    return {row["Package"]: row for row in rows}


def relations(text):
    """The first alternative of each relation, without its version."""
    return [re.split(r"[ (:|]", part.strip())[0] for part in text.split(",") if part.strip()]


def changelog(package):
    """(time, version) of each entry, the oldest first."""
    for name in ("changelog.Debian.gz", "changelog.gz"):
        path = f"/usr/share/doc/{package}/{name}"
        if os.path.exists(path):
            break
    else:
        return []
    found, version = [], None
    with gzip.open(path, "rt", encoding="utf-8", errors="replace") as file:
        for line in file:
            if entry := ENTRY.match(line):
                version = entry.group(1)
            elif (dated := DATED.match(line)) and version:
                try:
                    found.append((int(parsedate_to_datetime(dated.group(1).strip()).timestamp()), version))
                except (TypeError, ValueError):
                    pass
                version = None
    return sorted(found)


def main():
    packages = installed()
    wanted = {name for name, row in packages.items() if row["Priority"] in ("required", "important", "standard")}
    rest = list(wanted)
    while rest:
        row = packages[rest.pop()]
        for on in relations(row["Pre-Depends"]) + relations(row["Depends"]):
            if on in packages and on not in wanted:
                wanted.add(on)
                rest.append(on)

    taken = {}
    for name in sorted(wanted):
        log = changelog(name)
        before = [entry for entry in log if entry[0] < SINCE]
        versions = before[-1:] + [entry for entry in log if entry[0] >= SINCE]
        if versions:
            taken[name] = versions
    with open("versions.csv", "w", newline="") as file:
        out = csv.writer(file, lineterminator="\n")
        out.writerow(["package", "section", "version", "time"])
        for name, versions in taken.items():
            for time, version in versions:
                out.writerow([name, packages[name]["Section"], version, time])
    with open("dependencies.csv", "w", newline="") as file:
        out = csv.writer(file, lineterminator="\n")
        out.writerow(["package", "kind", "on"])
        for name in taken:
            seen = set()
            for kind in ("Pre-Depends", "Depends", "Recommends"):
                for on in relations(packages[name][kind]):
                    if on in taken and on not in seen:
                        seen.add(on)
                        out.writerow([name, kind.lower(), on])


if __name__ == "__main__":
    main()
