"""Reads files of edges and tables of nodes: each line, object or element becomes a record of texts by their names.

A record is a dictionary; a text of nothing, or none, is no text. `Source.records` gives each with its place.
"""
from __future__ import annotations

import csv
import gzip
import io
import json
import os
import re
import shutil
import stat
import sys
import xml.etree.ElementTree as xml
import zlib
from contextlib import contextmanager
from dataclasses import dataclass
from itertools import chain
from typing import IO, Callable, Iterator, NamedTuple, Optional, Sequence, cast

import command_line

Record = dict[str, Optional[str]]
Numbered = Iterator[tuple[int, Record]]

SEPARATORS = {"comma": ",", "tab": "\t", "semicolon": ";", "space": " "}
SKIPPED = "_"
SIGNS = "#%"  # with which comments often begin
SPACES = re.compile(r"[ \t]+")
KEEP_BYTES = "bytes"  # the encoding with which bytes that are no UTF-8 are kept
IN_XML = ("graphml", "gexf")
DIRECTED, CLOSED = "\0directed", "\0closed"  # columns of records in XML, with names that no file can have


class Place(NamedTuple):
    """A line of a file, or an element of one in XML, numbered from 1."""

    file: str
    number: int
    unit: str = ""

    def __str__(self) -> str:
        return f"{self.file}:{self.unit}{self.number}"


class BadInput(command_line.WrongInput):
    """A file, a line of one or a column is not as it has to be."""

    def __init__(self, place: object, reason: object) -> None:
        super().__init__(f"{place}: {reason}")


class Form(NamedTuple):
    """How files of a known origin are: their comments, their columns by the number of them, how long contacts last."""

    comments: str
    columns: dict[int, list[str]]
    contact: Optional[int] = None


TIMED = ["source", "target", "time"]
WEIGHTED = ["source", "target", "weight", "time"]
CONTACT = ["time", "source", "target"]
FORMS = {
    "table": Form("", {3: TIMED}),
    "snap": Form("#", {2: TIMED[:2], 3: TIMED, 4: WEIGHTED}),
    "konect": Form("%", {2: TIMED[:2], 3: WEIGHTED[:3], 4: WEIGHTED}),
    "network-repository": Form("%#", {2: TIMED[:2], 3: TIMED, 4: WEIGHTED}),
    "sociopatterns": Form("", {3: CONTACT, 5: [*CONTACT, "source.class", "target.class"]}, 20),
    "jsonl": Form("", {}),
    "graphml": Form("", {}),
    "gexf": Form("", {}),
}
ENDINGS = {".jsonl": "jsonl", ".ndjson": "jsonl", ".graphml": "graphml", ".gexf": "gexf"}


def form_of(file: str, given: Optional[str]) -> str:
    """The form that is given, or else the one that the ending of a file's name tells."""
    plain = file[: -len(".gz")] if file.endswith(".gz") else file
    return ENDINGS.get(os.path.splitext(plain)[1], "table") if given is None else given


# Files.


class Files:
    """The files that are read, each as often as is wanted: one that can be read only once is copied into a folder."""

    def __init__(self, folder: str) -> None:
        self.folder = folder
        self.copies: dict[str, str] = {}

    def open(self, file: str) -> IO[bytes]:
        """The bytes of a file, unpacked where its name ends in .gz. What the system says against it is a BadInput."""
        try:
            path = self.path_of(file)
            return cast(IO[bytes], gzip.open(path)) if file.endswith(".gz") else open(path, "rb")
        except OSError as error:
            raise BadInput(file, error.strerror or error) from error

    def path_of(self, file: str) -> str:
        if file != "-" and stat.S_ISREG(os.stat(file).st_mode):
            return file
        if file not in self.copies:
            copy = os.path.join(self.folder, f"input{len(self.copies)}")
            with self.single(file) as given, open(copy, "wb") as out:
                shutil.copyfileobj(given, out)
            self.copies[file] = copy
        return self.copies[file]

    def single(self, file: str) -> IO[bytes]:
        if file != "-":
            return open(file, "rb")
        if sys.stdin is None:
            raise BadInput("-", "standard input is closed")
        return sys.stdin.buffer


def decoded(file: str, stream: IO[bytes], encoding: str) -> Iterator[tuple[int, str]]:
    """The lines of a file with their numbers, each without its line feed and a carriage return before it."""
    errors = "surrogateescape" if encoding == KEEP_BYTES else "strict"
    codec = "utf-8" if encoding == KEEP_BYTES else encoding
    narrow = "\n".encode(codec) == b"\n"
    number = 0
    try:
        if narrow:
            first = stream.readline().decode(codec, errors).rstrip("\r\n").lstrip("\ufeff")
            yield 1, first
            for number, line in enumerate(stream, 2):
                yield number, line.decode(codec, errors).rstrip("\r\n")
        else:
            for number, text in enumerate(io.TextIOWrapper(stream, codec, newline="\n"), 1):
                yield number, text.rstrip("\r\n").lstrip("\ufeff")
    except UnicodeDecodeError as error:
        wide = error.object[:2] in (b"\xff\xfe", b"\xfe\xff")
        advice = "--encoding utf-16" if wide else "--encoding latin-1, or another, reads it, and bytes keeps its bytes"
        place = Place(file, number or 1) if narrow else file
        raise BadInput(place, f"a byte that is not in {codec} ({advice})") from error
    except (EOFError, zlib.error, UnicodeError) as error:
        raise BadInput(file, error) from error
    except OSError as error:
        raise BadInput(file, error.strerror or error) from error


# Records.


@dataclass
class Source:
    """How files are read, and how many of their lines were comments."""

    files: Files
    encoding: str = "utf-8"
    comments: str = ""  # the signs with which a comment begins
    separator: Optional[str] = None
    quotes: bool = True
    join_lines: bool = False
    label: str = "label"  # the name in a record of the label that GEXF has of a node
    skipped: int = 0
    signed: int = 0  # lines that begin with a sign of comments, and are none
    line: str = ""  # that was parted last

    def records(
        self,
        file: str,
        form: str,
        kind: str,
        names: Optional[Sequence[str]],
        header: bool,
        check: Callable[[Sequence[str]], None],
    ) -> Numbered:
        """The records of a file with their numbers; `kind` is `edge` or `node`.

        `names` are those of the columns of a table. Without them its first line names them where it is a header, and
        else the form does, by how many there are. `check` raises a ValueError for what is wrong with them.
        """
        if form == "jsonl":
            return self.objects(file)
        if form in IN_XML:
            reader = GraphmlReader(kind) if form == "graphml" else GexfReader(kind, self.label)
            return elements(file, self.files, reader)
        return self.table(file, form, names, header, check)

    def unit(self, form: str, kind: str) -> str:
        """What is numbered in a file, where it is not its lines."""
        return f"{kind} " if form in IN_XML else ""

    def lines(self, file: str) -> Iterator[tuple[int, str]]:
        with self.files.open(file) as stream:
            yield from decoded(file, stream, self.encoding)

    def is_comment(self, text: str) -> bool:
        if not self.comments or not text.lstrip().startswith(tuple(self.comments)):
            return False
        self.skipped += 1
        return True

    def table(
        self,
        file: str,
        form: str,
        names: Optional[Sequence[str]],
        header: bool,
        check: Callable[[Sequence[str]], None],
    ) -> Numbered:
        lines = self.lines(file)
        first = next(((n, text) for n, text in lines if text.strip() and not self.is_comment(text)), None)
        if first is None:
            return
        separator = SEPARATORS[self.separator] if self.separator else "," if "," in first[1] else " "
        rows = self.rows(file, chain([first], lines), separator)
        named = list(names) if names is not None else []
        if header:
            number, fields = next(rows)
            named = named or fields
        try:
            check(named or TIMED)
        except ValueError as error:
            raise BadInput(Place(file, number) if header and names is None else "--columns", error) from error
        for number, fields in rows:
            if len(fields) != len(named):
                named = named or FORMS[form].columns.get(len(fields), FORMS[form].columns[3])
                if len(fields) != len(named):
                    reason = f"{len(fields)} fields, and {len(named)} columns ({','.join(named)})"
                    raise BadInput(Place(file, number), reason + self.advice(separator))
            yield number, dict(zip(named, fields))

    def advice(self, separator: str) -> str:
        """What may be meant by a line with another number of fields."""
        if self.line[0] in SIGNS:
            return f"; a comment? (--comments '{self.line[0]}')"
        others = [name for name in ("tab", "semicolon") if SEPARATORS[name] != separator]
        return next(
            (f"; parted otherwise? (--separator {name})" for name in others if SEPARATORS[name] in self.line), ""
        )

    def rows(self, file: str, lines: Iterator[tuple[int, str]], separator: str) -> Iterator[tuple[int, list[str]]]:
        for number, text in lines:
            if not text or text.isspace() or (self.comments and self.is_comment(text)):
                continue
            self.line = text
            self.signed += text[0] in SIGNS
            if separator == " ":
                yield number, text.split() if text.isascii() else SPACES.split(text.strip(" \t"))
            elif '"' in text and self.quotes:
                yield number, self.quoted(Place(file, number), text, lines, separator)
            elif " " in text:
                yield number, [part.strip(" ") for part in text.split(separator)]
            else:
                yield number, text.split(separator)

    def quoted(self, place: Place, text: str, lines: Iterator[tuple[int, str]], separator: str) -> list[str]:
        """The fields of a line with quotes, which goes on over the next ones where a quoted field does."""
        following = chain([text], (after for _, after in lines))
        reader = csv.reader(
            (line + "\n" for line in following), delimiter=separator, strict=True, skipinitialspace=True
        )
        try:
            fields = next(reader)
        except csv.Error as error:
            raise BadInput(place, f"a quoted field is wrong: {error} (--no-quotes takes quotes as letters)") from error
        return [field.replace("\n", " ") for field in fields] if self.join_lines else fields

    def objects(self, file: str) -> Numbered:
        """The objects of a file with one in each line."""
        for number, text in self.lines(file):
            if not text.strip() or self.is_comment(text):
                continue
            try:
                found = json.loads(text, parse_int=str, parse_float=str)
                if not isinstance(found, dict):
                    raise ValueError("no object")
                yield number, {name: text_of(name, value) for name, value in found.items()}
            except (ValueError, RecursionError) as error:
                raise BadInput(Place(file, number), f"no object of JSON: {error}") from error


def text_of(name: str, value: object) -> Optional[str]:
    if isinstance(value, bool):
        return "true" if value else "false"
    if value is None or isinstance(value, str):
        return value
    raise ValueError(f"the value of {name} is no text, number, true, false or null")


# GraphML and GEXF. A record of an edge has source, target, time, end, DIRECTED and CLOSED (it is there at its end
# too) beside its values; one of a node id, time and end.

OPEN_ENDED = ("-Infinity", "Infinity", "-inf", "inf", "")
INTERVAL = re.compile(r"[\[(]([^,;\[\]()<>]*),([^,;\[\]()<>]*)[\])]")


@contextmanager
def faults_of(file: str) -> Iterator[None]:
    """What is wrong with a file in XML is a BadInput."""
    try:
        yield
    except xml.ParseError as error:
        raise BadInput(file, f"no XML: {error}") from error
    except OSError as error:
        raise BadInput(file, error.strerror or error) from error
    except (ValueError, LookupError, EOFError, zlib.error) as error:
        raise BadInput(file, error) from error


def elements(file: str, files: Files, reader: XmlReader) -> Numbered:
    """The nodes or the edges of a file in XML, numbered from 1."""
    with faults_of(file), files.open(file) as stream:
        yield from enumerate(reader.read(stream), 1)


def local(tag: str) -> str:
    """The name of an element without that of its space."""
    return tag.rpartition("}")[2]


class XmlReader:
    """What both forms share: elements are taken as they end, and forgotten."""

    def __init__(self, kind: str) -> None:
        self.kind = kind
        self.directed = True

    def read(self, stream: IO[bytes]) -> Iterator[Record]:
        parents: list[xml.Element] = []
        for event, element in xml.iterparse(stream, ("start", "end")):
            if event == "start":
                parents.append(element)
                self.begin(local(element.tag), element)
                continue
            parents.pop()
            name = local(element.tag)
            if name == self.kind:
                yield from self.records_of(element)
            self.end(name, element)
            if name in ("node", "edge"):
                parents[-1].remove(element)

    def begin(self, name: str, element: xml.Element) -> None:
        """An element is there, with its attributes alone."""

    def end(self, name: str, element: xml.Element) -> None:
        """An element is there with all that is in it."""

    def records_of(self, element: xml.Element) -> Iterator[Record]:
        raise NotImplementedError

    def own(self, element: xml.Element, directed: bool) -> Record:
        """What an element is."""
        if self.kind == "node":
            return {"id": element.get("id")}
        return {"source": element.get("source"), "target": element.get("target"), DIRECTED: "yes" if directed else ""}


class GraphmlReader(XmlReader):
    """GraphML, whose values are by keys. A key `timeset` has intervals, as Gephi writes them."""

    def __init__(self, kind: str) -> None:
        super().__init__(kind)
        self.names: dict[str, str] = {}
        self.defaults: dict[tuple[str, str], str] = {}

    def begin(self, name: str, element: xml.Element) -> None:
        if name == "graph":
            self.directed = element.get("edgedefault") != "undirected"

    def end(self, name: str, element: xml.Element) -> None:
        if name != "key":
            return
        identity = element.get("id", "")
        self.names[identity] = element.get("attr.name") or identity
        for child in element:
            if local(child.tag) == "default" and child.text:
                self.defaults[element.get("for", "all"), identity] = child.text

    def records_of(self, element: xml.Element) -> Iterator[Record]:
        told = element.get("directed")
        record = self.own(element, self.directed if told is None else told == "true")
        values = {key: text for (owner, key), text in self.defaults.items() if owner in (self.kind, "all")}
        for data in element:
            if local(data.tag) == "data":
                values[data.get("key", "")] = data.text or ""
        named = {self.names.get(key, key): text for key, text in values.items()}
        intervals = named.pop("timeset", "")
        if "start" in named and "time" not in named:
            named["time"] = named.pop("start")
        yield from spelled({**named, **record}, timeset_of(intervals))


class GexfReader(XmlReader):
    """GEXF, of versions 1.1 to 1.3, with the spells, intervals and moments of nodes and edges."""

    def __init__(self, kind: str, label: str) -> None:
        super().__init__(kind)
        self.label = label
        self.titles: dict[str, str] = {}
        self.owner = ""

    def begin(self, name: str, element: xml.Element) -> None:
        if name == "graph":
            self.directed = element.get("defaultedgetype") == "directed"
        elif name == "attributes":
            self.owner = element.get("class", "")
        elif name == "attribute" and self.owner == self.kind:
            self.titles[element.get("id", "")] = element.get("title", element.get("id", ""))

    def records_of(self, element: xml.Element) -> Iterator[Record]:
        told = element.get("type")
        record = self.own(element, self.directed if told is None else told in ("directed", "mutual"))
        name, text = (self.label, element.get("label")) if self.kind == "node" else ("weight", element.get("weight"))
        if text:
            record[name] = text
        later: list[Record] = []
        for value in (value for value in element.iter() if local(value.tag) == "attvalue"):
            identity = value.get("for", value.get("id", ""))
            title, start = self.titles.get(identity, identity), bound(value, "start") or value.get("timestamp")
            if start and self.kind == "node":
                later.append({"id": record["id"], "time": start, title: value.get("value")})
            else:
                record.setdefault(title, value.get("value"))
        yield from spelled(record, spells_of(element))
        if told == "mutual":
            back = {**record, "source": record["target"], "target": record["source"]}
            yield from spelled(back, spells_of(element))
        yield from later


def has_dates(file: str, files: Files) -> bool:
    """Whether a file of GEXF says that its times are dates."""
    with faults_of(file), files.open(file) as stream:
        for _, element in xml.iterparse(stream, ("start",)):
            if local(element.tag) == "graph":
                return element.get("timeformat") in ("date", "dateTime", "datetime")
    return False


Spell = tuple[Optional[str], Optional[str], bool]  # start, end, and whether it is there at its end


def bound(element: xml.Element, name: str) -> Optional[str]:
    """The start or end of an element, where it has one; `startopen` and `endopen` are their older names."""
    text = element.get(name, element.get(name + "open", ""))
    return None if text in OPEN_ENDED else text


def spells_of(element: xml.Element) -> list[Spell]:
    spells = [spell for child in element if local(child.tag) in ("spells", "slices") for spell in child]
    found = [spell for one in [element, *spells] for spell in spell_of(one)]
    return found + intervals_of(element.get("intervals", "")) + moments_of(element.get("timestamps", ""))


def spell_of(element: xml.Element) -> list[Spell]:
    moment = element.get("timestamp")
    if moment:
        return [(moment, moment, True)]
    start, end = bound(element, "start"), bound(element, "end")
    return [(start, end, False)] if start or end else []


def intervals_of(text: str) -> list[Spell]:
    """The intervals of a text as `<[1.0, 2.0]; [3.0, 4.0]>`."""
    bounds = [(start.strip(), end.strip()) for start, end in INTERVAL.findall(text)]
    return [(None if s in OPEN_ENDED else s, None if e in OPEN_ENDED else e, False) for s, e in bounds]


def moments_of(text: str) -> list[Spell]:
    """The moments of a text as `<[1.0, 2.0, 3.0]>`."""
    moments = [moment.strip() for moment in text.strip("<>[] ").split(",")]
    return [(moment, moment, True) for moment in moments if moment]


def timeset_of(text: str) -> list[Spell]:
    """Moments or intervals: two numbers in one pair of brackets are the ends of an interval."""
    return intervals_of(text) if text.count("[") > 1 or text.count(",") == 1 else moments_of(text)


def spelled(record: Record, spells: Sequence[Spell]) -> Iterator[Record]:
    """The record, once for each of its spells."""
    if not spells:
        yield record
    for start, end, closed in spells:
        yield {**record, "time": start, "end": end, CLOSED: "yes" if closed else ""}
