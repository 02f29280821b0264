#!/usr/bin/env python3
"""Four other stores of a graph's history, with the commands of `deltagraph` that the benchmark uses.

  rivals.py log FOLDER         a log of changes that is replayed over dictionaries
  rivals.py copies:N FOLDER    the log in parts of N changes, with a copy of the graph behind each
  rivals.py sqlite FOLDER      SQLite, with the interval of each element's validity
  rivals.py postgres FOLDER    PostgreSQL, with the range of each element's validity and GiST indexes

They take `create`, `load`, `append`, `at`, `several`, `counts`, `neighbours`, `list` and `release` on standard input
and answer as docs/SCRIPT.md has it, `clean all` too, which has nothing to do: what is released is given back at once.
Further `ready`, which does nothing, `open` and `close` of the files, and `helper`, which names the process of a server
that works for the store, or 0. The server of PostgreSQL runs as long as this program: it is there before `ready` is
answered, and it has ended, with its socket gone, when this program ends.
They check no change and refuse nothing. As with `deltagraph`, a batch is in the files for good when it is answered.
"""
from __future__ import annotations

import ctypes
import gc
import glob
import marshal
import os
import pwd
import re
import shutil
import signal
import socket
import struct
import subprocess
import sys
import tempfile
from bisect import bisect_right
from itertools import groupby, islice
from time import monotonic, sleep
from typing import IO, Any, Callable, Iterable, Iterator, NamedTuple, Optional, Protocol, Sequence, cast

try:
    import sqlite3

    SQLITE = sqlite3.sqlite_version
except ImportError:
    SQLITE = ""  # the store that needs it is then not asked for

NODES, EDGES, NODE_VALUES, EDGE_VALUES = range(4)
COLUMNS = {
    NODES: ["id"],
    EDGES: ["id", "source", "target", "directed"],
    NODE_VALUES: ["id", "key", "value"],
    EDGE_VALUES: ["id", "key", "value"],
}
KEYS = {NODES: ["id"], EDGES: ["id"], NODE_VALUES: ["id", "key"], EDGE_VALUES: ["id", "key"]}
NAMES = {NODES: "node", EDGES: "edge", NODE_VALUES: "node_value", EDGE_VALUES: "edge_value"}
TABLES = {"s": [0, 1], "sn": [0, 1, 2], "se": [0, 1, 3], "sne": [0, 1, 2, 3]}
NEVER = 2**63 - 1  # when an element ends that is there now

# A change is (time, table, key, content), and the content is None where the element goes. Keys are ids, or with values
# an id and a text; contents are True, (source, target, directed), or a text.
Change = tuple[int, int, Any, Any]
Tables = list[dict[Any, Any]]


class Snapshot(Protocol):
    """A graph in memory."""

    def counts(self) -> list[int]:
        ...

    def neighbours(self, node: int) -> Iterator[str]:
        ...

    def lines(self) -> Iterator[str]:
        ...


class Store(Protocol):
    helper: int  # the process of a server that works for the store, or 0

    def create(self) -> None:
        ...

    def open(self) -> None:
        ...

    def close(self) -> None:
        ...

    def append(self, lines: Sequence[str]) -> None:
        ...

    def at(self, time: int, columns: str) -> Snapshot:
        ...

    def several(self, times: Sequence[int], columns: str) -> list[Snapshot]:
        ...


def change_of(line: str) -> Change:
    time, word, rest = line.split(" ", 2)
    if word == "+node":
        return int(time), NODES, int(rest), True
    if word == "-node":
        return int(time), NODES, int(rest), None
    if word == "-edge":
        return int(time), EDGES, int(rest), None
    number, rest = rest.split(" ", 1)
    if word == "+edge":
        source, target, direction = rest.split(" ")
        return int(time), EDGES, int(number), (int(source), int(target), direction == "dir")
    table = NODE_VALUES if word[0] == "n" else EDGE_VALUES
    if word[1:] == "del":
        return int(time), table, (int(number), rest), None
    key, value = rest.split(" ", 1)
    return int(time), table, (int(number), key), value


def element_lines(nodes: Iterable[int], edges: Iterable[Any], values: Sequence[Iterable[Any]]) -> Iterator[str]:
    """The lines of elements in their order; edges are (id, source, target, directed), values (id, key, value)."""
    for node in nodes:
        yield f"node {node}"
    for edge, source, target, directed in edges:
        yield f"edge {edge} {source} {target} {'dir' if directed else 'undir'}"
    for word, of_word in zip(("nattr", "eattr"), values):
        for owner, key, value in of_word:
            yield f"{word} {owner} {key} {value}"


def neighbour_lines(node: int, edges: Iterable[Any]) -> Iterator[str]:
    """The lines of the edges at a node, as (id, source, target, directed) in any order."""
    for edge, source, target, directed in sorted(edges):
        side = "both" if not directed else "out" if source == node else "in"
        yield f"{side} {edge} {target if source == node else source}"


def written(file: IO[bytes], data: bytes) -> None:
    """Writes, and returns when the data would outlive a crash."""
    file.write(data)
    file.flush()
    os.fsync(file.fileno())


# Dictionaries.


class Replayed:
    """A graph as a dictionary for each kind of element."""

    def __init__(self, tables: Tables) -> None:
        self.tables = tables

    def counts(self) -> list[int]:
        return [len(table) for table in self.tables]

    def neighbours(self, node: int) -> Iterator[str]:
        edges = self.tables[EDGES].items()
        return neighbour_lines(node, ((e, *ends) for e, ends in edges if ends[0] == node or ends[1] == node))

    def lines(self) -> Iterator[str]:
        nodes, edges, *values = self.tables
        return element_lines(
            sorted(nodes),
            ((edge, *edges[edge]) for edge in sorted(edges)),
            [[(*key, of_kind[key]) for key in sorted(of_kind)] for of_kind in values],
        )


def replay(tables: Tables, changes: Iterable[Change], columns: str = "sne") -> None:
    """Applies changes to tables, but for those of columns that are not asked."""
    if columns == "sne":
        for _, table, key, content in changes:
            if content is None:
                del tables[table][key]
            else:
                tables[table][key] = content
        return
    asked = TABLES[columns]
    for _, table, key, content in changes:
        if table not in asked:
            continue
        if content is None:
            del tables[table][key]
        else:
            tables[table][key] = content


class Log:
    """A text file of changes. It is read and parsed when it is opened, and replayed from its start for each graph."""

    helper = 0

    def __init__(self, folder: str) -> None:
        self.path = os.path.join(folder, "log")

    def create(self) -> None:
        os.makedirs(os.path.dirname(self.path))
        self.file = open(self.path, "wb")
        self.changes: list[Change] = []
        self.times: list[int] = []
        self.unparsed: list[str] = []

    def open(self) -> None:
        with open(self.path, "r", encoding="utf-8", newline="\n") as file:
            self.changes = [change_of(line) for line in file.read().split("\n")[:-1]]
        self.times = [change[0] for change in self.changes]
        self.unparsed = []
        self.file = open(self.path, "ab")

    def close(self) -> None:
        self.file.close()

    def append(self, lines: Sequence[str]) -> None:
        written(self.file, "".join(line + "\n" for line in lines).encode())
        self.unparsed += lines

    def parse(self) -> None:
        new = [change_of(line) for line in self.unparsed]
        self.changes += new
        self.times += [change[0] for change in new]
        self.unparsed = []

    def at(self, time: int, columns: str) -> Snapshot:
        self.parse()
        tables: Tables = [{}, {}, {}, {}]
        replay(tables, islice(self.changes, bisect_right(self.times, time)), columns)
        return Replayed(tables)

    def several(self, times: Sequence[int], columns: str) -> list[Snapshot]:
        """By one replay, which stops at each instant for a copy."""
        self.parse()
        found: dict[int, Snapshot] = {}
        tables: Tables = [{}, {}, {}, {}]
        done = 0
        for time in sorted(set(times)):
            upto = bisect_right(self.times, time)
            replay(tables, islice(self.changes, done, upto), columns)
            found[time], done = Replayed([table.copy() for table in tables]), upto
        return [found[time] for time in times]


class Copies:
    """The log in parts, each with a copy of the graph behind it. A graph is the copy before the part in which its
    instant lies, and the replay of that part.

    `data` has parts and copies in turns, as Python's `marshal` writes them, and `directory` a row for each part. The
    changes behind the last whole part stand as text in `tail` with the number of whole parts.
    """

    helper = 0
    ROW = struct.Struct(">QQQQ")  # the first instant of a part, and where it begins, ends, and the copy behind it ends

    def __init__(self, folder: str, every: int) -> None:
        self.folder, self.every = folder, every

    def path(self, name: str) -> str:
        return os.path.join(self.folder, name)

    def create(self) -> None:
        os.makedirs(self.folder)
        for name in ("data", "directory", "tail0"):
            open(self.path(name), "wb").close()
        self.open()

    def open(self) -> None:
        with open(self.path("directory"), "rb") as file:
            self.rows = list(self.ROW.iter_unpack(file.read()))
        self.data = open(self.path("data"), "r+b")
        with open(self.path(f"tail{len(self.rows)}"), encoding="utf-8", newline="\n") as text:
            self.tail = [change_of(line) for line in text.read().split("\n")[:-1]]
        self.tail_file = open(self.path(f"tail{len(self.rows)}"), "ab")
        self.now: Optional[Tables] = None  # the graph of now, once it is needed

    def close(self) -> None:
        self.data.close()
        self.tail_file.close()

    def append(self, lines: Sequence[str]) -> None:
        if self.now is None:
            self.now = self.copy_before(len(self.rows))
            replay(self.now, self.tail)
        rows = []
        self.data.seek(0, os.SEEK_END)
        for change in map(change_of, lines):
            replay(self.now, [change])
            self.tail.append(change)
            if len(self.tail) == self.every:
                rows.append(self.write_part(self.now))
                self.tail = []
        behind = lines
        if rows:
            written(self.data, b"")
            behind = lines[len(lines) - len(self.tail) :]
            self.next_tail(rows)
        written(self.tail_file, "".join(line + "\n" for line in behind).encode())

    def write_part(self, now: Tables) -> tuple[int, int, int, int]:
        """Writes the tail as a part and the graph behind it, and gives the row."""
        start = self.data.tell()
        self.data.write(marshal.dumps(self.tail))
        middle = self.data.tell()
        self.data.write(marshal.dumps(now))
        return self.tail[0][0], start, middle, self.data.tell()

    def next_tail(self, rows: Sequence[tuple[int, int, int, int]]) -> None:
        """Adds rows to the directory, and begins a new tail."""
        old = self.path(f"tail{len(self.rows)}")
        self.rows += rows
        self.tail_file.close()
        self.tail_file = open(self.path(f"tail{len(self.rows)}"), "wb")
        with open(self.path("directory"), "ab") as file:
            written(file, b"".join(self.ROW.pack(*row) for row in rows))
        os.remove(old)

    def copy_before(self, part: int) -> Tables:
        return [{}, {}, {}, {}] if part == 0 else cast(Tables, self.read(*self.rows[part - 1][2:4]))

    def part(self, part: int) -> list[Change]:
        return self.tail if part == len(self.rows) else cast("list[Change]", self.read(*self.rows[part][1:3]))

    def read(self, start: int, end: int) -> Any:
        self.data.seek(start)
        return marshal.loads(self.data.read(end - start))

    def at(self, time: int, columns: str) -> Snapshot:
        return self.several([time], columns)[0]

    def several(self, times: Sequence[int], columns: str) -> list[Snapshot]:
        """Each copy and each part is read once, also where several instants need it."""
        found: dict[int, Snapshot] = {}
        firsts = [row[0] for row in self.rows] + [change[0] for change in self.tail[:1]]
        for number, group in groupby(sorted(set(times)), key=lambda time: bisect_right(firsts, time) - 1):
            asked, part = self.copy_before(number), self.part(number)
            tables = [asked[i] if i in TABLES[columns] else {} for i in range(4)]
            of_part, of_group, done = [change[0] for change in part], list(group), 0
            for time in of_group:
                upto = bisect_right(of_part, time)
                replay(tables, islice(part, done, upto), columns)
                done = upto
                # The last one of a part needs no copy.
                found[time] = Replayed(tables if time == of_group[-1] else [table.copy() for table in tables])
        return [found[time] for time in times]


# Intervals of validity.


class Rows:
    """A graph as lists of rows; keys and values are numbers of names."""

    def __init__(self, rows: list[list[Any]], name: dict[int, str]) -> None:
        self.rows, self.name = rows, name

    def counts(self) -> list[int]:
        return [len(of_table) for of_table in self.rows]

    def neighbours(self, node: int) -> Iterator[str]:
        return neighbour_lines(node, (row for row in self.rows[EDGES] if row[1] == node or row[2] == node))

    def lines(self) -> Iterator[str]:
        nodes, edges, *values = self.rows
        return element_lines(
            sorted(node for (node,) in nodes),
            sorted(edges),
            [[(o, self.name[k], self.name[v]) for o, k, v in sorted(of_kind)] for of_kind in values],
        )


class Names(dict[int, str]):
    """Texts of names, read when they are first needed."""

    def __init__(self, read: Callable[[], Iterable[tuple[int, str]]]) -> None:
        super().__init__()
        self.read = read

    def __missing__(self, _: int) -> str:
        self.update(self.read())
        return self[_]


class Interval(NamedTuple):
    """When a row begins and ends, and what stands in its other columns."""

    since: int
    until: int
    columns: tuple[int, ...]


def key_of(table: int, key: Any, number: Callable[[str], int]) -> tuple[int, ...]:
    return (key,) if table in (NODES, EDGES) else (key[0], number(key[1]))


def content_of(table: int, content: Any, number: Callable[[str], int]) -> tuple[int, ...]:
    if table == NODES:
        return ()
    return tuple(content) if table == EDGES else (number(content),)


def intervals(
    table: int, changes: Iterable[Change], number: Callable[[str], int]
) -> tuple[list[Interval], dict[tuple[int, ...], int]]:
    """Of the changes of a table the rows that begin with them, and by their keys the ends of rows that stand there."""
    begun: dict[tuple[int, ...], tuple[int, tuple[int, ...]]] = {}
    rows: list[Interval] = []
    ends: dict[tuple[int, ...], int] = {}
    for time, _, key, content in changes:
        whole = key_of(table, key, number)
        old = begun.pop(whole, None)
        if old is not None:
            if old[0] < time:
                rows.append(Interval(old[0], time, whole + old[1]))
        elif content is None or table in (NODE_VALUES, EDGE_VALUES):
            ends.setdefault(whole, time)
        if content is not None:
            begun[whole] = (time, content_of(table, content, number))
    rows += [Interval(since, NEVER, whole + content) for whole, (since, content) in begun.items()]
    return rows, ends


# SQLite.


class Sqlite:
    """Each element is a row that is valid from `since` on and before `until`.

    Each table has two covering indexes, by `since` (as which it is kept itself) and by `until`, and one that finds the
    rows that are valid now. A graph is read by the first where its instant lies in the first half of the history, and
    else by the second.
    """

    helper = 0

    def __init__(self, folder: str) -> None:
        self.path = os.path.join(folder, "history.sqlite")

    def connect(self) -> None:
        self.base = sqlite3.connect(self.path, isolation_level=None)
        self.base.execute("PRAGMA journal_mode = WAL")
        self.base.execute("PRAGMA synchronous = FULL")
        self.base.execute("PRAGMA cache_size = -65536")  # 64 MiB
        self.numbers: dict[str, int] = {}  # of the names that were needed so far

    def create(self) -> None:
        os.makedirs(os.path.dirname(self.path))
        self.connect()
        self.base.execute("CREATE TABLE name (number INTEGER PRIMARY KEY, text TEXT UNIQUE)")
        self.base.execute("CREATE TABLE history (first INTEGER, last INTEGER)")
        for table, name in NAMES.items():
            columns = ", ".join(f"{column} INTEGER" for column in COLUMNS[table])
            key = ", ".join(["since", *KEYS[table]])
            self.base.execute(
                f"CREATE TABLE {name} (since INTEGER, until INTEGER, {columns}, PRIMARY KEY ({key})) WITHOUT ROWID"
            )
        self.first: Optional[int] = None

    def index(self) -> None:
        """After the first batch, since rows are faster put into a table without indexes."""
        for table, name in NAMES.items():
            columns, key = ", ".join(COLUMNS[table]), ", ".join(KEYS[table])
            self.base.execute(f"CREATE INDEX {name}_until ON {name} (until, since, {columns})")
            self.base.execute(f"CREATE INDEX {name}_now ON {name} ({key}) WHERE until = {NEVER}")

    def open(self) -> None:
        self.connect()
        self.first, self.last = self.base.execute("SELECT first, last FROM history").fetchone()

    def close(self) -> None:
        self.base.close()

    def append(self, lines: Sequence[str]) -> None:
        changes = [change_of(line) for line in lines]
        self.base.execute("BEGIN")
        for table in NAMES:
            self.add(table, [change for change in changes if change[1] == table])
        self.last = changes[-1][0]
        if self.first is None:
            self.first = changes[0][0]
            self.base.execute("INSERT INTO history VALUES (?, ?)", (self.first, self.last))
            self.index()
        else:
            self.base.execute("UPDATE history SET last = ?", (self.last,))
        self.base.execute("COMMIT")

    def add(self, table: int, changes: Iterable[Change]) -> None:
        """Puts the changes of a table into it, both in the order of an index."""
        rows, ends = intervals(table, changes, self.number)
        name, key_is = NAMES[table], " AND ".join(f"{column} = ?" for column in KEYS[table])
        if self.first is not None:
            # Left alone, SQLite takes the index by `until`, and looks through all rows that are valid now.
            update = f"UPDATE {name} INDEXED BY {name}_now SET until = ? WHERE {key_is} AND until = {NEVER}"
            self.base.executemany(update, ((time, *key) for key, time in sorted(ends.items())))
        marks = ", ".join("?" * (2 + len(COLUMNS[table])))
        self.base.executemany(f"INSERT INTO {name} VALUES ({marks})", ((r[0], r[1], *r[2]) for r in sorted(rows)))

    def number(self, text: str) -> int:
        """The number of a name, which is new where it has none."""
        number = self.numbers.get(text)
        if number is None:
            row = self.base.execute("SELECT number FROM name WHERE text = ?", (text,)).fetchone()
            if row is None:
                cursor = self.base.execute("INSERT INTO name (text) VALUES (?)", (text,))
                row = (cursor.lastrowid,)
            number = self.numbers[text] = row[0]
        return number

    def names(self) -> Iterable[tuple[int, str]]:
        return self.base.execute("SELECT number, text FROM name")

    def at(self, time: int, columns: str) -> Snapshot:
        assert self.first is not None
        early = time < (self.first + self.last) // 2
        # A sign before a column keeps its index out of the plan.
        valid = "since <= ? AND +until > ?" if early else "+since <= ? AND until > ?"
        rows: list[list[Any]] = [[], [], [], []]
        for table in TABLES[columns]:
            asked = ", ".join(COLUMNS[table])
            cursor = self.base.execute(f"SELECT {asked} FROM {NAMES[table]} WHERE {valid}", (time, time))
            rows[table] = cursor.fetchall()
        return Rows(rows, Names(self.names))

    def several(self, times: Sequence[int], columns: str) -> list[Snapshot]:
        return [self.at(time, columns) for time in times]


# PostgreSQL.


class Failed(Exception):
    """PostgreSQL is not there, or it refused something."""


def postgres_program(name: str) -> str:
    """The path of one of PostgreSQL's programs, or nothing: on the PATH, or the newest one where Debian has them."""
    debian = glob.glob(f"/usr/lib/postgresql/*/bin/{name}")
    newest = max(debian, key=lambda path: [int(part) for part in re.findall("[0-9]+", path)], default="")
    found = shutil.which(name) or newest
    return os.path.realpath(found) if found else ""


def postgres_version() -> str:
    """As `postgres` tells it, or nothing where it is not there."""
    if not postgres_program("postgres") or not postgres_program("initdb"):
        return ""
    told = subprocess.run([postgres_program("postgres"), "--version"], capture_output=True, text=True).stdout
    found = re.search("[0-9][0-9.]*", told)
    return found[0] if found else ""


def postgres_lacks(folder: str) -> str:
    """What keeps PostgreSQL from a history in a folder, or nothing."""
    if not postgres_version():
        return "no `initdb` and `postgres` here"
    try:
        reached = subprocess.run(["test", "-x", folder], cwd="/", **as_user())
    except Failed as failed:
        return str(failed)
    return "" if reached.returncode == 0 else f"its server does not run as root, and its user does not get to {folder}"


def server_user() -> Optional[tuple[int, int]]:
    """The numbers of the user and the group that the server takes where this process is root, as which it refuses."""
    if os.geteuid() != 0:
        return None
    for name in ("postgres", "nobody"):
        try:
            entry = pwd.getpwnam(name)
            return entry.pw_uid, entry.pw_gid
        except KeyError:
            continue
    raise Failed("its server does not run as root, and there is no user `postgres`")


def as_user() -> dict[str, Any]:
    """The words that start a process as that user."""
    user = server_user()
    return {} if user is None else {"user": user[0], "group": user[1], "extra_groups": []}


def is_relation(path: str) -> bool:
    """Whether a file of a cluster, named from its folder on, is of a table or an index that is not the system's own."""
    first_number = 16384  # that the system gives to what it does not have from its beginning
    found = re.fullmatch("base/[0-9]+/([0-9]+)([._].*)?", path)
    return found is not None and int(found[1]) >= first_number


class Server:
    """A server of PostgreSQL over a folder, which is made where it is not there.

    It has no network, and its socket stands in a folder of its own. It ends with this process, whatever ends that.
    """

    SETTINGS = {
        "listen_addresses": "",
        "port": "5432",  # of which the name of the socket is made
        "fsync": "on",
        "synchronous_commit": "on",
        "shared_buffers": "256MB",
        "work_mem": "64MB",
        "maintenance_work_mem": "256MB",
        "jit": "off",
        "max_parallel_workers_per_gather": "0",
        "autovacuum": "off",  # `Postgres.append` tidies up, so that nothing comes between what is timed
    }
    PATIENCE = 300  # seconds, for its start and its end
    LONGEST_PATH = 70  # bytes, so that there is room for the socket's own name

    def __init__(self, folder: str) -> None:
        self.folder = folder
        self.process: Optional["subprocess.Popen[bytes]"] = None

    def __enter__(self) -> "Server":
        signal.signal(signal.SIGTERM, lambda *_: sys.exit(1))
        beside = os.path.dirname(self.folder)
        # The path of a socket is short: the system's temporary folder serves where the one of the history is not.
        self.sockets = tempfile.mkdtemp(prefix="socket", dir=beside if len(beside) < self.LONGEST_PATH else None)
        try:
            is_new = not os.path.exists(self.folder)
            if is_new:
                self.make()
            self.own(self.folder)
            self.own(self.sockets)
            self.start()
            if is_new:
                self.thin()
        except BaseException:
            self.__exit__()
            raise
        return self

    def __exit__(self, *_: object) -> None:
        if self.process is not None and self.process.poll() is None:
            self.process.send_signal(signal.SIGINT)  # which ends all connections, and writes what is not written
            try:
                self.process.wait(self.PATIENCE)
            except subprocess.TimeoutExpired:
                self.process.send_signal(signal.SIGQUIT)
                self.process.wait()
        shutil.rmtree(self.sockets, ignore_errors=True)

    def make(self) -> None:
        os.makedirs(self.folder, 0o700)
        self.own(self.folder)
        words = [postgres_program("initdb"), "--username=bench", "--auth=trust", "--locale=C", "--encoding=UTF8"]
        words += ["--no-sync", self.folder]
        ran = subprocess.run(words, cwd="/", capture_output=True, text=True, **as_user())
        if ran.returncode != 0:
            raise Failed(f"initdb: {ran.stderr.strip()}")
        os.sync()  # all files at once

    def thin(self) -> None:
        """Takes away the databases that nothing needs here, which are most of the files."""
        base = self.connect()
        for name in ("template0", "template1"):
            base.query(f"ALTER DATABASE {name} IS_TEMPLATE false")
            base.query(f"DROP DATABASE {name}")
        base.close()

    def own(self, folder: str) -> None:
        """Gives a folder with all in it to the user of the server."""
        user = server_user()
        if user is None or os.stat(folder).st_uid == user[0]:
            return
        for inside, _, files in os.walk(folder):
            for path in [inside, *(os.path.join(inside, file) for file in files)]:
                os.chown(path, *user)

    def start(self) -> None:
        words = [postgres_program("postgres"), "-D", self.folder, "-k", self.sockets]
        for name, value in self.SETTINGS.items():
            words += ["-c", f"{name}={value}"]
        log = os.path.join(self.sockets, "log")
        with open(log, "wb") as file:
            self.process = subprocess.Popen(
                words,
                stdin=subprocess.DEVNULL,
                stdout=file,
                stderr=file,
                cwd="/",
                start_new_session=True,  # so that an interruption from a terminal goes to this process alone
                preexec_fn=ends_with_parent(),
                **as_user(),
            )
        late = monotonic() + self.PATIENCE
        while True:
            try:
                return self.connect().close()
            except (OSError, Failed) as error:
                if self.process.poll() is not None or monotonic() > late:
                    with open(log, encoding="utf-8", errors="replace") as text:
                        raise Failed(f"the server did not start: {error}; {text.read()[-1000:]}") from error
            sleep(0.01)

    def connect(self) -> "Connection":
        return Connection(os.path.join(self.sockets, ".s.PGSQL.5432"))


def ends_with_parent() -> Optional[Callable[[], object]]:
    """What a new process does so that it gets a signal where its parent is killed: on Linux."""
    if sys.platform != "linux":
        return None
    system, set_signal_of_parents_death = ctypes.CDLL(None), 1
    return lambda: system.prctl(set_signal_of_parents_death, signal.SIGQUIT)


class Connection:
    """A client of the server, by PostgreSQL's own protocol (version 3), as far as it is needed here."""

    VERSION = 3 << 16
    PIECE = 1 << 18  # bytes
    STREAM_HEAD = 19  # bytes at the beginning of what COPY gives as binary

    def __init__(self, path: str) -> None:
        self.socket = socket.socket(socket.AF_UNIX)
        self.socket.connect(path)
        self.buffer = bytearray()
        self.process = 0  # that works for this client
        words = b"".join(word + b"\0" for word in (b"user", b"bench", b"database", b"postgres", b""))
        self.socket.sendall(struct.pack(">ii", 8 + len(words), self.VERSION) + words)
        for kind, body in self.replies():
            if kind == b"K":
                self.process = int.from_bytes(body[:4], "big")

    def close(self) -> None:
        self.send(b"X")
        self.socket.close()

    def send(self, kind: bytes, body: bytes = b"") -> None:
        self.socket.sendall(struct.pack(">ci", kind, 4 + len(body)) + body)

    def fill(self, size: int) -> None:
        while len(self.buffer) < size:
            piece = self.socket.recv(self.PIECE)
            if not piece:
                raise Failed("the server has closed the connection")
            self.buffer += piece

    def message(self) -> tuple[bytes, bytes]:
        self.fill(5)
        kind, size = struct.unpack_from(">ci", self.buffer)
        self.fill(1 + size)
        body = bytes(self.buffer[5 : 1 + size])
        del self.buffer[: 1 + size]
        if kind == b"E":
            raise Failed("; ".join(part[1:].decode() for part in body.split(b"\0") if part[:1] in (b"M", b"D")))
        return kind, body

    def replies(self) -> Iterator[tuple[bytes, bytes]]:
        """What is told until the server is ready for the next statement."""
        while True:
            kind, body = self.message()
            if kind == b"Z":
                return
            yield kind, body

    def query(self, statements: str) -> list[list[str]]:
        """The rows of statements, none of which is null."""
        self.send(b"Q", statements.encode() + b"\0")
        return [self.row(body) for kind, body in self.replies() if kind == b"D"]

    def row(self, body: bytes) -> list[str]:
        columns, place = [], 2
        for _ in range(int.from_bytes(body[:2], "big")):
            start = place + 4
            place = start + int.from_bytes(body[place:start], "big")
            columns.append(body[start:place].decode())
        return columns

    def copy_out(self, query: str, columns: int) -> list[tuple[int, ...]]:
        """The rows of a query whose columns are of type bigint, and none is null: so all messages have one length."""
        self.send(b"Q", f"COPY ({query}) TO STDOUT (FORMAT binary)".encode() + b"\0")
        numbers = struct.Struct(">7x" + "4xq" * columns)
        head = struct.pack(">cih", b"d", numbers.size - 1, columns)
        while self.message()[0] != b"H":
            pass
        # The first message has the head of the stream and the first row, if there is one.
        first = head[:-2] + self.message()[1][self.STREAM_HEAD :]
        rows = [numbers.unpack(first)] if first.startswith(head) else []
        self.fill(len(head))
        while self.buffer.startswith(head):
            self.fill(numbers.size)
            whole = len(self.buffer) // numbers.size
            while not self.buffer.startswith(head, (whole - 1) * numbers.size):
                whole -= 1  # the messages behind the rows are in the buffer already
            rows += numbers.iter_unpack(self.buffer[: whole * numbers.size])
            del self.buffer[: whole * numbers.size]
            self.fill(len(head))
        for _ in self.replies():
            pass
        return rows


def arrays(columns: Iterable[Iterable[Optional[int]]]) -> str:
    """Columns as arrays in a statement; a number that is not there is one without an end."""
    texts = (",".join("NULL" if n is None else str(int(n)) for n in numbers) for numbers in columns)
    return ", ".join(f"'{{{text}}}'::bigint[]" for text in texts)


class Postgres:
    """Each element is a row with the range of instants at which it is valid.

    Each table has a GiST index by that range, and one that finds the rows that are valid now.
    """

    TIDIED = 10_000  # changes of a batch after which the tables are tidied up at once

    def __init__(self, server: Server) -> None:
        self.server = server

    @property
    def helper(self) -> int:
        return self.base.process

    def connect(self) -> None:
        self.base = self.server.connect()
        self.numbers: dict[str, int] = {}  # of the names that were needed so far

    def create(self) -> None:
        self.connect()
        number = "bigint GENERATED ALWAYS AS IDENTITY PRIMARY KEY"
        tables = [f"CREATE TABLE name (number {number}, text text UNIQUE NOT NULL)"]
        for table, name in NAMES.items():
            columns = ", ".join(f"{column} bigint NOT NULL" for column in COLUMNS[table])
            tables.append(f"CREATE TABLE {name} (validity int8range NOT NULL, {columns})")
        self.base.query("; ".join(tables))
        self.is_new = True

    def index(self) -> str:
        """After the first batch, since rows are faster put into a table without indexes."""
        made = []
        for table, name in NAMES.items():
            columns, key = ", ".join(COLUMNS[table]), ", ".join(KEYS[table])
            made.append(f"CREATE INDEX {name}_validity ON {name} USING gist (validity)")
            made.append(f"CREATE INDEX {name}_now ON {name} ({key}) WHERE upper_inf(validity)")
        return "; ".join(made)

    def open(self) -> None:
        self.connect()
        self.is_new = False

    def close(self) -> None:
        self.base.close()

    def append(self, lines: Sequence[str]) -> None:
        """By two queries with all that is needed, since each is a way to the server and back."""
        changes = [change_of(line) for line in lines]
        self.base.query("BEGIN")
        self.learn(changes)
        statements = []
        for table in NAMES:
            rows, ends = intervals(table, (c for c in changes if c[1] == table), self.numbers.__getitem__)
            if ends and not self.is_new:
                statements.append(self.ending(table, ends))
            if rows:
                statements.append(self.beginning(table, sorted(rows)))
        if self.is_new:
            statements.append(self.index())
        self.base.query("; ".join([*statements, "COMMIT"]))
        if self.is_new or len(lines) >= self.TIDIED:
            self.base.query("VACUUM ANALYZE")
        self.is_new = False

    def learn(self, changes: Iterable[Change]) -> None:
        """Numbers all names of changes, also those that are new."""
        texts = {c[2][1] for c in changes if c[1] in (NODE_VALUES, EDGE_VALUES)}
        texts |= {c[3] for c in changes if c[1] in (NODE_VALUES, EDGE_VALUES) and c[3] is not None}
        needed = sorted(texts - self.numbers.keys())
        if needed:
            quoted = ",".join('"' + re.sub(r'(["\\])', r"\\\1", text) + '"' for text in needed).replace("'", "''")
            array = f"'{{{quoted}}}'::text[]"
            new = f"INSERT INTO name (text) SELECT * FROM unnest({array}) ON CONFLICT DO NOTHING"
            found = self.base.query(f"{new}; SELECT number, text FROM name WHERE text = ANY ({array})")
            self.numbers.update((text, int(number)) for number, text in found)

    def ending(self, table: int, ends: dict[tuple[int, ...], int]) -> str:
        """The statement that ends rows that are valid now."""
        name, key = NAMES[table], KEYS[table]
        given = arrays([ends.values(), *zip(*ends)])
        same = " AND ".join(f"{name}.{column} = ended.{column}" for column in key)
        return (
            f"UPDATE {name} SET validity = int8range(lower(validity), ended.at) "
            f"FROM unnest({given}) AS ended (at, {', '.join(key)}) WHERE {same} AND upper_inf(validity)"
        )

    def beginning(self, table: int, rows: Sequence[Interval]) -> str:
        """The statement that puts rows into a table."""
        columns = ", ".join(COLUMNS[table])
        untils = (None if row.until == NEVER else row.until for row in rows)
        given = arrays([(row.since for row in rows), untils, *zip(*(row.columns for row in rows))])
        return (
            f"INSERT INTO {NAMES[table]} SELECT int8range(since, until), {columns} "
            f"FROM unnest({given}) AS begun (since, until, {columns})"
        )

    def names(self) -> Iterable[tuple[int, str]]:
        return [(int(number), text) for number, text in self.base.query("SELECT number, text FROM name")]

    def at(self, time: int, columns: str) -> Snapshot:
        rows: list[list[Any]] = [[], [], [], []]
        for table in TABLES[columns]:
            query = f"SELECT {', '.join(COLUMNS[table])} FROM {NAMES[table]} WHERE validity @> {time}::bigint"
            rows[table] = self.base.copy_out(query, len(COLUMNS[table]))
        return Rows(rows, Names(self.names))

    def several(self, times: Sequence[int], columns: str) -> list[Snapshot]:
        return [self.at(time, columns) for time in times]


# Commands.


def store_of(kind: str, folder: str, server: Optional[Server]) -> Store:
    if kind == "log":
        return Log(folder)
    if kind == "sqlite":
        return Sqlite(folder)
    if kind == "postgres":
        assert server is not None
        return Postgres(server)
    return Copies(folder, int(kind.split(":")[1]))


class Run:
    """The commands of one run."""

    def __init__(self, new: Callable[[], Store]) -> None:
        self.new = new
        self.store: Optional[Store] = None
        self.graphs: dict[int, Snapshot] = {}
        self.handles = self.events = 0

    def begin(self) -> Store:
        """A store that knows nothing yet."""
        self.store = self.new()
        return self.store

    def close(self) -> None:
        """Gives up all that was opened."""
        assert self.store is not None
        self.store.close()
        self.graphs, self.store = {}, None

    def answer(self, words: Sequence[str], script: IO[bytes]) -> Iterator[str]:
        word = words[0]
        if word == "open":
            self.begin().open()
        elif word == "create":
            self.begin().create()
        elif word == "close":
            self.close()
        elif word == "release":
            del self.graphs[int(words[1])]
        elif word == "helper":
            yield f"ok helper {self.store.helper if self.store else 0}"
            return
        elif word not in ("ready", "clean"):
            assert self.store is not None
            yield from self.answer_of(self.store, words, script)
            return
        yield f"ok {' '.join(words)}"

    def answer_of(self, store: Store, words: Sequence[str], script: IO[bytes]) -> Iterator[str]:
        word = words[0]
        if word in ("load", "append"):
            lines = [line[:-1].decode() for line in islice(script, int(words[1]))]
            store.append(lines)
            self.events += len(lines)
            yield f"ok {word} {len(lines)} {self.events} {lines[-1].split(' ')[0]}"
        elif word == "at":
            yield f"ok at {self.hold(store.at(int(words[1]), words[2]))} 0"
        elif word == "several":
            times = [int(text) for text in words[2:]]
            yield "ok several 0 0"
            for time, graph in zip(times, store.several(times, words[1])):
                yield f"handle {self.hold(graph)} {time} 0"
        elif word == "counts":
            yield f"ok counts {words[1]} {' '.join(map(str, self.graphs[int(words[1])].counts()))}"
        elif word == "neighbours":
            found = list(self.graphs[int(words[1])].neighbours(int(words[2])))
            yield f"ok neighbours {words[1]} {words[2]} {len(found)}"
            yield from found
        else:
            listed = list(self.graphs[int(words[1])].lines())
            yield f"ok list {words[1]} {len(listed)}"
            yield from listed

    def hold(self, graph: Snapshot) -> int:
        self.handles += 1
        self.graphs[self.handles] = graph
        return self.handles


def answer_all(run: Run) -> None:
    script, replies = sys.stdin.buffer, sys.stdout.buffer
    for line in iter(script.readline, b""):
        reply = "\n".join(run.answer(line.decode().rstrip("\n").split(" "), script))
        replies.write(f"{reply}\nend\n".encode())
        replies.flush()


def main() -> None:
    gc.disable()  # nothing here is a cycle, and looking for some takes long
    kind, folder = sys.argv[1:]
    if kind == "postgres":
        with Server(os.path.abspath(folder)) as server:
            answer_all(Run(lambda: store_of(kind, folder, server)))
    else:
        answer_all(Run(lambda: store_of(kind, folder, None)))


if __name__ == "__main__":
    main()
