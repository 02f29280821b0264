"""Random histories, in files of both forms, with upgrades between them: every run's replies and file are compared with those of
the machine of lib/machine.py, byte for byte. And files with one damaged column: which start is refused, which command names
the damage, and which one does not meet it.

  tests/run model -- FIRST LAST     histories with the seeds from FIRST to before LAST
"""

import os
import random
import subprocess
import sys

from tests.lib.changes import Changes
from tests.lib.history import COLUMNS, FUNCTIONS, LETTERS, MESSAGES, NODE_ATTR, NODES, History
from tests.lib.machine import INDEXES_MOST, LIVE_MOST, Machine
from tests.lib.plans import IndexGraph, older_children, point
from tests.lib.runs import RESTORE, Tests, content, put

ASKED = ["s", "sn", "se", "sne"]  # the columns of graphs that a command may ask for
SHARES = [0, 1, 64, 128, 200, 255, 256]  # of 256, of a skewed function
UNKNOWN = b"hello"  # a text that no batch brings, but for batches that are refused
HISTORIES = 300
# The runs of a history keep so many ranges of its file, one after another, and owe the same replies.
CACHES = (), ("--cache", "1"), ("--cache", "64"), ("--cache", "65536")


class Case:
    """One history, over several runs of the program, beside the machine."""

    def __init__(self, tests, program, index, seed, machine=None):
        self.tests, self.program, self.index, self.seed, self.runs = tests, program, index, seed, seed
        self.machine, self.script, self.due = machine or Machine(), [], ""

    @property
    def history(self):
        return self.machine.history

    def ask(self, command):
        """Adds a command, with the lines that follow it, to the script, and gives the reply that is due without its last line."""
        line, *more = command.split("\n")
        reply = self.machine.answer(line, more)
        self.script.append(command)
        self.due += reply
        return reply.split("\n")[:-2]

    def run(self, file, status=0, checked=False):
        """Runs the script so far over the index, which holds these bytes behind it."""
        script = "".join(command + "\n" for command in self.script)
        words = [self.index, *CACHES[self.runs % len(CACHES)], *(["--checked"] if checked else [])]
        self.runs += 1
        ran = subprocess.run([self.program, *words], input=script.encode(), capture_output=True)
        found = ran.returncode, ran.stdout == self.due.encode(), content(self.index) == file
        self.tests.same(f"seed {self.seed}, run {self.runs - self.seed}: status, replies, file", found, (status, True, True))
        self.machine, self.script, self.due = self.machine.opened(), [], ""

    def is_refused(self, file, checked=False):
        """A run over these bytes is refused at its start."""
        put(self.index, file)
        self.script = ["tree"]
        self.run(file, 7, checked)


def altered(rng, lines):
    """The lines of a certificate, most often with some of them changed."""
    lines = list(lines)
    for _ in range(rng.choice([0, 1, 1, 2])):
        at = rng.randrange(len(lines) + 1)
        change = rng.choice(["drop", "twice", "number", "number", "number", "swap", "junk"])
        if change == "junk":
            words = ["hello", "", "potential leaf 0 0", "step 0 root 0", "potential now -1", "step 1 now 9223372036854775807"]
            lines.insert(at, rng.choice(words))
        elif at < len(lines) and change == "drop":
            del lines[at]
        elif at < len(lines) and change == "twice":
            lines.insert(at, lines[at])
        elif at + 1 < len(lines) and change == "swap":
            lines[at], lines[at + 1] = lines[at + 1], lines[at]
        elif at < len(lines) and change == "number":
            words = lines[at].split(" ")
            places = [i for i, word in enumerate(words) if word.isdigit()]
            if places:
                i = rng.choice(places)
                words[i] = str(int(words[i]) + rng.choice([-1, 1]))
                lines[at] = " ".join(words)
    return lines


def ask_graphs(rng, history, case):
    """Retrieves graphs, one at a time or several at once."""
    for _ in range(rng.choice([0, 1, 1, 2])):
        columns = rng.choice(ASKED) + rng.choice(["", "t"])
        first, last = history.events[0][0], history.events[-1][0]
        times = [rng.randrange(first, last + 1) for _ in range(rng.choice([1, 1, 2, 3, 7]))]
        told = sorted({event[0] for event in history.events if event[1] == "msg"})
        if told and rng.random() < 0.5:
            times[rng.randrange(len(times))] = rng.choice(told)
        is_full = len(case.machine.handles) + len(times) > LIVE_MOST
        if not is_full and len(times) == 1 and rng.random() < 0.7:
            case.ask(f"at {times[0]} {columns}")
        else:
            case.ask(f"several {columns} {' '.join(map(str, times))}")
        if is_full:
            return


def any_expression(rng, times, depth=0):
    """An expression over some times, as a list of its words."""
    kind = rng.choice(["time", "time", "not", "and", "and", "or"]) if depth < 3 else "time"
    if kind == "time":
        return [rng.choice(times)]
    return [kind, *(word for _ in range(1 if kind == "not" else 2) for word in any_expression(rng, times, depth + 1))]


def ask_expressions(rng, history, case):
    """Asks what holds over several instants; some of them lie behind the history."""
    for _ in range(rng.choice([0, 0, 1, 2])):
        columns, (first, last) = rng.choice(ASKED), (history.events[0][0], history.events[-1][0])
        some = [rng.randrange(first, last + 1) for _ in range(rng.choice([1, 2, 2, 3, 5]))]
        if rng.random() < 0.05:
            some[0] = last + 1
        case.ask(f"expression {columns} {' '.join(map(str, any_expression(rng, some)))}")


def ask_intervals(rng, history, case):
    """Asks what was added between two instants; some lie outside of the history, and some in the other order."""
    for _ in range(rng.choice([0, 0, 1, 2])):
        columns, (first, last) = rng.choice(ASKED) + rng.choice(["", "t"]), (history.events[0][0], history.events[-1][0])
        begin, end = rng.randrange(max(first - 1, 0), last + 2), rng.randrange(max(first - 1, 0), last + 3)
        case.ask(f"interval {begin} {end} {columns}")


def ask_values(rng, history, changes, case):
    """Makes indexes of values, and asks them; some keys and values there are not, and some texts are no keys."""
    many = len(changes.keys) > INDEXES_MOST
    for _ in range(rng.choice([0, 1, 2, 4]) + 25 * many):
        if rng.random() < (0.6 if many else 0.4):
            keys = [*changes.keys, *changes.keys, *filter(is_key, changes.names), UNKNOWN]
            case.ask(f"index {rng.choice(keys).decode()}")
            continue
        time = rng.randrange(max(history.events[0][0] - 1, 0), history.events[-1][0] + 2)
        key, value = rng.choice([*changes.keys, UNKNOWN]), rng.choice([*changes.texts, UNKNOWN])
        indexed = list(case.machine.indexed)
        if indexed and rng.random() < 0.9:
            key = changes.names[rng.choice(indexed)]
        if rng.random() < 0.8:
            time, key, value = beside_a_value(rng, history, changes.names, indexed) or (time, key, value)
        case.ask(f"find {time} {key.decode()} {value.decode()}")


def beside_a_value(rng, history, names, keys):
    """An instant at which a value of one of these keys comes or goes, or one near it, with the texts of both."""
    events = [event for event in history.events if event[1] == NODE_ATTR and event[3] in keys]
    if not events:
        return None
    time, _, _, key, *values = rng.choice(events)
    value = rng.choice([value for value in values if value is not None])
    return max(time + rng.choice([-1, 0, 0, 0, 1]), 0), names[key], names[value]


def hold_nodes(rng, history, case):
    """Holds leaves and interior nodes, some of which the index does not have."""
    for _ in range(rng.choice([0, 0, 1, 2])):
        columns = rng.choice(ASKED)
        leaves = len(history.events) // history.size
        height = rng.choice([0, 0, 1, 1, 2, 40])
        index = rng.randrange(leaves // history.arity**height + 2)
        case.ask(f"materialise {f'inner {height} {index}' if height else f'leaf {index}'} {columns}")


def ask_handles(rng, case):
    """Asks for what handles of this run have, gives some up, and cleans."""
    for _ in range(rng.choice([0, 1, 2, 5])):
        handle, node = rng.randrange(1, case.machine.next + 1), rng.randrange(31)
        asked = [f"list {handle}", f"node {handle} {node}", f"neighbours {handle} {node}"] * 2
        asked += [f"counts {handle}", f"release {handle}", "pool", f"clean {rng.choice([1, 2, 7, 1000])}", "clean all"]
        case.ask(rng.choice(asked))


def ask_plans(rng, history, case):
    """Asks for plans, certificates and records."""
    if rng.random() < 0.4:
        case.ask("tree")
    for _ in range(rng.choice([0, 0, 1, 2])):
        time = rng.randrange(history.events[0][0], history.events[-1][0] + 1)
        columns = rng.choice(ASKED)
        _, *lines = case.ask(f"plan {time} {columns}")
        judged = case.ask("\n".join([f"certify {time} {columns} {len(lines)}", *lines]))
        case.tests.same(f"seed {case.seed}: a plan certifies itself", judged, ["ok certify valid"])
        lines = altered(rng, lines)
        case.ask("\n".join([f"certify {time} {columns} {len(lines)}", *lines]))


def ask_old_format(rng, history, changes, case):
    """Sends a message over a file of the first form, which has none."""
    if history.is_wide or not changes.nodes:
        return
    node, time = rng.choice(sorted(changes.nodes)), changes.time + 1
    free = next(n for n in range(31) if n not in changes.nodes)
    lines = [f"{time} msg {node} {node} "]
    if rng.randrange(2):
        lines = [f"{time} +node {free}", f"{time} msg {node} {free} {UNKNOWN.decode()}"]
    case.ask("\n".join([f"append {len(lines)}", *lines]))


def any_history(rng, size, arity):
    """An empty history of either form, with any function that it may have."""
    if rng.randrange(3) == 0:
        return History(size, arity, rng.choice(FUNCTIONS), is_wide=False)
    return History(size, arity, rng.choice([*FUNCTIONS, f"skewed {rng.choice(SHARES)}"]))


def check(tests, program, index, seed):
    put(index, None)
    rng = random.Random(seed)
    size, arity = rng.choice([2, 2, 3, 4, 5, 8]), rng.choice([2, 2, 3, 4])
    # More than 32 older children at once, which are read by more than one tree.
    has_many = rng.randrange(12) == 0
    if has_many:
        size, arity = 2, 36
    history, changes = any_history(rng, size, arity), Changes(rng)
    case = Case(tests, program, index, seed, Machine(None if history.is_wide else history))
    if rng.randrange(3) == 0:
        changes.are_of_values(rng.choice([0, 0, 1, 20]))
    if history.is_wide:
        case.ask(f"create {size} {arity} {history.function}")
    else:
        # The program makes no file of the first form.
        put(index, history.file())
    for batch in range(rng.randrange(1, 9)):
        count = rng.choice([1, 1, 2, 3, 5, 8, 13, 40, rng.randrange(1, 90)])
        if has_many and batch == 0:
            count = rng.randrange(66, 72)
        add_batch(rng, changes, case, batch, count)
        ask_all(rng, case.history, changes, case)
        if (seed + batch) % 2:
            case.ask("verify")
        if rng.random() < 0.5:
            case.run(case.history.file(), checked=rng.random() < 0.5)
    case.run(case.history.file(), checked=bool(seed % 2))


def add_batch(rng, changes, case, batch, count):
    """Adds a batch of so many changes, behind an upgrade or a batch that is refused at times."""
    if rng.randrange(5) == 0:
        case.ask("upgrade")
    if batch and rng.randrange(2) == 0:
        ask_old_format(rng, case.history, changes, case)
    changes.has_messages = case.history.is_wide
    changes.time += 1 if batch else 0
    names = []
    made = [changes.next(names) for _ in range(count)]
    case.ask("\n".join([f"{'append' if batch else 'load'} {count}", *(line for line, _ in made)]))
    # The machine reads from the lines what the changes were made as.
    found = case.history.events[-count:], case.machine.names
    case.tests.same(f"seed {case.seed}: the events of batch {batch}", found, ([event for _, event in made], changes.names))


def ask_all(rng, history, changes, case):
    hold_nodes(rng, history, case)
    ask_plans(rng, history, case)
    ask_graphs(rng, history, case)
    ask_expressions(rng, history, case)
    ask_intervals(rng, history, case)
    ask_values(rng, history, changes, case)
    ask_handles(rng, case)


# Seeds of files whose damage no start meets and a batch does: few files are such.
MET_BY_A_BATCH = [1424, 3167]


def some_history(rng, changes):
    """A history of a few batches, of either form or of both."""
    history = any_history(rng, rng.choice([2, 2, 3, 4]), rng.choice([2, 2, 3]))
    for _ in range(rng.randrange(1, 6)):
        if not history.is_wide and rng.randrange(3) == 0:
            history.upgrade()
        changes.has_messages = history.is_wide
        names, made = batch_of(changes, history, rng.choice([1, 2, 5, 9, rng.randrange(1, 60)]))
        history.add([event for _, event in made], names)
    return history


def batch_of(changes, history, count):
    """The names and the changes, each a line and an event, of a batch behind a history."""
    changes.time += 1 if history.events else 0
    names = []
    return names, [changes.next(names) for _ in range(count)]


def some_damage(rng, history, starts, met):
    """A record and a column of it, of which no start need know; more often one that a batch meets, or a list's own."""
    held = [(key, c) for key, four in history.places.items() for c in COLUMNS if four[c][1] > 0]
    by_batch = [(key, c) for key, c in held if key in met and c != MESSAGES and (key, c) not in starts]
    told, of_nodes = ([(key, c) for key, c in held if key.startswith("list") and c == column] for column in (MESSAGES, NODES))
    chosen = rng.random()
    kinds = (by_batch, 0.5), (told, 0.7), (of_nodes, 0.9), (held, 1)
    return rng.choice(next(some for some, below in kinds if some and chosen < below))


def with_damage(history, places):
    """The file of a history, in which these columns of records are in no spelling."""
    text = bytearray(history.file())
    for key, column in places:
        text[history.places[key][column][0]] = 255
    return bytes(text)


def check_damage(tests, program, index, seed):
    """A file with one damaged column: what meets it names it, and nothing else does."""
    rng = random.Random(seed)
    changes = Changes(rng)
    history = some_history(rng, changes)
    records, leaves = IndexGraph(history, "sne", memory=False), len(history.events) // history.size
    entered = records.entered([f"leaf {leaves}"] if leaves else [])
    # No plan enters a column of messages.
    starts = {(key, c) for key in entered for c in COLUMNS if c != MESSAGES} | {(key, c) for key in history.recent for c in COLUMNS}
    known = list(changes.names)
    _, made = batch_of(changes, history, rng.choice([1, 2, 5, 9, rng.randrange(1, 60)]))
    children = older_children(history, len(made))
    met = {key for i in range(0, len(children), 32) for key in records.entered(children[i : i + 32])}
    damaged = some_damage(rng, history, starts, met)
    case = Case(tests, program, index, seed, Machine(history, known, [damaged]))
    case.is_refused(with_damage(history, [damaged]), checked=True)
    if damaged in starts:
        case.is_refused(with_damage(history, [damaged]))
        return
    for _ in range(rng.randrange(1, 5)):
        met_by_lists(rng, history, known, case, damaged)
        met_by_graphs(rng, history, case, damaged)
    case.ask("verify")
    said = case.ask("\n".join([f"append {len(made)}", *(line for line, _ in made)]))
    due = f"refused 15 damaged {damaged[0]} {LETTERS[damaged[1]]}" if damaged[0] in met and damaged[1] != MESSAGES else "ok append"
    tests.check(f"seed {seed}: a batch meets its own records", said[0].startswith(due), (said, due))
    case.run(with_damage(case.history, [damaged]))


def met_by_graphs(rng, history, case, damaged):
    """Holds a leaf at times, and retrieves graphs, often of instants of a list with damaged messages."""
    columns, leaves = rng.choice(ASKED), len(history.events) // history.size
    if leaves and rng.random() < 0.3:
        case.ask(f"materialise leaf {rng.randrange(1, leaves + 1)} {columns}")
    columns += rng.choice(["", "t"])
    first, last = history.events[0][0], history.events[-1][0]
    times = [rng.randrange(first, last + 1) for _ in range(rng.choice([1, 2, 3]))]
    if damaged[1] == MESSAGES and rng.random() < 0.5:
        of_list = history.events[int(damaged[0].split(" ")[1]) * history.size :][: history.size]
        times[0] = rng.choice([of_list[0][0], of_list[-1][0], rng.randrange(of_list[0][0], of_list[-1][0] + 1)])
    case.ask(f"several {columns} {' '.join(map(str, times))}")


def met_by_lists(rng, history, names, case, damaged):
    """Asks what was added between two instants, often beside the damaged record, and which nodes have a value."""
    first, last = history.events[0][0], history.events[-1][0]
    begin, end = rng.randrange(first, last + 1), rng.randrange(first, last + 2)
    if damaged[0].startswith("list") and rng.random() < 0.7:
        of_list = history.events[int(damaged[0].split(" ")[1]) * history.size :][: history.size]
        low, high = of_list[0][0], of_list[-1][0]
        begin, end = rng.choice([(first, low), (first, low + 1), (high, last + 1), (min(high + 1, last), last + 1), (low, high + 1)])
    reply = case.ask(f"interval {begin} {end} {rng.choice(ASKED) + rng.choice(['', 't'])}")
    if reply[0].startswith("ok"):
        case.ask(f"list {reply[0].split(' ')[2]}")
    keys = sorted({event[3] for event in history.events if event[1] == NODE_ATTR})
    time, of_key, value = beside_a_value(rng, history, names, keys) or (last, UNKNOWN, UNKNOWN)
    key = rng.choice([of_key, of_key, *filter(is_key, names)])
    case.ask(f"index {key.decode()}")
    case.ask(f"find {time} {of_key.decode()} {value.decode()}")


def damaged_pairs(history, keys):
    """Each two of these records, of which the earlier one is damaged in a later column than the other."""
    held = [[column for column in COLUMNS if column != MESSAGES and history.places[key][column][1] > 0] for key in keys]
    places = [(i, j) for i in range(len(keys)) for j in range(i + 1, len(keys)) if held[i] and held[j]]
    return [((keys[i], held[i][-1]), (keys[j], held[j][0])) for i, j in places if held[i][-1] > held[j][0]]


class FirstDamage:
    """Files of one history in which two columns are damaged: what meets both names the first, wherever the work is cut for
    threads. Each method tries one and says whether the history has such columns."""

    def __init__(self, tests, program, index, seed):
        self.tests, self.program, self.index, self.seed, self.rng = tests, program, index, seed, random.Random(seed)
        self.history, self.changes, names = any_history(self.rng, 2, 2), Changes(self.rng), []
        history, changes = self.history, self.changes
        changes.has_messages = history.is_wide
        history.add([changes.next(names)[1] for _ in range(self.rng.randrange(40, 80))], names)
        history.is_wide or history.upgrade()
        changes.has_messages = True
        more, made = batch_of(changes, history, self.rng.randrange(1, 20))
        history.add([event for _, event in made], more)
        self.start = IndexGraph(history, "sne", memory=False).entered([f"leaf {len(history.events) // 2}"])
        graph = IndexGraph(history, "sne")
        times = sorted({event[0] for event in history.events})
        self.plans = {time: graph.entered([point(history, time)]) for time in times}

    def behind_start(self, keys):
        """Those of these records that no start enters."""
        return [key for key in keys if key not in self.start]

    def names_first(self, pair, command, *others):
        """Over a file with damage in two columns a command names the first; and others answer as the machine."""
        put(self.index, with_damage(self.history, pair))
        machine = Machine(self.history, self.changes.names, pair)
        case = Case(self.tests, self.program, self.index, self.seed, machine)
        (key, column), _ = pair
        self.tests.same(f"seed {self.seed}: {command}", case.ask(command), [f"refused 15 damaged {key} {LETTERS[column]}"])
        for other in others:
            case.ask(other)
        case.run(with_damage(self.history, pair))

    def of_an_instant(self):
        """Two records of one plan of four or more."""
        plans = [(time, self.behind_start(keys)) for time, keys in self.plans.items() if len(keys) >= 4]
        found = [(time, pair) for time, keys in plans for pair in damaged_pairs(self.history, keys)]
        if found:
            time, pair = self.rng.choice(found)
            self.names_first(pair, f"at {time} sne")
        return bool(found)

    def with_messages(self):
        """A record, and the messages that are asked for behind it."""
        sizes, found = self.history.sizes, []
        for time, keys in self.plans.items():
            heard = [key for key in self.history.heard([time])[0] if sizes[key][MESSAGES]]
            found += [(time, key, told) for key in self.behind_start(keys) if any(sizes[key][:MESSAGES]) for told in heard]
        if found:
            time, key, told = self.rng.choice(found)
            column = next(c for c in COLUMNS if sizes[key][c])
            self.names_first([(key, column), (told, MESSAGES)], f"at {time} snet")
        return bool(found)

    def of_a_start(self):
        """Two records of the plan of four or more by which a run starts."""
        found = damaged_pairs(self.history, self.start) if len(self.start) >= 4 else []
        if found:
            (key, column), other = self.rng.choice(found)
            put(self.index, with_damage(self.history, [(key, column), other]))
            ran = subprocess.run([self.program, self.index], input=b"tree\n", capture_output=True)
            said = f"{self.index}: damaged in record {key}, column {LETTERS[column]}; {RESTORE}"
            due = f"deltagraph: the index is refused\ndeltagraph: {said}\n"
            self.tests.same(f"seed {self.seed}: a start", (ran.returncode, ran.stderr.decode()), (7, due))
        return bool(found)

    def of_lists(self):
        """Two lists, which an interval over all reads; and an index their node attributes."""
        found = damaged_pairs(self.history, self.behind_start(self.history.lists()))
        if found:
            of_nodes = next((name for name in self.changes.names if is_key(name)), UNKNOWN)
            whole = f"interval {self.history.events[0][0]} {self.history.events[-1][0] + 1} snet"
            self.names_first(self.rng.choice(found), whole, f"index {of_nodes.decode()}")
        return bool(found)


def is_key(text):
    return 1 <= len(text) <= 64 and all(byte > 32 for byte in text)


def main():
    program, folder, *words = sys.argv[1:]
    first, last = map(int, words) if words else (0, HISTORIES)
    tests, seeds = Tests("model"), range(first, last)
    for seed in seeds:
        check(tests, program, os.path.join(folder, "index"), seed)
    for seed in [*seeds, *MET_BY_A_BATCH]:
        check_damage(tests, program, os.path.join(folder, "damaged"), seed)
    files = [FirstDamage(tests, program, os.path.join(folder, "damaged"), seed) for seed in seeds]
    for method in (FirstDamage.of_an_instant, FirstDamage.with_messages, FirstDamage.of_a_start, FirstDamage.of_lists):
        tried = sum(map(method, files))
        tests.check(f"files with two damaged columns, {method.__name__}", tried >= len(files) // 4, tried)
    return tests.end()


if __name__ == "__main__":
    sys.exit(main())
