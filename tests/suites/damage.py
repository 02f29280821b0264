"""Any bytes as an index file: which are refused at the start, which are blank, and what is answered over the others.

  tests/run damage -- SEED COUNT

The file of five changes is cut at each length, and each of its bytes is changed; and files in use are damaged in 2,000
random ways, or in COUNT ways of another SEED, and their lists are made longer than their events. What is due of each is
judged by lib/judge.py, which knows nothing of the program: whether the file is no index, is refused by its header or a
directory, whether a start goes on with it, and whether its records are what its own events determine. A run over it
ends with that refusal of the start, or answers each command, in the grammar of replies; `verify` says exactly what is
due; a column that is named as damaged is in no spelling; and no byte in use is written but the last gate. With
`--checked` a run is refused exactly where the file is not sound. Over a sound file, which may stand for another history
than before, all replies, and the file behind them, are those of the machine over the events in the file.

Over a file that is not sound, and without `--checked`, a reply may rest on damage. A value may then stand under a name of
the file that no key may be, since of a delta's column only that is asked that its names are there; such lines are counted.
An interval, and an index with what it finds, go by the lists and by what is recent alone: the machine answers them over these
files too.
"""

import random
import re
import sys

from tests.lib import judge
from tests.lib.changes import Changes
from tests.lib.history import LETTERS, History
from tests.lib.machine import Batch, text_of
from tests.lib.runs import CREATE, FIVE, FOREIGN, HEADER, RESTORE, UNSOUND, Program, Tests, in_use, lines

SEED, DAMAGES = 20, 2000
ADDED = 24  # changes of the last batch, which completes nodes of the small indexes
REFUSED, INDEX = b"deltagraph: the index is refused\n", "index"

KEY = r"(?:list \d+|piece \d+|top \d+|down \d+ \d+)"
NODE = r"(?:root|now|recent|leaf \d+|list \d+|inner \d+ \d+)"
ELEMENT = r"node \d+|edge \d+ \d+ \d+ (?:dir|undir)|[ne]attr \d+ .*|msg \d+ \d+ .*"
VALUE = r"(?:[ne]attr \d+|attr) (.*)"
TOLD = r"msg \d+ \d+ (.*)"
KEY_TEXT = r"[^\0- ]{1,64}"
# The head and a line of the body of each command's reply.
REPLIES = {
    "create": (r"ok create", None),
    "append": (r"ok append \d+ \d+ \d+", None),
    "at": (r"ok at \d+ \d+", None),
    "several": (r"ok several \d+ \d+", r"handle \d+ \d+ \d+"),
    "expression": (r"ok expression \d+ \d+", None),
    "interval": (r"ok interval \d+ \d+", None),
    "index": (r"ok index \d+ \d+", None),
    "find": (r"ok find (\d+)", r"node \d+"),
    "materialise": (r"ok materialise \d+ \d+", None),
    "list": (r"ok list \d+ (\d+)", ELEMENT),
    "counts": (r"ok counts \d+ \d+ \d+ \d+ \d+(?: \d+)?", None),
    "node": (r"ok node \d+ \d+ (?:yes \d+|no)", r"attr .*"),
    "neighbours": (r"ok neighbours \d+ \d+ (\d+)", r"(?:out|in|both) \d+ \d+"),
    "release": (r"ok release \d+", None),
    "clean": (r"ok clean(?: all \d+)?", None),
    "pool": (r"ok pool \d+ \d+", None),
    "plan": (r"ok plan \d+ \d+", rf"step \d+ {NODE} \d+|potential {NODE} \d+"),
    "certify": (rf"ok certify (?:line \d+|step \d+|potential {NODE}|not-tight|valid)", None),
    "verify": (rf"ok verify (?:sound \d+|unsound {KEY} [snet])", None),
    "tree": (r"ok tree \d+ \d+ (?:intersection|union|balanced|skewed \d+) \d+ \d+ (\d+)", rf"record {KEY} \d+ \d+ \d+ \d+"),
}
# The refusals that a file can meet: never that a read fails, and never want of memory.
REFUSALS = {
    "no-index": r"refused 2 no-index",
    "bad-change": r"refused 6 bad-change \d+ \d+",
    "out-of-range": r"refused 7 out-of-range (?:\d+ \d+|empty)",
    "unknown-handle": r"refused 8 unknown-handle \d+",
    "unknown-node": r"refused 11 unknown-node",
    "not-an-overlay": r"refused 17 not-an-overlay \d+",
    "damaged": rf"refused 15 damaged {KEY} [snet]",
    "unknown-key": r"refused 23 unknown-key",
    "not-indexed": r"refused 24 not-indexed",
}


def reply_fault(command, reply):
    """What is wrong with the form of a reply, if something is."""
    word = command.split()[0]
    if len(reply) == 1 and any(re.fullmatch(form, reply[0]) for form in REFUSALS.values()):
        return None
    head, body = REPLIES[word]
    found = re.fullmatch(head, reply[0]) if reply else None
    if found is None:
        return f"no reply to {word}: {reply[:1]}"
    if found.groups() and int(found.group(1)) != len(reply) - 1:
        return f"{len(reply) - 1} lines and not {found.group(1)}"
    wrong = [line for line in reply[1:] if body is None or not re.fullmatch(body, line, re.DOTALL)]
    return f"no line of a reply to {word}: {wrong[0]!r}" if wrong else None


def questions(times, leaves, keys=("a", "bb"), values=("x", "zz")):
    """A script over a history that has these instants and so many leaves, and values of nodes under these two keys."""
    first, last = times[0], times[-1]
    draw = random.Random(len(times))
    asked = [first, last, *(draw.choice(times) for _ in range(3))]
    script = ["verify", "tree", f"interval {asked[2]} {last + 1} snet", "list 1", f"interval {first} {asked[3]} se", "list 2"]
    script += [f"interval {asked[4]} {min(asked[4] + 3, last + 1)} sn", "list 3"]
    script += [f"index {keys[0]}", f"find {asked[3]} {keys[0]} {values[0]}", f"find {last} {keys[0]} {values[1]}"]
    for handle, time in enumerate(asked, 4):
        script += [f"at {time} {draw.choice(['st', 'sn', 'set', 'sne'])}", f"list {handle}"]
    script += [f"several snet {' '.join(map(str, asked))}", "list 9", "list 11", f"plan {asked[2]} sne", f"plan {first} s"]
    script += [f"expression sne or and {asked[2]} not {asked[3]} and {asked[4]} not {asked[2]}", "list 14"]
    script += ["counts 5", "node 5 5", "neighbours 6 5", f"materialise leaf {max(1, leaves // 2)} sne"]
    script += [f"materialise inner 1 {max(1, leaves // 8)} s", "pool", "clean all"]
    batch = [f"{last + 2 + i} +node {7000 + i}" for i in range(ADDED)]
    script += [f"index {keys[1]}", f"append 1\n{last + 1} +node 777", f"find {last + 1} {keys[0]} {values[0]}"]
    return script + ["\n".join([f"append {ADDED}", *batch]), f"find {asked[2]} {keys[1]} {values[1]}", "verify"]


def is_answered(machine, command):
    """Whether the machine answers a command over a file that is not sound: one that goes by lists and what is recent alone."""
    word, *words = command.split("\n")[0].split(" ")
    return word in ("interval", "index", "find") or word == "list" and int(words[0]) in machine.handles


def follow(machine, command, reply):
    """Carries over what a command did that the machine does not answer: the handles that it gave, and its batch."""
    word, lines_behind = command.split(" ")[0], command.split("\n")[1:]
    if not reply[0].startswith("ok"):
        return
    if word in ("at", "several", "expression", "materialise"):
        machine.next += len(reply) - 1 if word == "several" else 1
    if word == "append":
        batch = Batch((), machine.names)
        for line in lines_behind:
            batch.take(line.encode())
        machine.enter(batch)


class Damage:
    def __init__(self, tests, program):
        self.tests, self.program = tests, program
        self.tally, self.before = {}, b""
        self.wanted, self.file_due = [], b""  # what is due of a sound file

    def count(self, came):
        self.counted(came, 1)

    def counted(self, came, number):
        if number:
            self.tally[came] = self.tally.get(came, 0) + number

    def look(self, name, image, script, before):
        """What comes of a file of these bytes, with and without `--checked`; and what was in use before it was damaged."""
        self.before, due = before, judge.Judgement(image)
        machine = due.machine() if due.is_sound else None
        self.wanted = [machine.reply(command) for command in script] if machine else []
        self.file_due = machine.history.file() if machine else b""
        for words in ((), ("--checked",)):
            ran, after = self.program.over(image, lines(script), words)
            fault = self.fault_of(due, image, script, words, ran, after)
            self.tests.check(f"{name}{', checked' if words else ''}", fault is None, fault)

    def fault_of(self, due, image, script, words, ran, after):
        """What is wrong with a run, if something is."""
        if ran.status not in (0, 7):
            return f"status {ran.status}, {ran.errors}"
        replies, rest = ran.commands()
        if ran.status == 7:
            if ran.replies or after != image:
                return "a refused file, but something was done"
            return self.fault_of_refusal(due, words, ran)
        if rest or ran.errors or len(replies) != len(script):
            return f"{len(replies)} of {len(script)} replies, {rest[:80]}, {ran.errors}"
        faults = [fault for fault in map(reply_fault, script, replies) if fault]
        if faults:
            return faults[0]
        if due.is_blank:
            self.count("blank")
            return self.fault_of_blank(script, replies, image, after)
        if due.said:
            return f"status 0, and not: {due.said}"
        if due.start_fault():
            return f"status 0, and not: {due.start_fault()}"
        closed = due.opened.used - 1
        if not in_use(image) or after[:closed] != image[:closed] or (after != image and in_use(after) is None):
            return "what was in use is written over"
        if due.is_sound:
            self.count("sound" if in_use(image) == self.before else "sound, another history")
            return self.fault_of_replies(script, replies, after)
        self.count("answered, unsound")
        if words:
            return f"status 0, and {due.soundness}"
        if replies[0] != [f"ok verify {due.soundness}"]:
            return f"{replies[0]}, and not {due.soundness}"
        return self.fault_of_damaged(due, script, replies)

    def fault_of_blank(self, script, replies, image, after):
        asking = ("verify", "tree", "at", "plan", "append", "interval", "index", "find")
        answers = [reply for command, reply in zip(script, replies) if command.split()[0] in asking]
        is_none = all(reply == ["refused 2 no-index"] for reply in answers)
        return None if is_none and after == image else "an index in a blank file"

    def fault_of_refusal(self, due, words, ran):
        said = ran.errors.decode(errors="replace").splitlines()
        name = f"deltagraph: {self.program.place(INDEX)}: "
        if len(said) != 2 or said[0] != "deltagraph: the index is refused" or not said[1].startswith(name):
            return f"another reason: {ran.errors}"
        reason = said[1][len(name) :]
        if due.is_blank or due.is_sound:
            return f"a file that is {'blank' if due.is_blank else 'sound'} is refused: {reason}"
        if due.said:
            self.count("refused as " + re.sub(r"[:;].*| \d+", "", due.said))
            return None if reason == due.said else f"{reason}, and not {due.said}"
        fault = due.start_fault()
        if fault:
            self.count("refused as " + re.sub(r" (?:record|at event) .*|:.*", "", fault))
            return None if reason == fault else f"{reason}, and not {fault}"
        _, *key, column = due.soundness.split(" ")
        unsound = f"unsound at record {' '.join(key)}, column {column}: {UNSOUND}"
        self.count("refused as unsound")
        return None if words and reason == unsound else f"{reason}, and not {unsound}"

    def fault_of_damaged(self, due, script, replies):
        machine, names = due.machine(), [text_of(name) for name in due.opened.names]
        values = {f"{key} {value}" for key in names for value in names}
        keyed = {f"{key} {value}" for key in names for value in names if re.fullmatch(KEY_TEXT, key)}
        for command, reply in zip(script, replies):
            if is_answered(machine, command):
                wanted = machine.reply(command)
                if reply != wanted:
                    return f"{command}: {reply}, and not {wanted}"
                self.count(f"{command.split()[0]}, {'refused' if reply[0].startswith('refused 15') else 'answered'}")
                continue
            follow(machine, command, reply)
            said = [found.group(1) for found in (re.fullmatch(VALUE, line, re.DOTALL) for line in reply) if found]
            told = [found.group(1) for found in (re.fullmatch(TOLD, line, re.DOTALL) for line in reply) if found]
            if not set(names).issuperset(told):
                return f"{command}: {told}, which are no names"
            if not values.issuperset(said):
                return f"{command}: {said}, which are no names"
            self.counted("lines with a name that is no key", sum(value not in keyed for value in said))
            found = re.fullmatch(rf"refused 15 damaged ({KEY}) ([snet])", reply[0])
            if found and not due.is_damaged(found.group(1), LETTERS.index(found.group(2))):
                return f"{command}: {reply[0]}, and it is spelled"
        return None

    def fault_of_replies(self, script, replies, after):
        """Over a sound file all replies are the machine's, and so is the file behind them."""
        for command, reply, wanted in zip(script, replies, self.wanted):
            if reply != wanted:
                return f"{command}: {reply}, and not {wanted}"
        return None if in_use(after) == in_use(self.file_due) else "another file than the machine's"


class File:
    """A file in use: its bytes, a script of questions over it, and where its directories say sizes."""

    def __init__(self, seed, parameters, batches, behind=b"", upgrade=None):
        """With `upgrade` a marker stands before the batch of that number."""
        rng = random.Random(seed)
        history, changes, at = History(*parameters), Changes(rng), []
        for batch, size in enumerate(batches):
            changes.time += 1 if batch else 0
            names = []
            if batch == upgrade:
                history.upgrade()
            changes.has_messages = history.is_wide
            history.add([changes.next(names)[1] for _ in range(size)], names)
            at.append(history.file())
        self.image, self.earlier = history.file() + behind, at[:-1]
        times = [event[0] for event in history.events] or [1]
        self.script = questions(times, len(history.events) // history.size)
        opened = judge.Opened(self.image)
        self.sizes = [row.place + 8 * i for row in opened.rows.values() for i in range(row.lengths)]


FILES = [
    (1, (2, 2, "intersection"), [5], b""),
    (2, (2, 2, "union", False), [9, 1, 4, 2], b""),
    (3, (3, 2, "balanced"), [20, 7, 1, 1, 12], b""),
    (4, (4, 3, "intersection", False), [30, 30, 30], b"", 2),
    (5, (64, 4, "union"), [12, 5, 9], b""),
    (6, (50, 2, "balanced", False), [1], b""),
    (7, (16, 4, "skewed 200"), [200, 40, 3], b""),
    (8, (8, 2, "union"), [90, 1, 1, 60], b"\1" * 300),
    (9, (1000, 2, "intersection"), [150], b""),
    (10, (5, 4, "intersection"), [], b""),
    (11, (5, 2, "balanced", False), [40, 3, 25, 9], b"", 1),
    (12, (3, 3, "union", False), [31, 1], b""),
]


def damaged(draw, image, file, others):
    """The bytes of a file with some damage more, and what kind of damage it is."""
    image = bytearray(image)
    kind = draw.choice(["byte", "byte", "bit", "run", "blocks", "zeros", "tail", "cut", "sizes", "field", "earlier"])
    at = draw.randrange(len(image))
    if kind == "byte":
        image[at] = draw.choice([0, 1, 255, image[at] ^ 128, (image[at] + 1) % 256, draw.randrange(256)])
    elif kind == "bit":
        image[at] ^= 1 << draw.randrange(8)
    elif kind == "run":
        size = draw.choice([2, 3, 8, 16, 64])
        image[at : at + size] = bytes(draw.randrange(256) for _ in image[at : at + size])
    elif kind == "blocks":
        size = draw.choice([1, *(n for n in (8, 16, 64, 512, 4096) if 2 * n <= len(image))])
        a, b = (size * draw.randrange(len(image) // size) for _ in range(2))
        image[a : a + size], image[b : b + size] = image[b : b + size], image[a : a + size]
    elif kind == "zeros":
        size = draw.choice([4, 64, 512, 4096])
        begin = at // size * size
        image[begin : begin + size] = bytes(len(image[begin : begin + size]))
    elif kind == "tail":
        image[at:] = draw.choice(others).image[draw.choice([0, at]) :]
    elif kind == "cut":
        image[at:] = bytes(draw.randrange(256) for _ in range(draw.choice([0, 0, 1, 50])))
    elif kind == "sizes" and file.sizes and len(image) == len(file.image):
        move_bytes(image, *(draw.choice(file.sizes) for _ in range(2)), draw.choice([1, 4, 16, 19, 30, 36]))
    elif kind == "field" and file.sizes and len(image) == len(file.image):
        place = draw.choice(file.sizes)
        image[place : place + 8] = draw.choice([0, 1, 2**31, 2**48, 2**63, 2**64 - 1]).to_bytes(8, "big")
    elif kind == "earlier" and file.earlier:
        earlier = draw.choice(file.earlier)
        image[at:] = earlier[at:] or bytes(image[at:])
    return bytes(image), kind


def move_bytes(image, giver, taker, count):
    """Moves bytes from one size to another, so that their sum stays."""
    for place, change in ((giver, -count), (taker, count)):
        size = int.from_bytes(image[place : place + 8], "big") + change
        image[place : place + 8] = (max(size, 0) % 2**64).to_bytes(8, "big")


def longer_lists(file):
    """The file with bytes more, zeros, in a column of its first or its last list, with the sizes that go with them: by one,
    and by more than a list of its events can have. Each with what was done."""
    opened = judge.Opened(file.image)
    lists = {key: row for key, row in opened.rows.items() if key.startswith("list ")}
    for key in sorted({*list(lists)[:1], *list(lists)[-1:]}):
        row = lists[key]
        segment = HEADER
        while segment_end(file.image, segment) < row.place:
            segment = segment_end(file.image, segment)
        for column in range(row.lengths):
            for count in (1, 13 + 36 * opened.size):
                image = bytearray(file.image)
                for place in (row.place + 8 * column, segment + 8):
                    image[place : place + 8] = (int.from_bytes(image[place : place + 8], "big") + count).to_bytes(8, "big")
                behind = row.offset + sum(row.sizes[: column + 1])
                image[behind:behind] = bytes(count)
                yield f"{count} bytes more in {key}, column {column}", bytes(image)


def segment_end(image, segment):
    """Where the segment behind this one begins."""
    return segment + 17 + sum(int.from_bytes(image[segment + at : segment + at + 8], "big") for at in (0, 8))


def five_changes(tests, damage):
    """The file of five changes, cut at each length, and with each byte changed. Of its header and of the first fields of
    its segment it is said here what is due; of all else by the judgement."""
    run, image = damage.program.over(None, lines([CREATE, FIVE]))
    tests.same("five changes", (run.status, run.replies, len(image)), (0, b"ok create\nend\nok load 5 5 50\nend\n", 544))
    script = questions([10, 20, 30, 40, 50], 2, ("name", "A"), ("A", "name"))
    damaged_at = f"damaged at offset 18: the segment there breaks the format; {RESTORE}"

    def begins(name, bytes_of_file, due):
        """`due` is a reply to `at 20 s`, or why the start is refused."""
        ran, after = damage.program.over(bytes_of_file, b"at 20 s\n")
        name_then = damage.program.place(INDEX)
        said = f"deltagraph: the index is refused\ndeltagraph: {name_then}: {due}\n".encode()
        wanted = (0, f"{due}\nend\n".encode(), b"") if due.split()[0] in ("ok", "refused") else (7, b"", said)
        tests.same(name, (ran.status, ran.replies, ran.errors), wanted)
        tests.check(f"{name}: the file is as it was", after == bytes_of_file)

    for length in range(545):
        due = "refused 2 no-index" if length < HEADER else damaged_at if length < 544 else "ok at 1 26"
        begins(f"cut at {length}", image[:length], due)
        damage.look(f"cut at {length}", image[:length], script, in_use(image))
    header = {**{at: FOREIGN for at in [*range(10), 12, 13, 14]}, **{at: damaged_at for at in [10, 11, 15]}}
    header[16] = "ok at 1 26"  # union in place of intersection, of which the start reads nothing
    header[17] = "refused 7 out-of-range empty"
    fields = {at: damaged_at for at in range(18, 50)}
    fields.update({at: damaged_at for at in range(58, 64)})
    for at, due in {**header, **fields}.items():
        changed = bytearray(image)
        changed[at] = (changed[at] + 1) % 256
        begins(f"one more at byte {at}", bytes(changed), due)
    for at in range(544):
        for value in {(image[at] + 1) % 256, image[at] ^ 128, 0, 255} - {image[at]}:
            changed = bytearray(image)
            changed[at] = value
            damage.look(f"byte {at} is {value}", bytes(changed), script, in_use(image))


def main():
    tests = Tests("damage")
    damage = Damage(tests, Program(*sys.argv[1:3]))
    five_changes(tests, damage)
    print("five changes:", ", ".join(f"{count} {came}" for came, count in sorted(damage.tally.items())), flush=True)
    damage.tally = {}
    files = [File(*file) for file in FILES]
    for file in files:
        damage.look("a file in use", file.image, file.script, in_use(file.image))
        for name, image in longer_lists(file):
            damage.look(name, image, file.script, in_use(file.image))
    seed, count = map(int, sys.argv[3:5]) if len(sys.argv) > 3 else (SEED, DAMAGES)
    draw = random.Random(seed)
    for number in range(count):
        file = draw.choice(files)
        image, kind = file.image, ""
        while image == file.image:
            image, kind = damaged(draw, file.image, file, files)
        if draw.random() < 0.2 and image:
            again, other = damaged(draw, image, file, files)
            image, kind = again, f"{kind} and {other}"
        damage.look(f"damage {number}, {kind}", image, file.script, in_use(file.image))
    print("files in use:", ", ".join(f"{count} {came}" for came, count in sorted(damage.tally.items())), flush=True)
    return tests.end(f", {damage.program.runs} runs")


if __name__ == "__main__":
    sys.exit(main())
