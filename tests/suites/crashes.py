"""What a crash may leave of an index file, and what the program makes of it.

A run of the program is traced by strace. Its writes and syncs are replayed, and for each moment of the run images are
made that a crash then may leave: since the last sync each written range may hold any bytes, all else is as it was, and
the length lies between the length at that sync and the greatest length since. Each image is opened by the program. It
has to answer as the machine of lib/machine.py answers over the history before the command of that moment, or over the one
after it, and what is in use of it has to be that of the one or the other, byte for byte. A replay without the syncs that
this rests on has to show images that are neither.

And runs are killed: at each of their calls of the system, and at many moments more. What the file then holds is a whole
number of the batches of the script, as the machine makes them, and at least those that were answered; and what was written
is the beginning of the machine's replies.
"""

import itertools
import random
import re
import shutil
import subprocess
import sys
import time

from tests.lib.changes import Changes
from tests.lib.history import FUNCTIONS
from tests.lib.judge import Judgement
from tests.lib.machine import Due, Machine, commands_of
from tests.lib.runs import CREATE, FIRST_FORM, FIVE, HEADER, Program, Tests, content, in_use, lines, put

CALL = re.compile(rb"^(?:\d+ +)?(\w+)\((.*)\) += (-?\d+)")
HEX = re.compile(rb'"((?:\\x[0-9a-f]{2})*)"')
BLOCKS = (512, 4096)  # bytes
ALL_CUTS = 40  # bytes of a write that is torn at each of them; a longer one is torn at some
SUBSETS = 64  # of the writes since a sync; more are drawn at random
DRAWN = 60  # images of one moment in which any bytes stand in the written ranges
KILLS = 900  # at moments of the clock
WRITTEN_ON = 150  # images of one run to which the next batch is added
ASK = ["verify", "tree", "at 50 sne", "list 1"]


class Write:
    def __init__(self, offset, piece):
        self.offset, self.piece, self.end = offset, piece, offset + len(piece)


class Sync:
    pass


class Read:
    def __init__(self, offset, piece):
        self.offset, self.piece = offset, piece


class Reply:
    def __init__(self, text):
        self.text = text


def bytes_of(words):
    return bytes.fromhex(HEX.search(words).group(1).decode().replace("\\x", ""))


def deeds_of(trace):
    """The reads, writes and syncs of the index file and of its folder, and what is written to standard output, in order."""
    index = folder = None
    for line in trace.splitlines():
        found = CALL.match(line)
        if found is None:
            continue
        name, words, result = found.group(1), found.group(2), int(found.group(3))
        if result < 0:
            continue
        if name == b"openat" and b"O_CREAT" in words:
            index = result
        elif name == b"openat" and index is not None:
            folder = result
        elif name == b"pwrite64" and int(words.split(b",")[0]) == index:
            yield Write(int(words.rsplit(b",", 1)[1]), bytes_of(words)[:result])
        elif name == b"pread64" and int(words.split(b",")[0]) == index:
            yield Read(int(words.rsplit(b",", 1)[1]), bytes_of(words)[:result])
        elif name in (b"fsync", b"fdatasync") and int(words) in (index, folder):
            yield Sync()
        elif name == b"write" and words.startswith(b"1,"):
            yield Reply(bytes_of(words)[:result])


def written(image, offset, piece):
    """The image with a piece written over it. Where it ends before, zeros stand between."""
    image = image.ljust(offset, b"\0")
    return image[:offset] + piece + image[offset + len(piece) :]


def with_writes(synced, writes, pieces):
    """The image with what came through of these writes; `None` is nothing."""
    image = synced
    for write, piece in zip(writes, pieces):
        image = image.ljust(write.end, b"\0")
        if piece is not None:
            image = written(image, write.offset, piece)
    return image


def cuts_of(write, draw):
    """Where a write may be torn: at each byte of a short one, at the borders of blocks, and at some bytes of a long one."""
    size = len(write.piece)
    if size <= ALL_CUTS:
        return range(1, size)
    borders = {n - write.offset for block in BLOCKS for n in range(write.offset // block * block, write.end, block)}
    ends = {1, 2, 8, 16, size - 1, size - 2}
    return sorted({cut for cut in borders | ends if 0 < cut < size} | set(draw.sample(range(1, size), 12)))


def fillings(write, draw):
    """Some of all the bytes that may stand in a written range. `None` is what stood there."""
    piece = write.piece
    if len(piece) == 1:
        return [None, *(bytes([byte]) for byte in range(256))]
    half = len(piece) // 2
    noise = bytes(draw.randrange(256) for _ in piece)
    zeros = bytes(len(piece))
    halves = [piece[:half] + zeros[half:], zeros[:half] + piece[half:]]
    return [None, piece, *halves, zeros, b"\xff" * len(piece), b"\1" * len(piece), noise]


def crashes(synced, since):
    """Images that a crash may leave after these writes since a sync that left `synced`."""
    if not since:
        yield synced
        return
    draw = random.Random(len(synced) * 1000 + len(since))
    greatest = max([len(synced), *(write.end for write in since)])
    ends = sorted({len(synced), greatest, (len(synced) + greatest) // 2, max(len(synced), greatest - 1)})
    whole = [write.piece for write in since]

    def drawn_subset():
        return [draw.choice([None, piece]) for piece in whole]

    # every subset of the writes, at each of these lengths
    subsets = list(itertools.islice(itertools.product(*([None, piece] for piece in whole)), SUBSETS + 1))
    if len(subsets) > SUBSETS:
        subsets = [whole, [None] * len(whole), whole[:-1] + [None], *(drawn_subset() for _ in range(SUBSETS - 3))]
    for subset in subsets:
        for end in ends:
            yield with_writes(synced, since, subset)[:end]
    # each write torn, beside all others, none of them, and some
    for number, write in enumerate(since):
        for cut in cuts_of(write, draw):
            front = write.piece[:cut]
            back = written(synced.ljust(write.end, b"\0")[write.offset : write.end], cut, write.piece[cut:])
            for others, piece in [(whole, front), (whole, back), ([None] * len(whole), front), (drawn_subset(), front)]:
                yield with_writes(synced, since, [*others[:number], piece, *others[number + 1 :]])
            # the file ends in the torn write
            none_behind = [None] * (len(whole) - number - 1)
            end = max(len(synced), write.offset + cut)
            yield with_writes(synced, since, [*whole[:number], front, *none_behind])[:end]
    # any bytes in the written ranges
    choices = [fillings(write, draw) for write in since]
    every = itertools.product(*choices)
    drawn = ([draw.choice(choice) for choice in choices] for _ in range(DRAWN))
    for pieces in every if len(since) == 1 else drawn:
        yield with_writes(synced, since, pieces)[: draw.choice(ends)]


class Crashes:
    def __init__(self, tests, program):
        self.tests, self.program = tests, program
        self.images = self.excepted = 0
        self.known = {}

    def answers(self, image):
        """The status and the replies of a run over the image, which it must leave as it is."""
        if image not in self.known:
            ran, after = self.program.over(image, lines(ASK))
            self.images += 1
            self.known[image] = ran.status, ran.replies
            self.tests.check("an opening leaves the image", after == image, len(image))
        return self.known[image]

    def traced(self, start, script):
        index, calls = self.program.place("traced"), self.program.place("calls")
        put(index, start)
        command = ["strace", "-f", "-xx", "-s", "16777216", "-o", calls]
        command += ["-e", "trace=openat,pread64,pwrite64,fsync,fdatasync,write", self.program.path, index]
        subprocess.run(command, input=script, capture_output=True, check=True)
        return list(deeds_of(content(calls))), content(index)

    def crash_points(self, start, deeds):
        """The moments of a run: what stood at the last sync, the writes since, and which of the states is reached. And
        these states: what the file is at each reply."""
        image = synced = start
        since, states = [], [start]
        moments = [(synced, since, 0)]
        for deed in deeds:
            if isinstance(deed, Write):
                image = written(image, deed.offset, deed.piece)
                since = [*since, deed]
            elif isinstance(deed, Sync):
                synced, since = image, []
            elif isinstance(deed, Reply):
                if states[-1] != image:
                    states.append(image)
            else:
                self.tests.check("the replay has what is read", image[deed.offset :].startswith(deed.piece), deed.offset)
                continue
            moments.append((synced, since, len(states) - 1))
        if states[-1] != image:
            states.append(image)
        return moments, states

    def broken(self, start, deeds, steps, first_byte=False):
        """What crashes at each moment of a run may leave that is neither the state before nor the one after, of these steps of
        the machine. `first_byte`: where an index is made over a file of 18 bytes, the first of these may be any."""
        found = []
        moments, _ = self.crash_points(start, deeds)
        due = [((0, b"".join(Due(state, ASK).replies)), in_use(state.file())) for state in steps]
        seen = set()
        for synced, since, at in moments:
            allowed = due[at : at + 2]
            for image in crashes(synced, since):
                if (at, image) in seen:
                    continue
                seen.add((at, image))
                if (self.answers(image), in_use(image)) in allowed:
                    self.tests.passed += 1
                elif first_byte and len(image) == HEADER and image[1:] == start[1:]:
                    self.excepted += 1
                else:
                    found.append((len(image), image[:24].hex(), self.answers(image)))
        return found

    def written_on(self, name, start, deeds, steps, batch):
        """Over some of the images that crashes leave the next batch is added: what is then in use is that of the state before
        or of the one after, with the batch."""
        moments, _ = self.crash_points(start, deeds)
        images = sorted({(at, image) for synced, since, at in moments for image in crashes(synced, since)})
        draw = random.Random(len(images))
        due = [Due(state, commands_of(batch)) for state in steps]
        for at, image in draw.sample(images, min(WRITTEN_ON, len(images))):
            ran, after = self.program.over(image, batch)
            allowed = [(0, b"".join(one.replies), in_use(one.machines[-1].file())) for one in due[at : at + 2]]
            found = ran.status, ran.replies, in_use(after)
            self.tests.check(f"{name}: a batch behind a crash", found in allowed, (len(image), ran.replies))

    def run(self, name, start, script, first_byte=False, batch=None):
        """Crashes at each moment of a run over a file of these bytes; and the file that the run leaves."""
        self.known.clear()
        before = self.images
        deeds, after = self.traced(start, script)
        moments, states = self.crash_points(start, deeds)
        self.tests.same(f"{name}: the replay gives the file", states[-1], after)
        steps = due_of(start, script).steps()
        self.tests.same(f"{name}: the files at the replies", list(map(in_use, states)), [in_use(step.file()) for step in steps])
        for deed, (_, since, _) in zip((d for d in deeds if not isinstance(d, Read)), moments[1:]):
            if isinstance(deed, Reply):
                self.tests.same(f"{name}: a reply comes after the sync of all that is written", len(since), 0)
        for found in self.broken(start, deeds, steps, first_byte):
            self.tests.check(f"{name}: a crash", False, found)
        if batch:
            self.written_on(name, start, deeds, steps, batch)
        print(f"{name}: {len(moments)} moments, {self.images - before} images", flush=True)
        return after

    def unsynced(self, name, start, script, left_out):
        """The same without some of the syncs behind the opening, by their numbers: there are crashes that leave neither
        state, and they are found."""
        self.known.clear()
        deeds, _ = self.traced(start, script)
        opening = next(i for i, deed in enumerate(deeds) if isinstance(deed, Write))
        numbers = [i for i, deed in enumerate(deeds) if isinstance(deed, Sync) and i > opening]
        without = set(numbers if left_out is None else [numbers[n] for n in left_out if n < len(numbers)])
        passed = self.tests.passed
        found = self.broken(start, [deed for i, deed in enumerate(deeds) if i not in without], due_of(start, script).steps())
        self.tests.passed = passed
        self.tests.check(f"{name}: what a missing sync breaks is found", found)
        print(f"{name}: {len(found)} images are broken", flush=True)


def due_of(image, script):
    """What is due of a script over a file of these bytes."""
    return Due(Judgement(image).machine(), commands_of(script))


def history_of(seed, sizes):
    """What is due of a random history in batches of these sizes."""
    rng = random.Random(seed)
    parameters = rng.choice([2, 3, 4]), rng.choice([2, 3]), rng.choice(FUNCTIONS)
    changes, commands = Changes(rng), [f"create {' '.join(map(str, parameters))}"]
    for batch, size in enumerate(sizes):
        changes.time += 1 if batch else 0
        made = [line for line, _ in (changes.next([]) for _ in range(size))]
        commands.append("\n".join([f"{'append' if batch else 'load'} {size}", *made]))
    return Due(Machine(), commands)


class Kills:
    """Runs that are killed, over a history of which the machine says what the file is after each command."""

    def __init__(self, tests, program):
        self.tests, self.program = tests, program
        self.count = self.within = 0  # kills, and those before the last command was answered

    def look(self, name, due, killed, replies):
        """The file holds a whole number of commands: those that were answered, or one more. The replies are those that are due,
        as far as they came."""
        answered, held = replies.count(b"end\n"), in_use(killed)
        files = [in_use(machine.file()) for machine in due.machines]
        whole = [k for k in (answered, answered + 1) if k < len(files) and files[k] == held]
        sizes = len(killed), len(held or b"")
        self.tests.check(f"{name}: a whole number of batches, {answered} of them answered", whole, sizes)
        self.tests.check(f"{name}: its replies", b"".join(due.replies).startswith(replies), replies[-80:])
        ran, after = self.program.over(killed, b"verify\n")
        wanted = 0, due.machines[whole[0] if whole else 0].answer("verify").encode()
        self.tests.same(f"{name}: the next run", (ran.status, ran.replies), wanted)
        self.tests.check(f"{name}: the next run leaves it", after == killed)
        self.count += 1

    def at_calls(self, name, due, start, image=None):
        """Killed at each of its calls: `start` of the commands were carried out before, over a file of these bytes."""
        _, before = self.program.over(image, lines(due.commands[:start]))
        index, rest = self.program.place("killed"), due.behind(start)
        for call in ("pwrite64", "fdatasync", "write", "statx"):
            for when in itertools.count(1):
                put(index, before if start or image else None)
                command = ["strace", "-f", "-o", "/dev/null", "-e", f"trace={call}"]
                command += ["-e", f"inject={call}:signal=KILL:when={when}"]
                run = subprocess.run([*command, self.program.path, index], input=lines(rest.commands), capture_output=True)
                if run.returncode == 0:
                    break
                self.look(f"{name}: killed at {call} {when}", rest, content(index) or b"", run.stdout)

    def up_to(self, index, commands, number):
        """A run over a new file that has answered so many commands, what it has answered, and how long the last one took."""
        put(index, None)
        pipe = subprocess.PIPE
        process = subprocess.Popen([self.program.path, index], stdin=pipe, stdout=pipe, stderr=subprocess.DEVNULL, bufsize=0)
        replies, took = b"", 0.0
        for command in commands[:number]:
            begun, reply = time.monotonic(), b""
            process.stdin.write(lines([command]))
            while not reply.endswith(b"end\n"):
                more = process.stdout.read(65536)
                if not more:
                    raise EOFError(f"no reply to {command[:40]}")
                reply += more
            took = time.monotonic() - begun
            replies += reply
        return process, replies, took

    def at_moments(self, name, due, most):
        """Killed within each command in turn, at moments that are drawn over the time that it takes."""
        draw, commands = random.Random(most), due.commands
        index, last = self.program.place("killed"), []
        for number in range(len(commands)):
            process, _, took = self.up_to(index, commands, number + 1)
            process.communicate()
            file = in_use(due.machines[number + 1].file())
            self.tests.same(f"{name}: a whole run of {number + 1} commands", in_use(content(index)), file)
            last.append(took)
        for kill in range(most):
            number = kill % len(commands)
            process, replies, _ = self.up_to(index, commands, number)
            process.stdin.write(lines([commands[number]]))
            time.sleep(draw.uniform(0, 0.8 * last[number]))
            process.kill()
            replies += process.communicate()[0]
            self.look(f"{name}: kill {kill}", due, content(index) or b"", replies)
            self.within += replies.count(b"end\n") == number


# What each command asks of the disk: how many syncs, and whether it writes. A retrieval asks for none.
COMMANDS = [
    ("clean 1", 0),
    (CREATE, 3),
    ("create 4 4 union", 0),
    ("verify", 0),
    (FIVE, 2),
    ("append 1\n60 +node 9", 2),
    ("append 1\n60 +node 9", 0),
    ("append 1\n70 +node 9", 0),
    ("append 5\n70 +node 10\n71 +node 11\n72 nset 10 name B\n73 +edge 1 10 11 undir\n74 eset 1 w 5", 2),
    ("append 4\n75 +node 12\n76 +node 13\n77 +node 14\n78 +node 15", 2),
    ("append 2\n79 msg 1 10 hello\n79 msg 10 10 ", 2),
    ("load 1\n80 +node 16", 0),
    ("workload 7 8", 0),
    ("upgrade", 0),
    ("at 10 s", 0),
    ("at 45 sne", 0),
    ("several sne 20 30 45 60", 0),
    ("expression sne and 45 not 20", 0),
    ("interval 20 80 snet", 0),
    ("index name", 0),
    ("find 73 name B", 0),
    ("at 79 st", 0),
    ("several snet 79 45", 0),
    ("materialise inner 1 1 sne", 0),
    ("materialise leaf 2 s", 0),
    ("list 1", 0),
    ("counts 1", 0),
    ("node 1 1", 0),
    ("neighbours 1 1", 0),
    ("plan 20 s", 0),
    ("certify 20 s 2\nstep 2 list 0 42\nstep 4 leaf 1 0", 0),
    ("tree", 0),
    ("verify", 0),
    ("pool", 0),
    ("release 1", 0),
    ("clean 5", 0),
    ("clean all", 0),
    ("at 999 s", 0),
    ("no", 0),
]


def syncs_of_commands(tests, crashes_of):
    """The syncs of each command: three for a new index, two for a batch and for an upgrade, and none for all else, which
    writes nothing."""
    generated = [("clean 1", 0), ("create 64 4 union", 3), ("workload 7 5000", 2)]
    for name, commands in [("commands", COMMANDS), ("generated changes", generated)]:
        script = lines(command for command, _ in commands)
        deeds, _ = crashes_of.traced(b"", script)
        replies = b"".join(deed.text for deed in deeds if isinstance(deed, Reply))
        tests.same(f"replies of {name}", replies, b"".join(due_of(b"", script).replies))
        parts, part = [], []
        for deed in deeds:
            if isinstance(deed, Reply):
                parts.append(part)
                part = []
            else:
                part.append(deed)
        tests.same(f"syncs of {name}: each command has one reply, by one write", (len(parts), part), (len(commands), []))
        # Before the first reply stand the syncs of the opening: the file's and its folder's.
        for (command, due), deeds_then in zip([("the opening, and " + commands[0][0], 2), *commands[1:]], parts):
            syncs = sum(isinstance(deed, Sync) for deed in deeds_then)
            writes = sum(isinstance(deed, Write) for deed in deeds_then)
            word = command.split("\n")[0]
            tests.same(f"syncs of {word}", syncs, due)
            tests.same(f"writes of {word}", writes > 0, due > 0 and "opening" not in word)


def has_strace(program):
    if shutil.which("strace") is None:
        return False
    return subprocess.run(["strace", "-o", program.place("calls"), "true"], capture_output=True).returncode == 0


def crashes_of_runs(both, first_form):
    """Crashes at each moment of runs of every kind, and of some without a sync."""
    create, load, append = lines([CREATE]), lines([FIVE]), b"append 1\n60 +node 9\n"
    old = b"\x00" + b"a text of 17 byte"
    for name, start, first_byte in (("a new file", b"", False), ("a short file", b"abc", False), ("18 bytes", old, True)):
        made = both.run(f"{name} is made an index", start, create, first_byte)
    both.run("a closed header is made an index", b"\0" + made[1:], b"create 4 3 union\n", True)
    later = b"append 2\n900 +node 900\n901 nset 900 k v\n"
    loaded = both.run("a load", made, load, batch=later)
    both.run("an append", loaded, append, batch=later)
    beside = b"index name\nappend 3\n60 nset 1 name B\n61 ndel 1 name\n61 nset 2 name A\nfind 61 name A\n"
    both.run("an append beside an index", loaded, beside, batch=later)
    both.run("an append over what a crash left", loaded + b"\1" * 300, append, batch=later)
    both.run("a whole run", b"", create + load + append, batch=later)
    more = history_of(2, [40, 9, 1, 30])
    made_by_all = both.run("a load and appends with attributes", b"", lines(more.commands), batch=later)
    same_file = in_use(made_by_all) == in_use(more.machines[-1].file())
    both.tests.check("a load and appends with attributes: the file is the machine's", same_file)
    upgraded = both.run("an upgrade", first_form, b"upgrade\n", batch=later)
    both.run("an upgrade and an append", first_form, b"upgrade\n" + append, batch=later)
    both.run("an upgrade over what a crash left", first_form + b"\1" * 300, b"upgrade\n", batch=later)
    both.run("an append behind a marker", upgraded, append, batch=later)
    both.run("a workload", b"", b"create 64 4 balanced\nworkload 7 400\nappend 1\n9000 +node 1000\n")
    both.tests.check("a first byte of 18 is the one exception", both.excepted > 0)
    both.unsynced("an append with no sync before its gate", loaded, append, [0])
    both.unsynced("a load with no sync before its gate", made, load, [0])
    both.unsynced("a header with no sync before its gate", b"", create, [1])
    both.unsynced("an append with no sync", loaded, append, None)
    both.unsynced("an upgrade with no sync before its gate", first_form, b"upgrade\n", [0])


def main():
    tests = Tests("crashes")
    program = Program(*sys.argv[1:3])
    kills = Kills(tests, program)
    kills.at_moments("a load and appends", history_of(5, [150, 3, 80, 1, 200, 13, 2, 50, 120, 4]), KILLS)
    print(f"a load and appends: {kills.count} kills, {kills.within} of them before the last command was answered", flush=True)
    if not has_strace(program):
        print("no strace here: no trace is replayed, no run is killed at a call, and no syncs are counted")
        return tests.end()
    few = history_of(9, [7, 2, 6])
    kills.at_calls("a whole run", few, 0)
    kills.at_calls("appends", few, 2)

    first_form = content(FIRST_FORM)
    upgrade = due_of(first_form, b"upgrade\nappend 1\n60 +node 9\n")
    sizes = [len(in_use(machine.file())) for machine in upgrade.machines]
    tests.same("sizes of an upgrade and a batch behind it", sizes, [495, 520, 712])
    kills.at_calls("an upgrade", upgrade, 0, first_form)

    both = Crashes(tests, program)
    syncs_of_commands(tests, both)
    crashes_of_runs(both, first_form)
    return tests.end(f", {kills.count} kills, {both.images} images")


if __name__ == "__main__":
    sys.exit(main())
