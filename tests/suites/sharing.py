"""One file and several programs: one of them writes at a time, any number read, and what was acknowledged is there. And a
file that may not be written, that fails, or that is changed under a run: which status it is, and which reason is said.
"""

import os
import resource
import shutil
import signal
import stat
import subprocess
import sys
import tempfile
import threading
import time
from pathlib import Path

NOBODY = 65534
# A file of the first form with five changes, which an earlier program made.
FIRST_FORM = Path(__file__).resolve().parent.parent / "transcripts" / "first_form" / "five.dg"
FIVE = "create 2 2 intersection\nload 5\n10 +node 1\n20 +node 2\n30 +edge 5 1 2 dir\n40 nset 1 name A\n50 -edge 5\n"
HISTORY = "create 2 2 intersection\nload 3\n10 +node 1\n20 +node 2\n30 +edge 5 1 2 dir\n"
FAILED = "the index file failed"
IN_USE = "{} is in use by another program"
CHANGED = "{} has been changed by another program since it was opened"
CUT = "{} has been cut since it was opened"
REPLACED = "{} has been replaced by another file since it was opened"
REMOVED = "{} has been removed since it was opened"
READ_ONLY = "{} may not be written: Permission denied (os error 13)"
FORBIDDEN = "{}: Permission denied (os error 13)"
TOO_LARGE = "{}: File too large (os error 27)"
NO_SPACE = "{}: No space left on device (os error 28)"
IO_ERROR = "{}: Input/output error (os error 5)"

passed = failed = 0


def same(name, found, due):
    """Counts a comparison."""
    global passed, failed
    if found == due:
        passed += 1
    else:
        failed += 1
        print(f"{name}: {found!r}, and not {due!r}")


class Run:
    """A run of the program over an index, which has read the file once it is made."""

    def __init__(self, index, before=(), words=(), **how):
        self.index = index
        command = [*before, program, *words, str(index)]
        pipe = subprocess.PIPE
        self.process = subprocess.Popen(command, stdin=pipe, stdout=pipe, stderr=pipe, text=True, bufsize=1, **how)
        self.ask("clean 1")

    def ask(self, *lines):
        """Carries out one command, and gives its reply without the last line, or nothing where there is none."""
        try:
            self.process.stdin.write("".join(line + "\n" for line in lines))
        except BrokenPipeError:
            return []
        reply = []
        for line in self.process.stdout:
            if line == "end\n":
                break
            reply.append(line[:-1])
        return reply

    def append(self, time):
        """Adds a node of the number of its instant."""
        return self.ask("append 1", f"{time} +node {time}")

    def ends(self, name, status, *reasons):
        """The script ends here, with this status, and with these reasons on standard error."""
        try:
            self.process.stdin.close()
        except BrokenPipeError:
            pass
        same(f"{name}: what is left of the replies", self.process.stdout.read(), "")
        said = self.process.stderr.read()
        same(f"{name}: status", self.process.wait(), status)
        lines = [reason.format(self.index) for reason in reasons]
        same(f"{name}: standard error", said, "".join(f"deltagraph: {line}\n" for line in lines))


def carry_out(index, script, **how):
    """The replies to a script, one line each and without the last lines, and the status."""
    run = subprocess.run([program, str(index)], input=script, capture_output=True, text=True, **how)
    return [line for line in run.stdout.splitlines() if line != "end"], run.returncode


def make(name):
    """A new file with three changes."""
    index = Path(name)
    index.unlink(missing_ok=True)
    same("a file is made", carry_out(index, HISTORY), (["ok create", "ok load 3 3 30"], 0))
    return index


def has(name, index, events):
    """The file is sound, and holds so many events."""
    replies, status = carry_out(index, "verify\ntree\n")
    same(f"{name}: it is sound", replies[0].split()[:3], ["ok", "verify", "sound"])
    same(f"{name}: its events", replies[1].split()[5], str(events))
    same(f"{name}: its status", status, 0)


def take_turns(order):
    """Two runs, A and B, are both open before either writes. At its letter a run appends a change, and at the small letter
    its script ends. Who writes first writes all its batches, and the other's first batch ends it."""
    index = make("shared")
    runs = {"A": Run(index), "B": Run(index)}
    writer, events, refused = order[0], 3, False
    for instant, letter in enumerate(order, 40):
        if letter.islower():
            runs.pop(letter.upper()).ends(f"{order}: {letter}", 0)
        elif letter == writer:
            events += 1
            same(f"{order}: {letter}", runs[letter].append(instant), [f"ok append 1 {events} {instant}"])
        elif not refused:
            refused = True
            same(f"{order}: {letter}", runs[letter].append(instant), [])
            reason = IN_USE if writer in runs else CHANGED
            runs.pop(letter).ends(f"{order}: {letter}", 5, FAILED, reason)
    for letter, run in runs.items():
        run.ends(f"{order}: {letter} at the end", 0)
    has(order, index, events)


def two_programs():
    for order in ["AB", "BA", "AAB", "ABA", "AaB", "AAaB", "BbA", "BBAB", "ABAA", "AbA"]:
        take_turns(order)


def a_run_behind_another():
    """A run that is opened behind the last write of one that is still open may write only when that has ended."""
    index = make("behind")
    first = Run(index)
    same("behind: the first", first.append(40), ["ok append 1 4 40"])
    second = Run(index)
    same("behind: the second reads", second.ask("at 40 s"), ["ok at 1 0"])
    same("behind: the second writes", second.append(50), [])
    second.ends("behind: the second", 5, FAILED, IN_USE)
    third = Run(index)
    first.ends("behind: the first", 0)
    same("behind: the third", third.append(60), ["ok append 1 5 60"])
    third.ends("behind: the third", 0)
    has("behind", index, 5)


def readers_beside_a_writer():
    """Each of twenty readers lists what it has opened, whatever was appended since."""
    index = make("read")
    writer = Run(index)
    readers = []
    for number in range(20):
        instant = 40 + number
        readers.append(Run(index))
        same("a writer beside readers", writer.append(instant), [f"ok append 1 {4 + number} {instant}"])
    for number, reader in enumerate(readers):
        last = 39 + number if number else 30
        same("a reader: what came later", reader.ask(f"at {last + 1} s"), [f"refused 7 out-of-range 10 {last}"])
        same("a reader: its last instant", reader.ask(f"at {last} s"), ["ok at 1 0"])
        nodes = [f"node {node}" for node in [1, 2, *range(40, 40 + number)]]
        same("a reader", reader.ask("list 1"), [f"ok list 1 {3 + number}", *nodes, "edge 5 1 2 dir"])
        first = reader.ask("at 10 s")
        same("a reader: its first instant", first[0].split()[:3], ["ok", "at", "2"])
        same("a reader: the graph of then", reader.ask("list 2"), ["ok list 2 1", "node 1"])
    for reader in readers:
        reader.ends("a reader", 0)
    writer.ends("a writer beside readers", 0)
    has("a writer beside readers", index, 23)


class Writing:
    """A run that appends a node a batch, without a pause, as long as this is entered; and how much of it is answered."""

    AHEAD = 20  # batches that stand in the pipe, so that the run never waits for one, and ends soon

    def __init__(self, index, instant):
        self.instant, self.answered, self.ended = instant, 0, threading.Event()
        self.room = threading.Semaphore(self.AHEAD)
        self.process = subprocess.Popen([program, str(index)], stdin=subprocess.PIPE, stdout=subprocess.PIPE, text=True)
        self.threads = [threading.Thread(target=self.write), threading.Thread(target=self.count)]

    def write(self):
        while self.room.acquire() and not self.ended.is_set():
            self.process.stdin.write(f"append 1\n{self.instant} +node {self.instant}\n")
            self.process.stdin.flush()
            self.instant += 1
        self.process.stdin.close()

    def count(self):
        for line in self.process.stdout:
            if line.startswith("ok append "):
                self.answered += 1
                self.room.release()
        self.room.release()

    def __enter__(self):
        for thread in self.threads:
            thread.start()
        while self.answered == 0 and self.process.poll() is None:
            time.sleep(0.001)
        return self

    def __exit__(self, *cause):
        self.ended.set()
        for thread in self.threads:
            thread.join()
        same("a writer without a pause", self.process.wait(), 0)


def readers_opened_within_appends():
    """Runs that are opened while another appends without a pause. Each finds a sound file with all that was answered before,
    however many batches come while it reads, and then answers from what it has opened, whatever comes later."""
    # In memory where there is room for it, since each batch syncs.
    memory = tempfile.TemporaryDirectory(dir="/dev/shm" if os.access("/dev/shm", os.W_OK) else ".")
    folder = Path(memory.name)
    asked = "tree\nverify\nat 40 s\nlist 1\n"
    script = asked + asked.replace("list 1", "list 2")
    for batches, rounds in [(10, 1), (2000, 3)]:
        appends = "".join(f"append 1\n{time} +node {time}\n" for time in range(40, 40 + batches))
        begun, index = make("begun"), folder / "appended"
        same("many batches", carry_out(begun, appends)[1], 0)
        for words in [[], ["--checked"], ["--cache", "1"], ["--cache", "64", "--checked"]] * rounds:
            name = f"opened within appends, over {batches} batches, {words}"
            # A file that has grown long makes each opening long.
            shutil.copyfile(begun, index)
            with Writing(index, 40 + batches) as writing:
                for _ in range(25):
                    before = 3 + batches + writing.answered
                    run = subprocess.run([program, *words, str(index)], input=script, capture_output=True, text=True)
                    same(f"{name}: status", (run.returncode, run.stderr), (0, ""))
                    opened_stands(name, run.stdout.split("end\n")[:-1], before)
            has(f"{name}: what was appended", index, 3 + batches + writing.answered)
    memory.cleanup()


def opened_stands(name, replies, before):
    """The replies to `tree`, `verify`, `at` and `list`, twice, while another run appends: at least `before` events are there,
    the file is sound, and the second four are as the first."""
    same(f"{name}: as many replies", len(replies), 8)
    if len(replies) != 8:
        return
    tree, verified, given, listed = replies[:4]
    same(f"{name}: what was answered is there", int(tree.split()[5]) >= before, True)
    same(f"{name}: it is sound", verified.split()[:3], ["ok", "verify", "sound"])
    nodes = "node 1\nnode 2\nnode 40\nedge 5 1 2 dir\n"
    same(f"{name}: a graph", (given.split()[:3], listed), (["ok", "at", "1"], f"ok list 1 4\n{nodes}"))
    same(f"{name}: what it opened stands", replies[4:], [tree, verified, given.replace("at 1", "at 2"), f"ok list 2 4\n{nodes}"])


def an_opening_with_a_batch_within():
    """An opening that is held up behind its question for the length, while a batch is added."""
    if not has_strace():
        return
    index = make("appended")
    delayed = ["strace", "-f", "-o", "calls", "-e", "trace=statx", "-e", "inject=statx:delay_exit=1000000:when=2"]
    reader = subprocess.Popen([*delayed, program, str(index)], stdin=subprocess.PIPE, stdout=subprocess.PIPE, text=True)
    time.sleep(0.5)
    same("a batch within an opening", carry_out(index, "append 1\n40 +node 40\n"), (["ok append 1 4 40"], 0))
    replies, _ = reader.communicate("at 40 s\n")
    same("an opening with a batch within", (replies.splitlines()[:1], reader.returncode), (["ok at 1 0"], 0))


def what_a_reader_has_opened():
    """A run that has opened the file answers the same, whatever other runs then append: one batch, many, and many at once,
    and also where they upgrade the file."""
    for words in [[], ["--cache", "3", "--checked"]]:
        for form in [b"DGRAPH1", b"DGRAPH2"]:
            index = Path("opened")
            if form == b"DGRAPH1":
                shutil.copyfile(FIRST_FORM, index)
            else:
                index.unlink(missing_ok=True)
                same("five changes", carry_out(index, FIVE)[1], 0)
            more = "".join(f"append 1\n{time} +node {time}\n" for time in range(60, 90))
            same("thirty batches", carry_out(index, more)[1], 0)
            name = f"what was opened, {form.decode()}, {words}"
            same(f"{name}: its form", index.read_bytes()[1:8], form)
            reader = Run(index, words=words)
            found = all_answers(reader, 1)
            same(f"{name}: it is sound", found[0][0].split()[:3], ["ok", "verify", "sound"])
            batches = [range(100, 101), range(101, 300)]
            scripts = ["".join(f"append 1\n{time} +node {time}\n" for time in times) for times in batches]
            scripts.append("append 4000\n" + "".join(f"{time} +node {time}\n" for time in range(300, 4300)))
            if form == b"DGRAPH1":
                scripts.insert(1, "upgrade\n")
            for turn, script in enumerate(scripts, 2):
                same(f"{name}: what another run adds", carry_out(index, script)[1], 0)
                same(f"{name}: it answers the same", all_answers(reader, turn), found)
            reader.ends(name, 0)
            has(name, index, 5 + 30 + 1 + 199 + 4000)


def all_answers(run, turn):
    """What a run answers of the whole file that it opened, without the numbers of handles: it is asked so for this turn."""
    answers = [run.ask("verify"), run.ask("tree"), run.ask("plan 20 sne"), run.ask("at 95 s")]
    for number, instant in enumerate([10, 30, 45, 70, 89]):
        handle = 5 * (turn - 1) + number + 1
        given = run.ask(f"at {instant} sne")
        same("a handle", given[0].split()[:3], ["ok", "at", str(handle)])
        answers += [given[0].split()[3], run.ask(f"list {handle}")[1:], run.ask(f"release {handle}")[0].split()[:2]]
    return answers


def has_strace():
    """Whether strace is there, and may trace."""
    if shutil.which("strace") is None:
        return False
    return subprocess.run(["strace", "-o", "calls", "true"], capture_output=True).returncode == 0


def as_nobody():
    """How a run is one of somebody who has no rights of their own; nothing where this user cannot give such a run."""
    if os.geteuid() != 0:
        return {}
    return {"user": NOBODY, "group": NOBODY, "extra_groups": []}


def a_file_that_may_not_be_written():
    index = make("read_only")
    index.chmod(0o444)
    before = index.read_bytes()
    readers = [Run(index, **as_nobody()) for _ in range(5)]
    for reader in readers:
        same("a file of mode 444", reader.ask("at 30 s"), ["ok at 1 0"])
        same("a file of mode 444", reader.ask("list 1"), ["ok list 1 3", "node 1", "node 2", "edge 5 1 2 dir"])
        same("a file of mode 444", reader.ask("verify"), ["ok verify sound 1"])
    for reader in readers[1:]:
        reader.ends("a file of mode 444", 0)
    same("a file of mode 444 is not written", readers[0].append(40), [])
    readers[0].ends("a file of mode 444 is not written", 5, FAILED, READ_ONLY)
    same("a file of mode 444 is as it was", index.read_bytes(), before)
    index.chmod(0o000)
    run = subprocess.run([program, index], input="", capture_output=True, text=True, **as_nobody())
    same("a file of mode 0", (run.returncode, run.stderr.splitlines()[1:]), (5, ["deltagraph: " + FORBIDDEN.format(index)]))
    folder = Path("closed")
    folder.mkdir(mode=0o555)
    run = subprocess.run([program, folder / "new"], input=HISTORY, capture_output=True, text=True, **as_nobody())
    due = (5, ["deltagraph: " + FORBIDDEN.format(folder / "new")])
    same("a folder that may not be written", (run.returncode, run.stderr.splitlines()[1:]), due)
    same("nothing is made there", list(folder.iterdir()), [])


def a_file_in_a_folder_that_may_not_be_read():
    """A folder that may be entered and not read is no hindrance: it is not asked for anything where the file is there."""
    folder = Path("entered")
    folder.mkdir()
    index = make(folder / "index")
    if as_nobody():
        os.chown(index, NOBODY, NOBODY)
        folder.chmod(0o711)
    run = Run(index, **as_nobody())
    same("a folder that may not be read", run.ask("at 30 s"), ["ok at 1 0"])
    same("a folder that may not be read: a batch", run.append(40), ["ok append 1 4 40"])
    run.ends("a folder that may not be read", 0)
    folder.chmod(0o755)


def a_file_that_is_changed():
    """What is done to a file under a run, and what the next batch then comes to."""

    def is_cut(index):
        os.truncate(index, 217 - 1)

    def is_longer(index):
        with open(index, "ab") as file:
            file.write(b"more")

    def is_written_over(index):
        content = index.read_bytes()
        with open(index, "r+b") as file:
            file.write(content)

    def is_replaced(index):
        shutil.copyfile(index, "copy")
        os.replace("copy", index)

    def is_removed(index):
        index.unlink()

    def is_moved(index):
        index.rename("moved")

    changes = [
        (is_cut, CUT),
        (is_longer, CHANGED),
        (is_written_over, CHANGED),
        (is_replaced, REPLACED),
        (is_removed, REMOVED),
        (is_moved, REMOVED),
    ]
    for change, reason in changes:
        for is_writer in [False, True]:
            name = f"{change.__name__}, {'after' if is_writer else 'before'} its first batch"
            index = make("changed")
            run = Run(index)
            if is_writer:
                same(name, run.append(40), ["ok append 1 4 40"])
            # The clock by which a file's time of change goes has steps of some milliseconds.
            time.sleep(0.02)
            change(index)
            content = index.read_bytes() if index.exists() else None
            same(f"{name}: the next batch", run.append(50), [])
            run.ends(name, 5, FAILED, reason)
            same(f"{name}: the file is left", index.read_bytes() if index.exists() else None, content)


def a_file_that_stays_as_it_is():
    """Another time of reading, other rights and another name are no change of what a file holds."""
    index = make("kept")
    run = Run(index)
    same("kept: before", run.append(40), ["ok append 1 4 40"])
    time.sleep(0.02)
    index.read_bytes()
    index.chmod(stat.S_IRUSR)
    os.link(index, "another_name")
    same("kept: it is written", run.append(50), ["ok append 1 5 50"])
    run.ends("kept", 0)
    has("kept", index, 5)


def limit_files():
    """No file may pass 1,024 bytes, and a write that would is refused as one of a full disk is."""
    signal.signal(signal.SIGXFSZ, signal.SIG_IGN)
    resource.setrlimit(resource.RLIMIT_FSIZE, (1024, 1024))


def a_disk_that_is_full():
    index = make("limited")
    run = Run(index, preexec_fn=limit_files)
    same("a small batch", run.append(40), ["ok append 1 4 40"])
    changes = [f"{instant} +node {instant}" for instant in range(50, 150)]
    same("a batch that finds no room", run.ask("append 100", *changes), [])
    run.ends("a batch that finds no room", 5, FAILED, TOO_LARGE)
    has("a batch that finds no room", index, 4)
    folder = Path("full")
    folder.mkdir()
    mounted = subprocess.run(["mount", "-t", "tmpfs", "-o", "size=16k", "none", folder], capture_output=True)
    if mounted.returncode != 0:
        print("no mounts here: no device is filled")
        return
    try:
        index = make(folder / "index")
        run = Run(index)
        same("a small batch", run.append(40), ["ok append 1 4 40"])
        (folder / "other").write_bytes(bytes(8192))
        changes = [f"{instant} +node {instant}" for instant in range(50, 250)]
        same("a batch that finds no space", run.ask("append 200", *changes), [])
        run.ends("a batch that finds no space", 5, FAILED, NO_SPACE)
        has("a batch that finds no space", index, 4)
    finally:
        subprocess.run(["umount", folder], check=True)


def failing_calls():
    """Calls of the system that fail, as strace makes them."""
    if not has_strace():
        print("no strace here: no call of the system fails or is held up, and none is counted")
        return

    def failing(call, error, when=1, only=(), index=None):
        index = index or make("failing")
        inject = f"inject={call}:error={error}:when={when}"
        return Run(index, ["strace", "-f", "-o", "calls", *only, "-e", f"trace={call}", "-e", inject])

    for error in ["ENOSYS", "EOPNOTSUPP", "ENOLCK"]:
        run = failing("flock", error)
        same(f"no locks, {error}", run.append(40), ["ok append 1 4 40"])
        run.ends(f"no locks, {error}", 0)
        has(f"no locks, {error}", run.index, 4)
    run = failing("flock", "EIO")
    same("a lock that fails", run.append(40), [])
    run.ends("a lock that fails", 5, FAILED, IO_ERROR)
    run = failing("fsync", "EIO")
    run.ends("an opening with a failed sync", 5, FAILED, IO_ERROR)
    # The loader of the program reads by this call too.
    run = failing("pread64", "EIO", only=["-P", os.path.abspath("failing")])
    run.ends("an opening with a failed read", 5, FAILED, IO_ERROR)
    run = failing("fsync", "EIO", 2)
    run.ends("an opening of a file that is there, which asks nothing of its folder", 0)
    for error, status, reasons in [
        ("EIO", 5, [FAILED, "the folder of {}: Input/output error (os error 5)"]),
        ("EINVAL", 0, []),
        ("EOPNOTSUPP", 0, []),
    ]:
        index = Path("unmade")
        index.unlink(missing_ok=True)
        run = failing("fsync", error, 2, index=index)
        run.ends(f"a new file, and a folder that is not synced, {error}", status, *reasons)
    for call in ["pwrite64", "fdatasync"]:
        for when in [1, 2]:
            run = failing(call, "EIO", when)
            same(f"a batch with a failed {call}", run.append(40), [])
            run.ends(f"a batch with a failed {call}", 5, FAILED, IO_ERROR)


def calls_of_commands():
    """What commands ask of the system. A retrieval reads each column that it enters and that has bytes, once: one of events
    by one call, a delta's by two, its counts and what is behind them. A batch looks at the file before each of its two parts
    and at what it has left behind them, and the first one takes the lock."""
    if not has_strace():
        return
    index = Path("counted")
    same("five changes", carry_out(index, FIVE), (["ok create", "ok load 5 5 50"], 0))
    counted = ["flock", "statx", "pread64", "pwrite64", "fsync", "fdatasync"]
    run = Run(index, ["strace", "-f", "-o", "calls", "-e", "trace=" + ",".join(counted)])
    reading = [
        ("at 50 sne", 0),
        ("at 10 s", 1),
        ("at 20 s", 2),
        ("several s 20 30", 3),
        ("expression s and 30 not 20", 1),
        ("expression s or 20 30", 3),
        ("materialise inner 1 1 s", 2),
        ("at 20 s", 0),
        ("plan 10 sne", 0),
        ("tree", 0),
        ("list 2", 0),
        ("node 2 1", 0),
        ("clean all", 0),
    ]
    writing = [
        (["append 1", "60 +node 3"], {"flock": 1, "statx": 4, "fdatasync": 2}),
        (["append 1", "70 +node 4"], {"statx": 4, "fdatasync": 2}),
    ]
    for command, reads in reading:
        same(command, calls_of(run, counted, command), {"pread64": reads} if reads else {})
    for command, due in writing:
        made = calls_of(run, counted, *command)
        same(f"{command[0]}: it writes", made.pop("pwrite64", 0) >= 2, True)
        same(command[0], made, due)
    run.ends("counted commands", 0)


def calls_of(run, counted, *command):
    """How many of these calls a command makes; strace has written each before it goes on."""
    before = len(Path("calls").read_text())
    same(command[0], run.ask(*command)[0].split()[0], "ok")
    made = Path("calls").read_text()[before:]
    counts = {call: made.count(f" {call}(") for call in counted}
    return {call: count for call, count in counts.items() if count}


def main():
    global program
    program = os.path.join(sys.argv[2], "deltagraph")
    # A copy that somebody without rights can run.
    shutil.copyfile(sys.argv[1], program)
    os.chdir(sys.argv[2])
    for path in [".", program]:
        os.chmod(path, 0o755)
    two_programs()
    a_run_behind_another()
    readers_beside_a_writer()
    readers_opened_within_appends()
    an_opening_with_a_batch_within()
    what_a_reader_has_opened()
    a_file_in_a_folder_that_may_not_be_read()
    a_file_that_may_not_be_written()
    a_file_that_is_changed()
    a_file_that_stays_as_it_is()
    a_disk_that_is_full()
    failing_calls()
    calls_of_commands()
    print(f"sharing: {passed} passed, {failed} failed")
    return failed != 0


if __name__ == "__main__":
    sys.exit(main())
