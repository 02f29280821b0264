"""What the tests share that run the program thousands of times: quick runs, what is counted, and the parts of an index
file that docs/FORMATS.md says are in use."""

import os
import signal
import sys

PATIENCE = 60  # seconds that a run may take
CLOSED = 0
OPEN = 1
HEADER = 18  # bytes, with the gate of the first segment

# What is said of a file that is refused, as docs/SCRIPT.md has it: of another program, damaged, and not sound.
FOREIGN = "foreign: it is no index of this program; name an index, or a file that is not there yet"
RESTORE = "restore the file from a copy"
UNSOUND = "it is not what the events of the file determine; dump its events, and load them into a new file"

# The five changes of docs/FORMATS.md, whose file has 544 bytes.
CREATE = "create 2 2 intersection"
FIVE = "load 5\n10 +node 1\n20 +node 2\n30 +edge 5 1 2 dir\n40 nset 1 name A\n50 -edge 5"

# The words of commands that a failed read or want of memory never refuses.
NEVER_REFUSED = ["counts", "release", "clean", "pool", "upgrade"]

# A file of the first form with the same changes, which an earlier program made: 496 bytes.
FIRST_FORM = os.path.join(os.path.dirname(os.path.dirname(__file__)), "transcripts", "first_form", "five.dg")


class Tests:
    """Counts what holds and what does not, and says the first cases of the latter."""

    MOST_SAID = 20

    def __init__(self, name):
        self.name, self.passed, self.failed = name, 0, 0

    def check(self, case, holds, detail=""):
        if holds:
            self.passed += 1
            return
        self.failed += 1
        if self.failed <= self.MOST_SAID:
            print(f"{case}: {str(detail)[:600]}", flush=True)

    def same(self, case, found, due):
        self.check(case, found == due, f"{found!r}, and not {due!r}")

    def end(self, more=""):
        print(f"{self.name}: {self.passed} passed, {self.failed} failed{more}")
        return self.failed != 0


class Ran:
    """A run that has ended: its status (None where it took too long, below 0 where a signal ended it), and what it wrote."""

    def __init__(self, status, replies, errors):
        self.status, self.replies, self.errors = status, replies, errors

    def commands(self):
        """The replies without their last lines, each a list of lines; and what stands behind the last whole one."""
        found, reply = [], []
        lines = self.replies.split(b"\n")
        for line in lines[:-1]:
            if line == b"end":
                found.append(reply)
                reply = []
            else:
                reply.append(line.decode(errors="surrogateescape"))
        return found, b"\n".join([*(line.encode(errors="surrogateescape") for line in reply), lines[-1]])


def give_up(signal_number, frame):
    raise TimeoutError


class Program:
    """The program, run over files of a folder."""

    def __init__(self, path, folder):
        self.path, self.folder = os.path.abspath(path), os.path.abspath(folder)
        self.runs = 0
        signal.signal(signal.SIGALRM, give_up)
        if not os.access(self.path, os.X_OK):
            sys.exit(f"{path} is not built")

    def place(self, name):
        return os.path.join(self.folder, name)

    def start(self, index, script, words=(), variables=None):
        """Starts a run over an index file, and gives its process."""
        with open(self.place("script"), "wb") as file:
            file.write(script)
        actions = [
            (os.POSIX_SPAWN_OPEN, 0, self.place("script"), os.O_RDONLY, 0),
            (os.POSIX_SPAWN_OPEN, 1, self.place("replies"), os.O_WRONLY | os.O_CREAT | os.O_TRUNC, 0o600),
            (os.POSIX_SPAWN_OPEN, 2, self.place("errors"), os.O_WRONLY | os.O_CREAT | os.O_TRUNC, 0o600),
        ]
        self.runs += 1
        environment = {**os.environ, **(variables or {})}
        return os.posix_spawn(self.path, [self.path, *words, index], environment, file_actions=actions)

    def ended(self, process):
        """Waits for a run's end."""
        signal.alarm(PATIENCE)
        try:
            _, status = os.waitpid(process, 0)
            status = -os.WTERMSIG(status) if os.WIFSIGNALED(status) else os.WEXITSTATUS(status)
        except TimeoutError:
            os.kill(process, signal.SIGKILL)
            os.waitpid(process, 0)
            status = None
        finally:
            signal.alarm(0)
        return Ran(status, content(self.place("replies")), content(self.place("errors")))

    def run(self, index, script, words=(), variables=None):
        return self.ended(self.start(index, script, words, variables))

    def over(self, image, script, words=(), variables=None):
        """A run over a file of these bytes, or over none that is there; and the file behind it."""
        index = self.place("index")
        put(index, image)
        ran = self.run(index, script, words, variables)
        return ran, content(index)


def put(path, image):
    """Makes a file of these bytes, or no file."""
    if image is not None:
        with open(path, "wb") as file:
            file.write(image)
    elif os.path.exists(path):
        os.remove(path)


def content(path):
    """The bytes of a file, or nothing where there is none."""
    try:
        with open(path, "rb") as file:
            return file.read()
    except FileNotFoundError:
        return None


def is_blank(image):
    """Whether the file is no index."""
    return len(image) < HEADER or (len(image) == HEADER and image[0] != OPEN)


def in_use(image):
    """What an index file holds: its bytes up to the first gate that is not open. Nothing where it is no index, and `None`
    where it ends before that gate."""
    if is_blank(image):
        return b""
    gate = HEADER - 1
    while gate < len(image) and image[gate] == OPEN:
        sizes = image[gate + 1 : gate + 17]
        gate += 17 + int.from_bytes(sizes[:8], "big") + int.from_bytes(sizes[8:], "big")
    return image[:gate] if gate < len(image) else None


def lines(commands):
    """A script of these commands."""
    return "".join(command + "\n" for command in commands).encode()
