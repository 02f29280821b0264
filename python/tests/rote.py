"""A program that answers by rote: a word of JSON gives a reply for the first word of each command, as text, or as a
list of an action and its parameters. It reads the lines that follow a command, and looks at nothing else."""
import json
import os
import signal
import sys

replies, source, sink = json.loads(sys.argv[1]), sys.stdin.buffer, sys.stdout.buffer


def listed(kinds):
    """A listing of so many elements of each kind."""
    nodes, edges, values = kinds
    sink.write(b"ok list 1 %d\n" % sum(kinds))
    for form, count in ((b"node %d\n", nodes), (b"edge %d 1 2 dir\n", edges), (b"nattr %d name a name\n", values)):
        for begin in range(0, count, 10000):
            sink.write(b"".join(form % number for number in range(begin, min(count, begin + 10000))))
    sink.write(b"end\n")


for line in source:
    word, *rest = line.decode().split()
    lines = int(rest[-1]) if word in ("load", "append", "certify") else 0
    last = b""
    for _ in range(lines):
        last = source.readline()
    reply = replies.get(word, "ok pool 0 0\nend\n" if word == "pool" else f"ok {word} 1 0\nend\n")
    if word in ("load", "append") and word not in replies:
        reply = f"ok {word} {lines} {lines} {last.decode().split()[0]}\nend\n"
    if isinstance(reply, str):
        sink.write(reply.encode())
    elif reply[0] == "list":
        listed(reply[1:])
    elif reply[0] == "exit":
        sink.write(reply[2].encode())
        sink.flush()
        sys.stderr.write(reply[3] * reply[4])
        sys.stderr.flush()
        os._exit(reply[1])
    elif reply[0] == "kill":
        sink.write(reply[1].encode())
        sink.flush()
        os.kill(os.getpid(), signal.SIGKILL)
    sink.flush()
