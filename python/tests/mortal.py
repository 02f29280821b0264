"""The program, which once kills who started it: `mortal.py MARKER COUNT PROGRAM..`, behind so many commands that list."""
import contextlib
import os
import signal
import subprocess
import sys

marker, count, *words = sys.argv[1:]
left = int(count)
with subprocess.Popen(words, stdin=subprocess.PIPE) as run:
    for line in sys.stdin.buffer:
        if line.startswith(b"list "):
            left -= 1
            if left == 0:
                # Of several that come here at once, one kills.
                with contextlib.suppress(FileExistsError), open(marker, "x"):
                    os.kill(os.getppid(), signal.SIGKILL)
        run.stdin.write(line)
        run.stdin.flush()
