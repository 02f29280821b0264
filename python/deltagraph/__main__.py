"""python3 -m deltagraph INDEX: a prompt over an index file on a terminal, else a script from standard input."""
from __future__ import annotations

import argparse
import os
import sys
from io import TextIOWrapper
from typing import Optional

from . import open as open_store
from .failures import DeltagraphError, ProgramEnded
from .prompt import STATUS_SINK, FrontEnd, Lines, Script, SinkFailed, Typed, completions, ended_status

HISTORY = "~/.deltagraph_history"
KEPT = 1000  # lines of it
STATUS_SOURCE = 3  # as of the program
STATUS_FAILED = 2
STATUS_INTERRUPTED = 130  # as of a shell

ABOUT = """\
Commands over an index of deltagraph: at a prompt on a terminal, else from a script on standard input, whose replies
are the program's. Refusals are told in words on standard error. `:help` lists the commands.
"""
STATUSES = """\
status: 0 at the end of the script; 1 with --strict at the first refusal; 2 where there is no such program; else that of
the program (docs/SCRIPT.md).
"""


def edited() -> None:
    """Line editing and a history on a terminal, where there is `readline`."""
    try:
        import atexit
        import readline
    except ImportError:
        return
    file = os.path.expanduser(HISTORY)

    def keep() -> None:
        try:
            readline.write_history_file(file)
        except OSError as error:
            print(f"{file}: {error.strerror}", file=sys.stderr)

    def complete(begun: str, number: int) -> Optional[str]:
        found = completions(readline.get_line_buffer()[: readline.get_begidx()], begun)
        return found[number] + " " if number < len(found) else None

    readline.set_completer_delims(" ")
    readline.set_completer(complete)
    readline.parse_and_bind("tab: complete")
    readline.set_history_length(KEPT)
    try:
        readline.read_history_file(file)
    except OSError:
        pass  # there is none yet
    atexit.register(keep)


def words() -> argparse.Namespace:
    form = argparse.RawDescriptionHelpFormatter
    parser = argparse.ArgumentParser("python3 -m deltagraph", description=ABOUT, epilog=STATUSES, formatter_class=form)
    parser.add_argument("index", metavar="INDEX", help="the index file")
    parser.add_argument("--strict", action="store_true", help="end with status 1 at the first refusal")
    parser.add_argument("--checked", action="store_true", help="verify the file first")
    parser.add_argument("--cache", type=int, default=0, metavar="N", help="keep N ranges of the file in memory (0)")
    parser.add_argument("--program", metavar="FILE", help="the program; else $DELTAGRAPH, or deltagraph on the PATH")
    return parser.parse_args()


def main() -> int:
    options = words()
    if sys.stdin is None:
        print("deltagraph: reading the script failed", file=sys.stderr)
        return STATUS_SOURCE
    typed = sys.stdin.isatty() and sys.stdout is not None and sys.stdout.isatty()
    lines: Lines = Typed()
    if not typed:
        lines = Script(iter(sys.stdin.buffer))
    try:
        with open_store(options.index, options.program, options.checked, options.cache) as store:
            if typed:
                if isinstance(sys.stdin, TextIOWrapper):
                    sys.stdin.reconfigure(errors="surrogateescape")
                edited()
            return FrontEnd(store, lines, typed, options.strict).run()
    except ProgramEnded as ended:
        print(f"deltagraph: {ended}", file=sys.stderr)
        return ended_status(ended)
    except SinkFailed as failed:
        print(f"deltagraph: {failed}", file=sys.stderr)
        return STATUS_SINK
    except KeyboardInterrupt:
        return STATUS_INTERRUPTED
    except DeltagraphError as error:
        print(f"deltagraph: {error}", file=sys.stderr)
        return STATUS_FAILED


if __name__ == "__main__":
    sys.exit(main())
