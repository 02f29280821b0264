"""Runs all tests, and ends with a line that counts them.

  python3 python/tests/run.py          status 1 where one failed
"""
from __future__ import annotations

import sys
import unittest
from pathlib import Path

ROOT = Path(__file__).resolve().parents[1]


def main() -> int:
    sys.path.insert(0, str(ROOT))
    sys.dont_write_bytecode = True
    found = unittest.defaultTestLoader.discover(str(ROOT / "tests"), top_level_dir=str(ROOT))
    result = unittest.TextTestRunner(stream=sys.stdout).run(found)
    for test, reason in result.skipped:
        print(f"left out: {test.id()}: {reason}")
    # A test may fail in several of its parts.
    failed = len({test.id().split(" ")[0] for test, _ in [*result.failures, *result.errors]})
    left = f", {len(result.skipped)} left out" if result.skipped else ""
    print(f"python: {result.testsRun - failed - len(result.skipped)} passed, {failed} failed{left}")
    return 1 if failed or not result.testsRun else 0


if __name__ == "__main__":
    sys.exit(main())
