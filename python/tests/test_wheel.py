"""The wheel, built without a network."""
from __future__ import annotations

import importlib.util
import os
import stat
import subprocess
import sys
import tempfile
import unittest
import zipfile
from pathlib import Path
from types import ModuleType
from unittest import mock

from .support import program

FOLDER = Path(__file__).resolve().parents[1]


def backend() -> ModuleType:
    found = importlib.util.spec_from_file_location("wheel_backend", FOLDER / "wheel_backend.py")
    assert found is not None and found.loader is not None
    module = importlib.util.module_from_spec(found)
    found.loader.exec_module(module)
    return module


class WheelTests(unittest.TestCase):
    def test_it_has_every_module_and_runs(self) -> None:
        with tempfile.TemporaryDirectory() as folder:
            wheel = Path(folder) / backend().build_wheel(folder)
            with zipfile.ZipFile(wheel) as archive:
                names = set(archive.namelist())
            modules = {f"deltagraph/{path.name}" for path in (FOLDER / "deltagraph").glob("*.py")}
            self.assertLessEqual(modules | {"deltagraph/py.typed"}, names)
            ran = subprocess.run(
                [sys.executable, "-c", "import deltagraph; print(deltagraph.__version__)"],
                env={**os.environ, "PYTHONPATH": str(wheel)},
                cwd=folder,
                capture_output=True,
                text=True,
            )
            self.assertEqual(ran.stdout, f"{backend()._told('version')}\n", ran.stderr)

    def test_it_brings_a_program_along(self) -> None:
        with tempfile.TemporaryDirectory() as folder, mock.patch.dict(os.environ, {"DELTAGRAPH_IN_WHEEL": program()[0]}):
            wheel = Path(folder) / backend().build_wheel(folder)
            self.assertNotIn("-any.whl", wheel.name)
            with zipfile.ZipFile(wheel) as archive:
                archive.extractall(folder)
                held = archive.getinfo("deltagraph/bin/deltagraph")
            self.assertEqual(held.external_attr >> 16, stat.S_IFREG | 0o755)  # which pip keeps
            own = Path(folder) / "deltagraph" / "bin" / "deltagraph"
            self.assertEqual(own.read_bytes(), Path(program()[0]).read_bytes())
            own.chmod(0o755)
            code = "import deltagraph; s = deltagraph.open('x.dg'); s.create(); print(s.load(['1 +node 1']).events)"
            environment = {"PATH": "/usr/bin:/bin", "PYTHONPATH": folder}
            ran = subprocess.run([sys.executable, "-c", code], env=environment, cwd=folder, capture_output=True, text=True)
            self.assertEqual(ran.stdout, "1\n", ran.stderr)

    def test_equal_files_make_equal_wheels(self) -> None:
        with tempfile.TemporaryDirectory() as one, tempfile.TemporaryDirectory() as other:
            wheels = [(Path(folder) / backend().build_wheel(folder)).read_bytes() for folder in (one, other)]
        self.assertEqual(wheels[0], wheels[1])


if __name__ == "__main__":
    unittest.main()
