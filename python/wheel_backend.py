"""Builds the wheel of the package with the standard library alone, so that an installation needs no network.

The hooks are those of PEP 517; the metadata are read from pyproject.toml, whose values stand on one line each.
"""
from __future__ import annotations

import base64
import hashlib
import io
import os
import re
import stat
import sysconfig
import tarfile
import zipfile
from pathlib import Path
from typing import Any, Optional

HERE = Path(__file__).resolve().parent
PACKAGE = "deltagraph"
# The variables that name built programs, which the wheel then brings along, and their places in it.
PROGRAMS = {
    "DELTAGRAPH_IN_WHEEL": f"{PACKAGE}/bin/deltagraph",
    "DELTAGRAPH_DUMP_IN_WHEEL": f"{PACKAGE}/bin/deltagraph-dump",
}
MOMENT = (1980, 1, 1, 0, 0, 0)  # the earliest that a zip file can tell: equal files make equal wheels


def _told(key: str) -> str:
    """The value of a key of pyproject.toml that is a text."""
    found = re.search(rf'^{key} = "(.*)"$', (HERE / "pyproject.toml").read_text("utf-8"), re.MULTILINE)
    if found is None:
        raise ValueError(f"pyproject.toml has no {key}")
    return found.group(1)


def _metadata() -> str:
    lines = [
        "Metadata-Version: 2.1",
        f"Name: {_told('name')}",
        f"Version: {_told('version')}",
        f"Summary: {_told('description')}",
        "License: MIT",
        f"Requires-Python: {_told('requires-python')}",
        "Description-Content-Type: text/markdown",
    ]
    extras = [("bars", ["tqdm"]), ("graphs", ["networkx", "igraph"]), ("tables", ["numpy", "pandas"])]
    extras.append(("clusters", ["dask", "distributed", "numpy", "pandas"]))
    for extra, names in extras:
        lines.append(f"Provides-Extra: {extra}")
        lines += [f'Requires-Dist: {name}; extra == "{extra}"' for name in names]
    return "\n".join(lines) + "\n\n" + (HERE / "README.md").read_text("utf-8")


def _sources() -> list[Path]:
    return sorted(path for path in (HERE / PACKAGE).iterdir() if path.suffix == ".py" or path.name == "py.typed")


def build_wheel(wheel_directory: str, config_settings: Any = None, metadata_directory: Optional[str] = None) -> str:
    """Writes the wheel into a folder, and gives its name."""
    stem = f"{PACKAGE}-{_told('version')}"
    files = {f"{PACKAGE}/{path.name}": path.read_bytes() for path in _sources()}
    programs = {place: Path(os.environ[name]).read_bytes() for name, place in PROGRAMS.items() if os.environ.get(name)}
    files.update(programs)
    tag = "py3-none-" + (re.sub("[-.]", "_", sysconfig.get_platform()) if programs else "any")
    files[f"{stem}.dist-info/METADATA"] = _metadata().encode()
    files[
        f"{stem}.dist-info/WHEEL"
    ] = f"Wheel-Version: 1.0\nGenerator: {Path(__file__).stem}\nRoot-Is-Purelib: {str(not programs).lower()}\nTag: {tag}\n".encode()
    record = f"{stem}.dist-info/RECORD"
    rows = []
    for name, content in files.items():
        digest = base64.urlsafe_b64encode(hashlib.sha256(content).digest()).rstrip(b"=").decode()
        rows.append(f"{name},sha256={digest},{len(content)}\n")
    files[record] = "".join([*rows, f"{record},,\n"]).encode()
    wheel = f"{stem}-{tag}.whl"
    with zipfile.ZipFile(Path(wheel_directory) / wheel, "w", zipfile.ZIP_DEFLATED) as archive:
        for name, content in files.items():
            entry = zipfile.ZipInfo(name, MOMENT)
            entry.compress_type = zipfile.ZIP_DEFLATED
            entry.external_attr = (stat.S_IFREG | (0o755 if name in programs else 0o644)) << 16  # pip asks for both
            archive.writestr(entry, content)
    return wheel


def build_sdist(sdist_directory: str, config_settings: Any = None) -> str:
    """Writes an archive of what a wheel is built from into a folder, and gives its name."""
    stem = f"{PACKAGE}-{_told('version')}"
    own = [HERE / name for name in ("pyproject.toml", "README.md", Path(__file__).name)]
    with tarfile.open(Path(sdist_directory) / f"{stem}.tar.gz", "w:gz") as archive:
        for path in [*own, *_sources()]:
            archive.add(path, f"{stem}/{path.relative_to(HERE)}")
        content = _metadata().encode()
        entry = tarfile.TarInfo(f"{stem}/PKG-INFO")
        entry.size = len(content)
        archive.addfile(entry, io.BytesIO(content))
    return f"{stem}.tar.gz"
