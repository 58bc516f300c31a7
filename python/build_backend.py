"""Builds the package mapf in the form in which pip asks for it (PEP 517), with cargo and the standard library alone.
The same sources and the same folder of cargo's give the same bytes each time. An older Python than the package needs
has to come as far as the metadata, by which pip says so.
"""

from __future__ import annotations

import base64
import gzip
import hashlib
import io
import json
import os
import re
import subprocess
import sysconfig
import tarfile
import zipfile
from pathlib import Path

TOP = Path(__file__).resolve().parent.parent
COMMANDS = "draw", "manual", "recheck", "sweep", "trim", "uncycle", "verify"

# The files of Python, and those that a source archive has beside these and what cargo packs.
PACKAGES = "python/mapf", "python/mapf_tools"
SOURCES = "pyproject.toml", "python/build_backend.py", *(f"tools/{name}" for name in (*COMMANDS, "in_tree.py"))
ENDINGS = ".py", ".typed", ".css", ".html", ".js"

# The words by which cargo makes the program and the library for C.
PROGRAM = "build", "--bin", "mapf"
LIBRARY = "rustc", "--lib", "--features", "c", "--crate-type", "cdylib"

SUMMARY = "Optimal multi-agent path finding (MAPF) on grids, with certificates that anyone can check"

# How many lines of a build that failed are told.
LAST = 20


def prepare_metadata_for_build_wheel(metadata_directory: str, config_settings: dict[str, object] | None = None) -> str:
    """Writes what describes the package into that folder, and answers the name of the folder in it."""
    name = f"mapf-{version()}.dist-info"
    for path, data in information().items():
        file = Path(metadata_directory, name, path)
        file.parent.mkdir(parents=True, exist_ok=True)
        file.write_bytes(data)
    return name


def build_wheel(wheel_directory: str, config_settings: dict[str, object] | None = None,
                metadata_directory: str | None = None) -> str:
    """Makes the wheel in that folder and answers its name."""
    name, tag = f"mapf-{version()}", wheel_tag()
    program, library = built(*PROGRAM), built(*LIBRARY)
    files = {path.removeprefix("python/"): data for path, data in package_files().items()} | {
        f"mapf/{library.name}": library.read_bytes(),
        f"{name}.data/scripts/{program.name}": program.read_bytes(),
        **{f"{name}.dist-info/{path}": data for path, data in information().items()},
    }
    record = f"{name}.dist-info/RECORD"
    files[record] = "".join([*(record_line(path, data) for path, data in files.items()), f"{record},,\n"]).encode()
    with zipfile.ZipFile(Path(wheel_directory, f"{name}-{tag}.whl"), "w", zipfile.ZIP_DEFLATED) as archive:
        for path, data in files.items():
            entry = zipfile.ZipInfo(path)
            entry.compress_type = zipfile.ZIP_DEFLATED
            entry.external_attr = (0o100755 if "/scripts/" in path else 0o100644) << 16
            archive.writestr(entry, data)
    return f"{name}-{tag}.whl"


def build_sdist(sdist_directory: str, config_settings: dict[str, object] | None = None) -> str:
    """Makes the source archive in that folder and answers its name."""
    name = f"mapf-{version()}"
    crate = cargo("package", "--list", "--allow-dirty", "--offline").splitlines()
    files = {path: (TOP / path).read_bytes() for path in (*crate, *SOURCES) if (TOP / path).is_file()}
    files |= package_files() | {"PKG-INFO": metadata()}
    plain = io.BytesIO()
    with tarfile.open(fileobj=plain, mode="w", format=tarfile.PAX_FORMAT) as archive:
        for path, data in sorted(files.items()):
            entry = tarfile.TarInfo(f"{name}/{path}")
            entry.size = len(data)
            entry.mode = 0o755 if os.access(TOP / path, os.X_OK) else 0o644
            archive.addfile(entry, io.BytesIO(data))
    Path(sdist_directory, f"{name}.tar.gz").write_bytes(gzip.compress(plain.getvalue(), mtime=0))
    return f"{name}.tar.gz"


# What cargo makes.

def built(*words: str) -> Path:
    """The program, or the library for C, that cargo makes by these words."""
    oldest, own = stated("rust-version"), re.findall("[0-9]+", cargo("--version"))
    if [int(number) for number in own[:2]] < [int(number) for number in oldest.split(".")[:2]]:
        raise SystemExit(f"cargo {'.'.join(own[:2])} is too old for mapf, which needs Rust {oldest} or later")
    lines = cargo(*words, "--release", "--locked", "--offline", "--message-format", "json-render-diagnostics")
    made = [told for told in map(json.loads, lines.splitlines()) if told["reason"] == "compiler-artifact"]
    return Path(made[-1]["filenames"][0])  # what it makes of other things comes first


def cargo(*words: str) -> str:
    """What cargo prints by these words."""
    try:
        ended = subprocess.run(["cargo", *words], cwd=TOP, stdin=subprocess.DEVNULL, capture_output=True, text=True)
    except FileNotFoundError:
        raise SystemExit("mapf is built by cargo, which isn't on the path: install Rust, or put cargo there") from None
    if ended.returncode:
        last = "\n".join(ended.stderr.splitlines()[-LAST:])
        raise SystemExit(f"mapf can't be built, since cargo {words[0]} failed with status {ended.returncode}:\n{last}")
    return ended.stdout


def stated(name: str) -> str:
    """What Cargo.toml states first of this name."""
    return re.search(f'(?m)^{name} = "(.+)"$', (TOP / "Cargo.toml").read_text(encoding="utf-8"))[1]


def version() -> str:
    """The version of Cargo.toml, as Python spells it: 1.1.0-dev is 1.1.0.dev0."""
    return stated("version").replace("-dev", ".dev0")


# What the package tells of itself.

def package_files() -> dict[str, bytes]:
    """The files of Python by their names."""
    paths = sorted(path for name in PACKAGES for path in (TOP / name).rglob("*") if path.suffix in ENDINGS)
    return {path.relative_to(TOP).as_posix(): path.read_bytes() for path in paths}


def information() -> dict[str, bytes]:
    """The files that describe the wheel."""
    wheel = f"Wheel-Version: 1.0\nGenerator: build_backend\nRoot-Is-Purelib: false\nTag: {wheel_tag()}\n"
    return {
        "METADATA": metadata(),
        "WHEEL": wheel.encode(),
        "entry_points.txt": entry_points(),
        "licenses/LICENSE": (TOP / "LICENSE").read_bytes(),
    }


def wheel_tag() -> str:
    """For what the wheel is: for each Python 3 on this platform."""
    return f"py3-none-{re.sub('[-.]', '_', sysconfig.get_platform())}"


def metadata() -> bytes:
    """The name, the version and so on."""
    return (f"Metadata-Version: 2.4\nName: mapf\nVersion: {version()}\nSummary: {SUMMARY}\nLicense-Expression: MIT\n"
            "License-File: LICENSE\nRequires-Python: >=3.10\nProvides-Extra: dask\n"
            "Requires-Dist: distributed; extra == 'dask'\n").encode()


def entry_points() -> bytes:
    """The commands: mapf-draw and so on."""
    lines = [f"mapf-{name} = mapf.tools.{name}:command\n" for name in COMMANDS]
    return "".join(["[console_scripts]\n", *lines]).encode()


def record_line(path: str, data: bytes) -> str:
    """The line by which an installer compares a file with its checksum."""
    digest = base64.urlsafe_b64encode(hashlib.sha256(data).digest()).rstrip(b"=").decode()
    return f"{path},sha256={digest},{len(data)}\n"
