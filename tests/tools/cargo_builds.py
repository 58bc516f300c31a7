"""What cargo makes for the tests, in a folder outside of the tree."""

import atexit
import contextlib
import functools
import os
import shutil
import tempfile
from pathlib import Path

from harness import TESTS

import build_backend

# Where ./library puts the library for C.
SHARED = TESTS.parent / "out" / "libmapf.so"


@functools.cache
def folder():
    """The folder in which cargo builds: that of CARGO_TARGET_DIR, or one that is removed at the end."""
    if "CARGO_TARGET_DIR" not in os.environ:
        os.environ["CARGO_TARGET_DIR"] = tempfile.mkdtemp(prefix="mapf-cargo-")
        atexit.register(shutil.rmtree, os.environ["CARGO_TARGET_DIR"], ignore_errors=True)
    return Path(os.environ["CARGO_TARGET_DIR"])


@functools.cache
def library():
    """The library for C: the one that MAPF_LIBRARY names, or the one that ./library has made, or else one by cargo.
    None where cargo isn't there.
    """
    if named := os.environ.get("MAPF_LIBRARY"):
        return Path(named)
    if SHARED.exists():
        return SHARED
    if shutil.which("cargo") is None:
        return None
    folder()
    return build_backend.built(*build_backend.LIBRARY)


@contextlib.contextmanager
def taken_library():
    """Has the package `mapf` take that library, and gives its file, None where there is none."""
    was, file = os.environ.get("MAPF_LIBRARY"), library()
    if file is not None:
        os.environ["MAPF_LIBRARY"] = str(file)
    try:
        yield file
    finally:
        os.environ.pop("MAPF_LIBRARY", None)
        os.environ.update({} if was is None else {"MAPF_LIBRARY": was})
