"""Tries the tools under a Python that is older than they need: they end with status 2 and a line that says so."""

import ast
import shutil
import subprocess
import sys

from harness import TESTS

TOP = TESTS.parent
TOOLS = ("tools/verify", "tools/draw", "tools/sweep", "tools/recheck", "tools/trim", "tools/manual", "tools/uncycle",
         "dist", "examples/make_benchmark")

# The Python of which a file may have the forms: one reads the whole file before it runs the first line.
FORMS = (3, 7)

OLD = ("python3.9", "python3.8", "python3.7")

# Runs a file of which the name follows, as if this Python were an old one.
AS_OLD = ("import runpy, sys; sys.version_info, sys.version = (3, 9, 2, 'final', 0), '3.9.2 (old)'; del sys.argv[0]; "
          "sys.path[0] = sys.argv[0].rpartition('/')[0]; runpy.run_path(sys.argv[0], run_name='__main__')")


def tests(tally):
    for name in TOOLS:
        tally.add(f"python, {name} as if by 3.9.2", told_faults([sys.executable, "-c", AS_OLD], name, "3.9.2"))
    for name in (*TOOLS, "tools/in_tree.py"):
        tally.add(f"python, the forms of {name}", newer_forms(name))
    old = next(filter(is_there, OLD), None)
    if old is None:
        tally.skip("python, an old one", f"none of {', '.join(OLD)} is installed")
        return
    for name in TOOLS:
        tally.add(f"python, {name} by {old}", told_faults([old], name, old.removeprefix("python")))


def is_there(python):
    """A name may be there and lead to no Python."""
    return shutil.which(python) is not None and subprocess.run([python, "-c", ""], capture_output=True).returncode == 0


def told_faults(python, name, version):
    ended = subprocess.run([*python, str(TOP / name), "--help"], stdin=subprocess.DEVNULL, capture_output=True,
                           text=True)
    wanted = f"{name.rpartition('/')[2]}: needs Python 3.10 or later, and this is {version}"
    is_told = ended.stderr.startswith(wanted) and ended.stderr.count("\n") == 1
    if ended.returncode == 2 and is_told and not ended.stdout:
        return []
    return [f"status {ended.returncode}, {ended.stdout[-100:]!r}, {ended.stderr[-300:]!r}"]


def newer_forms(name):
    """What of a file an old Python can't read, so that it never comes to the line that says so."""
    try:
        ast.parse((TOP / name).read_text(), name, feature_version=FORMS)
    except SyntaxError as error:
        return [str(error)]
    return []
