"""Tries tools/recheck on the certificates of version 3 in version3/: it has to give the verdict that is written beside
each of them.
"""

from harness import TESTS

from mapf.tools import recheck


def tests(tally):
    for folder in sorted((TESTS / "version3").iterdir()):
        tally.add(f"recheck 3, {folder.name}", faults(folder))


def faults(folder):
    """What recheck says of a certificate, where that isn't what is wanted."""
    agents = int((folder / "words").read_text().split()[3])
    files = [str(folder / name) for name in ("map", "scen", "plan", "cert")]
    _, said, status = recheck.answer(files, agents)
    wanted = (folder / "stdout").read_text().removesuffix("\n")
    return [] if (said, status) == (wanted, 0) else [f"it says {said!r} with status {status}, wanted {wanted!r}"]
