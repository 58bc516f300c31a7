"""The JSON objects of `solve` and `check` by docs/FORMATS.md, section 8, and a case with `--json` for one without it."""

import json

from harness import made_case

# The numbers of an answer's line.
ANSWERS = {
    "cost": ["cost"],
    "optimal": ["cost"],
    "within": ["bound", "cost"],
    "bound": ["bound"],
    "impossible": [],
}

# The numbers of the line of an error. Those that aren't here have no number, or the number of a line.
NUMBERS = {
    "M6": ["row"],
    "M7": ["column", "row"],
    "M8": ["rows"],
    "S2": ["row"],
    "S3": ["row", "field"],
    "S4": ["row"],
    "S5": ["row"],
    "S6": ["row"],
    "S7": ["rows"],
    "V1": ["agent"],
    "V2": ["agent", "tick"],
    "V3": ["agent"],
    "V4": ["agent", "other", "tick"],
    "V5": ["agent", "other", "tick"],
}

# The file that a code is about.
FILES = {
    "F1": "map",
    "F2": "scen",
    "C1": "plan",
    "C2": "cert",
    "C5": "plan",
    **{code: "cert" for code in ("C6", "C7", "C8", "C9", "C10")},
}


def object_text(line):
    """The line of standard output with `--json`, for the line that is printed without it."""
    return json.dumps(members_of(line.decode().split()), separators=(",", ":")).encode() + b"\n"


def members_of(words):
    first, *rest = words
    if first in ANSWERS:
        return {"verdict": first, **numbers(ANSWERS[first], rest)}
    if first == "limit":
        splits, _, bound = rest
        cause = {"cause": "ticks"} if splits == "ticks" else {"cause": "splits", "splits": int(splits)}
        return {"verdict": first, **cause, "bound": int(bound)}
    if first == "refused":
        return {"verdict": first, "refusal": rest[0], **details(*rest)}
    return {"verdict": "fault", "fault": first, **details(*words)}


def details(code, *rest):
    """What a code is followed by: the name of a file, or an error and its numbers."""
    if code in ("F4", "F5"):
        return {"file": rest[0]}
    errors = [word for word in rest if not word.isdigit()]
    found = {"error": error for error in errors} | ({"file": FILES[code]} if code in FILES else {})
    values = rest[len(errors):]
    return found | numbers(NUMBERS.get(found.get("error"), ["line"] * len(values)), values)


def numbers(names, values):
    return dict(zip(names, map(int, values), strict=True))


def line_of(case):
    """The line that is wanted of a run, on standard output or as the fault on standard error, None if there is none."""
    lines = [case.wanted(stream) or b"" for stream in ("stdout", "stderr")]
    return next((line for line in lines if line and not line.startswith(b"error: ")), None)


def is_told(case):
    """Whether a case is a run of `solve` or `check` of which is known what it prints, or that it can't print it."""
    return case.words[:1] in (["solve"], ["check"]) and ("stdout" in case.places or line_of(case) is not None)


def in_json(case, folder):
    """The case with `--json`, in a folder of its own inside this one."""
    texts = {path.name: path.read_bytes() for path in case.folder.iterdir() if path.is_file()}
    command, words = texts["words"].split(b" ", 1)
    texts["words"] = command + b" --json " + words
    if "stdout" not in case.places:
        texts["stdout"] = object_text(line_of(case))
    return made_case(folder, f"{case.name}-in-json", texts)
