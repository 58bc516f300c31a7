"""The error of this package, and the words for the codes by which the program and the library tell what is wrong."""

import re

# What the first word of a code is about, behind which the words for the second one stand if there is one.
SUBJECTS = {
    "F1": "the map can't be used",
    "F2": "the scenario can't be used",
    "F3": "the plan can't be judged",
    "F4": "a text is too long",
    "F6": "there isn't enough memory",
    "F10": "a number is out of its range",
    "C1": "the plan text has an error",
    "C2": "the certificate has an error",
    "C3": "the number of agents of the plan text or of the certificate isn't that of the problem",
    "C4": "the claim of the certificate doesn't fit the plan text, or that has a limit of version 1",
    "C5": "the plan isn't valid",
    "C6": "line # of the certificate is a split that isn't allowed",
    "C7": "line # of the certificate is an entry or a cell that the rules don't allow",
    "C8": "the leaf at line # of the certificate doesn't show what it has to",
    "C9": "the clash at line # of the certificate is none",
    "C10": "line # of the certificate isn't allowed where it stands",
}

# What the second word says. A # is the next number of the code.
DEFECTS = {
    "M1": "line 1 isn't 'type octile'",
    "M2": "line 2 isn't 'height' and digits",
    "M3": "line 3 isn't 'width' and digits",
    "M4": "the size in line # is out of range",
    "M5": "line 4 isn't 'map'",
    "M6": "row # hasn't as many characters as line 3 says; rows are counted from 0",
    "M7": "the character in column # of row # is no terrain; both are counted from 0",
    "M8": "the text ends after # rows, before the height that line 2 says",
    "M9": "line # comes after the rows and isn't blank",
    "S1": "it doesn't begin with 'version 1'",
    "S2": "row # hasn't nine words; rows are counted from 0",
    "S3": "in row # field # isn't a number from 0 to 4294967295; rows are counted from 0, fields from 1",
    "S4": "the size in row # isn't that of the map; rows are counted from 0",
    "S5": "the start or the goal in row # is outside the map or blocked; rows are counted from 0",
    "S6": "field 9 of row # isn't a decimal number; rows are counted from 0",
    "S7": "the text ends after # rows, and each agent needs one",
    "P1": "line # has another shape than it must have, or doesn't fit",
    "P2": "the text ends where line # should begin, or before its end",
    "P3": "a number in line # is out of range",
    "P4": "something follows the line 'end'; it begins at line #",
    "K1": "line # has another shape than it must have, or is out of place",
    "K2": "the text ends where line # should begin, or before its end",
    "K3": "a number in line # is out of range",
    "K4": "something follows the line 'end'; it begins at line #",
    "V1": "the path of agent # doesn't begin at the agent's start",
    "V2": "the step of agent # from tick # on is neither a wait nor a move to an adjacent free cell",
    "V3": "the path of agent # doesn't end at the agent's goal",
    "V4": "vertex conflict: agents # and # are in one cell at tick #",
    "V5": "swapping conflict: agents # and # exchange their cells from tick # to the next",
    "map": "the map",
    "scen": "the scenario",
    "plan": "the plan text",
    "cert": "the certificate",
    "none": "the plan text holds no plan",
    "count": "the number of agents of the plan text isn't that of the problem",
}


class MapfError(ValueError):
    """Why a call has no answer. Its text is a sentence, with the code in brackets if what is wrong has one.

    `code` is that code: the line by which the program tells the same, as 'F2 S5 0' or 'refused C8 12'. docs/FORMATS.md,
    section 8, lists them. It is None if no text could have this error, as of 201 agents.
    """

    def __init__(self, words: str, code: str | None = None) -> None:
        super().__init__(f"{words} ({code})" if code else words)
        self.code = code


def error_of(code: str) -> Exception:
    """The error of a code: a `MemoryError` if memory ran out, else a `MapfError`."""
    words = words_of(code)
    return MemoryError(words) if code == "F6" else MapfError(words, code)


def words_of(code: str) -> str:
    """What a code of the program means, in words."""
    names = [word for word in code.removeprefix("refused ").split() if not word.isdigit()]
    numbers = iter(word for word in code.split() if word.isdigit())
    words = ": ".join([SUBJECTS[names[0]], *(DEFECTS[name] for name in names[1:])])
    return re.sub("#", lambda _: next(numbers), words)
