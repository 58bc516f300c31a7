"""Command lines drawn by lot: mostly right ones that were changed in some places, always the same by their numbers."""

import random

# The files that stand in the folder in which a line is run; `folder` is one that is empty, and `missing` isn't there.
FILES = ("map", "scen", "plan", "cert", "events")

# Links there to devices. No line names a device itself: a faulty program could remove one, as root.
DEVICES = {"null": "/dev/null", "full": "/dev/full"}

# A right line of each command, of which some files are read, and others written.
RIGHT = [
    "solve map scen 2 10 new-plan new-cert", "solve --search cbsh map scen 2 10 new-plan new-cert",
    "solve --search=cbsh --improve 3 map scen 2 0 new-plan new-cert", "solve map scen 2 10 new-plan new-cert --json",
    "check map scen 2 plan cert", "check --json map scen 2 plan cert", "play map scen 2 plan",
    "dispatch map scen 2 plan events", "follow map scen 2 plan", "explain", "help", "--help", "--version", "",
]

COMMANDS = ["solve", "check", "play", "dispatch", "follow", "explain", "help"]

OPTIONS = [
    "--search", "--search=cbs", "--search=cbsh", "--search=", "--search=CBS", "--sear=cbs", "--improve",
    "--improve=0", "--improve=1000001", "--improve=-1", "--improve=x", "--imp", "--json", "--json=true", "--jso",
    "-j", "-h", "--help", "--hel", "-V", "--version", "-hV", "-hx", "-Vh", "-x", "--", "---", "-", "--limit",
    "--seach", "--=", "--search=cbs=x",
]

NUMBERS = [
    "0", "1", "2", "3", "10", "200", "201", "100000", "100001", "-1", "+2", "02", "2.0", "1e1", "two", "0x2", " 2",
    "4294967296", "4294967298", "18446744073709551615", "18446744073709551616", "9" * 40,
]

PLACES = [
    *FILES, "new-plan", "new-cert", "./map", "./new-plan", "missing", "folder", "folder/new", "missing/new", "map/",
    *DEVICES, ".",
]

LINES = [
    "cost 5", "optimal 5", "F2 S7 32", "F1 M7 1 2", "F6", "F9", "refused C2 K1 3", "refused C9", "impossible",
    "within 4 5", "limit 3 bound 4", "limit ticks bound 4", "go 1 1,1", "hold 0 by 1", "done 2", "cycle 1 2", "cost",
    "cost  5", "cost 5\n", "cost 99999999999999999999", "error E1 4", "E1 4",
]

# Words that nothing expects: spellings near to a command, other signs, bytes that are no UTF-8, a long one.
STRANGE = [
    "", " ", "solv", "Solve", "sovle", "chekc", "plays", "hlep", "caf\u00e9", "\u2028", "\udcff\udcfe", "a\nb", "'",
    '"', "*", "x" * 300, "\t", "\x1b[31m", "=", "solve=map",
]


def drawn_line(number):
    """The words of the line of this number."""
    lot = random.Random(f"command line {number}")
    words = lot.choice(RIGHT).split()
    if words[:1] == ["explain"]:
        words.append(lot.choice(LINES))
    for _ in range(lot.choice((0, 1, 1, 2, 3, 5))):
        words = lot.choice(CHANGES)(lot, words)
    return words


def put_in(lot, words):
    """One more word, of any kind."""
    at = lot.randint(0, len(words))
    return [*words[:at], any_word(lot), *words[at:]]


def put_option_in(lot, words):
    """One more option."""
    at = lot.randint(0, len(words))
    return [*words[:at], lot.choice(OPTIONS), *words[at:]]


def replace(lot, words):
    """Another word in place of one."""
    at = lot.randrange(len(words)) if words else 0
    return [*words[:at], any_word(lot), *words[at + 1:]]


def replace_number(lot, words):
    """Another number in place of one, where there is any."""
    places = [at for at, word in enumerate(words) if word.isdigit()]
    if not places:
        return words
    at = lot.choice(places)
    return [*words[:at], lot.choice(NUMBERS), *words[at + 1:]]


def leave_out(lot, words):
    """A word less."""
    at = lot.randrange(len(words)) if words else 0
    return [*words[:at], *words[at + 1:]]


def double(lot, words):
    """A word twice."""
    at = lot.randrange(len(words)) if words else 0
    return [*words[:at + 1], *words[at:]]


def exchange(lot, words):
    """Two words change places."""
    words = list(words)
    if len(words) > 1:
        one, other = lot.sample(range(len(words)), 2)
        words[one], words[other] = words[other], words[one]
    return words


def any_word(lot):
    return lot.choice(lot.choice([COMMANDS, OPTIONS, NUMBERS, PLACES, LINES, STRANGE]))


CHANGES = [put_in, put_option_in, replace, replace_number, leave_out, double, exchange]
