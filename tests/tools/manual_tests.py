"""Tries tools/manual: that the man page and the completions have each command and option that the help of the program
tells, and no other, also of a stand-in whose help has more forms; that man, mandoc and groff warn of nothing; and what
bash, zsh and fish offer, where they are there.
"""

import os
import re
import shutil
import subprocess
import sys
import tempfile
from pathlib import Path

from harness import TESTS
from shells import ZshSession, offered_by_bash, offered_by_fish

MANUAL = TESTS.parent / "tools" / "manual"

PAGE = "man/man1/mapf.1"
BASH, ZSH, FISH = ("bash-completion/completions/mapf", "zsh/site-functions/_mapf",
                   "fish/vendor_completions.d/mapf.fish")

# The arguments that name files.
FILES = {"MAP", "SCEN", "PLAN", "CERT", "EVENTS"}

# What may stand for the value of an option.
VALUES = {"--search": {"cbs", "cbsh"}}

# How the page is tried: a command that is silent where nothing is wrong.
CHECKERS = (["mandoc", "-T", "lint", "-W", "warning"], ["groff", "-ww", "-man", "-Tutf8", "-z"],
            ["man", "--warnings", "-E", "UTF-8", "-l", "-Tutf8", "-Z"])

# A program whose help is laid out as the parser of the command line does it, with forms that mapf has not.
STAND_IN = r"""#!/bin/sh
case "$1" in
  --version) echo 'mapf 9.8.7' ;;
  --help) cat <<'END'
Tries out 'all' that a help may have. It's a stand-in: C:\x ^ ~ `y`.

Usage: mapf [COMMAND]

Commands:
  solve     Solves it, [mostly]: 'as it is'
  go-on     Goes on
  help      Print this message or the help of the given subcommand(s)

Options:
  -h, --help     Print help
  -V, --version  Print version

Files:
  MAP   the grid
  PLAN  the plan, or for none
        .nothing

Exit status:
  0  solved
END
    ;;
  solve) cat <<'END'
Solves it, [mostly]: 'as it is'

Usage: mapf solve [OPTIONS] <MAP> <K> [PLAN]

Arguments:
  <MAP>   The grid
  <K>     How many agents, 1 to 200
  [PLAN]  The plan

Options:
      --search <NAME>                     The search: cbs or cbsh
      --a-name-that-is-long-and-longer <N>
          The name isn't the only thing that takes several
          lines: --search is as 'C:\x' [default: 1]
  -q, --quiet                             Says nothing
      --json                              Tells {"cost": 5}
  -h, --help                              Print help

It prints
  .  a line that begins with a stop
and after that
  x y  another one, of which more
       is said here
and at last

Example:
  printf 'a\n' | mapf solve - 1
  mapf solve a 1
    does it

Exit status:
  0  solved
END
    ;;
  go-on) cat <<'END'
Goes on

Usage: mapf go-on <PLAN> <WORD>

Arguments:
  <PLAN>  The plan
  <WORD>  The word

Options:
  -h, --help  Print help
END
    ;;
esac
"""


def tests(tally):
    with tempfile.TemporaryDirectory() as name:
        folder = Path(name)
        stand_in = folder / "stand-in"
        stand_in.write_text(STAND_IN)
        stand_in.chmod(0o755)
        for title, program in (("mapf", os.environ["MAPF"]), ("a stand-in", str(stand_in))):
            try_of(tally, title, Told(program), folder / title)
        tally.add("manual, errors", error_faults(folder))


def try_of(tally, title, told, folder):
    """Tries what is written of a program."""
    ended = manual([str(folder)], told.program)
    faults = written_faults(ended, folder)
    tally.add(f"manual, of {title}", faults)
    if faults:
        return
    tally.add(f"manual, the page of {title}", page_faults(told, (folder / PAGE).read_text()))
    for words in CHECKERS:
        if shutil.which(words[0]):
            tally.add(f"manual, the page of {title} by {words[0]}", warnings_of([*words, str(folder / PAGE)]))
        else:
            tally.skip(f"manual, the page of {title} by {words[0]}", "it isn't installed")
    tally.add(f"manual, bash after {title}", bash_faults(told, folder / BASH))
    if shutil.which("fish"):
        tally.add(f"manual, fish after {title}", fish_faults(told, folder / FISH))
    else:
        tally.skip(f"manual, fish after {title}", "it isn't installed")
    if shutil.which("zsh"):
        with ZshSession(folder / ZSH) as zsh:
            tally.add(f"manual, zsh after {title}", zsh_faults(told, zsh))
    else:
        tally.skip(f"manual, zsh after {title}", "it isn't installed")


def manual(words, program):
    """A run of the tool."""
    return subprocess.run([sys.executable, str(MANUAL), *words], stdin=subprocess.DEVNULL, capture_output=True,
                          text=True, env={**os.environ, "MAPF": program, "SOURCE_DATE_EPOCH": "86400"})


def written_faults(ended, folder):
    names = [str(folder / name) for name in (PAGE, BASH, ZSH, FISH)]
    there = sorted(str(path) for path in folder.rglob("*") if path.is_file())
    is_right = ended.returncode == 0 and ended.stdout.split("\n")[:-1] == names and there == sorted(names)
    return [] if is_right else [f"status {ended.returncode}, {ended.stdout!r}, {ended.stderr!r}, there is {there}"]


def error_faults(folder):
    """What isn't mapf, a folder that can't be made, and wrong words are told, and end with status 2."""
    faults = []
    for words, program, said in ((["/dev/null/x"], os.environ["MAPF"], "can't be written"),
                                 ([str(folder / "none")], "/bin/true", "isn't mapf"), ([], "/bin/true", "usage: ")):
        ended = manual(words, program)
        if ended.returncode != 2 or said not in ended.stderr or ended.stdout or (folder / "none").exists():
            faults.append(f"{words}: status {ended.returncode}, {ended.stderr!r}")
    return faults


# What the help tells, read once more.

class Told:
    """What a program's help tells."""

    def __init__(self, program):
        self.program = program
        self.commands = re.findall(r"(?m)^ {2}([\w-]+)", self.list_of("Commands"))

    def help(self, *words):
        """The help of the program, or of a command."""
        return subprocess.run([self.program, *words, "--help"], check=True, capture_output=True, text=True).stdout

    def list_of(self, heading, *words):
        """The rows below this heading."""
        return re.search(rf"(?s)\n{heading}:\n(.*?)(?:\n\n|\Z)", self.help(*words))[1]

    def options(self, *words):
        """The options by all their names."""
        rows = re.findall(r"(?m)^ {2}(?:(-\w), | {4})(--[\w-]+)", self.list_of("Options", *words))
        return {name for row in rows for name in row if name}

    def asked(self):
        """The commands that have a help, each with the names of its arguments and with its options."""
        for command in self.commands:
            if command != "help":
                usage = re.search(r"\nUsage: (.*)", self.help(command))[1].replace("[OPTIONS]", "")
                yield command, re.findall(r"[<\[](\w+)", usage), self.options(command)


# The page.

def page_faults(told, page):
    """The commands, the options of each and every line of the help, as the page has them."""
    parts = re.split(r"(?m)^\.SS ", page[page.index(".SH COMMANDS"):page.index(".SH OPTIONS")])[1:]
    found = {plain(part.partition("\n")[0]): options_in(part) for part in parts}
    wanted = {command: options for command, _, options in told.asked()} | {"help": set()}
    faults = [] if found == wanted else [f"it has {found}"]
    own = options_in(page[page.index(".SH OPTIONS"):page.index(".SH FILES")])
    faults += [] if own == told.options() else [f"the program has {own}"]
    words = words_of(page)
    faults += [f"{line!r} isn't there" for line in lines_told(told) if line not in words]
    for command, part in zip(found, parts):
        if command != "help":
            faults += order_faults(told, command, words_of(part))
    return faults + ([] if '"1970-01-02"' in page.partition("\n")[0] else ["it hasn't the date"])


def order_faults(told, command, words):
    """What the help says of a command after its options is there in its order."""
    rest = told.help(command).split(told.list_of("Options", command))[1]
    at, faults = 0, []
    for line in map(normal, rest.splitlines()):
        found = words.find(line, at)
        faults += [] if found >= 0 else [f"{line!r} isn't there, or not in its place"]
        at = max(at, found)
    return faults


def words_of(text):
    """What a text of the page says, with one space between words."""
    return normal(plain(re.sub(r"(?m)^\.(?:S[HS] )?(?:[A-Z]{2}$|nf$|fi$|br$)?", "", text)))


def normal(text):
    """A text with one space between words, without brackets around a name and a colon at its end, in small letters."""
    bare = re.sub(r"^Usage: |[<>]|:$|\[(?=[A-Z]+\]  )|(?<=[A-Z])\](?=  )", "", text)
    return " ".join(bare.split()).lower()


def options_in(part):
    return {plain(name) for line in re.findall(r"(?m)^\.TP\n(\\fB\\-.*)", part)
            for name in re.findall(r"\\fB(\\-.*?)\\fR", line)}


def plain(text):
    """A text of the page without what only roff reads."""
    for sign, meant in (("\\fB", ""), ("\\fI", ""), ("\\fR", ""), ("\\-", "-"), ("\\(aq", "'"), ("\\(ga", "`"),
                        ("\\(ha", "^"), ("\\(ti", "~"), ("\\&", ""), ("\\e", "\\")):
        text = text.replace(sign, meant)
    return text


def lines_told(told):
    """The lines of the help of all commands, with one space between words. The list of commands isn't among them: on
    the page each has its own part."""
    for words in ((), *((command,) for command, _, _ in told.asked())):
        text = told.help(*words).replace(told.list_of("Commands"), "") if not words else told.help(*words)
        for line in text.splitlines():
            if line.rstrip(":") not in ("Commands", "Arguments", "Options"):
                yield normal(line)


def warnings_of(words):
    ended = subprocess.run(words, stdin=subprocess.DEVNULL, capture_output=True, text=True,
                           env={**os.environ, "LC_ALL": "C.UTF-8"})
    said = ended.stderr + ("" if "-Z" in words else ended.stdout)
    return [] if ended.returncode == 0 and not said else [f"status {ended.returncode}, {said[:500]!r}"]


# What the shells offer.

def offers(told):
    """Words after `mapf`, of which the last is at the cursor, with what is to be offered for it. Of the names of files
    that is FILES."""
    yield [""], {*told.commands}
    yield ["-"], told.options()
    yield ["help", ""], {*told.commands}
    for command, arguments, options in told.asked():
        yield [command, "-"], options
        for place, argument in enumerate(arguments):
            yield [command, *["x"] * place, ""], FILES if argument in FILES else set()
        yield [command, *["x"] * len(arguments), ""], set()
    command, arguments = next((command, found) for command, found, options in told.asked() if "--search" in options)
    yield [command, "--search", ""], VALUES["--search"]
    yield [command, "x", "--search", "cbs", ""], FILES if arguments[1] in FILES else set()
    yield [command, "--search", "cbs", "-h", ""], FILES


def bash_faults(told, script):
    faults = []
    for words, wanted in offers(told):
        found = offered_by_bash(script, words)
        if words == [""]:
            wanted = wanted | told.options()
        if found != ({"compopt -o default"} if wanted is FILES else wanted):
            faults.append(f"{words}: {sorted(found)} are offered")
    found = [offered_by_bash(script, ["solve", "--search", "=", *begun]) for begun in ([], ["cb"])]
    return faults + ([] if found == [VALUES["--search"]] * 2 else [f"--search=: {found} are offered"])


def fish_faults(told, script):
    faults = []
    for words, wanted in offers(told):
        found = offered_by_fish(script, words)
        if found != ({"a-file"} if wanted is FILES else wanted):
            faults.append(f"{words}: {sorted(found)} are offered")
    return faults


def zsh_faults(told, zsh):
    """Where a single word goes on, zsh completes it; here the lists are tried."""
    faults = []
    for words, wanted in offers(told):
        if wanted is not FILES and len(wanted) > 1:
            found = zsh.offered(words)
            if found != wanted:
                faults.append(f"{words}: {sorted(found)} are offered")
    return faults
