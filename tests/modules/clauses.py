"""What the sources say: the functions with their clauses, and the definitions and clauses that can be cited. And what
the scripts share that make pages of docs/ from the sources.
"""

import re
import sys
import textwrap
from dataclasses import dataclass
from pathlib import Path

TOP = Path(__file__).resolve().parents[2]
CRATES = TOP / "crates"

# How many columns a line of a document has, at most.
COLUMNS = 120

# An import of definitions, in a source or in a file of definitions: the crate, the file, the names.
IMPORT = re.compile(r"\buse Rattle\.(mapf\w*)\.specs\.([\w.]+)\.\{([^}]*)\}")

# The line in which a function begins: its indentation, whether it is public, its name.
FUNCTION = re.compile(r'( *)(pub )?(?:const )?(?:extern "C" )?fn (\w+)')

# The line in which a block of methods begins: the trait, if it is one's, and the type.
METHODS = re.compile(r"impl(?:<.*?>)? (?:(\w+)(?:<.*?>)? for )?(\w+)")

# The line in which a public trait begins.
TRAIT = re.compile(r"pub trait (\w+)")

# A clause's beginning.
CLAUSE = re.compile(r" *(?:requires|ensures|ghost)\b")


def read(name):
    return (TOP / name).read_text()


def make_page(name, text):
    """Writes a page of docs/, or the file that the call names in its place. Answers the script's status."""
    place = Path(sys.argv[1]) if len(sys.argv) > 1 else TOP / "docs" / name
    place.write_text(text)
    return 0


def linked_files(document):
    """The links of a document to files, each with the file to which it leads."""
    links = re.findall(r"\]\(([^):#]+)(?:#[^)]*)?\)", document.read_text())
    return [(link, document.parent / link) for link in links]


def wrapped(text, indent=""):
    """A paragraph in lines that aren't too long, the second and the later ones with this indentation."""
    return textwrap.fill(
        text, COLUMNS, subsequent_indent=indent, break_on_hyphens=False, break_long_words=False) + "\n"


def crate_names():
    """The crates in the order of crates.txt, where each comes after those that it stands on."""
    return [line.split(":")[0].split()[0] for line in read("crates.txt").splitlines() if not line.startswith("#")]


def sources(crate):
    return [path for path in sorted((crate / "src").rglob("*.rt")) if "tests" not in str(path.relative_to(crate))]


def names_in(text):
    return set(re.findall(r"`(\w+)`", text))


def cited_definitions():
    """The definitions that clauses of public functions name, by crate and name, each with one such function."""
    cited = {}
    for crate in sorted(CRATES.iterdir()):
        for path, called in called_functions(crate):
            imported = imported_definitions(path.read_text())
            for function in called:
                for word in re.findall(r"\w+", function.signature):
                    if word in imported:
                        cited.setdefault(imported[word], f"{crate.name}::{function.name}")
    return cited


def called_functions(crate):
    """The files of a library, each with those of its functions that other crates can call."""
    root = crate / "src" / "lib.rt"
    if not root.exists():
        return
    exported = set(re.findall(r"\w+", " ".join(re.findall(r"pub use [^;]+;", root.read_text()))))
    open_files = set(re.findall(r"pub mod (\w+);", root.read_text()))
    for path in sources(crate):
        is_open = path.stem in open_files
        yield path, [one for one in functions(path.read_text()) if one.is_called(exported, is_open)]


def imported_definitions(text):
    """The definitions that a file imports: for each name that one has in the file, its crate and its own name."""
    found = {}
    for crate, place, names in IMPORT.findall(text):
        if "declared" not in place:
            for name, _, alias in (item.strip().partition(" as ") for item in names.split(",")):
                if re.fullmatch(r"\w+", name):
                    found[alias or name] = crate, name
    return found


@dataclass(frozen=True)
class Function:
    """A function's name, its documentation, its signature with its clauses, and what it stands in."""

    name: str
    documentation: str
    signature: str
    is_public: bool
    is_method: bool
    trait: str
    type: str

    def is_called(self, exported, is_open):
        """Whether other crates can call it."""
        if self.is_method:
            return (self.is_public or self.trait) and (is_open or self.type in exported)
        return self.is_public and (is_open or self.name in exported)

    def promises(self):
        """The named promises in their order, each group with the comment above the first of it."""
        comment, names = [], []
        for line in self.signature.splitlines():
            if line.lstrip().startswith("//"):
                if names:
                    yield " ".join(comment), names
                    comment, names = [], []
                comment.append(line.strip().removeprefix("//").strip())
            elif found := re.match(r" *ensures (\w+) \{", line):
                names.append(found[1])
        if names:
            yield " ".join(comment), names


def functions(text):
    """The functions of a file."""
    trait = its_type = ""
    above = []
    lines = iter(text.splitlines())
    for line in lines:
        if block := METHODS.match(line):
            trait, its_type = block[1] or "", block[2]
        elif block := TRAIT.match(line):
            trait = its_type = block[1]
        if begin := FUNCTION.match(line):
            signature = [line, *rest_of_signature(begin[1], line, lines)]
            yield Function(
                begin[3], " ".join(above), "\n".join(signature), bool(begin[2]), bool(begin[1]), trait, its_type)
        if line.lstrip().startswith("///"):
            above.extend(line.strip().removeprefix("///").split())
        elif not line.lstrip().startswith("#["):
            above = []


def rest_of_signature(indent, line, lines):
    """The lines up to the body. Before the first clause a line that ends with a brace begins the body."""
    has_clause = False
    while not (line.endswith(";") or line.startswith(indent + "{") or line.endswith(("{", "}")) and not has_clause):
        line = next(lines)
        has_clause = has_clause or CLAUSE.match(line) is not None
        yield line


def contracts(crate):
    """What the contracts of a crate say: the functions that other crates can call with their clauses, file by file, and
    the texts of its definitions."""
    called = {path.relative_to(crate): [(one.type, one.signature) for one in called]
              for path, called in called_functions(crate) or ()}
    return called, {path.relative_to(crate): path.read_text() for path in (crate / "specs").rglob("*.antt")}


def all_clauses():
    """Each named promise with its function's name."""
    return {
        (function.name, clause)
        for crate in CRATES.iterdir() for path in sources(crate) for function in functions(path.read_text())
        for clause in re.findall(r"^ *ensures (\w+) \{", function.signature, re.MULTILINE)}


def cited_clauses(text):
    """Pairs of a function and a clause; a clause that begins with a dot is of the function named last."""
    for line in text.splitlines():
        last = None
        for word in re.findall(r"`([\w:]*(?:\.\w+)?)`", line):
            name, dot, clause = word.rpartition(".")
            if not dot:
                last = word.split("::")[-1]
                continue
            last = name.split("::")[-1] if name else last
            if last is not None and clause not in ("rt", "edit", "txt"):
                yield last, clause


def cited_files(text):
    return sorted(set(re.findall(r"\b(mapf\w*/src/\w+\.rt)", text)))


def exists(place):
    return (CRATES / place).exists()
