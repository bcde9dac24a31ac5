"""Reads specification files as definitions, and says which crates there are.

rust.py reads Rust files. What names mean, paths.py says (in Rust) and names.py (in contracts and definitions).
"""

import re
from dataclasses import dataclass, field
from functools import cache
from graphlib import TopologicalSorter
from itertools import takewhile
from pathlib import Path

TOP = Path(__file__).resolve().parent.parent.parent
CRATES = TOP / "crates"
# crates whose functions are tests, or help tests; and callers that documents quote
OF_TESTS = re.compile(r"(?:^|_)(?:tests?|reference)(?:_|$)")
CALLERS = "uses"
ABBREVIATIONS = ("vol.", "vols.", "e.g.", "i.e.", "cf.")

# an import: the path of a module, and the names that are taken from it, or one for the module
IMPORT = re.compile(r"^((?:pub )?)(?:ghost )?use ([\w.]+?)(?:\.\{([^}]*)\}| as (\S+))?;?$")
# the line that begins a definition of a specification file, or goes on with one
DEFINITION = re.compile(r"((?:(?:pub|abbrev|unfoldable|record|data) )*)([^\s(){}\[\]:]+)(?= |$)")
MEMBER = re.compile(r"^\s+(?:pub )?([^\s(){}:]+) :", re.MULTILINE)


def first_sentence(text: str) -> str:
    """Returns the first sentence of a comment's first paragraph, with the names that it links to, but not where the links lead."""
    text = re.sub(r"\[(`[^`\]]+`)\](?:\([^)]*\))?", r"\1", text)
    text = re.sub(r"\[([^\]]+)\]\([^)]*\)", r"\1", text)
    paragraph = " ".join(text.split("\n\n")[0].split())
    for match in re.finditer(r"[.!?](?=\s|$)", paragraph):
        sentence = paragraph[: match.end()]
        is_whole = sentence.count("`") % 2 == 0 and sentence.count("(") == sentence.count(")")
        if is_whole and not sentence.endswith(ABBREVIATIONS):
            return sentence
    return paragraph


def comment_above(text: str, mark: str) -> str:
    """Returns the comment with which a file begins: the lines after a mark, without the mark."""
    lines = takewhile(lambda line: line.startswith(mark) and not line.startswith("///"), text.splitlines())
    return "\n".join(re.sub(rf"^{mark}!? ?", "", line).rstrip() for line in lines)


# ---- imports


@dataclass(frozen=True)
class Import:
    """A name that a file imports: of a module, or for a whole module if it has no name there."""

    module: tuple[str, ...]
    name: str | None


def import_of(line: str) -> dict[str, Import]:
    """Returns what a line imports, by the names that the file then uses; the name of a module has a full stop."""
    match = IMPORT.match(" ".join(line.split()))
    if not match:
        return {}
    path = tuple(match[2].removeprefix("Rattle.").split("."))
    found = {f"{match[4]}.": Import(path, None)} if match[4] else {}
    for item in (match[3] or "").split(","):
        if words := item.split():
            found[words[-1]] = Import(path, words[0])
    if match[3] is None and not match[4]:
        found[".".join(path)] = Import(path, None)
    return found


# ---- specification files, as definitions


@dataclass(eq=False)
class Definition:
    """A definition of a specification file: its comment, and its text with the comments in it.

    Members are the fields of a record or the constructors of a data type.
    """

    file: "Specs"
    name: str
    kind: str
    comment: str
    lines: list[str]
    members: list[str] = field(default_factory=list)

    @property
    def length(self) -> int:
        """How many lines it has, without comments."""
        return sum(bool(line.partition("--")[0].strip()) for line in self.lines)


@dataclass(eq=False)
class Specs:
    """A specification file: its comment, its definitions, and where other names come from."""

    file: Path
    module: tuple[str, ...]
    comment: str
    length: int
    imports: dict[str, Import] = field(default_factory=dict)
    definitions: dict[str, Definition] = field(default_factory=dict)
    constructors: dict[str, Definition] = field(default_factory=dict)


def read_specs(file: Path, module: tuple[str, ...]) -> Specs:
    """Reads a specification file."""
    text = file.read_text(encoding="utf-8")
    specs = Specs(file, module, comment_above(text, "--"), len(text.splitlines()))
    current: Definition | None = None
    above: list[str] = []
    operator = ""
    for line in text.splitlines():
        if line.startswith("--"):
            above = [] if line.startswith("-- ----") else [*above, line[2:].removeprefix(" ")]
        elif not line.strip():
            above = []
        elif line.startswith(("use ", "pub use ", "pub mod ", "unfolding ", "infix")):
            specs.imports |= import_of(line)
            above = above if line.startswith("infix") else []
        elif line.startswith((" ", "}")):
            if current:
                current.lines.append(line)
        elif begun := DEFINITION.match(line):
            if current and not begun[1] and (current.name == begun[2] or operator in line.split()):
                current.lines += [f"-- {text}" for text in above] + [line]
            else:
                current = Definition(specs, begun[2], begun[1].replace("pub ", "").strip(), "\n".join(above), [line])
                specs.definitions[begun[2]] = current
                operator = begun[2].strip("◌") if "◌" in begun[2] else " "
            above = []
    for definition in specs.definitions.values():
        while not definition.lines[-1].strip() or definition.lines[-1].startswith("--"):
            definition.lines.pop()
        if definition.kind in ("record", "data"):
            definition.members = MEMBER.findall("\n".join(definition.lines))
        if definition.kind == "data":
            specs.constructors |= {name: definition for name in definition.members}
    return specs


# ---- crates


@cache
def libraries() -> dict[str, list[str]]:
    """Returns the libraries that each crate uses."""
    lines = (TOP / "crates.txt").read_text(encoding="utf-8").splitlines()
    return {head.split()[0]: below.split() for head, _, below in (line.partition(":") for line in lines) if head.split()}


@cache
def crates() -> tuple[str, ...]:
    """Returns the crates in the order of their dependencies, lower ones first."""
    return tuple(crate for crate in TopologicalSorter(libraries()).static_order() if crate in libraries())


@cache
def shown() -> tuple[str, ...]:
    """Returns the crates of libraries and programs, without those of tests and of callers that documents quote."""
    return tuple(crate for crate in crates() if crate != CALLERS and not OF_TESTS.search(crate))
