"""Reads Rust files as items: functions with their clauses, types, traits with their members."""

import re
from collections.abc import Iterator
from dataclasses import dataclass, field
from functools import cache
from pathlib import Path

from .sources import CRATES, TOP, Import, comment_above, import_of

# the start of an item: whether it is public, what it is, and its name
HEAD = re.compile(
    r"(pub(?:\([^)]*\))? )?(?:(?:const|final|unsafe|ghost|extern \"C\") )*"
    r"(fn|struct|enum|trait|impl|type|const|static|mod|use|macro_rules!)(?!\w) *(\w*)"
)
GHOST = re.compile(r"(?:pub )?ghost (?!use )(\w+)\s*([:=])\s*")
MACRO = re.compile(r"[\w:]+!\s*")
CLAUSE = re.compile(r"(requires|ensures|ghost)\b\*?(?: (\w+):?)? *(?=\{)")
# what hides brackets or is one, ends an item, or begins a clause
TOKEN = re.compile(
    r'//[^\n]*|(?<!\w)b?r(#*)".*?"\1|"(?:\\.|[^"\\])*"|\'(?:\\(?:x\w\w|u\{\w+\}|.)|[^\'\\\n])\''
    r"|[{}()\[\];,]|\b(?:requires|ensures|ghost)\b",
    re.DOTALL,
)
DEPTH = {"{": 1, "(": 1, "[": 1, "}": -1, ")": -1, "]": -1}
SPACE = re.compile(r"(?:\s|//[^\n]*)*")
# what the type of a law says, in contrast to that of a value
IS_LAW = re.compile(r"[≡≢≤<↔×∈]|^(?:Is[A-Z]\w*|In)\b")
TYPES = ("struct", "enum", "type", "trait")


@dataclass(eq=False)
class Clause:
    """A clause of a contract: the word that begins it, its name, and what stands in its braces."""

    keyword: str
    name: str
    text: str


@dataclass(eq=False)
class Item:
    """An item of a file.

    The kind is the word that begins it. A ghost member is "ghost" in a trait and "value" in an implementation; its head is its
    type or its value. Parts are the items in a trait or an implementation. The signature is the head with the breaks of its lines.
    """

    kind: str
    name: str
    comment: str = ""
    head: str = ""
    signature: str = ""
    is_public: bool = False
    attributes: str = ""
    clauses: list[Clause] = field(default_factory=list)
    parts: list["Item"] = field(default_factory=list)
    text: str = ""
    body: str = ""

    @property
    def is_law(self) -> bool:
        """Whether it is a public function with an empty body, whose contract is the law."""
        return self.kind == "fn" and bool(self.clauses) and not self.body.strip("{} \n")


# the path of a module in its crate
ModulePath = tuple[str, ...]


@dataclass(eq=False)
class Module:
    """A file of a crate's source: the module that it is, its comment, and its items."""

    crate: str
    file: Path
    path: ModulePath
    comment: str
    items: list[Item]
    imports: dict[str, Import]


class Reader:
    """Reads the items of a file one after another."""

    def __init__(self, file: Path) -> None:
        """Reads a file."""
        self.file = file
        self.text = file.read_text(encoding="utf-8")
        self.at = 0

    def fail(self, what: str) -> SystemExit:
        """Returns what ends the program, since something isn't as expected where the reader is."""
        return SystemExit(f"{self.file.relative_to(TOP)}:{self.text.count(chr(10), 0, self.at) + 1}: {what}")

    def closing(self, at: int) -> int:
        """Returns the place behind the bracket that closes the one at a place."""
        depth = 0
        for token in TOKEN.finditer(self.text, at):
            depth += DEPTH.get(token[0], 0)
            if depth == 0:
                return token.end()
        raise self.fail("a bracket isn't closed")

    def until(self, ends: str) -> None:
        """Goes to the next of these characters that stands outside of brackets."""
        while token := TOKEN.search(self.text, self.at):
            if token[0] in ends:
                self.at = token.start()
                return
            self.at = self.closing(token.start()) if token[0] in "([{" else token.end()
        raise self.fail(f"none of {ends} follows")

    def items(self, end: str) -> Iterator[Item]:
        """Yields the items up to a closing bracket, or up to the end of the file, without what only tests see."""
        comment: list[str] = []
        plain: list[str] = []
        attributes = ""
        while True:
            while self.at < len(self.text) and self.text[self.at].isspace():
                self.at += 1
            if self.at == len(self.text) or self.text[self.at] == end:
                return
            start = self.at
            if self.text.startswith("//", start):
                line = self.text[start:].partition("\n")[0]
                self.at += len(line)
                if not line.startswith("//!"):
                    (comment if line.startswith("///") else plain).append(line.lstrip("/").removeprefix(" "))
            elif self.text[start] == "#":
                self.at = self.closing(self.text.index("[", start))
                attributes += self.text[start : self.at]
            else:
                item = self.item("\n".join(comment), attributes)
                item.text = self.dedented(start, start)
                if item.kind == "ghost" and not comment:
                    item.comment = "\n".join(plain)
                if "cfg(test)" not in attributes and "#[test]" not in attributes:
                    yield item
                comment, plain, attributes = [], [], ""

    def item(self, comment: str, attributes: str) -> Item:
        """Reads the item that begins here."""
        text, start = self.text, self.at
        if ghost := GHOST.match(text, start):
            self.at = self.closing(ghost.end())
            value = self.dedented(ghost.end(), start)
            self.until(";,}")
            self.at += text[self.at] != "}"
            return Item("ghost" if ghost[2] == ":" else "value", ghost[1], comment, value)
        head = HEAD.match(text, start)
        if not head:
            macro = MACRO.match(text, start)
            if not macro:
                raise self.fail(f"what is this: {text[start : start + 40].splitlines()[0]}")
            self.at = self.closing(macro.end())
            self.at += text.startswith(";", self.at)
            return Item("macro", macro[0].strip(), comment)
        item = Item(head[2], head[3], comment, is_public=head[1] == "pub ", attributes=attributes)
        if item.kind == "fn":
            self.read_function(item)
            return item
        self.until(";" if item.kind in ("use", "const", "static", "type") else "{;")
        self.read_head(item, start)
        if text[self.at] == ";":
            self.at += 1
        elif item.kind in ("trait", "impl"):
            self.at += 1
            item.parts = list(self.items("}"))
            self.at += 1
        else:
            self.at = self.closing(self.at)
            item.kind = "inline" if item.kind == "mod" else item.kind
        return item

    def read_head(self, item: Item, start: int) -> None:
        """Takes the text from a place up to here as the head of an item."""
        item.signature = re.sub(r"^pub ", "", self.dedented(start, start).strip())
        item.head = " ".join(self.text[start : self.at].split())

    def dedented(self, begin: int, start: int) -> str:
        """Returns the text from a place up to here, by as much to the left as an item's start."""
        column = start - (self.text.rfind("\n", 0, start) + 1)
        return re.sub(rf"\n {{0,{column}}}", "\n", self.text[begin : self.at])

    def read_function(self, item: Item) -> None:
        """Reads the signature and the clauses of a function, and passes over its body."""
        text, start = self.text, self.at
        self.at = text.index("fn ", start)
        clause = None
        while token := TOKEN.search(text, self.at):
            self.at = token.start()
            clause = CLAUSE.match(text, self.at)
            if clause or token[0] in "{;":
                break
            self.at = self.closing(self.at) if token[0] in "([" else token.end()
        self.read_head(item, start)
        while clause:
            self.at = self.closing(clause.end())
            inner = self.dedented(clause.end(), clause.start()).strip()[1:-1]
            item.clauses.append(Clause(clause[1], clause[2] or "", inner.strip()))
            if space := SPACE.match(text, self.at):
                self.at = space.end()
            clause = CLAUSE.match(text, self.at)
        start = self.at
        self.at = self.closing(self.at) if text[self.at] == "{" else self.at + (text[self.at] in ";,")
        item.body = text[start : self.at]


def imports_of(items: list[Item]) -> dict[str, Import]:
    """Returns what `ghost use` imports among some items."""
    return {name: target for item in items if item.kind == "use" for name, target in import_of(item.head).items()}


@cache
def modules_of(crate: str) -> dict[ModulePath, Module]:
    """Reads the source of a crate, by the paths of its modules, without what only tests see."""
    found: dict[ModulePath, Module] = {}
    source = CRATES / crate / "src"
    waiting: list[tuple[ModulePath, Path]] = [((), source / ("main.rt" if is_program(crate) else "lib.rt"))]
    while waiting:
        path, file = waiting.pop(0)
        reader = Reader(file)
        items = list(reader.items(""))
        found[path] = Module(crate, file, path, comment_above(reader.text, "//"), items, imports_of(items))
        folder = source if not path else file.with_suffix("")
        waiting += [((*path, item.name), folder / f"{item.name}.rt") for item in items if item.kind == "mod"]
    return found


@cache
def is_program(crate: str) -> bool:
    """Returns whether a crate is a program."""
    return (CRATES / crate / "src" / "main.rt").is_file()


def is_law(member: Item, trait: Item) -> bool:
    """Returns whether a ghost member of a trait is a law, and not a value."""
    kind, flat = "", member.head.strip("{} \n")
    while kind != flat:
        kind, flat = flat, re.sub(r"\([^()]*\)", "_", flat)
    result = kind.rpartition("→")[2].strip()
    # a law may also be that a relation holds which the trait declares
    relations = {part.name for part in trait.parts if "→ Type 0" in part.head}
    return bool(IS_LAW.search(result)) or result.split()[0] in relations
