"""Reads contracts and definitions word by word, with what each word means where it stands, and what is behind them."""

import re
from collections import deque
from collections.abc import Iterable, Iterator
from functools import cache

from .names import Scope, Target, meaning, scope_in, specs_of, target_of
from .paths import Place, items_at, lookup
from .sources import Definition

WORD = re.compile(r'--[^\n]*|//[^\n]*|"(?:\\.|[^"\\])*"|⟦[^⟧]*⟧|\s+|[(){}\[\],;]|\.\.|\.|[^\s(){}\[\],;.⟦⟧"]+')
BINDER = re.compile(r"[({]\s*([^\s(){}\[\];.:]+(?:\s+[^\s(){}\[\];.:]+)*)\s+:\s")
KEYWORDS = frozenset("let in record data abbrev unfoldable pub where λ Type case of if then else elim by".split())
# words of the notation: of references in a contract, and of values of the logic without a definition
MOMENTS = frozenset("now old new entry exit items".split())
NOTATION = frozenset("¬ ↦ = : → × ⊥ ∞ _ tt Unit sem 𝓛 infix fst snd result self Self".split())
# lower case constructors of the standard library, which patterns match
CONSTRUCTORS = frozenset("zero suc true false tt refl pos negsuc".split())
# a piece of a text: the text itself, what kind of word it is, and what it means
Piece = tuple[str, str, Target | None]


class Reading:
    """Reads a text word by word, and keeps what is bound where it stands.

    On the left of an equation, words that aren't constructors are bound. A bracket ends what is bound in it; `(n : ℕ)` binds
    behind the bracket.
    """

    def __init__(self, text: str, scope: Scope, bound: Iterable[str] = (), left: bool = False) -> None:
        """Begins to read a text in which some names are bound, and which may begin with the left of an equation."""
        self.text, self.scope, self.left = text, scope, left
        # what is bound in each open bracket; the names that a bracket binds behind it, and what was being bound before it
        self.frames: list[set[str]] = [set(bound)]
        self.opened: list[tuple[list[str], str]] = []
        # how the next names are bound: by "λ" or "let", or in a "group"; "typed" behind the colon of a let
        self.binding = ""
        # what a member would be of, and the module that a name would be of
        self.owner: str | Target = ""
        self.module: tuple[str, ...] | None = None

    def pieces(self) -> Iterator[Piece]:
        """Yields the pieces of the text."""
        before = ""
        for match in WORD.finditer(self.text):
            yield from self.step(match, before)
            before = before if match[0].isspace() else match[0]

    def step(self, match: re.Match[str], before: str) -> Iterator[Piece]:
        """Yields a word behind another one as a piece, or the pieces of Rust."""
        word, kind, target = match[0], "", None
        if word.isspace():
            self.owner = self.owner if before == "." else ""
            self.binding = "" if before == "." and self.binding == "λ" else self.binding
            kind = "space"
        elif word.startswith(("--", "//", '"')):
            kind = "string" if word[0] == '"' else "comment"
        elif word in "(){}[]":
            self.bracket(word, match.start())
            kind = "bracket"
        elif word.startswith("⟦"):
            self.owner = word
            yield from rust_pieces(word, self.scope)
            return
        elif word in (".", "..", ",", ";"):
            kind = "bracket" if self.binding == "λ" and word == "," else "mark"
        elif before == "." and self.text[match.start() - 1] == ".":
            kind, target = self.member(word)
        elif known := self.notation(word):
            kind = known
        else:
            kind, target = self.name(word, before, match.end())
        yield word, kind, target

    def bracket(self, word: str, at: int) -> None:
        """Goes into a bracket or out of one. Patterns behind λ have no names of their own."""
        if self.binding == "λ" and word in "()":
            return
        if word in "({[":
            binder = BINDER.match(self.text, at)
            self.opened.append((binder[1].split() if binder else [], self.binding))
            self.frames.append(set())
            self.binding = "group" if binder else self.binding
            return
        names, self.binding = self.opened.pop() if self.opened else ([], "")
        if len(self.frames) > 1:
            self.frames.pop()
        self.frames[-1].update(names)

    def member(self, word: str) -> tuple[str, Target | None]:
        """Returns what a word means behind a full stop."""
        module, self.module = self.module, None
        if module:
            return "name", target_of(module, word)
        if word in MOMENTS:
            return "moment", None
        if isinstance(self.owner, Place) and is_type(self.owner):
            place, self.owner = self.owner / word, ""
            return "name", place
        if not self.owner or word.isdigit():
            return "field", None
        target = self.scope.member(word)
        self.owner = self.owner if isinstance(target, Place) and not target.member else ""
        return "name", target

    def notation(self, word: str) -> str:
        """Returns what kind of word of the language or of the notation this is, or nothing if it is a name."""
        if word in ("λ", "let"):
            self.binding = word
        elif word == "=" and (self.left or self.binding in ("let", "typed")):
            self.left, self.binding = self.left and bool(self.opened), ""
        elif word == ":" and self.binding in ("group", "let"):
            self.binding = "typed" if self.binding == "let" else ""
        elif word in KEYWORDS or word in NOTATION:
            self.owner = "Self" if word == "Self" else ""
        else:
            return ""
        return "keyword" if word in KEYWORDS else "notation"

    def name(self, word: str, before: str, end: int) -> tuple[str, Target | None]:
        """Returns what kind of name a word is, and what it means."""
        target = None
        if self.binding and self.binding != "typed":
            self.frames[-1].add(word)
            return "local", None
        if before in ("{", ";") and self.frames[1:] and re.match(r"\s*[=:]\s", self.text[end : end + 9]):
            return "field", None
        if word[0].isdigit():
            return "number", None
        if not any(word in frame for frame in self.frames) or (self.left and before == ""):
            target = self.scope.resolve(word)
            alias = self.scope.imports.get(f"{word}.") if self.text.startswith(".", end) else None
            if alias:
                self.module = alias.module
                return "module", specs_of(alias.module)
            if isinstance(target, Definition):
                is_kept = word in target.members or (word == target.name and target.kind != "record")
            else:
                is_kept = word[0].isupper() or word in CONSTRUCTORS or not word[0].isalpha()
            if target and (is_kept or not self.left):
                self.owner = target if isinstance(target, Place) and is_type(target) else self.owner
                return "name", target
            if self.left:
                self.frames[0].add(word)
                return "local", None
            if word not in self.scope.local:
                place = lookup(self.scope.crate, self.scope.path, (word,)) if self.scope.crate and word[0].isupper() else None
                self.owner = place or self.owner
                return ("name" if place else "unknown"), place
        self.owner = word if word[0].isupper() else ""
        return "local", None


def is_type(place: Place) -> bool:
    """Returns whether a place is a type, whose members are its variants."""
    return not place.member and place in items_at() and items_at()[place][0].kind in ("enum", "struct")


def rust_pieces(text: str, scope: Scope) -> Iterator[Piece]:
    """Yields the pieces of Rust, with the types and traits that it names."""
    for match in re.finditer(r"//[^\n]*|'\w+\b|\"[^\"]*\"|[A-Za-z_]\w*(?:::\w+)*|[^A-Za-z_'\"/]+|.", text):
        word = match[0]
        is_name = word[0].isalpha() and any(part[0].isupper() for part in word.split("::"))
        place = lookup(scope.crate, scope.path, tuple(word.split("::"))) if is_name and scope.crate else None
        known = meaning(scope.imports, None, word) if not place and word[0].isalpha() else None
        target = place or (known if isinstance(known, Definition) else None)
        yield word, "comment" if word.startswith("//") else "name" if target else "rust", target


@cache
def definition_pieces(definition: Definition) -> tuple[Piece, ...]:
    """Returns the pieces of a definition: its signature, and then each equation or member."""
    parts: list[list[str]] = []
    for line in definition.lines:
        is_member = definition.members and re.match(r"  [^ ]", line)
        if not parts or not line.startswith(" ") or is_member:
            parts.append([])
        parts[-1].append(line)
    found: list[Piece] = []
    bound: set[str] = set()
    if definition.kind in ("record", "data"):
        groups = re.findall(r"[({]([^(){}]*?) : ", "\n".join(parts[0]))
        bound = {name for group in groups for name in group.split()}
    for number, lines in enumerate(parts):
        text = "\n".join(lines) + ("\n" if number + 1 < len(parts) else "")
        is_equation = number > 0 and not lines[0].startswith((" ", "--"))
        if definition.kind == "record" and number and (member := re.match(r"\s+(?:pub )?([^\s:]+) :", text)):
            bound.add(member[1])
        found += Reading(text, scope_in(definition.file), bound, is_equation).pieces()
    return tuple(found)


def named_in(stream: Iterable[Piece]) -> tuple[Target, ...]:
    """Returns what some pieces name, each once."""
    return tuple(dict.fromkeys(target for _, kind, target in stream if target and kind == "name"))


def unknown_in(stream: Iterable[Piece]) -> list[str]:
    """Returns the names among some pieces that nothing explains."""
    return [word for word, kind, target in stream if kind == "unknown" or (kind == "name" and target is None)]


@cache
def behind(definition: Definition) -> tuple[Target, ...]:
    """Returns what a definition names, each once."""
    return tuple(target for target in named_in(definition_pieces(definition)) if target is not definition)


def closure(targets: Iterable[Target]) -> dict[Definition, int]:
    """Returns the definitions that these name, nearest first, each with the number of steps to it."""
    found: dict[Definition, int] = {}
    waiting = deque((target, 1) for target in targets)
    while waiting:
        target, steps = waiting.popleft()
        if isinstance(target, Definition) and target not in found:
            found[target] = steps
            waiting += ((other, steps + 1) for other in behind(target))
    return found
