"""Says what paths in Rust mean: in which module an item stands, and where others reach it."""

import re
from collections.abc import Iterable, Iterator
from dataclasses import dataclass
from functools import cache

from .rust import TYPES, Item, Module, ModulePath, is_program, modules_of
from .sources import crates

# the kinds of items that paths name
NAMED = ("fn", *TYPES, "const", "static")


@dataclass(frozen=True)
class Place:
    """An item of the crates in the module where it stands, and a member of it, if one is meant."""

    crate: str
    path: ModulePath
    name: str
    member: str = ""

    def __truediv__(self, member: str) -> "Place":
        """Returns the place of a member."""
        return Place(self.crate, self.path, self.name, member)

    @property
    def owner(self) -> "Place":
        """The item, without the member."""
        return Place(self.crate, self.path, self.name)


# a module, by its crate and its path in it
ModuleAt = tuple[str, ModulePath]


@cache
def declared(crate: str, path: ModulePath) -> dict[str, tuple[Place | ModuleAt, bool]]:
    """Returns what a module declares, and whether others see it."""
    found: dict[str, tuple[Place | ModuleAt, bool]] = {}
    module = modules_of(crate).get(path)
    for item in module.items if module else ():
        if item.kind == "mod":
            found[item.name] = (crate, (*path, item.name)), item.is_public
        elif item.kind in NAMED:
            found[item.name] = Place(crate, path, item.name), item.is_public
    return found


@cache
def brought(crate: str, path: ModulePath) -> tuple[tuple[str, tuple[str, ...], bool], ...]:
    """Returns the names that a module brings in, the paths that they stand for, and if others see them."""
    module = modules_of(crate).get(path)
    uses = [item for item in module.items if item.kind == "use"] if module else []
    return tuple((given, tuple(words), item.is_public) for item in uses for words, given in used(item.head))


def used(head: str) -> Iterator[tuple[list[str], str]]:
    """Yields the paths that an item with `use` brings in, each with the name that it gets."""
    path = re.fullmatch(r"(?:pub(?:\([^)]*\))? )?use (.*)", head)
    outer: list[list[str]] = [[]]
    words: list[str] = []
    for token in [*re.findall(r"\w+|[*{},]", path[1]), ","] if path else ():
        if token == "{":
            outer.append(outer[-1] + words)
        elif token not in (",", "}"):
            words.append(token)
            continue
        elif words:
            given = words[-1] if words[-2:-1] == ["as"] else ""
            whole = outer[-1] + (words[:-2] if given else words)
            whole = whole[:-1] if whole[-1] == "self" and len(whole) > 1 else whole
            yield whole, given or whole[-1]
        words = []
        if token == "}":
            outer.pop()


def named(at: ModuleAt, name: str, busy: frozenset[object] = frozenset()) -> Place | ModuleAt | None:
    """Returns what a name means in a module."""
    if name in declared(*at):
        return declared(*at)[name][0]
    if (at, name) in busy:
        return None
    busy |= {(at, name)}
    for given, words, _ in brought(*at):
        if given == name and (found := find(*at, words, busy)):
            return found
    for given, words, _ in brought(*at):
        module = find(*at, words[:-1], busy) if given == "*" else None
        if isinstance(module, tuple) and (found := named(module, name, busy)):
            return found
    return None


def find(crate: str, path: ModulePath, words: Iterable[str], busy: frozenset[object] = frozenset()) -> Place | ModuleAt | None:
    """Returns the place or the module that a path means in a module."""
    at: Place | ModuleAt = (crate, path)
    for number, word in enumerate(words):
        if isinstance(at, Place):
            at = at / word
        elif word in ("crate", "self", "super"):
            at = (at[0], {"crate": (), "self": at[1], "super": at[1][:-1]}[word])
        elif number == 0 and word in crates() and word not in declared(*at):
            at = (word, ())
        elif found := named(at, word, busy):
            at = found
        else:
            return None
    return at


@cache
def lookup(crate: str, path: ModulePath, words: tuple[str, ...]) -> Place | None:
    """Returns the item that a path means in a module."""
    target = find(crate, path, words)
    return target if isinstance(target, Place) else None


def rank(path: str) -> tuple[bool, bool, int, str]:
    """Returns what orders the paths of an item: those of crate x86_64 come first, and short ones."""
    return not path.startswith("x86_64::"), path.endswith(("57", "In")), path.count("::"), path


@cache
def public_paths() -> dict[Place, list[str]]:
    """Returns the paths under which others reach the items of the libraries."""
    found: dict[Place, list[str]] = {}

    def visit(at: ModuleAt, name: str, seen: tuple[ModuleAt, ...]) -> None:
        visible = {word: target for word, (target, is_public) in declared(*at).items() if is_public}
        for given, words, is_public in brought(*at):
            if is_public and given == "*" and isinstance(module := find(*at, words[:-1]), tuple):
                visit(module, name, (*seen, module))
            elif is_public and (target := find(*at, words)):
                visible.setdefault(given, target)
        for word, target in visible.items():
            if isinstance(target, Place):
                found.setdefault(target, []).append(f"{name}::{word}")
            elif target not in seen:
                visit(target, f"{name}::{word}", (*seen, target))

    for crate in crates():
        if not is_program(crate):
            visit((crate, ()), crate, ((crate, ()),))
    return {place: sorted(set(paths), key=rank) for place, paths in found.items()}


@cache
def items_at() -> dict[Place, tuple[Item, Module]]:
    """Returns the items of all crates by their places."""
    found: dict[Place, tuple[Item, Module]] = {}
    for crate in crates():
        for path, module in modules_of(crate).items():
            found |= {Place(crate, path, item.name): (item, module) for item in module.items if item.kind in NAMED}
    return found


@cache
def traits() -> dict[Place, None]:
    """Returns the traits of all crates."""
    return dict.fromkeys(place for place, (item, _) in items_at().items() if item.kind == "trait")


@cache
def members(trait: Place) -> frozenset[str]:
    """Returns the names of a trait's members."""
    return frozenset(part.name for part in items_at()[trait][0].parts if part.kind != "use")


@cache
def traits_in(text: str, crate: str, path: ModulePath) -> tuple[Place, ...]:
    """Returns the traits that a head names, and those that these stand on."""
    found: dict[Place, None] = {}
    waiting = [(text, crate, path)]
    while waiting:
        head, crate, path = waiting.pop(0)
        for name in re.findall(r"\b[A-Z]\w*", head):
            place = lookup(crate, path, (name,))
            if place in traits() and place not in found:
                found[place] = None
                waiting.append((items_at()[place][0].head, place.crate, place.path))
    return tuple(found)


@cache
def constants_of(place: Place) -> tuple[str, tuple[str, ...]]:
    """Returns what a macro says of a type of flags, and the names of the flags."""
    for item in items_at()[place][1].items:
        if item.kind == "macro" and re.search(rf"\bimpl {place.name}:", item.text):
            return item.text, tuple(re.findall(r"const (\w+) = ", item.text))
    return "", ()
