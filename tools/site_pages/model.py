"""Says what the site shows: which items have a page, and what belongs to each contract on it."""

import re
from collections.abc import Iterator
from dataclasses import dataclass, field
from functools import cache, cached_property

from .names import Scope, Target, all_specs, owner_name, scope_of, target_of
from .paths import Place, find, items_at, lookup, public_paths, rank, traits
from .reading import Piece, Reading, closure, named_in
from .rust import TYPES, Item, Module, is_law, is_program, modules_of
from .sources import Definition, crates, shown

# the traits whose implementations say nothing that their types' comments don't
WITHOUT_CONTRACTS = ("Clone", "Copy", "Eq", "Flags")
# the members by which an implementation of a trait of the standard library says what a call does
OF_STANDARD = re.compile(r"can_\w+|\w+_gives|output|is_default|remaining|eq|Value|view|invariant")


@dataclass(eq=False)
class Entry:
    """A function, or a member of a type or a trait, on its page."""

    place: Place
    item: Item
    owner: Item | None
    module: Module
    page: "Page"
    anchor: str = ""

    @property
    def name(self) -> str:
        """Its name, with that of the type or trait to which it belongs."""
        return f"{self.page.name_of(self.place.name)}::{self.item.name}" if self.owner else self.place.name

    @property
    def href(self) -> str:
        """Where it stands."""
        return f"{self.page.file}#{self.anchor}" if self.owner else self.page.file

    @cached_property
    def scope(self) -> Scope:
        """What its clauses may name."""
        return scope_of(self.module, self.owner, self.item)

    @cached_property
    def pieces(self) -> tuple[tuple[Piece, ...], ...]:
        """The pieces of each of its clauses."""
        return tuple(tuple(Reading(clause.text, self.scope).pieces()) for clause in self.item.clauses)

    @cached_property
    def named(self) -> tuple[Target, ...]:
        """What its clauses name."""
        return named_in(piece for clause in self.pieces for piece in clause)

    @cached_property
    def behind(self) -> dict[Definition, int]:
        """The definitions behind its contract, nearest first."""
        return closure(self.named)

    @property
    def lines(self) -> int:
        """The lines of these definitions, without comments."""
        return sum(definition.length for definition in self.behind)

    @cached_property
    def key(self) -> str:
        """Its clauses, as they are if only the names of the receiver and its type differ."""
        first = re.search(r"\(\s*(?:mut )?(\w+): &?(?:'\w+ )?(?:mut )?(\w+)", self.item.head)
        text = "\n".join(f"{clause.keyword} {clause.name} {clause.text}" for clause in self.item.clauses)
        for number, name in enumerate(first.groups() if first else ()):
            text = re.sub(rf"\b{name}\b", ("self", "Self")[number], text)
        return " ".join(text.split())


@dataclass(eq=False)
class Page:
    """A page: of a function, or of a type or trait with its members, for four and five levels."""

    file: str
    kind: str
    places: list[Place] = field(default_factory=list)
    entries: list[Entry] = field(default_factory=list)
    implementations: list[tuple[Item, Module, list[Entry]]] = field(default_factory=list)

    @property
    def base(self) -> Place:
        """The item that the page is named after."""
        return self.places[0]

    @cached_property
    def paths(self) -> list[str]:
        """The paths under which others reach the items."""
        return sorted((path for place in self.places for path in public_paths().get(place, [])), key=rank)

    @property
    def title(self) -> str:
        """The path by which most readers know it."""
        return self.paths[0] if self.paths else f"{self.base.crate}::{self.base.name}"

    def name_of(self, name: str) -> str:
        """Returns the name that readers know, for the name of a type on the page."""
        aliases = [place.name for place in self.places[1:] if items_at()[place][0].kind == "type"]
        return aliases[0] if aliases and name == self.base.name else name

    @property
    def all_entries(self) -> list[Entry]:
        """The functions of the page, with those of implementations."""
        return [*self.entries, *(entry for _, _, entries in self.implementations for entry in entries)]


# ---- which pages there are


def visible() -> Iterator[Place]:
    """Yields the public items, the functions for C, what programs declare, and the types that definitions name."""
    yield from (place for place in public_paths() if place in items_at() and place.crate in shown())
    for place, (item, _) in items_at().items():
        is_own = is_program(place.crate) and (item.is_public or not place.path)
        if place.crate in shown() and ("no_mangle" in item.attributes or is_own) and (item.clauses or item.kind in TYPES):
            yield place
    for specs in all_specs():
        for name in specs.imports.values() if specs.module[0] in shown() else ():
            target = target_of(name.module, name.name) if name.name and "declared" in name.module else None
            if isinstance(target, Place) and target.owner in items_at():
                yield target.owner


@cache
def bases() -> dict[Place, Place]:
    """Returns the items that are shown, each with the one whose page it is on.

    A second name of a type is on the page of the type, and an item of five levels on that of the item of four levels with the
    same name.
    """
    places = dict.fromkeys(visible())
    by_name = {(place.crate, items_at()[place][0].kind, place.name): place for place in places}
    found: dict[Place, Place] = {}
    for place in places:
        item, module = items_at()[place]
        base = place
        if item.kind == "type" and (match := re.match(r"(?:\w+::)*(\w+)", item.head.rpartition(" = ")[2])):
            base = lookup(module.crate, module.path, (match[1],)) or place
        elif match := re.fullmatch(r"(\w+?)_?57", place.name):
            base = by_name.get((place.crate, item.kind, match[1]), place)
        found[place] = base if base in items_at() and base.crate in shown() else place
    for _ in range(3):
        found = {place: found.get(base, base) for place, base in found.items()}
    return found


@cache
def pages() -> dict[Place, Page]:
    """Returns the pages by the items that they are named after."""
    found: dict[Place, Page] = {}
    for place, base in bases().items():
        if base not in found:
            item = items_at()[base][0]
            kind = "law" if item.is_law else item.kind.replace("type", "struct")
            found[base] = Page(".".join([base.crate, *base.path, kind, base.name, "html"]), kind, [base])
        if place != base:
            found[base].places.append(place)
    for page in found.values():
        page.places[1:] = sorted(page.places[1:], key=lambda place: (place.name.endswith("57"), place.name))
        for place in page.places:
            item, module = items_at()[place]
            if item.kind == "fn":
                page.entries.append(Entry(place, item, None, module, page))
            elif item.kind == "trait":
                page.entries += [Entry(place / part.name, part, item, module, page) for part in item.parts if part.kind == "fn"]
    add_implementations(found)
    for page in found.values():
        anchors: dict[str, int] = {}
        for entry in page.all_entries:
            number = anchors[entry.item.name] = anchors.get(entry.item.name, 0) + 1
            entry.anchor = f"{entry.item.name}-{number}" if number > 1 else entry.item.name
    return found


def add_implementations(found: dict[Place, Page]) -> None:
    """Adds the implementations to the pages of their types, or else of their traits."""
    for module in (module for crate in shown() for module in modules_of(crate).values()):
        for item in (item for item in module.items if item.kind == "impl"):
            trait, owner = owner_name(item.head)
            place = lookup(module.crate, module.path, (owner,))
            of_trait = lookup(module.crate, module.path, (trait,)) if trait else None
            own = place if place in items_at() else of_trait
            page = found.get(bases().get(own, own)) if own else None
            is_hidden = of_trait in items_at() and of_trait not in bases()
            if own is None or page is None or is_hidden or trait in WITHOUT_CONTRACTS:
                continue
            is_seen = page.base in public_paths() or is_program(module.crate)
            parts = [part for part in item.parts if part.kind == "fn" and (part.clauses if trait else part.is_public)]
            entries = [Entry(own / part.name, part, item, module, page) for part in parts if is_seen]
            if entries or (trait and values_of(item)):
                page.implementations.append((item, module, entries))


def values_of(item: Item) -> list[Item]:
    """Returns the ghost members of an implementation that say what its type is, without proofs."""
    values = [part for part in item.parts if part.kind == "value"]
    trait = owner_name(item.head)[0]
    known = next((items_at()[place][0] for place in traits() if place.name == trait), None)
    if known is None:
        return [part for part in values if OF_STANDARD.fullmatch(part.name)]
    laws = {part.name for part in known.parts if part.kind == "ghost" and is_law(part, known)}
    return [part for part in values if part.name not in laws]


@cache
def entries() -> tuple[Entry, ...]:
    """Returns all functions that have a place on the site."""
    return tuple(entry for page in pages().values() for entry in page.all_entries)


@cache
def alike() -> dict[str, list[Entry]]:
    """Returns the functions by their clauses."""
    found: dict[str, list[Entry]] = {}
    for entry in entries():
        if entry.item.clauses:
            found.setdefault(entry.key, []).append(entry)
    return found


@cache
def entry_at() -> dict[Place, Entry]:
    """Returns the functions by their places, those of implementations by their types."""
    return {entry.place: entry for entry in reversed(entries())}


def entry_for(target: Place) -> Entry | None:
    """Returns the function that a place means: of a type or a trait, that which names it or is beside it."""
    base = bases().get(target.owner)
    if base not in pages() or not target.member:
        return entry_at().get(target)

    def order(entry: Entry) -> tuple[bool, bool]:
        is_named = bool(entry.owner and re.search(rf"\b{target.name}\b", entry.owner.head))
        return not is_named, (entry.module.crate, entry.module.path) != (target.crate, target.path)

    found = [entry for entry in pages()[base].all_entries if entry.owner and entry.item.name == target.member]
    return min(found, key=order) if found else None


def function_at(path: str) -> Entry | str:
    """Returns the function that a path means, or what is wrong with the path.

    It is one under which others reach the function, or the crate and the end of one.
    """
    crate, *words = path.split("::")
    if crate not in crates() or not words:
        return f"there is no crate {crate}: name a function by its crate, as x86_64::run"
    target = find(crate, (), words)
    if isinstance(target, Place) and (entry := entry_for(target)):
        return entry
    near = {entry: [*entry.place.path, *entry.name.split("::")] for entry in entries() if entry.place.crate == crate}
    found = [entry for entry, names in near.items() if words == names[-len(words) :]]
    found = [entry for entry in found if len(words) > 1 or not entry.owner] or found
    if len({entry.key for entry in found}) > 1:
        places = ", ".join(sorted("::".join([crate, *near[entry]]) for entry in found))
        return f"several public functions of {crate} end with {'::'.join(words)}: {places}"
    return found[0] if found else f"{crate} has no public function {'::'.join(words)}"
