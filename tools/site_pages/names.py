"""Says what the names in contracts and definitions mean, by what a file imports and defines."""

import re
from dataclasses import dataclass, field
from functools import cache

from .paths import Place, brought, lookup, members, traits, traits_in
from .rust import Item, Module, ModulePath, imports_of
from .sources import CRATES, Definition, Import, Specs, crates, libraries, read_specs


@dataclass(frozen=True)
class Standard:
    """A name of a library outside of the repository, with the module that it comes from."""

    module: tuple[str, ...]
    name: str


Target = Definition | Standard | Place | Specs
# variants of the standard library that a clause may name without an import
VARIANTS = ("Ok", "Err", "Some", "None")

# ---- specification files


@cache
def specs_of(module: tuple[str, ...]) -> Specs | None:
    """Returns a specification file by its module, or the one that its crate passes on by this name."""
    crate, kind, *words = module
    if crate not in crates() or kind != "specs":
        return None
    file = CRATES / crate / "specs" / f"{'/'.join(words)}.antt"
    if file.is_file():
        return read_specs(file, module)
    lib = CRATES / crate / "specs" / "Lib.antt"
    for imported in read_specs(lib, (crate, "specs", "Lib")).imports.values() if lib.is_file() else ():
        if imported.module[2:] == tuple(words) and imported.module[0] != crate:
            return specs_of(imported.module)
    return None


@cache
def all_specs() -> tuple[Specs, ...]:
    """Returns the specification files of all crates, lower crates first."""
    found = []
    for crate in crates():
        folder = CRATES / crate / "specs"
        for file in sorted(folder.rglob("*.antt"), key=lambda file: file.with_suffix("").parts):
            specs = specs_of((crate, "specs", *file.relative_to(folder).with_suffix("").parts))
            if specs and specs.definitions:
                found.append(specs)
    return tuple(found)


@cache
def target_of(module: tuple[str, ...], name: str) -> Target | None:
    """Returns what a name of a module means."""
    if module[0] not in crates() or module[1:2] == ("proofs",):
        return Standard(module, name)
    if len(module) > 2 and module[2] in ("declared", "contracts"):
        words = module[3:]
        path = tuple(word for word in words if word[0].islower())
        rest = [word for word in words if word[0].isupper() and word != "TheVariants"]
        place = Place(module[0], path, rest[0] if rest else name)
        return place / name if "TheVariants" in words else place
    specs = specs_of(module)
    return meaning(specs.imports, specs, name) if specs else None


def meaning(imports: dict[str, Import], specs: Specs | None, name: str) -> Target | None:
    """Returns what a name means in a file with these imports, and these definitions if any."""
    if specs and (found := specs.definitions.get(name) or specs.constructors.get(name)):
        return found
    imported = imports.get(name)
    return target_of(imported.module, imported.name) if imported and imported.name else None


# ---- what the words of a text mean


@dataclass
class Scope:
    """Where a text stands: what it may name. The traits are those that bound type parameters, with the ones above them."""

    imports: dict[str, Import]
    specs: Specs | None = None
    local: frozenset[str] = frozenset()
    traits: tuple[Place, ...] = ()
    own_trait: Place | None = None
    crate: str = ""
    path: ModulePath = ()
    operators: dict[str, str] = field(default_factory=dict)

    def __post_init__(self) -> None:
        """Finds the words of the operators that may be used: `laid_in` is of `◌laid_in◌`."""
        for name in (*self.imports, *(self.specs.definitions if self.specs else ())):
            if "◌" in name:
                self.operators |= {word: name for word in name.split("◌") if word}

    def resolve(self, word: str) -> Target | None:
        """Returns what a word means here, if it isn't bound in the text."""
        if found := meaning(self.imports, self.specs, self.operators.get(word, word)):
            return found
        if self.own_trait and word in members(self.own_trait):
            return self.own_trait / word
        for given, words, _ in brought(self.crate, self.path) if self.crate else ():
            if given == word and words[0] == "std":
                return Standard(words[:-1], word)
        return Standard(("std", "prelude"), word) if self.crate and word in VARIANTS else None

    def member(self, word: str) -> Target:
        """Returns what the member of a type parameter, a type or a trait means."""
        near = (*([self.own_trait] if self.own_trait else ()), *self.traits)
        here = self.crate or (self.specs.module[0] if self.specs else "")
        for place in (*near, *traits()):
            if place.name == word and place in near:
                return place
            if word in members(place) and place.crate in (here, *libraries()[here]):
                return place / word
        return Standard(("std",), word)


@cache
def scope_in(specs: Specs) -> Scope:
    """Returns the scope of the definitions of a specification file."""
    return Scope(specs.imports, specs)


# ---- scopes of Rust


def parameters(head: str, start: int) -> tuple[list[str], int]:
    """Returns the parameters between the angle brackets that open before a place, and where these end."""
    depth, parts = 1, [""]
    for at in range(start, len(head)):
        depth += {"<": 1, ">": -1}.get(head[at], 0) if head[at - 1 : at + 1] != "->" else 0
        if depth == 0:
            return parts, at + 1
        if depth == 1 and head[at] == ",":
            parts.append("")
        else:
            parts[-1] += head[at]
    return parts, len(head)


def bound_in(head: str) -> frozenset[str]:
    """Returns the names of the parameters of a function, and of its type parameters."""
    found = set(re.findall(r"(\w+) ?:(?!:)", head))
    for match in re.finditer(r"(?:\bfn \w+|\bimpl|\btrait \w+)<", head):
        for part in parameters(head, match.end())[0]:
            found.update(re.findall(r"^ ?(?:const )?([A-Z]\w*)", part))
    return frozenset(found)


def owner_name(head: str) -> tuple[str, str]:
    """Returns the names of the trait and of the type of an implementation, as its head says."""
    text = head.partition(" where ")[0].removeprefix("impl").strip()
    start = parameters(text, 1)[1] if text.startswith("<") else 0
    trait, _, owner = text[start:].strip().rpartition(" for ")
    base = re.match(r"(?:&(?:'\w+ )?(?:mut )?)?\[?(?:\w+::)*(\w+)", owner)
    return re.sub(r"<.*", "", trait).split("::")[-1].strip(), base[1] if base else owner


@cache
def scope_of(module: Module, owner: Item | None = None, item: Item | None = None) -> Scope:
    """Returns the scope of the clauses of an item, in a trait or an implementation if there is one."""
    imports, own = dict(module.imports), None
    head = item.head if item else ""
    ghosts = {clause.name for clause in item.clauses if clause.keyword == "ghost"} if item else set()
    if owner:
        imports |= imports_of(owner.parts)
        head += " " + owner.head
        name = owner.name if owner.kind == "trait" else owner_name(owner.head)[0]
        own = lookup(module.crate, module.path, (name,)) if name else None
    above = traits_in(head, module.crate, module.path)
    own = own if own in traits() else None
    return Scope(imports, None, bound_in(head) | ghosts, above, own, module.crate, module.path)
