"""Says what belongs to a contract: wrong bodies that the prover refuses, proved callers, and declarations for C."""

import re
from functools import cache
from pathlib import Path

from .model import Entry, entries, pages
from .paths import lookup
from .rust import Item, Module, modules_of
from .sources import CALLERS, CRATES, TOP, shown

HEADER = TOP / "include" / "x86_64_paging.h"
# a line of a wrong body: the file, the text that it replaces, or the text that it puts there
ROW = re.compile(r"^(file|old|new): ?(.*)$", re.MULTILINE)
CALLED = re.compile(r"\b([a-z_]\w*)(?=\(|::<)")


def functions_of(module: Module) -> list[Item]:
    """Returns the functions of a file, with those of traits and implementations."""
    return [part for item in module.items for part in (item, *item.parts) if part.kind == "fn"]


@cache
def edits_of(crate: str) -> tuple[Path, ...]:
    """Returns the wrong bodies of a crate."""
    folders = (CRATES / crate / "wrong_bodies", TOP / "tests" / "wrong_bodies" / crate)
    return tuple(sorted((file for folder in folders for file in folder.glob("*.edit")), key=lambda file: file.name))


@cache
def wrong_bodies() -> dict[Item, list[tuple[str, list[tuple[str, str]]]]]:
    """Returns the wrong bodies by the public functions that they are in, or that call what they are in over private ones.

    For each there is its name, and pairs of the text that it replaces and the text that it puts there.
    """
    found: dict[Item, list[tuple[str, list[tuple[str, str]]]]] = {}
    public = {entry.item for entry in entries()}
    public |= {part for page in pages().values() for item, _, _ in page.implementations for part in item.parts}
    for crate in shown():
        functions = {item: module for module in modules_of(crate).values() for item in functions_of(module)}
        called_in: dict[str, list[Item]] = {}
        for item in functions:
            for word in set(CALLED.findall(item.body)):
                called_in.setdefault(word, []).append(item)
        for file in edits_of(crate):
            rows = ROW.findall(file.read_text(encoding="utf-8"))
            sources = [CRATES / crate / text.strip() for word, text in rows if word == "file"]
            old, new = ([text for word, text in rows if word == kind] for kind in ("old", "new"))
            near = [item for item, module in functions.items() if module.file in sources and any(text in item.text for text in old)]
            seen = set(near)
            while near := [item for item in near if item not in public]:
                near = [caller for item in near for caller in called_in.get(item.name, ()) if caller not in seen]
                seen |= set(near)
            for item in seen & public:
                found.setdefault(item, []).append((file.stem, list(zip(old, new))))
    return found


@cache
def callers() -> dict[Entry, list[tuple[Item, Module]]]:
    """Returns the proved callers by the functions that they call, the shortest first.

    A method belongs to the type that alone has it, or else to those that the caller names.
    """
    found: dict[Entry, list[tuple[Item, Module]]] = {}
    known: dict[str, list[Entry]] = {}
    for entry in entries():
        known.setdefault(entry.item.name, []).append(entry)
    for module in modules_of(CALLERS).values():
        for item in sorted(functions_of(module), key=lambda item: len(item.text)):
            for name in set(CALLED.findall(item.body)):
                is_one = len({entry.page for entry in known.get(name, ())}) == 1
                for entry in known.get(name, ()):
                    types = {entry.page.name_of(entry.place.name), entry.place.name}
                    is_named = entry.owner and types & set(re.findall(r"\w+", item.text))
                    if is_one or is_named or lookup(CALLERS, module.path, (name,)) == entry.place:
                        found.setdefault(entry, []).append((item, module))
    return found


@cache
def prototypes() -> dict[str, tuple[str, str]]:
    """Returns the functions of the header for C: the comment and the declaration of each."""
    found = {}
    text = HEADER.read_text(encoding="utf-8")
    for match in re.finditer(r"/\*\n((?: \*[^\n]*\n)+?) \*/\n(?:X64_NODISCARD\n)?(\w+ (x64_\w+)\([^;]*\);)", text):
        found[match[3]] = re.sub(r"(?m)^ \* ?", "", match[1]).strip("\n"), match[2]
    return found
