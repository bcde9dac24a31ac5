"""Writes the frame of pages, says where names lead, and writes definitions as boxes that open."""

import re
from functools import cache
from html import escape

from .markup import Link, anchor, code, inline, markdown, text_of
from .model import bases, entry_at, entry_for, pages
from .names import Standard, Target, all_specs, scope_in
from .paths import Place, constants_of, items_at, lookup, members
from .reading import definition_pieces
from .rust import Module
from .sources import Definition, Specs, first_sentence

NAV = {
    "index.html": "Start",
    "theorem.html": "The theorem",
    "tasks.html": "Tasks",
    "crate.x86_64_model.html": "Laws",
    "definitions.html": "Definitions",
    "notation.html": "Notation",
    "upstream.html": "The Rust crate’s names",
}
FRAME = """<!doctype html><html lang="en"><head><meta charset="utf-8">
<meta name="viewport" content="width=device-width,initial-scale=1">
<title>{title}</title><link rel="stylesheet" href="site.css"><script src="site.js" defer></script></head><body>
<header><nav>{links}</nav><form role="search"><input id="q" type="search" placeholder="Find a name" autocomplete="off"
 aria-label="Find a name"><ul id="found"></ul></form></header>
<div class="page"><main>{body}</main></div></body></html>
"""


def document(title: str, body: str, here: str = "") -> str:
    """Returns a page of the site. The script adds what its symbols mean, and a list of what is on it."""
    links = "".join(f'<a href="{file}"{" class=on" if file == here else ""}>{name}</a>' for file, name in NAV.items())
    return FRAME.format(title=escape(title), links=links, body=body)


# ---- where names lead


def specs_file(specs: Specs) -> str:
    """Returns the page of a specification file."""
    crate, _, *names = specs.module
    return f"specs.{crate}.{'.'.join(names)}.html"


@cache
def href(target: Target) -> str | None:
    """Returns where a target stands on the site, or nothing if it isn't shown."""
    if isinstance(target, Definition):
        return f"{specs_file(target.file)}#{target.name}"
    if isinstance(target, Specs):
        return specs_file(target)
    base = bases().get(target.owner) if isinstance(target, Place) else None
    if isinstance(target, Standard) or base is None or base not in pages():
        return None
    page = pages()[base]
    if not target.member:
        is_main = target == base or target.name == page.title.rpartition("::")[2]
        return page.file if is_main else f"{page.file}#{target.name}"
    if entry := entry_for(target):
        return entry.href
    if target.member in constants_of(base)[1]:
        return f"{page.file}#{target.member}"
    is_ghost = items_at()[base][0].kind == "trait" and target.member in members(base)
    return f"{page.file}#g.{target.member}" if is_ghost else page.file


@cache
def by_name() -> dict[str, str]:
    """Returns where names lead that only one public item, method or definition has; items come before the others."""
    pairs: list[tuple[str, str | None]] = [(place.name, href(place)) for place in bases()]
    pairs += [(name, href(place / name)) for place in bases() for name in constants_of(place)[1]]
    items = {name for name, _ in pairs}
    methods = [(place, entry) for place, entry in entry_at().items() if place.member]
    pairs += [(f"{entry.page.name_of(place.name)}::{place.member}", entry.href) for place, entry in methods]
    others: list[tuple[str, str | None]] = [(place.member, entry.href) for place, entry in methods]
    others += [(name, href(definition)) for specs in all_specs() for name, definition in specs.definitions.items()]
    found: dict[str, set[str]] = {}
    for name, to in pairs + [pair for pair in others if pair[0] not in items]:
        found.setdefault(name, set()).add(to or "")
    tops = {path[8:]: page.file for page in pages().values() for path in page.paths if re.fullmatch(r"x86_64::\w+", path)}
    return {name: min(to) for name, to in found.items() if len(to) == 1} | tops


def link_in(module: Module | None = None, owner: Place | None = None, specs: Specs | None = None) -> Link:
    """Returns what names in a comment lead to, as it stands in a module or a specification file."""

    def link(name: str) -> str | None:
        if name.startswith("http"):
            return name
        if not re.fullmatch(r"[\w:◌]+(?:\(\))?(?:#\w+)?", name):
            return None
        words = name.removesuffix("()").split("::")
        if specs and (to := (target := scope_in(specs).resolve(name)) and href(target)):
            return to
        if module:
            place = owner / words[-1] if owner and (len(words) == 1 or words[0] == "Self") else None
            place = place if place in entry_at() else lookup(module.crate, module.path, tuple(words))
            if place and (to := href(place)):
                return to
        return by_name().get(name)

    return link


# ---- definitions

# words of the language that say nothing to a reader
SILENT = re.compile(r'<i class="k">(?:pub|abbrev|unfoldable)</i> ')


@cache
def summary_of(definition: Definition) -> str:
    """Returns the first sentence of a definition's comment, or its type if it has none."""
    if definition.comment:
        return inline(first_sentence(definition.comment), lambda _: None)
    if definition.members:
        names = ", ".join(f"<code>{text_of(name)}</code>" for name in definition.members)
        return f"{'with' if definition.kind == 'record' else 'one of'} {names}"
    kind = definition.lines[0].partition(" : ")[2]
    return f"<code>{text_of(definition.lines[-1] if kind == 'Type 0' else kind or definition.lines[0])}</code>"


@cache
def box_body(definition: Definition) -> str:
    """Returns what the box of a definition holds."""
    crate, _, *names = definition.file.module
    comment = markdown(definition.comment, link_in(specs=definition.file), 4) if definition.comment else ""
    text = SILENT.sub("", code(definition_pieces(definition), lambda target: None if target is definition else href(target)))
    return f'{comment}<pre>{text}</pre><p class="where"><a href="{href(definition)}">{crate} › {" › ".join(names)}</a></p>'


def box(definition: Definition, more: str = "") -> str:
    """Returns a definition as a box that is open."""
    head = f"<code>{text_of(definition.name)}</code> <span>{summary_of(definition)}</span>"
    body = f'<div class="body">{box_body(definition)}{more}</div>'
    return f'<details class="box" id="{escape(definition.name)}" open><summary>{head}</summary>{body}</details>'


def count_line(found: dict[Definition, int]) -> str:
    """Returns how much stands behind a contract."""
    counts = {
        "definition": len(found),
        "line": sum(definition.length for definition in found),
        "file": len({definition.file for definition in found}),
        "step": max(found.values()),
    }
    return ", ".join(f"{count} {word}{'s' * (count != 1)}" for word, count in counts.items())


def behind(found: dict[Definition, int], title: str, with_boxes: bool) -> str:
    """Returns the definitions behind a page, nearest first: if wanted, boxes of those that it names, and lists of the others."""
    if not found:
        return ""
    html = f'<h2 id="behind">{title} <small>{count_line(found)}</small></h2>'
    for steps in sorted(set(found.values())):
        ring = [definition for definition, number in found.items() if number == steps]
        name = {1: "Named here", 2: "Named by these"}.get(steps, f"{steps - 1} steps behind")
        rows = [f"<li>{anchor(href(d) or '', d.name, 'd')} <span>{summary_of(d)}</span></li>" for d in ring]
        html += f'<h3 class="ring">{name} <small>{len(ring)}</small></h3>'
        html += "".join(map(box, ring)) if with_boxes and steps == 1 else f"<ul>{''.join(rows)}</ul>"
    return f'<section class="behind says">{html}</section>'
