"""Writes the pages that are lists or documents: the first page, crates, the Rust crate's names; and what the search finds."""

import json
import re
from pathlib import Path

from .boxes import document, href, link_in, specs_file
from .evidence import edits_of
from .markup import anchor, inline, markdown, slug
from .model import bases, entries, entry_at, pages
from .names import all_specs
from .paths import Place, constants_of, find, items_at
from .rust import modules_of
from .sources import CALLERS, TOP, first_sentence, shown

HERE = Path(__file__).parent
# the documents that are pages: for each file its page and title
DOCUMENTS = {
    "docs/THEOREM.md": ("theorem.html", "The theorem"),
    "docs/USING.md": ("tasks.html", "Tasks"),
    "docs/DEFINITIONS.md": ("definitions.html", "Definitions"),
    "docs/READING.md": ("notation.html", "How to read a contract"),
    "docs/DIFFERENCES.md": ("differences.html", "Differences from the Rust crate"),
    "docs/TESTED.md": ("tested.html", "What is only tested"),
    "docs/MAP.md": ("map.html", "Map of the code"),
    "docs/PROOFS.md": ("proofs.html", "Map of the proofs"),
    "docs/DECISIONS.md": ("decisions.html", "Decisions"),
    "rust/README.md": ("rust.html", "The crate for Rust"),
}


def link(name: str) -> str | None:
    """Returns what a link or a name in a document leads to."""
    path, hash_sign, place = name.partition("#")
    for file, (page, _) in DOCUMENTS.items():
        if path in (file, Path(file).name) or path.endswith(f"/{file}"):
            return page + hash_sign + place
    if match := re.search(r"crates/(\w+)/specs/([\w/]+)\.antt$", path):
        return f"specs.{match[1]}.{match[2].replace('/', '.')}.html"
    if match := re.search(r"crates/(\w+)/src/", path):
        return f"crate.{match[1]}.html" if match[1] in shown() else None
    return name if re.fullmatch(r"(?:[\w.]+\.html)?(?:#[\w-]+)?", name) else link_in()(name)


def rows(found: list[tuple[str, str, str]]) -> str:
    """Returns a list of names, each with where it leads and the first sentence of its comment."""
    cells = [f"<dt>{anchor(to, name)}</dt><dd>{inline(first_sentence(comment), link_in())}</dd>" for name, to, comment in found]
    return f"<dl>{''.join(cells)}</dl>"


def crate_page(crate: str) -> str:
    """Returns the page of a crate: its public items by module, its definitions, and its wrong bodies."""
    modules = modules_of(crate)
    html = f"<h1>{crate}</h1>{markdown(modules[()].comment, link_in(modules[()]))}"
    for path, module in sorted(modules.items()):
        near = [(base, page) for base, page in pages().items() if (base.crate, base.path) == (crate, path)]
        found = [(page.title.rpartition("::")[2], page.file, items_at()[base][0].comment) for base, page in near]
        if found:
            about = inline(first_sentence(module.comment), link_in(module)) if path else ""
            html += f'<h2 id="{"::".join(path)}">{"::".join(path) or crate}</h2><p>{about}</p>{rows(sorted(found))}'
    files = [(".".join(s.module[2:]), specs_file(s), s.comment) for s in all_specs() if s.module[0] == crate]
    html += f'<h2 id="specs">Definitions</h2>{rows(files)}' if files else ""
    names = "".join(f"<li>{file.stem.replace('_', ' ')}</li>" for file in edits_of(crate))
    html += f'<h2 id="wrong">Wrong bodies that the prover refuses</h2><ul class="columns">{names}</ul>' if names else ""
    return document(crate, html)


def upstream_page() -> str:
    """Returns the names of the Rust crate's items, and which items these are here. Its list is renewed for a new version."""
    html = (
        "<h1>The Rust crate’s names</h1><p>Each public item of this layer of the Rust crate <code>x86_64</code> 0.15.5, by its "
        'path there. What is struck out isn’t here. <a href="differences.html">What differs</a></p>'
    )
    table: dict[str, dict[str, list[str]]] = {}
    for name in sorted((HERE / "upstream.txt").read_text(encoding="utf-8").split()):
        words = name.split("::")
        at = next((at for at, word in enumerate(words) if word[0].isupper()), len(words) - 1)
        target = find("x86_64", (), words)
        base = bases().get(target.owner) if isinstance(target, Place) else None
        to = None
        if isinstance(target, Place) and base:
            is_named = target.member in constants_of(base)[1] or re.search(rf"\b{target.member}\b", items_at()[base][0].text)
            to = href(target) if is_named or target in entry_at() or base / target.member in entry_at() else None
        shown_name = anchor(to, words[-1]) if to else f'<a href="differences.html#left-out"><s>{words[-1]}</s></a>'
        table.setdefault("::".join(words[:at]) or "x86_64", {}).setdefault(words[at], []).append(shown_name)
    for path, found in table.items():
        cells = "".join(f"<dt>{names[0]}</dt><dd>{' '.join(names[1:])}</dd>" for names in found.values())
        html += f'<h2 id="{slug(path)}">{path}</h2><dl class="upstream">{cells}</dl>'
    return document("The Rust crate's names", html, "upstream.html")


def index_page() -> str:
    """Returns the first page."""
    contracts = sum(bool(entry.item.clauses) for entry in entries())
    definitions = sum(len(specs.definitions) for specs in all_specs() if specs.module[0] in shown())
    text = (HERE / "start.md").read_text(encoding="utf-8")
    text = text.replace("CONTRACTS", str(contracts)).replace("DEFINITIONS", f"{definitions:,}", 1)
    listed = [(crate, f"crate.{crate}.html", modules_of(crate)[()].comment) for crate in shown()]
    return document("Luffraisin", markdown(text, link, 1, True) + rows(listed), "index.html")


def search_rows() -> str:
    """Returns what the search finds: names, where they stand, and a sentence on each."""
    found = {(entry.name, entry.href, entry.item.comment) for entry in entries()}
    for place, base in bases().items():
        found.add((place.name, href(place) or "", items_at()[place][0].comment))
        found.add((pages()[base].title.rpartition("::")[2], pages()[base].file, items_at()[base][0].comment))
    for specs in (specs for specs in all_specs() if specs.module[0] in shown()):
        found |= {(name, href(each) or "", f"definition: {each.comment}") for name, each in specs.definitions.items()}
    short = [[name, to, first_sentence(text).replace("`", "")[:90]] for name, to, text in sorted(found)]
    return "NAMES=" + json.dumps(short, ensure_ascii=False, separators=(",", ":"))


def list_pages() -> dict[str, str]:
    """Returns these pages by the names of their files."""
    found = {"index.html": index_page(), "upstream.html": upstream_page(), "search.js": search_rows()}
    found |= {f"crate.{crate}.html": crate_page(crate) for crate in (*shown(), CALLERS)}
    for file, (page, title) in DOCUMENTS.items():
        found[page] = document(title, markdown((TOP / file).read_text(encoding="utf-8"), link, 1, True), page)
    return found
