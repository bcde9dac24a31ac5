"""Writes the pages of Rust items and of specification files."""

import re
from html import escape

from .boxes import behind, box, box_body, count_line, document, href, link_in
from .evidence import callers, prototypes, wrong_bodies
from .markup import anchor, code, inline, markdown, text_of
from .model import Entry, Page, alike, pages, values_of
from .names import Scope, Target, owner_name, scope_of
from .paths import Place, constants_of, items_at
from .reading import Reading, closure, named_in, rust_pieces
from .rust import Item, Module, is_law
from .sources import Definition, Specs, first_sentence

KINDS = {"fn": "function", "struct": "type", "enum": "type", "const": "constant"}
WRONG = "Wrong bodies that the prover refuses"
# what clauses are, in words
TITLES = {"requires": "The caller has to prove", "ensures": "The caller gets", "ghost": "A value that exists in proofs alone"}
# the line of a statement that says that it is one
TYPE_LINE = r'<pre><span class="l">[^\n]*?<i class="k">Type</i> <i class="m">0</i></span>(?=<span class="l">)'


def rust(text: str, scope: Scope) -> str:
    """Returns Rust with its types and traits linked."""
    return code(rust_pieces(text, scope), href)


def contract(entry: Entry) -> str:
    """Returns the clauses of a function, each with its names linked; of a law also what a definition says that the clause names."""
    html = ""
    for clause, stream in zip(entry.item.clauses, entry.pieces):
        target = entry.scope.resolve(clause.text) if entry.item.is_law else None
        formula = re.sub(TYPE_LINE, "<pre>", box_body(target)) if isinstance(target, Definition) else ""
        html += (
            f'<div class="clause of-{clause.keyword}"><div class="what" title="{TITLES[clause.keyword]}"><b>{clause.keyword}</b> '
            f"<span>{clause.name}</span></div><div><pre>{code(stream, href)}</pre>"
            f'{f"<div class=formula>{formula}</div>" if formula else ""}</div></div>'
        )
    nothing = '<p class="none">No contract: it is proved that this call doesn’t panic or overflow, and nothing else.</p>'
    return f'<div class="contract">{html}</div>' if html else nothing


def wrong(items: list[Item]) -> str:
    """Returns the wrong bodies of functions that the prover refuses."""
    html = ""
    for name, pairs in {name: pairs for item in items for name, pairs in wrong_bodies().get(item, ())}.items():
        changes = "".join(f"<del>{text_of(old)}</del><ins>{text_of(new)}</ins>" for old, new in pairs)
        html += f'<div class="edit"><b>{name.replace("_", " ")}</b><pre>{changes}</pre></div>'
    return html


def caller_blocks(entry: Entry, most: int = 2) -> str:
    """Returns proved callers of a function, whole."""
    return "".join(
        f'<p class="where">{inline(first_sentence(item.comment), link_in(module))} crates/uses/src/{module.file.name}</p>'
        f"<pre>{rust(item.text, scope_of(module, None, item))}</pre>"
        for item, module in callers().get(entry, [])[:most]
    )


def function(entry: Entry) -> str:
    """Returns a function: its signature, comment, declaration in C and contract, and the others with the same contract."""
    owner = entry.place.owner if entry.owner else None
    is_bare = entry.item.is_law and re.search(r"fn \w+\(\)$", entry.item.head)
    html = "" if is_bare else f'<pre class="sig">{rust(entry.item.signature, entry.scope)}</pre>'
    html += f'<div class="doc">{markdown(entry.item.comment, link_in(entry.module, owner), 4)}</div>'
    if entry.item.name in prototypes() and not entry.owner:
        comment, text = map(text_of, prototypes()[entry.item.name])
        html += f'<h3>In C</h3><pre class="sig">{text}</pre><pre class="told">{comment}</pre>'
    others = [other for other in alike().get(entry.key, ()) if other is not entry]
    others = [other for other in others if entry.behind or other.item.name == entry.item.name]
    names = ", ".join(anchor(other.href, other.name if other.owner else other.page.title) for other in others)
    return html + contract(entry) + (f'<p class="same">The same contract: {names}</p>' if names and len(others) <= 12 else "")


def folded(title: str, html: str) -> str:
    """Returns a part of a page that is closed at first, or nothing if there is nothing in it."""
    return f'<details class="more"><summary>{title}</summary>{html}</details>' if html else ""


def entry_section(entry: Entry) -> str:
    """Returns a function as a part of the page of its type or trait."""
    is_of_other = entry.owner and entry.owner.kind == "trait" and entry.owner.name != entry.page.base.name
    name = f"{entry.owner.name}::{entry.item.name}" if entry.owner and is_of_other else entry.item.name
    behind = f'<p class="where">This rests on <a href="#behind">{count_line(entry.behind)}</a>.</p>' if entry.behind else ""
    items = [entry.item, *(other.item for other in alike().get(entry.key, []) if entry.behind)]
    return (
        f'<section class="item" id="{entry.anchor}"><h3><a href="#{entry.anchor}">{name}</a></h3>{function(entry)}{behind}'
        f"{folded(WRONG, wrong(items))}{folded('Proved callers', caller_blocks(entry))}</section>"
    )


# ---- pages


def head_of(page: Page) -> str:
    """Returns the head of a page: its name, and the paths under which others reach it."""
    before, _, last = page.title.rpartition("::")
    kind = "function for C" if "no_mangle" in items_at()[page.base][0].attributes else KINDS.get(page.kind, page.kind)
    kind = kind if page.paths or kind not in ("type", "trait") else f"private {kind}"
    others = "".join(f"<li><code>{path}</code></li>" for path in page.paths[1:])
    others = f'<details class="paths"><summary>Other paths</summary><ul>{others}</ul></details>' if others else ""
    return (
        f'<p class="crumbs"><a href="crate.{page.base.crate}.html">{page.base.crate}</a> › '
        f'{" › ".join(page.base.path) or "lib"} <span class="tag">{kind}</span></p>'
        f'<h1><span class="path">{before}::</span><wbr>{last}</h1>{others}'
    )


def declaration(page: Page, place: Place) -> str:
    """Returns the declaration of an item without private fields, its comment, and the flags of a type of flags."""
    item, module = items_at()[place]
    scope = scope_of(module, None, item)
    derived = ", ".join(re.findall(r"derive(?:_where)?\(([^)]*)\)", item.attributes))
    text = item.text.removeprefix("pub ") if item.kind == "enum" else item.signature
    if item.kind == "struct" and "{" in item.text:
        fields = re.findall(r"(?:^ *///[^\n]*\n)*^    pub \w+:[^\n]*,$", item.text, re.MULTILINE)
        is_all = not re.search(r"^    (?!pub |///|\})\w+:", item.text, re.MULTILINE)
        text += " {\n" + "\n".join([*fields, *([] if is_all else ["    // private fields"])]) + "\n}"
    html = f'<h2 id="{place.name}">{place.name}</h2>' if place != page.base else ""
    html += f'<pre class="sig">{rust(text, scope)}</pre>' + (f'<p class="where">Derived: {escape(derived)}</p>' if derived else "")
    html += f'<div class="doc">{markdown(item.comment, link_in(module, place))}</div>'
    flags = re.sub(r"const (\w+) =", r'const <b id="\1">\1</b> =', rust(constants_of(place)[0], scope))
    return html + (f'<h2 id="constants">Flags</h2><pre>{flags}</pre>' if constants_of(place)[0] else "")


def ghosts(title: str, item: Item, module: Module, parts: list[Item], targets: list[Target]) -> str:
    """Returns ghost members below a title, each with its comment, and adds what they name to the targets."""
    scope, html = scope_of(module, item), title if parts else ""
    link = link_in(module, scope.own_trait)
    for part in parts:
        is_value = part.kind == "value"
        bound = {other.name for other in parts if is_value and other is not part}
        stream = tuple(Reading(part.head.strip()[1:-1].strip(), scope, bound).pieces())
        targets += named_in(stream)
        place = "" if is_value else f' id="g.{part.name}"'
        html += f'<div class="ghost"{place}><div class="doc">{markdown(part.comment, link, 4)}</div><div class="clause">'
        html += f'<div class="what"><b>{part.name}</b>{"=" if is_value else ":"}</div>'
        html += f"<div><pre>{code(stream, href)}</pre></div></div></div>"
    return html


def trait_parts(page: Page, place: Place, targets: list[Target]) -> str:
    """Returns a trait's members; of one for five levels the functions that differ from those for four."""
    item, module = items_at()[place]
    scope, link = scope_of(module, item), link_in(module, place)
    html = ""
    for part in (part for part in item.parts if part.kind in ("const", "type")):
        html += f'<div class="doc" id="g.{part.name}">{markdown(part.comment, link, 4)}</div>'
        html += f'<pre class="sig">{rust(part.head, scope)}</pre>'
    parts = [part for part in item.parts if part.kind == "ghost"]
    laws = [part for part in parts if is_law(part, item)]
    values = [part for part in parts if part not in laws]
    html += ghosts("<h2>What a value is, for contracts</h2>", item, module, values, targets)
    html += ghosts("<h2>Laws, which each implementation proves</h2>", item, module, laws, targets)
    own = [entry for entry in page.entries if entry.owner is item]
    first = [entry for entry in page.entries if entry.owner is items_at()[page.base][0] and place != page.base]
    known = {(entry.item.name, entry.key.replace("57", "")) for entry in first}
    equal = [entry for entry in own if (entry.item.name, entry.key.replace("57", "")) in known]
    names = ", ".join(f'<i id="{entry.anchor}"></i>{anchor(f"#{entry.item.name}", entry.item.name)}' for entry in equal)
    html += f"<p>With the contracts above, word for word: {names}.</p>" if names else ""
    return html + "".join(entry_section(entry) for entry in own if entry not in equal)


def implementation_parts(page: Page, targets: list[Target]) -> str:
    """Returns the implementations on a page: what contracts see, the type's own functions, traits."""
    html = ""
    for item, module, shown in sorted(page.implementations, key=lambda at: {"Model": 0, "": 1}.get(owner_name(at[0].head)[0], 2)):
        head = re.sub(r"^impl(<.*?>)? (?=\w)", "impl ", item.head.partition(" where ")[0])
        title = "What contracts see" if owner_name(item.head)[0] == "Model" else rust(head, scope_of(module, item))
        hidden = [part for part in item.parts if part.kind == "fn" and part not in [entry.item for entry in shown]]
        html += f'<h2 class="impl">{title}</h2>' + ghosts("", item, module, values_of(item), targets)
        html += "".join(map(entry_section, shown)) + folded(WRONG, wrong(hidden))
    return html


def item_page(page: Page) -> str:
    """Returns the page of an item."""
    targets = [target for entry in page.all_entries for target in entry.named]
    is_function = page.kind in ("fn", "law")
    html = head_of(page)
    for entry in page.entries if is_function else ():
        html += (f'<h2 id="{entry.place.name}">{entry.place.name}</h2>' if entry.place != page.base else "") + function(entry)
    for place in () if is_function else page.places:
        html += declaration(page, place)
        html += trait_parts(page, place, targets) if items_at()[place][0].kind == "trait" else ""
    html += implementation_parts(page, targets)
    html += behind(closure(targets), "What this says" if is_function else "The definitions behind this page", page.kind == "fn")
    if is_function:
        same = [other.item for entry in page.entries for other in alike().get(entry.key, []) if entry.behind]
        edits, blocks = wrong([*same, *(entry.item for entry in page.entries)]), "".join(map(caller_blocks, page.entries))
        html += f'<h2 id="wrong">{WRONG}</h2>{edits}' if edits else ""
        html += f'<h2 id="callers">Proved callers</h2>{blocks}' if blocks else ""
    return document(page.title, html)


def specs_page(specs: Specs) -> str:
    """Returns the page of a specification file."""
    crate, _, *names = specs.module
    html = (
        f'<p class="crumbs"><a href="crate.{crate}.html">{crate}</a> › specs</p>'
        f'<h1>{"::".join(names)}</h1><div class="doc">{markdown(specs.comment, link_in(specs=specs))}</div>'
    )
    laws = [entry for page in pages().values() if page.kind == "law" for entry in page.entries]
    for definition in specs.definitions.values():
        about = [anchor(law.href, law.item.name) for law in laws if law.behind.get(definition, 3) < 3]
        html += box(definition, f'<p class="where">Laws about it: {", ".join(about[:8])}</p>' if about else "")
    return document(f"{names[-1]} of {crate}", html)
