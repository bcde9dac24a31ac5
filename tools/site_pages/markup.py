"""Writes HTML: comments and documents in Markdown, contracts and definitions with their names linked."""

import re
from collections.abc import Callable, Iterable
from functools import partial
from html import escape

from .names import Standard, Target
from .reading import Piece
from .sources import Definition

# a text as HTML
text_of: partial[str] = partial(escape, quote=False)
# where the page of a target is
Href = Callable[[Target], str | None]
# what a name in backticks, or the target of a link, leads to
Link = Callable[[str], str | None]
CLASSES = {"keyword": "k", "comment": "c", "number": "m", "notation": "n", "moment": "n", "string": "s", "unknown": "u"}


def anchor(to: str, name: str, group: str = "r") -> str:
    """Returns a name in code as a link; groups are d for definitions and r for Rust."""
    return f'<a class="{group}" href="{escape(to)}"><code>{text_of(name)}</code></a>'


def code(pieces: Iterable[Piece], href: Href) -> str:
    """Returns a text of the notation as HTML, with its names linked. A line that is too long goes on behind its own indent."""
    parts = []
    for line in words(pieces, href).split("\n"):
        indent = len(line) - len(line.lstrip(" "))
        parts.append(f'<span class="l"{f" style=--i:{indent}" if indent else ""}>{line or " "}</span>')
    return "".join(parts)


def words(pieces: Iterable[Piece], href: Href) -> str:
    """Returns a text of the notation as HTML."""
    parts = []
    for text, kind, target in pieces:
        name = text if kind == "space" else text_of(text)
        if isinstance(target, Standard):
            group = "n" if re.fullmatch(r"[^\w\s]+", text) else "x"
            parts.append(f'<i class="{group}" title="{escape(".".join(target.module))}">{name}</i>')
        elif target and kind in ("name", "module") and (to := href(target)):
            parts.append(f'<a class="{"d" if isinstance(target, Definition) else "r"}" href="{escape(to)}">{name}</a>')
        else:
            parts.append(f'<i class="{CLASSES[kind]}">{name}</i>' if kind in CLASSES else name)
    return "".join(parts)


# ---- Markdown


def inline(text: str, link: Link) -> str:
    """Returns a line of Markdown as HTML."""
    kept: list[str] = []

    def keep(html: str) -> str:
        kept.append(html)
        return f"\0{len(kept) - 1}\0"

    def span(match: re.Match[str]) -> str:
        to = link(match[1])
        return keep(anchor(to, match[1]) if to else f"<code>{text_of(match[1])}</code>")

    def linked(match: re.Match[str]) -> str:
        # only code is looked up by its name: words need a target
        name = match[1].strip("`")
        to = link(match[2]) if match[2] else link(name) if match[1] != name else None
        html = inline(match[1], lambda _: None)
        if not to:
            return keep(html if match[2] or match[1] != name else f"[{html}]")
        return keep(f'<a class="r" href="{escape(to)}">{html}</a>')

    text = re.sub(r"\[((?:`[^`]*`|[^\][`])+)\](?:\(([^()\s]*(?:\([^()]*\)[^()]*)*)\))?(?!\w)", linked, text)
    text = text_of(re.sub(r"`([^`]+)`", span, text))
    text = re.sub(r"\*\*(.+?)\*\*", r"<strong>\1</strong>", text)
    text = re.sub(r"(?<![\w*])\*([^*\s](?:[^*]*[^*\s])?)\*(?![\w*])", r"<em>\1</em>", text)
    while "\0" in text:
        text = re.sub(r"\0(\d+)\0", lambda match: kept[int(match[1])], text)
    return text


def slug(text: str) -> str:
    """Returns the anchor of a heading, as GitHub makes it."""
    return re.sub(r"[^\w\- ]", "", text.lower()).replace(" ", "-")


def table(lines: list[str], link: Link) -> str:
    """Returns the lines of a table as HTML."""
    cells = [re.split(r"(?<!\\)\|", line.strip().strip("|")) for line in (lines[0], *lines[2:])]
    rows = [[inline(cell.strip().replace("\\|", "|"), link) for cell in row] for row in cells]
    head = "".join(f"<th>{cell}</th>" for cell in rows[0])
    body = "".join(f"<tr>{''.join(f'<td>{cell}</td>' for cell in row)}</tr>" for row in rows[1:])
    return f'<div class="wide"><table><thead><tr>{head}</tr></thead><tbody>{body}</tbody></table></div>'


def listed(text: str, link: Link) -> str:
    """Returns the lines of a list as HTML."""
    found = re.split(r"\n(?=- |\d+\. )", text)
    items = "".join(f"<li>{inline(' '.join(re.sub(r'^(- |[0-9]+[.] )', '', item).split()), link)}</li>" for item in found)
    return f"<ul>{items}</ul>" if text.startswith("-") else f"<ol>{items}</ol>"


# the blocks of a document: code, a heading, a table, a list, or a paragraph
BLOCK = re.compile(
    r"```\w*\n(?P<code>.*?)\n?```[^\n]*(?:\n|\Z)|(?P<depth>#+) (?P<heading>[^\n]*)|(?P<table>(?:\|[^\n]*(?:\n|\Z))+)"
    r"|(?P<list>(?:- |\d+\. )[^\n]*(?:\n(?:- |\d+\. |  )[^\n]*)*)|(?P<text>[^\n]+(?:\n(?!- |\||```|#+ |\d+\. )[^\n]+)*)",
    re.DOTALL,
)


def markdown(text: str, link: Link, level: int = 2, with_anchors: bool = False) -> str:
    """Returns a comment or a document as HTML, with its headings from a level on."""
    parts: list[str] = []
    for block in BLOCK.finditer(re.sub(r"<!--.*?-->\n?|^!\[[^\n]*\n", "", text, flags=re.MULTILINE)):
        if block["depth"]:
            depth = min(len(block["depth"]) + level - 1, 6)
            name = f' id="{slug(block["heading"])}"' if with_anchors else ""
            parts.append(f"<h{depth}{name}>{inline(block['heading'], link)}</h{depth}>")
        elif block["table"]:
            parts.append(table(block["table"].splitlines(), link))
        elif block["list"]:
            parts.append(listed(block["list"], link))
        elif block["text"]:
            parts.append(f"<p>{inline(' '.join(block['text'].split()), link)}</p>")
        else:
            parts.append(f"<pre>{text_of(block['code'])}</pre>")
    return "\n".join(parts)
