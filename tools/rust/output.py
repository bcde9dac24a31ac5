"""The text of a Rust file: tidied, with the paths of the crate, and checked."""

import re

import rules
from items import Items
from tokens import CUT, TOKEN

# What no text has but in comments.
FORBIDDEN = {"ghost", "requires", "ensures", "decreases", "invariant", "Model", "tactic", "final", "prove", "derive_where", "Drop"}


def rust(path, module, kind=Items, crates=rules.CRATES):
    """Returns a Rattle file as Rust, which is in a module of the crate ('' for the top). `crates` has the modules of crates."""
    file = kind(path)
    file.items(0, file.size, "mod")
    text = rewritten(tidied(file.edited(0, file.size)), rules.REWRITES)
    if any(word == "Vec" and kind == "word" and not file.new.get(n) for n, (word, kind) in enumerate(zip(file.text, file.kind))):
        text = with_use(text, "@crate::support::Vec")
    text = spaced(text)
    # crates are modules here, in links of the documentation too
    text = re.sub(r"(?<![\w:@])crate::", f"crate::{module}::" if module else "crate::", text)
    for crate, place in crates.items():
        text = re.sub(rf"(?<![\w:]){crate}::", f"crate::{place}::" if place else "crate::", text)
    text = text.replace("@crate::", "crate::")
    check(path, text)
    return text.strip() + "\n"


def rewritten(text, rewrites):
    """Returns a text with what patterns find replaced."""
    for pattern, by in rewrites.items():
        text, count = re.subn(pattern, by, text)
        if count:
            rewrites.apply(pattern)
    return text


def with_use(text, name):
    """Returns a text with one more name in use."""
    head = re.match(r"(//![^\n]*\n)*", text)[0]
    return f"{head}\nuse {name};\n{text[len(head):]}"


def tidied(text):
    """Returns a text without the marks of what was cut, and without lines of these alone."""
    text = re.sub(rf"(?m)^[ \t]*{CUT}[{CUT} \t]*\n", "", text)
    text = re.sub(rf"{CUT} (?=\S)", CUT, text)
    return re.sub(rf"[ \t]*{CUT}", "", re.sub(rf"{CUT}+", CUT, text))


def spaced(text):
    """Returns a text without empty lines where Rust has none."""
    text = re.sub(r"\n{3,}", "\n\n", text)
    text = re.sub(r"\{\n\n+", "{\n", text)
    text = re.sub(r"\n\n+([ \t]*\})", r"\n\1", text)
    return re.sub(r"(?m)^((?:(?!//).)*\{)[ \t]*\n\s*\}", r"\1}", text)


def check(path, text):
    """Ends the program if a text has words of proofs outside comments."""
    for found in TOKEN.finditer(text):
        if found.lastgroup in ("comment", "string", "space"):
            continue
        if found[0] in FORBIDDEN or not found[0].isascii():
            line = text[text.rfind("\n", 0, found.start()) + 1 : text.find("\n", found.start())]
            raise SystemExit(f"{path}: not erased: {line.strip()!r}")
