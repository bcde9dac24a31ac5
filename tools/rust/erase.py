"""Erases the contracts of Rattle sources. What is left is one Rust crate.

Rattle is Rust with contracts, so erasing is mostly cutting. Each file is read as tokens, and its items are walked. Whatever is unknown ends
the program with the file and the line: nothing is dropped in silence. What is known stands here and in rules.py:

  cut       `ghost use`, ghost members, fields and parameters, clauses, proof attributes, `impl Model`, laws and calls of laws,
            `impl Drop` whose body only takes the value apart, `final`, `Drop` in derives and bounds
  written   `derive_where` as impls; `Formatter<W>` as core's; `clone` as core's; an allocator that is passed is not passed;
            `std::` as `core::` or as this crate's `support`; crates as modules; `prove!` as `debug_assert!`
  added     tests of conditions, `#[inline]`, names, and a section of documentation for each contract

Comments that describe what is cut go with it. A last pass refuses any word of proofs that is left outside comments.
"""

import pathlib

import rules
from output import rust


def sources(crate, left_out=frozenset()):
    """Returns the files of a crate that aren't laws alone, and their places in the crate."""
    top = crate / "src"
    if not top.is_dir():
        raise SystemExit(f"{top}: no such crate")
    for path in sorted(top.rglob("*.rt")):
        if not any(name in rules.LAW_MODULES or name in left_out for name in (path.stem, *path.relative_to(top).parts)):
            yield path, path.relative_to(top).with_suffix(".rs")


def erased(crates):
    """Returns the files of the Rust crate, by their places below src/."""
    files = {}
    for crate, module in rules.CRATES.items():
        for path, place in sources(crates / crate):
            text = rust(path, module)
            if place.name == "lib.rs":
                place = pathlib.Path("mod.rs" if module else "lib.rs")
                text = text if module else rules.root(text)
            files[pathlib.Path(module) / place] = text
    return files


def write(files, out):
    """Writes files below a folder."""
    for place, text in files.items():
        target = out / place
        target.parent.mkdir(parents=True, exist_ok=True)
        target.write_text(text)
