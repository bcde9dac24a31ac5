"""Turns the tests of the Rattle crates into integration tests of the Rust crate, and the engine of `pagetab` into one of its examples.

The runtime and the allocator that tests are passed are cut, as contracts are. Calls of laws go, too: a law has nothing to run.
"""

import pathlib
import re

import rules
from applied import Rules
from erase import sources
from items import ATTRIBUTES, Items
from output import rewritten, rust, with_use

CRATE = "x86_64_paging"
# The tests, of which each is a crate of tests here or written by hand, with the crates that they need beside the library.
TESTS = {"test_tables": [], "test_mappers": ["uses"], "test_runs": ["test_reference", "pagetab_engine"]}
# The modules of a crate of callers that tests call, and those that implement traits. The others are left out.
WANTED = {
    "uses": Rules(
        {
            *("at_offset", "guest_store", "layer", "list_loaded", "list_mappings", "load_segments", "own_allocator", "own_memory"),
            *("processes", "run_in_space", "run_in_turn"),
        }
    )
}
# Modules of tests that stand in Rust by hand, too: of texts, in which flags have names there.
LEFT_OUT = {"test_tables": {"texts"}}
# Modules that are written by hand, by the tests to which they belong: all of them where the main file is.
BY_HAND = {
    "test_runs": ["agreement", "pairs", "refusals"],
    "test_tables": ["accesses", "addresses", "common", "mappings", "pages", "spaces", "tables"],
    "test_mappers": ["main", "prelude", "world", "mappers", "guest", "beside", "loader", "loaded", "spaces"],
}
# The crates of these that the example pagetab has, with their places.
SHARED = {"pagetab_engine": "../../examples/pagetab/pagetab_engine/mod.rs"}
# Functions that only call laws.
LAWS_ALONE = Rules({"call_laws", "laws_hold_in_three_sizes"})
# Tests that can't run: texts of std end the process where memory is refused.
IGNORED = Rules({"the_program_stops_at_each_block_that_is_refused"})
# What stands for macros and crates of Rattle, written by hand.
SUPPORT = "more/mod.rs"
# Names without a use in Rust.
NO_NAMES = Rules({"std::process::Abort", "std::alloc::Global"})
# Texts, and what they become.
REWRITES = Rules(
    {
        r"use crate::support::Vec;": f"use crate::more::MoreOfVec;\nuse {CRATE}::support::Vec;",
        # traits of all that a test is passed
        r"(///[^\n]*\n)*pub trait Test[^{]*\{\}\n+impl<R[^{]*\{\}\n": "",
        # no error of a failed allocation
        r"\bunwrap\((\w+)\.clone\(\)\)": r"\1.clone()",
        r"\bunwrap\((\w+\.push_str\(\w+\))\)": r"\1",
        r"extend_from_slice\(buf\)\?": "extend_from_slice(buf).map_err(|_| io::ErrorKind::OutOfMemory)?",
        # a tuple of one value, once the allocator is cut
        r"let \((\w+),?\) = \((.*)\);": r"let \1 = \2;",
        r"\.collect\(\)": ".collect_in()",
    }
)
# Methods of traits, and their names.
TRAITS = Rules({"String::from_str": "std::str::FromStr", ".collect_in()": "crate::more::CollectIn"})
LIBRARY = {crate: f"{CRATE}::{module}".removesuffix("::") for crate, module in rules.CRATES.items()}


class TestItems(Items):
    """A file of tests."""

    is_library = False
    attributes = ATTRIBUTES | {"test", "cfg"}
    macros = Items.macros | {"assert", "assert_eq", "panic", "macro_rules"}

    def __init__(self, path):
        super().__init__(path)
        self.macros = self.macros | set(re.findall(r"macro_rules! (\w+)", self.source))
        for i in range(self.size):
            if self.kind[i] != "word":
                continue
            before = self.before(i) if i else i
            if self.text[i] in ("rt", "_rt"):
                self.runtime(before if self.text[before] == "$" else i, i + 1)
            elif self.text[i] == "in" and self.at(self.before(before)) == "!":  # format!(in alloc; ..)
                self.cut(i, self.after(self.until(i, ";")))
                name = self.before(self.before(before))
                self.new[name] = self.text[name] + "_in"

    def function(self, head, start, i, owner, where, attributes):
        end = super().function(head, start, i, owner, where, attributes)
        name = self.at(self.after(i))
        if self.at(i) == "fn" and name in LAWS_ALONE:
            LAWS_ALONE.apply(name)
            self.cut(head, end)
        return end

    def runtime(self, i, stop):
        """Cuts the runtime that is passed, from i to stop - 1: a parameter, an argument, or the allocator that it has."""
        if self.at(self.before(i)) == "&":
            i = self.before(i)
        if self.at(stop) == ":":
            stop = self.until(stop, (",", ")"))
        elif self.at(stop) == "." and self.at(stop + 1) == "alloc":
            stop = self.partner[stop + 2] + 1
        behind = self.next(stop)
        before = self.before(i)
        if self.at(before) == "=" and self.at(behind) == ";":  # let alloc = rt.alloc();
            self.cut(self.before(self.before(before)), behind + 1)
        elif self.at(behind) in (",", ";"):
            stop = self.after(behind)
            self.cut(i, stop if "\n" not in self.text[stop - 1] else behind + 1)
        elif self.at(before) == ",":
            self.cut(before, stop)
        elif self.at(behind) == ")":
            self.cut(i, stop)

    def attribute(self, i, attributes):
        end = super().attribute(i, attributes)
        if attributes and attributes[-1][0] == "cfg":
            self.cut(*attributes.pop()[1:])
        return end

    def path_of(self, i, path):
        names = path.split("::")
        if "laws" in names:
            self.laws.add(names[-1])
            return ""
        if path in NO_NAMES:
            return NO_NAMES.apply(path) or ""
        if names[0] == "x86_64_model":
            return ""
        if names[0] in ("rand_core", "rand_pcg", "test_support"):
            return f"crate::more::{names[-1]}"
        if path.startswith("std::"):
            return (rules.STD.apply(path) if path in rules.STD else path).replace("@crate", CRATE)
        return path.replace("bitflags::", f"{CRATE}::bitflags::")


class ProgramItems(Items):
    """A file of a program over std."""

    is_library = False

    def path_of(self, i, path):
        return super().path_of(i, path).replace("@crate", CRATE)


def over_library(path, module, others, kind):
    """Returns a file of a crate over the library as Rust. `others` are the crates that become modules beside it."""
    text = rust(path, module, kind, {crate: crate for crate in others})
    for crate, place in LIBRARY.items():
        text = re.sub(rf"(?<![\w:]){crate}::", f"{place}::", text)
    return text


def translated(path, module, others, kind):
    """Returns a file of tests as Rust."""
    text = rewritten(over_library(path, module, others, kind), REWRITES)
    for name in IGNORED.rules:
        if f"fn {name}(" in text:
            IGNORED.apply(name)
            text = text.replace(f"#[test]\nfn {name}(", f"#[test]\n#[ignore]\nfn {name}(")
    for method, name in TRAITS.items():
        if method in text:
            text = with_use(text, TRAITS.apply(method))
    return text


def left_out(crate):
    """Returns the modules of a crate that no test needs."""
    if crate.name not in WANTED:
        return LEFT_OUT.get(crate.name, set())
    names = {path.stem for path in (crate / "src").glob("*.rt")} - {"lib"}
    for name in names:
        if name in WANTED[crate.name]:
            WANTED[crate.name].apply(name)
    return {name for name in names if name not in WANTED[crate.name]}


def tests(crates):
    """Returns the files of all tests, by their places below tests/."""
    files = {}
    for name, others in TESTS.items():
        own = [] if "main" in BY_HAND.get(name, []) else [name]
        for crate in [*own, *(crate for crate in others if crate not in SHARED)]:
            kind = type("Items", (TestItems,), {"left_out": left_out(crates / crate)})
            for path, place in sources(crates / crate, kind.left_out):
                text = translated(path, "" if crate == name else crate, others, kind)
                if place.name == "lib.rs":
                    place = pathlib.Path("main.rs" if crate == name else "mod.rs")
                if place.name == "main.rs":
                    text = main_file(text, others, BY_HAND.get(name, []))
                files[pathlib.Path(name, *[crate] * (crate != name)) / place] = text
    return files


def examples(crates):
    """Returns the files of the engine of pagetab, by their places below examples/."""
    files = {}
    for path, place in sources(crates / "pagetab_engine"):
        text = over_library(path, "pagetab_engine", [], ProgramItems)
        place = pathlib.Path("mod.rs") if place.name == "lib.rs" else place
        files[pathlib.Path("pagetab", "pagetab_engine") / place] = text.replace("use crate::support::Vec;", f"use {CRATE}::support::Vec;")
    return files


def main_file(text, others, by_hand):
    """Returns the root file of tests, with modules for other crates and for what is written by hand."""
    head = re.match(r"(//![^\n]*\n)*", text)[0]
    modules = "".join((f'#[path = "{SHARED[name]}"]\n' if name in SHARED else "") + f"mod {name};\n" for name in [*others, *by_hand])
    allowed = "#![allow(dead_code, unused_imports, unused_parens, unused_variables)]"
    return f'{head}{allowed}\n\n#[macro_use]\n#[path = "../{SUPPORT}"]\nmod more;\n{modules}{text[len(head):]}'
