"""What the tool knows of these sources beyond Rattle itself."""

import re

from applied import Rules
from conditions import TESTS

# The crates, and where they are in the Rust crate; '' is its top.
CRATES = {
    "text": "text",
    "x86_64_addr": "addresses",
    "x86_64_page": "pages",
    "x86_64_tables": "tables",
    "x86_64_mappers": "mappers",
    "x86_64_spaces": "spaces",
    "x86_64_access": "access",
    "x86_64_mappings": "listing",
    "x86_64_live": "live",
    "x86_64_loader": "loader",
    "x86_64": "",
}
# Files of the Rust crate that are written by hand, and the folder of those below one of them.
HAND_WRITTEN = {"kernel", *(f"{name}.rs" for name in ("bitflags", "conveniences", "instructions", "kernel", "registers", "support"))}

# Modules of laws alone, and laws that code calls without naming such a module.
LAW_MODULES = Rules({"laws"})
LAW_CALLS = Rules(
    {"calls_keep_root_entries", "new_spaces_share", "offset_has_the_tables_of_the_identity", "spaces_are_given_up", "spaces_stay"}
)
# Unsafe functions of std that stand for safe ones of `support`.
SAFE_HERE = Rules({"from_utf8_unchecked"})
# Traits without methods, and those that have none but ghost members: each type has these.
MARKERS = Rules({"NotGiantPageSize", "TablesIn"})
GHOST_TRAITS = Rules(
    {
        "FrameKeeper": "\n\nimpl<S: PageSize, T: ?Sized> FrameKeeper<S> for T {}",
        "FrameStore": "\n\nimpl<T: FrameAllocator<Size4KiB> + FrameDeallocator<Size4KiB> + ?Sized> FrameStore for T {}",
    }
)
# Traits whose types may be unsized.
UNSIZED = Rules({"FrameAllocator", "FrameDeallocator", "FrameSink", "FrameStore", "TableAccess", "TablesIn"})
# Methods with another name, so that theirs are free for the instructions.
RENAMED = Rules({"flush": "record", "flush_all": "record"})

# Functions of constants, beside those that the sources say: Rattle takes no closure in one.
CONST = Rules({"PageTable::new"})
# Functions with a twin that tests nothing, which proved code calls in their place: `new` of types, and methods.
UNTESTED = Rules({"PhysAddr", "VirtAddrIn", "PageTableIndex", "PageOffset"})
UNTESTED_METHODS = Rules({"set_addr", "set_frame"})
# The most tokens of a function with `#[inline]`, and the files whose functions with type parameters get it, too (with their folder, if others are named so).
MOST_INLINE = 60
INLINE_GENERIC = Rules(
    f"{name}.rt"
    for name in ("calls", "change", "leaf", "map", "mapped_page_table", "mapper", "mapper57", "page", "parents", "path", "src/walk")
)
# Functions that the compiler keeps apart, since calls rarely need them. With this one in the loop over the levels, a map's loop is too long
# to be unrolled, and then the indices are written to memory and read again.
APART = Rules({"TableAccess for Direct<'a, P, L, T>::clear_unnamed"})
# Texts, and what they become.
REWRITES = Rules(
    {
        r"\barray::from_fn\(\|_\| PageTableEntry::new\(\)\)": "[const { PageTableEntry::new() }; ENTRY_COUNT]",
        r"#\[repr\(C\)\]\npub struct PageTable\b": "#[repr(C, align(4096))]\npub struct PageTable",
        r"\bpub type (\w+)<S>": r"pub type \1<S = @crate::pages::page::Size4KiB>",
        r"\[`flush(?:_all)?`\]\(Self::flush(?:_all)?\)": "[`record`](Self::record)",
        r"It must be consumed by (.*) or (.*)\. Dropping it is a compile error\.": (
            r"It is consumed by \1, \2, or a flush by the feature `instructions`. The compiler warns if it isn't used."
        ),
        # laws aren't in the crate
        r"\[`(\w+)`\]\((?:crate::laws|x86_64_model::laws::\w+)::\w+\)": r"`\1`",
        r"(?:fmt::)?Formatter<W>": "core::fmt::Formatter<'_>",
        r"\bFmtResult\b|(?<!core::)\bfmt::Result\b": "core::fmt::Result",
        r"::<S, W>": "::<S>",
        # a method of str only since Rust 1.87
        r"(?<![\w:])str::from_utf8\(": "core::str::from_utf8(",
        # as `bitflags!` writes them: by their Display, which names the flags
        r'let bits = self\.bits\(\);\s*write!\(f, "(\w+)\(\{bits:#x\}\)"\)': r'write!(f, "\1({self})")',
    }
)

# Names of std that are others in Rust; '' is none.
STD = Rules(
    {
        "std::marker::Model": "",
        "std::alloc::Global": "",
        "std::alloc::AllocError": "@crate::support::AllocError",
        "std::collections::VecDeque": "@crate::support::VecDeque",
        "std::collections::HashMap": "@crate::support::HashMap",
        "std::collections::HashSet": "@crate::support::HashSet",
        "std::str::from_utf8_unchecked": "@crate::support::from_utf8_unchecked",
        "std::fmt::Formatter": "",
        "std::fmt::Result": "",
        "std::fmt::Write": "",
    }
)
# Names of std that are in core, too; and those that are not, for programs.
CORE = re.compile(
    r"std::(array|cmp::max|mem|fmt(::(Debug|Display))?|hash::Hash|marker::PhantomData|convert::Infallible"
    r"|ops::(Add|AddAssign|Sub|SubAssign|Index|IndexMut))"
)
IO = re.compile(r"std::io(::(Read|Write|ErrorKind))?")


def path_of(path):
    """Returns the path in Rust of a name that is used: '' if there is none, None if it is unknown."""
    if path.startswith("x86_64_model::") or path.split("::")[-1] in LAW_CALLS:
        return ""
    if path.startswith("bitflags::"):
        return "@crate::" + path
    if not path.startswith("std::") or IO.fullmatch(path):
        return path
    if CORE.fullmatch(path):
        return path.replace("std", "core", 1)
    return STD.apply(path) if path in STD else None


def documentation(path, clauses):
    """Returns the sections of a function's documentation on its tests and its contract."""
    lines = []
    if tests := TESTS.rules.get(path):
        when = "Panics" if any(test.startswith("assert") for test in tests) else "Panics, with debug assertions,"
        lines += ["", "# Panics", "", f"{when} if a condition doesn't hold. It is tested so:", ""]
        lines += ["```text", *(test.replace("@crate::", "") for test in tests), "```"]
    if clauses:
        lines += ["", "# Proved", "", "```text", *clauses, "```"]
    return [f"/// {line}".rstrip() for line in lines]


ROOT = """#![cfg_attr(not(doctest), doc = include_str!("../README.md"))]
#![no_std]
#![cfg_attr(not(feature = "instructions"), forbid(unsafe_code))]
#![deny(unsafe_code, unsafe_op_in_unsafe_fn)]
#![warn(missing_docs)]
// Names, parameters, labels and fields that only contracts use.
#![allow(dead_code, unused_imports, unused_labels, unused_variables)]

#[cfg(feature = "alloc")]
extern crate alloc;

"""
MODULES = """
// The crates that are proved, for the tests of this one.
#[doc(hidden)]
pub mod addresses;
#[doc(hidden)]
pub mod mappers;
#[doc(hidden)]
pub mod pages;
#[doc(hidden)]
pub mod spaces;
#[doc(hidden)]
pub mod tables;

pub mod access;
pub mod bitflags;
mod conveniences;
#[cfg(all(feature = "instructions", target_arch = "x86_64"))]
#[allow(unsafe_code)]
pub mod instructions;
#[cfg(all(feature = "instructions", target_arch = "x86_64"))]
#[allow(unsafe_code)]
pub mod kernel;
pub mod listing;
pub mod live;
pub mod loader;
#[cfg(all(feature = "instructions", target_arch = "x86_64"))]
#[allow(unsafe_code)]
pub mod registers;
pub mod support;
pub mod text;

// The example for kernels needs the feature.
#[cfg(all(doctest, feature = "instructions"))]
#[doc = include_str!("../README.md")]
struct Readme;
"""


def root(text):
    """Returns the text of the root file, whose first comment README.md stands for."""
    return ROOT + re.sub(r"\A(//![^\n]*\n)*", "", text).lstrip() + MODULES
