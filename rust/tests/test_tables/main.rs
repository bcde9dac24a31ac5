//! Tests of the public calls of the crates up to tables, with one module per crate. They are not in the crates
//! themselves, so that each crate is proved only once. What `pagetab` and `ptdump` show is tested by transcripts, in
//! `tests/` at the top, and what needs no proof by ordinary Rust tests, in `rust/tests/`.
#![allow(dead_code, unused_imports, unused_parens, unused_variables)]

#[macro_use]
#[path = "../more/mod.rs"]
mod more;
mod accesses;
mod addresses;
mod common;
mod mappings;
mod pages;
mod spaces;
mod tables;

mod addr;
mod derives;
mod page;
mod pools;
mod prelude;
