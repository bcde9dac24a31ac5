//! Tests across crates, from outside of these, as tables if possible.
//!
//! A table with references in it is a static. A proof takes it as one value, but would build a constant part by part
//! in each function that names it.
#![allow(dead_code, unused_imports, unused_parens, unused_variables)]

#[macro_use]
#[path = "../more/mod.rs"]
mod more;
mod agreement;
#[path = "../../examples/pagetab/pagetab_engine/mod.rs"]
mod pagetab_engine;
mod pairs;
mod refusals;
mod test_reference;

mod call_rows;
mod images;
mod prelude;
mod program;
mod replies;
mod rows;
mod streams;
