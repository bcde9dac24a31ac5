//! Tests of what is particular to each mapper, of callers with contracts (those in `uses`), of address spaces and of the
//! loader.
#![allow(dead_code, unused_imports)]

#[macro_use]
#[path = "../more/mod.rs"]
mod more;
mod uses;

mod beside;
mod guest;
mod loaded;
mod loader;
mod mappers;
mod prelude;
mod spaces;
mod world;
