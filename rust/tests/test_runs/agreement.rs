//! Lists of calls that a fixed rule chooses, executed by the library and by the plain slow program.
//!
//! The calls are executed by the direct mapper and by the recursive one: by both at once, or by each alone. After each
//! list, the replies, both memories, both pools and the mappings of the first memory are compared with the plain ones.
//! The words of the root and of each table must be the plain state's entries at their paths, or the root's entry for
//! itself. Those of free frames must be 0 if a clean up returned the frame, and otherwise as before. Those of all other
//! frames must be as before. At the end, each kind of reply that a call can have must have occurred.
//!
//! Ranges of pages, which the direct mapper maps, changes and unmaps as a whole, are compared with calls on each page.
//!
//! The script `tests/agreement` compares the program `pagetab` with the plain one, a call at a time.
//!
//! These tests are written by hand, not made of proved ones: what they compare needs no proof.
mod chooser;
mod listing;
mod lists;
mod outcomes;
mod plain_call;
mod ranges;
mod twins;
