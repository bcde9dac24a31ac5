//! The plain, slow program: the machine's step, computed over lists of paths and entries, for tests that compare faster code with
//! it.

pub mod changes;
pub mod cleaning;
pub mod conditions;
pub mod entries;
pub mod machine;
pub mod maps;
pub mod plain_calls;
pub mod positions;
pub mod translations;
pub mod windows;
pub mod words;

pub use entries::PathEntries;
pub use machine::{PlainMachine, PlainState};
pub use plain_calls::{Answer, PlainCall, PlainPage, PlainReply, Refusal, Translated};
pub use windows::PlainWindow;
