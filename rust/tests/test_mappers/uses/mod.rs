//! Callers of the library, each with a contract. `README.md` and `docs/USING.md` quote most of them.

pub mod at_offset;
pub mod guest_store;
pub mod layer;
pub mod list_loaded;
pub mod list_mappings;
pub mod load_segments;
pub mod own_allocator;
pub mod own_memory;
pub mod processes;
pub mod run_in_space;
pub mod run_in_turn;
