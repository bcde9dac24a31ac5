//! Calls for tables in use: maps and preparations that are done or change nothing, ranges of pages of all sizes, and parts of larger pages.

mod look;
mod map;
mod parts;
mod preparation;
mod ranges;

pub use look::{would_map, would_prepare};
pub use map::{map_or_nothing, may_map, PageMap};
pub use parts::{are_parts, joined_word, may_split, write_parts, SplitError};
pub use preparation::{may_prepare, prepare};
pub use ranges::{are_flag_masks, change_range, drop_range, list_range, take_range, PageWord, RangeEnd, RangeSeen, RangeStop};
