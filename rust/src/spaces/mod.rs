//! Address spaces: hierarchies in one memory, with one pool, that share the tables below some indices of the highest level, as
//! kernels share their half with every process.

mod fitting;
mod giving_up;
mod making;
mod space;
mod space_list;

pub use fitting::{grouped_spaces_fit, grouped_spaces_fit_by_marks, roots_fit_by_marks, spaces_fit, spaces_fit_by_marks};
pub use giving_up::{give_up_space, GiveUpError};
pub use making::new_space;
pub use space::{GroupIndices, GroupedSpace, SharedIndices, Space};
