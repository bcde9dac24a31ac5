//! Runs lists of calls on two hierarchies in one memory, with one pool, which share no tables.

use crate::more::MoreOfVec;
use x86_64_paging::support::Vec;

use crate::uses::run_in_space::run_on;
use x86_64_paging::structures::paging::{PhysFrame, Size4KiB};
use x86_64_paging::support::AllocError;
use x86_64_paging::{Call, FramePool, IdentityMapping, Reply, TableMemory};

/// A frame of 4KiB.
type Frame = PhysFrame<Size4KiB>;

/// Executes calls on a first hierarchy, and then on a second one, which isn't tested again. The pool fits both again.
pub fn run_in_turn<T: TableMemory>(
    memory: &mut T,
    roots: (Frame, Frame),
    pool: &mut FramePool,
    calls: (&[Call], &[Call]),
    replies: &mut Vec<Reply>,
) -> Result<(), AllocError> {
    run_on(memory, IdentityMapping, roots.0, pool, calls.0, replies)?;
    run_on(memory, IdentityMapping, roots.1, pool, calls.1, replies)
}
