//! Runs a list of calls on one of several address spaces: hierarchies in one memory, with one pool, whose roots have the
//! same entries at some indices of the highest level, and so the same tables below these.

use crate::more::MoreOfVec;
use x86_64_paging::support::Vec;

use x86_64_paging::structures::paging::mapper::{MappedPageTableIn, PageTableFrameMapping};
use x86_64_paging::structures::paging::{PhysFrame, Size4KiB};
use x86_64_paging::support::AllocError;
use x86_64_paging::{run, run_call, CallIn, FrameStore, LevelCount, LevelFiveFlags, ReplyIn, TableMemory};

/// Executes calls on one address space, whichever others there are beside it, and appends a reply for each.
///
/// If the calls touch nothing below the shared indices, as those of a process do, the others keep all their mappings. If
/// they leave the root's entries there, as those of a kernel do, the others see what was done below these. All are
/// address spaces again, so that the next calls may be on any of them.
///
/// Requires that the hierarchy with this root is valid, and that the frames fit it.
///
/// # Errors
///
/// `AllocError` if memory allocation fails for the replies. Then nothing changes.
pub fn run_on<L: LevelCount, P5: LevelFiveFlags<L>, T: TableMemory, P: PageTableFrameMapping, F: FrameStore + ?Sized>(
    memory: &mut T,
    mapping: P,
    root: PhysFrame<Size4KiB>,
    frames: &mut F,
    calls: &[CallIn<L, P5>],
    replies: &mut Vec<ReplyIn<L>>,
) -> Result<(), AllocError> {
    let mut mapper: MappedPageTableIn<P, L, T> = MappedPageTableIn::new(memory, root, mapping);
    run(&mut mapper, frames, calls, replies)
}

/// Executes one call on one address space, as [`run_on`] does each of a list, and takes no memory.
///
/// Requires that the hierarchy with this root is valid, and that the frames fit it.
pub fn call_on<L: LevelCount, P5: LevelFiveFlags<L>, T: TableMemory, P: PageTableFrameMapping, F: FrameStore + ?Sized>(
    memory: &mut T,
    mapping: P,
    root: PhysFrame<Size4KiB>,
    frames: &mut F,
    call: CallIn<L, P5>,
) -> ReplyIn<L> {
    let mut mapper: MappedPageTableIn<P, L, T> = MappedPageTableIn::new(memory, root, mapping);
    run_call(&mut mapper, frames, call)
}
