//! Runs lists of calls on a memory that is mapped as a whole at an offset, each with a mapper of its own.

use crate::more::MoreOfVec;
use x86_64_paging::support::Vec;

use x86_64_paging::addresses::addr::VirtAddrIn;
use x86_64_paging::mappers::offset_page_table::OffsetPageTableIn;
use x86_64_paging::structures::paging::{PhysFrame, Size4KiB};
use x86_64_paging::support::AllocError;
use x86_64_paging::{run, CallIn, FramePool, LevelCount, LevelFiveFlags, PhysMemory, ReplyIn};

/// Executes calls with a mapper at an offset, which is then dropped. The owner knows that another one can be created.
pub fn run_at_offset<L: LevelCount, P5: LevelFiveFlags<L>>(
    memory: &mut PhysMemory,
    root: PhysFrame<Size4KiB>,
    phys_offset: VirtAddrIn<L>,
    pool: &mut FramePool,
    calls: &[CallIn<L, P5>],
    replies: &mut Vec<ReplyIn<L>>,
) -> Result<(), AllocError> {
    let mut mapper = OffsetPageTableIn::new(memory, root, phys_offset);
    run(&mut mapper, pool, calls, replies)
}
