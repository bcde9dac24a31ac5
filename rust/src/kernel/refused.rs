//! What safe code can't do with tables in use. Each of these fails to compile, by the error that it names:
//!
//! No call that could show memory in another place or with another right is a safe function.
//!
//! ```compile_fail,E0133
//! # use x86_64_paging::kernel as x86_64;
//! # use x86_64::structures::paging::{Mapper, OffsetPageTable, Page, PageTableFlags};
//! fn change(mapper: &mut OffsetPageTable, page: Page) {
//!     mapper.update_flags(page, PageTableFlags::PRESENT).unwrap().flush();
//! }
//! ```
//!
//! ```compile_fail,E0133
//! # use x86_64_paging::kernel as x86_64;
//! # use x86_64::structures::paging::{Mapper, OffsetPageTable, Page, PageTableFlags};
//! fn change(mapper: &mut OffsetPageTable, page: Page) {
//!     mapper.set_flags_p4_entry(page, PageTableFlags::PRESENT).unwrap().flush_all();
//! }
//! ```
//!
//! ```compile_fail,E0133
//! # use x86_64_paging::kernel as x86_64;
//! # use x86_64::structures::paging::{Mapper, OffsetPageTable, Page, PageTableFlags};
//! fn change(mapper: &mut OffsetPageTable, page: Page) {
//!     mapper.set_flags_p3_entry(page, PageTableFlags::PRESENT).unwrap().flush_all();
//! }
//! ```
//!
//! ```compile_fail,E0133
//! # use x86_64_paging::kernel as x86_64;
//! # use x86_64::structures::paging::{Mapper, OffsetPageTable, Page, PageTableFlags};
//! fn change(mapper: &mut OffsetPageTable, page: Page) {
//!     mapper.set_flags_p2_entry(page, PageTableFlags::PRESENT).unwrap().flush_all();
//! }
//! ```
//!
//! ```compile_fail,E0133
//! # use x86_64_paging::kernel as x86_64;
//! # use x86_64::structures::paging::{FrameAllocator, Mapper, OffsetPageTable, PageTableFlags, PhysFrame, Size4KiB};
//! fn change(mapper: &mut OffsetPageTable, frame: PhysFrame, frames: &mut impl FrameAllocator<Size4KiB>) {
//!     mapper.identity_map(frame, PageTableFlags::PRESENT, frames).unwrap().flush();
//! }
//! ```
//!
//! ```compile_fail,E0133
//! # use x86_64_paging::kernel as x86_64;
//! # use x86_64::structures::paging::mapper::CleanUp;
//! # use x86_64::structures::paging::{FrameDeallocator, RecursivePageTable, Size4KiB};
//! fn change(mapper: &mut RecursivePageTable, frames: &mut impl FrameDeallocator<Size4KiB>) {
//!     mapper.clean_up(frames);
//! }
//! ```
//!
//! ```compile_fail,E0133
//! # use x86_64_paging::kernel as x86_64;
//! # use x86_64::structures::paging::mapper::{PageTableFrameMapping, RangeMapper};
//! # use x86_64::structures::paging::{MappedPageTable, Page};
//! fn change(mapper: &mut MappedPageTable<'_, impl PageTableFrameMapping>, page: Page) {
//!     mapper.unmap_range(page, 2, |_| ()).flush();
//! }
//! ```
//!
//! ```compile_fail,E0133
//! # use x86_64_paging::kernel as x86_64;
//! # use x86_64::structures::paging::{FrameAllocator, OffsetPageTable, Size4KiB};
//! fn change(mapper: &mut OffsetPageTable, frames: &mut impl FrameAllocator<Size4KiB>) {
//!     mapper.new_space(x86_64::SharedIndices::UPPER_HALF, None, frames).unwrap();
//! }
//! ```
//!
//! ```compile_fail,E0133
//! # use x86_64_paging::kernel as x86_64;
//! # use x86_64::structures::paging::{FrameDeallocator, OffsetPageTable, Size4KiB};
//! fn change(mapper: &mut OffsetPageTable, space: &x86_64::Space, frames: &mut impl FrameDeallocator<Size4KiB>) {
//!     mapper.give_up_space(space, x86_64::SharedIndices::UPPER_HALF, frames).unwrap();
//! }
//! ```
//!
//! ```compile_fail,E0133
//! # use x86_64_paging::kernel as x86_64;
//! # use x86_64::structures::paging::{Page57, PageTableFlags, RecursivePageTable57, Size4KiB};
//! fn change(mapper: &mut RecursivePageTable57, page: Page57<Size4KiB>) {
//!     mapper.set_flags_p5_entry(page, PageTableFlags::PRESENT).unwrap().flush_all();
//! }
//! ```
//!
//! The compiler warns of a token that isn't used.
//!
//! ```compile_fail
//! #![deny(unused_must_use)]
//! # use x86_64_paging::kernel as x86_64;
//! # use x86_64::structures::paging::{Mapper, OffsetPageTable, Page, PageTableFlags};
//! fn change(mapper: &mut OffsetPageTable, page: Page) {
//!     unsafe { mapper.update_flags(page, PageTableFlags::PRESENT) }.unwrap();
//! }
//! ```
//!
//! ```compile_fail
//! #![deny(unused_must_use)]
//! # use x86_64_paging::kernel as x86_64;
//! # use x86_64::structures::paging::mapper::{PageTableFrameMapping, RangeMapper};
//! # use x86_64::structures::paging::{MappedPageTable, Page};
//! fn change(mapper: &mut MappedPageTable<'_, impl PageTableFrameMapping>, page: Page) {
//!     unsafe { mapper.unmap_range(page, 2, |_| ()) };
//! }
//! ```
//!
//! With a `flush()` both compile.
//!
//! ```no_run
//! #![deny(unused_must_use)]
//! # use x86_64_paging::kernel as x86_64;
//! # use x86_64::structures::paging::mapper::{PageTableFrameMapping, RangeMapper};
//! # use x86_64::structures::paging::{MappedPageTable, Mapper, OffsetPageTable, Page, PageTableFlags};
//! fn change(mapper: &mut OffsetPageTable, page: Page) {
//!     unsafe { mapper.update_flags(page, PageTableFlags::PRESENT) }.unwrap().flush();
//! }
//!
//! fn change_more(mapper: &mut MappedPageTable<'_, impl PageTableFrameMapping>, page: Page) {
//!     unsafe { mapper.unmap_range(page, 2, |_| ()) }.flush();
//! }
//! ```
//!
//! The calls on data, which are safe functions, don't take a mapper of tables in use: neither by their traits, nor as functions.
//!
//! ```compile_fail,E0277
//! # use x86_64_paging::kernel as x86_64;
//! # use x86_64::structures::paging::{OffsetPageTable, Page, PageTableFlags, Size4KiB};
//! use x86_64_paging::structures::paging::Mapper;
//!
//! fn on_data(mapper: &mut impl Mapper<Size4KiB>, page: Page) {
//!     mapper.update_flags(page, PageTableFlags::PRESENT).unwrap().flush();
//! }
//!
//! fn change(mapper: &mut OffsetPageTable, page: Page) {
//!     on_data(mapper, page);
//! }
//! ```
//!
//! ```compile_fail,E0277
//! # use x86_64_paging::kernel as x86_64;
//! # use x86_64::structures::paging::{OffsetPageTable, Page, PageTableFlags};
//! use x86_64_paging::mappers::calls::update_flags;
//!
//! fn change(mapper: &mut OffsetPageTable, page: Page) {
//!     update_flags(mapper, page, PageTableFlags::PRESENT).unwrap().flush();
//! }
//! ```
//!
//! ```compile_fail,E0277
//! # use x86_64_paging::kernel as x86_64;
//! # use x86_64::structures::paging::OffsetPageTable;
//! use x86_64_paging::{give_up_space, FourLevels, FramePool, IdentityMapping, SharedIndices, Space};
//!
//! fn change(mapper: &mut OffsetPageTable, space: &Space, pool: &mut FramePool) {
//!     give_up_space::<FourLevels, _, _, _>(mapper, &IdentityMapping, space, SharedIndices::UPPER_HALF, pool).unwrap();
//! }
//! ```
//!
//! ```compile_fail,E0277
//! # use x86_64_paging::kernel as x86_64;
//! # use x86_64::structures::paging::{OffsetPageTable, PageTable, PhysFrame};
//! use x86_64_paging::structures::paging::mapper::TableAccess;
//!
//! fn change(mapper: &mut OffsetPageTable, frame: PhysFrame) {
//!     <OffsetPageTable as TableAccess>::table_mut(mapper, &[], frame).zero();
//! }
//! ```
//!
//! The tables of a mapper are private.
//!
//! ```compile_fail,E0616
//! # use x86_64_paging::kernel as x86_64;
//! # use x86_64::structures::paging::OffsetPageTable;
//! fn change(mapper: &mut OffsetPageTable) {
//!     let tables = &mut mapper.tables;
//! }
//! ```
//!
//! Nor does safe code create a mapper or a memory, let the processor use other tables, or promise something of frames.
//!
//! ```compile_fail,E0133
//! # use x86_64_paging::kernel as x86_64;
//! # use x86_64::structures::paging::{OffsetPageTable, PageTable};
//! fn create(root: &'static mut PageTable) -> OffsetPageTable<'static> {
//!     OffsetPageTable::new(root, x86_64::VirtAddr::zero())
//! }
//! ```
//!
//! ```compile_fail,E0133
//! # use x86_64_paging::kernel as x86_64;
//! # use x86_64::structures::paging::PageTable;
//! fn create(start: *mut PageTable) -> x86_64::DirectMap<'static> {
//!     x86_64::DirectMap::new(start, &[(0, 16)])
//! }
//! ```
//!
//! ```compile_fail,E0133
//! # use x86_64_paging::kernel as x86_64;
//! # use x86_64::registers::control::{Cr3, Cr3Flags};
//! fn switch(root: x86_64::structures::paging::PhysFrame) {
//!     Cr3::write(root, Cr3Flags::empty());
//! }
//! ```
//!
//! ```compile_fail,E0133
//! # use x86_64_paging::kernel as x86_64;
//! # use x86_64::instructions::tlb::Pcid;
//! # use x86_64::registers::control::Cr3;
//! fn switch(root: x86_64::structures::paging::PhysFrame, pcid: Pcid) {
//!     Cr3::write_pcid(root, pcid);
//! }
//! ```
//!
//! ```compile_fail,E0133
//! # use x86_64_paging::kernel as x86_64;
//! # use x86_64::instructions::tlb::Pcid;
//! # use x86_64::registers::control::Cr3;
//! fn switch(root: x86_64::structures::paging::PhysFrame, pcid: Pcid) {
//!     Cr3::write_pcid_no_flush(root, pcid);
//! }
//! ```
//!
//! ```compile_fail,E0133
//! # use x86_64_paging::kernel as x86_64;
//! x86_64::instructions::tlb::flush_pcid(x86_64::instructions::tlb::InvPcidCommand::All);
//! ```
//!
//! ```compile_fail,E0200
//! # use x86_64_paging::kernel as x86_64;
//! # use x86_64::structures::paging::{FrameAllocator, PhysFrame, Size4KiB};
//! struct Same(PhysFrame);
//!
//! impl FrameAllocator<Size4KiB> for Same {
//!     fn allocate_frame(&mut self) -> Option<PhysFrame> {
//!         Some(self.0)
//!     }
//! }
//! ```
//!
//! ```compile_fail,E0133
//! # use x86_64_paging::kernel as x86_64;
//! # use x86_64::structures::paging::{FrameDeallocator, PhysFrame, Size4KiB};
//! fn give(frames: &mut impl FrameDeallocator<Size4KiB>, frame: PhysFrame) {
//!     frames.deallocate_frame(frame);
//! }
//! ```
//!
//! An allocator on data promises nothing, so it isn't one here.
//!
//! ```compile_fail,E0277
//! # use x86_64_paging::kernel as x86_64;
//! # use x86_64::structures::paging::{Mapper, OffsetPageTable, Page, PageTableFlags, PhysFrame};
//! fn map(mapper: &mut OffsetPageTable, page: Page, frame: PhysFrame, frames: &mut x86_64_paging::LentPool) {
//!     unsafe { mapper.map_to(page, frame, PageTableFlags::PRESENT, frames) }.unwrap().flush();
//! }
//! ```
