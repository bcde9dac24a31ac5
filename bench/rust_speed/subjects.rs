//! What is measured: mappers of both crates, which do the same calls.

use std::ops::ControlFlow;

/// The number of tables of a memory, which lie in the frames from 0 on. Frame 0 has the root.
pub const TABLES: usize = 20_000;

/// The frames that are handed out for tables: those behind the last one that was.
pub struct Frames {
    next: u64,
    pub returned: u64,
}

impl Frames {
    fn take(&mut self) -> Option<u64> {
        self.next += 1;
        (self.next < TABLES as u64).then_some(self.next)
    }
}

/// A mapper with its allocator.
pub trait Subject {
    const NAME: &'static str;
    /// The bytes of a page.
    const SIZE: u64;
    type Page: Copy;
    type Frame: Copy;

    /// # Safety
    ///
    /// The tables are at the pointer, all zero, and nothing else uses them as long as the mapper lives.
    unsafe fn new(memory: *mut u8) -> Self;
    fn page(address: u64) -> Self::Page;
    fn frame(address: u64) -> Self::Frame;
    fn map(&mut self, page: Self::Page, frame: Self::Frame) -> ControlFlow<()>;
    fn translate_page(&self, page: Self::Page) -> u64;
    fn translate(&self, page: Self::Page) -> u64;
    fn update(&mut self, page: Self::Page) -> ControlFlow<()>;
    fn unmap(&mut self, page: Self::Page) -> u64;
    fn clean_up(&mut self);
    fn clean_up_page(&mut self, page: Self::Page);
    fn frames(&mut self) -> &mut Frames;
}

/// Makes a subject of one crate, or one door of it. Some functions are unsafe there, and others aren't.
macro_rules! subject {
    ($Name:ident, $Large:ident, $name:ident, $path:path, ($($unsafe:tt)*), ($($unsafe_trait:tt)*),
     $Mapper:ty, $new:expr) => {
        mod $name {
            #![allow(unused_imports, unused_unsafe)]
            use super::{tables, Frames, Subject, TABLES};
            use std::marker::PhantomData;
            use std::ops::ControlFlow;
            use $path as crate_here;
            use crate_here::structures::paging::mapper::{CleanUp, TranslateResult};
            use crate_here::structures::paging::*;
            use crate_here::{PhysAddr, VirtAddr};
            use x86_64_paging::kernel::DirectMap;
            use x86_64_paging::{IdentityMapping, LentMemory};

            struct Own(Frames);

            $($unsafe_trait)* impl FrameAllocator<Size4KiB> for Own {
                #[inline]
                fn allocate_frame(&mut self) -> Option<PhysFrame> {
                    self.0.take().map(|number| PhysFrame::containing_address(PhysAddr::new(number * 4096)))
                }
            }

            impl FrameDeallocator<Size4KiB> for Own {
                #[inline]
                $($unsafe)* fn deallocate_frame(&mut self, _frame: PhysFrame) {
                    self.0.returned += 1;
                }
            }

            pub struct Measured<S = Size4KiB> {
                mapper: $Mapper,
                frames: Own,
                size: PhantomData<S>,
            }

            pub type Large = Measured<Size2MiB>;

            impl<S: PageSize> Subject for Measured<S>
            where
                $Mapper: Mapper<S>,
            {
                const NAME: &'static str = stringify!($name);
                const SIZE: u64 = S::SIZE;
                type Page = Page<S>;
                type Frame = PhysFrame<S>;

                unsafe fn new(memory: *mut u8) -> Self {
                    let new: fn(*mut u8) -> $Mapper = $new;
                    Measured { mapper: new(memory), frames: Own(Frames { next: 0, returned: 0 }), size: PhantomData }
                }

                fn page(address: u64) -> Page<S> {
                    Page::containing_address(VirtAddr::new(address))
                }

                fn frame(address: u64) -> PhysFrame<S> {
                    PhysFrame::containing_address(PhysAddr::new(address))
                }

                #[cfg_attr(called, inline(never))]
                #[cfg_attr(not(called), inline(always))]
                fn map(&mut self, page: Page<S>, frame: PhysFrame<S>) -> ControlFlow<()> {
                    let flags = PageTableFlags::from_bits_retain(3);
                    match unsafe { self.mapper.map_to(page, frame, flags, &mut self.frames) } {
                        Ok(flush) => {
                            flush.ignore();
                            ControlFlow::Continue(())
                        }
                        Err(_) => ControlFlow::Break(()),
                    }
                }

                #[cfg_attr(called, inline(never))]
                #[cfg_attr(not(called), inline(always))]
                fn translate_page(&self, page: Page<S>) -> u64 {
                    self.mapper.translate_page(page).map_or(0, |frame| frame.start_address().as_u64())
                }

                #[cfg_attr(called, inline(never))]
                #[cfg_attr(not(called), inline(always))]
                fn translate(&self, page: Page<S>) -> u64 {
                    match self.mapper.translate(page.start_address()) {
                        TranslateResult::Mapped { frame, offset, flags } => {
                            (frame.start_address().as_u64() + offset) | flags.bits()
                        }
                        _ => 0,
                    }
                }

                #[cfg_attr(called, inline(never))]
                #[cfg_attr(not(called), inline(always))]
                fn update(&mut self, page: Page<S>) -> ControlFlow<()> {
                    match unsafe { self.mapper.update_flags(page, PageTableFlags::from_bits_retain(1)) } {
                        Ok(flush) => {
                            flush.ignore();
                            ControlFlow::Continue(())
                        }
                        Err(_) => ControlFlow::Break(()),
                    }
                }

                #[cfg_attr(called, inline(never))]
                #[cfg_attr(not(called), inline(always))]
                fn unmap(&mut self, page: Page<S>) -> u64 {
                    match self.mapper.unmap(page) {
                        Ok((frame, flush)) => {
                            flush.ignore();
                            frame.start_address().as_u64()
                        }
                        Err(_) => 0,
                    }
                }

                #[cfg_attr(called, inline(never))]
                #[cfg_attr(not(called), inline(always))]
                fn clean_up(&mut self) {
                    unsafe { self.mapper.clean_up(&mut self.frames) }
                }

                #[cfg_attr(called, inline(never))]
                #[cfg_attr(not(called), inline(always))]
                fn clean_up_page(&mut self, page: Page<S>) {
                    let page = Page::<Size4KiB>::containing_address(page.start_address());
                    unsafe { self.mapper.clean_up_addr_range(Page::range_inclusive(page, page), &mut self.frames) }
                }

                fn frames(&mut self) -> &mut Frames {
                    &mut self.frames.0
                }
            }
        }
        #[allow(unused_imports)]
        pub use $name::{Large as $Large, Measured as $Name};
    };
}

/// Returns the tables at a pointer.
///
/// # Safety
///
/// As for [`Subject::new`].
unsafe fn tables<T>(memory: *mut u8) -> &'static mut [T] {
    unsafe { std::slice::from_raw_parts_mut(memory.cast(), TABLES) }
}

subject! {
    Real, LargeReal, real, x86_64, (unsafe), (unsafe),
    OffsetPageTable<'static>,
    |memory| unsafe {
        OffsetPageTable::new(&mut *memory.cast(), VirtAddr::new(memory as u64))
    }
}

subject! {
    Kernel, LargeKernel, kernel, x86_64_paging::kernel, (unsafe), (unsafe),
    OffsetPageTable<'static>,
    |memory| unsafe {
        OffsetPageTable::new(&mut *memory.cast(), VirtAddr::new(memory as u64))
    }
}

subject! {
    Direct, LargeDirect, direct, x86_64_paging, (), (),
    MappedPageTable<'static, IdentityMapping, DirectMap<'static>>,
    |memory| unsafe {
        let memory = Box::leak(Box::new(DirectMap::new(memory.cast(), &[(0, TABLES as u64)])));
        MappedPageTable::new(memory, PhysFrame::containing_address(PhysAddr::new(0)), IdentityMapping)
    }
}

subject! {
    Lent, LargeLent, lent, x86_64_paging, (), (),
    MappedPageTable<'static, IdentityMapping, LentMemory<'static>>,
    |memory| unsafe {
        let memory = Box::leak(Box::new(LentMemory::new(tables(memory))));
        MappedPageTable::new(memory, PhysFrame::containing_address(PhysAddr::new(0)), IdentityMapping)
    }
}
