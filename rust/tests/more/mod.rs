//! What the tests take from Rattle's library, and from crates of random numbers.
#![allow(dead_code, missing_docs, unused_macros)]

use std::alloc::{GlobalAlloc, Layout, System};
use std::cell::Cell;
use x86_64_paging::support::{AllocError, Vec};

/// The sizes of the blocks for which there is room, and how many of these are taken; `None` while there is memory.
type Room = Option<([usize; 32], usize)>;

thread_local! {
    static ROOM: Cell<Room> = const { Cell::new(None) };
}

/// An allocator that refuses memory on threads that have a hoard.
struct Refusing;

#[global_allocator]
static ALLOCATOR: Refusing = Refusing;

// SAFETY: it is the system's allocator, but for blocks that it refuses.
unsafe impl GlobalAlloc for Refusing {
    unsafe fn alloc(&self, layout: Layout) -> *mut u8 {
        if let Some((sizes, taken)) = ROOM.get() {
            if taken == sizes.len() || sizes[taken] < layout.size() {
                return std::ptr::null_mut();
            }
            ROOM.set(Some((sizes, taken + 1)));
        }
        unsafe { System.alloc(layout) }
    }

    unsafe fn dealloc(&self, block: *mut u8, layout: Layout) {
        unsafe { System.dealloc(block, layout) }
    }
}

/// A holder of all memory, except room for some blocks. Returns the memory when dropped.
pub struct Hoard(());

impl Hoard {
    /// Takes all memory, except room for blocks of these sizes, in the order in which they will be requested.
    pub fn past(room: &[usize]) -> Result<Hoard, AllocError> {
        let mut sizes = [0; 32];
        sizes[..room.len()].copy_from_slice(room);
        ROOM.set(Some((sizes, 0)));
        Ok(Hoard(()))
    }
}

impl Drop for Hoard {
    fn drop(&mut self) {
        ROOM.set(None);
    }
}

/// Iterators whose items are collected.
pub trait CollectIn: Iterator + Sized {
    /// Collects the items.
    fn collect_in(self) -> Result<Vec<Self::Item>, AllocError> {
        Ok(Iterator::collect::<std::vec::Vec<Self::Item>>(self).into())
    }
}

impl<I: Iterator> CollectIn for I {}

/// More methods of `Vec`.
pub trait MoreOfVec<T> {
    /// Changes the items by a function.
    fn change<R>(&mut self, by: impl FnOnce(&mut std::vec::Vec<T>) -> R) -> R;

    fn retain(&mut self, keep: impl FnMut(&T) -> bool) {
        self.change(|items| items.retain(keep));
    }

    fn insert(&mut self, n: usize, item: T) -> Result<(), AllocError> {
        self.change(|items| items.insert(n, item));
        Ok(())
    }

    fn drain(&mut self, range: std::ops::RangeTo<usize>) {
        self.change(|items| drop(items.drain(range)));
    }

    fn truncate(&mut self, n: usize) {
        self.change(|items| items.truncate(n));
    }
}

impl<T> MoreOfVec<T> for Vec<T> {
    fn change<R>(&mut self, by: impl FnOnce(&mut std::vec::Vec<T>) -> R) -> R {
        let mut items: std::vec::Vec<T> = std::mem::take(self).into();
        let result = by(&mut items);
        *self = items.into();
        result
    }
}

/// A generator of numbers: PCG, XSH RR 64/32.
pub struct Pcg32 {
    state: u64,
    increment: u64,
}

impl Pcg32 {
    pub fn new(state: u64, stream: u64) -> Pcg32 {
        let increment = stream << 1 | 1;
        let mut generator = Pcg32 { state: state.wrapping_add(increment), increment };
        generator.step();
        generator
    }

    fn step(&mut self) {
        self.state = self.state.wrapping_mul(6364136223846793005).wrapping_add(self.increment);
    }
}

pub trait Rng {
    fn next_u32(&mut self) -> u32;
}

impl Rng for Pcg32 {
    fn next_u32(&mut self) -> u32 {
        let state = self.state;
        self.step();
        (((state >> 18 ^ state) >> 27) as u32).rotate_right((state >> 59) as u32)
    }
}

macro_rules! format_in {
    ($($tokens:tt)*) => { Ok::<String, x86_64_paging::support::AllocError>(format!($($tokens)*)) };
}
macro_rules! vec_in {
    ($($tokens:tt)*) => { Ok::<x86_64_paging::support::Vec<_>, x86_64_paging::support::AllocError>(vec![$($tokens)*].into()) };
}
