//! Measures what calls cost of the crate `x86_64`, named `real`, and of the crate of rust/: its `OffsetPageTable` for kernels,
//! named `kernel`, and its `MappedPageTable` over `DirectMap`, named `direct`, and over `LentMemory`, named `lent`.
//!
//! Without an argument, it does each measured part once, and tells callgrind the part's name behind it. With a number of rounds, it
//! does the parts with one mapper after another in each round, and prints the least nanoseconds of each.

mod subjects;

use std::alloc::{alloc_zeroed, dealloc, Layout};
use std::arch::asm;
use std::collections::BTreeMap;
use std::env;
use std::hint::black_box;
use std::time::Instant;
#[cfg(not(large))]
use subjects::{Direct, Kernel, Lent, Real};
#[cfg(large)]
use subjects::{LargeDirect as Direct, LargeKernel as Kernel, LargeLent as Lent, LargeReal as Real};
use subjects::{Subject, TABLES};

/// The number of pages.
const PAGES: usize = 4000;
/// The number of times that what takes a single call is done.
const TIMES: usize = 100;

/// Sends a request to callgrind. Elsewhere it does nothing.
fn request(number: u64, argument: *const u8) {
    let words = [0x4354_0000 + number, argument as u64, 0, 0, 0, 0];
    // SAFETY: without valgrind this turns rdi by 128 bits, which leaves it as it is, and writes nothing.
    unsafe {
        asm!(
            "rol rdi, 3", "rol rdi, 13", "rol rdi, 61", "rol rdi, 51", "xchg rbx, rbx",
            in("rax") &words, inout("rdx") 0u64 => _,
        );
    }
}

/// Measures parts: by callgrind, or by the clock.
struct Meter {
    by_clock: bool,
    pattern: &'static str,
    // in the order of the parts
    least: Vec<(String, f64)>,
}

impl Meter {
    /// Does a part that consists of some calls.
    fn measure<T: Subject>(&mut self, part: &str, calls: usize, work: impl FnOnce()) {
        let name = format!("{} {} {part} {calls}\0", T::NAME, self.pattern);
        if self.by_clock {
            let start = Instant::now();
            work();
            let time = start.elapsed().as_nanos() as f64 / calls as f64;
            match self.least.iter_mut().find(|(known, _)| *known == name) {
                Some((_, least)) => *least = least.min(time),
                None => self.least.push((name, time)),
            }
        } else {
            request(1, std::ptr::null());
            work();
            request(3, name.as_ptr());
        }
    }
}

/// The pages of a size and frames of a pattern, by their addresses.
fn addresses(pattern: &str, size: u64) -> Vec<(u64, u64)> {
    let mut state = 1u64;
    let mut number = |n: usize| {
        state = state.wrapping_mul(6_364_136_223_846_793_005).wrapping_add(1_442_695_040_888_963_407);
        // an odd factor, so no two pages are one
        if pattern == "scattered" {
            ((n as u64).wrapping_mul(0x9e37_79b9) + (state >> 63)) % (1 << 27)
        } else {
            n as u64
        }
    };
    let pages: BTreeMap<u64, usize> = (0..4 * PAGES).map(|n| (number(n), n)).collect();
    let mut pages: Vec<(u64, usize)> = pages.into_iter().collect();
    pages.sort_by_key(|(_, n)| *n);
    pages.iter().take(PAGES).map(|(page, n)| (0x4000_0000_0000 + page * size, 0x100_0000_0000 + *n as u64 * size)).collect()
}

#[inline(never)]
fn map_all<T: Subject>(subject: &mut T, pages: &[(T::Page, T::Frame)]) {
    for (page, frame) in pages {
        assert!(subject.map(*page, *frame).is_continue());
    }
}

#[inline(never)]
fn translate_page_all<T: Subject>(subject: &T, pages: &[(T::Page, T::Frame)]) -> u64 {
    pages.iter().fold(0, |sum, (page, _)| sum ^ subject.translate_page(*page))
}

#[inline(never)]
fn translate_all<T: Subject>(subject: &T, pages: &[(T::Page, T::Frame)]) -> u64 {
    pages.iter().fold(0, |sum, (page, _)| sum ^ subject.translate(*page))
}

#[inline(never)]
fn update_all<T: Subject>(subject: &mut T, pages: &[(T::Page, T::Frame)]) {
    for (page, _) in pages {
        assert!(subject.update(*page).is_continue());
    }
}

#[inline(never)]
fn unmap_all<T: Subject>(subject: &mut T, pages: &[(T::Page, T::Frame)]) -> u64 {
    pages.iter().fold(0, |sum, (page, _)| sum ^ subject.unmap(*page))
}

#[inline(never)]
fn clean_up<T: Subject>(subject: &mut T) {
    subject.clean_up();
}

#[inline(never)]
fn clean_up_page<T: Subject>(subject: &mut T, page: T::Page) {
    subject.clean_up_page(page);
}

/// Measures the calls of one mapper on many pages. Returns what it answered.
fn measure_pages<T: Subject>(meter: &mut Meter, subject: &mut T, addresses: &[(u64, u64)]) -> u64 {
    let pages: Vec<_> = addresses.iter().map(|(page, frame)| (T::page(*page), T::frame(*frame))).collect();
    let mut sum = 0;
    meter.measure::<T>("map_to", PAGES, || map_all(subject, &pages));
    meter.measure::<T>("translate_page", PAGES, || sum ^= black_box(translate_page_all(subject, &pages)));
    meter.measure::<T>("translate", PAGES, || sum ^= black_box(translate_all(subject, &pages)));
    meter.measure::<T>("update_flags", PAGES, || update_all(subject, &pages));
    meter.measure::<T>("unmap", PAGES, || sum ^= black_box(unmap_all(subject, &pages)));
    meter.measure::<T>("map_to where tables are", PAGES, || map_all(subject, &pages));
    unmap_all(subject, &pages);
    meter.measure::<T>("clean_up", 1, || clean_up(subject));
    sum ^ subject.frames().returned
}

/// Measures clean ups of few tables: of four with one page or without it.
fn measure_clean_ups<T: Subject>(meter: &mut Meter, subject: &mut T) -> u64 {
    let pages = [(T::page(0x4000_0000_0000), T::frame(0x100_0000_0000))];
    let page = pages[0].0;
    map_all(subject, &pages);
    meter.measure::<T>("clean_up with a page", TIMES, || (0..TIMES).for_each(|_| clean_up(subject)));
    meter.measure::<T>("clean_up_addr_range with a page", TIMES, || (0..TIMES).for_each(|_| clean_up_page(subject, page)));
    unmap_all(subject, &pages);
    meter.measure::<T>("clean_up", 1, || clean_up(subject));
    map_all(subject, &pages);
    unmap_all(subject, &pages);
    meter.measure::<T>("clean_up_addr_range", 1, || clean_up_page(subject, page));
    subject.frames().returned
}

/// Measures one mapper over a new memory.
fn measure<T: Subject>(meter: &mut Meter) -> u64 {
    let layout = Layout::from_size_align(TABLES * 4096, 4096).expect("the size of a memory");
    let mut sum = 0;
    let patterns: &[_] = if T::SIZE > 4096 { &["2MiB"] } else { &["contiguous", "scattered", "few tables"] };
    for pattern in patterns {
        meter.pattern = pattern;
        // SAFETY: the size isn't 0, and the memory is freed behind the last use of the mapper.
        unsafe {
            let memory = alloc_zeroed(layout);
            let mut subject = T::new(memory);
            sum ^= match *pattern {
                "few tables" => measure_clean_ups(meter, &mut subject),
                _ => measure_pages(meter, &mut subject, &addresses(pattern, T::SIZE)),
            };
            dealloc(memory, layout);
        }
    }
    sum
}

/// Ends the program if the mappers don't answer alike.
fn compare(answers: &[u64]) {
    assert!(answers.iter().all(|answer| *answer == answers[0]), "the mappers don't answer alike: {answers:x?}");
}

fn main() {
    let rounds = env::args().nth(1).map(|word| word.parse().expect("a number of rounds"));
    let mut meter = Meter { by_clock: rounds.is_some(), pattern: "", least: Vec::new() };
    for _ in 0..rounds.unwrap_or(1) {
        compare(&[
            measure::<Real>(&mut meter),
            measure::<Kernel>(&mut meter),
            measure::<Direct>(&mut meter),
            measure::<Lent>(&mut meter),
        ]);
    }
    for (name, time) in &meter.least {
        println!("{} {time}", name.trim_end_matches('\0'));
    }
}
