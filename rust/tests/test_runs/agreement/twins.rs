//! A hierarchy in a memory and as a plain state.

use crate::more::MoreOfVec;
use x86_64_paging::support::Vec;

use crate::prelude::*;
use crate::rows::{compare_pool, SELF_ENTRY};
use crate::test_reference::{PathEntries, PlainCall, PlainMachine, PlainState, PlainWindow};

/// The recursive index, which is among the indices that calls choose.
pub const RECURSIVE_INDEX: u64 = 1;

/// The number of places of the memory. A place is the index of a table in memory.
const PLACES: u64 = 16;

/// The frames that are free initially. A state gets the first few of them.
const FREE: [u64; 7] = [0x4000, 0x2000, 0x8000, 0x3000, 0x7000, 0x6000, 0xa000];

/// A frame whose words have all bits set, and which is neither a table nor free.
const STRANGER: u64 = 0x9000;

/// The root's entry for the table of level four, if there are five levels.
const LEVEL_5_ENTRY: u64 = 0xf003;

/// The initial entries by their paths from level four down. Pages of each size are mapped. A table, a page and an entry
/// that maps a page of 1GiB lack `PRESENT`. Two entries with `HUGE_PAGE` name an address that isn't a multiple of their
/// size.
static ENTRIES: [(&[u64], u64); 12] = [
    (&[3], 0xb003),
    (&[3, 0], 0x4000_0083),
    (&[3, 1], 0xc003),
    (&[3, 2], 0x4020_0083),
    (&[3, 1, 0], 0x20_0087),
    (&[3, 1, 1], 0xd002),
    (&[3, 1, 2], 0x20_1083),
    (&[3, 1, 1, 0], 0x5081),
    (&[3, 1, 1, 1], 0x6003),
    (&[3, 1, 1, 511], 0x6002),
    (&[256], 0xe001),
    (&[256, 0], 0x80),
];

/// Returns the initial entries. With five levels they are those of four, below one more entry.
fn entries(levels: usize) -> PathEntries {
    let mut paths = PathEntries::new();
    if levels == 5 {
        unwrap(paths.put(&[0], LEVEL_5_ENTRY));
    }
    for (below, word) in &ENTRIES {
        let mut path = unwrap(Vec::from_slice(below));
        if levels == 5 {
            unwrap(path.insert(0, 0));
        }
        unwrap(paths.put(&path, *word));
    }
    paths
}

/// A hierarchy and its free frames, in a memory and as a plain state.
pub struct Twins {
    pub memory: PhysMemory,
    pub pool: FramePool,
    pub plain: PlainState,
    machine: PlainMachine,
    /// The number of free frames, at the end of the list, that were never handed out. All bits of their words are
    /// set. The words of the other free frames, which clean ups returned, are 0.
    untouched: usize,
}

impl Twins {
    /// Creates both from the initial entries and at most `count` free frames.
    pub fn new(levels: usize, is_recursive: bool, count: usize) -> Twins {
        let free = FREE.get(..count).unwrap_or(&FREE);
        let window = PlainWindow { index: RECURSIVE_INDEX, self_entry: SELF_ENTRY };
        let mut twins = Twins {
            memory: unwrap(PhysMemory::new(PLACES)),
            pool: pool_of(PLACES, free),
            plain: PlainState { paths: entries(levels), pool: unwrap(Vec::from_slice(free)) },
            machine: PlainMachine {
                levels,
                window: is_recursive.then_some(window),
                added_flags: if is_recursive { 0x3 } else { 0x0 },
            },
            untouched: free.len(),
        };
        let words = twins.words();
        store(&mut twins.memory, &words);
        twins
    }

    /// Executes a call with the plain program.
    pub fn step(&mut self, call: &PlainCall) -> PlainReply {
        let machine = self.machine;
        let reply = unwrap(machine.step(&mut self.plain, call));
        self.untouched = self.untouched.min(self.plain.pool.len());
        reply
    }

    /// Returns the words of all frames by the plain state.
    fn words(&self) -> std::vec::Vec<u64> {
        let mut words = vec![0; 16 * 512];
        let pool = self.plain.pool.as_slice();
        let (_, untouched) = pool.split_at(pool.len() - self.untouched);
        for frame in untouched {
            fill(&mut words, *frame);
        }
        fill(&mut words, STRANGER);
        for item in self.plain.paths.items.iter() {
            let Some((index, parents)) = item.path.split_last() else {
                continue;
            };
            let frame = if parents.is_empty() { ROOT } else { address(self.plain.paths.entry(parents)) };
            set(&mut words, frame, *index, item.word);
        }
        if self.machine.window.is_some() {
            set(&mut words, ROOT, RECURSIVE_INDEX, SELF_ENTRY);
        }
        words
    }

    /// Compares every word, and the free frames.
    pub fn compare(&self) {
        for (n, word) in self.words().iter().enumerate() {
            let (frame, index) = slot_of(n);
            let found = word_at(&self.memory, frame, index);
            assert_equal_in((frame, index), found, *word);
        }
        compare_pool(&self.pool, &self.plain.pool, "plain");
    }
}

/// Sets all words of a memory.
fn store(memory: &mut PhysMemory, words: &[u64]) {
    for (n, word) in words.iter().enumerate() {
        let (frame, index) = slot_of(n);
        set_word(memory, frame, index, *word);
    }
}

/// Returns the frame and the index of a word, given its number among all words.
fn slot_of(n: usize) -> (u64, u16) {
    ((n / 512 * 0x1000) as u64, (n % 512) as u16)
}

/// Sets the word at an index of a frame.
fn set(words: &mut [u64], frame: u64, index: u64, word: u64) {
    words[(frame / 0x1000 * 512 + index) as usize] = word;
}

/// Sets all bits of the words of a frame.
fn fill(words: &mut [u64], frame: u64) {
    for index in 0..512 {
        set(words, frame, index, u64::MAX);
    }
}
