//! The entries of a hierarchy by their paths, and the words that are no entries.

use crate::mode::Mode;
use crate::test_reference::words::{address, is_huge};
use crate::test_reference::{PathEntries, PlainCall, PlainReply, PlainState};
use x86_64_paging::support;

/// The address of the root's frame.
const ROOT: u64 = 0x1000;

/// The number of words of a table.
const WORD_COUNT: u64 = 512;

/// What a failed allocation says.
const MEMORY: &str = "there is memory";

/// The state of the plain program, and the image that it began with.
pub struct Hierarchy {
    mode: Mode,
    /// The words of the image, frame by frame.
    image: Vec<u64>,
    /// True once the entries are those of the image.
    is_read: bool,
    state: PlainState,
    /// The number of free frames, at the end of the list, that never were tables. They hold the words of the image. Clean ups returned the
    /// other free frames, whose words are 0.
    untouched: usize,
}

impl Hierarchy {
    /// Creates a hierarchy without free frames from an empty image of this number of frames.
    pub fn new(mode: Mode, frames: u64) -> Hierarchy {
        let state = PlainState { paths: PathEntries::new(), pool: support::Vec::new() };
        Hierarchy { mode, image: vec![0; (frames * WORD_COUNT) as usize], is_read: false, state, untouched: 0 }
    }

    /// Returns the mode.
    pub fn mode(&self) -> Mode {
        self.mode
    }

    /// Returns the free frames, in order.
    pub fn free_frames(&self) -> &[u64] {
        &self.state.pool
    }

    /// Sets a word of the image.
    pub fn set_word(&mut self, frame: u64, index: u64, word: u64) {
        if let Some(slot) = self.image.get_mut(number_of(frame, index)) {
            *slot = word;
        }
    }

    /// Returns a word of the image, or 0 if the memory lacks it.
    fn image_word(&self, frame: u64, index: u64) -> u64 {
        self.image.get(number_of(frame, index)).copied().unwrap_or(0)
    }

    /// Adds a frame behind the free ones of the image.
    pub fn add_free(&mut self, frame: u64) {
        self.state.pool.push(frame).expect(MEMORY);
        self.untouched = self.state.pool.len();
    }

    /// Reads the entries from the image, unless that was done.
    fn read_image(&mut self) {
        if !self.is_read {
            self.is_read = true;
            self.read_table(self.mode.levels, ROOT, &[]);
        }
    }

    /// Reads the entries of the table in a frame, which are of a level, and of the tables below it. A path leads to it.
    fn read_table(&mut self, level: usize, frame: u64, path: &[u64]) {
        if level == 0 {
            return;
        }
        for index in 0..WORD_COUNT {
            let word = self.image_word(frame, index);
            let is_self_entry = path.is_empty() && self.mode.recursive_index == Some(index);
            if word != 0 && !is_self_entry {
                let below = [path, &[index]].concat();
                self.state.paths.put(&below, word).expect(MEMORY);
                if !is_huge(word) {
                    self.read_table(level - 1, address(word), &below);
                }
            }
        }
    }

    /// Returns a word as it is now. If there are two memories, it is that of the first one.
    pub fn word(&mut self, frame: u64, index: u64) -> u64 {
        self.read_image();
        if frame == ROOT && self.mode.window_index() == Some(index) {
            return self.image_word(ROOT, index);
        }
        if let Some(table) = self.path_of(frame) {
            return self.state.paths.entry(&[table, &[index]].concat());
        }
        if self.returned_frames().contains(&frame) {
            return 0;
        }
        self.image_word(frame, index)
    }

    /// Returns the path of the table in a frame, or `None` if the frame is no table.
    fn path_of(&self, frame: u64) -> Option<&[u64]> {
        if frame == ROOT {
            return Some(&[]);
        }
        let is_table = |path: &[u64], word| path.len() < self.mode.levels && !is_huge(word);
        let mut items = self.state.paths.items.iter();
        items.find(|item| is_table(&item.path, item.word) && address(item.word) == frame).map(|item| &*item.path)
    }

    /// Returns the free frames that clean ups returned.
    fn returned_frames(&self) -> &[u64] {
        &self.state.pool[..self.state.pool.len() - self.untouched]
    }

    /// Executes a call, and returns the reply.
    pub fn answer(&mut self, call: &PlainCall) -> PlainReply {
        self.read_image();
        if self.mode.is_refused(call) {
            return PlainReply::NotAllowed;
        }
        let self_index = self.mode.recursive_index.unwrap_or(0);
        let machine = self.mode.machine(self.image_word(ROOT, self_index));
        let reply = machine.step(&mut self.state, call).expect(MEMORY);
        self.untouched = self.untouched.min(self.state.pool.len());
        reply
    }
}

/// Returns the number of a word among all words of the memory.
fn number_of(frame: u64, index: u64) -> usize {
    (frame / 0x1000).saturating_mul(WORD_COUNT).saturating_add(index) as usize
}
