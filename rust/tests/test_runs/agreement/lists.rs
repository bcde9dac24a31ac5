//! Lists of calls, executed by the plain program and by both mappers of the library.

use super::chooser::Chooser;
use super::listing::compare_mappings;
use super::outcomes::{Met, OUTCOMES, OUTCOMES_OF_LEVEL_5};
use super::plain_call::plain_of;
use super::twins::{Twins, RECURSIVE_INDEX};
use crate::call_rows::{call_of, CallRow};
use crate::pairs::{is_pair, none_names, run_pair_on};
use crate::prelude::*;
use crate::replies::reply_to;
use x86_64_paging::support;

/// The number of lists executed on one memory.
const LISTS: usize = 20;

/// The maximum number of calls of a list.
const CALLS: usize = 20;

/// The maximum number of free frames.
const MOST_FREE: usize = 7;

/// The maximum number of rounds until each kind of reply has occurred.
const ROUNDS: usize = 20;

/// Two alike hierarchies, of which the second one has a recursive index.
struct Pair {
    direct: Twins,
    recursive: Twins,
}

impl Pair {
    /// Executes a call with both plain machines, asserts that their replies are equal, and returns the reply.
    fn step<L: LevelCount>(&mut self, call: CallRow, met: &mut Met) -> ReplyIn<L> {
        let plain = plain_of(L::LEVELS as usize, call);
        let free = self.direct.plain.pool.len();
        let reply = self.direct.step(&plain);
        assert_equal(self.recursive.step(&plain), reply);
        met.add(&plain, reply, free < self.direct.plain.pool.len());
        unwrap_some(reply_to(call, reply))
    }

    /// Executes calls with both mappers at once.
    fn answer_at_once<L: LevelCount, P5: LevelFiveFlags<L>>(&mut self, calls: &[CallIn<L, P5>]) -> support::Vec<ReplyIn<L>> {
        let (root, index) = (frame_at(ROOT), PageTableIndex::new(RECURSIVE_INDEX as u16));
        let Twins { memory, pool, .. } = &mut self.direct;
        let Twins { memory: walked, pool: walked_pool, .. } = &mut self.recursive;
        assert!(is_pair::<L>(root, index, memory, pool, walked, walked_pool));
        assert!(none_names(calls, index));
        unwrap(run_pair_on(root, index, memory, pool, walked, walked_pool, calls))
    }

    /// Executes calls with each mapper alone, and asserts that their replies are equal.
    fn answer_alone<L: LevelCount, P5: LevelFiveFlags<L>>(&mut self, calls: &[CallIn<L, P5>]) -> support::Vec<ReplyIn<L>> {
        let mut replies = support::Vec::new();
        answer_directly(&mut self.direct, calls, &mut replies);
        let mut same = support::Vec::new();
        answer_recursively(&mut self.recursive, calls, &mut same);
        assert_equal_in("alone", same.as_slice(), replies.as_slice());
        replies
    }

    /// Executes a list of calls that don't name the recursive index, with both mappers at once or with each alone,
    /// and with the plain program. Compares the replies and the states.
    fn answer<L: LevelCount, P5: LevelFiveFlags<L>>(&mut self, is_at_once: bool, chooser: &mut Chooser, met: &mut Met) {
        let mut calls = Vec::new();
        let mut wanted = Vec::new();
        for _ in 0..CALLS {
            let choice = chooser.choice();
            let call = unwrap_some(call_of::<L, P5>(choice));
            if !call.names(PageTableIndex::new(RECURSIVE_INDEX as u16)) {
                wanted.push(self.step(choice, met));
                calls.push(call);
            }
        }
        let replies = if is_at_once { self.answer_at_once(&calls) } else { self.answer_alone(&calls) };
        assert_equal_in(is_at_once, replies.as_slice(), wanted.as_slice());
        self.direct.compare();
        self.recursive.compare();
        let Twins { memory, plain, .. } = &self.direct;
        compare_mappings::<L>(memory, &plain.paths)
    }
}

/// Executes calls with the direct mapper.
fn answer_directly<L: LevelCount, P5: LevelFiveFlags<L>>(
    twins: &mut Twins,
    calls: &[CallIn<L, P5>],
    replies: &mut support::Vec<ReplyIn<L>>,
) {
    let root = frame_at(ROOT);
    let Twins { memory, pool, .. } = twins;
    assert!(fits::<L>(memory, root, pool));
    unwrap(run_over(memory, root, IdentityMapping, pool, calls, replies))
}

/// Executes calls with the recursive mapper.
fn answer_recursively<L: LevelCount, P5: LevelFiveFlags<L>>(
    twins: &mut Twins,
    calls: &[CallIn<L, P5>],
    replies: &mut support::Vec<ReplyIn<L>>,
) {
    let (root, index) = (frame_at(ROOT), PageTableIndex::new(RECURSIVE_INDEX as u16));
    let Twins { memory, pool, .. } = twins;
    assert!(fits_recursive::<L>(memory, root, index, pool));
    unwrap(run_recursive_on(memory, root, index, pool, calls, replies))
}

/// Executes lists on hierarchies with each number of free frames.
fn check_round<L: LevelCount, P5: LevelFiveFlags<L>>(chooser: &mut Chooser, met: &mut Met) {
    let levels = L::LEVELS as usize;
    for free in 0..=MOST_FREE {
        let mut pair = Pair { direct: Twins::new(levels, false, free), recursive: Twins::new(levels, true, free) };
        for list in 0..LISTS {
            pair.answer::<L, P5>(list % 2 == 0, chooser, met);
        }
    }
}

/// Does this until this number of outcomes has occurred, and asserts that it has.
fn check_lists<L: LevelCount, P5: LevelFiveFlags<L>>(outcomes: usize) {
    let mut chooser = Chooser::new(L::LEVELS as usize);
    let mut met = Met::default();
    for _ in 0..ROUNDS {
        if met.count() < outcomes {
            check_round::<L, P5>(&mut chooser, &mut met);
        }
    }
    assert_equal(met.count(), outcomes);
}

#[test]
fn lists_agree_with_the_plain_program() {
    check_lists::<FourLevels, NoLevelFive>(OUTCOMES)
}

#[test]
fn lists_of_five_levels_agree_with_the_plain_program() {
    check_lists::<FiveLevels, PageTableFlags>(OUTCOMES + OUTCOMES_OF_LEVEL_5)
}
