//! Summaries of tables, and visits by them: they count, list and join what the iterators list.
#![cfg(feature = "alloc")]

use x86_64_paging::listing::{
    mappings, regions, visit_distinct_mappings, visit_mappings, visit_regions, Mapping, Selection, Summaries, Visitor,
};
use x86_64_paging::structures::paging::{PageTable, PageTableFlags as Flags, PhysFrame};
use x86_64_paging::support::{AllocError, Vec as List};
use x86_64_paging::{FourLevels, LentMemory, PhysAddr, ShiftMapping};

/// The frames of the tables, by levels from one up. One table of level one is shared by two entries.
const FRAMES: [&[u64]; 4] = [&[0x4000, 0x5000], &[0x3000], &[0x2000], &[0x1000]];

/// Takes items as texts, up to a number of these.
struct Texts(Vec<String>, usize);

impl<T: std::fmt::Display> Visitor<T> for Texts {
    type Error = String;

    fn visit(&mut self, item: T) -> Result<(), String> {
        if self.0.len() == self.1 {
            return Err(format!("no room for {item}"));
        }
        self.0.push(item.to_string());
        Ok(())
    }
}

/// Takes mappings.
struct Taken(Vec<Mapping>);

impl Visitor<Mapping> for Taken {
    type Error = AllocError;

    fn visit(&mut self, mapping: Mapping) -> Result<(), AllocError> {
        self.0.push(mapping);
        Ok(())
    }
}

fn frame(address: u64) -> PhysFrame {
    PhysFrame::containing_address(PhysAddr::new(address))
}

/// Returns the tables in the frames from 0x1000 on.
fn tables() -> [PageTable; 5] {
    let mut tables = [const { PageTable::new() }; 5];
    let name = Flags::PRESENT | Flags::WRITABLE;
    for (table, index, address) in [(0, 1, 0x2000), (1, 0, 0x3000), (2, 0, 0x5000), (2, 1, 0x4000), (2, 3, 0x5000)] {
        tables[table][index].set_addr(PhysAddr::new(address), name);
    }
    for k in 0..9 {
        let flags = if k < 4 { name } else { Flags::PRESENT | Flags::NO_EXECUTE };
        tables[3][k].set_addr(PhysAddr::new(0x10_0000 + 0x1000 * k as u64), flags);
        tables[4][k * 2].set_addr(PhysAddr::new(0x20_0000), flags);
    }
    tables
}

/// Returns the frames by levels. If they are in reverse, those of a level aren't in the order of their addresses.
fn frames(in_reverse: bool) -> Vec<List<PhysFrame>> {
    let listed = |level: &[u64]| level.iter().map(|address| frame(*address)).collect::<Vec<_>>();
    let mut levels: Vec<_> = FRAMES.iter().map(|level| listed(level)).collect();
    if in_reverse {
        levels.iter_mut().for_each(|level| level.reverse());
    }
    levels.into_iter().map(List::from).collect()
}

#[test]
fn visits_meet_what_the_iterators_list() {
    let mut tables = tables();
    let (memory, mapping, root) = (LentMemory::new(&mut tables), ShiftMapping::new(1), frame(0x1000));
    let listed: Vec<String> = mappings(&memory, &mapping, root).map(|mapping| mapping.to_string()).collect();
    let joined: Vec<String> = regions(&memory, &mapping, root).map(|region| region.to_string()).collect();
    assert_eq!((listed.len(), joined.len()), (27, 20));
    for in_reverse in [false, true] {
        let summaries = Summaries::new(&memory, &mapping, &frames(in_reverse), None).expect("there is memory");
        let summary = summaries.of(4, root).expect("each table has a summary");
        assert_eq!((summary.count, summary.bytes), (27, 27 * 4096));
        assert!(summary.some.execute && summary.some.write && !summary.all.execute && !summary.all.write);
        assert!(summaries.of(1, root).is_none());
        let (mut found, mut runs) = (Texts(vec![], 99), Texts(vec![], 99));
        visit_mappings::<FourLevels, _, _, _>(&summaries, root, &mut found).expect("there is room");
        visit_regions::<FourLevels, _, _, _>(&summaries, root, &mut runs).expect("there is room");
        assert_eq!((found.0, runs.0), (listed.clone(), joined.clone()));
    }
}

#[test]
fn visits_end_with_the_error_of_the_visitor() {
    let mut tables = tables();
    let (memory, mapping, root) = (LentMemory::new(&mut tables), ShiftMapping::new(1), frame(0x1000));
    let summaries = Summaries::new(&memory, &mapping, &frames(false), Some(PhysAddr::new(0x10_2000))).expect("there is memory");
    assert_eq!(summaries.of(4, root).map(|summary| summary.count), Some(1));
    let mut found = Texts(vec![], 1);
    assert_eq!(visit_mappings::<FourLevels, _, _, _>(&summaries, root, &mut found), Ok(()));
    let refused = visit_mappings::<FourLevels, _, _, _>(&summaries, root, &mut found);
    assert_eq!(refused, Err(format!("no room for {}", found.0[0])));
}

#[test]
fn visits_meet_the_first_mapping_of_each_kind() {
    let mut tables = tables();
    let (memory, mapping, root) = (LentMemory::new(&mut tables), ShiftMapping::new(1), frame(0x1000));
    let summaries = Summaries::new(&memory, &mapping, &frames(false), None).expect("there is memory");
    // the first mapping below the last entry that names the table of level one
    let late = mappings(&memory, &mapping, root).nth(18).expect("27 pages are mapped").start;
    for from in [None, Some(late.as_u64() + 0x1000)] {
        let mut firsts: Vec<Mapping> = vec![];
        for mapping in mappings(&memory, &mapping, root).filter(|mapping| from <= Some(mapping.start.as_u64())) {
            let kind = |other: &Mapping| (other.frame.start_address(), other.size(), other.rights);
            if firsts.iter().all(|first| kind(first) != kind(&mapping)) {
                firsts.push(mapping);
            }
        }
        let (mut found, selection) = (Taken(vec![]), Selection { from, ..Selection::ALL });
        visit_distinct_mappings::<FourLevels, _, _, _>(&summaries, root, selection, &mut found).expect("there is memory");
        assert_eq!(found.0, firsts);
    }
}
