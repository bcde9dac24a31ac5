#![cfg_attr(not(doctest), doc = include_str!("../README.md"))]
#![no_std]
#![cfg_attr(not(feature = "instructions"), forbid(unsafe_code))]
#![deny(unsafe_code, unsafe_op_in_unsafe_fn)]
#![warn(missing_docs)]
// Names, parameters, labels and fields that only contracts use.
#![allow(dead_code, unused_imports, unused_labels, unused_variables)]

#[cfg(feature = "alloc")]
extern crate alloc;

mod call_values;
pub mod flushing;
mod runs;
mod sharing;
pub mod structures;

pub use crate::addresses::addr;
pub use crate::addresses::addr::PhysAddr;
pub use crate::addresses::addr::VirtAddr;
pub use crate::addresses::addr::VirtAddr57;
pub use crate::addresses::addr::VirtAddrIn;
pub use crate::addresses::level_count::FiveLevels;
pub use crate::addresses::level_count::FourLevels;
pub use crate::addresses::level_count::LevelCount;
pub use crate::listing::mappings;
pub use crate::listing::mappings_57;
pub use crate::listing::mappings_from;
pub use crate::listing::mappings_from as mappings_from_57;
pub use crate::listing::read_entries;
pub use crate::listing::regions;
pub use crate::listing::regions_57;
pub use crate::listing::EntriesRead;
pub use crate::listing::Mapping;
pub use crate::listing::Mapping57;
pub use crate::listing::MappingIn;
pub use crate::listing::Mappings;
pub use crate::listing::Mappings57;
pub use crate::listing::MappingsIn;
pub use crate::listing::Region;
pub use crate::listing::Region57;
pub use crate::listing::RegionIn;
pub use crate::listing::Regions;
pub use crate::listing::Regions57;
pub use crate::listing::RegionsIn;
pub use crate::listing::WalkEnd;
pub use crate::listing::WalkEntry;
pub use crate::listing::MOST_LEVELS;
pub use crate::mappers::recursive_page_table::p1_window;
pub use crate::mappers::recursive_page_table::p1_window_57;
pub use crate::mappers::recursive_page_table::p2_window;
pub use crate::mappers::recursive_page_table::p2_window_57;
pub use crate::mappers::recursive_page_table::p3_window;
pub use crate::mappers::recursive_page_table::p3_window_57;
pub use crate::mappers::recursive_page_table::p4_window_57;
pub use crate::mappers::recursive_page_table::WalkedTables;
pub use crate::pages::range::Block;
pub use crate::spaces::give_up_space;
pub use crate::spaces::grouped_spaces_fit;
pub use crate::spaces::grouped_spaces_fit_by_marks;
pub use crate::spaces::new_space;
pub use crate::spaces::roots_fit_by_marks;
pub use crate::spaces::spaces_fit;
pub use crate::spaces::spaces_fit_by_marks;
pub use crate::spaces::GiveUpError;
pub use crate::spaces::GroupIndices;
pub use crate::spaces::GroupedSpace;
pub use crate::spaces::SharedIndices;
pub use crate::spaces::Space;
pub use crate::tables::frame_alloc::FrameKeeper;
pub use crate::tables::frame_alloc::FramePool;
pub use crate::tables::frame_alloc::FrameStore;
pub use crate::tables::frame_alloc::LentPool;
pub use crate::tables::frame_alloc::OwnFrames;
pub use crate::tables::frame_alloc::PoolRefusal;
pub use crate::tables::page_table::Rights;
pub use crate::tables::page_tables::parent_flags;
pub use crate::tables::page_tables::PageTables;
pub use crate::tables::page_tables::PageTables57;
pub use crate::tables::page_tables::Tables;
pub use crate::tables::page_tables::TablesIn;
pub use crate::tables::phys_memory::is_valid_by_marks;
pub use crate::tables::phys_memory::is_valid_hierarchy;
pub use crate::tables::phys_memory::is_valid_hierarchy_57;
pub use crate::tables::phys_memory::is_valid_recursive;
pub use crate::tables::phys_memory::is_valid_recursive_57;
pub use crate::tables::phys_memory::page_walk;
pub use crate::tables::phys_memory::page_walk_57;
pub use crate::tables::phys_memory::pool_fits;
pub use crate::tables::phys_memory::pool_fits_57;
pub use crate::tables::phys_memory::pool_fits_by_marks;
pub use crate::tables::phys_memory::pool_fits_recursive;
pub use crate::tables::phys_memory::pool_fits_recursive_57;
pub use crate::tables::phys_memory::tables_alike;
pub use crate::tables::phys_memory::tables_alike_57;
pub use crate::tables::phys_memory::Active;
pub use crate::tables::phys_memory::ActiveMemory;
pub use crate::tables::phys_memory::ActiveMemory57;
pub use crate::tables::phys_memory::FramePlace;
pub use crate::tables::phys_memory::FrameSegment;
pub use crate::tables::phys_memory::HierarchyView;
pub use crate::tables::phys_memory::IdentityMapping;
pub use crate::tables::phys_memory::LentMemory;
pub use crate::tables::phys_memory::PhysMemory;
pub use crate::tables::phys_memory::PlacesRefusal;
pub use crate::tables::phys_memory::SegmentMapping;
pub use crate::tables::phys_memory::SegmentRefusal;
pub use crate::tables::phys_memory::ShiftMapping;
pub use crate::tables::phys_memory::Step;
pub use crate::tables::phys_memory::Steps;
pub use crate::tables::phys_memory::TableMemory;
pub use crate::tables::phys_memory::Walked;
pub use crate::tables::tokens::page_after;
pub use crate::tables::tokens::FlushItem;
pub use crate::tables::tokens::FlushRecorder;
pub use crate::tables::tokens::MOST_PAGE_ITEMS;
pub use call_values::Call;
pub use call_values::Call57;
pub use call_values::CallIn;
pub use call_values::LevelFiveFlags;
pub use call_values::MapperReply;
pub use call_values::NoLevelFive;
pub use call_values::PageReply;
pub use call_values::Reply;
pub use call_values::Reply57;
pub use call_values::ReplyIn;
pub use call_values::SizeCall;
pub use call_values::SizeCall57;
pub use call_values::SizeCallIn;
pub use call_values::SizeReply;
pub use call_values::SizeReply57;
pub use call_values::SizeReplyIn;
pub use runs::is_outside_window;
pub use runs::is_outside_window as is_outside_window_57;
pub use runs::run;
pub use runs::run as run_57;
pub use runs::run_call;
pub use runs::run_call as run_call_57;
pub use runs::run_flushed;
pub use runs::run_flushed as run_flushed_57;
pub use runs::run_pair;
pub use runs::run_pair as run_pair_57;
pub use sharing::keeps_shared_entries;
pub use sharing::keeps_shared_entries as keeps_shared_entries_57;
pub use sharing::run_call_in_space;
pub use sharing::run_call_in_space as run_call_in_space_57;
pub use sharing::SharedEntry;

// The crates that are proved, for the tests of this one.
#[doc(hidden)]
pub mod addresses;
#[doc(hidden)]
pub mod mappers;
#[doc(hidden)]
pub mod pages;
#[doc(hidden)]
pub mod spaces;
#[doc(hidden)]
pub mod tables;

pub mod access;
pub mod bitflags;
mod conveniences;
#[cfg(all(feature = "instructions", target_arch = "x86_64"))]
#[allow(unsafe_code)]
pub mod instructions;
#[cfg(all(feature = "instructions", target_arch = "x86_64"))]
#[allow(unsafe_code)]
pub mod kernel;
pub mod listing;
pub mod live;
pub mod loader;
#[cfg(all(feature = "instructions", target_arch = "x86_64"))]
#[allow(unsafe_code)]
pub mod registers;
pub mod support;
pub mod text;

// The example for kernels needs the feature.
#[cfg(all(doctest, feature = "instructions"))]
#[doc = include_str!("../README.md")]
struct Readme;
