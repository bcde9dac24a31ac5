//! Tokens for changes to page tables that the TLB may not reflect yet, and a record of the flushes.

mod flush;
mod recorder;

pub use flush::{
    page_after, MapperFlush, MapperFlush57, MapperFlushAll, MapperFlushIn, MapperFlushRange, MapperFlushRange57,
    MapperFlushRangeIn, MOST_PAGE_ITEMS,
};
pub use recorder::{FlushItem, FlushRecorder};
