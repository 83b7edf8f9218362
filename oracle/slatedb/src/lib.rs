//! slatedb's `size_tiered_compaction.rs` and `compactor_state.rs`, unchanged, over stand-ins of our own for what they
//! import, and the seven calls through them.
//!
//! The stand-ins decide as little as they can. What each decides is said at its head, and listed in docs/DIFFERENCES.md.
#[cfg(source)]
mod ask;
#[cfg(source)]
mod decode;
#[cfg(source)]
mod encode;

// slatedb's own modules, as far as the two files name them
#[cfg(source)]
mod compactor;
#[cfg(source)]
mod compactor_state_protocols;
#[cfg(source)]
mod config;
#[cfg(source)]
mod db_state;
#[cfg(source)]
mod error;
#[cfg(source)]
mod manifest;
#[cfg(source)]
mod subcompaction;
#[cfg(source)]
mod utils;

// the crates that the two files import: this crate itself, under their names
#[cfg(source)]
mod crates;
#[cfg(source)]
pub(crate) use crates::{debug, error, info, warn, Bytes, DirtyObject, Ulid};
#[cfg(source)]
extern crate self as bytes;
#[cfg(source)]
extern crate self as log;
#[cfg(source)]
extern crate self as slatedb_txn_obj;
#[cfg(source)]
extern crate self as ulid;

// the two files
include!(concat!(env!("OUT_DIR"), "/source.rs"));

/// The files that were compiled, with their lengths and sums; nothing where they were absent.
pub const FOUND: &str = env!("SLATEDB_FOUND");

/// What slatedb's code said to a call.
#[derive(Clone, Debug, PartialEq, Eq)]
pub enum Told {
    Answered(lent::Answer),
    /// It panicked, with this message.
    Panicked(String),
    /// It logged that there is no such job, and returned.
    NotFound,
    /// It did the work, and the result does not fit in the tables.
    Overfull,
    /// It was not there when this program was built.
    Absent,
}

#[cfg(source)]
pub use ask::{ask, is_asked, time_plan};

#[cfg(not(source))]
pub fn ask(_case: &mut lent::Case) -> Told {
    Told::Absent
}

#[cfg(not(source))]
pub fn is_asked() -> bool {
    false
}

#[cfg(not(source))]
pub fn time_plan(_case: &lent::Case) -> Option<std::time::Duration> {
    None
}
