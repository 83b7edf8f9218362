//! Stand-in for db_state.rs: an L0 view, its SST, a run. Decides that a size is the one that was given ("size estimation
//! (sizes are given)" is left out by 01) and that every SST id is a compacted one.
use crate::subcompaction::BytesRange;
use crate::Ulid;

#[derive(Clone, Copy, Debug, PartialEq)]
pub struct SsTableId(pub(crate) Ulid);

impl SsTableId {
    pub fn unwrap_compacted_id(&self) -> Ulid {
        self.0
    }
}

#[derive(Clone, Debug, PartialEq)]
pub struct SsTableHandle {
    pub id: SsTableId,
}

#[derive(Clone, Debug, PartialEq)]
pub struct SsTableView {
    pub id: Ulid,
    pub sst: SsTableHandle,
    pub(crate) size: u64,
}

impl SsTableView {
    pub fn estimate_size(&self) -> u64 {
        self.size
    }

    pub(crate) fn compacted_effective_range(&self) -> &BytesRange {
        unreachable!("trivial moves are left out by 01")
    }
}

#[derive(Clone, Debug, PartialEq)]
pub struct SortedRun {
    pub id: u32,
    pub(crate) size: u64,
}

impl SortedRun {
    pub fn new(_id: u32, _views: Vec<SsTableView>) -> Self {
        unreachable!("trivial moves are left out by 01")
    }

    pub fn sst_views(&self) -> &[SsTableView] {
        unreachable!("trivial moves are left out by 01")
    }

    pub fn estimate_size(&self) -> u64 {
        self.size
    }
}
