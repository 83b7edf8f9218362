//! Stand-in for subcompaction.rs, and for the key ranges that it and trivial moves speak of. Left out by 01; decides nothing.
use crate::db_state::SsTableHandle;

#[derive(Clone, Debug, PartialEq)]
pub struct BytesRange;

impl BytesRange {
    pub(crate) fn comparable_start_bound(&self) {}

    pub(crate) fn intersect(&self, _other: &BytesRange) -> Option<BytesRange> {
        unreachable!("trivial moves are left out by 01")
    }
}

#[derive(Clone, Debug, PartialEq)]
pub struct Subcompaction {
    range: BytesRange,
    output_ssts: Vec<SsTableHandle>,
}

impl Subcompaction {
    pub(crate) fn range(&self) -> &BytesRange {
        &self.range
    }

    pub fn output_ssts(&self) -> &Vec<SsTableHandle> {
        &self.output_ssts
    }

    pub(crate) fn set_output_ssts(&mut self, _output_ssts: Vec<SsTableHandle>) {
        unreachable!("subcompactions are left out by 01")
    }
}
