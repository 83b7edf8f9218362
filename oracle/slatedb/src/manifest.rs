//! Stand-in for manifest.rs, which is not supplied. Decides: trees stand in the order of the table, the root (empty prefix)
//! first; a tree is found by equality of prefixes. Merging of manifests and `prune_external_sst_ids` are left out by 01.
use std::collections::VecDeque;
use std::sync::Arc;

use crate::db_state::{SortedRun, SsTableView};
use crate::{Bytes, Ulid};

#[derive(Clone)]
pub struct LsmTreeState {
    pub(crate) last_compacted_l0_sst_view_id: Option<Ulid>,
    pub(crate) last_compacted_l0_sst_id: Option<Ulid>,
    pub(crate) l0: VecDeque<SsTableView>,
    pub(crate) compacted: Vec<SortedRun>,
}

impl LsmTreeState {
    pub(crate) fn merge_from_writer(&self, _writer: &LsmTreeState) -> LsmTreeState {
        unreachable!("manifest merging is left out by 01")
    }
}

#[derive(Clone)]
pub struct Segment {
    pub(crate) prefix: Bytes,
    pub(crate) tree: LsmTreeState,
}

pub(crate) fn merge_segments_from_writer(_mine: &[Segment], _writer: &[Segment]) -> Vec<Segment> {
    unreachable!("manifest merging is left out by 01")
}

/// The root tree and the segments. The fields of type `()` are those that only manifest merging names.
#[derive(Clone)]
pub struct ManifestCore {
    pub(crate) tree: Arc<LsmTreeState>,
    pub(crate) segments: Vec<Segment>,
    pub(crate) initialized: (),
    pub(crate) segment_extractor_name: (),
    pub(crate) next_wal_sst_id: (),
    pub(crate) replay_after_wal_id: (),
    pub(crate) last_l0_clock_tick: (),
    pub(crate) last_l0_seq: (),
    pub(crate) checkpoints: (),
    pub(crate) wal_object_store_uri: (),
    pub(crate) recent_snapshot_min_seq: (),
    pub(crate) sequence_tracker: (),
}

impl ManifestCore {
    pub(crate) fn trees_with_prefix(&self) -> impl Iterator<Item = (Bytes, &LsmTreeState)> {
        let root = std::iter::once((Bytes::new(), self.tree.as_ref()));
        root.chain(self.segments.iter().map(|s| (s.prefix.clone(), &s.tree)))
    }

    pub(crate) fn trees(&self) -> impl Iterator<Item = &LsmTreeState> {
        self.trees_with_prefix().map(|(_, tree)| tree)
    }

    pub(crate) fn tree_for_segment(&self, prefix: &Bytes) -> Option<&LsmTreeState> {
        let mut trees = self.trees_with_prefix();
        trees.find(|(p, _)| p == prefix).map(|(_, tree)| tree)
    }

    pub(crate) fn tree_for_segment_mut(&mut self, prefix: &Bytes) -> Option<&mut LsmTreeState> {
        if prefix.is_empty() {
            return Some(Arc::make_mut(&mut self.tree));
        }
        let segment = self.segments.iter_mut().find(|s| s.prefix == *prefix);
        segment.map(|s| &mut s.tree)
    }
}

#[derive(Clone)]
pub struct Manifest {
    pub(crate) core: ManifestCore,
    pub(crate) compactor_epoch: u64,
}

impl Manifest {
    pub(crate) fn prune_external_sst_ids(&mut self) {}
}

pub struct VersionedManifest {
    pub(crate) manifest: Manifest,
}

impl VersionedManifest {
    pub(crate) fn core(&self) -> &ManifestCore {
        &self.manifest.core
    }
}
