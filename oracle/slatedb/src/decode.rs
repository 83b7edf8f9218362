//! From rows to slatedb's types.
use std::sync::Arc;

use lent::{Job, Options, Source, Tree};

use crate::compactor_state::{
    Compaction, CompactionSpec, CompactionStatus, Compactions, CompactorState, SourceId,
    VersionedCompactions,
};
use crate::compactor_state_protocols::CompactorStateView;
use crate::config::SizeTieredCompactionSchedulerOptions;
use crate::db_state::{SortedRun, SsTableHandle, SsTableId, SsTableView};
use crate::manifest::{LsmTreeState, Manifest, ManifestCore, Segment, VersionedManifest};
use crate::size_tiered_compaction::SizeTieredCompactionScheduler;
use crate::{Bytes, DirtyObject, Ulid};

pub fn ulid((high, low): lent::Ulid) -> Ulid {
    Ulid(u128::from(high) << 64 | u128::from(low))
}

/// The root's prefix, number 0, is the empty one; any other number is its four bytes.
pub fn prefix(number: u32) -> Bytes {
    match number {
        0 => Bytes::new(),
        _ => Bytes(number.to_be_bytes().to_vec()),
    }
}

fn source(source: &Source) -> SourceId {
    match source.mark {
        1 => SourceId::SortedRun(source.run),
        _ => SourceId::SstView(ulid(source.view)),
    }
}

pub fn spec(job: &Job) -> CompactionSpec {
    let sources = job.sources.iter().map(source).collect();
    match job.drain {
        1 => CompactionSpec::drain_segment(prefix(job.prefix), sources),
        _ => CompactionSpec::for_segment(prefix(job.prefix), sources, job.destination),
    }
}

pub const STATUSES: [CompactionStatus; 6] = [
    CompactionStatus::Submitted,
    CompactionStatus::Scheduled,
    CompactionStatus::Running,
    CompactionStatus::Compacted,
    CompactionStatus::Completed,
    CompactionStatus::Failed,
];

/// A job. Its bytes processed, which the two files only carry along, are a tag that says which record it came from.
pub fn job(job: &Job, tag: u64) -> Compaction {
    let mut compaction =
        Compaction::new(ulid(job.id), spec(job)).with_status(STATUSES[usize::from(job.status)]);
    compaction.set_bytes_processed(tag);
    compaction
}

/// Jobs whose tags count from `first_tag` on.
pub fn jobs(rows: &[Job], first_tag: u64) -> Compactions {
    let tagged = rows.iter().zip(first_tag..);
    Compactions::new(0).with_compactions(tagged.map(|(row, tag)| job(row, tag)).collect())
}

fn tree(row: &Tree) -> LsmTreeState {
    let mark = &row.watermark;
    LsmTreeState {
        last_compacted_l0_sst_view_id: (mark.view_mark == 1).then(|| ulid(mark.view)),
        last_compacted_l0_sst_id: (mark.sst_mark == 1).then(|| ulid(mark.sst)),
        l0: row
            .l0
            .iter()
            .map(|view| SsTableView {
                id: ulid(view.id),
                sst: SsTableHandle {
                    id: SsTableId(ulid(view.sst)),
                },
                size: view.size,
            })
            .collect(),
        compacted: row.runs.iter().map(run).collect(),
    }
}

pub fn run(run: &lent::Run) -> SortedRun {
    SortedRun {
        id: run.id,
        size: run.size,
    }
}

fn manifest(rows: &[Tree]) -> Manifest {
    let (root, segments) = rows.split_first().expect("0 trees are refused 1");
    Manifest {
        compactor_epoch: 0,
        core: ManifestCore {
            tree: Arc::new(tree(root)),
            segments: segments
                .iter()
                .map(|row| Segment {
                    prefix: prefix(row.prefix),
                    tree: tree(row),
                })
                .collect(),
            initialized: (),
            segment_extractor_name: (),
            next_wal_sst_id: (),
            replay_after_wal_id: (),
            last_l0_clock_tick: (),
            last_l0_seq: (),
            checkpoints: (),
            wal_object_store_uri: (),
            recent_snapshot_min_seq: (),
            sequence_tracker: (),
        },
    }
}

/// What a scheduler is shown.
pub fn view(trees: &[Tree], rows: &[Job]) -> CompactorStateView {
    CompactorStateView {
        compactions: Some(VersionedCompactions::from_compactions(0, jobs(rows, 0))),
        manifest: VersionedManifest {
            manifest: manifest(trees),
        },
    }
}

pub fn dirty<T>(value: T) -> DirtyObject<T> {
    DirtyObject { value }
}

/// What a compactor keeps.
pub fn state(trees: &[Tree], rows: &[Job]) -> CompactorState {
    CompactorState::new(dirty(manifest(trees)), dirty(jobs(rows, 0)))
}

pub fn scheduler(options: &Options) -> SizeTieredCompactionScheduler {
    SizeTieredCompactionScheduler::new(
        SizeTieredCompactionSchedulerOptions {
            min_compaction_sources: options.min as usize,
            max_compaction_sources: options.max as usize,
            include_size_threshold: options.threshold,
        },
        options.concurrent as usize,
    )
}
