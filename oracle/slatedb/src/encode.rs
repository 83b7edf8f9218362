//! From slatedb's types back to rows. Parts that a mark makes idle are not in slatedb's types: a record that comes back takes
//! them from the record that it came from, which its tag names.
use lent::{Job, Run, Source, Tree, View, Watermark};

use crate::compactor_state::{Compaction, CompactionSpec, CompactionStatus, SourceId};
use crate::decode::STATUSES;
use crate::manifest::{LsmTreeState, ManifestCore};
use crate::{Bytes, Ulid};

fn ulid(id: Ulid) -> lent::Ulid {
    ((id.0 >> 64) as u64, id.0 as u64)
}

fn prefix(bytes: &Bytes) -> u32 {
    match bytes.0.as_slice() {
        [] => 0,
        four => u32::from_be_bytes(four.try_into().expect("prefixes are made of four bytes")),
    }
}

fn source(id: &SourceId, idle: &Source) -> Source {
    match id {
        SourceId::SortedRun(run) => Source {
            mark: 1,
            run: *run,
            view: idle.view,
        },
        SourceId::SstView(view) => Source {
            mark: 0,
            run: idle.run,
            view: ulid(*view),
        },
    }
}

pub fn status(status: CompactionStatus) -> u8 {
    let place = STATUSES.iter().position(|&s| s == status);
    place.expect("every status is listed") as u8
}

/// A spec that planning made: its idle parts are zeros.
pub fn spec(spec: &CompactionSpec) -> Job {
    Job {
        drain: u8::from(spec.is_drain()),
        prefix: prefix(spec.segment()),
        destination: spec.destination().unwrap_or(0),
        sources: spec
            .sources()
            .iter()
            .map(|id| source(id, &Source::default()))
            .collect(),
        ..Job::default()
    }
}

pub fn job(compaction: &Compaction, origin: &Job) -> Job {
    let spec = compaction.spec();
    assert_eq!(
        spec.sources().len(),
        origin.sources.len(),
        "a record is taken whole"
    );
    Job {
        id: ulid(compaction.id()),
        status: status(compaction.status()),
        drain: u8::from(spec.is_drain()),
        prefix: prefix(spec.segment()),
        destination: spec.destination().unwrap_or(origin.destination),
        sources: spec
            .sources()
            .iter()
            .zip(&origin.sources)
            .map(|(id, idle)| source(id, idle))
            .collect(),
    }
}

/// The trees, in the order of the manifest. `written`: the prefix of the tree whose watermark the call wrote, if it did.
/// That an absent field was written is not in slatedb's types, and such a field holds zeros.
pub fn trees(core: &ManifestCore, before: &[Tree], written: Option<u32>) -> Vec<Tree> {
    core.trees_with_prefix()
        .zip(before)
        .map(|((bytes, tree), old)| {
            let prefix = prefix(&bytes);
            let idle = match written == Some(prefix) {
                true => Watermark::default(),
                false => old.watermark,
            };
            Tree {
                prefix,
                watermark: watermark(tree, &idle),
                l0: tree
                    .l0
                    .iter()
                    .map(|view| View {
                        id: ulid(view.id),
                        sst: ulid(view.sst.id.0),
                        size: view.size,
                    })
                    .collect(),
                runs: tree
                    .compacted
                    .iter()
                    .map(|run| Run {
                        id: run.id,
                        size: run.size,
                    })
                    .collect(),
            }
        })
        .collect()
}

fn watermark(tree: &LsmTreeState, idle: &Watermark) -> Watermark {
    let view = tree.last_compacted_l0_sst_view_id;
    let sst = tree.last_compacted_l0_sst_id;
    Watermark {
        view_mark: u8::from(view.is_some()),
        sst_mark: u8::from(sst.is_some()),
        view: view.map_or(idle.view, ulid),
        sst: sst.map_or(idle.sst, ulid),
    }
}
