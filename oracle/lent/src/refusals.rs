//! 01's refusals that slatedb's code has no counterpart for: bounds (1), shapes (2), options (3), sizes (4) and places (5).
//! Written for reading, over sets and wide sums; `plain` has them a second time, with scans.
use std::collections::BTreeSet;

use crate::case::{Case, Options};
use crate::tables::{Jobs, LoneJob, LoneSpec, Plan, Sources, Trees};
use crate::{CONCURRENT, JOBS, L0_ROWS, MAX, RUNS, SOURCES, TREES};

/// The refusal that the lent tables and options of this call earn by themselves, if any. "Checks run 1, 2, then those of the
/// call. Planning: 3, 4, 5."
pub fn lacking(case: &Case) -> Option<u32> {
    if outside(case) {
        return Some(1);
    }
    if misshapen(case) {
        return Some(2);
    }
    match case {
        Case::Plan {
            trees,
            jobs,
            options,
            plan,
        } => planning(trees, jobs, options, plan),
        _ => None,
    }
}

fn outside(case: &Case) -> bool {
    match case {
        Case::Plan {
            trees,
            jobs,
            options,
            ..
        } => trees_outside(trees) || jobs_outside(jobs) || options.concurrent > CONCURRENT,
        Case::Validate { trees, .. } => trees_outside(trees),
        Case::Add { jobs, .. } | Case::Retain { jobs } => jobs_outside(jobs),
        Case::Merge { local, remote } => jobs_outside(local) || jobs_outside(remote),
        Case::Finish { trees, jobs, .. } | Case::Drain { trees, jobs, .. } => {
            trees_outside(trees) || jobs_outside(jobs)
        }
    }
}

/// Rows are read here, so only for tables that are within bounds.
fn misshapen(case: &Case) -> bool {
    match case {
        Case::Validate { trees, spec } => trees_misshapen(trees) || spec_misshapen(spec),
        Case::Add { jobs, job } => jobs_misshapen(jobs) || job_misshapen(job),
        Case::Merge { local, remote } => jobs_misshapen(local) || jobs_misshapen(remote),
        Case::Retain { jobs } => jobs_misshapen(jobs),
        Case::Plan { trees, jobs, .. }
        | Case::Finish { trees, jobs, .. }
        | Case::Drain { trees, jobs, .. } => trees_misshapen(trees) || jobs_misshapen(jobs),
    }
}

fn planning(trees: &Trees, jobs: &Jobs, options: &Options, plan: &Plan) -> Option<u32> {
    if !(1 <= options.min && options.min <= options.max && options.max <= MAX) {
        return Some(3);
    }
    let above = |sizes: &mut dyn Iterator<Item = u64>| {
        sizes.map(u128::from).sum::<u128>() > u128::from(u64::MAX)
    };
    let rows = trees.rows();
    if rows.iter().any(|t| {
        above(&mut t.l0.iter().map(|v| v.size)) || above(&mut t.runs.iter().map(|r| r.size))
    }) {
        return Some(4);
    }
    let held = jobs.rows().iter().filter(|j| j.holds_slot()).count();
    let free = (options.concurrent as usize).saturating_sub(held);
    let taken = rows.iter().map(|t| t.l0.len() + t.runs.len()).sum();
    let places = [
        plan.sources.marks.len(),
        plan.sources.runs.len(),
        plan.sources.views.len() / 2,
    ];
    if plan.specs.len() / 3 < free || places.iter().any(|&p| p < taken) {
        return Some(5);
    }
    None
}

/// The numbers of one column of the used rows; a number that is not there counts nothing.
fn column(
    slice: &[u32],
    width: usize,
    column: usize,
    rows: usize,
) -> impl Iterator<Item = u64> + '_ {
    (0..rows.min(slice.len())).map(move |i| slice.get(i * width + column).map_or(0, |&n| n.into()))
}

fn trees_outside(t: &Trees) -> bool {
    t.count == 0
        || t.count > TREES
        || column(&t.trees, 3, 1, t.count).sum::<u64>() > L0_ROWS as u64
        || column(&t.trees, 3, 2, t.count).sum::<u64>() > RUNS as u64
}

fn jobs_outside(j: &Jobs) -> bool {
    j.count > JOBS || column(&j.job_specs, 3, 2, j.count).sum::<u64>() > SOURCES as u64
}

fn is_mark(n: u8) -> bool {
    n <= 1
}

fn distinct<T: Ord>(mut items: impl Iterator<Item = T>) -> bool {
    let mut seen = BTreeSet::new();
    items.all(|item| seen.insert(item))
}

fn trees_misshapen(t: &Trees) -> bool {
    let at_capacity = t.trees.len() == TREES * 3
        && t.watermark_marks.len() == TREES * 2
        && t.watermarks.len() == TREES * 4
        && t.l0_ids.len() == L0_ROWS * 4
        && t.l0_sizes.len() == L0_ROWS
        && t.run_ids.len() == RUNS
        && t.run_sizes.len() == RUNS;
    if !at_capacity {
        return true;
    }
    let rows = t.rows();
    let good = rows[0].prefix == 0
        && distinct(rows.iter().map(|t| t.prefix))
        && rows
            .iter()
            .all(|t| t.runs.windows(2).all(|w| w[0].id > w[1].id))
        && distinct(rows.iter().flat_map(|t| &t.runs).map(|r| r.id))
        && distinct(rows.iter().flat_map(|t| &t.l0).map(|v| v.id))
        && rows
            .iter()
            .all(|t| is_mark(t.watermark.view_mark) && is_mark(t.watermark.sst_mark));
    !good
}

fn jobs_misshapen(j: &Jobs) -> bool {
    let at_capacity = j.job_ids.len() == JOBS * 2
        && j.job_marks.len() == JOBS * 2
        && j.job_specs.len() == JOBS * 3
        && j.sources.marks.len() == SOURCES
        && j.sources.runs.len() == SOURCES
        && j.sources.views.len() == SOURCES * 2;
    if !at_capacity {
        return true;
    }
    let rows = j.rows();
    let good = rows.windows(2).all(|w| w[0].id < w[1].id)
        && rows.iter().all(|j| {
            j.status <= 5 && is_mark(j.drain) && j.sources.iter().all(|s| is_mark(s.mark))
        });
    !good
}

/// Slices of n, n and 2n numbers, with good marks.
fn sources_misshapen(s: &Sources) -> bool {
    s.runs.len() != s.marks.len()
        || s.views.len() != 2 * s.marks.len()
        || !s.marks.iter().all(|&m| is_mark(m))
}

fn spec_misshapen(s: &LoneSpec) -> bool {
    !is_mark(s.drain) || sources_misshapen(&s.sources)
}

fn job_misshapen(j: &LoneJob) -> bool {
    j.status > 5 || spec_misshapen(&j.spec)
}
