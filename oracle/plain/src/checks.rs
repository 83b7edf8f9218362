//! Refusals 1 and 2, and where the rows of trees and jobs lie.
use std::ops::Range;

use lent::{Jobs, LoneSpec, Sources, Trees, Ulid, JOBS, L0_ROWS, RUNS, SOURCES, TREES};

use crate::Refusal;

pub const ACTIVE: u8 = 3;
pub const LAST_STATUS: u8 = 5;

/// Refusal 1, then 2, on everything that is lent: 1 on either of two tables comes before 2 on either.
pub fn lent_tables(
    trees: Option<&Trees>,
    jobs: Option<&Jobs>,
    remote: Option<&Jobs>,
) -> Result<(), Refusal> {
    if trees.is_some_and(trees_outside)
        || jobs.is_some_and(jobs_outside)
        || remote.is_some_and(jobs_outside)
    {
        return Err(1);
    }
    if trees.is_some_and(trees_misshapen)
        || jobs.is_some_and(jobs_misshapen)
        || remote.is_some_and(jobs_misshapen)
    {
        return Err(2);
    }
    Ok(())
}

/// The sum of one column of the first rows; of a slice that is too short, of the numbers that are there.
fn sum(slice: &[u32], column: usize, rows: usize) -> u64 {
    let column = slice.iter().skip(column).step_by(3);
    column.take(rows).map(|&n| u64::from(n)).sum()
}

fn trees_outside(t: &Trees) -> bool {
    t.count == 0
        || t.count > TREES
        || sum(&t.trees, 1, t.count) > L0_ROWS as u64
        || sum(&t.trees, 2, t.count) > RUNS as u64
}

fn jobs_outside(j: &Jobs) -> bool {
    j.count > JOBS || sum(&j.job_specs, 2, j.count) > SOURCES as u64
}

fn trees_misshapen(t: &Trees) -> bool {
    if t.trees.len() != 3 * TREES
        || t.watermark_marks.len() != 2 * TREES
        || t.watermarks.len() != 4 * TREES
        || t.l0_ids.len() != 4 * L0_ROWS
        || t.l0_sizes.len() != L0_ROWS
        || t.run_ids.len() != RUNS
        || t.run_sizes.len() != RUNS
    {
        return true;
    }
    let (mut l0, mut runs) = (0, 0);
    for i in 0..t.count {
        let part = Part::after(t, i, l0, runs);
        if (i == 0 && part.prefix != 0) || (0..i).any(|k| t.trees[3 * k] == part.prefix) {
            return true;
        }
        if t.run_ids[part.runs.clone()]
            .windows(2)
            .any(|w| w[0] <= w[1])
        {
            return true;
        }
        (l0, runs) = (part.l0.end, part.runs.end);
    }
    twice(&t.run_ids[..runs])
        || (1..l0).any(|i| (0..i).any(|k| t.l0_ids[4 * k..4 * k + 2] == t.l0_ids[4 * i..4 * i + 2]))
        || t.watermark_marks[..2 * t.count].iter().any(|&m| m > 1)
}

fn twice(ids: &[u32]) -> bool {
    (1..ids.len()).any(|i| ids[..i].contains(&ids[i]))
}

fn jobs_misshapen(j: &Jobs) -> bool {
    if j.job_ids.len() != 2 * JOBS
        || j.job_marks.len() != 2 * JOBS
        || j.job_specs.len() != 3 * JOBS
        || j.sources.marks.len() != SOURCES
        || j.sources.runs.len() != SOURCES
        || j.sources.views.len() != 2 * SOURCES
    {
        return true;
    }
    (1..j.count).any(|i| job_id(j, i - 1) >= job_id(j, i))
        || (0..j.count).any(|i| j.job_marks[2 * i] > LAST_STATUS || j.job_marks[2 * i + 1] > 1)
        || j.sources.marks[..entries(j)].iter().any(|&m| m > 1)
}

/// A spec to validate, or that of a job to be added: its slices must be of n, n and 2n numbers.
pub fn spec_misshapen(s: &LoneSpec) -> bool {
    let Sources { marks, runs, views } = &s.sources;
    s.drain > 1
        || runs.len() != marks.len()
        || views.len() % 2 != 0
        || views.len() / 2 != marks.len()
        || marks.iter().any(|&m| m > 1)
}

/// Where the rows of one tree lie.
#[derive(Clone, Default)]
pub struct Part {
    pub prefix: u32,
    pub l0: Range<usize>,
    pub runs: Range<usize>,
}

impl Part {
    /// Tree i, whose rows begin where those of the trees before it end.
    pub fn after(t: &Trees, i: usize, l0: usize, runs: usize) -> Part {
        Part {
            prefix: t.trees[3 * i],
            l0: l0..l0 + t.trees[3 * i + 1] as usize,
            runs: runs..runs + t.trees[3 * i + 2] as usize,
        }
    }
}

/// The tree with this prefix, and its place.
pub fn tree_with(t: &Trees, prefix: u32) -> Option<(usize, Part)> {
    let (mut l0, mut runs) = (0, 0);
    for i in 0..t.count {
        let part = Part::after(t, i, l0, runs);
        if part.prefix == prefix {
            return Some((i, part));
        }
        (l0, runs) = (part.l0.end, part.runs.end);
    }
    None
}

pub fn l0_rows(t: &Trees) -> usize {
    sum(&t.trees, 1, t.count) as usize
}

pub fn run_rows(t: &Trees) -> usize {
    sum(&t.trees, 2, t.count) as usize
}

pub fn job_id(j: &Jobs, i: usize) -> Ulid {
    (j.job_ids[2 * i], j.job_ids[2 * i + 1])
}

pub fn status(j: &Jobs, i: usize) -> u8 {
    j.job_marks[2 * i]
}

pub fn is_drain(j: &Jobs, i: usize) -> bool {
    j.job_marks[2 * i + 1] == 1
}

pub fn source_count(j: &Jobs, i: usize) -> usize {
    j.job_specs[3 * i + 2] as usize
}

/// How many source entries are in use.
pub fn entries(j: &Jobs) -> usize {
    sum(&j.job_specs, 2, j.count) as usize
}

/// The job with this id, and where its source entries lie.
pub fn job_with(j: &Jobs, id: Ulid) -> Option<(usize, Range<usize>)> {
    let mut entry = 0;
    for i in 0..j.count {
        let end = entry + source_count(j, i);
        if job_id(j, i) == id {
            return Some((i, entry..end));
        }
        entry = end;
    }
    None
}

pub fn view_of(views: &[u64], row: usize) -> Ulid {
    (views[2 * row], views[2 * row + 1])
}

/// The view id of an L0 row.
pub fn l0_view(t: &Trees, row: usize) -> Ulid {
    (t.l0_ids[4 * row], t.l0_ids[4 * row + 1])
}

/// Whether one of these entries is this run. "A source's 1 is a run."
pub fn names_run(s: &Sources, rows: Range<usize>, run: u32) -> bool {
    let marks = &s.marks[rows.clone()];
    marks
        .iter()
        .zip(&s.runs[rows])
        .any(|(&m, &r)| m == 1 && r == run)
}

/// Whether one of these entries is this view.
pub fn names_view(s: &Sources, rows: Range<usize>, view: Ulid) -> bool {
    let views = s.views[2 * rows.start..2 * rows.end].chunks_exact(2);
    s.marks[rows]
        .iter()
        .zip(views)
        .any(|(&m, v)| m == 0 && v[0] == view.0 && v[1] == view.1)
}
