//! Adding, merging, retention. Job rows and source entries move in place.
use lent::{Jobs, LoneJob, LoneSpec, JOBS, SOURCES};

use crate::checks::{
    entries, is_drain, job_id, job_with, lent_tables, source_count, spec_misshapen, status, ACTIVE,
    LAST_STATUS,
};
use crate::Refusal;

/// "Adding: 10, 14." and "Adding an id already present replaces that record." Answers the new job count.
pub fn add(jobs: &mut Jobs, job: &LoneJob) -> Result<usize, Refusal> {
    lent_tables(None, Some(jobs), None)?;
    if job.status > LAST_STATUS || spec_misshapen(&job.spec) {
        return Err(2);
    }
    if clashes(jobs, &job.spec) {
        return Err(10);
    }
    let before = (jobs.count, entries(jobs));
    // where the job goes, and the record that it replaces there
    let row = (0..jobs.count)
        .find(|&i| job_id(jobs, i) >= job.id)
        .unwrap_or(jobs.count);
    let entry = (0..row).map(|i| source_count(jobs, i)).sum();
    let replaced = match row < jobs.count && job_id(jobs, row) == job.id {
        true => (1, source_count(jobs, row)),
        false => (0, 0),
    };
    let len = job.spec.sources.marks.len();
    let after = (before.0 - replaced.0 + 1, before.1 - replaced.1 + len);
    if after.0 > JOBS || after.1 > SOURCES {
        return Err(14);
    }
    let rest = (before.0 - row - replaced.0, before.1 - entry - replaced.1);
    move_jobs(
        jobs,
        (row + replaced.0, entry + replaced.1),
        rest,
        (row + 1, entry + len),
    );
    jobs.job_ids[2 * row..2 * row + 2].copy_from_slice(&[job.id.0, job.id.1]);
    jobs.job_marks[2 * row..2 * row + 2].copy_from_slice(&[job.status, job.spec.drain]);
    jobs.job_specs[3 * row..3 * row + 3].copy_from_slice(&[
        job.spec.prefix,
        job.spec.destination,
        len as u32,
    ]);
    jobs.sources.marks[entry..entry + len].copy_from_slice(&job.spec.sources.marks);
    jobs.sources.runs[entry..entry + len].copy_from_slice(&job.spec.sources.runs);
    jobs.sources.views[2 * entry..2 * (entry + len)].copy_from_slice(&job.spec.sources.views);
    settle(jobs, before, after);
    Ok(after.0)
}

/// "job is a drain and an active drain has its prefix, or its destination is an active job's destination". A drain has no
/// destination.
fn clashes(jobs: &Jobs, spec: &LoneSpec) -> bool {
    (0..jobs.count)
        .filter(|&i| status(jobs, i) <= ACTIVE)
        .any(|i| match (spec.drain == 1, is_drain(jobs, i)) {
            (true, true) => jobs.job_specs[3 * i] == spec.prefix,
            (false, false) => jobs.job_specs[3 * i + 1] == spec.destination,
            _ => false,
        })
}

/// "The adoption table (local status against remote status)": by remote status, for absent and the six local statuses.
const ADOPTS_ABSENT: [bool; 6] = [true, false, false, true, true, true];
const ADOPTS: [[bool; 6]; 6] = [
    [false, false, false, true, false, false],
    [false, false, true, true, false, false],
    [false, true, true, true, false, false],
    [false, false, false, true, false, false],
    [false; 6],
    [false; 6],
];

/// "Merge: 1 and 2 on both job tables, then 14." Answers the new local job count.
pub fn merge(local: &mut Jobs, remote: &Jobs) -> Result<usize, Refusal> {
    lent_tables(None, Some(local), Some(remote))?;
    let before = (local.count, entries(local));
    let mut after = before;
    let mut adopted = [false; JOBS];
    let mut replaced = [false; JOBS];
    for i in 0..remote.count {
        let known = job_with(local, job_id(remote, i));
        let row = match &known {
            Some((k, _)) => &ADOPTS[usize::from(status(local, *k))],
            None => &ADOPTS_ABSENT,
        };
        if !row[usize::from(status(remote, i))] {
            continue;
        }
        adopted[i] = true;
        after = (after.0 + 1, after.1 + source_count(remote, i));
        if let Some((k, rows)) = known {
            replaced[k] = true;
            after = (after.0 - 1, after.1 - rows.len());
        }
    }
    if after.0 > JOBS || after.1 > SOURCES {
        return Err(14);
    }
    // the replaced records go first; then the two tables are merged from the back, where the room is
    let mut left = keep(local, |i| !replaced[i]);
    let mut to = after;
    let mut remote_entry = entries(remote);
    for i in (0..remote.count).rev() {
        let len = source_count(remote, i);
        remote_entry -= len;
        if !adopted[i] {
            continue;
        }
        while left.0 > 0 && job_id(local, left.0 - 1) > job_id(remote, i) {
            let size = (1, source_count(local, left.0 - 1));
            left = (left.0 - 1, left.1 - size.1);
            to = (to.0 - 1, to.1 - size.1);
            move_jobs(local, left, size, to);
        }
        to = (to.0 - 1, to.1 - len);
        copy_job(local, to, remote, (i, remote_entry), len);
    }
    settle(local, before, after);
    Ok(after.0)
}

/// "Retention keeps active jobs and the finished job of largest id." Answers the new job count.
pub fn retain(jobs: &mut Jobs) -> Result<usize, Refusal> {
    lent_tables(None, Some(jobs), None)?;
    let before = (jobs.count, entries(jobs));
    let finished = |i| status(jobs, i) > ACTIVE;
    let newest = (0..jobs.count).rev().find(|&i| finished(i));
    let mut kept = [false; JOBS];
    for (i, keep) in kept[..jobs.count].iter_mut().enumerate() {
        *keep = !finished(i) || newest == Some(i);
    }
    let after = keep(jobs, |i| kept[i]);
    settle(jobs, before, after);
    Ok(after.0)
}

/// Jobs and their source entries: how many, or the place where they begin.
type Extent = (usize, usize);

/// Moves the kept jobs to the front, in order, and answers how much of the tables they take.
fn keep(jobs: &mut Jobs, kept: impl Fn(usize) -> bool) -> Extent {
    let (mut from, mut to) = ((0, 0), (0, 0));
    for i in 0..jobs.count {
        let len = source_count(jobs, i);
        if kept(i) {
            move_jobs(jobs, from, (1, len), to);
            to = (to.0 + 1, to.1 + len);
        }
        from = (from.0 + 1, from.1 + len);
    }
    to
}

/// Moves jobs that stand together.
fn move_jobs(jobs: &mut Jobs, from: Extent, len: Extent, to: Extent) {
    if from == to {
        return;
    }
    jobs.job_ids
        .copy_within(2 * from.0..2 * (from.0 + len.0), 2 * to.0);
    jobs.job_marks
        .copy_within(2 * from.0..2 * (from.0 + len.0), 2 * to.0);
    jobs.job_specs
        .copy_within(3 * from.0..3 * (from.0 + len.0), 3 * to.0);
    jobs.sources.marks.copy_within(from.1..from.1 + len.1, to.1);
    jobs.sources.runs.copy_within(from.1..from.1 + len.1, to.1);
    jobs.sources
        .views
        .copy_within(2 * from.1..2 * (from.1 + len.1), 2 * to.1);
}

/// "remote record taken whole when adopted"
fn copy_job(jobs: &mut Jobs, to: Extent, remote: &Jobs, from: Extent, len: usize) {
    jobs.job_ids[2 * to.0..][..2].copy_from_slice(&remote.job_ids[2 * from.0..][..2]);
    jobs.job_marks[2 * to.0..][..2].copy_from_slice(&remote.job_marks[2 * from.0..][..2]);
    jobs.job_specs[3 * to.0..][..3].copy_from_slice(&remote.job_specs[3 * from.0..][..3]);
    let (s, r) = (&mut jobs.sources, &remote.sources);
    s.marks[to.1..][..len].copy_from_slice(&r.marks[from.1..][..len]);
    s.runs[to.1..][..len].copy_from_slice(&r.runs[from.1..][..len]);
    s.views[2 * to.1..][..2 * len].copy_from_slice(&r.views[2 * from.1..][..2 * len]);
}

/// "Places that a call frees hold zeros; other unused places keep their bytes."
fn settle(jobs: &mut Jobs, before: Extent, after: Extent) {
    jobs.count = after.0;
    if after.0 < before.0 {
        jobs.job_ids[2 * after.0..2 * before.0].fill(0);
        jobs.job_marks[2 * after.0..2 * before.0].fill(0);
        jobs.job_specs[3 * after.0..3 * before.0].fill(0);
    }
    if after.1 < before.1 {
        jobs.sources.marks[after.1..before.1].fill(0);
        jobs.sources.runs[after.1..before.1].fill(0);
        jobs.sources.views[2 * after.1..2 * before.1].fill(0);
    }
}
