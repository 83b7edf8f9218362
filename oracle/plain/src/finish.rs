//! Finish and drain. Rows move in place.
use std::ops::Range;

use lent::{Jobs, Run, Trees, Ulid, RUNS};

use crate::checks::{
    is_drain, job_with, l0_rows, l0_view, lent_tables, names_run, names_view, run_rows, tree_with,
    view_of, Part,
};
use crate::Refusal;

const COMPLETED: u8 = 4;
const FAILED: u8 = 5;

#[derive(Clone, Copy, Debug, PartialEq, Eq)]
pub enum Finished {
    Committed,
    SegmentMissing,
}

/// "Finish: 11, 12, 7, missing segment, 13, 14."
pub fn finish(
    trees: &mut Trees,
    jobs: &mut Jobs,
    id: Ulid,
    output: Run,
) -> Result<Finished, Refusal> {
    lent_tables(Some(trees), Some(jobs), None)?;
    let Some((job, sources)) = job_with(jobs, id) else {
        return Err(11);
    };
    if is_drain(jobs, job) {
        return Err(12);
    }
    if sources.is_empty() {
        return Err(7);
    }
    let Some((tree, part)) = tree_with(trees, jobs.job_specs[3 * job]) else {
        return Ok(fail(jobs, job));
    };
    let destination = jobs.job_specs[3 * job + 1];
    let goes = |run| run == destination || names_run(&jobs.sources, sources.clone(), run);
    // The output goes before the first old run whose id is not above it, so what stays before it is above it and what
    // stays behind it is not: ids fall strictly unless the output's own number stays. In another tree it stays always.
    let all_runs = run_rows(trees);
    let stays = |row: usize| !(part.runs.contains(&row) && goes(trees.run_ids[row]));
    if (0..all_runs).any(|row| trees.run_ids[row] == output.id && stays(row)) {
        return Err(13);
    }
    let going = (0..all_runs).filter(|&row| !stays(row)).count();
    if all_runs - going + 1 > RUNS {
        return Err(14);
    }

    if jobs.sources.marks[sources.start] == 0 {
        let view = view_of(&jobs.sources.views, sources.start);
        let row = part.l0.clone().find(|&row| l0_view(trees, row) == view);
        move_watermark(trees, tree, view, row);
    }
    remove_views(trees, tree, &part, jobs, sources.clone());
    let above = trees.run_ids[part.runs.clone()]
        .iter()
        .filter(|&&run| run > output.id && !goes(run))
        .count();
    let kept = keep_runs(trees, &part, |run| !goes(run));
    let end = part.runs.start + kept;
    move_runs(trees, part.runs.end..all_runs, end + 1);
    move_runs(
        trees,
        part.runs.start + above..end,
        part.runs.start + above + 1,
    );
    trees.run_ids[part.runs.start + above] = output.id;
    trees.run_sizes[part.runs.start + above] = output.size;
    settle_runs(trees, tree, kept + 1, all_runs);
    jobs.job_marks[2 * job] = COMPLETED;
    Ok(Finished::Committed)
}

/// "Drain: 11, 12, missing segment."
pub fn drain(trees: &mut Trees, jobs: &mut Jobs, id: Ulid) -> Result<Finished, Refusal> {
    lent_tables(Some(trees), Some(jobs), None)?;
    let Some((job, sources)) = job_with(jobs, id) else {
        return Err(11);
    };
    if !is_drain(jobs, job) {
        return Err(12);
    }
    let Some((tree, part)) = tree_with(trees, jobs.job_specs[3 * job]) else {
        return Ok(fail(jobs, job));
    };
    // "the watermark moves to the first L0 row in table order that is a source, if any"
    let newest = part
        .l0
        .clone()
        .find(|&row| names_view(&jobs.sources, sources.clone(), l0_view(trees, row)));
    if let Some(row) = newest {
        move_watermark(trees, tree, l0_view(trees, row), Some(row));
    }
    remove_views(trees, tree, &part, jobs, sources.clone());
    let all_runs = run_rows(trees);
    let kept = keep_runs(trees, &part, |run| {
        !names_run(&jobs.sources, sources.clone(), run)
    });
    move_runs(trees, part.runs.end..all_runs, part.runs.start + kept);
    settle_runs(trees, tree, kept, all_runs);
    jobs.job_marks[2 * job] = COMPLETED;
    Ok(Finished::Committed)
}

/// "A missing segment is no refusal: status becomes 5 and nothing else changes."
fn fail(jobs: &mut Jobs, job: usize) -> Finished {
    jobs.job_marks[2 * job] = FAILED;
    Finished::SegmentMissing
}

/// The watermark takes the view, "and its SST id if the view is still there, else absent"; an absent field holds zeros.
fn move_watermark(t: &mut Trees, tree: usize, view: Ulid, row: Option<usize>) {
    let sst = row.map_or((0, 0), |row| (t.l0_ids[4 * row + 2], t.l0_ids[4 * row + 3]));
    t.watermark_marks[2 * tree] = 1;
    t.watermark_marks[2 * tree + 1] = u8::from(row.is_some());
    t.watermarks[4 * tree..4 * tree + 4].copy_from_slice(&[view.0, view.1, sst.0, sst.1]);
}

/// Takes the tree's L0 rows that are among these sources out of the table.
fn remove_views(t: &mut Trees, tree: usize, part: &Part, jobs: &Jobs, sources: Range<usize>) {
    let mut end = part.l0.start;
    let used = l0_rows(t);
    for row in part.l0.clone() {
        if !names_view(&jobs.sources, sources.clone(), l0_view(t, row)) {
            t.l0_ids.copy_within(4 * row..4 * row + 4, 4 * end);
            t.l0_sizes[end] = t.l0_sizes[row];
            end += 1;
        }
    }
    t.trees[3 * tree + 1] = (end - part.l0.start) as u32;
    t.l0_ids.copy_within(4 * part.l0.end..4 * used, 4 * end);
    t.l0_sizes.copy_within(part.l0.end..used, end);
    let freed = part.l0.end - end;
    t.l0_ids[4 * (used - freed)..4 * used].fill(0);
    t.l0_sizes[used - freed..used].fill(0);
}

/// Moves the kept runs of a tree to the front of its part, and answers how many they are.
fn keep_runs(t: &mut Trees, part: &Part, kept: impl Fn(u32) -> bool) -> usize {
    let mut end = part.runs.start;
    for row in part.runs.clone() {
        if kept(t.run_ids[row]) {
            move_runs(t, row..row + 1, end);
            end += 1;
        }
    }
    end - part.runs.start
}

fn move_runs(t: &mut Trees, rows: Range<usize>, to: usize) {
    t.run_ids.copy_within(rows.clone(), to);
    t.run_sizes.copy_within(rows, to);
}

/// Sets the tree's run count; places that are no longer used, of those that were, hold zeros.
fn settle_runs(t: &mut Trees, tree: usize, count: usize, used: usize) {
    t.trees[3 * tree + 2] = count as u32;
    let now = run_rows(t);
    if now < used {
        t.run_ids[now..used].fill(0);
        t.run_sizes[now..used].fill(0);
    }
}
