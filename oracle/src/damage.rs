//! Damage to a case, for refusals 1 to 5. Each is one thing that 01 names; several may meet in one case.
use lent::{Case, Jobs, LoneSpec, Options, Plan, Sources, Trees};

use crate::rng::Rng;

pub fn one(rng: &mut Rng, case: &mut Case) {
    match case {
        Case::Plan {
            trees,
            jobs,
            options: some,
            plan: place,
        } => match rng.below(4) {
            0 => tree_table(rng, trees),
            1 => job_table(rng, jobs),
            2 => options(rng, some),
            _ => plan(rng, place),
        },
        Case::Validate { trees, spec: lone } => match rng.below(2) {
            0 => tree_table(rng, trees),
            _ => spec(rng, lone),
        },
        Case::Add { jobs, job } => match rng.below(3) {
            0 => job.status = rng.from_to(6, 255) as u8,
            1 => spec(rng, &mut job.spec),
            _ => job_table(rng, jobs),
        },
        Case::Merge { local, remote } => match rng.below(2) {
            0 => job_table(rng, local),
            _ => job_table(rng, remote),
        },
        Case::Retain { jobs } => job_table(rng, jobs),
        Case::Finish { trees, jobs, .. } | Case::Drain { trees, jobs, .. } => match rng.below(2) {
            0 => tree_table(rng, trees),
            _ => job_table(rng, jobs),
        },
    }
}

/// Makes a slice shorter or longer.
fn length<T: Copy + Default>(rng: &mut Rng, slice: &mut Vec<T>) {
    match rng.below(4) {
        0 => slice.push(T::default()),
        1 => slice.clear(),
        2 => slice.truncate(slice.len() / 2),
        _ => {
            slice.pop();
        }
    }
}

fn set<T>(slice: &mut [T], place: usize, number: T) {
    if let Some(old) = slice.get_mut(place) {
        *old = number;
    }
}

/// A mark that is none.
fn bad_mark(rng: &mut Rng) -> u8 {
    rng.one_of(&[2, 3, 128, 255])
}

fn copy<T: Copy>(slice: &mut [T], from: usize, to: usize) {
    if from < slice.len() && to < slice.len() {
        slice[to] = slice[from];
    }
}

/// How many rows are in use by one column of counts, at most `capacity`.
fn used(counts: &[u32], column: usize, rows: usize, capacity: usize) -> usize {
    let counts = counts.iter().skip(column).step_by(3).take(rows);
    counts
        .fold(0usize, |sum, &n| sum.saturating_add(n as usize))
        .min(capacity)
}

fn tree_table(rng: &mut Rng, t: &mut Trees) {
    let tree = rng.below(t.count.min(32));
    let l0 = used(&t.trees, 1, t.count, 512);
    let runs = used(&t.trees, 2, t.count, 512);
    match rng.below(21) {
        0 => t.count = rng.one_of(&[0, 33, 34, 1 << 32, usize::MAX]),
        1 => set(&mut t.trees, 3 * tree + 1, rng.one_of(&[513, u32::MAX])),
        2 => set(&mut t.trees, 3 * tree + 2, rng.one_of(&[513, u32::MAX])),
        3 => set(&mut t.trees, 3 * tree + 1, rng.one_of(&[511, 512])),
        4 => set(&mut t.trees, 3 * tree + 2, rng.one_of(&[511, 512])),
        5 => length(rng, &mut t.trees),
        6 => length(rng, &mut t.watermark_marks),
        7 => length(rng, &mut t.watermarks),
        8 => length(rng, &mut t.l0_ids),
        9 => length(rng, &mut t.l0_sizes),
        10 => length(rng, &mut t.run_ids),
        11 => length(rng, &mut t.run_sizes),
        12 => set(&mut t.trees, 0, 7),
        13 => copy(&mut t.trees, 3 * rng.below(tree), 3 * tree),
        14 => set(&mut t.watermark_marks, 2 * tree, bad_mark(rng)),
        15 => set(&mut t.watermark_marks, 2 * tree + 1, bad_mark(rng)),
        16 => {
            let (a, b) = (rng.below(runs), rng.below(runs));
            if a.max(b) < t.run_ids.len() {
                t.run_ids.swap(a, b);
            }
        }
        // of another tree too, where the ids still fall in each
        17 => copy(&mut t.run_ids, rng.below(runs), rng.below(runs)),
        18 => {
            let (a, b) = (rng.below(l0), rng.below(l0));
            copy(&mut t.l0_ids, 4 * a, 4 * b);
            copy(&mut t.l0_ids, 4 * a + 1, 4 * b + 1);
        }
        19 => set(&mut t.run_sizes, rng.below(runs), u64::MAX),
        _ => set(&mut t.l0_sizes, rng.below(l0), u64::MAX),
    }
}

fn job_table(rng: &mut Rng, j: &mut Jobs) {
    let job = rng.below(j.count.min(64));
    match rng.below(14) {
        0 => j.count = rng.one_of(&[65, 66, 1 << 32, usize::MAX]),
        1 => set(&mut j.job_specs, 3 * job + 2, rng.one_of(&[1025, u32::MAX])),
        2 => set(&mut j.job_specs, 3 * job + 2, rng.one_of(&[1023, 1024])),
        3 => length(rng, &mut j.job_ids),
        4 => length(rng, &mut j.job_marks),
        5 => length(rng, &mut j.job_specs),
        6 => sources(rng, &mut j.sources),
        7 => {
            copy(&mut j.job_ids, 2 * job, 2 * job + 2);
            copy(&mut j.job_ids, 2 * job + 1, 2 * job + 3);
        }
        8 => {
            set(&mut j.job_ids, 2 * job, u64::MAX);
            set(&mut j.job_ids, 2 * job + 1, u64::MAX);
        }
        9 => set(&mut j.job_marks, 2 * job, rng.from_to(6, 255) as u8),
        10 => set(&mut j.job_marks, 2 * job + 1, bad_mark(rng)),
        11 => j.count = (j.count + 1).min(64),
        _ => {
            let entries = used(&j.job_specs, 2, j.count, 1024);
            set(&mut j.sources.marks, rng.below(entries), bad_mark(rng));
        }
    }
}

fn sources(rng: &mut Rng, s: &mut Sources) {
    match rng.below(3) {
        0 => length(rng, &mut s.marks),
        1 => length(rng, &mut s.runs),
        _ => length(rng, &mut s.views),
    }
}

fn spec(rng: &mut Rng, s: &mut LoneSpec) {
    match rng.below(3) {
        0 => s.drain = bad_mark(rng),
        1 => set(&mut s.sources.marks, rng.below(4), bad_mark(rng)),
        _ => sources(rng, &mut s.sources),
    }
}

fn options(rng: &mut Rng, o: &mut Options) {
    match rng.below(5) {
        0 => o.concurrent = rng.one_of(&[65, 100, u32::MAX]),
        1 => o.min = 0,
        2 => o.max = rng.one_of(&[0, 65, u32::MAX]),
        3 => o.min = o.max.saturating_add(1),
        _ => (o.min, o.max) = (rng.one_of(&[65, u32::MAX]), u32::MAX),
    }
}

fn plan(rng: &mut Rng, p: &mut Plan) {
    match rng.below(2) {
        0 => length(rng, &mut p.specs),
        _ => sources(rng, &mut p.sources),
    }
}
