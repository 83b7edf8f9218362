//! The third judge: libfiervalun.a through C. A slice is a pointer and a length; a job count that changes is a pointer at the
//! place where it stands. Each call answers 0 or a refusal's number. build.rs says which calls the archive has.
#![allow(unused)] // a call that the archive lacks leaves its parts unused

use lent::{Answer, Case, Options};

extern "C" {
    #[cfg(has_plan)]
    fn fiervalun_plan(
        tree_count: usize,
        trees: *const u32,
        trees_len: usize,
        watermark_marks: *const u8,
        watermark_marks_len: usize,
        watermarks: *const u64,
        watermarks_len: usize,
        l0_ids: *const u64,
        l0_ids_len: usize,
        l0_sizes: *const u64,
        l0_sizes_len: usize,
        run_ids: *const u32,
        run_ids_len: usize,
        run_sizes: *const u64,
        run_sizes_len: usize,
        job_count: usize,
        job_ids: *const u64,
        job_ids_len: usize,
        job_marks: *const u8,
        job_marks_len: usize,
        job_specs: *const u32,
        job_specs_len: usize,
        source_marks: *const u8,
        source_marks_len: usize,
        source_runs: *const u32,
        source_runs_len: usize,
        source_views: *const u64,
        source_views_len: usize,
        options: Options,
        plan_specs: *mut u32,
        plan_specs_len: usize,
        plan_marks: *mut u8,
        plan_marks_len: usize,
        plan_runs: *mut u32,
        plan_runs_len: usize,
        plan_views: *mut u64,
        plan_views_len: usize,
        specs: *mut usize,
        passes: *mut usize,
    ) -> u32;
    #[cfg(has_validate)]
    fn fiervalun_validate(
        tree_count: usize,
        trees: *const u32,
        trees_len: usize,
        watermark_marks: *const u8,
        watermark_marks_len: usize,
        watermarks: *const u64,
        watermarks_len: usize,
        l0_ids: *const u64,
        l0_ids_len: usize,
        l0_sizes: *const u64,
        l0_sizes_len: usize,
        run_ids: *const u32,
        run_ids_len: usize,
        run_sizes: *const u64,
        run_sizes_len: usize,
        drain: u8,
        prefix: u32,
        destination: u32,
        marks: *const u8,
        marks_len: usize,
        runs: *const u32,
        runs_len: usize,
        views: *const u64,
        views_len: usize,
    ) -> u32;
    #[cfg(has_add)]
    fn fiervalun_add(
        job_count: *mut usize,
        job_ids: *mut u64,
        job_ids_len: usize,
        job_marks: *mut u8,
        job_marks_len: usize,
        job_specs: *mut u32,
        job_specs_len: usize,
        source_marks: *mut u8,
        source_marks_len: usize,
        source_runs: *mut u32,
        source_runs_len: usize,
        source_views: *mut u64,
        source_views_len: usize,
        id_high: u64,
        id_low: u64,
        status: u8,
        drain: u8,
        prefix: u32,
        destination: u32,
        marks: *const u8,
        marks_len: usize,
        runs: *const u32,
        runs_len: usize,
        views: *const u64,
        views_len: usize,
    ) -> u32;
    #[cfg(has_merge)]
    fn fiervalun_merge(
        job_count: *mut usize,
        job_ids: *mut u64,
        job_ids_len: usize,
        job_marks: *mut u8,
        job_marks_len: usize,
        job_specs: *mut u32,
        job_specs_len: usize,
        source_marks: *mut u8,
        source_marks_len: usize,
        source_runs: *mut u32,
        source_runs_len: usize,
        source_views: *mut u64,
        source_views_len: usize,
        remote_job_count: usize,
        remote_job_ids: *const u64,
        remote_job_ids_len: usize,
        remote_job_marks: *const u8,
        remote_job_marks_len: usize,
        remote_job_specs: *const u32,
        remote_job_specs_len: usize,
        remote_source_marks: *const u8,
        remote_source_marks_len: usize,
        remote_source_runs: *const u32,
        remote_source_runs_len: usize,
        remote_source_views: *const u64,
        remote_source_views_len: usize,
    ) -> u32;
    #[cfg(has_retain)]
    fn fiervalun_retain(
        job_count: *mut usize,
        job_ids: *mut u64,
        job_ids_len: usize,
        job_marks: *mut u8,
        job_marks_len: usize,
        job_specs: *mut u32,
        job_specs_len: usize,
        source_marks: *mut u8,
        source_marks_len: usize,
        source_runs: *mut u32,
        source_runs_len: usize,
        source_views: *mut u64,
        source_views_len: usize,
    ) -> u32;
    #[cfg(has_finish)]
    fn fiervalun_finish(
        tree_count: usize,
        trees: *mut u32,
        trees_len: usize,
        watermark_marks: *mut u8,
        watermark_marks_len: usize,
        watermarks: *mut u64,
        watermarks_len: usize,
        l0_ids: *mut u64,
        l0_ids_len: usize,
        l0_sizes: *mut u64,
        l0_sizes_len: usize,
        run_ids: *mut u32,
        run_ids_len: usize,
        run_sizes: *mut u64,
        run_sizes_len: usize,
        job_count: usize,
        job_ids: *const u64,
        job_ids_len: usize,
        job_marks: *mut u8,
        job_marks_len: usize,
        job_specs: *const u32,
        job_specs_len: usize,
        source_marks: *const u8,
        source_marks_len: usize,
        source_runs: *const u32,
        source_runs_len: usize,
        source_views: *const u64,
        source_views_len: usize,
        id_high: u64,
        id_low: u64,
        output: u32,
        output_size: u64,
        segment_missing: *mut u32,
    ) -> u32;
    #[cfg(has_drain)]
    fn fiervalun_drain(
        tree_count: usize,
        trees: *mut u32,
        trees_len: usize,
        watermark_marks: *mut u8,
        watermark_marks_len: usize,
        watermarks: *mut u64,
        watermarks_len: usize,
        l0_ids: *mut u64,
        l0_ids_len: usize,
        l0_sizes: *mut u64,
        l0_sizes_len: usize,
        run_ids: *mut u32,
        run_ids_len: usize,
        run_sizes: *mut u64,
        run_sizes_len: usize,
        job_count: usize,
        job_ids: *const u64,
        job_ids_len: usize,
        job_marks: *mut u8,
        job_marks_len: usize,
        job_specs: *const u32,
        job_specs_len: usize,
        source_marks: *const u8,
        source_marks_len: usize,
        source_runs: *const u32,
        source_runs_len: usize,
        source_views: *const u64,
        source_views_len: usize,
        id_high: u64,
        id_low: u64,
        segment_missing: *mut u32,
    ) -> u32;
}

/// Answers nothing where the archive has no such call, and a complaint where an output changed on a refusal.
pub fn ask(case: &mut Case) -> Option<Result<Answer, &'static str>> {
    match case {
        #[cfg(has_plan)]
        Case::Plan {
            trees,
            jobs,
            options,
            plan,
        } => {
            let (mut specs, mut passes) = (KEPT, KEPT);
            let number = unsafe {
                fiervalun_plan(
                    trees.count,
                    trees.trees.as_ptr(),
                    trees.trees.len(),
                    trees.watermark_marks.as_ptr(),
                    trees.watermark_marks.len(),
                    trees.watermarks.as_ptr(),
                    trees.watermarks.len(),
                    trees.l0_ids.as_ptr(),
                    trees.l0_ids.len(),
                    trees.l0_sizes.as_ptr(),
                    trees.l0_sizes.len(),
                    trees.run_ids.as_ptr(),
                    trees.run_ids.len(),
                    trees.run_sizes.as_ptr(),
                    trees.run_sizes.len(),
                    jobs.count,
                    jobs.job_ids.as_ptr(),
                    jobs.job_ids.len(),
                    jobs.job_marks.as_ptr(),
                    jobs.job_marks.len(),
                    jobs.job_specs.as_ptr(),
                    jobs.job_specs.len(),
                    jobs.sources.marks.as_ptr(),
                    jobs.sources.marks.len(),
                    jobs.sources.runs.as_ptr(),
                    jobs.sources.runs.len(),
                    jobs.sources.views.as_ptr(),
                    jobs.sources.views.len(),
                    *options,
                    plan.specs.as_mut_ptr(),
                    plan.specs.len(),
                    plan.sources.marks.as_mut_ptr(),
                    plan.sources.marks.len(),
                    plan.sources.runs.as_mut_ptr(),
                    plan.sources.runs.len(),
                    plan.sources.views.as_mut_ptr(),
                    plan.sources.views.len(),
                    &mut specs,
                    &mut passes,
                )
            };
            Some(answer(number, (specs, passes) == (KEPT, KEPT), || {
                Answer::Planned { specs, passes }
            }))
        }
        #[cfg(has_validate)]
        Case::Validate { trees, spec } => {
            let number = unsafe {
                fiervalun_validate(
                    trees.count,
                    trees.trees.as_ptr(),
                    trees.trees.len(),
                    trees.watermark_marks.as_ptr(),
                    trees.watermark_marks.len(),
                    trees.watermarks.as_ptr(),
                    trees.watermarks.len(),
                    trees.l0_ids.as_ptr(),
                    trees.l0_ids.len(),
                    trees.l0_sizes.as_ptr(),
                    trees.l0_sizes.len(),
                    trees.run_ids.as_ptr(),
                    trees.run_ids.len(),
                    trees.run_sizes.as_ptr(),
                    trees.run_sizes.len(),
                    spec.drain,
                    spec.prefix,
                    spec.destination,
                    spec.sources.marks.as_ptr(),
                    spec.sources.marks.len(),
                    spec.sources.runs.as_ptr(),
                    spec.sources.runs.len(),
                    spec.sources.views.as_ptr(),
                    spec.sources.views.len(),
                )
            };
            Some(answer(number, true, || Answer::Accepted))
        }
        #[cfg(has_add)]
        Case::Add { jobs, job } => {
            let spec = &job.spec;
            let number = unsafe {
                fiervalun_add(
                    &mut jobs.count,
                    jobs.job_ids.as_mut_ptr(),
                    jobs.job_ids.len(),
                    jobs.job_marks.as_mut_ptr(),
                    jobs.job_marks.len(),
                    jobs.job_specs.as_mut_ptr(),
                    jobs.job_specs.len(),
                    jobs.sources.marks.as_mut_ptr(),
                    jobs.sources.marks.len(),
                    jobs.sources.runs.as_mut_ptr(),
                    jobs.sources.runs.len(),
                    jobs.sources.views.as_mut_ptr(),
                    jobs.sources.views.len(),
                    job.id.0,
                    job.id.1,
                    job.status,
                    spec.drain,
                    spec.prefix,
                    spec.destination,
                    spec.sources.marks.as_ptr(),
                    spec.sources.marks.len(),
                    spec.sources.runs.as_ptr(),
                    spec.sources.runs.len(),
                    spec.sources.views.as_ptr(),
                    spec.sources.views.len(),
                )
            };
            Some(answer(number, true, || Answer::Jobs(jobs.count)))
        }
        #[cfg(has_merge)]
        Case::Merge { local, remote } => {
            let number = unsafe {
                fiervalun_merge(
                    &mut local.count,
                    local.job_ids.as_mut_ptr(),
                    local.job_ids.len(),
                    local.job_marks.as_mut_ptr(),
                    local.job_marks.len(),
                    local.job_specs.as_mut_ptr(),
                    local.job_specs.len(),
                    local.sources.marks.as_mut_ptr(),
                    local.sources.marks.len(),
                    local.sources.runs.as_mut_ptr(),
                    local.sources.runs.len(),
                    local.sources.views.as_mut_ptr(),
                    local.sources.views.len(),
                    remote.count,
                    remote.job_ids.as_ptr(),
                    remote.job_ids.len(),
                    remote.job_marks.as_ptr(),
                    remote.job_marks.len(),
                    remote.job_specs.as_ptr(),
                    remote.job_specs.len(),
                    remote.sources.marks.as_ptr(),
                    remote.sources.marks.len(),
                    remote.sources.runs.as_ptr(),
                    remote.sources.runs.len(),
                    remote.sources.views.as_ptr(),
                    remote.sources.views.len(),
                )
            };
            Some(answer(number, true, || Answer::Jobs(local.count)))
        }
        #[cfg(has_retain)]
        Case::Retain { jobs } => {
            let number = unsafe {
                fiervalun_retain(
                    &mut jobs.count,
                    jobs.job_ids.as_mut_ptr(),
                    jobs.job_ids.len(),
                    jobs.job_marks.as_mut_ptr(),
                    jobs.job_marks.len(),
                    jobs.job_specs.as_mut_ptr(),
                    jobs.job_specs.len(),
                    jobs.sources.marks.as_mut_ptr(),
                    jobs.sources.marks.len(),
                    jobs.sources.runs.as_mut_ptr(),
                    jobs.sources.runs.len(),
                    jobs.sources.views.as_mut_ptr(),
                    jobs.sources.views.len(),
                )
            };
            Some(answer(number, true, || Answer::Jobs(jobs.count)))
        }
        #[cfg(has_finish)]
        Case::Finish {
            trees,
            jobs,
            id,
            output,
        } => {
            let mut missing = KEPT as u32;
            let number = unsafe {
                fiervalun_finish(
                    trees.count,
                    trees.trees.as_mut_ptr(),
                    trees.trees.len(),
                    trees.watermark_marks.as_mut_ptr(),
                    trees.watermark_marks.len(),
                    trees.watermarks.as_mut_ptr(),
                    trees.watermarks.len(),
                    trees.l0_ids.as_mut_ptr(),
                    trees.l0_ids.len(),
                    trees.l0_sizes.as_mut_ptr(),
                    trees.l0_sizes.len(),
                    trees.run_ids.as_mut_ptr(),
                    trees.run_ids.len(),
                    trees.run_sizes.as_mut_ptr(),
                    trees.run_sizes.len(),
                    jobs.count,
                    jobs.job_ids.as_ptr(),
                    jobs.job_ids.len(),
                    jobs.job_marks.as_mut_ptr(),
                    jobs.job_marks.len(),
                    jobs.job_specs.as_ptr(),
                    jobs.job_specs.len(),
                    jobs.sources.marks.as_ptr(),
                    jobs.sources.marks.len(),
                    jobs.sources.runs.as_ptr(),
                    jobs.sources.runs.len(),
                    jobs.sources.views.as_ptr(),
                    jobs.sources.views.len(),
                    id.0,
                    id.1,
                    output.id,
                    output.size,
                    &mut missing,
                )
            };
            Some(finished(number, missing))
        }
        #[cfg(has_drain)]
        Case::Drain { trees, jobs, id } => {
            let mut missing = KEPT as u32;
            let number = unsafe {
                fiervalun_drain(
                    trees.count,
                    trees.trees.as_mut_ptr(),
                    trees.trees.len(),
                    trees.watermark_marks.as_mut_ptr(),
                    trees.watermark_marks.len(),
                    trees.watermarks.as_mut_ptr(),
                    trees.watermarks.len(),
                    trees.l0_ids.as_mut_ptr(),
                    trees.l0_ids.len(),
                    trees.l0_sizes.as_mut_ptr(),
                    trees.l0_sizes.len(),
                    trees.run_ids.as_mut_ptr(),
                    trees.run_ids.len(),
                    trees.run_sizes.as_mut_ptr(),
                    trees.run_sizes.len(),
                    jobs.count,
                    jobs.job_ids.as_ptr(),
                    jobs.job_ids.len(),
                    jobs.job_marks.as_mut_ptr(),
                    jobs.job_marks.len(),
                    jobs.job_specs.as_ptr(),
                    jobs.job_specs.len(),
                    jobs.sources.marks.as_ptr(),
                    jobs.sources.marks.len(),
                    jobs.sources.runs.as_ptr(),
                    jobs.sources.runs.len(),
                    jobs.sources.views.as_ptr(),
                    jobs.sources.views.len(),
                    id.0,
                    id.1,
                    &mut missing,
                )
            };
            Some(finished(number, missing))
        }
        #[allow(unreachable_patterns)] // where the archive has all seven
        _ => None,
    }
}

/// What an output holds before the call, and on a refusal after it.
const KEPT: usize = 0x5EED;

fn answer(number: u32, kept: bool, done: impl Fn() -> Answer) -> Result<Answer, &'static str> {
    match (number, kept) {
        (0, _) => Ok(done()),
        (_, true) => Ok(Answer::Refused(number)),
        (_, false) => Err("an output changed on a refusal"),
    }
}

fn finished(number: u32, missing: u32) -> Result<Answer, &'static str> {
    match (number, missing) {
        (0, 0) => Ok(Answer::Committed),
        (0, 1) => Ok(Answer::SegmentMissing),
        (0, _) => Err("neither a commit nor a missing segment"),
        _ => answer(number, missing == KEPT as u32, || Answer::Committed),
    }
}

/// The calls that the archive has.
pub fn calls() -> Vec<&'static str> {
    let mut calls = Vec::new();
    #[cfg(has_plan)]
    calls.push("plan");
    #[cfg(has_validate)]
    calls.push("validate");
    #[cfg(has_add)]
    calls.push("add");
    #[cfg(has_merge)]
    calls.push("merge");
    #[cfg(has_retain)]
    calls.push("retain");
    #[cfg(has_finish)]
    calls.push("finish");
    #[cfg(has_drain)]
    calls.push("drain");
    calls
}
