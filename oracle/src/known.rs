//! The differences between slatedb's code and 01 that docs/DIFFERENCES.md explains, by name. 01 wins in each.
use lent::{Answer, Case};
use slatedb::Told;

pub const NO_BOUNDS: &str = "1: the Rust has no such tables";
pub const NO_SHAPES: &str = "2: the Rust has no such tables";
pub const OPTIONS_PLAN: &str = "3: the Rust plans";
pub const OPTIONS_PANIC: &str = "3: the Rust panics (no source left, or a sum overflows)";
pub const SIZES_PLAN: &str = "4: the Rust sums only what it takes";
pub const SIZES_PANIC: &str = "4: the Rust's sum overflows";
pub const NO_PLACES: &str = "5: the Rust plans";
pub const EMPTY_SPEC: &str = "7: the Rust panics (validate)";
pub const EMPTY_FINISH: &str = "7: the Rust panics (finish)";
pub const NO_JOB: &str = "11: the Rust logs and returns";
pub const FINISH_OF_DRAIN: &str = "12: the Rust panics (finish)";
pub const DRAIN_OF_TIERED: &str = "12: the Rust panics (drain)";
pub const DISORDER: &str = "13: the Rust's order assert panics";
pub const OTHER_TREE: &str = "13: the Rust accepts a run of another tree";
pub const NO_CAPACITY: &str = "14: the Rust has no capacity";
pub const TOP_RUN: &str = "first run 4,294,967,295: the Rust's order assert panics";

pub const NAMES: [&str; 16] = [
    NO_BOUNDS,
    NO_SHAPES,
    OPTIONS_PLAN,
    OPTIONS_PANIC,
    SIZES_PLAN,
    SIZES_PANIC,
    NO_PLACES,
    EMPTY_SPEC,
    EMPTY_FINISH,
    NO_JOB,
    FINISH_OF_DRAIN,
    DRAIN_OF_TIERED,
    DISORDER,
    OTHER_TREE,
    NO_CAPACITY,
    TOP_RUN,
];

/// What slatedb's code does where the tables or options by themselves are refused, if that has a name.
pub fn lacking(case: &Case, number: u32) -> Option<&'static str> {
    match number {
        1 => return Some(NO_BOUNDS),
        2 => return Some(NO_SHAPES),
        _ => {}
    }
    let told = slatedb::ask(&mut case.clone());
    match (number, &told) {
        (3, Told::Panicked(text)) if is_no_source_left(text) || is_overflow(text) => {
            Some(OPTIONS_PANIC)
        }
        (4, Told::Panicked(text)) if is_overflow(text) => Some(SIZES_PANIC),
        (_, Told::Panicked(_)) => None,
        (3, _) => Some(OPTIONS_PLAN),
        (4, _) => Some(SIZES_PLAN),
        _ => Some(NO_PLACES),
    }
}

/// The name of a difference, if it has one. `answer` and `after`: what 01 says.
pub fn difference(case: &Case, told: &Told, answer: Answer, after: &Case) -> Option<&'static str> {
    if top_run(case, told, answer, after) {
        return Some(TOP_RUN);
    }
    let Answer::Refused(number) = answer else {
        return None;
    };
    let name = match (number, case, told) {
        (7, Case::Validate { .. }, Told::Panicked(text))
            if text.contains("window size must be non-zero") =>
        {
            EMPTY_SPEC
        }
        (7, Case::Finish { .. }, Told::Panicked(text))
            if text.contains("empty compaction spec") =>
        {
            EMPTY_FINISH
        }
        (11, Case::Finish { .. } | Case::Drain { .. }, Told::NotFound) => NO_JOB,
        (12, Case::Finish { .. }, Told::Panicked(text)) if text.contains("a non-tiered spec") => {
            FINISH_OF_DRAIN
        }
        (12, Case::Drain { .. }, Told::Panicked(text))
            if text.contains("called on a tiered spec") =>
        {
            DRAIN_OF_TIERED
        }
        (13, Case::Finish { .. }, Told::Panicked(text)) if is_order_assert(text) => DISORDER,
        (13, Case::Finish { .. }, Told::Answered(Answer::Committed) | Told::Overfull)
            if output_is_elsewhere(case) =>
        {
            OTHER_TREE
        }
        (14, Case::Add { .. } | Case::Merge { .. } | Case::Finish { .. }, Told::Overfull) => {
            NO_CAPACITY
        }
        _ => return None,
    };
    Some(name)
}

fn is_no_source_left(text: &str) -> bool {
    text == "expected non-empty compactable run"
}

fn is_overflow(text: &str) -> bool {
    text == "attempt to add with overflow"
}

fn is_order_assert(text: &str) -> bool {
    text == "assertion failed: sr.id < last_sr_id"
}

/// Whether the output's number is a run of a tree that is not the job's.
fn output_is_elsewhere(case: &Case) -> bool {
    let Case::Finish {
        trees,
        jobs,
        id,
        output,
    } = case
    else {
        return false;
    };
    let jobs = jobs.rows();
    let job = jobs.iter().find(|job| job.id == *id);
    let others = trees.rows().into_iter();
    let mut others = others.filter(|tree| job.is_some_and(|job| job.prefix != tree.prefix));
    others.any(|tree| tree.runs.iter().any(|run| run.id == output.id))
}

/// The order assert starts below 4,294,967,295, so it panics where that number stands first in the tree after the finish.
/// With the number lowered by one throughout, if that one is free, slatedb's code must do what 01 says of the lowered case.
fn top_run(case: &Case, told: &Told, answer: Answer, after: &Case) -> bool {
    let panicked = matches!(told, Told::Panicked(text) if is_order_assert(text));
    if !panicked || !names_top_run(case) {
        return false;
    }
    let (Some(mut lowered), Some(expected)) = (lower(case), lower(after)) else {
        return matches!(answer, Answer::Committed | Answer::Refused(14));
    };
    match slatedb::ask(&mut lowered) {
        Told::Answered(told) => told == answer && lowered == expected,
        Told::Overfull => answer == Answer::Refused(14),
        _ => false,
    }
}

fn names_top_run(case: &Case) -> bool {
    let Case::Finish { trees, output, .. } = case else {
        return false;
    };
    let trees = trees.rows();
    let mut firsts = trees.iter().filter_map(|tree| tree.runs.first());
    output.id == u32::MAX || firsts.any(|run| run.id == u32::MAX)
}

/// The case with run number 4,294,967,294 for every 4,294,967,295, if nothing has the former yet.
fn lower(case: &Case) -> Option<Case> {
    let mut case = case.clone();
    let Case::Finish {
        trees,
        jobs,
        output,
        ..
    } = &mut case
    else {
        return None;
    };
    let destinations = jobs.job_specs.iter_mut().skip(1).step_by(3);
    let sources = jobs.sources.runs.iter_mut();
    let numbers = trees.run_ids.iter_mut().chain(destinations).chain(sources);
    for number in numbers.chain([&mut output.id]) {
        match *number {
            u32::MAX => *number = u32::MAX - 1,
            n if n == u32::MAX - 1 => return None,
            _ => {}
        }
    }
    Some(case)
}
