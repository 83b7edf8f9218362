//! The seven calls through slatedb's code. Only for tables that `lent::refusals` does not refuse, or planning ones that it
//! refuses 3, 4 or 5.
use std::hint::black_box;
use std::panic::{catch_unwind, AssertUnwindSafe};
use std::sync::atomic::{AtomicBool, Ordering};
use std::time::{Duration, Instant};

use lent::{Answer, Case, Job, Jobs, Options, Plan, Run, Source, Tree, Trees, JOBS, RUNS, SOURCES};

use crate::compactor::CompactionScheduler;
use crate::compactor_state::{CompactionSpec, Compactions, CompactorState};
use crate::{decode, encode, Told};

static UNDER_WAY: AtomicBool = AtomicBool::new(false);

/// Whether slatedb's code is being asked just now, so that a panic is an answer.
pub fn is_asked() -> bool {
    UNDER_WAY.load(Ordering::Relaxed)
}

/// Does the call on the tables of the case. Unless it answers, nothing has changed.
pub fn ask(case: &mut Case) -> Told {
    UNDER_WAY.store(true, Ordering::Relaxed);
    let told = catch(case);
    UNDER_WAY.store(false, Ordering::Relaxed);
    told
}

fn catch(case: &mut Case) -> Told {
    catch_unwind(AssertUnwindSafe(|| through(case))).unwrap_or_else(|payload| {
        let text = payload.downcast_ref::<&str>().map(|text| text.to_string());
        let message = text.or_else(|| payload.downcast_ref::<String>().cloned());
        Told::Panicked(message.unwrap_or_default())
    })
}

/// A panic leaves `case` as it was: tables are laid last, when slatedb's code has returned.
fn through(case: &mut Case) -> Told {
    match case {
        Case::Plan {
            trees,
            jobs,
            options,
            plan,
        } => propose(trees, jobs, options, plan),
        Case::Validate { trees, spec } => {
            let spec = Job {
                drain: spec.drain,
                prefix: spec.prefix,
                destination: spec.destination,
                sources: spec.sources.rows(),
                ..Job::default()
            };
            validate(&trees.rows(), &decode::spec(&spec))
        }
        Case::Add { jobs, job } => add(jobs, &job.row()),
        Case::Merge { local, remote } => {
            let (mine, theirs) = (local.rows(), remote.rows());
            let mut state = decode::state(&[Tree::default()], &mine);
            let first_tag = mine.len() as u64;
            state.merge_remote_compactions(decode::dirty(decode::jobs(&theirs, first_tag)));
            lay_jobs(local, &state.compactions().value, &[mine, theirs].concat())
        }
        Case::Retain { jobs } => {
            let rows = jobs.rows();
            let mut compactions = decode::jobs(&rows, 0);
            compactions.retain_active_and_last_finished();
            lay_jobs(jobs, &compactions, &rows)
        }
        Case::Finish {
            trees,
            jobs,
            id,
            output,
        } => finish(trees, jobs, *id, Some(output)),
        Case::Drain { trees, jobs, id } => finish(trees, jobs, *id, None),
    }
}

fn propose(trees: &Trees, jobs: &Jobs, options: &Options, plan: &mut Plan) -> Told {
    let rows = trees.rows();
    let made = decode::scheduler(options).propose(&decode::view(&rows, &jobs.rows()));
    let specs: Vec<Job> = made.iter().map(encode::spec).collect();
    let sources = &plan.sources;
    let places = sources.marks.len().min(sources.runs.len());
    let entries = specs.iter().map(|s| s.sources.len()).sum::<usize>();
    if specs.len() > plan.specs.len() / 3 || entries > places.min(sources.views.len() / 2) {
        return Told::Overfull;
    }
    plan.lay(&specs);
    Told::Answered(Answer::Planned {
        specs: specs.len(),
        passes: passes(&rows, &specs),
    })
}

/// How many passes picked something, which slatedb's code does not tell. A pass asks each tree once, in one order, so it
/// ends before a spec whose tree is not behind that of the spec before. The next pass cannot begin with a tree behind all
/// that picked in this one: nothing that this tree's pick depends on has changed since it was asked.
fn passes(trees: &[Tree], specs: &[Job]) -> usize {
    let mut order: Vec<&Tree> = trees.iter().collect();
    order.sort_by_key(|tree| std::cmp::Reverse(tree.l0.len()));
    let asked: Vec<usize> = specs
        .iter()
        .map(|spec| {
            let place = order.iter().position(|tree| tree.prefix == spec.prefix);
            place.expect("a spec is of a tree that was handed in")
        })
        .collect();
    usize::from(!asked.is_empty()) + asked.windows(2).filter(|pair| pair[1] <= pair[0]).count()
}

fn validate(trees: &[Tree], spec: &CompactionSpec) -> Told {
    // validation looks at none of the options
    let scheduler = decode::scheduler(&Options {
        min: 1,
        max: 1,
        concurrent: 0,
        threshold: 1.0,
    });
    let Err(error) = scheduler.validate(&decode::view(trees, &[]), spec) else {
        return Told::Answered(Answer::Accepted);
    };
    Told::Answered(Answer::Refused(match error.message.as_str() {
        "unknown target segment" => 6,
        "non-consecutive compaction sources" => 8,
        "destination not the lowest-id SR among sources" => 9,
        other => panic!("an error that 01 does not know: {other}"),
    }))
}

fn add(jobs: &mut Jobs, job: &Job) -> Told {
    let rows = jobs.rows();
    let mut state = decode::state(&[Tree::default()], &rows);
    if state
        .add_compaction(decode::job(job, rows.len() as u64))
        .is_err()
    {
        return Told::Answered(Answer::Refused(10));
    }
    let origins = [rows.as_slice(), std::slice::from_ref(job)].concat();
    lay_jobs(jobs, &state.compactions().value, &origins)
}

/// Lays the jobs that slatedb's code left. A job's tag is the place of its record in `origins`.
fn lay_jobs(jobs: &mut Jobs, compactions: &Compactions, origins: &[Job]) -> Told {
    let rows: Vec<Job> = compactions
        .iter()
        .map(|c| encode::job(c, &origins[c.bytes_processed() as usize]))
        .collect();
    let entries = rows.iter().map(|job| job.sources.len()).sum::<usize>();
    if rows.len() > JOBS || entries > SOURCES {
        return Told::Overfull;
    }
    jobs.lay(&rows);
    Told::Answered(Answer::Jobs(rows.len()))
}

/// Finish with an output, or drain.
fn finish(trees: &mut Trees, jobs: &mut Jobs, id: lent::Ulid, output: Option<&Run>) -> Told {
    let (before, rows) = (trees.rows(), jobs.rows());
    let mut state = decode::state(&before, &rows);
    match output {
        Some(run) => state.finish_compaction(decode::ulid(id), decode::run(run)),
        None => state.finish_drain_compaction(decode::ulid(id)),
    }
    let Some(job) = rows.iter().find(|job| job.id == id) else {
        assert_untouched(&state, &before, &rows);
        return Told::NotFound;
    };
    // of a finish, "If the first source is an L0 view, the watermark takes it"; what a drain writes is never absent
    let takes = |source: &Source| output.is_some() && source.mark == 0;
    let written = job.sources.first().filter(|s| takes(s)).map(|_| job.prefix);
    let after = encode::trees(state.db_state(), &before, written);
    if after.iter().map(|tree| tree.runs.len()).sum::<usize>() > RUNS {
        return Told::Overfull;
    }
    let told = lay_jobs(jobs, &state.compactions().value, &rows);
    debug_assert_eq!(told, Told::Answered(Answer::Jobs(rows.len())));
    trees.lay(&after);
    let compaction = state.compactions().value.get(&decode::ulid(id));
    let status = compaction.expect("finishing keeps the job").status();
    Told::Answered(match encode::status(status) {
        4 => Answer::Committed,
        5 => Answer::SegmentMissing,
        other => panic!("finishing left status {other}"),
    })
}

fn assert_untouched(state: &CompactorState, trees: &[Tree], jobs: &[Job]) {
    let compactions = &state.compactions().value;
    let rows: Vec<Job> = compactions
        .iter()
        .map(|c| encode::job(c, &jobs[c.bytes_processed() as usize]))
        .collect();
    assert_eq!(rows, jobs, "no such job, yet the jobs changed");
    assert_eq!(encode::trees(state.db_state(), trees, None), trees);
}

/// The least time of one planning call of several, the tables being slatedb's own types before the clock starts. Nothing
/// for the other calls.
pub fn time_plan(case: &Case) -> Option<Duration> {
    let Case::Plan {
        trees,
        jobs,
        options,
        ..
    } = case
    else {
        return None;
    };
    let scheduler = decode::scheduler(options);
    let view = decode::view(&trees.rows(), &jobs.rows());
    let begin = Instant::now();
    let mut least = Duration::MAX;
    while begin.elapsed() < Duration::from_millis(400) {
        let start = Instant::now();
        black_box(scheduler.propose(black_box(&view)));
        least = least.min(start.elapsed());
    }
    Some(least)
}
