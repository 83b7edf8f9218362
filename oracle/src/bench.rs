//! The same tables through the library, `plain` and slatedb's own code, one after the other in one run. slatedb's code is handed
//! its own types, made before the clock starts, and plans only: its other calls change the state they are handed.
use std::hint::black_box;
use std::time::{Duration, Instant};

use lent::{
    Case, Job, Jobs, LoneJob, Options, Plan, Run, Source, Tree, Trees, View, CONCURRENT, JOBS,
    L0_ROWS, RUNS, SOURCES,
};

/// One table to time: `trees` trees that share the rows evenly, `jobs` jobs that share the entries.
struct Size {
    trees: usize,
    l0: usize,
    runs: usize,
    jobs: usize,
    entries: usize,
}

const TYPICAL: Size = Size {
    trees: 4,
    l0: 24,
    runs: 32,
    jobs: 4,
    entries: 24,
};
const LARGEST: Size = Size {
    trees: 32,
    l0: L0_ROWS,
    runs: RUNS,
    jobs: JOBS,
    entries: SOURCES,
};
const ONE_TREE: Size = Size {
    trees: 1,
    ..LARGEST
};

/// L0 rows of size 1 and runs of size 10: every run chains with the next.
fn trees(size: &Size) -> Trees {
    let rows: Vec<Tree> = (0..size.trees)
        .map(|i| Tree {
            prefix: i as u32,
            l0: (0..size.l0 / size.trees).map(|k| view(i, k)).collect(),
            runs: (0..size.runs / size.trees)
                .map(|k| Run {
                    id: (size.runs - i * (size.runs / size.trees) - k) as u32,
                    size: 10,
                })
                .collect(),
            ..Tree::default()
        })
        .collect();
    Trees::holding(&rows, 0)
}

fn view(tree: usize, k: usize) -> View {
    View {
        id: (tree as u64, k as u64),
        sst: (tree as u64, k as u64),
        size: 1,
    }
}

/// Jobs of one status, of runs that are no longer there, each to a destination of its own.
fn jobs(size: &Size, status: u8) -> Jobs {
    let rows: Vec<Job> = (0..size.jobs)
        .map(|i| Job {
            id: (1, i as u64),
            status,
            prefix: (i % size.trees) as u32,
            destination: (1_000_000 + i) as u32,
            sources: (0..size.entries / size.jobs)
                .map(|k| Source::run((2_000_000 + 100 * i + k) as u32))
                .collect(),
            ..Job::default()
        })
        .collect();
    Jobs::holding(&rows, 0)
}

fn plan(size: &Size, min: u32, max: u32) -> Case {
    Case::Plan {
        trees: trees(size),
        jobs: jobs(size, 3),
        options: Options {
            min,
            max,
            concurrent: CONCURRENT,
            threshold: 4.0,
        },
        plan: Plan::unused(CONCURRENT as usize, SOURCES, 0),
    }
}

fn cases() -> Vec<(&'static str, Case)> {
    let full = jobs(&LARGEST, 3);
    let mut other = full.rows();
    other[31].sources.reverse();
    vec![
        ("plan, typical tables", plan(&TYPICAL, 4, 8)),
        ("plan, largest tables, 64 picks", plan(&LARGEST, 4, 8)),
        (
            "plan, largest tables, nothing eligible",
            plan(&LARGEST, 64, 64),
        ),
        ("plan, largest tables in one tree", plan(&ONE_TREE, 4, 8)),
        (
            "add over a job, full table",
            Case::Add {
                job: LoneJob::of(&Job {
                    destination: 3_000_000,
                    ..other[31].clone()
                }),
                jobs: full.clone(),
            },
        ),
        (
            "merge, two full tables",
            Case::Merge {
                local: full.clone(),
                remote: Jobs::holding(&other, 0),
            },
        ),
        (
            "retain, full table, all but one finished",
            Case::Retain {
                jobs: jobs(&LARGEST, 4),
            },
        ),
        (
            "finish, full tables",
            Case::Finish {
                trees: Trees::holding(
                    &trees(&Size {
                        runs: 480,
                        ..LARGEST
                    })
                    .rows(),
                    0,
                ),
                jobs: full,
                id: (1, 63),
                output: Run {
                    id: 4_000_000,
                    size: 1,
                },
            },
        ),
    ]
}

/// The least time of one call of several. Each call starts from the case as it was.
fn time(case: &Case, mut call: impl FnMut(&mut Case)) -> Duration {
    let mut least = Duration::MAX;
    let begin = Instant::now();
    while begin.elapsed() < Duration::from_millis(400) {
        let mut fresh = case.clone();
        let start = Instant::now();
        call(black_box(&mut fresh));
        least = least.min(start.elapsed());
        black_box(&fresh);
    }
    least
}

fn micros(time: Duration) -> f64 {
    time.as_secs_f64() * 1e6
}

/// Prints a line a case: the least time of a call in microseconds, and the others' by the library's.
pub fn print() -> Result<(), String> {
    println!(
        "{:42} {:>10} {:>10} {:>10} {:>7} {:>8}",
        "microseconds a call", "Fiervalun", "plain Rust", "slatedb", "plain/F", "slatedb/F"
    );
    for (name, case) in cases() {
        let mut answered = case.clone();
        let answer = crate::library::ask(&mut answered).ok_or("the archive lacks a call")??;
        if plain::ask(&mut case.clone()) != answer {
            return Err(format!("{name}: the answers differ"));
        }
        let library = time(&case, |c| {
            black_box(crate::library::ask(c).is_some());
        });
        let plain = time(&case, |c| {
            black_box(plain::ask(c));
        });
        let slatedb = slatedb::time_plan(&case);
        let ratio = |other: Duration| micros(other) / micros(library);
        print!(
            "{name:42} {:>10.1} {:>10.1} ",
            micros(library),
            micros(plain)
        );
        match slatedb {
            Some(s) => println!(
                "{:>10.1} {:>7.2} {:>8.2}",
                micros(s),
                ratio(plain),
                ratio(s)
            ),
            None => println!("{:>10} {:>7.2} {:>8}", "-", ratio(plain), "-"),
        }
    }
    Ok(())
}
