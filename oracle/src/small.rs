//! Small cases, all of them: every combination of a few rows, marks, numbers and options.
use lent::tables::UNUSED;
use lent::{
    Case, Job, Jobs, LoneJob, LoneSpec, Options, Plan, Run, Source, Tree, Trees, Ulid, View, JOBS,
    SOURCES,
};

/// Hands every small case to `visit`.
pub fn all(visit: &mut dyn FnMut(Case)) {
    plans_of_one_tree(visit);
    plans_of_two_trees(visit);
    validations(visit);
    additions(visit);
    merges(visit);
    retentions(visit);
    finishes(visit);
    shapes_of_trees(visit);
    shapes_of_jobs(visit);
}

/// All lists of up to `most` items.
fn lists<T: Clone>(items: &[T], most: usize) -> Vec<Vec<T>> {
    let mut all = vec![Vec::new()];
    let mut longest = all.clone();
    for _ in 0..most {
        longest = longest
            .iter()
            .flat_map(|list| {
                items
                    .iter()
                    .map(|i| [list.as_slice(), &[i.clone()]].concat())
            })
            .collect();
        all.extend(longest.iter().cloned());
    }
    all
}

/// All ways to leave some items out.
fn parts<T: Clone>(items: &[T]) -> Vec<Vec<T>> {
    let chosen = |set: usize| {
        let members = items.iter().enumerate();
        members
            .filter(move |(i, _)| set >> i & 1 == 1)
            .map(|(_, item)| item.clone())
    };
    (0..1 << items.len())
        .map(|set| chosen(set).collect())
        .collect()
}

fn view(low: u64) -> View {
    View {
        id: (0, low),
        sst: (0, 100 + low),
        size: 1,
    }
}

fn tree(prefix: u32, l0: &[u64], runs: Vec<Run>) -> Tree {
    Tree {
        prefix,
        l0: l0.iter().map(|&low| view(low)).collect(),
        runs,
        ..Tree::default()
    }
}

fn tiered(id: Ulid, status: u8, prefix: u32, sources: &[Source], destination: u32) -> Job {
    Job {
        id,
        status,
        drain: 0,
        prefix,
        destination,
        sources: sources.to_vec(),
    }
}

fn plan(trees: &[Tree], jobs: &[Job], options: Options) -> Case {
    Case::Plan {
        trees: Trees::holding(trees, UNUSED[0]),
        jobs: Jobs::holding(jobs, UNUSED[0]),
        options,
        plan: Plan::unused(JOBS, SOURCES, UNUSED[0]),
    }
}

/// Up to four runs of three sizes, up to three L0 rows, all min and max up to 3, with and without a job.
fn plans_of_one_tree(visit: &mut dyn FnMut(Case)) {
    for sizes in lists(&[1, 2, 5], 4) {
        let ids = (0..sizes.len() as u32).rev();
        let runs: Vec<Run> = ids
            .zip(&sizes)
            .map(|(id, &size)| Run { id, size })
            .collect();
        for l0 in 0..=3 {
            let trees = [tree(0, &[4, 3, 2][..l0], runs.clone())];
            for (min, max) in [(1, 1), (1, 2), (2, 2), (1, 3), (2, 3), (3, 3)] {
                for threshold in [1.0, 2.0, 4.0, f32::NAN] {
                    for jobs in [vec![], vec![tiered((1, 1), 3, 0, &[Source::run(1)], 1)]] {
                        for concurrent in [1, 4] {
                            let options = Options {
                                min,
                                max,
                                concurrent,
                                threshold,
                            };
                            visit(plan(&trees, &jobs, options));
                        }
                    }
                }
            }
        }
    }
}

/// Two trees of up to two rows each, every number of slots, a job that blocks one tree, the other, or neither.
fn plans_of_two_trees(visit: &mut dyn FnMut(Case)) {
    let run = |id| Run { id, size: 10 };
    for counts in lists(&[0, 1, 2], 4) {
        let [l0, runs, other_l0, other_runs] = counts[..] else {
            continue;
        };
        let trees = [
            tree(
                0,
                &[1, 2][..l0],
                [4, 3][..runs].iter().map(|&id| run(id)).collect(),
            ),
            tree(
                7,
                &[3, 4][..other_l0],
                [6, 5][..other_runs].iter().map(|&id| run(id)).collect(),
            ),
        ];
        for (min, max) in [(1, 1), (1, 2), (2, 2)] {
            for concurrent in 0..=4 {
                for prefix in [0, 7, 9] {
                    for status in 0..=5 {
                        // it names a run of each tree and the first fresh number of a table that ends at 6
                        let sources = [Source::run(4), Source::run(6), Source::run(7)];
                        let options = Options {
                            min,
                            max,
                            concurrent,
                            threshold: 1.0,
                        };
                        visit(plan(
                            &trees,
                            &[tiered((0, 1), status, prefix, &sources, 0)],
                            options,
                        ));
                    }
                }
            }
        }
    }
}

/// Sources of up to three entries out of six, good and bad destinations, known and unknown prefixes, both kinds.
fn validations(visit: &mut dyn FnMut(Case)) {
    let runs = |ids: &[u32]| ids.iter().map(|&id| Run { id, size: 1 }).collect();
    let trees = [tree(0, &[1, 2], runs(&[5, 4])), tree(7, &[3], runs(&[6]))];
    let trees = Trees::holding(&trees, UNUSED[0]);
    let entries = [
        Source::view((0, 1)),
        Source::view((0, 2)),
        Source::view((0, 3)),
        Source::run(5),
        Source::run(4),
        Source::run(6),
    ];
    for sources in lists(&entries, 3) {
        for destination in [4, 5, 6] {
            for prefix in [0, 7, 9] {
                for drain in [0, 1] {
                    let job = Job {
                        drain,
                        ..tiered((0, 0), 0, prefix, &sources, destination)
                    };
                    visit(Case::Validate {
                        trees: trees.clone(),
                        spec: LoneSpec::of(&job),
                    });
                }
            }
        }
    }
}

/// Jobs of both kinds, two prefixes and two destinations, at these statuses.
fn some_jobs(statuses: &[u8]) -> Vec<Job> {
    let mut jobs = Vec::new();
    for &status in statuses {
        for drain in [0, 1] {
            for prefix in [0, 7] {
                for destination in [3, 4] {
                    // as many sources as the kind, so that replacing one by another frees places
                    let sources = [Source::run(8), Source::view((9, 9))];
                    jobs.push(Job {
                        drain,
                        ..tiered(
                            (0, 0),
                            status,
                            prefix,
                            &sources[..drain as usize + 1],
                            destination,
                        )
                    });
                }
            }
        }
    }
    jobs
}

/// Up to two jobs there, and a job of each kind and status added before, at, between and behind them.
fn additions(visit: &mut dyn FnMut(Case)) {
    let mut tables = vec![vec![]];
    for first in some_jobs(&[0, 1, 2, 3, 4, 5]) {
        let first = Job {
            id: (0, 2),
            ..first
        };
        tables.push(vec![first.clone()]);
        if first.status == 3 || first.status == 4 {
            for second in some_jobs(&[3, 5]) {
                let second = Job {
                    id: (0, 4),
                    ..second
                };
                tables.push(vec![first.clone(), second]);
            }
        }
    }
    for table in tables {
        for job in some_jobs(&[0, 5]) {
            for low in 1..=5 {
                visit(Case::Add {
                    jobs: Jobs::holding(&table, UNUSED[0]),
                    job: LoneJob::of(&Job {
                        id: (0, low),
                        ..job.clone()
                    }),
                });
            }
        }
    }
}

/// Two ids, each absent or at any status, here and there.
fn merges(visit: &mut dyn FnMut(Case)) {
    let absent_or: Vec<Option<u8>> = (0..6).map(Some).chain([None]).collect();
    let mut tables = Vec::new();
    for &first in &absent_or {
        for &second in &absent_or {
            tables.push([(1, first), (2, second)]);
        }
    }
    let hold = |table: &[(u64, Option<u8>); 2], sources: &[Source], destination| {
        let jobs: Vec<Job> = table
            .iter()
            .filter_map(|&(low, status)| Some(tiered((0, low), status?, 0, sources, destination)))
            .collect();
        Jobs::holding(&jobs, UNUSED[0])
    };
    for local in &tables {
        for remote in &tables {
            visit(Case::Merge {
                local: hold(local, &[Source::run(1), Source::run(2)], 2),
                remote: hold(remote, &[Source::view((5, 5))], 3),
            });
        }
    }
}

/// Up to five jobs at all statuses.
fn retentions(visit: &mut dyn FnMut(Case)) {
    for statuses in lists(&[0, 1, 2, 3, 4, 5], 5) {
        let jobs: Vec<Job> = statuses
            .iter()
            .zip(1..)
            .map(|(&status, low)| tiered((0, low), status, 0, &[Source::run(low as u32)], 0))
            .collect();
        visit(Case::Retain {
            jobs: Jobs::holding(&jobs, UNUSED[0]),
        });
    }
}

/// Every part of two L0 rows and three runs, beside another tree; up to two sources out of six; every output around the runs.
/// The same jobs as drains.
fn finishes(visit: &mut dyn FnMut(Case)) {
    let entries = [
        Source::view((0, 1)),
        Source::view((0, 2)),
        Source::view((0, 9)),
        Source::run(4),
        Source::run(2),
        Source::run(5),
    ];
    let all_sources = lists(&entries, 2);
    for l0 in parts(&[1, 2]) {
        for runs in parts(&[4, 3, 2]) {
            let runs = runs.iter().map(|&id| Run { id, size: 10 }).collect();
            let other = tree(7, &[9], vec![Run { id: 9, size: 1 }]);
            let trees = Trees::holding(&[tree(0, &l0, runs), other], UNUSED[0]);
            for sources in &all_sources {
                for prefix in [0, 7, 8] {
                    for destination in [2, 3, 5] {
                        let job = tiered((0, 1), 2, prefix, sources, destination);
                        let jobs = Jobs::holding(&[job.clone()], UNUSED[0]);
                        for id in [1, 2, 3, 4, 5, 9] {
                            visit(Case::Finish {
                                trees: trees.clone(),
                                jobs: jobs.clone(),
                                id: (0, 1),
                                output: Run { id, size: 77 },
                            });
                        }
                        let jobs = Jobs::holding(&[Job { drain: 1, ..job }], UNUSED[0]);
                        visit(Case::Drain {
                            trees: trees.clone(),
                            jobs,
                            id: (0, 1),
                        });
                    }
                }
            }
        }
    }
}

/// Two trees with every choice of prefixes, run ids (two and one), L0 ids (one and one) and watermark marks: what refusal 2
/// speaks of, good and bad.
fn shapes_of_trees(visit: &mut dyn FnMut(Case)) {
    let job = tiered((0, 0), 0, 0, &[Source::run(1)], 1);
    let of_length = |items: &[u32], length| {
        let all = lists(items, length).into_iter();
        all.filter(move |list| list.len() == length)
    };
    for prefixes in of_length(&[0, 7], 2) {
        for ids in of_length(&[1, 2, 3], 3) {
            let run = |&id: &u32| Run { id, size: 1 };
            for l0 in of_length(&[1, 2], 2) {
                for marks in of_length(&[0, 1, 2], 2) {
                    let root_runs = ids[..2].iter().map(run).collect();
                    let other_runs = ids[2..].iter().map(run).collect();
                    let mut root = tree(prefixes[0], &[l0[0].into()], root_runs);
                    let mut other = tree(prefixes[1], &[l0[1].into()], other_runs);
                    root.watermark.sst_mark = marks[0] as u8;
                    other.watermark.view_mark = marks[1] as u8;
                    visit(Case::Validate {
                        trees: Trees::holding(&[root, other], UNUSED[1]),
                        spec: LoneSpec::of(&job),
                    });
                }
            }
        }
    }
}

/// Two jobs with every order of ids, and marks and statuses up to one too many; and such a job to be added.
fn shapes_of_jobs(visit: &mut dyn FnMut(Case)) {
    for first in 1..=3 {
        for status in 0..=6 {
            for drain in 0..=2 {
                for mark in 0..=2 {
                    let source = Source {
                        mark,
                        ..Source::run(9)
                    };
                    let job = Job {
                        drain,
                        ..tiered((0, 2), status, 0, &[source], 5)
                    };
                    let other = tiered((0, first), 4, 0, &[Source::run(1)], 6);
                    visit(Case::Retain {
                        jobs: Jobs::holding(&[other.clone(), job.clone()], UNUSED[1]),
                    });
                    visit(Case::Add {
                        jobs: Jobs::holding(&[other], UNUSED[1]),
                        job: LoneJob::of(&job),
                    });
                    visit(Case::Merge {
                        local: Jobs::unused(UNUSED[1]),
                        remote: Jobs::holding(&[job], UNUSED[1]),
                    });
                }
            }
        }
    }
}
