//! 01's "Figures to hold to" before all judges. Each says what 01 says.
use lent::tables::UNUSED;
use lent::{
    Answer, Case, Job, Jobs, LoneSpec, Options, Plan, Run, Source, Tree, Trees, View, JOBS, SOURCES,
};

/// The L0 rows of 01's figures.
const A: u64 = 1;
const B: u64 = 2;
const C: u64 = 3;
const D: u64 = 4;

/// Size, threshold, limit.
pub const LIMITS: [(u64, f32, u64); 8] = [
    (16_777_217, 1.0, 16_777_216),
    (16_777_219, 1.0, 16_777_220),
    (u64::MAX, 1.0, u64::MAX),
    (3, 0.5, 1),
    (9, f32::NAN, 0),
    (9, -2.0, 0),
    (0, f32::INFINITY, 0),
    (1, f32::INFINITY, u64::MAX),
];

pub struct Figure {
    pub name: &'static str,
    pub case: Case,
    pub answer: Answer,
    pub left: Left,
}

/// What the call leaves, as far as 01 tells.
pub enum Left {
    /// The specs of a plan: prefix, sources, destination.
    Specs(Vec<(u32, Vec<Source>, u32)>),
    /// The root after a finish: its L0 rows, its runs, and the view of its watermark, if 01 names one.
    Root(Vec<u64>, Vec<u32>, Option<u64>),
    Nothing,
}

impl Left {
    pub fn is_left_by(&self, case: &Case, answer: Answer) -> bool {
        match (self, case) {
            (Left::Nothing, _) => true,
            (Left::Specs(specs), Case::Plan { plan, .. }) => {
                let Answer::Planned { specs: count, .. } = answer else {
                    return false;
                };
                let mut entry = 0;
                let mut rows = plan.specs[..3 * count].chunks_exact(3);
                count == specs.len()
                    && specs.iter().all(|(prefix, sources, destination)| {
                        let named = (entry..entry + sources.len()).map(|e| plan.sources.row(e));
                        entry += sources.len();
                        let row = [*prefix, *destination, sources.len() as u32];
                        rows.next() == Some(&row) && named.eq(sources.iter().copied())
                    })
            }
            (Left::Root(l0, runs, watermark), Case::Finish { trees, .. }) => {
                let root = &trees.rows()[0];
                let mark = root.watermark;
                root.l0.iter().map(|view| view.id.1).eq(l0.iter().copied())
                    && root.runs.iter().map(|run| run.id).eq(runs.iter().copied())
                    && watermark.is_none_or(|low| {
                        (mark.view_mark, mark.view, mark.sst_mark) == (1, (0, low), 1)
                    })
            }
            _ => false,
        }
    }
}

fn runs(rows: &[(u32, u64)]) -> Vec<Run> {
    rows.iter().map(|&(id, size)| Run { id, size }).collect()
}

fn tree(prefix: u32, l0: &[u64], rows: &[(u32, u64)]) -> Tree {
    let view = |&low: &u64| View {
        id: (0, low),
        sst: (0, 100 + low),
        size: 1,
    };
    Tree {
        prefix,
        l0: l0.iter().map(view).collect(),
        runs: runs(rows),
        ..Tree::default()
    }
}

fn views(lows: &[u64]) -> Vec<Source> {
    lows.iter().map(|&low| Source::view((0, low))).collect()
}

fn run_sources(ids: &[u32]) -> Vec<Source> {
    ids.iter().map(|&id| Source::run(id)).collect()
}

fn job(sources: Vec<Source>, destination: u32) -> Job {
    Job {
        id: (0, 1),
        status: 2,
        destination,
        sources,
        ..Job::default()
    }
}

/// "Root: L0 a, b, c, d of size 1, runs 12, 11 of size 100. Segment 7: runs 10, 9 of size 50."
fn cabinet() -> Vec<Tree> {
    vec![
        tree(0, &[A, B, C, D], &[(12, 100), (11, 100)]),
        tree(7, &[], &[(10, 50), (9, 50)]),
    ]
}

/// Options of threshold 4, min 2, max 3.
fn options(concurrent: u32) -> Options {
    Options {
        min: 2,
        max: 3,
        concurrent,
        threshold: 4.0,
    }
}

fn plan(
    name: &'static str,
    trees: &[Tree],
    options: Options,
    answer: Answer,
    left: Left,
) -> Figure {
    Figure {
        name,
        case: Case::Plan {
            trees: Trees::holding(trees, UNUSED[0]),
            jobs: Jobs::unused(UNUSED[0]),
            options,
            plan: Plan::unused(JOBS, SOURCES, UNUSED[0]),
        },
        answer,
        left,
    }
}

fn validation(
    name: &'static str,
    sources: Vec<Source>,
    destination: u32,
    answer: Answer,
) -> Figure {
    Figure {
        name,
        case: Case::Validate {
            trees: Trees::holding(&cabinet(), UNUSED[0]),
            spec: LoneSpec::of(&job(sources, destination)),
        },
        answer,
        left: Left::Nothing,
    }
}

fn finish(
    name: &'static str,
    trees: &[Tree],
    job: Job,
    output: u32,
    answer: Answer,
    left: Left,
) -> Figure {
    Figure {
        name,
        case: Case::Finish {
            trees: Trees::holding(trees, UNUSED[0]),
            jobs: Jobs::holding(&[job], UNUSED[0]),
            id: (0, 1),
            output: Run {
                id: output,
                size: 3,
            },
        },
        answer,
        left,
    }
}

pub fn all() -> Vec<Figure> {
    [plans(), refused_plans(), validations(), finishes()]
        .into_iter()
        .flatten()
        .collect()
}

fn planned(specs: usize, passes: usize) -> Answer {
    Answer::Planned { specs, passes }
}

fn plans() -> Vec<Figure> {
    let spec = |prefix, sources, destination| (prefix, sources, destination);
    let cabinet_specs = [
        spec(0, views(&[B, C, D]), 13),
        spec(7, run_sources(&[10, 9]), 9),
        spec(0, run_sources(&[12, 11]), 11),
    ];
    let specs = |count: usize| Left::Specs(cabinet_specs[..count].to_vec());
    let five: Vec<(u32, u64)> = (1..=5).rev().map(|id| (id, 10)).collect();
    let alike = [tree(0, &[], &[(2, 16_777_217), (1, 16_777_217)])];
    let ratio = |threshold| Options {
        threshold,
        ..options(9)
    };
    let wide = Options {
        max: 64,
        ..options(9)
    };
    vec![
        plan(
            "F = 3: whole plan, passes 2",
            &cabinet(),
            options(3),
            planned(3, 2),
            specs(3),
        ),
        plan(
            "F = 2: the first two, passes 1",
            &cabinet(),
            options(2),
            planned(2, 1),
            specs(2),
        ),
        plan(
            "F = 0: none, passes 0",
            &cabinet(),
            options(0),
            planned(0, 0),
            specs(0),
        ),
        plan(
            "runs 5, 4, 3, 2, 1 of size 10: 3, 2, 1 to 1, alone",
            &[tree(0, &[], &five)],
            options(9),
            planned(1, 1),
            Left::Specs(vec![spec(0, run_sources(&[3, 2, 1]), 1)]),
        ),
        plan(
            "threshold 1: two runs of 16,777,217 don't chain",
            &alike,
            ratio(1.0),
            planned(0, 0),
            Left::Specs(vec![]),
        ),
        plan(
            "runs 100, 10, 1: one chain of three",
            &[tree(0, &[], &[(3, 100), (2, 10), (1, 1)])],
            wide,
            planned(1, 1),
            Left::Specs(vec![spec(0, run_sources(&[3, 2, 1]), 1)]),
        ),
        plan(
            "runs 1, 4, 5: chain of two",
            &[tree(0, &[], &[(3, 1), (2, 4), (1, 5)])],
            wide,
            planned(1, 1),
            Left::Specs(vec![spec(0, run_sources(&[3, 2]), 2)]),
        ),
    ]
}

fn refused_plans() -> Vec<Figure> {
    let big = [(2, u64::MAX), (1, 1)];
    let one = [tree(0, &[], &big)];
    let two = [tree(0, &[], &big[..1]), tree(7, &[], &big[1..])];
    let many: Vec<Tree> = (0..32).map(|prefix| tree(prefix, &[], &[])).collect();
    let mut beyond = plan(
        "33 trees",
        &many,
        options(1),
        Answer::Refused(1),
        Left::Nothing,
    );
    if let Case::Plan { trees, .. } = &mut beyond.case {
        trees.count = 33;
    }
    let none = Options {
        min: 0,
        ..options(1)
    };
    vec![
        plan(
            "2^64 - 1 and 1 in one tree",
            &one,
            options(1),
            Answer::Refused(4),
            Left::Nothing,
        ),
        plan(
            "2^64 - 1 and 1 in two trees",
            &two,
            options(1),
            planned(0, 0),
            Left::Nothing,
        ),
        plan("min 0", &one[..], none, Answer::Refused(3), Left::Nothing),
        plan("32 trees", &many, options(1), planned(0, 0), Left::Nothing),
        beyond,
    ]
}

fn validations() -> Vec<Figure> {
    let crossing = [views(&[D]), run_sources(&[12])].concat();
    vec![
        validation("d, 12 to 12", crossing.clone(), 12, Answer::Accepted),
        validation("d, 12 to 11", crossing, 11, Answer::Refused(9)),
        validation("b, d", views(&[B, D]), 13, Answer::Refused(8)),
        validation("c, d to 11", views(&[C, D]), 11, Answer::Accepted),
    ]
}

fn finishes() -> Vec<Figure> {
    let two = [tree(0, &[], &[(12, 100), (11, 100)])];
    vec![
        finish(
            "b c d to 13: L0 a, runs 13, 12, 11, watermark b",
            &cabinet(),
            job(views(&[B, C, D]), 13),
            13,
            Answer::Committed,
            Left::Root(vec![A], vec![13, 12, 11], Some(B)),
        ),
        finish(
            "12 11 to 11: runs 11",
            &cabinet(),
            job(run_sources(&[12, 11]), 11),
            11,
            Answer::Committed,
            Left::Root(vec![A, B, C, D], vec![11], None),
        ),
        finish(
            "job 11 to 11 with output 12",
            &two,
            job(run_sources(&[11]), 11),
            12,
            Answer::Refused(13),
            Left::Nothing,
        ),
    ]
}
