//! The smallest input that still shows a difference.
use lent::{refusals, Case, Job, Jobs, LoneJob, LoneSpec, Sources, Tree, Trees};

/// Takes rows away and makes numbers small while the case stays bad. A damaged case stays as it is: its rows cannot be read.
pub fn smallest(mut case: Case, is_bad: impl Fn(&Case) -> bool) -> Case {
    while !matches!(refusals::lacking(&case), Some(1 | 2)) {
        match smaller(&case).into_iter().find(|next| is_bad(next)) {
            Some(next) => case = next,
            None => break,
        }
    }
    case
}

/// The cases that are a step smaller.
fn smaller(case: &Case) -> Vec<Case> {
    let mut steps = Vec::new();
    let mut step = |change: &dyn Fn(&mut Case)| {
        let mut next = case.clone();
        change(&mut next);
        if next != *case {
            steps.push(next);
        }
    };
    match case {
        Case::Plan { trees, jobs, .. }
        | Case::Finish { trees, jobs, .. }
        | Case::Drain { trees, jobs, .. } => {
            for rows in fewer_trees(&trees.rows()) {
                step(&|next| lay_trees(next, &rows));
            }
            for rows in fewer_jobs(&jobs.rows()) {
                step(&|next| lay_jobs(next, &rows));
            }
        }
        Case::Validate { trees, spec } => {
            for rows in fewer_trees(&trees.rows()) {
                step(&|next| lay_trees(next, &rows));
            }
            for k in 0..spec.sources.marks.len() {
                step(&|next| {
                    if let Case::Validate { spec, .. } = next {
                        without_source(spec, k);
                    }
                });
            }
        }
        Case::Add { jobs, job } => {
            for rows in fewer_jobs(&jobs.rows()) {
                step(&|next| lay_jobs(next, &rows));
            }
            for k in 0..job.spec.sources.marks.len() {
                step(&|next| {
                    if let Case::Add {
                        job: LoneJob { spec, .. },
                        ..
                    } = next
                    {
                        without_source(spec, k);
                    }
                });
            }
        }
        Case::Retain { jobs } => {
            for rows in fewer_jobs(&jobs.rows()) {
                step(&|next| lay_jobs(next, &rows));
            }
        }
        Case::Merge { local, remote } => {
            for rows in fewer_jobs(&local.rows()) {
                step(&|next| lay_jobs(next, &rows));
            }
            for rows in fewer_jobs(&remote.rows()) {
                step(&|next| {
                    if let Case::Merge { remote, .. } = next {
                        *remote = Jobs::holding(&rows, 0);
                    }
                });
            }
        }
    }
    steps
}

fn lay_trees(case: &mut Case, rows: &[Tree]) {
    match case {
        Case::Plan { trees, .. }
        | Case::Validate { trees, .. }
        | Case::Finish { trees, .. }
        | Case::Drain { trees, .. } => *trees = Trees::holding(rows, 0),
        _ => {}
    }
}

fn lay_jobs(case: &mut Case, rows: &[Job]) {
    match case {
        Case::Plan { jobs, .. }
        | Case::Add { jobs, .. }
        | Case::Merge { local: jobs, .. }
        | Case::Retain { jobs }
        | Case::Finish { jobs, .. }
        | Case::Drain { jobs, .. } => *jobs = Jobs::holding(rows, 0),
        Case::Validate { .. } => {}
    }
}

fn without_source(spec: &mut LoneSpec, k: usize) {
    let mut rows = spec.sources.rows();
    rows.remove(k);
    spec.sources = Sources::holding(&rows);
}

fn fewer_trees(trees: &[Tree]) -> Vec<Vec<Tree>> {
    let mut all = Vec::new();
    let mut with = |i: usize, change: &dyn Fn(&mut Tree)| {
        let mut next = trees.to_vec();
        change(&mut next[i]);
        all.push(next);
    };
    for (i, tree) in trees.iter().enumerate() {
        for k in 0..tree.l0.len() {
            with(i, &|tree| {
                tree.l0.remove(k);
            });
            with(i, &|tree| tree.l0[k].size = tree.l0[k].size.min(1));
        }
        for k in 0..tree.runs.len() {
            with(i, &|tree| {
                tree.runs.remove(k);
            });
            with(i, &|tree| tree.runs[k].size = tree.runs[k].size.min(1));
        }
        with(i, &|tree| tree.watermark = Default::default());
    }
    // the root stays
    for i in 1..trees.len() {
        let mut next = trees.to_vec();
        next.remove(i);
        all.push(next);
    }
    all
}

fn fewer_jobs(jobs: &[Job]) -> Vec<Vec<Job>> {
    let mut all = Vec::new();
    for i in 0..jobs.len() {
        let mut next = jobs.to_vec();
        next.remove(i);
        all.push(next);
        for k in 0..jobs[i].sources.len() {
            let mut next = jobs.to_vec();
            next[i].sources.remove(k);
            all.push(next);
        }
    }
    all
}
