//! Cases and answers as lines of text: written, and read back. The head of differences.txt describes the form.
use lent::tables::UNUSED;
use lent::{
    Answer, Case, Job, Jobs, LoneJob, LoneSpec, Options, Plan, Run, Source, Tree, Trees, Ulid,
    View, Watermark, JOBS, SOURCES,
};

// ---- writing

fn ulid((high, low): Ulid) -> String {
    match high {
        0 => low.to_string(),
        _ => format!("{high}.{low}"),
    }
}

fn list(items: impl Iterator<Item = String>) -> String {
    items.collect::<Vec<_>>().join(",")
}

fn run(run: &Run) -> String {
    format!("{}*{}", run.id, run.size)
}

fn source(source: &Source) -> String {
    match source.mark {
        1 => format!("r{}", source.run),
        _ => format!("v{}", ulid(source.view)),
    }
}

fn spec(job: &Job) -> String {
    let sources = list(job.sources.iter().map(source));
    match job.drain {
        1 => format!("{}!:{sources}", job.prefix),
        _ => format!("{}>{}:{sources}", job.prefix, job.destination),
    }
}

fn job(job: &Job) -> String {
    format!("{}/{}/{}", ulid(job.id), job.status, spec(job))
}

fn watermark(mark: &Watermark) -> String {
    let part = |present: u8, id| match present {
        1 => ulid(id),
        _ => "-".to_string(),
    };
    match (mark.view_mark, mark.sst_mark) {
        (0, 0) => String::new(),
        _ => format!(
            "{},{}",
            part(mark.view_mark, mark.view),
            part(mark.sst_mark, mark.sst)
        ),
    }
}

fn tree(tree: &Tree) -> String {
    let view = |v: &View| format!("{}~{}*{}", ulid(v.id), ulid(v.sst), v.size);
    format!(
        "t{}:{};{};{}",
        tree.prefix,
        list(tree.l0.iter().map(view)),
        list(tree.runs.iter().map(run)),
        watermark(&tree.watermark)
    )
}

fn all_trees(trees: &Trees) -> String {
    trees
        .rows()
        .iter()
        .map(|t| format!(" {}", tree(t)))
        .collect()
}

fn all_jobs(letter: char, jobs: &Jobs) -> String {
    jobs.rows()
        .iter()
        .map(|j| format!(" {letter}{}", job(j)))
        .collect()
}

/// The case up to the `=`. Only for tables that are refused neither 1 nor 2.
pub fn case(case: &Case) -> String {
    let lent = match case {
        Case::Plan {
            trees,
            jobs,
            options: o,
            ..
        } => format!(
            " o{},{},{},{:x}{}{}",
            o.min,
            o.max,
            o.concurrent,
            o.threshold.to_bits(),
            all_trees(trees),
            all_jobs('j', jobs)
        ),
        Case::Validate { trees, spec: lone } => {
            let alone = Job {
                drain: lone.drain,
                prefix: lone.prefix,
                destination: lone.destination,
                sources: lone.sources.rows(),
                ..Job::default()
            };
            format!("{} s{}", all_trees(trees), spec(&alone))
        }
        Case::Add { jobs, job: new } => format!("{} n{}", all_jobs('j', jobs), job(&new.row())),
        Case::Merge { local, remote } => {
            format!("{}{}", all_jobs('j', local), all_jobs('k', remote))
        }
        Case::Retain { jobs } => all_jobs('j', jobs),
        Case::Finish {
            trees,
            jobs,
            id,
            output,
        } => format!(
            "{}{} i{} u{}",
            all_trees(trees),
            all_jobs('j', jobs),
            ulid(*id),
            run(output)
        ),
        Case::Drain { trees, jobs, id } => {
            format!("{}{} i{}", all_trees(trees), all_jobs('j', jobs), ulid(*id))
        }
    };
    format!("{}{lent}", case.kind().name())
}

/// The answer, with what the call left.
pub fn answer(answer: Answer, after: &Case) -> String {
    match (answer, after) {
        (Answer::Refused(number), _) => format!("no {number}"),
        (Answer::Accepted, _) => "ok".to_string(),
        (Answer::SegmentMissing, _) => "missing".to_string(),
        (Answer::Planned { specs, passes }, Case::Plan { plan, .. }) => {
            format!("{passes}{}", planned(plan, specs))
        }
        (
            Answer::Jobs(count),
            Case::Add { jobs, .. } | Case::Retain { jobs } | Case::Merge { local: jobs, .. },
        ) => format!("{count}{}", all_jobs('j', jobs)),
        (
            Answer::Committed,
            Case::Finish {
                trees, jobs, id, ..
            }
            | Case::Drain { trees, jobs, id },
        ) => {
            let jobs = jobs.rows();
            let done = jobs.iter().find(|job| job.id == *id);
            let rows = trees.rows();
            let mut rows = rows.iter();
            let its = rows.find(|tree| done.is_some_and(|job| job.prefix == tree.prefix));
            format!(
                "done {}",
                tree(its.expect("what was committed is in a tree"))
            )
        }
        _ => unreachable!("a call answers in its own way"),
    }
}

fn planned(plan: &Plan, specs: usize) -> String {
    let mut entry = 0;
    let rows = plan.specs[..3 * specs].chunks_exact(3).map(|row| {
        let end = entry + row[2] as usize;
        let made = Job {
            prefix: row[0],
            destination: row[1],
            sources: (entry..end).map(|e| plan.sources.row(e)).collect(),
            ..Job::default()
        };
        entry = end;
        format!(" {}", spec(&made))
    });
    rows.collect()
}

// ---- reading

fn read_ulid(text: &str) -> Option<Ulid> {
    match text.split_once('.') {
        Some((high, low)) => Some((high.parse().ok()?, low.parse().ok()?)),
        None => Some((0, text.parse().ok()?)),
    }
}

fn read_list<T>(text: &str, read: impl Fn(&str) -> Option<T>) -> Option<Vec<T>> {
    text.split(',')
        .filter(|item| !item.is_empty())
        .map(read)
        .collect()
}

fn read_run(text: &str) -> Option<Run> {
    let (id, size) = text.split_once('*')?;
    Some(Run {
        id: id.parse().ok()?,
        size: size.parse().ok()?,
    })
}

fn read_view(text: &str) -> Option<View> {
    let (id, rest) = text.split_once('~')?;
    let (sst, size) = rest.split_once('*')?;
    Some(View {
        id: read_ulid(id)?,
        sst: read_ulid(sst)?,
        size: size.parse().ok()?,
    })
}

fn read_source(text: &str) -> Option<Source> {
    match text.strip_prefix('r') {
        Some(run) => Some(Source::run(run.parse().ok()?)),
        None => Some(Source::view(read_ulid(text.strip_prefix('v')?)?)),
    }
}

fn read_spec(text: &str) -> Option<Job> {
    let (head, sources) = text.split_once(':')?;
    let (prefix, drain, destination) = match head.split_once('>') {
        Some((prefix, destination)) => (prefix, 0, destination.parse().ok()?),
        None => (head.strip_suffix('!')?, 1, 0),
    };
    Some(Job {
        drain,
        prefix: prefix.parse().ok()?,
        destination,
        sources: read_list(sources, read_source)?,
        ..Job::default()
    })
}

fn read_job(text: &str) -> Option<Job> {
    let mut parts = text.splitn(3, '/');
    let (id, status, spec) = (parts.next()?, parts.next()?, parts.next()?);
    Some(Job {
        id: read_ulid(id)?,
        status: status.parse().ok()?,
        ..read_spec(spec)?
    })
}

fn read_watermark(text: &str) -> Option<Watermark> {
    let Some((view, sst)) = text.split_once(',') else {
        return text.is_empty().then(Watermark::default);
    };
    let part = |text| match text {
        "-" => Some((0, (0, 0))),
        id => Some((1, read_ulid(id)?)),
    };
    let ((view_mark, view), (sst_mark, sst)) = (part(view)?, part(sst)?);
    Some(Watermark {
        view_mark,
        sst_mark,
        view,
        sst,
    })
}

fn read_tree(text: &str) -> Option<Tree> {
    let (prefix, rest) = text.split_once(':')?;
    let mut parts = rest.splitn(3, ';');
    let (l0, runs, mark) = (parts.next()?, parts.next()?, parts.next()?);
    Some(Tree {
        prefix: prefix.parse().ok()?,
        watermark: read_watermark(mark)?,
        l0: read_list(l0, read_view)?,
        runs: read_list(runs, read_run)?,
    })
}

fn read_options(text: &str) -> Option<Options> {
    let parts: Vec<&str> = text.split(',').collect();
    let [min, max, concurrent, bits] = parts.as_slice() else {
        return None;
    };
    Some(Options {
        min: min.parse().ok()?,
        max: max.parse().ok()?,
        concurrent: concurrent.parse().ok()?,
        threshold: f32::from_bits(u32::from_str_radix(bits, 16).ok()?),
    })
}

/// A case from a line up to its `=`, and what stands behind it.
pub fn read(line: &str) -> Option<(Case, &str)> {
    let (lent, answer) = line.split_once(" = ")?;
    let mut fields = lent.split(' ');
    let call = fields.next()?;
    let fields: Vec<&str> = fields.collect();
    // the fields that begin with a letter, without it
    let with = |letter: char| fields.iter().filter_map(move |f| f.strip_prefix(letter));
    let table = |letter: char| -> Option<Jobs> {
        let rows = with(letter).map(read_job).collect::<Option<Vec<Job>>>()?;
        Some(Jobs::holding(&rows, UNUSED[0]))
    };
    let jobs = table('j')?;
    let rows = with('t').map(read_tree).collect::<Option<Vec<Tree>>>()?;
    let trees = Trees::holding(&rows, UNUSED[0]);
    let id = || read_ulid(with('i').next()?);
    let case = match call {
        "plan" => Case::Plan {
            trees,
            jobs,
            options: read_options(with('o').next()?)?,
            plan: Plan::unused(JOBS, SOURCES, UNUSED[0]),
        },
        "validate" => Case::Validate {
            trees,
            spec: LoneSpec::of(&read_spec(with('s').next()?)?),
        },
        "add" => Case::Add {
            jobs,
            job: LoneJob::of(&read_job(with('n').next()?)?),
        },
        "merge" => Case::Merge {
            local: jobs,
            remote: table('k')?,
        },
        "retain" => Case::Retain { jobs },
        "finish" => Case::Finish {
            trees,
            jobs,
            id: id()?,
            output: read_run(with('u').next()?)?,
        },
        "drain" => Case::Drain {
            trees,
            jobs,
            id: id()?,
        },
        _ => return None,
    };
    Some((case, answer))
}
