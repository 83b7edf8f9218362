//! Random cases around every boundary of 01.
use lent::tables::UNUSED;
use lent::{
    Case, Job, Jobs, Kind, LoneJob, LoneSpec, Options, Plan, Run, Source, Tree, Trees, Ulid, View,
    Watermark, JOBS, L0_ROWS, RUNS, SOURCES, TREES,
};

use crate::damage;
use crate::rng::Rng;

/// How much of the tables is used.
#[derive(Clone, Copy, PartialEq)]
enum Scale {
    Tiny,
    Small,
    Full,
}

/// Thresholds of every class: none, negative, not a number, infinite, just at, below and above 1, tiny, huge.
pub const THRESHOLDS: [f32; 22] = [
    1.0,
    1.5,
    2.0,
    4.0,
    0.0,
    -0.0,
    -2.0,
    -1.0e-30,
    f32::NAN,
    f32::INFINITY,
    f32::NEG_INFINITY,
    0.5,
    0.999_999_94,
    1.000_000_1,
    f32::MIN_POSITIVE,
    1.0e-45,
    1.0e-10,
    5.421_011e-20,  // 2^-64
    1.844_674_4e19, // 2^64
    f32::MAX,
    3.0,
    100.0,
];

const PREFIXES: [u32; 8] = [7, 1, 2, 9, 256, 0x0100_0000, u32::MAX - 1, u32::MAX];
const UNKNOWN_PREFIXES: [u32; 3] = [5, 70_000, u32::MAX - 2];

pub fn case(rng: &mut Rng) -> Case {
    let scale = match rng.below(40) {
        0 => Scale::Full,
        1..=9 => Scale::Small,
        _ => Scale::Tiny,
    };
    let kind = match rng.below(3) {
        0 => Kind::Plan,
        _ => rng.one_of(&Kind::ALL),
    };
    let mut case = World::draw(rng, scale, kind).case(rng, kind);
    if rng.once_in(8) {
        for _ in 0..rng.from_to(1, 3) {
            damage::one(rng, &mut case);
        }
    }
    case
}

/// A small case of this call, damaged once in a while.
pub fn recordable(rng: &mut Rng, kind: Kind) -> Case {
    let mut case = World::draw(rng, Scale::Tiny, kind).case(rng, kind);
    if rng.once_in(6) {
        damage::one(rng, &mut case);
    }
    case
}

/// A case of this call with full tables.
pub fn full(rng: &mut Rng, kind: Kind) -> Case {
    World::draw(rng, Scale::Full, kind).case(rng, kind)
}

struct World {
    scale: Scale,
    trees: Vec<Tree>,
    jobs: Vec<Job>,
    /// what unused places hold
    byte: u8,
}

impl World {
    fn draw(rng: &mut Rng, scale: Scale, kind: Kind) -> World {
        let byte = rng.one_of(&UNUSED);
        let trees = match kind {
            Kind::Add | Kind::Merge | Kind::Retain => trees(rng, Scale::Tiny),
            _ => trees(rng, scale),
        };
        let jobs = match kind {
            Kind::Validate => Vec::new(),
            _ => jobs(rng, scale, &trees),
        };
        World {
            scale,
            trees,
            jobs,
            byte,
        }
    }

    fn case(self, rng: &mut Rng, kind: Kind) -> Case {
        let trees = Trees::holding(&self.trees, self.byte);
        let jobs = Jobs::holding(&self.jobs, self.byte);
        match kind {
            Kind::Plan => {
                let options = options(rng);
                let plan = self.plan(rng, &options);
                Case::Plan {
                    trees,
                    jobs,
                    options,
                    plan,
                }
            }
            Kind::Validate => {
                let mut spec = LoneSpec::of(&self.spec(rng));
                if rng.once_in(40) {
                    spec.sources = long_spec(rng);
                }
                Case::Validate { trees, spec }
            }
            Kind::Add => Case::Add {
                job: LoneJob::of(&self.new_job(rng)),
                jobs,
            },
            Kind::Merge => {
                let remote = self.remote(rng);
                Case::Merge {
                    local: jobs,
                    remote: Jobs::holding(&remote, rng.one_of(&UNUSED)),
                }
            }
            Kind::Retain => Case::Retain { jobs },
            Kind::Finish => {
                let job = self.some_job(rng, |job| job.drain == 0 && !job.sources.is_empty());
                Case::Finish {
                    output: Run {
                        id: self.output(rng, job),
                        size: size(rng),
                    },
                    id: job.map_or((3, 3), |job| job.id),
                    trees,
                    jobs,
                }
            }
            Kind::Drain => Case::Drain {
                id: self
                    .some_job(rng, |job| job.drain == 1)
                    .map_or((3, 3), |job| job.id),
                trees,
                jobs,
            },
        }
    }

    /// A plan with all the places that could be needed, just enough, or too few.
    fn plan(&self, rng: &mut Rng, options: &Options) -> Plan {
        let held = self.jobs.iter().filter(|j| j.holds_slot()).count();
        let free = (options.concurrent as usize).saturating_sub(held);
        let rows: usize = self.trees.iter().map(|t| t.l0.len() + t.runs.len()).sum();
        let (specs, sources) = match rng.below(12) {
            0 => (free.saturating_sub(1), rows),
            1 => (free, rows.saturating_sub(1)),
            2..=4 => (free, rows),
            _ => (JOBS, SOURCES),
        };
        let mut plan = Plan::unused(specs, sources, self.byte);
        // lengths of a plan need not agree
        match rng.below(24) {
            0 => plan.specs.extend([9; 2]),
            1 => plan.sources.views.push(9),
            2 => plan.sources.runs.push(9),
            _ => {}
        }
        plan
    }

    /// A spec to validate: mostly a window with the right destination.
    fn spec(&self, rng: &mut Rng) -> Job {
        let mut job = job(rng, &self.trees, 6);
        job.drain = u8::from(rng.once_in(12));
        if rng.once_in(12) {
            job.prefix = rng.one_of(&UNKNOWN_PREFIXES);
        }
        job
    }

    /// A job to be added: of a known id or a new one, often up to the last place.
    fn new_job(&self, rng: &mut Rng) -> Job {
        let mut job = job(rng, &self.trees, 6);
        job.status = rng.below(6) as u8;
        job.drain = u8::from(rng.once_in(4));
        job.id = match self.jobs.is_empty() || rng.once_in(2) {
            true => ulid(rng),
            false => self.jobs[rng.below(self.jobs.len())].id,
        };
        if rng.once_in(2) {
            job.destination = rng.from_to(100, 10_000) as u32;
        }
        if self.scale == Scale::Full {
            let used: usize = self.jobs.iter().map(|job| job.sources.len()).sum();
            let len = (SOURCES - used + rng.below(3)).saturating_sub(1);
            job.sources = (0..len).map(|_| stray(rng)).collect();
        }
        job
    }

    /// Another job table with many ids of this one.
    fn remote(&self, rng: &mut Rng) -> Vec<Job> {
        let mut remote = jobs(rng, self.scale, &self.trees);
        let taken = rng.from_to(0, self.jobs.len());
        for mine in self.jobs.iter().take(taken) {
            if remote.iter().any(|job| job.id == mine.id) || remote.len() == JOBS {
                continue;
            }
            let mut job = job(rng, &self.trees, 3);
            job.id = mine.id;
            job.status = rng.below(6) as u8;
            remote.push(job);
        }
        cut_to_fit(&mut remote);
        remote.sort_by_key(|job| job.id);
        remote
    }

    /// A job of this kind mostly, else any; sometimes none.
    fn some_job(&self, rng: &mut Rng, is_such: impl Fn(&Job) -> bool) -> Option<&Job> {
        if rng.once_in(20) {
            return None;
        }
        let such: Vec<&Job> = self.jobs.iter().filter(|job| is_such(job)).collect();
        if !such.is_empty() && !rng.once_in(8) {
            return Some(such[rng.below(such.len())]);
        }
        self.jobs.get(rng.below(self.jobs.len()))
    }

    /// The output's number: the destination mostly, else another run's or any.
    fn output(&self, rng: &mut Rng, job: Option<&Job>) -> u32 {
        match rng.below(8) {
            0 => rng.one_of(&[0, 1, u32::MAX - 1, u32::MAX]),
            1 | 2 => run_id(rng, &self.trees),
            3 => rng.next() as u32,
            _ => job.map_or(0, |job| job.destination),
        }
    }
}

fn options(rng: &mut Rng) -> Options {
    let min = rng.one_of(&[1, 1, 2, 2, 2, 3, 4, 64]);
    let more = rng.one_of(&[0, 0, 1, 1, 2, 4, 60]);
    Options {
        min,
        max: (min + more).min(64),
        concurrent: rng.one_of(&[0, 1, 2, 3, 4, 6, 10, 64, 64]),
        threshold: match rng.below(10) {
            0..=3 => rng.one_of(&THRESHOLDS[..4]),
            4..=8 => rng.one_of(&THRESHOLDS),
            _ => f32::from_bits(rng.next() as u32),
        },
    }
}

/// How the sizes of one world are drawn.
fn size_style(rng: &mut Rng, rows: usize) -> impl Fn(&mut Rng) -> u64 {
    let style = rng.below(11);
    let fair = u64::MAX / rows.max(1) as u64;
    move |rng| match style {
        0 | 1 => 10,
        2 => rng.below(6) as u64,
        3 => 1 << rng.below(20),
        4 => (1 << 24) - 2 + rng.below(7) as u64,
        5 => fair - rng.below(3) as u64,
        6 => rng.next() % fair.max(1),
        7 => rng.one_of(&[0, 1, fair]),
        8 => 4u64.pow(rng.below(12) as u32),
        9 => rng.one_of(&[fair, fair.saturating_add(1), 1, 0]),
        _ => rng.next() >> rng.from_to(20, 63),
    }
}

fn size(rng: &mut Rng) -> u64 {
    size_style(rng, 1)(rng)
}

fn ulid(rng: &mut Rng) -> Ulid {
    match rng.below(6) {
        0 => (rng.one_of(&[0, 1, u64::MAX]), rng.one_of(&[0, u64::MAX])),
        1 => (rng.below(3) as u64, rng.below(40) as u64),
        2 => (rng.next(), rng.next()),
        _ => (0, rng.below(200) as u64),
    }
}

/// How many rows a table uses at this scale.
fn rows(rng: &mut Rng, scale: Scale, capacity: usize) -> usize {
    match scale {
        Scale::Tiny => rng.from_to(0, 7),
        Scale::Small => rng.from_to(0, 40.min(capacity)),
        Scale::Full => match rng.below(4) {
            0 => capacity - 1,
            1 => rng.from_to(capacity / 2, capacity),
            _ => capacity,
        },
    }
}

fn trees(rng: &mut Rng, scale: Scale) -> Vec<Tree> {
    let count = match scale {
        Scale::Tiny => rng.from_to(1, 3),
        Scale::Small => rng.from_to(1, PREFIXES.len() + 1),
        Scale::Full => rng.one_of(&[1, 2, 4, 16, TREES - 1, TREES]),
    };
    let mut trees: Vec<Tree> = (0..count)
        .map(|i| Tree {
            prefix: match i {
                0 => 0,
                i => *PREFIXES.get(i - 1).unwrap_or(&(1000 + i as u32)),
            },
            watermark: Watermark {
                view_mark: rng.below(2) as u8,
                sst_mark: rng.below(2) as u8,
                view: ulid(rng),
                sst: ulid(rng),
            },
            ..Tree::default()
        })
        .collect();

    let l0 = rows(rng, scale, L0_ROWS);
    let l0_size = size_style(rng, l0);
    let one_tree = rng.once_in(3);
    let mut seen = std::collections::HashSet::new();
    while seen.len() < l0 {
        let id = match scale {
            Scale::Full => (rng.below(3) as u64, rng.next() % 1000),
            _ => ulid(rng),
        };
        if seen.insert(id) {
            let tree = if one_tree { 0 } else { rng.below(count) };
            trees[tree].l0.push(View {
                id,
                sst: ulid(rng),
                size: l0_size(rng),
            });
        }
    }

    let runs = rows(rng, scale, RUNS);
    let run_size = size_style(rng, runs);
    let one_tree = rng.once_in(3);
    let room = runs + rng.from_to(0, runs / 2 + 3);
    let first = match rng.below(6) {
        0 => u32::MAX - (room as u32).saturating_sub(1),
        1 => u32::MAX - room as u32,
        2 => 1 << 20,
        _ => 0,
    };
    let mut ids: Vec<u32> = (0..room).map(|i| first.saturating_add(i as u32)).collect();
    ids.dedup();
    rng.shuffle(&mut ids);
    ids.truncate(runs);
    ids.sort_by_key(|&id| std::cmp::Reverse(id));
    for id in ids {
        let tree = if one_tree {
            count - 1
        } else {
            rng.below(count)
        };
        trees[tree].runs.push(Run {
            id,
            size: run_size(rng),
        });
    }
    trees
}

/// The number of some run, or one just beside.
fn run_id(rng: &mut Rng, trees: &[Tree]) -> u32 {
    let tree = &trees[rng.below(trees.len())];
    match tree.runs.get(rng.below(tree.runs.len())) {
        Some(run) if rng.once_in(4) => run.id.saturating_add(1),
        Some(run) => run.id,
        None => rng.one_of(&[0, 1, 5, u32::MAX]),
    }
}

/// A source that may or may not be in a tree, with a part that is idle.
fn stray(rng: &mut Rng) -> Source {
    Source {
        mark: rng.below(2) as u8,
        run: rng.below(12) as u32,
        view: ulid(rng),
    }
}

/// The rows of a tree as sources, "L0 then runs, as one list", with idle parts that are no zeros.
fn sources_of(rng: &mut Rng, tree: &Tree) -> Vec<Source> {
    let views = tree.l0.iter().map(|view| Source::view(view.id));
    let runs = tree.runs.iter().map(|run| Source::run(run.id));
    views
        .chain(runs)
        .map(|source| match source.mark {
            1 => Source {
                view: (7, rng.below(3) as u64),
                ..source
            },
            _ => Source {
                run: rng.below(20) as u32,
                ..source
            },
        })
        .collect()
}

/// A job of a tree: mostly a window of its rows into the lowest run. `most`: how many sources at most.
fn job(rng: &mut Rng, trees: &[Tree], most: usize) -> Job {
    let tree = &trees[rng.below(trees.len())];
    let mut sources = sources_of(rng, tree);
    match rng.below(10) {
        0 => sources.clear(),
        1 => {
            rng.shuffle(&mut sources);
            sources.truncate(rng.from_to(1, most));
        }
        2 => sources = (0..rng.from_to(0, most)).map(|_| stray(rng)).collect(),
        _ => {
            let first = rng.below(sources.len());
            sources.drain(..first.min(sources.len()));
            sources.truncate(rng.from_to(1, most));
        }
    }
    if rng.once_in(12) && !sources.is_empty() {
        let again = sources[rng.below(sources.len())];
        sources.push(again);
    }
    let lowest = sources.iter().filter(|s| s.mark == 1).map(|s| s.run).min();
    Job {
        prefix: tree.prefix,
        destination: match (lowest, rng.below(6)) {
            (Some(lowest), 1..) => lowest,
            (_, 1) => rng.one_of(&[0, u32::MAX, u32::MAX - 1]),
            (_, 2 | 3) => 20 + rng.below(6) as u32,
            _ => run_id(rng, trees),
        },
        sources,
        ..Job::default()
    }
}

fn jobs(rng: &mut Rng, scale: Scale, trees: &[Tree]) -> Vec<Job> {
    let count = match scale {
        Scale::Tiny => rng.from_to(0, 4),
        Scale::Small => rng.from_to(0, 16),
        Scale::Full => rng.one_of(&[JOBS, JOBS, JOBS - 1, 20]),
    };
    let drains = rng.from_to(2, 6);
    let mut ids = std::collections::BTreeSet::new();
    while ids.len() < count {
        ids.insert(ulid(rng));
    }
    // full tables: the jobs share all source entries, or all but a few
    let total = SOURCES - rng.one_of(&[0, 0, 1, 5]);
    let statuses = rng.one_of(&[6, 6, 4, 3]);
    let mut jobs: Vec<Job> = ids
        .into_iter()
        .enumerate()
        .map(|(i, id)| {
            let mut job = job(rng, trees, 5);
            job.id = id;
            job.status = rng.below(statuses) as u8;
            job.drain = u8::from(rng.once_in(drains));
            if rng.once_in(8) {
                job.prefix = rng.one_of(&UNKNOWN_PREFIXES);
            }
            if scale == Scale::Full {
                let share = total / count + usize::from(i < total % count);
                job.sources.truncate(share);
                while job.sources.len() < share {
                    job.sources.push(stray(rng));
                }
            }
            job
        })
        .collect();
    cut_to_fit(&mut jobs);
    jobs
}

/// Takes sources away from the last jobs until the entries fit.
fn cut_to_fit(jobs: &mut [Job]) {
    let mut left = SOURCES;
    for job in jobs {
        job.sources.truncate(left);
        left -= job.sources.len();
    }
}

/// "The length of a spec to validate has no bound of its own".
fn long_spec(rng: &mut Rng) -> lent::Sources {
    let rows: Vec<Source> = (0..rng.from_to(1000, 1100)).map(|_| stray(rng)).collect();
    lent::Sources::holding(&rows)
}
