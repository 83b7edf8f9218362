//! Cases and answers as lines of numbers, for a program that reads no more than that.
//!
//! A line is a call's letter, the refusal or 0, and a mark: = where slatedb's own code answers so, ~ where 01 decides otherwise
//! (docs/DIFFERENCES.md). Then comes what the call is lent, and what it answers and leaves. Numbers are hexadecimal.
//!   a list     numbers, ended by /
//!   trees      the byte of unused places, the count, seven lists: trees, watermark marks, watermarks, L0 ids, L0 sizes, run
//!              ids, run sizes. Every slice is lent at its capacity; the places behind a list's numbers are unused
//!   jobs       the byte, the count, six lists: ids, marks, specs, source marks, source runs, source views
//!   a spec     drain, prefix, destination, and for source marks, runs and views the length lent and a list
//!   changes    for each slice that the call may change a list of places and their new numbers; all others are as they were
//!   p          plan: min, max, concurrent, the threshold's bits, trees, jobs, the byte of the plan's unused places, and for
//!              specs, marks, runs and views the length lent and a list; specs and passes, changes of these four
//!   v          validate: trees, a spec
//!   a          add: jobs, the id's two words, status, a spec; the count, changes of the jobs
//!   m          merge: jobs, remote jobs; the count, changes of the jobs
//!   r          retain: jobs; the count, changes
//!   f          finish: trees, jobs, the id, the output's number and size; 1 where the segment is missing, changes of the
//!              trees and of the jobs' marks
//!   d          drain: trees, jobs, the id; the same
use std::fmt::Write;

use lent::tables::UNUSED;
use lent::{
    Answer, Case, Jobs, LoneSpec, Plan, Sources, Trees, JOBS, L0_ROWS, RUNS, SOURCES, TREES,
};

/// The places that the reader has for the sources of a spec by itself.
const ALONE: usize = 1100;

/// The numbers of a slice, and how many bytes each has.
struct Slice {
    numbers: Vec<u64>,
    bytes: u32,
}

fn of_u8(slice: &[u8]) -> Slice {
    Slice {
        numbers: slice.iter().map(|&n| n.into()).collect(),
        bytes: 1,
    }
}

fn of_u32(slice: &[u32]) -> Slice {
    Slice {
        numbers: slice.iter().map(|&n| n.into()).collect(),
        bytes: 4,
    }
}

fn of_u64(slice: &[u64]) -> Slice {
    Slice {
        numbers: slice.to_vec(),
        bytes: 8,
    }
}

fn sources(s: &Sources) -> [Slice; 3] {
    [of_u8(&s.marks), of_u32(&s.runs), of_u64(&s.views)]
}

fn trees(t: &Trees) -> Vec<Slice> {
    vec![
        of_u32(&t.trees),
        of_u8(&t.watermark_marks),
        of_u64(&t.watermarks),
        of_u64(&t.l0_ids),
        of_u64(&t.l0_sizes),
        of_u32(&t.run_ids),
        of_u64(&t.run_sizes),
    ]
}

fn jobs(j: &Jobs) -> Vec<Slice> {
    let mut slices = vec![
        of_u64(&j.job_ids),
        of_u8(&j.job_marks),
        of_u32(&j.job_specs),
    ];
    slices.extend(sources(&j.sources));
    slices
}

fn plan(p: &Plan) -> Vec<Slice> {
    let mut slices = vec![of_u32(&p.specs)];
    slices.extend(sources(&p.sources));
    slices
}

/// The slices that a call may change, in the order of their changes.
fn changeable(case: &Case) -> Vec<Slice> {
    match case {
        Case::Plan { plan: p, .. } => plan(p),
        Case::Validate { .. } => Vec::new(),
        Case::Add { jobs: j, .. } | Case::Merge { local: j, .. } | Case::Retain { jobs: j } => {
            jobs(j)
        }
        Case::Finish {
            trees: t, jobs: j, ..
        }
        | Case::Drain {
            trees: t, jobs: j, ..
        } => {
            let mut slices = trees(t);
            slices.push(of_u8(&j.job_marks));
            slices
        }
    }
}

fn lengths(slices: &[Slice]) -> Vec<usize> {
    slices.iter().map(|slice| slice.numbers.len()).collect()
}

fn are_whole(t: &Trees) -> bool {
    let (rows, l0, runs) = (TREES, L0_ROWS, RUNS);
    lengths(&trees(t)) == [3 * rows, 2 * rows, 4 * rows, 4 * l0, l0, runs, runs]
}

fn is_whole(j: &Jobs) -> bool {
    let (rows, entries) = (JOBS, SOURCES);
    lengths(&jobs(j)) == [2 * rows, 2 * rows, 3 * rows, entries, entries, 2 * entries]
}

/// Whether a reader with so many places has room.
fn fits(slices: &[Slice], places: &[usize]) -> bool {
    let lengths = lengths(slices);
    lengths
        .iter()
        .zip(places)
        .all(|(length, most)| length <= most)
}

fn fits_alone(spec: &LoneSpec) -> bool {
    fits(&sources(&spec.sources), &[ALONE, ALONE, 2 * ALONE])
}

/// Whether every table is lent at its capacity, and a plan and a spec at most at what the reader has for them.
pub fn is_sayable(case: &Case) -> bool {
    match case {
        Case::Plan {
            trees,
            jobs,
            plan: p,
            ..
        } => {
            let places = [3 * JOBS, SOURCES, SOURCES, 2 * SOURCES];
            are_whole(trees) && is_whole(jobs) && fits(&plan(p), &places)
        }
        Case::Validate { trees, spec } => are_whole(trees) && fits_alone(spec),
        Case::Add { jobs, job } => is_whole(jobs) && fits_alone(&job.spec),
        Case::Merge { local, remote } => is_whole(local) && is_whole(remote),
        Case::Retain { jobs } => is_whole(jobs),
        Case::Finish { trees, jobs, .. } | Case::Drain { trees, jobs, .. } => {
            are_whole(trees) && is_whole(jobs)
        }
    }
}

/// A line that grows.
struct Line(String);

impl Line {
    fn number(&mut self, n: impl Into<u64>) {
        write!(self.0, "{:x} ", n.into()).expect("a string takes all");
    }

    fn count(&mut self, n: usize) {
        self.number(n as u64);
    }

    fn end(&mut self) {
        self.0.push_str("/ ");
    }

    /// The numbers before the unused places at the end.
    fn list(&mut self, slice: &Slice, unused: u8) {
        let unused = u64::from_ne_bytes([unused; 8]) >> (64 - 8 * slice.bytes);
        let used = slice.numbers.iter().rposition(|&n| n != unused);
        for &n in &slice.numbers[..used.map_or(0, |last| last + 1)] {
            self.number(n);
        }
        self.end();
    }

    /// The byte that leaves the least to say, the count, the lists.
    fn table(&mut self, count: usize, slices: &[Slice]) {
        let said = UNUSED.iter().map(|&unused| {
            let mut line = Line(String::new());
            line.number(unused);
            line.count(count);
            slices.iter().for_each(|slice| line.list(slice, unused));
            line.0
        });
        let shortest = said.min_by_key(String::len);
        self.0.push_str(&shortest.expect("there are bytes"));
    }

    /// Slices whose lengths are not fixed.
    fn lent(&mut self, slices: &[Slice], unused: u8) {
        for slice in slices {
            self.count(slice.numbers.len());
            self.list(slice, unused);
        }
    }

    fn spec(&mut self, spec: &LoneSpec) {
        self.number(spec.drain);
        self.number(spec.prefix);
        self.number(spec.destination);
        // its unused places are not lent
        self.lent(&sources(&spec.sources), 0);
    }

    fn words(&mut self, (high, low): (u64, u64)) {
        self.number(high);
        self.number(low);
    }

    fn case(&mut self, case: &Case) {
        match case {
            Case::Plan {
                trees: t,
                jobs: j,
                options,
                plan: p,
            } => {
                self.number(options.min);
                self.number(options.max);
                self.number(options.concurrent);
                self.number(options.threshold.to_bits());
                self.table(t.count, &trees(t));
                self.table(j.count, &jobs(j));
                let unused = p.sources.marks.last().copied().unwrap_or_default();
                self.number(unused);
                self.lent(&plan(p), unused);
            }
            Case::Validate { trees: t, spec } => {
                self.table(t.count, &trees(t));
                self.spec(spec);
            }
            Case::Add { jobs: j, job } => {
                self.table(j.count, &jobs(j));
                self.words(job.id);
                self.number(job.status);
                self.spec(&job.spec);
            }
            Case::Merge { local, remote } => {
                self.table(local.count, &jobs(local));
                self.table(remote.count, &jobs(remote));
            }
            Case::Retain { jobs: j } => self.table(j.count, &jobs(j)),
            Case::Finish {
                trees: t,
                jobs: j,
                id,
                output,
            } => {
                self.table(t.count, &trees(t));
                self.table(j.count, &jobs(j));
                self.words(*id);
                self.number(output.id);
                self.number(output.size);
            }
            Case::Drain {
                trees: t,
                jobs: j,
                id,
            } => {
                self.table(t.count, &trees(t));
                self.table(j.count, &jobs(j));
                self.words(*id);
            }
        }
    }

    /// The answer's numbers; of a refused call those that stay.
    fn answer(&mut self, answer: Answer, after: &Case) {
        match (answer, after) {
            (Answer::Planned { specs, passes }, _) => {
                self.count(specs);
                self.count(passes);
            }
            (_, Case::Plan { .. }) => self.words((0, 0)),
            (_, Case::Validate { .. }) => {}
            (
                _,
                Case::Add { jobs, .. } | Case::Merge { local: jobs, .. } | Case::Retain { jobs },
            ) => self.count(jobs.count),
            (_, Case::Finish { .. } | Case::Drain { .. }) => {
                self.number(u8::from(answer == Answer::SegmentMissing))
            }
        }
    }

    fn changes(&mut self, before: &Case, after: &Case) {
        for (old, new) in changeable(before).iter().zip(changeable(after)) {
            for (place, &n) in new.numbers.iter().enumerate() {
                if old.numbers[place] != n {
                    self.count(place);
                    self.number(n);
                }
            }
            self.end();
        }
    }
}

/// The case, the answer, and whether slatedb's own code gives it.
pub fn line(case: &Case, answer: Answer, after: &Case, theirs: bool) -> String {
    let mut line = Line(case.kind().name()[..1].to_string() + " ");
    line.number(match answer {
        Answer::Refused(number) => number,
        _ => 0,
    });
    line.0.push_str(if theirs { "= " } else { "~ " });
    line.case(case);
    line.answer(answer, after);
    line.changes(case, after);
    line.0.trim_end().to_string()
}
