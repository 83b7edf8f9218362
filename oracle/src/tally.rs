//! What was met, counted: answers by call, known differences by name, and what plans looked like.
use std::collections::BTreeMap;

use lent::{Answer, Case, Kind};

use crate::judge::{Judged, Verdict};
use crate::known;

#[derive(Default)]
pub struct Tally {
    pub cases: u64,
    pub same: u64,
    answers: BTreeMap<(Kind, String), u64>,
    known: BTreeMap<&'static str, u64>,
    plans: BTreeMap<&'static str, u64>,
    pub unknown: u64,
    unknown_by_call: BTreeMap<Kind, u64>,
}

const SEGMENT_MISSING: &str = "segment missing";
const DONE: &str = "done";

fn label(answer: Answer) -> String {
    match answer {
        Answer::Refused(number) => number.to_string(),
        Answer::SegmentMissing => SEGMENT_MISSING.to_string(),
        _ => DONE.to_string(),
    }
}

/// Every answer that 01 gives a call.
fn labels(kind: Kind) -> Vec<String> {
    let mut labels = vec![DONE.to_string()];
    if matches!(kind, Kind::Finish | Kind::Drain) {
        labels.push(SEGMENT_MISSING.to_string());
    }
    labels.extend(kind.refusals().iter().map(u32::to_string));
    labels
}

/// What a plan may be like. Each must be met.
const PLANS: [&str; 9] = [
    "no free slot",
    "no spec",
    "one spec",
    "more specs",
    "more passes than one",
    "L0 picked",
    "runs picked",
    "several trees",
    "destination 4,294,967,295",
];

impl Tally {
    pub fn count(&mut self, case: &Case, judged: &Judged) {
        self.cases += 1;
        *self
            .answers
            .entry((case.kind(), label(judged.answer)))
            .or_default() += 1;
        match &judged.verdict {
            Verdict::Same => self.same += 1,
            Verdict::Known(name) => *self.known.entry(name).or_default() += 1,
            Verdict::Unknown(_) => {
                self.unknown += 1;
                *self.unknown_by_call.entry(case.kind()).or_default() += 1;
            }
        }
        self.count_plan(judged);
    }

    /// Whether few of this call were unexplained so far.
    pub fn is_new(&self, kind: Kind) -> bool {
        self.unknown_by_call
            .get(&kind)
            .is_some_and(|&count| count <= 3)
    }

    fn count_plan(&mut self, judged: &Judged) {
        let (Case::Plan { plan, options, .. }, Answer::Planned { specs, passes }) =
            (&judged.after, judged.answer)
        else {
            return;
        };
        let rows = plan.specs[..3 * specs].chunks_exact(3);
        let entries = rows.clone().map(|spec| spec[2] as usize).sum();
        let marks = &plan.sources.marks[..entries];
        let met = [
            options.concurrent == 0,
            specs == 0,
            specs == 1,
            specs > 1,
            passes > 1,
            marks.contains(&0),
            marks.contains(&1),
            rows.clone().any(|spec| spec[0] != plan.specs[0]),
            rows.clone().any(|spec| spec[1] == u32::MAX),
        ];
        for (name, _) in PLANS.iter().zip(met).filter(|(_, met)| *met) {
            *self.plans.entry(name).or_default() += 1;
        }
    }

    /// Prints all counts, and answers whether none that must be met is zero.
    pub fn print(&self) -> bool {
        let mut complete = true;
        println!("answers by call:");
        for kind in Kind::ALL {
            let mut line = format!("  {:<9}", kind.name());
            for label in labels(kind) {
                let key = (kind, label);
                let count = self.answers.get(&key).copied().unwrap_or(0);
                complete &= count > 0;
                line += &format!(" {}: {count} ", key.1);
            }
            println!("{}", line.trim_end());
        }
        println!("plans:");
        for name in PLANS {
            let count = self.plans.get(name).copied().unwrap_or(0);
            complete &= count > 0;
            println!("  {name}: {count}");
        }
        if slatedb::FOUND.is_empty() {
            return complete;
        }
        println!("known differences:");
        for name in known::NAMES {
            let count = self.known.get(name).copied().unwrap_or(0);
            complete &= count > 0;
            println!("  {name}: {count}");
        }
        complete
    }
}
