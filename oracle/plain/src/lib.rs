//! 01's seven calls over the lent tables in plain Rust: scans, no heap, no panic. Written from 01 alone. It is the second
//! judge beside slatedb's own code, and the program that speed is measured against.
//!
//! A call answers `Err` with 01's refusal number and then has changed nothing.
mod checks;
mod finish;
mod jobs;
mod limit;
mod plan;
mod validate;

use lent::{Answer, Case};

pub use finish::{drain, finish, Finished};
pub use jobs::{add, merge, retain};
pub use limit::limit;
pub use plan::{plan, Planned};
pub use validate::validate;

/// A refusal number of 01.
pub type Refusal = u32;

/// Does the call on the tables of the case.
pub fn ask(case: &mut Case) -> Answer {
    answer(case).unwrap_or_else(Answer::Refused)
}

fn answer(case: &mut Case) -> Result<Answer, Refusal> {
    Ok(match case {
        Case::Plan {
            trees,
            jobs,
            options,
            plan: place,
        } => {
            let Planned { specs, passes } = plan(trees, jobs, *options, place)?;
            Answer::Planned { specs, passes }
        }
        Case::Validate { trees, spec } => {
            validate(trees, spec)?;
            Answer::Accepted
        }
        Case::Add { jobs, job } => Answer::Jobs(add(jobs, job)?),
        Case::Merge { local, remote } => Answer::Jobs(merge(local, remote)?),
        Case::Retain { jobs } => Answer::Jobs(retain(jobs)?),
        Case::Finish {
            trees,
            jobs,
            id,
            output,
        } => finish(trees, jobs, *id, *output)?.into(),
        Case::Drain { trees, jobs, id } => drain(trees, jobs, *id)?.into(),
    })
}

impl From<Finished> for Answer {
    fn from(finished: Finished) -> Self {
        match finished {
            Finished::Committed => Answer::Committed,
            Finished::SegmentMissing => Answer::SegmentMissing,
        }
    }
}
