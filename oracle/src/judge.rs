//! One case before all judges: slatedb's own code, `plain`, and the library where it is linked.
use lent::{refusals, Answer, Case};
use slatedb::Told;

use crate::known;
#[cfg(feature = "library")]
use crate::library;

pub enum Verdict {
    /// All judges agree in the answer and in every number of every slice.
    Same,
    /// slatedb's code does otherwise, in a way that has a name; 01 and the other judges agree.
    Known(&'static str),
    /// Something that nobody has explained: what it is.
    Unknown(String),
}

pub struct Judged {
    /// What 01 says, by `plain`.
    pub answer: Answer,
    /// The case as `plain` left it.
    pub after: Case,
    pub verdict: Verdict,
}

pub fn judge(case: &Case) -> Judged {
    let mut after = case.clone();
    let answer = plain::ask(&mut after);
    let verdict = verdict(case, answer, &after);
    Judged {
        answer,
        after,
        verdict,
    }
}

fn verdict(case: &Case, answer: Answer, after: &Case) -> Verdict {
    if matches!(answer, Answer::Refused(_)) && after != case {
        return Verdict::Unknown("plain: a refused call changed something".to_string());
    }
    if let Some(difference) = ask_library(case, answer, after) {
        return Verdict::Unknown(difference);
    }
    if let Some(number) = refusals::lacking(case) {
        if answer != Answer::Refused(number) {
            return Verdict::Unknown(format!("the tables are refused {number}"));
        }
        return match known::lacking(case, number) {
            Some(name) => Verdict::Known(name),
            None => Verdict::Unknown("slatedb: a panic without a name".to_string()),
        };
    }
    let mut left = case.clone();
    let told = slatedb::ask(&mut left);
    if told == Told::Absent || (told == Told::Answered(answer) && left == *after) {
        return Verdict::Same;
    }
    match known::difference(case, &told, answer, after) {
        Some(name) => Verdict::Known(name),
        None => Verdict::Unknown(format!("slatedb: {told:?}")),
    }
}

/// What the library does otherwise than `plain`, if anything. It has no known differences: it is held to 01.
#[cfg(feature = "library")]
fn ask_library(case: &Case, answer: Answer, after: &Case) -> Option<String> {
    let mut left = case.clone();
    let told = library::ask(&mut left)?;
    if told != Ok(answer) {
        return Some(format!("library: {told:?}"));
    }
    (left != *after).then(|| "library: the tables differ".to_string())
}

#[cfg(not(feature = "library"))]
fn ask_library(_case: &Case, _answer: Answer, _after: &Case) -> Option<String> {
    None
}
