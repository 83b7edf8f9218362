//! Recorded answers: a fixed list of cases with what slatedb's code answers, for a program that cannot ask it itself.
use std::collections::{BTreeMap, BTreeSet};

use lent::{Answer, Case, Kind};

use crate::judge::{judge, Judged, Verdict};
use crate::{draw, figures, flat, rng};

/// How many cases of a call that are answered are recorded at most, and how long their lines may be.
const ANSWERED: [(Kind, usize, usize); 7] = [
    (Kind::Plan, 500, 480),
    (Kind::Validate, 150, 300),
    (Kind::Add, 200, 300),
    (Kind::Merge, 200, 300),
    (Kind::Retain, 60, 300),
    (Kind::Finish, 250, 300),
    (Kind::Drain, 120, 300),
];
/// How many of each refusal of a call, of missing segments, and of plans that propose nothing.
const OTHERS: usize = 25;
/// How many cases of a call are drawn, and how many with full tables.
const DRAWN: usize = 10_000;
const FULL: usize = 60;

/// The fixed list.
fn lines() -> Result<Vec<String>, String> {
    let mut lines = Vec::new();
    for figure in figures::all() {
        if flat::is_sayable(&figure.case) {
            lines.push(told(&figure.case, judge(&figure.case))?);
        }
    }
    for (kind, answered, longest) in ANSWERED {
        let mut met = BTreeMap::new();
        small(kind, answered, longest, &mut met, &mut lines)?;
        full(kind, &mut met, &mut lines)?;
        if let Some(number) = kind
            .refusals()
            .iter()
            .find(|&&n| !met.contains_key(&Answer::Refused(n)))
        {
            return Err(format!("{} is never refused {number}", kind.name()));
        }
    }
    Ok(lines)
}

/// Small cases, damaged ones among them, until there are enough of each answer.
fn small(
    kind: Kind,
    answered: usize,
    longest: usize,
    met: &mut BTreeMap<Answer, usize>,
    lines: &mut Vec<String>,
) -> Result<(), String> {
    let mut rng = rng::Rng::new(1);
    let mut said = BTreeSet::new();
    for _ in 0..DRAWN {
        let case = draw::recordable(&mut rng, kind);
        let judged = judge(&case);
        let sort = sort_of(judged.answer);
        let most = match sort {
            Answer::Refused(_) | Answer::SegmentMissing | Answer::Planned { specs: 0, .. } => {
                OTHERS
            }
            _ => answered,
        };
        let count = met.get(&sort).copied().unwrap_or_default();
        if count == most || !flat::is_sayable(&case) {
            continue;
        }
        let line = told(&case, judged)?;
        if line.len() <= longest && said.insert(line.clone()) {
            met.insert(sort, count + 1);
            lines.push(line);
        }
    }
    Ok(())
}

/// Where no small case is refused 14, the shortest with full tables that is.
fn full(
    kind: Kind,
    met: &mut BTreeMap<Answer, usize>,
    lines: &mut Vec<String>,
) -> Result<(), String> {
    if !kind.refusals().contains(&14) || met.contains_key(&Answer::Refused(14)) {
        return Ok(());
    }
    let mut rng = rng::Rng::new(1);
    let mut shortest: Option<String> = None;
    for _ in 0..FULL {
        let case = draw::full(&mut rng, kind);
        let judged = judge(&case);
        if judged.answer != Answer::Refused(14) {
            continue;
        }
        let line = told(&case, judged)?;
        if shortest.as_ref().is_none_or(|old| line.len() < old.len()) {
            shortest = Some(line);
        }
    }
    if let Some(line) = shortest {
        met.insert(Answer::Refused(14), 1);
        lines.push(line);
    }
    Ok(())
}

/// Answers that differ in their numbers alone are of one sort.
fn sort_of(answer: Answer) -> Answer {
    match answer {
        Answer::Planned { specs, .. } => Answer::Planned {
            specs: specs.min(1),
            passes: 0,
        },
        Answer::Jobs(_) => Answer::Jobs(0),
        other => other,
    }
}

/// The line that says a case and what was judged of it.
fn told(case: &Case, judged: Judged) -> Result<String, String> {
    let theirs = match judged.verdict {
        Verdict::Same => true,
        Verdict::Known(_) => false,
        Verdict::Unknown(what) => return Err(format!("{case:?}: {what}")),
    };
    Ok(flat::line(case, judged.answer, &judged.after, theirs))
}

/// The whole file: each line behind its length, which counts the line's end.
fn whole() -> Result<String, String> {
    let lines = lines()?;
    let sized = |line: &String| format!("{:08x} {line}\n", line.len() + 1);
    Ok(lines.iter().map(sized).collect())
}

pub fn print() -> Result<(), String> {
    if slatedb::FOUND.is_empty() {
        return Err("slatedb's code was absent when this was built".to_string());
    }
    print!("{}", whole()?);
    Ok(())
}

/// Whether a file holds what is recorded now. Without slatedb's code nothing can be said.
pub fn check(file: &str) -> Result<(), String> {
    if slatedb::FOUND.is_empty() {
        println!("slatedb's code is absent: {file} is not made again");
        return Ok(());
    }
    let recorded = std::fs::read_to_string(file).map_err(|error| error.to_string())?;
    if recorded != whole()? {
        return Err(format!("{file} is not what `oracle record` prints"));
    }
    println!(
        "{} recorded answers are those of today",
        recorded.lines().count()
    );
    Ok(())
}
