//! Answers written down as text, such as those of differences.txt, held against the judges.
use crate::judge::{judge, Judged, Verdict};
use crate::{known, text};
use lent::Case;

/// Puts every line of a file before the judges. The answers must be those recorded, and so must the difference, if slatedb's
/// code is there to differ.
pub fn replay(file: &str) -> Result<(), String> {
    let recorded = std::fs::read_to_string(file).map_err(|error| error.to_string())?;
    let mut held = 0;
    for line in recorded.lines().filter(|line| !line.starts_with('#')) {
        let (case, answer) = text::read(line).ok_or_else(|| format!("cannot be read: {line}"))?;
        let (told, difference) = told(&case)?;
        let (answer, recorded) = match answer.split_once(" ~ ") {
            Some((answer, number)) => (answer, number.parse().ok()),
            None => (answer, None),
        };
        if answer != told || (recorded != difference && !slatedb::FOUND.is_empty()) {
            return Err(format!("{line}\n  now: {told}, difference {difference:?}"));
        }
        held += 1;
    }
    println!("{held} written answers hold");
    Ok(())
}

/// The answer as text, and the number of the known difference, if it is one.
fn told(case: &Case) -> Result<(String, Option<usize>), String> {
    let Judged {
        answer,
        after,
        verdict,
    } = judge(case);
    let answer = text::answer(answer, &after);
    match verdict {
        Verdict::Same => Ok((answer, None)),
        Verdict::Known(name) => Ok((answer, Some(number(name)))),
        Verdict::Unknown(what) => Err(format!("{}: {what}", text::case(case))),
    }
}

fn number(name: &str) -> usize {
    let place = known::NAMES.iter().position(|&n| n == name);
    1 + place.expect("every known difference is listed")
}
