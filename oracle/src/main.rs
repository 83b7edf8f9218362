//! Compares 01's seven calls as three judges do them: slatedb's own code, `plain`, and the library.
#[cfg(feature = "library")]
mod bench;
mod damage;
mod draw;
mod figures;
mod flat;
mod judge;
mod known;
#[cfg(feature = "library")]
mod library;
mod record;
mod replay;
mod rng;
mod shrink;
mod small;
mod tally;
mod text;

use std::collections::BTreeSet;
use std::process::ExitCode;
use std::time::Instant;

use judge::Verdict;
use lent::{refusals, Case};
use tally::Tally;

const USAGE: &str = "\
oracle run CASES SEED   the small cases, all of them, then this many random ones
oracle known CASES SEED the smallest input of each known difference met in them
oracle record           recorded answers of slatedb's code, for crates/recorded
oracle recorded FILE    whether the file holds what `record` prints
oracle replay FILE      answers written down as text, held against the judges
oracle bench            the library, plain and slatedb's code timed on the same tables (feature library)";

fn main() -> ExitCode {
    // panics of slatedb's code are answers here, and there are many
    let loud = std::panic::take_hook();
    std::panic::set_hook(Box::new(move |panic| {
        if !slatedb::is_asked() {
            loud(panic);
        }
    }));
    let words: Vec<String> = std::env::args().skip(1).collect();
    let words: Vec<&str> = words.iter().map(String::as_str).collect();
    let done = match words.as_slice() {
        ["run", cases, seed] => number(cases).zip(number(seed)).map(|(c, s)| run(c, s)),
        ["known", cases, seed] => number(cases).zip(number(seed)).map(|(c, s)| known(c, s)),
        ["record"] => Some(ended(record::print())),
        ["recorded", file] => Some(ended(record::check(file))),
        ["replay", file] => Some(ended(replay::replay(file))),
        #[cfg(feature = "library")]
        ["bench"] => Some(ended(bench::print())),
        _ => None,
    };
    done.unwrap_or_else(|| {
        println!("{USAGE}");
        ExitCode::FAILURE
    })
}

fn number(word: &str) -> Option<u64> {
    word.replace(['_', ','], "").parse().ok()
}

/// Random case i of a seed. Each has a source of numbers of its own, so that it can be had by itself.
fn random(i: u64, seed: u64) -> Case {
    draw::case(&mut rng::Rng::new(
        seed.wrapping_mul(0x2545_F491_4F6C_DD1D)
            .wrapping_add(i << 20),
    ))
}

fn run(cases: u64, seed: u64) -> ExitCode {
    match slatedb::FOUND {
        "" => println!("slatedb's code was absent when this was built: it is not compared"),
        files => println!("slatedb 0.16.0: {files}"),
    }
    #[cfg(feature = "library")]
    println!("libfiervalun.a: {}", library::calls().join(", "));
    let start = Instant::now();
    let mut tally = Tally::default();
    small::all(&mut |case| take(&mut tally, &case, "small case"));
    let small = tally.cases;
    let figures = hold_figures(&mut tally);
    for i in 0..cases {
        take(
            &mut tally,
            &random(i, seed),
            &format!("random case {i} of seed {seed}"),
        );
    }
    let complete = tally.print();
    let seconds = start.elapsed().as_secs_f64();
    println!(
        "{} cases ({small} small ones and {cases} random ones of seed {seed}), {:.0} a second",
        tally.cases,
        tally.cases as f64 / seconds
    );
    match slatedb::FOUND {
        "" => println!("{} unexplained; slatedb's code took no part", tally.unknown),
        _ => println!(
            "{} agree in every number, {} differ as known, {} unexplained",
            tally.same,
            tally.cases - tally.same - tally.unknown,
            tally.unknown
        ),
    }
    if !complete {
        println!("some count is zero: more cases are needed");
    }
    match tally.unknown == 0 && complete && figures {
        true => ExitCode::SUCCESS,
        false => ExitCode::FAILURE,
    }
}

/// 01's figures: what the judges agree on must be what 01 says. Answers whether it is.
fn hold_figures(tally: &mut Tally) -> bool {
    let mut held = true;
    let figures = figures::all();
    for figure in &figures {
        take(tally, &figure.case, figure.name);
        let judged = judge::judge(&figure.case);
        if judged.answer != figure.answer || !figure.left.is_left_by(&judged.after, judged.answer) {
            println!("FIGURE {}: {:?}", figure.name, judged.answer);
            held = false;
        }
    }
    let limits = figures::LIMITS.iter();
    let wrong = limits.filter(|&&(size, threshold, limit)| plain::limit(size, threshold) != limit);
    for (size, threshold, limit) in wrong {
        println!("FIGURE limit({size}) at {threshold} is not {limit}");
        held = false;
    }
    println!(
        "01's figures: {} cases and {} limits",
        figures.len(),
        figures::LIMITS.len()
    );
    held
}

/// Judges a case and counts it. The first few of a call that nobody explains are written out, as small as they get.
fn take(tally: &mut Tally, case: &Case, name: &str) {
    let judged = judge::judge(case);
    tally.count(case, &judged);
    let Verdict::Unknown(what) = &judged.verdict else {
        return;
    };
    if !tally.is_new(case.kind()) {
        return;
    }
    println!("UNEXPLAINED {name}: plain {:?}, {what}", judged.answer);
    let unexplained = |case: &Case| matches!(judge::judge(case).verdict, Verdict::Unknown(_));
    let small = shrink::smallest(case.clone(), unexplained);
    if matches!(refusals::lacking(&small), Some(1 | 2)) {
        println!("  damaged tables: {small:?}");
        return;
    }
    let judged = judge::judge(&small);
    let plain = text::answer(judged.answer, &judged.after);
    println!("  smallest: {} = {plain}", text::case(&small));
    if let Verdict::Unknown(what) = judged.verdict {
        println!("  {what}");
    }
}

/// The first case of each known difference, as small as it gets.
fn known(cases: u64, seed: u64) -> ExitCode {
    let mut met = BTreeSet::new();
    for i in 0..cases {
        let case = random(i, seed);
        let Verdict::Known(name) = judge::judge(&case).verdict else {
            continue;
        };
        if matches!(refusals::lacking(&case), Some(1 | 2)) || !met.insert(name) {
            continue;
        }
        let is_it =
            |case: &Case| matches!(judge::judge(case).verdict, Verdict::Known(n) if n == name);
        let small = shrink::smallest(case, is_it);
        let judged = judge::judge(&small);
        let answer = text::answer(judged.answer, &judged.after);
        println!("{name}\n  {} = {answer}", text::case(&small));
    }
    ExitCode::SUCCESS
}

fn ended(result: Result<(), String>) -> ExitCode {
    match result {
        Ok(()) => ExitCode::SUCCESS,
        Err(what) => {
            println!("{what}");
            ExitCode::FAILURE
        }
    }
}
