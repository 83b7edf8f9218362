//! Validation of a spec.
use lent::{LoneSpec, Trees};

use crate::checks::{l0_view, lent_tables, spec_misshapen, tree_with, view_of, Part};
use crate::Refusal;

/// "Validation: drain accepted at once, then 6, 7, 8, 9."
pub fn validate(trees: &Trees, spec: &LoneSpec) -> Result<(), Refusal> {
    lent_tables(Some(trees), None, None)?;
    if spec_misshapen(spec) {
        return Err(2);
    }
    if spec.drain == 1 {
        return Ok(());
    }
    let Some((_, part)) = tree_with(trees, spec.prefix) else {
        return Err(6);
    };
    let sources = &spec.sources;
    let len = sources.marks.len();
    if len == 0 {
        return Err(7);
    }
    let rows = part.l0.len() + part.runs.len();
    if len > rows
        || !(0..=rows - len).any(|at| (0..len).all(|k| stands_at(trees, &part, spec, at + k, k)))
    {
        return Err(8);
    }
    // "With no run among them the destination is not looked at."
    let lowest = (0..len)
        .filter(|&k| sources.marks[k] == 1)
        .map(|k| sources.runs[k])
        .min();
    if lowest.is_some_and(|run| run != spec.destination) {
        return Err(9);
    }
    Ok(())
}

/// Whether source k is row `at` of "the tree's L0 then runs, as one list".
fn stands_at(trees: &Trees, part: &Part, spec: &LoneSpec, at: usize, k: usize) -> bool {
    let sources = &spec.sources;
    if at < part.l0.len() {
        sources.marks[k] == 0 && view_of(&sources.views, k) == l0_view(trees, part.l0.start + at)
    } else {
        let run = trees.run_ids[part.runs.start + at - part.l0.len()];
        sources.marks[k] == 1 && sources.runs[k] == run
    }
}
