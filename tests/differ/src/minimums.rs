//! What the draws must have reached: a tester that finds no difference because it hardly called anything has failed.

use crate::compare::{Compare, Function, FUNCTIONS};

pub struct Row {
    pub what: String,
    pub least: u64,
    pub got: u64,
    /// Not asked for: no function that could reach it has landed.
    pub waived: bool,
}

/// The functions that can give a refusal.
fn givers(number: usize) -> &'static [Function] {
    match number {
        1..=13 => &[Function::CheckBook, Function::Compile],
        14..=16 => &[Function::Compile],
        17..=19 => &[
            Function::CheckImage,
            Function::Fallback,
            Function::Level,
            Function::Mark,
            Function::Edge,
            Function::Step,
            Function::Run,
        ],
        20 => &[Function::Fallback, Function::Level, Function::Mark, Function::Edge, Function::Step, Function::Run],
        21 => &[Function::Run, Function::Part],
        22 | 23 => &[Function::ShortList],
        _ => &[Function::Part],
    }
}

/// Every minimum. With `full` none is waived.
pub fn rows(compare: &Compare, full: bool) -> Vec<Row> {
    // The program is no function of the library: where it is not there, `full` does without it.
    let landed = |function: Function| full && function != Function::List || compare.landed(function);
    let all = FUNCTIONS.iter().all(|function| *function == Function::List || landed(*function));
    let mut rows = Vec::new();
    let mut row = |what: String, least: u64, got: u64, asked: bool| {
        rows.push(Row { what, least, got, waived: !asked });
    };
    row("calls in all".to_string(), 200_000, compare.calls(), all);
    for function in FUNCTIONS {
        let tally = compare.tally(function);
        let least = match function {
            Function::Group => 256,
            Function::List => 200,
            _ => 5_000,
        };
        row(format!("calls of {}", function.name()), least, tally.calls, landed(function));
        if function != Function::Group {
            // A third of the calls at the least are not refused.
            let third = tally.calls.div_ceil(3);
            row(format!("successes of {}", function.name()), third.max(1), tally.successes, landed(function));
        }
    }
    for number in 1..=24 {
        let asked = givers(number).iter().any(|function| landed(*function));
        row(format!("refusals {number}"), 500, compare.refusals(number), asked);
    }
    for number in 1..=13 {
        let got = compare.tally(Function::CheckBook).refusals[number];
        row(format!("refusals {number} of check_book"), 1_000, got, landed(Function::CheckBook));
    }
    let kinds = &compare.kinds;
    let (compile, run) = (landed(Function::Compile), landed(Function::Run));
    row("compiled images of over 50 places".to_string(), 3_000, kinds.images_over_50, compile);
    row("compiled images of over 500 places".to_string(), 300, kinds.images_over_500, compile);
    row("runs with records and failure steps".to_string(), 5_000, kinds.runs_with_records_and_steps, run);
    row("of these, cut short by room".to_string(), 1_000, kinds.of_these_cut_by_room, run);
    row("runs of 8,000 events with 4,096 failure steps".to_string(), 40, kinds.long_runs, run);
    rows
}

/// What a share of the run must have reached, in so many rounds. `empties` is how many calls had an empty slice.
pub fn guarded_rows(compare: &Compare, full: bool, empties: u64, share: usize, rounds: usize) -> Vec<Row> {
    // The program lends nothing from here, so it has no part in this.
    let landed = |function: Function| function != Function::List && (full || compare.landed(function));
    let part = |whole: u64| whole * rounds as u64 / share as u64;
    let mut rows = Vec::new();
    let mut row = |what: String, least: u64, got: u64, asked: bool| {
        rows.push(Row { what, least: least.max(1), got, waived: !asked });
    };
    for function in FUNCTIONS {
        // Every event in each round, whatever the share.
        let least = if function == Function::Group { 256 * rounds as u64 } else { part(5_000) };
        let (name, got) = (function.name(), compare.tally(function).calls);
        row(format!("calls of {name} in guarded memory"), least, got, landed(function));
    }
    for number in 1..=24 {
        let asked = givers(number).iter().any(|function| landed(*function));
        row(format!("refusals {number} in guarded memory"), part(500), compare.refusals(number), asked);
    }
    let given_slices = FUNCTIONS.iter().filter(|function| **function != Function::Group && landed(**function)).count();
    let least = (crate::empties::TIMES * rounds * given_slices) as u64;
    row("calls with an empty slice".to_string(), least, empties, true);
    rows
}
