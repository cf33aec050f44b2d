//! A failure as text: what differs, and the input that shows it.

use std::fmt::Write;

use crate::agreement::follow;
use crate::engine::Engine;
use crate::failure::{commands, is_line, Failure, Found, Step};
use crate::op::NAMES;
use crate::run::{run, Plan};
use crate::shrink::{first_difference, shrink};
use reference::{Call, STATE_WORDS};

/// How many rounds the groups have, and how many calls are made, in the search for a shorter case.
const FEW_ROUNDS: [u32; 5] = [1, 2, 3, 4, 6];
const SEARCHED: u64 = 20_000;

/// The shortest form of a failure, or of another that small groups show.
fn shortest(engine: &dyn Engine, seed: u64, failure: &Failure) -> Failure {
    let small = FEW_ROUNDS.into_iter().find_map(|rounds| {
        let plan = Plan {
            seed,
            count: SEARCHED,
            rounds: Some(rounds),
        };
        run(engine, plan).1.map(|found| found.failure)
    });
    let found = [failure.clone()].into_iter().chain(small);
    let shrunk = found.map(|failure| shrink(engine, &failure));
    shrunk
        .min_by_key(Failure::length)
        .unwrap_or_else(|| failure.clone())
}

/// A failure as text.
pub fn report(engine: &dyn Engine, seed: u64, found: &Found) -> String {
    let text = format!(
        "DIFFERENCE: seed {seed}, group {}, n {}, {}\n",
        found.group, found.n, found.kind
    );
    text + &match shortest(engine, seed, &found.failure) {
        Failure::Steps { size, steps } => {
            of_difference(engine, size, &steps) + &of_steps(size, &steps)
        }
        Failure::Lines { calls } => {
            let steps: Vec<Step> = calls.iter().map(Step::of_call).collect();
            of_difference(engine, STATE_WORDS, &steps) + &of_lines(&calls)
        }
        Failure::Model { calls } => of_model(engine, &calls),
        Failure::Prefix { calls } => of_prefix(engine, &calls),
    }
}

fn of_difference(engine: &dyn Engine, size: usize, steps: &[Step]) -> String {
    let Some((op, difference)) = first_difference(engine, size, steps) else {
        return String::new();
    };
    let mut text = format!(
        "{} answers {:?}, the second implementation {:?}\n",
        NAMES[op.row()],
        difference.tested,
        difference.second
    );
    if let Some((at, tested, second)) = difference.word {
        text += &format!("then word {at} is {tested}, by the second implementation {second}\n");
    }
    if let Some((at, tested, second)) = difference.buffer_word {
        text += &format!(
            "then word {at} of the buffer is {tested}, by the second implementation {second}\n"
        );
    }
    if difference.guards_written {
        text += "words were written that were not lent for that\n";
    }
    text
}

fn of_model(engine: &dyn Engine, calls: &[Call]) -> String {
    let (lists, model) = follow(engine, calls);
    format!("handed over: {lists:?}\nthe model's: {model:?}\n") + &of_calls(calls)
}

fn of_prefix(engine: &dyn Engine, calls: &[Vec<Call>; 2]) -> String {
    calls.iter().fold(String::new(), |text, calls| {
        let (lists, _) = follow(engine, calls);
        text + &format!("handed over: {lists:?}\n") + &of_calls(calls)
    })
}

/// As lines if each call is one, else as commands.
fn of_calls(calls: &[Call]) -> String {
    if calls.iter().all(is_line) {
        return of_lines(calls);
    }
    let steps: Vec<Step> = calls.iter().map(Step::of_call).collect();
    of_steps(STATE_WORDS, &steps)
}

fn of_lines(calls: &[Call]) -> String {
    let title = String::from("lines for sheetlog:\n");
    calls
        .iter()
        .fold(title, |text, call| text + &call.line() + "\n")
}

fn of_steps(size: usize, steps: &[Step]) -> String {
    let mut text = String::from("commands for harness, each number a word of 32 bits:\n");
    for command in commands(size, steps) {
        let [operation, a, b] = command.words();
        let _ = writeln!(text, "{operation} {a} {b}");
    }
    text
}
