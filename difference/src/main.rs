//! `difference SEED COUNT`: compares COUNT calls on groups drawn from SEED, and prints a table.

use std::process::ExitCode;
use std::time::Instant;

use difference::proved::Proved;
use difference::report::report;
use difference::run::{run, Plan};

/// What the gate runs.
const SEED: u64 = 1;
const COUNT: u64 = 600_000;

fn main() -> ExitCode {
    let Some((seed, count)) = arguments() else {
        eprintln!("usage: difference [SEED [COUNT]]");
        return ExitCode::from(2);
    };
    let started = Instant::now();
    let plan = Plan {
        seed,
        count,
        rounds: None,
    };
    let (tally, found) = run(&Proved, plan);
    print!("{tally}");
    println!("seconds: {:.1}", started.elapsed().as_secs_f64());
    if let Some(found) = found {
        eprint!("{}", report(&Proved, seed, &found));
        return ExitCode::FAILURE;
    }
    let unseen = tally.unseen();
    for what in &unseen {
        eprintln!("NEVER SEEN: {what}; seed {seed}, count {count}");
    }
    if unseen.is_empty() {
        ExitCode::SUCCESS
    } else {
        ExitCode::FAILURE
    }
}

fn arguments() -> Option<(u64, u64)> {
    let mut words = std::env::args().skip(1);
    let seed = words.next().map_or(Some(SEED), |word| word.parse().ok())?;
    let count = words.next().map_or(Some(COUNT), |word| word.parse().ok())?;
    words.next().is_none().then_some((seed, count))
}
