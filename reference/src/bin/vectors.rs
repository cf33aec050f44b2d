//! Writes the test vectors of the program `harness` to standard output: `vectors stdin` what it
//! reads, `vectors stdout` what it must print, `vectors table` how often each answer occurs there.

use std::collections::BTreeMap;
use std::io::{self, BufWriter, Write};
use std::process::ExitCode;

use reference::harness::{Command, Harness};
use reference::vectors::commands;

fn main() -> ExitCode {
    let output = BufWriter::new(io::stdout().lock());
    let done = match std::env::args().nth(1).as_deref() {
        Some("stdin") => write_input(output),
        Some("stdout") => write_lines(output),
        Some("table") => write_table(output),
        _ => {
            eprintln!("usage: vectors stdin | stdout | table");
            return ExitCode::from(2);
        }
    };
    match done {
        Ok(()) => ExitCode::SUCCESS,
        Err(error) => {
            eprintln!("vectors: {error}");
            ExitCode::FAILURE
        }
    }
}

fn write_input(mut output: impl Write) -> io::Result<()> {
    for word in commands().into_iter().flat_map(Command::words) {
        output.write_all(&word.to_le_bytes())?;
    }
    output.flush()
}

/// The lines of all calls, as numbers.
fn lines() -> impl Iterator<Item = Vec<u32>> {
    let mut harness = Harness::default();
    commands()
        .into_iter()
        .filter_map(move |command| harness.perform(command))
}

fn write_lines(mut output: impl Write) -> io::Result<()> {
    for line in lines() {
        let numbers: Vec<String> = line.iter().map(u32::to_string).collect();
        writeln!(output, "{}", numbers.join(" "))?;
    }
    output.flush()
}

/// Per operation and number, or for a handed list whether it is empty: how many lines.
fn write_table(mut output: impl Write) -> io::Result<()> {
    let mut seen: BTreeMap<(u32, u32), usize> = BTreeMap::new();
    for line in lines() {
        let answer = if matches!(line[0], 7 | 8) {
            line[1].min(1)
        } else {
            line[1]
        };
        *seen.entry((line[0], answer)).or_default() += 1;
    }
    writeln!(output, "commands {}", commands().len())?;
    for ((operation, answer), count) in seen {
        writeln!(
            output,
            "operation {operation} answer {answer}: {count} lines"
        )?;
    }
    output.flush()
}
