//! `sheetlog`: calls on one state from standard input, answers to standard output.

use std::io::{stdin, stdout, BufWriter};
use std::process::ExitCode;

fn main() -> ExitCode {
    let mut output = BufWriter::new(stdout().lock());
    match reference::sheetlog::run(&mut stdin().lock(), &mut output) {
        Ok(()) => ExitCode::SUCCESS,
        Err(error) => {
            eprintln!("sheetlog: {error}");
            ExitCode::FAILURE
        }
    }
}
