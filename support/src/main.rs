//! `sidebyside LEFT RIGHT [--html FILE]`: two members' states side by side.

use std::fs;
use std::io::{self, ErrorKind, Write};
use std::os::unix::fs::MetadataExt;
use std::path::{Path, PathBuf};
use std::process::ExitCode;

use sidebyside::arguments::{parse, Command, HELP, USAGE};
use sidebyside::origin::read;
use sidebyside::page::Page;
use sidebyside::pair::Pair;
use sidebyside::report::Report;
use sidebyside::text::path_name;

const AGREE: u8 = 0;
const DO_NOT_AGREE: u8 = 1;
const FAILED: u8 = 2;

fn main() -> ExitCode {
    let done = match parse(std::env::args_os().skip(1)) {
        None => Err(USAGE.to_string()),
        Some(Command::Help) => put(&format!("{USAGE}\n\n{HELP}")).map(|()| AGREE),
        Some(Command::Compare { inputs, page }) => compare(&inputs, page.as_deref()),
    };
    match done {
        Ok(status) => ExitCode::from(status),
        Err(message) => {
            // Nothing is left to do if the message cannot be written.
            let _ = writeln!(io::stderr(), "sidebyside: {message}");
            ExitCode::from(FAILED)
        }
    }
}

/// The exit status, or a sentence that says what could not be done. The page is written first: the
/// answer is printed only if it was.
fn compare(inputs: &[PathBuf; 2], page: Option<&Path>) -> Result<u8, String> {
    let [left, right] = inputs;
    if let Some(page) = page.filter(|page| inputs.iter().any(|input| is_same(input, page))) {
        let page = path_name(page);
        return Err(format!("{page}: is an input, and is not written over"));
    }
    let pair = Pair {
        left: read(left)?,
        right: read(right)?,
    };
    let names = [left, right].map(|path| path_name(path));
    let report = Report::new(&pair, names.each_ref().map(String::as_str));
    let text = report.print();
    if let Some(path) = page {
        write_page(path, &report, &text)?;
    }
    put(&text)?;
    Ok(match pair.agrees() {
        true => AGREE,
        false => DO_NOT_AGREE,
    })
}

/// Whether two paths are one file, also by links. A page that is not there yet is no input.
fn is_same(input: &Path, page: &Path) -> bool {
    let file = |path| fs::metadata(path).map(|file| (file.dev(), file.ino()));
    match (file(input), file(page)) {
        (Ok(input), Ok(page)) => input == page,
        _ => false,
    }
}

fn write_page(path: &Path, report: &Report, text: &str) -> Result<(), String> {
    let page = Page { report, text };
    fs::write(path, page.render())
        .map_err(|error| format!("{}: cannot be written: {error}", path_name(path)))
}

/// Prints a text. A reader that goes away early, as `head` does, is no failure.
fn put(text: &str) -> Result<(), String> {
    let mut output = io::stdout().lock();
    match output
        .write_all(text.as_bytes())
        .and_then(|()| output.flush())
    {
        Err(error) if error.kind() != ErrorKind::BrokenPipe => {
            Err(format!("the answer cannot be written: {error}"))
        }
        _ => Ok(()),
    }
}
