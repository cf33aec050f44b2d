//! The words of the command line.

use std::ffi::OsString;
use std::path::PathBuf;

pub const USAGE: &str = "usage: sidebyside LEFT RIGHT [--html FILE]";

pub const HELP: &str = "\
Compares two members' sheets: where their leader lists and journals part, and
who broke the rules. LEFT and RIGHT are each a sheet as the host stores it
(little-endian words) or an input of sheetlog. FILE gets a page with both
graphs.

Exit 0: both sheets are sound and of one group, and of both lists one side has
        the first entries of the other's.
Exit 1: that is not so.
Exit 2: something could not be read or written, or the command is wrong.
";

/// What is asked for.
#[derive(Clone, Debug, PartialEq, Eq)]
pub enum Command {
    Help,
    Compare {
        inputs: [PathBuf; 2],
        page: Option<PathBuf>,
    },
}

/// The command of these words, without the program's name; none if they are of another form.
pub fn parse(words: impl IntoIterator<Item = OsString>) -> Option<Command> {
    let mut words = words.into_iter();
    let mut inputs = Vec::new();
    let mut page = None;
    while let Some(word) = words.next() {
        match word.to_str() {
            Some("--help" | "-h") => return Some(Command::Help),
            Some("--html") if page.is_none() => page = Some(path(words.next()?)?),
            _ => inputs.push(path(word)?),
        }
    }
    let inputs = <[PathBuf; 2]>::try_from(inputs).ok()?;
    Some(Command::Compare { inputs, page })
}

/// A word as a path, unless it is an option.
fn path(word: OsString) -> Option<PathBuf> {
    let is_option = word.to_str().is_some_and(|word| word.starts_with("--"));
    (!is_option).then(|| PathBuf::from(word))
}
