//! What an argument is, told by its content: a stored state, or an input of `sheetlog`, whose calls
//! are then made through the library.

use std::collections::BTreeMap;
use std::fs::File;
use std::io::{self, Read};
use std::path::Path;

use reference::layout::{EARLIER_RECORD_WORDS, EARLIER_STATE_WORDS, STATE_WORDS};
use reference::record::Record;
use reference::Call;
use yardbook::number;

use crate::member::MemberState;
use crate::text::path_name;

/// Bytes of a word, and of a state as the host stores it.
const WORD_BYTES: usize = 4;
pub const STATE_BYTES: usize = WORD_BYTES * STATE_WORDS;

/// What some editors put before a text.
const BYTE_ORDER_MARK: &[u8] = b"\xef\xbb\xbf";

/// More is not read: a whole run of a group is some hundred thousand bytes.
pub const MOST_BYTES: usize = 64 << 20;

/// Where a state is from.
#[derive(Clone, Debug)]
pub enum Origin {
    Stored,
    Lines(Lines),
}

/// What the lines of a `sheetlog` input were, and what they tell beyond the state.
#[derive(Clone, Debug, Default)]
pub struct Lines {
    /// Calls with answer 0, and the others.
    pub admitted: usize,
    pub refused: usize,
    /// Lines of another form; bytes after the last line feed are one. So many of them have a record
    /// of an earlier version, and the first may begin with a byte-order mark.
    pub other: usize,
    pub older: usize,
    pub has_mark: bool,
    /// Openings with answer 0.
    pub openings: usize,
    /// Refused records beside which another one of their round and member was taken: vertices that
    /// were answered 13, and first messages that were answered 12.
    pub conflicts: usize,
    /// The first messages taken since the last opening, by id.
    pub first_messages: BTreeMap<u32, Record>,
}

/// Reads the state that a file has or whose calls it has. The error is a sentence for people.
pub fn read(path: &Path) -> Result<MemberState, String> {
    let name = path_name(path);
    let bytes = read_bytes(path).map_err(|error| format!("{name}: cannot be read: {error}"))?;
    if bytes.len() > MOST_BYTES {
        return Err(format!(
            "{name}: has more than {MOST_BYTES} bytes, which no sheet and no input of sheetlog here has"
        ));
    }
    of_bytes(&bytes)
        .map_err(|why| format!("{name}: is neither a stored sheet nor an input of sheetlog: {why}"))
}

/// One byte more than is taken shows that there are too many.
fn read_bytes(path: &Path) -> io::Result<Vec<u8>> {
    let mut bytes = Vec::new();
    File::open(path)?
        .take(MOST_BYTES as u64 + 1)
        .read_to_end(&mut bytes)?;
    Ok(bytes)
}

/// A stored state has exactly the state's size; an input of `sheetlog` has a line that is a call. A
/// text of the state's size that has one is an input. The error says why the bytes are neither.
pub fn of_bytes(bytes: &[u8]) -> Result<MemberState, String> {
    let is_stored = bytes.len() == STATE_BYTES;
    if !is_stored || is_text(bytes) {
        let (words, lines) = follow(bytes);
        if lines.calls() > 0 {
            return Ok(MemberState::new(words, Origin::Lines(lines)));
        }
    }
    match is_stored {
        true => Ok(MemberState::new(words_of(bytes), Origin::Stored)),
        false => Err(why_neither(bytes)),
    }
}

fn is_text(bytes: &[u8]) -> bool {
    bytes
        .iter()
        .all(|&byte| byte >= b' ' || matches!(byte, b'\n' | b'\r' | b'\t'))
}

/// The words of a stored state, the lowest byte of each first.
fn words_of(bytes: &[u8]) -> Vec<u32> {
    bytes
        .chunks_exact(WORD_BYTES)
        .map(|word| {
            word.iter()
                .rev()
                .fold(0, |word, &byte| word << 8 | u32::from(byte))
        })
        .collect()
}

/// Makes the calls of all lines on a state that is all zero at first, as `sheetlog` does.
fn follow(bytes: &[u8]) -> (Vec<u32>, Lines) {
    let mut words = vec![0; STATE_WORDS];
    let mut lines = Lines {
        has_mark: bytes.starts_with(BYTE_ORDER_MARK),
        ..Lines::default()
    };
    for piece in bytes.split_inclusive(|&byte| byte == b'\n') {
        let call = piece.strip_suffix(b"\n").and_then(Call::parse);
        match call {
            Some(call) => lines.note(&call, make(&call, &mut words)),
            None => {
                lines.other += 1;
                lines.older += usize::from(is_older(piece));
            }
        }
    }
    (words, lines)
}

/// Whether a line is that of a record of an earlier version.
fn is_older(line: &[u8]) -> bool {
    let words = line.split(|&byte| byte == b' ').count() - 1;
    matches!(line, [b'V' | b'F', b' ', ..]) && EARLIER_RECORD_WORDS.contains(&words)
}

/// Makes a call through the library; the number of its answer.
pub fn make(call: &Call, words: &mut [u32]) -> u32 {
    let answer = match call {
        Call::Open(n, own) => yardbook::open(words, *n, *own),
        Call::Vertex(record) => yardbook::take_vertex(words, record),
        Call::VertexWith(buffer, record) => {
            yardbook::take_vertex_with(words, &mut buffer.clone(), record)
        }
        Call::First(record) => yardbook::take_first_message(words, record),
        Call::Timeout(round, signer) => yardbook::take_timeout(words, *round, *signer),
        Call::Timeouts(round, mask) => yardbook::take_timeouts(words, *round, *mask),
        Call::NoVote(round, signer) => yardbook::take_no_vote(words, *round, *signer),
        Call::Propose(digest) => yardbook::propose(words, &yardbook::Digest(*digest)).answer,
        Call::SignNoVote => yardbook::sign_no_vote(words),
    };
    answer.number
}

impl Lines {
    /// The lines that are calls.
    pub fn calls(&self) -> usize {
        self.admitted + self.refused
    }

    fn note(&mut self, call: &Call, answered: u32) {
        match answered {
            number::OK => self.admitted += 1,
            _ => self.refused += 1,
        }
        match (call, answered) {
            (Call::Open(..), number::OK) => {
                self.openings += 1;
                self.first_messages.clear();
            }
            (Call::First(words), number::OK) => {
                if let Some(record) = Record::from_words(words) {
                    self.first_messages.insert(record.id(), record);
                }
            }
            (Call::First(words), number::DUPLICATE) => {
                let taken = |record: Record| self.first_messages.get(&record.id()) == Some(&record);
                let is_same = Record::from_words(words).is_some_and(taken);
                self.conflicts += usize::from(!is_same);
            }
            (Call::Vertex(_), number::CONFLICT) => self.conflicts += 1,
            _ => {}
        }
    }
}

/// What a person can mend in a file that is neither.
fn why_neither(bytes: &[u8]) -> String {
    let older = |words: &usize| bytes.len() == WORD_BYTES * words;
    if bytes.is_empty() {
        return "it is empty".to_string();
    }
    if EARLIER_STATE_WORDS.iter().any(older) {
        return "it has the size of a sheet of an earlier version of the library".to_string();
    }
    let has_calls = |bytes: &[u8]| follow(bytes).1.calls() > 0;
    let without_returns: Vec<u8> = bytes
        .iter()
        .copied()
        .filter(|&byte| byte != b'\r')
        .collect();
    if has_calls(&without_returns) {
        return "its lines end in carriage return and line feed, not in a line feed alone"
            .to_string();
    }
    if has_calls(&[bytes, b"\n"].concat()) {
        return "its only call has no line feed at the end of its line".to_string();
    }
    let size = bytes.len();
    format!("it has {size} bytes and not {STATE_BYTES}, and no line of it is a call")
}
