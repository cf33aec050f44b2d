//! The lines of `sheetlog`: a call as text, without its line feed.

use crate::call::Call;
use crate::layout::RECORD_WORDS;

/// The most digits that a word has.
const MOST_DIGITS: usize = 10;
/// The longest line that can stand for a call: a letter and the words of a record, each after a
/// space.
pub const LONGEST_LINE: usize = 1 + RECORD_WORDS * (1 + MOST_DIGITS);

impl Call {
    /// The call as a line. A call that no line stands for gives a line of another form: a record
    /// of another length, an opening for a member, a vertex with a pending buffer, a bundle of
    /// timeouts, making our vertex and signing our no-vote.
    pub fn line(&self) -> String {
        let (letter, words) = match self {
            Call::Open(n, 0) => ('O', vec![*n]),
            Call::Open(n, own) => ('O', vec![*n, *own]),
            Call::Vertex(record) => ('V', record.clone()),
            Call::VertexWith(buffer, record) => ('W', [&record[..], buffer].concat()),
            Call::First(record) => ('F', record.clone()),
            Call::Timeout(round, signer) => ('T', vec![*round, *signer]),
            Call::Timeouts(round, mask) => ('B', vec![*round, *mask]),
            Call::NoVote(round, signer) => ('N', vec![*round, *signer]),
            Call::Propose(digest) => ('P', digest.to_vec()),
            Call::SignNoVote => ('S', vec![]),
        };
        spaced(letter, &words)
    }

    /// The call that a line stands for, if it is of the right form. Openings are for a watcher.
    pub fn parse(line: &[u8]) -> Option<Call> {
        let mut parts = line.split(|&byte| byte == b' ');
        let letter = parts.next()?;
        let words: Vec<u32> = parts.map(decimal).collect::<Option<_>>()?;
        match (letter, words.as_slice()) {
            (b"O", &[n]) => Some(Call::Open(n, 0)),
            (b"V", record) if record.len() == RECORD_WORDS => Some(Call::Vertex(words)),
            (b"F", record) if record.len() == RECORD_WORDS => Some(Call::First(words)),
            (b"T", &[round, signer]) => Some(Call::Timeout(round, signer)),
            (b"N", &[round, signer]) => Some(Call::NoVote(round, signer)),
            _ => None,
        }
    }
}

/// A letter and numbers, with one space between.
pub fn spaced(letter: char, words: &[u32]) -> String {
    words
        .iter()
        .fold(letter.to_string(), |line, word| format!("{line} {word}"))
}

/// A word in decimal without leading zeros; 0 is a single digit.
fn decimal(digits: &[u8]) -> Option<u32> {
    let (&first, rest) = digits.split_first()?;
    if !digits.iter().all(u8::is_ascii_digit) || (first == b'0' && !rest.is_empty()) {
        return None;
    }
    digits.iter().try_fold(0u32, |value, digit| {
        value.checked_mul(10)?.checked_add(u32::from(digit - b'0'))
    })
}
