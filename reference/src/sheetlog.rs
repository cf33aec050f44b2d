//! The program `sheetlog` over any input and output. Memory is bounded whatever the input: a block,
//! the start of one line, and the state.

use std::io::{self, ErrorKind, Read, Write};

use crate::call::Call;
use crate::calls::{hand_journal, hand_leaders, status};
use crate::layout::STATE_WORDS;
use crate::line::{spaced, LONGEST_LINE};

const BLOCK_BYTES: usize = 1 << 16;

/// Reads all lines, answers each, and prints the lists at the end.
pub fn run(input: &mut impl Read, output: &mut impl Write) -> io::Result<()> {
    let mut state = vec![0; STATE_WORDS];
    let mut line = LineStart::default();
    let mut block = vec![0; BLOCK_BYTES];
    loop {
        let length = match input.read(&mut block) {
            Ok(0) => break,
            Ok(length) => length,
            Err(error) if error.kind() == ErrorKind::Interrupted => continue,
            Err(error) => return Err(error),
        };
        for piece in block[..length].split_inclusive(|&byte| byte == b'\n') {
            if let Some((b'\n', rest)) = piece.split_last() {
                line.extend(rest);
                answer_line(line.bytes(), &mut state, output)?;
                line = LineStart::default();
            } else {
                line.extend(piece);
            }
        }
        output.flush()?;
    }
    if !line.is_empty() {
        writeln!(output, "?")?;
    }
    writeln!(output, "{}", spaced('L', hand_leaders(&state, 0).1))?;
    writeln!(output, "{}", spaced('J', hand_journal(&state, 0).1))?;
    output.flush()
}

/// Answers one line: the number and the four numbers of the status, or `?`.
fn answer_line(line: &[u8], state: &mut [u32], output: &mut impl Write) -> io::Result<()> {
    let Some(call) = Call::parse(line) else {
        return writeln!(output, "?");
    };
    let number = call.apply(state).number;
    let now = status(state);
    writeln!(
        output,
        "{number} {} {} {} {}",
        now.current_round, now.committed_round, now.leader_count, now.journal_count
    )
}

/// The start of a line: one byte more than any call needs, so that a longer line is never taken
/// for a call.
#[derive(Default)]
struct LineStart {
    bytes: Vec<u8>,
}

impl LineStart {
    fn extend(&mut self, piece: &[u8]) {
        let room = LONGEST_LINE + 1 - self.bytes.len();
        self.bytes.extend(piece.iter().take(room));
    }

    fn bytes(&self) -> &[u8] {
        &self.bytes
    }

    fn is_empty(&self) -> bool {
        self.bytes.is_empty()
    }
}
