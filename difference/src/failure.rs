//! What went wrong, in a form that can be made smaller.

use crate::op::Op;
use reference::group::members;
use reference::harness::{Command, Script};
use reference::layout::{BUFFER_RECORDS, CELL_DIGEST, RECORD_CELL, RECORD_WORDS};
use reference::Call;

/// One thing done to a state.
#[derive(Clone, Debug, PartialEq, Eq)]
pub enum Step {
    Perform(Op),
    /// A word gets a value.
    Set(usize, u32),
}

impl Step {
    pub fn of_call(call: &Call) -> Step {
        Step::Perform(Op::Change(call.clone()))
    }

    /// The call, if it is one that a line of `sheetlog` can stand for.
    pub fn as_line(&self) -> Option<&Call> {
        self.as_change().filter(|call| is_line(call))
    }

    /// The step for a watcher: an opening has no own member.
    pub fn for_watcher(&self) -> Step {
        match self {
            Step::Perform(Op::Change(Call::Open(n, _))) => Step::of_call(&Call::Open(*n, 0)),
            step => step.clone(),
        }
    }

    /// The step with single timeouts in place of a bundle.
    pub fn one_by_one(&self) -> Vec<Step> {
        match self {
            Step::Perform(Op::Change(Call::Timeouts(round, mask))) => members(*mask)
                .map(|signer| Step::of_call(&Call::Timeout(*round, signer)))
                .collect(),
            step => vec![step.clone()],
        }
    }

    /// The step with zeros in place of the digest words other than these: of the call's digest, and of
    /// its records.
    pub fn with_digest_words(&self, kept: &[usize]) -> Step {
        let mut step = self.clone();
        let Step::Perform(Op::Change(call)) = &mut step else {
            return step;
        };
        match call {
            Call::Propose(digest) => keep_words(digest, kept),
            Call::Vertex(record) | Call::First(record) => keep_in_records(record, kept),
            Call::VertexWith(buffer, record) => {
                keep_in_records(record, kept);
                let records = buffer.get_mut(BUFFER_RECORDS..);
                keep_in_records(records.unwrap_or_default(), kept);
            }
            _ => {}
        }
        step
    }

    /// The call, if it is one that may change the state.
    pub fn as_change(&self) -> Option<&Call> {
        match self {
            Step::Perform(Op::Change(call)) => Some(call),
            _ => None,
        }
    }
}

/// Sets the words of a digest to 0, but for these.
fn keep_words(digest: &mut [u32], kept: &[usize]) {
    let words = digest.iter_mut().enumerate();
    words
        .filter(|(at, _)| !kept.contains(at))
        .for_each(|(_, word)| *word = 0);
}

/// The same of each record among words; one that is cut short is left as it is.
fn keep_in_records(words: &mut [u32], kept: &[usize]) {
    for record in words.chunks_exact_mut(RECORD_WORDS) {
        keep_words(&mut record[RECORD_CELL][CELL_DIGEST], kept);
    }
}

/// The commands of the test program `harness` for steps on so many words.
pub fn commands(size: usize, steps: &[Step]) -> Vec<Command> {
    let mut script = Script::default();
    script.push(Command::Lend(size as u32));
    for step in steps {
        match step {
            Step::Perform(op) => op.write(&mut script),
            Step::Set(at, word) => script.push(Command::Set(*at as u32, *word)),
        }
    }
    script.commands
}

/// Whether a line of `sheetlog` can stand for the call.
pub fn is_line(call: &Call) -> bool {
    Call::parse(call.line().as_bytes()).is_some()
}

#[derive(Clone, Debug)]
pub enum Failure {
    /// Of these steps on so many words, all 0 at first, one differs.
    Steps { size: usize, steps: Vec<Step> },
    /// `sheetlog` prints different lines for these calls.
    Lines { calls: Vec<Call> },
    /// The lists that these calls leave are not the model's.
    Model { calls: Vec<Call> },
    /// The lists that these calls leave are not prefixes of one another.
    Prefix { calls: [Vec<Call>; 2] },
}

impl Failure {
    /// How much there is to read.
    pub fn length(&self) -> usize {
        match self {
            Failure::Steps { size, steps } => commands(*size, steps).len(),
            Failure::Lines { calls } | Failure::Model { calls } => calls.len(),
            Failure::Prefix { calls } => calls.iter().map(Vec::len).sum(),
        }
    }
}

/// A failure and the group that it occurred in.
#[derive(Clone, Debug)]
pub struct Found {
    pub group: u64,
    pub n: u32,
    pub kind: &'static str,
    pub failure: Failure,
}
