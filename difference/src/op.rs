//! A call with its arguments, and what it answers.

use reference::harness::{Command, Script};
use reference::layout::RECORD_WORDS;
use reference::Call;

/// Any call but for its state.
#[derive(Clone, Debug, PartialEq, Eq)]
pub enum Op {
    /// A call that may change the state.
    Change(Call),
    Status,
    AskLeaders(u32),
    AskJournal(u32),
    HandLeaders(u32),
    HandJournal(u32),
}

/// The names of the calls, in the order of `Op::row`.
pub const NAMES: [&str; 14] = [
    "open",
    "vertex",
    "vertex+buffer",
    "first message",
    "timeout",
    "timeouts",
    "no-vote",
    "propose",
    "sign no-vote",
    "status",
    "ask leaders",
    "ask journal",
    "hand leaders",
    "hand journal",
];

impl Op {
    /// The place of the call in tables.
    pub fn row(&self) -> usize {
        match self {
            Op::Change(Call::Open(..)) => 0,
            Op::Change(Call::Vertex(_)) => 1,
            Op::Change(Call::VertexWith(..)) => 2,
            Op::Change(Call::First(_)) => 3,
            Op::Change(Call::Timeout(..)) => 4,
            Op::Change(Call::Timeouts(..)) => 5,
            Op::Change(Call::NoVote(..)) => 6,
            Op::Change(Call::Propose(_)) => 7,
            Op::Change(Call::SignNoVote) => 8,
            Op::Status => 9,
            Op::AskLeaders(_) => 10,
            Op::AskJournal(_) => 11,
            Op::HandLeaders(_) => 12,
            Op::HandJournal(_) => 13,
        }
    }

    /// The words of the call's pending buffer; none if it has none.
    pub fn buffer(&self) -> &[u32] {
        match self {
            Op::Change(call) => call.buffer(),
            _ => &[],
        }
    }

    /// Adds the commands of the test program `harness` that make the call.
    pub fn write(&self, script: &mut Script) {
        match *self {
            Op::Change(ref call) => script.call(call),
            Op::Status => script.push(Command::Status),
            Op::AskLeaders(k) => script.push(Command::AskLeaders(k)),
            Op::AskJournal(k) => script.push(Command::AskJournal(k)),
            Op::HandLeaders(k) => script.push(Command::HandLeaders(k)),
            Op::HandJournal(k) => script.push(Command::HandJournal(k)),
        }
    }
}

/// The numbers of a change's answer: number, id, leaders, journal.
pub const ANSWER_NUMBERS: usize = 4;

/// All numbers of an answer, unused ones 0. The first is the answer number.
///
/// A change: the answer's, and of making our own vertex the record's words. Status: number and the
/// four words. A handed list: number, and first word and length of the part.
pub type Reply = [u32; ANSWER_NUMBERS + RECORD_WORDS];

/// These numbers, and zeros.
pub fn reply(numbers: &[u32]) -> Reply {
    let mut reply = Reply::default();
    reply[..numbers.len()].copy_from_slice(numbers);
    reply
}

/// The record's words in the answer of making our own vertex.
pub fn record_of(reply: &Reply) -> &[u32] {
    &reply[ANSWER_NUMBERS..]
}
