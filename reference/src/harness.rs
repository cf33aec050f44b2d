//! The commands of the test program `harness`, and the line that each call must print.
//!
//! The program's input is words of 32 bits, low byte first, three for a command: the operation
//! and two arguments. A line has the operation, the numbers of the answer (of making our own vertex
//! also the words of the record), of a vertex with a pending buffer a checksum of the buffer's words,
//! and a checksum of all lent words.

use crate::answer::{Answer, Proposal};
use crate::call::Call;
use crate::calls;
use crate::layout::{BUFFER_WORDS, RECORD_WORDS, STATE_WORDS};
use crate::record::Digest;

/// The words that the program can lend, and those of the longest record and pending buffer.
pub const MOST_WORDS: u32 = STATE_WORDS as u32 + 136;
pub const MOST_RECORD_WORDS: u32 = RECORD_WORDS as u32 + 8;
pub const MOST_BUFFER_WORDS: u32 = BUFFER_WORDS as u32 + 15;

#[derive(Clone, Copy, Debug, PartialEq, Eq)]
pub enum Command {
    End,
    /// So many words are lent from now on, all zero.
    Lend(u32),
    /// A word of these lent gets a value; no effect beyond them.
    Set(u32, u32),
    /// Member count and word 5.
    Open(u32, u32),
    Status,
    AskLeaders(u32),
    AskJournal(u32),
    HandLeaders(u32),
    HandJournal(u32),
    /// Takes a vertex, or a first message, with the record as it stands.
    Vertex,
    First,
    /// Round and signer.
    Timeout(u32, u32),
    NoVote(u32, u32),
    /// The record has so many words from now on, all zero.
    Record(u32),
    /// A word of the record gets a value; no effect beyond them.
    SetRecord(u32, u32),
    /// Makes our own vertex with the digest as it stands.
    Propose,
    SignNoVote,
    /// Round and mask.
    Timeouts(u32, u32),
    /// Takes a vertex with the pending buffer and the record as they stand.
    VertexWith,
    /// The buffer has so many words from now on, all zero.
    Buffer(u32),
    /// A word of the buffer gets a value; no effect beyond them.
    SetBuffer(u32, u32),
    /// A word of the digest gets a value; no effect beyond them.
    SetDigest(u32, u32),
}

impl Command {
    /// Operation and arguments, as the program reads them.
    pub fn words(self) -> [u32; 3] {
        match self {
            Command::End => [0, 0, 0],
            Command::Lend(count) => [1, count, 0],
            Command::Set(at, word) => [2, at, word],
            Command::Open(n, own) => [3, n, own],
            Command::Status => [4, 0, 0],
            Command::AskLeaders(k) => [5, k, 0],
            Command::AskJournal(k) => [6, k, 0],
            Command::HandLeaders(k) => [7, k, 0],
            Command::HandJournal(k) => [8, k, 0],
            Command::Vertex => [9, 0, 0],
            Command::First => [10, 0, 0],
            Command::Timeout(round, signer) => [11, round, signer],
            Command::NoVote(round, signer) => [12, round, signer],
            Command::Record(count) => [13, count, 0],
            Command::SetRecord(at, word) => [14, at, word],
            Command::Propose => [15, 0, 0],
            Command::SignNoVote => [16, 0, 0],
            Command::Timeouts(round, mask) => [17, round, mask],
            Command::VertexWith => [18, 0, 0],
            Command::Buffer(count) => [19, count, 0],
            Command::SetBuffer(at, word) => [20, at, word],
            Command::SetDigest(at, word) => [21, at, word],
        }
    }

    /// The command that makes a call, with the record, the buffer and the digest as they stand.
    fn of_call(call: &Call) -> Command {
        match *call {
            Call::Open(n, own) => Command::Open(n, own),
            Call::Vertex(_) => Command::Vertex,
            Call::VertexWith(..) => Command::VertexWith,
            Call::First(_) => Command::First,
            Call::Timeout(round, signer) => Command::Timeout(round, signer),
            Call::Timeouts(round, mask) => Command::Timeouts(round, mask),
            Call::NoVote(round, signer) => Command::NoVote(round, signer),
            Call::Propose(_) => Command::Propose,
            Call::SignNoVote => Command::SignNoVote,
        }
    }
}

/// Commands, and the program as they leave it: only words that differ are set.
#[derive(Clone, Debug, Default)]
pub struct Script {
    pub commands: Vec<Command>,
    harness: Harness,
}

impl Script {
    pub fn push(&mut self, command: Command) {
        self.harness.perform(command);
        self.commands.push(command);
    }

    pub fn extend(&mut self, commands: impl IntoIterator<Item = Command>) {
        commands.into_iter().for_each(|command| self.push(command));
    }

    /// A call: the words of its buffer, record and digest, and the call itself.
    pub fn call(&mut self, call: &Call) {
        if let Call::VertexWith(buffer, _) = call {
            let there = &self.harness.buffer;
            self.extend(renewed(there, buffer, MOST_BUFFER_WORDS, Command::Buffer));
            let there = &self.harness.buffer;
            self.extend(different(there, buffer, Command::SetBuffer));
        }
        if let Some(record) = call.record() {
            let there = &self.harness.record;
            self.extend(renewed(there, record, MOST_RECORD_WORDS, Command::Record));
            let there = &self.harness.record;
            self.extend(different(there, record, Command::SetRecord));
        }
        if let Call::Propose(digest) = call {
            let there = &self.harness.digest;
            self.extend(different(there, digest, Command::SetDigest));
        }
        self.push(Command::of_call(call));
    }
}

/// The command for another number of words, at most so many, if it is needed.
fn renewed(there: &[u32], words: &[u32], most: u32, renew: fn(u32) -> Command) -> Option<Command> {
    let count = most.min(words.len() as u32);
    (there.len() != count as usize).then(|| renew(count))
}

/// The commands for the words that differ.
fn different(there: &[u32], words: &[u32], set: fn(u32, u32) -> Command) -> Vec<Command> {
    let pairs = (0..).zip(there.iter().zip(words));
    pairs
        .filter(|(_, (old, new))| old != new)
        .map(|(at, (_, &new))| set(at, new))
        .collect()
}

/// What the program keeps between commands: the lent words, the record, the pending buffer and the
/// digest.
#[derive(Clone, Debug, Default)]
pub struct Harness {
    lent: Vec<u32>,
    record: Vec<u32>,
    buffer: Vec<u32>,
    digest: Digest,
}

impl Harness {
    /// Carries a command out. A call answers the numbers of its line without the checksum.
    fn answer(&mut self, command: Command) -> Option<Vec<u32>> {
        let state = &mut self.lent;
        match command {
            Command::End => None,
            Command::Lend(count) => renew(state, count.min(MOST_WORDS)),
            Command::Set(at, word) => set(state, at, word),
            Command::Record(count) => renew(&mut self.record, count.min(MOST_RECORD_WORDS)),
            Command::SetRecord(at, word) => set(&mut self.record, at, word),
            Command::Open(n, own) => numbers(calls::open(state, n, own)),
            Command::Buffer(count) => renew(&mut self.buffer, count.min(MOST_BUFFER_WORDS)),
            Command::SetBuffer(at, word) => set(&mut self.buffer, at, word),
            Command::Vertex => numbers(calls::take_vertex(state, &self.record)),
            Command::VertexWith => self.vertex_with(),
            Command::First => numbers(calls::take_first_message(state, &self.record)),
            Command::Timeout(round, signer) => numbers(calls::take_timeout(state, round, signer)),
            Command::Timeouts(round, mask) => numbers(calls::take_timeouts(state, round, mask)),
            Command::NoVote(round, signer) => numbers(calls::take_no_vote(state, round, signer)),
            Command::SetDigest(at, word) => set(&mut self.digest, at, word),
            Command::Propose => proposal_numbers(calls::propose(state, self.digest)),
            Command::SignNoVote => numbers(calls::sign_no_vote(state)),
            Command::Status => status_numbers(state),
            Command::AskLeaders(k) => Some(vec![calls::ask_leaders(state, k)]),
            Command::AskJournal(k) => Some(vec![calls::ask_journal(state, k)]),
            Command::HandLeaders(k) => counted(calls::hand_leaders(state, k).1),
            Command::HandJournal(k) => counted(calls::hand_journal(state, k).1),
        }
    }

    /// The answer's numbers and the checksum of the buffer's words.
    fn vertex_with(&mut self) -> Option<Vec<u32>> {
        let answer = calls::take_vertex_with(&mut self.lent, &mut self.buffer, &self.record);
        let mut line = numbers(answer)?;
        line.push(checksum(&self.buffer));
        Some(line)
    }

    /// The lent words.
    pub fn lent(&self) -> &[u32] {
        &self.lent
    }

    pub fn record(&self) -> &[u32] {
        &self.record
    }

    pub fn buffer(&self) -> &[u32] {
        &self.buffer
    }

    /// Carries a command out and returns the numbers of the line that it prints, if it is a call.
    pub fn perform(&mut self, command: Command) -> Option<Vec<u32>> {
        let mut line = vec![command.words()[0]];
        line.extend(self.answer(command)?);
        line.push(checksum(&self.lent));
        Some(line)
    }
}

/// So many words, all zero; prints nothing.
fn renew(words: &mut Vec<u32>, count: u32) -> Option<Vec<u32>> {
    *words = vec![0; count as usize];
    None
}

/// A word set if it is there; prints nothing.
fn set(words: &mut [u32], at: u32, word: u32) -> Option<Vec<u32>> {
    if let Some(place) = words.get_mut(at as usize) {
        *place = word;
    }
    None
}

fn numbers(answer: Answer) -> Option<Vec<u32>> {
    Some(vec![
        answer.number,
        answer.id,
        answer.leaders,
        answer.journal,
    ])
}

/// The answer's numbers and the record's words.
fn proposal_numbers(proposal: Proposal) -> Option<Vec<u32>> {
    let mut line = numbers(proposal.answer)?;
    line.extend(proposal.record);
    Some(line)
}

fn status_numbers(state: &[u32]) -> Option<Vec<u32>> {
    let status = calls::status(state);
    Some(vec![
        status.number,
        status.current_round,
        status.committed_round,
        status.leader_count,
        status.journal_count,
    ])
}

/// A list with its length before it.
fn counted(list: &[u32]) -> Option<Vec<u32>> {
    let mut numbers = vec![list.len() as u32];
    numbers.extend(list);
    Some(numbers)
}

/// One number that stands for every word in its place.
fn checksum(words: &[u32]) -> u32 {
    words
        .iter()
        .fold(0, |sum: u32, &word| sum.wrapping_mul(31).wrapping_add(word))
}
