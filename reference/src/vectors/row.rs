//! Rows of calls on states opened for a watcher.

use super::damage::Damage;
use super::worked::vertex;
use crate::call::Call;

/// A group's size and calls after its opening; then words that get other values, and more calls.
pub struct Row {
    pub n: u32,
    pub calls: Vec<Call>,
    pub words: Damage,
    pub next: Vec<Call>,
}

impl Row {
    pub fn of(n: u32, calls: impl IntoIterator<Item = Call>) -> Row {
        Row {
            n,
            calls: calls.into_iter().collect(),
            words: Damage::new(),
            next: Vec::new(),
        }
    }

    pub fn of_four(calls: impl IntoIterator<Item = Call>) -> Row {
        Row::of(4, calls)
    }

    pub fn then(mut self, words: &[(usize, u32)], calls: impl IntoIterator<Item = Call>) -> Row {
        self.words = words.to_vec();
        self.next = calls.into_iter().collect();
        self
    }
}

/// Timeouts for a round by all members, one by one.
pub fn notes(n: u32, round: u32) -> impl Iterator<Item = Call> {
    (0..n).map(move |signer| Call::Timeout(round, signer))
}

/// Round 1 of four members without its leader's vertex.
pub fn lacking() -> Vec<Call> {
    (1..4).map(|source| vertex(1, source, [0; 3])).collect()
}

/// That round, and calls after it.
pub fn after_lacking(calls: impl IntoIterator<Item = Call>) -> Row {
    Row::of_four(lacking().into_iter().chain(calls))
}
