//! The same words lent to both sides.

use crate::engine::{Engine, Second};
use crate::op::{Op, Reply};
use reference::layout::{mask_place, HELD, LAST_ROUND};
use reference::Call;

/// Words before and after the lent ones that no call may touch.
const GUARD: usize = 8;
const GUARD_WORD: u32 = 0xA5A5_A5A5;

/// Words between guard words.
struct Guarded(Vec<u32>);

impl Guarded {
    fn new(words: &[u32]) -> Guarded {
        let mut guarded = vec![GUARD_WORD; words.len() + 2 * GUARD];
        guarded[GUARD..][..words.len()].copy_from_slice(words);
        Guarded(guarded)
    }

    fn words(&self) -> &[u32] {
        &self.0[GUARD..self.0.len() - GUARD]
    }

    fn words_mut(&mut self) -> &mut [u32] {
        let end = self.0.len() - GUARD;
        &mut self.0[GUARD..end]
    }

    fn is_broken(&self) -> bool {
        let (front, rest) = self.0.split_at(GUARD);
        let back = &rest[rest.len() - GUARD..];
        front.iter().chain(back).any(|&word| word != GUARD_WORD)
    }

    /// The first word that differs from others, with its place.
    fn different(&self, others: &[u32]) -> Option<(usize, u32, u32)> {
        if self.words() == others {
            return None;
        }
        let words = self.words().iter().zip(others);
        words
            .enumerate()
            .find(|(_, (tested, second))| tested != second)
            .map(|(at, (&tested, &second))| (at, tested, second))
    }
}

/// A state as the tested engine has it, between guard words, and as the second implementation has;
/// and the pending buffer as the last call left it.
pub struct Pair {
    guarded: Guarded,
    second: Vec<u32>,
    buffer: Vec<u32>,
    released: u32,
}

/// What one call answered on the two sides, and the first word in which the states differ, and the
/// buffers.
#[derive(Clone, Debug, PartialEq, Eq)]
pub struct Difference {
    pub tested: Reply,
    pub second: Reply,
    pub word: Option<(usize, u32, u32)>,
    pub buffer_word: Option<(usize, u32, u32)>,
    pub guards_written: bool,
}

impl Pair {
    pub fn new(words: &[u32]) -> Pair {
        Pair {
            guarded: Guarded::new(words),
            second: words.to_vec(),
            buffer: Vec::new(),
            released: 0,
        }
    }

    /// The words. After a call without difference both sides have the same.
    pub fn words(&self) -> &[u32] {
        &self.second
    }

    pub fn tested_words(&self) -> &[u32] {
        self.guarded.words()
    }

    /// The words of the pending buffer after the last call; none if that had none.
    pub fn buffer(&self) -> &[u32] {
        &self.buffer
    }

    /// How many records of its pending buffer the last call admitted.
    pub fn released(&self) -> u32 {
        self.released
    }

    /// Gives a word another value on both sides.
    pub fn set(&mut self, at: usize, word: u32) {
        self.second[at] = word;
        self.guarded.words_mut()[at] = word;
    }

    /// Makes a call on both sides and compares the answers and every word, those of the call's
    /// pending buffer included.
    pub fn perform(&mut self, engine: &dyn Engine, op: &Op) -> Result<Reply, Box<Difference>> {
        let given = op.clone();
        let mut lent = Guarded::new(op.buffer());
        let tested = engine.perform_lent(self.guarded.words_mut(), lent.words_mut(), &given);
        let second = self.perform_second(op);
        let guards_written = given != *op || self.guarded.is_broken() || lent.is_broken();
        let word = self.guarded.different(&self.second);
        let buffer_word = lent.different(&self.buffer);
        let is_same = tested == second && word.is_none() && buffer_word.is_none();
        if is_same && !guards_written {
            return Ok(second);
        }
        Err(Box::new(Difference {
            tested,
            second,
            word,
            buffer_word,
            guards_written,
        }))
    }

    fn perform_second(&mut self, op: &Op) -> Reply {
        let before = held_count(&self.second);
        self.buffer = op.buffer().to_vec();
        let reply = Second.perform_lent(&mut self.second, &mut self.buffer, op);
        self.released = match (op, reply[0]) {
            (Op::Change(Call::VertexWith(..)), 0) => held_count(&self.second) - before - 1,
            _ => 0,
        };
        reply
    }
}

/// How many vertices the words say are held.
fn held_count(state: &[u32]) -> u32 {
    let held = |round| state.get(mask_place(round, HELD)).copied().unwrap_or(0);
    (1..=LAST_ROUND).map(|round| held(round).count_ones()).sum()
}
