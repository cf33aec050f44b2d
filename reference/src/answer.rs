//! What calls answer: the number of the first question with "no", or 0.

use crate::layout::RECORD_WORDS;

/// The call was admitted.
pub const ADMITTED: u32 = 0;
/// The state has not its number of words.
pub const STATE_SIZE: u32 = 1;
/// Opening: n is not legal.
pub const GROUP_SIZE: u32 = 2;
/// The state is not well formed (01: sound).
pub const NOT_WELL_FORMED: u32 = 3;
/// The record has not its number of words.
pub const RECORD_SIZE: u32 = 4;
/// The round is not 1 to 32.
pub const ROUND: u32 = 5;
/// The source, signer or own member is not below n.
pub const MEMBER: u32 = 6;
/// A mask has a bit at n or above.
pub const MASK_BITS: u32 = 7;
/// The strong mask is not what the round asks for.
pub const STRONG: u32 = 8;
/// The timeout mask is not what the strong mask asks for.
pub const TIMEOUT: u32 = 9;
/// The no-vote mask is not what strong mask and source ask for.
pub const NO_VOTE: u32 = 10;
/// The weak count or ids are out of order or range.
pub const WEAK: u32 = 11;
/// The same thing was taken before; of a bundle, nobody is new. Of a vertex with a missing parent,
/// the pending buffer has the same record.
pub const NOT_NEW: u32 = 12;
/// The cell holds a different record, or with a missing parent the pending buffer has one.
pub const CONFLICT: u32 = 13;
/// A parent is not held. With a pending buffer, the record was put there.
pub const MISSING_PARENT: u32 = 14;
/// The start of a list lies beyond its count.
pub const LIST_START: u32 = 15;
/// The state is a watcher's: it has no own member.
pub const WATCHER: u32 = 16;
/// Signing a no-vote is not allowed.
pub const SIGNING: u32 = 17;
/// Our record would have fewer strong parents than a quorum.
pub const FEW_PARENTS: u32 = 18;
/// The pending buffer is not well formed, or has not its number of words.
pub const BUFFER: u32 = 19;
/// A parent is not held, and the pending buffer has no place for the record.
pub const BUFFER_FULL: u32 = 20;

/// The answer of a call that may change the state.
#[derive(Clone, Copy, Debug, Default, PartialEq, Eq)]
pub struct Answer {
    pub number: u32,
    /// With 14 the smallest vertex id among the missing parents, else 0.
    pub id: u32,
    /// How many leaders the call added.
    pub leaders: u32,
    /// How many journal entries the call added.
    pub journal: u32,
}

impl Answer {
    /// A refusal that brings no vertex id.
    pub fn refused(number: u32) -> Answer {
        Answer {
            number,
            ..Answer::default()
        }
    }

    /// The refusal 14.
    pub fn missing_parent(id: u32) -> Answer {
        Answer {
            number: MISSING_PARENT,
            id,
            ..Answer::default()
        }
    }
}

/// The answer of making our own vertex, and the record's words: all 0 if refused.
#[derive(Clone, Copy, Debug, Default, PartialEq, Eq)]
pub struct Proposal {
    pub answer: Answer,
    pub record: [u32; RECORD_WORDS],
}

/// The answer of the status call (01: the head): words 1 to 4 of the state, or zeros.
#[derive(Clone, Copy, Debug, Default, PartialEq, Eq)]
pub struct Status {
    pub number: u32,
    pub current_round: u32,
    pub committed_round: u32,
    pub leader_count: u32,
    pub journal_count: u32,
}
