//! Yardbook ordering engine: the C interface as safe functions over slices. Nothing is allocated and nothing panics.
//! `host/yardbook.h` documents the calls and the numbers. What it asks of a C host (alignment, one user at a time, no overlap)
//! holds of every `&mut [u32]` and `&[u32]`.

#![no_std]

use core::ops::Range;

/// Rounds go from 1 to `ROUNDS`.
pub const ROUNDS: usize = 32;

/// A group has at most `MEMBERS` members. A vertex id is 16 * round + member.
pub const MEMBERS: usize = 16;

/// Words and bytes of a digest.
pub const DIGEST_WORDS: usize = 8;
pub const DIGEST_BYTES: usize = 4 * DIGEST_WORDS;

/// Weak ids that a record has room for.
pub const WEAK_SLOTS: usize = 5;

/// The words of a record. A mask has bit p set for member p.
pub mod record {
    pub const ROUND: usize = 0;
    pub const SOURCE: usize = 1;
    pub const STRONG: usize = 2;
    pub const TIMEOUTS: usize = 3;
    pub const NO_VOTES: usize = 4;
    pub const DIGEST: usize = 5;
    pub const WEAK_COUNT: usize = DIGEST + super::DIGEST_WORDS;
    pub const WEAK: usize = WEAK_COUNT + 1;
}

/// Words of a record.
pub const RECORD_WORDS: usize = record::WEAK + WEAK_SLOTS;

/// Where a replica state's cells start. Each round and member has one: a record but for round and source.
const CELLS: usize = 744;
const CELL_WORDS: usize = RECORD_WORDS - record::STRONG;

/// Words of a replica state.
pub const STATE_WORDS: usize = CELLS + ROUNDS * MEMBERS * CELL_WORDS;

/// Records that a pending buffer has room for.
pub const BUFFER_SLOTS: usize = 32;

/// Words of a pending buffer: the count of its records, the records by rising id, and zeros.
pub const BUFFER_WORDS: usize = 1 + BUFFER_SLOTS * RECORD_WORDS;

const _: () = assert!(RECORD_WORDS == 19 && STATE_WORDS == 9448 && BUFFER_WORDS == 609);

/// What an answer's number says.
pub mod number {
    pub const OK: u32 = 0;
    pub const STATE_SIZE: u32 = 1;
    pub const MEMBER_COUNT: u32 = 2;
    pub const MALFORMED: u32 = 3;
    pub const RECORD_SIZE: u32 = 4;
    pub const ROUND: u32 = 5;
    pub const SOURCE: u32 = 6;
    pub const MASK_BITS: u32 = 7;
    pub const STRONG: u32 = 8;
    pub const TIMEOUTS: u32 = 9;
    pub const NO_VOTES: u32 = 10;
    pub const WEAK: u32 = 11;
    pub const DUPLICATE: u32 = 12;
    pub const CONFLICT: u32 = 13;
    pub const MISSING_PARENT: u32 = 14;
    pub const PAST_END: u32 = 15;
    pub const WATCHER: u32 = 16;
    pub const SIGNING: u32 = 17;
    pub const FEW_PARENTS: u32 = 18;
    pub const BUFFER: u32 = 19;
    pub const BUFFER_FULL: u32 = 20;
}

/// The number, with `MISSING_PARENT` the smallest missing parent's id, and how many entries the call added to each list.
#[repr(C)]
#[derive(Clone, Copy, Debug, PartialEq, Eq)]
pub struct Answer {
    pub number: u32,
    pub id: u32,
    pub leaders: u32,
    pub journal: u32,
}

/// The host's name for its block: 32 bytes, as the eight words that a record has for them; any words. Word i has the bytes 4i to
/// 4i + 3, the first of them the lowest (little-endian), whatever the machine's own order is.
#[derive(Clone, Copy, Debug, Default, PartialEq, Eq, Hash)]
pub struct Digest(pub [u32; DIGEST_WORDS]);

impl Digest {
    /// Four bytes to a word, the first of them the lowest.
    #[must_use]
    pub const fn from_bytes(bytes: &[u8; DIGEST_BYTES]) -> Digest {
        let mut words = [0; DIGEST_WORDS];
        let mut i = 0;
        while i < DIGEST_BYTES {
            words[i / 4] |= (bytes[i] as u32) << (8 * (i % 4));
            i += 1;
        }
        Digest(words)
    }

    /// The bytes that `from_bytes` has it from.
    #[must_use]
    pub const fn to_bytes(&self) -> [u8; DIGEST_BYTES] {
        let mut bytes = [0; DIGEST_BYTES];
        let mut i = 0;
        while i < DIGEST_BYTES {
            bytes[i] = (self.0[i / 4] >> (8 * (i % 4))) as u8;
            i += 1;
        }
        bytes
    }

    /// The digest in a record.
    #[must_use]
    pub fn of_record(record: &[u32; RECORD_WORDS]) -> Digest {
        let mut digest = Digest::default();
        digest.0.copy_from_slice(&record[DIGEST_IN_RECORD]);
        digest
    }

    /// Puts the digest into a record.
    pub fn put_into(&self, record: &mut [u32; RECORD_WORDS]) {
        record[DIGEST_IN_RECORD].copy_from_slice(&self.0);
    }
}

impl From<[u8; DIGEST_BYTES]> for Digest {
    fn from(bytes: [u8; DIGEST_BYTES]) -> Digest {
        Digest::from_bytes(&bytes)
    }
}

const DIGEST_IN_RECORD: Range<usize> = record::DIGEST..record::WEAK_COUNT;

/// A made record; all 0 where the answer's number is not 0.
#[repr(C)]
#[derive(Clone, Copy, Debug, PartialEq, Eq)]
pub struct Proposal {
    pub answer: Answer,
    pub record: [u32; RECORD_WORDS],
}

#[repr(C)]
#[derive(Clone, Copy, Debug, PartialEq, Eq)]
pub struct Status {
    pub number: u32,
    pub current_round: u32,
    pub committed_round: u32,
    pub leader_count: u32,
    pub journal_count: u32,
}

/// Ids, as a part of the state.
#[derive(Clone, Copy, Debug, PartialEq, Eq)]
pub struct List<'a> {
    pub number: u32,
    pub ids: &'a [u32],
}

mod c {
    use super::{Answer, Proposal, Status};

    #[repr(C)]
    pub struct Part {
        pub number: u32,
        pub start: u32,
        pub length: u32,
    }

    extern "C" {
        pub fn yardbook_open(state: *mut u32, words: usize, n: u32, own: u32) -> Answer;
        pub fn yardbook_take_vertex(
            state: *mut u32,
            words: usize,
            record: *const u32,
            record_words: usize,
        ) -> Answer;
        pub fn yardbook_take_vertex_with(
            state: *mut u32,
            words: usize,
            buffer: *mut u32,
            buffer_words: usize,
            record: *const u32,
            record_words: usize,
        ) -> Answer;
        pub fn yardbook_take_first_message(
            state: *mut u32,
            words: usize,
            record: *const u32,
            record_words: usize,
        ) -> Answer;
        pub fn yardbook_take_timeout(
            state: *mut u32,
            words: usize,
            round: u32,
            signer: u32,
        ) -> Answer;
        pub fn yardbook_take_timeouts(
            state: *mut u32,
            words: usize,
            round: u32,
            mask: u32,
        ) -> Answer;
        pub fn yardbook_take_no_vote(
            state: *mut u32,
            words: usize,
            round: u32,
            signer: u32,
        ) -> Answer;
        pub fn yardbook_propose(state: *mut u32, words: usize, digest: *const u32) -> Proposal;
        pub fn yardbook_sign_no_vote(state: *mut u32, words: usize) -> Answer;
        pub fn yardbook_status(state: *const u32, words: usize) -> Status;
        pub fn yardbook_ask_leaders(state: *const u32, words: usize, k: u32) -> Answer;
        pub fn yardbook_ask_journal(state: *const u32, words: usize, k: u32) -> Answer;
        pub fn yardbook_hand_leaders(state: *const u32, words: usize, k: u32) -> Part;
        pub fn yardbook_hand_journal(state: *const u32, words: usize, k: u32) -> Part;
    }
}

// SAFETY, of every call below: a slice gives an aligned pointer with that many words behind it, and a digest one with its eight; a
// `&mut` one is used by nothing else, and what a call is lent does not overlap. The calls are total and keep no pointer.

/// Opens the state for a group of n members. `own` is the own member plus 1, or 0 for a watcher.
#[must_use]
pub fn open(state: &mut [u32], n: u32, own: u32) -> Answer {
    unsafe { c::yardbook_open(state.as_mut_ptr(), state.len(), n, own) }
}

/// Takes a vertex that reliable broadcast has delivered. If it is admitted, its timeout mask joins the timeouts of the round
/// before, and the current round is at least the vertex's round afterwards. It is a `DUPLICATE` where a vertex of its round and
/// source is held that is the same in all words, all eight of the digest included, and a `CONFLICT` where another one is.
#[must_use]
pub fn take_vertex(state: &mut [u32], record: &[u32]) -> Answer {
    unsafe {
        c::yardbook_take_vertex(
            state.as_mut_ptr(),
            state.len(),
            record.as_ptr(),
            record.len(),
        )
    }
}

/// Takes a delivered vertex, parents first or not. With `MISSING_PARENT` it waits in the buffer, and once it has its parents
/// it is admitted by the call that admits the last of them. With `BUFFER_FULL` it is not kept. The buffer is all 0 at first, and
/// is lent to the calls on one state only.
#[must_use]
pub fn take_vertex_with(state: &mut [u32], buffer: &mut [u32], record: &[u32]) -> Answer {
    unsafe {
        c::yardbook_take_vertex_with(
            state.as_mut_ptr(),
            state.len(),
            buffer.as_mut_ptr(),
            buffer.len(),
            record.as_ptr(),
            record.len(),
        )
    }
}

/// Takes a sender's first broadcast message, seen before delivery.
#[must_use]
pub fn take_first_message(state: &mut [u32], record: &[u32]) -> Answer {
    unsafe {
        c::yardbook_take_first_message(
            state.as_mut_ptr(),
            state.len(),
            record.as_ptr(),
            record.len(),
        )
    }
}

/// Takes a signer's timeout for the round. It is a `DUPLICATE` also where a vertex has carried it.
#[must_use]
pub fn take_timeout(state: &mut [u32], round: u32, signer: u32) -> Answer {
    unsafe { c::yardbook_take_timeout(state.as_mut_ptr(), state.len(), round, signer) }
}

/// Takes a bundle: the timeouts for the round by all members of the mask. It is a `DUPLICATE` where nobody in the mask is new;
/// otherwise members noted before do no harm, and it ends as `take_timeout` for each new member does, in any order.
#[must_use]
pub fn take_timeouts(state: &mut [u32], round: u32, mask: u32) -> Answer {
    unsafe { c::yardbook_take_timeouts(state.as_mut_ptr(), state.len(), round, mask) }
}

/// Takes a signer's no-vote for the round.
#[must_use]
pub fn take_no_vote(state: &mut [u32], round: u32, signer: u32) -> Answer {
    unsafe { c::yardbook_take_no_vote(state.as_mut_ptr(), state.len(), round, signer) }
}

/// Makes the own member's record for the current round, with the host's digest. The host sends it, and hands it back to
/// `take_first_message` and `take_vertex` itself.
#[must_use]
pub fn propose(state: &mut [u32], digest: &Digest) -> Proposal {
    unsafe { c::yardbook_propose(state.as_mut_ptr(), state.len(), digest.0.as_ptr()) }
}

/// Signs the own member's no-vote against the leader of the round before the current one. The host sends it to the others.
#[must_use]
pub fn sign_no_vote(state: &mut [u32]) -> Answer {
    unsafe { c::yardbook_sign_no_vote(state.as_mut_ptr(), state.len()) }
}

/// The rounds and the counts.
#[must_use]
pub fn status(state: &[u32]) -> Status {
    unsafe { c::yardbook_status(state.as_ptr(), state.len()) }
}

/// Asks for the leader list from entry k on.
#[must_use]
pub fn ask_leaders(state: &[u32], k: u32) -> Answer {
    unsafe { c::yardbook_ask_leaders(state.as_ptr(), state.len(), k) }
}

/// Asks for the journal from entry k on.
#[must_use]
pub fn ask_journal(state: &[u32], k: u32) -> Answer {
    unsafe { c::yardbook_ask_journal(state.as_ptr(), state.len(), k) }
}

/// The leader list from entry k on.
#[must_use]
pub fn hand_leaders(state: &[u32], k: u32) -> List<'_> {
    list(state, unsafe {
        c::yardbook_hand_leaders(state.as_ptr(), state.len(), k)
    })
}

/// The journal from entry k on.
#[must_use]
pub fn hand_journal(state: &[u32], k: u32) -> List<'_> {
    list(state, unsafe {
        c::yardbook_hand_journal(state.as_ptr(), state.len(), k)
    })
}

// A part lies within the words, so the slice is never out of range.
fn list(state: &[u32], part: c::Part) -> List<'_> {
    let start = part.start as usize;
    List {
        number: part.number,
        ids: &state[start..start + part.length as usize],
    }
}
