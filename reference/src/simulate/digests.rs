//! Digests drawn at random. Each takes one word of the generator and is spread from that, so that what
//! is drawn besides does not depend on how many words a digest has.

use crate::group::{bit, has};
use crate::layout::*;
use crate::pending;
use crate::record::{digest_of_tag, Digest, Record};
use crate::rng::Rng;

/// A digest: of a first word alone, of any one word alone, of ones with at most one word changed, or of
/// any words.
pub fn any(rng: &mut Rng) -> Digest {
    let first = rng.word();
    let mut apart = Rng::new(u64::from(first));
    let mut digest = digest_of_tag(first);
    match apart.below(8) {
        0 | 1 => {}
        2 => digest.rotate_right(apart.below(DIGEST_WORDS as u32) as usize),
        3 => digest = same_or_other(&mut apart, [1; DIGEST_WORDS]),
        _ => digest[1..].fill_with(|| apart.word()),
    }
    digest
}

/// The digest with one word changed, any of them: in a single bit, or in any.
pub fn other(rng: &mut Rng, digest: Digest) -> Digest {
    changed(&mut rng.apart(), digest)
}

/// The digest as it is or, as often, with one word changed.
pub fn same_or_other(rng: &mut Rng, digest: Digest) -> Digest {
    let mut apart = rng.apart();
    if apart.percent(50) {
        changed(&mut apart, digest)
    } else {
        digest
    }
}

fn changed(apart: &mut Rng, mut digest: Digest) -> Digest {
    let at = apart.below(DIGEST_WORDS as u32) as usize;
    digest[at] ^= if apart.percent(50) {
        bit(apart.below(u32::BITS))
    } else {
        1 + apart.below(u32::MAX)
    };
    digest
}

/// The place of any word of a record: one of the digest's as often as each other word.
pub fn any_place(rng: &mut Rng) -> usize {
    any_place_after(rng, 0, 1)
}

/// The place of any word of so many words and, after them, so many records: one of a digest's as often
/// as each other word.
pub fn any_place_after(rng: &mut Rng, words: usize, records: usize) -> usize {
    let parts = RECORD_WORDS - DIGEST_WORDS + 1;
    let digest = record_word(CELL_DIGEST.start);
    let drawn = rng.word() as usize;
    let all = words + parts * records;
    let Some(part) = (drawn % all).checked_sub(words) else {
        return drawn % all;
    };
    let record = words + RECORD_WORDS * (part / parts);
    record
        + match part % parts {
            part if part < digest => part,
            part if part == digest => part + drawn / all % DIGEST_WORDS,
            part => part + DIGEST_WORDS - 1,
        }
}

/// Where the place of a vertex is taken.
#[derive(Clone, Copy, Debug, PartialEq, Eq, PartialOrd, Ord)]
pub enum Taken {
    InCell,
    InBuffer,
}

/// Of a vertex refused with 13: where the other record is, and the word of the digest, if the two differ
/// in no other word.
pub fn only_conflict(state: &[u32], buffer: &[u32], words: &[u32]) -> Option<(Taken, usize)> {
    let record = Record::from_words(words)?;
    let (round, source) = (record.round, record.source);
    let (taken, other) = if has(state[mask_place(round, HELD)], source) {
        let cell = &state[cell_place(round, source)];
        (Taken::InCell, Record::from_cell(round, source, cell)?)
    } else {
        let mut pending = pending::records(buffer).into_iter();
        (
            Taken::InBuffer,
            pending.find(|other| other.id() == record.id())?,
        )
    };
    Some((taken, record.only_other_word(&other)?))
}
