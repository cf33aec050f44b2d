//! Layout of the state, of a record and of a pending buffer, in words of 32 bits. Each number of 01
//! and 02 is named or worked out here, and nowhere else.

use std::ops::Range;

/// The legal group sizes.
pub const LEGAL_SIZES: [u32; 5] = [4, 7, 10, 13, 16];
/// Rounds run from 1 to this one.
pub const LAST_ROUND: u32 = 32;
/// The highest round that can be committed: its votes stand in the round after.
pub const LAST_COMMITTABLE_ROUND: u32 = LAST_ROUND - 1;
/// The highest current round, reached when the last round is complete.
pub const LAST_CURRENT_ROUND: u32 = LAST_ROUND + 1;
/// The most leaders that a round can have (02, request A10).
pub const MOST_LEADERS: u32 = 3;
/// A vertex id (01: ref) is this many times the round, plus the member.
pub const IDS_PER_ROUND: u32 = 16;
/// The vertex ids of all rounds.
const IDS: usize = LAST_ROUND as usize * IDS_PER_ROUND as usize;

/// Words of a digest (01: the tag; 02, request A7).
pub const DIGEST_WORDS: usize = 8;
/// Weak ids that a record has room for.
pub const WEAK_SLOTS: usize = 5;

/// Places of a cell's words, and how many it has: those of a record without round and source.
pub const CELL_STRONG: usize = 0;
pub const CELL_TIMEOUTS: usize = 1;
pub const CELL_NO_VOTES: usize = 2;
pub const CELL_DIGEST: Range<usize> = words_from(3, DIGEST_WORDS);
pub const CELL_WEAK_COUNT: usize = CELL_DIGEST.end;
pub const CELL_WEAK: Range<usize> = words_from(CELL_WEAK_COUNT + 1, WEAK_SLOTS);
pub const CELL_WORDS: usize = CELL_WEAK.end;

/// Places of a record's words, and how many it has.
pub const RECORD_ROUND: usize = 0;
pub const RECORD_SOURCE: usize = 1;
pub const RECORD_CELL: Range<usize> = words_from(2, CELL_WORDS);
pub const RECORD_WORDS: usize = RECORD_CELL.end;

/// A pending buffer (02: shelf): its count of records, and the records, for which it has so many
/// places.
pub const BUFFER_COUNT: usize = 0;
pub const BUFFER_RECORDS: usize = 1;
pub const BUFFER_SLOTS: usize = 32;
pub const BUFFER_WORDS: usize = buffer_end(BUFFER_SLOTS);

/// The first words of a state (01: sheet).
pub const N: usize = 0;
pub const CURRENT_ROUND: usize = 1;
pub const COMMITTED_ROUND: usize = 2;
pub const LEADER_COUNT: usize = 3;
pub const JOURNAL_COUNT: usize = 4;
/// The own member plus 1, 0 for a watcher.
pub const OWN: usize = 5;
/// The rounds for which a record was made, and those whose leader we signed a no-vote against: the
/// bits of `round_bit`.
pub const MADE_ROUNDS: usize = 6;
pub const SIGNED_NO_VOTES: usize = 7;

/// The masks of all rounds, and how many each round has.
pub const MASKS: Range<usize> = words_from(8, MASKS_PER_ROUND * LAST_ROUND as usize);
pub const MASKS_PER_ROUND: usize = 6;
/// Places of a round's masks among its six.
pub const HELD: usize = 0;
pub const HEARD: usize = 1;
pub const VOTES: usize = 2;
pub const TIMEOUTS: usize = 3;
pub const NO_VOTES: usize = 4;
pub const ORDERED: usize = 5;

pub const LEADER_LIST: Range<usize> = words_from(MASKS.end, LAST_ROUND as usize);
pub const JOURNAL: Range<usize> = words_from(LEADER_LIST.end, IDS);
/// The cells, by rising round and member.
pub const CELLS: Range<usize> = words_from(JOURNAL.end, CELL_WORDS * IDS);
/// Words of a whole state.
pub const STATE_WORDS: usize = CELLS.end;

/// Words of a record, a state and a pending buffer in 01 and in 02's requests up to A6: all refused.
pub const EARLIER_RECORD_WORDS: [usize; 1] = [12];
pub const EARLIER_STATE_WORDS: [usize; 1] = [5_864];
pub const EARLIER_BUFFER_WORDS: [usize; 1] = [385];

/// So many words from a place on.
const fn words_from(start: usize, count: usize) -> Range<usize> {
    start..start + count
}

/// These sizes, and each with a word less and a word more.
pub fn near_sizes(sizes: &[usize]) -> Vec<usize> {
    let near = |size: &usize| [size - 1, *size, size + 1];
    sizes.iter().flat_map(near).collect()
}

/// Place of a mask of a round from 1 to 32.
pub fn mask_place(round: u32, mask: usize) -> usize {
    MASKS.start + MASKS_PER_ROUND * (round as usize - 1) + mask
}

/// The bit of a round from 1 to 32 in a mask by round.
pub fn round_bit(round: u32) -> u32 {
    1 << (round - 1)
}

/// Words of the cell of a round from 1 to 32 and a member from 0 to 15.
pub fn cell_place(round: u32, member: u32) -> Range<usize> {
    let start = CELLS.start + CELL_WORDS * (vertex_id(round - 1, member) as usize);
    words_from(start, CELL_WORDS)
}

/// Place of one of a cell's words in the state.
pub fn cell_word(round: u32, member: u32, place: usize) -> usize {
    cell_place(round, member).start + place
}

/// Place of one of a cell's words in a record.
pub const fn record_word(place: usize) -> usize {
    RECORD_CELL.start + place
}

/// Where so many records end in a pending buffer.
pub const fn buffer_end(count: usize) -> usize {
    BUFFER_RECORDS + RECORD_WORDS * count
}

/// The vertex id (01: ref) of a round up to 32 and a member below 16.
pub fn vertex_id(round: u32, member: u32) -> u32 {
    IDS_PER_ROUND * round + member
}

/// The round that a vertex id names.
pub fn round_of(id: u32) -> u32 {
    id / IDS_PER_ROUND
}

/// The member that a vertex id names.
pub fn member_of(id: u32) -> u32 {
    id % IDS_PER_ROUND
}
