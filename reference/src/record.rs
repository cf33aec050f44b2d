//! A record and the questions about it that need only the group: 5 to 11.

use crate::answer;
use crate::group::{has, members, Group};
use crate::layout::*;

/// What names the host's block: any words.
pub type Digest = [u32; DIGEST_WORDS];

/// The digest that a tag of 01's cases stands for: its first word, the others 0.
pub fn digest_of_tag(tag: u32) -> Digest {
    let mut digest = Digest::default();
    digest[0] = tag;
    digest
}

/// The words of a record, by name.
#[derive(Clone, Copy, Debug, Default, PartialEq, Eq)]
pub struct Record {
    pub round: u32,
    pub source: u32,
    pub strong: u32,
    pub timeouts: u32,
    pub no_votes: u32,
    pub digest: Digest,
    pub weak_count: u32,
    pub weak: [u32; WEAK_SLOTS],
}

impl Record {
    /// The record of these words, if they are as many as a record has.
    pub fn from_words(words: &[u32]) -> Option<Record> {
        let words = <&[u32; RECORD_WORDS]>::try_from(words).ok()?;
        Record::from_cell(
            words[RECORD_ROUND],
            words[RECORD_SOURCE],
            &words[RECORD_CELL],
        )
    }

    /// The record that a cell's words stand for, given the cell's round and member.
    pub fn from_cell(round: u32, source: u32, cell: &[u32]) -> Option<Record> {
        let cell = <&[u32; CELL_WORDS]>::try_from(cell).ok()?;
        Some(Record {
            round,
            source,
            strong: cell[CELL_STRONG],
            timeouts: cell[CELL_TIMEOUTS],
            no_votes: cell[CELL_NO_VOTES],
            digest: cell[CELL_DIGEST].try_into().ok()?,
            weak_count: cell[CELL_WEAK_COUNT],
            weak: cell[CELL_WEAK].try_into().ok()?,
        })
    }

    pub fn words(&self) -> [u32; RECORD_WORDS] {
        let mut words = [0; RECORD_WORDS];
        words[RECORD_ROUND] = self.round;
        words[RECORD_SOURCE] = self.source;
        words[RECORD_CELL].copy_from_slice(&self.cell());
        words
    }

    /// The words without round and source, as kept in a cell.
    pub fn cell(&self) -> [u32; CELL_WORDS] {
        let mut cell = [0; CELL_WORDS];
        cell[CELL_STRONG] = self.strong;
        cell[CELL_TIMEOUTS] = self.timeouts;
        cell[CELL_NO_VOTES] = self.no_votes;
        cell[CELL_DIGEST].copy_from_slice(&self.digest);
        cell[CELL_WEAK_COUNT] = self.weak_count;
        cell[CELL_WEAK].copy_from_slice(&self.weak);
        cell
    }

    /// The vertex id; only for records that pass questions 5 and 6.
    pub fn id(&self) -> u32 {
        vertex_id(self.round, self.source)
    }

    /// The record with a tag of 01's cases.
    pub fn with_tag(self, tag: u32) -> Record {
        let digest = digest_of_tag(tag);
        Record { digest, ..self }
    }

    /// The record with another word at this place of its digest, counted round and round.
    pub fn with_other_word(mut self, at: usize) -> Record {
        self.digest[at % DIGEST_WORDS] ^= 1;
        self
    }

    /// The place in the digest of the only word in which two records differ.
    pub fn only_other_word(&self, other: &Record) -> Option<usize> {
        let at = (0..DIGEST_WORDS).find(|&at| self.digest[at] != other.digest[at])?;
        let mut same = *self;
        same.digest[at] = other.digest[at];
        (same == *other).then_some(at)
    }

    /// The record with these weak ids; those that it has no room for are left out.
    pub fn with_weak(mut self, ids: &[u32]) -> Record {
        let ids = &ids[..ids.len().min(WEAK_SLOTS)];
        self.weak = [0; WEAK_SLOTS];
        self.weak[..ids.len()].copy_from_slice(ids);
        self.weak_count = ids.len() as u32;
        self
    }

    /// The weak ids in use, and those not in use.
    fn weak_parts(&self) -> (&[u32], &[u32]) {
        self.weak
            .split_at(self.weak.len().min(self.weak_count as usize))
    }

    /// Ids of the strong parents; only for records that pass questions 5 to 8.
    pub fn strong_parents(&self) -> impl Iterator<Item = u32> {
        let round = self.round;
        members(self.strong).map(move |member| vertex_id(round - 1, member))
    }

    /// Ids of the weak parents.
    pub fn weak_parents(&self) -> impl Iterator<Item = u32> + '_ {
        self.weak_parts().0.iter().copied()
    }

    /// Ids of all parents; only for records that pass questions 5 to 8.
    pub fn parents(&self) -> impl Iterator<Item = u32> + '_ {
        self.strong_parents().chain(self.weak_parents())
    }

    /// Whether the record votes for the leader of the round before; from question 6 on.
    pub fn votes(&self, group: Group) -> bool {
        self.round >= 2 && has(self.strong, group.leader(self.round - 1))
    }

    /// Question 9's lack: there is a previous leader, and the strong mask lacks it.
    pub fn lacks_previous_leader(&self, group: Group) -> bool {
        self.round >= 2 && !has(self.strong, group.leader(self.round - 1))
    }
}

/// The number of the first question from 5 to 11 that the record does not pass.
pub fn first_refusal(group: Group, record: &Record) -> Option<u32> {
    type Question = fn(Group, &Record) -> bool;
    let questions: [(u32, Question); 7] = [
        (answer::ROUND, |_, record| is_round(record.round)),
        (answer::MEMBER, |group, record| record.source < group.n()),
        (answer::MASK_BITS, masks_within_group),
        (answer::STRONG, strong_mask_fits),
        (answer::TIMEOUT, timeout_mask_fits),
        (answer::NO_VOTE, no_vote_mask_fits),
        (answer::WEAK, weak_ids_fit),
    ];
    questions
        .into_iter()
        .find(|(_, passes)| !passes(group, record))
        .map(|(number, _)| number)
}

/// Question 5.
pub fn is_round(round: u32) -> bool {
    (1..=LAST_ROUND).contains(&round)
}

/// Question 7.
fn masks_within_group(group: Group, record: &Record) -> bool {
    [record.strong, record.timeouts, record.no_votes]
        .into_iter()
        .all(|mask| group.contains(mask))
}

/// Question 8.
fn strong_mask_fits(group: Group, record: &Record) -> bool {
    if record.round == 1 {
        record.strong == 0
    } else {
        group.is_quorum(record.strong)
    }
}

/// Question 9.
fn timeout_mask_fits(group: Group, record: &Record) -> bool {
    if record.lacks_previous_leader(group) {
        group.is_quorum(record.timeouts)
    } else {
        record.timeouts == 0
    }
}

/// Question 10.
fn no_vote_mask_fits(group: Group, record: &Record) -> bool {
    let leads_its_round = record.source == group.leader(record.round);
    if record.lacks_previous_leader(group) && leads_its_round {
        group.is_quorum(record.no_votes)
    } else {
        record.no_votes == 0
    }
}

/// Question 11.
fn weak_ids_fit(group: Group, record: &Record) -> bool {
    let (used, unused) = record.weak_parts();
    let in_range = |&id: &u32| {
        member_of(id) < group.n() && round_of(id) >= 1 && round_of(id) + 2 <= record.round
    };
    record.weak_count <= group.f()
        && used.is_sorted_by(|a, b| a < b)
        && used.iter().all(in_range)
        && unused.iter().all(|&id| id == 0)
}
