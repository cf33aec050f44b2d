//! The pending buffer (02, request A5: a shelf): records that came before their parents, lent beside
//! the state.

use std::collections::BTreeMap;

use crate::answer::{self, Answer};
use crate::group::Group;
use crate::layout::{
    buffer_end, BUFFER_COUNT, BUFFER_RECORDS, BUFFER_SLOTS, BUFFER_WORDS, RECORD_WORDS,
};
use crate::record::{first_refusal, Record};

/// The records of a well formed buffer, by vertex id.
#[derive(Clone, Debug, Default)]
pub struct PendingBuffer(BTreeMap<u32, Record>);

impl PendingBuffer {
    /// The records of these words, if they are well formed (02: sound) for the group.
    pub fn decode(words: &[u32], group: Group) -> Option<PendingBuffer> {
        is_well_formed(words, group).then(|| {
            let records = records(words).into_iter();
            PendingBuffer(records.map(|record| (record.id(), record)).collect())
        })
    }

    /// All words of the buffer.
    pub fn encode(&self) -> Vec<u32> {
        let records: Vec<Record> = self.0.values().copied().collect();
        laid_out(&records)
    }

    /// What a record with a missing parent gets in place of 14: 12 or 13 by the buffer's record of
    /// its id, 20 if the buffer is full. Else it gets a place, and the 14.
    pub fn keep(&mut self, record: Record, missing: Answer) -> Answer {
        match self.0.get(&record.id()) {
            Some(there) if *there == record => Answer::refused(answer::NOT_NEW),
            Some(_) => Answer::refused(answer::CONFLICT),
            None if self.0.len() == BUFFER_SLOTS => Answer::refused(answer::BUFFER_FULL),
            None => {
                self.0.insert(record.id(), record);
                missing
            }
        }
    }

    /// Tries the records pass after pass, until a pass admits none.
    pub fn release(&mut self, mut take: impl FnMut(&Record) -> u32) {
        while self.pass(&mut take) {}
    }

    /// One pass, from the lowest id up: a record that gets anything but 14 leaves. Whether one was
    /// admitted.
    fn pass(&mut self, take: &mut impl FnMut(&Record) -> u32) -> bool {
        let mut admitted = false;
        self.0.retain(|_, record| {
            let number = take(record);
            admitted |= number == answer::ADMITTED;
            number == answer::MISSING_PARENT
        });
        admitted
    }
}

/// Whether a buffer has its size and is laid out as 02 says, with records that pass questions 5 to
/// 11.
pub fn is_well_formed(words: &[u32], group: Group) -> bool {
    if words.len() != BUFFER_WORDS || words[BUFFER_COUNT] as usize > BUFFER_SLOTS {
        return false;
    }
    let records = records(words);
    records
        .iter()
        .all(|record| first_refusal(group, record).is_none())
        && records.is_sorted_by(|a, b| a.id() < b.id())
        && words[buffer_end(records.len())..]
            .iter()
            .all(|&word| word == 0)
}

/// The records that a buffer's count names, whatever they are; no more than there are words for.
pub fn records(words: &[u32]) -> Vec<Record> {
    let count = words.get(BUFFER_COUNT).copied().unwrap_or(0);
    let places = words.get(BUFFER_RECORDS..).unwrap_or_default();
    places
        .chunks(RECORD_WORDS)
        .take(count as usize)
        .filter_map(Record::from_words)
        .collect()
}

/// A buffer with these records in this order; those that it has no place for are left out.
pub fn laid_out(records: &[Record]) -> Vec<u32> {
    let records = &records[..records.len().min(BUFFER_SLOTS)];
    let mut words = vec![records.len() as u32];
    words.extend(records.iter().flat_map(Record::words));
    words.resize(BUFFER_WORDS, 0);
    words
}
