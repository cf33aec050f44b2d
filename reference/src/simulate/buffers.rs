//! Pending buffers drawn at random: of given records, damaged, and of another size.

use super::digests;
use crate::group::{bit, Group};
use crate::harness::MOST_BUFFER_WORDS;
use crate::layout::*;
use crate::pending::{laid_out, records};
use crate::record::Record;
use crate::rng::Rng;

/// A buffer of some of the records, each with that chance: by rising id, one of an id.
pub fn of_some(rng: &mut Rng, chance: u32, pool: &[Record]) -> Vec<u32> {
    let mut drawn: Vec<Record> = pool.to_vec();
    drawn.retain(|_| rng.percent(chance));
    while drawn.len() > BUFFER_SLOTS {
        drawn.swap_remove(rng.below(drawn.len() as u32) as usize);
    }
    drawn.sort_by_key(Record::id);
    drawn.dedup_by_key(|record| record.id());
    laid_out(&drawn)
}

/// A buffer damaged in one of the ways, or with a word or more changed.
pub fn damaged(rng: &mut Rng, group: Group, buffer: &[u32]) -> Vec<u32> {
    let ways = damages(group, buffer);
    match rng.pick(&ways) {
        Some(words) if rng.percent(80) => words.clone(),
        _ => with_other_words(rng, buffer),
    }
}

fn with_other_words(rng: &mut Rng, buffer: &[u32]) -> Vec<u32> {
    let mut words = buffer.to_vec();
    for _ in 0..=rng.below(2) {
        let used = BUFFER_SLOTS.min(words[BUFFER_COUNT] as usize);
        let records = [used, BUFFER_SLOTS][rng.below(2) as usize];
        let at = digests::any_place_after(rng, BUFFER_RECORDS, records);
        words[at] = match rng.below(3) {
            0 => words[at] ^ bit(rng.below(u32::BITS)),
            1 => words[at].wrapping_add(1),
            _ => rng.below(600),
        };
    }
    words
}

/// Every way to damage a well formed buffer: its size, its count, the order of its records, a word
/// after them, and records that a question from 5 to 11 refuses.
pub fn damages(group: Group, buffer: &[u32]) -> Vec<Vec<u32>> {
    let mut ways = sizes(buffer);
    ways.extend(counts(buffer));
    ways.extend(orders(&records(buffer)));
    ways.extend(words_beyond(buffer));
    ways.extend(refused_records(group, &records(buffer)));
    ways.retain(|words| words != buffer);
    ways
}

/// The buffer cut short or made longer.
pub fn sizes(buffer: &[u32]) -> Vec<Vec<u32>> {
    let most = MOST_BUFFER_WORDS as usize;
    let earlier = EARLIER_BUFFER_WORDS[0];
    [0, 1, earlier, BUFFER_WORDS - 1, BUFFER_WORDS + 1, most]
        .map(|size| {
            let mut words = buffer.to_vec();
            words.resize(size, 0);
            words
        })
        .to_vec()
}

/// Other counts: a record less or more, all places, more than there are, and far beyond.
fn counts(buffer: &[u32]) -> Vec<Vec<u32>> {
    let count = buffer[BUFFER_COUNT];
    let most = BUFFER_SLOTS as u32;
    let other = [count.wrapping_sub(1), count + 1, most, most + 1];
    let far = [count | 1 << 16, count | 1 << 31, u32::MAX];
    let with_count = |count: u32| with_word(buffer, BUFFER_COUNT, count);
    other.into_iter().chain(far).map(with_count).collect()
}

/// Two records of one id, equal and different, and neighbours in falling order.
fn orders(records: &[Record]) -> Vec<Vec<u32>> {
    let mut ways = Vec::new();
    for at in ends(records.len()) {
        let again = records[at];
        let other = again.with_other_word(again.id() as usize);
        for more in [again, other] {
            let mut doubled = records.to_vec();
            doubled.truncate(BUFFER_SLOTS - 1);
            doubled.insert(at.min(doubled.len()), more);
            ways.push(laid_out(&doubled));
        }
        if at > 0 {
            let mut swapped = records.to_vec();
            swapped.swap(at - 1, at);
            ways.push(laid_out(&swapped));
        }
    }
    ways
}

/// A word after the records that is not 0: the first, the round of a second record, and the last.
fn words_beyond(buffer: &[u32]) -> Vec<Vec<u32>> {
    let beyond = buffer_end(buffer[BUFFER_COUNT] as usize);
    [beyond, beyond + RECORD_WORDS, BUFFER_WORDS - 1]
        .into_iter()
        .filter(|at| (beyond..BUFFER_WORDS).contains(at))
        .map(|at| with_word(buffer, at, 1))
        .collect()
}

/// The first and the last record in a form that a question from 5 to 11 refuses.
fn refused_records(group: Group, records: &[Record]) -> Vec<Vec<u32>> {
    let mut ways = Vec::new();
    for at in ends(records.len()) {
        for refused in refused_forms(group, records[at]) {
            let mut with_it = records.to_vec();
            with_it[at] = refused;
            ways.push(laid_out(&with_it));
        }
    }
    ways
}

/// Forms of a record, most of which a question from 5 to 11 refuses: each question by some.
pub fn refused_forms(group: Group, record: Record) -> Vec<Record> {
    let all = group.all();
    let beyond = bit(group.n());
    let few = all >> (group.n() + 1 - group.quorum());
    let mut forms = Vec::new();
    let mut form = |change: &dyn Fn(&mut Record)| {
        let mut changed = record;
        change(&mut changed);
        forms.push(changed);
    };
    form(&|r| r.round = 0);
    form(&|r| r.round = LAST_ROUND + 1);
    form(&|r| r.round += 1 << 28);
    form(&|r| r.source = group.n());
    form(&|r| r.strong |= beyond);
    form(&|r| r.timeouts |= beyond);
    form(&|r| r.no_votes |= beyond);
    form(&|r| r.strong = few);
    form(&|r| r.timeouts = if r.timeouts == 0 { all } else { few });
    form(&|r| r.no_votes = if r.no_votes == 0 { all } else { few });
    form(&|r| r.weak_count = group.f() + 1);
    form(&|r| r.weak[WEAK_SLOTS - 1] = 1);
    form(&|r| *r = r.with_weak(&[vertex_id(r.round, 0)]));
    forms
}

/// The first and the last of so many places.
fn ends(count: usize) -> Vec<usize> {
    let mut ends = vec![0, count.saturating_sub(1)];
    ends.dedup();
    ends.retain(|&at| at < count);
    ends
}

fn with_word(buffer: &[u32], at: usize, word: u32) -> Vec<u32> {
    let mut words = buffer.to_vec();
    words[at] = word;
    words
}
