//! Helpers of the tests: short ways to write records, states and expectations.

#![allow(dead_code)]

use std::collections::BTreeMap;

use reference::group::{has, members, Group};
use reference::layout::*;
use reference::line::spaced;
use reference::pending::laid_out;
use reference::record::{first_refusal, Record};
use reference::{
    hand_journal, hand_leaders, open, take_first_message, take_timeout, take_vertex,
    take_vertex_with, Answer,
};

pub type State = Vec<u32>;

/// A watcher's state just opened.
pub fn opened(n: u32) -> State {
    opened_for(n, 0)
}

/// A state just opened, with this word 5.
pub fn opened_for(n: u32, own: u32) -> State {
    let mut state = vec![0; STATE_WORDS];
    assert_eq!(open(&mut state, n, own).number, 0);
    state
}

/// A record without weak ids.
pub fn record(round: u32, source: u32, strong: u32, timeouts: u32, no_votes: u32) -> Record {
    Record {
        round,
        source,
        strong,
        timeouts,
        no_votes,
        ..Record::default()
    }
}

/// A record without certificates and weak ids.
pub fn plain(round: u32, source: u32, strong: u32) -> Record {
    record(round, source, strong, 0, 0)
}

/// A record with weak ids.
pub fn with_weak(record: Record, ids: &[u32]) -> Record {
    record.with_weak(ids)
}

/// Gives a vertex and returns the answer number.
pub fn vertex(state: &mut State, record: Record) -> u32 {
    take_vertex(state, &record.words()).number
}

/// Gives a first message and returns the answer number.
pub fn first(state: &mut State, record: Record) -> u32 {
    take_first_message(state, &record.words()).number
}

/// The vertex 1/source of the paper's state S, with its tag.
pub fn tagged(source: u32, tag: u32) -> Record {
    plain(1, source, 0).with_tag(tag)
}

/// The paper's state S: opened with 4, then vertices of round 1 from 0, 1, 2.
pub fn state_s() -> State {
    let mut state = opened(4);
    for source in 0..3 {
        assert_eq!(vertex(&mut state, tagged(source, 10 + source)), 0);
    }
    state
}

/// Gives vertices that are all to be admitted.
pub fn vertices(state: &mut State, records: &[Record]) {
    for &record in records {
        assert_eq!(vertex(state, record), 0, "{record:?}");
    }
}

/// Gives first messages that are all to be admitted.
pub fn firsts(state: &mut State, records: &[Record]) {
    for &record in records {
        assert_eq!(first(state, record), 0, "{record:?}");
    }
}

/// The words that differ, with their new values.
pub fn changes(before: &State, after: &State) -> Vec<(usize, u32)> {
    (0..STATE_WORDS)
        .filter(|&at| before[at] != after[at])
        .map(|at| (at, after[at]))
        .collect()
}

/// The state with other words.
pub fn with(state: &State, words: &[(usize, u32)]) -> State {
    let mut state = state.clone();
    words.iter().for_each(|&(at, word)| state[at] = word);
    state
}

/// Place of a round's timeouts, and of its no-votes.
pub fn timeouts(round: u32) -> usize {
    mask_place(round, TIMEOUTS)
}

pub fn no_votes(round: u32) -> usize {
    mask_place(round, NO_VOTES)
}

/// The state with single timeouts of these members, all to be admitted.
pub fn noted(mut state: State, round: u32, signers: u32) -> State {
    for signer in members(signers) {
        assert_eq!(take_timeout(&mut state, round, signer).number, 0);
    }
    state
}

/// Four members with 1/1, 1/2 and 1/3 and without the leader's 1/0, in round 1.
pub fn lacking_leader(own: u32) -> State {
    let mut state = opened_for(4, own);
    vertices(&mut state, &[1, 2, 3].map(|source| plain(1, source, 0)));
    assert_eq!(state[CURRENT_ROUND], 1);
    state
}

/// Leader list and journal from entry 0.
pub fn lists(state: &[u32]) -> (Vec<u32>, Vec<u32>) {
    (
        hand_leaders(state, 0).1.to_vec(),
        hand_journal(state, 0).1.to_vec(),
    )
}

/// A state with leaders 16 33, journal 16 17 18 33, notes, and a record with a weak id.
pub fn rich_state() -> State {
    let mut state = state_s();
    vertices(
        &mut state,
        &[
            plain(1, 3, 0),
            plain(2, 0, 7),
            plain(2, 1, 7),
            record(2, 3, 14, 7, 0),
        ],
    );
    firsts(
        &mut state,
        &[
            plain(3, 0, 11),
            plain(3, 1, 11),
            plain(3, 2, 11),
            record(2, 2, 14, 7, 0),
        ],
    );
    vertices(&mut state, &[with_weak(plain(3, 0, 11), &[19])]);
    assert_eq!(reference::take_timeout(&mut state, 5, 2).number, 0);
    assert_eq!(reference::take_no_vote(&mut state, 6, 3).number, 0);
    assert_eq!(lists(&state), (vec![16, 33], vec![16, 17, 18, 33]));
    state
}

/// Lines as 01 has them, each record with the words that 02 gives it: the tag is the first word of the
/// digest, the others are 0.
pub fn in_full(lines: &str) -> String {
    let line = |line: &str| match line.chars().next() {
        Some(letter @ ('V' | 'F')) => {
            let words = line.split_whitespace().skip(1);
            let words: Vec<u32> = words.flat_map(str::parse).collect();
            let [round, source, strong, timeouts, no_votes, tag, weak_count, ref weak @ ..] =
                words[..]
            else {
                panic!("{line} is not as 01 has it");
            };
            let mut made = record(round, source, strong, timeouts, no_votes).with_tag(tag);
            made.weak_count = weak_count;
            made.weak.copy_from_slice(weak);
            spaced(letter, &made.words()) + "\n"
        }
        _ => format!("{line}\n"),
    };
    lines.lines().map(line).collect()
}

pub type Buffer = Vec<u32>;

/// The held vertices by id.
pub fn held_records(state: &[u32]) -> BTreeMap<u32, Record> {
    let mut records = BTreeMap::new();
    for round in 1..=LAST_ROUND {
        for member in members(state[mask_place(round, HELD)]) {
            let record = Record::from_cell(round, member, &state[cell_place(round, member)]);
            records.insert(
                vertex_id(round, member),
                record.expect("a cell has its size"),
            );
        }
    }
    records
}

pub fn holds(state: &[u32], id: u32) -> bool {
    has(state[mask_place(round_of(id), HELD)], member_of(id))
}

/// Whether a buffer is sound, as 02 says it, word by word.
pub fn is_sound_buffer(buffer: &[u32], n: u32) -> bool {
    if buffer.len() != BUFFER_WORDS || buffer[BUFFER_COUNT] as usize > BUFFER_SLOTS {
        return false;
    }
    let group = Group::new(n).expect("the size is legal");
    let mut last = 0;
    for (at, words) in places_of(buffer).enumerate() {
        let record = Record::from_words(words).expect("a place has its size");
        if at >= buffer[BUFFER_COUNT] as usize {
            if words.iter().any(|&word| word != 0) {
                return false;
            }
        } else if first_refusal(group, &record).is_some() || record.id() <= last {
            return false;
        } else {
            last = record.id();
        }
    }
    true
}

/// The records of a sound buffer, by rising id.
pub fn records_of(buffer: &[u32]) -> Vec<Record> {
    let used = places_of(buffer).take(buffer[BUFFER_COUNT] as usize);
    used.filter_map(Record::from_words).collect()
}

fn places_of(buffer: &[u32]) -> impl Iterator<Item = &[u32]> {
    buffer[BUFFER_RECORDS..].chunks(RECORD_WORDS)
}

/// What 02 says of a vertex with a buffer, by plain vertex calls alone: the answer, the state and the
/// buffer after it, and the records that the passes admitted, in turn.
pub fn by_plain_calls(
    state: &State,
    buffer: &Buffer,
    record: &[u32],
) -> (Answer, State, Buffer, Vec<Record>) {
    let mut after = state.clone();
    let plain = take_vertex(&mut after, record);
    let unchanged = |answer| (answer, state.clone(), buffer.clone(), Vec::new());
    if [1, 3].contains(&plain.number) {
        return unchanged(plain);
    }
    if !is_sound_buffer(buffer, state[N]) {
        return unchanged(Answer::refused(19));
    }
    let mut pending = records_of(buffer);
    if plain.number == 14 {
        let record = Record::from_words(record).expect("it has passed question 4");
        let same = pending.iter().find(|there| there.id() == record.id());
        match same {
            Some(there) => return unchanged(Answer::refused(12 + u32::from(*there != record))),
            None if pending.len() == BUFFER_SLOTS => return unchanged(Answer::refused(20)),
            None => {}
        }
        pending.push(record);
        pending.sort_by_key(Record::id);
        return (plain, state.clone(), laid_out(&pending), Vec::new());
    }
    if plain.number != 0 {
        return unchanged(plain);
    }
    let mut sums = plain;
    let mut released = Vec::new();
    loop {
        let before = released.len();
        for record in pending.clone() {
            let answer = take_vertex(&mut after, &record.words());
            sums.leaders += answer.leaders;
            sums.journal += answer.journal;
            if answer.number == 0 {
                released.push(record);
            }
            if answer.number != 14 {
                pending.retain(|other| other.id() != record.id());
            }
        }
        if released.len() == before {
            return (sums, after, laid_out(&pending), released);
        }
    }
}

/// Takes a vertex with a buffer, and checks the answer and every word against plain calls, and that
/// after an admission no record of the buffer is held or has all parents held. Returns the answer and
/// what the passes admitted.
pub fn checked_with(
    state: &mut State,
    buffer: &mut Buffer,
    record: &[u32],
) -> (Answer, Vec<Record>) {
    let (expected, state_after, buffer_after, released) = by_plain_calls(state, buffer, record);
    let answer = take_vertex_with(state, buffer, record);
    assert_eq!(answer, expected, "{record:?}");
    assert!(*state == state_after, "{record:?}");
    assert_eq!(*buffer, buffer_after, "{record:?}");
    if answer.number == 0 {
        for record in records_of(buffer) {
            assert!(!holds(state, record.id()), "{record:?}");
            assert!(!record.parents().all(|id| holds(state, id)), "{record:?}");
        }
    }
    (answer, released)
}
