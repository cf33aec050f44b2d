//! A vertex with a pending buffer: each sentence of 02's request A5.

mod common;

use std::collections::BTreeSet;

use common::*;
use reference::group::{bit, Group};
use reference::layout::*;
use reference::model::Lists;
use reference::pending::{is_well_formed as is_well_formed_buffer, laid_out};
use reference::record::{first_refusal, Record};
use reference::rng::Rng;
use reference::simulate::{buffers, digests, simulate, simulate_proposing, Options};
use reference::vectors::damage;
use reference::*;

/// As a count in a buffer.
const SLOTS: u32 = BUFFER_SLOTS as u32;

fn group(n: u32) -> Group {
    Group::new(n).expect("the size is legal")
}

/// Takes a vertex with a buffer on copies, checked against plain calls; the answer and what is left.
fn taken(state: &State, buffer: &[u32], record: Record) -> (Answer, State, Buffer) {
    let (mut state, mut buffer) = (state.clone(), buffer.to_vec());
    let (answer, _) = checked_with(&mut state, &mut buffer, &record.words());
    (answer, state, buffer)
}

/// A refused call: its number, and no word changed.
fn number(state: &State, buffer: &[u32], record: &[u32]) -> u32 {
    let (mut after, mut left) = (state.clone(), buffer.to_vec());
    let answer = take_vertex_with(&mut after, &mut left, record);
    assert_eq!(answer, Answer::refused(answer.number));
    assert!(after == *state && left == buffer);
    answer.number
}

/// Round 2 on S, of which all need 1/3.
fn waiting() -> [Record; 3] {
    [0, 1, 2].map(|source| plain(2, source, 15))
}

/// As many records as a buffer has places for, of a quorum in rounds from 2 on: all need the last of
/// them in round 1, which `before_chain` leaves out.
fn chain(n: u32) -> Vec<Record> {
    (2..=LAST_ROUND)
        .flat_map(|round| (0..group(n).quorum()).map(move |source| by_quorum(n, round, source)))
        .take(BUFFER_SLOTS)
        .collect()
}

/// A record whose parents are the first members, a quorum, with the certificates that it needs.
fn by_quorum(n: u32, round: u32, source: u32) -> Record {
    let first = bit(group(n).quorum()) - 1;
    let mut record = plain(round, source, first);
    if record.lacks_previous_leader(group(n)) {
        record.timeouts = first;
        record.no_votes = first * u32::from(group(n).leader(round) == source);
    }
    record
}

fn before_chain(n: u32) -> (State, Record) {
    let mut state = opened(n);
    let last = group(n).quorum() - 1;
    for source in 0..last {
        vertices(&mut state, &[plain(1, source, 0)]);
    }
    (state, plain(1, last, 0))
}

#[test]
fn the_layout() {
    let [a, b, _] = waiting();
    let buffer = laid_out(&[a, b]);
    assert_eq!(buffer.len(), BUFFER_WORDS);
    assert_eq!(buffer[BUFFER_COUNT], 2);
    assert_eq!(buffer[BUFFER_RECORDS..][..RECORD_WORDS], a.words());
    assert_eq!(buffer[buffer_end(1)..buffer_end(2)], b.words());
    assert!(buffer[buffer_end(2)..].iter().all(|&word| word == 0));
    assert_eq!(reference::pending::records(&buffer), [a, b]);
}

#[test]
fn an_empty_a_half_full_and_a_full_buffer_are_well_formed() {
    for n in LEGAL_SIZES {
        let chain = chain(n);
        for count in [0, 1, 2, BUFFER_SLOTS / 2, BUFFER_SLOTS - 1, BUFFER_SLOTS] {
            let buffer = laid_out(&chain[..count]);
            assert!(is_well_formed_buffer(&buffer, group(n)));
            assert!(is_sound_buffer(&buffer, n));
        }
    }
}

/// Neither a missing parent nor a free cell is asked for.
#[test]
fn records_that_are_held_or_could_be_are_well_formed() {
    let held = tagged(1, 11);
    let ready = plain(2, 0, 7);
    for records in [vec![held], vec![held.with_tag(5)], vec![held, ready]] {
        let (answer, _, after) = taken(&state_s(), &laid_out(&records), plain(1, 3, 0));
        assert_eq!((answer.number, after[BUFFER_COUNT]), (0, 0));
    }
}

#[test]
fn every_damage_gives_19_before_the_record_s_questions() {
    for n in LEGAL_SIZES {
        let (state, last) = before_chain(n);
        let chain = chain(n);
        let records = [
            last,
            plain(2, 0, bit(n) - 1),
            plain(1, 0, 0),
            plain(0, 99, 0),
        ];
        let mut refused = 0;
        for count in [0, 1, 2, 5, BUFFER_SLOTS - 1, BUFFER_SLOTS] {
            let buffer = laid_out(&chain[..count]);
            for damaged in buffers::damages(group(n), &buffer) {
                let is_sound = is_sound_buffer(&damaged, n);
                assert_eq!(is_well_formed_buffer(&damaged, group(n)), is_sound);
                if is_sound {
                    continue;
                }
                refused += 1;
                for record in records {
                    assert_eq!(number(&state, &damaged, &record.words()), 19);
                }
                for length in [0, RECORD_WORDS - 1, RECORD_WORDS + 1] {
                    assert_eq!(number(&state, &damaged, &vec![0; length]), 19);
                }
            }
        }
        assert!(refused > 100, "{refused}");
    }
}

#[test]
fn each_way_to_damage_a_buffer() {
    let [a, b, c] = waiting();
    let buffer = laid_out(&[a, b, c]);
    let record = plain(1, 3, 0).words();
    let refused = |words: Vec<u32>| assert_eq!(number(&state_s(), &words, &record), 19);
    let used = buffer_end(3);
    for size in [
        0,
        1,
        RECORD_WORDS,
        used,
        BUFFER_WORDS - 1,
        BUFFER_WORDS + 1,
        2 * BUFFER_WORDS,
    ] {
        let mut words = buffer.clone();
        words.resize(size, 0);
        refused(words);
    }
    for count in [
        0,
        1,
        2,
        4,
        5,
        SLOTS,
        SLOTS + 1,
        SLOTS + 2,
        2 * SLOTS,
        1 << 16 | 3,
        1 << 31 | 3,
        u32::MAX,
    ] {
        refused(with(&buffer, &[(BUFFER_COUNT, count)]));
    }
    for records in [
        [a, a, c],
        [a, a.with_tag(9), c],
        [b, a, c],
        [a, c, b],
        [a, c, c],
    ] {
        refused(laid_out(&records));
    }
    for at in used..BUFFER_WORDS {
        refused(with(&buffer, &[(at, 1)]));
    }
    // A full buffer with a count above its places, and a word beyond no records.
    let mut full = laid_out(&chain(4));
    full[BUFFER_COUNT] += 1;
    refused(full);
    for at in 1..BUFFER_WORDS {
        refused(with(&vec![0; BUFFER_WORDS], &[(at, u32::MAX)]));
    }
}

#[test]
fn a_record_that_a_question_refuses_damages_the_buffer() {
    for n in LEGAL_SIZES {
        let (state, last) = before_chain(n);
        let all = group(n).all();
        let lacking = all & !bit(group(n).leader(2));
        let leader = group(n).leader(3);
        let bases = [
            plain(1, 0, 0),
            plain(2, 0, all),
            record(3, leader, lacking, all, all),
            record(3, leader + 1, lacking, all, 0),
        ];
        let mut seen = BTreeSet::new();
        for base in bases {
            for refused in buffers::refused_forms(group(n), base) {
                let Some(number_alone) = first_refusal(group(n), &refused) else {
                    continue;
                };
                seen.insert(number_alone);
                assert_eq!(
                    number(&state, &laid_out(&[]), &refused.words()),
                    number_alone
                );
                for records in [vec![refused], vec![refused, plain(9, 0, all)]] {
                    assert_eq!(number(&state, &laid_out(&records), &last.words()), 19);
                }
            }
        }
        assert_eq!(seen, (5..=11).collect());
    }
}

/// The same buffer can be well formed for one group and not for another.
#[test]
fn the_state_s_n_decides() {
    let of_seven = laid_out(&[plain(1, 6, 0), plain(2, 0, 127)]);
    assert_eq!(number(&state_s(), &of_seven, &plain(1, 3, 0).words()), 19);
    let (answer, _, left) = taken(&opened(7), &of_seven, plain(1, 0, 0));
    assert_eq!((answer.number, left[BUFFER_COUNT]), (0, 1));
}

#[test]
fn state_before_buffer_before_record() {
    let buffers = [vec![], laid_out(&[]), laid_out(&[plain(0, 0, 0)])];
    for buffer in &buffers {
        for record in [vec![], plain(1, 3, 0).words().to_vec()] {
            for size in [0, STATE_WORDS - 1, STATE_WORDS + 1] {
                assert_eq!(number(&vec![4; size], buffer, &record), 1);
            }
            assert_eq!(number(&vec![0; STATE_WORDS], buffer, &record), 3);
            let damaged = with(&state_s(), &[(timeouts(1), 16)]);
            assert_eq!(number(&damaged, buffer, &record), 3);
        }
    }
    for (record, expected) in [
        (vec![], 4),
        (vec![99; RECORD_WORDS + 1], 4),
        (plain(0, 9, 99).words().to_vec(), 5),
        (plain(2, 4, 99).words().to_vec(), 6),
        (plain(2, 0, 23).words().to_vec(), 7),
        (plain(2, 0, 3).words().to_vec(), 8),
        (plain(2, 0, 14).words().to_vec(), 9),
        (common::record(2, 1, 14, 7, 0).words().to_vec(), 10),
        (with_weak(plain(3, 0, 7), &[20]).words().to_vec(), 11),
        (tagged(0, 10).words().to_vec(), 12),
        (tagged(0, 99).words().to_vec(), 13),
    ] {
        for pending in [vec![], waiting().to_vec(), chain(4)] {
            assert_eq!(number(&state_s(), &laid_out(&pending), &record), expected);
        }
    }
}

#[test]
fn an_early_vertex_is_put_in_its_place() {
    let state = state_s();
    let [a, b, c] = waiting();
    let far = plain(30, 3, 13);
    let mut buffer = laid_out(&[]);
    let mut there: Vec<Record> = Vec::new();
    for (record, missing) in [(b, 19), (far, 464), (c, 19), (a, 19), (plain(3, 0, 7), 32)] {
        let (answer, after, left) = taken(&state, &buffer, record);
        assert_eq!(answer, Answer::missing_parent(missing));
        there.push(record);
        there.sort_by_key(Record::id);
        assert_eq!((after, &left), (state.clone(), &laid_out(&there)));
        buffer = left;
    }
    assert_eq!(buffer[BUFFER_COUNT], 5);
}

#[test]
fn the_same_vertex_again_gives_12_and_another_13() {
    let state = state_s();
    let [a, b, c] = waiting();
    for buffer in [laid_out(&[b]), laid_out(&[a, b, c])] {
        assert_eq!(number(&state, &buffer, &b.words()), 12);
        assert_eq!(number(&state, &buffer, &b.with_tag(1).words()), 13);
        let by_weak = with_weak(plain(3, 0, 7), &[19]);
        let (answer, _, left) = taken(&state, &buffer, by_weak);
        assert_eq!(answer, Answer::missing_parent(19));
        assert_eq!(number(&state, &left, &plain(3, 0, 7).words()), 13);
        assert_eq!(number(&state, &left, &by_weak.words()), 12);
    }
}

/// The cell is asked before the buffer: a held vertex gets its 12 or 13 by the cell.
#[test]
fn held_vertices_get_the_cell_s_number() {
    let held = tagged(1, 11);
    for there in [held, held.with_tag(5)] {
        let buffer = laid_out(&[there]);
        assert_eq!(number(&state_s(), &buffer, &held.words()), 12);
        assert_eq!(number(&state_s(), &buffer, &held.with_tag(5).words()), 13);
        assert_eq!(number(&state_s(), &buffer, &held.with_tag(6).words()), 13);
    }
}

#[test]
fn a_full_buffer_gives_20_but_for_its_own_ids() {
    for n in LEGAL_SIZES {
        let (state, last) = before_chain(n);
        let chain = chain(n);
        let full = laid_out(&chain);
        let lower = by_quorum(n, 2, n - 1);
        let higher = by_quorum(n, LAST_ROUND, 0);
        for another in [lower, higher] {
            assert_eq!(number(&state, &full, &another.words()), 20, "{n}");
            let (answer, _, left) = taken(&state, &laid_out(&chain[1..]), another);
            assert_eq!((answer.number, left[BUFFER_COUNT]), (14, SLOTS));
        }
        for &there in &chain {
            assert_eq!(number(&state, &full, &there.words()), 12);
            assert_eq!(number(&state, &full, &there.with_tag(1).words()), 13);
        }
        // What does not get 14 does not ask for a place.
        assert_eq!(number(&state, &full, &plain(1, 0, 0).words()), 12);
        assert_eq!(number(&state, &full, &tagged(0, 1).words()), 13);
        assert_eq!(
            number(&state, &full, &plain(LAST_ROUND + 1, 0, 0).words()),
            5
        );
        assert_eq!(taken(&state, &full, last).0.number, 0);
        assert_eq!(taken(&state, &full, plain(1, n - 1, 0)).0.number, 0);
    }
}

#[test]
fn one_vertex_releases_a_chain_of_32() {
    for n in LEGAL_SIZES {
        let (state, last) = before_chain(n);
        let chain = chain(n);
        let (answer, after, left) = taken(&state, &laid_out(&chain), last);
        let mut single = state.clone();
        let mut sums = take_vertex(&mut single, &last.words());
        for record in &chain {
            let answer = take_vertex(&mut single, &record.words());
            assert_eq!(answer.number, 0);
            sums.leaders += answer.leaders;
            sums.journal += answer.journal;
        }
        assert_eq!((answer, &after, left), (sums, &single, laid_out(&[])));
        assert!(answer.leaders > 0, "{n}");
        assert_eq!(answer.leaders, after[LEADER_COUNT]);
        assert_eq!(answer.journal, after[JOURNAL_COUNT]);
        assert_eq!(answer.id, 0);
    }
}

/// A pass goes on after a commit: the counts are those of the whole call.
#[test]
fn commits_in_the_middle_of_a_pass() {
    let mut state = state_s();
    vertices(&mut state, &[plain(2, 0, 7), plain(2, 1, 7)]);
    // 2/2 commits round 1; then 3/0 and 3/1 join, and 3/2 commits round 2.
    let third = [0, 1, 2].map(|source| plain(3, source, 7));
    let far = plain(5, 0, 14);
    let buffer = laid_out(&[third[0], third[1], third[2], far]);
    let (answer, after, left) = taken(&state, &buffer, plain(2, 2, 7));
    assert_eq!((answer.number, answer.id), (0, 0));
    assert_eq!((answer.leaders, answer.journal), (2, 4));
    assert_eq!(lists(&after), (vec![16, 33], vec![16, 17, 18, 33]));
    assert_eq!(left, laid_out(&[far]));
    assert_eq!(status(&after).current_round, 4);
}

#[test]
fn the_list_as_it_was_before_is_not_counted() {
    let (state, last) = before_chain(4);
    let chain = chain(4);
    let (_, state, _) = taken(&state, &laid_out(&chain[..9]), last);
    assert!(state[LEADER_COUNT] > 0);
    let (answer, after, left) = taken(&state, &laid_out(&chain[10..]), chain[9]);
    assert_eq!(left[BUFFER_COUNT], 0);
    assert_eq!(answer.leaders, after[LEADER_COUNT] - state[LEADER_COUNT]);
    assert_eq!(answer.journal, after[JOURNAL_COUNT] - state[JOURNAL_COUNT]);
    assert!(answer.leaders > 1 && answer.leaders < after[LEADER_COUNT]);
}

/// With all parents held the buffer's record of the same id does not matter: it leaves in the passes.
#[test]
fn an_admitted_vertex_s_double_leaves() {
    let state = state_s();
    let vertex = plain(2, 0, 7);
    let [_, b, _] = waiting();
    for there in [vertex, vertex.with_tag(1), plain(2, 0, 15)] {
        let (answer, after, left) = taken(&state, &laid_out(&[there, b]), vertex);
        assert_eq!(answer.number, 0);
        assert_eq!(left, laid_out(&[b]));
        assert_eq!(held_records(&after)[&32], vertex);
    }
    // Also where the buffer is full.
    let (state, last) = before_chain(4);
    let mut full = chain(4);
    full.insert(0, last.with_tag(1));
    let (answer, _, left) = taken(&state, &laid_out(&full), last);
    assert_eq!((answer.number, left[BUFFER_COUNT]), (0, 0));
}

#[test]
fn held_ones_leave_with_an_admission_alone() {
    let state = state_s();
    let [a, b, c] = waiting();
    let buffer = laid_out(&[tagged(0, 10), tagged(1, 99), a]);
    let (answer, _, left) = taken(&state, &buffer, b);
    assert_eq!((answer.number, left[BUFFER_COUNT]), (14, 4));
    assert_eq!(number(&state, &buffer, &a.words()), 12);
    assert_eq!(number(&state, &buffer, &tagged(0, 10).words()), 12);
    let (answer, after, left) = taken(&state, &buffer, common::record(2, 3, 7, 0, 0));
    assert_eq!((answer.number, &left), (0, &laid_out(&[a])));
    assert_eq!(held_records(&after)[&17], tagged(1, 11));
    let (answer, after, left) = taken(&state, &laid_out(&[a, b, c]), plain(1, 3, 0));
    assert_eq!((answer.number, left[BUFFER_COUNT]), (0, 0));
    assert_eq!(status(&after).committed_round, 1);
}

/// A plain vertex call knows no buffer; what it makes ready is released by the next admission.
#[test]
fn records_made_ready_by_plain_calls_wait_for_an_admission() {
    let mut state = state_s();
    let [a, b, c] = waiting();
    let buffer = laid_out(&[a, b, c]);
    vertices(&mut state, &[plain(1, 3, 0)]);
    let far = plain(9, 0, 14);
    let (answer, after, left) = taken(&state, &buffer, far);
    assert_eq!((answer.number, &after), (14, &state));
    assert_eq!(left, laid_out(&[a, b, c, far]));
    let (answer, after, left) = taken(&after, &left, plain(2, 3, 7));
    assert_eq!(
        (answer.number, answer.leaders, left),
        (0, 1, laid_out(&[far]))
    );
    assert!([32, 33, 34, 35].iter().all(|&id| holds(&after, id)));
}

#[test]
fn a_refused_or_early_vertex_releases_nothing_and_changes_no_state() {
    let mut state = state_s();
    vertices(&mut state, &[plain(1, 3, 0)]);
    // A current round that lags and a committable round that no call has looked at.
    let votes = [HEARD, VOTES].map(|which| (mask_place(2, which), 7));
    let state = with(&state, &[votes[0], votes[1], (CURRENT_ROUND, 1)]);
    assert!(is_well_formed(&state));
    let buffer = laid_out(&waiting());
    for refused in [plain(9, 0, 14), plain(2, 0, 3), tagged(0, 10), tagged(0, 9)] {
        let (answer, after, _) = taken(&state, &buffer, refused);
        assert_ne!(answer.number, 0);
        assert_eq!((answer.leaders, answer.journal), (0, 0));
        assert_eq!(after, state);
    }
    let (answer, after, left) = taken(&state, &buffer, plain(2, 3, 15));
    assert_eq!(
        (answer.number, answer.leaders, left[BUFFER_COUNT]),
        (0, 1, 0)
    );
    assert_eq!(status(&after).current_round, 3);
}

/// Each released vertex adds its own certificate.
#[test]
fn certificates_of_released_vertices_count() {
    let state = {
        let mut state = opened(4);
        vertices(&mut state, &[plain(1, 2, 0), plain(1, 3, 0)]);
        state
    };
    let second = [0, 2, 3].map(|source| record(2, source, 14, 7 << (source & 1), 0));
    let third = [0, 1].map(|source| record(3, source, 13, 11, 0));
    let buffer = laid_out(&[&second[..], &third].concat());
    let (answer, after, left) = taken(&state, &buffer, plain(1, 1, 0));
    assert_eq!(
        (answer.number, answer.leaders, left[BUFFER_COUNT]),
        (0, 0, 0)
    );
    assert_eq!((after[timeouts(1)], after[timeouts(2)]), (15, 11));
    assert_eq!(status(&after).current_round, 3);
}

/// Places are used again: more records than there are places go through one buffer.
#[test]
fn places_are_used_again() {
    let (mut state, last) = before_chain(4);
    let mut buffer = laid_out(&[]);
    let chain = chain(4);
    for &record in &chain {
        assert_eq!(
            checked_with(&mut state, &mut buffer, &record.words())
                .0
                .number,
            14
        );
    }
    assert_eq!(
        checked_with(&mut state, &mut buffer, &last.words()).1,
        chain
    );
    let rounds = (20..=LAST_ROUND).flat_map(|round| (0..3).map(move |source| (round, source)));
    for (round, source) in rounds.take(BUFFER_SLOTS) {
        let record = plain(round, source, 15);
        assert_eq!(
            checked_with(&mut state, &mut buffer, &record.words())
                .0
                .number,
            14
        );
    }
    assert_eq!(number(&state, &buffer, &plain(19, 0, 7).words()), 20);
}

#[test]
fn the_model_takes_what_the_buffer_releases() {
    let (state, last) = before_chain(4);
    let chain = chain(4);
    let mut calls = vec![Call::Open(4, 0)];
    calls.extend([0, 1].map(|source| Call::Vertex(plain(1, source, 0).words().to_vec())));
    calls.push(Call::VertexWith(laid_out(&chain), last.words().to_vec()));
    let mut model = Model::default();
    let mut made = vec![0; STATE_WORDS];
    for call in &calls[..3] {
        model.feed(call, call.apply(&mut made).number);
    }
    assert_eq!(made, state);
    for refused in [1, 3, 19, 4, 12, 13, 14, 20] {
        model.feed(&calls[3], refused);
        assert_eq!(model.lists(), Lists::default());
    }
    model.feed(&calls[3], calls[3].apply(&mut made).number);
    let (leaders, journal) = lists(&made);
    assert!(leaders.len() > 5);
    assert_eq!(model.lists(), Lists { leaders, journal });
}

/// The model tries the buffer against its own vertices: one already there leaves, and is not changed.
#[test]
fn the_model_keeps_its_own_vertices() {
    let held = tagged(0, 10);
    let second = [0, 1, 2].map(|source| plain(2, source, 15));
    let there = plain(1, 0, 0).with_tag(77);
    let pending = laid_out(&[&[there][..], &second].concat());
    let mut calls = vec![Call::Open(4, 0), Call::Vertex(held.words().to_vec())];
    calls.extend([1, 2].map(|source| Call::Vertex(plain(1, source, 0).words().to_vec())));
    calls.push(Call::VertexWith(pending, plain(1, 3, 0).words().to_vec()));
    let mut model = Model::default();
    let mut state = vec![0; STATE_WORDS];
    for call in &calls {
        let answer = call.apply(&mut state);
        assert_eq!(answer.number, 0);
        model.feed(call, 0);
    }
    let (leaders, journal) = lists(&state);
    assert_eq!((&leaders, &journal), (&vec![16], &vec![16]));
    assert_eq!(model.lists(), Lists { leaders, journal });
}

/// What was seen of calls on states and buffers of all kinds.
#[derive(Default)]
struct Seen {
    numbers: [usize; 21],
    released: usize,
    /// Calls that released several and committed.
    several: usize,
    damaged: usize,
}

/// Records that suit a state: of a group, in other forms, held ones, and any.
fn drawn_record(rng: &mut Rng, state: &State, pool: &[Record]) -> Vec<u32> {
    let n = Group::new(state[N]).map_or(4, Group::n);
    let mut record = rng.pick(pool).copied().unwrap_or_default();
    match rng.below(12) {
        0 => record = record.with_other_word(record.id() as usize),
        1 => {
            let forms = buffers::refused_forms(group(n), record);
            record = rng.pick(&forms).copied().unwrap_or(record);
        }
        2 => return vec![0; rng.below(RECORD_WORDS as u32 + 8) as usize],
        _ => {}
    }
    record.words().to_vec()
}

fn drawn_buffer(rng: &mut Rng, state: &State, pool: &[Record]) -> Buffer {
    let n = Group::new(state[N]).map_or(4, Group::n);
    let mut pool = pool.to_vec();
    if rng.percent(20) {
        pool.iter_mut()
            .for_each(|record| record.digest = digests::same_or_other(rng, record.digest));
    }
    let chance = [5, 30, 100][rng.below(3) as usize];
    let buffer = buffers::of_some(rng, chance, &pool);
    if rng.percent(15) {
        return buffers::damaged(rng, group(n), &buffer);
    }
    buffer
}

/// The whole law over states that groups reach and others near them, with any buffers.
#[test]
fn the_whole_law_on_states_and_buffers_of_all_kinds() {
    let mut rng = Rng::new(15);
    let mut seen = Seen::default();
    for n in LEGAL_SIZES {
        for seed in 0..3 {
            let options = Options {
                rounds: 8,
                ..Options::rough()
            };
            let runs = [
                simulate(seed, n, &options),
                simulate_proposing(seed, n, &options),
            ];
            for calls in runs.iter().map(|run| &run.replicas[0]) {
                check_along(&mut rng, calls, &mut seen);
            }
        }
    }
    for number in [0, 1, 3, 4, 5, 6, 7, 8, 9, 10, 11, 12, 13, 14, 19, 20] {
        assert!(seen.numbers[number] > 5, "{number}: {:?}", seen.numbers);
    }
    for (what, count) in [
        ("released", seen.released),
        ("several", seen.several),
        ("damaged", seen.damaged),
    ] {
        assert!(count > 10, "{what} {count}");
    }
}

fn check_along(rng: &mut Rng, calls: &[Call], seen: &mut Seen) {
    let records = calls.iter().filter_map(Call::record);
    let pool: Vec<Record> = records
        .filter_map(Record::from_words)
        .filter(|record| first_refusal(group(calls_n(calls)), record).is_none())
        .collect();
    let every = 1 + calls.len() / 40;
    let mut state = vec![0; STATE_WORDS];
    for (at, call) in calls.iter().enumerate() {
        call.apply(&mut state);
        if at % every != 0 {
            continue;
        }
        let damages = damage::all(rng, &state);
        let mut near = vec![state.clone(), state.clone()];
        near.extend(rng.pick(&damages).map(|damage| with(&state, damage)));
        if rng.percent(5) {
            near.push(state[..STATE_WORDS - 1].to_vec());
        }
        for mut state in near {
            let mut buffer = drawn_buffer(rng, &state, &pool);
            for _ in 0..3 {
                let record = drawn_record(rng, &state, &pool);
                check(&mut state, &mut buffer, &record, seen);
            }
        }
    }
}

fn calls_n(calls: &[Call]) -> u32 {
    match calls[0] {
        Call::Open(n, _) => n,
        _ => panic!("calls start with an opening"),
    }
}

fn check(state: &mut State, buffer: &mut Buffer, record: &[u32], seen: &mut Seen) {
    let before = (state.clone(), buffer.clone());
    let (answer, released) = checked_with(state, buffer, record);
    seen.numbers[answer.number as usize] += 1;
    seen.released += released.len();
    seen.several += usize::from(released.len() > 1 && answer.leaders > 0);
    seen.damaged += usize::from(answer.number == 19);
    match answer.number {
        0 => {
            assert!(is_well_formed(state));
            assert!(is_sound_buffer(buffer, state[N]));
        }
        14 => assert_eq!(*state, before.0),
        _ => assert_eq!((&*state, &*buffer), (&before.0, &before.1)),
    }
}

/// The vertices that a calm, typical or rough group delivers, in an order that all parents allow.
fn delivered(seed: u64, n: u32, options: Options) -> Vec<Record> {
    let options = Options {
        noise: 0,
        early_stop: 0,
        lost_vertices: 0,
        eager: 0,
        members: 0,
        bundles: 0,
        buffers: 0,
        ..options
    };
    let run = simulate(seed, n, &options);
    let is_vertex = |call: &&Call| matches!(call, Call::Vertex(_));
    let calls = run.replicas[0].iter().filter(is_vertex);
    calls
        .filter_map(Call::record)
        .filter_map(Record::from_words)
        .collect()
}

/// The records with each moved by up to so many places.
fn shuffled(rng: &mut Rng, records: &[Record], spread: u32) -> Vec<Record> {
    let moved = (0..).zip(records);
    let mut keyed: Vec<(u32, Record)> = moved
        .map(|(at, record)| (at + rng.below(spread), *record))
        .collect();
    keyed.sort_by_key(|(key, _)| *key);
    keyed.into_iter().map(|(_, record)| record).collect()
}

/// The state after plain calls for the records in an order that parents allow, and the list of calls.
fn in_order(n: u32, records: &[Record]) -> State {
    let mut state = opened(n);
    vertices(&mut state, records);
    state
}

/// How a shuffled delivery through one buffer went.
#[derive(Default)]
struct Shuffled {
    never_full: usize,
    retried: usize,
    early: usize,
}

/// Hands all records over in a shuffled order. If no place is missing, the end is that of the ordered
/// delivery, every word of it, and the buffer is empty. If some are, those refused with 20 are handed
/// over again after each admission, and then the end is the same too.
fn check_shuffled(rng: &mut Rng, n: u32, records: &[Record], spread: u32, seen: &mut Shuffled) {
    let expected = in_order(n, records);
    let mut state = opened(n);
    let mut buffer = laid_out(&[]);
    let mut model = Model::default();
    model.feed(&Call::Open(n, 0), 0);
    let mut refused: Vec<Record> = Vec::new();
    let mut was_full = false;
    for record in shuffled(rng, records, spread) {
        let mut next = vec![record];
        while let Some(record) = next.pop() {
            let call = Call::VertexWith(buffer.clone(), record.words().to_vec());
            let answer = take_vertex_with(&mut state, &mut buffer, &record.words());
            model.feed(&call, answer.number);
            match answer.number {
                0 => next.append(&mut refused),
                14 => seen.early += 1,
                20 => refused.push(record),
                other => panic!("{other} for {record:?}"),
            }
            was_full |= answer.number == 20;
        }
    }
    assert!(refused.is_empty());
    assert_eq!(buffer, laid_out(&[]));
    assert_eq!(lists(&state), lists(&expected));
    assert!(state == expected, "every word");
    let (leaders, journal) = lists(&state);
    assert_eq!(model.lists(), Lists { leaders, journal });
    seen.never_full += usize::from(!was_full);
    seen.retried += usize::from(was_full);
}

#[test]
fn a_shuffled_delivery_ends_as_the_ordered_one() {
    let mut rng = Rng::new(16);
    let mut seen = Shuffled::default();
    for n in LEGAL_SIZES {
        for seed in 0..6 {
            let options = [Options::calm(), Options::typical(), Options::rough()];
            let options = options[seed as usize % 3].clone();
            let rounds = [6, LAST_ROUND][seed as usize % 2];
            let records = delivered(seed, n, Options { rounds, ..options });
            for spread in [2, 8, n, 24, 60, 512] {
                check_shuffled(&mut rng, n, &records, spread, &mut seen);
            }
        }
    }
    assert!(seen.never_full > 100, "{}", seen.never_full);
    assert!(seen.retried > 15, "{}", seen.retried);
    assert!(seen.early > 5_000, "{}", seen.early);
}

/// Without retries a delivery that met 20 leaves vertices out, and its lists are prefixes.
#[test]
fn lost_records_leave_prefixes() {
    let mut rng = Rng::new(17);
    let mut lost = 0;
    for n in LEGAL_SIZES {
        for seed in 0..6 {
            let records = delivered(seed, n, Options::typical());
            let whole = lists(&in_order(n, &records));
            let mut state = opened(n);
            let mut buffer = laid_out(&[]);
            for record in shuffled(&mut rng, &records, 200) {
                let answer = take_vertex_with(&mut state, &mut buffer, &record.words());
                lost += usize::from(answer.number == 20);
            }
            let (leaders, journal) = lists(&state);
            assert!(whole.0.starts_with(&leaders) && whole.1.starts_with(&journal));
        }
    }
    assert!(lost > 100, "{lost}");
}

/// Replicas of simulated groups, with plain calls in place of each call with a buffer, end alike.
#[test]
fn a_replica_with_plain_vertices_instead_ends_alike() {
    let mut released = 0;
    for n in LEGAL_SIZES {
        let options = Options {
            rounds: 16,
            buffers: 100,
            split_votes: 0,
            ..Options::rough()
        };
        let runs = [simulate(5, n, &options), simulate_proposing(5, n, &options)];
        for calls in runs.iter().flat_map(|run| &run.replicas[..2]) {
            let mut states = [vec![0; STATE_WORDS], vec![0; STATE_WORDS]];
            let [with_buffer, without] = &mut states;
            for call in calls {
                match call {
                    Call::VertexWith(buffer, record) => {
                        let before = with_buffer.clone();
                        let (answer, admitted) =
                            checked_with(with_buffer, &mut buffer.clone(), record);
                        if answer.number == 0 {
                            assert_eq!(before, *without);
                            take_vertex(without, record);
                            vertices(without, &admitted);
                        }
                        released += admitted.len();
                    }
                    call => assert_eq!(call.apply(with_buffer), call.apply(without)),
                }
                assert!(with_buffer == without, "{call:?}");
            }
        }
    }
    assert!(released > 500, "{released}");
}
