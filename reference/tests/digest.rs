//! Digests of eight words: each sentence of 02's request A7, beside the sizes.

mod common;

use std::collections::BTreeSet;

use common::*;
use reference::group::{bit, Group};
use reference::layout::*;
use reference::pending::{is_well_formed as is_well_formed_buffer, laid_out};
use reference::record::{digest_of_tag, Digest, Record};
use reference::rng::Rng;
use reference::simulate::{digests, simulate, simulate_proposing, Options};
use reference::*;

const DIGEST: Digest = [1, 0, u32::MAX, 7, 1 << 31, 5, 6, 99];

fn with_digest(record: Record) -> Record {
    let digest = DIGEST;
    Record { digest, ..record }
}

/// The record with a single bit of its digest changed, for every bit.
fn one_bit_each(record: Record) -> impl Iterator<Item = Record> {
    let bits = (0..DIGEST_WORDS).flat_map(|at| (0..u32::BITS).map(move |place| (at, bit(place))));
    bits.map(move |(at, bit)| {
        let mut other = record;
        other.digest[at] ^= bit;
        other
    })
}

/// A refused vertex with a buffer: its number, and no word changed.
fn number_with(state: &State, buffer: &Buffer, record: Record) -> u32 {
    let (mut after, mut left) = (state.clone(), buffer.clone());
    let answer = take_vertex_with(&mut after, &mut left, &record.words());
    assert_eq!(answer, Answer::refused(answer.number));
    assert_eq!((&after, &left), (state, buffer));
    answer.number
}

#[test]
fn a_held_vertex_is_equal_in_all_words_or_in_conflict() {
    for held in [with_digest(plain(1, 3, 0)), plain(1, 3, 0)] {
        let mut state = state_s();
        vertices(&mut state, &[held]);
        let before = state.clone();
        let empty = laid_out(&[]);
        assert_eq!(vertex(&mut state, held), 12);
        assert_eq!(number_with(&state, &empty, held), 12);
        for other in one_bit_each(held) {
            assert_eq!(vertex(&mut state, other), 13, "{other:?}");
            assert_eq!(number_with(&state, &empty, other), 13, "{other:?}");
        }
        assert_eq!(state, before);
    }
}

#[test]
fn a_vertex_in_the_buffer_is_equal_in_all_words_or_in_conflict() {
    let state = state_s();
    let waiting = [0, 1, 2].map(|source| with_digest(plain(2, source, 15)));
    for there in [waiting[1], plain(2, 1, 15)] {
        for buffer in [vec![there], vec![waiting[0], there, waiting[2]]] {
            let buffer = laid_out(&buffer);
            assert_eq!(number_with(&state, &buffer, there), 12);
            for other in one_bit_each(there) {
                assert_eq!(number_with(&state, &buffer, other), 13, "{other:?}");
            }
        }
    }
}

/// The second first message of a member is not new, with whatever digest.
#[test]
fn a_first_message_is_heard_once() {
    let message = with_digest(plain(2, 3, 7));
    let mut state = state_s();
    firsts(&mut state, &[message]);
    let before = state.clone();
    for other in [message].into_iter().chain(one_bit_each(message)) {
        assert_eq!(first(&mut state, other), 12);
    }
    assert_eq!(state, before);
    // It writes no digest: the vertex may have another one.
    vertices(&mut state, &[plain(2, 3, 7)]);
}

fn digest_in(state: &State, round: u32, member: u32) -> &[u32] {
    &state[cell_place(round, member)][CELL_DIGEST]
}

#[test]
fn a_digest_is_carried_into_the_cell() {
    for n in LEGAL_SIZES {
        let mut state = opened(n);
        for source in 0..n {
            let mut record = plain(1, source, 0);
            record.digest = DIGEST.map(|word| word.wrapping_add(source));
            vertices(&mut state, &[record]);
            assert_eq!(digest_in(&state, 1, source), record.digest);
        }
    }
}

#[test]
fn a_digest_is_carried_into_the_buffer_and_from_there_into_the_cell() {
    let mut state = state_s();
    let mut buffer = laid_out(&[]);
    let mut waiting = [0, 1, 2].map(|source| plain(2, source, 15));
    for (record, word) in waiting.iter_mut().zip(10..) {
        record.digest = DIGEST.map(|of_all| of_all ^ word);
        let (answer, _) = checked_with(&mut state, &mut buffer, &record.words());
        assert_eq!(answer.number, 14);
    }
    assert_eq!(records_of(&buffer), waiting);
    let parent = with_digest(plain(1, 3, 0));
    let (answer, _) = checked_with(&mut state, &mut buffer, &parent.words());
    assert_eq!((answer.number, buffer), (0, laid_out(&[])));
    assert_eq!(digest_in(&state, 1, 3), DIGEST);
    for record in waiting {
        assert_eq!(digest_in(&state, 2, record.source), record.digest);
    }
}

/// A made record has the digest that making is given, and brings it into its cell.
#[test]
fn a_digest_is_carried_into_the_made_record() {
    for n in LEGAL_SIZES {
        for other in one_bit_each(with_digest(plain(1, n - 1, 0))) {
            let mut state = opened_for(n, n);
            let made = propose(&mut state, other.digest);
            assert_eq!((made.answer.number, made.record), (0, other.words()));
            assert_eq!(take_vertex(&mut state, &made.record).number, 0);
            assert_eq!(digest_in(&state, 1, n - 1), other.digest);
        }
    }
}

/// The calls with each digest exchanged: that of our own vertex, of a record that has its size, and of the
/// records in a well formed buffer.
fn exchanged(call: &Call, n: u32, exchange: fn(Digest) -> Digest) -> Call {
    let group = Group::new(n).expect("the size is legal");
    let of_record = |mut record: Record| {
        record.digest = exchange(record.digest);
        record
    };
    let of_words = |words: &[u32]| match Record::from_words(words) {
        Some(record) => of_record(record).words().to_vec(),
        None => words.to_vec(),
    };
    let of_buffer = |buffer: &[u32]| {
        let records = records_of(buffer).into_iter().map(of_record);
        laid_out(&records.collect::<Vec<_>>())
    };
    match call {
        Call::Vertex(words) => Call::Vertex(of_words(words)),
        Call::First(words) => Call::First(of_words(words)),
        Call::VertexWith(buffer, words) if is_well_formed_buffer(buffer, group) => {
            Call::VertexWith(of_buffer(buffer), of_words(words))
        }
        Call::VertexWith(buffer, words) => Call::VertexWith(buffer.clone(), of_words(words)),
        Call::Propose(digest) => Call::Propose(exchange(*digest)),
        call => call.clone(),
    }
}

/// With every digest exchanged one for one, a run gives the same answers, and the same words but for the
/// digests.
#[test]
fn a_digest_decides_nothing_but_equality() {
    let exchange = |digest: Digest| {
        let mut other = digest.map(|word| !word);
        other.rotate_left(3);
        other
    };
    let mut numbers = BTreeSet::new();
    for n in LEGAL_SIZES {
        let options = Options {
            rounds: 8,
            ..Options::rough()
        };
        let runs = [simulate(1, n, &options), simulate_proposing(1, n, &options)];
        for calls in runs.iter().map(|run| &run.replicas[0]) {
            let [mut state, mut other] = [(); 2].map(|()| vec![0; STATE_WORDS]);
            for call in calls {
                let answer = call.apply(&mut state);
                assert_eq!(exchanged(call, n, exchange).apply(&mut other), answer);
                numbers.insert(answer.number);
            }
            let mut expected = state.clone();
            for record in held_records(&state).values() {
                let cell = &mut expected[cell_place(record.round, record.source)];
                cell[CELL_DIGEST].copy_from_slice(&exchange(record.digest));
            }
            assert!(other == expected, "n {n}");
        }
    }
    assert!(numbers.is_superset(&BTreeSet::from([0, 4, 12, 13, 14])));
}

/// What 01 has as weak count and weak ids is a part of the digest.
#[test]
fn a_digest_word_is_no_weak_count_and_no_weak_id() {
    let mut state = state_s();
    vertices(&mut state, &[0, 1, 2].map(|source| plain(2, source, 7)));
    let mut third = plain(3, 0, 7);
    third.digest = [1, u32::MAX, 19, 19, 1, 600, u32::MAX, 6];
    assert_eq!(first(&mut state, third), 0);
    vertices(&mut state, &[third]);
    let held = held_records(&state)[&third.id()];
    assert_eq!((held.weak_count, held.weak), (0, [0; WEAK_SLOTS]));
    // In its own place the weak id asks for its vertex.
    let mut waits = with_weak(plain(3, 1, 7), &[19]);
    waits.digest = third.digest;
    let missing = take_vertex(&mut state, &waits.words());
    assert_eq!(missing, Answer::missing_parent(19));
}

#[test]
fn records_of_earlier_documents_are_refused() {
    let mut tagged = vec![1, 3, 0, 0, 0, 13];
    tagged.resize(EARLIER_RECORD_WORDS[0], 0);
    let mut state = state_s();
    assert_eq!(take_vertex(&mut state, &tagged).number, 4);
    assert_eq!(take_first_message(&mut state, &tagged).number, 4);
    let mut buffer = laid_out(&[]);
    let answer = take_vertex_with(&mut state, &mut buffer, &tagged);
    assert_eq!((answer.number, state), (4, state_s()));
    for size in EARLIER_STATE_WORDS {
        let mut state = vec![0; size];
        assert_eq!(open(&mut state, 4, 0).number, 1);
        assert_eq!(state, vec![0; size]);
    }
    for size in EARLIER_BUFFER_WORDS {
        let mut buffer = vec![0; size];
        let words = plain(1, 3, 0).words();
        let answer = take_vertex_with(&mut state_s(), &mut buffer, &words);
        assert_eq!(answer.number, 19);
    }
}

#[test]
fn held_cells_have_any_digest_and_others_none() {
    let state = rich_state();
    for place in CELL_DIGEST {
        let word = |round, member| cell_word(round, member, place);
        for digest_word in [1, 6, 1 << 31, u32::MAX] {
            assert!(is_well_formed(&with(&state, &[(word(2, 0), digest_word)])));
            for (round, member) in [(2, 2), (1, 4), (32, 15)] {
                let damaged = with(&state, &[(word(round, member), digest_word)]);
                assert!(!is_well_formed(&damaged), "{round}/{member} {place}");
            }
        }
    }
}

/// The drawn digests: one word of the generator each, with all kinds among them.
#[test]
fn drawn_digests_are_of_all_kinds() {
    let mut rng = Rng::new(21);
    let mut drawn = BTreeSet::new();
    for _ in 0..500 {
        let mut as_words = rng.clone();
        drawn.insert(digests::any(&mut rng));
        as_words.word();
        assert_eq!(rng.clone().word(), as_words.word());
    }
    let not_zero = |digest: &Digest| digest.iter().filter(|&&word| word != 0).count();
    let is_tag = |digest: &&Digest| **digest == digest_of_tag(digest[0]);
    assert!(drawn.iter().filter(is_tag).count() > 50);
    let is_whole = |digest: &&Digest| not_zero(digest) == DIGEST_WORDS;
    assert!(drawn.iter().filter(is_whole).count() > 200);
    let record = |digest: &Digest| Record {
        digest: *digest,
        ..Record::default()
    };
    let ones = record(&[1; DIGEST_WORDS]);
    for at in 0..DIGEST_WORDS {
        let is_alone = |digest: &Digest| not_zero(digest) == 1 && digest[at] != 0;
        assert!(drawn.iter().any(is_alone), "{at}");
        let is_near = |digest: &Digest| record(digest).only_other_word(&ones) == Some(at);
        assert!(drawn.iter().any(is_near), "{at}");
    }
}

#[test]
fn a_drawn_other_digest_differs_in_one_word() {
    let mut rng = Rng::new(22);
    let record = with_digest(Record::default());
    let mut changed = [0; DIGEST_WORDS];
    let mut same = 0;
    for _ in 0..400 {
        let mut other = record;
        other.digest = digests::other(&mut rng, record.digest);
        let at = record.only_other_word(&other).expect("one word differs");
        changed[at] += 1;
        other.digest = digests::same_or_other(&mut rng, record.digest);
        same += usize::from(other == record);
        assert!(other == record || record.only_other_word(&other).is_some());
    }
    assert!(changed.iter().all(|&count| count > 25), "{changed:?}");
    assert!((150..250).contains(&same), "{same}");
}

/// Every place is drawn, and a digest's words together as often as each other word.
#[test]
fn drawn_places_are_all_places() {
    let mut rng = Rng::new(23);
    let mut seen = vec![0; buffer_end(2)];
    for _ in 0..20_000 {
        seen[digests::any_place_after(&mut rng, BUFFER_RECORDS, 2)] += 1;
    }
    assert!(seen.iter().all(|&count| count > 50), "{seen:?}");
    let records: Vec<u32> = seen[BUFFER_RECORDS..].to_vec();
    for record in records.chunks(RECORD_WORDS) {
        let digest: u32 = record[RECORD_CELL][CELL_DIGEST].iter().sum();
        assert!(digest.abs_diff(record[RECORD_ROUND]) < 200, "{record:?}");
    }
    let places: BTreeSet<usize> = (0..2_000).map(|_| digests::any_place(&mut rng)).collect();
    assert_eq!(places, (0..RECORD_WORDS).collect());
}

#[test]
fn only_one_word_of_the_digest_differs() {
    let record = with_digest(plain(2, 1, 15));
    assert_eq!(record.only_other_word(&record), None);
    for at in 0..DIGEST_WORDS {
        let other = record.with_other_word(at);
        assert_eq!(record.only_other_word(&other), Some(at));
        let two = other.with_other_word(at + 1);
        assert_eq!(record.only_other_word(&two), None);
        let moved = Record { strong: 7, ..other };
        assert_eq!(record.only_other_word(&moved), None);
    }
}
