//! Every number that each call of 01 can answer, their order, and the state after a refusal. Where a
//! question is asked of all calls, those of 02 stand beside them.

mod common;

use common::*;
use reference::layout::{DIGEST_WORDS, JOURNAL, LEADER_LIST, RECORD_WORDS};
use reference::record::Record;
use reference::*;

/// Makes a call, checks its number, and checks that a refusal leaves every word as it was.
fn expect(state: &State, call: Call, number: u32) {
    let mut after = state.clone();
    let answer = call.apply(&mut after);
    assert_eq!(answer.number, number, "{call:?}");
    if number != 0 {
        assert_eq!((answer.leaders, answer.journal), (0, 0), "{call:?}");
        assert_eq!(&after, state, "{call:?}");
    }
    if number != 14 {
        assert_eq!(answer.id, 0, "{call:?}");
    }
}

fn v(record: Record) -> Call {
    Call::Vertex(record.words().to_vec())
}

fn f(record: Record) -> Call {
    Call::First(record.words().to_vec())
}

/// Records that questions 5 to 10 refuse on a group of four, with the number.
fn refused_masks() -> Vec<(Record, u32)> {
    vec![
        (plain(0, 0, 0), 5),
        (plain(33, 0, 0), 5),
        (plain(u32::MAX, u32::MAX, u32::MAX), 5),
        (plain(1, 4, 0), 6),
        (plain(1, u32::MAX, u32::MAX), 6),
        (plain(2, 0, 16), 7),
        (record(2, 0, 7, 1 << 31, 0), 7),
        (record(2, 0, 3, 0, 16), 7),
        (plain(1, 0, 1), 8),
        (plain(1, 0, 7), 8),
        (plain(2, 0, 0), 8),
        (record(2, 0, 3, 1, 1), 8),
        (record(1, 0, 0, 7, 0), 9),
        (record(2, 0, 7, 1, 0), 9),
        (record(2, 0, 14, 3, 0), 9),
        (record(2, 1, 14, 0, 7), 9),
        (record(1, 0, 0, 0, 7), 10),
        (record(2, 0, 14, 7, 7), 10),
        (record(2, 1, 14, 7, 3), 10),
        (record(2, 1, 7, 0, 1), 10),
    ]
}

/// Records that question 11 refuses on a group of four.
fn refused_weak_ids() -> Vec<(Record, u32)> {
    vec![
        (with_weak(plain(1, 0, 0), &[16]), 11),
        (with_weak(plain(2, 0, 7), &[16]), 11),
        (with_weak(plain(3, 0, 7), &[15]), 11),
        (with_weak(plain(3, 0, 7), &[20]), 11),
        (with_weak(plain(3, 0, 7), &[32]), 11),
        (with_weak(plain(3, 0, 7), &[u32::MAX]), 11),
        (with_weak(plain(3, 0, 7), &[16, 17]), 11),
        (
            Record {
                weak_count: u32::MAX,
                ..plain(3, 0, 7)
            },
            11,
        ),
        (
            Record {
                weak_count: 1,
                ..plain(3, 0, 7)
            },
            11,
        ),
        (
            Record {
                weak: [0, 0, 0, 0, 1],
                ..plain(3, 0, 7)
            },
            11,
        ),
        (
            Record {
                weak: [16, 0, 0, 0, 0],
                ..plain(3, 0, 7)
            },
            11,
        ),
    ]
}

#[test]
fn record_questions_of_both_kinds() {
    for (record, number) in [refused_masks(), refused_weak_ids()].concat() {
        expect(&state_s(), v(record), number);
        expect(&state_s(), f(record), number);
    }
}

#[test]
fn weak_ids_rise_strictly() {
    let mut state = opened(7);
    let first_round: Vec<Record> = (0..7).map(|source| plain(1, source, 0)).collect();
    let second_round: Vec<Record> = (0..5).map(|source| plain(2, source, 31)).collect();
    vertices(&mut state, &first_round);
    vertices(&mut state, &second_round);
    for (ids, number) in [
        (&[21, 22][..], 0),
        (&[22, 21], 11),
        (&[21, 21], 11),
        (&[20, 21, 22], 11),
    ] {
        expect(&state, v(with_weak(plain(3, 1, 31), ids)), number);
    }
}

#[test]
fn sizes_come_first() {
    let bad = plain(33, 4, 16);
    for length in [0, 1, STATE_WORDS - 1, STATE_WORDS + 1] {
        let state = vec![4; length];
        for call in [
            Call::Open(4, 0),
            Call::Open(5, 0),
            Call::Open(4, 5),
            v(bad),
            Call::VertexWith(vec![], bad.words().to_vec()),
            f(bad),
            Call::Timeout(0, 9),
            Call::Timeouts(0, 1 << 9),
            Call::NoVote(0, 9),
            Call::Propose([0; DIGEST_WORDS]),
            Call::SignNoVote,
        ] {
            expect(&state, call, 1);
        }
        assert_eq!(
            status(&state),
            Status {
                number: 1,
                ..Status::default()
            }
        );
        for k in [0, u32::MAX] {
            assert_eq!((ask_leaders(&state, k), ask_journal(&state, k)), (1, 1));
            assert_eq!(hand_leaders(&state, k), (1, &[][..]));
            assert_eq!(hand_journal(&state, k), (1, &[][..]));
        }
    }
}

#[test]
fn state_comes_before_record() {
    let zero = vec![0; STATE_WORDS];
    for call in [
        Call::Vertex(vec![]),
        Call::VertexWith(vec![], vec![]),
        Call::First(vec![]),
        Call::Timeout(0, 9),
        Call::Timeouts(0, 1 << 9),
        Call::NoVote(0, 9),
        Call::Propose([0; DIGEST_WORDS]),
        Call::SignNoVote,
    ] {
        expect(&zero, call, 3);
    }
    expect(&zero, Call::Open(5, 0), 2);
    expect(&zero, Call::Open(7, 0), 0);
}

#[test]
fn record_length_comes_before_its_words() {
    for length in [
        0,
        1,
        2,
        RECORD_WORDS - 1,
        RECORD_WORDS + 1,
        2 * RECORD_WORDS,
    ] {
        expect(&state_s(), Call::Vertex(vec![99; length]), 4);
        let empty = vec![0; BUFFER_WORDS];
        expect(&state_s(), Call::VertexWith(empty, vec![99; length]), 4);
        expect(&state_s(), Call::First(vec![99; length]), 4);
    }
}

#[test]
fn openings() {
    for n in 0..100 {
        let number = if [4, 7, 10, 13, 16].contains(&n) {
            0
        } else {
            2
        };
        expect(&rich_state(), Call::Open(n, 0), number);
    }
}

#[test]
fn new_or_not() {
    let mut state = state_s();
    expect(&state, v(tagged(0, 10)), 12);
    expect(&state, v(tagged(0, 99)), 13);
    expect(&state, v(tagged(3, 99)), 0);
    firsts(&mut state, &[plain(2, 0, 7)]);
    expect(&state, f(plain(2, 0, 7)), 12);
    expect(&state, f(plain(2, 0, 15)), 12);
    expect(&state, f(plain(2, 1, 15)), 0);
    assert_eq!(take_timeout(&mut state, 32, 3).number, 0);
    expect(&state, Call::Timeout(32, 3), 12);
    expect(&state, Call::Timeouts(32, 8), 12);
    expect(&state, Call::Timeouts(32, 9), 0);
    expect(&state, Call::NoVote(32, 3), 0);
    assert_eq!(take_no_vote(&mut state, 32, 3).number, 0);
    expect(&state, Call::NoVote(32, 3), 12);
    expect(&state, Call::NoVote(31, 3), 0);
}

#[test]
fn an_all_zero_cell_that_is_held_is_not_new() {
    let mut state = opened(4);
    vertices(&mut state, &[plain(1, 0, 0)]);
    expect(&state, v(plain(1, 0, 0)), 12);
    expect(&state, v(tagged(0, 1)), 13);
    expect(&state, v(plain(1, 1, 0)), 0);
}

#[test]
fn conflict_comes_before_missing_parent() {
    let mut state = state_s();
    vertices(&mut state, &[plain(2, 0, 7)]);
    expect(&state, v(plain(2, 0, 15)), 13);
}

#[test]
fn the_smallest_missing_parent_is_named() {
    let missing = |state: &State, record: Record| {
        let mut after = state.clone();
        let answer = take_vertex(&mut after, &record.words());
        assert_eq!(&after, state);
        answer
    };
    let state = state_s();
    let expected = |id| Answer {
        number: 14,
        id,
        leaders: 0,
        journal: 0,
    };
    assert_eq!(missing(&state, plain(2, 0, 15)), expected(19));
    assert_eq!(missing(&state, plain(3, 0, 14)), expected(33));
    assert_eq!(
        missing(&state, with_weak(plain(3, 0, 14), &[16])),
        expected(33)
    );
    assert_eq!(
        missing(&state, with_weak(plain(3, 0, 14), &[19])),
        expected(19)
    );
}

#[test]
fn first_messages_need_no_parents() {
    expect(&opened(4), f(with_weak(plain(9, 0, 15), &[16])), 0);
}

#[test]
fn list_starts() {
    let state = rich_state();
    for (ask, hand, list) in [
        (
            ask_leaders as fn(&[u32], u32) -> u32,
            hand_leaders as fn(&[u32], u32) -> (u32, &[u32]),
            vec![16, 33],
        ),
        (ask_journal, hand_journal, vec![16, 17, 18, 33]),
    ] {
        let count = list.len() as u32;
        for k in [0, count - 1, count] {
            assert_eq!(ask(&state, k), 0);
            assert_eq!(hand(&state, k), (0, &list[k as usize..]));
        }
        for k in [count + 1, u32::MAX] {
            assert_eq!(ask(&state, k), 15);
            assert_eq!(hand(&state, k), (15, &[][..]));
        }
    }
}

#[test]
fn handed_lists_are_parts_of_the_state() {
    let state = rich_state();
    let [leaders, journal] = [hand_leaders(&state, 1).1, hand_journal(&state, 2).1];
    assert_eq!(leaders.as_ptr(), state[LEADER_LIST][1..].as_ptr());
    assert_eq!(journal.as_ptr(), state[JOURNAL][2..].as_ptr());
}

#[test]
fn status_of_a_rich_state() {
    let expected = Status {
        number: 0,
        current_round: 3,
        committed_round: 2,
        leader_count: 2,
        journal_count: 4,
    };
    assert_eq!(status(&rich_state()), expected);
}
