//! The rows of "Worked on four members", starred and unstarred, in the paper's order; beside the
//! row of timeout notes stands the same round with bundles of them and with a carried certificate
//! (02, requests A3 and A2).

mod common;

use common::*;
use reference::{
    ask_journal, hand_journal, open, status, take_no_vote, take_timeout, take_timeouts,
    take_vertex, Answer, STATE_WORDS,
};

fn committed(state: &State) -> u32 {
    status(state).committed_round
}

#[test]
fn open_with_legal_and_illegal_sizes() {
    for (n, number) in [(4, 0), (16, 0), (5, 2), (19, 2)] {
        assert_eq!(
            open(&mut vec![0; STATE_WORDS], n, 0),
            Answer {
                number,
                ..Answer::default()
            }
        );
    }
}

#[test]
fn round_and_source_out_of_range() {
    let mut state = state_s();
    for round in [0, 33] {
        for source in [0, 4] {
            assert_eq!(vertex(&mut state, plain(round, source, 0)), 5);
            assert_eq!(first(&mut state, plain(round, source, 0)), 5);
            assert_eq!(take_timeout(&mut state, round, source).number, 5);
            assert_eq!(take_timeouts(&mut state, round, 1 << source).number, 5);
            assert_eq!(take_no_vote(&mut state, round, source).number, 5);
        }
    }
    assert_eq!(vertex(&mut state, plain(1, 4, 0)), 6);
    assert_eq!(first(&mut state, plain(1, 4, 0)), 6);
    assert_eq!(take_timeout(&mut state, 1, 4).number, 6);
    assert_eq!(take_no_vote(&mut state, 1, 4).number, 6);
}

#[test]
fn same_and_conflicting_vertex() {
    assert_eq!(vertex(&mut state_s(), tagged(0, 10)), 12);
    assert_eq!(vertex(&mut state_s(), tagged(0, 99)), 13);
}

#[test]
fn strong_masks() {
    assert_eq!(vertex(&mut state_s(), plain(2, 0, 7)), 0);
    assert_eq!(vertex(&mut state_s(), plain(2, 0, 3)), 8);
    assert_eq!(vertex(&mut state_s(), plain(2, 0, 23)), 7);
}

#[test]
fn missing_parent_and_timeout_masks() {
    let answer = take_vertex(&mut state_s(), &plain(2, 0, 15).words());
    assert_eq!(
        answer,
        Answer {
            number: 14,
            id: 19,
            leaders: 0,
            journal: 0
        }
    );
    assert_eq!(vertex(&mut state_s(), plain(2, 0, 14)), 9);
    assert_eq!(vertex(&mut state_s(), record(2, 0, 7, 7, 0)), 9);
}

#[test]
fn leader_without_no_vote_certificate() {
    assert_eq!(vertex(&mut state_s(), record(2, 1, 14, 7, 0)), 10);
}

#[test]
fn current_round_by_timeouts() {
    let mut state = opened(4);
    vertices(
        &mut state,
        &[plain(1, 1, 0), plain(1, 2, 0), plain(1, 3, 0)],
    );
    assert_eq!(status(&state).current_round, 1);
    for (signer, current_round) in [(0, 1), (1, 1), (2, 2)] {
        assert_eq!(take_timeout(&mut state, 1, signer).number, 0);
        assert_eq!(status(&state).current_round, current_round);
    }
}

#[test]
fn current_round_by_bundles() {
    let mut state = lacking_leader(0);
    for (mask, current_round) in [(0b0011, 1), (0b0110, 2)] {
        assert_eq!(take_timeouts(&mut state, 1, mask), Answer::default());
        assert_eq!(status(&state).current_round, current_round);
    }
    let mut state = lacking_leader(0);
    assert_eq!(take_timeouts(&mut state, 1, 0b0111), Answer::default());
    assert_eq!(status(&state).current_round, 2);
}

#[test]
fn current_round_by_a_carried_certificate() {
    let mut state = opened(4);
    vertices(
        &mut state,
        &[plain(1, 1, 0), plain(1, 2, 0), plain(1, 3, 0)],
    );
    assert_eq!(status(&state).current_round, 1);
    let answer = take_vertex(&mut state, &record(2, 0, 14, 7, 0).words());
    assert_eq!(answer, Answer::default());
    assert_eq!((status(&state).current_round, state[timeouts(1)]), (2, 7));
    for (signer, number, mask) in [(0, 12, 7), (1, 12, 7), (2, 12, 7), (3, 0, 15)] {
        assert_eq!(take_timeout(&mut state, 1, signer).number, number);
        assert_eq!(
            (status(&state).current_round, state[timeouts(1)]),
            (2, mask)
        );
    }
}

#[test]
fn commit_by_vertices() {
    let mut state = state_s();
    vertices(&mut state, &[plain(2, 0, 7), plain(2, 1, 7)]);
    assert_eq!(committed(&state), 0);
    let answer = take_vertex(&mut state, &plain(2, 2, 7).words());
    assert_eq!(
        answer,
        Answer {
            number: 0,
            id: 0,
            leaders: 1,
            journal: 1
        }
    );
    assert_eq!(committed(&state), 1);
}

/// As request A6 has it.
#[test]
fn commit_by_first_messages_and_a_vertex() {
    let mut state = state_s();
    firsts(&mut state, &[plain(2, 0, 7), plain(2, 1, 7)]);
    vertices(&mut state, &[plain(2, 2, 7)]);
    assert_eq!(lists(&state), (vec![16], vec![16]));
}

#[test]
fn commit_with_a_lower_leader() {
    let mut state = state_s();
    vertices(
        &mut state,
        &[
            plain(1, 3, 0),
            plain(2, 0, 7),
            plain(2, 1, 7),
            record(2, 3, 14, 7, 0),
        ],
    );
    firsts(
        &mut state,
        &[plain(3, 0, 11), plain(3, 1, 11), plain(3, 2, 11)],
    );
    assert_eq!(lists(&state), (vec![16, 33], vec![16, 17, 18, 33]));
}

#[test]
fn commit_past_a_skipped_leader() {
    let mut state = state_s();
    vertices(
        &mut state,
        &[
            plain(1, 3, 0),
            record(2, 0, 14, 7, 0),
            record(2, 2, 14, 7, 0),
            record(2, 1, 14, 7, 14),
        ],
    );
    firsts(
        &mut state,
        &[plain(3, 0, 7), plain(3, 1, 7), plain(3, 2, 7)],
    );
    assert_eq!(lists(&state), (vec![33], vec![17, 18, 19, 33]));
}

#[test]
fn weak_ids() {
    let mut state = state_s();
    vertices(
        &mut state,
        &[
            plain(1, 3, 0),
            plain(2, 0, 7),
            plain(2, 1, 7),
            plain(2, 2, 7),
        ],
    );
    let third = plain(3, 0, 7);
    assert_eq!(vertex(&mut state.clone(), with_weak(third, &[19])), 0);
    for ids in [&[18, 19][..], &[20], &[32]] {
        assert_eq!(vertex(&mut state.clone(), with_weak(third, ids)), 11);
        assert_eq!(first(&mut state.clone(), with_weak(third, ids)), 11);
    }
}

#[test]
fn journal_of_a_fresh_state() {
    let state = opened(4);
    assert_eq!(ask_journal(&state, 0), 0);
    assert_eq!(hand_journal(&state, 0), (0, &[][..]));
    assert_eq!(ask_journal(&state, 1), 15);
    assert_eq!(hand_journal(&state, 1), (15, &[][..]));
}
