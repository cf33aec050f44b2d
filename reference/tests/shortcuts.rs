//! The "Shortcuts that break agreement": each is shown not to be taken.

mod common;

use common::*;
use reference::layout::{mask_place, HEARD, VOTES};
use reference::*;

#[test]
fn a_refused_record_has_no_vote() {
    let mut state = state_s();
    vertices(&mut state, &[plain(2, 0, 7), plain(2, 1, 7)]);
    assert_eq!(vertex(&mut state, plain(2, 2, 15)), 14);
    assert_eq!(vertex(&mut state, plain(2, 0, 7)), 12);
    firsts(&mut state, &[plain(2, 0, 7), plain(2, 1, 7)]);
    assert_eq!(first(&mut state, plain(2, 1, 7)), 12);
    assert_eq!(first(&mut state, with_weak(plain(2, 2, 7), &[16])), 11);
    assert_eq!(status(&state).committed_round, 0);
}

/// 2/1 skips 1/0 while 2/0 does not; 3/2 reaches both.
fn skipped_but_reached() -> State {
    let mut state = state_s();
    vertices(
        &mut state,
        &[plain(1, 3, 0), plain(2, 0, 7), record(2, 1, 14, 7, 14)],
    );
    vertices(&mut state, &[record(2, 2, 14, 7, 0), plain(3, 2, 7)]);
    state
}

#[test]
fn the_path_starts_at_the_leader_last_taken() {
    let mut state = skipped_but_reached();
    firsts(
        &mut state,
        &[plain(4, 0, 7), plain(4, 1, 7), plain(4, 3, 7)],
    );
    let journal = vec![17, 18, 19, 33, 16, 32, 34, 50];
    assert_eq!(lists(&state), (vec![33, 50], journal));
}

#[test]
fn weak_edges_make_no_path_between_leaders() {
    let mut state = state_s();
    vertices(&mut state, &[plain(1, 3, 0)]);
    for source in [0, 2, 3] {
        vertices(&mut state, &[record(2, source, 14, 7, 0)]);
    }
    // 2/1 is not held, so only the weak edge of 3/2 leads to the leader vertex 1/0.
    let third = with_weak(record(3, 2, 13, 7, 7), &[16]);
    vertices(&mut state, &[third]);
    firsts(
        &mut state,
        &[plain(4, 0, 7), plain(4, 1, 7), plain(4, 3, 7)],
    );
    let journal = vec![16, 17, 18, 19, 32, 34, 35, 50];
    assert_eq!(lists(&state), (vec![50], journal));
}

#[test]
fn late_votes_below_the_committed_round_do_nothing() {
    let mut state = skipped_but_reached();
    firsts(
        &mut state,
        &[plain(4, 0, 7), plain(4, 1, 7), plain(4, 3, 7)],
    );
    let before = lists(&state);
    firsts(
        &mut state,
        &[plain(2, 0, 7), plain(2, 1, 7), plain(2, 2, 7)],
    );
    firsts(
        &mut state,
        &[plain(3, 0, 7), plain(3, 1, 7), plain(3, 2, 7)],
    );
    assert_eq!(lists(&state), before);
    assert_eq!(status(&state).committed_round, 3);
}

#[test]
fn a_timeout_certificate_is_no_no_vote_certificate() {
    for (no_votes, number) in [(0, 10), (3, 10), (7, 0), (14, 0)] {
        let mut state = state_s();
        vertices(&mut state, &[plain(1, 3, 0)]);
        assert_eq!(vertex(&mut state, record(2, 1, 14, 15, no_votes)), number);
    }
}

#[test]
fn a_second_commit_walks_again() {
    let mut state = state_s();
    vertices(
        &mut state,
        &[
            plain(1, 3, 0),
            plain(2, 0, 7),
            plain(2, 1, 7),
            plain(2, 2, 7),
        ],
    );
    assert_eq!(lists(&state), (vec![16], vec![16]));
    vertices(&mut state, &[plain(3, 0, 7), plain(3, 2, 7)]);
    firsts(&mut state, &[plain(4, 0, 7), plain(4, 1, 7)]);
    assert_eq!(lists(&state), (vec![16], vec![16]));
    let answer = take_first_message(&mut state, &plain(4, 2, 7).words());
    assert_eq!(
        answer,
        Answer {
            number: 0,
            id: 0,
            leaders: 2,
            journal: 6
        }
    );
    assert_eq!(
        lists(&state),
        (vec![16, 33, 50], vec![16, 17, 18, 33, 32, 34, 50])
    );
}

#[test]
fn the_lowest_committable_round_comes_first() {
    let mut state = skipped_but_reached();
    // Votes for 1/0 and 2/1 that no call has looked at yet; 2/1 does not lead to 1/0.
    for round in [2, 3] {
        for which in [HEARD, VOTES] {
            state[mask_place(round, which)] = 7;
        }
    }
    let answer = take_first_message(&mut state, &plain(9, 0, 15).words());
    assert_eq!(
        answer,
        Answer {
            number: 0,
            id: 0,
            leaders: 2,
            journal: 5
        }
    );
    assert_eq!(lists(&state), (vec![16, 33], vec![16, 17, 18, 19, 33]));
}

#[test]
fn a_leader_that_comes_late_is_not_committed_below() {
    let mut state = opened(4);
    firsts(
        &mut state,
        &[plain(2, 1, 15), plain(2, 2, 15), plain(2, 3, 15)],
    );
    vertices(
        &mut state,
        &[plain(1, 1, 0), plain(1, 2, 0), plain(1, 3, 0)],
    );
    vertices(
        &mut state,
        &[
            record(2, 1, 14, 7, 7),
            record(2, 2, 14, 7, 0),
            record(2, 3, 14, 7, 0),
        ],
    );
    vertices(
        &mut state,
        &[plain(3, 1, 14), plain(3, 2, 14), plain(3, 3, 14)],
    );
    assert_eq!(lists(&state), (vec![33], vec![17, 18, 19, 33]));
    let answer = take_vertex(&mut state, &plain(1, 0, 0).words());
    assert_eq!(answer, Answer::default());
    assert_eq!(lists(&state).0, [33]);
}
