//! What an admitted call writes, word by word, and what follows it.

mod common;

use common::*;
use reference::layout::*;
use reference::*;

/// Makes an admitted call and returns the words it changed.
fn changed_by(state: &mut State, call: Call) -> Vec<(usize, u32)> {
    let before = state.clone();
    assert_eq!(call.apply(state).number, 0, "{call:?}");
    changes(&before, state)
}

#[test]
fn a_vertex_writes_its_cell_its_mark_and_its_certificate() {
    let mut state = state_s();
    vertices(
        &mut state,
        &[plain(1, 3, 0), plain(2, 0, 7), plain(2, 1, 7)],
    );
    let mut record = record(2, 3, 14, 7, 0);
    record.digest = [77, 1, 2, 3, 4, 5, 6, u32::MAX];
    let mut expected = vec![
        (CURRENT_ROUND, 3),
        (timeouts(1), 7),
        (mask_place(2, HELD), 0b1011),
        (cell_word(2, 3, CELL_STRONG), 14),
        (cell_word(2, 3, CELL_TIMEOUTS), 7),
    ];
    let digest = CELL_DIGEST.map(|place| cell_word(2, 3, place));
    expected.extend(digest.zip(record.digest));
    assert_eq!(
        changed_by(&mut state, Call::Vertex(record.words().to_vec())),
        expected
    );
}

#[test]
fn weak_ids_are_written() {
    let mut state = state_s();
    vertices(
        &mut state,
        &[
            plain(1, 3, 0),
            plain(2, 0, 7),
            plain(2, 1, 7),
            record(2, 2, 14, 7, 0),
        ],
    );
    let words = with_weak(plain(3, 1, 7), &[19]).words().to_vec();
    let expected = vec![
        (mask_place(3, HELD), 0b10),
        (cell_word(3, 1, CELL_STRONG), 7),
        (cell_word(3, 1, CELL_WEAK_COUNT), 1),
        (cell_word(3, 1, CELL_WEAK.start), 19),
    ];
    assert_eq!(changed_by(&mut state, Call::Vertex(words)), expected);
}

#[test]
fn a_first_message_marks_heard_and_votes() {
    let mut state = state_s();
    let heard = |round| mask_place(round, HEARD);
    let voting = plain(2, 3, 7).words().to_vec();
    assert_eq!(
        changed_by(&mut state, Call::First(voting)),
        [(heard(2), 8), (mask_place(2, VOTES), 8)]
    );
    let skipping = record(2, 2, 14, 7, 0).words().to_vec();
    let second = [(heard(2), 12)];
    assert_eq!(changed_by(&mut state, Call::First(skipping)), second);
    let first_round = plain(1, 3, 0).words().to_vec();
    let first = [(heard(1), 8)];
    assert_eq!(changed_by(&mut state, Call::First(first_round)), first);
}

#[test]
fn notes_set_their_bit() {
    let mut state = state_s();
    assert_eq!(
        changed_by(&mut state, Call::Timeout(32, 3)),
        [(timeouts(32), 8)]
    );
    assert_eq!(
        changed_by(&mut state, Call::NoVote(32, 1)),
        [(no_votes(32), 2)]
    );
}

#[test]
fn a_bundle_sets_its_bits_and_the_current_round() {
    let mut state = lacking_leader(0);
    let bundles = [
        (Call::Timeouts(32, 10), vec![(timeouts(32), 10)]),
        (Call::Timeouts(32, 7), vec![(timeouts(32), 15)]),
        (Call::Timeouts(1, 9), vec![(timeouts(1), 9)]),
        (
            Call::Timeouts(1, 11),
            vec![(CURRENT_ROUND, 2), (timeouts(1), 11)],
        ),
        (Call::Timeouts(1, 15), vec![(timeouts(1), 15)]),
    ];
    for (bundle, expected) in bundles {
        assert_eq!(changed_by(&mut state, bundle), expected);
    }
}

#[test]
fn carried_timeouts_reach_the_mask_ahead_of_the_round_rule() {
    let mut state = opened(4);
    vertices(
        &mut state,
        &[plain(1, 1, 0), plain(1, 2, 0), plain(1, 3, 0)],
    );
    assert_eq!((state[timeouts(1)], status(&state).current_round), (0, 1));
    vertices(&mut state, &[record(2, 0, 14, 7, 0)]);
    assert_eq!((state[timeouts(1)], status(&state).current_round), (7, 2));
    vertices(&mut state, &[record(2, 2, 14, 13, 0)]);
    assert_eq!((state[timeouts(1)], status(&state).current_round), (15, 2));
}

#[test]
fn the_current_round_jumps_and_never_falls() {
    let mut state = state_s();
    assert_eq!(status(&state).current_round, 2);
    state[CURRENT_ROUND] = 20;
    vertices(&mut state, &[plain(1, 3, 0)]);
    assert_eq!(status(&state).current_round, 20);
    for call in [Call::Timeout(9, 0), Call::Timeouts(9, 3)] {
        state[CURRENT_ROUND] = 1;
        assert_eq!(call.apply(&mut state).number, 0);
        assert_eq!(status(&state).current_round, 2);
    }
}

#[test]
fn only_vertices_and_timeouts_move_the_current_round() {
    let mut state = state_s();
    state[CURRENT_ROUND] = 1;
    firsts(&mut state, &[plain(2, 0, 7)]);
    assert_eq!(take_no_vote(&mut state, 1, 0).number, 0);
    assert_eq!(status(&state).current_round, 1);
}

#[test]
fn only_vertices_and_first_messages_commit() {
    let mut state = state_s();
    firsts(&mut state, &[plain(2, 0, 7), plain(2, 1, 7)]);
    // A well formed state may have a committable round that no call has looked at yet.
    for which in [HEARD, VOTES] {
        state[mask_place(2, which)] |= 8;
    }
    assert_eq!(take_timeout(&mut state, 1, 0).number, 0);
    assert_eq!(take_timeouts(&mut state, 1, 15).number, 0);
    assert_eq!(take_no_vote(&mut state, 1, 0).number, 0);
    assert_eq!(status(&state).committed_round, 0);
    firsts(&mut state, &[plain(9, 0, 15)]);
    assert_eq!(status(&state).committed_round, 1);
}

#[test]
fn round_32_gives_the_current_round_33_and_no_commit() {
    let mut state = opened(4);
    for round in 1..=32 {
        let strong = if round == 1 { 0 } else { 15 };
        for source in 0..4 {
            vertices(&mut state, &[plain(round, source, strong)]);
        }
    }
    let now = status(&state);
    assert_eq!(
        (now.current_round, now.committed_round, now.leader_count),
        (33, 31, 31)
    );
    assert!(is_well_formed(&state));
}
