//! A carried timeout certificate counts: each sentence of 02's request A2.

mod common;

use common::*;
use reference::group::{bit, members, Group};
use reference::layout::*;
use reference::record::{digest_of_tag, Record};
use reference::*;

/// All timeout certificates of four members.
const CERTIFICATES: [u32; 5] = [7, 11, 13, 14, 15];

fn held(round: u32) -> usize {
    mask_place(round, HELD)
}

/// Takes a vertex on a copy; a refusal leaves every word as it was.
fn taken(state: &State, record: Record) -> Result<State, u32> {
    let mut after = state.clone();
    match take_vertex(&mut after, &record.words()).number {
        0 => Ok(after),
        number => {
            assert_eq!(&after, state, "{record:?}");
            Err(number)
        }
    }
}

/// All words that an admitted vertex changes.
fn changed(state: &State, record: Record) -> Vec<(usize, u32)> {
    let after = taken(state, record).expect("the vertex is admitted");
    changes(state, &after)
}

/// So many members of a group without one, the lowest first.
fn without(group: Group, member: u32, count: u32) -> u32 {
    let others = members(group.all() & !bit(member));
    others.take(count as usize).map(bit).sum()
}

/// The vertices of a round whose leader is silent, by all others, each with the same certificate
/// for the round before if its leader was silent too.
fn round_without_leader(group: Group, round: u32, certificate: u32) -> Vec<Record> {
    let others = |round| group.all() & !bit(group.leader(round));
    members(others(round))
        .map(|source| match round {
            1 => plain(1, source, 0),
            _ => record(round, source, others(round - 1), certificate, 0),
        })
        .collect()
}

#[test]
fn the_certificate_joins_the_notes_of_the_round_before() {
    for notes in 0..16 {
        let state = noted(lacking_leader(0), 1, notes);
        for certificate in CERTIFICATES {
            let after = taken(&state, record(2, 0, 14, certificate, 0)).expect("it is admitted");
            assert_eq!(after[timeouts(1)], notes | certificate);
            assert_eq!(status(&after).current_round, 2);
            let masks: Vec<u32> = (2..=32).map(|round| after[timeouts(round)]).collect();
            assert_eq!(masks, [0; 31]);
        }
    }
}

#[test]
fn no_other_word_is_changed_by_it() {
    let state = noted(noted(noted(lacking_leader(0), 1, 8), 2, 9), 3, 6);
    let expected = vec![
        (CURRENT_ROUND, 2),
        (timeouts(1), 15),
        (held(2), 1),
        (cell_word(2, 0, CELL_STRONG), 14),
        (cell_word(2, 0, CELL_TIMEOUTS), 7),
    ];
    assert_eq!(changed(&state, record(2, 0, 14, 7, 0)), expected);
}

#[test]
fn the_no_votes_are_not_touched() {
    let mut state = lacking_leader(0);
    assert_eq!(take_no_vote(&mut state, 1, 0).number, 0);
    let expected = vec![
        (CURRENT_ROUND, 2),
        (timeouts(1), 11),
        (held(2), 2),
        (cell_word(2, 1, CELL_STRONG), 14),
        (cell_word(2, 1, CELL_TIMEOUTS), 11),
        (cell_word(2, 1, CELL_NO_VOTES), 14),
    ];
    assert_eq!(changed(&state, record(2, 1, 14, 11, 14)), expected);
    assert_eq!(state[no_votes(1)], 1);
}

#[test]
fn certificates_of_several_vertices_join() {
    let mut state = lacking_leader(0);
    vertices(&mut state, &[record(2, 0, 14, 7, 0)]);
    assert_eq!(state[timeouts(1)], 7);
    vertices(&mut state, &[record(2, 2, 14, 11, 0)]);
    assert_eq!((state[timeouts(1)], state[CURRENT_ROUND]), (15, 2));
    // One that adds nobody leaves the mask as it is.
    let masks = [CELL_STRONG, CELL_TIMEOUTS].map(|place| (cell_word(2, 3, place), 14));
    let expected = vec![(held(2), 13), masks[0], masks[1]];
    assert_eq!(changed(&state, record(2, 3, 14, 14, 0)), expected);
}

#[test]
fn a_round_that_is_passed_takes_it_too() {
    // 1/0 is held by now, so the round has ended without timeouts.
    let mut state = lacking_leader(0);
    vertices(&mut state, &[plain(1, 0, 0), plain(2, 1, 15)]);
    state[CURRENT_ROUND] = 9;
    let after = taken(&state, record(2, 0, 14, 13, 0)).expect("it is admitted");
    assert_eq!((after[timeouts(1)], after[CURRENT_ROUND]), (13, 9));
}

/// Round 1 without 1/0, and round 2 without 2/1: 3/0 needs a certificate for round 2.
fn two_leaders_lacking() -> State {
    let mut state = lacking_leader(0);
    vertices(
        &mut state,
        &[0, 2, 3].map(|source| record(2, source, 14, 7, 0)),
    );
    assert_eq!((state[CURRENT_ROUND], state[timeouts(2)]), (2, 0));
    state
}

#[test]
fn a_vertex_that_is_not_new_adds_nothing() {
    let mut state = two_leaders_lacking();
    state[timeouts(1)] = 0;
    for certificate in CERTIFICATES {
        let number = if certificate == 7 { 12 } else { 13 };
        let again = record(2, 2, 14, certificate, 0);
        assert_eq!(taken(&state, again), Err(number));
        let mut earlier = state.clone();
        earlier[CURRENT_ROUND] = 1;
        assert_eq!(taken(&earlier, again), Err(number));
    }
}

#[test]
fn a_vertex_without_its_parents_adds_nothing() {
    let state = two_leaders_lacking();
    for certificate in CERTIFICATES {
        // A strong parent is not held, and then only a weak one.
        assert_eq!(taken(&opened(4), record(2, 0, 14, certificate, 0)), Err(14));
        let third = record(3, 0, 13, certificate, 0);
        assert_eq!(taken(&state, with_weak(third, &[16])), Err(14));
        let after = taken(&state, with_weak(third, &[17])).expect("it is admitted");
        assert_eq!((after[timeouts(2)], after[CURRENT_ROUND]), (certificate, 3));
    }
}

#[test]
fn a_vertex_that_an_earlier_question_refuses_adds_nothing() {
    let state = lacking_leader(0);
    for (record, number) in [
        (record(33, 0, 14, 7, 0), 5),
        (record(2, 4, 14, 7, 0), 6),
        (record(2, 0, 14, 23, 0), 7),
        (record(2, 0, 12, 7, 0), 8),
        (record(2, 0, 15, 7, 0), 9),
        (record(2, 0, 14, 3, 0), 9),
        (record(1, 0, 0, 7, 0), 9),
        (record(2, 1, 14, 7, 0), 10),
        (with_weak(record(2, 0, 14, 7, 0), &[17]), 11),
    ] {
        assert_eq!(taken(&state, record), Err(number));
    }
}

#[test]
fn a_first_message_adds_nothing() {
    let mut state = lacking_leader(0);
    firsts(&mut state, &[record(2, 0, 14, 7, 0)]);
    assert_eq!((state[timeouts(1)], state[CURRENT_ROUND]), (0, 1));
}

#[test]
fn round_1_has_no_round_before_it() {
    for n in LEGAL_SIZES {
        for notes in [0, 14] {
            let state = noted(opened(n), 1, notes);
            for source in 0..n {
                let tag = cell_word(1, source, CELL_DIGEST.start);
                let expected = vec![(held(1), bit(source)), (tag, 5)];
                assert_eq!(changed(&state, tagged(source, 5)), expected);
            }
        }
    }
}

#[test]
fn the_notes_of_members_that_joined_so_are_not_new() {
    for n in LEGAL_SIZES {
        let group = Group::new(n).expect("the size is legal");
        let certificate = without(group, 1, group.quorum());
        let mut state = opened(n);
        vertices(&mut state, &round_without_leader(group, 1, 0));
        let second = round_without_leader(group, 2, certificate);
        vertices(&mut state, &second[..1]);
        assert_eq!((state[timeouts(1)], state[CURRENT_ROUND]), (certificate, 2));
        for signer in 0..n {
            let was_in = state[timeouts(1)] & bit(signer) != 0;
            let number = take_timeout(&mut state, 1, signer).number;
            assert_eq!(number, if was_in { 12 } else { 0 });
        }
        assert_eq!(state[timeouts(1)], group.all());
    }
}

#[test]
fn a_member_without_notes_follows_to_the_last_round() {
    for n in LEGAL_SIZES {
        let group = Group::new(n).expect("the size is legal");
        let mut state = opened(n);
        for round in 1..=32 {
            let certificate = without(group, round % n, group.quorum());
            for record in round_without_leader(group, round, certificate) {
                vertices(&mut state, &[record]);
                assert_eq!(status(&state).current_round, round, "n {n}");
            }
            if round > 1 {
                assert_eq!(state[timeouts(round - 1)], certificate);
            }
            assert_eq!(state[timeouts(round)], 0);
        }
        // Nothing carries a certificate for round 32: its notes end it.
        let signers = without(group, 0, group.quorum());
        let state = noted(state, 32, signers);
        assert_eq!((state[timeouts(32)], state[CURRENT_ROUND]), (signers, 33));
        assert!(is_well_formed(&state));
    }
}

#[test]
fn a_member_without_notes_makes_its_record_and_signs() {
    // Without the certificate round 1 goes on.
    assert_eq!(sign_no_vote(&mut lacking_leader(4)).number, 17);
    let mut state = lacking_leader(4);
    vertices(&mut state, &[record(2, 0, 14, 11, 0)]);
    let made = propose(&mut state.clone(), digest_of_tag(5)).record;
    let expected = record(2, 3, 14, 11, 0).with_tag(5);
    assert_eq!(made, expected.words());
    assert_eq!(sign_no_vote(&mut state).number, 0);
    assert_eq!((state[timeouts(1)], state[no_votes(1)]), (11, 8));
}

#[test]
fn a_held_certificate_is_added_once() {
    // A well formed state may lack the certificate of a vertex that it holds.
    let mut state = two_leaders_lacking();
    state[timeouts(1)] = 0;
    state[CURRENT_ROUND] = 1;
    assert!(is_well_formed(&state));
    let state = noted(state, 1, 8);
    assert_eq!((state[timeouts(1)], state[CURRENT_ROUND]), (8, 1));
    let after = taken(&state, record(3, 0, 13, 7, 0)).expect("it is admitted");
    let masks = [1, 2, 3].map(|round| after[timeouts(round)]);
    assert_eq!((masks, after[CURRENT_ROUND]), ([8, 7, 0], 3));
}
