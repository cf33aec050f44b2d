//! Each thing that a well formed state can have and the rules do not give, by setting words.

mod common;

use common::*;
use reference::layout::*;
use reference::record::Record;
use reference::Call;
use sidebyside::faults::Fault;

/// Four full rounds: leaders 16, 33 and 50.
fn full_rounds() -> Vec<u32> {
    let rounds = (1..=4).flat_map(|round| vertices(round, &ALL, if round == 1 { 0 } else { 15 }));
    words_after(
        &[Call::Open(4, 0)]
            .into_iter()
            .chain(rounds)
            .collect::<Vec<_>>(),
    )
}

/// Round 1's leader, with two votes, is passed over by a no-vote certificate: leader 33.
fn passed_over() -> Vec<u32> {
    let mut calls = vec![Call::Open(4, 0)];
    calls.extend(vertices(1, &ALL, 0));
    calls.extend(vertices(2, &[0, 2], 7));
    calls.push(vertex(Record {
        timeouts: 14,
        no_votes: 14,
        ..record(2, 1, 14)
    }));
    calls.extend(vertices(3, &[0, 1, 2], 7));
    words_after(&calls)
}

/// The state with these lists, and the ordered masks that the journal asks for.
fn with_lists(mut state: Vec<u32>, leaders: &[u32], journal: &[u32]) -> Vec<u32> {
    state[COMMITTED_ROUND] = leaders.last().map_or(0, |&id| round_of(id));
    for (list, count, entries) in [
        (LEADER_LIST, LEADER_COUNT, leaders),
        (JOURNAL, JOURNAL_COUNT, journal),
    ] {
        state[list.clone()].fill(0);
        state[list][..entries.len()].copy_from_slice(entries);
        state[count] = entries.len() as u32;
    }
    for round in 1..=LAST_ROUND {
        let members = journal.iter().filter(|&&id| round_of(id) == round);
        state[mask_place(round, ORDERED)] = members.map(|&id| 1 << member_of(id)).sum();
    }
    state
}

/// A well formed state has just this fault, and only on the side that has it.
fn check(state: Vec<u32>, fault: Fault, text: &str) {
    let pair = stored_pair(&state, &full_rounds());
    let report = report(&pair);
    assert!(pair.are_comparable(), "{:?}", pair.left.soundness);
    assert_eq!(report.faults, [vec![fault], vec![]]);
    let printed = printed(&report);
    assert!(
        printed.contains("The left sheet is not what the rules give"),
        "{printed}"
    );
    assert!(printed.contains(text), "{printed}");
}

#[test]
fn the_states_themselves_have_no_fault() {
    let [full, passed] = [full_rounds(), passed_over()];
    assert_eq!(full[LEADER_LIST][..4], [16, 33, 50, 0]);
    assert_eq!(full[JOURNAL][..10], [16, 17, 18, 19, 33, 32, 34, 35, 50, 0]);
    assert_eq!(passed[LEADER_LIST][..2], [33, 0]);
    assert_eq!(passed[JOURNAL][..5], [17, 18, 19, 33, 0]);
    let pair = stored_pair(&full, &passed);
    assert_eq!(report(&pair).faults, [vec![], vec![]]);
}

#[test]
fn a_leader_committed_a_vote_short() {
    let mut calls = vec![Call::Open(4, 0)];
    calls.extend(vertices(1, &ALL, 0));
    calls.extend(vertices(2, &[0, 2], 7));
    let short = with_lists(words_after(&calls), &[16], &[16]);
    check(
        short,
        Fault::TooFewVoters(16),
        "round 1 has 2 of the 3 that it needs",
    );
}

#[test]
fn a_leader_that_the_next_one_does_not_reach() {
    let state = with_lists(passed_over(), &[16, 33], &[16, 17, 18, 19, 33]);
    let fault = Fault::NotReached { id: 16, from: 33 };
    check(
        state,
        fault,
        "It lists ref 16 (round 1, member 0), to which no strong path leads from the next leader, \
         ref 33 (round 2, member 1). No quorum of voters: round 1 has 2",
    );
}

#[test]
fn a_leader_left_out() {
    let journal = [16, 17, 18, 19, 33, 32, 34, 35, 50];
    let state = with_lists(full_rounds(), &[33, 50], &journal);
    let fault = Fault::LeftOut { id: 16, from: 33 };
    check(state, fault, "It leaves out ref 16 (round 1, member 0)");
}

#[test]
fn a_ready_round_that_is_not_committed() {
    let state = with_lists(full_rounds(), &[16, 33], &[16, 17, 18, 19, 33]);
    check(
        state,
        Fault::NotCommitted(3),
        "Round 3 is ready, and is not committed.",
    );
}

#[test]
fn a_journal_in_another_order() {
    let [leaders, journal] = [&[16, 33, 50][..], &[16, 18, 17, 19, 33, 32, 34, 35, 50]];
    let given = Some(17);
    check(
        with_lists(full_rounds(), leaders, journal),
        Fault::Journal { at: 1, given },
        "entry 2 would be ref 17 (round 1, member 1)",
    );
    let longer = [&[16, 17, 18, 19, 33, 32, 34, 35, 50][..], &[48]].concat();
    check(
        with_lists(full_rounds(), leaders, &longer),
        Fault::Journal { at: 9, given: None },
        "entry 10 would be no entry",
    );
}

#[test]
fn another_current_round() {
    let mut state = full_rounds();
    state[CURRENT_ROUND] = 3;
    let fault = Fault::CurrentRound { is: 3, given: 5 };
    check(
        state,
        fault,
        "Its current round is 3. What it holds gives round 5.",
    );
}

#[test]
fn carried_timeouts_that_were_not_added() {
    let mut state = passed_over();
    state[mask_place(1, TIMEOUTS)] = 6;
    check(
        state,
        Fault::TimeoutsNotAdded(33),
        "It lacks timeouts that ref 33 (round 2, member 1) carries.",
    );
}

#[test]
fn a_signed_no_vote_that_is_not_noted() {
    let mut state = full_rounds();
    state[OWN] = 3;
    state[SIGNED_NO_VOTES] = round_bit(2);
    let text = "Its own signed no-vote for round 2 is not among its no-votes.";
    check(state.clone(), Fault::SignedNotNoted(2), text);
    state[mask_place(2, NO_VOTES)] = 1 << 2;
    let pair = stored_pair(&state, &full_rounds());
    assert_eq!(report(&pair).faults, [vec![], vec![]]);
    assert_eq!(report(&pair).caught().into_iter().collect::<Vec<_>>(), [2]);
}
