//! Our own vertex and our own no-vote: each sentence of 02's request A1.

mod common;

use std::collections::BTreeSet;

use common::*;
use reference::answer::{self, Answer, Proposal};
use reference::group::{bit, members, Group};
use reference::layout::*;
use reference::record::{digest_of_tag, first_refusal, Digest, Record};
use reference::rng::Rng;
use reference::simulate::{simulate, simulate_proposing, Options};
use reference::*;

const DIGEST: Digest = [77, 1, 2, 3, 4, 5, 6, u32::MAX];

/// Makes our vertex on a copy; a refusal has an empty record and changes no word, an admission
/// sets its bit of word 6 alone.
fn proposed(state: &State) -> Result<Record, u32> {
    let mut after = state.clone();
    let Proposal { answer, record } = propose(&mut after, DIGEST);
    assert_eq!(answer, Answer::refused(answer.number));
    if answer.number != 0 {
        assert_eq!((record, &after), ([0; RECORD_WORDS], state));
        return Err(answer.number);
    }
    let made = state[MADE_ROUNDS] | round_bit(state[CURRENT_ROUND]);
    assert_eq!(changes(state, &after), [(MADE_ROUNDS, made)]);
    let record = Record::from_words(&record).expect("a record has its size");
    assert_eq!(
        (record.round, record.digest),
        (state[CURRENT_ROUND], DIGEST)
    );
    assert_eq!(record.source + 1, state[OWN]);
    Ok(record)
}

/// Signs our no-vote on a copy; a refusal changes no word.
fn signed(state: &State) -> Result<State, u32> {
    let mut after = state.clone();
    let answer = sign_no_vote(&mut after);
    assert_eq!(answer, Answer::refused(answer.number));
    if answer.number != 0 {
        assert_eq!(&after, state);
        return Err(answer.number);
    }
    Ok(after)
}

/// Four members in round 2, which round 1's timeouts have ended: 1/1, 1/2 and 1/3 are held, the
/// leader's 1/0 is not.
fn lacking(own: u32) -> State {
    let state = noted(lacking_leader(own), 1, 14);
    assert_eq!(status(&state).current_round, 2);
    state
}

/// Four members with all vertices of so many rounds, each naming all of the round before.
fn full(own: u32, rounds: u32) -> State {
    let mut state = opened_for(4, own);
    for round in 1..=rounds {
        let strong = if round == 1 { 0 } else { 15 };
        let sources = [0, 1, 2, 3];
        vertices(
            &mut state,
            &sources.map(|source| plain(round, source, strong)),
        );
    }
    assert_eq!(status(&state).current_round, rounds + 1);
    state
}

#[test]
fn opening_writes_word_5() {
    for n in LEGAL_SIZES {
        for own in 0..=n {
            let mut state = rich_state();
            assert_eq!(open(&mut state, n, own), Answer::default());
            let mut expected = vec![0; STATE_WORDS];
            (expected[N], expected[CURRENT_ROUND], expected[OWN]) = (n, 1, own);
            assert_eq!(state, expected);
            assert!(is_well_formed(&state));
        }
    }
}

#[test]
fn an_own_member_beyond_the_group_gives_6_after_1_and_2() {
    for n in LEGAL_SIZES {
        for own in [n + 1, n + 2, 17, 32, 1 << 31, u32::MAX] {
            let mut state = rich_state();
            assert_eq!(open(&mut state, n, own), Answer::refused(answer::MEMBER));
            assert_eq!(state, rich_state());
            let mut short = vec![0; STATE_WORDS - 1];
            assert_eq!(open(&mut short, n, own).number, 1);
        }
    }
    for n in [0, 5, 17, u32::MAX] {
        for own in [0, 1, 5, u32::MAX] {
            assert_eq!(open(&mut rich_state(), n, own).number, 2);
        }
    }
}

#[test]
fn the_first_round_has_no_parents() {
    for n in LEGAL_SIZES {
        for own in 1..=n {
            let state = opened_for(n, own);
            let expected = Record {
                digest: DIGEST,
                ..plain(1, own - 1, 0)
            };
            assert_eq!(proposed(&state), Ok(expected));
        }
    }
    // Neither other vertices of the round nor notes change that.
    let state = with(&full(3, 1), &[(CURRENT_ROUND, 1), (timeouts(1), 15)]);
    assert_eq!(proposed(&state).map(|record| record.strong), Ok(0));
}

#[test]
fn any_digest_is_taken() {
    for word in [0, 1, u32::MAX] {
        for at in 0..DIGEST_WORDS {
            let mut digest = DIGEST;
            digest[at] = word;
            let proposal = propose(&mut opened_for(4, 1), digest);
            assert_eq!(proposal.answer.number, 0);
            let words = CELL_DIGEST.map(|place| proposal.record[record_word(place)]);
            assert!(words.eq(digest));
        }
    }
}

#[test]
fn a_watcher_makes_and_signs_nothing() {
    for round in [1, 2, 5, 33] {
        let state = with(&lacking(0), &[(CURRENT_ROUND, round)]);
        assert_eq!(proposed(&state), Err(16));
        assert_eq!(signed(&state), Err(16));
    }
}

#[test]
fn round_33_gives_5_before_all_but_16() {
    let state = full(1, 32);
    assert_eq!(proposed(&state), Err(5));
    assert_eq!(proposed(&with(&state, &[(MADE_ROUNDS, u32::MAX)])), Err(5));
    let early = with(&opened_for(4, 1), &[(CURRENT_ROUND, 33)]);
    assert_eq!(proposed(&early), Err(5));
}

#[test]
fn the_strong_mask_is_all_held_of_the_round_before() {
    for mask in [7, 11, 13, 15] {
        let mut state = opened_for(4, 1);
        for source in members(mask) {
            vertices(&mut state, &[plain(1, source, 0)]);
        }
        let record = proposed(&state).expect("a record");
        assert_eq!(
            (record.strong, record.timeouts, record.no_votes),
            (mask, 0, 0)
        );
    }
    let record = proposed(&full(2, 5)).expect("a record");
    assert_eq!((record.round, record.strong), (6, 15));
}

#[test]
fn a_held_leader_signed_against_is_left_out() {
    for own in [1, 3, 4] {
        let mut state = signed(&lacking(own)).expect("signing is allowed");
        vertices(&mut state, &[plain(1, 0, 0)]);
        let record = proposed(&state).expect("a record");
        assert_eq!((record.strong, record.timeouts), (14, 14));
        // Unsigned, the leader is named.
        let record = proposed(&with(&state, &[(SIGNED_NO_VOTES, 0)])).expect("a record");
        assert_eq!((record.strong, record.timeouts), (15, 0));
        // A no-vote for another round does not matter.
        let record = proposed(&with(&state, &[(SIGNED_NO_VOTES, !1)])).expect("a record");
        assert_eq!(record.strong, 15);
    }
}

#[test]
fn no_made_record_votes_for_a_leader_signed_against() {
    let mut state = lacking(1);
    assert_eq!(sign_no_vote(&mut state).number, 0);
    vertices(&mut state, &[plain(1, 0, 0)]);
    let words = propose(&mut state, DIGEST).record;
    let record = Record::from_words(&words).expect("a record");
    assert_eq!(
        (record.strong, state[MADE_ROUNDS], state[SIGNED_NO_VOTES]),
        (14, 2, 1)
    );
    assert_eq!(vertex(&mut state, record), 0);
}

#[test]
fn certificates_are_copied_whole_where_they_are_wanted() {
    let masks = |state: &State| {
        let record = proposed(state).expect("a record");
        (record.strong, record.timeouts, record.no_votes)
    };
    let all = [(timeouts(1), 15), (no_votes(1), 15)];
    // Member 1 leads round 2, and alone carries no-votes.
    assert_eq!(masks(&with(&lacking(2), &all)), (14, 15, 15));
    assert_eq!(masks(&with(&lacking(2), &[(no_votes(1), 7)])), (14, 14, 7));
    assert_eq!(masks(&with(&lacking(1), &all)), (14, 15, 0));
    assert_eq!(masks(&with(&lacking(3), &all)), (14, 15, 0));
    // With the leader's vertex nothing is carried, whatever the masks have.
    for own in 1..=4 {
        let mut state = with(&lacking(own), &all);
        vertices(&mut state, &[plain(1, 0, 0)]);
        assert_eq!(masks(&state), (15, 0, 0));
    }
    // Masks of other rounds do not matter.
    let others = [(timeouts(2), 15), (no_votes(2), 15), (no_votes(1), 3)];
    assert_eq!(proposed(&with(&lacking(2), &others)), Err(10));
}

#[test]
fn masks_too_small_give_9_and_10() {
    let state = lacking(2);
    for mask in [0, 1, 3, 12] {
        assert_eq!(
            proposed(&with(&state, &[(timeouts(1), mask), (no_votes(1), 15)])),
            Err(9)
        );
        assert_eq!(
            proposed(&with(&state, &[(timeouts(1), mask), (no_votes(1), mask)])),
            Err(9)
        );
        assert_eq!(proposed(&with(&state, &[(no_votes(1), mask)])), Err(10));
        let other = with(&lacking(3), &[(no_votes(1), mask)]);
        assert_eq!(proposed(&other).map(|record| record.no_votes), Ok(0));
    }
}

#[test]
fn the_lack_is_that_of_the_made_mask() {
    let mut state = lacking(2);
    assert_eq!(sign_no_vote(&mut state).number, 0);
    vertices(&mut state, &[plain(1, 0, 0)]);
    assert_eq!(proposed(&with(&state, &[(timeouts(1), 3)])), Err(9));
    assert_eq!(proposed(&state), Err(10));
    let record = proposed(&with(&state, &[(no_votes(1), 7)])).expect("a record");
    assert_eq!(
        (record.strong, record.timeouts, record.no_votes),
        (14, 14, 7)
    );
}

#[test]
fn a_second_record_for_a_round_gives_12_after_9_and_10() {
    let made = [(MADE_ROUNDS, 2)];
    let state = with(&lacking(2), &made);
    assert_eq!(proposed(&state), Err(10));
    assert_eq!(proposed(&with(&state, &[(timeouts(1), 3)])), Err(9));
    assert_eq!(proposed(&with(&state, &[(no_votes(1), 7)])), Err(12));
    let mut state = full(1, 3);
    assert_eq!(propose(&mut state, DIGEST).answer.number, 0);
    for digest in [DIGEST, digest_of_tag(2)] {
        assert_eq!(propose(&mut state, digest).answer.number, 12);
    }
    let others = with(&state, &[(MADE_ROUNDS, !round_bit(4))]);
    assert!(proposed(&others).is_ok());
}

#[test]
fn few_strong_parents_give_18_after_12() {
    // Round 1's leader alone is held, and a host's word says round 2.
    let mut state = opened_for(4, 1);
    vertices(&mut state, &[plain(1, 0, 0)]);
    state[CURRENT_ROUND] = 2;
    assert_eq!(proposed(&state), Err(18));
    assert_eq!(proposed(&with(&state, &[(MADE_ROUNDS, 2)])), Err(12));
    vertices(&mut state, &[plain(1, 1, 0)]);
    assert_eq!(proposed(&state), Err(18));
    vertices(&mut state, &[plain(1, 3, 0)]);
    assert!(proposed(&state).is_ok());
    // Signed against, the leader does not count.
    let state = with(&state, &[(SIGNED_NO_VOTES, 1), (timeouts(1), 7)]);
    assert_eq!(proposed(&state), Err(18));
    // Nothing is held in the round before.
    let state = with(&full(2, 3), &[(CURRENT_ROUND, 9), (timeouts(8), 7)]);
    assert_eq!(proposed(&state), Err(18));
    assert_eq!(proposed(&with(&state, &[(timeouts(8), 3)])), Err(9));
}

#[test]
fn making_admits_nothing() {
    let mut state = full(1, 2);
    let proposal = propose(&mut state, DIGEST);
    assert_eq!(state[mask_place(3, HELD)] | state[mask_place(3, HEARD)], 0);
    assert_eq!(take_first_message(&mut state, &proposal.record).number, 0);
    assert_eq!(take_vertex(&mut state, &proposal.record).number, 0);
    // A vertex of ours that is held already does not matter.
    assert_eq!(
        proposed(&with(&state, &[(MADE_ROUNDS, 0)])).map(|made| made.round),
        Ok(3)
    );
}

/// A state with a complete round above the current one and a committable round, which no call has
/// looked at yet.
fn unlooked() -> State {
    let mut state = state_s();
    firsts(&mut state, &[plain(2, 0, 7), plain(2, 1, 7)]);
    let votes = [HEARD, VOTES].map(|which| mask_place(2, which));
    with(
        &state,
        &[(votes[0], 7), (votes[1], 7), (CURRENT_ROUND, 1), (OWN, 2)],
    )
}

#[test]
fn neither_call_moves_the_round_or_commits() {
    assert_eq!(proposed(&unlooked()).map(|made| made.round), Ok(1));
    let state = with(&unlooked(), &[(CURRENT_ROUND, 5)]);
    let after = signed(&state).expect("signing is allowed");
    assert_eq!(
        changes(&state, &after),
        [(SIGNED_NO_VOTES, 8), (no_votes(4), 2)]
    );
    assert_eq!(vertex(&mut unlooked(), plain(1, 3, 0)), 0);
}

/// Seven members, two of them faulty: in round 1 all, in round 2 all, each naming 0 to 4.
fn seven(own: u32) -> State {
    let mut state = opened_for(7, own);
    for source in 0..7 {
        vertices(&mut state, &[plain(1, source, 0)]);
    }
    for source in 0..7 {
        vertices(&mut state, &[plain(2, source, 31)]);
    }
    state
}

fn weak_ids(state: &State) -> Vec<u32> {
    let record = proposed(state).expect("a record");
    assert!(record
        .weak
        .iter()
        .skip(record.weak_count as usize)
        .all(|&id| id == 0));
    record.weak_parents().collect()
}

#[test]
fn weak_ids_are_the_f_lowest_that_no_strong_parent_reaches() {
    let mut state = seven(1);
    assert_eq!(weak_ids(&state), [21, 22]);
    // Round 2 is only one round down; in round 4 it is far enough, but 1/5 and 1/6 are lower.
    for source in 0..7 {
        vertices(&mut state, &[plain(3, source, 31)]);
    }
    assert_eq!(status(&state).current_round, 4);
    assert_eq!(weak_ids(&state), [21, 22]);
}

#[test]
fn weak_ids_may_be_fewer_than_f() {
    let mut state = seven(1);
    let state_of_4 = full(1, 4);
    assert_eq!(weak_ids(&state_of_4), []);
    vertices(&mut state, &[with_weak(plain(3, 0, 31), &[21])]);
    for source in 1..5 {
        vertices(&mut state, &[plain(3, source, 127)]);
    }
    assert_eq!(weak_ids(&state), [22]);
}

#[test]
fn both_kinds_of_edges_reach() {
    // 3/0 reaches 1/5 by a weak edge, 3/1 reaches 2/5 by a strong one.
    let mut state = seven(1);
    vertices(
        &mut state,
        &[
            with_weak(plain(3, 0, 31), &[21]),
            plain(3, 1, 63),
            plain(3, 2, 31),
            plain(3, 3, 31),
            plain(3, 4, 31),
        ],
    );
    assert_eq!(weak_ids(&state), [22, 38]);
    // In round 5 through a weak edge of a vertex two rounds down.
    for source in 0..5 {
        vertices(&mut state, &[plain(4, source, 31)]);
    }
    assert_eq!(weak_ids(&state), [22, 38]);
}

#[test]
fn chosen_weak_ids_do_not_shield_one_another() {
    // Nobody of 3/0 to 3/4 reaches 1/5, 1/6 or 2/5; 2/5 itself reaches 1/5.
    let mut state = opened_for(7, 1);
    for source in 0..7 {
        vertices(&mut state, &[plain(1, source, 0)]);
    }
    for source in 0..5 {
        vertices(&mut state, &[plain(2, source, 95)]);
    }
    vertices(&mut state, &[plain(2, 5, 63)]);
    for source in 0..5 {
        vertices(&mut state, &[plain(3, source, 31)]);
    }
    assert_eq!(status(&state).current_round, 4);
    assert_eq!(weak_ids(&state), [21, 37]);
}

#[test]
fn a_left_out_leader_reaches_nothing() {
    // 2/1 leads round 2 and alone reaches 1/3; signed against, it is no strong parent.
    let mut state = opened_for(4, 1);
    for source in 0..4 {
        vertices(&mut state, &[plain(1, source, 0)]);
    }
    vertices(
        &mut state,
        &[
            plain(2, 0, 7),
            plain(2, 1, 15),
            plain(2, 2, 7),
            plain(2, 3, 7),
        ],
    );
    assert_eq!(weak_ids(&state), []);
    let marks = [(SIGNED_NO_VOTES, 2), (timeouts(2), 7)];
    assert_eq!(weak_ids(&with(&state, &marks)), [19]);
}

#[test]
fn ordered_vertices_are_not_left_out() {
    let state = seven(1);
    let (ordered, end) = (
        mask_place(1, ORDERED),
        JOURNAL.start + state[JOURNAL_COUNT] as usize,
    );
    let count = state[JOURNAL_COUNT] + 1;
    let state = with(
        &state,
        &[
            (ordered, state[ordered] | bit(5)),
            (end, 21),
            (JOURNAL_COUNT, count),
        ],
    );
    assert!(is_well_formed(&state));
    assert_eq!(weak_ids(&state), [21, 22]);
}

#[test]
fn the_first_two_rounds_have_no_weak_ids() {
    assert_eq!(weak_ids(&opened_for(7, 3)), []);
    let state = with(&seven(1), &[(CURRENT_ROUND, 2)]);
    assert_eq!(weak_ids(&state), []);
}

#[test]
fn signing_marks_the_round_before_and_our_no_vote() {
    for own in 1..=4 {
        let state = lacking(own);
        let after = signed(&state).expect("signing is allowed");
        let expected = [(SIGNED_NO_VOTES, 1), (no_votes(1), bit(own - 1))];
        assert_eq!(changes(&state, &after), expected);
        assert_eq!(signed(&after), Err(12));
    }
    // Member 0 leads round 1: a no-vote against ourselves is allowed as well.
    assert!(signed(&lacking(1)).is_ok());
    let others = with(&lacking(1), &[(SIGNED_NO_VOTES, !1), (MADE_ROUNDS, !2)]);
    assert_eq!(
        signed(&others).map(|after| after[SIGNED_NO_VOTES]),
        Ok(u32::MAX)
    );
}

#[test]
fn signing_in_round_1_gives_17() {
    for words in [[0, 0], [1, 0], [0, u32::MAX], [u32::MAX, u32::MAX]] {
        let words = [(MADE_ROUNDS, words[0]), (SIGNED_NO_VOTES, words[1])];
        assert_eq!(signed(&with(&opened_for(4, 2), &words)), Err(17));
    }
}

#[test]
fn signing_gives_17_where_the_leader_is_held_or_a_record_made() {
    let state = lacking(4);
    assert_eq!(signed(&with(&state, &[(MADE_ROUNDS, 2)])), Err(17));
    let mut held = state.clone();
    vertices(&mut held, &[plain(1, 0, 0)]);
    assert_eq!(signed(&held), Err(17));
    let mut made = state.clone();
    assert_eq!(propose(&mut made, DIGEST).answer.number, 0);
    assert_eq!(signed(&made), Err(17));
    // The record of another round does not matter.
    assert!(signed(&with(&state, &[(MADE_ROUNDS, 1)])).is_ok());
}

#[test]
fn signing_gives_17_before_12() {
    let state = signed(&lacking(4)).expect("signing is allowed");
    let mut held = state.clone();
    vertices(&mut held, &[plain(1, 0, 0)]);
    assert_eq!(signed(&held), Err(17));
    let mut made = state.clone();
    assert_eq!(propose(&mut made, DIGEST).answer.number, 0);
    assert_eq!(signed(&made), Err(17));
    assert_eq!(signed(&state), Err(12));
}

#[test]
fn in_round_33_the_last_round_is_signed() {
    let mut state = full(2, 31);
    let sources = [0, 1, 2];
    vertices(&mut state, &sources.map(|source| plain(32, source, 15)));
    for signer in sources {
        assert_eq!(take_timeout(&mut state, 32, signer).number, 0);
    }
    assert_eq!(status(&state).current_round, 33);
    let after = signed(&state).expect("signing is allowed");
    let expected = [(SIGNED_NO_VOTES, 1 << 31), (no_votes(32), 2)];
    assert_eq!(changes(&state, &after), expected);
    assert_eq!(signed(&after), Err(12));
    // No record for round 33 can be made, so no mark speaks of one.
    assert!(signed(&with(&state, &[(MADE_ROUNDS, u32::MAX)])).is_ok());
    let mut held = state.clone();
    vertices(&mut held, &[plain(32, 3, 15)]);
    assert_eq!(signed(&held), Err(17));
}

#[test]
fn a_plain_no_vote_of_ours_is_no_signature() {
    let mut state = lacking(4);
    assert_eq!(take_no_vote(&mut state, 1, 3).number, 0);
    assert_eq!(state[SIGNED_NO_VOTES], 0);
    let after = signed(&state).expect("signing is allowed");
    assert_eq!(changes(&state, &after), [(SIGNED_NO_VOTES, 1)]);
    // It does not keep the leader from being named.
    vertices(&mut state, &[plain(1, 0, 0)]);
    assert_eq!(proposed(&state).map(|record| record.strong), Ok(15));
    // The signature, in turn, is our no-vote.
    assert_eq!(take_no_vote(&mut after.clone(), 1, 3).number, 12);
}

#[test]
fn plain_calls_leave_words_5_to_7_alone() {
    let marks = [
        (OWN, 3),
        (MADE_ROUNDS, 0xDEAD_BEEF),
        (SIGNED_NO_VOTES, u32::MAX),
    ];
    let mut state = with(&opened_for(7, 3), &marks);
    let replicas = simulate(3, 7, &Options::typical()).replicas;
    let plain = |call: &&Call| !matches!(call, Call::Propose(_) | Call::SignNoVote);
    let calls = replicas[0].iter().skip(1).filter(plain);
    let admitted = calls
        .filter(|call| call.apply(&mut state).number == 0)
        .count();
    assert!(admitted > 200, "{admitted}");
    assert!(marks.iter().all(|&(at, word)| state[at] == word));
}

/// The record that A1's text asks for, by a search from each held vertex of its own.
fn expected_record(state: &State) -> Option<Record> {
    let group = Group::new(state[N])?;
    let round = state[CURRENT_ROUND];
    let held = |round: u32| {
        if round == 0 {
            0
        } else {
            state[mask_place(round, HELD)]
        }
    };
    let was_signed = round >= 2 && state[SIGNED_NO_VOTES] >> (round - 2) & 1 == 1;
    let leader = if round >= 2 {
        bit(group.leader(round - 1))
    } else {
        0
    };
    let strong = held(round - 1) & if was_signed { !leader } else { u32::MAX };
    let lacks = round >= 2 && strong & leader == 0;
    let leads = group.leader(round) + 1 == state[OWN];
    let record = |id: u32| {
        let cell = &state[cell_place(round_of(id), member_of(id))];
        Record::from_cell(round_of(id), member_of(id), cell).expect("a cell has its size")
    };
    let mut reached = BTreeSet::new();
    let mut open: Vec<u32> = members(strong).map(|p| vertex_id(round - 1, p)).collect();
    while let Some(id) = open.pop() {
        if reached.insert(id) {
            open.extend(record(id).parents());
        }
    }
    let old = (1..round.max(2) - 1).flat_map(|q| members(held(q)).map(move |p| vertex_id(q, p)));
    let weak: Vec<u32> = old.filter(|id| !reached.contains(id)).collect();
    let made = Record {
        round,
        source: state[OWN] - 1,
        strong,
        timeouts: if lacks { state[timeouts(round - 1)] } else { 0 },
        no_votes: if lacks && leads {
            state[no_votes(round - 1)]
        } else {
            0
        },
        digest: DIGEST,
        ..Record::default()
    };
    Some(made.with_weak(&weak[..weak.len().min(group.f() as usize)]))
}

/// The number that A1's text asks for, given the record it would make.
fn expected_number(state: &State, made: &Record) -> u32 {
    let group = Group::new(state[N]).expect("the size is legal");
    let quorum = |mask: u32| mask.count_ones() >= group.quorum();
    let lacks = made.lacks_previous_leader(group);
    let questions = [
        (9, !lacks || quorum(made.timeouts)),
        (
            10,
            !lacks || made.source != group.leader(made.round) || quorum(made.no_votes),
        ),
        (12, state[MADE_ROUNDS] >> (made.round - 1) & 1 == 0),
        (18, made.round == 1 || quorum(made.strong)),
    ];
    let no = questions.iter().find(|(_, yes)| !yes);
    no.map_or(0, |&(number, _)| number)
}

/// The state with any current round up to two above its own, and any marks, timeouts and no-votes.
fn marked(rng: &mut Rng, state: &State, group: Group) -> State {
    let round = 1 + rng.below(state[CURRENT_ROUND].min(LAST_ROUND - 2) + 2);
    let member = [group.leader(round), rng.below(group.n())];
    let own = 1 + member[rng.below(2) as usize];
    let made = if rng.percent(20) { rng.word() } else { 0 };
    let signed = if rng.percent(50) { rng.word() } else { 0 };
    let mut marked = with(
        state,
        &[
            (CURRENT_ROUND, round),
            (OWN, own),
            (MADE_ROUNDS, made),
            (SIGNED_NO_VOTES, signed),
        ],
    );
    if round >= 2 {
        marked[timeouts(round - 1)] = rng.subset(group.all(), 80, 0);
        marked[no_votes(round - 1)] = rng.subset(group.all(), 80, 0);
    }
    marked
}

/// On states that groups reach, with any marks, each made record is as the text says, and passes
/// questions 5 to 11 and 14.
#[test]
fn made_records_are_as_the_text_says() {
    let mut rng = Rng::new(8);
    let mut seen = [0; 19];
    let mut with_weak = 0;
    for n in LEGAL_SIZES {
        let group = Group::new(n).expect("the size is legal");
        let options = Options {
            rounds: 12,
            ..Options::rough()
        };
        let runs = [simulate(7, n, &options), simulate_proposing(7, n, &options)];
        for calls in runs.iter().map(|run| &run.replicas[0]) {
            let mut state = vec![0; STATE_WORDS];
            for call in calls {
                call.apply(&mut state);
                let mut state = marked(&mut rng, &state, group);
                let expected = expected_record(&state).expect("the size is legal");
                let number = expected_number(&state, &expected);
                seen[number as usize] += 1;
                let made = proposed(&state);
                assert_eq!(made.err().unwrap_or(0), number);
                if let Ok(made) = made {
                    assert_eq!(made, expected);
                    assert_eq!(first_refusal(group, &made), None);
                    let taken = take_vertex(&mut state, &made.words()).number;
                    assert!([0, 12, 13].contains(&taken), "{taken}");
                    with_weak += usize::from(made.weak_count > 0);
                }
            }
        }
    }
    for number in [0, 9, 10, 12, 18] {
        assert!(seen[number] > 50, "{number}: {}", seen[number]);
    }
    assert!(with_weak > 50, "{with_weak}");
}
