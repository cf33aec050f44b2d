//! Each clause of "well formed" (01: sound), broken by changing words of a well formed state.

mod common;

use common::*;
use reference::layout::*;
use reference::*;

/// Changes words, and checks that every call but opening then answers 3 and changes nothing.
fn breaks(state: &State, changes: &[(usize, u32)]) {
    let mut damaged = state.clone();
    changes.iter().for_each(|&(at, word)| damaged[at] = word);
    assert!(!is_well_formed(&damaged), "{changes:?}");
    let before = damaged.clone();
    let record = plain(1, 3, 0).words().to_vec();
    for call in [
        Call::Vertex(record.clone()),
        Call::VertexWith(vec![0; BUFFER_WORDS], record.clone()),
        Call::First(record),
        Call::Timeout(1, 0),
        Call::Timeouts(1, 1),
        Call::NoVote(1, 0),
        Call::Propose([0; DIGEST_WORDS]),
        Call::SignNoVote,
    ] {
        assert_eq!(
            call.apply(&mut damaged),
            Answer {
                number: 3,
                ..Answer::default()
            }
        );
    }
    assert_eq!(
        status(&damaged),
        Status {
            number: 3,
            ..Status::default()
        }
    );
    assert_eq!(
        (ask_leaders(&damaged, 0), ask_journal(&damaged, u32::MAX)),
        (3, 3)
    );
    assert_eq!(
        (hand_leaders(&damaged, 0), hand_journal(&damaged, 0)),
        ((3, &[][..]), (3, &[][..]))
    );
    assert_eq!(damaged, before);
}

/// Changes words that may have other values.
fn keeps(state: &State, changes: &[(usize, u32)]) {
    let mut changed = state.clone();
    changes.iter().for_each(|&(at, word)| changed[at] = word);
    assert!(is_well_formed(&changed), "{changes:?}");
    assert_eq!(status(&changed).number, 0);
}

#[test]
fn lengths() {
    let state = rich_state();
    assert!(is_well_formed(&state));
    assert!(!is_well_formed(&state[..STATE_WORDS - 1]));
    assert!(!is_well_formed(&[state, vec![0]].concat()));
    assert!(!is_well_formed(&[]));
    assert!(!is_well_formed(&[0; STATE_WORDS]));
}

#[test]
fn head_words() {
    let state = rich_state();
    for n in [0, 1, 5, 7, 16, 19, u32::MAX] {
        breaks(&state, &[(N, n)]);
    }
    for round in [0, 34, u32::MAX] {
        breaks(&state, &[(CURRENT_ROUND, round)]);
    }
    for round in [1, 2, 33] {
        keeps(&state, &[(CURRENT_ROUND, round)]);
    }
    for round in [0, 1, 3, 32, u32::MAX] {
        breaks(&state, &[(COMMITTED_ROUND, round)]);
    }
}

#[test]
fn own_words() {
    let state = rich_state();
    let words = |own, made, signed| [(OWN, own), (MADE_ROUNDS, made), (SIGNED_NO_VOTES, signed)];
    for own in 0..=4 {
        keeps(&state, &words(own, 0, 0));
    }
    for own in [5, 6, 17, 1 << 31, u32::MAX] {
        breaks(&state, &words(own, 0, 0));
    }
    for marks in [1, 2, 1 << 31, u32::MAX] {
        breaks(&state, &words(0, marks, 0));
        breaks(&state, &words(0, 0, marks));
        keeps(&state, &words(1, marks, 0));
        keeps(&state, &words(4, 0, marks));
        keeps(&state, &words(2, marks, u32::MAX));
        breaks(&state, &words(5, marks, marks));
    }
    for n in [4, 7, 10, 13, 16] {
        keeps(&opened(n), &words(n, u32::MAX, u32::MAX));
        breaks(&opened(n), &words(n + 1, 0, 0));
    }
}

#[test]
fn the_committed_round_is_at_most_31() {
    let mut state = opened(4);
    for round in 1..=32 {
        for source in 0..4 {
            vertices(
                &mut state,
                &[plain(round, source, if round == 1 { 0 } else { 15 })],
            );
        }
    }
    assert!(is_well_formed(&state));
    let last = (LEADER_LIST.start + 31, vertex_id(32, 3));
    breaks(&state, &[(COMMITTED_ROUND, 32), (LEADER_COUNT, 32), last]);
}

#[test]
fn mask_bits_above_the_group() {
    let state = rich_state();
    for round in 1..=32 {
        for which in 0..MASKS_PER_ROUND {
            let at = mask_place(round, which);
            breaks(&state, &[(at, state[at] | 16)]);
            breaks(&state, &[(at, state[at] | 1 << 31)]);
        }
    }
}

#[test]
fn votes_and_heard() {
    let state = rich_state();
    let [heard, votes] = [HEARD, VOTES].map(|which| move |round| mask_place(round, which));
    breaks(&state, &[(votes(4), 1)]);
    keeps(&state, &[(heard(4), 1)]);
    keeps(&state, &[(heard(4), 3), (votes(4), 2)]);
    breaks(&state, &[(heard(1), 1), (votes(1), 1)]);
    breaks(&state, &[(heard(3), 6)]);
    keeps(&state, &[(timeouts(7), 15), (no_votes(8), 15)]);
}

/// The timeouts of a round need not have the certificates that held vertices carry for it.
#[test]
fn carried_certificates_and_timeouts() {
    let state = rich_state();
    let certificate = state[cell_word(2, 3, CELL_TIMEOUTS)];
    assert_eq!((certificate, state[timeouts(1)]), (7, 7));
    for mask in 0..16 {
        keeps(&state, &[(timeouts(1), mask)]);
        keeps(&state, &[(timeouts(1), mask), (CURRENT_ROUND, 1)]);
        let mut changed = with(&state, &[(timeouts(1), mask)]);
        for (call, number) in [
            (Call::Vertex(plain(2, 2, 15).words().to_vec()), 0),
            (Call::First(plain(1, 3, 0).words().to_vec()), 0),
            (Call::Timeout(2, 3), 0),
            (Call::Timeouts(2, 11), 0),
            (Call::NoVote(2, 3), 0),
            (Call::Propose([0; DIGEST_WORDS]), 16),
            (Call::SignNoVote, 16),
        ] {
            assert_eq!(call.apply(&mut changed).number, number, "{call:?}");
        }
    }
}

#[test]
fn ordered_within_held() {
    let state = rich_state();
    let [held, ordered] = [HELD, ORDERED].map(|which| mask_place(2, which));
    let entry = (JOURNAL.start + 4, vertex_id(2, 2));
    breaks(
        &state,
        &[(ordered, state[ordered] | 4), (JOURNAL_COUNT, 5), entry],
    );
    breaks(&state, &[(held, state[held] & !2)]);
}

#[test]
fn held_records_pass_the_questions() {
    let state = rich_state();
    let second = |place| cell_word(2, 0, place);
    let third = |place| cell_word(3, 0, place);
    let of_leader = |place| cell_word(2, 1, place);
    let [weak, last_weak] = [CELL_WEAK.start, CELL_WEAK.end - 1];
    breaks(&state, &[(second(CELL_STRONG), 7 | 16)]);
    breaks(&state, &[(second(CELL_TIMEOUTS), 1 << 16)]);
    breaks(&state, &[(cell_word(1, 0, CELL_STRONG), 1)]);
    breaks(&state, &[(second(CELL_STRONG), 3)]);
    breaks(&state, &[(second(CELL_TIMEOUTS), 7)]);
    breaks(&state, &[(cell_word(2, 3, CELL_TIMEOUTS), 3)]);
    breaks(&state, &[(second(CELL_NO_VOTES), 7)]);
    let lacks = [(of_leader(CELL_STRONG), 14), (of_leader(CELL_TIMEOUTS), 7)];
    breaks(&state, &lacks);
    keeps(&with(&state, &lacks), &[(of_leader(CELL_NO_VOTES), 7)]);
    breaks(&state, &[(second(CELL_WEAK_COUNT), 1)]);
    breaks(&state, &[(second(weak), 16)]);
    breaks(&state, &[(third(weak), 32)]);
    breaks(
        &state,
        &[(third(CELL_WEAK_COUNT), 2), (third(weak + 1), 20)],
    );
    breaks(&state, &[(third(last_weak), 1)]);
    for place in CELL_DIGEST {
        keeps(&state, &[(second(place), u32::MAX)]);
    }
    keeps(&state, &[(third(CELL_WEAK_COUNT), 0), (third(weak), 0)]);
}

#[test]
fn held_records_have_their_parents() {
    let state = rich_state();
    breaks(&state, &[(cell_word(3, 0, CELL_STRONG), 15)]);
    let mut dropped = vec![(mask_place(2, HELD), 0b0011)];
    dropped.extend(cell_place(2, 3).map(|at| (at, 0)));
    breaks(&state, &dropped);
    let mut fresh = opened(4);
    vertices(
        &mut fresh,
        &[plain(1, 0, 0), plain(1, 1, 0), plain(1, 2, 0)],
    );
    vertices(&mut fresh, &[plain(2, 0, 7), plain(2, 1, 7)]);
    keeps(&fresh, &[(mask_place(1, HELD), 15)]);
    vertices(&mut fresh, &[record(2, 3, 7, 0, 0), plain(3, 0, 11)]);
    let [count, weak] = [CELL_WEAK_COUNT, CELL_WEAK.start].map(|place| cell_word(3, 0, place));
    breaks(&fresh, &[(count, 1), (weak, 19)]);
    keeps(&fresh, &[(count, 1), (weak, 18)]);
}

#[test]
fn cells_not_held_are_zero() {
    let state = rich_state();
    for round in 1..=LAST_ROUND {
        for member in 0..IDS_PER_ROUND {
            if member < 4 && state[mask_place(round, HELD)] >> member & 1 == 1 {
                continue;
            }
            let at = cell_word(round, member, (round + member) as usize % CELL_WORDS);
            let mut damaged = state.clone();
            damaged[at] = 1;
            assert!(!is_well_formed(&damaged), "{round}/{member}");
        }
    }
    breaks(&state, &[(CELLS.end - 1, 1)]);
    breaks(&state, &[(cell_place(1, 4).start, 1)]);
}

#[test]
fn leader_list() {
    let state = rich_state();
    assert_eq!(state[LEADER_LIST][..3], [16, 33, 0]);
    let words = |count, leaders: [u32; 2], committed| {
        [
            (LEADER_COUNT, count),
            (LEADER_LIST.start, leaders[0]),
            (LEADER_LIST.start + 1, leaders[1]),
            (COMMITTED_ROUND, committed),
        ]
    };
    keeps(&state, &words(2, [16, 33], 2));
    breaks(&state, &words(2, [17, 33], 2));
    breaks(&state, &words(2, [0, 33], 2));
    breaks(&state, &words(2, [33, 33], 2));
    breaks(&state, &words(2, [33, 16], 2));
    breaks(&state, &words(2, [16, 32], 2));
    breaks(&state, &words(2, [16, u32::MAX], 2));
    breaks(&state, &words(2, [16, 50], 3));
    breaks(&state, &words(1, [16, 33], 2));
    breaks(&state, &words(1, [16, 0], 2));
    keeps(&state, &words(1, [16, 0], 1));
    keeps(&state, &words(1, [33, 0], 2));
    breaks(&state, &words(0, [16, 33], 2));
    breaks(&state, &words(0, [0, 0], 2));
    keeps(&state, &words(0, [0, 0], 0));
    breaks(&state, &words(2, [16, 33], 0));
    for count in [3, 32, 33, 5_000, u32::MAX] {
        breaks(&state, &[(LEADER_COUNT, count)]);
    }
}

#[test]
fn journal() {
    let state = rich_state();
    assert_eq!(state[JOURNAL][..5], [16, 17, 18, 33, 0]);
    let entry = |at: usize, id: u32| (JOURNAL.start + at, id);
    let ordered = mask_place(2, ORDERED);
    keeps(&state, &[entry(0, 33), entry(3, 16)]);
    breaks(&state, &[entry(0, 17)]);
    breaks(&state, &[entry(0, 19)]);
    breaks(&state, &[entry(0, 0)]);
    breaks(&state, &[entry(0, u32::MAX)]);
    breaks(&state, &[(JOURNAL_COUNT, 3)]);
    breaks(&state, &[(JOURNAL_COUNT, 3), entry(3, 0)]);
    keeps(&state, &[(JOURNAL_COUNT, 3), entry(3, 0), (ordered, 0)]);
    breaks(&state, &[(JOURNAL_COUNT, 5), entry(4, 16)]);
    breaks(&state, &[(ordered, 0)]);
    breaks(&state, &[(ordered, 3)]);
    for count in [0, 5, 512, 513, u32::MAX] {
        breaks(&state, &[(JOURNAL_COUNT, count)]);
    }
}

#[test]
fn list_words_beyond_the_counts_are_zero() {
    let state = rich_state();
    let lists = [(LEADER_LIST, LEADER_COUNT), (JOURNAL, JOURNAL_COUNT)];
    let unused = lists.map(|(list, count)| list.skip(state[count] as usize));
    for at in unused.into_iter().flatten() {
        breaks(&state, &[(at, 1)]);
    }
}

/// The first clause in 01's order is named, with its place: each broken alone, and beside all after it.
#[test]
fn the_first_clause_is_named() {
    let (second, third) = (
        [(cell_word(2, 0, CELL_STRONG), 3)],
        [(cell_word(3, 0, CELL_STRONG), 15)],
    );
    let not_held = [(cell_word(32, 15, CELL_WEAK_COUNT), 1)];
    let [timeouts, votes, ordered] = [(7, TIMEOUTS, 16), (4, VOTES, 1), (9, ORDERED, 2)]
        .map(|(round, which, word)| [(mask_place(round, which), word)]);
    let first_round = [(mask_place(1, HEARD), 1), (mask_place(1, VOTES), 1)];
    let cases: [(&[(usize, u32)], Broken, &str); 20] = [
        (
            &[(N, 5)],
            Broken::MemberCount(5),
            "the member count is 5, not one of [4, 7, 10, 13, 16]",
        ),
        (
            &[(CURRENT_ROUND, 34)],
            Broken::CurrentRound(34),
            "the current round is 34, not 1 to 33",
        ),
        (
            &[(COMMITTED_ROUND, 32)],
            Broken::CommittedRound(32),
            "the committed round is 32, not 0 to 31",
        ),
        (
            &[(OWN, 5)],
            Broken::OwnMember(5),
            "word 5 is 5, above the member count",
        ),
        (
            &[(MADE_ROUNDS, 1)],
            Broken::WatcherMarks,
            "a watcher's words 6 and 7 are not 0",
        ),
        (
            &timeouts,
            Broken::MaskBit {
                round: 7,
                mask: TIMEOUTS,
            },
            "the timeouts mask of round 7 has a bit at n or above",
        ),
        (
            &votes,
            Broken::VotesNotHeard(4),
            "round 4 has votes that were not heard",
        ),
        (&first_round, Broken::VotesOfRound1, "round 1 has votes"),
        (
            &ordered,
            Broken::OrderedNotHeld(9),
            "round 9 has ordered vertices that are not held",
        ),
        (
            &second,
            Broken::HeldRecord {
                round: 2,
                member: 0,
                number: 8,
            },
            "the held record of round 2, member 0 fails question 8, of its strong mask",
        ),
        (
            &third,
            Broken::HeldRecord {
                round: 3,
                member: 0,
                number: 14,
            },
            "the held record of round 3, member 0 fails question 14, of its parents",
        ),
        (
            &not_held,
            Broken::CellNotHeld {
                round: 32,
                member: 15,
            },
            "round 32, member 15 is not held, but its cell is not zero",
        ),
        (
            &[(LEADER_COUNT, 33)],
            Broken::LeaderCount(33),
            "the leader count is 33, above 32",
        ),
        (
            &[(LEADER_LIST.start, 17)],
            Broken::LeaderEntry(0),
            "leader list entry 1 is no held leader of a higher round than before",
        ),
        (
            &[(LEADER_COUNT, 1)],
            Broken::LastLeader(1),
            "the last leader's round, 1, is not the committed round",
        ),
        (
            &[(JOURNAL_COUNT, 513)],
            Broken::JournalCount(513),
            "the journal count is 513, above 512",
        ),
        (
            &[(JOURNAL.start + 1, 16)],
            Broken::JournalEntry(1),
            "journal entry 2 is not ordered, or stands there twice",
        ),
        (
            &[(JOURNAL_COUNT, 3)],
            Broken::JournalLacks(33),
            "the journal lacks an ordered vertex: round 2, member 1",
        ),
        (
            &[(LEADER_LIST.end - 1, 16)],
            Broken::BeyondLeaders,
            "words of the leader list beyond its count are not 0",
        ),
        (
            &[(JOURNAL.end - 1, 16)],
            Broken::BeyondJournal,
            "words of the journal beyond its count are not 0",
        ),
    ];
    let mut all_after = rich_state();
    for (changes, broken, text) in cases.iter().rev() {
        all_after = with(&all_after, changes);
        for state in [with(&rich_state(), changes), all_after.clone()] {
            assert_eq!(first_broken(&state), Some(*broken));
        }
        assert_eq!(broken.to_string(), *text);
    }
    assert_eq!(first_broken(&rich_state()), None);
    assert_eq!(
        first_broken(&[0; STATE_WORDS]),
        Some(Broken::MemberCount(0))
    );
    assert_eq!(first_broken(&[4]), Some(Broken::Size(1)));
}
