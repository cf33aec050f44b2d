//! How lists stand to one another, and why an entry is not there yet.

mod common;

use common::*;
use reference::layout::*;
use reference::record::Record;
use reference::Call;
use sidebyside::pair::{Order, Pair, Side};
use sidebyside::why::standing;

/// A state of four members with these vertices.
fn state(parts: &[Vec<Call>]) -> Vec<u32> {
    words_after(&[&[Call::Open(4, 0)][..], &parts.concat()].concat())
}

#[test]
fn orders_of_lists() {
    for (left, right, order, first) in [
        (&[][..], &[][..], Order::Equal, None),
        (&[16], &[16], Order::Equal, None),
        (&[16, 33], &[16], Order::Ahead(Side::Left, 1), Some(1)),
        (&[], &[16, 33], Order::Ahead(Side::Right, 2), Some(0)),
        (&[16, 33], &[16, 50], Order::Part(1), Some(1)),
        (&[16, 33, 50], &[33], Order::Part(0), Some(0)),
    ] {
        assert_eq!(Order::of([left, right]), order);
        assert_eq!(order.first_difference([left, right]), first);
    }
}

/// Leaders ahead on one side and journal on the other is no agreement, though no list parts.
#[test]
fn both_lists_must_be_behind_on_one_side() {
    let full = state(&[
        vertices(1, &ALL, 0),
        vertices(2, &ALL, 15),
        vertices(3, &ALL, 15),
    ]);
    let mut crossed = full.clone();
    crossed[LEADER_COUNT] = 1;
    crossed[LEADER_LIST.start + 1] = 0;
    crossed[COMMITTED_ROUND] = 1;
    let mut shorter = full;
    let last = shorter[JOURNAL_COUNT] as usize - 1;
    shorter[JOURNAL_COUNT] -= 1;
    shorter[JOURNAL.start + last] = 0;
    shorter[mask_place(2, ORDERED)] = 0;
    let pair = stored_pair(&crossed, &shorter);
    let report = report(&pair);
    assert!(pair.are_comparable() && !report.parts() && !pair.agrees());
    assert!(report.print().contains("they do NOT AGREE"));
}

/// A state with four full rounds, and one with these vertices.
fn beside(parts: &[Vec<Call>]) -> Pair {
    let full = |round| vertices(round, &ALL, if round == 1 { 0 } else { 15 });
    let rounds: Vec<Vec<Call>> = (1..=4).map(full).collect();
    stored_pair(&state(&rounds), &state(parts))
}

/// What is said of an id on the right.
fn says(parts: &[Vec<Call>], id: u32, text: &str) {
    let said = standing(&beside(parts), Side::Right, id).join(" ");
    assert!(said.contains(text), "{said}");
}

#[test]
fn too_few_voters() {
    let parts = [
        vertices(1, &ALL, 0),
        vertices(2, &ALL, 15),
        vertices(3, &[0, 3], 15),
    ];
    let voters =
        "No quorum of voters: round 2 has 2 of the 3 that it needs: members 0 and 3 (vertex).";
    says(
        &parts,
        33,
        &format!("held; not ordered; not in the leader list. {voters}"),
    );
    let reached = "The next leader whose history has it is ref 33 (round 2, member 1).";
    says(&parts, 17, &format!("{reached} {voters}"));
    says(
        &parts,
        49,
        "Nothing that it needs is missing: it has not been taken yet.",
    );
    let said = standing(&beside(&parts), Side::Left, 33).join(" ");
    let enough = "Enough voters: round 2 has 4 and needs 3: members 0, 1, 2 and 3 (vertex).";
    assert_eq!(
        said,
        format!("held; ordered, journal entry 5; leader list entry 2. {enough}")
    );
}

#[test]
fn a_missing_leader_or_parent() {
    let no_leader = [vertices(1, &ALL, 0), vertices(2, &[0, 2, 3], 15)];
    says(
        &no_leader,
        33,
        "not held; not ordered; not in the leader list. Nothing that it needs",
    );
    let next = "the next one not held is ref 33 (round 2, member 1).";
    says(
        &no_leader,
        17,
        &format!("No leader held above round 1 has it in its history; {next}"),
    );
    let no_first_leader = [vertices(1, &[1, 2, 3], 0)];
    says(
        &no_first_leader,
        17,
        &format!("No leader held above round 1 has it in its history; {next}"),
    );
    let no_parent = [vertices(1, &[0, 1, 2], 0)];
    says(
        &no_parent,
        33,
        "Its parent ref 19 (round 1, member 3) is missing here.",
    );
    let one = [vertices(1, &[3], 0)];
    says(
        &one,
        33,
        "3 of its parents are missing here, the lowest is ref 16 (round 1, member 0).",
    );
    says(
        &one,
        700,
        "not held; not ordered; not in the leader list. Neither sheet holds it.",
    );
}

/// Voters by what was seen of them.
#[test]
fn voters_seen_both_ways() {
    let first = |source| {
        let Call::Vertex(words) = vertices(2, &[source], 15)[0].clone() else {
            panic!("these are vertices");
        };
        Call::First(words)
    };
    let seen = [
        vertices(1, &ALL, 0),
        vertices(2, &[0, 1], 15),
        vec![first(0), first(3)],
    ];
    let voters =
        "member 1 (vertex), member 0 (vertex and first message), member 3 (first message).";
    says(
        &seen,
        16,
        &format!("Enough voters: round 1 has 3 and needs 3: {voters}"),
    );
}

/// A leader listed by a path, and one that was left out.
#[test]
fn leaders_without_a_quorum() {
    let by_path = [
        vertices(1, &ALL, 0),
        vertices(2, &[0, 1], 15),
        lacking_leader(),
        vertices(3, &ALL, 15),
    ];
    says(
        &by_path,
        16,
        "A strong path leads to it from the next leader, ref 33 (round 2, member 1).",
    );
    let mut left_out = state(&by_path);
    left_out[LEADER_COUNT] = 1;
    left_out[LEADER_LIST.start] = 33;
    left_out[LEADER_LIST.start + 1] = 0;
    let pair = stored_pair(&left_out, &left_out);
    let said = standing(&pair, Side::Left, 16).join(" ");
    assert!(
        said.contains("It was left out, though a strong path leads to it from ref 33"),
        "{said}"
    );
}

/// Vertices of round 2 that do not vote.
fn lacking_leader() -> Vec<Call> {
    let lacking = |source| Record {
        timeouts: 7,
        ..record(2, source, 14)
    };
    [2, 3].map(|source| vertex(lacking(source))).to_vec()
}

/// What no leader that can be committed has in its history stays as it is.
#[test]
fn the_last_rounds() {
    let full = |round| vertices(round, &ALL, if round == 1 { 0 } else { 15 });
    let rounds: Vec<Vec<Call>> = (1..=LAST_ROUND).map(full).collect();
    let pair = stored_pair(&state(&rounds), &state(&rounds));
    for id in [vertex_id(31, 0), vertex_id(32, 3)] {
        let said = standing(&pair, Side::Left, id).join(" ");
        assert!(
            said.contains("It stays so: no leader above round"),
            "{said}"
        );
    }
}

/// Of a damaged state, what its masks say is held.
#[test]
fn a_held_record_that_fails() {
    let rounds = [vertices(1, &ALL, 0), vertices(2, &ALL, 15)];
    let mut damaged = state(&rounds);
    damaged[cell_word(2, 1, CELL_STRONG)] = 1;
    let pair = stored_pair(&damaged, &state(&rounds[..1]));
    let said = standing(&pair, Side::Left, 33).join(" ");
    assert_eq!(
        said,
        "held, with a record that fails the questions; not ordered; not in the leader list."
    );
    let said = standing(&pair, Side::Right, 33).join(" ");
    assert!(
        said.contains("The other sheet's record of it fails the questions."),
        "{said}"
    );
    assert!(report(&pair).print().contains("vertices held       8"));
}
