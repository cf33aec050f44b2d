//! Who is caught, by what, and what is printed of it.

mod common;

use std::collections::BTreeSet;

use common::*;
use reference::layout::CURRENT_ROUND;
use reference::record::Record;
use reference::Call;
use sidebyside::evidence::{Kind, Signed};
use sidebyside::member::MemberState;
use sidebyside::pair::{Pair, Side};

/// A record that lacks the previous leader, with the certificates that it needs.
fn without_leader(round: u32, source: u32, strong: u32, no_votes: u32) -> Record {
    Record {
        timeouts: 7,
        no_votes,
        ..record(round, source, strong)
    }
}

fn first(record: Record) -> Call {
    Call::First(record.words().to_vec())
}

/// Four members with all of round 1, and these calls.
fn calls(more: &[Call]) -> Vec<Call> {
    let mut calls = vec![Call::Open(4, 0)];
    calls.extend((0..4).map(|source| vertex(record(1, source, 0))));
    calls.extend(more.iter().cloned());
    calls
}

fn state(more: &[Call]) -> MemberState {
    stored(words_after(&calls(more)))
}

fn pair(left: &[Call], right: &[Call]) -> Pair {
    Pair {
        left: state(left),
        right: state(right),
    }
}

fn caught(pair: &Pair) -> BTreeSet<u32> {
    report(pair).caught()
}

#[test]
fn two_vertices_with_the_words_marked() {
    let pair = pair(
        &[vertex(record(2, 2, 15))],
        &[vertex(record(2, 2, 7).with_tag(99))],
    );
    let report = report(&pair);
    let found = report.evidence.two_records[0];
    assert_eq!((found.round, found.member), (2, 2));
    assert_eq!(
        (found.first.side, found.first.kind),
        (Side::Left, Kind::Vertex)
    );
    assert_eq!(
        (found.second.side, found.second.kind),
        (Side::Right, Kind::Vertex)
    );
    assert!(report.evidence.has_two_vertices());
    let text = report.print();
    let marked: Vec<&str> = text
        .lines()
        .filter(|line| line.ends_with("<-- differs"))
        .collect();
    let named: Vec<Vec<&str>> = marked
        .iter()
        .map(|line| line.split_whitespace().collect())
        .collect();
    assert_eq!(named[0][..4], ["strong", "mask", "15", "7"]);
    assert_eq!(named[1][..5], ["digest", "word", "1", "22", "99"]);
    assert_eq!(named.len(), 2);
    assert!(text.contains("The strong mask has member 3 only in the first, no member only in the"));
}

/// All seventeen words of both records are printed; from the ninth pair on only those that differ.
#[test]
fn many_pairs_are_printed_shortly() {
    let all = |tag: u32| -> Vec<Call> {
        let rounds = (2..=5).flat_map(|round| (0..4).map(move |source| (round, source)));
        let record = |(round, source)| record(round, source, 15).with_tag(tag + round);
        rounds.map(|cell| vertex(record(cell))).collect()
    };
    let pair = pair(&all(100), &all(200));
    let report = report(&pair);
    assert_eq!(report.evidence.two_records.len(), 16);
    let text = report.print();
    assert_eq!(text.matches("<-- differs").count(), 8);
    assert_eq!(text.matches("    weak ref 5").count(), 8);
    assert!(
        text.contains("Member 3 has two different records in round 5: digest word 1 105 and 205.")
    );
}

/// Of a first message a stored state has the vote alone, an input of `sheetlog` all words.
#[test]
fn a_first_message_and_a_vertex() {
    let heard = [first(record(2, 3, 7))];
    let votes = [vertex(record(2, 3, 15))];
    let does_not = [vertex(without_leader(2, 3, 14, 0))];
    assert_eq!(caught(&pair(&heard, &votes)), BTreeSet::new());
    assert_eq!(caught(&pair(&heard, &does_not)), BTreeSet::from([3]));
    assert_eq!(caught(&pair(&does_not, &heard)), BTreeSet::from([3]));
    let both = [heard.clone(), does_not.clone()].concat();
    assert_eq!(caught(&pair(&both, &[])), BTreeSet::from([3]));
    let lines = Pair {
        left: of_lines(&calls(&heard)),
        right: state(&votes),
    };
    assert_eq!(caught(&lines), BTreeSet::from([3]));
    assert!(report(&lines).print().contains("right, vertex"));
    assert!(!report(&lines).evidence.has_two_vertices());
}

#[test]
fn two_first_messages() {
    let votes = [first(record(2, 1, 7))];
    let does_not = [first(without_leader(2, 1, 14, 14))];
    assert_eq!(caught(&pair(&votes, &does_not)), BTreeSet::from([1]));
    assert_eq!(caught(&pair(&votes, &votes)), BTreeSet::new());
}

#[test]
fn a_vote_beside_a_no_vote() {
    let certificate = vertex(without_leader(2, 1, 14, 11));
    let vote = vertex(record(2, 0, 7));
    let message = first(record(2, 3, 7));
    let note = Call::NoVote(1, 0);
    for (left, right, signed, members) in [
        (
            vec![vote.clone()],
            vec![certificate.clone()],
            Signed::Certificate(33),
            &[0][..],
        ),
        (
            vec![vote.clone(), certificate.clone()],
            vec![],
            Signed::Certificate(33),
            &[0],
        ),
        (
            vec![message, vote.clone()],
            vec![certificate],
            Signed::Certificate(33),
            &[0, 3],
        ),
        (vec![vote], vec![note], Signed::Note, &[0]),
    ] {
        let pair = pair(&left, &right);
        let report = report(&pair);
        assert!(report.evidence.two_records.is_empty());
        assert_eq!(report.caught(), members.iter().copied().collect());
        for found in &report.evidence.votes_and_no_votes {
            assert_eq!((found.round, found.no_vote.1), (1, signed));
        }
    }
}

/// A vertex that is refused shows nothing, and nobody is caught by states of two groups.
#[test]
fn what_catches_nobody() {
    let conflict = [vertex(record(2, 2, 15)), vertex(record(2, 2, 7))];
    let lines = Pair {
        left: of_lines(&calls(&conflict)),
        right: state(&conflict[..1]),
    };
    assert_eq!(caught(&lines), BTreeSet::new());
    let text = "1 record was refused beside another one of the same round and member.";
    assert!(printed(&report(&lines)).contains(text));
    let twice = [
        first(record(2, 2, 15)),
        first(record(2, 2, 15)),
        first(record(2, 2, 7)),
    ];
    let lines = Pair {
        left: of_lines(&calls(&twice)),
        right: state(&[]),
    };
    assert!(printed(&report(&lines)).contains(text));
    let seven = words_after(&[Call::Open(7, 0), vertex(record(1, 0, 0).with_tag(99))]);
    let groups = Pair {
        left: state(&[]),
        right: stored(seven),
    };
    assert_eq!(caught(&groups), BTreeSet::new());
    assert!(!groups.agrees());
}

/// The same id in both journals with two records is said, and only of states of one group.
#[test]
fn entries_of_two_records_are_said() {
    let committed = |n: u32, tag: u32| {
        let all = (1 << n) - 1;
        let first = (0..n).map(|source| vertex(record(1, source, 0).with_tag(tag)));
        let second = (0..n).map(|source| vertex(record(2, source, all)));
        words_after(
            &[Call::Open(n, 0)]
                .into_iter()
                .chain(first)
                .chain(second)
                .collect::<Vec<_>>(),
        )
    };
    let said = |left: &[u32], right: &[u32]| {
        let pair = stored_pair(left, right);
        let text = printed(&report(&pair));
        (pair.agrees(), text.contains("DIFFERENT RECORDS for 1 entry that both journals have. The first is entry 1, ref 16"))
    };
    assert_eq!(said(&committed(4, 1), &committed(4, 2)), (true, true));
    assert_eq!(said(&committed(4, 1), &committed(4, 1)), (true, false));
    assert_eq!(said(&committed(4, 1), &committed(7, 2)), (false, false));
}

/// A damaged state catches nobody, but what the other shows alone counts, and where the records differ is
/// printed.
#[test]
fn a_well_formed_state_beside_a_damaged_one() {
    let breaker = [
        vertex(record(2, 2, 7)),
        vertex(without_leader(2, 1, 14, 14)),
    ];
    let mut damaged = words_after(&calls(&[vertex(record(2, 2, 7).with_tag(99))]));
    damaged[CURRENT_ROUND] = 99;
    let pair = Pair {
        left: state(&breaker),
        right: stored(damaged),
    };
    let report = report(&pair);
    assert_eq!(report.caught(), BTreeSet::from([2]));
    assert!(report.evidence.two_records.is_empty());
    assert_eq!(report.differences.len(), 1);
    let text = printed(&report);
    assert!(
        text.contains("The right sheet is not sound, and catches nobody. Caught: member 2."),
        "{text}"
    );
    assert!(
        text.contains("PERHAPS BY THE DAMAGE The records of member 2 in round 2:"),
        "{text}"
    );
    let digest = format!("in the second: 16{}", "0".repeat(62));
    assert!(text.contains(&digest), "{text}");
}

/// What a state without faults shows is cited from it, and what the other alone shows is called doubtful.
#[test]
fn a_state_with_faults_is_believed_less() {
    let calls = [
        vertex(record(2, 2, 7)),
        vertex(without_leader(2, 1, 14, 14)),
    ];
    let mut changed = words_after(&self::calls(&calls));
    changed[CURRENT_ROUND] = 1;
    let pair = Pair {
        left: stored(changed),
        right: state(&calls),
    };
    let report = report(&pair);
    let found = report.evidence.votes_and_no_votes[0];
    assert_eq!((found.vote.0, found.no_vote.0), (Side::Right, Side::Right));
    assert!(printed(&report).contains("What the left sheet alone shows is doubtful."));
}
