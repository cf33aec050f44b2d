//! Either sighting of a vote (02, request A6): a member counts once, by its first message or by its
//! vertex, and a quorum of such members commits.

mod common;

use common::*;
use reference::group::{bit, has, Group};
use reference::layout::*;
use reference::pending::laid_out;
use reference::record::Record;
use reference::rng::Rng;
use reference::simulate::sightings::Sighting::{NoVote, Nothing, Vote};
use reference::simulate::sightings::{calls, first_round, in_state, Pair, PAIRS};
use reference::*;

const SIZES: [u32; 5] = [4, 7, 10, 13, 16];

fn group(n: u32) -> Group {
    Group::new(n).expect("the size is legal")
}

/// A state on its way through sightings, with its model and the members that have voted for round 1's
/// leader in a record that was admitted.
#[derive(Clone)]
struct Watched {
    group: Group,
    state: State,
    model: Model,
    voters: u32,
}

impl Watched {
    /// After round 1.
    fn new(n: u32) -> Watched {
        let mut watched = Watched {
            group: group(n),
            state: vec![0; STATE_WORDS],
            model: Model::default(),
            voters: 0,
        };
        watched.make(&Call::Open(n, 0));
        let round_1 = first_round(watched.group);
        round_1.iter().for_each(|call| watched.make(call));
        watched
    }

    /// Makes a call that is admitted, and compares what is committed with the voters so far.
    fn make(&mut self, call: &Call) {
        let before = self.state[LEADER_COUNT];
        let answer = call.apply(&mut self.state);
        assert_eq!(answer.number, 0, "{call:?}");
        self.model.feed(call, answer.number);
        let record = call.record().and_then(Record::from_words);
        if let Some(record) = record.filter(|record| record.round == 2 && has(record.strong, 0)) {
            self.voters |= bit(record.source);
        }
        let expected = if self.group.is_quorum(self.voters) {
            (vec![16], vec![16])
        } else {
            (vec![], vec![])
        };
        assert_eq!(lists(&self.state), expected, "{call:?}");
        let added = expected.0.len() as u32 - before;
        assert_eq!((answer.leaders, answer.journal), (added, added));
        let model = self.model.lists();
        assert_eq!((model.leaders, model.journal), expected, "{call:?}");
    }

    /// Makes the calls that bring a member's sightings, in the one order or the other.
    fn see(&mut self, source: u32, pair: Pair, backwards: bool) {
        let mut calls = calls(self.group, source, pair);
        if backwards {
            calls.reverse();
        }
        calls.iter().for_each(|call| self.make(call));
    }
}

/// All ways to see the members from this one on.
fn see_all(watched: &Watched, member: u32, backwards: bool, ends: &mut [usize; 2]) {
    if member == watched.group.n() {
        ends[usize::from(watched.state[COMMITTED_ROUND] == 1)] += 1;
        return;
    }
    for pair in PAIRS {
        let mut next = watched.clone();
        next.see(member, pair, backwards);
        see_all(&next, member + 1, backwards, ends);
    }
}

#[test]
fn every_way_to_see_four_members() {
    for backwards in [false, true] {
        let mut ends = [0; 2];
        see_all(&Watched::new(4), 0, backwards, &mut ends);
        // Five of a member's nine pairs have a vote.
        let voting = 5 * 5 * 5 * 5 + 4 * (5 * 5 * 5 * 4);
        assert_eq!(ends, [9 * 9 * 9 * 9 - voting, voting]);
    }
}

/// The sightings of every member, in any order.
#[test]
fn sightings_of_larger_groups() {
    let mut rng = Rng::new(6);
    let mut committed = 0;
    for n in SIZES {
        for _ in 0..40 {
            let mut watched = Watched::new(n);
            let mut all = Vec::new();
            for source in 0..n {
                let pair = *rng.pick(&PAIRS).expect("there are nine");
                all.extend(calls(watched.group, source, pair));
            }
            while !all.is_empty() {
                let at = rng.below(all.len() as u32) as usize;
                watched.make(&all.swap_remove(at));
            }
            committed += watched.state[COMMITTED_ROUND];
        }
    }
    assert!((20..180).contains(&committed), "{committed}");
}

/// One member short of a quorum, each seen to vote both ways; then any sighting of one more.
#[test]
fn a_member_seen_both_ways_counts_once() {
    for n in SIZES {
        let mut watched = Watched::new(n);
        let quorum = watched.group.quorum();
        for source in 0..quorum - 1 {
            watched.see(source, [Vote, Vote], false);
        }
        assert_eq!(watched.state[COMMITTED_ROUND], 0);
        let [heard, held] = in_state(&watched.state, 1);
        assert_eq!(heard.count_ones() + held.count_ones(), 2 * (quorum - 1));
        for pair in PAIRS {
            let mut next = watched.clone();
            next.see(quorum - 1, pair, false);
            let votes = u32::from(pair.contains(&Vote));
            assert_eq!(next.state[COMMITTED_ROUND], votes, "{pair:?}");
        }
    }
}

/// What first messages alone or vertices alone committed before, they commit.
#[test]
fn either_alone_is_enough() {
    for n in SIZES {
        for pair in [[Vote, Nothing], [Nothing, Vote]] {
            let mut watched = Watched::new(n);
            let quorum = watched.group.quorum();
            for source in 0..quorum {
                assert_eq!(watched.state[COMMITTED_ROUND], 0);
                watched.see(n - 1 - source, pair, false);
            }
            assert_eq!(watched.state[COMMITTED_ROUND], 1);
        }
    }
}

/// First messages raise no round: that of the state is by vertices alone.
#[test]
fn sightings_do_not_raise_the_round() {
    let mut watched = Watched::new(4);
    watched.see(0, [Vote, Nothing], false);
    watched.see(1, [Vote, Nothing], false);
    watched.see(2, [Nothing, Vote], false);
    assert_eq!(watched.state[COMMITTED_ROUND], 1);
    assert_eq!(watched.state[CURRENT_ROUND], 2);
    assert_eq!(watched.state[mask_place(2, HELD)], 4);
    assert_eq!(watched.state[mask_place(2, VOTES)], 3);
}

/// A faulty member's two records differ: it is a voter if one of them names the leader, whichever.
#[test]
fn a_split_vote_counts() {
    for n in SIZES {
        for pair in [[Vote, NoVote], [NoVote, Vote]] {
            for backwards in [false, true] {
                let mut watched = Watched::new(n);
                let quorum = watched.group.quorum();
                for source in 0..quorum {
                    assert_eq!(watched.state[COMMITTED_ROUND], 0);
                    watched.see(source, pair, backwards);
                }
                assert_eq!(watched.state[COMMITTED_ROUND], 1);
                let [heard, held] = in_state(&watched.state, 1);
                assert_eq!(heard & held, 0);
            }
        }
    }
}

/// Votes are counted only while the leader's vertex is held.
#[test]
fn the_leader_s_vertex_must_be_held() {
    let mut state = opened(4);
    vertices(&mut state, &[1, 2, 3].map(|source| plain(1, source, 0)));
    firsts(&mut state, &[1, 2].map(|source| plain(2, source, 7)));
    assert_eq!(vertex(&mut state, plain(2, 3, 7)), 14);
    assert_eq!(lists(&state), (vec![], vec![]));
    vertices(&mut state, &[plain(1, 0, 0)]);
    assert_eq!(lists(&state), (vec![], vec![]));
    vertices(&mut state, &[plain(2, 3, 7)]);
    assert_eq!(lists(&state), (vec![16], vec![16]));
}

/// Round 31 is the last that can be committed, by either sighting in round 32.
#[test]
fn the_last_round() {
    let mut state = opened(4);
    for round in 1..LAST_ROUND {
        let strong = if round == 1 { 0 } else { 15 };
        let of = |source| plain(round, source, strong);
        vertices(&mut state, &[of(0), of(1), of(2), of(3)]);
    }
    assert_eq!(state[COMMITTED_ROUND], LAST_ROUND - 2);
    firsts(
        &mut state,
        &[0, 1].map(|source| plain(LAST_ROUND, source, 15)),
    );
    vertices(&mut state, &[plain(LAST_ROUND, 1, 15)]);
    assert_eq!(state[COMMITTED_ROUND], LAST_ROUND - 2);
    vertices(&mut state, &[plain(LAST_ROUND, 2, 15)]);
    assert_eq!(state[COMMITTED_ROUND], LAST_ROUND - 1);
    let rest = [0, 3].map(|source| plain(LAST_ROUND, source, 15));
    vertices(&mut state, &rest);
    assert_eq!(state[COMMITTED_ROUND], LAST_ROUND - 1);
}

/// A vertex released from the pending buffer is the third sighting.
#[test]
fn a_released_vertex_is_a_sighting() {
    let mut state = state_s();
    firsts(&mut state, &[0, 1].map(|source| plain(2, source, 7)));
    let mut buffer = laid_out(&[plain(2, 2, 15)]);
    let (answer, released) = checked_with(&mut state, &mut buffer, &plain(1, 3, 0).words());
    assert_eq!((answer.leaders, answer.journal), (1, 1));
    assert_eq!(released, [plain(2, 2, 15)]);
    assert_eq!(lists(&state), (vec![16], vec![16]));
}
