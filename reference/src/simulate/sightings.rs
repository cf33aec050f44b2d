//! Members seen to vote for a leader, by first message and by vertex (02, request A6): in the words of
//! a state, and as calls of rounds 1 and 2.

use crate::call::Call;
use crate::group::{bit, has, members, Group};
use crate::layout::{cell_word, mask_place, CELL_STRONG, HELD, N, VOTES};
use crate::record::Record;

/// The members that a well formed state has seen to vote for the leader of a round from 1 to 31: by
/// first messages, and by held vertices.
pub fn in_state(state: &[u32], round: u32) -> [u32; 2] {
    let leader = (round - 1) % state[N];
    let held = members(state[mask_place(round + 1, HELD)]);
    let strong = |member| state[cell_word(round + 1, member, CELL_STRONG)];
    let by_vertices = held.filter(|&member| has(strong(member), leader));
    [
        state[mask_place(round + 1, VOTES)],
        by_vertices.map(bit).sum(),
    ]
}

/// What is seen of a member's record of round 2.
#[derive(Clone, Copy, Debug, PartialEq, Eq)]
pub enum Sighting {
    Nothing,
    /// It names the leader of round 1.
    Vote,
    /// It does not.
    NoVote,
}

use Sighting::{NoVote, Nothing, Vote};

/// A member's first message, and its vertex.
pub type Pair = [Sighting; 2];

/// All nine pairs.
pub const PAIRS: [Pair; 9] = [
    [Nothing, Nothing],
    [Nothing, Vote],
    [Nothing, NoVote],
    [Vote, Nothing],
    [Vote, Vote],
    [Vote, NoVote],
    [NoVote, Nothing],
    [NoVote, Vote],
    [NoVote, NoVote],
];

/// Round 1 of all members.
pub fn first_round(group: Group) -> Vec<Call> {
    let record = |source| Record {
        round: 1,
        source,
        ..Record::default()
    };
    (0..group.n()).map(|p| vertex(&record(p))).collect()
}

/// The calls that bring a member's first message and its vertex, as far as they are seen.
pub fn calls(group: Group, source: u32, [heard, held]: Pair) -> Vec<Call> {
    let heard = of_sighting(group, source, heard);
    let held = of_sighting(group, source, held);
    let first = heard.map(|record| Call::First(record.words().to_vec()));
    first.into_iter().chain(held.as_ref().map(vertex)).collect()
}

fn vertex(record: &Record) -> Call {
    Call::Vertex(record.words().to_vec())
}

/// A record with a quorum of strong parents, from member 0 up, who leads round 1, or from the last one
/// down, with the certificates that it needs then.
fn of_sighting(group: Group, source: u32, sighting: Sighting) -> Option<Record> {
    let lowest = (1 << group.quorum()) - 1;
    let highest = lowest << (group.n() - group.quorum());
    let record = Record {
        round: 2,
        source,
        ..Record::default()
    };
    match sighting {
        Nothing => None,
        Vote => Some(Record {
            strong: lowest,
            ..record
        }),
        NoVote => Some(Record {
            strong: highest,
            timeouts: highest,
            no_votes: if source == group.leader(2) {
                highest
            } else {
                0
            },
            ..record
        }),
    }
}
