//! Who broke the rules, from what states hold: a member with two different records in a round,
//! and one that votes for a leader and signs a no-vote against it.

use std::collections::BTreeSet;

use reference::group::{has, Group};
use reference::layout::*;
use reference::record::Record;
use reference::state::ReplicaState;

use crate::origin::Origin;
use crate::pair::{Pair, Side};

/// Two different records of one round and member.
#[derive(Clone, Copy, Debug, PartialEq, Eq)]
pub struct TwoRecords {
    pub round: u32,
    pub member: u32,
    pub first: Sighting,
    pub second: Sighting,
}

/// Where a record was seen, and what of it: whether it votes for the leader of the round before, and
/// its words unless it is a first message of a stored state, which keeps no more than its vote.
#[derive(Clone, Copy, Debug, PartialEq, Eq)]
pub struct Sighting {
    pub side: Side,
    pub kind: Kind,
    pub votes: bool,
    pub record: Option<Record>,
}

#[derive(Clone, Copy, Debug, PartialEq, Eq, PartialOrd, Ord)]
pub enum Kind {
    Vertex,
    FirstMessage,
}

/// A vote for the leader of a round, and a no-vote of the same member against it.
#[derive(Clone, Copy, Debug, PartialEq, Eq)]
pub struct VoteAndNoVote {
    pub member: u32,
    /// The leader's round; the vote is a record of the next.
    pub round: u32,
    pub vote: (Side, Kind),
    pub no_vote: (Side, Signed),
}

/// Where a no-vote is seen: in the certificate of the vertex with this id, or as a note.
#[derive(Clone, Copy, Debug, PartialEq, Eq)]
pub enum Signed {
    Certificate(u32),
    Note,
}

#[derive(Clone, Debug, Default, PartialEq, Eq)]
pub struct Evidence {
    pub two_records: Vec<TwoRecords>,
    pub votes_and_no_votes: Vec<VoteAndNoVote>,
}

impl Evidence {
    /// What the states of these sides show, of which an earlier one is believed more. They are of one
    /// group; without sides there is nothing.
    pub fn of(pair: &Pair, sides: &[Side]) -> Evidence {
        let group = sides.first().and_then(|&side| pair.group_of(side));
        let n = group.map_or(0, Group::n);
        let cells = (1..=LAST_ROUND).flat_map(|round| (0..n).map(move |member| (round, member)));
        Evidence {
            two_records: cells
                .clone()
                .filter_map(|(round, member)| two_records(pair, sides, round, member))
                .collect(),
            votes_and_no_votes: cells
                .filter_map(|(round, member)| vote_and_no_vote(pair, sides, round, member))
                .collect(),
        }
    }

    /// The members caught.
    pub fn members(&self) -> BTreeSet<u32> {
        let two = self.two_records.iter().map(|found| found.member);
        let both = self.votes_and_no_votes.iter().map(|found| found.member);
        two.chain(both).collect()
    }

    pub fn is_empty(&self) -> bool {
        self.two_records.is_empty() && self.votes_and_no_votes.is_empty()
    }

    /// Whether the sides hold different vertices of some round and member.
    pub fn has_two_vertices(&self) -> bool {
        self.two_records.iter().any(|found| {
            [found.first, found.second]
                .iter()
                .all(|sighting| sighting.kind == Kind::Vertex)
        })
    }
}

/// The left side's record stands first.
fn two_records(pair: &Pair, sides: &[Side], round: u32, member: u32) -> Option<TwoRecords> {
    let mut sightings = sightings(pair, sides, round, member);
    sightings.sort_by_key(|sighting| (sighting.kind, sighting.side));
    let differ = |first: &Sighting, second: &Sighting| match (first.record, second.record) {
        (Some(first), Some(second)) => first != second,
        _ => first.votes != second.votes,
    };
    sightings.iter().enumerate().find_map(|(at, first)| {
        let second = sightings[at + 1..]
            .iter()
            .find(|second| differ(first, second))?;
        Some(TwoRecords {
            round,
            member,
            first: *first,
            second: *second,
        })
    })
}

/// All that was seen of a record that was admitted, side by side, vertices before first messages.
fn sightings(pair: &Pair, sides: &[Side], round: u32, member: u32) -> Vec<Sighting> {
    let kinds = |&side| [Kind::Vertex, Kind::FirstMessage].map(|kind| (side, kind));
    sides
        .iter()
        .flat_map(kinds)
        .filter_map(|(side, kind)| sighting(pair, side, kind, vertex_id(round, member)))
        .collect()
}

fn sighting(pair: &Pair, side: Side, kind: Kind, id: u32) -> Option<Sighting> {
    let state = pair.get(side).decoded.as_ref()?;
    let lines = match &pair.get(side).origin {
        Origin::Stored => None,
        Origin::Lines(lines) => Some(lines),
    };
    let (record, is_marked) = match kind {
        Kind::Vertex => (state.vertices.get(&id), false),
        Kind::FirstMessage => (
            lines.and_then(|lines| lines.first_messages.get(&id)),
            state.heard.has(round_of(id), member_of(id)),
        ),
    };
    let is_seen = record.is_some() || is_marked;
    is_seen.then(|| Sighting {
        side,
        kind,
        votes: record.map_or_else(
            || state.votes.has(round_of(id), member_of(id)),
            |record| record.votes(state.group),
        ),
        record: record.copied(),
    })
}

/// A vote for the leader of the round before, and a no-vote against it.
fn vote_and_no_vote(pair: &Pair, sides: &[Side], round: u32, member: u32) -> Option<VoteAndNoVote> {
    let before = round - 1;
    let vote = sightings(pair, sides, round, member)
        .into_iter()
        .find(|sighting| sighting.votes)?;
    let no_vote = sides.iter().find_map(|&side| {
        let signed = signed(pair.get(side).decoded.as_ref()?, before, member)?;
        Some((side, signed))
    })?;
    Some(VoteAndNoVote {
        member,
        round: before,
        vote: (vote.side, vote.kind),
        no_vote,
    })
}

/// A member's no-vote against the leader of a round, as the state has it.
fn signed(state: &ReplicaState, round: u32, member: u32) -> Option<Signed> {
    let next = vertex_id(round + 1, 0)..vertex_id(round + 2, 0);
    let mut carried = state.vertices.range(next);
    carried
        .find(|(_, record)| has(record.no_votes, member))
        .map(|(&id, _)| Signed::Certificate(id))
        .or_else(|| state.no_votes.has(round, member).then_some(Signed::Note))
}
