//! What is seen of worlds, of commits, and of a model's lists at the end.

use std::collections::BTreeMap;

use reference::graph::Graph;
use reference::group::has;
use reference::layout::*;
use reference::model::Lists;
use reference::record::Record;
use reference::simulate::{ModelRun, World};
use reference::Call;

use crate::follower::Commit;

#[derive(Clone, Copy, Debug, PartialEq, Eq, PartialOrd, Ord)]
pub enum Event {
    /// A leader with this index whom some vertices of the next round name and others do not.
    Divided(u32),
    /// A main leader's vertex with no-votes against the leader with this index.
    NoVotes(u32),
    /// A first message that votes for the leader with this index exactly if the vertex does not.
    OtherVote(u32),
    /// A round up to the committed one with so many listed leaders.
    Listed(usize),
    /// A round below the committed one of which so many leaders are listed, and the vertex of the one
    /// after them is there.
    CutShort(usize),
    /// A round without listed leaders whose second one is in the journal.
    PassedBy,
    /// A round with a backed second leader that is not listed, since the main one is not backed.
    BackedAlone,
    /// A commit that grew the committed round directly.
    Growth,
    /// A commit whose walk grew the round that was committed before.
    LateGrowth,
    /// A commit that listed several leaders.
    Several,
    /// A journal entry with weak edges.
    Weak,
}

use Event::*;

/// How often each event was seen over a number of runs.
#[derive(Debug, Default)]
pub struct Seen(BTreeMap<Event, usize>);

impl Seen {
    /// These events were seen at least so often, and no others.
    pub fn require(&self, least: &[(Event, usize)]) {
        let least: BTreeMap<Event, usize> = least.iter().copied().collect();
        assert!(self.0.keys().eq(least.keys()), "{self:?}");
        let often = |(event, count): (&Event, &usize)| self.0[event] >= *count;
        assert!(least.iter().all(often), "{self:?}");
    }

    fn note(&mut self, event: Event, is_seen: bool) {
        if is_seen {
            *self.0.entry(event).or_insert(0) += 1;
        }
    }

    pub fn note_run(&mut self, run: &ModelRun) {
        let world = &run.world;
        for round in 1..world.rounds {
            for index in 0..world.m {
                self.note(Divided(index), is_divided(world, round, index));
            }
        }
        for vertex in world.vertices.values() {
            for index in 0..world.m {
                self.note(NoVotes(index), world.no_votes(vertex, index) != 0);
            }
        }
        for call in run.models.iter().flatten() {
            if let Call::First(words) = call {
                self.note_first_message(world, words);
            }
        }
    }

    fn note_first_message(&mut self, world: &World, words: &[u32]) {
        let record = Record::from_words(words).expect("it has its size");
        let Some(vertex) = world.vertices.get(&record.id()) else {
            return;
        };
        let differs = record.strong ^ vertex.strong;
        for index in 0..world.m {
            let votes_other =
                record.round > 1 && has(differs, world.group.leader_at(record.round - 1, index));
            self.note(OtherVote(index), votes_other);
        }
    }

    pub fn note_commit(&mut self, commit: &Commit) {
        self.note(Growth, commit.is_growth());
        self.note(LateGrowth, commit.is_late_growth());
        self.note(Several, commit.added.len() > 1);
    }

    pub fn note_end(&mut self, graph: &Graph, lists: &Lists) {
        let last = lists.leaders.last().map_or(0, |&leader| round_of(leader));
        for round in 1..=last {
            self.note_round(graph, lists, round, round < last);
        }
        for round in 1..=LAST_COMMITTABLE_ROUND {
            let is_alone = |second| {
                !graph.is_backed(graph.main_leader(round))
                    && graph.is_backed(second)
                    && !lists.leaders.contains(&second)
            };
            let second = graph.leaders(round).nth(1);
            self.note(BackedAlone, second.is_some_and(is_alone));
        }
        for &entry in &lists.journal {
            let record = graph.vertex(entry);
            self.note(Weak, record.is_some_and(|record| record.weak_count > 0));
        }
    }

    fn note_round(&mut self, graph: &Graph, lists: &Lists, round: u32, is_below: bool) {
        let is_listed = |leader: &u32| lists.leaders.contains(leader);
        let listed = graph.leaders(round).filter(is_listed).count();
        self.note(Listed(listed), true);
        let is_there = |leader: Option<u32>| leader.and_then(|id| graph.vertex(id)).is_some();
        let next = graph.leaders(round).nth(listed);
        self.note(CutShort(listed), listed > 0 && is_below && is_there(next));
        let second = graph.leaders(round).nth(1);
        let is_ordered = second.is_some_and(|second| lists.journal.contains(&second));
        self.note(PassedBy, listed == 0 && is_ordered);
    }
}

fn is_divided(world: &World, round: u32, index: u32) -> bool {
    let leader = world.group.leader_at(round, index);
    let next = vertex_id(round + 1, 0)..vertex_id(round + 2, 0);
    let vertices = world.vertices.range(next);
    let votes: Vec<bool> = vertices
        .map(|(_, record)| has(record.strong, leader))
        .collect();
    votes.contains(&true) && votes.contains(&false)
}
