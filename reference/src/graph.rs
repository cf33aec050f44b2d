//! The graph of the records that a model was fed: vertices and first messages, their edges and votes
//! (01, "The agreement claim"), over m leaders in a round (02, request A10).

use std::collections::{BTreeMap, BTreeSet};

use crate::group::{members, Group};
use crate::layout::{member_of, round_of, vertex_id};
use crate::record::Record;

/// A group with m leaders in a round, and its vertices and first messages by vertex id.
#[derive(Clone, Debug)]
pub struct Graph {
    group: Group,
    m: u32,
    vertices: BTreeMap<u32, Record>,
    first_messages: BTreeMap<u32, Record>,
}

impl Graph {
    /// A graph without records.
    pub fn new(group: Group, m: u32) -> Graph {
        Graph {
            group,
            m,
            vertices: BTreeMap::new(),
            first_messages: BTreeMap::new(),
        }
    }

    pub fn add_vertex(&mut self, words: &[u32]) {
        keep(&mut self.vertices, words);
    }

    pub fn add_first_message(&mut self, words: &[u32]) {
        keep(&mut self.first_messages, words);
    }

    /// Tries the records of a pending buffer against the vertices, pass after pass, until one joins
    /// none: one whose id is there leaves, and one with all parents there joins.
    pub fn add_pending(&mut self, mut pending: Vec<Record>) {
        loop {
            let before = self.vertices.len();
            pending.retain(|record| {
                if self.vertices.contains_key(&record.id()) {
                    return false;
                }
                let is_there = |id| self.vertices.contains_key(&id);
                let joins =
                    strong_edges(record).all(is_there) && weak_edges(record).copied().all(is_there);
                if joins {
                    self.vertices.insert(record.id(), *record);
                }
                !joins
            });
            if self.vertices.len() == before {
                return;
            }
        }
    }

    /// The vertex with an id, if it is there.
    pub fn vertex(&self, id: u32) -> Option<&Record> {
        self.vertices.get(&id)
    }

    /// The vertex id of a round's main leader.
    pub fn main_leader(&self, round: u32) -> u32 {
        self.group.leader_id(round)
    }

    /// The vertex ids of a round's leaders, by rising index.
    pub fn leaders(&self, round: u32) -> impl Iterator<Item = u32> {
        let group = self.group;
        (0..self.m).map(move |index| group.leader_id_at(round, index))
    }

    /// Whether a leader's vertex is there, and a quorum of voters for it.
    pub fn is_backed(&self, leader: u32) -> bool {
        self.vertices.contains_key(&leader)
            && self.voters(leader).len() >= self.group.quorum() as usize
    }

    /// The members with a vertex or a first message of the round after that has the leader in its
    /// strong mask.
    fn voters(&self, leader: u32) -> BTreeSet<u32> {
        let round = round_of(leader) + 1;
        let records = vertex_id(round, 0)..vertex_id(round + 1, 0);
        self.vertices
            .range(records.clone())
            .chain(self.first_messages.range(records))
            .map(|(_, record)| record)
            .filter(|record| members(record.strong).any(|member| member == member_of(leader)))
            .map(|record| record.source)
            .collect()
    }

    /// The leaders of a round from index 0 on as long as each is backed.
    pub fn backed_run(&self, round: u32) -> Vec<u32> {
        self.leaders(round)
            .take_while(|&leader| self.is_backed(leader))
            .collect()
    }

    /// The leaders of a round from index 0 on as long as strong paths lead to each from a vertex.
    pub fn reached_run(&self, from: u32, round: u32) -> Vec<u32> {
        let reached = self.reached(from, round);
        self.leaders(round)
            .take_while(|leader| reached.contains(leader))
            .collect()
    }

    /// The walk from a main leader down to a round: from main leader to main leader, and at each round
    /// whose main leader is reached the run that is reached from where one stood. The leaders taken, by
    /// rising round and index; the one where it starts is not among them.
    pub fn walk(&self, main_leader: u32, lowest: u32) -> Vec<u32> {
        let mut standing = main_leader;
        let mut runs = Vec::new();
        for round in (lowest..round_of(main_leader)).rev() {
            let run = self.reached_run(standing, round);
            standing = *run.first().unwrap_or(&standing);
            runs.push(run);
        }
        runs.into_iter().rev().flatten().collect()
    }

    /// Whether strong edges in a row lead from one vertex to another of a lower round.
    pub fn has_strong_path(&self, from: u32, to: u32) -> bool {
        self.reached(from, round_of(to)).contains(&to)
    }

    /// The vertices of a lower round to which strong edges in a row lead. All strong edges lead one
    /// round down, so the vertices reached are those of one round at a time.
    fn reached(&self, from: u32, round: u32) -> BTreeSet<u32> {
        let mut reached = BTreeSet::from([from]);
        for _ in round..round_of(from) {
            let records = reached.iter().filter_map(|id| self.vertices.get(id));
            reached = records.flat_map(strong_edges).collect();
        }
        reached.retain(|id| self.vertices.contains_key(id));
        reached
    }

    /// The history of a vertex without what is there already. What is there is a union of whole
    /// histories, so nothing beyond a vertex that is there needs a look.
    pub fn history_beyond(&self, id: u32, there: &BTreeSet<u32>) -> BTreeSet<u32> {
        let mut found = BTreeSet::new();
        let mut open = vec![id];
        while let Some(id) = open.pop() {
            if there.contains(&id) || found.contains(&id) {
                continue;
            }
            if let Some(record) = self.vertices.get(&id) {
                found.insert(id);
                open.extend(strong_edges(record));
                open.extend(weak_edges(record));
            }
        }
        found
    }
}

fn strong_edges(record: &Record) -> impl Iterator<Item = u32> {
    let below = record.round - 1;
    members(record.strong).map(move |member| vertex_id(below, member))
}

fn weak_edges(record: &Record) -> impl Iterator<Item = &u32> {
    record.weak.iter().take(record.weak_count as usize)
}

fn keep(records: &mut BTreeMap<u32, Record>, words: &[u32]) {
    if let Some(record) = Record::from_words(words) {
        records.insert(record.id(), record);
    }
}
