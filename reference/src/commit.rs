//! What follows an admitted call: the current round, and the commits (000, figure 3).

use std::collections::BTreeSet;

use crate::group::{bit, has, members};
use crate::layout::{member_of, round_of, vertex_id, LAST_COMMITTABLE_ROUND, LAST_ROUND};
use crate::state::ReplicaState;

impl ReplicaState {
    /// Raises the current round after a vertex, a timeout or a bundle of timeouts.
    pub fn advance_current_round(&mut self) {
        let held = self.held();
        let complete = |&round: &u32| {
            self.group.is_quorum(held.get(round))
                && (held.has(round, self.group.leader(round))
                    || self.group.is_quorum(self.timeouts.get(round)))
        };
        if let Some(round) = (1..=LAST_ROUND).rev().find(complete) {
            self.current_round = self.current_round.max(round + 1);
        }
    }

    /// Commits the lowest committable round, again until none is committable.
    pub fn commit_all(&mut self) {
        while let Some(round) = self.lowest_committable_round() {
            self.commit(round);
        }
    }

    pub fn lowest_committable_round(&self) -> Option<u32> {
        (self.committed_round + 1..=LAST_COMMITTABLE_ROUND)
            .find(|&round| self.is_committable(round))
    }

    /// Whether a round above the committed one is committable (01: ready).
    pub fn is_committable(&self, round: u32) -> bool {
        self.holds(self.group.leader_id(round)) && self.group.is_quorum(self.voters(round))
    }

    /// The members whose first message or held vertex of the next round votes for the round's leader
    /// (02, request A6).
    pub fn voters(&self, round: u32) -> u32 {
        let next = vertex_id(round + 1, 0)..vertex_id(round + 2, 0);
        self.vertices
            .range(next)
            .filter(|(_, record)| record.votes(self.group))
            .fold(self.votes.get(round + 1), |voters, (_, record)| {
                voters | bit(record.source)
            })
    }

    /// Commits a committable round.
    fn commit(&mut self, round: u32) {
        let mut taken = vec![self.group.leader_id(round)];
        let mut standing = self.group.leader_id(round);
        for lower in (self.committed_round + 1..round).rev() {
            let leader = self.group.leader_id(lower);
            if self.holds(leader) && self.has_strong_path(standing, leader) {
                taken.push(leader);
                standing = leader;
            }
        }
        taken.reverse();
        self.committed_round = round;
        self.leader_list.extend(&taken);
        let mut ordered = self.ordered();
        for leader in taken {
            let history = self.history([leader]);
            let added: Vec<u32> = history.difference(&ordered).copied().collect();
            ordered.extend(&added);
            self.journal.extend(added);
        }
    }

    /// Whether strong edges in a row lead from one held vertex to another of a lower round.
    pub fn has_strong_path(&self, from: u32, to: u32) -> bool {
        let mut reached = bit(member_of(from));
        for round in (round_of(to) + 1..=round_of(from)).rev() {
            reached = members(reached)
                .filter_map(|member| self.vertices.get(&vertex_id(round, member)))
                .fold(0, |below, record| below | record.strong);
        }
        has(reached, member_of(to))
    }

    /// Held vertices and all reached from them by strong and weak edges. Edges lead to lower rounds,
    /// so when a vertex is looked at, from the highest id down, all edges to it have been seen.
    pub fn history(&self, ids: impl IntoIterator<Item = u32>) -> BTreeSet<u32> {
        let mut reached = vec![false; vertex_id(LAST_ROUND + 1, 0) as usize];
        for id in ids {
            reached[id as usize] = true;
        }
        for (&at, record) in self.vertices.iter().rev() {
            if reached[at as usize] {
                record
                    .parents()
                    .for_each(|parent| reached[parent as usize] = true);
            }
        }
        (0..)
            .zip(reached)
            .filter_map(|(id, is_reached)| is_reached.then_some(id))
            .collect()
    }
}
