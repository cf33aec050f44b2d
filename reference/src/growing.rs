//! Leader list and journal kept commit by commit over m leaders in a round, as request A10 of 02 has
//! it: what its state is to do with its words, on the records of a model. A leader once listed stays
//! where it stands; under the premises of the claim these lists are those of the model.

use crate::graph::Graph;
use crate::layout::{round_of, LAST_COMMITTABLE_ROUND};
use crate::model::{Lists, Model};

/// The rules of the commits. A test can put another one in the place of each.
pub trait Rules {
    /// The leader that commits a round above the committed one: the main one, if it is backed.
    fn first_of(&self, graph: &Graph, round: u32) -> Option<u32> {
        Some(graph.main_leader(round)).filter(|&leader| graph.is_backed(leader))
    }

    /// The leader by which the committed round grows: the one after those listed, if it is backed.
    fn next_of(&self, graph: &Graph, round: u32, listed: &[u32]) -> Option<u32> {
        let next = graph.leaders(round).nth(listed.len());
        next.filter(|&leader| graph.is_backed(leader))
    }

    /// The leaders that are reached from one that commits its round, down to the committed round itself.
    fn reached(&self, graph: &Graph, leader: u32, committed_round: u32) -> Vec<u32> {
        graph.walk(leader, committed_round.max(1))
    }
}

/// The rules as they are written.
#[derive(Clone, Copy, Debug, Default)]
pub struct Written;

impl Rules for Written {}

/// The lists, empty at first.
#[derive(Clone, Debug, Default)]
pub struct GrowingLists<R = Written> {
    rules: R,
    lists: Lists,
}

impl<R: Rules> GrowingLists<R> {
    /// Empty lists that grow by these rules.
    pub fn new(rules: R) -> GrowingLists<R> {
        GrowingLists {
            rules,
            lists: Lists::default(),
        }
    }

    pub fn lists(&self) -> &Lists {
        &self.lists
    }

    /// The round of the last leader listed, 0 if there is none.
    pub fn committed_round(&self) -> u32 {
        self.lists.leaders.last().map_or(0, |&last| round_of(last))
    }

    /// Commits what is ready, again until nothing is. Returns the leaders that each commit added.
    pub fn commit_all(&mut self, model: &Model) -> Vec<Vec<u32>> {
        let graph = model.graph();
        let commits = std::iter::from_fn(|| self.commit_next(graph?));
        commits.collect()
    }

    /// Growth of the committed round goes before a round above it, and of those the lowest goes first.
    fn commit_next(&mut self, graph: &Graph) -> Option<Vec<u32>> {
        let added = match self.growth(graph) {
            Some(leader) => vec![leader],
            None => self.next_walk(graph)?,
        };
        self.lists.extend(graph, &added);
        Some(added)
    }

    /// The leader by which the committed round grows directly.
    fn growth(&self, graph: &Graph) -> Option<u32> {
        let round = round_of(*self.lists.leaders.last()?);
        self.rules.next_of(graph, round, self.listed())
    }

    /// What the lowest committable round adds: the leaders reached that are not listed, then the one that
    /// commits it.
    fn next_walk(&self, graph: &Graph) -> Option<Vec<u32>> {
        let committed_round = self.committed_round();
        let leader = (committed_round + 1..=LAST_COMMITTABLE_ROUND)
            .find_map(|round| self.rules.first_of(graph, round))?;
        let mut added = self.rules.reached(graph, leader, committed_round);
        added.retain(|reached| !self.listed().contains(reached));
        added.push(leader);
        Some(added)
    }

    /// The listed leaders of the committed round.
    fn listed(&self) -> &[u32] {
        let is_below = |&leader: &u32| round_of(leader) < self.committed_round();
        let below = self.lists.leaders.partition_point(is_below);
        &self.lists.leaders[below..]
    }
}
