//! The model (01: the plain book): leader list and journal from scratch, by the definition in
//! "The agreement claim", over m leaders in a round (02, request A10). It shares no code with the
//! commits of the state.

use std::collections::BTreeSet;

use crate::answer::ADMITTED;
use crate::call::Call;
use crate::graph::Graph;
use crate::group::Group;
use crate::layout::LAST_COMMITTABLE_ROUND;
use crate::pending::records;

/// What the model keeps: the records of a group, once it is opened.
#[derive(Clone, Debug, Default)]
pub struct Model {
    graph: Option<Graph>,
}

/// Leader list and journal.
#[derive(Clone, Debug, Default, PartialEq, Eq)]
pub struct Lists {
    pub leaders: Vec<u32>,
    pub journal: Vec<u32>,
}

impl Model {
    /// The model of a group with m leaders in a round, without records.
    pub fn opened(group: Group, m: u32) -> Model {
        Model {
            graph: Some(Graph::new(group, m)),
        }
    }

    /// Feeds a call and its answer number. An admitted opening starts the model anew, with one leader
    /// in a round.
    pub fn feed(&mut self, call: &Call, number: u32) {
        if number != ADMITTED {
            return;
        }
        if let Call::Open(n, _) = call {
            self.graph = Group::new(*n).map(|group| Graph::new(group, 1));
        }
        let Some(graph) = &mut self.graph else {
            return;
        };
        match call {
            Call::Vertex(words) => graph.add_vertex(words),
            Call::VertexWith(buffer, words) => {
                graph.add_vertex(words);
                graph.add_pending(records(buffer));
            }
            Call::First(words) => graph.add_first_message(words),
            Call::Open(..) | Call::Timeout(..) | Call::Timeouts(..) | Call::NoVote(..) => {}
            Call::Propose(_) | Call::SignNoVote => {}
        }
    }

    /// The records fed, if the model is opened.
    pub fn graph(&self) -> Option<&Graph> {
        self.graph.as_ref()
    }

    /// Leader list and journal, from scratch.
    pub fn lists(&self) -> Lists {
        let mut lists = Lists::default();
        if let Some(graph) = &self.graph {
            lists.extend(graph, &chain(graph));
        }
        lists
    }
}

impl Lists {
    /// Adds leaders to the leader list, and for each in turn what its history has beyond the journal.
    pub fn extend(&mut self, graph: &Graph, leaders: &[u32]) {
        let mut there: BTreeSet<u32> = self.journal.iter().copied().collect();
        for &leader in leaders {
            let added = graph.history_beyond(leader, &there);
            there.extend(&added);
            self.journal.extend(added);
        }
        self.leaders.extend(leaders);
    }
}

/// The leaders of the list: those that the walk takes from the last round's main leader down to round
/// 1, and behind them that round's own.
fn chain(graph: &Graph) -> Vec<u32> {
    let Some(last_round) = last_round(graph) else {
        return Vec::new();
    };
    let mut chain = graph.walk(graph.main_leader(last_round), 1);
    chain.extend(graph.backed_run(last_round));
    chain
}

/// The highest round whose main leader is directly committed.
fn last_round(graph: &Graph) -> Option<u32> {
    (1..=LAST_COMMITTABLE_ROUND)
        .rev()
        .find(|&round| graph.is_backed(graph.main_leader(round)))
}
