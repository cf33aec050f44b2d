//! A model over m leaders in a round beside the lists that are kept commit by commit, and the groups
//! that are simulated for such models.

use std::ops::Range;

use reference::graph::Graph;
use reference::group::Group;
use reference::growing::{GrowingLists, Rules, Written};
use reference::layout::{round_of, LEGAL_SIZES};
use reference::model::Lists;
use reference::simulate::{simulate_models, ModelRun, Options};
use reference::{Call, Model};

pub struct Follower<R = Written> {
    model: Model,
    kept: GrowingLists<R>,
}

/// The leaders that a commit added, and the committed round before it.
pub struct Commit {
    pub committed_before: u32,
    pub added: Vec<u32>,
}

impl Commit {
    /// The leader that was directly committed.
    pub fn direct(&self) -> u32 {
        self.added[self.added.len() - 1]
    }

    /// Whether the committed round grew directly.
    pub fn is_growth(&self) -> bool {
        round_of(self.direct()) == self.committed_before
    }

    /// Whether a walk from a later round added leaders to the committed round.
    pub fn is_late_growth(&self) -> bool {
        !self.is_growth() && round_of(self.added[0]) == self.committed_before
    }
}

impl<R: Rules> Follower<R> {
    pub fn new(group: Group, m: u32, rules: R) -> Follower<R> {
        Follower {
            model: Model::opened(group, m),
            kept: GrowingLists::new(rules),
        }
    }

    /// Feeds an admitted record, and commits what is ready.
    pub fn take(&mut self, call: &Call) -> Vec<Commit> {
        self.model.feed(call, 0);
        let mut committed_before = self.kept.committed_round();
        let mut commits = Vec::new();
        for added in self.kept.commit_all(&self.model) {
            let commit = Commit {
                committed_before,
                added,
            };
            committed_before = round_of(commit.direct());
            commits.push(commit);
        }
        commits
    }

    /// The lists that are kept.
    pub fn kept(&self) -> &Lists {
        self.kept.lists()
    }

    /// The model's lists, from scratch.
    pub fn model_lists(&self) -> Lists {
        self.model.lists()
    }

    pub fn graph(&self) -> &Graph {
        self.model.graph().expect("the model is opened")
    }
}

/// The kinds of groups whose premises hold.
const KINDS: [fn() -> Options; 4] = [
    Options::calm,
    Options::typical,
    Options::rough,
    Options::split,
];

/// Every size and kind with these seeds: two models for even seeds, three for odd ones.
pub fn runs(m: u32, certified_leaders: u32, seeds: Range<u64>) -> impl Iterator<Item = ModelRun> {
    let groups = LEGAL_SIZES.into_iter().flat_map(Group::new);
    let kinds = groups.flat_map(|group| KINDS.map(|kind| (group, kind)));
    kinds.flat_map(move |(group, kind)| {
        let options = Options {
            certified_leaders,
            ..kind()
        };
        seeds
            .clone()
            .map(move |seed| simulate_models(seed, group, m, &options, 2 + seed as usize % 2))
    })
}

/// Whether the lists of both are prefixes of the other's, in the same direction.
fn agree(a: &Lists, b: &Lists) -> bool {
    let starts = |a: &Lists, b: &Lists| {
        a.leaders.starts_with(&b.leaders) && a.journal.starts_with(&b.journal)
    };
    starts(a, b) || starts(b, a)
}

/// Whether the lists at every two points agree, of one model and of any two.
pub fn all_agree(points: &[Vec<Lists>]) -> bool {
    let all: Vec<&Lists> = points.iter().flatten().collect();
    all.iter().all(|a| all.iter().all(|b| agree(a, b)))
}
