//! Wrong rules in the place of the written ones: each is noticed on simulated groups, by kept lists that
//! are not the model's and by lists that are no prefixes of one another.

use reference::graph::Graph;
use reference::growing::{Rules, Written};
use reference::layout::round_of;
use reference::model::Lists;
use reference::simulate::ModelRun;
use reference::Call;

use crate::follower::{all_agree, runs, Follower};

/// A walk that takes at each round whose main leader is reached what a rule says of where one stands.
fn walk(from: u32, lowest: u32, graph: &Graph, run: impl Fn(u32, u32) -> Vec<u32>) -> Vec<u32> {
    let mut standing = from;
    let mut runs = Vec::new();
    for round in (lowest..round_of(from)).rev() {
        let main_leader = graph.main_leader(round);
        if graph.has_strong_path(standing, main_leader) {
            runs.push(run(standing, round));
            standing = main_leader;
        }
    }
    runs.into_iter().rev().flatten().collect()
}

/// The walk stops above the committed round (000, line 130).
#[derive(Clone, Copy)]
struct StopsAbove;

impl Rules for StopsAbove {
    fn reached(&self, graph: &Graph, leader: u32, committed_round: u32) -> Vec<u32> {
        graph.walk(leader, committed_round + 1)
    }
}

/// Runs are reached from the leader that is directly committed.
#[derive(Clone, Copy)]
struct FromDirect;

impl Rules for FromDirect {
    fn reached(&self, graph: &Graph, leader: u32, committed_round: u32) -> Vec<u32> {
        let run = |_, round| graph.reached_run(leader, round);
        walk(leader, committed_round.max(1), graph, run)
    }
}

/// A leader is taken though one between it and the main one is not.
#[derive(Clone, Copy)]
struct WithGaps;

impl Rules for WithGaps {
    fn next_of(&self, graph: &Graph, round: u32, listed: &[u32]) -> Option<u32> {
        graph
            .leaders(round)
            .find(|leader| !listed.contains(leader) && graph.is_backed(*leader))
    }

    fn reached(&self, graph: &Graph, leader: u32, committed_round: u32) -> Vec<u32> {
        let run = |standing, round| {
            let leaders = graph.leaders(round);
            leaders
                .filter(|&leader| graph.has_strong_path(standing, leader))
                .collect()
        };
        walk(leader, committed_round.max(1), graph, run)
    }
}

/// A round is committed by any of its leaders.
#[derive(Clone, Copy)]
struct WithoutMain;

impl Rules for WithoutMain {
    fn first_of(&self, graph: &Graph, round: u32) -> Option<u32> {
        graph.leaders(round).find(|&leader| graph.is_backed(leader))
    }

    fn next_of(&self, graph: &Graph, round: u32, listed: &[u32]) -> Option<u32> {
        WithGaps.next_of(graph, round, listed)
    }
}

/// Runs in which lists are not the model's, and in which they do not agree.
#[derive(Debug, Default, PartialEq, Eq)]
struct Failures {
    equality: usize,
    agreement: usize,
}

fn failures<R: Rules + Copy>(rules: R, m: u32, certified_leaders: u32) -> Failures {
    let mut failures = Failures::default();
    for run in runs(m, certified_leaders, 0..2) {
        let ends = run.models.iter().map(|calls| follow(rules, &run, calls));
        let (equal, points): (Vec<bool>, Vec<Vec<Lists>>) = ends.unzip();
        failures.equality += usize::from(equal.contains(&false));
        failures.agreement += usize::from(!all_agree(&points));
    }
    failures
}

/// Gives a model its records. Returns whether the kept lists were always the model's, and those after
/// each record that committed.
fn follow<R: Rules>(rules: R, run: &ModelRun, calls: &[Call]) -> (bool, Vec<Lists>) {
    let mut follower = Follower::new(run.world.group, run.world.m, rules);
    let mut equal = true;
    let mut points = Vec::new();
    for call in calls {
        if !follower.take(call).is_empty() {
            equal &= *follower.kept() == follower.model_lists();
            points.push(follower.kept().clone());
        }
    }
    (equal, points)
}

fn assert_noticed(failures: &Failures) {
    assert!(failures.equality > 0, "{failures:?}");
    assert!(failures.agreement > 0, "{failures:?}");
}

#[test]
fn the_written_rules_hold() {
    for m in [2, 3] {
        assert_eq!(failures(Written, m, m), Failures::default());
    }
}

#[test]
fn a_walk_that_stops_above_the_committed_round() {
    for m in [2, 3] {
        assert_noticed(&failures(StopsAbove, m, m));
    }
}

#[test]
fn runs_from_the_leader_directly_committed() {
    for m in [2, 3] {
        assert_noticed(&failures(FromDirect, m, m));
    }
}

/// Between the main leader and the second one there is no room for a gap.
#[test]
fn runs_with_gaps() {
    assert_eq!(failures(WithGaps, 2, 2), Failures::default());
    assert_noticed(&failures(WithGaps, 3, 3));
}

#[test]
fn a_round_committed_without_its_main_leader() {
    for m in [2, 3] {
        assert_noticed(&failures(WithoutMain, m, m));
    }
}

#[test]
fn no_votes_against_fewer_leaders_than_there_are() {
    for (m, certified_leaders) in [(2, 1), (3, 1), (3, 2)] {
        assert_noticed(&failures(Written, m, certified_leaders));
    }
}
