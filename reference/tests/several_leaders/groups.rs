//! Simulated groups with one, two and three leaders in a round: after every record the lists kept
//! commit by commit are the model's from scratch, and the lists of every two models at any two points
//! are prefixes one of the other.

use std::collections::BTreeSet;

use reference::graph::Graph;
use reference::growing::Written;
use reference::layout::LAST_ROUND;
use reference::model::Lists;
use reference::simulate::World;
use reference::{Call, Model};

use crate::common::{lists, opened};
use crate::follower::{all_agree, runs, Follower};
use crate::premises;
use crate::seen::{Event::*, Seen};

fn run_groups(m: u32) -> Seen {
    let mut seen = Seen::default();
    for run in runs(m, m, 0..3) {
        premises::check(&run);
        seen.note_run(&run);
        let models = run.models.iter();
        let points: Vec<Vec<Lists>> = models
            .map(|calls| follow(&run.world, calls, &mut seen))
            .collect();
        assert!(all_agree(&points), "n {}", run.world.group.n());
    }
    seen
}

/// Gives a model its records, and checks its kept lists after each. Returns the lists after each record
/// that committed, and the empty ones.
fn follow(world: &World, calls: &[Call], seen: &mut Seen) -> Vec<Lists> {
    let mut follower = Follower::new(world.group, world.m, Written);
    let mut points = vec![Lists::default()];
    for call in calls {
        let commits = follower.take(call);
        assert_eq!(*follower.kept(), follower.model_lists(), "{call:?}");
        commits.iter().for_each(|commit| seen.note_commit(commit));
        if !commits.is_empty() {
            points.push(follower.kept().clone());
        }
    }
    check_form(follower.graph(), follower.kept());
    seen.note_end(follower.graph(), follower.kept());
    points
}

/// Leaders stand by rising round, in a round by rising index without a gap. The journal has them, each
/// entry once and behind its parents.
fn check_form(graph: &Graph, lists: &Lists) {
    let is_listed = |leader: &u32| lists.leaders.contains(leader);
    let run_of = |round| graph.leaders(round).take_while(is_listed);
    let in_turn: Vec<u32> = (1..LAST_ROUND).flat_map(run_of).collect();
    assert_eq!(lists.leaders, in_turn);
    let mut there = BTreeSet::new();
    for &entry in &lists.journal {
        let record = graph.vertex(entry).expect("an entry is there");
        assert!(record.parents().all(|parent| there.contains(&parent)));
        assert!(there.insert(entry));
    }
    assert!(lists.leaders.iter().all(|leader| there.contains(leader)));
}

#[test]
fn one_leader_in_a_round() {
    run_groups(1).require(&[
        (Divided(0), 400),
        (NoVotes(0), 50),
        (OtherVote(0), 400),
        (Listed(0), 100),
        (Listed(1), 1500),
        (Several, 100),
        (Weak, 1000),
    ]);
}

#[test]
fn two_leaders_in_a_round() {
    run_groups(2).require(&[
        (Divided(0), 400),
        (Divided(1), 400),
        (NoVotes(0), 50),
        (NoVotes(1), 50),
        (OtherVote(0), 400),
        (OtherVote(1), 400),
        (Listed(0), 100),
        (Listed(1), 100),
        (Listed(2), 1500),
        (CutShort(1), 50),
        (PassedBy, 100),
        (BackedAlone, 100),
        (Growth, 1000),
        (LateGrowth, 80),
        (Several, 150),
        (Weak, 1000),
    ]);
}

#[test]
fn three_leaders_in_a_round() {
    run_groups(3).require(&[
        (Divided(0), 400),
        (Divided(1), 400),
        (Divided(2), 400),
        (NoVotes(0), 50),
        (NoVotes(1), 50),
        (NoVotes(2), 50),
        (OtherVote(0), 400),
        (OtherVote(1), 400),
        (OtherVote(2), 400),
        (Listed(0), 100),
        (Listed(1), 100),
        (Listed(2), 100),
        (Listed(3), 1500),
        (CutShort(1), 50),
        (CutShort(2), 40),
        (PassedBy, 100),
        (BackedAlone, 100),
        (Growth, 2500),
        (LateGrowth, 150),
        (Several, 250),
        (Weak, 1000),
    ]);
}

/// With one leader in a round the lists are those of the state that the calls leave, and of the model
/// that is fed the calls.
#[test]
fn with_one_leader_the_lists_are_those_of_the_state() {
    let mut listed = 0;
    for run in runs(1, 1, 0..2) {
        for calls in &run.models {
            let n = run.world.group.n();
            let mut follower = Follower::new(run.world.group, 1, Written);
            let mut state = opened(n);
            let mut model = Model::default();
            model.feed(&Call::Open(n, 0), 0);
            for call in calls {
                let answer = call.apply(&mut state);
                assert_eq!(answer.number, 0, "{call:?}");
                follower.take(call);
                model.feed(call, 0);
                let kept = follower.kept();
                let (leaders, journal) = lists(&state);
                assert_eq!((&kept.leaders, &kept.journal), (&leaders, &journal));
            }
            assert_eq!(*follower.kept(), model.lists());
            listed += follower.kept().leaders.len();
        }
    }
    assert!(listed > 1000, "{listed}");
}
