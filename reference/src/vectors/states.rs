//! Well formed states that simulated groups reach.

use crate::call::Call;
use crate::calls::{open, take_vertex};
use crate::group::{bit, Group};
use crate::layout::{vertex_id, STATE_WORDS};
use crate::record::Record;
use crate::rng::Rng;
use crate::simulate::{digests, simulate_replicas, Options};

/// The rounds of a state with vertices left to weak ids.
const ROUNDS_APART: u32 = 8;

/// A state, and calls of the group: those that came next, or all if there are none.
pub struct Reached {
    pub state: Vec<u32>,
    pub calls: Vec<Call>,
}

/// States of simulated replicas of n members: at the end of short and long runs, calm and rough,
/// and in the midst of some.
pub fn reached(n: u32) -> Vec<Reached> {
    [
        (1, 3, Options::calm(), 100),
        (2, 7, Options::typical(), 70),
        (3, 32, Options::calm(), 100),
        (4, 32, Options::rough(), 80),
    ]
    .into_iter()
    .map(|(seed, rounds, options, share)| reach(simulated(seed, n, rounds, options), share))
    .collect()
}

/// All calls of one replica that gets timeouts one by one, and vertices without a pending buffer.
/// No faulty member splits its vote on purpose.
pub fn simulated(seed: u64, n: u32, rounds: u32, options: Options) -> Vec<Call> {
    let options = Options {
        rounds,
        early_stop: 0,
        bundles: 0,
        buffers: 0,
        split_votes: 0,
        ..options
    };
    let run = simulate_replicas(seed, n, &options, 1);
    run.replicas.into_iter().flatten().collect()
}

/// A state whose members all name the same quorum of each round, so that the rest of a round is
/// left to weak ids; some vertices have one.
pub fn apart(rng: &mut Rng, n: u32) -> Vec<u32> {
    let mut state = vec![0; STATE_WORDS];
    let Some(group) = Group::new(n) else {
        return state;
    };
    open(&mut state, n, 0);
    let mut strong = 0;
    for round in 1..=ROUNDS_APART {
        for source in 0..n {
            let record = Record {
                round,
                source,
                strong,
                digest: digests::any(rng),
                ..Record::default()
            };
            let old = vertex_id(1 + rng.below(round), rng.below(n));
            let weak = if rng.percent(10) { &[old][..] } else { &[] };
            if take_vertex(&mut state, &record.with_weak(weak).words()).number != 0 {
                take_vertex(&mut state, &record.words());
            }
        }
        let leader = bit(group.leader(round));
        strong = rng.top_up(leader, group.all(), group.quorum());
    }
    state
}

/// The state after a share of the calls, in percent.
fn reach(calls: Vec<Call>, share: usize) -> Reached {
    let mut state = vec![0; STATE_WORDS];
    let (made, next) = calls.split_at(calls.len() * share / 100);
    for call in made {
        call.apply(&mut state);
    }
    let calls = if next.is_empty() { made } else { next };
    Reached {
        state,
        calls: calls.to_vec(),
    }
}
