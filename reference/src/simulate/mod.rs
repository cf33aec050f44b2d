//! Random lists of calls for replicas of one group, all drawn from a seed.
//!
//! Either a world is drawn first: the vertices that the members of a group make, round by round.
//! Then each replica gets that world's vertices and messages in an order of its own, with losses,
//! retries and calls that are to be refused in between; a member's replica also makes records and
//! signs no-votes, which nobody gets. A faulty member's first messages may differ from its vertices,
//! also in whether they vote. Or the members' own states make all that is sent. Either way
//! some replicas get timeouts one by one, others in bundles, and some both ways; and some hand
//! vertices over when their parents are held, others as they come, with a pending buffer.
//!
//! A world with several leaders in a round is for models alone: states have no words for it.

pub mod buffers;
mod delivery;
pub mod digests;
pub(crate) mod host;
mod models;
mod noise;
mod options;
mod proposing;
mod replica;
pub mod sightings;
mod transport;
mod world;

pub use models::{simulate_models, ModelRun};
pub use options::Options;
pub use proposing::simulate_proposing;
pub use world::World;

use crate::call::Call;
use crate::group::Group;
use crate::rng::Rng;

/// The calls of a simulated group.
#[derive(Clone, Debug)]
pub struct Run {
    pub n: u32,
    /// The mask of the faulty members, at most f.
    pub faulty: u32,
    /// The calls of each replica, each starting with its opening.
    pub replicas: Vec<Vec<Call>>,
}

/// Simulates a group of n members for two replicas; an illegal n gives replicas without calls.
pub fn simulate(seed: u64, n: u32, options: &Options) -> Run {
    simulate_replicas(seed, n, options, 2)
}

/// Simulates a group of n members for any number of replicas.
pub fn simulate_replicas(seed: u64, n: u32, options: &Options, replicas: usize) -> Run {
    let Some(group) = Group::new(n) else {
        return Run {
            n,
            faulty: 0,
            replicas: vec![Vec::new(); replicas],
        };
    };
    let mut rng = rng_of(seed, group);
    let world = World::draw(&mut rng, group, 1, options);
    let replicas = (0..replicas)
        .map(|_| replica::draw_calls(&mut rng, &world, options))
        .collect();
    Run {
        n,
        faulty: world.faulty,
        replicas,
    }
}

fn rng_of(seed: u64, group: Group) -> Rng {
    Rng::new(seed ^ (u64::from(group.n()) << 56))
}
