//! What models of one group get: a world's vertices and first messages, each model in an order of its
//! own and with losses. A vertex comes when its parents are there, so all of it is admitted.

use std::collections::BTreeSet;

use super::replica::{draw_first_message, draw_vertex, Messages};
use super::{rng_of, Options, World};
use crate::call::Call;
use crate::group::Group;
use crate::record::Record;
use crate::rng::Rng;

/// A simulated group with m leaders in a round.
pub struct ModelRun {
    pub world: World,
    /// What each model gets: calls that take a vertex or a first message.
    pub models: Vec<Vec<Call>>,
}

/// Simulates a group with m leaders in a round for a number of models.
pub fn simulate_models(
    seed: u64,
    group: Group,
    m: u32,
    options: &Options,
    models: usize,
) -> ModelRun {
    let mut rng = rng_of(seed, group);
    let world = World::draw(&mut rng, group, m, options);
    let models = (0..models)
        .map(|_| draw_records(&mut rng, &world, options))
        .collect();
    ModelRun { world, models }
}

/// Draws the records of one model.
fn draw_records(rng: &mut Rng, world: &World, options: &Options) -> Vec<Call> {
    let mut messages = Messages::new();
    for round in 1..=world.rounds {
        for member in 0..world.group.n() {
            draw_vertex(rng, world, options, (round, member), &mut messages);
            draw_first_message(rng, world, options, (round, member), &mut messages);
        }
    }
    messages.sort_by_key(|(time, _)| *time);
    let mut calls = parents_first(messages.into_iter().map(|(_, call)| call));
    if rng.percent(options.early_stop) {
        let kept = 1 + rng.below(calls.len() as u32);
        calls.truncate(kept as usize);
    }
    calls
}

/// The calls with each vertex kept back until its parents are there; one whose parents never come is
/// left out.
fn parents_first(messages: impl Iterator<Item = Call>) -> Vec<Call> {
    let mut calls = Vec::new();
    let mut there = BTreeSet::new();
    let mut waiting = Vec::new();
    for message in messages {
        match &message {
            Call::Vertex(words) => waiting.extend(Record::from_words(words)),
            _ => calls.push(message),
        }
        while let Some(at) = waiting
            .iter()
            .position(|record| record.parents().all(|id| there.contains(&id)))
        {
            let record = waiting.swap_remove(at);
            there.insert(record.id());
            calls.push(Call::Vertex(record.words().to_vec()));
        }
    }
    calls
}
