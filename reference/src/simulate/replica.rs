//! What one replica gets: a world's vertices and messages in an order of its own.

use std::collections::BTreeSet;

use super::delivery::Delivery;
use super::digests;
use super::host::Host;
use super::transport::Transport;
use super::world::World;
use super::Options;
use crate::answer;
use crate::call::Call;
use crate::group::{has, Group};
use crate::layout::vertex_id;
use crate::pending;
use crate::record::{first_refusal, Record};
use crate::rng::Rng;

/// Times are in hundredths of a round.
const ROUND_TIME: u32 = 100;
/// How much later than others slow vertices arrive, at most.
const SLOW_TIME: u32 = 300;
/// That a member makes a record or signs a no-vote after a message, in percent.
const OWN_CALLS: u32 = 15;
/// That a member's timeout is in the next bundle of its round, in percent.
const HANDED_OVER: u32 = 70;

/// Draws the calls of one replica.
pub fn draw_calls(rng: &mut Rng, world: &World, options: &Options) -> Vec<Call> {
    let mut messages = draw_messages(rng, world, options);
    messages.sort_by_key(|(time, _)| *time);
    let own = rng
        .percent(options.members)
        .then(|| rng.below(world.group.n()));
    let delivery = Delivery::draw(rng, options);
    let mut replica = Replica::new(world, options, own, delivery);
    for (_, call) in messages {
        replica.deliver(rng, call);
        if own.is_some() && rng.percent(OWN_CALLS) {
            replica.give(own_call(rng));
        }
        while rng.percent(options.noise.min(90)) {
            replica.add_noise(rng);
        }
    }
    replica.give_up(rng);
    let mut calls = replica.host.calls;
    if rng.percent(options.early_stop) {
        let kept = 1 + rng.below(calls.len() as u32);
        calls.truncate(kept as usize);
    }
    calls
}

/// The messages that reach the replica, each with its time.
fn draw_messages(rng: &mut Rng, world: &World, options: &Options) -> Messages {
    let transport = Transport::draw(rng, options);
    let mut messages = Vec::new();
    for round in 1..=world.rounds {
        for member in 0..world.group.n() {
            draw_vertex(rng, world, options, (round, member), &mut messages);
            draw_first_message(rng, world, options, (round, member), &mut messages);
            draw_notes(rng, world, options, (round, member), &mut messages);
        }
        let are_lost = rng.percent(options.lost_timeouts);
        if are_lost || transport == Transport::Bundles {
            messages.retain(|(_, call)| !matches!(call, Call::Timeout(of, _) if *of == round));
        }
        if !are_lost && transport.has_bundles() {
            draw_bundles(rng, world, options, round, &mut messages);
        }
    }
    messages
}

pub type Messages = Vec<(u32, Call)>;

pub fn draw_vertex(
    rng: &mut Rng,
    world: &World,
    options: &Options,
    (round, member): (u32, u32),
    messages: &mut Messages,
) {
    let Some(&record) = world.vertices.get(&vertex_id(round, member)) else {
        return;
    };
    if rng.below(1000) < options.lost_vertices {
        return;
    }
    let delay = if world.slow.contains(&record.id()) {
        rng.below(SLOW_TIME)
    } else {
        0
    };
    let time = ROUND_TIME * round + rng.below(options.spread) + delay;
    let equivocates = !options.premises && rng.percent(10);
    let record = if equivocates {
        world.other_record(rng, round, member, world.present[round as usize - 1])
    } else {
        record
    };
    messages.push((time, Call::Vertex(record.words().to_vec())));
}

/// An honest member's first message is its vertex; a faulty member may send each replica any, also one
/// that votes where its vertex does not.
pub fn draw_first_message(
    rng: &mut Rng,
    world: &World,
    options: &Options,
    (round, member): (u32, u32),
    messages: &mut Messages,
) {
    let vertex = world.vertices.get(&vertex_id(round, member)).copied();
    let is_faulty = has(world.faulty, member);
    let splits = is_faulty && options.split_votes > 0 && rng.percent(options.split_votes);
    let may_differ = is_faulty || !options.premises;
    let record = match vertex {
        Some(vertex) if splits => Some(world.with_other_votes(rng, &vertex)),
        _ if may_differ && rng.percent(50) => {
            Some(world.other_record(rng, round, member, world.group.all()))
        }
        vertex => vertex,
    };
    if let Some(record) = record.filter(|_| !rng.percent(options.lost_messages)) {
        let time = ROUND_TIME * round + rng.below(options.spread) - ROUND_TIME / 2;
        messages.push((time, Call::First(record.words().to_vec())));
    }
}

/// That a member times out in a round, in percent: much where its leader is silent or slow.
fn timeout_chance(world: &World, round: u32) -> u32 {
    let leader = world.group.leader_id(round);
    let missed = !world.vertices.contains_key(&leader) || world.slow.contains(&leader);
    if missed {
        80
    } else {
        10
    }
}

/// Timeouts and no-votes, many where the round's leader was silent or slow, else few.
fn draw_notes(
    rng: &mut Rng,
    world: &World,
    options: &Options,
    (round, member): (u32, u32),
    messages: &mut Messages,
) {
    let chance = timeout_chance(world, round);
    let time = ROUND_TIME * round + ROUND_TIME / 2;
    if rng.percent(chance) && !rng.percent(options.lost_messages) {
        messages.push((
            time + rng.below(options.spread),
            Call::Timeout(round, member),
        ));
    }
    let may_sign = has(world.no_voters[round as usize][0], member);
    if may_sign && rng.percent(chance) && !rng.percent(options.lost_messages) {
        messages.push((
            time + rng.below(options.spread),
            Call::NoVote(round, member),
        ));
    }
}

/// Bundles of a round's timeouts, each with the members of those before it and more.
fn draw_bundles(
    rng: &mut Rng,
    world: &World,
    options: &Options,
    round: u32,
    messages: &mut Messages,
) {
    let signers = rng.subset(world.group.all(), timeout_chance(world, round), 0);
    let mut time = ROUND_TIME * round + ROUND_TIME / 2;
    let mut mask = 0;
    while mask != signers {
        time += rng.below(options.spread / 2);
        mask |= rng.subset(signers, HANDED_OVER, 1);
        messages.push((time, Call::Timeouts(round, mask)));
    }
}

/// Making our own vertex, or signing our own no-vote.
pub fn own_call(rng: &mut Rng) -> Call {
    if rng.percent(50) {
        Call::Propose(digests::any(rng))
    } else {
        Call::SignNoVote
    }
}

/// The calls made so far, and what is needed to order the next ones.
pub struct Replica<'a> {
    pub world: &'a World,
    pub options: &'a Options,
    pub host: Host,
    delivery: Delivery,
    /// Ids of the world's vertices given with all parents held, and of first messages given.
    pub held: BTreeSet<u32>,
    pub heard: BTreeSet<u32>,
    /// Vertices that wait for parents, or for a place in the buffer.
    waiting: Vec<Record>,
}

impl<'a> Replica<'a> {
    fn new(
        world: &'a World,
        options: &'a Options,
        own: Option<u32>,
        delivery: Delivery,
    ) -> Replica<'a> {
        Replica {
            world,
            options,
            host: Host::open(world.group.n(), own.map_or(0, |member| member + 1)),
            delivery,
            held: BTreeSet::new(),
            heard: BTreeSet::new(),
            waiting: Vec::new(),
        }
    }

    /// Makes a call and returns its number. What a buffer released is held too.
    pub fn give(&mut self, call: Call) -> u32 {
        let is_buffered = matches!(call, Call::VertexWith(..));
        let number = self.host.give(call);
        if is_buffered && number == answer::ADMITTED {
            let ids = self.world.vertices.keys().copied();
            self.held.extend(ids.filter(|&id| self.host.holds(id)));
        }
        number
    }

    fn deliver(&mut self, rng: &mut Rng, call: Call) {
        match &call {
            Call::Vertex(words) => {
                if let Some(record) = Record::from_words(words) {
                    self.deliver_vertex(rng, record);
                }
                return;
            }
            Call::First(words) => {
                self.heard
                    .extend(Record::from_words(words).map(|record| record.id()));
            }
            _ => {}
        }
        self.give(call);
    }

    fn deliver_vertex(&mut self, rng: &mut Rng, record: Record) {
        if self.delivery.draw_buffered(rng) {
            self.hand_over(record);
        } else {
            self.give_in_order(rng, record);
        }
    }

    /// Gives a vertex, or keeps it until its parents are held, and then those that waited for it.
    fn give_in_order(&mut self, rng: &mut Rng, record: Record) {
        if !self.can_hold(&record) {
            if rng.percent(self.options.eager) {
                self.give(Call::Vertex(record.words().to_vec()));
            }
            return self.waiting.push(record);
        }
        let mut next = Some(record);
        while let Some(record) = next {
            self.give(Call::Vertex(record.words().to_vec()));
            self.held.insert(record.id());
            let ready = self.waiting.iter().position(|record| self.can_hold(record));
            next = ready.map(|at| self.waiting.swap_remove(at));
        }
    }

    /// Gives a vertex with the buffer. One that finds it full waits until another is admitted.
    fn hand_over(&mut self, record: Record) {
        let mut next = vec![record];
        while let Some(record) = next.pop() {
            let buffer = self.host.buffer.clone();
            match self.give(Call::VertexWith(buffer, record.words().to_vec())) {
                answer::ADMITTED => next.append(&mut self.waiting),
                answer::BUFFER_FULL => self.waiting.push(record),
                _ => {}
            }
        }
    }

    fn can_hold(&self, record: &Record) -> bool {
        record.parents().all(|id| self.held.contains(&id))
    }

    /// At the end, gives some of the vertices whose parents never came, and what is left in the
    /// buffer.
    fn give_up(&mut self, rng: &mut Rng) {
        for record in std::mem::take(&mut self.waiting) {
            if rng.percent(30) {
                self.give(Call::Vertex(record.words().to_vec()));
            }
        }
        for record in pending::records(&self.host.buffer) {
            self.give(Call::Vertex(record.words().to_vec()));
        }
    }

    /// Whether a call leaves the premises of the claim alone: its records repeat the world, or are
    /// refused now and later. Without premises every call does.
    pub fn keeps_premises(&self, call: &Call) -> bool {
        match call {
            _ if !self.options.premises => true,
            Call::Vertex(words) => self.is_harmless_vertex(words),
            Call::VertexWith(buffer, words) => {
                let pending = pending::records(buffer);
                !pending::is_well_formed(buffer, self.world.group)
                    || self.is_harmless_vertex(words)
                        && pending.iter().all(|record| self.is_harmless(record))
            }
            Call::First(words) => {
                Record::from_words(words).is_none_or(|record| self.repeats(&record, &self.heard))
            }
            Call::Open(n, own) => Group::new(*n).is_none() || own > n,
            Call::Timeout(..) | Call::Timeouts(..) | Call::NoVote(..) => true,
            Call::Propose(_) | Call::SignNoVote => true,
        }
    }

    fn is_harmless_vertex(&self, words: &[u32]) -> bool {
        Record::from_words(words).is_none_or(|record| self.is_harmless(&record))
    }

    /// Whether a vertex repeats the world, or can never be admitted.
    fn is_harmless(&self, record: &Record) -> bool {
        let is_made = |id| self.world.vertices.contains_key(&id);
        self.repeats(record, &self.held) || !record.parents().all(is_made)
    }

    /// Whether a record is one of the world's, or is refused by itself or since its place is taken.
    fn repeats(&self, record: &Record, given: &BTreeSet<u32>) -> bool {
        first_refusal(self.world.group, record).is_some()
            || given.contains(&record.id())
            || self.world.vertices.get(&record.id()) == Some(record)
    }

    /// A member that made no vertex in the round.
    pub fn silent_member(&self, rng: &mut Rng, round: u32) -> Option<u32> {
        let present = self.world.present.get(round as usize).copied().unwrap_or(0);
        rng.member(self.world.group.all() & !present)
    }
}
