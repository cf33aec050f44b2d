//! Groups driven by made records alone. Every member has a state of its own: it makes its vertices
//! there, sends each to all members and itself, times out where a leader's vertex does not come,
//! and signs its no-votes. The calls are drawn by making them on the states.

use std::collections::{BTreeMap, BTreeSet};

use super::delivery::Delivery;
use super::host::Host;
use super::transport::Transport;
use super::{buffers, digests, Options, Run};
use crate::answer;
use crate::call::Call;
use crate::calls::propose;
use crate::group::{bit, has, members, Group};
use crate::layout::*;
use crate::pending;
use crate::record::Record;
use crate::rng::Rng;

/// How many times as long as messages take a member waits for a leader's vertex, and how many
/// times longer a slow vertex takes at most.
const PATIENCE: u32 = 4;
const SLOWNESS: u32 = 8;
/// Events for each vertex and member, some four times as many as groups need: a call with a fault
/// cannot keep a group going for ever.
const MOST_EVENTS: u32 = 16;
/// That a message comes twice, in percent.
const REPEATED: u32 = 4;

/// Simulates all members of a group of n; an illegal n gives no replicas. The faulty members are
/// those that leave out vertices: in the rounds that they lead, and in others at times.
pub fn simulate_proposing(seed: u64, n: u32, options: &Options) -> Run {
    let Some(group) = Group::new(n) else {
        return Run {
            n,
            faulty: 0,
            replicas: Vec::new(),
        };
    };
    let mut network = Network::new(Rng::new(seed ^ (u64::from(n) << 56)), group, options);
    for _ in 0..MOST_EVENTS * LAST_ROUND * n * n {
        let Some((key, (to, event))) = network.queue.pop_first() else {
            break;
        };
        network.now = key.0;
        network.handle(to, event);
    }
    Run {
        n,
        faulty: network.silent,
        replicas: network.lists(),
    }
}

/// What happens to a member.
enum Event {
    Give(Call),
    /// The member is handed the mask of the timeouts that have come for a round.
    HandOver(u32),
    /// The member looks again at what it may do.
    Wake,
}

/// Time, then an order drawn at random, then the events so far.
type Key = (u32, u32, usize);

struct Network<'a> {
    rng: Rng,
    group: Group,
    options: &'a Options,
    /// The members that leave out vertices, and the ids of these.
    silent: u32,
    left_out: BTreeSet<u32>,
    /// By round from 1, the members that get nobody else's timeout.
    cut_off: Vec<u32>,
    replicas: Vec<Member>,
    queue: BTreeMap<Key, (u32, Event)>,
    planned: usize,
    now: u32,
}

impl<'a> Network<'a> {
    fn new(mut rng: Rng, group: Group, options: &'a Options) -> Network<'a> {
        let silent = rng.top_up(0, group.all(), options.faulty.min(group.f()));
        let mut draw_member = |own| Member::new(&mut rng, group, own, options);
        let replicas = (0..group.n()).map(&mut draw_member).collect();
        let mut network = Network {
            left_out: draw_left_out(&mut rng, group, silent, options),
            cut_off: draw_cut_off(&mut rng, group, silent, options),
            replicas,
            rng,
            group,
            options,
            silent,
            queue: BTreeMap::new(),
            planned: 0,
            now: 0,
        };
        for member in 0..group.n() {
            network.wake(member, 0);
        }
        network
    }

    /// The calls of each member, some of them stopped early.
    fn lists(mut self) -> Vec<Vec<Call>> {
        let mut lists: Vec<Vec<Call>> = self
            .replicas
            .into_iter()
            .map(|member| member.host.calls)
            .collect();
        for calls in &mut lists {
            if self.rng.percent(self.options.early_stop) {
                calls.truncate(1 + self.rng.below(calls.len() as u32) as usize);
            }
        }
        lists
    }

    fn member(&mut self, own: u32) -> &mut Member {
        &mut self.replicas[own as usize]
    }

    /// A call that reaches a member after a delay drawn at random, and so much more.
    fn send(&mut self, to: u32, call: Call, late: u32) {
        let delay = 1 + self.rng.below(self.options.spread);
        self.plan(self.now + delay + late, to, Event::Give(call));
    }

    fn wake(&mut self, member: u32, time: u32) {
        self.plan(time, member, Event::Wake);
    }

    fn plan(&mut self, time: u32, to: u32, event: Event) {
        self.planned += 1;
        let key = (time, self.rng.word(), self.planned);
        self.queue.insert(key, (to, event));
    }

    fn handle(&mut self, to: u32, event: Event) {
        match event {
            Event::Wake => {}
            Event::Give(Call::Vertex(words)) => self.give_vertex(to, &words),
            Event::Give(Call::Timeout(round, signer)) => self.bring_timeout(to, round, signer),
            Event::Give(call) => {
                self.member(to).give(call);
            }
            Event::HandOver(round) => {
                let member = self.member(to);
                member.give(Call::Timeouts(round, member.gathered[round as usize - 1]));
            }
        }
        while self.rng.percent(self.options.noise.min(90)) {
            self.add_noise(to);
        }
        self.enter(to);
        self.time_out(to);
        self.sign(to);
        self.make(to);
    }

    fn give_vertex(&mut self, to: u32, words: &[u32]) {
        let eager = self.rng.percent(self.options.eager);
        let member = &mut self.replicas[to as usize];
        let Some(record) = Record::from_words(words) else {
            return;
        };
        if member.is_buffered {
            member.hand_over(record);
        } else {
            member.give_in_order(record, eager);
        }
    }

    /// Gives another member's timeout as a note, or gathers it for a bundle, or both.
    fn bring_timeout(&mut self, to: u32, round: u32, signer: u32) {
        let member = &mut self.replicas[to as usize];
        let transport = member.transport;
        if transport.draw_note(&mut self.rng) {
            member.give(Call::Timeout(round, signer));
        }
        if transport.has_bundles() {
            member.gathered[round as usize - 1] |= bit(signer);
            let delay = self.rng.below(self.options.spread);
            self.plan(self.now + delay, to, Event::HandOver(round));
        }
    }

    /// In a new round, draws when the member will sign, make its vertex and time out.
    fn enter(&mut self, own: u32) {
        let (now, spread) = (self.now, self.options.spread);
        let round = self.member(own).round();
        if self.member(own).times.round == round {
            return;
        }
        let sign = now + self.rng.below(spread);
        let make = sign + self.rng.below(spread);
        let give_up = now + PATIENCE * spread;
        for time in [sign, make, give_up] {
            self.wake(own, time);
        }
        self.member(own).times = Times {
            round,
            sign,
            make,
            give_up,
        };
    }

    /// Signs a timeout for the current round if its leader's vertex is late.
    fn time_out(&mut self, own: u32) {
        let (now, rounds) = (self.now, self.rounds());
        let member = self.member(own);
        let round = member.round();
        if round > rounds || now < member.times.give_up || member.holds_leader(round) {
            return;
        }
        if !has(member.mask(round, TIMEOUTS), own) {
            member.give(Call::Timeout(round, own));
            let reached = self.group.all() & !self.cut_off[round as usize - 1];
            self.tell(reached & !bit(own), &Call::Timeout(round, own));
            self.enter(own);
        }
    }

    /// Signs a no-vote against the previous leader, if its vertex is not held. A member that leads
    /// the current round waits until its own no-vote completes the certificate: having signed, it
    /// could not name that vertex if it came after all.
    fn sign(&mut self, own: u32) {
        let (group, now) = (self.group, self.now);
        let member = self.member(own);
        let round = member.round();
        if now < member.times.sign || !member.may_sign() {
            return;
        }
        let signers = member.mask(round - 1, NO_VOTES) | bit(own);
        let leads = round <= LAST_ROUND && group.leader(round) == own;
        if leads && !group.is_quorum(signers) {
            return;
        }
        if member.give(Call::SignNoVote) == 0 {
            self.tell(group.all() & !bit(own), &Call::NoVote(round - 1, own));
        }
    }

    /// Makes the vertex of the current round: where the previous leader's is not held, after the
    /// no-vote. A member that leads the round tries without, and gets 10 until it has a certificate.
    fn make(&mut self, own: u32) {
        let (group, now, rounds) = (self.group, self.now, self.rounds());
        let member = self.member(own);
        let round = member.round();
        if round > rounds || now < member.times.make || member.has_made(round) {
            return;
        }
        let waits = member.may_sign() && group.leader(round) != own;
        if !waits && !self.left_out.contains(&vertex_id(round, own)) {
            self.try_to_make(own);
        }
    }

    fn try_to_make(&mut self, own: u32) {
        let digest = digests::any(&mut self.rng);
        let member = self.member(own);
        let proposal = propose(&mut member.host.state, digest);
        member.host.calls.push(Call::Propose(digest));
        if proposal.answer.number == 0 {
            self.broadcast(proposal.record.to_vec());
        }
    }

    /// A record as first message and as vertex to all members, in any order.
    fn broadcast(&mut self, record: Vec<u32>) {
        let slow = self.rng.percent(self.options.slow);
        let slowness = if slow { SLOWNESS } else { 0 };
        let late = self.rng.below(slowness * self.options.spread);
        for to in 0..self.group.n() {
            for _ in 0..self.copies() {
                if !self.rng.percent(self.options.lost_messages) {
                    self.send(to, Call::First(record.clone()), 0);
                }
            }
            for _ in 0..self.copies() {
                self.send(to, Call::Vertex(record.clone()), late);
            }
        }
    }

    fn copies(&mut self) -> u32 {
        1 + u32::from(self.rng.percent(REPEATED))
    }

    /// A timeout or no-vote to some members.
    fn tell(&mut self, mask: u32, call: &Call) {
        for to in members(mask) {
            self.send(to, call.clone(), 0);
        }
    }

    /// A call that is to be refused, or repeats what the network brings anyway.
    fn add_noise(&mut self, to: u32) {
        let n = self.group.n();
        let has_bundles = self.options.bundles > 0;
        let kinds = 4 + u32::from(has_bundles) + u32::from(self.options.buffers > 0);
        let drawn = self.rng.below(kinds);
        let member = &mut self.replicas[to as usize];
        let round = member.round();
        match drawn {
            0 if member.has_made(round) || round > LAST_ROUND => self.try_to_make(to),
            1 if !member.may_sign() => {
                member.give(Call::SignNoVote);
            }
            2 => {
                let drawn = self.rng.pick(&member.host.calls).cloned();
                let own = matches!(drawn, Some(Call::Propose(_) | Call::SignNoVote));
                let opens = matches!(drawn, Some(Call::Open(..)));
                if let Some(call) = drawn.filter(|_| !own && !opens) {
                    member.give(call);
                }
            }
            3 => {
                let beyond = n + 1 + self.rng.below(3);
                member.give(Call::Open(n, beyond));
            }
            4 if has_bundles => self.add_bundle(to),
            4 | 5 => self.add_buffered(to),
            _ => {}
        }
    }

    /// A bundle with a bit at n or above, or of members whose timeouts for some round are noted.
    fn add_bundle(&mut self, to: u32) {
        let n = self.group.n();
        let beyond = bit(n + self.rng.below(u32::BITS - n));
        let any = self.rng.word();
        let member = &mut self.replicas[to as usize];
        let round = 1 + self.rng.below(member.round().min(LAST_ROUND));
        member.give(if self.rng.percent(50) {
            Call::Timeouts(member.round(), any | beyond)
        } else {
            Call::Timeouts(round, any & member.mask(round, TIMEOUTS))
        });
    }

    /// A record that came before, as a vertex with the member's own buffer, with an empty one, or
    /// with a damaged one.
    fn add_buffered(&mut self, to: u32) {
        let member = &mut self.replicas[to as usize];
        let drawn = self.rng.pick(&member.host.calls).and_then(Call::record);
        let Some(record) = drawn.and_then(Record::from_words) else {
            return;
        };
        let damaged = buffers::damaged(&mut self.rng, self.group, &member.host.buffer);
        if self.rng.percent(50) && !pending::is_well_formed(&damaged, self.group) {
            member.give(Call::VertexWith(damaged, record.words().to_vec()));
        } else if member.is_buffered {
            member.hand_over(record);
        } else {
            let empty = pending::laid_out(&[]);
            member.give(Call::VertexWith(empty, record.words().to_vec()));
        }
    }

    fn rounds(&self) -> u32 {
        self.options.rounds.clamp(1, LAST_ROUND)
    }
}

/// The vertices that silent members leave out.
fn draw_left_out(rng: &mut Rng, group: Group, silent: u32, options: &Options) -> BTreeSet<u32> {
    let mut left_out = BTreeSet::new();
    for round in 1..=LAST_ROUND {
        for member in members(silent) {
            if group.leader(round) == member || rng.percent(options.silent) {
                left_out.insert(vertex_id(round, member));
            }
        }
    }
    left_out
}

/// For each round, the members that its timeouts do not reach: none in the last round, since no
/// vertex carries its certificate. One member is never among them. It makes a vertex in the next
/// round and does not lead that round, so it waits for no no-votes, and brings the others the
/// certificate.
fn draw_cut_off(rng: &mut Rng, group: Group, silent: u32, options: &Options) -> Vec<u32> {
    let mut cut_off = vec![0; LAST_ROUND as usize];
    for round in 1..options.rounds.min(LAST_ROUND) {
        let next_leader = bit(group.leader(round + 1));
        let kept = rng.top_up(0, group.all() & !silent & !next_leader, 1);
        cut_off[round as usize - 1] = rng.subset(group.all() & !kept, options.lost_timeouts, 0);
    }
    cut_off
}

/// A member's state and the calls made on it.
struct Member {
    group: Group,
    host: Host,
    /// Whether vertices are handed over as they come, with the host's buffer.
    is_buffered: bool,
    /// Vertices that wait for parents, or for a place in the buffer.
    waiting: Vec<Record>,
    times: Times,
    transport: Transport,
    /// By round from 1, the other members' timeouts that have come for a bundle.
    gathered: Vec<u32>,
}

/// When a member signs its no-vote, makes its vertex and gives up on the leader, in a round.
#[derive(Default)]
struct Times {
    round: u32,
    sign: u32,
    make: u32,
    give_up: u32,
}

impl Member {
    fn new(rng: &mut Rng, group: Group, own: u32, options: &Options) -> Member {
        let transport = Transport::draw(rng, options);
        Member {
            group,
            host: Host::open(group.n(), own + 1),
            is_buffered: Delivery::draw(rng, options) != Delivery::InOrder,
            waiting: Vec::new(),
            times: Times::default(),
            transport,
            gathered: vec![0; LAST_ROUND as usize],
        }
    }

    /// Makes a call and returns its number.
    fn give(&mut self, call: Call) -> u32 {
        self.host.give(call)
    }

    /// Gives a vertex, or keeps it until its parents are held, and then those that waited for it.
    fn give_in_order(&mut self, record: Record, eager: bool) {
        self.waiting.push(record);
        if eager && !self.can_hold(&record) {
            self.give(Call::Vertex(record.words().to_vec()));
        }
        while let Some(at) = self.waiting.iter().position(|r| self.can_hold(r)) {
            let record = self.waiting.swap_remove(at);
            self.give(Call::Vertex(record.words().to_vec()));
        }
    }

    /// Gives a vertex with the buffer. One that finds it full waits until another is admitted.
    fn hand_over(&mut self, record: Record) {
        let mut next = vec![record];
        while let Some(record) = next.pop() {
            match self.host.give_buffered(&record.words()) {
                answer::ADMITTED => next.append(&mut self.waiting),
                answer::BUFFER_FULL => self.waiting.push(record),
                _ => {}
            }
        }
    }

    fn round(&self) -> u32 {
        self.host.state[CURRENT_ROUND]
    }

    fn mask(&self, round: u32, which: usize) -> u32 {
        self.host.state[mask_place(round, which)]
    }

    fn can_hold(&self, record: &Record) -> bool {
        record.parents().all(|id| self.host.holds(id))
    }

    fn holds_leader(&self, round: u32) -> bool {
        self.host.holds(self.group.leader_id(round))
    }

    fn has_made(&self, round: u32) -> bool {
        round <= LAST_ROUND && self.host.state[MADE_ROUNDS] & round_bit(round) != 0
    }

    /// Whether a no-vote against the previous leader can still be signed.
    fn may_sign(&self) -> bool {
        let round = self.round();
        round >= 2
            && !self.holds_leader(round - 1)
            && !self.has_made(round)
            && self.host.state[SIGNED_NO_VOTES] & round_bit(round - 1) == 0
    }
}
