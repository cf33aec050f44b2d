//! The vertices that a group makes, round by round.

use std::collections::{BTreeMap, BTreeSet};

use super::{digests, Options};
use crate::group::{bit, has, members, Group};
use crate::layout::{member_of, round_of, vertex_id, LAST_ROUND, WEAK_SLOTS};
use crate::record::Record;
use crate::rng::Rng;

/// That a member misses a slow vertex, in percent; a slow leader's is missed less often, so that
/// some members vote and others do not.
const MISSED_IF_SLOW: u32 = 90;
const MISSED_IF_SLOW_LEADER: u32 = 60;
/// That a faulty member leaves out a previous leader's vertex, in percent.
const SKIPPED_BY_FAULTY: u32 = 40;

/// The vertices of a group. Lists by round have an unused place for round 0.
pub struct World {
    pub group: Group,
    /// Leaders in a round.
    pub m: u32,
    pub rounds: u32,
    pub faulty: u32,
    pub vertices: BTreeMap<u32, Record>,
    /// The members with a vertex in the round.
    pub present: Vec<u32>,
    /// Vertices that arrive late.
    pub slow: BTreeSet<u32>,
    /// The members that may sign a no-vote against each leader of the round: all but honest voters.
    pub no_voters: Vec<Vec<u32>>,
    /// The no-vote masks of main leaders' vertices against leaders with an index above 0, for which a
    /// record has no words: by vertex id and index.
    further_no_votes: BTreeMap<(u32, u32), u32>,
    /// No-votes are asked against so many leaders of a round.
    certified: u32,
}

impl World {
    /// Draws the vertices of a group with m leaders in a round; where m is 1 nothing is drawn for
    /// further ones.
    pub fn draw(rng: &mut Rng, group: Group, m: u32, options: &Options) -> World {
        let rounds = options.rounds.clamp(1, LAST_ROUND);
        let anybody = vec![group.all(); m as usize];
        let mut world = World {
            group,
            m,
            rounds,
            faulty: rng.top_up(0, group.all(), options.faulty.min(group.f())),
            vertices: BTreeMap::new(),
            present: vec![0],
            slow: BTreeSet::new(),
            no_voters: vec![anybody.clone()],
            further_no_votes: BTreeMap::new(),
            certified: options.certified_leaders.clamp(1, m),
        };
        for round in 1..=rounds {
            world.draw_round(rng, round, options);
        }
        world.no_voters.push(anybody);
        world
    }

    fn draw_round(&mut self, rng: &mut Rng, round: u32, options: &Options) {
        let all = self.group.all();
        let present = rng.subset(all, 100 - options.silent.min(100), self.group.quorum());
        let mut strong: BTreeMap<u32, u32> = members(present)
            .map(|member| (member, self.draw_parents(rng, round, member, options)))
            .collect();
        if round >= 2 {
            let no_voters = self.settle_votes(round, &mut strong);
            self.no_voters.push(no_voters);
        }
        for (&member, &strong) in &strong {
            let mut record = self.complete(rng, round, member, strong);
            self.add_weak_parents(rng, &mut record);
            self.draw_further_no_votes(rng, &record);
            self.vertices.insert(record.id(), record);
            if rng.percent(options.slow) {
                self.slow.insert(record.id());
            }
        }
        self.present.push(present);
    }

    /// The strong parents of a member: what it has delivered, and at least a quorum. The leaders'
    /// vertices are waited for last, so a member can miss them.
    fn draw_parents(&self, rng: &mut Rng, round: u32, source: u32, options: &Options) -> u32 {
        let before = self.present[round as usize - 1];
        if before == 0 {
            return 0;
        }
        let leaders = self.group.leader_mask(round - 1, self.m);
        let delivered = members(before)
            .filter(|&member| {
                let slow = self.slow.contains(&vertex_id(round - 1, member));
                let missed = match (slow, has(leaders, member)) {
                    (_, true) if has(self.faulty, source) => SKIPPED_BY_FAULTY,
                    (false, _) => options.missed,
                    (true, false) => MISSED_IF_SLOW,
                    (true, true) => MISSED_IF_SLOW_LEADER,
                };
                !rng.percent(missed)
            })
            .map(bit)
            .sum();
        let mask = rng.top_up(delivered, before & !leaders, self.group.quorum());
        rng.top_up(mask, before, self.group.quorum())
    }

    /// Who may sign no-votes against each of the previous leaders. Where these are no quorum, the
    /// round's main leader cannot skip that previous leader and takes it as a parent.
    fn settle_votes(&self, round: u32, strong: &mut BTreeMap<u32, u32>) -> Vec<u32> {
        let settle = |index| {
            let previous = self.group.leader_at(round - 1, index);
            let no_voters = self.without_honest_voters(strong, previous);
            match strong.get_mut(&self.group.leader(round)) {
                Some(mask) if index < self.certified && !self.group.is_quorum(no_voters) => {
                    *mask |= bit(previous);
                    self.without_honest_voters(strong, previous)
                }
                _ => no_voters,
            }
        };
        (0..self.m).map(settle).collect()
    }

    fn without_honest_voters(&self, strong: &BTreeMap<u32, u32>, previous: u32) -> u32 {
        let voters: u32 = strong
            .iter()
            .filter(|(_, &mask)| has(mask, previous))
            .map(|(&member, _)| bit(member))
            .sum();
        self.group.all() & !(voters & !self.faulty)
    }

    /// A record with this strong mask, any digest, the certificates it needs and no weak parents. Where
    /// no no-vote certificate can be had, the previous leader joins the strong mask instead.
    pub fn complete(&self, rng: &mut Rng, round: u32, source: u32, strong: u32) -> Record {
        let digest = digests::any(rng);
        let mut record = Record {
            round,
            source,
            strong,
            digest,
            ..Record::default()
        };
        let needs_no_votes = round >= 2 && source == self.group.leader(round);
        if needs_no_votes {
            record.strong |= self.leaders_without_certificate(round - 1);
        }
        if !record.lacks_previous_leader(self.group) {
            return record;
        }
        let quorum = self.group.quorum();
        if needs_no_votes {
            record.no_votes = rng.subset(self.signers(round - 1, 0), 50, quorum);
        }
        record.timeouts = rng.subset(self.group.all(), 50, quorum);
        record
    }

    /// The leaders of a round that the next main leader must name, since no quorum may sign against
    /// them.
    fn leaders_without_certificate(&self, round: u32) -> u32 {
        (0..self.certified)
            .filter(|&index| !self.group.is_quorum(self.signers(round, index)))
            .fold(0, |mask, index| {
                mask | bit(self.group.leader_at(round, index))
            })
    }

    /// Who may sign against a leader of a round; nobody where no vertices of the next were drawn.
    fn signers(&self, round: u32, index: u32) -> u32 {
        let of_round = self.no_voters.get(round as usize);
        of_round.map_or(0, |of_round| of_round[index as usize])
    }

    /// Draws the no-votes that a main leader's vertex needs against leaders with an index above 0.
    fn draw_further_no_votes(&mut self, rng: &mut Rng, record: &Record) {
        if record.round < 2 || record.source != self.group.leader(record.round) {
            return;
        }
        for index in 1..self.certified {
            let previous = self.group.leader_at(record.round - 1, index);
            if !has(record.strong, previous) {
                let signers = self.signers(record.round - 1, index);
                let mask = rng.subset(signers, 50, self.group.quorum());
                self.further_no_votes.insert((record.id(), index), mask);
            }
        }
    }

    /// The no-vote mask of a vertex against the leader of the round before with an index.
    pub fn no_votes(&self, vertex: &Record, index: u32) -> u32 {
        if index == 0 {
            return vertex.no_votes;
        }
        let mask = self.further_no_votes.get(&(vertex.id(), index));
        mask.copied().unwrap_or(0)
    }

    /// A record that passes questions 5 to 11 with parents drawn from a pool.
    pub fn other_record(&self, rng: &mut Rng, round: u32, source: u32, pool: u32) -> Record {
        let strong = if round < 2 {
            0
        } else {
            rng.subset(pool, 70, self.group.quorum())
        };
        self.complete(rng, round, source, strong)
    }

    /// A record of the vertex's round and source that names some of the previous leaders exactly if the
    /// vertex does not; a main leader without a no-vote certificate names them all the same.
    pub fn with_other_votes(&self, rng: &mut Rng, vertex: &Record) -> Record {
        if vertex.round < 2 {
            return *vertex;
        }
        let group = self.group;
        let leaders = group.leader_mask(vertex.round - 1, self.m);
        let changed = self.draw_some(rng, leaders);
        let others = group.all() & !leaders;
        let strong = rng.top_up(vertex.strong ^ changed, others, group.quorum());
        let strong = rng.top_up(strong, group.all(), group.quorum());
        self.complete(rng, vertex.round, vertex.source, strong)
    }

    /// Some of the leaders of a round, at least one; of one leader nothing is drawn.
    fn draw_some(&self, rng: &mut Rng, leaders: u32) -> u32 {
        if self.m == 1 {
            leaders
        } else {
            rng.subset(leaders, 50, 1)
        }
    }

    /// Adds weak edges to old vertices that the strong parents do not lead to.
    fn add_weak_parents(&self, rng: &mut Rng, record: &mut Record) {
        let reached = self.reached(record);
        let most = self.group.f().min(WEAK_SLOTS as u32) as usize;
        let weak: Vec<u32> = self
            .vertices
            .keys()
            .copied()
            .filter(|&id| round_of(id) + 2 <= record.round)
            .filter(|&id| !has(reached[round_of(id) as usize], member_of(id)))
            .filter(|_| rng.percent(70))
            .take(most)
            .collect();
        record.weak_count = weak.len() as u32;
        record
            .weak
            .iter_mut()
            .zip(weak)
            .for_each(|(slot, id)| *slot = id);
    }

    /// All that the record's edges lead to, as masks by round.
    fn reached(&self, record: &Record) -> Vec<u32> {
        let mut reached = vec![0; record.round as usize + 1];
        record
            .parents()
            .for_each(|id| reached[round_of(id) as usize] |= bit(member_of(id)));
        for (&id, vertex) in self.vertices.iter().rev() {
            if has(reached[round_of(id) as usize], member_of(id)) {
                vertex
                    .parents()
                    .for_each(|id| reached[round_of(id) as usize] |= bit(member_of(id)));
            }
        }
        reached
    }
}
