//! Calls between the ordinary ones, mostly to be refused: repeated, conflicting, damaged, out of
//! range.

use super::replica::{own_call, Replica};
use super::{buffers, digests};
use crate::call::Call;
use crate::group::bit;
use crate::layout::{vertex_id, LAST_ROUND, RECORD_WORDS};
use crate::pending;
use crate::record::Record;
use crate::rng::Rng;

const ILLEGAL_SIZES: [u32; 9] = [0, 1, 3, 5, 8, 15, 17, 19, u32::MAX];
const BAD_ROUNDS: [u32; 4] = [0, LAST_ROUND + 1, 1 << 28, u32::MAX];
/// How many words a record may have too few or too many.
const MOST_OFF: u32 = 12;
const EDGE_WORDS: [u32; 7] = [0, 1, 2, 15, 16, 0xFFFF, u32::MAX];
/// Kinds of calls in every group; groups with bundles and with buffers have one more for each.
const KINDS: u32 = 11;

impl Replica<'_> {
    /// Adds one call of a kind drawn at random, if it keeps the premises.
    pub fn add_noise(&mut self, rng: &mut Rng) {
        let has_bundles = self.options.bundles > 0;
        let kinds = KINDS + u32::from(has_bundles) + u32::from(self.options.buffers > 0);
        let drawn = match rng.below(kinds) {
            0 => rng.pick(&self.host.calls).cloned(),
            1 => self.conflicting(rng),
            2 => self.missing_parent(rng),
            3 | 4 => self.damaged(rng),
            5 => self.second_first_message(rng),
            6 => Some(self.bad_note(rng)),
            7 => Some(self.refused_opening(rng)),
            8 => self.wrong_length(rng),
            9 => (self.options.members > 0).then(|| own_call(rng)),
            10 => self.untimely(rng),
            KINDS if has_bundles => Some(self.any_bundle(rng)),
            _ => self.any_buffered(rng),
        };
        if let Some(call) = drawn.filter(|call| self.keeps_premises(call)) {
            self.give(call);
        }
    }

    /// A held vertex with another digest: 13.
    fn conflicting(&self, rng: &mut Rng) -> Option<Call> {
        let mut record = self.any_held(rng)?;
        record.digest = digests::other(rng, record.digest);
        Some(vertex(&record))
    }

    /// A silent member's vertex with a strong or weak parent that nobody made: 14.
    fn missing_parent(&self, rng: &mut Rng) -> Option<Call> {
        let round = 2 + rng.below(self.world.rounds.saturating_sub(1));
        let source = self.silent_member(rng, round)?;
        let near = self.silent_member(rng, round - 1);
        let far_round = 1 + rng.below(round.saturating_sub(2));
        let far = self.silent_member(rng, far_round);
        let strong = match near {
            Some(parent) if rng.percent(60) => self.world.present[round as usize - 1] | bit(parent),
            _ => self.world.present[round as usize - 1],
        };
        let mut record = self.world.complete(rng, round, source, strong);
        if let Some(parent) = far.filter(|_| round > 2) {
            record.weak_count = 1;
            record.weak[0] = vertex_id(far_round, parent);
        }
        Some(vertex(&record))
    }

    /// A record of the world with a word changed.
    fn damaged(&self, rng: &mut Rng) -> Option<Call> {
        let mut words = self.any_record(rng)?.words();
        let at = digests::any_place(rng);
        words[at] = match rng.below(3) {
            0 => words[at] ^ (1 << rng.below(u32::BITS)),
            1 => *rng.pick(&EDGE_WORDS)?,
            _ => rng.below(64),
        };
        let words = words.to_vec();
        Some(if rng.percent(70) {
            Call::Vertex(words)
        } else {
            Call::First(words)
        })
    }

    /// A first message other than the one heard: 12.
    fn second_first_message(&self, rng: &mut Rng) -> Option<Call> {
        let record = self.any_record(rng)?;
        let other =
            self.world
                .other_record(rng, record.round, record.source, self.world.group.all());
        Some(Call::First(other.words().to_vec()))
    }

    /// A timeout or no-vote with a round or signer out of range: 5 or 6.
    fn bad_note(&self, rng: &mut Rng) -> Call {
        let n = self.world.group.n();
        let signers = [n, n + 1, 31, 32, u32::MAX];
        let bad_round = BAD_ROUNDS[rng.below(4) as usize];
        let good_round = 1 + rng.below(LAST_ROUND);
        let bad_signer = signers[rng.below(5) as usize];
        let (round, signer) = match rng.below(3) {
            0 => (bad_round, rng.below(n)),
            1 => (good_round, bad_signer),
            _ => (bad_round, bad_signer),
        };
        if rng.percent(50) {
            Call::Timeout(round, signer)
        } else {
            Call::NoVote(round, signer)
        }
    }

    /// A bundle with a round out of range, with a bit at n or above, or with nobody new: 5, 7 or 12.
    /// Faulty members may send timeouts for any round, so a bundle of theirs can be admitted.
    fn any_bundle(&self, rng: &mut Rng) -> Call {
        let group = self.world.group;
        let round = 1 + rng.below(LAST_ROUND);
        let beyond = bit(group.n() + rng.below(u32::BITS - group.n()));
        let bad_round = BAD_ROUNDS[rng.below(4) as usize];
        let any = rng.word();
        match rng.below(6) {
            0 => Call::Timeouts(bad_round, any & group.all()),
            1 => Call::Timeouts(bad_round, any),
            2 => Call::Timeouts(round, any | beyond),
            3 => Call::Timeouts(round, self.noted(round) | beyond),
            4 => Call::Timeouts(round, self.noted(round) & any),
            _ => Call::Timeouts(round, self.world.faulty & any),
        }
    }

    /// The members whose timeouts for a round were given.
    fn noted(&self, round: u32) -> u32 {
        let group = self.world.group;
        let given = |call: &Call| match *call {
            Call::Timeout(of, signer) if of == round && signer < group.n() => bit(signer),
            Call::Timeouts(of, mask) if of == round && group.contains(mask) => mask,
            _ => 0,
        };
        let calls = self.host.calls.iter();
        calls.fold(0, |noted, call| noted | given(call))
    }

    /// An opening with an illegal size, or for a member that the group has not: 2 or 6. As a line
    /// it can only have an illegal size.
    fn refused_opening(&self, rng: &mut Rng) -> Call {
        let n = self.world.group.n();
        let illegal = ILLEGAL_SIZES[rng.below(9) as usize];
        if self.options.members == 0 {
            return Call::Open(illegal, 0);
        }
        let beyond = [n + 1, n + 2, 32, u32::MAX][rng.below(4) as usize];
        match rng.below(3) {
            0 => Call::Open(illegal, rng.below(n + 1)),
            1 => Call::Open(n, beyond),
            _ => Call::Open(illegal, beyond),
        }
    }

    /// A record with up to so many words too few or too many: 4, and as a line `?`.
    fn wrong_length(&self, rng: &mut Rng) -> Option<Call> {
        let mut words = self.any_record(rng)?.words().to_vec();
        let length = RECORD_WORDS as u32 + rng.below(2 * MOST_OFF) - MOST_OFF;
        words.resize(length as usize, 0);
        Some(if rng.percent(50) {
            Call::Vertex(words)
        } else {
            Call::First(words)
        })
    }

    /// A vertex of the world at a time of its own: mostly 12 or 14, and the rest admitted early.
    fn untimely(&self, rng: &mut Rng) -> Option<Call> {
        self.any_record(rng).map(|record| vertex(&record))
    }

    /// A vertex of any of these kinds with a buffer: with the host's own, which can be full, or with
    /// another, which can be damaged.
    fn any_buffered(&self, rng: &mut Rng) -> Option<Call> {
        let drawn = match rng.below(6) {
            0 => self.conflicting(rng),
            1 => self.missing_parent(rng),
            2 => self.damaged(rng),
            3 => self.wrong_length(rng),
            _ => self.untimely(rng),
        };
        let record = drawn?.record()?.to_vec();
        Some(Call::VertexWith(self.any_buffer(rng), record))
    }

    fn any_buffer(&self, rng: &mut Rng) -> Vec<u32> {
        let made: Vec<Record> = self.world.vertices.values().copied().collect();
        let chance = 1 + rng.below(10);
        match rng.below(6) {
            0 => pending::laid_out(&[]),
            1 => buffers::of_some(rng, chance, &made),
            2 => buffers::damaged(rng, self.world.group, &self.host.buffer),
            _ => self.host.buffer.clone(),
        }
    }

    fn any_record(&self, rng: &mut Rng) -> Option<Record> {
        let at = rng.below(self.world.vertices.len() as u32);
        self.world.vertices.values().nth(at as usize).copied()
    }

    fn any_held(&self, rng: &mut Rng) -> Option<Record> {
        let at = rng.below(self.held.len() as u32);
        let id = self.held.iter().nth(at as usize)?;
        self.world.vertices.get(id).copied()
    }
}

fn vertex(record: &Record) -> Call {
    Call::Vertex(record.words().to_vec())
}
