//! Our own vertex and our own no-vote (02, request A1).

use crate::answer;
use crate::group::bit;
use crate::layout::round_of;
use crate::record::{is_round, Digest, Record};
use crate::state::ReplicaState;

impl ReplicaState {
    /// Makes our record for the current round: questions 16, 5, 9, 10, 12 and 18, then the mark
    /// that it was made.
    pub fn make_record(&mut self, digest: Digest) -> Result<Record, u32> {
        let source = self.own.ok_or(answer::WATCHER)?;
        let round = self.current_round;
        if !is_round(round) {
            return Err(answer::ROUND);
        }
        let mut record = Record {
            round,
            source,
            strong: self.named_parents(),
            digest,
            ..Record::default()
        };
        if record.lacks_previous_leader(self.group) {
            record.timeouts = self.certificate(self.timeouts.get(round - 1), answer::TIMEOUT)?;
            if source == self.group.leader(round) {
                record.no_votes =
                    self.certificate(self.no_votes.get(round - 1), answer::NO_VOTE)?;
            }
        }
        if self.made_rounds.contains(&round) {
            return Err(answer::NOT_NEW);
        }
        if round >= 2 && !self.group.is_quorum(record.strong) {
            return Err(answer::FEW_PARENTS);
        }
        self.made_rounds.insert(round);
        Ok(record.with_weak(&self.unreached(&record)))
    }

    /// Signs our no-vote for the round before the current one: questions 17 and 12 after 16, then
    /// the mark and our bit.
    pub fn sign_no_vote(&mut self) -> Result<(), u32> {
        let own = self.own.ok_or(answer::WATCHER)?;
        let round = self.current_round - 1;
        let is_allowed = is_round(round)
            && !self.holds(self.group.leader_id(round))
            && !self.made_rounds.contains(&self.current_round);
        if !is_allowed {
            return Err(answer::SIGNING);
        }
        if !self.signed_no_votes.insert(round) {
            return Err(answer::NOT_NEW);
        }
        self.no_votes.add(round, own);
        Ok(())
    }

    /// The strong mask of our record: all held of the round before, less its leader if we signed a
    /// no-vote for that round.
    fn named_parents(&self) -> u32 {
        let before = self.current_round - 1;
        let held = self.held().get(before);
        if self.signed_no_votes.contains(&before) {
            held & !bit(self.group.leader(before))
        } else {
            held
        }
    }

    /// A mask that our record carries, if it has a quorum.
    fn certificate(&self, mask: u32, refusal: u32) -> Result<u32, u32> {
        if self.group.is_quorum(mask) {
            Ok(mask)
        } else {
            Err(refusal)
        }
    }

    /// The weak ids of our record: the f lowest held ones, two or more rounds down, that are in the
    /// history of no strong parent.
    fn unreached(&self, record: &Record) -> Vec<u32> {
        let reached = self.history(record.strong_parents());
        let is_wanted = |id: &u32| round_of(*id) + 2 <= record.round && !reached.contains(id);
        self.vertices
            .keys()
            .copied()
            .filter(is_wanted)
            .take(self.group.f() as usize)
            .collect()
    }
}
