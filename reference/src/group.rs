//! The group: its size and what follows from it, and masks of members.

use crate::layout::{vertex_id, LEGAL_SIZES};

/// A group of legal size.
#[derive(Clone, Copy, Debug, PartialEq, Eq)]
pub struct Group {
    n: u32,
}

impl Group {
    /// The group of n members, if n is legal.
    pub fn new(n: u32) -> Option<Group> {
        LEGAL_SIZES.contains(&n).then_some(Group { n })
    }

    pub fn n(self) -> u32 {
        self.n
    }

    /// How many members may be faulty.
    pub fn f(self) -> u32 {
        (self.n - 1) / 3
    }

    pub fn quorum(self) -> u32 {
        2 * self.f() + 1
    }

    /// Whether a mask has a quorum of members.
    pub fn is_quorum(self, mask: u32) -> bool {
        mask.count_ones() >= self.quorum()
    }

    /// The mask of all members.
    pub fn all(self) -> u32 {
        (1 << self.n) - 1
    }

    /// Whether all bits of a mask are below n.
    pub fn contains(self, mask: u32) -> bool {
        mask & !self.all() == 0
    }

    /// The leader of a round from 1 with an index (02, request A10); index 0 is the main one's.
    pub fn leader_at(self, round: u32, index: u32) -> u32 {
        (round - 1 + index) % self.n
    }

    /// The vertex id of the leader of a round from 1 with an index.
    pub fn leader_id_at(self, round: u32, index: u32) -> u32 {
        vertex_id(round, self.leader_at(round, index))
    }

    /// The mask of the first m leaders of a round from 1.
    pub fn leader_mask(self, round: u32, m: u32) -> u32 {
        (0..m).fold(0, |mask, index| mask | bit(self.leader_at(round, index)))
    }

    /// The main leader of a round from 1, its only one where m is 1.
    pub fn leader(self, round: u32) -> u32 {
        self.leader_at(round, 0)
    }

    /// The vertex id of the main leader of a round from 1.
    pub fn leader_id(self, round: u32) -> u32 {
        self.leader_id_at(round, 0)
    }
}

/// The mask of one member below 32.
pub fn bit(member: u32) -> u32 {
    1 << member
}

/// Whether a mask has a member below 32.
pub fn has(mask: u32, member: u32) -> bool {
    mask & bit(member) != 0
}

/// The members of a mask, rising.
pub fn members(mut mask: u32) -> impl Iterator<Item = u32> {
    std::iter::from_fn(move || {
        let lowest = (mask != 0).then(|| mask.trailing_zeros())?;
        mask &= !bit(lowest);
        Some(lowest)
    })
}
