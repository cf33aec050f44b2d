//! A small deterministic generator of pseudo-random numbers (splitmix64).

use crate::group::{bit, members};

#[derive(Clone, Debug)]
pub struct Rng {
    state: u64,
}

impl Rng {
    pub fn new(seed: u64) -> Rng {
        Rng { state: seed }
    }

    pub fn long_word(&mut self) -> u64 {
        self.state = self.state.wrapping_add(0x9E37_79B9_7F4A_7C15);
        let mut word = self.state;
        word = (word ^ (word >> 30)).wrapping_mul(0xBF58_476D_1CE4_E5B9);
        word = (word ^ (word >> 27)).wrapping_mul(0x94D0_49BB_1331_11EB);
        word ^ (word >> 31)
    }

    pub fn word(&mut self) -> u32 {
        (self.long_word() >> 32) as u32
    }

    /// A generator of its own, from one word of this one.
    pub fn apart(&mut self) -> Rng {
        Rng::new(u64::from(self.word()))
    }

    /// A number below the bound; 0 if the bound is 0.
    pub fn below(&mut self, bound: u32) -> u32 {
        self.word() % bound.max(1)
    }

    /// True in about that many cases of a hundred.
    pub fn percent(&mut self, chance: u32) -> bool {
        self.below(100) < chance
    }

    /// One of the items, if there are any.
    pub fn pick<'a, T>(&mut self, items: &'a [T]) -> Option<&'a T> {
        items.get(self.below(items.len() as u32) as usize)
    }

    /// One member of a mask, if it has any.
    pub fn member(&mut self, mask: u32) -> Option<u32> {
        let at = self.below(mask.count_ones());
        members(mask).nth(at as usize)
    }

    /// The mask with members added at random from a pool until it has enough or the pool is empty.
    pub fn top_up(&mut self, mut mask: u32, pool: u32, enough: u32) -> u32 {
        while mask.count_ones() < enough {
            match self.member(pool & !mask) {
                Some(member) => mask |= bit(member),
                None => break,
            }
        }
        mask
    }

    /// A part of a pool, each member in with that chance, and enough of them if the pool has them.
    pub fn subset(&mut self, pool: u32, chance: u32, enough: u32) -> u32 {
        let drawn = members(pool)
            .filter(|_| self.percent(chance))
            .map(bit)
            .sum();
        self.top_up(drawn, pool, enough)
    }
}
