//! How timeouts reach a replica: one by one, as one mask per round (02, request A3), or both ways.

use super::Options;
use crate::rng::Rng;

#[derive(Clone, Copy, Debug, PartialEq, Eq)]
pub enum Transport {
    /// Each timeout is a note of its own.
    Notes,
    /// A mask of all that has come for a round, handed over again when there is more.
    Bundles,
    /// Such masks, and beside them notes of some members.
    Both,
}

impl Transport {
    /// Draws a replica's transport; of groups without bundles nothing is drawn.
    pub fn draw(rng: &mut Rng, options: &Options) -> Transport {
        if options.bundles == 0 || !rng.percent(options.bundles) {
            return Transport::Notes;
        }
        [Transport::Bundles, Transport::Both][rng.below(2) as usize]
    }

    /// Whether masks are handed over.
    pub fn has_bundles(self) -> bool {
        self != Transport::Notes
    }

    /// Whether a timeout comes as a note: beside masks only some do.
    pub fn draw_note(self, rng: &mut Rng) -> bool {
        match self {
            Transport::Notes => true,
            Transport::Bundles => false,
            Transport::Both => rng.percent(50),
        }
    }
}
