//! How a replica hands vertices over: each when its parents are held, as they come and with a pending
//! buffer (02, request A5), or some in the one way and some in the other.

use super::Options;
use crate::rng::Rng;

#[derive(Clone, Copy, Debug, PartialEq, Eq)]
pub enum Delivery {
    /// The host keeps a vertex back until its parents are held.
    InOrder,
    /// Every vertex is handed over as it comes, with the buffer.
    Buffered,
    /// Some vertices this way, some that.
    Both,
}

impl Delivery {
    /// Draws how a replica gets its vertices; of groups without buffers nothing is drawn.
    pub fn draw(rng: &mut Rng, options: &Options) -> Delivery {
        if options.buffers == 0 || !rng.percent(options.buffers) {
            return Delivery::InOrder;
        }
        [Delivery::Buffered, Delivery::Both][rng.below(2) as usize]
    }

    /// Whether a vertex is handed over with the buffer.
    pub fn draw_buffered(self, rng: &mut Rng) -> bool {
        match self {
            Delivery::InOrder => false,
            Delivery::Buffered => true,
            Delivery::Both => rng.percent(50),
        }
    }
}
