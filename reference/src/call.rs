//! A call as a value: what the simulation makes and the model is fed, and what `sheetlog` reads.

use crate::answer::Answer;
use crate::calls;
use crate::record::Digest;

/// A call that may change a state, with its arguments other than the state. A record may have any
/// number of words.
#[derive(Clone, Debug, PartialEq, Eq)]
pub enum Call {
    /// The member count, and the own member plus 1 or 0 for a watcher.
    Open(u32, u32),
    Vertex(Vec<u32>),
    /// The pending buffer as it is lent, of any number of words, and the record.
    VertexWith(Vec<u32>, Vec<u32>),
    First(Vec<u32>),
    /// Round and signer.
    Timeout(u32, u32),
    /// Round and mask.
    Timeouts(u32, u32),
    /// Round and signer.
    NoVote(u32, u32),
    Propose(Digest),
    SignNoVote,
}

impl Call {
    /// Makes the call on a state. Of making our own vertex this is the answer without the record, of
    /// a vertex with a pending buffer that without the buffer.
    pub fn apply(&self, state: &mut [u32]) -> Answer {
        self.apply_lent(state, &mut self.buffer().to_vec())
    }

    /// Makes the call on a state, with the words of its buffer lent.
    pub fn apply_lent(&self, state: &mut [u32], buffer: &mut [u32]) -> Answer {
        match self {
            Call::Open(n, own) => calls::open(state, *n, *own),
            Call::Vertex(record) => calls::take_vertex(state, record),
            Call::VertexWith(_, record) => calls::take_vertex_with(state, buffer, record),
            Call::First(record) => calls::take_first_message(state, record),
            Call::Timeout(round, signer) => calls::take_timeout(state, *round, *signer),
            Call::Timeouts(round, mask) => calls::take_timeouts(state, *round, *mask),
            Call::NoVote(round, signer) => calls::take_no_vote(state, *round, *signer),
            Call::Propose(digest) => calls::propose(state, *digest).answer,
            Call::SignNoVote => calls::sign_no_vote(state),
        }
    }

    /// The words of the pending buffer; none if the call has none.
    pub fn buffer(&self) -> &[u32] {
        match self {
            Call::VertexWith(buffer, _) => buffer,
            _ => &[],
        }
    }

    /// The words of the record, if the call has one.
    pub fn record(&self) -> Option<&[u32]> {
        match self {
            Call::Vertex(record) | Call::VertexWith(_, record) | Call::First(record) => {
                Some(record)
            }
            _ => None,
        }
    }
}
