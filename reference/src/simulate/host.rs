//! What a replica's host keeps: the state and the pending buffer that it lends, and its calls.

use crate::call::Call;
use crate::group::has;
use crate::layout::{mask_place, member_of, round_of, BUFFER_WORDS, HELD, STATE_WORDS};

pub struct Host {
    pub state: Vec<u32>,
    pub buffer: Vec<u32>,
    pub calls: Vec<Call>,
}

impl Host {
    /// A zero state that gets this opening, and an empty buffer.
    pub fn open(n: u32, own: u32) -> Host {
        let mut host = Host {
            state: vec![0; STATE_WORDS],
            buffer: vec![0; BUFFER_WORDS],
            calls: Vec::new(),
        };
        host.give(Call::Open(n, own));
        host
    }

    /// Makes a call and returns its number. A buffer that is lent to it is the host's own if it has
    /// the same words.
    pub fn give(&mut self, call: Call) -> u32 {
        let mut buffer = call.buffer().to_vec();
        let answer = call.apply_lent(&mut self.state, &mut buffer);
        if call.buffer() == self.buffer {
            self.buffer = buffer;
        }
        self.calls.push(call);
        answer.number
    }

    /// Takes a vertex with the host's own buffer.
    pub fn give_buffered(&mut self, record: &[u32]) -> u32 {
        self.give(Call::VertexWith(self.buffer.clone(), record.to_vec()))
    }

    /// Whether the state holds a vertex of a round from 1 to 32.
    pub fn holds(&self, id: u32) -> bool {
        has(self.state[mask_place(round_of(id), HELD)], member_of(id))
    }
}
