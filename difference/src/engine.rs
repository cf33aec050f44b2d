//! Something that makes the calls: the proved library, the second implementation, or a broken one.

use crate::op::{reply, Op, Reply, ANSWER_NUMBERS};
use reference::{Answer, Call};

pub trait Engine {
    /// Makes a call on the lent words: those of the state, and those of the call's pending buffer, if
    /// it has one.
    fn perform_lent(&self, state: &mut [u32], buffer: &mut [u32], op: &Op) -> Reply;

    /// Makes a call on a state, with a copy of its buffer.
    fn perform(&self, state: &mut [u32], op: &Op) -> Reply {
        self.perform_lent(state, &mut op.buffer().to_vec(), op)
    }
}

/// The second implementation.
pub struct Second;

impl Engine for Second {
    fn perform_lent(&self, state: &mut [u32], buffer: &mut [u32], op: &Op) -> Reply {
        match op {
            Op::Change(call) => change(state, buffer, call),
            Op::Status => status(state),
            Op::AskLeaders(k) => reply(&[reference::ask_leaders(state, *k)]),
            Op::AskJournal(k) => reply(&[reference::ask_journal(state, *k)]),
            Op::HandLeaders(k) => part(state, reference::hand_leaders(state, *k)),
            Op::HandJournal(k) => part(state, reference::hand_journal(state, *k)),
        }
    }
}

fn change(state: &mut [u32], buffer: &mut [u32], call: &Call) -> Reply {
    match call {
        Call::Propose(digest) => {
            let proposal = reference::propose(state, *digest);
            reply(&[&numbers(proposal.answer)[..], &proposal.record].concat())
        }
        call => reply(&numbers(call.apply_lent(state, buffer))),
    }
}

fn numbers(answer: Answer) -> [u32; ANSWER_NUMBERS] {
    [answer.number, answer.id, answer.leaders, answer.journal]
}

fn status(state: &[u32]) -> Reply {
    let status = reference::status(state);
    reply(&[
        status.number,
        status.current_round,
        status.committed_round,
        status.leader_count,
        status.journal_count,
    ])
}

/// A handed list as the place of its words in the state; where it was refused, 0 and 0.
fn part(state: &[u32], (number, list): (u32, &[u32])) -> Reply {
    if number != 0 {
        return reply(&[number, 0, list.len() as u32]);
    }
    let bytes = list.as_ptr() as usize - state.as_ptr() as usize;
    let start = bytes / size_of::<u32>();
    reply(&[0, start as u32, list.len() as u32])
}
