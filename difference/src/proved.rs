//! The proved library, called through its C interface.

use crate::engine::Engine;
use crate::op::{reply, Op, Reply, ANSWER_NUMBERS};
use reference::layout::RECORD_WORDS;
use reference::Call;

#[repr(C)]
struct Answer {
    number: u32,
    id: u32,
    leaders: u32,
    journal: u32,
}

#[repr(C)]
struct Proposal {
    answer: Answer,
    record: [u32; RECORD_WORDS],
}

#[repr(C)]
struct Status {
    number: u32,
    current_round: u32,
    committed_round: u32,
    leader_count: u32,
    journal_count: u32,
}

#[repr(C)]
struct Part {
    number: u32,
    start: u32,
    length: u32,
}

#[rustfmt::skip]
#[link(name = "yardbook", kind = "static")]
extern "C" {
    fn yardbook_open(state: *mut u32, words: usize, n: u32, own: u32) -> Answer;
    fn yardbook_take_vertex(state: *mut u32, words: usize, record: *const u32, length: usize) -> Answer;
    fn yardbook_take_vertex_with(
        state: *mut u32, words: usize, buffer: *mut u32, buffer_words: usize, record: *const u32, length: usize,
    ) -> Answer;
    fn yardbook_take_first_message(state: *mut u32, words: usize, record: *const u32, length: usize) -> Answer;
    fn yardbook_take_timeout(state: *mut u32, words: usize, round: u32, signer: u32) -> Answer;
    fn yardbook_take_timeouts(state: *mut u32, words: usize, round: u32, mask: u32) -> Answer;
    fn yardbook_take_no_vote(state: *mut u32, words: usize, round: u32, signer: u32) -> Answer;
    fn yardbook_propose(state: *mut u32, words: usize, digest: *const u32) -> Proposal;
    fn yardbook_sign_no_vote(state: *mut u32, words: usize) -> Answer;
    fn yardbook_status(state: *const u32, words: usize) -> Status;
    fn yardbook_ask_leaders(state: *const u32, words: usize, k: u32) -> Answer;
    fn yardbook_ask_journal(state: *const u32, words: usize, k: u32) -> Answer;
    fn yardbook_hand_leaders(state: *const u32, words: usize, k: u32) -> Part;
    fn yardbook_hand_journal(state: *const u32, words: usize, k: u32) -> Part;
}

/// The library `libyardbook.a`.
pub struct Proved;

impl Engine for Proved {
    fn perform_lent(&self, state: &mut [u32], buffer: &mut [u32], op: &Op) -> Reply {
        let (words, size) = (state.as_mut_ptr(), state.len());
        // SAFETY: `words` has `size` words that nobody else uses during the call.
        unsafe {
            match op {
                Op::Change(call) => change(state, buffer, call),
                Op::Status => status(yardbook_status(words, size)),
                Op::AskLeaders(k) => answer(yardbook_ask_leaders(words, size, *k)),
                Op::AskJournal(k) => answer(yardbook_ask_journal(words, size, *k)),
                Op::HandLeaders(k) => part(yardbook_hand_leaders(words, size, *k)),
                Op::HandJournal(k) => part(yardbook_hand_journal(words, size, *k)),
            }
        }
    }
}

fn change(state: &mut [u32], buffer: &mut [u32], call: &Call) -> Reply {
    let (words, size) = (state.as_mut_ptr(), state.len());
    // SAFETY: `words` has `size` words that nobody else uses during the call, and neither the buffer
    // nor a record overlaps them or the other. A digest has its words.
    answer(unsafe {
        match call {
            Call::Propose(digest) => {
                return proposal(yardbook_propose(words, size, digest.as_ptr()))
            }
            Call::SignNoVote => yardbook_sign_no_vote(words, size),
            Call::Open(n, own) => yardbook_open(words, size, *n, *own),
            Call::Vertex(record) => {
                yardbook_take_vertex(words, size, record.as_ptr(), record.len())
            }
            Call::VertexWith(_, record) => {
                let (place, room) = (buffer.as_mut_ptr(), buffer.len());
                let (from, length) = (record.as_ptr(), record.len());
                yardbook_take_vertex_with(words, size, place, room, from, length)
            }
            Call::First(record) => {
                yardbook_take_first_message(words, size, record.as_ptr(), record.len())
            }
            Call::Timeout(round, signer) => yardbook_take_timeout(words, size, *round, *signer),
            Call::Timeouts(round, mask) => yardbook_take_timeouts(words, size, *round, *mask),
            Call::NoVote(round, signer) => yardbook_take_no_vote(words, size, *round, *signer),
        }
    })
}

fn answer(answer: Answer) -> Reply {
    reply(&[answer.number, answer.id, answer.leaders, answer.journal])
}

fn proposal(proposal: Proposal) -> Reply {
    let mut reply = answer(proposal.answer);
    reply[ANSWER_NUMBERS..].copy_from_slice(&proposal.record);
    reply
}

fn status(status: Status) -> Reply {
    reply(&[
        status.number,
        status.current_round,
        status.committed_round,
        status.leader_count,
        status.journal_count,
    ])
}

fn part(part: Part) -> Reply {
    reply(&[part.number, part.start, part.length])
}
