//! The second implementation's calls, as `host/yardbook.h` has them.

use std::slice::{from_raw_parts, from_raw_parts_mut};

use reference::layout::RECORD_WORDS;
use reference::record::Digest;

#[repr(C)]
pub struct Answer([u32; 4]);

#[repr(C)]
pub struct Proposal {
    answer: Answer,
    record: [u32; RECORD_WORDS],
}

#[repr(C)]
pub struct Status([u32; 5]);

#[repr(C)]
pub struct Part([u32; 3]);

fn answer(a: reference::Answer) -> Answer {
    Answer([a.number, a.id, a.leaders, a.journal])
}

fn asked(number: u32) -> Answer {
    Answer([number, 0, 0, 0])
}

fn part(state: &[u32], list: (u32, &[u32])) -> Part {
    if list.0 != 0 {
        return Part([list.0, 0, 0]);
    }
    let start = (list.1.as_ptr() as usize - state.as_ptr() as usize) / 4;
    Part([0, start as u32, list.1.len() as u32])
}

macro_rules! words {
    ($at:ident, $count:ident) => {
        unsafe { from_raw_parts($at, $count) }
    };
    (mut $at:ident, $count:ident) => {
        unsafe { from_raw_parts_mut($at, $count) }
    };
}

/// # Safety
/// Of each call: as `host/yardbook.h` asks.
#[no_mangle]
pub unsafe extern "C" fn reference_open(state: *mut u32, words: usize, n: u32, own: u32) -> Answer {
    answer(reference::open(words!(mut state, words), n, own))
}

/// # Safety
/// As above.
#[no_mangle]
pub unsafe extern "C" fn reference_take_vertex(
    state: *mut u32,
    words: usize,
    record: *const u32,
    record_words: usize,
) -> Answer {
    answer(reference::take_vertex(
        words!(mut state, words),
        words!(record, record_words),
    ))
}

/// # Safety
/// As above.
#[no_mangle]
pub unsafe extern "C" fn reference_take_vertex_with(
    state: *mut u32,
    words: usize,
    buffer: *mut u32,
    buffer_words: usize,
    record: *const u32,
    record_words: usize,
) -> Answer {
    answer(reference::take_vertex_with(
        words!(mut state, words),
        words!(mut buffer, buffer_words),
        words!(record, record_words),
    ))
}

/// # Safety
/// As above.
#[no_mangle]
pub unsafe extern "C" fn reference_take_first_message(
    state: *mut u32,
    words: usize,
    record: *const u32,
    record_words: usize,
) -> Answer {
    answer(reference::take_first_message(
        words!(mut state, words),
        words!(record, record_words),
    ))
}

/// # Safety
/// As above.
#[no_mangle]
pub unsafe extern "C" fn reference_take_timeout(
    state: *mut u32,
    words: usize,
    round: u32,
    signer: u32,
) -> Answer {
    answer(reference::take_timeout(words!(mut state, words), round, signer))
}

/// # Safety
/// As above.
#[no_mangle]
pub unsafe extern "C" fn reference_take_timeouts(
    state: *mut u32,
    words: usize,
    round: u32,
    mask: u32,
) -> Answer {
    answer(reference::take_timeouts(words!(mut state, words), round, mask))
}

/// # Safety
/// As above.
#[no_mangle]
pub unsafe extern "C" fn reference_take_no_vote(
    state: *mut u32,
    words: usize,
    round: u32,
    signer: u32,
) -> Answer {
    answer(reference::take_no_vote(words!(mut state, words), round, signer))
}

/// # Safety
/// As above.
#[no_mangle]
pub unsafe extern "C" fn reference_propose(
    state: *mut u32,
    words: usize,
    digest: *const u32,
) -> Proposal {
    let digest = unsafe { *digest.cast::<Digest>() };
    let made = reference::propose(words!(mut state, words), digest);
    Proposal {
        answer: answer(made.answer),
        record: made.record,
    }
}

/// # Safety
/// As above.
#[no_mangle]
pub unsafe extern "C" fn reference_sign_no_vote(state: *mut u32, words: usize) -> Answer {
    answer(reference::sign_no_vote(words!(mut state, words)))
}

/// # Safety
/// As above.
#[no_mangle]
pub unsafe extern "C" fn reference_status(state: *const u32, words: usize) -> Status {
    let s = reference::status(words!(state, words));
    Status([
        s.number,
        s.current_round,
        s.committed_round,
        s.leader_count,
        s.journal_count,
    ])
}

/// # Safety
/// As above.
#[no_mangle]
pub unsafe extern "C" fn reference_ask_leaders(state: *const u32, words: usize, k: u32) -> Answer {
    asked(reference::ask_leaders(words!(state, words), k))
}

/// # Safety
/// As above.
#[no_mangle]
pub unsafe extern "C" fn reference_ask_journal(state: *const u32, words: usize, k: u32) -> Answer {
    asked(reference::ask_journal(words!(state, words), k))
}

/// # Safety
/// As above.
#[no_mangle]
pub unsafe extern "C" fn reference_hand_leaders(state: *const u32, words: usize, k: u32) -> Part {
    let state = words!(state, words);
    part(state, reference::hand_leaders(state, k))
}

/// # Safety
/// As above.
#[no_mangle]
pub unsafe extern "C" fn reference_hand_journal(state: *const u32, words: usize, k: u32) -> Part {
    let state = words!(state, words);
    part(state, reference::hand_journal(state, k))
}
