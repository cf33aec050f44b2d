//! Writes the stored states of the cases into a folder, each as CASE-SIDE.state: what no input of
//! `sheetlog` can give, since a member's state is opened for it, or words were set by no call.

use std::path::Path;
use std::process::ExitCode;
use std::{env, fs, io};

use reference::layout::*;
use reference::record::Record;

fn main() -> ExitCode {
    let Some(folder) = env::args_os().nth(1) else {
        eprintln!("usage: cases FOLDER");
        return ExitCode::from(2);
    };
    match write(Path::new(&folder)) {
        Ok(()) => ExitCode::SUCCESS,
        Err(error) => {
            eprintln!("cases: {error}");
            ExitCode::FAILURE
        }
    }
}

fn write(folder: &Path) -> io::Result<()> {
    fs::create_dir_all(folder)?;
    for (name, state) in [
        ("agreement-right", agreement()),
        ("old_engine-left", old_engine()),
        ("damaged-right", damaged()),
        ("first_message-left", first_message()),
    ] {
        let bytes: Vec<u8> = state.iter().flat_map(|word| word.to_le_bytes()).collect();
        fs::write(folder.join(name).with_extension("state"), bytes)?;
    }
    Ok(())
}

/// A state of four members, opened for one of them.
fn opened(own: u32) -> Vec<u32> {
    let mut state = vec![0; STATE_WORDS];
    assert_eq!(yardbook::open(&mut state, 4, own + 1).number, 0);
    state
}

/// The record that the inputs of the cases have, with its tag.
fn record(round: u32, source: u32, strong: u32) -> Record {
    let record = Record {
        round,
        source,
        strong,
        ..Record::default()
    };
    record.with_tag(10 * round + source)
}

fn take_vertex(state: &mut [u32], round: u32, source: u32, strong: u32) {
    let record = record(round, source, strong);
    assert_eq!(yardbook::take_vertex(state, &record.words()).number, 0);
}

fn take_first_message(state: &mut [u32], round: u32, source: u32, strong: u32) {
    let record = record(round, source, strong);
    assert_eq!(
        yardbook::take_first_message(state, &record.words()).number,
        0
    );
}

/// Member 2 got the same four rounds in another order, and some first messages before the vertices.
fn agreement() -> Vec<u32> {
    let mut state = opened(2);
    for round in 1..=4 {
        let strong = if round == 1 { 0 } else { 15 };
        for source in [1, 3] {
            take_first_message(&mut state, round, source, strong);
        }
        for source in [3, 1, 2, 0] {
            take_vertex(&mut state, round, source, strong);
        }
    }
    state
}

/// The old engine's fault: with two votes for round 1's leader it counted that of a third vertex, which
/// it then refused, and committed the leader. The rounds after that are as the library takes them.
fn old_engine() -> Vec<u32> {
    let mut state = opened(0);
    for source in 0..4 {
        take_vertex(&mut state, 1, source, 0);
    }
    for source in [0, 2] {
        take_vertex(&mut state, 2, source, 7);
    }
    let leader = vertex_id(1, 0);
    state[COMMITTED_ROUND] = 1;
    state[LEADER_COUNT] = 1;
    state[LEADER_LIST.start] = leader;
    state[JOURNAL_COUNT] = 1;
    state[JOURNAL.start] = leader;
    state[mask_place(1, ORDERED)] = 1;
    for (source, no_votes) in [(1, 14), (3, 0)] {
        let record = Record {
            timeouts: 14,
            no_votes,
            ..record(2, source, 14)
        };
        assert_eq!(yardbook::take_vertex(&mut state, &record.words()).number, 0);
    }
    for round in 3..=5 {
        for source in 0..4 {
            take_vertex(&mut state, round, source, 15);
        }
    }
    state
}

/// One byte of a journal entry is another.
fn damaged() -> Vec<u32> {
    let mut state = agreement();
    state[JOURNAL.start + 1] ^= 255 << 16;
    state
}

/// First messages of members 0, 1 and 3 commit round 1's leader. The vertices of 1 and 3 do not vote.
fn first_message() -> Vec<u32> {
    let mut state = opened(0);
    for source in 0..4 {
        take_vertex(&mut state, 1, source, 0);
    }
    for source in [0, 1, 3] {
        take_first_message(&mut state, 2, source, 7);
    }
    state
}
