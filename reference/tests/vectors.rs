//! The stored vectors of the program `harness` see every answer that each call can give.

use std::collections::{BTreeMap, BTreeSet};

use reference::harness::{Command, Harness, Script};
use reference::layout::*;
use reference::record::{Digest, Record};
use reference::simulate::digests::only_conflict;
use reference::simulate::digests::Taken::{InBuffer, InCell};
use reference::simulate::{simulate, simulate_proposing, Options};
use reference::vectors::commands;
use reference::{propose, Call};

/// The numbers of each operation's answers, in the second place of its lines.
fn seen() -> BTreeMap<u32, BTreeSet<u32>> {
    let mut harness = Harness::default();
    let mut seen: BTreeMap<u32, BTreeSet<u32>> = BTreeMap::new();
    for line in commands()
        .into_iter()
        .filter_map(|command| harness.perform(command))
    {
        seen.entry(line[0]).or_default().insert(line[1]);
    }
    seen
}

#[test]
fn every_number_of_every_call_is_seen() {
    let seen = seen();
    let notes = [0, 1, 3, 5, 6, 12];
    let lists = [0, 1, 3, 15];
    for (operation, numbers) in [
        (3, &[0, 1, 2, 6][..]),
        (4, &[0, 1, 3]),
        (5, &lists),
        (6, &lists),
        (9, &[0, 1, 3, 4, 5, 6, 7, 8, 9, 10, 11, 12, 13, 14]),
        (10, &[0, 1, 3, 4, 5, 6, 7, 8, 9, 10, 11, 12]),
        (11, &notes),
        (12, &notes),
        (15, &[0, 1, 3, 5, 9, 10, 12, 16, 18]),
        (16, &[0, 1, 3, 12, 16, 17]),
        (17, &[0, 1, 3, 5, 7, 12]),
        (18, &[0, 1, 3, 4, 5, 6, 7, 8, 9, 10, 11, 12, 13, 14, 19, 20]),
    ] {
        let numbers = numbers.iter().copied().collect();
        assert_eq!(seen[&operation], numbers, "operation {operation}");
    }
}

#[test]
fn handed_lists_are_empty_and_not() {
    let seen = seen();
    for operation in [7, 8] {
        let lengths = &seen[&operation];
        assert!(lengths.contains(&0));
        assert!(lengths.iter().any(|&length| length > 20));
    }
}

/// Every call is made on states, and with records and pending buffers, of their own size, of those of
/// earlier documents, and of a word more or less; records have every length.
#[test]
fn sizes_near_the_right_ones_and_the_earlier_ones_are_seen() {
    let mut harness = Harness::default();
    let [mut states, mut records, mut buffers] = [(); 3].map(|()| BTreeSet::new());
    for command in commands() {
        if let Some(line) = harness.perform(command) {
            states.insert((line[0], harness.lent().len()));
            records.insert((line[0], harness.record().len()));
            buffers.insert((line[0], harness.buffer().len()));
        }
    }
    let near = |sizes: &[usize], right: usize| near_sizes(&[sizes, &[right]].concat());
    let calls: Vec<u32> = (3..=12).chain(15..=18).collect();
    for (operations, sizes, seen) in [
        (&calls[..], near(&EARLIER_STATE_WORDS, STATE_WORDS), states),
        (&[9, 10, 18], (0..=RECORD_WORDS + 8).collect(), records),
        (&[18], near(&EARLIER_BUFFER_WORDS, BUFFER_WORDS), buffers),
    ] {
        for &operation in operations {
            for &size in &sizes {
                assert!(seen.contains(&(operation, size)), "{operation} {size}");
            }
        }
    }
}

/// Plain vertices and vertices with a buffer that differ from a held record, and from one in the buffer, in
/// one word of the digest alone.
#[test]
fn conflicts_in_each_word_of_the_digest_are_seen() {
    let mut harness = Harness::default();
    let mut seen = BTreeSet::new();
    for command in commands() {
        let line = harness.perform(command).unwrap_or_default();
        if let [operation @ (9 | 18), 13, ..] = line[..] {
            let [lent, buffer, record] = [harness.lent(), harness.buffer(), harness.record()];
            let conflict = only_conflict(lent, buffer, record);
            seen.extend(conflict.map(|(taken, at)| (operation, taken, at)));
        }
    }
    let kinds = [(9, InCell), (18, InCell), (18, InBuffer)];
    let all =
        kinds.map(|(operation, taken)| (0..DIGEST_WORDS).map(move |at| (operation, taken, at)));
    assert_eq!(seen, all.into_iter().flatten().collect());
}

/// Records made with zeros as digest, before any word of it is set, and with eight different words.
#[test]
fn digests_of_zeros_and_of_different_words_are_made() {
    let mut harness = Harness::default();
    let lines = commands().into_iter();
    let lines = lines.filter_map(|command| harness.perform(command));
    let made = lines.filter(|line| line[..2] == [15, 0]);
    let digests: Vec<Vec<u32>> = made
        .filter_map(|line| Record::from_words(&line[5..][..RECORD_WORDS]))
        .map(|record| record.digest.to_vec())
        .collect();
    assert_eq!(digests[..2], [[0; DIGEST_WORDS]; 2]);
    let are_different = |digest: &&Vec<u32>| BTreeSet::from_iter(*digest).len() == DIGEST_WORDS;
    let different = digests.iter().filter(are_different).count();
    assert!(different > 100, "{different}");
}

#[test]
fn the_commands_are_the_same_every_time() {
    assert_eq!(commands(), commands());
    assert_eq!(commands().last(), Some(&Command::End));
}

#[test]
fn a_call_s_commands_make_it() {
    let mut runs = [
        simulate(1, 4, &Options::rough()),
        simulate(2, 4, &Options::rough()),
        simulate_proposing(1, 4, &Options::typical()),
    ];
    let calls = runs.each_mut().map(|run| run.replicas.remove(0)).concat();
    assert!(calls.iter().any(|call| !call.buffer().is_empty()));
    let mut script = Script::default();
    script.push(Command::Lend(STATE_WORDS as u32));
    calls.iter().for_each(|call| script.call(call));
    let mut harness = Harness::default();
    let commands = script.commands.into_iter();
    let lines: Vec<_> = commands
        .filter_map(|command| harness.perform(command))
        .collect();
    assert_eq!(lines.len(), calls.len());
    let mut state = vec![0; STATE_WORDS];
    let mut digests: BTreeSet<Digest> = BTreeSet::new();
    for (line, call) in lines.iter().zip(&calls) {
        if let Call::Propose(digest) = call {
            let made = propose(&mut state.clone(), *digest).record;
            assert_eq!(line[5..][..RECORD_WORDS], made, "{call:?}");
            digests.extend((made != [0; RECORD_WORDS]).then_some(*digest));
        }
        let answer = call.apply(&mut state);
        assert_eq!(
            line[1..5],
            [answer.number, answer.id, answer.leaders, answer.journal],
            "{call:?}"
        );
    }
    assert!(digests.len() > 20, "{}", digests.len());
}

#[test]
fn the_buffer_stays_from_command_to_command() {
    let mut harness = Harness::default();
    let mut line = |command| harness.perform(command);
    let size = BUFFER_WORDS as u32;
    for command in [
        Command::Lend(STATE_WORDS as u32),
        Command::Open(4, 0),
        Command::Record(RECORD_WORDS as u32),
        Command::SetRecord(RECORD_ROUND as u32, 2),
        Command::SetRecord(record_word(CELL_STRONG) as u32, 7),
        Command::SetBuffer(BUFFER_COUNT as u32, 1),
    ] {
        line(command);
    }
    let mut made = || line(Command::VertexWith).expect("it prints a line");
    let without = made();
    assert_eq!(without[..6], [18, 19, 0, 0, 0, 0]);
    assert_eq!(harness.perform(Command::Buffer(size)), None);
    let mut made = || {
        harness
            .perform(Command::VertexWith)
            .expect("it prints a line")
    };
    let put = made();
    assert_eq!(put[..5], [18, 14, 16, 0, 0]);
    let again = made();
    assert_eq!(again[..5], [18, 12, 0, 0, 0]);
    assert_eq!(put[5..], again[5..]);
    assert_eq!(put[6], without[6]);
    assert_ne!(put[5], 0);
    assert_eq!(
        harness.perform(Command::SetBuffer(BUFFER_COUNT as u32, 2)),
        None
    );
    assert_eq!(harness.perform(Command::SetBuffer(size, 2)), None);
    let line = harness.perform(Command::VertexWith);
    assert_eq!(line.map(|line| line[1]), Some(19));
}

#[test]
fn the_digest_stays_from_command_to_command() {
    let mut harness = Harness::default();
    let mut made = |commands: &[Command]| {
        let fresh = [Command::Lend(STATE_WORDS as u32), Command::Open(4, 1)];
        for command in fresh.iter().chain(commands) {
            harness.perform(*command);
        }
        let line = harness.perform(Command::Propose).expect("a line");
        Record::from_words(&line[5..][..RECORD_WORDS]).map(|record| record.digest)
    };
    assert_eq!(made(&[]), Some([0; DIGEST_WORDS]));
    let set = [Command::SetDigest(7, 9), Command::SetDigest(0, 3)];
    let digest = Some([3, 0, 0, 0, 0, 0, 0, 9]);
    assert_eq!(made(&set), digest);
    assert_eq!(made(&[]), digest);
    let beyond = [8, 9, 15, 16, u32::MAX].map(|at| Command::SetDigest(at, 1));
    assert_eq!(made(&beyond), digest);
    assert_eq!(Command::SetDigest(7, 9).words(), [21, 7, 9]);
    assert_eq!(Command::Propose.words(), [15, 0, 0]);
}

#[test]
fn checksum_stands_for_every_word() {
    let mut harness = Harness::default();
    let mut line = |command| harness.perform(command);
    assert_eq!(line(Command::Lend(3)), None);
    assert_eq!(line(Command::Set(0, 7)), None);
    assert_eq!(line(Command::Set(2, 5)), None);
    assert_eq!(line(Command::Set(3, 5)), None);
    let sum = 7 * 31 * 31 + 5;
    assert_eq!(line(Command::Open(4, 0)), Some(vec![3, 1, 0, 0, 0, sum]));
}
