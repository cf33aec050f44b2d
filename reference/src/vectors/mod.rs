//! The stored test vectors of the program `harness`: a fixed list of commands, drawn from a seed.
//!
//! States of every size and kind are lent, each with damaged words, and asked by every call.

mod bundle;
mod carried;
pub mod damage;
mod digests;
mod pending;
mod row;
mod sightings;
mod states;
mod worked;

use crate::call::Call;
use crate::group::Group;
use crate::harness::{Command, Script, MOST_BUFFER_WORDS, MOST_RECORD_WORDS, MOST_WORDS};
use crate::layout::*;
use crate::rng::Rng;
use crate::simulate::{digests as drawn, simulate_proposing, Options};
use row::Row;
use states::Reached;

const SEED: u64 = 4;
const SIZE: u32 = STATE_WORDS as u32;
/// The last one is cut to the most words that the program can lend.
const WRONG_SIZES: [u32; 7] = [
    0,
    1,
    RECORD_WORDS as u32,
    SIZE - 1,
    SIZE + 1,
    MOST_WORDS,
    MOST_WORDS + 1_000,
];
const ILLEGAL_SIZES: [u32; 13] = [0, 1, 2, 3, 5, 6, 8, 15, 17, 19, 65_540, 1 << 31, u32::MAX];
const BUFFER_SIZE: u32 = BUFFER_WORDS as u32;
/// The last one is cut to the longest buffer that the program has.
const BUFFER_LENGTHS: [u32; 10] = [
    0,
    1,
    2,
    RECORD_WORDS as u32,
    BUFFER_SIZE - 1,
    BUFFER_SIZE,
    BUFFER_SIZE + 1,
    MOST_BUFFER_WORDS - 1,
    MOST_BUFFER_WORDS,
    u32::MAX,
];
/// Words 5 far beyond any group.
const FAR_OWN: [u32; 6] = [17, 31, 32, 33, 1 << 31, u32::MAX];

/// All commands, in order.
pub fn commands() -> Vec<Command> {
    let mut list = Commands {
        rng: Rng::new(SEED),
        list: Script::default(),
    };
    list.at_the_start();
    list.wrong_sizes(&WRONG_SIZES);
    list.openings();
    list.random_states();
    list.worked();
    list.rows(&carried::rows());
    list.record_lengths();
    list.notes();
    for n in LEGAL_SIZES {
        for reached in states::reached(n) {
            list.reached_state(&reached);
        }
        list.apart(n);
    }
    list.simulated_runs();
    list.proposing_members();
    list.rows(&bundle::rows());
    list.replicas(bundle::replicas());
    list.buffer_lengths(&BUFFER_LENGTHS);
    list.rows(&pending::rows());
    list.replicas(pending::replicas());
    list.rows(&sightings::rows());
    list.replicas(sightings::replicas());
    list.wrong_sizes(&as_words(&near_sizes(&EARLIER_STATE_WORDS)));
    list.record_lengths_with_a_buffer();
    list.buffer_lengths(&as_words(&near_sizes(&EARLIER_BUFFER_WORDS)));
    list.rows(&digests::rows());
    list.made_digests();
    list.list.push(Command::End);
    list.list.commands
}

/// The generator for the next commands, and those so far.
struct Commands {
    rng: Rng,
    list: Script,
}

impl Commands {
    /// Digest, record and pending buffer as the program has them at the start: of zeros, and of no words.
    /// Words that the digest has not are set without effect.
    fn at_the_start(&mut self) {
        for word in [0, 1] {
            self.fresh(4, 1);
            let beyond = [DIGEST_WORDS as u32, u32::MAX];
            self.list
                .extend(beyond.map(|at| Command::SetDigest(at, word)));
            self.list.push(Command::Propose);
        }
        self.fresh(4, 0);
        let set = [
            Command::SetBuffer(BUFFER_COUNT as u32, 1),
            Command::SetRecord(RECORD_ROUND as u32, 1),
        ];
        let calls = [Command::VertexWith, Command::Vertex];
        self.list.extend(calls.into_iter().chain(set).chain(calls));
    }

    /// States that have not their number of words: zero, opened as far as they go, and random.
    fn wrong_sizes(&mut self, sizes: &[u32]) {
        for &size in sizes {
            self.list.push(Command::Lend(size));
            self.all_calls();
            let opened = [(N, 4), (CURRENT_ROUND, 1)];
            self.list
                .extend(opened.map(|(at, word)| Command::Set(at as u32, word)));
            self.all_calls();
            self.set_random(20, size);
            self.all_calls();
        }
    }

    /// Openings for every legal n and word 5, each over the state of the one before and followed by
    /// a record and no-votes of our own; and openings for illegal n.
    fn openings(&mut self) {
        self.list.push(Command::Lend(STATE_WORDS as u32));
        self.all_calls();
        for n in LEGAL_SIZES {
            for own in (0..=n + 1).rev().chain(FAR_OWN) {
                self.list.push(Command::Open(n, own));
                self.own_calls();
            }
            for own in [0, n] {
                self.list.push(Command::Open(n, own));
                self.all_calls();
            }
            self.list.push(Command::Set(STATE_WORDS as u32, 9));
            for illegal in ILLEGAL_SIZES {
                for own in [0, 1, illegal, u32::MAX] {
                    self.list.push(Command::Open(illegal, own));
                }
            }
            self.list.push(Command::Status);
        }
    }

    /// Random words: everywhere, and in a few places of a zero and of an opened state.
    fn random_states(&mut self) {
        self.list.push(Command::Lend(STATE_WORDS as u32));
        for at in 0..STATE_WORDS as u32 {
            let word = self.rng.word();
            self.list.push(Command::Set(at, word));
        }
        self.all_calls();
        self.list.extend([
            Command::Open(5, 0),
            Command::Open(7, 8),
            Command::Open(7, 3),
        ]);
        self.all_calls();
        for n in [0].into_iter().chain(LEGAL_SIZES) {
            for count in [1, 2, 5, 50] {
                self.fresh(n, count % (n + 1));
                self.set_random(count, STATE_WORDS as u32);
                self.all_calls();
            }
        }
    }

    /// 01's worked list, and the lists of a state just opened.
    fn worked(&mut self) {
        for calls in worked::rows() {
            self.fresh(4, 0);
            self.run(&calls);
        }
        for n in [4, 16, 5, 19] {
            self.fresh(n, 0);
            self.run(&[]);
            self.list.push(Command::AskJournal(1));
        }
    }

    /// Calls, words that get other values, and more calls.
    fn rows(&mut self, rows: &[Row]) {
        for row in rows {
            self.fresh(row.n, 0);
            self.run(&row.calls);
            let set = |&(at, word): &(usize, u32)| Command::Set(at as u32, word);
            self.list.extend(row.words.iter().map(set));
            self.run(&row.next);
        }
    }

    /// Records of every length on 01's state S, of zeros and with words of a vertex.
    fn record_lengths(&mut self) {
        self.fresh(4, 0);
        self.run(&worked::state_s());
        for record in of_every_length() {
            self.call(&Call::First(record.clone()));
            self.call(&Call::Vertex(record));
        }
    }

    /// The same records with a pending buffer.
    fn record_lengths_with_a_buffer(&mut self) {
        self.fresh(4, 0);
        self.run(&worked::state_s());
        for record in of_every_length() {
            self.call(&Call::VertexWith(vec![0; BUFFER_WORDS], record));
        }
    }

    /// Timeouts and no-votes with rounds and signers near their limits and beyond, each made twice.
    fn notes(&mut self) {
        for n in LEGAL_SIZES {
            self.fresh(n, 0);
            for round in [0, 1, 32, 33, u32::MAX] {
                for signer in [0, n - 1, n, 31, 32, u32::MAX] {
                    let calls = [Call::Timeout(round, signer), Call::NoVote(round, signer)];
                    self.run(&[&calls[..], &calls].concat());
                }
            }
        }
    }

    /// Whole runs of simulated groups, call by call.
    fn simulated_runs(&mut self) {
        for (n, rounds, options) in [
            (4, 32, Options::rough()),
            (7, 32, Options::typical()),
            (10, 16, Options::wild()),
            (13, 12, Options::typical()),
            (16, 32, Options::calm()),
        ] {
            self.list.push(Command::Lend(STATE_WORDS as u32));
            self.run(&states::simulated(5, n, rounds, options));
        }
    }

    /// Single members of groups driven by made records alone, call by call.
    fn proposing_members(&mut self) {
        for (n, rounds, member) in [(4, 32, 2), (7, 16, 1), (16, 5, 4)] {
            let options = Options {
                rounds,
                early_stop: 0,
                bundles: 0,
                buffers: 0,
                ..Options::typical()
            };
            let mut run = simulate_proposing(6, n, &options);
            self.list.push(Command::Lend(STATE_WORDS as u32));
            self.run(&run.replicas.swap_remove(member));
        }
    }

    /// Whole runs of replicas, call by call.
    fn replicas(&mut self, replicas: Vec<Vec<Call>>) {
        for calls in replicas {
            self.list.push(Command::Lend(STATE_WORDS as u32));
            self.run(&calls);
        }
    }

    /// Pending buffers of every length near theirs and of some others, of zeros and with a count, on
    /// 01's state S; words that the buffer has not are set without effect.
    fn buffer_lengths(&mut self, lengths: &[u32]) {
        self.fresh(4, 0);
        self.run(&worked::state_s());
        for &length in lengths {
            self.list.push(Command::Buffer(length));
            self.list.push(Command::SetBuffer(length, 1));
            self.list.push(Command::VertexWith);
            self.list.push(Command::SetBuffer(BUFFER_COUNT as u32, 1));
            self.list.push(Command::VertexWith);
        }
    }

    /// Records made with digests of eight different words, each then taken as first message and vertex,
    /// and as a vertex with a word of its digest changed.
    fn made_digests(&mut self) {
        for n in LEGAL_SIZES {
            for at in 0..DIGEST_WORDS {
                let mut made = worked::record(1, n - 1, [0; 3]);
                made.digest = digests::DIGEST;
                made.digest.rotate_left(at);
                let [words, other] =
                    [made, made.with_other_word(at)].map(|record| record.words().to_vec());
                self.fresh(n, n);
                self.run(&[
                    Call::Propose(made.digest),
                    Call::First(words.clone()),
                    Call::Vertex(words),
                    Call::Vertex(other),
                ]);
            }
        }
    }

    /// A zero state, and its opening.
    fn fresh(&mut self, n: u32, own: u32) {
        self.list
            .extend([Command::Lend(STATE_WORDS as u32), Command::Open(n, own)]);
    }

    /// A no-vote signed before and after a record is made, and the record made twice.
    fn own_calls(&mut self) {
        let propose = Call::Propose(drawn::any(&mut self.rng));
        for call in [&Call::SignNoVote, &propose, &propose, &Call::SignNoVote] {
            self.call(call);
        }
    }

    /// Calls, and what they leave.
    fn run(&mut self, calls: &[Call]) {
        calls.iter().for_each(|call| self.call(call));
        self.list.extend([
            Command::Status,
            Command::HandLeaders(0),
            Command::HandJournal(0),
        ]);
    }

    fn call(&mut self, call: &Call) {
        self.list.call(call);
    }

    /// A state that calls have reached: every list call near the counts, damages, and openings.
    fn reached_state(&mut self, reached: &Reached) {
        let state = &reached.state;
        self.list.push(Command::Lend(STATE_WORDS as u32));
        self.set_all(state);
        self.list.push(Command::Status);
        self.lists(state);
        for damage in damage::all(&mut self.rng, state) {
            self.damaged(reached, &damage);
        }
        for round in 1..=LAST_CURRENT_ROUND {
            self.in_round(state, round);
        }
        self.list.push(Command::Status);
        for (n, own) in [(5, 0), (state[N], state[N]), (4, 0)] {
            self.list.extend([Command::Open(n, own), Command::Status]);
        }
    }

    /// The status of a damaged state, and some other calls on it; what they and the damage changed
    /// is undone. Where words 5 to 7 are damaged, records and no-votes of our own are always among
    /// the calls.
    fn damaged(&mut self, reached: &Reached, damage: &[(usize, u32)]) {
        let state = &reached.state;
        let mut words = state.clone();
        self.set_words(&mut words, damage);
        self.list.push(Command::Status);
        if self.rng.percent(30) {
            let call = self.list_call(state);
            self.list.push(call);
        }
        let mut calls = Vec::new();
        if self.rng.percent(30) {
            let drawn = self.rng.pick(&reached.calls).cloned();
            calls.extend(drawn.filter(|call| !matches!(call, Call::Open(..))));
        }
        let own_words = OWN..=SIGNED_NO_VOTES;
        if damage.iter().any(|(at, _)| own_words.contains(at)) || self.rng.percent(4) {
            let propose = Call::Propose(drawn::any(&mut self.rng));
            calls.extend([Call::SignNoVote, propose]);
        }
        self.make_and_undo(words, &calls, state);
    }

    /// Records of our own with weak ids, in every round.
    fn apart(&mut self, n: u32) {
        let state = states::apart(&mut self.rng, n);
        self.list.push(Command::Lend(STATE_WORDS as u32));
        self.set_all(&state);
        for round in 1..=state[CURRENT_ROUND] + 1 {
            self.in_round(&state, round);
            self.in_round(&state, round);
        }
    }

    /// A record made and a no-vote signed, in either order, with another current round, for the
    /// leader of that round or any member, with marks and with timeouts and no-votes of all kinds.
    fn in_round(&mut self, state: &[u32], round: u32) {
        let Some(group) = Group::new(state[N]) else {
            return;
        };
        let member = [group.leader(round), self.rng.below(group.n())];
        let own = 1 + member[self.rng.below(2) as usize];
        let mut damage = vec![
            (CURRENT_ROUND, round),
            (OWN, own),
            (MADE_ROUNDS, self.marks()),
            (SIGNED_NO_VOTES, self.marks()),
        ];
        if round >= 2 {
            let before = [TIMEOUTS, NO_VOTES].map(|which| mask_place(round - 1, which));
            damage.extend(before.map(|at| (at, self.signers(group, state[at]))));
        }
        let mut words = state.to_vec();
        self.set_words(&mut words, &damage);
        let propose = Call::Propose(drawn::any(&mut self.rng));
        let calls = if self.rng.percent(50) {
            [Call::SignNoVote, propose]
        } else {
            [propose, Call::SignNoVote]
        };
        self.make_and_undo(words, &calls, state);
    }

    /// A word of marks by round: none, all, or any.
    fn marks(&mut self) -> u32 {
        match self.rng.below(4) {
            0 => u32::MAX,
            1 => self.rng.word(),
            _ => 0,
        }
    }

    /// Signers of a certificate: those there, all, or about a quorum of them.
    fn signers(&mut self, group: Group, there: u32) -> u32 {
        match self.rng.below(4) {
            0 => there,
            1 => self.rng.top_up(0, group.all(), group.quorum() - 1),
            2 => self.rng.top_up(0, group.all(), group.quorum()),
            _ => group.all(),
        }
    }

    fn set_words(&mut self, words: &mut [u32], places: &[(usize, u32)]) {
        for &(at, word) in places {
            if words[at] != word {
                words[at] = word;
                self.list.push(Command::Set(at as u32, word));
            }
        }
    }

    /// Calls on these words, and then the words of the state again.
    fn make_and_undo(&mut self, mut words: Vec<u32>, calls: &[Call], state: &[u32]) {
        for call in calls {
            self.call(call);
            call.apply(&mut words);
        }
        let changed = (0..STATE_WORDS).filter(|&at| words[at] != state[at]);
        self.list
            .extend(changed.map(|at| Command::Set(at as u32, state[at])));
    }

    fn list_call(&mut self, state: &[u32]) -> Command {
        let counts = [state[LEADER_COUNT], state[JOURNAL_COUNT]];
        let back = self.rng.below(4);
        let start = |count: u32| (count + 1).saturating_sub(back);
        match self.rng.below(4) {
            0 => Command::AskLeaders(start(counts[0])),
            1 => Command::AskJournal(start(counts[1])),
            2 => Command::HandLeaders(start(counts[0])),
            _ => Command::HandJournal(start(counts[1])),
        }
    }

    /// All list calls at every start near the ends of the lists.
    fn lists(&mut self, state: &[u32]) {
        for k in starts(state[LEADER_COUNT]) {
            self.list
                .extend([Command::AskLeaders(k), Command::HandLeaders(k)]);
        }
        for k in starts(state[JOURNAL_COUNT]) {
            self.list
                .extend([Command::AskJournal(k), Command::HandJournal(k)]);
        }
    }

    /// Every call, those that may change an opened state last.
    fn all_calls(&mut self) {
        self.list.extend([
            Command::Open(5, 0),
            Command::Status,
            Command::AskLeaders(0),
            Command::AskLeaders(1),
            Command::AskJournal(0),
            Command::AskJournal(1),
            Command::HandLeaders(0),
            Command::HandLeaders(1),
            Command::HandJournal(0),
            Command::HandJournal(1),
        ]);
        let vertex = worked::record(1, 0, [0; 3]).words().to_vec();
        self.call(&Call::Vertex(vertex.clone()));
        self.call(&Call::VertexWith(vec![0; BUFFER_WORDS], vertex.clone()));
        self.call(&Call::First(vertex));
        self.call(&Call::Timeout(1, 0));
        self.call(&Call::Timeouts(1, 1));
        self.call(&Call::NoVote(1, 0));
        self.own_calls();
    }

    fn set_all(&mut self, state: &[u32]) {
        let set = |(at, &word): (usize, &u32)| (word != 0).then_some(Command::Set(at as u32, word));
        self.list.extend(state.iter().enumerate().filter_map(set));
    }

    fn set_random(&mut self, count: u32, size: u32) {
        for _ in 0..count {
            let set = Command::Set(self.rng.below(size), self.rng.word());
            self.list.push(set);
        }
    }
}

fn as_words(sizes: &[usize]) -> Vec<u32> {
    sizes.iter().map(|&size| size as u32).collect()
}

/// Records of every length that the program has room for, with words of a vertex and of zeros.
fn of_every_length() -> impl Iterator<Item = Vec<u32>> {
    let mut vertex = vec![0; MOST_RECORD_WORDS as usize];
    (vertex[RECORD_ROUND], vertex[RECORD_SOURCE]) = (1, 3);
    (0..=vertex.len()).flat_map(move |length| [vertex[..length].to_vec(), vec![0; length]])
}

/// Where lists are asked for: the ends of a list of so many entries, and far beyond.
fn starts(count: u32) -> Vec<u32> {
    let mut starts = vec![0, 1, count.saturating_sub(1), count, count + 1, u32::MAX];
    starts.sort_unstable();
    starts.dedup();
    starts
}
