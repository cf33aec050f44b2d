//! Groups driven by made records alone: what A1 says of every made record and signed no-vote, that
//! a member whom no timeouts reach goes on by carried certificates (A2), that bundles of timeouts
//! end as single ones (A3), that a vertex with a pending buffer ends as plain ones (A5), and that such
//! groups go on, commit and agree.

mod common;

use std::collections::{BTreeMap, BTreeSet};

use common::*;
use reference::group::Group;
use reference::layout::*;
use reference::model::Lists;
use reference::record::{first_refusal, Digest, Record};
use reference::simulate::{simulate, simulate_proposing, Options, Run};
use reference::*;

/// What was seen over a number of groups.
#[derive(Default)]
struct Seen {
    propose: BTreeSet<u32>,
    sign: BTreeSet<u32>,
    made: usize,
    with_weak: usize,
    with_timeouts: usize,
    with_no_votes: usize,
    signed: usize,
    /// Records that leave out the previous leader's vertex though it is held.
    left_out: usize,
    /// Vertices given before their parents were held, and again after they were admitted.
    early: usize,
    again: usize,
    /// Rounds ended by the certificate of a vertex, which the notes alone had not ended.
    by_certificate: usize,
    /// The numbers of bundles, rounds that they ended, and admitted ones with members noted before.
    bundles: BTreeSet<u32>,
    by_bundle: usize,
    overlapping: usize,
    /// The numbers of vertices with a buffer, and the records that these released.
    buffers: BTreeSet<u32>,
    released: usize,
    committed: u32,
    skipped: u32,
}

/// A member as its calls go on.
struct Member<'a> {
    group: Group,
    own: u32,
    state: State,
    model: Model,
    /// The records made, and the rounds whose leader a no-vote was signed against.
    made: BTreeMap<u32, Record>,
    signed: BTreeSet<u32>,
    vertices: BTreeMap<u32, Record>,
    seen: &'a mut Seen,
}

/// Where a member's calls have led.
struct End {
    state: State,
    made: BTreeMap<u32, Record>,
    vertices: BTreeMap<u32, Record>,
    /// The lists in the midst of the calls and at their end.
    lists: [Lists; 2],
}

fn follow(run: &Run, own: u32, seen: &mut Seen) -> End {
    let mut member = Member {
        group: Group::new(run.n).expect("the size is legal"),
        own,
        state: vec![0; STATE_WORDS],
        model: Model::default(),
        made: BTreeMap::new(),
        signed: BTreeSet::new(),
        vertices: BTreeMap::new(),
        seen,
    };
    let calls = &run.replicas[own as usize];
    assert_eq!(calls[0], Call::Open(run.n, own + 1));
    let (start, rest) = calls.split_at(1 + calls.len() * (1 + own as usize) / (2 + run.n as usize));
    start.iter().for_each(|call| member.make(call));
    let midst = member.lists();
    rest.iter().for_each(|call| member.make(call));
    let lists = [midst, member.lists()];
    End {
        state: member.state,
        made: member.made,
        vertices: member.vertices,
        lists,
    }
}

impl Member<'_> {
    fn make(&mut self, call: &Call) {
        let before = self.state.clone();
        let number = match call {
            Call::Propose(digest) => self.propose(&before, *digest),
            Call::SignNoVote => self.sign(&before),
            Call::Vertex(words) => self.take(&before, words),
            Call::VertexWith(buffer, words) => self.take_with(buffer, words),
            Call::Timeouts(round, mask) => self.bundle(&before, *round, *mask),
            call => call.apply(&mut self.state).number,
        };
        match call {
            Call::First(_) | Call::Timeout(..) | Call::NoVote(..) => {
                assert!([0, 12].contains(&number), "{call:?} {number}")
            }
            Call::Open(..) => assert!(number == 6 || before[N] == 0, "{call:?} {number}"),
            _ => {}
        }
        self.model.feed(call, number);
        if number != 0 {
            assert_eq!(self.state, before, "{call:?}");
        } else if self.state[LEADER_COUNT] != before[LEADER_COUNT] {
            self.lists();
        }
    }

    /// The lists, which are the model's.
    fn lists(&self) -> Lists {
        let (leaders, journal) = lists(&self.state);
        let lists = Lists { leaders, journal };
        assert_eq!(lists, self.model.lists());
        lists
    }

    fn propose(&mut self, before: &State, digest: Digest) -> u32 {
        let Proposal { answer, record } = propose(&mut self.state, digest);
        self.seen.propose.insert(answer.number);
        assert_eq!(answer, Answer::refused(answer.number));
        if answer.number != 0 {
            assert_eq!(record, [0; RECORD_WORDS]);
            return answer.number;
        }
        let made = Record::from_words(&record).expect("a record has its size");
        let round = before[CURRENT_ROUND];
        assert_eq!((made.round, made.source), (round, self.own));
        assert_eq!(made.digest, digest);
        assert_eq!(
            self.made.insert(round, made),
            None,
            "one record for a round"
        );
        assert!(!(made.votes(self.group) && self.signed.contains(&(round - 1))));
        assert_eq!(first_refusal(self.group, &made), None);
        assert!(made.parents().all(|id| holds(before, id)), "question 14");
        let marks = before[MADE_ROUNDS] | round_bit(round);
        assert_eq!(changes(before, &self.state), [(MADE_ROUNDS, marks)]);
        self.note(before, &made);
        0
    }

    fn note(&mut self, before: &State, made: &Record) {
        self.seen.made += 1;
        self.seen.with_weak += usize::from(made.weak_count > 0);
        self.seen.with_timeouts += usize::from(made.timeouts != 0);
        self.seen.with_no_votes += usize::from(made.no_votes != 0);
        let lacks = made.lacks_previous_leader(self.group);
        let held = || holds(before, self.group.leader_id(made.round - 1));
        self.seen.left_out += usize::from(lacks && held());
    }

    fn sign(&mut self, before: &State) -> u32 {
        let answer = sign_no_vote(&mut self.state);
        self.seen.sign.insert(answer.number);
        assert_eq!(answer, Answer::refused(answer.number));
        if answer.number != 0 {
            return answer.number;
        }
        let round = before[CURRENT_ROUND] - 1;
        let vote = self.made.get(&(round + 1));
        assert_eq!(vote, None, "no record names the leader signed against");
        assert!(self.signed.insert(round), "one no-vote for a round");
        let marks = (SIGNED_NO_VOTES, before[SIGNED_NO_VOTES] | round_bit(round));
        let at = mask_place(round, NO_VOTES);
        let signers = (at, before[at] | 1 << self.own);
        assert_eq!(changes(before, &self.state), [marks, signers]);
        self.seen.signed += 1;
        0
    }

    /// An admitted bundle leaves the words that single timeouts of its new members leave.
    fn bundle(&mut self, before: &State, round: u32, mask: u32) -> u32 {
        let answer = take_timeouts(&mut self.state, round, mask);
        let number = self.bundle_number(before, round, mask);
        assert_eq!(answer, Answer::refused(number), "{round} {mask:b}");
        self.seen.bundles.insert(number);
        if number == 0 {
            let new = mask & !before[timeouts(round)];
            assert_eq!(self.state, noted(before.clone(), round, new));
            self.seen.overlapping += usize::from(new != mask);
            self.seen.by_bundle += usize::from(before[CURRENT_ROUND] < self.state[CURRENT_ROUND]);
        }
        number
    }

    /// The number of a bundle on a well formed state.
    fn bundle_number(&self, before: &State, round: u32, mask: u32) -> u32 {
        if !(1..=LAST_ROUND).contains(&round) {
            return 5;
        }
        if !self.group.contains(mask) {
            return 7;
        }
        let is_new = mask & !before[timeouts(round)] != 0;
        if is_new {
            0
        } else {
            12
        }
    }

    /// A vertex is admitted if its parents are held and it is new. The current round is then the
    /// vertex's or above. A vertex that raises it to just that does so by its certificate.
    fn take(&mut self, before: &State, words: &[u32]) -> u32 {
        let record = Record::from_words(words).expect("a record has its size");
        let number = take_vertex(&mut self.state, words).number;
        let is_known = self.vertices.contains_key(&record.id());
        if is_known {
            self.seen.again += 1;
            assert_eq!(number, 12);
        } else if record.parents().all(|id| holds(before, id)) {
            assert_eq!(number, 0, "{record:?}");
            self.vertices.insert(record.id(), record);
            let [old, new] = [before, &self.state].map(|state| state[CURRENT_ROUND]);
            assert!(new >= record.round, "{record:?}");
            self.seen.by_certificate += usize::from(old < new && new == record.round);
        } else {
            self.seen.early += 1;
            assert_eq!(number, 14);
        }
        number
    }

    /// A vertex with a buffer is checked against plain vertices.
    fn take_with(&mut self, buffer: &[u32], words: &[u32]) -> u32 {
        let record = Record::from_words(words).expect("a record has its size");
        let old = self.state[CURRENT_ROUND];
        let (answer, released) = checked_with(&mut self.state, &mut buffer.to_vec(), words);
        let new = self.state[CURRENT_ROUND];
        let alone = released.is_empty() && old < new;
        self.seen.by_certificate += usize::from(alone && new == record.round);
        self.seen.buffers.insert(answer.number);
        self.seen.released += released.len();
        if answer.number == 0 {
            for record in [record].into_iter().chain(released) {
                assert_eq!(self.vertices.insert(record.id(), record), None);
            }
        }
        answer.number
    }
}

fn prefixes(a: &Lists, b: &Lists) -> bool {
    let within = |a: &[u32], b: &[u32]| a.starts_with(b) || b.starts_with(a);
    within(&a.leaders, &b.leaders) && within(&a.journal, &b.journal)
}

/// Follows all members of a group that nobody leaves early.
fn run_group(seed: u64, n: u32, options: &Options, seen: &mut Seen) {
    let options = Options {
        early_stop: 0,
        ..options.clone()
    };
    let run = simulate_proposing(seed, n, &options);
    assert!(run.faulty.count_ones() <= Group::new(n).expect("the size is legal").f());
    let ends: Vec<End> = (0..n).map(|own| follow(&run, own, seen)).collect();
    let made: BTreeMap<u32, Record> = ends
        .iter()
        .flat_map(|end| end.made.values().map(|record| (record.id(), *record)))
        .collect();
    for end in &ends {
        assert!(is_well_formed(&end.state));
        assert_eq!(end.vertices, made, "all records arrive, and no other");
        assert_eq!(end.state[CURRENT_ROUND], LAST_CURRENT_ROUND);
        let now = status(&end.state);
        seen.committed += now.committed_round;
        seen.skipped += now.committed_round - now.leader_count;
    }
    let all: Vec<&Lists> = ends.iter().flat_map(|end| &end.lists).collect();
    for (at, a) in all.iter().enumerate() {
        assert!(
            all[at..].iter().all(|b| prefixes(a, b)),
            "n {n}, seed {seed}"
        );
    }
}

/// Groups of these sizes, each with so many seeds.
fn run_groups(options: &Options, groups: &[(u32, u64)]) -> Seen {
    let mut seen = Seen::default();
    for &(n, seeds) in groups {
        for seed in 0..seeds {
            run_group(seed, n, options, &mut seen);
        }
    }
    seen
}

#[test]
fn calm_groups_vote_for_every_leader() {
    let seen = run_groups(&Options::calm(), &[(4, 2), (7, 1), (16, 1)]);
    let members = 2 * 4 + 7 + 16;
    let most = 32 * members as usize;
    assert!((most * 9 / 10..=most).contains(&seen.made), "{}", seen.made);
    assert_eq!((seen.with_timeouts, seen.signed, seen.skipped), (0, 0, 0));
    assert_eq!(seen.committed, 31 * members);
    assert_eq!(seen.by_certificate, 0);
    assert!(seen.again > 100, "{}", seen.again);
}

#[test]
fn groups_with_silent_leaders_go_on() {
    let seen = run_groups(&Options::typical(), &[(4, 6), (7, 3), (16, 1)]);
    assert_eq!(seen.propose, BTreeSet::from([0, 5, 10, 12]));
    assert_eq!(seen.sign, BTreeSet::from([0, 12, 17]));
    for (what, count) in [
        ("weak", seen.with_weak),
        ("timeouts", seen.with_timeouts),
        ("no-votes", seen.with_no_votes),
        ("signed", seen.signed),
        ("early", seen.early),
        ("by certificate", seen.by_certificate),
        ("by bundle", seen.by_bundle),
        ("overlapping", seen.overlapping),
    ] {
        assert!(count > 50, "{what} {count}");
    }
    assert_eq!(seen.bundles, BTreeSet::from([0, 5, 7, 12]));
    assert_eq!(seen.buffers, BTreeSet::from([0, 12, 14, 19]));
    assert!(seen.released > 100, "{}", seen.released);
    let members = 6 * 4 + 3 * 7 + 16;
    assert!(seen.committed > 25 * members, "{}", seen.committed);
    assert!(seen.skipped > 5 * members, "{}", seen.skipped);
}

#[test]
fn groups_with_slow_messages_go_on() {
    let seen = run_groups(&Options::rough(), &[(4, 6), (7, 3), (16, 1)]);
    assert!(seen.with_weak > 500, "{}", seen.with_weak);
    assert!(seen.left_out > 2, "{}", seen.left_out);
    assert!(seen.by_certificate > 50, "{}", seen.by_certificate);
    assert!(seen.by_bundle > 50, "{}", seen.by_bundle);
    let members = 6 * 4 + 3 * 7 + 16;
    assert!(seen.committed > 25 * members, "{}", seen.committed);
    assert!(seen.skipped > 5 * members, "{}", seen.skipped);
}

/// In every round but the last, one member alone gets the timeouts of the others.
#[test]
fn groups_with_lost_timeouts_go_on() {
    let options = Options {
        lost_timeouts: 100,
        ..Options::typical()
    };
    let seen = run_groups(&options, &[(4, 3), (7, 2)]);
    assert!(seen.by_certificate > 150, "{}", seen.by_certificate);
    let members = 3 * 4 + 2 * 7;
    assert!(seen.committed > 25 * members, "{}", seen.committed);
}

#[test]
fn timeouts_come_as_notes_as_bundles_and_both_ways() {
    let options = Options {
        noise: 0,
        early_stop: 0,
        ..Options::typical()
    };
    let mut ways = BTreeSet::new();
    for seed in 0..2 {
        for (own, calls) in (0..).zip(simulate_proposing(seed, 7, &options).replicas) {
            let is_note = |call: &Call| matches!(call, Call::Timeout(_, by) if *by != own);
            let is_bundle = |call: &Call| matches!(call, Call::Timeouts(..));
            ways.insert((calls.iter().any(is_note), calls.iter().any(is_bundle)));
        }
    }
    assert_eq!(
        ways,
        BTreeSet::from([(true, false), (false, true), (true, true)])
    );
}

#[test]
fn groups_without_bundles_and_buffers_have_none() {
    let options = Options {
        bundles: 0,
        buffers: 0,
        ..Options::rough()
    };
    let runs = [simulate(1, 4, &options), simulate_proposing(1, 4, &options)];
    let mut calls = runs.iter().flat_map(|run| run.replicas.iter().flatten());
    assert!(!calls.any(|call| matches!(call, Call::Timeouts(..) | Call::VertexWith(..))));
}

/// Members that hand vertices over in order, and members that hand all over with a buffer.
#[test]
fn vertices_come_in_order_and_with_buffers() {
    let options = Options {
        noise: 0,
        early_stop: 0,
        ..Options::rough()
    };
    let mut ways = BTreeSet::new();
    for calls in simulate_proposing(3, 10, &options).replicas {
        let plain = calls.iter().any(|call| matches!(call, Call::Vertex(_)));
        let buffered = calls
            .iter()
            .any(|call| matches!(call, Call::VertexWith(..)));
        ways.insert((plain, buffered));
    }
    assert_eq!(ways, BTreeSet::from([(true, false), (false, true)]));
}

#[test]
fn a_seed_gives_the_same_calls() {
    let calls = |seed| simulate_proposing(seed, 4, &Options::typical()).replicas;
    assert_eq!(calls(3), calls(3));
    assert_ne!(calls(3), calls(4));
    assert_ne!(calls(3)[0], calls(3)[1]);
}

#[test]
fn an_illegal_size_gives_no_replicas() {
    assert!(simulate_proposing(1, 5, &Options::calm())
        .replicas
        .is_empty());
}
