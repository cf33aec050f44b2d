//! Simulated groups: after every call the state is well formed and its lists equal the model's, an
//! admitted vertex leaves a current round of its own round or above, an admitted bundle of timeouts
//! ends as single ones, a vertex with a pending buffer as plain vertices, no round with a quorum of
//! voters by either sighting is left to commit, and the lists of two replicas are prefixes of one
//! another.

mod common;

use std::collections::{BTreeMap, BTreeSet};

use common::*;
use reference::group::{has, Group};
use reference::layout::*;
use reference::model::Lists;
use reference::record::Record;
use reference::simulate::sightings::in_state;
use reference::simulate::{simulate, Options, Run};
use reference::*;

const SIZES: [u32; 5] = [4, 7, 10, 13, 16];

/// What was seen over a number of runs.
#[derive(Default)]
struct Seen {
    numbers: BTreeSet<u32>,
    /// Calls that added more than one leader.
    several_leaders: usize,
    /// Committed rounds, and rounds among them whose leader is not in the list.
    committed: u32,
    skipped: u32,
    /// Admitted vertices with weak ids.
    weak: usize,
    /// Rounds ended by the certificate of a vertex, which the notes alone had not ended.
    by_certificate: usize,
    /// Rounds ended by a bundle, and admitted bundles with members noted before.
    by_bundle: usize,
    overlapping: usize,
    /// The numbers of bundles, and of vertices with a buffer.
    bundles: BTreeSet<u32>,
    buffers: BTreeSet<u32>,
    /// Calls with a buffer, records that they released, and calls that released several and committed.
    buffered: usize,
    released: usize,
    several_released: usize,
    /// Calls that committed a round for which neither first messages nor vertices alone are a quorum,
    /// and those for which there is none without members that are seen both ways and vote only once.
    by_both: usize,
    by_split: usize,
    /// States with every cell of the group held.
    full: usize,
}

/// Makes the calls of one replica, checking after each; returns its last state.
fn follow(calls: &[Call], against_model: bool, seen: &mut Seen) -> State {
    let mut state = vec![0; STATE_WORDS];
    let mut model = Model::default();
    let mut expected = Lists::default();
    for call in calls {
        let before = state.clone();
        let answer = match call {
            Call::VertexWith(buffer, words) => with_buffer(&mut state, buffer, words, seen),
            call => call.apply(&mut state),
        };
        seen.numbers.insert(answer.number);
        if matches!(call, Call::Timeouts(..)) {
            seen.bundles.insert(answer.number);
        }
        model.feed(call, answer.number);
        if answer.number == 0 {
            check_growth(call, &before, &state, answer);
            seen.several_leaders += usize::from(answer.leaders > 1);
            check_admitted(call, &before, &state, seen);
            check_voters(call, &before, &state, seen);
            expected = model.lists();
        } else {
            assert_eq!(state, before, "{call:?}");
        }
        assert!(is_well_formed(&state), "{call:?}");
        if against_model {
            assert_eq!(leaders_of(&state), expected.leaders, "{call:?}");
            assert_eq!(journal_of(&state), expected.journal, "{call:?}");
        }
    }
    note_end(&state, seen);
    state
}

/// A vertex with a buffer; one in four is checked against plain vertices.
fn with_buffer(state: &mut State, buffer: &[u32], words: &[u32], seen: &mut Seen) -> Answer {
    let before = held_records(state).len();
    let mut buffer = buffer.to_vec();
    seen.buffered += 1;
    let answer = if seen.buffered.is_multiple_of(4) {
        checked_with(state, &mut buffer, words).0
    } else {
        take_vertex_with(state, &mut buffer, words)
    };
    let admitted = held_records(state).len() - before;
    assert_eq!(admitted > 0, answer.number == 0);
    seen.buffers.insert(answer.number);
    seen.released += admitted.saturating_sub(1);
    seen.several_released += usize::from(admitted > 2 && answer.leaders > 0);
    answer
}

/// The lists as they stand in a state that is known to be well formed.
fn leaders_of(state: &State) -> &[u32] {
    &state[LEADER_LIST][..state[LEADER_COUNT] as usize]
}

fn journal_of(state: &State) -> &[u32] {
    &state[JOURNAL][..state[JOURNAL_COUNT] as usize]
}

/// The lists of an admitted call keep their entries and grow by what it answers.
fn check_growth(call: &Call, before: &State, after: &State, answer: Answer) {
    if matches!(call, Call::Open(..)) {
        return;
    }
    assert!(
        leaders_of(after).starts_with(leaders_of(before)),
        "{call:?}"
    );
    assert!(
        journal_of(after).starts_with(journal_of(before)),
        "{call:?}"
    );
    let [leaders, journal] = [LEADER_COUNT, JOURNAL_COUNT].map(|at| after[at] - before[at]);
    assert_eq!(leaders, answer.leaders, "{call:?}");
    assert_eq!(journal, answer.journal, "{call:?}");
}

/// The current round after one, by the round rule over the words.
fn round_after(current: u32, state: &State) -> u32 {
    let group = Group::new(state[N]).expect("the size is legal");
    let is_ended = |&round: &u32| {
        let [held, timeouts] = [HELD, TIMEOUTS].map(|which| state[mask_place(round, which)]);
        group.is_quorum(held) && (has(held, group.leader(round)) || group.is_quorum(timeouts))
    };
    let highest = (1..=LAST_ROUND).rev().find(is_ended);
    highest.map_or(current, |round| current.max(round + 1))
}

fn check_admitted(call: &Call, before: &State, after: &State, seen: &mut Seen) {
    match call {
        Call::Vertex(words) => {
            let record = Record::from_words(words).expect("it has its size");
            check_vertex(&record, before, after, seen);
        }
        Call::Timeouts(round, mask) => check_bundle((*round, *mask), before, after, seen),
        _ => {}
    }
}

/// After a vertex or a first message the committed round has a quorum of voters if it was raised, and
/// no round above it has.
fn check_voters(call: &Call, before: &State, after: &State, seen: &mut Seen) {
    if call.record().is_none() {
        return;
    }
    let group = Group::new(after[N]).expect("the size is legal");
    let is_ready = |round: u32| {
        let [heard, held] = in_state(after, round);
        holds(after, group.leader_id(round)) && group.is_quorum(heard | held)
    };
    let last = after[COMMITTED_ROUND];
    assert_eq!(
        (last + 1..LAST_ROUND).find(|&q| is_ready(q)),
        None,
        "{call:?}"
    );
    if last == before[COMMITTED_ROUND] {
        return;
    }
    assert!(is_ready(last), "{call:?}");
    let [heard, held] = in_state(after, last);
    let twice = after[mask_place(last + 1, HEARD)] & after[mask_place(last + 1, HELD)];
    let split = twice & (heard ^ held);
    seen.by_both += usize::from(!group.is_quorum(heard) && !group.is_quorum(held));
    seen.by_split += usize::from(!group.is_quorum((heard | held) & !split));
}

/// An admitted bundle leaves the words that single timeouts of its new members leave.
fn check_bundle((round, mask): (u32, u32), before: &State, after: &State, seen: &mut Seen) {
    let old = before[timeouts(round)];
    assert_eq!(after, &noted(before.clone(), round, mask & !old));
    seen.overlapping += usize::from(mask & old != 0);
    seen.by_bundle += usize::from(before[CURRENT_ROUND] < after[CURRENT_ROUND]);
}

/// An admitted vertex adds its certificate to the round before and then raises the current round,
/// to its own round at least. A vertex that raises it to just that does so by its certificate.
fn check_vertex(record: &Record, before: &State, after: &State, seen: &mut Seen) {
    let round = record.round;
    let mut notes_alone = after.clone();
    if round > 1 {
        let at = mask_place(round - 1, TIMEOUTS);
        assert_eq!(after[at], before[at] | record.timeouts, "{record:?}");
        notes_alone[at] = before[at];
    }
    let [old, new] = [before, after].map(|state| state[CURRENT_ROUND]);
    assert_eq!(new, round_after(old, after), "{record:?}");
    assert!(new >= round, "{record:?}");
    let by_certificate = round_after(old, &notes_alone) < new;
    assert_eq!(by_certificate, old < new && new == round, "{record:?}");
    seen.by_certificate += usize::from(by_certificate);
    seen.weak += usize::from(record.weak_count > 0);
}

fn note_end(state: &State, seen: &mut Seen) {
    let now = status(state);
    seen.committed += now.committed_round;
    seen.skipped += now.committed_round - now.leader_count;
    let held = held_records(state).len() as u32;
    seen.full += usize::from(held == LAST_ROUND * state[N]);
}

/// Checks that the calls of a run keep the premises of the claim.
fn check_premises(run: &Run) {
    let group = Group::new(run.n).expect("the size is legal");
    assert!(run.faulty.count_ones() <= group.f());
    let (mut vertices, mut firsts) = (BTreeMap::new(), BTreeMap::new());
    for calls in &run.replicas {
        let mut state = vec![0; STATE_WORDS];
        for call in calls {
            let admitted = call.apply(&mut state).number == 0;
            if let (Call::First(words), true) = (call, admitted) {
                one_record(&mut firsts, words, !has(run.faulty, words[RECORD_SOURCE]));
            }
        }
        for record in held_records(&state).values() {
            one_record(&mut vertices, &record.words(), true);
        }
    }
    let honest = |record: &&Record| !has(run.faulty, record.source);
    let messages: Vec<&Record> = vertices
        .values()
        .chain(firsts.values())
        .filter(honest)
        .collect();
    for record in &messages {
        assert!(vertices
            .get(&record.id())
            .is_none_or(|vertex| vertex == *record));
        assert!(firsts
            .get(&record.id())
            .is_none_or(|message| message == *record));
    }
    for vertex in vertices.values().filter(|vertex| vertex.no_votes != 0) {
        let votes_against = |record: &&&Record| {
            record.round == vertex.round
                && record.votes(group)
                && has(vertex.no_votes, record.source)
        };
        assert_eq!(messages.iter().find(votes_against), None);
    }
}

fn one_record(records: &mut BTreeMap<u32, Record>, words: &[u32], single: bool) {
    let record = Record::from_words(words).expect("an admitted record has its size");
    let known = records.insert(record.id(), record);
    assert!(!single || known.is_none_or(|known| known == record));
}

fn prefixes(a: &[u32], b: &[u32]) -> bool {
    a.starts_with(b) || b.starts_with(a)
}

/// Runs groups of every size with the premises kept.
fn run_groups(options: &Options, seeds: std::ops::Range<u64>) -> Seen {
    let mut seen = Seen::default();
    for n in SIZES {
        for seed in seeds.clone() {
            let run = simulate(seed, n, options);
            check_premises(&run);
            let ends: Vec<State> = run
                .replicas
                .iter()
                .map(|calls| follow(calls, true, &mut seen))
                .collect();
            let (a, b) = (lists(&ends[0]), lists(&ends[1]));
            assert!(
                prefixes(&a.0, &b.0) && prefixes(&a.1, &b.1),
                "n {n}, seed {seed}"
            );
        }
    }
    seen
}

#[test]
fn calm_groups_fill_their_states() {
    let seen = run_groups(&Options::calm(), 0..2);
    assert_eq!(seen.full, 2 * SIZES.len() * 2);
    assert!(
        seen.committed >= 30 * 2 * SIZES.len() as u32 * 2,
        "{}",
        seen.committed
    );
}

#[test]
fn typical_groups_commit_and_agree() {
    let seen = run_groups(&Options::typical(), 0..4);
    let replicas = 4 * SIZES.len() as u32 * 2;
    assert!(seen.committed >= 20 * replicas, "{}", seen.committed);
    assert!(seen.several_leaders > 20, "{}", seen.several_leaders);
    assert!(seen.skipped > 20, "{}", seen.skipped);
    assert!(seen.weak > 100, "{}", seen.weak);
    assert!(seen.by_certificate > 50, "{}", seen.by_certificate);
    assert!(seen.by_both > 100, "{}", seen.by_both);
    check_bundles(&seen);
    check_buffers(&seen);
    let later = [16, 17, 19, 20];
    let expected: BTreeSet<u32> = [0, 2].into_iter().chain(4..=14).chain(later).collect();
    assert_eq!(seen.numbers, expected);
}

#[test]
fn rough_groups_agree() {
    let seen = run_groups(&Options::rough(), 0..4);
    assert!(seen.committed > 200, "{}", seen.committed);
    assert!(seen.skipped > 50, "{}", seen.skipped);
    assert!(seen.by_certificate > 50, "{}", seen.by_certificate);
    check_bundles(&seen);
    check_buffers(&seen);
}

/// Buffers released records, and all numbers were seen that have to do with them.
fn check_buffers(seen: &Seen) {
    assert!(seen.released > 400, "{}", seen.released);
    assert!(seen.several_released > 5, "{}", seen.several_released);
    let needed = BTreeSet::from([0, 4, 12, 13, 14, 19, 20]);
    assert!(seen.buffers.is_superset(&needed), "{:?}", seen.buffers);
}

/// Bundles had members noted before, and every number that a well formed state leaves them.
fn check_bundles(seen: &Seen) {
    assert!(seen.overlapping > 50, "{}", seen.overlapping);
    assert_eq!(seen.bundles, BTreeSet::from([0, 5, 7, 12]));
}

/// Many first messages are lost and faulty members vote by one record of two.
#[test]
fn groups_commit_by_either_sighting() {
    let seen = run_groups(&Options::split(), 0..3);
    assert!(seen.by_both > 200, "{}", seen.by_both);
    assert!(seen.by_split > 50, "{}", seen.by_split);
    assert!(seen.committed > 500, "{}", seen.committed);
}

/// With short delays bundles come before the vertices that carry the same certificate.
#[test]
fn groups_with_bundles_go_on_by_them() {
    let options = Options {
        lost_timeouts: 0,
        bundles: 100,
        split_votes: 0,
        spread: 40,
        ..Options::typical()
    };
    let seen = run_groups(&options, 0..2);
    assert!(seen.by_bundle > 20, "{}", seen.by_bundle);
    assert!(seen.committed > 400, "{}", seen.committed);
    check_bundles(&seen);
}

#[test]
fn groups_without_timeouts_go_on_by_certificates() {
    let options = Options {
        lost_timeouts: 100,
        ..Options::typical()
    };
    let seen = run_groups(&options, 0..2);
    assert!(seen.by_certificate > 30, "{}", seen.by_certificate);
    let run = simulate(0, 4, &options);
    for calls in run.replicas {
        let mut state = vec![0; STATE_WORDS];
        for call in calls {
            let admitted = call.apply(&mut state).number == 0;
            let is_timeout = match call {
                Call::Timeout(..) => true,
                Call::Timeouts(_, mask) => mask & !run.faulty != 0,
                _ => false,
            };
            assert!(!(is_timeout && admitted), "{call:?}");
        }
    }
}

#[test]
fn wild_groups_keep_states_well_formed() {
    let mut seen = Seen::default();
    for n in SIZES {
        for seed in 0..4 {
            for calls in simulate(seed, n, &Options::wild()).replicas {
                follow(&calls, false, &mut seen);
            }
        }
    }
    assert!(seen.committed > 100, "{}", seen.committed);
    assert!(seen.several_leaders > 10, "{}", seen.several_leaders);
    assert!(seen.by_certificate > 50, "{}", seen.by_certificate);
}

#[test]
fn a_seed_gives_the_same_calls() {
    let calls = |seed| simulate(seed, 7, &Options::typical()).replicas;
    assert_eq!(calls(3), calls(3));
    assert_ne!(calls(3), calls(4));
    assert_ne!(calls(3)[0], calls(3)[1]);
}
