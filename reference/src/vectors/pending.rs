//! Vertices with a pending buffer (02, request A5), as calls on states opened for a watcher.

use super::row::{lacking, Row};
use super::worked::{first, record, state_s, vertex};
use crate::call::Call;
use crate::group::{bit, Group};
use crate::layout::*;
use crate::pending::laid_out;
use crate::record::Record;
use crate::simulate::buffers::{damages, refused_forms};
use crate::simulate::host::Host;
use crate::simulate::{simulate_proposing, simulate_replicas, Options};

/// All rows.
pub fn rows() -> Vec<Row> {
    let mut rows = vec![questions(), before_the_record(), not_well_formed()];
    rows.extend(damaged());
    rows.extend([early(), by_falling_id(), full()]);
    rows.extend(LEGAL_SIZES.map(released_chain));
    rows.extend([left_behind(), partly_released()]);
    rows.extend([0, 7].map(in_the_buffer_too));
    rows.extend([by_weak_ids(), by_certificates(), lagging(), unlooked()]);
    rows
}

/// Replicas that hand vertices over with a buffer as they come, in either kind of simulated groups:
/// the calls of each from its opening on.
pub fn replicas() -> Vec<Vec<Call>> {
    let options = |rounds: u32, options: Options| Options {
        rounds,
        early_stop: 0,
        buffers: 100,
        split_votes: 0,
        ..options
    };
    let drawn = [
        simulate_replicas(8, 4, &options(32, Options::rough()), 2),
        simulate_replicas(9, 7, &options(10, Options::wild()), 1),
        simulate_replicas(9, 16, &options(7, Options::rough()), 1),
    ];
    let mut proposing = simulate_proposing(8, 4, &options(8, Options::rough()));
    let member = proposing.replicas.swap_remove(2);
    let drawn = drawn.into_iter().flat_map(|run| run.replicas);
    drawn.chain([member]).collect()
}

pub fn with(buffer: &[Record], record: Record) -> Call {
    Call::VertexWith(laid_out(buffer), record.words().to_vec())
}

/// A record without certificates and weak ids.
pub fn plain(round: u32, source: u32, strong: u32) -> Record {
    record(round, source, [strong, 0, 0])
}

/// Records handed over one after another with one buffer, empty at first, after other calls.
pub fn handed_over(
    n: u32,
    before: Vec<Call>,
    records: impl IntoIterator<Item = Record>,
) -> Vec<Call> {
    let mut host = Host::open(n, 0);
    before.into_iter().for_each(|call| {
        host.give(call);
    });
    for record in records {
        host.give_buffered(&record.words());
    }
    host.calls.split_off(1)
}

/// Vertices of round 2 on S that need 1/3.
fn waiting() -> [Record; 3] {
    [0, 1, 2].map(|source| plain(2, source, 15).with_tag(20 + source))
}

/// Every number of the record's questions, and of the cell's, with buffers empty and not.
fn questions() -> Row {
    let group = Group::new(4).into_iter();
    let forms = group.flat_map(|group| refused_forms(group, plain(2, 3, 7)));
    let held = [0, 1].map(|tag| plain(1, 0, 0).with_tag(10 + tag));
    let records: Vec<Record> = forms.chain(held).chain([plain(2, 3, 7)]).collect();
    let empty = records.iter().map(|&record| with(&[], record));
    let [a, b, _] = waiting();
    let not_empty = records.iter().map(|&record| with(&[a, b], record));
    Row::of_four(state_s().into_iter().chain(empty).chain(not_empty))
}

/// A damaged buffer, whatever the record is: 19 before 4 to 13, and in place of 0 and 14.
fn before_the_record() -> Row {
    let [a, b, c] = waiting();
    let falling = laid_out(&[b, a]);
    let mut short = falling.clone();
    short.truncate(BUFFER_WORDS - 1);
    let held = plain(1, 0, 0).with_tag(10);
    let records = [plain(0, 0, 0), held, plain(2, 3, 7), c, a];
    let lengths = [0, RECORD_WORDS - 1, RECORD_WORDS + 1].map(|length| vec![0; length]);
    let words = records.iter().map(|record| record.words().to_vec());
    let words: Vec<Vec<u32>> = words.chain(lengths).collect();
    let with =
        |buffer: &Vec<u32>, words: &Vec<u32>| Call::VertexWith(buffer.clone(), words.clone());
    let calls = [falling, short, laid_out(&[a])]
        .map(|buffer| words.iter().map(|words| with(&buffer, words)).collect());
    Row::of_four([vec![state_s()], calls.to_vec()].concat().concat())
}

/// A state that is not well formed: 3, whatever else would refuse the call.
fn not_well_formed() -> Row {
    let [a, b, _] = waiting();
    let calls = [
        with(&[], plain(2, 3, 7)),
        with(&[b, a], plain(2, 3, 7)),
        with(&[a, b], plain(0, 0, 0)),
        Call::VertexWith(Vec::new(), Vec::new()),
    ];
    Row::of_four(state_s()).then(&[(mask_place(2, TIMEOUTS), bit(4))], calls)
}

/// Buffers damaged in every way, most of them with a vertex that releases what can be: empty, with
/// few records, and full.
fn damaged() -> Vec<Row> {
    let few = |n: u32| {
        let strong = bit(n) - 1;
        [(2, 0), (2, 1), (3, n - 1)].map(|(round, source)| plain(round, source, strong))
    };
    let row = |n: u32, records: &[Record]| {
        let buffer = laid_out(records);
        let ways = Group::new(n).map_or(Vec::new(), |group| damages(group, &buffer));
        let all_but_one = (0..n - 1).map(|source| vertex(1, source, [0; 3]));
        let last = plain(1, n - 1, 0);
        let calls = ways
            .into_iter()
            .map(|words| Call::VertexWith(words, last.words().to_vec()));
        Row::of(n, all_but_one.chain(calls))
    };
    let mut rows = vec![row(4, &[]), row(4, &chain(4)[..1]), row(4, &chain(4))];
    rows.extend(LEGAL_SIZES.map(|n| row(n, &few(n))));
    rows
}

/// Early vertices in any order, each twice and with another digest, and refused ones between.
fn early() -> Row {
    let third = plain(3, 1, 7);
    let [a, b, c] = waiting();
    let others = [b.with_tag(1), b.with_other_word(7)];
    let other_third = [third.with_tag(9), third.with_other_word(3)];
    let records = [c, third, a, c, b].into_iter().chain(others);
    let records = records.chain([third]).chain(other_third).chain([a]);
    let held = [plain(1, 1, 0).with_tag(11), plain(1, 1, 0).with_tag(12)];
    let refused = [plain(0, 0, 0), plain(2, 3, 3), record(2, 3, [15, 7, 0])];
    let records = records.chain(held).chain(refused);
    Row::of_four(handed_over(4, state_s(), records))
}

/// The vertices of a group from the last to the first: nothing is admitted until round 1, and then all
/// that waits.
fn by_falling_id() -> Row {
    let rounds = (2..=8).flat_map(|round| (0..4).map(move |source| plain(round, source, 15)));
    let first = (0..4).map(|source| plain(1, source, 0));
    let all: Vec<Record> = first.chain(rounds).collect();
    Row::of_four(handed_over(4, Vec::new(), all.into_iter().rev()))
}

/// The members of a quorum in rounds from 2 on, as many as a buffer has places for: all need the
/// last of them in round 1.
pub fn chain(n: u32) -> Vec<Record> {
    let quorum = Group::new(n).map_or(n, Group::quorum);
    (2..=LAST_ROUND)
        .flat_map(|round| (0..quorum).map(move |source| by_quorum(n, round, source)))
        .take(BUFFER_SLOTS)
        .collect()
}

/// A record whose parents are the first members, a quorum, with the certificates that it needs.
fn by_quorum(n: u32, round: u32, source: u32) -> Record {
    let Some(group) = Group::new(n) else {
        return Record::default();
    };
    let first = bit(group.quorum()) - 1;
    let mut record = plain(round, source, first);
    if record.lacks_previous_leader(group) {
        record.timeouts = first;
        record.no_votes = first * u32::from(group.leader(round) == source);
    }
    record
}

/// Round 1 of all but the last member of that quorum, and that member's vertex.
pub fn before_chain(n: u32) -> (Vec<Call>, Record) {
    let quorum = Group::new(n).map_or(n, Group::quorum);
    let held = (0..quorum - 1).map(|source| vertex(1, source, [0; 3]));
    (held.collect(), plain(1, quorum - 1, 0))
}

/// A full buffer: another early vertex gets 20, one whose id is there 12 or 13, a held one 12 or 13,
/// one with all parents held 0, and after that there is room.
fn full() -> Row {
    let (mut held, last) = before_chain(4);
    held.push(vertex(1, 3, [0; 3]));
    let chain = chain(4);
    let there = chain[BUFFER_SLOTS - 1];
    let another = plain(20, 2, 7);
    let lower = plain(2, 3, 7);
    let others = [there.with_tag(1), there.with_other_word(5)];
    let next = [another, lower, there, others[0], others[1], another];
    let held_ones = [plain(1, 0, 0), plain(1, 0, 0).with_tag(1), plain(33, 0, 0)];
    let free = [record(2, 3, [11, 0, 0]), last, another, lower];
    let records = chain.into_iter().chain(next).chain(held_ones).chain(free);
    Row::of_four(handed_over(4, held, records))
}

/// A full buffer that one vertex empties, with commits on the way, and then that vertex again.
fn released_chain(n: u32) -> Row {
    let (held, last) = before_chain(n);
    let chain = chain(n);
    let rising = chain.iter().copied().chain([last, last]);
    let calls = handed_over(n, held, rising);
    let whole = with(&chain, last);
    Row::of(n, calls).then(&[], [whole])
}

/// Records of the buffer that are held, equal and not, leave with an admission and stay without.
fn left_behind() -> Row {
    let [a, b, c] = waiting();
    let held = [0, 1].map(|source| plain(1, source, 0).with_tag(10 + source));
    let other = held[1].with_tag(99);
    let buffer = [held[0], other, a, b];
    let records = [c, plain(1, 0, 0), plain(1, 3, 0)];
    let calls = records.map(|record| with(&buffer, record));
    Row::of_four(state_s().into_iter().chain(calls))
}

/// What waits for another parent stays, in the place of those that left.
fn partly_released() -> Row {
    let [a, b, c] = waiting();
    let by_three = plain(3, 0, 7);
    let by_four = plain(3, 1, 15);
    let far = plain(9, 3, 14);
    let records = [far, by_four, b, by_three, c, a];
    let releasing = [plain(1, 3, 0), plain(2, 3, 15)];
    let calls = handed_over(4, state_s(), records.into_iter().chain(releasing));
    Row::of_four(calls)
}

/// A vertex with all parents held whose id is in the buffer, with this tag in its digest, and there a
/// vertex that builds on it.
fn in_the_buffer_too(tag: u32) -> Row {
    let parent = plain(1, 3, 0);
    let there = parent.with_tag(tag);
    let child = record(2, 3, [14, 7, 0]);
    let calls = [with(&[there, child], parent), with(&[there], parent)];
    Row::of_four(state_s().into_iter().chain(calls))
}

/// A record that waits for a weak parent alone, and for a strong and a weak one.
fn by_weak_ids() -> Row {
    let held = (0..3).map(|source| vertex(2, source, [7, 0, 0]));
    let before = state_s().into_iter().chain(held).collect();
    let weak = vertex_id(1, 3);
    let alone = plain(3, 0, 7).with_weak(&[weak]);
    let both = plain(3, 1, 15).with_weak(&[weak]);
    let records = [both, alone, plain(1, 3, 0), plain(2, 3, 7)];
    Row::of_four(handed_over(4, before, records))
}

/// Released vertices that carry certificates: each adds its own, raises the round, and the leaders of
/// rounds without votes are skipped.
fn by_certificates() -> Row {
    let second = [0, 2, 3].map(|source| record(2, source, [14, 7, 0]));
    let third = [0, 1, 2, 3].map(|source| record(3, source, [13, 11, u32::from(source == 2) * 7]));
    let fourth = [0, 1, 3].map(|source| plain(4, source, 15));
    let fifth = [0, 1].map(|source| plain(5, source, 11));
    let early = second.into_iter().chain(third).chain(fourth).chain(fifth);
    let early = early.collect::<Vec<_>>().into_iter().rev();
    let before = lacking().split_off(1);
    let calls = handed_over(4, before, early.chain([plain(1, 1, 0)]));
    Row::of_four(calls).then(&[], [first(5, 3, [11, 0, 0])])
}

/// A current round behind what is held: an early vertex does not raise it, an admitted one does.
fn lagging() -> Row {
    let [a, b, _] = waiting();
    let calls = [
        with(&[a], b),
        with(&[a], a),
        with(&[b], a),
        with(&[a, b], plain(2, 3, 7)),
    ];
    Row::of_four(state_s()).then(&[(CURRENT_ROUND, 1)], calls)
}

/// A committable round that no call has looked at: only an admission commits it.
fn unlooked() -> Row {
    let votes = [HEARD, VOTES].map(|which| (mask_place(2, which), 7));
    let [a, b, _] = waiting();
    let calls = [with(&[a], b), with(&[a], a), with(&[a, b], plain(1, 3, 0))];
    Row::of_four(state_s()).then(&votes, calls)
}
