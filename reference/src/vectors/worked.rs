//! The rows of 01's "Worked on four members", as calls on a state opened with 4.

use crate::call::Call;
use crate::record::Record;

/// A vertex without weak ids.
pub fn vertex(round: u32, source: u32, masks: [u32; 3]) -> Call {
    Call::Vertex(record(round, source, masks).words().to_vec())
}

pub fn first(round: u32, source: u32, masks: [u32; 3]) -> Call {
    Call::First(record(round, source, masks).words().to_vec())
}

pub fn with_weak(round: u32, source: u32, masks: [u32; 3], ids: &[u32]) -> Call {
    let record = record(round, source, masks).with_weak(ids);
    Call::Vertex(record.words().to_vec())
}

/// The record of a vertex as a first message.
fn as_first(call: &Call) -> Call {
    match call {
        Call::Vertex(words) => Call::First(words.clone()),
        other => other.clone(),
    }
}

/// A record without weak ids, with the digest 0.
pub fn record(round: u32, source: u32, [strong, timeouts, no_votes]: [u32; 3]) -> Record {
    Record {
        round,
        source,
        strong,
        timeouts,
        no_votes,
        ..Record::default()
    }
}

/// A vertex of round 1.
fn tagged(source: u32, tag: u32) -> Call {
    let record = record(1, source, [0; 3]).with_tag(tag);
    Call::Vertex(record.words().to_vec())
}

/// 01's state S: the calls that follow its opening.
pub fn state_s() -> Vec<Call> {
    (0..3).map(|source| tagged(source, 10 + source)).collect()
}

/// S with calls after it.
fn after_s(calls: impl IntoIterator<Item = Call>) -> Vec<Call> {
    state_s().into_iter().chain(calls).collect()
}

/// All rows.
pub fn rows() -> Vec<Vec<Call>> {
    let mut rows = out_of_range();
    rows.extend(single_vertices());
    rows.push(by_timeouts());
    rows.extend(commits());
    rows.extend(weak_ids());
    rows
}

/// Rounds 0 and 33, and the source 4, by every call that has a round.
fn out_of_range() -> Vec<Vec<Call>> {
    let places = [(0, 0), (33, 0), (0, 4), (33, 4), (1, 4)];
    let calls = |(round, source)| {
        [
            vertex(round, source, [0; 3]),
            first(round, source, [0; 3]),
            Call::Timeout(round, source),
            Call::NoVote(round, source),
        ]
    };
    vec![after_s(places.into_iter().flat_map(calls))]
}

/// Single vertices on S, and the same records as first messages, each twice.
fn single_vertices() -> Vec<Vec<Call>> {
    [
        tagged(0, 10),
        tagged(0, 99),
        vertex(2, 0, [7, 0, 0]),
        vertex(2, 0, [3, 0, 0]),
        vertex(2, 0, [23, 0, 0]),
        vertex(2, 0, [15, 0, 0]),
        vertex(2, 0, [14, 0, 0]),
        vertex(2, 0, [7, 7, 0]),
        vertex(2, 1, [14, 7, 0]),
    ]
    .into_iter()
    .map(|call| {
        let heard = as_first(&call);
        after_s([call.clone(), call, heard.clone(), heard])
    })
    .collect()
}

fn by_timeouts() -> Vec<Call> {
    let vertices = (1..4).map(|source| vertex(1, source, [0; 3]));
    vertices
        .chain((0..3).map(|signer| Call::Timeout(1, signer)))
        .collect()
}

fn commits() -> Vec<Vec<Call>> {
    let second = |source| vertex(2, source, [7, 0, 0]);
    let third = |strong| (0..3).map(move |source| first(3, source, [strong, 0, 0]));
    let lower = [tagged(3, 0), second(0), second(1), vertex(2, 3, [14, 7, 0])];
    let skipped = [
        tagged(3, 0),
        vertex(2, 0, [14, 7, 0]),
        vertex(2, 2, [14, 7, 0]),
        vertex(2, 1, [14, 7, 14]),
    ];
    let heard = (0..2).map(|source| first(2, source, [7, 0, 0]));
    vec![
        after_s((0..3).map(second)),
        after_s(heard.chain([second(2)])),
        after_s(lower.into_iter().chain(third(11))),
        after_s(skipped.into_iter().chain(third(7))),
    ]
}

/// Round 3 with weak ids, on S and where all parents are held.
fn weak_ids() -> Vec<Vec<Call>> {
    let held = [
        tagged(3, 0),
        vertex(2, 0, [7, 0, 0]),
        vertex(2, 1, [7, 0, 0]),
        vertex(2, 2, [7, 0, 0]),
    ];
    let third = |ids: &[u32]| {
        let call = with_weak(3, 0, [7, 0, 0], ids);
        [call.clone(), as_first(&call)]
    };
    [&[19][..], &[18, 19], &[20], &[32]]
        .into_iter()
        .flat_map(|ids| {
            [
                after_s(third(ids)),
                after_s(held.iter().cloned().chain(third(ids))),
            ]
        })
        .collect()
}
