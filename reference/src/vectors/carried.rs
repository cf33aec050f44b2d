//! Carried timeout certificates (02, request A2), as calls on states opened for a watcher.

use super::row::{after_lacking, lacking, notes, Row};
use super::worked::{first, vertex, with_weak};
use crate::call::Call;
use crate::group::{bit, members, Group};
use crate::layout::*;

/// All rows.
pub fn rows() -> Vec<Row> {
    let mut rows = vec![notes_after_it(), both_certificates(), only_heard()];
    rows.extend([7, 11, 13, 14, 15].map(beside_notes));
    rows.extend(refused());
    rows.push(held_before());
    rows.extend(without_notes());
    rows
}

/// The notes of members that joined by a certificate, and of the one that did not.
fn notes_after_it() -> Row {
    let certificate = vertex(2, 0, [14, 7, 0]);
    after_lacking([certificate]).then(&[], notes(4, 1).chain(notes(4, 1)))
}

/// A leader's vertex with a certificate of either kind, and then notes of either kind.
fn both_certificates() -> Row {
    let calls = [Call::NoVote(1, 0), vertex(2, 1, [14, 11, 14])];
    let no_votes = (0..4).map(|signer| Call::NoVote(1, signer));
    after_lacking(calls).then(&[], notes(4, 1).chain(no_votes))
}

/// A first message adds no certificate, and a vertex that names the leader has none.
fn only_heard() -> Row {
    let heard = [first(2, 0, [14, 7, 0]), Call::Timeout(2, 1)];
    let vertices = [vertex(1, 0, [0; 3]), vertex(2, 0, [15, 0, 0])];
    after_lacking(heard).then(&[], notes(4, 1).chain(vertices))
}

/// A certificate beside notes for its round and the two after it, and then another certificate.
fn beside_notes(certificate: u32) -> Row {
    let noted = [(1, 3), (2, 0), (3, 1)].map(|(round, signer)| Call::Timeout(round, signer));
    let carried = [(0, certificate), (2, 11)];
    after_lacking(noted).then(
        &[],
        carried
            .map(|(source, mask)| vertex(2, source, [14, mask, 0]))
            .into_iter()
            .chain([1, 2, 3].into_iter().flat_map(|round| notes(4, round))),
    )
}

/// Rounds 1 and 2 of four members, both without the leader's vertex.
fn two_lacking() -> Vec<Call> {
    let second = [0, 2, 3].map(|source| vertex(2, source, [14, 7, 0]));
    lacking().into_iter().chain(second).collect()
}

/// Vertices with a certificate that are refused: by a question of the record, since they are not
/// new, and since a strong or weak parent is not held.
fn refused() -> Vec<Row> {
    let by_record = [
        vertex(33, 0, [14, 7, 0]),
        vertex(2, 4, [14, 7, 0]),
        vertex(2, 0, [14, 23, 0]),
        vertex(2, 0, [12, 7, 0]),
        vertex(2, 0, [15, 7, 0]),
        vertex(1, 0, [0, 7, 0]),
        vertex(2, 1, [14, 7, 0]),
        with_weak(2, 0, [14, 7, 0], &[17]),
    ];
    let not_new = [7, 11, 15].map(|mask| vertex(2, 2, [14, mask, 0]));
    let no_parent = [
        vertex(4, 0, [11, 7, 0]),
        with_weak(3, 0, [13, 7, 0], &[16]),
        with_weak(3, 0, [13, 7, 0], &[17]),
    ];
    let cleared = [(mask_place(1, TIMEOUTS), 0)];
    let earlier = [cleared[0], (CURRENT_ROUND, 1)];
    vec![
        after_lacking(by_record).then(&[], notes(4, 1)),
        Row::of_four([vertex(2, 0, [14, 7, 0])]).then(&[], notes(4, 1)),
        Row::of_four(two_lacking()).then(&cleared, not_new.clone()),
        Row::of_four(two_lacking()).then(&earlier, not_new.into_iter().chain(notes(4, 1))),
        Row::of_four(two_lacking()).then(&[], no_parent),
    ]
}

/// Held vertices whose certificates the timeouts lack: they are not added again, that of a new
/// vertex is.
fn held_before() -> Row {
    let cleared = [
        (mask_place(1, TIMEOUTS), 0),
        (mask_place(2, TIMEOUTS), 0),
        (CURRENT_ROUND, 1),
    ];
    Row::of_four(two_lacking()).then(
        &cleared,
        [
            Call::Timeout(1, 3),
            vertex(3, 0, [13, 14, 0]),
            vertex(2, 1, [14, 7, 7]),
            vertex(1, 0, [0; 3]),
        ],
    )
}

/// Groups of every size without a single note until the end: with every leader silent, and with
/// leaders that are silent in two rounds of four.
fn without_notes() -> Vec<Row> {
    let always = |_: u32| true;
    let at_times = |round: u32| round % 4 < 2;
    let row = |(n, rounds): (u32, u32), is_silent: fn(u32) -> bool| {
        let next = notes(n, rounds - 1).chain(notes(n, rounds));
        Row::of(n, rounds_of(n, rounds, is_silent)).then(&[], next)
    };
    let sizes = [(4, 32), (7, 8), (10, 4), (13, 4), (16, 5)];
    let mixed = [(4, 32), (7, 12)];
    sizes
        .map(|size| row(size, always))
        .into_iter()
        .chain(mixed.map(|size| row(size, at_times)))
        .collect()
}

/// Rounds in which every member but a silent leader makes a vertex. Where the previous leader was
/// silent it carries a timeout certificate, and the leader's a no-vote certificate too.
fn rounds_of(n: u32, rounds: u32, is_silent: fn(u32) -> bool) -> Vec<Call> {
    let Some(group) = Group::new(n) else {
        return Vec::new();
    };
    let present = |round: u32| {
        if is_silent(round) {
            group.all() & !bit(group.leader(round))
        } else {
            group.all()
        }
    };
    let signers = |from: u32| (from..from + group.quorum()).map(|at| bit(at % n)).sum();
    let masks = |round: u32, source: u32| match round {
        1 => [0; 3],
        _ if !is_silent(round - 1) => [group.all(), 0, 0],
        _ if group.leader(round) == source => [present(round - 1), signers(round), signers(1)],
        _ => [present(round - 1), signers(round), 0],
    };
    (1..=rounds)
        .flat_map(|round| members(present(round)).map(move |source| (round, source)))
        .map(|(round, source)| vertex(round, source, masks(round, source)))
        .collect()
}
