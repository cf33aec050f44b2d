//! Timeouts in bundles (02, request A3), as calls on states opened for a watcher.

use super::row::{after_lacking, lacking, notes, Row};
use super::worked::{state_s, vertex};
use crate::call::Call;
use crate::group::{bit, Group};
use crate::layout::*;
use crate::simulate::{simulate_proposing, simulate_replicas, Options};

/// All rows.
pub fn rows() -> Vec<Row> {
    let mut rows = worked();
    rows.push(beside_notes());
    rows.push(after_certificate());
    rows.extend(LEGAL_SIZES.map(limits));
    rows.extend(LEGAL_SIZES.map(quorums));
    rows.push(not_well_formed());
    rows.extend(lagging());
    rows.push(unlooked());
    rows
}

/// Replicas that get bundles, in either kind of simulated groups: the calls of each from its opening
/// on.
pub fn replicas() -> Vec<Vec<Call>> {
    let options = Options {
        rounds: 6,
        early_stop: 0,
        bundles: 100,
        buffers: 0,
        split_votes: 0,
        ..Options::typical()
    };
    let [drawn, mut proposing] = [
        simulate_replicas(7, 7, &options, 1),
        simulate_proposing(7, 4, &options),
    ];
    let member = proposing.replicas.swap_remove(1);
    drawn.replicas.into_iter().chain([member]).collect()
}

/// Bundles of these rounds and masks.
fn bundles<const COUNT: usize>(list: [(u32, u32); COUNT]) -> impl Iterator<Item = Call> {
    list.into_iter()
        .map(|(round, mask)| Call::Timeouts(round, mask))
}

/// Round 1 ended by one bundle, by two, and not by one for round 2.
fn worked() -> Vec<Row> {
    vec![
        after_lacking(bundles([(1, 7)])),
        after_lacking(bundles([(1, 3)])).then(&[], bundles([(1, 6)])),
        after_lacking(bundles([(2, 15), (1, 3)])).then(&[], bundles([(1, 8)])),
    ]
}

/// Single notes before and after bundles, of members in them and of others.
fn beside_notes() -> Row {
    let first = [Call::Timeouts(1, 1), Call::Timeout(1, 0)];
    let next = [Call::Timeout(1, 3), Call::Timeouts(1, 9)];
    after_lacking(first).then(
        &[],
        next.into_iter()
            .chain(bundles([(1, 11), (1, 15)]))
            .chain(notes(4, 1)),
    )
}

/// The members of a carried certificate in bundles, alone and with another.
fn after_certificate() -> Row {
    after_lacking([vertex(2, 0, [14, 7, 0])]).then(&[], bundles([(1, 7), (1, 5), (1, 13)]))
}

/// Masks at their limits and beyond in the first and last round, and then rounds out of range: some
/// of the bundles would be refused by several questions.
fn limits(n: u32) -> Row {
    let all = bit(n) - 1;
    let last = bit(n - 1);
    let in_round = |round| {
        let masks = [
            0,
            last,
            last,
            bit(n),
            last | bit(n),
            all,
            all,
            all | bit(31),
        ];
        masks.map(|mask| Call::Timeouts(round, mask))
    };
    let beyond = |round| [0, 1, u32::MAX].map(|mask| Call::Timeouts(round, mask));
    let bad_rounds = [0, LAST_ROUND + 1, u32::MAX];
    Row::of(n, [1, LAST_ROUND].into_iter().flat_map(in_round))
        .then(&[], bad_rounds.into_iter().flat_map(beyond))
}

/// Round 1 without its leader's vertex, and bundles of one member less than a quorum, and then of
/// just a quorum.
fn quorums(n: u32) -> Row {
    let quorum = Group::new(n).map_or(n, Group::quorum);
    let few = bit(quorum - 1) - 1;
    Row::of(n, (1..n).map(|source| vertex(1, source, [0; 3]))).then(
        &[],
        bundles([(1, few), (1, few), (1, bit(n - 1)), (1, few | bit(n - 1))]),
    )
}

/// A timeout of a member that the group has not: 3, whatever else would refuse the bundle.
fn not_well_formed() -> Row {
    after_lacking(bundles([(1, 3)])).then(
        &[(mask_place(2, TIMEOUTS), bit(4))],
        bundles([
            (1, 7),
            (1, 3),
            (1, 0),
            (1, bit(4)),
            (0, 7),
            (LAST_ROUND + 1, bit(4)),
            (u32::MAX, u32::MAX),
        ]),
    )
}

/// A current round behind what is held and noted: only an admitted bundle raises it, of whatever
/// round. With the leader's vertex held, and by timeouts.
fn lagging() -> Vec<Row> {
    let refused = [(9, 3), (9, 0), (1, 0), (9, bit(4) | 3), (LAST_ROUND + 1, 4)];
    let next = || bundles(refused).chain(bundles([(9, 7)]));
    let earlier = [(CURRENT_ROUND, 1)];
    let noted = [earlier[0], (mask_place(1, TIMEOUTS), 7)];
    let before = [Call::Timeouts(9, 3)];
    vec![
        Row::of_four(state_s().into_iter().chain(before.clone())).then(&earlier, next()),
        Row::of_four(lacking().into_iter().chain(before)).then(&noted, next()),
    ]
}

/// A committable round that no call has looked at: bundles do not commit it, a vertex does.
fn unlooked() -> Row {
    let votes = [HEARD, VOTES].map(|which| (mask_place(2, which), 7));
    let vertex = [vertex(1, 3, [0; 3])];
    Row::of_four(state_s()).then(&votes, bundles([(1, 7), (2, 15)]).chain(vertex))
}
