//! Either sighting of a vote (02, request A6), as calls on states opened for a watcher.

use super::row::Row;
use super::worked::{first, state_s, vertex};
use crate::call::Call;
use crate::group::Group;
use crate::layout::*;
use crate::pending::laid_out;
use crate::record::Record;
use crate::simulate::sightings::Sighting::{NoVote, Nothing, Vote};
use crate::simulate::sightings::{calls, first_round, Pair, PAIRS};
use crate::simulate::{simulate_replicas, Options};

/// All rows.
pub fn rows() -> Vec<Row> {
    let groups = LEGAL_SIZES.into_iter().filter_map(Group::new);
    let mut rows: Vec<Row> = two_members().collect();
    rows.extend(groups.flat_map(of_group));
    rows.extend([last_round(), released(), unlooked()]);
    rows
}

/// Replicas of groups whose faulty members send first messages that vote where their vertices do not,
/// and many messages are lost: the calls of each from its opening on.
pub fn replicas() -> Vec<Vec<Call>> {
    let options = |rounds: u32| Options {
        rounds,
        early_stop: 0,
        lost_vertices: 20,
        ..Options::split()
    };
    let drawn = [
        simulate_replicas(10, 4, &options(24), 1),
        simulate_replicas(10, 10, &options(6), 1),
    ];
    drawn.into_iter().flat_map(|run| run.replicas).collect()
}

/// Sightings of the members from 0 on: each one's first message before its vertex, or all of them the
/// other way round.
fn row(group: Group, pairs: &[Pair], backwards: bool) -> Row {
    let seen = pairs.iter().zip(0..);
    let mut next: Vec<Call> = seen
        .flat_map(|(&pair, source)| calls(group, source, pair))
        .collect();
    if backwards {
        next.reverse();
    }
    Row::of(group.n(), first_round(group)).then(&[], next)
}

/// Four members: every way to see members 0 and 1, a vertex of member 2, and then one of member 3.
fn two_members() -> impl Iterator<Item = Row> {
    let all = PAIRS.into_iter().flat_map(|a| PAIRS.map(|b| [a, b]));
    all.zip((0..).map(|at| at % 2 == 1))
        .filter_map(|([a, b], backwards)| {
            let pairs = [a, b, [Nothing, Vote], [Nothing, Vote]];
            Group::new(4).map(|group| row(group, &pairs, backwards))
        })
}

/// A quorum of voters, by first messages up to one of them and by vertices from there on; a member
/// fewer than a quorum, each seen both ways, and then one more; members that vote only once of twice.
fn of_group(group: Group) -> Vec<Row> {
    let quorum = group.quorum() as usize;
    let mut rows = Vec::new();
    for heard in [0, 1, quorum / 2, quorum - 1, quorum] {
        let mut pairs = vec![[Vote, Nothing]; heard];
        pairs.resize(quorum, [Nothing, Vote]);
        rows.extend([false, true].map(|backwards| row(group, &pairs, backwards)));
    }
    for last in [
        [Vote, Nothing],
        [Nothing, Vote],
        [Vote, NoVote],
        [NoVote, Vote],
    ] {
        let mut twice = vec![[Vote, Vote]; quorum - 1];
        twice.push(last);
        rows.push(row(group, &twice, false));
    }
    for once in [[Vote, NoVote], [NoVote, Vote]] {
        rows.push(row(group, &vec![once; quorum], false));
    }
    rows
}

/// The last round that can be committed, by two first messages of round 32 and the vertex of a third
/// member; nothing commits round 32.
fn last_round() -> Row {
    let all =
        |round: u32| (0..4).map(move |p| vertex(round, p, [if round == 1 { 0 } else { 15 }, 0, 0]));
    let last = [
        first(32, 0, [15, 0, 0]),
        first(32, 1, [15, 0, 0]),
        vertex(32, 2, [15, 0, 0]),
    ];
    Row::of_four((1..32).flat_map(all)).then(&[], last.into_iter().chain(all(32)))
}

/// A vertex that waits in the pending buffer is the third sighting when its parent comes.
fn released() -> Row {
    let waiting = Record {
        round: 2,
        source: 2,
        strong: 15,
        ..Record::default()
    };
    let parent = Record {
        round: 1,
        source: 3,
        ..Record::default()
    };
    let heard = (0..2).map(|source| first(2, source, [7, 0, 0]));
    let buffer = laid_out(&[waiting]);
    let released = Call::VertexWith(buffer, parent.words().to_vec());
    Row::of_four(state_s().into_iter().chain(heard)).then(&[], [released])
}

/// Votes of first messages that no call has looked at, beside vertices: two rounds at once.
fn unlooked() -> Row {
    let held = [
        vertex(1, 3, [0; 3]),
        vertex(2, 0, [7, 0, 0]),
        vertex(2, 1, [7, 0, 0]),
        vertex(2, 3, [14, 7, 0]),
        vertex(3, 0, [11, 0, 0]),
    ];
    let votes = |round, mask| [HEARD, VOTES].map(|which| (mask_place(round, which), mask));
    let words = [votes(2, 9), votes(3, 5)].concat();
    let calls = [first(3, 3, [11, 0, 0]), first(9, 0, [15, 0, 0])];
    Row::of_four(state_s().into_iter().chain(held)).then(&words, calls)
}
