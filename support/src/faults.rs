//! Whether the lists of one well formed state follow from what it holds. Votes, vertices and
//! certificates never go away, so what is looked at here holds after any calls of the library,
//! whoever is faulty. A state of which it does not hold was changed by something else.

use std::collections::BTreeSet;

use reference::layout::round_of;
use reference::record::Record;
use reference::state::ReplicaState;

/// What the rules do not give.
#[derive(Clone, Copy, Debug, PartialEq, Eq)]
pub enum Fault {
    /// The last leader of the list has too few voters.
    TooFewVoters(u32),
    /// A leader of the list that has too few voters, and to which no strong path leads from the next.
    NotReached { id: u32, from: u32 },
    /// A leader that is not in the list, though a strong path leads to it from the next one there.
    LeftOut { id: u32, from: u32 },
    /// A round above the committed one that is committable (01: ready).
    NotCommitted(u32),
    /// The first entry, counted from 0, at which the journal is not the leaders' histories in turn;
    /// what they give there, if anything.
    Journal { at: usize, given: Option<u32> },
    /// The current round, and the one that the rules give.
    CurrentRound { is: u32, given: u32 },
    /// A held vertex that carries timeouts which the round before does not have.
    TimeoutsNotAdded(u32),
    /// A round for which the own member signed a no-vote that is not among the no-votes.
    SignedNotNoted(u32),
}

/// All faults of a well formed state.
pub fn faults(state: &ReplicaState) -> Vec<Fault> {
    let mut faults = leader_faults(state);
    faults.extend(state.lowest_committable_round().map(Fault::NotCommitted));
    faults.extend(journal_fault(state));
    faults.extend(round_fault(state));
    faults.extend(mark_faults(state));
    faults
}

fn leader_faults(state: &ReplicaState) -> Vec<Fault> {
    let leaders = &state.leader_list;
    let has_quorum = |id: u32| state.group.is_quorum(state.voters(round_of(id)));
    let mut faults = Vec::new();
    for (at, &id) in leaders.iter().enumerate() {
        match leaders.get(at + 1) {
            _ if has_quorum(id) => {}
            None => faults.push(Fault::TooFewVoters(id)),
            Some(&from) if state.has_strong_path(from, id) => {}
            Some(&from) => faults.push(Fault::NotReached { id, from }),
        }
        let below = at
            .checked_sub(1)
            .map_or(0, |before| round_of(leaders[before]));
        faults.extend(
            (below + 1..round_of(id))
                .map(|round| state.group.leader_id(round))
                .filter(|&skipped| state.holds(skipped) && state.has_strong_path(id, skipped))
                .map(|skipped| Fault::LeftOut {
                    id: skipped,
                    from: id,
                }),
        );
    }
    faults
}

/// The histories of the leaders in turn, each without what is there already, by rising id.
fn journal_fault(state: &ReplicaState) -> Option<Fault> {
    let mut given = Vec::new();
    let mut there = BTreeSet::new();
    for &leader in &state.leader_list {
        let added = state.history([leader]);
        given.extend(added.difference(&there));
        there.extend(added);
    }
    let at = (0..given.len().max(state.journal.len()))
        .find(|&at| given.get(at) != state.journal.get(at))?;
    let given = given.get(at).copied();
    Some(Fault::Journal { at, given })
}

fn round_fault(state: &ReplicaState) -> Option<Fault> {
    let mut by_the_rule = state.clone();
    by_the_rule.current_round = 1;
    by_the_rule.advance_current_round();
    let (is, given) = (state.current_round, by_the_rule.current_round);
    (is != given).then_some(Fault::CurrentRound { is, given })
}

/// The first carried timeouts that were not added, and the first signed no-vote that is not noted.
fn mark_faults(state: &ReplicaState) -> impl Iterator<Item = Fault> {
    let is_added = |record: &Record| record.timeouts & !state.timeouts.get(record.round - 1) == 0;
    let carried = state.vertices.iter().find(|(_, record)| !is_added(record));
    let is_noted = |round: u32| state.own.is_some_and(|own| state.no_votes.has(round, own));
    let signed = state
        .signed_no_votes
        .iter()
        .find(|&&round| !is_noted(round));
    carried
        .map(|(&id, _)| Fault::TimeoutsNotAdded(id))
        .into_iter()
        .chain(signed.map(|&round| Fault::SignedNotNoted(round)))
}
