//! How one entry stands on one side: held, ordered, and if not, why not yet.

use reference::group::{bit, members};
use reference::layout::{round_of, vertex_id, LAST_COMMITTABLE_ROUND};
use reference::state::ReplicaState;
use yardbook::number;

use crate::pair::{Beside, Pair, Side};
use crate::text::{members_named, vertex_name};

/// Sentences on how a vertex stands on a side. Of a state that is not well formed only what its words
/// say, not why.
pub fn standing(pair: &Pair, side: Side, id: u32) -> Vec<String> {
    let here = pair.get(side);
    let mut sentences = vec![place(pair, side, id)];
    if let (Some(state), true) = (&here.decoded, here.is_sound()) {
        sentences.extend(why_not_yet(pair, side, state, id));
    }
    sentences
}

/// Whether the vertex is held, and where it stands in the lists.
fn place(pair: &Pair, side: Side, id: u32) -> String {
    let here = pair.get(side);
    let held = match (here.holds(id), here.vertices().contains_key(&id)) {
        (false, _) => "not held",
        (true, false) => "held, with a record that fails the questions",
        _ if pair.beside(side, id) == Beside::Differs => "held, and not the same record",
        _ => "held",
    };
    let [ordered, listed] = here.places(id);
    format!("{held}; {ordered}; {listed}.")
}

fn why_not_yet(pair: &Pair, side: Side, state: &ReplicaState, id: u32) -> Vec<String> {
    if !state.holds(id) {
        return vec![why_not_held(pair, side, state, id)];
    }
    let round = round_of(id);
    let is_leader = id == state.group.leader_id(round) && round <= LAST_COMMITTABLE_ROUND;
    let mut sentences = Vec::new();
    if is_leader {
        sentences.push(match state.leader_list.contains(&id) {
            true => how_listed(state, id),
            false if round <= state.committed_round => passed_over(state, id),
            false => voters(state, round),
        });
    }
    if !state.journal.contains(&id) {
        sentences.extend(not_reached(state, id));
    }
    sentences
}

/// The other side's record is handed to a copy of this side's state.
fn why_not_held(pair: &Pair, side: Side, state: &ReplicaState, id: u32) -> String {
    let other = pair.get(side.other());
    let Some(record) = other.vertices().get(&id) else {
        return match other.holds(id) {
            true => "The other sheet's record of it fails the questions.".to_string(),
            false => "Neither sheet holds it.".to_string(),
        };
    };
    let mut copy = pair.get(side).words.clone();
    let answer = yardbook::take_vertex(&mut copy, &record.words());
    match answer.number {
        number::OK => "Nothing that it needs is missing: it has not been taken yet.".to_string(),
        number::MISSING_PARENT => {
            let missing = record.parents().filter(|&id| !state.holds(id)).count();
            let name = vertex_name(answer.id);
            match missing {
                1 => format!("Its parent {name} is missing here."),
                _ => format!("{missing} of its parents are missing here, the lowest is {name}."),
            }
        }
        other => format!("Handed over here it would be answered {other}."),
    }
}

/// The next leader in the list above a leader.
fn next_listed(state: &ReplicaState, id: u32) -> Option<u32> {
    let above = |next: &u32| round_of(*next) > round_of(id);
    state.leader_list.iter().copied().find(above)
}

/// By what a leader came into the list: its voters, or a strong path from the next leader.
fn how_listed(state: &ReplicaState, id: u32) -> String {
    let round = round_of(id);
    match next_listed(state, id).filter(|&next| state.has_strong_path(next, id)) {
        Some(next) if !state.group.is_quorum(state.voters(round)) => format!(
            "A strong path leads to it from the next leader, {}.",
            vertex_name(next)
        ),
        _ => voters(state, round),
    }
}

/// A leader of a round up to the committed one that is not in the list.
fn passed_over(state: &ReplicaState, id: u32) -> String {
    let Some(next) = next_listed(state, id) else {
        return "It was passed over.".to_string();
    };
    let from = vertex_name(next);
    match state.has_strong_path(next, id) {
        true => format!("It was left out, though a strong path leads to it from {from}."),
        false => {
            format!("It was passed over: no strong path leads to it from the next leader, {from}.")
        }
    }
}

/// How many voters a held leader has, of how many, and who they are by what was seen of them.
pub fn voters(state: &ReplicaState, round: u32) -> String {
    let voters = state.voters(round);
    let heard = voters & state.votes.get(round + 1);
    let vertices: u32 = members(voters)
        .filter(|&member| {
            let vertex = state.vertices.get(&vertex_id(round + 1, member));
            vertex.is_some_and(|record| record.votes(state.group))
        })
        .map(bit)
        .sum();
    let named: Vec<String> = [
        (vertices & !heard, "vertex"),
        (vertices & heard, "vertex and first message"),
        (heard & !vertices, "first message"),
    ]
    .into_iter()
    .filter(|(mask, _)| *mask != 0)
    .map(|(mask, seen)| format!("{} ({seen})", members_named(members(mask))))
    .collect();
    let (count, needed) = (voters.count_ones(), state.group.quorum());
    let sentence = match count < needed {
        true => {
            format!("No quorum of voters: round {round} has {count} of the {needed} that it needs")
        }
        false => format!("Enough voters: round {round} has {count} and needs {needed}"),
    };
    match named.is_empty() {
        true => format!("{sentence}."),
        false => format!("{sentence}: {}.", named.join(", ")),
    }
}

/// Why a held vertex is in no ordered history: the lowest leader above the committed round that
/// reaches it waits for voters, or there is none.
fn not_reached(state: &ReplicaState, id: u32) -> Vec<String> {
    let committed = state.committed_round;
    let reaching = (committed + 1..=LAST_COMMITTABLE_ROUND)
        .map(|round| (round, state.group.leader_id(round)))
        .find(|&(_, leader)| state.holds(leader) && state.history([leader]).contains(&id));
    match reaching {
        Some((_, leader)) if leader == id => Vec::new(),
        Some((round, leader)) => vec![
            format!(
                "The next leader whose history has it is {}.",
                vertex_name(leader)
            ),
            voters(state, round),
        ],
        None => vec![no_leader(state, id)],
    }
}

/// No leader held above the committed round reaches a vertex: which one above the vertex is not held.
fn no_leader(state: &ReplicaState, id: u32) -> String {
    let from = state.committed_round.max(round_of(id));
    if from >= LAST_COMMITTABLE_ROUND {
        return format!("It stays so: no leader above round {from} can be committed.");
    }
    let lacking = (from + 1..=LAST_COMMITTABLE_ROUND)
        .map(|round| state.group.leader_id(round))
        .find(|&leader| !state.holds(leader));
    let sentence = format!("No leader held above round {from} has it in its history");
    match lacking {
        Some(leader) => format!(
            "{sentence}; the next one not held is {}.",
            vertex_name(leader)
        ),
        None => format!("{sentence}."),
    }
}
