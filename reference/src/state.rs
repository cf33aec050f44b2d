//! The decoded state: what the words of a well formed state say, as maps and lists.

use std::collections::{BTreeMap, BTreeSet};

use crate::answer::{self, Status};
use crate::group::{bit, has, members, Group};
use crate::layout::*;
use crate::record::Record;
use crate::well_formed::is_well_formed;

/// A replica's state (01: a sheet). The masks held and ordered follow from `vertices` and
/// `journal`, and the counts from the lists, so they are not kept here.
#[derive(Clone, Debug)]
pub struct ReplicaState {
    pub group: Group,
    pub current_round: u32,
    pub committed_round: u32,
    /// Our member; none for a watcher.
    pub own: Option<u32>,
    /// The rounds for which we made a record.
    pub made_rounds: BTreeSet<u32>,
    /// The rounds whose leader we signed a no-vote against.
    pub signed_no_votes: BTreeSet<u32>,
    pub heard: RoundMasks,
    pub votes: RoundMasks,
    pub timeouts: RoundMasks,
    pub no_votes: RoundMasks,
    pub vertices: BTreeMap<u32, Record>,
    pub leader_list: Vec<u32>,
    pub journal: Vec<u32>,
}

/// One mask for each round that has members in it.
#[derive(Clone, Debug, Default)]
pub struct RoundMasks(BTreeMap<u32, u32>);

impl RoundMasks {
    pub fn get(&self, round: u32) -> u32 {
        self.0.get(&round).copied().unwrap_or(0)
    }

    pub fn has(&self, round: u32, member: u32) -> bool {
        has(self.get(round), member)
    }

    pub fn add(&mut self, round: u32, member: u32) {
        *self.0.entry(round).or_insert(0) |= bit(member);
    }

    /// Adds the members of a mask. An empty mask adds nothing, so the round may then be 0.
    pub fn join(&mut self, round: u32, mask: u32) {
        members(mask).for_each(|member| self.add(round, member));
    }

    fn decode(state: &[u32], which: usize) -> RoundMasks {
        RoundMasks(
            (1..=LAST_ROUND)
                .map(|r| (r, state[mask_place(r, which)]))
                .collect(),
        )
    }

    fn of_ids(ids: impl Iterator<Item = u32>) -> RoundMasks {
        let mut masks = RoundMasks::default();
        ids.for_each(|id| masks.add(round_of(id), member_of(id)));
        masks
    }

    fn encode(&self, state: &mut [u32], which: usize) {
        for (&round, &mask) in &self.0 {
            state[mask_place(round, which)] = mask;
        }
    }
}

impl ReplicaState {
    /// The state that opening leaves, for a member or a watcher.
    pub fn opened(group: Group, own: Option<u32>) -> ReplicaState {
        ReplicaState {
            group,
            current_round: 1,
            committed_round: 0,
            own,
            made_rounds: BTreeSet::new(),
            signed_no_votes: BTreeSet::new(),
            heard: RoundMasks::default(),
            votes: RoundMasks::default(),
            timeouts: RoundMasks::default(),
            no_votes: RoundMasks::default(),
            vertices: BTreeMap::new(),
            leader_list: Vec::new(),
            journal: Vec::new(),
        }
    }

    /// Questions 1 and 3, then the state that the words stand for.
    pub fn decode(state: &[u32]) -> Result<ReplicaState, u32> {
        well_formed_words(state)?;
        let group = Group::new(state[N]).ok_or(answer::NOT_WELL_FORMED)?;
        let list = |place: usize, count: usize| {
            state[place..]
                .iter()
                .take(state[count] as usize)
                .copied()
                .collect()
        };
        Ok(ReplicaState {
            current_round: state[CURRENT_ROUND],
            committed_round: state[COMMITTED_ROUND],
            own: state[OWN].checked_sub(1),
            made_rounds: rounds_of(state[MADE_ROUNDS]),
            signed_no_votes: rounds_of(state[SIGNED_NO_VOTES]),
            heard: RoundMasks::decode(state, HEARD),
            votes: RoundMasks::decode(state, VOTES),
            timeouts: RoundMasks::decode(state, TIMEOUTS),
            no_votes: RoundMasks::decode(state, NO_VOTES),
            vertices: decode_vertices(state),
            leader_list: list(LEADER_LIST.start, LEADER_COUNT),
            journal: list(JOURNAL.start, JOURNAL_COUNT),
            group,
        })
    }

    /// All words of the state.
    pub fn encode(&self) -> Vec<u32> {
        let mut state = vec![0; STATE_WORDS];
        state[N] = self.group.n();
        state[CURRENT_ROUND] = self.current_round;
        state[COMMITTED_ROUND] = self.committed_round;
        state[LEADER_COUNT] = self.leader_list.len() as u32;
        state[JOURNAL_COUNT] = self.journal.len() as u32;
        state[OWN] = self.own.map_or(0, |member| member + 1);
        state[MADE_ROUNDS] = mask_of(&self.made_rounds);
        state[SIGNED_NO_VOTES] = mask_of(&self.signed_no_votes);
        self.held().encode(&mut state, HELD);
        self.heard.encode(&mut state, HEARD);
        self.votes.encode(&mut state, VOTES);
        self.timeouts.encode(&mut state, TIMEOUTS);
        self.no_votes.encode(&mut state, NO_VOTES);
        RoundMasks::of_ids(self.journal.iter().copied()).encode(&mut state, ORDERED);
        write_list(&mut state[LEADER_LIST], &self.leader_list);
        write_list(&mut state[JOURNAL], &self.journal);
        for record in self.vertices.values() {
            write_list(
                &mut state[cell_place(record.round, record.source)],
                &record.cell(),
            );
        }
        state
    }

    /// The held vertices as masks.
    pub fn held(&self) -> RoundMasks {
        RoundMasks::of_ids(self.vertices.keys().copied())
    }

    pub fn holds(&self, id: u32) -> bool {
        self.vertices.contains_key(&id)
    }

    /// The ordered vertices: those that the journal names.
    pub fn ordered(&self) -> BTreeSet<u32> {
        self.journal.iter().copied().collect()
    }
}

/// The rounds of a mask by round.
fn rounds_of(mask: u32) -> BTreeSet<u32> {
    (1..=LAST_ROUND)
        .filter(|&round| mask & round_bit(round) != 0)
        .collect()
}

fn mask_of(rounds: &BTreeSet<u32>) -> u32 {
    rounds.iter().map(|&round| round_bit(round)).sum()
}

fn decode_vertices(state: &[u32]) -> BTreeMap<u32, Record> {
    (1..=LAST_ROUND)
        .flat_map(|round| {
            members(state[mask_place(round, HELD)]).map(move |member| (round, member))
        })
        .filter_map(|(round, member)| {
            let cell = &state[cell_place(round, member)];
            Some((
                vertex_id(round, member),
                Record::from_cell(round, member, cell)?,
            ))
        })
        .collect()
}

fn write_list(place: &mut [u32], list: &[u32]) {
    place
        .iter_mut()
        .zip(list)
        .for_each(|(word, &entry)| *word = entry);
}

/// Questions 1 and 3. A state that passes them has its full length.
pub fn well_formed_words(state: &[u32]) -> Result<(), u32> {
    if state.len() != STATE_WORDS {
        return Err(answer::STATE_SIZE);
    }
    if !is_well_formed(state) {
        return Err(answer::NOT_WELL_FORMED);
    }
    Ok(())
}

/// Words 1 to 4 of a state that has passed questions 1 and 3.
pub fn status_words(state: &[u32]) -> Status {
    Status {
        number: answer::ADMITTED,
        current_round: state[CURRENT_ROUND],
        committed_round: state[COMMITTED_ROUND],
        leader_count: state[LEADER_COUNT],
        journal_count: state[JOURNAL_COUNT],
    }
}
