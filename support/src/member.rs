//! One member's state: its words, whether they are well formed (01: sound), and what they say.

use std::collections::BTreeMap;
use std::ops::Range;

use reference::group::{has, members, Group};
use reference::layout::*;
use reference::record::{first_refusal, is_round, Record};
use reference::state::ReplicaState;
use reference::{first_broken, Broken};

use crate::origin::Origin;

/// A member's state of any words, as many as a state has.
#[derive(Clone, Debug)]
pub struct MemberState {
    pub words: Vec<u32>,
    pub origin: Origin,
    pub soundness: Soundness,
    /// What the words say. Of a state that is not well formed, as far as they can be read; nothing if
    /// its member count is not legal.
    pub decoded: Option<ReplicaState>,
    /// The lists: those that the library hands over, or as they stand in the words.
    pub leaders: Vec<u32>,
    pub journal: Vec<u32>,
}

/// What the library says of the words, and the first clause that does not hold, if the second
/// implementation names it.
#[derive(Clone, Copy, Debug, PartialEq, Eq)]
pub enum Soundness {
    Sound,
    Broken(Option<Broken>),
}

impl MemberState {
    /// The words must be as many as a state has.
    pub fn new(words: Vec<u32>, origin: Origin) -> MemberState {
        let soundness = match yardbook::status(&words).number {
            yardbook::number::OK => Soundness::Sound,
            _ => Soundness::Broken(first_broken(&words)),
        };
        let (leaders, journal) = match soundness {
            Soundness::Sound => (
                yardbook::hand_leaders(&words, 0).ids.to_vec(),
                yardbook::hand_journal(&words, 0).ids.to_vec(),
            ),
            Soundness::Broken(_) => (
                as_counted(&words, LEADER_LIST, LEADER_COUNT),
                as_counted(&words, JOURNAL, JOURNAL_COUNT),
            ),
        };
        let decoded = decode(&words, &leaders, &journal);
        MemberState {
            words,
            origin,
            soundness,
            decoded,
            leaders,
            journal,
        }
    }

    pub fn is_sound(&self) -> bool {
        self.soundness == Soundness::Sound
    }

    /// Whether the held masks have an id.
    pub fn holds(&self, id: u32) -> bool {
        let (round, member) = (round_of(id), member_of(id));
        is_round(round) && has(self.words[mask_place(round, HELD)], member)
    }

    /// How many ids the held masks have.
    pub fn held_count(&self) -> u32 {
        let held = |round| self.words[mask_place(round, HELD)].count_ones();
        (1..=LAST_ROUND).map(held).sum()
    }

    /// The held vertices, by id. Of a state that is not well formed, those that can be read.
    pub fn vertices(&self) -> &BTreeMap<u32, Record> {
        static NONE: BTreeMap<u32, Record> = BTreeMap::new();
        self.decoded.as_ref().map_or(&NONE, |state| &state.vertices)
    }

    /// Where an id stands in the journal, and in the leader list, counted from 1.
    pub fn journal_entry(&self, id: u32) -> Option<usize> {
        entry_of(&self.journal, id)
    }

    pub fn leader_entry(&self, id: u32) -> Option<usize> {
        entry_of(&self.leaders, id)
    }

    /// The same in words.
    pub fn places(&self, id: u32) -> [String; 2] {
        let place = |entry: Option<usize>, there: &str, not_there: &str| match entry {
            Some(entry) => format!("{there} entry {entry}"),
            None => not_there.to_string(),
        };
        [
            place(self.journal_entry(id), "ordered, journal", "not ordered"),
            place(
                self.leader_entry(id),
                "leader list",
                "not in the leader list",
            ),
        ]
    }
}

fn entry_of(list: &[u32], id: u32) -> Option<usize> {
    list.iter().position(|&entry| entry == id).map(|at| at + 1)
}

/// So many words of a list as its count says and it has room for.
fn as_counted(words: &[u32], list: Range<usize>, count: usize) -> Vec<u32> {
    let counted = words[count] as usize;
    words[list].iter().take(counted).copied().collect()
}

/// What the words say, if the member count is legal. Bits at n or above and held records that do not
/// pass questions 5 to 11 are left out; a well formed state has neither.
fn decode(words: &[u32], leaders: &[u32], journal: &[u32]) -> Option<ReplicaState> {
    let group = Group::new(words[N])?;
    let mut state = ReplicaState::opened(group, words[OWN].checked_sub(1));
    state.current_round = words[CURRENT_ROUND];
    state.committed_round = words[COMMITTED_ROUND];
    for round in 1..=LAST_ROUND {
        let mask = |which| words[mask_place(round, which)] & group.all();
        state.heard.join(round, mask(HEARD));
        state.votes.join(round, mask(VOTES));
        state.timeouts.join(round, mask(TIMEOUTS));
        state.no_votes.join(round, mask(NO_VOTES));
        for (rounds, marks) in [
            (&mut state.made_rounds, MADE_ROUNDS),
            (&mut state.signed_no_votes, SIGNED_NO_VOTES),
        ] {
            if words[marks] & round_bit(round) != 0 {
                rounds.insert(round);
            }
        }
        state.vertices.extend(
            members(mask(HELD))
                .filter_map(|member| {
                    Record::from_cell(round, member, &words[cell_place(round, member)])
                })
                .filter(|record| first_refusal(group, record).is_none())
                .map(|record| (record.id(), record)),
        );
    }
    state.leader_list = leaders.to_vec();
    state.journal = journal.to_vec();
    Some(state)
}
