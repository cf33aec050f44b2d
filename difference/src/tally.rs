//! How often each number of each call was seen, and what the groups did.

use std::fmt::{self, Display, Formatter};

use crate::op::{record_of, Op, Reply, NAMES};
use crate::pair::Pair;
use reference::answer::CONFLICT;
use reference::group::Group;
use reference::layout::*;
use reference::record::Record;
use reference::simulate::digests::{only_conflict, Taken};
use reference::simulate::sightings::in_state;
use reference::Call;

const NUMBERS: usize = 21;

/// The numbers that each call can answer, in the order of `Op::row` (document 01, "The questions",
/// and document 02, A1, A3 and A5).
const POSSIBLE: [&[u32]; NAMES.len()] = [
    &[0, 1, 2, 6],
    &[0, 1, 3, 4, 5, 6, 7, 8, 9, 10, 11, 12, 13, 14],
    &[0, 1, 3, 4, 5, 6, 7, 8, 9, 10, 11, 12, 13, 14, 19, 20],
    &[0, 1, 3, 4, 5, 6, 7, 8, 9, 10, 11, 12],
    &[0, 1, 3, 5, 6, 12],
    &[0, 1, 3, 5, 7, 12],
    &[0, 1, 3, 5, 6, 12],
    &[0, 1, 3, 5, 9, 10, 12, 16, 18],
    &[0, 1, 3, 12, 16, 17],
    &[0, 1, 3],
    &[0, 1, 3, 15],
    &[0, 1, 3, 15],
    &[0, 1, 3, 15],
    &[0, 1, 3, 15],
];

#[derive(Clone, Debug, Default)]
pub struct Tally {
    /// Calls compared.
    pub calls: u64,
    seen: [[u64; NUMBERS]; NAMES.len()],
    pub groups: u64,
    pub replicas: u64,
    /// Rounds committed by the groups' own calls, and the rounds among them without a leader.
    pub committed: u64,
    pub skipped: u64,
    /// Calls that committed, and those of them that added several leaders.
    pub commits: u64,
    pub several_leaders: u64,
    /// Those for whose last round neither first messages nor vertices alone are a quorum, and those
    /// that have none without members seen both ways that vote only once.
    pub by_both: u64,
    pub by_split: u64,
    /// Admitted vertices with a timeout certificate, with a no-vote certificate, and with weak ids.
    pub timeout_certificates: u64,
    pub no_vote_certificates: u64,
    pub weak: u64,
    /// Rounds that a vertex's certificate ended, and no timeouts before it.
    pub ended_by_certificates: u64,
    /// Rounds that a bundle of timeouts ended.
    pub ended_by_bundles: u64,
    /// Records that calls released from pending buffers anywhere, and calls that released several and
    /// committed.
    pub released: u64,
    pub several_released: u64,
    /// Vertices anywhere that differed from a held record in one word of the digest alone, for each word,
    /// and from a record in the pending buffer.
    pub cell_conflicts: [u64; DIGEST_WORDS],
    pub buffer_conflicts: [u64; DIGEST_WORDS],
    /// Records made anywhere, those of them with a no-vote certificate, and with weak ids.
    pub made: u64,
    pub made_with_no_votes: u64,
    pub made_with_weak: u64,
    /// Copies of a state with words changed, and those of them that were still well formed.
    pub damaged: u64,
    pub still_well_formed: u64,
    /// Final states with every cell of the group held, and those of 16 members.
    pub full: u64,
    pub full_of_16: u64,
    /// Lists compared with the model's, and pairs of replicas with one another.
    pub models: u64,
    pub pairs: u64,
}

impl Tally {
    /// Notes a call that was made on a pair, and its answer.
    pub fn see(&mut self, op: &Op, reply: &Reply, pair: &Pair) {
        let released = pair.released();
        self.calls += 1;
        self.released += u64::from(released);
        self.several_released += u64::from(released > 1 && reply[2] > 0);
        if let Some(count) = self.seen[op.row()].get_mut(reply[0] as usize) {
            *count += 1;
        }
        match (op, reply[0]) {
            (Op::Change(Call::Propose(_)), 0) => self.made_record(record_of(reply)),
            (Op::Change(call), CONFLICT) => self.conflict(call, pair),
            _ => {}
        }
    }

    fn made_record(&mut self, words: &[u32]) {
        let made = Record::from_words(words).unwrap_or_default();
        self.made += 1;
        self.made_with_no_votes += u64::from(made.no_votes != 0);
        self.made_with_weak += u64::from(made.weak_count != 0);
    }

    fn conflict(&mut self, call: &Call, pair: &Pair) {
        let record = call.record().unwrap_or_default();
        match only_conflict(pair.words(), pair.buffer(), record) {
            Some((Taken::InCell, at)) => self.cell_conflicts[at] += 1,
            Some((Taken::InBuffer, at)) => self.buffer_conflicts[at] += 1,
            None => {}
        }
    }

    /// Notes what an admitted call of a group's own brought: how many leaders, and the current round
    /// before and after it.
    pub fn admitted(&mut self, call: &Call, leaders: u32, rounds: [u32; 2]) {
        self.commits += u64::from(leaders > 0);
        self.several_leaders += u64::from(leaders > 1);
        match call {
            Call::Vertex(words) => self.admitted_vertex(words, rounds),
            Call::VertexWith(_, words) => {
                self.admitted_record(words);
            }
            Call::Timeouts(..) => self.ended_by_bundles += u64::from(rounds[0] < rounds[1]),
            _ => {}
        }
    }

    /// Notes by which sightings the last round of a state that just committed has its quorum.
    pub fn committed(&mut self, state: &[u32]) {
        let (Some(group), round) = (Group::new(state[N]), state[COMMITTED_ROUND]) else {
            return;
        };
        let [heard, held] = in_state(state, round);
        let [messages, vertices] = [HEARD, HELD].map(|which| state[mask_place(round + 1, which)]);
        let split = messages & vertices & (heard ^ held);
        self.by_both += u64::from(!group.is_quorum(heard) && !group.is_quorum(held));
        self.by_split += u64::from(!group.is_quorum((heard | held) & !split));
    }

    /// Without its certificate a vertex ends no round but its own.
    fn admitted_vertex(&mut self, words: &[u32], [before, after]: [u32; 2]) {
        let round = self.admitted_record(words);
        self.ended_by_certificates += u64::from(before < after && after == round);
    }

    /// Notes what a vertex carries, and returns its round.
    fn admitted_record(&mut self, words: &[u32]) -> u32 {
        let record = Record::from_words(words).expect("an admitted record has its size");
        self.timeout_certificates += u64::from(record.timeouts != 0);
        self.no_vote_certificates += u64::from(record.no_votes != 0);
        self.weak += u64::from(record.weak_count != 0);
        record.round
    }

    /// Notes a replica's last state: a well formed one.
    pub fn ended(&mut self, state: &[u32]) {
        let held = |round| state[mask_place(round, HELD)].count_ones();
        let full = (1..=LAST_ROUND).all(|round| held(round) == state[N]);
        self.replicas += 1;
        self.full += u64::from(full);
        self.full_of_16 += u64::from(full && state[N] == 16);
        self.committed += u64::from(state[COMMITTED_ROUND]);
        self.skipped += u64::from(state[COMMITTED_ROUND] - state[LEADER_COUNT]);
    }

    /// What a long run must have seen and this one has not: calls with a number that they can
    /// answer, rounds ended by a carried certificate and by a bundle, records released from a pending
    /// buffer, also several with a commit, rounds committed by either sighting of a vote, and conflicts in
    /// each word of a digest alone.
    pub fn unseen(&self) -> Vec<String> {
        let missing = |row: usize| {
            let numbers = POSSIBLE[row].iter().copied();
            numbers.filter(move |&number| self.seen[row][number as usize] == 0)
        };
        let numbers = (0..NAMES.len()).flat_map(|row| {
            missing(row).map(move |number| format!("{} with {number}", NAMES[row]))
        });
        let counts = [
            (
                "a round ended by a carried certificate",
                self.ended_by_certificates,
            ),
            ("a round ended by a bundle", self.ended_by_bundles),
            ("a record released from a buffer", self.released),
            (
                "several records released with a commit",
                self.several_released,
            ),
            ("a round committed by both sightings", self.by_both),
            ("a round committed by a split vote", self.by_split),
        ];
        let never = counts.into_iter().filter(|(_, count)| *count == 0);
        numbers
            .chain(never.map(|(what, _)| what.to_owned()))
            .chain(self.unseen_conflicts())
            .collect()
    }

    fn unseen_conflicts(&self) -> impl Iterator<Item = String> + '_ {
        let places = [
            ("cell", &self.cell_conflicts),
            ("buffer", &self.buffer_conflicts),
        ];
        places.into_iter().flat_map(|(place, counts)| {
            let never = (0..DIGEST_WORDS).filter(|&at| counts[at] == 0);
            never.map(move |at| format!("a conflict with a {place} in digest word {at} alone"))
        })
    }

    /// What the groups did, line by line.
    fn counts(&self) -> [(&'static str, u64); 25] {
        [
            ("calls compared", self.calls),
            ("groups", self.groups),
            ("replicas", self.replicas),
            ("rounds committed", self.committed),
            ("of these without a leader", self.skipped),
            ("calls that committed", self.commits),
            ("of these with several leaders", self.several_leaders),
            ("of these by both sightings", self.by_both),
            ("of these by a split vote", self.by_split),
            (
                "vertices with a timeout certificate",
                self.timeout_certificates,
            ),
            (
                "rounds ended by a carried certificate",
                self.ended_by_certificates,
            ),
            ("rounds ended by a bundle", self.ended_by_bundles),
            (
                "vertices with a no-vote certificate",
                self.no_vote_certificates,
            ),
            ("vertices with weak ids", self.weak),
            ("records released from buffers", self.released),
            (
                "calls that released several and committed",
                self.several_released,
            ),
            ("records made", self.made),
            (
                "of these with a no-vote certificate",
                self.made_with_no_votes,
            ),
            ("of these with weak ids", self.made_with_weak),
            ("damaged states", self.damaged),
            ("of these still well formed", self.still_well_formed),
            ("full states", self.full),
            ("of these with 16 members", self.full_of_16),
            ("lists compared with the model's", self.models),
            ("pairs of replicas compared", self.pairs),
        ]
    }

    /// The conflicts in one word of the digest alone.
    fn conflict_counts(&self) -> [(&'static str, u64); 4] {
        let conflicts = [self.cell_conflicts, self.buffer_conflicts];
        let [by_cell, by_buffer] = conflicts.map(|counts| counts.iter().sum());
        let fewest = conflicts.map(|counts| counts.into_iter().min().unwrap_or(0));
        [
            ("conflicts with a cell in one digest word", by_cell),
            ("of these for the rarest word", fewest[0]),
            ("conflicts with a buffer in one digest word", by_buffer),
            ("of these for the rarest word", fewest[1]),
        ]
    }

    fn write_row(&self, out: &mut Formatter, row: usize) -> fmt::Result {
        write!(out, "{:13}", NAMES[row])?;
        for number in 0..NUMBERS {
            let count = self.seen[row][number];
            if POSSIBLE[row].contains(&(number as u32)) || count > 0 {
                write!(out, " {count:7}")?;
            } else {
                write!(out, " {:>7}", "-")?;
            }
        }
        writeln!(out)
    }
}

impl Display for Tally {
    fn fmt(&self, out: &mut Formatter) -> fmt::Result {
        write!(out, "{:13}", "number")?;
        (0..NUMBERS).try_for_each(|number| write!(out, " {number:7}"))?;
        writeln!(out)?;
        (0..NAMES.len()).try_for_each(|row| self.write_row(out, row))?;
        self.counts()
            .iter()
            .chain(&self.conflict_counts())
            .try_for_each(|(name, count)| writeln!(out, "{name}: {count}"))
    }
}
