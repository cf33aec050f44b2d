//! Whether a state is well formed (01: sound), clause by clause in the order of 01,
//! whose words 5 to 7 are as 02's request A1 has them; and the first clause that does not hold.
//!
//! Readings chosen where the text is open:
//! - a state of another length is not well formed;
//! - a count above the words of its list is not well formed, since the list cannot have that many;
//! - "by rising round" of the leader list is strict, since a round has one leader vertex;
//! - a list entry names a vertex only if it is the vertex id of a held one, so any other word
//!   among the counted entries is not well formed.

use std::collections::BTreeSet;
use std::ops::Range;

use crate::answer;
use crate::broken::Broken;
use crate::group::{has, members, Group};
use crate::layout::*;
use crate::record::{first_refusal, Record};

type Words = [u32; STATE_WORDS];

/// Whether these words are a well formed state (01: a sound sheet).
pub fn is_well_formed(state: &[u32]) -> bool {
    first_broken(state).is_none()
}

/// The first clause that does not hold of these words.
pub fn first_broken(state: &[u32]) -> Option<Broken> {
    let Ok(words) = <&Words>::try_from(state) else {
        return Some(Broken::Size(state.len()));
    };
    let Some(group) = Group::new(words[N]) else {
        return Some(Broken::MemberCount(words[N]));
    };
    rounds_of_the_head(words)
        .or_else(|| own_words(words, group))
        .or_else(|| mask_bits(words, group))
        .or_else(|| votes_not_heard(words))
        .or_else(|| ordered_not_held(words))
        .or_else(|| cells(words, group))
        .or_else(|| leader_list(words, group))
        .or_else(|| journal(words))
        .or_else(|| words_beyond(words))
}

/// The current round is 1 to 33, the committed round 0 to 31.
fn rounds_of_the_head(words: &Words) -> Option<Broken> {
    if !(1..=LAST_CURRENT_ROUND).contains(&words[CURRENT_ROUND]) {
        return Some(Broken::CurrentRound(words[CURRENT_ROUND]));
    }
    (words[COMMITTED_ROUND] > LAST_COMMITTABLE_ROUND)
        .then_some(Broken::CommittedRound(words[COMMITTED_ROUND]))
}

/// Word 5 is at most n; words 6 and 7 are any, and both 0 for a watcher.
fn own_words(words: &Words, group: Group) -> Option<Broken> {
    let marked = words[MADE_ROUNDS] != 0 || words[SIGNED_NO_VOTES] != 0;
    match words[OWN] {
        0 => marked.then_some(Broken::WatcherMarks),
        own => (own > group.n()).then_some(Broken::OwnMember(own)),
    }
}

fn rounds() -> impl Iterator<Item = u32> {
    1..=LAST_ROUND
}

fn mask(words: &Words, round: u32, which: usize) -> u32 {
    words[mask_place(round, which)]
}

/// No mask has a bit at n or above.
fn mask_bits(words: &Words, group: Group) -> Option<Broken> {
    let at = words[MASKS]
        .iter()
        .position(|&mask| !group.contains(mask))?;
    Some(Broken::MaskBit {
        round: 1 + (at / MASKS_PER_ROUND) as u32,
        mask: at % MASKS_PER_ROUND,
    })
}

/// The vertex ids in one kind of mask, over all rounds.
fn marked(words: &Words, which: usize) -> BTreeSet<u32> {
    rounds()
        .flat_map(|round| {
            members(mask(words, round, which)).map(move |member| vertex_id(round, member))
        })
        .collect()
}

fn is_held(words: &Words, id: u32) -> bool {
    (1..=LAST_ROUND).contains(&round_of(id)) && has(mask(words, round_of(id), HELD), member_of(id))
}

/// The first round whose mask of one kind does not lie within that of another.
fn first_beyond(words: &Words, which: usize, within: usize) -> Option<u32> {
    rounds().find(|&round| mask(words, round, which) & !mask(words, round, within) != 0)
}

/// Votes lie within heard, and round 1 has no votes.
fn votes_not_heard(words: &Words) -> Option<Broken> {
    let first = (mask(words, 1, VOTES) != 0).then_some(Broken::VotesOfRound1);
    first_beyond(words, VOTES, HEARD)
        .map(Broken::VotesNotHeard)
        .or(first)
}

/// Ordered lies within held.
fn ordered_not_held(words: &Words) -> Option<Broken> {
    first_beyond(words, ORDERED, HELD).map(Broken::OrderedNotHeld)
}

/// Every held record passes questions 5 to 11 and 14, and cells not held are zero.
fn cells(words: &Words, group: Group) -> Option<Broken> {
    rounds()
        .find_map(|round| (0..IDS_PER_ROUND).find_map(|member| cell(words, group, round, member)))
}

fn cell(words: &Words, group: Group, round: u32, member: u32) -> Option<Broken> {
    let cell = &words[cell_place(round, member)];
    if !has(mask(words, round, HELD), member) {
        return cell
            .iter()
            .any(|&word| word != 0)
            .then_some(Broken::CellNotHeld { round, member });
    }
    let record = Record::from_cell(round, member, cell)?;
    let number = first_refusal(group, &record).or_else(|| missing_parent(words, &record))?;
    Some(Broken::HeldRecord {
        round,
        member,
        number,
    })
}

/// Question 14, of a record that passes 5 to 11.
fn missing_parent(words: &Words, record: &Record) -> Option<u32> {
    let all_held = record.parents().all(|id| is_held(words, id));
    (!all_held).then_some(answer::MISSING_PARENT)
}

/// A list's entries, if it has room for them.
fn entries(words: &Words, list: Range<usize>, count: usize) -> Option<&[u32]> {
    words[list].get(..words[count] as usize)
}

/// The leader list names held leader vertices by rising round, its last round is the committed
/// round, and it is empty exactly if that is 0.
fn leader_list(words: &Words, group: Group) -> Option<Broken> {
    let Some(leaders) = entries(words, LEADER_LIST, LEADER_COUNT) else {
        return Some(Broken::LeaderCount(words[LEADER_COUNT]));
    };
    let names_a_leader = |id: u32| is_held(words, id) && id == group.leader_id(round_of(id));
    let rises = |at: usize| at == 0 || round_of(leaders[at - 1]) < round_of(leaders[at]);
    if let Some(at) = (0..leaders.len()).find(|&at| !names_a_leader(leaders[at]) || !rises(at)) {
        return Some(Broken::LeaderEntry(at));
    }
    let last = leaders.last().map_or(0, |&id| round_of(id));
    (last != words[COMMITTED_ROUND]).then_some(Broken::LastLeader(last))
}

/// The journal names exactly the ordered vertices, each once.
fn journal(words: &Words) -> Option<Broken> {
    let Some(journal) = entries(words, JOURNAL, JOURNAL_COUNT) else {
        return Some(Broken::JournalCount(words[JOURNAL_COUNT]));
    };
    let ordered = marked(words, ORDERED);
    let named: BTreeSet<u32> = journal.iter().copied().collect();
    if named.len() == journal.len() && named == ordered {
        return None;
    }
    let is_wrong =
        |&at: &usize| !ordered.contains(&journal[at]) || journal[..at].contains(&journal[at]);
    let left_out = || ordered.difference(&named).next();
    (0..journal.len())
        .find(is_wrong)
        .map(Broken::JournalEntry)
        .or_else(|| left_out().map(|&id| Broken::JournalLacks(id)))
}

/// List words beyond the counts are 0.
fn words_beyond(words: &Words) -> Option<Broken> {
    let is_zero = |list: Range<usize>, count: usize| {
        words[list]
            .iter()
            .skip(words[count] as usize)
            .all(|&word| word == 0)
    };
    if !is_zero(LEADER_LIST, LEADER_COUNT) {
        return Some(Broken::BeyondLeaders);
    }
    (!is_zero(JOURNAL, JOURNAL_COUNT)).then_some(Broken::BeyondJournal)
}
