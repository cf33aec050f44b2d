//! Damages of a well formed state: which words get which values. Some leave the state well formed.

use std::ops::Range;

use crate::group::{bit, has};
use crate::layout::*;
use crate::rng::Rng;

/// Places with their new values.
pub type Damage = Vec<(usize, u32)>;

const EDGES: [u32; 5] = [0, 1, 2, 16, u32::MAX];
const RANDOM: usize = 40;

/// Damages of every kind of word of a state, most of a single word, with places drawn at random.
pub fn all(rng: &mut Rng, state: &[u32]) -> Vec<Damage> {
    let mut damages = head(state);
    damages.extend(masks(rng, state));
    damages.extend(list(state, LEADER_LIST, LEADER_COUNT));
    damages.extend(list(state, JOURNAL, JOURNAL_COUNT));
    damages.extend(cells(rng, state));
    damages.extend((0..RANDOM).map(|_| random(rng, state)));
    let mut single: Vec<Damage> = damages.into_iter().map(|place| vec![place]).collect();
    single.retain(|damage| damage.iter().any(|&(at, word)| state[at] != word));
    single.extend(several(rng, state));
    single
}

/// Words 0 to 7.
fn head(state: &[u32]) -> Damage {
    let near = |at: usize| [state[at].wrapping_sub(1), state[at] + 1];
    let mut damages: Damage = [
        N,
        CURRENT_ROUND,
        COMMITTED_ROUND,
        LEADER_COUNT,
        JOURNAL_COUNT,
    ]
    .into_iter()
    .flat_map(|at| {
        near(at)
            .into_iter()
            .chain(EDGES)
            .map(move |word| (at, word))
    })
    .collect();
    damages.extend(LEGAL_SIZES.map(|n| (N, n)));
    damages.extend([0, 1].map(|more| (CURRENT_ROUND, LAST_CURRENT_ROUND + more)));
    damages.extend([0, 1].map(|more| (COMMITTED_ROUND, LAST_COMMITTABLE_ROUND + more)));
    damages.extend([0, 1].map(|more| (LEADER_COUNT, LEADER_LIST.len() as u32 + more)));
    damages.extend([0, 1].map(|more| (JOURNAL_COUNT, JOURNAL.len() as u32 + more)));
    damages.extend(own_words(state));
    damages
}

/// Word 5 up to n, just above and far beyond, and other marks in words 6 and 7.
fn own_words(state: &[u32]) -> Damage {
    let n = state[N];
    let mut damages: Damage = [0, 1, n, n + 1, u32::MAX].map(|own| (OWN, own)).to_vec();
    for at in [MADE_ROUNDS, SIGNED_NO_VOTES] {
        let last = round_bit(LAST_ROUND);
        damages.extend([0, 1, last, !state[at], u32::MAX].map(|marks| (at, marks)));
    }
    damages
}

/// For each kind of mask: a member more and a member less in several rounds, and bits from n on.
fn masks(rng: &mut Rng, state: &[u32]) -> Damage {
    let n = state[N];
    let mut damages = Damage::new();
    for which in 0..MASKS_PER_ROUND {
        let drawn = 2 + rng.below(LAST_ROUND - 2);
        for round in [1, 2, drawn, LAST_ROUND] {
            let at = mask_place(round, which);
            let mask = state[at];
            let more = rng.member(!mask & (bit(n) - 1));
            damages.extend(more.map(|member| (at, mask | bit(member))));
            damages.extend(rng.member(mask).map(|member| (at, mask & !bit(member))));
            damages.extend([n, 16, 31].map(|member| (at, mask | bit(member))));
        }
    }
    damages
}

/// A list's first and last entries, and the words beyond them.
fn list(state: &[u32], list: Range<usize>, count: usize) -> Damage {
    let count = state[count] as usize;
    let mut damages = Damage::new();
    for i in [0, count / 2, count.saturating_sub(1)] {
        if i < count {
            let word = state[list.start + i];
            let values = [word ^ 1, word + 16, word.wrapping_sub(16), word | 1 << 31];
            let others = [list.start, list.start + count - 1].map(|at| state[at]);
            damages.extend(values.map(|word| (list.start + i, word)));
            damages.extend(others.map(|word| (list.start + i, word)));
            damages.extend([0, 16, u32::MAX].map(|word| (list.start + i, word)));
        }
    }
    let beyond = [list.start + count, list.end - 1].into_iter();
    let unused = beyond.filter(|at| (list.start + count..list.end).contains(at));
    damages.extend(unused.flat_map(|at| [1, state[list.start], 1 << 31].map(|word| (at, word))));
    damages
}

/// Every word of a few held cells, and of cells that are not held, one beyond the group.
fn cells(rng: &mut Rng, state: &[u32]) -> Damage {
    let mut damages = Damage::new();
    let (held, free): (Vec<Place>, Vec<Place>) = places().partition(|&place| is_held(state, place));
    for _ in 0..2 {
        damages.extend(
            rng.pick(&held)
                .into_iter()
                .flat_map(|&p| held_cell(state, p)),
        );
    }
    let rich = held
        .iter()
        .filter(|&&place| has_weak(state, place))
        .copied();
    damages.extend(rich.take(1).flat_map(|p| held_cell(state, p)));
    let last = (LAST_ROUND, IDS_PER_ROUND - 1);
    for &place in rng
        .pick(&free)
        .into_iter()
        .chain(free.last())
        .chain([&last])
    {
        damages.extend(cell(place).filter(|&at| state[at] == 0).map(|at| (at, 1)));
    }
    damages
}

type Place = (u32, u32);

fn places() -> impl Iterator<Item = Place> {
    (1..=LAST_ROUND).flat_map(|round| (0..IDS_PER_ROUND).map(move |member| (round, member)))
}

fn cell((round, member): Place) -> Range<usize> {
    cell_place(round, member)
}

fn is_held(state: &[u32], (round, member): Place) -> bool {
    has(state[mask_place(round, HELD)], member)
}

fn has_weak(state: &[u32], (round, member): Place) -> bool {
    state[cell_word(round, member, CELL_WEAK_COUNT)] > 0
}

/// Each word of a held cell with a bit less or more, and with other values; of the digest's words each
/// with one of these.
fn held_cell(state: &[u32], place: Place) -> Damage {
    let n = state[N];
    let values = |at: usize| {
        let word = state[at];
        let low = word & word.wrapping_sub(1);
        [low, word ^ 1, word ^ 2, word | bit(n), 0, 7, 16, u32::MAX]
    };
    let mut damages = Damage::new();
    for (at, which) in cell(place).zip(0..) {
        let values = values(at);
        if CELL_DIGEST.contains(&which) {
            damages.push((at, values[which % values.len()]));
        } else {
            damages.extend(values.map(|word| (at, word)));
        }
    }
    damages
}

/// Any word: a bit flipped, an edge, or a small number.
fn random(rng: &mut Rng, state: &[u32]) -> (usize, u32) {
    let at = rng.below(STATE_WORDS as u32) as usize;
    let word = match rng.below(4) {
        0 => state[at] ^ bit(rng.below(u32::BITS)),
        1 => EDGES[rng.below(5) as usize],
        2 => rng.below(600),
        _ => rng.word(),
    };
    (at, word)
}

/// Damages of several words that belong together, so that one clause alone is at stake.
fn several(rng: &mut Rng, state: &[u32]) -> Vec<Damage> {
    let mut damages = vec![
        vec![(mask_place(1, HEARD), 1), (mask_place(1, VOTES), 1)],
        vec![(mask_place(2, HEARD), 3), (mask_place(2, VOTES), 2)],
        vec![(mask_place(2, HEARD), 1), (mask_place(2, VOTES), 3)],
    ];
    damages.extend(appended(state, LEADER_LIST, LEADER_COUNT));
    damages.extend(appended(state, JOURNAL, JOURNAL_COUNT));
    damages.extend(fewer_leaders(state));
    damages.extend(more_leaders(state));
    damages.extend(own_words_together(state[N]));
    let all: Vec<Place> = places().filter(|&(_, member)| member < state[N]).collect();
    for _ in 0..6 {
        damages.extend(rng.pick(&all).map(|&place| ordered_too(state, place)));
        damages.extend(rng.pick(&all).map(|&place| held_or_not(state, place)));
    }
    damages
}

/// The list with an entry more: its first or last once again, or the last one's next round.
fn appended(state: &[u32], list: Range<usize>, count: usize) -> Vec<Damage> {
    let end = list.start + state[count] as usize;
    if end == list.start || end == list.end {
        return Vec::new();
    }
    [state[list.start], state[end - 1], state[end - 1] + 16]
        .map(|id| vec![(count, state[count] + 1), (end, id)])
        .to_vec()
}

/// The last leader dropped, with the committed round kept, and lowered to the leader before it.
fn fewer_leaders(state: &[u32]) -> Vec<Damage> {
    let count = state[LEADER_COUNT] as usize;
    if count == 0 {
        return Vec::new();
    }
    let last = LEADER_LIST.start + count - 1;
    let before = if count > 1 {
        round_of(state[last - 1])
    } else {
        0
    };
    let shorter = vec![(LEADER_COUNT, count as u32 - 1), (last, 0)];
    let mut lowered = shorter.clone();
    lowered.push((COMMITTED_ROUND, before));
    vec![shorter, lowered]
}

/// A later leader named at the list's end and its round committed: right up to round 31 if it is
/// held, and never for round 32.
fn more_leaders(state: &[u32]) -> Vec<Damage> {
    let leader = |round: u32| vertex_id(round, (round - 1) % state[N]);
    let end = LEADER_LIST.start + state[LEADER_COUNT] as usize;
    if end == LEADER_LIST.end {
        return Vec::new();
    }
    [state[COMMITTED_ROUND] + 1, LAST_ROUND - 1, LAST_ROUND]
        .map(|round| {
            vec![
                (LEADER_COUNT, state[LEADER_COUNT] + 1),
                (end, leader(round)),
                (COMMITTED_ROUND, round),
            ]
        })
        .to_vec()
}

/// Words 5 to 7 of watchers without and with marks, of the last member, and of one beyond it.
fn own_words_together(n: u32) -> Vec<Damage> {
    let last = round_bit(LAST_ROUND);
    [
        [0, 0, 0],
        [0, 1, 0],
        [0, 0, 1],
        [0, last, 0],
        [0, 0, last],
        [n, 0, 0],
        [n, u32::MAX, u32::MAX],
        [n + 1, 0, 0],
    ]
    .map(|[own, made, signed]| vec![(OWN, own), (MADE_ROUNDS, made), (SIGNED_NO_VOTES, signed)])
    .to_vec()
}

/// A vertex marked as ordered and named at the journal's end, whether it is held or not.
fn ordered_too(state: &[u32], (round, member): Place) -> Damage {
    let at = mask_place(round, ORDERED);
    let end = JOURNAL.start + state[JOURNAL_COUNT] as usize;
    if end == JOURNAL.end {
        return vec![(at, state[at] ^ bit(member))];
    }
    vec![
        (at, state[at] | bit(member)),
        (JOURNAL_COUNT, state[JOURNAL_COUNT] + 1),
        (end, vertex_id(round, member)),
    ]
}

/// A held vertex taken out with its cell, or an empty one held with a cell of zeros.
fn held_or_not(state: &[u32], place: Place) -> Damage {
    let (round, member) = place;
    let at = mask_place(round, HELD);
    let mut damage = vec![(at, state[at] ^ bit(member))];
    damage.extend(cell(place).filter(|&at| state[at] != 0).map(|at| (at, 0)));
    damage
}
