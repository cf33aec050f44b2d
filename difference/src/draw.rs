//! Calls and states drawn at random, beside those of the simulated groups.

use std::collections::BTreeSet;

use crate::op::Op;
use reference::group::{members, Group};
use reference::harness::{MOST_RECORD_WORDS, MOST_WORDS};
use reference::layout::*;
use reference::pending::laid_out;
use reference::record::{first_refusal, Record};
use reference::rng::Rng;
use reference::simulate::{buffers, digests};
use reference::vectors::damage;
use reference::Call;

const EDGES: [u32; 8] = [0, 1, 2, 15, 16, 0xFFFF, 1 << 31, u32::MAX];

/// Where a list of so many entries is asked for: near its ends, and far beyond.
fn start(rng: &mut Rng, count: u32) -> u32 {
    match rng.below(8) {
        0 => 0,
        1 => 1,
        2 => count.saturating_sub(1),
        3 => count,
        4 => count.saturating_add(1),
        5 => count.saturating_add(rng.below(600)),
        6 => u32::MAX - rng.below(800),
        _ => rng.below(count.saturating_add(2)),
    }
}

/// A list call, with the counts that stand in the words.
pub fn list_op(rng: &mut Rng, words: &[u32]) -> Op {
    let count = |at: usize| words.get(at).copied().unwrap_or(0);
    let leaders = start(rng, count(LEADER_COUNT));
    let journal = start(rng, count(JOURNAL_COUNT));
    match rng.below(4) {
        0 => Op::AskLeaders(leaders),
        1 => Op::AskJournal(journal),
        2 => Op::HandLeaders(leaders),
        _ => Op::HandJournal(journal),
    }
}

/// Any call, with arguments that suit the words and the calls of the group.
pub fn any_op(rng: &mut Rng, words: &[u32], calls: &[Call]) -> Op {
    match rng.below(17) {
        0 => Op::Status,
        1 | 2 => list_op(rng, words),
        3 => Op::Change(opening(rng)),
        4 => Op::Change(note(rng)),
        5 => Op::Change(noted(rng, words).unwrap_or_else(|| note(rng))),
        6 => Op::Change(other_length(rng, calls)),
        7 => Op::Change(other_words(rng, calls)),
        8 => Op::Change(random_record(rng)),
        9 => Op::Change(propose(rng)),
        10 => Op::Change(Call::SignNoVote),
        11 => Op::Change(bundle(rng, words)),
        12 | 13 => Op::Change(buffered(rng, words, calls)),
        _ => Op::Change(picked(rng, calls)),
    }
}

fn opening(rng: &mut Rng) -> Call {
    let n = any_size(rng);
    Call::Open(n, any_own(rng, n))
}

/// Word 5 of a state or opening: mostly up to n + 1.
fn any_own(rng: &mut Rng, n: u32) -> u32 {
    match rng.below(16) {
        0 => EDGES[rng.below(8) as usize],
        1 => rng.word(),
        _ => rng.below(n.saturating_add(2)),
    }
}

fn propose(rng: &mut Rng) -> Call {
    Call::Propose(digests::any(rng))
}

/// A record of our own and a no-vote of our own, in either order.
pub fn own_ops(rng: &mut Rng) -> [Op; 2] {
    let mut calls = [propose(rng), Call::SignNoVote];
    if rng.percent(50) {
        calls.reverse();
    }
    calls.map(Op::Change)
}

fn any_size(rng: &mut Rng) -> u32 {
    match rng.below(4) {
        0 => rng.below(21),
        1 => rng.word(),
        2 => LEGAL_SIZES[rng.below(5) as usize] ^ (1 << rng.below(u32::BITS)),
        _ => LEGAL_SIZES[rng.below(5) as usize],
    }
}

fn any_round(rng: &mut Rng) -> u32 {
    match rng.below(6) {
        0 => EDGES[rng.below(8) as usize],
        1 => LAST_ROUND + rng.below(3),
        _ => rng.below(LAST_ROUND + 2),
    }
}

fn note(rng: &mut Rng) -> Call {
    let round = any_round(rng);
    let signer = match rng.below(6) {
        0 => EDGES[rng.below(8) as usize],
        _ => rng.below(18),
    };
    if rng.percent(50) {
        Call::Timeout(round, signer)
    } else {
        Call::NoVote(round, signer)
    }
}

/// A bundle of timeouts for any round, or for one near the current round. Its mask is of any members,
/// of about a quorum, of those whom the words have already, with others or without, of nobody, with
/// a bit at n or above, or any word.
pub fn bundle(rng: &mut Rng, words: &[u32]) -> Call {
    let word = |at: usize| words.get(at).copied().unwrap_or(0);
    let round = if rng.percent(40) {
        any_round(rng)
    } else {
        near(rng, word(CURRENT_ROUND).min(LAST_CURRENT_ROUND))
    };
    let n = word(N).clamp(1, IDS_PER_ROUND);
    let is_round = (1..=LAST_ROUND).contains(&round);
    let noted = if is_round {
        word(mask_place(round, TIMEOUTS))
    } else {
        0
    };
    let beyond = 1 << (n + rng.below(u32::BITS - n));
    let any = rng.word();
    let members = any & ((1 << n) - 1);
    let mask = match rng.below(10) {
        0 => 0,
        1 => noted,
        2 => noted & any,
        3 | 4 => noted | members,
        5 => noted | beyond,
        6 => members | beyond,
        7 => any,
        8 => any_signers(rng, n),
        _ => members,
    };
    Call::Timeouts(round, mask)
}

/// A timeout or no-vote that the words have already, if a few drawn rounds have one.
fn noted(rng: &mut Rng, words: &[u32]) -> Option<Call> {
    let which = [TIMEOUTS, NO_VOTES][rng.below(2) as usize];
    (0..LAST_ROUND).find_map(|_| {
        let round = 1 + rng.below(LAST_ROUND);
        let mask = words.get(mask_place(round, which)).copied()?;
        let signer = rng.member(mask)?;
        Some(match which {
            TIMEOUTS => Call::Timeout(round, signer),
            _ => Call::NoVote(round, signer),
        })
    })
}

/// One of the calls.
fn picked(rng: &mut Rng, calls: &[Call]) -> Call {
    rng.pick(calls).cloned().unwrap_or(Call::Open(4, 0))
}

/// The words of one of the records, and of zeros if there is none.
fn record(rng: &mut Rng, calls: &[Call]) -> Vec<u32> {
    let picked = rng.pick(calls).and_then(Call::record);
    picked.map_or(vec![0; RECORD_WORDS], <[u32]>::to_vec)
}

/// A vertex with a pending buffer: a record of any kind, and any buffer.
pub fn buffered(rng: &mut Rng, words: &[u32], calls: &[Call]) -> Call {
    let drawn = match rng.below(8) {
        0 => other_length(rng, calls),
        1 | 2 => other_words(rng, calls),
        3 => random_record(rng),
        _ => Call::Vertex(record(rng, calls)),
    };
    let record = drawn.record().unwrap_or_default().to_vec();
    Call::VertexWith(any_buffer(rng, words, calls), record)
}

/// A pending buffer for the words of a state: empty, with few records of the group's calls or full of
/// them, with records in conflict with them or with held ones, of one of the calls, or damaged.
fn any_buffer(rng: &mut Rng, words: &[u32], calls: &[Call]) -> Vec<u32> {
    let group = group_of(words);
    let made = well_formed_records(group, calls);
    let of_calls = |rng: &mut Rng, chance| buffers::of_some(rng, chance, &made);
    match rng.below(10) {
        0 => laid_out(&[]),
        1 | 2 => of_calls(rng, 2),
        3 | 4 => of_calls(rng, 100),
        5 => {
            let other = conflicting(rng, &made);
            buffers::of_some(rng, 50, &other)
        }
        6 => buffers::of_some(rng, 20, &held(words)),
        7 => {
            let other = conflicting(rng, &held(words));
            buffers::of_some(rng, 20, &other)
        }
        8 => picked(rng, calls).buffer().to_vec(),
        _ => {
            let buffer = of_calls(rng, 10);
            buffers::damaged(rng, group, &buffer)
        }
    }
}

/// The group that the words name; of an illegal size, any.
fn group_of(words: &[u32]) -> Group {
    let named = words.first().and_then(|&n| Group::new(n));
    let any = Group::new(LEGAL_SIZES[0]);
    named.or(any).expect("the size is legal")
}

/// The records of calls that pass questions 4 to 11.
pub fn well_formed_records(group: Group, calls: &[Call]) -> Vec<Record> {
    let records = calls.iter().filter_map(Call::record);
    records
        .filter_map(Record::from_words)
        .filter(|record| first_refusal(group, record).is_none())
        .collect()
}

/// Records of which some have another digest: in one word.
fn conflicting(rng: &mut Rng, records: &[Record]) -> Vec<Record> {
    let other = |record: &Record| Record {
        digest: digests::same_or_other(rng, record.digest),
        ..*record
    };
    records.iter().map(other).collect()
}

/// The records in the cells of a state that are marked held and pass questions 5 to 11.
fn held(words: &[u32]) -> Vec<Record> {
    if words.len() != STATE_WORDS {
        return Vec::new();
    }
    let group = group_of(words);
    let places = (1..=LAST_ROUND).flat_map(|round| {
        let held = words[mask_place(round, HELD)] & group.all();
        members(held).map(move |member| (round, member))
    });
    places
        .filter_map(|(round, member)| {
            Record::from_cell(round, member, &words[cell_place(round, member)])
        })
        .filter(|record| first_refusal(group, record).is_none())
        .collect()
}

/// Vertices still to come, and a pending buffer of those that come after the first of them: all, or
/// some.
pub fn coming(rng: &mut Rng, words: &[u32], next: &[Call]) -> (Vec<Record>, Vec<u32>) {
    let mut there: BTreeSet<u32> = held(words).iter().map(Record::id).collect();
    let mut coming = well_formed_records(group_of(words), next);
    coming.retain(|record| there.insert(record.id()));
    coming.truncate(BUFFER_SLOTS + 1);
    let chance = [0, 60, 100][rng.below(3) as usize];
    let buffer = buffers::of_some(rng, chance, coming.get(1..).unwrap_or_default());
    (coming, buffer)
}

fn vertex_or_first(rng: &mut Rng, words: Vec<u32>) -> Call {
    if rng.percent(50) {
        Call::Vertex(words)
    } else {
        Call::First(words)
    }
}

/// A record of any length.
fn other_length(rng: &mut Rng, calls: &[Call]) -> Call {
    let mut words = record(rng, calls);
    words.resize(rng.below(MOST_RECORD_WORDS + 1) as usize, 0);
    vertex_or_first(rng, words)
}

/// A record with a word or more changed.
fn other_words(rng: &mut Rng, calls: &[Call]) -> Call {
    let mut words = record(rng, calls);
    for _ in 0..1 + rng.below(3) {
        let at = match words.len() {
            RECORD_WORDS => digests::any_place(rng),
            length => rng.below(length as u32) as usize,
        };
        if let Some(word) = words.get_mut(at) {
            *word = other_word(rng, *word);
        }
    }
    vertex_or_first(rng, words)
}

fn other_word(rng: &mut Rng, word: u32) -> u32 {
    match rng.below(5) {
        0 => word ^ (1 << rng.below(u32::BITS)),
        1 => word ^ (1 << rng.below(16)),
        2 => EDGES[rng.below(8) as usize],
        3 => rng.below(600),
        _ => rng.word(),
    }
}

/// A record of small numbers drawn at random, most of them within their ranges.
fn random_record(rng: &mut Rng) -> Call {
    let members = (1 << rng.below(17)) - 1;
    let (round, source) = (rng.below(LAST_ROUND + 2), rng.below(17));
    let [strong, timeouts, no_votes] = [(); 3].map(|()| {
        if rng.percent(50) {
            rng.word() & members
        } else {
            0
        }
    });
    let (digest, weak_count) = (digests::any(rng), rng.below(WEAK_SLOTS as u32 + 2));
    let mut weak = [(); WEAK_SLOTS].map(|()| rng.below(540));
    weak.sort_unstable();
    let used = weak_count as usize;
    weak.iter_mut().skip(used).for_each(|id| *id = 0);
    let record = Record {
        round,
        source,
        strong,
        timeouts,
        no_votes,
        digest,
        weak_count,
        weak,
    };
    vertex_or_first(rng, record.words().to_vec())
}

/// Words of a well formed state changed: one of the drawn damages, any words, or only such as
/// often leave the state well formed.
pub fn damage(rng: &mut Rng, state: &[u32]) -> Vec<(usize, u32)> {
    let count = 1 + rng.below(3);
    match rng.below(3) {
        0 => {
            let drawn = damage::all(rng, state);
            rng.pick(&drawn).cloned().unwrap_or_default()
        }
        1 => (0..count)
            .map(|_| {
                let at = place(rng);
                (at, other_word(rng, state[at]))
            })
            .collect(),
        _ => (0..count).flat_map(|_| unlikely(rng, state)).collect(),
    }
}

/// Words 5 to 7 changed, so that the state often remains well formed. Some come with another
/// current round, and with other timeouts and no-votes of the round before it.
pub fn own_words(rng: &mut Rng, state: &[u32]) -> Vec<(usize, u32)> {
    let n = state[N];
    let own = any_own(rng, n);
    let is_watcher = own == 0 && rng.percent(80);
    let mut marks = |at: usize| match rng.below(5) {
        _ if is_watcher => 0,
        0 => 0,
        1 => u32::MAX,
        2 => rng.word(),
        _ => state[at] ^ (1 << rng.below(u32::BITS)),
    };
    let mut words = vec![
        (MADE_ROUNDS, marks(MADE_ROUNDS)),
        (SIGNED_NO_VOTES, marks(SIGNED_NO_VOTES)),
        (OWN, own),
    ];
    if rng.percent(60) {
        let round = near(rng, state[CURRENT_ROUND]);
        words.push((CURRENT_ROUND, round));
        if rng.percent(40) {
            words.push((OWN, 1 + (round - 1) % n));
        }
        if round >= 2 {
            let before = [TIMEOUTS, NO_VOTES].map(|which| mask_place(round - 1, which));
            words.extend(before.map(|at| (at, any_signers(rng, n))));
        }
    }
    words
}

/// A current round: any, one of the first and last, or near another.
fn near(rng: &mut Rng, round: u32) -> u32 {
    let drawn = match rng.below(6) {
        0 => 1 + rng.below(LAST_CURRENT_ROUND),
        1 => [1, 2, LAST_ROUND, LAST_CURRENT_ROUND][rng.below(4) as usize],
        _ => (round + rng.below(4)).saturating_sub(2),
    };
    drawn.clamp(1, LAST_CURRENT_ROUND)
}

/// A mask of members, mostly of about a quorum.
fn any_signers(rng: &mut Rng, n: u32) -> u32 {
    let all = (1 << n) - 1;
    let count = 2 * n / 3 + rng.below(3);
    rng.top_up(0, all, count)
}

/// Words as few calls would leave them: notes, first messages and votes, the current round, a word of a
/// digest, words 5 to 7.
pub fn unlikely(rng: &mut Rng, state: &[u32]) -> Vec<(usize, u32)> {
    let all = (1 << state[N]) - 1;
    let round = 2 + rng.below(LAST_ROUND - 1);
    let mask = rng.word() & all;
    match rng.below(6) {
        0 => vec![(mask_place(round, TIMEOUTS), mask)],
        1 => vec![(mask_place(round, NO_VOTES), mask)],
        2 => votes(rng, state),
        3 => vec![(CURRENT_ROUND, 1 + rng.below(LAST_ROUND + 1))],
        4 => own_words(rng, state),
        _ => {
            let held = state[mask_place(round, HELD)];
            let member = rng.member(held);
            let digest = member.map(|member| cell_word(round, member, CELL_DIGEST.start));
            let word = |start: usize| {
                let mut apart = rng.apart();
                let at = apart.below(DIGEST_WORDS as u32) as usize;
                (start + at, apart.word())
            };
            digest.map(word).into_iter().collect()
        }
    }
}

/// First messages of all members in a round, of which some or all vote: often for the leader of a
/// round just above the committed one, which no call has looked at.
fn votes(rng: &mut Rng, state: &[u32]) -> Vec<(usize, u32)> {
    let all = (1 << state[N]) - 1;
    let above = state[COMMITTED_ROUND] + 2 + rng.below(2);
    let rounds = [above.min(LAST_ROUND), 2 + rng.below(LAST_ROUND - 1)];
    let round = rounds[rng.below(2) as usize];
    let mask = [all, rng.word() & all][rng.below(2) as usize];
    vec![
        (mask_place(round, HEARD), all),
        (mask_place(round, VOTES), mask),
    ]
}

/// A word of the state: of the head, the masks, the lists, or anywhere.
fn place(rng: &mut Rng) -> usize {
    let bound = match rng.below(5) {
        0 => MASKS.start as u32,
        1 | 2 => MASKS.end as u32,
        3 => CELLS.start as u32,
        _ => STATE_WORDS as u32,
    };
    rng.below(bound) as usize
}

/// The state cut short or made longer.
pub fn other_size(rng: &mut Rng, state: &[u32]) -> Vec<u32> {
    let mut sizes = vec![
        0,
        1,
        OWN,
        RECORD_WORDS,
        MASKS.end,
        CELLS.start,
        STATE_WORDS - CELL_WORDS,
        STATE_WORDS - 1,
        STATE_WORDS + 1,
        STATE_WORDS + CELL_WORDS,
        MOST_WORDS as usize,
    ];
    sizes.extend(near_sizes(&EARLIER_STATE_WORDS));
    let size = match rng.below(3) {
        0 => rng.below(MOST_WORDS) as usize,
        _ => sizes[rng.below(sizes.len() as u32) as usize],
    };
    let mut words = state.to_vec();
    words.resize(size, rng.below(2));
    words
}

/// Words of any value below a bound, everywhere.
pub fn random_words(rng: &mut Rng) -> Vec<u32> {
    let bound = EDGES[1 + rng.below(7) as usize];
    (0..STATE_WORDS).map(|_| rng.below(bound)).collect()
}
