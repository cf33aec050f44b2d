//! Timeouts in a bundle: each sentence of 02's request A3.

mod common;

use common::*;
use reference::answer::Answer;
use reference::group::{bit, members, Group};
use reference::layout::*;
use reference::record::digest_of_tag;
use reference::rng::Rng;
use reference::simulate::{simulate, simulate_proposing, Options};
use reference::vectors::damage;
use reference::*;

/// Rounds out of range, the nearest first.
const BAD_ROUNDS: [u32; 4] = [0, LAST_ROUND + 1, 1 << 31, u32::MAX];
/// Rounds of the groups whose states the whole law is checked on.
const ROUNDS: u32 = 8;

/// Takes a bundle on a copy. Its answer is a number alone; a refusal leaves every word as it was,
/// an admission leaves all words but the round's timeouts and the current round.
fn bundled(state: &State, round: u32, mask: u32) -> Result<State, u32> {
    let mut after = state.clone();
    let answer = take_timeouts(&mut after, round, mask);
    assert_eq!(answer, Answer::refused(answer.number));
    if answer.number != 0 {
        assert_eq!(&after, state, "round {round}, mask {mask:b}");
        return Err(answer.number);
    }
    let written = [CURRENT_ROUND, timeouts(round)];
    let mut changed = changes(state, &after).into_iter();
    assert!(changed.all(|(at, _)| written.contains(&at)));
    Ok(after)
}

fn number(state: &State, round: u32, mask: u32) -> u32 {
    bundled(state, round, mask).err().unwrap_or(0)
}

/// The state after bundles that are all to be admitted.
fn taken(state: &State, bundles: &[(u32, u32)]) -> State {
    bundles.iter().fold(state.clone(), |state, &(round, mask)| {
        bundled(&state, round, mask).expect("it is admitted")
    })
}

/// The number of a single timeout, made on the state.
fn note(state: &mut State, round: u32, signer: u32) -> u32 {
    take_timeout(state, round, signer).number
}

fn group(n: u32) -> Group {
    Group::new(n).expect("the size is legal")
}

/// The round's timeouts and the current round.
fn now(state: &State, round: u32) -> (u32, u32) {
    (state[timeouts(round)], status(state).current_round)
}

#[test]
fn another_size_gives_1_before_all_else() {
    for size in [0, 1, STATE_WORDS - 1, STATE_WORDS + 1] {
        let mut opened = opened(4);
        opened.resize(size, 0);
        for state in [opened, vec![4; size]] {
            for round in [0, 1, LAST_ROUND, LAST_ROUND + 1] {
                for mask in [0, 1, bit(4), u32::MAX] {
                    let mut after = state.clone();
                    let answer = take_timeouts(&mut after, round, mask);
                    assert_eq!((answer, &after), (Answer::refused(1), &state));
                }
            }
        }
    }
}

#[test]
fn a_state_that_is_not_well_formed_gives_3_before_5_7_and_12() {
    for n in LEGAL_SIZES {
        let state = noted(opened(n), 1, 3);
        for place in [
            (N, 5),
            (CURRENT_ROUND, 0),
            (CURRENT_ROUND, LAST_CURRENT_ROUND + 1),
            (OWN, n + 1),
            (timeouts(1), bit(n)),
            (timeouts(LAST_ROUND), bit(31)),
            (JOURNAL_COUNT, 1),
        ] {
            let state = with(&state, &[place]);
            for round in [1, 2, LAST_ROUND].into_iter().chain(BAD_ROUNDS) {
                for mask in [0, 3, 4, bit(n - 1), bit(n), u32::MAX] {
                    assert_eq!(number(&state, round, mask), 3, "{place:?}");
                }
            }
        }
    }
    assert_eq!(number(&vec![0; STATE_WORDS], 0, bit(31)), 3);
}

#[test]
fn a_round_out_of_range_gives_5_before_7_and_12() {
    for n in LEGAL_SIZES {
        let state = noted(opened(n), 1, 3);
        for mask in [0, 1, 3, 4, group(n).all(), bit(n), bit(31) | 3, u32::MAX] {
            for round in BAD_ROUNDS {
                assert_eq!(number(&state, round, mask), 5, "{round} {mask:b}");
            }
        }
        for round in 1..=LAST_ROUND {
            assert_eq!(number(&state, round, bit(n - 1)), 0, "{round}");
        }
    }
}

#[test]
fn a_bit_at_n_or_above_gives_7_before_12() {
    for n in LEGAL_SIZES {
        let state = noted(opened(n), 1, 3);
        for round in [1, 2, LAST_ROUND] {
            assert_eq!(number(&state, round, bit(n - 1)), 0);
            assert_eq!(number(&state, round, group(n).all()), 0);
            for beyond in (n..u32::BITS).map(bit).chain([u32::MAX]) {
                // Alone, beside members noted before, and beside others.
                for members in [0, 1, 3, 7, bit(n - 1), group(n).all()] {
                    assert_eq!(number(&state, round, members | beyond), 7, "{n}");
                }
            }
        }
    }
    for (mask, expected) in [(bit(15), 0), (bit(16), 7), (bit(31), 7)] {
        assert_eq!(number(&opened(16), 1, mask), expected);
        assert_eq!(number(&opened(16), LAST_ROUND, mask), expected);
    }
}

#[test]
fn a_bundle_with_nobody_new_gives_12() {
    for n in LEGAL_SIZES {
        let all = group(n).all();
        let some = all & 0b1_0110_1101_1011;
        for round in [1, 2, 17, LAST_ROUND] {
            let state = opened(n);
            assert_eq!(number(&state, round, 0), 12);
            let state = taken(&state, &[(round, some)]);
            for old in members(some).map(bit).chain([0, some, some & (some - 1)]) {
                assert_eq!(number(&state, round, old), 12, "{old:b}");
                for new in members(all & !some).map(bit) {
                    let after = taken(&state, &[(round, old | new)]);
                    assert_eq!(after[timeouts(round)], some | new);
                }
            }
            let full = taken(&state, &[(round, all)]);
            assert_eq!(number(&full, round, all), 12);
        }
    }
}

/// Every bundle of four members, and with a fifth bit, beside every mask of those noted before.
#[test]
fn every_bundle_of_four_members() {
    for noted_before in 0..16 {
        let state = noted(opened(4), 3, noted_before);
        for mask in 0..32 {
            let expected = match mask {
                16.. => Err(7),
                _ if mask & !noted_before == 0 => Err(12),
                _ => Ok(with(&state, &[(timeouts(3), noted_before | mask)])),
            };
            assert_eq!(bundled(&state, 3, mask), expected, "{mask:b}");
        }
    }
}

#[test]
fn worked_on_four_members() {
    let state = lacking_leader(0);
    assert_eq!(now(&taken(&state, &[(1, 0b0111)]), 1), (0b0111, 2));
    let two = taken(&state, &[(1, 0b0011)]);
    assert_eq!(now(&two, 1), (0b0011, 1));
    assert_eq!(now(&taken(&two, &[(1, 0b0110)]), 1), (0b0111, 2));
    let one = taken(&state, &[(1, 0b0001)]);
    assert_eq!(note(&mut one.clone(), 1, 0), 12);
    assert_eq!(note(&mut one.clone(), 1, 1), 0);
    assert_eq!(number(&one, 1, 0b0001), 12);
    let other_round = taken(&state, &[(2, 0b1111)]);
    assert_eq!(now(&other_round, 2), (0b1111, 1));
    let two = taken(&other_round, &[(1, 0b0011)]);
    assert_eq!(now(&two, 1), (0b0011, 1));
    assert_eq!(now(&taken(&two, &[(1, 0b1000)]), 1), (0b1011, 2));
}

#[test]
fn notes_and_bundles_count_together() {
    let state = lacking_leader(0);
    let mixed = taken(&noted(state.clone(), 1, 0b0001), &[(1, 0b1001)]);
    assert_eq!(now(&mixed, 1), (0b1001, 1));
    assert_eq!(number(&mixed, 1, 0b1001), 12);
    let mut ended = mixed.clone();
    assert_eq!(note(&mut ended, 1, 2), 0);
    assert_eq!(now(&ended, 1), (0b1101, 2));
    assert_eq!(ended, taken(&mixed, &[(1, 0b0100)]));
}

#[test]
fn a_quorum_of_a_bundle_ends_the_round_in_every_group() {
    for n in LEGAL_SIZES {
        let group = group(n);
        let mut state = opened(n);
        for source in 1..n {
            vertices(&mut state, &[plain(1, source, 0)]);
        }
        let few = (1 << (group.quorum() - 1)) - 1;
        for (mask, current_round) in [(few, 1), (few | bit(n - 1), 2), (group.all(), 2)] {
            assert_eq!(now(&taken(&state, &[(1, mask)]), 1), (mask, current_round));
        }
        // Without a quorum of vertices nobody's timeouts end it.
        assert_eq!(now(&taken(&opened(n), &[(1, group.all())]), 1).1, 1);
    }
}

#[test]
fn the_current_round_jumps_and_never_falls() {
    let state = lacking_leader(0);
    let later = with(&state, &[(CURRENT_ROUND, 20)]);
    assert_eq!(now(&taken(&later, &[(1, 7)]), 1), (7, 20));
    // Round 32 without its leader's vertex: its bundle ends it, and round 1's does not.
    let mut state = opened(4);
    for round in 1..LAST_ROUND {
        let strong = if round == 1 { 0 } else { 15 };
        for source in 0..4 {
            vertices(&mut state, &[plain(round, source, strong)]);
        }
    }
    vertices(
        &mut state,
        &[0, 1, 2].map(|source| plain(LAST_ROUND, source, 15)),
    );
    let state = with(&state, &[(CURRENT_ROUND, 5)]);
    assert_eq!(now(&taken(&state, &[(1, 1)]), 1), (1, LAST_ROUND));
    let ended = taken(&state, &[(LAST_ROUND, 11)]);
    assert_eq!(now(&ended, LAST_ROUND), (11, LAST_CURRENT_ROUND));
    assert!(is_well_formed(&ended));
}

/// The round rule looks at the whole state; a refused bundle does not come to it.
#[test]
fn where_the_current_round_lags_only_an_admitted_bundle_raises_it() {
    let leader_held = with(&noted(state_s(), 9, 3), &[(CURRENT_ROUND, 1)]);
    let by_timeouts = with(&lacking_leader(0), &[(timeouts(1), 7), (timeouts(9), 3)]);
    for state in [leader_held, by_timeouts] {
        assert!(is_well_formed(&state));
        let refused = [(9, 3), (9, 0), (1, 0), (9, bit(4)), (LAST_ROUND + 1, 4)];
        let numbers = refused.map(|(round, mask)| number(&state, round, mask));
        assert_eq!(numbers, [12, 12, 12, 7, 5]);
        assert_eq!(now(&taken(&state, &[(9, 7)]), 9), (7, 2));
    }
}

#[test]
fn a_bundle_commits_nothing() {
    let mut state = state_s();
    firsts(&mut state, &[plain(2, 0, 7), plain(2, 1, 7)]);
    // A well formed state may have a committable round that no call has looked at yet.
    let votes = [HEARD, VOTES].map(|which| (mask_place(2, which), 7));
    let state = with(&state, &votes);
    let after = taken(&state, &[(1, 15), (2, 15)]);
    assert_eq!(status(&after).committed_round, 0);
    assert_eq!(lists(&after), (vec![], vec![]));
}

#[test]
fn members_of_a_carried_certificate_are_noted() {
    let mut state = lacking_leader(0);
    vertices(&mut state, &[record(2, 0, 14, 7, 0)]);
    assert_eq!(number(&state, 1, 7), 12);
    assert_eq!(number(&state, 1, 5), 12);
    assert_eq!(now(&taken(&state, &[(1, 13)]), 1), (15, 2));
}

#[test]
fn our_record_carries_a_bundle_s_members() {
    let mut state = taken(&lacking_leader(4), &[(1, 11)]);
    assert_eq!(sign_no_vote(&mut state.clone()).number, 0);
    let made = propose(&mut state, digest_of_tag(5)).record;
    let expected = record(2, 3, 14, 11, 0).with_tag(5);
    assert_eq!(made, expected.words());
}

/// All orders of some items.
fn orders(items: &[u32]) -> Vec<Vec<u32>> {
    if items.is_empty() {
        return vec![Vec::new()];
    }
    let mut all = Vec::new();
    for at in 0..items.len() {
        let mut rest = items.to_vec();
        let first = rest.remove(at);
        all.extend(
            orders(&rest)
                .into_iter()
                .map(|order| [vec![first], order].concat()),
        );
    }
    all
}

fn shuffled(rng: &mut Rng, mask: u32) -> Vec<u32> {
    let mut rest = mask;
    let mut order = Vec::new();
    while let Some(member) = rng.member(rest) {
        rest &= !bit(member);
        order.push(member);
    }
    order
}

/// Single timeouts in an order lead where the admitted bundle of their members did: those noted
/// before get 12, all others 0.
fn check_singles(state: &State, round: u32, order: &[u32], after: &State) {
    let before = state[timeouts(round)];
    let mut single = state.clone();
    for &signer in order {
        let expected = if before & bit(signer) != 0 { 12 } else { 0 };
        assert_eq!(note(&mut single, round, signer), expected);
    }
    assert_eq!(&single, after, "round {round}, {order:?}");
}

#[test]
fn a_bundle_ends_as_single_notes_in_every_order() {
    for noted_before in 0..16 {
        let state = noted(lacking_leader(0), 1, noted_before);
        for mask in (0..16).filter(|mask| mask & !noted_before != 0) {
            let after = taken(&state, &[(1, mask)]);
            let all: Vec<u32> = members(mask).collect();
            let new: Vec<u32> = members(mask & !noted_before).collect();
            for order in orders(&all).into_iter().chain(orders(&new)) {
                check_singles(&state, 1, &order, &after);
            }
        }
    }
}

/// What was seen of bundles on states of all kinds.
#[derive(Default)]
struct Seen {
    numbers: [usize; 13],
    /// Admitted bundles of several new members, with members noted before, and that moved the round.
    several: usize,
    overlapping: usize,
    moved: usize,
    /// Bundles with 12 where the round rule would move the round.
    lagging: usize,
}

/// The number that A3's text asks for.
fn expected_number(state: &State, round: u32, mask: u32) -> u32 {
    if state.len() != STATE_WORDS {
        return 1;
    }
    if !is_well_formed(state) {
        return 3;
    }
    if round == 0 || round > LAST_ROUND {
        return 5;
    }
    if (state[N]..u32::BITS).any(|member| mask & bit(member) != 0) {
        return 7;
    }
    let is_noted = |member: u32| state[timeouts(round)] & bit(member) != 0;
    if members(mask).all(is_noted) {
        return 12;
    }
    0
}

/// Whether the round rule would move the current round of a well formed state.
fn lags(state: &State) -> bool {
    let group = group(state[N]);
    let is_ended = |round: u32| {
        let held = state[mask_place(round, HELD)];
        let by_leader = held & bit(group.leader(round)) != 0;
        group.is_quorum(held) && (by_leader || group.is_quorum(state[timeouts(round)]))
    };
    (state[CURRENT_ROUND]..=LAST_ROUND).any(is_ended)
}

/// The whole law for one bundle on one state.
fn check(rng: &mut Rng, state: &State, (round, mask): (u32, u32), seen: &mut Seen) {
    let expected = expected_number(state, round, mask);
    seen.numbers[expected as usize] += 1;
    match bundled(state, round, mask) {
        Ok(after) => {
            assert_eq!(expected, 0, "round {round}, mask {mask:b}");
            check_admitted(rng, state, (round, mask), &after);
            let before = state[timeouts(round)];
            seen.several += usize::from((mask & !before).count_ones() > 1);
            seen.overlapping += usize::from(mask & before != 0);
            seen.moved += usize::from(state[CURRENT_ROUND] != after[CURRENT_ROUND]);
        }
        Err(number) => {
            assert_eq!(number, expected, "round {round}, mask {mask:b}");
            check_refused(state, (round, mask), number);
            seen.lagging += usize::from(number == 12 && lags(state));
        }
    }
}

/// Single timeouts of the new members, by rising member and in any order, and of all members in any
/// order, lead to the same words.
fn check_admitted(rng: &mut Rng, state: &State, (round, mask): (u32, u32), after: &State) {
    let new = mask & !state[timeouts(round)];
    assert_eq!(after[timeouts(round)], state[timeouts(round)] | mask);
    assert!(is_well_formed(after) && !lags(after));
    let rising: Vec<u32> = members(new).collect();
    for order in [rising, shuffled(rng, new), shuffled(rng, mask)] {
        check_singles(state, round, &order, after);
    }
}

/// Each member alone gets the bundle's number; of a bundle with 7, those at n or above get 6.
fn check_refused(state: &State, (round, mask): (u32, u32), number: u32) {
    for member in members(mask) {
        let mut single = state.clone();
        let alone = note(&mut single, round, member);
        if number != 7 {
            assert_eq!((alone, &single), (number, state));
        } else {
            assert_eq!(alone == 6, member >= state[N]);
        }
    }
}

/// The state; with another current round, mostly a lower one; with other timeouts; with some word
/// damaged; and at times of another size.
fn near(rng: &mut Rng, state: &State) -> Vec<State> {
    let all = group(state[N]).all();
    let lower = (CURRENT_ROUND, 1 + rng.below(state[CURRENT_ROUND]));
    let other = (CURRENT_ROUND, 1 + rng.below(LAST_CURRENT_ROUND));
    let signers = (1..=ROUNDS).map(|round| (timeouts(round), rng.subset(all, 60, 0)));
    let signers: Vec<(usize, u32)> = signers.collect();
    let damages = damage::all(rng, state);
    let damage = rng.pick(&damages).cloned().unwrap_or_default();
    let mut states = vec![
        state.clone(),
        with(state, &[lower]),
        with(state, &[&signers[..], &[lower]].concat()),
        with(state, &[&signers[..], &[other]].concat()),
        with(state, &damage),
    ];
    if rng.percent(10) {
        let mut other = state.clone();
        let sizes = [STATE_WORDS - 1, STATE_WORDS + 1];
        other.resize(sizes[rng.below(2) as usize], 0);
        states.push(other);
    }
    states
}

/// A round, mostly one that the state has reached, and a mask: of any members, of those noted before
/// with others or without, of nobody, with bits at n or above, or of any bits.
fn drawn(rng: &mut Rng, state: &State) -> (u32, u32) {
    let round = match rng.below(12) {
        0 => BAD_ROUNDS[rng.below(4) as usize],
        1 => 1 + rng.below(LAST_ROUND),
        _ => 1 + rng.below(state[CURRENT_ROUND].clamp(1, LAST_ROUND)),
    };
    let n = Group::new(state[N]).map_or(4, Group::n);
    let is_round = (1..=LAST_ROUND).contains(&round);
    let noted = if is_round { state[timeouts(round)] } else { 7 };
    let any = rng.word() & group(n).all();
    let mask = match rng.below(12) {
        0 => 0,
        1 => noted,
        2 => noted & any,
        3 => noted | bit(n + rng.below(u32::BITS - n)),
        4 => rng.word(),
        5..=7 => noted | any,
        _ => any,
    };
    (round, mask)
}

/// Over states that groups reach, and others near them.
#[test]
fn the_whole_law_on_states_of_all_kinds() {
    let mut rng = Rng::new(13);
    let mut seen = Seen::default();
    for n in LEGAL_SIZES {
        let options = Options {
            rounds: ROUNDS,
            ..Options::rough()
        };
        let runs = [simulate(3, n, &options), simulate_proposing(3, n, &options)];
        for calls in runs.iter().map(|run| &run.replicas[0]) {
            let every = 1 + calls.len() / 40;
            let mut state = vec![0; STATE_WORDS];
            for (at, call) in calls.iter().enumerate() {
                call.apply(&mut state);
                if at % every != 0 {
                    continue;
                }
                for state in near(&mut rng, &state) {
                    let bundle = drawn(&mut rng, &state);
                    check(&mut rng, &state, bundle, &mut seen);
                }
            }
        }
    }
    for number in [0, 1, 3, 5, 7, 12] {
        assert!(seen.numbers[number] > 20, "{:?}", seen.numbers);
    }
    for (what, count) in [
        ("several", seen.several),
        ("overlapping", seen.overlapping),
        ("moved", seen.moved),
        ("lagging", seen.lagging),
    ] {
        assert!(count > 50, "{what} {count}");
    }
}

/// Makes calls on one state, and on another with single timeouts in place of admitted bundles.
fn check_replica(rng: &mut Rng, calls: &[Call]) -> usize {
    let mut states = [vec![0; STATE_WORDS], vec![0; STATE_WORDS]];
    let [bundles, single] = &mut states;
    let mut taken = 0;
    for call in calls {
        let answer = call.apply(bundles);
        match *call {
            Call::Timeouts(round, mask) if answer.number == 0 => {
                taken += 1;
                let order = shuffled(rng, mask);
                order.iter().for_each(|&signer| {
                    note(single, round, signer);
                });
            }
            Call::Timeouts(..) => {}
            _ => assert_eq!(call.apply(single), answer, "{call:?}"),
        }
        assert_eq!(bundles, single, "{call:?}");
    }
    assert_eq!(lists(bundles), lists(single));
    taken
}

#[test]
fn a_replica_with_single_notes_instead_ends_alike() {
    let mut rng = Rng::new(14);
    let mut taken = 0;
    for n in LEGAL_SIZES {
        let options = Options {
            rounds: 16,
            bundles: 100,
            ..Options::typical()
        };
        let runs = [simulate(4, n, &options), simulate_proposing(4, n, &options)];
        for calls in runs.iter().flat_map(|run| &run.replicas[..2]) {
            taken += check_replica(&mut rng, calls);
        }
    }
    assert!(taken > 100, "{taken}");
}
