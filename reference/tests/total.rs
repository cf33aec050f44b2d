//! Calls on any slices of any words: no panic, and a refusal leaves every word as it was.

mod common;

use common::*;
use reference::harness::MOST_BUFFER_WORDS;
use reference::layout::*;
use reference::rng::Rng;
use reference::*;

fn any_call(rng: &mut Rng) -> Call {
    let small = rng.percent(70);
    let word = |rng: &mut Rng| if small { rng.below(40) } else { rng.word() };
    let length = if rng.percent(80) {
        RECORD_WORDS as u32
    } else {
        rng.below(RECORD_WORDS as u32 + 18)
    };
    let words: Vec<u32> = (0..length).map(|_| word(rng)).collect();
    let buffer_length = if rng.percent(80) {
        BUFFER_WORDS as u32
    } else {
        rng.below(MOST_BUFFER_WORDS)
    };
    let count = rng.below(4);
    let mut buffer: Vec<u32> = (0..buffer_length).map(|_| word(rng)).collect();
    if rng.percent(50) {
        let used = buffer_end(count as usize);
        buffer.iter_mut().skip(used).for_each(|word| *word = 0);
        buffer.iter_mut().take(1).for_each(|word| *word = count);
    }
    match rng.below(9) {
        8 => Call::VertexWith(buffer, words),
        0 => Call::Open(word(rng), word(rng)),
        1 => Call::Vertex(words),
        2 => Call::First(words),
        3 => Call::Timeout(word(rng), word(rng)),
        4 => Call::NoVote(word(rng), word(rng)),
        5 => Call::Propose(simulate::digests::any(rng)),
        6 => Call::Timeouts(word(rng), word(rng)),
        _ => Call::SignNoVote,
    }
}

fn call_everything(rng: &mut Rng, state: &mut State) {
    let k = if rng.percent(50) {
        rng.below(600)
    } else {
        rng.word()
    };
    let (leaders, journal) = (hand_leaders(state, k), hand_journal(state, k));
    assert_eq!(
        (ask_leaders(state, k), ask_journal(state, k)),
        (leaders.0, journal.0)
    );
    let well_formed = is_well_formed(state);
    assert_eq!(status(state).number == 0, well_formed);
    let before = state.clone();
    let call = any_call(rng);
    let answer = call.apply(state);
    if answer.number == 0 {
        assert!(is_well_formed(state), "{call:?}");
    } else {
        assert_eq!(*state, before, "{call:?}");
    }
}

#[test]
fn any_length_and_words() {
    let mut rng = Rng::new(1);
    for _ in 0..300 {
        let length = match rng.below(3) {
            0 => rng.below(20) as usize,
            1 => STATE_WORDS - 1 + rng.below(3) as usize,
            _ => rng.below(2 * STATE_WORDS as u32) as usize,
        };
        let top = if rng.percent(50) { 40 } else { u32::MAX };
        let mut state: State = (0..length).map(|_| rng.below(top)).collect();
        call_everything(&mut rng, &mut state);
    }
}

#[test]
fn a_well_formed_state_with_changed_words() {
    let mut rng = Rng::new(2);
    let (mut still, mut broken) = (0, 0);
    for round in 0..6_000 {
        let mut state = rich_state();
        for _ in 0..=rng.below(2) {
            let tops = [
                mask_place(3, NO_VOTES),
                JOURNAL.start + 4,
                cell_place(4, 0).start,
                STATE_WORDS,
            ];
            let at = rng.below(tops[round % 4] as u32) as usize;
            state[at] = if rng.percent(50) {
                rng.below(40)
            } else {
                state[at] ^ 1 << rng.below(32)
            };
        }
        *if is_well_formed(&state) {
            &mut still
        } else {
            &mut broken
        } += 1;
        for _ in 0..3 {
            call_everything(&mut rng, &mut state);
        }
    }
    assert!(still > 100 && broken > 1_000, "{still} {broken}");
}

#[test]
fn simulated_calls_on_damaged_states() {
    let mut rng = Rng::new(3);
    for n in [4, 16] {
        let run = simulate::simulate(9, n, &simulate::Options::wild());
        let mut state = vec![0; STATE_WORDS];
        for (at, call) in run.replicas[0].iter().enumerate() {
            let number = call.apply(&mut state).number;
            assert!(number != 0 || is_well_formed(&state), "{call:?}");
            if at % 20 == 0 {
                let mut damaged = state.clone();
                damaged[rng.below(STATE_WORDS as u32) as usize] ^= 1 << rng.below(32);
                call_everything(&mut rng, &mut damaged);
            }
        }
    }
}
