//! Odd inputs: what an argument is told to be, and that no words and no bytes stop the program.

mod common;

use common::*;
use reference::layout::*;
use reference::rng::Rng;
use reference::simulate::{simulate, Options};
use sidebyside::member::Soundness;
use sidebyside::origin::{of_bytes, Origin, STATE_BYTES};
use sidebyside::pair::Pair;

/// Everything that is made of a pair: a page of nested tags, and the text.
fn render(pair: &Pair) -> String {
    let report = report(pair);
    tags(&page_of(&report));
    printed(&report)
}

/// A state that is neither full nor empty.
fn some_state(n: u32) -> Vec<u32> {
    words_after(&simulate(u64::from(n), n, &Options::rough()).replicas[0])
}

/// Puts up to four odd words at places of any kind.
fn damage(rng: &mut Rng, words: &mut [u32]) {
    for _ in 0..=rng.below(4) {
        let places = [0..MASKS.start, MASKS, LEADER_LIST, JOURNAL, CELLS];
        let place = places[rng.below(5) as usize].clone();
        let at = place.start + rng.below(place.len() as u32) as usize;
        words[at] = match rng.below(4) {
            0 => words[at] ^ 1 << rng.below(32),
            1 => rng.below(40),
            2 => u32::MAX - rng.below(2),
            _ => rng.word(),
        };
    }
}

#[test]
fn damaged_states_are_named_and_drawn() {
    let mut rng = Rng::new(20);
    let (mut sound, mut broken) = (0, 0);
    for n in SIZES {
        let state = some_state(n);
        let by_itself = report(&stored_pair(&state, &state)).caught();
        for _ in 0..120 {
            let mut damaged = state.clone();
            damage(&mut rng, &mut damaged);
            let pair = stored_pair(&state, &damaged);
            let text = render(&pair);
            match pair.right.soundness {
                Soundness::Sound => sound += 1,
                Soundness::Broken(clause) => {
                    broken += 1;
                    let clause = clause.expect("both implementations say the same");
                    let text_of_clause = format!("The right sheet is NOT SOUND: {clause}.");
                    assert!(text.contains(&text_of_clause), "{text}");
                    assert!(!pair.agrees());
                    assert_eq!(report(&pair).caught(), by_itself);
                }
            }
        }
    }
    assert!(sound > 5 && broken > 100, "{sound} {broken}");
}

#[test]
fn any_words_are_drawn() {
    let mut rng = Rng::new(21);
    for round in 0..60 {
        let mut any = || -> Vec<u32> {
            let mut words: Vec<u32> = (0..STATE_WORDS)
                .map(|_| rng.word() >> rng.below(32))
                .collect();
            words[N] = [4, 16, 5, 0][round % 4];
            words
        };
        let (left, right) = (any(), any());
        render(&stored_pair(&left, &right));
    }
    for word in [0, 1, u32::MAX] {
        render(&stored_pair(&[word; STATE_WORDS], &some_state(4)));
    }
}

#[test]
fn any_bytes_are_told_apart() {
    let mut rng = Rng::new(22);
    for _ in 0..300 {
        let length =
            [0, 1, STATE_BYTES - 1, STATE_BYTES, STATE_BYTES + 1, 5_000][rng.below(6) as usize];
        let text = rng.percent(50);
        let bytes: Vec<u8> = (0..length)
            .map(|_| match text {
                true => b"OVFTN 0123456789\n"[rng.below(17) as usize],
                false => rng.word() as u8,
            })
            .collect();
        if let Ok(state) = of_bytes(&bytes) {
            render(&Pair {
                left: state.clone(),
                right: state,
            });
        }
    }
}

fn is_stored(bytes: &[u8]) -> bool {
    of_bytes(bytes).is_ok_and(|state| matches!(state.origin, Origin::Stored))
}

fn is_lines(bytes: &[u8]) -> bool {
    of_bytes(bytes).is_ok_and(|state| matches!(state.origin, Origin::Lines(_)))
}

/// The size alone does not tell: an input of `sheetlog` may have as many bytes as a state.
#[test]
fn a_text_of_the_size_of_a_state_is_an_input() {
    let mut text = b"O 4\n".to_vec();
    text.resize(STATE_BYTES, b'\n');
    assert!(is_lines(&text));
    text[STATE_BYTES - 1] = 0;
    assert!(is_stored(&text));
    assert!(is_stored(&[b'7'; STATE_BYTES]));
    assert!(is_stored(&[0; STATE_BYTES]));
    assert!(is_lines(b"O 4\n"));
    assert!(is_lines(b"?\0\nO 4\nT 1"));
}

#[test]
fn what_is_neither_is_told_why() {
    let older = vec![0; STATE_BYTES / STATE_WORDS * EARLIER_STATE_WORDS[0]];
    for (neither, why) in [
        (&b""[..], "it is empty"),
        (b"O 4", "no line feed at the end"),
        (b"O 4\r\n", "carriage return and line feed"),
        (b"L 4\n", "it has 4 bytes and not"),
        (&[0; STATE_BYTES - 1], "no line of it is a call"),
        (&[0; STATE_BYTES + 1], "no line of it is a call"),
        (&older, "an earlier version of the library"),
    ] {
        let said = of_bytes(neither).expect_err("it is neither");
        assert!(said.contains(why), "{said}");
    }
}

/// A stored state is read back, the lowest byte of a word first.
#[test]
fn stored_words_are_read_back() {
    for n in SIZES {
        let words = some_state(n);
        let state = of_bytes(&bytes_of(&words)).expect("it has its size");
        assert_eq!(state.words, words);
        assert!(state.is_sound());
        assert_eq!(state.decoded.map(|decoded| decoded.encode()), Some(words));
    }
}

/// What of an input made no call, and what was forgotten, is said before all else.
#[test]
fn lines_of_another_form_and_openings_are_said() {
    let text = b"O 4\nT 1 0\nT 1 0\nx\nO 4\nT 1 1\nT 9 9\nV 1 0 0 0 0 10 0 0 0 0 0 0\nT 1";
    let state = of_bytes(text).expect("some line is a call");
    let Origin::Lines(lines) = &state.origin else {
        panic!("a text is no stored state");
    };
    assert_eq!((lines.admitted, lines.refused), (4, 2));
    assert_eq!((lines.other, lines.older, lines.openings), (3, 1, 2));
    assert_eq!(state.words[mask_place(1, TIMEOUTS)], 2);
    let pair = Pair {
        right: state.clone(),
        left: state,
    };
    let report = report(&pair);
    let answer = report.answer().join(" ");
    assert!(
        answer.starts_with("Of 9 lines of the left input 3 are NO CALLS"),
        "{answer}"
    );
    assert!(
        answer.contains("The right input opens the sheet 2 times"),
        "{answer}"
    );
    let text = printed(&report);
    assert!(
        text.contains("The left input: 2 calls were refused."),
        "{text}"
    );
    assert!(
        text.contains("1 line has records of an earlier version of the library."),
        "{text}"
    );
}

/// A byte-order mark hides the opening, and words with the highest byte first are no state.
#[test]
fn odd_orders_of_bytes_are_said() {
    let marked = of_bytes(b"\xef\xbb\xbfO 4\nT 1 0\n").expect("some line is a call");
    let turned = some_state(4).into_iter().map(u32::swap_bytes).collect();
    let pair = Pair {
        left: marked,
        right: stored(turned),
    };
    let text = render(&pair);
    for said in [
        "The left sheet is NOT SOUND: the member count is 0: it was never opened.",
        "it begins with a byte-order mark",
        "on the left, all lines from the opening on",
        "Its words seem to have their highest byte first, not their lowest.",
        "on the right, another copy of the sheet",
    ] {
        assert!(text.contains(said), "{text}");
    }
}
