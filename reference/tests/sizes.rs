//! The numbers of the documents' layout (01, "Records and sheet", and 02, requests A1, A5 and A7).

mod common;

use common::in_full;
use reference::layout::*;
use reference::line::LONGEST_LINE;

#[test]
fn a_record() {
    assert_eq!((RECORD_WORDS, CELL_WORDS), (19, 17));
    assert_eq!((RECORD_ROUND, RECORD_SOURCE, RECORD_CELL), (0, 1, 2..19));
    let masks = [CELL_STRONG, CELL_TIMEOUTS, CELL_NO_VOTES].map(record_word);
    assert_eq!(masks, [2, 3, 4]);
    let digest: Vec<usize> = CELL_DIGEST.map(record_word).collect();
    assert_eq!(digest, [5, 6, 7, 8, 9, 10, 11, 12]);
    assert_eq!(record_word(CELL_WEAK_COUNT), 13);
    let weak: Vec<usize> = CELL_WEAK.map(record_word).collect();
    assert_eq!(weak, [14, 15, 16, 17, 18]);
}

#[test]
fn a_state() {
    assert_eq!(STATE_WORDS, 9_448);
    let head = [
        N,
        CURRENT_ROUND,
        COMMITTED_ROUND,
        LEADER_COUNT,
        JOURNAL_COUNT,
        OWN,
        MADE_ROUNDS,
        SIGNED_NO_VOTES,
    ];
    assert_eq!(head, [0, 1, 2, 3, 4, 5, 6, 7]);
    let kinds = [HELD, HEARD, VOTES, TIMEOUTS, NO_VOTES, ORDERED];
    assert_eq!((MASKS, MASKS_PER_ROUND), (8..200, kinds.len()));
    assert_eq!(
        kinds.map(|mask| mask_place(1, mask)),
        [8, 9, 10, 11, 12, 13]
    );
    assert_eq!(mask_place(32, ORDERED), 199);
    assert_eq!((LEADER_LIST, JOURNAL), (200..232, 232..744));
    assert_eq!(CELLS, 744..9_448);
    assert_eq!(cell_place(1, 0), 744..761);
    assert_eq!(cell_place(2, 3), 1_067..1_084);
    assert_eq!(cell_place(32, 15).end, 9_448);
}

#[test]
fn a_pending_buffer() {
    assert_eq!((BUFFER_WORDS, BUFFER_SLOTS), (609, 32));
    assert_eq!((BUFFER_COUNT, BUFFER_RECORDS), (0, 1));
    assert_eq!([1, 2, 32].map(buffer_end), [20, 39, 609]);
}

#[test]
fn a_line() {
    let line = "V 1 0 0 0 0 10 0 0 0 0 0 0 0 0 0 0 0 0 0\n";
    assert_eq!(in_full("V 1 0 0 0 0 10 0 0 0 0 0 0"), line);
    assert_eq!(LONGEST_LINE, 210);
}
