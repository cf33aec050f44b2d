//! Helpers of the tests: states after calls, pairs of them, and what is found on a pair.

#![allow(dead_code)]

use reference::layout::STATE_WORDS;
use reference::record::Record;
use reference::Call;
use sidebyside::member::MemberState;
use sidebyside::origin::{make, of_bytes, Origin};
use sidebyside::page::Page;
use sidebyside::pair::Pair;
use sidebyside::report::Report;

pub const SIZES: [u32; 5] = [4, 7, 10, 13, 16];

/// The members of a group of four.
pub const ALL: [u32; 4] = [0, 1, 2, 3];

/// A record without certificates and weak ids, with a tag as 01's cases have them.
pub fn record(round: u32, source: u32, strong: u32) -> Record {
    let record = Record {
        round,
        source,
        strong,
        ..Record::default()
    };
    record.with_tag(10 * round + source)
}

pub fn vertex(record: Record) -> Call {
    Call::Vertex(record.words().to_vec())
}

/// The vertices of these members, all with one strong mask.
pub fn vertices(round: u32, sources: &[u32], strong: u32) -> Vec<Call> {
    let one = |&source: &u32| vertex(record(round, source, strong));
    sources.iter().map(one).collect()
}

/// The words after these calls.
pub fn words_after(calls: &[Call]) -> Vec<u32> {
    let mut words = vec![0; STATE_WORDS];
    for call in calls {
        make(call, &mut words);
    }
    words
}

/// The bytes of a stored state.
pub fn bytes_of(words: &[u32]) -> Vec<u8> {
    words.iter().flat_map(|word| word.to_le_bytes()).collect()
}

pub fn stored(words: Vec<u32>) -> MemberState {
    MemberState::new(words, Origin::Stored)
}

/// The state of an input of `sheetlog` with these calls, all of which lines stand for.
pub fn of_lines(calls: &[Call]) -> MemberState {
    let lines: String = calls.iter().map(|call| call.line() + "\n").collect();
    of_bytes(lines.as_bytes()).expect("some line is a call")
}

pub fn stored_pair(left: &[u32], right: &[u32]) -> Pair {
    Pair {
        left: stored(left.to_vec()),
        right: stored(right.to_vec()),
    }
}

/// A printed text on one line, so that sentences can be looked for.
pub fn printed(report: &Report) -> String {
    let words: Vec<String> = report
        .print()
        .split_whitespace()
        .map(String::from)
        .collect();
    words.join(" ")
}

/// The page of a report.
pub fn page_of(report: &Report) -> String {
    let text = report.print();
    Page {
        report,
        text: &text,
    }
    .render()
}

/// The tags of a page in their order, each without its brackets, after a test that they are nested, that
/// texts have no bare mark, and that every value stands in quotes.
pub fn tags(page: &str) -> Vec<&str> {
    let rest = page.strip_prefix("<!DOCTYPE html>").expect("it is HTML");
    let (mut open, mut found) = (Vec::new(), Vec::new());
    for piece in rest.split('<').skip(1) {
        let (tag, text) = piece.split_once('>').expect("a tag ends");
        assert!(!text.contains('>'), "{text}");
        for entity in text.split('&').skip(1) {
            let names = ["amp;", "lt;", "gt;", "quot;", "#39;"];
            assert!(names.iter().any(|name| entity.starts_with(name)), "{text}");
        }
        assert_eq!(tag.matches('"').count() % 2, 0, "{tag}");
        match (tag.strip_prefix('/'), tag.strip_suffix('/')) {
            (Some(name), _) => assert_eq!(open.pop(), Some(name)),
            (None, Some(tag)) => found.push(tag),
            (None, None) => {
                open.push(tag.split(' ').next().expect("a tag has a name"));
                found.push(tag);
            }
        }
    }
    assert!(open.is_empty() && found.first().is_some_and(|tag| tag.starts_with("html ")));
    found
}

pub fn report(pair: &Pair) -> Report<'_> {
    Report::new(pair, ["left", "right"])
}
