//! What is printed of the evidence: votes beside no-votes, and pairs of records with the words that
//! differ.

use std::ops::Range;

use reference::group::members;
use reference::layout::*;
use reference::record::Record;

use crate::evidence::{Kind, Sighting, Signed, TwoRecords, VoteAndNoVote};
use crate::report::Report;
use crate::text::{digest_name, members_named, vertex_name, Text};

/// So many pairs of records are printed whole; of the others, the words that differ.
const PRINTED_WHOLE: usize = 8;

impl Report<'_> {
    /// What shows who broke the rules, and where records differ by what may be damage.
    pub fn say_evidence(&self, text: &mut Text) {
        if !self.evidence.is_empty() {
            text.heading("WHAT SHOWS IT");
        }
        for found in &self.evidence.votes_and_no_votes {
            say_vote_and_no_vote(text, found);
        }
        say_pairs(text, &self.evidence.two_records, |found| {
            let (member, round) = (found.member, found.round);
            format!("Member {member} has two different records in round {round}")
        });
        if !self.differences.is_empty() {
            text.heading("WHERE THE RECORDS DIFFER, PERHAPS BY THE DAMAGE");
        }
        say_pairs(text, &self.differences, |found| {
            let (member, round) = (found.member, found.round);
            format!("The records of member {member} in round {round}")
        });
    }
}

/// The first pairs whole, the others by the words that differ.
fn say_pairs(text: &mut Text, pairs: &[TwoRecords], name: fn(&TwoRecords) -> String) {
    let (whole, others) = pairs.split_at(PRINTED_WHOLE.min(pairs.len()));
    for found in whole {
        text.say(1, &format!("{}:", name(found)));
        say_two_records(text, found);
    }
    for found in others {
        text.say(1, &format!("{}: {}.", name(found), differing_words(found)));
    }
}

fn say_vote_and_no_vote(text: &mut Text, found: &VoteAndNoVote) {
    let (member, round) = (found.member, found.round);
    let leader = format!("the leader of round {round}");
    text.say(
        1,
        &format!("Member {member} votes for {leader} and signs a no-vote against it:"),
    );
    let (side, kind) = found.vote;
    let record = format!("{} of round {}", kind_name(kind), round + 1);
    let vote = format!("the vote is its {record}, {side} sheet;");
    text.item(2, "-", &vote);
    let (side, signed) = found.no_vote;
    let signed = match signed {
        Signed::Certificate(id) => format!("in the certificate that {} carries", vertex_name(id)),
        Signed::Note => "a note".to_string(),
    };
    text.item(2, "-", &format!("the no-vote is {signed}, {side} sheet."));
}

/// All words of both records, or what is known of their votes.
fn say_two_records(text: &mut Text, found: &TwoRecords) {
    let [first, second] = [found.first, found.second];
    let (Some(a), Some(b)) = (first.record, second.record) else {
        for sighting in [first, second] {
            let (name, vote) = (sighting_name(&sighting), vote_name(found.round, &sighting));
            text.item(2, "-", &format!("{name}: {vote}."));
        }
        return;
    };
    let [first, second] = [first, second].map(|sighting| sighting_name(&sighting));
    text.raw(&format!("    {:<16}{first:<24}{second}", ""));
    for (place, (here, there)) in a.cell().into_iter().zip(b.cell()).enumerate() {
        let mark = match here == there {
            true => "",
            false => "<-- differs",
        };
        let name = word_name(place);
        text.raw(&format!("    {name:<16}{here:<24}{there:<24}{mark}"));
    }
    say_masks(text, &a, &b);
    if a.digest != b.digest {
        text.say(2, "The digest by bytes, in the first and in the second:");
        text.say(2, &digest_name(a.digest));
        text.say(2, &digest_name(b.digest));
    }
}

/// Who is in the masks that differ.
fn say_masks(text: &mut Text, first: &Record, second: &Record) {
    for (name, here, there) in [
        ("strong mask", first.strong, second.strong),
        ("timeout mask", first.timeouts, second.timeouts),
        ("no-vote mask", first.no_votes, second.no_votes),
    ] {
        let only = [here & !there, there & !here].map(|mask| members_named(members(mask)));
        if here != there {
            let [here, there] = only;
            let sentence =
                format!("The {name} has {here} only in the first, {there} only in the second.");
            text.say(2, &sentence);
        }
    }
}

/// The words that differ, with both values.
fn differing_words(found: &TwoRecords) -> String {
    let (Some(a), Some(b)) = (found.first.record, found.second.record) else {
        return "one votes, the other does not".to_string();
    };
    let words = a.cell().into_iter().zip(b.cell()).enumerate();
    let differing: Vec<String> = words
        .filter(|(_, (here, there))| here != there)
        .map(|(place, (here, there))| format!("{} {here} and {there}", word_name(place)))
        .collect();
    differing.join(", ")
}

fn sighting_name(sighting: &Sighting) -> String {
    format!("{}, {}", sighting.side, kind_name(sighting.kind))
}

fn kind_name(kind: Kind) -> &'static str {
    match kind {
        Kind::Vertex => "vertex",
        Kind::FirstMessage => "first message",
    }
}

/// What is known of a record's vote.
fn vote_name(round: u32, sighting: &Sighting) -> String {
    let votes = match sighting.votes {
        true => "votes",
        false => "does not vote",
    };
    format!("it {votes} for the leader of round {}", round - 1)
}

/// A word of a cell by name.
fn word_name(place: usize) -> String {
    let numbered = |name: &str, words: Range<usize>| format!("{name} {}", place - words.start + 1);
    match place {
        CELL_STRONG => "strong mask".to_string(),
        CELL_TIMEOUTS => "timeout mask".to_string(),
        CELL_NO_VOTES => "no-vote mask".to_string(),
        CELL_WEAK_COUNT => "weak count".to_string(),
        place if CELL_DIGEST.contains(&place) => numbered("digest word", CELL_DIGEST),
        _ => numbered("weak ref", CELL_WEAK),
    }
}
