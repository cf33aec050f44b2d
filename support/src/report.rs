//! What is printed of two states: the answer, the states, where their lists part, who broke the rules,
//! and the lists in full.

use std::collections::BTreeSet;

use reference::group::Group;
use reference::layout::*;

use crate::evidence::{Evidence, TwoRecords};
use crate::faults::{faults, Fault};
use crate::member::{MemberState, Soundness};
use crate::origin::{Lines, Origin};
use crate::pair::{List, Order, Pair, Side, LISTS, SIDES};
use crate::text::{counted, entry_name, members_named, vertex_name, Text};
use crate::why::standing;

/// Two states, what was found on them, and their names for the reader.
pub struct Report<'a> {
    pub pair: &'a Pair,
    pub names: [&'a str; 2],
    /// Of each side that is well formed: what it has that the rules do not give.
    pub faults: [Vec<Fault>; 2],
    /// What the well formed states show, if they are of one group.
    pub evidence: Evidence,
    /// Where a state is not well formed: the records of one round and member that are not the same.
    pub differences: Vec<TwoRecords>,
}

impl<'a> Report<'a> {
    pub fn new(pair: &'a Pair, names: [&'a str; 2]) -> Report<'a> {
        let of_side = |side| match &pair.get(side).decoded {
            Some(state) if pair.get(side).is_sound() => faults(state),
            _ => Vec::new(),
        };
        let faults = SIDES.map(of_side);
        let evidence = Evidence::of(pair, &believed(pair, &faults));
        let may_differ = pair.group().is_some() && !pair.are_sound();
        let both = if may_differ { &SIDES[..] } else { &[] };
        let mut differences = Evidence::of(pair, both).two_records;
        differences.retain(|found| !evidence.two_records.contains(found));
        Report {
            pair,
            names,
            faults,
            evidence,
            differences,
        }
    }

    /// The group that the evidence is about.
    pub fn group(&self) -> Option<Group> {
        let sound = SIDES
            .into_iter()
            .find(|&side| self.pair.get(side).is_sound());
        sound.and_then(|side| self.pair.group_of(side))
    }

    /// Whether some list parts.
    pub fn parts(&self) -> bool {
        LISTS.iter().any(|list| list.order(self.pair).parts())
    }

    /// The members caught.
    pub fn caught(&self) -> BTreeSet<u32> {
        self.evidence.members()
    }

    /// The rounds of the entries at which lists part.
    pub fn parting_rounds(&self) -> Vec<u32> {
        let entries = |list: List| match list.order(self.pair) {
            Order::Part(at) => list.of(self.pair).map(|list| round_of(list[at])).to_vec(),
            _ => Vec::new(),
        };
        LISTS.into_iter().flat_map(entries).collect()
    }

    pub fn print(&self) -> String {
        let mut text = Text::default();
        for (side, name) in SIDES.into_iter().zip(self.names) {
            text.raw(&format!("{:<6} {name}", format!("{side}:")));
        }
        text.heading("ANSWER");
        for sentence in self.answer() {
            text.say(1, &sentence);
        }
        self.say_states(&mut text);
        self.say_first_differences(&mut text);
        self.say_findings(&mut text);
        for list in LISTS {
            self.say_lists(&mut text, list);
        }
        text.finish()
    }

    /// The answer in a few sentences.
    pub fn answer(&self) -> Vec<String> {
        let mut answer = self.comparable_sentences();
        answer.extend(LISTS.map(|list| order_sentence(list, self.pair)));
        if self.pair.are_comparable() && !self.parts() && !self.pair.agrees() {
            answer.push(
                "One sheet is ahead by leaders and the other by journal: they do NOT AGREE."
                    .to_string(),
            );
        }
        let two = self.pair.entries_of_two_records();
        if let Some(&first) = two.first() {
            let entries = counted(two.len(), "entry", "entries");
            answer.push(format!(
                "The sheets hold DIFFERENT RECORDS for {entries} that both journals have. The first is \
                 entry {}, {}.",
                first + 1,
                vertex_name(self.pair.left.journal[first])
            ));
        }
        answer.extend(self.found_sentences());
        answer
    }

    /// What must be known before the lists are compared: damage, two groups, and inputs of which not
    /// all was taken.
    fn comparable_sentences(&self) -> Vec<String> {
        let mut sentences: Vec<String> = SIDES
            .into_iter()
            .flat_map(|side| side_sentences(side, self.pair.get(side)))
            .collect();
        if !self.pair.are_sound() {
            sentences.push("A sheet that is not sound has no lists by the rules.".to_string());
            sentences.push("They are compared here as its words have them.".to_string());
        } else if self.pair.group().is_none() {
            let [left, right] = SIDES.map(|side| self.pair.get(side).words[N]);
            sentences.push(format!(
                "The sheets are NOT OF ONE GROUP: {left} members on the left, {right} on the right."
            ));
        }
        sentences
    }

    /// Which state the rules do not give, and who is caught.
    fn found_sentences(&self) -> Vec<String> {
        let mut found = Vec::new();
        for (side, faults) in SIDES.into_iter().zip(&self.faults) {
            if !faults.is_empty() {
                found.push(format!(
                    "The {side} sheet is NOT WHAT THE RULES GIVE from what it holds."
                ));
            }
        }
        let caught = self.caught();
        if !caught.is_empty() {
            let caught = members_named(caught);
            found.push(format!(
                "By what the sheets show, {caught} BROKE THE RULES."
            ));
        }
        found
    }

    /// What the states are, row by row: a label, and a value for each side.
    pub fn facts(&self) -> Vec<(&'static str, [String; 2])> {
        type Fact = fn(&MemberState) -> String;
        let facts: [(&str, Fact); 10] = [
            ("read from", |member| origin_name(&member.origin)),
            ("sound", |member| yes_or_no(member.is_sound()).to_string()),
            ("members (n)", |member| member.words[N].to_string()),
            ("at most faulty (f)", faulty),
            ("own member", own_member),
            ("current round", |member| {
                member.words[CURRENT_ROUND].to_string()
            }),
            ("committed round", |member| {
                member.words[COMMITTED_ROUND].to_string()
            }),
            ("leaders listed", |member| {
                member.words[LEADER_COUNT].to_string()
            }),
            ("journal entries", |member| {
                member.words[JOURNAL_COUNT].to_string()
            }),
            ("vertices held", |member| member.held_count().to_string()),
        ];
        let of_both = |fact: Fact| SIDES.map(|side| fact(self.pair.get(side)));
        facts.map(|(label, fact)| (label, of_both(fact))).to_vec()
    }

    fn say_states(&self, text: &mut Text) {
        text.heading("THE SHEETS");
        text.raw(&format!("  {:<20}{:<28}right", "", "left"));
        for (label, [left, right]) in self.facts() {
            text.raw(&format!("  {label:<20}{left:<28}{right}"));
        }
        for side in SIDES {
            if let Origin::Lines(lines) = &self.pair.get(side).origin {
                say_lines(text, side, lines);
            }
        }
        let [left, right] = SIDES.map(|side| self.pair.get(side).words[OWN]);
        let is_same = self.pair.are_comparable() && left == right;
        if let (Some(own), true) = (left.checked_sub(1), is_same) {
            text.say(1, &format!("Both are sheets of member {own}."));
        }
    }

    /// The first places at which the lists have not the same entry, and how the vertices there stand.
    fn say_first_differences(&self, text: &mut Text) {
        if self.pair.are_sound() && self.pair.group().is_none() {
            return;
        }
        let mut ids = Vec::new();
        for list in LISTS {
            let Some(at) = list.order(self.pair).first_difference(list.of(self.pair)) else {
                continue;
            };
            if ids.is_empty() {
                text.heading(match (self.parts(), self.pair.are_comparable()) {
                    (true, _) => "WHERE THEY PART",
                    (false, true) => "WHERE ONE IS BEHIND",
                    (false, false) => "WHERE ONE IS LONGER",
                });
            }
            let [left, right] = list.of(self.pair).map(|list| list.get(at).copied());
            let name = |id: Option<u32>| id.map_or("no entry".to_string(), vertex_name);
            let (several, entry) = (list.several, at + 1);
            text.say(1, &format!("In the {several}, at entry {entry}:"));
            text.item(2, " left:", &name(left));
            text.item(2, "right:", &name(right));
            ids.extend(left.into_iter().chain(right));
        }
        let ids: BTreeSet<u32> = ids.into_iter().collect();
        for id in ids {
            text.say(1, &format!("{}:", vertex_name(id)));
            for side in SIDES {
                let sentences = standing(self.pair, side, id).join(" ");
                text.item(2, &format!("{side:>5}:"), &sentences);
            }
        }
    }

    /// Both lists, entry by entry.
    fn say_lists(&self, text: &mut Text, list: List) {
        let [left, right] = list.of(self.pair);
        text.heading(&format!("THE {}", list.several.to_uppercase()));
        if left.is_empty() && right.is_empty() {
            text.say(
                1,
                &format!("Neither sheet has an entry in its {}.", list.one),
            );
            return;
        }
        text.raw(&format!("  entry  {:<26}right", "left"));
        let parts = list.order(self.pair);
        for at in 0..left.len().max(right.len()) {
            let [here, there] = [left, right].map(|list| list.get(at));
            let mark = match (here, there) {
                _ if parts == Order::Part(at) => "<-- they part here",
                (Some(here), Some(there)) if here != there => "not the same",
                _ => "",
            };
            let [here, there] =
                [here, there].map(|id| id.map_or("-".to_string(), |&id| entry_name(id)));
            text.raw(&format!("  {:>5}  {here:<26}{there:<26}{mark}", at + 1));
        }
    }
}

/// How two lists stand. Only lists of comparable states can agree.
fn order_sentence(list: List, pair: &Pair) -> String {
    let (several, entries) = (list.several, |count| counted(count, "entry", "entries"));
    match list.order(pair) {
        Order::Equal => {
            let count = entries(list.of(pair)[0].len());
            format!("The {several} are the same: {count}.")
        }
        Order::Ahead(side, more) if pair.are_comparable() => {
            let more = entries(more);
            format!("The {several} agree: the {side} one is ahead by {more}.")
        }
        Order::Ahead(side, more) => {
            format!(
                "Of the {several} the {side} one is longer by {}.",
                entries(more)
            )
        }
        Order::Part(at) => format!("The {several} PART at entry {}.", at + 1),
    }
}

/// The sides whose states are well formed and of one group, one that has no faults first.
fn believed(pair: &Pair, faults: &[Vec<Fault>; 2]) -> Vec<Side> {
    let mut sides: Vec<Side> = SIDES.to_vec();
    sides.retain(|&side| pair.get(side).is_sound());
    sides.sort_by_key(|&side| !faults[side as usize].is_empty());
    if sides.len() == SIDES.len() && pair.group().is_none() {
        sides.clear();
    }
    sides
}

/// What must be known of one side.
fn side_sentences(side: Side, member: &MemberState) -> Vec<String> {
    let mut sentences = Vec::new();
    if let Soundness::Broken(clause) = member.soundness {
        let clause = clause.map_or("no clause is named".to_string(), |it| it.to_string());
        sentences.push(format!("The {side} sheet is NOT SOUND: {clause}."));
        if matches!(member.origin, Origin::Stored)
            && Group::new(member.words[N].swap_bytes()).is_some()
        {
            sentences.push(
                "Its words seem to have their highest byte first, not their lowest.".to_string(),
            );
        }
    }
    if let Origin::Lines(lines) = &member.origin {
        let (other, all) = (lines.other, lines.calls() + lines.other);
        if other > 0 {
            let other = counted(other, "is NO CALL", "are NO CALLS");
            sentences.push(format!(
                "Of {all} lines of the {side} input {other}: what was to be said there is missing."
            ));
        }
        if lines.openings > 1 {
            sentences.push(format!(
                "The {side} input opens the sheet {} times: what came before the last is forgotten.",
                lines.openings
            ));
        }
    }
    sentences
}

/// What was refused of a `sheetlog` input, and why lines may be of another form.
fn say_lines(text: &mut Text, side: Side, lines: &Lines) {
    let mut say = |sentence: &str| text.say(1, &format!("The {side} input: {sentence}"));
    if lines.refused > 0 {
        let calls = counted(lines.refused, "call was", "calls were");
        say(&format!("{calls} refused."));
    }
    if lines.conflicts > 0 {
        let records = counted(lines.conflicts, "record was", "records were");
        say(&format!(
            "{records} refused beside another one of the same round and member. What is refused \
             catches nobody here: ask for it."
        ));
    }
    if lines.older > 0 {
        let records = counted(lines.older, "line has", "lines have");
        say(&format!(
            "{records} records of an earlier version of the library."
        ));
    }
    if lines.has_mark {
        say("it begins with a byte-order mark, so that its first line is no call.");
    }
}

fn yes_or_no(is: bool) -> &'static str {
    match is {
        true => "yes",
        false => "NO",
    }
}

fn faulty(member: &MemberState) -> String {
    Group::new(member.words[N]).map_or("-".to_string(), |group| group.f().to_string())
}

fn own_member(member: &MemberState) -> String {
    match member.words[OWN].checked_sub(1) {
        Some(own) => own.to_string(),
        None => "none, a watcher's".to_string(),
    }
}

fn origin_name(origin: &Origin) -> String {
    match origin {
        Origin::Stored => "a stored sheet".to_string(),
        Origin::Lines(lines) => format!("{} of sheetlog", counted(lines.calls(), "call", "calls")),
    }
}
