//! How one vertex is drawn, around the point 0 0, and what its tooltip says.

use reference::group::{members, Group};
use reference::layout::{member_of, round_of};
use reference::record::Record;

use crate::pair::{Beside, Pair, Side};
use crate::text::{digest_name, members_named, vertex_name};

/// Half the width of a vertex, and of the outer outline of a committed leader.
pub const HALF: u32 = 13;
const OUTER: u32 = HALF + 5;
/// The badge of a vertex that the other side lacks or has otherwise: its place and its size.
const BADGE_AT: u32 = HALF - 1;
const BADGE: u32 = 7;

/// What is shown of a vertex.
#[derive(Clone, Copy, Debug)]
pub struct Node {
    pub is_leader: bool,
    /// Whether it is in the leader list.
    pub is_committed: bool,
    pub journal_entry: Option<usize>,
    pub beside: Beside,
    /// Whether the other journal has it at another place or not, and whether only this leader list
    /// has it.
    pub is_moved: bool,
    pub is_listed_alone: bool,
}

impl Node {
    pub fn of(pair: &Pair, side: Side, group: Group, record: &Record) -> Node {
        let (here, there, id) = (pair.get(side), pair.get(side.other()), record.id());
        let [listed, listed_there] = [here, there].map(|member| member.leader_entry(id).is_some());
        Node {
            is_leader: group.leader_id(record.round) == id,
            is_committed: listed,
            journal_entry: here.journal_entry(id),
            beside: pair.beside(side, id),
            is_moved: here.journal_entry(id) != there.journal_entry(id),
            is_listed_alone: listed && !listed_there,
        }
    }

    /// The classes that the style sheet knows, each after a space.
    pub fn classes(&self) -> String {
        let classes = [
            (self.is_leader, " leader"),
            (self.is_committed, " committed"),
            (self.journal_entry.is_some(), " ordered"),
            (self.beside != Beside::Same, " alone"),
            (self.is_moved, " moved"),
            (self.is_listed_alone, " listed-alone"),
        ];
        let given = classes.iter().filter(|(is, _)| *is);
        given.map(|(_, class)| *class).collect()
    }

    /// The outlines, the journal entry and the badge.
    pub fn marks(&self) -> String {
        let outer = self.is_committed.then(|| self.outline("outer", OUTER));
        let inner = self.outline("inner", HALF);
        let entry = self
            .journal_entry
            .map(|entry| format!("<text class=\"entry\">{entry}</text>"));
        let badge = match self.beside {
            Beside::Same => None,
            Beside::OnlyHere => Some(badge("+")),
            Beside::Differs => Some(badge("≠")),
        };
        [outer, Some(inner), entry, badge]
            .into_iter()
            .flatten()
            .collect()
    }

    fn outline(&self, class: &str, half: u32) -> String {
        match self.is_leader {
            true => square(class, half),
            false => format!("<circle class=\"{class}\" r=\"{half}\"/>"),
        }
    }
}

fn badge(mark: &str) -> String {
    format!(
        "<circle class=\"badge\" cx=\"{BADGE_AT}\" cy=\"-{BADGE_AT}\" r=\"{BADGE}\"/>\
         <text class=\"badge-mark\" x=\"{BADGE_AT}\" y=\"-{BADGE_AT}\">{mark}</text>"
    )
}

fn square(class: &str, half: u32) -> String {
    let size = 2 * half;
    format!(
        "<rect class=\"{class}\" x=\"-{half}\" y=\"-{half}\" width=\"{size}\" height=\"{size}\"/>"
    )
}

/// The empty outline where a leader is not held.
pub fn lacking() -> String {
    square("lacking", HALF)
}

/// All that the state says of a vertex, by lines.
pub fn details(pair: &Pair, side: Side, group: Group, record: &Record) -> String {
    let leader = match group.leader_id(record.round) == record.id() {
        true => "the leader of its round",
        false => "not the leader of its round",
    };
    let mut lines = vec![
        format!("{}, {leader}", vertex_name(record.id())),
        format!(
            "strong parents: {}",
            round_and_member(record.strong_parents())
        ),
        format!("weak parents: {}", round_and_member(record.weak_parents())),
        format!(
            "timeout signers: {}",
            members_named(members(record.timeouts))
        ),
        format!(
            "no-vote signers: {}",
            members_named(members(record.no_votes))
        ),
        format!("digest: {}", digest_name(record.digest)),
    ];
    lines.extend(standing(pair, side, record.id()));
    lines.join("\n")
}

/// Where the vertex stands in the lists, and beside the other side.
fn standing(pair: &Pair, side: Side, id: u32) -> [String; 3] {
    let other = side.other();
    let [journal, listed] = pair.get(side).places(id);
    let beside = match pair.beside(side, id) {
        Beside::Same => format!("the {other} sheet holds the same"),
        Beside::OnlyHere => format!("the {other} sheet does not hold it"),
        Beside::Differs => format!("the {other} sheet holds a different one"),
    };
    [journal, listed, beside]
}

/// Parents as round/member.
fn round_and_member(ids: impl Iterator<Item = u32>) -> String {
    let named: Vec<String> = ids
        .map(|id| format!("{}/{}", round_of(id), member_of(id)))
        .collect();
    match named.is_empty() {
        true => "none".to_string(),
        false => named.join(", "),
    }
}
