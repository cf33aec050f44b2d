//! The page that `--html` writes: one file, with nothing from elsewhere and without scripts. It is HTML
//! and well formed XML as well.

use std::collections::BTreeSet;

use reference::layout::round_of;
use reference::state::ReplicaState;

use crate::drawing::{label, partings, ring, Drawing, LABEL_ABOVE};
use crate::node::{lacking, Node};
use crate::pair::{Beside, Pair, Side, SIDES};
use crate::report::Report;
use crate::text::{is_plain, vertex_name};

const STYLE: &str = include_str!("page.css");
/// A graph has at least so many columns.
const FEWEST_COLUMNS: u32 = 2;

/// What the legend says of the graphs, and of each mark, in the order of `marks`.
const ABOUT: &str = "Rounds are columns and members are rows. Edges lead from a vertex to its parents, \
    which are on the left. Point at a vertex to read all that the sheet says of it. One colour marks \
    what the other sheet does not have or has otherwise. Where a row says that a member is caught, \
    the report at the end says by what.";
const MEANINGS: [&str; 15] = [
    "A vertex that is held and not ordered.",
    "A vertex that is held and ordered. The number is its journal entry.",
    "A square: the vertex of its round's leader.",
    "A double outline: a committed leader, one of the leader list.",
    "The place of a leader whose vertex is not held.",
    "+ The other sheet does not hold this vertex.",
    "≠ The other sheet holds a different vertex here.",
    "An underlined number: the other journal does not have it, or has it at another place.",
    "A dashed outer line: the other leader list does not have this leader.",
    "The first entry at which the journal, the leader list or both part from the other sheet's.",
    "A strong edge, to a parent in the round before.",
    "A weak edge, to a parent in an earlier round.",
    "An edge of a vertex that the other sheet does not hold.",
    "An edge that the other sheet's vertex does not have.",
    "The chain: a strong path from a committed leader to the one before it in the list.",
];

/// What the page shows.
pub struct Page<'a> {
    pub report: &'a Report<'a>,
    /// All that is printed.
    pub text: &'a str,
}

impl Page<'_> {
    pub fn render(&self) -> String {
        let [left, right] = self.report.names.map(escaped);
        let caught = self.report.caught();
        let graphs: String = SIDES.map(|side| self.graph(side, &caught)).concat();
        format!(
            "<!DOCTYPE html>\n\
             <html xmlns=\"http://www.w3.org/1999/xhtml\" lang=\"en\">\n<head>\n\
             <meta charset=\"utf-8\"/>\n\
             <meta name=\"viewport\" content=\"width=device-width, initial-scale=1\"/>\n\
             <title>{left} and {right}, side by side</title>\n<style>\n{STYLE}</style>\n</head>\n\
             <body>\n<h1>Two sheets side by side</h1>\n\
             <section class=\"answer\">\n{answer}</section>\n{table}{legend}{graphs}\
             <section class=\"report\">\n<h2>The whole report</h2>\n<pre>{text}</pre>\n</section>\n\
             </body>\n</html>\n",
            answer = paragraphs(&self.report.answer()),
            table = self.table(),
            legend = legend(),
            text = escaped(self.text),
        )
    }

    fn name(&self, side: Side) -> String {
        format!("<bdi>{}</bdi>", escaped(self.report.names[side as usize]))
    }

    fn table(&self) -> String {
        let row = |(fact, [left, right]): (&str, [String; 2])| {
            format!("<tr><th scope=\"row\">{fact}</th><td>{left}</td><td>{right}</td></tr>\n")
        };
        let facts = self.report.facts().into_iter();
        format!(
            "<table>\n<thead><tr><td></td><th scope=\"col\">left sheet</th>\
             <th scope=\"col\">right sheet</th></tr></thead>\n<tbody>\n{}{}</tbody>\n</table>\n",
            row(("file", SIDES.map(|side| self.name(side)))),
            facts.map(row).collect::<String>()
        )
    }

    /// The heading of a side, what is to be said of it, and its graph.
    fn graph(&self, side: Side, caught: &BTreeSet<u32>) -> String {
        let pair = self.report.pair;
        let said = paragraphs(&said_of(pair, side));
        let drawn = |state: &ReplicaState| {
            let columns = self.columns();
            Drawing {
                pair,
                side,
                state,
                columns,
                caught,
            }
            .svg()
        };
        format!(
            "<section class=\"side\">\n<h2>The {side} sheet: {}</h2>\n{said}\
             <div class=\"scroll\">\n{}</div>\n</section>\n",
            self.name(side),
            pair.get(side)
                .decoded
                .as_ref()
                .map(drawn)
                .unwrap_or_default()
        )
    }

    /// The last round in which either side holds a vertex.
    fn columns(&self) -> u32 {
        let pair = self.report.pair;
        let last = SIDES.map(|side| pair.get(side).vertices().keys().next_back().copied());
        let rounds = last.into_iter().flatten().map(round_of);
        rounds.fold(FEWEST_COLUMNS, u32::max)
    }
}

/// Whether a side can be drawn, and where its lists part from the other's.
fn said_of(pair: &Pair, side: Side) -> Vec<String> {
    let here = pair.get(side);
    let mut said = Vec::new();
    if here.decoded.is_none() {
        said.push("This sheet is not sound: n is not legal. It cannot be drawn.".to_string());
    } else if !here.is_sound() {
        said.push(
            "This sheet is not sound. It is drawn as it stands, without the held records that do \
             not pass questions 5 to 11."
                .to_string(),
        );
    }
    said.extend(partings(pair, side).into_iter().map(|parting| {
        let (list, entry, id) = (parting.list, parting.entry, vertex_name(parting.id));
        format!("The {list} parts from the other at entry {entry}, which is {id} here.")
    }));
    said
}

/// Every mark of the graphs, with its meaning.
fn legend() -> String {
    let item = |(mark, meaning): (String, &str)| {
        format!(
            "<li><svg xmlns=\"http://www.w3.org/2000/svg\" viewBox=\"-56 -34 112 58\" width=\"112\" \
             height=\"58\" aria-hidden=\"true\">{mark}</svg><span>{meaning}</span></li>\n"
        )
    };
    let items: String = marks().into_iter().zip(MEANINGS).map(item).collect();
    format!(
        "<section class=\"legend\">\n<h2>What the graphs show</h2>\n<p>{ABOUT}</p>\n\
         <ul>\n{items}</ul>\n</section>\n"
    )
}

/// The marks. Their classes are none of those by which vertices and edges of a graph are counted.
fn marks() -> [String; MEANINGS.len()] {
    let node = |change: fn(&mut Node)| {
        let mut node = PLAIN;
        change(&mut node);
        sample(node)
    };
    let line = |class: &str| format!("<path class=\"{class}\" d=\"M-26 8L26 -8\"/>");
    [
        sample(PLAIN),
        node(order),
        node(|node| node.is_leader = true),
        node(commit),
        lacking(),
        node(|node| node.beside = Beside::OnlyHere),
        node(|node| node.beside = Beside::Differs),
        node(|node| {
            order(node);
            node.is_moved = true;
        }),
        node(|node| {
            commit(node);
            node.is_listed_alone = true;
        }),
        sample(PLAIN) + &ring() + &label("journal parts", LABEL_ABOVE),
        line("sample-strong"),
        line("sample-weak"),
        line("sample-strong alone"),
        line("sample-strong differs"),
        line("chain"),
    ]
}

/// Vertices of the legend.
const PLAIN: Node = Node {
    is_leader: false,
    is_committed: false,
    journal_entry: None,
    beside: Beside::Same,
    is_moved: false,
    is_listed_alone: false,
};

fn order(node: &mut Node) {
    node.journal_entry = Some(12);
}

fn commit(node: &mut Node) {
    order(node);
    node.is_leader = true;
    node.is_committed = true;
}

fn sample(node: Node) -> String {
    format!("<g class=\"sample{}\">{}</g>", node.classes(), node.marks())
}

fn paragraphs(sentences: &[String]) -> String {
    let paragraph = |said: &String| format!("<p>{}</p>\n", escaped(said));
    sentences.iter().map(paragraph).collect()
}

/// Text for an element, with plain characters and line ends alone. Two more are forbidden in XML.
fn escaped(text: &str) -> String {
    let is_allowed = |&c: &char| match c {
        '\n' => true,
        '\u{FFFE}' | '\u{FFFF}' => false,
        c => is_plain(c),
    };
    let mut out = String::new();
    for c in text.chars().filter(is_allowed) {
        match c {
            '&' => out += "&amp;",
            '<' => out += "&lt;",
            '>' => out += "&gt;",
            '"' => out += "&quot;",
            '\'' => out += "&#39;",
            c => out.push(c),
        }
    }
    out
}
