//! The graph of one side as SVG: rounds are columns, members are rows, and an edge leads from a vertex
//! to its parent on the left.

use std::collections::{BTreeMap, BTreeSet};
use std::iter::successors;

use reference::layout::{member_of, round_of};
use reference::record::Record;
use reference::state::ReplicaState;

use crate::node::{details, lacking, Node, HALF};
use crate::pair::{List, Order, Pair, Side, LISTS};

/// The width of a column and the height of a row.
const COLUMN: u32 = 48;
const ROW: u32 = 44;
/// What stands around the rows and columns: row labels, rounds and leaders, and the margins.
const LABELS: u32 = 96;
const HEAD: u32 = 50;
const RIGHT: u32 = 34;
const FOOT: u32 = 14;
/// The two lines of text at the head.
const ROUND_LINE: u32 = 14;
const LEADER_LINE: u32 = 31;
/// The ring around a vertex at which lists part: half its width, and its label's size and top, above
/// or below the ring.
const RING: u32 = 21;
const LABEL_WIDTH: u32 = 108;
const LABEL_HEIGHT: i32 = 15;
pub const LABEL_ABOVE: i32 = -31;
const LABEL_BELOW: i32 = -LABEL_ABOVE - LABEL_HEIGHT;
/// The more edges between two rounds, the fainter they are. Their opacity in percent is the first
/// number over the square of n, and at most the second.
const OPACITY: u32 = 2800;
const MOST_OPACITY: u32 = 75;
/// A wide graph is made smaller down to so many percent of its size; then it is scrolled. One of few
/// columns is made larger.
const SMALLEST: u32 = 80;
const LARGEST: u32 = 150;
const FEW_COLUMNS: u32 = 12;

/// One side of a pair, with what is drawn of it.
pub struct Drawing<'a> {
    pub pair: &'a Pair,
    pub side: Side,
    pub state: &'a ReplicaState,
    /// The last round drawn.
    pub columns: u32,
    pub caught: &'a BTreeSet<u32>,
}

/// A list that parts from the other side's, and this side's first entry that differs.
pub struct Parting {
    pub list: &'static str,
    /// Counted from 1.
    pub entry: usize,
    pub id: u32,
}

/// Where this side's lists part from the other's.
pub fn partings(pair: &Pair, side: Side) -> Vec<Parting> {
    let parting = |list: List| match list.order(pair) {
        Order::Part(at) => {
            let (list, entry, ids) = (list.one, at + 1, list.of(pair)[side as usize]);
            ids.get(at).map(|&id| Parting { list, entry, id })
        }
        _ => None,
    };
    LISTS.into_iter().filter_map(parting).collect()
}

/// The middle of a round's column, of a member's row, and of both.
fn x_of(round: u32) -> u32 {
    LABELS + COLUMN * round - COLUMN / 2
}

fn y_of(member: u32) -> u32 {
    HEAD + ROW * member + ROW / 2
}

fn place(id: u32) -> (u32, u32) {
    (x_of(round_of(id)), y_of(member_of(id)))
}

impl Drawing<'_> {
    pub fn svg(&self) -> String {
        let n = self.state.group.n();
        let width = LABELS + COLUMN * self.columns + RIGHT;
        let height = HEAD + ROW * n + FOOT;
        let opacity = (OPACITY / (n * n)).min(MOST_OPACITY);
        let smallest = width * SMALLEST / 100;
        let percent = match self.columns <= FEW_COLUMNS {
            true => LARGEST,
            false => 100,
        };
        let (wide, high) = (width * percent / 100, height * percent / 100);
        let side = self.side;
        let [strong, other_strong] = self.edges("strong", strong_line, |record| {
            record.strong_parents().collect()
        });
        let [weak, other_weak] =
            self.edges("weak", weak_line, |record| record.weak_parents().collect());
        let layers = [
            self.rows(),
            self.heads(),
            strong,
            weak,
            other_strong,
            other_weak,
            self.chain(),
            self.lacking(),
            self.vertices(),
            self.rings(),
        ];
        format!(
            "<svg xmlns=\"http://www.w3.org/2000/svg\" id=\"{side}\" class=\"graph\" role=\"group\" \
             aria-label=\"the {side} sheet\" viewBox=\"0 0 {width} {height}\" width=\"{wide}\" \
             height=\"{high}\" style=\"min-width:{smallest}px;--edges:0.{opacity:02}\">\n{}</svg>\n",
            layers.concat()
        )
    }

    /// Bands, of which every other is seen, and labels; those of members caught have a second line.
    fn rows(&self) -> String {
        let width = COLUMN * self.columns;
        let right = LABELS + width + RIGHT;
        let row = |member: u32| {
            let (y, top) = (y_of(member), HEAD + ROW * member);
            let (class, why) = match self.caught.contains(&member) {
                true => (" caught", "<tspan x=\"0\" dy=\"1.2em\">caught</tspan>"),
                false => ("", ""),
            };
            format!(
                "<rect class=\"band\" x=\"{LABELS}\" y=\"{top}\" width=\"{width}\" \
                 height=\"{ROW}\"/><text class=\"row{class}\" y=\"{y}\">member {member}{why}</text>\
                 <text class=\"row end\" x=\"{right}\" y=\"{y}\">{member}</text>\n"
            )
        };
        (0..self.state.group.n()).map(row).collect()
    }

    /// The rounds and their leaders.
    fn heads(&self) -> String {
        let head = |round: u32| {
            let (x, leader) = (x_of(round), self.state.group.leader(round));
            format!(
                "<text class=\"head\" x=\"{x}\" y=\"{ROUND_LINE}\">{round}</text>\
                 <text class=\"head led\" x=\"{x}\" y=\"{LEADER_LINE}\">{leader}</text>\n"
            )
        };
        let heads: String = (1..=self.columns).map(head).collect();
        format!(
            "<text class=\"row\" y=\"{ROUND_LINE}\">round</text>\
             <text class=\"row\" y=\"{LEADER_LINE}\">its leader</text>\n{heads}"
        )
    }

    /// The edges of one kind between held vertices; apart from them those that the other side's vertex
    /// does not have, which are drawn above the others.
    fn edges(&self, class: &str, line: fn(u32, u32) -> String, parents: Parents) -> [String; 2] {
        let there = self.pair.get(self.side.other()).vertices();
        let mut out = [String::new(), String::new()];
        for (&id, record) in &self.state.vertices {
            let shared = there.get(&id).map(parents);
            let mut held = parents(record);
            held.retain(|&parent| self.state.holds(parent));
            for parent in held {
                let (layer, mark) = match &shared {
                    None => (0, " alone"),
                    Some(shared) if shared.contains(&parent) => (0, ""),
                    Some(_) => (1, " differs"),
                };
                let line = line(id, parent);
                out[layer] += &format!("<path class=\"{class}{mark}\" d=\"{line}\"/>\n");
            }
        }
        out
    }

    /// A strong path from each leader of the list to the one before it, where there is one.
    fn chain(&self) -> String {
        let steps = self.state.leader_list.windows(2);
        let paths = steps.filter_map(|step| strong_path(self.state, step[1], step[0]));
        let line = |path: Vec<u32>| -> String {
            let edges = path.windows(2);
            let lines: String = edges.map(|edge| strong_line(edge[0], edge[1])).collect();
            format!("<path class=\"chain\" d=\"{lines}\"/>\n")
        };
        paths.map(line).collect()
    }

    /// The leaders that are not held, or whose records cannot be read.
    fn lacking(&self) -> String {
        let (group, here) = (self.state.group, self.pair.get(self.side));
        let empty = |round: u32| {
            let (id, leader) = (group.leader_id(round), group.leader(round));
            let (x, y) = place(id);
            let why = match here.holds(id) {
                true => "is held, with a record that fails the questions",
                false => "is not held",
            };
            format!(
                "<g transform=\"translate({x} {y})\"><title>The leader of round {round}, \
                 member {leader}, {why}.</title>{}</g>\n",
                lacking()
            )
        };
        (1..=self.columns)
            .filter(|&round| !self.state.holds(group.leader_id(round)))
            .map(empty)
            .collect()
    }

    fn vertices(&self) -> String {
        let (pair, side, group) = (self.pair, self.side, self.state.group);
        let vertex = |(&id, record): (&u32, &Record)| {
            let node = Node::of(pair, side, group, record);
            let (x, y) = place(id);
            format!(
                "<g class=\"vertex{}\" id=\"{side}-{id}\" transform=\"translate({x} {y})\">\
                 <title>{}</title>{}</g>\n",
                node.classes(),
                details(pair, side, group, record),
                node.marks()
            )
        };
        self.state.vertices.iter().map(vertex).collect()
    }

    /// The held vertices at which lists part; one ring where both lists part at the same. Of two labels
    /// the upper stands above its ring and the lower below, so that they never cover each other.
    fn rings(&self) -> String {
        let mut labels = BTreeMap::new();
        for Parting { list, id, .. } in partings(self.pair, self.side) {
            let label = match labels.contains_key(&id) {
                true => "both lists part".to_string(),
                false => format!("{list} parts"),
            };
            labels.insert(id, label);
        }
        let mut labels: Vec<(u32, String)> = labels.into_iter().collect();
        labels.retain(|(id, _)| self.state.holds(*id));
        labels.sort_by_key(|(id, _)| member_of(*id));
        let placed = |id: u32, mark: String| {
            let (x, y) = place(id);
            format!("<g transform=\"translate({x} {y})\">{mark}</g>\n")
        };
        let rings: String = labels.iter().map(|(id, _)| placed(*id, ring())).collect();
        let tops = labels.iter().zip([LABEL_ABOVE, LABEL_BELOW]);
        let labels = tops.map(|((id, text), top)| placed(*id, label(text, top)));
        rings + &labels.collect::<String>()
    }
}

/// A ring around the point 0 0.
pub fn ring() -> String {
    let size = 2 * RING;
    format!("<rect class=\"ring\" x=\"-{RING}\" y=\"-{RING}\" width=\"{size}\" height=\"{size}\"/>")
}

/// Its label, whose top is given.
pub fn label(text: &str, top: i32) -> String {
    let (left, middle) = (LABEL_WIDTH / 2, top + LABEL_HEIGHT / 2);
    format!(
        "<rect class=\"ring-label\" x=\"-{left}\" y=\"{top}\" width=\"{LABEL_WIDTH}\" \
         height=\"{LABEL_HEIGHT}\"/><text class=\"ring-text\" y=\"{middle}\">{text}</text>"
    )
}

type Parents = fn(&Record) -> Vec<u32>;

/// From the left of a vertex to the right of its parent, so that it crosses no vertex between.
fn strong_line(id: u32, parent: u32) -> String {
    let ((x, y), (to_x, to_y)) = (place(id), place(parent));
    format!("M{} {y}L{} {to_y}", x - HALF, to_x + HALF)
}

/// As a strong edge, bent by half a row: it passes between the vertices of its own row.
fn weak_line(id: u32, parent: u32) -> String {
    let ((x, y), (to_x, to_y)) = (place(id), place(parent));
    let (middle, bend) = ((x + to_x) / 2, (y + to_y) / 2 + ROW);
    format!("M{} {y}Q{middle} {bend} {} {to_y}", x - HALF, to_x + HALF)
}

/// Vertices of a strong path, from a held vertex to a held one of a lower round, if there is one. Edges
/// lead to lower ids, so when a vertex is looked at, from the highest id down, it is known whether it
/// is reached.
fn strong_path(state: &ReplicaState, from: u32, to: u32) -> Option<Vec<u32>> {
    if to >= from || !state.holds(from) || !state.holds(to) {
        return None;
    }
    // Each vertex reached, with the one from which it is: of several that in the nearest row.
    let mut reached = BTreeMap::from([(from, from)]);
    for (&id, record) in state.vertices.range(to..=from).rev() {
        if reached.contains_key(&id) {
            for parent in record.strong_parents() {
                let rows = |child: u32| member_of(child).abs_diff(member_of(parent));
                let child = reached.entry(parent).or_insert(id);
                if rows(id) < rows(*child) {
                    *child = id;
                }
            }
        }
    }
    reached.get(&to)?;
    let above = |&id: &u32| reached.get(&id).copied().filter(|_| id != from);
    let mut path: Vec<u32> = successors(Some(to), above).collect();
    path.reverse();
    Some(path)
}
