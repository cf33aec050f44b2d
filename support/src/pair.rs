//! The two states side by side: which side, how their lists stand, and what both hold.

use std::fmt;

use reference::group::Group;
use reference::layout::N;

use crate::member::MemberState;

#[derive(Clone, Copy, Debug, PartialEq, Eq, PartialOrd, Ord)]
pub enum Side {
    Left,
    Right,
}

pub const SIDES: [Side; 2] = [Side::Left, Side::Right];

impl Side {
    pub fn other(self) -> Side {
        match self {
            Side::Left => Side::Right,
            Side::Right => Side::Left,
        }
    }
}

impl fmt::Display for Side {
    fn fmt(&self, f: &mut fmt::Formatter) -> fmt::Result {
        f.pad(match self {
            Side::Left => "left",
            Side::Right => "right",
        })
    }
}

/// How two lists stand to one another.
#[derive(Clone, Copy, Debug, PartialEq, Eq)]
pub enum Order {
    Equal,
    /// The other list is the first entries of this side's, which has so many more.
    Ahead(Side, usize),
    /// The first place, counted from 0, at which both have an entry and not the same.
    Part(usize),
}

impl Order {
    pub fn of([left, right]: [&[u32]; 2]) -> Order {
        let shared = left.iter().zip(right).take_while(|(a, b)| a == b).count();
        match (left.len() - shared, right.len() - shared) {
            (0, 0) => Order::Equal,
            (more, 0) => Order::Ahead(Side::Left, more),
            (0, more) => Order::Ahead(Side::Right, more),
            _ => Order::Part(shared),
        }
    }

    pub fn parts(self) -> bool {
        matches!(self, Order::Part(_))
    }

    /// Whether this side's list is the other's first entries, none or all included.
    fn is_behind(self, side: Side) -> bool {
        self == Order::Equal || matches!(self, Order::Ahead(ahead, _) if ahead != side)
    }

    /// The first place, from 0, at which the lists do not have the same entry.
    pub fn first_difference(self, [left, right]: [&[u32]; 2]) -> Option<usize> {
        match self {
            Order::Equal => None,
            Order::Ahead(..) => Some(left.len().min(right.len())),
            Order::Part(at) => Some(at),
        }
    }
}

/// The two kinds of lists, as they are called where several are meant, and where one is.
#[derive(Clone, Copy)]
pub struct List {
    pub several: &'static str,
    pub one: &'static str,
    of: fn(&MemberState) -> &[u32],
}

pub const LISTS: [List; 2] = [
    List {
        several: "leader lists",
        one: "leader list",
        of: |member| &member.leaders,
    },
    List {
        several: "journals",
        one: "journal",
        of: |member| &member.journal,
    },
];

impl List {
    /// The left one and the right one.
    pub fn of(self, pair: &Pair) -> [&[u32]; 2] {
        SIDES.map(|side| (self.of)(pair.get(side)))
    }

    pub fn order(self, pair: &Pair) -> Order {
        Order::of(self.of(pair))
    }
}

/// Two states.
#[derive(Clone, Debug)]
pub struct Pair {
    pub left: MemberState,
    pub right: MemberState,
}

/// What a vertex of one side is beside the other side.
#[derive(Clone, Copy, Debug, PartialEq, Eq)]
pub enum Beside {
    Same,
    OnlyHere,
    Differs,
}

impl Pair {
    pub fn get(&self, side: Side) -> &MemberState {
        match side {
            Side::Left => &self.left,
            Side::Right => &self.right,
        }
    }

    pub fn are_sound(&self) -> bool {
        self.left.is_sound() && self.right.is_sound()
    }

    pub fn group_of(&self, side: Side) -> Option<Group> {
        Group::new(self.get(side).words[N])
    }

    /// The group of both, if they have the same legal member count.
    pub fn group(&self) -> Option<Group> {
        let [left, right] = SIDES.map(|side| self.group_of(side));
        left.filter(|_| left == right)
    }

    /// Both states are well formed and of one member count.
    pub fn are_comparable(&self) -> bool {
        self.are_sound() && self.group().is_some()
    }

    /// The conclusion of the agreement claim: the states are comparable, and leader list and journal
    /// of one side are the first entries of the other's.
    pub fn agrees(&self) -> bool {
        let is_behind = |side| LISTS.iter().all(|list| list.order(self).is_behind(side));
        self.are_comparable() && SIDES.into_iter().any(is_behind)
    }

    /// What a vertex that this side holds is beside the other's.
    pub fn beside(&self, side: Side, id: u32) -> Beside {
        let here = self.get(side).vertices().get(&id);
        match self.get(side.other()).vertices().get(&id) {
            None => Beside::OnlyHere,
            there if there == here => Beside::Same,
            Some(_) => Beside::Differs,
        }
    }

    /// The places, from 0, at which both journals of one group have the same id and the sides hold
    /// different records for it.
    pub fn entries_of_two_records(&self) -> Vec<usize> {
        let shared = self.left.journal.iter().zip(&self.right.journal);
        let is_one_group = self.group().is_some();
        let differs = |(here, there): (&u32, &u32)| {
            is_one_group
                && here == there
                && self.left.vertices().contains_key(here)
                && self.beside(Side::Left, *here) == Beside::Differs
        };
        let places = shared.map(differs).enumerate();
        places
            .filter_map(|(at, differs)| differs.then_some(at))
            .collect()
    }
}
