//! The clauses of "well formed" (01: sound), each as what is said where it does not hold. The texts
//! use 01's words.

use std::fmt;

use crate::answer;
use crate::layout::*;

/// A clause that does not hold, with the place or the word. Entries of lists count from 0 here and
/// from 1 in the texts.
#[derive(Clone, Copy, Debug, PartialEq, Eq)]
pub enum Broken {
    /// So many words are no state.
    Size(usize),
    MemberCount(u32),
    CurrentRound(u32),
    CommittedRound(u32),
    /// Word 5 is above n.
    OwnMember(u32),
    /// Words 6 and 7 of a watcher are not both 0.
    WatcherMarks,
    /// A mask has a bit at n or above.
    MaskBit {
        round: u32,
        mask: usize,
    },
    VotesNotHeard(u32),
    VotesOfRound1,
    OrderedNotHeld(u32),
    /// A held record does not pass this question, 5 to 11 or 14.
    HeldRecord {
        round: u32,
        member: u32,
        number: u32,
    },
    CellNotHeld {
        round: u32,
        member: u32,
    },
    LeaderCount(u32),
    LeaderEntry(usize),
    /// The round of the last leader, 0 without one, is not the committed round.
    LastLeader(u32),
    JournalCount(u32),
    JournalEntry(usize),
    JournalLacks(u32),
    BeyondLeaders,
    BeyondJournal,
}

/// A round's masks by name, in their order.
const MASK_NAMES: [&str; MASKS_PER_ROUND] =
    ["held", "heard", "votes", "timeouts", "no-votes", "ordered"];

impl fmt::Display for Broken {
    fn fmt(&self, f: &mut fmt::Formatter) -> fmt::Result {
        match *self {
            Broken::Size(words) => write!(f, "it has {words} words, not {STATE_WORDS}"),
            Broken::MemberCount(0) => write!(f, "the member count is 0: it was never opened"),
            Broken::MemberCount(n) => {
                write!(f, "the member count is {n}, not one of {LEGAL_SIZES:?}")
            }
            Broken::CurrentRound(round) => write!(
                f,
                "the current round is {round}, not 1 to {LAST_CURRENT_ROUND}"
            ),
            Broken::CommittedRound(round) => write!(
                f,
                "the committed round is {round}, not 0 to {LAST_COMMITTABLE_ROUND}"
            ),
            Broken::OwnMember(word) => write!(f, "word {OWN} is {word}, above the member count"),
            Broken::WatcherMarks => write!(
                f,
                "a watcher's words {MADE_ROUNDS} and {SIGNED_NO_VOTES} are not 0"
            ),
            _ => self.write_round_clause(f),
        }
    }
}

impl Broken {
    /// Of the masks and the cells.
    fn write_round_clause(&self, f: &mut fmt::Formatter) -> fmt::Result {
        match *self {
            Broken::MaskBit { round, mask } => write!(
                f,
                "the {} mask of round {round} has a bit at n or above",
                MASK_NAMES[mask]
            ),
            Broken::VotesNotHeard(round) => {
                write!(f, "round {round} has votes that were not heard")
            }
            Broken::VotesOfRound1 => write!(f, "round 1 has votes"),
            Broken::OrderedNotHeld(round) => {
                write!(f, "round {round} has ordered vertices that are not held")
            }
            Broken::HeldRecord {
                round,
                member,
                number,
            } => write!(
                f,
                "the held record of round {round}, member {member} fails question {number}, of {}",
                asked_of(number)
            ),
            Broken::CellNotHeld { round, member } => write!(
                f,
                "round {round}, member {member} is not held, but its cell is not zero"
            ),
            _ => self.write_list_clause(f),
        }
    }

    fn write_list_clause(&self, f: &mut fmt::Formatter) -> fmt::Result {
        match *self {
            Broken::LeaderCount(count) => write!(
                f,
                "the leader count is {count}, above {}",
                LEADER_LIST.len()
            ),
            Broken::LeaderEntry(at) => write!(
                f,
                "leader list entry {} is no held leader of a higher round than before",
                at + 1
            ),
            Broken::LastLeader(round) => write!(
                f,
                "the last leader's round, {round}, is not the committed round"
            ),
            Broken::JournalCount(count) => {
                write!(f, "the journal count is {count}, above {}", JOURNAL.len())
            }
            Broken::JournalEntry(at) => write!(
                f,
                "journal entry {} is not ordered, or stands there twice",
                at + 1
            ),
            Broken::JournalLacks(id) => write!(
                f,
                "the journal lacks an ordered vertex: round {}, member {}",
                round_of(id),
                member_of(id)
            ),
            Broken::BeyondLeaders => {
                write!(f, "words of the leader list beyond its count are not 0")
            }
            _ => write!(f, "words of the journal beyond its count are not 0"),
        }
    }
}

/// What a question from 5 to 14 that a held record can fail is about.
fn asked_of(number: u32) -> &'static str {
    match number {
        answer::MASK_BITS => "its masks",
        answer::STRONG => "its strong mask",
        answer::TIMEOUT => "its timeout mask",
        answer::NO_VOTE => "its no-vote mask",
        answer::WEAK => "its weak refs",
        answer::MISSING_PARENT => "its parents",
        _ => "its round and source",
    }
}
