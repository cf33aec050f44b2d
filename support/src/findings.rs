//! What is printed of who broke the rules, and of what cannot be seen on the states.

use reference::layout::{round_of, LAST_ROUND};
use reference::record::is_round;

use crate::faults::Fault;
use crate::origin::Origin;
use crate::pair::{Side, SIDES};
use crate::report::Report;
use crate::text::{members_named, vertex_name, Text};
use crate::why::voters;

/// The premises of the agreement claim, and what of each two states do not show.
const PREMISES: [&str; 5] = [
    "At most f members are faulty. Sheets show only those that were caught.",
    "An honest member has one record in a round, as first message and as vertex. Of a first \
     message a sheet keeps only that it was heard and whether it votes.",
    "An honest member that votes for a leader signs no no-vote against it. A sheet has only the \
     votes and no-votes that reached it.",
    "Reliable broadcast delivers one vertex of a round and member. Two are seen only where both \
     sheets hold one.",
    "Each sheet is as the library's calls left it, since it was opened, with the same n. A sheet \
     does not tell who else wrote it.",
];

impl Report<'_> {
    /// The outcome first, then what shows it.
    pub fn say_findings(&self, text: &mut Text) {
        text.heading("WHO BROKE THE RULES");
        for side in SIDES
            .into_iter()
            .filter(|&side| !self.pair.get(side).is_sound())
        {
            text.say(
                1,
                &format!("The {side} sheet is not sound, and catches nobody."),
            );
        }
        if self.pair.are_sound() && self.pair.group().is_none() {
            text.say(
                1,
                "The sheets are not of one group: they show nothing of each other. Ask each \
                 member for the sheet of the group in question.",
            );
        }
        for (side, faults) in SIDES.into_iter().zip(&self.faults) {
            self.say_faults(text, side, faults);
        }
        self.say_caught(text);
        self.say_outcome(text);
        self.say_evidence(text);
    }

    /// What of a state's own lists the rules do not give.
    fn say_faults(&self, text: &mut Text, side: Side, faults: &[Fault]) {
        if faults.is_empty() {
            return;
        }
        text.say(
            1,
            &format!("The {side} sheet is not what the rules give from what it holds:"),
        );
        for fault in faults {
            text.item(2, "-", &self.fault_sentence(side, fault));
        }
        text.say(
            2,
            "No call of the library leaves this, whoever is faulty. Another program wrote the \
             sheet, or its storage changed it.",
        );
    }

    fn fault_sentence(&self, side: Side, fault: &Fault) -> String {
        let state = self.pair.get(side).decoded.as_ref();
        let voters = |id| state.map_or(String::new(), |state| voters(state, round_of(id)));
        match *fault {
            Fault::TooFewVoters(id) => format!("It committed {}. {}", vertex_name(id), voters(id)),
            Fault::NotReached { id, from } => format!(
                "It lists {}, to which no strong path leads from the next leader, {}. {}",
                vertex_name(id),
                vertex_name(from),
                voters(id)
            ),
            Fault::LeftOut { id, from } => format!(
                "It leaves out {}, though a strong path leads to it from the next leader, {}.",
                vertex_name(id),
                vertex_name(from)
            ),
            Fault::NotCommitted(round) => format!("Round {round} is ready, and is not committed."),
            Fault::Journal { at, given } => {
                let (entry, given) = (at + 1, given.map_or("no entry".to_string(), vertex_name));
                format!(
                    "Its journal is not its leaders' histories: entry {entry} would be {given}."
                )
            }
            Fault::CurrentRound { is, given } => {
                format!("Its current round is {is}. What it holds gives round {given}.")
            }
            Fault::TimeoutsNotAdded(id) => {
                format!("It lacks timeouts that {} carries.", vertex_name(id))
            }
            Fault::SignedNotNoted(round) => {
                format!("Its own signed no-vote for round {round} is not among its no-votes.")
            }
        }
    }

    /// The members caught against f.
    fn say_caught(&self, text: &mut Text) {
        let caught = self.caught();
        let Some(group) = self.group().filter(|_| !caught.is_empty()) else {
            return;
        };
        let (count, f) = (caught.len(), group.f());
        let than = match self.are_more_than_f() {
            true => "MORE",
            false => "no more",
        };
        let members = members_named(caught);
        text.say(
            1,
            &format!(
                "Caught: {members}. That is {count}, and f is {f}: {than} than may be faulty."
            ),
        );
        text.say(
            1,
            "This is what the sheets show. Only the signed records prove it.",
        );
        for (side, faults) in SIDES.into_iter().zip(&self.faults) {
            if !faults.is_empty() {
                let doubtful = format!("What the {side} sheet alone shows is doubtful.");
                text.say(1, &doubtful);
            }
        }
    }

    /// What the findings say of the lists, what cannot be seen, and what to ask for.
    fn say_outcome(&self, text: &mut Text) {
        let is_caught = !self.caught().is_empty();
        let found = is_caught || self.has_faults();
        if self.has_two_vertices() {
            text.say(
                1,
                "The sheets hold two different vertices of one round and member. Reliable \
                 broadcast must never deliver both: that alone can part the lists.",
            );
        } else if self.parts() && is_caught && !self.are_more_than_f() {
            text.say(
                1,
                "So few members cannot part the lists where all else is as it should be.",
            );
        }
        match (self.parts(), found, self.pair.are_sound()) {
            (_, true, _) => {}
            (_, _, false) => text.say(1, "Beside the damage, nothing is found."),
            (true, ..) => text.say(1, "The lists part, and nothing is found on the sheets."),
            (false, ..) => text.say(1, "Nothing is found."),
        }
        let are_two_groups = self.pair.are_sound() && self.pair.group().is_none();
        if self.parts() && !self.is_explained() && !are_two_groups {
            text.say(
                1,
                "The agreement claim rests on premises. Sheets do not show all of them:",
            );
            PREMISES.iter().for_each(|it| text.item(2, "-", it));
        }
        if self.parts() || found || !self.pair.are_sound() {
            self.say_what_to_ask(text);
        }
    }

    fn has_faults(&self) -> bool {
        self.faults.iter().any(|faults| !faults.is_empty())
    }

    fn has_two_vertices(&self) -> bool {
        self.evidence.has_two_vertices()
    }

    fn are_more_than_f(&self) -> bool {
        let caught = self.caught().len();
        let group = self.group();
        group.is_some_and(|group| caught > group.f() as usize)
    }

    /// Whether something is found that can part lists.
    fn is_explained(&self) -> bool {
        self.are_more_than_f() || self.has_two_vertices() || self.has_faults()
    }

    fn say_what_to_ask(&self, text: &mut Text) {
        text.say(1, "Ask the members for:");
        let is_damaged = |side: &Side| !self.pair.get(*side).is_sound();
        for side in SIDES.into_iter().filter(is_damaged) {
            let again = match self.pair.get(side).origin {
                Origin::Stored => "another copy of the sheet, from before the damage",
                Origin::Lines(_) => "all lines from the opening on, which no line here is",
            };
            text.item(2, "-", &format!("on the {side}, {again};"));
        }
        let records = "all signed first messages, vertices, no-votes and timeouts of";
        let rounds = self.rounds_in_question();
        text.item(2, "-", &format!("{records} {rounds}, sent and received;"));
        for question in [
            "their calls since opening, as lines of sheetlog, with the answers;",
            "the version of the library, and whether the sheet was opened again or restored from a \
             copy.",
        ] {
            text.item(2, "-", question);
        }
    }

    /// The rounds of all that was found and of the entries at which the lists part, with the next one.
    fn rounds_in_question(&self) -> String {
        let evidence = &self.evidence;
        let two = evidence.two_records.iter().map(|found| found.round);
        let both = evidence.votes_and_no_votes.iter().map(|found| found.round);
        let rounds: Vec<u32> = two
            .chain(both)
            .chain(self.parting_rounds())
            .filter(|&round| is_round(round))
            .collect();
        match (rounds.iter().min(), rounds.iter().max()) {
            (Some(first), Some(last)) => format!("rounds {first} to {}", LAST_ROUND.min(last + 1)),
            _ => "all rounds".to_string(),
        }
    }
}
