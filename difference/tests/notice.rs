//! The comparison notices wrong answers, words and lists, and shows each by a short input.

use difference::agreement::follow;
use difference::engine::{Engine, Second};
use difference::failure::Failure;
use difference::op::{reply, Op, Reply, ANSWER_NUMBERS};
use difference::proved::Proved;
use difference::report::report;
use difference::run::{run, Plan};
use difference::shrink::{fewest, shrink};
use reference::group::{has, Group};
use reference::layout::*;
use reference::pending::{laid_out, records};
use reference::record::{first_refusal, Record};
use reference::simulate::digests::{only_conflict, Taken};
use reference::simulate::sightings::in_state;
use reference::simulate::{simulate, Options};
use reference::Call;

/// Enough for some groups beyond the calm ones, which come first.
const COUNT: u64 = 40_000;

fn plan(seed: u64) -> Plan {
    Plan {
        seed,
        count: COUNT,
        rounds: None,
    }
}

/// The second implementation with a fault.
struct Faulty(fn(&mut [u32], &Op, Reply) -> Reply);

impl Engine for Faulty {
    fn perform_lent(&self, state: &mut [u32], buffer: &mut [u32], op: &Op) -> Reply {
        let reply = Second.perform_lent(state, buffer, op);
        (self.0)(state, op, reply)
    }
}

/// The report on a fault.
fn reported(engine: &dyn Engine) -> String {
    let (_, found) = run(engine, plan(1));
    report(engine, 1, &found.expect("the fault is noticed"))
}

/// The lines after the title that a report ends with.
fn shown<'a>(report: &'a str, title: &str) -> Vec<&'a str> {
    let (_, rest) = report.split_once(title).expect("the report has the title");
    rest.lines().skip(1).collect()
}

/// The command that lends so many words.
fn lent(words: usize) -> String {
    format!("1 {words} 0")
}

#[test]
fn a_wrong_number_is_shown_by_three_lines() {
    let engine = Faulty(|_, _, answer| {
        if answer[0] == 13 {
            reply(&[12])
        } else {
            answer
        }
    });
    let report = reported(&engine);
    let lines = shown(&report, "lines for sheetlog");
    assert_eq!(lines.len(), 3, "{report}");
    assert!(lines[0].starts_with("O "), "{report}");
    assert!(
        lines[1].starts_with("V 1 ") && lines[2].starts_with("V 1 "),
        "{report}"
    );
}

#[test]
fn a_wrong_commit_is_shown_by_lines() {
    let engine = Faulty(|state, op, mut reply| {
        if matches!(op, Op::Change(_)) && reply[2] > 0 {
            state[COMMITTED_ROUND] -= 1;
            reply[2] -= 1;
        }
        reply
    });
    let report = reported(&engine);
    let lines = shown(&report, "lines for sheetlog");
    assert!((5..=12).contains(&lines.len()), "{report}");
}

#[test]
fn a_wrong_word_is_shown_by_commands() {
    let engine = Faulty(|state, op, reply| {
        if matches!(op, Op::Change(Call::NoVote(..))) && reply[0] == 0 {
            state[mask_place(1, NO_VOTES)] = 1;
        }
        reply
    });
    let report = reported(&engine);
    let commands = shown(&report, "commands for harness");
    assert_eq!(commands.len(), 3, "{report}");
    assert_eq!(commands[0], lent(STATE_WORDS), "{report}");
    assert!(
        commands[1].starts_with("3 ") && commands[2].starts_with("12 "),
        "{report}"
    );
}

#[test]
fn a_wrong_size_is_shown_by_commands() {
    let engine = Faulty(|state, _, mut reply| {
        let is_short = state.len() == STATE_WORDS - 1;
        reply[0] = if is_short { 3 } else { reply[0] };
        reply
    });
    let report = reported(&engine);
    let commands = shown(&report, "commands for harness");
    assert_eq!(commands[0], lent(STATE_WORDS - 1), "{report}");
    assert!(commands.len() <= 16, "{report}");
}

/// The commands that a report on a fault ends with; the first lends a whole state.
fn commands(engine: &dyn Engine) -> Vec<String> {
    let report = reported(engine);
    let commands = shown(&report, "commands for harness");
    assert_eq!(commands[0], lent(STATE_WORDS), "{report}");
    commands[1..].iter().map(|line| line.to_string()).collect()
}

fn is_propose(op: &Op) -> bool {
    matches!(op, Op::Change(Call::Propose(_)))
}

#[test]
fn an_opening_without_word_5_is_shown_by_itself() {
    let engine = Faulty(|state, op, reply| {
        if matches!(op, Op::Change(Call::Open(..))) && reply[0] == 0 {
            state[OWN] = 0;
        }
        reply
    });
    let commands = commands(&engine);
    assert_eq!(commands.len(), 1, "{commands:?}");
    assert!(commands[0].starts_with("3 "), "{commands:?}");
}

#[test]
fn a_made_record_without_its_mark_is_shown_by_two_commands() {
    let engine = Faulty(|state, op, reply| {
        if is_propose(op) && reply[0] == 0 {
            state[MADE_ROUNDS] &= state[MADE_ROUNDS] - 1;
        }
        reply
    });
    let commands = commands(&engine);
    assert_eq!(commands.len(), 2, "{commands:?}");
    assert!(commands[0].starts_with("3 ") && commands[1].starts_with("15 "));
}

#[test]
fn a_wrong_word_of_a_made_record_is_noticed() {
    // The strong mask, the timeouts, the no-votes, and the last weak id for f = 1.
    for fault in [
        Faulty(|_, op, reply| with_cell_word(op, reply, CELL_STRONG)),
        Faulty(|_, op, reply| with_cell_word(op, reply, CELL_TIMEOUTS)),
        Faulty(|_, op, reply| with_cell_word(op, reply, CELL_NO_VOTES)),
        Faulty(|_, op, reply| with_cell_word(op, reply, CELL_WEAK.start)),
    ] {
        let commands = commands(&fault);
        let last = commands.last().expect("there is a call");
        assert!(last.starts_with("15 "), "{commands:?}");
    }
}

/// The answer with one of its cell's words changed, where that is not 0.
fn with_cell_word(op: &Op, mut reply: Reply, place: usize) -> Reply {
    let word = &mut reply[ANSWER_NUMBERS + record_word(place)];
    *word ^= u32::from(is_propose(op) && *word != 0);
    reply
}

#[test]
fn a_refused_record_that_is_not_empty_is_noticed() {
    let engine = Faulty(|_, op, mut reply| {
        if is_propose(op) && reply[0] == 18 {
            reply[ANSWER_NUMBERS + RECORD_ROUND] = 2;
        }
        reply
    });
    let commands = commands(&engine);
    assert!(commands.last().is_some_and(|last| last.starts_with("15 ")));
}

#[test]
fn a_signature_without_its_mark_is_noticed() {
    let engine = Faulty(|state, op, reply| {
        if *op == Op::Change(Call::SignNoVote) && reply[0] == 0 {
            state[SIGNED_NO_VOTES] = 0;
        }
        reply
    });
    let commands = commands(&engine);
    assert_eq!(commands.last().map(String::as_str), Some("16 0 0"));
    assert!(commands.len() <= 4, "{commands:?}");
}

#[test]
fn a_wrong_order_of_questions_is_noticed() {
    let few_parents_first = Faulty(|state, op, answer| {
        if !is_propose(op) || answer[0] != 12 {
            return answer;
        }
        let mut unmarked = state.to_vec();
        unmarked[MADE_ROUNDS] = 0;
        match Second.perform(&mut unmarked, op)[0] {
            18 => reply(&[18]),
            _ => answer,
        }
    });
    let round_first = Faulty(|state, op, answer| match answer[0] {
        16 if is_propose(op) && state[CURRENT_ROUND] == LAST_CURRENT_ROUND => reply(&[5]),
        _ => answer,
    });
    let signed_first = Faulty(|state, op, answer| match answer[0] {
        17 if *op == Op::Change(Call::SignNoVote) && state[CURRENT_ROUND] > 1 => {
            let before = round_bit(state[CURRENT_ROUND] - 1);
            let is_signed = state[SIGNED_NO_VOTES] & before != 0;
            reply(&[if is_signed { 12 } else { 17 }])
        }
        _ => answer,
    });
    for engine in [few_parents_first, round_first, signed_first] {
        assert!(run(&engine, plan(1)).1.is_some());
    }
}

/// The second implementation with a fault in taking vertices of round 2 and above. The fault gets
/// the words before the call, those after it, the record and the number.
struct Careless(fn(&[u32], &mut [u32], &Record, u32));

impl Engine for Careless {
    fn perform_lent(&self, state: &mut [u32], buffer: &mut [u32], op: &Op) -> Reply {
        let before = state.to_vec();
        let reply = Second.perform_lent(state, buffer, op);
        if let Op::Change(Call::Vertex(words)) = op {
            let record = Record::from_words(words);
            if let Some(record) = record.filter(|record| (2..=LAST_ROUND).contains(&record.round)) {
                (self.0)(&before, state, &record, reply[0]);
            }
        }
        reply
    }
}

fn timeouts(round: u32) -> usize {
    mask_place(round, TIMEOUTS)
}

#[test]
fn a_certificate_that_counts_otherwise_is_noticed() {
    let not_at_all = Careless(|before, state, record, number| {
        if number == 0 {
            let at = timeouts(record.round - 1);
            state[at] = before[at];
        }
    });
    let before_the_last_question = Careless(|_, state, record, number| {
        if (12..=14).contains(&number) {
            state[timeouts(record.round - 1)] |= record.timeouts;
        }
    });
    let in_its_own_round = Careless(|before, state, record, number| {
        if number == 0 {
            let at = timeouts(record.round - 1);
            state[at] = before[at];
            state[timeouts(record.round)] |= record.timeouts;
        }
    });
    let after_the_round_rule = Careless(|before, state, record, number| {
        if number == 0 && state[CURRENT_ROUND] == record.round {
            state[CURRENT_ROUND] = before[CURRENT_ROUND];
        }
    });
    for engine in [
        not_at_all,
        before_the_last_question,
        in_its_own_round,
        after_the_round_rule,
    ] {
        assert!(run(&engine, plan(1)).1.is_some());
    }
}

/// What a run of so many calls with the second implementation has not seen.
fn unseen(count: u64) -> Vec<String> {
    let plan = Plan { count, ..plan(1) };
    run(&Second, plan).0.unseen()
}

#[test]
fn a_run_without_certificates_bundles_releases_sightings_or_conflicts_is_not_enough() {
    let mut events = Vec::from(
        [
            "a round ended by a carried certificate",
            "a round ended by a bundle",
            "a record released from a buffer",
            "several records released with a commit",
            "a round committed by both sightings",
            "a round committed by a split vote",
        ]
        .map(str::to_owned),
    );
    for at in 0..DIGEST_WORDS {
        let conflict = |place| format!("a conflict with a {place} in digest word {at} alone");
        events.extend(["cell", "buffer"].map(conflict));
    }
    let bundles = [0, 1, 3, 5, 7, 12].map(|number| format!("timeouts with {number}"));
    let buffers =
        [0, 1, 3, 4, 12, 13, 14, 19, 20].map(|number| format!("vertex+buffer with {number}"));
    let long = unseen(COUNT);
    let needed = events.iter().chain(&bundles).chain(&buffers);
    assert!(
        needed.into_iter().all(|what| !long.contains(what)),
        "{long:?}"
    );
    let short = unseen(1);
    assert!(events.iter().all(|what| short.contains(what)), "{short:?}");
    assert!(bundles.iter().any(|what| short.contains(what)), "{short:?}");
    assert!(buffers.iter().any(|what| short.contains(what)), "{short:?}");
}

/// The second implementation with a fault in taking bundles. The fault gets the words before the
/// call, those after it, round and mask, and the answer.
struct Bundling(BundleFault);

type BundleFault = fn(&[u32], &mut [u32], (u32, u32), Reply) -> Reply;

impl Engine for Bundling {
    fn perform_lent(&self, state: &mut [u32], buffer: &mut [u32], op: &Op) -> Reply {
        let before = state.to_vec();
        let reply = Second.perform_lent(state, buffer, op);
        match op {
            Op::Change(Call::Timeouts(round, mask)) => {
                (self.0)(&before, state, (*round, *mask), reply)
            }
            _ => reply,
        }
    }
}

/// The bundle as the second implementation takes it.
fn take_bundle(state: &mut [u32], round: u32, mask: u32) -> Reply {
    Second.perform(state, &Op::Change(Call::Timeouts(round, mask)))
}

/// The mask of all members; only after an answer that says that the state is well formed.
fn all(state: &[u32]) -> u32 {
    (1 << state[N]) - 1
}

/// Bits at n or above are cut off.
fn cut_off(_: &[u32], state: &mut [u32], (round, mask): (u32, u32), answer: Reply) -> Reply {
    match answer[0] {
        7 => take_bundle(state, round, mask & all(state)),
        _ => answer,
    }
}

/// A member noted before makes the bundle a refused one.
fn not_all_new(
    before: &[u32],
    state: &mut [u32],
    (round, mask): (u32, u32),
    answer: Reply,
) -> Reply {
    if answer[0] != 0 || before[timeouts(round)] & mask == 0 {
        return answer;
    }
    state.copy_from_slice(before);
    reply(&[12])
}

#[test]
fn wrong_bundles_are_shown_by_few_commands() {
    let cut = commands(&Bundling(cut_off));
    assert_eq!(cut.len(), 2, "{cut:?}");
    assert!(cut[0].starts_with("3 ") && cut[1].starts_with("17 "));
    let refused = commands(&Bundling(not_all_new));
    assert_eq!(refused.len(), 3, "{refused:?}");
    assert!(refused[0].starts_with("3 ") && refused[2].starts_with("17 "));
}

#[test]
fn wrong_numbers_of_bundles_are_noticed() {
    let member_question = Bundling(|_, _, _, answer| match answer[0] {
        7 => reply(&[6]),
        _ => answer,
    });
    let new_before_mask = Bundling(|before, _, (round, mask), answer| match answer[0] {
        7 if mask & all(before) & !before[timeouts(round)] == 0 => reply(&[12]),
        _ => answer,
    });
    let mask_before_round = Bundling(|before, _, (_, mask), answer| match answer[0] {
        5 if mask & !all(before) != 0 => reply(&[7]),
        _ => answer,
    });
    let empty_admitted = Bundling(|_, _, (_, mask), answer| match answer[0] {
        12 if mask == 0 => reply(&[]),
        _ => answer,
    });
    for engine in [
        member_question,
        new_before_mask,
        mask_before_round,
        empty_admitted,
    ] {
        assert!(run(&engine, plan(1)).1.is_some());
    }
}

#[test]
fn wrong_masks_after_bundles_are_noticed() {
    let replaces = Bundling(|_, state, (round, mask), answer| {
        if answer[0] == 0 {
            state[timeouts(round)] = mask;
        }
        answer
    });
    let one_member = Bundling(|before, state, (round, mask), answer| {
        if answer[0] == 0 {
            let new = mask & !before[timeouts(round)];
            state[timeouts(round)] = before[timeouts(round)] | new & new.wrapping_neg();
        }
        answer
    });
    let no_votes_too = Bundling(|_, state, (round, mask), answer| {
        if answer[0] == 0 {
            state[mask_place(round, NO_VOTES)] |= mask;
        }
        answer
    });
    for engine in [replaces, one_member, no_votes_too] {
        assert!(run(&engine, plan(1)).1.is_some());
    }
}

/// The commits that a first message of round 1 would bring, without its mark.
fn commit(state: &mut [u32]) {
    let at = mask_place(1, HEARD);
    let heard = std::mem::take(&mut state[at]);
    let message = Record {
        round: 1,
        ..Record::default()
    };
    Second.perform(state, &Op::Change(Call::First(message.words().to_vec())));
    state[at] = heard;
}

/// The current round that the round rule gives a well formed state: what any timeout leaves.
fn current_round_by_rule(state: &[u32]) -> u32 {
    let mut words = state.to_vec();
    words[timeouts(LAST_ROUND)] = 0;
    Second.perform(&mut words, &Op::Change(Call::Timeout(LAST_ROUND, 0)));
    words[CURRENT_ROUND]
}

#[test]
fn what_follows_bundles_wrongly_is_noticed() {
    let no_round_rule = Bundling(|before, state, _, answer| {
        if answer[0] == 0 {
            state[CURRENT_ROUND] = before[CURRENT_ROUND];
        }
        answer
    });
    let round_rule_after_12 = Bundling(|_, state, _, answer| {
        if answer[0] == 12 {
            state[CURRENT_ROUND] = current_round_by_rule(state);
        }
        answer
    });
    let commits = Bundling(|_, state, _, answer| {
        if answer[0] == 0 {
            commit(state);
        }
        answer
    });
    for engine in [no_round_rule, round_rule_after_12, commits] {
        assert!(run(&engine, plan(1)).1.is_some());
    }
}

/// What a state has seen of the votes for a round's leader: by first messages and by vertices, and who
/// has sent both.
struct Votes {
    heard: u32,
    held: u32,
    both: u32,
}

/// The second implementation with another count of the votes for a round's leader.
struct Voting(fn(Votes) -> u32);

impl Engine for Voting {
    fn perform_lent(&self, state: &mut [u32], buffer: &mut [u32], op: &Op) -> Reply {
        let before = state.to_vec();
        let mut answer = Second.perform_lent(state, buffer, op);
        let is_record = matches!(op, Op::Change(call) if call.record().is_some());
        if !is_record || answer[0] != 0 {
            return answer;
        }
        if answer[2] > 0 && !self.is_ready(state, state[COMMITTED_ROUND]) {
            without_commits(&before, state);
        }
        let mut above = state[COMMITTED_ROUND] + 1..LAST_ROUND;
        if let (0, Some(round)) = (answer[2], above.find(|&round| self.is_ready(state, round))) {
            let places = [HEARD, VOTES].map(|which| mask_place(round + 1, which));
            let words = places.map(|at| std::mem::replace(&mut state[at], all(&before)));
            commit(state);
            places
                .into_iter()
                .zip(words)
                .for_each(|(at, word)| state[at] = word);
        }
        answer[2] = state[LEADER_COUNT] - before[LEADER_COUNT];
        answer[3] = state[JOURNAL_COUNT] - before[JOURNAL_COUNT];
        answer
    }
}

impl Voting {
    fn is_ready(&self, state: &[u32], round: u32) -> bool {
        let group = Group::new(state[N]).expect("the state is well formed");
        let [heard, held] = in_state(state, round);
        let [messages, vertices] = [HEARD, HELD].map(|which| state[mask_place(round + 1, which)]);
        let both = messages & vertices;
        let is_led = has(state[mask_place(round, HELD)], group.leader(round));
        is_led && (self.0)(Votes { heard, held, both }) >= group.quorum()
    }
}

/// The words that commits write, as they were.
fn without_commits(before: &[u32], state: &mut [u32]) {
    let head = [COMMITTED_ROUND, LEADER_COUNT, JOURNAL_COUNT].into_iter();
    let ordered = (1..=LAST_ROUND).map(|round| mask_place(round, ORDERED));
    for at in head.chain(ordered).chain(LEADER_LIST).chain(JOURNAL) {
        state[at] = before[at];
    }
}

/// The rule before request A6 waits where three members' sightings commit.
#[test]
fn votes_not_taken_together_are_shown_by_few_lines() {
    let engine = Voting(|votes| votes.heard.count_ones().max(votes.held.count_ones()));
    let report = reported(&engine);
    let lines = shown(&report, "lines for sheetlog");
    assert!([7, 8].contains(&lines.len()), "{report}");
    assert!(lines[0].starts_with("O 4"), "{report}");
    let sightings = lines.iter().filter(|line| line[1..].starts_with(" 2 "));
    let heard = sightings.clone().filter(|line| line.starts_with('F'));
    assert_eq!(sightings.count(), 3, "{report}");
    assert!([1, 2].contains(&heard.count()), "{report}");
}

#[test]
fn members_counted_otherwise_are_noticed() {
    let twice = Voting(|votes| votes.heard.count_ones() + votes.held.count_ones());
    let by_vertex = Voting(|votes| (votes.heard & !votes.both | votes.held).count_ones());
    let by_message = Voting(|votes| (votes.heard | votes.held & !votes.both).count_ones());
    let if_both = Voting(|votes| (votes.heard & votes.held).count_ones());
    let vertices_alone = Voting(|votes| votes.held.count_ones());
    let messages_alone = Voting(|votes| votes.heard.count_ones());
    for engine in [
        twice,
        by_vertex,
        by_message,
        if_both,
        vertices_alone,
        messages_alone,
    ] {
        assert!(run(&engine, plan(1)).1.is_some());
    }
    let right = Voting(|votes| (votes.heard | votes.held).count_ones());
    assert!(run(&right, plan(1)).1.is_none());
}

/// The second implementation with a fault in taking vertices with a pending buffer. The fault gets
/// the words before the call and after it, the record, and the answer.
struct Buffering(BufferFault);

type BufferFault = fn(&Lent, &mut Lent, &[u32], Reply) -> Reply;

/// The words of a state and of a buffer.
#[derive(Clone)]
struct Lent {
    state: Vec<u32>,
    buffer: Vec<u32>,
}

impl Engine for Buffering {
    fn perform_lent(&self, state: &mut [u32], buffer: &mut [u32], op: &Op) -> Reply {
        let mut lent = Lent {
            state: state.to_vec(),
            buffer: buffer.to_vec(),
        };
        let before = lent.clone();
        let mut reply = Second.perform_lent(&mut lent.state, &mut lent.buffer, op);
        if let Op::Change(Call::VertexWith(_, record)) = op {
            reply = (self.0)(&before, &mut lent, record, reply);
        }
        state.copy_from_slice(&lent.state);
        buffer.copy_from_slice(&lent.buffer);
        reply
    }
}

/// A plain vertex as the second implementation takes it.
fn take_plain(state: &mut [u32], record: &[u32]) -> Reply {
    Second.perform(state, &Op::Change(Call::Vertex(record.to_vec())))
}

/// A vertex with a buffer as the second implementation takes it.
fn take_with(lent: &mut Lent, record: &[u32]) -> Reply {
    let call = Call::VertexWith(lent.buffer.clone(), record.to_vec());
    Second.perform_lent(&mut lent.state, &mut lent.buffer, &Op::Change(call))
}

/// An early vertex gets no place.
fn not_put(before: &Lent, after: &mut Lent, _: &[u32], answer: Reply) -> Reply {
    if answer[0] == 14 {
        after.buffer.clone_from(&before.buffer);
    }
    answer
}

/// What was released stays in the buffer too.
fn not_taken_out(before: &Lent, after: &mut Lent, _: &[u32], answer: Reply) -> Reply {
    if answer[0] == 0 {
        after.buffer.clone_from(&before.buffer);
    }
    answer
}

/// Nothing is released.
fn no_passes(before: &Lent, after: &mut Lent, record: &[u32], answer: Reply) -> Reply {
    if answer[0] != 0 {
        return answer;
    }
    after.clone_from(before);
    take_plain(&mut after.state, record)
}

/// A buffer of any size and with any words after its records is taken.
fn any_words_beyond(before: &Lent, after: &mut Lent, record: &[u32], answer: Reply) -> Reply {
    let mut cut = before.clone();
    cut.buffer = laid_out(&records(&before.buffer));
    if answer[0] != 19 || cut.buffer.len() != before.buffer.len() {
        return answer;
    }
    let answer = take_with(&mut cut, record);
    if answer[0] == 19 {
        return answer;
    }
    after.clone_from(&cut);
    answer
}

#[test]
fn wrong_buffers_are_shown_by_few_commands() {
    let is_with = |commands: &Vec<String>| commands.last().is_some_and(|last| last == "18 0 0");
    let put = commands(&Buffering(not_put));
    assert!(is_with(&put) && put.len() <= 10, "{put:?}");
    assert!(put[1].starts_with("19 "), "{put:?}");
    let stays = commands(&Buffering(not_taken_out));
    assert!(is_with(&stays) && stays.len() <= 20, "{stays:?}");
    let passes = commands(&Buffering(no_passes));
    assert!(is_with(&passes) && passes.len() <= 20, "{passes:?}");
    let beyond = commands(&Buffering(any_words_beyond));
    assert!(is_with(&beyond) && beyond.len() <= 12, "{beyond:?}");
}

#[test]
fn a_wrong_word_of_a_buffer_is_named() {
    let report = reported(&Buffering(not_put));
    assert!(report.contains("word 0 of the buffer is 0, by the second implementation 1"));
}

#[test]
fn wrong_numbers_with_buffers_are_noticed() {
    let never_full = Buffering(|_, _, _, answer| match answer[0] {
        20 => reply(&[14]),
        _ => answer,
    });
    let full_first = Buffering(|before, _, record, answer| match answer[0] {
        12 | 13 if before.buffer[BUFFER_COUNT] as usize == BUFFER_SLOTS => {
            let mut state = before.state.clone();
            match take_plain(&mut state, record)[0] {
                14 => reply(&[20]),
                _ => answer,
            }
        }
        _ => answer,
    });
    let always_equal = Buffering(|before, _, record, answer| match answer[0] {
        13 => match take_plain(&mut before.state.clone(), record)[0] {
            14 => reply(&[12]),
            _ => answer,
        },
        _ => answer,
    });
    let record_before_buffer = Buffering(|before, _, record, answer| match answer[0] {
        19 => match take_plain(&mut before.state.clone(), record)[0] {
            number @ 4..=13 => reply(&[number]),
            _ => answer,
        },
        _ => answer,
    });
    let buffer_before_state = Buffering(|before, _, _, answer| match answer[0] {
        3 if before.buffer.len() != BUFFER_WORDS => reply(&[19]),
        _ => answer,
    });
    let another_parent = Buffering(|_, _, _, mut answer| {
        answer[1] += u32::from(answer[0] == 14);
        answer
    });
    let own_counts = Buffering(|before, _, record, answer| match answer[0] {
        0 => take_plain(&mut before.state.clone(), record),
        _ => answer,
    });
    for engine in [
        never_full,
        full_first,
        always_equal,
        record_before_buffer,
        buffer_before_state,
        another_parent,
        own_counts,
    ] {
        assert!(run(&engine, plan(1)).1.is_some());
    }
}

#[test]
fn wrong_passes_are_noticed() {
    // One pass from the highest id down.
    let falling = Buffering(|before, after, record, answer| {
        if answer[0] != 0 {
            return answer;
        }
        after.clone_from(before);
        let mut sums = take_plain(&mut after.state, record);
        let mut left = records(&before.buffer);
        for at in (0..left.len()).rev() {
            let answer = take_plain(&mut after.state, &left[at].words());
            sums[2] += answer[2];
            sums[3] += answer[3];
            if answer[0] != 14 {
                left.remove(at);
            }
        }
        after.buffer = laid_out(&left);
        sums
    });
    let after_14_too = Buffering(|_, after, _, answer| {
        if answer[0] == 14 {
            for record in records(&after.buffer) {
                take_plain(&mut after.state, &record.words());
            }
        }
        answer
    });
    // Records that are held already stay.
    let refused_stay = Buffering(|before, after, record, answer| {
        if answer[0] == 0 {
            let source = Record::from_words(record).map(|record| record.id());
            let is_double = |one: &Record| Some(one.id()) == source;
            let double = records(&before.buffer).into_iter().filter(is_double);
            let mut left: Vec<Record> = records(&after.buffer);
            left.extend(double);
            left.sort_by_key(Record::id);
            after.buffer = laid_out(&left);
        }
        answer
    });
    // The round of the last record stays behind.
    let not_cleared = Buffering(|before, after, _, answer| {
        let count = before.buffer.first().copied().unwrap_or(0) as usize;
        if answer[0] == 0 && count > 0 {
            let last = buffer_end(count - 1);
            after.buffer[last] = before.buffer[last];
        }
        answer
    });
    for engine in [falling, after_14_too, refused_stay, not_cleared] {
        assert!(run(&engine, plan(1)).1.is_some());
    }
}

#[test]
fn changes_by_refused_vertices_with_buffers_are_noticed() {
    let state_by_14 = Buffering(|_, after, _, answer| {
        if answer[0] == 14 {
            after.state[CURRENT_ROUND] = current_round_by_rule(&after.state);
        }
        answer
    });
    let replaced_by_13 = Buffering(|before, after, record, answer| {
        let mut left = records(&before.buffer);
        let new = Record::from_words(record).unwrap_or_default();
        let same = left
            .iter_mut()
            .find(|one| (one.round, one.source) == (new.round, new.source));
        if let (13, Some(same)) = (answer[0], same) {
            *same = new;
            after.buffer = laid_out(&left);
        }
        answer
    });
    let emptied_by_19 = Buffering(|_, after, _, answer| {
        if answer[0] == 19 {
            after.buffer.iter_mut().take(1).for_each(|word| *word = 0);
        }
        answer
    });
    for engine in [state_by_14, replaced_by_13, emptied_by_19] {
        assert!(run(&engine, plan(1)).1.is_some());
    }
}

/// The second implementation that compares records without one word of the digest: with those in cells, or
/// with those in a pending buffer.
struct Overlooking(Taken, usize);

impl Engine for Overlooking {
    fn perform_lent(&self, state: &mut [u32], buffer: &mut [u32], op: &Op) -> Reply {
        let answer = Second.perform_lent(state, buffer, op);
        let Some(record) = record_of_call(op).filter(|_| answer[0] == 13) else {
            return answer;
        };
        if only_conflict(state, buffer, record) == Some((self.0, self.1)) {
            reply(&[12])
        } else {
            answer
        }
    }
}

/// The words of the record that a call takes.
fn record_of_call(op: &Op) -> Option<&[u32]> {
    match op {
        Op::Change(call) => call.record(),
        _ => None,
    }
}

#[test]
fn digest_words_that_are_not_compared_are_noticed() {
    for at in 0..DIGEST_WORDS {
        for taken in [Taken::InCell, Taken::InBuffer] {
            let found = run(&Overlooking(taken, at), plan(1)).1;
            assert!(found.is_some(), "{taken:?} {at}");
        }
    }
}

#[test]
fn a_last_digest_word_that_is_not_compared_is_shown_by_a_short_input() {
    let last = DIGEST_WORDS - 1;
    let report = reported(&Overlooking(Taken::InCell, last));
    let lines = shown(&report, "lines for sheetlog");
    assert_eq!(lines.len(), 3, "{report}");
    let [a, b] = [1, 2].map(|at| Call::parse(lines[at].as_bytes()).expect("a line"));
    let [a, b] = [a, b].map(|call| Record::from_words(call.record().unwrap_or_default()));
    let at = a.zip(b).and_then(|(a, b)| a.only_other_word(&b));
    assert_eq!(at, Some(last), "{report}");
    let commands = commands(&Overlooking(Taken::InBuffer, last));
    let is_with = commands.last().is_some_and(|last| last == "18 0 0");
    assert!(is_with && commands.len() <= 16, "{commands:?}");
}

/// The second implementation that asks question 11 of a misread record.
struct Misreading(fn(Record) -> Record);

impl Engine for Misreading {
    fn perform_lent(&self, state: &mut [u32], buffer: &mut [u32], op: &Op) -> Reply {
        let before = (state.to_vec(), buffer.to_vec());
        let answer = Second.perform_lent(state, buffer, op);
        let record = record_of_call(op).and_then(Record::from_words);
        let (Some(record), 0 | 12..=14) = (record, answer[0]) else {
            return answer;
        };
        let group = Group::new(state[N]).expect("the state is well formed");
        if first_refusal(group, &(self.0)(record)) != Some(11) {
            return answer;
        }
        state.copy_from_slice(&before.0);
        buffer.copy_from_slice(&before.1);
        reply(&[11])
    }
}

#[test]
fn weak_ids_read_in_the_places_of_01_are_noticed() {
    let count = Misreading(|record| Record {
        weak_count: record.digest[1],
        ..record
    });
    let ids = Misreading(|mut record| {
        record
            .weak
            .copy_from_slice(&record.digest[2..][..WEAK_SLOTS]);
        record
    });
    for engine in [count, ids] {
        let report = reported(&engine);
        let lines = shown(&report, "lines for sheetlog");
        assert_eq!(lines.len(), 2, "{report}");
    }
    let right = Misreading(|record| record);
    assert!(run(&right, plan(1)).1.is_none());
}

/// The second implementation that loses a word of the digest on its way into a place.
struct Losing(Place, usize);

#[derive(Clone, Copy, Debug)]
enum Place {
    Cell,
    Buffer,
    MadeRecord,
}

impl Engine for Losing {
    fn perform_lent(&self, state: &mut [u32], buffer: &mut [u32], op: &Op) -> Reply {
        let mut answer = Second.perform_lent(state, buffer, op);
        let Op::Change(call) = op else {
            return answer;
        };
        let word = CELL_DIGEST.start + self.1;
        match (self.0, call, answer[0]) {
            (Place::Cell, Call::Vertex(words), 0) => {
                let (round, source) = (words[RECORD_ROUND], words[RECORD_SOURCE]);
                state[cell_word(round, source, word)] = 0;
            }
            (Place::Buffer, Call::VertexWith(_, words), 14) => {
                let mut pending = records(buffer).into_iter();
                let at = pending.position(|record| record.words() == words[..]);
                let start = buffer_end(at.expect("it was put there"));
                buffer[start + record_word(word)] = 0;
            }
            (Place::MadeRecord, Call::Propose(_), 0) => {
                answer[ANSWER_NUMBERS + record_word(word)] = 0;
            }
            _ => {}
        }
        answer
    }
}

#[test]
fn digest_words_that_are_lost_are_noticed() {
    for at in 0..DIGEST_WORDS {
        for place in [Place::Cell, Place::Buffer, Place::MadeRecord] {
            let found = run(&Losing(place, at), plan(1)).1;
            assert!(found.is_some(), "{place:?} {at}");
        }
    }
}

#[test]
fn sizes_of_earlier_documents_that_are_taken_are_noticed() {
    let of_state = Faulty(|state, _, answer| match answer[0] {
        1 if EARLIER_STATE_WORDS.contains(&state.len()) => reply(&[3]),
        _ => answer,
    });
    let of_record = Faulty(|_, op, answer| match (answer[0], record_of_call(op)) {
        (4, Some(record)) if EARLIER_RECORD_WORDS.contains(&record.len()) => reply(&[5]),
        _ => answer,
    });
    let of_buffer = Faulty(|_, op, answer| match answer[0] {
        19 if EARLIER_BUFFER_WORDS.contains(&op.buffer().len()) => reply(&[14]),
        _ => answer,
    });
    for engine in [of_state, of_record, of_buffer] {
        assert!(run(&engine, plan(1)).1.is_some());
    }
}

/// Lists that the model does not give, through a buffer alone: the calls that show it keep little.
#[test]
fn lists_other_than_the_model_s_with_a_buffer_are_noticed() {
    let engine = Buffering(no_passes);
    let options = Options {
        buffers: 100,
        early_stop: 0,
        noise: 0,
        spread: 400,
        ..Options::typical()
    };
    let drawn = (0..).map(|seed| simulate(seed, 4, &options).replicas.remove(0));
    let fails = |calls: &Vec<Call>| {
        let (lists, model) = follow(&engine, calls);
        lists != Some(model)
    };
    let calls = drawn.take(50).find(fails).expect("one of them shows it");
    let Failure::Model { calls } = shrink(&engine, &Failure::Model { calls }) else {
        panic!("another kind of failure");
    };
    let buffers: Vec<&Call> = calls
        .iter()
        .filter(|call| !call.buffer().is_empty())
        .collect();
    assert!(!buffers.is_empty() && calls.len() <= 12, "{calls:?}");
    let records = buffers
        .iter()
        .map(|call| call.buffer()[BUFFER_COUNT])
        .sum::<u32>();
    assert!((1..=8).contains(&records), "{records}");
}

#[test]
fn a_wrong_part_is_noticed() {
    let engine = Faulty(|_, op, mut reply| {
        reply[1] += u32::from(matches!(op, Op::HandJournal(_)) && reply[2] == 1);
        reply
    });
    assert!(!shown(&reported(&engine), "for ").is_empty());
}

#[test]
fn lists_other_than_the_model_s_are_noticed() {
    let engine = Faulty(|_, op, mut reply| {
        if *op == Op::HandLeaders(0) && reply[2] > 0 {
            reply[2] -= 1;
        }
        reply
    });
    let run = simulate(1, 4, &Options::typical());
    let failure = shrink(
        &engine,
        &Failure::Model {
            calls: run.replicas[0].clone(),
        },
    );
    let Failure::Model { calls } = failure else {
        panic!("another kind of failure");
    };
    assert!(matches!(calls.first(), Some(Call::Open(4, _))), "{calls:?}");
    assert!((5..=12).contains(&calls.len()), "{calls:?}");
}

#[test]
fn lists_that_are_no_prefixes_are_noticed() {
    let engine = Faulty(|_, op, mut reply| {
        if matches!(op, Op::HandLeaders(_)) && reply[2] > 1 {
            reply[1] += 1;
            reply[2] -= 1;
        }
        reply
    });
    let [mut a, b] = <[_; 2]>::try_from(simulate(1, 4, &Options::calm()).replicas)
        .expect("there are two replicas");
    let leaders = |count: usize| follow(&Second, &a[..count]).1.leaders.len();
    let one = (1..a.len()).find(|&count| leaders(count) == 1);
    a.truncate(one.expect("a single leader is committed first"));
    let failure = shrink(&engine, &Failure::Prefix { calls: [a, b] });
    let Failure::Prefix { calls: [a, b] } = failure else {
        panic!("another kind of failure");
    };
    assert!(a.len() <= 8 && b.len() <= 16, "{a:?} {b:?}");
}

#[test]
fn the_proved_library_passes() {
    let (tally, found) = run(&Proved, plan(2));
    assert!(found.is_none());
    assert!(tally.calls >= COUNT && tally.committed > 100, "{tally}");
}

#[test]
fn a_seed_gives_the_same_run() {
    let table = |seed| run(&Second, plan(seed)).0.to_string();
    assert_eq!(table(3), table(3));
    assert_ne!(table(3), table(4));
}

#[test]
fn fewest_leaves_what_is_needed() {
    let items: Vec<u32> = (0..100).collect();
    let fails = |items: &[u32]| [7, 50, 99].iter().all(|item| items.contains(item));
    assert_eq!(fewest(&items, fails), [7, 50, 99]);
}
