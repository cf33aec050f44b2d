//! The calls. Each asks its questions in turn; a refused call leaves the state as it was.

use std::ops::Range;

use crate::answer::{self, Answer, Proposal, Status};
use crate::group::Group;
use crate::layout::{JOURNAL, JOURNAL_COUNT, LEADER_COUNT, LEADER_LIST, STATE_WORDS};
use crate::pending::PendingBuffer;
use crate::record::{first_refusal, is_round, Digest, Record};
use crate::state::{status_words, well_formed_words, ReplicaState, RoundMasks};

/// Opens a state for n members, whatever it held before. `own` is the own member plus 1, 0 for a
/// watcher. Asks 1, 2 and 6.
pub fn open(state: &mut [u32], n: u32, own: u32) -> Answer {
    if state.len() != STATE_WORDS {
        return Answer::refused(answer::STATE_SIZE);
    }
    let Some(group) = Group::new(n) else {
        return Answer::refused(answer::GROUP_SIZE);
    };
    let member = own.checked_sub(1);
    if member.is_some_and(|member| member >= n) {
        return Answer::refused(answer::MEMBER);
    }
    write(state, &ReplicaState::opened(group, member));
    Answer::default()
}

/// Takes a vertex that reliable broadcast has delivered. Asks 1 and 3 to 14. Admitted, its timeout
/// mask joins the timeouts of the round before, ahead of the round rule.
pub fn take_vertex(state: &mut [u32], record: &[u32]) -> Answer {
    change(state, |next| {
        let record = checked_record(next, record)?;
        hold(next, record)
    })
}

/// Takes a vertex with a pending buffer (02, request A5: a shelf). Asks 1, 3, 19 and 4 to 13. With a
/// missing parent the record is put into the buffer, unless this has one of its id (12 or 13) or no
/// place (20). After an admission the buffer's records are tried as plain vertices, in passes.
pub fn take_vertex_with(state: &mut [u32], buffer: &mut [u32], record: &[u32]) -> Answer {
    let mut pending = PendingBuffer::default();
    let answer = change(state, |next| {
        pending =
            PendingBuffer::decode(buffer, next.group).ok_or(Answer::refused(answer::BUFFER))?;
        let record = checked_record(next, record)?;
        hold(next, record).map_err(|refusal| match refusal.number {
            answer::MISSING_PARENT => pending.keep(record, refusal),
            _ => refusal,
        })?;
        pending.release(|record| number(checked(next, record).and_then(|()| hold(next, *record))));
        Ok(())
    });
    if matches!(answer.number, answer::ADMITTED | answer::MISSING_PARENT) {
        overwrite(buffer, pending.encode());
    }
    answer
}

/// Takes a first message, seen before delivery. Asks 1 and 3 to 12.
pub fn take_first_message(state: &mut [u32], record: &[u32]) -> Answer {
    change(state, |next| {
        let record = checked_record(next, record)?;
        if next.heard.has(record.round, record.source) {
            return refuse(answer::NOT_NEW);
        }
        next.heard.add(record.round, record.source);
        if record.votes(next.group) {
            next.votes.add(record.round, record.source);
        }
        next.commit_all();
        Ok(())
    })
}

/// Takes a member's timeout for a round (01: a timeout note). Asks 1, 3, 5, 6 and 12.
pub fn take_timeout(state: &mut [u32], round: u32, signer: u32) -> Answer {
    change(state, |next| {
        take_note(next.group, &mut next.timeouts, round, signer)?;
        next.advance_current_round();
        Ok(())
    })
}

/// Takes the timeouts for a round by the members of a mask (02, request A3: a bundle). Asks 1, 3, 5,
/// 7 and 12: somebody in it must be new, and those noted before do no harm.
pub fn take_timeouts(state: &mut [u32], round: u32, mask: u32) -> Answer {
    change(state, |next| {
        if !is_round(round) {
            return refuse(answer::ROUND);
        }
        if !next.group.contains(mask) {
            return refuse(answer::MASK_BITS);
        }
        if mask & !next.timeouts.get(round) == 0 {
            return refuse(answer::NOT_NEW);
        }
        next.timeouts.join(round, mask);
        next.advance_current_round();
        Ok(())
    })
}

/// Takes a member's no-vote for a round (01: a no-vote note). Asks 1, 3, 5, 6 and 12.
pub fn take_no_vote(state: &mut [u32], round: u32, signer: u32) -> Answer {
    change(state, |next| {
        take_note(next.group, &mut next.no_votes, round, signer)
    })
}

/// Makes our own vertex for the current round (02: making). Asks 1, 3, 16, 5, 9, 10, 12 and 18.
pub fn propose(state: &mut [u32], digest: Digest) -> Proposal {
    let mut proposal = Proposal::default();
    proposal.answer = change(state, |next| {
        proposal.record = next.make_record(digest).map_err(Answer::refused)?.words();
        Ok(())
    });
    proposal
}

/// Signs our no-vote for the round before the current one. Asks 1, 3, 16, 17 and 12.
pub fn sign_no_vote(state: &mut [u32]) -> Answer {
    change(state, |next| next.sign_no_vote().map_err(Answer::refused))
}

/// Reads the status (01: the head). Asks 1 and 3.
pub fn status(state: &[u32]) -> Status {
    match well_formed_words(state) {
        Err(number) => Status {
            number,
            ..Status::default()
        },
        Ok(()) => status_words(state),
    }
}

/// Asks for the leader list from entry k. Asks 1, 3 and 15.
pub fn ask_leaders(state: &[u32], k: u32) -> u32 {
    hand_leaders(state, k).0
}

/// Asks for the journal from entry k. Asks 1, 3 and 15.
pub fn ask_journal(state: &[u32], k: u32) -> u32 {
    hand_journal(state, k).0
}

/// Hands over the leader list from entry k: the asking call's number, and the part of the state.
pub fn hand_leaders(state: &[u32], k: u32) -> (u32, &[u32]) {
    hand_list(state, k, LEADER_LIST, LEADER_COUNT)
}

/// Hands over the journal from entry k: the asking call's number, and the part of the state.
pub fn hand_journal(state: &[u32], k: u32) -> (u32, &[u32]) {
    hand_list(state, k, JOURNAL, JOURNAL_COUNT)
}

fn hand_list(state: &[u32], k: u32, list: Range<usize>, count: usize) -> (u32, &[u32]) {
    if let Err(number) = well_formed_words(state) {
        return (number, &[]);
    }
    let entries = &state[list][..state[count] as usize];
    match entries.get(k as usize..) {
        Some(part) => (answer::ADMITTED, part),
        None => (answer::LIST_START, &[]),
    }
}

type Step = Result<(), Answer>;

fn refuse(number: u32) -> Step {
    Err(Answer::refused(number))
}

/// Asks 1 and 3, takes a step on the decoded state, and writes that back unless it was refused.
fn change(state: &mut [u32], step: impl FnOnce(&mut ReplicaState) -> Step) -> Answer {
    let mut next = match ReplicaState::decode(state) {
        Err(number) => return Answer::refused(number),
        Ok(next) => next,
    };
    let before = (next.leader_list.len(), next.journal.len());
    if let Err(refusal) = step(&mut next) {
        return refusal;
    }
    write(state, &next);
    Answer {
        leaders: (next.leader_list.len() - before.0) as u32,
        journal: (next.journal.len() - before.1) as u32,
        ..Answer::default()
    }
}

fn write(state: &mut [u32], next: &ReplicaState) {
    overwrite(state, next.encode());
}

fn overwrite(words: &mut [u32], next: Vec<u32>) {
    words
        .iter_mut()
        .zip(next)
        .for_each(|(word, new)| *word = new);
}

/// Questions 4 to 11.
fn checked_record(state: &ReplicaState, words: &[u32]) -> Result<Record, Answer> {
    let record = Record::from_words(words).ok_or(Answer::refused(answer::RECORD_SIZE))?;
    checked(state, &record)?;
    Ok(record)
}

/// Questions 5 to 11.
fn checked(state: &ReplicaState, record: &Record) -> Step {
    first_refusal(state.group, record).map_or(Ok(()), refuse)
}

/// Questions 12 to 14 for a vertex, then its cell and what follows.
fn hold(next: &mut ReplicaState, record: Record) -> Step {
    if let Some(held) = next.vertices.get(&record.id()) {
        let same = *held == record;
        return refuse(if same {
            answer::NOT_NEW
        } else {
            answer::CONFLICT
        });
    }
    if let Some(id) = record.parents().filter(|&id| !next.holds(id)).min() {
        return Err(Answer::missing_parent(id));
    }
    next.vertices.insert(record.id(), record);
    next.timeouts.join(record.round - 1, record.timeouts);
    next.advance_current_round();
    next.commit_all();
    Ok(())
}

/// The number that a step gives.
fn number(step: Step) -> u32 {
    step.err()
        .map_or(answer::ADMITTED, |refusal| refusal.number)
}

/// Questions 5, 6 and 12 for a timeout or no-vote, then its bit.
fn take_note(group: Group, masks: &mut RoundMasks, round: u32, signer: u32) -> Step {
    if !is_round(round) {
        return refuse(answer::ROUND);
    }
    if signer >= group.n() {
        return refuse(answer::MEMBER);
    }
    if masks.has(round, signer) {
        return refuse(answer::NOT_NEW);
    }
    masks.add(round, signer);
    Ok(())
}
