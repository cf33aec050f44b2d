//! Demand 3 by test: lists that the tested engine hands over, beside the model's and one another.

use crate::engine::Engine;
use crate::op::{Op, Reply};
use reference::model::Lists;
use reference::{Call, Model, STATE_WORDS};

/// Leader list and journal from entry 0, as the engine hands them over; `None` if it refuses.
pub fn handed(engine: &dyn Engine, state: &[u32]) -> Option<Lists> {
    let mut words = state.to_vec();
    let leaders = engine.perform(&mut words, &Op::HandLeaders(0));
    let journal = engine.perform(&mut words, &Op::HandJournal(0));
    Some(Lists {
        leaders: part(state, leaders)?,
        journal: part(state, journal)?,
    })
}

fn part(state: &[u32], [number, start, length, ..]: Reply) -> Option<Vec<u32>> {
    let end = start.checked_add(length)?;
    let words = state.get(start as usize..end as usize)?;
    (number == 0).then(|| words.to_vec())
}

/// The lists that calls on a zero state leave, by the engine and by the model.
pub fn follow(engine: &dyn Engine, calls: &[Call]) -> (Option<Lists>, Lists) {
    let mut state = vec![0; STATE_WORDS];
    let mut model = Model::default();
    for call in calls {
        let reply = engine.perform(&mut state, &Op::Change(call.clone()));
        model.feed(call, reply[0]);
    }
    (handed(engine, &state), model.lists())
}

/// Whether one list is a prefix of the other, for leaders and for journals.
pub fn prefixes(a: &Lists, b: &Lists) -> bool {
    let within = |a: &[u32], b: &[u32]| a.starts_with(b) || b.starts_with(a);
    within(&a.leaders, &b.leaders) && within(&a.journal, &b.journal)
}

/// The calls of a list that are admitted. Refused calls change nothing, so the lists stay.
pub fn admitted(engine: &dyn Engine, calls: &[Call]) -> Vec<Call> {
    let mut state = vec![0; STATE_WORDS];
    let mut is_admitted =
        |call: &&Call| engine.perform(&mut state, &Op::Change((*call).clone()))[0] == 0;
    calls
        .iter()
        .filter(|call| is_admitted(call))
        .cloned()
        .collect()
}
