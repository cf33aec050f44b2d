//! Makes a failure smaller: parts are left out while it remains.

use crate::agreement::{admitted, follow, prefixes};
use crate::engine::{Engine, Second};
use crate::failure::{Failure, Step};
use crate::op::Op;
use crate::pair::{Difference, Pair};
use reference::layout::DIGEST_WORDS;
use reference::pending::{laid_out, records};
use reference::{Call, STATE_WORDS};

/// As few of the items as still fail: no one of those that are left can be left out.
pub fn fewest<T: Clone>(items: &[T], fails: impl Fn(&[T]) -> bool) -> Vec<T> {
    let mut kept = items.to_vec();
    let mut size = kept.len().max(1);
    loop {
        let before = kept.len();
        let mut at = 0;
        while at < kept.len() {
            let mut fewer = kept.clone();
            fewer.drain(at..kept.len().min(at + size));
            if fails(&fewer) {
                kept = fewer;
            } else {
                at += size;
            }
        }
        if size == 1 && kept.len() == before {
            return kept;
        }
        size = (size / 2).max(1);
    }
}

/// The first call that differs among steps on so many words, all 0 at first.
pub fn first_difference(
    engine: &dyn Engine,
    size: usize,
    steps: &[Step],
) -> Option<(Op, Difference)> {
    let mut pair = Pair::new(&vec![0; size]);
    steps.iter().find_map(|step| match step {
        Step::Set(at, word) => {
            pair.set(*at, *word);
            None
        }
        Step::Perform(op) => {
            let difference = pair.perform(engine, op).err()?;
            Some((op.clone(), *difference))
        }
    })
}

/// The numbers that `sheetlog` prints of a list of calls.
fn printed(engine: &dyn Engine, calls: &[Call]) -> Vec<Vec<u32>> {
    let mut state = vec![0; STATE_WORDS];
    let mut lines = Vec::new();
    for call in calls {
        let number = engine.perform(&mut state, &Op::Change(call.clone()))[0];
        let status = engine.perform(&mut state, &Op::Status);
        lines.push([&[number], &status[1..=4]].concat());
    }
    for op in [Op::HandLeaders(0), Op::HandJournal(0)] {
        let [_, start, length, ..] = engine.perform(&mut state, &op);
        let entries = state.iter().skip(start as usize).take(length as usize);
        lines.push(entries.copied().collect());
    }
    lines
}

/// Whether `sheetlog` over the engine prints other lines than over the second implementation.
fn shows_in_sheetlog(engine: &dyn Engine, calls: &[Call]) -> bool {
    printed(engine, calls) != printed(&Second, calls)
}

/// The failure with calls or words left out while it remains.
pub fn shrink(engine: &dyn Engine, failure: &Failure) -> Failure {
    match failure {
        Failure::Steps { size, steps } => shrink_steps(engine, *size, steps),
        Failure::Lines { calls } => Failure::Lines {
            calls: fewest(calls, |calls| shows_in_sheetlog(engine, calls)),
        },
        Failure::Model { calls } => shrink_model(engine, calls),
        Failure::Prefix { calls } => shrink_prefix(engine, calls),
    }
}

/// By what `sheetlog` prints, if the difference shows there, else by every answer and word. Steps
/// for a watcher, without pending buffers and bundles or with them, are taken where they differ too,
/// since `sheetlog` opens for a watcher and has no line for these.
fn shrink_steps(engine: &dyn Engine, size: usize, steps: &[Step]) -> Failure {
    let differs = |steps: &[Step]| first_difference(engine, size, steps).is_some();
    let watched: Vec<Step> = steps.iter().map(Step::for_watcher).collect();
    let single: Vec<Step> = watched.iter().flat_map(Step::one_by_one).collect();
    let plain = plainly(size, &single);
    let others = [plain, single, watched];
    let other = others.iter().find(|steps| differs(steps));
    let steps = fewest(other.map_or(steps, Vec::as_slice), differs);
    let call = |step: &Step| step.as_change().cloned();
    let steps = smaller_buffers(steps, call, Step::of_call, differs);
    let steps = smaller_digests(&steps, differs);
    let lines: Option<Vec<Call>> = steps.iter().map(|step| step.as_line().cloned()).collect();
    match lines {
        Some(calls) if size == STATE_WORDS && shows_in_sheetlog(engine, &calls) => {
            shrink(engine, &Failure::Lines { calls })
        }
        _ => Failure::Steps { size, steps },
    }
}

/// Steps on so many words, with plain vertices in place of one with a pending buffer: its own, and
/// those that then leave the buffer.
fn plainly(size: usize, steps: &[Step]) -> Vec<Step> {
    let mut pair = Pair::new(&vec![0; size]);
    let mut plain = Vec::new();
    for step in steps {
        match step {
            Step::Set(at, word) => pair.set(*at, *word),
            Step::Perform(op) => drop(pair.perform(&Second, op)),
        }
        match step.as_change() {
            Some(Call::VertexWith(buffer, record)) => {
                let left = records(pair.buffer());
                let gone = records(buffer)
                    .into_iter()
                    .filter(|one| !left.contains(one));
                let gone = gone.map(|record| record.words().to_vec());
                let words = [record.clone()].into_iter().chain(gone);
                plain.extend(words.map(|words| Step::of_call(&Call::Vertex(words))));
            }
            _ => plain.push(step.clone()),
        }
    }
    plain
}

/// The steps with zeros in as many words of all digests as still fails.
fn smaller_digests(steps: &[Step], fails: impl Fn(&[Step]) -> bool) -> Vec<Step> {
    let with = |kept: &[usize]| -> Vec<Step> {
        let steps = steps.iter();
        steps.map(|step| step.with_digest_words(kept)).collect()
    };
    let all: Vec<usize> = (0..DIGEST_WORDS).collect();
    with(&fewest(&all, |kept| fails(&with(kept))))
}

/// A call as an item of a list of calls.
fn same(call: &Call) -> Option<Call> {
    Some(call.clone())
}

/// The items with as little in each pending buffer as still fails.
fn smaller_buffers<T: Clone>(
    mut items: Vec<T>,
    call: impl Fn(&T) -> Option<Call>,
    with: impl Fn(&Call) -> T,
    fails: impl Fn(&[T]) -> bool,
) -> Vec<T> {
    for at in 0..items.len() {
        let Some(Call::VertexWith(buffer, record)) = call(&items[at]) else {
            continue;
        };
        let lent = |buffer: Vec<u32>| with(&Call::VertexWith(buffer, record.clone()));
        let smaller = smaller_buffer(&buffer, |buffer| {
            let mut other = items.clone();
            other[at] = lent(buffer);
            fails(&other)
        });
        items[at] = lent(smaller);
    }
    items
}

/// A buffer with as few records, or words if it is not laid out so, as still fail.
fn smaller_buffer(buffer: &[u32], fails: impl Fn(Vec<u32>) -> bool) -> Vec<u32> {
    let all = records(buffer);
    if laid_out(&all) == buffer {
        return laid_out(&fewest(&all, |few| fails(laid_out(few))));
    }
    let of_words = |words: &[(usize, u32)]| {
        let mut buffer = vec![0; buffer.len()];
        words.iter().for_each(|&(at, word)| buffer[at] = word);
        buffer
    };
    let mut words: Vec<(usize, u32)> = buffer.iter().copied().enumerate().collect();
    words.retain(|(_, word)| *word != 0);
    of_words(&fewest(&words, |words| fails(of_words(words))))
}

/// The opening is kept, and refused calls go first, so that the premises still hold.
fn shrink_model(engine: &dyn Engine, calls: &[Call]) -> Failure {
    let fails = |calls: &[Call]| {
        let (lists, model) = follow(engine, calls);
        lists != Some(model)
    };
    let calls = as_plain(admitted(engine, calls), fails);
    let (opening, rest) = calls.split_at(calls.len().min(1));
    let fails = |rest: &[Call]| fails(&[opening, rest].concat());
    let rest = smaller_buffers(fewest(rest, fails), same, Call::clone, fails);
    Failure::Model {
        calls: [opening, &rest].concat(),
    }
}

/// The calls with plain vertices in place of those with a pending buffer, if these fail too.
fn as_plain(calls: Vec<Call>, fails: impl Fn(&[Call]) -> bool) -> Vec<Call> {
    let steps: Vec<Step> = calls.iter().map(Step::of_call).collect();
    let plain = plainly(STATE_WORDS, &steps);
    let plain: Vec<Call> = plain.iter().filter_map(Step::as_change).cloned().collect();
    if fails(&plain) {
        plain
    } else {
        calls
    }
}

fn shrink_prefix(engine: &dyn Engine, [a, b]: &[Vec<Call>; 2]) -> Failure {
    let differ = |a: &[Call], b: &[Call]| match (follow(engine, a).0, follow(engine, b).0) {
        (Some(a), Some(b)) => !prefixes(&a, &b),
        _ => false,
    };
    let (a, b) = (admitted(engine, a), admitted(engine, b));
    let a = as_plain(a, |a| differ(a, &b));
    let b = as_plain(b, |b| differ(&a, b));
    let a = fewest(&a, |a| differ(a, &b));
    let a = smaller_buffers(a, same, Call::clone, |a| differ(a, &b));
    let b = fewest(&b, |b| differ(&a, b));
    let b = smaller_buffers(b, same, Call::clone, |b| differ(&a, b));
    Failure::Prefix { calls: [a, b] }
}
