//! Digests of eight words (02, request A7), as calls on states opened for a watcher.

use super::pending::{before_chain, chain, handed_over, plain, with};
use super::row::Row;
use super::worked::{record, state_s, vertex};
use crate::call::Call;
use crate::layout::*;
use crate::record::{Digest, Record};

/// A digest whose words are all different.
pub const DIGEST: Digest = [5, 1 << 31, 7, 11, u32::MAX, 2, 1, 3];

/// All rows.
pub fn rows() -> Vec<Row> {
    let mut rows = Vec::from(LEGAL_SIZES.map(held));
    rows.extend([heard(), waiting()]);
    rows.extend(one_word_each(with_digest(plain(1, 3, 0))).map(left_behind));
    rows.extend([4, 16].map(full));
    rows.push(released());
    rows.extend([earlier_records(), earlier_places(), earlier_weak_ids()]);
    rows
}

fn with_digest(record: Record) -> Record {
    let digest = DIGEST;
    Record { digest, ..record }
}

/// The record as it is and once for each word of the digest, with that word changed.
fn one_word_each(record: Record) -> impl Iterator<Item = Record> {
    let changed = (0..DIGEST_WORDS).map(move |at| record.with_other_word(at));
    [record].into_iter().chain(changed)
}

fn plain_call(record: Record) -> Call {
    Call::Vertex(record.words().to_vec())
}

/// A held vertex again, and with each word of its digest changed, plainly and with a buffer; the held
/// digest has eight words, or none but 0.
fn held(n: u32) -> Row {
    let held = [with_digest(plain(1, 1, 0)), plain(1, n - 1, 0)];
    let again = held.into_iter().flat_map(one_word_each);
    let calls = again.flat_map(|record| [plain_call(record), with(&[], record)]);
    Row::of(n, held.map(plain_call)).then(&[], calls)
}

/// First messages of one member: with whatever digest, only the first is heard.
fn heard() -> Row {
    let messages = one_word_each(with_digest(plain(2, 3, 7)));
    let calls = messages.map(|record| Call::First(record.words().to_vec()));
    Row::of_four(state_s()).then(&[], calls)
}

/// A vertex that waits in the buffer, again and with each word of its digest changed, alone there and
/// between others.
fn waiting() -> Row {
    let waiting = [0, 1, 2].map(|source| with_digest(plain(2, source, 15)));
    let buffers = [&waiting[1..2], &waiting];
    let calls = buffers
        .into_iter()
        .flat_map(|buffer| one_word_each(waiting[1]).map(move |record| with(buffer, record)));
    Row::of_four(state_s().into_iter().chain(calls.collect::<Vec<_>>()))
}

/// A vertex taken while a double of it waits in the buffer, and another vertex while the double still
/// does: the double leaves each time, and the cell keeps the digest that was taken.
fn left_behind(double: Record) -> Row {
    let parent = with_digest(plain(1, 3, 0));
    let child = with_digest(record(2, 3, [14, 7, 0]));
    let calls = [
        with(&[double, child], parent),
        with(&[double], plain(2, 0, 7)),
    ];
    Row::of_four(state_s()).then(&[], calls)
}

/// A full buffer: its records again and with a word of their digest changed, and then all are released.
fn full(n: u32) -> Row {
    let (held, last) = before_chain(n);
    let chain: Vec<Record> = chain(n).into_iter().map(with_digest).collect();
    let again = (0..).zip(&chain);
    let again = again.flat_map(|(at, record)| [*record, record.with_other_word(at)]);
    let calls: Vec<Call> = again.map(|record| with(&chain, record)).collect();
    Row::of(n, held.into_iter().chain(calls)).then(&[], [with(&chain, last)])
}

/// Vertices of which each has another digest, from the last to the first: all are released at the end.
fn released() -> Row {
    let rounds = (2..=6).flat_map(|round| (0..4).map(move |source| plain(round, source, 15)));
    let first = (0..4).map(|source| plain(1, source, 0));
    let mut all: Vec<Record> = first.chain(rounds).collect();
    for record in &mut all {
        let id = record.id();
        record.digest = DIGEST.map(|word| word.wrapping_mul(id));
    }
    Row::of_four(handed_over(4, Vec::new(), all.into_iter().rev()))
}

/// Records as long as in earlier documents, with a tag and with weak ids, and cut from whole ones.
fn earlier_records() -> Row {
    let tagged = [1, 3, 0, 0, 0, 13, 0, 0, 0, 0, 0, 0];
    let with_weak = [3, 0, 7, 0, 0, 13, 1, vertex_id(1, 2), 0, 0, 0, 0];
    let whole = with_digest(plain(1, 3, 0)).words();
    let cut = EARLIER_RECORD_WORDS.map(|length| &whole[..length]);
    let all = [&tagged[..], &with_weak].into_iter().chain(cut);
    let calls = all.flat_map(|words| {
        let words = words.to_vec();
        let buffered = Call::VertexWith(vec![0; BUFFER_WORDS], words.clone());
        [Call::Vertex(words.clone()), buffered, Call::First(words)]
    });
    Row::of_four(state_s()).then(&[], calls.collect::<Vec<_>>())
}

/// Digest words of any value stand where 01 has the weak count and the weak ids.
fn earlier_places() -> Row {
    let digest = |at: usize, word: u32| {
        let mut digest = Digest::default();
        digest[at] = word;
        digest
    };
    let words = [1, 2, 5, 6, u32::MAX];
    let digests = (1..=1 + WEAK_SLOTS).flat_map(|at| words.map(|word| digest(at, word)));
    let later = (2..=LAST_ROUND).flat_map(|round| [0, 1, 2, 3].map(|p| plain(round, p, 15)));
    let vertices = [plain(1, 3, 0)].into_iter().chain(later);
    let records = vertices
        .zip(digests)
        .map(|(vertex, digest)| Record { digest, ..vertex });
    let calls = records.flat_map(|record| {
        let words = record.words().to_vec();
        [Call::First(words.clone()), Call::Vertex(words)]
    });
    Row::of_four(state_s().into_iter().chain(calls))
}

/// A weak id in 01's place is a word of the digest, and no edge; one in its place is.
fn earlier_weak_ids() -> Row {
    let second = (0..3).map(|source| vertex(2, source, [7, 0, 0]));
    let weak = vertex_id(1, 3);
    let mut in_digest = plain(3, 0, 7);
    in_digest.digest = [9, 1, weak, 0, 0, 0, 0, 0];
    let in_place = plain(3, 1, 7).with_weak(&[weak]);
    let calls = [in_digest, in_place].map(plain_call);
    Row::of_four(state_s().into_iter().chain(second)).then(&[], calls)
}
