//! Runs eight groups of four members. A watcher follows the first seven and prints for a call its number and the status, and at the
//! end the leader list and the journal: of the first five what sheetlog prints for the same calls; the sixth has bundles of
//! timeouts, and the seventh a buffer for vertices that come too early, for which sheetlog has no lines. The eighth is run by its
//! four members, which propose and sign: it prints what they send, as lines of sheetlog's input, and at the end each member's
//! lists.

use std::collections::BTreeMap;

use yardbook::record::{ROUND, SOURCE, TIMEOUTS};
use yardbook::{number, Answer, Digest, BUFFER_WORDS, DIGEST_BYTES, RECORD_WORDS, STATE_WORDS};

const MEMBERS: usize = 4;

type State = [u32; STATE_WORDS];
type Buffer = [u32; BUFFER_WORDS];
type Record = [u32; RECORD_WORDS];

fn print(letter: char, words: &[u32]) {
    print!("{letter}");
    for word in words {
        print!(" {word}");
    }
    println!();
}

fn print_lists(state: &State) {
    print('L', yardbook::hand_leaders(state, 0).ids);
    print('J', yardbook::hand_journal(state, 0).ids);
}

/// A record without weak parents. Its digest is `block` and seven zeros.
fn record(
    round: u32,
    source: u32,
    strong: u32,
    timeouts: u32,
    no_votes: u32,
    block: u32,
) -> Record {
    let first = [round, source, strong, timeouts, no_votes, block];
    let mut record = [0; RECORD_WORDS];
    record[..first.len()].copy_from_slice(&first);
    record
}

fn with_digest(mut record: Record, digest: Digest) -> Record {
    digest.put_into(&mut record);
    record
}

fn with_other_end(mut bytes: [u8; DIGEST_BYTES]) -> [u8; DIGEST_BYTES] {
    bytes[DIGEST_BYTES - 1] += 1;
    bytes
}

/// The record of another block, whose digest differs in the last byte.
fn with_other_block(record: Record) -> Record {
    let bytes = Digest::of_record(&record).to_bytes();
    with_digest(record, with_other_end(bytes).into())
}

fn id_of(round: u32, member: u32) -> u32 {
    yardbook::MEMBERS as u32 * round + member
}

/// What stands for the hash of a vertex's block: the bytes id, id + 1, ..
fn block_bytes(id: u32) -> [u8; DIGEST_BYTES] {
    std::array::from_fn(|i| (id as usize + i) as u8)
}

fn block_of(round: u32, member: u32) -> Digest {
    Digest::from_bytes(&block_bytes(id_of(round, member)))
}

/// The first byte of a word is its lowest, and another last byte changes the eighth word alone.
fn check_bytes() {
    let mut digest = Digest([
        0x03020100, 0x07060504, 0x0b0a0908, 0x0f0e0d0c, 0x13121110, 0x17161514, 0x1b1a1918,
        0x1f1e1d1c,
    ]);
    let bytes = block_bytes(0);
    assert_eq!(Digest::from_bytes(&bytes), digest);
    assert_eq!(digest.to_bytes(), bytes);
    digest.0[7] += 1 << 24;
    assert_eq!(Digest::from(with_other_end(bytes)), digest);
}

struct Watched {
    state: State,
    /// Vertices that wait for their parents.
    buffer: Buffer,
}

impl Watched {
    /// Opens the group and takes three vertices of round 1, from member `first` on.
    fn opened(first: u32) -> Watched {
        let mut group = Watched {
            state: [0; STATE_WORDS],
            buffer: [0; BUFFER_WORDS],
        };
        let answer = yardbook::open(&mut group.state, MEMBERS as u32, 0);
        group.print(answer);
        for p in first..first + 3 {
            group.vertex(record(1, p, 0, 0, 0, 10 + p));
        }
        group
    }

    fn vertex(&mut self, record: Record) {
        let answer = yardbook::take_vertex(&mut self.state, &record);
        self.print(answer);
    }

    fn early_vertex(&mut self, record: Record) {
        let answer = yardbook::take_vertex_with(&mut self.state, &mut self.buffer, &record);
        self.print(answer);
    }

    fn first_message(&mut self, record: Record) {
        let answer = yardbook::take_first_message(&mut self.state, &record);
        self.print(answer);
    }

    fn timeout(&mut self, round: u32, signer: u32) {
        let answer = yardbook::take_timeout(&mut self.state, round, signer);
        self.print(answer);
    }

    fn bundle(&mut self, round: u32, mask: u32) {
        let answer = yardbook::take_timeouts(&mut self.state, round, mask);
        self.print(answer);
    }

    fn print(&self, answer: Answer) {
        let s = yardbook::status(&self.state);
        println!(
            "{} {} {} {} {}",
            answer.number, s.current_round, s.committed_round, s.leader_count, s.journal_count
        );
    }
}

/// A quorum of first messages commits round 1.
fn watch_sample() {
    let mut group = Watched::opened(0);
    for source in [0, 1, 3] {
        group.first_message(record(2, source, 7, 0, 0, 20 + source));
    }
    print_lists(&group.state);
}

/// Round 1's leader has two votes, one short of a quorum. First messages of round 3 commit round 2's leader, and a strong
/// path leads from it to round 1's, which is taken too.
fn watch_two_leaders() {
    let mut group = Watched::opened(0);
    group.vertex(record(1, 3, 0, 0, 0, 13));
    group.vertex(record(2, 0, 7, 0, 0, 20));
    group.vertex(record(2, 1, 7, 0, 0, 21));
    group.vertex(record(2, 3, 14, 7, 0, 23));
    for source in [0, 1, 2] {
        group.first_message(record(3, source, 11, 0, 0, 30 + source));
    }
    print_lists(&group.state);
}

/// Two first messages, and the vertex of one of the two members, are two voters for round 1's leader: a member counts once. The
/// vertex of a third member commits it.
fn watch_sightings() {
    let mut group = Watched::opened(0);
    for source in [0, 1] {
        group.first_message(record(2, source, 7, 0, 0, 20 + source));
    }
    for source in [1, 2] {
        group.vertex(record(2, source, 7, 0, 0, 20 + source));
    }
    print_lists(&group.state);
}

/// Round 1 lacks its leader's vertex, and no timeout arrives. The first vertex of round 2 carries the timeout certificate of
/// members 0, 1 and 2, and with it the watcher is in round 2. Member 0's own timeout, when it comes, is known already. Round 2's
/// leader carries a no-vote certificate too, and vertices of round 3 commit it.
fn watch_carried() {
    let mut group = Watched::opened(1);
    group.vertex(record(2, 0, 14, 7, 0, 20));
    group.timeout(1, 0);
    group.vertex(record(2, 2, 14, 7, 0, 22));
    group.vertex(record(2, 3, 14, 7, 0, 23));
    group.vertex(record(2, 1, 14, 7, 14, 21));
    for source in [0, 1, 2] {
        group.vertex(record(3, source, 15, 0, 0, 30 + source));
    }
    print_lists(&group.state);
}

/// A vertex with a digest in all eight words. The same one again is known already, and one whose digest differs in the last byte
/// conflicts with it.
fn watch_digests() {
    let mut group = Watched::opened(0);
    let record = with_digest(record(1, 3, 0, 0, 0, 0), block_of(1, 3));
    group.vertex(record);
    group.vertex(record);
    group.vertex(with_other_block(record));
    print_lists(&group.state);
}

/// For calls that nothing can refuse here.
fn must(answer: Answer) {
    assert_eq!(answer.number, number::OK);
}

/// For what nothing can make false here.
fn must_hold(holds: bool, what: &str) {
    assert!(holds, "not so: {what}");
}

/// Round 1 lacks its leader's vertex, and its timeouts come in bundles. Members 1 and 2, bundled, are no quorum. Member 2 alone
/// and the same bundle again are known then, and a bundle with member 4, which is none of the group, is refused as a whole. The
/// last bundle has members 1 and 2 once more, and with member 3 the watcher is in round 2. Single timeouts of the three end in the
/// same words.
fn watch_bundle() {
    let mut group = Watched::opened(1);
    let mut singly = group.state;
    group.bundle(1, 6);
    group.timeout(1, 2);
    group.bundle(1, 6);
    group.bundle(1, 30);
    group.bundle(1, 14);
    print_lists(&group.state);
    for signer in [1, 2, 3] {
        must(yardbook::take_timeout(&mut singly, 1, signer));
    }
    must_hold(
        singly == group.state,
        "single timeouts end in the bundles' words",
    );
}

/// The vertex of a full round whose strong parents are all of the round before.
fn full_record(round: u32, source: u32) -> Record {
    let strong = if round == 1 { 0 } else { 15 };
    record(round, source, strong, 0, 0, 10 * round + source)
}

/// The vertices of full rounds, in order.
fn full_rounds(rounds: u32) -> Vec<Record> {
    (1..=rounds)
        .flat_map(|round| (0..MEMBERS as u32).map(move |source| full_record(round, source)))
        .collect()
}

/// The state of a watcher that takes the vertices in order, without a buffer.
fn taken_in_order(vertices: &[Record]) -> State {
    let mut ordered = [0; STATE_WORDS];
    must(yardbook::open(&mut ordered, MEMBERS as u32, 0));
    for record in vertices {
        must(yardbook::take_vertex(&mut ordered, record));
    }
    ordered
}

/// Three full rounds. The vertex of round 1's leader is the last to arrive: until then those of rounds 2 and 3, which come the
/// wrong way round, wait in the buffer. One of these again is known already, and one whose digest differs in the last byte
/// conflicts with it. A damaged buffer is refused. The leader's vertex brings all that waits into the state, and two rounds are
/// committed. In order, the same vertices end in the same words.
fn watch_pending() {
    let mut group = Watched::opened(1);
    for source in [3, 2, 1, 0] {
        group.early_vertex(full_record(3, source));
    }
    group.early_vertex(full_record(3, 0));
    group.early_vertex(with_other_block(full_record(3, 0)));
    for source in [3, 2, 1, 0] {
        group.early_vertex(full_record(2, source));
    }
    group.buffer[0] += 1;
    group.early_vertex(full_record(1, 0));
    group.buffer[0] -= 1;
    group.early_vertex(full_record(1, 0));
    print_lists(&group.state);
    must_hold(
        taken_in_order(&full_rounds(3)) == group.state,
        "vertices in order end in the same words",
    );
}

/// Hands over vertices as they arrive: every step-th of them, round and round. What finds the buffer full is handed over again
/// after the others. How often that was is returned.
fn take_arriving(
    state: &mut State,
    buffer: &mut Buffer,
    vertices: &[Record],
    step: usize,
) -> usize {
    let count = vertices.len();
    let mut left: Vec<Record> = (0..count).map(|i| vertices[i * step % count]).collect();
    let mut refused = 0;
    while !left.is_empty() {
        let before = left.len();
        left.retain(|record| {
            let answer = yardbook::take_vertex_with(state, buffer, record);
            must_hold(
                matches!(
                    answer.number,
                    number::OK | number::MISSING_PARENT | number::BUFFER_FULL
                ),
                "a vertex is taken, or waits",
            );
            answer.number == number::BUFFER_FULL
        });
        must_hold(left.len() < before, "some vertex finds its parents or room");
        refused += left.len();
    }
    refused
}

/// Twelve full rounds arrive in several orders, the last of them nearly the wrong way round. A host that hands over whatever
/// arrives ends in the words of ordered delivery, lists included, and nothing waits any more.
fn take_in_any_order() {
    let vertices = full_rounds(12);
    let ordered = taken_in_order(&vertices);
    let mut refused = 0;
    // No step has a divisor in common with the number of vertices.
    for step in [5, 7, 11, 29, 47] {
        let mut state = [0; STATE_WORDS];
        let mut buffer = [0; BUFFER_WORDS];
        must(yardbook::open(&mut state, MEMBERS as u32, 0));
        refused += take_arriving(&mut state, &mut buffer, &vertices, step);
        must_hold(
            state == ordered,
            "any order ends in the words of ordered delivery",
        );
        must_hold(buffer == [0; BUFFER_WORDS], "nothing waits any more");
    }
    must_hold(refused > 0, "some vertex finds the buffer full");
}

/// Whether a timeout or no-vote arrives. The others' are lost on their way to member 1.
fn arrives(signer: u32, member: u32) -> bool {
    member != 1 || signer == 1
}

struct Members {
    states: [State; MEMBERS],
    /// By id, the digests of the vertices that each member has taken.
    blocks: [BTreeMap<u32, Digest>; MEMBERS],
}

impl Members {
    fn opened() -> Members {
        let mut states = [[0; STATE_WORDS]; MEMBERS];
        for (own, state) in (1..).zip(&mut states) {
            must(yardbook::open(state, MEMBERS as u32, own));
        }
        Members {
            states,
            blocks: Default::default(),
        }
    }

    fn current_round(&self, member: usize) -> u32 {
        yardbook::status(&self.states[member]).current_round
    }

    /// The member's record for the round, its current one, not yet sent.
    fn propose(&mut self, round: u32, member: usize) -> Record {
        let block = block_of(round, member as u32);
        let made = yardbook::propose(&mut self.states[member], &block);
        must(made.answer);
        made.record
    }

    /// Sends a made record: everyone takes it, its maker too, as first message and once it is delivered, and keeps its digest.
    fn send_record(&mut self, made: &Record) {
        print('V', made);
        for (state, blocks) in self.states.iter_mut().zip(&mut self.blocks) {
            must(yardbook::take_first_message(state, made));
            must(yardbook::take_vertex(state, made));
            blocks.insert(id_of(made[ROUND], made[SOURCE]), Digest::of_record(made));
        }
    }

    /// The signer's timer for the round has run out. Member 0 gets those of the others in a bundle.
    fn send_timeout(&mut self, round: u32, signer: u32) {
        println!("T {round} {signer}");
        for (p, state) in (0..).zip(&mut self.states) {
            if p == signer || (p != 0 && arrives(signer, p)) {
                must(yardbook::take_timeout(state, round, signer));
            }
        }
    }

    /// Member 0's transport hands over all timeouts of the round as one mask. Its own is known already.
    fn hand_bundle(&mut self, round: u32, mask: u32) {
        must(yardbook::take_timeouts(&mut self.states[0], round, mask));
    }

    /// Signs against the leader of the round, the one before the signer's current round. Signing has set the signer's own bit.
    fn send_no_vote(&mut self, round: u32, signer: u32) {
        must(yardbook::sign_no_vote(&mut self.states[signer as usize]));
        println!("N {round} {signer}");
        for (p, state) in (0..).zip(&mut self.states) {
            if p != signer && arrives(signer, p) {
                must(yardbook::take_no_vote(state, round, signer));
            }
        }
    }

    /// Member 1 has no timeout for round 3 but its own and is still in it. It has made that round's record and can make no other.
    fn check_left_behind(&mut self) {
        for p in 0..MEMBERS {
            let round = if p == 1 { 3 } else { 4 };
            must_hold(
                self.current_round(p) == round,
                "all but member 1 are in round 4",
            );
        }
        let none = yardbook::propose(&mut self.states[1], &block_of(4, 1));
        must_hold(
            none.answer.number == number::DUPLICATE,
            "member 1 can make no record for round 4",
        );
    }

    /// The journal has ids. Which blocks these are, a member reads from the records that it has taken.
    fn check_blocks(&self) {
        for (state, blocks) in self.states.iter().zip(&self.blocks) {
            for id in yardbook::hand_journal(state, 0).ids {
                must_hold(
                    blocks[id].to_bytes() == block_bytes(*id),
                    "a journal entry's digest is that of its block",
                );
            }
        }
    }
}

/// A round of everyone's records. All are made before the first is sent: the leader's and two others end the round.
fn run_round(group: &mut Members, round: u32) {
    let made: [Record; MEMBERS] = std::array::from_fn(|p| group.propose(round, p));
    for record in &made {
        group.send_record(record);
    }
}

/// Round 3 without its leader's record, which is returned. The others time out. Members 0 and 3 get all three timeouts, member 0 in
/// a bundle, and sign no-votes.
fn run_round_3(group: &mut Members) -> Record {
    let late = group.propose(3, 2);
    for p in [0, 1, 3] {
        let made = group.propose(3, p);
        group.send_record(&made);
    }
    for p in [0, 1, 3] {
        group.send_timeout(3, p);
    }
    group.hand_bundle(3, 11);
    group.send_no_vote(3, 0);
    group.send_no_vote(3, 3);
    late
}

/// Round 4. Member 0's record carries the timeout certificate. Taking it, member 1 comes into the round, signs the third no-vote
/// and goes on like the others. The leader, member 3, is last, so the round does not end before all have made their records.
fn run_round_4(group: &mut Members) {
    group.check_left_behind();
    let first = group.propose(4, 0);
    group.send_record(&first);
    must_hold(
        group.current_round(1) == 4,
        "the first vertex of round 4 brings member 1 into it",
    );
    group.send_no_vote(3, 1);
    for p in 1..MEMBERS {
        let made = group.propose(4, p);
        must_hold(
            made[TIMEOUTS] == first[TIMEOUTS],
            "all of round 4 carry the certificate",
        );
        group.send_record(&made);
    }
}

/// Six rounds of made records. Round 3's leader, member 2, is silent in its round. Round 4 goes on without it: its leader's
/// record carries both certificates, and member 1, which has lost the timeouts, catches up. Member 2's record comes a round
/// late, and those of round 5 name it as a weak parent.
fn run_members() {
    let mut group = Members::opened();
    run_round(&mut group, 1);
    run_round(&mut group, 2);
    let late = run_round_3(&mut group);
    run_round_4(&mut group);
    group.send_record(&late);
    run_round(&mut group, 5);
    run_round(&mut group, 6);
    group.states.iter().for_each(print_lists);
    group.check_blocks();
}

fn main() {
    check_bytes();
    watch_sample();
    watch_two_leaders();
    watch_sightings();
    watch_carried();
    watch_digests();
    watch_bundle();
    watch_pending();
    take_in_any_order();
    run_members();
}
