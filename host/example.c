// Runs eight groups of four members. A watcher follows the first seven and prints for a call its number and the status, and at the
// end the leader list and the journal: of the first five what sheetlog prints for the same calls; the sixth has bundles of
// timeouts, and the seventh a buffer for vertices that come too early, for which sheetlog has no lines. The eighth is run by its
// four members, which propose and sign: it prints what they send, as lines of sheetlog's input, and at the end each member's lists.
#include <stdbool.h>
#include <stdio.h>
#include <stdlib.h>
#include <string.h>

#include "yardbook.h"

_Static_assert(YARDBOOK_RECORD_WORDS == 19 && YARDBOOK_STATE_WORDS == 9448 && YARDBOOK_BUFFER_WORDS == 609, "the documents' sizes");

enum { members = 4, ids = YARDBOOK_MEMBERS * (YARDBOOK_ROUNDS + 1) };

typedef struct {
    uint32_t words[YARDBOOK_DIGEST_WORDS];
} digest;

static uint32_t state[YARDBOOK_STATE_WORDS];           // the watcher's
static uint32_t buffer[YARDBOOK_BUFFER_WORDS];         // the watcher's vertices that wait for their parents
static uint32_t singly[YARDBOOK_STATE_WORDS];          // another watcher's, which gets single timeouts in place of bundles
static uint32_t ordered[YARDBOOK_STATE_WORDS];         // another watcher's, which gets all vertices in order
static uint32_t states[members][YARDBOOK_STATE_WORDS]; // the members'
static digest blocks[members][ids];                    // by id, the blocks of the vertices that each member has taken

static void print_answer(yardbook_answer answer) {
    const yardbook_state_status s = yardbook_status(state, YARDBOOK_STATE_WORDS);
    printf("%u %u %u %u %u\n", answer.number, s.current_round, s.committed_round, s.leader_count, s.journal_count);
}

static void print_words(char letter, const uint32_t *words, uint32_t count) {
    putchar(letter);
    for (uint32_t i = 0; i < count; i++) printf(" %u", words[i]);
    putchar('\n');
}

static void print_lists(const uint32_t *words) {
    const yardbook_part leaders = yardbook_hand_leaders(words, YARDBOOK_STATE_WORDS, 0);
    const yardbook_part journal = yardbook_hand_journal(words, YARDBOOK_STATE_WORDS, 0);
    print_words('L', words + leaders.start, leaders.length);
    print_words('J', words + journal.start, journal.length);
}

typedef struct {
    uint32_t words[YARDBOOK_RECORD_WORDS];
} record;

// A record without weak parents. Its digest is `block` and seven zeros.
static record record_of(uint32_t round, uint32_t source, uint32_t strong, uint32_t timeouts, uint32_t no_votes, uint32_t block) {
    return (record){{
        [YARDBOOK_RECORD_ROUND] = round,
        [YARDBOOK_RECORD_SOURCE] = source,
        [YARDBOOK_RECORD_STRONG] = strong,
        [YARDBOOK_RECORD_TIMEOUTS] = timeouts,
        [YARDBOOK_RECORD_NO_VOTES] = no_votes,
        [YARDBOOK_RECORD_DIGEST] = block,
    }};
}

static void vertex(record r) {
    print_answer(yardbook_take_vertex(state, YARDBOOK_STATE_WORDS, r.words, YARDBOOK_RECORD_WORDS));
}

static yardbook_answer take_early(record r) {
    return yardbook_take_vertex_with(state, YARDBOOK_STATE_WORDS, buffer, YARDBOOK_BUFFER_WORDS, r.words, YARDBOOK_RECORD_WORDS);
}

static void early_vertex(record r) { print_answer(take_early(r)); }

static void first_message(record r) {
    print_answer(yardbook_take_first_message(state, YARDBOOK_STATE_WORDS, r.words, YARDBOOK_RECORD_WORDS));
}

static void timeout(uint32_t round, uint32_t signer) {
    print_answer(yardbook_take_timeout(state, YARDBOOK_STATE_WORDS, round, signer));
}

static void bundle(uint32_t round, uint32_t mask) {
    print_answer(yardbook_take_timeouts(state, YARDBOOK_STATE_WORDS, round, mask));
}

// Opens the group and takes three vertices of round 1, from member `first` on.
static void open_group(uint32_t first) {
    print_answer(yardbook_open(state, YARDBOOK_STATE_WORDS, members, 0));
    for (uint32_t p = first; p < first + 3; p++) vertex(record_of(1, p, 0, 0, 0, 10 + p));
}

// A quorum of first messages commits round 1.
static void watch_sample(void) {
    open_group(0);
    first_message(record_of(2, 0, 7, 0, 0, 20));
    first_message(record_of(2, 1, 7, 0, 0, 21));
    first_message(record_of(2, 3, 7, 0, 0, 23));
    print_lists(state);
}

// Round 1's leader has two votes, one short of a quorum. First messages of round 3 commit round 2's leader, and a strong path
// leads from it to round 1's, which is taken too.
static void watch_two_leaders(void) {
    open_group(0);
    vertex(record_of(1, 3, 0, 0, 0, 13));
    vertex(record_of(2, 0, 7, 0, 0, 20));
    vertex(record_of(2, 1, 7, 0, 0, 21));
    vertex(record_of(2, 3, 14, 7, 0, 23));
    for (uint32_t source = 0; source < 3; source++) first_message(record_of(3, source, 11, 0, 0, 30 + source));
    print_lists(state);
}

// Two first messages, and the vertex of one of the two members, are two voters for round 1's leader: a member counts once. The
// vertex of a third member commits it.
static void watch_sightings(void) {
    open_group(0);
    first_message(record_of(2, 0, 7, 0, 0, 20));
    first_message(record_of(2, 1, 7, 0, 0, 21));
    vertex(record_of(2, 1, 7, 0, 0, 21));
    vertex(record_of(2, 2, 7, 0, 0, 22));
    print_lists(state);
}

// Round 1 lacks its leader's vertex, and no timeout arrives. The first vertex of round 2 carries the timeout certificate of
// members 0, 1 and 2, and with it the watcher is in round 2. Member 0's own timeout, when it comes, is known already. Round 2's
// leader carries a no-vote certificate too, and vertices of round 3 commit it.
static void watch_carried(void) {
    open_group(1);
    vertex(record_of(2, 0, 14, 7, 0, 20));
    timeout(1, 0);
    vertex(record_of(2, 2, 14, 7, 0, 22));
    vertex(record_of(2, 3, 14, 7, 0, 23));
    vertex(record_of(2, 1, 14, 7, 14, 21));
    for (uint32_t source = 0; source < 3; source++) vertex(record_of(3, source, 15, 0, 0, 30 + source));
    print_lists(state);
}

// For calls that nothing can refuse here.
static void must(yardbook_answer answer) {
    if (answer.number == YARDBOOK_OK) return;
    fprintf(stderr, "refused: %u\n", answer.number);
    exit(1);
}

// For what nothing can make false here.
static void must_hold(bool holds, const char *what) {
    if (holds) return;
    fprintf(stderr, "not so: %s\n", what);
    exit(1);
}

typedef struct {
    uint8_t at[YARDBOOK_DIGEST_BYTES];
} digest_bytes;

// Words from bytes, and back, whatever the machine's own byte order is.
static digest from_bytes(digest_bytes bytes) {
    digest d = {{0}};
    for (uint32_t i = 0; i < YARDBOOK_DIGEST_BYTES; i++) d.words[i / 4] |= (uint32_t)bytes.at[i] << 8 * (i % 4);
    return d;
}

static digest_bytes bytes_of(digest d) {
    digest_bytes bytes;
    for (uint32_t i = 0; i < YARDBOOK_DIGEST_BYTES; i++) bytes.at[i] = (uint8_t)(d.words[i / 4] >> 8 * (i % 4));
    return bytes;
}

static digest digest_of(const uint32_t *record_words) {
    digest d;
    memcpy(d.words, record_words + YARDBOOK_RECORD_DIGEST, sizeof d.words);
    return d;
}

static record with_digest(record r, digest d) {
    memcpy(r.words + YARDBOOK_RECORD_DIGEST, d.words, sizeof d.words);
    return r;
}

static digest_bytes with_other_end(digest_bytes bytes) {
    bytes.at[YARDBOOK_DIGEST_BYTES - 1]++;
    return bytes;
}

// The record of another block, whose digest differs in the last byte.
static record with_other_block(record r) { return with_digest(r, from_bytes(with_other_end(bytes_of(digest_of(r.words))))); }

static uint32_t id_of(uint32_t round, uint32_t member) { return YARDBOOK_MEMBERS * round + member; }

// What stands for the hash of a vertex's block: the bytes id, id + 1, ..
static digest_bytes block_bytes(uint32_t id) {
    digest_bytes bytes;
    for (uint32_t i = 0; i < YARDBOOK_DIGEST_BYTES; i++) bytes.at[i] = (uint8_t)(id + i);
    return bytes;
}

static digest block_of(uint32_t round, uint32_t member) { return from_bytes(block_bytes(id_of(round, member))); }

// The first byte of a word is its lowest, and another last byte changes the eighth word alone.
static void check_bytes(void) {
    digest d = {{0x03020100, 0x07060504, 0x0b0a0908, 0x0f0e0d0c, 0x13121110, 0x17161514, 0x1b1a1918, 0x1f1e1d1c}};
    const digest_bytes bytes = block_bytes(0);
    must_hold(memcmp(from_bytes(bytes).words, d.words, sizeof d.words) == 0, "the bytes' words");
    must_hold(memcmp(bytes_of(d).at, bytes.at, sizeof bytes.at) == 0, "the words' bytes");
    d.words[YARDBOOK_DIGEST_WORDS - 1] += 1u << 24;
    must_hold(memcmp(from_bytes(with_other_end(bytes)).words, d.words, sizeof d.words) == 0, "another eighth word");
}

// A vertex with a digest in all eight words. The same one again is known already, and one whose digest differs in the last byte
// conflicts with it.
static void watch_digests(void) {
    open_group(0);
    const record r = with_digest(record_of(1, 3, 0, 0, 0, 0), block_of(1, 3));
    vertex(r);
    vertex(r);
    vertex(with_other_block(r));
    print_lists(state);
}

// Round 1 lacks its leader's vertex, and its timeouts come in bundles. Members 1 and 2, bundled, are no quorum. Member 2 alone
// and the same bundle again are known then, and a bundle with member 4, which is none of the group, is refused as a whole. The
// last bundle has members 1 and 2 once more, and with member 3 the watcher is in round 2. Single timeouts of the three end in the
// same words.
static void watch_bundle(void) {
    open_group(1);
    memcpy(singly, state, sizeof state);
    bundle(1, 6);
    timeout(1, 2);
    bundle(1, 6);
    bundle(1, 30);
    bundle(1, 14);
    print_lists(state);
    for (uint32_t signer = 1; signer < members; signer++) must(yardbook_take_timeout(singly, YARDBOOK_STATE_WORDS, 1, signer));
    must_hold(memcmp(singly, state, sizeof state) == 0, "single timeouts end in the bundles' words");
}

// The vertex of a full round whose strong parents are all of the round before.
static record full_record(uint32_t round, uint32_t source) {
    return record_of(round, source, round == 1 ? 0 : 15, 0, 0, 10 * round + source);
}

// Takes the full rounds in order, without a buffer.
static void take_in_order(uint32_t rounds) {
    must(yardbook_open(ordered, YARDBOOK_STATE_WORDS, members, 0));
    for (uint32_t round = 1; round <= rounds; round++)
        for (uint32_t p = 0; p < members; p++)
            must(yardbook_take_vertex(ordered, YARDBOOK_STATE_WORDS, full_record(round, p).words, YARDBOOK_RECORD_WORDS));
}

// Three full rounds. The vertex of round 1's leader is the last to arrive: until then those of rounds 2 and 3, which come the wrong
// way round, wait in the buffer. One of these again is known already, and one whose digest differs in the last byte conflicts with
// it. A damaged buffer is refused. The leader's vertex brings all that waits into the state, and two rounds are committed. In order,
// the same vertices end in the same words.
static void watch_pending(void) {
    open_group(1);
    memset(buffer, 0, sizeof buffer);
    for (uint32_t p = members; p-- != 0;) early_vertex(full_record(3, p));
    early_vertex(full_record(3, 0));
    early_vertex(with_other_block(full_record(3, 0)));
    for (uint32_t p = members; p-- != 0;) early_vertex(full_record(2, p));
    buffer[0]++;
    early_vertex(full_record(1, 0));
    buffer[0]--;
    early_vertex(full_record(1, 0));
    print_lists(state);
    take_in_order(3);
    must_hold(memcmp(ordered, state, sizeof state) == 0, "vertices in order end in the same words");
}

enum { arriving_rounds = 12, arriving = arriving_rounds * members };

// Hands over vertices as they arrive: every step-th of them, round and round. What finds the buffer full is handed over again after
// the others. How often that was is returned.
static uint32_t take_arriving(uint32_t step) {
    record left[arriving];
    for (uint32_t i = 0; i < arriving; i++) {
        const uint32_t at = i * step % arriving;
        left[i] = full_record(1 + at / members, at % members);
    }
    uint32_t count = arriving, refused = 0;
    while (count != 0) {
        uint32_t again = 0;
        for (uint32_t i = 0; i < count; i++) {
            const uint32_t number = take_early(left[i]).number;
            if (number == YARDBOOK_REFUSED_BUFFER_FULL) left[again++] = left[i];
            else must_hold(number == YARDBOOK_OK || number == YARDBOOK_REFUSED_MISSING_PARENT, "a vertex is taken, or waits");
        }
        must_hold(again < count, "some vertex finds its parents or room");
        refused += again;
        count = again;
    }
    return refused;
}

// Twelve full rounds arrive in several orders, the last of them nearly the wrong way round. A host that hands over whatever arrives
// ends in the words of ordered delivery, lists included, and nothing waits any more.
static void take_in_any_order(void) {
    static const uint32_t steps[] = {5, 7, 11, 29, 47}; // none has a divisor in common with the number of vertices
    take_in_order(arriving_rounds);
    uint32_t refused = 0;
    for (size_t i = 0; i < sizeof steps / sizeof steps[0]; i++) {
        must(yardbook_open(state, YARDBOOK_STATE_WORDS, members, 0));
        memset(buffer, 0, sizeof buffer);
        refused += take_arriving(steps[i]);
        must_hold(memcmp(ordered, state, sizeof state) == 0, "any order ends in the words of ordered delivery");
        must_hold(buffer[0] == 0, "nothing waits any more");
    }
    must_hold(refused > 0, "some vertex finds the buffer full");
}

static uint32_t current_round(uint32_t member) {
    return yardbook_status(states[member], YARDBOOK_STATE_WORDS).current_round;
}

// The member's record for the round, its current one, not yet sent.
static yardbook_proposal propose(uint32_t round, uint32_t member) {
    const digest block = block_of(round, member);
    const yardbook_proposal made = yardbook_propose(states[member], YARDBOOK_STATE_WORDS, block.words);
    must(made.answer);
    return made;
}

// Sends a made record: everyone takes it, its maker too, as first message and once it is delivered, and keeps its digest.
static void send_record(yardbook_proposal made) {
    print_words('V', made.record, YARDBOOK_RECORD_WORDS);
    const uint32_t id = id_of(made.record[YARDBOOK_RECORD_ROUND], made.record[YARDBOOK_RECORD_SOURCE]);
    for (uint32_t p = 0; p < members; p++) {
        must(yardbook_take_first_message(states[p], YARDBOOK_STATE_WORDS, made.record, YARDBOOK_RECORD_WORDS));
        must(yardbook_take_vertex(states[p], YARDBOOK_STATE_WORDS, made.record, YARDBOOK_RECORD_WORDS));
        blocks[p][id] = digest_of(made.record);
    }
}

// Whether a timeout or no-vote arrives. The others' are lost on their way to member 1.
static bool arrives(uint32_t signer, uint32_t member) { return member != 1 || signer == 1; }

// The signer's timer for the round has run out. Member 0 gets those of the others in a bundle.
static void send_timeout(uint32_t round, uint32_t signer) {
    printf("T %u %u\n", round, signer);
    for (uint32_t p = 0; p < members; p++)
        if (p == signer || (p != 0 && arrives(signer, p)))
            must(yardbook_take_timeout(states[p], YARDBOOK_STATE_WORDS, round, signer));
}

// Member 0's transport hands over all timeouts of the round as one mask. Its own is known already.
static void hand_bundle(uint32_t round, uint32_t mask) {
    must(yardbook_take_timeouts(states[0], YARDBOOK_STATE_WORDS, round, mask));
}

// Signs against the leader of the round, the one before the signer's current round. Signing has set the signer's own bit.
static void send_no_vote(uint32_t round, uint32_t signer) {
    must(yardbook_sign_no_vote(states[signer], YARDBOOK_STATE_WORDS));
    printf("N %u %u\n", round, signer);
    for (uint32_t p = 0; p < members; p++)
        if (p != signer && arrives(signer, p)) must(yardbook_take_no_vote(states[p], YARDBOOK_STATE_WORDS, round, signer));
}

// Member 1 has no timeout for round 3 but its own and is still in it. It has made that round's record and can make no other.
static void check_left_behind(void) {
    for (uint32_t p = 0; p < members; p++) must_hold(current_round(p) == (p == 1 ? 3 : 4), "all but member 1 are in round 4");
    const yardbook_proposal none = yardbook_propose(states[1], YARDBOOK_STATE_WORDS, block_of(4, 1).words);
    must_hold(none.answer.number == YARDBOOK_REFUSED_DUPLICATE, "member 1 can make no record for round 4");
}

// A round of everyone's records. All are made before the first is sent: the leader's and two others end the round.
static void run_round(uint32_t round) {
    yardbook_proposal made[members];
    for (uint32_t p = 0; p < members; p++) made[p] = propose(round, p);
    for (uint32_t p = 0; p < members; p++) send_record(made[p]);
}

// Round 3 without its leader's record, which is returned. The others time out. Members 0 and 3 get all three timeouts, member 0 in
// a bundle, and sign no-votes.
static yardbook_proposal run_round_3(void) {
    static const uint32_t others[] = {0, 1, 3};
    const yardbook_proposal late = propose(3, 2);
    for (int i = 0; i < 3; i++) send_record(propose(3, others[i]));
    for (int i = 0; i < 3; i++) send_timeout(3, others[i]);
    hand_bundle(3, 11);
    send_no_vote(3, 0);
    send_no_vote(3, 3);
    return late;
}

// Round 4. Member 0's record carries the timeout certificate. Taking it, member 1 comes into the round, signs the third no-vote
// and goes on like the others. The leader, member 3, is last, so the round does not end before all have made their records.
static void run_round_4(void) {
    check_left_behind();
    const yardbook_proposal first = propose(4, 0);
    send_record(first);
    must_hold(current_round(1) == 4, "the first vertex of round 4 brings member 1 into it");
    send_no_vote(3, 1);
    for (uint32_t p = 1; p < members; p++) {
        const yardbook_proposal made = propose(4, p);
        must_hold(made.record[YARDBOOK_RECORD_TIMEOUTS] == first.record[YARDBOOK_RECORD_TIMEOUTS],
                  "all of round 4 carry the certificate");
        send_record(made);
    }
}

// The journal has ids. Which blocks these are, the member reads from the records that it has taken.
static void check_blocks(uint32_t member) {
    const yardbook_part journal = yardbook_hand_journal(states[member], YARDBOOK_STATE_WORDS, 0);
    for (uint32_t i = 0; i < journal.length; i++) {
        const uint32_t id = states[member][journal.start + i];
        const digest_bytes taken = bytes_of(blocks[member][id]), sent = block_bytes(id);
        must_hold(memcmp(taken.at, sent.at, sizeof sent.at) == 0, "a journal entry's digest is that of its block");
    }
}

// Six rounds of made records. Round 3's leader, member 2, is silent in its round. Round 4 goes on without it: its leader's record
// carries both certificates, and member 1, which has lost the timeouts, catches up. Member 2's record comes a round late, and those
// of round 5 name it as a weak parent.
static void run_members(void) {
    for (uint32_t p = 0; p < members; p++) must(yardbook_open(states[p], YARDBOOK_STATE_WORDS, members, p + 1));
    run_round(1);
    run_round(2);
    const yardbook_proposal late = run_round_3();
    run_round_4();
    send_record(late);
    run_round(5);
    run_round(6);
    for (uint32_t p = 0; p < members; p++) {
        print_lists(states[p]);
        check_blocks(p);
    }
}

int main(void) {
    check_bytes();
    watch_sample();
    watch_two_leaders();
    watch_sightings();
    watch_carried();
    watch_digests();
    watch_bundle();
    watch_pending();
    take_in_any_order();
    run_members();
    return 0;
}
