// Runs eight groups of four members. A watcher follows the first seven and prints for a call its number and the status, and at the
// end the leader list and the journal: of the first five what sheetlog prints for the same calls; the sixth has bundles of
// timeouts, and the seventh a buffer for vertices that come too early, for which sheetlog has no lines. The eighth is run by its
// four members, which propose and sign: it prints what they send, as lines of sheetlog's input, and at the end each member's lists.
#include <array>
#include <cstdio>
#include <cstdlib>
#include <initializer_list>
#include <map>
#include <span>
#include <vector>

#include "yardbook.hpp"

namespace {

constexpr std::uint32_t members = 4;

void print(char letter, std::span<const std::uint32_t> words) {
    std::putchar(letter);
    for (const std::uint32_t word : words) std::printf(" %u", word);
    std::putchar('\n');
}

void print_lists(const yardbook::State& state) {
    print('L', yardbook::hand_leaders(state, 0).ids);
    print('J', yardbook::hand_journal(state, 0).ids);
}

// A record without weak parents. Its digest is `block` and seven zeros.
yardbook::Record record(std::uint32_t round, std::uint32_t source, std::uint32_t strong, std::uint32_t timeouts,
                        std::uint32_t no_votes, std::uint32_t block) {
    return {round, source, strong, timeouts, no_votes, block};
}

using Bytes = std::array<std::uint8_t, yardbook::digest_bytes>;

constexpr Bytes with_other_end(Bytes bytes) {
    ++bytes.back();
    return bytes;
}

// The record of another block, whose digest differs in the last byte.
yardbook::Record with_other_block(yardbook::Record r) {
    yardbook::put_digest(r, yardbook::Digest::from_bytes(with_other_end(yardbook::digest_of(r).bytes())));
    return r;
}

constexpr std::uint32_t id_of(std::uint32_t round, std::uint32_t member) { return YARDBOOK_MEMBERS * round + member; }

// What stands for the hash of a vertex's block: the bytes id, id + 1, ..
constexpr Bytes block_bytes(std::uint32_t id) {
    Bytes bytes{};
    for (std::uint32_t i = 0; i < bytes.size(); ++i) bytes[i] = static_cast<std::uint8_t>(id + i);
    return bytes;
}

constexpr yardbook::Digest block_of(std::uint32_t round, std::uint32_t member) {
    return yardbook::Digest::from_bytes(block_bytes(id_of(round, member)));
}

// The first byte of a word is its lowest, and another last byte changes the eighth word alone.
constexpr yardbook::Digest counted{
    {0x03020100, 0x07060504, 0x0b0a0908, 0x0f0e0d0c, 0x13121110, 0x17161514, 0x1b1a1918, 0x1f1e1d1c}};
static_assert(yardbook::Digest::from_bytes(block_bytes(0)) == counted && counted.bytes() == block_bytes(0));
static_assert([] {
    yardbook::Digest d = counted;
    d.words.back() += 1u << 24;
    return yardbook::Digest::from_bytes(with_other_end(block_bytes(0))) == d;
}());

class Watched {
public:
    // Opens the group and takes three vertices of round 1, from member `first` on.
    explicit Watched(std::uint32_t first) {
        print_answer(yardbook::open(state_, members, 0));
        for (std::uint32_t p = first; p < first + 3; ++p) vertex(record(1, p, 0, 0, 0, 10 + p));
    }

    void vertex(const yardbook::Record& r) { print_answer(yardbook::take_vertex(state_, r)); }
    void early_vertex(const yardbook::Record& r) { early_vertex(r, buffer_); }
    void early_vertex(const yardbook::Record& r, yardbook::Buffer& with) {
        print_answer(yardbook::take_vertex_with(state_, with, r));
    }
    void first_message(const yardbook::Record& r) { print_answer(yardbook::take_first_message(state_, r)); }
    void timeout(std::uint32_t round, std::uint32_t signer) { print_answer(yardbook::take_timeout(state_, round, signer)); }
    void bundle(std::uint32_t round, std::uint32_t mask) { print_answer(yardbook::take_timeouts(state_, round, mask)); }
    const yardbook::State& state() const { return state_; }
    const yardbook::Buffer& buffer() const { return buffer_; }
    void print_lists() const { ::print_lists(state_); }

private:
    void print_answer(const yardbook::Answer& answer) const {
        const yardbook::Status s = yardbook::status(state_);
        std::printf("%u %u %u %u %u\n", static_cast<unsigned>(answer.number), s.current_round, s.committed_round,
                    s.leader_count, s.journal_count);
    }

    yardbook::State state_{};
    yardbook::Buffer buffer_{};  // vertices that wait for their parents
};

// A quorum of first messages commits round 1.
void watch_sample() {
    Watched group(0);
    for (const std::uint32_t source : {0u, 1u, 3u}) group.first_message(record(2, source, 7, 0, 0, 20 + source));
    group.print_lists();
}

// Round 1's leader has two votes, one short of a quorum. First messages of round 3 commit round 2's leader, and a strong path
// leads from it to round 1's, which is taken too.
void watch_two_leaders() {
    Watched group(0);
    group.vertex(record(1, 3, 0, 0, 0, 13));
    group.vertex(record(2, 0, 7, 0, 0, 20));
    group.vertex(record(2, 1, 7, 0, 0, 21));
    group.vertex(record(2, 3, 14, 7, 0, 23));
    for (const std::uint32_t source : {0u, 1u, 2u}) group.first_message(record(3, source, 11, 0, 0, 30 + source));
    group.print_lists();
}

// Two first messages, and the vertex of one of the two members, are two voters for round 1's leader: a member counts once. The
// vertex of a third member commits it.
void watch_sightings() {
    Watched group(0);
    for (const std::uint32_t source : {0u, 1u}) group.first_message(record(2, source, 7, 0, 0, 20 + source));
    for (const std::uint32_t source : {1u, 2u}) group.vertex(record(2, source, 7, 0, 0, 20 + source));
    group.print_lists();
}

// Round 1 lacks its leader's vertex, and no timeout arrives. The first vertex of round 2 carries the timeout certificate of
// members 0, 1 and 2, and with it the watcher is in round 2. Member 0's own timeout, when it comes, is known already. Round 2's
// leader carries a no-vote certificate too, and vertices of round 3 commit it.
void watch_carried() {
    Watched group(1);
    group.vertex(record(2, 0, 14, 7, 0, 20));
    group.timeout(1, 0);
    group.vertex(record(2, 2, 14, 7, 0, 22));
    group.vertex(record(2, 3, 14, 7, 0, 23));
    group.vertex(record(2, 1, 14, 7, 14, 21));
    for (const std::uint32_t source : {0u, 1u, 2u}) group.vertex(record(3, source, 15, 0, 0, 30 + source));
    group.print_lists();
}

// For calls that nothing can refuse here.
void must(const yardbook::Answer& answer) {
    if (answer.ok()) return;
    std::fprintf(stderr, "refused: %u\n", static_cast<unsigned>(answer.number));
    std::exit(1);
}

// For what nothing can make false here.
void must_hold(bool holds, const char* what) {
    if (holds) return;
    std::fprintf(stderr, "not so: %s\n", what);
    std::exit(1);
}

// A vertex with a digest in all eight words. The same one again is known already, and one whose digest differs in the last byte
// conflicts with it.
void watch_digests() {
    Watched group(0);
    yardbook::Record r = record(1, 3, 0, 0, 0, 0);
    yardbook::put_digest(r, block_of(1, 3));
    group.vertex(r);
    group.vertex(r);
    group.vertex(with_other_block(r));
    group.print_lists();
}

// Round 1 lacks its leader's vertex, and its timeouts come in bundles. Members 1 and 2, bundled, are no quorum. Member 2 alone
// and the same bundle again are known then, and a bundle with member 4, which is none of the group, is refused as a whole. The
// last bundle has members 1 and 2 once more, and with member 3 the watcher is in round 2. Single timeouts of the three end in the
// same words.
void watch_bundle() {
    Watched group(1);
    yardbook::State singly = group.state();
    group.bundle(1, 6);
    group.timeout(1, 2);
    group.bundle(1, 6);
    group.bundle(1, 30);
    group.bundle(1, 14);
    group.print_lists();
    for (const std::uint32_t signer : {1u, 2u, 3u}) must(yardbook::take_timeout(singly, 1, signer));
    must_hold(singly == group.state(), "single timeouts end in the bundles' words");
}

// The vertex of a full round whose strong parents are all of the round before.
yardbook::Record full_record(std::uint32_t round, std::uint32_t source) {
    return record(round, source, round == 1 ? 0 : 15, 0, 0, 10 * round + source);
}

// The state of a watcher that takes the full rounds in order, without a buffer.
yardbook::State taken_in_order(std::uint32_t rounds) {
    yardbook::State ordered;
    must(yardbook::open(ordered, members, 0));
    for (std::uint32_t round = 1; round <= rounds; ++round)
        for (std::uint32_t p = 0; p < members; ++p) must(yardbook::take_vertex(ordered, full_record(round, p)));
    return ordered;
}

// Three full rounds. The vertex of round 1's leader is the last to arrive: until then those of rounds 2 and 3, which come the wrong
// way round, wait in the buffer. One of these again is known already, and one whose digest differs in the last byte conflicts with
// it. A damaged buffer is refused. The leader's vertex brings all that waits into the state, and two rounds are committed. In order,
// the same vertices end in the same words.
void watch_pending() {
    Watched group(1);
    for (const std::uint32_t p : {3u, 2u, 1u, 0u}) group.early_vertex(full_record(3, p));
    group.early_vertex(full_record(3, 0));
    group.early_vertex(with_other_block(full_record(3, 0)));
    for (const std::uint32_t p : {3u, 2u, 1u, 0u}) group.early_vertex(full_record(2, p));
    yardbook::Buffer damaged = group.buffer();
    ++damaged[0];
    group.early_vertex(full_record(1, 0), damaged);
    group.early_vertex(full_record(1, 0));
    group.print_lists();
    must_hold(taken_in_order(3) == group.state(), "vertices in order end in the same words");
}

constexpr std::uint32_t arriving_rounds = 12, arriving = arriving_rounds * members;

// Hands over vertices as they arrive: every step-th of them, round and round. What finds the buffer full is handed over again after
// the others. How often that was is returned.
std::size_t take_arriving(yardbook::State& state, yardbook::Buffer& buffer, std::uint32_t step) {
    std::vector<yardbook::Record> left;
    for (std::uint32_t i = 0; i < arriving; ++i) {
        const std::uint32_t at = i * step % arriving;
        left.push_back(full_record(1 + at / members, at % members));
    }
    std::size_t refused = 0;
    while (!left.empty()) {
        std::vector<yardbook::Record> again;
        for (const yardbook::Record& r : left) {
            const yardbook::Answer answer = yardbook::take_vertex_with(state, buffer, r);
            if (answer.number == yardbook::Number::buffer_full) again.push_back(r);
            else must_hold(answer.ok() || answer.number == yardbook::Number::missing_parent, "a vertex is taken, or waits");
        }
        must_hold(again.size() < left.size(), "some vertex finds its parents or room");
        refused += again.size();
        left = again;
    }
    return refused;
}

// Twelve full rounds arrive in several orders, the last of them nearly the wrong way round. A host that hands over whatever arrives
// ends in the words of ordered delivery, lists included, and nothing waits any more.
void take_in_any_order() {
    const yardbook::State ordered = taken_in_order(arriving_rounds);
    std::size_t refused = 0;
    for (const std::uint32_t step : {5u, 7u, 11u, 29u, 47u}) {  // none has a divisor in common with the number of vertices
        yardbook::State state;
        yardbook::Buffer buffer{};
        must(yardbook::open(state, members, 0));
        refused += take_arriving(state, buffer, step);
        must_hold(state == ordered, "any order ends in the words of ordered delivery");
        must_hold(buffer == yardbook::Buffer{}, "nothing waits any more");
    }
    must_hold(refused > 0, "some vertex finds the buffer full");
}

// Whether a timeout or no-vote arrives. The others' are lost on their way to member 1.
bool arrives(std::uint32_t signer, std::uint32_t member) { return member != 1 || signer == 1; }

class Members {
public:
    Members() {
        for (std::uint32_t p = 0; p < members; ++p) must(yardbook::open(states_[p], members, p + 1));
    }

    std::uint32_t current_round(std::uint32_t member) const { return yardbook::status(states_[member]).current_round; }

    // The member's record for the round, its current one, not yet sent.
    yardbook::Record propose(std::uint32_t round, std::uint32_t member) {
        const yardbook::Proposal made = yardbook::propose(states_[member], block_of(round, member));
        must(made.answer);
        return made.record;
    }

    // Sends a made record: everyone takes it, its maker too, as first message and once it is delivered, and keeps its digest.
    void send_record(const yardbook::Record& made) {
        print('V', made);
        const std::uint32_t id = id_of(made[YARDBOOK_RECORD_ROUND], made[YARDBOOK_RECORD_SOURCE]);
        for (std::uint32_t p = 0; p < members; ++p) {
            must(yardbook::take_first_message(states_[p], made));
            must(yardbook::take_vertex(states_[p], made));
            blocks_[p][id] = yardbook::digest_of(made);
        }
    }

    // The signer's timer for the round has run out. Member 0 gets those of the others in a bundle.
    void send_timeout(std::uint32_t round, std::uint32_t signer) {
        std::printf("T %u %u\n", round, signer);
        for (std::uint32_t p = 0; p < members; ++p)
            if (p == signer || (p != 0 && arrives(signer, p))) must(yardbook::take_timeout(states_[p], round, signer));
    }

    // Member 0's transport hands over all timeouts of the round as one mask. Its own is known already.
    void hand_bundle(std::uint32_t round, std::uint32_t mask) { must(yardbook::take_timeouts(states_[0], round, mask)); }

    // Signs against the leader of the round, the one before the signer's current round. Signing has set the signer's own bit.
    void send_no_vote(std::uint32_t round, std::uint32_t signer) {
        must(yardbook::sign_no_vote(states_[signer]));
        std::printf("N %u %u\n", round, signer);
        for (std::uint32_t p = 0; p < members; ++p)
            if (p != signer && arrives(signer, p)) must(yardbook::take_no_vote(states_[p], round, signer));
    }

    // Member 1 has no timeout for round 3 but its own and is still in it. It has made that round's record and can make no other.
    void check_left_behind() {
        for (std::uint32_t p = 0; p < members; ++p)
            must_hold(current_round(p) == (p == 1 ? 3 : 4), "all but member 1 are in round 4");
        const yardbook::Proposal none = yardbook::propose(states_[1], block_of(4, 1));
        must_hold(none.answer.number == yardbook::Number::duplicate, "member 1 can make no record for round 4");
    }

    void print_lists() const {
        for (const yardbook::State& state : states_) ::print_lists(state);
    }

    // The journal has ids. Which blocks these are, a member reads from the records that it has taken.
    void check_blocks() const {
        for (std::uint32_t p = 0; p < members; ++p)
            for (const std::uint32_t id : yardbook::hand_journal(states_[p], 0).ids)
                must_hold(blocks_[p].at(id).bytes() == block_bytes(id), "a journal entry's digest is that of its block");
    }

private:
    std::array<yardbook::State, members> states_{};
    std::array<std::map<std::uint32_t, yardbook::Digest>, members> blocks_;  // by id, of the vertices that each member has taken
};

// A round of everyone's records. All are made before the first is sent: the leader's and two others end the round.
void run_round(Members& group, std::uint32_t round) {
    std::array<yardbook::Record, members> made;
    for (std::uint32_t p = 0; p < members; ++p) made[p] = group.propose(round, p);
    for (const yardbook::Record& r : made) group.send_record(r);
}

// Round 3 without its leader's record, which is returned. The others time out. Members 0 and 3 get all three timeouts, member 0 in
// a bundle, and sign no-votes.
yardbook::Record run_round_3(Members& group) {
    const yardbook::Record late = group.propose(3, 2);
    for (const std::uint32_t p : {0u, 1u, 3u}) group.send_record(group.propose(3, p));
    for (const std::uint32_t p : {0u, 1u, 3u}) group.send_timeout(3, p);
    group.hand_bundle(3, 11);
    group.send_no_vote(3, 0);
    group.send_no_vote(3, 3);
    return late;
}

// Round 4. Member 0's record carries the timeout certificate. Taking it, member 1 comes into the round, signs the third no-vote
// and goes on like the others. The leader, member 3, is last, so the round does not end before all have made their records.
void run_round_4(Members& group) {
    group.check_left_behind();
    const yardbook::Record first = group.propose(4, 0);
    group.send_record(first);
    must_hold(group.current_round(1) == 4, "the first vertex of round 4 brings member 1 into it");
    group.send_no_vote(3, 1);
    for (std::uint32_t p = 1; p < members; ++p) {
        const yardbook::Record made = group.propose(4, p);
        must_hold(made[YARDBOOK_RECORD_TIMEOUTS] == first[YARDBOOK_RECORD_TIMEOUTS], "all of round 4 carry the certificate");
        group.send_record(made);
    }
}

// Six rounds of made records. Round 3's leader, member 2, is silent in its round. Round 4 goes on without it: its leader's record
// carries both certificates, and member 1, which has lost the timeouts, catches up. Member 2's record comes a round late, and those
// of round 5 name it as a weak parent.
void run_members() {
    Members group;
    run_round(group, 1);
    run_round(group, 2);
    const yardbook::Record late = run_round_3(group);
    run_round_4(group);
    group.send_record(late);
    run_round(group, 5);
    run_round(group, 6);
    group.print_lists();
    group.check_blocks();
}

}  // namespace

int main() {
    watch_sample();
    watch_two_leaders();
    watch_sightings();
    watch_carried();
    watch_digests();
    watch_bundle();
    watch_pending();
    take_in_any_order();
    run_members();
    return 0;
}
