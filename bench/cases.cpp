#include "cases.hpp"

#include <algorithm>
#include <cstdio>
#include <cstdlib>
#include <utility>

#include "builder.hpp"

namespace {

// The record with another digest, which differs in the last word alone.
Record with_other_end(Record r) {
    r[YARDBOOK_RECORD_DIGEST + YARDBOOK_DIGEST_WORDS - 1] ^= 1u << 31;
    return r;
}

// The cases of one number of members and one of full rounds.
struct Rows {
    u32 n, rounds;
    std::vector<u32> state;  // a watcher's, with the full rounds
    std::vector<Case> cases;

    Rows(u32 members, u32 full, const Builder& b) : n(members), rounds(full), state(b.state) {}

    u32 next() const { return rounds + 1; }

    Builder builder() const {
        Builder b(n);
        b.state = state;
        return b;
    }

    void add(std::string name, const Builder& from, const Call& call, u32 number) {
        cases.push_back({std::move(name), n, rounds, from.state, call, number});
    }

    void must_be(bool meant, const char* what) const {
        if (meant) return;
        std::fprintf(stderr, "bench: n = %u, %u rounds: not so: %s\n", n, rounds, what);
        std::exit(1);
    }
};

void add_opening(Rows& rows) {
    const Builder b = rows.builder();
    rows.add("open", b, {Kind::open, {}, rows.n, 0}, 0);
    rows.add("open: 2", b, {Kind::open, {}, 5, 0}, 2);
    rows.add("open: 6", b, {Kind::open, {}, rows.n, rows.n + 1}, 6);
}

// `vertex` is of the round after the full ones.
void add_vertices(Rows& rows, const Call& vertex) {
    Builder b = rows.builder();
    rows.add("vertex", b, vertex, 0);
    Call narrow = vertex;
    narrow.record[YARDBOOK_RECORD_STRONG] = 1u << rows.n;
    rows.add("vertex: 7", b, narrow, 7);
    b.must(vertex);
    rows.add("vertex: 12", b, vertex, 12);
    rows.add("vertex: 13", b, {Kind::vertex, with_other_end(vertex.record)}, 13);
    if (rows.next() < YARDBOOK_ROUNDS) {
        b.state = rows.state;
        rows.add("vertex: 14", b, {Kind::vertex, b.bare(rows.next() + 1, 0, b.all())}, 14);
        return;
    }
    // Here the last full round lacks one vertex.
    Builder gap(rows.n);
    gap.full(rows.rounds - 1, rows.n);
    for (u32 p = 0; p + 1 < rows.n; ++p) gap.must({Kind::vertex, gap.record(rows.rounds, p, true)});
    rows.add("vertex: 14", gap, {Kind::vertex, gap.bare(rows.next(), 0, gap.all())}, 14);
}

// Vertices taken with a buffer in which 32 wait.
void add_waiting(Rows& rows, const Call& vertex) {
    static constexpr u32 most = YARDBOOK_BUFFER_SLOTS;
    const u32 n = rows.n, next = rows.next();
    if (next + 1 + (most + n - 1) / n > YARDBOOK_ROUNDS) return;
    Builder b = rows.builder();
    put_in_buffer(b.state, b.full_records(next + 2, most));
    rows.add("vertex with buffer, 32 stay", b, vertex, 0);
    // All but one of the round after the full ones: all that waits has that one in its history.
    for (u32 p = 0; p + 1 < n; ++p) b.must({Kind::vertex, b.record(next, p, true)});
    put_in_buffer(b.state, b.full_records(next + 1, most));
    const Call last{Kind::vertex_with, b.record(next, n - 1, true)};
    rows.add("vertex with buffer, releases 32", b, last, 0);
    b.must(last);
    rows.must_be(b.state[buffer_at + plain::buffer_count_at] == 0, "all that waits is released");
}

// The child comes before its parent, and goes before all that waits.
void add_early(Rows& rows) {
    Builder early(rows.n);
    early.full_but_two(rows.rounds);
    const Call child{Kind::vertex_with, early.bare(2, rows.n - 1, early.all())};
    const std::vector<Record> others = early.full_records(3, YARDBOOK_BUFFER_SLOTS);
    put_in_buffer(early.state, {others.begin(), others.end() - 1});
    rows.add("vertex with buffer: 14", early, child, 14);
    agreed(child, early.state, false);
    rows.add("vertex with buffer: 12", early, child, 12);
    rows.add("vertex with buffer: 13", early, {Kind::vertex_with, with_other_end(child.record)}, 13);
    put_in_buffer(early.state, others);
    rows.add("vertex with buffer: 20", early, child, 20);
    early.state.back() = 1;
    rows.add("vertex with buffer: 19", early, child, 19);
}

// One vote short of a quorum, and the vote that commits.
void add_commits(Rows& rows) {
    Builder by_vertices = rows.builder(), by_first = rows.builder();
    const u32 next = rows.next(), last = by_first.quorum() - 1;
    for (u32 p = 0; p < last; ++p) by_vertices.must({Kind::vertex, by_vertices.record(next, p, true)});
    rows.add("vertex, commits", by_vertices, {Kind::vertex, by_vertices.record(next, last, true)}, 0);
    for (u32 p = 0; p < last; ++p) by_first.must({Kind::first, by_first.record(next, p, true)});
    rows.add("first message, commits", by_first, {Kind::first, by_first.record(next, last, true)}, 0);
    // So by first messages and the vertex of another member.
    rows.add("vertex, commits by both", by_first, {Kind::vertex, by_first.record(next, last, true)}, 0);

    // No round is committed until the last, whose leader reaches nearly everything. Without votes before, it is the only leader
    // taken; with 2f a round, the leaders of all rounds are.
    for (const u32 voters : {0u, last}) {
        Builder late(rows.n);
        late.full(rows.rounds, voters);
        for (u32 p = 0; p < last; ++p) late.must({Kind::vertex, late.record(next, p, true)});
        rows.add(voters == 0 ? "vertex, orders all" : "vertex, commits all", late, {Kind::vertex, late.record(next, last, true)}, 0);
    }
}

// The call, admitted; and once more on the words that it left.
void add_twice(Rows& rows, const std::string& name, const Call& call) {
    Builder b = rows.builder();
    rows.add(name, b, call, 0);
    b.must(call);
    rows.add(name + ": 12", b, call, 12);
}

// Timeouts, one and in a bundle, and no-votes of the round after the full ones.
void add_notes(Rows& rows) {
    const Builder b = rows.builder();
    add_twice(rows, "timeout", {Kind::timeout, {}, rows.next(), 1});
    add_twice(rows, "timeouts", {Kind::timeouts, {}, rows.next(), b.all()});
    rows.add("timeouts: 7", b, {Kind::timeouts, {}, rows.next(), 1u << rows.n}, 7);
    add_twice(rows, "no-vote", {Kind::no_vote, {}, rows.next(), 1});
}

// The own member's calls: on the watcher's state with full rounds, made a member's, and on others with as many rounds.
void add_own(Rows& rows) {
    Builder full = rows.builder();
    const Call propose{Kind::propose, {}, 0, 0, full.random.digest()}, sign{Kind::sign_no_vote};
    rows.add("propose: 16", full, propose, 16);
    full.become_member();
    rows.add("propose", full, propose, 0);
    rows.add("sign no-vote: 17", full, sign, 17);
    rows.must_be(full.must(propose)[said_record_at + YARDBOOK_RECORD_ROUND] == rows.next(), "the made record is of the next round");
    rows.add("propose: 12", full, propose, 12);
    if (rows.rounds == 0) return;

    Builder far(rows.n);
    far.full_with_unreached(rows.rounds);
    far.become_member();
    rows.add("propose, weak ids", far, propose, 0);
    rows.must_be(far.must(propose)[said_record_at + YARDBOOK_RECORD_WEAK_COUNT] > 0, "the made record has weak ids");

    // The last round lacks its leader's vertex.
    Builder skip(rows.n);
    skip.full(rows.rounds - 1, rows.n);
    for (u32 p = 0; p < rows.n; ++p)
        if (p != skip.leader(rows.rounds)) skip.must({Kind::vertex, skip.record(rows.rounds, p, true)});
    for (u32 p = 0; p < skip.quorum(); ++p) skip.must({Kind::timeout, {}, rows.rounds, p});
    skip.become_member();
    rows.add("sign no-vote", skip, sign, 0);
    skip.must(sign);
    rows.add("sign no-vote: 12", skip, sign, 12);
}

// The calls that change nothing.
void add_reading(Rows& rows) {
    static constexpr u32 past_leaders = plain::leaders_size + 1, past_journal = plain::journal_size + 1;
    const Builder b = rows.builder();
    Builder damaged = b;
    damaged.state[state_words - 1] = 1;
    rows.add("status", b, {Kind::status}, 0);
    rows.add("status: 3", damaged, {Kind::status}, 3);
    rows.add("ask leaders", b, {Kind::ask_leaders}, 0);
    rows.add("ask leaders: 15", b, {Kind::ask_leaders, {}, past_leaders}, 15);
    rows.add("ask journal", b, {Kind::ask_journal}, 0);
    rows.add("ask journal: 15", b, {Kind::ask_journal, {}, past_journal}, 15);
    rows.add("hand leaders", b, {Kind::hand_leaders}, 0);
    rows.add("hand leaders: 15", b, {Kind::hand_leaders, {}, past_leaders}, 15);
    rows.add("hand journal", b, {Kind::hand_journal}, 0);
    rows.add("hand journal: 15", b, {Kind::hand_journal, {}, past_journal}, 15);
}

}  // namespace

std::vector<Case> cases_of(u32 n, u32 rounds) {
    Builder b(n);
    b.full(rounds, n);
    Rows rows(n, rounds, b);
    const Record record = b.record(rows.next(), 0, true);
    const Call vertex{Kind::vertex, record}, with_buffer{Kind::vertex_with, record};
    add_opening(rows);
    add_vertices(rows, vertex);
    rows.add("vertex with buffer", b, with_buffer, 0);
    add_waiting(rows, with_buffer);
    add_early(rows);
    add_twice(rows, "first message", {Kind::first, record});
    if (rounds > 0) add_commits(rows);
    add_notes(rows);
    add_own(rows);
    add_reading(rows);
    return rows.cases;
}
