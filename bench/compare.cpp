#include "compare.hpp"

#include <algorithm>

#include "builder.hpp"

namespace {

// Words of all sorts: 0, all ones, one bit or any.
Digest odd_digest(Random& random) {
    Digest digest = random.digest();
    for (u32& word : digest) {
        const u32 sort = random.below(4);
        if (sort == 0) word = 0;
        if (sort == 1) word = ~0u;
        if (sort == 2) word = 1u << random.below(32);
    }
    return digest;
}

// Half of them get another digest, which differs in one bit of any of its words.
void change_digest(Random& random, Record& r) {
    if (random.below(2) == 0) r[YARDBOOK_RECORD_DIGEST + random.below(YARDBOOK_DIGEST_WORDS)] ^= 1u << random.below(32);
}

// A mask for a bundle: some members, at times none or all, and at times with bits that are no member's.
u32 bundle_mask(Random& random, u32 n) {
    switch (random.below(8)) {
    case 0: return (1u << n) - 1;
    case 1: return 1u << random.below(32);
    case 2: return random.below(1 << 16) << random.below(17) | random.below(1 << n);
    default: return random.below(1 << n) & random.below(1 << n);
    }
}

// What arrives in a round without its leader's vertex: the member's timeout, a bundle of timeouts, or the member's no-vote.
Call random_note(Random& random, u32 n, u32 round, u32 p) {
    switch (random.below(8)) {
    case 0: return {Kind::timeouts, {}, round, bundle_mask(random, n)};
    case 1: case 2: return {Kind::no_vote, {}, round, p};
    default: return {Kind::timeout, {}, round, p};
    }
}

// Random records of rounds up to `top`, mostly by rising id, and at times a damaged word.
void fill_at_random(Builder& b, Random& random, u32 top, std::vector<u32>& state) {
    auto id = [](const Record& r) { return plain::slots * r[plain::round_at] + r[plain::source_at]; };
    std::vector<Record> records;
    for (u32 left = random.below(YARDBOOK_BUFFER_SLOTS + 1); left != 0; --left)
        records.push_back(b.record(1 + random.below(top), random.below(b.n), random.below(4) != 0));
    if (random.below(8) != 0) {
        std::sort(records.begin(), records.end(), [&](const Record& x, const Record& y) { return id(x) < id(y); });
        const auto same = [&](const Record& x, const Record& y) { return id(x) == id(y); };
        if (random.below(8) != 0) records.erase(std::unique(records.begin(), records.end(), same), records.end());
    }
    put_in_buffer(state, records);
    if (random.below(4) != 0) return;
    const u32 used = plain::buffered_at + YARDBOOK_RECORD_WORDS * static_cast<u32>(records.size());
    state[buffer_at + random.below(random.below(2) == 0 ? used : YARDBOOK_BUFFER_WORDS)] ^= 1u << random.below(random.below(2) ? 32 : 6);
}

// A watcher's state becomes a member's: well formed, though calls need not lead there, with any rounds made and signed, any current
// round and any notes before it.
void make_member(Random& random, u32 n, std::vector<u32>& state) {
    state[plain::own_at] = 1 + random.below(n);
    for (const std::size_t at : {plain::made_at, plain::signed_at})
        if (random.below(2) == 0) state[at] = random.word();
    u32& current = state[plain::current_at];
    if (random.below(2) == 0) current = random.below(4) == 0 ? plain::rounds + 1 : 1 + random.below(plain::rounds);
    for (const plain::Mask kind : {plain::timeouts, plain::no_votes})
        if (current > 1 && random.below(2) == 0)
            state[plain::mask_at(current - 1, kind)] = random.below(4) == 0 ? random.below(1 << n) : (1u << n) - 1;
}

// Changes up to two bits, more often in the words that stand first. Answers whether it did.
bool damage(Random& random, std::vector<u32>& state) {
    static constexpr std::array<u32, 6> ends{plain::masks_at, plain::leaders_at,   plain::journal_at,
                                             plain::cells_at, 2 * plain::cells_at, YARDBOOK_STATE_WORDS};
    const u32 times = random.below(3);
    for (u32 k = 0; k < times; ++k)
        state[random.below(ends[random.below(ends.size())])] ^= 1u << random.below(random.below(2) ? 32 : 10);
    return times != 0;
}

// A record of rounds up to `top`: any, one with a changed word, or one that is held, as it is or with another digest.
Record draw_record(Builder& b, Random& random, u32 top, const std::vector<u32>& state) {
    const u32 most_weak = random.below(4) == 0 ? YARDBOOK_WEAK_SLOTS : 0;
    Record r = b.record(1 + random.below(top), random.below(b.n), random.below(4) != 0, false, most_weak);
    if (random.below(2) == 0) put_digest(r, odd_digest(random));
    const u32 round = r[plain::round_at], source = r[plain::source_at];
    if (random.below(3) == 0) {
        r[random.below(YARDBOOK_RECORD_WORDS)] ^= 1u << random.below(20);
    } else if (random.below(3) == 0 && (state[plain::mask_at(round, plain::held)] >> source & 1) != 0) {
        std::copy_n(&state[plain::cell_at(round, source)], plain::body_words, &r[plain::body_at]);
        change_digest(random, r);
    }
    return r;
}

// Any call, good or bad. One with a buffer may be lent another, and have a record that waits there, as it is or with another digest.
Call draw_call(Builder& b, Random& random, std::vector<u32>& state) {
    Call call{random.below(4) == 0 ? Kind::vertex_with : static_cast<Kind>(random.below(call_kinds))};
    const u32 top = std::min(plain::rounds, state[plain::current_at] % 64 + 1);
    call.record = draw_record(b, random, top, state);
    call.digest = odd_digest(random);
    const bool bundle = call.kind == Kind::timeouts, note = bundle || call.kind == Kind::timeout || call.kind == Kind::no_vote;
    call.a = random.below(call.kind == Kind::open ? 20 : note ? top + 2 : 40);
    call.b = bundle ? bundle_mask(random, b.n) : random.below(b.n + 1);
    if (call.kind != Kind::vertex_with || random.below(4) == 0) return call;
    fill_at_random(b, random, std::min(plain::rounds, top + 3), state);
    const u32 waiting = state[buffer_at + plain::buffer_count_at];
    if (waiting - 1 < YARDBOOK_BUFFER_SLOTS && random.below(4) == 0) {
        const std::size_t at = buffer_at + plain::buffered_at + YARDBOOK_RECORD_WORDS * random.below(waiting);
        std::copy_n(&state[at], call.record.size(), call.record.begin());
        change_digest(random, call.record);
    }
    return call;
}

// A state that grows at random, with all that may reach it.
struct Growing {
    Builder b;
    Random& random;
    bool all;       // the engines, the second implementation too
    bool buffered;  // vertices are taken with a buffer, whether their parents are held or not
    u32 voters;     // of eight
    std::vector<Call> late;

    Growing(Random& its, u32 n, bool by_all, bool with_buffer)
        : b(n), random(its), all(by_all), buffered(with_buffer), voters(1 + its.below(8)) {
        b.random.seed = random.seed;
        b.state[plain::own_at] = random.below(b.n + 1);
    }

    // The own member signs, proposes and takes what it made: on the state, or on a copy of it.
    void be_member() {
        std::vector<u32> copy = b.state;
        std::vector<u32>& words = random.below(4) == 0 ? b.state : copy;
        if (random.below(2) == 0) agreed({Kind::sign_no_vote}, words, all);
        if (random.below(2) == 0) return;
        const Said made = agreed({Kind::propose, {}, 0, 0, odd_digest(random)}, words, all);
        if (made[0] != 0) return;
        Call own{Kind::vertex};
        std::copy_n(made.begin() + said_record_at, own.record.size(), own.record.begin());
        agreed(own, words, all);
    }

    // One that finds the buffer full comes again.
    void take(const Call& call) {
        if (agreed(call, b.state, all)[0] == YARDBOOK_REFUSED_BUFFER_FULL) late.push_back(call);
    }

    // The last one, or all where there is a buffer.
    void take_late() {
        if (late.empty()) return;
        const auto first = buffered ? late.begin() : late.end() - 1;
        const std::vector<Call> arriving(first, late.end());
        late.erase(first, late.end());
        for (const Call& call : arriving) take(call);
    }

    // The member's vertex, at times its first message before, and at times once more or another with nearly its digest after.
    void take_vertex(u32 round, u32 p, bool absent) {
        Call call{buffered ? Kind::vertex_with : Kind::vertex, b.record(round, p, random.below(8) < voters, !buffered)};
        if (random.below(2) == 0) put_digest(call.record, odd_digest(random));
        if (random.below(4) == 0) agreed({Kind::first, call.record}, b.state, all);
        if (absent) late.push_back(call);
        else take(call);
        if (random.below(8) != 0) return;
        change_digest(random, call.record);
        agreed(call, b.state, all);
    }

    void grow(u32 round) {
        u32 absent = 0;
        for (u32 k = random.below(b.f() + 1); k != 0; --k) absent |= 1u << random.below(b.n);
        if (random.below(2) == 0) take_late();
        for (u32 p = 0; p < b.n; ++p) {
            take_vertex(round, p, (absent >> p & 1) != 0);
            if (random.below(b.n) == 0) be_member();
        }
        if ((absent >> b.leader(round) & 1) == 0) return;
        for (u32 p = 0; p < b.n; ++p) {
            if (random.below(4) == 0) continue;
            agreed(random_note(random, b.n, round, p), b.state, all);
            if (random.below(4) == 0) be_member();
        }
    }
};

}  // namespace

void compare_grown(int states) {
    Random random{777};
    for (int i = 0; i < states; ++i) {
        Growing growing(random, member_counts[random.below(member_counts.size())], i % 4 == 0, i % 3 == 0);
        for (u32 round = 1; round <= plain::rounds; ++round) growing.grow(round);
    }
}

void compare_at_random(int calls) {
    Random random{12345};
    for (const u32 n : member_counts) {
        Builder b(n);
        b.full(n == 4 ? 20 : 6, n);
        Builder far(n);
        far.full_with_unreached(12);
        const std::vector<u32> start = b.state;
        for (int i = 0; i < calls; ++i) {
            if (random.below(64) == 0) b.state = random.below(2) == 0 ? start : far.state;
            std::vector<u32> state = b.state;
            const bool member = random.below(2) == 0;
            if (member) make_member(random, n, state);
            const bool damaged = damage(random, state);
            const Call call = draw_call(b, random, state);
            agreed(call, state, i % 8 == 0);
            if (!member && !damaged && call.kind != Kind::open) b.state = state;
        }
    }
}
