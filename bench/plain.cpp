// A plain engine for the comparison: the rules of documents 01 and 02 on the same words, as one would write them by hand for speed,
// without vector intrinsics. It tests at every call that the state is well formed, as the library does.
#include "plain.hpp"

#include <bit>
#include <cstring>

namespace {

using u32 = std::uint32_t;

using namespace plain;

u32 mask(const u32* state, u32 round, Mask kind) { return state[mask_at(round, kind)]; }
u32& mask(u32* state, u32 round, Mask kind) { return state[mask_at(round, kind)]; }
const u32* cell(const u32* state, u32 round, u32 p) { return state + cell_at(round, p); }

// Without the popcnt instruction g++ would call a function here, and the archive is made without it.
u32 count(u32 x) {
#ifdef __POPCNT__
    return static_cast<u32>(std::popcount(x));
#else
    x -= x >> 1 & 0x55555555;
    x = (x & 0x33333333) + (x >> 2 & 0x33333333);
    return ((x + (x >> 4)) & 0x0f0f0f0f) * 0x01010101 >> 24;
#endif
}

bool has(u32 bits, u32 p) { return bits >> p & 1; }

struct Group {
    u32 n, f, quorum, outside;
    explicit Group(u32 members) : n(members), f((members - 1) / 3), quorum(2 * f + 1), outside(~0u << members) {}
    u32 leader(u32 round) const { return (round - 1) % n; }
};

bool legal(u32 n) { return n >= 4 && n <= slots && n % 3 == 1; }

// Questions 7 to 11.
u32 check_body(const Group& g, u32 round, u32 source, u32 leader, u32 previous, const u32* body) {
    const u32 strong = body[strong_at], timeout_mask = body[timeouts_at], no_vote_mask = body[no_votes_at], weak_count = body[weak_count_at];
    if ((strong | timeout_mask | no_vote_mask) & g.outside) return 7;
    bool lack = false;
    if (round == 1) {
        if (strong != 0) return 8;
    } else {
        if (count(strong) < g.quorum) return 8;
        lack = !has(strong, previous);
    }
    if (lack ? count(timeout_mask) < g.quorum : timeout_mask != 0) return 9;
    if (lack && source == leader ? count(no_vote_mask) < g.quorum : no_vote_mask != 0) return 10;
    if (weak_count > g.f) return 11;
    u32 last = 0, i = 0;
    for (; i < weak_count; ++i) {
        const u32 x = body[weak_at + i];
        if (x <= last || x % slots >= g.n || x < slots || x / slots + 2 > round) return 11;
        last = x;
    }
    for (; i < weak_slots; ++i)
        if (body[weak_at + i] != 0) return 11;
    return 0;
}

// All parents of a checked body are held.
bool parents_held(const u32* state, u32 round, const u32* body) {
    if (round == 1) return true;
    if (body[strong_at] & ~mask(state, round - 1, held)) return false;
    for (u32 i = 0; i < body[weak_count_at]; ++i)
        if (!has(mask(state, body[weak_at + i] / slots, held), body[weak_at + i] % slots)) return false;
    return true;
}

bool masks_ok(const Group& g, const u32* state) {
    u32 bad = mask(state, 1, votes);
    for (u32 r = 1; r <= rounds; ++r) {
        const u32* m = state + mask_at(r, held);
        bad |= (m[held] | m[heard] | m[votes] | m[timeouts] | m[no_votes] | m[ordered]) & g.outside;
        bad |= m[votes] & ~m[heard];
        bad |= m[ordered] & ~m[held];
    }
    return bad == 0;
}

// Unrolled, so that the loop's end is foreseen: not foreseen, it costs as much as the words of a round.
bool zero(const u32* from, const u32* to) {
    u32 joined = 0;
#pragma GCC unroll 8
    for (; from != to; ++from) joined |= *from;
    return joined == 0;
}

bool cells_ok(const Group& g, const u32* state) {
    u32 leader = 0, previous = 0;
    for (u32 r = 1; r <= rounds; ++r) {
        const u32 here = mask(state, r, held);
        const u32* end = cell(state, r, slots);
        if (here == 0) {
            if (!zero(cell(state, r, 0), end)) return false;
        } else {
            u32 stray = 0;
            for (u32 p = 0; p < g.n; ++p) {
                const u32* body = cell(state, r, p);
                if (has(here, p)) {
                    if (check_body(g, r, p, leader, previous, body) != 0) return false;
                    if (!parents_held(state, r, body)) return false;
                } else {
                    for (std::size_t i = 0; i < body_words; ++i) stray |= body[i];
                }
            }
            if (stray != 0 || !zero(cell(state, r, g.n), end)) return false;
        }
        previous = leader;
        leader = leader + 1 == g.n ? 0 : leader + 1;
    }
    return true;
}

bool leaders_ok(const Group& g, const u32* state) {
    const u32 size = state[leader_count_at];
    if (size > leaders_size) return false;
    u32 last = 0;
    for (u32 i = 0; i < size; ++i) {
        const u32 x = state[leaders_at + i], round = x / slots;
        if (round <= last || round > rounds || x % slots != g.leader(round) || !has(mask(state, round, held), x % slots)) return false;
        last = round;
    }
    return last == state[committed_at];
}

bool journal_ok(const u32* state) {
    const u32 size = state[journal_count_at];
    if (size > journal_size) return false;
    u32 left[rounds + 1] = {};
    for (u32 r = 1; r <= rounds; ++r) left[r] = mask(state, r, ordered);
    for (u32 i = 0; i < size; ++i) {
        const u32 x = state[journal_at + i], round = x / slots, bit = 1u << x % slots;
        if (round > rounds || (left[round] & bit) == 0) return false;
        left[round] ^= bit;
    }
    u32 rest = 0;
    for (u32 r = 1; r <= rounds; ++r) rest |= left[r];
    return rest == 0;
}

bool well_formed(const u32* state) {
    if (!legal(state[members_at]) || state[current_at] < 1 || state[current_at] > rounds + 1 || state[committed_at] > rounds - 1) return false;
    if (state[own_at] > state[members_at] || (state[own_at] == 0 && (state[made_at] | state[signed_at]) != 0)) return false;
    const Group g(state[members_at]);
    return masks_ok(g, state) && cells_ok(g, state) && leaders_ok(g, state) && journal_ok(state)
        && zero(state + leaders_at + state[leader_count_at], state + journal_at) && zero(state + journal_at + state[journal_count_at], state + cells_at);
}

// Questions 1 and 3.
u32 check_state(const u32* state, std::size_t words) {
    if (words != YARDBOOK_STATE_WORDS) return 1;
    return well_formed(state) ? 0 : 3;
}

// Questions 4 to 11.
u32 check_record(const Group& g, const u32* record, std::size_t words) {
    if (words != YARDBOOK_RECORD_WORDS) return 4;
    const u32 round = record[round_at], source = record[source_at];
    if (round < 1 || round > rounds) return 5;
    if (source >= g.n) return 6;
    return check_body(g, round, source, g.leader(round), round == 1 ? 0 : g.leader(round - 1), record + body_at);
}

// The smallest id among the parents that are not held, 0 if all are.
u32 missing_parent(const u32* state, const u32* record) {
    const u32 round = record[round_at], *body = record + body_at;
    if (round == 1) return 0;
    for (u32 i = 0; i < body[weak_count_at]; ++i)
        if (!has(mask(state, body[weak_at + i] / slots, held), body[weak_at + i] % slots)) return body[weak_at + i];
    const u32 missing = body[strong_at] & ~mask(state, round - 1, held);
    return missing == 0 ? 0 : slots * (round - 1) + static_cast<u32>(std::countr_zero(missing));
}

void raise_round(const Group& g, u32* state) {
    for (u32 q = rounds; q >= state[current_at]; --q) {
        const u32 vertices = mask(state, q, held);
        if (count(vertices) < g.quorum) continue;
        if (has(vertices, g.leader(q)) || count(mask(state, q, timeouts)) >= g.quorum) {
            state[current_at] = q + 1;
            return;
        }
    }
}

bool committable(const Group& g, const u32* state, u32 q) {
    const u32 leader = g.leader(q);
    if (!has(mask(state, q, held), leader)) return false;
    u32 voters = mask(state, q + 1, votes);
    for (u32 p = 0; p < g.n; ++p) voters |= (cell(state, q + 1, p)[strong_at] >> leader & 1) << p;
    return count(voters) >= g.quorum;
}

// Adds to `reached`, masks by round, the histories of those that it has in the round; it has none below.
void reach(const u32* state, u32 round, u32* reached) {
    for (u32 r = round; r >= 2; --r) {
        for (u32 left = reached[r]; left != 0; left &= left - 1) {
            const u32* body = cell(state, r, static_cast<u32>(std::countr_zero(left)));
            reached[r - 1] |= body[strong_at];
            for (u32 i = 0; i < body[weak_count_at]; ++i) reached[body[weak_at + i] / slots] |= 1u << body[weak_at + i] % slots;
        }
    }
}

// The history of the round's leader that is not yet ordered joins the journal.
void order(const Group& g, u32* state, u32 round) {
    u32 reached[rounds + 1] = {};
    reached[round] = 1u << g.leader(round);
    reach(state, round, reached);
    u32* end = state + journal_at + state[journal_count_at];
    for (u32 r = 1; r <= round; ++r) {
        u32& done = mask(state, r, ordered);
        for (u32 left = reached[r] & ~done; left != 0; left &= left - 1)
            *end++ = slots * r + static_cast<u32>(std::countr_zero(left));
        done |= reached[r];
    }
    state[journal_count_at] = static_cast<u32>(end - (state + journal_at));
}

void commit(const Group& g, u32* state, u32 q) {
    u32 taken = 1u << q, reached = 1u << g.leader(q);
    for (u32 t = q - 1; t > state[committed_at]; --t) {
        u32 below = 0;
        for (u32 left = reached; left != 0; left &= left - 1)
            below |= cell(state, t + 1, static_cast<u32>(std::countr_zero(left)))[strong_at];
        const u32 leader = g.leader(t);
        reached = below;
        if (has(below, leader)) {
            taken |= 1u << t;
            reached = 1u << leader;
        }
    }
    state[committed_at] = q;
    for (u32 left = taken; left != 0; left &= left - 1) {
        const u32 t = static_cast<u32>(std::countr_zero(left));
        state[leaders_at + state[leader_count_at]++] = slots * t + g.leader(t);
    }
    for (u32 left = taken; left != 0; left &= left - 1) order(g, state, static_cast<u32>(std::countr_zero(left)));
}

yardbook_answer settle(const Group& g, u32* state) {
    const u32 leaders = state[leader_count_at], journal = state[journal_count_at];
    // A commit makes no lower round committable, so one pass by rising round commits them all.
    for (u32 q = state[committed_at] + 1; q < rounds; ++q)
        if (committable(g, state, q)) commit(g, state, q);
    return {0, 0, state[leader_count_at] - leaders, state[journal_count_at] - journal};
}

yardbook_answer refused(u32 number, u32 id = 0) { return {number, id, 0, 0}; }

// Questions 12 to 14 of a record that has passed the others. Admitted, it is held, and the rounds follow.
yardbook_answer admit(const Group& g, u32* state, const u32* record) {
    const u32 round = record[round_at], source = record[source_at];
    u32* body = state + cell_at(round, source);
    if (has(mask(state, round, held), source))
        return refused(std::memcmp(body, record + body_at, body_words * sizeof(u32)) == 0 ? 12 : 13);
    if (const u32 id = missing_parent(state, record)) return refused(14, id);
    std::memcpy(body, record + body_at, body_words * sizeof(u32));
    mask(state, round, held) |= 1u << source;
    if (round > 1) mask(state, round - 1, timeouts) |= record[body_at + timeouts_at];
    raise_round(g, state);
    return settle(g, state);
}

constexpr std::size_t record_bytes = YARDBOOK_RECORD_WORDS * sizeof(u32);

const u32* buffered(const u32* buffer, u32 i) { return buffer + buffered_at + YARDBOOK_RECORD_WORDS * i; }
u32* buffered(u32* buffer, u32 i) { return buffer + buffered_at + YARDBOOK_RECORD_WORDS * i; }
u32 id_of(const u32* record) { return slots * record[round_at] + record[source_at]; }

// Question 19.
bool buffer_ok(const Group& g, const u32* buffer, std::size_t words) {
    if (words != YARDBOOK_BUFFER_WORDS || buffer[buffer_count_at] > YARDBOOK_BUFFER_SLOTS) return false;
    u32 last = 0;
    for (u32 i = 0; i < buffer[buffer_count_at]; ++i) {
        const u32* record = buffered(buffer, i);
        if (check_record(g, record, YARDBOOK_RECORD_WORDS) != 0 || id_of(record) <= last) return false;
        last = id_of(record);
    }
    return zero(buffered(buffer, buffer[buffer_count_at]), buffer + YARDBOOK_BUFFER_WORDS);
}

// For a record whose parent of the given id is missing: finds it in the buffer, or puts it there.
yardbook_answer keep(u32* buffer, const u32* record, u32 missing) {
    u32& size = buffer[buffer_count_at];
    u32 place = size;
    while (place > 0 && id_of(buffered(buffer, place - 1)) >= id_of(record)) --place;
    u32* at = buffered(buffer, place);
    if (place < size && id_of(at) == id_of(record)) return refused(std::memcmp(at, record, record_bytes) == 0 ? 12 : 13);
    if (size == YARDBOOK_BUFFER_SLOTS) return refused(20);
    std::memmove(buffered(buffer, place + 1), at, (size - place) * record_bytes);
    std::memcpy(at, record, record_bytes);
    ++size;
    return refused(14, missing);
}

// Tries the buffered records, and keeps those that lack a parent. Parents have lower ids, so one pass by rising id admits all that many
// would. What it adds to the lists joins the answer.
void release(const Group& g, u32* state, u32* buffer, yardbook_answer& answer) {
    const u32 size = buffer[buffer_count_at];
    u32 kept = 0;
    for (u32 i = 0; i < size; ++i) {
        const u32* record = buffered(buffer, i);
        const yardbook_answer its = admit(g, state, record);
        answer.leaders += its.leaders;
        answer.journal += its.journal;
        if (its.number != 14) continue;
        if (kept != i) std::memcpy(buffered(buffer, kept), record, record_bytes);
        ++kept;
    }
    std::memset(buffered(buffer, kept), 0, (size - kept) * record_bytes);
    buffer[buffer_count_at] = kept;
}

u32 check_note(const u32* state, std::size_t words, u32 round, u32 signer, Mask kind) {
    if (const u32 number = check_state(state, words)) return number;
    if (round < 1 || round > rounds) return 5;
    if (signer >= state[members_at]) return 6;
    return has(mask(state, round, kind), signer) ? 12 : 0;
}

u32 check_bundle(const u32* state, std::size_t words, u32 round, u32 signers) {
    if (const u32 number = check_state(state, words)) return number;
    if (round < 1 || round > rounds) return 5;
    if (signers & Group(state[members_at]).outside) return 7;
    return (signers & ~mask(state, round, timeouts)) == 0 ? 12 : 0;
}

// Whether strong edges alone lead from those reached in the round to all that is held below it.
bool all_reached(const u32* state, u32 round, u32 reached) {
    for (u32 r = round; r >= 2; --r) {
        const u32 wanted = mask(state, r - 1, held);
        u32 below = 0;
        for (u32 left = reached; left != 0 && below != wanted; left &= left - 1)
            below |= cell(state, r, static_cast<u32>(std::countr_zero(left)))[strong_at];
        if (below != wanted) return false;
        reached = below;
    }
    return true;
}

// The f lowest ids that are held in rounds 1 to round - 2 and not in the histories of the strong parents, in round - 1. Their count
// and the ids are written to the body. Mostly there are none, and a few strong masks of each round show it.
void find_weak(const Group& g, const u32* state, u32 round, u32* body) {
    if (all_reached(state, round - 1, body[strong_at])) return;
    u32 reached[rounds + 1] = {};
    reached[round - 1] = body[strong_at];
    reach(state, round - 1, reached);
    u32& number = body[weak_count_at];
    for (u32 r = 1; r + 2 <= round; ++r)
        for (u32 left = mask(state, r, held) & ~reached[r]; left != 0; left &= left - 1) {
            if (number == g.f) return;
            body[weak_at + number++] = slots * r + static_cast<u32>(std::countr_zero(left));
        }
}

// Questions 16, 5, 9, 10, 12 and 18. Writes the body but for the digest.
u32 make_body(const Group& g, const u32* state, u32* body) {
    const u32 own = state[own_at], round = state[current_at];
    if (own == 0) return 16;
    if (round > rounds) return 5;
    if (round == 1) return has(state[made_at], 0) ? 12 : 0;
    const u32 before = round - 1, leader = 1u << g.leader(before);
    u32 strong = mask(state, before, held);
    if (has(state[signed_at], before - 1)) strong &= ~leader;
    if ((strong & leader) == 0) {
        body[timeouts_at] = mask(state, before, timeouts);
        if (count(body[timeouts_at]) < g.quorum) return 9;
        if (own - 1 == g.leader(round)) {
            body[no_votes_at] = mask(state, before, no_votes);
            if (count(body[no_votes_at]) < g.quorum) return 10;
        }
    }
    if (has(state[made_at], round - 1)) return 12;
    if (count(strong) < g.quorum) return 18;
    body[strong_at] = strong;
    if (round >= 3) find_weak(g, state, round, body);
    return 0;
}

u32 ask(const u32* state, std::size_t words, u32 k, std::size_t count_at) {
    if (const u32 number = check_state(state, words)) return number;
    return k > state[count_at] ? 15 : 0;
}

yardbook_part hand(const u32* state, std::size_t words, u32 k, std::size_t count_at, std::size_t at) {
    if (const u32 number = ask(state, words, k, count_at)) return {number, 0, 0};
    return {0, static_cast<u32>(at) + k, state[count_at] - k};
}

}  // namespace

yardbook_answer plain_open(u32* state, std::size_t words, u32 n, u32 own) {
    if (words != YARDBOOK_STATE_WORDS) return refused(1);
    if (!legal(n)) return refused(2);
    if (own > n) return refused(6);
    std::memset(state, 0, YARDBOOK_STATE_WORDS * sizeof(u32));
    state[members_at] = n;
    state[current_at] = 1;
    state[own_at] = own;
    return refused(0);
}

yardbook_answer plain_take_vertex(u32* state, std::size_t words, const u32* record, std::size_t record_words) {
    if (const u32 number = check_state(state, words)) return refused(number);
    const Group g(state[members_at]);
    if (const u32 number = check_record(g, record, record_words)) return refused(number);
    return admit(g, state, record);
}

yardbook_answer plain_take_vertex_with(u32* state, std::size_t words, u32* buffer, std::size_t buffer_words, const u32* record,
                                       std::size_t record_words) {
    if (const u32 number = check_state(state, words)) return refused(number);
    const Group g(state[members_at]);
    if (!buffer_ok(g, buffer, buffer_words)) return refused(19);
    if (const u32 number = check_record(g, record, record_words)) return refused(number);
    yardbook_answer answer = admit(g, state, record);
    if (answer.number == 14) return keep(buffer, record, answer.id);
    if (answer.number == 0) release(g, state, buffer, answer);
    return answer;
}

yardbook_answer plain_take_first_message(u32* state, std::size_t words, const u32* record, std::size_t record_words) {
    if (const u32 number = check_state(state, words)) return refused(number);
    const Group g(state[members_at]);
    if (const u32 number = check_record(g, record, record_words)) return refused(number);
    const u32 round = record[round_at], source = record[source_at];
    if (has(mask(state, round, heard), source)) return refused(12);
    mask(state, round, heard) |= 1u << source;
    if (round > 1 && has(record[body_at + strong_at], g.leader(round - 1))) mask(state, round, votes) |= 1u << source;
    return settle(g, state);
}

yardbook_answer plain_take_timeout(u32* state, std::size_t words, u32 round, u32 signer) {
    if (const u32 number = check_note(state, words, round, signer, timeouts)) return refused(number);
    mask(state, round, timeouts) |= 1u << signer;
    raise_round(Group(state[members_at]), state);
    return refused(0);
}

yardbook_answer plain_take_timeouts(u32* state, std::size_t words, u32 round, u32 signers) {
    if (const u32 number = check_bundle(state, words, round, signers)) return refused(number);
    mask(state, round, timeouts) |= signers;
    raise_round(Group(state[members_at]), state);
    return refused(0);
}

yardbook_answer plain_take_no_vote(u32* state, std::size_t words, u32 round, u32 signer) {
    if (const u32 number = check_note(state, words, round, signer, no_votes)) return refused(number);
    mask(state, round, no_votes) |= 1u << signer;
    return refused(0);
}

yardbook_proposal plain_propose(u32* state, std::size_t words, const u32* digest) {
    if (const u32 number = check_state(state, words)) return {refused(number), {}};
    yardbook_proposal made{};
    if (const u32 number = make_body(Group(state[members_at]), state, made.record + body_at)) return {refused(number), {}};
    made.record[round_at] = state[current_at];
    made.record[source_at] = state[own_at] - 1;
    std::memcpy(made.record + body_at + digest_at, digest, digest_words * sizeof(u32));
    state[made_at] |= 1u << (state[current_at] - 1);
    return made;
}

yardbook_answer plain_sign_no_vote(u32* state, std::size_t words) {
    if (const u32 number = check_state(state, words)) return refused(number);
    const u32 own = state[own_at], round = state[current_at];
    if (own == 0) return refused(16);
    if (round == 1) return refused(17);
    const u32 before = round - 1;
    if (has(mask(state, before, held), Group(state[members_at]).leader(before))) return refused(17);
    if (round <= rounds && has(state[made_at], round - 1)) return refused(17);
    if (has(state[signed_at], before - 1)) return refused(12);
    state[signed_at] |= 1u << (before - 1);
    mask(state, before, no_votes) |= 1u << (own - 1);
    return refused(0);
}

yardbook_state_status plain_status(const u32* state, std::size_t words) {
    if (const u32 number = check_state(state, words)) return {number, 0, 0, 0, 0};
    return {0, state[current_at], state[committed_at], state[leader_count_at], state[journal_count_at]};
}

yardbook_answer plain_ask_leaders(const u32* state, std::size_t words, u32 k) { return refused(ask(state, words, k, leader_count_at)); }
yardbook_answer plain_ask_journal(const u32* state, std::size_t words, u32 k) { return refused(ask(state, words, k, journal_count_at)); }
yardbook_part plain_hand_leaders(const u32* state, std::size_t words, u32 k) { return hand(state, words, k, leader_count_at, leaders_at); }
yardbook_part plain_hand_journal(const u32* state, std::size_t words, u32 k) { return hand(state, words, k, journal_count_at, journal_at); }
