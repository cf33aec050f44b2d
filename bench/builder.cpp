#include "builder.hpp"

#include <algorithm>
#include <bit>
#include <cstdio>
#include <cstdlib>

namespace {

[[noreturn]] void differ(const char* what, Engine engine) {
    const char* name = engine == plain_engine ? "the plain engine" : "the second implementation";
    std::fprintf(stderr, "bench: %s differs in %s\n", name, what);
    std::exit(1);
}

}  // namespace

Said agreed(const Call& call, std::vector<u32>& state, bool all) {
    std::vector<u32> after = state;
    const Said answer = run(ours, call, after.data());
    for (const Engine engine : {plain_engine, second}) {
        if (engine == second && !all) continue;
        std::vector<u32> its = state;
        if (run(engine, call, its.data()) != answer) differ("an answer", engine);
        if (its != after) differ("the words", engine);
    }
    state = after;
    return answer;
}

void put_digest(Record& r, const Digest& digest) { std::copy(digest.begin(), digest.end(), r.begin() + YARDBOOK_RECORD_DIGEST); }

void put_in_buffer(std::vector<u32>& state, const std::vector<Record>& records) {
    auto at = state.begin() + buffer_at;
    std::fill(at, state.end(), 0);
    at[plain::buffer_count_at] = static_cast<u32>(records.size());
    at += plain::buffered_at;
    for (const Record& r : records) at = std::copy(r.begin(), r.end(), at);
}

Builder::Builder(u32 members) : n(members), random{members} { must({Kind::open, {}, n, 0}); }

Said Builder::must(const Call& call) {
    const Said answer = agreed(call, state, false);
    if (answer[0] != 0) {
        std::fprintf(stderr, "bench: a call of the state's making was answered %u\n", answer[0]);
        std::exit(1);
    }
    return answer;
}

u32 Builder::thinned(u32 mask, u32 keep) {
    const u32 members = static_cast<u32>(std::popcount(mask));
    for (u32 left = members > quorum() ? random.below(members - quorum() + 1) : 0; left != 0;) {
        const u32 bit = 1u << random.below(n);
        if ((mask & bit) == 0 || bit == keep) continue;
        mask ^= bit;
        --left;
    }
    return mask;
}

Record Builder::bare(u32 round, u32 source, u32 strong) {
    Record r{round, source, strong};
    put_digest(r, random.digest());
    return r;
}

std::vector<u32> Builder::weak_ids(u32 round, bool of_held, u32 most) {
    std::vector<u32> weak;
    for (u32 left = random.below(most + 1); left != 0; --left) {
        const u32 back = 2 + random.below(std::min(3u, round - 2)), p = random.below(n);
        if (!of_held || (held(round - back) >> p & 1) != 0) weak.push_back(plain::slots * (round - back) + p);
    }
    std::sort(weak.begin(), weak.end());
    weak.erase(std::unique(weak.begin(), weak.end()), weak.end());
    return weak;
}

Record Builder::record(u32 round, u32 source, bool votes, bool of_held, u32 most_weak) {
    Record r = bare(round, source, 0);
    if (round == 1) return r;
    const u32 before = of_held ? held(round - 1) : all(), lead = 1u << leader(round - 1);
    if (of_held) votes = (before & lead) != 0 && (votes || static_cast<u32>(std::popcount(before & ~lead)) < quorum());
    r[YARDBOOK_RECORD_STRONG] = votes ? thinned(before, lead) : thinned(before & ~lead, 0);
    if (!votes) {
        r[YARDBOOK_RECORD_TIMEOUTS] = thinned(all(), 0);
        if (source == leader(round)) r[YARDBOOK_RECORD_NO_VOTES] = thinned(all(), 0);
    }
    if (round < 3) return r;
    const std::vector<u32> weak = weak_ids(round, of_held, std::max(f(), most_weak));
    r[YARDBOOK_RECORD_WEAK_COUNT] = static_cast<u32>(weak.size());
    std::copy(weak.begin(), weak.end(), r.begin() + YARDBOOK_RECORD_WEAK);
    return r;
}

std::vector<Record> Builder::full_records(u32 round, u32 number) {
    std::vector<Record> records;
    for (u32 i = 0; i < number; ++i) records.push_back(bare(round + i / n, i % n, all()));
    return records;
}

void Builder::full(u32 rounds, u32 voters) {
    for (u32 round = 1; round <= rounds; ++round)
        for (u32 p = 0; p < n; ++p) must({Kind::vertex, record(round, p, (p + n - leader(round)) % n < voters)});
}

void Builder::full_but_two(u32 rounds) {
    for (u32 round = 1; round <= rounds; ++round)
        for (u32 p = 0; p < n; ++p) {
            if (round <= 2 && p + 1 == n) continue;
            const u32 strong = round == 1 ? 0 : round <= 3 ? all() >> 1 : all();
            must({Kind::vertex, bare(round, p, strong)});
        }
}

void Builder::full_with_unreached(u32 rounds) {
    for (u32 round = 1; round <= rounds; ++round)
        for (u32 p = 0; p < n; ++p) {
            const u32 strong = round == 1 ? 0 : round % 6 == 0 ? all() & ~(1u << leader(round)) : all();
            must({Kind::vertex, bare(round, p, strong)});
        }
}
