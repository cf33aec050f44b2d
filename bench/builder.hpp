// Records and states that calls build, with the engines compared at each call.
#ifndef BUILDER_HPP
#define BUILDER_HPP

#include <array>
#include <vector>

#include "engines.hpp"
#include "plain.hpp"

inline constexpr std::array<u32, 5> member_counts{4, 7, 10, 13, 16};

struct Random {
    std::uint64_t seed;
    u32 below(u32 bound) {
        seed = seed * 6364136223846793005u + 1442695040888963407u;
        return static_cast<u32>((seed >> 33) % bound);
    }
    u32 word() {
        const u32 high = below(1 << 16);
        return high << 16 | below(1 << 16);
    }
    Digest digest() {
        Digest words;
        for (u32& each : words) each = word();
        return words;
    }
};

// Runs the call by the engines from the same words, and leaves what the library made of them. The program ends if an answer or
// a word differs. Without `all`, the second implementation is left out.
Said agreed(const Call& call, std::vector<u32>& state, bool all);

void put_digest(Record& r, const Digest& digest);

// The buffer behind the state gets these records.
void put_in_buffer(std::vector<u32>& state, const std::vector<Record>& records);

struct Builder {
    u32 n;
    Random random;
    std::vector<u32> state = std::vector<u32>(lent_words);  // and behind it the pending buffer

    explicit Builder(u32 members);

    u32 f() const { return (n - 1) / 3; }
    u32 quorum() const { return 2 * f() + 1; }
    u32 leader(u32 round) const { return (round - 1) % n; }
    u32 all() const { return (1u << n) - 1; }
    u32 held(u32 round) const { return state[plain::mask_at(round, plain::held)]; }

    // The state is member 0's, which has made and signed nothing.
    void become_member() { state[plain::own_at] = 1; }

    // The program ends if the call is refused.
    Said must(const Call& call);

    // Leaves out members other than `keep` at random; a quorum stays.
    u32 thinned(u32 mask, u32 keep);

    // A record with these strong parents, a random digest and nothing else.
    Record bare(u32 round, u32 source, u32 strong);

    // A record with random strong parents, a random digest and, from round 3 on, random weak parents, up to `most_weak`. With `of_held`
    // all parents are held, and whether it votes depends also on which are.
    Record record(u32 round, u32 source, bool votes, bool of_held = false, u32 most_weak = 0);

    // So many records by rising id, from the round on, with all of the round before as strong parents.
    std::vector<Record> full_records(u32 round, u32 number);

    // Fills the rounds. Of a round's vertices the first `voters`, counted from its leader, vote for the leader of the round before.
    void full(u32 rounds, u32 voters);

    // Fills the rounds, but for the last member's vertices of rounds 1 and 2, which no other has as parents.
    void full_but_two(u32 rounds);

    // Fills the rounds. Every sixth round, from the fifth on, has a vertex that no other reaches.
    void full_with_unreached(u32 rounds);

private:
    // Rising ids of rounds two to four before, up to `most`.
    std::vector<u32> weak_ids(u32 round, bool of_held, u32 most);
};

#endif
