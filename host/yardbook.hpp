// Yardbook ordering engine: the C interface as spans and structs. It allocates nothing and throws nothing. yardbook.h
// documents the calls, the numbers, and what the host owes for the words that it lends.
#ifndef YARDBOOK_HPP
#define YARDBOOK_HPP

#include <algorithm>
#include <array>
#include <cstddef>
#include <cstdint>
#include <span>

#include "yardbook.h"

namespace yardbook {

inline constexpr std::size_t state_words = YARDBOOK_STATE_WORDS;
inline constexpr std::size_t record_words = YARDBOOK_RECORD_WORDS;
inline constexpr std::size_t digest_words = YARDBOOK_DIGEST_WORDS;
inline constexpr std::size_t digest_bytes = YARDBOOK_DIGEST_BYTES;
inline constexpr std::size_t buffer_words = YARDBOOK_BUFFER_WORDS;
inline constexpr std::size_t buffer_slots = YARDBOOK_BUFFER_SLOTS;

using State = std::array<std::uint32_t, state_words>;
using Record = std::array<std::uint32_t, record_words>;

// Vertices that wait for their parents. It starts with zeros: `Buffer buffer{};`
using Buffer = std::array<std::uint32_t, buffer_words>;

// The host's name for its block: 32 bytes, and the eight words that a record has for them; any words. Word i has the bytes 4i to
// 4i + 3, the first of them the lowest (little-endian), whatever the machine's own order is.
struct Digest {
    std::array<std::uint32_t, digest_words> words{};

    [[nodiscard]] static constexpr Digest from_bytes(std::span<const std::uint8_t, digest_bytes> bytes) noexcept {
        Digest digest;
        for (std::size_t i = 0; i < digest_bytes; ++i) digest.words[i / 4] |= std::uint32_t{bytes[i]} << 8 * (i % 4);
        return digest;
    }

    [[nodiscard]] constexpr std::array<std::uint8_t, digest_bytes> bytes() const noexcept {
        std::array<std::uint8_t, digest_bytes> bytes{};
        for (std::size_t i = 0; i < digest_bytes; ++i) bytes[i] = static_cast<std::uint8_t>(words[i / 4] >> 8 * (i % 4));
        return bytes;
    }

    friend constexpr bool operator==(const Digest&, const Digest&) noexcept = default;
};

[[nodiscard]] constexpr Digest digest_of(std::span<const std::uint32_t, record_words> record) noexcept {
    Digest digest;
    std::copy_n(record.begin() + YARDBOOK_RECORD_DIGEST, digest_words, digest.words.begin());
    return digest;
}

constexpr void put_digest(std::span<std::uint32_t, record_words> record, const Digest& digest) noexcept {
    std::copy_n(digest.words.begin(), digest_words, record.begin() + YARDBOOK_RECORD_DIGEST);
}

enum class Number : std::uint32_t {
    ok = YARDBOOK_OK,
    state_size = YARDBOOK_REFUSED_STATE_SIZE,
    member_count = YARDBOOK_REFUSED_MEMBER_COUNT,
    malformed = YARDBOOK_REFUSED_MALFORMED,
    record_size = YARDBOOK_REFUSED_RECORD_SIZE,
    round = YARDBOOK_REFUSED_ROUND,
    source = YARDBOOK_REFUSED_SOURCE,
    mask_bits = YARDBOOK_REFUSED_MASK_BITS,
    strong = YARDBOOK_REFUSED_STRONG,
    timeouts = YARDBOOK_REFUSED_TIMEOUTS,
    no_votes = YARDBOOK_REFUSED_NO_VOTES,
    weak = YARDBOOK_REFUSED_WEAK,
    duplicate = YARDBOOK_REFUSED_DUPLICATE,
    conflict = YARDBOOK_REFUSED_CONFLICT,
    missing_parent = YARDBOOK_REFUSED_MISSING_PARENT,
    past_end = YARDBOOK_REFUSED_PAST_END,
    watcher = YARDBOOK_REFUSED_WATCHER,
    signing = YARDBOOK_REFUSED_SIGNING,
    few_parents = YARDBOOK_REFUSED_FEW_PARENTS,
    buffer = YARDBOOK_REFUSED_BUFFER,
    buffer_full = YARDBOOK_REFUSED_BUFFER_FULL,
};

struct Answer {
    Number number;
    std::uint32_t id;
    std::uint32_t leaders;
    std::uint32_t journal;

    [[nodiscard]] constexpr bool ok() const noexcept { return number == Number::ok; }
};

struct Proposal {
    Answer answer;
    Record record;
};

struct Status {
    Number number;
    std::uint32_t current_round;
    std::uint32_t committed_round;
    std::uint32_t leader_count;
    std::uint32_t journal_count;
};

// Ids, as a part of the state that was lent: valid until the next call that changes it.
struct List {
    Number number;
    std::span<const std::uint32_t> ids;
};

namespace detail {

[[nodiscard]] constexpr Answer answer(yardbook_answer a) noexcept {
    return {static_cast<Number>(a.number), a.id, a.leaders, a.journal};
}

[[nodiscard]] constexpr List list(std::span<const std::uint32_t> state, yardbook_part part) noexcept {
    return {static_cast<Number>(part.number), state.subspan(part.start, part.length)};
}

}  // namespace detail

[[nodiscard]] inline Answer open(std::span<std::uint32_t> state, std::uint32_t n, std::uint32_t own) noexcept {
    return detail::answer(yardbook_open(state.data(), state.size(), n, own));
}

[[nodiscard]] inline Answer take_vertex(std::span<std::uint32_t> state, std::span<const std::uint32_t> record) noexcept {
    return detail::answer(yardbook_take_vertex(state.data(), state.size(), record.data(), record.size()));
}

[[nodiscard]] inline Answer take_vertex_with(std::span<std::uint32_t> state, std::span<std::uint32_t> buffer,
                                             std::span<const std::uint32_t> record) noexcept {
    return detail::answer(yardbook_take_vertex_with(state.data(), state.size(), buffer.data(), buffer.size(), record.data(),
                                                    record.size()));
}

[[nodiscard]] inline Answer take_first_message(std::span<std::uint32_t> state,
                                               std::span<const std::uint32_t> record) noexcept {
    return detail::answer(yardbook_take_first_message(state.data(), state.size(), record.data(), record.size()));
}

[[nodiscard]] inline Answer take_timeout(std::span<std::uint32_t> state, std::uint32_t round,
                                         std::uint32_t signer) noexcept {
    return detail::answer(yardbook_take_timeout(state.data(), state.size(), round, signer));
}

[[nodiscard]] inline Answer take_timeouts(std::span<std::uint32_t> state, std::uint32_t round,
                                          std::uint32_t mask) noexcept {
    return detail::answer(yardbook_take_timeouts(state.data(), state.size(), round, mask));
}

[[nodiscard]] inline Answer take_no_vote(std::span<std::uint32_t> state, std::uint32_t round,
                                         std::uint32_t signer) noexcept {
    return detail::answer(yardbook_take_no_vote(state.data(), state.size(), round, signer));
}

[[nodiscard]] inline Proposal propose(std::span<std::uint32_t> state, const Digest& digest) noexcept {
    const yardbook_proposal p = yardbook_propose(state.data(), state.size(), digest.words.data());
    return {detail::answer(p.answer), std::to_array(p.record)};
}

[[nodiscard]] inline Answer sign_no_vote(std::span<std::uint32_t> state) noexcept {
    return detail::answer(yardbook_sign_no_vote(state.data(), state.size()));
}

[[nodiscard]] inline Status status(std::span<const std::uint32_t> state) noexcept {
    const yardbook_state_status s = yardbook_status(state.data(), state.size());
    return {static_cast<Number>(s.number), s.current_round, s.committed_round, s.leader_count, s.journal_count};
}

[[nodiscard]] inline Answer ask_leaders(std::span<const std::uint32_t> state, std::uint32_t k) noexcept {
    return detail::answer(yardbook_ask_leaders(state.data(), state.size(), k));
}

[[nodiscard]] inline Answer ask_journal(std::span<const std::uint32_t> state, std::uint32_t k) noexcept {
    return detail::answer(yardbook_ask_journal(state.data(), state.size(), k));
}

[[nodiscard]] inline List hand_leaders(std::span<const std::uint32_t> state, std::uint32_t k) noexcept {
    return detail::list(state, yardbook_hand_leaders(state.data(), state.size(), k));
}

[[nodiscard]] inline List hand_journal(std::span<const std::uint32_t> state, std::uint32_t k) noexcept {
    return detail::list(state, yardbook_hand_journal(state.data(), state.size(), k));
}

}  // namespace yardbook

#endif
