// The engines behind one kind of call: the library, the plain engine, and the second implementation.
#ifndef ENGINES_HPP
#define ENGINES_HPP

#include <array>
#include <cstddef>
#include <cstdint>

#include "../host/yardbook.h"

using u32 = std::uint32_t;
using Record = std::array<u32, YARDBOOK_RECORD_WORDS>;
using Digest = std::array<u32, YARDBOOK_DIGEST_WORDS>;
inline constexpr std::size_t state_words = YARDBOOK_STATE_WORDS;

// What a call is lent: the state, and behind it the pending buffer, which one kind of call uses.
inline constexpr std::size_t buffer_at = state_words, lent_words = state_words + YARDBOOK_BUFFER_WORDS;

// `nothing` has the calls of the others, empty: what calling costs by itself.
enum Engine : std::size_t { ours, plain_engine, second, nothing };
inline constexpr std::size_t engines = 3;
inline constexpr std::array<Engine, engines> all_engines{ours, plain_engine, second};

enum class Kind {
    open, vertex, vertex_with, first, timeout, timeouts, no_vote, propose, sign_no_vote, status, ask_leaders, ask_journal, hand_leaders,
    hand_journal
};
inline constexpr u32 call_kinds = static_cast<u32>(Kind::hand_journal) + 1;

struct Call {
    Kind kind;
    Record record{};
    u32 a = 0, b = 0;
    Digest digest{};
};

// Number, id and counts, and behind them a made record; a status; or a part. The rest is 0.
inline constexpr std::size_t said_record_at = 4;
using Said = std::array<u32, said_record_at + YARDBOOK_RECORD_WORDS>;

Said run(Engine engine, const Call& call, u32* words);

#endif
