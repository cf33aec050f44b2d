// The plain engine's calls: those of host/yardbook.h by another name.
#ifndef PLAIN_HPP
#define PLAIN_HPP

#include <cstddef>
#include <cstdint>

#include "../host/yardbook.h"

// Where the words of a state, of a record's body and of a pending buffer stand. Sizes, and where a record's words stand, are those of
// host/yardbook.h.
namespace plain {
constexpr std::uint32_t rounds = YARDBOOK_ROUNDS, slots = YARDBOOK_MEMBERS;
constexpr std::size_t members_at = 0, current_at = 1, committed_at = 2, leader_count_at = 3, journal_count_at = 4;
constexpr std::size_t own_at = 5, made_at = 6, signed_at = 7;
constexpr std::size_t masks_at = 8, kinds = 6;
constexpr std::size_t leaders_at = masks_at + kinds * rounds, leaders_size = rounds;
constexpr std::size_t journal_at = leaders_at + leaders_size, journal_size = rounds * slots, cells_at = journal_at + journal_size;
constexpr std::size_t round_at = YARDBOOK_RECORD_ROUND, source_at = YARDBOOK_RECORD_SOURCE, body_at = YARDBOOK_RECORD_STRONG;
constexpr std::size_t strong_at = 0, timeouts_at = YARDBOOK_RECORD_TIMEOUTS - body_at, no_votes_at = YARDBOOK_RECORD_NO_VOTES - body_at;
constexpr std::size_t digest_at = YARDBOOK_RECORD_DIGEST - body_at, digest_words = YARDBOOK_DIGEST_WORDS;
constexpr std::size_t weak_count_at = digest_at + digest_words, weak_at = weak_count_at + 1, weak_slots = YARDBOOK_WEAK_SLOTS;
constexpr std::size_t body_words = weak_at + weak_slots;
constexpr std::size_t buffer_count_at = 0, buffered_at = 1;
static_assert(body_at + body_words == YARDBOOK_RECORD_WORDS);
static_assert(cells_at + body_words * rounds * slots == YARDBOOK_STATE_WORDS);
static_assert(buffered_at + YARDBOOK_BUFFER_SLOTS * YARDBOOK_RECORD_WORDS == YARDBOOK_BUFFER_WORDS);
enum Mask { held, heard, votes, timeouts, no_votes, ordered };  // of a round
constexpr std::size_t mask_at(std::uint32_t round, Mask kind) { return masks_at + kinds * (round - 1) + kind; }
constexpr std::size_t cell_at(std::uint32_t round, std::uint32_t p) { return cells_at + body_words * (slots * (round - 1) + p); }
}  // namespace plain

yardbook_answer plain_open(std::uint32_t* state, std::size_t words, std::uint32_t n, std::uint32_t own);
yardbook_answer plain_take_vertex(std::uint32_t* state, std::size_t words, const std::uint32_t* record, std::size_t record_words);
yardbook_answer plain_take_vertex_with(std::uint32_t* state, std::size_t words, std::uint32_t* buffer, std::size_t buffer_words,
                                       const std::uint32_t* record, std::size_t record_words);
yardbook_answer plain_take_first_message(std::uint32_t* state, std::size_t words, const std::uint32_t* record,
                                   std::size_t record_words);
yardbook_answer plain_take_timeout(std::uint32_t* state, std::size_t words, std::uint32_t round, std::uint32_t signer);
yardbook_answer plain_take_timeouts(std::uint32_t* state, std::size_t words, std::uint32_t round, std::uint32_t signers);
yardbook_answer plain_take_no_vote(std::uint32_t* state, std::size_t words, std::uint32_t round, std::uint32_t signer);
yardbook_proposal plain_propose(std::uint32_t* state, std::size_t words, const std::uint32_t* digest);
yardbook_answer plain_sign_no_vote(std::uint32_t* state, std::size_t words);
yardbook_state_status plain_status(const std::uint32_t* state, std::size_t words);
yardbook_answer plain_ask_leaders(const std::uint32_t* state, std::size_t words, std::uint32_t k);
yardbook_answer plain_ask_journal(const std::uint32_t* state, std::size_t words, std::uint32_t k);
yardbook_part plain_hand_leaders(const std::uint32_t* state, std::size_t words, std::uint32_t k);
yardbook_part plain_hand_journal(const std::uint32_t* state, std::size_t words, std::uint32_t k);

#endif
