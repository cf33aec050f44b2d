#include "engines.hpp"

#include <algorithm>
#include <cstdlib>
#include <iterator>

#include "plain.hpp"

// The second implementation's calls: those of host/yardbook.h by another name.
extern "C" {
yardbook_answer reference_open(u32*, std::size_t, u32, u32);
yardbook_answer reference_take_vertex(u32*, std::size_t, const u32*, std::size_t);
yardbook_answer reference_take_vertex_with(u32*, std::size_t, u32*, std::size_t, const u32*, std::size_t);
yardbook_answer reference_take_first_message(u32*, std::size_t, const u32*, std::size_t);
yardbook_answer reference_take_timeout(u32*, std::size_t, u32, u32);
yardbook_answer reference_take_timeouts(u32*, std::size_t, u32, u32);
yardbook_answer reference_take_no_vote(u32*, std::size_t, u32, u32);
yardbook_proposal reference_propose(u32*, std::size_t, const u32*);
yardbook_answer reference_sign_no_vote(u32*, std::size_t);
yardbook_state_status reference_status(const u32*, std::size_t);
yardbook_answer reference_ask_leaders(const u32*, std::size_t, u32);
yardbook_answer reference_ask_journal(const u32*, std::size_t, u32);
yardbook_part reference_hand_leaders(const u32*, std::size_t, u32);
yardbook_part reference_hand_journal(const u32*, std::size_t, u32);
}

namespace {

[[gnu::noipa]] yardbook_answer nothing_open(u32*, std::size_t, u32, u32) { return {}; }
[[gnu::noipa]] yardbook_answer nothing_take_vertex(u32*, std::size_t, const u32*, std::size_t) { return {}; }
[[gnu::noipa]] yardbook_answer nothing_take_vertex_with(u32*, std::size_t, u32*, std::size_t, const u32*, std::size_t) { return {}; }
[[gnu::noipa]] yardbook_answer nothing_take_first_message(u32*, std::size_t, const u32*, std::size_t) { return {}; }
[[gnu::noipa]] yardbook_answer nothing_take_timeout(u32*, std::size_t, u32, u32) { return {}; }
[[gnu::noipa]] yardbook_answer nothing_take_timeouts(u32*, std::size_t, u32, u32) { return {}; }
[[gnu::noipa]] yardbook_answer nothing_take_no_vote(u32*, std::size_t, u32, u32) { return {}; }
[[gnu::noipa]] yardbook_proposal nothing_propose(u32*, std::size_t, const u32*) { return {}; }
[[gnu::noipa]] yardbook_answer nothing_sign_no_vote(u32*, std::size_t) { return {}; }
[[gnu::noipa]] yardbook_state_status nothing_status(const u32*, std::size_t) { return {}; }
[[gnu::noipa]] yardbook_answer nothing_ask_leaders(const u32*, std::size_t, u32) { return {}; }
[[gnu::noipa]] yardbook_answer nothing_ask_journal(const u32*, std::size_t, u32) { return {}; }
[[gnu::noipa]] yardbook_part nothing_hand_leaders(const u32*, std::size_t, u32) { return {}; }
[[gnu::noipa]] yardbook_part nothing_hand_journal(const u32*, std::size_t, u32) { return {}; }

Said said(yardbook_answer a) { return {a.number, a.id, a.leaders, a.journal}; }
Said said(const yardbook_proposal& p) {
    Said all = said(p.answer);
    std::copy(std::begin(p.record), std::end(p.record), all.begin() + said_record_at);
    return all;
}
Said said(yardbook_state_status s) { return {s.number, s.current_round, s.committed_round, s.leader_count, s.journal_count}; }
Said said(yardbook_part p) { return {p.number, p.start, p.length}; }

#define CALLS(prefix)                                                                                                     \
    u32 *state = words, *buffer = words + buffer_at;                                                                      \
    switch (call.kind) {                                                                                                  \
    case Kind::open: return said(prefix##open(state, state_words, call.a, call.b));                                       \
    case Kind::vertex: return said(prefix##take_vertex(state, state_words, call.record.data(), call.record.size()));      \
    case Kind::vertex_with:                                                                                               \
        return said(prefix##take_vertex_with(state, state_words, buffer, YARDBOOK_BUFFER_WORDS, call.record.data(),       \
                                             call.record.size()));                                                        \
    case Kind::first: return said(prefix##take_first_message(state, state_words, call.record.data(), call.record.size())); \
    case Kind::timeout: return said(prefix##take_timeout(state, state_words, call.a, call.b));                            \
    case Kind::timeouts: return said(prefix##take_timeouts(state, state_words, call.a, call.b));                          \
    case Kind::no_vote: return said(prefix##take_no_vote(state, state_words, call.a, call.b));                            \
    case Kind::propose: return said(prefix##propose(state, state_words, call.digest.data()));                             \
    case Kind::sign_no_vote: return said(prefix##sign_no_vote(state, state_words));                                       \
    case Kind::status: return said(prefix##status(state, state_words));                                                   \
    case Kind::ask_leaders: return said(prefix##ask_leaders(state, state_words, call.a));                                 \
    case Kind::ask_journal: return said(prefix##ask_journal(state, state_words, call.a));                                 \
    case Kind::hand_leaders: return said(prefix##hand_leaders(state, state_words, call.a));                               \
    case Kind::hand_journal: return said(prefix##hand_journal(state, state_words, call.a));                               \
    }                                                                                                                     \
    std::abort();

[[gnu::noipa]] Said call_ours(const Call& call, u32* words) { CALLS(yardbook_) }
[[gnu::noipa]] Said call_plain(const Call& call, u32* words) { CALLS(plain_) }
[[gnu::noipa]] Said call_second(const Call& call, u32* words) { CALLS(reference_) }
[[gnu::noipa]] Said call_nothing(const Call& call, u32* words) { CALLS(nothing_) }

}  // namespace

Said run(Engine engine, const Call& call, u32* words) {
    static constexpr std::array<Said (*)(const Call&, u32*), engines + 1> by{call_ours, call_plain, call_second, call_nothing};
    return by[engine](call, words);
}
