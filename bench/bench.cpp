// Times each call of three engines on the same words: the library, the plain engine, and the second implementation.
// Answers and all words are compared in every case, and while the states are built.
//
//     bench [--quick] [--short] picture.svg
#include <algorithm>
#include <array>
#include <chrono>
#include <cmath>
#include <cstdio>
#include <cstdlib>
#include <optional>
#include <string>
#include <string_view>
#include <vector>

#include <x86intrin.h>

#include "builder.hpp"
#include "cases.hpp"
#include "compare.hpp"
#include "picture.hpp"
#include "stack.hpp"

namespace {

constexpr std::array<u32, 4> fullness{0, 8, 16, 31};

std::uint64_t ticks() {
    unsigned aux;
    _mm_lfence();
    const std::uint64_t t = __rdtscp(&aux);
    _mm_lfence();
    return t;
}

double ticks_per_ns() {
    const auto from = std::chrono::steady_clock::now();
    const std::uint64_t t = ticks();
    while (std::chrono::steady_clock::now() - from < std::chrono::milliseconds(50)) {}
    const std::chrono::duration<double, std::nano> ns = std::chrono::steady_clock::now() - from;
    return static_cast<double>(ticks() - t) / ns.count();
}

using Samples = std::vector<std::uint64_t>;

double median(Samples& v) {
    const auto middle = v.begin() + static_cast<std::ptrdiff_t>(v.size() / 2);
    std::nth_element(v.begin(), middle, v.end());
    return static_cast<double>(*middle);
}

alignas(64) u32 words[lent_words];  // what the engines are lent

struct Timed {
    Case c;
    Said answer;
    std::vector<std::size_t> changed;  // the words that the call changes
    std::array<Samples, engines + 1> samples;
    std::array<double, engines> ns{};

    explicit Timed(Case its) : c(std::move(its)) {
        std::vector<u32> after = c.state;
        answer = agreed(c.call, after, true);
        if (answer[0] != c.number) {
            std::fprintf(stderr, "bench: %s, n = %u, %u rounds: answered %u\n", c.name.c_str(), c.n, c.rounds, answer[0]);
            std::exit(1);
        }
        for (std::size_t i = 0; i < lent_words; ++i)
            if (after[i] != c.state[i]) changed.push_back(i);
    }

    // Runs one call and says how long it took. The words that it changes are put back after it, untimed, so that each call starts
    // from the same words.
    std::uint64_t once(Engine engine) {
        const std::uint64_t from = ticks();
        const Said said = run(engine, c.call, words);
        const std::uint64_t to = ticks();
        if (engine != nothing && said != answer) fail();
        for (const std::size_t i : changed) words[i] = c.state[i];
        return to - from;
    }

    // The same call by the same engine runs just before, so that code and words are warm for all alike.
    void sample(Engine engine) {
        once(engine);
        samples[engine].push_back(once(engine));
    }

    // The order of the library and the plain engine alternates. The second implementation is slow and runs every 8th time.
    void measure(int times) {
        std::copy(c.state.begin(), c.state.end(), words);
        for (int i = 0; i < times; ++i) {
            sample(i % 2 == 0 ? ours : plain_engine);
            sample(i % 2 == 0 ? plain_engine : ours);
            if (i % 8 != 0) continue;
            sample(second);
            sample(nothing);
        }
        if (!std::equal(c.state.begin(), c.state.end(), words)) fail();
    }

    // One call of the library, warm, whatever was timed before.
    std::uint64_t alone() {
        std::copy(c.state.begin(), c.state.end(), words);
        once(ours);
        return once(ours);
    }

    [[noreturn]] void fail() const {
        std::fprintf(stderr, "bench: %s, n = %u, %u rounds: an engine differs\n", c.name.c_str(), c.n, c.rounds);
        std::exit(1);
    }
};

// The single calls that a call stands for: the timeouts of a bundle, or the vertex and all that waits in the buffer.
std::vector<Call> single_calls(const Case& c) {
    std::vector<Call> singly;
    if (c.call.kind == Kind::timeouts) {
        for (u32 p = 0; p < c.n; ++p)
            if (c.call.b >> p & 1) singly.push_back({Kind::timeout, {}, c.call.a, p});
        return singly;
    }
    singly.push_back({Kind::vertex, c.call.record});
    const u32* at = c.state.data() + buffer_at;
    for (u32 left = *at++; left != 0; --left, at += YARDBOOK_RECORD_WORDS) {
        singly.push_back({Kind::vertex});
        std::copy_n(at, YARDBOOK_RECORD_WORDS, singly.back().record.begin());
    }
    return singly;
}

// The library's costs of a call that stands for several, of one such as these, and of all of them one after the other, on the same words.
struct Together {
    Timed &together, &single;
    std::vector<Call> singly;
    Samples joint, one, each, empty;

    // Each single call is admitted, and they add to the lists and leave in the state what the one call does.
    Together(Timed& its, Timed& such) : together(its), single(such), singly(single_calls(its.c)) {
        std::vector<u32> by_one = its.c.state, by_each = its.c.state;
        run(ours, its.c.call, by_one.data());
        Said sum{};
        for (const Call& call : singly) {
            const Said said = run(ours, call, by_each.data());
            for (std::size_t i = 0; i < sum.size(); ++i) sum[i] += said[i];
        }
        if (sum == its.answer && std::equal(by_one.begin(), by_one.begin() + state_words, by_each.begin())) return;
        std::fprintf(stderr, "bench: %s, n = %u, %u rounds: single calls do not end as it does\n", its.c.name.c_str(), its.c.n, its.c.rounds);
        std::exit(1);
    }

    std::uint64_t once(Engine engine) const {
        const std::uint64_t from = ticks();
        for (const Call& call : singly) run(engine, call, words);
        const std::uint64_t to = ticks();
        for (const std::size_t i : together.changed) words[i] = together.c.state[i];
        return to - from;
    }

    std::uint64_t alone(Engine engine) const {
        std::copy(together.c.state.begin(), together.c.state.end(), words);
        once(engine);
        return once(engine);
    }

    // In turn, so that whatever slows the machine slows all of them. The order of the first two alternates.
    void measure(int times) {
        for (int i = 0; i < times; ++i) {
            if (i % 2 == 0) joint.push_back(together.alone());
            one.push_back(single.alone());
            if (i % 2 != 0) joint.push_back(together.alone());
            each.push_back(alone(ours));
            empty.push_back(alone(nothing));
        }
    }
};

// Less than the timer can tell.
constexpr double least_ns = 10;

std::string cost(double ns) { return ns < least_ns ? "< 10" : std::to_string(std::lround(ns)); }

std::string ratio(double a, double b) {
    if (a < least_ns || b < least_ns) return "-";
    std::array<char, 32> text{};
    std::snprintf(text.data(), text.size(), "%.2f", a / b);
    return text.data();
}

void print_table(const std::vector<Timed>& all) {
    std::puts("| call                            |  n | full rounds | library, ns | plain C++, ns | second, ns | library / plain | library / second |\n"
              "|:--------------------------------|---:|------------:|------------:|--------------:|-----------:|----------------:|-----------------:|");
    for (const Timed& t : all) {
        const double our = t.ns[ours], plain = t.ns[plain_engine], its = t.ns[second];
        std::printf("| %-31s | %2u | %11u | %11s | %13s | %10s | %15s | %16s |\n", t.c.name.c_str(), t.c.n, t.c.rounds,
                    cost(our).c_str(), cost(plain).c_str(), cost(its).c_str(), ratio(our, plain).c_str(), ratio(our, its).c_str());
    }
}

template <class List>
auto find(List& all, std::string_view name, u32 n, u32 rounds) -> decltype(&all.front()) {
    const auto it = std::find_if(all.begin(), all.end(),
                                 [&](const Timed& t) { return t.c.name == name && t.c.n == n && t.c.rounds == rounds; });
    return it == all.end() ? nullptr : &*it;
}

void print_cell(const Timed* t) {
    if (t == nullptr) {
        std::printf(" - | - |");
        return;
    }
    const double our = t->ns[ours], plain = t->ns[plain_engine], its = t->ns[second];
    std::printf(" %s / %s / %s | %s, %s |", cost(our).c_str(), cost(plain).c_str(), cost(its).c_str(), ratio(our, plain).c_str(),
                ratio(our, its).c_str());
}

// A row for each n and the calls that differ much, with the emptiest and the fullest state.
void print_short_table(const std::vector<Timed>& all) {
    static constexpr std::array<std::string_view, 34> names{
        "open", "open: 2", "vertex", "vertex: 12", "vertex: 13", "vertex: 14", "vertex, commits", "vertex, commits by both", "vertex, commits all",
        "vertex with buffer", "vertex with buffer, 32 stay", "vertex with buffer, releases 32", "vertex with buffer: 12",
        "vertex with buffer: 14", "vertex with buffer: 19", "vertex with buffer: 20",
        "first message", "first message: 12", "timeout", "timeout: 12", "timeouts", "timeouts: 12", "no-vote", "no-vote: 12",
        "propose", "propose, weak ids", "propose: 12", "sign no-vote",
        "status", "status: 3", "ask journal", "ask journal: 15", "hand journal", "hand journal: 15"};
    std::puts("| call | n | 0 full rounds: library / plain / second, ns | ratios | 31 full rounds | ratios |");
    std::puts("|:--|--:|:--|:--|:--|:--|");
    for (const std::string_view name : names)
        for (const u32 n : member_counts) {
            std::printf("| %.*s | %u |", static_cast<int>(name.size()), name.data(), n);
            print_cell(find(all, name, n, fullness.front()));
            print_cell(find(all, name, n, fullness.back()));
            std::puts("");
        }
}

// What a full round adds to a call, from the emptiest state that the call is timed on to the fullest.
struct Growth {
    double our = 0, plain = 0;  // ns a round
};

std::optional<Growth> growth(const std::vector<Timed>& all, std::string_view name, u32 n) {
    const Timed *from = nullptr, *to = nullptr;
    for (const u32 rounds : fullness)
        if (const Timed* t = find(all, name, n, rounds)) (from == nullptr ? from : to) = t;
    if (to == nullptr) return {};
    const double added = to->c.rounds - from->c.rounds;
    return Growth{(to->ns[ours] - from->ns[ours]) / added, (to->ns[plain_engine] - from->ns[plain_engine]) / added};
}

// Opening writes every word of any state, and each released vertex has the rounds above the full ones looked through, fewer the more are full:
// there a full round adds less than the timer can tell, or takes off.
constexpr double least_growth = 5;

bool tells(const std::optional<Growth>& g) { return g && g->our >= least_growth && g->plain >= least_growth; }

void print_growth(const std::vector<Timed>& all) {
    std::puts("\nWhat a full round adds to a call, library / plain C++ in ns, and the ratio:\n");
    std::printf("| call |");
    for (const u32 n : member_counts) std::printf(" n = %u |", n);
    std::printf("\n|:--|");
    for (std::size_t i = 0; i < member_counts.size(); ++i) std::printf(":--|");
    std::vector<std::string> names;
    for (const Timed& t : all)
        if (std::find(names.begin(), names.end(), t.c.name) == names.end()) names.push_back(t.c.name);
    for (const std::string& name : names) {
        std::printf("\n| %s |", name.c_str());
        for (const u32 n : member_counts) {
            const std::optional<Growth> g = growth(all, name, n);
            if (!tells(g)) std::printf(" - |");
            else std::printf(" %.0f / %.0f, %.2f |", g->our, g->plain, g->our / g->plain);
        }
    }
    std::puts("");
}

// Status reads every word of the state and changes none.
void print_words_cost(const std::vector<Timed>& all) {
    std::puts("\nWhat the words of a state cost: status, and its ns for 1,000 of them:\n\n"
              "|  n | full rounds | words | library, ns | for 1,000 words | plain C++, ns | for 1,000 words | library / plain |\n"
              "|---:|------------:|------:|------------:|----------------:|--------------:|----------------:|----------------:|");
    for (const u32 n : {member_counts.front(), member_counts.back()})
        for (const u32 rounds : {fullness.front(), fullness.back()}) {
            const Timed* t = find(all, "status", n, rounds);
            const double our = t->ns[ours], plain = t->ns[plain_engine], thousands = state_words / 1000.0;
            std::printf("| %2u | %11u | %5zu | %11s | %15.1f | %13s | %15.1f | %15s |\n", n, rounds, state_words, cost(our).c_str(),
                        our / thousands, cost(plain).c_str(), plain / thousands, ratio(our, plain).c_str());
        }
}

// How many rows are above the limit, and the largest ratios.
void print_summary(const std::vector<Timed>& all) {
    static constexpr double limit = 1.05;
    int rows = 0, above = 0, steeper = 0;
    double largest = 0, steepest = 0;
    for (const Timed& t : all) {
        if (t.ns[ours] < least_ns || t.ns[plain_engine] < least_ns) continue;
        const double r = t.ns[ours] / t.ns[plain_engine];
        ++rows;
        above += r > limit;
        largest = std::max(largest, r);
        if (t.c.rounds != fullness.back()) continue;
        const std::optional<Growth> g = growth(all, t.c.name, t.c.n);
        if (!tells(g)) continue;
        steeper += g->our > limit * g->plain;
        steepest = std::max(steepest, g->our / g->plain);
    }
    std::printf("\nRows: %d. Slower than the plain engine by a ratio above %.2f: %d; largest ratio %.2f. "
                "Growth steeper by a ratio above %.2f: %d; largest ratio %.2f.\n",
                rows, limit, above, largest, limit, steeper, steepest);
}

// What a call costs beside a vertex, on the same words but, for propose, the own member's. The two calls alternate, so that whatever slows
// the machine slows both.
void print_beside_vertex(std::vector<Timed>& all, const char* name, u32 n, int times, double timer, double per_ns) {
    std::printf("\nLibrary, %s / vertex on the same state, the two calls in turn, n = %u:", name, n);
    for (const u32 rounds : fullness) {
        Timed *call = find(all, name, n, rounds), *vertex = find(all, "vertex", n, rounds);
        Samples calling, taking;
        for (int i = 0; i < times; ++i) {
            calling.push_back(call->alone());
            taking.push_back(vertex->alone());
        }
        const double called = (median(calling) - timer) / per_ns, taken = (median(taking) - timer) / per_ns;
        std::printf("%s %s with %u full rounds", rounds == fullness.front() ? "" : ",", ratio(called, taken).c_str(), rounds);
    }
    std::puts(".");
}

// For each n, with the emptiest state and the fullest one that the call is timed on.
std::vector<Together> several_of(std::vector<Timed>& all) {
    std::vector<Together> several;
    auto add = [&](const char* name, const char* single, u32 n) {
        std::vector<u32> timed;
        for (const u32 rounds : fullness)
            if (find(all, name, n, rounds) != nullptr) timed.push_back(rounds);
        for (const u32 rounds : {timed.front(), timed.back()})
            several.emplace_back(*find(all, name, n, rounds), *find(all, single, n, rounds));
    };
    for (const u32 n : member_counts) add("timeouts", "timeout", n);
    for (const u32 n : member_counts) add("vertex with buffer, releases 32", "vertex", n);
    return several;
}

// Off the single calls, one after the other, goes the cost of as many empty calls.
void print_several(std::vector<Together>& several, Kind kind, const char* head, double timer, double per_ns) {
    std::printf("\nLibrary, %s\n|---:|------------:|-------------:|----------------:|----------------:|---------------:|--------------:|\n", head);
    for (Together& t : several) {
        if (t.together.c.call.kind != kind) continue;
        const double joint = (median(t.joint) - timer) / per_ns, one = (median(t.one) - timer) / per_ns;
        const double each = (median(t.each) - median(t.empty)) / per_ns;
        std::printf("| %2u | %11u | %12s | %15s | %15s | %14s | %13s |\n", t.together.c.n, t.together.c.rounds, cost(joint).c_str(),
                    cost(one).c_str(), cost(each).c_str(), ratio(joint, one).c_str(), ratio(joint, each).c_str());
    }
}

std::vector<Panel> panels(const std::vector<Timed>& all) {
    struct Shown {
        const char *name, *text;
    };
    static constexpr std::array<Shown, 3> shown{{
        {"status", "status"},
        {"vertex", "vertex, admitted"},
        {"vertex, commits all", "vertex that commits all rounds"},
    }};
    std::vector<Panel> made;
    for (const Shown& s : shown)
        for (const u32 n : {4u, 16u}) {
            Panel panel{std::string(s.text) + ", n = " + std::to_string(n), {}};
            for (const u32 rounds : fullness)
                if (const Timed* t = find(all, s.name, n, rounds)) panel.points.push_back({rounds, t->ns});
            made.push_back(std::move(panel));
        }
    return made;
}

void print_stack() {
    std::array<std::size_t, engines> most{};
    std::array<std::string, engines> by;
    for (const u32 rounds : fullness)
        for (const Case& c : cases_of(16, rounds))
            for (const Engine e : all_engines) {
                std::copy(c.state.begin(), c.state.end(), words);
                const std::size_t used = stack_used(e, c.call, words);
                if (used <= most[e]) continue;
                most[e] = used;
                by[e] = c.name;
            }
    std::printf("\nDeepest stack of a call, every call on states with n = 16 and 0 to 31 full rounds: library %zu bytes (%s), "
                "plain C++ %zu bytes (%s), second implementation %zu bytes (%s).\n",
                most[ours], by[ours].c_str(), most[plain_engine], by[plain_engine].c_str(), most[second], by[second].c_str());
}

std::vector<Timed> timed_cases() {
    std::vector<Timed> all;
    for (const u32 n : member_counts)
        for (const u32 rounds : fullness)
            for (Case& c : cases_of(n, rounds)) all.emplace_back(std::move(c));
    return all;
}

// The answer is what an empty call takes with the timer, in ticks.
double measure_all(std::vector<Timed>& all, std::vector<Together>& several, int passes, int times, double per_ns) {
    // Passes over all cases, so that a disturbance meets only some samples of a case.
    for (int pass = 0; pass < passes; ++pass) {
        for (Timed& t : all) t.measure(times);
        for (Together& t : several) t.measure(times);
    }
    Samples empty;
    for (const Timed& t : all) empty.insert(empty.end(), t.samples[nothing].begin(), t.samples[nothing].end());
    const double timer = median(empty);
    for (Timed& t : all)
        for (const Engine e : all_engines) t.ns[e] = std::max(0.0, median(t.samples[e]) - timer) / per_ns;
    return timer;
}

void print_tables(std::vector<Timed>& all, std::vector<Together>& several, bool brief, int calls, double timer, double per_ns) {
    if (brief) print_short_table(all);
    else print_table(all);
    print_growth(all);
    print_summary(all);
    print_words_cost(all);
    print_beside_vertex(all, "propose", member_counts.back(), calls, timer, per_ns);
    for (const u32 n : {member_counts.front(), member_counts.back()})
        print_beside_vertex(all, "vertex with buffer", n, calls, timer, per_ns);
    print_several(several, Kind::timeouts,
                  "a bundle of n timeouts / one timeout / n timeouts one after the other, on the same state, in turn:\n\n"
                  "|  n | full rounds |   bundle, ns | one timeout, ns |  n timeouts, ns |   bundle / one |    bundle / n |",
                  timer, per_ns);
    print_several(several, Kind::vertex_with,
                  "a vertex that releases 32 buffered ones / one vertex / the 33 one after the other, on the same state, in turn:\n\n"
                  "|  n | full rounds | releases, ns |  one vertex, ns | 33 vertices, ns | releases / one | releases / 33 |",
                  timer, per_ns);
    std::printf("\nMedians of %d calls of the library and of the plain engine, and %d of the second implementation, interleaved. "
                "The words are warm: each timed call follows the same call by the same engine on the same words. "
                "The cost of an empty call, %.0f ns with the timer, is taken off each. "
                "A number after a call's name is the refusal that it answers; timeouts takes a bundle of all n members. "
                "With 13, the digest differs in its eighth word alone. "
                "The buffer of vertex with buffer is empty where nothing else is said; with 12, 13, 19 and 20 it is full, and with 14 "
                "the 31 others move.\n",
                calls, calls / 8, timer / per_ns);
}

}  // namespace

int main(int argc, char** argv) {
    bool quick = false, brief = false;
    std::string picture;
    for (int i = 1; i < argc; ++i) {
        const std::string_view word = argv[i];
        if (word == "--quick") quick = true;
        else if (word == "--short") brief = true;
        else picture = word;
    }
    if (picture.empty()) {
        std::fputs("usage: bench [--quick] [--short] picture.svg\n", stderr);
        return 2;
    }
    compare_at_random(3000);
    compare_grown(120);
    const double per_ns = ticks_per_ns();
    std::vector<Timed> all = timed_cases();
    std::vector<Together> several = several_of(all);
    const int passes = quick ? 3 : 11, times = quick ? 24 : 64;
    const double timer = measure_all(all, several, passes, times, per_ns);
    print_tables(all, several, brief, passes * times, timer, per_ns);
    print_stack();
    if (!write_picture(picture, panels(all))) {
        std::fprintf(stderr, "bench: cannot write %s\n", picture.c_str());
        return 1;
    }
    return 0;
}
