#include "stack.hpp"

#include <algorithm>
#include <cstdlib>

#include <ucontext.h>

namespace {

constexpr std::uint64_t paint = 0x9d3c5a7be1f04826;
constexpr std::size_t stack_size = 1 << 20;
alignas(64) std::array<std::uint64_t, stack_size / sizeof(std::uint64_t)> stack;

struct Job {
    Engine engine;
    const Call* call;
    u32* state;
    ucontext_t from, on;
} job;

void work() { run(job.engine, *job.call, job.state); }

// Bytes overwritten, from the stack's upper end down.
std::size_t overwritten(Engine engine, const Call& call, u32* state) {
    job.engine = engine;
    job.call = &call;
    job.state = state;
    stack.fill(paint);
    if (getcontext(&job.on) != 0) std::abort();
    job.on.uc_stack.ss_sp = stack.data();
    job.on.uc_stack.ss_size = stack_size;
    job.on.uc_link = &job.from;
    makecontext(&job.on, work, 0);
    if (swapcontext(&job.from, &job.on) != 0) std::abort();
    const auto lowest = std::find_if(stack.begin(), stack.end(), [](std::uint64_t word) { return word != paint; });
    return static_cast<std::size_t>(stack.end() - lowest) * sizeof(std::uint64_t);
}

}  // namespace

std::size_t stack_used(Engine engine, const Call& call, u32* state) {
    // The empty call uses its return address only.
    return overwritten(engine, call, state) - overwritten(nothing, call, state) + sizeof(void*);
}
