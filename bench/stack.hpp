// How much stack a call uses.
#ifndef STACK_HPP
#define STACK_HPP

#include "engines.hpp"

// Runs the call on a painted stack of its own: the bytes from the call's return address down to the lowest one overwritten.
std::size_t stack_used(Engine engine, const Call& call, u32* state);

#endif
