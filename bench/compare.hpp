// The engines compared on states and calls at random.
#ifndef COMPARE_HPP
#define COMPARE_HPP

// States grown at random over all rounds, with absent, late and early vertices, first messages, notes, bundles, few or many votes, and an
// own member that signs and proposes: the engines must agree at every call.
void compare_grown(int states);

// Random calls, good and bad, on states and buffers with and without damaged words: the engines must agree.
void compare_at_random(int calls);

#endif
