// The states and calls that are timed.
#ifndef CASES_HPP
#define CASES_HPP

#include <string>
#include <vector>

#include "engines.hpp"

struct Case {
    std::string name;
    u32 n, rounds;  // members, and rounds that hold a vertex of each
    std::vector<u32> state;  // and behind it the pending buffer
    Call call;
    u32 number;  // that the call must answer
};

std::vector<Case> cases_of(u32 n, u32 rounds);

#endif
