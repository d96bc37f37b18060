// Finds the Data Matrix symbols of a picture: ZXing looks at each place that is as dark and light as a symbol, libdmtx at what is
// left, and each symbol's modules are then sampled here.
#pragma once

#include "symbol.h"

#include <chrono>
#include <functional>

// When a search has to end.
using Clock = std::chrono::steady_clock;
using Deadline = Clock::time_point;

struct Tally {
    int found = 0;
    // The middles of symbols that were seen, and could not be sampled.
    std::vector<Point> lost;
    // The middles of symbols that are light on dark, which are not handed on.
    std::vector<Point> inverted;
    // How many different labels were read, where so many are expected.
    int labels = 0;
    // Whether time was up before all was looked at.
    bool is_late = false;
};

// Hands each symbol of a picture to `take` as it is found. If labels are expected, the search ends as soon as so many different ones were
// read; for 0 it looks everywhere.
Tally find_symbols(const Picture &picture, int expected, const std::function<void(const Symbol &)> &take);
