// What contestants do in turn: the first is this library.
#pragma once
#include <cstdint>
#include <functional>
#include <string>
#include <vector>

// A round of all items; what it came to, which must be the same for all, or 0 where it failed.
struct Contestant {
    std::string name;
    std::function<uint64_t()> round;
};

struct Work {
    std::string title;
    double items, bytes;
    std::vector<Contestant> all;
};

void reading_works(std::vector<Work> &);
void lane_works(std::vector<Work> &);
