// Random numbers from a seed: the same seed gives the same numbers everywhere.
#pragma once
#include <cstdint>

struct Random {
    uint64_t state;

    uint64_t next() {
        uint64_t z = (state += 0x9e3779b97f4a7c15u);
        z = (z ^ (z >> 30)) * 0xbf58476d1ce4e5b9u;
        z = (z ^ (z >> 27)) * 0x94d049bb133111ebu;
        return z ^ (z >> 31);
    }

    // A number from 0 to n - 1.
    unsigned below(uint64_t n) { return (unsigned)(next() % n); }

    // A number from a to b.
    unsigned from_to(unsigned a, unsigned b) { return a + below(b - a + 1); }

    // True once in n times.
    bool one_in(unsigned n) { return below(n) == 0; }

    template <typename T, unsigned long N>
    const T &of(const T (&list)[N]) {
        return list[below(N)];
    }
};
