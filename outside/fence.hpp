// Memory that is fenced, and what the last bytes of an input choose: for the fuzzer of the calls for C.
#pragma once
#include <sys/mman.h>
#include <unistd.h>

#include <algorithm>
#include <cstdint>
#include <cstdio>
#include <cstdlib>
#include <cstring>
#include <string>

#include "../include/tryphomel.h"

const size_t LIMIT = 65536;

inline void expect(bool good, const char *what) {
    if (good) return;
    fprintf(stderr, "does not hold: %s\n", what);
    abort();
}

// Memory between two pages that nobody may touch. What is not lent is filled, and looked at again.
class Fence {
   public:
    Fence() : page((size_t)sysconf(_SC_PAGESIZE)), size(1 << 18) {
        void *all = mmap(nullptr, size + 2 * page, PROT_NONE, MAP_PRIVATE | MAP_ANONYMOUS, -1, 0);
        expect(all != MAP_FAILED, "there is memory");
        base = (uint8_t *)all + page;
        expect(mprotect(base, size, PROT_READ | PROT_WRITE) == 0, "memory can be used");
    }

    // Room for n bytes, against the page behind them or the page before them.
    uint8_t *lend(size_t n, bool high) {
        lent = high ? base + size - n : base;
        count = n;
        memset(side(), FILL, SIDE);
        return lent;
    }

    bool side_kept() { return std::all_of(side(), side() + SIDE, [](uint8_t b) { return b == FILL; }); }

   private:
    static const size_t SIDE = 256;
    static const uint8_t FILL = 0xa5;
    size_t page, size, count = 0;
    uint8_t *base = nullptr, *lent = nullptr;
    uint8_t *side() { return lent == base ? lent + count : lent - SIDE; }
};

// What the last bytes of an input choose.
struct Dials {
    uint8_t there, stretch, flags;
    uint64_t start, length;
    size_t room;
    uint8_t side, state, ids;
    size_t out;
    uint8_t forecast;
};

inline Dials take_dials(const uint8_t *data, size_t &size) {
    uint8_t d[15] = {0};
    size_t n = std::min(size, sizeof d);
    size -= n;
    memcpy(d, data + size, n);
    Dials x{d[0],  d[1],  d[2], (uint64_t)(d[3] | d[4] << 8), (uint64_t)(d[5] | d[6] << 8), (size_t)(d[7] | d[8] << 8), d[9],
            d[10], d[11], (size_t)(d[12] | d[13] << 8) % 8192, d[14]};
    if (x.flags & 1) x.start = UINT64_MAX - x.start;
    if (x.flags & 2) x.length = UINT64_MAX - x.length;
    if (x.flags & 4) x.room %= 8;
    if (x.flags & 16) x.out %= 128;
    if ((x.flags & 8) && size) x.start %= size + 2, x.length %= size + 2;
    return x;
}

// The input, sometimes stretched by glue to sizes around the limit.
inline std::string stretched(const uint8_t *data, size_t size, const Dials &d) {
    std::string s((const char *)data, size);
    size_t at = s.find('>');
    if (d.stretch % 16 == 1 && at != std::string::npos && size < LIMIT) s.insert(at + 1, LIMIT - 4 - size + d.stretch / 16, ' ');
    return s;
}

struct Read {
    unsigned answer;
    uint64_t start, place;
};
