// Times each work by all contestants, which take turns in one process, so that what else the machine does meets all alike: the best of many rounds.
//   race [--rounds N]        a line for each contestant: work|contestant|nanoseconds for each item|nanoseconds a byte
//   race --count N           one round of the N-th contestant of all works, for callgrind, which counts in `counted`; prints work|contestant|items
//   race --list              the contestants, by their numbers
#include "race.hpp"

#include <chrono>
#include <cstdio>
#include <cstdlib>
#include <cstring>

extern "C" __attribute__((noinline)) uint64_t counted(const Contestant &c) { return c.round(); }

static double spent(const Contestant &c) {
    auto a = std::chrono::steady_clock::now();
    c.round();
    return std::chrono::duration<double>(std::chrono::steady_clock::now() - a).count();
}

int main(int count, char **words) {
    int rounds = 60, one = -1, number = 0;
    bool list = false;
    for (int i = 1; i < count; i++) {
        if (!strcmp(words[i], "--list")) list = true;
        if (i + 1 < count && !strcmp(words[i], "--rounds")) rounds = atoi(words[++i]);
        if (i + 1 < count && !strcmp(words[i], "--count")) one = atoi(words[++i]);
    }
    std::vector<Work> works;
    reading_works(works);
    lane_works(works);
    for (auto &w : works) {
        if (list || one >= 0) {
            for (auto &c : w.all) {
                if (one == number) c.round(), counted(c);
                if (list || one == number) printf("%d|%s|%s|%.0f\n", number, w.title.c_str(), c.name.c_str(), w.items);
                number++;
            }
            continue;
        }
        std::vector<double> best(w.all.size(), 1e9);
        uint64_t right = w.all[0].round();
        for (auto &c : w.all)
            if (!right || c.round() != right) printf("%s|%s|NOT THE SAME ANSWERS|\n", w.title.c_str(), c.name.c_str());
        for (int r = 0; r < rounds; r++)
            for (size_t i = 0; i < best.size(); i++) {
                w.all[i].round();  // so that none pays for what the one before it left in the caches
                double t = spent(w.all[i]);
                if (t < best[i]) best[i] = t;
            }
        for (size_t i = 0; i < best.size(); i++) printf("%s|%s|%.1f|%.3f\n", w.title.c_str(), w.all[i].name.c_str(), best[i] / w.items * 1e9, best[i] / w.bytes * 1e9);
        fflush(stdout);
    }
}
