// Checks a capture message by message with tryphomel_check, and prints the nanoseconds a byte: the best of five rounds.
#include <chrono>
#include <cstdint>
#include <cstdio>
#include <fstream>
#include <iterator>
#include <vector>

#include "../include/tryphomel.h"

int main(int, char **words) {
    std::ifstream file(words[1], std::ios::binary);
    std::vector<uint8_t> run((std::istreambuf_iterator<char>(file)), std::istreambuf_iterator<char>());
    double best = 1e30;
    for (int round = 0; round < 5; ++round) {
        auto from = std::chrono::steady_clock::now();
        size_t at = 0, messages = 0;
        for (;;) {
            tryphomel_checked c;
            uint8_t refusal = tryphomel_message_check(run.data() + at, run.size() - at, &c);
            if (refusal == TRYPHOMEL_MORE_NEEDED || refusal == TRYPHOMEL_MALFORMED || refusal == TRYPHOMEL_TOO_LONG) break;
            at += c.end;
            ++messages;
        }
        std::chrono::duration<double, std::nano> spent = std::chrono::steady_clock::now() - from;
        if (spent.count() / run.size() < best) best = spent.count() / run.size();
        if (messages == 0) return 1;
    }
    std::printf("%.3f\n", best);
}
