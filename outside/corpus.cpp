// Writes cases for outside/answers.c: corpus CASES SEED. The inputs are those of outside/run with the same seed. A case is the input's length in
// four bytes, the lowest first, the input, and 16 bytes that choose what else a call is given.
#include <cstdio>
#include <cstdlib>

#include "inputs.hpp"

int main(int count, char **words) {
    unsigned long cases = count > 1 ? strtoul(words[1], nullptr, 10) : 100000;
    unsigned long seed = count > 2 ? strtoul(words[2], nullptr, 10) : 1;
    for (unsigned long i = 0; i < cases; i++) {
        Random r = random_of(seed, i);
        Bytes in = input(r);
        for (unsigned n = 0; n < 4; n++) putchar((int)(in.size() >> (8 * n) & 255));
        fwrite(in.data(), 1, in.size(), stdout);
        for (unsigned n = 0; n < 16; n++) putchar((int)r.below(256));
    }
    return ferror(stdout) != 0;
}
