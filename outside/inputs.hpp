// Inputs made at random: messages, widened or damaged, with glue and other messages around them.
#pragma once
#include "damage.hpp"
#include "make.hpp"
#include "random.hpp"

// A case depends on the seed and its number alone.
inline Random random_of(uint64_t seed, uint64_t number) { return Random{(seed << 32) ^ number}; }

inline Bytes glue(Random &r) {
    static const char bytes[] = {' ', '\t', '\r', '\n'};
    Bytes s;
    for (unsigned n = r.below(4); n; n--) s += r.of(bytes);
    return s;
}

// A message, or one that is widened or damaged.
inline Made message(Random &r) {
    Made m = Maker(r, r.one_in(12) ? widened(r) : Wide()).message();
    if (r.one_in(2000)) stretch(r, m, r.from_to(65530, 65542));
    if (r.one_in(16)) add_foreign(r, m);
    if (r.one_in(2)) return m;
    for (unsigned n = r.one_in(4) ? r.from_to(2, 4) : 1; n; n--) damage(r, m);
    return m;
}

inline Bytes input(Random &r) {
    Bytes s = message(r).bytes;
    if (r.one_in(8)) s = glue(r) + s;
    if (r.one_in(8)) s += r.one_in(2) ? glue(r) + message(r).bytes : piece(r);
    return s;
}
