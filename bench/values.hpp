// Ints, positive numbers and ids as a program would read them by hand from what an XML parser hands out.
#pragma once
#include <cstddef>
#include <cstdint>
#include <cstring>

inline bool is_blank(char c) { return c == ' ' || c == '\t' || c == '\r' || c == '\n'; }

inline void trim(const char *&a, const char *&e) {
    while (a < e && is_blank(*a)) a++;
    while (a < e && is_blank(e[-1])) e--;
}

inline bool to_int(const char *a, const char *e, unsigned lo, unsigned hi, unsigned &out) {
    trim(a, e);
    bool minus = a < e && *a == '-';
    if (a < e && (*a == '-' || *a == '+')) a++;
    if (a == e) return false;
    unsigned n = 0;
    for (; a < e; a++) {
        if (*a < '0' || *a > '9') return false;
        n = n > 65535 ? n : n * 10 + (unsigned)(*a - '0');
    }
    out = n;
    return n >= lo && n <= hi && !(minus && n);
}

inline bool to_millionths(const char *a, const char *e, uint64_t &out) {
    trim(a, e);
    if (a < e && *a == '+') a++;
    uint64_t n = 0;
    unsigned digits = 0, scale = 0;
    bool point = false;
    for (; a < e; a++) {
        if (*a == '.') {
            if (point) return false;
            point = true;
            continue;
        }
        if (*a < '0' || *a > '9') return false;
        digits++;
        if (point) {
            if (scale == 6) {
                if (*a != '0') return false;
                continue;
            }
            scale++;
        } else if (n > 999999) {
            return false;
        }
        n = n * 10 + (uint64_t)(*a - '0');
    }
    for (; scale < 6; scale++) n *= 10;
    out = n;
    return digits && n;
}

inline bool to_guid(const char *a, size_t n, char *out) {
    if (n != 36) return false;
    for (size_t i = 0; i < 36; i++) {
        bool hyphen = i == 8 || i == 13 || i == 18 || i == 23;
        if (hyphen ? a[i] != '-' : !((a[i] >= '0' && a[i] <= '9') || (a[i] >= 'a' && a[i] <= 'f'))) return false;
    }
    memcpy(out, a, 36);
    return true;
}
