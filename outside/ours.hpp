// This library's calls, as the driver uses them, and the tree of an accepted message by them.
#pragma once
#include <algorithm>
#include <cstdint>
#include <string>
#include <utility>
#include <vector>

#include "../include/tryphomel.h"
#include "judge.hpp"
#include "make.hpp"
#include "peers.hpp"

// Answer 0: start and end of a message. 1: start. 2: start and place. 3: start.
struct Answer {
    unsigned number;
    size_t start, place;
    bool operator==(const Answer &o) const { return number == o.number && start == o.start && place == o.place; }
};

inline Answer read(const char *bytes, size_t length) {
    uint64_t start = 0, place = 0;
    unsigned n = tryphomel_read((const uint8_t *)bytes, length, &start, &place);
    return {n, (size_t)start, (size_t)place};
}

// The messages of a stream, each with its first byte and one past its last, and the answer behind them. All places count from the stream's start.
struct Cuts {
    std::vector<std::pair<size_t, size_t>> parts;
    Answer last;
    bool operator==(const Cuts &o) const { return parts == o.parts && last == o.last; }
};

inline Answer moved(Answer a, size_t by) { return {a.number, a.start + by, a.number == 1 || a.number == 3 ? 0 : a.place + by}; }

inline Cuts cuts_of_whole(const Bytes &s) {
    Cuts c;
    for (size_t at = 0;; at = c.last.place) {
        c.last = moved(read(s.data() + at, s.size() - at), at);
        if (c.last.number != 0) return c;
        c.parts.push_back({c.last.start, c.last.place});
    }
}

// The same stream, run by run: a buffer that grows by some bytes and loses what is used, and sometimes its glue.
inline Cuts cuts_by_runs(Random &r, const Bytes &s) {
    Cuts c;
    Bytes held;
    size_t dropped = 0, given = 0, most = r.one_in(3) ? 3 : r.one_in(2) ? 40 : 2000;
    auto drop = [&](size_t n) { held.erase(0, n), dropped += n; };
    for (;;) {
        Answer a = read(held.data(), held.size());
        c.last = moved(a, dropped);
        if (a.number == 0) {
            c.parts.push_back({c.last.start, c.last.place});
            drop(a.place);
        } else if (a.number > 1 || given == s.size()) {
            return c;
        } else {
            if (r.one_in(2)) drop(a.start);
            size_t n = std::min<size_t>(s.size() - given, 1 + r.below(most));
            held.append(s, given, n);
            given += n;
        }
    }
}

// The raw value at a place, as the library reads it. Anything but a text is told as a word no peer says.
inline Bytes text_at(const Bytes &in, size_t at, size_t length) {
    static std::vector<uint8_t> scratch(65536, 0x5a);
    uint64_t place = 9, from = 9, count = 9;
    unsigned n = tryphomel_text((const uint8_t *)in.data(), in.size(), 1, at, length, scratch.data(), scratch.size(), &place, &from, &count);
    if (n != 0) return Bytes("\1refused ") + std::to_string(n);
    if (place == 1 && from == at && count == length) return in.substr(at, length);
    if (place != 2 || from != 0 || count >= scratch.size()) return "\1wrong place";
    if (scratch[count] != 0x5a) return "\1scratch changed behind the text";
    Bytes text((const char *)scratch.data(), count);
    std::fill_n(scratch.begin(), count, 0x5a);
    return text;
}

// What a cell of a row of that type says.
inline Value value_in(const Bytes &in, char type, const tryphomel_words &cell) {
    if (is_text(type) && cell.there) return {cell.there, 0, 0, text_at(in, cell.start, cell.len)};
    return {cell.there, cell.start, cell.len, ""};
}

// What a message says, of which its bytes are a part of `in`.
inline Verdict said_in(const Bytes &in, unsigned refusal, const tryphomel_message &m) {
    Verdict v;
    v.refusal = refusal;
    v.kind = m.kind;
    v.id.assign((const char *)m.id, sizeof m.id);
    size_t rows = m.kind >= 1 && m.kind <= table().size() ? table()[m.kind - 1].columns.size() : 0;
    for (size_t i = 0; i < TRYPHOMEL_CELLS; i++) v.values[i] = value_in(in, i < rows ? table()[m.kind - 1].columns[i].type : 'c', m.as.cells[i]);
    return v;
}

inline bool is_glue(char c) { return c == ' ' || c == '\t' || c == '\r' || c == '\n'; }

// Walks over an accepted message. It is right for these alone: a `<` that begins no comment begins a tag.
struct Walk {
    const Bytes &in;
    size_t at;
    Tree tree;

    void glue() {
        while (is_glue(in[at])) at++;
    }

    // To the next tag.
    void filler() {
        for (;;) {
            while (in[at] != '<') at++;
            if (in.compare(at, 4, "<!--") != 0) return;
            at = in.find("-->", at + 4) + 3;
        }
    }

    Bytes name() {
        size_t from = at;
        while (!is_glue(in[at]) && in[at] != '=' && in[at] != '/' && in[at] != '>') at++;
        return in.substr(from, at - from);
    }

    void attribute() {
        Bytes n = name();
        word(tree, ' ', n.data(), n.size());
        glue();
        at++;
        glue();
        size_t from = at + 1, to = in.find(in[at], from);
        Bytes text = text_at(in, from, to - from);
        word(tree, '=', text.data(), text.size());
        at = to + 1;
    }

    // A tag that starts at `<`.
    void tag() {
        bool end = in[at + 1] == '/';
        at += end ? 2 : 1;
        Bytes n = name();
        word(tree, end ? '/' : '<', n.data(), n.size());
        for (glue(); in[at] != '>' && in[at] != '/'; glue()) attribute();
        if (in[at] == '/') {
            word(tree, '/', n.data(), n.size());
            at++;
        }
        at++;
    }
};

inline Tree tree_of(const Bytes &in, size_t start, size_t end) {
    Walk w{in, in[start + 1] == '?' ? in.find("?>", start) + 2 : start, {}};
    while (w.at < end) {
        w.filler();
        w.tag();
    }
    return w.tree;
}
