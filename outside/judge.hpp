// What document 01's table says of a message, judged on the tree that a peer read: refusal, kind, and the values that the check hands to C.
#pragma once
#include <cstdint>
#include <map>
#include <regex>
#include <string>
#include <vector>

#include "make.hpp"
#include "peers.hpp"

// What a cell says: whether the value is there; the number that an int, a measure or the features are; the digits behind a measure's point; the text as read.
struct Value {
    uint64_t there = 0, number = 0, decimals = 0;
    std::string text;
    bool operator==(const Value &o) const { return there == o.there && number == o.number && decimals == o.decimals && text == o.text; }
};

// What is absent is zero, and so are the values behind the last row.
struct Verdict {
    unsigned refusal = 0;
    uint64_t kind = 0;
    std::vector<Value> values = std::vector<Value>(24);
    std::string id = std::string(36, '\0');
    bool operator==(const Verdict &o) const { return refusal == o.refusal && kind == o.kind && values == o.values && id == o.id; }
};

// The root's child: its name, its attributes, and whether one of its children is SupportedFeatures, with the bits of what the first one holds.
struct Child {
    std::string name;
    std::map<std::string, std::string> values;
    bool features = false;
    uint64_t bits = 0;
};

inline uint64_t feature(const std::string &name) {
    return name == "FeatureBoardForecast" ? 1 : name == "FeatureQueryBoardInfo" ? 2 : name == "FeatureSendBoardInfo" ? 4 : 0;
}

inline Child child_of(const Tree &t) {
    Child c;
    unsigned open = 0;
    bool noted = false;
    std::string name;
    for (size_t at = 0; at < t.size(); at = t.find('\0', at) + 1) {
        std::string rest = t.c_str() + at + 1;
        switch (t[at]) {
            case '<':
                if (++open == 2) c.name = rest;
                if (open == 3) noted = rest == "SupportedFeatures" && !c.features;
                if (open == 3 && noted) c.features = true;
                if (open == 4 && noted) c.bits |= feature(rest);
                break;
            case '/': open--; break;
            case ' ': name = rest; break;
            default:
                if (open == 2) c.values[name] = rest;
        }
    }
    return c;
}

inline std::string without_zeros(const std::string &digits) {
    size_t n = digits.find_first_not_of('0');
    return n == std::string::npos ? "" : digits.substr(n);
}

// "Int: optional sign, one or more digits."
inline bool int_in(const std::string &v, unsigned low, unsigned high, uint64_t &out) {
    static const std::regex form("[ \t\r\n]*([+-]?)([0-9]+)[ \t\r\n]*");
    std::smatch m;
    if (!std::regex_match(v, m, form)) return false;
    std::string digits = without_zeros(m[2]);
    if (digits.size() > 5 || (m[1] == "-" && !digits.empty())) return false;
    out = digits.empty() ? 0 : std::stoul(digits);
    return out >= low && out <= high;
}

// "Positive number: optional `+`, digits with at most one point, at least one digit. .."; order 2: with an exponent the limits apply to the number
// written out. Its value is in millionths.
inline bool positive(const std::string &v, uint64_t &out, uint64_t &decimals) {
    static const std::regex form("[ \t\r\n]*\\+?([0-9]*)(?:\\.([0-9]*))?(?:[eE]([+-]?)([0-9]+))?[ \t\r\n]*");
    std::smatch m;
    if (!std::regex_match(v, m, form) || m.length(1) + m.length(2) == 0) return false;
    std::string whole = m[1], part = m[2], power = without_zeros(m[4]);
    // order 6: the digits behind the point, up to 6; with an exponent none
    decimals = m.length(4) ? 0 : std::min<size_t>(6, part.size());
    // no value of a message has so many digits that more zeros could be of use
    size_t places = power.size() > 5 ? 99999 : power.empty() ? 0 : std::stoul(power);
    if (m[3] == "-") {
        whole.insert(0, places, '0');
        part.insert(0, whole, whole.size() - places, places);
        whole.resize(whole.size() - places);
    } else {
        part.append(places, '0');
        whole.append(part, 0, places);
        part.erase(0, places);
    }
    whole = without_zeros(whole);
    while (!part.empty() && part.back() == '0') part.pop_back();
    if (whole.size() > 7 || part.size() > 6) return false;
    part.resize(6, '0');
    out = std::stoull("0" + whole) * 1000000 + std::stoull(part);
    return out > 0;
}

// The refusal of one value: 0, 5 or 6.
inline unsigned judged(const Column &c, const std::string &v, uint64_t &out, uint64_t &decimals) {
    static const std::regex guid("[0-9a-f]{8}-[0-9a-f]{4}-[0-9a-f]{4}-[0-9a-f]{4}-[0-9a-f]{12}"), version("[0-9]{1,3}\\.[0-9]{1,3}");
    switch (c.type) {
        case 't': return v.size() > c.high ? 5 : 0;
        case 'n': return v.size() > c.high ? 5 : v.empty() ? 6 : 0;
        case 'i': return int_in(v, c.low, c.high, out) ? 0 : 6;
        case 'p': return positive(v, out, decimals) ? 0 : 6;
        case 'g': return std::regex_match(v, guid) ? 0 : 6;
        default: return std::regex_match(v, version) ? 0 : 6;
    }
}

inline bool is_text(char type) { return type == 't' || type == 'n' || type == 'v'; }

// "Attributes are tried in table order, each for 4, 5, 6; the first decides". SupportedFeatures is the last item of its row.
inline Verdict verdict(const Tree &t) {
    Child c = child_of(t);
    Verdict none;
    while (none.kind < table().size() && table()[none.kind].name != c.name) none.kind++;
    if (none.kind == table().size()) return Verdict();
    const Row &row = table()[none.kind++];
    Verdict v = none;
    auto refused = [&](unsigned n) { return none.refusal = n, none; };
    for (size_t i = 0; i < row.columns.size(); i++) {
        const Column &column = row.columns[i];
        auto found = c.values.find(column.name);
        if (found == c.values.end() && column.may_miss) continue;
        if (found == c.values.end()) return refused(4);
        unsigned n = judged(column, found->second, v.values[i].number, v.values[i].decimals);
        if (n) return refused(n);
        v.values[i].there = 1;
        if (column.type == 'g') v.id = found->second;
        if (is_text(column.type)) v.values[i].text = found->second;
    }
    if (v.kind == 1 && !c.features) return refused(4);
    if (v.kind == 1) v.values[3] = {1, c.bits, 0, ""};
    return v;
}
