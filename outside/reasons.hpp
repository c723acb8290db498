// Why document 01 refuses a document that both peers take. The place of answer 2 and the bytes around it show it.
// All before that place is as document 01 wants it, so a simple walk is right for it.
#pragma once
#include <regex>
#include <string>

#include "ours.hpp"

// Where a place stands: in a tag, a value or a comment, how many elements are open, how many attributes the tag has so far.
struct Spot {
    bool tag = false, value = false, comment = false, child = false;
    size_t tag_at = 0;
    unsigned open = 0, attributes = 0;
};

// A tag ends at i.
inline void leave_tag(Spot &s, const std::string &d, size_t i) {
    char kind = d[s.tag_at + 1];
    s.tag = false;
    if (kind == '?') return;
    if (kind == '/') s.open--;
    else if (d[i - 1] != '/') s.open++;
    if (s.open == 1 && (kind == '/' || d[i - 1] == '/')) s.child = true;
}

inline Spot spot(const std::string &d, size_t place) {
    Spot s;
    char quote = 0;
    for (size_t i = 0; i < place; i++) {
        char c = d[i];
        if (s.value) {
            if (c != quote) continue;
            s.value = false;
            s.attributes++;
        } else if (s.tag && (c == '"' || c == '\'')) {
            s.value = true;
            quote = c;
        } else if (s.tag && c == '>') {
            leave_tag(s, d, i);
        } else if (!s.tag && i + 1 < place && d.compare(i, 4, "<!--") == 0) {
            size_t end = d.find("-->", i + 4);
            s.comment = end == std::string::npos || end + 3 > place;
            if (s.comment) return s;
            i = end + 2;
        } else if (!s.tag && c == '<') {
            s.tag = true;
            s.tag_at = i;
            s.attributes = 0;
        }
    }
    return s;
}

inline bool begins(const std::string &d, size_t at, const char *text) { return d.compare(at, std::char_traits<char>::length(text), text) == 0; }

inline bool of_name(char c) {
    unsigned char b = (unsigned char)c;
    return b >= 0x80 || (b >= 'a' && b <= 'z') || (b >= 'A' && b <= 'Z') || (b >= '0' && b <= '9') || b == '_' || b == '-' || b == '.' || b == ':';
}

// Right behind a `<`.
inline const char *why_opening(const std::string &d, size_t p, const Spot &s) {
    if (begins(d, p, "!--")) return s.open == 0 ? "comment before a root without a declaration" : nullptr;
    if (begins(d, p, "!DOCTYPE")) return "DTD";
    if (d[p] == '?') return "processing instruction";
    if (d[p] == '/') return s.open == 1 && !s.child ? "root without a child" : nullptr;
    if (!of_name(d[p])) return nullptr;
    if (s.open == 0) return "root not named Hermes";
    if (s.open == 6) return "more than six open elements";
    if (s.open == 1 && s.child) return "more than one child of the root";
    if (d[p] == ':') return "name begins with a colon";
    return (unsigned char)d[p] >= 0x80 ? "name not ASCII" : nullptr;
}

// Right behind a `<!` where a comment could begin.
inline const char *why_declared(const std::string &d, size_t p) {
    if (begins(d, p, "[CDATA[")) return "CDATA";
    return begins(d, p, "DOCTYPE") ? "DTD" : nullptr;
}

// Further on in a tag.
inline const char *why_tag(const std::string &d, size_t p, const Spot &s) {
    if (d[s.tag_at + 1] == '!') return p == s.tag_at + 2 ? why_declared(d, p) : nullptr;
    size_t e = s.tag_at + 1;
    while (e < d.size() && of_name(d[e])) e++;
    if (s.open == 0 && p <= e && d.substr(s.tag_at + 1, e - s.tag_at - 1) != "Hermes") return "root not named Hermes";
    if (s.open == 0 && d[p] == '/') return "root without a child";
    size_t from = p, to = p;
    while (from > 0 && of_name(d[from - 1])) from--;
    while (to < d.size() && of_name(d[to])) to++;
    if (from == p && to > p && s.attributes == 32) return "more than 32 attributes";
    if (from == p && d[p] == ':') return "name begins with a colon";
    if (to - from > 64) return "name longer than 64 bytes";
    return (unsigned char)d[p] >= 0x80 ? "name not ASCII" : nullptr;
}

// In a value or in text: only a reference with more digits than document 01 allows.
inline const char *why_value(const std::string &d, size_t p) {
    size_t a = d.rfind('&', p), end = d.find(';', a == std::string::npos ? p : a);
    if (a == std::string::npos || end == std::string::npos || d[a + 1] != '#') return nullptr;
    bool hex = d[a + 2] == 'x';
    return end - a - (hex ? 3 : 2) > (hex ? 6u : 7u) ? "reference with more digits" : nullptr;
}

// A declaration as document 01 has it.
inline bool good_declaration(const std::string &d) {
    static const std::regex good(
        "<\\?xml[ \t\r\n]+version[ \t\r\n]*=[ \t\r\n]*('1\\.[01]'|\"1\\.[01]\")"
        "([ \t\r\n]+encoding[ \t\r\n]*=[ \t\r\n]*('[Uu][Tt][Ff]-8'|\"[Uu][Tt][Ff]-8\"))?"
        "([ \t\r\n]+standalone[ \t\r\n]*=[ \t\r\n]*('(yes|no)'|\"(yes|no)\"))?[ \t\r\n]*\\?>");
    return std::regex_match(d.substr(0, d.find("?>") + 2), good);
}

// A document that begins with `<?`, refused at a place up to the first `?>`.
inline const char *why_declaration(const std::string &d, size_t p) {
    if (!begins(d, 0, "<?xml") || !is_glue(d[5])) return p <= 5 ? "processing instruction" : nullptr;
    return good_declaration(d) ? nullptr : "other declaration";
}

// The reason for answer 2 at the place p of the document, or for answer 3; none if it is not known.
inline const char *why_refused(const std::string &d, unsigned answer, size_t p) {
    if (answer == 3) return d.rfind('>') >= 65536 ? "longer than 65,536 bytes" : nullptr;
    if (answer != 2 || p >= d.size()) return nullptr;
    if (p == 0) return begins(d, 0, "\xef\xbb\xbf") ? "byte order mark" : nullptr;
    if (begins(d, 0, "<?") && p < d.find("?>") + 2) return why_declaration(d, p);
    Spot s = spot(d, p);
    if (s.value) return why_value(d, p);
    if (s.comment) return nullptr;
    if (!s.tag && s.open > 1) return why_value(d, p);
    if (!s.tag) return s.open == 1 && !is_glue(d[p]) ? "text or a reference in the root" : nullptr;
    return p == s.tag_at + 1 ? why_opening(d, p, s) : why_tag(d, p, s);
}
