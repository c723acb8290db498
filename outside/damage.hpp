// What is done to a message: damage, and additions that XML allows and document 01 does not.
#pragma once
#include <algorithm>
#include <string>

#include "make.hpp"

// A part of the bytes, mostly short.
inline Part part_of(Random &r, const Bytes &b) {
    size_t at = r.below(b.size() + 1), most = b.size() - at;
    return {at, most == 0 ? 0 : r.below(std::min<size_t>(most, r.one_in(8) ? most : 12) + 1)};
}

inline Bytes piece(Random &r) {
    static const char *const pieces[] = {"<", ">", "/", "&", "\"", "'", "=", " ", "\t", "\r", "\n", ";", "&#", "&#x", "&#0;", "&#xD800;", "&#xFFFE;", "&#1;",
                                         "]]>", "<!--", "-->", "<!-- c -->", "<![CDATA[x]]>", "<?", "?>", "<?p q?>", "\xef\xbb\xbf", "\xc2\x85",
                                         "\xe2\x80\xa8", "\xed\xa0\x80", "\xef\xbf\xbe", "\xc0\x80", "\xf4\x90\x80\x80", "\x80", "\xff", "</Hermes>",
                                         "<Hermes>", "<X/>", " a='1'", " a=''", "&amp;", "&nbsp;", "x", ":", "-", "<?xml version='1.0'?>", "\x0b", "\x01"};
    unsigned n = r.below(50);
    return n == 49 ? Bytes(1, '\0') : n == 48 ? Bytes(1, (char)r.below(256)) : Bytes(pieces[n]);
}

// Two attributes, whether of one element or not, change places.
inline void exchange(Random &r, Made &m) {
    if (m.attributes.size() < 2) return;
    size_t i = r.below(m.attributes.size() - 1), j = i + 1 + r.below(m.attributes.size() - i - 1);
    Part a = m.attributes[i], b = m.attributes[j];
    if (b.at + b.length > m.bytes.size()) return;
    Bytes first = m.bytes.substr(a.at, a.length), second = m.bytes.substr(b.at, b.length);
    m.bytes.replace(b.at, b.length, first);
    m.bytes.replace(a.at, a.length, second);
}

// One damage. What it does to the places of a message's attributes is not followed.
inline void damage(Random &r, Made &m) {
    Bytes &b = m.bytes;
    if (b.empty()) return;
    Part p = part_of(r, b);
    switch (r.below(9)) {
        case 0: b[r.below(b.size())] ^= (char)(1 << r.below(8)); break;
        case 1: b[r.below(b.size())] = (char)r.below(256); break;
        case 2: b.resize(r.below(b.size())); break;
        case 3: b.insert(p.at, piece(r)); break;
        case 4: b.erase(p.at, p.length); break;
        case 5: b.insert(p.at, b.substr(p.at, p.length)); break;
        case 6: exchange(r, m); break;
        case 7: b.replace(p.at, p.length, piece(r)); break;
        default: {
            Bytes other = Maker(r, Wide()).message().bytes;
            b = b.substr(0, p.at) + other.substr(r.below(other.size()));
        }
    }
}

// One of the limits of document 01 is lifted.
inline Wide widened(Random &r) {
    Wide w;
    switch (r.below(7)) {
        case 0: w.depth = r.from_to(7, 9); break;
        case 1: w.attributes = r.from_to(33, 40); break;
        case 2: w.name = r.from_to(65, 80); break;
        case 3: w.digits = r.from_to(1, 3); break;
        case 4: w.foreign_names = true; break;
        case 5: w.colon_first = true; break;
        default: w.other_declaration = true;
    }
    return w;
}

// Something that XML has and document 01 leaves out, in the root or in front of it.
inline void add_foreign(Random &r, Made &m) {
    static const char *const in_root[] = {"<!-- c -->", "<![CDATA[ x ]]>", "<?pi d?>", "text", "&lt;", "&#65;", "<Y/>", "<Y></Y>", "<!---->", "<?xml-p?>"};
    static const char *const in_front[] = {"<!-- c -->", "<?pi?>", "<!DOCTYPE Hermes>", "<!DOCTYPE Hermes [<!ENTITY e 'v'>]>",
                                           "<!DOCTYPE Hermes [<!ATTLIST Hermes a CDATA 'v'>]>"};
    switch (r.below(5)) {
        case 0: m.bytes.insert(m.root, r.of(in_front)); break;
        case 1: m.bytes.insert(0, r.one_in(2) ? "\xef\xbb\xbf" : "<?pi d?>"); break;
        case 2: m.bytes = m.bytes.substr(0, m.root) + (r.one_in(2) ? "<Hermes/>" : "<Hermes></Hermes >"); break;
        case 3: {
            static const char *const roots[] = {"hermes", "Hermes2", "h:Hermes", "Her", "H\xc3\xa9rmes"};
            Bytes root = r.of(roots);
            size_t end = m.bytes.rfind("</Hermes");
            m.bytes.replace(end + 2, 6, root);
            m.bytes.replace(m.root + 1, 6, root);
            break;
        }
        default: m.bytes.insert(m.gaps[r.below(m.gaps.size())], r.of(in_root));
    }
}

// Makes a message so many bytes long, by glue in the root's end tag or in front of the root.
inline void stretch(Random &r, Made &m, size_t size) {
    if (m.bytes.size() >= size) return;
    size_t at = r.one_in(2) ? m.bytes.size() - 1 : m.gaps[r.below(m.gaps.size())];
    m.bytes.insert(at, size - m.bytes.size(), ' ');
}
