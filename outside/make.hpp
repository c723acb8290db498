// Makes messages with all the freedom of the grammar: declaration, glue, text, comments, quotes, tags, depth, counts, names, references, characters.
// `Wide` opens one limit after the other, for documents that are XML and no message.
#pragma once
#include <cstdio>
#include <cstdlib>
#include <fstream>
#include <string>
#include <vector>

#include "random.hpp"

using Bytes = std::string;

struct Part {
    size_t at, length;
};

// A message, where its attributes stand, and the places inside the root where glue may stand.
struct Made {
    std::string bytes;
    std::vector<Part> attributes;
    std::vector<size_t> gaps;
    size_t root = 0;
};

// What goes beyond document 01. The numbers are the most there may be.
struct Wide {
    unsigned depth = 6, attributes = 32, name = 64, digits = 0;
    bool foreign_names = false, colon_first = false, other_declaration = false;
};

struct Column {
    std::string name;
    char type;  // t text, n text that is not empty, i int, p positive number, g GUID, v version
    bool may_miss;
    unsigned low, high;
};

struct Row {
    std::string name;
    std::vector<Column> columns;
};

// What stands between the bars of a line, without the blanks around it.
inline std::vector<std::string> between_bars(const std::string &line) {
    std::vector<std::string> found;
    for (size_t at = 1, end; (end = line.find('|', at)) != std::string::npos; at = end + 1) {
        std::string cell = line.substr(at, end - at);
        size_t first = cell.find_first_not_of(' ');
        found.push_back(first == std::string::npos ? "" : cell.substr(first, cell.find_last_not_of(' ') - first + 1));
    }
    return found;
}

inline Column column(const std::string &name, const std::string &value, bool may_miss) {
    unsigned low = 0, high = 0;
    if (sscanf(value.c_str(), "%u..%u", &low, &high) == 2) return {name, 'i', may_miss, low, high};
    if (sscanf(value.c_str(), "text %u", &high) == 1) return {name, 't', may_miss, 0, high};
    if (sscanf(value.c_str(), "non-empty text %u", &high) == 1) return {name, 'n', may_miss, 1, high};
    if (value == "GUID") return {name, 'g', may_miss, 0, 0};
    if (value == "Version") return {name, 'v', may_miss, 0, 0};
    if (value == "positive") return {name, 'p', may_miss, 0, 0};
    fprintf(stderr, "docs/RULES.md: the value of %s is not known here: %s\n", name.c_str(), value.c_str());
    exit(2);
}

// The attribute table that docs/RULES.md prints; programs run in the project's folder. The child has no column.
inline std::vector<Row> printed() {
    std::ifstream rules("docs/RULES.md");
    std::vector<Row> rows;
    bool inside = false;
    for (std::string line; std::getline(rules, line);) {
        std::vector<std::string> cells = between_bars(line);
        if (cells.size() == 6 && cells[0] == "Kind" && cells[2] == "Attribute") inside = true;
        if (line.empty()) inside = false;
        if (!inside || atoi(cells[0].c_str()) == 0) continue;
        if (rows.empty() || rows.back().name != cells[1]) rows.push_back({cells[1], {}});
        if (cells[2] != "none" && cells[3] != "child") rows.back().columns.push_back(column(cells[2], cells[3], cells[4] == "yes"));
    }
    if (rows.empty()) {
        fprintf(stderr, "there is no attribute table in docs/RULES.md: this is to be run in the project's folder\n");
        exit(2);
    }
    return rows;
}

inline const std::vector<Row> &table() {
    static const std::vector<Row> rows = printed();
    return rows;
}

inline std::string utf8(unsigned c) {
    auto tail = [](unsigned x) { return (char)(0x80 | (x & 63)); };
    if (c < 0x80) return {(char)c};
    if (c < 0x800) return {(char)(0xc0 | c >> 6), tail(c)};
    if (c < 0x10000) return {(char)(0xe0 | c >> 12), tail(c >> 6), tail(c)};
    return {(char)(0xf0 | c >> 18), tail(c >> 12), tail(c >> 6), tail(c)};
}

class Maker {
   public:
    Maker(Random &random, Wide wide) : r(random), w(wide) {}

    Made message() {
        m = Made();
        if (r.one_in(3)) declaration();
        m.root = m.bytes.size();
        put("<Hermes");
        unsigned n = r.one_in(4) ? r.below(3) : 0;
        for (std::vector<std::string> used; used.size() < n;) attribute(fresh(used), value());
        glue(0);
        put(">");
        gap(false);
        if (r.one_in(3)) known();
        else element(element_name(), r.one_in(8) ? w.attributes : r.below(5), 2);
        gap(false);
        close("Hermes");
        return m;
    }

   private:
    Random &r;
    Wide w;
    Made m;

    void put(const std::string &s) { m.bytes += s; }

    // At least so many bytes of glue; mostly no more, or one space.
    void glue(unsigned least) {
        static const char bytes[] = {' ', '\t', '\r', '\n'};
        unsigned n = r.one_in(4) ? least + r.below(4) : least;
        for (unsigned i = 0; i < n; i++) m.bytes += r.one_in(2) ? ' ' : r.of(bytes);
    }

    // Between elements: glue, now and then comments, and below the root text.
    void gap(bool below) {
        m.gaps.push_back(m.bytes.size());
        glue(0);
        if (r.one_in(6)) filler(below);
    }

    void filler(bool below) {
        for (unsigned n = r.from_to(1, 4); n; n--) {
            if (below && r.one_in(2)) put(char_data());
            else comment();
            glue(0);
        }
    }

    // `from` is written `to` wherever it stands.
    static void replaced(std::string &s, const std::string &from, const std::string &to) {
        for (size_t at = s.find(from); at != std::string::npos; at = s.find(from)) s.replace(at, from.size(), to);
    }

    // Glue may follow: it does not join what stands before and behind it to `]]>`.
    std::string char_data() {
        static const char *const bits[] = {"]", "]]", "]]]", "]]&gt;", "]]&#62;", "] ]>", ">", "\"", "'", "/>", "--", "-->", "=", "\r\n", "\r", "?>"};
        std::string s;
        for (unsigned n = r.one_in(60) ? r.below(300) : r.below(8); n; n--) s += r.one_in(3) ? r.of(bits) : r.one_in(3) ? numbered(character()) : spelt(character());
        replaced(s, "]]>", "]]&gt;");
        return s;
    }

    void comment() {
        static const char *const bits[] = {"</Hermes>", "</X>", "<Hermes><CheckAlive/></Hermes>", "&", "&no;", "&#0;", "<", ">", "->", "-", "]]>", "<!", "<![CDATA[", "<?xml", "\"", "'"};
        std::string s;
        for (unsigned n = r.one_in(60) ? r.below(300) : r.below(8); n; n--) s += r.one_in(2) ? r.of(bits) : utf8(character());
        replaced(s, "--", "- ");
        if (!s.empty() && s.back() == '-') s += ' ';
        put("<!--" + s + "-->");
    }

    void quoted(const std::string &s) {
        std::string q = r.one_in(2) ? "'" : "\"";
        glue(0);
        put("=");
        glue(0);
        put(q + s + q);
    }

    void declaration() {
        static const char *const letters[] = {"U", "u"}, *const more[] = {"T", "t"}, *const last[] = {"F", "f"};
        static const char *const others[] = {"UTF8", "US-ASCII", "ISO-8859-1", "utf-16", "x"};
        static const char *const versions[] = {"1.2", "1.9", "1.", "2.0", "1.0 "};
        bool other_version = w.other_declaration && r.one_in(2), other_encoding = w.other_declaration && !other_version;
        put("<?xml");
        glue(1);
        put("version");
        quoted(other_version ? r.of(versions) : r.one_in(4) ? "1.1" : "1.0");
        if (other_encoding || r.one_in(2)) {
            glue(1);
            put("encoding");
            quoted(other_encoding ? r.of(others) : std::string(r.of(letters)) + r.of(more) + r.of(last) + "-8");
        }
        if (r.one_in(2)) {
            glue(1);
            put("standalone");
            quoted(r.one_in(2) ? "yes" : "no");
        }
        glue(0);
        put("?>");
        glue(0);
        if (r.one_in(6)) filler(false);
    }

    std::string name() {
        static const char first[] = "ABCDEFGHIJKLMNOPQRSTUVWXYZabcdefghijklmnopqrstuvwxyz_";
        static const char rest[] = "ABCDEFGHIJKLMNOPQRSTUVWXYZabcdefghijklmnopqrstuvwxyz_0123456789-.:";
        static const unsigned foreign[] = {0xe9, 0xc0, 0x3b1, 0x416, 0x4e2d, 0xac00};
        unsigned n = r.one_in(40) || w.name > 64 ? r.from_to(60, w.name) : r.from_to(1, 9);
        std::string s = w.colon_first ? ":" : w.foreign_names ? utf8(r.of(foreign)) : std::string(1, first[r.below(53)]);
        while (s.size() < n) s += w.foreign_names && r.one_in(8) ? utf8(r.of(foreign)) : std::string(1, rest[r.below(66)]);
        return s;
    }

    std::string element_name() {
        static const char *const names[] = {"Hermes", "X", "a", "SupportedFeatures", "FeatureBoardForecast", "checkalive", "h:Hermes", "xml", "_"};
        return r.one_in(3) ? r.of(names) : name();
    }

    // A name that is not used in this tag; now and then one that only begins like another.
    std::string fresh(std::vector<std::string> &used) {
        static const char *const names[] = {"Timestamp", "xml:lang", "xml:space", "xml:id", "xmlns", "xmlns:a", "BoardId", "Id"};
        for (;;) {
            std::string s = r.one_in(6) ? r.of(names) : name();
            if (!used.empty() && r.one_in(10) && used[0].size() < 64) s = used[0] + "a";
            bool taken = false;
            for (const std::string &u : used) taken = taken || u == s;
            if (taken) continue;
            used.push_back(s);
            return s;
        }
    }

    // A character of XML 1.0; often one at the border of its kind.
    unsigned character() {
        static const unsigned borders[] = {9, 10, 13, 32, '<', '&', '>', '"', '\'', 0x7f, 0x80, 0x85, 0x9f, 0xa0, 0x7ff, 0x800, 0x2028,
                                           0xd7ff, 0xe000, 0xfdd0, 0xfeff, 0xfffd, 0x10000, 0x1f600, 0x1fffe, 0x10ffff};
        switch (r.below(6)) {
            case 0: return r.of(borders);
            case 1: return r.from_to(0x80, 0x7ff);
            case 2: return r.from_to(0x800, 0xd7ff);
            case 3: return r.from_to(0xe000, 0xfffd);
            case 4: return r.from_to(0x10000, 0x10ffff);
            default: return r.from_to(0x20, 0x7e);
        }
    }

    std::string numbered(unsigned c) {
        static const char low[] = "0123456789abcdef", high[] = "0123456789ABCDEF";
        bool hex = r.one_in(2), capital = r.one_in(2);
        unsigned base = hex ? 16 : 10, most = (hex ? 6 : 7) + w.digits;
        std::string s;
        for (; c; c /= base) s.insert(s.begin(), (capital ? high : low)[c % base]);
        if (r.one_in(3) || w.digits) s.insert(0, r.from_to(w.digits ? most - (unsigned)s.size() : 0, most - (unsigned)s.size()), '0');
        return (hex ? "&#x" : "&#") + s + ";";
    }

    // A character as it may stand in a value: itself where it can, or a reference.
    std::string spelt(unsigned c) {
        if (c == '<') return r.one_in(2) ? "&lt;" : numbered(c);
        if (c == '&') return r.one_in(2) ? "&amp;" : numbered(c);
        if (c == '"') return r.one_in(2) ? "&quot;" : numbered(c);
        if (c == '\'') return r.one_in(2) ? "&apos;" : numbered(c);
        if (c == '>') return r.one_in(2) ? ">" : r.one_in(2) ? "&gt;" : numbered(c);
        return r.one_in(12) ? numbered(c) : utf8(c);
    }

    // Any raw value. It has no raw quotes; `attribute` puts in those of the other kind.
    std::string value() {
        static const char *const bits[] = {"\t", "\n", "\r", "\r\n", "\r\r\n", "\n\r", "]]>", "--", "?>", "/>", "</Hermes>", ">", "=", "%", "&#13;\n", "\r&#10;"};
        std::string s;
        unsigned n = r.one_in(60) ? r.below(300) : r.below(12);
        for (unsigned i = 0; i < n; i++) {
            std::string bit = r.of(bits);
            switch (r.below(4)) {
                case 0: s += spelt(character()); break;
                case 1: s += numbered(character()); break;
                case 2: s += bit[0] == '<' ? "&lt;/Hermes>" : bit; break;
                default: s += spelt(r.from_to(0x20, 0x7e));
            }
        }
        return s;
    }

    // The raw value in quotes, with some raw quotes of the other kind.
    void attribute(const std::string &name, std::string raw) {
        char quote = r.one_in(2) ? '"' : '\'', other = quote == '"' ? '\'' : '"';
        if (r.one_in(6)) raw.insert(r.one_in(2) ? 0 : raw.size(), 1, other);
        glue(1);
        size_t at = m.bytes.size();
        put(name);
        glue(0);
        put("=");
        glue(0);
        put(quote + raw + quote);
        m.attributes.push_back({at, m.bytes.size() - at});
    }

    void close(const std::string &name) {
        put("</" + name);
        glue(0);
        put(">");
    }

    // An element with n attributes; its depth is that of the root plus one, and so on.
    void element(const std::string &name, unsigned n, unsigned depth) {
        put("<" + name);
        for (std::vector<std::string> used; used.size() < n;) attribute(fresh(used), value());
        inside(name, depth, r.one_in(2) ? 0 : r.below(3));
    }

    // The end of a start tag, so many children if it is not too deep, and the end tag; or an empty tag.
    void inside(const std::string &name, unsigned depth, unsigned children) {
        glue(0);
        if (w.depth > 6 && depth < w.depth) children = 1;
        if (children == 0 && r.one_in(2)) return put("/>");
        put(">");
        gap(true);
        for (unsigned i = 0; i < children && depth < w.depth; i++) {
            element(element_name(), r.below(3), depth + 1);
            gap(true);
        }
        close(name);
    }

    std::string guid() {
        std::string s;
        for (int i = 0; i < 36; i++) s += i == 8 || i == 13 || i == 18 || i == 23 ? '-' : "0123456789abcdef"[r.below(16)];
        return s;
    }

    std::string text(unsigned most) {
        std::string s;
        for (unsigned n = r.one_in(6) ? most : r.below(12); s.size() < n;) s += (char)r.from_to(0x20, 0x7e);
        return s;
    }

    // A decimal of any form: it may be too long, or no number.
    std::string decimal() {
        static const char *const ends[] = {"", "", "", "0", "00", "0000000"};
        std::string s = r.one_in(6) ? "+" : r.one_in(20) ? " " : "";
        s += r.of(ends);
        for (unsigned n = r.below(r.one_in(6) ? 9 : 4); n; n--) s += (char)('0' + r.below(10));
        if (r.one_in(3)) return s + exponent();
        s += '.';
        for (unsigned n = r.below(r.one_in(6) ? 8 : 4); n; n--) s += (char)('0' + r.below(10));
        return s + r.of(ends) + exponent();
    }

    // Mostly none; a small one, or any.
    std::string exponent() {
        static const char *const signs[] = {"", "+", "-", "-", "-00"}, *const some[] = {"", "18446744073709551617", "4294967298", "+1", "1.0", "1e1", "x"};
        if (!r.one_in(3)) return "";
        std::string s = r.one_in(2) ? "e" : "E";
        return s + r.of(signs) + (r.one_in(8) ? r.of(some) : std::to_string(r.below(r.one_in(6) ? 30 : 9)));
    }

    std::string good(const Column &c) {
        static const char *const numbers[] = {".5", "160.50", "+1.", "0000012.5", "9999999.999999", "0.0000010", "1", " 7 ",
                                              "1.6E2", ".5e+1", "1E-6", "12345678E-1"};
        static const char *const versions[] = {"1.0", "001.6", "999.999", "0.9"};
        switch (c.type) {
            case 't': return text(c.high);
            case 'n': return "x" + text(c.high - 1);
            case 'i': return (r.one_in(6) ? " +00" : "") + std::to_string(r.from_to(c.low, c.high)) + (r.one_in(9) ? "\t" : "");
            case 'p': return r.one_in(6) ? decimal() : r.of(numbers);
            case 'g': return guid();
            default: return r.of(versions);
        }
    }

    // A value that is bad in most places.
    std::string bad(const Column &c) {
        static const char *const values[] = {"", "-1", "-0", "+", ".", "65536", "65535", "1.0000001", "0", "10000000", "1234.5", "A", "1 2", "0.0", "+.5",
                                             "5.", "99999999999999999999", "--1", "+-1", "1e3", "0x1", "1.2.3", "-5",
                                             "1E", "E5", "1E7", "1E-7", "0E5", "1EE2", "INF", "NaN", "1E+"};
        if ((c.type == 't' || c.type == 'n') && r.one_in(2)) return std::string(c.high + r.below(2), 'y');
        return c.type == 'g' && r.one_in(2) ? guid().substr(r.below(3)) + "0G" : r.of(values);
    }

    // A message of the table, its attributes in any order, now and then one missing, bad or unknown.
    void known() {
        const Row &row = table()[r.below(table().size())];
        std::vector<Column> columns = row.columns;
        for (size_t i = columns.size(); i > 1; i--) std::swap(columns[i - 1], columns[r.below(i)]);
        put("<" + row.name);
        for (const Column &c : columns) {
            if (c.may_miss ? r.one_in(2) : r.one_in(40)) continue;
            std::string raw;
            for (unsigned char b : r.one_in(25) ? bad(c) : good(c)) raw += spelt(b);
            attribute(c.name, raw);
        }
        if (r.one_in(8)) attribute("Unknown", value());
        if (row.name[0] == 'S' && row.name[1] == 'e') return features(row.name);
        inside(row.name, 2, r.one_in(6) ? 1 : 0);
    }

    void features(const std::string &name) {
        static const char *const names[] = {"FeatureBoardForecast", "FeatureQueryBoardInfo", "FeatureSendBoardInfo", "FeatureOther"};
        put(">");
        gap(true);
        if (!r.one_in(10)) {
            put("<SupportedFeatures>");
            gap(true);
            for (unsigned n = r.below(4); n; n--) {
                element(r.of(names), r.below(2), 4);
                gap(true);
            }
            close("SupportedFeatures");
        }
        gap(true);
        close(name);
    }
};
