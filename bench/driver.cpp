// Reading and checking: this library's calls, and the XML parsers that users would take instead, on the same messages.
// The peers are given each message's bytes; this library finds the cut itself.
// For checking each peer's handler tries the attributes of a BoardAvailable and keeps their values; all must come to the same sum.
#include <expat.h>
#include <libxml/parser.h>
#include <pugixml.hpp>
#include <rapidxml/rapidxml.hpp>

#include <cstdint>
#include <cstdio>
#include <cstring>
#include <functional>
#include <memory>
#include <string>
#include <vector>

#include "../include/tryphomel.h"
#include "race.hpp"
#include "values.hpp"

namespace {

using Stream = std::vector<std::string>;

unsigned seed = 1;
unsigned next(unsigned n) {
    seed = seed * 1103515245u + 12345u;
    return (seed >> 16) % n;
}

std::string guid() {
    std::string s;
    for (int i = 0; i < 36; i++) s += (i == 8 || i == 13 || i == 18 || i == 23) ? '-' : "0123456789abcdef"[next(16)];
    return s;
}

std::string words(unsigned n) {
    std::string s;
    while (s.size() < n) s += "PCB-TOP-42 rev. B/lot "[next(22)];
    return s;
}

std::string board_available() {
    std::string s = "<Hermes Timestamp=\"2026-11-15T10:11:12.345\"><BoardAvailable BoardId=\"" + guid() + "\" BoardIdCreatedBy=\"" + words(12) +
                    "\" FailedBoard=\"" + std::to_string(next(3)) + "\" ProductTypeId=\"" + words(10 + next(120)) + "\" FlippedBoard=\"0\"";
    if (next(2)) s += " TopBarcode=\"" + words(20 + next(60)) + "\"";
    if (next(2)) s += " BottomBarcode=\"" + words(20 + next(60)) + "\"";
    s += " Length=\"" + std::to_string(50 + next(400)) + ".5\" Width=\"" + std::to_string(50 + next(400)) + "\" Thickness=\"1.6\" ConveyorSpeed=\"" +
         std::to_string(100 + next(300)) + "\"";
    s += " TopClearanceHeight=\"25\" BottomClearanceHeight=\"25.4\"";
    if (next(2)) s += " Weight=\"" + std::to_string(10 + next(900)) + "\" WorkOrderId=\"WO-" + std::to_string(next(100000)) + "\"";
    s += "/></Hermes>";
    return s;
}

std::string long_value(unsigned n) {
    std::string s = "<Hermes><Notification NotificationCode=\"1\" Severity=\"4\" Description=\"";
    return s + words(n - s.size() - 12) + "\"/></Hermes>";
}

// A Description in Chinese, or in German.
std::string described(const std::string &words, unsigned n) {
    std::string s = "<Hermes><Notification NotificationCode=\"1\" Severity=\"1\" Description=\"";
    for (unsigned i = 0; i < n; i++) s += words;
    return s + "\"/></Hermes>";
}

std::string siblings(unsigned n) {
    std::string s = "<Hermes><Foreign>";
    for (unsigned i = 0; i < n; i++) s += "<A/>";
    return s + "</Foreign></Hermes>";
}

std::string text_of(unsigned n) {
    std::string s = "<Hermes><Foreign>";
    return s + words(n - s.size() - 19) + "</Foreign></Hermes>";
}

std::string comments(unsigned n) {
    std::string s = "<Hermes><Foreign>";
    for (unsigned i = 0; i < n; i++) s += "<!--a-->";
    return s + "</Foreign></Hermes>";
}

std::string attributes32() {
    std::string s = "<Hermes><Foreign";
    for (int i = 0; i < 32; i++) s += " AttributeWithALongNameThatDiffersLate" + std::to_string(10 + i) + "=\"1\"";
    return s + "/></Hermes>";
}

std::string alike_names() {
    std::string s = "<Hermes><F";
    for (int i = 0; i < 32; i++) {
        std::string name(64, 'a');
        name[32] = (char)('a' + i % 26), name[33] = (char)('a' + i / 26);
        s += " " + name + "=\"\"";
    }
    return s + "/></Hermes>";
}

struct Peer {
    const char *name;
    std::function<bool(std::string &)> run;
};

void XMLCALL on_start(void *user, const XML_Char *, const XML_Char **) { ++*static_cast<unsigned *>(user); }
void XMLCALL on_end(void *, const XML_Char *) {}

bool by_expat(std::string &m) {
    static XML_Parser p = XML_ParserCreate(nullptr);
    unsigned n = 0;
    XML_ParserReset(p, nullptr);
    XML_SetUserData(p, &n);
    XML_SetElementHandler(p, on_start, on_end);
    return XML_Parse(p, m.data(), (int)m.size(), 1) == XML_STATUS_OK && n >= 2;
}

void sax_start(void *user, const xmlChar *, const xmlChar **) { ++*static_cast<unsigned *>(user); }

bool by_libxml2(std::string &m) {
    static xmlSAXHandler h = [] {
        xmlSAXHandler x;
        memset(&x, 0, sizeof x);
        x.startElement = sax_start;
        return x;
    }();
    unsigned n = 0;
    return xmlSAXUserParseMemory(&h, &n, m.data(), (int)m.size()) == 0 && n >= 2;
}

std::vector<char> copy;

bool by_pugixml(std::string &m) {
    static pugi::xml_document d;
    copy.assign(m.begin(), m.end());
    return (bool)d.load_buffer_inplace(copy.data(), copy.size());
}

bool by_rapidxml(std::string &m) {
    static rapidxml::xml_document<> d;
    copy.assign(m.begin(), m.end());
    copy.push_back(0);
    d.clear();
    d.parse<0>(copy.data());
    return d.first_node() != nullptr;
}

// A BoardAvailable as a user of a peer would hold it.
struct Board {
    char id[36];
    unsigned ints[2];
    uint64_t sizes[7];
    const char *texts[5];
    size_t lengths[5];
    unsigned there;
    bool bad;
};

struct Name {
    const char *text;
    size_t length;
};

// In table order.
const Name NAMES[15] = {{"BoardId", 7}, {"BoardIdCreatedBy", 16}, {"FailedBoard", 11}, {"ProductTypeId", 13}, {"FlippedBoard", 12},
                        {"TopBarcode", 10}, {"BottomBarcode", 13}, {"Length", 6}, {"Width", 5}, {"Thickness", 9}, {"ConveyorSpeed", 13},
                        {"TopClearanceHeight", 18}, {"BottomClearanceHeight", 21}, {"Weight", 6}, {"WorkOrderId", 11}};

bool keep(Board &b, unsigned row, const char *v, size_t n) {
    auto text = [&](unsigned k, size_t most) { return b.texts[k] = v, b.lengths[k] = n, n <= most; };
    switch (row) {
        case 0: return to_guid(v, n, b.id);
        case 1: return text(0, 80) && n > 0;
        case 2: return to_int(v, v + n, 0, 2, b.ints[0]);
        case 3: return text(1, 254);
        case 4: return to_int(v, v + n, 0, 2, b.ints[1]);
        case 5: return text(2, 254);
        case 6: return text(3, 254);
        case 14: return text(4, 80);
        default: return to_millionths(v, v + n, b.sizes[row - 7]);
    }
}

void attribute(Board &b, const char *name, size_t length, const char *value, size_t n) {
    for (unsigned row = 0; row < 15; row++)
        if (NAMES[row].length == length && memcmp(NAMES[row].text, name, length) == 0) {
            b.there |= 1u << row;
            if (!keep(b, row, value, n)) b.bad = true;
            return;
        }
}

// What is added up, so that all is read and all read the same.
struct Sum {
    uint64_t accepted = 0, lengths = 0, failed = 0;
    void add(bool good, uint64_t length, uint64_t fail) {
        if (!good) return;
        accepted++;
        lengths += length;
        failed += fail;
    }
    bool operator==(const Sum &o) const { return accepted == o.accepted && lengths == o.lengths && failed == o.failed; }
};

bool good(const Board &b) { return !b.bad && (b.there & 0x17u) == 0x17u; }

void add_board(Sum &sum, const Board &b) { sum.add(good(b), (b.there >> 7 & 1) ? b.sizes[0] : 0, b.ints[0]); }

struct State {
    unsigned depth = 0;
    Board board{};
};

template <typename C>
void take_element(void *user, const C *name, const C **pairs) {
    State &s = *static_cast<State *>(user);
    if (++s.depth != 2 || strcmp((const char *)name, "BoardAvailable") != 0) return;
    for (; pairs && pairs[0]; pairs += 2)
        attribute(s.board, (const char *)pairs[0], strlen((const char *)pairs[0]), (const char *)pairs[1], strlen((const char *)pairs[1]));
}

void XMLCALL expat_element(void *user, const XML_Char *name, const XML_Char **pairs) { take_element(user, name, pairs); }
void XMLCALL expat_close(void *user, const XML_Char *) { static_cast<State *>(user)->depth--; }
void sax_element(void *user, const xmlChar *name, const xmlChar **pairs) { take_element(user, name, pairs); }
void sax_close(void *user, const xmlChar *) { static_cast<State *>(user)->depth--; }

struct Checker {
    const char *name;
    std::function<bool(std::string &, Sum &)> run;
};

bool check_by_expat(std::string &m, Sum &sum) {
    static XML_Parser p = XML_ParserCreate(nullptr);
    State s;
    XML_ParserReset(p, nullptr);
    XML_SetUserData(p, &s);
    XML_SetElementHandler(p, expat_element, expat_close);
    if (XML_Parse(p, m.data(), (int)m.size(), 1) != XML_STATUS_OK) return false;
    add_board(sum, s.board);
    return true;
}

bool check_by_libxml2(std::string &m, Sum &sum) {
    static xmlSAXHandler h = [] {
        xmlSAXHandler x;
        memset(&x, 0, sizeof x);
        x.startElement = sax_element;
        x.endElement = sax_close;
        return x;
    }();
    State s;
    if (xmlSAXUserParseMemory(&h, &s, m.data(), (int)m.size()) != 0) return false;
    add_board(sum, s.board);
    return true;
}

bool check_by_pugixml(std::string &m, Sum &sum) {
    static pugi::xml_document d;
    copy.assign(m.begin(), m.end());
    if (!d.load_buffer_inplace(copy.data(), copy.size())) return false;
    Board b{};
    pugi::xml_node child = d.document_element().first_child();
    if (strcmp(child.name(), "BoardAvailable") == 0)
        for (auto a = child.first_attribute(); a; a = a.next_attribute()) attribute(b, a.name(), strlen(a.name()), a.value(), strlen(a.value()));
    add_board(sum, b);
    return true;
}

bool check_by_rapidxml(std::string &m, Sum &sum) {
    static rapidxml::xml_document<> d;
    copy.assign(m.begin(), m.end());
    copy.push_back(0);
    d.clear();
    d.parse<0>(copy.data());
    Board b{};
    auto *child = d.first_node()->first_node();
    if (child->name_size() == 14 && memcmp(child->name(), "BoardAvailable", 14) == 0)
        for (auto *a = child->first_attribute(); a; a = a->next_attribute()) attribute(b, a->name(), a->name_size(), a->value(), a->value_size());
    add_board(sum, b);
    return true;
}

size_t size_of(const Stream &s) {
    size_t n = 0;
    for (auto &m : s) n += m.size();
    return n;
}

std::string joined(const Stream &s) {
    std::string run;
    for (auto &m : s) run += m;
    return run;
}

void read_work(std::vector<Work> &works, const char *title, const Stream &stream, const std::vector<Peer> &peers) {
    auto s = std::make_shared<Stream>(stream);
    auto run = std::make_shared<std::string>(joined(stream));
    Work w{title, (double)s->size(), (double)size_of(*s), {}};
    w.all.push_back({"tryphomel", [=]() -> uint64_t {
                         size_t at = 0, messages = 0;
                         while (at < run->size()) {
                             uint64_t start, place;
                             if (tryphomel_read((const uint8_t *)run->data() + at, run->size() - at, &start, &place) != 0) return 0;
                             at += place;
                             messages++;
                         }
                         return messages;
                     }});
    for (auto &p : peers)
        w.all.push_back({p.name, [=]() -> uint64_t {
                             for (auto &m : *s)
                                 if (!p.run(m)) return 0;
                             return s->size();
                         }});
    works.push_back(w);
}

uint64_t told(const Sum &sum) { return sum.accepted * 1000003 + sum.lengths * 31 + sum.failed; }

void check_work(std::vector<Work> &works, const char *title, const Stream &stream, const std::vector<Checker> &peers) {
    auto s = std::make_shared<Stream>(stream);
    auto run = std::make_shared<std::string>(joined(stream));
    Work w{title, (double)s->size(), (double)size_of(*s), {}};
    w.all.push_back({"tryphomel", [=]() -> uint64_t {
                         Sum sum;
                         for (size_t at = 0; at < run->size();) {
                             tryphomel_checked c;
                             if (tryphomel_message_check(run->data() + at, run->size() - at, &c) != TRYPHOMEL_ACCEPTED) return 0;
                             sum.add(true, c.message.as.board.length.value, c.message.as.board.failed.value);
                             at += c.end;
                         }
                         return told(sum);
                     }});
    for (auto &p : peers)
        w.all.push_back({p.name, [=]() -> uint64_t {
                             Sum sum;
                             for (auto &m : *s)
                                 if (!p.run(m, sum)) return 0;
                             return told(sum);
                         }});
    works.push_back(w);
}

Stream many(unsigned n, const std::function<std::string()> &f) {
    Stream s;
    for (unsigned i = 0; i < n; i++) s.push_back(f());
    return s;
}

}  // namespace

// Works whose titles end in the same "a byte at" are held against each other: what a byte costs in a large message and in a small one.
void reading_works(std::vector<Work> &works) {
    xmlInitParser();
    std::vector<Peer> peers = {{"pugixml", by_pugixml}, {"rapidxml", by_rapidxml}, {"expat", by_expat}, {"libxml2 SAX", by_libxml2}};
    std::vector<Checker> checkers = {
        {"pugixml", check_by_pugixml}, {"rapidxml", check_by_rapidxml}, {"expat", check_by_expat}, {"libxml2 SAX", check_by_libxml2}};
    Stream boards = many(500, board_available);
    read_work(works, "read a BoardAvailable", boards, peers);
    check_work(works, "check a BoardAvailable, values read", boards, checkers);
    read_work(works, "read a CheckAlive", many(2000, [] { return std::string("<Hermes><CheckAlive Type=\"1\" Id=\"42\"/></Hermes>"); }), peers);
    read_work(works, "read 32 long names", many(100, attributes32), peers);
    read_work(works, "read 32 names that are alike at their ends", many(100, alike_names), peers);
    read_work(works, "read 10,000 siblings", many(4, [] { return siblings(10000); }), peers);
    read_work(works, "read 8,000 comments", many(4, [] { return comments(8000); }), peers);
    read_work(works, "read a value of Chinese, 20,000 characters", many(4, [] { return described("电路板", 6667); }), peers);
    read_work(works, "read a value of German, 20,000 characters", many(4, [] { return described("Prüfung der größeren Brücke ", 714); }), peers);
    read_work(works, "one value, a byte at 60000", many(4, [] { return long_value(60000); }), peers);
    read_work(works, "one value, a byte at 600", many(400, [] { return long_value(600); }), {});
    read_work(works, "one text, a byte at 60000", many(4, [] { return text_of(60000); }), peers);
    read_work(works, "one text, a byte at 600", many(400, [] { return text_of(600); }), {});
}
