// Receiving and sending: this library's calls from C, and a program that does the same by hand (plain.hpp) over expat or pugixml. The peers are given
// each message's bytes; this library finds the cut itself. All must come to the same refusals, belt orders, states and bytes.
#include <expat.h>
#include <pugixml.hpp>

#include <functional>
#include <vector>

#include "../include/tryphomel.h"
#include "plain.hpp"
#include "race.hpp"

namespace {

using plain::Message;

// A lane of a library: a receiving, a sending, and what they leave.
struct Ours {
    tryphomel_lane lane;
    tryphomel_received got;
};

struct Theirs {
    plain::Lane lane;
    Message got;
    unsigned depth;
};

// expat

void XMLCALL opened(void *user, const XML_Char *name, const XML_Char **pairs) {
    Theirs &t = *static_cast<Theirs *>(user);
    t.depth++;
    if (t.depth == 1 && strcmp(name, "Hermes") != 0) t.got.refusal = 2;
    if (t.depth == 2) {
        t.got.kind = plain::kind_of(name);
        plain::take_rows(t.got, [&](const char *wanted) -> const char * {
            for (const XML_Char **p = pairs; p[0]; p += 2)
                if (strcmp(p[0], wanted) == 0) return p[1];
            return nullptr;
        });
    }
    if (t.depth == 3 && strcmp(name, "SupportedFeatures") == 0) t.got.features = true;
    if (t.depth == 4) plain::take_feature(t.got, name);
}

void XMLCALL closed(void *user, const XML_Char *) { static_cast<Theirs *>(user)->depth--; }

plain::Answer receive_expat(Theirs &t, const char *bytes, size_t size, char *out, size_t room) {
    static XML_Parser p = XML_ParserCreate(nullptr);
    XML_ParserReset(p, nullptr);
    XML_SetUserData(p, &t);
    XML_SetElementHandler(p, opened, closed);
    t.depth = 0;
    t.got.kind = t.got.refusal = 0;
    t.got.features = t.got.forecast = t.got.query = t.got.send = false;
    if (XML_Parse(p, bytes, (int)size, 1) != XML_STATUS_OK) t.got.refusal = 2;
    return plain::received(t.lane, t.got, out, room);
}

plain::Answer send_plainly(Theirs &t, const Message &m, char *out, size_t room) {
    plain::Lane before = t.lane;
    plain::Out o{out, room, 0};
    o.put("<Hermes><");
    o.put(plain::KINDS[m.kind]);
    int refusal = plain::rows_of(m, [&](const char *name, const char *s, size_t n) {
        o.put(" ");
        o.put(name);
        o.put("=\"");
        o.escaped(s, n);
        o.put("\"");
    });
    if (refusal) return {refusal, 0, 0};
    if (m.kind == 1) {
        o.put("><SupportedFeatures");
        o.put(m.forecast || m.query || m.send ? ">" : "/>");
        if (m.forecast) o.put("<FeatureBoardForecast/>");
        if (m.query) o.put("<FeatureQueryBoardInfo/>");
        if (m.send) o.put("<FeatureSendBoardInfo/>");
        if (m.forecast || m.query || m.send) o.put("</SupportedFeatures>");
        o.put("</ServiceDescription></Hermes>");
    } else {
        o.put("/></Hermes>");
    }
    int order = plain::move(t.lane, m, false);
    if (order < 0) return {8, 0, 0};
    if (o.n > room) return t.lane = before, plain::Answer{7, 0, 0};
    return {0, order, o.n};
}

// pugixml

plain::Answer receive_pugixml(Theirs &t, const char *bytes, size_t size, char *out, size_t room) {
    static pugi::xml_document d;
    static std::vector<char> copy;
    copy.assign(bytes, bytes + size);
    Message &m = t.got;
    m.kind = m.refusal = 0;
    m.features = m.forecast = m.query = m.send = false;
    if (!d.load_buffer_inplace(copy.data(), copy.size()) || strcmp(d.first_child().name(), "Hermes") != 0) m.refusal = 2;
    pugi::xml_node child = d.first_child().first_child();
    m.kind = plain::kind_of(child.name());
    plain::take_rows(m, [&](const char *wanted) -> const char * {
        pugi::xml_attribute a = child.attribute(wanted);
        return a ? a.value() : nullptr;
    });
    if (pugi::xml_node f = child.child("SupportedFeatures")) {
        m.features = true;
        for (pugi::xml_node n : f.children()) plain::take_feature(m, n.name());
    }
    return plain::received(t.lane, m, out, room);
}

struct Into : pugi::xml_writer {
    plain::Out o;
    explicit Into(plain::Out o) : o(o) {}
    void write(const void *data, size_t size) override { o.put((const char *)data, size); }
};

plain::Answer send_pugixml(Theirs &t, const Message &m, char *out, size_t room) {
    static pugi::xml_document d;
    d.reset();
    pugi::xml_node child = d.append_child("Hermes").append_child(plain::KINDS[m.kind]);
    int refusal = plain::rows_of(m, [&](const char *name, const char *s, size_t n) { child.append_attribute(name).set_value(s, n); });
    if (refusal) return {refusal, 0, 0};
    if (m.kind == 1) {
        pugi::xml_node f = child.append_child("SupportedFeatures");
        if (m.forecast) f.append_child("FeatureBoardForecast");
        if (m.query) f.append_child("FeatureQueryBoardInfo");
        if (m.send) f.append_child("FeatureSendBoardInfo");
    }
    Into to({out, room, 0});
    d.save(to, "", pugi::format_raw | pugi::format_no_declaration);
    plain::Lane before = t.lane;
    int order = plain::move(t.lane, m, false);
    if (order < 0) return {8, 0, 0};
    if (to.o.n > room) return t.lane = before, plain::Answer{7, 0, 0};
    return {0, order, to.o.n};
}

// ours

plain::Answer receive_ours(Ours &u, const char *bytes, size_t size, char *out, size_t room) {
    tryphomel_lane_receive(&u.lane, bytes, size, out, room, &u.got);
    return {u.got.refusal, u.got.order, u.got.written};
}

struct Sending {
    tryphomel_message message;
    std::string texts;
};

plain::Answer send_ours(Ours &u, const Sending &m, char *out, size_t room) {
    tryphomel_sent s;
    tryphomel_lane_send(&u.lane, &m.message, m.texts.data(), m.texts.size(), out, room, &s);
    return {s.refusal, s.order, s.written};
}

// The messages, for both.

unsigned seed = 1;
unsigned next(unsigned n) {
    seed = seed * 1103515245u + 12345u;
    return (seed >> 16) % n;
}

struct Both {
    Message theirs{};
    Sending ours{};
    explicit Both(int kind) { theirs.kind = kind, ours.message.kind = (uint64_t)kind; }
    void text(int row, tryphomel_words &w, const std::string &s) {
        theirs.values[row].there = true;
        plain::copy(theirs.values[row], s.data(), s.size());
        w = tryphomel_part(ours.texts.size(), s.size());
        ours.texts += s;
    }
    void number(int row, tryphomel_number &w, uint64_t n) {
        theirs.values[row].there = true;
        theirs.values[row].number = n;
        w = tryphomel_is(n);
    }
    void id(int row, const std::string &s) {
        theirs.values[row].there = true;
        plain::copy(theirs.values[row], s.data(), 36);
        tryphomel_name_board(&ours.message, (const uint8_t *)s.data());
    }
};

std::string words(unsigned n) {
    std::string s;
    while (s.size() < n) s += "PCB-TOP-42 rev. B/lot "[next(22)];
    return s;
}

std::string guid() {
    std::string s;
    for (int i = 0; i < 36; i++) s += (i == 8 || i == 13 || i == 18 || i == 23) ? '-' : "0123456789abcdef"[next(16)];
    return s;
}

Both board(const std::string &id) {
    Both b(3);
    auto &m = b.ours.message.as.board;
    b.id(0, id);
    b.text(1, m.by, words(12));
    b.number(2, m.failed, next(3));
    b.text(3, m.product, words(10 + next(120)));
    b.number(4, m.flipped, 0);
    if (next(2)) b.text(5, m.top, words(20 + next(60)) + "<&");
    if (next(2)) b.text(6, m.bottom, words(20 + next(60)));
    b.number(7, m.length, (50 + next(400)) * 1000000 + 500000);
    b.number(8, m.width, (50 + next(400)) * 1000000);
    b.number(9, m.thickness, 1600000);
    b.number(10, m.speed, (100 + next(300)) * 1000000);
    b.number(11, m.above, 25000000);
    b.number(12, m.below, 25400000);
    if (next(2)) b.number(13, m.weight, (10 + next(900)) * 1000000);
    if (next(2)) b.text(14, m.order, "WO-" + std::to_string(next(100000)));
    return b;
}

Both described() {
    Both b(1);
    auto &m = b.ours.message.as.service;
    b.text(0, m.machine, "Printer 3");
    b.number(1, m.lane, 1);
    b.text(2, m.version, "1.6");
    b.theirs.features = b.theirs.query = true;
    m.features = tryphomel_supports(TRYPHOMEL_FEATURE_QUERY);
    return b;
}

Both ready() {
    Both b(5);
    b.number(0, b.ours.message.as.ready.failed, 0);
    return b;
}

Both start(const std::string &id) {
    Both b(7);
    b.id(0, id);
    b.number(1, b.ours.message.as.transport.speed, 300000000);
    return b;
}

Both transfer(int kind, const std::string &id) {
    Both b(kind);
    b.number(0, b.ours.message.as.transfer.state, 3);
    b.id(1, id);
    return b;
}

Both ping() {
    Both b(10);
    b.number(0, b.ours.message.as.alive.ping, 1);
    b.text(1, b.ours.message.as.alive.id, "42");
    return b;
}

struct Step {
    int sender;
    Both message;
};

// A board from one machine to the next, and a CheckAlive.
std::vector<Step> handover() {
    std::string id = guid();
    return {{2, described()}, {1, described()}, {1, board(id)}, {2, ready()}, {2, start(id)}, {1, transfer(9, id)}, {2, transfer(8, id)}, {1, ping()}};
}

// What all must agree on.
struct Sum {
    uint64_t of = 14695981039346656037u;
    void add(uint64_t n) { of = (of ^ n) * 1099511628211u; }
    void add(const plain::Answer &a, int state) { add((uint64_t)a.refusal), add((uint64_t)a.order), add(a.written), add((uint64_t)state); }
};

template <typename L>
int state_of(const L &l) {
    return l.lane.state;
}

const Sending &for_side(const Ours &, const Both &b) { return b.ours; }
const Message &for_side(const Theirs &, const Both &b) { return b.theirs; }

template <typename L>
L lane_of(int side, int state) {
    L l{};
    l.lane.side = (decltype(l.lane.side))side;
    l.lane.state = (decltype(l.lane.state))state;
    return l;
}

using Round = std::function<uint64_t()>;

template <typename F>
uint64_t summed(F f) {
    Sum sum;
    f(sum);
    return sum.of;
}

template <typename L, typename R>
Round receiving(const std::vector<std::string> &in, int state, R receive) {
    return [=, &in] {
        static char out[TRYPHOMEL_RECEIVE_ROOM];
        static L l;
        const L fresh = lane_of<L>(2, state);
        return summed([&](Sum &sum) {
            for (auto &m : in) {
                l.lane = fresh.lane;
                sum.add(receive(l, m.data(), m.size(), out, sizeof out), state_of(l));
                sum.add((unsigned char)l.lane.offered[0]);
            }
        });
    };
}

template <typename L, typename S>
Round sending(const std::vector<Both> &in, int state, S send, bool whole) {
    return [=, &in] {
        static char out[TRYPHOMEL_SEND_ROOM];
        static L l;
        const L fresh = lane_of<L>(1, state);
        return summed([&](Sum &sum) {
            for (auto &m : in) {
                l.lane = fresh.lane;
                plain::Answer a = send(l, for_side(l, m), out, sizeof out);
                sum.add(a, state_of(l));
                if (whole)
                    for (size_t i = 0; i < a.written; i++) sum.add((unsigned char)out[i]);
            }
        });
    };
}

template <typename L, typename S, typename R>
Round playing(const std::vector<std::vector<Step>> &all, S send, R receive) {
    return [=, &all] {
        static char out[TRYPHOMEL_SEND_ROOM], back[TRYPHOMEL_RECEIVE_ROOM], none[1];
        static L lanes[3];
        return summed([&](Sum &sum) {
            for (auto &steps : all) {
                lanes[1].lane = lane_of<L>(1, 0).lane;
                lanes[2].lane = lane_of<L>(2, 0).lane;
                for (auto &s : steps) {
                    L &from = lanes[s.sender], &to = lanes[3 - s.sender];
                    plain::Answer a = send(from, for_side(from, s.message), out, sizeof out);
                    sum.add(a, state_of(from));
                    plain::Answer b = receive(to, out, a.written, back, sizeof back);
                    sum.add(b, state_of(to));
                    if (b.written) sum.add(receive(from, back, b.written, none, sizeof none), state_of(from));
                }
            }
        });
    };
}

size_t size_of(const std::vector<std::string> &all) {
    size_t n = 0;
    for (auto &m : all) n += m.size();
    return n;
}

}  // namespace

void lane_works(std::vector<Work> &works) {
    static std::vector<Both> boards;
    static std::vector<std::string> offered, pings;
    static std::vector<std::vector<Step>> all;
    for (int i = 0; i < 500; i++) {
        boards.push_back(board(guid()));
        Ours u = lane_of<Ours>(1, 2);
        char out[TRYPHOMEL_SEND_ROOM];
        offered.emplace_back(out, send_ours(u, boards.back().ours, out, sizeof out).written);
        pings.push_back("<Hermes><CheckAlive Type=\"1\" Id=\"" + std::to_string(i) + "\"/></Hermes>");
    }
    for (int i = 0; i < 100; i++) all.push_back(handover());
    double size = (double)size_of(offered);
    works.push_back({"receive a BoardAvailable", 500, size, {{"tryphomel", receiving<Ours>(offered, 2, receive_ours)},
                                                             {"pugixml and by hand", receiving<Theirs>(offered, 2, receive_pugixml)},
                                                             {"expat and by hand", receiving<Theirs>(offered, 2, receive_expat)}}});
    works.push_back({"receive a CheckAlive, and reply", 500, (double)size_of(pings), {{"tryphomel", receiving<Ours>(pings, 2, receive_ours)},
                                                                                      {"pugixml and by hand", receiving<Theirs>(pings, 2, receive_pugixml)},
                                                                                      {"expat and by hand", receiving<Theirs>(pings, 2, receive_expat)}}});
    uint64_t bytes = sending<Ours>(boards, 2, send_ours, true)();
    bool same = bytes == sending<Theirs>(boards, 2, send_plainly, true)() && bytes == sending<Theirs>(boards, 2, send_pugixml, true)();
    works.push_back({same ? "send a BoardAvailable" : "send a BoardAvailable (NOT THE SAME BYTES)", 500, size, {{"tryphomel", sending<Ours>(boards, 2, send_ours, false)},
                                                                                                             {"pugixml and by hand", sending<Theirs>(boards, 2, send_pugixml, false)},
                                                                                                             {"by hand", sending<Theirs>(boards, 2, send_plainly, false)}}});
    works.push_back({"a handover: both sides, 8 messages sent and received, and a reply", 100, 100, {{"tryphomel", playing<Ours>(all, send_ours, receive_ours)},
                                                                                                  {"pugixml and by hand", playing<Theirs>(all, send_pugixml, receive_pugixml)},
                                                                                                  {"expat and by hand", playing<Theirs>(all, send_plainly, receive_expat)}}});
}
