// A lane as a program would write it by hand over an XML parser: the attribute table, the checks, the chart and the writer, plainly.
// The parser's own checks of XML are all that it has: text between elements or a second child are not looked for.
#pragma once
#include <charconv>
#include <cstdio>
#include <cstring>
#include <string>

#include "values.hpp"

namespace plain {

enum Form { END, GUID, TEXT, SOME_TEXT, INT, VERSION, POSITIVE };

struct Row {
    const char *name;
    Form form;
    unsigned lo, hi;  // of an int; hi is a text's limit
    bool optional;
};

inline const char *const KINDS[12] = {"",           "ServiceDescription", "Notification",   "BoardAvailable", "RevokeBoardAvailable", "MachineReady",
                                      "RevokeMachineReady", "StartTransport",     "StopTransport", "TransportFinished", "CheckAlive", "BoardForecast"};

inline const Row TABLE[12][18] = {
    {},
    {{"MachineId", TEXT, 0, 80, false}, {"LaneId", INT, 1, 65535, false}, {"Version", VERSION, 0, 0, false}},
    {{"NotificationCode", INT, 1, 65535, false}, {"Severity", INT, 1, 4, false}, {"Description", TEXT, 0, 254, false}},
    {{"BoardId", GUID, 0, 0, false}, {"BoardIdCreatedBy", SOME_TEXT, 0, 80, false}, {"FailedBoard", INT, 0, 2, false}, {"ProductTypeId", TEXT, 0, 254, true},
     {"FlippedBoard", INT, 0, 2, false}, {"TopBarcode", TEXT, 0, 254, true}, {"BottomBarcode", TEXT, 0, 254, true}, {"Length", POSITIVE, 0, 0, true},
     {"Width", POSITIVE, 0, 0, true}, {"Thickness", POSITIVE, 0, 0, true}, {"ConveyorSpeed", POSITIVE, 0, 0, true},
     {"TopClearanceHeight", POSITIVE, 0, 0, true}, {"BottomClearanceHeight", POSITIVE, 0, 0, true}, {"Weight", POSITIVE, 0, 0, true},
     {"WorkOrderId", TEXT, 0, 80, true}, {"Route", INT, 0, 65535, true}, {"BatchId", TEXT, 0, 80, true}},
    {},
    {{"FailedBoard", INT, 0, 2, false}, {"ForecastId", TEXT, 0, 80, true}},
    {},
    {{"BoardId", GUID, 0, 0, false}, {"ConveyorSpeed", POSITIVE, 0, 0, true}},
    {{"TransferState", INT, 1, 3, false}, {"BoardId", GUID, 0, 0, false}},
    {{"TransferState", INT, 1, 3, false}, {"BoardId", GUID, 0, 0, false}},
    {{"Type", INT, 1, 2, true}, {"Id", TEXT, 0, 80, true}},
    {{"ForecastId", TEXT, 0, 80, true}, {"TimeUntilAvailable", POSITIVE, 0, 0, true}, {"BoardId", GUID, 0, 0, true}, {"BoardIdCreatedBy", TEXT, 0, 80, true},
     {"FailedBoard", INT, 0, 2, false}, {"ProductTypeId", TEXT, 0, 254, true}, {"FlippedBoard", INT, 0, 2, false}, {"TopBarcode", TEXT, 0, 254, true},
     {"BottomBarcode", TEXT, 0, 254, true}, {"Length", POSITIVE, 0, 0, true}, {"Width", POSITIVE, 0, 0, true}, {"Thickness", POSITIVE, 0, 0, true},
     {"ConveyorSpeed", POSITIVE, 0, 0, true}, {"TopClearanceHeight", POSITIVE, 0, 0, true}, {"BottomClearanceHeight", POSITIVE, 0, 0, true},
     {"Weight", POSITIVE, 0, 0, true}, {"WorkOrderId", TEXT, 0, 80, true}},
};

struct Value {
    bool there;
    uint64_t number;
    size_t length;
    char text[256];  // an id too
};

struct Message {
    int kind, refusal;
    bool features, forecast, query, send;
    Value values[17];  // in the order of the kind's rows
};

inline int kind_of(const char *name) {
    for (int k = 1; k <= 11; k++)
        if (strcmp(KINDS[k], name) == 0) return k;
    return 0;
}

inline bool is_version(const char *s, size_t n) {
    size_t a = 0, b = 0;
    while (a < n && s[a] >= '0' && s[a] <= '9') a++;
    while (a + 1 + b < n && s[a + 1 + b] >= '0' && s[a + 1 + b] <= '9') b++;
    return a >= 1 && a <= 3 && s[a] == '.' && b >= 1 && b <= 3 && a + 1 + b == n;
}

inline void copy(Value &v, const char *s, size_t n) {
    v.length = n;
    memcpy(v.text, s, n);
}

// 0, or the refusal of a value.
inline int judge(const Row &row, const char *s, size_t n, Value &v) {
    unsigned number = 0;
    v.there = true;
    switch (row.form) {
        case GUID: return to_guid(s, n, v.text) ? 0 : 6;
        case TEXT:
        case SOME_TEXT:
            if (n > row.hi) return 5;
            copy(v, s, n);
            return row.form == SOME_TEXT && n == 0 ? 6 : 0;
        case VERSION:
            if (!is_version(s, n)) return 6;
            copy(v, s, n);
            return 0;
        case INT:
            if (!to_int(s, s + n, row.lo, row.hi, number)) return 6;
            v.number = number;
            return 0;
        default: return to_millionths(s, s + n, v.number) ? 0 : 6;
    }
}

// The rows of the element in table order; find gives an attribute's value or a null pointer.
template <typename Find>
void take_rows(Message &m, Find find) {
    for (int i = 0; TABLE[m.kind][i].form != END; i++) {
        const Row &row = TABLE[m.kind][i];
        m.values[i].there = false;
        if (m.refusal) continue;
        const char *s = find(row.name);
        if (s)
            m.refusal = judge(row, s, strlen(s), m.values[i]);
        else if (!row.optional)
            m.refusal = 4;
    }
}

inline void take_feature(Message &m, const char *name) {
    if (strcmp(name, "FeatureBoardForecast") == 0) m.forecast = true;
    if (strcmp(name, "FeatureQueryBoardInfo") == 0) m.query = true;
    if (strcmp(name, "FeatureSendBoardInfo") == 0) m.send = true;
}

struct Lane {
    int side, state;
    char offered[36], running[36];
    size_t forecast_length;
    char forecast[80];
};

struct Answer {
    int refusal, order;
    size_t written;
};

// The next state, or -1.
inline int chart(int state, int kind, int sender, bool received, bool same) {
    bool up = sender == 1, down = sender == 2;
    switch (kind) {
        case 0: return received ? state : -1;
        case 1: return state == 0 && down ? 1 : state == 1 && up ? 2 : -1;
        case 3: return !up ? -1 : state == 2 ? 3 : state == 4 ? 5 : -1;
        case 4: return !up ? -1 : state == 3 ? 2 : state == 5 ? 4 : received && (state == 6 || state == 7) ? state : -1;
        case 5: return !down ? -1 : state == 2 ? 4 : state == 3 ? 5 : -1;
        case 6: return !down ? -1 : state == 4 ? 2 : state == 5 ? 3 : -1;
        case 7: return !down ? -1 : (state == 5 && (received || same)) || (state == 4 && received) ? 6 : -1;
        case 8: return !down || !same ? -1 : state == 6 ? 7 : state == 8 ? 2 : -1;
        case 9: return !up || !same ? -1 : state == 6 ? 8 : state == 7 ? 2 : -1;
        case 11: return up && (state == 2 || state == 4 || (received && (state == 6 || state == 7))) ? state : -1;
        default: return state;
    }
}

inline const char *id_of(const Message &m) {
    static const char none[36] = {0};
    return m.kind == 3 || m.kind == 7 ? m.values[0].text : m.kind == 8 || m.kind == 9 ? m.values[1].text : none;
}

inline void keep_forecast(Lane &l, const char *s, size_t n) {
    memset(l.forecast, 0, sizeof l.forecast);
    memcpy(l.forecast, s, n);
    l.forecast_length = n;
}

// The last ForecastId received is kept, until a MachineReady has the same one.
inline void take_forecast(Lane &l, const Message &m, bool received) {
    const Value &v = m.values[m.kind == 5 ? 1 : 0];
    if (m.kind == 11 && received && v.there) keep_forecast(l, v.text, v.length);
    if (m.kind == 5 && v.there && v.length == l.forecast_length && memcmp(v.text, l.forecast, v.length) == 0) keep_forecast(l, "", 0);
}

// Moves the lane; -1 where there is no transition.
inline int move(Lane &l, const Message &m, bool received) {
    const char *id = id_of(m);
    bool same = memcmp(m.kind == 7 ? l.offered : l.running, id, 36) == 0;
    int next = chart(l.state, m.kind, received ? 3 - l.side : l.side, received, same);
    if (next < 0) return -1;
    int order = m.kind != 7 ? 0 : l.state == 5 && same ? 1 : 2;
    if (next != 3 && next != 5)
        memset(l.offered, 0, 36);
    else if (m.kind == 3)
        memcpy(l.offered, id, 36);
    if (next < 6)
        memset(l.running, 0, 36);
    else if (m.kind == 7)
        memcpy(l.running, id, 36);
    l.state = next;
    take_forecast(l, m, received);
    return order;
}

struct Out {
    char *at;
    size_t room, n;
    void put(const char *s, size_t k) {
        if (n + k <= room) memcpy(at + n, s, k);
        n += k;
    }
    void put(const char *s) { put(s, strlen(s)); }
    void escaped(const char *s, size_t k) {
        for (size_t i = 0; i < k; i++) switch (s[i]) {
                case '&': put("&amp;"); break;
                case '<': put("&lt;"); break;
                case '>': put("&gt;"); break;
                case '"': put("&quot;"); break;
                case '\t': put("&#9;"); break;
                case '\n': put("&#10;"); break;
                case '\r': put("&#13;"); break;
                default: put(s + i, 1);
            }
    }
};

inline size_t decimal(uint64_t n, bool millionths, char *to) {
    char *e = std::to_chars(to, to + 24, millionths ? n / 1000000 : n).ptr;
    if (millionths && n % 1000000) {
        uint64_t rest = n % 1000000;
        *e++ = '.';
        for (uint64_t unit = 100000; rest; rest %= unit, unit /= 10) *e++ = (char)('0' + rest / unit);
    }
    return (size_t)(e - to);
}

// UTF-8 of XML's characters.
inline bool is_text(const char *s, size_t n) {
    for (size_t i = 0; i < n;) {
        unsigned char b = (unsigned char)s[i];
        unsigned more = b < 0x80 ? 0 : b >= 0xC2 && b <= 0xDF ? 1 : b >= 0xE0 && b <= 0xEF ? 2 : b >= 0xF0 && b <= 0xF4 ? 3 : 9;
        if (more == 9 || i + more >= n || (more == 0 && b < 32 && b != 9 && b != 10 && b != 13)) return false;
        uint32_t c = more == 0 ? b : more == 1 ? b & 31u : more == 2 ? b & 15u : b & 7u;
        for (unsigned k = 1; k <= more; k++) {
            if (((unsigned char)s[i + k] & 0xC0) != 0x80) return false;
            c = c << 6 | ((unsigned char)s[i + k] & 63u);
        }
        if ((more == 2 && c < 0x800) || (more == 3 && (c < 0x10000 || c > 0x10FFFF)) || (c >= 0xD800 && c <= 0xDFFF) || c == 0xFFFE || c == 0xFFFF) return false;
        i += more + 1;
    }
    return true;
}

// 0, or why a value may not be sent; its text as it is written.
inline int meant(const Row &row, const Value &v, char *number, const char *&s, size_t &n) {
    char id[36];
    s = v.text;
    n = row.form == GUID ? 36 : v.length;
    switch (row.form) {
        case GUID: return to_guid(s, n, id) ? 0 : 6;
        case INT:
        case POSITIVE:
            if (row.form == INT ? v.number < row.lo || v.number > row.hi : v.number == 0 || v.number > 9999999999999) return 6;
            n = decimal(v.number, row.form == POSITIVE, number);
            s = number;
            return 0;
        case VERSION: return is_version(s, n) ? 0 : 6;
        default: return n > row.hi ? 5 : (row.form == SOME_TEXT && n == 0) || !is_text(s, n) ? 6 : 0;
    }
}

// Each attribute to be written, in table order; 0, or the refusal.
template <typename Each>
int rows_of(const Message &m, Each each) {
    char number[32];
    for (int i = 0; TABLE[m.kind][i].form != END; i++) {
        const Row &row = TABLE[m.kind][i];
        const Value &v = m.values[i];
        const char *s;
        size_t n;
        if (!v.there && !row.optional) return 4;
        if (!v.there) continue;
        if (int refusal = meant(row, v, number, s, n)) return refusal;
        each(row.name, s, n);
    }
    return m.kind == 1 && !m.features ? 4 : 0;
}

inline Answer notify(int refusal, int order, char *out, size_t room) {
    static const char *const why[10] = {"", "", "malformed message", "message too long", "missing attribute", "text too long", "bad value", "", "", "invalid transition"};
    int n = snprintf(out, room, "<Hermes><Notification NotificationCode=\"1\" Severity=\"1\" Description=\"%s\"/></Hermes>", why[refusal]);
    return {refusal, order, (size_t)n};
}

// What is left of receiving once the message is read.
inline Answer received(Lane &l, Message &m, char *out, size_t room) {
    int order = l.state >= 6 ? 3 : 0;
    if (m.kind == 1 && !m.features && !m.refusal) m.refusal = 4;
    int moved = m.refusal ? -1 : move(l, m, true);
    if (moved < 0) {
        l.state = 0;
        memset(l.offered, 0, 36);
        memset(l.running, 0, 36);
        keep_forecast(l, "", 0);
        return notify(m.refusal ? m.refusal : 9, order, out, room);
    }
    if (m.kind != 10 || !m.values[0].there || m.values[0].number != 1) return {0, moved, 0};
    Out o{out, room, 0};
    o.put("<Hermes><CheckAlive Type=\"2\"");
    if (m.values[1].there) {
        o.put(" Id=\"");
        o.escaped(m.values[1].text, m.values[1].length);
        o.put("\"");
    }
    o.put("/></Hermes>");
    return {o.n > room ? 7 : 0, moved, o.n};
}

}  // namespace plain
