// The calls of a lane under the fuzzer: what is lent is kept to, and each answer is what document 01's table of refusals says of it.
#pragma once
#include "fence.hpp"

// A record as the dials choose it: any side and state, also impossible ones; ids that a message of the seeds names, others, or zero. The ForecastId
// has any length, also an impossible one, and bytes behind it.
inline tryphomel_lane lane_of(const Dials &d) {
    static const char seeded[] = "01234567-89ab-cdef-0123-456789abcdef", forecast[] = "a<b";
    tryphomel_lane l;
    l.side = d.side % 4;
    l.state = d.state < 250 ? d.state % 10 : d.state;
    for (size_t i = 0; i < sizeof l.offered; i++) {
        l.offered[i] = d.ids & 1 ? (uint8_t)seeded[i] : d.ids & 2 ? 0x77 : 0;
        l.running[i] = d.ids & 4 ? (uint8_t)seeded[i] : d.ids & 8 ? 0x78 : 0;
    }
    memset(l.forecast, d.ids & 16 ? 0x79 : 0, sizeof l.forecast);
    l.forecast_length = d.ids & 32 ? 3 : d.forecast;
    if (d.ids & 32) memcpy(l.forecast, forecast, 3);
    return l;
}

inline bool same(const tryphomel_lane &a, const tryphomel_lane &b) { return memcmp(&a, &b, sizeof a) == 0; }

inline bool zeros(const uint8_t *from, const uint8_t *to) {
    return std::all_of(from, to, [](uint8_t b) { return b == 0; });
}

inline bool is_zero(const uint8_t *id) { return zeros(id, id + TRYPHOMEL_ID_BYTES); }

// The record keeps that ForecastId, and zeros behind it.
inline bool keeps(const tryphomel_lane &l, const std::string &id) {
    const uint8_t *end = l.forecast + sizeof l.forecast;
    return l.forecast_length == id.size() && memcmp(l.forecast, id.data(), id.size()) == 0 && zeros(l.forecast + id.size(), end);
}

inline bool under_way(unsigned state) { return state >= TRYPHOMEL_TRANSPORTING && state <= TRYPHOMEL_FINISHED; }

// The ForecastId is in use from Idle on; a length above 80 reads as 0.
inline bool forecast_used(unsigned state) { return state >= TRYPHOMEL_IDLE && state <= TRYPHOMEL_FINISHED; }

inline std::string forecast_of(const tryphomel_lane &l) {
    bool used = forecast_used(l.state) && l.forecast_length <= TRYPHOMEL_FORECAST_BYTES;
    return std::string((const char *)l.forecast, used ? l.forecast_length : 0);
}

// The cell of a message's ForecastId; an absent one for a kind that has none.
inline tryphomel_words forecast_in(const tryphomel_message &m) {
    if (m.kind == TRYPHOMEL_BOARD_FORECAST) return m.as.forecast.forecast;
    return m.kind == TRYPHOMEL_MACHINE_READY ? m.as.ready.forecast : tryphomel_words{0, 0, 0};
}

// An accepted message with that ForecastId, if it has one: the last one received is kept until a MachineReady has the same.
inline void forecast_kept(const tryphomel_lane &before, const tryphomel_lane &after, const tryphomel_message &m, const std::string &id, bool received) {
    std::string held = forecast_of(before);
    bool there = forecast_in(m).there;
    if (m.kind == TRYPHOMEL_BOARD_FORECAST && there && received) held = id;
    if (m.kind == TRYPHOMEL_MACHINE_READY && there && held == id) held = "";
    expect(keeps(after, forecast_used(after.state) ? held : ""), "the last ForecastId received is kept until it is answered");
    if (m.kind != TRYPHOMEL_BOARD_FORECAST) return;
    bool calm = before.state == TRYPHOMEL_IDLE || before.state == TRYPHOMEL_READY;
    expect(before.side == (received ? TRYPHOMEL_DOWNSTREAM : TRYPHOMEL_UPSTREAM) && after.state == before.state, "a forecast changes no state");
    expect(calm || (received && (before.state == TRYPHOMEL_TRANSPORTING || before.state == TRYPHOMEL_STOPPED)), "a forecast in its states");
    expect(!under_way(before.state) || memcmp(before.running, after.running, sizeof after.running) == 0, "a forecast changes no board");
}

// A buffer of the dials' size against a fence, and what is said of it afterwards.
class Out {
   public:
    Out(Fence &fence, size_t room, bool high) : fence(fence), room(room), bytes(fence.lend(room, high)) { memset(bytes, FILL, room); }

    void kept_behind(size_t written) {
        expect(fence.side_kept(), "nothing beside the buffer is changed");
        expect(written <= room, "what is written is in the buffer");
        expect(std::all_of(bytes + written, bytes + room, [](uint8_t b) { return b == FILL; }), "the rest of the buffer is kept");
    }

   private:
    static const uint8_t FILL = 0x5a;
    Fence &fence;

   public:
    size_t room;
    uint8_t *bytes;
};

// Bytes of the Notification of a refusal, and 0 for one that does not end the connection.
inline size_t notification(unsigned refusal) {
    static const size_t bytes[] = {0, 0, 98, 97, 98, 94, 90, 0, 0, 99};
    return refusal < 10 ? bytes[refusal] : 0;
}

// An answer that keeps the record and writes nothing.
inline void nothing_done(const tryphomel_received &r, const tryphomel_lane &before, const tryphomel_lane &after) {
    expect(same(before, after) && r.order == 0 && r.used == 0 && r.written == 0, "1 and 7 keep all");
}

inline void ended(const tryphomel_received &r, const tryphomel_lane &before, const tryphomel_lane &after, const Read &read) {
    expect(after.side == before.side && after.state == 0 && is_zero(after.offered) && is_zero(after.running), "the record is NotConnected");
    expect(keeps(after, ""), "and keeps no ForecastId");
    expect(r.order == (under_way(before.state) ? 3 : 0), "stop now, if a board is under way");
    expect(r.written == notification(r.refusal), "a Notification is written");
    expect(r.used == (r.refusal < 4 ? 0 : read.place), "bytes used");
    expect(r.place == (r.refusal == 2 ? read.place : 0), "the place of 2");
}

// The text of a received ForecastId.
inline std::string received_id(const tryphomel_message &m, const uint8_t *bytes, size_t n) {
    uint8_t scratch[TRYPHOMEL_FORECAST_BYTES];
    const uint8_t *text;
    uint64_t count;
    bool there = tryphomel_words_text(forecast_in(m), bytes, n, scratch, sizeof scratch, &text, &count) == 0;
    expect(there == (forecast_in(m).there != 0), "a ForecastId has a text of at most 80 bytes");
    return there ? std::string((const char *)text, count) : "";
}

inline void on_receive(const uint8_t *bytes, size_t n, const Dials &d, const Read &read, bool high) {
    static Fence fence;
    tryphomel_received r;
    tryphomel_lane lane = lane_of(d), before = lane;
    Out out(fence, d.out, high);
    memset(&r, 9, sizeof r);
    tryphomel_lane_receive(&lane, bytes, n, out.bytes, out.room, &r);
    out.kept_behind(r.written);
    expect(r.refusal <= 9 && r.refusal != 8, "a refusal of receiving");
    expect(r.refusal != 7 || out.room < TRYPHOMEL_RECEIVE_ROOM, "enough room is enough");
    expect(read.answer == 0 || r.refusal == read.answer || r.refusal == 7, "reading decides first");
    expect(read.answer != 1 || r.refusal == 1, "more is needed");
    if (r.refusal == 1 || r.refusal == 7) return nothing_done(r, before, lane);
    if (r.refusal != 0) return ended(r, before, lane, read);
    expect(r.used == read.place && r.order <= 2 && lane.side == before.side, "an accepted message");
    expect(under_way(lane.state) || is_zero(lane.running), "a running id only while a board is under way");
    expect(r.written == 0 || r.message.kind == TRYPHOMEL_CHECK_ALIVE, "only a CheckAlive is replied to");
    forecast_kept(before, lane, r.message, received_id(r.message, bytes, n), true);
}

// Sends what was checked, or that with one number changed; its texts are the input's bytes.
inline void on_send(const uint8_t *bytes, size_t n, const Dials &d, bool high) {
    static Fence fence;
    tryphomel_checked c, back;
    tryphomel_sent s;
    tryphomel_message_check(bytes, n, &c);
    if (d.there % 2) ((uint64_t *)&c.message)[d.there % (1 + TRYPHOMEL_NUMBERS)] = d.start;
    tryphomel_lane lane = lane_of(d), before = lane;
    Out out(fence, d.out, high);
    memset(&s, 9, sizeof s);
    tryphomel_lane_send(&lane, &c.message, bytes, n, out.bytes, out.room, &s);
    out.kept_behind(s.written);
    expect(s.refusal == 0 || (s.refusal >= 4 && s.refusal <= 8), "a refusal of sending");
    expect(s.refusal != 7 || out.room < TRYPHOMEL_SEND_ROOM, "enough room is enough");
    if (s.refusal != 0) return expect(same(before, lane) && s.order == 0 && s.written == 0, "a refusal keeps all");
    expect(s.order <= 1 && lane.side == before.side, "an accepted message");
    expect(tryphomel_message_check(out.bytes, s.written, &back) == 0 && back.end == s.written, "what is sent is a message");
    expect(back.message.kind == c.message.kind, "of that kind");
    forecast_kept(before, lane, c.message, received_id(back.message, out.bytes, s.written), false);
}
