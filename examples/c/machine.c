/* What to copy: every event goes through one row of the table; a belt that must stand is stopped before anything is sent; sending that fails is
 * a lost connection. */
#define _POSIX_C_SOURCE 200809L
#include "machine.h"

#include <poll.h>
#include <stdio.h>

#include "line.h"

enum { HALVES_APART_MS = 20 };

static const char *const BOARDS[] = {"5d10d8c0-8c0a-4d5e-9f2b-0123456789ab", "0e9b7a52-31c4-4f6d-8a17-fedcba987654"};

const char *belt_name(enum belt belt) { return belt == RUNS ? "RUNS" : "stands"; }

static const char *event_name(enum event event) {
    static const char *const names[] = {"connected",  "",         "board ready",   "can take a board",   "fetches the board", "board between",
                                        "board left", "board in", "error or stop", "foresees a product", "sets its rails",    "cannot set its rails"};
    return event <= DECLINES ? names[event] : "";
}

void machine_show(const struct machine *m, const char *verb, const char *what) {
    char order[32] = "";
    if (m->order != TRYPHOMEL_ORDER_NONE) snprintf(order, sizeof order, "order %u, %s", m->order, tryphomel_order_name(m->order));
    printf("  %-10s %-8s %-27s %-18s %-13s belt %-7s ", m->name, verb, what, order, tryphomel_state_name(m->lane.state), belt_name(m->belt));
    if (m->lane.forecast_length != 0) printf("keeps %.*s ", m->lane.forecast_length, (const char *)m->lane.forecast);
    printf("%s\n", m->row != NULL ? m->row->name : "");
    fflush(stdout);
}

static void show_message(const struct machine *m, const char *verb, uint64_t kind, uint64_t transfer) {
    char what[40];
    if (transfer != 0)
        snprintf(what, sizeof what, "%s %u", tryphomel_kind_name(kind), (unsigned)transfer);
    else
        snprintf(what, sizeof what, "%s", tryphomel_kind_name(kind));
    machine_show(m, verb, what);
}

/* The belt obeys the row; without one it stands. A belt that starts with a message that we send, starts when the lane has allowed it. */
static void belt(struct machine *m, uint8_t before, const struct happening *now) {
    m->row = belt_row(m->lane.side, before, now);
    if (m->row == NULL || m->row->belt == STANDS) m->belt = STANDS;
    if (m->row != NULL && m->row->belt == RUNS && m->row->sends == 0) m->belt = RUNS;
}

static void belt_of_sent(struct machine *m, uint8_t before) {
    struct happening now = {.event = NOT_SENT};
    if (m->refusal != TRYPHOMEL_ACCEPTED)
        belt(m, before, &now);
    else if (m->row != NULL && m->row->belt == RUNS)
        m->belt = RUNS;
}

/* Keeps the last board that the lane named. */
static void remember(struct machine *m) {
    if (m->lane.state == TRYPHOMEL_OFFERED || m->lane.state == TRYPHOMEL_BOTH) memcpy(m->board, m->lane.offered, sizeof m->board);
    if (m->lane.state >= TRYPHOMEL_TRANSPORTING) memcpy(m->board, m->lane.running, sizeof m->board);
}

void machine_start(struct machine *m, uint8_t side, int line) {
    m->name = side == TRYPHOMEL_UPSTREAM ? "upstream" : "downstream";
    m->line = line;
    m->sees = TRYPHOMEL_NOT_STARTED;
    if (side == TRYPHOMEL_UPSTREAM)
        tryphomel_lane_upstream(&m->lane);
    else
        tryphomel_lane_downstream(&m->lane);
    machine_own(m, CONNECTED);
}

static void hang_up(struct machine *m) {
    line_close(m->line);
    m->line = -1;
    m->held = 0;
    m->foretold[0] = 0;
}

void machine_lost(struct machine *m) {
    struct happening now = {.event = LOST};
    if (m->line < 0) return;
    m->order = TRYPHOMEL_ORDER_NONE;
    belt(m, m->lane.state, &now);
    tryphomel_lane_lost(&m->lane);
    machine_show(m, "has lost", "the connection");
    hang_up(m);
}

int machine_put(struct machine *m, const void *bytes, size_t size) {
    const uint8_t *at = bytes;
    size_t piece = m->pieces <= 1 ? size : m->pieces >= size ? 1 : (size + m->pieces - 1) / m->pieces;
    while (size > 0) {
        if (piece > size) piece = size;
        if (!line_put(m->line, at, piece)) return 0;
        at += piece;
        size -= piece;
        if (m->pieces == 2 && size > 0) poll(NULL, 0, HALVES_APART_MS);
    }
    return 1;
}

static void put_or_lose(struct machine *m, const void *bytes, size_t size) {
    if (size > 0 && !machine_put(m, bytes, size)) machine_lost(m);
}

/* The ForecastId of our next forecast. */
static void next_forecast(const struct machine *m, char id[TRYPHOMEL_FORECAST_BYTES + 1]) {
    snprintf(id, TRYPHOMEL_FORECAST_BYTES + 1, "F&%u", m->forecasts + 1);
}

/* A message with the texts it names. */
struct letter {
    tryphomel_message message;
    char texts[2 * TRYPHOMEL_LONG_TEXT];
    size_t length;
};

static tryphomel_words bytes_of(struct letter *to, const void *bytes, size_t count) {
    tryphomel_words words = tryphomel_part(to->length, count);
    memcpy(to->texts + to->length, bytes, count);
    to->length += count;
    return words;
}

static tryphomel_words text(struct letter *to, const char *s) { return bytes_of(to, s, strlen(s)); }

static void describe(struct letter *to, const struct machine *m) {
    to->message.as.service.machine = text(to, m->name);
    to->message.as.service.lane = tryphomel_is(1);
    to->message.as.service.version = text(to, "1.6");
    to->message.as.service.features = tryphomel_supports(TRYPHOMEL_FEATURE_FORECAST);
}

static void offer(struct letter *to, const struct machine *m) {
    tryphomel_name_board(&to->message, BOARDS[m->boards % 2]);
    to->message.as.board.by = text(to, m->name);
    to->message.as.board.failed = tryphomel_is(TRYPHOMEL_GOOD_BOARD);
    to->message.as.board.flipped = tryphomel_is(TRYPHOMEL_SIDE_UP_UNKNOWN);
    to->message.as.board.top = text(to, "R&D 42");
    to->message.as.board.length = tryphomel_is(160500000);
}

static void foretell(struct letter *to, const struct machine *m) {
    char id[TRYPHOMEL_FORECAST_BYTES + 1];
    next_forecast(m, id);
    to->message.as.forecast.forecast = text(to, id);
    to->message.as.forecast.until = tryphomel_is(30000000);
    to->message.as.forecast.failed = tryphomel_is(TRYPHOMEL_GOOD_BOARD);
    to->message.as.forecast.flipped = tryphomel_is(TRYPHOMEL_SIDE_UP_UNKNOWN);
    to->message.as.forecast.width = tryphomel_is(80000000);
}

/* A forecast that the lane keeps is answered, but for one that we have declined. */
static void ready(struct letter *to, const struct machine *m) {
    to->message.as.ready.failed = tryphomel_is(TRYPHOMEL_READY_FOR_ANY_BOARD);
    if (m->lane.forecast_length != 0 && !m->declined) to->message.as.ready.forecast = bytes_of(to, m->lane.forecast, m->lane.forecast_length);
}

static void decline(struct letter *to) {
    to->message.as.notification.code = tryphomel_is(TRYPHOMEL_CODE_BOARD_FORECAST_ERROR);
    to->message.as.notification.severity = tryphomel_is(TRYPHOMEL_SEVERITY_ERROR);
    to->message.as.notification.description = text(to, "the forecast board is too wide");
}

/* Fills in what the message's kind must have. A start names the offered board, an end the running one. */
static void fill(struct letter *to, const struct machine *m, uint64_t transfer) {
    switch (to->message.kind) {
        case TRYPHOMEL_SERVICE_DESCRIPTION: describe(to, m); break;
        case TRYPHOMEL_BOARD_AVAILABLE: offer(to, m); break;
        case TRYPHOMEL_BOARD_FORECAST: foretell(to, m); break;
        case TRYPHOMEL_MACHINE_READY: ready(to, m); break;
        case TRYPHOMEL_NOTIFICATION: decline(to); break;
        case TRYPHOMEL_START_TRANSPORT: tryphomel_name_board(&to->message, m->lane.offered); break;
        case TRYPHOMEL_STOP_TRANSPORT:
        case TRYPHOMEL_TRANSPORT_FINISHED:
            tryphomel_name_board(&to->message, m->lane.running);
            to->message.as.transfer.state = tryphomel_is(transfer);
            break;
        case TRYPHOMEL_CHECK_ALIVE:
            to->message.as.alive.ping = tryphomel_is(TRYPHOMEL_PING);
            to->message.as.alive.id = text(to, "still there?");
            break;
    }
}

static void send_message(struct machine *m, uint64_t kind, uint64_t transfer) {
    uint8_t out[TRYPHOMEL_SEND_ROOM], before = m->lane.state;
    struct letter to = {.message = tryphomel_blank(kind)};
    tryphomel_sent s;
    fill(&to, m, transfer);
    m->refusal = tryphomel_lane_send(&m->lane, &to.message, to.texts, to.length, out, sizeof out, &s);
    m->order = s.order;
    belt_of_sent(m, before);
    remember(m);
    if (m->refusal == TRYPHOMEL_ACCEPTED && kind == TRYPHOMEL_BOARD_FORECAST) {
        next_forecast(m, m->foretold);
        m->forecasts++;
    }
    show_message(m, m->refusal == TRYPHOMEL_ACCEPTED ? "sends" : "may not", kind, transfer);
    put_or_lose(m, out, (size_t)s.written);
}

/* Sends what the row says. */
static void answer(struct machine *m) {
    uint64_t transfer = m->row != NULL ? m->row->transfer : 0;
    if (m->row == NULL || m->row->sends == 0 || m->line < 0) return;
    if (transfer == AS_SEEN) transfer = m->sees;
    send_message(m, m->row->sends, transfer);
}

/* What our sensors make of an event. */
static void sense(struct machine *m, enum event event) {
    if (event == BOARD || event == FETCHES) m->sees = TRYPHOMEL_NOT_STARTED;
    if (event == MOVES) m->sees = TRYPHOMEL_INCOMPLETE;
    if (event == DECLINES) m->declined = 1;
    if (event == LEFT || event == ARRIVED) {
        m->sees = TRYPHOMEL_COMPLETE;
        m->boards++;
    }
}

void machine_own(struct machine *m, enum event event) {
    struct happening now = {.event = event};
    m->refusal = TRYPHOMEL_ACCEPTED;
    m->order = TRYPHOMEL_ORDER_NONE;
    sense(m, event);
    belt(m, m->lane.state, &now);
    machine_show(m, "itself", event_name(event));
    answer(m);
}

void machine_send(struct machine *m, uint64_t kind) {
    m->row = NULL;
    send_message(m, kind, kind == TRYPHOMEL_STOP_TRANSPORT || kind == TRYPHOMEL_TRANSPORT_FINISHED ? TRYPHOMEL_COMPLETE : 0);
}

static int is_blank(uint8_t b) { return b == ' ' || b == '\t' || b == '\r' || b == '\n'; }

void machine_drop(struct machine *m, size_t count) {
    while (count < m->held && is_blank(m->in[count])) count++;
    m->held -= count;
    memmove(m->in, m->in + count, m->held);
}

long machine_more(struct machine *m) {
    for (;;) {
        size_t free_bytes = sizeof m->in - m->held;
        uint8_t *at = m->in + m->held;
        long n = line_get(m->line, at, m->gulp != 0 && m->gulp < free_bytes ? m->gulp : free_bytes, m->ms);
        if (n <= 0) return n;
        m->held += (size_t)n;
        if (m->held == sizeof m->in || memchr(at, '>', (size_t)n) != NULL) return n;
    }
}

/* Calls until a message is whole or refused. LINE_SILENT: not in time, LINE_ENDED: the connection ended. */
static long whole(struct machine *m, uint8_t *out, size_t room, tryphomel_received *r) {
    for (;;) {
        long n;
        machine_drop(m, 0);
        if (tryphomel_lane_receive(&m->lane, m->in, m->held, out, room, r) != TRYPHOMEL_MORE_NEEDED) return 1;
        if (m->held > 0) m->more++;
        n = machine_more(m);
        if (n <= 0) return n;
    }
}

struct happening machine_happened(const tryphomel_received *r) {
    struct happening now = {.event = RECEIVED, .kind = r->message.kind, .order = r->order};
    if (r->refusal == TRYPHOMEL_NO_ROOM) now.event = NO_ROOM;
    if (r->refusal != TRYPHOMEL_NO_ROOM && r->refusal != TRYPHOMEL_ACCEPTED) now.event = REFUSED;
    if (now.event == RECEIVED && (now.kind == TRYPHOMEL_STOP_TRANSPORT || now.kind == TRYPHOMEL_TRANSPORT_FINISHED))
        now.transfer = r->message.as.transfer.state.value;
    return now;
}

/* A refusal that ends the connection: its Notification is sent, and the line closed. */
static void refuse(struct machine *m, const uint8_t *out, const tryphomel_received *r) {
    char what[40];
    snprintf(what, sizeof what, "with %u, %s", r->refusal, tryphomel_refusal_name(r->refusal));
    machine_show(m, "refuses", what);
    if (r->refusal == TRYPHOMEL_NO_ROOM) return;
    machine_put(m, out, (size_t)r->written);
    hang_up(m);
}

/* A received text is a place in the received bytes: it is asked for before they are dropped. */
static void show_board(const struct machine *m, const tryphomel_message *message) {
    uint8_t scratch[TRYPHOMEL_LONG_TEXT];
    const uint8_t *top;
    uint64_t count;
    printf("  %-10s          board %.36s", m->name, (const char *)message->id);
    if (tryphomel_words_text(message->as.board.top, m->in, m->held, scratch, sizeof scratch, &top, &count) == TRYPHOMEL_ACCEPTED)
        printf(", top barcode %.*s", (int)count, (const char *)top);
    if (message->as.board.length.there) printf(", %.1f mm long", (double)message->as.board.length.value / 1e6);
    printf("\n");
    fflush(stdout);
}

/* Prints a received text behind some words. 1: it is the same as `other`. */
static int show_text(const struct machine *m, const char *words, tryphomel_words place, const char *other) {
    uint8_t scratch[TRYPHOMEL_LONG_TEXT];
    const uint8_t *bytes;
    uint64_t count;
    if (tryphomel_words_text(place, m->in, m->held, scratch, sizeof scratch, &bytes, &count) != TRYPHOMEL_ACCEPTED) return 0;
    printf("  %-10s          %s %.*s\n", m->name, words, (int)count, (const char *)bytes);
    fflush(stdout);
    return count == strlen(other) && memcmp(bytes, other, strlen(other)) == 0;
}

/* What is said of forecasts: a new one comes, ours is answered, ours is declined. */
static void note_forecast(struct machine *m, const tryphomel_message *message) {
    switch (message->kind) {
        case TRYPHOMEL_BOARD_FORECAST:
            if (message->as.forecast.forecast.there) m->declined = 0;
            break;
        case TRYPHOMEL_MACHINE_READY:
            if (show_text(m, "ready for forecast", message->as.ready.forecast, m->foretold)) m->foretold[0] = 0;
            break;
        case TRYPHOMEL_NOTIFICATION:
            show_text(m, "is told:", message->as.notification.description, "");
            if (message->as.notification.code.value == TRYPHOMEL_CODE_BOARD_FORECAST_ERROR) m->foretold[0] = 0;
            break;
    }
}

static void accept_message(struct machine *m, const uint8_t *out, const tryphomel_received *r, const struct happening *now) {
    show_message(m, "receives", now->kind, now->transfer);
    if (now->kind == TRYPHOMEL_BOARD_AVAILABLE) show_board(m, &r->message);
    note_forecast(m, &r->message);
    if (r->written > 0) machine_show(m, "answers", tryphomel_kind_name(TRYPHOMEL_CHECK_ALIVE));
    put_or_lose(m, out, (size_t)r->written);
    machine_drop(m, (size_t)r->used);
    if (now->kind == TRYPHOMEL_STOP_TRANSPORT && now->transfer == TRYPHOMEL_COMPLETE && m->sees != TRYPHOMEL_COMPLETE) sense(m, LEFT);
    answer(m);
}

int machine_receive(struct machine *m, size_t room, struct happening *now) {
    uint8_t out[TRYPHOMEL_RECEIVE_ROOM], before = m->lane.state;
    tryphomel_received r;
    long n = whole(m, out, room, &r);
    if (n == LINE_SILENT) return 0;
    if (n == LINE_ENDED) {
        now->event = LOST;
        machine_lost(m);
        return 1;
    }
    *now = machine_happened(&r);
    m->refusal = r.refusal;
    m->order = r.order;
    remember(m);
    belt(m, before, now);
    if (now->event == RECEIVED)
        accept_message(m, out, &r, now);
    else
        refuse(m, out, &r);
    return 1;
}
