/* Reads cases that outside/corpus.cpp wrote from standard input, gives each to every call, and writes what the calls answer: every number, every byte
 * that is written, and a sum over the buffers, so that two processors can be compared byte by byte. C99, for small boards too. */
#include <stdio.h>
#include <string.h>

#include "../include/tryphomel.h"

enum { MOST = 80000, DIALS = 16, ROOM = 7000 };

static uint8_t in[MOST], dials[DIALS], out[ROOM], scratch[512];
static size_t size;

/* A number, seven bits to a byte. */
static void tell(uint64_t n) {
    for (; n > 127; n >>= 7) putchar((int)(n & 127) | 128);
    putchar((int)n);
}

/* An answer in a byte, as its register has it: on 32-bit Arm compilers take the bits beside it for zeros, and what is there would show. */
#define TELL_ANSWER(call) \
    do { \
        volatile unsigned whole = (call); \
        tell(whole); \
    } while (0)

static void tell_bytes(const uint8_t *bytes, uint64_t count) {
    tell(count);
    fwrite(bytes, 1, (size_t)count, stdout);
}

/* A sum over a whole buffer: what is written, and that the rest is kept. */
static void tell_sum(const uint8_t *bytes, size_t count) {
    uint64_t sum = 14695981039346656037u;
    size_t i;
    for (i = 0; i < count; i++) sum = (sum ^ bytes[i]) * 1099511628211u;
    tell(sum);
}

static void tell_message(const tryphomel_message *m) {
    const uint64_t *numbers = (const uint64_t *)m;
    int i;
    for (i = 0; i < 1 + TRYPHOMEL_NUMBERS; i++) tell(numbers[i]);
    tell_bytes(m->id, sizeof m->id);
}

static void tell_lane(const tryphomel_lane *l) {
    tell(l->side);
    tell(l->state);
    tell(l->forecast_length);
    tell_bytes(l->offered, sizeof l->offered);
    tell_bytes(l->running, sizeof l->running);
    tell_bytes(l->forecast, sizeof l->forecast);
}

/* A lane as the dials choose it, impossible ones too; its ids are often those of the message. */
static tryphomel_lane lane_of(const tryphomel_message *m) {
    tryphomel_lane l;
    memset(&l, dials[0] & 1 ? 0 : 0x37, sizeof l);
    l.side = dials[1] % 8 == 0 ? dials[1] : (uint8_t)(1 + dials[1] % 2);
    l.state = dials[2] % 16 == 0 ? dials[2] : dials[2] % 9;
    l.forecast_length = dials[3] % 4 ? dials[3] % 8 : dials[3];
    if (dials[0] & 2) memcpy(l.offered, m->id, sizeof l.offered);
    if (dials[0] & 4) memcpy(l.running, m->id, sizeof l.running);
    return l;
}

static void asks(uint8_t there, uint64_t start, uint64_t len) {
    uint64_t place = 9, at = 9, count = 9;
    memset(scratch, '#', sizeof scratch);
    TELL_ANSWER(tryphomel_text(in, size, there, start, len, scratch, dials[4] * 2u, &place, &at, &count));
    tell(place);
    tell(at);
    tell(count);
    tell_sum(scratch, sizeof scratch);
}

static void reads(void) {
    uint64_t start = 9, place = 9;
    TELL_ANSWER(tryphomel_read(in, size, &start, &place));
    tell(start);
    tell(place);
}

static tryphomel_checked checks(void) {
    tryphomel_checked c;
    int i;
    memset(&c, 0xa5, sizeof c);
    TELL_ANSWER(tryphomel_message_check(in, size, &c));
    tell(c.start);
    tell(c.end);
    tell(c.place);
    tell_message(&c.message);
    for (i = 0; i < TRYPHOMEL_CELLS; i++)
        if (c.message.as.cells[i].there) asks(1, c.message.as.cells[i].start, c.message.as.cells[i].len);
    return c;
}

static void receives(tryphomel_lane l) {
    tryphomel_received r;
    memset(&r, 0xa5, sizeof r);
    memset(out, '#', sizeof out);
    TELL_ANSWER(tryphomel_lane_receive(&l, in, size, out, dials[5] % 4 ? TRYPHOMEL_RECEIVE_ROOM : dials[6], &r));
    tell(r.order);
    tell(r.used);
    tell(r.written);
    tell(r.place);
    tell_message(&r.message);
    tell_lane(&l);
    tell_bytes(out, r.written);
    tell_sum(out, sizeof out);
}

/* Sends what was read, or that with one number changed; its texts are the input's bytes, sometimes a byte beside their places. */
static void sends(tryphomel_lane l, tryphomel_message m) {
    tryphomel_sent s;
    size_t beside = dials[7] & 16 && size > 0 ? 1 : 0;
    memset(&s, 0xa5, sizeof s);
    memset(out, '#', sizeof out);
    if (dials[7] & 1) ((uint64_t *)&m)[dials[8] % (1 + TRYPHOMEL_NUMBERS)] = dials[7] & 2 ? UINT64_MAX - dials[9] : dials[9];
    if (m.kind == 0) m.kind = dials[10] % 13;
    if (dials[7] & 4) memset(&m.as, dials[9] % 3, sizeof m.as);
    TELL_ANSWER(tryphomel_lane_send(&l, &m, in + beside, size - beside, out, dials[7] & 8 ? dials[11] * 4u : sizeof out, &s));
    tell(s.order);
    tell(s.written);
    tell_lane(&l);
    tell_bytes(out, s.written);
    tell_sum(out, sizeof out);
}

static void lanes(tryphomel_lane l) {
    tryphomel_lane_lost(&l);
    tell_lane(&l);
    tryphomel_lane_upstream(&l);
    tell_lane(&l);
    tryphomel_lane_downstream(&l);
    tell_lane(&l);
}

static int next_case(void) {
    uint8_t length[4];
    if (fread(length, 1, sizeof length, stdin) != sizeof length) return 0;
    size = length[0] | (size_t)length[1] << 8 | (size_t)length[2] << 16 | (size_t)length[3] << 24;
    return size <= MOST && fread(in, 1, size, stdin) == size && fread(dials, 1, sizeof dials, stdin) == sizeof dials;
}

int main(void) {
    static char from[1 << 16], to[1 << 16];
    setvbuf(stdin, from, _IOFBF, sizeof from);
    setvbuf(stdout, to, _IOFBF, sizeof to);
    tell(tryphomel_version());
    while (next_case()) {
        tryphomel_checked c;
        tryphomel_lane l;
        reads();
        c = checks();
        l = lane_of(&c.message);
        asks(dials[12] & 1, dials[12] & 2 ? UINT64_MAX - dials[13] : dials[13], dials[12] & 4 ? UINT64_MAX - dials[14] : dials[14]);
        receives(l);
        sends(l, c.message);
        lanes(l);
        TELL_ANSWER(tryphomel_route_class((uint64_t)dials[13] * 5 + ((uint64_t)dials[15] << (dials[14] % 57))));
    }
    return fflush(stdout) != 0;
}
