/* A machine of a line: a lane, a belt, and the connection to the machine next door. */
#ifndef MACHINE_H
#define MACHINE_H

#include "belt.h"

/* Into how many pieces what is sent is cut: 1 is none, 2 two halves. */
enum { EACH_BYTE = 1 << 20 };

struct machine {
    const char *name;
    tryphomel_lane lane;
    enum belt belt;
    uint8_t sees;                                /* where the board is, by our sensors: a TransferState */
    unsigned boards;                             /* boards handed over completely */
    uint8_t board[TRYPHOMEL_ID_BYTES];           /* the last board that the lane named */
    unsigned forecasts;                          /* forecasts that we have sent */
    char foretold[TRYPHOMEL_FORECAST_BYTES + 1]; /* the ForecastId of the last one, until it is answered or declined */
    int declined;                                /* whether we have declined the forecast that the lane keeps */
    int line;                                    /* -1: none */
    int ms;                                      /* how long to wait for a message */
    size_t pieces, gulp;                         /* how what is sent is cut; how many bytes are taken at once */
    uint8_t in[TRYPHOMEL_MESSAGE_BYTES];         /* received and not used yet */
    size_t held;
    unsigned more;          /* how often a message was not whole yet */
    uint8_t refusal, order; /* what the last event of the line, or our sending, was answered with */
    const struct row *row;  /* the row of the last event; NULL: there was none */
};

/* A machine of a side with a connection that stands. */
void machine_start(struct machine *m, uint8_t side, int line);

/* An own event, or CONNECTED. */
void machine_own(struct machine *m, enum event event);

/* Waits for a message and does what is to be done. 0: none came in time. `room`: what is lent for an answer. */
int machine_receive(struct machine *m, size_t room, struct happening *now);

/* What an answer of receiving is for the belt. */
struct happening machine_happened(const tryphomel_received *r);

/* Sends a message of a kind, if the lane allows it. */
void machine_send(struct machine *m, uint64_t kind);

/* The connection is lost. */
void machine_lost(struct machine *m);

/* Sends bytes as they are. */
int machine_put(struct machine *m, const void *bytes, size_t size);

/* Waits for more bytes, as line_get: until one is '>', or no more fit. */
long machine_more(struct machine *m);

/* Drops the first bytes, and the blanks in front of what is left. */
void machine_drop(struct machine *m, size_t count);

/* Prints a line: who, what, the lane's state, the belt. */
void machine_show(const struct machine *m, const char *verb, const char *what);

const char *belt_name(enum belt belt);

#endif
