/* The wiring: what a machine does with its belt when something happens, and what it sends. The rows are those of docs/USE.md, by name. */
#ifndef BELT_H
#define BELT_H

#include "../../include/tryphomel.h"

/* What can happen. Own events come from the machine's sensors, its clock and its operator. */
enum event {
    CONNECTED, /* the connection stands */
    RECEIVED,  /* a message is accepted */
    BOARD,     /* own: a board is ready to leave (upstream) */
    CAN_TAKE,  /* own: there is room for a board, and the rails are as forecast (downstream) */
    FETCHES,   /* own: the offered board is fetched (downstream) */
    MOVES,     /* own sensor: the board is between both machines */
    LEFT,      /* own sensor: the board has left (upstream) */
    ARRIVED,   /* own sensor: the board is fully in (downstream) */
    TROUBLE,   /* own error, own time-out, or the operator stops */
    FORESEES,  /* own: another product comes next (upstream) */
    WIDENS,    /* own: the rails are to be set for the forecast board (downstream) */
    DECLINES,  /* own: the rails cannot be set for it (downstream) */
    REFUSED,   /* receiving is refused with 2, 3, 4, 5, 6 or 9 */
    NO_ROOM,   /* receiving is refused with 7 */
    NOT_SENT,  /* sending is refused */
    LOST,      /* the connection ended, sending failed, or a ping has no answer */
    EVENTS
};

enum belt { STANDS, RUNS, AS_IT_IS };

/* Beside the TransferStates: what the machine sees of the board. */
enum { AS_SEEN = TRYPHOMEL_COMPLETE + 1 };

/* An event, and of an accepted message its kind, its belt order and its TransferState (0: it has none). */
struct happening {
    enum event event;
    uint64_t kind;
    uint8_t order;
    uint64_t transfer;
};

/* In these states (bits), on this event; for RECEIVED of these kinds (bits) with this order, and if `transfers` is not 0 with one of these
 * (bits): the belt does this, and then a message of the kind `sends` (0: none) goes out. */
struct row {
    const char *name;
    uint8_t side; /* 0: either */
    unsigned states;
    enum event event;
    unsigned kinds;
    uint8_t order;
    unsigned transfers;
    enum belt belt;
    uint64_t sends;
    uint64_t transfer;
};

extern const struct row BELT_ROWS[];
extern const size_t BELT_ROW_COUNT;

/* Whether a row is meant: our side, the state before the event, the event. */
int belt_meant(const struct row *row, uint8_t side, uint8_t before, const struct happening *now);

/* The row for it; NULL: there is none, so the belt stands. */
const struct row *belt_row(uint8_t side, uint8_t before, const struct happening *now);

#endif
