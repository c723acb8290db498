/* Scenarios: what each of the two machines does and meets, step by step, and what must be so after each step. */
#ifndef SCENARIOS_H
#define SCENARIOS_H

#include "belt.h"

enum does {
    DO_DONE,     /* the end of the steps */
    DO_OWN,      /* an own event happens */
    DO_TRIES,    /* a message is tried that may not be sent */
    DO_TAKES,    /* a message of this kind is received; CheckAlive, Notification, BoardForecast and unknown ones may come before it */
    DO_REFUSES,  /* what is received is refused */
    DO_LOSES,    /* the connection is lost */
    DO_ASKS,     /* pings; without an answer the connection is lost */
    DO_INSISTS,  /* pings until sending fails */
    DO_PUTS,     /* bytes go out that no lane has allowed */
    DO_FLOODS,   /* 70,000 bytes of one value go out */
    DO_SEES,     /* a message comes, looked at without a lane */
    DO_IS_ENDED, /* the other machine ends the connection; nothing is answered until then */
    DO_DROPS,    /* the connection is dropped, as by a program that is killed */
    DO_RESETS    /* the connection is reset, as by a machine that starts again */
};

struct step {
    enum does does;
    uint8_t what;    /* the event or the kind */
    uint8_t refusal; /* and after the step: the refusal, the order, the state, the belt */
    uint8_t order;
    uint8_t state;
    enum belt belt;
    uint64_t transfer; /* of a message that is received or seen; 0: any */
    const char *text;  /* PUTS: @ is the id of the lane's board, ~ the same but for its last digit, ^ the same with a capital; TAKES: the id in use */
    size_t room;       /* what is lent for an answer; 0: enough */
    /* the ForecastId that is open after the step: downstream the one that the lane keeps, upstream the one that has no answer yet; NULL: any */
    const char *forecast;
};

struct scenario {
    const char *name, *what;
    const struct step *up, *down;
    size_t pieces, gulp; /* of both machines, as in machine.h; 0: whole */
};

extern const struct scenario SCENARIOS[];
extern const size_t SCENARIO_COUNT;

const struct scenario *scenario_named(const char *name);

#endif
