/* The rows of docs/USE.md, 'The wiring', in its order. */
#include "belt.h"

#define IN(state) (1u << TRYPHOMEL_##state)
#define OF(kind) (1u << TRYPHOMEL_##kind)
#define TOLD(transfer) (1u << TRYPHOMEL_##transfer)
#define EVERY_STATE 0x1ffu
#define UP TRYPHOMEL_UPSTREAM
#define DOWN TRYPHOMEL_DOWNSTREAM
#define EITHER 0

const struct row BELT_ROWS[] = {
    {"up-1", UP, .states = IN(NOT_CONNECTED), .event = CONNECTED, .belt = STANDS},
    {"up-2", UP, .states = IN(NOT_CONNECTED), .event = RECEIVED, .kinds = OF(SERVICE_DESCRIPTION), .belt = STANDS,
     .sends = TRYPHOMEL_SERVICE_DESCRIPTION},
    {"up-3", UP, .states = IN(IDLE) | IN(READY), .event = BOARD, .belt = STANDS, .sends = TRYPHOMEL_BOARD_AVAILABLE},
    {"up-4", UP, .states = IN(IDLE) | IN(OFFERED), .event = RECEIVED, .kinds = OF(MACHINE_READY), .belt = STANDS},
    {"up-5", UP, .states = IN(OFFERED) | IN(BOTH), .event = TROUBLE, .belt = STANDS, .sends = TRYPHOMEL_REVOKE_BOARD_AVAILABLE},
    {"up-6", UP, .states = IN(READY) | IN(BOTH), .event = RECEIVED, .kinds = OF(REVOKE_MACHINE_READY), .belt = STANDS},
    {"up-7", UP, .states = IN(BOTH), .event = RECEIVED, .kinds = OF(START_TRANSPORT), .order = TRYPHOMEL_ORDER_RUN, .belt = RUNS},
    {"up-8", UP, .states = IN(READY) | IN(BOTH), .event = RECEIVED, .kinds = OF(START_TRANSPORT), .order = TRYPHOMEL_ORDER_CANCEL, .belt = STANDS,
     .sends = TRYPHOMEL_TRANSPORT_FINISHED, .transfer = TRYPHOMEL_NOT_STARTED},
    {"up-9", UP, .states = IN(TRANSPORTING), .event = MOVES, .belt = AS_IT_IS},
    {"up-10", UP, .states = IN(TRANSPORTING), .event = TROUBLE, .belt = STANDS, .sends = TRYPHOMEL_TRANSPORT_FINISHED, .transfer = AS_SEEN},
    {"up-11", UP, .states = IN(TRANSPORTING), .event = LEFT, .belt = AS_IT_IS, .sends = TRYPHOMEL_TRANSPORT_FINISHED, .transfer = TRYPHOMEL_COMPLETE},
    {"up-12", UP, .states = IN(TRANSPORTING), .event = RECEIVED, .kinds = OF(STOP_TRANSPORT), .transfers = TOLD(NOT_STARTED) | TOLD(INCOMPLETE),
     .belt = STANDS, .sends = TRYPHOMEL_TRANSPORT_FINISHED, .transfer = AS_SEEN},
    {"up-13", UP, .states = IN(TRANSPORTING), .event = RECEIVED, .kinds = OF(STOP_TRANSPORT), .transfers = TOLD(COMPLETE), .belt = STANDS,
     .sends = TRYPHOMEL_TRANSPORT_FINISHED, .transfer = TRYPHOMEL_COMPLETE},
    {"up-14", UP, .states = IN(FINISHED), .event = RECEIVED, .kinds = OF(STOP_TRANSPORT), .belt = STANDS},
    {"up-15", UP, .states = EVERY_STATE & ~(IN(OFFERED) | IN(BOTH) | IN(TRANSPORTING)), .event = TROUBLE, .belt = STANDS},
    {"up-16", UP, .states = IN(IDLE) | IN(READY), .event = FORESEES, .belt = STANDS, .sends = TRYPHOMEL_BOARD_FORECAST},

    {"down-1", DOWN, .states = IN(NOT_CONNECTED), .event = CONNECTED, .belt = STANDS, .sends = TRYPHOMEL_SERVICE_DESCRIPTION},
    {"down-2", DOWN, .states = IN(DESCRIBED_DOWN), .event = RECEIVED, .kinds = OF(SERVICE_DESCRIPTION), .belt = STANDS},
    {"down-3", DOWN, .states = IN(IDLE) | IN(OFFERED), .event = CAN_TAKE, .belt = STANDS, .sends = TRYPHOMEL_MACHINE_READY},
    {"down-4", DOWN, .states = IN(IDLE) | IN(READY), .event = RECEIVED, .kinds = OF(BOARD_AVAILABLE), .belt = STANDS},
    {"down-5", DOWN, .states = IN(READY) | IN(BOTH), .event = TROUBLE, .belt = STANDS, .sends = TRYPHOMEL_REVOKE_MACHINE_READY},
    {"down-6", DOWN, .states = IN(OFFERED) | IN(BOTH), .event = RECEIVED, .kinds = OF(REVOKE_BOARD_AVAILABLE), .belt = STANDS},
    {"down-7", DOWN, .states = IN(BOTH), .event = FETCHES, .belt = RUNS, .sends = TRYPHOMEL_START_TRANSPORT},
    {"down-8", DOWN, .states = IN(TRANSPORTING), .event = RECEIVED, .kinds = OF(REVOKE_BOARD_AVAILABLE), .belt = AS_IT_IS},
    {"down-9", DOWN, .states = IN(STOPPED), .event = RECEIVED, .kinds = OF(REVOKE_BOARD_AVAILABLE), .belt = STANDS},
    {"down-10", DOWN, .states = IN(TRANSPORTING) | IN(FINISHED), .event = MOVES, .belt = AS_IT_IS},
    {"down-11", DOWN, .states = IN(TRANSPORTING), .event = RECEIVED, .kinds = OF(TRANSPORT_FINISHED),
     .transfers = TOLD(NOT_STARTED) | TOLD(INCOMPLETE), .belt = STANDS, .sends = TRYPHOMEL_STOP_TRANSPORT, .transfer = AS_SEEN},
    {"down-12", DOWN, .states = IN(TRANSPORTING), .event = RECEIVED, .kinds = OF(TRANSPORT_FINISHED), .transfers = TOLD(COMPLETE), .belt = AS_IT_IS},
    {"down-13", DOWN, .states = IN(TRANSPORTING) | IN(FINISHED), .event = ARRIVED, .belt = STANDS, .sends = TRYPHOMEL_STOP_TRANSPORT,
     .transfer = TRYPHOMEL_COMPLETE},
    {"down-14", DOWN, .states = IN(TRANSPORTING) | IN(FINISHED), .event = TROUBLE, .belt = STANDS, .sends = TRYPHOMEL_STOP_TRANSPORT,
     .transfer = TRYPHOMEL_INCOMPLETE},
    {"down-15", DOWN, .states = IN(STOPPED), .event = RECEIVED, .kinds = OF(TRANSPORT_FINISHED), .belt = STANDS},
    {"down-16", DOWN, .states = EVERY_STATE & ~(IN(READY) | IN(BOTH) | IN(TRANSPORTING) | IN(FINISHED)), .event = TROUBLE, .belt = STANDS},
    {"down-17", DOWN, .states = IN(IDLE) | IN(READY), .event = RECEIVED, .kinds = OF(BOARD_FORECAST), .belt = STANDS},
    {"down-18", DOWN, .states = IN(TRANSPORTING), .event = RECEIVED, .kinds = OF(BOARD_FORECAST), .belt = AS_IT_IS},
    {"down-19", DOWN, .states = IN(STOPPED), .event = RECEIVED, .kinds = OF(BOARD_FORECAST), .belt = STANDS},
    {"down-20", DOWN, .states = IN(READY) | IN(BOTH), .event = WIDENS, .belt = STANDS, .sends = TRYPHOMEL_REVOKE_MACHINE_READY},
    {"down-21", DOWN, .states = IN(IDLE) | IN(OFFERED), .event = WIDENS, .belt = STANDS},
    {"down-22", DOWN, .states = IN(IDLE) | IN(OFFERED), .event = DECLINES, .belt = STANDS, .sends = TRYPHOMEL_NOTIFICATION},

    {"both-1", EITHER, .states = EVERY_STATE, .event = RECEIVED, .kinds = OF(UNKNOWN) | OF(NOTIFICATION) | OF(CHECK_ALIVE), .belt = AS_IT_IS},
    {"both-2", EITHER, .states = EVERY_STATE, .event = REFUSED, .belt = STANDS},
    {"both-3", EITHER, .states = EVERY_STATE, .event = NO_ROOM, .belt = STANDS},
    {"both-4", EITHER, .states = EVERY_STATE, .event = NOT_SENT, .belt = AS_IT_IS},
    {"both-5", EITHER, .states = EVERY_STATE, .event = LOST, .belt = STANDS},
};

const size_t BELT_ROW_COUNT = sizeof BELT_ROWS / sizeof BELT_ROWS[0];

static int message_meant(const struct row *row, const struct happening *now) {
    if ((row->kinds >> now->kind & 1) == 0 || row->order != now->order) return 0;
    return row->transfers == 0 || (row->transfers >> now->transfer & 1) != 0;
}

int belt_meant(const struct row *row, uint8_t side, uint8_t before, const struct happening *now) {
    if (row->side != 0 && row->side != side) return 0;
    if (row->event != now->event || (row->states >> before & 1) == 0) return 0;
    return now->event != RECEIVED || message_meant(row, now);
}

const struct row *belt_row(uint8_t side, uint8_t before, const struct happening *now) {
    for (size_t i = 0; i < BELT_ROW_COUNT; i++)
        if (belt_meant(&BELT_ROWS[i], side, before, now)) return &BELT_ROWS[i];
    return NULL;
}
