/* For each side and state every kind of message is received, with the board that is named there and with another one: what the lane accepts or
 * refuses must have exactly one row. So must an error, a refusal, no room, and a lost connection; the other own events have at most one. */
#include "rows.h"

#include <stdio.h>

#include "machine.h"

#define THIS "5d10d8c0-8c0a-4d5e-9f2b-0123456789ab"
#define OTHER "11111111-2222-3333-4444-555555555555"
#define WITH(id) \
    "<Hermes><Unknown/></Hermes>", \
        "<Hermes><ServiceDescription MachineId='m' LaneId='1' Version='1.6'><SupportedFeatures/></ServiceDescription></Hermes>", \
        "<Hermes><Notification NotificationCode='1' Severity='1' Description=''/></Hermes>", \
        "<Hermes><BoardAvailable BoardId='" id "' BoardIdCreatedBy='m' FailedBoard='0' FlippedBoard='0'/></Hermes>", \
        "<Hermes><RevokeBoardAvailable/></Hermes>", "<Hermes><MachineReady FailedBoard='0'/></Hermes>", "<Hermes><RevokeMachineReady/></Hermes>", \
        "<Hermes><MachineReady FailedBoard='0' ForecastId='f'/></Hermes>", \
        "<Hermes><BoardForecast FailedBoard='0' FlippedBoard='0'/></Hermes>", \
        "<Hermes><BoardForecast ForecastId='f' BoardId='" id "' FailedBoard='0' FlippedBoard='0'/></Hermes>", \
        "<Hermes><StartTransport BoardId='" id "'/></Hermes>", "<Hermes><StopTransport TransferState='1' BoardId='" id "'/></Hermes>", \
        "<Hermes><StopTransport TransferState='2' BoardId='" id "'/></Hermes>", \
        "<Hermes><StopTransport TransferState='3' BoardId='" id "'/></Hermes>", \
        "<Hermes><TransportFinished TransferState='1' BoardId='" id "'/></Hermes>", \
        "<Hermes><TransportFinished TransferState='2' BoardId='" id "'/></Hermes>", \
        "<Hermes><TransportFinished TransferState='3' BoardId='" id "'/></Hermes>", "<Hermes><CheckAlive/></Hermes>"

static const char *const MESSAGES[] = {WITH(THIS), WITH(OTHER)};

static tryphomel_lane lane_in(uint8_t side, uint8_t state) {
    tryphomel_lane lane = {.side = side, .state = state};
    memcpy(lane.offered, THIS, sizeof lane.offered);
    memcpy(lane.running, THIS, sizeof lane.running);
    return lane;
}

static struct happening received(uint8_t side, uint8_t state, const char *bytes) {
    tryphomel_lane lane = lane_in(side, state);
    uint8_t out[TRYPHOMEL_RECEIVE_ROOM];
    tryphomel_received r;
    tryphomel_lane_receive(&lane, bytes, strlen(bytes), out, sizeof out, &r);
    return machine_happened(&r);
}

static int count_rows(uint8_t side, uint8_t state, const struct happening *now) {
    int n = 0;
    for (size_t i = 0; i < BELT_ROW_COUNT; i++) n += belt_meant(&BELT_ROWS[i], side, state, now);
    return n;
}

static int must_have(enum event event) { return event == TROUBLE || event == REFUSED || event == NO_ROOM || event == NOT_SENT || event == LOST; }

static int bad(uint8_t side, uint8_t state, const char *what, int n) {
    printf("%d rows: side %u, %s, %s\n", n, side, tryphomel_state_name(state), what);
    return 1;
}

static int bad_in(uint8_t side, uint8_t state) {
    int wrong = 0;
    for (size_t i = 0; i < sizeof MESSAGES / sizeof MESSAGES[0]; i++) {
        struct happening now = received(side, state, MESSAGES[i]);
        int n = count_rows(side, state, &now);
        if (n != 1) wrong += bad(side, state, MESSAGES[i], n);
    }
    for (enum event event = CONNECTED; event < EVENTS; event++) {
        struct happening now = {.event = event};
        int n = event == RECEIVED ? 0 : count_rows(side, state, &now);
        if (n > 1 || (n == 0 && must_have(event))) wrong += bad(side, state, "an own event", n);
    }
    return wrong;
}

int rows_complete(void) {
    int wrong = 0;
    for (size_t i = 0; i < BELT_ROW_COUNT; i++) printf("%s\n", BELT_ROWS[i].name);
    for (int side = TRYPHOMEL_UPSTREAM; side <= TRYPHOMEL_DOWNSTREAM; side++)
        for (int state = TRYPHOMEL_NOT_CONNECTED; state <= TRYPHOMEL_FINISHED; state++) wrong += bad_in((uint8_t)side, (uint8_t)state);
    return wrong == 0;
}
