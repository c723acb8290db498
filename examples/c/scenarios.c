/* The scenarios of source document 001, 2.3.4 (U1a to D3) and 2.3.5 (forecasts), what can cross on the line, and what a machine must stand that is
 * not as it should be. The expected states and belts are written out here and do not come from the rows in belt.c. */
#include "scenarios.h"

#include <string.h>

#include "machine.h"

#define FIRST "5d10d8c0-8c0a-4d5e-9f2b-0123456789ab"
#define OTHER "11111111-2222-3333-4444-555555555555"

#define OWN(event_, state_, belt_) \
    { .does = DO_OWN, .what = event_, .state = TRYPHOMEL_##state_, .belt = belt_ }
#define FETCH \
    { .does = DO_OWN, .what = FETCHES, .order = TRYPHOMEL_ORDER_RUN, .state = TRYPHOMEL_TRANSPORTING, .belt = RUNS }
#define TAKES(kind_, order_, state_, belt_) \
    { .does = DO_TAKES, .what = TRYPHOMEL_##kind_, .order = TRYPHOMEL_ORDER_##order_, .state = TRYPHOMEL_##state_, .belt = belt_ }
#define TAKES_ID(kind_, order_, state_, belt_, id_) \
    { .does = DO_TAKES, .what = TRYPHOMEL_##kind_, .order = TRYPHOMEL_ORDER_##order_, .state = TRYPHOMEL_##state_, .belt = belt_, .text = id_ }
#define TRIES(kind_, refusal_, state_, belt_) \
    { .does = DO_TRIES, .what = TRYPHOMEL_##kind_, .refusal = TRYPHOMEL_##refusal_, .state = TRYPHOMEL_##state_, .belt = belt_ }
#define OWN_OPEN(event_, state_, belt_, forecast_) \
    { .does = DO_OWN, .what = event_, .state = TRYPHOMEL_##state_, .belt = belt_, .forecast = forecast_ }
#define TAKES_OPEN(kind_, state_, belt_, forecast_) \
    { .does = DO_TAKES, .what = TRYPHOMEL_##kind_, .state = TRYPHOMEL_##state_, .belt = belt_, .forecast = forecast_ }
#define ENDS(kind_, transfer_, state_, belt_) \
    { .does = DO_TAKES, .what = TRYPHOMEL_##kind_, .transfer = TRYPHOMEL_##transfer_, .state = TRYPHOMEL_##state_, .belt = belt_ }
#define REFUSES(refusal_, order_) \
    { .does = DO_REFUSES, .refusal = TRYPHOMEL_##refusal_, .order = TRYPHOMEL_ORDER_##order_, .state = TRYPHOMEL_NOT_CONNECTED, .belt = STANDS }
#define LACKS_ROOM(state_) \
    { .does = DO_REFUSES, .refusal = TRYPHOMEL_NO_ROOM, .state = TRYPHOMEL_##state_, .belt = STANDS, .room = 10 }
#define ASKS(state_, belt_) \
    { .does = DO_ASKS, .state = TRYPHOMEL_##state_, .belt = belt_ }
#define LOSES \
    { .does = DO_LOSES, .state = TRYPHOMEL_NOT_CONNECTED, .belt = STANDS }
#define INSISTS \
    { .does = DO_INSISTS, .state = TRYPHOMEL_NOT_CONNECTED, .belt = STANDS }
#define PUTS(text_) \
    { .does = DO_PUTS, .text = text_ }
#define FLOODS \
    { .does = DO_FLOODS }
#define SEES(kind_, transfer_, id_) \
    { .does = DO_SEES, .what = TRYPHOMEL_##kind_, .transfer = transfer_, .text = id_ }
#define IS_ENDED \
    { .does = DO_IS_ENDED }
#define DROPS \
    { .does = DO_DROPS }
#define RESETS \
    { .does = DO_RESETS }
#define DONE \
    { .does = DO_DONE }

#define START(id) "<Hermes><StartTransport BoardId=\"" id "\"/></Hermes>"
#define STOP(transfer, id) "<Hermes><StopTransport TransferState=\"" #transfer "\" BoardId=\"" id "\"/></Hermes>"
#define FINISH(transfer, id) "<Hermes><TransportFinished TransferState=\"" #transfer "\" BoardId=\"" id "\"/></Hermes>"

/* What the upstream machine does: connected, offered and asked for, running, a whole handover. */
#define UP_MEETS OWN(CONNECTED, NOT_CONNECTED, STANDS), TAKES(SERVICE_DESCRIPTION, NONE, IDLE, STANDS)
#define UP_BOTH OWN(BOARD, OFFERED, STANDS), TAKES(MACHINE_READY, NONE, BOTH, STANDS)
#define UP_RUNS UP_BOTH, TAKES(START_TRANSPORT, RUN, TRANSPORTING, RUNS)
#define UP_GIVES UP_RUNS, OWN(MOVES, TRANSPORTING, RUNS), OWN(LEFT, FINISHED, RUNS), ENDS(STOP_TRANSPORT, COMPLETE, IDLE, STANDS)

/* And the downstream machine. */
#define DOWN_MEETS OWN(CONNECTED, DESCRIBED_DOWN, STANDS), TAKES(SERVICE_DESCRIPTION, NONE, IDLE, STANDS)
#define DOWN_BOTH OWN(CAN_TAKE, READY, STANDS), TAKES(BOARD_AVAILABLE, NONE, BOTH, STANDS)
#define DOWN_RUNS DOWN_BOTH, FETCH
#define DOWN_GETS DOWN_RUNS, OWN(MOVES, TRANSPORTING, RUNS), ENDS(TRANSPORT_FINISHED, COMPLETE, FINISHED, RUNS), OWN(ARRIVED, IDLE, STANDS)

#define STEPS(name, ...) static const struct step name[] = {__VA_ARGS__, DONE}

STEPS(good_up, UP_MEETS, UP_GIVES, UP_GIVES);
STEPS(good_down, DOWN_MEETS, DOWN_GETS, DOWN_GETS);

STEPS(u1a_up, UP_MEETS, OWN(BOARD, OFFERED, STANDS), OWN(TROUBLE, IDLE, STANDS), UP_GIVES);
STEPS(u1a_down, DOWN_MEETS, TAKES(BOARD_AVAILABLE, NONE, OFFERED, STANDS), TAKES(REVOKE_BOARD_AVAILABLE, NONE, IDLE, STANDS), DOWN_GETS);

STEPS(u1a_both_up, UP_MEETS, UP_BOTH, OWN(TROUBLE, READY, STANDS), OWN(BOARD, BOTH, STANDS), TAKES(START_TRANSPORT, RUN, TRANSPORTING, RUNS),
      OWN(LEFT, FINISHED, RUNS), ENDS(STOP_TRANSPORT, COMPLETE, IDLE, STANDS));
STEPS(u1a_both_down, DOWN_MEETS, DOWN_BOTH, TAKES(REVOKE_BOARD_AVAILABLE, NONE, READY, STANDS), TAKES(BOARD_AVAILABLE, NONE, BOTH, STANDS), FETCH,
      ENDS(TRANSPORT_FINISHED, COMPLETE, FINISHED, RUNS), OWN(ARRIVED, IDLE, STANDS));

STEPS(u1b_up, UP_MEETS, UP_RUNS, OWN(TROUBLE, FINISHED, STANDS), ENDS(STOP_TRANSPORT, NOT_STARTED, IDLE, STANDS), UP_GIVES);
STEPS(u1b_down, DOWN_MEETS, DOWN_RUNS, ENDS(TRANSPORT_FINISHED, NOT_STARTED, IDLE, STANDS), DOWN_GETS);

STEPS(u2_up, UP_MEETS, UP_RUNS, OWN(MOVES, TRANSPORTING, RUNS), OWN(TROUBLE, FINISHED, STANDS), ENDS(STOP_TRANSPORT, INCOMPLETE, IDLE, STANDS),
      UP_GIVES);
STEPS(u2_down, DOWN_MEETS, DOWN_RUNS, OWN(MOVES, TRANSPORTING, RUNS), ENDS(TRANSPORT_FINISHED, INCOMPLETE, IDLE, STANDS), DOWN_GETS);

STEPS(u3_up, UP_MEETS, UP_RUNS, OWN(MOVES, TRANSPORTING, RUNS), OWN(LEFT, FINISHED, RUNS), OWN(TROUBLE, FINISHED, STANDS),
      ENDS(STOP_TRANSPORT, COMPLETE, IDLE, STANDS), UP_GIVES);

STEPS(d1_up, UP_MEETS, TAKES(MACHINE_READY, NONE, READY, STANDS), TAKES(REVOKE_MACHINE_READY, NONE, IDLE, STANDS), UP_GIVES);
STEPS(d1_down, DOWN_MEETS, OWN(CAN_TAKE, READY, STANDS), OWN(TROUBLE, IDLE, STANDS), DOWN_GETS);

STEPS(d1_both_up, UP_MEETS, UP_BOTH, TAKES(REVOKE_MACHINE_READY, NONE, OFFERED, STANDS), TAKES(MACHINE_READY, NONE, BOTH, STANDS),
      TAKES(START_TRANSPORT, RUN, TRANSPORTING, RUNS), OWN(LEFT, FINISHED, RUNS), ENDS(STOP_TRANSPORT, COMPLETE, IDLE, STANDS));
STEPS(d1_both_down, DOWN_MEETS, DOWN_BOTH, OWN(TROUBLE, OFFERED, STANDS), OWN(CAN_TAKE, BOTH, STANDS), FETCH,
      ENDS(TRANSPORT_FINISHED, COMPLETE, FINISHED, RUNS), OWN(ARRIVED, IDLE, STANDS));

STEPS(d2_up, UP_MEETS, UP_RUNS, OWN(MOVES, TRANSPORTING, RUNS), ENDS(STOP_TRANSPORT, INCOMPLETE, IDLE, STANDS), UP_GIVES);
STEPS(d2_down, DOWN_MEETS, DOWN_RUNS, OWN(MOVES, TRANSPORTING, RUNS), OWN(TROUBLE, STOPPED, STANDS),
      ENDS(TRANSPORT_FINISHED, INCOMPLETE, IDLE, STANDS), DOWN_GETS);

STEPS(d2_early_up, UP_MEETS, UP_RUNS, ENDS(STOP_TRANSPORT, INCOMPLETE, IDLE, STANDS), UP_GIVES);
STEPS(d2_early_down, DOWN_MEETS, DOWN_RUNS, OWN(TROUBLE, STOPPED, STANDS), ENDS(TRANSPORT_FINISHED, NOT_STARTED, IDLE, STANDS), DOWN_GETS);

STEPS(d2_late_up, UP_MEETS, UP_RUNS, OWN(MOVES, TRANSPORTING, RUNS), OWN(LEFT, FINISHED, RUNS), ENDS(STOP_TRANSPORT, INCOMPLETE, IDLE, STANDS),
      UP_GIVES);
STEPS(d2_late_down, DOWN_MEETS, DOWN_RUNS, OWN(MOVES, TRANSPORTING, RUNS), ENDS(TRANSPORT_FINISHED, COMPLETE, FINISHED, RUNS),
      OWN(TROUBLE, IDLE, STANDS), DOWN_GETS);

STEPS(d3_up, UP_MEETS, UP_RUNS, OWN(MOVES, TRANSPORTING, RUNS), ENDS(STOP_TRANSPORT, COMPLETE, IDLE, STANDS), UP_GIVES);
STEPS(d3_down, DOWN_MEETS, DOWN_RUNS, OWN(MOVES, TRANSPORTING, RUNS), OWN(ARRIVED, STOPPED, STANDS), OWN(TROUBLE, STOPPED, STANDS),
      ENDS(TRANSPORT_FINISHED, COMPLETE, IDLE, STANDS), OWN(TROUBLE, IDLE, STANDS), DOWN_GETS);

/* The offer is revoked while the start is on its way. */
STEPS(crossing_up, UP_MEETS, UP_BOTH, OWN(TROUBLE, READY, STANDS), TAKES(START_TRANSPORT, CANCEL, FINISHED, STANDS),
      ENDS(STOP_TRANSPORT, NOT_STARTED, IDLE, STANDS), UP_GIVES);
STEPS(crossing_down, DOWN_MEETS, DOWN_RUNS, TAKES(REVOKE_BOARD_AVAILABLE, NONE, TRANSPORTING, RUNS),
      ENDS(TRANSPORT_FINISHED, NOT_STARTED, IDLE, STANDS), DOWN_GETS);
STEPS(crossing_stopped_up, UP_MEETS, UP_BOTH, OWN(TROUBLE, READY, STANDS), TAKES(START_TRANSPORT, CANCEL, FINISHED, STANDS),
      ENDS(STOP_TRANSPORT, INCOMPLETE, IDLE, STANDS), UP_GIVES);
STEPS(crossing_stopped_down, DOWN_MEETS, DOWN_RUNS, OWN(TROUBLE, STOPPED, STANDS), TAKES(REVOKE_BOARD_AVAILABLE, NONE, STOPPED, STANDS),
      ENDS(TRANSPORT_FINISHED, NOT_STARTED, IDLE, STANDS), DOWN_GETS);

/* The board is offered again at once: the start is taken for the new offer, and the downstream machine ends the connection. */
STEPS(crossing_offer_up, UP_MEETS, UP_BOTH, OWN(TROUBLE, READY, STANDS), OWN(BOARD, BOTH, STANDS), TAKES(START_TRANSPORT, RUN, TRANSPORTING, RUNS),
      LOSES);
STEPS(crossing_offer_down, DOWN_MEETS, DOWN_RUNS, TAKES(REVOKE_BOARD_AVAILABLE, NONE, TRANSPORTING, RUNS), REFUSES(PROTOCOL_ERROR, STOP_NOW));

/* The rails are set for the forecast board, and MachineReady has its ForecastId; then the board comes. */
#define UP_FOLLOWS \
    OWN(BOARD, BOTH, STANDS), TAKES(START_TRANSPORT, RUN, TRANSPORTING, RUNS), OWN(MOVES, TRANSPORTING, RUNS), OWN(LEFT, FINISHED, RUNS), \
        ENDS(STOP_TRANSPORT, COMPLETE, IDLE, STANDS)
#define DOWN_FOLLOWS \
    TAKES(BOARD_AVAILABLE, NONE, BOTH, STANDS), FETCH, OWN(MOVES, TRANSPORTING, RUNS), ENDS(TRANSPORT_FINISHED, COMPLETE, FINISHED, RUNS), \
        OWN(ARRIVED, IDLE, STANDS)
#define UP_ANSWERED TAKES_OPEN(MACHINE_READY, READY, STANDS, ""), UP_FOLLOWS
#define DOWN_ANSWERS(id) OWN_OPEN(WIDENS, IDLE, STANDS, id), OWN_OPEN(CAN_TAKE, READY, STANDS, ""), DOWN_FOLLOWS
STEPS(changeover_up, UP_MEETS, OWN_OPEN(FORESEES, IDLE, STANDS, "F&1"), UP_ANSWERED);
STEPS(changeover_down, DOWN_MEETS, TAKES_OPEN(BOARD_FORECAST, IDLE, STANDS, "F&1"), DOWN_ANSWERS("F&1"));

/* Two forecasts meet a machine that is ready: it takes that back, and answers the last one. */
STEPS(changeover_ready_up, UP_MEETS, TAKES(MACHINE_READY, NONE, READY, STANDS), OWN_OPEN(FORESEES, READY, STANDS, "F&1"),
      OWN_OPEN(FORESEES, READY, STANDS, "F&2"), TAKES_OPEN(REVOKE_MACHINE_READY, IDLE, STANDS, "F&2"), UP_ANSWERED);
STEPS(changeover_ready_down, DOWN_MEETS, OWN(CAN_TAKE, READY, STANDS), TAKES_OPEN(BOARD_FORECAST, READY, STANDS, "F&1"),
      TAKES_OPEN(BOARD_FORECAST, READY, STANDS, "F&2"), DOWN_ANSWERS("F&2"));

/* The rails cannot be set: a Notification. The operator gives in, and a forecast that can be met follows. */
STEPS(changeover_no_up, UP_MEETS, OWN_OPEN(FORESEES, IDLE, STANDS, "F&1"), TAKES_OPEN(NOTIFICATION, IDLE, STANDS, ""),
      OWN_OPEN(FORESEES, IDLE, STANDS, "F&2"), UP_ANSWERED);
STEPS(changeover_no_down, DOWN_MEETS, TAKES_OPEN(BOARD_FORECAST, IDLE, STANDS, "F&1"), OWN_OPEN(DECLINES, IDLE, STANDS, "F&1"),
      TAKES_OPEN(BOARD_FORECAST, IDLE, STANDS, "F&2"), DOWN_ANSWERS("F&2"));

/* It cannot be met, and the machine is ready for what it can take: MachineReady has no ForecastId, and the lane keeps it. */
STEPS(changeover_never_up, UP_MEETS, OWN_OPEN(FORESEES, IDLE, STANDS, "F&1"), TAKES_OPEN(NOTIFICATION, IDLE, STANDS, ""), UP_GIVES);
STEPS(changeover_never_down, DOWN_MEETS, TAKES_OPEN(BOARD_FORECAST, IDLE, STANDS, "F&1"), OWN_OPEN(DECLINES, IDLE, STANDS, "F&1"),
      OWN_OPEN(CAN_TAKE, READY, STANDS, "F&1"), DOWN_FOLLOWS);

/* The offer is revoked and a forecast sent while the start is on its way: it changes nothing, and is answered when the belts stand. */
STEPS(forecast_crosses_up, UP_MEETS, UP_BOTH, OWN(TROUBLE, READY, STANDS), OWN_OPEN(FORESEES, READY, STANDS, "F&1"),
      TAKES(START_TRANSPORT, CANCEL, FINISHED, STANDS), ENDS(STOP_TRANSPORT, NOT_STARTED, IDLE, STANDS), UP_ANSWERED);
STEPS(forecast_crosses_down, DOWN_MEETS, DOWN_RUNS, TAKES(REVOKE_BOARD_AVAILABLE, NONE, TRANSPORTING, RUNS),
      TAKES_OPEN(BOARD_FORECAST, TRANSPORTING, RUNS, "F&1"), ENDS(TRANSPORT_FINISHED, NOT_STARTED, IDLE, STANDS), DOWN_ANSWERS("F&1"));
STEPS(forecast_stopped_up, UP_MEETS, UP_BOTH, OWN(TROUBLE, READY, STANDS), OWN_OPEN(FORESEES, READY, STANDS, "F&1"),
      TAKES(START_TRANSPORT, CANCEL, FINISHED, STANDS), ENDS(STOP_TRANSPORT, INCOMPLETE, IDLE, STANDS), UP_ANSWERED);
STEPS(forecast_stopped_down, DOWN_MEETS, DOWN_RUNS, OWN(TROUBLE, STOPPED, STANDS), TAKES(REVOKE_BOARD_AVAILABLE, NONE, STOPPED, STANDS),
      TAKES_OPEN(BOARD_FORECAST, STOPPED, STANDS, "F&1"), ENDS(TRANSPORT_FINISHED, NOT_STARTED, IDLE, STANDS), DOWN_ANSWERS("F&1"));

/* A forecast while a board is offered, and one when the board has left. */
#define FORECAST "<Hermes><BoardForecast ForecastId='x' FailedBoard='0' FlippedBoard='0'/></Hermes>"
STEPS(forecast_early_up, UP_MEETS, OWN(BOARD, OFFERED, STANDS), PUTS(FORECAST), IS_ENDED);
STEPS(forecast_early_down, DOWN_MEETS, TAKES(BOARD_AVAILABLE, NONE, OFFERED, STANDS), REFUSES(PROTOCOL_ERROR, NONE));
STEPS(forecast_late_up, UP_MEETS, UP_RUNS, OWN(LEFT, FINISHED, RUNS), PUTS(FORECAST), IS_ENDED);
STEPS(forecast_late_down, DOWN_MEETS, DOWN_RUNS, ENDS(TRANSPORT_FINISHED, COMPLETE, FINISHED, RUNS), REFUSES(PROTOCOL_ERROR, STOP_NOW));

/* A start after the revoke has arrived, from a machine that does not care; then readiness is taken back, and a start comes unasked. */
STEPS(late_up, UP_MEETS, UP_BOTH, OWN(TROUBLE, READY, STANDS), TAKES(START_TRANSPORT, CANCEL, FINISHED, STANDS),
      ENDS(STOP_TRANSPORT, NOT_STARTED, IDLE, STANDS));
STEPS(late_down, DOWN_MEETS, DOWN_BOTH, TAKES(REVOKE_BOARD_AVAILABLE, NONE, READY, STANDS), PUTS(START("@")),
      SEES(TRANSPORT_FINISHED, TRYPHOMEL_NOT_STARTED, "@"), PUTS(STOP(1, "@")));
STEPS(unasked_up, UP_MEETS, OWN(BOARD, OFFERED, STANDS), REFUSES(PROTOCOL_ERROR, NONE));
STEPS(unasked_down, DOWN_MEETS, TAKES(BOARD_AVAILABLE, NONE, OFFERED, STANDS), PUTS(START("@")), IS_ENDED);

/* A start for another board, from quite another to nearly the same. */
STEPS(foreign_up, UP_MEETS, UP_BOTH, TAKES_ID(START_TRANSPORT, CANCEL, FINISHED, STANDS, OTHER), ENDS(STOP_TRANSPORT, NOT_STARTED, IDLE, STANDS));
STEPS(foreign_down, DOWN_MEETS, DOWN_BOTH, PUTS(START(OTHER)), SEES(TRANSPORT_FINISHED, TRYPHOMEL_NOT_STARTED, OTHER), PUTS(STOP(1, OTHER)));
STEPS(near_up, UP_MEETS, UP_BOTH, TAKES_ID(START_TRANSPORT, CANCEL, FINISHED, STANDS, "~"), ENDS(STOP_TRANSPORT, NOT_STARTED, IDLE, STANDS));
STEPS(near_down, DOWN_MEETS, DOWN_BOTH, PUTS(START("~")), SEES(TRANSPORT_FINISHED, TRYPHOMEL_NOT_STARTED, "~"), PUTS(STOP(1, "~")));
STEPS(capital_up, UP_MEETS, UP_BOTH, REFUSES(BAD_VALUE, NONE));
STEPS(capital_down, DOWN_MEETS, DOWN_BOTH, PUTS(START("^")), IS_ENDED);

/* A stop or a finish for another board. */
STEPS(stop_other_up, UP_MEETS, UP_RUNS, REFUSES(PROTOCOL_ERROR, STOP_NOW));
STEPS(stop_other_down, DOWN_MEETS, DOWN_RUNS, PUTS(STOP(3, OTHER)), IS_ENDED);
STEPS(stop_near_up, UP_MEETS, UP_RUNS, OWN(LEFT, FINISHED, RUNS), REFUSES(PROTOCOL_ERROR, STOP_NOW));
STEPS(stop_near_down, DOWN_MEETS, DOWN_RUNS, ENDS(TRANSPORT_FINISHED, COMPLETE, FINISHED, RUNS), PUTS(STOP(3, "~")), IS_ENDED);
STEPS(finish_other_up, UP_MEETS, UP_RUNS, PUTS(FINISH(3, "~")), IS_ENDED);
STEPS(finish_other_down, DOWN_MEETS, DOWN_RUNS, REFUSES(PROTOCOL_ERROR, STOP_NOW));

/* Closing tags that do not close the message: the maker puts earlier messages into an element of his own. Behind it two more messages in one piece.
 */
#define OFFER(id, failed) "<Hermes><BoardAvailable BoardId='" id "' BoardIdCreatedBy='AOI' FailedBoard='" #failed "' FlippedBoard='0'"
STEPS(closing_tag_up, UP_MEETS,
      PUTS(OFFER(FIRST, 2) "><Trace><Hermes><CheckAlive/></Hermes>" OFFER(OTHER,
                                                                          1) "/></Hermes></Trace></BoardAvailable></Hermes >\r\n"
                                                                             "<Hermes><RevokeBoardAvailable/></Hermes>" OFFER(OTHER,
                                                                                                                              1) "/></Hermes>"),
      SEES(MACHINE_READY, 0, NULL), SEES(START_TRANSPORT, 0, OTHER), PUTS(FINISH(3, OTHER)), SEES(STOP_TRANSPORT, TRYPHOMEL_COMPLETE, OTHER));
STEPS(closing_tag_down, DOWN_MEETS, TAKES_ID(BOARD_AVAILABLE, NONE, OFFERED, STANDS, FIRST), TAKES(REVOKE_BOARD_AVAILABLE, NONE, IDLE, STANDS),
      OWN(CAN_TAKE, READY, STANDS), TAKES_ID(BOARD_AVAILABLE, NONE, BOTH, STANDS, OTHER), FETCH, ENDS(TRANSPORT_FINISHED, COMPLETE, FINISHED, RUNS),
      OWN(ARRIVED, IDLE, STANDS));

/* Bytes that are no message, while the board is under way; too many bytes; an answer for which no room was lent. */
STEPS(garbage_up, UP_MEETS, UP_RUNS, REFUSES(MALFORMED, STOP_NOW));
STEPS(garbage_down, DOWN_MEETS, DOWN_RUNS, PUTS("\001\177 garbage >\n"), IS_ENDED);
STEPS(garbage_back_up, UP_MEETS, UP_RUNS, PUTS("<Hermes><TransportFinished TransferState='3' BoardId='5d10<Hermes><CheckAlive/></Hermes>"), IS_ENDED);
STEPS(garbage_back_down, DOWN_MEETS, DOWN_RUNS, REFUSES(MALFORMED, STOP_NOW));
STEPS(too_long_up, UP_MEETS, UP_RUNS, REFUSES(TOO_LONG, STOP_NOW));
STEPS(too_long_down, DOWN_MEETS, DOWN_RUNS, FLOODS, IS_ENDED);
STEPS(missing_up, UP_MEETS, UP_RUNS, REFUSES(MISSING, STOP_NOW));
STEPS(missing_down, DOWN_MEETS, DOWN_RUNS, PUTS("<Hermes><StopTransport BoardId=\"@\"/></Hermes>"), IS_ENDED);
STEPS(no_room_up, UP_MEETS, UP_RUNS, LACKS_ROOM(TRANSPORTING), REFUSES(MALFORMED, STOP_NOW));

/* Messages at the wrong time are not sent, and change nothing. */
STEPS(may_not_up, UP_MEETS, TRIES(TRANSPORT_FINISHED, BAD_VALUE, IDLE, STANDS), UP_BOTH, TRIES(BOARD_AVAILABLE, MAY_NOT_BE_SENT, BOTH, STANDS),
      TRIES(BOARD_FORECAST, MAY_NOT_BE_SENT, BOTH, STANDS),
      TAKES(START_TRANSPORT, RUN, TRANSPORTING, RUNS), TRIES(REVOKE_BOARD_AVAILABLE, MAY_NOT_BE_SENT, TRANSPORTING, RUNS), OWN(LEFT, FINISHED, RUNS),
      ENDS(STOP_TRANSPORT, COMPLETE, IDLE, STANDS));
STEPS(may_not_down, DOWN_MEETS, OWN(CAN_TAKE, READY, STANDS), TRIES(START_TRANSPORT, BAD_VALUE, READY, STANDS),
      TRIES(BOARD_FORECAST, MAY_NOT_BE_SENT, READY, STANDS),
      TAKES(BOARD_AVAILABLE, NONE, BOTH, STANDS), FETCH, TRIES(MACHINE_READY, MAY_NOT_BE_SENT, TRANSPORTING, RUNS),
      ENDS(TRANSPORT_FINISHED, COMPLETE, FINISHED, RUNS), OWN(ARRIVED, IDLE, STANDS));

/* The other machine is gone: noticed by sending, by receiving, by silence. */
STEPS(vanished_up, UP_MEETS, UP_RUNS, ASKS(TRANSPORTING, RUNS), INSISTS);
STEPS(vanished_down, DOWN_MEETS, DOWN_RUNS, TAKES(CHECK_ALIVE, NONE, TRANSPORTING, RUNS), DROPS);
STEPS(restarted_up, UP_MEETS, UP_RUNS, INSISTS);
STEPS(restarted_down, DOWN_MEETS, DOWN_RUNS, TAKES(CHECK_ALIVE, NONE, TRANSPORTING, RUNS), RESETS);
STEPS(vanished_back_up, UP_MEETS, UP_RUNS, OWN(MOVES, TRANSPORTING, RUNS), DROPS);
STEPS(vanished_back_down, DOWN_MEETS, DOWN_RUNS, LOSES);
STEPS(silent_up, UP_MEETS, UP_RUNS, ASKS(NOT_CONNECTED, STANDS));
STEPS(silent_down, DOWN_MEETS, DOWN_RUNS, IS_ENDED);

/* Messages that change nothing, with a belt that stands and one that runs; and an error where nothing is offered. */
#define NOTICE "<Hermes><Notification NotificationCode='1001' Severity='4' Description='tea'/></Hermes>"
STEPS(alive_up, UP_MEETS, OWN(TROUBLE, IDLE, STANDS), TAKES(NOTIFICATION, NONE, IDLE, STANDS), ASKS(IDLE, STANDS), UP_RUNS,
      TAKES(UNKNOWN, NONE, TRANSPORTING, RUNS), TAKES(NOTIFICATION, NONE, TRANSPORTING, RUNS), ASKS(TRANSPORTING, RUNS), OWN(LEFT, FINISHED, RUNS),
      ENDS(STOP_TRANSPORT, COMPLETE, IDLE, STANDS));
STEPS(alive_down, DOWN_MEETS, OWN(TROUBLE, IDLE, STANDS), PUTS(NOTICE), TAKES(CHECK_ALIVE, NONE, IDLE, STANDS), DOWN_RUNS,
      PUTS("<Hermes><Weather Sun='1'/></Hermes>" NOTICE), TAKES(CHECK_ALIVE, NONE, TRANSPORTING, RUNS),
      ENDS(TRANSPORT_FINISHED, COMPLETE, FINISHED, RUNS), OWN(ARRIVED, IDLE, STANDS));

/* A ping that cannot be answered for want of room stops the belt, and it stays so when the answer has gone out. */
STEPS(no_room_ping_up, UP_MEETS, UP_RUNS, LACKS_ROOM(TRANSPORTING), TAKES(CHECK_ALIVE, NONE, TRANSPORTING, STANDS), ASKS(TRANSPORTING, STANDS),
      OWN(MOVES, TRANSPORTING, STANDS), OWN(LEFT, FINISHED, STANDS), ENDS(STOP_TRANSPORT, COMPLETE, IDLE, STANDS));
STEPS(no_room_ping_down, DOWN_MEETS, DOWN_RUNS, PUTS("<Hermes><CheckAlive Type='1' Id='7'/></Hermes>"), LACKS_ROOM(TRANSPORTING),
      TAKES(CHECK_ALIVE, NONE, TRANSPORTING, STANDS), OWN(MOVES, TRANSPORTING, STANDS), ENDS(TRANSPORT_FINISHED, COMPLETE, FINISHED, STANDS),
      OWN(ARRIVED, IDLE, STANDS));

STEPS(no_room_revoke_up, UP_MEETS, UP_BOTH, PUTS("<Hermes><CheckAlive Type='1' Id='7'/></Hermes>"), OWN(TROUBLE, READY, STANDS),
      TAKES(START_TRANSPORT, CANCEL, FINISHED, STANDS), ENDS(STOP_TRANSPORT, NOT_STARTED, IDLE, STANDS));
STEPS(no_room_revoke_down, DOWN_MEETS, DOWN_RUNS, LACKS_ROOM(TRANSPORTING), TAKES(CHECK_ALIVE, NONE, TRANSPORTING, STANDS),
      TAKES(REVOKE_BOARD_AVAILABLE, NONE, TRANSPORTING, STANDS), ENDS(TRANSPORT_FINISHED, NOT_STARTED, IDLE, STANDS));

const struct scenario SCENARIOS[] = {
    {"good", "two boards, one after the other", good_up, good_down, 0, 0},
    {"U1a", "upstream error before the start, in Offered", u1a_up, u1a_down, 0, 0},
    {"U1a-both", "upstream error before the start, in Both", u1a_both_up, u1a_both_down, 0, 0},
    {"U1b", "upstream error after the start, the board has not moved", u1b_up, u1b_down, 0, 0},
    {"U2", "upstream error, the board is between both", u2_up, u2_down, 0, 0},
    {"U3", "upstream error, the board is in the downstream machine", u3_up, good_down, 0, 0},
    {"D1", "downstream error before the start, in Ready", d1_up, d1_down, 0, 0},
    {"D1-both", "downstream error before the start, in Both", d1_both_up, d1_both_down, 0, 0},
    {"D2", "downstream error, the board is between both", d2_up, d2_down, 0, 0},
    {"D2-early", "downstream error after the start, the board has not moved", d2_early_up, d2_early_down, 0, 0},
    {"D2-late", "downstream error after the board has left the upstream machine", d2_late_up, d2_late_down, 0, 0},
    {"D3", "downstream error, the board is in the downstream machine", d3_up, d3_down, 0, 0},
    {"crossing", "a revoke crosses a start", crossing_up, crossing_down, 0, 0},
    {"crossing-stopped", "a revoke crosses a start and arrives behind the stop", crossing_stopped_up, crossing_stopped_down, 0, 0},
    {"crossing-offer", "a revoke and a new offer cross a start", crossing_offer_up, crossing_offer_down, 0, 0},
    {"changeover", "a forecast, and rails that are set for it", changeover_up, changeover_down, 0, 0},
    {"changeover-ready", "two forecasts to a machine that is ready: the last one is answered", changeover_ready_up, changeover_ready_down, 0, 0},
    {"changeover-no", "a forecast that cannot be met, and one that can", changeover_no_up, changeover_no_down, 0, 0},
    {"changeover-never", "a forecast that cannot be met, and a board that can be taken", changeover_never_up, changeover_never_down, 0, 0},
    {"forecast-crosses", "a revoke and a forecast cross a start", forecast_crosses_up, forecast_crosses_down, 0, 0},
    {"forecast-stopped", "a revoke and a forecast cross a start and arrive behind the stop", forecast_stopped_up, forecast_stopped_down, 0, 0},
    {"forecast-early", "a forecast while a board is offered", forecast_early_up, forecast_early_down, 0, 0},
    {"forecast-late", "a forecast after the board has left the upstream machine", forecast_late_up, forecast_late_down, 0, 0},
    {"late-start", "a start after the revoke has arrived", late_up, late_down, 0, 0},
    {"unasked-start", "a start without readiness", unasked_up, unasked_down, 0, 0},
    {"foreign-id", "a start for another board", foreign_up, foreign_down, 0, 0},
    {"near-id", "a start whose id has another last digit", near_up, near_down, 0, 0},
    {"capital-id", "a start whose id has a capital", capital_up, capital_down, 0, 0},
    {"stop-other", "a stop for another board", stop_other_up, stop_other_down, 0, 0},
    {"stop-near", "a stop whose id has another last digit, after the board has left", stop_near_up, stop_near_down, 0, 0},
    {"finish-other", "a finish for another board", finish_other_up, finish_other_down, 0, 0},
    {"closing-tag", "a closing tag inside a message, and three messages in one piece", closing_tag_up, closing_tag_down, 0, 0},
    {"garbage", "garbage from downstream while the board is under way", garbage_up, garbage_down, 0, 0},
    {"garbage-back", "garbage from upstream while the board is under way", garbage_back_up, garbage_back_down, 0, 0},
    {"too-long", "70,000 bytes that are no message", too_long_up, too_long_down, 0, 0},
    {"missing", "a stop without its TransferState", missing_up, missing_down, 0, 0},
    {"no-room", "a refusal for which 10 bytes were lent", no_room_up, garbage_down, 0, 0},
    {"no-room-ping", "a ping for whose answer 10 bytes were lent", no_room_ping_up, no_room_ping_down, 0, 0},
    {"no-room-revoke", "the same, and a revoke that crosses the start", no_room_revoke_up, no_room_revoke_down, 0, 0},
    {"may-not", "messages tried at the wrong time", may_not_up, may_not_down, 0, 0},
    {"cut-in-two", "every message cut in two", good_up, good_down, 2, 60},
    {"one-by-one", "every byte for itself", good_up, good_down, EACH_BYTE, 1},
    {"vanished", "the downstream machine vanishes", vanished_up, vanished_down, 0, 0},
    {"restarted", "the downstream machine starts again", restarted_up, restarted_down, 0, 0},
    {"vanished-back", "the upstream machine vanishes", vanished_back_up, vanished_back_down, 0, 0},
    {"silent", "the downstream machine says nothing any more", silent_up, silent_down, 0, 0},
    {"alive", "CheckAlive, Notification and an unknown message, idle and under way", alive_up, alive_down, 0, 0},
};

const size_t SCENARIO_COUNT = sizeof SCENARIOS / sizeof SCENARIOS[0];

const struct scenario *scenario_named(const char *name) {
    for (size_t i = 0; i < SCENARIO_COUNT; i++)
        if (strcmp(SCENARIOS[i].name, name) == 0) return &SCENARIOS[i];
    return NULL;
}
