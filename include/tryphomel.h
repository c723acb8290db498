/* Handover messages between machines of a line (IPC-HERMES-9852): the calls of the static library, and structs over them. C99, or C++.
 * docs/C.md has each call with its arguments, its answers and its errors; tryphomel(3) is made of it.
 *
 * Every call answers for all inputs, needs no memory but its stack, keeps no state and may be called from any thread. What is lent to one
 * call must not overlap: no buffer with another one, and the id of a message to be sent not with the ids of its lane. A slice of no bytes may
 * have a null pointer; every other pointer points to what its type says.
 *
 * Use the functions over the structs, in the second half. The calls below them take numbers, byte slices and arrays only, because these are
 * passed alike on every processor. A slice is a pointer and then its length, which has 64 bits on processors of 32 bits too.
 */
#ifndef TRYPHOMEL_H
#define TRYPHOMEL_H

#include <stddef.h>
#include <stdint.h>
#include <string.h>

/* The version of this header; tryphomel_version is that of the library. */
#define TRYPHOMEL_VERSION_MAJOR 1
#define TRYPHOMEL_VERSION_MINOR 5
#define TRYPHOMEL_VERSION_PATCH 0
#define TRYPHOMEL_VERSION (TRYPHOMEL_VERSION_MAJOR * 10000 + TRYPHOMEL_VERSION_MINOR * 100 + TRYPHOMEL_VERSION_PATCH)

#ifdef __cplusplus
extern "C" {
#endif

/* Sides of a lane. */
enum {
    TRYPHOMEL_UPSTREAM = 1,
    TRYPHOMEL_DOWNSTREAM = 2
};

/* States of a lane; behind each its name in the standard. */
enum {
    TRYPHOMEL_NOT_CONNECTED = 0,  /* NotConnected */
    TRYPHOMEL_DESCRIBED_DOWN = 1, /* ServiceDescriptionDownstream */
    TRYPHOMEL_IDLE = 2,           /* NotAvailableNotReady */
    TRYPHOMEL_OFFERED = 3,        /* BoardAvailable */
    TRYPHOMEL_READY = 4,          /* MachineReady */
    TRYPHOMEL_BOTH = 5,           /* AvailableAndReady */
    TRYPHOMEL_TRANSPORTING = 6,   /* Transporting */
    TRYPHOMEL_STOPPED = 7,        /* TransportStopped */
    TRYPHOMEL_FINISHED = 8        /* TransportFinished */
};

/* Kinds of message. An UNKNOWN one is received and ignored, and can't be sent. */
enum {
    TRYPHOMEL_UNKNOWN = 0,
    TRYPHOMEL_SERVICE_DESCRIPTION = 1,
    TRYPHOMEL_NOTIFICATION = 2,
    TRYPHOMEL_BOARD_AVAILABLE = 3,
    TRYPHOMEL_REVOKE_BOARD_AVAILABLE = 4,
    TRYPHOMEL_MACHINE_READY = 5,
    TRYPHOMEL_REVOKE_MACHINE_READY = 6,
    TRYPHOMEL_START_TRANSPORT = 7,
    TRYPHOMEL_STOP_TRANSPORT = 8,
    TRYPHOMEL_TRANSPORT_FINISHED = 9,
    TRYPHOMEL_CHECK_ALIVE = 10,
    TRYPHOMEL_BOARD_FORECAST = 11
};

/* Belt orders. */
enum {
    TRYPHOMEL_ORDER_NONE = 0,
    TRYPHOMEL_ORDER_RUN = 1,
    TRYPHOMEL_ORDER_CANCEL = 2,
    TRYPHOMEL_ORDER_STOP_NOW = 3
};

/* Refusals. In receiving, 2 to 6 and 9 end the connection: send what was written, close, and connect anew. 1 asks for more bytes behind the
 * same ones, 7 for a larger buffer. In sending, every refusal keeps lane and buffer.
 * A message ends with '>': after 1, bytes without one end no message. Who gets single bytes asks again when a '>' has come, when
 * TRYPHOMEL_MESSAGE_BYTES lie behind the blanks, or when he has waited long enough; asking after each byte costs the square of the length. */
enum {
    TRYPHOMEL_ACCEPTED = 0,
    TRYPHOMEL_MORE_NEEDED = 1,
    TRYPHOMEL_MALFORMED = 2,
    TRYPHOMEL_TOO_LONG = 3,
    TRYPHOMEL_MISSING = 4,
    TRYPHOMEL_TEXT_TOO_LONG = 5,
    TRYPHOMEL_BAD_VALUE = 6,
    TRYPHOMEL_NO_ROOM = 7,
    TRYPHOMEL_MAY_NOT_BE_SENT = 8,
    TRYPHOMEL_PROTOCOL_ERROR = 9
};

/* FailedBoard of BoardAvailable, BoardForecast. */
enum {
    TRYPHOMEL_UNKNOWN_QUALITY = 0,
    TRYPHOMEL_GOOD_BOARD = 1,
    TRYPHOMEL_FAILED_BOARD = 2
};

/* FailedBoard of MachineReady. */
enum {
    TRYPHOMEL_READY_FOR_ANY_BOARD = 0,
    TRYPHOMEL_READY_FOR_GOOD_BOARDS = 1,
    TRYPHOMEL_READY_FOR_FAILED_BOARDS = 2
};

/* FlippedBoard of BoardAvailable, BoardForecast. */
enum {
    TRYPHOMEL_SIDE_UP_UNKNOWN = 0,
    TRYPHOMEL_TOP_SIDE_UP = 1,
    TRYPHOMEL_BOTTOM_SIDE_UP = 2
};

/* TransferState of StopTransport, TransportFinished. */
enum {
    TRYPHOMEL_NOT_STARTED = 1, /* the board is wholly in the upstream machine */
    TRYPHOMEL_INCOMPLETE = 2,
    TRYPHOMEL_COMPLETE = 3
};

/* Severity of Notification. */
enum {
    TRYPHOMEL_SEVERITY_FATAL_ERROR = 1,
    TRYPHOMEL_SEVERITY_ERROR = 2,
    TRYPHOMEL_SEVERITY_WARNING = 3,
    TRYPHOMEL_SEVERITY_INFO = 4
};

/* NotificationCode of Notification: those of the standard; above 1000 are your own. */
enum {
    TRYPHOMEL_CODE_PROTOCOL_ERROR = 1,
    TRYPHOMEL_CODE_CONNECTION_REFUSED = 2, /* there is one already */
    TRYPHOMEL_CODE_CONNECTION_RESET = 3,   /* the configuration changed */
    TRYPHOMEL_CODE_CONFIGURATION_ERROR = 4,
    TRYPHOMEL_CODE_MACHINE_SHUTDOWN = 5,
    TRYPHOMEL_CODE_BOARD_FORECAST_ERROR = 6
};

/* Type of CheckAlive: a PING is replied to with a PONG. */
enum {
    TRYPHOMEL_PING = 1,
    TRYPHOMEL_PONG = 2
};

/* The classes of a Route, which tryphomel_route_class tells. */
enum {
    TRYPHOMEL_ROUTE_UNDEFINED = 0,      /* 0 */
    TRYPHOMEL_ROUTE_NUMBERED = 1,       /* 1 to 99, as the line is configured */
    TRYPHOMEL_ROUTE_RETURN = 2,         /* 900 */
    TRYPHOMEL_ROUTE_MANUAL_REMOVAL = 3, /* 999 */
    TRYPHOMEL_ROUTE_RESERVED = 4,       /* the others up to 998 */
    TRYPHOMEL_ROUTE_OWN = 5             /* 1000 and above: the line's own */
};

/* The bits of SupportedFeatures. */
enum {
    TRYPHOMEL_FEATURE_FORECAST = 1, /* FeatureBoardForecast */
    TRYPHOMEL_FEATURE_QUERY = 2,    /* FeatureQueryBoardInfo */
    TRYPHOMEL_FEATURE_SEND = 4      /* FeatureSendBoardInfo */
};

/* Where a text is. */
enum {
    TRYPHOMEL_NOWHERE = 0,
    TRYPHOMEL_IN_BYTES = 1,
    TRYPHOMEL_IN_SCRATCH = 2
};

/* Limits of a message: its bytes, a name's bytes, the attributes of an element, open elements; and bytes of short and long texts as read. */
enum {
    TRYPHOMEL_MESSAGE_BYTES = 65536,
    TRYPHOMEL_NAME_BYTES = 64,
    TRYPHOMEL_ATTRIBUTES = 32,
    TRYPHOMEL_DEPTH = 6,
    TRYPHOMEL_SHORT_TEXT = 80,
    TRYPHOMEL_LONG_TEXT = 254
};

/* Sizes: the bytes of a BoardId and of the longest ForecastId, a message's cells and its numbers, and the room that receiving and sending can want at most. */
enum {
    TRYPHOMEL_ID_BYTES = 36,
    TRYPHOMEL_FORECAST_BYTES = 80,
    TRYPHOMEL_CELLS = 24,
    TRYPHOMEL_NUMBERS = 72,
    TRYPHOMEL_RECEIVE_ROOM = 525,
    TRYPHOMEL_SEND_ROOM = 6462
};

/* A message is its kind, and a cell of three numbers for each attribute of its kind, in the order of the standard's table. A cell says first
 * whether the value is there: 0 or 1; in a message to be sent any number but 0 is yes. What is absent is zero in a received message, and so are
 * `spare`, the `decimals` of an int and the cells behind the last attribute; in a message to be sent all these are ignored. */

/* A text. Received: the place of its raw value in the bytes that were received; tryphomel_words_text reads it. To be sent: the place of the
 * plain UTF-8 in the texts. In the cell of a BoardId only `there` counts: its bytes are the message's `id`. */
typedef struct {
    uint64_t there, start, len;
} tryphomel_words;

/* An int; or a measure in millionths, 160.50 is 160500000, and how many digits stand behind its point, 0 to 6. Sent, a measure has so many digits there,
 * or as many as matter if that is more: 160000000 with 2 is written 160.00. Of an int `decimals` is 0 in a received message, and ignored in one to be sent. */
typedef struct {
    uint64_t there, value, decimals;
} tryphomel_number;

/* SupportedFeatures: the sum of the TRYPHOMEL_FEATURE_ bits that stand in it. */
typedef struct {
    uint64_t there, bits, spare;
} tryphomel_features;

/* A message of any kind. `as` holds the cells of its kind alone: look at `kind` before reading one. `cells` are the same cells by number.
 * Behind each member: the standard's attribute, what it may be, and whether it may be missing. A text
 * is limited in bytes as read, `positive` is a measure in millionths, above zero and below ten million. RevokeBoardAvailable and RevokeMachineReady
 * have no attributes. */
typedef struct {
    uint64_t kind;
    union {
        tryphomel_words cells[TRYPHOMEL_CELLS];
        struct { /* ServiceDescription */
            tryphomel_words machine;     /* MachineId: text 80 */
            tryphomel_number lane;       /* LaneId: 1..65535 */
            tryphomel_words version;     /* Version: Version, as 1.6 */
            tryphomel_features features; /* SupportedFeatures: child */
        } service;
        struct { /* Notification */
            tryphomel_number code;       /* NotificationCode: 1..65535 */
            tryphomel_number severity;   /* Severity: 1..4 */
            tryphomel_words description; /* Description: text 254 */
        } notification;
        struct { /* BoardAvailable */
            tryphomel_words id;         /* BoardId: GUID */
            tryphomel_words by;         /* BoardIdCreatedBy: non-empty text 80 */
            tryphomel_number failed;    /* FailedBoard: 0..2 */
            tryphomel_words product;    /* ProductTypeId: text 254, may be missing */
            tryphomel_number flipped;   /* FlippedBoard: 0..2 */
            tryphomel_words top;        /* TopBarcode: text 254, may be missing */
            tryphomel_words bottom;     /* BottomBarcode: text 254, may be missing */
            tryphomel_number length;    /* Length: positive, may be missing; mm */
            tryphomel_number width;     /* Width: positive, may be missing; mm */
            tryphomel_number thickness; /* Thickness: positive, may be missing; mm */
            tryphomel_number speed;     /* ConveyorSpeed: positive, may be missing; mm per second */
            tryphomel_number above;     /* TopClearanceHeight: positive, may be missing; mm */
            tryphomel_number below;     /* BottomClearanceHeight: positive, may be missing; mm */
            tryphomel_number weight;    /* Weight: positive, may be missing; grams */
            tryphomel_words order;      /* WorkOrderId: text 80, may be missing */
            tryphomel_number route;     /* Route: 0..65535, may be missing; tryphomel_route_class tells its class */
            tryphomel_words batch;      /* BatchId: text 80, may be missing */
        } board;
        struct { /* MachineReady */
            tryphomel_number failed;  /* FailedBoard: 0..2 */
            tryphomel_words forecast; /* ForecastId: text 80, may be missing */
        } ready;
        struct { /* StartTransport */
            tryphomel_words id;     /* BoardId: GUID */
            tryphomel_number speed; /* ConveyorSpeed: positive, may be missing; mm per second */
        } transport;
        struct { /* StopTransport, TransportFinished */
            tryphomel_number state; /* TransferState: 1..3 */
            tryphomel_words id;     /* BoardId: GUID */
        } transfer;
        struct { /* CheckAlive */
            tryphomel_number ping; /* Type: 1..2, may be missing */
            tryphomel_words id;    /* Id: text 80, may be missing */
        } alive;
        struct { /* BoardForecast */
            tryphomel_words forecast;   /* ForecastId: text 80, may be missing */
            tryphomel_number until;     /* TimeUntilAvailable: positive, may be missing; seconds */
            tryphomel_words id;         /* BoardId: GUID, may be missing */
            tryphomel_words by;         /* BoardIdCreatedBy: text 80, may be missing */
            tryphomel_number failed;    /* FailedBoard: 0..2 */
            tryphomel_words product;    /* ProductTypeId: text 254, may be missing */
            tryphomel_number flipped;   /* FlippedBoard: 0..2 */
            tryphomel_words top;        /* TopBarcode: text 254, may be missing */
            tryphomel_words bottom;     /* BottomBarcode: text 254, may be missing */
            tryphomel_number length;    /* Length: positive, may be missing; mm */
            tryphomel_number width;     /* Width: positive, may be missing; mm */
            tryphomel_number thickness; /* Thickness: positive, may be missing; mm */
            tryphomel_number speed;     /* ConveyorSpeed: positive, may be missing; mm per second */
            tryphomel_number above;     /* TopClearanceHeight: positive, may be missing; mm */
            tryphomel_number below;     /* BottomClearanceHeight: positive, may be missing; mm */
            tryphomel_number weight;    /* Weight: positive, may be missing; grams */
            tryphomel_words order;      /* WorkOrderId: text 80, may be missing */
        } forecast;
    } as;
    uint8_t id[TRYPHOMEL_ID_BYTES]; /* the BoardId; zeros in a received message that has none */
} tryphomel_message;

/* A lane: keep it between the calls, and change it by the calls only. `forecast` has the last ForecastId received in a BoardForecast, `forecast_length`
 * bytes and zeros behind them; a length of 0 if there is none. A MachineReady with the same id clears it, and so does the end of the connection. */
typedef struct {
    uint8_t side, state, offered[TRYPHOMEL_ID_BYTES], running[TRYPHOMEL_ID_BYTES], forecast_length, forecast[TRYPHOMEL_FORECAST_BYTES];
} tryphomel_lane;

/* What a check answers: a message from `start` to `end`, or the malformed byte at `place`. */
typedef struct {
    uint8_t refusal;
    uint64_t start, end, place;
    tryphomel_message message;
} tryphomel_checked;

/* What receiving answers: drop `used` of the bytes, send `written` of the buffer, obey `order`. */
typedef struct {
    uint8_t refusal, order;
    uint64_t used, written, place;
    tryphomel_message message;
} tryphomel_received;

/* What sending answers: send `written` of the buffer, obey `order`. */
typedef struct {
    uint8_t refusal, order;
    uint64_t written;
} tryphomel_sent;

/* The calls. */

/* The version of the library. */
uint64_t tryphomel_version(void);

/* Where the message behind the blanks in front of the bytes starts, and its end or its malformed place. */
uint8_t tryphomel_read(const uint8_t *bytes, uint64_t size, uint64_t *start, uint64_t *place);

/* What that message says. */
uint8_t tryphomel_check(const uint8_t *bytes, uint64_t size, uint64_t *kind, uint64_t cells[TRYPHOMEL_NUMBERS], uint8_t id[TRYPHOMEL_ID_BYTES], uint64_t *start,
                        uint64_t *end, uint64_t *place);

/* The text of a value: refusal 0, 4, 6 or 7; place 1: bytes[at..at+count], 2: scratch[0..count]. */
uint8_t tryphomel_text(const uint8_t *bytes, uint64_t size, uint8_t there, uint64_t start, uint64_t len, uint8_t *scratch, uint64_t room, uint64_t *place,
                       uint64_t *at, uint64_t *count);

/* The class of a Route. Every number has one. */
uint8_t tryphomel_route_class(uint64_t route);

/* A new lane of a side, and a lane after its connection was lost. */
void tryphomel_upstream(uint8_t *side, uint8_t *state, uint8_t offered[TRYPHOMEL_ID_BYTES], uint8_t running[TRYPHOMEL_ID_BYTES],
    uint8_t *forecast_length, uint8_t forecast[TRYPHOMEL_FORECAST_BYTES]);
void tryphomel_downstream(uint8_t *side, uint8_t *state, uint8_t offered[TRYPHOMEL_ID_BYTES], uint8_t running[TRYPHOMEL_ID_BYTES],
    uint8_t *forecast_length, uint8_t forecast[TRYPHOMEL_FORECAST_BYTES]);
void tryphomel_lost(uint8_t side, uint8_t *state, uint8_t offered[TRYPHOMEL_ID_BYTES], uint8_t running[TRYPHOMEL_ID_BYTES],
    uint8_t *forecast_length, uint8_t forecast[TRYPHOMEL_FORECAST_BYTES]);

/* Receives the message behind the blanks in front of the bytes. The Notification of a refusal or the reply to a CheckAlive stands first in
 * `out`; the rest of it is kept. */
uint8_t tryphomel_receive(uint8_t side, uint8_t *state, uint8_t offered[TRYPHOMEL_ID_BYTES], uint8_t running[TRYPHOMEL_ID_BYTES],
                          uint8_t *forecast_length, uint8_t forecast[TRYPHOMEL_FORECAST_BYTES],
                          const uint8_t *bytes, uint64_t size, uint8_t *out, uint64_t room, uint64_t *kind, uint64_t cells[TRYPHOMEL_NUMBERS],
                          uint8_t id[TRYPHOMEL_ID_BYTES], uint8_t *order, uint64_t *used, uint64_t *written, uint64_t *place);

/* Writes a message first into `out`, if the lane may send it. A kind above 255 counts as 255, and may not be sent. */
uint8_t tryphomel_send(uint8_t side, uint8_t *state, uint8_t offered[TRYPHOMEL_ID_BYTES], uint8_t running[TRYPHOMEL_ID_BYTES],
                       uint8_t *forecast_length, uint8_t forecast[TRYPHOMEL_FORECAST_BYTES],
                       uint64_t kind, const uint64_t cells[TRYPHOMEL_NUMBERS], const uint8_t id[TRYPHOMEL_ID_BYTES], const uint8_t *texts, uint64_t size, uint8_t *out,
                       uint64_t room, uint8_t *order, uint64_t *written);

#ifdef __cplusplus
}
#endif

/* The same over the structs. */

#ifdef __cplusplus
#define TRYPHOMEL_AS(type, pointer) reinterpret_cast<type>(pointer)
#define TRYPHOMEL_NO_POINTER nullptr
#else
#define TRYPHOMEL_AS(type, pointer) ((type)(pointer))
#define TRYPHOMEL_NO_POINTER NULL
#endif

static inline void tryphomel_lane_upstream(tryphomel_lane *lane) {
    tryphomel_upstream(&lane->side, &lane->state, lane->offered, lane->running, &lane->forecast_length, lane->forecast);
}

static inline void tryphomel_lane_downstream(tryphomel_lane *lane) {
    tryphomel_downstream(&lane->side, &lane->state, lane->offered, lane->running, &lane->forecast_length, lane->forecast);
}

static inline void tryphomel_lane_lost(tryphomel_lane *lane) {
    tryphomel_lost(lane->side, &lane->state, lane->offered, lane->running, &lane->forecast_length, lane->forecast);
}

static inline uint8_t tryphomel_lane_receive(tryphomel_lane *lane, const void *bytes, size_t size, void *out, size_t room, tryphomel_received *to) {
    return to->refusal = tryphomel_receive(lane->side, &lane->state, lane->offered, lane->running, &lane->forecast_length, lane->forecast,
                                           TRYPHOMEL_AS(const uint8_t *, bytes), size, TRYPHOMEL_AS(uint8_t *, out), room,
                                           &to->message.kind, TRYPHOMEL_AS(uint64_t *, &to->message.as), to->message.id, &to->order, &to->used, &to->written, &to->place);
}

static inline uint8_t tryphomel_lane_send(tryphomel_lane *lane, const tryphomel_message *message, const void *texts, size_t size, void *out, size_t room,
                                          tryphomel_sent *to) {
    return to->refusal = tryphomel_send(lane->side, &lane->state, lane->offered, lane->running, &lane->forecast_length, lane->forecast,
                                        message->kind, TRYPHOMEL_AS(const uint64_t *, &message->as), message->id, TRYPHOMEL_AS(const uint8_t *, texts), size,
                                        TRYPHOMEL_AS(uint8_t *, out), room, &to->order, &to->written);
}

static inline uint8_t tryphomel_message_check(const void *bytes, size_t size, tryphomel_checked *to) {
    return to->refusal = tryphomel_check(TRYPHOMEL_AS(const uint8_t *, bytes), size, &to->message.kind, TRYPHOMEL_AS(uint64_t *, &to->message.as), to->message.id,
                                         &to->start, &to->end, &to->place);
}

/* The text of a received value: `*text` points into the bytes or the scratch, and is a null pointer if the text is refused. */
static inline uint8_t tryphomel_words_text(tryphomel_words words, const void *bytes, size_t size, void *scratch, size_t room, const uint8_t **text,
                                           uint64_t *count) {
    uint64_t place, at;
    uint8_t refusal = tryphomel_text(TRYPHOMEL_AS(const uint8_t *, bytes), size, words.there != 0, words.start, words.len,
                                     TRYPHOMEL_AS(uint8_t *, scratch), room, &place, &at, count);
    if (refusal != TRYPHOMEL_ACCEPTED)
        *text = TRYPHOMEL_NO_POINTER;
    else if (place == TRYPHOMEL_IN_SCRATCH)
        *text = TRYPHOMEL_AS(const uint8_t *, scratch);
    else
        *text = bytes == TRYPHOMEL_NO_POINTER ? TRYPHOMEL_AS(const uint8_t *, "") : TRYPHOMEL_AS(const uint8_t *, bytes) + at;
    return refusal;
}

#undef TRYPHOMEL_AS
#undef TRYPHOMEL_NO_POINTER

/* A message to be sent, in which nothing is there yet. */
static inline tryphomel_message tryphomel_blank(uint64_t kind) {
    tryphomel_message m;
    memset(&m, 0, sizeof m);
    m.kind = kind;
    return m;
}

/* Values of a message to be sent: a number, a text that stands in the texts, and features. */
static inline tryphomel_number tryphomel_is(uint64_t value) {
    tryphomel_number n;
    n.there = 1;
    n.value = value;
    n.decimals = 0;
    return n;
}

/* A measure with so many digits behind its point, at most 6. */
static inline tryphomel_number tryphomel_measure(uint64_t millionths, uint64_t decimals) {
    tryphomel_number n = tryphomel_is(millionths);
    n.decimals = decimals;
    return n;
}

static inline tryphomel_words tryphomel_part(uint64_t start, uint64_t len) {
    tryphomel_words w;
    w.there = 1;
    w.start = start;
    w.len = len;
    return w;
}

static inline tryphomel_features tryphomel_supports(uint64_t bits) {
    tryphomel_features f;
    f.there = 1;
    f.bits = bits;
    f.spare = 0;
    return f;
}

/* The number of the BoardId's cell, and TRYPHOMEL_CELLS for a kind that has no BoardId. */
static inline size_t tryphomel_id_cell(uint64_t kind) {
    switch (kind) {
        case TRYPHOMEL_BOARD_AVAILABLE:
        case TRYPHOMEL_START_TRANSPORT: return 0;
        case TRYPHOMEL_STOP_TRANSPORT:
        case TRYPHOMEL_TRANSPORT_FINISHED: return 1;
        case TRYPHOMEL_BOARD_FORECAST: return 2;
        default: return TRYPHOMEL_CELLS;
    }
}

/* Whether a message has a BoardId. */
static inline int tryphomel_has_id(const tryphomel_message *message) {
    size_t cell = tryphomel_id_cell(message->kind);
    return cell < TRYPHOMEL_CELLS && message->as.cells[cell].there != 0;
}

/* Gives a message its BoardId, 36 bytes; one whose kind has none is kept. */
static inline void tryphomel_name_board(tryphomel_message *message, const void *id) {
    size_t cell = tryphomel_id_cell(message->kind);
    if (cell == TRYPHOMEL_CELLS) return;
    message->as.cells[cell].there = 1;
    memcpy(message->id, id, TRYPHOMEL_ID_BYTES);
}

/* Whether this header and the library that is linked belong together. */
static inline int tryphomel_fits(void) {
    return tryphomel_version() == TRYPHOMEL_VERSION;
}

/* Numbers as words, for people. */

static inline const char *tryphomel_kind_name(uint64_t kind) {
    switch (kind) {
        case TRYPHOMEL_UNKNOWN: return "unknown message";
        case TRYPHOMEL_SERVICE_DESCRIPTION: return "ServiceDescription";
        case TRYPHOMEL_NOTIFICATION: return "Notification";
        case TRYPHOMEL_BOARD_AVAILABLE: return "BoardAvailable";
        case TRYPHOMEL_REVOKE_BOARD_AVAILABLE: return "RevokeBoardAvailable";
        case TRYPHOMEL_MACHINE_READY: return "MachineReady";
        case TRYPHOMEL_REVOKE_MACHINE_READY: return "RevokeMachineReady";
        case TRYPHOMEL_START_TRANSPORT: return "StartTransport";
        case TRYPHOMEL_STOP_TRANSPORT: return "StopTransport";
        case TRYPHOMEL_TRANSPORT_FINISHED: return "TransportFinished";
        case TRYPHOMEL_CHECK_ALIVE: return "CheckAlive";
        case TRYPHOMEL_BOARD_FORECAST: return "BoardForecast";
        default: return "no kind";
    }
}

static inline const char *tryphomel_state_name(uint8_t state) {
    switch (state) {
        case TRYPHOMEL_NOT_CONNECTED: return "NotConnected";
        case TRYPHOMEL_DESCRIBED_DOWN: return "DescribedDown";
        case TRYPHOMEL_IDLE: return "Idle";
        case TRYPHOMEL_OFFERED: return "Offered";
        case TRYPHOMEL_READY: return "Ready";
        case TRYPHOMEL_BOTH: return "Both";
        case TRYPHOMEL_TRANSPORTING: return "Transporting";
        case TRYPHOMEL_STOPPED: return "Stopped";
        case TRYPHOMEL_FINISHED: return "Finished";
        default: return "no state";
    }
}

static inline const char *tryphomel_refusal_name(uint8_t refusal) {
    switch (refusal) {
        case TRYPHOMEL_ACCEPTED: return "accepted";
        case TRYPHOMEL_MORE_NEEDED: return "more needed";
        case TRYPHOMEL_MALFORMED: return "malformed";
        case TRYPHOMEL_TOO_LONG: return "too long";
        case TRYPHOMEL_MISSING: return "attribute or child missing";
        case TRYPHOMEL_TEXT_TOO_LONG: return "text too long";
        case TRYPHOMEL_BAD_VALUE: return "bad value";
        case TRYPHOMEL_NO_ROOM: return "no room";
        case TRYPHOMEL_MAY_NOT_BE_SENT: return "may not be sent";
        case TRYPHOMEL_PROTOCOL_ERROR: return "protocol error";
        default: return "no refusal";
    }
}

static inline const char *tryphomel_order_name(uint8_t order) {
    switch (order) {
        case TRYPHOMEL_ORDER_NONE: return "none";
        case TRYPHOMEL_ORDER_RUN: return "run";
        case TRYPHOMEL_ORDER_CANCEL: return "cancel";
        case TRYPHOMEL_ORDER_STOP_NOW: return "stop now";
        default: return "no order";
    }
}

#endif
