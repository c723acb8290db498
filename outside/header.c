/* Holds include/tryphomel.h against the library: sizes and offsets where it is compiled, every named number where it is run.
 * Prints what fails, and last 'N passed, M failed'. C99 and C++. */
#include <stdio.h>
#include <string.h>

#include "../include/tryphomel.h"

#define FITS(name, fact) typedef char fits_##name[(fact) ? 1 : -1]
#define AT(member, index) (offsetof(tryphomel_message, member) == 8 * (index))
#define CELL(member, row) AT(as.member, 1 + 3 * (row))

FITS(lane_size, sizeof(tryphomel_lane) == 155);
FITS(lane_places, offsetof(tryphomel_lane, side) == 0 && offsetof(tryphomel_lane, state) == 1 && offsetof(tryphomel_lane, offered) == 2 &&
                      offsetof(tryphomel_lane, running) == 38 && offsetof(tryphomel_lane, forecast_length) == 74 && offsetof(tryphomel_lane, forecast) == 75);
FITS(forecast_size, TRYPHOMEL_FORECAST_BYTES == 80 && TRYPHOMEL_SHORT_TEXT == 80);
FITS(cells, sizeof(tryphomel_words) == 24 && sizeof(tryphomel_number) == 24 && sizeof(tryphomel_features) == 24);
FITS(words, offsetof(tryphomel_words, there) == 0 && offsetof(tryphomel_words, start) == 8 && offsetof(tryphomel_words, len) == 16);
FITS(number, offsetof(tryphomel_number, there) == 0 && offsetof(tryphomel_number, value) == 8 && offsetof(tryphomel_number, decimals) == 16);
FITS(features, offsetof(tryphomel_features, there) == 0 && offsetof(tryphomel_features, bits) == 8 && offsetof(tryphomel_features, spare) == 16);
FITS(numbers, TRYPHOMEL_CELLS == 24 && TRYPHOMEL_NUMBERS == 3 * TRYPHOMEL_CELLS && AT(kind, 0) && CELL(cells, 0) && CELL(cells[23], 23));
FITS(service, CELL(service.machine, 0) && CELL(service.lane, 1) && CELL(service.version, 2) && CELL(service.features, 3));
FITS(notification, CELL(notification.code, 0) && CELL(notification.severity, 1) && CELL(notification.description, 2));
FITS(board, CELL(board.id, 0) && CELL(board.by, 1) && CELL(board.failed, 2) && CELL(board.product, 3) && CELL(board.flipped, 4) && CELL(board.top, 5) &&
                CELL(board.bottom, 6) && CELL(board.order, 14) && CELL(board.route, 15) && CELL(board.batch, 16));
FITS(measures, CELL(board.length, 7) && CELL(board.width, 8) && CELL(board.thickness, 9) && CELL(board.speed, 10) && CELL(board.above, 11) &&
                   CELL(board.below, 12) && CELL(board.weight, 13));
FITS(ready, CELL(ready.failed, 0) && CELL(ready.forecast, 1));
FITS(transport, CELL(transport.id, 0) && CELL(transport.speed, 1));
FITS(transfer, CELL(transfer.state, 0) && CELL(transfer.id, 1));
FITS(alive, CELL(alive.ping, 0) && CELL(alive.id, 1));
FITS(forecast, CELL(forecast.forecast, 0) && CELL(forecast.until, 1) && CELL(forecast.id, 2) && CELL(forecast.by, 3) && CELL(forecast.failed, 4) &&
                   CELL(forecast.product, 5) && CELL(forecast.flipped, 6) && CELL(forecast.top, 7) && CELL(forecast.bottom, 8) && CELL(forecast.order, 16));
FITS(forecast_measures, CELL(forecast.length, 9) && CELL(forecast.width, 10) && CELL(forecast.thickness, 11) && CELL(forecast.speed, 12) &&
                            CELL(forecast.above, 13) && CELL(forecast.below, 14) && CELL(forecast.weight, 15));
FITS(id, AT(id, 1 + TRYPHOMEL_NUMBERS) && sizeof(((tryphomel_message *)0)->as) == 576 && sizeof(((tryphomel_message *)0)->id) == TRYPHOMEL_ID_BYTES);

FITS(version, TRYPHOMEL_VERSION == TRYPHOMEL_VERSION_MAJOR * 10000 + TRYPHOMEL_VERSION_MINOR * 100 + TRYPHOMEL_VERSION_PATCH);

static int passed, failed;

static void check_at(int line, const char *what, int fact) {
    if (fact) {
        passed++;
        return;
    }
    failed++;
    printf("line %d: %s\n", line, what);
}
#define CHECK(fact) check_at(__LINE__, #fact, (fact) != 0)

static const uint8_t ID[] = "0123abcd-4567-89ef-0123-456789abcdef";
static const char OTHER[] = "99999999-4567-89ef-0123-456789abcdef";
static char buffer[70000], texts[70000];
static uint8_t out[7000];

/* A text of the message to be sent: it is put behind the others. */
static tryphomel_words put(const char *text) {
    size_t at = strlen(texts);
    strcpy(texts + at, text);
    return tryphomel_part(at, strlen(text));
}

static tryphomel_lane lane_in(int side, int state) {
    tryphomel_lane l;
    memset(&l, 0, sizeof l);
    l.side = (uint8_t)side;
    l.state = (uint8_t)state;
    memcpy(l.offered, ID, sizeof l.offered);
    memcpy(l.running, ID, sizeof l.running);
    return l;
}

static int zeros(const uint8_t *bytes, size_t n) {
    while (n > 0 && bytes[n - 1] == 0) n--;
    return n == 0;
}
static int zero(const uint8_t *id) { return zeros(id, TRYPHOMEL_ID_BYTES); }

/* A lane with that ForecastId, and a length that need not be its own. */
static void forecast_in(tryphomel_lane *l, int length, const char *id) {
    memset(l->forecast, 0, sizeof l->forecast);
    memcpy(l->forecast, id, strlen(id));
    l->forecast_length = (uint8_t)length;
}

/* The lane has kept that ForecastId, and zeros behind it. */
static int keeps(const tryphomel_lane *l, const char *id) {
    size_t n = strlen(id);
    return l->forecast_length == n && memcmp(l->forecast, id, n) == 0 && zeros(l->forecast + n, sizeof l->forecast - n);
}

/* Sends a message from a lane in a state, and holds the bytes to what is expected; then checks them, and hands out what was found. */
static tryphomel_checked there_and_back(int line, int side, int state, tryphomel_message m, const char *expected, int next) {
    tryphomel_lane l = lane_in(side, state);
    tryphomel_sent s;
    tryphomel_checked c;
    memset(out, '#', sizeof out);
    memset(&c, 0xa5, sizeof c);
    check_at(line, "sent", tryphomel_lane_send(&l, &m, texts, strlen(texts), out, sizeof out, &s) == TRYPHOMEL_ACCEPTED && s.refusal == TRYPHOMEL_ACCEPTED);
    check_at(line, "bytes", s.written == strlen(expected) && memcmp(out, expected, strlen(expected)) == 0);
    check_at(line, "rest kept", out[s.written] == '#' && out[sizeof out - 1] == '#');
    check_at(line, "next state", l.side == side && l.state == next);
    check_at(line, "checked", tryphomel_message_check(out, s.written, &c) == TRYPHOMEL_ACCEPTED && c.refusal == TRYPHOMEL_ACCEPTED);
    check_at(line, "places", c.start == 0 && c.end == s.written && c.place == 0);
    check_at(line, "kind", c.message.kind == m.kind);
    sprintf(buffer, "<Hermes><%s", tryphomel_kind_name(m.kind));
    check_at(line, "kind's name", strncmp(expected, buffer, strlen(buffer)) == 0 && strchr(" />", expected[strlen(buffer)]) != NULL);
    texts[0] = 0;
    return c;
}

static int is_text(tryphomel_words w, const char *text) { return w.there == 1 && w.len == strlen(text) && memcmp(out + w.start, text, w.len) == 0; }
static int is_measure(tryphomel_number n, uint64_t value, uint64_t decimals) { return n.there == 1 && n.value == value && n.decimals == decimals; }
static int is_number(tryphomel_number n, uint64_t value) { return is_measure(n, value, 0); }
static int is_set(tryphomel_features f, uint64_t bits) { return f.there == 1 && f.bits == bits && f.spare == 0; }

/* A received message has that BoardId, in that cell. */
static int is_board(const tryphomel_message *m, tryphomel_words cell) {
    return cell.there == 1 && cell.start == 0 && cell.len == 0 && tryphomel_has_id(m) && memcmp(m->id, ID, sizeof m->id) == 0;
}

/* The cells from that one on are absent. */
static int none_from(const tryphomel_message *m, size_t cell) {
    for (; cell < TRYPHOMEL_CELLS; cell++)
        if (m->as.cells[cell].there != 0 || m->as.cells[cell].start != 0 || m->as.cells[cell].len != 0) return 0;
    return 1;
}
static int no_board(const tryphomel_message *m) { return !tryphomel_has_id(m) && zero(m->id); }

static void descriptions(void) {
    tryphomel_message m = tryphomel_blank(TRYPHOMEL_SERVICE_DESCRIPTION);
    tryphomel_checked c;
    m.as.service.machine = put("Printer 3");
    m.as.service.lane = tryphomel_is(7);
    m.as.service.version = put("1.6");
    m.as.service.features = tryphomel_supports(TRYPHOMEL_FEATURE_QUERY);
    c = there_and_back(__LINE__, TRYPHOMEL_DOWNSTREAM, TRYPHOMEL_NOT_CONNECTED, m,
                       "<Hermes><ServiceDescription MachineId=\"Printer 3\" LaneId=\"7\" Version=\"1.6\"><SupportedFeatures><FeatureQueryBoardInfo/>"
                       "</SupportedFeatures></ServiceDescription></Hermes>",
                       TRYPHOMEL_DESCRIBED_DOWN);
    CHECK(is_text(c.message.as.service.machine, "Printer 3") && is_number(c.message.as.service.lane, 7) && is_text(c.message.as.service.version, "1.6"));
    CHECK(is_set(c.message.as.service.features, TRYPHOMEL_FEATURE_QUERY) && none_from(&c.message, 4) && no_board(&c.message));
    m.as.service.machine = put("P");
    m.as.service.version = put("1.0");
    m.as.service.features = tryphomel_supports(8 + TRYPHOMEL_FEATURE_FORECAST + TRYPHOMEL_FEATURE_SEND);
    m.as.service.features.there = m.as.service.lane.there = m.as.service.lane.decimals = 9;
    c = there_and_back(__LINE__, TRYPHOMEL_UPSTREAM, TRYPHOMEL_DESCRIBED_DOWN, m,
                       "<Hermes><ServiceDescription MachineId=\"P\" LaneId=\"7\" Version=\"1.0\"><SupportedFeatures><FeatureBoardForecast/>"
                       "<FeatureSendBoardInfo/></SupportedFeatures></ServiceDescription></Hermes>",
                       TRYPHOMEL_IDLE);
    CHECK(is_set(c.message.as.service.features, TRYPHOMEL_FEATURE_FORECAST + TRYPHOMEL_FEATURE_SEND) && is_number(c.message.as.service.lane, 7));
    m = tryphomel_blank(TRYPHOMEL_NOTIFICATION);
    m.as.notification.code = tryphomel_is(11);
    m.as.notification.severity = tryphomel_is(3);
    m.as.notification.description = put("door open");
    c = there_and_back(__LINE__, TRYPHOMEL_UPSTREAM, TRYPHOMEL_IDLE, m,
                       "<Hermes><Notification NotificationCode=\"11\" Severity=\"3\" Description=\"door open\"/></Hermes>", TRYPHOMEL_IDLE);
    CHECK(is_number(c.message.as.notification.code, 11) && is_number(c.message.as.notification.severity, 3));
    CHECK(is_text(c.message.as.notification.description, "door open") && none_from(&c.message, 3) && no_board(&c.message));
}

static void boards(void) {
    tryphomel_message m = tryphomel_blank(TRYPHOMEL_BOARD_AVAILABLE);
    tryphomel_checked c;
    tryphomel_name_board(&m, ID);
    m.as.board.by = put("Loader");
    m.as.board.failed = tryphomel_is(1);
    m.as.board.product = put("type 5");
    m.as.board.flipped = tryphomel_is(2);
    m.as.board.top = put("T-77");
    m.as.board.bottom = put("B-88");
    m.as.board.length = tryphomel_is(160500000);
    m.as.board.width = tryphomel_is(2000000);
    m.as.board.thickness = tryphomel_is(1600000);
    m.as.board.speed = tryphomel_is(4000000);
    m.as.board.above = tryphomel_is(25000001);
    m.as.board.below = tryphomel_is(6000000);
    m.as.board.weight = tryphomel_is(500000);
    m.as.board.order = put("WO 9");
    m.as.board.route = tryphomel_is(900);
    m.as.board.batch = put("lot 4");
    c = there_and_back(__LINE__, TRYPHOMEL_UPSTREAM, TRYPHOMEL_IDLE, m,
                       "<Hermes><BoardAvailable BoardId=\"0123abcd-4567-89ef-0123-456789abcdef\" BoardIdCreatedBy=\"Loader\" FailedBoard=\"1\""
                       " ProductTypeId=\"type 5\" FlippedBoard=\"2\" TopBarcode=\"T-77\" BottomBarcode=\"B-88\" Length=\"160.5\" Width=\"2\" Thickness=\"1.6\""
                       " ConveyorSpeed=\"4\" TopClearanceHeight=\"25.000001\" BottomClearanceHeight=\"6\" Weight=\"0.5\" WorkOrderId=\"WO 9\""
                       " Route=\"900\" BatchId=\"lot 4\"/></Hermes>",
                       TRYPHOMEL_OFFERED);
    CHECK(is_board(&c.message, c.message.as.board.id) && none_from(&c.message, 17));
    CHECK(is_text(c.message.as.board.by, "Loader") && is_number(c.message.as.board.failed, 1) && is_text(c.message.as.board.product, "type 5"));
    CHECK(is_number(c.message.as.board.flipped, 2) && is_text(c.message.as.board.top, "T-77") && is_text(c.message.as.board.bottom, "B-88"));
    CHECK(is_measure(c.message.as.board.length, 160500000, 1) && is_number(c.message.as.board.width, 2000000) && is_measure(c.message.as.board.thickness, 1600000, 1));
    CHECK(is_number(c.message.as.board.speed, 4000000) && is_measure(c.message.as.board.above, 25000001, 6) && is_number(c.message.as.board.below, 6000000));
    CHECK(is_measure(c.message.as.board.weight, 500000, 1) && is_text(c.message.as.board.order, "WO 9"));
    CHECK(is_number(c.message.as.board.route, 900) && is_text(c.message.as.board.batch, "lot 4"));
    CHECK(tryphomel_route_class(c.message.as.board.route.value) == TRYPHOMEL_ROUTE_RETURN);
    there_and_back(__LINE__, TRYPHOMEL_UPSTREAM, TRYPHOMEL_BOTH, tryphomel_blank(TRYPHOMEL_REVOKE_BOARD_AVAILABLE), "<Hermes><RevokeBoardAvailable/></Hermes>",
                   TRYPHOMEL_READY);
    m = tryphomel_blank(TRYPHOMEL_MACHINE_READY);
    m.as.ready.failed = tryphomel_is(2);
    c = there_and_back(__LINE__, TRYPHOMEL_DOWNSTREAM, TRYPHOMEL_OFFERED, m, "<Hermes><MachineReady FailedBoard=\"2\"/></Hermes>", TRYPHOMEL_BOTH);
    CHECK(is_number(c.message.as.ready.failed, 2) && none_from(&c.message, 1) && no_board(&c.message));
    m.as.ready.forecast = put("F 7");
    c = there_and_back(__LINE__, TRYPHOMEL_DOWNSTREAM, TRYPHOMEL_IDLE, m, "<Hermes><MachineReady FailedBoard=\"2\" ForecastId=\"F 7\"/></Hermes>",
                       TRYPHOMEL_READY);
    CHECK(is_number(c.message.as.ready.failed, 2) && is_text(c.message.as.ready.forecast, "F 7") && none_from(&c.message, 2) && no_board(&c.message));
    there_and_back(__LINE__, TRYPHOMEL_DOWNSTREAM, TRYPHOMEL_READY, tryphomel_blank(TRYPHOMEL_REVOKE_MACHINE_READY), "<Hermes><RevokeMachineReady/></Hermes>",
                   TRYPHOMEL_IDLE);
}

/* The class of every number up to 70,000, and of larger ones, beside the order's sentence. */
static int route_class(uint64_t n) {
    if (n >= 1000) return TRYPHOMEL_ROUTE_OWN;
    if (n == 900) return TRYPHOMEL_ROUTE_RETURN;
    if (n == 999) return TRYPHOMEL_ROUTE_MANUAL_REMOVAL;
    if (n > 99) return TRYPHOMEL_ROUTE_RESERVED;
    return n ? TRYPHOMEL_ROUTE_NUMBERED : TRYPHOMEL_ROUTE_UNDEFINED;
}

/* A measure keeps the sender's digits: read, handed on, and as it is sent. */
static void decimals(void) {
    tryphomel_lane l = lane_in(TRYPHOMEL_DOWNSTREAM, TRYPHOMEL_BOTH);
    tryphomel_message m = tryphomel_blank(TRYPHOMEL_START_TRANSPORT);
    tryphomel_checked c;
    tryphomel_sent s;
    static const char want[] = "<Hermes><StartTransport BoardId=\"0123abcd-4567-89ef-0123-456789abcdef\" ConveyorSpeed=\"160.00\"/></Hermes>";
    memcpy(l.offered, ID, TRYPHOMEL_ID_BYTES);
    tryphomel_name_board(&m, ID);
    m.as.transport.speed = tryphomel_measure(160000000, 7);
    CHECK(tryphomel_lane_send(&l, &m, "", 0, out, sizeof out, &s) == TRYPHOMEL_BAD_VALUE && s.written == 0);
    m.as.transport.speed = tryphomel_measure(160000000, 2);
    CHECK(tryphomel_lane_send(&l, &m, "", 0, out, sizeof out, &s) == TRYPHOMEL_ACCEPTED && s.written == strlen(want) && memcmp(out, want, strlen(want)) == 0);
    CHECK(tryphomel_message_check(want, strlen(want), &c) == TRYPHOMEL_ACCEPTED && is_measure(c.message.as.transport.speed, 160000000, 2));
    m.as.transport.speed = tryphomel_measure(500000, 0);
    l = lane_in(TRYPHOMEL_DOWNSTREAM, TRYPHOMEL_BOTH);
    memcpy(l.offered, ID, TRYPHOMEL_ID_BYTES);
    CHECK(tryphomel_lane_send(&l, &m, "", 0, out, sizeof out, &s) == TRYPHOMEL_ACCEPTED && tryphomel_message_check(out, s.written, &c) == TRYPHOMEL_ACCEPTED
          && is_measure(c.message.as.transport.speed, 500000, 1));
}

static void routes(void) {
    uint64_t n;
    int wrong = 0;
    for (n = 0; n < 70000; n++) wrong += tryphomel_route_class(n) != route_class(n);
    for (n = 1; n; n <<= 1) wrong += tryphomel_route_class(n) != route_class(n) || tryphomel_route_class(n + 900) != route_class(n + 900);
    CHECK(wrong == 0 && tryphomel_route_class(UINT64_MAX) == TRYPHOMEL_ROUTE_OWN);
}

static void forecasts(void) {
    tryphomel_message m = tryphomel_blank(TRYPHOMEL_BOARD_FORECAST);
    tryphomel_checked c;
    m.as.forecast.failed = tryphomel_is(0);
    m.as.forecast.flipped = tryphomel_is(1);
    c = there_and_back(__LINE__, TRYPHOMEL_UPSTREAM, TRYPHOMEL_READY, m, "<Hermes><BoardForecast FailedBoard=\"0\" FlippedBoard=\"1\"/></Hermes>",
                       TRYPHOMEL_READY);
    CHECK(is_number(c.message.as.forecast.failed, 0) && is_number(c.message.as.forecast.flipped, 1) && no_board(&c.message));
    CHECK(!c.message.as.forecast.forecast.there && !c.message.as.forecast.until.there && !c.message.as.forecast.id.there && none_from(&c.message, 7));
    m.as.forecast.forecast = put("F 7");
    m.as.forecast.until = tryphomel_is(12500000);
    tryphomel_name_board(&m, ID);
    m.as.forecast.by = put("Loader");
    m.as.forecast.failed = tryphomel_is(1);
    m.as.forecast.product = put("type 5");
    m.as.forecast.flipped = tryphomel_is(2);
    m.as.forecast.top = put("T-77");
    m.as.forecast.bottom = put("B-88");
    m.as.forecast.length = tryphomel_is(160500000);
    m.as.forecast.width = tryphomel_is(2000000);
    m.as.forecast.thickness = tryphomel_is(1600000);
    m.as.forecast.speed = tryphomel_is(4000000);
    m.as.forecast.above = tryphomel_is(25000001);
    m.as.forecast.below = tryphomel_is(6000000);
    m.as.forecast.weight = tryphomel_is(500000);
    m.as.forecast.order = put("WO 9");
    c = there_and_back(__LINE__, TRYPHOMEL_UPSTREAM, TRYPHOMEL_IDLE, m,
                       "<Hermes><BoardForecast ForecastId=\"F 7\" TimeUntilAvailable=\"12.5\" BoardId=\"0123abcd-4567-89ef-0123-456789abcdef\""
                       " BoardIdCreatedBy=\"Loader\" FailedBoard=\"1\" ProductTypeId=\"type 5\" FlippedBoard=\"2\" TopBarcode=\"T-77\" BottomBarcode=\"B-88\""
                       " Length=\"160.5\" Width=\"2\" Thickness=\"1.6\" ConveyorSpeed=\"4\" TopClearanceHeight=\"25.000001\" BottomClearanceHeight=\"6\""
                       " Weight=\"0.5\" WorkOrderId=\"WO 9\"/></Hermes>",
                       TRYPHOMEL_IDLE);
    CHECK(is_board(&c.message, c.message.as.forecast.id) && none_from(&c.message, 17));
    CHECK(is_text(c.message.as.forecast.forecast, "F 7") && is_measure(c.message.as.forecast.until, 12500000, 1) && is_text(c.message.as.forecast.by, "Loader"));
    CHECK(is_number(c.message.as.forecast.failed, 1) && is_text(c.message.as.forecast.product, "type 5") && is_number(c.message.as.forecast.flipped, 2));
    CHECK(is_text(c.message.as.forecast.top, "T-77") && is_text(c.message.as.forecast.bottom, "B-88") && is_measure(c.message.as.forecast.length, 160500000, 1));
    CHECK(is_number(c.message.as.forecast.width, 2000000) && is_measure(c.message.as.forecast.thickness, 1600000, 1));
    CHECK(is_number(c.message.as.forecast.speed, 4000000) && is_measure(c.message.as.forecast.above, 25000001, 6));
    CHECK(is_number(c.message.as.forecast.below, 6000000) && is_measure(c.message.as.forecast.weight, 500000, 1) && is_text(c.message.as.forecast.order, "WO 9"));
}

static void transports(void) {
    tryphomel_message m = tryphomel_blank(TRYPHOMEL_START_TRANSPORT);
    tryphomel_checked c;
    tryphomel_name_board(&m, ID);
    m.as.transport.speed = tryphomel_is(300000000);
    c = there_and_back(__LINE__, TRYPHOMEL_DOWNSTREAM, TRYPHOMEL_BOTH, m,
                       "<Hermes><StartTransport BoardId=\"0123abcd-4567-89ef-0123-456789abcdef\" ConveyorSpeed=\"300\"/></Hermes>", TRYPHOMEL_TRANSPORTING);
    CHECK(is_number(c.message.as.transport.speed, 300000000) && is_board(&c.message, c.message.as.transport.id) && none_from(&c.message, 2));
    m = tryphomel_blank(TRYPHOMEL_STOP_TRANSPORT);
    tryphomel_name_board(&m, ID);
    m.as.transfer.state = tryphomel_is(3);
    c = there_and_back(__LINE__, TRYPHOMEL_DOWNSTREAM, TRYPHOMEL_TRANSPORTING, m,
                       "<Hermes><StopTransport TransferState=\"3\" BoardId=\"0123abcd-4567-89ef-0123-456789abcdef\"/></Hermes>", TRYPHOMEL_STOPPED);
    CHECK(is_number(c.message.as.transfer.state, 3) && is_board(&c.message, c.message.as.transfer.id) && none_from(&c.message, 2));
    m.kind = TRYPHOMEL_TRANSPORT_FINISHED;
    m.as.transfer.state = tryphomel_is(2);
    c = there_and_back(__LINE__, TRYPHOMEL_UPSTREAM, TRYPHOMEL_TRANSPORTING, m,
                       "<Hermes><TransportFinished TransferState=\"2\" BoardId=\"0123abcd-4567-89ef-0123-456789abcdef\"/></Hermes>", TRYPHOMEL_FINISHED);
    CHECK(is_number(c.message.as.transfer.state, 2) && is_board(&c.message, c.message.as.transfer.id) && none_from(&c.message, 2));
    m = tryphomel_blank(TRYPHOMEL_CHECK_ALIVE);
    m.as.alive.ping = tryphomel_is(TRYPHOMEL_PING);
    m.as.alive.id = put("42");
    c = there_and_back(__LINE__, TRYPHOMEL_UPSTREAM, TRYPHOMEL_NOT_CONNECTED, m, "<Hermes><CheckAlive Type=\"1\" Id=\"42\"/></Hermes>", TRYPHOMEL_NOT_CONNECTED);
    CHECK(is_number(c.message.as.alive.ping, TRYPHOMEL_PING) && is_text(c.message.as.alive.id, "42") && none_from(&c.message, 2) && no_board(&c.message));
}

/* One side sends, the other receives; both are then in the state. */
static void step(int line, tryphomel_lane *from, tryphomel_lane *to, tryphomel_message m, int state, int sent_order, int received_order) {
    tryphomel_sent s;
    tryphomel_received r;
    uint8_t back[TRYPHOMEL_RECEIVE_ROOM];
    memset(&r, 0xa5, sizeof r);
    check_at(line, "sent", tryphomel_lane_send(from, &m, texts, strlen(texts), out, sizeof out, &s) == TRYPHOMEL_ACCEPTED);
    check_at(line, "received", tryphomel_lane_receive(to, out, s.written, back, sizeof back, &r) == TRYPHOMEL_ACCEPTED && r.refusal == TRYPHOMEL_ACCEPTED);
    check_at(line, "counts", r.used == s.written && r.written == 0 && r.place == 0 && r.message.kind == m.kind);
    check_at(line, "states", from->state == state && to->state == state);
    check_at(line, "orders", s.order == sent_order && r.order == received_order);
    check_at(line, "ids", memcmp(from->offered, to->offered, 36) == 0 && memcmp(from->running, to->running, 36) == 0);
    texts[0] = 0;
}

static tryphomel_message description(void) {
    tryphomel_message m = tryphomel_blank(TRYPHOMEL_SERVICE_DESCRIPTION);
    m.as.service.machine = put("M");
    m.as.service.lane = tryphomel_is(1);
    m.as.service.version = put("1.6");
    m.as.service.features = tryphomel_supports(0);
    return m;
}

static tryphomel_message offer(void) {
    tryphomel_message m = tryphomel_blank(TRYPHOMEL_BOARD_AVAILABLE);
    tryphomel_name_board(&m, ID);
    m.as.board.by = put("M");
    m.as.board.failed = tryphomel_is(0);
    m.as.board.flipped = tryphomel_is(0);
    return m;
}

static tryphomel_message transfer(int kind) {
    tryphomel_message m = tryphomel_blank((uint64_t)kind);
    tryphomel_name_board(&m, ID);
    m.as.transfer.state = tryphomel_is(3);
    return m;
}

static void handover(void) {
    tryphomel_lane up, down;
    tryphomel_message ready = tryphomel_blank(TRYPHOMEL_MACHINE_READY), start = tryphomel_blank(TRYPHOMEL_START_TRANSPORT);
    ready.as.ready.failed = tryphomel_is(0);
    tryphomel_name_board(&start, ID);
    memset(&up, 0xa5, sizeof up);
    memset(&down, 0xa5, sizeof down);
    tryphomel_lane_upstream(&up);
    tryphomel_lane_downstream(&down);
    CHECK(up.side == TRYPHOMEL_UPSTREAM && up.state == TRYPHOMEL_NOT_CONNECTED && zero(up.offered) && zero(up.running) && keeps(&up, ""));
    CHECK(down.side == TRYPHOMEL_DOWNSTREAM && down.state == TRYPHOMEL_NOT_CONNECTED && zero(down.offered) && zero(down.running) && keeps(&down, ""));
    step(__LINE__, &down, &up, description(), TRYPHOMEL_DESCRIBED_DOWN, TRYPHOMEL_ORDER_NONE, TRYPHOMEL_ORDER_NONE);
    step(__LINE__, &up, &down, description(), TRYPHOMEL_IDLE, TRYPHOMEL_ORDER_NONE, TRYPHOMEL_ORDER_NONE);
    step(__LINE__, &up, &down, offer(), TRYPHOMEL_OFFERED, TRYPHOMEL_ORDER_NONE, TRYPHOMEL_ORDER_NONE);
    CHECK(memcmp(up.offered, ID, 36) == 0 && zero(up.running));
    step(__LINE__, &down, &up, ready, TRYPHOMEL_BOTH, TRYPHOMEL_ORDER_NONE, TRYPHOMEL_ORDER_NONE);
    step(__LINE__, &down, &up, start, TRYPHOMEL_TRANSPORTING, TRYPHOMEL_ORDER_RUN, TRYPHOMEL_ORDER_RUN);
    CHECK(zero(up.offered) && memcmp(up.running, ID, 36) == 0);
    step(__LINE__, &up, &down, transfer(TRYPHOMEL_TRANSPORT_FINISHED), TRYPHOMEL_FINISHED, TRYPHOMEL_ORDER_NONE, TRYPHOMEL_ORDER_NONE);
    step(__LINE__, &down, &up, transfer(TRYPHOMEL_STOP_TRANSPORT), TRYPHOMEL_IDLE, TRYPHOMEL_ORDER_NONE, TRYPHOMEL_ORDER_NONE);
    CHECK(zero(up.offered) && zero(up.running));
    step(__LINE__, &down, &up, ready, TRYPHOMEL_READY, TRYPHOMEL_ORDER_NONE, TRYPHOMEL_ORDER_NONE);
    up = lane_in(TRYPHOMEL_UPSTREAM, TRYPHOMEL_TRANSPORTING);
    forecast_in(&up, 80, "F 7");
    tryphomel_lane_lost(&up);
    CHECK(up.side == TRYPHOMEL_UPSTREAM && up.state == TRYPHOMEL_NOT_CONNECTED && zero(up.offered) && zero(up.running) && keeps(&up, ""));
}

/* A BoardForecast and a MachineReady with that ForecastId, or with none. */
static tryphomel_message forecast(const char *id) {
    tryphomel_message m = tryphomel_blank(TRYPHOMEL_BOARD_FORECAST);
    m.as.forecast.failed = tryphomel_is(0);
    m.as.forecast.flipped = tryphomel_is(0);
    if (id != NULL) m.as.forecast.forecast = put(id);
    return m;
}

static tryphomel_message ready_for(const char *id) {
    tryphomel_message m = tryphomel_blank(TRYPHOMEL_MACHINE_READY);
    m.as.ready.failed = tryphomel_is(0);
    if (id != NULL) m.as.ready.forecast = put(id);
    return m;
}

/* The last ForecastId received is kept until a MachineReady has the same one. */
static void changeover(void) {
    const int none = TRYPHOMEL_ORDER_NONE;
    tryphomel_lane up = lane_in(TRYPHOMEL_UPSTREAM, TRYPHOMEL_IDLE), down = lane_in(TRYPHOMEL_DOWNSTREAM, TRYPHOMEL_IDLE);
    tryphomel_message back = tryphomel_blank(TRYPHOMEL_REVOKE_MACHINE_READY);
    step(__LINE__, &up, &down, forecast("R&D 7"), TRYPHOMEL_IDLE, none, none);
    CHECK(keeps(&up, "") && keeps(&down, "R&D 7"));
    step(__LINE__, &up, &down, forecast(NULL), TRYPHOMEL_IDLE, none, none);
    CHECK(keeps(&down, "R&D 7"));
    step(__LINE__, &down, &up, ready_for(NULL), TRYPHOMEL_READY, none, none);
    CHECK(keeps(&down, "R&D 7"));
    step(__LINE__, &up, &down, forecast("F 8"), TRYPHOMEL_READY, none, none);
    CHECK(keeps(&up, "") && keeps(&down, "F 8"));
    step(__LINE__, &down, &up, back, TRYPHOMEL_IDLE, none, none);
    step(__LINE__, &down, &up, ready_for("R&D 7"), TRYPHOMEL_READY, none, none);
    CHECK(keeps(&down, "F 8"));
    step(__LINE__, &down, &up, back, TRYPHOMEL_IDLE, none, none);
    step(__LINE__, &up, &down, offer(), TRYPHOMEL_OFFERED, none, none);
    forecast_in(&up, 3, "F 8");
    step(__LINE__, &down, &up, ready_for("F 8"), TRYPHOMEL_BOTH, none, none);
    CHECK(keeps(&up, "") && keeps(&down, ""));
    step(__LINE__, &up, &down, tryphomel_blank(TRYPHOMEL_REVOKE_BOARD_AVAILABLE), TRYPHOMEL_READY, none, none);
    step(__LINE__, &up, &down, forecast("F 9"), TRYPHOMEL_READY, none, none);
    step(__LINE__, &up, &down, forecast(""), TRYPHOMEL_READY, none, none);
    CHECK(keeps(&up, "") && keeps(&down, ""));
    forecast_in(&up, 3, "F 9");
    step(__LINE__, &up, &down, forecast("F 9"), TRYPHOMEL_READY, none, none);
    CHECK(keeps(&up, "F 9") && keeps(&down, "F 9"));
    tryphomel_lane_lost(&down);
    CHECK(keeps(&down, ""));
}

/* What is received in a state: refusal, order and next state. */
static tryphomel_received receives(int line, int side, int state, const char *bytes, size_t size, int refusal, int order, int next) {
    tryphomel_lane l = lane_in(side, state);
    tryphomel_received r;
    memset(out, '#', sizeof out);
    memset(&r, 0xa5, sizeof r);
    check_at(line, "refusal", tryphomel_lane_receive(&l, bytes, size, out, TRYPHOMEL_RECEIVE_ROOM, &r) == refusal && r.refusal == refusal);
    check_at(line, "order", r.order == order);
    check_at(line, "next state", l.state == next && l.side == side);
    check_at(line, "rest kept", out[r.written] == '#' && out[sizeof out - 1] == '#');
    return r;
}

static int notified(tryphomel_received r, const char *what) {
    char s[200];
    sprintf(s, "<Hermes><Notification NotificationCode=\"1\" Severity=\"1\" Description=\"%s\"/></Hermes>", what);
    return r.written == strlen(s) && memcmp(out, s, strlen(s)) == 0;
}
#define RECEIVES(side, state, text, refusal, order, next) receives(__LINE__, side, state, text, strlen(text), refusal, order, next)

static void refusals(void) {
    const int up = TRYPHOMEL_UPSTREAM, down = TRYPHOMEL_DOWNSTREAM, idle = TRYPHOMEL_IDLE, off = TRYPHOMEL_NOT_CONNECTED;
    tryphomel_received r;
    tryphomel_checked c;
    r = RECEIVES(up, idle, " <Hermes>", TRYPHOMEL_MORE_NEEDED, TRYPHOMEL_ORDER_NONE, idle);
    CHECK(r.used == 0 && r.written == 0);
    r = RECEIVES(up, idle, " <Hermes></Hermes>", TRYPHOMEL_MALFORMED, TRYPHOMEL_ORDER_NONE, off);
    CHECK(r.used == 0 && r.place == 10 && notified(r, "malformed message"));
    r = RECEIVES(up, idle, "<Hermes><MachineReady/></Hermes>", TRYPHOMEL_MISSING, TRYPHOMEL_ORDER_NONE, off);
    CHECK(r.used == 32 && notified(r, "missing attribute") && r.message.kind == TRYPHOMEL_UNKNOWN && none_from(&r.message, 0));
    r = RECEIVES(up, idle, "<Hermes><MachineReady FailedBoard=\"3\"/></Hermes>", TRYPHOMEL_BAD_VALUE, TRYPHOMEL_ORDER_NONE, off);
    CHECK(r.used == 48 && notified(r, "bad value"));
    r = RECEIVES(up, TRYPHOMEL_FINISHED, "<Hermes><MachineReady FailedBoard=\"0\"/></Hermes>", TRYPHOMEL_PROTOCOL_ERROR, TRYPHOMEL_ORDER_STOP_NOW, off);
    CHECK(r.used == 48 && notified(r, "invalid transition"));
    RECEIVES(down, TRYPHOMEL_STOPPED, "<Hermes><RevokeBoardAvailable/></Hermes>", TRYPHOMEL_ACCEPTED, TRYPHOMEL_ORDER_NONE, TRYPHOMEL_STOPPED);
    sprintf(buffer, "<Hermes><StartTransport BoardId=\"%s\"/></Hermes>", OTHER);
    r = RECEIVES(up, TRYPHOMEL_READY, buffer, TRYPHOMEL_ACCEPTED, TRYPHOMEL_ORDER_CANCEL, TRYPHOMEL_TRANSPORTING);
    CHECK(r.message.kind == TRYPHOMEL_START_TRANSPORT && memcmp(r.message.id, OTHER, 36) == 0);
    r = RECEIVES(up, idle, "<Hermes><Foo/></Hermes>", TRYPHOMEL_ACCEPTED, TRYPHOMEL_ORDER_NONE, idle);
    CHECK(r.message.kind == TRYPHOMEL_UNKNOWN && r.used == 23 && none_from(&r.message, 0) && no_board(&r.message));
    r = RECEIVES(up, idle, "<Hermes><CheckAlive Type=\"1\" Id=\"7\"/></Hermes>", TRYPHOMEL_ACCEPTED, TRYPHOMEL_ORDER_NONE, idle);
    CHECK(r.written == 46 && memcmp(out, "<Hermes><CheckAlive Type=\"2\" Id=\"7\"/></Hermes>", 46) == 0);
    CHECK(is_number(r.message.as.alive.ping, TRYPHOMEL_PING));
    CHECK(tryphomel_message_check(out, r.written, &c) == TRYPHOMEL_ACCEPTED && is_number(c.message.as.alive.ping, TRYPHOMEL_PONG));
}

/* A lane whose kept ForecastId has that length, and bytes behind it. */
static tryphomel_lane rubbish(int state, int length) {
    tryphomel_lane l = lane_in(TRYPHOMEL_DOWNSTREAM, state);
    memset(l.forecast, 'f', sizeof l.forecast);
    l.forecast_length = (uint8_t)length;
    return l;
}

/* Where a forecast is taken and where it may be sent; the state, the ids and the belt stay. */
static void forecast_states(void) {
    static const char f[] = "<Hermes><BoardForecast ForecastId='a&amp;b' FailedBoard='0' FlippedBoard='0'/></Hermes>";
    for (int state = TRYPHOMEL_NOT_CONNECTED; state <= TRYPHOMEL_FINISHED; state++) {
        int sent = state == TRYPHOMEL_IDLE || state == TRYPHOMEL_READY, under_way = state >= TRYPHOMEL_TRANSPORTING;
        int taken = sent || state == TRYPHOMEL_TRANSPORTING || state == TRYPHOMEL_STOPPED;
        for (int side = TRYPHOMEL_UPSTREAM; side <= TRYPHOMEL_DOWNSTREAM; side++) {
            tryphomel_lane l = lane_in(side, state), before;
            tryphomel_message m = forecast("a&b");
            tryphomel_received r;
            tryphomel_sent s;
            int takes = side == TRYPHOMEL_DOWNSTREAM && taken, sends = side == TRYPHOMEL_UPSTREAM && sent;
            forecast_in(&l, 3, "old");
            before = l;
            CHECK(tryphomel_lane_send(&l, &m, texts, strlen(texts), out, sizeof out, &s) == (sends ? TRYPHOMEL_ACCEPTED : TRYPHOMEL_MAY_NOT_BE_SENT));
            CHECK(s.order == TRYPHOMEL_ORDER_NONE && l.state == state && keeps(&l, "old") && (sends || memcmp(&l, &before, sizeof l) == 0));
            texts[0] = 0;
            l = before;
            CHECK(tryphomel_lane_receive(&l, f, strlen(f), out, sizeof out, &r) == (takes ? TRYPHOMEL_ACCEPTED : TRYPHOMEL_PROTOCOL_ERROR));
            CHECK(r.order == (takes || !under_way ? TRYPHOMEL_ORDER_NONE : TRYPHOMEL_ORDER_STOP_NOW) && r.used == strlen(f));
            CHECK(l.state == (takes ? state : TRYPHOMEL_NOT_CONNECTED) && keeps(&l, takes ? "a&b" : ""));
            CHECK(takes ? r.written == 0 && (under_way ? memcmp(l.running, ID, 36) == 0 : zero(l.running)) : notified(r, "invalid transition"));
        }
    }
}

/* What another program has made of the kept ForecastId is put right with an accepted message, and kept with a refusal. */
static void impossible(void) {
    static const char alive[] = "<Hermes><CheckAlive/></Hermes>", none[] = "<Hermes>";
    static char all[TRYPHOMEL_FORECAST_BYTES + 1];
    static const int lengths[] = {0, 1, 79, 80, 81, 255};
    for (int state = TRYPHOMEL_NOT_CONNECTED; state <= TRYPHOMEL_FINISHED; state++)
        for (size_t i = 0; i < sizeof lengths / sizeof lengths[0]; i++) {
            const int length = lengths[i];
            tryphomel_lane l = rubbish(state, length), before = l;
            tryphomel_message m = tryphomel_blank(TRYPHOMEL_CHECK_ALIVE);
            tryphomel_received r;
            tryphomel_sent s;
            int n = state < TRYPHOMEL_IDLE || length > TRYPHOMEL_FORECAST_BYTES ? 0 : length;
            memset(all, 'f', (size_t)n);
            all[n] = 0;
            CHECK(tryphomel_lane_receive(&l, none, strlen(none), out, sizeof out, &r) == TRYPHOMEL_MORE_NEEDED && memcmp(&l, &before, sizeof l) == 0);
            CHECK(tryphomel_lane_send(&l, &m, "", 0, out, 0, &s) == TRYPHOMEL_NO_ROOM && memcmp(&l, &before, sizeof l) == 0);
            CHECK(tryphomel_lane_receive(&l, alive, strlen(alive), out, sizeof out, &r) == TRYPHOMEL_ACCEPTED && keeps(&l, all));
            l = before;
            CHECK(tryphomel_lane_send(&l, &m, "", 0, out, sizeof out, &s) == TRYPHOMEL_ACCEPTED && keeps(&l, all));
        }
}

/* An offer whose texts are so long is refused by the lane so; for 0 with this refusal in a smaller buffer. */
static int offers(const char *by, const char *product, size_t room) {
    tryphomel_lane l = lane_in(TRYPHOMEL_UPSTREAM, TRYPHOMEL_IDLE), before = l;
    tryphomel_message m = offer();
    tryphomel_sent s;
    texts[0] = 0;
    m.as.board.by = put(by);
    m.as.board.product = put(product);
    memset(out, '#', sizeof out);
    tryphomel_lane_send(&l, &m, texts, strlen(texts), out, room, &s);
    if (s.refusal != TRYPHOMEL_ACCEPTED) CHECK(s.written == 0 && out[0] == '#' && memcmp(&l, &before, sizeof l) == 0);
    texts[0] = 0;
    return s.refusal;
}

static char *repeat(char *to, const char *s, size_t n) {
    to[0] = 0;
    for (size_t i = 0; i < n; i++, to += strlen(s)) strcpy(to, s);
    return to;
}

static void sending(void) {
    static char a[300], b[300];
    tryphomel_lane l = lane_in(TRYPHOMEL_UPSTREAM, TRYPHOMEL_IDLE);
    tryphomel_message m = tryphomel_blank(TRYPHOMEL_NOTIFICATION);
    tryphomel_sent s;
    repeat(a, "a", TRYPHOMEL_SHORT_TEXT);
    repeat(b, "b", TRYPHOMEL_LONG_TEXT);
    CHECK(offers(a, b, sizeof out) == TRYPHOMEL_ACCEPTED);
    CHECK(offers(a, b, 20) == TRYPHOMEL_NO_ROOM);
    CHECK(offers("", b, sizeof out) == TRYPHOMEL_BAD_VALUE);
    repeat(a, "a", TRYPHOMEL_SHORT_TEXT + 1);
    CHECK(offers(a, b, sizeof out) == TRYPHOMEL_TEXT_TOO_LONG);
    repeat(a, "a", 1);
    repeat(b, "b", TRYPHOMEL_LONG_TEXT + 1);
    CHECK(offers(a, b, sizeof out) == TRYPHOMEL_TEXT_TOO_LONG);
    CHECK(tryphomel_lane_send(&l, &m, "", 0, out, sizeof out, &s) == TRYPHOMEL_MISSING);
    m.as.notification.code = tryphomel_is(0x100000001);
    m.as.notification.severity = tryphomel_is(1);
    m.as.notification.description = tryphomel_part(0, 0);
    CHECK(tryphomel_lane_send(&l, &m, "", 0, out, sizeof out, &s) == TRYPHOMEL_BAD_VALUE);
    m.as.notification.code = tryphomel_is(1);
    CHECK(tryphomel_lane_send(&l, &m, "", 0, out, sizeof out, &s) == TRYPHOMEL_ACCEPTED);
    m.kind = 256 + TRYPHOMEL_NOTIFICATION;
    CHECK(tryphomel_lane_send(&l, &m, "", 0, out, sizeof out, &s) == TRYPHOMEL_MAY_NOT_BE_SENT && s.written == 0);
    m = tryphomel_blank(TRYPHOMEL_UNKNOWN);
    CHECK(tryphomel_lane_send(&l, &m, "", 0, out, sizeof out, &s) == TRYPHOMEL_MAY_NOT_BE_SENT);
    m = tryphomel_blank(TRYPHOMEL_REVOKE_MACHINE_READY);
    CHECK(tryphomel_lane_send(&l, &m, "", 0, out, sizeof out, &s) == TRYPHOMEL_MAY_NOT_BE_SENT && s.order == TRYPHOMEL_ORDER_NONE);
}

static uint8_t checks(void) {
    tryphomel_checked c;
    return tryphomel_message_check(buffer, strlen(buffer), &c);
}

/* A ForecastId of so many bytes, the last one spelt as a reference. */
static void forecast_named(const char *start, size_t n) {
    char *p;
    strcpy(buffer, start);
    p = repeat(buffer + strlen(buffer), "f", n - 1);
    strcpy(p, "&lt;' FailedBoard='0' FlippedBoard='0'/></Hermes>");
}

static void limits(void) {
    char *p;
    uint64_t start, place;
    for (int more = 0; more < 2; more++) {
        strcpy(buffer, "<Hermes><X a=\"");
        p = repeat(buffer + strlen(buffer), "v", TRYPHOMEL_MESSAGE_BYTES - 14 - 12 + (size_t)more);
        strcpy(p, "\"/></Hermes>");
        CHECK(checks() == (more ? TRYPHOMEL_TOO_LONG : TRYPHOMEL_ACCEPTED));
        CHECK(tryphomel_read((uint8_t *)buffer, strlen(buffer), &start, &place) == (more ? TRYPHOMEL_TOO_LONG : TRYPHOMEL_ACCEPTED));
        CHECK(start == 0 && place == (more ? 0 : TRYPHOMEL_MESSAGE_BYTES));
        strcpy(buffer, "<Hermes><");
        p = repeat(buffer + strlen(buffer), "n", TRYPHOMEL_NAME_BYTES + (size_t)more);
        strcpy(p, "/></Hermes>");
        CHECK(checks() == (more ? TRYPHOMEL_MALFORMED : TRYPHOMEL_ACCEPTED));
        strcpy(buffer, "<Hermes><X");
        p = buffer + strlen(buffer);
        for (int i = 0; i < TRYPHOMEL_ATTRIBUTES + more; i++) p += sprintf(p, " a%d=\"\"", i);
        strcpy(p, "/></Hermes>");
        CHECK(checks() == (more ? TRYPHOMEL_MALFORMED : TRYPHOMEL_ACCEPTED));
        strcpy(buffer, "<Hermes>");
        p = repeat(buffer + strlen(buffer), "<X>", TRYPHOMEL_DEPTH - 2 + (size_t)more);
        strcpy(p, "<Y/>");
        p = repeat(p + 4, "</X>", TRYPHOMEL_DEPTH - 2 + (size_t)more);
        strcpy(p, "</Hermes>");
        CHECK(checks() == (more ? TRYPHOMEL_MALFORMED : TRYPHOMEL_ACCEPTED));
        strcpy(buffer, "<Hermes><CheckAlive Id=\"");
        p = repeat(buffer + strlen(buffer), "i", TRYPHOMEL_SHORT_TEXT + (size_t)more);
        strcpy(p, "\"/></Hermes>");
        CHECK(checks() == (more ? TRYPHOMEL_TEXT_TOO_LONG : TRYPHOMEL_ACCEPTED));
        strcpy(buffer, "<Hermes><Notification NotificationCode=\"1\" Severity=\"1\" Description=\"");
        p = repeat(buffer + strlen(buffer), "d", TRYPHOMEL_LONG_TEXT + (size_t)more);
        strcpy(p, "\"/></Hermes>");
        CHECK(checks() == (more ? TRYPHOMEL_TEXT_TOO_LONG : TRYPHOMEL_ACCEPTED));
        forecast_named("<Hermes><BoardForecast ForecastId='", TRYPHOMEL_FORECAST_BYTES + (size_t)more);
        CHECK(checks() == (more ? TRYPHOMEL_TEXT_TOO_LONG : TRYPHOMEL_ACCEPTED));
        forecast_named("<Hermes><MachineReady ForecastId='", TRYPHOMEL_FORECAST_BYTES + (size_t)more);
        CHECK(checks() == (more ? TRYPHOMEL_TEXT_TOO_LONG : TRYPHOMEL_ACCEPTED));
    }
}

/* A ForecastId of 80 bytes is kept whole, and no longer one is sent. */
static void longest_id(void) {
    static char id[TRYPHOMEL_FORECAST_BYTES + 2];
    tryphomel_lane up = lane_in(TRYPHOMEL_UPSTREAM, TRYPHOMEL_IDLE), down = lane_in(TRYPHOMEL_DOWNSTREAM, TRYPHOMEL_IDLE);
    tryphomel_message m;
    tryphomel_sent s;
    repeat(id, "\"", TRYPHOMEL_FORECAST_BYTES);
    step(__LINE__, &up, &down, forecast(id), TRYPHOMEL_IDLE, TRYPHOMEL_ORDER_NONE, TRYPHOMEL_ORDER_NONE);
    CHECK(keeps(&down, id));
    step(__LINE__, &down, &up, ready_for(id), TRYPHOMEL_READY, TRYPHOMEL_ORDER_NONE, TRYPHOMEL_ORDER_NONE);
    CHECK(keeps(&down, ""));
    repeat(id, "f", TRYPHOMEL_FORECAST_BYTES + 1);
    m = forecast(id);
    CHECK(tryphomel_lane_send(&up, &m, texts, strlen(texts), out, sizeof out, &s) == TRYPHOMEL_TEXT_TOO_LONG);
    texts[0] = 0;
    m = ready_for(id);
    CHECK(tryphomel_lane_send(&down, &m, texts, strlen(texts), out, sizeof out, &s) == TRYPHOMEL_TEXT_TOO_LONG);
    texts[0] = 0;
}

/* Where the texts of a CheckAlive are. */
static void where(void) {
    static const char m[] = "<Hermes><CheckAlive Id=\"a&amp;b\"/></Hermes>";
    uint8_t scratch[4] = {'#', '#', '#', '#'};
    const uint8_t *text;
    uint64_t place, at, count;
    tryphomel_checked c;
    tryphomel_words id, absent = {0, 0, 0};
    CHECK(tryphomel_message_check(m, strlen(m), &c) == TRYPHOMEL_ACCEPTED);
    id = c.message.as.alive.id;
    CHECK(id.there == 1 && id.start == 24 && id.len == 7);
    CHECK(tryphomel_words_text(id, m, strlen(m), scratch, sizeof scratch, &text, &count) == TRYPHOMEL_ACCEPTED);
    CHECK(text == scratch && count == 3 && memcmp(scratch, "a&b#", 4) == 0);
    CHECK(tryphomel_words_text(id, m, strlen(m), scratch, 2, &text, &count) == TRYPHOMEL_NO_ROOM && text == NULL && count == 0);
    id.len = 1;
    CHECK(tryphomel_words_text(id, m, strlen(m), scratch, 0, &text, &count) == TRYPHOMEL_ACCEPTED);
    CHECK(text == (const uint8_t *)m + 24 && count == 1);
    CHECK(tryphomel_text((const uint8_t *)m, strlen(m), 1, 24, 1, scratch, 0, &place, &at, &count) == TRYPHOMEL_ACCEPTED && place == TRYPHOMEL_IN_BYTES && at == 24);
    CHECK(tryphomel_text((const uint8_t *)m, strlen(m), 1, 24, 7, scratch, 4, &place, &at, &count) == TRYPHOMEL_ACCEPTED && place == TRYPHOMEL_IN_SCRATCH && at == 0);
    CHECK(tryphomel_text((const uint8_t *)m, strlen(m), 0, 24, 7, scratch, 4, &place, &at, &count) == TRYPHOMEL_MISSING && place == TRYPHOMEL_NOWHERE);
    CHECK(tryphomel_words_text(absent, m, strlen(m), scratch, 4, &text, &count) == TRYPHOMEL_MISSING && text == NULL && count == 0);
    id.start = UINT64_MAX;
    CHECK(tryphomel_words_text(id, m, strlen(m), scratch, 4, &text, &count) == TRYPHOMEL_BAD_VALUE && text == NULL);
    id = tryphomel_part(24, 2);
    CHECK(tryphomel_words_text(id, m, strlen(m), scratch, 4, &text, &count) == TRYPHOMEL_BAD_VALUE && memcmp(scratch, "a&b#", 4) == 0);
}

/* A BoardAvailable of a forecast's board: its cells are those behind the first two. */
static tryphomel_message as_board(const tryphomel_message *forecast) {
    tryphomel_message m = *forecast;
    m.kind = TRYPHOMEL_BOARD_AVAILABLE;
    memcpy(m.as.cells, forecast->as.cells + 2, 15 * sizeof m.as.cells[0]);
    return m;
}

/* The longest reply and the longest message fill the rooms that the header names, and want every byte of them. */
static void rooms(void) {
    tryphomel_lane l = lane_in(TRYPHOMEL_UPSTREAM, TRYPHOMEL_IDLE);
    tryphomel_received r;
    tryphomel_sent s;
    tryphomel_message m = forecast(NULL);
    tryphomel_number most = tryphomel_is(9999999999999);
    char *p;
    strcpy(buffer, "<Hermes><CheckAlive Type=\"1\" Id=\"");
    p = repeat(buffer + strlen(buffer), "&quot;", TRYPHOMEL_SHORT_TEXT);
    strcpy(p, "\"/></Hermes>");
    CHECK(tryphomel_lane_receive(&l, buffer, strlen(buffer), out, TRYPHOMEL_RECEIVE_ROOM - 1, &r) == TRYPHOMEL_NO_ROOM && r.used == 0 && r.written == 0);
    CHECK(tryphomel_lane_receive(&l, buffer, strlen(buffer), out, TRYPHOMEL_RECEIVE_ROOM, &r) == TRYPHOMEL_ACCEPTED && r.written == TRYPHOMEL_RECEIVE_ROOM);
    repeat(texts, "\"", TRYPHOMEL_LONG_TEXT);
    tryphomel_name_board(&m, ID);
    m.as.forecast.forecast = m.as.forecast.by = m.as.forecast.order = tryphomel_part(0, TRYPHOMEL_SHORT_TEXT);
    m.as.forecast.product = m.as.forecast.top = m.as.forecast.bottom = tryphomel_part(0, TRYPHOMEL_LONG_TEXT);
    m.as.forecast.until = m.as.forecast.length = m.as.forecast.width = m.as.forecast.thickness = m.as.forecast.speed = most;
    m.as.forecast.above = m.as.forecast.below = m.as.forecast.weight = most;
    CHECK(tryphomel_lane_send(&l, &m, texts, strlen(texts), out, TRYPHOMEL_SEND_ROOM - 1, &s) == TRYPHOMEL_NO_ROOM);
    CHECK(tryphomel_lane_send(&l, &m, texts, strlen(texts), out, TRYPHOMEL_SEND_ROOM, &s) == TRYPHOMEL_ACCEPTED && s.written == TRYPHOMEL_SEND_ROOM);
    m = as_board(&m);
    m.as.board.route = tryphomel_is(65535);
    m.as.board.batch = tryphomel_part(0, TRYPHOMEL_SHORT_TEXT);
    CHECK(tryphomel_lane_send(&l, &m, texts, strlen(texts), out, 6437, &s) == TRYPHOMEL_NO_ROOM);
    CHECK(tryphomel_lane_send(&l, &m, texts, strlen(texts), out, 6438, &s) == TRYPHOMEL_ACCEPTED && s.written == 6438);
    texts[0] = 0;
}

/* Which kinds have a BoardId, and where; the others are kept. */
static void names(void) {
    for (uint64_t kind = 0; kind <= TRYPHOMEL_BOARD_FORECAST + 1; kind++) {
        tryphomel_message m = tryphomel_blank(kind);
        int first = kind == TRYPHOMEL_BOARD_AVAILABLE || kind == TRYPHOMEL_START_TRANSPORT;
        int second = kind == TRYPHOMEL_STOP_TRANSPORT || kind == TRYPHOMEL_TRANSPORT_FINISHED;
        int third = kind == TRYPHOMEL_BOARD_FORECAST, any = first || second || third;
        CHECK(m.kind == kind && none_from(&m, 0) && no_board(&m));
        tryphomel_name_board(&m, ID);
        CHECK(m.kind == kind && none_from(&m, 3) && tryphomel_has_id(&m) == any && zero(m.id) == !any);
        CHECK(m.as.cells[0].there == (uint64_t)first && m.as.cells[1].there == (uint64_t)second && m.as.cells[2].there == (uint64_t)third);
    }
}

/* Numbers that have no name, and the library's own version. */
static void words(void) {
    CHECK(tryphomel_version() == TRYPHOMEL_VERSION && tryphomel_fits());
    CHECK(strcmp(tryphomel_kind_name(TRYPHOMEL_BOARD_FORECAST + 1), "no kind") == 0 && strcmp(tryphomel_kind_name(UINT64_MAX), "no kind") == 0);
    CHECK(strcmp(tryphomel_state_name(TRYPHOMEL_FINISHED + 1), "no state") == 0 && strcmp(tryphomel_state_name(255), "no state") == 0);
    CHECK(strcmp(tryphomel_refusal_name(TRYPHOMEL_PROTOCOL_ERROR + 1), "no refusal") == 0 && strcmp(tryphomel_order_name(TRYPHOMEL_ORDER_STOP_NOW + 1), "no order") == 0);
}

/* The named numbers of attributes are those that the library takes: the first and the last are right, one beyond is not. */
static void ranges(void) {
    static const struct {
        const char *before, *after;
        int low, high;
    } rows[] = {
        {"<Hermes><MachineReady FailedBoard='", "'/></Hermes>", TRYPHOMEL_READY_FOR_ANY_BOARD, TRYPHOMEL_READY_FOR_FAILED_BOARDS},
        {"<Hermes><BoardForecast FlippedBoard='0' FailedBoard='", "'/></Hermes>", TRYPHOMEL_UNKNOWN_QUALITY, TRYPHOMEL_FAILED_BOARD},
        {"<Hermes><BoardForecast FailedBoard='0' FlippedBoard='", "'/></Hermes>", TRYPHOMEL_SIDE_UP_UNKNOWN, TRYPHOMEL_BOTTOM_SIDE_UP},
        {"<Hermes><StopTransport BoardId='0123abcd-4567-89ef-0123-456789abcdef' TransferState='", "'/></Hermes>", TRYPHOMEL_NOT_STARTED, TRYPHOMEL_COMPLETE},
        {"<Hermes><Notification NotificationCode='1' Description='' Severity='", "'/></Hermes>", TRYPHOMEL_SEVERITY_FATAL_ERROR, TRYPHOMEL_SEVERITY_INFO},
        {"<Hermes><CheckAlive Type='", "'/></Hermes>", TRYPHOMEL_PING, TRYPHOMEL_PONG},
    };
    tryphomel_checked c;
    for (size_t i = 0; i < sizeof rows / sizeof rows[0]; i++)
        for (int n = rows[i].low - 1; n <= rows[i].high + 1; n++) {
            sprintf(buffer, "%s%d%s", rows[i].before, n, rows[i].after);
            CHECK(tryphomel_message_check(buffer, strlen(buffer), &c) == (n < rows[i].low || n > rows[i].high ? TRYPHOMEL_BAD_VALUE : TRYPHOMEL_ACCEPTED));
        }
}

/* A slice of no bytes may have a null pointer, in every call that takes one. */
static void nothing_lent(void) {
    static const char alive[] = "<Hermes><CheckAlive/></Hermes>", ping[] = "<Hermes><CheckAlive Type='1' Id='&lt;'/></Hermes>";
    tryphomel_lane l = lane_in(TRYPHOMEL_UPSTREAM, TRYPHOMEL_OFFERED), before = l;
    tryphomel_message m = tryphomel_blank(TRYPHOMEL_CHECK_ALIVE);
    tryphomel_checked c;
    tryphomel_received r;
    tryphomel_sent s;
    const uint8_t *text = ID;
    uint64_t start = 9, place = 9, at = 9, count = 9;
    CHECK(tryphomel_read(NULL, 0, &start, &place) == TRYPHOMEL_MORE_NEEDED && start == 0 && place == 0);
    CHECK(tryphomel_message_check(NULL, 0, &c) == TRYPHOMEL_MORE_NEEDED && c.start == 0 && c.end == 0 && c.message.kind == TRYPHOMEL_UNKNOWN);
    CHECK(tryphomel_lane_receive(&l, NULL, 0, NULL, 0, &r) == TRYPHOMEL_MORE_NEEDED && r.used == 0 && memcmp(&l, &before, sizeof l) == 0);
    CHECK(tryphomel_lane_receive(&l, ping, strlen(ping), NULL, 0, &r) == TRYPHOMEL_NO_ROOM && r.written == 0 && memcmp(&l, &before, sizeof l) == 0);
    CHECK(tryphomel_lane_receive(&l, alive, strlen(alive), NULL, 0, &r) == TRYPHOMEL_ACCEPTED && r.used == strlen(alive) && r.written == 0);
    m.as.alive.id = tryphomel_part(0, 0);
    CHECK(tryphomel_lane_send(&l, &m, NULL, 0, NULL, 0, &s) == TRYPHOMEL_NO_ROOM && s.written == 0);
    CHECK(tryphomel_lane_send(&l, &m, NULL, 0, out, sizeof out, &s) == TRYPHOMEL_ACCEPTED && s.written == 36 && memcmp(out, "<Hermes><CheckAlive Id=\"\"/></Hermes>", 36) == 0);
    m.as.alive.id = tryphomel_part(0, 1);
    CHECK(tryphomel_lane_send(&l, &m, NULL, 0, out, sizeof out, &s) == TRYPHOMEL_BAD_VALUE);
    CHECK(tryphomel_text(NULL, 0, 1, 0, 0, NULL, 0, &place, &at, &count) == TRYPHOMEL_ACCEPTED && place == TRYPHOMEL_IN_BYTES && at == 0 && count == 0);
    CHECK(tryphomel_words_text(tryphomel_part(0, 0), NULL, 0, NULL, 0, &text, &count) == TRYPHOMEL_ACCEPTED && text != NULL && count == 0);
    CHECK(tryphomel_words_text(tryphomel_part(0, 1), NULL, 0, NULL, 0, &text, &count) == TRYPHOMEL_BAD_VALUE && text == NULL);
    CHECK(tryphomel_words_text(tryphomel_part(33, 4), ping, strlen(ping), NULL, 0, &text, &count) == TRYPHOMEL_NO_ROOM && text == NULL);
}

int main(void) {
    words();
    ranges();
    nothing_lent();
    names();
    descriptions();
    boards();
    routes();
    decimals();
    forecasts();
    transports();
    handover();
    changeover();
    refusals();
    forecast_states();
    impossible();
    sending();
    limits();
    longest_id();
    where();
    rooms();
    printf("%d passed, %d failed\n", passed, failed);
    return failed != 0;
}
