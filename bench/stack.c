/* The stack that each call uses, measured: the call runs on a stack that is filled with a pattern, over messages that nest, repeat and fill
 * as far as the limits let them. Prints the most bytes that a call changed, of all inputs. */
#define _XOPEN_SOURCE 700
#include <stdio.h>
#include <string.h>
#ifdef __linux__
#include <ucontext.h>
#endif

#include "../include/tryphomel.h"

enum { STACK = 1 << 20, ROOM = 70000 };

static char in[ROOM];
static uint8_t out[TRYPHOMEL_SEND_ROOM];
static size_t size;
static tryphomel_lane lane;
static tryphomel_message message;
static tryphomel_checked checked;
static tryphomel_received received;
static tryphomel_sent sent;

#ifdef __linux__
static size_t used_by(void (*call)(void)) {
    static unsigned char stack[STACK];
    static ucontext_t here, there;
    size_t free_bytes = 0;
    memset(stack, 0xa5, sizeof stack);
    getcontext(&there);
    there.uc_stack.ss_sp = stack;
    there.uc_stack.ss_size = sizeof stack;
    there.uc_link = &here;
    makecontext(&there, call, 0);
    swapcontext(&here, &there);
    while (free_bytes < sizeof stack && stack[free_bytes] == 0xa5) free_bytes++;
    return sizeof stack - free_bytes;
}
#else
/* A board with no system (Cortex-M): the stack below this function is filled, as far as any call goes. */
static size_t used_by(void (*call)(void)) {
    volatile unsigned char *top, *at;
    __asm__ volatile("mov %0, sp" : "=r"(top));
    for (at = top - (STACK >> 4); at < top; at++) *at = 0xa5;
    call();
    for (at = top - (STACK >> 4); at < top && *at == 0xa5; at++) {
    }
    return (size_t)(top - at);
}
#endif

static void nothing(void) {}
static void reads(void) {
    uint64_t start, place;
    tryphomel_read((const uint8_t *)in, size, &start, &place);
}
static void checks(void) { tryphomel_message_check(in, size, &checked); }
static void receives(void) { tryphomel_lane_receive(&lane, in, size, out, sizeof out, &received); }
static void sends(void) { tryphomel_lane_send(&lane, &message, in, size, out, sizeof out, &sent); }
static void loses(void) { tryphomel_lane_lost(&lane); }
static void asks(void) {
    uint64_t place, at, count;
    tryphomel_text((const uint8_t *)in, size, 1, 0, size, out, sizeof out, &place, &at, &count);
}

static void add(const char *s) {
    strcpy(in + size, s);
    size += strlen(s);
}

static void times(int n, const char *s) {
    while (n-- > 0) add(s);
}

static void element(const char *opened, int n, const char *each, const char *closed) {
    size = 0;
    add(opened);
    times(n, each);
    add(closed);
}

static void input(int which) {
    const char *board = "<Hermes><BoardAvailable BoardId='5d10d8c0-8c0a-4d5e-9f2b-0123456789ab' BoardIdCreatedBy='m' FailedBoard='0' ProductTypeId='";
    switch (which) {
        case 0: element("<Hermes><a><b><c><d>", 1, "<e f='\xe2\x82\xac&#8364;'/>", "</d></c></b></a></Hermes>"); break;
        case 1: element("<Hermes>", 100, "<a>", ""); break;
        case 2: element("<Hermes><a>", 13000, "<b/>", "</a></Hermes>"); break;
        case 3: element("<Hermes><a>", 6000, "<b></b>", "</a></Hermes>"); break;
        case 4: element(board, 254, "&#x10FFFF;", "' FlippedBoard='0' Length='0000160.5000' WorkOrderId='w'/></Hermes>"); break;
        case 5: element(board, 5000, "&#x10FFFF;", "' FlippedBoard='0'/></Hermes>"); break;
        case 6: element("<Hermes><CheckAlive Type='1' Id='", 80, "&quot;", "'/></Hermes>"); break;
        case 7: element("<Hermes><ServiceDescription MachineId='m' LaneId='1' Version='1.6'><SupportedFeatures>", 2000, "<FeatureSendBoardInfo/>",
                        "</SupportedFeatures></ServiceDescription></Hermes>"); break;
        case 8: element("<?xml version='1.0' encoding='utf-8'?><Hermes><a", 1, " a='' b='' c='' d='' e='' f='' g='' h='' i='' j='' k='' l='' m='' n=''",
                        " o='' p='' q='' r='' s='' t='' u='' v='' w='' x='' y='' z='' A='' B='' C='' D='' E='' F=''/></Hermes>"); break;
        case 9: element("<Hermes><a b='", 65600, "v", ""); break;
        case 10: element("<Hermes><BoardForecast ForecastId='", 80, "&quot;", "' FailedBoard='0' FlippedBoard='0' Width='0160.50'/></Hermes>"); break;
        case 11: element("<Hermes><ServiceDescription MachineId='m' LaneId='1' Version='1.6'><SupportedFeatures>", 1, "<x><y><z a='\xe2\x82\xac&#8364;'/></y></x>",
                         "</SupportedFeatures></ServiceDescription></Hermes>"); break;
        default: element("", ROOM - 10, " ", ""); break;
    }
}

static void most(const char *name, void (*call)(void), size_t idle) {
    size_t bytes = 0;
    for (int which = 0; which <= 12; which++) {
        input(which);
        for (int state = 0; state <= TRYPHOMEL_FINISHED; state++) {
            memset(&lane, 0, sizeof lane);
            lane.side = TRYPHOMEL_DOWNSTREAM;
            lane.state = (uint8_t)state;
            size_t n = used_by(call) - idle;
            if (n > bytes) bytes = n;
        }
    }
    printf("  %-18s %6lu bytes\n", name, (unsigned long)bytes);
}

/* A message of that kind that is as long as it can be. */
static void longest(int kind) {
    uint64_t *numbers = (uint64_t *)&message;
    tryphomel_words part = tryphomel_part(0, TRYPHOMEL_SHORT_TEXT), whole = tryphomel_part(0, TRYPHOMEL_LONG_TEXT);
    for (int i = 0; i < 1 + TRYPHOMEL_NUMBERS; i++) numbers[i] = 1;
    message.kind = (uint64_t)kind;
    tryphomel_name_board(&message, (const uint8_t *)"5d10d8c0-8c0a-4d5e-9f2b-0123456789ab");
    switch (kind) {
        case TRYPHOMEL_SERVICE_DESCRIPTION:
            message.as.service.machine = part;
            message.as.service.version = tryphomel_part(TRYPHOMEL_LONG_TEXT, 3);
            message.as.service.features = tryphomel_supports(TRYPHOMEL_FEATURE_FORECAST + TRYPHOMEL_FEATURE_QUERY + TRYPHOMEL_FEATURE_SEND);
            break;
        case TRYPHOMEL_NOTIFICATION: message.as.notification.description = whole; break;
        case TRYPHOMEL_BOARD_AVAILABLE:
            message.as.board.by = message.as.board.order = part;
            message.as.board.product = message.as.board.top = message.as.board.bottom = whole;
            break;
        case TRYPHOMEL_MACHINE_READY: message.as.ready.forecast = part; break;
        case TRYPHOMEL_CHECK_ALIVE: message.as.alive.id = part; break;
        case TRYPHOMEL_BOARD_FORECAST:
            message.as.forecast.forecast = message.as.forecast.by = message.as.forecast.order = part;
            message.as.forecast.product = message.as.forecast.top = message.as.forecast.bottom = whole;
            break;
    }
}

static void most_sent(size_t idle) {
    size_t bytes = 0;
    element("", TRYPHOMEL_LONG_TEXT, "\"", "1.6");
    for (int kind = 0; kind <= TRYPHOMEL_BOARD_FORECAST; kind++)
        for (int side = TRYPHOMEL_UPSTREAM; side <= TRYPHOMEL_DOWNSTREAM; side++)
            for (int state = 0; state <= TRYPHOMEL_FINISHED; state++) {
                longest(kind);
                memset(&lane, 0, sizeof lane);
                lane.side = (uint8_t)side;
                lane.state = (uint8_t)state;
                memcpy(lane.offered, message.id, sizeof lane.offered);
                memcpy(lane.running, message.id, sizeof lane.running);
                size_t n = used_by(sends) - idle;
                if (n > bytes) bytes = n;
            }
    printf("  %-18s %6lu bytes\n", "tryphomel_send", (unsigned long)bytes);
}

int main(void) {
    size_t idle = used_by(nothing);
    printf("stack of a call, at most\n");
    most("tryphomel_read", reads, idle);
    most("tryphomel_check", checks, idle);
    most("tryphomel_receive", receives, idle);
    most_sent(idle);
    most("tryphomel_text", asks, idle);
    most("tryphomel_lost", loses, idle);
    return 0;
}
