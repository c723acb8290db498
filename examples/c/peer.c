/* The test peer: plays one machine of a line, step by step, against whatever is at the other end, or both machines against each other. */
#define _POSIX_C_SOURCE 200809L
#include <poll.h>
#include <stdio.h>
#include <stdlib.h>
#include <string.h>
#include <sys/wait.h>
#include <unistd.h>

#include "line.h"
#include "machine.h"
#include "rows.h"
#include "scenarios.h"

enum { PLAY_MS = 5000, AGAIN_MS = 20, FLOOD = 70000, MOST = 1024 };

/* How long a ping waits for its answer, and how long an own event lets itself be waited for; shorter where both machines are ours. */
static int ask_ms = 3000, own_ms = 1000;

/* Whether another TransferState or ForecastId than the one expected is wrong. Another maker's machine may see more of the board than ours, and has
 * ids of its own. */
static int strict = 0;

static int wrong(const struct machine *m, const char *why) {
    printf("  %-10s WRONG: %s\n", m->name, why);
    fflush(stdout);
    return 0;
}

static int wrong_kind(const struct machine *m, uint64_t kind) {
    char why[80];
    snprintf(why, sizeof why, "expected is an accepted %s", tryphomel_kind_name(kind));
    return wrong(m, why);
}

static int is_free(uint64_t kind) {
    return kind == TRYPHOMEL_UNKNOWN || kind == TRYPHOMEL_NOTIFICATION || kind == TRYPHOMEL_CHECK_ALIVE || kind == TRYPHOMEL_BOARD_FORECAST;
}

/* A board's id; for ~ the last digit is another one, for ^ the last letter is a capital. */
static void name_board(const uint8_t *board, char how, char *id) {
    size_t last = TRYPHOMEL_ID_BYTES - 1;
    memcpy(id, board, TRYPHOMEL_ID_BYTES);
    if (how == '~') id[last] = id[last] == '0' ? '1' : '0';
    while (how == '^' && last > 0 && (id[last] < 'a' || id[last] > 'f')) last--;
    if (how == '^' && id[last] >= 'a') id[last] = (char)(id[last] - 'a' + 'A');
}

/* A step's text with its boards named, beside the lane's board. */
static void spell(const uint8_t *board, const char *text, char to[MOST]) {
    size_t n = 0;
    for (; *text != 0 && n + TRYPHOMEL_ID_BYTES + 1 < MOST; text++) {
        if (strchr("@~^", *text) == NULL) {
            to[n++] = *text;
            continue;
        }
        name_board(board, *text, to + n);
        n += TRYPHOMEL_ID_BYTES;
    }
    to[n] = 0;
}

static int is_board(const uint8_t *board, const char *text, const uint8_t *id) {
    char spelt[MOST];
    spell(board, text, spelt);
    return memcmp(spelt, id, TRYPHOMEL_ID_BYTES) == 0;
}

static int is_open(const struct machine *m, const char *id) {
    if (m->lane.side == TRYPHOMEL_UPSTREAM) return strcmp(m->foretold, id) == 0;
    if (!strict) return (m->lane.forecast_length != 0) == (id[0] != 0);
    return m->lane.forecast_length == strlen(id) && memcmp(m->lane.forecast, id, strlen(id)) == 0;
}

/* What must be so after every step, and what the step says of it. */
static int as_expected(const struct machine *m, const struct step *step, uint8_t order) {
    char why[160];
    if (m->row == NULL) return wrong(m, "there is no row for this");
    if (m->belt == RUNS && m->lane.state != TRYPHOMEL_TRANSPORTING && m->lane.state != TRYPHOMEL_FINISHED)
        return wrong(m, "the belt runs, and no transport is under way");
    if (m->belt != step->belt) return wrong(m, step->belt == STANDS ? "the belt runs and must stand" : "the belt stands and must run");
    if (step->forecast != NULL && !is_open(m, step->forecast)) return wrong(m, "another forecast is open than expected");
    if (m->refusal == step->refusal && order == step->order && m->lane.state == step->state) return 1;
    snprintf(why, sizeof why, "refusal %u, order %u, %s; expected are refusal %u, order %u, %s", m->refusal, order, tryphomel_state_name(m->lane.state),
             step->refusal, step->order, tryphomel_state_name(step->state));
    return wrong(m, why);
}

static int own(struct machine *m, const struct step *step) {
    if (step->what != CONNECTED) {
        poll(NULL, 0, own_ms);
        machine_own(m, (enum event)step->what);
    }
    return as_expected(m, step, m->order);
}

static int tries(struct machine *m, const struct step *step) {
    machine_send(m, step->what);
    return as_expected(m, step, m->order);
}

/* The next message that the lane's chart speaks of, or one of the kind waited for. */
static int next(struct machine *m, const struct step *step, struct happening *now) {
    size_t room = step->room != 0 ? step->room : TRYPHOMEL_RECEIVE_ROOM;
    do {
        if (!machine_receive(m, room, now)) return wrong(m, "nothing came in time");
    } while (now->event == RECEIVED && is_free(now->kind) && !(step->does == DO_TAKES && now->kind == step->what));
    return 1;
}

static int takes(struct machine *m, const struct step *step) {
    struct happening now = {.event = LOST};
    uint8_t before[TRYPHOMEL_ID_BYTES];
    memcpy(before, m->board, sizeof before);
    if (!next(m, step, &now)) return 0;
    if (now.event != RECEIVED || now.kind != step->what) return wrong_kind(m, step->what);
    if (strict && step->transfer != 0 && now.transfer != step->transfer) return wrong(m, "another TransferState was expected");
    if (step->text != NULL && !is_board(before, step->text, m->board)) return wrong(m, "this is another board");
    return as_expected(m, step, now.order);
}

static int refuses(struct machine *m, const struct step *step) {
    struct happening now = {.event = LOST};
    if (!next(m, step, &now)) return 0;
    return as_expected(m, step, now.order);
}

static int loses(struct machine *m, const struct step *step) {
    struct happening now = {.event = RECEIVED};
    if (!next(m, step, &now)) return 0;
    if (now.event != LOST) return wrong(m, "the connection still stands");
    return as_expected(m, step, TRYPHOMEL_ORDER_NONE);
}

/* A ping; any CheckAlive is a sign of life. */
static int asks(struct machine *m, const struct step *step) {
    struct happening now = {.event = LOST};
    int ms = m->ms, came;
    machine_send(m, TRYPHOMEL_CHECK_ALIVE);
    m->ms = ask_ms;
    do came = machine_receive(m, TRYPHOMEL_RECEIVE_ROOM, &now);
    while (came && now.event == RECEIVED && is_free(now.kind) && now.kind != TRYPHOMEL_CHECK_ALIVE);
    m->ms = ms;
    if (!came) machine_lost(m);
    return as_expected(m, step, TRYPHOMEL_ORDER_NONE);
}

static int insists(struct machine *m, const struct step *step) {
    for (int waited = 0; m->line >= 0 && waited < m->ms; waited += AGAIN_MS) {
        poll(NULL, 0, AGAIN_MS);
        machine_send(m, TRYPHOMEL_CHECK_ALIVE);
    }
    if (m->line >= 0) return wrong(m, "sending never failed");
    return as_expected(m, step, TRYPHOMEL_ORDER_NONE);
}

/* What follows is shown without a row and an order: no lane has a part in it. */
static void aside(struct machine *m) {
    m->row = NULL;
    m->order = TRYPHOMEL_ORDER_NONE;
}

static int puts_bytes(struct machine *m, const char *text) {
    char spelt[MOST];
    spell(m->board, text, spelt);
    aside(m);
    machine_show(m, "puts", "bytes of its own");
    printf("  %-10s          %.*s\n", m->name, 110, spelt[0] < ' ' ? "(no text)" : spelt);
    fflush(stdout);
    return machine_put(m, spelt, strlen(spelt)) || wrong(m, "the connection is gone");
}

static int floods(struct machine *m) {
    static const char head[] = "<Hermes><CheckAlive Id='";
    static char value[FLOOD];
    memset(value, 'x', sizeof value);
    aside(m);
    machine_show(m, "puts", "70,000 bytes of one value");
    /* The other machine may end the connection before it has them all. */
    if (machine_put(m, head, strlen(head))) machine_put(m, value, sizeof value);
    return 1;
}

/* The first whole message that was received, without a lane. 0: there is none yet. */
static int look(struct machine *m, tryphomel_checked *c) {
    aside(m);
    machine_drop(m, 0);
    if (tryphomel_message_check(m->in, m->held, c) != TRYPHOMEL_ACCEPTED) return 0;
    machine_show(m, "sees", tryphomel_kind_name(c->message.kind));
    machine_drop(m, (size_t)c->end);
    return 1;
}

static int sees(struct machine *m, const struct step *step) {
    tryphomel_checked c;
    do
        while (!look(m, &c))
            if (machine_more(m) <= 0) return wrong(m, "no message came");
    while (is_free(c.message.kind) && c.message.kind != step->what);
    if (c.message.kind != step->what) return wrong_kind(m, step->what);
    if (strict && step->transfer != 0 && c.message.as.transfer.state.value != step->transfer) return wrong(m, "another TransferState was expected");
    if (step->text != NULL && !is_board(m->board, step->text, c.message.id)) return wrong(m, "this is another board");
    return 1;
}

static int is_ended(struct machine *m) {
    tryphomel_checked c;
    long n;
    do {
        while (look(m, &c)) {
        }
        n = machine_more(m);
    } while (n > 0);
    if (n == LINE_SILENT) return wrong(m, "the other machine keeps the connection");
    machine_lost(m);
    return 1;
}

static int vanishes(struct machine *m, void end(int line)) {
    m->belt = STANDS;
    aside(m);
    tryphomel_lane_lost(&m->lane);
    machine_show(m, "vanishes", "");
    end(m->line);
    m->line = -1;
    return 1;
}

static int play_step(struct machine *m, const struct step *step) {
    switch (step->does) {
        case DO_OWN: return own(m, step);
        case DO_TRIES: return tries(m, step);
        case DO_TAKES: return takes(m, step);
        case DO_REFUSES: return refuses(m, step);
        case DO_LOSES: return loses(m, step);
        case DO_ASKS: return asks(m, step);
        case DO_INSISTS: return insists(m, step);
        case DO_PUTS: return puts_bytes(m, step->text);
        case DO_FLOODS: return floods(m);
        case DO_SEES: return sees(m, step);
        case DO_IS_ENDED: return is_ended(m);
        case DO_DROPS: return vanishes(m, line_drop);
        case DO_RESETS: return vanishes(m, line_reset);
        default: return 0;
    }
}

/* Plays a machine's steps over a connection that stands; 1 if all went as expected. */
static int play(const struct scenario *scenario, uint8_t side, int line, int ms) {
    static struct machine m;
    const struct step *step = side == TRYPHOMEL_UPSTREAM ? scenario->up : scenario->down;
    int right = 1;
    m = (struct machine){.ms = ms, .pieces = scenario->pieces, .gulp = scenario->gulp};
    machine_start(&m, side, line);
    for (; right && step->does != DO_DONE; step++) right = play_step(&m, step);
    if (right && scenario->gulp != 0 && m.more == 0) right = wrong(&m, "no message came in pieces");
    m.belt = STANDS;
    line_close(m.line);
    return right;
}

static int failed(const char *why) {
    fprintf(stderr, "peer: %s\n", why);
    return 0;
}

static int upstream(const struct scenario *scenario, const char *address, const char *port, int ms) {
    uint16_t told;
    int line, door = line_listen(address, port, &told);
    if (door < 0) return failed("this address and port cannot be listened at");
    printf("upstream, listens at %s port %u: %s, %s\n", address, told, scenario->name, scenario->what);
    fflush(stdout);
    line = line_accept(door, ms);
    close(door);
    return line >= 0 ? play(scenario, TRYPHOMEL_UPSTREAM, line, ms) : failed("no machine has connected");
}

static int downstream(const struct scenario *scenario, const char *address, const char *port, int ms) {
    int line;
    printf("downstream, connects to %s port %s: %s, %s\n", address, port, scenario->name, scenario->what);
    fflush(stdout);
    line = line_connect(address, port, ms);
    return line >= 0 ? play(scenario, TRYPHOMEL_DOWNSTREAM, line, ms) : failed("no connection came about");
}

/* Both machines, each a process, over TCP on this computer. */
static int against_itself(const struct scenario *scenario) {
    uint16_t told;
    char port[8];
    int line, right, status = 1, door = line_listen("127.0.0.1", "0", &told);
    pid_t child;
    if (door < 0) return failed("no free port");
    snprintf(port, sizeof port, "%u", told);
    printf("%s: %s\n", scenario->name, scenario->what);
    fflush(stdout);
    ask_ms = 300;
    own_ms = 0;
    strict = 1;
    child = fork();
    if (child < 0) return failed("no second process");
    if (child == 0) {
        close(door);
        line = line_connect("127.0.0.1", port, PLAY_MS);
        _exit(line >= 0 && play(scenario, TRYPHOMEL_DOWNSTREAM, line, PLAY_MS) ? 0 : 1);
    }
    line = line_accept(door, PLAY_MS);
    close(door);
    right = line >= 0 && play(scenario, TRYPHOMEL_UPSTREAM, line, PLAY_MS);
    return waitpid(child, &status, 0) == child && status == 0 && right;
}

static int list(void) {
    for (size_t i = 0; i < SCENARIO_COUNT; i++) printf("%-17s %s\n", SCENARIOS[i].name, SCENARIOS[i].what);
    return 0;
}

static int usage(void) {
    fputs(
        "usage: peer upstream ADDRESS PORT SCENARIO [SECONDS]    listens, plays the upstream machine\n"
        "       peer downstream ADDRESS PORT SCENARIO [SECONDS]  connects, plays the downstream machine\n"
        "       peer play SCENARIO                               both, against each other\n"
        "       peer list                                        the scenarios\n"
        "       peer rows                                        the rows of the belt, and whether none is missing\n",
        stderr);
    return 2;
}

static int one_side(int count, char **words) {
    const struct scenario *scenario = scenario_named(words[4]);
    long seconds = count == 6 ? strtol(words[5], NULL, 10) : 60;
    if (scenario == NULL || seconds < 1 || seconds > 86400) return usage();
    if (strcmp(words[1], "upstream") == 0) return upstream(scenario, words[2], words[3], (int)seconds * 1000) ? 0 : 1;
    if (strcmp(words[1], "downstream") == 0) return downstream(scenario, words[2], words[3], (int)seconds * 1000) ? 0 : 1;
    return usage();
}

int main(int count, char **words) {
    if (count == 2 && strcmp(words[1], "list") == 0) return list();
    if (count == 2 && strcmp(words[1], "rows") == 0) return rows_complete() ? 0 : 1;
    if (count == 3 && strcmp(words[1], "play") == 0 && scenario_named(words[2]) != NULL) return against_itself(scenario_named(words[2])) ? 0 : 1;
    if (count == 5 || count == 6) return one_side(count, words);
    return usage();
}
