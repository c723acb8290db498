/* Sockets: POSIX, IPv4 and IPv6. Every wait has an end. */
#define _POSIX_C_SOURCE 200809L
#include "line.h"

#include <netdb.h>
#include <netinet/in.h>
#include <netinet/tcp.h>
#include <poll.h>
#include <stdio.h>
#include <string.h>
#include <sys/socket.h>
#include <sys/time.h>
#include <time.h>
#include <unistd.h>

enum { PAUSE_MS = 200, SEND_SECONDS = 3, DRAIN_MS = 1000 };

static int64_t now_ms(void) {
    struct timespec t;
    clock_gettime(CLOCK_MONOTONIC, &t);
    return (int64_t)t.tv_sec * 1000 + t.tv_nsec / 1000000;
}

static struct addrinfo *addresses(const char *address, const char *port, int flags) {
    struct addrinfo hints, *found;
    memset(&hints, 0, sizeof hints);
    hints.ai_socktype = SOCK_STREAM;
    hints.ai_flags = flags;
    return getaddrinfo(address, port, &hints, &found) == 0 ? found : NULL;
}

/* Short messages go out at once, and a peer that takes none does not hold us for ever. */
static int prepared(int line) {
    int yes = 1;
    struct timeval limit = {.tv_sec = SEND_SECONDS};
    if (line < 0) return -1;
    setsockopt(line, IPPROTO_TCP, TCP_NODELAY, &yes, sizeof yes);
    setsockopt(line, SOL_SOCKET, SO_SNDTIMEO, &limit, sizeof limit);
    return line;
}

static uint16_t port_of(int door) {
    struct sockaddr_storage at;
    socklen_t size = sizeof at;
    if (getsockname(door, (struct sockaddr *)&at, &size) != 0) return 0;
    if (at.ss_family == AF_INET6) return ntohs(((struct sockaddr_in6 *)&at)->sin6_port);
    return ntohs(((struct sockaddr_in *)&at)->sin_port);
}

int line_listen(const char *address, const char *port, uint16_t *told) {
    struct addrinfo *at = addresses(address, port, AI_PASSIVE);
    int door = -1, yes = 1;
    if (at == NULL) return -1;
    door = socket(at->ai_family, at->ai_socktype, at->ai_protocol);
    if (door >= 0) setsockopt(door, SOL_SOCKET, SO_REUSEADDR, &yes, sizeof yes);
    if (door >= 0 && (bind(door, at->ai_addr, at->ai_addrlen) != 0 || listen(door, 1) != 0)) {
        close(door);
        door = -1;
    }
    freeaddrinfo(at);
    if (door >= 0) *told = port_of(door);
    return door;
}

int line_accept(int door, int ms) {
    struct pollfd wait = {.fd = door, .events = POLLIN};
    if (poll(&wait, 1, ms) <= 0) return -1;
    return prepared(accept(door, NULL, NULL));
}

static int connect_once(const struct addrinfo *at) {
    int line = socket(at->ai_family, at->ai_socktype, at->ai_protocol);
    if (line >= 0 && connect(line, at->ai_addr, at->ai_addrlen) == 0) return prepared(line);
    if (line >= 0) close(line);
    return -1;
}

int line_connect(const char *address, const char *port, int ms) {
    int64_t end = now_ms() + ms;
    struct addrinfo *at = addresses(address, port, 0);
    int line = -1;
    while (at != NULL && line < 0) {
        line = connect_once(at);
        if (line >= 0 || now_ms() >= end) break;
        poll(NULL, 0, PAUSE_MS);
    }
    if (at != NULL) freeaddrinfo(at);
    return line;
}

long line_get(int line, void *bytes, size_t size, int ms) {
    struct pollfd wait = {.fd = line, .events = POLLIN};
    ssize_t n;
    if (line < 0) return LINE_ENDED;
    if (poll(&wait, 1, ms) == 0) return LINE_SILENT;
    n = recv(line, bytes, size, 0);
    return n > 0 ? (long)n : LINE_ENDED;
}

int line_put(int line, const void *bytes, size_t size) {
    const char *at = bytes;
    while (size > 0) {
        ssize_t n = line < 0 ? -1 : send(line, at, size, MSG_NOSIGNAL);
        if (n <= 0) return 0;
        at += n;
        size -= (size_t)n;
    }
    return 1;
}

void line_close(int line) {
    char rest[4096];
    int64_t end = now_ms() + DRAIN_MS;
    if (line < 0) return;
    shutdown(line, SHUT_WR);
    while (now_ms() < end && line_get(line, rest, sizeof rest, DRAIN_MS) > 0) {
    }
    close(line);
}

void line_drop(int line) {
    if (line >= 0) close(line);
}

void line_reset(int line) {
    struct linger at_once = {.l_onoff = 1, .l_linger = 0};
    if (line < 0) return;
    setsockopt(line, SOL_SOCKET, SO_LINGER, &at_once, sizeof at_once);
    close(line);
}
