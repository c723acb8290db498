/* A line: one TCP connection between two machines. Nothing here knows of messages. */
#ifndef LINE_H
#define LINE_H

#include <stddef.h>
#include <stdint.h>

/* Opens a door at an address; port 0 takes a free one. The port is told. -1: it could not be opened. */
int line_listen(const char *address, const char *port, uint16_t *told);

/* Waits at the door for the downstream machine. -1: none came in time. */
int line_accept(int door, int ms);

/* Tries again and again to connect to the upstream machine. -1: not in time. */
int line_connect(const char *address, const char *port, int ms);

enum { LINE_SILENT = -1, LINE_ENDED = 0 };

/* Waits for bytes and takes what is there: how many, LINE_SILENT if none came in time, LINE_ENDED if the connection ended or failed. */
long line_get(int line, void *bytes, size_t size, int ms);

/* Sends all the bytes. 0: the connection is lost. The process is not killed by a closed socket. */
int line_put(int line, const void *bytes, size_t size);

/* Ends the connection so that what was sent still arrives. */
void line_close(int line);

/* Ends it as a program does that is killed: the other end gets to know it when it sends for the second time, or when it receives. */
void line_drop(int line);

/* Ends it so that the other end's next call fails, as after a restart. */
void line_reset(int line);

#endif
