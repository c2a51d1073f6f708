/*
 * The line to a board, byte by byte: a serial device, a TCP connection, or a simulated board inside this process.
 */
#ifndef PORT_H
#define PORT_H

#include "say.h"

#include <stdbool.h>
#include <stddef.h>
#include <stdint.h>

struct inside;

/* The name of the simulated board inside the process. */
#define PORT_SIMULATED "sim"

struct port {
    const char *name;
    int fd;                /* -1 where the board is inside the process, or the line has ended */
    struct inside *inside; /* null where it is not */
    uint8_t in[256];       /* what came and was not taken yet, from in_at to in_end */
    size_t in_at, in_end;
};

/* What listening gave. */
enum heard {
    HEARD_BYTE,
    HEARD_NOTHING, /* until the moment that was named */
    HEARD_END      /* the line is closed or broken */
};

/*
 * Opens the port of this name: "tcp:HOST" or "tcp:HOST:NUMBER", a serial device, or PORT_SIMULATED for the simulated board, on the
 * store file `store` or, where that is null, on an unused store that is lost at the end. Gives STATUS_DONE, or says why not.
 * limit_ms bounds the wait for a TCP connection; looking up a host's name takes as long as the system lets it.
 */
enum status port_open(struct port *port, const char *name, const char *store, long long limit_ms);

/*
 * Makes a TCP connection anew, and drops what came on the old one; tries until the moment `until`, and says whether there is one. A
 * board's power cut ends its connection. It does not end a serial line, and so a serial device is not opened again: whoever pulled
 * its plug has to look.
 */
bool port_reopen(struct port *port, long long until);

/* Sends bytes; says whether all went out before the moment `until`. */
bool port_send(struct port *port, const uint8_t *bytes, size_t count, long long until);

/* Takes the next byte that comes before the moment `until`. */
enum heard port_byte(struct port *port, uint8_t *b, long long until);

/* Tells a simulated board inside the process that the line was silent; on other ports silence tells it. */
void port_tell_gap(struct port *port);

void port_close(struct port *port);

/* For port_open: each opens its kind of port. */
enum status port_open_serial(const char *device, int *fd);
enum status port_open_tcp(const char *host_and_port, long long limit_ms, int *fd);

/* For port_reopen: connects as port_open_tcp does, and says nothing. Gives -1 where there is no connection. */
int port_connect(const char *host_and_port, long long until);

#endif
