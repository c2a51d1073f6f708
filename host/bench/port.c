/* The line to a board, whatever it is made of. */
#define _POSIX_C_SOURCE 200809L

#include "port.h"

#include "deadline.h"
#include "inside.h"

#include <errno.h>
#include <poll.h>
#include <string.h>
#include <unistd.h>

enum { RECONNECT_MS = 200 };

/* What stands in front of a host's name. */
static const char tcp[] = "tcp:";

static bool is_tcp(const char *name)
{
    return strncmp(name, tcp, strlen(tcp)) == 0;
}

enum status port_open(struct port *port, const char *name, const char *store, long long limit_ms)
{
    memset(port, 0, sizeof *port);
    port->name = name;
    port->fd = -1;
    if (is_tcp(name))
        return port_open_tcp(name + strlen(tcp), limit_ms, &port->fd);
    if (strcmp(name, PORT_SIMULATED) != 0)
        return port_open_serial(name, &port->fd);
    port->inside = inside_open(store);
    return port->inside != NULL ? STATUS_DONE : STATUS_NO_REPLY;
}

bool port_reopen(struct port *port, long long until)
{
    if (!is_tcp(port->name))
        return false;
    if (port->fd >= 0)
        close(port->fd);
    port->fd = -1;
    port->in_at = port->in_end = 0;
    while (port->fd < 0 && now_ms() < until) {
        poll(NULL, 0, RECONNECT_MS); /* also before the first: a relay may take connections while its board is off */
        port->fd = port_connect(port->name + strlen(tcp), until);
    }
    return port->fd >= 0;
}

/* Whether a read or write that failed may work a little later. */
static bool is_passing(int error)
{
    return error == EAGAIN || error == EWOULDBLOCK || error == EINTR;
}

bool port_send(struct port *port, const uint8_t *bytes, size_t count, long long until)
{
    if (port->inside != NULL) {
        inside_take(port->inside, bytes, count);
        return true;
    }
    while (count > 0) {
        ssize_t sent;

        if (!wait_ready(port->fd, POLLOUT, until))
            return false;
        sent = write(port->fd, bytes, count);
        if (sent < 0 && !is_passing(errno))
            return false;
        if (sent > 0) {
            bytes += sent;
            count -= (size_t)sent;
        }
    }
    return true;
}

/* Reads what there is, after waiting for it. */
static enum heard fill(struct port *port, long long until)
{
    for (;;) {
        ssize_t came;

        if (!wait_ready(port->fd, POLLIN, until))
            return HEARD_NOTHING;
        came = read(port->fd, port->in, sizeof port->in);
        if (came == 0 || (came < 0 && !is_passing(errno)))
            return HEARD_END;
        if (came > 0) {
            port->in_at = 0;
            port->in_end = (size_t)came;
            return HEARD_BYTE;
        }
    }
}

enum heard port_byte(struct port *port, uint8_t *b, long long until)
{
    enum heard heard = HEARD_BYTE;

    if (port->inside != NULL)
        return inside_give(port->inside, b) ? HEARD_BYTE : HEARD_NOTHING;
    if (port->in_at == port->in_end)
        heard = fill(port, until);
    if (heard == HEARD_BYTE)
        *b = port->in[port->in_at++];
    return heard;
}

void port_tell_gap(struct port *port)
{
    if (port->inside != NULL)
        inside_gap(port->inside);
}

void port_close(struct port *port)
{
    if (port->inside != NULL)
        inside_close(port->inside);
    if (port->fd >= 0)
        close(port->fd);
}
