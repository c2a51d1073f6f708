/* A serial device as document 000 wants it: 9600 baud, 8 data bits, no parity, 1 stop bit, no flow control, bytes as they are. */
#define _DEFAULT_SOURCE /* cfmakeraw, CRTSCTS, flock */

#include "port.h"
#include "say.h"

#include <errno.h>
#include <fcntl.h>
#include <string.h>
#include <sys/file.h>
#include <termios.h>
#include <unistd.h>

static const char nothing_sent[] = "everything; nothing was sent";

/* Whether the device took these settings, and does what they say. */
static bool set_up(int fd)
{
    struct termios line;

    if (tcgetattr(fd, &line) != 0)
        return false;
    cfmakeraw(&line);
    line.c_cflag &= ~(tcflag_t)(CSIZE | PARENB | CSTOPB | CRTSCTS);
    line.c_cflag |= CS8 | CLOCAL | CREAD;
    if (cfsetispeed(&line, B9600) != 0 || cfsetospeed(&line, B9600) != 0 || tcsetattr(fd, TCSANOW, &line) != 0)
        return false;
    if (tcgetattr(fd, &line) != 0)
        return false;
    if (cfgetospeed(&line) != B9600 || (line.c_cflag & (CSIZE | PARENB | CSTOPB)) != CS8 || (line.c_lflag & ICANON) != 0) {
        errno = EINVAL;
        return false;
    }
    return true;
}

enum status port_open_serial(const char *device, int *fd)
{
    enum status status = STATUS_DONE;

    *fd = open(device, O_RDWR | O_NOCTTY | O_NONBLOCK | O_CLOEXEC);
    if (*fd < 0)
        return say_error(
            STATUS_NO_REPLY, nothing_sent,
            "plug the adapter in and list the devices with: ls /dev/ttyUSB* /dev/ttyS*; where the permission is missing, "
            "join the group that owns the device",
            "the serial device '%s' can't be opened: %s", device, strerror(errno));
    if (flock(*fd, LOCK_EX | LOCK_NB) != 0 && errno == EWOULDBLOCK)
        status = say_error(STATUS_NO_REPLY, nothing_sent, "wait until the other bench has ended, or end it",
                           "another bench uses '%s'", device);
    else if (!set_up(*fd))
        status = say_error(STATUS_NO_REPLY, nothing_sent, "name a serial device, or tcp:HOST for a board on the network",
                           "'%s' can't be set to 9600 baud, 8 data bits, no parity, 1 stop bit: %s", device, strerror(errno));
    if (status != STATUS_DONE)
        close(*fd);
    return status;
}
