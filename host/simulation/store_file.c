/* A board's store in a file. */
#define _DEFAULT_SOURCE /* flock, mkstemp */

#include "store_file.h"

#include <errno.h>
#include <fcntl.h>
#include <stdio.h>
#include <stdlib.h>
#include <string.h>
#include <sys/file.h>
#include <sys/stat.h>
#include <unistd.h>

static bool write_whole(int fd, const uint8_t *bytes, size_t n, off_t at)
{
    while (n > 0) {
        ssize_t written = pwrite(fd, bytes, n, at);

        if (written < 0 && errno != EINTR)
            return false;
        if (written > 0) {
            bytes += written;
            at += written;
            n -= (size_t)written;
        }
    }
    return true;
}

/* ---- a new store */

/*
 * Gives a new file its bytes and its name; says whether that worked. A name that was given meanwhile stays as it is, so that of
 * several programs that make the same store one gives the name, and all of them open its file.
 */
static bool name_whole(int fd, const uint8_t *bytes, const char *name, const char *path)
{
    bool whole = write_whole(fd, bytes, BOARD_STORE_SIZE, 0) && fchmod(fd, 0644) == 0 && fsync(fd) == 0;
    int wrong = errno;

    if (close(fd) == 0 && whole)
        return link(name, path) == 0 || errno == EEXIST;
    errno = whole ? errno : wrong;
    return false;
}

/* Makes an unused store. It gets its name when it is whole, so that no end of the program leaves half of it under that name. */
static bool make_store(const char *path)
{
    uint8_t unused[BOARD_STORE_SIZE];
    char name[4096];
    int length = snprintf(name, sizeof name, "%s.XXXXXX", path), fd, wrong;
    bool named;

    if (length < 0 || (size_t)length >= sizeof name) {
        errno = ENAMETOOLONG;
        return false;
    }
    board_unused(unused, sizeof unused);
    fd = mkstemp(name);
    if (fd < 0)
        return false;
    named = name_whole(fd, unused, name, path);
    wrong = errno;
    unlink(name);
    errno = wrong;
    return named;
}

/* ---- an open store */

/* Whether the file has 128 bytes; reads them. */
static enum store_file_status read_whole(int fd, uint8_t *bytes)
{
    struct stat about;

    if (fstat(fd, &about) != 0)
        return STORE_FILE_SYSTEM;
    if (!S_ISREG(about.st_mode) || about.st_size != BOARD_STORE_SIZE)
        return STORE_FILE_NOT_A_STORE;
    for (size_t at = 0; at < BOARD_STORE_SIZE;) {
        ssize_t came = pread(fd, bytes + at, BOARD_STORE_SIZE - at, (off_t)at);

        if (came < 0 && errno != EINTR)
            return STORE_FILE_SYSTEM;
        if (came == 0)
            return STORE_FILE_NOT_A_STORE;
        at += came > 0 ? (size_t)came : 0;
    }
    return STORE_FILE_OPEN;
}

/* Whether the name still leads to the open file, and not to another or to none. */
static bool is_named(const struct store_file *file)
{
    struct stat named, opened;

    return stat(file->path, &named) == 0 && fstat(file->fd, &opened) == 0 && named.st_dev == opened.st_dev &&
           named.st_ino == opened.st_ino;
}

enum store_file_status store_file_open(struct store_file *file, const char *path)
{
    enum store_file_status status;
    int wrong;

    file->path = path;
    file->fd = open(path, O_RDWR | O_CLOEXEC);
    if (file->fd < 0 && errno == ENOENT && make_store(path))
        file->fd = open(path, O_RDWR | O_CLOEXEC);
    if (file->fd < 0)
        return STORE_FILE_SYSTEM;
    if (flock(file->fd, LOCK_EX | LOCK_NB) != 0)
        status = errno == EWOULDBLOCK ? STORE_FILE_IN_USE : STORE_FILE_SYSTEM;
    else
        status = is_named(file) ? read_whole(file->fd, file->bytes) : STORE_FILE_CHANGED;
    memcpy(file->kept, file->bytes, BOARD_STORE_SIZE);
    if (status != STORE_FILE_OPEN) {
        wrong = errno;
        close(file->fd);
        errno = wrong;
    }
    return status;
}

/* Whether the file still has what was kept in it. */
static enum store_file_status check_kept(const struct store_file *file)
{
    uint8_t now[BOARD_STORE_SIZE];
    enum store_file_status status = read_whole(file->fd, now);

    if (status == STORE_FILE_SYSTEM)
        return status;
    if (status != STORE_FILE_OPEN || memcmp(now, file->kept, sizeof now) != 0 || !is_named(file))
        return STORE_FILE_CHANGED;
    return STORE_FILE_OPEN;
}

enum store_file_status store_file_keep(struct store_file *file)
{
    size_t first = 0, end = BOARD_STORE_SIZE;
    enum store_file_status status;

    while (first < end && file->bytes[first] == file->kept[first])
        first++;
    while (end > first && file->bytes[end - 1] == file->kept[end - 1])
        end--;
    if (first == end)
        return STORE_FILE_OPEN;
    status = check_kept(file);
    if (status != STORE_FILE_OPEN)
        return status;
    if (!write_whole(file->fd, file->bytes + first, end - first, (off_t)first))
        return STORE_FILE_SYSTEM;
    memcpy(file->kept, file->bytes, BOARD_STORE_SIZE);
    return STORE_FILE_OPEN;
}

enum store_file_status store_file_close(struct store_file *file)
{
    enum store_file_status status = check_kept(file);
    int wrong;

    if (status == STORE_FILE_OPEN && fsync(file->fd) != 0)
        status = STORE_FILE_SYSTEM;
    wrong = errno;
    if (close(file->fd) != 0 && status == STORE_FILE_OPEN)
        return STORE_FILE_SYSTEM;
    errno = wrong;
    return status;
}

const char *store_file_text(enum store_file_status status)
{
    switch (status) {
    case STORE_FILE_IN_USE:
        return "it is in use by another program";
    case STORE_FILE_NOT_A_STORE:
        return "it is not a file of 128 bytes";
    case STORE_FILE_CHANGED:
        return "another program has changed it meanwhile";
    default:
        return strerror(errno);
    }
}
