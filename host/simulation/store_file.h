/* A board's store in a file, so that each byte that is stored outlives the program. */
#ifndef STORE_FILE_H
#define STORE_FILE_H

#include "board.h"

#include <stdbool.h>
#include <stdint.h>

enum store_file_status {
    STORE_FILE_OPEN,
    STORE_FILE_IN_USE,      /* by another program */
    STORE_FILE_NOT_A_STORE, /* it is not a file of 128 bytes */
    STORE_FILE_CHANGED,     /* another program has changed, cut, moved or replaced the file since */
    STORE_FILE_SYSTEM,      /* the system refused something, and errno says why */
};

struct store_file {
    const char *path;                /* its name, which has to lead to it as long as it is open */
    uint8_t bytes[BOARD_STORE_SIZE]; /* the store, lent to the board's calls */
    uint8_t kept[BOARD_STORE_SIZE];  /* what of it the file has */
    int fd;
};

/*
 * Reads the file of this name, and makes an unused store where there is none. Nobody else can open it so until store_file_close. A
 * link that leads nowhere is no store: where it leads is for its maker to say. The name is used until then too.
 */
enum store_file_status store_file_open(struct store_file *file, const char *path);

/*
 * Writes what a call has stored, a start among them. It goes out in one write, and a program that is killed leaves all of it or
 * nothing: a call other than an erase step finishes on the supply, and an erase step stores one byte. Gives STORE_FILE_OPEN, or
 * what is wrong.
 */
enum store_file_status store_file_keep(struct store_file *file);

/* What a status other than STORE_FILE_OPEN means, with no full stop. */
const char *store_file_text(enum store_file_status status);

/* Has the bytes written to the disk and closes the file. Gives STORE_FILE_OPEN, or what is wrong. */
enum store_file_status store_file_close(struct store_file *file);

#endif
