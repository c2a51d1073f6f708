/*
 * The erase of a board from the bench.
 *
 * A board that lost power in an erase looks clean and may not be: it finishes the erase at its next start, in silence. So nothing
 * that can be read says that a set is erased. The reply to an erase request does, for a board sends it when the last byte is
 * stored; and what is read back can only speak against it. A reply counts for the request that stands between the same two echoes
 * (echo.h), from the set whose serial number and model were read there.
 */
#ifndef ERASE_H
#define ERASE_H

#include "talk.h"

/* Erases the set at an open line: asks first, sends the request until its reply comes, reads back, and tells the verdict. */
enum status erase_run(struct bench *bench);

#endif
