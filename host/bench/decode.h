/* A reply packet, given as hexadecimal digits, in words. */
#ifndef DECODE_H
#define DECODE_H

#include "options.h"

/* Explains the packet in the words behind "decode". A packet that the reader refuses ends with STATUS_NO_REPLY. */
enum status decode_run(const struct options *options);

#endif
