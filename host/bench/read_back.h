/*
 * What a board shows after its erase, beside what an unused board shows.
 *
 * That both show the same proves nothing: a board that lost power in an erase looks clean and may not be. That they differ
 * disproves the erase.
 */
#ifndef READ_BACK_H
#define READ_BACK_H

#include "identity.h"

struct read_back {
    struct text differs;  /* what an unused board with the set's identity does not show; empty where nothing differs */
    struct text unproved; /* the reads that were not served or not answered; empty where all were */
    bool is_other_set;    /* serial number or model differ */
    bool is_closed;       /* the line ended while it was read */
};

/* Reads identity, tags, power, date, settings and programs, and shows them. */
void read_back_all(struct bench *bench, const struct identity *set, struct read_back *found);

#endif
