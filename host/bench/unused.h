/* What an unused board shows. */
#ifndef UNUSED_H
#define UNUSED_H

#include "identity.h"

/*
 * The reply to a request that an unused board gives which has this serial number, this model and the monitor ID that the request
 * goes to; says whether it gives one.
 */
bool unused_reply(const struct identity *identity, const struct request *request, struct reply *reply);

#endif
