/* The words of a command as the request that they stand for. */
#ifndef COMMAND_H
#define COMMAND_H

#include "request.h"
#include "say.h"

/* Makes the request of a command's words; the caller fills in its destination. Gives STATUS_DONE, or says what is wrong. */
enum status command_request(char **words, int count, struct request *request);

#endif
