/* The options of bench and the words of its command. */
#ifndef OPTIONS_H
#define OPTIONS_H

#include "say.h"

#include <stdbool.h>
#include <stdint.h>

struct options {
    const char *port;   /* null: none was named */
    const char *store;  /* the store file of the simulated board; may be null */
    uint16_t dest;      /* 1 to 8, or STATION_ALL */
    long long limit_ms; /* the time limit for a reply; 0: the usual one */
    bool json, verbose, yes, help;
    char **words; /* the command */
    int count;    /* of its words */
};

/* Takes the arguments of main apart. Gives STATUS_DONE, or says what is wrong with them. */
enum status options_read(int argc, char **argv, struct options *options);

/* Prints how to use bench. */
void print_help(void);

#endif
