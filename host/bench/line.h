/*
 * Requests and replies over a port: requests are sent, and replies are cut out of what comes by their length digits.
 */
#ifndef LINE_H
#define LINE_H

#include "port.h"
#include "reply.h"
#include "request.h"

struct line {
    struct port port;
    bool verbose;                                   /* show the bytes both ways */
    bool is_rested;                                 /* nothing unexpected can arrive, and the board holds no half packet */
    void (*each_second)(long seconds, void *about); /* told while the line is listened to; may be null */
    void *about;
    long long since; /* the moment from which the seconds are counted */
};

/* What listening gave. */
enum came {
    CAME_PACKET,  /* what began with 01h; whole or not, good or not */
    CAME_SILENCE, /* the line rested: nothing came for 120 ms, after which a board has forgotten half a packet */
    CAME_NOTHING, /* until the moment that was named */
    CAME_END      /* the line is closed or broken */
};

/* Waits for a packet, at most until the moment `until`. It never gives CAME_SILENCE. */
enum came line_hear(struct line *line, struct packet *packet, long long until);

/* Waits for the line to rest, at most until the moment `until`; gives each packet that comes before. */
enum came line_rest(struct line *line, struct packet *packet, long long until);

/* Sends an encoded request at once; says whether it went out whole. */
bool line_send(struct line *line, const struct packet *packet);

/* How an exchange ended. */
enum ending {
    ENDED_ANSWERED, /* with the reply to the request */
    ENDED_DAMAGED,  /* with a packet that is no good reply; its refusal is in the reply's kind */
    ENDED_SILENT,   /* with no packet until the time limit */
    ENDED_OTHER,    /* with good replies, but to other requests, until the time limit */
    ENDED_CLOSED,   /* with the end of the line */
    ENDED_UNSENT    /* before the request was sent whole */
};

struct exchange {
    enum ending ending;
    struct packet packet; /* as it came: the reply, the damaged one, or the last that answers another request */
    struct reply reply;
};

/* Lets the line rest, sends an encoded request and waits for its answer, at most limit_ms. */
void line_exchange(struct line *line, const struct request *request, const struct packet *packet, long long limit_ms,
                   struct exchange *exchange);

/*
 * Does the same for a request that only reads: sends it again after each try_ms, and takes the answer to any of them, until one
 * comes, at most limit_ms.
 */
void line_read(struct line *line, const struct request *request, const struct packet *packet, long long try_ms, long long limit_ms,
               struct exchange *exchange);

/* Lets the line rest and sends an encoded request that nobody answers; says whether it went out. */
bool line_tell(struct line *line, const struct packet *packet);

#endif
