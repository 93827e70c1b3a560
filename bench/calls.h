/* Data calls of all sorts, most of them with something wrong, so that every refusal and every turn of the
 * join rule comes up. */
#ifndef CALLS_H
#define CALLS_H

#include "streams.h"

#include <stdbool.h>

enum { PACKET_ROOM = 16384 };

/* What a receiver is given, beside the slices themselves. */
struct call {
    struct sklyapina_table table;
    struct packet packet;
    size_t holding_length;
    size_t output_length;
    size_t lengths_length;
};

struct calls {
    struct generator generator;
    struct sklyapina_table table; /* what the last call left */
    bool table_is_spoilt;         /* the call was given another table than that */
    uint8_t room[UDP_LEAD + PACKET_ROOM];
    uint8_t *packet; /* in the room, from the session ID on: over UDP, what stands before that is there too */
};

/* The same calls follow in every run. False where the library opened no session. */
bool calls_begin(struct calls *calls);

/* The next call. Its packet is lent until the call after it. */
struct call calls_next(struct calls *calls);

/* Takes the table that a receiver gave back. */
void calls_answered(struct calls *calls, const struct sklyapina_table *table);

/* A call of a packet as it stands, with slices as long as they must be. */
struct call plain_call(const struct sklyapina_table *table, struct packet packet);

#endif
