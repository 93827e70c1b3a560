/* The streams of packets that the receivers are measured on, made in memory: five, each by either transport or by
 * both in turn. */
#ifndef STREAMS_H
#define STREAMS_H

#include "sklyapina.h"

enum {
    PACKETS_PER_FLOW = 200,
    MOST_PACKETS = PACKETS_PER_FLOW * SKLYAPINA_ROWS * SKLYAPINA_FLOWS,
    FIRST_SESSION = 0x101, /* the session of row 0; those of the other rows follow it */
    UDP_LEAD = 4           /* bytes before the session ID over UDP: T, the version, and what is ignored */
};

struct packet {
    uint32_t transport;
    const uint8_t *bytes;
    size_t length;
};

struct stream {
    struct sklyapina_table opened; /* the table that the stream begins with: six sessions, freshly opened */
    size_t count;                  /* packets */
    size_t bytes;                  /* of all packets together */
    struct packet packets[MOST_PACKETS];
};

/* The names of the streams that are measured, NULL behind the last: a letter, 'a' to 'e', for its packets over IP;
 * the letter and '-udp' for the same over UDP; the letter and '-both' where they come by either in turn. And what
 * each has. */
extern const char *const stream_names[];
const char *stream_title(const char *name);

/* Makes a stream, over the one made before: there is one at a time. NULL where there is no such name, or the
 * library did not open a session or send a packet. */
const struct stream *stream_make(const char *name);

/* A small generator of numbers that look random: the same numbers in every run. */
struct generator {
    uint32_t state;
};
uint32_t generator_next(struct generator *generator);
uint32_t generator_below(struct generator *generator, uint32_t limit);

#endif
