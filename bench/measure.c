/* Runs streams of packets through receivers. Counting what that executes is the business of bench/run.
 *
 *   measure STREAM RECEIVER ROUNDS   runs a stream that often, each round from its freshly opened table
 *   measure nanoseconds STREAM RECEIVER ROUNDS REPETITIONS
 *                                    does so repeatedly, and prints the least nanoseconds per packet
 *   measure streams                  prints the names of the streams
 *   measure describe STREAM          prints how many packets and bytes a stream has, and what it is
 *   measure check                    compares the receivers with one another
 *   measure stack                    prints how much of the stack they use
 *
 * Ends with status 1 where the receivers differ or a packet was refused, 2 where the words are wrong. */
#define _POSIX_C_SOURCE 200809L

#include "measure.h"
#include "receivers.h"
#include "streams.h"

#include <stdalign.h>
#include <stdbool.h>
#include <stdio.h>
#include <stdlib.h>
#include <string.h>
#include <time.h>

/* The slices that the receivers are lent. */
static alignas(64) uint8_t holding[SKLYAPINA_HOLDING_SIZE];
static alignas(64) uint8_t output[SKLYAPINA_MOST_BYTES];
static alignas(64) uint16_t lengths[SKLYAPINA_MOST_FRAMES];

/* One round with a receiver that takes the table by value; answers how many packets were refused. */
static size_t round_by_value(receive_by_value *receive, const struct stream *stream)
{
    struct sklyapina_table table = stream->opened;
    size_t refused = 0;

    for (size_t place = 0; place < stream->count; place++) {
        struct packet packet = stream->packets[place];
        struct sklyapina_received received =
            receive(table, packet.transport, holding, sizeof holding, packet.bytes, packet.length,
                    output, sizeof output, lengths, SKLYAPINA_MOST_FRAMES);

        table = received.table;
        refused += received.code != 0;
    }
    return refused;
}

/* The same with one that changes the table where it stands. */
static size_t round_in_place(receive_in_place *receive, const struct stream *stream)
{
    struct sklyapina_table table = stream->opened;
    size_t refused = 0;

    for (size_t place = 0; place < stream->count; place++) {
        struct packet packet = stream->packets[place];
        struct plain_counts counts =
            receive(&table, packet.transport, holding, sizeof holding, packet.bytes, packet.length,
                    output, sizeof output, lengths, SKLYAPINA_MOST_FRAMES);

        refused += counts.code != 0;
    }
    return refused;
}

static size_t run(const struct receiver *receiver, const struct stream *stream, unsigned long rounds)
{
    size_t refused = 0;

    for (unsigned long round = 0; round < rounds; round++)
        refused += receiver->by_value ? round_by_value(receiver->by_value, stream)
                                      : round_in_place(receiver->in_place, stream);
    return refused;
}

static double nanoseconds_now(void)
{
    struct timespec now;

    clock_gettime(CLOCK_MONOTONIC, &now);
    return (double)now.tv_sec * 1e9 + (double)now.tv_nsec;
}

/* The fastest of the repetitions: what else the machine does can only make one slower. */
static double fastest(const struct receiver *receiver, const struct stream *stream, unsigned long rounds,
                      unsigned long repetitions)
{
    double least = 0;

    for (unsigned long repetition = 0; repetition < repetitions; repetition++) {
        double start = nanoseconds_now();
        double taken;

        run(receiver, stream, rounds);
        taken = nanoseconds_now() - start;
        if (repetition == 0 || taken < least)
            least = taken;
    }
    return least / (double)(rounds * stream->count);
}

static int unusable(const char *why)
{
    fprintf(stderr, "measure: %s\n", why);
    return 2;
}

static int print_names(void)
{
    for (const char *const *name = stream_names; *name; name++)
        printf("%s\n", *name);
    return 0;
}

static int describe(const char *name)
{
    const struct stream *stream = stream_make(name);

    if (!stream)
        return unusable("there is no such stream, or it cannot be made");
    printf("%zu %zu %s\n", stream->count, stream->bytes, stream_title(name));
    return 0;
}

static int measure(char **words, bool timed)
{
    const struct stream *stream = stream_make(words[0]);
    const struct receiver *receiver = receiver_named(words[1]);
    unsigned long rounds = strtoul(words[2], NULL, 10);
    unsigned long repetitions = timed ? strtoul(words[3], NULL, 10) : 0;

    if (!stream)
        return unusable("there is no such stream, or it cannot be made");
    if (!receiver)
        return unusable("there is no such receiver");
    if (rounds == 0 || (timed && repetitions == 0))
        return unusable("rounds and repetitions are numbers above 0");
    if (timed)
        printf("%.1f\n", fastest(receiver, stream, rounds, repetitions));
    else if (run(receiver, stream, rounds) != 0)
        return 1;
    return 0;
}

int main(int count, char **words)
{
    if (count == 2 && strcmp(words[1], "check") == 0)
        return check();
    if (count == 2 && strcmp(words[1], "stack") == 0)
        return stack();
    if (count == 2 && strcmp(words[1], "streams") == 0)
        return print_names();
    if (count == 3 && strcmp(words[1], "describe") == 0)
        return describe(words[2]);
    if (count == 6 && strcmp(words[1], "nanoseconds") == 0)
        return measure(words + 2, true);
    if (count == 4)
        return measure(words + 1, false);
    return unusable("see the head of bench/measure.c for the words");
}
