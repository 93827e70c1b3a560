/* The receivers that can be measured: the proved one, the plain one as clang and as gcc compile it, in both
 * its forms, and one that does nothing but hand the table back, which shows what the calling program and
 * the passing of the table cost by themselves. */
#include "receivers.h"

#include <string.h>

/* bench/run compiles plain.c twice into the one program; gcc's functions are given these names. */
receive_by_value gcc_plain_receive;
receive_in_place gcc_plain_receive_in_place;

static struct sklyapina_received pass(struct sklyapina_table table, uint32_t transport,
                                      uint8_t *holding, size_t holding_length,
                                      const uint8_t *packet, size_t packet_length,
                                      uint8_t *output, size_t output_length,
                                      uint16_t *lengths, size_t lengths_length)
{
    (void)transport, (void)holding, (void)holding_length, (void)packet, (void)packet_length;
    (void)output, (void)output_length, (void)lengths, (void)lengths_length;
    return (struct sklyapina_received){ .table = table };
}

const struct receiver receivers[RECEIVERS] = {
    [PROVED] = { "proved", sklyapina_receive, NULL },
    { "plain", plain_receive, NULL },
    { "plain-gcc", gcc_plain_receive, NULL },
    { "in-place", NULL, plain_receive_in_place },
    { "in-place-gcc", NULL, gcc_plain_receive_in_place },
    [PASSING] = { "passing", pass, NULL }
};

const struct receiver *receiver_named(const char *name)
{
    for (size_t place = 0; place < RECEIVERS; place++)
        if (strcmp(receivers[place].name, name) == 0)
            return &receivers[place];
    return NULL;
}
