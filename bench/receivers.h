/* The receivers that can be measured, by name. */
#ifndef RECEIVERS_H
#define RECEIVERS_H

#include "plain.h"

/* The prototype of sklyapina_receive. */
typedef struct sklyapina_received receive_by_value(struct sklyapina_table table, uint32_t transport,
                                                   uint8_t *holding, size_t holding_length,
                                                   const uint8_t *packet, size_t packet_length,
                                                   uint8_t *output, size_t output_length,
                                                   uint16_t *lengths, size_t lengths_length);

/* That of plain_receive_in_place. */
typedef struct plain_counts receive_in_place(struct sklyapina_table *table, uint32_t transport,
                                             uint8_t *holding, size_t holding_length,
                                             const uint8_t *packet, size_t packet_length,
                                             uint8_t *output, size_t output_length,
                                             uint16_t *lengths, size_t lengths_length);

/* A receiver has one of the two forms; the other is NULL. */
struct receiver {
    const char *name;
    receive_by_value *by_value;
    receive_in_place *in_place;
};

enum { RECEIVERS = 6, PROVED = 0, PASSING = 5 };

extern const struct receiver receivers[RECEIVERS];

/* The receiver of that name, or NULL. */
const struct receiver *receiver_named(const char *name);

#endif
