/* The data call of document 01, by either transport and with packets without a number (document 02, W1 and W2), in
 * plain C, without proof: what the proved receiver is measured against. */
#ifndef PLAIN_H
#define PLAIN_H

#include "sklyapina.h"

/* What a call answers, without the table. */
struct plain_counts {
    uint32_t code;
    uint32_t frames;
    uint32_t bytes;
    uint32_t dropped;
    uint32_t gap;
};

/* The receiver as one would write it in C: the table is changed where it stands. */
struct plain_counts plain_receive_in_place(struct sklyapina_table *table, uint32_t transport,
                                           uint8_t *holding, size_t holding_length,
                                           const uint8_t *packet, size_t packet_length,
                                           uint8_t *output, size_t output_length,
                                           uint16_t *lengths, size_t lengths_length);

/* The same with the prototype of sklyapina_receive, so that either can be put in the other's place. */
struct sklyapina_received plain_receive(struct sklyapina_table table, uint32_t transport,
                                        uint8_t *holding, size_t holding_length,
                                        const uint8_t *packet, size_t packet_length,
                                        uint8_t *output, size_t output_length,
                                        uint16_t *lengths, size_t lengths_length);

#endif
