/* The writer of MPEG packets (W3) in plain C, without proof: what the proved writer is measured against. */
#ifndef PLAIN_MPEG_H
#define PLAIN_MPEG_H

#include "sklyapina.h"

/* The prototype is that of sklyapina_mpeg_write, so that either can be put in the other's place. */
struct sklyapina_mpeg_written plain_mpeg_write(const uint8_t *frames, size_t frames_length,
                                               const uint16_t *lengths, size_t lengths_length,
                                               size_t place, uint8_t count,
                                               uint8_t *output, size_t output_length);

#endif
