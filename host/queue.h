/* A channel's queue: whole frames that wait for the modulator, first in, first out, in fixed memory.
 *
 * It has room for what two packets can complete at most: one packet's frames wait while the other's are taken.
 * A frame is queued whole or not at all; where there is no room, the frame that came last is the one that is
 * lost, since the others were there first and a modem can make no use of half a frame. */
#ifndef QUEUE_H
#define QUEUE_H

#include "sklyapina.h"

#include <stdbool.h>

enum {
    QUEUE_BYTES = 2 * SKLYAPINA_MOST_BYTES,
    QUEUE_FRAMES = 2 * SKLYAPINA_MOST_FRAMES
};

/* Two rings, of the frames' bytes back to back and of their lengths. All zero is the empty queue. */
struct queue {
    uint8_t bytes[QUEUE_BYTES];
    size_t first_byte;
    size_t bytes_waiting;
    uint16_t lengths[QUEUE_FRAMES];
    size_t first_frame;
    size_t frames_waiting;
    /* What happened so far. */
    size_t most_waiting;
    unsigned long taken;
    unsigned long lost;
};

/* Queues a copy of a frame of 1 to 2,048 bytes, or counts it as lost. */
void queue_put(struct queue *queue, const uint8_t *frame, uint16_t length);

/* Takes the frame that has waited longest: copies it, and gives its length, or 0 where none waits. The frame
 * given has room for SKLYAPINA_LONGEST_FRAME bytes. */
uint16_t queue_take(struct queue *queue, uint8_t *frame);

#endif
