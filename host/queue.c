/* A channel's queue: see queue.h for what it is and why. */
#include "queue.h"

static bool has_room(const struct queue *queue, uint16_t length)
{
    return queue->frames_waiting < QUEUE_FRAMES && length <= QUEUE_BYTES - queue->bytes_waiting;
}

void queue_put(struct queue *queue, const uint8_t *frame, uint16_t length)
{
    size_t end = queue->first_byte + queue->bytes_waiting;

    if (!has_room(queue, length)) {
        queue->lost++;
        return;
    }
    for (size_t place = 0; place < length; place++)
        queue->bytes[(end + place) % QUEUE_BYTES] = frame[place];
    queue->lengths[(queue->first_frame + queue->frames_waiting) % QUEUE_FRAMES] = length;
    queue->bytes_waiting += length;
    queue->frames_waiting++;
    if (queue->frames_waiting > queue->most_waiting)
        queue->most_waiting = queue->frames_waiting;
}

uint16_t queue_take(struct queue *queue, uint8_t *frame)
{
    uint16_t length;

    if (queue->frames_waiting == 0)
        return 0;
    length = queue->lengths[queue->first_frame];
    for (size_t place = 0; place < length; place++)
        frame[place] = queue->bytes[(queue->first_byte + place) % QUEUE_BYTES];
    queue->first_byte = (queue->first_byte + length) % QUEUE_BYTES;
    queue->first_frame = (queue->first_frame + 1) % QUEUE_FRAMES;
    queue->bytes_waiting -= length;
    queue->frames_waiting--;
    queue->taken++;
    return length;
}
