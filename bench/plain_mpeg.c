/* The writer of MPEG packets (W3) in plain C, without proof: every frame is judged on every call, and then the
 * packet is one memcpy and, where the frames do not fill it, one memset. It is written for speed and to be read, as one
 * would write it for the card if nothing had to be proved; bench/run counts what it executes. */
#include "plain_mpeg.h"

#include <stdbool.h>
#include <string.h>

/* The refusal numbers of the writer. */
enum { WRITTEN = 0, OUTPUT_TOO_SMALL = 51, FRAME_NOT_WRITTEN = 52 };

enum {
    HEAD = 4,
    PAYLOAD = SKLYAPINA_MPEG_LENGTH - HEAD,
    POINTED = PAYLOAD - 1, /* what is left behind the pointer */
    BESIDE_FIELD = 6,      /* a frame is so much longer than it says in its bytes 2 and 3 */
    FILL = 0xFF
};

/* Both compilers make a load and a swap of this. */
static uint16_t big_endian_16(const uint8_t *bytes)
{
    uint16_t number;

    memcpy(&number, bytes, sizeof number);
    return __builtin_bswap16(number);
}

/* Both compilers make one store of this. */
static void put_header(uint8_t *output, bool starts, uint8_t count)
{
    const uint8_t header[HEAD] = { 0x47, starts ? 0x5F : 0x1F, 0xFE, (uint8_t)(0x10 | (count & 0x0F)) };

    memcpy(output, header, sizeof header);
}

/* What stands behind the pointer. Mostly the packet is full, and then the compilers know how much they copy. */
static size_t put_pointed(uint8_t *output, const uint8_t *waiting, size_t count)
{
    if (count >= POINTED) {
        memcpy(output, waiting, POINTED);
        return POINTED;
    }
    memcpy(output, waiting, count);
    memset(output + count, FILL, POINTED - count);
    return count;
}

static struct sklyapina_mpeg_written unchanged(uint32_t code, size_t place, uint8_t count, bool null)
{
    return (struct sklyapina_mpeg_written){ .code = code, .place = place, .count = count, .null = null };
}

struct sklyapina_mpeg_written plain_mpeg_write(const uint8_t *frames, size_t frames_length,
                                               const uint16_t *lengths, size_t lengths_length,
                                               size_t place, uint8_t count,
                                               uint8_t *output, size_t output_length)
{
    size_t start = 0;
    size_t end_of_begun = place;
    size_t left;
    size_t carried;

    /* The last frame that starts before `place` has begun, unless it ends there or before. */
    for (size_t frame = 0; frame < lengths_length; frame++) {
        size_t size = lengths[frame];

        if (size < BESIDE_FIELD || size > SKLYAPINA_LONGEST_FRAME || size > frames_length - start
            || big_endian_16(frames + start + 2) != size - BESIDE_FIELD || frames[start] == FILL)
            return unchanged(FRAME_NOT_WRITTEN, place, count, false);
        end_of_begun = start < place ? start + size : end_of_begun;
        start += size;
    }
    if (start != frames_length)
        return unchanged(FRAME_NOT_WRITTEN, place, count, false);
    if (output_length < SKLYAPINA_MPEG_LENGTH)
        return unchanged(OUTPUT_TOO_SMALL, place, count, false);
    if (place >= frames_length) {
        const uint8_t header[HEAD] = { 0x47, 0x1F, 0xFF, 0x10 };

        memcpy(output, header, sizeof header);
        memset(output + HEAD, FILL, PAYLOAD);
        return unchanged(WRITTEN, place, count, true);
    }
    left = end_of_begun > place ? end_of_begun - place : 0;
    if (left >= PAYLOAD) {
        put_header(output, false, count);
        memcpy(output + HEAD, frames + place, PAYLOAD);
        carried = PAYLOAD;
    } else {
        put_header(output, true, count);
        output[HEAD] = (uint8_t)left;
        carried = put_pointed(output + HEAD + 1, frames + place, frames_length - place);
    }
    return (struct sklyapina_mpeg_written){ .place = place + carried, .count = (count + 1) & 0x0F };
}
