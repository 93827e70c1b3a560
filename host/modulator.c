/* Writes two frames as MPEG packets, then the null packet behind them, hands them out, and reads the frames back (W3);
 * and makes the calls that are refused, by 51, 52 and 53, and looks whether anything has changed. Prints what came out,
 * and ends with status 0 only where each byte is the right one. host/run builds and runs it. */
#include "sklyapina.h"
#include "standard.h"

enum {
    SHORT_FRAME = 8,
    LONG_FRAME = 400,
    FRAMES_LENGTH = SHORT_FRAME + LONG_FRAME,
    FRAMES = 2,
    PACKETS = 4,
    PACKETS_LENGTH = PACKETS * SKLYAPINA_MPEG_LENGTH,
    ROOM = 1000,
    PAINT = 0xA5, /* what stands in an array before a call */
    FILL = 0xFF
};

/* The packets that the two frames make, from count 15 on: header, pointer where there is one, and how many bytes
 * of the frames follow. In the second nothing starts; in the third 41 bytes end the long frame, and the rest is
 * filled up; the fourth is the null packet. */
struct expected {
    uint8_t header[4];
    bool has_pointer;
    uint8_t pointer;
    size_t carried;
};

static const struct expected expected[PACKETS] = {
    { { 0x47, 0x5F, 0xFE, 0x1F }, true, 0, 183 },
    { { 0x47, 0x1F, 0xFE, 0x10 }, false, 0, 184 },
    { { 0x47, 0x5F, 0xFE, 0x11 }, true, 41, 41 },
    { { 0x47, 0x1F, 0xFF, 0x10 }, false, 0, 0 }
};

static const uint16_t lengths[FRAMES] = { SHORT_FRAME, LONG_FRAME };
static uint8_t frames[FRAMES_LENGTH];
static uint8_t packets[PACKETS_LENGTH];
static uint8_t output[ROOM];
static uint16_t found[FRAMES + 1];

static bool same(const uint8_t *one, const uint8_t *other, size_t count)
{
    for (size_t place = 0; place < count; place++)
        if (one[place] != other[place])
            return false;
    return true;
}

static bool all_are(const uint8_t *bytes, size_t count, uint8_t byte)
{
    for (size_t place = 0; place < count; place++)
        if (bytes[place] != byte)
            return false;
    return true;
}

static void paint(void)
{
    for (size_t place = 0; place < ROOM; place++)
        output[place] = PAINT;
    for (size_t place = 0; place < FRAMES + 1; place++)
        found[place] = PAINT;
}

static bool still_painted(void)
{
    return all_are(output, ROOM, PAINT) && found[0] == PAINT && found[1] == PAINT && found[2] == PAINT;
}

/* Bytes 2 and 3 of a frame say its length without 6, and its first byte is not 0xFF. */
static void make_frames(void)
{
    for (size_t place = 0; place < FRAMES_LENGTH; place++)
        frames[place] = (uint8_t)(3 * place);
    frames[2] = 0;
    frames[3] = SHORT_FRAME - 6;
    frames[SHORT_FRAME + 2] = (LONG_FRAME - 6) / 256;
    frames[SHORT_FRAME + 3] = (LONG_FRAME - 6) % 256;
}

/* A packet has the header, the pointer, the frames' bytes from `place` on, and 0xFF behind them. */
static bool is_expected(const uint8_t *packet, const struct expected *like, size_t place)
{
    const uint8_t *body = packet + sizeof like->header + like->has_pointer;
    size_t room = (size_t)(packet + SKLYAPINA_MPEG_LENGTH - body);

    return same(packet, like->header, sizeof like->header) && (!like->has_pointer || body[-1] == like->pointer)
        && same(body, frames + place, like->carried) && all_are(body + like->carried, room - like->carried, FILL);
}

/* Writes all packets; answers how many were right. */
static unsigned write_all(void)
{
    size_t place = 0;
    uint8_t count = 15;
    unsigned right = 0;

    for (size_t packet = 0; packet < PACKETS; packet++) {
        const struct expected *like = &expected[packet];
        bool last = packet == PACKETS - 1;
        struct sklyapina_mpeg_written written;

        paint();
        written = sklyapina_mpeg_write(frames, FRAMES_LENGTH, lengths, FRAMES, place, count, output, ROOM);
        right += written.code == SKLYAPINA_NONE && written.place == place + like->carried && written.null == last
            && written.count == (last ? count : (count + 1) % 16) && is_expected(output, like, place)
            && all_are(output + SKLYAPINA_MPEG_LENGTH, ROOM - SKLYAPINA_MPEG_LENGTH, PAINT);
        for (size_t byte = 0; byte < SKLYAPINA_MPEG_LENGTH; byte++)
            packets[packet * SKLYAPINA_MPEG_LENGTH + byte] = output[byte];
        place = written.place;
        count = written.count;
    }
    return right;
}

static bool null_is_right(void)
{
    struct sklyapina_mpeg_packet null = sklyapina_mpeg_null();

    return is_expected(null.bytes, &expected[PACKETS - 1], FRAMES_LENGTH);
}

/* Hands out of a queue of so many bytes, from this packet on; true where it is that packet, or the null packet where the
 * queue is too short to have one. */
static bool hands_out(size_t packet, size_t queue_length)
{
    const uint8_t *queue = packets + packet * SKLYAPINA_MPEG_LENGTH;
    struct sklyapina_mpeg_packet null = sklyapina_mpeg_null(), next = sklyapina_mpeg_hand_out(queue, queue_length);

    return same(next.bytes, queue_length < SKLYAPINA_MPEG_LENGTH ? null.bytes : queue, SKLYAPINA_MPEG_LENGTH);
}

/* Reads so many of the packets; true where so many frames come back as they were. */
static bool comes_back(size_t packet_count, size_t frame_count)
{
    size_t bytes = frame_count == 0 ? 0 : frame_count == 1 ? SHORT_FRAME : FRAMES_LENGTH;
    struct sklyapina_mpeg_read_back back;

    paint();
    back = sklyapina_mpeg_read(packets, packet_count * SKLYAPINA_MPEG_LENGTH, output, ROOM, found, FRAMES + 1);
    for (size_t frame = 0; frame < FRAMES + 1; frame++)
        if (found[frame] != (frame < frame_count ? lengths[frame] : PAINT))
            return false;
    return back.code == SKLYAPINA_NONE && back.frames == frame_count && back.bytes == bytes
        && same(output, frames, bytes) && all_are(output + bytes, ROOM - bytes, PAINT);
}

/* The number by which a packet is refused at place 3 with count 200, or 0 where anything has changed. */
static unsigned write_refused(size_t frames_length, size_t lengths_length, size_t output_length)
{
    struct sklyapina_mpeg_written written;

    paint();
    written = sklyapina_mpeg_write(frames, frames_length, lengths, lengths_length, 3, 200, output, output_length);
    return written.place == 3 && written.count == 200 && !written.null && still_painted() ? written.code : 0;
}

/* The number by which reading the packets is refused, or 0 where anything has changed. */
static unsigned read_refused(size_t packets_length, size_t output_length, size_t lengths_length)
{
    struct sklyapina_mpeg_read_back back;

    paint();
    back = sklyapina_mpeg_read(packets, packets_length, output, output_length, found, lengths_length);
    return back.frames == 0 && back.bytes == 0 && still_painted() ? back.code : 0;
}

/* Changes a byte, asks, and changes it back. */
static unsigned write_refused_with(size_t place, uint8_t byte)
{
    uint8_t before = frames[place];
    unsigned code;

    frames[place] = byte;
    code = write_refused(FRAMES_LENGTH, FRAMES, ROOM);
    frames[place] = before;
    return code;
}

static unsigned read_refused_with(size_t place, uint8_t byte)
{
    uint8_t before = packets[place];
    unsigned code;

    packets[place] = byte;
    code = read_refused(PACKETS_LENGTH, ROOM, FRAMES + 1);
    packets[place] = before;
    return code;
}

int main(void)
{
    unsigned right, refused;
    bool null, handed_out, back;

    make_frames();
    right = write_all();
    null = null_is_right();
    handed_out = hands_out(0, PACKETS_LENGTH) && hands_out(1, SKLYAPINA_MPEG_LENGTH)
        && hands_out(2, SKLYAPINA_MPEG_LENGTH - 1) && hands_out(0, 0);
    back = comes_back(PACKETS, FRAMES) && comes_back(2, 1) && comes_back(0, 0);
    refused = (write_refused(FRAMES_LENGTH, FRAMES, SKLYAPINA_MPEG_LENGTH - 1) == SKLYAPINA_MPEG_OUTPUT_TOO_SMALL)
        + (read_refused(PACKETS_LENGTH, FRAMES_LENGTH - 1, FRAMES) == SKLYAPINA_MPEG_OUTPUT_TOO_SMALL)
        + (read_refused(PACKETS_LENGTH, FRAMES_LENGTH, FRAMES - 1) == SKLYAPINA_MPEG_OUTPUT_TOO_SMALL)
        /* a byte too few, a length too few (52 comes before 51), a first byte of 0xFF, and another length said */
        + (write_refused(FRAMES_LENGTH - 1, FRAMES, ROOM) == SKLYAPINA_FRAME_NOT_WRITTEN)
        + (write_refused(FRAMES_LENGTH, FRAMES - 1, 0) == SKLYAPINA_FRAME_NOT_WRITTEN)
        + (write_refused_with(SHORT_FRAME, FILL) == SKLYAPINA_FRAME_NOT_WRITTEN)
        + (write_refused_with(3, SHORT_FRAME) == SKLYAPINA_FRAME_NOT_WRITTEN)
        /* no whole packet, a count that does not follow, a pointer beside the frame's end, and a spoilt null packet */
        + (read_refused(PACKETS_LENGTH - 1, ROOM, FRAMES + 1) == SKLYAPINA_NO_RUN_GIVES_IT)
        + (read_refused_with(SKLYAPINA_MPEG_LENGTH + 3, 0x12) == SKLYAPINA_NO_RUN_GIVES_IT)
        + (read_refused_with(2 * SKLYAPINA_MPEG_LENGTH + 4, 42) == SKLYAPINA_NO_RUN_GIVES_IT)
        + (read_refused_with(PACKETS_LENGTH - 1, 0) == SKLYAPINA_NO_RUN_GIVES_IT);
    printf("packets %u, null packet %d, handed out %d, frames back %d, refused %u\n",
           right, null, handed_out, back, refused);
    return right == PACKETS && null && handed_out && back && refused == 11 ? 0 : 1;
}
