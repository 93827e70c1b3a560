/* Has the library write frames into MPEG packets, read them back and hand packets out, as the records on standard input
 * ask for (`second mpeg`), and compares all that each call gives back and leaves behind with the second program's answer:
 * every number, and every byte of every array that was lent. lent.h says how, what is printed, and what words do. The
 * array called packet has the packets that are read, and those of a queue. */
#include "sklyapina.h"

#include "lent.h"
#include "painted.h"

enum { WRITE, READ, NULL_PACKET, HAND_OUT, CALLS };
/* The number of the first of them in the records. */
enum { FIRST_CALL = 8 };

static const struct call calls[CALLS] = {
    {"mpeg_write", false, 5, {"frames length", "lengths length", "place", "count", "output length"},
     4, {"code", "place", "count", "null"}, 3, {0, 51, 52}},
    {"mpeg_read", false, 3, {"packets length", "output length", "lengths length"},
     3, {"code", "frames", "bytes"}, 3, {0, 51, 53}},
    {"mpeg_null", false, 1, {"output length"}, 1, {"length"}, 0, {0}},
    {"mpeg_hand_out", false, 2, {"queue length", "output length"}, 1, {"length"}, 0, {0}},
};

/* Puts a packet that a call gives back into the output, to be compared there. Answers how long it is. */
static uint64_t show_packet(struct sklyapina_mpeg_packet packet, uint64_t room)
{
    uint8_t *output = lend(OUTPUT, room);
    for (size_t place = 0; place < room && place < sizeof packet.bytes; place++)
        output[place] = packet.bytes[place];
    return sizeof packet.bytes;
}

static void make_call(unsigned call, const uint64_t *in, uint64_t *out)
{
    switch (call) {
    case WRITE: {
        struct sklyapina_mpeg_written written = PAINTED(sklyapina_mpeg_write)(
            lend(FRAMES, in[0]), in[0], lend_numbers(FRAME_LENGTHS, in[1]), in[1], in[2], (uint8_t)in[3],
            lend(OUTPUT, in[4]), in[4]);
        out[0] = written.code;
        out[1] = written.place;
        out[2] = written.count;
        out[3] = written.null;
        break;
    }
    case READ: {
        struct sklyapina_mpeg_read_back read_back = PAINTED(sklyapina_mpeg_read)(
            lend(PACKET, in[0]), in[0], lend(OUTPUT, in[1]), in[1], lend_numbers(LENGTHS, in[2]), in[2]);
        out[0] = read_back.code;
        out[1] = read_back.frames;
        out[2] = read_back.bytes;
        break;
    }
    case NULL_PACKET:
        out[0] = show_packet(PAINTED(sklyapina_mpeg_null)(), in[0]);
        break;
    case HAND_OUT:
        out[0] = show_packet(PAINTED(sklyapina_mpeg_hand_out)(lend(PACKET, in[0]), in[0]), in[1]);
        break;
    }
}

int main(int word_count, char **words)
{
    static const struct program program = {
        .name = "mpeg", .first_call = FIRST_CALL, .call_count = CALLS, .calls = calls, .make_call = make_call,
    };
    return run_records(&program, word_count, words);
}
