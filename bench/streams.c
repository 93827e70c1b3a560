/* Makes the streams of packets: six sessions are open, with four flows each (D-MPT has flow 0 alone), and the
 * flows take turns, a packet each: flow 0 of the six sessions, then flow 1 of the six, and so on. Frames are
 * cut by the library's own sender, in series of 127 frames; where a series ends, its last packet is as short
 * as it comes out. Every run makes the same bytes. Over UDP they are those over IP, with 00 03 00 00 before
 * each packet; where both transports take turns, every flow's packets come by either in turn, so that frames
 * are joined across them. */
#include "streams.h"

#include <stdalign.h>
#include <stdbool.h>
#include <string.h>

enum {
    LIMIT = 1496,                       /* on what follows the session ID: packets of at most 1,500 bytes */
    ROOM = 1536,                        /* for one packet: every one begins at a multiple of 64, by either transport */
    LONGEST = 1518,                     /* of the frames */
    SERIES = SKLYAPINA_MOST_FRAMES,
    FIRST_NUMBER = 65436,               /* so that the numbers pass 65,535 in the middle */
    HEADER_SIZE = 8,
    MPEG_SIZE = 188,
    MPEG_PER_PACKET = 7,
    MPEG_PER_NULL = 8                   /* one null packet in eight */
};

/* What a stream is made of: frames of the least to the greatest length; 0 stands for D-MPT. */
struct recipe {
    char letter;
    uint16_t least;
    uint16_t greatest;
    const char *title;
};

static const struct recipe recipes[] = {
    { 'a', 64, LONGEST, "frames of 64 to 1,518 bytes" },
    { 'b', LONGEST, LONGEST, "frames of 1,518 bytes" },
    { 'c', 64, 64, "frames of 64 bytes" },
    { 'd', 9, 9, "127 frames of 9 bytes" },
    { 'e', 0, 0, "D-MPT, 7 MPEG packets" }
};

/* By what a stream's packets come: the word behind its letter, the transport of each flow's first packet and its
 * third and so on, that of the others, and what it is called. */
struct way {
    const char *word;
    uint32_t first;
    uint32_t second;
    const char *title;
};

static const struct way ways[] = {
    { "", SKLYAPINA_IP, SKLYAPINA_IP, NULL },
    { "-udp", SKLYAPINA_UDP, SKLYAPINA_UDP, "the same, over UDP" },
    { "-both", SKLYAPINA_IP, SKLYAPINA_UDP, "the same, by both" }
};

const char *const stream_names[] = {
    "a", "b", "c", "d", "e", "a-udp", "b-udp", "c-udp", "d-udp", "e-udp", "a-both", NULL
};

/* A flow's sender: the frames of its series, and how far they are sent. */
struct sender {
    uint16_t number;
    struct sklyapina_position position;
    size_t frames_length;
    uint16_t lengths[SERIES];
    uint8_t frames[SERIES * LONGEST];
};

static struct stream stream;
static alignas(64) uint8_t packets[MOST_PACKETS][ROOM];
static struct sender senders[SKLYAPINA_ROWS][SKLYAPINA_FLOWS];

/* Marsaglia's generator of 32 bits, by three shifts. */
uint32_t generator_next(struct generator *generator)
{
    uint32_t state = generator->state;

    state ^= state << 13;
    state ^= state >> 17;
    state ^= state << 5;
    generator->state = state;
    return state;
}

uint32_t generator_below(struct generator *generator, uint32_t limit)
{
    return (uint32_t)((uint64_t)generator_next(generator) * limit >> 32);
}

static void fill(struct generator *generator, uint8_t *bytes, size_t length)
{
    for (size_t place = 0; place < length; place += 4) {
        uint32_t four = generator_next(generator);

        memcpy(bytes + place, &four, length - place < 4 ? length - place : 4);
    }
}

static const struct recipe *recipe_of(const char *name)
{
    for (size_t place = 0; place < sizeof recipes / sizeof recipes[0]; place++)
        if (recipes[place].letter == name[0])
            return &recipes[place];
    return NULL;
}

/* For a name whose letter is a stream's. */
static const struct way *way_of(const char *name)
{
    for (size_t place = 0; place < sizeof ways / sizeof ways[0]; place++)
        if (strcmp(ways[place].word, name + 1) == 0)
            return &ways[place];
    return NULL;
}

const char *stream_title(const char *name)
{
    const struct recipe *recipe = recipe_of(name);
    const struct way *way = recipe ? way_of(name) : NULL;

    return way && way->title ? way->title : way ? recipe->title : NULL;
}

static bool open_sessions(uint32_t kind)
{
    memset(&stream.opened, 0, sizeof stream.opened);
    for (uint32_t row = 0; row < SKLYAPINA_ROWS; row++) {
        struct sklyapina_opening opening = sklyapina_open(stream.opened, FIRST_SESSION + row, kind);

        if (opening.code != 0)
            return false;
        stream.opened = opening.table;
    }
    return true;
}

static void begin_series(struct sender *sender, const struct recipe *recipe, struct generator *generator)
{
    sender->position = (struct sklyapina_position){ 0, 0 };
    sender->frames_length = 0;
    for (size_t frame = 0; frame < SERIES; frame++) {
        uint32_t extra = generator_below(generator, (uint32_t)(recipe->greatest - recipe->least + 1));

        sender->lengths[frame] = (uint16_t)(recipe->least + extra);
        sender->frames_length += sender->lengths[frame];
    }
    fill(generator, sender->frames, sender->frames_length);
}

/* Writes a flow's next packet, from its session ID on; answers its length, or 0 where the library refused. */
static size_t next_psp(size_t row, size_t flow, const struct recipe *recipe, struct generator *generator,
                       uint8_t *packet)
{
    struct sender *sender = &senders[row][flow];
    struct sklyapina_sent sent;

    if (sender->position.frame == SERIES)
        begin_series(sender, recipe, generator);
    sent = sklyapina_send(FIRST_SESSION + (uint32_t)row, flow, sender->number, LIMIT, sender->frames,
                          sender->frames_length, sender->lengths, SERIES, sender->position, packet,
                          ROOM - UDP_LEAD);
    sender->number = sent.number;
    sender->position = sent.position;
    return sent.code == 0 ? sent.length : 0;
}

/* Writes packet `turn` of the D-MPT session of a row, from its session ID on: S set, and one MPEG packet in eight
 * has the PID 0x1FFF. The others have PIDs that are not: the bits of that byte above 0x0F are clear. */
static size_t next_dmpt(size_t row, size_t turn, struct generator *generator, uint8_t *packet)
{
    uint32_t session = FIRST_SESSION + (uint32_t)row;
    uint16_t number = (uint16_t)(FIRST_NUMBER + turn);
    uint8_t header[HEADER_SIZE] = {
        (uint8_t)(session >> 24), (uint8_t)(session >> 16), (uint8_t)(session >> 8), (uint8_t)session,
        0x40, 0, (uint8_t)(number >> 8), (uint8_t)number
    };

    memcpy(packet, header, HEADER_SIZE);
    for (size_t place = 0; place < MPEG_PER_PACKET; place++) {
        uint8_t *mpeg = packet + HEADER_SIZE + place * MPEG_SIZE;
        bool is_null = (turn * MPEG_PER_PACKET + place) % MPEG_PER_NULL == MPEG_PER_NULL - 1;

        fill(generator, mpeg, MPEG_SIZE);
        mpeg[0] = 0x47;
        mpeg[1] = is_null ? 0x1F : mpeg[1] & 0x0F;
        mpeg[2] = is_null ? 0xFF : mpeg[2];
    }
    return HEADER_SIZE + MPEG_PER_PACKET * MPEG_SIZE;
}

static void start_senders(void)
{
    for (size_t row = 0; row < SKLYAPINA_ROWS; row++)
        for (size_t flow = 0; flow < SKLYAPINA_FLOWS; flow++) {
            senders[row][flow].number = FIRST_NUMBER;
            senders[row][flow].position.frame = SERIES;
        }
}

static bool is_dmpt(const struct recipe *recipe)
{
    return recipe->greatest == 0;
}

/* Writes the next packet of the stream; false where the library refused. Over UDP the four bytes stand before what
 * it would be over IP. */
static bool add_packet(const struct recipe *recipe, uint32_t transport, size_t turn, size_t row, size_t flow,
                       struct generator *generator)
{
    static const uint8_t version_3[UDP_LEAD] = { 0x00, 0x03, 0x00, 0x00 };
    size_t lead = transport == SKLYAPINA_UDP ? UDP_LEAD : 0;
    uint8_t *packet = packets[stream.count];
    size_t length = is_dmpt(recipe) ? next_dmpt(row, turn, generator, packet + lead)
                                    : next_psp(row, flow, recipe, generator, packet + lead);

    memcpy(packet, version_3, lead);
    stream.packets[stream.count++] = (struct packet){ transport, packet, lead + length };
    stream.bytes += lead + length;
    return length > 0;
}

const struct stream *stream_make(const char *name)
{
    const struct recipe *recipe = recipe_of(name);
    const struct way *way = recipe ? way_of(name) : NULL;
    struct generator generator = { 20240607 };

    if (!way || !open_sessions(is_dmpt(recipe) ? SKLYAPINA_KIND_DMPT : SKLYAPINA_KIND_PSP))
        return NULL;
    start_senders();
    stream.count = 0;
    stream.bytes = 0;
    for (size_t turn = 0; turn < PACKETS_PER_FLOW; turn++)
        for (size_t flow = 0; flow < (is_dmpt(recipe) ? 1 : SKLYAPINA_FLOWS); flow++)
            for (size_t row = 0; row < SKLYAPINA_ROWS; row++)
                if (!add_packet(recipe, turn % 2 == 0 ? way->first : way->second, turn, row, flow, &generator))
                    return NULL;
    return &stream;
}
