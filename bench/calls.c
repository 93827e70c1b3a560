/* Data calls of all sorts. The card has two PSP sessions, two D-MPT sessions and two free rows. A packet is
 * made well formed, for a number that is mostly the one expected, or with S clear, so without a number
 * (document 02, W2), with segments of lengths about those that matter; then often something is spoilt: a byte,
 * the length, the session, the table or the length of a slice. Every other packet comes over UDP, and the
 * transport is spoilt too. From time to time a session is opened anew. */
#include "calls.h"

#include <string.h>

enum { PSP_SESSIONS = 2, DMPT_SESSIONS = 2, HEADER_SIZE = 8, MPEG_SIZE = 188 };

static bool one_in(struct calls *calls, uint32_t limit)
{
    return generator_below(&calls->generator, limit) == 0;
}

static uint32_t below(struct calls *calls, uint32_t limit)
{
    return generator_below(&calls->generator, limit);
}

bool calls_begin(struct calls *calls)
{
    memset(calls, 0, sizeof *calls);
    calls->generator.state = 19690720;
    calls->packet = calls->room + UDP_LEAD;
    for (uint32_t row = 0; row < PSP_SESSIONS + DMPT_SESSIONS; row++) {
        struct sklyapina_opening opening = sklyapina_open(
            calls->table, FIRST_SESSION + row, row < PSP_SESSIONS ? SKLYAPINA_KIND_PSP : SKLYAPINA_KIND_DMPT);

        if (opening.code != 0)
            return false;
        calls->table = opening.table;
    }
    return true;
}

static void put_16(uint8_t *bytes, uint32_t number)
{
    bytes[0] = (uint8_t)(number >> 8);
    bytes[1] = (uint8_t)number;
}

/* The number expected, or one at the edges of being late, or any. */
static uint32_t some_number(struct calls *calls, uint16_t expected)
{
    static const uint16_t distances[] = { 1, 2, 32767, 32768, 65535 };

    if (one_in(calls, 8))
        return expected + (uint32_t)distances[below(calls, 5)];
    return one_in(calls, 32) ? below(calls, 65536) : expected;
}

static void put_header(struct calls *calls, size_t row, size_t flow, bool numbered, uint32_t count)
{
    uint8_t *packet = calls->packet;

    put_16(packet, 0);
    put_16(packet + 2, FIRST_SESSION + (uint32_t)row);
    packet[4] = (uint8_t)((numbered ? 0x40 : 0) | (one_in(calls, 8) ? 0x08 : 0) | flow);
    packet[5] = (uint8_t)((one_in(calls, 8) ? 0x80 : 0) | count);
    put_16(packet + 6, some_number(calls, calls->table.rows[row].flows[flow].expected));
}

/* Lengths that fill a frame to 2,048 or pass it come up, as do short ones, and rarely none. */
static uint32_t some_length(struct calls *calls, uint32_t held)
{
    if (one_in(calls, 64))
        return 0;
    switch (below(calls, 8)) {
    case 0:
        return held < 2046 ? 2047 - held + below(calls, 3) : 1 + below(calls, 3);
    case 1:
        return 2046 + below(calls, 4);
    case 2:
        return 1 + below(calls, 1500);
    default:
        return 1 + below(calls, 40);
    }
}

static size_t make_psp(struct calls *calls)
{
    size_t row = below(calls, PSP_SESSIONS);
    size_t flow = below(calls, SKLYAPINA_FLOWS);
    uint32_t count = one_in(calls, 16) ? 1 + below(calls, 127) : 1 + below(calls, 3);
    size_t length = HEADER_SIZE + 2 * count;

    put_header(calls, row, flow, !one_in(calls, 8), count);
    for (uint32_t segment = 0; segment < count; segment++) {
        uint32_t held = segment == 0 ? calls->table.rows[row].flows[flow].held : 0;
        uint32_t part = count > 3 ? 1 + below(calls, 31) : some_length(calls, held);
        bool begins = segment > 0 || one_in(calls, 2);
        bool ends = segment + 1 < count || one_in(calls, 2);

        put_16(calls->packet + HEADER_SIZE + 2 * segment,
               (begins ? 0x8000u : 0) | (ends ? 0x4000u : 0) | part);
        for (uint32_t place = 0; place < part; place++)
            calls->packet[length++] = (uint8_t)generator_next(&calls->generator);
    }
    return length;
}

static size_t make_dmpt(struct calls *calls)
{
    size_t count = 1 + below(calls, 21);

    put_header(calls, PSP_SESSIONS + below(calls, DMPT_SESSIONS), 0, !one_in(calls, 4), below(calls, 128));
    for (size_t place = HEADER_SIZE; place < HEADER_SIZE + count * MPEG_SIZE; place++)
        calls->packet[place] = (uint8_t)generator_next(&calls->generator);
    for (size_t mpeg = 0; mpeg < count; mpeg++) {
        uint8_t *start = calls->packet + HEADER_SIZE + mpeg * MPEG_SIZE;

        start[0] = 0x47;
        if (one_in(calls, 4))
            put_16(start + 1, 0x1FFF | below(calls, 8) << 13);
    }
    return HEADER_SIZE + count * MPEG_SIZE;
}

/* Spoils a packet in one of several ways; answers its new length. */
static size_t spoil_packet(struct calls *calls, size_t length)
{
    switch (below(calls, 8)) {
    case 0:
        return below(calls, (uint32_t)length);
    case 1:
        return below(calls, HEADER_SIZE + 4);
    case 2:
        return length + 1 + below(calls, 4);
    case 3:
        return 4090 + below(calls, 20);
    case 4:
        put_16(calls->packet + 2, one_in(calls, 2) ? 0 : FIRST_SESSION + below(calls, 8));
        return length;
    case 5:
        calls->packet[4] ^= (uint8_t)(1u << below(calls, 8));
        return length;
    case 6:
        calls->packet[HEADER_SIZE + below(calls, 6)] ^= (uint8_t)(1u << below(calls, 8));
        return length;
    default:
        if (one_in(calls, 2))
            calls->packet[5] &= 0x80;
        else
            calls->packet[HEADER_SIZE + MPEG_SIZE * (size_t)below(calls, 4)] ^= 1;
        return length;
    }
}

/* The packet over UDP: four bytes more before it. Of their bits only T and the version are not ignored, and one
 * packet in 16 has those at random too. */
static struct packet over_udp(struct calls *calls, size_t length)
{
    uint8_t *lead = calls->packet - UDP_LEAD;

    for (size_t place = 0; place < UDP_LEAD; place++)
        lead[place] = (uint8_t)generator_next(&calls->generator);
    if (!one_in(calls, 16)) {
        lead[0] &= 0x7F;
        lead[1] = (uint8_t)((lead[1] & 0xF0) | 3);
    }
    return (struct packet){ SKLYAPINA_UDP, lead, UDP_LEAD + length };
}

/* A transport that there is not, or the one that the packet may not have come by. */
static uint32_t some_transport(struct calls *calls)
{
    static const uint32_t transports[] = { 0, SKLYAPINA_IP, SKLYAPINA_UDP, 3, 4, 0x80000001, UINT32_MAX };

    return transports[below(calls, sizeof transports / sizeof transports[0])];
}

/* Changes one 16-bit number of the table: an ID, a kind or part of a flow. The table may still be sound. */
static void spoil_table(struct calls *calls, struct sklyapina_table *table)
{
    static const uint16_t numbers[] = {
        0, 1, 2, 3, 2047, 2048, 2049, 65535, FIRST_SESSION, FIRST_SESSION + 3
    };
    uint16_t number = numbers[below(calls, sizeof numbers / sizeof numbers[0])];
    size_t place = below(calls, sizeof *table / sizeof number);

    memcpy((uint8_t *)table + place * sizeof number, &number, sizeof number);
}

static void shorten_slices(struct calls *calls, struct call *call)
{
    size_t *const slices[] = { &call->holding_length, &call->output_length, &call->lengths_length };

    *slices[below(calls, 3)] -= 1;
}

struct call plain_call(const struct sklyapina_table *table, struct packet packet)
{
    return (struct call){
        .table = *table,
        .packet = packet,
        .holding_length = SKLYAPINA_HOLDING_SIZE,
        .output_length = SKLYAPINA_MOST_BYTES,
        .lengths_length = SKLYAPINA_MOST_FRAMES
    };
}

/* What closing a session and opening it again leave, for it goes into the row that it left: fresh flows. */
static void reopen(struct sklyapina_row *row)
{
    memset(row->flows, 0, sizeof row->flows);
}

struct call calls_next(struct calls *calls)
{
    size_t length;
    struct packet packet;
    struct call call;

    if (one_in(calls, 64))
        reopen(&calls->table.rows[below(calls, PSP_SESSIONS + DMPT_SESSIONS)]);
    length = one_in(calls, 3) ? make_dmpt(calls) : make_psp(calls);
    if (one_in(calls, 3))
        length = spoil_packet(calls, length);
    packet = one_in(calls, 2) ? over_udp(calls, length) : (struct packet){ SKLYAPINA_IP, calls->packet, length };
    if (one_in(calls, 32))
        packet.transport = some_transport(calls);
    call = plain_call(&calls->table, packet);
    calls->table_is_spoilt = one_in(calls, 4);
    if (calls->table_is_spoilt)
        spoil_table(calls, &call.table);
    if (one_in(calls, 64))
        shorten_slices(calls, &call);
    return call;
}

void calls_answered(struct calls *calls, const struct sklyapina_table *table)
{
    if (!calls->table_is_spoilt)
        calls->table = *table;
}
