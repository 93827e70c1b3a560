/* The data call of document 01, by either transport and with packets without a number (document 02, W1 and W2),
 * in plain C, without proof: memcpy, early exits, the table changed in place. It is written for speed and to be
 * read, as one would write it for the card if nothing had to be proved; bench/run counts what it executes. Once
 * the transport is judged, a packet is handed on from its session ID, so that all else is the same by either. */
#include "plain.h"

#include <stdbool.h>
#include <string.h>

/* The refusal numbers of the data call; 8 is none of them any more (document 02, W2). */
enum {
    ACCEPTED = 0,
    SLICES_TOO_SHORT = 1,
    PACKET_TOO_SHORT = 2,
    PACKET_TOO_LONG = 3,
    CONTROL_MESSAGE = 4,
    SESSION_NOT_OPEN = 5,
    HEADER_NOT_PLAIN = 6,
    FLOW_OUTSIDE = 7,
    NOTHING_CARRIED = 9,
    LENGTHS_DISAGREE = 10,
    CONTENT_SPOILT = 11,
    LATE = 12,
    TABLE_BROKEN = 13,
    NOT_VERSION_3 = 15,
    TRANSPORT_UNKNOWN = 24
};

enum { HEADER_SIZE = 8, LONGEST_PACKET = 4100, LATE_FROM = 32768 };

/* What stands before the session ID over UDP: how many bytes, T in the first of them, the version in the second. */
enum { UDP_LEAD = 4, T = 0x80, VERSION = 0x0F, VERSION_3 = 3 };

/* Byte 4, counted from the session ID: V and H must be clear, X is ignored. */
enum { V_AND_H = 0xB0, S = 0x40, FLOW = 0x07 };

/* Byte 5, and an entry of the segment table. */
enum { COUNT = 0x7F, BEGINS = 0x8000, ENDS = 0x4000, LENGTH = 0x3FFF };

enum { MPEG_SIZE = 188, MPEG_SYNC = 0x47, NULL_PID = 0x1FFF };

/* Where what is delivered goes. */
struct delivery {
    uint8_t *output;
    uint16_t *lengths;
};

/* Both compilers make a load and a swap of these. */
static uint16_t big_endian_16(const uint8_t *bytes)
{
    uint16_t number;

    memcpy(&number, bytes, sizeof number);
    return __builtin_bswap16(number);
}

static uint32_t big_endian_32(const uint8_t *bytes)
{
    uint32_t number;

    memcpy(&number, bytes, sizeof number);
    return __builtin_bswap32(number);
}

static struct plain_counts refused(uint32_t code)
{
    return (struct plain_counts){ .code = code };
}

/* --- the table --- */

/* Rule 13, in two parts. The first asks of each row what its kind asks for: whether a flow may have accepted a number, and how much it
 * may then hold. One that has not is all zeros. */
static bool flow_is_broken(const struct sklyapina_flow *flow, bool may_have_number, uint16_t most)
{
    if (flow->heard == 1)
        return !may_have_number || flow->held > most;
    return (flow->heard | flow->expected | flow->held) != 0;
}

static bool flows_are_broken(const struct sklyapina_flow *flows, bool first_may, bool others_may, uint16_t most)
{
    return flow_is_broken(&flows[0], first_may, most) || flow_is_broken(&flows[1], others_may, most)
        || flow_is_broken(&flows[2], others_may, most) || flow_is_broken(&flows[3], others_may, most);
}

static bool row_is_broken(const struct sklyapina_row *row)
{
    if (row->kind == SKLYAPINA_KIND_PSP)
        return row->id == 0 || flows_are_broken(row->flows, true, true, SKLYAPINA_LONGEST_FRAME);
    if (row->kind == SKLYAPINA_KIND_DMPT)
        return row->id == 0 || flows_are_broken(row->flows, true, false, 0);
    return (row->kind | row->id) != 0 || flows_are_broken(row->flows, false, false, 0);
}

/* The second: a closed row's ID is 0 and an open one's is not, so only open rows are compared by ID. */
static bool some_id_is_open_twice(const struct sklyapina_table *table)
{
    for (size_t row = 1; row < SKLYAPINA_ROWS; row++)
        for (size_t earlier = 0; earlier < row; earlier++)
            if (table->rows[row].id == table->rows[earlier].id && table->rows[row].id != 0)
                return true;
    return false;
}

static bool table_is_broken(const struct sklyapina_table *table)
{
    for (size_t row = 0; row < SKLYAPINA_ROWS; row++)
        if (row_is_broken(&table->rows[row]))
            return true;
    return some_id_is_open_twice(table);
}

/* The row of a session, or SKLYAPINA_ROWS. The ID is not 0 and the table not broken: a closed row does not match. */
static size_t row_of(const struct sklyapina_table *table, uint32_t id)
{
    size_t row = 0;

    while (row < SKLYAPINA_ROWS && table->rows[row].id != id)
        row++;
    return row;
}

/* The gap before a number; from LATE_FROM on, the packet is late. */
static uint32_t gap_before(const struct sklyapina_flow *flow, unsigned number)
{
    return flow->heard ? (uint16_t)(number - flow->expected) : 0;
}

static void expect_next(struct sklyapina_flow *flow, unsigned number)
{
    flow->heard = 1;
    flow->expected = (uint16_t)(number + 1);
}

/* --- PSP --- */

/* Refusals 6 to 11 of a packet for a PSP session, with a number or without. At each joint of two segments the one
 * before must end a frame and the one behind must begin one: every entry but the first has B, every entry but the
 * last has E. */
static inline uint32_t check_psp(const uint8_t *packet, size_t length)
{
    const uint8_t *entries = packet + HEADER_SIZE;
    size_t count = packet[5] & COUNT;
    uint32_t total = (uint32_t)(HEADER_SIZE + 2 * count);
    uint16_t empty = 0;
    uint16_t joints = ENDS;

    if (packet[4] & V_AND_H)
        return HEADER_NOT_PLAIN;
    if ((packet[4] & FLOW) >= SKLYAPINA_FLOWS)
        return FLOW_OUTSIDE;
    if (count == 0)
        return NOTHING_CARRIED;
    if (total > length)
        return LENGTHS_DISAGREE;
    for (size_t segment = 0; segment < count; segment++) {
        uint16_t part = big_endian_16(entries + 2 * segment) & LENGTH;

        total += part;
        empty |= part == 0;
    }
    if (total != length)
        return LENGTHS_DISAGREE;
    for (size_t segment = 1; segment < count; segment++)
        joints &= big_endian_16(entries + 2 * segment) >> 1 & big_endian_16(entries + 2 * segment - 2);
    return empty || joints != ENDS ? CONTENT_SPOILT : ACCEPTED;
}

/* A packet that was accepted, while its segments are joined. */
struct joining {
    const uint8_t *entry; /* of the next segment */
    const uint8_t *past;  /* the last entry: where the bodies begin */
    const uint8_t *body;  /* of the next segment */
    uint8_t *place;
    size_t held;
};

static void deliver(struct plain_counts *counts, struct delivery to, const uint8_t *bytes, size_t length)
{
    memcpy(to.output + counts->bytes, bytes, length);
    counts->bytes += (uint32_t)length;
}

/* A first segment without B: the rest of the frame that is held, or a part of it. */
static void join_rest(struct joining *joining, struct plain_counts *counts, struct delivery to)
{
    unsigned entry = big_endian_16(joining->entry);
    size_t length = entry & LENGTH;
    size_t joined = joining->held + length;

    if (joining->held == 0 || joined > SKLYAPINA_LONGEST_FRAME) {
        counts->dropped += (uint32_t)joined;
        joining->held = 0;
    } else if (entry & ENDS) {
        deliver(counts, to, joining->place, joining->held);
        deliver(counts, to, joining->body, length);
        to.lengths[counts->frames++] = (uint16_t)joined;
        joining->held = 0;
    } else {
        memcpy(joining->place + joining->held, joining->body, length);
        joining->held = joined;
    }
    joining->entry += 2;
    joining->body += length;
}

/* Whole frames: they lie back to back in the packet as they must in the output, and are copied together. */
static inline void join_whole(struct joining *joining, struct plain_counts *counts, struct delivery to)
{
    const uint8_t *entry = joining->entry;
    const uint8_t *first = joining->body;
    const uint8_t *body = first;
    uint16_t *next_length = to.lengths + counts->frames;

    for (; entry < joining->past && big_endian_16(entry) & ENDS; entry += 2) {
        uint16_t length = big_endian_16(entry) & LENGTH;

        if (length <= SKLYAPINA_LONGEST_FRAME) {
            *next_length++ = length;
        } else {
            deliver(counts, to, first, (size_t)(body - first));
            first = body + length;
            counts->dropped += length;
        }
        body += length;
    }
    deliver(counts, to, first, (size_t)(body - first));
    counts->frames = (uint32_t)(next_length - to.lengths);
    joining->entry = entry;
    joining->body = body;
}

/* A last segment without E: the start of a frame. */
static void join_start(struct joining *joining, struct plain_counts *counts)
{
    size_t length = big_endian_16(joining->entry) & LENGTH;

    if (length <= SKLYAPINA_LONGEST_FRAME) {
        memcpy(joining->place, joining->body, length);
        joining->held = length;
    } else {
        counts->dropped += (uint32_t)length;
    }
}

/* The join rule of document 01, for a packet with a number that was accepted. Only its first segment may lack B and
 * only its last may lack E. */
static struct plain_counts join(struct sklyapina_flow *flow, uint8_t *place, const uint8_t *packet,
                                uint32_t gap, struct delivery to)
{
    struct plain_counts counts = { .gap = gap };
    const uint8_t *entries = packet + HEADER_SIZE;
    const uint8_t *bodies = entries + 2 * (packet[5] & COUNT);
    struct joining joining = { entries, bodies, bodies, place, flow->held };
    bool begins = big_endian_16(entries) & BEGINS;

    if (gap > 0 || begins) {
        counts.dropped = (uint32_t)joining.held;
        joining.held = 0;
    }
    if (!begins)
        join_rest(&joining, &counts, to);
    join_whole(&joining, &counts, to);
    if (joining.entry < joining.past)
        join_start(&joining, &counts);
    flow->held = (uint16_t)joining.held;
    return counts;
}

/* A packet with a number for a PSP session. */
static struct plain_counts receive_psp(struct sklyapina_flow *flows, uint8_t *places, const uint8_t *packet,
                                       size_t length, struct delivery to)
{
    uint32_t code = check_psp(packet, length);
    size_t number_of_flow = packet[4] & FLOW;
    unsigned number = big_endian_16(packet + 6);
    struct sklyapina_flow *flow;
    uint32_t gap;

    if (code != ACCEPTED)
        return refused(code);
    flow = &flows[number_of_flow];
    gap = gap_before(flow, number);
    if (gap >= LATE_FROM)
        return refused(LATE);
    expect_next(flow, number);
    return join(flow, places + number_of_flow * SKLYAPINA_LONGEST_FRAME, packet, gap, to);
}

/* --- PSP without a number --- */

static void drop_next(struct joining *joining, struct plain_counts *counts)
{
    size_t length = big_endian_16(joining->entry) & LENGTH;

    counts->dropped += (uint32_t)length;
    joining->entry += 2;
    joining->body += length;
}

/* The rule of document 02, W2, for a packet without a number that was accepted: held bytes are dropped first, and a
 * first segment without B and a last one without E are no whole frames, and are dropped. Nothing is held, so nothing
 * is written to the place. Whether the flow has heard a number and which it expects stays as it was. */
static struct plain_counts take_whole(struct sklyapina_flow *flow, const uint8_t *packet, struct delivery to)
{
    struct plain_counts counts = { .dropped = flow->held };
    const uint8_t *entries = packet + HEADER_SIZE;
    const uint8_t *bodies = entries + 2 * (packet[5] & COUNT);
    struct joining joining = { entries, bodies, bodies, NULL, 0 };

    flow->held = 0;
    if (!(big_endian_16(entries) & BEGINS))
        drop_next(&joining, &counts);
    join_whole(&joining, &counts, to);
    if (joining.entry < joining.past)
        drop_next(&joining, &counts);
    return counts;
}

/* A packet without a number for a PSP session. It stays a function of its own, and check_psp and join_whole are asked
 * to be inline, in it and in receive_psp: as a part of receive_psp it took registers from the packets with a number,
 * which then cost up to 10 instructions more. */
__attribute__((noinline))
static struct plain_counts receive_unnumbered(struct sklyapina_flow *flows, const uint8_t *packet, size_t length,
                                              struct delivery to)
{
    uint32_t code = check_psp(packet, length);

    return code == ACCEPTED ? take_whole(&flows[packet[4] & FLOW], packet, to) : refused(code);
}

/* --- D-MPT --- */

/* Refusals 6 to 11 of a packet for a D-MPT session. */
static uint32_t check_dmpt(const uint8_t *packet, size_t length)
{
    if (packet[4] & V_AND_H)
        return HEADER_NOT_PLAIN;
    if (packet[4] & FLOW)
        return FLOW_OUTSIDE;
    if (length == HEADER_SIZE)
        return NOTHING_CARRIED;
    if ((length - HEADER_SIZE) % MPEG_SIZE != 0)
        return LENGTHS_DISAGREE;
    for (size_t place = HEADER_SIZE; place < length; place += MPEG_SIZE)
        if (packet[place] != MPEG_SYNC)
            return CONTENT_SPOILT;
    return ACCEPTED;
}

static struct plain_counts receive_dmpt(struct sklyapina_flow *flow, const uint8_t *packet, size_t length,
                                        struct delivery to)
{
    uint32_t code = check_dmpt(packet, length);
    struct plain_counts counts = { .code = ACCEPTED };

    if (code != ACCEPTED)
        return refused(code);
    if (packet[4] & S) {
        unsigned number = big_endian_16(packet + 6);

        counts.gap = gap_before(flow, number);
        if (counts.gap >= LATE_FROM)
            return refused(LATE);
        expect_next(flow, number);
    }
    for (const uint8_t *mpeg = packet + HEADER_SIZE; mpeg < packet + length; mpeg += MPEG_SIZE) {
        if ((big_endian_16(mpeg + 1) & NULL_PID) == NULL_PID) {
            counts.dropped += MPEG_SIZE;
        } else {
            memcpy(to.output + counts.bytes, mpeg, MPEG_SIZE);
            to.lengths[counts.frames++] = MPEG_SIZE;
            counts.bytes += MPEG_SIZE;
        }
    }
    return counts;
}

/* --- the data call --- */

/* Refusals 2 and 3 over IP. */
static uint32_t check_ip(size_t length)
{
    if (length < HEADER_SIZE)
        return PACKET_TOO_SHORT;
    return length > LONGEST_PACKET ? PACKET_TOO_LONG : ACCEPTED;
}

/* Refusals 2, 3 and 15 over UDP. Each transport has its own limits as constants: with a sum of lead and limit both
 * compilers took more, over IP too. */
static uint32_t check_udp(const uint8_t *packet, size_t length)
{
    if (length < UDP_LEAD + HEADER_SIZE)
        return PACKET_TOO_SHORT;
    if (length > UDP_LEAD + LONGEST_PACKET)
        return PACKET_TOO_LONG;
    return packet[0] & T || (packet[1] & VERSION) != VERSION_3 ? NOT_VERSION_3 : ACCEPTED;
}

struct plain_counts plain_receive_in_place(struct sklyapina_table *table, uint32_t transport,
                                           uint8_t *holding, size_t holding_length,
                                           const uint8_t *packet, size_t packet_length,
                                           uint8_t *output, size_t output_length,
                                           uint16_t *lengths, size_t lengths_length)
{
    struct delivery to = { output, lengths };
    uint32_t code = TRANSPORT_UNKNOWN, session;
    size_t row, lead = 0;

    if (holding_length < SKLYAPINA_HOLDING_SIZE || output_length < SKLYAPINA_MOST_BYTES
        || lengths_length < SKLYAPINA_MOST_FRAMES)
        return refused(SLICES_TOO_SHORT);
    if (table_is_broken(table))
        return refused(TABLE_BROKEN);
    if (transport == SKLYAPINA_IP) {
        code = check_ip(packet_length);
    } else if (transport == SKLYAPINA_UDP) {
        code = check_udp(packet, packet_length);
        lead = UDP_LEAD;
    }
    if (code != ACCEPTED)
        return refused(code);
    packet += lead;
    packet_length -= lead;
    session = big_endian_32(packet);
    if (session == 0)
        return refused(CONTROL_MESSAGE);
    row = row_of(table, session);
    if (row == SKLYAPINA_ROWS)
        return refused(SESSION_NOT_OPEN);
    if (table->rows[row].kind == SKLYAPINA_KIND_DMPT)
        return receive_dmpt(&table->rows[row].flows[0], packet, packet_length, to);
    if (!(packet[4] & S))
        return receive_unnumbered(table->rows[row].flows, packet, packet_length, to);
    return receive_psp(table->rows[row].flows, holding + row * SKLYAPINA_FLOWS * SKLYAPINA_LONGEST_FRAME, packet,
                       packet_length, to);
}

struct sklyapina_received plain_receive(struct sklyapina_table table, uint32_t transport,
                                        uint8_t *holding, size_t holding_length,
                                        const uint8_t *packet, size_t packet_length,
                                        uint8_t *output, size_t output_length,
                                        uint16_t *lengths, size_t lengths_length)
{
    struct plain_counts counts = plain_receive_in_place(&table, transport, holding, holding_length,
                                                        packet, packet_length, output, output_length,
                                                        lengths, lengths_length);

    return (struct sklyapina_received){
        .code = counts.code,
        .frames = counts.frames,
        .bytes = counts.bytes,
        .dropped = counts.dropped,
        .gap = counts.gap,
        .table = table
    };
}
