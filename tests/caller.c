/* The least that a host program in C has on its stack when it makes a call that takes the table and gives it back: three
 * functions that keep nothing for themselves. The table stands in static memory, as the arrays do; but it is passed by
 * value and comes back in the answer, and both have their room in the caller. tests/stack compiles this for the compiler's
 * figures, and nothing runs it. */
#include "sklyapina.h"

static struct sklyapina_table table;
static uint8_t holding[SKLYAPINA_HOLDING_SIZE], output[SKLYAPINA_MOST_BYTES];
static uint16_t lengths[SKLYAPINA_MOST_FRAMES];

uint32_t open_session(uint32_t id, uint32_t kind);
uint32_t close_session(uint32_t id);
uint32_t take_packet(uint32_t transport, const uint8_t *packet, size_t packet_length);

uint32_t open_session(uint32_t id, uint32_t kind)
{
    struct sklyapina_opening opening = sklyapina_open(table, id, kind);

    table = opening.table;
    return opening.code;
}

uint32_t close_session(uint32_t id)
{
    struct sklyapina_closing closing = sklyapina_close(table, id);

    table = closing.table;
    return closing.code;
}

uint32_t take_packet(uint32_t transport, const uint8_t *packet, size_t packet_length)
{
    struct sklyapina_received received =
        sklyapina_receive(table, transport, holding, sizeof holding, packet, packet_length,
                          output, sizeof output, lengths, SKLYAPINA_MOST_FRAMES);

    table = received.table;
    return received.code;
}
