/* Makes the calls of the library that the records on standard input ask for (`second calls`), and compares all that
 * each gives back and leaves behind with the second program's answer: every number, the whole table, and every byte of
 * every array that was lent. lent.h says how, what is printed, and what words do. */
#include "sklyapina.h"

#include "lent.h"
#include "painted.h"

static void next_table(struct sklyapina_table *table)
{
    for (struct sklyapina_row *row = table->rows; row < table->rows + SKLYAPINA_ROWS; row++) {
        row->id = (uint32_t)next_number(4);
        row->kind = (uint32_t)next_number(4);
        for (struct sklyapina_flow *flow = row->flows; flow < row->flows + SKLYAPINA_FLOWS; flow++) {
            flow->heard = (uint16_t)next_number(2);
            flow->expected = (uint16_t)next_number(2);
            flow->held = (uint16_t)next_number(2);
        }
    }
}

/* The table that the call in hand is given, the one that has come back and the one that should have. */
static struct sklyapina_table given, back, expected;

enum { CHECK, OPEN, CLOSE, RECEIVE, SEND, SEGMENT_CAUSE, SEGMENT, SEGMENT_COPY, CALLS };

static const struct call calls[CALLS] = {
    {"check", false, 3, {"kind", "transport", "packet length"},
     1, {"code"}, 11, {0, 2, 3, 4, 6, 7, 9, 10, 11, 15, 24}},
    {"open", true, 2, {"id", "kind"}, 1, {"code"}, 6, {0, 13, 21, 22, 23, 24}},
    {"close", true, 1, {"id"}, 2, {"code", "dropped"}, 3, {0, 13, 25}},
    {"receive", true, 5, {"transport", "holding length", "packet length", "output length", "lengths length"},
     5, {"code", "frames", "bytes", "dropped", "gap"}, 15, {0, 1, 2, 3, 4, 5, 6, 7, 9, 10, 11, 12, 13, 15, 24}},
    {"send", false, 9,
     {"session", "flow", "number", "limit", "frames length", "lengths length", "frame", "offset", "output length"},
     5, {"code", "number", "length", "frame", "offset"}, 7, {0, 31, 32, 33, 34, 35, 36}},
    {"segment_cause", false, 4, {"kind", "transport", "packet length", "k"},
     1, {"code"}, 12, {0, 2, 3, 4, 6, 7, 9, 10, 11, 14, 15, 24}},
    {"segment", false, 4, {"kind", "transport", "packet length", "k"}, 2, {"place", "length"}, 0, {0}},
    {"segment_copy", false, 5, {"kind", "transport", "packet length", "k", "output length"}, 1, {"length"}, 0, {0}},
};

static void make_call(unsigned call, const uint64_t *in, uint64_t *out)
{
    switch (call) {
    case CHECK:
        out[0] = PAINTED(sklyapina_check)((uint32_t)in[0], (uint32_t)in[1], lend(PACKET, in[2]), in[2]);
        break;
    case OPEN: {
        struct sklyapina_opening opening = PAINTED(sklyapina_open)(given, (uint32_t)in[0], (uint32_t)in[1]);
        out[0] = opening.code;
        back = opening.table;
        break;
    }
    case CLOSE: {
        struct sklyapina_closing closing = PAINTED(sklyapina_close)(given, (uint32_t)in[0]);
        out[0] = closing.code;
        out[1] = closing.dropped;
        back = closing.table;
        break;
    }
    case RECEIVE: {
        struct sklyapina_received received = PAINTED(sklyapina_receive)(
            given, (uint32_t)in[0], lend(HOLDING, in[1]), in[1], lend(PACKET, in[2]), in[2],
            lend(OUTPUT, in[3]), in[3], lend_numbers(LENGTHS, in[4]), in[4]);
        out[0] = received.code;
        out[1] = received.frames;
        out[2] = received.bytes;
        out[3] = received.dropped;
        out[4] = received.gap;
        back = received.table;
        break;
    }
    case SEND: {
        struct sklyapina_position position = {in[6], in[7]};
        struct sklyapina_sent sent = PAINTED(sklyapina_send)(
            (uint32_t)in[0], in[1], (uint16_t)in[2], in[3], lend(FRAMES, in[4]), in[4],
            lend_numbers(FRAME_LENGTHS, in[5]), in[5], position, lend(OUTPUT, in[8]), in[8]);
        out[0] = sent.code;
        out[1] = sent.number;
        out[2] = sent.length;
        out[3] = sent.position.frame;
        out[4] = sent.position.offset;
        break;
    }
    case SEGMENT_CAUSE:
        out[0] = PAINTED(sklyapina_segment_cause)((uint32_t)in[0], (uint32_t)in[1], lend(PACKET, in[2]), in[2], in[3]);
        break;
    case SEGMENT: {
        struct sklyapina_stretch stretch =
            PAINTED(sklyapina_segment)((uint32_t)in[0], (uint32_t)in[1], lend(PACKET, in[2]), in[2], in[3]);
        out[0] = stretch.place;
        out[1] = stretch.length;
        break;
    }
    case SEGMENT_COPY:
        out[0] = PAINTED(sklyapina_segment_copy)((uint32_t)in[0], (uint32_t)in[1], lend(PACKET, in[2]), in[2], in[3],
                                                 lend(OUTPUT, in[4]), in[4]);
        break;
    }
}

static void print_table(const struct sklyapina_table *table)
{
    for (size_t place = 0; place < SKLYAPINA_ROWS; place++) {
        const struct sklyapina_row *row = &table->rows[place];
        printf("  row %zu: id %lu, kind %lu;", place, (unsigned long)row->id, (unsigned long)row->kind);
        for (size_t flow = 0; flow < SKLYAPINA_FLOWS; flow++) {
            printf(" %u %u %u%s", row->flows[flow].heard, row->flows[flow].expected, row->flows[flow].held,
                   flow + 1 < SKLYAPINA_FLOWS ? "," : "\n");
        }
    }
}

static bool same_row(const struct sklyapina_row *one, const struct sklyapina_row *other)
{
    bool same = one->id == other->id && one->kind == other->kind;
    for (size_t flow = 0; flow < SKLYAPINA_FLOWS; flow++)
        same = same && one->flows[flow].heard == other->flows[flow].heard
            && one->flows[flow].expected == other->flows[flow].expected
            && one->flows[flow].held == other->flows[flow].held;
    return same;
}

static bool compare_tables(const struct sklyapina_table *library, const struct sklyapina_table *second)
{
    for (size_t row = 0; row < SKLYAPINA_ROWS; row++) {
        if (same_row(&library->rows[row], &second->rows[row]))
            continue;
        if (tells("table")) {
            printf("the table that comes back differs in row %zu; library:\n", row);
            print_table(library);
            printf("second program:\n");
            print_table(second);
        }
        return false;
    }
    return true;
}

static void read_given(void)
{
    if (next_number(1) == 1)
        given = back;
    else
        next_table(&given);
}

static void print_given(void)
{
    print_table(&given);
}

static void read_back(void)
{
    expected = given;
    if (next_number(1) == 1)
        next_table(&expected);
}

static bool compare_back(void)
{
    return compare_tables(&back, &expected);
}

int main(int word_count, char **words)
{
    static const struct program program = {
        "calls", CHECK, CALLS, calls, make_call, read_given, print_given, read_back, compare_back,
    };
    return run_records(&program, word_count, words);
}
