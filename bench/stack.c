/* Measures how much of the stack a receiver writes below its return address, over all packets of the streams and over
 * calls of all sorts; the most counts. Its calls are made on a painted stack: tests/painted.h says what counts. What the
 * library's other calls need, and what the compiler says of all of them, tests/stack has. */
#include "calls.h"
#include "measure.h"
#include "receivers.h"

#include "../tests/painted.h"

#include <stdio.h>

enum { SPOILT_CALLS = 20000 };

static uint8_t holding[SKLYAPINA_HOLDING_SIZE];
static uint8_t output[SKLYAPINA_MOST_BYTES];
static uint16_t lengths[SKLYAPINA_MOST_FRAMES];
static struct calls calls;

/* Makes a call; answers the table that it gave back, and makes `worst` the call's depth where that is more. */
static struct sklyapina_table make_call(receive_by_value *receiver, const struct call *call, size_t *worst)
{
    struct sklyapina_received received = PAINTED(receiver)(
        call->table, call->packet.transport, holding, call->holding_length, call->packet.bytes, call->packet.length,
        output, call->output_length, lengths, call->lengths_length);

    *worst = painted_depth > *worst ? painted_depth : *worst;
    return received.table;
}

static void over_stream(receive_by_value *receiver, const struct stream *stream, size_t *worst)
{
    struct sklyapina_table table = stream->opened;

    for (size_t place = 0; place < stream->count; place++) {
        struct call call = plain_call(&table, stream->packets[place]);

        table = make_call(receiver, &call, worst);
    }
}

/* False where the library opened no session. */
static bool over_calls(receive_by_value *receiver, size_t *worst)
{
    if (!calls_begin(&calls))
        return false;
    for (size_t place = 0; place < SPOILT_CALLS; place++) {
        struct call call = calls_next(&calls);
        struct sklyapina_table table = make_call(receiver, &call, worst);

        calls_answered(&calls, &table);
    }
    return true;
}

/* False where something could not be made. */
static bool over_everything(receive_by_value *receiver, size_t *worst)
{
    for (const char *const *name = stream_names; *name; name++) {
        const struct stream *stream = stream_make(*name);

        if (!stream)
            return false;
        over_stream(receiver, stream, worst);
    }
    return over_calls(receiver, worst);
}

int stack(void)
{
    for (size_t place = 0; place < PASSING; place++) {
        size_t worst = 0;

        if (!receivers[place].by_value)
            continue;
        if (!over_everything(receivers[place].by_value, &worst) || worst == PAINTED_SIZE)
            return 2;
        printf("%s %zu\n", receivers[place].name, worst);
    }
    return 0;
}
