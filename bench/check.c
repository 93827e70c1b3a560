/* Runs the receivers side by side: each is given the same calls, on slices of its own, and after every call
 * the answers, the tables and every byte of the slices must be the same. First the streams, over IP, over UDP
 * and by both, whose packets must all be accepted; then calls of all sorts, among which every number that the data
 * call gives must come up, by each transport that can give it, and no other. */
#include "calls.h"
#include "measure.h"
#include "receivers.h"

#include <stdio.h>
#include <string.h>

enum { SPOILT_CALLS = 40000, CODES = SKLYAPINA_KIND_UNKNOWN + 1 };

/* What one receiver is lent. */
struct slices {
    uint8_t holding[SKLYAPINA_HOLDING_SIZE];
    uint8_t output[SKLYAPINA_MOST_BYTES];
    uint16_t lengths[SKLYAPINA_MOST_FRAMES];
};

static struct slices slices[PASSING];
static struct calls calls;

static struct sklyapina_received ask(const struct receiver *receiver, const struct call *call,
                                     struct slices *lent)
{
    struct sklyapina_received received = { .table = call->table };
    struct plain_counts counts;

    if (receiver->by_value)
        return receiver->by_value(call->table, call->packet.transport, lent->holding, call->holding_length,
                                  call->packet.bytes, call->packet.length, lent->output, call->output_length,
                                  lent->lengths, call->lengths_length);
    counts = receiver->in_place(&received.table, call->packet.transport, lent->holding, call->holding_length,
                                call->packet.bytes, call->packet.length, lent->output, call->output_length,
                                lent->lengths, call->lengths_length);
    received.code = counts.code;
    received.frames = counts.frames;
    received.bytes = counts.bytes;
    received.dropped = counts.dropped;
    received.gap = counts.gap;
    return received;
}

/* Each slice begins with the same bytes for all receivers, none of them 0: a byte that is written shows. */
static void paint(void)
{
    for (size_t receiver = 0; receiver < PASSING; receiver++)
        memset(&slices[receiver], 0xA5, sizeof slices[receiver]);
}

/* Asks all receivers. True where they agree; then *answer is what they say. No member of these structures
 * is followed by padding, so that they can be compared as bytes. */
static bool all_agree(const struct call *call, struct sklyapina_received *answer)
{
    *answer = ask(&receivers[PROVED], call, &slices[PROVED]);
    for (size_t receiver = 0; receiver < PASSING; receiver++) {
        struct sklyapina_received other;

        if (receiver == PROVED)
            continue;
        other = ask(&receivers[receiver], call, &slices[receiver]);
        if (memcmp(answer, &other, sizeof other) != 0
            || memcmp(&slices[PROVED], &slices[receiver], sizeof slices[receiver]) != 0) {
            printf("check: %s: code %u, %u frames, %u bytes, %u dropped; %s: %u, %u, %u, %u\n",
                   receivers[PROVED].name, answer->code, answer->frames, answer->bytes, answer->dropped,
                   receivers[receiver].name, other.code, other.frames, other.bytes, other.dropped);
            return false;
        }
    }
    return true;
}

static bool check_stream(const char *name)
{
    const struct stream *stream = stream_make(name);
    struct sklyapina_received answer;
    size_t frames = 0;

    if (!stream) {
        printf("check: stream %s cannot be made\n", name);
        return false;
    }
    paint();
    answer.table = stream->opened;
    for (size_t place = 0; place < stream->count; place++) {
        struct call call = plain_call(&answer.table, stream->packets[place]);

        if (!all_agree(&call, &answer) || answer.code != 0) {
            printf("check: stream %s, packet %zu: the receivers differ, or refuse it\n", name, place);
            return false;
        }
        frames += answer.frames;
    }
    printf("check: stream %s: %zu packets, %zu frames: all receivers agree\n", name, stream->count, frames);
    return true;
}

/* How often each number came up over IP, over UDP, and by a transport that there is not. */
struct times {
    size_t over_ip[CODES];
    size_t over_udp[CODES];
    size_t neither[CODES];
};

static void count(struct times *times, uint32_t transport, uint32_t code)
{
    size_t *of_transport = transport == SKLYAPINA_IP ? times->over_ip
        : transport == SKLYAPINA_UDP ? times->over_udp : times->neither;

    of_transport[code]++;
}

/* The numbers of the data call that do not depend on the transport. 8 was that of a PSP packet without a number, which
 * is accepted since document 02, W2. */
static bool is_by_either(size_t code)
{
    return code <= SKLYAPINA_TABLE_BROKEN && code != 8;
}

/* All numbers of the data call. */
static bool is_given(size_t code)
{
    return is_by_either(code) || code == SKLYAPINA_NOT_VERSION_3 || code == SKLYAPINA_KIND_UNKNOWN;
}

/* Prints how often each number came up; true where each did by every transport that it can come up by. */
static bool print_times(const struct times *times)
{
    bool every = times->over_udp[SKLYAPINA_NOT_VERSION_3] > 0 && times->neither[SKLYAPINA_KIND_UNKNOWN] > 0;

    for (size_t code = 0; code < CODES; code++) {
        size_t all = times->over_ip[code] + times->over_udp[code] + times->neither[code];

        if (all > 0)
            printf(" %zu: %zu", code, all);
        every = every && (!is_by_either(code) || (times->over_ip[code] > 0 && times->over_udp[code] > 0));
    }
    printf("\n%s", every ? "" : "check: a number never came up by a transport that gives it\n");
    return every;
}

static bool check_spoilt(void)
{
    static struct times times;

    paint();
    if (!calls_begin(&calls)) {
        printf("check: no session was opened\n");
        return false;
    }
    for (size_t place = 0; place < SPOILT_CALLS; place++) {
        struct call call = calls_next(&calls);
        struct sklyapina_received answer;

        if (!all_agree(&call, &answer) || !is_given(answer.code)) {
            printf("check: call %zu: the receivers differ, or give a number that is not the data call's\n", place);
            return false;
        }
        count(&times, call.packet.transport, answer.code);
        calls_answered(&calls, &answer.table);
    }
    printf("check: %d calls of all sorts: all receivers agree; each number and how often:", SPOILT_CALLS);
    return print_times(&times);
}

int check(void)
{
    for (const char *const *name = stream_names; *name; name++)
        if (!check_stream(*name))
            return 1;
    return check_spoilt() ? 0 : 1;
}
