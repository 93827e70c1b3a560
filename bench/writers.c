/* Runs frames through writers of MPEG packets (W3): the proved one, and the plain one as clang and as gcc compile
 * it. Counting what that executes is the business of bench/run.
 *
 *   writers STREAM WRITER ROUNDS   makes the calls of a stream that often
 *   writers describe STREAM        prints how many packets a stream has, the bytes of frames in them, and what it is
 *   writers check                  compares the writers with one another
 *
 * Ends with status 1 where the writers differ or a call was refused, 2 where the words are wrong.
 *
 * In a stream frames stand back to back, and each call is given those that wait: from the first that is not sent
 * whole, so many as the stream says. The calls are made before they are counted, so that no writer pays for that. */
#include "plain_mpeg.h"
#include "streams.h"

#include <stdalign.h>
#include <stdbool.h>
#include <stdio.h>
#include <stdlib.h>
#include <string.h>

/* The prototype of sklyapina_mpeg_write. */
typedef struct sklyapina_mpeg_written write_mpeg(const uint8_t *frames, size_t frames_length,
                                                 const uint16_t *lengths, size_t lengths_length,
                                                 size_t place, uint8_t count,
                                                 uint8_t *output, size_t output_length);

/* bench/run compiles plain_mpeg.c twice into the one program; gcc's function is given this name. */
write_mpeg gcc_plain_mpeg_write;

struct writer {
    const char *name;
    write_mpeg *write;
};

/* Does nothing: shows what the calling program costs by itself. */
static struct sklyapina_mpeg_written pass(const uint8_t *frames, size_t frames_length,
                                          const uint16_t *lengths, size_t lengths_length,
                                          size_t place, uint8_t count,
                                          uint8_t *output, size_t output_length)
{
    (void)frames, (void)frames_length, (void)lengths, (void)lengths_length, (void)output, (void)output_length;
    return (struct sklyapina_mpeg_written){ .place = place, .count = count };
}

enum { PROVED = 0, PASSING = 3, WRITERS = 4 };

static const struct writer writers[WRITERS] = {
    [PROVED] = { "proved", sklyapina_mpeg_write },
    { "plain", plain_mpeg_write },
    { "plain-gcc", gcc_plain_mpeg_write },
    [PASSING] = { "passing", pass }
};

/* --- the streams --- */

enum { FRAMES = 1000, LONGEST = 1518, MOST_CALLS = FRAMES * (LONGEST / 184 + 1), FIELD_AT = 2, BESIDE_FIELD = 6 };

/* What a stream is made of: frames of the least to the greatest length, so many of which are given each call. */
struct recipe {
    char letter;
    uint16_t least;
    uint16_t greatest;
    size_t waiting;
    const char *title;
};

static const struct recipe recipes[] = {
    { 'f', 64, LONGEST, 8, "64 to 1,518 bytes, 8 wait" },
    { 'g', LONGEST, LONGEST, 1, "1,518 bytes, 1 waits" }
};

static const char letters[] = "fg";

/* What a writer is given, beside the output. */
struct call {
    const uint8_t *frames;
    size_t frames_length;
    const uint16_t *lengths;
    size_t lengths_length;
    size_t place;
    uint8_t count;
};

static alignas(64) uint8_t frames[FRAMES * LONGEST];
static uint16_t lengths[FRAMES];
static struct call calls[MOST_CALLS];

static const struct recipe *recipe_of(char letter)
{
    for (size_t place = 0; place < sizeof recipes / sizeof recipes[0]; place++)
        if (recipes[place].letter == letter)
            return &recipes[place];
    return NULL;
}

/* A frame that may be written: it says its length, and its first byte is not 0xFF. */
static void make_frame(struct generator *generator, uint8_t *frame, size_t length)
{
    for (size_t place = 0; place < length; place++)
        frame[place] = (uint8_t)generator_next(generator);
    frame[0] &= 0x7F;
    frame[FIELD_AT] = (uint8_t)((length - BESIDE_FIELD) >> 8);
    frame[FIELD_AT + 1] = (uint8_t)(length - BESIDE_FIELD);
}

static size_t total(const uint16_t *some_lengths, size_t count)
{
    size_t sum = 0;

    for (size_t place = 0; place < count; place++)
        sum += some_lengths[place];
    return sum;
}

/* Makes the calls of a stream, over the one made before; answers how many, or 0 where the library refused one. */
static size_t make_calls(const struct recipe *recipe)
{
    struct generator generator = { 20240607 };
    struct call call = { .frames = frames, .lengths = lengths, .lengths_length = recipe->waiting };
    const uint16_t *past = lengths + FRAMES - recipe->waiting;
    size_t made = 0;
    size_t end = 0;

    for (size_t frame = 0; frame < FRAMES; frame++) {
        lengths[frame] =
            (uint16_t)(recipe->least + generator_below(&generator, (uint32_t)(recipe->greatest - recipe->least + 1)));
        make_frame(&generator, frames + end, lengths[frame]);
        end += lengths[frame];
    }
    while (call.lengths <= past) {
        uint8_t output[SKLYAPINA_MPEG_LENGTH];
        struct sklyapina_mpeg_written written;

        call.frames_length = total(call.lengths, call.lengths_length);
        written = sklyapina_mpeg_write(call.frames, call.frames_length, call.lengths, call.lengths_length, call.place,
                                       call.count, output, sizeof output);
        if (written.code != 0 || written.null || made == MOST_CALLS)
            return 0;
        calls[made++] = call;
        call.place = written.place;
        call.count = written.count;
        for (; call.lengths <= past && *call.lengths <= call.place; call.lengths++) {
            call.place -= *call.lengths;
            call.frames += *call.lengths;
        }
    }
    return made;
}

/* --- running them --- */

static alignas(64) uint8_t packet[SKLYAPINA_MPEG_LENGTH];

/* One round; answers how many calls were refused. */
static size_t run(write_mpeg *write, size_t count)
{
    size_t refused = 0;

    for (const struct call *call = calls; call < calls + count; call++)
        refused += write(call->frames, call->frames_length, call->lengths, call->lengths_length, call->place,
                         call->count, packet, sizeof packet).code != 0;
    return refused;
}

/* --- the same answers --- */

enum { SPOILT_CALLS = 40000, ROOM = 200, MOST_WAITING = 8, BEHIND = 64 };

static uint8_t outputs[PASSING][ROOM];

static bool same_answer(struct sklyapina_mpeg_written one, struct sklyapina_mpeg_written other)
{
    return one.code == other.code && one.place == other.place && one.count == other.count && one.null == other.null;
}

/* Asks all writers. True where they agree, in every byte of the output too; then *answer is what they say. */
static bool all_agree(const struct call *call, size_t output_length, struct sklyapina_mpeg_written *answer)
{
    for (size_t writer = 0; writer < PASSING; writer++) {
        struct sklyapina_mpeg_written written =
            writers[writer].write(call->frames, call->frames_length, call->lengths, call->lengths_length, call->place,
                                  call->count, outputs[writer], output_length);

        if (writer == PROVED)
            *answer = written;
        if (!same_answer(*answer, written) || memcmp(outputs[PROVED], outputs[writer], ROOM) != 0) {
            printf("check: %s: code %u, place %zu, count %u, null %d; %s: %u, %zu, %u, %d\n", writers[PROVED].name,
                   answer->code, answer->place, answer->count, answer->null, writers[writer].name, written.code,
                   written.place, written.count, written.null);
            return false;
        }
    }
    return true;
}

static bool check_stream(const struct recipe *recipe)
{
    size_t count = make_calls(recipe);

    for (size_t place = 0; place < count; place++) {
        struct sklyapina_mpeg_written answer;

        if (!all_agree(&calls[place], ROOM, &answer) || answer.code != 0) {
            printf("check: stream %c, call %zu: the writers differ, or refuse it\n", recipe->letter, place);
            return false;
        }
    }
    printf("check: stream %c: %zu MPEG packets: all writers agree\n", recipe->letter, count);
    return count > 0;
}

/* Lengths about those that matter come up: the least, the longest, and those about a packet's payload. */
static uint16_t some_length(struct generator *generator)
{
    static const uint16_t bases[] = { BESIDE_FIELD, BESIDE_FIELD, 180, 360, SKLYAPINA_LONGEST_FRAME - 9 };

    return (uint16_t)(bases[generator_below(generator, 5)] + generator_below(generator, 10));
}

/* Spoils one thing: a length, a byte that says one, a first byte, or how many bytes or lengths there are. */
static void spoil(struct generator *generator, struct call *call, size_t last_start)
{
    uint16_t *last_length = &lengths[call->lengths_length - 1];

    switch (generator_below(generator, 6)) {
    case 0:
        *last_length = (uint16_t)(*last_length + generator_below(generator, 3) - 1);
        break;
    case 1:
        frames[last_start + FIELD_AT + generator_below(generator, 2)] ^= (uint8_t)(1u << generator_below(generator, 8));
        break;
    case 2:
        frames[last_start] = 0xFF;
        break;
    case 3:
        call->frames_length += generator_below(generator, 3) - 1;
        break;
    case 4:
        call->lengths_length--;
        break;
    default:
        /* one that is too long, and says so; or a length that no frame has */
        *last_length = (uint16_t)(SKLYAPINA_LONGEST_FRAME + 1);
        if (generator_below(generator, 2) == 0)
            *last_length = (uint16_t)generator_below(generator, 7);
        call->frames_length = last_start + *last_length;
        make_frame(generator, frames + last_start, *last_length < BESIDE_FIELD ? BESIDE_FIELD : *last_length);
    }
}

/* A call with anything from no frame to eight, from any place, into an output of 180 to 200 bytes. */
static struct call some_call(struct generator *generator)
{
    struct call call = { .frames = frames, .lengths = lengths };
    size_t last_start = 0;

    call.lengths_length = generator_below(generator, MOST_WAITING + 1);
    for (size_t frame = 0; frame < call.lengths_length; frame++) {
        lengths[frame] = some_length(generator);
        lengths[frame] = lengths[frame] > SKLYAPINA_LONGEST_FRAME ? SKLYAPINA_LONGEST_FRAME : lengths[frame];
        last_start = call.frames_length;
        make_frame(generator, frames + last_start, lengths[frame]);
        call.frames_length += lengths[frame];
    }
    call.place = generator_below(generator, (uint32_t)call.frames_length + 2);
    if (generator_below(generator, 4) == 0 && call.frames_length > BEHIND)
        call.place = call.frames_length - generator_below(generator, BEHIND);
    if (generator_below(generator, 64) == 0)
        call.place = SIZE_MAX - generator_below(generator, 4);
    call.count = (uint8_t)generator_next(generator);
    if (call.lengths_length > 0 && generator_below(generator, 4) == 0)
        spoil(generator, &call, last_start);
    return call;
}

static bool check_spoilt(void)
{
    struct generator generator = { 19690720 };
    size_t packets = 0;
    size_t nulls = 0;
    size_t too_small = 0;
    size_t not_written = 0;

    memset(outputs, 0xA5, sizeof outputs);
    for (size_t place = 0; place < SPOILT_CALLS; place++) {
        struct call call = some_call(&generator);
        size_t output_length = generator_below(&generator, 8) == 0 ? 180 + generator_below(&generator, 21) : ROOM;
        struct sklyapina_mpeg_written answer;

        if (!all_agree(&call, output_length, &answer)) {
            printf("check: call %zu: the writers differ\n", place);
            return false;
        }
        packets += answer.code == 0 && !answer.null;
        nulls += answer.null;
        too_small += answer.code == SKLYAPINA_MPEG_OUTPUT_TOO_SMALL;
        not_written += answer.code == SKLYAPINA_FRAME_NOT_WRITTEN;
    }
    printf("check: %d calls of all sorts: all writers agree; packets %zu, null packets %zu, refused 51 %zu, 52 %zu\n",
           SPOILT_CALLS, packets, nulls, too_small, not_written);
    return packets > 0 && nulls > 0 && too_small > 0 && not_written > 0
        && packets + nulls + too_small + not_written == SPOILT_CALLS;
}

static int check(void)
{
    for (const char *letter = letters; *letter != '\0'; letter++)
        if (!check_stream(recipe_of(*letter)))
            return 1;
    return check_spoilt() ? 0 : 1;
}

/* --- the words --- */

static int unusable(const char *why)
{
    fprintf(stderr, "writers: %s\n", why);
    return 2;
}

static const struct recipe *recipe_named(const char *name)
{
    return name[0] != '\0' && name[1] == '\0' ? recipe_of(name[0]) : NULL;
}

/* The bytes of frames are those of all frames but the last ones, which wait when the stream ends. */
static int describe(const char *name)
{
    const struct recipe *recipe = recipe_named(name);
    size_t count = recipe ? make_calls(recipe) : 0;

    if (count == 0)
        return unusable("there is no such stream, or it cannot be made");
    printf("%zu %zu %s\n", count, total(lengths, FRAMES - recipe->waiting + 1), recipe->title);
    return 0;
}

static int measure(char **words)
{
    const struct recipe *recipe = recipe_named(words[0]);
    size_t count = recipe ? make_calls(recipe) : 0;
    unsigned long rounds = strtoul(words[2], NULL, 10);

    if (count == 0)
        return unusable("there is no such stream, or it cannot be made");
    for (size_t writer = 0; writer < WRITERS; writer++)
        if (strcmp(writers[writer].name, words[1]) == 0) {
            size_t refused = 0;

            for (unsigned long round = 0; round < rounds; round++)
                refused += run(writers[writer].write, count);
            return refused == 0 && rounds > 0 ? 0 : 1;
        }
    return unusable("there is no such writer");
}

int main(int count, char **words)
{
    if (count == 2 && strcmp(words[1], "check") == 0)
        return check();
    if (count == 3 && strcmp(words[1], "describe") == 0)
        return describe(words[2]);
    if (count == 4)
        return measure(words + 1);
    return unusable("see the head of bench/writers.c for the words");
}
