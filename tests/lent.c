/* What tests/calls.c and tests/mpeg.c share; lent.h says what. */
#include "lent.h"

#include "painted.h"
#include "sklyapina.h"

/* Of the C library too; read and mprotect are POSIX's. */
int memcmp(const void *one, const void *other, size_t count);
void *memcpy(void *restrict to, const void *restrict from, size_t count);
void *memset(void *bytes, int byte, size_t count);
int strcmp(const char *one, const char *other);
void *aligned_alloc(size_t alignment, size_t size);
void (*signal(int number, void (*handler)(int)))(int);
ptrdiff_t read(int file, void *bytes, size_t count);
int mprotect(void *start, size_t count, int access);

enum { NO_ACCESS = 0, BUS_ERROR = 7, ACCESS_ERROR = 11 }; /* mprotect and signal, on Linux for x86-64 */

static const struct program *program;

_Noreturn void unusable(const char *why)
{
    printf("%s: %s\n", program->name, why);
    exit(UNUSABLE);
}

/* ---- Reading records ---- */

static uint8_t input[1 << 16];
static size_t input_end, input_place;

/* Reads on, where nothing that was read is left. */
static void read_on(void)
{
    if (input_place == input_end) {
        ptrdiff_t count = read(0, input, sizeof input);
        if (count <= 0)
            unusable("the records end too early");
        input_end = (size_t)count;
        input_place = 0;
    }
}

static uint8_t next_byte(void)
{
    read_on();
    return input[input_place++];
}

static void next_bytes(uint8_t *to, size_t count)
{
    while (count > 0) {
        read_on();
        size_t here = input_end - input_place < count ? input_end - input_place : count;
        memcpy(to, input + input_place, here);
        input_place += here;
        to += here;
        count -= here;
    }
}

uint64_t next_number(unsigned bytes)
{
    uint64_t number = 0;
    while (bytes-- > 0)
        number = number << 8 | next_byte();
    return number;
}

/* ---- Arrays ---- */

/* A multiple of every size of page that a machine may have, so that the fence can be closed wherever this runs. */
enum { FENCE = 65536 };
/* Bytes before an array that must stay. */
enum { GUARD = 4096, GUARD_BYTE = 0xA5 };
static uint8_t guard[GUARD];

struct array {
    const char *name;
    size_t width;    /* bytes of an element */
    size_t capacity; /* elements that there are to lend */
    uint8_t *copy;   /* what the array has to have, from its first element on */
    uint8_t *fence;  /* where the memory ends that arrays are lent from: no byte from here on can be touched */
    size_t lent;     /* elements lent last */
    bool stale;      /* whether the copy has changed since then */
    bool in_use;     /* whether the call in hand was lent it */
};

static struct array arrays[ARRAYS] = {
    {.name = "holding", .width = 1, .capacity = SKLYAPINA_HOLDING_SIZE + 4096},
    {.name = "packet", .width = 1, .capacity = 70000},
    {.name = "output", .width = 1, .capacity = 8192},
    {.name = "lengths", .width = 2, .capacity = 1024},
    {.name = "frames", .width = 1, .capacity = 330000},
    {.name = "frame-lengths", .width = 2, .capacity = 66000},
};

static void make_arrays(void)
{
    memset(guard, GUARD_BYTE, GUARD);
    for (struct array *array = arrays; array < arrays + ARRAYS; array++) {
        size_t size = (array->capacity * array->width + GUARD + FENCE - 1) / FENCE * FENCE;
        array->copy = aligned_alloc(FENCE, size);
        uint8_t *memory = aligned_alloc(FENCE, size + FENCE);
        if (!array->copy || !memory)
            unusable("there is no memory");
        array->fence = memory + size;
        array->stale = true;
        if (mprotect(array->fence, FENCE, NO_ACCESS) != 0)
            unusable("memory cannot be closed");
    }
}

static struct array *next_array(void)
{
    uint8_t number = next_byte();
    if (number >= ARRAYS)
        unusable("a record has an array that there is not");
    return arrays + number;
}

/* Puts an element into the copy, in this machine's order of bytes. */
static void put(struct array *array, size_t place, uint64_t element)
{
    if (array->width == 2) {
        uint16_t number = (uint16_t)element;
        memcpy(array->copy + 2 * place, &number, 2);
    } else {
        array->copy[place] = (uint8_t)element;
    }
}

/* Dice of second/src/dice.rs (splitmix64). */
static uint64_t throw_dice(uint64_t *state)
{
    uint64_t mixed = *state += 0x9E3779B97F4A7C15;
    mixed = (mixed ^ mixed >> 30) * 0xBF58476D1CE4E5B9;
    mixed = (mixed ^ mixed >> 27) * 0x94D049BB133111EB;
    return mixed ^ mixed >> 31;
}

static void fill(struct array *array)
{
    uint64_t state = next_number(8), thrown = 0;
    size_t count = next_number(4);
    unsigned bits = 8 * (unsigned)array->width, left = 0;
    if (count > array->capacity)
        unusable("a record fills more than there is");
    for (size_t place = 0; place < count; place++) {
        if (left == 0) {
            thrown = throw_dice(&state);
            left = 64;
        }
        left -= bits;
        put(array, place, thrown >> left);
    }
    array->stale = true;
}

/* Reads a place, a number of elements and the elements. Answers where they end. */
static size_t change(struct array *array)
{
    size_t place = next_number(4), count = next_number(4);
    if (place > array->capacity || count > array->capacity - place)
        unusable("a record writes outside an array");
    if (array->width == 1) {
        next_bytes(array->copy + place, count);
        return place + count;
    }
    for (; count > 0; count--, place++)
        put(array, place, next_number((unsigned)array->width));
    return place;
}

static uint8_t *first_byte(const struct array *array)
{
    return array->fence - array->lent * array->width;
}

uint8_t *lend(unsigned number, uint64_t count)
{
    struct array *array = arrays + number;

    if (count > array->capacity)
        unusable("a record lends more than there is");
    if (array->stale || array->lent != count) {
        array->lent = count;
        memset(first_byte(array) - GUARD, GUARD_BYTE, GUARD);
        memcpy(first_byte(array), array->copy, count * array->width);
        array->stale = false;
    }
    array->in_use = true;
    return first_byte(array);
}

uint16_t *lend_numbers(unsigned number, uint64_t count)
{
    return (uint16_t *)(void *)lend(number, count);
}

/* ---- Comparing ---- */

enum { MOST_CASES = 256, LONGEST_NAME = 256, MOST_CALLS = 8, CODES = 64 };
/* Elements of an array that are printed at a difference: any packet that is not too long, by either transport, and a
 * byte more. */
enum { MOST_SHOWN = 4105 };

static char case_names[MOST_CASES][LONGEST_NAME];
static unsigned case_count;
static unsigned long times_of_case[MOST_CASES], times_of_code[MOST_CALLS][CODES], times_of_call[MOST_CALLS];
static size_t stack_of_call[MOST_CALLS]; /* the most that one wrote */
/* The call in hand, counted from 1, and what it is given. */
static unsigned long calls_made;
static unsigned asked_call, asked_case;
static uint64_t inputs[MOST_INPUTS];

/* The fault that the second program's answer to the call in hand has; none where that is the right one. */
static char fault[LONGEST_NAME];
static const char *difference; /* what differs */

static void print_call(void)
{
    const struct call *call = &program->calls[asked_call];
    printf("difference at call %lu, %s (%s)\n", calls_made, call->name, case_names[asked_case]);
    for (unsigned number = 0; number < call->input_count; number++)
        printf("  %s: %llu\n", call->inputs[number], (unsigned long long)inputs[number]);
    if (call->has_table)
        program->print_given();
    if (arrays[PACKET].in_use) {
        printf("  packet:");
        for (size_t place = 0; place < arrays[PACKET].lent && place < MOST_SHOWN; place++)
            printf(" %02x", arrays[PACKET].copy[place]);
        printf("%s\n", arrays[PACKET].lent > MOST_SHOWN ? " ..." : "");
    }
    if (arrays[FRAME_LENGTHS].in_use) {
        printf("  lengths:");
        for (size_t place = 0; place < arrays[FRAME_LENGTHS].lent && place < MOST_SHOWN; place++)
            printf(" %u", ((const uint16_t *)(const void *)arrays[FRAME_LENGTHS].copy)[place]);
        printf("%s\n", arrays[FRAME_LENGTHS].lent > MOST_SHOWN ? " ..." : "");
    }
}

bool tells(const char *what)
{
    difference = what;
    if (fault[0])
        return false;
    print_call();
    return true;
}

static _Noreturn void touches_fence(int number)
{
    (void)number;
    print_call();
    printf("the library touches memory after the end of an array\n");
    exit(DIFFERENT);
}

static bool compare_number(const char *what, uint64_t library, uint64_t second)
{
    if (library == second)
        return true;
    if (tells(what))
        printf("%s: library %llu, second program %llu\n", what, (unsigned long long)library,
               (unsigned long long)second);
    return false;
}

/* Where two stretches of bytes differ first; they do. */
static size_t first_difference(const uint8_t *one, const uint8_t *other)
{
    size_t place = 0;
    while (one[place] == other[place])
        place++;
    return place;
}

static bool compare_array(const struct array *array)
{
    const uint8_t *first = first_byte(array);

    if (memcmp(first - GUARD, guard, GUARD) != 0) {
        if (tells(array->name))
            printf("%s: bytes before the array have changed\n", array->name);
        return false;
    }
    if (memcmp(first, array->copy, array->lent * array->width) != 0) {
        size_t place = first_difference(first, array->copy);
        if (tells(array->name))
            printf("%s, byte %zu: library %u, second program %u\n", array->name, place, first[place],
                   array->copy[place]);
        return false;
    }
    return true;
}

/* What a wrong library would do to an array: the words that this program is given. */
static const char *spoilt_array, *spoilt_place;

static void spoil(const struct array *array)
{
    if (!spoilt_array || strcmp(array->name, spoilt_array) != 0)
        return;
    if (strcmp(spoilt_place, "before") == 0)
        first_byte(array)[-1] ^= 1;
    else if (strcmp(spoilt_place, "inside") == 0)
        array->fence[-1] ^= 1;
    else
        *(volatile uint8_t *)array->fence = 1;
}

/* ---- Records ---- */

static void read_case_names(void)
{
    case_count = (unsigned)next_number(2);
    if (case_count > MOST_CASES)
        unusable("there are too many cases");
    for (unsigned number = 0; number < case_count; number++)
        for (size_t place = 0, length = next_byte(); place < length; place++)
            case_names[number][place] = (char)next_byte();
}

/* Reads a call up to what it has to answer. */
static void read_asked(void)
{
    asked_case = (unsigned)next_number(2);
    asked_call = next_byte() - program->first_call;
    if (asked_case >= case_count || asked_call >= program->call_count)
        unusable("a record has a case or a call that there is not");
    if (program->calls[asked_call].has_table)
        program->read_given();
    for (unsigned number = 0; number < program->calls[asked_call].input_count; number++)
        inputs[number] = next_number(8);
}

/* Reads what the call has to answer, and makes the changes to the copies. Answers whether they are where something was
 * lent. */
static bool read_answer(uint64_t *answers)
{
    bool fits = true;

    for (unsigned number = 0; number < program->calls[asked_call].answer_count; number++)
        answers[number] = next_number(8);
    if (program->calls[asked_call].has_table)
        program->read_back();
    for (unsigned left = next_byte(); left > 0; left--) {
        struct array *array = next_array();
        if (change(array) > (array->in_use ? array->lent : 0)) {
            if (tells(array->name))
                printf("%s: the second program writes more than was lent\n", array->name);
            fits = false;
        }
    }
    return fits;
}

static void count_call(const uint64_t *answers)
{
    times_of_case[asked_case]++;
    times_of_call[asked_call]++;
    if (painted_depth > stack_of_call[asked_call])
        stack_of_call[asked_call] = painted_depth;
    if (program->calls[asked_call].code_count > 0 && answers[0] < CODES)
        times_of_code[asked_call][answers[0]]++;
}

/* Compares the call in hand with its answer: the numbers, the table, then the arrays. */
static bool compare_call(const uint64_t *got, const uint64_t *answers)
{
    const struct call *call = &program->calls[asked_call];

    for (unsigned number = 0; number < call->answer_count; number++)
        if (!compare_number(call->answers[number], got[number], answers[number]))
            return false;
    if (call->has_table && !program->compare_back())
        return false;
    for (struct array *array = arrays; array < arrays + ARRAYS; array++)
        if (array->in_use && !compare_array(array))
            return false;
    return true;
}

/* Makes the next call; answers whether nothing differs. */
static bool run_call(void)
{
    uint64_t got[MOST_ANSWERS] = {0}, answers[MOST_ANSWERS] = {0};

    calls_made++;
    for (struct array *array = arrays; array < arrays + ARRAYS; array++)
        array->in_use = false;
    read_asked();
    painted_function = NULL;
    program->make_call(asked_call, inputs, got);
    if (!painted_function)
        unusable("a call was not made on the painted stack");
    for (struct array *array = arrays; array < arrays + ARRAYS; array++)
        if (array->in_use)
            spoil(array);
    if (!read_answer(answers) || !compare_call(got, answers))
        return false;
    if (!fault[0])
        count_call(got);
    return true;
}

/* ---- Deliberate faults ---- */

static unsigned faults_found, faults_missed;

static void read_fault(void)
{
    size_t length = next_byte(), place = 0;
    for (; place < length; place++)
        fault[place] = (char)next_byte();
    fault[place] = 0;
}

/* Makes the next call, whose answer has a fault, and demands that it differs. The library has then written into arrays
 * whose copies are as before, so they are lent anew; the call itself comes once more, with its right answer. */
static void run_fault(void)
{
    read_fault();
    if (next_byte() != 3)
        unusable("a fault is not followed by a call");
    if (run_call()) {
        printf("fault %s: NOT FOUND at call %lu\n", fault, calls_made);
        faults_missed++;
    } else {
        printf("fault %s: found, call %lu, %s (%s): %s\n", fault, calls_made, program->calls[asked_call].name,
               case_names[asked_case], difference);
        faults_found++;
    }
    fault[0] = 0;
    calls_made--;
    for (struct array *array = arrays; array < arrays + ARRAYS; array++)
        array->stale = true;
}

/* A fault that no call shows. */
static void miss_fault(void)
{
    read_fault();
    printf("fault %s: NOT FOUND in any call\n", fault);
    fault[0] = 0;
    faults_missed++;
}

/* Prints the counts. */
static void print_counts(void)
{
    printf("compared %lu calls: no difference\n", calls_made);
    for (unsigned call = 0; call < program->call_count; call++) {
        printf("%s: %lu calls, stack %zu", program->calls[call].name, times_of_call[call], stack_of_call[call]);
        for (unsigned place = 0; place < program->calls[call].code_count; place++) {
            unsigned code = program->calls[call].codes[place];
            printf("%s %u: %lu", place == 0 ? ";" : ",", code, times_of_code[call][code]);
        }
        printf("\n");
    }
    for (unsigned number = 0; number < case_count; number++)
        printf("%s%s: %lu", number == 0 ? "cases: " : "; ", case_names[number], times_of_case[number]);
    printf("\n");
    if (faults_found + faults_missed > 0)
        printf("faults: %u found, %u not found\n", faults_found, faults_missed);
}

/* Prints which codes and cases never came up; answers whether all did. */
static bool all_came_up(void)
{
    unsigned missing = 0;

    for (unsigned call = 0; call < program->call_count; call++)
        for (unsigned place = 0; place < program->calls[call].code_count; place++)
            if (times_of_code[call][program->calls[call].codes[place]] == 0) {
                printf("never came up: %s answers %u\n", program->calls[call].name, program->calls[call].codes[place]);
                missing++;
            }
    for (unsigned number = 0; number < case_count; number++)
        if (times_of_case[number] == 0) {
            printf("never came up: %s\n", case_names[number]);
            missing++;
        }
    return missing == 0;
}

/* Does what a record asks for; answers whether nothing differs. */
static bool run_record(uint8_t sort)
{
    switch (sort) {
    case 1:
        fill(next_array());
        return true;
    case 2: {
        struct array *array = next_array();
        change(array);
        array->stale = true;
        return true;
    }
    case 3:
        return run_call();
    case 4:
        run_fault();
        return true;
    case 5:
        miss_fault();
        return true;
    default:
        unusable("a record of a sort that there is not");
    }
}

int run_records(const struct program *of, int word_count, char **words)
{
    program = of;
    if (program->call_count > MOST_CALLS)
        unusable("there are more calls than are counted");
    if (word_count == 3) {
        spoilt_array = words[1];
        spoilt_place = words[2];
    }
    make_arrays();
    signal(ACCESS_ERROR, touches_fence);
    signal(BUS_ERROR, touches_fence);
    read_case_names();
    for (uint8_t sort = next_byte(); sort != 0; sort = next_byte())
        if (!run_record(sort))
            return DIFFERENT;
    if (next_number(4) != calls_made)
        unusable("there are fewer records than there should be");
    print_counts();
    return all_came_up() && faults_missed == 0 ? 0 : DIFFERENT;
}
