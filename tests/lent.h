/* What tests/calls.c and tests/mpeg.c share: the records on standard input (second/src/records.rs has their form), the
 * arrays that are lent to a call, and the comparison of what the call gives back and leaves behind with the second
 * program's answer: every number, and every byte of every array that was lent, whether the call may write it or not.
 *
 * Beside each array there is a copy of what it has to have; only the changes of the second program's answers are
 * made to it. An array stands so that its last byte is followed by memory that cannot be touched, and its first
 * preceded by bytes that must stay.
 *
 * run_records prints how often each code and each case came up, and how many bytes of stack each call wrote at most,
 * since its calls are made on a painted one (painted.h). It ends with status 1 at the first difference, after saying what
 * it is, and with 2 where the records cannot be read.
 *
 * Among the records there may be calls whose answer is wrong on purpose: a fault of the second program, at the first call
 * that shows it. There the comparison has to see a difference, and says whether it does; the same call follows with its
 * right answer. Where one is not seen, or no call shows it, the status is 1 too.
 *
 * With two words, as `holding after`, it does what a wrong library would do to an array each time that it is lent:
 * changes the byte before it, its last one (inside), or the one after it. tests/calls and tests/mpeg demand that this
 * is seen. */
#ifndef LENT_H
#define LENT_H

#include <stdbool.h>
#include <stddef.h>
#include <stdint.h>

/* Declarations of the C library's headers, written out as C11 7.1.4 allows: on Arm these programs are compiled for
 * another machine, x86-64, whose headers are not there. */
int printf(const char *restrict format, ...);
_Noreturn void exit(int status);

enum { DIFFERENT = 1, UNUSABLE = 2 };

_Noreturn void unusable(const char *why);

/* The next number of the records, big-endian. */
uint64_t next_number(unsigned bytes);

enum { HOLDING, PACKET, OUTPUT, LENGTHS, FRAMES, FRAME_LENGTHS, ARRAYS };

/* Lends that many elements of an array, which end where the memory does that can be touched. */
uint8_t *lend(unsigned array, uint64_t count);
uint16_t *lend_numbers(unsigned array, uint64_t count);

enum { MOST_INPUTS = 9, MOST_ANSWERS = 5, MOST_CODES = 16 };

struct call {
    const char *name;
    bool has_table;
    unsigned input_count;
    const char *inputs[MOST_INPUTS];
    unsigned answer_count;
    const char *answers[MOST_ANSWERS];
    unsigned code_count; /* 0 where the first answer is no code */
    uint8_t codes[MOST_CODES]; /* those that have to come up */
};

/* What a program brings: its calls, and what is to be done for one. The last four are for calls that have a table. */
struct program {
    const char *name;
    unsigned first_call; /* the number that the records have for the first of the calls */
    unsigned call_count;
    const struct call *calls;
    void (*make_call)(unsigned call, const uint64_t *in, uint64_t *out);
    void (*read_given)(void);   /* reads the table that the call is given */
    void (*print_given)(void);
    void (*read_back)(void);    /* reads the table that has to come back */
    bool (*compare_back)(void); /* whether that is the one that has come back; where it is not, tells it */
};

/* Says that this differs. Prints which call it is and what it was given, and answers true: what differs in it is to be
 * printed after that. Where a fault is to be seen nothing is printed. */
bool tells(const char *what);

/* Makes the calls of all records and answers the status: 0 where nothing differs and every code and case came up. */
int run_records(const struct program *program, int word_count, char **words);

#endif
