/* Capture files (document 01, 'Capture file and listing'): whether one is sound, and its entries in order.
 *
 * A driver has no captures: its opens and closes come from the operator, its packets from the network. Here
 * the capture stands for both, so that the same calls can be made by psplist. */
#ifndef CAPTURE_H
#define CAPTURE_H

#include <stdbool.h>
#include <stddef.h>
#include <stdint.h>

enum {
    CAPTURE_LONGEST = 60000,   /* bytes of a file */
    CAPTURE_MOST_ENTRIES = 1000
};

/* Why a file is refused, with the paper's numbers. The library has no part in these. */
enum capture_refusal {
    CAPTURE_SOUND = 0,
    CAPTURE_TOO_LONG = 41,
    CAPTURE_CONTENTS_CUT = 42,
    CAPTURE_TOO_MANY_ENTRIES = 43,
    CAPTURE_ENTRY_WRONG = 44,
    CAPTURE_BODIES_DO_NOT_FILL = 45
};

/* What an entry is. For the first three the body is a session ID, for the others a packet: one that came over IP, from
 * its session ID on, or one that came over UDP, with the four bytes before that (document 02, W1). */
enum capture_what {
    CAPTURE_OPEN_PSP = 1,
    CAPTURE_OPEN_DMPT = 2,
    CAPTURE_CLOSE = 3,
    CAPTURE_DATA = 4,
    CAPTURE_DATA_OVER_UDP = 5
};

/* An entry. The body is a part of the file, not a copy, and never a null pointer, even where it has no bytes. */
struct capture_entry {
    enum capture_what what;
    const uint8_t *body;
    size_t length;
};

/* A sound file that is being read: the entry that comes next, and where its body starts. */
struct capture {
    const uint8_t *file;
    size_t next;
    size_t body;
};

/* Whether a file is sound. What is not sound must not be read by the two functions below. */
enum capture_refusal capture_check(const uint8_t *file, size_t length);

/* A file's entries, from the first one on. The file has to stay where it is while they are read. */
struct capture capture_start(const uint8_t *file);

/* Gives the next entry, and whether there was one. */
bool capture_next(struct capture *capture, struct capture_entry *entry);

/* The number in four bytes, the highest byte first: a session ID, in an entry's body or in a packet. */
uint32_t capture_session(const uint8_t *bytes);

#endif
