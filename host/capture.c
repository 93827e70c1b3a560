/* Capture files: 2 bytes with the number of entries, then the contents, 4 bytes for each entry, then the bodies
 * back to back. Numbers are big-endian. */
#include "capture.h"

enum {
    COUNT_SIZE = 2,    /* the number of entries */
    LINE_SIZE = 4,     /* an entry's line in the contents: what it is, a zero byte, its body's length */
    SESSION_SIZE = 4   /* the body of an open or a close */
};

static size_t two_bytes(const uint8_t *bytes)
{
    return (size_t)bytes[0] << 8 | bytes[1];
}

static size_t entries_of(const uint8_t *file)
{
    return two_bytes(file);
}

static const uint8_t *line_of(const uint8_t *file, size_t entry)
{
    return file + COUNT_SIZE + LINE_SIZE * entry;
}

static size_t body_length(const uint8_t *line)
{
    return two_bytes(line + 2);
}

/* Where the contents end and the bodies start. */
static size_t contents_end(const uint8_t *file)
{
    return COUNT_SIZE + LINE_SIZE * entries_of(file);
}

static bool is_line_sound(const uint8_t *line)
{
    if (line[1] != 0)
        return false;
    switch (line[0]) {
    case CAPTURE_OPEN_PSP:
    case CAPTURE_OPEN_DMPT:
    case CAPTURE_CLOSE:
        return body_length(line) == SESSION_SIZE;
    case CAPTURE_DATA:
    case CAPTURE_DATA_OVER_UDP:
        return true;
    default:
        return false;
    }
}

/* Refusals 44 and 45, for a file whose contents are whole. */
static enum capture_refusal check_contents(const uint8_t *file, size_t length)
{
    size_t end = contents_end(file);

    for (size_t entry = 0; entry < entries_of(file); entry++) {
        const uint8_t *line = line_of(file, entry);
        if (!is_line_sound(line))
            return CAPTURE_ENTRY_WRONG;
        end += body_length(line);
    }
    return end == length ? CAPTURE_SOUND : CAPTURE_BODIES_DO_NOT_FILL;
}

enum capture_refusal capture_check(const uint8_t *file, size_t length)
{
    if (length > CAPTURE_LONGEST)
        return CAPTURE_TOO_LONG;
    if (length < COUNT_SIZE)
        return CAPTURE_CONTENTS_CUT;
    /* Before the length is looked at: 42 is given only to files of at most 1,000 entries. */
    if (entries_of(file) > CAPTURE_MOST_ENTRIES)
        return CAPTURE_TOO_MANY_ENTRIES;
    if (length < contents_end(file))
        return CAPTURE_CONTENTS_CUT;
    return check_contents(file, length);
}

struct capture capture_start(const uint8_t *file)
{
    return (struct capture){ .file = file, .next = 0, .body = contents_end(file) };
}

bool capture_next(struct capture *capture, struct capture_entry *entry)
{
    const uint8_t *line;

    if (capture->next == entries_of(capture->file))
        return false;
    line = line_of(capture->file, capture->next);
    entry->what = (enum capture_what)line[0];
    entry->body = capture->file + capture->body;
    entry->length = body_length(line);
    capture->next++;
    capture->body += entry->length;
    return true;
}

uint32_t capture_session(const uint8_t *bytes)
{
    return (uint32_t)bytes[0] << 24 | (uint32_t)bytes[1] << 16 | (uint32_t)bytes[2] << 8 | bytes[3];
}
