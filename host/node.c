/* node [frames] < CAPTURE: a host program for the card, small enough to be the model of your own.
 *
 * It makes the calls of a capture in order, from an empty table: opens, closes, packets. Whole frames go into the
 * queue of their channel; a channel is a row of the table, so there are six. After each entry the modulator takes
 * one frame from each channel's queue, channel 0 first; when the capture is at its end it goes on until no frame
 * waits. (A capture knows no times. In a driver the modulator comes when it has sent what it had.) A session that
 * closes leaves its frames in the queue: they are whole, and are sent.
 *
 * What it prints, in this order:
 *
 * - a line for each session: when it closes, and for those that are still open at the end, by channel. 'missing' is
 *   the sum of its gaps, so packets that the core sent without a number and the network lost are not in it; 'dropped'
 *   has what its close dropped; held0 to held3 are the bytes that its flows still hold
 * - a line for each channel: frames that the modulator took, the most that waited, those lost to a full queue
 * - how many calls were made and refused, and how often each refusal number was given
 *
 * With the word 'frames', also each frame as the modulator takes it: its channel, and its bytes in hexadecimal.
 * A file that is no sound capture prints one line, as psplist does: 'refused' and the number.
 *
 * Everything is in fixed memory: nothing is allocated. Status 1 where a refusal was the host's own fault, else 0. */
#include "capture.h"
#include "queue.h"
#include "sklyapina.h"
#include "standard.h"

/* What a session has had since it was opened. The library keeps no counts: it answers each call, and its host adds
 * up. All zero where no session is open. */
struct session {
    uint32_t id;
    uint32_t kind;
    unsigned long packets;
    unsigned long frames;
    unsigned long bytes;
    unsigned long dropped;
    unsigned long missing;
};

struct channel {
    struct session session;
    struct queue queue;
};

enum call { CALL_OPEN, CALL_CLOSE, CALL_DATA, CALLS };

/* Open, close and data are refused by numbers of 1 to 25. */
enum { REFUSALS = SKLYAPINA_CLOSE_OF_NONE + 1 };

/* Over UDP four bytes stand before a packet's session ID (RFC 3931, section 4.1.2.1). */
enum { BEFORE_SESSION_OVER_UDP = 4 };

/* Calls made and refused, and refusals by their number. */
struct counts {
    unsigned long made[CALLS];
    unsigned long refused[CALLS];
    unsigned long by_number[REFUSALS];
};

/* The card. Table and holding places belong together, and to the library: nothing here writes them but its calls. */
struct card {
    struct sklyapina_table table;
    uint8_t holding[SKLYAPINA_HOLDING_SIZE];
    struct channel channels[SKLYAPINA_ROWS];
    struct counts counts;
    bool shows_frames;
};

/* Words for the refusals that the three calls can give, those of the header. None gives 8 or 14. */
static const char *const words[REFUSALS] = {
    [SKLYAPINA_SLICE_TOO_SMALL] = "slice too small",
    [SKLYAPINA_PACKET_TOO_SHORT] = "packet too short",
    [SKLYAPINA_PACKET_TOO_LONG] = "packet too long",
    [SKLYAPINA_CONTROL_MESSAGE] = "control message",
    [SKLYAPINA_SESSION_NOT_OPEN] = "session not open",
    [SKLYAPINA_HEADER_NOT_PLAIN] = "header not plain",
    [SKLYAPINA_FLOW_OUTSIDE] = "flow outside",
    [SKLYAPINA_NOTHING_CARRIED] = "nothing carried",
    [SKLYAPINA_LENGTHS_DISAGREE] = "lengths disagree",
    [SKLYAPINA_CONTENT_SPOILT] = "content spoilt",
    [SKLYAPINA_LATE] = "late",
    [SKLYAPINA_TABLE_BROKEN] = "table broken",
    [SKLYAPINA_NOT_VERSION_3] = "not version 3",
    [SKLYAPINA_OPEN_WITHOUT_ID] = "open without id",
    [SKLYAPINA_ALREADY_OPEN] = "already open",
    [SKLYAPINA_ALL_ROWS_OPEN] = "all rows open",
    [SKLYAPINA_KIND_UNKNOWN] = "kind unknown",
    [SKLYAPINA_CLOSE_OF_NONE] = "close of none"
};

/* Counts */

/* Counts a call by its answer, and gives whether the call was accepted. */
static bool was_accepted(struct counts *counts, enum call call, uint32_t code)
{
    counts->made[call]++;
    if (code == SKLYAPINA_NONE)
        return true;
    counts->refused[call]++;
    counts->by_number[code]++;
    return false;
}

/* Whether the host itself did something wrong: its arrays are too short, it damaged the table, or it named a kind
 * or a transport that there is not. No packet and no operator can bring about these three. */
static bool is_host_at_fault(const struct counts *counts)
{
    return counts->by_number[SKLYAPINA_SLICE_TOO_SMALL] > 0
        || counts->by_number[SKLYAPINA_TABLE_BROKEN] > 0
        || counts->by_number[SKLYAPINA_KIND_UNKNOWN] > 0;
}

/* Printing */

static void print_session(const struct card *card, size_t row, const char *state)
{
    const struct session *session = &card->channels[row].session;

    printf("%zu %lu %s %s", row, (unsigned long)session->id,
           session->kind == SKLYAPINA_KIND_PSP ? "PSP" : "D-MPT", state);
    printf(" %lu %lu %lu %lu %lu", session->packets, session->frames, session->bytes, session->dropped,
           session->missing);
    for (size_t flow = 0; flow < SKLYAPINA_FLOWS; flow++)
        printf(" %u", (unsigned int)card->table.rows[row].flows[flow].held);
    printf("\n");
}

static void print_open_sessions(const struct card *card)
{
    for (size_t row = 0; row < SKLYAPINA_ROWS; row++)
        if (card->table.rows[row].kind != SKLYAPINA_KIND_CLOSED)
            print_session(card, row, "open");
}

static void print_channels(const struct card *card)
{
    printf("channel taken most lost\n");
    for (size_t row = 0; row < SKLYAPINA_ROWS; row++) {
        const struct queue *queue = &card->channels[row].queue;
        printf("%zu %lu %zu %lu\n", row, queue->taken, queue->most_waiting, queue->lost);
    }
}

static void print_counts(const struct counts *counts)
{
    static const char *const calls[CALLS] = { "open", "close", "data" };

    printf("call made refused\n");
    for (size_t call = 0; call < CALLS; call++)
        printf("%s %lu %lu\n", calls[call], counts->made[call], counts->refused[call]);
    printf("code times words\n");
    for (size_t code = 0; code < REFUSALS; code++)
        if (counts->by_number[code] > 0)
            printf("%zu %lu %s\n", code, counts->by_number[code], words[code]);
}

/* The modulator */

/* Here a driver would start the sending of a frame; this program shows it, if it was asked to. */
static void send_frame(const struct card *card, size_t row, const uint8_t *frame, uint16_t length)
{
    if (!card->shows_frames)
        return;
    printf("frame %zu ", row);
    for (size_t place = 0; place < length; place++)
        printf("%02x", (unsigned int)frame[place]);
    printf("\n");
}

/* Takes one frame from each channel's queue, and gives whether there was any. */
static bool modulate(struct card *card)
{
    static uint8_t frame[SKLYAPINA_LONGEST_FRAME];
    bool any = false;

    for (size_t row = 0; row < SKLYAPINA_ROWS; row++) {
        uint16_t length = queue_take(&card->channels[row].queue, frame);
        if (length > 0) {
            send_frame(card, row, frame, length);
            any = true;
        }
    }
    return any;
}

/* The library's calls. Each is made in one place only. In every case the table is replaced by the one in the answer:
 * a refusal gives it back as it was. So there is no way out of these functions that leaves an old table. */

/* The channel of a session that is open. The answers do not name it; the table does, as the row with that ID. */
static size_t row_of(const struct sklyapina_table *table, uint32_t id)
{
    size_t row = 0;

    while (row < SKLYAPINA_ROWS && (table->rows[row].kind == SKLYAPINA_KIND_CLOSED || table->rows[row].id != id))
        row++;
    return row;
}

static void open_session(struct card *card, uint32_t id, uint32_t kind)
{
    struct sklyapina_opening answer = sklyapina_open(card->table, id, kind);

    card->table = answer.table;
    if (!was_accepted(&card->counts, CALL_OPEN, answer.code))
        return;
    card->channels[row_of(&card->table, id)].session = (struct session){ .id = id, .kind = kind };
}

static void close_session(struct card *card, uint32_t id)
{
    /* Looked up before the call: afterwards the table does not know the session any more. */
    size_t row = row_of(&card->table, id);
    struct sklyapina_closing answer = sklyapina_close(card->table, id);

    card->table = answer.table;
    if (!was_accepted(&card->counts, CALL_CLOSE, answer.code))
        return;
    card->channels[row].session.dropped += answer.dropped;
    print_session(card, row, "closed");
}

/* The frames stand back to back in the output, so each begins where the one before it ends. */
static void queue_frames(struct queue *queue, const uint8_t *output, const uint16_t *lengths, uint32_t frames)
{
    for (uint32_t frame = 0; frame < frames; frame++) {
        queue_put(queue, output, lengths[frame]);
        output += lengths[frame];
    }
}

/* The session of a packet that was accepted: such a packet has 8 bytes at least, over UDP 12. */
static uint32_t session_of(uint32_t transport, const uint8_t *packet)
{
    return capture_session(transport == SKLYAPINA_UDP ? packet + BEFORE_SESSION_OVER_UDP : packet);
}

/* A driver knows the transport by where a packet came in: from IP as protocol 115, or at the UDP port of a session. */
static void receive_packet(struct card *card, uint32_t transport, const uint8_t *packet, size_t length)
{
    /* Filled by one call and emptied before the next, so one pair serves every channel. The lengths of arrays are
     * given in elements: for lengths that is not its size in bytes. */
    static uint8_t output[SKLYAPINA_MOST_BYTES];
    static uint16_t lengths[SKLYAPINA_MOST_FRAMES];
    struct sklyapina_received answer = sklyapina_receive(card->table, transport, card->holding, SKLYAPINA_HOLDING_SIZE,
                                                         packet, length, output, SKLYAPINA_MOST_BYTES,
                                                         lengths, SKLYAPINA_MOST_FRAMES);
    struct channel *channel;

    card->table = answer.table;
    if (!was_accepted(&card->counts, CALL_DATA, answer.code))
        return;
    /* The session of an accepted packet is open. */
    channel = &card->channels[row_of(&card->table, session_of(transport, packet))];
    channel->session.packets++;
    channel->session.frames += answer.frames;
    channel->session.bytes += answer.bytes;
    channel->session.dropped += answer.dropped;
    channel->session.missing += answer.gap;
    queue_frames(&channel->queue, output, lengths, answer.frames);
}

/* The capture */

static void make_call(struct card *card, const struct capture_entry *entry)
{
    switch (entry->what) {
    case CAPTURE_OPEN_PSP:
        open_session(card, capture_session(entry->body), SKLYAPINA_KIND_PSP);
        break;
    case CAPTURE_OPEN_DMPT:
        open_session(card, capture_session(entry->body), SKLYAPINA_KIND_DMPT);
        break;
    case CAPTURE_CLOSE:
        close_session(card, capture_session(entry->body));
        break;
    case CAPTURE_DATA:
        receive_packet(card, SKLYAPINA_IP, entry->body, entry->length);
        break;
    case CAPTURE_DATA_OVER_UDP:
        receive_packet(card, SKLYAPINA_UDP, entry->body, entry->length);
        break;
    }
}

static void run(struct card *card, const uint8_t *file)
{
    struct capture capture = capture_start(file);
    struct capture_entry entry;

    printf("channel session kind state packets frames bytes dropped missing held0 held1 held2 held3\n");
    while (capture_next(&capture, &entry)) {
        make_call(card, &entry);
        modulate(card);
    }
    while (modulate(card))
        ;
    print_open_sessions(card);
    print_channels(card);
    print_counts(&card->counts);
}

/* Reads standard input until it ends or the room is full, and gives how many bytes there were. */
static size_t read_input(uint8_t *room, size_t size)
{
    size_t length = 0;
    int byte;

    while (length < size && (byte = getchar()) >= 0)
        room[length++] = (uint8_t)byte;
    return length;
}

int main(int count, char **arguments)
{
    /* One byte more than a capture may have, so that a longer one is seen to be too long. */
    static uint8_t file[CAPTURE_LONGEST + 1];
    /* All zero, as static memory is: no session is open, nothing is held, the queues are empty. */
    static struct card card;
    size_t length = read_input(file, sizeof file);
    enum capture_refusal refusal = capture_check(file, length);

    if (refusal != CAPTURE_SOUND) {
        printf("refused %u\n", (unsigned int)refusal);
        return 0;
    }
    card.shows_frames = count == 2 && strcmp(arguments[1], "frames") == 0;
    run(&card, file);
    return is_host_at_fault(&card.counts) ? 1 : 0;
}
