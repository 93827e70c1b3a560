/* The card's library, for its host program in C or C++: the packet check, the table of sessions, receiving
 * packets and sending them, as document 01 defines it; and, as document 02 asks for them, MPEG packets for the
 * modulator (W3), packets that come over UDP (W1), and PSP packets without a sequence number (W2).
 *
 * The library is libsklyapina.a in crates/sklyapina/out, made by `rt lib` there (`bin/library` does it, and prints
 * where it is). It is for x86-64, and needs no other library but the C library's memcpy, memmove and memset.
 *
 * Of every call it is proved:
 *
 * - It answers, whatever it is given: any numbers, any bytes, any lengths. Either it does its work and
 *   answers SKLYAPINA_NONE, or it refuses with the one number of enum sklyapina_refusal that the papers
 *   give, and then nothing has changed: the table in the answer is the one that was passed, number by
 *   number, and every element of every array is as it was.
 * - It reads and writes only inside the arrays that it is lent.
 *
 * It needs little stack: no call more than 2 KiB below its return address, nor more than 4 KiB together with a C function
 * that makes it and does nothing else, which has the table and the answer by value. That is not proved, but a matter of
 * the compiler: tests/stack measures the library as the kit builds it, and bench/README.md has each call, of which the data
 * call needs the most, 800 bytes.
 *
 * And it keeps nothing, since its language has no means to: no pointer outlives its call, nothing is
 * allocated, and there are no variables but those of the call. What it knows is what it is passed. So threads
 * may call at once, each with arrays of its own.
 *
 * What the caller must see to, since no proof reaches into C:
 *
 * - An array is a pointer and a length, which counts elements and not bytes. Its elements can be read, or
 *   written where the pointer is not to const, and they stay as they are while the call runs.
 * - A pointer is never null, not even where the length is 0. For an array without elements pass the
 *   address of any object of the element's type.
 * - An array that a call may write overlaps no other array of that call.
 * - This file is the library's own: a program is compiled anew with each library, for nothing notices where it was
 *   compiled with the header of another.
 *
 * With W1 the four calls that take a packet gained the parameter transport, and the two of them that ask for a
 * segment the parameter kind, so that a program from before does not compile. That change is made once: what document
 * 02 asks for after W1 comes with calls of its own, and these four keep their parameters. With W2 the name of refusal
 * 8 went, so that a program that names it does not compile: the packets that it was given to are accepted now.
 *
 * Nothing compares this file with the library's source, crates/sklyapina/src and the structs of the crates
 * below it: each declaration here is a copy by hand. tests/calls and host/run link the two and compare what
 * comes out. */
#ifndef SKLYAPINA_H
#define SKLYAPINA_H

#include <stdbool.h>
#include <stddef.h>
#include <stdint.h>

#ifdef __cplusplus
extern "C" {
#endif

/* The card in numbers. */
enum {
    SKLYAPINA_ROWS = 6,              /* sessions of a table */
    SKLYAPINA_FLOWS = 4,             /* packet flows of a session */
    SKLYAPINA_LONGEST_FRAME = 2048,  /* bytes of a frame at most, and so of a holding place */
    SKLYAPINA_HOLDING_SIZE = 49152,  /* bytes of all holding places: 6 x 4 x 2,048 */
    SKLYAPINA_MOST_BYTES = 6144,     /* the room that a data call asks for in the output */
    SKLYAPINA_MOST_FRAMES = 127,     /* .. and in the lengths */
    SKLYAPINA_MPEG_LENGTH = 188      /* bytes of an MPEG packet */
};

/* What a row of the table is, what an open asks for, and what the packet check takes a packet for. */
enum sklyapina_kind {
    SKLYAPINA_KIND_CLOSED = 0, /* in tables only: no session */
    SKLYAPINA_KIND_PSP = 1,    /* frames, whole or in segments */
    SKLYAPINA_KIND_DMPT = 2    /* MPEG packets of 188 bytes */
};

/* What a packet came by. L2TPv3 runs straight over IP, or over UDP with four bytes more (RFC 3931, section 4.1.2.1).
 * Each call that takes a packet is told, and of that packet alone: one session, and one flow of it, may get packets
 * by both, in any order, and what joins, drops and delivers does not depend on it.
 *
 * A packet is given from the first byte behind the IP header, or behind the UDP header; below it stand the places:
 *
 *   over IP                    | session ID   | header   | what it carries ..
 *                              0              4          8
 *   over UDP   | T, version    | session ID   | header   | what it carries ..
 *              0               4              8          12
 *
 * and the four bytes that are there over UDP alone, bit by bit:
 *
 *   | T . . . . . . . | . . . . version | . . . . . . . . | . . . . . . . . |
 *
 * T must be 0 and the version 3, else the packet is refused, by 15; the dots are ignored. 00 03 00 00 is what one
 * writes there.
 *
 * That a packet is given by the wrong transport cannot always be told. One over IP, given as UDP, is refused by 15
 * (by 2 where it has fewer than 12 bytes), unless its session ID has 0 as its top bit and 3 as the low four bits of
 * its second byte; then its header is read as the session ID. One over UDP, given as IP, has the session ID 0x30000,
 * if 00 03 00 00 was written: it is refused by 5 (by 3 where it has more than 4,100 bytes), unless such a session is
 * open; the packet check, which knows no sessions, goes on and reads the session ID as the header, and with another
 * ID than one below 0x10000, which is 9 for PSP, it may answer anything, 0 too. So where no session is open for whose
 * ID (id & 0x800F0000) == 0x00030000, the data call refuses, given by the wrong one of the two, every packet that it
 * accepts by the right one. */
enum sklyapina_transport {
    SKLYAPINA_IP = 1,
    SKLYAPINA_UDP = 2
};

/* Why a call is refused. Where several causes hold at once, each call says which comes first. */
enum sklyapina_refusal {
    /* nothing is refused */
    SKLYAPINA_NONE = 0,

    /* The data call alone: one of the arrays it is lent is too short. */
    SKLYAPINA_SLICE_TOO_SMALL = 1,

    /* A packet, whatever its session. */
    SKLYAPINA_PACKET_TOO_SHORT = 2, /* fewer than 8 bytes, the session ID and the header; over UDP fewer than 12 */
    SKLYAPINA_PACKET_TOO_LONG = 3,  /* more than 4,100 bytes; over UDP more than 4,104 */
    SKLYAPINA_CONTROL_MESSAGE = 4,  /* the session ID is 0, which no data packet has */
    SKLYAPINA_SESSION_NOT_OPEN = 5, /* no row of the table has this session open */

    /* What follows the session ID. 8 is given by no call: before W2 it refused a PSP packet with the S bit clear, one
     * without a sequence number; sklyapina_receive says what becomes of such a packet now. */
    SKLYAPINA_HEADER_NOT_PLAIN = 6, /* the V bit is set, or either of the two H bits */
    SKLYAPINA_FLOW_OUTSIDE = 7,     /* PSP: a flow ID of 4 to 7; D-MPT: any flow ID but 0 */
    SKLYAPINA_NOTHING_CARRIED = 9,  /* PSP: no segment is announced; D-MPT: the packet ends with its header */
    /* PSP: header, segment table and the lengths in it do not add up to the packet's length, or the packet ends
     * inside the segment table; D-MPT: what follows the header is no multiple of 188 bytes */
    SKLYAPINA_LENGTHS_DISAGREE = 10,
    /* PSP: a segment of no bytes, one after the first that does not begin a frame (B clear), or one before
     * the last that does not end one (E clear); D-MPT: an MPEG packet that does not start with 0x47 */
    SKLYAPINA_CONTENT_SPOILT = 11,
    /* the S bit is set, and the sequence number lies 32,768 or more ahead of the expected one, modulo 65,536 */
    SKLYAPINA_LATE = 12,

    /* The table is broken: see struct sklyapina_table. */
    SKLYAPINA_TABLE_BROKEN = 13,

    SKLYAPINA_SEGMENT_OUTSIDE = 14, /* the packet has no segment of this number */

    /* A packet over UDP alone: T is set, as in a control message, or the version is not 3. */
    SKLYAPINA_NOT_VERSION_3 = 15,

    /* An open or a close. */
    SKLYAPINA_OPEN_WITHOUT_ID = 21, /* a session cannot have ID 0 */
    SKLYAPINA_ALREADY_OPEN = 22,
    SKLYAPINA_ALL_ROWS_OPEN = 23,
    /* a kind or transport that there is not: in an open or a packet check a kind that is neither PSP nor D-MPT, where
     * a segment is asked for any kind but PSP; in every call with a packet a transport that is neither IP nor UDP */
    SKLYAPINA_KIND_UNKNOWN = 24,
    SKLYAPINA_CLOSE_OF_NONE = 25, /* this session is not open, or the ID is 0 */

    /* A send. */
    SKLYAPINA_ADDRESS_OUTSIDE = 31,  /* session ID 0, or a flow above 3 */
    SKLYAPINA_LIMIT_OUTSIDE = 32,    /* a limit below 16 or above 4,096 */
    /* more than 127 frames, a frame of no bytes or of more than 2,048, or lengths that do not add up to the bytes */
    SKLYAPINA_FRAMES_UNSOUND = 33,
    SKLYAPINA_POSITION_OUTSIDE = 34, /* a position that is in no frame, nor behind the last */
    SKLYAPINA_NOTHING_LEFT = 35,     /* the position is behind the last frame */
    SKLYAPINA_OUTPUT_TOO_SMALL = 36, /* fewer bytes than the limit and the session ID's 4 */

    /* MPEG packets for the modulator. */
    /* to write, fewer bytes than 188; to read, too few elements for the frames or for their lengths */
    SKLYAPINA_MPEG_OUTPUT_TOO_SMALL = 51,
    /* a frame of more than 2,048 bytes, one that is not as long as it says, or one that starts with 0xFF; or
     * lengths that do not add up to the bytes */
    SKLYAPINA_FRAME_NOT_WRITTEN = 52,
    /* to read, bytes that no calls of sklyapina_mpeg_write give, one after the other from a frame's start on */
    SKLYAPINA_NO_RUN_GIVES_IT = 53
};

/* The table of sessions: six rows, each with four flows. All zeros is the table without a session, so
 * `struct sklyapina_table table = { 0 };` is how a card starts (in C++ `{}`).
 *
 * The caller keeps the table, and hands it to each call that asks for it; the answer has the table
 * afterwards, which takes its place. Nobody needs to write in it. A table is refused as a whole, by 13, where an
 * open row has ID 0; an ID is open in two rows; a closed row (kind 0) is not all zeros; a flow holds more than
 * 2,048 bytes; a flow with heard 0 has expected or held other than 0; a D-MPT row holds bytes, or has heard 1 in
 * flow 1, 2 or 3; a kind is above 2, or heard is above 1. Any other table is believed: 13 cannot notice a change to
 * numbers that a call might have left, and it never looks at the holding places.
 *
 * The table has no padding: two tables are the same if and only if memcmp says so. */
struct sklyapina_flow {
    uint16_t heard;    /* 1 if the flow accepted a sequence number since its session was opened, else 0 */
    uint16_t expected; /* the sequence number that should come next; 0 while heard is 0 */
    uint16_t held;     /* bytes of an unfinished frame in the flow's place */
};

struct sklyapina_row {
    uint32_t id;   /* the session's ID; 0 in a closed row */
    uint32_t kind; /* enum sklyapina_kind */
    struct sklyapina_flow flows[SKLYAPINA_FLOWS];
};

struct sklyapina_table {
    struct sklyapina_row rows[SKLYAPINA_ROWS];
};

/* Is this packet well formed for a session of this kind? It knows no table, so it says nothing of
 * whether the session is open or the packet late.
 *
 * kind       SKLYAPINA_KIND_PSP or SKLYAPINA_KIND_DMPT
 * transport  SKLYAPINA_IP or SKLYAPINA_UDP: what the packet came by
 * packet     the packet: over IP from the first byte of its session ID, over UDP from the four bytes before that
 *
 * Answers 24 for any other kind or transport, else the first of 2, 3, 15 (over UDP alone), 4, 6, 7 and 9 to 11 that
 * applies, else 0. Whether the S bit is set makes no difference to it. It writes nothing. */
uint32_t sklyapina_check(uint32_t kind, uint32_t transport, const uint8_t *packet, size_t packet_length);

/* Why segment k of a packet, counted from 0, cannot be had. Only PSP packets have segments.
 *
 * Answers 24 for any kind but SKLYAPINA_KIND_PSP, else the number of the packet check, else 14 where the packet has
 * no segment k, else 0. It writes nothing. */
uint32_t sklyapina_segment_cause(uint32_t kind, uint32_t transport,
                                 const uint8_t *packet, size_t packet_length, size_t k);

/* Where segment k of a packet stands in it: its bytes are packet[place] to packet[place + length - 1]. The place
 * counts from the packet's first byte, and so is 4 more over UDP than over IP. Where sklyapina_segment_cause answers
 * another number than 0, place and length are 0. It writes nothing. */
struct sklyapina_stretch {
    size_t place;
    size_t length;
};

struct sklyapina_stretch sklyapina_segment(uint32_t kind, uint32_t transport,
                                           const uint8_t *packet, size_t packet_length, size_t k);

/* Copies segment k of a packet to the front of output, as many of its bytes as there is room for.
 *
 * Answers how long the segment is, whatever room there is: where that is more than output_length, the copy is not
 * whole. Where sklyapina_segment_cause answers another number than 0, it is 0. Every byte of output behind the copy is
 * as it was. */
size_t sklyapina_segment_copy(uint32_t kind, uint32_t transport,
                              const uint8_t *packet, size_t packet_length, size_t k,
                              uint8_t *output, size_t output_length);

/* Opens a session in the lowest closed row, with all its flows fresh: the first packet of each that has a number is
 * accepted whatever that number is.
 *
 * Answers the first of 24, 13, 21, 22 and 23 that applies, or 0, and the table afterwards. It is not given
 * the holding places, so they stay as they are. */
struct sklyapina_opening {
    uint32_t code;
    struct sklyapina_table table;
};

struct sklyapina_opening sklyapina_open(struct sklyapina_table table, uint32_t id, uint32_t kind);

/* Closes a session: its row is all zeros then, and what its flows held is dropped, which `dropped` counts.
 *
 * Answers 13, or 25 where the session is not open, or 0, and the table afterwards. It is not given the
 * holding places: the bytes in them stay, and no later call looks at them. */
struct sklyapina_closing {
    uint32_t code;
    uint32_t dropped;
    struct sklyapina_table table;
};

struct sklyapina_closing sklyapina_close(struct sklyapina_table table, uint32_t id);

/* Takes a packet: delivers the frames that it completes, and, where it has a number, holds what is left without its
 * end until the flow's next packet.
 *
 * transport  SKLYAPINA_IP or SKLYAPINA_UDP: what this packet came by, whatever those before it did
 * holding    the holding places, 49,152 bytes or more. The place of flow k in row r starts at
 *            (4 x r + k) x 2,048. They belong to the table: one table, one array of places, from the first call
 *            to the last. They need not be cleared
 * packet     the packet: over IP from the first byte of its session ID, over UDP from the four bytes before that
 * output     6,144 bytes or more. The frames are written to its front, back to back
 * lengths    127 elements or more. The lengths of the frames are written to its front
 *
 * Answers the first of 1, 13, 24, 2, 3, 15 (over UDP alone), 4, 5, 6, 7, 9 to 11, and 12 (only where the
 * S bit is set) that applies, or 0. Then
 *
 * frames   how many frames were delivered: so many elements of lengths were written
 * bytes    how long they are together: so many bytes of output were written
 * dropped  how many bytes, of this packet or held from earlier ones, will never be delivered
 * gap      how many packets are missing before this one, by its sequence number; 0 with the S bit clear
 * table    the table afterwards: at most the packet's flow has changed; with the S bit clear at most its held, which
 *          is then 0
 *
 * and in holding at most the first bytes of that flow's place have changed, as many as the flow holds now. Refused:
 * all counts are 0, and table and arrays are as they were.
 *
 * A PSP packet with the S bit clear has no number (W2), so nothing tells what it follows, and nothing is joined: what
 * its flow held is dropped first; then each segment that is a whole frame, with B and E, of at most 2,048 bytes is
 * delivered, in order; every other segment is dropped, and nothing is held. The expected number, and whether there is
 * one, stays as it was: the next packet with a number is judged as if this one had not come. */
struct sklyapina_received {
    uint32_t code;
    uint32_t frames;
    uint32_t bytes;
    uint32_t dropped;
    uint32_t gap;
    struct sklyapina_table table;
};

struct sklyapina_received sklyapina_receive(struct sklyapina_table table, uint32_t transport,
                                            uint8_t *holding, size_t holding_length,
                                            const uint8_t *packet, size_t packet_length,
                                            uint8_t *output, size_t output_length,
                                            uint16_t *lengths, size_t lengths_length);

/* Where a sender stands in its frames: the next byte to send is byte `offset` of frame `frame`, both counted
 * from 0. { 0, 0 } is the beginning, and { number of frames, 0 } the end. */
struct sklyapina_position {
    size_t frame;
    size_t offset;
};

/* Writes the next PSP packet of these frames for one flow of a session.
 *
 * session  the session ID, not 0
 * flow     0 to 3
 * number   the packet's sequence number
 * limit    how many bytes may follow the session ID: 16 to 4,096
 * frames   the frames back to back, and lengths the length of each: at most 127 frames, of 1 to 2,048 bytes each
 * output   limit + 4 bytes or more; the packet is written to its front, from the first byte of its session ID
 *
 * To send over UDP, have four bytes before output, put 00 03 00 00 into them, and send those too: nothing else
 * changes, and the limit counts what follows the session ID all the same.
 *
 * Answers the first of 31 to 36 that applies, or 0. Then `length` is the packet's length, and `position` and
 * `number` are those of the next call; the frames are all sent when that call answers 35. Refused: length is 0,
 * position and number are those that were passed, and output is as it was. */
struct sklyapina_sent {
    uint32_t code;
    size_t length;
    struct sklyapina_position position;
    uint16_t number;
};

struct sklyapina_sent sklyapina_send(uint32_t session, size_t flow, uint16_t number, size_t limit,
                                     const uint8_t *frames, size_t frames_length,
                                     const uint16_t *lengths, size_t lengths_length,
                                     struct sklyapina_position position,
                                     uint8_t *output, size_t output_length);

/* Writes the next MPEG packet of these frames, as a DOCSIS modulator takes it (DRFI, section 7). A frame starts in a
 * packet where the one before it ends, if a byte is left there: one that ends with the packet, as where 183 bytes of it
 * were left behind the pointer byte or 184 without it, is followed by the next in the next packet. What the last frame
 * leaves of its packet is filled up with 0xFF.
 *
 * frames   the frames back to back, and lengths the length of each: any number of frames. Bytes 2 and 3 of a
 *          frame, the high one first, say its length without 6, so it has 6 to 2,048 bytes; its first is not 0xFF
 * place    how many of these bytes have been sent: the next to send is frames[place]
 * count    the packet's count, of which the lowest four bits go into it
 * output   188 bytes or more; the packet is written to its front
 *
 * Answers 52, or 51, or 0. Then `place` and `count` are those of the next call: more frames may be put behind
 * those that are there, and those of which every byte is sent may be taken away, with their lengths from place. All
 * frames given are judged on every call, so it is the cheaper the fewer they are. Where nothing is left to send,
 * the null packet is written: `null` is true, and place and count are those that were passed. Refused: null is
 * false, place and count are those that were passed, and output is as it was. */
struct sklyapina_mpeg_written {
    uint32_t code;
    size_t place;
    uint8_t count;
    bool null;
};

struct sklyapina_mpeg_written sklyapina_mpeg_write(const uint8_t *frames, size_t frames_length,
                                                   const uint16_t *lengths, size_t lengths_length,
                                                   size_t place, uint8_t count,
                                                   uint8_t *output, size_t output_length);

/* The frames back from MPEG packets, as a modem finds them.
 *
 * packets  MPEG packets back to back, as calls of sklyapina_mpeg_write give them one after the other, null packets
 *          too. The first call begins at a frame's start; the last may be any
 * output   the frames are written to its front, back to back
 * lengths  the lengths of the frames are written to its front
 *
 * Answers 53, or 51, or 0. Then `frames` says how many frames came back, and `bytes` how long they are together;
 * a last frame whose end is not there is not among them. Refused: both are 0, and output and lengths are as
 * they were. */
struct sklyapina_mpeg_read_back {
    uint32_t code;
    size_t frames;
    size_t bytes;
};

struct sklyapina_mpeg_read_back sklyapina_mpeg_read(const uint8_t *packets, size_t packets_length,
                                                    uint8_t *output, size_t output_length,
                                                    uint16_t *lengths, size_t lengths_length);

/* The null packet, which a channel sends where nothing waits: PID 0x1FFF, and nothing in it but 0xFF. It is always
 * the same, and nothing is refused: ask once, keep it, and hand the modulator its address. Hand it out only where no
 * frame has begun: every packet that was written has gone out, and `place` is 0 or the sum of the first lengths,
 * however many. Else the modem loses the frame, and sklyapina_mpeg_read answers 53. */
struct sklyapina_mpeg_packet {
    uint8_t bytes[SKLYAPINA_MPEG_LENGTH];
};

struct sklyapina_mpeg_packet sklyapina_mpeg_null(void);

/* The packet that a channel sends next: a copy of the first of its queue, or the null packet where the queue has none.
 *
 * queue  the packets that wait, back to back. Only the first 188 bytes are read, and they are not judged; fewer than
 *        188 are no packet
 *
 * Nothing is refused, and the queue is as it was: to take the packet away is the caller's. */
struct sklyapina_mpeg_packet sklyapina_mpeg_hand_out(const uint8_t *queue, size_t queue_length);

#ifdef __cplusplus
}
#define SKLYAPINA_ASSERT static_assert
#else
#define SKLYAPINA_ASSERT _Static_assert
#endif

/* The library was compiled for these sizes and places. sklyapina_sent, sklyapina_mpeg_written and
 * sklyapina_mpeg_read_back have padding, whose bytes mean nothing: compare their fields. */
SKLYAPINA_ASSERT(sizeof(size_t) == 8, "the library is for 64-bit machines");
SKLYAPINA_ASSERT(sizeof(struct sklyapina_flow) == 6, "flow");
SKLYAPINA_ASSERT(offsetof(struct sklyapina_flow, heard) == 0, "flow");
SKLYAPINA_ASSERT(offsetof(struct sklyapina_flow, expected) == 2, "flow");
SKLYAPINA_ASSERT(offsetof(struct sklyapina_flow, held) == 4, "flow");
SKLYAPINA_ASSERT(sizeof(struct sklyapina_row) == 32, "row");
SKLYAPINA_ASSERT(offsetof(struct sklyapina_row, id) == 0, "row");
SKLYAPINA_ASSERT(offsetof(struct sklyapina_row, kind) == 4, "row");
SKLYAPINA_ASSERT(offsetof(struct sklyapina_row, flows) == 8, "row");
SKLYAPINA_ASSERT(sizeof(struct sklyapina_table) == 192, "table");
SKLYAPINA_ASSERT(offsetof(struct sklyapina_table, rows) == 0, "table");
SKLYAPINA_ASSERT(sizeof(struct sklyapina_opening) == 196, "opening");
SKLYAPINA_ASSERT(offsetof(struct sklyapina_opening, table) == 4, "opening");
SKLYAPINA_ASSERT(sizeof(struct sklyapina_closing) == 200, "closing");
SKLYAPINA_ASSERT(offsetof(struct sklyapina_closing, dropped) == 4, "closing");
SKLYAPINA_ASSERT(offsetof(struct sklyapina_closing, table) == 8, "closing");
SKLYAPINA_ASSERT(sizeof(struct sklyapina_received) == 212, "received");
SKLYAPINA_ASSERT(offsetof(struct sklyapina_received, frames) == 4, "received");
SKLYAPINA_ASSERT(offsetof(struct sklyapina_received, bytes) == 8, "received");
SKLYAPINA_ASSERT(offsetof(struct sklyapina_received, dropped) == 12, "received");
SKLYAPINA_ASSERT(offsetof(struct sklyapina_received, gap) == 16, "received");
SKLYAPINA_ASSERT(offsetof(struct sklyapina_received, table) == 20, "received");
SKLYAPINA_ASSERT(sizeof(struct sklyapina_position) == 16, "position");
SKLYAPINA_ASSERT(offsetof(struct sklyapina_position, frame) == 0, "position");
SKLYAPINA_ASSERT(offsetof(struct sklyapina_position, offset) == 8, "position");
SKLYAPINA_ASSERT(sizeof(struct sklyapina_stretch) == 16, "stretch");
SKLYAPINA_ASSERT(offsetof(struct sklyapina_stretch, place) == 0, "stretch");
SKLYAPINA_ASSERT(offsetof(struct sklyapina_stretch, length) == 8, "stretch");
SKLYAPINA_ASSERT(sizeof(struct sklyapina_sent) == 40, "sent");
SKLYAPINA_ASSERT(offsetof(struct sklyapina_sent, length) == 8, "sent");
SKLYAPINA_ASSERT(offsetof(struct sklyapina_sent, position) == 16, "sent");
SKLYAPINA_ASSERT(offsetof(struct sklyapina_sent, number) == 32, "sent");
SKLYAPINA_ASSERT(sizeof(bool) == 1, "the library writes a bool as one byte");
SKLYAPINA_ASSERT(sizeof(struct sklyapina_mpeg_written) == 24, "mpeg written");
SKLYAPINA_ASSERT(offsetof(struct sklyapina_mpeg_written, place) == 8, "mpeg written");
SKLYAPINA_ASSERT(offsetof(struct sklyapina_mpeg_written, count) == 16, "mpeg written");
SKLYAPINA_ASSERT(offsetof(struct sklyapina_mpeg_written, null) == 17, "mpeg written");
SKLYAPINA_ASSERT(sizeof(struct sklyapina_mpeg_read_back) == 24, "mpeg read back");
SKLYAPINA_ASSERT(offsetof(struct sklyapina_mpeg_read_back, frames) == 8, "mpeg read back");
SKLYAPINA_ASSERT(offsetof(struct sklyapina_mpeg_read_back, bytes) == 16, "mpeg read back");
SKLYAPINA_ASSERT(sizeof(struct sklyapina_mpeg_packet) == 188, "mpeg packet");
#undef SKLYAPINA_ASSERT

#endif
