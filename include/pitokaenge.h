/*
 * Pitokaenge: the link of the stoking box, for C and C++.
 *
 * Bluetooth Low Energy packets and ACKs, Classic frames, control and firmware messages and the outbox file, as
 * functions on numbers and slices. Nothing is allocated, nothing is kept between calls: the caller lends every byte and
 * every state. Each function always returns, on any bytes and any numbers, and is proved to do what its comment says.
 *
 * SLICES. A slice is passed as a pointer and a length, in elements. Pointers are valid, aligned and never null, also where
 * the length is 0 (the toolchain promises nothing of a null pointer; any array's address serves), and a slice that a
 * call may write overlaps no other slice of that call. That is all that a caller owes. Aligned: a row of uint64_t begins at
 * a multiple of 8 bytes, one of pito_slot at a multiple of 2, bytes begin anywhere. Arrays of these types do; a row that is
 * laid over bytes, or an array with the attribute `packed`, may not, and a chip may then stop or answer anything.
 *
 * ROWS. A state and an answer are rows of uint64_t. Each row has an enum: the places of its numbers in their order,
 * and last, as PITO_.._STATE or PITO_.._ANSWER, how many there are, which is the length to pass. A state row goes in
 * and out of the same array; the caller keeps it from one call to the next and need not look inside. The receiver's slots
 * are a row of structs, pito_slot, lent besides.
 *
 * EMPTY. What has no elements may have no address: data() of an empty std::vector is a null pointer, as malloc(0) may be.
 * Pass the address of any object then, with the length 0: v.empty() ? &byte : v.data().
 *
 * THREADS. There is no data but what is lent: calls may run at the same time on any threads and in interrupts, each with
 * rows, slots, buffers and outputs of its own; what a call only reads, other calls may read meanwhile. No call waits or
 * takes a lock, and its time goes by the bytes that it is given; docs/MEMORY.md has the stack of each.
 *
 * NUMBERS. Each function returns 0 or the number of a refusal, PITO_REFUSED_.. below.
 * After every call that does not return 1 the whole answer row is written. After a refusal it is 0 throughout, but
 * for what is said below (the number of bytes used by pito_extractor_feed, the place that goes with 41, of a capture
 * with 42 too, and with 40 to 43 and 46 where an outbox is moved, the field and the place that go with 36, the places of
 * pito_text, the field that goes with 50).
 * A refusal leaves state, slots and lent bytes as they were, except that 20 to 25 leave the extractor outside a frame
 * (20: at the begin of the new one), 10 and 11 leave the transaction's slot idle, 19 leaves slots and buffer as the
 * capture's last packet left them, and pito_extractor_feed has by then stored what came before the refused byte, in state
 * and buffer as single steps would have.
 * Under 1 NOTHING has changed, neither state, slots, lent bytes nor answer; only the answer of pito_extractor_feed, where it
 * has its length, tells then that 0 bytes were used.
 *
 * Signed 32-bit numbers (command, error code, transports) stand in 64 bits in two's complement, sign-extended:
 * (uint64_t)(int64_t)value on the way in, (int32_t)(int64_t)number on the way out.
 */
#ifndef PITOKAENGE_H
#define PITOKAENGE_H

#include <stddef.h>
#include <stdint.h>

#ifdef __cplusplus
extern "C" {
#endif

/*
 * The version of this interface: one more with each change that a caller has to follow. A call that is only added leaves it:
 * pito_packet_read, pito_capture_packet, pito_capture_why and pito_text came to version 6 later than the others, and a program
 * that calls them does not link with an archive from before.
 */
#define PITO_VERSION 6

/*
 * A length has 64 bits on every machine: size_t where that has as many, uint64_t elsewhere. A size_t that is passed widens by
 * itself; a number of an answer row that goes into a size_t of 32 bits fits there where it counts bytes that were lent. With
 * pointers of 32 bits a slice has less than 2 GiB.
 */
#if SIZE_MAX == UINT64_MAX
typedef size_t pito_len;
#else
typedef uint64_t pito_len;
#endif

/* What the library's machine code takes for granted of a pointer, a length and the bytes of a row. */
struct pito_aligned {
    char before;
    uint64_t number;
};
typedef char pito_pointers_have_32_or_64_bits[sizeof(void *) == 4 || sizeof(void *) == 8 ? 1 : -1];
typedef char pito_lengths_have_64_bits[sizeof(pito_len) == 8 ? 1 : -1];
typedef char pito_rows_are_aligned_to_8_bytes[offsetof(struct pito_aligned, number) == 8 ? 1 : -1];

/* What a call returns is to be looked at, and no pointer is null. */
#if defined(__GNUC__)
#define PITO_CALL __attribute__((warn_unused_result, nonnull))
#else
#define PITO_CALL
#endif

/*
 * The archive's own version, which is PITO_VERSION. The number is in the name, and every file that includes this header
 * refers to the function, so that a program does not link with an archive of another version. (Where the compiler is not
 * GCC or Clang, or with --gc-sections on a chip or by a compiler older than 11 and 13, a call of it does the same.)
 */
uint64_t pito_version_6(void);
#if defined(__GNUC__) && defined(__has_attribute)
#if __has_attribute(retain) && defined(__linux__)
static uint64_t (*const pito_archive_version)(void) __attribute__((used, retain)) = pito_version_6;
#else
static uint64_t (*const pito_archive_version)(void) __attribute__((used)) = pito_version_6;
#endif
#endif

/* The limit of a link is its largest message in bytes, 1 to 65,535. It is set when the link is opened. */
#define PITO_LARGEST_LIMIT 65535

/* The slots of a receiver, four for each stream. */
#define PITO_SLOTS 12

/* What the lent buffers have exactly. */
#define PITO_EXTRACTOR_BUFFER(limit) ((limit) + 2)
#define PITO_RECEIVER_BUFFER(limit) (PITO_SLOTS * (limit))

/* The largest payload of a record in an outbox of version 01, in bytes; in one of version 02 it is PITO_LARGEST_LIMIT. */
#define PITO_VERSION_01_LIMIT 4096

/* Streams. */
#define PITO_STREAM_CONTROL 0
#define PITO_STREAM_OTA 2
#define PITO_STREAM_ALEXA 6

/* What a call returns. */
enum {
    PITO_DONE = 0,
    /* A row of another length, numbers that no state or slot can have, a lent buffer of the wrong size, an unlawful state,
     * or used bytes beyond the buffer. */
    PITO_REFUSED_UNFIT = 1,

    /* Packets read. */
    PITO_REFUSED_PACKET_SHORT = 2,    /* packet under 2 bytes, or under its header */
    PITO_REFUSED_STREAM = 3,          /* packet of an unknown stream */
    PITO_REFUSED_RESERVED_BYTE = 4,   /* reserved byte of a first packet not 0 */
    PITO_REFUSED_PACKET_LENGTH = 5,   /* packet length is not header plus payload */
    PITO_REFUSED_TOTAL = 6,           /* total over the limit */
    PITO_REFUSED_EMPTY_PAYLOAD = 7,   /* empty payload, but for a first packet with total 0 */
    PITO_REFUSED_ABOVE_TOTAL = 8,     /* first payload above its total */
    PITO_REFUSED_NO_TRANSACTION = 9,  /* no open transaction of that id in the stream */
    PITO_REFUSED_SEQUENCE = 10,       /* sequence not the next */
    PITO_REFUSED_MISSES_TOTAL = 11,   /* total reached too early, passed, or missed */
    PITO_REFUSED_CONTROL_PACKET = 12, /* type 3 packet that is no ACK and no NACK */
    PITO_REFUSED_NO_SLOT = 18,        /* first packet of an id that is not open, with no idle slot in its stream */

    /* Writers, and 14 and 15 of the ACK that a packet may want. */
    PITO_REFUSED_ROOM = 13,     /* room not 20 to 512 */
    PITO_REFUSED_OUTPUT = 14,   /* output too small */
    PITO_REFUSED_ARGUMENT = 15, /* an argument out of its range */
    PITO_REFUSED_LIMIT = 17,    /* limit not 1 to 65,535, however large */

    /* Reports. */
    PITO_REFUSED_SUM = 19, /* a number of the report would have more than 64 bits */

    /* Frames. F0 begins one, F1 ends it, F2 stands before an escape code. */
    PITO_REFUSED_START_INSIDE = 20, /* F0 inside a frame */
    PITO_REFUSED_FRAME_SHORT = 21,  /* F1 in the header, or under 2 bytes stored */
    PITO_REFUSED_HEADER = 22,       /* packet id not 02, error id not 00, F2 in the header */
    PITO_REFUSED_ESCAPE = 23,       /* F1, or no escape code, after F2 */
    PITO_REFUSED_FRAME_LONG = 24,   /* a byte to store when limit + 2 are held */
    PITO_REFUSED_CHECKSUM = 25,     /* checksum differs */
    PITO_REFUSED_TOO_MUCH = 26,     /* more payload offered than is still missing */

    /* Messages. */
    PITO_REFUSED_MESSAGE_CUT = 30, /* message ends inside a field */
    PITO_REFUSED_VARINT = 31,      /* varint whose tenth byte is above 01 */
    PITO_REFUSED_TAG = 32,         /* field 0 or above 536,870,911; wire type 3, 4, 6, 7 */
    PITO_REFUSED_WIRE_TYPE = 33,   /* known field with another wire type */
    PITO_REFUSED_TOO_MANY = 34,    /* second payload member or firmware_information, ninth transport or component */
    PITO_REFUSED_TEXT = 36,        /* a string not well-formed UTF-8, told with its field and the place in it */

    /* The outbox. */
    PITO_REFUSED_VERSION = 40,       /* outbox empty, or version neither 01 nor 02; capture empty, or version not 01 */
    PITO_REFUSED_RECORD_CUT = 41,    /* record, or packet of a capture, cut short */
    PITO_REFUSED_RECORD_LENGTH = 42, /* record length 0 or over its version's: 4,097 in 01, 65,536 in 02; packet length 0 in a capture */
    PITO_REFUSED_RECORD_STREAM = 43, /* record's stream not 0, 2, 6 */
    PITO_REFUSED_RECORD_LONG = 46,   /* payload over 4,096 on the way to version 01 */

    /* The profile. */
    PITO_REFUSED_PROFILE = 50 /* a profile rule of a segment broken, told with its field */
};

/* ------------------------------------------------------------------------------------------------------------
 * Classic: the extractor
 *
 * State row: pito_extractor_open fills it; keep it from call to call. It has the link's limit, which stays, and how far
 * the extractor is in a frame. Phases: 0 outside, 1 before the packet id, 2 before the error id, 3 before the sequence
 * byte, 4 in the body, 5 after F2. A row of zeros has a limit of 0: every step and feed refuses it by 1.
 * Buffer: exactly PITO_EXTRACTOR_BUFFER(limit) bytes, the same one from call to call. A frame's payload stands first in
 * it when the call that tells the frame returns, and until the next call.
 */
enum {
    PITO_EXTRACTOR_LIMIT,
    PITO_EXTRACTOR_PHASE,
    PITO_EXTRACTOR_SEQUENCE,
    PITO_EXTRACTOR_HELD,
    PITO_EXTRACTOR_STATE
};

/*
 * Opens an extractor for a link with a limit: the empty state, outside a frame.
 * Returns 0, 1, 17.
 */
PITO_CALL uint64_t pito_extractor_open(uint64_t limit, uint64_t *state, pito_len state_len);

/* Outcomes. */
#define PITO_SKIPPED 0  /* of a step: a byte outside a frame */
#define PITO_TAKEN 1    /* of a step: a byte of a frame */
#define PITO_FRAME 2    /* of a step or a feed: a whole frame */
#define PITO_ALL_USED 0 /* of a feed: all bytes used, nothing decided */

/*
 * One byte.
 * Answer: sequence byte and payload length are a frame's, else 0.
 * Returns 0, 1, 20, 21, 22, 23, 24, 25.
 */
enum { PITO_STEP_OUTCOME, PITO_STEP_SEQUENCE, PITO_STEP_LENGTH, PITO_STEP_ANSWER };
PITO_CALL uint64_t pito_extractor_step(uint64_t *state, pito_len state_len, uint8_t *buffer, pito_len buffer_len,
                                       uint8_t byte, uint64_t *answer, pito_len answer_len);

/*
 * Many bytes, up to the first frame or refusal or to their end. Call again with the bytes not yet used.
 * Answer: used is the number of bytes used, also after a refusal, where the other three are 0. Under 1 it is 0: a loop
 * must end there, as no later call would use more.
 * Returns 0, 1, 20, 21, 22, 23, 24, 25.
 */
enum { PITO_FEED_OUTCOME, PITO_FEED_USED, PITO_FEED_SEQUENCE, PITO_FEED_LENGTH, PITO_FEED_ANSWER };
PITO_CALL uint64_t pito_extractor_feed(uint64_t *state, pito_len state_len, uint8_t *buffer, pito_len buffer_len,
                                       const uint8_t *bytes, pito_len bytes_len, uint64_t *answer, pito_len answer_len);

/* ------------------------------------------------------------------------------------------------------------
 * Classic: the frame writer
 */

/*
 * Writes the frame of a payload, for a link with a limit, from the first byte of the output on.
 * PITO_FRAME_SIZE(payload_len) bytes are enough.
 * Returns 0, 1, 17, 15 (a sequence that is F0, F1, F2 or no byte; a payload over the limit), 14.
 */
#define PITO_FRAME_SIZE(payload_len) (2 * (payload_len) + 9)
enum { PITO_FRAME_WRITE_WRITTEN, PITO_FRAME_WRITE_ANSWER };
PITO_CALL uint64_t pito_frame_write(uint64_t sequence, uint64_t limit, const uint8_t *payload, pito_len payload_len,
                                    uint8_t *output, pito_len output_len, uint64_t *answer, pito_len answer_len);

/*
 * The same frame by parts, for a box that has no room for all of it: the payload is taken part by part, and the frame
 * goes into one output after another, of 1 byte or more each. Joined, the outputs are what pito_frame_write writes.
 *
 * State row: pito_frame_begin fills it; keep it from call to call. It has the link's limit, the frame's sequence byte,
 * its payload's length, the payload bytes taken and their checksum, the stage and what is pending. The stage is what is
 * written next: 0 F0, 1 packet id, 2 error id, 3 sequence byte, 4 payload and, after it, the checksum's upper byte, 5 its
 * lower byte, 6 F1, 7 nothing, the frame has ended. Pending is the code that is still owed after F2, before that: 0 none,
 * 1 of F0, 2 of F1, 3 of F2. A state is lawful with a limit of 1 to 65,535, a sequence that is no mark, a total up to the
 * limit and no more taken than that.
 */
enum {
    PITO_PARTS_LIMIT,
    PITO_PARTS_SEQUENCE,
    PITO_PARTS_TOTAL,
    PITO_PARTS_TAKEN,
    PITO_PARTS_SUM,
    PITO_PARTS_STAGE,
    PITO_PARTS_PENDING,
    PITO_PARTS_STATE
};

/*
 * Begins a frame whose payload will have `total` bytes, for a link with a limit.
 * Returns 0, 1, 17, 15 (a sequence that is F0, F1, F2 or no byte; a total over the limit).
 */
PITO_CALL uint64_t pito_frame_begin(uint64_t sequence, uint64_t limit, uint64_t total, uint64_t *state,
                                    pito_len state_len);

/*
 * Writes the frame on, from the first byte of the output. `payload` is any part of the payload that begins at its first
 * byte not yet taken, of 0 bytes too. The output is filled unless the frame ends or needs a payload byte that is not
 * offered: call again, with the payload after the bytes taken, until the answer tells that the frame has ended. After
 * that a call with no payload writes nothing.
 * Answer:
 *   taken    the payload bytes taken: those whose first output byte is written
 *   written  the output bytes written
 *   ended    1 if the whole frame is written, else 0
 * Returns 0, 1, 26 (more payload than is missing), 14 (an output of length 0), the first that holds in this order.
 */
enum { PITO_FRAME_PART_TAKEN, PITO_FRAME_PART_WRITTEN, PITO_FRAME_PART_ENDED, PITO_FRAME_PART_ANSWER };
PITO_CALL uint64_t pito_frame_part(uint64_t *state, pito_len state_len, const uint8_t *payload, pito_len payload_len,
                                   uint8_t *output, pito_len output_len, uint64_t *answer, pito_len answer_len);

/*
 * The sequence byte after a sequence byte.
 * Returns 0, 1.
 */
enum { PITO_NEXT_SEQUENCE_NEXT, PITO_NEXT_SEQUENCE_ANSWER };
PITO_CALL uint64_t pito_next_sequence(uint8_t sequence, uint64_t *answer, pito_len answer_len);

/* ------------------------------------------------------------------------------------------------------------
 * Low Energy: sending
 */

/*
 * Writes one packet of a message: the one whose piece begins at the place, first in the output. Begin at place 0 and
 * go on at the next place that each call tells, with all other arguments the same, until the next place is
 * message_len (an empty message has one packet).
 *   room      the largest whole packet in bytes, 20 to 512: the link's ATT_MTU less 3, which ATT itself takes, but at
 *             most 512; the output has at least this size
 *   limit     the link's, 1 to 65,535
 *   stream    0, 2 or 6
 *   id        the transaction's, 0 to 15
 *   sequence  the first packet's, 0 to 15; each later packet has the next one by itself
 *   ack       1 if an ACK is wanted, else 0
 *   message   at most as many bytes as the limit
 * Returns 0, 1, 13, 17, 15 (stream, id, sequence, ack or message size out of range; a place where no piece begins), 14
 * (an output smaller than the room), the first that holds in this order.
 */
#define PITO_LEAST_ROOM 20
#define PITO_LARGEST_ROOM 512
enum { PITO_PACKET_WRITE_WRITTEN, PITO_PACKET_WRITE_NEXT_PLACE, PITO_PACKET_WRITE_ANSWER };
PITO_CALL uint64_t pito_packet_write(uint64_t room, uint64_t limit, uint64_t stream, uint64_t id, uint64_t sequence,
                                     uint64_t ack, const uint8_t *message, pito_len message_len, uint64_t place,
                                     uint8_t *output, pito_len output_len, uint64_t *answer, pito_len answer_len);

/*
 * Writes the ACK (positive 1) or NACK (positive 0) of a request: six bytes, first in the output. Stream and id are
 * the request's; any sequence from 0 to 15. The ACK of a message that wants one is written by pito_receiver_accept.
 * Returns 0, 1, 15 (stream, id, sequence or positive out of range), 14.
 */
#define PITO_ACK_SIZE 6
enum { PITO_ACK_WRITE_WRITTEN, PITO_ACK_WRITE_ANSWER };
PITO_CALL uint64_t pito_ack_write(uint64_t stream, uint64_t id, uint64_t sequence, uint64_t positive, uint8_t *output,
                                  pito_len output_len, uint64_t *answer, pito_len answer_len);

/* The types of a packet. */
#define PITO_PACKET_FIRST 0        /* of a message, the first or only one */
#define PITO_PACKET_CONTINUATION 1 /* one between the first and the last */
#define PITO_PACKET_LAST 2
#define PITO_PACKET_CONTROL 3 /* an ACK or a NACK */

/*
 * Reads the packet at the front of some bytes, and tells where it ends. Packets that stand joined, as those of a reply, are
 * cut apart so: the next one begins where this one ends, until no bytes are left. Bytes that end before the packet does are
 * refused: where it is right so far by 2 in its head and by 5 in its payload, an ACK or NACK by 2 under two bytes and by 12 from
 * there on. What stands behind a packet is not looked at.
 *   limit  the largest total that is taken, any number: the link's limit, or PITO_LARGEST_LIMIT, which takes every total
 * Answer:
 *   end            how many bytes the packet has, at most bytes_len
 *   stream, id, sequence  the packet's
 *   kind           its type, PITO_PACKET_FIRST to PITO_PACKET_CONTROL
 *   ack            its ACK flag: 1 if an ACK is wanted, else 0; of an ACK 1, of a NACK 0
 *   extended       1 if its payload's length has two bytes, else 0
 *   total          the message's length, of a first packet; else 0
 *   start, length  of the payload, within the bytes; 0 of an ACK and a NACK
 * Returns 0, 1, or what pito_receiver_accept returns of the packet by itself: 2, 3, 12, 4, 5, 6, 7, 8.
 */
enum {
    PITO_PACKET_READ_END,
    PITO_PACKET_READ_STREAM,
    PITO_PACKET_READ_ID,
    PITO_PACKET_READ_SEQUENCE,
    PITO_PACKET_READ_KIND,
    PITO_PACKET_READ_ACK,
    PITO_PACKET_READ_EXTENDED,
    PITO_PACKET_READ_TOTAL,
    PITO_PACKET_READ_START,
    PITO_PACKET_READ_LENGTH,
    PITO_PACKET_READ_ANSWER
};
PITO_CALL uint64_t pito_packet_read(const uint8_t *bytes, pito_len bytes_len, uint64_t limit, uint64_t *answer,
                                    pito_len answer_len);

/* ------------------------------------------------------------------------------------------------------------
 * Low Energy: receiving
 *
 * State row: pito_receiver_open fills it; keep it. It is the link's limit alone, and no packet changes it. A row of zeros
 * has a limit of 0: every packet given to it is refused by 1.
 * Slots: a row of PITO_SLOTS structs, 96 bytes, the same one from call to call. Each stream has four, in the order control
 * (places 0 to 3), OTA (4 to 7), Alexa (8 to 11), so that four transactions of a stream can be open at a time. A slot that
 * is all 0 is idle, so a row of zeros is that of a new link: `static pito_slot row[PITO_SLOTS];` or `= {{0}}`. Opening a
 * receiver leaves the row alone: to begin anew, set it to 0. A call may store a slot of the row as it was, also where it
 * refuses: a row in memory that cannot be written faults.
 * Lawful rows: PITO_SLOTS slots, each idle or open as below, and no two open slots of a stream with the same id.
 * Buffer: exactly PITO_RECEIVER_BUFFER(limit) bytes, the same one from call to call. The part of the slot at a place begins
 * at PITO_RECEIVER_PART(place, limit) and has as many bytes as the limit.
 */
typedef struct {
    uint8_t opened;   /* 0 idle: then all others are 0 too; 1 open */
    uint8_t id;       /* the transaction's, 0 to 15 */
    uint8_t sequence; /* its last packet's, 0 to 15 */
    uint8_t wanted;   /* 1 if a packet of it asked for an ACK, else 0 */
    uint16_t total;   /* the message's length, up to the limit */
    uint16_t held;    /* how much of it has come: 1 or more, less than the total */
} pito_slot;

/* The library's own struct has 8 bytes, with no byte between its numbers. */
typedef char pito_slot_has_8_bytes[sizeof(pito_slot) == 8 ? 1 : -1];

enum { PITO_RECEIVER_LIMIT, PITO_RECEIVER_STATE };

/* Where the part of the slot at a place, 0 to 11, begins in the buffer. */
#define PITO_RECEIVER_PART(place, limit) ((place) * (limit))

/*
 * Opens a receiver for a link with a limit. The row of slots has to be lent all 0 to the first packet.
 * Returns 0, 1, 17; a refusal leaves the state row.
 */
PITO_CALL uint64_t pito_receiver_open(uint64_t limit, uint64_t *state, pito_len state_len);

/* Outcomes. */
#define PITO_PIECE_TAKEN 0 /* a piece of a transaction, with more to come */
#define PITO_FINISHED 1    /* the message is whole: it stands first in its slot's part, until the slot is taken again */
#define PITO_ACKED 2       /* an ACK */
#define PITO_NACKED 3      /* a NACK */

/*
 * One packet, accepted and answered at once.
 *   state     the link's, as pito_receiver_open left it
 *   row       the slots
 *   packet    as it came, any bytes
 *   sequence  the ACK's own, if one is written, 0 to 15: any will do, and it has nothing to do with the packet's
 *   out       where the ACK goes: at least PITO_ACK_SIZE bytes, of which no more than the first PITO_ACK_SIZE are written;
 *             not the packet's own bytes
 * A first packet whose id is open in its stream replaces that transaction, in the same slot. Otherwise it takes the lowest
 * idle slot of its stream, also where it finishes at once; if there is none, it is refused by 18. Every other packet of a
 * message goes to the slot that is open for its id in its stream; there is never more than one.
 * A packet that finishes a transaction which wants an ACK writes the ACK first in out: a whole packet, to be sent as it is
 * once the message is safe. Every other outcome and every refusal leaves all of out. NACKs are written by request, with
 * pito_ack_write; no call sends anything.
 * What an outcome leaves besides:
 *   PITO_PIECE_TAKEN  the slot open, the piece in the slot's part at the count that was held
 *   PITO_FINISHED     the slot idle, the last piece likewise: the message stands first in the part
 *   PITO_ACKED, PITO_NACKED  row and buffer as they were
 * No other slot and no byte of another slot's part changes.
 * Answer:
 *   stream, id  the packet's
 *   sequence    an ACK's or NACK's own, else 0
 *   total       the length of a finished message, else 0
 *   ACK wanted  1 if a message is finished and any packet of its transaction asked for an ACK: out has it; else 0
 *   replaced    1 if a first packet replaced an open transaction of its id, else 0
 *   place       the slot's, 0 to 11, of a piece taken and of a finished message, else 0
 * Returns 0, or the first that holds of: 1 (state or answer row of another length, limit out of range, row or buffer of
 * another size, an unlawful row); 15, a sequence above 15, however large; 14, an out under PITO_ACK_SIZE bytes; then, and
 * not before, the packet is looked at: 2, 3, 12, 4, 5, 6, 7, 8, 18, 9, 10, 11. 10 and 11 leave the transaction's slot idle and
 * every byte as it was; all others leave row and buffer too. After 15, 14 and 18 the same packet can be given again: after
 * 18 it is taken once a transaction of its stream has ended.
 */
enum {
    PITO_ACCEPT_OUTCOME,
    PITO_ACCEPT_STREAM,
    PITO_ACCEPT_ID,
    PITO_ACCEPT_SEQUENCE,
    PITO_ACCEPT_TOTAL,
    PITO_ACCEPT_ACK_WANTED,
    PITO_ACCEPT_REPLACED,
    PITO_ACCEPT_PLACE,
    PITO_ACCEPT_ANSWER
};
PITO_CALL uint64_t pito_receiver_accept(const uint64_t *state, pito_len state_len, pito_slot *row, pito_len row_len,
                                        uint8_t *buffer, pito_len buffer_len, const uint8_t *packet,
                                        pito_len packet_len, uint64_t sequence, uint8_t *out, pito_len out_len,
                                        uint64_t *answer, pito_len answer_len);

/*
 * Reads the packet at a place of a capture of one direction: the byte 01, then each packet with its length of two bytes,
 * big-endian, before it. The place is that of a packet's length: begin at place 1 and go on at the next place that each call
 * tells, until the outcome is the end. What comes after the packet is not looked at.
 * Answer, all 0 at the end:
 *   outcome        PITO_PACKET, or PITO_END
 *   start, length  the packet's, within the capture
 *   next           the place behind the packet
 *   place          41 and 42: the place that was asked for; else 0
 * Returns 0, 1, 40, 15 (place 0, or beyond the bytes), 42 (a length of 0), 41.
 */
#define PITO_PACKET 1
enum {
    PITO_CAPTURE_PACKET_OUTCOME,
    PITO_CAPTURE_PACKET_START,
    PITO_CAPTURE_PACKET_LENGTH,
    PITO_CAPTURE_PACKET_NEXT,
    PITO_CAPTURE_PACKET_PLACE,
    PITO_CAPTURE_PACKET_ANSWER
};
PITO_CALL uint64_t pito_capture_packet(const uint8_t *capture, pito_len capture_len, uint64_t place, uint64_t *answer,
                                       pito_len answer_len);

/* Outcomes; a capture that is refused has none, and 0 stands there. */
#define PITO_LAWFUL 1   /* our writer writes these packets, for some transactions */
#define PITO_OPEN 2     /* the capture ends inside a transaction */
#define PITO_UNLAWFUL 3 /* no continuation could be lawful */

/*
 * Judges another sender by a capture of one direction: the byte 01, then each packet with its length of two bytes,
 * big-endian, before it. Lawful are the packets that our writer writes at this room for some transactions of up to the
 * limit, those of each stream one after another, the streams mixed in any way, with ACKs and NACKs anywhere. A capture
 * may have any length: the 65,536 bytes are the program's.
 * Answer:
 *   place  unlawful: where the length of the first packet stands after which no continuation could be lawful; 41 and 42:
 *          where the length of the packet stands; else 0. The byte 01 has place 0.
 * Returns 0, 1, 13, 17, or, before any packet is judged, 40, 42 (a length of 0), 41.
 */
enum { PITO_CAPTURE_JUDGE_OUTCOME, PITO_CAPTURE_JUDGE_PLACE, PITO_CAPTURE_JUDGE_ANSWER };
PITO_CALL uint64_t pito_capture_judge(const uint8_t *capture, pito_len capture_len, uint64_t room, uint64_t limit,
                                      uint64_t *answer, pito_len answer_len);

/* What was expected of a packet that is not lawful; 0: nothing, its stream is none. */
#define PITO_EXPECTED_ANY_FIRST 1 /* a first packet of any message: nothing is open, and what came is refused or no first one */
#define PITO_EXPECTED_FIRST 2     /* the first packet of a message of the total that came, with any id and sequence */
#define PITO_EXPECTED_NEXT 3      /* the next packet of the transaction that is open */

/*
 * Judges a capture as pito_capture_judge does, and tells why.
 * Answer:
 *   outcome, place  as pito_capture_judge tells them
 *   control, ota, alexa: what is open on each stream, at the end of a lawful or open capture, and of an unlawful one before the
 *   packet that decides; all 0 where nothing is
 *     .._opened     1
 *     .._id         the transaction's
 *     .._left       the bytes still to come
 *     .._sequence   the next packet's
 *   what came, if it is unlawful; else 0. The fields of a byte that the packet does not have are 0
 *     refusal       the number by which pito_receiver_accept, at this limit, refuses this packet whatever is open: 2 to 8 or
 *                   12; else 0
 *     size          of the packet, in bytes
 *     stream        whatever number stands there, 0 to 15
 *     id, sequence, kind (0 to 3, its type), ack, extended
 *     total         a first packet's, if it is not refused; else 0
 *     length        the payload's, if it is not refused; else 0
 *   what was expected, if it is unlawful; else 0
 *     expected      PITO_EXPECTED_.., or 0
 *     expected_id, expected_sequence  of PITO_EXPECTED_NEXT; else 0
 *     expected_kind, expected_length, expected_extended  of PITO_EXPECTED_FIRST and PITO_EXPECTED_NEXT; else 0
 *     expected_last 1 if that packet takes all that is left: only then may its ACK flag be 1; else 0
 * Returns what pito_capture_judge returns: 0, 1, 13, 17, 40, 42 (a length of 0), 41.
 */
enum {
    PITO_CAPTURE_WHY_OUTCOME,
    PITO_CAPTURE_WHY_PLACE,
    PITO_CAPTURE_WHY_CONTROL_OPENED,
    PITO_CAPTURE_WHY_CONTROL_ID,
    PITO_CAPTURE_WHY_CONTROL_LEFT,
    PITO_CAPTURE_WHY_CONTROL_SEQUENCE,
    PITO_CAPTURE_WHY_OTA_OPENED,
    PITO_CAPTURE_WHY_OTA_ID,
    PITO_CAPTURE_WHY_OTA_LEFT,
    PITO_CAPTURE_WHY_OTA_SEQUENCE,
    PITO_CAPTURE_WHY_ALEXA_OPENED,
    PITO_CAPTURE_WHY_ALEXA_ID,
    PITO_CAPTURE_WHY_ALEXA_LEFT,
    PITO_CAPTURE_WHY_ALEXA_SEQUENCE,
    PITO_CAPTURE_WHY_REFUSAL,
    PITO_CAPTURE_WHY_SIZE,
    PITO_CAPTURE_WHY_STREAM,
    PITO_CAPTURE_WHY_ID,
    PITO_CAPTURE_WHY_SEQUENCE,
    PITO_CAPTURE_WHY_KIND,
    PITO_CAPTURE_WHY_ACK,
    PITO_CAPTURE_WHY_EXTENDED,
    PITO_CAPTURE_WHY_TOTAL,
    PITO_CAPTURE_WHY_LENGTH,
    PITO_CAPTURE_WHY_EXPECTED,
    PITO_CAPTURE_WHY_EXPECTED_ID,
    PITO_CAPTURE_WHY_EXPECTED_SEQUENCE,
    PITO_CAPTURE_WHY_EXPECTED_KIND,
    PITO_CAPTURE_WHY_EXPECTED_LENGTH,
    PITO_CAPTURE_WHY_EXPECTED_EXTENDED,
    PITO_CAPTURE_WHY_EXPECTED_LAST,
    PITO_CAPTURE_WHY_ANSWER
};
PITO_CALL uint64_t pito_capture_why(const uint8_t *capture, pito_len capture_len, uint64_t room, uint64_t limit,
                                    uint64_t *answer, pito_len answer_len);

/* ------------------------------------------------------------------------------------------------------------
 * Reports: what the radio cost
 *
 * A report is a row of PITO_REPORT_ROW numbers over any number of captures: for each stream the seven that the enum names.
 * A row of zeros is the empty report. The number of OTA's finished transactions is
 * report[PITO_REPORT_STREAM(PITO_STREAM_OTA) + PITO_REPORT_FINISHED].
 */
enum {
    PITO_REPORT_FIRSTS,   /* first packets that were accepted */
    PITO_REPORT_FINISHED, /* transactions finished */
    PITO_REPORT_REPLACED, /* transactions that a first packet of their id replaced */
    PITO_REPORT_DROPPED,  /* transactions dropped, by 10 or 11 */
    PITO_REPORT_OPEN,     /* transactions left open at the end of a capture */
    PITO_REPORT_PAYLOAD,  /* the messages' bytes of the finished ones */
    PITO_REPORT_BYTES,    /* the bytes of all packets with that stream, ACKs, NACKs and refused ones too, without their lengths */
    PITO_REPORT_NUMBERS
};

/* Where the numbers of a stream begin: of PITO_STREAM_CONTROL, _OTA or _ALEXA. Any other number is taken for the last. */
#define PITO_REPORT_STREAM(stream) \
    ((stream) == PITO_STREAM_CONTROL ? 0 : (stream) == PITO_STREAM_OTA ? PITO_REPORT_NUMBERS : 2 * PITO_REPORT_NUMBERS)

#define PITO_REPORT_ROW (3 * PITO_REPORT_NUMBERS)

/*
 * Adds a capture, as pito_capture_judge takes it, to a report: its packets are given one after another to a fresh link of
 * that limit, as pito_receiver_accept does it, and the ACKs go nowhere.
 *   report  the sums so far, of captures of any limits
 *   row     PITO_SLOTS slots, and
 *   buffer  PITO_RECEIVER_BUFFER(limit) bytes, to work in: what is in them does not matter. Afterwards they are as the
 *           last packet left them; without packets the row is idle and the buffer as it was
 * From a row of zeros on, of each stream, first packets accepted are finished, replaced, dropped and left open together;
 * and the captures may come in any order, as long as none is refused by 19.
 * Answer:
 *   place  41 and 42: where the length of the packet stands in the capture; else 0
 * Returns 0, or the first that holds of: 1, report or answer row of another length; 17; 1, row or buffer of another size;
 * before any packet is taken 40, 42 (a length of 0), 41; 19. Every refusal leaves the report, and all but 19 leave row and
 * buffer too.
 */
enum { PITO_REPORT_ADD_PLACE, PITO_REPORT_ADD_ANSWER };
PITO_CALL uint64_t pito_report_add(uint64_t *report, pito_len report_len, uint64_t limit, pito_slot *row,
                                   pito_len row_len, uint8_t *buffer, pito_len buffer_len, const uint8_t *capture,
                                   pito_len capture_len, uint64_t *answer, pito_len answer_len);

/* ------------------------------------------------------------------------------------------------------------
 * Control messages
 *
 * Readers tell parts as start and length within the message that was read; a message is judged field by field. Writers
 * write from the first byte of the output on, in the shortest form; PITO_.._SIZE is enough output for any arguments of
 * these lengths.
 */

/* The payload of an envelope. */
#define PITO_PAYLOAD_NONE 0
#define PITO_PAYLOAD_RESPONSE 1
#define PITO_PAYLOAD_MEMBER 2

/*
 * Reads a control envelope.
 * Answer:
 *   error_code  a response's, else 0
 *   field, start, length  another member's, or those of a response's payload; 0 where there is none
 * Returns 0, 1, 31, 32, 33, 34, 30.
 */
enum {
    PITO_ENVELOPE_READ_COMMAND,
    PITO_ENVELOPE_READ_PAYLOAD,
    PITO_ENVELOPE_READ_ERROR_CODE,
    PITO_ENVELOPE_READ_FIELD,
    PITO_ENVELOPE_READ_START,
    PITO_ENVELOPE_READ_LENGTH,
    PITO_ENVELOPE_READ_ANSWER
};
PITO_CALL uint64_t pito_envelope_read(const uint8_t *message, pito_len message_len, uint64_t *answer,
                                      pito_len answer_len);

/*
 * Writes a control envelope.
 *   command     a signed 32-bit number
 *   payload     0 none, 1 a response, 2 another member
 *   error_code  a response's, a signed 32-bit number; not looked at otherwise
 *   field       another member's number, 2 to 536,870,911 and not 9; or that of a response's payload, 2 to 536,870,911
 *               (9 too), where 0 is no payload; not looked at with payload 0
 *   bytes       the member's, or those of the response's payload; not looked at where there is none
 * Returns 0, 1, 15, 14.
 */
#define PITO_ENVELOPE_SIZE(bytes_len) ((bytes_len) + 53)
enum { PITO_ENVELOPE_WRITE_WRITTEN, PITO_ENVELOPE_WRITE_ANSWER };
PITO_CALL uint64_t pito_envelope_write(uint64_t command, uint64_t payload, uint64_t error_code, uint64_t field,
                                       const uint8_t *bytes, pito_len bytes_len, uint8_t *output, pito_len output_len,
                                       uint64_t *answer, pito_len answer_len);

/*
 * Reads a response.
 * Answer: field, start and length are its payload's, 0 where there is none.
 * Returns 0, 1, 31, 32, 33, 34, 30.
 */
enum {
    PITO_RESPONSE_READ_ERROR_CODE,
    PITO_RESPONSE_READ_FIELD,
    PITO_RESPONSE_READ_START,
    PITO_RESPONSE_READ_LENGTH,
    PITO_RESPONSE_READ_ANSWER
};
PITO_CALL uint64_t pito_response_read(const uint8_t *message, pito_len message_len, uint64_t *answer,
                                      pito_len answer_len);

/*
 * Writes a response: an error code, a signed 32-bit number, and a payload as the member of a number from 2 to
 * 536,870,911; field 0 is no payload, and the bytes are then not looked at.
 * Returns 0, 1, 15, 14.
 */
#define PITO_RESPONSE_SIZE(bytes_len) ((bytes_len) + 31)
enum { PITO_RESPONSE_WRITE_WRITTEN, PITO_RESPONSE_WRITE_ANSWER };
PITO_CALL uint64_t pito_response_write(uint64_t error_code, uint64_t field, const uint8_t *bytes, pito_len bytes_len,
                                       uint8_t *output, pito_len output_len, uint64_t *answer, pito_len answer_len);

/*
 * Reads device information. Strings are well-formed UTF-8; an absent one is start 0, length 0.
 * Answer: how many transports there are, and from PITO_INFORMATION_READ_TRANSPORT on eight of them, 0 where there are
 * fewer. Field and place go with 36: the string's field, and where in it the first bad sequence begins.
 * Returns 0, 1, 31, 32, 33, 34, 30, 36.
 */
#define PITO_MOST_TRANSPORTS 8
enum {
    PITO_INFORMATION_READ_SERIAL_NUMBER_START,
    PITO_INFORMATION_READ_SERIAL_NUMBER_LENGTH,
    PITO_INFORMATION_READ_NAME_START,
    PITO_INFORMATION_READ_NAME_LENGTH,
    PITO_INFORMATION_READ_DEVICE_TYPE_START,
    PITO_INFORMATION_READ_DEVICE_TYPE_LENGTH,
    PITO_INFORMATION_READ_TRANSPORTS,
    PITO_INFORMATION_READ_TRANSPORT,
    PITO_INFORMATION_READ_FIELD = PITO_INFORMATION_READ_TRANSPORT + PITO_MOST_TRANSPORTS,
    PITO_INFORMATION_READ_PLACE,
    PITO_INFORMATION_READ_ANSWER
};
PITO_CALL uint64_t pito_information_read(const uint8_t *message, pito_len message_len, uint64_t *answer,
                                         pito_len answer_len);

/*
 * Writes device information; transports are at most eight signed 32-bit numbers, each in 64 bits.
 * Answer: field and place go with 36, as in reading.
 * Returns 0, 1, 15, 36 (of the first string in writing order), 14.
 */
#define PITO_INFORMATION_SIZE(serial_number_len, name_len, device_type_len)                                            \
    ((serial_number_len) + (name_len) + (device_type_len) + 124)
enum {
    PITO_INFORMATION_WRITE_WRITTEN,
    PITO_INFORMATION_WRITE_FIELD,
    PITO_INFORMATION_WRITE_PLACE,
    PITO_INFORMATION_WRITE_ANSWER
};
PITO_CALL uint64_t pito_information_write(const uint8_t *serial_number, pito_len serial_number_len, const uint8_t *name,
                                          pito_len name_len, const uint8_t *device_type, pito_len device_type_len,
                                          const uint64_t *transports, pito_len transports_len, uint8_t *output,
                                          pito_len output_len, uint64_t *answer, pito_len answer_len);

/*
 * Reads device features.
 * Returns 0, 1, 31, 32, 33, 30.
 */
enum { PITO_FEATURES_READ_FEATURES, PITO_FEATURES_READ_DEVICE_ATTRIBUTES, PITO_FEATURES_READ_ANSWER };
PITO_CALL uint64_t pito_features_read(const uint8_t *message, pito_len message_len, uint64_t *answer,
                                      pito_len answer_len);

/*
 * Writes device features, any two numbers of 64 bits.
 * Returns 0, 1, 14.
 */
#define PITO_FEATURES_SIZE 22
enum { PITO_FEATURES_WRITE_WRITTEN, PITO_FEATURES_WRITE_ANSWER };
PITO_CALL uint64_t pito_features_write(uint64_t features, uint64_t device_attributes, uint8_t *output,
                                       pito_len output_len, uint64_t *answer, pito_len answer_len);

/* ------------------------------------------------------------------------------------------------------------
 * Firmware messages
 *
 * As control messages: parts are start and length within the message that was read, in the messages within it too; an
 * absent string is start 0, length 0. Strings are well-formed UTF-8. Offset, sizes and versions are numbers of 32 bits.
 */

/*
 * Reads an UpdateComponentSegment.
 * Answer: the field goes with 50: 2 for an offset that is not 0, else 4 for a signature that is not 64 hexadecimal
 * digits. Field and place go with 36, as for device information.
 * Returns 0, 1, 31, 32, 33, 30, 36, and after them 50.
 */
enum {
    PITO_SEGMENT_READ_NAME_START,
    PITO_SEGMENT_READ_NAME_LENGTH,
    PITO_SEGMENT_READ_OFFSET,
    PITO_SEGMENT_READ_SIZE,
    PITO_SEGMENT_READ_SIGNATURE_START,
    PITO_SEGMENT_READ_SIGNATURE_LENGTH,
    PITO_SEGMENT_READ_FIELD,
    PITO_SEGMENT_READ_PLACE,
    PITO_SEGMENT_READ_ANSWER
};
PITO_CALL uint64_t pito_segment_read(const uint8_t *message, pito_len message_len, uint64_t *answer,
                                     pito_len answer_len);

/*
 * Writes an UpdateComponentSegment. PITO_SEGMENT_SIZE(name_len) bytes are enough.
 * Answer: field and place, as in reading.
 * Returns 0, 1, 15 (an offset or size above 32 bits), 36, 50, 14.
 */
#define PITO_SEGMENT_SIZE(name_len) ((name_len) + 97)
enum { PITO_SEGMENT_WRITE_WRITTEN, PITO_SEGMENT_WRITE_FIELD, PITO_SEGMENT_WRITE_PLACE, PITO_SEGMENT_WRITE_ANSWER };
PITO_CALL uint64_t pito_segment_write(const uint8_t *name, pito_len name_len, uint64_t offset, uint64_t size,
                                      const uint8_t *signature, pito_len signature_len, uint8_t *output,
                                      pito_len output_len, uint64_t *answer, pito_len answer_len);

/*
 * Reads an ApplyFirmware, with the firmware information and the components within. An absent firmware information is
 * told as an empty one.
 * Answer: restart_required is 0 or 1, components tells how many there are, and from PITO_APPLY_READ_COMPONENT on stand
 * the numbers of eight components, each from PITO_APPLY_READ_COMPONENT_AT(0 to 7) on, 0 where there are fewer. Field
 * and place go with 36; the field is that of the string's own message.
 * Returns 0, 1, 31, 32, 33, 34, 30, 36: of the whole message, then of its firmware information, then of each component.
 */
#define PITO_MOST_COMPONENTS 8
enum {
    PITO_COMPONENT_VERSION,
    PITO_COMPONENT_NAME_START,
    PITO_COMPONENT_NAME_LENGTH,
    PITO_COMPONENT_SIZE,
    PITO_COMPONENT_SIGNATURE_START,
    PITO_COMPONENT_SIGNATURE_LENGTH,
    PITO_COMPONENT_ANSWER
};
enum {
    PITO_APPLY_READ_RESTART_REQUIRED,
    PITO_APPLY_READ_VERSION,
    PITO_APPLY_READ_NAME_START,
    PITO_APPLY_READ_NAME_LENGTH,
    PITO_APPLY_READ_LOCALE_START,
    PITO_APPLY_READ_LOCALE_LENGTH,
    PITO_APPLY_READ_VERSION_NAME_START,
    PITO_APPLY_READ_VERSION_NAME_LENGTH,
    PITO_APPLY_READ_COMPONENTS,
    PITO_APPLY_READ_COMPONENT,
    PITO_APPLY_READ_FIELD = PITO_APPLY_READ_COMPONENT + PITO_MOST_COMPONENTS * PITO_COMPONENT_ANSWER,
    PITO_APPLY_READ_PLACE,
    PITO_APPLY_READ_ANSWER
};
#define PITO_APPLY_ROW PITO_APPLY_READ_FIELD
#define PITO_APPLY_READ_COMPONENT_AT(index) (PITO_APPLY_READ_COMPONENT + (index) * PITO_COMPONENT_ANSWER)
PITO_CALL uint64_t pito_apply_read(const uint8_t *message, pito_len message_len, uint64_t *answer, pito_len answer_len);

/*
 * Writes an ApplyFirmware, of a row of PITO_APPLY_ROW numbers with the places of pito_apply_read's answer. Its strings
 * are parts of the texts: the first PITO_APPLY_ROW numbers that pito_apply_read told are such a row, and the message
 * that it read the texts of it. Components from the row's number on are not looked at. PITO_APPLY_SIZE(components,
 * strings_len) bytes are enough, where strings_len is the sum of the lengths of all strings, those of the components too.
 * Answer: field and place go with 36, as in reading, of the first string in writing order: the components' strings
 * stand between name and locale.
 * Returns 0, 1 (also for a row that does not have PITO_APPLY_ROW numbers), 15 (restart_required neither 0 nor 1, a version or
 * size above 32 bits, more than eight components, a part that does not lie within the texts), 36, 14.
 */
#define PITO_APPLY_SIZE(components, strings_len) (55 * (components) + (strings_len) + 66)
enum { PITO_APPLY_WRITE_WRITTEN, PITO_APPLY_WRITE_FIELD, PITO_APPLY_WRITE_PLACE, PITO_APPLY_WRITE_ANSWER };
PITO_CALL uint64_t pito_apply_write(const uint64_t *row, pito_len row_len, const uint8_t *texts, pito_len texts_len,
                                    uint8_t *output, pito_len output_len, uint64_t *answer, pito_len answer_len);

/* ------------------------------------------------------------------------------------------------------------
 * Any message, field by field
 */

/* Outcomes of a reading at a place: the end of the message, capture or file, a field of a message, a record of an outbox. */
#define PITO_END 0
#define PITO_FIELD 1
#define PITO_RECORD 1

/* The kinds of a field. */
#define PITO_KIND_VARINT 0
#define PITO_KIND_EIGHT_BYTES 1
#define PITO_KIND_BYTES 2
#define PITO_KIND_FOUR_BYTES 5

/*
 * Reads the field at a place of any message, as a member of an envelope whose schema is not this library's. Begin at
 * place 0 and go on at the next place that each call tells, until the outcome is the end: at the message's length and
 * beyond it.
 * Answer, all 0 at the end:
 *   value          a varint's 64 bits; 0 of the other kinds
 *   start, length  of the bytes: those that the field's own length counts, or eight, or four; 0 for a varint
 *   next           the place behind the field
 * Returns 0, 1, 31, 32, 30.
 */
enum {
    PITO_FIELD_READ_OUTCOME,
    PITO_FIELD_READ_NUMBER,
    PITO_FIELD_READ_KIND,
    PITO_FIELD_READ_VALUE,
    PITO_FIELD_READ_START,
    PITO_FIELD_READ_LENGTH,
    PITO_FIELD_READ_NEXT,
    PITO_FIELD_READ_ANSWER
};
PITO_CALL uint64_t pito_field_read(const uint8_t *message, pito_len message_len, uint64_t place, uint64_t *answer,
                                   pito_len answer_len);

/* ------------------------------------------------------------------------------------------------------------
 * The reply to the handshake
 */

/*
 * Writes the reply to a finished control transaction: what to send where pito_receiver_accept tells PITO_FINISHED on the
 * control stream. Device information answers command 20, device features 28, a bare success 94 and 95, "unsupported"
 * any other. The reply stands in the output as its packets, joined; pito_packet_read tells where each ends. A message
 * that is itself a response gets no reply: 0 bytes written.
 *   message             the transaction's payload
 *   transports          at most eight signed 32-bit numbers, each in 64 bits
 *   information_member  the response's member numbers from Amazon's schema, 2 to 536,870,911
 *   features_member
 *   room, limit         the link's, as in pito_packet_write
 *   id, sequence        of the reply's own transaction, 0 to 15
 * PITO_REPLY_SIZE(serial_number_len, name_len, device_type_len) bytes are enough at every room.
 * Answer: field and place go with 36, as in reading device information.
 * Only what the reply carries is judged. Returns 0, 1, 30 to 34 (the message's own), 13, 17, 15 (also a reply above the
 * limit), 36, 14 (an output smaller than all the packets), the first that holds in this order.
 */
#define PITO_REPLY_SIZE(serial_number_len, name_len, device_type_len)                                                  \
    (2 * ((serial_number_len) + (name_len) + (device_type_len)) + 360)
enum { PITO_REPLY_WRITE_WRITTEN, PITO_REPLY_WRITE_FIELD, PITO_REPLY_WRITE_PLACE, PITO_REPLY_WRITE_ANSWER };
PITO_CALL uint64_t pito_reply_write(const uint8_t *message, pito_len message_len, const uint8_t *serial_number,
                                    pito_len serial_number_len, const uint8_t *name, pito_len name_len,
                                    const uint8_t *device_type, pito_len device_type_len, const uint64_t *transports,
                                    pito_len transports_len, uint64_t features, uint64_t device_attributes,
                                    uint64_t information_member, uint64_t features_member, uint64_t room,
                                    uint64_t limit, uint64_t id, uint64_t sequence, uint8_t *output,
                                    pito_len output_len, uint64_t *answer, pito_len answer_len);

/* ------------------------------------------------------------------------------------------------------------
 * The outbox file: its bytes in a lent buffer, of which the first `used` are the file
 *
 * The first byte is the version. Version 01 has payloads of up to 4,096 bytes and lengths of two bytes, version 02
 * payloads of up to 65,535 and lengths of four. A new outbox is of version 02; files of 01 are read and appended to as
 * such.
 *
 * A file that is larger than the memory needs no buffer of its size. A record appended to an outbox of the version
 * byte alone stands behind that byte as it would at the end of any outbox of that version; and the version byte with
 * the bytes from a record's place on is an outbox whose first record it is. PITO_ONE_RECORD(payload_len) bytes are
 * enough for both where no payload is longer (examples/c).
 */

/* Where the first record stands; what is enough for a record of any version, and for an outbox of one record. */
#define PITO_FIRST_PLACE 1
#define PITO_RECORD_SIZE(payload_len) ((payload_len) + 5)
#define PITO_ONE_RECORD(payload_len) (PITO_FIRST_PLACE + PITO_RECORD_SIZE(payload_len))

/*
 * Begins a new outbox, of version 02: one byte, first in the output.
 * Returns 0, 1, 14.
 */
enum { PITO_OUTBOX_NEW_USED, PITO_OUTBOX_NEW_ANSWER };
PITO_CALL uint64_t pito_outbox_new(uint8_t *output, pito_len output_len, uint64_t *answer, pito_len answer_len);

/*
 * Appends a record of their version right after the used bytes, which must be a whole outbox: 5 bytes and the payload,
 * in version 01 3 and the payload. Each call looks through all used bytes, record by record, so a large outbox makes it
 * slow: see above for one record at a time.
 *   stream   0, 2 or 6
 *   payload  at most 65,535 bytes, in version 01 at most 4,096
 * Answer: used is the number of used bytes afterwards; the cut place goes with 41, and is where the record that is cut
 * short begins: appending with used set to it drops what is left of that record.
 * Returns 0, 1, 40 (of the used bytes), 15 (stream or payload size), 14, or the used bytes' other refusals, 42, 41, 43.
 */
enum { PITO_OUTBOX_APPEND_USED, PITO_OUTBOX_APPEND_CUT_PLACE, PITO_OUTBOX_APPEND_ANSWER };
PITO_CALL uint64_t pito_outbox_append(uint8_t *buffer, pito_len buffer_len, uint64_t used, uint64_t stream,
                                      const uint8_t *payload, pito_len payload_len, uint64_t *answer,
                                      pito_len answer_len);

/*
 * Reads the record at a place of an outbox. Begin at place 1 and go on at the next place that each call tells, until
 * the outcome is the end.
 * Answer: start and length are the payload's, within the bytes; the cut place goes with 41, and is the place that was
 * asked for.
 * Returns 0, 1, 40, 15 (place 0, or beyond the bytes), 42, 41, 43.
 */
enum {
    PITO_OUTBOX_RECORD_OUTCOME,
    PITO_OUTBOX_RECORD_STREAM,
    PITO_OUTBOX_RECORD_START,
    PITO_OUTBOX_RECORD_LENGTH,
    PITO_OUTBOX_RECORD_NEXT,
    PITO_OUTBOX_RECORD_CUT_PLACE,
    PITO_OUTBOX_RECORD_ANSWER
};
PITO_CALL uint64_t pito_outbox_record(const uint8_t *bytes, pito_len bytes_len, uint64_t place, uint64_t *answer,
                                      pito_len answer_len);

/*
 * Whether all of an outbox is whole: 0, or its first refusal.
 * Answer: the cut place goes with 41: up to there the outbox is whole.
 * Returns 0, 1, 40, 42, 41, 43.
 */
enum { PITO_OUTBOX_WHOLE_CUT_PLACE, PITO_OUTBOX_WHOLE_ANSWER };
PITO_CALL uint64_t pito_outbox_whole(const uint8_t *bytes, pito_len bytes_len, uint64_t *answer, pito_len answer_len);

/*
 * Writes an outbox as version 01, or as version 02: the same records in the same order. One that has the version already
 * is copied. From 01 to 02 each record grows by 2 bytes; what comes back is, byte for byte, what went. bytes_len is
 * enough output to 01 and for a copy, 2 * bytes_len to 02.
 * Answer: the number of bytes written; the place goes with 40 to 43 and 46, and is where the record begins that the
 * refusal is of (0 with 40).
 * Returns 0, 1, the outbox's first refusal (40, 42, 41, 43), then 46 (to version 01: a payload over 4,096), then 14.
 */
enum { PITO_OUTBOX_TO_01_SIZE, PITO_OUTBOX_TO_01_PLACE, PITO_OUTBOX_TO_01_ANSWER };
PITO_CALL uint64_t pito_outbox_to_01(const uint8_t *bytes, pito_len bytes_len, uint8_t *output, pito_len output_len,
                                     uint64_t *answer, pito_len answer_len);
enum { PITO_OUTBOX_TO_02_SIZE, PITO_OUTBOX_TO_02_PLACE, PITO_OUTBOX_TO_02_ANSWER };
PITO_CALL uint64_t pito_outbox_to_02(const uint8_t *bytes, pito_len bytes_len, uint8_t *output, pito_len output_len,
                                     uint64_t *answer, pito_len answer_len);

/* ------------------------------------------------------------------------------------------------------------
 * Text
 *
 * Tells where bytes are not text: a record's payload, a string of a message. Well formed is UTF-8 by Unicode's Table 3-7. Not
 * shown are the characters that a terminal or a page would follow: control characters (U+0000 to U+001F, U+007F to U+009F),
 * U+061C, U+200E, U+200F, U+2028 to U+202E and U+2066 to U+2069. The bytes are text if both places are their length.
 * Answer, after 36 too:
 *   bad     where the first sequence begins that is not well formed; the length if there is none
 *   hidden  where the first character begins that is not shown, whatever stands before it; the length if there is none
 * Returns 0, 1, 36 (a sequence is not well formed).
 */
enum { PITO_TEXT_BAD, PITO_TEXT_HIDDEN, PITO_TEXT_ANSWER };
PITO_CALL uint64_t pito_text(const uint8_t *text, pito_len text_len, uint64_t *answer, pito_len answer_len);

#ifdef __cplusplus
}
#endif

#endif
