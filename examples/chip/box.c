/*
 * A box with both links on a chip without an operating system: takes the frames of a serial line and the packets of a radio, keeps each
 * message in the chip's flash (flash_log.h), answers with an ACK where one is wanted, and replies to what control messages ask. There is
 * no heap; what it holds and the deepest stack fit into 32 KiB (README.md).
 *
 * AN ACK GOES OUT LAST: a message is in the flash and reported before its ACK is sent. A box that loses its power before then has sent
 * none, and the speaker sends the message again. A message that cannot be kept is not acknowledged.
 */
#include <string.h>

#include "board.h"
#include "flash_log.h"
#include "pitokaenge.h"

/* A frame tells no stream: what comes over the serial line is what the crew says to the speaker. */
#define SERIAL_STREAM PITO_STREAM_ALEXA

/* An ACK belongs to no transaction of ours: any sequence will do. A reply is sent whole before the next begins. */
#define ACK_SEQUENCE 0
#define ROOM PITO_LEAST_ROOM
#define REPLY_ID 0
#define REPLY_SEQUENCE 0

/* What this box says of itself; a real one has Amazon's numbers of the response's members. */
#define SERIAL_NUMBER "K-0042"
#define NAME "Kiln 3"
#define DEVICE_TYPE "A3KILN"
#define FEATURES 0x13
#define ATTRIBUTES 0
#define INFORMATION_MEMBER 3
#define FEATURES_MEMBER 9
static const uint64_t transports[] = {0};

/* A text of this program, and its length. */
#define TEXT(text) (const uint8_t *)(text), sizeof(text) - 1

/* A reply is made in the bytes of the record that was written before it. */
typedef char reply_fits_the_record[PITO_REPLY_SIZE(sizeof SERIAL_NUMBER, sizeof NAME, sizeof DEVICE_TYPE) <= FLASH_LOG_ROOM ? 1 : -1];

static uint64_t extractor[PITO_EXTRACTOR_STATE], receiver[PITO_RECEIVER_STATE];
static pito_slot row[PITO_SLOTS];
/* When a packet last went to each slot, by the packets that came. */
static uint32_t used_at[PITO_SLOTS], packets;
static uint8_t frame[PITO_EXTRACTOR_BUFFER(LIMIT)], buffer[PITO_RECEIVER_BUFFER(LIMIT)];
static uint8_t input[PITO_LARGEST_ROOM], ack[PITO_ACK_SIZE];

static void note_refused(uint64_t number)
{
    if (number != PITO_DONE)
        board_note(number);
}

static void open_radio(void)
{
    memset(row, 0, sizeof row);
    note_refused(pito_receiver_open(LIMIT, receiver, PITO_RECEIVER_STATE));
}

/* ---- Classic */

static void take_bytes(const uint8_t *bytes, size_t length)
{
    uint64_t answer[PITO_FEED_ANSWER];
    while (length > 0) {
        uint64_t number = pito_extractor_feed(extractor, PITO_EXTRACTOR_STATE, frame, sizeof frame, bytes, length, answer,
                                              PITO_FEED_ANSWER);
        note_refused(number);
        /* This box's own memory is wrong: it begins anew. */
        if (number == PITO_REFUSED_UNFIT) {
            note_refused(pito_extractor_open(LIMIT, extractor, PITO_EXTRACTOR_STATE));
            return;
        }
        if (number == PITO_DONE && answer[PITO_FEED_OUTCOME] == PITO_FRAME)
            flash_log_keep(SERIAL_STREAM, frame, (size_t)answer[PITO_FEED_LENGTH]);
        bytes += answer[PITO_FEED_USED];
        length -= (size_t)answer[PITO_FEED_USED];
    }
}

/* ---- Low Energy */

static void send_joined(const uint8_t *bytes, size_t length)
{
    uint64_t answer[PITO_PACKET_READ_ANSWER];
    while (length > 0) {
        uint64_t number = pito_packet_read(bytes, length, LIMIT, answer, PITO_PACKET_READ_ANSWER);
        note_refused(number);
        if (number != PITO_DONE)
            return;
        size_t one = (size_t)answer[PITO_PACKET_READ_END];
        board_send(bytes, one);
        bytes += one;
        length -= one;
    }
}

/* The reply to a control message; one that is itself a response gets none, and so does what is no envelope. */
static void answer_question(const uint8_t *message, size_t length)
{
    uint64_t answer[PITO_REPLY_WRITE_ANSWER];
    uint64_t number = pito_reply_write(message, length, TEXT(SERIAL_NUMBER), TEXT(NAME), TEXT(DEVICE_TYPE), transports,
                                       sizeof transports / sizeof *transports, FEATURES, ATTRIBUTES, INFORMATION_MEMBER,
                                       FEATURES_MEMBER, ROOM, LIMIT, REPLY_ID, REPLY_SEQUENCE, flash_log_room, FLASH_LOG_ROOM,
                                       answer, PITO_REPLY_WRITE_ANSWER);
    note_refused(number);
    if (number == PITO_DONE)
        send_joined(flash_log_room, (size_t)answer[PITO_REPLY_WRITE_WRITTEN]);
}

/* A message stands first in its slot's part of the buffer, and its ACK, if it wants one, in `ack`, until the next packet is taken. */
static void finish(const uint64_t *answer)
{
    uint64_t stream = answer[PITO_ACCEPT_STREAM];
    const uint8_t *message = buffer + PITO_RECEIVER_PART(answer[PITO_ACCEPT_PLACE], LIMIT);
    size_t length = (size_t)answer[PITO_ACCEPT_TOTAL];
    if (!flash_log_keep(stream, message, length))
        return;
    if (answer[PITO_ACCEPT_ACK_WANTED] == 1)
        board_send(ack, sizeof ack);
    if (stream == PITO_STREAM_CONTROL)
        answer_question(message, length);
}

static uint64_t accept(size_t length, uint64_t *answer)
{
    return pito_receiver_accept(receiver, PITO_RECEIVER_STATE, row, PITO_SLOTS, buffer, sizeof buffer, input, length, ACK_SEQUENCE,
                                ack, sizeof ack, answer, PITO_ACCEPT_ANSWER);
}

/* All four slots of the packet's stream are open: a transaction that its speaker gave up stays so. The stalest gives way. */
static void give_way(void)
{
    size_t first = input[0] >> 4 == PITO_STREAM_CONTROL ? 0 : input[0] >> 4 == PITO_STREAM_OTA ? 4 : 8, stalest = first;
    for (size_t slot = first; slot < first + 4; slot++)
        if (packets - used_at[slot] > packets - used_at[stalest])
            stalest = slot;
    memset(&row[stalest], 0, sizeof row[stalest]);
    board_note(NOTE_GAVE_WAY);
}

static void take_packet(size_t length)
{
    uint64_t answer[PITO_ACCEPT_ANSWER];
    uint64_t number = accept(length, answer);
    packets++;
    if (number == PITO_REFUSED_NO_SLOT) {
        give_way();
        number = accept(length, answer);
    }
    note_refused(number);
    if (number == PITO_REFUSED_UNFIT)
        open_radio();
    if (number != PITO_DONE)
        return;
    if (answer[PITO_ACCEPT_OUTCOME] == PITO_PIECE_TAKEN)
        used_at[answer[PITO_ACCEPT_PLACE]] = packets;
    if (answer[PITO_ACCEPT_OUTCOME] == PITO_FINISHED)
        finish(answer);
}

int main(void)
{
    flash_log_open();
    note_refused(pito_extractor_open(LIMIT, extractor, PITO_EXTRACTOR_STATE));
    open_radio();
    for (;;) {
        size_t length = 0;
        int what = board_read(input, sizeof input, &length);
        if (what == BOARD_BYTES)
            take_bytes(input, length);
        else if (what == BOARD_PACKET)
            take_packet(length);
        else
            open_radio();
    }
}
