/*
 * A Low Energy box's main loop over the library's C interface: takes packets from standard input, keeps each message that
 * they finish as a record of an outbox file (outbox_file.h), answers with an ACK where one is wanted, and replies to what
 * control messages ask. Without the replies to its first two questions a speaker disconnects.
 *
 *   low_energy_box [--times] OUTBOX_FILE RADIO < PACKETS
 *
 * PACKETS is what came over the air, RADIO the path of what takes the packets to be sent (a pipe or a device, which is
 * there already): each packet with its length before it, two bytes, big-endian, and each one sent in one write.
 *
 * Standard output: `record PLACE LENGTH` for each record, as of box.c, and written after the record's fsync has come back.
 * Standard error: what box.c says of the file; `refused NUMBER` for a refused packet, `replaced STREAM` where a first packet
 * replaced an open transaction of its id, `cleared STREAM` where one found no slot and the transaction that had been silent
 * longest gave way to it, `no envelope NUMBER` for a control message that is none, `too long LENGTH` for a packet that no radio
 * sends, each with `, COUNT more` where the same came again before the next record; and what ended the program.
 * Ends with 0 at the end of the input (a last packet that is cut is not taken); with 1 and with 2 as box.c does, with 1
 * also where nothing can be sent any more, or for two seconds, since no ACK can go out then, and, before anything is written,
 * where RADIO is the outbox file or another outbox.
 *
 * AN ACK GOES OUT LAST, and after it only the reply. It says SUCCESS, and a speaker that has it does not send the message
 * again. So a message is on the disk before its ACK is sent. A box that ends before then, however it ends, sends none, and
 * the speaker sends the message again: none that was acknowledged is ever lost, and one that was not may be kept twice.
 */
#define _XOPEN_SOURCE 700

#include <errno.h>
#include <fcntl.h>
#include <poll.h>
#include <stdlib.h>
#include <string.h>
#include <sys/types.h>
#include <unistd.h>

#include "outbox_file.h"

/* An ACK belongs to no transaction of ours: any sequence will do. */
#define ACK_SEQUENCE 0

#define SLOTS_OF_A_STREAM (PITO_SLOTS / 3)

/* Before each packet, both ways. */
#define LENGTH_SIZE 2

/* In milliseconds. */
#define RADIO_PATIENCE 2000

/* Replies: every link has the least room. One is sent whole before the next begins, so that id and sequence can stay. */
#define ROOM PITO_LEAST_ROOM
#define REPLY_ID 0
#define REPLY_SEQUENCE 0

/*
 * What this box says of itself. The numbers of the response's members are those of tools/control.proto; a real box has
 * Amazon's.
 */
#define SERIAL_NUMBER "K-0042"
#define NAME "Kiln 3"
#define DEVICE_TYPE "A3KILN"
#define FEATURES 0x13
#define ATTRIBUTES 0
#define INFORMATION_MEMBER 3
#define FEATURES_MEMBER 9
static const uint64_t transports[] = {0};

/* A text of this program, and its length. */
#define TEXT(text) (const uint8_t *)(text), sizeof(text) - 1

/*
 * The largest message of the link, in bytes. The receiver's buffer has twelve times as much, since each stream may have
 * four transactions open at a time: with 2,048 all that this box holds fits into 32 KiB (docs/MEMORY.md).
 */
#define LIMIT 2048

static uint64_t receiver[PITO_RECEIVER_STATE];
/* All 0: no transaction is open. */
static pito_slot row[PITO_SLOTS];
/* How many packets had come when the last one went to a slot. */
static uint64_t last_packet[PITO_SLOTS];
static uint64_t packets;
static uint8_t buffer[PITO_RECEIVER_BUFFER(LIMIT)];
static uint8_t record[PITO_ONE_RECORD(LIMIT)];
static uint8_t packet[PITO_LARGEST_ROOM];
static uint8_t ack[PITO_ACK_SIZE];
static uint8_t reply[PITO_REPLY_SIZE(sizeof SERIAL_NUMBER - 1, sizeof NAME - 1, sizeof DEVICE_TYPE - 1)];

static int radio;

/* Where the two paths were exchanged, ACKs must not go into the outbox. */
static void open_radio(const char *path, const char *outbox_path)
{
    radio = open(path, O_WRONLY | O_APPEND | O_NOCTTY);
    if (radio < 0)
        fail("open the radio");
    check_apart(outbox_path, radio, "RADIO");
    if (is_outbox(path, record, sizeof record)) {
        note("box: RADIO is an outbox\n");
        exit(1);
    }
    make_raw(radio);
}

static void open_link(void)
{
    uint64_t number = pito_receiver_open(LIMIT, receiver, PITO_RECEIVER_STATE);
    if (number != PITO_DONE)
        fail_refused("pito_receiver_open", number);
}

/* A radio that takes nothing for so long is as good as gone. */
static void wait_for_radio(void)
{
    struct pollfd output = {0};
    int ready;
    output.fd = radio;
    output.events = POLLOUT;
    do
        ready = poll(&output, 1, RADIO_PATIENCE);
    while (ready < 0 && errno == EINTR);
    if (ready == 0)
        errno = ETIMEDOUT;
    if (ready != 1)
        fail("send a packet");
}

static void send_packet(const uint8_t *bytes, size_t length)
{
    uint8_t sent[LENGTH_SIZE + PITO_LARGEST_ROOM];
    wait_for_radio();
    sent[0] = (uint8_t)(length >> 8);
    sent[1] = (uint8_t)length;
    memcpy(sent + LENGTH_SIZE, bytes, length);
    write_all(radio, sent, LENGTH_SIZE + length, "send a packet");
}

static void send_joined(const uint8_t *bytes, size_t length)
{
    uint64_t answer[PITO_PACKET_READ_ANSWER];
    while (length > 0) {
        uint64_t number = pito_packet_read(bytes, length, LIMIT, answer, PITO_PACKET_READ_ANSWER);
        if (number != PITO_DONE)
            fail_refused("pito_packet_read", number);
        send_packet(bytes, answer[PITO_PACKET_READ_END]);
        bytes += answer[PITO_PACKET_READ_END];
        length -= answer[PITO_PACKET_READ_END];
    }
}

/* Sends the reply to a control message; one that is itself a response gets none, and so does what is no envelope. */
static void answer_question(const uint8_t *message, size_t length)
{
    uint64_t answer[PITO_REPLY_WRITE_ANSWER];
    uint64_t number = pito_reply_write(message, length, TEXT(SERIAL_NUMBER), TEXT(NAME), TEXT(DEVICE_TYPE), transports,
                                       sizeof transports / sizeof *transports, FEATURES, ATTRIBUTES, INFORMATION_MEMBER,
                                       FEATURES_MEMBER, ROOM, LIMIT, REPLY_ID, REPLY_SEQUENCE, reply, sizeof reply, answer,
                                       PITO_REPLY_WRITE_ANSWER);
    switch (number) {
    case PITO_DONE:
        send_joined(reply, answer[PITO_REPLY_WRITE_WRITTEN]);
        break;
    case PITO_REFUSED_MESSAGE_CUT:
    case PITO_REFUSED_VARINT:
    case PITO_REFUSED_TAG:
    case PITO_REFUSED_WIRE_TYPE:
    case PITO_REFUSED_TOO_MANY:
        note_number("no envelope", number);
        break;
    default:
        /* Of this box's own making, not of the message's. */
        fail_refused("pito_reply_write", number);
    }
}

/*
 * A message stands first in its slot's part of the buffer, and its ACK, if it wants one, in `ack`, until the next packet is
 * taken. Every stream's messages are kept.
 */
static void finish(const uint64_t *answer)
{
    uint64_t stream = answer[PITO_ACCEPT_STREAM];
    const uint8_t *message = buffer + PITO_RECEIVER_PART(answer[PITO_ACCEPT_PLACE], LIMIT);
    keep(stream, message, answer[PITO_ACCEPT_TOTAL]);
    if (answer[PITO_ACCEPT_ACK_WANTED] == 1)
        send_packet(ack, sizeof ack);
    if (stream == PITO_STREAM_CONTROL)
        answer_question(message, answer[PITO_ACCEPT_TOTAL]);
}

static uint64_t accept_packet(size_t length, uint64_t *answer)
{
    return pito_receiver_accept(receiver, PITO_RECEIVER_STATE, row, PITO_SLOTS, buffer, sizeof buffer, packet, length,
                                ACK_SEQUENCE, ack, sizeof ack, answer, PITO_ACCEPT_ANSWER);
}

/* The first of a stream's four slots. */
static size_t first_slot(uint64_t stream)
{
    switch (stream) {
    case PITO_STREAM_CONTROL:
        return 0;
    case PITO_STREAM_OTA:
        return SLOTS_OF_A_STREAM;
    default:
        return 2 * SLOTS_OF_A_STREAM;
    }
}

/*
 * A transaction that its speaker has given up stays open until its id comes again. Where four of a stream are open, the one
 * that has been silent longest gives way.
 */
static void clear_stalest(uint64_t stream)
{
    size_t first = first_slot(stream), stalest = first, place;
    for (place = first; place < first + SLOTS_OF_A_STREAM; place++)
        if (last_packet[place] < last_packet[stalest])
            stalest = place;
    memset(&row[stalest], 0, sizeof row[stalest]);
    note_number("cleared", stream);
}

/* What the answer to a packet that was taken brings about. This box asks for no ACKs: those that come tell it nothing. */
static void act(const uint64_t *answer)
{
    uint64_t outcome = answer[PITO_ACCEPT_OUTCOME];
    if (outcome != PITO_PIECE_TAKEN && outcome != PITO_FINISHED)
        return;
    last_packet[answer[PITO_ACCEPT_PLACE]] = packets;
    if (answer[PITO_ACCEPT_REPLACED] == 1)
        note_number("replaced", answer[PITO_ACCEPT_STREAM]);
    if (outcome == PITO_FINISHED)
        finish(answer);
}

/* A packet that found no slot is given again once one is free, and is then taken. The stream stands first in it. */
static void take(size_t length)
{
    uint64_t answer[PITO_ACCEPT_ANSWER];
    uint64_t number = accept_packet(length, answer);
    packets++;
    if (number == PITO_REFUSED_NO_SLOT) {
        clear_stalest(packet[0] >> 4);
        number = accept_packet(length, answer);
    }
    switch (number) {
    case PITO_DONE:
        act(answer);
        break;
    case PITO_REFUSED_UNFIT:
    case PITO_REFUSED_ARGUMENT:
    case PITO_REFUSED_OUTPUT:
    case PITO_REFUSED_NO_SLOT:
        /* Of this box's own making, not of the packet's. */
        fail_refused("pito_receiver_accept", number);
        break;
    default:
        note_number("refused", number);
    }
}

/* Answers how many bytes it has read, fewer than asked for only at the end of the input. */
static size_t read_input(uint8_t *bytes, size_t length)
{
    size_t held = 0;
    while (held < length) {
        ssize_t count = read(STDIN_FILENO, bytes + held, length - held);
        if (count < 0 && errno == EINTR)
            continue;
        if (count < 0)
            fail("read the packets");
        if (count == 0)
            break;
        held += (size_t)count;
    }
    return held;
}

/* Reads over a packet that is longer than any room. Answers 0 at the end of the input. */
static int pass_over(size_t length)
{
    note_number("too long", length);
    while (length > 0) {
        size_t part = length < sizeof packet ? length : sizeof packet;
        if (read_input(packet, part) < part)
            return 0;
        length -= part;
    }
    return 1;
}

/* Reads one packet and takes it. Answers 0 at the end of the input. */
static int take_next(void)
{
    uint8_t before[LENGTH_SIZE];
    size_t length;
    if (read_input(before, sizeof before) < sizeof before)
        return 0;
    length = (size_t)before[0] << 8 | before[1];
    if (length > sizeof packet)
        return pass_over(length);
    if (read_input(packet, length) < length)
        return 0;
    take(length);
    return 1;
}

int main(int words, char **word)
{
    int first;
    prepare();
    first = take_options(words, word);
    if (words - first != 2 || word[first][0] == '-') {
        note("usage: low_energy_box [--times] OUTBOX_FILE RADIO < PACKETS\n");
        return 2;
    }
    make_raw(STDIN_FILENO);
    open_radio(word[first + 1], word[first]);
    open_outbox(word[first], record, sizeof record);
    open_link();
    while (take_next())
        ;
    return 0;
}
