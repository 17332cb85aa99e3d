/*
 * The worked cases P1 to P12 of the paper, and No. 2's, through the C interface: prints the lines of the programs check_links and
 * check_data, so that their files `stdout`, written by hand from the paper, are what it must print.
 */
#include <string.h>

#include "pitokaenge.h"
#include "machine.h"
#include "worked.h"

#define LIMIT 512

static uint8_t message[490], output[544], buffer[PITO_RECEIVER_BUFFER(LIMIT)], ack[8];
static pito_slot slots[PITO_SLOTS];
static uint64_t answer[PITO_ACCEPT_ANSWER], receiver[PITO_RECEIVER_STATE];

static void put_number(const char *label, uint64_t number)
{
    put(label);
    put_decimal((uint32_t)number);
}

static void put_bytes(const char *label, const uint8_t *bytes, uint64_t length)
{
    put(label);
    for (uint64_t i = 0; i < length; i++) {
        put(i > 0 ? " " : "");
        put_hex(bytes[i], 2);
    }
}

/* Whatever is not 0 and was not asked for is printed, and so is no line of the files. */
static void done(uint64_t number)
{
    if (number != PITO_DONE)
        put_number("refused ", number);
}

static void frames(void)
{
    static const uint8_t mark[] = {0xF0}, before[] = {0xEF, 0xFF, 0x00};
    done(pito_frame_write(0, LIMIT, message, 0, output, sizeof output, answer, PITO_FRAME_WRITE_ANSWER));
    put_bytes("P1 ", output, answer[PITO_FRAME_WRITE_WRITTEN]);
    done(pito_frame_write(5, LIMIT, mark, 1, output, sizeof output, answer, PITO_FRAME_WRITE_ANSWER));
    put_bytes("\nP2 ", output, answer[PITO_FRAME_WRITE_WRITTEN]);
    for (int i = 0; i < 3; i++) {
        done(pito_next_sequence(before[i], answer, PITO_NEXT_SEQUENCE_ANSWER));
        put("\nP3 ");
        put_hex(answer[PITO_NEXT_SEQUENCE_NEXT], 2);
    }
}

/* Writes all packets of a message; prints the header of each, or the length of its piece and whether that is extended. */
static void packets(const char *label, uint64_t length, uint64_t room, uint64_t ack_wanted, int headers)
{
    uint64_t place = 0;
    put(label);
    do {
        uint64_t before = place, header;
        done(pito_packet_write(room, LIMIT, 6, 1, 0, ack_wanted, message, length, place, output, sizeof output, answer,
                               PITO_PACKET_WRITE_ANSWER));
        place = answer[PITO_PACKET_WRITE_NEXT_PLACE];
        header = answer[PITO_PACKET_WRITE_WRITTEN] - (place - before);
        put(before > 0 ? ", " : "");
        if (headers)
            put_bytes("", output, header);
        else
            put_number("", place - before);
        if (!headers && (output[1] & 1) == 1)
            put(" (extended)");
    } while (place < length);
}

static void open_link(void)
{
    memset(slots, 0, sizeof slots);
    done(pito_receiver_open(LIMIT, receiver, PITO_RECEIVER_STATE));
}

static uint64_t accept(const uint8_t *packet, uint64_t length)
{
    return pito_receiver_accept(receiver, PITO_RECEIVER_STATE, slots, PITO_SLOTS, buffer, sizeof buffer, packet, length, 0, ack,
                                sizeof ack, answer, PITO_ACCEPT_ANSWER);
}

static void accepted(const char *label, const uint8_t *packet, uint64_t length)
{
    uint64_t number = accept(packet, length);
    put(label);
    if (number != PITO_DONE)
        put_number("refused ", number);
    else
        put(answer[PITO_ACCEPT_OUTCOME] == PITO_FINISHED ? "finished" : "taken");
    if (number == PITO_DONE && answer[PITO_ACCEPT_ACK_WANTED] == 1)
        put(", ACK wanted");
}

/* After sequence 15: a packet of sequence 0, and on another link one of sequence 10. */
static void sequences(void)
{
    static const uint8_t first[] = {0x61, 0xF0, 0x00, 0x00, 0x03, 0x01, 0x41}, next[] = {0x61, 0x04, 0x01, 0x42};
    static const uint8_t wrong[] = {0x61, 0xA4, 0x01, 0x42};
    open_link();
    done(accept(first, sizeof first));
    accepted("\nP7 ", next, sizeof next);
    open_link();
    done(accept(first, sizeof first));
    accepted("\nP7 ", wrong, sizeof wrong);
}

static void acknowledgements(void)
{
    for (uint64_t positive = 1; positive < 2; positive--) {
        done(pito_ack_write(6, 1, 0, positive, output, sizeof output, answer, PITO_ACK_WRITE_ANSWER));
        put_bytes("\nP8 ", output, answer[PITO_ACK_WRITE_WRITTEN]);
    }
    done(pito_packet_write(20, LIMIT, 0, 0, 0, 0, message, 0, 0, output, sizeof output, answer, PITO_PACKET_WRITE_ANSWER));
    put_bytes("\nP9 ", output, answer[PITO_PACKET_WRITE_WRITTEN]);
    open_link();
    accepted("\nP9 ", output, 6);
    static const uint8_t asks[] = {0x61, 0x02, 0x00, 0x00, 0x02, 0x01, 0x41}, ends[] = {0x61, 0x18, 0x01, 0x42};
    open_link();
    accepted("\nNo. 2 ", asks, sizeof asks);
    accepted("\nNo. 2 ", ends, sizeof ends);
}

static void envelopes(void)
{
    static const uint64_t commands[] = {94, 20}, codes[] = {0, 3};
    static const uint8_t minus_one[] = {0x08, 0xFF, 0xFF, 0xFF, 0xFF, 0xFF, 0xFF, 0xFF, 0xFF, 0xFF, 0x01};
    for (int i = 0; i < 2; i++) {
        done(pito_envelope_write(commands[i], PITO_PAYLOAD_RESPONSE, codes[i], 0, message, 0, output, sizeof output, answer,
                                 PITO_ENVELOPE_WRITE_ANSWER));
        uint64_t written = answer[PITO_ENVELOPE_WRITE_WRITTEN];
        put_bytes("\nP10 ", output, written);
        done(pito_envelope_read(output, written, answer, PITO_ENVELOPE_READ_ANSWER));
        put_number("\nP10 command ", answer[PITO_ENVELOPE_READ_COMMAND]);
        put_number(", error code ", answer[PITO_ENVELOPE_READ_ERROR_CODE]);
    }
    done(pito_envelope_read(minus_one, sizeof minus_one, answer, PITO_ENVELOPE_READ_ANSWER));
    put("\nP11 command ");
    put_number((int64_t)answer[PITO_ENVELOPE_READ_COMMAND] < 0 ? "-" : "", 0 - answer[PITO_ENVELOPE_READ_COMMAND]);
}

static void records(void)
{
    static const uint8_t file[] = {0x01, 0x00, 0x03, 0x06, 0x41, 0x42};
    done(pito_outbox_record(file, sizeof file, 1, answer, PITO_OUTBOX_RECORD_ANSWER));
    put_number("\nP12 record of stream ", answer[PITO_OUTBOX_RECORD_STREAM]);
    put_number(", payload at ", answer[PITO_OUTBOX_RECORD_START]);
    put_number(" of length ", answer[PITO_OUTBOX_RECORD_LENGTH]);
    put_number(", next place ", answer[PITO_OUTBOX_RECORD_NEXT]);
    done(pito_outbox_record(file, sizeof file, answer[PITO_OUTBOX_RECORD_NEXT], answer, PITO_OUTBOX_RECORD_ANSWER));
    put(answer[PITO_OUTBOX_RECORD_OUTCOME] == PITO_END ? "\nP12 end" : "\nP12 record");
    put_number("\nP12 refused ", pito_outbox_record(file, 5, 1, answer, PITO_OUTBOX_RECORD_ANSWER));
    put_number(" at ", answer[PITO_OUTBOX_RECORD_CUT_PLACE]);
    put("\n");
}

void worked_cases(void)
{
    frames();
    packets("\nP4 ", 35, 20, 1, 1);
    packets("\nP5 ", 490, 244, 0, 0);
    packets("\nP6 ", 300, 262, 0, 0);
    packets("\nP6 ", 300, 263, 0, 0);
    sequences();
    acknowledgements();
    envelopes();
    records();
}
