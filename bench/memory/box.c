/*
 * Sends a message of marks, as long as the limit, through each link of a box and appends it to the outbox, all in the
 * box's own bytes; then prints how many these are, without the padding at their end and with it. bench/memory/limits.py
 * says which box it is, and its limit.
 */
#include <stdio.h>
#include <stdlib.h>
#include <string.h>

#include "box.h"

static struct box box;
static uint64_t *const told = (uint64_t *)&box.answer;
/* The outbox's bytes are not needed while a message is sent. */
static const uint8_t *const message = box.outbox;

static void check(int holds)
{
    if (!holds)
        exit(1);
}

static void append(const uint8_t *payload)
{
    check(pito_outbox_new(box.outbox, sizeof box.outbox, told, PITO_OUTBOX_NEW_ANSWER) == 0);
    check(pito_outbox_append(box.outbox, sizeof box.outbox, told[PITO_OUTBOX_NEW_USED], PITO_STREAM_ALEXA, payload,
                             LIMIT, told, PITO_OUTBOX_APPEND_ANSWER) == 0);
}

#if CLASSIC
static void feed(const uint8_t *bytes, size_t count)
{
    check(pito_extractor_feed(box.extractor, PITO_EXTRACTOR_STATE, box.extractor_buffer, sizeof box.extractor_buffer,
                              bytes, count, told, PITO_FEED_ANSWER) == 0);
}

static void send_frame(void)
{
#if BY_PARTS
    size_t taken = 0;
    int ended;
    check(pito_frame_begin(0, LIMIT, LIMIT, box.pipe.state, PITO_PARTS_STATE) == 0);
    do {
        check(pito_frame_part(box.pipe.state, PITO_PARTS_STATE, message + taken, LIMIT - taken, box.pipe.output,
                              sizeof box.pipe.output, told, PITO_FRAME_PART_ANSWER) == 0);
        taken += told[PITO_FRAME_PART_TAKEN];
        ended = told[PITO_FRAME_PART_ENDED] == 1;
        feed(box.pipe.output, told[PITO_FRAME_PART_WRITTEN]);
    } while (!ended);
#else
    check(pito_frame_write(0, LIMIT, message, LIMIT, box.frame, sizeof box.frame, told, PITO_FRAME_WRITE_ANSWER) == 0);
    feed(box.frame, told[PITO_FRAME_WRITE_WRITTEN]);
#endif
}

static void go_through_classic(void)
{
    check(pito_extractor_open(LIMIT, box.extractor, PITO_EXTRACTOR_STATE) == 0);
    send_frame();
    check(told[PITO_FEED_OUTCOME] == PITO_FRAME && told[PITO_FEED_LENGTH] == LIMIT);
    append(box.extractor_buffer);
}
#endif

#if LOW_ENERGY
static void go_through_low_energy(void)
{
    uint64_t place = 0;
    check(pito_receiver_open(LIMIT, box.receiver, PITO_RECEIVER_STATE) == 0);
    do {
        check(pito_packet_write(PITO_LARGEST_ROOM, LIMIT, PITO_STREAM_ALEXA, 0, 0, 1, message, LIMIT, place,
                                box.packet_out, sizeof box.packet_out, told, PITO_PACKET_WRITE_ANSWER) == 0);
        place = told[PITO_PACKET_WRITE_NEXT_PLACE];
        check(pito_receiver_accept(box.receiver, PITO_RECEIVER_STATE, box.slots, PITO_SLOTS, box.receiver_buffer,
                                   sizeof box.receiver_buffer, box.packet_out, told[PITO_PACKET_WRITE_WRITTEN], 0, box.ack,
                                   sizeof box.ack, told, PITO_ACCEPT_ANSWER) == 0);
    } while (place < LIMIT);
    check(told[PITO_ACCEPT_OUTCOME] == PITO_FINISHED && told[PITO_ACCEPT_TOTAL] == LIMIT);
    check(told[PITO_ACCEPT_ACK_WANTED] == 1 && box.ack[0] == PITO_STREAM_ALEXA << 4);
    append(box.receiver_buffer + PITO_RECEIVER_PART(told[PITO_ACCEPT_PLACE], LIMIT));
}
#endif

int main(void)
{
    memset(box.outbox, 0xF0, sizeof box.outbox);
#if CLASSIC
    go_through_classic();
#endif
#if LOW_ENERGY
    go_through_low_energy();
#endif
    printf("%zu %zu\n", offsetof(struct box, end), sizeof box);
    return 0;
}
