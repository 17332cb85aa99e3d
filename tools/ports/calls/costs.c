/*
 * What a message of 500 bytes costs: each call between count_begin and count_end, whose instructions the emulator counts, with the
 * passing of its arguments. Prints a line for each, in the same order: what it is, and for how many bytes or packets. The first is empty.
 */
#include <string.h>

#include "pitokaenge.h"
#include "machine.h"

#define LIMIT 500

static uint8_t message[LIMIT], frame[PITO_FRAME_SIZE(LIMIT)], taken[PITO_EXTRACTOR_BUFFER(LIMIT)], buffer[PITO_RECEIVER_BUFFER(LIMIT)];
static uint8_t packet[PITO_LARGEST_ROOM], ack[PITO_ACK_SIZE], outbox[PITO_ONE_RECORD(LIMIT)], reply[PITO_REPLY_SIZE(6, 6, 6)];
static uint64_t answer[64], state[PITO_EXTRACTOR_STATE], receiver[PITO_RECEIVER_STATE];
static pito_slot slots[PITO_SLOTS];
static uint64_t number;

__attribute__((noinline)) void count_begin(void) { __asm volatile("" ::: "memory"); }
__attribute__((noinline)) void count_end(void) { __asm volatile("" ::: "memory"); }

#define COUNT(...) (count_begin(), number |= (__VA_ARGS__), count_end())

static void say(const char *what, uint32_t of)
{
    put(what);
    put(" ");
    put_decimal(of);
    put("\n");
}

static void classic(void)
{
    COUNT(pito_frame_write(1, LIMIT, message, LIMIT, frame, sizeof frame, answer, PITO_FRAME_WRITE_ANSWER));
    uint32_t size = (uint32_t)answer[PITO_FRAME_WRITE_WRITTEN];
    say("frame_write", size);
    number |= pito_extractor_open(LIMIT, state, PITO_EXTRACTOR_STATE);
    COUNT(pito_extractor_feed(state, PITO_EXTRACTOR_STATE, taken, sizeof taken, frame, size, answer, PITO_FEED_ANSWER));
    say("feed", size);
}

static void low_energy(uint32_t room)
{
    uint64_t place = 0;
    number |= pito_receiver_open(LIMIT, receiver, PITO_RECEIVER_STATE);
    while (place < LIMIT) {
        COUNT(pito_packet_write(room, LIMIT, 6, 1, 0, 1, message, LIMIT, place, packet, sizeof packet, answer, PITO_PACKET_WRITE_ANSWER));
        say("packet_write", room);
        place = answer[PITO_PACKET_WRITE_NEXT_PLACE];
        uint64_t size = answer[PITO_PACKET_WRITE_WRITTEN];
        COUNT(pito_receiver_accept(receiver, PITO_RECEIVER_STATE, slots, PITO_SLOTS, buffer, sizeof buffer, packet, size, 0, ack,
                                   sizeof ack, answer, PITO_ACCEPT_ANSWER));
        say("accept", room);
    }
}

static void outboxes(void)
{
    number |= pito_outbox_new(outbox, sizeof outbox, answer, PITO_OUTBOX_NEW_ANSWER);
    COUNT(pito_outbox_append(outbox, sizeof outbox, 1, 6, message, LIMIT, answer, PITO_OUTBOX_APPEND_ANSWER));
    say("outbox_append", LIMIT);
    COUNT(pito_outbox_record(outbox, sizeof outbox, 1, answer, PITO_OUTBOX_RECORD_ANSWER));
    say("outbox_record", LIMIT);
}

static void replies(uint8_t command)
{
    const uint8_t question[] = {0x08, command};
    static const uint64_t transports[] = {0};
    static const uint8_t name[] = "K-0042";
    COUNT(pito_envelope_read(question, sizeof question, answer, PITO_ENVELOPE_READ_ANSWER));
    say("envelope_read", command);
    COUNT(pito_reply_write(question, sizeof question, name, 6, name, 6, name, 6, transports, 1, 0x13, 0, 3, 9, 20, LIMIT, 0, 0, reply,
                           sizeof reply, answer, PITO_REPLY_WRITE_ANSWER));
    say("reply_write", command);
}

int main(void)
{
    for (uint32_t i = 0; i < LIMIT; i++)
        message[i] = (uint8_t)(i * 11);
    COUNT(0);
    say("nothing", 1);
    classic();
    low_energy(20);
    low_energy(244);
    outboxes();
    replies(20);
    replies(28);
    put(number == PITO_DONE ? "end\n" : "refused\n");
    return 0;
}
