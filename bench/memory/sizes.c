/*
 * Prints the tables of rows, buffers and sums, from the header's own numbers.
 *
 *   sizes parts
 *   sizes sum DEEPEST_STACK
 *
 * rows.inc has ROW(NAME) for each row that the header names; bench/memory/run makes it.
 */
#include <stdio.h>
#include <stdlib.h>
#include <string.h>

/* The box of the sum: both links, frames written whole, no message buffer; a limit with which it fits. */
#define LIMIT 1536
#define CLASSIC 1
#define LOW_ENERGY 1
#define BY_PARTS 0
#define MESSAGE 0
#include "box.h"

#define ALL_A_BOX_HAS 32768

#define ROW(name) uint64_t name##_row[name];
union any_row {
#include "rows.inc"
};
#undef ROW

static struct box box;
static struct small_pipe pipe;
static long together;

/* A number with commas; up to four of them live at once. */
static const char *commas(long number)
{
    static char texts[4][32];
    static int turn;
    char *text = texts[turn = (turn + 1) % 4];
    const char *sign = number < 0 ? "-" : "";
    number = labs(number);
    if (number < 1000)
        snprintf(text, sizeof texts[0], "%s%ld", sign, number);
    else
        snprintf(text, sizeof texts[0], "%s%ld,%03ld", sign, number / 1000, number % 1000);
    return text;
}

static void print_rows(void)
{
    printf("| row | numbers | bytes |\n|---|--:|--:|\n");
#define ROW(name) printf("| `" #name "` | %d | %zu |\n", name, sizeof((union any_row *)0)->name##_row);
#include "rows.inc"
#undef ROW
    printf("\n");
}

static void buffer(const char *what, const char *why, size_t bytes)
{
    printf("| %s | %s | %s |\n", what, why, commas((long)bytes));
}

static void print_buffers(void)
{
    printf("| buffer | why this size | bytes at %s |\n|---|---|--:|\n", commas(LIMIT));
    buffer("extractor's", "`PITO_EXTRACTOR_BUFFER(limit)`, exactly: limit + 2", sizeof box.extractor_buffer);
    buffer("receiver's", "`PITO_RECEIVER_BUFFER(limit)`, exactly: 12 * limit", sizeof box.receiver_buffer);
    buffer("outgoing frame", "`PITO_FRAME_SIZE(limit)`, all escaped: 4 + 2 * limit + 2 * 2 + 1", sizeof box.frame);
    buffer("outgoing frame by parts", "any size from 1 on, here the radio module's", sizeof pipe.output);
    buffer("outgoing packet", "the largest room; from 20 on", sizeof box.packet_out);
    buffer("packet that came", "the largest room of the other side", sizeof box.packet_in);
    buffer("ACK", "`PITO_ACK_SIZE` or more; lent with each packet that is accepted", sizeof box.ack);
    buffer("outbox of one record", "`PITO_ONE_RECORD(limit)`, as in examples/c/box.c: 1 + 4 + 1 + limit", sizeof box.outbox);
    buffer("receiver's slots", "`PITO_SLOTS` of `pito_slot`", sizeof box.slots);
    buffer("serial input", "any size from 1 on, here that of examples/c/box.c", sizeof box.serial_in);
    printf("\n");
}

static void part(const char *what, size_t bytes)
{
    together += (long)bytes;
    printf("| %s | %s | %s |\n", what, commas((long)bytes), commas(together));
}

/* What a sum leaves of all that a box has. */
static const char *left_of(long sum)
{
    static char text[48];
    snprintf(text, sizeof text, sum > ALL_A_BOX_HAS ? "does not fit: %s too many" : "%s left",
             commas(labs(ALL_A_BOX_HAS - sum)));
    return text;
}

static void subtotal(const char *what)
{
    printf("| **%s** | | **%s**, %s |\n", what, commas(together), left_of(together));
}

static void print_sum(size_t deepest)
{
    printf("| what a box holds at once | bytes | together |\n|---|--:|--:|\n");
    part("extractor's state", sizeof box.extractor);
    part("extractor's buffer", sizeof box.extractor_buffer);
    part("receiver's state", sizeof box.receiver);
    part("receiver's slots", sizeof box.slots);
    part("receiver's buffer", sizeof box.receiver_buffer);
    part("one outgoing frame, the longest", sizeof box.frame);
    part("one answer row, the longest", sizeof box.answer);
    part("the deepest stack of one call", deepest);
    subtotal("both links open, one outgoing frame");
    part("outbox of one record", sizeof box.outbox);
    part("one outgoing packet, the largest", sizeof box.packet_out);
    part("an ACK", sizeof box.ack);
    part("serial input", sizeof box.serial_in);
    part("a packet that came, the largest", sizeof box.packet_in);
    part("the transports of its device information", sizeof box.transports);
    part("padding, all but the stack in one struct", deepest + sizeof box - (size_t)together);
    subtotal("all that a box holds");
    printf("\n");
}

static void instead(const char *what, long more)
{
    printf("| %s | %s%s | %s | %s |\n", what, more > 0 ? "+" : "", commas(more), commas(together + more),
           left_of(together + more));
}

static void print_choices(void)
{
    const long message = LIMIT, by_parts = (long)sizeof pipe - (long)sizeof box.frame;
    const long one_at_a_time = -(long)(sizeof box.packet_out + sizeof box.ack);
    printf("| instead | bytes | together | of 32,768 |\n|---|--:|--:|--:|\n");
    instead("as above", 0);
    instead("a message buffer of its own besides", message);
    instead("packet and ACK are made in the frame's bytes, one thing sent at a time and no packet accepted meanwhile",
            one_at_a_time);
    instead("a room of 20, both ways", 2 * (PITO_LEAST_ROOM - PITO_LARGEST_ROOM));
    instead("only payloads up to 768 bytes are sent as frames", 2 * (768 - message));
    instead("the same, and a message buffer of 768", 2 * (768 - message) + 768);
    instead("frames written by parts, 64 bytes at a time", by_parts);
    instead("the same, and a message buffer of 1,536", by_parts + message);
    printf("\n");
}

/* The frame of a payload by parts, in the bytes of the second table; it has to be the whole writer's. */
static void check_parts(const uint8_t *payload, size_t length)
{
    uint64_t told[PITO_FRAME_PART_ANSWER] = {0};
    size_t taken = 0, written = 0;
    if (pito_frame_begin(0, LIMIT, length, pipe.state, PITO_PARTS_STATE) != 0)
        exit(1);
    while (told[PITO_FRAME_PART_ENDED] == 0) {
        if (pito_frame_part(pipe.state, PITO_PARTS_STATE, payload + taken, length - taken, pipe.output,
                            sizeof pipe.output, told, PITO_FRAME_PART_ANSWER) != 0)
            exit(1);
        if (memcmp(box.frame + written, pipe.output, told[PITO_FRAME_PART_WRITTEN]) != 0)
            exit(1);
        taken += told[PITO_FRAME_PART_TAKEN];
        written += told[PITO_FRAME_PART_WRITTEN];
    }
}

/* Payloads of marks alone, one for each sum that such payloads have. */
static void print_longest_frame(void)
{
    static uint8_t payload[LIMIT];
    uint64_t written[PITO_FRAME_WRITE_ANSWER], longest = 0;
    memset(payload, 0xF0, sizeof payload);
    for (size_t turn = 0; turn <= 2 * sizeof payload; turn++) {
        if (turn > 0)
            payload[(turn - 1) % sizeof payload]++;
        if (pito_frame_write(0, LIMIT, payload, sizeof payload, box.frame, sizeof box.frame, written,
                             PITO_FRAME_WRITE_ANSWER) != 0)
            exit(1);
        check_parts(payload, sizeof payload);
        longest = written[0] > longest ? written[0] : longest;
    }
    printf("Longest frame that `pito_frame_write` wrote of %s marks, over every sum that marks have: %s bytes.\n",
           commas(LIMIT), commas((long)longest));
    printf("\nLongest payload that fits behind its own frame in the frame's bytes (2n + 9 + n): %s bytes.\n",
           commas(((long)sizeof box.frame - 9) / 3));
}

int main(int words, char **word)
{
    if (words == 2 && strcmp(word[1], "parts") == 0) {
        print_rows();
        print_buffers();
        print_longest_frame();
        return 0;
    }
    if (words == 3 && strcmp(word[1], "sum") == 0) {
        print_sum(strtoul(word[2], NULL, 10));
        print_choices();
        return 0;
    }
    fprintf(stderr, "usage: sizes parts, or sizes sum DEEPEST_STACK\n");
    return 2;
}
