/*
 * Sends one Classic frame through a radio module that takes at most 64 bytes at a time: the payload comes from standard
 * input part by part, and the frame goes to standard output in writes of at most 64 bytes.
 *
 *   send SEQUENCE LENGTH < PAYLOAD
 *
 * SEQUENCE is the frame's sequence byte and LENGTH the payload's length, both in base 10. What stands on standard input
 * behind the payload is left there.
 * Ends with 0 once the frame is written; with 1 after a refusal (`refused NUMBER` on standard error: 15 for a sequence
 * that is a mark or no byte, and for a payload over the link's limit), if the payload ends early, or after a failed call of the
 * system; with 2 on bad usage.
 *
 * It holds no more than a part of the payload and what the module takes at once: neither the payload nor the frame.
 */
#define _XOPEN_SOURCE 700

#include <errno.h>
#include <inttypes.h>
#include <stdio.h>
#include <stdlib.h>
#include <string.h>
#include <unistd.h>

#include "pitokaenge.h"

/* The largest message of the link. */
#define LIMIT 4096

#define AT_ONCE 64

static uint64_t state[PITO_PARTS_STATE];
static uint64_t answer[PITO_FRAME_PART_ANSWER];
static uint8_t part[48];
static uint8_t output[AT_ONCE];

static void fail(const char *what)
{
    fprintf(stderr, "send: %s: %s\n", what, strerror(errno));
    exit(1);
}

static void check(uint64_t number)
{
    if (number == PITO_DONE)
        return;
    fprintf(stderr, "refused %" PRIu64 "\n", number);
    exit(1);
}

static uint64_t number_in(const char *text)
{
    char *end;
    unsigned long long number;
    errno = 0;
    number = strtoull(text, &end, 10);
    if (errno != 0 || *text < '0' || *text > '9' || *end != '\0') {
        fprintf(stderr, "usage: send SEQUENCE LENGTH < PAYLOAD\n");
        exit(2);
    }
    return number;
}

/* The next part of the payload, at most as much as is missing of it. */
static size_t read_part(uint64_t missing)
{
    size_t most = missing < sizeof part ? (size_t)missing : sizeof part;
    ssize_t got;
    do
        got = read(STDIN_FILENO, part, most);
    while (got < 0 && errno == EINTR);
    if (got < 0)
        fail("read");
    if (got == 0) {
        fprintf(stderr, "send: the payload ends early\n");
        exit(1);
    }
    return (size_t)got;
}

static void send_bytes(const uint8_t *bytes, size_t length)
{
    while (length > 0) {
        ssize_t sent = write(STDOUT_FILENO, bytes, length);
        if (sent < 0 && errno != EINTR)
            fail("write");
        if (sent > 0) {
            bytes += sent;
            length -= (size_t)sent;
        }
    }
}

int main(int count, char **words)
{
    uint64_t missing;
    size_t from = 0, held = 0;
    if (count != 3) {
        fprintf(stderr, "usage: send SEQUENCE LENGTH < PAYLOAD\n");
        return 2;
    }
    missing = number_in(words[2]);
    check(pito_frame_begin(number_in(words[1]), LIMIT, missing, state, PITO_PARTS_STATE));
    do {
        if (from == held && missing > 0) {
            from = 0;
            held = read_part(missing);
            missing -= held;
        }
        check(pito_frame_part(state, PITO_PARTS_STATE, part + from, held - from, output, sizeof output, answer,
                              PITO_FRAME_PART_ANSWER));
        from += (size_t)answer[PITO_FRAME_PART_TAKEN];
        send_bytes(output, (size_t)answer[PITO_FRAME_PART_WRITTEN]);
    } while (answer[PITO_FRAME_PART_ENDED] == 0);
    return 0;
}
