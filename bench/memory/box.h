/*
 * What a box holds at once, all but the stack, where each of its links has LIMIT. CLASSIC and LOW_ENERGY say which links
 * it has, BY_PARTS how it writes its frames, MESSAGE whether it has a message buffer of its own: each 0 or 1.
 *
 * answers.inc has ROW(NAME) for each answer row that the header names; bench/memory/run makes it.
 */
#include "pitokaenge.h"

#define SERIAL_INPUT 256
#define SMALL_PIPE 64

#define ROW(name) uint64_t name##_row[name];
union any_answer {
#include "answers.inc"
};
#undef ROW

/* In place of the frame's bytes, where it is written by parts. */
struct small_pipe {
    uint64_t state[PITO_PARTS_STATE];
    uint8_t output[SMALL_PIPE];
};

/* The rows come first, so that only the end has padding. */
struct box {
    union any_answer answer;
    uint64_t transports[PITO_MOST_TRANSPORTS];
#if LOW_ENERGY
    uint64_t receiver[PITO_RECEIVER_STATE];
    pito_slot slots[PITO_SLOTS];
#endif
#if CLASSIC
    uint64_t extractor[PITO_EXTRACTOR_STATE];
#endif
#if CLASSIC && BY_PARTS
    struct small_pipe pipe;
#elif CLASSIC
    uint8_t frame[PITO_FRAME_SIZE(LIMIT)];
#endif
#if CLASSIC
    uint8_t extractor_buffer[PITO_EXTRACTOR_BUFFER(LIMIT)];
    uint8_t serial_in[SERIAL_INPUT];
#endif
#if LOW_ENERGY
    uint8_t receiver_buffer[PITO_RECEIVER_BUFFER(LIMIT)];
    uint8_t packet_out[PITO_LARGEST_ROOM];
    uint8_t ack[PITO_ACK_SIZE];
    uint8_t packet_in[PITO_LARGEST_ROOM];
#endif
    uint8_t outbox[PITO_ONE_RECORD(LIMIT)];
#if MESSAGE
    uint8_t message[LIMIT];
#endif
    /* Of no size: what is behind it is padding. */
    uint8_t end[];
};
