/* What all layers share: limits, streams and marks, and eight bytes as one number. For little-endian machines. */
#ifndef BYTES_H
#define BYTES_H

#include <stdbool.h>
#include <string.h>

#include "pitokaenge.h"

#define LIKELY(condition) __builtin_expect(!!(condition), 1)
#define UNLIKELY(condition) __builtin_expect(!!(condition), 0)

/* A byte, eight times in a number. */
#define EIGHT(byte) (~(uint64_t)0 / 255 * (byte))

enum { START = 0xF0, END = 0xF1, ESCAPE = 0xF2 };

static inline bool is_mark(uint64_t byte)
{
    return byte - START < 3;
}

static inline bool is_limit(uint64_t limit)
{
    return limit - 1 < PITO_LARGEST_LIMIT;
}

static inline bool is_room(uint64_t room)
{
    return room - PITO_LEAST_ROOM <= PITO_LARGEST_ROOM - PITO_LEAST_ROOM;
}

/* Streams 0, 2 and 6. */
static inline bool is_stream(uint64_t stream)
{
    return stream <= PITO_STREAM_ALEXA && (0x45 >> stream & 1);
}

/* 0, 1, 2 for streams 0, 2, 6. */
static inline size_t lane_of(unsigned stream)
{
    return stream == PITO_STREAM_CONTROL ? 0 : stream == PITO_STREAM_OTA ? 1 : 2;
}

static inline void clear(uint64_t *row, size_t count)
{
    for (size_t i = 0; i < count; i++)
        row[i] = 0;
}

static inline uint64_t load8(const uint8_t *bytes)
{
    uint64_t word;

    memcpy(&word, bytes, 8);
    return word;
}

static inline void store8(uint8_t *bytes, uint64_t word)
{
    memcpy(bytes, &word, 8);
}

/* The high bit of the lowest byte that is a mark, maybe of higher ones too; 0 exactly where there is none. */
static inline uint64_t marks_of(uint64_t word)
{
    uint64_t apart = word ^ EIGHT(START);

    return (apart - EIGHT(3)) & ~apart & EIGHT(128);
}

/* How many bytes stand below the lowest of these high bits. */
static inline size_t bytes_below(uint64_t marks)
{
    return (size_t)__builtin_ctzll(marks) / 8;
}

/* The checksum of a frame's packet id, error id and payload. */
static inline uint16_t checksum(const uint8_t *payload, size_t length)
{
    uint32_t sum = 2;

    for (size_t i = 0; i < length; i++)
        sum += payload[i];
    return (uint16_t)sum;
}

#endif
