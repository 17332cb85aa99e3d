/* Varints, tags, parts and strings of messages, read and written. */
#ifndef MESSAGES_H
#define MESSAGES_H

#include "bytes.h"

enum { LAST_FIELD = 536870911, RESPONSE_FIELD = 9 };
enum { VARINT = 0, EIGHT_BYTES = 1, BYTES = 2, FOUR_BYTES = 5 };

/* ---- read */

/* A message, or one within it: what is left of it. */
struct reader {
    const uint8_t *next, *end;
};

static inline uint64_t read_long_varint(struct reader *reader, uint64_t *value)
{
    const uint8_t *next = reader->next;
    uint64_t number = 0;

    for (unsigned shift = 0;; shift += 7) {
        if (next == reader->end)
            return PITO_REFUSED_MESSAGE_CUT;
        uint8_t byte = *next++;
        if (shift == 63 && byte > 1)
            return PITO_REFUSED_VARINT;
        number |= (uint64_t)(byte & 0x7F) << shift;
        if (byte < 0x80)
            break;
    }
    *value = number;
    reader->next = next;
    return PITO_DONE;
}

static inline uint64_t read_varint(struct reader *reader, uint64_t *value)
{
    if (LIKELY(reader->next < reader->end) && LIKELY(*reader->next < 0x80)) {
        *value = *reader->next++;
        return PITO_DONE;
    }
    return read_long_varint(reader, value);
}

/* Kinds 0, 1, 2 and 5. */
static inline uint64_t read_tag(struct reader *reader, uint64_t *field, unsigned *kind)
{
    uint64_t tag = 0, number = read_varint(reader, &tag);

    if (UNLIKELY(number))
        return number;
    *kind = tag & 7;
    *field = tag >> 3;
    return UNLIKELY(!(0x27 >> (tag & 7) & 1) || *field - 1 >= LAST_FIELD) ? PITO_REFUSED_TAG : PITO_DONE;
}

static inline uint64_t read_part(struct reader *reader, struct reader *part)
{
    uint64_t length = 0, number = read_varint(reader, &length);

    if (UNLIKELY(number))
        return number;
    if (UNLIKELY(length > (uint64_t)(reader->end - reader->next)))
        return PITO_REFUSED_MESSAGE_CUT;
    part->next = reader->next;
    part->end = reader->next += length;
    return PITO_DONE;
}

static inline uint64_t skip(struct reader *reader, unsigned kind)
{
    uint64_t value;
    struct reader part;

    if (kind == VARINT)
        return read_varint(reader, &value);
    if (kind == BYTES)
        return read_part(reader, &part);
    ptrdiff_t size = kind == EIGHT_BYTES ? 8 : 4;
    if (reader->end - reader->next < size)
        return PITO_REFUSED_MESSAGE_CUT;
    reader->next += size;
    return PITO_DONE;
}

/* A number of 32 bits with its sign, as a row has it. */
static inline uint64_t signed_number(uint64_t value)
{
    return (uint64_t)(int64_t)(int32_t)(uint32_t)value;
}

/* Start and length of a part, as a row has them. */
static inline void tell_part(uint64_t *row, const uint8_t *message, struct reader part)
{
    row[0] = (uint64_t)(part.next - message);
    row[1] = (uint64_t)(part.end - part.next);
}

/* ---- strings */

static inline bool is_later(uint8_t byte)
{
    return (byte & 0xC0) == 0x80;
}

/* The length of the sequence of two to four bytes that stands first; 0 where that is none. */
static inline size_t sequence_of(const uint8_t *text, size_t left)
{
    uint8_t lead = text[0];

    if (lead < 0xE0)
        return lead >= 0xC2 && left >= 2 && is_later(text[1]) ? 2 : 0;
    if (lead < 0xF0) {
        if (left < 3 || !is_later(text[1]) || !is_later(text[2]))
            return 0;
        return (lead == 0xE0 && text[1] < 0xA0) || (lead == 0xED && text[1] >= 0xA0) ? 0 : 3;
    }
    if (lead > 0xF4 || left < 4 || !is_later(text[1]) || !is_later(text[2]) || !is_later(text[3]))
        return 0;
    return (lead == 0xF0 && text[1] < 0x90) || (lead == 0xF4 && text[1] >= 0x90) ? 0 : 4;
}

/* Where the first bad sequence of a string begins; its length where all are good. */
static size_t bad_place(const uint8_t *text, size_t length)
{
    size_t at = 0;

    while (at < length) {
        if (length - at >= 8 && !(load8(text + at) & EIGHT(128))) {
            at += 8;
            continue;
        }
        size_t count = text[at] < 0x80 ? 1 : sequence_of(text + at, length - at);
        if (count == 0)
            break;
        at += count;
    }
    return at;
}

/* A string's start and length into the row; field and place of a bad one into `fault`. */
static inline uint64_t read_text(struct reader *reader, const uint8_t *message, uint64_t field, uint64_t *row, uint64_t fault[2])
{
    struct reader part;
    uint64_t number = read_part(reader, &part);

    if (number)
        return number;
    size_t length = (size_t)(part.end - part.next), bad = bad_place(part.next, length);
    if (bad != length) {
        fault[0] = field;
        fault[1] = bad;
        return PITO_REFUSED_TEXT;
    }
    tell_part(row, message, part);
    return PITO_DONE;
}

/* Whether a string of a writer is good; else its field and place are told. */
static inline bool is_text(uint64_t field, const uint8_t *text, size_t length, uint64_t fault[2])
{
    size_t bad = bad_place(text, length);

    if (bad == length)
        return true;
    fault[0] = field;
    fault[1] = bad;
    return false;
}

/* ---- written */

static inline bool is_signed(uint64_t value)
{
    return value == signed_number(value);
}

/* The number of a member, 2 to the largest. */
static inline bool is_member(uint64_t field)
{
    return field - 2 < LAST_FIELD - 1;
}

static inline size_t varint_size(uint64_t value)
{
    unsigned bits = 64 - (unsigned)__builtin_clzll(value | 1);

    return (bits * 9 + 64) / 64;
}

static inline uint8_t *put_varint(uint8_t *output, uint64_t value)
{
    for (; value >= 0x80; value >>= 7)
        *output++ = (uint8_t)value | 0x80;
    *output++ = (uint8_t)value;
    return output;
}

/* Numbers and strings with a tag of one byte; those that are 0 or empty are not written. */
static inline size_t number_size(uint64_t value)
{
    return value ? 1 + varint_size(value) : 0;
}

static inline uint8_t *put_number(uint8_t *output, uint8_t tag, uint64_t value)
{
    if (value == 0)
        return output;
    *output++ = tag;
    return put_varint(output, value);
}

static inline size_t text_size(size_t length)
{
    return length ? 1 + varint_size(length) + length : 0;
}

static inline uint8_t *put_bytes(uint8_t *output, const uint8_t *bytes, size_t length)
{
    output = put_varint(output, length);
    memcpy(output, bytes, length);
    return output + length;
}

static inline uint8_t *put_text(uint8_t *output, uint8_t tag, const uint8_t *text, size_t length)
{
    if (length == 0)
        return output;
    *output++ = tag;
    return put_bytes(output, text, length);
}

/* A member of any number, written though it is empty. */
static inline size_t member_size(uint64_t field, size_t length)
{
    return varint_size(field << 3) + varint_size(length) + length;
}

static inline uint8_t *put_member(uint8_t *output, uint64_t field, const uint8_t *bytes, size_t length)
{
    return put_bytes(put_varint(output, field << 3 | BYTES), bytes, length);
}

#endif
