/* The outbox: appended to, read, judged, and moved from version to version. */
#include "bytes.h"

/* A version: the width of its lengths, and the longest record. */
struct version {
    size_t width, longest;
};

static inline uint64_t version_of(const uint8_t *bytes, size_t size, struct version *version)
{
    if (size == 0 || bytes[0] - 1u > 1)
        return PITO_REFUSED_VERSION;
    version->width = bytes[0] == 1 ? 2 : 4;
    version->longest = 1 + (bytes[0] == 1 ? PITO_VERSION_01_LIMIT : PITO_LARGEST_LIMIT);
    return PITO_DONE;
}

static inline size_t read_length(const uint8_t *bytes, size_t width)
{
    uint32_t word;

    if (width == 2)
        return (size_t)bytes[0] << 8 | bytes[1];
    memcpy(&word, bytes, 4);
    return __builtin_bswap32(word);
}

static inline uint8_t *put_length(uint8_t *output, size_t width, size_t length)
{
    if (width == 2) {
        output[0] = (uint8_t)(length >> 8);
        output[1] = (uint8_t)length;
    } else {
        uint32_t word = __builtin_bswap32((uint32_t)length);
        memcpy(output, &word, 4);
    }
    return output + width;
}

/* The length of the record at a place, if that is whole. */
static inline uint64_t record_at(const uint8_t *bytes, size_t size, size_t at, struct version version, size_t *length)
{
    size_t left = size - at;

    if (left < version.width)
        return PITO_REFUSED_RECORD_CUT;
    *length = read_length(bytes + at, version.width);
    if (*length - 1 >= version.longest)
        return PITO_REFUSED_RECORD_LENGTH;
    if (left - version.width < *length)
        return PITO_REFUSED_RECORD_CUT;
    return is_stream(bytes[at + version.width]) ? PITO_DONE : PITO_REFUSED_RECORD_STREAM;
}

/* Every record of one version; the place of the first that is refused. */
static inline uint64_t look_at(const uint8_t *bytes, size_t size, struct version version, size_t *place)
{
    size_t at = 1, length;
    uint64_t number = PITO_DONE;

    while (at < size && !(number = record_at(bytes, size, at, version, &length)))
        at += version.width + length;
    *place = at;
    return number;
}

/* The same with the version's numbers known to the compiler. */
static inline uint64_t look_through(const uint8_t *bytes, size_t size, struct version version, size_t *place)
{
    if (version.width == 2)
        return look_at(bytes, size, (struct version){2, 1 + PITO_VERSION_01_LIMIT}, place);
    return look_at(bytes, size, (struct version){4, 1 + PITO_LARGEST_LIMIT}, place);
}

uint64_t pito_outbox_new(uint8_t *output, pito_len output_len, uint64_t *answer, pito_len answer_len)
{
    if (answer_len != PITO_OUTBOX_NEW_ANSWER)
        return PITO_REFUSED_UNFIT;
    answer[PITO_OUTBOX_NEW_USED] = 0;
    if (output_len == 0)
        return PITO_REFUSED_OUTPUT;
    output[0] = 2;
    answer[PITO_OUTBOX_NEW_USED] = 1;
    return PITO_DONE;
}

uint64_t pito_outbox_append(uint8_t *buffer, pito_len buffer_len, uint64_t used, uint64_t stream, const uint8_t *payload,
                            pito_len payload_len, uint64_t *answer, pito_len answer_len)
{
    struct version version;
    size_t place;
    uint64_t number;

    if (answer_len != PITO_OUTBOX_APPEND_ANSWER || used > buffer_len)
        return PITO_REFUSED_UNFIT;
    clear(answer, PITO_OUTBOX_APPEND_ANSWER);
    if ((number = version_of(buffer, (size_t)used, &version)))
        return number;
    if (!is_stream(stream) || payload_len >= version.longest)
        return PITO_REFUSED_ARGUMENT;
    if (buffer_len - used < version.width + 1 + payload_len)
        return PITO_REFUSED_OUTPUT;
    if ((number = look_through(buffer, (size_t)used, version, &place))) {
        if (number == PITO_REFUSED_RECORD_CUT)
            answer[PITO_OUTBOX_APPEND_CUT_PLACE] = place;
        return number;
    }
    uint8_t *next = put_length(buffer + used, version.width, (size_t)payload_len + 1);
    *next++ = (uint8_t)stream;
    memcpy(next, payload, (size_t)payload_len);
    answer[PITO_OUTBOX_APPEND_USED] = used + version.width + 1 + payload_len;
    return PITO_DONE;
}

uint64_t pito_outbox_record(const uint8_t *bytes, pito_len bytes_len, uint64_t place, uint64_t *answer, pito_len answer_len)
{
    struct version version;
    size_t length;
    uint64_t number;

    if (answer_len != PITO_OUTBOX_RECORD_ANSWER)
        return PITO_REFUSED_UNFIT;
    clear(answer, PITO_OUTBOX_RECORD_ANSWER);
    if ((number = version_of(bytes, (size_t)bytes_len, &version)))
        return number;
    if (place - 1 >= bytes_len)
        return PITO_REFUSED_ARGUMENT;
    if (place == bytes_len)
        return PITO_DONE;
    if ((number = record_at(bytes, (size_t)bytes_len, (size_t)place, version, &length))) {
        if (number == PITO_REFUSED_RECORD_CUT)
            answer[PITO_OUTBOX_RECORD_CUT_PLACE] = place;
        return number;
    }
    answer[PITO_OUTBOX_RECORD_OUTCOME] = PITO_RECORD;
    answer[PITO_OUTBOX_RECORD_STREAM] = bytes[place + version.width];
    answer[PITO_OUTBOX_RECORD_START] = place + version.width + 1;
    answer[PITO_OUTBOX_RECORD_LENGTH] = length - 1;
    answer[PITO_OUTBOX_RECORD_NEXT] = place + version.width + length;
    return PITO_DONE;
}

uint64_t pito_outbox_whole(const uint8_t *bytes, pito_len bytes_len, uint64_t *answer, pito_len answer_len)
{
    struct version version;
    size_t place;
    uint64_t number;

    if (answer_len != PITO_OUTBOX_WHOLE_ANSWER)
        return PITO_REFUSED_UNFIT;
    answer[PITO_OUTBOX_WHOLE_CUT_PLACE] = 0;
    if ((number = version_of(bytes, (size_t)bytes_len, &version)))
        return number;
    number = look_through(bytes, (size_t)bytes_len, version, &place);
    if (number == PITO_REFUSED_RECORD_CUT)
        answer[PITO_OUTBOX_WHOLE_CUT_PLACE] = place;
    return number;
}

/* How many records there are, all of them whole, and where the first stands that version 01 cannot have, or 0. */
static inline uint64_t count_records(const uint8_t *bytes, size_t size, struct version version, size_t *count, size_t *longer,
                                     size_t *place)
{
    size_t at = 1, length;

    *count = *longer = 0;
    for (; at < size; at += version.width + length) {
        uint64_t number = record_at(bytes, size, at, version, &length);

        if (number) {
            *place = at;
            return number;
        }
        if (length > 1 + PITO_VERSION_01_LIMIT && *longer == 0)
            *longer = at;
        ++*count;
    }
    return PITO_DONE;
}

/* Every record with its length in another width. */
static inline void put_records(uint8_t *output, const uint8_t *bytes, size_t size, size_t from, size_t to)
{
    for (size_t at = 1; at < size;) {
        size_t length = read_length(bytes + at, from);

        output = put_length(output, to, length);
        memcpy(output, bytes + at + from, length);
        output += length;
        at += from + length;
    }
}

/* A file that has the version already. */
static inline uint64_t copy_file(const uint8_t *bytes, size_t size, struct version version, uint8_t *output, pito_len output_len,
                                 uint64_t *written, uint64_t *told)
{
    size_t place;
    uint64_t number = look_through(bytes, size, version, &place);

    if (number) {
        *told = place;
        return number;
    }
    if (size > output_len)
        return PITO_REFUSED_OUTPUT;
    memcpy(output, bytes, size);
    *written = size;
    return PITO_DONE;
}

static inline uint64_t move_file(const uint8_t *bytes, pito_len bytes_len, uint8_t *output, pito_len output_len, uint64_t *written,
                                 uint64_t *told, size_t to)
{
    struct version version;
    size_t size = (size_t)bytes_len, count, longer, place = 0;
    uint64_t number = version_of(bytes, size, &version);

    *written = *told = 0;
    if (number)
        return number;
    if (version.width == to)
        return copy_file(bytes, size, version, output, output_len, written, told);
    if ((number = count_records(bytes, size, version, &count, &longer, &place)) || (to == 2 && longer)) {
        *told = number ? place : longer;
        return number ? number : PITO_REFUSED_RECORD_LONG;
    }
    size_t moved = to == 4 ? size + 2 * count : size - 2 * count;
    if (moved > output_len)
        return PITO_REFUSED_OUTPUT;
    output[0] = to == 2 ? 1 : 2;
    put_records(output + 1, bytes, size, version.width, to);
    *written = moved;
    return PITO_DONE;
}

uint64_t pito_outbox_to_01(const uint8_t *bytes, pito_len bytes_len, uint8_t *output, pito_len output_len, uint64_t *answer,
                           pito_len answer_len)
{
    if (answer_len != PITO_OUTBOX_TO_01_ANSWER)
        return PITO_REFUSED_UNFIT;
    return move_file(bytes, bytes_len, output, output_len, answer + PITO_OUTBOX_TO_01_SIZE, answer + PITO_OUTBOX_TO_01_PLACE, 2);
}

uint64_t pito_outbox_to_02(const uint8_t *bytes, pito_len bytes_len, uint8_t *output, pito_len output_len, uint64_t *answer,
                           pito_len answer_len)
{
    if (answer_len != PITO_OUTBOX_TO_02_ANSWER)
        return PITO_REFUSED_UNFIT;
    return move_file(bytes, bytes_len, output, output_len, answer + PITO_OUTBOX_TO_02_SIZE, answer + PITO_OUTBOX_TO_02_PLACE, 4);
}
