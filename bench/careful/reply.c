/* The reply: its envelope is made at the end of the room that all packets need, then cut forward. */
#include "control.h"
#include "packets.h"

enum { ASK_INFORMATION = 20, ASK_FEATURES = 28, UNSUPPORTED = 3 };

/* What the answer to a command has: the response's code and member, and the sizes of both and of all. */
struct reply {
    uint64_t command, code, field;
    size_t member, inner, size;
};

static inline void set_sizes(struct reply *reply)
{
    reply->inner = response_size(reply->code, reply->field, reply->member);
    reply->size = number_size(reply->command) + 1 + varint_size(reply->inner) + reply->inner;
}

/* The bytes of all packets: each piece with its header. */
static inline size_t packets_size(size_t size, size_t first, size_t later)
{
    if (size <= first)
        return size + FIRST_HEADER + (size > 255);
    size_t rest = size - first, left = rest % later;
    return first + FIRST_HEADER + (first > 255) + rest / later * (later + LATER_HEADER + (later > 255))
           + (left ? left + LATER_HEADER + (left > 255) : 0);
}

static inline uint8_t *put_head(uint8_t *output, const struct reply *reply)
{
    output = put_number(output, CODE_TAG, reply->command);
    *output++ = RESPONSE_TAG;
    output = put_number(put_varint(output, reply->inner), CODE_TAG, reply->code);
    if (reply->field)
        output = put_varint(put_varint(output, reply->field << 3 | BYTES), reply->member);
    return output;
}

/* Moves the pieces forward, each behind its header. */
static inline void cut(uint8_t *output, const uint8_t *envelope, size_t size, size_t first, size_t later, unsigned id,
                       unsigned sequence)
{
    size_t place = 0;

    do {
        size_t most = place ? later : first, count = size - place < most ? size - place : most;

        output = put_header(output, id, sequence, place == 0, place + count == size, false, size, count);
        memmove(output, envelope + place, count);
        output += count;
        place += count;
        sequence = (sequence + 1) & 15;
    } while (place < size);
}

uint64_t pito_reply_write(const uint8_t *message, pito_len message_len, const uint8_t *serial_number, pito_len serial_number_len,
                          const uint8_t *name, pito_len name_len, const uint8_t *device_type, pito_len device_type_len,
                          const uint64_t *transports, pito_len transports_len, uint64_t features, uint64_t device_attributes,
                          uint64_t information_member, uint64_t features_member, uint64_t room, uint64_t limit, uint64_t id,
                          uint64_t sequence, uint8_t *output, pito_len output_len, uint64_t *answer, pito_len answer_len)
{
    struct information own = {serial_number, name, device_type, (size_t)serial_number_len, (size_t)name_len,
                              (size_t)device_type_len, transports, (size_t)transports_len, 0};
    uint64_t asked[PITO_ENVELOPE_READ_ANSWER] = {0}, number;

    if (answer_len != PITO_REPLY_WRITE_ANSWER)
        return PITO_REFUSED_UNFIT;
    clear(answer, PITO_REPLY_WRITE_ANSWER);
    if ((number = read_envelope(message, (size_t)message_len, asked)) || asked[PITO_ENVELOPE_READ_PAYLOAD] == PITO_PAYLOAD_RESPONSE)
        return number;
    if (!is_room(room))
        return PITO_REFUSED_ROOM;
    if (!is_limit(limit))
        return PITO_REFUSED_LIMIT;
    if (id > 15 || sequence > 15)
        return PITO_REFUSED_ARGUMENT;
    struct reply reply = {asked[PITO_ENVELOPE_READ_COMMAND], 0, 0, 0, 0, 0};
    if (reply.command == ASK_INFORMATION) {
        if (!is_member(information_member) || !are_transports(transports, transports_len))
            return PITO_REFUSED_ARGUMENT;
        reply.field = information_member;
        reply.member = information_size(&own);
    } else if (reply.command == ASK_FEATURES) {
        if (!is_member(features_member))
            return PITO_REFUSED_ARGUMENT;
        reply.field = features_member;
        reply.member = features_size(features, device_attributes);
    } else if (reply.command != 94 && reply.command != 95) {
        reply.code = UNSUPPORTED;
    }
    set_sizes(&reply);
    if (reply.size > limit)
        return PITO_REFUSED_ARGUMENT;
    if (reply.command == ASK_INFORMATION && !are_texts(&own, answer + PITO_REPLY_WRITE_FIELD))
        return PITO_REFUSED_TEXT;
    size_t first = piece_of((size_t)room, FIRST_HEADER), later = piece_of((size_t)room, LATER_HEADER);
    size_t written = packets_size(reply.size, first, later);
    if (written > output_len)
        return PITO_REFUSED_OUTPUT;
    uint8_t *envelope = output + written - reply.size, *inside = put_head(envelope, &reply);
    if (reply.command == ASK_INFORMATION)
        put_information(inside, &own);
    else if (reply.command == ASK_FEATURES)
        put_features(inside, features, device_attributes);
    cut(output, envelope, reply.size, first, later, (unsigned)id, (unsigned)sequence);
    answer[PITO_REPLY_WRITE_WRITTEN] = written;
    return PITO_DONE;
}
