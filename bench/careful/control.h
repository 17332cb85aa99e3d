/* What replies need of control messages besides the calls. */
#ifndef CONTROL_H
#define CONTROL_H

#include "messages.h"

enum { CODE_TAG = 0x08, RESPONSE_TAG = 0x4A };

/* Code and member of a response; field, start and length of the member go into the row. */
static inline uint64_t read_response(const uint8_t *message, struct reader reader, uint64_t *code, uint64_t *member)
{
    bool given = false;

    while (reader.next < reader.end) {
        uint64_t field, value, number = PITO_DONE;
        unsigned kind;
        struct reader part;

        if ((number = read_tag(&reader, &field, &kind)))
            return number;
        if (field == 1) {
            if (kind != VARINT)
                return PITO_REFUSED_WIRE_TYPE;
            if ((number = read_varint(&reader, &value)))
                return number;
            *code = signed_number(value);
        } else if (kind == BYTES) {
            if (given)
                return PITO_REFUSED_TOO_MANY;
            given = true;
            if ((number = read_part(&reader, &part)))
                return number;
            member[0] = field;
            tell_part(member + 1, message, part);
        } else if ((number = skip(&reader, kind))) {
            return number;
        }
    }
    return PITO_DONE;
}

/* The envelope's own fields: its command, and the payload's field, start and length, whatever it is. */
static inline uint64_t read_outer(const uint8_t *message, struct reader reader, uint64_t *row)
{
    while (reader.next < reader.end) {
        uint64_t field, value, number;
        unsigned kind;
        struct reader part;

        if ((number = read_tag(&reader, &field, &kind)))
            return number;
        if (field == 1) {
            if (kind != VARINT)
                return PITO_REFUSED_WIRE_TYPE;
            if ((number = read_varint(&reader, &value)))
                return number;
            row[PITO_ENVELOPE_READ_COMMAND] = signed_number(value);
        } else if (kind == BYTES) {
            if (row[PITO_ENVELOPE_READ_FIELD])
                return PITO_REFUSED_TOO_MANY;
            if ((number = read_part(&reader, &part)))
                return number;
            row[PITO_ENVELOPE_READ_FIELD] = field;
            tell_part(row + PITO_ENVELOPE_READ_START, message, part);
        } else if (field == RESPONSE_FIELD) {
            return PITO_REFUSED_WIRE_TYPE;
        } else if ((number = skip(&reader, kind))) {
            return number;
        }
    }
    return PITO_DONE;
}

/* The answer row of an envelope, which is all 0 before. */
static inline uint64_t read_envelope(const uint8_t *message, size_t length, uint64_t *row)
{
    uint64_t number = read_outer(message, (struct reader){message, message + length}, row);

    if (number || row[PITO_ENVELOPE_READ_FIELD] == 0)
        return number;
    row[PITO_ENVELOPE_READ_PAYLOAD] = PITO_PAYLOAD_MEMBER;
    if (row[PITO_ENVELOPE_READ_FIELD] != RESPONSE_FIELD)
        return PITO_DONE;
    const uint8_t *inner = message + row[PITO_ENVELOPE_READ_START];
    struct reader response = {inner, inner + row[PITO_ENVELOPE_READ_LENGTH]};
    row[PITO_ENVELOPE_READ_PAYLOAD] = PITO_PAYLOAD_RESPONSE;
    clear(row + PITO_ENVELOPE_READ_FIELD, 3);
    return read_response(message, response, row + PITO_ENVELOPE_READ_ERROR_CODE, row + PITO_ENVELOPE_READ_FIELD);
}

/* A response's size; field 0 is no payload. */
static inline size_t response_size(uint64_t code, uint64_t field, size_t length)
{
    return number_size(code) + (field ? member_size(field, length) : 0);
}

/* Device information: three strings and the transports. */
struct information {
    const uint8_t *serial_number, *name, *device_type;
    size_t serial_number_len, name_len, device_type_len;
    const uint64_t *transports;
    size_t transports_len, list;
};

static inline bool are_transports(const uint64_t *transports, pito_len count)
{
    if (count > PITO_MOST_TRANSPORTS)
        return false;
    for (size_t i = 0; i < count; i++)
        if (!is_signed(transports[i]))
            return false;
    return true;
}

/* The size of the packed transports is kept for the writing. */
static inline size_t information_size(struct information *own)
{
    own->list = 0;
    for (size_t i = 0; i < own->transports_len; i++)
        own->list += varint_size(own->transports[i]);
    return text_size(own->serial_number_len) + text_size(own->name_len) + text_size(own->device_type_len) + text_size(own->list);
}

static inline bool are_texts(const struct information *own, uint64_t fault[2])
{
    return is_text(1, own->serial_number, own->serial_number_len, fault) && is_text(2, own->name, own->name_len, fault)
           && is_text(4, own->device_type, own->device_type_len, fault);
}

static inline void put_information(uint8_t *output, const struct information *own)
{
    output = put_text(output, 0x0A, own->serial_number, own->serial_number_len);
    output = put_text(output, 0x12, own->name, own->name_len);
    if (own->transports_len) {
        *output++ = 0x1A;
        output = put_varint(output, own->list);
        for (size_t i = 0; i < own->transports_len; i++)
            output = put_varint(output, own->transports[i]);
    }
    put_text(output, 0x22, own->device_type, own->device_type_len);
}

static inline size_t features_size(uint64_t features, uint64_t device_attributes)
{
    return number_size(features) + number_size(device_attributes);
}

static inline void put_features(uint8_t *output, uint64_t features, uint64_t device_attributes)
{
    put_number(put_number(output, 0x08, features), 0x10, device_attributes);
}

#endif
