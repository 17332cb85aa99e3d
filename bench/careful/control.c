/* Control messages read and written, and any message field by field. */
#include "control.h"

uint64_t pito_envelope_read(const uint8_t *message, pito_len message_len, uint64_t *answer, pito_len answer_len)
{
    if (answer_len != PITO_ENVELOPE_READ_ANSWER)
        return PITO_REFUSED_UNFIT;
    clear(answer, PITO_ENVELOPE_READ_ANSWER);
    uint64_t number = read_envelope(message, (size_t)message_len, answer);
    if (number)
        clear(answer, PITO_ENVELOPE_READ_ANSWER);
    return number;
}

uint64_t pito_response_read(const uint8_t *message, pito_len message_len, uint64_t *answer, pito_len answer_len)
{
    if (answer_len != PITO_RESPONSE_READ_ANSWER)
        return PITO_REFUSED_UNFIT;
    clear(answer, PITO_RESPONSE_READ_ANSWER);
    struct reader whole = {message, message + message_len};
    uint64_t number = read_response(message, whole, answer + PITO_RESPONSE_READ_ERROR_CODE, answer + PITO_RESPONSE_READ_FIELD);
    if (number)
        clear(answer, PITO_RESPONSE_READ_ANSWER);
    return number;
}

static inline uint64_t add_transport(struct reader *reader, uint64_t *row)
{
    uint64_t value, number = read_varint(reader, &value);

    if (number)
        return number;
    if (row[PITO_INFORMATION_READ_TRANSPORTS] == PITO_MOST_TRANSPORTS)
        return PITO_REFUSED_TOO_MANY;
    row[PITO_INFORMATION_READ_TRANSPORT + row[PITO_INFORMATION_READ_TRANSPORTS]++] = signed_number(value);
    return PITO_DONE;
}

/* One transport, or a packed list of them. */
static inline uint64_t read_transports(struct reader *reader, unsigned kind, uint64_t *row)
{
    struct reader list;
    uint64_t number;

    if (kind == VARINT)
        return add_transport(reader, row);
    if (kind != BYTES)
        return PITO_REFUSED_WIRE_TYPE;
    if ((number = read_part(reader, &list)))
        return number;
    while (list.next < list.end)
        if ((number = add_transport(&list, row)))
            return number;
    return PITO_DONE;
}

static uint64_t read_information(const uint8_t *message, size_t length, uint64_t *row, uint64_t fault[2])
{
    struct reader reader = {message, message + length};

    while (reader.next < reader.end) {
        uint64_t field, number;
        unsigned kind;

        if ((number = read_tag(&reader, &field, &kind)))
            return number;
        if (field > 4)
            number = skip(&reader, kind);
        else if (field == 3)
            number = read_transports(&reader, kind, row);
        else if (kind != BYTES)
            number = PITO_REFUSED_WIRE_TYPE;
        else
            number = read_text(&reader, message, field, row + (field == 4 ? 4 : 2 * (field - 1)), fault);
        if (number)
            return number;
    }
    return PITO_DONE;
}

uint64_t pito_information_read(const uint8_t *message, pito_len message_len, uint64_t *answer, pito_len answer_len)
{
    uint64_t fault[2] = {0, 0};

    if (answer_len != PITO_INFORMATION_READ_ANSWER)
        return PITO_REFUSED_UNFIT;
    clear(answer, PITO_INFORMATION_READ_ANSWER);
    uint64_t number = read_information(message, (size_t)message_len, answer, fault);
    if (number) {
        clear(answer, PITO_INFORMATION_READ_FIELD);
        answer[PITO_INFORMATION_READ_FIELD] = fault[0];
        answer[PITO_INFORMATION_READ_PLACE] = fault[1];
    }
    return number;
}

static inline uint64_t read_features(struct reader reader, uint64_t *row)
{
    uint64_t number = PITO_DONE;

    while (number == PITO_DONE && reader.next < reader.end) {
        uint64_t field, value;
        unsigned kind;

        if ((number = read_tag(&reader, &field, &kind)))
            return number;
        if (field > 2)
            number = skip(&reader, kind);
        else if (kind != VARINT)
            number = PITO_REFUSED_WIRE_TYPE;
        else if (!(number = read_varint(&reader, &value)))
            row[field - 1] = value;
    }
    return number;
}

uint64_t pito_features_read(const uint8_t *message, pito_len message_len, uint64_t *answer, pito_len answer_len)
{
    if (answer_len != PITO_FEATURES_READ_ANSWER)
        return PITO_REFUSED_UNFIT;
    clear(answer, PITO_FEATURES_READ_ANSWER);
    uint64_t number = read_features((struct reader){message, message + message_len}, answer);
    if (number)
        clear(answer, PITO_FEATURES_READ_ANSWER);
    return number;
}

/* A response's payload: none, or a member. */
static inline bool is_payload(uint64_t field)
{
    return field == 0 || is_member(field);
}

static inline uint8_t *put_response(uint8_t *output, uint64_t code, uint64_t field, const uint8_t *bytes, size_t length)
{
    output = put_number(output, CODE_TAG, code);
    return field ? put_member(output, field, bytes, length) : output;
}

uint64_t pito_envelope_write(uint64_t command, uint64_t payload, uint64_t error_code, uint64_t field, const uint8_t *bytes,
                             pito_len bytes_len, uint8_t *output, pito_len output_len, uint64_t *answer, pito_len answer_len)
{
    if (answer_len != PITO_ENVELOPE_WRITE_ANSWER)
        return PITO_REFUSED_UNFIT;
    answer[PITO_ENVELOPE_WRITE_WRITTEN] = 0;
    if (!is_signed(command) || payload > PITO_PAYLOAD_MEMBER)
        return PITO_REFUSED_ARGUMENT;
    size_t length = (size_t)bytes_len, size = number_size(command), inner = 0;
    if (payload == PITO_PAYLOAD_RESPONSE) {
        if (!is_signed(error_code) || !is_payload(field))
            return PITO_REFUSED_ARGUMENT;
        inner = response_size(error_code, field, length);
        size += 1 + varint_size(inner) + inner;
    } else if (payload == PITO_PAYLOAD_MEMBER) {
        if (!is_member(field) || field == RESPONSE_FIELD)
            return PITO_REFUSED_ARGUMENT;
        size += member_size(field, length);
    }
    if (size > output_len)
        return PITO_REFUSED_OUTPUT;
    output = put_number(output, CODE_TAG, command);
    if (payload == PITO_PAYLOAD_RESPONSE) {
        *output++ = RESPONSE_TAG;
        put_response(put_varint(output, inner), error_code, field, bytes, length);
    } else if (payload == PITO_PAYLOAD_MEMBER) {
        put_member(output, field, bytes, length);
    }
    answer[PITO_ENVELOPE_WRITE_WRITTEN] = size;
    return PITO_DONE;
}

uint64_t pito_response_write(uint64_t error_code, uint64_t field, const uint8_t *bytes, pito_len bytes_len, uint8_t *output,
                             pito_len output_len, uint64_t *answer, pito_len answer_len)
{
    if (answer_len != PITO_RESPONSE_WRITE_ANSWER)
        return PITO_REFUSED_UNFIT;
    answer[PITO_RESPONSE_WRITE_WRITTEN] = 0;
    if (!is_signed(error_code) || !is_payload(field))
        return PITO_REFUSED_ARGUMENT;
    size_t size = response_size(error_code, field, (size_t)bytes_len);
    if (size > output_len)
        return PITO_REFUSED_OUTPUT;
    put_response(output, error_code, field, bytes, (size_t)bytes_len);
    answer[PITO_RESPONSE_WRITE_WRITTEN] = size;
    return PITO_DONE;
}

uint64_t pito_information_write(const uint8_t *serial_number, pito_len serial_number_len, const uint8_t *name, pito_len name_len,
                                const uint8_t *device_type, pito_len device_type_len, const uint64_t *transports,
                                pito_len transports_len, uint8_t *output, pito_len output_len, uint64_t *answer, pito_len answer_len)
{
    struct information own = {serial_number, name, device_type, (size_t)serial_number_len, (size_t)name_len,
                              (size_t)device_type_len, transports, (size_t)transports_len, 0};

    if (answer_len != PITO_INFORMATION_WRITE_ANSWER)
        return PITO_REFUSED_UNFIT;
    clear(answer, PITO_INFORMATION_WRITE_ANSWER);
    if (!are_transports(transports, transports_len))
        return PITO_REFUSED_ARGUMENT;
    if (!are_texts(&own, answer + PITO_INFORMATION_WRITE_FIELD))
        return PITO_REFUSED_TEXT;
    size_t size = information_size(&own);
    if (size > output_len)
        return PITO_REFUSED_OUTPUT;
    put_information(output, &own);
    answer[PITO_INFORMATION_WRITE_WRITTEN] = size;
    return PITO_DONE;
}

uint64_t pito_features_write(uint64_t features, uint64_t device_attributes, uint8_t *output, pito_len output_len, uint64_t *answer,
                             pito_len answer_len)
{
    if (answer_len != PITO_FEATURES_WRITE_ANSWER)
        return PITO_REFUSED_UNFIT;
    answer[PITO_FEATURES_WRITE_WRITTEN] = 0;
    size_t size = features_size(features, device_attributes);
    if (size > output_len)
        return PITO_REFUSED_OUTPUT;
    put_features(output, features, device_attributes);
    answer[PITO_FEATURES_WRITE_WRITTEN] = size;
    return PITO_DONE;
}

/* The part of a field that is no varint. */
static inline uint64_t read_field_part(struct reader *reader, unsigned kind, struct reader *part)
{
    if (kind == BYTES)
        return read_part(reader, part);
    part->next = reader->next;
    uint64_t number = skip(reader, kind);
    part->end = reader->next;
    return number;
}

uint64_t pito_field_read(const uint8_t *message, pito_len message_len, uint64_t place, uint64_t *answer, pito_len answer_len)
{
    if (answer_len != PITO_FIELD_READ_ANSWER)
        return PITO_REFUSED_UNFIT;
    clear(answer, PITO_FIELD_READ_ANSWER);
    if (place >= message_len)
        return PITO_DONE;
    struct reader part, reader = {message + place, message + message_len};
    uint64_t field, value, number;
    unsigned kind;
    if ((number = read_tag(&reader, &field, &kind)))
        return number;
    if ((number = kind == VARINT ? read_varint(&reader, &value) : read_field_part(&reader, kind, &part)))
        return number;
    if (kind == VARINT)
        answer[PITO_FIELD_READ_VALUE] = value;
    else
        tell_part(answer + PITO_FIELD_READ_START, message, part);
    answer[PITO_FIELD_READ_OUTCOME] = PITO_FIELD;
    answer[PITO_FIELD_READ_NUMBER] = field;
    answer[PITO_FIELD_READ_KIND] = kind;
    answer[PITO_FIELD_READ_NEXT] = (uint64_t)(reader.next - message);
    return PITO_DONE;
}
