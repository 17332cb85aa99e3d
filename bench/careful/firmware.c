/* Firmware messages read and written. */
#include "messages.h"

enum { DIGITS = 64 };

static inline bool are_digits(const uint8_t *text, size_t length)
{
    unsigned bad = 0;

    if (length != DIGITS)
        return false;
    for (int i = 0; i < DIGITS; i++)
        bad |= !((uint8_t)(text[i] - '0') < 10 || (uint8_t)((text[i] | 32) - 'a') < 6);
    return !bad;
}

/* A number of 32 bits into a cell. */
static inline uint64_t read_number(struct reader *reader, unsigned kind, uint64_t *cell)
{
    uint64_t value, number;

    if (kind != VARINT)
        return PITO_REFUSED_WIRE_TYPE;
    if ((number = read_varint(reader, &value)))
        return number;
    *cell = (uint32_t)value;
    return PITO_DONE;
}

static inline uint64_t read_string(struct reader *reader, unsigned kind, const uint8_t *message, uint64_t field, uint64_t *row,
                                   uint64_t fault[2])
{
    return kind == BYTES ? read_text(reader, message, field, row, fault) : PITO_REFUSED_WIRE_TYPE;
}

/* A segment, and a component within firmware information: strings 1 and 4, or 2 and 4, and two numbers. */
static uint64_t read_segment(const uint8_t *message, size_t length, uint64_t *row, uint64_t fault[2])
{
    struct reader reader = {message, message + length};

    while (reader.next < reader.end) {
        uint64_t field, number;
        unsigned kind;

        if ((number = read_tag(&reader, &field, &kind)))
            return number;
        if (field == 1 || field == 4)
            number = read_string(&reader, kind, message, field, row + field - (field == 1), fault);
        else if (field == 2 || field == 3)
            number = read_number(&reader, kind, row + field);
        else
            number = skip(&reader, kind);
        if (number)
            return number;
    }
    if (row[PITO_SEGMENT_READ_OFFSET])
        fault[0] = 2;
    else if (!are_digits(message + row[PITO_SEGMENT_READ_SIGNATURE_START], row[PITO_SEGMENT_READ_SIGNATURE_LENGTH]))
        fault[0] = 4;
    return fault[0] ? PITO_REFUSED_PROFILE : PITO_DONE;
}

uint64_t pito_segment_read(const uint8_t *message, pito_len message_len, uint64_t *answer, pito_len answer_len)
{
    uint64_t fault[2] = {0, 0};

    if (answer_len != PITO_SEGMENT_READ_ANSWER)
        return PITO_REFUSED_UNFIT;
    clear(answer, PITO_SEGMENT_READ_ANSWER);
    uint64_t number = read_segment(message, (size_t)message_len, answer, fault);
    if (number) {
        clear(answer, PITO_SEGMENT_READ_FIELD);
        answer[PITO_SEGMENT_READ_FIELD] = fault[0];
        answer[PITO_SEGMENT_READ_PLACE] = fault[1];
    }
    return number;
}

static uint64_t read_component(const uint8_t *message, struct reader reader, uint64_t *row, uint64_t fault[2])
{
    clear(row, PITO_COMPONENT_ANSWER);
    while (reader.next < reader.end) {
        uint64_t field, number;
        unsigned kind;

        if ((number = read_tag(&reader, &field, &kind)))
            return number;
        if (field == 2 || field == 4)
            number = read_string(&reader, kind, message, field, row + (field == 2 ? 1 : 4), fault);
        else if (field == 1 || field == 3)
            number = read_number(&reader, kind, row + (field == 1 ? 0 : 3));
        else
            number = skip(&reader, kind);
        if (number)
            return number;
    }
    return PITO_DONE;
}

/* The message's own fields: whether to restart, and the firmware information, once at most. */
static inline uint64_t read_outer(struct reader reader, uint64_t *row, struct reader *information)
{
    bool given = false;

    while (reader.next < reader.end) {
        uint64_t field, number, value;
        unsigned kind;

        if ((number = read_tag(&reader, &field, &kind)))
            return number;
        if (field == 1) {
            if (kind != BYTES)
                return PITO_REFUSED_WIRE_TYPE;
            if (given)
                return PITO_REFUSED_TOO_MANY;
            given = true;
            number = read_part(&reader, information);
        } else if (field == 2) {
            if (kind != VARINT)
                return PITO_REFUSED_WIRE_TYPE;
            if (!(number = read_varint(&reader, &value)))
                row[PITO_APPLY_READ_RESTART_REQUIRED] = value != 0;
        } else {
            number = skip(&reader, kind);
        }
        if (number)
            return number;
    }
    return PITO_DONE;
}

/* A component's place is kept in its own cells until it is read. */
static inline uint64_t keep_component(struct reader *reader, unsigned kind, const uint8_t *message, uint64_t *row)
{
    struct reader part;
    uint64_t number;

    if (kind != BYTES)
        return PITO_REFUSED_WIRE_TYPE;
    if (row[PITO_APPLY_READ_COMPONENTS] == PITO_MOST_COMPONENTS)
        return PITO_REFUSED_TOO_MANY;
    if ((number = read_part(reader, &part)))
        return number;
    tell_part(row + PITO_APPLY_READ_COMPONENT_AT(row[PITO_APPLY_READ_COMPONENTS]++), message, part);
    return PITO_DONE;
}

static inline uint64_t read_information(const uint8_t *message, struct reader reader, uint64_t *row, uint64_t fault[2])
{
    while (reader.next < reader.end) {
        uint64_t field, number;
        unsigned kind;

        if ((number = read_tag(&reader, &field, &kind)))
            return number;
        if (field == 1)
            number = read_number(&reader, kind, row + PITO_APPLY_READ_VERSION);
        else if (field == 3)
            number = keep_component(&reader, kind, message, row);
        else if (field <= 5)
            number = read_string(&reader, kind, message, field, row + (field == 2 ? 2 : 2 * field - 4), fault);
        else
            number = skip(&reader, kind);
        if (number)
            return number;
    }
    return PITO_DONE;
}

static uint64_t read_apply(const uint8_t *message, size_t length, uint64_t *row, uint64_t fault[2])
{
    struct reader whole = {message, message + length}, information = {message, message};
    uint64_t number;

    if ((number = read_outer(whole, row, &information)) || (number = read_information(message, information, row, fault)))
        return number;
    for (size_t i = 0; i < row[PITO_APPLY_READ_COMPONENTS]; i++) {
        uint64_t *own = row + PITO_APPLY_READ_COMPONENT_AT(i);
        struct reader part = {message + own[0], message + own[0] + own[1]};

        if ((number = read_component(message, part, own, fault)))
            return number;
    }
    return PITO_DONE;
}

uint64_t pito_apply_read(const uint8_t *message, pito_len message_len, uint64_t *answer, pito_len answer_len)
{
    uint64_t fault[2] = {0, 0};

    if (answer_len != PITO_APPLY_READ_ANSWER)
        return PITO_REFUSED_UNFIT;
    memset(answer, 0, PITO_APPLY_READ_ANSWER * sizeof *answer);
    uint64_t number = read_apply(message, (size_t)message_len, answer, fault);
    if (number) {
        memset(answer, 0, PITO_APPLY_READ_FIELD * sizeof *answer);
        answer[PITO_APPLY_READ_FIELD] = fault[0];
        answer[PITO_APPLY_READ_PLACE] = fault[1];
    }
    return number;
}

uint64_t pito_segment_write(const uint8_t *name, pito_len name_len, uint64_t offset, uint64_t size, const uint8_t *signature,
                            pito_len signature_len, uint8_t *output, pito_len output_len, uint64_t *answer, pito_len answer_len)
{
    if (answer_len != PITO_SEGMENT_WRITE_ANSWER)
        return PITO_REFUSED_UNFIT;
    clear(answer, PITO_SEGMENT_WRITE_ANSWER);
    size_t named = (size_t)name_len, signed_by = (size_t)signature_len;
    uint64_t *fault = answer + PITO_SEGMENT_WRITE_FIELD;
    if (offset >> 32 || size >> 32)
        return PITO_REFUSED_ARGUMENT;
    if (!is_text(1, name, named, fault) || !is_text(4, signature, signed_by, fault))
        return PITO_REFUSED_TEXT;
    if (offset || !are_digits(signature, signed_by)) {
        fault[0] = offset ? 2 : 4;
        return PITO_REFUSED_PROFILE;
    }
    size_t written = text_size(named) + number_size(size) + text_size(signed_by);
    if (written > output_len)
        return PITO_REFUSED_OUTPUT;
    output = put_number(put_text(output, 0x0A, name, named), 0x18, size);
    put_text(output, 0x22, signature, signed_by);
    answer[PITO_SEGMENT_WRITE_WRITTEN] = written;
    return PITO_DONE;
}

/* Whether a start and a length lie within the texts. */
static inline bool is_part(const uint64_t *cells, size_t texts_len)
{
    return cells[0] <= texts_len && cells[1] <= texts_len - cells[0];
}

/* Whether the numbers of a component are in range. */
static inline bool is_component(const uint64_t *own, size_t texts_len)
{
    return !(own[PITO_COMPONENT_VERSION] >> 32) && !(own[PITO_COMPONENT_SIZE] >> 32)
           && is_part(own + PITO_COMPONENT_NAME_START, texts_len) && is_part(own + PITO_COMPONENT_SIGNATURE_START, texts_len);
}

static inline size_t component_size(const uint64_t *own)
{
    return number_size(own[PITO_COMPONENT_VERSION]) + text_size((size_t)own[PITO_COMPONENT_NAME_LENGTH])
           + number_size(own[PITO_COMPONENT_SIZE]) + text_size((size_t)own[PITO_COMPONENT_SIGNATURE_LENGTH]);
}

static inline bool is_row(const uint64_t *row, size_t texts_len)
{
    return row[PITO_APPLY_READ_RESTART_REQUIRED] <= 1 && !(row[PITO_APPLY_READ_VERSION] >> 32)
           && row[PITO_APPLY_READ_COMPONENTS] <= PITO_MOST_COMPONENTS && is_part(row + PITO_APPLY_READ_NAME_START, texts_len)
           && is_part(row + PITO_APPLY_READ_LOCALE_START, texts_len)
           && is_part(row + PITO_APPLY_READ_VERSION_NAME_START, texts_len);
}

static inline bool is_row_text(uint64_t field, const uint64_t *cells, const uint8_t *texts, uint64_t fault[2])
{
    return is_text(field, texts + cells[0], (size_t)cells[1], fault);
}

/* All strings, in writing order. */
static inline bool are_texts(const uint64_t *row, const uint8_t *texts, uint64_t fault[2])
{
    if (!is_row_text(2, row + PITO_APPLY_READ_NAME_START, texts, fault))
        return false;
    for (size_t i = 0; i < row[PITO_APPLY_READ_COMPONENTS]; i++) {
        const uint64_t *own = row + PITO_APPLY_READ_COMPONENT_AT(i);

        if (!is_row_text(2, own + PITO_COMPONENT_NAME_START, texts, fault)
            || !is_row_text(4, own + PITO_COMPONENT_SIGNATURE_START, texts, fault))
            return false;
    }
    return is_row_text(4, row + PITO_APPLY_READ_LOCALE_START, texts, fault)
           && is_row_text(5, row + PITO_APPLY_READ_VERSION_NAME_START, texts, fault);
}

static inline uint8_t *put_row_text(uint8_t *output, uint8_t tag, const uint64_t *cells, const uint8_t *texts)
{
    return put_text(output, tag, texts + cells[0], (size_t)cells[1]);
}

static inline uint8_t *put_component(uint8_t *output, const uint64_t *own, size_t size, const uint8_t *texts)
{
    *output++ = 0x1A;
    output = put_number(put_varint(output, size), 0x08, own[PITO_COMPONENT_VERSION]);
    output = put_row_text(output, 0x12, own + PITO_COMPONENT_NAME_START, texts);
    output = put_number(output, 0x18, own[PITO_COMPONENT_SIZE]);
    return put_row_text(output, 0x22, own + PITO_COMPONENT_SIGNATURE_START, texts);
}

static inline void put_apply(uint8_t *output, const uint64_t *row, size_t inner, const size_t *sizes, const uint8_t *texts)
{
    *output++ = 0x0A;
    output = put_number(put_varint(output, inner), 0x08, row[PITO_APPLY_READ_VERSION]);
    output = put_row_text(output, 0x12, row + PITO_APPLY_READ_NAME_START, texts);
    for (size_t i = 0; i < row[PITO_APPLY_READ_COMPONENTS]; i++)
        output = put_component(output, row + PITO_APPLY_READ_COMPONENT_AT(i), sizes[i], texts);
    output = put_row_text(output, 0x22, row + PITO_APPLY_READ_LOCALE_START, texts);
    output = put_row_text(output, 0x2A, row + PITO_APPLY_READ_VERSION_NAME_START, texts);
    put_number(output, 0x10, row[PITO_APPLY_READ_RESTART_REQUIRED]);
}

uint64_t pito_apply_write(const uint64_t *row, pito_len row_len, const uint8_t *texts, pito_len texts_len, uint8_t *output,
                          pito_len output_len, uint64_t *answer, pito_len answer_len)
{
    if (answer_len != PITO_APPLY_WRITE_ANSWER || row_len != PITO_APPLY_ROW)
        return PITO_REFUSED_UNFIT;
    clear(answer, PITO_APPLY_WRITE_ANSWER);
    if (!is_row(row, (size_t)texts_len))
        return PITO_REFUSED_ARGUMENT;
    size_t sizes[PITO_MOST_COMPONENTS], inner = number_size(row[PITO_APPLY_READ_VERSION]);
    for (size_t i = PITO_APPLY_READ_NAME_LENGTH; i < PITO_APPLY_READ_COMPONENTS; i += 2)
        inner += text_size((size_t)row[i]);
    for (size_t i = 0; i < row[PITO_APPLY_READ_COMPONENTS]; i++) {
        const uint64_t *own = row + PITO_APPLY_READ_COMPONENT_AT(i);

        if (!is_component(own, (size_t)texts_len))
            return PITO_REFUSED_ARGUMENT;
        sizes[i] = component_size(own);
        inner += 1 + varint_size(sizes[i]) + sizes[i];
    }
    if (!are_texts(row, texts, answer + PITO_APPLY_WRITE_FIELD))
        return PITO_REFUSED_TEXT;
    size_t size = 1 + varint_size(inner) + inner + number_size(row[PITO_APPLY_READ_RESTART_REQUIRED]);
    if (size > output_len)
        return PITO_REFUSED_OUTPUT;
    put_apply(output, row, inner, sizes, texts);
    answer[PITO_APPLY_WRITE_WRITTEN] = size;
    return PITO_DONE;
}
