/* The frame writer: eight bytes at a time, sized first only where the output could be too small; and the same by parts. */
#include "bytes.h"

static inline uint8_t *put(uint8_t *output, uint8_t byte)
{
    if (UNLIKELY(is_mark(byte))) {
        *output++ = ESCAPE;
        byte ^= ESCAPE;
    }
    *output++ = byte;
    return output;
}

static inline bool is_sequence(uint64_t sequence)
{
    return sequence <= 0xFF && !is_mark(sequence);
}

static inline size_t count_marks(const uint8_t *bytes, size_t length)
{
    size_t count = 0;

    for (size_t i = 0; i < length; i++)
        count += (uint8_t)(bytes[i] - START) < 3;
    return count;
}

/* The payload, escaped; words are stored whole and what is too much of them is written over. */
static inline uint8_t *put_payload(uint8_t *output, const uint8_t *output_end, const uint8_t *payload, size_t length)
{
    const uint8_t *end = payload + length;

    while (end - payload >= 8 && output_end - output >= 8) {
        uint64_t word = load8(payload), marks = marks_of(word);
        size_t count = marks ? bytes_below(marks) : 8;

        store8(output, word);
        payload += count;
        output += count;
        if (!marks)
            continue;
        do {
            output[0] = ESCAPE;
            output[1] = *payload++ ^ ESCAPE;
            output += 2;
        } while (payload < end && is_mark(*payload));
    }
    while (payload < end)
        output = put(output, *payload++);
    return output;
}

uint64_t pito_frame_write(uint64_t sequence, uint64_t limit, const uint8_t *payload, pito_len payload_len, uint8_t *output,
                          pito_len output_len, uint64_t *answer, pito_len answer_len)
{
    if (answer_len != PITO_FRAME_WRITE_ANSWER)
        return PITO_REFUSED_UNFIT;
    answer[PITO_FRAME_WRITE_WRITTEN] = 0;
    if (!is_limit(limit))
        return PITO_REFUSED_LIMIT;
    if (!is_sequence(sequence) || payload_len > limit)
        return PITO_REFUSED_ARGUMENT;

    size_t length = (size_t)payload_len;
    uint16_t sum = checksum(payload, length);
    uint8_t high = (uint8_t)(sum >> 8), low = (uint8_t)sum, *next = output;

    if (output_len < PITO_FRAME_SIZE(length)
        && length + 7 + is_mark(high) + is_mark(low) + count_marks(payload, length) > output_len)
        return PITO_REFUSED_OUTPUT;
    next[0] = START;
    next[1] = 2;
    next[2] = 0;
    next[3] = (uint8_t)sequence;
    next = put_payload(next + 4, output + output_len, payload, length);
    next = put(put(next, high), low);
    *next++ = END;
    answer[PITO_FRAME_WRITE_WRITTEN] = (uint64_t)(next - output);
    return PITO_DONE;
}

enum { AT_PAYLOAD = 4, AT_LOW, AT_END, ENDED };

uint64_t pito_frame_begin(uint64_t sequence, uint64_t limit, uint64_t total, uint64_t *state, pito_len state_len)
{
    if (state_len != PITO_PARTS_STATE)
        return PITO_REFUSED_UNFIT;
    if (!is_limit(limit))
        return PITO_REFUSED_LIMIT;
    if (!is_sequence(sequence) || total > limit)
        return PITO_REFUSED_ARGUMENT;
    state[PITO_PARTS_LIMIT] = limit;
    state[PITO_PARTS_SEQUENCE] = sequence;
    state[PITO_PARTS_TOTAL] = total;
    state[PITO_PARTS_TAKEN] = 0;
    state[PITO_PARTS_SUM] = 2;
    state[PITO_PARTS_STAGE] = 0;
    state[PITO_PARTS_PENDING] = 0;
    return PITO_DONE;
}

static inline bool is_lawful(const uint64_t *state)
{
    return is_limit(state[PITO_PARTS_LIMIT]) && is_sequence(state[PITO_PARTS_SEQUENCE])
           && state[PITO_PARTS_TOTAL] <= state[PITO_PARTS_LIMIT] && state[PITO_PARTS_TAKEN] <= state[PITO_PARTS_TOTAL]
           && state[PITO_PARTS_SUM] <= 0xFFFF && state[PITO_PARTS_STAGE] <= ENDED && state[PITO_PARTS_PENDING] <= 3;
}

/* One call: what is left of the payload and of the output, and the state. */
struct parts {
    const uint8_t *payload, *payload_end;
    uint8_t *output, *output_end;
    uint64_t stage, pending;
    uint32_t sum;
};

/* A byte, escaped if it is a mark; there is room for one at least. */
static inline void put_part(struct parts *parts, uint8_t byte)
{
    if (is_mark(byte)) {
        *parts->output++ = ESCAPE;
        if (parts->output == parts->output_end) {
            parts->pending = byte - START + 1u;
            return;
        }
        byte ^= ESCAPE;
    }
    *parts->output++ = byte;
}

/* The payload, to the next mark that is written or to an end. */
static inline void put_run(struct parts *parts)
{
    while (parts->payload_end - parts->payload >= 8 && parts->output_end - parts->output >= 8) {
        uint64_t word = load8(parts->payload);

        if (marks_of(word))
            break;
        store8(parts->output, word);
        for (int i = 0; i < 8; i++)
            parts->sum += parts->payload[i];
        parts->payload += 8;
        parts->output += 8;
    }
    while (parts->payload < parts->payload_end && parts->output < parts->output_end) {
        uint8_t byte = *parts->payload++;

        parts->sum += byte;
        put_part(parts, byte);
        if (is_mark(byte))
            break;
    }
}

/* What stands before or behind the payload; false where nothing is left. */
static inline bool put_other(struct parts *parts, uint64_t sequence)
{
    static const uint8_t head[] = {START, 2, 0};

    if (parts->stage < AT_PAYLOAD)
        *parts->output++ = parts->stage < 3 ? head[parts->stage] : (uint8_t)sequence;
    else if (parts->stage == AT_PAYLOAD)
        put_part(parts, (uint8_t)(parts->sum >> 8));
    else if (parts->stage == AT_LOW)
        put_part(parts, (uint8_t)parts->sum);
    else if (parts->stage == AT_END)
        *parts->output++ = END;
    else
        return false;
    parts->stage++;
    return true;
}

/* `more`: payload is missing beyond what is offered. */
static inline void put_parts(struct parts *parts, uint64_t sequence, bool more)
{
    if (parts->pending) {
        *parts->output++ = (uint8_t)(ESCAPE ^ (START + parts->pending - 1));
        parts->pending = 0;
    }
    while (parts->output < parts->output_end) {
        if (LIKELY(parts->stage == AT_PAYLOAD && parts->payload < parts->payload_end))
            put_run(parts);
        else if ((parts->stage == AT_PAYLOAD && more) || !put_other(parts, sequence))
            return;
    }
}

uint64_t pito_frame_part(uint64_t *state, pito_len state_len, const uint8_t *payload, pito_len payload_len, uint8_t *output,
                         pito_len output_len, uint64_t *answer, pito_len answer_len)
{
    if (answer_len != PITO_FRAME_PART_ANSWER || state_len != PITO_PARTS_STATE || !is_lawful(state))
        return PITO_REFUSED_UNFIT;
    clear(answer, PITO_FRAME_PART_ANSWER);
    uint64_t missing = state[PITO_PARTS_TOTAL] - state[PITO_PARTS_TAKEN];
    if (payload_len > missing)
        return PITO_REFUSED_TOO_MUCH;
    if (output_len == 0)
        return PITO_REFUSED_OUTPUT;
    struct parts parts = {payload, payload + payload_len, output, output + output_len,
                          state[PITO_PARTS_STAGE], state[PITO_PARTS_PENDING], (uint32_t)state[PITO_PARTS_SUM]};
    put_parts(&parts, state[PITO_PARTS_SEQUENCE], missing > payload_len);
    state[PITO_PARTS_TAKEN] += (uint64_t)(parts.payload - payload);
    state[PITO_PARTS_SUM] = parts.sum & 0xFFFF;
    state[PITO_PARTS_STAGE] = parts.stage;
    state[PITO_PARTS_PENDING] = parts.pending;
    answer[PITO_FRAME_PART_TAKEN] = (uint64_t)(parts.payload - payload);
    answer[PITO_FRAME_PART_WRITTEN] = (uint64_t)(parts.output - output);
    answer[PITO_FRAME_PART_ENDED] = parts.stage == ENDED && parts.pending == 0;
    return PITO_DONE;
}

uint64_t pito_next_sequence(uint8_t sequence, uint64_t *answer, pito_len answer_len)
{
    if (answer_len != PITO_NEXT_SEQUENCE_ANSWER)
        return PITO_REFUSED_UNFIT;
    uint8_t next = (uint8_t)(sequence + 1);
    answer[PITO_NEXT_SEQUENCE_NEXT] = is_mark(next) ? ESCAPE + 1 : next;
    return PITO_DONE;
}
