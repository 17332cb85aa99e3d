/* The extractor: the body eight bytes at a time up to a mark, the next frame's start by memchr. */
#include "bytes.h"

enum phase { OUTSIDE, BEFORE_PACKET_ID, BEFORE_ERROR_ID, BEFORE_SEQUENCE, BODY, ESCAPED };

/* One call: the bytes not yet used, and the state. */
struct feed {
    const uint8_t *next, *end;
    uint8_t *buffer;
    size_t size, held, length;
    uint64_t phase, sequence;
};

static inline bool is_lawful(const uint64_t *state, pito_len state_len, pito_len buffer_len)
{
    if (UNLIKELY(state_len != PITO_EXTRACTOR_STATE || !is_limit(state[PITO_EXTRACTOR_LIMIT])
                 || buffer_len != state[PITO_EXTRACTOR_LIMIT] + 2))
        return false;
    if (state[PITO_EXTRACTOR_PHASE] < BODY)
        return (state[PITO_EXTRACTOR_SEQUENCE] | state[PITO_EXTRACTOR_HELD]) == 0;
    return state[PITO_EXTRACTOR_PHASE] <= ESCAPED && state[PITO_EXTRACTOR_SEQUENCE] <= 0xFF
           && !is_mark(state[PITO_EXTRACTOR_SEQUENCE]) && state[PITO_EXTRACTOR_HELD] <= buffer_len;
}

static inline void set_state(uint64_t *state, uint64_t phase, uint64_t sequence, uint64_t held)
{
    state[PITO_EXTRACTOR_PHASE] = phase;
    state[PITO_EXTRACTOR_SEQUENCE] = sequence;
    state[PITO_EXTRACTOR_HELD] = held;
}

uint64_t pito_extractor_open(uint64_t limit, uint64_t *state, pito_len state_len)
{
    if (state_len != PITO_EXTRACTOR_STATE)
        return PITO_REFUSED_UNFIT;
    if (!is_limit(limit))
        return PITO_REFUSED_LIMIT;
    state[PITO_EXTRACTOR_LIMIT] = limit;
    set_state(state, OUTSIDE, 0, 0);
    return PITO_DONE;
}

/* A whole frame, if its checksum is right. */
static inline uint64_t finish(const uint8_t *buffer, size_t held, size_t *length)
{
    if (held < 2)
        return PITO_REFUSED_FRAME_SHORT;
    *length = held - 2;
    if (checksum(buffer, held - 2) != (uint16_t)(buffer[held - 2] << 8 | buffer[held - 1]))
        return PITO_REFUSED_CHECKSUM;
    return PITO_DONE;
}

/* A byte of the header, by its phase; none is a start. */
static inline uint64_t header_byte(uint64_t phase, uint8_t byte)
{
    if (byte == END)
        return PITO_REFUSED_FRAME_SHORT;
    if (phase == BEFORE_SEQUENCE ? byte == ESCAPE : byte != (phase == BEFORE_PACKET_ID ? 2 : 0))
        return PITO_REFUSED_HEADER;
    return PITO_DONE;
}

static inline uint64_t told(uint64_t *answer, uint64_t outcome, uint64_t sequence, uint64_t length)
{
    answer[PITO_STEP_OUTCOME] = outcome;
    answer[PITO_STEP_SEQUENCE] = sequence;
    answer[PITO_STEP_LENGTH] = length;
    return PITO_DONE;
}

static inline uint64_t refused(uint64_t *state, uint64_t *answer, uint64_t phase, uint64_t number)
{
    set_state(state, phase, 0, 0);
    told(answer, PITO_SKIPPED, 0, 0);
    return number;
}

/* A step in the body, of a byte that is no start. */
static inline uint64_t body_step(uint64_t *state, uint8_t *buffer, pito_len size, uint8_t byte, uint64_t *answer)
{
    size_t held = (size_t)state[PITO_EXTRACTOR_HELD], length = 0;

    if (byte == ESCAPE) {
        state[PITO_EXTRACTOR_PHASE] = ESCAPED;
        return told(answer, PITO_TAKEN, 0, 0);
    }
    if (byte == END) {
        uint64_t number = finish(buffer, held, &length);

        if (number)
            return refused(state, answer, OUTSIDE, number);
        told(answer, PITO_FRAME, state[PITO_EXTRACTOR_SEQUENCE], length);
        set_state(state, OUTSIDE, 0, 0);
        return PITO_DONE;
    }
    if (held == size)
        return refused(state, answer, OUTSIDE, PITO_REFUSED_FRAME_LONG);
    buffer[held] = byte;
    state[PITO_EXTRACTOR_HELD] = held + 1;
    return told(answer, PITO_TAKEN, 0, 0);
}

static inline bool is_code(uint8_t byte)
{
    return byte <= 3 && byte != 1;
}

static inline uint64_t escaped_step(uint64_t *state, uint8_t *buffer, pito_len size, uint8_t byte, uint64_t *answer)
{
    size_t held = (size_t)state[PITO_EXTRACTOR_HELD];

    if (!is_code(byte))
        return refused(state, answer, OUTSIDE, PITO_REFUSED_ESCAPE);
    if (held == size)
        return refused(state, answer, OUTSIDE, PITO_REFUSED_FRAME_LONG);
    buffer[held] = byte ^ ESCAPE;
    state[PITO_EXTRACTOR_HELD] = held + 1;
    state[PITO_EXTRACTOR_PHASE] = BODY;
    return told(answer, PITO_TAKEN, 0, 0);
}

static inline uint64_t header_step(uint64_t *state, uint64_t phase, uint8_t byte, uint64_t *answer)
{
    uint64_t number = header_byte(phase, byte);

    if (number)
        return refused(state, answer, OUTSIDE, number);
    state[PITO_EXTRACTOR_PHASE] = phase + 1;
    if (phase == BEFORE_SEQUENCE)
        state[PITO_EXTRACTOR_SEQUENCE] = byte;
    return told(answer, PITO_TAKEN, 0, 0);
}

uint64_t pito_extractor_step(uint64_t *state, pito_len state_len, uint8_t *buffer, pito_len buffer_len, uint8_t byte,
                             uint64_t *answer, pito_len answer_len)
{
    if (answer_len != PITO_STEP_ANSWER || !is_lawful(state, state_len, buffer_len))
        return PITO_REFUSED_UNFIT;
    uint64_t phase = state[PITO_EXTRACTOR_PHASE];
    if (byte == START) {
        set_state(state, BEFORE_PACKET_ID, 0, 0);
        told(answer, phase == OUTSIDE ? PITO_TAKEN : PITO_SKIPPED, 0, 0);
        return phase == OUTSIDE ? PITO_DONE : PITO_REFUSED_START_INSIDE;
    }
    if (phase == BODY)
        return body_step(state, buffer, buffer_len, byte, answer);
    if (phase == OUTSIDE)
        return told(answer, PITO_SKIPPED, 0, 0);
    if (phase == ESCAPED)
        return escaped_step(state, buffer, buffer_len, byte, answer);
    return header_step(state, phase, byte, answer);
}

/* Copies at most so many bytes, and none from the first mark on; answers how many. */
static inline size_t copy_clear(uint8_t *output, const uint8_t *bytes, size_t most)
{
    size_t at = 0;

    for (; most - at >= 8; at += 8) {
        uint64_t word = load8(bytes + at), marks = marks_of(word);

        if (marks) {
            uint64_t before = (marks & -marks) / 128 - 1;

            store8(output + at, (word & before) | (load8(output + at) & ~before));
            return at + bytes_below(marks);
        }
        store8(output + at, word);
    }
    for (; at < most && !is_mark(bytes[at]); at++)
        output[at] = bytes[at];
    return at;
}

/* The code after F2. */
static inline uint64_t feed_escaped(struct feed *feed)
{
    uint8_t code = *feed->next++;

    if (code == START)
        return PITO_REFUSED_START_INSIDE;
    if (!is_code(code))
        return PITO_REFUSED_ESCAPE;
    if (feed->held == feed->size)
        return PITO_REFUSED_FRAME_LONG;
    feed->buffer[feed->held++] = code ^ ESCAPE;
    feed->phase = BODY;
    return 0;
}

/* The body, to the end of the frame or of the bytes: PITO_FRAME, a refusal, or 0 where all are used. */
static inline uint64_t feed_body(struct feed *feed)
{
    while (feed->next < feed->end) {
        size_t room = feed->size - feed->held, left = (size_t)(feed->end - feed->next);
        size_t count = copy_clear(feed->buffer + feed->held, feed->next, room < left ? room : left);

        feed->held += count;
        feed->next += count;
        if (feed->next == feed->end)
            return 0;
        uint8_t byte = *feed->next++;
        if (byte == END) {
            uint64_t number = finish(feed->buffer, feed->held, &feed->length);
            return number ? number : PITO_FRAME;
        }
        if (byte != ESCAPE)
            return byte == START ? PITO_REFUSED_START_INSIDE : PITO_REFUSED_FRAME_LONG;
        feed->phase = ESCAPED;
        if (feed->next == feed->end)
            return 0;
        uint64_t number = feed_escaped(feed);
        if (number)
            return number;
    }
    return 0;
}

/* To the next start, and over its header where that is whole and right. */
static inline void feed_outside(struct feed *feed)
{
    if (*feed->next != START) {
        const uint8_t *start = memchr(feed->next, START, (size_t)(feed->end - feed->next));

        feed->next = start ? start : feed->end;
        if (!start)
            return;
    }
    const uint8_t *header = ++feed->next;
    feed->phase = BEFORE_PACKET_ID;
    if (LIKELY(feed->end - header >= 3) && header[0] == 2 && header[1] == 0 && !is_mark(header[2])) {
        feed->phase = BODY;
        feed->sequence = header[2];
        feed->held = 0;
        feed->next += 3;
    }
}

static inline uint64_t feed_header(struct feed *feed)
{
    uint8_t byte = *feed->next++;

    if (byte == START)
        return PITO_REFUSED_START_INSIDE;
    uint64_t number = header_byte(feed->phase, byte);
    if (number)
        return number;
    if (feed->phase++ == BEFORE_SEQUENCE) {
        feed->sequence = byte;
        feed->held = 0;
    }
    return 0;
}

/* What stands before the body, then the body. */
static inline uint64_t feed_on(struct feed *feed)
{
    while (feed->phase != BODY) {
        uint64_t decided = 0;

        if (feed->next == feed->end)
            return 0;
        if (feed->phase == OUTSIDE)
            feed_outside(feed);
        else if (feed->phase == ESCAPED)
            decided = feed_escaped(feed);
        else
            decided = feed_header(feed);
        if (decided)
            return decided;
    }
    return feed_body(feed);
}

static inline void tell(uint64_t *answer, uint64_t outcome, uint64_t used, uint64_t sequence, uint64_t length)
{
    answer[PITO_FEED_OUTCOME] = outcome;
    answer[PITO_FEED_USED] = used;
    answer[PITO_FEED_SEQUENCE] = sequence;
    answer[PITO_FEED_LENGTH] = length;
}

uint64_t pito_extractor_feed(uint64_t *state, pito_len state_len, uint8_t *buffer, pito_len buffer_len, const uint8_t *bytes,
                             pito_len bytes_len, uint64_t *answer, pito_len answer_len)
{
    if (answer_len != PITO_FEED_ANSWER)
        return PITO_REFUSED_UNFIT;
    if (UNLIKELY(!is_lawful(state, state_len, buffer_len))) {
        tell(answer, PITO_ALL_USED, 0, 0, 0);
        return PITO_REFUSED_UNFIT;
    }
    struct feed feed = {bytes,  bytes + bytes_len,           buffer, (size_t)buffer_len, (size_t)state[PITO_EXTRACTOR_HELD], 0,
                        state[PITO_EXTRACTOR_PHASE], state[PITO_EXTRACTOR_SEQUENCE]};
    uint64_t decided = feed_on(&feed), used = (uint64_t)(feed.next - bytes);
    if (decided == PITO_FRAME) {
        set_state(state, OUTSIDE, 0, 0);
        tell(answer, PITO_FRAME, used, feed.sequence, feed.length);
        return PITO_DONE;
    }
    tell(answer, PITO_ALL_USED, used, 0, 0);
    if (decided)
        set_state(state, decided == PITO_REFUSED_START_INSIDE ? BEFORE_PACKET_ID : OUTSIDE, 0, 0);
    else
        set_state(state, feed.phase, feed.phase >= BODY ? feed.sequence : 0, feed.phase >= BODY ? feed.held : 0);
    return decided;
}
