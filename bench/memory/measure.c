/*
 * Calls every function of the header some thousand times on a painted stack and prints how deep each went: whole
 * frames, packets of every kind and all messages as the library writes them, the same with bytes changed, cut or
 * put in, and arguments that are refused.
 */
#include <string.h>

#include "paint.h"
#include "pitokaenge.h"

#define ROUNDS 4000
#define LIMIT 4096
#define EXTRACTOR_BUFFER PITO_EXTRACTOR_BUFFER(LIMIT)
#define LONGEST_FRAME (2 * LIMIT + 9)
#define MOST_BYTES (2 * LONGEST_FRAME)
#define LONGEST_ROW PITO_APPLY_READ_ANSWER
#define LARGEST_ROOM 512

static uint64_t answer[LONGEST_ROW];
static uint8_t payload[LIMIT + 8], bytes[MOST_BYTES];
static const uint8_t streams[] = {PITO_STREAM_CONTROL, PITO_STREAM_OTA, PITO_STREAM_ALEXA};

/* A length, now and then a wrong one. */
static uint64_t length(uint64_t right)
{
    return once_in(60) ? right - 1 : right;
}

static uint64_t any_stream(void)
{
    return once_in(40) ? below(300) : streams[below(3)];
}

/* Any length up to the most, the short ones and the most itself often. */
static size_t any_length(size_t most)
{
    switch (below(8)) {
    case 0: return most;
    case 1: return below(most + 1);
    default: return below(most < 40 ? most + 1 : 40);
    }
}

/* Bytes of one kind: any, small, or mostly marks. */
static void fill(uint8_t *to, size_t count)
{
    uint64_t kind = below(3);
    for (size_t i = 0; i < count; i++)
        to[i] = (uint8_t)(kind == 0 ? below(256) : kind == 1 ? below(24) : 0xEF + below(4));
}

/* Changes, cuts or puts in some bytes, half of the time. */
static size_t damage(uint8_t *to, size_t count)
{
    while (count > 0 && !once_in(2)) {
        size_t place = below(once_in(2) && count > 8 ? 8 : count);
        switch (below(5)) {
        case 0: to[place] = (uint8_t)below(256); break;
        case 1: to[place] = (uint8_t)(0xF0 + below(3)); break;
        case 2: memmove(to + place, to + place + 1, count - place - 1); count--; break;
        case 3: to[place] ^= (uint8_t)(1 << below(8)); break;
        default: count -= below(count < 20 ? count : 20);
        }
    }
    return count;
}

/* The limit of the worked cases, or now and then any number. */
static uint64_t any_limit(void)
{
    return once_in(20) ? any_number() : LIMIT;
}

static size_t write_frame(void)
{
    size_t count = any_length(LIMIT + (once_in(40) ? 8 : 0));
    uint64_t sequence = once_in(20) ? below(300) : below(0xF0);
    uint64_t room = once_in(20) ? below(LONGEST_FRAME) : LONGEST_FRAME;
    fill(payload, count);
    if (CALL(pito_frame_write, sequence, any_limit(), A(payload), count, A(bytes), room, A(answer),
             length(PITO_FRAME_WRITE_ANSWER)) != 0)
        return 0;
    return answer[0];
}

/* The same payload's frame by parts, with all that is left of it offered, or some of it, or too much. */
static void write_parts(size_t count)
{
    static uint64_t state[PITO_PARTS_STATE];
    uint64_t sequence = once_in(20) ? below(300) : below(0xF0);
    size_t taken = 0;
    int ended = 0;
    if (CALL(pito_frame_begin, sequence, any_limit(), once_in(20) ? any_number() : count, A(state),
             length(PITO_PARTS_STATE)) != 0)
        return;
    while (!ended) {
        size_t left = count - taken, part = once_in(4) ? any_length(left) : left + (once_in(40) ? 1 : 0);
        uint64_t room = once_in(40) ? 0 : 1 + any_length(64);
        uint64_t number = CALL(pito_frame_part, A(state), length(PITO_PARTS_STATE), A(payload + taken), part, A(bytes),
                               room, A(answer), PITO_FRAME_PART_ANSWER);
        if (number == 0) {
            taken += answer[PITO_FRAME_PART_TAKEN];
            ended = answer[PITO_FRAME_PART_ENDED] == 1;
        }
        /* A total that is not the payload's never ends. */
        if (state[PITO_PARTS_TOTAL] != count)
            return;
    }
}

/* A frame that never ends stores too much; the others are the writer's. */
static size_t make_frame(void)
{
    size_t count = write_frame();
    if (once_in(20)) {
        count = EXTRACTOR_BUFFER + 400;
        memset(bytes, 0x20, count);
        memcpy(bytes, "\xF0\x02\x00\x05", 4);
    }
    return damage(bytes, count);
}

static void open_extractor(uint64_t *state)
{
    do
        CALL(pito_extractor_open, any_limit(), A(state), length(PITO_EXTRACTOR_STATE));
    while (state[PITO_EXTRACTOR_LIMIT] != LIMIT);
}

static void feed_frame(size_t count)
{
    static uint64_t state[PITO_EXTRACTOR_STATE];
    static uint8_t buffer[EXTRACTOR_BUFFER];
    size_t used = 0;
    if (state[PITO_EXTRACTOR_LIMIT] == 0)
        open_extractor(state);
    while (used < count) {
        size_t part = 1 + any_length(count - used - 1);
        uint64_t number = CALL(pito_extractor_feed, A(state), PITO_EXTRACTOR_STATE, A(buffer),
                               length(EXTRACTOR_BUFFER), A(bytes + used), part, A(answer), PITO_FEED_ANSWER);
        used += number == 1 ? 0 : answer[1];
    }
}

static void step_frame(size_t count)
{
    static uint64_t state[PITO_EXTRACTOR_STATE];
    static uint8_t buffer[EXTRACTOR_BUFFER];
    open_extractor(state);
    for (size_t i = 0; i < count; i++)
        CALL(pito_extractor_step, A(state), length(PITO_EXTRACTOR_STATE), A(buffer), EXTRACTOR_BUFFER, bytes[i],
             A(answer), PITO_STEP_ANSWER);
}

static void classic(void)
{
    for (int round = 0; round < ROUNDS; round++) {
        size_t count = make_frame();
        feed_frame(count);
        if (count < 100 || once_in(20))
            step_frame(count);
        count = any_length(LIMIT);
        fill(payload, count);
        write_parts(count);
        CALL(pito_next_sequence, below(256), A(answer), length(PITO_NEXT_SEQUENCE_ANSWER));
    }
}

static uint64_t receiver[PITO_RECEIVER_STATE];
static pito_slot slots[PITO_SLOTS];

static void open_receiver(uint64_t *state)
{
    do
        CALL(pito_receiver_open, any_limit(), A(state), length(PITO_RECEIVER_STATE));
    while (state[PITO_RECEIVER_LIMIT] != LIMIT);
}

/* A capture of what was accepted since the last one. */
static uint8_t capture[1 << 16];
static size_t captured;

static void add_to_capture(const uint8_t *packet, size_t count)
{
    if (captured == 0)
        capture[captured++] = 1;
    if (captured + 2 + count > sizeof capture)
        return;
    capture[captured++] = (uint8_t)(count >> 8);
    capture[captured++] = (uint8_t)count;
    memcpy(capture + captured, packet, count);
    captured += count;
}

static void accept(const uint8_t *packet, size_t count)
{
    static uint8_t buffer[PITO_RECEIVER_BUFFER(LIMIT)], ack[PITO_ACK_SIZE];
    CALL(pito_receiver_accept, A(receiver), PITO_RECEIVER_STATE, A(slots), length(PITO_SLOTS), A(buffer),
         length(sizeof buffer), A(packet), count, below(once_in(60) ? 20 : 16), A(ack), length(sizeof ack), A(answer),
         PITO_ACCEPT_ANSWER);
    CALL(pito_packet_read, A(packet), count, any_limit(), A(answer), length(PITO_PACKET_READ_ANSWER));
    add_to_capture(packet, count);
}

/* Over whatever is in the row and the buffer; from a report near the largest numbers now and then. */
static void add_to_report(void)
{
    static uint64_t report[PITO_REPORT_ROW];
    static uint8_t buffer[PITO_RECEIVER_BUFFER(LIMIT)];
    pito_slot row[PITO_SLOTS];
    memcpy(row, slots, sizeof row);
    if (once_in(20))
        memset(report, once_in(2) ? 0 : 0xFF, sizeof report);
    CALL(pito_report_add, A(report), length(PITO_REPORT_ROW), any_limit(), A(row), length(PITO_SLOTS), A(buffer),
         length(sizeof buffer), A(capture), captured, A(answer), length(PITO_REPORT_ADD_ANSWER));
}

/* The packets of the capture, place after place. */
static void read_capture(void)
{
    uint64_t place = once_in(20) ? any_number() : 1;
    while (CALL(pito_capture_packet, A(capture), captured, place, A(answer), length(PITO_CAPTURE_PACKET_ANSWER)) == 0 &&
           answer[PITO_CAPTURE_PACKET_OUTCOME] == PITO_PACKET)
        place = answer[PITO_CAPTURE_PACKET_NEXT];
}

static void judge(uint64_t room, uint64_t limit)
{
    captured = once_in(20) ? damage(capture, captured) : captured;
    add_to_report();
    read_capture();
    CALL(pito_capture_judge, A(capture), captured, once_in(20) ? below(600) : room, once_in(20) ? any_number() : limit,
         A(answer), length(PITO_CAPTURE_JUDGE_ANSWER));
    CALL(pito_capture_why, A(capture), captured, once_in(20) ? below(600) : room, once_in(20) ? any_number() : limit,
         A(answer), length(PITO_CAPTURE_WHY_ANSWER));
    captured = 0;
}

/* All packets of a message, some of them damaged or followed by any bytes. */
static void send_message(void)
{
    uint64_t room = once_in(40) ? below(600) : 20 + below(LARGEST_ROOM - 19), stream = any_stream(), place = 0;
    uint64_t id = below(once_in(40) ? 20 : 16), sequence = below(once_in(40) ? 20 : 16), ack = below(2);
    uint64_t limit = any_limit();
    size_t count = any_length(LIMIT);
    int clean = once_in(2);
    fill(payload, count);
    do {
        uint64_t next, output = once_in(100) ? below(20) : LARGEST_ROOM;
        if (CALL(pito_packet_write, room, limit, stream, id, sequence, ack, A(payload), count, place, A(bytes), output,
                 A(answer), length(PITO_PACKET_WRITE_ANSWER)) != 0)
            return;
        next = answer[1];
        /* Another type now and then: a message that ends too early. */
        bytes[1] ^= !clean && once_in(4) ? 0x0C : 0;
        accept(bytes, clean ? answer[0] : damage(bytes, answer[0]));
        if (!clean && once_in(4)) {
            fill(bytes, 8);
            accept(bytes, below(9));
        }
        place = once_in(100) ? place + 1 : next;
    } while (place < count);
    judge(room, limit);
}

static void low_energy(void)
{
    static uint64_t other[PITO_RECEIVER_STATE];
    for (int round = 0; round < ROUNDS; round++) {
        open_receiver(round == 0 ? receiver : other);
        /* What damage left open fills the row. */
        if (once_in(200))
            memset(slots, 0, sizeof slots);
        send_message();
        if (CALL(pito_ack_write, any_stream(), below(17), below(17), below(3), A(bytes), once_in(20) ? 5 : 6,
                 A(answer), length(PITO_ACK_WRITE_ANSWER)) == 0)
            accept(bytes, damage(bytes, 6));
    }
}

/* A signed 32-bit number, now and then one of 64 bits. */
static uint64_t any_signed(void)
{
    return once_in(20) ? any_number() : (uint64_t)(int64_t)(int32_t)any_number();
}

static uint64_t any_field(void)
{
    return once_in(20) ? any_number() : below(20);
}

/* An unsigned 32-bit number, now and then one of 64 bits. */
static uint64_t any_unsigned(void)
{
    return once_in(60) ? any_number() : (uint32_t)any_number();
}

static void read_fields(size_t count)
{
    uint64_t place = once_in(40) ? below(count + 3) : 0;
    while (CALL(pito_field_read, A(bytes), count, place, A(answer), length(PITO_FIELD_READ_ANSWER)) == 0 &&
           answer[PITO_FIELD_READ_OUTCOME] == PITO_FIELD)
        place = answer[PITO_FIELD_READ_NEXT];
}

static void read_all(size_t count)
{
    CALL(pito_envelope_read, A(bytes), count, A(answer), length(PITO_ENVELOPE_READ_ANSWER));
    CALL(pito_response_read, A(bytes), count, A(answer), length(PITO_RESPONSE_READ_ANSWER));
    CALL(pito_information_read, A(bytes), count, A(answer), length(PITO_INFORMATION_READ_ANSWER));
    CALL(pito_features_read, A(bytes), count, A(answer), length(PITO_FEATURES_READ_ANSWER));
    CALL(pito_segment_read, A(bytes), count, A(answer), length(PITO_SEGMENT_READ_ANSWER));
    CALL(pito_apply_read, A(bytes), count, A(answer), length(PITO_APPLY_READ_ANSWER));
    read_fields(count);
}

/* Damaged, or with itself behind it: what may stand once then stands twice. */
static void read_written(uint64_t number)
{
    size_t count = number == 0 ? answer[0] : 0;
    if (once_in(4)) {
        memcpy(bytes + count, bytes, count);
        count *= 2;
    }
    read_all(damage(bytes, count));
}

static uint64_t room_for_message(void)
{
    return once_in(20) ? below(40) : LONGEST_FRAME;
}

static void write_envelope(size_t count)
{
    read_written(CALL(pito_response_write, any_signed(), any_field(), A(payload), count, A(bytes), room_for_message(),
                      A(answer), length(PITO_RESPONSE_WRITE_ANSWER)));
    read_written(CALL(pito_envelope_write, any_signed(), below(once_in(20) ? 4 : 3), any_signed(), any_field(),
                      A(payload), count, A(bytes), room_for_message(), A(answer),
                      length(PITO_ENVELOPE_WRITE_ANSWER)));
}

static void write_information(size_t count)
{
    uint64_t transports[PITO_MOST_TRANSPORTS + 1], many = below(once_in(20) ? 10 : 9);
    for (uint64_t i = 0; i < many; i++)
        transports[i] = any_signed();
    read_written(CALL(pito_information_write, A(payload), count, A(payload), below(count + 1), A(payload),
                      below(count + 1), A(transports), many, A(bytes), room_for_message(), A(answer),
                      length(PITO_INFORMATION_WRITE_ANSWER)));
    read_written(CALL(pito_features_write, any_number(), any_number(), A(bytes), room_for_message(), A(answer),
                      length(PITO_FEATURES_WRITE_ANSWER)));
}

static void write_segment(size_t count)
{
    uint8_t signature[64];
    for (size_t i = 0; i < sizeof signature; i++)
        signature[i] = (uint8_t)"0123456789abcdefABCDEF"[below(22)];
    if (once_in(20))
        signature[below(sizeof signature)] = 'g';
    read_written(CALL(pito_segment_write, A(payload), count, once_in(20) ? any_unsigned() : 0, any_unsigned(),
                      A(signature), sizeof signature, A(bytes), room_for_message(), A(answer),
                      length(PITO_SEGMENT_WRITE_ANSWER)));
}

/* A part of the payload, now and then one that passes its end. */
static void any_part(uint64_t *part, size_t count)
{
    part[0] = below(count + 1);
    part[1] = below(count + 1 - part[0]) + once_in(200);
}

static void write_apply(size_t count)
{
    static uint64_t row[PITO_APPLY_ROW];
    row[PITO_APPLY_READ_RESTART_REQUIRED] = below(once_in(40) ? 3 : 2);
    row[PITO_APPLY_READ_VERSION] = any_unsigned();
    any_part(row + PITO_APPLY_READ_NAME_START, count);
    any_part(row + PITO_APPLY_READ_LOCALE_START, count);
    any_part(row + PITO_APPLY_READ_VERSION_NAME_START, count);
    row[PITO_APPLY_READ_COMPONENTS] = below(once_in(40) ? 10 : 9);
    for (size_t i = 0; i < PITO_MOST_COMPONENTS; i++) {
        uint64_t *component = row + PITO_APPLY_READ_COMPONENT_AT(i);
        component[PITO_COMPONENT_VERSION] = any_unsigned();
        any_part(component + PITO_COMPONENT_NAME_START, count);
        component[PITO_COMPONENT_SIZE] = any_unsigned();
        any_part(component + PITO_COMPONENT_SIGNATURE_START, count);
    }
    read_written(CALL(pito_apply_write, A(row), length(PITO_APPLY_ROW), A(payload), count, A(bytes),
                      room_for_message(), A(answer), length(PITO_APPLY_WRITE_ANSWER)));
}

static void messages(void)
{
    for (int round = 0; round < ROUNDS; round++) {
        size_t count = any_length(1000);
        fill(payload, count);
        write_envelope(count);
        write_information(count);
        write_segment(count);
        write_apply(count);
        count = any_length(100);
        fill(bytes, count);
        read_all(count);
    }
}

static void read_outbox(size_t used)
{
    uint64_t place = once_in(40) ? below(used + 3) : !once_in(40);
    CALL(pito_outbox_whole, A(bytes), used, A(answer), length(PITO_OUTBOX_WHOLE_ANSWER));
    while (CALL(pito_outbox_record, A(bytes), used, place, A(answer), length(PITO_OUTBOX_RECORD_ANSWER)) == 0 &&
           answer[0] == PITO_RECORD) {
        uint64_t start = answer[2], payload_length = answer[3];
        place = answer[4];
        CALL(pito_text, A(bytes) + start, payload_length, A(answer), length(PITO_TEXT_ANSWER));
    }
}

static void move_outbox(size_t used)
{
    static uint8_t moved[2 * MOST_BYTES];
    size_t room = once_in(40) ? below(used + 2) : sizeof moved;
    CALL(pito_outbox_to_01, A(bytes), used, A(moved), room, A(answer), length(PITO_OUTBOX_TO_01_ANSWER));
    CALL(pito_outbox_to_02, A(bytes), used, A(moved), room, A(answer), length(PITO_OUTBOX_TO_02_ANSWER));
}

static void outbox(void)
{
    uint64_t used = 0;
    for (int round = 0; round < ROUNDS; round++) {
        size_t count = any_length(LIMIT + once_in(40));
        if (used == 0 || once_in(10))
            used = CALL(pito_outbox_new, A(bytes), !once_in(40), A(answer), length(PITO_OUTBOX_NEW_ANSWER)) == 0;
        /* Version 01. */
        if (used == 1 && once_in(2))
            bytes[0] = 1;
        CALL(pito_outbox_new, A(payload), below(3), A(answer), length(PITO_OUTBOX_NEW_ANSWER));
        fill(payload, count);
        if (CALL(pito_outbox_append, A(bytes), MOST_BYTES, once_in(60) ? MOST_BYTES + 1 : used, any_stream(),
                 A(payload), count, A(answer), length(PITO_OUTBOX_APPEND_ANSWER)) == 0)
            used = answer[0];
        read_outbox(used);
        move_outbox(used);
        if (once_in(10))
            used = damage(bytes, used);
        if (once_in(40) && used > 3)
            memset(bytes + 1, 0, 3);
    }
}

/* Questions of every kind, now and then any message, answered on any link. */
static void replies(void)
{
    static const uint8_t commands[] = {20, 28, 94, 95, 21};
    uint8_t question[6] = {0x08, 0, 0x4A};
    uint64_t transports[PITO_MOST_TRANSPORTS + 1];
    for (int round = 0; round < ROUNDS; round++) {
        size_t count = any_length(1000);
        uint64_t room = once_in(40) ? below(600) : 20 + below(LARGEST_ROOM - 19), many = below(once_in(20) ? 10 : 9);
        fill(payload, count);
        question[1] = commands[below(sizeof commands)];
        fill(question + 3, 3);
        for (uint64_t i = 0; i < many; i++)
            transports[i] = any_signed();
        CALL(pito_reply_write, A(question), once_in(4) ? below(7) : 2, A(payload), count, A(payload), below(count + 1),
             A(payload), below(count + 1), A(transports), many, any_number(), any_number(), any_field(), any_field(),
             room, any_limit(), below(once_in(40) ? 20 : 16), below(once_in(40) ? 20 : 16), A(bytes),
             room_for_message(), A(answer), length(PITO_REPLY_WRITE_ANSWER));
    }
}

int main(void)
{
    classic();
    low_energy();
    messages();
    outbox();
    replies();
    print_depths();
    return 0;
}
