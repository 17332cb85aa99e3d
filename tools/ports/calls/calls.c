/*
 * Random calls of every function, whole and damaged input, numbers beyond 2^32 and rows of other lengths among them. For each function a
 * digest of all that its calls returned and of every byte that is lent, before and after, is printed: to be the same on every machine.
 * The worked cases come first, as text. An argument is drawn before the next, since compilers differ in the order of a call's arguments.
 *
 * ROUNDS: calls of each kind. SHIFT, 0 to 7: how far from a multiple of 8 lent bytes begin; slots begin at an even place. PAINT, on bare
 * metal: the deepest stack of each function is printed too, without what the caller puts there; so many bytes are looked at.
 */
#include <string.h>

#include "pitokaenge.h"
#include "machine.h"
#include "worked.h"

#ifndef ROUNDS
#define ROUNDS 300
#endif
#ifndef SHIFT
#define SHIFT 0
#endif

/* Everything that is ever lent. Lengths that are drawn stay below these. */
enum { ROW = 72, INPUT = 1400, OTHER = 128, OUTPUT = 1024, LINK = 770 };
static struct __attribute__((aligned(16))) {
    uint64_t answer[ROW], state[ROW], row[ROW], extractor[ROW], parts[ROW];
    uint8_t slots[136], link_slots[136];
    uint8_t input[INPUT + 8], other[OTHER + 8], third[OTHER + 8], output[OUTPUT + 8], buffer[LINK + 14], link_buffer[LINK + 14],
        frame[80];
} lent;
static uint64_t *const answer = lent.answer, *const state = lent.state, *const row = lent.row;
static uint8_t *const input = lent.input + SHIFT, *const other = lent.other + SHIFT, *const third = lent.third + SHIFT;
static uint8_t *const output = lent.output + SHIFT, *const buffer = lent.buffer + SHIFT, *const frame = lent.frame + SHIFT;
static pito_slot *const slots = (pito_slot *)(lent.slots + (SHIFT & 6));

/* ---- drawing */

static uint64_t seed;

static uint64_t draw(void)
{
    seed ^= seed << 13;
    seed ^= seed >> 7;
    seed ^= seed << 17;
    return seed;
}

static uint32_t below(uint32_t bound) { return (uint32_t)(draw() >> 33) % bound; }
static int one_in(uint32_t times) { return below(times) == 0; }

/* Any number, those at the ends of ranges often. */
static uint64_t any(void)
{
    static const uint64_t ends[] = {
        0, 1, 2, 3, 4, 5, 6, 7, 8, 9, 15, 16, 19, 20, 21, 28, 94, 95, 127, 128, 255, 256, 258, 261, 262, 263, 264, 512, 513, 4096,
        4097, 65535, 65536, 536870911, 536870912, 0x7FFFFFFF, 0x80000000, 0xFFFFFFFF, 0x100000000, 0x100000001, 0x100000014,
        0x7FFFFFFFFFFFFFFF, 0x8000000000000000, 0xFFFFFFFF80000000, 0xFFFFFFFFFFFFFFFE, 0xFFFFFFFFFFFFFFFF,
    };
    if (!one_in(3))
        return ends[below(sizeof ends / sizeof *ends)];
    uint64_t number = draw();
    return number >> below(64);
}

static uint64_t mostly(uint64_t usual) { return one_in(6) ? any() : usual; }
static pito_len length(uint32_t usual) { return one_in(20) ? below(70) : usual; }
static pito_len room_or(uint32_t enough, uint32_t bound) { return below(2) ? enough : below(bound); }

enum { ANY, FRAMES, MESSAGES, TEXT, PACKETS };

static void fill(uint8_t *bytes, uint32_t size, int kind)
{
    static const uint8_t frames[] = {0xF0, 0xF1, 0xF2, 0x02, 0x00, 0x03, 0x05, 0xF0, 0x41};
    static const uint8_t messages[] = {0x08, 0x0A, 0x10, 0x12, 0x18, 0x1A, 0x22, 0x4A, 0x0D, 0x09, 0x01, 0x02, 0x03,
                                       0x80, 0x7F, 0x00, 0xC3, 0xA9, 0xE2, 0x82, 0xAC, 0x2A, 0x04, 0x14, 0x1C};
    static const uint8_t text[] = {'a', 'b', '0', 'F', 0xC3, 0xA9, 0xE2, 0x82, 0xAC, 0xF0, 0x9F, 0x98, 0x80, 0xED, 0xA0};
    static const uint8_t packets[] = {0x01, 0x02, 0x00, 0x03, 0x06, 0x05};
    for (uint32_t i = 0; i < size; i++) {
        bytes[i] = (uint8_t)(draw() >> 40);
        if (kind == FRAMES && below(3))
            bytes[i] = frames[below(sizeof frames)];
        if (kind == MESSAGES && below(8))
            bytes[i] = messages[below(sizeof messages)];
        if (kind == TEXT)
            bytes[i] = text[below(below(5) ? 4 : sizeof text)];
        if (kind == PACKETS && below(2))
            bytes[i] = packets[below(sizeof packets)];
    }
}

static void fill_digits(uint8_t *bytes)
{
    for (int i = 0; i < 64; i++)
        bytes[i] = (uint8_t)"0123456789abcdefABCDEF"[below(22)];
}

/* ---- the stack of a call */

#ifdef PAINT
static uint32_t deepest;
static uintptr_t top;

__attribute__((noinline)) static void paint(void)
{
    uintptr_t own;
    STACK_POINTER(own);
    for (volatile uint32_t *word = (uint32_t *)(top - PAINT); (uintptr_t)word < own - 16; word++)
        *word = 0xA5C35A3C;
}

__attribute__((noinline)) static void look(void)
{
    volatile uint32_t *word = (uint32_t *)(top - PAINT);
    while (*word == 0xA5C35A3C)
        word++;
    if (top - (uintptr_t)word > deepest)
        deepest = (uint32_t)(top - (uintptr_t)word);
}

#define CALL(...) ({ STACK_POINTER(top); paint(); uint64_t number = __VA_ARGS__; look(); number; })
#else
#define CALL(...) __VA_ARGS__
#endif

/* ---- Classic */

static uint64_t extractor_open(void)
{
    uint64_t limit = mostly(40);
    pito_len size = length(4);
    return CALL(pito_extractor_open(limit, state, size));
}

/* The link's own state goes on from call to call; one in eight is any other. */
static uint64_t *some_extractor(void)
{
    if (!one_in(8)) {
        if (lent.extractor[0] == 0)
            lent.extractor[0] = 40;
        return lent.extractor;
    }
    for (int i = 0; i < 4; i++)
        state[i] = below(2) ? any() : below(7);
    if (below(2))
        state[0] = 40;
    return state;
}

static uint64_t extractor_step(void)
{
    uint64_t *own = some_extractor();
    pito_len size = length(4), lent_size = length(42);
    uint8_t byte = (uint8_t)(below(2) ? draw() : 0xF0 + below(4));
    pito_len told = length(3);
    return CALL(pito_extractor_step(own, size, frame, lent_size, byte, answer, told));
}

static uint64_t extractor_feed(void)
{
    uint64_t *own = some_extractor();
    uint32_t count = below(80);
    fill(input, count, FRAMES);
    pito_len size = length(4), lent_size = length(42), told = length(4);
    return CALL(pito_extractor_feed(own, size, frame, lent_size, input, count, answer, told));
}

static uint64_t frame_write(void)
{
    uint32_t count = below(60);
    fill(input, count, (int)below(2));
    uint64_t sequence = mostly(below(256)), limit = mostly(50);
    pito_len size = room_or(2 * count + 9, 150), told = length(1);
    return CALL(pito_frame_write(sequence, limit, input, count, output, size, answer, told));
}

static uint64_t frame_begin(void)
{
    uint64_t sequence = mostly(below(256)), limit = mostly(50), total = mostly(below(40));
    pito_len size = length(7);
    return CALL(pito_frame_begin(sequence, limit, total, lent.parts, size));
}

static uint64_t *some_parts(void)
{
    if (!one_in(8))
        return lent.parts;
    for (int i = 0; i < 7; i++)
        state[i] = any();
    if (below(2)) {
        static const uint32_t bounds[] = {1, 1, 1, 22, 70000, 9, 5};
        static const uint32_t starts[] = {50, 3, 20, 0, 0, 0, 0};
        for (int i = 0; i < 7; i++)
            state[i] = starts[i] + below(bounds[i]);
    }
    return state;
}

static uint64_t frame_part(void)
{
    uint64_t *own = some_parts();
    uint32_t count = below(30);
    fill(input, count, FRAMES);
    pito_len size = length(7), room = below(40), told = length(3);
    return CALL(pito_frame_part(own, size, input, count, output, room, answer, told));
}

static uint64_t next_sequence(void)
{
    uint8_t sequence = (uint8_t)draw();
    pito_len told = length(1);
    return CALL(pito_next_sequence(sequence, answer, told));
}

/* ---- Low Energy */

static uint64_t packet_write(void)
{
    uint32_t count = below(700);
    fill(input, count, ANY);
    uint64_t room = mostly(20 + below(493)), limit = mostly(1000), stream = mostly(6), id = mostly(below(16));
    uint64_t sequence = mostly(below(16)), ack = mostly(below(2)), place = below(3) ? 0 : below(2) ? below(800) : any();
    pito_len size = below(3) ? 512 : below(600), told = length(2);
    return CALL(pito_packet_write(room, limit, stream, id, sequence, ack, input, count, place, output, size, answer, told));
}

static uint64_t ack_write(void)
{
    uint64_t stream = mostly(6), id = mostly(below(16)), sequence = mostly(below(16)), positive = mostly(below(2));
    pito_len size = below(3) ? 6 : below(9), told = length(1);
    return CALL(pito_ack_write(stream, id, sequence, positive, output, size, answer, told));
}

static uint64_t receiver_open(void)
{
    uint64_t limit = mostly(40);
    pito_len size = length(1);
    return CALL(pito_receiver_open(limit, state, size));
}

static void fill_slots(void)
{
    memset(slots, 0, 96);
    for (int i = 0; i < PITO_SLOTS; i++)
        if (below(2)) {
            slots[i].opened = (uint8_t)(below(9) ? 1 : below(3));
            slots[i].id = (uint8_t)below(below(9) ? 16 : 256);
            slots[i].sequence = (uint8_t)below(below(9) ? 16 : 20);
            slots[i].wanted = (uint8_t)below(below(9) ? 2 : 4);
            slots[i].total = (uint16_t)(10 + below(40));
            slots[i].held = (uint16_t)below(12);
        }
}

/* A packet of each type that often fits a transaction which is open. Answers its length. */
static uint32_t some_packet(const pito_slot *own)
{
    static const uint8_t streams[] = {0x00, 0x20, 0x60, 0x60};
    uint32_t type = below(4), extended = type < 3 && one_in(5), header = (type == 0 || type == 3 ? 6 : 3) + extended, count = below(20);
    input[0] = streams[below(4)];
    input[0] |= (uint8_t)below(3);
    input[1] = (uint8_t)(below(16) << 4 | type << 2 | extended);
    input[1] |= (uint8_t)(below(2) << 1);
    for (int i = 0; i < PITO_SLOTS; i++)
        if (own[i].opened == 1 && below(3)) {
            input[0] = (uint8_t)(streams[i / 4] | (own[i].id & 15));
            input[1] = (uint8_t)((input[1] & 15) | ((own[i].sequence + 1) & 15) << 4);
            if (type == 2 && below(2))
                count = (uint32_t)(own[i].total - own[i].held) & 63;
            break;
        }
    if (type == 3) {
        input[2] = 0, input[3] = 2, input[4] = 1, input[5] = input[1] & 2 ? 0 : 3;
        return header;
    }
    input[2] = input[3] = input[header - 2] = 0;
    if (type == 0)
        input[4] = (uint8_t)below(45), input[5] = 0;
    input[header - 1] = (uint8_t)count;
    return header + count;
}

/* A packet with others behind it, or like one. */
static uint64_t packet_read(void)
{
    fill(input, 120, PACKETS);
    uint32_t count = 1 + below(40);
    if (below(6)) {
        fill_slots();
        count += some_packet(slots);
    }
    if (one_in(4)) {
        uint32_t at = below(6);
        input[at] ^= (uint8_t)(1 << below(8));
    }
    count = one_in(4) ? below(count) : count;
    uint64_t limit = mostly(40);
    pito_len told = length(10);
    return CALL(pito_packet_read(input, count, limit, answer, told));
}

static uint64_t receiver_accept(void)
{
    pito_slot *own = (pito_slot *)(lent.link_slots + (SHIFT & 6));
    uint8_t *own_buffer = lent.link_buffer + SHIFT;
    state[0] = mostly(40);
    if (one_in(12)) {
        fill_slots();
        own = slots, own_buffer = buffer;
    }
    uint32_t count = below(60);
    fill(input, 90, PACKETS);
    if (below(5))
        count = some_packet(own);
    pito_len size = length(1), row_size = below(30) ? 12 : below(16), lent_size = below(30) ? 480 : below(770);
    uint64_t sequence = mostly(below(16));
    pito_len room = below(20) ? 6 : below(9), told = length(8);
    return CALL(pito_receiver_accept(state, size, own, row_size, own_buffer, lent_size, input, count, sequence, output, room, answer,
                                     told));
}

/* A capture of packets that our writer wrote, some of them damaged or cut. Answers its length. */
static uint32_t some_capture(void)
{
    static const uint64_t streams[] = {0, 2, 6};
    uint32_t count = 1, transactions = below(12);
    input[0] = below(20) ? 1 : (uint8_t)below(4);
    for (uint32_t i = 0; i < transactions; i++) {
        uint64_t told[PITO_PACKET_WRITE_ANSWER], place = 0;
        uint32_t size = below(60);
        fill(other, size, ANY);
        do {
            uint32_t sequence = below(16), ack = below(2);
            if (pito_packet_write(20, 60, streams[i % 3], i & 15, sequence, ack, other, size, place, input + count + 2, 20, told, 2))
                return count;
            input[count] = 0;
            input[count + 1] = (uint8_t)told[0];
            count += 2 + (uint32_t)told[0];
            place = told[1];
        } while (place < size && below(20));
    }
    if (one_in(3)) {
        uint32_t at = below(count);
        input[at] ^= (uint8_t)(1 << below(8));
    }
    return one_in(6) ? below(count + 1) : count;
}

/* From place to place, or anywhere. */
static uint64_t capture_packet(void)
{
    static uint64_t next;
    uint32_t count = some_capture();
    uint64_t place = below(3) ? 1 : below(2) ? next : below(2) ? below(count + 2) : any();
    pito_len told = length(5);
    uint64_t number = CALL(pito_capture_packet(input, count, place, answer, told));
    next = number == 0 && told == 5 ? answer[PITO_CAPTURE_PACKET_NEXT] : 1;
    return number;
}

static uint64_t capture_judge(void)
{
    uint32_t count = some_capture();
    uint64_t room = mostly(20), limit = mostly(60);
    pito_len told = length(2);
    return CALL(pito_capture_judge(input, count, room, limit, answer, told));
}

static uint64_t capture_why(void)
{
    uint32_t count = some_capture();
    uint64_t room = mostly(20), limit = mostly(60);
    pito_len told = length(PITO_CAPTURE_WHY_ANSWER);
    return CALL(pito_capture_why(input, count, room, limit, answer, told));
}

static uint64_t report_add(void)
{
    uint32_t count = some_capture();
    for (int i = 0; i < 21; i++)
        row[i] = below(60) ? below(1000) : ~(uint64_t)0 - below(50);
    memset(slots, 7, 96);
    uint64_t limit = below(20) ? 60 : any();
    pito_len size = below(30) ? 21 : below(23), row_size = below(30) ? 12 : below(14), lent_size = below(20) ? 720 : below(770);
    pito_len told = length(1);
    return CALL(pito_report_add(row, size, limit, slots, row_size, buffer, lent_size, input, count, answer, told));
}

/* ---- messages read: of our writers, damaged or cut, or of any bytes */

static uint32_t damaged(uint32_t count)
{
    if (one_in(4) && count > 0) {
        uint32_t at = below(count);
        input[at] = (uint8_t)draw();
    }
    return one_in(8) ? below(count + 1) : count;
}

static uint32_t any_message(void)
{
    uint32_t count = below(60);
    fill(input, count, MESSAGES);
    return count;
}

/* Of a writer's answer: the bytes written come first in it. */
static uint32_t if_written(uint64_t number, const uint64_t *told) { return damaged(number == PITO_DONE ? (uint32_t)told[0] : any_message()); }

static uint32_t some_envelope(void)
{
    uint64_t told[PITO_ENVELOPE_WRITE_ANSWER];
    uint32_t count = below(20), command = below(100), payload = below(3), code = below(4), field = 2 + below(30);
    if (one_in(3))
        return damaged(any_message());
    fill(other, count, TEXT);
    return if_written(pito_envelope_write(command, payload, code, field, other, count, input, 300, told, 1), told);
}

static uint32_t some_information(void)
{
    uint64_t told[PITO_INFORMATION_WRITE_ANSWER];
    uint32_t count = below(20), transports = below(9);
    if (one_in(3))
        return damaged(any_message());
    fill(other, count, TEXT);
    for (int i = 0; i < 9; i++)
        row[i] = below(5);
    return if_written(
        pito_information_write(other, count, other, count / 2, other, count / 3, row, transports, input, 300, told, 3), told);
}

static uint32_t some_features(void)
{
    uint64_t told[PITO_FEATURES_WRITE_ANSWER], features = any(), attributes = any();
    if (one_in(3))
        return damaged(any_message());
    return if_written(pito_features_write(features, attributes, input, 300, told, 1), told);
}

static uint32_t some_segment(void)
{
    uint64_t told[PITO_SEGMENT_WRITE_ANSWER];
    uint32_t count = below(20), size = below(70000);
    if (one_in(3))
        return damaged(any_message());
    fill(other, count, TEXT);
    fill_digits(third);
    return if_written(pito_segment_write(other, count, 0, size, third, 64, input, 300, told, 3), told);
}

/* An ApplyFirmware by hand: fields of its FirmwareInformation in any order. */
static uint32_t some_apply(void)
{
    static const uint8_t tags[] = {0x08, 0x12, 0x1A, 0x22, 0x2A, 0x1A};
    uint32_t count = 2;
    if (one_in(2))
        return damaged(any_message());
    for (uint32_t fields = below(10); fields > 0; fields--) {
        uint8_t tag = tags[below(6)];
        uint32_t size = tag == 0x08 ? below(128) : below(6);
        input[count++] = tag;
        input[count++] = (uint8_t)size;
        if (tag != 0x08) {
            fill(input + count, size, tag == 0x1A ? MESSAGES : TEXT);
            count += size;
        }
    }
    input[0] = 0x0A;
    input[1] = (uint8_t)(count - 2);
    if (below(2)) {
        input[count++] = 0x10;
        input[count++] = (uint8_t)below(3);
    }
    return damaged(count);
}

#define READS(name, of, row_size)                                                                                                      \
    static uint64_t name(void)                                                                                                         \
    {                                                                                                                                  \
        uint32_t count = of();                                                                                                         \
        pito_len told = length(row_size);                                                                                              \
        return CALL(pito_##name(input, count, answer, told));                                                                          \
    }
READS(envelope_read, some_envelope, PITO_ENVELOPE_READ_ANSWER)
READS(response_read, some_envelope, PITO_RESPONSE_READ_ANSWER)
READS(information_read, some_information, PITO_INFORMATION_READ_ANSWER)
READS(features_read, some_features, PITO_FEATURES_READ_ANSWER)
READS(segment_read, some_segment, PITO_SEGMENT_READ_ANSWER)
READS(apply_read, some_apply, PITO_APPLY_READ_ANSWER)

static uint64_t field_read(void)
{
    uint32_t count = below(2) ? some_apply() : some_envelope();
    uint64_t place = below(3) ? below(40) : any();
    pito_len told = length(7);
    return CALL(pito_field_read(input, count, place, answer, told));
}

/* ---- messages written */

static uint64_t envelope_write(void)
{
    uint32_t count = below(40);
    fill(input, count, TEXT);
    uint64_t command = any(), payload = mostly(below(3)), code = any(), field = any();
    pito_len size = room_or(200, 80), told = length(1);
    return CALL(pito_envelope_write(command, payload, code, field, input, count, output, size, answer, told));
}

static uint64_t response_write(void)
{
    uint32_t count = below(40);
    fill(input, count, TEXT);
    uint64_t code = any(), field = any();
    pito_len size = room_or(200, 80), told = length(1);
    return CALL(pito_response_write(code, field, input, count, output, size, answer, told));
}

static uint64_t information_write(void)
{
    uint32_t serial = below(20), name = below(20), type = below(20), transports = below(10);
    fill(input, serial, TEXT);
    fill(other, name, TEXT);
    fill(third, type, TEXT);
    for (int i = 0; i < 10; i++)
        row[i] = below(4) ? below(9) : any();
    pito_len size = room_or(300, 80), told = length(3);
    return CALL(pito_information_write(input, serial, other, name, third, type, row, transports, output, size, answer, told));
}

static uint64_t features_write(void)
{
    uint64_t features = any(), attributes = any();
    pito_len size = room_or(30, 24), told = length(1);
    return CALL(pito_features_write(features, attributes, output, size, answer, told));
}

static uint64_t segment_write(void)
{
    uint32_t count = below(20);
    fill(input, count, TEXT);
    fill_digits(third);
    if (one_in(5))
        third[below(64)] = 0xAA;
    uint64_t offset = below(4) ? 0 : any(), size = any();
    pito_len digits = below(8) ? 64 : below(66), room = room_or(300, 120), told = length(3);
    return CALL(pito_segment_write(input, count, offset, size, third, digits, output, room, answer, told));
}

static uint64_t apply_write(void)
{
    fill(input, 200, TEXT);
    memset(lent.row, 0, sizeof lent.row);
    row[0] = mostly(below(2));
    row[1] = mostly(below(9));
    for (int i = 2; i < 8; i += 2) {
        row[i] = below(100);
        row[i + 1] = below(below(2) ? 3 : 90);
    }
    row[8] = mostly(below(9));
    for (int i = 9; i < 57; i++)
        row[i] = below(40) ? below(30) : any();
    pito_len size = below(20) ? 57 : below(60), texts = below(9) ? 200 : below(200), room = room_or(1000, 300), told = length(3);
    return CALL(pito_apply_write(row, size, input, texts, output, room, answer, told));
}

static uint64_t reply_write(void)
{
    static const uint8_t commands[] = {20, 28, 94, 95, 5, 7};
    uint32_t count = 2, name = below(20), serial = below(20), transports = below(10);
    input[0] = 8;
    input[1] = commands[below(6)];
    if (one_in(3))
        count = some_envelope();
    fill(other, serial, TEXT);
    fill(third, name, TEXT);
    for (int i = 0; i < 10; i++)
        row[i] = below(9) ? below(9) : any();
    uint64_t features = any(), attributes = any(), information_member = mostly(20), features_member = mostly(30);
    uint64_t room = mostly(20 + below(60)), limit = mostly(300), id = mostly(below(16)), sequence = mostly(below(16));
    pito_len size = room_or(900, 300), told = length(3);
    return CALL(pito_reply_write(input, count, other, serial, third, name, other, serial / 2, row, transports, features, attributes,
                                 information_member, features_member, room, limit, id, sequence, output, size, answer, told));
}

/* ---- the outbox */

/* An outbox of either version, whole, damaged or cut, or any bytes. Answers its length. */
static uint32_t some_outbox(void)
{
    static const uint8_t streams[] = {0, 2, 6, 6, 2, 0, 0, 0, 3};
    uint32_t count = below(200), place = 1;
    fill(input, 300, PACKETS);
    input[0] = (uint8_t)(below(9) ? 1 + below(2) : below(5));
    uint32_t width = input[0] == 2 ? 4 : 2;
    if (one_in(4))
        return count;
    while (place < 150 && below(8)) {
        uint32_t size = 1 + below(20);
        memset(input + place, 0, width);
        input[place + width - 1] = (uint8_t)size;
        input[place + width] = streams[below(below(9) ? 8 : 9)];
        place += width + size;
    }
    if (one_in(12))
        input[below(150)] = 0x55;
    return below(5) ? place : below(place + 1);
}

static uint64_t outbox_new(void)
{
    pito_len size = below(3), told = length(1);
    return CALL(pito_outbox_new(output, size, answer, told));
}

static uint64_t outbox_append(void)
{
    uint32_t count = some_outbox(), payload = below(30);
    fill(other, payload, ANY);
    uint64_t used = below(9) ? count : any(), stream = mostly(2);
    pito_len size = below(3) ? 300 : below(300), told = length(2);
    return CALL(pito_outbox_append(input, size, used, stream, other, payload, answer, told));
}

static uint64_t outbox_record(void)
{
    uint32_t count = some_outbox();
    uint64_t place = below(3) ? below(200) : any();
    pito_len told = length(6);
    return CALL(pito_outbox_record(input, count, place, answer, told));
}

READS(outbox_whole, some_outbox, PITO_OUTBOX_WHOLE_ANSWER)

static uint64_t outbox_to_01(void)
{
    uint32_t count = some_outbox();
    pito_len size = below(3) ? 500 : below(300), told = length(2);
    return CALL(pito_outbox_to_01(input, count, output, size, answer, told));
}

static uint64_t outbox_to_02(void)
{
    uint32_t count = some_outbox();
    pito_len size = below(3) ? 500 : below(300), told = length(2);
    return CALL(pito_outbox_to_02(input, count, output, size, answer, told));
}

static uint64_t text(void)
{
    uint32_t count = below(60);
    fill(input, count, one_in(4) ? ANY : TEXT);
    pito_len told = length(PITO_TEXT_ANSWER);
    return CALL(pito_text(input, count, answer, told));
}

/* ---- all of them */

#define KIND(name, times) {"pito_" #name, name, times}
static const struct {
    const char *name;
    uint64_t (*call)(void);
    uint32_t times;
} kinds[] = {
    KIND(extractor_open, 1),    KIND(extractor_step, 1), KIND(extractor_feed, 1),  KIND(frame_write, 1),   KIND(frame_begin, 1),
    KIND(frame_part, 1),        KIND(next_sequence, 1),  KIND(packet_write, 1),    KIND(ack_write, 1),     KIND(packet_read, 1),
    KIND(receiver_open, 1),     KIND(receiver_accept, 3), KIND(capture_packet, 1), KIND(capture_judge, 1), KIND(report_add, 1),
    KIND(envelope_read, 1),     KIND(response_read, 1),
    KIND(information_read, 1),  KIND(features_read, 1),  KIND(segment_read, 1),    KIND(apply_read, 2),    KIND(field_read, 1),
    KIND(envelope_write, 1),    KIND(response_write, 1), KIND(information_write, 1), KIND(features_write, 1),
    KIND(segment_write, 1),     KIND(apply_write, 1),    KIND(reply_write, 1),     KIND(outbox_new, 1),    KIND(outbox_append, 1),
    KIND(outbox_record, 1),     KIND(outbox_whole, 1),   KIND(outbox_to_01, 1),    KIND(outbox_to_02, 1),
    KIND(capture_why, 1),       KIND(text, 1),
};

/* Every step can be undone, so a difference does not vanish by itself. */
static uint32_t low, high;

static void mix(uint32_t word)
{
    low = (low ^ word) * 0x01000193;
    high = (high << 7 | high >> 25) ^ low;
}

static void mix_lent(void)
{
    const uint32_t *word = (const uint32_t *)&lent;
    uint32_t sum = low;
    for (size_t i = 0; i < sizeof lent / 4; i += 4) {
        sum = (sum ^ word[i]) * 0x01000193;
        sum = (sum ^ word[i + 1]) * 0x01000193;
        sum = (sum ^ word[i + 2]) * 0x01000193;
        sum = (sum ^ word[i + 3]) * 0x01000193;
    }
    mix(sum);
}

static void run(uint32_t which, uint32_t round)
{
    seed = (88172645463325252u + 1000003u * (uint64_t)round + 7919u * (uint64_t)which) * 0x9E3779B97F4A7C15u | 1;
    for (int i = 0; i < 4; i++)
        draw();
    for (int i = 0; i < ROW; i++)
        answer[i] = 77;
    memset(lent.output, 0x5A, sizeof lent.output);
    uint64_t number = kinds[which].call();
    mix((uint32_t)number);
    mix((uint32_t)(number >> 32));
    mix_lent();
}

int main(void)
{
    uint32_t calls = 0;
    worked_cases();
    for (uint32_t which = 0; which < sizeof kinds / sizeof *kinds; which++) {
        low = high = which;
        for (uint32_t round = 0; round < ROUNDS * kinds[which].times; round++, calls++)
            run(which, round);
        put(kinds[which].name);
        put(" ");
        put_hex((uint64_t)high << 32 | low, 16);
#ifdef PAINT
        put(" stack ");
        put_decimal(deepest);
        deepest = 0;
#endif
        put("\n");
    }
    put_decimal(calls);
    put(" calls\n");
    return 0;
}
