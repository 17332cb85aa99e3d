/* Packets as they stand on the link, and the receiver without the judging of its row: for accepted packets and for reports. */
#ifndef PACKETS_H
#define PACKETS_H

#include "bytes.h"

enum { FIRST, CONTINUATION, LAST, CONTROL };
enum { FIRST_HEADER = 6, LATER_HEADER = 3, OF_A_STREAM = PITO_SLOTS / 3 };

/* The longest piece of a packet: a length above 255 takes one byte more. */
static inline size_t piece_of(size_t room, size_t header)
{
    size_t size = room - header;

    return size <= 255 ? size : size == 256 ? 255 : size - 1;
}

/* The header of a packet whose piece has so many bytes; answers where the piece goes. */
static inline uint8_t *put_header(uint8_t *output, unsigned head, unsigned sequence, bool first, bool last, bool ack,
                                  size_t total, size_t size)
{
    bool extended = size > 255;

    output[0] = (uint8_t)head;
    output[1] = (uint8_t)(sequence << 4 | (first ? FIRST : last ? LAST : CONTINUATION) << 2 | (ack && last) << 1 | extended);
    output += 2;
    if (first) {
        output[0] = 0;
        output[1] = (uint8_t)(total >> 8);
        output[2] = (uint8_t)total;
        output += 3;
    }
    if (extended)
        *output++ = (uint8_t)(size >> 8);
    *output++ = (uint8_t)size;
    return output;
}

static inline void put_ack(uint8_t *output, uint64_t stream, uint64_t id, uint64_t sequence, uint64_t positive)
{
    output[0] = (uint8_t)(stream << 4 | id);
    output[1] = (uint8_t)(sequence << 4 | CONTROL << 2 | positive << 1);
    output[2] = 0;
    output[3] = 2;
    output[4] = 1;
    output[5] = positive ? 0 : 3;
}

/* Whether a packet of six bytes, type and length known, is an ACK or a NACK. */
static inline bool is_ack(const uint8_t *packet)
{
    return packet[2] == 0 && packet[3] == 2 && packet[4] == 1 && packet[5] == (packet[1] & 2 ? 0 : 3);
}

/* The slot among a stream's four that is open for the id, or none. */
static inline int find_open(const pito_slot *lane, unsigned id)
{
    for (int i = 0; i < OF_A_STREAM; i++) {
        uint16_t opened_and_id;

        memcpy(&opened_and_id, lane + i, 2);
        if (opened_and_id == (1u | id << 8))
            return i;
    }
    return -1;
}

static inline int find_idle(const pito_slot *lane)
{
    for (int i = 0; i < OF_A_STREAM; i++)
        if (!lane[i].opened)
            return i;
    return -1;
}

static inline void make_idle(pito_slot *slot)
{
    memset(slot, 0, sizeof *slot);
}

/* A packet taken apart. */
struct packet {
    unsigned stream, id, sequence, type, flag;
    size_t header, length;
};

/* A piece that fits: where it goes and what comes of it. */
struct piece {
    pito_slot *slot;
    size_t total, held;
    unsigned wanted, replaced;
};

static inline uint64_t open_first(uint64_t limit, pito_slot *lane, const uint8_t *bytes, const struct packet *packet,
                                  struct piece *piece)
{
    int at = find_open(lane, packet->id);

    piece->total = (size_t)bytes[3] << 8 | bytes[4];
    piece->held = 0;
    piece->wanted = packet->flag;
    piece->replaced = at >= 0;
    if (piece->total > limit)
        return PITO_REFUSED_TOTAL;
    if (packet->length == 0 && piece->total != 0)
        return PITO_REFUSED_EMPTY_PAYLOAD;
    if (packet->length > piece->total)
        return PITO_REFUSED_ABOVE_TOTAL;
    if (at < 0 && (at = find_idle(lane)) < 0)
        return PITO_REFUSED_NO_SLOT;
    piece->slot = lane + at;
    return PITO_DONE;
}

static inline uint64_t go_on(pito_slot *lane, const struct packet *packet, struct piece *piece)
{
    if (packet->length == 0)
        return PITO_REFUSED_EMPTY_PAYLOAD;
    int at = find_open(lane, packet->id);
    if (at < 0)
        return PITO_REFUSED_NO_TRANSACTION;
    pito_slot *slot = lane + at;
    piece->slot = slot;
    piece->total = slot->total;
    piece->held = slot->held;
    piece->wanted = packet->flag | slot->wanted;
    piece->replaced = 0;
    if (packet->sequence != ((slot->sequence + 1u) & 15)) {
        make_idle(slot);
        return PITO_REFUSED_SEQUENCE;
    }
    size_t after = piece->held + packet->length;
    if (packet->type == LAST ? after != piece->total : after >= piece->total) {
        make_idle(slot);
        return PITO_REFUSED_MISSES_TOTAL;
    }
    return PITO_DONE;
}

/* The piece goes into its slot's part; where it is the last, the slot is idle again and the ACK is written. */
static inline void store_piece(uint64_t limit, pito_slot *row, uint8_t *buffer, const uint8_t *bytes, const struct packet *packet,
                               const struct piece *piece, uint64_t answer_sequence, uint8_t *out, uint64_t *answer)
{
    size_t place = (size_t)(piece->slot - row), held = piece->held + packet->length;

    memcpy(buffer + PITO_RECEIVER_PART(place, (size_t)limit) + piece->held, bytes + packet->header, packet->length);
    answer[PITO_ACCEPT_STREAM] = packet->stream;
    answer[PITO_ACCEPT_ID] = packet->id;
    answer[PITO_ACCEPT_REPLACED] = piece->replaced;
    answer[PITO_ACCEPT_PLACE] = place;
    if (held != piece->total) {
        *piece->slot = (pito_slot){1, (uint8_t)packet->id, (uint8_t)packet->sequence, (uint8_t)piece->wanted, (uint16_t)piece->total,
                                   (uint16_t)held};
        return;
    }
    make_idle(piece->slot);
    if (piece->wanted)
        put_ack(out, packet->stream, packet->id, answer_sequence, 1);
    answer[PITO_ACCEPT_OUTCOME] = PITO_FINISHED;
    answer[PITO_ACCEPT_TOTAL] = piece->total;
    answer[PITO_ACCEPT_ACK_WANTED] = piece->wanted;
}

/* One packet, with a lawful row; the answer row is all 0 before. */
static inline uint64_t take_packet(uint64_t limit, pito_slot *row, uint8_t *buffer, const uint8_t *bytes, size_t size,
                                   uint64_t answer_sequence, uint8_t *out, uint64_t *answer)
{
    if (size < 2)
        return PITO_REFUSED_PACKET_SHORT;
    struct packet packet = {bytes[0] >> 4, bytes[0] & 15, bytes[1] >> 4, bytes[1] >> 2 & 3, bytes[1] >> 1 & 1, 0, 0};
    unsigned extended = bytes[1] & 1;
    packet.header = (packet.type == FIRST ? FIRST_HEADER : LATER_HEADER) + extended;
    if (packet.type != CONTROL && size < packet.header)
        return PITO_REFUSED_PACKET_SHORT;
    if (!is_stream(packet.stream))
        return PITO_REFUSED_STREAM;
    if (UNLIKELY(packet.type == CONTROL)) {
        if (size != PITO_ACK_SIZE || extended || !is_ack(bytes))
            return PITO_REFUSED_CONTROL_PACKET;
        answer[PITO_ACCEPT_OUTCOME] = packet.flag ? PITO_ACKED : PITO_NACKED;
        answer[PITO_ACCEPT_STREAM] = packet.stream;
        answer[PITO_ACCEPT_ID] = packet.id;
        answer[PITO_ACCEPT_SEQUENCE] = packet.sequence;
        return PITO_DONE;
    }
    packet.length = bytes[packet.header - 1] | (extended ? (size_t)bytes[packet.header - 2] << 8 : 0);
    if (packet.type == FIRST && bytes[2] != 0)
        return PITO_REFUSED_RESERVED_BYTE;
    if (size != packet.header + packet.length)
        return PITO_REFUSED_PACKET_LENGTH;
    pito_slot *lane = row + OF_A_STREAM * lane_of(packet.stream);
    struct piece piece;
    uint64_t number = packet.type == FIRST ? open_first(limit, lane, bytes, &packet, &piece) : go_on(lane, &packet, &piece);
    if (number == PITO_DONE)
        store_piece(limit, row, buffer, bytes, &packet, &piece, answer_sequence, out, answer);
    return number;
}

/* A packet by itself, and the total of a first one; of `whole` bytes all are the packet's, else the first of them. */
static inline uint64_t read_packet(const uint8_t *bytes, size_t size, bool whole, uint64_t limit, struct packet *packet, size_t *total)
{
    *total = 0;
    if (size < 2)
        return PITO_REFUSED_PACKET_SHORT;
    *packet = (struct packet){bytes[0] >> 4, bytes[0] & 15, bytes[1] >> 4, bytes[1] >> 2 & 3, bytes[1] >> 1 & 1, 0, 0};
    unsigned extended = bytes[1] & 1;
    packet->header = (packet->type == FIRST ? FIRST_HEADER : LATER_HEADER) + extended;
    if (packet->type != CONTROL && size < packet->header)
        return PITO_REFUSED_PACKET_SHORT;
    if (!is_stream(packet->stream))
        return PITO_REFUSED_STREAM;
    if (UNLIKELY(packet->type == CONTROL)) {
        packet->header = PITO_ACK_SIZE;
        if (size < PITO_ACK_SIZE || (whole && size != PITO_ACK_SIZE) || extended || !is_ack(bytes))
            return PITO_REFUSED_CONTROL_PACKET;
        return PITO_DONE;
    }
    packet->length = bytes[packet->header - 1] | (extended ? (size_t)bytes[packet->header - 2] << 8 : 0);
    if (packet->type == FIRST && bytes[2] != 0)
        return PITO_REFUSED_RESERVED_BYTE;
    size_t end = packet->header + packet->length;
    if (size < end || (whole && size != end))
        return PITO_REFUSED_PACKET_LENGTH;
    if (packet->type != FIRST)
        return packet->length == 0 ? PITO_REFUSED_EMPTY_PAYLOAD : PITO_DONE;
    *total = (size_t)bytes[3] << 8 | bytes[4];
    if (*total > limit)
        return PITO_REFUSED_TOTAL;
    if (packet->length == 0 && *total != 0)
        return PITO_REFUSED_EMPTY_PAYLOAD;
    return packet->length > *total ? PITO_REFUSED_ABOVE_TOTAL : PITO_DONE;
}

#endif
