/* Packets and ACKs written. */
#include "packets.h"

/* The piece at a place, and its number in the message; 0 where no piece begins there. */
static inline size_t piece_at(size_t room, uint64_t place, size_t length, unsigned *index)
{
    size_t first = piece_of(room, FIRST_HEADER), later = piece_of(room, LATER_HEADER);

    if (place < first || place >= length)
        return 0;
    uint32_t behind = (uint32_t)(place - first);
    if (behind % (uint32_t)later)
        return 0;
    *index = 1 + behind / (uint32_t)later;
    return later;
}

uint64_t pito_packet_write(uint64_t room, uint64_t limit, uint64_t stream, uint64_t id, uint64_t sequence, uint64_t ack,
                           const uint8_t *message, pito_len message_len, uint64_t place, uint8_t *output, pito_len output_len,
                           uint64_t *answer, pito_len answer_len)
{
    if (answer_len != PITO_PACKET_WRITE_ANSWER)
        return PITO_REFUSED_UNFIT;
    clear(answer, PITO_PACKET_WRITE_ANSWER);
    if (!is_room(room))
        return PITO_REFUSED_ROOM;
    if (!is_limit(limit))
        return PITO_REFUSED_LIMIT;
    if (!is_stream(stream) || id > 15 || sequence > 15 || ack > 1 || message_len > limit)
        return PITO_REFUSED_ARGUMENT;
    size_t length = (size_t)message_len, size;
    unsigned index = 0;
    size = place == 0 ? piece_of((size_t)room, FIRST_HEADER) : piece_at((size_t)room, place, length, &index);
    if (size == 0)
        return PITO_REFUSED_ARGUMENT;
    size_t at = (size_t)place;
    if (size > length - at)
        size = length - at;
    if (output_len < room)
        return PITO_REFUSED_OUTPUT;
    uint8_t *next = put_header(output, (unsigned)(stream << 4 | id), (unsigned)(sequence + index) & 15, at == 0, at + size == length,
                               ack, length, size);
    memcpy(next, message + at, size);
    answer[PITO_PACKET_WRITE_WRITTEN] = (size_t)(next - output) + size;
    answer[PITO_PACKET_WRITE_NEXT_PLACE] = at + size;
    return PITO_DONE;
}

uint64_t pito_ack_write(uint64_t stream, uint64_t id, uint64_t sequence, uint64_t positive, uint8_t *output, pito_len output_len,
                        uint64_t *answer, pito_len answer_len)
{
    if (answer_len != PITO_ACK_WRITE_ANSWER)
        return PITO_REFUSED_UNFIT;
    answer[PITO_ACK_WRITE_WRITTEN] = 0;
    if (!is_stream(stream) || id > 15 || sequence > 15 || positive > 1)
        return PITO_REFUSED_ARGUMENT;
    if (output_len < PITO_ACK_SIZE)
        return PITO_REFUSED_OUTPUT;
    put_ack(output, stream, id, sequence, positive);
    answer[PITO_ACK_WRITE_WRITTEN] = PITO_ACK_SIZE;
    return PITO_DONE;
}
