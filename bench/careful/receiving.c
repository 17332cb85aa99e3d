/* The receiver: a slot is judged as one number. And a packet read by itself. */
#include "packets.h"

uint64_t pito_receiver_open(uint64_t limit, uint64_t *state, pito_len state_len)
{
    if (state_len != PITO_RECEIVER_STATE)
        return PITO_REFUSED_UNFIT;
    if (!is_limit(limit))
        return PITO_REFUSED_LIMIT;
    state[PITO_RECEIVER_LIMIT] = limit;
    return PITO_DONE;
}

/* An open slot; the low four bytes are opened, id, sequence and wanted. */
static inline bool is_open_slot(uint64_t slot, uint64_t limit)
{
    uint64_t total = slot >> 32 & 0xFFFF, held = slot >> 48;

    return (slot & 0xFEF0F0FF) == 1 && total <= limit && total != 0 && held - 1 < total - 1;
}

/* The four slots of a stream: each idle or open, and no id twice. */
static inline bool is_lawful_lane(const pito_slot *lane, uint64_t limit)
{
    uint64_t slots[OF_A_STREAM];
    unsigned ids = 0;

    memcpy(slots, lane, sizeof slots);
    if ((slots[0] | slots[1] | slots[2] | slots[3]) == 0)
        return true;
    for (int i = 0; i < OF_A_STREAM; i++) {
        if (slots[i] == 0)
            continue;
        unsigned id = 1u << (slots[i] >> 8 & 15);
        if (!is_open_slot(slots[i], limit) || (ids & id))
            return false;
        ids |= id;
    }
    return true;
}

static inline bool is_lawful_row(const pito_slot *row, uint64_t limit)
{
    return is_lawful_lane(row, limit) && is_lawful_lane(row + OF_A_STREAM, limit)
           && is_lawful_lane(row + 2 * OF_A_STREAM, limit);
}

uint64_t pito_receiver_accept(const uint64_t *state, pito_len state_len, pito_slot *row, pito_len row_len, uint8_t *buffer,
                              pito_len buffer_len, const uint8_t *packet, pito_len packet_len, uint64_t sequence, uint8_t *out,
                              pito_len out_len, uint64_t *answer, pito_len answer_len)
{
    if (answer_len != PITO_ACCEPT_ANSWER || state_len != PITO_RECEIVER_STATE || row_len != PITO_SLOTS)
        return PITO_REFUSED_UNFIT;
    uint64_t limit = state[PITO_RECEIVER_LIMIT];
    if (!is_limit(limit) || buffer_len != PITO_RECEIVER_BUFFER(limit) || !is_lawful_row(row, limit))
        return PITO_REFUSED_UNFIT;
    clear(answer, PITO_ACCEPT_ANSWER);
    if (sequence > 15)
        return PITO_REFUSED_ARGUMENT;
    if (out_len < PITO_ACK_SIZE)
        return PITO_REFUSED_OUTPUT;
    return take_packet(limit, row, buffer, packet, (size_t)packet_len, sequence, out, answer);
}

uint64_t pito_packet_read(const uint8_t *bytes, pito_len bytes_len, uint64_t limit, uint64_t *answer, pito_len answer_len)
{
    struct packet packet;
    size_t total;

    if (answer_len != PITO_PACKET_READ_ANSWER)
        return PITO_REFUSED_UNFIT;
    uint64_t number = read_packet(bytes, (size_t)bytes_len, false, limit, &packet, &total);
    if (number) {
        clear(answer, PITO_PACKET_READ_ANSWER);
        return number;
    }
    answer[PITO_PACKET_READ_END] = packet.header + packet.length;
    answer[PITO_PACKET_READ_STREAM] = packet.stream;
    answer[PITO_PACKET_READ_ID] = packet.id;
    answer[PITO_PACKET_READ_SEQUENCE] = packet.sequence;
    answer[PITO_PACKET_READ_KIND] = packet.type;
    answer[PITO_PACKET_READ_ACK] = packet.flag;
    answer[PITO_PACKET_READ_EXTENDED] = bytes[1] & 1;
    answer[PITO_PACKET_READ_TOTAL] = total;
    answer[PITO_PACKET_READ_START] = packet.type == CONTROL ? 0 : packet.header;
    answer[PITO_PACKET_READ_LENGTH] = packet.length;
    return PITO_DONE;
}
