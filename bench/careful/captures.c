/* Captures read packet by packet, judged, judged with the reasons, and added to a report. */
#include "packets.h"

static inline size_t length_at(const uint8_t *capture, size_t place)
{
    return (size_t)capture[place] << 8 | capture[place + 1];
}

/* Whether each packet is whole; the place goes with 41 and 42. */
static inline uint64_t look_through(const uint8_t *capture, size_t size, uint64_t *place)
{
    if (size == 0 || capture[0] != 1)
        return PITO_REFUSED_VERSION;
    for (size_t at = 1; at < size;) {
        size_t left = size - at, length = left < 2 ? 0 : length_at(capture, at);

        if (left < 2 || length == 0 || left - 2 < length) {
            *place = at;
            return left >= 2 && length == 0 ? PITO_REFUSED_RECORD_LENGTH : PITO_REFUSED_RECORD_CUT;
        }
        at += 2 + length;
    }
    return PITO_DONE;
}

/* The transaction of a stream: what its next packet has to be. */
struct transaction {
    uint32_t open, head, sequence, total, come;
};

struct link {
    uint64_t limit;
    size_t first, later;
};

/* The next packet must be just the one that our writer writes. */
static inline bool is_next(struct transaction *own, const struct link *link, const uint8_t *packet, size_t length)
{
    size_t size, header, rest;
    unsigned type;

    if (!own->open) {
        if (length < FIRST_HEADER)
            return false;
        own->total = (uint32_t)packet[3] << 8 | packet[4];
        if (own->total > link->limit || packet[2] != 0)
            return false;
        own->head = packet[0];
        own->sequence = packet[1] >> 4;
        own->come = 0;
        rest = own->total;
        size = rest < link->first ? rest : link->first;
        header = FIRST_HEADER;
        type = FIRST;
    } else {
        rest = own->total - own->come;
        size = rest < link->later ? rest : link->later;
        if (length < LATER_HEADER || packet[0] != own->head || packet[1] >> 4 != (int)own->sequence)
            return false;
        header = LATER_HEADER;
        type = size == rest ? LAST : CONTINUATION;
    }
    bool last = size == rest, extended = size > 255;
    unsigned low = packet[1] & (last ? 13 : 15);
    header += extended;
    if (low != (type << 2 | extended) || length != header + size || packet[header - 1] != (uint8_t)size
        || (extended && packet[header - 2] != (uint8_t)(size >> 8)))
        return false;
    own->open = !last;
    own->come += (uint32_t)size;
    own->sequence = (own->sequence + 1) & 15;
    return true;
}

/* The packets up to the first that is not lawful; answers its place, or the capture's size. */
static inline size_t walk(const uint8_t *capture, size_t size, const struct link *link, struct transaction *of_each)
{
    size_t at = 1;

    for (size_t length; at < size; at += 2 + length) {
        const uint8_t *packet = capture + at + 2;
        unsigned stream = packet[0] >> 4;

        length = length_at(capture, at);
        if (is_stream(stream) && length == PITO_ACK_SIZE && (packet[1] & 13) == CONTROL << 2 && is_ack(packet))
            continue;
        if (!is_stream(stream) || !is_next(of_each + lane_of(stream), link, packet, length))
            return at;
    }
    return size;
}

/* Judges into the first two numbers of an answer row, which is all 0 before. */
static inline uint64_t judge(const uint8_t *capture, size_t size, uint64_t room, uint64_t limit, struct link *link,
                             struct transaction *of_each, uint64_t *answer)
{
    if (!is_room(room))
        return PITO_REFUSED_ROOM;
    if (!is_limit(limit))
        return PITO_REFUSED_LIMIT;
    uint64_t number = look_through(capture, size, answer + PITO_CAPTURE_JUDGE_PLACE);
    if (number)
        return number;
    *link = (struct link){limit, piece_of((size_t)room, FIRST_HEADER), piece_of((size_t)room, LATER_HEADER)};
    size_t at = walk(capture, size, link, of_each);
    if (at != size) {
        answer[PITO_CAPTURE_JUDGE_OUTCOME] = PITO_UNLAWFUL;
        answer[PITO_CAPTURE_JUDGE_PLACE] = at;
        return PITO_DONE;
    }
    bool open = of_each[0].open | of_each[1].open | of_each[2].open;
    answer[PITO_CAPTURE_JUDGE_OUTCOME] = open ? PITO_OPEN : PITO_LAWFUL;
    return PITO_DONE;
}

uint64_t pito_capture_judge(const uint8_t *capture, pito_len capture_len, uint64_t room, uint64_t limit, uint64_t *answer,
                            pito_len answer_len)
{
    struct transaction of_each[3] = {{0}};
    struct link link;

    if (answer_len != PITO_CAPTURE_JUDGE_ANSWER)
        return PITO_REFUSED_UNFIT;
    clear(answer, PITO_CAPTURE_JUDGE_ANSWER);
    return judge(capture, (size_t)capture_len, room, limit, &link, of_each, answer);
}

/* What came, a packet that is not lawful. */
static inline uint64_t tell_came(const uint8_t *bytes, size_t size, uint64_t limit, uint64_t *answer)
{
    struct packet packet;
    size_t total;
    uint8_t second = size < 2 ? 0 : bytes[1];
    uint64_t number = read_packet(bytes, size, true, limit, &packet, &total);

    answer[PITO_CAPTURE_WHY_REFUSAL] = number;
    answer[PITO_CAPTURE_WHY_SIZE] = size;
    answer[PITO_CAPTURE_WHY_STREAM] = bytes[0] >> 4;
    answer[PITO_CAPTURE_WHY_ID] = bytes[0] & 15;
    answer[PITO_CAPTURE_WHY_SEQUENCE] = second >> 4;
    answer[PITO_CAPTURE_WHY_KIND] = second >> 2 & 3;
    answer[PITO_CAPTURE_WHY_ACK] = second >> 1 & 1;
    answer[PITO_CAPTURE_WHY_EXTENDED] = second & 1;
    answer[PITO_CAPTURE_WHY_TOTAL] = number ? 0 : total;
    answer[PITO_CAPTURE_WHY_LENGTH] = number ? 0 : packet.length;
    return number;
}

/* What was expected in its place: the next packet of what is open, or the first one of its own total. */
static inline void tell_expected(const struct transaction *own, const struct link *link, bool is_first, uint64_t *answer)
{
    if (!own->open && !is_first) {
        answer[PITO_CAPTURE_WHY_EXPECTED] = PITO_EXPECTED_ANY_FIRST;
        return;
    }
    size_t rest = own->open ? own->total - own->come : (size_t)answer[PITO_CAPTURE_WHY_TOTAL];
    size_t most = own->open ? link->later : link->first, length = rest < most ? rest : most;
    bool last = length == rest;
    answer[PITO_CAPTURE_WHY_EXPECTED] = own->open ? PITO_EXPECTED_NEXT : PITO_EXPECTED_FIRST;
    answer[PITO_CAPTURE_WHY_EXPECTED_ID] = own->open ? own->head & 15 : 0;
    answer[PITO_CAPTURE_WHY_EXPECTED_SEQUENCE] = own->open ? own->sequence : 0;
    answer[PITO_CAPTURE_WHY_EXPECTED_KIND] = !own->open ? FIRST : last ? LAST : CONTINUATION;
    answer[PITO_CAPTURE_WHY_EXPECTED_LENGTH] = length;
    answer[PITO_CAPTURE_WHY_EXPECTED_EXTENDED] = length > 255;
    answer[PITO_CAPTURE_WHY_EXPECTED_LAST] = last;
}

uint64_t pito_capture_why(const uint8_t *capture, pito_len capture_len, uint64_t room, uint64_t limit, uint64_t *answer,
                          pito_len answer_len)
{
    struct transaction of_each[3] = {{0}};
    struct link link;

    if (answer_len != PITO_CAPTURE_WHY_ANSWER)
        return PITO_REFUSED_UNFIT;
    memset(answer, 0, PITO_CAPTURE_WHY_ANSWER * sizeof *answer);
    uint64_t number = judge(capture, (size_t)capture_len, room, limit, &link, of_each, answer);
    if (number)
        return number;
    for (int i = 0; i < 3; i++) {
        uint64_t *row = answer + PITO_CAPTURE_WHY_CONTROL_OPENED
                        + i * (PITO_CAPTURE_WHY_OTA_OPENED - PITO_CAPTURE_WHY_CONTROL_OPENED);

        if (!of_each[i].open)
            continue;
        row[0] = 1;
        row[1] = of_each[i].head & 15;
        row[2] = of_each[i].total - of_each[i].come;
        row[3] = of_each[i].sequence;
    }
    if (answer[PITO_CAPTURE_WHY_OUTCOME] != PITO_UNLAWFUL)
        return PITO_DONE;
    size_t at = (size_t)answer[PITO_CAPTURE_WHY_PLACE];
    uint64_t refusal = tell_came(capture + at + 2, length_at(capture, at), limit, answer);
    unsigned stream = capture[at + 2] >> 4;
    if (is_stream(stream))
        tell_expected(of_each + lane_of(stream), &link, refusal == PITO_DONE && answer[PITO_CAPTURE_WHY_KIND] == FIRST, answer);
    return PITO_DONE;
}

uint64_t pito_capture_packet(const uint8_t *capture, pito_len capture_len, uint64_t place, uint64_t *answer, pito_len answer_len)
{
    if (answer_len != PITO_CAPTURE_PACKET_ANSWER)
        return PITO_REFUSED_UNFIT;
    clear(answer, PITO_CAPTURE_PACKET_ANSWER);
    if (capture_len == 0 || capture[0] != 1)
        return PITO_REFUSED_VERSION;
    if (place - 1 >= capture_len)
        return PITO_REFUSED_ARGUMENT;
    if (place == capture_len)
        return PITO_DONE;
    size_t left = (size_t)(capture_len - place), length = left < 2 ? 0 : length_at(capture, (size_t)place);
    if (left < 2 || length == 0 || left - 2 < length) {
        answer[PITO_CAPTURE_PACKET_PLACE] = place;
        return left >= 2 && length == 0 ? PITO_REFUSED_RECORD_LENGTH : PITO_REFUSED_RECORD_CUT;
    }
    answer[PITO_CAPTURE_PACKET_OUTCOME] = PITO_PACKET;
    answer[PITO_CAPTURE_PACKET_START] = place + 2;
    answer[PITO_CAPTURE_PACKET_LENGTH] = length;
    answer[PITO_CAPTURE_PACKET_NEXT] = place + 2 + length;
    return PITO_DONE;
}

/* What a packet adds to its stream's numbers. */
static inline void count_packet(uint64_t *numbers, const uint8_t *packet, size_t length, uint64_t number, const uint64_t *told)
{
    numbers[PITO_REPORT_BYTES] += length;
    if (number == PITO_DONE && told[PITO_ACCEPT_OUTCOME] < PITO_ACKED) {
        numbers[PITO_REPORT_FIRSTS] += (packet[1] >> 2 & 3) == FIRST;
        numbers[PITO_REPORT_FINISHED] += told[PITO_ACCEPT_OUTCOME];
        numbers[PITO_REPORT_REPLACED] += told[PITO_ACCEPT_REPLACED];
        numbers[PITO_REPORT_PAYLOAD] += told[PITO_ACCEPT_TOTAL];
    } else if (number == PITO_REFUSED_SEQUENCE || number == PITO_REFUSED_MISSES_TOTAL) {
        numbers[PITO_REPORT_DROPPED]++;
    }
}

uint64_t pito_report_add(uint64_t *report, pito_len report_len, uint64_t limit, pito_slot *row, pito_len row_len, uint8_t *buffer,
                         pito_len buffer_len, const uint8_t *capture, pito_len capture_len, uint64_t *answer, pito_len answer_len)
{
    if (report_len != PITO_REPORT_ROW || answer_len != PITO_REPORT_ADD_ANSWER)
        return PITO_REFUSED_UNFIT;
    if (!is_limit(limit)) {
        answer[PITO_REPORT_ADD_PLACE] = 0;
        return PITO_REFUSED_LIMIT;
    }
    if (row_len != PITO_SLOTS || buffer_len != PITO_RECEIVER_BUFFER(limit))
        return PITO_REFUSED_UNFIT;
    answer[PITO_REPORT_ADD_PLACE] = 0;
    size_t size = (size_t)capture_len;
    uint64_t number = look_through(capture, size, answer + PITO_REPORT_ADD_PLACE);
    if (number)
        return number;
    uint64_t sums[PITO_REPORT_ROW] = {0};
    memset(row, 0, PITO_SLOTS * sizeof *row);
    for (size_t at = 1, length; at < size; at += 2 + length) {
        const uint8_t *packet = capture + at + 2;
        uint8_t ack[PITO_ACK_SIZE];
        uint64_t told[PITO_ACCEPT_ANSWER] = {0};

        length = length_at(capture, at);
        number = take_packet(limit, row, buffer, packet, length, 0, ack, told);
        if (is_stream(packet[0] >> 4))
            count_packet(sums + PITO_REPORT_NUMBERS * lane_of(packet[0] >> 4), packet, length, number, told);
    }
    for (int i = 0; i < PITO_SLOTS; i++)
        sums[i / OF_A_STREAM * PITO_REPORT_NUMBERS + PITO_REPORT_OPEN] += row[i].opened;
    for (int i = 0; i < PITO_REPORT_ROW; i++)
        if (__builtin_add_overflow(sums[i], report[i], sums + i))
            return PITO_REFUSED_SUM;
    memcpy(report, sums, sizeof sums);
    return PITO_DONE;
}
