/*
 * A speaker and a serial line before the box, flash that is cut at each of its words in turn, and the judge of what is left: nothing that
 * was reported or acknowledged is lost, and nothing is in the flash that nobody said.
 *
 * A run sends all items below. The speaker sends a message again until it is acknowledged; what the serial line says while power is
 * gone is lost, which the judge allows of the one item that was under way. First a run without a cut; then, for each word that it wrote,
 * four: power fails before the word is written, with some of its bits written, and so once more a few words later; and the word is not
 * written with the power on, which fails some entries later. Then a flash that begins with words of no entry, and one that has no erased
 * word.
 */
#include <string.h>

#include "../board.h"
#include "../flash_log.h"
#include "microbit.h"
#include "pitokaenge.h"

enum { SERIAL, SERIAL_DAMAGED, RADIO, RADIO_GIVEN_UP, LOST };
#define QUESTION 0
static const struct item {
    uint8_t link, stream, id;
    uint16_t size;
} items[] = {
    {RADIO, QUESTION, 1, 2},        {SERIAL, 6, 0, 1},           {RADIO, 6, 1, 35},
    {SERIAL, 6, 0, 90},             {RADIO, 2, 15, 0},           {RADIO_GIVEN_UP, 6, 2, 100},
    {RADIO_GIVEN_UP, 6, 3, 100},    {RADIO_GIVEN_UP, 6, 4, 100}, {RADIO_GIVEN_UP, 6, 5, 100},
    {RADIO, 6, 6, 60},              {SERIAL_DAMAGED, 6, 0, 50},  {SERIAL, 6, 0, 64},
    {RADIO, QUESTION, 7, 2},        {LOST, 0, 0, 0},             {RADIO, 6, 9, LIMIT},
    {SERIAL, 6, 0, LIMIT},
};
#define ITEMS (sizeof items / sizeof *items)
/* Within this item another transaction of its stream is begun, and given up, where all slots are open. */
#define CROSSED 9
#define CROSSING_ID 10
#define MOST_REPORTS 64
#define TRIES 6

enum { CUTS, GARBAGE, FULL, MODES };
enum { BEFORE_THE_WORD, WITHIN_THE_WORD, TWICE, REFUSED, KINDS };
#define WORDS_UNTIL_POWER_FAILS 60

static WORLD_RAM struct {
    uint32_t mode, kind, cut_at, first_cut, words, all_words;
    uint32_t item, ended, begun, crossed, tries, restarted, under_way, acked, replied;
    struct {
        uint32_t item, offset, length;
    } reports[MOST_REPORTS];
    uint32_t report_count, gave_way;
    uint64_t parts[PITO_PARTS_STATE], place;
    uint8_t message[LIMIT];
    uint32_t runs, reported, found, put_aside;
} w;

static void fail(const char *why)
{
    put("chip: ");
    put(why);
    put_number(": item ", w.item);
    put_number(", cut at word ", w.first_cut);
    put_number(", kind ", w.kind);
    put_number(", mode ", w.mode);
    put("\n");
    stop(0);
}

/* ---- what is said */

static uint8_t byte_of(uint32_t item, uint32_t place)
{
    static const uint8_t questions[2][2] = {{0x08, 20}, {0x08, 28}};
    if (items[item].link == RADIO && items[item].stream == QUESTION)
        return questions[item > 0][place];
    return item == 3 ? (uint8_t)(0xF0 + place % 3) : (uint8_t)(item * 37 + place * 11 + (place >> 8));
}

static void begin_item(void)
{
    for (uint32_t i = 0; i < items[w.item].size; i++)
        w.message[i] = byte_of(w.item, i);
    w.place = 0;
    w.begun = 1;
    w.ended = w.crossed = 0;
    if (items[w.item].link <= SERIAL_DAMAGED &&
        pito_frame_begin(w.item, LIMIT, items[w.item].size, w.parts, PITO_PARTS_STATE) != PITO_DONE)
        fail("no frame");
}

static int give_bytes(uint8_t *input, size_t *length)
{
    uint64_t told[PITO_FRAME_PART_ANSWER];
    if (pito_frame_part(w.parts, PITO_PARTS_STATE, w.message + w.place, items[w.item].size - w.place, input, 64, told,
                        PITO_FRAME_PART_ANSWER) != PITO_DONE)
        fail("no part of a frame");
    if (items[w.item].link == SERIAL_DAMAGED && w.place == 0)
        input[6] ^= 1;
    w.place += told[PITO_FRAME_PART_TAKEN];
    w.ended = (uint32_t)told[PITO_FRAME_PART_ENDED];
    *length = (size_t)told[PITO_FRAME_PART_WRITTEN];
    return BOARD_BYTES;
}

static int give_packet(uint8_t *input, size_t *length)
{
    int crossing = w.item == CROSSED && w.place > 0 && !w.crossed;
    uint64_t told[PITO_PACKET_WRITE_ANSWER], room = items[w.item].size > 200 ? 244 : 20;
    uint64_t id = crossing ? CROSSING_ID : items[w.item].id, place = crossing ? 0 : w.place;
    if (pito_packet_write(room, LIMIT, items[w.item].stream, id, 3, 1, w.message, items[w.item].size, place, input, PITO_LARGEST_ROOM,
                          told, PITO_PACKET_WRITE_ANSWER) != PITO_DONE)
        fail("no packet");
    *length = (size_t)told[PITO_PACKET_WRITE_WRITTEN];
    if (crossing) {
        w.crossed = 1;
        return BOARD_PACKET;
    }
    w.place = told[PITO_PACKET_WRITE_NEXT_PLACE];
    w.ended = w.place >= items[w.item].size || items[w.item].link == RADIO_GIVEN_UP;
    return BOARD_PACKET;
}

static int is_acked(uint32_t item) { return w.acked >> item & 1; }

/* The item at which a run is: the next, the same again where its speaker waits for an ACK, or on in the same. */
static void choose_item(void)
{
    if (items[w.item].link == RADIO && w.begun && (w.ended || w.restarted) && !is_acked(w.item)) {
        w.begun = 0;
        if (++w.tries > TRIES && w.mode != FULL)
            fail("never acknowledged");
    }
    w.restarted = 0;
    if (w.ended && (w.begun || w.tries > TRIES)) {
        w.item++;
        w.begun = w.ended = w.tries = 0;
    }
    if (w.item == ITEMS)
        end_run();
    if (!w.begun)
        begin_item();
}

int board_read(uint8_t *input, size_t room, size_t *length)
{
    (void)room;
    choose_item();
    if (items[w.item].link == LOST) {
        w.ended = 1;
        return BOARD_RADIO_LOST;
    }
    return items[w.item].link <= SERIAL_DAMAGED ? give_bytes(input, length) : give_packet(input, length);
}

/* ---- what the box does */

static void cut(const volatile uint32_t *at, uint32_t word)
{
    if (w.kind != BEFORE_THE_WORD)
        flash_write_word(at, word | (0x9E3779B9u * w.words));
    w.cut_at = w.kind == TWICE && w.cut_at == w.first_cut ? w.words + 1 + w.words % 5 : 0;
    w.under_way |= 1u << w.item;
    w.restarted = 1;
    power_fails();
}

/* Whether the word is the one that the flash does not take. */
static int is_refused(void)
{
    if (w.kind != REFUSED || w.words != w.first_cut)
        return 0;
    w.cut_at = w.words + WORDS_UNTIL_POWER_FAILS;
    w.under_way |= 1u << w.item;
    return 1;
}

int board_write(size_t offset, const void *bytes, size_t length)
{
    const volatile uint32_t *at = (const volatile uint32_t *)(board_flash + offset);
    const uint32_t *word = bytes;
    if (offset % 4 != 0 || length % 4 != 0 || length > (size_t)(board_flash_end - board_flash) - offset)
        fail("a write beside the flash");
    for (; length > 0; length -= 4, at++, word++) {
        if (*at != 0xFFFFFFFF)
            fail("a write where the flash is not erased");
        w.words++;
        if (is_refused())
            return 0;
        if (w.words == w.cut_at)
            cut(at, *word);
        flash_write_word(at, *word);
        if (*at != *word)
            return 0;
    }
    return 1;
}

void board_send(const uint8_t *packet, size_t length)
{
    if (length == PITO_ACK_SIZE && (packet[1] >> 2 & 3) == 3)
        w.acked |= 1u << w.item;
    else
        w.replied |= 1u << w.item;
}

void board_report(size_t offset, size_t length)
{
    if (w.report_count == MOST_REPORTS)
        fail("too many reports");
    w.reports[w.report_count].item = w.item;
    w.reports[w.report_count].offset = (uint32_t)offset;
    w.reports[w.report_count++].length = (uint32_t)length;
}

void board_note(uint64_t number)
{
    w.gave_way |= number == NOTE_GAVE_WAY;
    w.put_aside += number == NOTE_PUT_ASIDE && w.mode == CUTS;
}

/* ---- the judge, by the layout that flash_log.h describes and the record's of version 02 */

static uint32_t word_at(uint32_t offset) { return *(const volatile uint32_t *)(board_flash + offset); }

/* Where the entry at an offset ends if it counts, else 0. */
static uint32_t counts(uint32_t offset)
{
    uint32_t size = (uint32_t)(board_flash_end - board_flash), length = word_at(offset) & 0xFFFF, end = offset + 8 + (length + 3) / 4 * 4;
    if ((word_at(offset) >> 16 ^ 0xFFFF) != length || end > size || word_at(end - 4) != 0)
        return 0;
    return end;
}

/* Whether the entry at an offset counts and has the item's message. */
static int holds(uint32_t offset, uint32_t item)
{
    const uint8_t *record = board_flash + offset + 4;
    uint32_t size = items[item].size;
    if (!counts(offset) || (word_at(offset) & 0xFFFF) != size + 5 || record[0] != 0 || record[1] != 0 ||
        (uint32_t)(record[2] << 8 | record[3]) != size + 1 || record[4] != items[item].stream)
        return 0;
    for (uint32_t i = 0; i < size; i++)
        if (record[5 + i] != byte_of(item, i))
            return 0;
    return 1;
}

static int is_reported(uint32_t item)
{
    for (uint32_t i = 0; i < w.report_count; i++)
        if (w.reports[i].item == item)
            return 1;
    return 0;
}

/* All entries that count; each is of an item. Answers which items are there, by bits. */
static uint32_t judge_flash(void)
{
    uint32_t there = 0, size = (uint32_t)(board_flash_end - board_flash);
    for (uint32_t offset = 0; offset < size && w.mode == CUTS;) {
        uint32_t end = counts(offset), of = ITEMS;
        for (uint32_t item = 0; item < ITEMS && end; item++)
            if (items[item].link != RADIO_GIVEN_UP && items[item].link != SERIAL_DAMAGED && holds(offset, item))
                of = item;
        if (end && of == ITEMS)
            fail("a record that nobody said");
        there |= of < ITEMS ? 1u << of : 0;
        w.found += end != 0;
        offset = end ? end : offset + 4;
    }
    return there;
}

static void judge_item(uint32_t item, uint32_t there)
{
    int spoken = items[item].link == SERIAL || items[item].link == RADIO, kept = there >> item & 1;
    w.item = item;
    if (w.mode == FULL && (is_acked(item) || is_reported(item)))
        fail("reported or acknowledged with a full flash");
    if (w.mode == FULL || !spoken)
        return;
    if (w.mode == CUTS && is_acked(item) && !kept)
        fail("acknowledged and lost");
    if (!is_reported(item) && !(w.under_way >> item & 1))
        fail("not kept");
    if (items[item].link == RADIO && !is_acked(item))
        fail("not acknowledged");
    if (items[item].link == RADIO && items[item].stream == QUESTION && !(w.replied >> item & 1))
        fail("no reply");
}

static void judge_run(void)
{
    for (uint32_t i = 0; i < w.report_count; i++)
        if (!holds(w.reports[i].offset, w.reports[i].item) || w.reports[i].length != items[w.reports[i].item].size) {
            w.item = w.reports[i].item;
            fail("reported and lost");
        }
    uint32_t there = judge_flash();
    for (uint32_t item = 0; item < ITEMS; item++)
        judge_item(item, there);
    if (w.mode != FULL && !w.gave_way)
        fail("no slot gave way");
    w.runs++;
    w.reported += w.report_count;
}

/* ---- run after run */

static void say_results(void)
{
    put_number("chip: ", w.runs);
    put_number(" runs, each of the ", w.all_words);
    put_number(" words cut; ", w.reported);
    put_number(" records reported, none lost, ", w.found);
    put_number(" found, ", w.put_aside);
    put_number(" cut entries put aside\nchip: ", memory_held());
    put_number(" bytes held, stack ", stack_used());
    put_number(" at most, of ", 32768);
    put_number(": ", 32768 - memory_held() - stack_used());
    put(" left\n");
    stop(1);
}

static void start_run(void)
{
    uint32_t size = (uint32_t)(board_flash_end - board_flash), garbage = w.mode == GARBAGE ? 400 : w.mode == FULL ? size : 0;
    flash_erase(board_flash, board_flash_end);
    for (uint32_t offset = 0; offset < garbage; offset += 4)
        flash_write_word((const volatile uint32_t *)(board_flash + offset), 0x9E3779B9u * (offset + 1));
    w.item = w.ended = w.begun = w.tries = w.restarted = w.under_way = w.acked = w.replied = w.report_count = w.gave_way = w.words = 0;
    w.cut_at = w.first_cut;
    power_fails();
}

static void next_run(void)
{
    if (w.mode == CUTS && w.first_cut == 0)
        w.all_words = w.words;
    if (w.mode == CUTS && w.first_cut > 0 && ++w.kind < KINDS)
        return;
    w.kind = 0;
    if (w.mode == CUTS && w.first_cut < w.all_words) {
        w.first_cut++;
        return;
    }
    w.first_cut = 0;
    if (++w.mode == MODES)
        say_results();
}

void world_judge(void)
{
    judge_run();
    next_run();
    start_run();
}

void world_begin(void)
{
    memset(&w, 0, sizeof w);
    start_run();
}
