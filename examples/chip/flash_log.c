#include "flash_log.h"

#include <string.h>

#include "board.h"
#include "pitokaenge.h"

#define WORD 4
#define ERASED 0xFFFFFFFF
#define COUNTS 0

/* A record's length has to fit into half a word. */
typedef char limit_fits_half_a_word[PITO_RECORD_SIZE(LIMIT) <= 0xFFFF ? 1 : -1];

/* The outbox of one record: its version byte stands last in a word, so that the record begins with one. */
#define ONE_SIZE ((WORD + FLASH_LOG_ROOM + WORD - 1) / WORD * WORD)
static union {
    uint32_t words[ONE_SIZE / WORD];
    uint8_t bytes[ONE_SIZE];
} one;
#define OUTBOX (one.bytes + WORD - PITO_FIRST_PLACE)
uint8_t *const flash_log_room = one.bytes + WORD;

/* Behind the last entry. */
static size_t end;

static size_t flash_size(void) { return (size_t)(board_flash_end - board_flash); }
static size_t whole_words(size_t length) { return (length + WORD - 1) / WORD * WORD; }
static size_t entry_size(size_t length) { return WORD + whole_words(length) + WORD; }
static uint32_t first_word(size_t length) { return (uint32_t)(length | (~length & 0xFFFF) << 16); }

static uint32_t word_at(size_t offset)
{
    uint32_t word;
    memcpy(&word, board_flash + offset, WORD);
    return word;
}

/* How far the next entry is: a whole entry, or a first word that was cut. */
static size_t step(size_t offset)
{
    uint32_t word = word_at(offset);
    size_t length = word & 0xFFFF;
    if (word != first_word(length) || entry_size(length) > flash_size() - offset)
        return WORD;
    return entry_size(length);
}

/* Behind the last word that was written. */
static size_t written_end(void)
{
    size_t offset = flash_size() / WORD * WORD;
    while (offset > 0 && word_at(offset - WORD) == ERASED)
        offset -= WORD;
    return offset;
}

/* An erased word is not yet the end: a write may have failed there with the power on, and entries stand behind it. */
void flash_log_open(void)
{
    size_t written = written_end();
    end = 0;
    while (end < written) {
        size_t size = step(end);
        if (size == WORD || word_at(end + size - WORD) != COUNTS)
            board_note(NOTE_PUT_ASIDE);
        end += size;
    }
}

/* Makes the record in its place. Answers its length. */
static size_t make_record(uint64_t stream, const uint8_t *message, size_t length)
{
    uint64_t answer[PITO_OUTBOX_APPEND_ANSWER];
    memset(one.bytes, 0xFF, sizeof one);
    uint64_t number = pito_outbox_new(OUTBOX, 1, answer, PITO_OUTBOX_NEW_ANSWER);
    if (number == PITO_DONE)
        number = pito_outbox_append(OUTBOX, PITO_ONE_RECORD(LIMIT), PITO_FIRST_PLACE, stream, message, length, answer,
                                    PITO_OUTBOX_APPEND_ANSWER);
    if (number != PITO_DONE) {
        board_note(number);
        return 0;
    }
    return (size_t)answer[PITO_OUTBOX_APPEND_USED] - PITO_FIRST_PLACE;
}

int flash_log_keep(uint64_t stream, const uint8_t *message, size_t length)
{
    size_t record = make_record(stream, message, length), entry = end, size = entry_size(record);
    uint32_t first = first_word(record), counts = COUNTS;
    if (record == 0)
        return 0;
    if (size > flash_size() - end) {
        board_note(NOTE_FLASH_FULL);
        return 0;
    }
    end += size;
    if (!board_write(entry, &first, WORD))
        return 0;
    if (!board_write(entry + WORD, flash_log_room, whole_words(record)))
        return 0;
    if (!board_write(entry + size - WORD, &counts, WORD))
        return 0;
    board_report(entry, length);
    return 1;
}
