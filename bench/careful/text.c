/* Where bytes are not text: eight at a time while they are ASCII that is shown. */
#include "messages.h"

/* Whether a character that is not shown begins here. */
static inline bool is_hidden(const uint8_t *text, size_t left)
{
    uint8_t lead = text[0];

    if (lead < 0x80)
        return lead < 0x20 || lead == 0x7F;
    if (lead == 0xC2)
        return left >= 2 && text[1] >= 0x80 && text[1] <= 0x9F;
    if (lead == 0xD8)
        return left >= 2 && text[1] == 0x9C;
    if (lead != 0xE2 || left < 3)
        return false;
    if (text[1] == 0x80)
        return text[2] - 0x8Eu < 2 || text[2] - 0xA8u < 7;
    return text[1] == 0x81 && text[2] - 0xA6u < 4;
}

/* Eight bytes of ASCII, none of them hidden. */
static inline bool is_shown(uint64_t word)
{
    uint64_t apart = word ^ EIGHT(0x7F);

    return !((word | (word - EIGHT(0x20)) | (apart - EIGHT(1))) & EIGHT(128));
}

/* Up to the first bad sequence, and the first hidden character before it; each the length where there is none. */
static inline size_t look(const uint8_t *text, size_t length, size_t *hidden)
{
    size_t at = 0;

    *hidden = length;
    while (at < length) {
        if (length - at >= 8 && is_shown(load8(text + at))) {
            at += 8;
            continue;
        }
        size_t count = text[at] < 0x80 ? 1 : sequence_of(text + at, length - at);
        if (count == 0)
            return at;
        if (*hidden == length && is_hidden(text + at, length - at))
            *hidden = at;
        at += count;
    }
    return length;
}

uint64_t pito_text(const uint8_t *text, pito_len text_len, uint64_t *answer, pito_len answer_len)
{
    size_t length = (size_t)text_len, hidden;

    if (answer_len != PITO_TEXT_ANSWER)
        return PITO_REFUSED_UNFIT;
    size_t bad = look(text, length, &hidden);
    if (hidden == length)
        for (size_t at = bad; at < length && hidden == length; at++)
            if (is_hidden(text + at, length - at))
                hidden = at;
    answer[PITO_TEXT_BAD] = bad;
    answer[PITO_TEXT_HIDDEN] = hidden;
    return bad == length ? PITO_DONE : PITO_REFUSED_TEXT;
}
