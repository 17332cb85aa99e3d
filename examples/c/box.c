/*
 * A Classic box's main loop over the library's C interface: takes the frames of a byte stream from standard input
 * and keeps each payload as a record of an outbox file (outbox_file.h).
 *
 *   box [--times] OUTBOX_FILE < BYTES
 *
 * Standard input may be a serial device: a terminal is made to pass on every byte as it is, and to send none back.
 * Standard output: `record PLACE LENGTH` for each record, the place of its length field in the file and the length
 * of its payload, with --times also the time, as 2026-11-17T03:12:45Z. The line is written after the record's fsync has
 * come back, so what is reported is kept.
 * Standard error: `dropped PLACE, kept in NAME` for a cut last record that was found at the start; `put aside as NAME: WHY`
 * and `new outbox NAME` for a file that is no outbox, or has a record that is longer than this box's messages; `the outbox
 * file was taken away, new outbox NAME` where somebody moved or deleted it; `refused NUMBER` for a refused byte of the stream,
 * and `refused NUMBER, COUNT more` where more by that number came before the next record; and what ended the program. Nothing
 * that stood in the file is deleted: what is dropped or put aside stands beside it, and is on the disk before the next record
 * is taken.
 * Ends with 0 at the end of the input; with 1 after the first failed call of the system, or if the file is open in another
 * box or is a standard stream of this one (it is then left as it was); with 2 on bad usage (a file's name that begins with
 * '-' is written as ./-x). Readers of the reports and notes that are gone, or no longer read, stop nothing: the first report
 * that fails is noted.
 */
#define _XOPEN_SOURCE 700

#include <errno.h>
#include <sys/types.h>
#include <unistd.h>

#include "outbox_file.h"

/* A frame tells no stream: what comes over this link is what the crew says to the speaker. */
#define STREAM PITO_STREAM_ALEXA

/* The largest message of the link, in bytes. */
#define LIMIT 4096

static uint8_t input[256];
static uint64_t extractor[PITO_EXTRACTOR_STATE];
static uint8_t frame[PITO_EXTRACTOR_BUFFER(LIMIT)];
static uint8_t record[PITO_ONE_RECORD(LIMIT)];

static void open_link(void)
{
    uint64_t number = pito_extractor_open(LIMIT, extractor, PITO_EXTRACTOR_STATE);
    if (number != PITO_DONE)
        fail_refused("pito_extractor_open", number);
}

static void take(const uint8_t *bytes, size_t length)
{
    uint64_t answer[PITO_FEED_ANSWER];
    while (length > 0) {
        uint64_t number = pito_extractor_feed(extractor, PITO_EXTRACTOR_STATE, frame, sizeof frame, bytes, length,
                                              answer, PITO_FEED_ANSWER);
        if (number == PITO_REFUSED_UNFIT)
            fail_refused("pito_extractor_feed", number);
        if (number != PITO_DONE)
            note_number("refused", number);
        else if (answer[PITO_FEED_OUTCOME] == PITO_FRAME)
            keep(STREAM, frame, answer[PITO_FEED_LENGTH]);
        bytes += answer[PITO_FEED_USED];
        length -= answer[PITO_FEED_USED];
    }
}

int main(int words, char **word)
{
    int first;
    prepare();
    first = take_options(words, word);
    if (words - first != 1 || word[first][0] == '-') {
        note("usage: box [--times] OUTBOX_FILE < BYTES\n");
        return 2;
    }
    make_raw(STDIN_FILENO);
    open_outbox(word[first], record, sizeof record);
    open_link();
    for (;;) {
        ssize_t count = read(STDIN_FILENO, input, sizeof input);
        if (count < 0 && errno == EINTR)
            continue;
        if (count < 0)
            fail("read the stream");
        if (count == 0)
            return 0;
        take(input, (size_t)count);
    }
}
