/*
 * What the two boxes have in common, box.c (Classic) and low_energy_box.c: an outbox file that keeps every record which was
 * reported, however the program ends, and how a box says what it has to say.
 *
 * Nothing that ever stood in the file is deleted. A new file is of version 02; one of version 01 stays so. There is no heap,
 * and the file is never held in memory.
 */
#ifndef OUTBOX_FILE_H
#define OUTBOX_FILE_H

#include <stddef.h>
#include <stdint.h>

#include "pitokaenge.h"

/*
 * A line on standard error, in its first form with its end. That it cannot be written stops nothing. In its second form it is
 * KIND and NUMBER: told at once, and then no more until the next record or another line, which is preceded by how many more
 * there were.
 */
void note(const char *format, ...);
void note_number(const char *kind, uint64_t number);

/* A call of the system failed: says which and why, and ends with 1. */
void fail(const char *what);

/* The library refused a call for which it has no reason: this program is wrong, or its memory is. Ends with 1. */
void fail_refused(const char *call, uint64_t number);

/* Before anything is opened. */
void prepare(void);

/* Takes `--times`, if it is the first word: reports then have the time. Answers the place of the first word that is left. */
int take_options(int words, char **word);

/*
 * A terminal passes on all bytes as they are, both ways, and sends none back; anything else is left as it is. As the system
 * opens a serial device, it changes 0D, swallows 03, 11 and 13, and sends back all that it gets.
 */
void make_raw(int line);

void write_all(int to, const void *bytes, size_t length, const char *what);

/* Ends with 1 if the path is that of a file which is open as something else. */
void check_apart(const char *path, int other, const char *name);

/* Whether the path is that of a file that an outbox stands in. The bytes are room for a record. */
int is_outbox(const char *path, uint8_t *bytes, size_t size);

/*
 * Opens the file, or begins it, and finds the end of its last whole record. What stands cut behind that goes to the file
 * PATH.dropped, and only then is dropped. A file that is no outbox, has a longer record than a message of this box can be,
 * cannot be read, or has a cut end where PATH.dropped is a link, a pipe or a folder is put aside whole, as PATH.aside-1, or the
 * first number that is free, and a new one is begun. Both are noted.
 * The bytes are lent for good: PITO_ONE_RECORD of the box's limit, so that they hold the longest record of its messages.
 * Ends with 1 if the file is open in another box, is a standard stream of this one, or is no regular file.
 */
void open_outbox(const char *path, uint8_t *one_record, size_t size);

/*
 * Appends a message as a record; once it is on the disk, and not before, reports it on standard output. That it cannot be
 * reported is noted once, and stops nothing. Where the file was moved or deleted meanwhile, a new one is begun under its name,
 * which is noted, and has the record.
 */
void keep(uint64_t stream, const uint8_t *message, size_t length);

#endif
