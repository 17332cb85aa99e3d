/*
 * The outbox in a chip's flash, where a word can be written once and power can fail at any of them.
 *
 * Entries follow each other from the flash's first word on, each of whole words:
 *   a word    the record's length in its lower half, the complement of that in its upper half
 *   bytes     the record as pito_outbox_append writes it in version 02, then FF up to a whole word
 *   a word    0, written last: the entry counts
 * The file of the outbox is the byte 02 and, behind it, the records of the entries that count, in their order.
 *
 * An entry that power has cut off does not count, and stays where it is: nothing is erased here. Of a first word that was cut some pair
 * of bits is still 1 and 1, so it is none; then nothing behind it was written, and the next entry begins after it. What is no first
 * word is passed over word by word, erased ones too, up to the last word that was written.
 */
#ifndef FLASH_LOG_H
#define FLASH_LOG_H

#include <stddef.h>
#include <stdint.h>

/* The largest message of either link, in bytes. */
#define LIMIT 2048

/* Finds the place behind the last entry. Any bytes do: what is no entry is passed over. */
void flash_log_open(void);

/* Keeps a message as a record, and reports it once it is in the flash. Answers 0 where it is not: it is neither kept nor reported. */
int flash_log_keep(uint64_t stream, const uint8_t *message, size_t length);

/* Bytes for what is made after a record was written and before the next: those of the record. */
extern uint8_t *const flash_log_room;
#define FLASH_LOG_ROOM (LIMIT + 5)

#endif
