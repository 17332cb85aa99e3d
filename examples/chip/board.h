/*
 * What the box asks of its board. Two functions carry the box's promise: board_read brings what was heard, and board_write comes back
 * when the bytes are in the flash, and not before.
 */
#ifndef BOARD_H
#define BOARD_H

#include <stddef.h>
#include <stdint.h>

enum { BOARD_BYTES, BOARD_PACKET, BOARD_RADIO_LOST };

/*
 * Waits until something comes, and answers what: bytes of the serial line, one packet of the radio, or that the radio's link was lost.
 * At most `room` bytes; a packet that is longer is left out by the board.
 */
int board_read(uint8_t *input, size_t room, size_t *length);

/*
 * Writes to erased flash. Offset and length are multiples of 4, and the words are written in their order: of a write that is cut, a later
 * word is not there without those before it. Answers 1 when all of them are there, 0 where one is not.
 */
int board_write(size_t offset, const void *bytes, size_t length);

/* The flash of the outbox, for reading: on chips it stands among the addresses. Erased bytes are FF. */
extern const uint8_t board_flash[];
extern const uint8_t board_flash_end[];

/* Sends one packet. That nobody hears it stops nothing. */
void board_send(const uint8_t *packet, size_t length);

/* A record is in the flash, in the entry at this offset. What the board makes of it stops nothing. */
void board_report(size_t offset, size_t length);

/* Something that a crew should see: the number of a refusal, or one of these. That nobody sees it stops nothing. */
enum { NOTE_FLASH_FULL = 1000, NOTE_GAVE_WAY, NOTE_PUT_ASIDE };
void board_note(uint64_t number);

#endif
