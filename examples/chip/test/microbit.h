#ifndef MICROBIT_H
#define MICROBIT_H

#include <stdint.h>

/* The tester's RAM, which keeps its bytes when power fails; nothing sets it to 0. */
#define WORLD_RAM __attribute__((section(".world")))

void put(const char *text);
void put_number(const char *label, uint32_t number);
void stop(int good) __attribute__((noreturn));

void flash_write_word(const volatile uint32_t *at, uint32_t word);
void flash_erase(const uint8_t *from, const uint8_t *to);

/* All that the box had in RAM is gone, and it starts again. */
void power_fails(void) __attribute__((noreturn));
/* All inputs were read: goes to world_judge, off the box's stack. */
void end_run(void) __attribute__((noreturn));

/* The deepest stack of any run that has ended, and what the box has in RAM besides. */
uint32_t stack_used(void);
uint32_t memory_held(void);

/* The tester's. */
void world_begin(void);
void world_judge(void);

#endif
