/*
 * The chip of the test: QEMU's microbit, its flash controller, and power that fails. The tester runs on a stack and in RAM of its own
 * (chip.ld), so that all of the box's RAM is the box's, and is lost with the power.
 */
#include "microbit.h"

#include <stddef.h>

extern uint32_t ram[], ram_end[], data[], data_end[], data_from[], bss[], bss_end[], world_end[];
int main(void);

#define FLASH_READY (*(volatile uint32_t *)0x4001E400)
#define FLASH_CONFIG (*(volatile uint32_t *)0x4001E504)
#define FLASH_ERASE (*(volatile uint32_t *)0x4001E508)
#define READ_ONLY 0
#define WRITE 1
#define ERASE 2
#define PAGE 1024

/* What RAM holds when power comes: neither 0 nor what was there. */
#define UNSET 0xA5C35A3C

/* Read after a start that no call comes back from. */
static WORLD_RAM volatile uint32_t deepest;

static void semihost(int what, const void *word)
{
    register int r0 __asm("r0") = what;
    register const void *r1 __asm("r1") = word;
    __asm volatile("bkpt 0xab" : "+r"(r0) : "r"(r1) : "memory");
}

void put(const char *text) { semihost(4, text); }

void stop(int good)
{
    semihost(0x18, (void *)(good ? 0x20026 : 0x20023));
    for (;;)
        ;
}

void put_number(const char *label, uint32_t number)
{
    char text[11];
    int place = 10;
    put(label);
    text[place] = 0;
    do {
        text[--place] = (char)('0' + number % 10);
        number /= 10;
    } while (number > 0);
    put(text + place);
}

/* ---- flash: a written bit goes from 1 to 0, and only erasing brings it back */

void flash_write_word(const volatile uint32_t *at, uint32_t word)
{
    FLASH_CONFIG = WRITE;
    *(volatile uint32_t *)(uintptr_t)at = word;
    while (FLASH_READY == 0)
        ;
    FLASH_CONFIG = READ_ONLY;
}

void flash_erase(const uint8_t *from, const uint8_t *to)
{
    FLASH_CONFIG = ERASE;
    for (; from < to; from += PAGE) {
        FLASH_ERASE = (uint32_t)(uintptr_t)from;
        while (FLASH_READY == 0)
            ;
    }
    FLASH_CONFIG = READ_ONLY;
}

/* ---- power */

/* The box from its begin, on its own stack. */
static void box_reset(void)
{
    uint32_t *from = data_from;
    for (uint32_t *to = data; to < data_end;)
        *to++ = *from++;
    for (uint32_t *to = bss; to < bss_end;)
        *to++ = 0;
    main();
}

__attribute__((noreturn, noinline)) static void run_on(uint32_t *stack, void (*what)(void))
{
    __asm volatile("msr msp, %0\nbx %1" : : "r"(stack), "r"(what) : "memory");
    __builtin_unreachable();
}

static void start_box(void)
{
    for (uint32_t *word = bss_end; word < ram_end; word++)
        if (*word != UNSET) {
            uint32_t depth = (uint32_t)((char *)ram_end - (char *)word);
            if (depth > deepest)
                deepest = depth;
            break;
        }
    for (uint32_t *word = ram; word < ram_end; word++)
        *word = UNSET;
    run_on(ram_end, box_reset);
}

void power_fails(void) { run_on(world_end, start_box); }
void end_run(void) { run_on(world_end, world_judge); }

uint32_t stack_used(void) { return deepest; }
uint32_t memory_held(void) { return (uint32_t)((char *)bss_end - (char *)ram); }

void power_up(void)
{
    for (uint32_t *word = ram; word < ram_end; word++)
        *word = UNSET;
    deepest = 0;
    world_begin();
}

static void fault(void)
{
    put("FAULT\n");
    stop(0);
}

__attribute__((section(".vectors"), used)) static void *const vectors[48] = {world_end, power_up, fault, fault, fault, fault, fault};
