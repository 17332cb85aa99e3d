/* Starts a program on a Cortex-M; it ends, or says that it faulted, by semihosting. TRAP_UNALIGNED: every unaligned access faults (M4). */
#include <stdint.h>

extern uint32_t _stack, _data, _data_end, _data_from, _bss, _bss_end;
int main(void);

static void semihost(int what, const void *word)
{
    register int r0 __asm("r0") = what;
    register const void *r1 __asm("r1") = word;
    __asm volatile("bkpt 0xab" : "+r"(r0) : "r"(r1) : "memory");
}

void reset(void)
{
    uint32_t *from = &_data_from;
    for (uint32_t *to = &_data; to < &_data_end;)
        *to++ = *from++;
    for (uint32_t *to = &_bss; to < &_bss_end;)
        *to++ = 0;
#ifdef TRAP_UNALIGNED
    *(volatile uint32_t *)0xE000ED14 |= 8;
#endif
    main();
    semihost(0x18, (void *)0x20026);
    for (;;)
        ;
}

static void fault(void)
{
    semihost(4, "FAULT\n");
    semihost(0x18, (void *)0x20023);
    for (;;)
        ;
}

__attribute__((section(".vectors"), used)) static void *const vectors[48] = {&_stack, reset, fault, fault, fault, fault, fault};
