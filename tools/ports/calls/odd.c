/* One word read and written at an odd address: does the machine fault? */
#include "machine.h"

static uint64_t room[2];

int main(void)
{
    volatile uint32_t *word = (volatile uint32_t *)((char *)room + 1);
    /* The compiler must not know the address, or it takes single bytes. */
    __asm volatile("" : "+r"(word));
    *word = *word + 1;
    put("no fault\n");
    return 0;
}
