/* What a driver has of its machine: a way to print, and its stack pointer. Semihosting on bare metal, an import in WebAssembly. */
#ifndef MACHINE_H
#define MACHINE_H

#include <stdint.h>

#if defined(__wasm__)
__attribute__((import_module("env"), import_name("put"))) void put(const char *);
#elif defined(__arm__)
static void put(const char *text)
{
    register int what __asm("r0") = 4;
    register const char *where __asm("r1") = text;
    __asm volatile("bkpt 0xab" : "+r"(what) : "r"(where) : "memory");
}
#define STACK_POINTER(to) __asm volatile("mov %0, sp" : "=r"(to))
#elif defined(__riscv)
/* In start_riscv.S. */
void put(const char *);
#define STACK_POINTER(to) __asm volatile("mv %0, sp" : "=r"(to))
#else
#include <stdio.h>
static void put(const char *text) { fputs(text, stdout); }
#endif

/* A number, with as many hexadecimal digits as are asked for. */
static inline void put_hex(uint64_t number, int digits)
{
    char text[17];
    for (int i = 0; i < digits; i++)
        text[i] = "0123456789ABCDEF"[number >> 4 * (digits - 1 - i) & 15];
    text[digits] = 0;
    put(text);
}

static inline void put_decimal(uint32_t number)
{
    char text[11];
    int place = 10;
    text[place] = 0;
    do {
        text[--place] = (char)('0' + number % 10);
        number /= 10;
    } while (number > 0);
    put(text + place);
}

#endif
