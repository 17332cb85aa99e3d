/* Calls of the library on a painted stack of their own, and numbers that look random. */
#ifndef PAINT_H
#define PAINT_H

#include <stddef.h>
#include <stdint.h>

typedef void (*function)(void);

/* Calls the function with its arguments and notes under its name how deep the stack went and what it answered. */
uint64_t call(const char *name, function called, const uint64_t *arguments, size_t count);

/* An argument is a number or a pointer; each has a word of its own. */
#define A(argument) ((uint64_t)(argument))
#define CALL(name, ...)                                             \
    call(#name, (function)name, (const uint64_t[]){__VA_ARGS__},    \
         sizeof((const uint64_t[]){__VA_ARGS__}) / sizeof(uint64_t))

/* A line for each function: name, deepest stack in bytes, calls, answers. */
void print_depths(void);

/* A number below the bound; once in so many; any number, each width as often as another. */
uint64_t below(uint64_t bound);
int once_in(uint64_t many);
uint64_t any_number(void);

#endif
