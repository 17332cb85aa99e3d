#include "paint.h"

#include <inttypes.h>
#include <stdio.h>
#include <stdlib.h>
#include <string.h>

#define STACK_SIZE 4096
#define REGISTERS 6
#define MOST_ARGUMENTS 24
#define MOST_NAMES 40
#define MOST_ANSWERS 64

static _Alignas(16) uint8_t stack[STACK_SIZE];

/* Bytes that look random, so that a byte copied from the stack to the stack shows too. Two paints take turns: what a
 * call writes may have the colour of one, not of both. */
static uint8_t paints[2][STACK_SIZE];

static struct depth {
    const char *name;
    size_t deepest, calls;
    uint8_t answered[MOST_ANSWERS];
} depths[MOST_NAMES];

/* Calls with six words in registers, on a stack whose pointer is `at` before the call. */
uint64_t on_stack(function called, const uint64_t *registers, uint8_t *at);
__asm__(".text\n"
        "on_stack:\n"
        "    push %rbp\n"
        "    mov %rsp, %rbp\n"
        "    mov %rdx, %rsp\n"
        "    mov %rdi, %rax\n"
        "    mov %rsi, %r10\n"
        "    mov (%r10), %rdi\n"
        "    mov 8(%r10), %rsi\n"
        "    mov 16(%r10), %rdx\n"
        "    mov 24(%r10), %rcx\n"
        "    mov 32(%r10), %r8\n"
        "    mov 40(%r10), %r9\n"
        "    call *%rax\n"
        "    mov %rbp, %rsp\n"
        "    pop %rbp\n"
        "    ret\n");

static struct depth *depth_of(const char *name)
{
    struct depth *one = depths;
    while (one->name && strcmp(one->name, name) != 0)
        one++;
    one->name = name;
    return one;
}

static const uint8_t *paint_stack(size_t turn)
{
    if (turn == 0)
        for (size_t i = 0; i < sizeof paints; i++)
            paints[i / STACK_SIZE][i % STACK_SIZE] = (uint8_t)below(256);
    memcpy(stack, paints[turn % 2], STACK_SIZE);
    return paints[turn % 2];
}

uint64_t call(const char *name, function called, const uint64_t *arguments, size_t count)
{
    struct depth *depth = depth_of(name);
    uint64_t words[MOST_ARGUMENTS] = {0};
    size_t on_top = count > REGISTERS ? count - REGISTERS : 0;
    const uint8_t *paint = paint_stack(depth->calls);
    uint8_t *at = stack + STACK_SIZE - (on_top + on_top % 2) * sizeof(uint64_t);
    uint64_t answer;
    size_t lowest = 0, bytes;
    memcpy(words, arguments, count * sizeof(uint64_t));
    memcpy(at, words + REGISTERS, on_top * sizeof(uint64_t));
    answer = on_stack(called, words, at);
    while (stack[lowest] == paint[lowest])
        lowest++;
    bytes = (size_t)(at - stack) - lowest + on_top * sizeof(uint64_t);
    if (lowest == 0 || answer >= MOST_ANSWERS) {
        fprintf(stderr, "%s: %zu bytes of stack, answer %" PRIu64 "\n", name, bytes, answer);
        exit(1);
    }
    depth->deepest = bytes > depth->deepest ? bytes : depth->deepest;
    depth->calls++;
    depth->answered[answer] = 1;
    return answer;
}

void print_depths(void)
{
    for (struct depth *one = depths; one->name; one++) {
        printf("%s %zu %zu", one->name, one->deepest, one->calls);
        for (int answer = 0; answer < MOST_ANSWERS; answer++)
            if (one->answered[answer])
                printf(" %d", answer);
        printf("\n");
    }
}

uint64_t below(uint64_t bound)
{
    static uint64_t state = 20;
    state ^= state << 13;
    state ^= state >> 7;
    state ^= state << 17;
    return (state >> 11) % bound;
}

int once_in(uint64_t many)
{
    return below(many) == 0;
}

uint64_t any_number(void)
{
    uint64_t number = below(UINT64_C(1) << 32) << 32 | below(UINT64_C(1) << 32);
    return number >> below(64);
}
