/*
 * The deepest stack of rukvetta_accept and rukvetta_nest over the stores on standard input: for each 3 bytes of its length, then its bytes.
 * With arguments the first stores are told one by one, under these names. Status 1 where one is deeper than rukvetta.h's bound.
 * The stack below is painted before each call; how far the paint is gone afterwards is how deep the call went, its return address and all.
 */
#include "rukvetta.h"

#include <stdio.h>
#include <stdlib.h>

enum { ROOM = 1 << 16 }; /* cells of 8 bytes that are painted */
#define PAINT 0x5a5a5a5a5a5a5a5aull

static uint8_t bytes[1 << 24];
static uint16_t words[RUKVETTA_WORDS];
static uint32_t sheet[2 * RUKVETTA_USUAL_LENT];

#define DEPTH(call, deepest)                                                         \
    do {                                                                             \
        volatile uint64_t *sp, *p;                                                   \
        __asm__ volatile("mov %%rsp, %0" : "=r"(sp));                                \
        for (p = sp - ROOM; p < sp - 32; p++) *p = PAINT;                            \
        call;                                                                        \
        for (p = sp - ROOM; p < sp && *p == PAINT;) p++;                             \
        if (p == sp - ROOM) {                                                        \
            fprintf(stderr, "stack: deeper than was painted\n");                     \
            exit(1);                                                                 \
        }                                                                            \
        if ((size_t)(sp - p) * 8 > (deepest)) (deepest) = (size_t)(sp - p) * 8;      \
    } while (0)

static int passed; /* whether a bound was */

static void tell(const char *name, size_t accepting, size_t nesting)
{
    passed |= accepting > RUKVETTA_ACCEPT_STACK || nesting > RUKVETTA_NEST_STACK;
    printf("stack, %s: accept %zu bytes, nest %zu bytes\n", name, accepting, nesting);
}

int main(int names, char **name)
{
    size_t accepting = 0, nesting = 0;
    int stores = 0;
    uint8_t lead[3];
    char all[40];

    while (fread(lead, 1, 3, stdin) == 3) {
        size_t length = lead[0] | lead[1] << 8 | (size_t)lead[2] << 16, accept = 0, nest = 0;
        if (fread(bytes, 1, length, stdin) != length) {
            fprintf(stderr, "stack: the list ends within a store\n");
            return 2;
        }
        DEPTH(rukvetta_accept(bytes, length, words), accept);
        DEPTH(rukvetta_nest(bytes, length, words, sheet, 2 * RUKVETTA_USUAL_LENT), nest);
        if (++stores < names) {
            tell(name[stores], accept, nest);
            continue;
        }
        if (accept > accepting) accepting = accept;
        if (nest > nesting) nesting = nest;
    }
    if (stores >= names) {
        snprintf(all, sizeof all, "the deepest of %d other stores", stores - names + 1);
        tell(all, accepting, nesting);
    }
    printf("stack, bound: accept %d bytes, nest %d bytes\n", RUKVETTA_ACCEPT_STACK, RUKVETTA_NEST_STACK);
    if (passed) fprintf(stderr, "stack: a call went deeper than its bound\n");
    return passed;
}
