// The deepest stack of each call over a list of stores in flash, and its bound: accept, its bound, nest, its bound, write, its bound.
// Each store that is accepted is written back, and must be the same.
#include "board.h"
#include "rukvetta.h"

enum { MOST_BYTES = 8192 };

static uint16_t words[RUKVETTA_WORDS];
static uint32_t sheet[4096];
static uint8_t written[MOST_BYTES];

static int is_written(const uint8_t *bytes, uint32_t length, uint64_t answer) {
    if (answer != length) return 0;
    for (uint32_t i = 0; i < length; i++)
        if (written[i] != bytes[i]) return 0;
    return 1;
}

int main(void) {
    uint32_t accept = 0, nest = 0, write = 0, deep;
    volatile uint64_t accepted, answer;
    begin();
    for (const uint8_t *at = list; length_at(at) != END_OF_LIST; at += 3 + length_at(at)) {
        DEEP(deep, accepted = rukvetta_accept(at + 3, length_at(at), words));
        if (deep > accept) accept = deep;
        DEEP(deep, answer = rukvetta_nest(at + 3, length_at(at), words, sheet, sizeof sheet / sizeof *sheet));
        if (deep > nest) nest = deep;
        DEEP(deep, answer = rukvetta_write(words, written, MOST_BYTES));
        if (deep > write) write = deep;
        if (accepted == 0 && !is_written(at + 3, length_at(at), answer)) leave(1);
    }
    put_number(accept, ' ');
    put_number(RUKVETTA_ACCEPT_STACK, ' ');
    put_number(nest, ' ');
    put_number(RUKVETTA_NEST_STACK, ' ');
    put_number(write, ' ');
    put_number(RUKVETTA_WRITE_STACK, '\n');
    return 0;
}
