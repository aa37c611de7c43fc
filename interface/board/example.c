// Nests each store of a list in flash and prints the words of its sheet, or its refusal: an image for a board of MEMORY bytes.
// State, stack and CALLER leave the rest for a sheet, LENT words. Where they are too few, the store is refused with 10.
#include "board.h"
#include "rukvetta.h"

enum { CALLER = 256 }; // bytes of stack for main and for an interrupt
#ifndef LENT
#define LENT ((MEMORY - RUKVETTA_STATE_BYTES - RUKVETTA_NEST_STACK - CALLER) / sizeof(uint32_t))
#endif

static uint16_t words[RUKVETTA_WORDS];
static uint32_t sheet[LENT];

static void nest(const uint8_t *bytes, uint32_t length) {
    uint64_t answer = rukvetta_nest(bytes, length, words, sheet, LENT);
    if (rukvetta_nest_number(answer)) {
        put("refused ");
        put_number(rukvetta_nest_number(answer), ' ');
        put_number(rukvetta_nest_word(answer), '\n');
        return;
    }
    for (uint32_t i = 0; i < answer; i++) put_number(sheet[i], i + 1 < answer ? ' ' : '\n');
}

int main(void) {
    begin();
    for (const uint8_t *at = list; length_at(at) != END_OF_LIST; at += 3 + length_at(at)) nest(at + 3, length_at(at));
    return 0;
}
