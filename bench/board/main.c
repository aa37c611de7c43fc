// Takes each store of a list that is accepted through accept, nesting, and the whole from its bytes to its sheet's words. A line for each:
// the outcome, a digest of the state after nesting and of the sheet, how many words the sheet has (0 where there is none), the bytes of
// stack below the three calls, by paint, and on the board their instructions; on x86-64 the same file gives 0 for these.
#include "board.h"

// usize has 64 bits in the module, on every machine.
uint32_t measured_accept(const uint8_t *bytes, uint64_t length, uint16_t *words);
uint32_t measured_nest(uint16_t *words);
uint32_t measured_sheet(const uint8_t *bytes, uint64_t length, uint16_t *words, uint32_t *out, uint64_t room);

enum { BLANK = 0xa5a5 };
static uint16_t words[WORDS];
static uint32_t out[ROOM];

static uint32_t took[3], deep[3];

#define MEASURED(k, call) DEEP(deep[k], uint32_t began = clock_now(); call; took[k] = instructions_since(began))

static uint32_t digest;
static void digested(uint32_t n) { digest = (digest ^ n) * 16777619u; }

int main(void) {
    begin();
    for (const uint8_t *at = list, *bytes;;) {
        uint32_t length = length_at(at), refused, outcome, sheet;
        if (length == END_OF_LIST) return 0;
        bytes = at + 3;
        at += 3 + length;
        digest = 2166136261u;
        for (int i = 0; i < WORDS; i++) words[i] = BLANK;
        MEASURED(0, refused = measured_accept(bytes, length, words));
        if (refused) continue;
        MEASURED(1, outcome = measured_nest(words));
        for (int i = 0; i < WORDS; i++) digested(words[i]);
        MEASURED(2, sheet = measured_sheet(bytes, length, words, out, ROOM));
        for (uint32_t i = 0; i < sheet; i++) digested(out[i]);
        put_number(outcome, ' ');
        put_number(digest, ' ');
        put_number(sheet, ' ');
        for (int k = 0; k < 3; k++) put_number(deep[k], ' ');
        for (int k = 0; k < 3; k++) put_number(took[k], k < 2 ? ' ' : '\n');
    }
}
