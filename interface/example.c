/*
 * Reads a store from a file and prints the words of its sheet, and how many words its record has. Then it writes the record back,
 * and says how many bytes of the store have come out the same.
 *
 *     cc -I target/interface interface/example.c target/interface/librukvetta.a -o example && ./example STORE
 *
 * Status: 0 a sheet, 1 a refusal, 2 the command or the file is at fault.
 */
#include "rukvetta.h"

#include <inttypes.h>
#include <stdio.h>
#include <string.h>

static uint8_t bytes[RUKVETTA_MOST_BYTES + 1]; /* one byte more is enough to be refused */
static uint16_t words[RUKVETTA_WORDS];
static uint32_t sheet[RUKVETTA_USUAL_LENT];
static uint8_t again[RUKVETTA_MOST_BYTES];

int main(int count, char **arguments)
{
    FILE *file;
    size_t length, n, i;
    uint64_t answer;
    uint32_t written;

    if (count != 2) {
        fprintf(stderr, "usage: example STORE\n");
        return 2;
    }
    file = fopen(arguments[1], "rb");
    if (file == NULL) {
        perror(arguments[1]);
        return 2;
    }
    length = fread(bytes, 1, sizeof bytes, file);
    if (ferror(file)) {
        perror(arguments[1]);
        return 2;
    }
    fclose(file);

    answer = rukvetta_nest(bytes, length, words, sheet, RUKVETTA_USUAL_LENT);
    if (rukvetta_nest_number(answer) != 0) {
        printf("refused %u %u\n", rukvetta_nest_number(answer), rukvetta_nest_word(answer));
        return 1;
    }
    n = (size_t)answer;
    for (i = 0; i < n; i++) {
        printf("%" PRIu32 "%c", sheet[i], i + 1 < n ? ' ' : '\n');
    }
    printf("record of %u words\n", (unsigned)words[0]);

    written = rukvetta_write(words, again, sizeof again);
    if (rukvetta_write_number(written) != 0 || written != length || memcmp(again, bytes, length) != 0) {
        fprintf(stderr, "the record is written back otherwise\n");
        return 2;
    }
    printf("store of %u bytes\n", (unsigned)written);
    return fflush(stdout) == 0 && !ferror(stdout) ? 0 : 2;
}
