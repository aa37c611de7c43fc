/*
 * Prints the text of each sheet, as the program `nest` does, by the cursor of rukvetta_sheet.h: for interface/test.
 *
 *     printed < PACKED           each store led by 3 bytes of its length (bench/packed.py); its sheet's text or its refusal, then a dot
 *     printed cut < PACKED       reads each sheet cut off behind each of its words, and with each word changed: never beyond the end
 *
 * Status: 0 good, 1 the cursor calls a sheet damaged or a cut one whole, 2 the input is at fault.
 */
#include "rukvetta_sheet.h"

#include <inttypes.h>
#include <stdio.h>
#include <stdlib.h>
#include <string.h>

static uint8_t bytes[1 << 24];
static uint16_t words[RUKVETTA_WORDS];
static uint32_t sheet[RUKVETTA_USUAL_LENT];

static void wrong(const char *sentence)
{
    fprintf(stderr, "printed: %s\n", sentence);
    exit(1);
}

static void print_value(struct rukvetta_sheet_value value)
{
    switch (value.kind) {
    case RUKVETTA_CONSTANT: printf("c%" PRIu32, value.index); break;
    case RUKVETTA_INPUT: printf("i%" PRIu32 ".%" PRIu32, value.region, value.index); break;
    case RUKVETTA_INSTRUCTION: printf("d%" PRIu32 ".%" PRIu32, value.region, value.index); break;
    case RUKVETTA_NODE_OUTPUT: printf("n%" PRIu32 ".%" PRIu32, value.region, value.index); break;
    case RUKVETTA_BOOLEAN: printf(value.index ? "true" : "false"); break;
    default: printf("undef%" PRIu32, value.index);
    }
}

static void print_values(struct rukvetta_list list)
{
    uint32_t place;
    if (list.count == 0) printf("-");
    for (place = 0; place < list.count; place++) {
        if (place > 0) printf(",");
        print_value(rukvetta_value_at(list, place));
    }
}

static void print_numbers(struct rukvetta_list list)
{
    uint32_t place;
    if (list.count == 0) printf("-");
    for (place = 0; place < list.count; place++) printf(place > 0 ? ",%" PRIu32 : "%" PRIu32, rukvetta_number_at(list, place));
}

static void print_items(struct rukvetta_words items)
{
    struct rukvetta_item item;
    int first = 1;
    while (rukvetta_next_item(&items, &item) == RUKVETTA_READ) {
        printf("%s%" PRIu32 ".%" PRIu32 "/%" PRIu32 "/%" PRIu32 "/", first ? "" : ",", item.region, item.index, item.opcode, item.type);
        print_values(item.reads);
        first = 0;
    }
}

static void print_condition(struct rukvetta_words *rest)
{
    struct rukvetta_sheet_condition condition;
    uint32_t part;
    if (rukvetta_next_condition(rest, &condition) != RUKVETTA_READ) wrong("a condition is damaged");
    if (condition.kind != RUKVETTA_MERGED) {
        printf("%c", condition.kind == RUKVETTA_ALWAYS ? 't' : condition.kind == RUKVETTA_NEVER ? 'f' : 'u');
        return;
    }
    printf("m%" PRIu32 "[", condition.node);
    for (part = 0; part < condition.parts; part++) {
        if (part > 0) printf(",");
        print_condition(rest);
    }
    printf("]");
}

static void print_region(const struct rukvetta_sheet_line *line)
{
    printf("region %" PRIu32 " in ", line->as.region.region);
    print_numbers(line->as.region.input_types);
    printf(" kids ");
    print_numbers(line->as.region.children);
    printf(" out ");
    print_values(line->as.region.outputs);
}

static void print_select(const struct rukvetta_sheet_line *line)
{
    printf("select %" PRIu32 " %s ", line->as.select.node, line->as.select.on == RUKVETTA_ON_BOOLEAN ? "bool" : "num");
    print_value(line->as.select.tested);
    printf(" cases ");
    print_numbers(line->as.select.cases);
    printf(" out ");
    print_numbers(line->as.select.output_types);
}

static void print_loop(const struct rukvetta_sheet_line *line)
{
    printf("loop %" PRIu32 " in ", line->as.loop.node);
    print_values(line->as.loop.first);
    printf(" body %" PRIu32 " repeat ", line->as.loop.body);
    print_value(line->as.loop.repeat);
}

static void print_defer(const struct rukvetta_sheet_line *line)
{
    struct rukvetta_words condition = line->as.defer.condition;
    printf("defer %" PRIu32 " to ", line->as.defer.region);
    if (line->as.defer.target == RUKVETTA_TO_RETURN) printf("return");
    else printf("%" PRIu32, line->as.defer.target);
    printf(" count %" PRIu32 " in ", line->as.defer.edges);
    print_values(line->as.defer.values);
    printf(" if ");
    print_condition(&condition);
    if (condition.at != condition.end) wrong("a condition has words left");
}

static void print_line(const struct rukvetta_sheet_line *line)
{
    switch (line->kind) {
    case RUKVETTA_LINE_REGION: print_region(line); break;
    case RUKVETTA_LINE_BLOCK:
        printf("block %" PRIu32 " ", line->as.block.node);
        print_items(line->as.block.items.items);
        break;
    case RUKVETTA_LINE_SELECT: print_select(line); break;
    case RUKVETTA_LINE_LOOP: print_loop(line); break;
    case RUKVETTA_LINE_EXIT:
        printf("exit %" PRIu32 " %" PRIu32 " in ", line->as.exit.node, line->as.exit.opcode);
        print_values(line->as.exit.values);
        break;
    case RUKVETTA_LINE_DEFER: print_defer(line); break;
    }
    printf("\n");
}

static void print_sheet(size_t length)
{
    static const char *const names[] = {"untouched", "whole", "closed", "leftover"};
    struct rukvetta_words rest = rukvetta_lines(sheet, length);
    struct rukvetta_sheet_line line;
    enum rukvetta_step step;
    printf("%s figure ", names[sheet[0]]);
    if (sheet[0] == RUKVETTA_WHOLE || sheet[0] == RUKVETTA_CLOSED) printf("%" PRIu32, sheet[1]);
    else printf("-");
    printf(" attempts %" PRIu32 " twice %" PRIu32 "\n", sheet[2], sheet[3]);
    while ((step = rukvetta_next_line(&rest, &line)) == RUKVETTA_READ) print_line(&line);
    if (step != RUKVETTA_END) wrong("a sheet is called damaged");
}

/* How the lines of `length` words end. The words stand alone in memory, so that a reader beyond them is seen. */
static enum rukvetta_step read_alone(const uint32_t *from, size_t length)
{
    uint32_t *alone = malloc(length ? length * sizeof *alone : 1);
    struct rukvetta_words rest;
    struct rukvetta_sheet_line line;
    enum rukvetta_step step;
    if (alone == NULL) wrong("no memory");
    memcpy(alone, from, length * sizeof *alone);
    rest = rukvetta_lines(alone, length);
    while ((step = rukvetta_next_line(&rest, &line)) == RUKVETTA_READ) continue;
    free(alone);
    return step;
}

/* With `word` at that place the sheet is damaged. */
static void damaged_by(const uint32_t *place, uint32_t word, size_t length)
{
    uint32_t *at = sheet + (place - sheet), old = *at;
    *at = word;
    if (read_alone(sheet, length) != RUKVETTA_DAMAGED) wrong("a word that is no lead, kind or condition is not told");
    *at = old;
}

/* Each lead, and in each line a kind, a condition, and what is tested, out of range. */
static void damage_sheet(size_t length)
{
    struct rukvetta_words rest = rukvetta_lines(sheet, length);
    struct rukvetta_sheet_line line;
    const uint32_t *from = rest.at;
    for (; rukvetta_next_line(&rest, &line) == RUKVETTA_READ; from = rest.at) {
        damaged_by(from, RUKVETTA_LINE_DEFER + 1, length);
        if (line.kind == RUKVETTA_LINE_SELECT) {
            damaged_by(from + 2, RUKVETTA_ON_NUMBER + 1, length);
            damaged_by(from + 3, RUKVETTA_UNDEFINED + 1, length);
        }
        if (line.kind == RUKVETTA_LINE_EXIT && line.as.exit.values.count > 0) {
            damaged_by(line.as.exit.values.items.at, RUKVETTA_UNDEFINED + 1, length);
        }
        if (line.kind == RUKVETTA_LINE_DEFER) {
            damaged_by(line.as.defer.condition.at, 0, length);
            damaged_by(line.as.defer.condition.at, RUKVETTA_MERGED + 1, length);
        }
    }
}

static void cut_sheet(size_t length)
{
    struct rukvetta_words rest = rukvetta_lines(sheet, length);
    struct rukvetta_sheet_line line;
    const uint32_t *whole = rest.at; /* where the last line ended */
    size_t cut, changed;
    for (cut = RUKVETTA_HEAD_WORDS; cut < length; cut++) {
        while (whole < sheet + cut && rukvetta_next_line(&rest, &line) == RUKVETTA_READ) whole = rest.at;
        if ((read_alone(sheet, cut) == RUKVETTA_END) != (whole == sheet + cut)) wrong("a sheet cut off within a line is called whole");
    }
    for (changed = 0; changed < length; changed += 1 + length / 16) {
        uint32_t old = sheet[changed];
        sheet[changed] = UINT32_MAX - (uint32_t)changed % 4;
        read_alone(sheet, length);
        sheet[changed] = old;
    }
}

int main(int count, char **arguments)
{
    uint8_t lead[3];
    int cutting = count == 2 && strcmp(arguments[1], "cut") == 0;
    if (count > 1 + cutting) return 2;
    while (fread(lead, 1, 3, stdin) == 3) {
        size_t length = lead[0] | lead[1] << 8 | (size_t)lead[2] << 16;
        uint64_t answer;
        if (fread(bytes, 1, length, stdin) != length) return 2;
        answer = rukvetta_nest(bytes, length, words, sheet, RUKVETTA_USUAL_LENT);
        if (cutting) {
            if (rukvetta_nest_number(answer) == 0) {
                cut_sheet((size_t)answer);
                damage_sheet((size_t)answer);
            }
            continue;
        }
        if (rukvetta_nest_number(answer)) printf("refused %u %u\n", rukvetta_nest_number(answer), rukvetta_nest_word(answer));
        else print_sheet((size_t)answer);
        printf(".\n");
    }
    return 0;
}
