/*
 * Reads the words of a sheet, line by line. No heap, nothing to link: all of it stands in this header.
 *
 *     struct rukvetta_words rest = rukvetta_lines(words, length);
 *     struct rukvetta_sheet_line line;
 *     while (rukvetta_next_line(&rest, &line) == RUKVETTA_READ) { .. line.kind says which part of line.as holds .. }
 *
 * Any words may be given. None is read beyond `length`; words that are no sheet are told by RUKVETTA_DAMAGED.
 * A line's lists stand in the words themselves, which must stay as long as the line is used. rukvetta.h has the numbers.
 */
#ifndef RUKVETTA_SHEET_H
#define RUKVETTA_SHEET_H

#include "rukvetta.h"

/* Words from `at` up to `end`, which is no longer one of them. */
struct rukvetta_words { const uint32_t *at, *end; };

/* `count` items; where they have one length, `items` holds them and nothing else. */
struct rukvetta_list { uint32_t count; struct rukvetta_words items; };

/* What a value is: kind is one of enum rukvetta_value. */
struct rukvetta_sheet_value { uint32_t kind, region, index; };

/* One instruction of a block line. */
struct rukvetta_item { uint32_t region, index, opcode, type; struct rukvetta_list reads; };

/* One condition: kind is one of enum rukvetta_condition. Of RUKVETTA_MERGED the next `parts` conditions are its own. */
struct rukvetta_sheet_condition { uint32_t kind, node, parts; };

struct rukvetta_sheet_line {
    enum rukvetta_line kind;
    union {
        struct { uint32_t region; struct rukvetta_list input_types, children, outputs; } region;
        struct { uint32_t node; struct rukvetta_list items; } block;
        struct { uint32_t node, on; struct rukvetta_sheet_value tested; struct rukvetta_list cases, output_types; } select;
        struct { uint32_t node; struct rukvetta_list first; uint32_t body; struct rukvetta_sheet_value repeat; } loop;
        struct { uint32_t node, opcode; struct rukvetta_list values; } exit;
        struct { uint32_t region, target, edges; struct rukvetta_list values; struct rukvetta_words condition; } defer;
    } as;
};

/* What a step along the words says. */
enum rukvetta_step {
    RUKVETTA_END,       /* no word is left */
    RUKVETTA_READ,      /* one was read */
    RUKVETTA_DAMAGED    /* what is left is none: a list is longer than the words, or a word is no lead, kind or condition */
};

/* The word at the front, which then is passed; 0, and `good` is 0, where there is none. */
static inline uint32_t rukvetta_next_word(struct rukvetta_words *rest, int *good)
{
    if (rest->at == rest->end) {
        *good = 0;
        return 0;
    }
    return *rest->at++;
}

/* A list whose items have `each` words. */
static inline struct rukvetta_list rukvetta_next_list(struct rukvetta_words *rest, uint32_t each, int *good)
{
    struct rukvetta_list list;
    list.count = rukvetta_next_word(rest, good);
    if (list.count > (size_t)(rest->end - rest->at) / each) {
        *good = 0;
        list.count = 0;
    }
    list.items.at = rest->at;
    rest->at += (size_t)list.count * each;
    list.items.end = rest->at;
    return list;
}

static inline struct rukvetta_sheet_value rukvetta_next_value(struct rukvetta_words *rest, int *good)
{
    struct rukvetta_sheet_value value;
    value.kind = rukvetta_next_word(rest, good);
    value.region = rukvetta_next_word(rest, good);
    value.index = rukvetta_next_word(rest, good);
    *good &= value.kind <= RUKVETTA_UNDEFINED;
    return value;
}

/* The number at a place of a list of regions, nodes or types, below its count. */
static inline uint32_t rukvetta_number_at(struct rukvetta_list list, uint32_t place) { return list.items.at[place]; }

/* The value at a place of a list of values, below its count. */
static inline struct rukvetta_sheet_value rukvetta_value_at(struct rukvetta_list list, uint32_t place)
{
    const uint32_t *at = list.items.at + (size_t)RUKVETTA_VALUE_WORDS * place;
    struct rukvetta_sheet_value value;
    value.kind = at[0];
    value.region = at[1];
    value.index = at[2];
    return value;
}

static inline struct rukvetta_list rukvetta_next_values(struct rukvetta_words *rest, int *good)
{
    struct rukvetta_list list = rukvetta_next_list(rest, RUKVETTA_VALUE_WORDS, good);
    uint32_t place;
    for (place = 0; place < list.count; place++) *good &= rukvetta_value_at(list, place).kind <= RUKVETTA_UNDEFINED;
    return list;
}

/* The next item of a block line; `items` is line.as.block.items.items, or a copy of it. */
static inline enum rukvetta_step rukvetta_next_item(struct rukvetta_words *items, struct rukvetta_item *item)
{
    int good = 1;
    if (items->at == items->end) return RUKVETTA_END;
    item->region = rukvetta_next_word(items, &good);
    item->index = rukvetta_next_word(items, &good);
    item->opcode = rukvetta_next_word(items, &good);
    item->type = rukvetta_next_word(items, &good);
    item->reads = rukvetta_next_values(items, &good);
    return good ? RUKVETTA_READ : RUKVETTA_DAMAGED;
}

/* The next condition of a defer line, a merged one before its parts; `rest` is line.as.defer.condition, or a copy of it. */
static inline enum rukvetta_step rukvetta_next_condition(struct rukvetta_words *rest, struct rukvetta_sheet_condition *condition)
{
    int good = 1;
    if (rest->at == rest->end) return RUKVETTA_END;
    condition->kind = rukvetta_next_word(rest, &good);
    condition->node = condition->parts = 0;
    if (condition->kind < RUKVETTA_ALWAYS || condition->kind > RUKVETTA_MERGED) return RUKVETTA_DAMAGED;
    if (condition->kind == RUKVETTA_MERGED) {
        condition->node = rukvetta_next_word(rest, &good);
        condition->parts = rukvetta_next_word(rest, &good);
    }
    return good ? RUKVETTA_READ : RUKVETTA_DAMAGED;
}

/* Block items, each looked through once, so that a line's end is known. */
static inline struct rukvetta_list rukvetta_next_items(struct rukvetta_words *rest, int *good)
{
    struct rukvetta_list list;
    struct rukvetta_item item;
    uint32_t left;
    list.count = left = rukvetta_next_word(rest, good);
    list.items.at = rest->at;
    for (; *good && left > 0; left--) *good = rukvetta_next_item(rest, &item) == RUKVETTA_READ;
    list.items.end = rest->at;
    return list;
}

/* A condition with all its parts, likewise. */
static inline struct rukvetta_words rukvetta_whole_condition(struct rukvetta_words *rest, int *good)
{
    struct rukvetta_words whole;
    struct rukvetta_sheet_condition condition;
    uint64_t left = 1;
    whole.at = rest->at;
    while (*good && left > 0) {
        *good = rukvetta_next_condition(rest, &condition) == RUKVETTA_READ;
        if (*good) left += (uint64_t)condition.parts - 1;
    }
    whole.end = rest->at;
    return whole;
}

static inline void rukvetta_region_line(struct rukvetta_words *rest, struct rukvetta_sheet_line *line, int *good)
{
    line->as.region.region = rukvetta_next_word(rest, good);
    line->as.region.input_types = rukvetta_next_list(rest, 1, good);
    line->as.region.children = rukvetta_next_list(rest, 1, good);
    line->as.region.outputs = rukvetta_next_values(rest, good);
}

static inline void rukvetta_select_line(struct rukvetta_words *rest, struct rukvetta_sheet_line *line, int *good)
{
    line->as.select.node = rukvetta_next_word(rest, good);
    line->as.select.on = rukvetta_next_word(rest, good);
    line->as.select.tested = rukvetta_next_value(rest, good);
    line->as.select.cases = rukvetta_next_list(rest, 1, good);
    line->as.select.output_types = rukvetta_next_list(rest, 1, good);
    *good &= line->as.select.on <= RUKVETTA_ON_NUMBER;
}

static inline void rukvetta_loop_line(struct rukvetta_words *rest, struct rukvetta_sheet_line *line, int *good)
{
    line->as.loop.node = rukvetta_next_word(rest, good);
    line->as.loop.first = rukvetta_next_values(rest, good);
    line->as.loop.body = rukvetta_next_word(rest, good);
    line->as.loop.repeat = rukvetta_next_value(rest, good);
}

static inline void rukvetta_defer_line(struct rukvetta_words *rest, struct rukvetta_sheet_line *line, int *good)
{
    line->as.defer.region = rukvetta_next_word(rest, good);
    line->as.defer.target = rukvetta_next_word(rest, good);
    line->as.defer.edges = rukvetta_next_word(rest, good);
    line->as.defer.values = rukvetta_next_values(rest, good);
    line->as.defer.condition = rukvetta_whole_condition(rest, good);
}

/* The lines of a sheet: its words behind the head, which are words[0] to words[RUKVETTA_HEAD_WORDS - 1]. */
static inline struct rukvetta_words rukvetta_lines(const uint32_t *words, size_t length)
{
    struct rukvetta_words rest;
    rest.at = words + (length < RUKVETTA_HEAD_WORDS ? length : RUKVETTA_HEAD_WORDS);
    rest.end = words + length;
    return rest;
}

/* The next line, which then is passed. */
static inline enum rukvetta_step rukvetta_next_line(struct rukvetta_words *rest, struct rukvetta_sheet_line *line)
{
    int good = 1;
    if (rest->at == rest->end) return RUKVETTA_END;
    if (*rest->at > RUKVETTA_LINE_DEFER) return RUKVETTA_DAMAGED;
    line->kind = (enum rukvetta_line)*rest->at++;
    switch (line->kind) {
    case RUKVETTA_LINE_REGION: rukvetta_region_line(rest, line, &good); break;
    case RUKVETTA_LINE_BLOCK:
        line->as.block.node = rukvetta_next_word(rest, &good);
        line->as.block.items = rukvetta_next_items(rest, &good);
        break;
    case RUKVETTA_LINE_SELECT: rukvetta_select_line(rest, line, &good); break;
    case RUKVETTA_LINE_LOOP: rukvetta_loop_line(rest, line, &good); break;
    case RUKVETTA_LINE_EXIT:
        line->as.exit.node = rukvetta_next_word(rest, &good);
        line->as.exit.opcode = rukvetta_next_word(rest, &good);
        line->as.exit.values = rukvetta_next_values(rest, &good);
        break;
    case RUKVETTA_LINE_DEFER: rukvetta_defer_line(rest, line, &good); break;
    }
    return good ? RUKVETTA_READ : RUKVETTA_DAMAGED;
}

#endif
