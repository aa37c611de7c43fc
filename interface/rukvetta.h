/*
 * Rukvetta 1.0: from a store of bytes to its nested sheet.
 *
 * Three routines, each proved to answer as its definition does, whatever it is lent:
 * two for a store of bytes, and one that writes a record back as a store. "Document
 * 01" is the scope paper of the routine nester: it fixes store, record, refusals and
 * sheet. docs/REFUSALS.md says what to do about a refusal.
 *
 * Memory. A routine uses what it is lent, and a stack that is bounded below. It takes
 * no heap, keeps nothing between calls, and has no memory of its own: calls with
 * different lent memory may run at the same time, in any thread. Nothing lent is kept
 * after the call. Of the C library it needs memset; on a Cortex-M it needs
 * __aeabi_memcpy, __aeabi_memclr and __aeabi_memclr4, which its C library has too.
 *
 *   bytes   the store: `length` bytes, read only, any alignment; for rukvetta_write
 *           `lent` bytes, in which it puts the store
 *   words   RUKVETTA_WORDS words of 16 bits, aligned for uint16_t. Any values may
 *           stand in them. One array serves any number of calls, one at a time
 *   out     `lent` words of 32 bits, aligned for uint32_t, for the sheet
 *
 * The three do not overlap. None is null, even where its length is 0 (any address
 * aligned as above will do then). No array is longer than PTRDIFF_MAX bytes. A length
 * has 64 bits on every machine, as the proved routines have it.
 */
#ifndef RUKVETTA_H
#define RUKVETTA_H

#include <stddef.h>
#include <stdint.h>

#ifdef __cplusplus
extern "C" {
#endif

#define RUKVETTA_VERSION_MAJOR 1
#define RUKVETTA_VERSION_MINOR 0
#define RUKVETTA_VERSION_PATCH 0
#define RUKVETTA_VERSION "1.0.0"

/* A store: 1 to 16 blocks of 512 bytes; in each a number, 253 payload words and a check. */
#define RUKVETTA_BLOCK_BYTES 512
#define RUKVETTA_BLOCK_WORDS 253
#define RUKVETTA_MOST_BLOCKS 16
#define RUKVETTA_MOST_BYTES 8192

/* The lent words: the record stands in front, at most so many of them; behind them its index; then nesting's own. */
#define RUKVETTA_WORDS 26942
#define RUKVETTA_STATE_BYTES (2 * RUKVETTA_WORDS)
#define RUKVETTA_RECORD_WORDS 4048
#define RUKVETTA_NESTING_FROM 4400

/* What the program `nest` lends for a sheet. A few sheets are longer: then refusal 10, and more may be lent. */
#define RUKVETTA_USUAL_LENT 16384

/*
 * The most stack that a call needs, in bytes, its return address included; 64 of them stand for memset and the like. Worked out
 * from the compiled code: frames, calls, and a level of nesting for each of RUKVETTA_MOST_REGIONS regions. That nesting has no more levels
 * is proved. That conditions and the walks over a form have no more is reasoned in docs/STACK.md, and was never seen passed.
 * Of these the proofs say only that cells and records come to an end: _PROVED is the bound by that alone.
 */
/* stack: made by interface/build --board --write */
#if defined(__ARM_ARCH_7M__) /* Cortex-M3, -O2 */
#define RUKVETTA_ACCEPT_STACK 256
#define RUKVETTA_ACCEPT_STACK_PROVED 256
#define RUKVETTA_NEST_STACK 10352
#define RUKVETTA_NEST_STACK_PROVED 105792
#define RUKVETTA_WRITE_STACK 76
#define RUKVETTA_WRITE_STACK_PROVED 76
#elif defined(__ARM_ARCH_7EM__) /* Cortex-M4, -O2 */
#define RUKVETTA_ACCEPT_STACK 256
#define RUKVETTA_ACCEPT_STACK_PROVED 256
#define RUKVETTA_NEST_STACK 10360
#define RUKVETTA_NEST_STACK_PROVED 105792
#define RUKVETTA_WRITE_STACK 76
#define RUKVETTA_WRITE_STACK_PROVED 76
#elif defined(__ARM_ARCH_8M_MAIN__) /* Cortex-M33, -O2 */
#define RUKVETTA_ACCEPT_STACK 256
#define RUKVETTA_ACCEPT_STACK_PROVED 256
#define RUKVETTA_NEST_STACK 10360
#define RUKVETTA_NEST_STACK_PROVED 105792
#define RUKVETTA_WRITE_STACK 76
#define RUKVETTA_WRITE_STACK_PROVED 76
#elif defined(__x86_64__) /* x86-64, as rt compiles it */
#define RUKVETTA_ACCEPT_STACK 400
#define RUKVETTA_ACCEPT_STACK_PROVED 400
#define RUKVETTA_NEST_STACK 11024
#define RUKVETTA_NEST_STACK_PROVED 85280
#define RUKVETTA_WRITE_STACK 48
#define RUKVETTA_WRITE_STACK_PROVED 48
#endif
/* end */

/* How many a record may have. */
#define RUKVETTA_MOST_REGIONS 32
#define RUKVETTA_MOST_CONSTANTS 64
#define RUKVETTA_MOST_INPUTS 4          /* of a region */
#define RUKVETTA_MOST_REGION_BLOCKS 8   /* blocks of instructions in a region */
#define RUKVETTA_MOST_INSTRUCTIONS 8    /* in a block */
#define RUKVETTA_MOST_READS 3           /* of an instruction */
#define RUKVETTA_MOST_VALUES 4          /* returned, or handed to an exit */
#define RUKVETTA_MOST_TARGETS 8         /* of a select on a number */
#define RUKVETTA_MOST_EXITS 32          /* in an exit list */
#define RUKVETTA_MOST_TYPE 255
#define RUKVETTA_TYPE_BOOLEAN 1
#define RUKVETTA_MOST_LIMIT 65535       /* turns of a loop */

/* How many a nesting may define, all counted; one more is refusal 9. */
#define RUKVETTA_MOST_NESTED_REGIONS 128
#define RUKVETTA_MOST_NODES 512
#define RUKVETTA_MOST_OUTPUTS 512
#define RUKVETTA_MOST_CONDITIONS 512
#define RUKVETTA_MOST_FIGURE 4294967295u

/* Refusals, by number. Beside the number stands one word: what it is, is said behind each. */
enum rukvetta_refusal {
    RUKVETTA_LENGTH = 1,        /* the store's length is 0, over 8,192 or no multiple of 512; 0 */
    RUKVETTA_BLOCK_NUMBER = 2,  /* a block has another number than its place; the block */
    RUKVETTA_CHECK = 3,         /* a block's check is wrong; the block */
    RUKVETTA_WORD_COUNT = 4,    /* W is 0, or not as many words as record or blocks have, or a word after W is not 0; 0.
                                   In writing: words[0] is 0 or over RUKVETTA_RECORD_WORDS */
    RUKVETTA_RANGE = 5,         /* a count, type, kind or limit is out of range; the region, 0 before the first */
    RUKVETTA_REFERENCE = 6,     /* a region, constant or value that names nothing allowed; the region */
    RUKVETTA_TYPE = 7,          /* a value of another type, or values of another number; the region */
    RUKVETTA_EXIT_TWICE = 8,    /* an exit list names a region twice; the region */
    RUKVETTA_LIMIT = 9,         /* nesting would define more than the limits above; 0 */
    RUKVETTA_LENT = 10,         /* the sheet has more words, or the store more bytes, than were lent; 0 */
    RUKVETTA_FIGURE = 11        /* the figure exceeds 4,294,967,295; 0 */
};

/* The record: word 0 is W, the number of its words, itself included. Terminators and kinds of values are words. */
enum rukvetta_terminator {
    RUKVETTA_UNREACHABLE = 0,
    RUKVETTA_RETURN = 1,
    RUKVETTA_EXIT_INVOCATION = 2,
    RUKVETTA_BRANCH = 3,
    RUKVETTA_SELECT_BOOLEAN = 4,
    RUKVETTA_SELECT_NUMBER = 5
};

/* A value is three words, in a record and on a sheet: kind, region (or node), index. */
enum rukvetta_value {
    RUKVETTA_CONSTANT = 0,      /* 0, the constant */
    RUKVETTA_INPUT = 1,         /* the region, its input */
    RUKVETTA_INSTRUCTION = 2,   /* the region, its instruction, counted through its blocks */
    RUKVETTA_NODE_OUTPUT = 3,   /* the node, its output; on a sheet alone */
    RUKVETTA_BOOLEAN = 4,       /* 0, 0 for false or 1 for true */
    RUKVETTA_UNDEFINED = 5      /* 0, the type */
};

/*
 * The sheet, in words of 32 bits. In front stand four: outcome, figure (0 where there is none), attempts,
 * twice. Then the lines, each led by its kind. A list is its count and its items.
 *
 *   region   0, region, list of input types, list of child nodes, list of output values
 *   block    1, node, list of items: region, index, opcode, type, list of read values
 *   select   2, node, 0 for a boolean or 1 for a number, value tested, list of case regions, list of output types
 *   loop     3, node, list of first input values, body region, value that repeats it
 *   exit     4, node, opcode, list of values
 *   defer    5, region, target (65,535 for Return), count of edges, list of input values, condition
 *
 * The entry region comes first, after it each child, with a select's cases and a loop's body behind it. Of a
 * leftover the regions that were not claimed follow, then the defer lines. A condition is 1 true, 2 false,
 * 3 undefined, or 4, a node and a list of conditions. Of an untouched record there are the four words alone.
 */
enum rukvetta_outcome { RUKVETTA_UNTOUCHED = 0, RUKVETTA_WHOLE = 1, RUKVETTA_CLOSED = 2, RUKVETTA_LEFTOVER = 3 };

enum rukvetta_line {
    RUKVETTA_LINE_REGION = 0,
    RUKVETTA_LINE_BLOCK = 1,
    RUKVETTA_LINE_SELECT = 2,
    RUKVETTA_LINE_LOOP = 3,
    RUKVETTA_LINE_EXIT = 4,
    RUKVETTA_LINE_DEFER = 5
};

enum rukvetta_selection { RUKVETTA_ON_BOOLEAN = 0, RUKVETTA_ON_NUMBER = 1 };

enum rukvetta_condition {
    RUKVETTA_ALWAYS = 1,
    RUKVETTA_NEVER = 2,
    RUKVETTA_ANY = 3,           /* undefined: either will do */
    RUKVETTA_MERGED = 4
};

#define RUKVETTA_HEAD_WORDS 4
#define RUKVETTA_VALUE_WORDS 3
#define RUKVETTA_TO_RETURN 65535

/*
 * Checks a store and reads its record. 0: the store holds a record; words[0] is its W, and words[0] to words[W - 1]
 * are the record's words. Else a refusal 1 to 8: number * 65,536 + word.
 *
 * After a refusal by the store (1 to 3, and 4 for W, the number of blocks or a word behind W) the lent words are as
 * they were. After another the store's W words stand in front, and of the others only words[RUKVETTA_RECORD_WORDS] to
 * words[RUKVETTA_NESTING_FROM - 1] may have changed; after an answer of 0 too.
 */
uint32_t rukvetta_accept(const uint8_t *bytes, uint64_t length, uint16_t *words);

/*
 * Nests the record of a store. Below 2^32: the number n of the sheet's words, which now are out[0] to out[n - 1];
 * out[n] to out[lent - 1] are as lent. Else a refusal 1 to 11: number * 2^32 + word, and all of out is as lent.
 *
 * After a refusal 1 to 8 all of `words` is as rukvetta_accept leaves it. After any other answer the words before
 * words[RUKVETTA_NESTING_FROM] are, the record in front; from there on the words are nesting's own and may hold
 * anything. Refusal 10 comes last: a store that is refused with it has a sheet if more words are lent.
 */
uint64_t rukvetta_nest(const uint8_t *bytes, uint64_t length, uint16_t *words, uint32_t *out, uint64_t lent);

/*
 * Writes the record that stands in front of `words`, as rukvetta_accept or rukvetta_nest left it, back as a store: words[0] is
 * its W. Below 65,536: the number n of the store's bytes, 512 to 8,192, which now are bytes[0] to bytes[n - 1]; bytes[n] to
 * bytes[lent - 1] are as lent. Else refusal 4, if W is 0 or over RUKVETTA_RECORD_WORDS, or 10, if fewer than 512 bytes are lent
 * for each block: number * 65,536, and all bytes are as lent. `words` does not change, and no word behind the first W is read.
 *
 * A store that was accepted is written with the same bytes. What is written is read as the same words: where reading refused
 * a record, with 4 to 8, its words stand too, and are written.
 */
uint32_t rukvetta_write(uint16_t *words, uint8_t *bytes, uint64_t lent);

/* The number and the word of a refusal; the number is 0 where the answer is none. */
static inline unsigned rukvetta_accept_number(uint32_t answer) { return (unsigned)(answer >> 16); }
static inline unsigned rukvetta_accept_word(uint32_t answer) { return (unsigned)(answer & 65535u); }
static inline unsigned rukvetta_write_number(uint32_t answer) { return (unsigned)(answer >> 16); }
static inline unsigned rukvetta_nest_number(uint64_t answer) { return (unsigned)(answer >> 32); }
static inline unsigned rukvetta_nest_word(uint64_t answer) { return (unsigned)(answer & 4294967295u); }

#ifdef __cplusplus
}
#endif

#endif
