// The emulated board: text and the end of the run by semihosting, a clock of instructions, how deep the stack went, and a list of stores in
// flash. On x86-64 the same names, so that one file runs on both: the list is read from standard input, and there is no clock.
// A list: for each store 3 bytes of length, then its bytes, packed, so that they begin at any address; 0xffffff ends it.
#include <stdint.h>
enum { END_OF_LIST = 0xffffff };

#ifdef __arm__
#define REGISTER(place) (*(volatile uint32_t *)(place))
extern const uint8_t list[];
typedef uint32_t cell;
extern cell stack_foot[];
#define STACK_POINTER "mov %0, sp"
enum { RED_ZONE = 0 };

static inline void host(unsigned what, const void *with) {
    register unsigned r0 __asm__("r0") = what;
    register const void *r1 __asm__("r1") = with;
    __asm__ volatile("bkpt 0xab" : "+r"(r0) : "r"(r1) : "memory");
}
static inline void put(const char *text) { host(4, text); }
static inline void leave(int wrong) {
    for (;;) host(0x18, (const void *)(wrong ? 0x20023u : 0x20026u));
}
static inline void begin(void) {}

// SysTick, 120 ticks a microsecond: under -icount shift=0, where an instruction takes 1 ns, 3 ticks for each 25 instructions.
static inline void clock_on(void) {
    REGISTER(0xe000e014) = 0xffffff;
    REGISTER(0xe000e018) = 0;
    REGISTER(0xe000e010) = 5;
}
static inline uint32_t clock_now(void) { return 0xffffff - REGISTER(0xe000e018); }
static inline uint32_t instructions_since(uint32_t began) { return ((clock_now() - began) & 0xffffff) * 25ull / 3; }

#else
#include <stdio.h>
#include <stdlib.h>
static uint8_t list[1 << 25];
typedef uint64_t cell;
static cell *stack_foot;
#define STACK_POINTER "mov %%rsp, %0"
enum { RED_ZONE = 16 }; // cells below the pointer that a function may use

static inline void put(const char *text) { fputs(text, stdout); }
static inline void begin(void) {
    cell here;
    stack_foot = &here - 8192;
    if (fread(list, 1, sizeof list, stdin) == 0) exit(1);
}
static inline uint32_t clock_now(void) { return 0; }
static inline uint32_t instructions_since(uint32_t began) { return began; }
#endif

// Paints the stack below, calls, and looks how far the paint is gone: so many bytes.
#define PAINT ((cell)0x5a5a5a5a5a5a5a5a)
#define DEEP(bytes, call)                                                    \
    do {                                                                     \
        cell *sp, *p;                                                        \
        __asm__ volatile(STACK_POINTER : "=r"(sp));                          \
        for (p = stack_foot; p < sp - RED_ZONE; p++)                         \
            *(volatile cell *)p = PAINT;                                     \
        call;                                                                \
        for (p = stack_foot; p < sp && *(volatile cell *)p == PAINT;) p++;   \
        bytes = sizeof(cell) * (sp - p);                                     \
    } while (0)

static inline void put_number(uint32_t n, char end) {
    char text[12], *at = text + 11;
    *at = 0;
    *--at = end;
    do *--at = '0' + n % 10; while (n /= 10);
    put(at);
}

// The length of the store at a place of the list, or END_OF_LIST.
static inline uint32_t length_at(const uint8_t *at) { return at[0] | at[1] << 8 | at[2] << 16; }
