/*
 * How deep a call goes into the stack.
 *
 *   stack check            measures a function of known depth, and says where the figure is wrong
 *   stack kind KIND        the deepest of 64 calls of that kind
 *   stack stream < FILE    the deepest call of a bench stream, and the number of its record
 *   stack routines         the deepest of memcpy, memmove and memset, which a call may use, over lengths and alignments
 *
 * Why the figure is right. The call is made on a stack of the program's own, which was filled with one byte before; afterwards the byte
 * nearest to its far end that is not that one was written by the call, or by what it called. A byte that was written with the very value of
 * the paint would hide, so each call is made twice from the same buffers, with two paints, and the deeper answer counts. What the caller
 * itself puts there is found by calling a function that does nothing, and taken off; where the return address stands on the stack it is
 * counted as the call's. The C library's functions are bound at the program's start (tools/c-build), so the binding is no part of it.
 *
 * What it does not see: bytes that a function reserves and never writes, below the deepest byte written.
 */
#include <stdio.h>
#include <string.h>

#include "cendurak.h"
#include "own_stack.h"

#ifdef __arm__
enum { RETURN_ADDRESS = 0 }; /* it comes in a register */
#else
enum { RETURN_ADDRESS = 8 };
#endif
enum { LEAST_LEFT = 1024, CALLS_OF_A_KIND = 64 };

static const uint8_t paints[2] = {0xA5, 0x5A};

/* ---- depth on the own stack */

/* Bytes from the top to the deepest one that is not the paint. */
static uint32_t depth_under(uint8_t paint)
{
    uint32_t unused = 0;

    while (unused < OWN_STACK_BYTES && own_stack[unused] == paint)
        unused++;
    return OWN_STACK_BYTES - unused;
}

/* The call that is made next: its function and arguments. Power-up takes seven arguments, a frame and an event nine, a load six. */
typedef uint32_t power_up_call(uint8_t *, uint64_t, uint8_t *, uint64_t, uint8_t *, uint64_t, uint32_t);
typedef uint32_t other_call(uint8_t *, uint64_t, uint8_t *, uint64_t, uint8_t *, uint64_t, uint32_t, const uint8_t *, uint64_t);
typedef uint64_t load_call(uint8_t *, uint64_t, uint8_t *, uint64_t, const uint8_t *, uint64_t);

static struct {
    power_up_call *power_up;
    other_call *other;
    load_call *load;
    uint8_t *state, *dict, *out;
    uint64_t state_len, dict_len, out_len, length, loaded;
    uint32_t number, answer;
    const uint8_t *bytes;
} next;

static void make_power_up(void)
{
    next.answer = next.power_up(next.state, next.state_len, next.dict, next.dict_len, next.out, next.out_len, next.number);
}

static void make_other(void)
{
    next.answer = next.other(next.state, next.state_len, next.dict, next.dict_len, next.out, next.out_len, next.number, next.bytes, next.length);
}

static void make_load(void)
{
    next.loaded = next.load(next.state, next.state_len, next.dict, next.dict_len, next.bytes, next.length);
}

static uint32_t depth_of(void (*make)(void), uint8_t paint)
{
    memset(own_stack, paint, sizeof own_stack);
    on_own_stack(make, 0);
    return depth_under(paint);
}

/* ---- functions of known depth */

/* They do nothing, and use their return address alone. */
static __attribute__((noinline)) uint32_t no_power_up(uint8_t *s, uint64_t sn, uint8_t *d, uint64_t dn, uint8_t *o, uint64_t on, uint32_t n)
{
    (void)s, (void)sn, (void)d, (void)dn, (void)o, (void)on;
    return n;
}

static __attribute__((noinline)) uint32_t no_other(uint8_t *s, uint64_t sn, uint8_t *d, uint64_t dn, uint8_t *o, uint64_t on, uint32_t n,
                                                   const uint8_t *b, uint64_t bn)
{
    (void)s, (void)sn, (void)d, (void)dn, (void)o, (void)on, (void)b, (void)bn;
    return n;
}

static __attribute__((noinline)) uint64_t no_load(uint8_t *s, uint64_t sn, uint8_t *d, uint64_t dn, const uint8_t *b, uint64_t bn)
{
    (void)s, (void)sn, (void)d, (void)dn, (void)b;
    return bn;
}

/* Goes down by its second argument, a length, and writes one byte there, the low byte of its fourth. */
uint32_t goes_down(uint8_t *, uint64_t, uint8_t *, uint64_t, uint8_t *, uint64_t, uint32_t, const uint8_t *, uint64_t);
#ifdef __arm__
__asm__(".text\n"
        ".thumb_func\n"
        "goes_down:\n\t"
        "ldr r1, [sp, #8]\n\t"
        "sub sp, sp, r2\n\t"
        "strb r1, [sp]\n\t"
        "add sp, sp, r2\n\t"
        "mov r0, #0\n\t"
        "bx lr\n");
#else
__asm__(".text\n"
        "goes_down:\n\t"
        "subq %rsi, %rsp\n\t"
        "movb %cl, (%rsp)\n\t"
        "addq %rsi, %rsp\n\t"
        "xorl %eax, %eax\n\t"
        "retq\n");
#endif

/* ---- the calls, measured: kinds.h and records.h call these in place of the node's */

static uint32_t deepest;
static int is_too_deep;

/* The buffers as they were before the call, to make it twice. */
static uint8_t kept_state[CENDURAK_STATE_LEN], kept_dict[CENDURAK_DICT_LEN], kept_out[CENDURAK_OUT_LEN];

static void keep(void)
{
    memcpy(kept_state, next.state, sizeof kept_state);
    memcpy(kept_dict, next.dict, sizeof kept_dict);
    memcpy(kept_out, next.out, sizeof kept_out);
}

static void restore(void)
{
    memcpy(next.state, kept_state, sizeof kept_state);
    memcpy(next.dict, kept_dict, sizeof kept_dict);
    memcpy(next.out, kept_out, sizeof kept_out);
}

static void note(uint32_t depth, uint32_t of_caller)
{
    uint32_t own = depth - of_caller + RETURN_ADDRESS;

    is_too_deep |= depth > OWN_STACK_BYTES - LEAST_LEFT;
    if (own > deepest)
        deepest = own;
}

static void lend(uint8_t *state, uint64_t state_len, uint8_t *dict, uint64_t dict_len, uint8_t *out, uint64_t out_len)
{
    next.state = state, next.state_len = state_len;
    next.dict = dict, next.dict_len = dict_len;
    next.out = out, next.out_len = out_len;
}

/* The deeper of a call's depths under each paint, from the same buffers each time. */
static uint32_t depth_under_paints(void (*make)(void))
{
    uint32_t deeper = 0;

    for (uint32_t i = 0; i < 2; i++) {
        restore();
        uint32_t depth = depth_of(make, paints[i]);
        if (depth > deeper)
            deeper = depth;
    }
    return deeper;
}

/* Makes the next call with one of the three functions. */
static uint32_t measured(void (*make)(void), power_up_call *power_up, other_call *other, load_call *load)
{
    keep();
    next.power_up = no_power_up, next.other = no_other, next.load = no_load;
    uint32_t of_caller = depth_under_paints(make);
    next.power_up = power_up, next.other = other, next.load = load;
    note(depth_under_paints(make), of_caller);
    return next.answer;
}

static uint32_t measured_power_up(uint8_t *state, uint64_t state_len, uint8_t *dict, uint64_t dict_len, uint8_t *out, uint64_t out_len, uint32_t n)
{
    lend(state, state_len, dict, dict_len, out, out_len);
    next.number = n;
    return measured(make_power_up, cendurak_power_up, 0, 0);
}

static uint32_t measured_frame(uint8_t *state, uint64_t state_len, uint8_t *dict, uint64_t dict_len, uint8_t *out, uint64_t out_len,
                               uint32_t identifier, const uint8_t *data, uint64_t length)
{
    lend(state, state_len, dict, dict_len, out, out_len);
    next.number = identifier, next.bytes = data, next.length = length;
    return measured(make_other, 0, cendurak_frame, 0);
}

static uint32_t measured_event(uint8_t *state, uint64_t state_len, uint8_t *dict, uint64_t dict_len, uint8_t *out, uint64_t out_len,
                               uint32_t number, const uint8_t *args, uint64_t length)
{
    lend(state, state_len, dict, dict_len, out, out_len);
    next.number = number, next.bytes = args, next.length = length;
    return measured(make_other, 0, cendurak_event, 0);
}

/* The output that was lent last stays, though a load is lent none. */
static uint64_t measured_load(uint8_t *state, uint64_t state_len, uint8_t *dict, uint64_t dict_len, const uint8_t *file, uint64_t length)
{
    lend(state, state_len, dict, dict_len, next.out, next.out_len);
    next.bytes = file, next.length = length;
    measured(make_load, 0, 0, cendurak_load);
    return next.loaded;
}

/* ---- the routines of the C library that a call may use */

typedef void *copy_routine(void *, const void *, size_t);
typedef void *fill_routine(void *, int, size_t);

/* The routine that is called next. What it answers is kept, so that the call is not the last thing of its caller, whose frame stays below it. */
static struct {
    copy_routine *copy;
    fill_routine *fill;
    uint8_t *to;
    const uint8_t *from;
    size_t length;
    void *answer;
} routine;

static void make_copy(void)
{
    routine.answer = routine.copy(routine.to, routine.from, routine.length);
}

static void make_fill(void)
{
    routine.answer = routine.fill(routine.to, 0, routine.length);
}

static __attribute__((noinline)) void *no_copy(void *to, const void *from, size_t length)
{
    (void)from, (void)length;
    return to;
}

static __attribute__((noinline)) void *no_fill(void *to, int byte, size_t length)
{
    (void)byte, (void)length;
    return to;
}

static uint32_t depth_of_routine(void (*make)(void))
{
    uint32_t one = depth_of(make, paints[0]), other = depth_of(make, paints[1]);
    return one > other ? one : other;
}

static void note_copy(copy_routine *copy)
{
    routine.copy = no_copy;
    uint32_t of_caller = depth_of_routine(make_copy);
    routine.copy = copy;
    note(depth_of_routine(make_copy), of_caller);
}

static void note_fill(fill_routine *fill)
{
    routine.fill = no_fill;
    uint32_t of_caller = depth_of_routine(make_fill);
    routine.fill = fill;
    note(depth_of_routine(make_fill), of_caller);
}

#define cendurak_power_up measured_power_up
#define cendurak_frame measured_frame
#define cendurak_event measured_event
#define cendurak_load measured_load
#include "kinds.h"
#include "records.h"

/* ---- what is asked */

static int is_measured(uint32_t depth, uint8_t written)
{
    lend(state, depth, dict, written, out, CENDURAK_OUT_LEN);
    deepest = 0;
    measured(make_other, 0, goes_down, 0);
    if (deepest != depth + RETURN_ADDRESS)
        printf("a depth of %u was measured as %u\n", depth + RETURN_ADDRESS, deepest);
    return deepest == depth + RETURN_ADDRESS;
}

/* A known depth is measured to the byte, also where the byte that is written is a paint. */
static int check(void)
{
    static const uint32_t depths[] = {8, 24, 1000, 4096, 20000};
    uint32_t wrong = 0;

    for (uint32_t i = 0; i < sizeof depths / sizeof depths[0]; i++)
        wrong += !is_measured(depths[i], 0) + !is_measured(depths[i], paints[0]) + !is_measured(depths[i], paints[1]);
    if (wrong == 0)
        printf("known depths are measured to the byte\n");
    return wrong != 0;
}

static int of_kind(const char *kind)
{
    prepare(kind);
    deepest = 0;
    for (uint32_t i = 0; i < CALLS_OF_A_KIND; i++)
        call(kind, i);
    printf("%u\n", deepest);
    return is_too_deep || !is_mapped;
}

static int of_stream(void)
{
    struct record record;
    unsigned long at = 0;

    for (unsigned long number = 1; read_record(&record) == RECORD; number++) {
        uint32_t before = deepest;
        call_record(&record);
        if (deepest > before)
            at = number;
    }
    printf("%u %lu\n", deepest, at);
    return is_too_deep;
}

/* Lengths up to that of the longest buffer, at all places of a word; memmove to a little before and a little behind what it moves. */
static int of_routines(void)
{
    enum { APART = CENDURAK_DICT_LEN + 8 };
    static uint8_t bytes[3 * APART];

    for (uint32_t i = 0; i < 16; i++)
        for (uint32_t length = 0; length <= CENDURAK_DICT_LEN; length += 1 + length / 8) {
            routine.to = bytes + APART + i / 4, routine.length = length;
            note_fill(memset);
            routine.from = bytes + i % 4;
            note_copy(memcpy);
            routine.from = routine.to + 8 + i % 4;
            note_copy(memmove);
            routine.from = routine.to - 8 + i % 4;
            note_copy(memmove);
        }
    printf("%u\n", deepest);
    return is_too_deep;
}

int main(int argc, char **argv)
{
    if (argc == 2 && strcmp(argv[1], "check") == 0)
        return check();
    if (argc == 2 && strcmp(argv[1], "routines") == 0)
        return of_routines();
    if (argc == 3 && strcmp(argv[1], "kind") == 0)
        return of_kind(argv[2]);
    if (argc == 2 && strcmp(argv[1], "stream") == 0)
        return of_stream();
    return 2;
}
