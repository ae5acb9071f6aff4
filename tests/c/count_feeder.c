/*
 * One kind of call of the label feeder, made so many times: `count_feeder KIND TIMES`. The kinds `no-step` and `no-start` call functions that
 * are one instruction, their return: what a run of another kind takes more than that is the feeder's own. The instructions of a call are the
 * difference between two runs, less the same difference of the kind that does nothing, divided by the difference of the times, and one.
 * tools/measure has the names of the kinds.
 */
#include <stdio.h>
#include <string.h>

#include "counter.h"
#include "digits.h"
#include "feeder.h"

typedef uint64_t step_call(const int32_t *, uint64_t, uint32_t, uint32_t);
typedef uint32_t start_call(const int32_t *, uint64_t);

step_call returns_at_once;
start_call returns_at_once_too;
#ifdef __arm__
__asm__(".text\n"
        ".thumb_func\n"
        "returns_at_once:\n"
        ".thumb_func\n"
        "returns_at_once_too:\n\t"
        "bx lr\n");
#else
__asm__(".text\n"
        "returns_at_once:\n"
        "returns_at_once_too:\n\t"
        "retq\n");
#endif

enum { MOST = FEEDER_MOST_LENGTHS, FREE = 0x0237, ACKNOWLEDGED = 0x1237 };

/* A kind has a step or a start. */
static const struct kind {
    const char *name;
    step_call *step;
    start_call *start;
    uint32_t count, position, status;
} kinds[] = {
    {"first", feeder_step, 0, MOST, 0, FREE},
    {"last", feeder_step, 0, MOST, MOST - 1, FREE},
    {"waits", feeder_step, 0, MOST, 0, ACKNOWLEDGED},
    {"used-up", feeder_step, 0, MOST, MOST, FREE},
    {"past", feeder_step, 0, MOST, MOST + 1, FREE},
    {"long", feeder_step, 0, MOST + 1, 0, FREE},
    {"no-step", returns_at_once, 0, MOST, 0, FREE},
    {"start", 0, feeder_start, MOST, 0, 0},
    {"long-start", 0, feeder_start, MOST + 1, 0, 0},
    {"no-start", 0, returns_at_once_too, MOST, 0, 0},
};

static int32_t lengths[MOST + 1];
static uint64_t answer;

static void make_calls(const struct kind *k, uint32_t times)
{
    for (uint32_t i = 0; i < times && k->step; i++)
        answer = k->step(lengths, k->count, k->position, k->status);
    for (uint32_t i = 0; i < times && k->start; i++)
        answer = (uint64_t)k->start(lengths, k->count) << 60;
}

static const struct kind *kind_of(const char *name)
{
    for (uint32_t i = 0; i < sizeof kinds / sizeof kinds[0]; i++)
        if (strcmp(kinds[i].name, name) == 0)
            return kinds + i;
    return 0;
}

int main(int argc, char **argv)
{
    const struct kind *k = argc == 3 ? kind_of(argv[1]) : 0;

    if (!k)
        return 1;
    for (uint32_t i = 0; i <= MOST; i++)
        lengths[i] = 100 + (int32_t)i;
    start_counter();
    make_calls(k, number_of(argv[2]));
    print_counter();
    printf("refusal %u, position %u, %04X, %d\n", feeder_refusal(answer), feeder_position(answer), feeder_control_word(answer),
           (int)feeder_target(answer));
    return 0;
}
