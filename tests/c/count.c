/*
 * One kind of call (kinds.h), made so many times on each of four stacks: `count KIND TIMES`. The stacks start 0, 16, 32 and 48 bytes under a
 * boundary of 4096, for the C library's copies take more or fewer instructions by how they are aligned. The instructions of a call are the
 * difference between two runs, divided by four times the difference of the times.
 */
#include <stdio.h>

#include "counter.h"
#include "digits.h"
#include "kinds.h"
#include "own_stack.h"

enum { STACKS = 4, STACK_STEP = 16 };

static const char *kind;
static uint32_t times;

static void make_calls(void)
{
    prepare(kind);
    for (uint32_t i = 0; i < times; i++)
        call(kind, i);
}

int main(int argc, char **argv)
{
    if (argc != 3)
        return 1;
    kind = argv[1];
    times = number_of(argv[2]);
    start_counter();
    for (uint32_t i = 0; i < STACKS; i++)
        on_own_stack(make_calls, i * STACK_STEP);
    print_counter();
    if (!is_mapped)
        printf("a map was refused\n");
    printf("%u frames, refusal %u\n", cendurak_frames(answer), cendurak_refusal(answer));
    return !is_mapped;
}
