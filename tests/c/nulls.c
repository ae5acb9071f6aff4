/*
 * Null pointers with length 0, as the header allows, in every place and in all of them: nothing is read or written through them, the answer
 * is the one for a length of 0, and a refused call leaves the other buffers. A machine that stops on any access there makes the test sharp:
 * x86-64's first page is not there, and on the emulated controller tests/controller/board.c forbids it.
 */
#include <stdio.h>
#include <string.h>

#include "cendurak.h"
#include "checks.h"

enum { STATE_IS_NULL = 1, DICT_IS_NULL = 2, OUT_IS_NULL = 4, DATA_IS_NULL = 8, WAYS = 16 };

struct buffers {
    uint8_t state[CENDURAK_STATE_LEN], dict[CENDURAK_DICT_LEN], out[CENDURAK_OUT_LEN];
};

static struct buffers lent, before;

static uint8_t *or_null(uint8_t *bytes, int is_null)
{
    return is_null ? 0 : bytes;
}

static uint64_t or_none(uint64_t length, int is_null)
{
    return is_null ? 0 : length;
}

#define STATE(nulls) or_null(lent.state, (nulls) & STATE_IS_NULL), or_none(sizeof lent.state, (nulls) & STATE_IS_NULL)
#define DICT(nulls) or_null(lent.dict, (nulls) & DICT_IS_NULL), or_none(sizeof lent.dict, (nulls) & DICT_IS_NULL)
#define OUT(nulls) or_null(lent.out, (nulls) & OUT_IS_NULL), or_none(sizeof lent.out, (nulls) & OUT_IS_NULL)

/* The lowest refusal that holds of the buffers; the data's own where the buffers are right. */
static uint32_t refusal_of(uint32_t nulls, uint32_t of_data)
{
    if (nulls & DICT_IS_NULL)
        return CENDURAK_BAD_DICT_LEN;
    if (nulls & OUT_IS_NULL)
        return CENDURAK_BAD_OUT_LEN;
    return nulls & STATE_IS_NULL ? CENDURAK_NOT_SOUND : of_data;
}

static void answered(uint32_t answer, uint32_t refusal, const char *name)
{
    check(cendurak_refusal(answer) == refusal, name);
    if (refusal != CENDURAK_ACCEPTED)
        check(cendurak_frames(answer) == 0 && memcmp(&lent, &before, sizeof lent) == 0, name);
}

/* Of a load, which is lent no output; a file of no entries, or none. */
static void load(uint32_t nulls)
{
    static uint8_t no_entries[4];
    uint64_t answer = cendurak_load(STATE(nulls), DICT(nulls), or_null(no_entries, nulls & DATA_IS_NULL), or_none(4, nulls & DATA_IS_NULL));
    uint32_t refusal = refusal_of(nulls & ~(uint32_t)OUT_IS_NULL, nulls & DATA_IS_NULL ? CENDURAK_FILE_TOO_SHORT : CENDURAK_ACCEPTED);

    check(cendurak_load_refusal(answer) == refusal, "load");
    check(cendurak_load_entry(answer) == 0 && cendurak_load_abort_code(answer) == 0 && memcmp(&lent, &before, sizeof lent) == 0, "load");
}

static void fresh(void)
{
    cendurak_power_up(STATE(0), DICT(0), OUT(0), 5);
    before = lent;
}

/* Data are a voltage flag, of one byte: as an event they are needed, and a frame for others has them or not. */
static void calls(uint32_t nulls)
{
    static uint8_t data[1] = {1};
    uint8_t *bytes = or_null(data, nulls & DATA_IS_NULL);
    uint64_t length = or_none(sizeof data, nulls & DATA_IS_NULL);

    fresh();
    answered(cendurak_power_up(STATE(nulls), DICT(nulls), OUT(nulls), 5), refusal_of(nulls, CENDURAK_ACCEPTED), "power-up");
    fresh();
    answered(cendurak_frame(STATE(nulls), DICT(nulls), OUT(nulls), 0x7FF, bytes, length), refusal_of(nulls, CENDURAK_ACCEPTED), "frame");
    fresh();
    answered(cendurak_event(STATE(nulls), DICT(nulls), OUT(nulls), CENDURAK_VOLTAGE, bytes, length),
             refusal_of(nulls, nulls & DATA_IS_NULL ? CENDURAK_BAD_EVENT : CENDURAK_ACCEPTED), "event");
    fresh();
    load(nulls);
}

int main(void)
{
    for (uint32_t nulls = 0; nulls < WAYS; nulls++)
        calls(nulls);
    fresh();
    answered(cendurak_event(STATE(0), DICT(0), OUT(0), CENDURAK_TICK, 0, 0), CENDURAK_ACCEPTED, "tick");
    printf("%u passed, %u failed\n", passed, failed);
    return failed != 0;
}
