/* One node's three buffers and the calls on them, as the measuring programs and the streams use them. */
#ifndef CALLS_H
#define CALLS_H

#include "cendurak.h"

/* How many bytes the buffers stand behind a boundary. A node needs no alignment, and a test may say 1 to try it. */
#ifndef PLACED
#define PLACED 0
#endif

/* At fixed places in a line of the cache, so that what a call costs does not hang on how the program was linked. */
static _Alignas(64) uint8_t state_room[PLACED + CENDURAK_STATE_LEN];
static _Alignas(64) uint8_t dict_room[PLACED + CENDURAK_DICT_LEN];
static _Alignas(64) uint8_t out_room[PLACED + CENDURAK_OUT_LEN];
static uint8_t *const state = state_room + PLACED, *const dict = dict_room + PLACED, *const out = out_room + PLACED;
static uint32_t answer;

static inline void power_up(uint32_t n)
{
    answer = cendurak_power_up(state, CENDURAK_STATE_LEN, dict, CENDURAK_DICT_LEN, out, CENDURAK_OUT_LEN, n);
}

static inline void frame(uint32_t identifier, const uint8_t *data, uint32_t length)
{
    answer = cendurak_frame(state, CENDURAK_STATE_LEN, dict, CENDURAK_DICT_LEN, out, CENDURAK_OUT_LEN, identifier, data, length);
}

static inline void event(uint32_t number, const uint8_t *args, uint32_t length)
{
    answer = cendurak_event(state, CENDURAK_STATE_LEN, dict, CENDURAK_DICT_LEN, out, CENDURAK_OUT_LEN, number, args, length);
}

/* It sends no frame: of its answer the refusal is kept as those of the others are. */
static inline void load(const uint8_t *file, uint32_t length)
{
    answer = 256 * cendurak_load_refusal(cendurak_load(state, CENDURAK_STATE_LEN, dict, CENDURAK_DICT_LEN, file, length));
}

#endif
