/*
 * A node in three buffers with guard bytes around each, its last answer, and the calls and requests that the tests make of it.
 */
#ifndef GUARDED_H
#define GUARDED_H

#include <string.h>

#include "cendurak.h"

enum { GUARD = 16, GUARD_BYTE = 0xA5, MOST_BYTES = 512 };

/* A buffer with guard bytes before and behind the bytes that are lent. */
struct buffer {
    uint8_t bytes[GUARD + MOST_BYTES + GUARD];
    uint32_t length;
};

/* What the node is lent, and its last answer. */
struct bench {
    struct buffer state, dict, out;
    uint32_t answer;
};

/* ---- buffers */

static inline uint8_t *lent(struct buffer *b)
{
    return b->bytes + GUARD;
}

static inline void fill(struct buffer *b, uint32_t length, uint8_t byte)
{
    memset(b->bytes, GUARD_BYTE, sizeof b->bytes);
    memset(lent(b), byte, length);
    b->length = length;
}

static inline int is_guarded(const struct buffer *b)
{
    for (uint32_t i = 0; i < GUARD; i++)
        if (b->bytes[i] != GUARD_BYTE)
            return 0;
    for (uint32_t i = GUARD + b->length; i < sizeof b->bytes; i++)
        if (b->bytes[i] != GUARD_BYTE)
            return 0;
    return 1;
}

static inline int are_guarded(const struct bench *b)
{
    return is_guarded(&b->state) && is_guarded(&b->dict) && is_guarded(&b->out);
}

static inline int is_same(const struct buffer *a, const struct buffer *b)
{
    return a->length == b->length && memcmp(a->bytes, b->bytes, sizeof a->bytes) == 0;
}

static inline int are_same(const struct bench *a, const struct bench *b)
{
    return is_same(&a->state, &b->state) && is_same(&a->dict, &b->dict) && is_same(&a->out, &b->out);
}

/* ---- calls */

static inline uint32_t power_up(struct bench *b, uint32_t n)
{
    return b->answer = cendurak_power_up(lent(&b->state), b->state.length, lent(&b->dict), b->dict.length, lent(&b->out), b->out.length, n);
}

static inline uint32_t frame(struct bench *b, uint32_t identifier, const uint8_t *data, uint32_t length)
{
    return b->answer = cendurak_frame(lent(&b->state), b->state.length, lent(&b->dict), b->dict.length, lent(&b->out), b->out.length,
                                      identifier, data, length);
}

static inline uint32_t event(struct bench *b, uint32_t number, const uint8_t *args, uint32_t length)
{
    return b->answer = cendurak_event(lent(&b->state), b->state.length, lent(&b->dict), b->dict.length, lent(&b->out), b->out.length,
                                      number, args, length);
}

static inline uint16_t status(struct bench *b)
{
    return cendurak_status_word(lent(&b->dict));
}

static inline uint32_t target_position(struct bench *b)
{
    return cendurak_word(lent(&b->dict) + CENDURAK_DICT_AT_TARGET_POSITION);
}

/* A fresh node of node-ID 5, with room in the output. */
static inline void fresh(struct bench *b)
{
    fill(&b->state, CENDURAK_STATE_LEN, 0);
    fill(&b->dict, CENDURAK_DICT_LEN, 0);
    fill(&b->out, CENDURAK_OUT_LEN, 0);
    power_up(b, 5);
}

/* An SDO request to node 5. */
static inline uint32_t sdo(struct bench *b, uint8_t command, uint32_t index, uint8_t subindex, uint32_t value)
{
    const uint8_t request[8] = {command, (uint8_t)index, (uint8_t)(index >> 8), subindex,
                                (uint8_t)value, (uint8_t)(value >> 8), (uint8_t)(value >> 16), (uint8_t)(value >> 24)};
    return frame(b, 0x605, request, 8);
}

static inline uint32_t control(struct bench *b, uint32_t word)
{
    return sdo(b, 0x2B, 0x6040, 0, word);
}

/* Whether frame i of the answer is that one. */
static inline int sent(struct bench *b, uint32_t i, uint16_t identifier, const uint8_t *data, uint8_t length)
{
    const uint8_t *out = lent(&b->out);
    return i < cendurak_frames(b->answer) && cendurak_identifier(out, i) == identifier && cendurak_length(out, i) == length
           && memcmp(cendurak_data(out, i), data, length) == 0;
}

/* The node in Switch on disabled with voltage, and on to Operation enabled. */
static inline void started(struct bench *b)
{
    const uint8_t on = 1;
    fresh(b);
    event(b, CENDURAK_STARTED, 0, 0);
    event(b, CENDURAK_VOLTAGE, &on, 1);
}

static inline void enabled(struct bench *b)
{
    started(b);
    control(b, 0x06);
    control(b, 0x0F);
}

static inline void nmt(struct bench *b, uint8_t command)
{
    const uint8_t data[2] = {command, 5};
    frame(b, 0, data, 2);
}

#endif
