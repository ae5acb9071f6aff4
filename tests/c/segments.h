/*
 * What the tests send of SDO by segments, and the replies and abort codes that they know, on a node of guarded.h.
 */
#ifndef SEGMENTS_H
#define SEGMENTS_H

#include "guarded.h"
#include "transfer.h"

enum { SEGMENT_ROOM = 7, TOGGLE_BIT = 0x10, LAST_BIT = 0x01 };
enum { DOWNLOAD_SEGMENT = 0x00, SEGMENT_TAKEN = 0x20, ABORT = 0x80 };
enum {
    TOGGLE_NOT_ALTERNATED = 0x05030000,
    NOT_KNOWN = 0x05040001,
    NO_WRITING = 0x06010002,
    NO_OBJECT = 0x06020000,
    NOT_MAPPABLE = 0x06040041,
    NOT_COMPATIBLE = 0x06040043,
    TOO_LONG = 0x06070012,
    TOO_SHORT = 0x06070013,
    NO_SUBINDEX = 0x06090011,
    BAD_VALUE = 0x06090030,
    NOT_NOW = 0x08000022
};

/* ---- requests */

/* A download's segment that carries so many bytes. Behind them stand some that it does not carry. */
static inline uint32_t send_segment(struct bench *b, uint8_t toggle, const uint8_t *bytes, uint32_t count, int is_last)
{
    uint8_t request[8];

    memset(request, 0xEE, sizeof request);
    request[0] = (uint8_t)(DOWNLOAD_SEGMENT + TOGGLE_BIT * toggle + 2 * (SEGMENT_ROOM - count) + (is_last ? LAST_BIT : 0));
    memcpy(request + 1, bytes, count);
    return frame(b, 0x605, request, 8);
}

/* ---- replies. An object is its index, low byte first, and subindex. */

static inline void make_abort(uint8_t *reply, const uint8_t *object, uint32_t code)
{
    reply[0] = ABORT;
    memcpy(reply + 1, object, 3);
    for (uint32_t i = 0; i < 4; i++)
        reply[4 + i] = (uint8_t)(code >> (8 * i));
}

/* The answer is this one frame. */
static inline int is_reply(struct bench *b, const uint8_t *reply)
{
    return b->answer == 1 && sent(b, 0, 0x585, reply, 8);
}

static inline int is_abort(struct bench *b, const uint8_t *object, uint32_t code)
{
    uint8_t reply[8];

    make_abort(reply, object, code);
    return is_reply(b, reply);
}

/* The reply, first of the answer's frames, is that to a segment taken with this toggle. */
static inline int is_taken(struct bench *b, uint8_t toggle)
{
    const uint8_t reply[8] = {(uint8_t)(SEGMENT_TAKEN + TOGGLE_BIT * toggle)};
    return sent(b, 0, 0x585, reply, 8);
}

/* The reply laid into the output, as the node lays it. */
static inline void lay_reply(struct bench *b, const uint8_t *reply)
{
    const uint8_t head[CENDURAK_FRAME_AT_DATA] = {0x85, 0x05, 8};

    memcpy(lent(&b->out), head, sizeof head);
    memcpy(lent(&b->out) + sizeof head, reply, 8);
}

static inline int is_idle(struct bench *b)
{
    static const struct transfer none;
    struct transfer now = transfer_of(lent(&b->state));
    return memcmp(&now, &none, sizeof now) == 0;
}

#endif
