#include "objects.h"

#include <string.h>

/*
 * The first byte of a request and of a reply (CiA 301). An expedited one tells in bits 3-2 how many of its four data bytes hold nothing. A segment
 * has its toggle in bit 4, tells in bits 3-1 how many of its seven bytes hold nothing, and in bit 0 that it is the last.
 */
enum {
    READ = 0x40,
    READ_SEGMENT = 0x60,
    WRITE = 0x23,
    IS_EXPEDITED = 0x02,
    IS_LAST = 0x01,
    TOGGLE = 0x10,
    ABORTED = 0x80
};

enum { EXPEDITED_ROOM = 4, SEGMENT_ROOM = 7, AT_DATA = 4 };

/* The abort codes of sizes that no expedited write has. */
enum { TOO_LONG = 0x06070012, TOO_SHORT = 0x06070013 };

/* One request and its reply. */
static uint32_t ask(struct node *node, const uint8_t *request, uint8_t *reply)
{
    switch (node_request(node, request, reply)) {
    case NODE_NO_REPLY: return OBJECT_NOT_SERVED;
    case NODE_NO_ROOM: return OBJECT_NO_ROOM;
    default: return reply[0] == ABORTED ? cendurak_word(reply + AT_DATA) : OBJECT_DONE;
    }
}

/* The request that begins an access. */
static uint32_t begin(struct node *node, uint32_t command, uint16_t index, uint8_t subindex, uint32_t data, uint8_t *reply)
{
    const uint8_t request[NODE_FRAME_ROOM] = {(uint8_t)command,     (uint8_t)index,        (uint8_t)(index >> 8),  subindex,
                                              (uint8_t)data, (uint8_t)(data >> 8), (uint8_t)(data >> 16), (uint8_t)(data >> 24)};

    return cendurak_transfer(node->state) == CENDURAK_TRANSFER_NONE ? ask(node, request, reply) : (uint32_t)OBJECT_BUSY;
}

static void append(struct object_value *value, const uint8_t *bytes, uint32_t count)
{
    if (count > OBJECT_MOST_BYTES - value->length)
        count = OBJECT_MOST_BYTES - value->length;
    memcpy(value->bytes + value->length, bytes, count);
    value->length += count;
}

/* All segments of a text, one after the other. */
static uint32_t read_segments(struct node *node, struct object_value *value)
{
    uint8_t request[NODE_FRAME_ROOM] = {READ_SEGMENT}, reply[NODE_FRAME_ROOM];
    uint32_t outcome;

    do {
        outcome = ask(node, request, reply);
        if (outcome != OBJECT_DONE)
            return outcome;
        append(value, reply + 1, SEGMENT_ROOM - (reply[0] >> 1 & 7u));
        request[0] ^= TOGGLE;
    } while ((reply[0] & IS_LAST) == 0);
    return OBJECT_DONE;
}

uint32_t object_read(struct node *node, uint16_t index, uint8_t subindex, struct object_value *value)
{
    struct object_value read = {.length = 0};
    uint8_t reply[NODE_FRAME_ROOM];
    uint32_t outcome = begin(node, READ, index, subindex, 0, reply);

    if (outcome == OBJECT_DONE && (reply[0] & IS_EXPEDITED) != 0)
        append(&read, reply + AT_DATA, EXPEDITED_ROOM - (reply[0] >> 2 & 3u));
    else if (outcome == OBJECT_DONE)
        outcome = read_segments(node, &read);
    if (outcome != OBJECT_DONE)
        return outcome;
    if (read.length <= EXPEDITED_ROOM)
        read.number = cendurak_word(read.bytes);
    *value = read;
    return OBJECT_DONE;
}

uint32_t object_write(struct node *node, uint16_t index, uint8_t subindex, uint32_t value, uint32_t size)
{
    uint8_t reply[NODE_FRAME_ROOM];

    if (size == 0)
        return TOO_SHORT;
    if (size > EXPEDITED_ROOM)
        return TOO_LONG;
    return begin(node, WRITE + 4u * (EXPEDITED_ROOM - size), index, subindex, value, reply);
}
