/* The bench program's records, out of standard input. */
#ifndef RECORDS_H
#define RECORDS_H

#include <unistd.h>

#include "calls.h"

enum { FRAME = 1, EVENT = 2, POWER_UP = 3, BAD_RECORD = 8 };

struct record {
    uint32_t kind, length;
    uint8_t payload[16];
};

/* What the next bytes of the input are. */
enum reading { RECORD, NO_RECORD, AT_END };

/* So many bytes of standard input; how many there were. */
static inline uint32_t take(uint8_t *to, uint32_t count)
{
    uint32_t got = 0;
    while (got < count) {
        long n = read(0, to + got, count - got);
        if (n <= 0)
            break;
        got += (uint32_t)n;
    }
    return got;
}

static inline int is_record(uint32_t kind, uint32_t length)
{
    if (kind == FRAME)
        return 2 <= length && length <= 16;
    if (kind == EVENT)
        return 1 <= length && length <= 16;
    return kind == POWER_UP && length == 1;
}

static inline enum reading read_head(struct record *record)
{
    uint8_t head[4] = {0};
    uint32_t got = take(head, 4);

    record->length = head[0] + 256u * head[1];
    record->kind = head[2] + 256u * head[3];
    return got == 4 ? RECORD : got == 0 ? AT_END : NO_RECORD;
}

/* What follows a head. */
static inline enum reading read_payload(struct record *record)
{
    if (!is_record(record->kind, record->length) || take(record->payload, record->length) < record->length)
        return NO_RECORD;
    return RECORD;
}

static inline enum reading read_record(struct record *record)
{
    enum reading reading = read_head(record);
    return reading == RECORD ? read_payload(record) : reading;
}

/* The call that a record asks for. Where nothing follows its head, a null pointer is handed in. */
static inline void call_record(const struct record *record)
{
    const uint8_t *payload = record->payload;

    if (record->kind == POWER_UP)
        power_up(payload[0]);
    else if (record->kind == EVENT)
        event(payload[0], record->length == 1 ? (const uint8_t *)0 : payload + 1, record->length - 1);
    else
        frame(payload[0] + 256u * payload[1], record->length == 2 ? (const uint8_t *)0 : payload + 2, record->length - 2);
}

#endif
