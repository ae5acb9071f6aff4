#include "outbox.h"

#include <string.h>

#include "cendurak.h"

/* The bits of an identifier that name the service. No PDO has those of an emergency, an SDO reply or a heartbeat. */
enum { SERVICE_BITS = 0x780 };

/* The first byte of a heartbeat is the NMT state, of a boot-up 0. */
static bool is_heartbeat(const struct node_frame *frame)
{
    return (frame->identifier & SERVICE_BITS) == CENDURAK_HEARTBEAT && frame->data[0] != 0;
}

static bool is_process_data(const struct node_frame *frame)
{
    uint32_t service = frame->identifier & SERVICE_BITS;

    return service != CENDURAK_EMERGENCY && service != CENDURAK_SDO_REPLY && service != CENDURAK_HEARTBEAT;
}

/* ---- the places: the first `in_order` ones, and behind them the latest */

static void put_in(struct outbox *outbox, uint32_t place, const struct node_frame *frame)
{
    memmove(&outbox->frames[place + 1], &outbox->frames[place], (outbox->count - place) * sizeof outbox->frames[0]);
    outbox->frames[place] = *frame;
    outbox->count++;
}

static void take_out(struct outbox *outbox, uint32_t place)
{
    outbox->count--;
    outbox->in_order -= place < outbox->in_order;
    memmove(&outbox->frames[place], &outbox->frames[place + 1], (outbox->count - place) * sizeof outbox->frames[0]);
}

/* The place where an older frame of the identifier waits; `count` where none does. */
static uint32_t place_of(const struct outbox *outbox, uint16_t identifier)
{
    uint32_t place = outbox->in_order;

    while (place < outbox->count && outbox->frames[place].identifier != identifier)
        place++;
    return place;
}

/* ---- putting */

static void put_in_order(struct outbox *outbox, const struct node_frame *frame)
{
    if (outbox_room(outbox) == 0) {
        outbox->lost++;
        return;
    }
    put_in(outbox, outbox->in_order, frame);
    outbox->in_order++;
}

static void put_latest(struct outbox *outbox, const struct node_frame *frame)
{
    uint32_t place = place_of(outbox, frame->identifier);

    if (place < outbox->count)
        outbox->frames[place] = *frame;
    else if (outbox->count - outbox->in_order < OUTBOX_LATEST)
        put_in(outbox, place, frame);
    else
        outbox->lost++;
}

void outbox_put(struct outbox *outbox, const struct node_frame *frame)
{
    if (is_process_data(frame) || is_heartbeat(frame))
        put_latest(outbox, frame);
    else
        put_in_order(outbox, frame);
}

/* ---- taking */

const struct node_frame *outbox_first(const struct outbox *outbox)
{
    return outbox->count == 0 ? 0 : &outbox->frames[0];
}

void outbox_drop_first(struct outbox *outbox)
{
    if (outbox->count != 0)
        take_out(outbox, 0);
}

void outbox_clear(struct outbox *outbox)
{
    outbox->count = outbox->in_order = 0;
}

void outbox_drop_process_data(struct outbox *outbox)
{
    for (uint32_t i = outbox->count; i-- > outbox->in_order;)
        if (is_process_data(&outbox->frames[i]))
            take_out(outbox, i);
}

uint32_t outbox_room(const struct outbox *outbox)
{
    return OUTBOX_IN_ORDER - outbox->in_order;
}
