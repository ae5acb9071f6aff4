/*
 * The frames that wait to be sent, for a bus that may take none for a while. What a master has to get in any case waits in order, and is sent first:
 * SDO replies, emergencies, the boot-up. Of what only counts as it is now, process data and heartbeats, the latest waits: a newer frame of the same
 * identifier takes the place of the older one, and with it its turn. So on a bus that is too slow for all of them each identifier comes round.
 *
 * However long the bus is silent, the first frames behind it are the emergencies, then one heartbeat and the present process data.
 *
 * No lock of its own: one at a time (node.c sees to that).
 */
#ifndef OUTBOX_H
#define OUTBOX_H

#include <stdbool.h>
#include <stdint.h>

#include "frame_queue.h"

#ifdef __cplusplus
extern "C" {
#endif

enum {
    OUTBOX_IN_ORDER = 32,                      /* SDO replies, emergencies and boot-ups that can wait */
    OUTBOX_LATEST = 5,                         /* four transmit PDOs and the heartbeat: for these there is always a place */
    OUTBOX_PLACES = OUTBOX_IN_ORDER + OUTBOX_LATEST
};

/* All zero is an empty one. */
struct outbox {
    struct node_frame frames[OUTBOX_PLACES]; /* the first one is the next to be sent */
    uint32_t count;                          /* that wait */
    uint32_t in_order;                       /* of these, the first ones, which no newer frame replaces */
    uint32_t lost;                           /* frames that found no place, since the start */
};

/* Puts a frame behind those of its kind, or in place of an older one. One that has to be kept in order and finds no place is lost, and counted. */
void outbox_put(struct outbox *outbox, const struct node_frame *frame);

/* The next frame to be sent; 0: none waits. */
const struct node_frame *outbox_first(const struct outbox *outbox);

/* Forgets it, since it is sent. */
void outbox_drop_first(struct outbox *outbox);

/* Forgets all frames; forgets process data. */
void outbox_clear(struct outbox *outbox);
void outbox_drop_process_data(struct outbox *outbox);

/* How many frames that are kept in order find a place. */
uint32_t outbox_room(const struct outbox *outbox);

#ifdef __cplusplus
}
#endif

#endif
