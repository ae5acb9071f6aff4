/* The simulated CAN controller and its bus: acceptance filters, room for so many frames in a millisecond, and times in which it takes none. */
#ifndef BUS_H
#define BUS_H

#include <stdbool.h>
#include <stdint.h>

#include "cendurak.h"
#include "frame_queue.h"

/* At 1 Mbit/s and a few data bytes each, in each direction. */
enum { BUS_FRAMES = 15 /* a millisecond */ };

/* All zero is a controller that accepts nothing yet, on a free bus. */
struct bus {
    uint16_t filter[CENDURAK_MOST_SERVED];
    uint32_t filter_count;
    uint32_t now, sent;     /* frames of the node, in this millisecond */
    uint32_t busy_until;    /* ms: the bus is kept busy by others, and takes nothing of the node */
    uint32_t dead_until;    /* ms: nobody else is on the bus, which takes and brings nothing */
    bool is_off;            /* the controller took itself off the bus */
    uint32_t others;        /* frames for others, which the filters kept away */
};

/* A millisecond begins. */
void bus_step(struct bus *bus, uint32_t now);

/* Sets the acceptance filters. */
void bus_filter(struct bus *bus, const uint16_t *identifiers, uint32_t count);

/* A frame of somebody else: whether it comes to the node. */
bool bus_accepts(struct bus *bus, const struct node_frame *frame);

/* A frame of the node: whether the bus takes it. */
bool bus_takes(struct bus *bus);

#endif
