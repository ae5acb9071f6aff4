/*
 * Any object of the node, for the firmware itself: a display, a parameter store, a service port. A read and a write go to the node as SDO requests
 * and are judged as those of the bus are, with the same abort codes; the replies stay here, and what else comes of a write goes to the bus.
 * Made to be lifted into a product; it needs node.h.
 */
#ifndef OBJECTS_H
#define OBJECTS_H

#include <stdint.h>

#include "node.h"

#ifdef __cplusplus
extern "C" {
#endif

/* What comes of an access; any other number is the abort code of SDO. */
enum object_outcome {
    OBJECT_DONE = 0,
    OBJECT_NOT_SERVED = 1, /* the node is Stopped by NMT, or behind a safe stop */
    OBJECT_NO_ROOM = 2,    /* the bus does not take what waits to be sent: try again at a later pass */
    OBJECT_BUSY = 3        /* a master's transfer by segments is running, which any other request would end: try again at a later pass. One that a
                              master left unfinished runs until its next request or a reset; who will not wait for that ends it by node_request */
};

enum { OBJECT_MOST_BYTES = 32 /* of the device name */ };

/* A value as it was read: its bytes, and where they are at most four the number that they make, low byte first. */
struct object_value {
    uint8_t bytes[OBJECT_MOST_BYTES];
    uint32_t length;
    uint32_t number;
};

/* Both in the main loop, behind node_run. Where one does not come to OBJECT_DONE nothing has changed, and the value is left as it was. */

uint32_t object_read(struct node *node, uint16_t index, uint8_t subindex, struct object_value *value);

/* The size is the object's, 1, 2 or 4 bytes: of the value the low ones. No object has another one; 0 is refused as too short, over 4 as too long. */
uint32_t object_write(struct node *node, uint16_t index, uint8_t subindex, uint32_t value, uint32_t size);

#ifdef __cplusplus
}
#endif

#endif
