/* The service panel of the amplifier, a display and a key: any object of the node by objects.h, beside whatever the master does. */
#ifndef SERVICE_H
#define SERVICE_H

#include <stdbool.h>
#include <stdint.h>

#include "node.h"

/* The key, behind a pass of the main loop: shows the device's name and halves the profile velocity. False: not now, try at a later pass. */
bool service_key(struct node *node, uint32_t now);

#endif
