#include "service.h"

#include <stdio.h>

#include "objects.h"

enum { DEVICE_NAME = 0x1008, DEVICE_TYPE = 0x1000, PROFILE_VELOCITY = 0x6081, VELOCITY_SIZE = 4 };

/* What the master might be in the middle of, or the bus too slow for, will be over soon. */
static bool is_for_later(uint32_t outcome)
{
    return outcome == OBJECT_BUSY || outcome == OBJECT_NO_ROOM;
}

/* Half the velocity, as long as the node serves it. */
static uint32_t halve_velocity(struct node *node, uint32_t now)
{
    struct object_value velocity;
    uint32_t outcome = object_read(node, PROFILE_VELOCITY, 0, &velocity);

    if (outcome == OBJECT_DONE)
        outcome = object_write(node, PROFILE_VELOCITY, 0, velocity.number / 2, VELOCITY_SIZE);
    if (outcome == OBJECT_DONE)
        printf("%7u ms  panel   the speed was %u, and is %u\n", now, velocity.number, velocity.number / 2);
    return outcome;
}

/* A constant is refused here as it is on the bus. */
static void try_constant(struct node *node, uint32_t now)
{
    printf("%7u ms  panel   a write of 1000h is refused with %08X\n", now, object_write(node, DEVICE_TYPE, 0, 0, 4));
}

bool service_key(struct node *node, uint32_t now)
{
    struct object_value name;
    uint32_t outcome = object_read(node, DEVICE_NAME, 0, &name);

    if (is_for_later(outcome))
        return false;
    if (outcome == OBJECT_DONE)
        printf("%7u ms  panel   %.*s\n", now, (int)name.length, (const char *)name.bytes);
    if (outcome == OBJECT_DONE)
        outcome = halve_velocity(node, now);
    if (outcome == OBJECT_DONE)
        try_constant(node, now);
    else
        printf("%7u ms  panel   not served: %08X\n", now, outcome);
    return true;
}
