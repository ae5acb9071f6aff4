#include "bus.h"

#include <string.h>

void bus_step(struct bus *bus, uint32_t now)
{
    bus->now = now;
    bus->sent = 0;
}

void bus_filter(struct bus *bus, const uint16_t *identifiers, uint32_t count)
{
    memcpy(bus->filter, identifiers, count * sizeof identifiers[0]);
    bus->filter_count = count;
}

static bool is_in_filter(const struct bus *bus, uint16_t identifier)
{
    for (uint32_t i = 0; i < bus->filter_count; i++)
        if (bus->filter[i] == identifier)
            return true;
    return false;
}

static bool is_connected(const struct bus *bus)
{
    return !bus->is_off && bus->now >= bus->dead_until;
}

bool bus_accepts(struct bus *bus, const struct node_frame *frame)
{
    bool is_for_node = is_in_filter(bus, frame->identifier);

    if (!is_connected(bus))
        return false;
    bus->others += !is_for_node;
    return is_for_node;
}

bool bus_takes(struct bus *bus)
{
    if (!is_connected(bus) || bus->now < bus->busy_until || bus->sent == BUS_FRAMES)
        return false;
    bus->sent++;
    return true;
}
