// A product in C++ around the example firmware's glue, beside a struct can_frame of somebody else: that of <linux/can.h>, or one like it. It powers the
// node up and reads its device name; the status is 0 where that went well.
#ifdef HAS_LINUX_CAN
#include <linux/can.h>
#else
struct can_frame {
    unsigned can_id;
    unsigned char can_dlc, data[8];
};
#endif

#include "../../examples/firmware/configuration.h"
#include "../../examples/firmware/feeding.h"
#include "../../examples/firmware/objects.h"

static struct node node;
static struct feeding feeding;
static unsigned sent;

static void refused(uint32_t, const char *, uint32_t)
{
}

static void loaded(uint32_t, uint32_t, uint32_t)
{
}

static void nothing()
{
}

static void filter(const uint16_t *, uint32_t)
{
}

static bool transmit(const struct node_frame *frame)
{
    struct can_frame ours = can_frame();

    ours.can_id = frame->identifier;
    ours.can_dlc = frame->length;
    sent += ours.can_id == 0x705 && ours.can_dlc == 1;
    return true;
}

static const struct node_hooks hooks = {refused, loaded, nothing, nothing, nothing, filter, nothing, transmit};
static const struct node_fault faults[] = {{0x2310, 0x02}};

int main()
{
    const struct node_setup setup = {&hooks, faults, 1, {configuration, configuration_length}};
    struct node_inputs inputs = node_inputs();
    struct object_value name = object_value();

    node_init(&node, &setup);
    node_power_up(&node, 5);
    node_trip(&node, 0);
    node_tick(&node);
    node_run(&node, &inputs);
    feeding_run(&feeding, &node);
    bool is_read = object_read(&node, 0x1008, 0, &name) == OBJECT_DONE;
    return is_read && name.length == 19 && sent == 1 && node_command(&node).task == AXIS_STOP && feeder_start(0, 0) == FEEDER_ACCEPTED ? 0 : 1;
}
