#include "amplifier.h"

#include <stdarg.h>
#include <stdio.h>

#include "motor.h"

enum {
    SELF_TEST_ENDS = 20, /* ms after the amplifier was switched on */
    VOLTAGE_COMES = 30
};

/* The one fault of this amplifier: the kernel dropped frames, one of which may have been a stop. */
enum { FAULT_DROPPED, FAULTS };

static const struct node_fault faults[FAULTS] = {[FAULT_DROPPED] = {ERROR_CAN_OVERRUN, ERROR_REGISTER_COMMUNICATION}};

static struct {
    uint32_t now; /* ms since it was switched on */
    struct can_socket *bus;
    struct node node;
    struct motor motor;
    struct axis_command command;
    bool is_quiet;
    bool is_off_bus;
    bool is_catching_up;
    uint8_t nmt, drive; /* the states that were last told */
} world;

/* ---- the account */

__attribute__((format(printf, 2, 3))) static void tell(const char *who, const char *format, ...)
{
    va_list values;

    if (world.is_quiet)
        return;
    va_start(values, format);
    printf("%7u ms  %-6s  ", world.now, who);
    vprintf(format, values);
    printf("\n");
    va_end(values);
}

static void tell_refusal(uint32_t refusal, const char *call, uint32_t number)
{
    tell("node", "refusal %u of %s %u", refusal, call, number);
}

static void tell_load(uint32_t refusal, uint32_t entry, uint32_t abort_code)
{
    if (refusal == CENDURAK_ACCEPTED)
        tell("node", "configuration loaded");
    else
        tell("node", "configuration refused with %u: entry %u, abort code %08X; the defaults stay (tools/dcf try tells it in words)", refusal, entry,
             abort_code);
}

static void tell_reached(void)
{
    tell("axis", "set-point reached, position %d", motor_position(&world.motor));
}

static void stop_safely(void)
{
    tell("node", "safe stop: output stage off at position %d; the node is silent until the program is started again", motor_position(&world.motor));
}

/* An interface recovers by its own settings (restart-ms), or by the command of somebody who may give it. */
static void tell_bus_off(void)
{
    tell("bus", "off: nothing is sent until it is restarted");
}

static void tell_states(void)
{
    static const char *const nmt_names[] = {"Pre-operational", "Operational", "Stopped"};
    static const char *const drive_names[] = {"Not ready",         "Switch on disabled", "Ready to switch on",    "Switched on",
                                              "Operation enabled", "Quick stop active",  "Fault reaction active", "Fault"};
    uint8_t nmt = cendurak_nmt(world.node.state), drive = cendurak_drive(world.node.state);

    if (world.node.is_stopped)
        return;
    if (nmt != world.nmt)
        tell("node", "%s", nmt_names[nmt]);
    if (drive != world.drive)
        tell("drive", "%s, position %d", drive_names[drive], motor_position(&world.motor));
    world.nmt = nmt;
    world.drive = drive;
}

void amplifier_print_counts(void)
{
    const struct node *node = &world.node;
    uint32_t refused = 0;

    for (uint32_t i = 1; i < NODE_REFUSALS; i++)
        refused += node->refused[i];
    tell("node", "ended: %u calls accepted, %u refused; frames lost: %u in, %u out", node->refused[0], refused,
         frame_queue_lost(&node->received) + world.bus->dropped, node->outbox.lost);
}

/* ---- the bus */

static void set_filter(const uint16_t *identifiers, uint32_t count)
{
    can_socket_filter(world.bus, identifiers, count);
}

static bool is_boot_up(const struct node_frame *frame)
{
    return frame->identifier == CENDURAK_HEARTBEAT + cendurak_node_id(world.node.state) && frame->data[0] == 0;
}

/* Off the bus the kernel may take frames and drop them: they wait here. */
static bool transmit(const struct node_frame *frame)
{
    bool is_sent = !world.is_off_bus && !world.is_catching_up && world.bus->failed_call == 0 && can_socket_write(world.bus, frame);

    if (is_sent && is_boot_up(frame))
        tell("node", "boot-up as node %u on %s", cendurak_node_id(world.node.state), world.bus->name);
    return is_sent;
}

/* What the kernel has taken it does not give back. */
static void withdraw(void)
{
}

static const struct node_hooks hooks = {
    .refused = tell_refusal,
    .loaded = tell_load,
    .reached = tell_reached,
    .stop_safely = stop_safely,
    .bus_off = tell_bus_off,
    .filter = set_filter,
    .withdraw = withdraw,
    .transmit = transmit,
};

uint32_t amplifier_room(void)
{
    return frame_queue_room(&world.node.received);
}

void amplifier_receive(const struct node_frame *frame)
{
    node_receive(&world.node, frame);
}

void amplifier_tell_dropped(void)
{
    tell("bus", "frames lost: %u so far", world.bus->dropped);
    node_trip(&world.node, FAULT_DROPPED);
}

void amplifier_tell_bus(bool is_on)
{
    if (is_on && world.is_off_bus)
        tell("bus", "on again");
    world.is_off_bus = !is_on;
    if (is_on)
        node_bus_on(&world.node);
    else
        node_bus_off(&world.node);
}

/* ---- the main loop */

static struct node_inputs measure(void)
{
    struct node_inputs inputs = {
        .position = motor_position(&world.motor),
        .velocity = motor_velocity(&world.motor),
        .is_self_tested = world.now >= SELF_TEST_ENDS,
        .has_voltage = world.now >= VOLTAGE_COMES,
        .is_at_standstill = motor_is_at_standstill(&world.motor),
        .is_at_target = world.command.task == AXIS_MOVE && motor_is_at(&world.motor, world.command.target),
    };
    return inputs;
}

void amplifier_pass(void)
{
    struct node_inputs inputs = measure();

    node_run(&world.node, &inputs);
    world.command = node_command(&world.node);
    tell_states();
}

void amplifier_millisecond(bool is_last)
{
    world.now++;
    world.is_catching_up = !is_last;
    node_tick(&world.node);
    amplifier_pass();
    motor_step(&world.motor, &world.command);
}

bool amplifier_switch_on(const struct amplifier_setup *setup)
{
    struct node_setup node_setup = {.hooks = &hooks, .faults = faults, .fault_count = FAULTS, .configuration = setup->configuration};

    world.bus = setup->bus;
    world.is_quiet = setup->is_quiet;
    node_init(&world.node, &node_setup);
    return node_power_up(&world.node, setup->node_id);
}
