/*
 * The amplifier's firmware, in a simulation: `firmware [SCRIPT]`, by default the script `moves`. Each turn of the loop is a millisecond. What
 * interrupts would do is done first, then comes one pass of the main loop, then the motor's motion.
 *
 * It prints what happened and when, and ends with status 0 where every check of the bus master held.
 */
#include <stdio.h>

#include "bus.h"
#include "configuration.h"
#include "feeding.h"
#include "labels.h"
#include "master.h"
#include "motor.h"
#include "node.h"
#include "service.h"

enum {
    SELF_TEST_ENDS = 20,  /* ms after the amplifier was switched on */
    VOLTAGE_COMES = 30,
    HELD_UP = 6,          /* ms that the main loop is away in the planted hold-up */
    STALLED = 200,        /* ms that the bus carries nothing of the node in the planted stall */
    DEAD = 1000,          /* ms that it carries nothing when it is dead */
    RECOVERY = 100,       /* ms from the bus-off to the bus again: the pause and the controller's own 128 times 11 bits */
    FLIPPED_BYTE = 0,     /* of the device type 1000h, a constant */
    LONGEST_RUN = 60000   /* ms; no script takes so long */
};

/* The faults of this amplifier. */
enum { FAULT_OVER_CURRENT, FAULT_OVER_TEMPERATURE, FAULTS };

static const struct node_fault faults[FAULTS] = {
    [FAULT_OVER_CURRENT] = {0x2310, 0x02},
    [FAULT_OVER_TEMPERATURE] = {0x4310, 0x08},
};

/* Receive PDO 3 by the node's defaults; and an identifier with a bit more than a frame can have. */
enum { TARGET_FRAME = 0x400 + NODE_ID, STRAY_FRAME = 0x800 };

static struct {
    uint32_t now, switched_on, busy_until, back_on_bus;
    uint32_t faults;       /* the levels of the fault lines */
    struct node node;
    struct bus bus;
    struct motor motor;
    struct axis_command command;
    struct master master;
    struct feeding feeding;
    struct labels labels;
    uint8_t drive;         /* the drive state that was last printed */
    uint16_t stay;         /* ticks inside the window, after the last pass */
} world;

/* ---- the account's lines of the amplifier */

static void log_refusal(uint32_t refusal, const char *call, uint32_t number)
{
    printf("%7u ms  node    refusal %u of %s %u\n", world.now, refusal, call, number);
}

static void log_load(uint32_t refusal, uint32_t entry, uint32_t abort_code)
{
    if (refusal == CENDURAK_ACCEPTED)
        printf("%7u ms  node    configuration loaded\n", world.now);
    else
        printf("%7u ms  node    configuration refused with %u: entry %u, abort code %08X; the defaults stay\n", world.now, refusal, entry,
               abort_code);
}

static void stop_safely(void)
{
    printf("%7u ms  node    safe stop: output stage off at position %d, velocity %d\n", world.now, motor_position(&world.motor),
           motor_velocity(&world.motor));
}

static void note_reached(void)
{
    labels_reached(&world.labels, world.now);
}

static void recover_bus(void)
{
    printf("%7u ms  node    off the bus: recovery started\n", world.now);
    world.back_on_bus = world.now + RECOVERY;
}

/* ---- the CAN controller */

static void set_filter(const uint16_t *identifiers, uint32_t count)
{
    bus_filter(&world.bus, identifiers, count);
}

static bool send(const struct node_frame *frame)
{
    bool is_sent = bus_takes(&world.bus);

    if (is_sent)
        master_hear(&world.master, frame);
    return is_sent;
}

/* The simulated bus has taken what it was given: no mailbox holds anything. */
static void withdraw(void)
{
}

static const struct node_hooks hooks = {
    .refused = log_refusal,
    .loaded = log_load,
    .reached = note_reached,
    .stop_safely = stop_safely,
    .bus_off = recover_bus,
    .filter = set_filter,
    .withdraw = withdraw,
    .transmit = send,
};

/* ---- the account of a pass */

static void log_drive(void)
{
    static const char *const names[] = {"Not ready",         "Switch on disabled", "Ready to switch on",    "Switched on",
                                        "Operation enabled", "Quick stop active",  "Fault reaction active", "Fault"};
    uint8_t drive = cendurak_drive(world.node.state);

    if (world.node.is_stopped)
        return;
    if (drive != world.drive)
        printf("%7u ms  drive   %s, position %d\n", world.now, names[drive], motor_position(&world.motor));
    world.drive = drive;
}

/* The axis left the window at speed, before target reached was shown. */
static void log_glide(void)
{
    uint16_t stay = cendurak_stay(world.node.state);

    if (!world.node.is_stopped && stay == 0 && world.stay != 0 && world.stay < cendurak_window_time(world.node.dict)
        && motor_velocity(&world.motor) != 0)
        printf("%7u ms  axis    glided out of the window after %u ms, position %d, velocity %d\n", world.now, world.stay,
               motor_position(&world.motor), motor_velocity(&world.motor));
    world.stay = stay;
}

/* ---- the planted troubles */

static void power_cycle(void)
{
    world.switched_on = world.now;
    world.busy_until = world.now;
    node_power_up(&world.node, NODE_ID);
}

static void hand_on_stray(void)
{
    const struct node_frame stray = {.identifier = STRAY_FRAME};

    node_receive(&world.node, &stray);
}

static void go_off_bus(void)
{
    world.bus.is_off = true;
    node_bus_off(&world.node);
}

static void carry_out(enum trouble trouble)
{
    switch (trouble) {
    case TROUBLE_TRIP: world.faults |= 1u << FAULT_OVER_CURRENT; node_trip(&world.node, FAULT_OVER_CURRENT); break;
    case TROUBLE_HEAT: world.faults |= 1u << FAULT_OVER_TEMPERATURE; break;
    case TROUBLE_CURE: world.faults = 0; break;
    case TROUBLE_HOLD_UP: world.busy_until = world.now + HELD_UP; break;
    case TROUBLE_STALL: world.bus.busy_until = world.now + STALLED; break;
    case TROUBLE_DEAD_BUS: world.bus.dead_until = world.now + DEAD; break;
    case TROUBLE_BUS_OFF: go_off_bus(); break;
    case TROUBLE_FLIP: world.node.dict[FLIPPED_BYTE] ^= 0x01; break;
    case TROUBLE_JAM: world.motor.is_jammed = true; break;
    case TROUBLE_STRAY: hand_on_stray(); break;
    case TROUBLE_POWER_CYCLE: power_cycle(); break;
    default: break;
    }
}

/* ---- what interrupts do */

static void receive_interrupts(void)
{
    struct node_frame frame;

    for (uint32_t i = 0; i < BUS_FRAMES && frame_queue_take(&world.master.to_bus, &frame); i++)
        if (bus_accepts(&world.bus, &frame))
            node_receive(&world.node, &frame);
}

/* The controller is back on the bus. */
static void error_interrupt(void)
{
    if (world.bus.is_off && world.back_on_bus == world.now) {
        world.bus.is_off = false;
        node_bus_on(&world.node);
    }
}

/* ---- the main loop */

static struct node_inputs measure(void)
{
    struct node_inputs inputs = {
        .position = motor_position(&world.motor),
        .velocity = motor_velocity(&world.motor),
        .faults = world.faults,
        .is_self_tested = world.now - world.switched_on >= SELF_TEST_ENDS,
        .has_voltage = world.now - world.switched_on >= VOLTAGE_COMES,
        .is_at_standstill = motor_is_at_standstill(&world.motor),
        .is_at_target = world.command.task == AXIS_MOVE && motor_is_at(&world.motor, world.command.target),
    };
    return inputs;
}

/* The operator's start key: the master hears what came of it. */
static void start_feeding(void)
{
    const struct label_list *list = world.master.order;
    enum feeding_start outcome = feeding_start(&world.feeding, &world.node, TARGET_FRAME, list->lengths, list->count);

    if (outcome == FEEDING_STARTED)
        labels_begin(&world.labels, list);
    master_hear_start(&world.master, outcome);
    world.master.order = 0;
}

/* The labels, where a list was started. What is between the two looks is the feeder's doing. */
static void feed(void)
{
    bool has_stepped;

    if (world.feeding.stage != FEEDING_RUNNING)
        return;
    if (!labels_before(&world.labels, &world.node))
        printf("%7u ms  feeder  somebody else changed the set-points that are held\n", world.now);
    has_stepped = feeding_run(&world.feeding, &world.node);
    labels_behind(&world.labels, &world.node, world.now, has_stepped);
    if (world.feeding.stage != FEEDING_RUNNING)
        printf("%7u ms  feeder  broken off behind %u of %u labels: %s\n", world.now, world.feeding.position, (uint32_t)world.feeding.count,
               world.feeding.stage == FEEDING_OVERWRITTEN ? "somebody else wrote 6040h or 607Ah" : "the drive is not enabled in mode 1");
}

/* In a product: for (;;) main_loop_pass(); with the axis command handed to the position controller. */
static void main_loop_pass(void)
{
    struct node_inputs inputs = measure();

    node_run(&world.node, &inputs);
    if (world.master.is_key_pressed)
        world.master.is_key_pressed = !service_key(&world.node, world.now);
    if (world.master.order != 0)
        start_feeding();
    feed();
    world.command = node_command(&world.node);
    log_drive();
    log_glide();
}

static void millisecond(void)
{
    world.now++;
    bus_step(&world.bus, world.now);
    node_tick(&world.node);
    error_interrupt();
    receive_interrupts();
    node_transmit(&world.node);
    if (world.now >= world.busy_until)
        main_loop_pass();
    motor_step(&world.motor, &world.command);
}

static void print_counts(void)
{
    const struct node *node = &world.node;
    uint32_t refused = 0;

    for (uint32_t i = 1; i < NODE_REFUSALS; i++)
        refused += node->refused[i];
    printf("%u calls accepted, %u refused; frames lost: %u in, %u out\n", node->refused[0], refused, frame_queue_lost(&node->received),
           node->outbox.lost);
    if (world.bus.others != 0)
        printf("%u frames for others, which the filters kept away\n", world.bus.others);
    if (world.labels.list.count != 0)
        printf("%u answers of the feeder handed in again\n", world.feeding.handed_again);
    printf("%u checks held, %u failed\n", world.master.held, world.master.failed);
}

/* What the amplifier finds in its flash. */
static struct node_file stored_file(bool has_swapped_limits)
{
    const struct node_file right = {configuration, configuration_length}, wrong = {swapped, swapped_length};

    return has_swapped_limits ? wrong : right;
}

int main(int argc, char **argv)
{
    const char *name = argc > 1 ? argv[1] : "moves";
    struct node_setup setup = {.hooks = &hooks, .faults = faults, .fault_count = FAULTS};

    world.master.script = script_named(name);
    if (world.master.script == 0) {
        printf("no script '%s': moves, flood, others, dead, busoff, service, damage, stall, swapped, feeder, halted, meddling, jam\n", name);
        return 2;
    }
    setup.configuration = stored_file(world.master.script->has_swapped_limits);
    node_init(&world.node, &setup);
    world.master.labels = &world.labels;
    node_power_up(&world.node, NODE_ID);
    while (master_run(&world.master, world.now) && world.now < LONGEST_RUN) {
        carry_out(world.master.trouble);
        world.master.trouble = TROUBLE_NONE;
        millisecond();
    }
    labels_print(&world.labels);
    print_counts();
    return world.master.failed != 0 || world.now >= LONGEST_RUN;
}
