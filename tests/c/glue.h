/*
 * The example firmware's glue around a real node, number 5, on a bus that records what happens: the frames that it took, and which hooks were called in
 * which order. Also what an amplifier measures, and what a master sends.
 */
#ifndef GLUE_H
#define GLUE_H

#include <string.h>

#include "../../examples/firmware/node.h"
#include "checks.h"

enum { NODE = 5, MOST_HEARD = 4096, MOST_CALLS = 255, FOR_EVER = 0x7FFFFFFF };

/* Identifiers of node 5. */
enum {
    EMERGENCY = 0x085,
    TPDO_1 = 0x185,
    TPDO_2 = 0x285,
    TPDO_3 = 0x385,
    TPDO_4 = 0x485,
    RPDO_1 = 0x205,
    RPDO_3 = 0x405,
    SDO_REPLY = 0x585,
    SDO_REQUEST = 0x605,
    HEARTBEAT = 0x705
};

enum { START = 0x01, STOP = 0x02, PRE_OPERATIONAL = 0x80, RESET_NODE = 0x81, RESET_COMMUNICATION = 0x82 };

static struct node node;
static struct node_inputs inputs;

static struct {
    struct node_frame heard[MOST_HEARD]; /* what the bus took */
    uint32_t count;
    uint32_t takes;                      /* so many frames more */
    char calls[MOST_CALLS + 1];          /* the hooks called: refused, loaded, stop_safely, bus off, filter, withdraw, transmit (a frame taken) */
    uint32_t call_count;
    uint16_t filter[CENDURAK_MOST_SERVED];
    uint32_t filter_count;
} bus;

/* ---- the hooks */

static void note(char call)
{
    if (bus.call_count < MOST_CALLS)
        bus.calls[bus.call_count++] = call;
}

static void note_refused(uint32_t refusal, const char *call, uint32_t number)
{
    (void)refusal, (void)call, (void)number;
    note('r');
}

static void note_loaded(uint32_t refusal, uint32_t entry, uint32_t abort_code)
{
    (void)refusal, (void)entry, (void)abort_code;
    note('l');
}

static void note_reached(void)
{
    note('.');
}

static void note_stop(void)
{
    note('s');
}

static void note_bus_off(void)
{
    note('b');
}

static void note_filter(const uint16_t *identifiers, uint32_t count)
{
    memcpy(bus.filter, identifiers, count * sizeof identifiers[0]);
    bus.filter_count = count;
    note('f');
}

static void note_withdraw(void)
{
    note('w');
}

static bool hear_frame(const struct node_frame *frame)
{
    if (bus.takes == 0 || bus.count == MOST_HEARD)
        return false;
    bus.takes--;
    bus.heard[bus.count++] = *frame;
    note('t');
    return true;
}

static const struct node_hooks hooks = {
    .refused = note_refused,
    .loaded = note_loaded,
    .reached = note_reached,
    .stop_safely = note_stop,
    .bus_off = note_bus_off,
    .filter = note_filter,
    .withdraw = note_withdraw,
    .transmit = hear_frame,
};

/* ---- the amplifier */

static const struct node_fault faults[] = {{0x2310, 0x02}, {0x4310, 0x08}, {0x3210, 0x04}, {0, 0x20}};
enum { FAULTS = sizeof faults / sizeof faults[0] };

/* All that was heard or noted so far is forgotten. */
static void forget(void)
{
    bus.count = bus.call_count = 0;
    memset(bus.calls, 0, sizeof bus.calls);
}

/* Powered up, on a bus that takes everything; with a file, where its length is not 0. */
static void switch_on(const uint8_t *file, uint32_t length)
{
    const struct node_setup setup = {.hooks = &hooks, .faults = faults, .fault_count = FAULTS, .configuration = {file, length}};

    memset(&node, 0, sizeof node);
    memset(&bus, 0, sizeof bus);
    memset(&inputs, 0, sizeof inputs);
    inputs.is_self_tested = inputs.has_voltage = inputs.is_at_standstill = true;
    bus.takes = FOR_EVER;
    node_init(&node, &setup);
    node_power_up(&node, NODE);
}

/* A millisecond and a pass of the main loop. */
static void pass(void)
{
    node_tick(&node);
    node_run(&node, &inputs);
}

static inline void pass_for(uint32_t ms)
{
    for (uint32_t i = 0; i < ms; i++)
        pass();
}

/* ---- the master. What it sends is taken at the next pass. */

static void receive(uint16_t identifier, uint8_t length, uint32_t low, uint32_t high)
{
    struct node_frame frame = {.identifier = identifier, .length = length};

    for (uint32_t i = 0; i < 4; i++) {
        frame.data[i] = (uint8_t)(low >> (8 * i));
        frame.data[4 + i] = (uint8_t)(high >> (8 * i));
    }
    node_receive(&node, &frame);
}

static inline void nmt(uint32_t command)
{
    receive(0, 2, command + 256 * NODE, 0);
}

static inline void read_object(uint32_t index, uint32_t subindex)
{
    receive(SDO_REQUEST, 8, 0x40 + (index << 8) + (subindex << 24), 0);
}

static inline void write_object(uint32_t index, uint32_t subindex, uint32_t size, uint32_t value)
{
    receive(SDO_REQUEST, 8, 0x23 + 4 * (4 - size) + (index << 8) + (subindex << 24), value);
}

/* Ready for anything: Operational, with the drive at Switch on disabled. */
static inline void start(void)
{
    switch_on(0, 0);
    pass();
    nmt(START);
    pass();
    forget();
}

/* Enabled in mode 1, besides. */
static inline void enable(void)
{
    start();
    write_object(0x6060, 0, 1, 1);
    receive(RPDO_1, 2, 0x06, 0);
    receive(RPDO_1, 2, 0x07, 0);
    receive(RPDO_1, 2, 0x0F, 0);
    pass();
    forget();
}

/* ---- what was heard */

/* Frame i is this one; of its data as many bytes are compared as it has. */
static bool is_heard(uint32_t i, uint16_t identifier, uint8_t length, const uint8_t *data)
{
    return i < bus.count && bus.heard[i].identifier == identifier && bus.heard[i].length == length && memcmp(bus.heard[i].data, data, length) == 0;
}

static inline bool is_emergency(uint32_t i, uint32_t code, uint8_t error_register)
{
    const uint8_t data[8] = {(uint8_t)code, (uint8_t)(code >> 8), error_register};

    return is_heard(i, EMERGENCY, 8, data);
}

static inline bool is_boot_up(uint32_t i)
{
    const uint8_t zero = 0;

    return is_heard(i, HEARTBEAT, 1, &zero);
}

static inline uint32_t heard_of(uint16_t identifier)
{
    uint32_t count = 0;

    for (uint32_t i = 0; i < bus.count; i++)
        count += bus.heard[i].identifier == identifier;
    return count;
}

#endif
