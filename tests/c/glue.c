/*
 * Tests of the example firmware's glue (examples/firmware/node.c, outbox.c, frame_queue.c) around a real node: what waits for the bus and in which
 * order, what the node is told of faults and of the bus, frames as they come, boot-ups, and the acceptance filters.
 */
#include <stdio.h>

#include "glue.h"

/* ---- a bus that takes nothing for a while */

/* The process data that the node's own dictionary makes, by the default mapping. */
static bool has_present_data(const struct node_frame *frame)
{
    const uint8_t *status = node.dict + CENDURAK_DICT_AT_STATUS_WORD, *rest = node.dict;

    switch (frame->identifier) {
    case TPDO_2: rest += CENDURAK_DICT_AT_MODE_DISPLAY; break;
    case TPDO_3: rest += CENDURAK_DICT_AT_POSITION; break;
    case TPDO_4: rest += CENDURAK_DICT_AT_VELOCITY; break;
    default: break;
    }
    return frame->length >= 2 && memcmp(frame->data, status, 2) == 0 && memcmp(frame->data + 2, rest, frame->length - 2u) == 0;
}

static bool is_process_data(uint16_t identifier)
{
    return identifier == TPDO_1 || identifier == TPDO_2 || identifier == TPDO_3 || identifier == TPDO_4;
}

static uint32_t old_data(void)
{
    uint32_t old = 0;

    for (uint32_t i = 0; i < bus.count; i++)
        old += is_process_data(bus.heard[i].identifier) && !has_present_data(&bus.heard[i]);
    return old;
}

static void move_on(uint32_t ms)
{
    for (uint32_t i = 0; i < ms; i++) {
        inputs.position += 3;
        inputs.velocity ^= 1;
        pass();
    }
}

static void dead_bus(void)
{
    const uint8_t operational = 0x05;

    enable();
    write_object(0x1017, 0, 2, 20);
    pass();
    forget();
    inputs.is_at_standstill = false;
    bus.takes = 0;
    move_on(900);
    inputs.faults = 1;
    move_on(50);
    inputs.is_at_standstill = true;
    move_on(50);
    bus.takes = FOR_EVER;
    node_transmit(&node);
    check(is_emergency(0, 0x2310, 0x03), "a dead bus: the emergency is the first frame behind it");
    check(bus.count == 6 && heard_of(EMERGENCY) == 1, "a dead bus: six frames, and one emergency");
    check(heard_of(HEARTBEAT) == 1, "a dead bus: one heartbeat");
    check(heard_of(TPDO_1) == 1 && heard_of(TPDO_2) == 1 && heard_of(TPDO_3) == 1 && heard_of(TPDO_4) == 1, "a dead bus: each transmit PDO once");
    check(old_data() == 0, "a dead bus: with what the dictionary has now");
    check(node.outbox.lost == 0 && frame_queue_lost(&node.received) == 0, "a dead bus: nothing is lost");
    for (uint32_t i = 0; i < bus.count; i++)
        if (bus.heard[i].identifier == HEARTBEAT)
            check(is_heard(i, HEARTBEAT, 1, &operational), "a dead bus: the heartbeat has the present state");
}

/* The frames of one answer are in the node's order, however long they wait. */
static void order_of_an_answer(void)
{
    static const uint16_t order[] = {SDO_REPLY, TPDO_1, TPDO_2, TPDO_3, TPDO_4};
    uint32_t right = 0;

    start();
    bus.takes = 0;
    write_object(0x6040, 0, 2, 0x0006);
    pass();
    bus.takes = FOR_EVER;
    pass();
    for (uint32_t i = 0; i < 5; i++)
        right += bus.heard[i].identifier == order[i];
    check(bus.count == 5 && right == 5, "a write's reply, and behind it the four transmit PDOs");
    forget();
    bus.takes = 0;
    inputs.faults = 1;
    pass();
    bus.takes = FOR_EVER;
    pass();
    check(is_emergency(0, 0x2310, 0x03) && bus.heard[1].identifier == TPDO_1 && bus.count == 5, "an emergency, and behind it the four transmit PDOs");
}

/* Two transmit PDOs change each millisecond, and the bus takes one frame in that time. */
static void slow_bus(void)
{
    uint32_t beats;

    enable();
    write_object(0x1017, 0, 2, 50);
    pass();
    forget();
    inputs.is_at_standstill = false;
    for (uint32_t i = 0; i < 1000; i++) {
        bus.takes = 1;
        move_on(1);
    }
    beats = heard_of(HEARTBEAT);
    check(heard_of(TPDO_3) > 450 && heard_of(TPDO_4) > 450, "a slow bus: both of two transmit PDOs come round");
    check(beats == 19 || beats == 20, "a slow bus: each heartbeat is sent");
    check(heard_of(TPDO_3) + heard_of(TPDO_4) + beats == bus.count && bus.count == 1000, "a slow bus: nothing else is");
}

/* More emergencies than can wait: the first ones are kept, the others counted. Of what only counts as it is now there is a place all the same. */
static void full_outbox(void)
{
    uint32_t right = 0;

    enable();
    write_object(0x1017, 0, 2, 20);
    pass();
    forget();
    bus.takes = 0;
    for (uint32_t i = 0; i < 40; i++) {
        inputs.faults = i % 2 ? 2 : 1;
        pass();
    }
    check(outbox_room(&node.outbox) == 0 && node.outbox.lost == 40 - OUTBOX_IN_ORDER, "a full outbox: emergencies that find no place are counted");
    check(node.outbox.count == OUTBOX_IN_ORDER + 5, "a full outbox: the heartbeat and the transmit PDOs have found theirs");
    bus.takes = FOR_EVER;
    node_transmit(&node);
    for (uint32_t i = 0; i < OUTBOX_IN_ORDER; i++)
        right += is_emergency(i, i % 2 ? 0x4310 : 0x2310, i == 0 ? 0x03 : 0x0B);
    check(right == OUTBOX_IN_ORDER, "a full outbox: the emergencies that were kept, in order");
    check(bus.count == OUTBOX_IN_ORDER + 5 && heard_of(HEARTBEAT) == 1 && old_data() == 0, "a full outbox: then heartbeat and present data");
}

/* Frames of the bus wait where there is no room for what they may bring forth. */
static void no_room(void)
{
    uint32_t right = 0;

    start();
    bus.takes = 0;
    for (uint32_t i = 0; i < 45; i++) {
        read_object(0x2000 + i, 0);
        pass();
    }
    check(node.outbox.in_order == 19 && frame_queue_room(&node.received) == FRAME_QUEUE_PLACES - 26, "no room: frames are left in the queue");
    check(!node_hand(&node, &bus.heard[0]), "no room: nor is a frame of the amplifier taken");
    bus.takes = FOR_EVER;
    pass_for(3);
    for (uint32_t i = 0; i < bus.count; i++)
        right += bus.heard[i].identifier == SDO_REPLY && cendurak_half(bus.heard[i].data + 1) == 0x2000 + i;
    check(right == 45 && bus.count == 45, "no room: all are answered when there is, in order");
    check(node.outbox.lost == 0 && frame_queue_lost(&node.received) == 0, "no room: nothing is lost");
}

/* ---- faults */

/* What the node was told since the last look, and then how often. */
static bool are_emergencies(const uint16_t *codes, uint32_t count)
{
    uint32_t seen = 0, right = 0;

    for (uint32_t i = 0; i < bus.count; i++)
        if (bus.heard[i].identifier == EMERGENCY) {
            right += seen < count && cendurak_half(bus.heard[i].data) == codes[seen];
            seen++;
        }
    forget();
    return seen == count && right == count;
}

static void several_faults(void)
{
    static const uint16_t first[] = {0x4310}, others[] = {0x2310, 0x3210}, all[] = {0x2310, 0x4310, 0x3210};

    enable();
    inputs.faults = 2;
    pass_for(3);
    check(are_emergencies(first, 1) && cendurak_drive(node.state) == CENDURAK_DRIVE_FAULT, "a fault is told once");
    inputs.faults = 7;
    pass_for(3);
    check(are_emergencies(others, 2), "a second and a third fault are told, in the table's order, and the first one not again");
    inputs.faults = 3;
    pass_for(3);
    inputs.faults = 7;
    pass_for(3);
    check(are_emergencies(others + 1, 1), "one that went and came back is told again");
    nmt(RESET_NODE);
    pass_for(3);
    check(are_emergencies(all, 3), "behind a reset of the node all that are present are told");
    nmt(RESET_COMMUNICATION);
    pass_for(3);
    check(are_emergencies(all, 0), "behind a reset of communication none, for the node has kept them");
}

static void pulses(void)
{
    static const uint16_t one[] = {0x4310}, two[] = {0x2310, 0x3210};

    enable();
    node_trip(&node, 1);
    node_run(&node, &inputs);
    check(are_emergencies(one, 1) && cendurak_cause(node.state) == 1, "a pulse is told at the next pass, a tick or not");
    pass();
    check(are_emergencies(one, 0) && cendurak_cause(node.state) == 0, "and then its cause is gone");
    node_trip(&node, 2);
    node_trip(&node, 0);
    pass();
    check(are_emergencies(two, 2), "two pulses between two passes are both told, in the table's order");
    pass_for(10);
    check(are_emergencies(one, 0) && node.refused[CENDURAK_OUT_OF_PLACE] == 0, "the cause is gone once");
    node_trip(&node, 1);
    inputs.faults = 2;
    pass();
    inputs.faults = 0;
    pass_for(2);
    check(are_emergencies(one, 1) && cendurak_cause(node.state) == 0, "a line that also tripped is told once");
}

/* A table of NODE_MOST_FAULTS, and numbers that no table has. */
static void unknown_faults(void)
{
    static struct node_fault table[NODE_MOST_FAULTS];
    static const uint16_t unknown[] = {0x1000}, last[] = {0x7000};

    enable();
    node_trip(&node, FAULTS);
    pass_for(2);
    check(are_emergencies(unknown, 1), "a fault behind the table");
    node_trip(&node, 99);
    pass_for(2);
    check(are_emergencies(unknown, 1), "a fault that no table has");
    node_trip(&node, FAULTS - 1);
    pass_for(2);
    check(are_emergencies(unknown, 1), "a fault whose code is 0");
    inputs.faults = (uint32_t)1 << 20;
    pass_for(2);
    check(are_emergencies(unknown, 1), "a bit behind the table");
    table[NODE_MOST_FAULTS - 1].code = 0x7000;
    enable();
    node.setup.faults = table;
    node.setup.fault_count = NODE_MOST_FAULTS;
    node_trip(&node, NODE_MOST_FAULTS);
    pass_for(2);
    check(are_emergencies(unknown, 1), "a fault behind a full table");
    node_trip(&node, NODE_MOST_FAULTS - 1);
    pass_for(2);
    check(are_emergencies(last, 1), "the last one of a full table");
}

/* Frames for the node while the main loop is away: lost ones are a fault, of one pass. */
static void overrun(void)
{
    static const uint16_t lost[] = {0x8110};

    enable();
    for (uint32_t i = 0; i < FRAME_QUEUE_PLACES; i++)
        receive(RPDO_1, 2, 0x0F, 0);
    pass();
    check(frame_queue_lost(&node.received) == 0 && bus.count == 0, "a full queue has lost nothing");
    for (uint32_t i = 0; i < FRAME_QUEUE_PLACES + 2; i++)
        receive(RPDO_1, 2, 0x0F, 0);
    pass();
    check(frame_queue_lost(&node.received) == 2, "lost frames are counted");
    check(is_emergency(0, 0x8110, 0x11) && cendurak_drive(node.state) == CENDURAK_DRIVE_FAULT, "lost frames stop the axis");
    pass_for(3);
    check(are_emergencies(lost, 1) && cendurak_cause(node.state) == 0, "once, and the cause is gone");
}

/* ---- the bus itself */

static uint32_t calls_of(char call)
{
    uint32_t count = 0;

    for (uint32_t i = 0; i < bus.call_count; i++)
        count += bus.calls[i] == call;
    return count;
}

static void bus_off(void)
{
    enable();
    inputs.is_at_standstill = false;
    bus.takes = 0;
    node_bus_off(&node);
    move_on(50);
    check(calls_of('b') == 1, "off the bus: the recovery is started once");
    check(cendurak_drive(node.state) == CENDURAK_DRIVE_FAULT_REACTION_ACTIVE && cendurak_error_code(node.dict) == 0x8140,
          "off the bus: the axis stops");
    node_bus_on(&node);
    bus.takes = FOR_EVER;
    move_on(3);
    check(is_emergency(0, 0x8140, 0x11) && heard_of(EMERGENCY) == 1, "on the bus again: the emergency is the first frame, and sent once");
    check(cendurak_cause(node.state) == 0, "on the bus again: the cause is gone");
    forget();
    node_bus_off(&node);
    node_bus_on(&node);
    move_on(3);
    check(is_emergency(0, 0x8140, 0x11) && heard_of(EMERGENCY) == 1 && calls_of('b') == 0,
          "off and on between two passes: told, and nothing to start");
}

/* A recovery that fails between two passes: the controller is off again, and nobody else will start the next one. */
static void bus_off_again(void)
{
    enable();
    node_bus_off(&node);
    pass_for(3);
    node_bus_on(&node);
    node_bus_off(&node);
    pass_for(3);
    check(calls_of('b') == 2 && heard_of(EMERGENCY) == 1, "off again within a pass: recovered again, and told once");
    node_bus_on(&node);
    pass_for(2);
    check(cendurak_cause(node.state) == 0, "and the cause goes when the bus is back");
}

/* ---- frames as they come */

static void data_length_codes(void)
{
    uint32_t answered = 0;

    start();
    for (uint8_t code = 9; code <= 15; code++) {
        forget();
        receive(SDO_REQUEST, code, 0x00100040, 0);
        pass();
        answered += bus.count == 1 && bus.heard[0].identifier == SDO_REPLY && cendurak_word(bus.heard[0].data + 4) == 0x00020192;
    }
    check(answered == 7, "an SDO request with data length code 9 to 15 is answered");
    forget();
    receive(RPDO_3, 15, 0x22220006, 0x00001111);
    pass();
    check(is_emergency(0, 0x8220, 0x00), "a receive PDO with data length code 15 is too long");
    check(cendurak_target_position(node.dict) == 0x11112222 && cendurak_drive(node.state) == CENDURAK_DRIVE_READY_TO_SWITCH_ON,
          "and its first bytes are used");
    check(node.refused[CENDURAK_BAD_FRAME] == 0, "none of them is refused");
    receive(0x800, 0, 0, 0);
    pass();
    check(node.refused[CENDURAK_BAD_FRAME] == 1 && calls_of('r') == 1, "an identifier over 7FFh is refused, and logged");
}

/* ---- boot-ups */

/* Frames of a last life wait: replies, an emergency, process data, a heartbeat. */
static void fill_outbox(void)
{
    enable();
    write_object(0x1017, 0, 2, 20);
    pass();
    forget();
    bus.takes = 0;
    inputs.faults = 1;
    read_object(0x1000, 0);
    move_on(30);
    inputs.faults = 0;
    pass();
    check(node.outbox.count == 7, "a reply, an emergency, the heartbeat and four transmit PDOs wait");
}

static bool boots_first(void)
{
    bus.takes = FOR_EVER;
    node_transmit(&node);
    return is_boot_up(0) && calls_of('w') == 1 && bus.calls[0] == 'w';
}

static void boot_ups(void)
{
    fill_outbox();
    node_power_up(&node, NODE);
    check(boots_first() && bus.count == 1, "power-up: the boot-up is the first frame, and what waited is withdrawn");
    fill_outbox();
    nmt(RESET_NODE);
    node_run(&node, &inputs);
    check(boots_first() && bus.count == 1, "reset of the node: likewise");
    fill_outbox();
    nmt(RESET_COMMUNICATION);
    node_run(&node, &inputs);
    check(boots_first() && bus.count == 1, "reset of communication: likewise");
    fill_outbox();
    read_object(0x1000, 0);
    check(!node_power_up(&node, 0) && calls_of('w') == 1, "a power-up that is refused withdraws them too");
    bus.takes = FOR_EVER;
    pass_for(3);
    check(bus.count == 0 && node_command(&node).task == AXIS_OFF, "and the node is silent, and the axis off");
    check(node_power_up(&node, NODE) && is_boot_up(0), "until it is powered up");
    pass_for(3);
    check(heard_of(SDO_REPLY) == 0, "a frame of before is not taken any more");
}

/* Nobody is on the bus yet: the boot-up waits, and no heartbeat takes its place. */
static void boot_up_waits(void)
{
    static const uint8_t file[] = {1, 0, 0, 0, 0x17, 0x10, 0x00, 2, 0, 0, 0, 20, 0}, pre_operational = 0x7F;

    switch_on(file, sizeof file);
    forget();
    bus.takes = 0;
    node_power_up(&node, NODE);
    pass_for(100);
    inputs.faults = 1;
    pass_for(2);
    bus.takes = FOR_EVER;
    node_transmit(&node);
    check(is_boot_up(0) && is_emergency(1, 0x2310, 0x03) && is_heard(2, HEARTBEAT, 1, &pre_operational) && bus.count == 3,
          "powered up on a dead bus: the boot-up, the emergency, one heartbeat");
}

static void leaves_operational(void)
{
    static const uint32_t commands[] = {STOP, PRE_OPERATIONAL};

    for (uint32_t i = 0; i < 2; i++) {
        fill_outbox();
        nmt(commands[i]);
        node_run(&node, &inputs);
        bus.takes = FOR_EVER;
        node_transmit(&node);
        check(bus.count == 3 && bus.heard[0].identifier == EMERGENCY && bus.heard[1].identifier == SDO_REPLY && bus.heard[2].identifier == HEARTBEAT,
              "process data are not sent behind 02h and 80h; the rest is");
    }
}

static void safe_stop(void)
{
    enable();
    node.dict[0] ^= 1;
    pass_for(5);
    check(calls_of('s') == 1 && node.refused[CENDURAK_NOT_SOUND] == 1 && node_command(&node).task == AXIS_OFF, "a damaged dictionary: safe stop, once");
    forget();
    node_trip(&node, 0);
    node_power_up(&node, NODE);
    pass_for(3);
    check(is_boot_up(0) && is_emergency(1, 0x2310, 0x03), "powered up again, with the trip that came meanwhile");
}

/* ---- acceptance filters */

static bool is_filter(uint32_t first, uint32_t second, uint32_t third, uint32_t fourth)
{
    const uint32_t wanted[] = {0x000, 0x080, 0x605, first, second, third, fourth};
    uint32_t right = 0;

    for (uint32_t i = 0; i < bus.filter_count; i++)
        right += bus.filter[i] == wanted[i];
    return right == bus.filter_count && (bus.filter_count == 7 || wanted[bus.filter_count] == 0);
}

static void filters(void)
{
    switch_on(0, 0);
    check(is_filter(0x205, 0x305, 0x405, 0x505) && strcmp(bus.calls, "wft") == 0, "power-up: the filters are set before the boot-up is sent");
    pass_for(3);
    forget();
    write_object(0x1400, 1, 4, 0x80000205);
    pass();
    check(is_filter(0x305, 0x405, 0x505, 0) && strcmp(bus.calls, "ft") == 0, "an identifier that is not valid: out, before the reply is sent");
    forget();
    write_object(0x1400, 1, 4, 0x80000206);
    write_object(0x1017, 0, 2, 0);
    write_object(0x1400, 2, 1, 1);
    pass_for(3);
    check(strcmp(bus.calls, "ttt") == 0, "nothing changed: no filters set");
    forget();
    write_object(0x1400, 1, 4, 0x206);
    pass();
    check(is_filter(0x206, 0x305, 0x405, 0x505) && strcmp(bus.calls, "ft") == 0, "another valid identifier: in, before the reply is sent");
    forget();
    nmt(START);
    pass();
    check(calls_of('f') == 0, "Operational: as it was");
    forget();
    nmt(RESET_COMMUNICATION);
    pass();
    check(is_filter(0x205, 0x305, 0x405, 0x505) && strcmp(bus.calls, "wft") == 0, "a reset of communication: the defaults, before the boot-up is sent");
}

/* A file that makes receive PDO 2 invalid. */
static void filters_of_a_file(void)
{
    static const uint8_t file[] = {1, 0, 0, 0, 0x01, 0x14, 0x01, 4, 0, 0, 0, 0x05, 0x03, 0x00, 0x80};

    switch_on(file, sizeof file);
    check(is_filter(0x205, 0x405, 0x505, 0) && strcmp(bus.calls, "wlft") == 0, "a file is loaded first, and the filters are its own");
    pass_for(3);
    forget();
    nmt(RESET_NODE);
    pass();
    check(strcmp(bus.calls, "wlt") == 0, "the same file behind a reset of the node: the same filters");
}

int main(void)
{
    dead_bus();
    order_of_an_answer();
    slow_bus();
    full_outbox();
    no_room();
    several_faults();
    pulses();
    unknown_faults();
    overrun();
    bus_off();
    bus_off_again();
    data_length_codes();
    boot_ups();
    boot_up_waits();
    leaves_operational();
    safe_stop();
    filters();
    filters_of_a_file();
    printf("%u passed, %u failed\n", passed, failed);
    return failed != 0;
}
