/*
 * The amplifier: the node with the glue of examples/firmware around it, a simulated motor as its axis, and a CAN socket as its bus. What happens is
 * told on standard output. There is one amplifier, as there is one in a drive.
 */
#ifndef AMPLIFIER_H
#define AMPLIFIER_H

#include <stdbool.h>
#include <stdint.h>

#include "can_socket.h"
#include "node.h"

struct amplifier_setup {
    struct can_socket *bus;
    uint8_t node_id;
    struct node_file configuration;
    bool is_quiet;
};

/* False: the node refused its node-ID. */
bool amplifier_switch_on(const struct amplifier_setup *setup);

/* How many frames the amplifier can take before its next pass. */
uint32_t amplifier_room(void);

/* What came in on the bus: in place of the interrupts of a CAN controller. */
void amplifier_receive(const struct node_frame *frame);
void amplifier_tell_dropped(void);
void amplifier_tell_bus(bool is_on);

/* A pass of the main loop: what came in is answered, and what waits is sent. */
void amplifier_pass(void);

/*
 * A millisecond: a tick, a pass, and the motor's motion. Where the program was held up and catches up, more milliseconds come right behind it: what
 * the node has to send then waits for the last one, so that the bus gets one heartbeat and not those of all that time.
 */
void amplifier_millisecond(bool is_last);

/* The account's last lines. */
void amplifier_print_counts(void);

#endif
