/* The program's loop: milliseconds, packets and signals, each when it comes. */
#ifndef LOOP_H
#define LOOP_H

#include <stdbool.h>

#include "can_socket.h"

struct loop {
    struct can_socket *bus;
    int timer, signals;
};

/* Before the amplifier is switched on: from here on SIGINT and SIGTERM wait for the loop. False: what failed was said on standard error. */
bool loop_open(struct loop *loop, struct can_socket *bus);

/* Runs the amplifier until a signal comes: true. False: the socket has failed, and says why. */
bool loop_run(struct loop *loop);

#endif
