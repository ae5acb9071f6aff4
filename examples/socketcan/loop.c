#define _GNU_SOURCE

#include "loop.h"

#include <errno.h>
#include <poll.h>
#include <signal.h>
#include <stdio.h>
#include <string.h>
#include <unistd.h>

#include <sys/signalfd.h>
#include <sys/timerfd.h>

#include "amplifier.h"

enum { NANOSECONDS_OF_TICK = 1000000 };

/* Packets that are read between two passes, also where none of them is for the node: the ticks are not to wait for long. */
enum { MOST_AT_ONCE = FRAME_QUEUE_PLACES };

enum { AT_BUS, AT_TIMER, AT_SIGNALS, WATCHED };

/* ---- opening */

static bool fail(const char *call)
{
    fprintf(stderr, "cendurak-node: %s: %s.\n", call, strerror(errno));
    return false;
}

static bool start_timer(struct loop *loop)
{
    const struct itimerspec each_tick = {.it_interval = {.tv_nsec = NANOSECONDS_OF_TICK}, .it_value = {.tv_nsec = NANOSECONDS_OF_TICK}};

    loop->timer = timerfd_create(CLOCK_MONOTONIC, TFD_NONBLOCK | TFD_CLOEXEC);
    if (loop->timer < 0)
        return fail("timerfd_create");
    return timerfd_settime(loop->timer, 0, &each_tick, 0) == 0 || fail("timerfd_settime");
}

static bool take_signals(struct loop *loop)
{
    sigset_t ends;

    sigemptyset(&ends);
    sigaddset(&ends, SIGINT);
    sigaddset(&ends, SIGTERM);
    if (sigprocmask(SIG_BLOCK, &ends, 0) != 0)
        return fail("sigprocmask");
    loop->signals = signalfd(-1, &ends, SFD_NONBLOCK | SFD_CLOEXEC);
    return loop->signals >= 0 || fail("signalfd");
}

bool loop_open(struct loop *loop, struct can_socket *bus)
{
    *loop = (struct loop){.bus = bus, .timer = -1, .signals = -1};
    return take_signals(loop) && start_timer(loop);
}

/* ---- what came */

/* Every millisecond that went by, also those in which the program was held up. */
static void take_ticks(const struct loop *loop)
{
    uint64_t count = 0;

    if (read(loop->timer, &count, sizeof count) != (ssize_t)sizeof count)
        return;
    for (; count > 0; count--)
        amplifier_millisecond(count == 1);
}

static void hand_on(enum can_arrival arrival, const struct node_frame *frame)
{
    if (arrival == CAN_DATA)
        amplifier_receive(frame);
    else if (arrival != CAN_FOREIGN)
        amplifier_tell_bus(arrival == CAN_BUS_ON);
}

/* As many packets as the amplifier has room for: the others wait in the socket. Returns how many there were. */
static uint32_t take_packets(const struct loop *loop)
{
    struct node_frame frame;
    enum can_arrival arrival;
    bool was_dropped = false;
    uint32_t count = 0;

    while (count < MOST_AT_ONCE && amplifier_room() != 0 && (arrival = can_socket_read(loop->bus, &frame, &was_dropped)) != CAN_NONE) {
        hand_on(arrival, &frame);
        count++;
    }
    if (was_dropped)
        amplifier_tell_dropped();
    return count;
}

static void take_bus(const struct loop *loop, short events)
{
    uint32_t packets = events & POLLIN ? take_packets(loop) : 0;

    if (packets == 0)
        can_socket_look_at_end(loop->bus, (events & POLLHUP) != 0);
    amplifier_pass();
}

/* ---- the loop */

static short wanted_of_bus(const struct loop *loop)
{
    return (short)((amplifier_room() != 0 ? POLLIN : 0) | (loop->bus->is_full ? POLLOUT : 0));
}

bool loop_run(struct loop *loop)
{
    struct pollfd watched[WATCHED] = {
        [AT_BUS] = {.fd = loop->bus->fd},
        [AT_TIMER] = {.fd = loop->timer, .events = POLLIN},
        [AT_SIGNALS] = {.fd = loop->signals, .events = POLLIN},
    };

    while (loop->bus->failed_call == 0) {
        watched[AT_BUS].events = wanted_of_bus(loop);
        if (poll(watched, WATCHED, -1) < 0 && errno != EINTR)
            return can_socket_fail(loop->bus, "poll", errno);
        if (watched[AT_SIGNALS].revents != 0)
            return true;
        if (watched[AT_TIMER].revents != 0)
            take_ticks(loop);
        if (watched[AT_BUS].revents != 0)
            take_bus(loop, watched[AT_BUS].revents);
    }
    return false;
}
