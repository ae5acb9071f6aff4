/*
 * The node on a CAN interface of Linux: `cendurak-node vcan0 5`. It ends with status 0 behind SIGINT or SIGTERM, with 1 where the interface or the
 * configuration cannot be used, and with 2 where it was called the wrong way.
 */
#include <stdio.h>

#include "amplifier.h"
#include "can_socket.h"
#include "dcf_file.h"
#include "loop.h"
#include "options.h"

enum { ENDED_WELL = 0, CANNOT_RUN = 1, BAD_USE = 2 };

static bool open_bus(struct can_socket *bus, const struct options *options)
{
    return options->interface != 0 ? can_socket_open(bus, options->interface) : can_socket_adopt(bus, options->fd);
}

/* From the boot-up to the end. False: the socket has failed. */
static bool run(struct can_socket *bus, const struct options *options, struct node_file configuration)
{
    const struct amplifier_setup setup = {
        .bus = bus, .node_id = options->node_id, .configuration = configuration, .is_quiet = options->is_quiet};
    struct loop loop;
    bool was_ended;

    if (!loop_open(&loop, bus) || !amplifier_switch_on(&setup))
        return false;
    was_ended = loop_run(&loop);
    amplifier_print_counts();
    return was_ended;
}

int main(int count, char **arguments)
{
    struct options options;
    struct node_file configuration = {.length = 0};
    struct can_socket bus;
    enum options_outcome outcome = options_read(count, arguments, &options);
    bool is_well;

    if (outcome != OPTIONS_GOOD)
        return outcome == OPTIONS_HELP ? ENDED_WELL : BAD_USE;
    if (options.configuration != 0 && !dcf_file_read(options.configuration, &configuration))
        return CANNOT_RUN;
    setvbuf(stdout, 0, _IOLBF, BUFSIZ); /* an account that somebody else reads comes line by line too */
    is_well = open_bus(&bus, &options) && run(&bus, &options, configuration);
    if (bus.failed_call != 0)
        can_socket_explain(&bus);
    can_socket_close(&bus);
    return is_well ? ENDED_WELL : CANNOT_RUN;
}
