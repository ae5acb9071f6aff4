#define _GNU_SOURCE

#include "options.h"

#include <ctype.h>
#include <errno.h>
#include <getopt.h>
#include <limits.h>
#include <stdarg.h>
#include <stdio.h>
#include <stdlib.h>

#include "cendurak.h"

static const char help[] =
    "Usage: cendurak-node [OPTIONS] INTERFACE NODE-ID\n"
    "       cendurak-node [OPTIONS] --fd N NODE-ID\n"
    "\n"
    "A CANopen servo node (CiA 301, CiA 402) with a simulated motor, on a CAN interface of Linux.\n"
    "\n"
    "  INTERFACE             the interface, as vcan0\n"
    "  NODE-ID               1 to 127\n"
    "  --configuration FILE  a concise DCF that the node loads whenever it boots up (tools/dcf writes such files)\n"
    "  --fd N                in place of INTERFACE: an open socket that carries struct can_frame, one in a packet\n"
    "  --quiet               do not tell on standard output what happens\n"
    "  --help                print this\n"
    "\n"
    "SIGINT (Ctrl-C) and SIGTERM end it, with status 0. Status 1: the interface, the socket or the file cannot be used,\n"
    "or can no longer be used. Status 2: bad use.\n";

__attribute__((format(printf, 1, 2))) static enum options_outcome refuse(const char *sentence, ...)
{
    va_list values;

    va_start(values, sentence);
    fprintf(stderr, "cendurak-node: ");
    vfprintf(stderr, sentence, values);
    fprintf(stderr, "\nTry 'cendurak-node --help'.\n");
    va_end(values);
    return OPTIONS_BAD;
}

/* A decimal number from `least` to `most`, and nothing else. */
static bool read_number(const char *text, long least, long most, long *number)
{
    char *end;

    errno = 0;
    *number = strtol(text, &end, 10);
    return errno == 0 && isdigit((unsigned char)text[0]) && *end == '\0' && *number >= least && *number <= most;
}

enum { OPTION_CONFIGURATION = 1, OPTION_FD, OPTION_QUIET, OPTION_HELP };

static enum options_outcome take_option(int option, struct options *options)
{
    long number;

    switch (option) {
    case OPTION_CONFIGURATION:
        options->configuration = optarg;
        return OPTIONS_GOOD;
    case OPTION_FD:
        if (!read_number(optarg, 0, INT_MAX, &number))
            return refuse("--fd wants the number of an open socket, not '%s'.", optarg);
        options->fd = (int)number;
        return OPTIONS_GOOD;
    case OPTION_QUIET:
        options->is_quiet = true;
        return OPTIONS_GOOD;
    case OPTION_HELP:
        fputs(help, stdout);
        return OPTIONS_HELP;
    default: /* getopt has said what is wrong */
        fprintf(stderr, "Try 'cendurak-node --help'.\n");
        return OPTIONS_BAD;
    }
}

/* What stands behind the options: INTERFACE, unless a socket was handed over, and NODE-ID. */
static enum options_outcome take_operands(int count, char **operands, struct options *options)
{
    bool has_socket = options->fd != OPTIONS_NO_FD;
    int wanted = has_socket ? 1 : 2;
    long number;

    if (count < wanted)
        return refuse("%s", has_socket ? "NODE-ID is wanted, as in 'cendurak-node --fd 3 5'."
                                       : "INTERFACE and NODE-ID are wanted, as in 'cendurak-node vcan0 5'.");
    if (count > wanted)
        return refuse("'%s' is one argument too many.", operands[wanted]);
    options->interface = has_socket ? 0 : operands[0];
    if (!read_number(operands[wanted - 1], CENDURAK_FIRST_NODE, CENDURAK_LAST_NODE, &number))
        return refuse("The node-ID is a decimal number from 1 to 127, not '%s'.", operands[wanted - 1]);
    options->node_id = (uint8_t)number;
    return OPTIONS_GOOD;
}

enum options_outcome options_read(int count, char **arguments, struct options *options)
{
    static const struct option known[] = {
        {"configuration", required_argument, 0, OPTION_CONFIGURATION},
        {"fd", required_argument, 0, OPTION_FD},
        {"quiet", no_argument, 0, OPTION_QUIET},
        {"help", no_argument, 0, OPTION_HELP},
        {0, 0, 0, 0},
    };
    int option;

    *options = (struct options){.fd = OPTIONS_NO_FD};
    while ((option = getopt_long(count, arguments, "", known, 0)) != -1) {
        enum options_outcome outcome = take_option(option, options);
        if (outcome != OPTIONS_GOOD)
            return outcome;
    }
    return take_operands(count - optind, arguments + optind, options);
}
