/* What the program is asked for on its command line. */
#ifndef OPTIONS_H
#define OPTIONS_H

#include <stdbool.h>
#include <stdint.h>

enum { OPTIONS_NO_FD = -1 };

struct options {
    const char *interface;     /* 0: a socket was handed over */
    int fd;                    /* that socket, or OPTIONS_NO_FD */
    uint8_t node_id;
    const char *configuration; /* the file's name; 0: none */
    bool is_quiet;
};

enum options_outcome { OPTIONS_GOOD, OPTIONS_HELP, OPTIONS_BAD };

/* OPTIONS_HELP: the help was asked for, and printed. OPTIONS_BAD: what is wrong was said on standard error. */
enum options_outcome options_read(int count, char **arguments, struct options *options);

#endif
