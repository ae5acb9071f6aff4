#include "dcf_file.h"

#include <errno.h>
#include <stdio.h>
#include <string.h>

/* Ten times what the node takes at most: 512 entries of up to four bytes. */
enum { MOST_BYTES = 65536 };

static bool refuse(const char *name, const char *why)
{
    fprintf(stderr, "cendurak-node: The configuration '%s' cannot be used: %s.\n", name, why);
    return false;
}

bool dcf_file_read(const char *name, struct node_file *file)
{
    static uint8_t bytes[MOST_BYTES + 1];
    FILE *stream = fopen(name, "rb");
    size_t length;
    int error;

    if (stream == 0)
        return refuse(name, strerror(errno));
    errno = 0;
    length = fread(bytes, 1, sizeof bytes, stream);
    error = ferror(stream) ? errno : 0;
    fclose(stream);
    if (error != 0)
        return refuse(name, strerror(error));
    if (length == 0)
        return refuse(name, "it is empty");
    if (length > MOST_BYTES)
        return refuse(name, "it is longer than any concise DCF for this node");
    *file = (struct node_file){bytes, length};
    return true;
}
