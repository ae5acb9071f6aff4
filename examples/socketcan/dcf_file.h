/* A configuration as a file of the disk: a concise DCF, which the node itself judges when it loads it. */
#ifndef DCF_FILE_H
#define DCF_FILE_H

#include <stdbool.h>

#include "node.h"

/* Reads the file whole; its bytes stay where they are until the next read. False: what is wrong was said on standard error. */
bool dcf_file_read(const char *name, struct node_file *file);

#endif
