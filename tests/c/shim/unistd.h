/* What the tests use of the C library's <unistd.h>. */
#ifndef SHIM_UNISTD_H
#define SHIM_UNISTD_H
long read(int file, void *buffer, unsigned long count);
#endif
