/* What the tests use of the C library's <stdio.h>. */
#ifndef SHIM_STDIO_H
#define SHIM_STDIO_H
int printf(const char *format, ...);
#endif
