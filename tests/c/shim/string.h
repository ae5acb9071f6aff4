/* What the tests use of the C library's <string.h>. */
#ifndef SHIM_STRING_H
#define SHIM_STRING_H
typedef __SIZE_TYPE__ size_t;
void *memcpy(void *to, const void *from, size_t count);
void *memmove(void *to, const void *from, size_t count);
void *memset(void *to, int byte, size_t count);
int memcmp(const void *a, const void *b, size_t count);
int strcmp(const char *a, const char *b);
#endif
