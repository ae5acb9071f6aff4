/*
 * memcpy, memmove and memset by bytes, for a program that is stopped on an unaligned access: newlib's own make such accesses on a Cortex-M4,
 * and a firmware that sets the trap has to bring its own too.
 */
#include <stddef.h>
#include <stdint.h>

void *memcpy(void *to, const void *from, size_t count)
{
    uint8_t *t = to;

    for (const uint8_t *f = from; count != 0; count--)
        *t++ = *f++;
    return to;
}

void *memmove(void *to, const void *from, size_t count)
{
    uint8_t *t = to;
    const uint8_t *f = from;

    if (t <= f)
        return memcpy(to, from, count);
    while (count != 0) {
        count--;
        t[count] = f[count];
    }
    return to;
}

void *memset(void *to, int byte, size_t count)
{
    for (uint8_t *t = to; count != 0; count--)
        *t++ = (uint8_t)byte;
    return to;
}
