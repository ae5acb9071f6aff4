/* The number of a word of digits, as a program is told it. */
#ifndef DIGITS_H
#define DIGITS_H

#include <stdint.h>

static inline uint32_t number_of(const char *digits)
{
    uint32_t number = 0;

    for (const char *p = digits; *p; p++)
        number = 10 * number + (uint32_t)(*p - '0');
    return number;
}

#endif
