/* The lines that the bench program prints for a record: its number, the refusal and the status word, and under them each frame. */
#ifndef LINES_H
#define LINES_H

#include <stdio.h>

#include "calls.h"

static inline void print_call(unsigned long record, uint32_t refusal)
{
    printf("%lu %u %04X\n", record, refusal, cendurak_status_word(dict));
}

static inline void print_frames(void)
{
    for (uint32_t i = 0; i < cendurak_frames(answer); i++) {
        printf("%03X", cendurak_identifier(out, i));
        for (uint32_t k = 0; k < cendurak_length(out, i); k++)
            printf(" %02X", cendurak_data(out, i)[k]);
        printf("\n");
    }
}

#endif
