/*
 * How many instructions were carried out since `start_counter`, where the program can tell: on the emulated controller, under an emulator that
 * takes a nanosecond for each (tools/board-run), by the system timer of the core, which counts down every 40 of them. Elsewhere they are
 * counted from without.
 */
#ifndef COUNTER_H
#define COUNTER_H

#include <stdint.h>
#include <stdio.h>

#ifdef __arm__

enum { LAST_COUNT = 0xFFFFFF, TIMER_ON = 5, WENT_ROUND = 1 << 16, INSTRUCTIONS_OF_A_COUNT = 40 };

static struct {
    volatile uint32_t control, reload, now;
} *const timer = (void *)0xE000E010;

static inline void start_counter(void)
{
    timer->reload = LAST_COUNT;
    timer->now = 0;
    timer->control = TIMER_ON;
}

/* More than the timer can count is told as 0. */
static inline void print_counter(void)
{
    uint32_t counts = LAST_COUNT - timer->now;

    printf("%u instructions\n", (unsigned)(timer->control & WENT_ROUND ? 0 : INSTRUCTIONS_OF_A_COUNT * counts));
}

#else

static inline void start_counter(void)
{
}

static inline void print_counter(void)
{
}

#endif

#endif
