/*
 * What the test programs count: checks that held, and those that did not, named.
 */
#ifndef CHECKS_H
#define CHECKS_H

#include <stdint.h>
#include <stdio.h>

static uint32_t passed, failed;

static void check(int holds, const char *name)
{
    if (holds) {
        passed++;
    } else {
        failed++;
        printf("FAIL %s\n", name);
    }
}

#endif
