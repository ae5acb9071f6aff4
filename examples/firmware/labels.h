/*
 * The record of the labels that were fed, for the account. It is taken from what the node holds and from what the axis reached, and not from
 * what the feeder says of itself: so a label that got lost on the way is seen.
 */
#ifndef LABELS_H
#define LABELS_H

#include <stdbool.h>
#include <stdint.h>

#include "node.h"

enum { MOST_LABELS = 32 /* that are recorded */ };

struct label_list {
    const int32_t *lengths;
    uint64_t count;
};

/* What can be asked of the record. */
enum label_check {
    LABELS_ALL_REACHED, /* so many set-points were reached as there are labels */
    LABELS_ONCE_EACH,   /* so many were taken, at steps of the feeder; and none by the further steps of a list that is used up */
    LABELS_IN_PLACE,    /* their targets are the running sums of the lengths, from the position at the first one */
    LABELS_TWO_AHEAD,   /* at times two were held */
    LABELS_ALONE,       /* no set-point came or went but at steps of the feeder and at targets reached */
    LABEL_CHECKS
};

/* A label, as the node and the axis had it: the first one taken, the first one reached, and so on. */
struct label {
    uint32_t taken_at, reached_at; /* ms */
    int32_t target;
};

/* All zero is a record of no labels. */
struct labels {
    struct label_list list;
    struct label seen[MOST_LABELS];
    uint32_t taken, reached;
    uint32_t held, most_held; /* set-points in the node */
    uint32_t steps_behind;    /* steps when all were taken */
    uint32_t strangers;       /* set-points that came or went by somebody else */
    int32_t start;            /* the position at the first one */
};

/* The feeder starts on this list. */
void labels_begin(struct labels *labels, const struct label_list *list);

/* The axis reached the active set-point. */
void labels_reached(struct labels *labels, uint32_t now);

/* Behind a pass of the node, before the feeder's. False: somebody else had a set-point taken or thrown away. */
bool labels_before(struct labels *labels, const struct node *node);

/* Behind the feeder's pass. */
void labels_behind(struct labels *labels, const struct node *node, uint32_t now, bool has_stepped);

bool labels_hold(const struct labels *labels, enum label_check check);

/* One line for each label: number, length, target, when taken, when reached. */
void labels_print(const struct labels *labels);

#endif
