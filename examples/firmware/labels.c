#include "labels.h"

#include <stdio.h>

enum { ENOUGH_STEPS = 100 /* of a used-up list */ };

void labels_begin(struct labels *labels, const struct label_list *list)
{
    *labels = (struct labels){.list = *list};
}

/* ---- watching */

void labels_reached(struct labels *labels, uint32_t now)
{
    if (labels->reached < MOST_LABELS)
        labels->seen[labels->reached++].reached_at = now;
    if (labels->held != 0)
        labels->held--;
}

bool labels_before(struct labels *labels, const struct node *node)
{
    uint32_t held = cendurak_set_points(node->state);
    bool is_as_left = held == labels->held;

    labels->strangers += !is_as_left;
    labels->held = held;
    return is_as_left;
}

static void note_taken(struct labels *labels, const struct node *node, uint32_t now)
{
    if (labels->taken == 0)
        labels->start = cendurak_position(node->dict);
    if (labels->taken < MOST_LABELS)
        labels->seen[labels->taken++].taken_at = now;
}

void labels_behind(struct labels *labels, const struct node *node, uint32_t now, bool has_stepped)
{
    uint32_t held = cendurak_set_points(node->state);

    labels->steps_behind += has_stepped && labels->taken == labels->list.count;
    if (held > labels->held)
        note_taken(labels, node, now);
    if (held > labels->most_held)
        labels->most_held = held;
    if (held != 0 && labels->reached < MOST_LABELS)
        labels->seen[labels->reached].target = cendurak_active_set_point(node->state).target;
    labels->held = held;
}

/* ---- checking */

static bool are_in_place(const struct labels *labels)
{
    int64_t sum = labels->start;
    bool are = labels->reached == labels->list.count;

    for (uint32_t i = 0; are && i < labels->reached; i++) {
        sum += labels->list.lengths[i];
        are = labels->seen[i].target == sum;
    }
    return are;
}

bool labels_hold(const struct labels *labels, enum label_check check)
{
    switch (check) {
    case LABELS_ALL_REACHED: return labels->reached == labels->list.count;
    case LABELS_ONCE_EACH: return labels->taken == labels->list.count && labels->steps_behind >= ENOUGH_STEPS;
    case LABELS_IN_PLACE: return are_in_place(labels);
    case LABELS_TWO_AHEAD: return labels->most_held == 2;
    case LABELS_ALONE: return labels->strangers == 0;
    default: return false;
    }
}

/* ---- the account */

/* A time in its column, or that there is none. */
static void print_time(bool is_known, uint32_t at)
{
    if (is_known)
        printf("  %7u ms", at);
    else
        printf("  %10s", "never");
}

static void print_label(const struct labels *labels, uint32_t i)
{
    const struct label *label = &labels->seen[i];

    printf("%5u  %6d  ", i + 1, labels->list.lengths[i]);
    if (i < labels->reached)
        printf("%6d", label->target);
    else
        printf("%6s", "-");
    print_time(i < labels->taken, label->taken_at);
    print_time(i < labels->reached, label->reached_at);
    printf("\n");
}

void labels_print(const struct labels *labels)
{
    if (labels->list.count != 0)
        printf("label  length  target       taken     reached\n");
    for (uint32_t i = 0; i < labels->list.count && i < MOST_LABELS; i++)
        print_label(labels, i);
}
