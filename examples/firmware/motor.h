/*
 * The simulated axis: a motor that follows the node's command exactly, on trapezoid profiles, in integer arithmetic. A product has its
 * position controller, its output stage and its encoder here.
 */
#ifndef MOTOR_H
#define MOTOR_H

#include <stdbool.h>
#include <stdint.h>

#include "node.h"

/* All zero is a motor at rest on its zero mark. */
struct motor {
    int64_t position; /* in millionths of an increment */
    int64_t speed;    /* in thousandths of an increment a second, so that a millisecond at `speed` adds it to `position` */
    bool is_jammed;   /* the shaft does not turn */
};

/* One millisecond under a command. */
void motor_step(struct motor *motor, const struct axis_command *command);

/* What the encoder says, in increments and increments a second. */
int32_t motor_position(const struct motor *motor);
int32_t motor_velocity(const struct motor *motor);

bool motor_is_at_standstill(const struct motor *motor);
bool motor_is_at(const struct motor *motor, int32_t target);

#endif
