#include "motor.h"

enum {
    MILLI = 1000,
    MICRO = 1000000,
    STEEP_RAMP = 200000, /* increments a second, a second: quick stop and fault reaction */
    FRICTION = 20000     /* the same, of a motor without current */
};

/* What the motor can do. It also keeps the products below inside 64 bits. */
static const int64_t MOST_SPEED = 1000000ll * MILLI, MOST_RAMP = 1000000000ll;

static int64_t least(int64_t a, int64_t b)
{
    return a < b ? a : b;
}

static int64_t greatest(int64_t a, int64_t b)
{
    return a > b ? a : b;
}

/* One millisecond closer to the wanted speed. A ramp is also the change of speed in a millisecond, in the motor's units. */
static int64_t ramped(int64_t speed, int64_t wanted, int64_t acceleration, int64_t deceleration)
{
    bool is_braking = speed > 0 ? wanted < speed : wanted > speed;
    int64_t change = speed != 0 && is_braking ? deceleration : acceleration;

    return wanted > speed ? least(wanted, speed + change) : greatest(wanted, speed - change);
}

/* How far the motor still goes at this speed in this millisecond and on the ramp in those after it, rounded up. */
static int64_t way_to_stop(int64_t speed, int64_t ramp)
{
    return (speed * (speed + ramp) + 2 * ramp - 1) / (2 * ramp);
}

/* The highest speed from `low` to `high` at which the way to stop is not too long; `low` where all are. */
static int64_t fastest_that_stops(int64_t low, int64_t high, int64_t distance, int64_t ramp)
{
    while (low < high) {
        int64_t middle = low + (high - low + 1) / 2;
        if (way_to_stop(middle, ramp) <= distance)
            low = middle;
        else
            high = middle - 1;
    }
    return low;
}

/*
 * The speed of the next millisecond on the way to a target that is `distance` away, in the target's direction. The last millisecond goes just
 * the distance that is left; a target that is too near to stop at is overrun, and come back to.
 */
static int64_t speed_towards(int64_t speed, int64_t distance, const struct axis_command *command)
{
    int64_t up = least(command->acceleration, MOST_RAMP), down = least(command->deceleration, MOST_RAMP);
    int64_t cruise = least((int64_t)command->velocity * MILLI, MOST_SPEED);

    if (speed < 0)
        return ramped(speed, 0, up, down);
    int64_t low = greatest(0, speed - down);
    int64_t high = greatest(low, least(cruise, speed + up));
    int64_t next = fastest_that_stops(low, high, distance, down);
    return next <= down ? least(next, distance) : next;
}

static int64_t moved(const struct motor *motor, const struct axis_command *command)
{
    int64_t way = (int64_t)command->target * MICRO - motor->position;

    return way < 0 ? -speed_towards(-motor->speed, -way, command) : speed_towards(motor->speed, way, command);
}

static int64_t next_speed(const struct motor *motor, const struct axis_command *command)
{
    int64_t up = least(command->acceleration, MOST_RAMP), down = least(command->deceleration, MOST_RAMP);
    int64_t run = (int64_t)command->run_velocity * MILLI;

    switch (command->task) {
    case AXIS_STOP:
        return ramped(motor->speed, 0, STEEP_RAMP, STEEP_RAMP);
    case AXIS_HOLD:
        return ramped(motor->speed, 0, up, down);
    case AXIS_MOVE:
        return moved(motor, command);
    case AXIS_RUN:
        return ramped(motor->speed, greatest(-MOST_SPEED, least(MOST_SPEED, run)), up, down);
    default:
        return ramped(motor->speed, 0, FRICTION, FRICTION);
    }
}

void motor_step(struct motor *motor, const struct axis_command *command)
{
    motor->speed = motor->is_jammed ? 0 : next_speed(motor, command);
    motor->position += motor->speed;
}

int32_t motor_position(const struct motor *motor)
{
    int64_t whole = motor->position / MICRO;

    return (int32_t)(motor->position % MICRO < 0 ? whole - 1 : whole);
}

int32_t motor_velocity(const struct motor *motor)
{
    return (int32_t)(motor->speed / MILLI);
}

bool motor_is_at_standstill(const struct motor *motor)
{
    return motor->speed == 0;
}

bool motor_is_at(const struct motor *motor, int32_t target)
{
    return motor->position == (int64_t)target * MICRO && motor->speed == 0;
}
