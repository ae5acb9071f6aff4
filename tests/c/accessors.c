/*
 * Tests of the header's accessors: what they read is what the node was told, and what its status word says, along a walk through every drive
 * state and along random calls; and of the identifiers that the node serves, with random receive PDOs.
 */
#include <stdio.h>
#include <string.h>

#include "cendurak.h"
#include "checks.h"

enum { STATE_BITS = 0x006F, VOLTAGE_BIT = 0x0010, REMOTE_BIT = 0x0200 };

static uint8_t state[CENDURAK_STATE_LEN], dict[CENDURAK_DICT_LEN], out[CENDURAK_OUT_LEN];

/* ---- calls */

static uint32_t frame(uint32_t identifier, const uint8_t *data, uint32_t length)
{
    return cendurak_frame(state, sizeof state, dict, sizeof dict, out, sizeof out, identifier, data, length);
}

static uint32_t event(uint32_t number, const uint8_t *args, uint32_t length)
{
    return cendurak_event(state, sizeof state, dict, sizeof dict, out, sizeof out, number, args, length);
}

static void power_up(void)
{
    cendurak_power_up(state, sizeof state, dict, sizeof dict, out, sizeof out, 5);
}

static uint32_t write(uint32_t index, uint8_t subindex, uint32_t value)
{
    const uint8_t request[8] = {0x22, (uint8_t)index, (uint8_t)(index >> 8), subindex,
                                (uint8_t)value, (uint8_t)(value >> 8), (uint8_t)(value >> 16), (uint8_t)(value >> 24)};
    return frame(0x605, request, 8);
}

static void control(uint32_t word)
{
    write(0x6040, 0, word);
}

static void nmt(uint8_t command)
{
    const uint8_t data[2] = {command, 5};
    frame(0, data, 2);
}

/* ---- the accessors against the status word and 6061h */

static int agrees(void)
{
    static const uint16_t bits[] = {0x00, 0x40, 0x21, 0x23, 0x27, 0x07, 0x0F, 0x08};
    uint16_t status = cendurak_status_word(dict);

    return cendurak_drive(state) < 8 && (status & STATE_BITS) == bits[cendurak_drive(state)]
           && cendurak_voltage(state) == (status & VOLTAGE_BIT) / VOLTAGE_BIT
           && (cendurak_nmt(state) != CENDURAK_NMT_STOPPED) == (status & REMOTE_BIT) / REMOTE_BIT
           && cendurak_mode(state) == dict[CENDURAK_DICT_AT_MODE_DISPLAY];
}

static void in_drive(uint8_t drive, const char *name)
{
    check(cendurak_drive(state) == drive && agrees(), name);
}

static void drive_states(void)
{
    const uint8_t on = 1, fault[3] = {0x10, 0x23, 0x02};

    power_up();
    in_drive(CENDURAK_DRIVE_NOT_READY, "Not ready");
    check(cendurak_voltage(state) == 0 && cendurak_nmt(state) == CENDURAK_NMT_PRE_OPERATIONAL, "power-up");
    event(CENDURAK_STARTED, 0, 0);
    event(CENDURAK_VOLTAGE, &on, 1);
    in_drive(CENDURAK_DRIVE_SWITCH_ON_DISABLED, "Switch on disabled");
    check(cendurak_voltage(state) == 1, "voltage");
    control(0x06);
    in_drive(CENDURAK_DRIVE_READY_TO_SWITCH_ON, "Ready to switch on");
    control(0x07);
    in_drive(CENDURAK_DRIVE_SWITCHED_ON, "Switched on");
    control(0x0F);
    in_drive(CENDURAK_DRIVE_OPERATION_ENABLED, "Operation enabled");
    control(0x0B);
    in_drive(CENDURAK_DRIVE_QUICK_STOP_ACTIVE, "Quick stop active");
    check(cendurak_control_word(dict) == 0x0B && cendurak_cause(state) == 0, "control word, no cause");
    event(CENDURAK_FAULT, fault, 3);
    in_drive(CENDURAK_DRIVE_FAULT_REACTION_ACTIVE, "Fault reaction active");
    check(cendurak_cause(state) == 1 && cendurak_error_code(dict) == 0x2310, "cause, error code");
    event(CENDURAK_REACTION_DONE, 0, 0);
    in_drive(CENDURAK_DRIVE_FAULT, "Fault");
    event(CENDURAK_CAUSE_GONE, 0, 0);
    check(cendurak_cause(state) == 0, "cause gone");
}

static void nmt_states(void)
{
    power_up();
    nmt(0x01);
    check(cendurak_nmt(state) == CENDURAK_NMT_OPERATIONAL && agrees(), "Operational");
    nmt(0x02);
    check(cendurak_nmt(state) == CENDURAK_NMT_STOPPED && agrees(), "Stopped");
    nmt(0x80);
    check(cendurak_nmt(state) == CENDURAK_NMT_PRE_OPERATIONAL && agrees(), "Pre-operational");
}

static void objects(void)
{
    const uint8_t at[8] = {0xFE, 0xFF, 0xFF, 0xFF, 0x00, 0x00, 0x00, 0x80};

    power_up();
    event(CENDURAK_FEEDBACK, at, 8);
    check(cendurak_position(dict) == -2 && cendurak_velocity(dict) == -2147483647 - 1, "position, velocity");
    write(0x6083, 0, 0x01020304);
    write(0x6084, 0, 0xF0000001);
    write(0x60FF, 0, (uint32_t)-70000);
    check(cendurak_acceleration(dict) == 0x01020304 && cendurak_deceleration(dict) == 0xF0000001, "acceleration, deceleration");
    check(cendurak_target_velocity(dict) == -70000, "target velocity");
    check(cendurak_mode(state) == CENDURAK_MODE_NONE, "no mode");
    write(0x6060, 0, 3);
    check(cendurak_mode(state) == CENDURAK_MODE_PROFILE_VELOCITY && agrees(), "profile velocity");
    write(0x6067, 0, 0x7FFFFFFF);
    write(0x6081, 0, 0x89ABCDEF);
    write(0x607A, 0, (uint32_t)-80000);
    check(cendurak_position_window(dict) == 0x7FFFFFFF && cendurak_profile_velocity(dict) == 0x89ABCDEF, "position window, profile velocity");
    check(cendurak_target_position(dict) == -80000, "target position");
    check(cendurak_minimum_position(dict) == -2147483647 - 1 && cendurak_maximum_position(dict) == 2147483647, "the limits by default");
    write(0x607D, 1, (uint32_t)-90000);
    write(0x607D, 2, 100000);
    check(cendurak_minimum_position(dict) == -90000 && cendurak_maximum_position(dict) == 100000, "the limits");
}

static void node_ids(void)
{
    uint32_t wrong = 0;

    for (uint32_t n = CENDURAK_FIRST_NODE; n <= CENDURAK_LAST_NODE; n++) {
        cendurak_power_up(state, sizeof state, dict, sizeof dict, out, sizeof out, n);
        wrong += cendurak_node_id(state) != n;
    }
    check(wrong == 0, "the node-ID");
}

static void transfers(void)
{
    const uint8_t read_name[8] = {0x40, 0x08, 0x10}, write_word[8] = {0x21, 0x40, 0x60}, abort[8] = {0x80};

    power_up();
    check(cendurak_transfer(state) == CENDURAK_TRANSFER_NONE, "no transfer");
    frame(0x605, read_name, 8);
    check(cendurak_transfer(state) == CENDURAK_TRANSFER_UPLOAD, "an upload");
    frame(0x605, write_word, 8);
    check(cendurak_transfer(state) == CENDURAK_TRANSFER_DOWNLOAD, "a download");
    frame(0x605, abort, 8);
    check(cendurak_transfer(state) == CENDURAK_TRANSFER_NONE, "a transfer that was ended");
}

/* ---- set-points */

static void set_point(uint32_t target, uint32_t velocity, uint32_t acceleration, uint32_t deceleration)
{
    write(0x607A, 0, target);
    write(0x6081, 0, velocity);
    write(0x6083, 0, acceleration);
    write(0x6084, 0, deceleration);
    control(0x1F);
    control(0x0F);
}

static void active(uint32_t count, int32_t target, uint32_t velocity, uint32_t acceleration, uint32_t deceleration, const char *name)
{
    struct cendurak_set_point p = cendurak_active_set_point(state);

    check(cendurak_set_points(state) == count && p.target == target && p.velocity == velocity && p.acceleration == acceleration
              && p.deceleration == deceleration,
          name);
}

static void set_points(void)
{
    power_up();
    event(CENDURAK_STARTED, 0, 0);
    write(0x6060, 0, 1);
    control(0x06);
    control(0x0F);
    check(cendurak_set_points(state) == 0 && cendurak_mode(state) == CENDURAK_MODE_PROFILE_POSITION, "no set-point");
    set_point((uint32_t)-123456789, 0x11223344, 0x55667788, 0x99AABBCC);
    active(1, -123456789, 0x11223344, 0x55667788, 0x99AABBCC, "one set-point");
    set_point(2147483647, 1, 2, 3);
    active(2, -123456789, 0x11223344, 0x55667788, 0x99AABBCC, "two set-points: the first");
    event(CENDURAK_SET_POINT_REACHED, 0, 0);
    active(1, 2147483647, 1, 2, 3, "two set-points: the second");
    event(CENDURAK_SET_POINT_REACHED, 0, 0);
    check(cendurak_set_points(state) == 0, "at rest");
    check(event(CENDURAK_SET_POINT_REACHED, 0, 0) == 256 * CENDURAK_OUT_OF_PLACE, "none to be reached");
}

static void window_time(void)
{
    const uint8_t at[8] = {0};

    power_up();
    event(CENDURAK_STARTED, 0, 0);
    write(0x6068, 0, 0x1234);
    check(cendurak_window_time(dict) == 0x1234 && cendurak_stay(state) == 0, "window time");
    write(0x6060, 0, 1);
    control(0x06);
    control(0x0F);
    set_point(0, 1, 1, 1);
    event(CENDURAK_FEEDBACK, at, 8);
    for (uint32_t i = 0; i < 0x0203; i++)
        event(CENDURAK_TICK, 0, 0);
    check(cendurak_stay(state) == 0x0203, "ticks inside the window");
    write(0x6060, 0, 3);
    check(cendurak_stay(state) == 0, "no ticks inside in another mode");
}

/* ---- the answer of a load */

static void load_answers(void)
{
    /* two entries: 6060h in one byte, 1 and 7 */
    static const uint8_t file[] = {2, 0, 0, 0, 0x60, 0x60, 0, 1, 0, 0, 0, 1, 0x60, 0x60, 0, 1, 0, 0, 0, 7};
    const uint64_t ones = 0xFFFFFFFFFFFFFFFF, parts = 0x1234567890ABCDEF;
    uint64_t answer;

    power_up();
    answer = cendurak_load(state, sizeof state, dict, sizeof dict, file, sizeof file);
    check(cendurak_load_refusal(answer) == CENDURAK_ENTRY_ABORTED && cendurak_load_entry(answer) == 2
              && cendurak_load_abort_code(answer) == 0x06090030,
          "a load that is refused");
    check(cendurak_load_refusal(parts) == 0x1234 && cendurak_load_entry(parts) == 0x5678 && cendurak_load_abort_code(parts) == 0x90ABCDEF,
          "the parts of a load's answer");
    check(cendurak_load_refusal(ones) == 0xFFFF && cendurak_load_entry(ones) == 0xFFFF && cendurak_load_abort_code(ones) == 0xFFFFFFFF,
          "the parts at their greatest");
}

/* ---- random calls: the accessors agree with the status word, and event 6 is in place just where a set-point waits */

static uint64_t seed = 1;

static uint32_t random_below(uint32_t bound)
{
    seed = seed * 6364136223846793005u + 1442695040888963407u;
    return (uint32_t)(seed >> 33) % bound;
}

static void random_call(void)
{
    static const uint8_t words[] = {0x00, 0x06, 0x07, 0x0F, 0x0F, 0x1F, 0x3F, 0x5F, 0x0B, 0x80}, modes[] = {0, 1, 1, 3};
    static const uint8_t commands[] = {0x01, 0x01, 0x02, 0x80, 0x82};
    const uint8_t flag = (uint8_t)random_below(2), fault[3] = {1, 0x10, 0};

    switch (random_below(16)) {
    case 0: event(CENDURAK_FAULT, fault, 3); break;
    case 1: event(CENDURAK_VOLTAGE, &flag, 1); break;
    case 2: event(CENDURAK_CAUSE_GONE, 0, 0); break;
    case 3: nmt(commands[random_below(sizeof commands)]); break;
    case 4: write(0x6060, 0, modes[random_below(sizeof modes)]); break;
    case 5: case 6: event(1 + random_below(4), 0, 0); break;
    default: control(words[random_below(sizeof words)]); break;
    }
}

static void random_calls(void)
{
    uint32_t wrong = 0, waits = 0, seen = 0;

    power_up();
    for (uint32_t i = 0; i < 50000; i++) {
        random_call();
        wrong += !agrees();
        seen |= 1u << cendurak_drive(state);
        if (random_below(8) != 0)
            continue;
        uint32_t count = cendurak_set_points(state);
        uint32_t refusal = cendurak_refusal(event(CENDURAK_SET_POINT_REACHED, 0, 0));
        wrong += refusal != (count == 0 ? CENDURAK_OUT_OF_PLACE : CENDURAK_ACCEPTED);
        wrong += count != 0 && cendurak_set_points(state) != count - 1;
        waits |= 1u << count;
    }
    check(wrong == 0, "random calls");
    check(waits == 7 && (seen & 0xFE) == 0xFE, "random calls met 0, 1 and 2 set-points and every drive state but the first");
}

/* ---- the identifiers that are served: just those of frames that can do something */

static const uint8_t nmt_commands[] = {0x80, 0x01, 0x02}; /* to Pre-operational, Operational, Stopped */
static uint16_t served[CENDURAK_MOST_SERVED];
static uint32_t served_count;

/* Receive PDOs with random identifiers, of which some are not valid, and random types. */
static void random_configuration(void)
{
    power_up();
    for (uint32_t i = 0; i < CENDURAK_RECEIVE_PDOS; i++) {
        write(0x1400 + i, 1, 0x80000000);
        write(0x1400 + i, 2, random_below(2) == 0 ? 255 : random_below(241));
        if (random_below(2) != 0)
            write(0x1400 + i, 1, 0x181 + random_below(0x3FF));
    }
    event(CENDURAK_STARTED, 0, 0);
    served_count = cendurak_served(state, dict, served);
}

static int is_served(uint32_t identifier)
{
    int is_there = 0;

    for (uint32_t i = 0; i < served_count; i++)
        is_there |= served[i] == identifier;
    return is_there;
}

/* Whether a frame of random bytes, or of the two given, sends or changes anything. What it did is taken back. */
static int has_effect(uint32_t identifier, uint32_t length, uint8_t first, uint8_t second)
{
    static uint8_t state_before[CENDURAK_STATE_LEN], dict_before[CENDURAK_DICT_LEN];
    uint8_t data[8] = {first, second};
    int has_changed;

    memcpy(state_before, state, sizeof state);
    memcpy(dict_before, dict, sizeof dict);
    for (uint32_t i = 2; i < 8; i++)
        data[i] = (uint8_t)random_below(256);
    has_changed = frame(identifier, data, length) != 0 || memcmp(state, state_before, sizeof state) != 0 || memcmp(dict, dict_before, sizeof dict) != 0;
    memcpy(state, state_before, sizeof state);
    memcpy(dict, dict_before, sizeof dict);
    return has_changed;
}

/* Every identifier that is not in the list, with frames of every length. How many do something. */
static uint32_t effects_of_others(void)
{
    uint32_t wrong = 0;

    for (uint32_t identifier = 0; identifier <= CENDURAK_LAST_IDENTIFIER; identifier++)
        if (!is_served(identifier))
            wrong += has_effect(identifier, identifier % 9, (uint8_t)random_below(256), 5) + has_effect(identifier, 8, 0x40, 0x00)
                     + has_effect(identifier, 2, 0x02, 5) + has_effect(identifier, 0, 0, 0);
    return wrong;
}

/* The identifiers of the list for which some frame does something in the present NMT state, as bits. A PDO's own are six bytes at the most. */
static uint32_t effects_of_served(void)
{
    uint32_t seen = 0;

    for (uint32_t i = 0; i < served_count; i++)
        if (has_effect(served[i], 2, 0x82, 5) || has_effect(served[i], 8, 0x40, 0x00) || has_effect(served[i], 1, 1, 0))
            seen |= 1u << i;
    return seen;
}

static void served_identifiers(void)
{
    uint32_t wrong = 0, idle = 0, counts = 0;

    for (uint32_t i = 0; i < 20; i++) {
        uint32_t seen = 0;
        random_configuration();
        counts |= 1u << served_count;
        for (uint32_t j = 0; j < sizeof nmt_commands; j++) {
            nmt(nmt_commands[j]);
            wrong += effects_of_others() + (cendurak_served(state, dict, served) != served_count);
            seen |= effects_of_served();
        }
        idle += seen != (1u << served_count) - 1;
    }
    check(wrong == 0, "frames on identifiers that are not served do nothing, in any NMT state");
    check(idle == 0, "on each identifier that is served some frame does something");
    check((counts & 0xF8) == 0xF8, "configurations of none to four valid receive PDOs were met");
}

int main(void)
{
    drive_states();
    nmt_states();
    node_ids();
    transfers();
    objects();
    set_points();
    window_time();
    load_answers();
    random_calls();
    served_identifiers();
    printf("%u passed, %u failed\n", passed, failed);
    return failed != 0;
}
