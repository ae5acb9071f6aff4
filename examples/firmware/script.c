#include "script.h"

#include <string.h>

#include "feeding.h"

/* ---- the words of a script */

enum { SOON = 50, A_WHILE = 4000, TWENTY_LABELS = 15000 };

#define NMT(command) {.kind = STEP_NMT, .says = #command, .value = (command)}
#define SYNC_EVERY(ms) {.kind = STEP_SYNC, .value = (ms)}
#define CONTROL(word) {.kind = STEP_CONTROL, .says = #word, .value = (word)}
#define MOVE(word, to) {.kind = STEP_MOVE, .says = #word, .value = (word), .target = (to)}
#define FLOOD(identifier, bytes, v, each_ms, ms) \
    {.kind = STEP_FLOOD, .index = (identifier), .size = (bytes), .value = (v), .each = (each_ms), .within = (ms)}
#define KEY {.kind = STEP_KEY}
#define PLANT(what) {.kind = STEP_PLANT, .value = (what)}
#define WAIT(ms) {.kind = STEP_WAIT, .within = (ms)}
#define WRITE(object, sub, bytes, v) {.kind = STEP_WRITE, .index = (object), .subindex = (sub), .size = (bytes), .value = (v), .within = SOON}
#define REFUSED(object, sub, bytes, v, abort) \
    {.kind = STEP_WRITE, .index = (object), .subindex = (sub), .size = (bytes), .value = (v), .expected = (abort), .within = SOON}
#define READ(object, sub, v) {.kind = STEP_READ, .index = (object), .subindex = (sub), .expected = (v), .within = SOON}
#define TEXT(object, sub, text) {.kind = STEP_TEXT, .says = (text), .index = (object), .subindex = (sub), .within = SOON}
#define FEED(labels, outcome) {.kind = STEP_FEED, .says = #outcome, .list = (labels), .expected = (outcome), .within = SOON}
#define LABELS(what, ms) {.kind = STEP_LABELS, .value = (what), .within = (ms)}
#define BOOT_UP {.kind = STEP_BOOT_UP, .within = SOON}
#define HEARTBEAT(nmt) {.kind = STEP_HEARTBEAT, .says = #nmt, .expected = (nmt), .within = 150}
#define STATUS(bits, v) {.kind = STEP_STATUS, .says = #v, .mask = (bits), .expected = (v), .within = A_WHILE}
#define EMERGENCY(code, bits) {.kind = STEP_EMERGENCY, .says = #code, .value = (code), .expected = (bits), .within = SOON}
#define POSITION(at) {.kind = STEP_POSITION, .target = (at), .within = SOON}
#define SPEED(at) {.kind = STEP_SPEED, .target = (at), .within = A_WHILE}
#define SILENCE(ms) {.kind = STEP_SILENCE, .within = (ms)}
#define NO_REPLY(ms) {.kind = STEP_NO_REPLY, .within = (ms)}
#define AT_MOST_HEARTBEATS(count, ms) {.kind = STEP_AT_MOST, .value = (count), .within = (ms)}
#define WITHOUT(bits, ms) {.kind = STEP_WITHOUT, .says = #bits, .mask = (bits), .within = (ms)}
#define END {.kind = STEP_END}

/* NMT commands, and the states that a heartbeat tells. */
enum { START = 0x01, RESET_NODE = 0x81, RESET_COMMUNICATION = 0x82, IN_OPERATIONAL = 0x05, IN_PRE_OPERATIONAL = 0x7F };

/* Control words. */
enum {
    DISABLE_VOLTAGE = 0x0000,
    SHUTDOWN = 0x0006,
    SWITCH_ON = 0x0007,
    QUICK_STOP = 0x000B,
    ENABLE = 0x000F,
    NEW_SET_POINT = 0x001F,
    NEW_AT_ONCE = 0x003F,
    NEW_RELATIVE = 0x005F,
    FAULT_RESET = 0x0080,
    HALT = 0x010F
};

/* Status word: the bits that tell the drive state, and single bits. */
enum {
    NOTHING = 0x0000,
    STATE_BITS = 0x006F,
    SWITCH_ON_DISABLED = 0x0040,
    READY_TO_SWITCH_ON = 0x0021,
    SWITCHED_ON = 0x0023,
    OPERATION_ENABLED = 0x0027,
    QUICK_STOP_ACTIVE = 0x0007,
    IN_FAULT = 0x0008,
    TARGET_REACHED = 0x0400,
    LIMIT_ACTIVE = 0x0800,
    SET_POINT_TAKEN = 0x1000
};

/* What a master or a third node floods the bus with: control words for this node and for node 6, SDO uploads of the status word from this one. */
enum { CONTROL_OF_5 = 0x205, CONTROL_OF_6 = 0x206, SDO_OF_5 = 0x605, READ_STATUS = 0x00604140 };

/* Emergencies, and aborts of SDO. */
enum { NO_ERROR = 0x0000, OVER_CURRENT = 0x2310, OVER_TEMPERATURE = 0x4310, CAN_OVERRUN = 0x8110, BUS_OFF_OVER = 0x8140 };
enum { NOT_COMPATIBLE = 0x06040043, VALUE_INVALID = 0x06090030, NOT_NOW = 0x08000022 };

/* A set-point by the handshake: told, taken, bit 4 back, reached. */
#define MOVED(word, to, at)                                                                                                        \
    MOVE(word, to), STATUS(SET_POINT_TAKEN, SET_POINT_TAKEN), CONTROL(ENABLE), STATUS(SET_POINT_TAKEN | TARGET_REACHED, TARGET_REACHED), \
        POSITION(at)

/* ---- parts */

/* What are you, and have you loaded your configuration? What is written is judged as before: limits the wrong way round, a mode, the mapping of a
 * valid PDO are refused. And, until the first heartbeat comes, what is your name. */
static const struct step commission[] = {
    BOOT_UP,
    READ(0x1000, 0, 0x00020192),
    READ(0x1017, 0, 100),
    READ(0x607D, 1, (uint32_t)-20000),
    READ(0x607D, 2, 20000),
    READ(0x6061, 0, 1),
    READ(0x1803, 1, 0x40000485),
    READ(0x1A03, 0, 2),
    READ(0x1A03, 1, 0x60640020),
    REFUSED(0x6060, 0, 1, 7, VALUE_INVALID),
    WRITE(0x607D, 1, 4, 20000),
    REFUSED(0x607D, 2, 4, (uint32_t)-20000, NOT_COMPATIBLE),
    WRITE(0x607D, 1, 4, (uint32_t)-20000),
    REFUSED(0x1A03, 0, 1, 0, NOT_NOW),
    END,
};

/* The node refused its file, and has its defaults. The master writes the settings itself: window, limits and ramps, transmit PDO 3 on SYNC, transmit
 * PDO 4 with position and velocity on SYNC. */
static const struct step commission_by_sdo[] = {
    BOOT_UP,
    READ(0x1017, 0, 0),
    READ(0x607D, 1, 0x80000000),
    READ(0x6061, 0, 0),
    WRITE(0x1017, 0, 2, 100),
    WRITE(0x6060, 0, 1, 1),
    WRITE(0x6067, 0, 4, 5),
    WRITE(0x6068, 0, 2, 20),
    WRITE(0x607D, 1, 4, (uint32_t)-20000),
    WRITE(0x607D, 2, 4, 20000),
    WRITE(0x6081, 0, 4, 10000),
    WRITE(0x6083, 0, 4, 50000),
    WRITE(0x6084, 0, 4, 40000),
    WRITE(0x1802, 2, 1, 1),
    WRITE(0x1803, 1, 4, 0xC0000485),
    WRITE(0x1803, 2, 1, 1),
    WRITE(0x1A03, 0, 1, 0),
    WRITE(0x1A03, 1, 4, 0x60640020),
    WRITE(0x1A03, 2, 4, 0x606C0020),
    WRITE(0x1A03, 0, 1, 2),
    WRITE(0x1803, 1, 4, 0x40000485),
    END,
};

static const struct step start[] = {
    TEXT(0x1008, 0, "Cendurak servo node"),
    HEARTBEAT(IN_PRE_OPERATIONAL),
    NMT(START),
    SYNC_EVERY(10),
    HEARTBEAT(IN_OPERATIONAL),
    END,
};

static const struct step enable[] = {
    CONTROL(SHUTDOWN),
    STATUS(STATE_BITS, READY_TO_SWITCH_ON),
    CONTROL(SWITCH_ON),
    STATUS(STATE_BITS, SWITCHED_ON),
    CONTROL(ENABLE),
    STATUS(STATE_BITS, OPERATION_ENABLED),
    END,
};

/* Absolute, relative, two in a row, and one that is outside the limits. */
static const struct step positions[] = {
    MOVED(NEW_SET_POINT, 10000, 10000),
    MOVED(NEW_RELATIVE, -2500, 7500),
    MOVE(NEW_SET_POINT, 9000),
    STATUS(SET_POINT_TAKEN, SET_POINT_TAKEN),
    CONTROL(ENABLE),
    STATUS(SET_POINT_TAKEN, NOTHING),
    MOVED(NEW_SET_POINT, -3000, -3000),
    MOVE(NEW_SET_POINT, 30000),
    STATUS(SET_POINT_TAKEN | LIMIT_ACTIVE, LIMIT_ACTIVE),
    POSITION(-3000),
    CONTROL(ENABLE),
    END,
};

/* On the way a new target at once, too near to stop at: the axis glides through its window, and comes back. Target reached is shown after the
 * stop alone, so that whatever waits for it, a knife or a gripper, does not start too early. */
static const struct step glide[] = {
    MOVE(NEW_SET_POINT, 10000),
    STATUS(SET_POINT_TAKEN, SET_POINT_TAKEN),
    CONTROL(ENABLE),
    WAIT(500),
    MOVE(NEW_AT_ONCE, 2200),
    STATUS(SET_POINT_TAKEN, SET_POINT_TAKEN),
    CONTROL(ENABLE),
    WITHOUT(TARGET_REACHED, 300),
    STATUS(TARGET_REACHED, TARGET_REACHED),
    POSITION(2200),
    END,
};

/* Profile velocity, halted, and back to positions. */
static const struct step velocities[] = {
    WRITE(0x6060, 0, 1, 3),
    WRITE(0x60FF, 0, 4, (uint32_t)-4000),
    SPEED(-4000),
    STATUS(TARGET_REACHED, TARGET_REACHED),
    CONTROL(HALT),
    SPEED(0),
    STATUS(TARGET_REACHED, TARGET_REACHED),
    WRITE(0x60FF, 0, 4, 0),
    WRITE(0x6060, 0, 1, 1),
    CONTROL(ENABLE),
    MOVED(NEW_SET_POINT, 0, 0),
    END,
};

static const struct step quick_stop[] = {
    MOVE(NEW_SET_POINT, 15000),
    STATUS(SET_POINT_TAKEN, SET_POINT_TAKEN),
    WAIT(400),
    CONTROL(QUICK_STOP),
    STATUS(STATE_BITS, QUICK_STOP_ACTIVE),
    STATUS(STATE_BITS, SWITCH_ON_DISABLED),
    SPEED(0),
    END,
};

/* Back from a fault whose cause is gone. */
#define FAULT_RESET_DONE CONTROL(DISABLE_VOLTAGE), CONTROL(FAULT_RESET), EMERGENCY(NO_ERROR, 0x00), STATUS(STATE_BITS, SWITCH_ON_DISABLED)

/* Tripped on the way: emergency, reaction, fault; a second fault, told too; no reset while a cause is there; reset. */
static const struct step fault[] = {
    MOVE(NEW_SET_POINT, 5000),
    STATUS(SET_POINT_TAKEN, SET_POINT_TAKEN),
    WAIT(300),
    PLANT(TROUBLE_TRIP),
    EMERGENCY(OVER_CURRENT, 0x03),
    STATUS(STATE_BITS, IN_FAULT),
    SPEED(0),
    PLANT(TROUBLE_HEAT),
    EMERGENCY(OVER_TEMPERATURE, 0x0B),
    CONTROL(FAULT_RESET),
    WAIT(20),
    STATUS(STATE_BITS, IN_FAULT),
    PLANT(TROUBLE_CURE),
    WAIT(2),
    FAULT_RESET_DONE,
    READ(0x603F, 0, OVER_TEMPERATURE),
    END,
};

static const struct step home[] = {
    MOVED(NEW_SET_POINT, 0, 0),
    END,
};

/* The node forgets voltage, self-test and configuration in a reset, and in one of communication its PDOs; the glue tells them again, and loads the
 * configuration again. */
static const struct step reset[] = {
    CONTROL(DISABLE_VOLTAGE),
    STATUS(STATE_BITS, SWITCH_ON_DISABLED),
    SYNC_EVERY(0),
    NMT(RESET_NODE),
    BOOT_UP,
    READ(0x607D, 2, 20000),
    WAIT(2),
    READ(0x6041, 0, 0x0250),
    NMT(RESET_COMMUNICATION),
    BOOT_UP,
    READ(0x1A03, 1, 0x60640020),
    END,
};

/* More frames than the queue holds while the main loop is busy elsewhere, on the way. */
static const struct step flood[] = {
    MOVE(NEW_SET_POINT, 15000),
    STATUS(SET_POINT_TAKEN, SET_POINT_TAKEN),
    WAIT(200),
    PLANT(TROUBLE_HOLD_UP),
    FLOOD(CONTROL_OF_5, 2, ENABLE, 12, 5),
    EMERGENCY(CAN_OVERRUN, 0x11),
    STATUS(STATE_BITS, IN_FAULT),
    SPEED(0),
    FAULT_RESET_DONE,
    END,
};

/* The same, but the frames are for another node: the filters keep them away, and the axis goes on. */
static const struct step others[] = {
    MOVE(NEW_SET_POINT, 15000),
    STATUS(SET_POINT_TAKEN, SET_POINT_TAKEN),
    CONTROL(ENABLE),
    WAIT(200),
    PLANT(TROUBLE_HOLD_UP),
    FLOOD(CONTROL_OF_6, 2, ENABLE, 12, 5),
    STATUS(SET_POINT_TAKEN | TARGET_REACHED, TARGET_REACHED),
    POSITION(15000),
    END,
};

/* Nobody is on the bus for a second, on the way, with a heartbeat every 20 ms; at 0.9 s the amplifier is tripped. The first that is heard again is
 * of that fault, and of the heartbeats the present one. */
static const struct step dead[] = {
    WRITE(0x1017, 0, 2, 20),
    MOVE(NEW_SET_POINT, 15000),
    STATUS(SET_POINT_TAKEN, SET_POINT_TAKEN),
    PLANT(TROUBLE_DEAD_BUS),
    SILENCE(900),
    PLANT(TROUBLE_TRIP),
    SILENCE(95),
    AT_MOST_HEARTBEATS(1, 15),
    EMERGENCY(OVER_CURRENT, 0x03),
    STATUS(STATE_BITS, IN_FAULT),
    HEARTBEAT(IN_OPERATIONAL),
    SPEED(0),
    PLANT(TROUBLE_CURE),
    WAIT(2),
    FAULT_RESET_DONE,
    END,
};

/* The CAN controller takes itself off the bus, on the way: the axis is stopped, and when the controller is back the master hears why. */
static const struct step bus_off[] = {
    MOVE(NEW_SET_POINT, 15000),
    STATUS(SET_POINT_TAKEN, SET_POINT_TAKEN),
    WAIT(300),
    PLANT(TROUBLE_BUS_OFF),
    SILENCE(95),
    EMERGENCY(BUS_OFF_OVER, 0x11),
    STATUS(STATE_BITS, IN_FAULT),
    SPEED(0),
    FAULT_RESET_DONE,
    END,
};

/* The operator halves the speed at the amplifier itself. The master hears no reply that it did not ask for, and reads the new value. */
static const struct step service[] = {
    READ(0x6081, 0, 10000),
    KEY,
    NO_REPLY(20),
    READ(0x6081, 0, 5000),
    END,
};

/* The dictionary is damaged on the way: the node falls silent and the axis runs out without current, until it is switched off and on. */
static const struct step damage[] = {
    MOVE(NEW_SET_POINT, 15000),
    STATUS(SET_POINT_TAKEN, SET_POINT_TAKEN),
    WAIT(400),
    PLANT(TROUBLE_FLIP),
    WAIT(2),
    SILENCE(600),
    SYNC_EVERY(0),
    PLANT(TROUBLE_POWER_CYCLE),
    BOOT_UP,
    WAIT(100),
    READ(0x6041, 0, 0x0250),
    READ(0x606C, 0, 0),
    END,
};

/* The bus has no room for the node for a while, on the way: of process data the latest waits, and no frame is lost. */
static const struct step stall[] = {
    MOVE(NEW_SET_POINT, 5000),
    STATUS(SET_POINT_TAKEN, SET_POINT_TAKEN),
    CONTROL(ENABLE),
    WAIT(100),
    PLANT(TROUBLE_STALL),
    SILENCE(195),
    WAIT(20),
    READ(0x6040, 0, ENABLE),
    STATUS(SET_POINT_TAKEN | TARGET_REACHED, TARGET_REACHED),
    POSITION(5000),
    END,
};

static const struct step one_move[] = {
    MOVED(NEW_SET_POINT, 5000, 5000),
    END,
};

/* The axis does not get there, and the master must say so. */
static const struct step jam[] = {
    PLANT(TROUBLE_JAM),
    MOVED(NEW_SET_POINT, 10000, 10000),
    END,
};

/* Twenty labels, with a label of no length, and labels fed back; and a list that is too long by one. */
static const int32_t twenty_lengths[] = {1200, 1200, 850, 0, 2400, -300, 1200, 1200, 60, 3000, -1500, 0, 0, 1999, 1, -1, 4000, -2500, 777, 1111};
static const int32_t too_many_lengths[FEEDER_MOST_LENGTHS + 1];
static const struct label_list twenty = {twenty_lengths, sizeof twenty_lengths / sizeof twenty_lengths[0]};
static const struct label_list too_many = {too_many_lengths, sizeof too_many_lengths / sizeof too_many_lengths[0]};

static const struct step label_profile[] = {
    WRITE(0x6081, 0, 4, 12000),
    WRITE(0x6083, 0, 4, 60000),
    WRITE(0x6084, 0, 4, 60000),
    WRITE(0x6067, 0, 4, 3),
    WRITE(0x6068, 0, 2, 10),
    FEED(&twenty, FEEDING_NOT_READY),
    END,
};

/* Labels are fed while the bus has other things to do: objects are read and written, a write is refused, so is a call. Then there is no room for
 * the node's frames, while the master asks and asks, and two labels are reached meanwhile: the next one waits until the replies are sent, and is not
 * lost. Behind the last one the feeder goes on stepping. */
static const struct step feed[] = {
    FEED(&too_many, FEEDING_TOO_LONG),
    WAIT(20),
    READ(0x6040, 0, ENABLE),
    FEED(&twenty, FEEDING_STARTED),
    WAIT(400),
    WRITE(0x6081, 0, 4, 9000),
    REFUSED(0x6060, 0, 1, 7, VALUE_INVALID),
    TEXT(0x1008, 0, "Cendurak servo node"),
    PLANT(TROUBLE_STRAY),
    WAIT(284),
    PLANT(TROUBLE_STALL),
    FLOOD(SDO_OF_5, 8, READ_STATUS, 1, 20),
    WAIT(280),
    READ(0x6061, 0, 1),
    LABELS(LABELS_ALL_REACHED, TWENTY_LABELS),
    WAIT(200),
    LABELS(LABELS_ONCE_EACH, SOON),
    LABELS(LABELS_IN_PLACE, SOON),
    LABELS(LABELS_TWO_AHEAD, SOON),
    LABELS(LABELS_ALONE, SOON),
    STATUS(SET_POINT_TAKEN | TARGET_REACHED, TARGET_REACHED),
    POSITION(14697),
    END,
};

/* The master halts the axis, and the feeder leaves it at that; or it switches the drive off while a list is fed. */
static const struct step halt[] = {
    FEED(&twenty, FEEDING_STARTED),
    WAIT(500),
    CONTROL(HALT),
    SPEED(0),
    STATUS(TARGET_REACHED, TARGET_REACHED),
    WAIT(100),
    READ(0x6040, 0, HALT),
    FEED(&twenty, FEEDING_NOT_READY),
    CONTROL(SWITCH_ON),
    STATUS(STATE_BITS, SWITCHED_ON),
    CONTROL(ENABLE),
    STATUS(STATE_BITS, OPERATION_ENABLED),
    FEED(&twenty, FEEDING_STARTED),
    WAIT(500),
    CONTROL(SHUTDOWN),
    STATUS(STATE_BITS, READY_TO_SWITCH_ON),
    WAIT(100),
    READ(0x6040, 0, SHUTDOWN),
    END,
};

/* Somebody else writes 6040h, an edge at once, and takes it back before the feeder can see it: two labels that were held are thrown away, and the
 * checks must say so. */
static const struct step meddle[] = {
    FEED(&twenty, FEEDING_STARTED),
    WAIT(500),
    CONTROL(NEW_AT_ONCE),
    CONTROL(ENABLE),
    LABELS(LABELS_ALL_REACHED, TWENTY_LABELS),
    LABELS(LABELS_ONCE_EACH, SOON),
    LABELS(LABELS_IN_PLACE, SOON),
    LABELS(LABELS_TWO_AHEAD, SOON),
    LABELS(LABELS_ALONE, SOON),
    END,
};

/* ---- scripts */

static const struct step *const moves_parts[] = {
    commission, start, enable, positions, glide, velocities, quick_stop, enable, fault, enable, home, reset, 0};
static const struct step *const flood_parts[] = {commission, start, enable, flood, enable, home, 0};
static const struct step *const others_parts[] = {commission, start, enable, others, 0};
static const struct step *const dead_parts[] = {commission, start, enable, dead, enable, home, 0};
static const struct step *const bus_off_parts[] = {commission, start, enable, bus_off, enable, home, 0};
static const struct step *const service_parts[] = {commission, start, service, enable, one_move, 0};
static const struct step *const damage_parts[] = {commission, start, enable, damage, 0};
static const struct step *const stall_parts[] = {commission, start, enable, stall, 0};
static const struct step *const swapped_parts[] = {commission_by_sdo, start, enable, one_move, 0};
static const struct step *const feeder_parts[] = {commission, start, label_profile, enable, feed, 0};
static const struct step *const halted_parts[] = {commission, start, label_profile, enable, halt, 0};
static const struct step *const meddling_parts[] = {commission, start, label_profile, enable, meddle, 0};
static const struct step *const jam_parts[] = {commission, start, enable, jam, 0};

static const struct script scripts[] = {
    {.name = "moves", .parts = moves_parts},
    {.name = "flood", .parts = flood_parts},
    {.name = "others", .parts = others_parts},
    {.name = "dead", .parts = dead_parts},
    {.name = "busoff", .parts = bus_off_parts},
    {.name = "service", .parts = service_parts},
    {.name = "damage", .parts = damage_parts},
    {.name = "stall", .parts = stall_parts},
    {.name = "swapped", .parts = swapped_parts, .has_swapped_limits = true},
    {.name = "feeder", .parts = feeder_parts},
    {.name = "halted", .parts = halted_parts},
    {.name = "meddling", .parts = meddling_parts},
    {.name = "jam", .parts = jam_parts},
};

const struct script *script_named(const char *name)
{
    for (uint32_t i = 0; i < sizeof scripts / sizeof scripts[0]; i++)
        if (strcmp(scripts[i].name, name) == 0)
            return &scripts[i];
    return 0;
}
