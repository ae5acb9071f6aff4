/*
 * The kinds of call that docs/PERFORMANCE.md speaks of. A kind is a word of a letter and a digit: the letter is the call, the digit says what
 * is mapped; without a digit the maps are the default ones. `prepare` brings the node to where the call is made, `call` makes it for the
 * i-th time. tools/measure has the names of the kinds.
 */
#ifndef KINDS_H
#define KINDS_H

#include "calls.h"
#include "transfer.h"

/* ---- requests */

static inline void sdo(uint8_t command, uint32_t index, uint8_t subindex, uint32_t value)
{
    const uint8_t request[8] = {command, (uint8_t)index, (uint8_t)(index >> 8), subindex,
                                (uint8_t)value, (uint8_t)(value >> 8), (uint8_t)(value >> 16), (uint8_t)(value >> 24)};
    frame(0x605, request, 8);
}

static inline void operational(void)
{
    const uint8_t start[2] = {1, 5};
    frame(0, start, 2);
}

static inline void ready(void)
{
    const uint8_t on = 1;
    power_up(5);
    event(CENDURAK_STARTED, 0, 0);
    event(CENDURAK_VOLTAGE, &on, 1);
}

/* One transmission type for all four TPDOs. */
static inline void types(uint8_t type)
{
    for (uint32_t i = 0; i < 4; i++)
        sdo(0x2F, 0x1800 + i, 2, type);
}

/* ---- maps. A PDO is mapped while its identifier is marked as not valid, bit 31. `is_mapped` tells that no map was refused. */

enum { RPDO3 = 2, TPDO3 = 2 };

static const uint32_t NOT_VALID = 0x80000000u, NO_RTR = 0x40000000u;
static int is_mapped = 1;

static inline void map(uint32_t communication, uint32_t identifier, uint32_t count, const uint32_t *entries)
{
    sdo(0x23, communication, 1, NOT_VALID + identifier);
    sdo(0x2F, communication + 0x200, 0, 0);
    for (uint32_t k = 0; k < count; k++)
        sdo(0x23, communication + 0x200, (uint8_t)(k + 1), entries[k]);
    sdo(0x2F, communication + 0x200, 0, count);
    is_mapped &= cendurak_data(out, 0)[0] == 0x60;
    sdo(0x23, communication, 1, identifier);
}

static inline void map_rpdo(uint32_t i, uint32_t count, const uint32_t *entries)
{
    map(0x1400 + i, 0x205 + 0x100 * i, count, entries);
}

static inline void map_tpdo(uint32_t i, uint32_t count, const uint32_t *entries)
{
    map(0x1800 + i, NO_RTR + 0x185 + 0x100 * i, count, entries);
}

/* Eight entries of a byte each in every map. */
static inline void full_maps(void)
{
    uint32_t modes[8], displays[8];

    for (uint32_t k = 0; k < 8; k++)
        modes[k] = 0x60600008, displays[k] = 0x60610008;
    for (uint32_t i = 0; i < 4; i++) {
        map_rpdo(i, 8, modes);
        map_tpdo(i, 8, displays);
    }
}

static inline void prepare_maps(char maps)
{
    static const uint32_t position_velocity[] = {0x60640020, 0x606C0020}, three[] = {0x60410010, 0x60610008, 0x60640020};
    static const uint32_t acceleration[] = {0x60830020}, target_first[] = {0x607A0020, 0x60400010};

    switch (maps) {
    case '1': map_tpdo(TPDO3, 2, position_velocity); break;
    case '2': map_tpdo(TPDO3, 3, three); break;
    case '3': map_tpdo(TPDO3, 0, 0); break;
    case '4': map_rpdo(RPDO3, 1, acceleration); break;
    case '5': map_rpdo(RPDO3, 2, target_first); break;
    case '6': full_maps(); break;
    default: break;
    }
}

/* ---- the calls */

/* RPDO3, as long as its map is: two frames of it that follow each other differ in what they write. */
static inline void rpdo3(char maps, uint32_t i)
{
    const uint8_t word = i % 2 ? 0x07 : 0x06, mode = i % 2 ? 3 : 1;
    const uint8_t usual[6] = {word, 0, 1, 2, 3, (uint8_t)i}, target_first[6] = {1, 2, 3, (uint8_t)i, word, 0};
    const uint8_t modes[8] = {mode, mode, mode, mode, mode, mode, mode, mode};

    switch (maps) {
    case '4': frame(0x405, usual, 4); break;
    case '5': frame(0x405, target_first, 6); break;
    case '6': frame(0x405, modes, 8); break;
    default: frame(0x405, usual, 6); break;
    }
}

/* All four RPDOs, with what they map; two such sets that follow each other differ in what they write. */
static inline void all_rpdos(char maps, uint32_t i)
{
    const uint8_t word = i % 2 ? 0x07 : 0x06, mode = i % 2 ? 3 : 1;
    const uint8_t usual[6] = {word, 0, mode, 0, 0, 0}, modes[8] = {mode, mode, mode, mode, mode, mode, mode, mode};
    static const uint8_t lengths[4] = {2, 3, 6, 6};

    for (uint32_t k = 0; k < 4; k++)
        frame(0x205 + 0x100 * k, maps == '6' ? modes : usual, maps == '6' ? 8 : lengths[k]);
}

static inline void feedback(uint32_t i)
{
    const uint8_t at[8] = {(uint8_t)i, (uint8_t)(i >> 8)};
    event(CENDURAK_FEEDBACK, at, 8);
}

/* What comes in a period of a machine: SYNC, for which all four TPDOs are sent; two RPDOs; two frames for others; an SDO upload; and twice
 * what the amplifier measured, and a tick. */
static inline void machine_cycle(char maps, uint32_t i)
{
    switch (i % 10) {
    case 0: frame(0x80, 0, 0); break;
    case 1: case 5: frame(0x7FF, 0, 0); break;
    case 2: case 7: rpdo3(maps, i); break;
    case 3: case 8: feedback(i); break;
    case 4: case 9: event(CENDURAK_TICK, 0, 0); break;
    case 6: sdo(0x40, 0x6041, 0, 0); break;
    }
}

/* The transfer that was started last. It is put into the state again before each segment, so that all calls of a kind find the same one. */
static struct transfer started;

static inline void start_transfer(uint8_t command, uint32_t index)
{
    sdo(command, index, 0, 0);
    started = transfer_of(state);
}

/* The first of the device name's segments. */
static inline void upload_segment(void)
{
    static const uint8_t request[8] = {0x60};

    put_transfer(state, &started);
    frame(0x605, request, 8);
}

/* All four bytes of 607Ah in one segment, the last. */
static inline void last_download_segment(uint32_t i)
{
    const uint8_t request[8] = {0x07, 1, 2, 3, (uint8_t)i};

    put_transfer(state, &started);
    frame(0x605, request, 8);
}

/* A configuration: heartbeat, window and its time, both limits, velocity, ramps, mode, target velocity; ten entries, so many times over. Two loads
 * of it that follow each other differ in the last value. */
enum { MOST_TENS = 10 };

static inline void load_tens_of_entries(uint32_t tens, uint32_t i)
{
    static const uint8_t ten[] = {0x17, 0x10, 0, 2, 0, 0, 0, 0xF4, 0x01, 0x67, 0x60, 0, 4, 0, 0, 0, 50, 0, 0, 0,
                                  0x68, 0x60, 0, 2, 0, 0, 0, 20, 0, 0x7D, 0x60, 1, 4, 0, 0, 0, 0, 0, 0, 0xFF,
                                  0x7D, 0x60, 2, 4, 0, 0, 0, 0, 0, 0, 0x01, 0x81, 0x60, 0, 4, 0, 0, 0, 0x10, 0x27, 0, 0,
                                  0x83, 0x60, 0, 4, 0, 0, 0, 0x50, 0xC3, 0, 0, 0x84, 0x60, 0, 4, 0, 0, 0, 0x40, 0x9C, 0, 0,
                                  0x60, 0x60, 0, 1, 0, 0, 0, 1, 0xFF, 0x60, 0, 4, 0, 0, 0, 0, 0, 0, 0};
    static uint8_t file[4 + MOST_TENS * sizeof ten];
    uint32_t length = 4 + tens * (uint32_t)sizeof ten;

    if (file[0] == 0) {
        file[0] = (uint8_t)(10 * tens);
        for (uint32_t k = 0; k < tens; k++)
            memcpy(file + 4 + k * sizeof ten, ten, sizeof ten);
    }
    file[length - 4] = (uint8_t)i;
    load(file, length);
}

/* Transmit PDO 1 mapped anew as machine builders do it: taken back, emptied, 6061h and 6041h, their number, valid again. */
static inline void load_mapping(void)
{
    static const uint8_t file[] = {6, 0, 0, 0, 0x00, 0x18, 1, 4, 0, 0, 0, 0x85, 0x01, 0, 0xC0, 0x00, 0x1A, 0, 1, 0, 0, 0, 0,
                                   0x00, 0x1A, 1, 4, 0, 0, 0, 0x08, 0x00, 0x61, 0x60, 0x00, 0x1A, 2, 4, 0, 0, 0, 0x10, 0x00, 0x41, 0x60,
                                   0x00, 0x1A, 0, 1, 0, 0, 0, 2, 0x00, 0x18, 1, 4, 0, 0, 0, 0x85, 0x01, 0, 0x40};

    load(file, sizeof file);
}

static inline void load_no_entries(void)
{
    static const uint8_t file[4];

    load(file, sizeof file);
}

/* ---- a drive at rest in profile position, inside the window of its target or not, for which the ticks are counted */

enum { WINDOW = 20, SHORT_TIME = 10, LONG_TIME = 65535, REACHED_IN_HIGH_BYTE = 0x04 };

/* The ready frames stand directly behind the store's two set-points (docs/STATE.md): a length, and eight bytes. By default each begins with 6041h. */
enum { READY_AT = CENDURAK_STATE_AT_ACTIVE_TARGET + 2 * sizeof(struct cendurak_set_point), READY_LENGTH = 9, STATUS_HIGH_BYTE = 2 };

static inline void rest(int32_t position, uint32_t window_time, uint32_t ticks)
{
    const uint8_t at[8] = {(uint8_t)position};

    sdo(0x2F, 0x6060, 0, 1);
    sdo(0x23, 0x6067, 0, WINDOW);
    sdo(0x2B, 0x6068, 0, window_time);
    sdo(0x2B, 0x6040, 0, 0x06);
    sdo(0x2B, 0x6040, 0, 0x1F);
    event(CENDURAK_SET_POINT_REACHED, 0, 0);
    event(CENDURAK_FEEDBACK, at, 8);
    for (uint32_t i = 0; i < ticks; i++)
        event(CENDURAK_TICK, 0, 0);
    operational();
}

/* ---- four held frames, which one SYNC applies: they are put into the state again before each */

enum { HELD_AT = READY_AT + 4 * READY_LENGTH, HELD_LENGTH = 4 * READY_LENGTH };

static uint8_t held[2][HELD_LENGTH];

static inline void hold_all(char maps)
{
    types(1);
    for (uint32_t i = 0; i < 4; i++)
        sdo(0x2F, 0x1400 + i, 2, 1);
    operational();
    for (uint32_t i = 0; i < 2; i++) {
        all_rpdos(maps, i);
        memcpy(held[i], state + HELD_AT, HELD_LENGTH);
    }
}

static inline void sync_of_held(uint32_t i)
{
    memcpy(state + HELD_AT, held[i % 2], HELD_LENGTH);
    frame(0x80, 0, 0);
}

/* ---- the number of objects that a PDO maps, which works the plans out anew */

static inline void write_map_count(char maps, uint32_t i)
{
    const uint32_t most = maps == '6' ? 8 : 2;

    sdo(0x2F, 0x1A03, 0, i % 2 ? most : most - 1);
}

/* The tick that comes to the window time. Before each the node is put back to one tick before: the count, and bit 10 wherever it is shown. */
static inline void last_tick(char maps)
{
    state[CENDURAK_STATE_AT_STAY] = SHORT_TIME - 1;
    if (dict[CENDURAK_DICT_AT_STATUS_WORD + 1] & REACHED_IN_HIGH_BYTE) {
        dict[CENDURAK_DICT_AT_STATUS_WORD + 1] ^= REACHED_IN_HIGH_BYTE;
        for (uint32_t i = 0; i < 4 && maps == 0; i++)
            state[READY_AT + READY_LENGTH * i + STATUS_HIGH_BYTE] ^= REACHED_IN_HIGH_BYTE;
    }
    event(CENDURAK_TICK, 0, 0);
}

static inline void prepare(const char *kind)
{
    ready();
    prepare_maps(kind[1]);
    switch (kind[0]) {
    case 'A': sdo(0x23, 0x1803, 1, NOT_VALID + NO_RTR + 0x485); break;
    case 'b': case 'o': types(1); operational(); break;
    case 'B': hold_all(kind[1]); break;
    case 'c': types(0); operational(); frame(0x80, 0, 0); break;
    case 'f': sdo(0x2F, 0x1402, 2, 1); operational(); break;
    case 'e': case 'g': case 'i': case 'j': case 'l': case 'm': case 'n': case 'x': operational(); break;
    case 'p': start_transfer(0x40, 0x1008); break;
    case 'q': operational(); start_transfer(0x20, 0x607A); break;
    case 'r': rest(0, LONG_TIME, 1); break;
    case 's': rest(0, SHORT_TIME, SHORT_TIME - 1); break;
    case 't': case 'u': rest(0, SHORT_TIME, SHORT_TIME); break;
    case 'v': case 'w': rest(WINDOW + 1, SHORT_TIME, 0); break;
    case 'y': sdo(0x23, 0x607D, 1, 0); operational(); break;
    default: break;
    }
}

static inline void call(const char *kind, uint32_t i)
{
    static const uint8_t five_bytes[5] = {0x06};

    switch (kind[0]) {
    case 'a': power_up(5); break;
    case 'A': write_map_count(kind[1], i); break;
    case 'b': case 'c': frame(0x80, 0, 0); break;
    case 'B': sync_of_held(i); break;
    case 'd': load_tens_of_entries(1, i); break;
    case 'D': load_tens_of_entries(MOST_TENS, i); break;
    case 'e': case 'f': rpdo3(kind[1], i); break;
    case 'g': frame(0x405, five_bytes, 5); break;
    case 'h': sdo(0x40, 0x6041, 0, 0); break;
    case 'i': sdo(0x23, 0x607A, 0, i); break;
    case 'j': sdo(0x2B, 0x6040, 0, i % 2 ? 0x07 : 0x06); break;
    case 'k': sdo(0x40, 0x6042, 0, 0); break;
    case 'l': case 't': case 'v': frame(0x7FF, 0, 0); break;
    case 'm': case 'r': case 'u': case 'w': event(CENDURAK_TICK, 0, 0); break;
    case 'n': feedback(i); break;
    case 'o': machine_cycle(kind[1], i); break;
    case 'p': upload_segment(); break;
    case 'q': last_download_segment(i); break;
    case 's': last_tick(kind[1]); break;
    case 'x': sdo(0x23, 0x607D, 2, i); break;
    case 'y': sdo(0x23, 0x607D, 2, 0xFFFFFFFFu - i); break;
    case 'z': load_no_entries(); break;
    case 'Z': load_mapping(); break;
    }
}

#endif
