/*
 * Tests of target reached with a window time (6067h, 6068h) through the C calls: when ticks inside the window are counted, when they are counted
 * from 0 again, and in which call bit 10 shows; more ticks than the count holds; random calls against a model of the rules; and forged counts:
 * whatever stands in the count's bytes is either refused with 4, with every buffer left as it was, or goes on by the rules.
 */
#include <stdio.h>

#include "checks.h"
#include "guarded.h"
#include "randoms.h"

enum { DICTIONARY = 391, STATE = 399 }; /* bytes, as the rules have them */
enum { TARGET = 1000, WINDOW = 20, WINDOW_TIME = 5, COUNTED = 3, MOST_TICKS = 65535 };
/* Bits of the status word, bits of the control word, and whole control words. */
enum { REACHED = 0x0400, REMOTE = 0x0200 };
enum { NEW_SET_POINT = 0x10, AT_ONCE = 0x20, RELATIVE = 0x40, HALT = 0x100 };
enum { SWITCH_ON = 0x07, ENABLE = 0x0F };

/* ---- requests and events */

static uint16_t stay(struct bench *b)
{
    return cendurak_stay(lent(&b->state));
}

static int is_reached(struct bench *b)
{
    return (status(b) & REACHED) != 0;
}

static void ticks(struct bench *b, uint32_t count)
{
    for (uint32_t i = 0; i < count; i++)
        event(b, CENDURAK_TICK, 0, 0);
}

static void at(struct bench *b, int32_t position, int32_t velocity)
{
    const uint32_t p = (uint32_t)position, v = (uint32_t)velocity;
    const uint8_t args[8] = {(uint8_t)p, (uint8_t)(p >> 8), (uint8_t)(p >> 16), (uint8_t)(p >> 24),
                             (uint8_t)v, (uint8_t)(v >> 8), (uint8_t)(v >> 16), (uint8_t)(v >> 24)};
    event(b, CENDURAK_FEEDBACK, args, 8);
}

static void window(struct bench *b, uint32_t width)
{
    sdo(b, 0x23, 0x6067, 0, width);
}

static void window_time(struct bench *b, uint32_t time)
{
    sdo(b, 0x2B, 0x6068, 0, time);
}

/* A set-point by an edge of bit 4, with these bits besides. */
static void take(struct bench *b, uint32_t bits, int32_t target)
{
    sdo(b, 0x23, 0x607A, 0, (uint32_t)target);
    control(b, ENABLE | NEW_SET_POINT | bits);
}

/* Enabled in mode 1, in Pre-operational, with an Empty store. */
static void positioning(struct bench *b, uint32_t time)
{
    started(b);
    sdo(b, 0x2F, 0x6060, 0, 1);
    window(b, WINDOW);
    window_time(b, time);
    control(b, 0x06);
    control(b, ENABLE);
}

/* On the way to the target, bit 4 zero again. */
static void moving(struct bench *b, uint32_t time)
{
    positioning(b, time);
    take(b, 0, TARGET);
    control(b, ENABLE);
}

/* The position so many ticks inside, on the target. */
static void inside(struct bench *b, uint32_t time, uint32_t count)
{
    moving(b, time);
    at(b, TARGET, 0);
    ticks(b, count);
}

/* ---- the lengths of the rules */

static void lengths(void)
{
    static struct bench b;

    check(CENDURAK_DICT_LEN == DICTIONARY && CENDURAK_STATE_LEN == STATE, "the header's lengths");
    for (uint32_t i = 0; i < 5; i++) {
        fresh(&b);
        b.dict.length = DICTIONARY - 2 + i;
        check(event(&b, CENDURAK_TICK, 0, 0) == (i == 2 ? 0 : 256 * CENDURAK_BAD_DICT_LEN), "389 to 393 bytes of dictionary");
        fresh(&b);
        b.state.length = STATE - 2 + i;
        check(event(&b, CENDURAK_TICK, 0, 0) == (i == 2 ? 0 : 256 * CENDURAK_NOT_SOUND), "397 to 401 bytes of state");
    }
}

/* ---- bit 10 in the call of the tick that it waits for */

static void the_bit_comes(void)
{
    static struct bench b;
    const uint8_t shown[2] = {0x37, 0x06};

    moving(&b, WINDOW_TIME);
    nmt(&b, 0x01);
    at(&b, TARGET - WINDOW - 1, 50);
    ticks(&b, 2 * WINDOW_TIME);
    check(stay(&b) == 0 && !is_reached(&b), "one outside: nothing is counted");
    at(&b, TARGET - WINDOW, 50);
    check(stay(&b) == 0 && !is_reached(&b), "the count is 0 when the position comes inside");
    for (uint32_t i = 1; i < WINDOW_TIME; i++) {
        ticks(&b, 1);
        check(b.answer == 0 && stay(&b) == i && !is_reached(&b), "ticks before the window time, nothing sent");
    }
    ticks(&b, 1);
    check(b.answer == 4 && stay(&b) == WINDOW_TIME && is_reached(&b) && sent(&b, 0, 0x185, shown, 2), "the tick at the window time, TPDOs sent");
    ticks(&b, 1);
    check(b.answer == 0 && stay(&b) == WINDOW_TIME + 1 && is_reached(&b), "a tick behind it, nothing sent");
}

static void the_window_is_left(void)
{
    static struct bench b;

    inside(&b, WINDOW_TIME, WINDOW_TIME - 1);
    at(&b, TARGET + WINDOW, 50);
    check(stay(&b) == WINDOW_TIME - 1, "from one end of the window to the other, the count goes on");
    at(&b, TARGET + WINDOW + 1, 50);
    check(stay(&b) == 0, "the window is left");
    ticks(&b, WINDOW_TIME);
    check(stay(&b) == 0 && !is_reached(&b), "the glide is past the window: never reached");
    at(&b, TARGET, 0);
    ticks(&b, WINDOW_TIME - 1);
    check(!is_reached(&b), "back inside, the time starts again");
    ticks(&b, 1);
    check(is_reached(&b), "back inside, and it is over");
    at(&b, TARGET - WINDOW - 1, 0);
    check(stay(&b) == 0 && !is_reached(&b), "the bit goes with the window");
}

/* The heartbeat goes before the TPDOs of the same tick. */
static void with_a_heartbeat(void)
{
    static struct bench b;
    const uint8_t operational = 0x05, shown[2] = {0x37, 0x06};

    moving(&b, WINDOW_TIME);
    nmt(&b, 0x01);
    at(&b, TARGET, 0);
    sdo(&b, 0x2B, 0x1017, 0, WINDOW_TIME);
    ticks(&b, WINDOW_TIME);
    check(b.answer == 5 && sent(&b, 0, 0x705, &operational, 1) && sent(&b, 1, 0x185, shown, 2), "heartbeat and bit 10 in one tick");
}

/* A tick that shows the bit makes a TPDO of type 0 due. What is no tick counts nothing. */
static void with_sync(void)
{
    static struct bench b;
    const uint8_t shown[2] = {0x37, 0x06};

    moving(&b, WINDOW_TIME);
    for (uint32_t i = 0; i < 4; i++)
        sdo(&b, 0x2F, 0x1800 + i, 2, 0);
    nmt(&b, 0x01);
    at(&b, TARGET, 0);
    for (uint32_t i = 0; i < 2 * WINDOW_TIME; i++) {
        frame(&b, 0x80, 0, 0);
        frame(&b, 0x7FF, 0, 0);
        at(&b, TARGET + (int32_t)i, 0);
    }
    check(stay(&b) == 0, "SYNC, frames for others and feedback count nothing");
    frame(&b, 0x80, 0, 0);
    ticks(&b, WINDOW_TIME);
    check(b.answer == 0 && is_reached(&b), "the tick sends no TPDO of type 0");
    frame(&b, 0x80, 0, 0);
    check(b.answer == 4 && sent(&b, 0, 0x185, shown, 2), "the SYNC behind it does");
}

/* ---- a new active set-point, and what is none */

/* Of the ticks that were counted so many are left. With those that were missing to the window time the bit shows only where none was lost. */
static void counted_then(struct bench *b, uint32_t count, const char *name)
{
    check(stay(b) == count && !is_reached(b), name);
    ticks(b, WINDOW_TIME - COUNTED);
    check(stay(b) == count + WINDOW_TIME - COUNTED && is_reached(b) == (count == COUNTED), name);
}

static void new_set_points(void)
{
    static struct bench b;

    inside(&b, WINDOW_TIME, COUNTED);
    event(&b, CENDURAK_SET_POINT_REACHED, 0, 0);
    take(&b, 0, TARGET);
    counted_then(&b, 0, "taken from Rested, the same target");
    inside(&b, WINDOW_TIME, COUNTED);
    take(&b, AT_ONCE, TARGET);
    counted_then(&b, 0, "taken at once, the same target");
    inside(&b, WINDOW_TIME, COUNTED);
    take(&b, 0, TARGET + 1);
    event(&b, CENDURAK_SET_POINT_REACHED, 0, 0);
    counted_then(&b, 0, "the second becomes the first");
    positioning(&b, WINDOW_TIME);
    at(&b, TARGET, 0);
    ticks(&b, COUNTED);
    take(&b, 0, TARGET);
    counted_then(&b, 0, "taken from Empty, on the target already");
}

static void no_new_set_points(void)
{
    static struct bench b;

    inside(&b, WINDOW_TIME, COUNTED);
    take(&b, 0, 2 * TARGET);
    counted_then(&b, COUNTED, "queued behind");
    inside(&b, WINDOW_TIME, COUNTED);
    take(&b, 0, 2 * TARGET);
    control(&b, ENABLE);
    take(&b, 0, 3 * TARGET);
    counted_then(&b, COUNTED, "no room for a third");
    inside(&b, WINDOW_TIME, COUNTED);
    sdo(&b, 0x23, 0x607D, 2, 2 * TARGET);
    take(&b, AT_ONCE, 3 * TARGET);
    counted_then(&b, COUNTED, "outside the limits");
    inside(&b, WINDOW_TIME, COUNTED);
    event(&b, CENDURAK_SET_POINT_REACHED, 0, 0);
    counted_then(&b, COUNTED, "event 6, and at rest");
    inside(&b, WINDOW_TIME, COUNTED);
    control(&b, ENABLE);
    sdo(&b, 0x23, 0x607A, 0, 2 * TARGET);
    counted_then(&b, COUNTED, "a target written, and no edge");
}

/* ---- 6067h and 6068h written */

static void times_are_written(void)
{
    static struct bench b;

    inside(&b, 100, 7);
    nmt(&b, 0x01);
    window_time(&b, 8);
    check(b.answer == 1 && stay(&b) == 7 && !is_reached(&b), "6068h above the count");
    window_time(&b, 7);
    check(b.answer == 5 && stay(&b) == 7 && is_reached(&b), "6068h at the count: the bit shows in that very call");
    window_time(&b, MOST_TICKS);
    check(b.answer == 5 && stay(&b) == 7 && !is_reached(&b), "6068h above the count again");
    window_time(&b, 0);
    check(b.answer == 5 && stay(&b) == 7 && is_reached(&b), "6068h is 0: at once");
    ticks(&b, 1);
    check(b.answer == 0 && stay(&b) == 8 && is_reached(&b), "6068h is 0: ticks are counted");
}

static void at_zero(void)
{
    static struct bench b;

    moving(&b, 0);
    at(&b, TARGET - WINDOW - 1, 0);
    check(!is_reached(&b), "6068h is 0, Moving, outside");
    at(&b, TARGET - WINDOW, 0);
    check(is_reached(&b) && stay(&b) == 0, "6068h is 0, Moving, inside");
    event(&b, CENDURAK_SET_POINT_REACHED, 0, 0);
    at(&b, 0, 0);
    check(is_reached(&b) && stay(&b) == 0, "6068h is 0, Rested, anywhere");
    window_time(&b, 1);
    check(!is_reached(&b), "6068h is 1, Rested, outside");
    at(&b, TARGET + WINDOW, 0);
    ticks(&b, 1);
    check(is_reached(&b) && stay(&b) == 1, "6068h is 1, Rested, inside for a tick");
}

static void windows_are_written(void)
{
    static struct bench b;

    inside(&b, WINDOW_TIME, 0);
    at(&b, TARGET + 10, 0);
    ticks(&b, WINDOW_TIME);
    window(&b, 10);
    check(stay(&b) == WINDOW_TIME && is_reached(&b), "6067h written, still inside");
    window(&b, 9);
    check(stay(&b) == 0 && !is_reached(&b), "6067h written, outside");
    window(&b, WINDOW);
    check(stay(&b) == 0 && !is_reached(&b), "6067h written, inside again");
}

/* ---- beside profile position */

static void leave(struct bench *b, uint32_t way)
{
    static const uint8_t fault[3] = {0x10, 0x23, 0x02};

    switch (way) {
    case 0: sdo(b, 0x2F, 0x6060, 0, 0); break;
    case 1: sdo(b, 0x2F, 0x6060, 0, 3); break;
    case 2: control(b, SWITCH_ON); break;
    case 3: control(b, 0x00); break;
    case 4: control(b, 0x0B); break;
    case 5: event(b, CENDURAK_FAULT, fault, 3); break;
    case 6: nmt(b, 0x02); break;
    case 7: nmt(b, 0x81); break;
    case 8: nmt(b, 0x82); break;
    default: power_up(b, 5); break;
    }
}

static void drive_leaves(void)
{
    static struct bench b;

    for (uint32_t way = 0; way < 10; way++) {
        inside(&b, WINDOW_TIME, WINDOW_TIME);
        leave(&b, way);
        check(cendurak_refusal(b.answer) == 0 && stay(&b) == 0, "left Operation enabled or mode 1");
        ticks(&b, WINDOW_TIME);
        check(b.answer == 0 && stay(&b) == 0, "ticks behind that count nothing");
    }
}

/* Under bit 8 the rule is the old one, and the count goes on. */
static void under_halt(void)
{
    static struct bench b;

    inside(&b, WINDOW_TIME, COUNTED);
    at(&b, TARGET, 50);
    control(&b, ENABLE | HALT);
    check(stay(&b) == COUNTED && !is_reached(&b), "halt, and not at standstill");
    at(&b, TARGET, 0);
    check(stay(&b) == COUNTED && is_reached(&b), "halt, at standstill");
    at(&b, TARGET, 50);
    ticks(&b, WINDOW_TIME - COUNTED);
    check(stay(&b) == WINDOW_TIME && !is_reached(&b), "halt: the count goes on");
    control(&b, ENABLE);
    check(stay(&b) == WINDOW_TIME && is_reached(&b), "halt ends, and the window time is over");
}

/* Stopped with the drive enabled is a sound state that no run reaches: no TPDO is mapped here, so that 6041h alone has to follow. */
static void in_every_nmt_state(void)
{
    static struct bench b;

    inside(&b, WINDOW_TIME, COUNTED);
    for (uint32_t i = 0; i < 4; i++) {
        sdo(&b, 0x23, 0x1800 + i, 1, 0xC0000185 + 0x100 * i);
        sdo(&b, 0x2F, 0x1A00 + i, 0, 0);
    }
    counted_then(&b, COUNTED, "Pre-operational");
    window_time(&b, WINDOW_TIME + 1);
    nmt(&b, 0x01);
    ticks(&b, 1);
    check(stay(&b) == WINDOW_TIME + 1 && is_reached(&b), "Operational");
    window_time(&b, WINDOW_TIME + 2);
    lent(&b.state)[CENDURAK_STATE_AT_NMT] = CENDURAK_NMT_STOPPED;
    lent(&b.dict)[CENDURAK_DICT_AT_STATUS_WORD + 1] ^= REMOTE >> 8;
    check(!is_reached(&b), "before the tick in Stopped");
    ticks(&b, 1);
    check(b.answer == 0 && stay(&b) == WINDOW_TIME + 2 && is_reached(&b), "Stopped");
}

/* ---- more ticks than the count holds */

static void the_count_stops(void)
{
    static struct bench b;
    uint32_t wrong = 0;

    inside(&b, MOST_TICKS, 0);
    nmt(&b, 0x01);
    for (uint32_t i = 1; i <= MOST_TICKS + 5; i++) {
        ticks(&b, 1);
        wrong += b.answer != (i == MOST_TICKS ? 4 : 0) || is_reached(&b) != (i >= MOST_TICKS) || stay(&b) != (i < MOST_TICKS ? i : MOST_TICKS);
    }
    check(wrong == 0, "65,540 ticks: the bit shows at the 65,535th, and stays");
    window_time(&b, 1);
    check(b.answer == 1 && is_reached(&b), "and for every other window time");
    at(&b, 0, 0);
    check(stay(&b) == 0 && !is_reached(&b), "until the window is left");
}

/* ---- random calls against a model: the drive enabled or switched on, mode 1 or 3 */

enum { EMPTY, RESTED, MOVING, QUEUED };
enum { LIMIT = 30 }; /* of 607Dh, both ways */

static struct {
    uint32_t kind, window, time, count, word, mode;
    int32_t first, second, target, position, velocity;
} model;

static int is_enabled(void)
{
    return (model.word & ENABLE) == ENABLE;
}

static int is_inside(void)
{
    int32_t way = model.position - model.first;
    return model.kind != EMPTY && (uint32_t)(way < 0 ? -way : way) <= model.window;
}

static int shows_reached(void)
{
    if (!is_enabled())
        return 0;
    if (model.word & HALT || model.mode == 3)
        return model.velocity == 0; /* in mode 3 60FFh and 606Dh are 0 */
    if (model.time == 0)
        return model.kind == RESTED || is_inside();
    return is_inside() && model.count >= model.time;
}

/* The edge of bit 4, in Operation enabled with mode 1. */
static void model_takes(uint32_t word)
{
    int32_t last = model.kind == EMPTY ? model.position : model.kind == QUEUED ? model.second : model.first;
    int32_t target = model.target + (word & RELATIVE ? last : 0);

    if ((!(word & AT_ONCE) && model.kind == QUEUED) || target < -LIMIT || target > LIMIT)
        return;
    if (!(word & AT_ONCE) && model.kind == MOVING) {
        model.kind = QUEUED, model.second = target;
        return;
    }
    model.kind = MOVING, model.first = target, model.count = 0;
}

static void model_empties(void)
{
    if (!is_enabled() || model.mode != 1)
        model.kind = EMPTY;
}

static void model_controls(uint32_t word)
{
    int is_edge = (word & NEW_SET_POINT) && !(model.word & NEW_SET_POINT);

    model.word = word;
    model_empties();
    if (is_edge && is_enabled() && model.mode == 1)
        model_takes(word);
}

static void model_reaches(void)
{
    if (model.kind == MOVING)
        model.kind = RESTED;
    if (model.kind == QUEUED)
        model.kind = MOVING, model.first = model.second, model.count = 0;
}

static void model_ends(int is_tick)
{
    if (!is_inside())
        model.count = 0;
    else if (is_tick && model.count < MOST_TICKS)
        model.count++;
}

static void random_control(struct bench *b)
{
    static const uint16_t words[] = {0x0F, 0x0F, 0x1F, 0x1F, 0x3F, 0x5F, 0x7F, 0x10F, 0x11F, 0x07};
    uint32_t word = words[random_below(sizeof words / sizeof words[0])];

    model_controls(word);
    control(b, word);
}

static void random_position(struct bench *b)
{
    model.position = model.first + (int32_t)random_below(9) - 4;
    model.velocity = (int32_t)random_below(2);
    at(b, model.position, model.velocity);
}

static void random_write(struct bench *b)
{
    switch (random_below(8)) {
    case 0: window(b, model.window = random_below(4)); break;
    case 1: window_time(b, model.time = random_below(6)); break;
    case 2: sdo(b, 0x2F, 0x6060, 0, model.mode = random_below(8) ? 1 : 3); model_empties(); break;
    default: sdo(b, 0x23, 0x607A, 0, (uint32_t)(model.target = (int32_t)random_below(9) - 4)); break;
    }
}

/* One call, and the model after it. */
static void random_call(struct bench *b)
{
    uint32_t kind = random_below(16);

    if (kind < 8)
        ticks(b, 1);
    else if (kind < 10)
        random_position(b);
    else if (kind < 12)
        random_control(b);
    else if (kind < 14)
        random_write(b);
    else if (kind < 15)
        frame(b, 0x80, 0, 0);
    else
        model_reaches(), event(b, CENDURAK_SET_POINT_REACHED, 0, 0);
    model_ends(kind < 8);
}

static int agrees(struct bench *b)
{
    uint8_t *now = lent(&b->state);
    uint32_t waiting = model.kind == QUEUED ? 2 : model.kind == MOVING;

    return cendurak_refusal(b->answer) != CENDURAK_NOT_SOUND && cendurak_set_points(now) == waiting && stay(b) == model.count
           && is_reached(b) == shows_reached() && (waiting == 0 || cendurak_active_set_point(now).target == model.first);
}

static void random_calls(void)
{
    static struct bench b;
    uint32_t wrong = 0, met = 0;

    positioning(&b, model.time = WINDOW_TIME);
    sdo(&b, 0x23, 0x607D, 1, (uint32_t)-LIMIT);
    sdo(&b, 0x23, 0x607D, 2, LIMIT);
    nmt(&b, 0x01);
    model.window = WINDOW, model.mode = 1, model.word = ENABLE;
    for (uint32_t i = 0; i < 200000; i++) {
        random_call(&b);
        wrong += !agrees(&b);
        met |= 1u << (2 * model.kind + (model.time != 0 && model.count >= model.time));
    }
    check(wrong == 0, "random calls against the model");
    check(met == 0xFD, "random calls met every store, and with all but Empty the window time over and not over");
}

/* ---- forged counts */

static void put_stay(struct bench *b, uint32_t count)
{
    lent(&b->state)[CENDURAK_STATE_AT_STAY] = (uint8_t)count;
    lent(&b->state)[CENDURAK_STATE_AT_STAY + 1] = (uint8_t)(count >> 8);
}

/* A count in a state where the window time is 0, so that 6041h does not show it: a frame for others, and then a tick. How much of it is wrong. */
static uint32_t wrong_forged(const struct bench *start, uint32_t count, int can_stay)
{
    static struct bench b, wanted;
    uint32_t answer = count == 0 || can_stay ? 0 : 256 * CENDURAK_NOT_SOUND, wrong = 0;

    b = *start;
    put_stay(&b, count);
    wanted = b;
    wrong += frame(&b, 0x7FF, 0, 0) != answer || !are_same(&b, &wanted);
    if (can_stay && count < MOST_TICKS)
        put_stay(&wanted, count + 1);
    wrong += event(&b, CENDURAK_TICK, 0, 0) != answer || !are_same(&b, &wanted);
    return wrong;
}

static void situate(struct bench *b, uint32_t kind, int32_t position)
{
    positioning(b, 0);
    if (kind != EMPTY)
        take(b, 0, TARGET);
    if (kind == RESTED)
        event(b, CENDURAK_SET_POINT_REACHED, 0, 0);
    control(b, ENABLE);
    if (kind == QUEUED)
        take(b, 0, 2 * TARGET);
    at(b, position, 0);
}

/* Each byte of the count over its values, the other one 0 and not 0, in every store inside and outside the window. */
static void forged_bytes(void)
{
    static struct bench b;
    static const int32_t positions[] = {TARGET, TARGET + WINDOW, TARGET - WINDOW, TARGET + WINDOW + 1, TARGET - WINDOW - 1, 2 * TARGET};

    for (uint32_t kind = EMPTY; kind <= QUEUED; kind++)
        for (uint32_t i = 0; i < 6; i++) {
            uint32_t wrong = 0;
            situate(&b, kind, positions[i]);
            for (uint32_t value = 0; value < 256; value++) {
                int can_stay = kind != EMPTY && i < 3;
                wrong += wrong_forged(&b, value, can_stay) + wrong_forged(&b, 256 * value, can_stay);
                wrong += wrong_forged(&b, value + 256, can_stay) + wrong_forged(&b, 256 * value + 1, can_stay);
            }
            check(wrong == 0, "forged bytes of the count");
        }
}

static void all_forged(void)
{
    static struct bench b;
    uint32_t wrong = 0;

    situate(&b, MOVING, TARGET);
    for (uint32_t count = 0; count <= MOST_TICKS; count++)
        wrong += wrong_forged(&b, count, 1);
    check(wrong == 0, "all counts inside the window");
}

/* With a window time 6041h shows whether the count has come to it: a count on the other side is not that state's. */
static void forged_with_time(uint32_t time, uint32_t counted, const char *name)
{
    static struct bench start, b;
    uint32_t wrong = 0;

    inside(&start, time, counted);
    for (uint32_t count = 0; count <= MOST_TICKS; count++) {
        int is_good = (count >= time) == is_reached(&start);
        b = start;
        put_stay(&b, count);
        ticks(&b, 1);
        wrong += b.answer != (is_good ? 0 : 256 * CENDURAK_NOT_SOUND);
        if (is_good)
            wrong += stay(&b) != (count < MOST_TICKS ? count + 1 : count) || is_reached(&b) != (stay(&b) >= time);
        else
            wrong += stay(&b) != count || !is_same(&b.dict, &start.dict) || !is_same(&b.out, &start.out);
    }
    check(wrong == 0, name);
}

int main(void)
{
    lengths();
    the_bit_comes();
    the_window_is_left();
    with_a_heartbeat();
    with_sync();
    new_set_points();
    no_new_set_points();
    times_are_written();
    at_zero();
    windows_are_written();
    drive_leaves();
    under_halt();
    in_every_nmt_state();
    the_count_stops();
    random_calls();
    forged_bytes();
    all_forged();
    forged_with_time(300, 299, "all counts with a window time that is not over");
    forged_with_time(300, 300, "all counts with a window time that is over");
    printf("%u passed, %u failed\n", passed, failed);
    return failed != 0;
}
