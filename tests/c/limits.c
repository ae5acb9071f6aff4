/*
 * Tests of the software position limits (607Dh) through the C calls: a write that would leave the minimum above the maximum is refused with
 * 06040043h, whichever way it comes, by the limits as they stand at that moment, and behind the other aborts; what resets the limits; forged
 * limits: a minimum above the maximum is refused with 4, with every buffer left as it was; and random writes and set-points against a model.
 */
#include <stdio.h>

#include "checks.h"
#include "guarded.h"
#include "randoms.h"
#include "segments.h"

enum { GREATEST = 2147483647, LEAST = -GREATEST - 1 }; /* of 32 bits, signed; the defaults of maximum and minimum */

/* The subindexes of 607Dh, and where they stand in the dictionary: behind 607Ah and the array's own count, before 6081h and 6083h. */
enum { COUNT, MINIMUM, MAXIMUM, BEHIND };
enum { MINIMUM_AT = CENDURAK_DICT_AT_TARGET_POSITION + 5, MAXIMUM_AT = MINIMUM_AT + 4 };

_Static_assert(MAXIMUM_AT + 8 == CENDURAK_DICT_AT_ACCELERATION, "the limits stand two objects before 6083h");

/* Bits of the status word, and control words. */
enum { LIMIT_MARK = 0x0800, TAKEN = 0x1000 };
enum { ENABLE = 0x0F, NEW_AT_ONCE = 0x3F };

/* The ways of a write: expedited, with the size told and not told, and with bits set that no rule asks for; by segments of one to four bytes. */
static const uint8_t commands[] = {0x23, 0x22, 0x33, 0x3E};
enum { EXPEDITED = sizeof commands, WAYS = EXPEDITED + 4, WRITTEN = 0x60 };

/* ---- the limits in the dictionary */

static int32_t limit(struct bench *b, uint8_t subindex)
{
    return cendurak_signed(lent(&b->dict) + (subindex == MINIMUM ? MINIMUM_AT : MAXIMUM_AT));
}

static int limits_are(struct bench *b, int32_t minimum, int32_t maximum)
{
    return limit(b, MINIMUM) == minimum && limit(b, MAXIMUM) == maximum;
}

static void to_bytes(uint8_t *bytes, int32_t value)
{
    for (uint32_t i = 0; i < 4; i++)
        bytes[i] = (uint8_t)((uint32_t)value >> (8 * i));
}

static void put_limit(struct bench *b, uint8_t subindex, int32_t value)
{
    to_bytes(lent(&b->dict) + (subindex == MINIMUM ? MINIMUM_AT : MAXIMUM_AT), value);
}

/* Whether the limits stay in order where one of them becomes that value. */
static int stay_in_order(struct bench *b, uint8_t subindex, int32_t value)
{
    return subindex == MINIMUM ? value <= limit(b, MAXIMUM) : limit(b, MINIMUM) <= value;
}

/* ---- writes */

/* So many bytes to a subindex of 607Dh, so many in each segment; the toggle of the last. */
static uint8_t write_by_segments(struct bench *b, uint8_t subindex, const uint8_t *bytes, uint32_t size, uint32_t each)
{
    uint8_t toggle = 0;

    sdo(b, 0x21, 0x607D, subindex, size);
    for (; size > each; bytes += each, size -= each, toggle ^= 1)
        send_segment(b, toggle, bytes, each, 0);
    send_segment(b, toggle, bytes, size, 1);
    return toggle;
}

/* One write; the first byte of the reply that it gets where it is taken. */
static uint8_t write_limit(struct bench *b, uint32_t way, uint8_t subindex, int32_t value)
{
    uint8_t bytes[4];

    to_bytes(bytes, value);
    if (way >= EXPEDITED)
        return (uint8_t)(SEGMENT_TAKEN + TOGGLE_BIT * write_by_segments(b, subindex, bytes, 4, way - EXPEDITED + 1));
    sdo(b, commands[way], 0x607D, subindex, (uint32_t)value);
    return WRITTEN;
}

static void set(struct bench *b, uint8_t subindex, int32_t value)
{
    write_limit(b, 0, subindex, value);
}

/* The limits of a node whose limits are the defaults. */
static void set_limits(struct bench *b, int32_t minimum, int32_t maximum)
{
    set(b, MINIMUM, minimum);
    set(b, MAXIMUM, maximum);
}

static void limited(struct bench *b, int32_t minimum, int32_t maximum)
{
    fresh(b);
    set_limits(b, minimum, maximum);
}

static int is_refused(struct bench *b, uint8_t subindex, uint32_t code)
{
    const uint8_t object[3] = {0x7D, 0x60, subindex};
    return is_abort(b, object, code) && is_idle(b);
}

/* What a write leaves: the limit stored and the reply to a write that is taken, or the abort; and no transfer runs. Every other byte of the three
 * buffers stays. */
static void expect(struct bench *b, uint8_t taken, uint8_t subindex, int32_t value)
{
    static const struct transfer none;
    const uint8_t object[3] = {0x7D, 0x60, subindex};
    uint8_t reply[8] = {taken};

    if (taken == WRITTEN)
        memcpy(reply + 1, object, sizeof object);
    if (stay_in_order(b, subindex, value))
        put_limit(b, subindex, value);
    else
        make_abort(reply, object, NOT_COMPATIBLE);
    put_transfer(lent(&b->state), &none);
    lay_reply(b, reply);
}

/* Whether a write of a limit leaves every byte as it should. */
static int goes_right(struct bench *b, uint32_t way, uint8_t subindex, int32_t value)
{
    static struct bench wanted;

    wanted = *b;
    expect(&wanted, write_limit(b, way, subindex, value), subindex, value);
    return b->answer == 1 && are_same(b, &wanted);
}

/* ---- what the customer wrote */

static void swapped_by_a_customer(void)
{
    static struct bench b;
    static const uint8_t minimum[8] = {0x23, 0x7D, 0x60, 0x01, 0x30, 0x75, 0x00, 0x00}, maximum[8] = {0x23, 0x7D, 0x60, 0x02};
    static const uint8_t done[8] = {0x60, 0x7D, 0x60, 0x01}, abort[8] = {0x80, 0x7D, 0x60, 0x02, 0x43, 0x00, 0x04, 0x06};
    static const uint8_t read[8] = {0x43, 0x7D, 0x60, 0x02, 0xFF, 0xFF, 0xFF, 0x7F};

    fresh(&b);
    check(limits_are(&b, LEAST, GREATEST), "the defaults");
    frame(&b, 0x605, minimum, 8);
    check(is_reply(&b, done) && limits_are(&b, 30000, GREATEST), "a minimum of 30000");
    frame(&b, 0x605, maximum, 8);
    check(is_reply(&b, abort) && limits_are(&b, 30000, GREATEST), "a maximum of 0 under it is refused");
    sdo(&b, 0x40, 0x607D, MAXIMUM, 0);
    check(is_reply(&b, read), "the maximum reads as before");
}

/* ---- every edge, every way */

static const int32_t edges[] = {LEAST, LEAST + 1, -2, -1, 0, 1, GREATEST - 1, GREATEST};
enum { EDGES = sizeof edges / sizeof edges[0] };

/* All edges written to both limits, each to a node with these limits. How much of it is wrong. */
static uint32_t wrong_edges(const struct bench *start, uint32_t way)
{
    static struct bench b;
    uint32_t wrong = 0;

    for (uint32_t i = 0; i < 2 * EDGES; i++) {
        b = *start;
        wrong += !goes_right(&b, way, i % 2 ? MINIMUM : MAXIMUM, edges[i / 2]);
    }
    return wrong;
}

static void all_edges(void)
{
    static struct bench b;

    for (uint32_t way = 0; way < WAYS; way++) {
        uint32_t wrong = 0;
        for (uint32_t low = 0; low < EDGES; low++)
            for (uint32_t high = low; high < EDGES; high++) {
                limited(&b, edges[low], edges[high]);
                wrong += !limits_are(&b, edges[low], edges[high]) + wrong_edges(&b, way);
            }
        check(wrong == 0, way < EXPEDITED ? "edges of both limits, expedited" : "edges of both limits, by segments");
    }
}

static void named_edges(void)
{
    static const struct {
        int32_t minimum, maximum;
        uint8_t subindex;
        int32_t value;
        int is_taken;
        const char *name;
    } edge[] = {
        {-5, 5, MINIMUM, 5, 1, "the minimum comes to the maximum"}, {-5, 5, MINIMUM, 6, 0, "the minimum one above the maximum"},
        {-5, 5, MAXIMUM, -5, 1, "the maximum comes to the minimum"}, {-5, 5, MAXIMUM, -6, 0, "the maximum one below the minimum"},
        {5, 5, MINIMUM, 5, 1, "equal limits, the minimum once more"}, {5, 5, MAXIMUM, 5, 1, "equal limits, the maximum once more"},
        {LEAST, 0, MINIMUM, -1, 1, "-1 is below 0"}, {-1, GREATEST, MAXIMUM, 0, 1, "0 is above -1"},
        {LEAST, -1, MINIMUM, 0, 0, "0 is not below -1"}, {0, GREATEST, MAXIMUM, -1, 0, "-1 is not above 0"},
        {LEAST, LEAST, MINIMUM, GREATEST, 0, "the greatest as minimum"}, {GREATEST, GREATEST, MAXIMUM, LEAST, 0, "the least as maximum"},
        {LEAST, GREATEST, MINIMUM, GREATEST, 1, "both at the greatest"}, {LEAST, GREATEST, MAXIMUM, LEAST, 1, "both at the least"},
        {255, GREATEST, MAXIMUM, 256, 1, "the low byte is not what counts"}, {256, GREATEST, MAXIMUM, 255, 0, "the high bytes are"}};
    static struct bench b;

    for (uint32_t i = 0; i < sizeof edge / sizeof edge[0]; i++)
        for (uint32_t way = 0; way < WAYS; way++) {
            limited(&b, edge[i].minimum, edge[i].maximum);
            int is_right = goes_right(&b, way, edge[i].subindex, edge[i].value);
            check(is_right && (limit(&b, edge[i].subindex) == edge[i].value) == edge[i].is_taken, edge[i].name);
        }
}

/* ---- by the limits as they stand */

static void present_values_count(void)
{
    static struct bench b;

    limited(&b, -10, 10);
    set(&b, MINIMUM, 20);
    check(is_refused(&b, MINIMUM, NOT_COMPATIBLE), "the minimum goes up first");
    set(&b, MAXIMUM, 30);
    set(&b, MINIMUM, 20);
    check(limits_are(&b, 20, 30), "upwards, the maximum first");
    set(&b, MAXIMUM, 10);
    check(is_refused(&b, MAXIMUM, NOT_COMPATIBLE) && limits_are(&b, 20, 30), "the maximum goes down first");
    set(&b, MINIMUM, -10);
    set(&b, MAXIMUM, 10);
    check(limits_are(&b, -10, 10), "downwards, the minimum first");
    set(&b, MINIMUM, 11);
    set(&b, MINIMUM, 11);
    check(is_refused(&b, MINIMUM, NOT_COMPATIBLE) && limits_are(&b, -10, 10), "what was refused does not count");
}

/* ---- the order of the aborts. Zero bytes would swap these limits, but another fault is found before that. */

static const struct {
    int32_t minimum, maximum;
    uint8_t subindex;
} zero_swaps[] = {{-1000, -500, MINIMUM}, {500, 1000, MAXIMUM}};

/* The last call was refused with that code, and changed nothing. */
static void stays(struct bench *b, const struct bench *start, uint8_t subindex, uint32_t code, const char *name)
{
    check(is_refused(b, subindex, code) && is_same(&b->state, &start->state) && is_same(&b->dict, &start->dict), name);
}

static void order_expedited(const struct bench *start, uint8_t subindex)
{
    static struct bench b;
    static const uint8_t shorter[] = {0x27, 0x2B, 0x2F};

    b = *start;
    for (uint32_t i = 0; i < sizeof shorter; i++) {
        sdo(&b, shorter[i], 0x607D, subindex, 0);
        stays(&b, start, subindex, TOO_SHORT, "three, two and one byte told");
    }
    sdo(&b, 0x23, 0x607D, BEHIND, 0);
    stays(&b, start, BEHIND, NO_SUBINDEX, "subindex 3");
    sdo(&b, 0x2F, 0x607D, COUNT, 0);
    stays(&b, start, COUNT, NO_WRITING, "subindex 0");
    sdo(&b, 0x23, 0x607D, subindex, 0);
    stays(&b, start, subindex, NOT_COMPATIBLE, "four bytes");
}

static void order_by_segments(const struct bench *start, uint8_t subindex)
{
    static struct bench b;
    static const uint8_t zeros[9];

    b = *start;
    for (uint32_t size = 0; size <= sizeof zeros; size++)
        for (uint32_t each = 1; each <= SEGMENT_ROOM; each++) {
            write_by_segments(&b, subindex, zeros, size, each);
            stays(&b, start, subindex, size < 4 ? TOO_SHORT : size > 4 ? TOO_LONG : NOT_COMPATIBLE, "zero to nine bytes by segments");
        }
    write_by_segments(&b, BEHIND, zeros, 4, 4);
    stays(&b, start, BEHIND, NO_SUBINDEX, "subindex 3 by segments");
    write_by_segments(&b, COUNT, zeros, 1, 1);
    stays(&b, start, COUNT, NO_WRITING, "subindex 0 by segments");
}

static void order_of_aborts(void)
{
    static struct bench b;

    for (uint32_t i = 0; i < 2; i++) {
        limited(&b, zero_swaps[i].minimum, zero_swaps[i].maximum);
        order_expedited(&b, zero_swaps[i].subindex);
        order_by_segments(&b, zero_swaps[i].subindex);
        nmt(&b, 0x01);
        order_expedited(&b, zero_swaps[i].subindex);
        order_by_segments(&b, zero_swaps[i].subindex);
    }
}

/* ---- what is not served, and what is not mapped */

static void nothing_is_served(void)
{
    static struct bench b, before;
    static const uint8_t seven[7] = {0x23, 0x7D, 0x60, 0x01, 0x0B};

    limited(&b, -10, 10);
    before = b;
    check(frame(&b, 0x605, seven, 7) == 0 && are_same(&b, &before), "seven bytes are not served");
    nmt(&b, 0x02);
    before = b;
    for (uint32_t way = 0; way < EXPEDITED; way++) {
        write_limit(&b, way, MINIMUM, 11);
        check(b.answer == 0 && are_same(&b, &before), "Stopped, a write that would be refused");
        write_limit(&b, way, MINIMUM, 10);
        check(b.answer == 0 && are_same(&b, &before), "Stopped, a write that would be taken");
    }
    nmt(&b, 0x80);
    set(&b, MINIMUM, 11);
    check(is_refused(&b, MINIMUM, NOT_COMPATIBLE), "and served again");
}

/* So that no receive PDO ever meets the rule. */
static void limits_are_not_mapped(void)
{
    static struct bench b;

    fresh(&b);
    for (uint32_t i = 0; i < 2; i++) {
        sdo(&b, 0x23, 0x1400 + 0x400 * i, 1, i == 0 ? 0x80000205 : 0xC0000185);
        sdo(&b, 0x2F, 0x1600 + 0x400 * i, 0, 0);
        for (uint8_t subindex = MINIMUM; subindex <= MAXIMUM; subindex++) {
            const uint8_t entry[3] = {0x00, (uint8_t)(0x16 + 4 * i), 0x01};
            sdo(&b, 0x23, 0x1600 + 0x400 * i, 1, 0x607D0020 + 0x100u * subindex);
            check(is_abort(&b, entry, NOT_MAPPABLE), "a limit in a PDO");
        }
    }
}

/* ---- by segments, at the last one */

/* A maximum by segments, but for the last byte. */
static void begin_maximum(struct bench *b, int32_t value)
{
    uint8_t bytes[4];

    to_bytes(bytes, value);
    sdo(b, 0x20, 0x607D, MAXIMUM, 0);
    send_segment(b, 0, bytes, 3, 0);
}

static void end_maximum(struct bench *b, int32_t value)
{
    const uint8_t last = (uint8_t)((uint32_t)value >> 24);
    send_segment(b, 1, &last, 1, 1);
}

/* What goes on between two segments, and leaves the limits. */
static void pass_time(struct bench *b)
{
    static const uint8_t moves[6] = {0x06, 0x00, 0xE8, 0x03}, at[8] = {1};

    nmt(b, 0x01);
    frame(b, 0x405, moves, 6);
    frame(b, 0x80, 0, 0);
    event(b, CENDURAK_FEEDBACK, at, 8);
    event(b, CENDURAK_TICK, 0, 0);
    nmt(b, 0x80);
}

static void between_segments(void)
{
    static struct bench b;
    static const uint8_t no_object[3];

    limited(&b, -10, 10);
    begin_maximum(&b, -11);
    pass_time(&b);
    check(target_position(&b) == 1000 && limits_are(&b, -10, 10), "a receive PDO between two segments");
    end_maximum(&b, -11);
    check(is_refused(&b, MAXIMUM, NOT_COMPATIBLE) && limits_are(&b, -10, 10), "refused at the last segment");
    begin_maximum(&b, -10);
    pass_time(&b);
    check(limits_are(&b, -10, 10), "nothing is stored before the last segment");
    end_maximum(&b, -10);
    check(is_taken(&b, 1) && limits_are(&b, -10, -10), "taken at the last segment");
    begin_maximum(&b, 10);
    set(&b, MINIMUM, -20);
    end_maximum(&b, 10);
    check(is_abort(&b, no_object, NOT_KNOWN) && limits_are(&b, -20, -10), "another write ends the transfer");
    for (uint32_t way = 0; way < WAYS; way++) {
        begin_maximum(&b, 10);
        check(goes_right(&b, way, MINIMUM, -9) && limits_are(&b, -20, -10), "and so does one that is refused");
    }
}

/* A transfer put back into the state meets other limits than those that it began with. */
static void limits_of_the_last_segment(void)
{
    static struct bench b;
    struct transfer begun;

    limited(&b, -10, 10);
    begin_maximum(&b, 0);
    begun = transfer_of(lent(&b.state));
    set(&b, MINIMUM, 1);
    put_transfer(lent(&b.state), &begun);
    end_maximum(&b, 0);
    check(is_refused(&b, MAXIMUM, NOT_COMPATIBLE) && limits_are(&b, 1, 10), "the minimum went up between begin and end");
    begin_maximum(&b, 0);
    begun = transfer_of(lent(&b.state));
    set(&b, MINIMUM, 0);
    put_transfer(lent(&b.state), &begun);
    end_maximum(&b, 0);
    check(is_taken(&b, 1) && limits_are(&b, 0, 0), "the minimum went down between begin and end");
}

/* ---- resets */

static void limits_are_reset(void)
{
    static struct bench b;
    static const uint8_t keep[] = {0x01, 0x80, 0x02, 0x82};

    limited(&b, -10, 10);
    for (uint32_t i = 0; i < sizeof keep; i++) {
        nmt(&b, keep[i]);
        check(limits_are(&b, -10, 10), "01h, 80h, 02h and 82h keep the limits");
    }
    set(&b, MINIMUM, 11);
    check(is_refused(&b, MINIMUM, NOT_COMPATIBLE), "behind 82h the limits count");
    nmt(&b, 0x81);
    check(limits_are(&b, LEAST, GREATEST), "81h resets the limits");
    set_limits(&b, 11, 12);
    check(limits_are(&b, 11, 12), "and the defaults count");
    power_up(&b, 5);
    check(limits_are(&b, LEAST, GREATEST), "power-up resets the limits");
}

/* ---- set-points */

/* Enabled in mode 1 and Operational. */
static void positioning(struct bench *b)
{
    started(b);
    sdo(b, 0x2F, 0x6060, 0, 1);
    control(b, 0x06);
    control(b, ENABLE);
    nmt(b, 0x01);
}

/* An absolute set-point at once, by a receive PDO: whether it is taken, and the limit mark not set. */
static int takes(struct bench *b, int32_t target)
{
    uint8_t data[6] = {ENABLE, 0};

    to_bytes(data + 2, target);
    frame(b, 0x405, data, 6);
    data[0] = NEW_AT_ONCE;
    frame(b, 0x405, data, 6);
    return (status(b) & (TAKEN | LIMIT_MARK)) == TAKEN;
}

/* Likewise, whether it is not taken, and the limit mark set. */
static int is_outside(struct bench *b, int32_t target)
{
    return !takes(b, target) && (status(b) & (TAKEN | LIMIT_MARK)) == LIMIT_MARK;
}

static void set_points_meet_limits(void)
{
    static struct bench b;

    positioning(&b);
    set_limits(&b, 0, 30000);
    check(takes(&b, 12000) && takes(&b, 0) && takes(&b, 30000), "between the limits and at them");
    check(is_outside(&b, -1) && is_outside(&b, 30001), "one beyond");
    check(takes(&b, 12000), "a target to move to");
    set(&b, MAXIMUM, -1);
    check(is_refused(&b, MAXIMUM, NOT_COMPATIBLE) && takes(&b, 12000), "swapped limits are refused, and targets are taken as before");
    set(&b, MAXIMUM, 10000);
    check(cendurak_set_points(lent(&b.state)) == 1 && cendurak_active_set_point(lent(&b.state)).target == 12000, "an active target stays");
    check(is_outside(&b, 12000), "and is not taken again");
    set(&b, MINIMUM, 10000);
    check(takes(&b, 10000) && is_outside(&b, 9999) && is_outside(&b, 10001), "equal limits leave one target");
}

/* ---- forged limits */

/* Calls on limits that are not in order: refused for that, before what is wrong with the call itself, but behind the lengths of dictionary and
 * output; nothing changes. Power-up alone is accepted. How much of it is wrong. */
static uint32_t wrong_calls(const struct bench *forged)
{
    static struct bench b;
    const uint32_t refusal = 256 * CENDURAK_NOT_SOUND;
    uint32_t wrong = 0;

    b = *forged;
    wrong += sdo(&b, 0x40, 0x607D, MINIMUM, 0) != refusal || !are_same(&b, forged);
    wrong += sdo(&b, 0x23, 0x607D, MINIMUM, (uint32_t)LEAST) != refusal || !are_same(&b, forged);
    nmt(&b, 0x81);
    wrong += b.answer != refusal || !are_same(&b, forged);
    wrong += frame(&b, 0x800, 0, 0) != refusal || event(&b, 0, 0, 0) != refusal || !are_same(&b, forged);
    b.out.length = CENDURAK_OUT_LEN - 1;
    wrong += event(&b, CENDURAK_TICK, 0, 0) != 256 * CENDURAK_BAD_OUT_LEN;
    b.dict.length = CENDURAK_DICT_LEN - 1;
    wrong += event(&b, CENDURAK_TICK, 0, 0) != 256 * CENDURAK_BAD_DICT_LEN;
    b = *forged;
    wrong += power_up(&b, 5) != 1 || !limits_are(&b, LEAST, GREATEST);
    return wrong;
}

/* These limits put into the dictionary of a node on which a tick changes nothing. How much of it is wrong. */
static uint32_t wrong_forged(const struct bench *start, int32_t minimum, int32_t maximum)
{
    static struct bench b, forged;
    uint32_t refusal = minimum <= maximum ? 0 : 256 * CENDURAK_NOT_SOUND, wrong = 0;

    forged = *start;
    put_limit(&forged, MINIMUM, minimum);
    put_limit(&forged, MAXIMUM, maximum);
    b = forged;
    wrong += frame(&b, 0x7FF, 0, 0) != refusal || !are_same(&b, &forged);
    wrong += event(&b, CENDURAK_TICK, 0, 0) != refusal || !are_same(&b, &forged);
    return wrong + (refusal != 0 ? wrong_calls(&forged) : 0);
}

static void forged_edges(const struct bench *start, const char *name)
{
    uint32_t wrong = 0;

    for (uint32_t low = 0; low < EDGES; low++)
        for (uint32_t high = 0; high < EDGES; high++)
            wrong += wrong_forged(start, edges[low], edges[high]);
    check(wrong == 0, name);
}

/* Each byte of both limits over its values, of which so many are not in order. */
static void forged_bytes(const struct bench *start, int32_t minimum, int32_t maximum, uint32_t swapped, const char *name)
{
    static struct bench b;
    uint32_t wrong = 0, seen = 0;

    for (uint32_t i = 0; i < 8 * 256; i++) {
        b = *start;
        put_limit(&b, MINIMUM, minimum);
        put_limit(&b, MAXIMUM, maximum);
        lent(&b.dict)[MINIMUM_AT + i / 256] = (uint8_t)i;
        seen += limit(&b, MINIMUM) > limit(&b, MAXIMUM);
        wrong += wrong_forged(start, limit(&b, MINIMUM), limit(&b, MAXIMUM));
    }
    check(wrong == 0 && seen == swapped, name);
}

static void limits_are_forged(void)
{
    static struct bench b;

    fresh(&b);
    forged_edges(&b, "forged limits after power-up");
    /* of 0 and 0: of the minimum all but 0 in three bytes and 1 to 127 in the high one; of the maximum 128 to 255 in the high one */
    forged_bytes(&b, 0, 0, 3 * 255 + 127 + 128, "each byte of limits that are 0");
    /* of -1 and 0: of the minimum 0 to 127 in the high byte; of the maximum 128 to 255, all of which are below -1 */
    forged_bytes(&b, -1, 0, 128 + 128, "each byte of -1 and 0");
    positioning(&b);
    check(takes(&b, 1000), "on the way to a target");
    forged_edges(&b, "forged limits in Operational");
    nmt(&b, 0x02);
    forged_edges(&b, "forged limits in Stopped");
}

/* ---- random writes and set-points against a model */

enum { WRITES = 200000, SET_POINT_EVERY = 4 };
/* What the run met, as bits: four of taken writes and four of refused ones, then these. */
enum { REFUSED_MET = 4, EQUAL_MET = 8, BELOW_MET = 9, ABOVE_MET = 10, INSIDE_MET = 11, ALL_MET = 0xFFF };

static struct {
    int32_t minimum, maximum;
    uint32_t wrong, met;
} model;

static int32_t near(int32_t value)
{
    return (int32_t)((uint32_t)value + random_below(5) - 2);
}

static int32_t random_value(void)
{
    switch (random_below(4)) {
    case 0: return near(model.minimum);
    case 1: return near(model.maximum);
    case 2: return edges[random_below(EDGES)];
    default: return (int32_t)(65536 * random_below(65536) + random_below(65536));
    }
}

/* One write of one of them, and the model after it. */
static void random_write(struct bench *b)
{
    uint32_t way = random_below(2) ? random_below(WAYS) : 0;
    uint8_t subindex = random_below(2) ? MINIMUM : MAXIMUM;
    int32_t value = random_value();
    int is_taken = subindex == MINIMUM ? value <= model.maximum : model.minimum <= value;

    model.wrong += !goes_right(b, way, subindex, value);
    if (is_taken && subindex == MINIMUM)
        model.minimum = value;
    if (is_taken && subindex == MAXIMUM)
        model.maximum = value;
    model.wrong += !limits_are(b, model.minimum, model.maximum);
    model.met |= 1u << ((is_taken ? 0 : REFUSED_MET) + 2 * (way >= EXPEDITED) + subindex - MINIMUM);
    model.met |= (uint32_t)(model.minimum == model.maximum) << EQUAL_MET;
}

static void random_set_point(struct bench *b)
{
    int32_t target = random_value();
    int is_inside = model.minimum <= target && target <= model.maximum;

    model.wrong += !(is_inside ? takes(b, target) : is_outside(b, target));
    model.met |= 1u << (is_inside ? INSIDE_MET : target < model.minimum ? BELOW_MET : ABOVE_MET);
}

static void random_run(void)
{
    static struct bench b;

    seed = 1;
    positioning(&b);
    model.minimum = LEAST, model.maximum = GREATEST;
    for (uint32_t i = 0; i < WRITES; i++) {
        random_write(&b);
        if (i % SET_POINT_EVERY == 0)
            random_set_point(&b);
    }
    check(model.wrong == 0, "random writes and set-points against the model");
    check(model.met == ALL_MET, "both limits taken and refused, at once and by segments, equal ones, and targets on all sides");
}

int main(void)
{
    swapped_by_a_customer();
    all_edges();
    named_edges();
    present_values_count();
    order_of_aborts();
    nothing_is_served();
    limits_are_not_mapped();
    between_segments();
    limits_of_the_last_segment();
    limits_are_reset();
    set_points_meet_limits();
    limits_are_forged();
    random_run();
    printf("%u passed, %u failed\n", passed, failed);
    return failed != 0;
}
