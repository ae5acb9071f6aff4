/*
 * Tests of the label feeder's two calls, as include/feeder.h tells them: lists of no length, one, 1,024 and 1,025; positions in the list, at its
 * end and past it; every status word; the least and the greatest length; refused answers; what takes an answer apart; random inputs against a
 * model that is written from the words of the header alone; and runs against the node, where every length is to be taken once, as a running
 * sum, two ahead, whichever way the two objects are written.
 */
#include <stdio.h>
#include <string.h>

#include "checks.h"
#include "feeder.h"
#include "guarded.h"
#include "randoms.h"

enum { GREATEST = 2147483647, LEAST = -GREATEST - 1 };
enum { WAIT = 0x000F, FEED = 0x005F, ACKNOWLEDGE = 0x1000 };
enum { TOO_MANY = FEEDER_MOST_LENGTHS + 1, ROOM = TOO_MANY + 7 };

/* ---- a list with guards around it. A guard is no length that a list has, so that a target shows where it was read. */

enum { LIST_GUARD = 0x5A5A5A5A, GUARDS = 4 };

struct list {
    int32_t words[GUARDS + ROOM + GUARDS];
    uint32_t count;
};

static int32_t *lengths(struct list *l)
{
    return l->words + GUARDS;
}

/* So many lengths, -1, 2, -3, ..: no two are alike. */
static void make(struct list *l, uint32_t count)
{
    for (uint32_t i = 0; i < sizeof l->words / sizeof l->words[0]; i++)
        l->words[i] = LIST_GUARD;
    for (uint32_t i = 0; i < count; i++)
        lengths(l)[i] = i % 2 ? (int32_t)i + 1 : -(int32_t)i - 1;
    l->count = count;
}

/* ---- the model */

struct answer {
    uint32_t refusal, position;
    uint16_t word;
    int32_t target;
};

static struct answer model(struct list *l, uint32_t position, uint32_t status)
{
    struct answer refused = {0, 0, 0, 0}, given = {FEEDER_ACCEPTED, position, WAIT, 0};

    refused.refusal = l->count > FEEDER_MOST_LENGTHS ? FEEDER_LIST_TOO_LONG : position > l->count ? FEEDER_PAST_THE_LIST : FEEDER_ACCEPTED;
    if (refused.refusal != FEEDER_ACCEPTED)
        return refused;
    if (position < l->count) {
        given.target = lengths(l)[position];
        if (!(status & ACKNOWLEDGE))
            given.word = FEED, given.position++;
    }
    return given;
}

static uint64_t number_of(struct answer a)
{
    return ((uint64_t)a.refusal << 60) + ((uint64_t)a.position << 48) + ((uint64_t)a.word << 32) + (uint32_t)a.target;
}

/* Whether a step is as in the model, as a number and taken apart. */
static int goes_right(struct list *l, uint32_t position, uint32_t status)
{
    struct answer wanted = model(l, position, status);
    uint64_t answer = feeder_step(lengths(l), l->count, position, status);

    return answer == number_of(wanted) && feeder_refusal(answer) == wanted.refusal && feeder_position(answer) == wanted.position
           && feeder_control_word(answer) == wanted.word && feeder_target(answer) == wanted.target;
}

/* ---- lists */

static void empty_lists(void)
{
    static struct list none;

    check(feeder_start(0, 0) == FEEDER_ACCEPTED, "a null pointer with no lengths starts");
    check(feeder_step(0, 0, 0, 0) == (uint64_t)WAIT << 32, "a null pointer with no lengths waits");
    check(feeder_step(0, 0, 0, ACKNOWLEDGE) == (uint64_t)WAIT << 32, "and with bit 12 too");
    check(feeder_step(0, 0, 1, 0) == (uint64_t)FEEDER_PAST_THE_LIST << 60, "a null pointer, a position past it");
    make(&none, 0);
    check(feeder_start(lengths(&none), 0) == FEEDER_ACCEPTED && goes_right(&none, 0, 0) && goes_right(&none, 1, 0), "no lengths at a pointer");
}

static void one_length(void)
{
    static struct list one;

    make(&one, 1);
    lengths(&one)[0] = 250;
    check(feeder_start(lengths(&one), 1) == FEEDER_ACCEPTED, "one length starts");
    check(feeder_step(lengths(&one), 1, 0, 0x0237) == 0x0001005F000000FAu, "it is fed");
    check(feeder_step(lengths(&one), 1, 0, 0x1237) == 0x0000000F000000FAu, "it waits while bit 12 is set");
    check(feeder_step(lengths(&one), 1, 1, 0x0237) == 0x0001000F00000000u, "the list is used up");
    check(feeder_step(lengths(&one), 1, 1, 0x1237) == 0x0001000F00000000u, "and stays so with bit 12");
    check(feeder_step(lengths(&one), 1, 2, 0x0237) == 0x2000000000000000u, "a position past it");
}

static void longest_lists(void)
{
    static struct list l;

    make(&l, FEEDER_MOST_LENGTHS);
    check(feeder_start(lengths(&l), l.count) == FEEDER_ACCEPTED, "1,024 lengths start");
    check(feeder_step(lengths(&l), l.count, 1023, 0) == 0x0400005F00000400u, "the last of 1,024 is fed");
    check(feeder_step(lengths(&l), l.count, 1024, 0) == 0x0400000F00000000u, "1,024 lengths are used up");
    make(&l, TOO_MANY);
    check(feeder_start(lengths(&l), l.count) == FEEDER_LIST_TOO_LONG, "1,025 lengths are refused");
    check(feeder_step(lengths(&l), l.count, 0, 0) == 0x1000000000000000u, "in a step too, and all else is zero");
    check(feeder_step(lengths(&l), l.count, TOO_MANY + 1, 0) == 0x1000000000000000u, "before the position is looked at");
}

/* ---- positions */

/* All that fit 17 bits, and around every power of two above: none may wrap to one in the list. How many are wrong. */
static uint32_t wrong_positions(struct list *l, uint32_t status)
{
    uint32_t wrong = 0;

    for (uint32_t position = 0; position < 0x20000; position++)
        wrong += !goes_right(l, position, status);
    for (uint32_t i = 17; i < 32; i++)
        for (uint32_t near = 0; near <= 2 * ROOM; near++)
            wrong += !goes_right(l, ((uint32_t)1 << i) + near - ROOM, status);
    for (uint32_t below = 0; below <= ROOM; below++)
        wrong += !goes_right(l, 0xFFFFFFFFu - below, status);
    return wrong;
}

static void all_positions(void)
{
    static const uint32_t counts[] = {0, 1, 2, FEEDER_MOST_LENGTHS - 1, FEEDER_MOST_LENGTHS, TOO_MANY, ROOM};
    static struct list l, before;

    for (uint32_t i = 0; i < sizeof counts / sizeof counts[0]; i++) {
        make(&l, counts[i]);
        before = l;
        check(feeder_start(lengths(&l), l.count) == (l.count > FEEDER_MOST_LENGTHS ? FEEDER_LIST_TOO_LONG : FEEDER_ACCEPTED), "start, by the count");
        check(wrong_positions(&l, 0) == 0, "positions, bit 12 clear");
        check(wrong_positions(&l, ACKNOWLEDGE) == 0, "positions, bit 12 set");
        check(memcmp(&l, &before, sizeof l) == 0, "the list stays, and what stands around it");
    }
}

/* ---- status words */

static void all_status_words(void)
{
    static struct list l;
    uint32_t wrong = 0;

    make(&l, 3);
    for (uint32_t low = 0; low <= 0xFFFF; low++)
        for (uint32_t position = 0; position <= 4; position++)
            wrong += !goes_right(&l, position, low) + !goes_right(&l, position, 0xFFFF0000u + low);
    check(wrong == 0, "every status word, the bits above 15 clear and set");
    for (uint32_t bit = 0; bit < 32; bit++) {
        uint32_t one = (uint32_t)1 << bit;
        check(feeder_control_word(feeder_step(lengths(&l), 3, 0, one)) == (one == ACKNOWLEDGE ? WAIT : FEED), "one bit of the status word");
        check(feeder_control_word(feeder_step(lengths(&l), 3, 0, ~one)) == (one == ACKNOWLEDGE ? FEED : WAIT), "all bits but one");
    }
}

/* ---- lengths */

static const int32_t edges[] = {LEAST, LEAST + 1, -65536, -257, -256, -2, -1, 0, 1, 2, 255, 256, 65535, GREATEST - 1, GREATEST};
enum { EDGES = sizeof edges / sizeof edges[0] };

static void all_lengths(void)
{
    static struct list l;
    uint32_t wrong = 0;

    for (uint32_t i = 0; i < EDGES; i++) {
        make(&l, FEEDER_MOST_LENGTHS);
        lengths(&l)[0] = lengths(&l)[FEEDER_MOST_LENGTHS - 1] = edges[i];
        check(feeder_target(feeder_step(lengths(&l), l.count, 0, 0)) == edges[i], "a length as it was put");
        for (uint32_t status = 0; status <= ACKNOWLEDGE; status += ACKNOWLEDGE)
            wrong += !goes_right(&l, 0, status) + !goes_right(&l, FEEDER_MOST_LENGTHS - 1, status);
    }
    check(wrong == 0, "the edges of the lengths, first and last");
}

/* ---- what takes an answer apart */

static void accessors(void)
{
    for (uint32_t i = 0; i < EDGES; i++) {
        struct answer a = {2, FEEDER_MOST_LENGTHS, FEED, edges[i]}, b = {0, 0, 0xFFFF, edges[i]}, c = {0, 0xFFF, 0, edges[i]};
        check(feeder_target(number_of(a)) == edges[i] && feeder_target(number_of(b)) == edges[i], "the target alone");
        check(feeder_refusal(number_of(a)) == 2 && feeder_refusal(number_of(b)) == 0 && feeder_refusal(number_of(c)) == 0, "the refusal alone");
        check(feeder_position(number_of(a)) == FEEDER_MOST_LENGTHS && feeder_position(number_of(b)) == 0 && feeder_position(number_of(c)) == 0xFFF,
              "the position alone");
        check(feeder_control_word(number_of(a)) == FEED && feeder_control_word(number_of(b)) == 0xFFFF && feeder_control_word(number_of(c)) == 0,
              "the control word alone");
    }
}

/* ---- random inputs, and whole lists */

static uint32_t random_word(void)
{
    return random_below(0x10000) * 0x10000 + random_below(0x10000);
}

static void random_list(struct list *l)
{
    make(l, random_below(4) ? random_below(5) : FEEDER_MOST_LENGTHS - 3 + random_below(6));
    for (uint32_t i = 0; i < l->count; i++)
        lengths(l)[i] = random_below(2) ? edges[random_below(EDGES)] : (int32_t)random_word();
}

static void random_inputs(void)
{
    static struct list l;
    uint32_t wrong = 0, met = 0;

    seed = 3;
    for (uint32_t i = 0; i < 20000; i++) {
        random_list(&l);
        uint32_t position = random_below(8) ? random_below(l.count + 2) : random_word(), status = random_word();
        struct answer a = model(&l, position, status);
        wrong += !goes_right(&l, position, status) + (feeder_start(lengths(&l), l.count) != (a.refusal == 1));
        met |= 1u << (a.refusal ? a.refusal : a.word == FEED ? 3 : position == l.count ? 4 : 0);
    }
    check(wrong == 0, "random inputs against the model");
    check(met == 0x1F, "both refusals, steps that feed and that wait, and lists that are used up");
}

/* A list is fed to the end: each length once, in its order, whatever bit 12 shows between. */
static uint32_t wrongly_fed(struct list *l)
{
    uint32_t position = 0, fed = 0, wrong = 0;

    for (uint32_t step = 0; step < 4 * l->count + 64; step++) {
        uint64_t answer = feeder_step(lengths(l), l->count, position, random_word());
        if (feeder_control_word(answer) == FEED)
            wrong += fed >= l->count || feeder_target(answer) != lengths(l)[fed++];
        position = feeder_position(answer);
        wrong += position != fed || feeder_refusal(answer) != FEEDER_ACCEPTED;
    }
    return wrong + (fed != l->count);
}

static void whole_lists(void)
{
    static struct list l;
    uint32_t wrong = 0;

    for (uint32_t count = 0; count <= FEEDER_MOST_LENGTHS; count += count < 8 ? 1 : 127) {
        make(&l, count);
        wrong += wrongly_fed(&l);
    }
    check(wrong == 0, "every length once, in its order");
}

/* ---- against the node. The ways of the two objects: by SDO, by a receive PDO of both, in either order, or one of each. */

enum way { BY_SDO, IN_ONE_FRAME, WORD_BEFORE_TARGET, TARGET_BY_SDO, WORD_BY_SDO, WAYS };
enum { RPDO1 = 0x205, RPDO2 = 0x305, RPDO3 = 0x405, RPDO4 = 0x505, TARGET_ENTRY = 0x607A0020, WORD_ENTRY = 0x60400010, START_AT = 1000 };

static void map(struct bench *b, uint32_t i, uint32_t first, uint32_t second)
{
    const uint32_t identifier = RPDO1 + 0x100 * i;

    sdo(b, 0x23, 0x1400 + i, 1, 0x80000000u + identifier);
    sdo(b, 0x2F, 0x1600 + i, 0, 0);
    sdo(b, 0x23, 0x1600 + i, 1, first);
    if (second)
        sdo(b, 0x23, 0x1600 + i, 2, second);
    sdo(b, 0x2F, 0x1600 + i, 0, second ? 2 : 1);
    sdo(b, 0x23, 0x1400 + i, 1, identifier);
}

static void put(uint8_t *bytes, uint32_t value, uint32_t size)
{
    for (uint32_t i = 0; i < size; i++)
        bytes[i] = (uint8_t)(value >> (8 * i));
}

static void write_both(struct bench *b, enum way way, uint32_t target, uint16_t word)
{
    uint8_t data[6];

    if (way == BY_SDO || way == TARGET_BY_SDO)
        sdo(b, 0x23, 0x607A, 0, target);
    put(data, target, 4);
    put(data + 4, word, 2);
    if (way == WORD_BY_SDO)
        frame(b, RPDO2, data, 4);
    if (way == IN_ONE_FRAME)
        frame(b, RPDO3, data, 6);
    if (way == BY_SDO || way == WORD_BY_SDO)
        control(b, word);
    put(data, word, 2);
    put(data + 2, target, 4);
    if (way == TARGET_BY_SDO)
        frame(b, RPDO1, data, 2);
    if (way == WORD_BEFORE_TARGET)
        frame(b, RPDO4, data, 6);
}

/* A node in Operation enabled, mode 1, at that position, with no set-point held. */
static void to_be_fed(struct bench *b)
{
    const uint8_t on = 1;
    uint8_t feedback[8] = {0};

    fresh(b);
    map(b, 0, WORD_ENTRY, 0);
    map(b, 1, TARGET_ENTRY, 0);
    map(b, 2, TARGET_ENTRY, WORD_ENTRY);
    map(b, 3, WORD_ENTRY, TARGET_ENTRY);
    nmt(b, 0x01);
    event(b, CENDURAK_STARTED, 0, 0);
    event(b, CENDURAK_VOLTAGE, &on, 1);
    sdo(b, 0x2F, 0x6060, 0, CENDURAK_MODE_PROFILE_POSITION);
    put(feedback, START_AT, 4);
    event(b, CENDURAK_FEEDBACK, feedback, 8);
    control(b, 0x06);
    control(b, WAIT);
}

/* What a run saw: the targets of the active set-points, in order, and the most set-points that were held. */
struct seen {
    int32_t active[16];
    uint32_t count, most, wrong;
};

static void look(struct bench *b, struct seen *s, int is_new)
{
    uint32_t held = cendurak_set_points(lent(&b->state));

    if (is_new && held && s->count < sizeof s->active / sizeof s->active[0])
        s->active[s->count++] = cendurak_active_set_point(lent(&b->state)).target;
    s->most = held > s->most ? held : s->most;
}

/* One step and its writes, by the present status word. Where it feeds, one set-point more is held. */
static void feed(struct bench *b, struct seen *s, struct list *l, enum way way, uint32_t *position)
{
    uint32_t held = cendurak_set_points(lent(&b->state));
    uint64_t answer = feeder_step(lengths(l), l->count, *position, status(b));
    int is_fed = feeder_control_word(answer) == FEED;

    write_both(b, way, (uint32_t)feeder_target(answer), feeder_control_word(answer));
    *position = feeder_position(answer);
    s->wrong += feeder_refusal(answer) != FEEDER_ACCEPTED || cendurak_refusal(b->answer) != CENDURAK_ACCEPTED || !are_guarded(b)
                || cendurak_control_word(lent(&b->dict)) != feeder_control_word(answer)
                || target_position(b) != (uint32_t)feeder_target(answer) || cendurak_set_points(lent(&b->state)) != held + (uint32_t)is_fed;
    look(b, s, is_fed && held == 0);
}

/* The axis reaches the active set-point at every so many steps. */
static void run(struct bench *b, struct seen *s, struct list *l, enum way way, uint32_t pace)
{
    uint32_t position = 0;

    memset(s, 0, sizeof *s);
    to_be_fed(b);
    s->wrong += cendurak_drive(lent(&b->state)) != CENDURAK_DRIVE_OPERATION_ENABLED || cendurak_position(lent(&b->dict)) != START_AT;
    for (uint32_t step = 1; step <= 12 * pace; step++) {
        feed(b, s, l, way, &position);
        if (step % pace == 0 && cendurak_set_points(lent(&b->state))) {
            event(b, CENDURAK_SET_POINT_REACHED, 0, 0);
            look(b, s, 1);
        }
    }
    s->wrong += position != l->count || cendurak_set_points(lent(&b->state)) != 0;
}

/* Whether the active targets were the running sums of the lengths, each once. */
static int are_running_sums(const struct seen *s, struct list *l)
{
    int32_t sum = START_AT;
    int holds = s->count == l->count;

    for (uint32_t i = 0; holds && i < l->count; i++) {
        sum += lengths(l)[i];
        holds = s->active[i] == sum;
    }
    return holds;
}

static void against_the_node(void)
{
    static const int32_t three[] = {300, -450, 7};
    static struct bench b;
    static struct list l;
    struct seen s;

    make(&l, 3);
    memcpy(lengths(&l), three, sizeof three);
    for (uint32_t way = 0; way < WAYS; way++)
        for (uint32_t pace = 1; pace <= 9; pace++) {
            run(&b, &s, &l, way, pace);
            check(s.wrong == 0, "each step that feeds is taken, and no other");
            check(are_running_sums(&s, &l), "the targets are running sums, each length once");
            check(pace < 3 || s.most == 2, "two ahead");
        }
}

/* A length of zero and the same one again are taken as any other. */
static void equal_lengths(void)
{
    static const int32_t same[] = {0, 5, 5, 0, -5, -5};
    static struct bench b;
    static struct list l;
    struct seen s;

    make(&l, 6);
    memcpy(lengths(&l), same, sizeof same);
    for (uint32_t way = 0; way < WAYS; way++) {
        run(&b, &s, &l, way, 4);
        check(s.wrong == 0 && are_running_sums(&s, &l) && s.most == 2, "zero, and the same length again");
    }
}

int main(void)
{
    empty_lists();
    one_length();
    longest_lists();
    all_positions();
    all_status_words();
    all_lengths();
    accessors();
    random_inputs();
    whole_lists();
    against_the_node();
    equal_lengths();
    printf("%u passed, %u failed\n", passed, failed);
    return failed != 0;
}
