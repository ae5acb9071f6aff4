/*
 * Tests of the example firmware's glue under interrupts of two priorities, which come wherever it could matter: before each atomic access, each move of
 * waiting frames and each look at a mailbox. For that its sources are compiled in here. When they come looks random and is the same at each run.
 * No frame may be lost, come twice or out of order, none may be left waiting, and no trip may be lost.
 */
#include <stdatomic.h>
#include <stdbool.h>
#include <stdint.h>
#include <stdio.h>
#include <string.h>

#include "randoms.h"

/* ---- the accesses, with an interrupt before each */

static void interrupt_may_come(void);

static inline unsigned load(const atomic_uint *object)
{
    return atomic_load_explicit(object, memory_order_seq_cst);
}

static inline void store(atomic_uint *object, unsigned value)
{
    atomic_store_explicit(object, value, memory_order_seq_cst);
}

static inline unsigned exchange(atomic_uint *object, unsigned value)
{
    return atomic_exchange_explicit(object, value, memory_order_seq_cst);
}

static inline unsigned fetch_or(atomic_uint *object, unsigned bits)
{
    return atomic_fetch_or_explicit(object, bits, memory_order_seq_cst);
}

#undef atomic_load_explicit
#undef atomic_store_explicit
#undef atomic_exchange_explicit
#undef atomic_fetch_or_explicit
#define atomic_load_explicit(object, order) (interrupt_may_come(), load(object))
#define atomic_store_explicit(object, value, order) (interrupt_may_come(), store(object, value))
#define atomic_exchange_explicit(object, value, order) (interrupt_may_come(), exchange(object, value))
#define atomic_fetch_or_explicit(object, bits, order) (interrupt_may_come(), fetch_or(object, bits))
#define memmove(to, from, count) (interrupt_may_come(), memmove(to, from, count))

#include "../../examples/firmware/frame_queue.c"
#include "../../examples/firmware/node.c"
#include "../../examples/firmware/outbox.c"

#undef memmove

#include "glue.h"

enum { FRAMES = 150000, TRIPS = 150000, ROUNDS = 20000, MOST_MAILBOXES = 3, HIGHEST = 2 };

/* ---- interrupts */

static uint32_t level;      /* 0 is the main loop */
static uint32_t one_in = 4; /* so many places an interrupt comes */
static bool are_on;
static void (*interrupt)(uint32_t at);

static void interrupt_may_come(void)
{
    uint32_t before = level;

    if (!are_on || level == HIGHEST || random_below(one_in) != 0)
        return;
    level += 1 + random_below(HIGHEST - level);
    interrupt(level);
    level = before;
}

static struct node_hooks own;

static void begin(bool (*transmit)(const struct node_frame *), void (*what)(uint32_t))
{
    seed = 1;
    start();
    own = hooks;
    own.transmit = transmit;
    node.setup.hooks = &own;
    interrupt = what;
    are_on = true;
}

/* ---- frames: a CAN controller of some mailboxes, which sends in order. What it does itself no interrupt divides. */

static struct node_frame mailboxes[MOST_MAILBOXES];
static uint32_t mailbox_count, filled, asked, heard, wrong, clashes;
static bool is_inside;

static bool fill_mailbox(const struct node_frame *frame)
{
    clashes += is_inside;
    is_inside = true;
    interrupt_may_come();
    is_inside = false;
    if (filled == mailbox_count)
        return false;
    mailboxes[filled++] = *frame;
    return true;
}

/* The first mailbox is sent. A reply has its number as index and subindex. */
static bool send_first(void)
{
    if (filled == 0)
        return false;
    wrong += cendurak_word(mailboxes[0].data) >> 8 != 0x2000 + heard;
    heard++;
    filled--;
    memmove(&mailboxes[0], &mailboxes[1], filled * sizeof mailboxes[0]);
    return true;
}

/* A request that no object has, as long as there is room: its reply is kept in order. */
static void ask(void)
{
    if (asked == FRAMES || frame_queue_room(&node.received) == 0)
        return;
    receive(SDO_REQUEST, 8, 0x40 + ((0x2000 + asked) << 8), 0);
    asked++;
}

/* Frames are received at the lower priority; either one tells of a mailbox that got free, the upper one also of none. */
static void bus_interrupt(uint32_t at)
{
    if (at == 1)
        ask();
    if (send_first() || at == HIGHEST)
        node_transmit(&node);
}

static void begin_frames(uint32_t count)
{
    mailbox_count = count;
    filled = asked = heard = wrong = clashes = 0;
    begin(fill_mailbox, bus_interrupt);
}

/* The main loop makes no call any more: what is left is sent as mailboxes get free. */
static void send_the_rest(void)
{
    are_on = false;
    while (send_first())
        node_transmit(&node);
}

static void frames(uint32_t count)
{
    begin_frames(count);
    while (asked < FRAMES || frame_queue_room(&node.received) < FRAME_QUEUE_PLACES)
        node_run(&node, &inputs);
    send_the_rest();
    check(clashes == 0, "one sends at a time");
    check(wrong == 0 && heard == FRAMES, "each frame is sent once, in order");
    check(node.outbox.count == 0 && node.outbox.lost == 0 && frame_queue_lost(&node.received) == 0, "none is left waiting, none lost");
}

/* The main loop hands in some frames, the last ones perhaps without room, and stops in the midst of the interrupts. */
static void last_words(void)
{
    const struct node_frame request = {.identifier = SDO_REQUEST, .length = 8, .data = {0x40, 0x00, 0x20}};
    uint32_t left = 0;

    begin_frames(1);
    asked = FRAMES;
    one_in = 40;
    for (uint32_t i = 0; i < ROUNDS; i++) {
        are_on = true;
        for (uint32_t j = random_below(60); j > 0; j--)
            node_hand(&node, &request);
        send_the_rest();
        left += node.outbox.count;
    }
    one_in = 4;
    check(left == 0 && clashes == 0, "what the main loop leaves is sent when the next mailbox gets free");
}

/* ---- trips. A fault is tripped again where it was told, and a pass went by since then that met none. */

static struct node_fault table[NODE_MOST_FAULTS];
static uint32_t passes, tripped[NODE_MOST_FAULTS], told[NODE_MOST_FAULTS], told_at[NODE_MOST_FAULTS], all_told;

static bool note_emergency(const struct node_frame *frame)
{
    uint32_t number = cendurak_half(frame->data) - 0x5000u;

    if (frame->identifier == EMERGENCY && number < NODE_MOST_FAULTS) {
        told_at[number] = passes;
        told[number]++;
        all_told++;
    }
    return true;
}

/* Each priority has faults of its own. */
static void trip_interrupt(uint32_t at)
{
    uint32_t fault = HIGHEST * random_below(NODE_MOST_FAULTS / HIGHEST) + at - 1;

    if (told[fault] != tripped[fault] || passes - told_at[fault] < 2)
        return;
    tripped[fault]++;
    node_trip(&node, fault);
}

static void one_pass(void)
{
    node_run(&node, &inputs);
    passes++;
}

static void trips(void)
{
    uint32_t lost = 0;

    for (uint32_t i = 0; i < NODE_MOST_FAULTS; i++)
        table[i].code = (uint16_t)(0x5000 + i);
    begin(note_emergency, trip_interrupt);
    node.setup.faults = table;
    node.setup.fault_count = NODE_MOST_FAULTS;
    passes = 2;
    while (all_told < TRIPS && passes < 10 * TRIPS)
        one_pass();
    are_on = false;
    one_pass();
    one_pass();
    for (uint32_t i = 0; i < NODE_MOST_FAULTS; i++)
        lost += tripped[i] != told[i];
    check(lost == 0 && all_told >= TRIPS, "no trip is lost, none told twice");
}

int main(void)
{
    frames(1);
    frames(MOST_MAILBOXES);
    last_words();
    trips();
    printf("%u passed, %u failed\n", passed, failed);
    return failed != 0;
}
