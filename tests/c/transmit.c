/*
 * Tests of what several contexts may call at once of the example firmware's glue, on x86-64 alone: node_transmit and node_trip, from signals of two
 * kinds over the main loop, which a thread sends all the time, and from threads beside it. No frame may be lost, come twice or out of order, none may
 * be left waiting, and no trip may be lost. Signals are few, for they are slow on some machines: tests/c/interrupts.c has more of them.
 * With the argument `threads` only those (for a tool that watches threads).
 */
#include <pthread.h>
#include <signal.h>
#include <stdio.h>

#include "glue.h"

enum { FRAMES_BY_SIGNALS = 1000, TRIPS_BY_SIGNALS = 200, FRAMES_BY_THREADS = 40000, TRIPS_BY_THREADS = 10000, MAILBOXES = 3 };

/* How often to look before something is taken to be lost: some seconds. */
enum { LOOKS = 2000000000, MOST_PASSES = 30000000 };

static atomic_uint is_over; /* for the threads */
static struct node_hooks own;

static unsigned count_of(atomic_uint *count)
{
    return atomic_load_explicit(count, memory_order_seq_cst);
}

static void set(atomic_uint *count, unsigned to)
{
    atomic_store_explicit(count, to, memory_order_seq_cst);
}

/* ---- a CAN controller of three mailboxes, which sends in order */

static struct frame_queue mailboxes;
static atomic_uint is_inside;
static atomic_uint clashes, out_of_order; /* two senders at once; frames that were not the next */
static atomic_uint heard;                 /* frames that went to the bus */

static bool fill_mailbox(const struct node_frame *frame)
{
    bool is_free = FRAME_QUEUE_PLACES - frame_queue_room(&mailboxes) < MAILBOXES;

    if (atomic_exchange_explicit(&is_inside, 1, memory_order_relaxed) != 0)
        set(&clashes, 1);
    if (is_free)
        frame_queue_put(&mailboxes, frame);
    atomic_store_explicit(&is_inside, 0, memory_order_relaxed);
    return is_free;
}

/* The controller sends what its mailboxes hold. Whether one got free. A reply has its number as index and subindex. */
static bool empty_mailboxes(void)
{
    struct node_frame frame;
    unsigned number = count_of(&heard), before = number;

    while (frame_queue_take(&mailboxes, &frame)) {
        if (cendurak_word(frame.data) >> 8 != 0x2000 + number)
            set(&out_of_order, 1);
        set(&heard, ++number);
    }
    return number != before;
}

static void transmit_interrupt(void)
{
    if (empty_mailboxes())
        node_transmit(&node);
}

/* ---- what runs over or beside the main loop */

static void on_first(int number)
{
    (void)number;
    transmit_interrupt();
}

static void on_second(int number)
{
    (void)number;
    node_transmit(&node);
}

/* Signals to the main loop, of two kinds: the second may come in the midst of the first. */
static void *send_signals(void *main_loop)
{
    while (count_of(&is_over) == 0) {
        pthread_kill(*(pthread_t *)main_loop, SIGUSR1);
        pthread_kill(*(pthread_t *)main_loop, SIGUSR2);
    }
    return 0;
}

static void *transmit_all_the_time(void *unused)
{
    while (count_of(&is_over) == 0)
        transmit_interrupt();
    return unused;
}

static void *ask_all_the_time(void *unused)
{
    while (count_of(&is_over) == 0)
        node_transmit(&node);
    return unused;
}

/* ---- frames */

/* Requests that no object has, so that their replies are kept in order. */
static void hand_in(uint32_t number)
{
    struct node_frame request = {.identifier = SDO_REQUEST, .length = 8, .data = {0x40}};

    for (uint32_t i = 0; i < 3; i++)
        request.data[1 + i] = (uint8_t)((0x2000 + number) >> (8 * i));
    for (uint32_t i = 0; i < MOST_PASSES && !node_hand(&node, &request); i++)
        ;
}

static void begin_frames(void)
{
    start();
    own = hooks;
    own.transmit = fill_mailbox;
    node.setup.hooks = &own;
    memset(&mailboxes, 0, sizeof mailboxes);
    set(&clashes, 0);
    set(&out_of_order, 0);
    set(&heard, 0);
    set(&is_over, 0);
}

/* The last ones have to go out without the main loop's doing: by the word that was left. */
static void wait_for(uint32_t count)
{
    for (uint32_t i = 0; i < LOOKS && count_of(&heard) != count; i++)
        ;
}

static void frames(uint32_t count, const char *all, const char *once)
{
    for (uint32_t i = 0; i < count; i++)
        hand_in(i);
    wait_for(count);
    check(count_of(&heard) == count && node.outbox.lost == 0, all);
    check(count_of(&clashes) == 0 && count_of(&out_of_order) == 0, once);
    set(&is_over, 1);
}

static void frames_with_signals(void)
{
    pthread_t main_loop = pthread_self(), sender;

    begin_frames();
    signal(SIGUSR1, on_first);
    signal(SIGUSR2, on_second);
    pthread_create(&sender, 0, send_signals, &main_loop);
    frames(FRAMES_BY_SIGNALS, "with signals over the main loop all frames are sent", "with signals over the main loop each is sent once, in order");
    pthread_join(sender, 0);
}

static void frames_with_threads(void)
{
    pthread_t first, second;

    begin_frames();
    pthread_create(&first, 0, transmit_all_the_time, 0);
    pthread_create(&second, 0, ask_all_the_time, 0);
    frames(FRAMES_BY_THREADS, "with threads beside the main loop all frames are sent", "with threads beside the main loop each is sent once, in order");
    pthread_join(first, 0);
    pthread_join(second, 0);
}

/* ---- trips */

static struct node_fault table[NODE_MOST_FAULTS];
static atomic_uint passes, tripped[NODE_MOST_FAULTS], told[NODE_MOST_FAULTS], told_at[NODE_MOST_FAULTS];

static bool note_emergency(const struct node_frame *frame)
{
    uint32_t number = cendurak_half(frame->data) - 0x5000u;

    if (frame->identifier == EMERGENCY && number < NODE_MOST_FAULTS) {
        set(&told_at[number], count_of(&passes));
        set(&told[number], count_of(&told[number]) + 1);
    }
    return true;
}

/* Trips a fault, where its last trip was told, and a pass went by since then that met none. */
static void trip_again(uint32_t fault)
{
    if (count_of(&told[fault]) != count_of(&tripped[fault]) || count_of(&passes) - count_of(&told_at[fault]) < 2)
        return;
    set(&tripped[fault], count_of(&tripped[fault]) + 1);
    node_trip(&node, fault);
}

/* Each context has faults of its own: every other one. */
static void trip_every_other(uint32_t first)
{
    for (uint32_t i = first; i < NODE_MOST_FAULTS; i += 2)
        trip_again(i);
}

static void on_first_trip(int number)
{
    (void)number;
    trip_every_other(0);
}

static void on_second_trip(int number)
{
    (void)number;
    trip_every_other(1);
}

static void *trip_all_the_time(void *first)
{
    while (count_of(&is_over) == 0)
        trip_every_other(*(uint32_t *)first);
    return 0;
}

static void begin_trips(void)
{
    start();
    own = hooks;
    own.transmit = note_emergency;
    node.setup.hooks = &own;
    node.setup.faults = table;
    node.setup.fault_count = NODE_MOST_FAULTS;
    set(&passes, 2);
    set(&is_over, 0);
    for (uint32_t i = 0; i < NODE_MOST_FAULTS; i++) {
        table[i].code = (uint16_t)(0x5000 + i);
        set(&tripped[i], 0);
        set(&told[i], 0);
        set(&told_at[i], 0);
    }
}

static uint32_t sum_of(atomic_uint *counts)
{
    uint32_t sum = 0;

    for (uint32_t i = 0; i < NODE_MOST_FAULTS; i++)
        sum += count_of(&counts[i]);
    return sum;
}

static uint32_t trips_lost(void)
{
    uint32_t lost = 0;

    for (uint32_t i = 0; i < NODE_MOST_FAULTS; i++)
        lost += count_of(&tripped[i]) != count_of(&told[i]);
    return lost;
}

static void one_pass(void)
{
    pass();
    set(&passes, count_of(&passes) + 1);
}

/* Passes until there were as many trips, or it takes too long, as where one was lost and its fault is not tripped any more. */
static void pass_for_trips(uint32_t count)
{
    for (uint32_t i = 0; i < MOST_PASSES && sum_of(told) < count; i++)
        one_pass();
    set(&is_over, 1);
}

static void check_trips(uint32_t count, const char *name)
{
    for (uint32_t i = 0; i < 3; i++)
        one_pass();
    check(sum_of(told) >= count && trips_lost() == 0, name);
}

static void trips_with_signals(void)
{
    pthread_t main_loop = pthread_self(), sender;

    begin_trips();
    signal(SIGUSR1, on_first_trip);
    signal(SIGUSR2, on_second_trip);
    pthread_create(&sender, 0, send_signals, &main_loop);
    pass_for_trips(TRIPS_BY_SIGNALS);
    pthread_join(sender, 0);
    check_trips(TRIPS_BY_SIGNALS, "trips from signals over the main loop, and over each other");
}

static void trips_with_threads(void)
{
    static uint32_t even = 0, odd = 1;
    pthread_t first, second;

    begin_trips();
    pthread_create(&first, 0, trip_all_the_time, &even);
    pthread_create(&second, 0, trip_all_the_time, &odd);
    pass_for_trips(TRIPS_BY_THREADS);
    pthread_join(first, 0);
    pthread_join(second, 0);
    check_trips(TRIPS_BY_THREADS, "trips from threads beside the main loop");
}

int main(int count, char **words)
{
    bool has_signals = count < 2 || strcmp(words[1], "threads") != 0;

    if (has_signals) {
        frames_with_signals();
        trips_with_signals();
    }
    frames_with_threads();
    trips_with_threads();
    printf("%u passed, %u failed\n", passed, failed);
    return failed != 0;
}
