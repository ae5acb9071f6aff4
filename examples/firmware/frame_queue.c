#include "frame_queue.h"

/*
 * The order of the accesses is what makes it safe: a frame is written before `put` says so (release) and read after `put` was seen
 * (acquire); its place is free again only when `taken` says so, by the same rule the other way round.
 */

bool frame_queue_put(struct frame_queue *queue, const struct node_frame *frame)
{
    unsigned put = atomic_load_explicit(&queue->put, memory_order_relaxed);

    if (frame_queue_room(queue) == 0) {
        unsigned lost = atomic_load_explicit(&queue->lost, memory_order_relaxed);
        atomic_store_explicit(&queue->lost, lost + 1, memory_order_relaxed);
        return false;
    }
    queue->frames[put % FRAME_QUEUE_PLACES] = *frame;
    atomic_store_explicit(&queue->put, put + 1, memory_order_release);
    return true;
}

bool frame_queue_take(struct frame_queue *queue, struct node_frame *frame)
{
    unsigned taken = atomic_load_explicit(&queue->taken, memory_order_relaxed);

    if (taken == atomic_load_explicit(&queue->put, memory_order_acquire))
        return false;
    *frame = queue->frames[taken % FRAME_QUEUE_PLACES];
    atomic_store_explicit(&queue->taken, taken + 1, memory_order_release);
    return true;
}

void frame_queue_clear(struct frame_queue *queue)
{
    unsigned put = atomic_load_explicit(&queue->put, memory_order_acquire);

    atomic_store_explicit(&queue->taken, put, memory_order_release);
}

uint32_t frame_queue_room(const struct frame_queue *queue)
{
    unsigned put = atomic_load_explicit(&queue->put, memory_order_acquire);
    unsigned taken = atomic_load_explicit(&queue->taken, memory_order_acquire);

    return FRAME_QUEUE_PLACES - (put - taken);
}

uint32_t frame_queue_lost(const struct frame_queue *queue)
{
    return atomic_load_explicit(&queue->lost, memory_order_relaxed);
}
