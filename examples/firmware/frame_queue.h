/*
 * A queue of CAN frames from an interrupt to the main loop, or back: one side puts, the other takes, neither waits and neither locks. Two that
 * put, as receive interrupts of two priorities, or two that take, are one too many: frames would be lost or come twice.
 * A frame that finds the queue full is lost, and counted.
 */
#ifndef FRAME_QUEUE_H
#define FRAME_QUEUE_H

#include <stdbool.h>
#include <stdint.h>

#include "atomics.h"

#ifdef __cplusplus
extern "C" {
#endif

enum { NODE_FRAME_ROOM = 8 };

/* A data frame of classic CAN with an 11-bit identifier. */
struct node_frame {
    uint16_t identifier;
    uint8_t length;
    uint8_t data[NODE_FRAME_ROOM];
};

/* A power of two, so that the two counts may run over. */
enum { FRAME_QUEUE_PLACES = 32 };

/* All zero is an empty queue. */
struct frame_queue {
    struct node_frame frames[FRAME_QUEUE_PLACES];
    atomic_uint put;   /* frames ever put: written by the side that puts */
    atomic_uint lost;  /* frames that found no place: written by the side that puts */
    atomic_uint taken; /* frames ever taken: written by the side that takes */
};

/* The side that puts. False: the queue is full, the frame is lost and counted. */
bool frame_queue_put(struct frame_queue *queue, const struct node_frame *frame);

/* The side that takes. False: the queue is empty. */
bool frame_queue_take(struct frame_queue *queue, struct node_frame *frame);

/* The side that takes: forgets all that was put so far. */
void frame_queue_clear(struct frame_queue *queue);

/* Either side: the places that are free, and the frames lost since the start. */
uint32_t frame_queue_room(const struct frame_queue *queue);
uint32_t frame_queue_lost(const struct frame_queue *queue);

#ifdef __cplusplus
}
#endif

#endif
