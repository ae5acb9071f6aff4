/*
 * A CAN_RAW socket of Linux as the node's CAN controller: data frames with 11-bit identifiers in and out, acceptance filters, and the news that the
 * controller is off the bus. Nothing here waits: who wants to wait polls `fd`.
 *
 * A socket of another kind that carries struct can_frame, one in a packet, does as well; its filters are then those of this file alone.
 */
#ifndef CAN_SOCKET_H
#define CAN_SOCKET_H

#include <stdbool.h>
#include <stdint.h>

#include <linux/can.h>

#include "cendurak.h"
#include "frame_queue.h"

struct can_socket {
    int fd;
    const char *name; /* of the interface; of a socket that was handed over, words for it */
    bool is_can;      /* the kernel filters, and tells of errors */
    struct can_filter filters[CENDURAK_MOST_SERVED];
    uint32_t filter_count;
    uint32_t dropped;        /* frames that the kernel had no room for, as it last told */
    bool is_full;            /* the last frame found no room in the socket: POLLOUT tells when there is some */
    const char *failed_call; /* what can no longer be done; 0: all is well */
    int error;               /* why, as in errno */
};

/* Opens an interface, which lets nothing in before the first can_socket_filter. False: it failed. */
bool can_socket_open(struct can_socket *can, const char *interface);

/* Takes a socket that is open. False: it is none. */
bool can_socket_adopt(struct can_socket *can, int fd);

void can_socket_close(struct can_socket *can);

/* Says on standard error what failed, and what may help. */
void can_socket_explain(const struct can_socket *can);

/* Notes what failed. Always false. */
bool can_socket_fail(struct can_socket *can, const char *call, int error);

/* Data frames with these identifiers are let in, no others. Where the kernel does not take the filters, the socket has failed. */
void can_socket_filter(struct can_socket *can, const uint16_t *identifiers, uint32_t count);

/* What came in with a packet. */
enum can_arrival {
    CAN_NONE,    /* there was none */
    CAN_FOREIGN, /* nothing for the node */
    CAN_DATA,    /* a frame for it */
    CAN_BUS_OFF, /* the controller went off the bus */
    CAN_BUS_ON   /* the controller was started again */
};

/* Takes a packet, if there is one. `was_dropped` is set where the kernel dropped frames before it, and left as it is otherwise. */
enum can_arrival can_socket_read(struct can_socket *can, struct node_frame *frame, bool *was_dropped);

/* Where nothing could be read: an error of the socket that reading did not meet, or that the other end has closed it, is a failure. */
void can_socket_look_at_end(struct can_socket *can, bool is_closed);

/* False: there is no room for it now, or the socket has failed. */
bool can_socket_write(struct can_socket *can, const struct node_frame *frame);

#endif
