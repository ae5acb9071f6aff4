#define _GNU_SOURCE

#include "can_socket.h"

#include <errno.h>
#include <stdio.h>
#include <string.h>
#include <unistd.h>

#include <net/if.h>
#include <sys/socket.h>

#include <linux/can/error.h>
#include <linux/can/raw.h>

/* The error frames that are wanted. */
enum { WANTED_ERRORS = CAN_ERR_BUSOFF | CAN_ERR_RESTARTED };

/* ---- what failed */

bool can_socket_fail(struct can_socket *can, const char *call, int error)
{
    can->failed_call = call;
    can->error = error;
    return false;
}

void can_socket_explain(const struct can_socket *can)
{
    fprintf(stderr, "cendurak-node: %s: %s: %s.\n", can->name, can->failed_call, strerror(can->error));
    if (can->error == EAFNOSUPPORT)
        fprintf(stderr, "This kernel has no CAN sockets; where they are a module: modprobe can-raw\n");
    if (can->error == ENODEV)
        fprintf(stderr, "That is no CAN interface. A virtual one is made by: ip link add dev vcan0 type vcan; ip link set up vcan0\n");
    if (can->error == ENETDOWN)
        fprintf(stderr, "The interface is down. It is set up by: ip link set up %s\n", can->name);
}

/* ---- opening */

static bool set_option(struct can_socket *can, int level, int option, const void *value, socklen_t length, const char *call)
{
    return setsockopt(can->fd, level, option, value, length) == 0 || can_socket_fail(can, call, errno);
}

static bool set_kernel_filters(struct can_socket *can)
{
    socklen_t length = (socklen_t)(can->filter_count * sizeof can->filters[0]);

    return set_option(can, SOL_CAN_RAW, CAN_RAW_FILTER, can->filters, length, "setsockopt CAN_RAW_FILTER");
}

/* No data frames yet, the error frames that are wanted, and the count of dropped frames. */
static bool set_options(struct can_socket *can)
{
    const can_err_mask_t errors = WANTED_ERRORS;
    const int on = 1;

    return set_kernel_filters(can) && set_option(can, SOL_CAN_RAW, CAN_RAW_ERR_FILTER, &errors, sizeof errors, "setsockopt CAN_RAW_ERR_FILTER")
           && set_option(can, SOL_SOCKET, SO_RXQ_OVFL, &on, sizeof on, "setsockopt SO_RXQ_OVFL");
}

static bool bind_to(struct can_socket *can, unsigned index)
{
    struct sockaddr_can address = {.can_family = AF_CAN, .can_ifindex = (int)index};

    return bind(can->fd, (const struct sockaddr *)&address, sizeof address) == 0 || can_socket_fail(can, "bind", errno);
}

bool can_socket_open(struct can_socket *can, const char *interface)
{
    unsigned index = if_nametoindex(interface);

    *can = (struct can_socket){.fd = -1, .name = interface, .is_can = true};
    if (index == 0)
        return can_socket_fail(can, "if_nametoindex", errno);
    can->fd = socket(AF_CAN, SOCK_RAW | SOCK_CLOEXEC, CAN_RAW);
    if (can->fd < 0)
        return can_socket_fail(can, "socket AF_CAN", errno);
    return set_options(can) && bind_to(can, index);
}

bool can_socket_adopt(struct can_socket *can, int fd)
{
    int domain = 0;
    socklen_t length = sizeof domain;

    *can = (struct can_socket){.fd = fd, .name = "the socket of --fd"};
    if (getsockopt(fd, SOL_SOCKET, SO_DOMAIN, &domain, &length) != 0)
        return can_socket_fail(can, "getsockopt SO_DOMAIN", errno);
    can->is_can = domain == AF_CAN;
    return !can->is_can || set_options(can);
}

void can_socket_close(struct can_socket *can)
{
    if (can->fd >= 0)
        close(can->fd);
    can->fd = -1;
}

/* ---- filters */

/* Exact matches on data frames with 11-bit identifiers: the flags of extended and remote frames are to be 0. */
void can_socket_filter(struct can_socket *can, const uint16_t *identifiers, uint32_t count)
{
    can->filter_count = count;
    for (uint32_t i = 0; i < count; i++)
        can->filters[i] = (struct can_filter){.can_id = identifiers[i], .can_mask = CAN_SFF_MASK | CAN_EFF_FLAG | CAN_RTR_FLAG};
    if (can->is_can)
        set_kernel_filters(can);
}

/* The filters as the kernel applies them. Frames that it let in by earlier ones may still wait in the socket. */
static bool is_let_in(const struct can_socket *can, canid_t identifier)
{
    for (uint32_t i = 0; i < can->filter_count; i++)
        if ((identifier & can->filters[i].can_mask) == (can->filters[i].can_id & can->filters[i].can_mask))
            return true;
    return false;
}

/* ---- frames of the node and frames of Linux */

static struct node_frame from_linux(const struct can_frame *from)
{
    struct node_frame to = {.identifier = (uint16_t)(from->can_id & CAN_SFF_MASK), .length = from->can_dlc};

    memcpy(to.data, from->data, sizeof to.data);
    return to;
}

static struct can_frame to_linux(const struct node_frame *from)
{
    struct can_frame to = {.can_id = from->identifier, .can_dlc = from->length};

    memcpy(to.data, from->data, from->length);
    return to;
}

/* ---- reading */

static enum can_arrival arrival_of(const struct can_socket *can, const struct can_frame *frame)
{
    if (frame->can_id & CAN_ERR_FLAG && frame->can_id & CAN_ERR_BUSOFF)
        return CAN_BUS_OFF;
    if (frame->can_id & CAN_ERR_FLAG)
        return frame->can_id & CAN_ERR_RESTARTED ? CAN_BUS_ON : CAN_FOREIGN;
    return is_let_in(can, frame->can_id) ? CAN_DATA : CAN_FOREIGN;
}

/* The kernel tells with a frame how many it dropped since the socket was opened. */
static bool tells_of_dropped(struct can_socket *can, struct msghdr *message)
{
    const struct cmsghdr *note = CMSG_FIRSTHDR(message);
    uint32_t dropped;

    if (note == 0 || note->cmsg_level != SOL_SOCKET || note->cmsg_type != SO_RXQ_OVFL)
        return false;
    memcpy(&dropped, CMSG_DATA(note), sizeof dropped);
    if (dropped == can->dropped)
        return false;
    can->dropped = dropped;
    return true;
}

/* A classic frame has just one size; a CAN FD frame is longer, and is cut off and marked as such. */
enum can_arrival can_socket_read(struct can_socket *can, struct node_frame *frame, bool *was_dropped)
{
    struct can_frame packet;
    struct iovec place = {.iov_base = &packet, .iov_len = sizeof packet};
    union {
        struct cmsghdr alignment;
        uint8_t bytes[CMSG_SPACE(sizeof(uint32_t))];
    } notes = {.bytes = {0}};
    struct msghdr message = {.msg_iov = &place, .msg_iovlen = 1, .msg_control = notes.bytes, .msg_controllen = sizeof notes.bytes};
    ssize_t length = recvmsg(can->fd, &message, MSG_DONTWAIT);

    if (length < 0 && errno != EAGAIN && errno != EINTR)
        can_socket_fail(can, "receiving", errno);
    if (length <= 0)
        return CAN_NONE;
    if (tells_of_dropped(can, &message))
        *was_dropped = true;
    if (length != sizeof packet || message.msg_flags & MSG_TRUNC)
        return CAN_FOREIGN;
    *frame = from_linux(&packet);
    return arrival_of(can, &packet);
}

void can_socket_look_at_end(struct can_socket *can, bool is_closed)
{
    int error = 0;
    socklen_t length = sizeof error;

    if (can->failed_call != 0)
        return;
    if (getsockopt(can->fd, SOL_SOCKET, SO_ERROR, &error, &length) == 0 && error != 0)
        can_socket_fail(can, "receiving", error);
    else if (is_closed)
        can_socket_fail(can, "closed by the other end", EPIPE);
}

/* ---- writing */

/*
 * A full socket (EAGAIN) is told of by POLLOUT when it has room again. A full queue of the interface (ENOBUFS) is not: the frame is tried again
 * at the next millisecond.
 */
bool can_socket_write(struct can_socket *can, const struct node_frame *frame)
{
    struct can_frame packet = to_linux(frame);
    bool is_sent = send(can->fd, &packet, sizeof packet, MSG_DONTWAIT | MSG_NOSIGNAL) == (ssize_t)sizeof packet;

    can->is_full = !is_sent && errno == EAGAIN;
    if (!is_sent && errno != EAGAIN && errno != ENOBUFS && errno != EINTR)
        can_socket_fail(can, "sending", errno);
    return is_sent;
}
