/*
 * A CAN interface for a machine that has none: it stands in front of the C library (LD_PRELOAD) and plays vcan0 over a socket that a test holds the
 * other end of. It knows nothing of the kernel's CAN but what the test says: it notes what is asked of it, and fails where it is told to.
 *
 *   FAKE_CAN_FD     that socket
 *   FAKE_CAN_NOTES  a file to which each call adds a line
 *   FAKE_CAN_FAILS  a call and the errno that it fails with, as 'bind 19'; none: no call fails
 *
 * A packet of three bytes over the socket is an order of the test: 'r' errno 0: this receiving fails; 'w' errno n: the next n frames are not taken;
 * 'd' n 0: the kernel has dropped n frames, and tells with each frame from now on.
 */
#define _GNU_SOURCE

#include <dlfcn.h>
#include <errno.h>
#include <fcntl.h>
#include <stdarg.h>
#include <stdint.h>
#include <stdio.h>
#include <stdlib.h>
#include <string.h>
#include <unistd.h>

#include <net/if.h>
#include <sys/socket.h>

#include <linux/can.h>
#include <linux/can/raw.h>

enum { FAKE_INDEX = 7, ORDER_LENGTH = 3 };

static uint8_t write_error, writes_to_fail, dropped;

/* ---- the test's side */

__attribute__((format(printf, 1, 2))) static void note(const char *format, ...)
{
    FILE *notes = fopen(getenv("FAKE_CAN_NOTES"), "a");
    va_list values;

    va_start(values, format);
    vfprintf(notes, format, values);
    va_end(values);
    fclose(notes);
}

static int fake_fd(void)
{
    const char *number = getenv("FAKE_CAN_FD");

    return number == 0 ? -1 : atoi(number);
}

/* Whether the test wants this call to fail; errno is then set. */
static int is_to_fail(const char *call)
{
    const char *order = getenv("FAKE_CAN_FAILS");
    size_t length = strlen(call);

    if (order == 0 || strncmp(order, call, length) != 0 || order[length] != ' ')
        return 0;
    errno = atoi(order + length);
    return 1;
}

/* ---- what the program opens and sets */

unsigned if_nametoindex(const char *name)
{
    note("if_nametoindex %s\n", name);
    if (strcmp(name, "vcan0") == 0)
        return FAKE_INDEX;
    errno = ENODEV;
    return 0;
}

int socket(int domain, int type, int protocol)
{
    note("socket %s %s %s\n", domain == AF_CAN ? "AF_CAN" : "other", (type & ~SOCK_CLOEXEC) == SOCK_RAW ? "SOCK_RAW" : "other",
         protocol == CAN_RAW ? "CAN_RAW" : "other");
    return is_to_fail("socket") ? -1 : fake_fd();
}

int bind(int fd, const struct sockaddr *address, socklen_t length)
{
    const struct sockaddr_can *can = (const struct sockaddr_can *)(const void *)address;

    note("bind %s %s %d\n", fd == fake_fd() ? "its socket" : "another", can->can_family == AF_CAN && length == sizeof *can ? "AF_CAN" : "other",
         can->can_ifindex);
    return is_to_fail("bind") ? -1 : 0;
}

static void note_filters(const struct can_filter *filters, size_t count)
{
    note("filters");
    for (size_t i = 0; i < count; i++)
        note(" %03X/%08X", filters[i].can_id, filters[i].can_mask);
    note("\n");
}

int setsockopt(int fd, int level, int option, const void *value, socklen_t length)
{
    (void)fd;
    if (level == SOL_CAN_RAW && option == CAN_RAW_FILTER)
        note_filters(value, length / sizeof(struct can_filter));
    else if (level == SOL_CAN_RAW && option == CAN_RAW_ERR_FILTER)
        note("errors %08X\n", *(const can_err_mask_t *)value);
    else
        note("option %s\n", level == SOL_SOCKET && option == SO_RXQ_OVFL ? "SO_RXQ_OVFL" : "other");
    return is_to_fail("setsockopt") ? -1 : 0;
}

/* ---- frames */

static void tell_dropped(struct msghdr *message, size_t room)
{
    uint32_t count = dropped;
    struct cmsghdr *head = message->msg_control;

    if (room < CMSG_SPACE(sizeof count))
        return;
    message->msg_controllen = CMSG_SPACE(sizeof count);
    head->cmsg_level = SOL_SOCKET;
    head->cmsg_type = SO_RXQ_OVFL;
    head->cmsg_len = CMSG_LEN(sizeof count);
    memcpy(CMSG_DATA(head), &count, sizeof count);
}

static ssize_t carry_out(const uint8_t *order)
{
    errno = EAGAIN;
    if (order[0] == 'r')
        errno = order[1];
    if (order[0] == 'd')
        dropped = order[1];
    if (order[0] == 'w') {
        write_error = order[1];
        writes_to_fail = order[2];
    }
    return -1;
}

ssize_t recvmsg(int fd, struct msghdr *message, int flags)
{
    ssize_t (*real)(int, struct msghdr *, int) = (ssize_t (*)(int, struct msghdr *, int))dlsym(RTLD_NEXT, "recvmsg");
    size_t room = message->msg_controllen;
    ssize_t length = real(fd, message, flags);

    if (length == ORDER_LENGTH)
        return carry_out(message->msg_iov[0].iov_base);
    if (length > 0 && dropped != 0)
        tell_dropped(message, room);
    return length;
}

ssize_t send(int fd, const void *bytes, size_t length, int flags)
{
    ssize_t (*real)(int, const void *, size_t, int) = (ssize_t (*)(int, const void *, size_t, int))dlsym(RTLD_NEXT, "send");
    const struct can_frame *frame = bytes;

    if (writes_to_fail > 0) {
        writes_to_fail--;
        note("refused %03X\n", frame->can_id);
        errno = write_error;
        return -1;
    }
    note("sent %03X\n", frame->can_id);
    return real(fd, bytes, length, flags);
}
