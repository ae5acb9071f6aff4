/*
 * The glue between an amplifier's firmware and the node's four calls. It is made to be lifted into a product as it stands: it needs
 * cendurak.h, frame_queue, outbox, atomics.h and nothing of the simulation.
 *
 * Contexts. The main loop owns the node's buffers and makes every call. Interrupts call the functions of their own below, each of which returns
 * at once; none of them makes a call of the node.
 */
#ifndef NODE_H
#define NODE_H

#include <stdbool.h>
#include <stdint.h>

#include "atomics.h"
#include "cendurak.h"
#include "frame_queue.h"
#include "outbox.h"

#ifdef __cplusplus
extern "C" {
#endif

/* The refusals are 0 (none) to 14. */
enum { NODE_REFUSALS = CENDURAK_ENTRY_ABORTED + 1 };

/* Error codes and register bits that the glue itself reports (CiA 301). */
enum {
    ERROR_GENERIC = 0x1000,
    ERROR_CAN_OVERRUN = 0x8110,
    ERROR_BUS_OFF = 0x8140,
    ERROR_REGISTER_COMMUNICATION = 0x10
};

/* A fault of the amplifier, as the bus is told of it: an error code, not 0, and its bits of the error register. */
struct node_fault {
    uint16_t code;
    uint8_t error_register;
};

/* A product has a table of its faults; each is told by its place there, from 0. Behind them stand the glue's own. */
enum { NODE_MOST_FAULTS = 29, NODE_FAULT_UNKNOWN = NODE_MOST_FAULTS, NODE_FAULT_OVERRUN, NODE_FAULT_BUS_OFF, NODE_FAULT_BITS };

/* What the main loop measures, once a millisecond. */
struct node_inputs {
    int32_t position, velocity;
    uint32_t faults;        /* those whose cause is present now: bit i is fault i of the table */
    bool is_self_tested;    /* the amplifier is ready to be switched on */
    bool has_voltage;       /* the supply of the output stage is up */
    bool is_at_standstill;
    bool is_at_target;      /* the task was AXIS_MOVE, and the axis rests on its target */
};

/* What the node wants of the axis. */
enum axis_task {
    AXIS_OFF,  /* no current in the motor */
    AXIS_STOP, /* to standstill on the amplifier's own steep ramp, and hold */
    AXIS_HOLD, /* to standstill with `deceleration`, and hold */
    AXIS_MOVE, /* to `target`, no faster than `velocity` */
    AXIS_RUN   /* at `run_velocity` */
};

struct axis_command {
    enum axis_task task;
    int32_t target, run_velocity;
    uint32_t velocity, acceleration, deceleration;
};

/* What a product does for the glue. Each is to be there; one that a product has no use for does nothing. */
struct node_hooks {
    /* in the main loop */
    void (*refused)(uint32_t refusal, const char *call, uint32_t number);  /* to the log: `number` is the identifier, event or node-ID */
    void (*loaded)(uint32_t refusal, uint32_t entry, uint32_t abort_code); /* refusal 0: it is loaded; else the node keeps its defaults */
    void (*reached)(void);                                                 /* the axis rests on the active target, and the node was told */
    void (*stop_safely)(void);                                             /* the output stage off, now */
    void (*bus_off)(void);                                                 /* the controller is off the bus: start its recovery, at once or later */
    void (*filter)(const uint16_t *identifiers, uint32_t count);           /* the identifiers that the node serves now: for the acceptance filters */
    void (*withdraw)(void);                                                /* abort what waits in mailboxes: it is of the node's last life */
    /* in the main loop or in an interrupt that calls node_transmit, never in both at once; it calls nothing of the main loop's */
    bool (*transmit)(const struct node_frame *frame);                      /* into a mailbox; false: none is free */
};

/* A concise DCF; a length of 0 is none. */
struct node_file {
    const uint8_t *bytes;
    uint64_t length;
};

/* What a product is: lent for good. */
struct node_setup {
    const struct node_hooks *hooks;
    const struct node_fault *faults; /* the table, and how many there are: at most NODE_MOST_FAULTS */
    uint32_t fault_count;
    struct node_file configuration;  /* loaded whenever the node boots up */
};

struct node {
    uint8_t state[CENDURAK_STATE_LEN], dict[CENDURAK_DICT_LEN], out[CENDURAK_OUT_LEN];
    struct frame_queue received; /* CAN receive interrupt to main loop */
    struct outbox outbox;        /* what waits for a mailbox: of whoever set `is_sending` */
    atomic_uint is_sending;
    atomic_uint is_asked;        /* to send: by an interrupt that came while another one was at it */
    atomic_uint ticks;           /* milliseconds, counted by the timer interrupt */
    atomic_uint tripped;         /* faults that interrupts saw: bit i is fault i */
    atomic_uint is_off_bus;
    uint32_t ticks_told, lost_told;
    uint32_t faults_told;            /* those present, of which the node knows */
    uint16_t filter[CENDURAK_MOST_SERVED];
    uint32_t filter_count;
    uint32_t refused[NODE_REFUSALS]; /* calls by refusal; [0] counts the accepted ones */
    bool is_stopped;                 /* the node's buffers are not sound: no call until the next power-up */
    struct node_setup setup;
};

/* ---- before the interrupts are switched on; the node is to be all zero */

void node_init(struct node *node, const struct node_setup *setup);

/* ---- main loop */

/*
 * At power-up, and to come back from a safe stop. What waited to be sent or to be taken is forgotten; the configuration is loaded before the boot-up
 * is sent and before any frame is taken. False: refused, the node-ID is not 1 to 127, and the node stays stopped.
 */
bool node_power_up(struct node *node, uint8_t node_id);

/* One pass: faults first, then what changed in the last millisecond, then the received frames; and what waits is sent. */
void node_run(struct node *node, const struct node_inputs *inputs);

/*
 * A frame of the amplifier's own, behind that pass: it goes to the node at once, past the queue of the bus. False: it was refused, or there is no
 * room for what it may bring forth, and nothing has changed; it may be handed in again.
 */
bool node_hand(struct node *node, const struct node_frame *frame);

/* An SDO request of the amplifier's own, eight bytes, likewise. Its reply is not sent: it is handed back. What else comes of the request is. */
enum node_request_outcome {
    NODE_REPLIED,
    NODE_NO_REPLY, /* SDO is not served: in Stopped, or behind a safe stop. Or it is a client's abort, which has none */
    NODE_NO_ROOM   /* for what it may bring forth: nothing has changed */
};

enum node_request_outcome node_request(struct node *node, const uint8_t *request, uint8_t *reply);

/* What the axis has to do after that pass, and after what was handed in. */
struct axis_command node_command(const struct node *node);

/* ---- interrupts */

/*
 * CAN receive, from interrupts of one priority: a data frame with an 11-bit identifier, with the data length code as it came. In classic CAN the
 * codes 9 to 15 say eight bytes. Remote and extended frames are not for the node: filter them.
 */
void node_receive(struct node *node, const struct node_frame *frame);

/*
 * CAN transmit, whenever a mailbox gets free: what waits goes into mailboxes (hooks->transmit) until none is free. The main loop does the same behind
 * each answer of the node, so that nothing waits for an interrupt that does not come. Only one sends at a time: a call that finds another one at it
 * leaves word and returns, and the other goes round once more. So it may be called from interrupts of any priority, and from threads; but where
 * threads share a core, from none that the main loop's thread can interrupt, for that one waits until the other is done.
 */
void node_transmit(struct node *node);

/* The 1 ms timer. */
void node_tick(struct node *node);

/*
 * A fault line, also a pulse that is over before the next pass: fault i of the table. From interrupts of any priority, nested ones too: each fault is
 * kept until it is told. Those of one pass are told in the table's order.
 */
void node_trip(struct node *node, uint32_t fault);

/* The CAN controller went off the bus (error count 256), and is on it again. */
void node_bus_off(struct node *node);
void node_bus_on(struct node *node);

#ifdef __cplusplus
}
#endif

#endif
