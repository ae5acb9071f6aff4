/*
 * The glue keeps no copy of what it told the node: it compares the amplifier's inputs with the node's own bytes. So a node that was reset
 * over the bus (NMT 81h), and has forgotten voltage, position and fault, is told again at the next millisecond.
 */
#include "node.h"

#include <string.h>

enum { CONTROL_HALT = 0x0100 };

/* Places that frames of the bus leave free in the outbox, for the emergencies that events bring forth. */
enum { KEPT_FOR_EVENTS = 8 };

/* ---- sending */

/* An exchange and not an atomic_flag: of that GCC makes a plain load and a store on cores without exclusive access, as the Cortex-M0+. */
static bool begins_sending(struct node *node)
{
    return atomic_exchange_explicit(&node->is_sending, 1, memory_order_seq_cst) == 0;
}

static void ends_sending(struct node *node)
{
    atomic_store_explicit(&node->is_sending, 0, memory_order_seq_cst);
}

static void fill_mailboxes(struct node *node)
{
    const struct node_frame *frame = outbox_first(&node->outbox);

    while (frame != 0 && node->setup.hooks->transmit(frame)) {
        outbox_drop_first(&node->outbox);
        frame = outbox_first(&node->outbox);
    }
}

/* Sends as often as it is asked for. Who finds another one at it has asked before, and the other one looks for that when it is done: so no request
 * is lost. On two cores that takes one order of all accesses to the flag and to the request, for all who see them (seq_cst). */
static void send_as_asked(struct node *node)
{
    while (atomic_load_explicit(&node->is_asked, memory_order_seq_cst) != 0 && begins_sending(node)) {
        atomic_store_explicit(&node->is_asked, 0, memory_order_seq_cst);
        fill_mailboxes(node);
        ends_sending(node);
    }
}

void node_transmit(struct node *node)
{
    atomic_store_explicit(&node->is_asked, 1, memory_order_seq_cst);
    send_as_asked(node);
}

/* The main loop's turn at the outbox. An interrupt that sends is over before the main loop goes on, so that on one core this never waits; a thread
 * that sends on another core is over soon. */
static struct outbox *open_outbox(struct node *node)
{
    while (!begins_sending(node))
        ;
    return &node->outbox;
}

static void close_outbox(struct node *node)
{
    ends_sending(node);
    send_as_asked(node);
}

/* ---- the calls, and what becomes of an answer */

/*
 * A refusal is counted and logged, and has changed nothing. Only one of them ends the service: NOT_SOUND says that the buffers are no longer
 * what the node left in them (a wild pointer, a flipped bit). What the drive was told is then unknown, so the output stage goes off.
 */
static void count_refusal(struct node *node, uint32_t refusal)
{
    node->refused[refusal]++;
    if (refusal == CENDURAK_NOT_SOUND) {
        node->is_stopped = true;
        node->setup.hooks->stop_safely();
    }
}

/* All of the file or nothing: where it is refused the node goes on with its defaults. No frame comes of it. */
static void load_configuration(struct node *node)
{
    const struct node_file *file = &node->setup.configuration;
    uint64_t answer;

    if (file->length == 0)
        return;
    answer = cendurak_load(node->state, sizeof node->state, node->dict, sizeof node->dict, file->bytes, file->length);
    node->setup.hooks->loaded(cendurak_load_refusal(answer), cendurak_load_entry(answer), cendurak_load_abort_code(answer));
    count_refusal(node, cendurak_load_refusal(answer));
}

/* The identifiers that the node serves change in Pre-operational alone. A master hears of a change by the frames of the answer, and uses it then. */
static void set_filter(struct node *node)
{
    uint16_t served[CENDURAK_MOST_SERVED];
    uint32_t count;

    if (cendurak_nmt(node->state) != CENDURAK_NMT_PRE_OPERATIONAL)
        return;
    count = cendurak_served(node->state, node->dict, served);
    if (count == node->filter_count && memcmp(served, node->filter, count * sizeof served[0]) == 0)
        return;
    memcpy(node->filter, served, count * sizeof served[0]);
    node->filter_count = count;
    node->setup.hooks->filter(node->filter, count);
}

/* Whether the node boots up with this answer: at power-up, or because it was reset over the bus. Its objects then have their defaults. */
static bool has_boot_up(const struct node *node, uint32_t count)
{
    for (uint32_t i = 0; i < count; i++)
        if (cendurak_identifier(node->out, i) == CENDURAK_HEARTBEAT + cendurak_node_id(node->state) && cendurak_data(node->out, i)[0] == 0)
            return true;
    return false;
}

/* A boot-up is the first frame of a life: what waits when it comes is of the last one, and nobody sends meanwhile. */
static void withdraw_frames(struct node *node)
{
    outbox_clear(open_outbox(node));
    node->setup.hooks->withdraw();
    close_outbox(node);
}

/* The frames of an answer, from one on. Process data of a node that has left Operational are not sent any more. */
static void send_frames(struct node *node, uint32_t from, uint32_t count)
{
    struct outbox *outbox = open_outbox(node);

    for (uint32_t i = from; i < count; i++) {
        struct node_frame frame = {.identifier = cendurak_identifier(node->out, i), .length = cendurak_length(node->out, i)};
        memcpy(frame.data, cendurak_data(node->out, i), sizeof frame.data);
        outbox_put(outbox, &frame);
    }
    if (cendurak_nmt(node->state) != CENDURAK_NMT_OPERATIONAL)
        outbox_drop_process_data(outbox);
    close_outbox(node);
    node_transmit(node);
}

/* An accepted answer, of which the first frames are not for the bus. */
static void pass_on(struct node *node, uint32_t answer, uint32_t kept_back)
{
    uint32_t count = cendurak_frames(answer);

    if (has_boot_up(node, count)) {
        withdraw_frames(node);
        load_configuration(node);
    }
    set_filter(node);
    send_frames(node, kept_back, count);
}

/* Whether the call was accepted. */
static bool is_accepted(struct node *node, uint32_t answer, const char *call, uint32_t number)
{
    uint32_t refusal = cendurak_refusal(answer);

    if (refusal != CENDURAK_ACCEPTED)
        node->setup.hooks->refused(refusal, call, number);
    count_refusal(node, refusal);
    return refusal == CENDURAK_ACCEPTED;
}

static bool take_answer(struct node *node, uint32_t answer, const char *call, uint32_t number)
{
    bool was_accepted = is_accepted(node, answer, call, number);

    if (was_accepted)
        pass_on(node, answer, 0);
    return was_accepted;
}

static bool tell(struct node *node, uint32_t event, const uint8_t *args, uint64_t length)
{
    if (node->is_stopped)
        return false;
    return take_answer(
        node, cendurak_event(node->state, sizeof node->state, node->dict, sizeof node->dict, node->out, sizeof node->out, event, args, length),
        "event", event);
}

static uint32_t answer_to(struct node *node, uint32_t identifier, const uint8_t *data, uint8_t length)
{
    return cendurak_frame(node->state, sizeof node->state, node->dict, sizeof node->dict, node->out, sizeof node->out, identifier, data, length);
}

static bool take_frame(struct node *node, const struct node_frame *frame)
{
    return take_answer(node, answer_to(node, frame->identifier, frame->data, frame->length), "frame", frame->identifier);
}

bool node_power_up(struct node *node, uint8_t node_id)
{
    uint32_t answer = cendurak_power_up(node->state, sizeof node->state, node->dict, sizeof node->dict, node->out, sizeof node->out, node_id);

    node->is_stopped = cendurak_refusal(answer) != CENDURAK_ACCEPTED;
    if (node->is_stopped)
        withdraw_frames(node);
    node->filter_count = 0;
    frame_queue_clear(&node->received);
    node->lost_told = frame_queue_lost(&node->received);
    node->ticks_told = atomic_load_explicit(&node->ticks, memory_order_relaxed);
    return take_answer(node, answer, "power-up", node_id);
}

void node_init(struct node *node, const struct node_setup *setup)
{
    node->setup = *setup;
    node->is_stopped = true;
}

/* ---- events of the amplifier */

static void put_word(uint8_t *to, uint32_t word)
{
    for (uint32_t i = 0; i < 4; i++)
        to[i] = (uint8_t)(word >> (8 * i));
}

/* A fault that the table does not have, or has without a code, stops the axis all the same. */
static struct node_fault fault_numbered(const struct node *node, uint32_t number)
{
    const struct node_fault overrun = {ERROR_CAN_OVERRUN, ERROR_REGISTER_COMMUNICATION}, bus_off = {ERROR_BUS_OFF, ERROR_REGISTER_COMMUNICATION};
    const struct node_fault unknown = {ERROR_GENERIC, 0};
    bool is_in_table = number < NODE_MOST_FAULTS && number < node->setup.fault_count && node->setup.faults[number].code != 0;

    if (number == NODE_FAULT_OVERRUN)
        return overrun;
    if (number == NODE_FAULT_BUS_OFF)
        return bus_off;
    return is_in_table ? node->setup.faults[number] : unknown;
}

static void tell_fault(struct node *node, uint32_t number)
{
    struct node_fault fault = fault_numbered(node, number);
    const uint8_t args[3] = {(uint8_t)fault.code, (uint8_t)(fault.code >> 8), fault.error_register};

    tell(node, CENDURAK_FAULT, args, sizeof args);
}

static uint32_t bit(uint32_t number)
{
    return (uint32_t)1 << number;
}

/* Frames lost, one of which may have been a stop: the axis is not to go on. */
static uint32_t overruns(struct node *node)
{
    uint32_t lost = frame_queue_lost(&node->received);
    bool is_more = lost != node->lost_told;

    node->lost_told = lost;
    return is_more ? bit(NODE_FAULT_OVERRUN) : 0;
}

/*
 * Off the bus nobody can stop the axis. The emergency is sent when the bus is back. Each time that the controller goes off asks for a recovery: also
 * where it was off at the last pass, and in between was on the bus and fell off again.
 */
static uint32_t bus_faults(struct node *node, uint32_t tripped)
{
    bool is_off = atomic_load_explicit(&node->is_off_bus, memory_order_acquire) != 0;

    if (is_off && (tripped & bit(NODE_FAULT_BUS_OFF)) != 0)
        node->setup.hooks->bus_off();
    return is_off ? bit(NODE_FAULT_BUS_OFF) : 0;
}

/*
 * Each fault that the node does not know of: one that came, beside others too, if only as a pulse; and where the node was reset and knows of no
 * cause, all that are present. When none is present any more, the cause is gone.
 */
static void tell_faults(struct node *node, const struct node_inputs *inputs)
{
    uint32_t tripped = atomic_exchange_explicit(&node->tripped, 0, memory_order_acq_rel);
    uint32_t present = inputs->faults | tripped | overruns(node) | bus_faults(node, tripped);
    uint32_t known = cendurak_cause(node->state) ? node->faults_told : 0;

    for (uint32_t i = 0; i < NODE_FAULT_BITS; i++)
        if (present & ~known & bit(i))
            tell_fault(node, i);
    node->faults_told = present;
    if (present == 0 && cendurak_cause(node->state))
        tell(node, CENDURAK_CAUSE_GONE, 0, 0);
}

/* Every tick that went by, one event each. False: none did. */
static bool tell_ticks(struct node *node)
{
    uint32_t ticks = atomic_load_explicit(&node->ticks, memory_order_relaxed);
    bool went_by = ticks != node->ticks_told;

    for (; node->ticks_told != ticks; node->ticks_told++)
        tell(node, CENDURAK_TICK, 0, 0);
    return went_by;
}

static void tell_feedback(struct node *node, const struct node_inputs *inputs)
{
    uint8_t args[8];

    put_word(args, (uint32_t)inputs->position);
    put_word(args + 4, (uint32_t)inputs->velocity);
    tell(node, CENDURAK_FEEDBACK, args, sizeof args);
}

static void tell_reached(struct node *node)
{
    if (tell(node, CENDURAK_SET_POINT_REACHED, 0, 0))
        node->setup.hooks->reached();
}

/* What the axis was to do is done. The inputs are of the command before this pass, so no frame may come between the two. */
static void tell_ends(struct node *node, const struct node_inputs *inputs)
{
    uint8_t drive = cendurak_drive(node->state);

    if (drive == CENDURAK_DRIVE_QUICK_STOP_ACTIVE && inputs->is_at_standstill)
        tell(node, CENDURAK_QUICK_STOP_DONE, 0, 0);
    else if (drive == CENDURAK_DRIVE_FAULT_REACTION_ACTIVE && inputs->is_at_standstill)
        tell(node, CENDURAK_REACTION_DONE, 0, 0);
    else if (cendurak_set_points(node->state) != 0 && inputs->is_at_target)
        tell_reached(node);
}

static void tell_inputs(struct node *node, const struct node_inputs *inputs)
{
    const uint8_t voltage = inputs->has_voltage;

    if (cendurak_drive(node->state) == CENDURAK_DRIVE_NOT_READY && inputs->is_self_tested)
        tell(node, CENDURAK_STARTED, 0, 0);
    if (cendurak_voltage(node->state) != voltage)
        tell(node, CENDURAK_VOLTAGE, &voltage, 1);
    if (cendurak_position(node->dict) != inputs->position || cendurak_velocity(node->dict) != inputs->velocity)
        tell_feedback(node, inputs);
    tell_ends(node, inputs);
}

/* ---- the main loop's pass */

/* Whether whatever a frame can bring forth finds room to be sent, and what events may bring forth behind it too. */
static bool has_room(struct node *node)
{
    uint32_t room = outbox_room(open_outbox(node));

    close_outbox(node);
    return room >= CENDURAK_MOST_FRAMES + KEPT_FOR_EVENTS;
}

/* Received frames, as long as there is that room. A slow bus then holds up the receive queue, which is where an overload is counted, and never
 * loses half an answer. */
static void take_frames(struct node *node)
{
    struct node_frame frame;

    while (!node->is_stopped && has_room(node) && frame_queue_take(&node->received, &frame))
        take_frame(node, &frame);
}

bool node_hand(struct node *node, const struct node_frame *frame)
{
    return !node->is_stopped && has_room(node) && take_frame(node, frame);
}

enum node_request_outcome node_request(struct node *node, const uint8_t *request, uint8_t *reply)
{
    uint32_t identifier = CENDURAK_SDO_REQUEST + cendurak_node_id(node->state), answer;
    bool has_reply;

    if (node->is_stopped)
        return NODE_NO_REPLY;
    if (!has_room(node))
        return NODE_NO_ROOM;
    answer = answer_to(node, identifier, request, NODE_FRAME_ROOM);
    if (!is_accepted(node, answer, "frame", identifier))
        return NODE_NO_REPLY;
    has_reply = cendurak_frames(answer) != 0 && cendurak_identifier(node->out, 0) == CENDURAK_SDO_REPLY + cendurak_node_id(node->state);
    if (has_reply)
        memcpy(reply, cendurak_data(node->out, 0), NODE_FRAME_ROOM);
    pass_on(node, answer, has_reply);
    return has_reply ? NODE_REPLIED : NODE_NO_REPLY;
}

void node_run(struct node *node, const struct node_inputs *inputs)
{
    if (!node->is_stopped) {
        tell_faults(node, inputs);
        if (tell_ticks(node))
            tell_inputs(node, inputs);
        take_frames(node);
    }
    node_transmit(node);
}

static struct axis_command enabled_command(const struct node *node)
{
    struct axis_command command = {.task = AXIS_HOLD,
                                   .acceleration = cendurak_acceleration(node->dict),
                                   .deceleration = cendurak_deceleration(node->dict)};

    if (cendurak_control_word(node->dict) & CONTROL_HALT)
        return command;
    if (cendurak_mode(node->state) == CENDURAK_MODE_PROFILE_VELOCITY) {
        command.task = AXIS_RUN;
        command.run_velocity = cendurak_target_velocity(node->dict);
    } else if (cendurak_set_points(node->state) != 0) {
        struct cendurak_set_point active = cendurak_active_set_point(node->state);
        command = (struct axis_command){.task = AXIS_MOVE,
                                        .target = active.target,
                                        .velocity = active.velocity,
                                        .acceleration = active.acceleration,
                                        .deceleration = active.deceleration};
    }
    return command;
}

struct axis_command node_command(const struct node *node)
{
    const struct axis_command off = {.task = AXIS_OFF}, stop = {.task = AXIS_STOP};

    if (node->is_stopped)
        return off;
    switch (cendurak_drive(node->state)) {
    case CENDURAK_DRIVE_OPERATION_ENABLED:
        return enabled_command(node);
    case CENDURAK_DRIVE_QUICK_STOP_ACTIVE:
    case CENDURAK_DRIVE_FAULT_REACTION_ACTIVE:
        return stop;
    default:
        return off;
    }
}

/* ---- interrupts */

void node_receive(struct node *node, const struct node_frame *frame)
{
    struct node_frame received = *frame;

    if (received.length > NODE_FRAME_ROOM)
        received.length = NODE_FRAME_ROOM;
    frame_queue_put(&node->received, &received);
}

void node_tick(struct node *node)
{
    unsigned ticks = atomic_load_explicit(&node->ticks, memory_order_relaxed);

    atomic_store_explicit(&node->ticks, ticks + 1, memory_order_relaxed);
}

static void trip(struct node *node, uint32_t number)
{
    atomic_fetch_or_explicit(&node->tripped, bit(number), memory_order_acq_rel);
}

void node_trip(struct node *node, uint32_t fault)
{
    trip(node, fault < NODE_MOST_FAULTS ? fault : (uint32_t)NODE_FAULT_UNKNOWN);
}

void node_bus_off(struct node *node)
{
    atomic_store_explicit(&node->is_off_bus, 1, memory_order_release);
    trip(node, NODE_FAULT_BUS_OFF);
}

void node_bus_on(struct node *node)
{
    atomic_store_explicit(&node->is_off_bus, 0, memory_order_release);
}
