#include "master.h"

#include <stdio.h>
#include <string.h>

#include "cendurak.h"

/* The identifiers of node 5, by the node's defaults. */
enum {
    NMT = 0x000,
    SYNC = 0x080,
    EMERGENCY = 0x080 + NODE_ID,
    STATUS_FRAME = 0x180 + NODE_ID,   /* TPDO 1: status word */
    POSITION_FRAME = 0x380 + NODE_ID, /* TPDO 3: status word, position */
    MOTION_FRAME = 0x480 + NODE_ID,   /* TPDO 4 as the script maps it: position, velocity */
    CONTROL_FRAME = 0x200 + NODE_ID,  /* RPDO 1: control word */
    TARGET_FRAME = 0x400 + NODE_ID,   /* RPDO 3: control word, target */
    SDO_REQUEST = 0x600 + NODE_ID,
    SDO_REPLY = 0x580 + NODE_ID,
    HEARTBEAT = 0x700 + NODE_ID
};

enum { SDO_READ = 0x40, SDO_WRITTEN = 0x60, SDO_ABORT = 0x80 };

/* Of an SDO upload by segments: the reply that starts it, and the request for a segment. In a segment's first byte bits 7-5 are 0, bit 4 is
 * the toggle, bits 3-1 tell how many of the seven bytes behind it hold nothing, and bit 0 that it is the last. */
enum { SDO_SEGMENTS_FOLLOW = 0x41, SDO_READ_SEGMENT = 0x60, SEGMENT_ROOM = 7, SEGMENT_HEAD = 0xF0, SEGMENT_TOGGLE = 0x10, SEGMENT_IS_LAST = 0x01 };

/* ---- sending */

static void send(struct master *master, uint16_t identifier, uint8_t length, uint32_t low, uint32_t high)
{
    struct node_frame frame = {.identifier = identifier, .length = length};

    for (uint32_t i = 0; i < 4; i++) {
        frame.data[i] = (uint8_t)(low >> (8 * i));
        frame.data[4 + i] = (uint8_t)(high >> (8 * i));
    }
    frame_queue_put(&master->to_bus, &frame);
}

/* An SDO request; the size told in a download is in bits 3-2, as what is missing to four. */
static void send_sdo(struct master *master, const struct step *step)
{
    uint32_t command = step->kind == STEP_WRITE ? 0x23u + 4u * (4u - step->size) : SDO_READ;

    send(master, SDO_REQUEST, 8, command + (step->index << 8) + (step->subindex << 24), step->value);
}

static void send_target(struct master *master, const struct step *step)
{
    uint32_t target = (uint32_t)step->target;

    send(master, TARGET_FRAME, 6, step->value + (target << 16), target >> 16);
}

static void flood(struct master *master, const struct step *step)
{
    for (uint32_t i = 0; i < step->each; i++)
        send(master, (uint16_t)step->index, (uint8_t)step->size, step->value, 0);
}

static void begin(struct master *master, const struct step *step)
{
    struct heard *heard = &master->heard;

    heard->has_reply = heard->has_any = heard->has_start = false;
    heard->shown = heard->status;
    heard->heartbeats = 0;
    master->upload = (struct upload){.is_running = false};
    switch (step->kind) {
    case STEP_NMT: send(master, NMT, 2, step->value + 256 * NODE_ID, 0); break;
    case STEP_SYNC: master->sync_every = step->value; break;
    case STEP_CONTROL: send(master, CONTROL_FRAME, 2, step->value, 0); break;
    case STEP_MOVE: send_target(master, step); break;
    case STEP_PLANT: master->trouble = (enum trouble)step->value; break;
    case STEP_FEED: master->order = step->list; break;
    case STEP_KEY: master->is_key_pressed = true; break;
    case STEP_WRITE: case STEP_READ: case STEP_TEXT: send_sdo(master, step); break;
    default: break;
    }
}

/* ---- hearing */

static void hear_status(struct heard *heard, const uint8_t *data)
{
    heard->status = (uint16_t)(data[0] + 256u * data[1]);
    heard->shown |= heard->status;
}

void master_hear(struct master *master, const struct node_frame *frame)
{
    struct heard *heard = &master->heard;
    const uint8_t *data = frame->data;

    heard->has_any = true;
    switch (frame->identifier) {
    case SDO_REPLY:
        memcpy(heard->reply, data, sizeof heard->reply);
        heard->has_reply = true;
        break;
    case EMERGENCY:
        heard->emergency_code = (uint16_t)(data[0] + 256u * data[1]);
        heard->emergency_register = data[2];
        heard->has_emergency = true;
        break;
    case HEARTBEAT:
        heard->heartbeat = data[0];
        heard->has_heartbeat = true;
        heard->heartbeats++;
        break;
    case POSITION_FRAME:
        heard->position = cendurak_signed(data + 2);
        hear_status(heard, data);
        break;
    case STATUS_FRAME:
        hear_status(heard, data);
        break;
    case MOTION_FRAME:
        heard->velocity = cendurak_signed(data + 4);
        break;
    default:
        break;
    }
}

void master_hear_start(struct master *master, uint32_t outcome)
{
    master->heard.start = outcome;
    master->heard.has_start = true;
}

/* ---- checking */

static bool is_reply_to(const struct master *master, const struct step *step)
{
    const uint8_t *reply = master->heard.reply;

    return master->heard.has_reply && reply[1] + 256u * reply[2] == step->index && reply[3] == step->subindex;
}

static bool is_written(const struct master *master, const struct step *step)
{
    const uint8_t *reply = master->heard.reply;

    if (!is_reply_to(master, step))
        return false;
    if (step->expected == 0)
        return reply[0] == SDO_WRITTEN;
    return reply[0] == SDO_ABORT && cendurak_word(reply + 4) == step->expected;
}

static bool is_read(const struct master *master, const struct step *step)
{
    return is_reply_to(master, step) && (master->heard.reply[0] & 0xE3u) == 0x43 && cendurak_word(master->heard.reply + 4) == step->expected;
}

/* A segment's bytes, behind those that came before it. What has no room is left out. */
static void take_segment(struct upload *upload, const uint8_t *reply)
{
    uint32_t count = SEGMENT_ROOM - (reply[0] >> 1 & 7u);

    for (uint32_t i = 0; i < count && upload->length < MOST_TEXT; i++)
        upload->text[upload->length++] = (char)reply[1 + i];
    upload->toggle ^= SEGMENT_TOGGLE;
    upload->is_whole = (reply[0] & SEGMENT_IS_LAST) != 0;
}

/* Takes what was replied, and asks for the next segment; a reply that is not due is not followed. The text, when it is whole, is the right one. */
static bool is_text(struct master *master, const struct step *step)
{
    struct upload *upload = &master->upload;
    const uint8_t *reply = master->heard.reply;
    bool starts = is_reply_to(master, step) && reply[0] == SDO_SEGMENTS_FOLLOW;
    bool goes_on = master->heard.has_reply && upload->is_running && (reply[0] & SEGMENT_HEAD) == upload->toggle;

    if (goes_on)
        take_segment(upload, reply);
    upload->is_running |= starts;
    if ((starts || goes_on) && !upload->is_whole)
        send(master, SDO_REQUEST, 8, SDO_READ_SEGMENT + upload->toggle, 0);
    master->heard.has_reply = false;
    return upload->is_whole && strcmp(upload->text, step->says) == 0;
}

/* Emergencies and heartbeats count once: a step that met one uses it up. */
static bool takes(bool *has, bool is_right)
{
    bool holds = *has && is_right;

    if (holds)
        *has = false;
    return holds;
}

static bool holds(struct master *master, const struct step *step)
{
    struct heard *heard = &master->heard;

    switch (step->kind) {
    case STEP_WRITE: return is_written(master, step);
    case STEP_READ: return is_read(master, step);
    case STEP_TEXT: return is_text(master, step);
    case STEP_FEED: return heard->has_start && heard->start == step->expected;
    case STEP_LABELS: return labels_hold(master->labels, (enum label_check)step->value);
    case STEP_BOOT_UP: return takes(&heard->has_heartbeat, heard->heartbeat == 0);
    case STEP_HEARTBEAT: return takes(&heard->has_heartbeat, heard->heartbeat == step->expected);
    case STEP_STATUS: return (heard->status & step->mask) == step->expected;
    case STEP_EMERGENCY: return takes(&heard->has_emergency, heard->emergency_code == step->value && heard->emergency_register == step->expected);
    case STEP_POSITION: return heard->position == step->target;
    case STEP_SPEED: return heard->velocity == step->target;
    case STEP_SILENCE: return !heard->has_any;
    case STEP_NO_REPLY: return !heard->has_reply;
    case STEP_AT_MOST: return heard->heartbeats <= step->value;
    case STEP_WITHOUT: return (heard->shown & step->mask) == 0;
    default: return false;
    }
}

/* ---- the account */

static const char *const trouble_names[TROUBLES] = {
    [TROUBLE_TRIP] = "the over-current line rises",
    [TROUBLE_HEAT] = "the amplifier gets too hot",
    [TROUBLE_CURE] = "no cause of a fault is left",
    [TROUBLE_HOLD_UP] = "the main loop is kept busy elsewhere",
    [TROUBLE_STALL] = "the bus is kept busy by others",
    [TROUBLE_DEAD_BUS] = "nobody is on the bus",
    [TROUBLE_BUS_OFF] = "the CAN controller takes itself off the bus",
    [TROUBLE_FLIP] = "a bit of the dictionary flips",
    [TROUBLE_JAM] = "the motor's shaft jams",
    [TROUBLE_STRAY] = "the CAN driver hands on a frame that cannot be, identifier 800h",
    [TROUBLE_POWER_CYCLE] = "the amplifier is switched off and on",
};

static void say_sent(const struct step *step)
{
    switch (step->kind) {
    case STEP_NMT: printf("NMT command %02X %s\n", step->value, step->says); break;
    case STEP_SYNC: printf("a SYNC every %u ms\n", step->value); break;
    case STEP_CONTROL: printf("control word %04X %s\n", step->value, step->says); break;
    case STEP_MOVE: printf("control word %04X %s, target %d\n", step->value, step->says, step->target); break;
    case STEP_FLOOD: printf("%u frames each millisecond on %03Xh, for %u ms\n", step->each, step->index, step->within); break;
    case STEP_KEY: printf("the operator presses the service panel's key\n"); break;
    case STEP_PLANT: printf("trouble: %s\n", trouble_names[step->value]); break;
    default: printf("waits for %u ms\n", step->within); break;
    }
}

static void say_write(const struct step *step)
{
    printf("%04Xh:%u := ", step->index, step->subindex);
    if (step->index < 0x6000)
        printf("%08Xh", step->value);
    else
        printf("%d", (int32_t)step->value);
    if (step->expected == 0)
        printf("\n");
    else
        printf(" is refused with %08X\n", step->expected);
}

static const char *const label_names[LABEL_CHECKS] = {
    [LABELS_ALL_REACHED] = "every label is reached",
    [LABELS_ONCE_EACH] = "every label is taken once, and nothing by further steps",
    [LABELS_IN_PLACE] = "every label's target is the one before it and its length",
    [LABELS_TWO_AHEAD] = "at times two labels were held",
    [LABELS_ALONE] = "no set-point but the labels",
};

static void say_feed(const struct step *step)
{
    printf("the feeder %s a list of %u labels %s\n", step->expected == 0 ? "starts on" : "refuses", (uint32_t)step->list->count, step->says);
}

static void say_checked(const struct step *step)
{
    switch (step->kind) {
    case STEP_WRITE: say_write(step); break;
    case STEP_READ: printf("%04Xh:%u reads %08Xh\n", step->index, step->subindex, step->expected); break;
    case STEP_TEXT: printf("%04Xh:%u reads '%s' by segments\n", step->index, step->subindex, step->says); break;
    case STEP_FEED: say_feed(step); break;
    case STEP_LABELS: printf("%s\n", label_names[step->value]); break;
    case STEP_BOOT_UP: printf("boot-up\n"); break;
    case STEP_HEARTBEAT: printf("heartbeat %02X %s\n", step->expected, step->says); break;
    case STEP_STATUS: printf("status word has %04X of %04X %s\n", step->expected, step->mask, step->says); break;
    case STEP_EMERGENCY: printf("emergency %04X %s, register %02X\n", step->value, step->says, step->expected); break;
    case STEP_POSITION: printf("position %d\n", step->target); break;
    case STEP_SPEED: printf("velocity %d\n", step->target); break;
    case STEP_NO_REPLY: printf("no SDO reply for %u ms\n", step->within); break;
    case STEP_AT_MOST: printf("at most %u heartbeat(s) in %u ms\n", step->value, step->within); break;
    case STEP_WITHOUT: printf("no status word has %04X %s for %u ms\n", step->mask, step->says, step->within); break;
    default: printf("silence for %u ms\n", step->within); break;
    }
}

static bool is_checked(const struct step *step)
{
    return step->kind >= STEP_WRITE;
}

static void say_heard(const struct heard *heard)
{
    printf("           heard   status word %04X, position %d, velocity %d, emergency %04X, reply", heard->status, heard->position,
           heard->velocity, heard->emergency_code);
    for (uint32_t i = 0; i < 8; i++)
        printf(" %02X", heard->reply[i]);
    printf("\n");
}

static void end_check(struct master *master, const struct step *step, uint32_t now, bool has_held)
{
    master->held += has_held;
    master->failed += !has_held;
    printf("%7u ms  %s  ", now, has_held ? "check " : "FAILED");
    say_checked(step);
    if (!has_held)
        say_heard(&master->heard);
}

/* ---- the script */

/* The step that is to be done; 0 at the end. */
static const struct step *present_step(struct master *master)
{
    const struct step *part = master->script->parts[master->part];

    while (part != 0 && part[master->step].kind == STEP_END) {
        part = master->script->parts[++master->part];
        master->step = 0;
    }
    return part == 0 ? 0 : &part[master->step];
}

static bool is_sent_step_over(struct master *master, const struct step *step, uint32_t now)
{
    if (step->kind == STEP_FLOOD && now - master->begun < step->within) {
        flood(master, step);
        return false;
    }
    return now - master->begun >= step->within;
}

/* A check is over when it holds, or when its time is; one of what must not be heard the other way round. */
static bool is_check_over(struct master *master, const struct step *step, uint32_t now)
{
    bool is_late = now - master->begun >= step->within;
    bool is_to_last = step->kind == STEP_SILENCE || step->kind == STEP_NO_REPLY || step->kind == STEP_AT_MOST || step->kind == STEP_WITHOUT;
    bool has_held = holds(master, step);

    if (has_held == is_to_last && !is_late)
        return false;
    end_check(master, step, now, has_held);
    return true;
}

/* Whether the step is done, and the next may begin. */
static bool is_over(struct master *master, const struct step *step, uint32_t now)
{
    if (!master->is_begun) {
        master->is_begun = true;
        master->begun = now;
        begin(master, step);
        if (!is_checked(step)) {
            printf("%7u ms  master  ", now);
            say_sent(step);
        }
    }
    return is_checked(step) ? is_check_over(master, step, now) : is_sent_step_over(master, step, now);
}

bool master_run(struct master *master, uint32_t now)
{
    const struct step *step = present_step(master);

    if (master->sync_every != 0 && now % master->sync_every == 0)
        send(master, SYNC, 0, 0, 0);
    while (step != 0 && is_over(master, step, now)) {
        master->step++;
        master->is_begun = false;
        step = present_step(master);
    }
    return step != 0;
}
