/* The simulated bus master: goes through a script, hears the node's frames, checks them, and writes the account. */
#ifndef MASTER_H
#define MASTER_H

#include <stdbool.h>
#include <stdint.h>

#include "frame_queue.h"
#include "labels.h"
#include "script.h"

enum { NODE_ID = 5, MOST_TEXT = 32 /* characters of a device name */ };

/* What the master last heard of the node. */
struct heard {
    uint8_t reply[8];
    uint16_t status, emergency_code;
    uint8_t emergency_register, heartbeat;
    int32_t position, velocity;
    uint32_t start; /* what came of the start of the feeder */
    /* heard since the step began */
    bool has_reply, has_emergency, has_heartbeat, has_any, has_start;
    uint32_t heartbeats;
    uint16_t shown; /* all bits of the status words, that of the step's start too */
};

/* A text that comes by segments. */
struct upload {
    char text[MOST_TEXT + 1]; /* ended by 0 */
    uint32_t length;
    uint8_t toggle; /* of the segment that is asked for */
    bool is_running, is_whole;
};

/* All but the script and the labels zero at the start. */
struct master {
    const struct script *script;
    const struct labels *labels; /* what became of them */
    uint32_t part, step;  /* where it is in the script */
    bool is_begun;        /* the step's frame is sent */
    uint32_t begun;       /* when */
    uint32_t sync_every;  /* ms; 0: no SYNC */
    struct heard heard;
    struct upload upload;
    struct frame_queue to_bus;
    enum trouble trouble; /* planted by a step, for the simulation to carry out and to clear */
    const struct label_list *order; /* for the feeder to start on, likewise; 0: none */
    bool is_key_pressed;            /* of the service panel, likewise */
    uint32_t held, failed;
};

/* One millisecond: as many steps as can be done in it. False: the script is at its end. */
bool master_run(struct master *master, uint32_t now);

/* A frame of the node. */
void master_hear(struct master *master, const struct node_frame *frame);

/* What came of the start of the feeder. */
void master_hear_start(struct master *master, uint32_t outcome);

#endif
