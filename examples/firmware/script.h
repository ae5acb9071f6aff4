/* What the bus master does: scripts of steps, each of which sends something, waits for something, or plants a trouble. */
#ifndef SCRIPT_H
#define SCRIPT_H

#include <stdbool.h>
#include <stdint.h>

#include "labels.h"

enum step_kind {
    /* sent; the next step follows in the same millisecond */
    STEP_NMT,     /* `value` is the command */
    STEP_SYNC,    /* from now on a SYNC every `value` ms */
    STEP_CONTROL, /* RPDO 1: control word `value` */
    STEP_MOVE,    /* RPDO 3: control word `value`, target `target` */
    STEP_FLOOD,   /* `each` frames a millisecond for `within` ms, on the identifier `index`, of `size` bytes: `value`, then zeros */
    STEP_PLANT,   /* the trouble `value` happens to the amplifier */
    STEP_KEY,     /* the operator presses the key of the amplifier's service panel */
    STEP_WAIT,    /* for `within` ms */
    /* checked: it holds within so many ms, or has failed */
    STEP_WRITE,     /* SDO download; `expected` is the abort code, 0 for none */
    STEP_READ,      /* SDO upload; `expected` is the value */
    STEP_TEXT,      /* SDO upload by segments; `says` is the text */
    STEP_FEED,      /* the operator starts the feeder on `list`; `expected` is what comes of it */
    STEP_LABELS,    /* of the labels that were fed: the check `value` */
    STEP_BOOT_UP,   /* the boot-up frame */
    STEP_HEARTBEAT, /* a heartbeat with the NMT state `expected` */
    STEP_STATUS,    /* the status word under `mask` is `expected` */
    STEP_EMERGENCY, /* an emergency with the code `value` and the register `expected` */
    STEP_POSITION,  /* the position is `target` */
    STEP_SPEED,     /* the velocity is `target` */
    STEP_SILENCE,   /* nothing is heard for `within` ms */
    STEP_NO_REPLY,  /* no SDO reply is heard for `within` ms */
    STEP_AT_MOST,   /* not more than `value` heartbeats are heard in `within` ms */
    STEP_WITHOUT,   /* no status word has a bit of `mask` for `within` ms */
    STEP_END
};

/* What can happen to the amplifier. */
enum trouble {
    TROUBLE_NONE,
    TROUBLE_TRIP,        /* the over-current line rises, and stays */
    TROUBLE_HEAT,        /* the amplifier gets too hot, and stays so */
    TROUBLE_CURE,        /* no cause of a fault is left */
    TROUBLE_HOLD_UP,     /* the main loop is kept busy elsewhere for some milliseconds */
    TROUBLE_STALL,       /* the bus is kept busy by others, and carries nothing of the node for a while */
    TROUBLE_DEAD_BUS,    /* nobody is on the bus, which takes nothing for a second */
    TROUBLE_BUS_OFF,     /* the CAN controller takes itself off the bus */
    TROUBLE_FLIP,        /* a bit of the dictionary flips */
    TROUBLE_JAM,         /* the motor's shaft does not turn any more */
    TROUBLE_STRAY,       /* a frame comes with an identifier that no frame can have */
    TROUBLE_POWER_CYCLE, /* the amplifier is switched off and on */
    TROUBLES
};

struct step {
    enum step_kind kind;
    const char *says; /* the name of what is sent or expected, for the account */
    uint32_t index, subindex, size; /* of an SDO's object */
    uint32_t value, mask, expected, each;
    int32_t target;
    const struct label_list *list;
    uint32_t within;
};

/* A script is a list of parts, ended by 0; a part is a list of steps, ended by STEP_END. */
struct script {
    const char *name;
    const struct step *const *parts;
    bool has_swapped_limits; /* the amplifier has the file in its flash that the node refuses */
};

/* The script of that name; 0 where there is none. */
const struct script *script_named(const char *name);

#endif
