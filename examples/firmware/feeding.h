/*
 * Feeds a list of labels: the feeder (feeder.h) beside the node, in the amplifier's main loop. It is made to be lifted into a product as it
 * stands: it needs feeder.h, node.h and nothing of the simulation.
 *
 * How it keeps what the feeder asks for:
 * - The first step finds the drive enabled in mode 1, no set-point held and bit 4 of 6040h zero: feeding_start looks, right before it, and does
 *   not start otherwise.
 * - Each step is told the present status word: it is read from the dictionary behind the pass of the node, with no call between. A master on
 *   the bus would know it from a transmit PDO, which may be an old one, or have to wait for an SDO's reply at each step.
 * - Each answer is written before the next step: as receive PDO 3, one frame with control word and target, handed to the node in the same pass.
 *   An SDO would be answered on the bus, in the middle of the master's own transfers. An answer that the dictionary does not hold behind the
 *   call (refused, no room for what it may send, not Operational) was not written: it is handed in again, and no step is made before.
 * - The drive stays enabled and in mode 1: where it does not, the feeding is broken off, for the node has then dropped what it held.
 * - Nobody else writes 6040h or 607Ah: where the dictionary no longer holds what was written last, the feeding is broken off too, so that a master's
 *   halt stays. This sees what stands there at a pass: a write that was taken back before is not seen.
 * What the machine has to keep: no such write, from the start to the last label; receive PDO 3 as the node's defaults have it (6040h and 607Ah,
 * not at SYNC); and no label that leads outside the limits 607Dh.
 */
#ifndef FEEDING_H
#define FEEDING_H

#include <stdbool.h>
#include <stdint.h>

#include "feeder.h"
#include "node.h"

#ifdef __cplusplus
extern "C" {
#endif

enum feeding_stage {
    FEEDING_IDLE,       /* never started */
    FEEDING_RUNNING,    /* also behind the last label, until another list is started: each step then answers 000Fh and 0 */
    /* broken off: nothing more is written, and which labels lie there has to be looked at */
    FEEDING_DRIVE_LEFT, /* the drive left Operation enabled or mode 1 */
    FEEDING_OVERWRITTEN /* somebody else wrote 6040h or 607Ah */
};

/* What comes of a start. */
enum feeding_start {
    FEEDING_STARTED,
    FEEDING_TOO_LONG, /* the list has over FEEDER_MOST_LENGTHS lengths */
    FEEDING_NOT_READY /* not enabled in mode 1, a set-point is held, or bit 4 of 6040h is 1 */
};

/* All zero is one that was never started. */
struct feeding {
    enum feeding_stage stage;
    const int32_t *lengths; /* lent by who started it, as long as it is fed */
    uint64_t count;
    uint32_t position;      /* the lengths that were taken or are on their way */
    uint16_t identifier;    /* of receive PDO 3 */
    uint16_t control_word;  /* the last answer; before the first, what the dictionary holds */
    int32_t target;
    bool is_owed;           /* that answer is not yet written */
    uint32_t handed_again;  /* answers that had to be handed in once more, each time counted */
};

/* All in the main loop, as every call of the node. */

/* Starts on a list, in place of the one before: behind node_run, in the pass of the first feeding_run. Where it does not start, nothing has
 * changed, and no word of the list was given. */
enum feeding_start feeding_start(struct feeding *feeding, const struct node *node, uint16_t identifier, const int32_t *lengths, uint64_t count);

/* One pass, right behind node_run: a step and its answer, or the answer that is owed. True: a step was made. */
bool feeding_run(struct feeding *feeding, struct node *node);

#ifdef __cplusplus
}
#endif

#endif
