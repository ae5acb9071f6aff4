/*
 * The label feeder: a list of lengths, each fed once, as relative set-points of profile position, up to two ahead. It stands on the node's
 * promises alone and knows nothing of buses: at each step it is told the status word 6041h, and gives the control word 6040h and the target
 * 607Ah to be written. An archive of its own has it (`tools/build feeder`).
 *
 * Each call answers on every input and keeps nothing: the list is lent at each call, and what goes on from step to step is one position.
 * What a caller owes: a pointer and a count that belong together (a null pointer with count 0 is fine).
 *
 * What it takes to have each length fed once, in order:
 * - the first step finds the drive in Operation enabled, mode 1, with no set-point held, and bit 4 of 6040h zero;
 * - each step is told the present status word;
 * - what it answers is written before the next step, the target first or both in one frame: by SDO, by a receive PDO, or one of each;
 * - nobody else writes 6040h or 607Ah, the drive stays enabled and in mode 1, and no running target leaves the limits 607Dh.
 * Then at each step that is told bit 12 clear while lengths remain, the next length is taken.
 */
#ifndef FEEDER_H
#define FEEDER_H

#include <stdint.h>

#ifdef __cplusplus
extern "C" {
#endif

/* The longest list that is fed. */
#define FEEDER_MOST_LENGTHS 1024u

/* The refusals. */
enum feeder_refusal_number {
    FEEDER_ACCEPTED = 0,
    FEEDER_LIST_TOO_LONG = 1, /* over FEEDER_MOST_LENGTHS lengths */
    FEEDER_PAST_THE_LIST = 2  /* a position past the list: of a step alone */
};

/* Whether the list can be fed, to be asked before the first step: FEEDER_ACCEPTED or FEEDER_LIST_TOO_LONG. */
uint32_t feeder_start(const int32_t *lengths, uint64_t count);

/*
 * A step: the position is 0 at the first one, then the one that the step before answered; it counts the lengths that were taken or are on
 * their way. Where it is the count, all were given, and each further step answers 000Fh and 0.
 *
 * It returns the refusal times 2^60, plus the new position times 2^48, plus the control word times 2^32, plus the target as an unsigned word:
 * take it apart with the functions below. With a refusal all else is zero, and nothing is to be written.
 */
uint64_t feeder_step(const int32_t *lengths, uint64_t count, uint32_t position, uint32_t status);

/* The refusal in the answer of a step; 0 is none. */
static inline uint32_t feeder_refusal(uint64_t answer)
{
    return (uint32_t)(answer >> 60);
}

/* The position for the next step. */
static inline uint32_t feeder_position(uint64_t answer)
{
    return (uint32_t)(answer >> 48) & 0xFFFu;
}

/* The control word to be written to 6040h. */
static inline uint16_t feeder_control_word(uint64_t answer)
{
    return (uint16_t)(answer >> 32);
}

/* The target to be written to 607Ah, before the control word or in one frame with it. */
static inline int32_t feeder_target(uint64_t answer)
{
    uint32_t word = (uint32_t)answer;
    return word < 0x80000000u ? (int32_t)word : -(int32_t)(0xFFFFFFFFu - word) - 1;
}

#ifdef __cplusplus
}
#endif

#endif
