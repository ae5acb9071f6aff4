/* The transfer in progress as the state has it in its bytes (docs/STATE.md): directly before the drive's. */
#ifndef TRANSFER_H
#define TRANSFER_H

#include <string.h>

#include "cendurak.h"

enum { NO_TRANSFER = 0, UPLOADING = 1, DOWNLOADING = 2 };

struct transfer {
    uint8_t kind;
    uint8_t step;        /* upload: the segment that is due, from 0; download: how many bytes came, 5 for more than four */
    uint8_t object[3];   /* download: the object's index, low byte first, and subindex */
    uint8_t toggle;      /* download: that of the segment that is due */
    uint8_t received[4]; /* download: the first four bytes that came, zeros behind them */
};

_Static_assert(CENDURAK_STATE_AT_DRIVE >= sizeof(struct transfer), "there is room for a transfer before the drive");

static inline uint8_t *transfer_place(uint8_t *state)
{
    return state + CENDURAK_STATE_AT_DRIVE - sizeof(struct transfer);
}

static inline struct transfer transfer_of(uint8_t *state)
{
    struct transfer transfer;

    memcpy(&transfer, transfer_place(state), sizeof transfer);
    return transfer;
}

static inline void put_transfer(uint8_t *state, const struct transfer *transfer)
{
    memcpy(transfer_place(state), transfer, sizeof *transfer);
}

#endif
