/*
 * Concise DCF files as the tests make them, with guard bytes around, and what a load of one comes to by the documents: the same downloads, made
 * by SDO on a copy of the node.
 */
#ifndef FILES_H
#define FILES_H

#include "guarded.h"
#include "segments.h"

enum { COUNT_SIZE = 4, HEAD_SIZE = 7, MOST_ENTRIES = 512, MOST_FILE = 8192, CONTROL_WORD = 0x6040, LONGEST_EXPEDITED = 4 };

struct file {
    uint8_t bytes[GUARD + MOST_FILE + GUARD];
    uint32_t length;
};

/* An entry as a test writes it: a value in so many bytes, zeros behind the fourth. */
struct entry {
    uint16_t index;
    uint8_t subindex;
    uint32_t size, value;
};

/* ---- a file */

static inline uint8_t *content(struct file *f)
{
    return f->bytes + GUARD;
}

static inline void put_word(uint8_t *to, uint32_t word)
{
    for (uint32_t i = 0; i < 4; i++)
        to[i] = (uint8_t)(word >> (8 * i));
}

/* The file ends here, and behind it stands a guard. */
static inline void end_at(struct file *f, uint32_t length)
{
    f->length = length;
    memset(content(f) + length, GUARD_BYTE, GUARD);
}

static inline void no_entries(struct file *f)
{
    memset(f->bytes, GUARD_BYTE, GUARD);
    put_word(content(f), 0);
    end_at(f, COUNT_SIZE);
}

static inline uint32_t count_of(struct file *f)
{
    return cendurak_word(content(f));
}

static inline void add(struct file *f, struct entry e)
{
    uint8_t *at = content(f) + f->length;

    at[0] = (uint8_t)e.index, at[1] = (uint8_t)(e.index >> 8), at[2] = e.subindex;
    put_word(at + 3, e.size);
    memset(at + HEAD_SIZE, 0, e.size);
    for (uint32_t i = 0; i < e.size && i < 4; i++)
        at[HEAD_SIZE + i] = (uint8_t)(e.value >> (8 * i));
    put_word(content(f), count_of(f) + 1);
    end_at(f, f->length + HEAD_SIZE + e.size);
}

static inline void add_all(struct file *f, const struct entry *entries, uint32_t count)
{
    for (uint32_t i = 0; i < count; i++)
        add(f, entries[i]);
}

/* Whether both are the same file with their guards in place. */
static inline int is_same_file(const struct file *a, const struct file *b)
{
    return a->length == b->length && memcmp(a->bytes, b->bytes, GUARD + a->length + GUARD) == 0;
}

/* ---- the answer */

static inline uint64_t load_of(uint32_t refusal, uint32_t entry, uint32_t code)
{
    return ((uint64_t)refusal << 48) + ((uint64_t)entry << 32) + code;
}

static inline uint64_t load(struct bench *b, struct file *f)
{
    return cendurak_load(lent(&b->state), b->state.length, lent(&b->dict), b->dict.length, content(f), f->length);
}

/* ---- what a load comes to */

/* Where the entry at that place ends; 0 where it is not all there. */
static inline uint64_t end_of(struct file *f, uint64_t at)
{
    if (f->length - at < HEAD_SIZE || f->length - at - HEAD_SIZE < cendurak_word(content(f) + at + 3))
        return 0;
    return at + HEAD_SIZE + cendurak_word(content(f) + at + 3);
}

static inline int is_misfit(struct file *f)
{
    uint64_t at = COUNT_SIZE;

    for (uint32_t i = 0; i < count_of(f) && at != 0; i++)
        at = end_of(f, at);
    return at != f->length;
}

static inline int names_control_word(struct file *f)
{
    uint64_t at = COUNT_SIZE;

    for (uint32_t i = 0; i < count_of(f); i++, at = end_of(f, at))
        if (cendurak_half(content(f) + at) == CONTROL_WORD)
            return 1;
    return 0;
}

/* The refusals before any entry is tried; whether the buffers are right and sound, a frame for others tells. */
static inline uint32_t refusal_before(struct bench *b, struct file *f)
{
    uint32_t of_buffers = cendurak_refusal(frame(b, 0x7FF, 0, 0));

    if (of_buffers != 0)
        return of_buffers;
    if (cendurak_nmt(lent(&b->state)) != CENDURAK_NMT_PRE_OPERATIONAL || cendurak_drive(lent(&b->state)) > CENDURAK_DRIVE_SWITCH_ON_DISABLED)
        return CENDURAK_WRONG_STATE;
    if (f->length < COUNT_SIZE)
        return CENDURAK_FILE_TOO_SHORT;
    if (count_of(f) > MOST_ENTRIES)
        return CENDURAK_TOO_MANY_ENTRIES;
    if (is_misfit(f))
        return CENDURAK_FILE_MISFIT;
    return names_control_word(f) ? CENDURAK_CONTROL_WORD_ENTRY : CENDURAK_ACCEPTED;
}

/* An entry's download, expedited with its size told. No such request tells a size of 0 or over 4: then by segments, all bytes in one. */
static inline void request_entry(struct bench *b, const uint8_t *entry)
{
    uint32_t identifier = 0x600u + lent(&b->state)[0], size = cendurak_word(entry + 3);
    uint8_t first[8] = {0x21, entry[0], entry[1], entry[2], 0xEE, 0xEE, 0xEE, 0xEE}, segment[8] = {DOWNLOAD_SEGMENT + LAST_BIT};

    if (0 < size && size <= LONGEST_EXPEDITED) {
        first[0] = (uint8_t)(0x23 + 4 * (LONGEST_EXPEDITED - size));
        memcpy(first + 4, entry + HEAD_SIZE, size);
    }
    frame(b, identifier, first, 8);
    if (size == 0 || size > LONGEST_EXPEDITED) {
        segment[0] |= size == 0 ? 2 * SEGMENT_ROOM : 0;
        frame(b, identifier, segment, 8);
    }
}

/* The abort code of an entry's download, 0 where it is done. The transfer that runs is put back: a load lets it go on. */
static inline uint32_t abort_of_entry(struct bench *b, const uint8_t *entry)
{
    struct transfer running = transfer_of(lent(&b->state));
    const uint8_t *reply = cendurak_data(lent(&b->out), 0);

    request_entry(b, entry);
    put_transfer(lent(&b->state), &running);
    return reply[0] == ABORT ? cendurak_word(reply + 4) : 0;
}

/* The answer; the node becomes what the load leaves of it. */
static inline uint64_t wanted_load(struct bench *b, struct file *f)
{
    static struct bench trial;
    uint64_t at = COUNT_SIZE;

    trial = *b;
    fill(&trial.out, CENDURAK_OUT_LEN, 0);
    uint32_t refusal = refusal_before(&trial, f);
    if (refusal != CENDURAK_ACCEPTED)
        return load_of(refusal, 0, 0);
    for (uint32_t i = 1; i <= count_of(f); i++, at = end_of(f, at)) {
        uint32_t code = abort_of_entry(&trial, content(f) + at);
        if (code != 0)
            return load_of(CENDURAK_ENTRY_ABORTED, i, code);
    }
    b->state = trial.state, b->dict = trial.dict;
    return 0;
}

#endif
