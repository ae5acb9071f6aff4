/*
 * Tests of SDO transfers by segments through the C calls: the device name is read, objects are written, what is refused and what ends a
 * transfer; and damaged transfers: whatever stands in the state's bytes of a transfer is either refused with 4, with every buffer left as it
 * was, or is a transfer that goes on by the rules.
 */
#include <stdio.h>

#include "checks.h"
#include "segments.h"

enum { MOST_RECEIVED = 4, MORE_RECEIVED = 5, UPLOAD_SEGMENT = 0x60 };

/* Index, low byte first, and subindex, as a reply names an object. */
static const uint8_t no_object[3], device_name[3] = {0x08, 0x10, 0x00}, target[3] = {0x7A, 0x60, 0x00};

static const uint8_t name_is_told[8] = {0x41, 0x08, 0x10, 0x00, 19};
static const uint8_t name_segments[3][8] = {
    {0x00, 'C', 'e', 'n', 'd', 'u', 'r', 'a'}, {0x10, 'k', ' ', 's', 'e', 'r', 'v', 'o'}, {0x05, ' ', 'n', 'o', 'd', 'e', 0, 0}};

/* ---- requests */

/* A request with this first byte; the others are ones that no rule asks for. */
static uint32_t ask_segment(struct bench *b, uint8_t head)
{
    const uint8_t request[8] = {head, 0xFF, 0, 0xFF, 0, 0xFF, 0, 0xFF};
    return frame(b, 0x605, request, 8);
}

/* ---- the device name */

static void read_name(struct bench *b, uint8_t low_bits, const char *name)
{
    static struct bench start;

    start = *b;
    sdo(b, 0x40, 0x1008, 0, 0);
    check(is_reply(b, name_is_told), name);
    for (uint32_t i = 0; i < 3; i++) {
        ask_segment(b, (uint8_t)(UPLOAD_SEGMENT + (i % 2 ? TOGGLE_BIT : 0) + low_bits));
        check(is_reply(b, name_segments[i]), name);
    }
    check(is_same(&b->state, &start.state) && is_same(&b->dict, &start.dict), "the name is read, and all is as before");
}

static void device_name_is_read(void)
{
    static struct bench b;

    fresh(&b);
    read_name(&b, 0, "the device name");
    read_name(&b, 0, "the device name once more");
    read_name(&b, 0x0F, "the device name, other bits set");
    nmt(&b, 0x01);
    read_name(&b, 0, "the device name in Operational");
    ask_segment(&b, UPLOAD_SEGMENT + TOGGLE_BIT);
    check(is_abort(&b, no_object, NOT_KNOWN), "a segment behind the last");
    sdo(&b, 0x40, 0x1008, 1, 0);
    check(is_abort(&b, (const uint8_t[]){0x08, 0x10, 0x01}, NO_SUBINDEX), "1008h has no subindex 1");
    sdo(&b, 0x23, 0x1008, 0, 0);
    check(is_abort(&b, device_name, NO_WRITING), "the device name is not written");
    enabled(&b);
    sdo(&b, 0x23, 0x1600, 1, 0x10080098);
    check(is_abort(&b, (const uint8_t[]){0x00, 0x16, 0x01}, NOT_NOW), "a mapping of a valid PDO");
    sdo(&b, 0x23, 0x1400, 1, 0x80000205);
    sdo(&b, 0x2F, 0x1600, 0, 0);
    sdo(&b, 0x23, 0x1600, 1, 0x10080098);
    check(is_abort(&b, (const uint8_t[]){0x00, 0x16, 0x01}, NOT_MAPPABLE), "the device name is not mapped");
}

/* ---- writing by segments: as an expedited write of the same bytes */

/* The bytes, so many in each segment but the last. Until that nothing changes in the dictionary; the toggle of the last. */
static uint8_t write_by_segments(struct bench *b, uint32_t index, uint8_t subindex, const uint8_t *bytes, uint32_t size, uint32_t each)
{
    static struct bench start;
    uint8_t toggle = 0;
    uint32_t wrong = 0;

    start = *b;
    sdo(b, 0x21, index, subindex, size);
    while (size > each) {
        send_segment(b, toggle, bytes, each, 0);
        wrong += b->answer != 1 || !is_taken(b, toggle) || !is_same(&b->dict, &start.dict);
        bytes += each, size -= each, toggle ^= 1;
    }
    check(wrong == 0, "segments before the last are taken, and change no object");
    send_segment(b, toggle, bytes, size, 1);
    return toggle;
}

/* On two nodes that are alike, for segments of every length: the same state, dictionary and frames, but for the reply. */
static void written_alike(const struct bench *start, uint32_t index, uint8_t subindex, uint32_t value, uint32_t size, const char *name)
{
    static struct bench b, twin;
    const uint8_t bytes[4] = {(uint8_t)value, (uint8_t)(value >> 8), (uint8_t)(value >> 16), (uint8_t)(value >> 24)};

    for (uint32_t each = 1; each <= SEGMENT_ROOM; each++) {
        b = twin = *start;
        sdo(&twin, (uint8_t)(0x23 + 4 * (4 - size)), index, subindex, value);
        uint8_t toggle = write_by_segments(&b, index, subindex, bytes, size, each);
        uint32_t behind = CENDURAK_FRAME_LEN * (cendurak_frames(b.answer) - 1);
        check(b.answer == twin.answer && is_taken(&b, toggle) && is_same(&b.state, &twin.state) && is_same(&b.dict, &twin.dict)
                  && memcmp(lent(&b.out) + CENDURAK_FRAME_LEN, lent(&twin.out) + CENDURAK_FRAME_LEN, behind) == 0,
              name);
    }
}

static void objects_are_written(void)
{
    static struct bench b;
    const uint8_t fault[3] = {0x10, 0x23, 0x02};

    started(&b);
    written_alike(&b, 0x6040, 0, 0x06, 2, "6040h by segments");
    written_alike(&b, 0x607A, 0, 0x12345678, 4, "607Ah by segments");
    written_alike(&b, 0x607D, 2, 1500, 4, "607Dh:2 by segments");
    written_alike(&b, 0x6060, 0, 1, 1, "6060h by segments");
    written_alike(&b, 0x1800, 1, 0xC0000185, 4, "a PDO's identifier by segments");
    sdo(&b, 0x2B, 0x1017, 0, 5);
    event(&b, CENDURAK_TICK, 0, 0);
    written_alike(&b, 0x1017, 0, 5, 2, "1017h by segments restarts the heartbeat");
    nmt(&b, 0x01);
    written_alike(&b, 0x6040, 0, 0x06, 2, "6040h by segments, TPDOs sent");
    control(&b, 0x06);
    control(&b, 0x0F);
    event(&b, CENDURAK_FAULT, fault, 3);
    event(&b, CENDURAK_REACTION_DONE, 0, 0);
    event(&b, CENDURAK_CAUSE_GONE, 0, 0);
    written_alike(&b, 0x6040, 0, 0x80, 2, "a fault reset by segments");
    const uint8_t word[2] = {0x80, 0x00};
    write_by_segments(&b, 0x6040, 0, word, 2, 2);
    check(status(&b) == 0x0250 && cendurak_frames(b.answer) > 1, "the fault is reset");
}

/* ---- what is refused */

static void write_is_refused(uint32_t index, uint8_t subindex, uint32_t size, uint32_t code, const char *name)
{
    static struct bench b, start;
    static const uint8_t bytes[12] = {7, 7, 7, 7, 7, 7, 7, 7, 7, 7, 7, 7};
    const uint8_t object[3] = {(uint8_t)index, (uint8_t)(index >> 8), subindex};

    for (uint32_t each = 1; each <= SEGMENT_ROOM; each++) {
        started(&b);
        nmt(&b, 0x01);
        start = b;
        write_by_segments(&b, index, subindex, bytes, size, each);
        check(is_abort(&b, object, code) && is_same(&b.state, &start.state) && is_same(&b.dict, &start.dict), name);
    }
}

static void writes_are_refused(void)
{
    write_is_refused(0x6042, 0, 2, NO_OBJECT, "no object, by segments");
    write_is_refused(0x607D, 3, 4, NO_SUBINDEX, "no subindex, by segments");
    write_is_refused(0x6041, 0, 2, NO_WRITING, "a status word, by segments");
    write_is_refused(0x1008, 0, 12, NO_WRITING, "a device name, by segments");
    write_is_refused(0x607A, 0, 5, TOO_LONG, "a byte too many, by segments");
    write_is_refused(0x607A, 0, 12, TOO_LONG, "eight bytes too many, by segments");
    write_is_refused(0x607A, 0, 3, TOO_SHORT, "a byte too few, by segments");
    write_is_refused(0x607A, 0, 0, TOO_SHORT, "no byte at all, by segments");
    write_is_refused(0x1400, 2, 1, NOT_NOW, "the wrong time, by segments");
    write_is_refused(0x6060, 0, 1, BAD_VALUE, "a bad value, by segments");
}

/* A segment that is refused: the abort names the object of the transfer that ran, and nothing runs any more. */
static void is_refused(struct bench *b, uint8_t head, const uint8_t *object, uint32_t code, const char *name)
{
    static struct bench start;

    start = *b;
    ask_segment(b, head);
    check(is_abort(b, object, code) && is_same(&b->dict, &start.dict) && is_idle(b), name);
    ask_segment(b, head);
    check(is_abort(b, no_object, NOT_KNOWN), "nothing runs behind a refused segment");
}

static void segments_are_refused(void)
{
    static struct bench b;
    static const uint8_t bytes[2] = {0x06, 0x00}, control_word[3] = {0x40, 0x60, 0x00}, maximum[3] = {0x7D, 0x60, 0x02};

    fresh(&b);
    is_refused(&b, UPLOAD_SEGMENT, no_object, NOT_KNOWN, "an upload's segment, and nothing runs");
    is_refused(&b, DOWNLOAD_SEGMENT, no_object, NOT_KNOWN, "a download's segment, and nothing runs");
    is_refused(&b, DOWNLOAD_SEGMENT + TOGGLE_BIT + LAST_BIT, no_object, NOT_KNOWN, "a download's last segment, and nothing runs");
    sdo(&b, 0x40, 0x1008, 0, 0);
    is_refused(&b, UPLOAD_SEGMENT + TOGGLE_BIT, device_name, TOGGLE_NOT_ALTERNATED, "an upload's first toggle is 0");
    sdo(&b, 0x40, 0x1008, 0, 0);
    ask_segment(&b, UPLOAD_SEGMENT);
    is_refused(&b, UPLOAD_SEGMENT, device_name, TOGGLE_NOT_ALTERNATED, "an upload's segment twice");
    sdo(&b, 0x40, 0x1008, 0, 0);
    is_refused(&b, DOWNLOAD_SEGMENT + TOGGLE_BIT, device_name, NOT_KNOWN, "the direction is looked at before the toggle, upload");
    sdo(&b, 0x20, 0x6040, 0, 0);
    is_refused(&b, DOWNLOAD_SEGMENT + TOGGLE_BIT, control_word, TOGGLE_NOT_ALTERNATED, "a download's first toggle is 0");
    sdo(&b, 0x20, 0x6040, 0, 0);
    send_segment(&b, 0, bytes, 2, 0);
    is_refused(&b, DOWNLOAD_SEGMENT + LAST_BIT, control_word, TOGGLE_NOT_ALTERNATED, "a download's segment twice");
    sdo(&b, 0x20, 0x607D, 2, 0);
    is_refused(&b, UPLOAD_SEGMENT + TOGGLE_BIT, maximum, NOT_KNOWN, "the direction is looked at before the toggle, download");
}

/* ---- what ends a transfer, and what does not */

/* A download of a control word with its two bytes, and not yet its last segment. */
static void begin_download(struct bench *b)
{
    static const uint8_t bytes[2] = {0x06, 0x00};

    started(b);
    sdo(b, 0x21, 0x6040, 0, 2);
    send_segment(b, 0, bytes, 2, 0);
}

static void end_download(struct bench *b, int has_ended, const char *name)
{
    static const uint8_t none;

    send_segment(b, 1, &none, 0, 1);
    check(has_ended ? is_abort(b, no_object, NOT_KNOWN) && status(b) != 0x0231 : is_taken(b, 1) && status(b) == 0x0231, name);
}

static void requests_between(void)
{
    static struct bench b;
    static const struct {
        uint8_t command;
        uint16_t index;
        const char *name;
    } requests[] = {
        {0x40, 0x6041, "ended by an upload"}, {0x40, 0x6042, "ended by a refused upload"}, {0x40, 0x1008, "ended by the device name"},
        {0x23, 0x607A, "ended by a download"}, {0x2F, 0x6041, "ended by a refused download"}, {0x80, 0x6040, "ended by the client's abort"},
        {0x80, 0x0000, "ended by an abort of another object"}, {0xA0, 0x6040, "ended by command 5"}, {0xC0, 0x6040, "ended by command 6"},
        {0xE0, 0x6040, "ended by command 7"}};

    for (uint32_t i = 0; i < sizeof requests / sizeof requests[0]; i++) {
        begin_download(&b);
        sdo(&b, requests[i].command, requests[i].index, 0, 0);
        if (requests[i].index == 0x1008)
            sdo(&b, 0x80, 0x1008, 0, 0);
        end_download(&b, 1, requests[i].name);
    }
    begin_download(&b);
    sdo(&b, 0x20, 0x607A, 0, 0);
    send_segment(&b, 0, (const uint8_t[]){1, 2, 3, 4}, 4, 1);
    check(is_taken(&b, 0) && target_position(&b) == 0x04030201, "another download has none of the bytes of the one before it");
}

static void commands_between(void)
{
    static struct bench b;
    static const uint8_t ends[] = {0x02, 0x81, 0x82}, at[8] = {1}, seven[7] = {0x80};

    for (uint32_t i = 0; i < sizeof ends; i++) {
        begin_download(&b);
        nmt(&b, ends[i]);
        check(is_idle(&b), "nothing runs behind 02h, 81h and 82h");
        nmt(&b, 0x80);
        end_download(&b, 1, "ended by 02h, 81h or 82h");
    }
    begin_download(&b);
    power_up(&b, 5);
    end_download(&b, 1, "ended by power-up");

    begin_download(&b);
    nmt(&b, 0x01);
    frame(&b, 0x605, seven, 7);
    frame(&b, 0x606, seven, 7);
    frame(&b, 0x80, 0, 0);
    event(&b, CENDURAK_FEEDBACK, at, 8);
    event(&b, CENDURAK_TICK, 0, 0);
    event(&b, CENDURAK_STARTED, 0, 0);
    nmt(&b, 0x80);
    end_download(&b, 0, "not ended by 01h, 80h, seven bytes, other frames and events");
}

/* ---- damaged transfers. What the rules make of a segment, of a node in which 607Ah can be written and is not mapped to transmit. */

struct outcome {
    uint8_t reply[8];
    struct transfer left;
    int is_written; /* 607Ah, with the bytes received */
    uint8_t value[4];
};

/* docs/STATE.md: bytes that a kind does not use are zero; an upload stands at one of the name's three segments. */
static int is_transfer(const struct transfer *t)
{
    static const struct transfer none;
    struct transfer rest = *t;

    rest.kind = rest.step = 0;
    if (t->kind == NO_TRANSFER)
        return memcmp(t, &none, sizeof none) == 0;
    if (t->kind == UPLOADING)
        return t->step < 3 && memcmp(&rest, &none, sizeof none) == 0;
    if (t->kind != DOWNLOADING || t->step > MORE_RECEIVED || t->toggle > 1)
        return 0;
    for (uint32_t i = t->step; i < MOST_RECEIVED; i++)
        if (t->received[i] != 0)
            return 0;
    return 1;
}

static struct outcome refused_segment(const struct transfer *t, uint32_t code)
{
    struct outcome outcome = {0};

    make_abort(outcome.reply, t->kind == UPLOADING ? device_name : t->object, code);
    return outcome;
}

static struct outcome name_segment(const struct transfer *t)
{
    struct outcome outcome = {0};

    memcpy(outcome.reply, name_segments[t->step], 8);
    if (t->step < 2) {
        outcome.left = *t;
        outcome.left.step++;
    }
    return outcome;
}

/* A download's segment that carries so many bytes of the request. */
static struct outcome taken_segment(const struct transfer *t, const uint8_t *request)
{
    struct outcome outcome = {.left = *t};

    for (uint32_t i = 0; i < SEGMENT_ROOM - (request[0] >> 1 & 7u); i++) {
        if (outcome.left.step < MOST_RECEIVED)
            outcome.left.received[outcome.left.step] = request[1 + i];
        if (outcome.left.step < MORE_RECEIVED)
            outcome.left.step++;
    }
    outcome.left.toggle = !t->toggle;
    outcome.reply[0] = (uint8_t)(SEGMENT_TAKEN + TOGGLE_BIT * t->toggle);
    return outcome;
}

/* The last one, of a download of 607Ah. */
static struct outcome ended_download(const struct transfer *t, const uint8_t *request)
{
    struct outcome outcome = taken_segment(t, request);

    if (outcome.left.step != MOST_RECEIVED)
        return refused_segment(t, outcome.left.step > MOST_RECEIVED ? TOO_LONG : TOO_SHORT);
    memcpy(outcome.value, outcome.left.received, sizeof outcome.value);
    outcome.is_written = 1;
    memset(&outcome.left, 0, sizeof outcome.left);
    return outcome;
}

static struct outcome outcome_of(const struct transfer *t, const uint8_t *request)
{
    uint32_t wanted = request[0] < SEGMENT_TAKEN ? DOWNLOADING : UPLOADING, toggle = request[0] >> 4 & 1u;
    uint32_t due = t->kind == UPLOADING ? t->step % 2u : t->toggle;

    if (t->kind != wanted)
        return refused_segment(t, NOT_KNOWN);
    if (toggle != due)
        return refused_segment(t, TOGGLE_NOT_ALTERNATED);
    if (t->kind == UPLOADING)
        return name_segment(t);
    return request[0] & LAST_BIT ? ended_download(t, request) : taken_segment(t, request);
}

/* One frame is laid, the transfer goes on or ends, 607Ah is written or not, and every other byte stays. Stopped, all of them do. */
static int goes_on(const struct bench *start, const struct transfer *t, const uint8_t *request)
{
    static struct bench b, wanted;
    struct outcome outcome = outcome_of(t, request);

    b = wanted = *start;
    if (cendurak_nmt(lent(&b.state)) == CENDURAK_NMT_STOPPED)
        return frame(&b, 0x605, request, 8) == 0 && are_same(&b, &wanted);
    put_transfer(lent(&wanted.state), &outcome.left);
    if (outcome.is_written)
        memcpy(lent(&wanted.dict) + CENDURAK_DICT_AT_TARGET_POSITION, outcome.value, sizeof outcome.value);
    lay_reply(&wanted, outcome.reply);
    return frame(&b, 0x605, request, 8) == 1 && are_same(&b, &wanted);
}

/* Requests of both directions and toggles; downloads carry none, one, four and seven bytes. Last segments only where 607Ah is the object. */
static uint32_t wrong_outcomes(const struct bench *start, const struct transfer *t)
{
    uint32_t wrong = 0;
    int is_target = memcmp(t->object, target, sizeof target) == 0;

    for (uint8_t head = DOWNLOAD_SEGMENT; head < SEGMENT_TAKEN; head++) {
        const uint8_t request[8] = {head, 0x11, 0x22, 0x33, 0x44, 0x55, 0x66, 0x77};
        uint32_t count = SEGMENT_ROOM - (head >> 1 & 7u);
        int is_tried = count == 0 || count == 1 || count == 4 || count == SEGMENT_ROOM;
        if (is_tried && (is_target || !(head & LAST_BIT) || t->kind != DOWNLOADING))
            wrong += !goes_on(start, t, request);
    }
    for (uint8_t head = UPLOAD_SEGMENT; head < ABORT; head += TOGGLE_BIT) {
        const uint8_t request[8] = {head};
        wrong += !goes_on(start, t, request);
    }
    return wrong;
}

/* How many forged transfers were taken for one, and how many were not. */
static uint32_t sound, not_sound;

/* A transfer that is put into a node's state: a frame for others, and then a segment of it. How much of it is wrong. */
static uint32_t wrong_forged(struct bench *b, const struct transfer *t)
{
    static const uint8_t request[8] = {UPLOAD_SEGMENT};
    static struct bench before;
    int is_good = is_transfer(t);
    uint32_t refusal = is_good ? CENDURAK_ACCEPTED : CENDURAK_NOT_SOUND, wrong = 0;

    put_transfer(lent(&b->state), t);
    before = *b;
    wrong += frame(b, 0x7FF, 0, 0) != 256 * refusal || !are_same(b, &before);
    sound += is_good, not_sound += !is_good;
    if (is_good)
        return wrong + wrong_outcomes(&before, t);
    wrong += frame(b, 0x605, request, 8) != 256 * refusal || !are_same(b, &before);
    wrong += event(b, CENDURAK_TICK, 0, 0) != 256 * refusal || !are_same(b, &before);
    return wrong;
}

static void forged(struct bench *b, uint32_t wrong, uint32_t good, const char *name)
{
    struct transfer now = transfer_of(lent(&b->state));

    check(wrong == 0, name);
    check(sound == good && not_sound > 0, "so many forged transfers can be one, and others cannot");
    sound = not_sound = 0;
    memset(&now, 0, sizeof now);
    put_transfer(lent(&b->state), &now);
}

/* All kinds with all steps: nothing; 0, 1 and 2 of an upload; 0 to 5 of a download. */
static void forged_kinds(struct bench *b)
{
    uint32_t wrong = 0;

    for (uint32_t i = 0; i < 65536; i++) {
        struct transfer t = {.kind = (uint8_t)(i / 256), .step = (uint8_t)i};
        wrong += wrong_forged(b, &t);
    }
    forged(b, wrong, 1 + 3 + 6, "forged kinds and steps");
}

static void forged_toggles(struct bench *b)
{
    uint32_t wrong = 0;

    for (uint32_t i = 0; i < 65536; i++) {
        struct transfer t = {.kind = DOWNLOADING, .step = (uint8_t)(i / 256), .object = {0x7A, 0x60}, .toggle = (uint8_t)i};
        wrong += wrong_forged(b, &t);
    }
    forged(b, wrong, 6 * 2, "forged toggles");
}

/* Each of the four bytes received, over its values, with each count: it is zero, or the count is beyond it. */
static void forged_bytes(struct bench *b)
{
    uint32_t wrong = 0;

    for (uint32_t i = 0; i < 7 * 4 * 256; i++) {
        struct transfer t = {.kind = DOWNLOADING, .step = (uint8_t)(i / 1024), .object = {0x7A, 0x60}, .toggle = i % 2};
        t.received[i / 256 % 4] = (uint8_t)i;
        wrong += wrong_forged(b, &t);
    }
    forged(b, wrong, (0 + 1 + 2 + 3 + 4 + 4) * 256 + (4 + 3 + 2 + 1), "forged bytes behind the count");
}

/* Each byte over its values, of a transfer of each kind: how many of them can be a transfer. */
static void forged_each(struct bench *b, const struct transfer *start, uint32_t good, const char *name)
{
    uint32_t wrong = 0;

    for (uint32_t i = 0; i < 256 * sizeof *start; i++) {
        struct transfer t = *start;
        ((uint8_t *)&t)[i / 256] = (uint8_t)i;
        wrong += wrong_forged(b, &t);
    }
    forged(b, wrong, good, name);
}

static void transfers_are_forged(void)
{
    static struct bench b;
    static const struct transfer none, upload = {.kind = UPLOADING, .step = 1};
    static const struct transfer two = {.kind = DOWNLOADING, .step = 2, .object = {0x7A, 0x60}, .toggle = 1, .received = {0xE8, 0x03}};
    static const struct transfer more = {.kind = DOWNLOADING, .step = 5, .object = {0x7D, 0x60, 0x02}, .received = {1, 2, 3, 4}};

    fresh(&b);
    forged_kinds(&b);
    forged_toggles(&b);
    forged_bytes(&b);
    /* of nothing: kinds 0, 1 and 2, and the byte as it is nine times more */
    forged_each(&b, &none, 3 + 9, "each byte of no transfer");
    /* of an upload: kinds 1 and 2, since one byte that came may be zero; steps 0 to 2; the byte as it is eight times more */
    forged_each(&b, &upload, 2 + 3 + 8, "each byte of an upload");
    /* of a download of two bytes: kind 2; steps 2 to 5; the object is free; two toggles; two bytes are free, and two are zero */
    forged_each(&b, &two, 1 + 4 + 3 * 256 + 2 + 2 * 256 + 2, "each byte of a download");
    /* of one of more than four: kind 2; steps 4 and 5; the object is free; two toggles; four bytes are free */
    forged_each(&b, &more, 1 + 2 + 3 * 256 + 2 + 4 * 256, "each byte of a download of too many bytes");
    nmt(&b, 0x02);
    forged_each(&b, &none, 3 + 9, "each byte of no transfer, Stopped");
}

int main(void)
{
    device_name_is_read();
    objects_are_written();
    writes_are_refused();
    segments_are_refused();
    requests_between();
    commands_between();
    transfers_are_forged();
    printf("%u passed, %u failed\n", passed, failed);
    return failed != 0;
}
