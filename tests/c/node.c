/*
 * Tests of the C calls against the archive: the examples of document 01, every refusal with all three buffers compared, every byte of a
 * sound state flipped, and random calls on buffers of all lengths, with guard bytes around each.
 */
#include <stdio.h>

#include "checks.h"
#include "guarded.h"
#include "randoms.h"

/* ---- the ten examples of document 01 */

static void examples_of_states(void)
{
    static struct bench b;
    const uint8_t none = 0, on = 1, done[8] = {0x60, 0x40, 0x60}, up[8] = {0x4B, 0x41, 0x60, 0, 0x37, 0x02};
    const uint8_t bad[8] = {0x80, 0x60, 0x60, 0, 0x30, 0x00, 0x09, 0x06};

    fresh(&b);
    check(b.answer == 1 && sent(&b, 0, 0x705, &none, 1) && status(&b) == 0x0200, "example 1: power-up");
    check(event(&b, CENDURAK_STARTED, 0, 0) == 0 && status(&b) == 0x0240, "example 1: started");
    check(event(&b, CENDURAK_VOLTAGE, &on, 1) == 0 && status(&b) == 0x0250, "example 1: voltage on");
    control(&b, 0x06);
    check(b.answer == 1 && sent(&b, 0, 0x585, done, 8) && status(&b) == 0x0231, "example 2: 06h");
    control(&b, 0x07);
    check(status(&b) == 0x0233, "example 2: 07h");
    control(&b, 0x0F);
    check(status(&b) == 0x0237, "example 2: 0Fh");

    enabled(&b);
    check(status(&b) == 0x0237, "example 3: 0Fh from 0231h");
    sdo(&b, 0x40, 0x6041, 0, 0);
    check(b.answer == 1 && sent(&b, 0, 0x585, up, 8), "example 4: upload of 6041h");
    sdo(&b, 0x2F, 0x6060, 0, 7);
    check(b.answer == 1 && sent(&b, 0, 0x585, bad, 8), "example 5: mode 7");
}

static void examples_of_faults(void)
{
    static struct bench b;
    const uint8_t fault[3] = {0x10, 0x23, 0x02}, emergency[8] = {0x10, 0x23, 0x03};

    enabled(&b);
    event(&b, CENDURAK_FAULT, fault, 3);
    check(b.answer == 1 && sent(&b, 0, 0x085, emergency, 8) && status(&b) == 0x021F, "example 6: fault");
    event(&b, CENDURAK_REACTION_DONE, 0, 0);
    check(status(&b) == 0x0218, "example 6: reaction done");
    control(&b, 0x80);
    check(status(&b) == 0x0218, "example 6: reset with the cause present");
    event(&b, CENDURAK_CAUSE_GONE, 0, 0);
    control(&b, 0x00);
    control(&b, 0x80);
    check(status(&b) == 0x0250, "example 6: reset");
}

static void examples_of_pdos(void)
{
    static struct bench b;
    const uint8_t data[6] = {0x06, 0x00, 0x78, 0x56, 0x34, 0x12}, emergency[8] = {0x10, 0x82};
    const uint8_t over[8] = {0x80, 0x01, 0x1A, 0, 0x42, 0x00, 0x04, 0x06};

    started(&b);
    nmt(&b, 0x01);
    frame(&b, 0x405, data, 5);
    check(sent(&b, 0, 0x085, emergency, 8) && target_position(&b) == 0, "example 7: five bytes");
    frame(&b, 0x405, data, 6);
    check(target_position(&b) == 0x12345678, "example 7: six bytes");

    started(&b);
    sdo(&b, 0x23, 0x1801, 1, 0xC0000285);
    sdo(&b, 0x2F, 0x1A01, 0, 0);
    sdo(&b, 0x23, 0x1A01, 1, 0x60640020);
    sdo(&b, 0x23, 0x1A01, 2, 0x606C0020);
    sdo(&b, 0x2F, 0x1A01, 0, 2);
    check(cendurak_data(lent(&b.out), 0)[0] == 0x60, "example 8: eight bytes mapped");
    sdo(&b, 0x2F, 0x1A01, 0, 0);
    sdo(&b, 0x23, 0x1A01, 3, 0x60610008);
    sdo(&b, 0x2F, 0x1A01, 0, 3);
    check(b.answer == 1 && sent(&b, 0, 0x585, over, 8), "example 8: nine bytes mapped");
}

static void examples_of_set_points(void)
{
    static struct bench b;

    started(&b);
    sdo(&b, 0x2F, 0x6060, 0, 1);
    sdo(&b, 0x23, 0x607A, 0, 1000);
    control(&b, 0x06);
    control(&b, 0x0F);
    control(&b, 0x1F);
    check(status(&b) == 0x1237, "example 9: taken");
    control(&b, 0x0F);
    sdo(&b, 0x23, 0x607A, 0, 2000);
    control(&b, 0x1F);
    control(&b, 0x0F);
    check(status(&b) == 0x1237, "example 9: queued");
    event(&b, CENDURAK_SET_POINT_REACHED, 0, 0);
    check(status(&b) == 0x0237, "example 9: reached");

    started(&b);
    sdo(&b, 0x2F, 0x6060, 0, 1);
    sdo(&b, 0x23, 0x607D, 2, 1500);
    sdo(&b, 0x23, 0x607A, 0, 2000);
    control(&b, 0x06);
    control(&b, 0x0F);
    control(&b, 0x1F);
    check(status(&b) == 0x0A37, "example 10: outside the limits");
    control(&b, 0x0F);
    sdo(&b, 0x23, 0x607A, 0, 1500);
    control(&b, 0x1F);
    check(status(&b) == 0x1237, "example 10: at the limit");
}

/* ---- refusals: the number, no frames, and every byte of all three buffers as it was */

static struct bench before;

static void refused(const struct bench *b, uint32_t refusal, const char *name)
{
    check(b->answer == 256 * refusal && are_same(b, &before), name);
}

/* Each of the three calls, with nothing else right either, is refused for that one reason. */
static void all_refused(struct bench *b, uint32_t refusal, const char *power_up_name, const char *frame_name, const char *event_name)
{
    before = *b;
    power_up(b, 0);
    refused(b, refusal, power_up_name);
    frame(b, 0x800, 0, 0);
    refused(b, refusal, frame_name);
    event(b, 0, 0, 0);
    refused(b, refusal, event_name);
}

static void refusals_of_lengths(void)
{
    static struct bench b;
    static const uint32_t lengths[] = {
        0, 1, CENDURAK_OUT_LEN - 1, CENDURAK_OUT_LEN, CENDURAK_STATE_LEN - 1, CENDURAK_STATE_LEN + 1,
        CENDURAK_DICT_LEN - 1, CENDURAK_DICT_LEN, CENDURAK_DICT_LEN + 1, MOST_BYTES};

    for (uint32_t i = 0; i < sizeof lengths / sizeof lengths[0]; i++) {
        uint32_t n = lengths[i];
        fresh(&b);
        b.dict.length = n;
        if (n != CENDURAK_DICT_LEN)
            all_refused(&b, CENDURAK_BAD_DICT_LEN, "power-up, dictionary's length", "frame, dictionary's length", "event, dictionary's length");
        fresh(&b);
        b.out.length = n;
        if (n < CENDURAK_OUT_LEN)
            all_refused(&b, CENDURAK_BAD_OUT_LEN, "power-up, output's length", "frame, output's length", "event, output's length");
        if (n == CENDURAK_STATE_LEN)
            continue;
        fresh(&b);
        b.state.length = n;
        before = b;
        power_up(&b, 0);
        refused(&b, CENDURAK_BAD_NODE_ID, "power-up, node-ID before state's length");
        power_up(&b, 5);
        refused(&b, CENDURAK_NOT_SOUND, "power-up, state's length");
        frame(&b, 0x800, 0, 0);
        refused(&b, CENDURAK_NOT_SOUND, "frame, state's length");
        event(&b, 0, 0, 0);
        refused(&b, CENDURAK_NOT_SOUND, "event, state's length");
    }
}

static void refusals_of_calls(void)
{
    static struct bench b;
    static const uint8_t nine[9], args[9] = {0, 0, 1}, two[1] = {2};

    fresh(&b);
    before = b;
    power_up(&b, 0);
    refused(&b, CENDURAK_BAD_NODE_ID, "node-ID 0");
    power_up(&b, 128);
    refused(&b, CENDURAK_BAD_NODE_ID, "node-ID 128");
    power_up(&b, 0x105);
    refused(&b, CENDURAK_BAD_NODE_ID, "node-ID 105h");
    frame(&b, 0x800, 0, 0);
    refused(&b, CENDURAK_BAD_FRAME, "identifier 800h");
    frame(&b, 0xFFFFFFFF, 0, 0);
    refused(&b, CENDURAK_BAD_FRAME, "identifier FFFFFFFFh");
    frame(&b, 0x605, nine, 9);
    refused(&b, CENDURAK_BAD_FRAME, "nine data bytes");
    event(&b, 0, 0, 0);
    refused(&b, CENDURAK_BAD_EVENT, "event 0");
    event(&b, 10, 0, 0);
    refused(&b, CENDURAK_BAD_EVENT, "event 10");
    event(&b, 0x101, 0, 0);
    refused(&b, CENDURAK_BAD_EVENT, "event 101h");
    for (uint32_t number = 1; number <= 9; number++)
        for (uint32_t length = 0; length <= 9; length++) {
            uint32_t right = number == CENDURAK_FAULT ? 3 : number == CENDURAK_FEEDBACK ? 8 : number == CENDURAK_VOLTAGE ? 1 : 0;
            if (length == right)
                continue;
            event(&b, number, args, length);
            refused(&b, CENDURAK_BAD_EVENT, "argument size");
        }
    event(&b, CENDURAK_FAULT, args, 3);
    refused(&b, CENDURAK_BAD_EVENT, "fault code 0");
    event(&b, CENDURAK_VOLTAGE, two, 1);
    refused(&b, CENDURAK_BAD_EVENT, "voltage flag 2");
    event(&b, CENDURAK_QUICK_STOP_DONE, 0, 0);
    refused(&b, CENDURAK_OUT_OF_PLACE, "quick stop done");
    event(&b, CENDURAK_REACTION_DONE, 0, 0);
    refused(&b, CENDURAK_OUT_OF_PLACE, "reaction done");
    event(&b, CENDURAK_SET_POINT_REACHED, 0, 0);
    refused(&b, CENDURAK_OUT_OF_PLACE, "set-point reached");
    event(&b, CENDURAK_CAUSE_GONE, 0, 0);
    refused(&b, CENDURAK_OUT_OF_PLACE, "cause gone");
    started(&b);
    before = b;
    event(&b, CENDURAK_STARTED, 0, 0);
    refused(&b, CENDURAK_OUT_OF_PLACE, "started twice");
}

/*
 * ---- every byte value in every position of a sound state and dictionary. A frame for others changes nothing: where the changed buffers
 * are still sound it is accepted, and leaves every byte (so the state that was read is written back as the same bytes); else it is refused
 * with 4, and leaves every byte too.
 */
static void flips(struct bench *sound, struct buffer *which, const char *name)
{
    uint32_t wrong = 0, accepted = 0;

    for (uint32_t i = 0; i < which->length; i++) {
        uint8_t kept = lent(which)[i];
        for (uint32_t byte = 0; byte < 256; byte++) {
            lent(which)[i] = (uint8_t)byte;
            before = *sound;
            frame(sound, 0x7FF, 0, 0);
            if (!are_same(sound, &before) || (sound->answer != 0 && sound->answer != 256 * CENDURAK_NOT_SOUND))
                wrong++;
            if (byte == kept && sound->answer != 0)
                wrong++;
            accepted += sound->answer == 0;
        }
        lent(which)[i] = kept;
    }
    check(wrong == 0, name);
    check(accepted > which->length, "some changed bytes are sound");
    check(accepted < 256 * which->length, "some changed bytes are not sound");
}

static void all_flips(void)
{
    static struct bench b;

    fresh(&b);
    flips(&b, &b.state, "state's bytes after power-up");
    flips(&b, &b.dict, "dictionary's bytes after power-up");

    started(&b);
    sdo(&b, 0x2F, 0x6060, 0, 1);
    sdo(&b, 0x23, 0x607A, 0, 1000);
    control(&b, 0x06);
    control(&b, 0x0F);
    control(&b, 0x1F);
    control(&b, 0x0F);
    control(&b, 0x1F);
    sdo(&b, 0x2F, 0x1400, 2, 1);
    sdo(&b, 0x2F, 0x1800, 2, 3);
    sdo(&b, 0x2F, 0x1801, 2, 0);
    nmt(&b, 0x01);
    const uint8_t held[2] = {0x1F, 0x00};
    frame(&b, 0x205, held, 2);
    frame(&b, 0x80, 0, 0);
    frame(&b, 0x205, held, 2);
    check(cendurak_refusal(b.answer) == 0, "a frame held, a count, a due mark");
    flips(&b, &b.state, "state's bytes in Operational");
    flips(&b, &b.dict, "dictionary's bytes in Operational");

    started(&b);
    sdo(&b, 0x2F, 0x6060, 0, 1);
    sdo(&b, 0x23, 0x6067, 0, 20);
    sdo(&b, 0x2B, 0x6068, 0, 2);
    sdo(&b, 0x23, 0x607A, 0, 10);
    control(&b, 0x06);
    control(&b, 0x1F);
    event(&b, CENDURAK_TICK, 0, 0);
    event(&b, CENDURAK_TICK, 0, 0);
    check(cendurak_stay(lent(&b.state)) == 2 && status(&b) == 0x1637, "two ticks inside the window");
    flips(&b, &b.state, "state's bytes inside the window");
    flips(&b, &b.dict, "dictionary's bytes inside the window");

    fresh(&b);
    sdo(&b, 0x40, 0x1008, 0, 0);
    sdo(&b, 0x60, 0, 0, 0);
    flips(&b, &b.state, "state's bytes while the device name is read");
    sdo(&b, 0x21, 0x607D, 2, 4);
    sdo(&b, 0x0A, 0xFFFF, 0, 0);
    flips(&b, &b.state, "state's bytes while an object is written by segments");
}

/* ---- random calls on buffers of all lengths: guards stay, a refusal leaves every byte, six frames at the most */

static void random_bytes(uint8_t *to, uint32_t count)
{
    for (uint32_t i = 0; i < count; i++)
        to[i] = (uint8_t)random_below(256);
}

static void random_call(struct bench *b)
{
    static const uint16_t identifiers[] = {0x000, 0x080, 0x605, 0x205, 0x305, 0x405, 0x505, 0x7FF};
    static const uint8_t commands[] = {0x01, 0x02, 0x80, 0x81, 0x82, 0x2F, 0x2B, 0x23, 0x40, 0x0F, 0x1F, 0x06, 0x21, 0x0A, 0x1B, 0x60, 0x70};
    uint8_t data[16];
    uint32_t length = random_below(10);

    random_bytes(data, sizeof data);
    if (random_below(2))
        data[0] = commands[random_below(sizeof commands)];
    if (random_below(2))
        data[1] = random_below(2) ? 5 : 0x40;
    if (random_below(2))
        data[2] = 0x60;
    if (random_below(8) == 0)
        data[1] = 0x08, data[2] = 0x10, data[3] = 0;
    switch (random_below(8)) {
    case 0:
        power_up(b, random_below(16) ? 5 : random_below(300));
        break;
    case 1:
    case 2:
        event(b, random_below(11), data, random_below(2) ? 0 : length);
        break;
    case 3:
        frame(b, random_below(0x900), data, length);
        break;
    default:
        frame(b, identifiers[random_below(8)], data, random_below(2) ? 8 : length);
    }
}

static void random_calls(uint64_t start, uint32_t calls, int lengths)
{
    static struct bench b;
    uint32_t wrong = 0;

    seed = start;
    fresh(&b);
    for (uint32_t i = 0; i < calls; i++) {
        if (lengths && random_below(4) == 0) {
            fill(&b.state, random_below(4) ? CENDURAK_STATE_LEN : random_below(MOST_BYTES), (uint8_t)random_below(256));
            fill(&b.dict, random_below(4) ? CENDURAK_DICT_LEN : random_below(MOST_BYTES), (uint8_t)random_below(256));
            fill(&b.out, random_below(MOST_BYTES), (uint8_t)random_below(256));
            random_bytes(lent(&b.state), b.state.length);
            if (random_below(2))
                power_up(&b, 5);
        }
        before = b;
        random_call(&b);
        wrong += !are_guarded(&b);
        wrong += cendurak_frames(b.answer) > CENDURAK_MOST_FRAMES || cendurak_refusal(b.answer) > CENDURAK_OUT_OF_PLACE;
        if (cendurak_refusal(b.answer) != 0)
            wrong += cendurak_frames(b.answer) != 0 || !are_same(&b, &before);
    }
    check(wrong == 0, lengths ? "random calls on buffers of all lengths" : "random calls on one node");
}

int main(void)
{
    examples_of_states();
    examples_of_faults();
    examples_of_pdos();
    examples_of_set_points();
    refusals_of_lengths();
    refusals_of_calls();
    all_flips();
    random_calls(1, 200000, 0);
    random_calls(2, 200000, 1);
    printf("%u passed, %u failed\n", passed, failed);
    return failed != 0;
}
