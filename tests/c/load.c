/*
 * Tests of the load of a file through the C call: the numbers that it answers; every refusal, lowest first, with all buffers compared; what
 * goes on behind a load: a transfer, the heartbeat, process data; files of no and of 512 entries; sizes and counts that would wrap; files with
 * each byte changed, cut at each length, or with a byte left over; damaged states and dictionaries; and random files. What a load must come to
 * is worked out in files.h.
 */
#include <stdio.h>

#include "checks.h"
#include "files.h"
#include "guarded.h"
#include "randoms.h"
#include "segments.h"

enum { BELOW_RANGE = 0x06090032, ABOVE_RANGE = 0x06090031, TOO_MANY_BITS = 0x06040042 };
enum { NMT_START = 0x01, NMT_STOP = 0x02, NMT_PRE_OPERATIONAL = 0x80 };

#define COUNT(array) ((uint32_t)(sizeof(array) / sizeof((array)[0])))

/* ---- files */

static const struct entry plain[] = {
    {0x1017, 0, 2, 500}, {0x6067, 0, 4, 50}, {0x6068, 0, 2, 20}, {0x607D, 1, 4, (uint32_t)-200000}, {0x607D, 2, 4, 150000},
    {0x6081, 0, 4, 80000}, {0x6083, 0, 4, 400000}, {0x6084, 0, 4, 300000}, {0x6060, 0, 1, 1}, {0x60FF, 0, 4, (uint32_t)-2500}};
/* transmit PDO 3 carries position and velocity at each SYNC, receive PDO 4 mode and velocity */
static const struct entry remap[] = {
    {0x1802, 1, 4, 0xC0000385}, {0x1A02, 0, 1, 0}, {0x1A02, 1, 4, 0x60640020}, {0x1A02, 2, 4, 0x606C0020}, {0x1A02, 0, 1, 2},
    {0x1802, 2, 1, 1}, {0x1802, 1, 4, 0x40000385}, {0x1403, 1, 4, 0x80000505}, {0x1603, 0, 1, 0}, {0x1603, 1, 4, 0x60600008},
    {0x1603, 2, 4, 0x60FF0020}, {0x1603, 0, 1, 2}, {0x1403, 1, 4, 0x00000505}};
static const struct entry limits[] = {
    {0x607D, 1, 4, 100}, {0x607D, 2, 4, 200}, {0x607D, 1, 4, 200}, {0x607D, 1, 4, (uint32_t)-5}, {0x607D, 2, 4, (uint32_t)-5}};
static const struct entry missing = {0x6042, 0, 2, 0}, control_entry = {CONTROL_WORD, 3, 0, 0}, velocity = {0x6081, 0, 4, 5};

static void make(struct file *f, const struct entry *entries, uint32_t count)
{
    no_entries(f);
    add_all(f, entries, count);
}

/* ---- a load against what it must come to */

static const uint32_t codes[] = {NO_OBJECT, NO_SUBINDEX, NO_WRITING, TOO_LONG, TOO_SHORT, NOT_NOW, BELOW_RANGE, ABOVE_RANGE, BAD_VALUE,
                                 NOT_COMPATIBLE, NOT_MAPPABLE, TOO_MANY_BITS};
/* What was met so far: refusals by number, abort codes by their place in the list, failed entries by number, 9 for all above it. */
static uint32_t refusals_met, codes_met, entries_met;
enum { ALL_CODES = (1 << sizeof codes / sizeof codes[0]) - 1, ENTRIES_1_TO_9 = 0x3FE };
enum { REFUSALS_OF_FILES = 1 << 0 | 1 << 9 | 1 << 10 | 1 << 11 | 1 << 12 | 1 << 13 | 1 << 14 };

static void note(uint64_t answer)
{
    uint32_t entry = cendurak_load_entry(answer);

    refusals_met |= 1u << cendurak_load_refusal(answer);
    entries_met |= 1u << (entry < 9 ? entry : 9);
    for (uint32_t i = 0; i < COUNT(codes); i++)
        codes_met |= (uint32_t)(codes[i] == cendurak_load_abort_code(answer)) << i;
}

/* The answer is the right one, state and dictionary are as they should be, and output, file and all guards stay. */
static int goes_right(struct bench *b, struct file *f)
{
    static struct bench wanted;
    static struct file kept;

    wanted = *b;
    memcpy(kept.bytes, f->bytes, GUARD + f->length + GUARD);
    kept.length = f->length;
    uint64_t right = wanted_load(&wanted, f);
    note(right);
    return load(b, f) == right && are_same(b, &wanted) && are_guarded(b) && is_same_file(f, &kept);
}

/* It also answers this very number. Where that is a refusal nothing changes. */
static int answers(struct bench *b, struct file *f, uint64_t number)
{
    static struct bench start, twin;

    start = twin = *b;
    return goes_right(b, f) && load(&twin, f) == number && (number == 0 || are_same(b, &start));
}

/* ---- numbers */

/* One entry behind two good ones. */
static const struct {
    struct entry last;
    uint64_t number;
    const char *name;
} numbered[] = {
    {{0x6081, 0, 4, 7}, 0, "all are taken"},
    {{0x6042, 0, 2, 0}, 0x000E000306020000, "no object"},
    {{0x6042, 0, 0, 0}, 0x000E000306020000, "no object is told before a size of 0"},
    {{0x607D, 3, 4, 0}, 0x000E000306090011, "no subindex"},
    {{0x1008, 1, 9, 0}, 0x000E000306090011, "the device name has no subindex 1"},
    {{0x1008, 0, 4, 0}, 0x000E000306010002, "the device name"},
    {{0x1000, 0, 4, 0x00020192}, 0x000E000306010002, "a constant, with the value that it has"},
    {{0x6041, 0, 5, 0}, 0x000E000306010002, "a status word is told before a size of 5"},
    {{0x6081, 0, 5, 0}, 0x000E000306070012, "five bytes of four"},
    {{0x6081, 0, 200, 0}, 0x000E000306070012, "200 bytes of four"},
    {{0x6060, 0, 2, 1}, 0x000E000306070012, "two bytes of one"},
    {{0x6060, 0, 3, 1}, 0x000E000306070012, "three bytes of one"},
    {{0x6081, 0, 3, 1}, 0x000E000306070013, "three bytes of four"},
    {{0x6081, 0, 0, 0}, 0x000E000306070013, "no byte of four"},
    {{0x6060, 0, 0, 0}, 0x000E000306070013, "no byte of one"},
    {{0x1A00, 1, 3, 0}, 0x000E000306070013, "too short is told before the wrong time"},
    {{0x1A00, 1, 4, 0}, 0x000E000308000022, "a mapping of a valid PDO"},
    {{0x1A00, 0, 1, 9}, 0x000E000308000022, "the wrong time is told before the range"},
    {{0x6083, 0, 4, 0}, 0x000E000306090032, "below the range"},
    {{0x6067, 0, 4, 0x80000000}, 0x000E000306090031, "above the range"},
    {{0x6060, 0, 1, 7}, 0x000E000306090030, "a mode that it does not have"},
    {{0x1400, 2, 1, 241}, 0x000E000306090030, "a transmission type that it does not have"},
    {{0x1400, 1, 4, 0x185}, 0x000E000306090030, "an identifier of another PDO"},
    {{0x607D, 1, 4, 11}, 0x000E000306040043, "a minimum above the maximum of the entry before"},
    {{0x607D, 2, 4, (uint32_t)-11}, 0x000E000306040043, "a maximum below the minimum of the entry before"},
    {{CONTROL_WORD, 0, 2, 6}, 0x000D000000000000, "a control word"},
    {{CONTROL_WORD, 1, 0, 0}, 0x000D000000000000, "a control word with subindex 1, and no byte"},
    {{CONTROL_WORD, 255, 9, 0}, 0x000D000000000000, "a control word with subindex 255, and nine bytes"}};

static void numbers(void)
{
    static struct bench b;
    static struct file f;
    static const struct entry before[] = {{0x607D, 1, 4, (uint32_t)-10}, {0x607D, 2, 4, 10}};

    for (uint32_t i = 0; i < COUNT(numbered); i++) {
        started(&b);
        make(&f, before, COUNT(before));
        add(&f, numbered[i].last);
        check(answers(&b, &f, numbered[i].number), numbered[i].name);
    }
    check(load_of(14, 3, 0x06090030) == 0x000E000306090030 && cendurak_load_refusal(0x000E000306090030) == 14
              && cendurak_load_entry(0x000E000306090030) == 3 && cendurak_load_abort_code(0x000E000306090030) == 0x06090030,
          "the parts of an answer");
}

/* A count and its words, of a PDO that is not valid any more, and what is wrong with one. */
static void mapping_numbers(void)
{
    static struct bench b;
    static struct file f;
    static const struct entry before[] = {{0x1803, 1, 4, 0xC0000485}, {0x1A03, 0, 1, 0}, {0x1A03, 1, 4, 0x60640020}, {0x1A03, 2, 4, 0x606C0020}};
    static const struct {
        struct entry last;
        uint64_t number;
        const char *name;
    } cases[] = {{{0x1A03, 0, 1, 2}, 0, "64 bits"},
                 {{0x1A03, 0, 1, 3}, 0x000E000506040041, "a zero among the first three"},
                 {{0x1A03, 0, 1, 9}, 0x000E000506090031, "nine objects"},
                 {{0x1A03, 3, 4, 0x60420010}, 0x000E000506020000, "a mapped object that is not there"},
                 {{0x1A03, 3, 4, 0x607D0320}, 0x000E000506090011, "a mapped subindex that is not there"},
                 {{0x1A03, 3, 4, 0x60400010}, 0x000E000506040041, "an object of the other direction"},
                 {{0x1A03, 3, 4, 0x60640010}, 0x000E000506040041, "an object with another length"}};

    for (uint32_t i = 0; i < COUNT(cases); i++) {
        started(&b);
        make(&f, before, COUNT(before));
        add(&f, cases[i].last);
        check(answers(&b, &f, cases[i].number), cases[i].name);
    }
    started(&b);
    make(&f, before, COUNT(before));
    add(&f, (struct entry){0x1A03, 3, 4, 0x60610008});
    add(&f, (struct entry){0x1A03, 0, 1, 3});
    check(answers(&b, &f, 0x000E000606040042), "72 bits, at the sixth entry");
}

/* ---- refusals, lowest first. Each file also has what the higher refusals are for. */

enum { GOOD, ABORTING, WITH_CONTROL_WORD, LEFT_OVER, CUT, OVERFULL, UNDER_FOUR, KINDS };
static const uint32_t refusal_of_kind[KINDS] = {
    CENDURAK_ACCEPTED, CENDURAK_ENTRY_ABORTED, CENDURAK_CONTROL_WORD_ENTRY, CENDURAK_FILE_MISFIT, CENDURAK_FILE_MISFIT,
    CENDURAK_TOO_MANY_ENTRIES, CENDURAK_FILE_TOO_SHORT};

static void make_kind(struct file *f, uint32_t kind)
{
    make(f, plain, COUNT(plain));
    if (kind >= ABORTING)
        add(f, missing);
    if (kind >= WITH_CONTROL_WORD)
        add(f, control_entry);
    if (kind == LEFT_OVER)
        add(f, velocity), put_word(content(f), count_of(f) - 1);
    if (kind == CUT)
        end_at(f, f->length - 1);
    if (kind == OVERFULL)
        put_word(content(f), MOST_ENTRIES + 1);
    if (kind == UNDER_FOUR)
        end_at(f, COUNT_SIZE - 1);
}

/* What is wrong with the node, as bits. */
enum { IN_OPERATIONAL = 1, NOT_A_STATE = 2, SHORT_STATE = 4, LONG_DICTIONARY = 8, FAULTS = 16 };

static void make_faulty(struct bench *b, uint32_t faults)
{
    started(b);
    if (faults & IN_OPERATIONAL)
        nmt(b, NMT_START);
    if (faults & NOT_A_STATE)
        lent(&b->state)[CENDURAK_STATE_AT_NMT] = 3;
    if (faults & SHORT_STATE)
        b->state.length--, b->state.bytes[GUARD + b->state.length] = GUARD_BYTE;
    if (faults & LONG_DICTIONARY)
        lent(&b->dict)[b->dict.length] = 0, b->dict.length++;
}

static uint32_t refusal_of_faults(uint32_t faults, uint32_t of_file)
{
    if (faults & LONG_DICTIONARY)
        return CENDURAK_BAD_DICT_LEN;
    if (faults & (SHORT_STATE | NOT_A_STATE))
        return CENDURAK_NOT_SOUND;
    return faults & IN_OPERATIONAL ? CENDURAK_WRONG_STATE : of_file;
}

static void lowest_first(void)
{
    static struct bench b;
    static struct file f;

    for (uint32_t i = 0; i < KINDS * FAULTS; i++) {
        uint32_t kind = i / FAULTS, refusal = refusal_of_faults(i % FAULTS, refusal_of_kind[kind]);
        int names_entry = refusal == CENDURAK_ENTRY_ABORTED;
        make_faulty(&b, i % FAULTS);
        make_kind(&f, kind);
        check(answers(&b, &f, load_of(refusal, names_entry ? COUNT(plain) + 1 : 0, names_entry ? NO_OBJECT : 0)), "the lowest refusal");
    }
}

/* Lengths of both buffers around the right ones, and none. */
static void other_lengths(void)
{
    static struct bench b;
    static struct file f;
    static const uint32_t of_dict[] = {0, 1, CENDURAK_DICT_LEN - 1, CENDURAK_DICT_LEN + 1, MOST_BYTES};
    static const uint32_t of_state[] = {0, 1, CENDURAK_STATE_LEN - 1, CENDURAK_STATE_LEN + 1, MOST_BYTES};

    make(&f, plain, COUNT(plain));
    for (uint32_t i = 0; i < COUNT(of_dict); i++) {
        started(&b);
        fill(&b.dict, of_dict[i], 0);
        check(answers(&b, &f, load_of(CENDURAK_BAD_DICT_LEN, 0, 0)), "a dictionary of another length");
        started(&b);
        fill(&b.state, of_state[i], 0);
        check(answers(&b, &f, load_of(CENDURAK_NOT_SOUND, 0, 0)), "a state of another length");
    }
    fill(&b.state, CENDURAK_STATE_LEN, 0);
    fill(&b.dict, CENDURAK_DICT_LEN, 0);
    check(answers(&b, &f, load_of(CENDURAK_NOT_SOUND, 0, 0)), "before power-up");
}

/* ---- where a load is served */

/* The node in each drive state, in Pre-operational. */
static void in_drive(struct bench *b, uint32_t drive)
{
    static const uint8_t fault[3] = {0x10, 0x23, 0x02};
    static const uint16_t words[] = {0x06, 0x07, 0x0F, 0x02}; /* to Ready, Switched on, Operation enabled, Quick stop active */

    fresh(b);
    if (drive >= CENDURAK_DRIVE_SWITCH_ON_DISABLED)
        event(b, CENDURAK_STARTED, 0, 0);
    for (uint32_t i = 0; i < COUNT(words) && drive >= CENDURAK_DRIVE_READY_TO_SWITCH_ON + i; i++)
        control(b, words[i]);
    if (drive >= CENDURAK_DRIVE_FAULT_REACTION_ACTIVE)
        event(b, CENDURAK_FAULT, fault, sizeof fault);
    if (drive == CENDURAK_DRIVE_FAULT)
        event(b, CENDURAK_REACTION_DONE, 0, 0);
}

static void states(void)
{
    static struct bench b;
    static struct file f;
    static const uint8_t commands[] = {NMT_PRE_OPERATIONAL, NMT_START, NMT_STOP};

    make(&f, plain, COUNT(plain));
    for (uint32_t i = 0; i < COUNT(commands); i++)
        for (uint32_t drive = CENDURAK_DRIVE_NOT_READY; drive <= CENDURAK_DRIVE_FAULT; drive++) {
            in_drive(&b, drive);
            check(cendurak_drive(lent(&b.state)) == drive, "a drive state");
            nmt(&b, commands[i]);
            int is_served = commands[i] == NMT_PRE_OPERATIONAL && drive <= CENDURAK_DRIVE_SWITCH_ON_DISABLED;
            check(answers(&b, &f, load_of(is_served ? CENDURAK_ACCEPTED : CENDURAK_WRONG_STATE, 0, 0)), "a load in each state");
        }
    started(&b);
    nmt(&b, NMT_START);
    nmt(&b, NMT_PRE_OPERATIONAL);
    check(answers(&b, &f, 0), "served again behind Operational");
}

/* ---- what is written, and what is not */

static void all_or_nothing(void)
{
    static struct bench b, start;
    static struct file f;

    started(&b);
    make(&f, plain, COUNT(plain));
    check(answers(&b, &f, 0), "a configuration");
    check(cendurak_word(lent(&b.dict) + CENDURAK_DICT_AT_ACCELERATION) == 400000 && cendurak_window_time(lent(&b.dict)) == 20
              && cendurak_target_velocity(lent(&b.dict)) == -2500,
          "what it wrote");
    check(cendurak_mode(lent(&b.state)) == 1 && lent(&b.dict)[CENDURAK_DICT_AT_MODE_DISPLAY] == 1 && status(&b) == 0x0250, "6060h acts at once");
    start = b;
    for (uint32_t i = 0; i < COUNT(remap); i++) {
        make(&f, remap, i);
        add(&f, missing);
        check(answers(&b, &f, load_of(CENDURAK_ENTRY_ABORTED, i + 1, NO_OBJECT)) && are_same(&b, &start), "nothing of what went before it");
    }
    make(&f, limits, COUNT(limits));
    check(answers(&b, &f, 0), "each entry sees those before it");
}

static void no_entry(void)
{
    static struct bench b, start;
    static struct file f;

    started(&b);
    start = b;
    no_entries(&f);
    check(answers(&b, &f, 0) && are_same(&b, &start), "a file of no entries changes nothing");
    for (uint32_t length = 0; length < COUNT_SIZE; length++) {
        end_at(&f, length);
        check(answers(&b, &f, load_of(CENDURAK_FILE_TOO_SHORT, 0, 0)), "under four bytes");
    }
    no_entries(&f);
    content(&f)[COUNT_SIZE] = 0;
    end_at(&f, COUNT_SIZE + 1);
    check(answers(&b, &f, load_of(CENDURAK_FILE_MISFIT, 0, 0)), "no entries, and a byte left over");
}

static void most_entries(void)
{
    static struct bench b;
    static struct file f;

    started(&b);
    no_entries(&f);
    for (uint32_t i = 1; i <= MOST_ENTRIES; i++)
        add(&f, (struct entry){0x6081, 0, 4, i});
    check(answers(&b, &f, 0) && f.length == COUNT_SIZE + MOST_ENTRIES * (HEAD_SIZE + 4), "512 entries of four bytes");
    sdo(&b, 0x40, 0x6081, 0, 0);
    check(cendurak_word(cendurak_data(lent(&b.out), 0) + 4) == MOST_ENTRIES, "the last of them stands");
    add(&f, velocity);
    check(answers(&b, &f, load_of(CENDURAK_TOO_MANY_ENTRIES, 0, 0)), "513 entries");
    no_entries(&f);
    for (uint32_t i = 1; i < MOST_ENTRIES; i++)
        add(&f, velocity);
    add(&f, missing);
    check(answers(&b, &f, 0x000E020006020000), "the 512th of 512 entries");
    no_entries(&f);
    for (uint32_t i = 1; i < MOST_ENTRIES; i++)
        add(&f, velocity);
    add(&f, control_entry);
    check(answers(&b, &f, load_of(CENDURAK_CONTROL_WORD_ENTRY, 0, 0)), "a control word at the 512th");
}

/* ---- sizes and counts that would wrap */

static void hostile_sizes(void)
{
    static struct bench b;
    static struct file f;
    uint32_t wrong = 0;

    started(&b);
    make(&f, plain, COUNT(plain));
    for (uint32_t i = 0; i < 600; i++) {
        /* around 0, around 2^32, where the place behind the entry would wrap to one in the file, and around each power of two */
        uint32_t size = i < 200 ? i : i < 400 ? 0u - (i - 199) : (1u << (i - 400) % 32) + (i - 400) / 32 - 3;
        for (uint32_t entry = 0; entry < 2; entry++) {
            uint32_t at = COUNT_SIZE + 3 + entry * (HEAD_SIZE + 2), kept = cendurak_word(content(&f) + at);
            put_word(content(&f) + at, size);
            wrong += !goes_right(&b, &f);
            put_word(content(&f) + at, kept);
        }
    }
    check(wrong == 0, "sizes that the file does not have");
}

/* With 32 bits the first entry would end at the file's start, and the second, whose head begins with the count, where the file does. */
static void wraps_to_the_count(void)
{
    static struct bench b;
    static struct file f;

    started(&b);
    make(&f, &(struct entry){0x0001, 0, 252, 0}, 1);
    put_word(content(&f), 2);
    put_word(content(&f) + COUNT_SIZE + 3, 0u - (COUNT_SIZE + HEAD_SIZE));
    check(f.length == HEAD_SIZE + 0x0001 * 256 && answers(&b, &f, load_of(CENDURAK_FILE_MISFIT, 0, 0)), "a size that leads back to the count");
}

static void hostile_counts(void)
{
    static struct bench b;
    static struct file f;
    uint32_t wrong = 0;

    make(&f, plain, COUNT(plain));
    for (uint32_t i = 0; i < 1800; i++) {
        uint32_t count = i < 600 ? i : i < 1200 ? 0u - (i - 599) : (1u << (i - 1200) % 32) + (i - 1200) / 32 - 3;
        started(&b);
        put_word(content(&f), count);
        uint32_t refusal = count == COUNT(plain) ? CENDURAK_ACCEPTED : count > MOST_ENTRIES ? CENDURAK_TOO_MANY_ENTRIES : CENDURAK_FILE_MISFIT;
        wrong += !answers(&b, &f, load_of(refusal, 0, 0));
    }
    check(wrong == 0, "counts that the file does not have");
}

/* ---- what goes on behind a load */

/* The device name's segments from that one on. */
static int reads_on(struct bench *b, uint32_t from)
{
    static const uint8_t segments[3][8] = {
        {0x00, 'C', 'e', 'n', 'd', 'u', 'r', 'a'}, {0x10, 'k', ' ', 's', 'e', 'r', 'v', 'o'}, {0x05, ' ', 'n', 'o', 'd', 'e', 0, 0}};

    for (uint32_t i = from; i < 3; i++) {
        sdo(b, (uint8_t)(0x60 + (i % 2 ? TOGGLE_BIT : 0)), 0, 0, 0);
        if (!is_reply(b, segments[i]))
            return 0;
    }
    return 1;
}

static void uploads_go_on(struct file *f, const char *name)
{
    static struct bench b;

    for (uint32_t from = 0; from < 3; from++) {
        started(&b);
        sdo(&b, 0x40, 0x1008, 0, 0);
        for (uint32_t i = 0; i < from; i++)
            sdo(&b, (uint8_t)(0x60 + (i % 2 ? TOGGLE_BIT : 0)), 0, 0, 0);
        struct transfer running = transfer_of(lent(&b.state));
        int is_right = goes_right(&b, f);
        struct transfer now = transfer_of(lent(&b.state));
        check(is_right && memcmp(&running, &now, sizeof now) == 0 && running.kind == UPLOADING, name);
        check(reads_on(&b, from), name);
    }
}

/* A target in two segments, the load between them; and one of too many bytes, which is refused at its end as without a load. */
static void downloads_go_on(struct file *f, const char *name)
{
    static struct bench b;
    static const uint8_t bytes[7] = {0x11, 0x22, 0x33, 0x44, 0x55}, target[3] = {0x7A, 0x60, 0x00};

    for (uint32_t before = 0; before <= 5; before++) {
        started(&b);
        sdo(&b, 0x21, 0x607A, 0, 4);
        send_segment(&b, 0, bytes, before, 0);
        struct transfer running = transfer_of(lent(&b.state));
        int is_right = goes_right(&b, f);
        struct transfer now = transfer_of(lent(&b.state));
        check(is_right && memcmp(&running, &now, sizeof now) == 0 && running.kind == DOWNLOADING, name);
        send_segment(&b, 1, bytes + before, before < 4 ? 4 - before : 0, 1);
        check(before <= 4 ? is_taken(&b, 1) && target_position(&b) == 0x44332211 : is_abort(&b, target, TOO_LONG), name);
    }
}

static void transfers_go_on(void)
{
    static struct file f;
    static const struct entry same_object[] = {{0x607A, 0, 4, 77}, {0x6060, 0, 1, 1}};

    make(&f, plain, COUNT(plain));
    uploads_go_on(&f, "an upload goes on behind a load");
    downloads_go_on(&f, "a download goes on behind a load");
    make(&f, same_object, COUNT(same_object));
    downloads_go_on(&f, "a download goes on behind a load of its object");
    add(&f, (struct entry){0x607A, 0, 5, 0});
    uploads_go_on(&f, "an upload goes on behind a refused load");
    downloads_go_on(&f, "a download goes on behind a refused load");
}

/* How many ticks it takes to the next heartbeat; 0 where none comes in a hundred. */
static uint32_t ticks_to_heartbeat(struct bench *b)
{
    static const uint8_t pre_operational = 0x7F;

    for (uint32_t i = 1; i <= 100; i++)
        if (event(b, CENDURAK_TICK, 0, 0) == 1 && sent(b, 0, 0x705, &pre_operational, 1))
            return i;
    return 0;
}

/* A heartbeat each ten ticks, four of which went by; then a file is loaded, with that answer. */
static uint32_t heartbeat_behind(const struct entry *entries, uint32_t count, uint64_t number)
{
    static struct bench b;
    static struct file f;

    started(&b);
    sdo(&b, 0x2B, 0x1017, 0, 10);
    for (uint32_t i = 0; i < 4; i++)
        event(&b, CENDURAK_TICK, 0, 0);
    make(&f, entries, count);
    check(answers(&b, &f, number), "a load between two heartbeats");
    return ticks_to_heartbeat(&b);
}

static void heartbeat(void)
{
    static const struct entry same[] = {{0x1017, 0, 2, 10}}, shorter[] = {{0x1017, 0, 2, 3}}, none[] = {{0x1017, 0, 2, 0}};
    static const struct entry other[] = {{0x6081, 0, 4, 5}}, refused[] = {{0x1017, 0, 2, 10}, {0x6042, 0, 2, 0}};
    static const struct entry there_and_back[] = {{0x1017, 0, 2, 0}, {0x6060, 0, 1, 1}, {0x1017, 0, 2, 10}};

    check(heartbeat_behind(same, COUNT(same), 0) == 10, "1017h restarts the heartbeat's count");
    check(heartbeat_behind(shorter, COUNT(shorter), 0) == 3, "a shorter heartbeat time");
    check(heartbeat_behind(none, COUNT(none), 0) == 0, "no heartbeat any more");
    check(heartbeat_behind(there_and_back, COUNT(there_and_back), 0) == 10, "no heartbeat, and then the same time");
    check(heartbeat_behind(other, COUNT(other), 0) == 6, "a file without 1017h lets the count go on");
    check(heartbeat_behind(refused, COUNT(refused), 0x000E000206020000) == 6, "a refused file lets the count go on");
}

/* Position and velocity by SYNC, and the mode that a receive PDO brings. */
static void process_data(void)
{
    static struct bench b;
    static struct file f;
    static const uint8_t measured[8] = {0xE8, 0x03, 0, 0, 0x2C, 0x01, 0, 0}, mode_and_velocity[5] = {3, 0x10, 0x27, 0, 0};

    started(&b);
    make(&f, remap, COUNT(remap));
    check(answers(&b, &f, 0), "two PDOs mapped anew");
    nmt(&b, NMT_START);
    check(cendurak_frames(b.answer) == 3, "entering Operational sends three transmit PDOs, and not the one on SYNC");
    event(&b, CENDURAK_FEEDBACK, measured, 8);
    frame(&b, 0x80, 0, 0);
    check(b.answer == 1 && sent(&b, 0, 0x385, measured, 8), "SYNC sends position and velocity");
    frame(&b, 0x505, mode_and_velocity, 5);
    check(cendurak_mode(lent(&b.state)) == 3 && cendurak_target_velocity(lent(&b.dict)) == 10000, "mode and velocity by a receive PDO");
}

/* ---- damage */

/* Each bit of a file turned, each byte put to each of these values; then the file with a byte left over, and cut at each length. How much of it
 * is wrong. */
static uint32_t wrong_with_damage(const struct bench *start, struct file *f)
{
    static struct bench b;
    static const uint8_t values[] = {0x00, 0x01, 0x02, 0x04, 0x05, 0x07, 0x40, 0x60, 0x7F, 0x80, 0xC0, 0xFE, 0xFF};
    uint32_t whole = f->length, wrong = 0;

    for (uint32_t i = 0; i < whole * (8 + COUNT(values)); i++) {
        uint32_t way = i % (8 + COUNT(values)), at = i / (8 + COUNT(values));
        uint8_t kept = content(f)[at];
        b = *start;
        content(f)[at] = way < 8 ? (uint8_t)(kept ^ 1u << way) : values[way - 8];
        wrong += !goes_right(&b, f);
        content(f)[at] = kept;
    }
    for (uint32_t i = 0; i < 256; i++) {
        b = *start;
        content(f)[whole] = (uint8_t)i;
        end_at(f, whole + 1);
        wrong += !answers(&b, f, load_of(CENDURAK_FILE_MISFIT, 0, 0));
    }
    for (uint32_t length = whole; length-- > 0;) {
        b = *start;
        end_at(f, length);
        wrong += !answers(&b, f, load_of(length < COUNT_SIZE ? CENDURAK_FILE_TOO_SHORT : CENDURAK_FILE_MISFIT, 0, 0));
    }
    return wrong;
}

static void damaged_files(void)
{
    static struct bench b;
    static struct file f;

    started(&b);
    make(&f, plain, COUNT(plain));
    check(wrong_with_damage(&b, &f) == 0, "each byte of a configuration");
    make(&f, remap, COUNT(remap));
    check(wrong_with_damage(&b, &f) == 0, "each byte of two mappings");
    make(&f, limits, COUNT(limits));
    check(wrong_with_damage(&b, &f) == 0, "each byte of limits");
    fresh(&b);
    sdo(&b, 0x40, 0x1008, 0, 0);
    make(&f, remap, COUNT(remap));
    check(wrong_with_damage(&b, &f) == 0, "each byte of two mappings, Not ready, with a transfer");
}

/* Each byte of one to all its values. */
static void every_value(void)
{
    static struct bench start, b;
    static struct file f;
    static const struct entry few[] = {{0x1400, 1, 4, 0x80000205}, {0x1600, 0, 1, 0}, {0x1600, 1, 4, 0x60600008}, {0x1600, 0, 1, 1}};
    uint32_t wrong = 0;

    started(&start);
    make(&f, few, COUNT(few));
    for (uint32_t i = 0; i < 256 * f.length; i++) {
        uint8_t kept = content(&f)[i / 256];
        b = start;
        content(&f)[i / 256] = (uint8_t)i;
        wrong += !goes_right(&b, &f);
        content(&f)[i / 256] = kept;
    }
    check(wrong == 0, "each byte of a mapping over its values");
}

/* Each byte of state and dictionary, with each bit turned: what is no state or not sound is refused with 4, and else the load goes right. */
static void damaged_nodes(void)
{
    static struct bench start, b;
    static struct file f;
    uint32_t wrong = 0;

    in_drive(&start, CENDURAK_DRIVE_SWITCH_ON_DISABLED);
    sdo(&start, 0x2B, 0x1017, 0, 10);
    make(&f, plain, COUNT(plain));
    for (uint32_t i = 0; i < 8 * (CENDURAK_STATE_LEN + CENDURAK_DICT_LEN); i++) {
        uint32_t at = i / 8;
        b = start;
        uint8_t *byte = at < CENDURAK_STATE_LEN ? lent(&b.state) + at : lent(&b.dict) + (at - CENDURAK_STATE_LEN);
        *byte ^= (uint8_t)(1u << i % 8);
        wrong += !goes_right(&b, &f);
    }
    check(wrong == 0, "each byte of state and dictionary");
    check((refusals_met & 1u << CENDURAK_NOT_SOUND) != 0, "some of them are not sound");
}

/* ---- random files */

enum { RUNS = 4000, LOADS_OF_A_RUN = 24 };

static const struct entry drive_entries[] = {
    {0x1017, 0, 2, 0}, {0x6060, 0, 1, 0}, {0x6067, 0, 4, 0}, {0x6068, 0, 2, 0}, {0x606D, 0, 2, 0}, {0x606F, 0, 2, 0}, {0x607A, 0, 4, 0},
    {0x607D, 1, 4, 0}, {0x607D, 2, 4, 0}, {0x6081, 0, 4, 0}, {0x6083, 0, 4, 0}, {0x6084, 0, 4, 0}, {0x60FF, 0, 4, 0}, {0x6041, 0, 2, 0},
    {0x1000, 0, 4, 0}, {0x1008, 0, 4, 0}, {0x6042, 0, 2, 0}, {0x607D, 3, 4, 0}, {0xFFFF, 255, 4, 0}, {CONTROL_WORD, 0, 2, 6}};
static const uint32_t words[] = {0, 0x60400010, 0x60600008, 0x607A0020, 0x60810020, 0x60830020, 0x60840020, 0x60FF0020, 0x10010008, 0x603F0010,
                                 0x60410010, 0x60610008, 0x60640020, 0x606C0020, 0x60640010, 0x10080008, 0x60420010, 0x607D0320, 0x60670020};
static const uint32_t values[] = {0, 1, 2, 3, 5, 8, 9, 240, 241, 254, 255, 65535, 0x7FFFFFFF, 0x80000000, 0x80000001, 0xFFFFFFFF, 100, 1000};

static uint32_t one_of(const uint32_t *list, uint32_t count)
{
    return list[random_below(count)];
}

static uint32_t random_word(void)
{
    return 65536 * random_below(65536) + random_below(65536);
}

/* A PDO's record: 1400h, and 400h on for transmit. */
static uint16_t random_pdo(void)
{
    return (uint16_t)(0x1400 + 0x400 * random_below(2) + random_below(4));
}

static uint32_t random_identifier(uint16_t pdo)
{
    uint32_t transmit = pdo >= 0x1800, usual = (transmit ? 0x185u : 0x205u) + 0x100u * (pdo & 3u);
    uint32_t bits = random_below(4) ? usual : 0x17E + random_below(0x405);

    bits += random_below(2) ? 0x80000000u : 0;
    return (transmit != (random_below(16) == 0) ? 0x40000000u : 0) + bits + (random_below(16) == 0 ? 0x00010000u : 0);
}

/* One entry of a PDO's records, by chance right or wrong. */
static void add_of_pdo(struct file *f)
{
    uint16_t pdo = random_pdo();

    switch (random_below(4)) {
    case 0: add(f, (struct entry){pdo, 1, 4, random_identifier(pdo)}); break;
    case 1: add(f, (struct entry){pdo, 2, 1, one_of(values, COUNT(values))}); break;
    case 2: add(f, (struct entry){(uint16_t)(pdo + 0x200), 0, 1, random_below(10)}); break;
    default: add(f, (struct entry){(uint16_t)(pdo + 0x200), (uint8_t)(1 + random_below(9)), 4, one_of(words, COUNT(words))}); break;
    }
}

/* A PDO mapped anew with all its steps; the words are of its direction. */
static void add_mapping(struct file *f)
{
    uint16_t pdo = random_pdo(), mapping = (uint16_t)(pdo + 0x200);
    uint32_t transmit = pdo >= 0x1800 ? 0x40000000u : 0, identifier = (transmit ? 0x185u : 0x205u) + 0x100u * (pdo & 3u);
    uint32_t count = random_below(5);

    add(f, (struct entry){pdo, 1, 4, 0x80000000u + transmit + identifier});
    add(f, (struct entry){mapping, 0, 1, 0});
    for (uint8_t k = 1; k <= count; k++)
        add(f, (struct entry){mapping, k, 4, words[transmit ? 8 + random_below(6) : 1 + random_below(7)]});
    add(f, (struct entry){mapping, 0, 1, count});
    if (random_below(4) != 0)
        add(f, (struct entry){pdo, 1, 4, transmit + identifier});
}

/* One entry of another object; the right size most often. */
static void add_of_drive(struct file *f)
{
    struct entry e = drive_entries[random_below(COUNT(drive_entries) - (random_below(4) ? 7 : random_below(8) ? 1 : 0))];

    e.value = random_below(2) ? one_of(values, COUNT(values)) : random_word();
    if (e.index == 0x6060 && random_below(8) != 0)
        e.value = random_below(3) ? 1 : 3;
    if (random_below(32) == 0)
        e.size = random_below(9);
    add(f, e);
}

static void damage(struct file *f)
{
    uint32_t at = random_below(f->length);

    switch (random_below(16)) {
    case 0: content(f)[at] = (uint8_t)random_below(256); break;
    case 1: content(f)[at] ^= (uint8_t)(1u << random_below(8)); break;
    case 2: end_at(f, at); break;
    case 3: content(f)[f->length] = (uint8_t)at, end_at(f, f->length + 1); break;
    case 4: put_word(content(f), random_below(2) ? random_below(514) : 0u - random_below(20)); break;
    case 5: put_word(content(f), count_of(f) + random_below(3) - 1); break;
    case 6: if (f->length > 11) put_word(content(f) + COUNT_SIZE + 3, random_below(2) ? 0u - random_below(64) : random_below(16)); break;
    default: break;
    }
}

static void random_file(struct file *f)
{
    no_entries(f);
    for (uint32_t i = random_below(random_below(8) ? 6 : 80); i > 0; i--)
        switch (random_below(4)) {
        case 0: add_of_pdo(f); break;
        case 1: add_mapping(f); break;
        default: add_of_drive(f); break;
        }
    if (random_below(40) == 0)
        while (count_of(f) < 511 + random_below(3))
            add(f, velocity);
    damage(f);
}

/* What happens to the node between two loads. */
static void random_step(struct bench *b)
{
    static const uint8_t bytes[7] = {1, 2, 3, 4};

    switch (random_below(24)) {
    case 0: nmt(b, NMT_START); break;
    case 1: case 2: case 3: nmt(b, NMT_PRE_OPERATIONAL); break;
    case 4: control(b, random_below(16)); break;
    case 5: case 6: control(b, 0); break;
    case 7: sdo(b, 0x40, 0x1008, 0, 0); break;
    case 8: sdo(b, 0x20, 0x607A, 0, 0); break;
    case 9: case 10: send_segment(b, (uint8_t)random_below(2), bytes, random_below(5), (int)random_below(2)); break;
    case 11: event(b, CENDURAK_STARTED, 0, 0); break;
    case 12: nmt(b, random_below(8) ? 0x82 : NMT_STOP); break;
    default: event(b, CENDURAK_TICK, 0, 0); break;
    }
}

static void random_run(void)
{
    static struct bench b;
    static struct file f;
    uint32_t wrong = 0;

    seed = 6;
    refusals_met = codes_met = entries_met = 0;
    for (uint32_t run = 0; run < RUNS; run++) {
        fresh(&b);
        for (uint32_t i = 0; i < LOADS_OF_A_RUN; i++) {
            random_file(&f);
            wrong += !goes_right(&b, &f);
            random_step(&b);
        }
    }
    check(wrong == 0, "random files");
    check(refusals_met == REFUSALS_OF_FILES, "the random files met every refusal of a file");
    check(codes_met == ALL_CODES, "and every abort code");
    check((entries_met & ENTRIES_1_TO_9) == ENTRIES_1_TO_9, "at the first entries and far behind");
}

int main(void)
{
    numbers();
    mapping_numbers();
    lowest_first();
    other_lengths();
    states();
    all_or_nothing();
    no_entry();
    most_entries();
    hostile_sizes();
    wraps_to_the_count();
    hostile_counts();
    transfers_go_on();
    heartbeat();
    process_data();
    damaged_files();
    every_value();
    damaged_nodes();
    random_run();
    printf("%u passed, %u failed\n", passed, failed);
    return failed != 0;
}
