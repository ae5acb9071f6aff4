/*
 * Streams with loads among their records, which the bench program does not have: for tests/load, tools/dcf and tools/trace. A load is a record
 * of kind 4, whose payload is the file, of up to 65,535 bytes. The lines are those of the bench program; under the line of a load stand what it
 * answered (refusal, entry, abort code) and the dictionary after it, as in tests/load.
 */
#include "lines.h"
#include "records.h"

enum { LOAD = 4, MOST_FILE = 65535 };

static uint8_t file[MOST_FILE];

static void print_loaded(uint64_t loaded)
{
    printf("%u %u %08X\n", cendurak_load_refusal(loaded), cendurak_load_entry(loaded), cendurak_load_abort_code(loaded));
    for (uint32_t i = 0; i < CENDURAK_DICT_LEN; i++)
        printf("%02X", dict[i]);
    printf("\n");
}

/* The record's call, and its lines. */
static enum reading serve(struct record *record, unsigned long number)
{
    enum reading reading = read_payload(record);

    if (reading == RECORD)
        call_record(record);
    else
        answer = 256 * BAD_RECORD;
    print_call(number, cendurak_refusal(answer));
    print_frames();
    return reading;
}

static enum reading serve_load(const struct record *record, unsigned long number)
{
    uint64_t loaded;

    if (take(file, record->length) < record->length) {
        print_call(number, BAD_RECORD);
        return NO_RECORD;
    }
    loaded = cendurak_load(state, CENDURAK_STATE_LEN, dict, CENDURAK_DICT_LEN, record->length == 0 ? (const uint8_t *)0 : file, record->length);
    print_call(number, cendurak_load_refusal(loaded));
    print_loaded(loaded);
    return RECORD;
}

int main(void)
{
    struct record record;
    enum reading reading = RECORD;

    for (unsigned long number = 1; reading == RECORD; number++) {
        reading = read_head(&record);
        if (reading == AT_END)
            break;
        reading = reading == RECORD && record.kind == LOAD ? serve_load(&record, number) : serve(&record, number);
    }
    return 0;
}
