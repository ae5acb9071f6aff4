/*
 * Tests of the example firmware's own access to objects (examples/firmware/objects.c, node_request): what it reads is what an SDO of the bus reads,
 * object by object; what it writes is judged likewise; its replies stay off the bus; and a master's transfer by segments is left alone.
 */
#include <stdio.h>

#include "../../examples/firmware/objects.h"
#include "glue.h"

/* ---- reading */

/* The one reply to what was sent last; of zeros, where there is none. */
static const uint8_t *reply(void)
{
    static const uint8_t none[8];
    const uint8_t *data = none;

    forget();
    pass();
    for (uint32_t i = 0; i < bus.count; i++)
        if (bus.heard[i].identifier == SDO_REPLY)
            data = bus.heard[i].data;
    return data;
}

/* The segments that a master asks for, to the last one, or as long as there is room. */
static void read_segments(struct object_value *value)
{
    uint32_t toggle = 0, count;
    const uint8_t *segment;

    do {
        receive(SDO_REQUEST, 8, 0x60 + toggle, 0);
        segment = reply();
        count = 7 - (segment[0] >> 1 & 7u);
        memcpy(value->bytes + value->length, segment + 1, count);
        value->length += count;
        toggle ^= 0x10;
    } while ((segment[0] & 1) == 0 && value->length + 7 <= OBJECT_MOST_BYTES);
}

/* As a master reads it: the abort code, or 0 and the value. */
static uint32_t read_on_bus(uint32_t index, uint32_t subindex, struct object_value *value)
{
    const uint8_t *data;

    memset(value, 0, sizeof *value);
    read_object(index, subindex);
    data = reply();
    if (data[0] == 0x80)
        return cendurak_word(data + 4);
    if (data[0] == 0x41) {
        read_segments(value);
        return 0;
    }
    value->length = 4 - (data[0] >> 2 & 3u);
    memcpy(value->bytes, data + 4, value->length);
    value->number = cendurak_word(data + 4);
    return 0;
}

static bool is_same_value(const struct object_value *a, const struct object_value *b)
{
    return a->length == b->length && a->number == b->number && memcmp(a->bytes, b->bytes, sizeof a->bytes) == 0;
}

static uint32_t found;

/* Both ways to all subindices of an index, one behind the last among them. How many differ; a value that was not read has to stay as it was. */
static uint32_t differences(uint32_t index)
{
    static const struct object_value untouched = {.length = 77};
    uint32_t wrong = 0;

    for (uint32_t subindex = 0; subindex < 10; subindex++) {
        struct object_value ours = untouched, theirs;
        uint32_t outcome, wanted = read_on_bus(index, subindex, &theirs);
        forget();
        outcome = object_read(&node, (uint16_t)index, (uint8_t)subindex, &ours);
        found += outcome == OBJECT_DONE;
        wrong += outcome != wanted || !is_same_value(&ours, outcome == OBJECT_DONE ? &theirs : &untouched) || bus.count != 0;
    }
    return wrong;
}

static void every_object(void)
{
    uint32_t wrong = 0;

    start();
    inputs.position = -70000;
    inputs.velocity = 123456;
    pass();
    found = 0;
    for (uint32_t index = 0x1000; index <= 0x1A04; index++)
        wrong += differences(index);
    for (uint32_t index = 0x603F; index <= 0x6503; index++)
        wrong += differences(index);
    check(wrong == 0, "each object reads as on the bus, or is refused as there, and no reply is sent");
    check(found == 124, "all 123 entries were read, and the device name");
}

static void device_name(void)
{
    struct object_value name;

    start();
    check(object_read(&node, 0x1008, 0, &name) == OBJECT_DONE && name.length == 19 && memcmp(name.bytes, "Cendurak servo node", 19) == 0
              && name.number == 0,
          "the device name, by segments");
    check(bus.count == 0 && cendurak_transfer(node.state) == CENDURAK_TRANSFER_NONE, "no segment is sent, and no transfer left running");
}

/* ---- writing */

static uint32_t number_of(uint16_t index, uint8_t subindex)
{
    struct object_value value = {.number = 0xDEAD};

    object_read(&node, index, subindex, &value);
    return value.number;
}

/* In this order, on a node in Pre-operational: each is refused with its code, or taken. */
static void every_abort(void)
{
    static const struct {
        uint16_t index;
        uint8_t subindex;
        uint32_t value, size, outcome;
    } writes[] = {
        {0x2000, 0, 0, 4, 0x06020000},       {0x607D, 3, 0, 4, 0x06090011},          {0x1000, 0, 0, 4, 0x06010002},
        {0x6041, 0, 0, 2, 0x06010002},       {0x1008, 0, 0, 4, 0x06010002},          {0x6040, 0, 0, 4, 0x06070012},
        {0x6040, 0, 0, 3, 0x06070012},       {0x6081, 0, 0, 3, 0x06070013},          {0x6081, 0, 0, 1, 0x06070013},
        {0x6081, 0, 0, 0, 0x06070013},       {0x6081, 0, 0, 5, 0x06070012},          {0x6040, 0, 0, 0xFFFFFFFF, 0x06070012},
        {0x1A00, 0, 0, 1, 0x08000022},       {0x6083, 0, 0, 4, 0x06090032},          {0x6067, 0, 0x80000000, 4, 0x06090031},
        {0x6060, 0, 7, 1, 0x06090030},       {0x607D, 1, 1000, 4, OBJECT_DONE},      {0x607D, 2, 999, 4, 0x06040043},
        {0x1800, 1, 0xC0000185, 4, OBJECT_DONE}, {0x1A00, 0, 0, 1, OBJECT_DONE},     {0x1A00, 1, 0x60400010, 4, 0x06040041},
        {0x1A00, 1, 0x60640020, 4, OBJECT_DONE}, {0x1A00, 2, 0x606C0020, 4, OBJECT_DONE}, {0x1A00, 3, 0x60410010, 4, OBJECT_DONE},
        {0x1A00, 0, 3, 1, 0x06040042},       {0x1A00, 0, 2, 1, OBJECT_DONE},         {0x1800, 1, 0x40000185, 4, OBJECT_DONE}};

    switch_on(0, 0);
    pass();
    forget();
    for (uint32_t i = 0; i < sizeof writes / sizeof writes[0]; i++)
        check(object_write(&node, writes[i].index, writes[i].subindex, writes[i].value, writes[i].size) == writes[i].outcome, "a write's outcome");
    check(bus.count == 0 && node.outbox.count == 0, "no reply to a write is sent");
    check(number_of(0x607D, 1) == 1000 && number_of(0x607D, 2) == 0x7FFFFFFF && number_of(0x1A00, 2) == 0x606C0020,
          "what was taken is there, and no more");
}

/* What comes of a write besides its reply goes to the bus. */
static void effects_of_a_write(void)
{
    static const uint16_t order[] = {TPDO_1, TPDO_2, TPDO_3, TPDO_4};
    uint32_t right = 0;

    start();
    check(object_write(&node, 0x6040, 0, 0x0006, 2) == OBJECT_DONE && bus.count == 4, "a write that changes the drive state sends four transmit PDOs");
    for (uint32_t i = 0; i < 4; i++)
        right += bus.heard[i].identifier == order[i] && cendurak_half(bus.heard[i].data) == cendurak_status_word(node.dict);
    check(right == 4 && cendurak_drive(node.state) == CENDURAK_DRIVE_READY_TO_SWITCH_ON, "in their order, and no reply before them");
    nmt(PRE_OPERATIONAL);
    pass();
    forget();
    check(object_write(&node, 0x1400, 1, 0x80000205, 4) == OBJECT_DONE && strcmp(bus.calls, "f") == 0, "a write of an identifier sets the filters");
}

/* ---- beside a master */

static void beside_an_upload(void)
{
    struct object_value value, name = {.length = 0};

    start();
    read_object(0x1008, 0);
    check(reply()[0] == 0x41 && cendurak_transfer(node.state) == CENDURAK_TRANSFER_UPLOAD, "a master begins to read the device name");
    check(object_read(&node, 0x1000, 0, &value) == OBJECT_BUSY && object_write(&node, 0x6081, 0, 1, 4) == OBJECT_BUSY,
          "meanwhile the firmware has to wait");
    check(number_of(0x6081, 0) == 0xDEAD && cendurak_profile_velocity(node.dict) == 0, "and has changed nothing");
    read_segments(&name);
    check(name.length == 19 && memcmp(name.bytes, "Cendurak servo node", 19) == 0, "the master's transfer goes on to its end");
    check(object_write(&node, 0x6081, 0, 1, 4) == OBJECT_DONE && number_of(0x6081, 0) == 1, "and then the firmware is served");
}

static void beside_a_download(void)
{
    start();
    receive(SDO_REQUEST, 8, 0x00608121, 4);
    check(reply()[0] == 0x60 && cendurak_transfer(node.state) == CENDURAK_TRANSFER_DOWNLOAD, "a master begins to write 6081h by segments");
    check(object_write(&node, 0x6081, 0, 1, 4) == OBJECT_BUSY, "meanwhile the firmware has to wait");
    receive(SDO_REQUEST, 8, 0x33221107, 0x00000044);
    check(reply()[0] == 0x20 && number_of(0x6081, 0) == 0x44332211, "the master's transfer goes on to its end");
}

static void not_served(void)
{
    uint8_t request[8] = {0x40, 0x00, 0x10}, answer[8] = {0xEE};
    struct object_value value;

    start();
    nmt(STOP);
    pass();
    forget();
    check(object_read(&node, 0x1000, 0, &value) == OBJECT_NOT_SERVED && object_write(&node, 0x6081, 0, 1, 4) == OBJECT_NOT_SERVED,
          "Stopped: not served");
    check(node_request(&node, request, answer) == NODE_NO_REPLY && answer[0] == 0xEE && bus.count == 0, "Stopped: no reply");
    nmt(START);
    pass();
    check(object_read(&node, 0x1000, 0, &value) == OBJECT_DONE && value.number == 0x00020192 && value.length == 4, "and served again");
    request[0] = 0x80;
    check(node_request(&node, request, answer) == NODE_NO_REPLY, "a client's abort has no reply");
    node.dict[0] ^= 1;
    check(object_read(&node, 0x1000, 0, &value) == OBJECT_NOT_SERVED && node.is_stopped, "a damaged dictionary: safe stop");
    check(object_read(&node, 0x1000, 0, &value) == OBJECT_NOT_SERVED && node.refused[CENDURAK_NOT_SOUND] == 1, "and no further call");
}

static void no_room(void)
{
    struct object_value value = {.number = 77};

    start();
    bus.takes = 0;
    for (uint32_t i = 0; i < 30; i++)
        read_object(0x1000, 0);
    pass();
    check(object_read(&node, 0x1000, 0, &value) == OBJECT_NO_ROOM && object_write(&node, 0x6081, 0, 1, 4) == OBJECT_NO_ROOM,
          "no room for what may come of it");
    check(value.number == 77 && cendurak_profile_velocity(node.dict) == 0, "and nothing has changed");
    bus.takes = FOR_EVER;
    pass();
    check(object_write(&node, 0x6081, 0, 1, 4) == OBJECT_DONE && heard_of(SDO_REPLY) == 30, "served when the bus has taken what waited");
}

int main(void)
{
    every_object();
    device_name();
    every_abort();
    effects_of_a_write();
    beside_an_upload();
    beside_a_download();
    not_served();
    no_room();
    printf("%u passed, %u failed\n", passed, failed);
    return failed != 0;
}
