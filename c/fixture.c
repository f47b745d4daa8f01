/* A fixture's program: it sets its values, a responder receives what comes from the bus, slow commands end later, it counts and warns, a
 * person changes something at its menu, and it is switched off and on again. Here a collector makes the requests, in place of a bus.
 * docs/C.md reads it part by part. */
#include "felosumay.h"
#include <stdio.h>
#include <string.h>

enum { MAKER = 0x7FF0, FIXTURE = 1, CONSOLE = 2, QUEUE_SIZE = 2, ENTRIES = 2, IMAGE_BYTES = 128 };

/* What the fixture is. It may be in flash. */
static const felosumay_profile PROFILE = {
    /* the root: software, model and category, start address, texts, personalities */
    {0x00000100, 0x0011, 0x0102, 1, FELOSUMAY_TEXT("Moving head"), FELOSUMAY_TEXT("Example"), FELOSUMAY_TEXT("Left of stage"),
     FELOSUMAY_TEXT("1.0"), 1, {{2, FELOSUMAY_TEXT("Basic")}}},
    /* what each sub-device starts as */
    {0x00000100, 0x0012, 0x0102, 1, FELOSUMAY_TEXT("Cell"), FELOSUMAY_TEXT("Example"), FELOSUMAY_TEXT("Cell"),
     FELOSUMAY_TEXT("1.0"), 1, {{1, FELOSUMAY_TEXT("Cell")}}},
    /* boot software, sub-devices, presets */
    1, 0, 4, FELOSUMAY_TEXT("Boot 1.0"),
    /* how many languages, slots, sensors, self tests and status IDs */
    1, 2, 1, 1, 3,
    {0x656E},
    {{0x0001, 0, 0x00, FELOSUMAY_TEXT("Intensity")}, {0x0101, 0, 0x80, FELOSUMAY_TEXT("Pan")}},
    {{-20, 120, 0, 80, 0x00, 0x01, 0x00, 0x03, FELOSUMAY_TEXT("Lamp temperature"), 0}},
    {{1, FELOSUMAY_TEXT("Lamp")}},
    {{0x8001, FELOSUMAY_TEXT("Lamp failed to strike")},
     {0x8002, FELOSUMAY_TEXT("Fan %d stands still")},
     {0x8003, FELOSUMAY_TEXT("Overheated: %d degrees C")}},
    /* no more slots, no parameters of the maker's own, and no omitted ones: c/own.c has some */
    0, NULL, 0, NULL, 0,
    /* the usual times and workers of slow commands */
    {0, 0, 0, 0},
    {0, 0, 0, 0},
    /* no boot loader, not behind a proxy, and every message of a change waits */
    0, 0, 0,
    /* no names of choices, and no locks */
    NULL, 0, 0, {{0, 0}},
    /* one port */
    {0},
    /* no personalities with slots of their own */
    NULL, 0, NULL, 0,
};

static void print_bytes(const char *what, const uint8_t *bytes, uint64_t count) {
    printf("%s", what);
    for (size_t i = 0; i < count; i++)
        printf(" %02X", bytes[i]);
    printf("\n");
}

/* Asks the fixture, prints its reply, and says what started. */
static felosumay_stepped ask(felosumay_collector *bus, felosumay_responder *fixture, uint16_t pid, uint8_t command_class,
                             const uint8_t *load, uint64_t length) {
    felosumay_command command = {FIXTURE, MAKER, 0, pid, command_class};
    felosumay_stepped stepped = {0, 0, 0, 0, {0, 0, 0, 0, 0, 0, 0}, 0, 0};
    uint8_t request[FELOSUMAY_FRAME_BYTES], reply[FELOSUMAY_FRAME_BYTES];
    uint64_t count = 0;
    if (felosumay_collector_ask(bus, &command, load, length, request, &count) != FELOSUMAY_DONE)
        return stepped;
    if (felosumay_responder_step(fixture, request, count, reply, &stepped) == FELOSUMAY_DONE && stepped.replied)
        print_bytes("reply", reply, stepped.count);
    felosumay_collector_over(bus);
    return stepped;
}

/* The controller fetches the next message that waits. */
static felosumay_result fetch(felosumay_collector *bus, felosumay_responder *fixture) {
    uint8_t request[FELOSUMAY_FRAME_BYTES], reply[FELOSUMAY_FRAME_BYTES];
    felosumay_stepped stepped;
    felosumay_heard heard;
    felosumay_message message;
    uint64_t count = 0;
    felosumay_result status = felosumay_collector_poll(bus, request, &count);
    if (status != FELOSUMAY_DONE)
        return status;
    felosumay_responder_step(fixture, request, count, reply, &stepped);
    print_bytes("reply", reply, stepped.count);
    felosumay_collector_hear(bus, reply, stepped.count, &heard);
    status = felosumay_collector_next(bus, &message);
    if (status == FELOSUMAY_DONE)
        printf("fetched: class %02X, PID %04X, %u bytes\n", message.command_class, message.pid, (unsigned)message.count);
    return status;
}

/* The maker's last step: the fixture was tested for 1,234 hours, and has a label. FACTORY_DEFAULTS still goes back to the profile's
 * values. */
static felosumay_result set_up(felosumay_responder *fixture) {
    const uint8_t hours[4] = {0x00, 0x00, 0x04, 0xD2}, label[33] = "Front truss";
    felosumay_result status = felosumay_responder_place(fixture, 0, 0x0400, hours, 4);
    return status == FELOSUMAY_DONE ? felosumay_responder_place(fixture, 0, 0x0082, label, 11) : status;
}

/* What can't be placed: there is no sub-device, a model's description isn't stored, an address has 2 bytes and is at most 512. */
static void misplace(felosumay_responder *fixture) {
    const uint8_t start[3] = {0x02, 0x01, 0x00};
    printf("start 513 of sub-device 1: %u\n", felosumay_responder_place(fixture, 1, 0x00F0, start, 2));
    printf("a model's description: %u\n", felosumay_responder_place(fixture, 0, 0x0080, start, 2));
    printf("a start of 3 bytes: %u\n", felosumay_responder_place(fixture, 0, 0x00F0, start, 3));
    printf("start 513: %u\n", felosumay_responder_place(fixture, 0, 0x00F0, start, 2));
}

/* Fan 1 stands still, which is a warning, and it is 95 degrees hot, an error; there is no room for a third entry. No message waits, so a
 * poll fetches both, once. */
static felosumay_result warn(felosumay_collector *bus, felosumay_responder *fixture) {
    uint8_t fan = 9, heat = 9, other = 9;
    felosumay_result status = felosumay_responder_note(fixture, 0, 0x03, 0x8002, 1, 0, &fan);
    if (status == FELOSUMAY_DONE)
        status = felosumay_responder_note(fixture, 0, 0x04, 0x8003, 95, 0, &heat);
    printf("fan noted %u, heat noted %u\n", fan, heat);
    printf("no status type: %u\n", felosumay_responder_note(fixture, 0, 0x05, 0x8002, 1, 0, &other));
    printf("of sub-device 1: %u", felosumay_responder_note(fixture, 1, 0x04, 0x8003, 95, 0, &other));
    printf(", noted %u\n", other);
    other = 9;
    printf("a third: %u", felosumay_responder_note(fixture, 0, 0x04, 0x8002, 2, 0, &other));
    printf(", noted %u\n", other);
    if (status == FELOSUMAY_DONE)
        status = fetch(bus, fixture);
    return status == FELOSUMAY_DONE ? fetch(bus, fixture) : status;
}

/* A slow command strikes the lamp: reports that don't fit are rejected, and the right one arrives once. */
static void strike(felosumay_collector *bus, felosumay_responder *fixture) {
    const uint8_t on = 3;
    const felosumay_outcome reading = {FELOSUMAY_JOB_READING, 0, 21, 0, 0, 0}, done = {FELOSUMAY_JOB_DONE, 0, 0, 0, 0, 0},
                            none = {9, 0, 0, 0, 0, 0};
    uint8_t kept = 0;
    uint64_t waiting = 0, outstanding = 0;
    felosumay_job job = ask(bus, fixture, 0x0403, FELOSUMAY_SET, &on, 1).job, other = job;
    other.number++;
    printf("job %u of worker %u: PID %04X, class %02X, argument %u, %u tenths of a second\n", (unsigned)job.number, job.worker,
           job.pid, job.command_class, job.argument, job.estimate);
    printf("a reading for a SET: %u\n", felosumay_responder_arrive(fixture, &job, &reading, &kept));
    printf("another job: %u\n", felosumay_responder_arrive(fixture, &other, &done, &kept));
    printf("no such outcome: %u\n", felosumay_responder_arrive(fixture, &job, &none, &kept));
    printf("done: %u\n", felosumay_responder_arrive(fixture, &job, &done, &kept));
    printf("again: %u\n", felosumay_responder_arrive(fixture, &job, &done, &kept));
    felosumay_responder_waiting(fixture, &waiting);
    felosumay_responder_outstanding(fixture, &outstanding);
    printf("kept %u, waiting %u, outstanding %u\n", kept, (unsigned)waiting, (unsigned)outstanding);
}

/* The lamp was struck once more: the firmware counts it, though no controller did anything. */
static felosumay_result count_strike(felosumay_responder *fixture) {
    const uint8_t nothing = 0;
    uint8_t strikes[FELOSUMAY_VALUE_BYTES];
    uint64_t count = 0;
    uint16_t reason = 0;
    felosumay_result status = felosumay_responder_get(fixture, 0, 0x0402, &nothing, 0, strikes, &count, &reason);
    if (status != FELOSUMAY_DONE)
        return status;
    for (size_t i = count; i > 0 && ++strikes[i - 1] == 0; i--)
        continue;
    return felosumay_responder_place(fixture, 0, 0x0402, strikes, count);
}

/* A person changes the start address and the label at the menu, as long as there is room for the messages. */
static felosumay_result change(felosumay_collector *bus, felosumay_responder *fixture) {
    const uint8_t label[33] = "Right of stage";
    uint8_t room = 9;
    printf("start 513: %u\n", felosumay_responder_change_start(fixture, 513));
    printf("personality 2: %u\n", felosumay_responder_change_personality(fixture, 2));
    printf("label of 33 bytes: %u\n", felosumay_responder_change_label(fixture, label, 33));
    printf("label: %u\n", felosumay_responder_change_label(fixture, label, 14));
    felosumay_responder_room(fixture, &room);
    printf("room %u, start 7: %u\n", room, felosumay_responder_change_start(fixture, 7));
    felosumay_result status = fetch(bus, fixture);
    printf("start 7: %u\n", felosumay_responder_change_start(fixture, 7));
    return status;
}

/* A person sets the start address at the menu. If there is no room for the message, it is set without one. */
static felosumay_result set_start(felosumay_responder *fixture, uint16_t start) {
    const uint8_t bytes[2] = {(uint8_t)(start >> 8), (uint8_t)start};
    felosumay_result status = felosumay_responder_change_start(fixture, start);
    printf("start %u: %u\n", start, status);
    if (status == FELOSUMAY_NO_ROOM)
        status = felosumay_responder_place(fixture, 0, 0x00F0, bytes, 2);
    return status;
}

/* The answer to discovery is a reply like any other: it has 24 bytes, and isn't a frame. */
static void discover(felosumay_collector *bus, felosumay_responder *fixture) {
    const uint8_t branch[12] = {0, 0, 0, 0, 0, 0, 0xFF, 0xFF, 0xFF, 0xFF, 0xFF, 0xFE};
    felosumay_stepped stepped = ask(bus, fixture, 0x0001, FELOSUMAY_DISCOVERY, branch, 12);
    printf("discovery: %u bytes\n", (unsigned)stepped.count);
}

/* The firmware reads the fixture's own values. */
static void read(felosumay_responder *fixture) {
    uint8_t value[FELOSUMAY_VALUE_BYTES];
    const uint8_t advisory = 2;
    uint64_t count = 0;
    uint16_t reason = 99;
    printf("get %u:", felosumay_responder_get(fixture, 0, 0x00F0, &advisory, 0, value, &count, &reason));
    print_bytes("", value, count);
    printf("get of no PID: %u, ", felosumay_responder_get(fixture, 0, 0x9999, &advisory, 0, value, &count, &reason));
    printf("reason %u\n", reason);
    printf("get of the queue: %u\n", felosumay_responder_get(fixture, 0, 0x0020, &advisory, 1, value, &count, &reason));
}

/* The firmware looks at what a request changed, if it changed anything. */
static void look(felosumay_stepped stepped) {
    if (stepped.changed == FELOSUMAY_ONE_CHANGED && stepped.changed_parameter == 0x1000)
        printf("device %u is to identify itself, or to stop\n", stepped.changed_sub_device);
    else if (stepped.changed == FELOSUMAY_ONE_CHANGED)
        printf("device %u has another value of PID %04X\n", stepped.changed_sub_device, stepped.changed_parameter);
    else
        printf(stepped.changed == FELOSUMAY_SEVERAL_CHANGED ? "several values changed\n" : "nothing changed\n");
}

/* A controller sets IDENTIFY_DEVICE, twice to the same value, then the start address, and then FACTORY_DEFAULTS. */
static void identify(felosumay_collector *bus, felosumay_responder *fixture) {
    const uint8_t on = 1, start[2] = {0x00, 0x09};
    look(ask(bus, fixture, 0x1000, FELOSUMAY_SET, &on, 1));
    look(ask(bus, fixture, 0x1000, FELOSUMAY_SET, &on, 1));
    look(ask(bus, fixture, 0x00F0, FELOSUMAY_SET, start, 2));
    look(ask(bus, fixture, 0x0090, FELOSUMAY_SET, &on, 0));
}

/* What no responder can be made with. The old one stays. */
static void refuse(felosumay_responder *fixture) {
    printf("a UID of all: %u\n", felosumay_responder_new(fixture, MAKER, 0xFFFFFFFF, &PROFILE, QUEUE_SIZE));
    printf("no queue: %u\n", felosumay_responder_new(fixture, MAKER, FIXTURE, &PROFILE, 0));
    printf("no entries: %u\n", felosumay_responder_new_with(fixture, MAKER, FIXTURE, &PROFILE, QUEUE_SIZE, 0, 0));
    printf("1,025 entries: %u\n", felosumay_responder_new_with(fixture, MAKER, FIXTURE, &PROFILE, QUEUE_SIZE, 1025, 0));
    printf("513 cells: %u\n", felosumay_responder_demo(fixture, MAKER, FIXTURE, 513, QUEUE_SIZE));
}

/* Images that aren't restored: a truncated one, one with an altered byte, and one of a fixture of another manufacturer. */
static void misread(felosumay_responder *fixture, const uint8_t *image, uint64_t count) {
    uint8_t other[IMAGE_BYTES];
    memcpy(other, image, count);
    printf("cut: %u\n", felosumay_responder_restore(fixture, other, count - 1));
    other[1]++;
    printf("altered: %u\n", felosumay_responder_restore(fixture, other, count));
    other[count - 1]++;
    printf("of another fixture: %u\n", felosumay_responder_restore(fixture, other, count));
}

/* The fixture is switched off and on again. Its values are saved before, and a new responder restores them. */
static felosumay_result restart(felosumay_collector *bus, felosumay_responder *fixture) {
    const uint8_t nothing = 0;
    uint8_t image[IMAGE_BYTES];
    uint64_t size = 0, count = 0;
    felosumay_result status = felosumay_responder_saved_size(fixture, &size);
    if (status == FELOSUMAY_DONE)
        printf("no room for %u bytes: %u\n", (unsigned)size, felosumay_responder_save(fixture, image, size - 1, &count));
    if (status == FELOSUMAY_DONE)
        status = felosumay_responder_save(fixture, image, sizeof image, &count);
    felosumay_responder_free(fixture);
    if (status == FELOSUMAY_DONE)
        status = felosumay_responder_new(fixture, MAKER, FIXTURE, &PROFILE, QUEUE_SIZE);
    if (status != FELOSUMAY_DONE)
        return status;
    misread(fixture, image, count);
    status = felosumay_responder_restore(fixture, image, count);
    printf("restored %u bytes: %u\n", (unsigned)count, status);
    ask(bus, fixture, 0x0082, FELOSUMAY_GET, &nothing, 0);
    ask(bus, fixture, 0x00F0, FELOSUMAY_GET, &nothing, 0);
    ask(bus, fixture, 0x0405, FELOSUMAY_GET, &nothing, 0);
    return status;
}

/* What happens to a fixture, from the moment that it is switched on. */
static felosumay_result play(felosumay_collector *bus, felosumay_responder *fixture) {
    const uint8_t nothing = 0;
    felosumay_result status = set_up(fixture);
    if (status != FELOSUMAY_DONE)
        return status;
    ask(bus, fixture, 0x0082, FELOSUMAY_GET, &nothing, 0);
    ask(bus, fixture, 0x0400, FELOSUMAY_GET, &nothing, 0);
    misplace(fixture);
    status = warn(bus, fixture);
    if (status != FELOSUMAY_DONE)
        return status;
    strike(bus, fixture);
    status = count_strike(fixture);
    ask(bus, fixture, 0x0402, FELOSUMAY_GET, &nothing, 0);
    if (status == FELOSUMAY_DONE)
        status = change(bus, fixture);
    if (status == FELOSUMAY_DONE)
        status = set_start(fixture, 8);
    discover(bus, fixture);
    read(fixture);
    return status;
}

int main(void) {
    felosumay_responder fixture = {0};
    felosumay_collector bus = {0};
    felosumay_result status = felosumay_responder_new_with(&fixture, MAKER, FIXTURE, &PROFILE, QUEUE_SIZE, ENTRIES, 0);
    uint64_t waiting = 0;
    uint8_t noted = 9;
    if (status == FELOSUMAY_DONE)
        status = felosumay_collector_new(&bus, MAKER, CONSOLE, MAKER, FIXTURE, 2);
    if (status == FELOSUMAY_DONE) {
        status = play(&bus, &fixture);
        refuse(&fixture);
    }
    if (status == FELOSUMAY_DONE)
        status = restart(&bus, &fixture);
    if (status == FELOSUMAY_DONE)
        identify(&bus, &fixture);
    felosumay_responder_free(&fixture);
    felosumay_responder_free(&fixture);
    felosumay_collector_free(&bus);
    if (status != FELOSUMAY_DONE) {
        printf("status %u\n", status);
        return status;
    }
    printf("after free: %u, %s\n", felosumay_responder_waiting(&fixture, &waiting), fixture.at != 0 ? "not null" : "null");
    printf("placed %u, noted %u\n", set_up(&fixture), felosumay_responder_note(&fixture, 0, 0x03, 0x8002, 1, 0, &noted));
    return 0;
}
