/* Responders in memory of the program's own (felosumay_memory.h), with no heap: each size that there is takes exactly the memory that
 * is said, and not a byte less will do; memory is refused where it isn't aligned or is in use, and is free again when its responder
 * is. It prints what differs, and then ends with status 1. */
#include "felosumay_memory.h"
#include "felosumay_names.h"
#include <stdio.h>

enum { MAKER = 0x7FF0, FIXTURE = 1, MOST = 1024, MOST_SUB_DEVICES = 512 };

FELOSUMAY_ALIGNED static uint8_t memory[FELOSUMAY_RESPONDER_BYTES(MOST, MOST, MOST_SUB_DEVICES)];
FELOSUMAY_ALIGNED static uint8_t second[FELOSUMAY_RESPONDER_BYTES(2, 1, 0) + 16];
static felosumay_profile profile;
static int failed;

static void expect(const char *what, unsigned got, unsigned wanted) {
    if (got != wanted) {
        printf("%s: %u, not %u\n", what, got, wanted);
        failed = 1;
    }
}

static felosumay_result make(felosumay_responder *responder, uint8_t *at, uint64_t bytes, uint16_t queue_size, uint16_t entries) {
    return felosumay_responder_new_in(at, bytes, responder, MAKER, FIXTURE, &profile, queue_size, entries, 0);
}

/* A responder of this size fits into the stated memory, fills it, and doesn't fit into a byte less. It answers. */
static void try_size(uint16_t queue_size, uint16_t entries, uint16_t sub_devices) {
    const uint64_t bytes = FELOSUMAY_RESPONDER_BYTES(queue_size, entries, sub_devices);
    felosumay_responder responder = {0};
    uint8_t value[FELOSUMAY_VALUE_BYTES];
    uint64_t count = 0;
    uint16_t reason = 0;
    int was = failed;
    profile.subs = sub_devices;
    expect("the size in the library", (unsigned)felosumay_responder_size(queue_size, entries, sub_devices), (unsigned)bytes);
    expect("a byte less", make(&responder, memory, bytes - 1, queue_size, entries), FELOSUMAY_SHORT_MEMORY);
    expect("the memory", make(&responder, memory, bytes, queue_size, entries), FELOSUMAY_DONE);
    if (responder.at == 0)
        return;
    expect("what is left of it", (unsigned)(felosumay_arenas->end - felosumay_arenas->free), 0);
    expect("what it answers",
           felosumay_responder_get(&responder, sub_devices, FELOSUMAY_PID_IDENTIFY_DEVICE, NULL, 0, value, &count, &reason),
           FELOSUMAY_DONE);
    felosumay_responder_free(&responder);
    expect("arenas in use", felosumay_arenas != NULL, 0);
    if (failed != was)
        printf("queue %u, status entries %u, sub-devices %u\n", queue_size, entries, sub_devices);
}

static void sizes(void) {
    static const uint16_t entries[] = {1, 2, 7, 8, 9, 64, 1023, MOST}, subs[] = {0, 1, 2, 3, 4, 5, 48, 511, MOST_SUB_DEVICES};
    for (uint16_t queue_size = 1; queue_size <= MOST; queue_size++)
        try_size(queue_size, 64, 0);
    for (uint16_t number = 1; number <= MOST; number++)
        try_size(2, number, 1);
    for (uint16_t number = 0; number <= MOST_SUB_DEVICES; number++)
        try_size(1, 1, number);
    for (size_t i = 0; i < sizeof entries / sizeof *entries; i++)
        for (size_t k = 0; k < sizeof subs / sizeof *subs; k++) {
            try_size(1, entries[i], subs[k]);
            try_size(255, entries[i], subs[k]);
            try_size(MOST, entries[i], subs[k]);
        }
}

/* The profile as it stands takes so much more: exactly that, and a byte less won't do. */
static void expect_more(const char *what, uint64_t more) {
    const uint64_t bytes = FELOSUMAY_RESPONDER_BYTES(2, 1, 0);
    felosumay_responder responder = {0};
    expect("more memory than there is", bytes + more > sizeof memory, 0);
    expect(what, make(&responder, memory, bytes + more, 2, 1), FELOSUMAY_DONE);
    if (felosumay_arenas != NULL)
        expect(what, (unsigned)(felosumay_arenas->end - felosumay_arenas->free), 0);
    felosumay_responder_free(&responder);
    if (more == 0)
        return;
    expect(what, make(&responder, memory, bytes + more - 1, 2, 1), FELOSUMAY_OUT_OF_MEMORY);
    expect(what, make(&responder, memory, bytes, 2, 1), FELOSUMAY_OUT_OF_MEMORY);
}

/* What sets a fixture apart takes one block, whatever it is. */
static void particulars(void) {
    static const uint16_t without[] = {FELOSUMAY_PID_LAMP_STATE};
    profile.subs = 0;
    profile.estimates.lamp = 50;
    expect_more("a usual time", 0);
    profile.estimates.lamp = 51;
    expect_more("another time", FELOSUMAY_PARTICULARS_BYTES);
    profile.estimates.lamp = 0;
    profile.more_slots = 1;
    expect_more("more slots", FELOSUMAY_PARTICULARS_BYTES);
    profile.more_slots = 0;
    profile.boot_loader = 1;
    expect_more("a boot loader", FELOSUMAY_PARTICULARS_BYTES);
    profile.boot_loader = 0;
    profile.proxied_device = 1;
    expect_more("a proxied device", FELOSUMAY_PARTICULARS_BYTES);
    profile.proxied_device = 0;
    profile.newest_only = 1;
    expect_more("the newest message only", FELOSUMAY_PARTICULARS_BYTES);
    profile.newest_only = 0;
    profile.binding_uid[5] = 1;
    expect_more("a binding UID", FELOSUMAY_PARTICULARS_BYTES);
    profile.binding_uid[5] = 0;
    profile.without = without;
    profile.without_count = 1;
    expect_more("a parameter less", FELOSUMAY_PARTICULARS_BYTES);
    profile.without = NULL;
    profile.without_count = 0;
    expect_more("nothing of these", 0);
}

/* A profile with parameters of the maker's own takes more: for each number of them exactly what is said. */
static void own_parameters(void) {
    static felosumay_parameter own[32];
    profile.parameters = own;
    for (uint16_t count = 1; count <= 32; count++) {
        own[count - 1].pid = (uint16_t)(0x8000 + count);
        own[count - 1].kind = FELOSUMAY_DS_UNSIGNED_BYTE;
        own[count - 1].commands = FELOSUMAY_CC_GET;
        own[count - 1].start.count = 1;
        profile.parameter_count = count;
        expect_more("own parameters", FELOSUMAY_PARTICULARS_BYTES + FELOSUMAY_OWN_PARAMETERS_BYTES(count));
    }
    own[0].commands = own[31].commands = FELOSUMAY_CC_SET;
    expect_more("two orders", FELOSUMAY_PARTICULARS_BYTES + FELOSUMAY_OWN_PARAMETERS_BYTES(32) + FELOSUMAY_VALUES_BYTES(2));
    own[0].pid = FELOSUMAY_PID_PRESET_STATUS;
    own[0].kind = FELOSUMAY_DS_SCENES;
    own[0].commands = FELOSUMAY_CC_GET_SET;
    own[0].start.count = 0;
    own[0].high = 255;
    profile.parameter_count = 1;
    expect_more("255 scenes", FELOSUMAY_PARTICULARS_BYTES + FELOSUMAY_OWN_PARAMETERS_BYTES(1) + FELOSUMAY_VALUES_BYTES(255));
    profile.parameters = NULL;
    profile.parameter_count = 0;
}

/* One with names of choices and with locks takes more, too. */
static void names_and_locks(void) {
    static felosumay_parameter own[3];
    static felosumay_choice name;
    const uint64_t more = FELOSUMAY_PARTICULARS_BYTES + FELOSUMAY_OWN_PARAMETERS_BYTES(3) + FELOSUMAY_CHOICES_BYTES(1);
    own[0].pid = FELOSUMAY_PID_LOCK_PIN;
    own[0].kind = FELOSUMAY_DS_PIN;
    own[0].commands = FELOSUMAY_CC_GET_SET;
    own[0].high = 9999;
    own[0].start.count = 2;
    own[1].pid = FELOSUMAY_PID_LOCK_STATE;
    own[1].kind = FELOSUMAY_DS_LOCK;
    own[1].commands = FELOSUMAY_CC_GET_SET;
    own[1].high = 1;
    own[1].start.count = 1;
    own[2].pid = FELOSUMAY_PID_LOCK_STATE_DESCRIPTION;
    own[2].kind = FELOSUMAY_DS_NAMES;
    own[2].commands = FELOSUMAY_CC_GET;
    name.pid = FELOSUMAY_PID_LOCK_STATE_DESCRIPTION;
    name.number = 1;
    profile.parameters = own;
    profile.parameter_count = 3;
    profile.choices = &name;
    profile.choice_count = 1;
    expect_more("names of choices", more);
    for (uint8_t count = 1; count <= 64; count++) {
        profile.locks[count - 1].state = 1;
        profile.locks[count - 1].pid = FELOSUMAY_PID_DEVICE_LABEL;
        profile.lock_count = count;
        expect_more("locks", more + FELOSUMAY_LOCKS_BYTES(count));
    }
    profile.parameters = NULL;
    profile.choices = NULL;
    profile.parameter_count = profile.choice_count = profile.lock_count = 0;
}

/* And so does one with modes: of each number of them, the last of which has each number of slots of its own. */
static void modes(void) {
    static felosumay_mode all[247];
    static felosumay_slot slots[46];
    profile.modes = all;
    profile.mode_slots = slots;
    profile.mode_slot_count = sizeof slots / sizeof *slots;
    for (uint16_t count = 1; count <= 247; count++) {
        profile.mode_count = count;
        expect_more("modes without slots", FELOSUMAY_PARTICULARS_BYTES + FELOSUMAY_MODES_BYTES(count, 0));
        all[count - 1].slot_count = (uint8_t)(count % 47);
        expect_more("a mode with slots", FELOSUMAY_PARTICULARS_BYTES + FELOSUMAY_MODES_BYTES(count, count % 47));
        all[count - 1].slot_count = 0;
    }
    for (uint16_t i = 0; i < 100; i++)
        all[i].slot_count = 46;
    profile.mode_count = 100;
    expect_more("100 modes of 46 slots", FELOSUMAY_PARTICULARS_BYTES + FELOSUMAY_MODES_BYTES(100, 100 * 46));
    for (uint16_t i = 1; i < 247; i++) {
        all[i].slot_count = 0;
        all[i].slots_of = 2;
    }
    profile.mode_count = 247;
    expect_more("247 modes with the same slots", FELOSUMAY_PARTICULARS_BYTES + FELOSUMAY_MODES_BYTES(247, 46));
    profile.modes = NULL;
    profile.mode_slots = NULL;
    profile.mode_count = profile.mode_slot_count = 0;
}

/* What is refused, and leaves the memory free. */
static void refusals(void) {
    felosumay_responder responder = {0};
    felosumay_collector collector = {0};
    felosumay_search search = {0};
    profile.subs = 0;
    for (size_t past = 1; past < 16; past++)
        expect("unaligned memory", make(&responder, memory + past, sizeof memory - past, 8, 64), FELOSUMAY_UNALIGNED);
    expect("no memory", make(&responder, memory, 0, 8, 64), FELOSUMAY_SHORT_MEMORY);
    expect("no queue", make(&responder, memory, sizeof memory, 0, 64), FELOSUMAY_BAD_SIZE);
    expect("1,025 entries", make(&responder, memory, sizeof memory, 8, 1025), FELOSUMAY_BAD_SIZE);
    profile.language_count = 0;
    expect("a bad profile", make(&responder, memory, sizeof memory, 8, 64), FELOSUMAY_BAD_PROFILE);
    profile.language_count = 1;
    expect("a UID of all",
           felosumay_responder_new_in(memory, sizeof memory, &responder, MAKER, 0xFFFFFFFF, &profile, 8, 64, 0), FELOSUMAY_BAD_UID);
    expect("arenas in use", felosumay_arenas != NULL, 0);
    expect("a responder on the heap", felosumay_responder_new(&responder, MAKER, FIXTURE, &profile, 8), FELOSUMAY_OUT_OF_MEMORY);
    expect("a collector", felosumay_collector_new(&collector, MAKER, 2, MAKER, FIXTURE, 2), FELOSUMAY_OUT_OF_MEMORY);
    expect("a search", felosumay_search_new(&search, MAKER, 2, 76), FELOSUMAY_OUT_OF_MEMORY);
    expect("a handle", responder.at != 0 || collector.at != 0 || search.at != 0, 0);
}

/* Memory that a responder lies in, all of it or a part. */
static void in_use(void) {
    const uint64_t bytes = FELOSUMAY_RESPONDER_BYTES(2, 1, 0);
    felosumay_responder first = {0}, other = {0}, third = {0};
    uint64_t waiting = 9;
    expect("one", make(&first, memory, bytes, 2, 1), FELOSUMAY_DONE);
    expect("the same memory", make(&other, memory, sizeof memory, 2, 1), FELOSUMAY_IN_USE);
    expect("its own memory", make(&first, memory, bytes, 2, 1), FELOSUMAY_IN_USE);
    expect("its last bytes", make(&other, memory + bytes - 16, sizeof memory - bytes, 2, 1), FELOSUMAY_IN_USE);
    expect("the bytes behind it", make(&other, memory + bytes, bytes, 2, 1), FELOSUMAY_DONE);
    expect("a third", make(&third, second, sizeof second, 2, 1), FELOSUMAY_DONE);
    felosumay_responder_free(&other);
    expect("the first after that", felosumay_responder_waiting(&first, &waiting), FELOSUMAY_DONE);
    expect("the bytes behind it again", make(&third, memory + bytes, bytes, 2, 1), FELOSUMAY_DONE);
    expect("what the third had", make(&other, second, sizeof second, 2, 1), FELOSUMAY_DONE);
    felosumay_responder_free(&first);
    felosumay_responder_free(&third);
    felosumay_responder_free(&other);
    expect("arenas in use", felosumay_arenas != NULL, 0);
}

/* A report of a former responder is astray in one that numbers its jobs from another number on, and 0 comes after the greatest. */
static void numbers(void) {
    static const uint8_t lamp_on[] = {0xCC, 0x01, 0x19, 0x7F, 0xF0, 0, 0, 0, 1, 0x7F, 0xF0, 0, 0, 0,
                                      2,    0,    1,    0,    0,    0, 0x30, 0x04, 0x03, 1, 1, 0x04, 0x01};
    const felosumay_outcome done = {FELOSUMAY_JOB_DONE, 0, 0, 0, 0, 0};
    felosumay_responder responder = {0};
    felosumay_stepped stepped;
    felosumay_job before = {0, 0, 0, 0, 0, 0, 0};
    uint8_t reply[FELOSUMAY_FRAME_BYTES], kept;
    const uint32_t first_jobs[] = {7, 8, 0xFFFFFFFF, 0};
    for (size_t i = 0; i < sizeof first_jobs / sizeof *first_jobs; i++) {
        expect("a responder", felosumay_responder_new_in(memory, sizeof memory, &responder, MAKER, FIXTURE, &profile, 4, 1, first_jobs[i]),
               FELOSUMAY_DONE);
        felosumay_responder_step(&responder, lamp_on, sizeof lamp_on, reply, &stepped);
        expect("a job", stepped.started, 1);
        expect("its number", stepped.job.number, first_jobs[i]);
        if (i != 0)
            expect("a report of before", felosumay_responder_arrive(&responder, &before, &done, &kept), FELOSUMAY_ASTRAY);
        before = stepped.job;
        expect("its own report", felosumay_responder_arrive(&responder, &stepped.job, &done, &kept), FELOSUMAY_DONE);
        felosumay_responder_step(&responder, lamp_on, sizeof lamp_on, reply, &stepped);
        expect("the next number", stepped.job.number, (uint32_t)(first_jobs[i] + 1));
        felosumay_responder_free(&responder);
    }
}

int main(void) {
    profile.root.personality_count = profile.sub.personality_count = 1;
    profile.root.start = profile.sub.start = 1;
    profile.language_count = 1;
    sizes();
    particulars();
    own_parameters();
    names_and_locks();
    modes();
    refusals();
    in_use();
    numbers();
    return failed;
}
