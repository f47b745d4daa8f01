/* A program of random steps, the same on each target: requests good and bad, reports of jobs, changes at the menu, values that are placed
 * and read, notes, messages that wait or are dropped, saved images and restarts, on a fixture with sub-devices, parameters of its own, names
 * of choices, locks and modes. What comes back goes into a sum, which is printed after each tenth of the steps. STEPS says how many there
 * are. c/port/check compares the targets. */
#include "../felosumay.h"
#include "../felosumay_names.h"
#include <stdio.h>
#include <string.h>

#ifndef STEPS
#define STEPS 1000000
#endif

enum { MAKER = 0x7FF0, FIXTURE = 1, CONSOLE = 2, SUB_DEVICES = 3, QUEUE_SIZE = 6, ENTRIES = 12, MOST_JOBS = 16, OWN = 7 };

static felosumay_responder fixture;
static felosumay_profile profile;
static felosumay_parameter own[OWN];
static felosumay_choice choices[4];
static felosumay_mode modes[2];
static felosumay_slot mode_slots[4];
static felosumay_job jobs[MOST_JOBS];
static uint32_t job_count, sum = 2166136261u;
static uint64_t state = 0x9E3779B97F4A7C15u;
static uint8_t request[FELOSUMAY_FRAME_BYTES + 8], reply[FELOSUMAY_FRAME_BYTES], image[4096];

/* The next number below `below`. No two may be arguments of one call, since C doesn't say which of these comes first. */
static uint32_t any(uint32_t below) {
    state ^= state << 13;
    state ^= state >> 7;
    state ^= state << 17;
    return (uint32_t)(state >> 24) % below;
}

static void add_byte(uint8_t byte) {
    sum = (sum ^ byte) * 16777619u;
}

static void add(uint32_t number) {
    for (int i = 0; i < 4; i++)
        add_byte((uint8_t)(number >> 8 * i));
}

static void add_bytes(const uint8_t *bytes, uint64_t count) {
    add((uint32_t)count);
    for (uint32_t i = 0; i < count; i++)
        add_byte(bytes[i]);
}

static const uint16_t PIDS[] = {
    0x0001, 0x0002, 0x0003, 0x0020, 0x0030, 0x0031, 0x0032, 0x0033, 0x0050, 0x0051, 0x0060, 0x0070, 0x0080, 0x0081, 0x0082, 0x0090,
    0x00A0, 0x00B0, 0x00C0, 0x00C1, 0x00C2, 0x00E0, 0x00E1, 0x00F0, 0x0120, 0x0121, 0x0122, 0x0200, 0x0201, 0x0202, 0x0340, 0x0341,
    0x0343, 0x0344, 0x0400, 0x0401, 0x0402, 0x0403, 0x0404, 0x0405, 0x0500, 0x0501, 0x0600, 0x0601, 0x0602, 0x0640, 0x0641, 0x0642,
    0x1000, 0x1001, 0x1010, 0x1020, 0x1021, 0x1030, 0x1031, 0x1042, 0x8000, 0x8001, 0x8002, 0x7FE0,
};

static uint16_t any_pid(void) {
    return PIDS[any(sizeof PIDS / sizeof *PIDS)];
}

static void name_parameter(felosumay_parameter *parameter, uint16_t pid, uint8_t kind, uint8_t commands, int64_t high) {
    parameter->pid = pid;
    parameter->kind = kind;
    parameter->commands = commands;
    parameter->high = high;
}

/* Of each kind of parameter one: a choice with its names, locks, scenes, and three of the maker's own. */
static void describe_parameters(void) {
    name_parameter(&own[0], FELOSUMAY_PID_CURVE, FELOSUMAY_DS_CHOICE, FELOSUMAY_CC_GET_SET, 3);
    own[0].low = own[0].start.count = own[0].start.bytes[0] = 1;
    name_parameter(&own[1], FELOSUMAY_PID_CURVE_DESCRIPTION, FELOSUMAY_DS_NAMES, FELOSUMAY_CC_GET, 0);
    name_parameter(&own[2], FELOSUMAY_PID_LOCK_PIN, FELOSUMAY_DS_PIN, FELOSUMAY_CC_GET_SET, 9999);
    own[2].start.count = 2;
    name_parameter(&own[3], FELOSUMAY_PID_LOCK_STATE, FELOSUMAY_DS_LOCK, FELOSUMAY_CC_GET_SET, 1);
    own[3].start.count = 1;
    name_parameter(&own[4], FELOSUMAY_PID_LOCK_STATE_DESCRIPTION, FELOSUMAY_DS_NAMES, FELOSUMAY_CC_GET, 0);
    name_parameter(&own[5], 0x8000, FELOSUMAY_DS_UNSIGNED_WORD, FELOSUMAY_CC_GET_SET, 1000);
    own[5].start.count = 2;
    own[5].resets = 1;
    name_parameter(&own[6], 0x8001, FELOSUMAY_DS_ASCII, FELOSUMAY_CC_SET, 0);
    for (uint8_t i = 0; i < 4; i++) {
        choices[i].pid = i < 3 ? FELOSUMAY_PID_CURVE_DESCRIPTION : FELOSUMAY_PID_LOCK_STATE_DESCRIPTION;
        choices[i].number = (uint8_t)(i < 3 ? i + 1 : 1);
        choices[i].name.count = 1;
        choices[i].name.bytes[0] = (uint8_t)('A' + i);
    }
    profile.parameters = own;
    profile.parameter_count = OWN;
    profile.choices = choices;
    profile.choice_count = 4;
    profile.lock_count = 1;
    profile.locks[0].state = 1;
    profile.locks[0].pid = FELOSUMAY_PID_DEVICE_LABEL;
}

/* Personality 3, with three slots of its own, and 4, which has the same. */
static void describe_modes(void) {
    modes[0].footprint = 5;
    modes[0].first_slot = 1;
    modes[0].slot_count = 3;
    modes[1].footprint = 2;
    modes[1].slots_of = 3;
    for (uint8_t i = 0; i < 4; i++) {
        mode_slots[i].label = (uint16_t)(0x0101 + i);
        mode_slots[i].value = (uint8_t)(0x40 + i);
        mode_slots[i].name.count = i;
        memset(mode_slots[i].name.bytes, 'a' + i, i);
    }
    profile.modes = modes;
    profile.mode_count = 2;
    profile.mode_slots = mode_slots;
    profile.mode_slot_count = 4;
}

static void describe(void) {
    profile.root.model = profile.sub.model = 0x11;
    profile.root.personality_count = profile.sub.personality_count = 2;
    profile.root.personalities[0].footprint = 4;
    profile.root.personalities[1].footprint = profile.sub.personalities[1].footprint = 2;
    profile.root.start = profile.sub.start = 1;
    profile.subs = SUB_DEVICES;
    profile.presets = 5;
    profile.language_count = 2;
    profile.languages[0] = 0x656E;
    profile.languages[1] = 0x6465;
    profile.slot_count = 4;
    profile.sensor_count = 2;
    profile.sensors[0].support = profile.sensors[1].support = 3;
    profile.sensors[1].at_once = 1;
    profile.test_count = profile.tests[0].number = 1;
    profile.status_text_count = 1;
    profile.status_texts[0].id = 0x8001;
    describe_parameters();
    describe_modes();
}

static void make(void) {
    add(felosumay_responder_new_with(&fixture, MAKER, FIXTURE, &profile, QUEUE_SIZE, ENTRIES, any(2) * 0xFFFFFFFEu));
    job_count = 0;
}

static void put_16(uint8_t *at, uint32_t number) {
    at[0] = (uint8_t)(number >> 8);
    at[1] = (uint8_t)number;
}

static void put_uid(uint8_t *at, uint32_t device) {
    memset(at, 0, 6);
    put_16(at, MAKER);
    at[5] = (uint8_t)device;
}

/* Whom a request is for: as a rule the fixture, now and then all, all of its maker, or another. */
static void put_target(void) {
    const uint32_t kind = any(32);
    put_uid(request + 3, kind == 0 ? FIXTURE + 2 : FIXTURE);
    if (kind == 1 || kind == 2)
        memset(request + (kind == 1 ? 3 : 5), 0xFF, kind == 1 ? 6 : 4);
}

/* Writes a request, most of whose fields are good ones, and says how many bytes it has. */
static uint64_t write_request(void) {
    const uint16_t pid = any_pid();
    const uint32_t length = any(8) != 0 ? any(10) : any(232);
    uint16_t checksum = 0;
    request[0] = 0xCC;
    request[1] = 0x01;
    request[2] = (uint8_t)(24 + length);
    put_target();
    put_uid(request + 9, CONSOLE);
    request[15] = (uint8_t)any(256);
    request[16] = 1;
    request[17] = 0;
    put_16(request + 18, any(64) == 0 ? 0xFFFF : any(4) != 0 ? 0 : any(SUB_DEVICES + 2));
    request[20] = (uint8_t)(pid < 4 ? FELOSUMAY_DISCOVERY : any(64) == 0 ? any(256) : any(2) != 0 ? FELOSUMAY_GET : FELOSUMAY_SET);
    put_16(request + 21, pid);
    request[23] = (uint8_t)length;
    for (uint32_t i = 0; i < length; i++)
        request[24 + i] = (uint8_t)(any(3) != 0 ? any(4) : any(256));
    for (uint32_t i = 0; i < 24 + length; i++)
        checksum = (uint16_t)(checksum + request[i]);
    put_16(request + 24 + length, checksum);
    return 26 + length;
}

/* A request, now and then altered or cut. */
static void hear(void) {
    felosumay_stepped stepped;
    uint64_t count = write_request();
    if (any(32) == 0)
        request[any((uint32_t)count)] ^= 0x20;
    if (any(64) == 0)
        count = any((uint32_t)count + 1);
    add(felosumay_responder_step(&fixture, request, count, reply, &stepped));
    add(stepped.replied);
    add(stepped.changed);
    add(stepped.changed_sub_device);
    add(stepped.changed_parameter);
    if (stepped.replied)
        add_bytes(reply, stepped.count);
    if (!stepped.started)
        return;
    add(stepped.job.number);
    add(stepped.job.estimate);
    add(stepped.job.pid);
    add(stepped.job.worker);
    jobs[job_count % MOST_JOBS] = stepped.job;
    job_count = job_count < MOST_JOBS - 1 ? job_count + 1 : job_count;
}

static void report(void) {
    felosumay_outcome outcome = {0, 0, 0, 0x8001, 1, 2};
    const uint32_t which = any(job_count + 1);
    uint8_t kept = 0;
    outcome.kind = (uint8_t)any(4);
    outcome.severity = (uint8_t)(2 + any(3));
    outcome.reading = (int16_t)any(500);
    if (which == job_count)
        return;
    if (felosumay_responder_arrive(&fixture, &jobs[which], &outcome, &kept) == FELOSUMAY_DONE) {
        memmove(jobs + which, jobs + which + 1, (job_count - which - 1) * sizeof *jobs);
        job_count--;
        add(1u + kept);
    }
}

static void change(void) {
    uint8_t label[33];
    const uint16_t pid = any_pid(), sub = (uint16_t)any(SUB_DEVICES + 2);
    for (uint32_t i = 0; i < sizeof label; i++)
        label[i] = (uint8_t)any(256);
    add(felosumay_responder_change_start(&fixture, (uint16_t)any(514)));
    add(felosumay_responder_change_personality(&fixture, (uint8_t)any(6)));
    add(felosumay_responder_change_label(&fixture, label, any(34)));
    add(felosumay_responder_place(&fixture, sub, pid, label, any(10)));
}

static void look(void) {
    const uint16_t pid = any_pid(), sub = (uint16_t)any(SUB_DEVICES + 2);
    const uint8_t argument = (uint8_t)any(4), severity = (uint8_t)(2 + any(4));
    uint8_t value[FELOSUMAY_VALUE_BYTES], flag = 0;
    uint64_t count = 0;
    uint16_t reason = 0;
    felosumay_result result = felosumay_responder_get(&fixture, sub, pid, &argument, any(2), value, &count, &reason);
    add(result);
    add(result == FELOSUMAY_REFUSED ? reason : 0);
    if (result == FELOSUMAY_DONE)
        add_bytes(value, count);
    if (felosumay_responder_own_value(&fixture, 0x8001, value, &count) == FELOSUMAY_DONE)
        add_bytes(value, count);
    add(felosumay_responder_note(&fixture, sub, severity, 0x8001, 1, 2, &flag));
    add(felosumay_responder_waiting(&fixture, &count) == FELOSUMAY_DONE ? (uint32_t)count : 99);
}

/* Looks at what waits and which jobs are due, and drops the oldest message. */
static void look_at_queue(void) {
    static felosumay_deadlines deadlines;
    static uint32_t now;
    felosumay_message message;
    felosumay_job job;
    uint64_t count = 0;
    uint32_t milliseconds = 0;
    now += any(2000);
    if (felosumay_responder_next_end(&fixture, &deadlines, now, &milliseconds) == FELOSUMAY_DONE)
        add(milliseconds);
    if (felosumay_responder_working(&fixture, (uint8_t)any(3), &job) == FELOSUMAY_DONE)
        add(job.number + job.pid);
    if (felosumay_responder_waiting_message(&fixture, any(QUEUE_SIZE), &message) == FELOSUMAY_DONE)
        add_bytes(message.bytes, message.count);
    add(felosumay_responder_drop_oldest(&fixture));
    add(felosumay_responder_entries(&fixture, &count) == FELOSUMAY_DONE ? (uint32_t)count : 99);
}

/* Saves the values, makes the fixture anew, and restores them from the image, which now and then is altered or cut. */
static void restart(void) {
    uint64_t count = 0;
    add(felosumay_responder_save(&fixture, image, sizeof image, &count));
    add_bytes(image, count);
    if (any(4) == 0)
        image[any((uint32_t)count)] ^= 1;
    make();
    if (any(8) == 0)
        count = any((uint32_t)count);
    add(felosumay_responder_restore(&fixture, image, count));
}

int main(void) {
    describe();
    make();
    for (uint32_t step = 1; step <= STEPS; step++) {
        hear();
        if (any(4) == 0)
            report();
        if (any(32) == 0)
            change();
        if (any(16) == 0)
            look();
        if (any(64) == 0)
            look_at_queue();
        if (any(256) == 0)
            restart();
        if (step % (STEPS / 10) == 0)
            printf("%u steps: %08X\n", (unsigned)step, (unsigned)sum);
    }
    felosumay_responder_free(&fixture);
    return 0;
}
