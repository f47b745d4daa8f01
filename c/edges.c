/* The edges of the calls: names of what is defined and what isn't, responses of each type, NULL where no byte is read, parameters of the
 * maker's own that are none, jobs that are altered, and what firmware places that no SET may ask for. */
#include "felosumay.h"
#include "felosumay_names.h"
#include <stdio.h>
#include <string.h>

static void names(void) {
    printf("%s, %s, %s\n", felosumay_status_name(FELOSUMAY_DONE), felosumay_status_name(FELOSUMAY_FLASH_FAILED),
           felosumay_status_name(FELOSUMAY_FLASH_FAILED + 1));
    printf("%s, %s, %s\n", felosumay_parameter_name(FELOSUMAY_PID_DISC_UNIQUE_BRANCH),
           felosumay_parameter_name(FELOSUMAY_PID_SUB_DEVICE_STATUS_REPORT_THRESHOLD), felosumay_parameter_name(0x8001));
    printf("%s, %s, %s\n", felosumay_reason_name(FELOSUMAY_NR_UNKNOWN_PID), felosumay_reason_name(FELOSUMAY_NR_PROXY_BUFFER_FULL),
           felosumay_reason_name(0xFFFF));
    printf("version %s\n", strcmp(felosumay_version(), FELOSUMAY_VERSION) == 0 ? "of the header" : "of another header");
}

/* A response with this class, response type and data; the checksum is right. */
static uint64_t respond(uint8_t *bytes, uint8_t command_class, uint8_t type, const char *data, uint64_t length) {
    const uint8_t head[24] = {0xCC, 0x01, 0, 0x7F, 0xF0, 0, 0, 0, 2, 0x7F, 0xF0, 0, 0, 0, 1, 9, 0, 3, 0, 5, 0, 0x04, 0x03, 0};
    unsigned sum = 0;
    memcpy(bytes, head, sizeof head);
    memcpy(bytes + sizeof head, data, length);
    bytes[2] = (uint8_t)(24 + length);
    bytes[16] = type;
    bytes[20] = command_class;
    bytes[23] = (uint8_t)length;
    for (size_t i = 0; i < 24 + length; i++)
        sum += bytes[i];
    bytes[24 + length] = (uint8_t)(sum >> 8);
    bytes[25 + length] = (uint8_t)sum;
    return 26 + length;
}

static void show(uint8_t command_class, uint8_t type, const char *data, uint64_t length) {
    uint8_t bytes[FELOSUMAY_FRAME_BYTES];
    felosumay_reply reply;
    uint64_t count = respond(bytes, command_class, type, data, length);
    felosumay_result result = felosumay_reply_read(bytes, count, &reply);
    printf("class %02X, type %u, %u bytes: %s", command_class, type, (unsigned)length, felosumay_status_name(result));
    if (result == FELOSUMAY_DONE)
        printf(": type %u, reason %u, %u tenths, from %04X:%08X, sub-device %u, %s, %u wait, %u bytes", reply.type, reply.reason,
               reply.tenths, reply.maker, (unsigned)reply.device, reply.sub, felosumay_parameter_name(reply.pid), reply.waiting,
               (unsigned)reply.count);
    printf("\n");
}

static void replies(void) {
    felosumay_reply unread;
    show(0x21, FELOSUMAY_ACK, "\x02", 1);
    show(0x31, FELOSUMAY_ACK_TIMER, "\x01\x2C", 2);
    show(0x31, FELOSUMAY_ACK_TIMER, "\x01\x2C\x00", 3);
    show(0x21, FELOSUMAY_NACK, "\x00\x06", 2);
    show(0x21, FELOSUMAY_NACK, "", 0);
    show(0x11, FELOSUMAY_ACK_OVERFLOW, "\x01\x02\x03", 3);
    show(0x21, 4, "", 0);
    show(0x20, FELOSUMAY_ACK, "", 0);
    printf("no bytes: %s\n", felosumay_status_name(felosumay_reply_read(NULL, 0, &unread)));
}

/* NULL with length 0, and NULL where `free` has nothing to do. */
static felosumay_result nothing(void) {
    const felosumay_command identify = {1, 0x7FF0, 0, FELOSUMAY_PID_IDENTIFY_DEVICE, FELOSUMAY_GET};
    felosumay_responder fixture = {0};
    felosumay_collector console = {0};
    felosumay_search search = {0};
    felosumay_stepped stepped;
    felosumay_heard heard;
    felosumay_image image;
    uint8_t frame[FELOSUMAY_FRAME_BYTES], value[FELOSUMAY_VALUE_BYTES], header[FELOSUMAY_IMAGE_HEADER_BYTES], area = 0;
    uint64_t count = 0;
    uint16_t reason = 0;
    felosumay_responder_free(NULL);
    felosumay_collector_free(NULL);
    felosumay_search_free(NULL);
    felosumay_result result = felosumay_responder_demo(&fixture, 0x7FF0, 1, 0, 8);
    if (result == FELOSUMAY_DONE)
        result = felosumay_collector_new(&console, 0x7FF0, 2, 0x7FF0, 1, FELOSUMAY_STATUS_ADVISORY);
    if (result == FELOSUMAY_DONE)
        result = felosumay_search_new(&search, 0x7FF0, 2, 76);
    if (result == FELOSUMAY_DONE) {
        printf("step %u", felosumay_responder_step(&fixture, NULL, 0, frame, &stepped));
        printf(", label %u", felosumay_responder_change_label(&fixture, NULL, 0));
        printf(", place %u", felosumay_responder_place(&fixture, 0, FELOSUMAY_PID_DEVICE_LABEL, NULL, 0));
        printf(", get %u", felosumay_responder_get(&fixture, 0, FELOSUMAY_PID_DEVICE_LABEL, NULL, 0, value, &count, &reason));
        printf(", save %u", felosumay_responder_save(&fixture, NULL, 0, &count));
        printf(", restore %u", felosumay_responder_restore(&fixture, NULL, 0));
        printf(", image %u", felosumay_images_read(0, NULL, 0, &image));
        printf(", next image %u", felosumay_images_next(0, &image, &image, NULL, 0, header, &area));
        printf(", ask %u", felosumay_collector_ask(&console, &identify, NULL, 0, frame, &count));
        printf(", hear %u", felosumay_collector_hear(&console, NULL, 0, &heard));
        printf(", search hears %u\n", felosumay_search_hear(&search, NULL, 0));
    }
    felosumay_search_free(&search);
    felosumay_collector_free(&console);
    felosumay_responder_free(&fixture);
    return result;
}

static felosumay_parameter parameters[33];
static felosumay_profile profile;

/* A good profile, with two bytes of 1 to 9 as its own parameters, and 15 more that it doesn't count. */
static void begin(void) {
    const felosumay_parameter number = {1, 9, 0x8000, FELOSUMAY_DS_UNSIGNED_BYTE, FELOSUMAY_CC_GET_SET, 0, 0, 0, 1,
                                        {1, {5}}, FELOSUMAY_TEXT("Number"), FELOSUMAY_NO_FIELDS};
    memset(&profile, 0, sizeof profile);
    profile.root.personality_count = profile.sub.personality_count = 1;
    profile.root.start = profile.sub.start = 1;
    profile.language_count = 1;
    for (uint16_t i = 0; i < 33; i++) {
        parameters[i] = number;
        parameters[i].pid = (uint16_t)(0x8000 + i);
    }
    profile.parameters = parameters;
    profile.parameter_count = 2;
}

/* Which rule is broken, and what `new` says of it; then all is good again. */
static void judge(const char *what) {
    felosumay_responder fixture = {0};
    uint8_t fault = felosumay_profile_fault(&profile);
    printf("%s: fault %u", what, fault);
    if (fault != FELOSUMAY_NO_FAULT)
        printf(", %s", felosumay_status_name(felosumay_responder_new(&fixture, 0x7FF0, 1, &profile, 8)));
    printf("\n");
    felosumay_responder_free(&fixture);
    begin();
}

static void own_parameters(void) {
    begin();
    judge("two numbers");
    profile.parameters = NULL;
    profile.parameter_count = 0;
    judge("NULL");
    profile.parameter_count = 33;
    judge("33 of them");
    parameters[1].pid = 0xFFE0;
    judge("PID FFE0");
    parameters[1].pid = FELOSUMAY_PID_DEVICE_LABEL;
    judge("a PID of the table");
    parameters[1].pid = 0x8000;
    judge("a PID twice");
    parameters[1].high = 0;
    judge("upside down");
    parameters[1].high = 256;
    judge("256 in a byte");
    parameters[1].low = -1;
    judge("-1 in a byte without sign");
    parameters[1].kind = 0x09;
    judge("no type");
    parameters[1].commands = 0;
    judge("no commands");
    parameters[1].kind = FELOSUMAY_DS_BIT_FIELD;
    parameters[1].size = 33;
    judge("33 slots of bits");
    parameters[1].start.bytes[0] = 10;
    judge("10 to start with, of 1 to 9");
    parameters[1].start.count = 2;
    judge("two bytes to start with, of one");
    parameters[0].pid = 0x8002;
    judge("a greater PID first");
}

/* Parameters of the standard that are left out. */
static void left_out(void) {
    static const uint16_t required[1] = {FELOSUMAY_PID_DEVICE_INFO}, needed[1] = {FELOSUMAY_PID_LANGUAGE_CAPABILITIES};
    static uint16_t many[37];
    for (size_t i = 0; i < 37; i++)
        many[i] = FELOSUMAY_PID_LAMP_STATE;
    profile.without = required;
    profile.without_count = 1;
    judge("without DEVICE_INFO");
    profile.without = needed;
    profile.without_count = 1;
    judge("without the languages of LANGUAGE");
    profile.without = many;
    profile.without_count = 36;
    judge("36 left out");
    profile.without = many;
    profile.without_count = 37;
    judge("37 left out");
    profile.without = NULL;
    profile.without_count = 0;
    judge("NULL");
}

/* Which worker has the job of each slow command, and how long it takes; or that there is no job. */
static felosumay_result jobs(const char *what) {
    static const felosumay_command commands[4] = {
        {1, 0x7FF0, 0, FELOSUMAY_PID_LAMP_STATE, FELOSUMAY_SET},
        {1, 0x7FF0, 0, FELOSUMAY_PID_POWER_STATE, FELOSUMAY_SET},
        {1, 0x7FF0, 0, FELOSUMAY_PID_PERFORM_SELFTEST, FELOSUMAY_SET},
        {1, 0x7FF0, 0, FELOSUMAY_PID_SENSOR_VALUE, FELOSUMAY_GET},
    };
    static const uint8_t bytes[4] = {1, 1, 1, 0};
    felosumay_responder fixture = {0};
    felosumay_collector console = {0};
    felosumay_stepped stepped;
    uint8_t frame[FELOSUMAY_FRAME_BYTES], reply[FELOSUMAY_FRAME_BYTES];
    uint64_t count = 0;
    felosumay_result result = felosumay_responder_new(&fixture, 0x7FF0, 1, &profile, 8);
    if (result == FELOSUMAY_DONE)
        result = felosumay_collector_new(&console, 0x7FF0, 2, 0x7FF0, 1, FELOSUMAY_STATUS_ADVISORY);
    if (result == FELOSUMAY_DONE) {
        printf("%s:", what);
        for (int i = 0; i < 4; i++) {
            felosumay_collector_ask(&console, &commands[i], &bytes[i], 1, frame, &count);
            felosumay_responder_step(&fixture, frame, count, reply, &stepped);
            felosumay_collector_over(&console);
            if (stepped.started)
                printf(" %u of worker %u,", stepped.job.estimate, stepped.job.worker);
            else
                printf(" no job,");
        }
        printf(" and that is all\n");
    }
    felosumay_collector_free(&console);
    felosumay_responder_free(&fixture);
    return result;
}

/* Times and workers of slow commands, and a sensor that is answered at once. */
static felosumay_result slow(void) {
    const felosumay_estimates times = {1, 2, 65535, 0};
    const felosumay_workers workers = {FELOSUMAY_WORKER_1, FELOSUMAY_WORKER_0, FELOSUMAY_WORKER_0, FELOSUMAY_WORKER_USUAL};
    const felosumay_workers others = {FELOSUMAY_WORKER_0, FELOSUMAY_WORKER_1, FELOSUMAY_WORKER_1, 255};
    /* Neither list is there, and `new` takes NULL for both. */
    profile.parameters = NULL;
    profile.parameter_count = 0;
    profile.test_count = profile.sensor_count = 1;
    profile.tests[0].number = 1;
    felosumay_result result = jobs("usual times and workers");
    profile.estimates = times;
    profile.workers = workers;
    if (result == FELOSUMAY_DONE)
        result = jobs("other ones");
    profile.workers = others;
    profile.sensors[0].at_once = 1;
    if (result == FELOSUMAY_DONE)
        result = jobs("a sensor at once");
    begin();
    return result;
}

/* What DISC_MUTE is answered with: the control field, and the binding UID if there is one. */
static felosumay_result mute(const char *what) {
    static const uint8_t frame[FELOSUMAY_FRAME_BYTES] = {0xCC, 1, 24, 0x7F, 0xF0, 0, 0, 0, 1, 0x7F, 0xF0, 0, 0,
                                                         0,    2, 0,  1,    0,    0, 0, 0x10, 0, 2, 0,    3,    0xD9};
    felosumay_responder fixture = {0};
    felosumay_stepped stepped;
    uint8_t reply[FELOSUMAY_FRAME_BYTES];
    felosumay_result result = felosumay_responder_new(&fixture, 0x7FF0, 1, &profile, 8);
    if (result == FELOSUMAY_DONE) {
        felosumay_responder_step(&fixture, frame, 26, reply, &stepped);
        printf("%s:", what);
        for (uint64_t i = 24; i + 2 < stepped.count; i++)
            printf(" %02X", reply[i]);
        printf("\n");
    }
    felosumay_responder_free(&fixture);
    return result;
}

/* A fixture with one port, and the last of several, which waits for firmware behind a proxy, and has a sub-device. */
static felosumay_result mutes(void) {
    static const uint8_t first[6] = {0x7F, 0xF0, 0x12, 0x34, 0x56, 0x78};
    felosumay_result result = mute("DISC_MUTE, one port");
    profile.boot_loader = 1;
    profile.proxied_device = 255;
    profile.subs = 1;
    memcpy(profile.binding_uid, first, sizeof first);
    if (result == FELOSUMAY_DONE)
        result = mute("a boot loader behind a proxy, with a sub-device and several ports");
    begin();
    return result;
}

/* A demonstration fixture, and a console. */
typedef struct {
    felosumay_responder fixture;
    felosumay_collector console;
} pair;

static felosumay_result make(pair *made) {
    felosumay_result result = felosumay_responder_demo(&made->fixture, 0x7FF0, 1, 2, 8);
    return result == FELOSUMAY_DONE ? felosumay_collector_new(&made->console, 0x7FF0, 2, 0x7FF0, 1, FELOSUMAY_STATUS_ADVISORY) : result;
}

static void give_up(pair *made) {
    felosumay_collector_free(&made->console);
    felosumay_responder_free(&made->fixture);
}

/* One request of the console's: what the fixture makes of it, and what it replies. */
static felosumay_stepped send(pair *made, const uint8_t *request, uint64_t count, felosumay_reply *reply) {
    uint8_t bytes[FELOSUMAY_FRAME_BYTES];
    felosumay_heard heard;
    felosumay_stepped stepped;
    felosumay_responder_step(&made->fixture, request, count, bytes, &stepped);
    felosumay_collector_hear(&made->console, bytes, stepped.count, &heard);
    felosumay_reply_read(bytes, stepped.count, reply);
    return stepped;
}

static felosumay_stepped command(pair *made, uint16_t pid, uint8_t command_class, uint8_t byte, felosumay_reply *reply) {
    const felosumay_command asked = {1, 0x7FF0, 0, pid, command_class};
    uint8_t request[FELOSUMAY_FRAME_BYTES];
    uint64_t count = 0;
    felosumay_collector_ask(&made->console, &asked, &byte, 1, request, &count);
    return send(made, request, count, reply);
}

/* The job of SET LAMP_STATE, with each of its fields altered in turn, and then as it is. */
static felosumay_result altered_jobs(void) {
    const felosumay_outcome done = {FELOSUMAY_JOB_DONE, 0, 0, 0, 0, 0};
    pair made = {{0}, {0}};
    felosumay_reply reply;
    felosumay_result result = make(&made);
    if (result == FELOSUMAY_DONE) {
        const felosumay_job job = command(&made, FELOSUMAY_PID_LAMP_STATE, FELOSUMAY_SET, FELOSUMAY_LAMP_ON, &reply).job;
        felosumay_job altered[7] = {job, job, job, job, job, job, job};
        uint8_t kept;
        uint64_t outstanding = 0;
        altered[0].number++;
        altered[1].estimate++;
        altered[2].sub = 1;
        altered[3].pid = FELOSUMAY_PID_POWER_STATE;
        altered[4].command_class = FELOSUMAY_GET;
        altered[5].argument = FELOSUMAY_LAMP_STANDBY;
        altered[6].worker = 1;
        printf("altered jobs:");
        for (int i = 0; i < 7; i++)
            printf(" %s,", felosumay_status_name(felosumay_responder_arrive(&made.fixture, &altered[i], &done, &kept)));
        felosumay_responder_outstanding(&made.fixture, &outstanding);
        printf(" outstanding %u, as it is %s", (unsigned)outstanding,
               felosumay_status_name(felosumay_responder_arrive(&made.fixture, &job, &done, &kept)));
        printf(", again %s\n", felosumay_status_name(felosumay_responder_arrive(&made.fixture, &job, &done, &kept)));
    }
    give_up(&made);
    return result;
}

/* What is placed of these bytes, at the root and at a sub-device, and is read then. */
static void place_each(pair *made, uint16_t pid, const uint8_t *bytes, uint64_t count) {
    printf("place %s:", felosumay_parameter_name(pid));
    for (uint16_t sub = 0; sub < 2; sub++)
        for (size_t i = 0; i < count; i++) {
            uint8_t value[FELOSUMAY_VALUE_BYTES];
            uint64_t read = 0;
            uint16_t reason = 0;
            felosumay_result status = felosumay_responder_place(&made->fixture, sub, pid, bytes + i, 1);
            felosumay_responder_get(&made->fixture, sub, pid, NULL, 0, value, &read, &reason);
            printf(" %02X %s%s,", bytes[i], felosumay_status_name(status), (value[0] == bytes[i]) == (status == FELOSUMAY_DONE) ? "" : "?");
        }
    printf(" and that is all\n");
}

/* What firmware knows of a lamp, and no SET may ask for. */
static felosumay_result lamps(void) {
    static const uint8_t states[] = {0x03, 0x04, 0x05, 0x7E, 0x7F, 0x80, 0xDF, 0xE0}, modes[] = {0x03, 0x04, 0x7F, 0x80, 0xDF, 0xE0};
    pair made = {{0}, {0}};
    felosumay_reply reply;
    felosumay_result result = make(&made);
    if (result == FELOSUMAY_DONE) {
        place_each(&made, FELOSUMAY_PID_LAMP_STATE, states, sizeof states);
        place_each(&made, FELOSUMAY_PID_LAMP_ON_MODE, modes, sizeof modes);
        command(&made, FELOSUMAY_PID_LAMP_STATE, FELOSUMAY_SET, FELOSUMAY_LAMP_ERROR, &reply);
        printf("SET LAMP_STATE 7F: %s\n", felosumay_reason_name(reply.reason));
    }
    give_up(&made);
    return result;
}

/* A sensor that starts with what it measures, 24, and measures 26 then. */
static felosumay_result sensors(void) {
    static const uint8_t start[9] = {0, 0, 24, 0, 24, 0, 24, 0, 0};
    const felosumay_outcome reading = {FELOSUMAY_JOB_READING, 0, 26, 0, 0, 0};
    pair made = {{0}, {0}};
    felosumay_reply reply;
    felosumay_result result = make(&made);
    if (result == FELOSUMAY_DONE) {
        uint8_t request[FELOSUMAY_FRAME_BYTES], kept;
        uint64_t count = 0;
        felosumay_responder_place(&made.fixture, 0, FELOSUMAY_PID_SENSOR_VALUE, start, sizeof start);
        const felosumay_stepped stepped = command(&made, FELOSUMAY_PID_SENSOR_VALUE, FELOSUMAY_GET, 0, &reply);
        felosumay_responder_arrive(&made.fixture, &stepped.job, &reading, &kept);
        result = felosumay_collector_poll(&made.console, request, &count);
        send(&made, request, count, &reply);
        printf("a sensor that starts with 24:");
        for (size_t i = 0; i < reply.count; i++)
            printf(" %02X", reply.bytes[i]);
        printf("\n");
    }
    give_up(&made);
    return result;
}

int main(void) {
    felosumay_result result = nothing();
    names();
    replies();
    own_parameters();
    left_out();
    if (result == FELOSUMAY_DONE)
        result = slow();
    if (result == FELOSUMAY_DONE)
        result = mutes();
    if (result == FELOSUMAY_DONE)
        result = altered_jobs();
    if (result == FELOSUMAY_DONE)
        result = lamps();
    if (result == FELOSUMAY_DONE)
        result = sensors();
    if (result != FELOSUMAY_DONE)
        printf("status %u\n", result);
    return result;
}
