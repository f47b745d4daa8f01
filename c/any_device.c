/* A console collects from a device of another make, which answers polls by every response type, over a bus that loses a request and a
 * reply. What the device says is a table here. docs/C.md reads it part by part. */
#include "felosumay.h"
#include "felosumay_names.h"
#include <stdio.h>
#include <string.h>

enum { MAKER = 0x7FF0, DEVICE = 1, CONSOLE = 2, MOST_JOINED = 1024 };

typedef enum { HEARD, LOST_REQUEST, LOST_REPLY } passage;

/* What the device says to a poll, and what becomes of it on the bus. */
typedef struct {
    passage fate;
    uint8_t command_class, type;
    uint16_t pid;
    uint8_t count, data[4];
} answer;

static const answer ANSWERS[] = {
    {HEARD, 0x21, FELOSUMAY_ACK_TIMER, FELOSUMAY_PID_QUEUED_MESSAGE, 2, {0, 20}},
    {HEARD, 0x21, FELOSUMAY_NACK, FELOSUMAY_PID_QUEUED_MESSAGE, 2, {0, FELOSUMAY_NR_BUFFER_FULL}},
    {HEARD, 0x31, FELOSUMAY_NACK, FELOSUMAY_PID_LAMP_STATE, 2, {0, FELOSUMAY_NR_HARDWARE_FAULT}}, /* a deferred NACK */
    {HEARD, 0x21, FELOSUMAY_ACK_OVERFLOW, FELOSUMAY_PID_SUPPORTED_PARAMETERS, 4, {0x80, 1, 0x80, 2}},
    {LOST_REPLY, 0x21, FELOSUMAY_ACK_OVERFLOW, FELOSUMAY_PID_SUPPORTED_PARAMETERS, 4, {0x80, 3, 0x80, 4}},
    {HEARD, 0x21, FELOSUMAY_ACK_OVERFLOW, FELOSUMAY_PID_SUPPORTED_PARAMETERS, 4, {0x80, 3, 0x80, 4}},
    {LOST_REQUEST, 0, 0, 0, 0, {0}},
    {HEARD, 0x21, FELOSUMAY_ACK_OVERFLOW, FELOSUMAY_PID_SUPPORTED_PARAMETERS, 4, {0x80, 3, 0x80, 4}},
    {HEARD, 0x21, FELOSUMAY_ACK, FELOSUMAY_PID_SUPPORTED_PARAMETERS, 2, {0x80, 5}},
    {HEARD, 0x21, FELOSUMAY_NACK, FELOSUMAY_PID_QUEUED_MESSAGE, 2, {0, FELOSUMAY_NR_UNKNOWN_PID}},
};

/* Writes a response to a request: it has the request's number, and goes back to its source. */
static uint64_t respond(const uint8_t *request, const answer *said, uint8_t *reply) {
    uint64_t length = 24 + (uint64_t)said->count;
    unsigned sum = 0;
    memcpy(reply, request, 24);
    memcpy(reply + 3, request + 9, 6);
    memcpy(reply + 9, request + 3, 6);
    reply[2] = (uint8_t)length;
    reply[16] = said->type;
    reply[20] = said->command_class;
    reply[21] = (uint8_t)(said->pid >> 8);
    reply[22] = (uint8_t)said->pid;
    reply[23] = said->count;
    memcpy(reply + 24, said->data, said->count);
    for (size_t i = 0; i < length; i++)
        sum += reply[i];
    reply[length] = (uint8_t)(sum >> 8);
    reply[length + 1] = (uint8_t)sum;
    return length + 2;
}

static void show_heard(const felosumay_heard *heard) {
    static const char *const KINDS[] = {"ignored", "message", "reply", "part", "unsupported", "refused", "not yet"};
    printf("%s", KINDS[heard->kind]);
    if (heard->kind == FELOSUMAY_POLL_REFUSED)
        printf(": %s", felosumay_reason_name(heard->reason));
    if (heard->kind == FELOSUMAY_NOT_YET)
        printf(": in %u tenths of a second", heard->tenths);
    printf("\n");
}

/* A message that comes in parts: its last part so far, the data of all, and whether a part may be missing. */
typedef struct {
    felosumay_message last;
    uint64_t count;
    int unsure;
    uint8_t data[MOST_JOINED];
} joined;

static int is_same_parameter(const felosumay_message *one, const felosumay_message *other) {
    return one->command_class == other->command_class && one->pid == other->pid && one->sub == other->sub;
}

static int is_same(const felosumay_message *one, const felosumay_message *other) {
    return is_same_parameter(one, other) && one->type == other->type && one->count == other->count &&
           memcmp(one->bytes, other->bytes, one->count) == 0;
}

static void show_message(const joined *message) {
    printf("  %s:", felosumay_parameter_name(message->last.pid));
    for (size_t i = 0; i < message->count; i++)
        printf(" %02X", message->data[i]);
    if (message->last.type == FELOSUMAY_NACK)
        printf(", %s", felosumay_reason_name(message->last.reason));
    printf("%s\n", message->unsure ? ", unsure" : "");
}

/* Takes what was collected, and shows each message when its last part is there. What comes again is left out. */
static void take(felosumay_collector *console, joined *message) {
    felosumay_message part;
    while (felosumay_collector_next(console, &part) == FELOSUMAY_DONE) {
        const int goes_on = message->last.type == FELOSUMAY_ACK_OVERFLOW && is_same_parameter(&part, &message->last);
        message->unsure = goes_on && (message->unsure || part.after_loss);
        if (part.may_repeat && is_same(&part, &message->last))
            continue;
        if (!goes_on)
            message->count = 0;
        if (message->count + part.count <= MOST_JOINED) {
            memcpy(message->data + message->count, part.bytes, part.count);
            message->count += part.count;
        }
        message->last = part;
        if (part.type != FELOSUMAY_ACK_OVERFLOW)
            show_message(message);
    }
}

/* Polls the device until it says that it has no queue. */
static felosumay_result collect(felosumay_collector *console) {
    static joined message;
    uint8_t request[FELOSUMAY_FRAME_BYTES], reply[FELOSUMAY_FRAME_BYTES];
    felosumay_heard heard = {0, 0, FELOSUMAY_IGNORED};
    uint64_t count = 0;
    for (size_t i = 0; heard.kind != FELOSUMAY_UNSUPPORTED && i < sizeof ANSWERS / sizeof *ANSWERS; i++) {
        felosumay_result result = felosumay_collector_poll(console, request, &count);
        if (result != FELOSUMAY_DONE)
            return result;
        printf("poll%s: ", request[24] == FELOSUMAY_STATUS_GET_LAST_MESSAGE ? " again" : "");
        if (ANSWERS[i].fate == HEARD) {
            felosumay_collector_hear(console, reply, respond(request, &ANSWERS[i], reply), &heard);
            show_heard(&heard);
        } else {
            felosumay_collector_over(console);
            printf("silence\n");
        }
        take(console, &message);
    }
    return FELOSUMAY_DONE;
}

/* A command of the user's meanwhile, and what is refused. */
static felosumay_result command(felosumay_collector *console) {
    const felosumay_command label = {DEVICE, MAKER, 0, FELOSUMAY_PID_DEVICE_LABEL, FELOSUMAY_GET},
                            queue = {DEVICE, MAKER, 0, FELOSUMAY_PID_QUEUED_MESSAGE, FELOSUMAY_GET},
                            none = {DEVICE, MAKER, 0, FELOSUMAY_PID_DEVICE_LABEL, 0x99};
    const answer said = {HEARD, 0x21, FELOSUMAY_ACK, FELOSUMAY_PID_DEVICE_LABEL, 3, {'P', 'A', 'R'}};
    const uint8_t load[232] = {0};
    uint8_t request[FELOSUMAY_FRAME_BYTES], reply[FELOSUMAY_FRAME_BYTES];
    felosumay_message message;
    felosumay_heard heard;
    uint64_t count = 0;
    printf("unknown %u, reserved %u, too long %u\n", felosumay_collector_ask(console, &none, load, 0, request, &count),
           felosumay_collector_ask(console, &queue, load, 1, request, &count),
           felosumay_collector_ask(console, &label, load, 232, request, &count));
    felosumay_result result = felosumay_collector_ask(console, &label, load, 0, request, &count);
    printf("busy %u, %u\n", felosumay_collector_ask(console, &label, load, 0, request, &count),
           felosumay_collector_poll(console, request, &count));
    felosumay_collector_hear(console, reply, respond(request, &said, reply), &heard);
    printf("command: ");
    show_heard(&heard);
    printf("next %u\n", felosumay_collector_next(console, &message));
    return result;
}

int main(void) {
    felosumay_collector console = {0};
    felosumay_result result = felosumay_collector_new(&console, MAKER, CONSOLE, MAKER, DEVICE, FELOSUMAY_STATUS_ADVISORY);
    if (result == FELOSUMAY_DONE)
        result = command(&console);
    if (result == FELOSUMAY_DONE)
        result = collect(&console);
    if (result == FELOSUMAY_DONE) {
        printf("want of 7: %u\n", felosumay_collector_new(&console, MAKER, CONSOLE, MAKER, DEVICE, 7));
        printf("a target of all: %u\n", felosumay_collector_new(&console, MAKER, CONSOLE, 0xFFFF, 0xFFFFFFFF, 2));
        /* the compiler takes no collector for a search; a cast is found out */
        printf("mistaken %u\n", felosumay_search_resume((felosumay_search *)&console, 76));
    }
    felosumay_collector_free(&console);
    printf("absent %u\n", felosumay_collector_over(&console));
    if (result != FELOSUMAY_DONE)
        printf("status %u\n", result);
    return result;
}
