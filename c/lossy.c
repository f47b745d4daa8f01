/* A fixture and a console on a line that drops and alters frames at random, and repeats old ones: in 100,000 transactions, polls and
 * commands that start jobs, each message is collected, in order, and whatever comes twice is flagged, since it was asked for again. Its
 * status is 1 if anything is lost, comes twice with no flag, or has a wrong flag. */
#include "felosumay.h"
#include "felosumay_names.h"
#include <stdio.h>
#include <stdlib.h>
#include <string.h>

enum { MAKER = 0x7FF0, FIXTURE = 1, CONSOLE = 2, QUEUE_SIZE = 32, TRANSACTIONS = 100000, DIGITS = 8, READINGS = 30000 };

/* The parameters of the messages that the fixture owes. The place of a message here is the number that it tells: a label all of it, a
 * reading modulo READINGS. */
static uint16_t owed[2 * TRANSACTIONS];

/* How many it owes, how many the console took, and how many it took again. */
static unsigned long owed_count, taken, repeats;

/* The jobs at which the fixture's worker is, the oldest first. */
static felosumay_job jobs[QUEUE_SIZE];
static uint64_t job_count;

/* A number below `most`; each run has the same. */
static unsigned chance(unsigned most) {
    static uint32_t state = 0x9E3779B9;
    state ^= state << 13;
    state ^= state >> 17;
    state ^= state << 5;
    return state % most;
}

/* A frame goes over the line: of a hundred ten are lost, and ten have one byte altered. It says how many bytes arrive. */
static uint64_t carry(uint8_t *bytes, uint64_t count, int is_bad) {
    unsigned fate = is_bad ? chance(100) : 100;
    if (fate < 10)
        return 0;
    if (fate < 20 && count != 0)
        bytes[chance((unsigned)count)] ^= (uint8_t)(1 + chance(255));
    return count;
}

/* The message is the one that is owed in this place. */
static int is_owed(const felosumay_message *message, unsigned long place) {
    char label[DIGITS + 1] = "";
    if (place >= owed_count || message->pid != owed[place])
        return 0;
    if (message->pid == FELOSUMAY_PID_SENSOR_VALUE)
        return message->count == 9 && (message->bytes[1] << 8 | message->bytes[2]) == (int)(place % READINGS);
    if (message->count != DIGITS)
        return 0;
    memcpy(label, message->bytes, DIGITS);
    return strtoul(label, NULL, 10) == place;
}

/* A message is the next of those that the fixture owes, or that before it if its flag says that it may be. The flag is there exactly if
 * the console asked for the last message again. When no message waits, a poll is answered by the status messages. */
static int is_right(const felosumay_message *message, int asked_again) {
    if (message->may_repeat != asked_again)
        return 0;
    if (message->pid == FELOSUMAY_PID_STATUS_MESSAGES)
        return message->count == 0;
    if (asked_again && taken != 0 && is_owed(message, taken - 1)) {
        repeats++;
        return 1;
    }
    return is_owed(message, taken++);
}

/* A request goes to the fixture, and its reply to the console, after the reply to an earlier one, it may be. */
static void exchange(felosumay_collector *console, felosumay_responder *fixture, uint8_t *request, uint64_t count, int is_bad) {
    static uint8_t old[FELOSUMAY_FRAME_BYTES];
    static uint64_t old_count;
    uint8_t reply[FELOSUMAY_FRAME_BYTES];
    felosumay_heard heard = {0, 0, FELOSUMAY_IGNORED};
    felosumay_stepped stepped;
    count = carry(request, count, is_bad);
    felosumay_responder_step(fixture, request, count, reply, &stepped);
    if (stepped.started)
        jobs[job_count++] = stepped.job;
    if (is_bad && chance(100) < 5)
        felosumay_collector_hear(console, old, old_count, &heard);
    count = stepped.replied ? carry(reply, stepped.count, is_bad) : 0;
    if (heard.kind == FELOSUMAY_IGNORED)
        felosumay_collector_hear(console, reply, count, &heard);
    felosumay_collector_over(console);
    memcpy(old, reply, count);
    old_count = count;
}

/* One transaction: a poll, or a command to read a sensor, which takes a job. */
static int transact(felosumay_collector *console, felosumay_responder *fixture, int is_poll, int is_bad) {
    const felosumay_command sensor = {FIXTURE, MAKER, 0, FELOSUMAY_PID_SENSOR_VALUE, FELOSUMAY_GET};
    const uint8_t number = 0;
    uint8_t request[FELOSUMAY_FRAME_BYTES];
    felosumay_message message;
    uint64_t count = 0;
    felosumay_result result = is_poll ? felosumay_collector_poll(console, request, &count)
                                      : felosumay_collector_ask(console, &sensor, &number, 1, request, &count);
    if (result != FELOSUMAY_DONE)
        return 0;
    int asked_again = is_poll && request[24] == FELOSUMAY_STATUS_GET_LAST_MESSAGE;
    exchange(console, fixture, request, count, is_bad);
    while (felosumay_collector_next(console, &message) == FELOSUMAY_DONE)
        if (!is_right(&message, asked_again))
            return 0;
    return 1;
}

/* Somebody renames the fixture at its menu, if there is room for the message. */
static void change(felosumay_responder *fixture) {
    char label[DIGITS + 13];
    snprintf(label, sizeof label, "%0*lu", DIGITS, owed_count);
    if (felosumay_responder_change_label(fixture, (const uint8_t *)label, DIGITS) == FELOSUMAY_DONE)
        owed[owed_count++] = FELOSUMAY_PID_DEVICE_LABEL;
}

/* The fixture's worker ends its oldest job, if it has one. */
static int work(felosumay_responder *fixture) {
    const felosumay_outcome reading = {FELOSUMAY_JOB_READING, 0, (int16_t)(owed_count % READINGS), 0, 0, 0};
    felosumay_job oldest = jobs[0];
    uint8_t kept;
    if (job_count == 0)
        return 1;
    memmove(jobs, jobs + 1, --job_count * sizeof *jobs);
    owed[owed_count++] = FELOSUMAY_PID_SENSOR_VALUE;
    return felosumay_responder_arrive(fixture, &oldest, &reading, &kept) == FELOSUMAY_DONE;
}

int main(void) {
    felosumay_responder fixture = {0};
    felosumay_collector console = {0};
    int is_well = felosumay_responder_demo(&fixture, MAKER, FIXTURE, 0, QUEUE_SIZE) == FELOSUMAY_DONE &&
                  felosumay_collector_new(&console, MAKER, CONSOLE, MAKER, FIXTURE, FELOSUMAY_STATUS_ADVISORY) == FELOSUMAY_DONE;
    for (long i = 0; is_well && i < TRANSACTIONS; i++) {
        if (chance(100) < 40)
            change(&fixture);
        is_well = (chance(100) < 50 || work(&fixture)) && transact(&console, &fixture, chance(100) < 80, 1);
    }
    /* The line is good again, and the worker done: what waits is fetched. */
    while (is_well && job_count != 0)
        is_well = work(&fixture);
    for (int i = 0; is_well && i <= 2 * QUEUE_SIZE; i++)
        is_well = transact(&console, &fixture, 1, 0);
    felosumay_collector_free(&console);
    felosumay_responder_free(&fixture);
    is_well = is_well && taken == owed_count;
    printf("%s: %lu of %lu messages, %lu repeats\n", is_well ? "nothing lost, and each repeat flagged" : "lost, or a wrong flag", taken,
           owed_count, repeats);
    return !is_well;
}
