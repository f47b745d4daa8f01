/* A fixture whose controller doesn't poll: the firmware looks at the messages that wait, drops the oldest to make room, and sleeps until a
 * job is due. The time is a number here; a firmware reads it from a timer. queue.txt has what it prints. */
#include "felosumay.h"
#include "felosumay_names.h"
#include <stdio.h>

enum { MAKER = 0x7FF0, FIXTURE = 1, QUEUE_SIZE = 3, WORKER_OF_LAMPS = 0 };

/* SET LAMP_STATE on, from controller 7FF0:00000002. */
static const uint8_t STRIKE[] = {0xCC, 0x01, 0x19, 0x7F, 0xF0, 0, 0, 0, 1,    0x7F, 0xF0, 0,    0, 0,
                                 2,    0,    1,    0,    0,    0, 0x30, 0x04, 0x03, 1,    1,    0x04, 0x01};

static void show(const char *what, felosumay_result result) {
    printf("%s: %s\n", what, felosumay_status_name(result));
}

/* The messages that wait, the oldest first. */
static void print_waiting(const felosumay_responder *fixture) {
    felosumay_message message;
    for (uint64_t index = 0; felosumay_responder_waiting_message(fixture, index, &message) == FELOSUMAY_DONE; index++) {
        printf("waits: class %02X, %s,", (unsigned)message.command_class, felosumay_parameter_name(message.pid));
        for (uint64_t i = 0; i < message.count; i++)
            printf(" %02X", (unsigned)message.bytes[i]);
        printf("\n");
    }
}

/* A person turns the wheel of the menu, and nobody polls. */
static void turn(felosumay_responder *fixture, uint16_t start) {
    felosumay_result result = felosumay_responder_change_start(fixture, start);
    show("turn", result);
    if (result == FELOSUMAY_NO_ROOM && felosumay_responder_drop_oldest(fixture) == FELOSUMAY_DONE)
        show("turn again", felosumay_responder_change_start(fixture, start));
}

static void print_next_end(const felosumay_responder *fixture, felosumay_deadlines *deadlines, uint32_t now) {
    uint32_t milliseconds = 0;
    felosumay_result result = felosumay_responder_next_end(fixture, deadlines, now, &milliseconds);
    if (result == FELOSUMAY_DONE)
        printf("at %u ms: sleep for %u ms\n", (unsigned)now, (unsigned)milliseconds);
    else
        show("no job is due", result);
}

static void strike(felosumay_responder *fixture, felosumay_deadlines *deadlines, uint32_t now) {
    uint8_t reply[FELOSUMAY_FRAME_BYTES];
    felosumay_stepped stepped;
    show("strike", felosumay_responder_step(fixture, STRIKE, sizeof STRIKE, reply, &stepped));
    print_next_end(fixture, deadlines, now);
}

/* The job that the worker is at has failed, whichever it is: the firmware kept none itself. */
static void end_job(felosumay_responder *fixture) {
    const felosumay_outcome failed = {FELOSUMAY_JOB_FAILED, FELOSUMAY_STATUS_ERROR, 0, 0x8001, 1, 0};
    felosumay_job job;
    uint64_t entries = 0;
    uint8_t kept = 0;
    if (felosumay_responder_working(fixture, WORKER_OF_LAMPS, &job) != FELOSUMAY_DONE)
        return;
    printf("job %u of %s\n", (unsigned)job.number, felosumay_parameter_name(job.pid));
    show("report", felosumay_responder_arrive(fixture, &job, &failed, &kept));
    if (felosumay_responder_entries(fixture, &entries) == FELOSUMAY_DONE)
        printf("status entries that wait: %u\n", (unsigned)entries);
}

static void refuse(felosumay_responder *fixture) {
    felosumay_responder none = {0};
    felosumay_message message;
    felosumay_job job;
    while (felosumay_responder_drop_oldest(fixture) == FELOSUMAY_DONE)
        continue;
    show("drop with none waiting", felosumay_responder_drop_oldest(fixture));
    show("look with none waiting", felosumay_responder_waiting_message(fixture, 0, &message));
    show("job of an idle worker", felosumay_responder_working(fixture, WORKER_OF_LAMPS, &job));
    show("job of worker 2", felosumay_responder_working(fixture, 2, &job));
    show("drop at no responder", felosumay_responder_drop_oldest(&none));
}

int main(void) {
    felosumay_responder fixture = {0};
    static felosumay_deadlines deadlines; /* all 0: it has seen no job */
    felosumay_result result = felosumay_responder_demo(&fixture, MAKER, FIXTURE, 0, QUEUE_SIZE);
    if (result != FELOSUMAY_DONE) {
        printf("status %u\n", result);
        return 1;
    }
    print_next_end(&fixture, &deadlines, 4294966296u);
    strike(&fixture, &deadlines, 4294966296u);
    turn(&fixture, 101);
    turn(&fixture, 102);
    turn(&fixture, 103);
    print_waiting(&fixture);
    print_next_end(&fixture, &deadlines, 1000);
    print_next_end(&fixture, &deadlines, 9000);
    end_job(&fixture);
    print_next_end(&fixture, &deadlines, 9000);
    print_waiting(&fixture);
    refuse(&fixture);
    felosumay_responder_free(&fixture);
    return 0;
}
