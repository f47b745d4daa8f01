/* The work of slow commands. Each of two workers has its jobs one after the other, and here a job lasts as long as its estimate says: a
 * real fixture starts its work in jobs_begin, and reports it when the lamp burns or the sensor has measured. */
#include "board.h"
#include "fixture.h"

enum { WORKERS = 2, MILLISECONDS_A_TENTH = 100 };

static uint64_t since[WORKERS]; /* when each worker began the job that it is at, in milliseconds */
static uint16_t hurry = 1;

void jobs_hurry(uint16_t times) {
    hurry = times;
}

/* The library keeps the jobs: a worker that had none begins this one now. */
void jobs_begin(const felosumay_job *job) {
    felosumay_job first;
    if (felosumay_responder_working(&fixture, job->worker, &first) == FELOSUMAY_DONE && first.number == job->number)
        since[job->worker] = board_milliseconds();
}

static uint64_t end_of(const felosumay_job *job) {
    return since[job->worker] + job->estimate * MILLISECONDS_A_TENTH / hurry;
}

/* Finds the job that has ended first, if one has by now. */
static bool has_ended(uint64_t now, felosumay_job *job) {
    bool found = false;
    for (uint8_t worker = 0; worker < WORKERS; worker++) {
        felosumay_job first;
        if (felosumay_responder_working(&fixture, worker, &first) != FELOSUMAY_DONE || end_of(&first) > now)
            continue;
        if (!found || end_of(&first) < end_of(job))
            *job = first;
        found = true;
    }
    return found;
}

/* What came of it: each strike of the lamp fails, and each run of the second self test; a sensor measures 25 and its number. */
static felosumay_outcome outcome_of(const felosumay_job *job) {
    felosumay_outcome outcome = {FELOSUMAY_JOB_DONE, 0, 0, 0, 0, 0};
    if (job->pid == FELOSUMAY_PID_SENSOR_VALUE) {
        outcome.kind = FELOSUMAY_JOB_READING;
        outcome.reading = 25 + job->argument;
    } else if (job->argument == 2 && job->pid != FELOSUMAY_PID_POWER_STATE) {
        outcome.kind = FELOSUMAY_JOB_FAILED;
        outcome.severity = job->pid == FELOSUMAY_PID_LAMP_STATE ? FELOSUMAY_STATUS_ERROR : FELOSUMAY_STATUS_WARNING;
        outcome.id = job->pid == FELOSUMAY_PID_LAMP_STATE ? LAMP_FAILED : TEST_FAILED;
        outcome.v1 = job->argument;
    }
    return outcome;
}

/* The worker begins its next job when this one ended, not when that is reported. */
void jobs_report(void) {
    const uint64_t now = board_milliseconds();
    felosumay_job job;
    uint8_t kept;
    while (has_ended(now, &job)) {
        const felosumay_outcome outcome = outcome_of(&job);
        const uint64_t end = end_of(&job);
        felosumay_responder_arrive(&fixture, &job, &outcome, &kept);
        since[job.worker] = end;
        values_changed();
    }
}
