/* Prints what a step costs by a call of the library: nanoseconds of processor time, the mean of a submit, a start, a
 * finish and a collect, and the best of some runs.
 *
 *   steps GROUPS HELD STEPS RUNS
 *
 * Each of the groups holds so many tickets: all but one of them are finished and not collected, and one goes round. */
#include <stdio.h>
#include <stdlib.h>
#include <string.h>
#include <time.h>

#include "bulkhead.h"

static bulkhead_step step;
static bulkhead_reply reply;
static uint64_t moment = 1;

/* Makes a step of the group, whose reply has to be of the kind. */
static void make(bulkhead_service *service, uint32_t operation, uint64_t group, uint32_t text_length, uint32_t kind) {
    step.operation = operation;
    step.group = group;
    step.moment = moment;
    step.text_length = text_length;
    if (bulkhead_make_step(service, &step, &reply) != BULKHEAD_DONE || reply.kind != kind) {
        fprintf(stderr, "a step did not go as it should: operation %u, reply %u\n", operation, reply.kind);
        exit(1);
    }
}

/* A request of the group up to the end of its run. */
static void run_one(bulkhead_service *service, uint64_t group) {
    make(service, BULKHEAD_SUBMIT, group, 8, BULKHEAD_QUEUED);
    make(service, BULKHEAD_START, group, 0, BULKHEAD_ASSIGNED);
    step.ticket = reply.number;
    make(service, BULKHEAD_FINISH, group, 16, BULKHEAD_OK);
}

/* Opens a service of so many groups with so many slots each. */
static void open_groups(bulkhead_service *service, unsigned groups, unsigned slots) {
    char *settings = malloc(64 + 16 * (size_t)groups), *end = settings;
    end += sprintf(end, "service.slots.default = %u\nservice.groups = [", slots);
    for (unsigned i = 0; i < groups; i++)
        end += sprintf(end, "\"g%u\",", i);
    end += sprintf(end, "]\n");
    uint8_t why[256] = {0};
    size_t why_length = 0;
    if (bulkhead_open(service, (uint8_t *)settings, (size_t)(end - settings), why, sizeof why, &why_length) != BULKHEAD_DONE) {
        fprintf(stderr, "%.*s\n", (int)why_length, why);
        exit(1);
    }
    free(settings);
}

/* The nanoseconds of processor time since the process began. */
static double now(void) {
    struct timespec at;
    clock_gettime(CLOCK_PROCESS_CPUTIME_ID, &at);
    return 1e9 * (double)at.tv_sec + (double)at.tv_nsec;
}

int main(int count, char **words) {
    if (count != 5)
        return 2;
    unsigned groups = (unsigned)atoi(words[1]), held = (unsigned)atoi(words[2]), runs = (unsigned)atoi(words[4]);
    unsigned long rounds = strtoul(words[3], NULL, 10) / 4 / groups;
    double best = 0;
    bulkhead_service service = {0};
    open_groups(&service, groups, held);
    memset(step.text, 'x', sizeof step.text);
    for (unsigned group = 0; group < groups; group++)
        for (unsigned i = 1; i < held; i++)
            run_one(&service, group);
    for (unsigned run = 0; run < runs; run++) {
        double before = now();
        for (unsigned long round = 0; round < rounds; round++, moment += 3)
            for (unsigned group = 0; group < groups; group++) {
                run_one(&service, group);
                make(&service, BULKHEAD_COLLECT, group, 0, BULKHEAD_VALUE);
            }
        double taken = (now() - before) / (4.0 * (double)rounds * groups);
        best = run == 0 || taken < best ? taken : best;
    }
    printf("%u groups of %u tickets: %.0f ns a step\n", groups, held, best);
    bulkhead_close(&service);
    return 0;
}
