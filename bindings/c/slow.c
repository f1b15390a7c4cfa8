/* A slow dependency: a run that takes longer than the timeout of its command is answered by a fallback in time, and its
 * late end counts for nothing. The library has no clock: whoever calls makes the Expire, and before the late Finish, since
 * a Finish with no Expire before it is a success however late it comes.
 *
 *   bindings/build.sh && bindings/out/slow */
#include <stdio.h>
#include <string.h>

#include "bulkhead.h"

static const char settings[] = "service.groups = [\"payment\"]\n"
                               "hystrix.command.payment.execution.isolation.thread.timeoutInMilliseconds = 300\n";

static bulkhead_service service;

/* Makes a step of the group, which is the first one, and answers whether its reply is of the kind. */
static int step(uint64_t moment, uint32_t operation, uint64_t ticket, const char *text, uint32_t kind,
                bulkhead_reply *reply) {
    bulkhead_step step = {.moment = moment, .operation = operation, .ticket = ticket};
    step.text_length = (uint32_t)strlen(text);
    memcpy(step.text, text, step.text_length);
    return bulkhead_make_step(&service, &step, reply) == BULKHEAD_DONE && reply->kind == kind;
}

/* Times out what is due at the moment. A program calls this whenever it looks at its clock, say each five milliseconds,
 * and before each Finish. */
static uint64_t expire(uint64_t moment) {
    bulkhead_reply reply = {0};
    return step(moment, BULKHEAD_EXPIRE, 0, "", BULKHEAD_EXPIRED, &reply) ? reply.number : 0;
}

/* A request whose run begins at the moment, and its ticket; 0 where a step does not go as it should. */
static uint64_t begin(uint64_t moment, const char *order) {
    bulkhead_reply reply = {0};
    if (!step(moment, BULKHEAD_SUBMIT, 0, order, BULKHEAD_QUEUED, &reply))
        return 0;
    return step(moment, BULKHEAD_START, 0, "", BULKHEAD_ASSIGNED, &reply) ? reply.number : 0;
}

/* A run of 120 milliseconds. */
static int in_time(uint64_t moment) {
    bulkhead_reply reply = {0};
    uint64_t ticket = begin(moment, "order 3");
    if (ticket == 0 || expire(moment + 120) != 0)
        return 1;
    if (!step(moment + 120, BULKHEAD_FINISH, ticket, "paid", BULKHEAD_OK, &reply))
        return 1;
    if (!step(moment + 120, BULKHEAD_COLLECT, ticket, "", BULKHEAD_VALUE, &reply))
        return 1;
    printf("order 3: %.*s\n", (int)reply.text_length, reply.text);
    return 0;
}

/* A run of 450 milliseconds: its caller has an answer after 300, and its worker is free again after 450. */
static int late(uint64_t moment) {
    bulkhead_reply reply = {0};
    uint64_t ticket = begin(moment, "order 4");
    if (ticket == 0 || expire(moment + 299) != 0 || expire(moment + 300) != 1)
        return 1;
    if (!step(moment + 300, BULKHEAD_COLLECT, ticket, "", BULKHEAD_RUN_FALLBACK, &reply))
        return 1;
    if (!step(moment + 301, BULKHEAD_FALLBACK_SUCCESS, ticket, "pay on delivery", BULKHEAD_OK, &reply))
        return 1;
    if (!step(moment + 301, BULKHEAD_COLLECT, ticket, "", BULKHEAD_FALLBACK_VALUE, &reply))
        return 1;
    printf("order 4: %.*s\n", (int)reply.text_length, reply.text);
    return !step(moment + 450, BULKHEAD_FINISH, ticket, "paid", BULKHEAD_LATE, &reply);
}

int main(void) {
    uint8_t why[256] = {0};
    size_t why_length = 0;
    if (bulkhead_open(&service, (const uint8_t *)settings, sizeof settings - 1, why, sizeof why, &why_length) != BULKHEAD_DONE)
        return 1;
    int failed = in_time(0) || late(1000);
    bulkhead_close(&service);
    return failed;
}
