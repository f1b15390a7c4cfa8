/* Properties that change while the groups run, and all events in numbers, by steps as structs: a circuit that is held open and
 * let go, one pool that takes more, and each way in which a change is refused.
 *
 *   bindings/build.sh && bindings/out/tunes */
#include <stdio.h>
#include <string.h>

#include "bulkhead.h"

static const char settings[] = "service.groups = [\"catalog\", \"payment\"]\n"
                               "service.command.refund.group = \"payment\"\n"
                               "hystrix.threadpool.payment.coreSize = 1\n"
                               "hystrix.threadpool.payment.maxQueueSize = 5\n";

enum { CATALOG = 0, PAYMENT = 1, REFUND = 1 };

static bulkhead_service service = {0};

/* Makes a step with a text, and tells the kind of its reply; 0 where the answer is another status than this. */
static uint32_t kind_of(bulkhead_step step, const char *text, uint32_t status, bulkhead_reply *reply) {
    step.text_length = (uint32_t)strlen(text);
    memcpy(step.text, text, step.text_length);
    return bulkhead_make_step(&service, &step, reply) == status ? reply->kind : 0;
}

/* The kind of the reply to a change, and 7 where it was refused with this status and the reply stayed as it was. */
static uint32_t tuned(uint64_t group, uint8_t command, const char *name, uint64_t value, uint32_t status) {
    bulkhead_step step = {.operation = BULKHEAD_TUNE, .group = group, .command = command, .context = value};
    bulkhead_reply reply = {.kind = 7};
    return kind_of(step, name, status, &reply);
}

static uint32_t submitted(uint64_t group, uint8_t command) {
    bulkhead_step step = {.operation = BULKHEAD_SUBMIT, .group = group, .command = command};
    bulkhead_reply reply = {0};
    return kind_of(step, "order 3", BULKHEAD_DONE, &reply);
}

static uint32_t started(uint64_t group) {
    bulkhead_step step = {.operation = BULKHEAD_START, .group = group};
    bulkhead_reply reply = {0};
    return kind_of(step, "", BULKHEAD_DONE, &reply);
}

/* The further command is held open, and the group's own one is not. */
static int is_held_open(void) {
    int holds = tuned(PAYMENT, REFUND, "circuitBreaker.forceOpen", 1, BULKHEAD_DONE) == BULKHEAD_TUNED;
    holds &= submitted(PAYMENT, REFUND) == BULKHEAD_FALLBACK_DUE;
    holds &= submitted(PAYMENT, 0) == BULKHEAD_QUEUED;
    holds &= tuned(PAYMENT, REFUND, "circuitBreaker.forceOpen", 0, BULKHEAD_DONE) == BULKHEAD_TUNED;
    return holds && submitted(PAYMENT, REFUND) == BULKHEAD_QUEUED;
}

/* One run at a time, and two once the pool is larger. */
static int takes_more(void) {
    int holds = started(PAYMENT) == BULKHEAD_ASSIGNED && started(PAYMENT) == BULKHEAD_IDLE;
    holds &= tuned(PAYMENT, 0, "coreSize", 2, BULKHEAD_DONE) == BULKHEAD_TUNED;
    return holds && started(PAYMENT) == BULKHEAD_ASSIGNED;
}

/* What is refused, before any step; and what the reply refuses. */
static int is_refused(void) {
    int holds = tuned(PAYMENT, 0, "maxQueueSize", 5, BULKHEAD_NO_SUCH_PROPERTY) == 7;
    holds &= tuned(PAYMENT, 0, "", 5, BULKHEAD_NO_SUCH_PROPERTY) == 7;
    holds &= tuned(PAYMENT, 0, "coreSize", 0, BULKHEAD_OUT_OF_RANGE) == 7;
    holds &= tuned(PAYMENT, 0, "coreSize", 65, BULKHEAD_OUT_OF_RANGE) == 7;
    holds &= tuned(PAYMENT, 0, "circuitBreaker.requestVolumeThreshold", 4294967296u, BULKHEAD_OUT_OF_RANGE) == 7;
    holds &= tuned(PAYMENT, 0, "circuitBreaker.forceOpen", 2, BULKHEAD_OUT_OF_RANGE) == 7;
    holds &= tuned(PAYMENT, 0, "\xff", 1, BULKHEAD_NOT_TEXT) == 7;
    holds &= tuned(PAYMENT, 2, "coreSize", 5, BULKHEAD_DONE) == BULKHEAD_NO_COMMAND;
    return holds && tuned(2, 0, "coreSize", 5, BULKHEAD_DONE) == BULKHEAD_NO_GROUP;
}

/* The events of the further command, and what else lies in the reply as it was. */
static int are_counted(void) {
    bulkhead_step step = {.operation = BULKHEAD_READ_TOTALS, .group = PAYMENT, .command = REFUND};
    bulkhead_reply reply = {.metrics = {.circuit = 7, .free = 7, .short_circuited = 7, .success = 7}};
    if (kind_of(step, "", BULKHEAD_DONE, &reply) != BULKHEAD_TOTALS)
        return 0;
    bulkhead_metrics told = reply.metrics;
    return told.circuit == 7 && told.free == 7 && told.short_circuited == 1 && told.success == 0;
}

int main(void) {
    uint8_t why[64] = {0};
    size_t length = 0;
    if (bulkhead_open(&service, (const uint8_t *)settings, sizeof settings - 1, why, sizeof why, &length) != BULKHEAD_DONE)
        return 1;
    int holds = is_held_open() && takes_more() && is_refused() && are_counted();
    holds &= submitted(CATALOG, 0) == BULKHEAD_QUEUED;
    bulkhead_close(&service);
    puts(holds ? "tunes: as they should be" : "tunes: NOT as they should be");
    return !holds;
}
