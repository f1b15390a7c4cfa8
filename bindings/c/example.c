/* A service of two groups, one of which has two commands: steps as structs, and a line.
 *
 *   bindings/build.sh && bindings/out/example */
#include <stdio.h>
#include <string.h>

#include "bulkhead.h"

static const char settings[] = "service.groups = [\"catalog\", \"payment\"]\n"
                               "service.command.refund.group = \"payment\"\n"
                               "hystrix.threadpool.payment.coreSize = 1\n";

/* Makes the step with a text, and writes what came of it. */
static uint32_t make_step(bulkhead_service *service, bulkhead_step step, const char *text, bulkhead_reply *reply) {
    size_t length = strlen(text);
    if (length > sizeof step.text)
        return BULKHEAD_TOO_LONG;
    step.text_length = (uint32_t)length;
    memcpy(step.text, text, length);
    return bulkhead_make_step(service, &step, reply);
}

/* One request to a command of the group, from its submit at a moment to its answer. */
static int request(bulkhead_service *service, uint64_t group, uint8_t command, uint64_t now, const char *order) {
    bulkhead_reply reply = {0};
    bulkhead_step step = {.group = group, .moment = now, .command = command};
    step.operation = BULKHEAD_SUBMIT;
    if (make_step(service, step, order, &reply) || reply.kind != BULKHEAD_QUEUED)
        return 1;
    step.ticket = reply.number;
    step.operation = BULKHEAD_START;
    if (make_step(service, step, "", &reply) || reply.kind != BULKHEAD_ASSIGNED || reply.command != command)
        return 1;
    printf("ticket %llu of command %llu runs with %.*s\n", (unsigned long long)reply.number,
           (unsigned long long)reply.command, (int)reply.text_length, reply.text);
    step.operation = BULKHEAD_FINISH;
    if (make_step(service, step, "done", &reply) || reply.kind != BULKHEAD_OK)
        return 1;
    step.operation = BULKHEAD_COLLECT;
    if (make_step(service, step, "", &reply) || reply.kind != BULKHEAD_VALUE)
        return 1;
    printf("ticket %llu is answered %.*s\n", (unsigned long long)step.ticket, (int)reply.text_length, reply.text);
    return 0;
}

/* A line, answered by a line. */
static int line(bulkhead_service *service) {
    static const char text[] = "{\"op\":\"submit\",\"group\":\"catalog\",\"now\":30,\"arg\":\"item 7\"}";
    uint8_t answer[BULKHEAD_ANSWER_ROOM] = {0};
    size_t length = 0;
    uint32_t code = bulkhead_line(service, (const uint8_t *)text, sizeof text - 1, answer, sizeof answer, &length);
    if (code != BULKHEAD_DONE)
        return 1;
    printf("%.*s", (int)length, answer);
    return 0;
}

/* A request to each command of the group `payment`, its own one and `refund`, and a line. */
static int requests(bulkhead_service *service) {
    uint64_t payment = 0;
    uint8_t refund = 0;
    if (bulkhead_group(service, (const uint8_t *)"payment", 7, &payment) != BULKHEAD_DONE)
        return 1;
    if (bulkhead_command(service, payment, (const uint8_t *)"refund", 6, &refund) != BULKHEAD_DONE)
        return 1;
    return request(service, payment, 0, 0, "order 3") || request(service, payment, refund, 20, "order 2") || line(service);
}

int main(void) {
    bulkhead_service service = {0};
    uint8_t why[256] = {0};
    size_t why_length = 0;
    if (bulkhead_version() != BULKHEAD_VERSION)
        return 1;
    uint32_t code = bulkhead_open(&service, (const uint8_t *)settings, sizeof settings - 1, why, sizeof why, &why_length);
    if (code == BULKHEAD_REFUSED)
        fprintf(stderr, "%.*s\n", (int)(why_length < sizeof why ? why_length : sizeof why), why);
    if (code != BULKHEAD_DONE)
        return 1;
    int failed = requests(&service);
    bulkhead_close(&service);
    return failed;
}
