/* What is answered on handles without a service, and calls on one service from several threads, one at a time.
 *
 *   bindings/build.sh && bindings/out/handles */
#include <pthread.h>
#include <stdio.h>
#include <string.h>

#include "bulkhead.h"

enum { THREADS = 8, STEPS = 2000 };

static const char settings[] = "service.groups = [\"catalog\"]\n";

static bulkhead_service shared = {0};
static pthread_mutex_t lock = PTHREAD_MUTEX_INITIALIZER;

/* Every call on an empty handle is told so, and writes nothing. */
static int all_refused(bulkhead_service *empty) {
    uint64_t number = 7;
    uint8_t command = 7, text[4] = {7, 7, 7, 7};
    size_t length = 7;
    bulkhead_step step = {.operation = BULKHEAD_READ};
    bulkhead_reply reply = {.kind = 7};
    const uint8_t name[] = "catalog";
    int refused = bulkhead_group(empty, name, 7, &number) == BULKHEAD_NOT_OPEN;
    refused &= bulkhead_command(empty, 0, name, 7, &command) == BULKHEAD_NOT_OPEN;
    refused &= bulkhead_make_step(empty, &step, &reply) == BULKHEAD_NOT_OPEN;
    refused &= bulkhead_line(empty, name, 7, text, sizeof text, &length) == BULKHEAD_NOT_OPEN;
    refused &= bulkhead_check(empty, text, sizeof text, &length) == BULKHEAD_NOT_OPEN;
    refused &= bulkhead_close(empty) == BULKHEAD_NOT_OPEN;
    return refused && number == 7 && command == 7 && text[0] == 7 && length == 7 && reply.kind == 7;
}

static uint32_t open_shared(void) {
    uint8_t why[64] = {0};
    size_t length = 0;
    return bulkhead_open(&shared, (const uint8_t *)settings, sizeof settings - 1, why, sizeof why, &length);
}

/* Reads of the one group, each under the lock. */
static void *work(void *told) {
    for (int count = 0; count < STEPS; count++) {
        bulkhead_step step = {.operation = BULKHEAD_READ};
        bulkhead_reply reply = {0};
        pthread_mutex_lock(&lock);
        uint32_t code = bulkhead_make_step(&shared, &step, &reply);
        pthread_mutex_unlock(&lock);
        if (code != BULKHEAD_DONE || reply.kind != BULKHEAD_METRICS)
            *(int *)told = 1;
    }
    return NULL;
}

static int threads_call(void) {
    pthread_t threads[THREADS];
    int failed[THREADS] = {0}, any = 0;
    for (int at = 0; at < THREADS; at++)
        if (pthread_create(&threads[at], NULL, work, &failed[at]))
            return 0;
    for (int at = 0; at < THREADS; at++) {
        pthread_join(threads[at], NULL);
        any |= failed[at];
    }
    return !any;
}

int main(void) {
    bulkhead_service never = {0};
    int holds = all_refused(&never);
    for (int count = 0; count < 2; count++) {
        holds &= open_shared() == BULKHEAD_DONE;
        holds &= threads_call();
        holds &= bulkhead_close(&shared) == BULKHEAD_DONE;
        holds &= all_refused(&shared);
    }
    puts(holds ? "handles: as they should be" : "handles: NOT as they should be");
    return !holds;
}
