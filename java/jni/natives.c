/* The natives of bulkhead.hystrix.Native. A handle is the address of a `held`, which Java passes back under the one lock of
 * its service and never after its end. Nothing calls Java back but for arrays, and nothing raises an exception. */
#define _GNU_SOURCE
#include <jni.h>
#include <pthread.h>
#include <stdlib.h>
#include <string.h>

#include "bulkhead.h"
#include "bulkhead_hystrix_Native.h"

typedef struct held {
    bulkhead_service service;
    bulkhead_step step;
    bulkhead_reply reply;
} held;

#define HELD(handle) ((held *)(intptr_t)(handle))
#define NATIVE(type, name) JNIEXPORT type JNICALL Java_bulkhead_hystrix_Native_##name

/* What is answered below 0 where the thread's stack is too short for a turn, beside the numbers of the header. */
#define NO_STACK 64

/* A virtual machine refuses a call where less than some 96 KiB of the stack are left. A turn takes a few KiB beyond. */
#define STACK_OF_A_TURN (160u * 1024u)

static _Thread_local uintptr_t stack_end;

static uintptr_t found_stack_end(void) {
    pthread_attr_t attributes;
    void *low = NULL;
    size_t size = 0;
    if (pthread_getattr_np(pthread_self(), &attributes) == 0) {
        pthread_attr_getstack(&attributes, &low, &size);
        pthread_attr_destroy(&attributes);
    }
    return (uintptr_t)low + 1; /* never 0, so that it is looked for once a thread */
}

static int has_stack(void) {
    if (stack_end == 0)
        stack_end = found_stack_end();
    return (uintptr_t)__builtin_frame_address(0) - stack_end >= STACK_OF_A_TURN;
}

/* kind 5 bits, cause 3, fallback 3, command 4, the kind of a reply before it 5, and 43 of the number, which is below 2^41. */
static jlong packed(const bulkhead_reply *reply, uint32_t before) {
    return (jlong)((uint64_t)reply->kind | (uint64_t)(reply->cause & 7) << 5 | (uint64_t)(reply->fallback & 7) << 8 |
                   (reply->command & 15) << 11 | (uint64_t)before << 15 | (reply->number & ((UINT64_C(1) << 43) - 1)) << 20);
}

static jlong answered(uint32_t code, const bulkhead_reply *reply, uint32_t before) {
    return code == BULKHEAD_DONE ? packed(reply, before) : -(jlong)code;
}

/* Fills in the step, and takes out of the reply what its kind may not name. */
static void begin(held *h, uint32_t operation, jint command, jlong moment, jlong ticket) {
    h->step.operation = operation;
    h->step.command = (uint8_t)command;
    h->step.moment = (uint64_t)moment;
    h->step.ticket = (uint64_t)ticket;
    h->reply.cause = h->reply.fallback = 0;
    h->reply.number = h->reply.command = 0;
}

static uint32_t made(held *h) { return bulkhead_make_step(&h->service, &h->step, &h->reply); }

NATIVE(jboolean, isOfHeader)(JNIEnv *env, jclass c) { return bulkhead_version() == BULKHEAD_VERSION; }

NATIVE(jboolean, hasStack)(JNIEnv *env, jclass c) { return has_stack() ? JNI_TRUE : JNI_FALSE; }

/* The handle; 0 where memory was refused; below 0 where the settings are refused, less the length of the reason. */
NATIVE(jlong, open)(JNIEnv *env, jclass c, jbyteArray settings, jbyteArray why) {
    jsize length = (*env)->GetArrayLength(env, settings), room = (*env)->GetArrayLength(env, why);
    held *h = calloc(1, sizeof *h);
    uint8_t *bytes = malloc((size_t)length + 1), *reason = calloc(1, (size_t)room + 1);
    jlong told = 0;
    if (h && bytes && reason) {
        size_t why_length = 0;
        (*env)->GetByteArrayRegion(env, settings, 0, length, (jbyte *)bytes);
        uint32_t code = bulkhead_open(&h->service, bytes, (size_t)length, reason, (size_t)room, &why_length);
        if (code == BULKHEAD_DONE) {
            told = (jlong)(intptr_t)h;
        } else if (code == BULKHEAD_REFUSED) {
            jsize n = why_length < (size_t)room ? (jsize)why_length : room;
            (*env)->SetByteArrayRegion(env, why, 0, n, (jbyte *)reason);
            told = -(jlong)n;
        }
    }
    free(bytes);
    free(reason);
    if (told <= 0)
        free(h);
    return told;
}

NATIVE(void, close)(JNIEnv *env, jclass c, jlong handle) {
    bulkhead_close(&HELD(handle)->service);
    free(HELD(handle));
}

NATIVE(jlong, step)(JNIEnv *env, jclass c, jlong handle, jint operation, jint command, jlong moment, jlong ticket) {
    held *h = HELD(handle);
    if (operation == BULKHEAD_SUBMIT && !has_stack())
        return -NO_STACK;
    begin(h, (uint32_t)operation, command, moment, ticket);
    return answered(made(h), &h->reply, 0);
}

/* The end of a run or of a fallback, and where it was taken the Collect of the same ticket behind it. */
NATIVE(jlong, endAndCollect)(JNIEnv *env, jclass c, jlong handle, jint operation, jlong moment, jlong ticket) {
    held *h = HELD(handle);
    begin(h, (uint32_t)operation, 0, moment, ticket);
    uint32_t code = made(h);
    if (code != BULKHEAD_DONE || h->reply.kind != BULKHEAD_OK)
        return answered(code, &h->reply, 0);
    h->step.operation = BULKHEAD_COLLECT;
    return answered(made(h), &h->reply, BULKHEAD_OK);
}

/* A Submit that may share an answer, under a key that is a number. */
NATIVE(jlong, share)(JNIEnv *env, jclass c, jlong handle, jint command, jlong moment, jlong context, jlong key) {
    held *h = HELD(handle);
    if (!has_stack())
        return -NO_STACK;
    begin(h, BULKHEAD_SUBMIT_SHARED, command, moment, 0);
    h->step.context = (uint64_t)context;
    h->step.key_length = 0;
    for (uint64_t rest = (uint64_t)key; h->step.key_length == 0 || rest; rest /= 10)
        h->step.key[h->step.key_length++] = (uint8_t)('0' + rest % 10);
    for (uint32_t i = 0, n = h->step.key_length; i < n / 2; i++) {
        uint8_t digit = h->step.key[i];
        h->step.key[i] = h->step.key[n - 1 - i];
        h->step.key[n - 1 - i] = digit;
    }
    return answered(made(h), &h->reply, 0);
}

NATIVE(jlong, endContext)(JNIEnv *env, jclass c, jlong handle, jlong moment, jlong context) {
    held *h = HELD(handle);
    begin(h, BULKHEAD_CLOSE_CONTEXT, 0, moment, 0);
    h->step.context = (uint64_t)context;
    return answered(made(h), &h->reply, 0);
}

/* Changes a property, whose name has no more bytes than a step has room for. */
NATIVE(jlong, tune)(JNIEnv *env, jclass c, jlong handle, jint command, jlong moment, jbyteArray name, jlong value) {
    held *h = HELD(handle);
    begin(h, BULKHEAD_TUNE, command, moment, 0);
    h->step.context = (uint64_t)value;
    h->step.text_length = (uint32_t)(*env)->GetArrayLength(env, name);
    (*env)->GetByteArrayRegion(env, name, 0, (jsize)h->step.text_length, (jbyte *)h->step.text);
    uint32_t code = made(h);
    h->step.text_length = 0; /* the texts of all other steps are empty */
    return answered(code, &h->reply, 0);
}

/* Asks for the metrics of a command, which stand in the array in the order of `bulkhead_metrics`. */
NATIVE(jlong, read)(JNIEnv *env, jclass c, jlong handle, jint command, jlong moment, jlongArray metrics) {
    held *h = HELD(handle);
    begin(h, BULKHEAD_READ, command, moment, 0);
    uint32_t code = made(h);
    if (code == BULKHEAD_DONE && h->reply.kind == BULKHEAD_METRICS)
        (*env)->SetLongArrayRegion(env, metrics, 0, (jsize)(sizeof h->reply.metrics / 8), (jlong *)&h->reply.metrics);
    return answered(code, &h->reply, 0);
}
