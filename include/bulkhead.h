/* The command service bulkhead, for programs in C and for all that can call C.
 *
 * A service has groups. It is handed steps, each with a moment, and gives a reply to each; it knows no clock, starts no
 * thread and calls nothing back. Its first groups are those of the settings file; a line may register further ones, and
 * retire a group that nobody uses. docs/FORMATS.md tells the settings file, the lines and the replies, and
 * docs/DEFINITIONS.md what each step does.
 *
 * What every call keeps to:
 *
 * - Calls on a service come from any thread, one at a time: where several threads make them, a lock or the like orders
 *   them. Nothing in the library belongs to a thread. Two services know nothing of one another, and calls on different
 *   ones may be made at the same time.
 * - No pointer may be null, also where its length is 0. What a pointer leads to has to be there until the call returns,
 *   initialized as a whole, as {0} does it, and may not overlap what another parameter of the same call leads to.
 * - A length is the number of bytes at the pointer before it, and is below 2^63.
 * - Nothing is called from a signal handler, or from the forked child of a process with threads.
 * - Memory comes from malloc, realloc and free of the program, which belong together.
 *
 * Every function but bulkhead_version answers one of the numbers under "What a call comes to". Wherever it is not
 * BULKHEAD_DONE, nothing was done: the service, the reply and the bytes of a buffer are as they were, save that a refused
 * opening writes its reason. Where no service is open, every function but bulkhead_version and bulkhead_open answers
 * BULKHEAD_NOT_OPEN, and writes nothing.
 */
#ifndef BULKHEAD_H
#define BULKHEAD_H

#include <stddef.h>
#include <stdint.h>

#ifdef __cplusplus
extern "C" {
#endif

/* The version of this interface. A program that was compiled with this file may use a library whose bulkhead_version
 * answers the same number. */
#define BULKHEAD_VERSION 4u

/* The version of the program, the library and the Python package, which are released together. */
#define BULKHEAD_RELEASE "1.0.0"

/* What a call comes to. */
#define BULKHEAD_DONE 0u              /* the call did what it is for */
#define BULKHEAD_REFUSED 1u           /* the settings are refused */
#define BULKHEAD_NO_MEMORY 2u         /* memory was refused */
#define BULKHEAD_NO_ROOM 3u           /* the buffer is too short; the length that suffices was written */
#define BULKHEAD_BAD_LINE 4u          /* the line is of more than 1,024 bytes, or not UTF-8 */
#define BULKHEAD_NO_SUCH_GROUP 5u     /* no group that is there has the name */
#define BULKHEAD_NOT_TEXT 6u          /* a text is not UTF-8 */
#define BULKHEAD_TOO_LONG 7u          /* a text of a step is longer than it may be */
#define BULKHEAD_NO_SUCH_OPERATION 8u /* no operation has the number */
#define BULKHEAD_NO_SUCH_COMMAND 9u   /* no command of the group has the name */
#define BULKHEAD_NOT_OPEN 10u         /* no service is open: none was opened, or it was closed */
#define BULKHEAD_NO_SUCH_PROPERTY 11u /* no property of the name may change while a group runs */
#define BULKHEAD_OUT_OF_RANGE 12u     /* the value is out of the range of its property */

/* What a program holds of a service. Begin with {0}, which is empty, let bulkhead_open fill it, and neither read nor
 * write nor copy it: a service is open from then until bulkhead_close, which leaves it empty again. */
typedef struct bulkhead_service {
    void *of_the_library;
} bulkhead_service;

/* What a step does, for `operation` of a step. In brackets the fields that count beside `group` and `moment`. */
#define BULKHEAD_SUBMIT 1u            /* asks for a run [command; text: the argument] */
#define BULKHEAD_SUBMIT_SHARED 2u     /* the same, and may share the answer [command, context, key, text] */
#define BULKHEAD_START 3u             /* a worker asks for a run to do */
#define BULKHEAD_FINISH 4u            /* the run of a ticket gave a body [ticket, text: the body] */
#define BULKHEAD_FAIL 5u              /* the run of a ticket failed [ticket] */
#define BULKHEAD_FAIL_BAD_REQUEST 6u  /* the request of a ticket was bad [ticket] */
#define BULKHEAD_EXPIRE 7u            /* times out what is due */
#define BULKHEAD_COLLECT 8u           /* asks for the answer of a ticket [ticket] */
#define BULKHEAD_FALLBACK_SUCCESS 9u  /* the fallback of a ticket gave a body [ticket, text: the body] */
#define BULKHEAD_FALLBACK_FAILURE 10u /* the fallback of a ticket failed [ticket] */
#define BULKHEAD_FALLBACK_MISSING 11u /* the ticket has no fallback [ticket] */
#define BULKHEAD_CLOSE_CONTEXT 12u    /* ends a request context [context] */
#define BULKHEAD_READ 13u             /* asks for the metrics of a command [command] */
#define BULKHEAD_TUNE 14u             /* changes a property [command, text: the name of the property, context: the value] */
#define BULKHEAD_READ_TOTALS 15u      /* asks how many events of a command there were in all [command] */

/* What BULKHEAD_TUNE may change, and for whom. The property has the value from this step on, for whatever comes and for the
 * tickets that are there; tickets, counts and circuits stay as they are. The names are those of the settings file, without
 * what stands in front of them there. A number is 0 to 4,294,967,295 where nothing else is said; of a truth value 0 is false
 * and 1 is true, and any other number is out of range. The last two are of the thread pool of the group, whichever of its
 * commands is named.
 *
 *   execution.isolation.thread.timeoutInMilliseconds       a number
 *   execution.timeout.enabled                              a truth value
 *   execution.isolation.semaphore.maxConcurrentRequests    a number
 *   fallback.isolation.semaphore.maxConcurrentRequests     a number
 *   fallback.enabled                                       a truth value
 *   circuitBreaker.enabled                                 a truth value
 *   circuitBreaker.requestVolumeThreshold                  a number
 *   circuitBreaker.sleepWindowInMilliseconds               a number
 *   circuitBreaker.errorThresholdPercentage                a number
 *   circuitBreaker.forceOpen                               a truth value
 *   circuitBreaker.forceClosed                             a truth value
 *   metrics.healthSnapshot.intervalInMilliseconds          a number
 *   requestCache.enabled                                   a truth value
 *   coreSize                                               a number, 1 to 64
 *   queueSizeRejectionThreshold                            a number
 *
 * The library starts no worker: after a larger coreSize as many more Starts may be assigned at a time. What bulkhead_check
 * writes, and what a line may register a group like, stays that of the settings. */

/* A step. Texts are UTF-8 and have no zero at their end; a text may have zeros in it. */
typedef struct bulkhead_step {
    uint64_t group;       /* the number of the group, from 0 in the order of the settings file; those that lines register
                           * have the numbers that follow, and no number is given twice */
    uint64_t moment;      /* the moment in milliseconds; one before the group's latest counts as that one */
    uint64_t ticket;      /* the number of a ticket, as a reply had it */
    uint64_t context;     /* the number of a request context, or the value that a property gets */
    uint32_t operation;   /* BULKHEAD_SUBMIT and so on */
    uint32_t key_length;  /* 0 to 32 */
    uint32_t text_length; /* 0 to 64 of an argument and of a property's name, 0 to 256 of a body */
    uint8_t key[32];
    uint8_t text[256];
    uint8_t command;      /* the number of a command of the group; 0 is the group's own one */
} bulkhead_step;

/* Which reply it is, for `kind` of a reply. In brackets the fields that are written beside `kind`. */
#define BULKHEAD_QUEUED 1u           /* the ticket waits for a worker [number: the ticket] */
#define BULKHEAD_INLINE 2u           /* the caller is to run the ticket [number: the ticket] */
#define BULKHEAD_FALLBACK_DUE 3u     /* the ticket needs a fallback [number: the ticket; cause] */
#define BULKHEAD_JOINED 4u           /* the request shares the answer of a ticket [number: the ticket] */
#define BULKHEAD_GROUP_FULL 5u       /* no slot is free, and no ticket was made */
#define BULKHEAD_ASSIGNED 6u         /* the worker is to run the ticket [number: the ticket; command; text: the argument] */
#define BULKHEAD_IDLE 7u             /* there is nothing to run, or no worker is free */
#define BULKHEAD_OK 8u               /* the end was taken */
#define BULKHEAD_LATE 9u             /* the run had timed out, and its end counts for nothing */
#define BULKHEAD_NOT_RUNNING 10u     /* no run of the ticket is under way */
#define BULKHEAD_EXPIRED 11u         /* tickets timed out [number: how many] */
#define BULKHEAD_PENDING 12u         /* there is no answer yet */
#define BULKHEAD_RUN_FALLBACK 13u    /* the holder is to run the fallback [cause] */
#define BULKHEAD_VALUE 14u           /* the answer is what the run gave [text: the body] */
#define BULKHEAD_FALLBACK_VALUE 15u  /* the answer is what the fallback gave [cause; text: the body] */
#define BULKHEAD_ERROR 16u           /* there is no value [cause; fallback] */
#define BULKHEAD_BAD_REQUEST 17u     /* the request was bad */
#define BULKHEAD_NO_TICKET 18u       /* nobody holds such a ticket */
#define BULKHEAD_NOT_IN_FALLBACK 19u /* no fallback of the ticket is under way */
#define BULKHEAD_CLOSED 20u          /* tickets are cached no longer [number: how many] */
#define BULKHEAD_METRICS 21u         /* the metrics of the command [metrics] */
#define BULKHEAD_WORN 22u            /* the group has done all the steps that it may; nothing changed */
#define BULKHEAD_NO_GROUP 23u        /* no group has the number, or it was retired; nothing changed */
#define BULKHEAD_NO_COMMAND 24u      /* the group has no such command; nothing changed */
#define BULKHEAD_TUNED 25u           /* the property has the value from now on */
#define BULKHEAD_NOT_TUNED 26u       /* never told: no step is made by a value out of range (BULKHEAD_OUT_OF_RANGE) */
#define BULKHEAD_TOTALS 27u          /* the events of the command since its group was there [of metrics the counts by kind] */

/* Why a fallback is due. */
#define BULKHEAD_CAUSE_SHORT_CIRCUITED 1u
#define BULKHEAD_CAUSE_POOL_REJECTED 2u
#define BULKHEAD_CAUSE_SEMAPHORE_REJECTED 3u
#define BULKHEAD_CAUSE_FAILURE 4u
#define BULKHEAD_CAUSE_TIMEOUT 5u

/* Why no fallback gave a value. */
#define BULKHEAD_FALLBACK_FAILED 1u
#define BULKHEAD_FALLBACK_REJECTED 2u
#define BULKHEAD_FALLBACK_NOT_THERE 3u
#define BULKHEAD_FALLBACK_DISABLED 4u

/* The state of a circuit. */
#define BULKHEAD_CIRCUIT_CLOSED 1u
#define BULKHEAD_CIRCUIT_OPEN 2u
#define BULKHEAD_CIRCUIT_HALF_OPEN 3u

/* The metrics of a command at the moment of the step. */
typedef struct bulkhead_metrics {
    uint64_t circuit; /* BULKHEAD_CIRCUIT_CLOSED and so on */
    uint64_t errors;  /* runs in the window that failed, timed out or were rejected, since the circuit last closed */
    uint64_t total;   /* the errors and the successful runs */
    uint64_t percent; /* the errors of a hundred runs, rounded down */
    uint64_t busy;    /* runs that a worker or a permit is at */
    uint64_t queued;  /* tickets that wait for a worker */
    uint64_t free;    /* slots of the group for further tickets */
    /* the events by kind: those of the rolling window, or of BULKHEAD_TOTALS all that there were */
    uint64_t bad_request;
    uint64_t exception_thrown;
    uint64_t failure;
    uint64_t fallback_failure;
    uint64_t fallback_missing;
    uint64_t fallback_rejection;
    uint64_t fallback_success;
    uint64_t response_from_cache;
    uint64_t semaphore_rejected;
    uint64_t short_circuited;
    uint64_t success;
    uint64_t thread_pool_rejected;
    uint64_t timeout;
} bulkhead_metrics;

/* A reply. The fields that its kind does not name stay as they were, and so do the bytes of `text` behind the text. */
typedef struct bulkhead_reply {
    uint32_t kind;        /* BULKHEAD_QUEUED and so on */
    uint32_t cause;       /* BULKHEAD_CAUSE_SHORT_CIRCUITED and so on */
    uint32_t fallback;    /* BULKHEAD_FALLBACK_FAILED and so on */
    uint32_t text_length; /* 0 to 256 */
    uint64_t number;      /* a ticket, or how many there were */
    uint64_t command;     /* the number of a command of the group; 0 is the group's own one */
    uint8_t text[256];    /* UTF-8, with no zero at its end */
    bulkhead_metrics metrics;
} bulkhead_reply;

/* An answer to a line always fits into so many bytes. */
#define BULKHEAD_ANSWER_ROOM 2048u

/* The version of the interface that the library has. */
uint32_t bulkhead_version(void);

/* Opens a service of new groups by the bytes of a settings file, into `service`. A service that was open there is lost,
 * with its memory: close it first.
 *
 * BULKHEAD_REFUSED: the settings are refused. The reason, the text that the program writes to standard error without its
 * line feed, stands at `why`, cut off where `why_room` bytes are too few, and its whole length at `why_length`.
 * BULKHEAD_NO_MEMORY can come in place of any other answer. Neither opens anything. */
uint32_t bulkhead_open(bulkhead_service *service, const uint8_t *settings, size_t settings_length,
                       uint8_t *why, size_t why_room, size_t *why_length);

/* Closes a service and gives its memory back. */
uint32_t bulkhead_close(bulkhead_service *service);

/* Writes the number of the group of the name to `number`: where groups had the name one after another, that of the last.
 *
 * BULKHEAD_NO_SUCH_GROUP, also where that group was retired; BULKHEAD_NOT_TEXT. */
uint32_t bulkhead_group(bulkhead_service *service, const uint8_t *name, size_t name_length, uint64_t *number);

/* Writes the number of the command of the name in the group of the number to `number`. The name of the group is that of
 * its own command, number 0.
 *
 * BULKHEAD_NO_SUCH_COMMAND, also where there is no such group or it was retired; BULKHEAD_NOT_TEXT. */
uint32_t bulkhead_command(bulkhead_service *service, uint64_t group, const uint8_t *name, size_t name_length,
                          uint8_t *number);

/* Makes a step and writes its reply. It takes no memory, and cannot be refused for want of it.
 *
 * BULKHEAD_NO_SUCH_OPERATION, and then, of the key and after it of the text that the operation names, BULKHEAD_TOO_LONG
 * and BULKHEAD_NOT_TEXT; and then of a property BULKHEAD_NO_SUCH_PROPERTY and BULKHEAD_OUT_OF_RANGE, in this order. These
 * come whatever the group and the command are, which the reply tells of. */
uint32_t bulkhead_make_step(bulkhead_service *service, const bulkhead_step *step, bulkhead_reply *reply);

/* Answers a line as the program does (`bulkhead run`): a line that says a step by its reply, one that registers or retires
 * a group by whether it did, any other by its fault. The line is given without its line feed and without the carriage
 * return before that. The answer, with its line feed, stands at `answer`, and its length at `length`.
 *
 * BULKHEAD_BAD_LINE: where the program would stop. BULKHEAD_NO_ROOM: `answer_room` is below BULKHEAD_ANSWER_ROOM, which
 * stands at `length` then. BULKHEAD_NO_MEMORY: the memory for the longest answer is taken before anything is done, and
 * that for a new group before the group is there. */
uint32_t bulkhead_line(bulkhead_service *service, const uint8_t *line, size_t line_length,
                       uint8_t *answer, size_t answer_room, size_t *length);

/* Writes the text that the program prints for `bulkhead check` at `text`, and its length at `length`.
 *
 * BULKHEAD_NO_ROOM: the length that suffices stands at `length`. BULKHEAD_NO_MEMORY. */
uint32_t bulkhead_check(bulkhead_service *service, uint8_t *text, size_t text_room, size_t *length);

#ifdef __cplusplus
}
#endif

#endif
