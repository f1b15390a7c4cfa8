/* Calls a service over so many connections at once, one call after the other on each, and prints what it took.
 *
 *   serve_client ADDRESS CONNECTIONS CALLS GROUPS PROCESS [KIND]
 *
 * ADDRESS is a port of 127.0.0.1, or the path of a Unix socket, which begins with a slash. By KIND a call is
 *
 *   call      one line, which a worker of the service answers by the echo of its argument; so it is where no KIND is given
 *   shared    a submit, a finish and a collect, each sent once the one before is answered, as a service that connections
 *             share answers them under SEMAPHORE
 *   echoed    the same lines, and whatever line answers each of them
 *
 * A thread waits for its connections by epoll, and from eight connections on there are two, so that they are not the
 * limit: it prints how busy they were. The calls go to the groups g0, g1 .. in turn. PROCESS is the service's number, of
 * whose threads the context switches are counted. It ends with status 1 at an answer that is not the right one, and where
 * none comes for ten seconds.
 *
 * It prints calls a second, the median and the 99th percentile of a call in milliseconds, context switches a call, and
 * how many percent of the time its threads were busy. */
#include <arpa/inet.h>
#include <dirent.h>
#include <errno.h>
#include <netinet/in.h>
#include <netinet/tcp.h>
#include <pthread.h>
#include <stdio.h>
#include <stdlib.h>
#include <string.h>
#include <sys/epoll.h>
#include <sys/resource.h>
#include <sys/socket.h>
#include <sys/un.h>
#include <time.h>
#include <unistd.h>

enum { MOST_CONNECTIONS = 64, MOST_THREADS = 2, FEW_CONNECTIONS = 8, MOST_LINE = 256, PATIENCE_MS = 10000 };

typedef enum { CALL, SHARED, ECHOED } Kind;

typedef struct {
    int socket;
    long call;          /* the number of its call under way */
    int line;           /* which line of that is under way, from 0 */
    long ticket;        /* the ticket of that, once it was told */
    double sent;        /* when its first line was sent */
    size_t received;    /* bytes of the answer so far */
    char answer[MOST_LINE];
} Connection;

/* A thread that makes the calls of some of the connections. */
typedef struct {
    pthread_t thread;
    int poll;
    long calls;         /* how many these are */
} Caller;

static Connection connections[MOST_CONNECTIONS];
static Caller callers[MOST_THREADS];
static long calls, groups, connection_count, caller_count;
static Kind kind = CALL;
static double *took;    /* the seconds of each call, by its number */

static void fail(const char *why) {
    fprintf(stderr, "%s\n", why);
    exit(1);
}

static double seconds(void) {
    struct timespec now;
    clock_gettime(CLOCK_MONOTONIC, &now);
    return now.tv_sec + now.tv_nsec / 1e9;
}

static double busy_seconds(void) {
    struct rusage used;
    getrusage(RUSAGE_SELF, &used);
    return used.ru_utime.tv_sec + used.ru_stime.tv_sec + (used.ru_utime.tv_usec + used.ru_stime.tv_usec) / 1e6;
}

/* The context switches of one thread, by the file that tells them. */
static long switches_in(const char *path) {
    char line[256];
    long sum = 0, count;
    FILE *status = fopen(path, "r");
    if (!status) return 0;
    while (fgets(line, sizeof line, status)) {
        if (sscanf(line, "voluntary_ctxt_switches: %ld", &count) == 1) sum += count;
        if (sscanf(line, "nonvoluntary_ctxt_switches: %ld", &count) == 1) sum += count;
    }
    fclose(status);
    return sum;
}

/* The context switches of all threads of a process that have not ended. */
static long switches_of(long process) {
    char path[512];
    long sum = 0;
    snprintf(path, sizeof path, "/proc/%ld/task", process);
    DIR *tasks = opendir(path);
    if (!tasks) fail("no such process");
    for (struct dirent *task = readdir(tasks); task; task = readdir(tasks)) {
        if (task->d_name[0] == '.') continue;
        snprintf(path, sizeof path, "/proc/%ld/task/%s/status", process, task->d_name);
        sum += switches_in(path);
    }
    closedir(tasks);
    return sum;
}

static int connected(int family, const struct sockaddr *address, socklen_t length) {
    int made = socket(family, SOCK_STREAM, 0);
    if (connect(made, address, length) != 0) fail("cannot connect");
    return made;
}

static int connect_to(const char *address) {
    if (address[0] == '/') {
        struct sockaddr_un path = {.sun_family = AF_UNIX};
        strncpy(path.sun_path, address, sizeof path.sun_path - 1);
        return connected(AF_UNIX, (struct sockaddr *)&path, sizeof path);
    }
    struct sockaddr_in port = {.sin_family = AF_INET, .sin_port = htons(atoi(address))};
    port.sin_addr.s_addr = htonl(INADDR_LOOPBACK);
    int made = connected(AF_INET, (struct sockaddr *)&port, sizeof port), on = 1;
    setsockopt(made, IPPROTO_TCP, TCP_NODELAY, &on, sizeof on);
    return made;
}

/* How many lines a call has. */
static int line_count(void) {
    return kind == CALL ? 1 : 3;
}

/* Writes the line that the connection is at, and tells its length. */
static int put_line(const Connection *connection, char *line) {
    long group = connection->call % groups, call = connection->call, ticket = connection->ticket;
    if (kind == CALL)
        return snprintf(line, MOST_LINE, "{\"op\":\"call\",\"group\":\"g%ld\",\"arg\":\"order %ld\"}\n", group, call);
    if (connection->line == 0)
        return snprintf(line, MOST_LINE, "{\"op\":\"submit\",\"group\":\"g%ld\",\"arg\":\"order %ld\"}\n", group, call);
    if (connection->line == 1)
        return snprintf(line, MOST_LINE, "{\"op\":\"finish\",\"group\":\"g%ld\",\"ticket\":%ld,\"body\":\"order %ld\"}\n",
                        group, ticket, call);
    return snprintf(line, MOST_LINE, "{\"op\":\"collect\",\"group\":\"g%ld\",\"ticket\":%ld}\n", group, ticket);
}

/* Sends the line that the connection is at. It is far shorter than the buffer of a socket. */
static void send_line(Connection *connection) {
    char line[MOST_LINE];
    int length = put_line(connection, line);
    connection->received = 0;
    if (connection->line == 0) connection->sent = seconds();
    if (write(connection->socket, line, length) != length) fail("cannot write");
}

/* Whether the line that the connection is at was answered as it should be. */
static int is_right(Connection *connection) {
    char wanted[MOST_LINE];
    if (kind == ECHOED) return 1;
    if (kind == SHARED && connection->line == 0)
        return sscanf(connection->answer, "{\"reply\":\"inline\",\"ticket\":%ld}", &connection->ticket) == 1;
    if (kind == SHARED && connection->line == 1) return strcmp(connection->answer, "{\"reply\":\"done\"}\n") == 0;
    snprintf(wanted, sizeof wanted, "{\"body\":\"order %ld\",\"reply\":\"value\"}\n", connection->call);
    return strcmp(connection->answer, wanted) == 0;
}

/* Reads what has come of the answer. True where it is whole. */
static int receive(Connection *connection) {
    ssize_t count = read(connection->socket, connection->answer + connection->received,
                         sizeof connection->answer - 1 - connection->received);
    if (count <= 0) fail("the service ended a connection");
    connection->received += count;
    connection->answer[connection->received] = 0;
    if (connection->answer[connection->received - 1] != '\n') return 0;
    if (!is_right(connection)) {
        fprintf(stderr, "call %ld of group g%ld: unexpected answer %s", connection->call, connection->call % groups,
                connection->answer);
        exit(1);
    }
    return 1;
}

/* Goes on behind an answered line. True where the call is over. */
static int go_on(Connection *connection) {
    if (++connection->line < line_count()) {
        send_line(connection);
        return 0;
    }
    took[connection->call] = seconds() - connection->sent;
    connection->call += connection_count;
    connection->line = 0;
    if (connection->call < calls) send_line(connection);
    return 1;
}

static int by_size(const void *a, const void *b) {
    double x = *(const double *)a, y = *(const double *)b;
    return (x > y) - (x < y);
}

/* Makes the calls of a thread's connections, and notes the seconds of each. */
static void *make_calls(void *argument) {
    Caller *caller = argument;
    struct epoll_event events[MOST_CONNECTIONS];
    for (long done = 0; done < caller->calls;) {
        int ready = epoll_wait(caller->poll, events, MOST_CONNECTIONS, PATIENCE_MS);
        if (ready == 0) fail("no answer in ten seconds");
        if (ready < 0 && errno != EINTR) fail("cannot wait");
        for (int i = 0; i < ready; i++) {
            Connection *connection = events[i].data.ptr;
            if (receive(connection) && go_on(connection)) done++;
        }
    }
    return NULL;
}

/* Gives the connections to the threads in turn. */
static void connect_all(const char *address) {
    for (long i = 0; i < caller_count; i++) {
        callers[i].poll = epoll_create1(0);
        if (callers[i].poll < 0) fail("no memory");
    }
    for (long i = 0; i < connection_count; i++) {
        struct epoll_event event = {.events = EPOLLIN, .data.ptr = &connections[i]};
        Caller *caller = &callers[i % caller_count];
        connections[i].socket = connect_to(address);
        epoll_ctl(caller->poll, EPOLL_CTL_ADD, connections[i].socket, &event);
        connections[i].call = i;
        caller->calls += (calls - i + connection_count - 1) / connection_count;
    }
}

/* Makes all calls. */
static void call_all(void) {
    for (long i = 0; i < connection_count; i++) send_line(&connections[i]);
    for (long i = 1; i < caller_count; i++) {
        if (pthread_create(&callers[i].thread, NULL, make_calls, &callers[i]) != 0) fail("no thread");
    }
    make_calls(&callers[0]);
    for (long i = 1; i < caller_count; i++) pthread_join(callers[i].thread, NULL);
}

static Kind kind_named(const char *word) {
    if (strcmp(word, "call") == 0) return CALL;
    if (strcmp(word, "shared") == 0) return SHARED;
    if (strcmp(word, "echoed") != 0) fail("a KIND is call, shared or echoed");
    return ECHOED;
}

int main(int argc, char **argv) {
    if (argc != 6 && argc != 7) fail("serve_client ADDRESS CONNECTIONS CALLS GROUPS PROCESS [KIND]");
    if (argc == 7) kind = kind_named(argv[6]);
    connection_count = atol(argv[2]);
    calls = atol(argv[3]);
    groups = atol(argv[4]);
    long process = atol(argv[5]);
    if (connection_count < 1 || connection_count > MOST_CONNECTIONS || calls < connection_count || groups < 1)
        fail("1 to 64 connections, a call for each, and a group");
    caller_count = connection_count < FEW_CONNECTIONS ? 1 : MOST_THREADS;
    took = malloc(calls * sizeof *took);
    if (!took) fail("no memory");
    connect_all(argv[1]);
    long switches = switches_of(process);
    double began = seconds(), busy = busy_seconds();
    call_all();
    double whole = seconds() - began;
    busy = busy_seconds() - busy;
    switches = switches_of(process) - switches;
    qsort(took, calls, sizeof *took, by_size);
    printf("%.0f %.3f %.3f %.2f %.0f\n", calls / whole, took[calls / 2] * 1000, took[calls * 99 / 100] * 1000,
           (double)switches / calls, 100 * busy / whole / caller_count);
    return 0;
}
