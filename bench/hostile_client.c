/* Holds so many connections to a service that harm it as far as they can, until it is ended.
 *
 *   hostile_client PORT CONNECTIONS GROUP
 *
 * A fourth of them each send two thousand bytes without a line feed, send half a line and then nothing, ask without ever
 * reading an answer, and are reset in the middle of a call of the group. One that was closed connects anew. One thread serves all of
 * them, and looks at each a hundred times a second. It talks to 127.0.0.1 alone. */
#include <arpa/inet.h>
#include <errno.h>
#include <fcntl.h>
#include <netinet/in.h>
#include <signal.h>
#include <stdio.h>
#include <stdlib.h>
#include <string.h>
#include <sys/socket.h>
#include <unistd.h>

enum { MOST_CONNECTIONS = 64, LOOK_MICROSECONDS = 10000 };

typedef enum { LONG_LINE, HALF_LINE, READS_NOTHING, RESETS, KINDS } Kind;

typedef struct {
    Kind kind;
    int socket;
    int looks;      /* since it connected */
} Client;

static int port;
static char call[128];      /* the line that calls the group */

static void fail(const char *why) {
    fprintf(stderr, "%s\n", why);
    exit(1);
}

static void connect_anew(Client *client) {
    struct sockaddr_in address = {.sin_family = AF_INET, .sin_port = htons(port)};
    address.sin_addr.s_addr = htonl(INADDR_LOOPBACK);
    if (client->socket >= 0) close(client->socket);
    client->socket = socket(AF_INET, SOCK_STREAM, 0);
    client->looks = 0;
    if (connect(client->socket, (struct sockaddr *)&address, sizeof address) != 0) fail("cannot connect");
    fcntl(client->socket, F_SETFL, O_NONBLOCK);
}

/* Whether the service closed the connection. */
static int is_closed(const Client *client) {
    char byte;
    ssize_t count = recv(client->socket, &byte, 1, MSG_PEEK);
    return count == 0 || (count < 0 && errno != EAGAIN);
}

/* Whether the bytes could be sent, or there is no room for them just now. */
static int send_text(const Client *client, const char *text, size_t length) {
    return send(client->socket, text, length, MSG_NOSIGNAL) >= 0 || errno == EAGAIN;
}

static int send_long_line(Client *client) {
    static char bytes[2000];
    memset(bytes, 'x', sizeof bytes);
    return client->looks > 0 ? !is_closed(client) : send_text(client, bytes, sizeof bytes);
}

static int send_half_line(Client *client) {
    static const char half[] = "{\"op\":\"gro";
    return client->looks > 0 ? !is_closed(client) : send_text(client, half, sizeof half - 1);
}

static int ask_without_reading(Client *client) {
    static const char line[] = "{\"op\":\"groups\"}\n";
    for (int i = 0; i < 1000; i++) {
        if (send(client->socket, line, sizeof line - 1, MSG_NOSIGNAL) < 0) return errno == EAGAIN;
    }
    return 1;
}

static int reset_in_a_call(Client *client) {
    struct linger at_once = {.l_onoff = 1, .l_linger = 0};
    if (client->looks < 3) return client->looks > 0 || send_text(client, call, strlen(call));
    setsockopt(client->socket, SOL_SOCKET, SO_LINGER, &at_once, sizeof at_once);
    return 0;
}

/* Goes on with a connection. False where it is to connect anew. */
static int go_on(Client *client) {
    switch (client->kind) {
    case LONG_LINE: return send_long_line(client);
    case HALF_LINE: return send_half_line(client);
    case READS_NOTHING: return ask_without_reading(client);
    default: return reset_in_a_call(client);
    }
}

int main(int argc, char **argv) {
    static Client clients[MOST_CONNECTIONS];
    if (argc != 4) fail("hostile_client PORT CONNECTIONS GROUP");
    port = atoi(argv[1]);
    snprintf(call, sizeof call, "{\"op\":\"call\",\"group\":\"%.32s\",\"arg\":\"sleep 50\"}\n", argv[3]);
    int count = atoi(argv[2]);
    if (count < 1 || count > MOST_CONNECTIONS) fail("1 to 64 connections");
    for (int i = 0; i < count; i++) {
        clients[i] = (Client){.kind = i % KINDS, .socket = -1};
        connect_anew(&clients[i]);
    }
    puts("connected");
    fflush(stdout);
    for (;;) {
        for (int i = 0; i < count; i++) {
            if (go_on(&clients[i])) clients[i].looks++;
            else connect_anew(&clients[i]);
        }
        usleep(LOOK_MICROSECONDS);
    }
}
