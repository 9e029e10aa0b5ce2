/* Handles on several threads: each of four has nodes, a connection and a client of its own, all at once; then those of
 * one are made by a thread, go round between four under a mutex, and are let go of by another. Prints `as wanted`, and
 * is meant for valgrind's helgrind. docs/C.md says how it is built; it takes -lpthread. */
#include <pthread.h>
#include <stdio.h>
#include <stdlib.h>
#include <string.h>

#include "ua.h"

#define TEXT(t) (const uint8_t *)(t), strlen(t)
#define THREADS 4
#define STEPS 20

static const struct ua_limits limits = {sizeof(struct ua_limits), 65535, 65535, 1048576, 256};
static const char url[] = "opc.tcp://localhost:4840", pump[] = "ns=1;s=Pump";

/* A client and a connection that talk, over nodes. */
struct talk {
    struct ua_nodes nodes;
    struct ua_connection connection;
    struct ua_handle client;
    uint8_t token[64];
    size_t token_len;
    uint32_t request;
};

static struct talk shared;
static pthread_mutex_t lock = PTHREAD_MUTEX_INITIALIZER;

static void need(int holds, const char *what) {
    if (!holds) {
        fprintf(stderr, "threads: %s\n", what);
        exit(1);
    }
}

/* What the client says goes to the connection and back, up to an event. */
static void pass(struct talk *of, uint32_t wanted) {
    uint8_t up[4096], down[4096];
    size_t up_len, down_len, taken, took, waiting;
    uint32_t event = UA_EVENT_SEND, id, code;
    while (event == UA_EVENT_SEND) {
        need(ua_fetch(&of->client, up, sizeof up, &up_len) == UA_OK, "fetch");
        for (size_t at = 0; at < up_len; at += taken) {
            need(ua_connection_step(&of->connection, &of->nodes, up + at, up_len - at, 7, &taken, &waiting, &code) == UA_OK, "step");
            need(ua_connection_fetch(&of->connection, down, sizeof down, &down_len) == UA_OK, "fetch");
            for (size_t to = 0; to < down_len; to += took)
                need(ua_client_take(&of->client, down + to, down_len - to, 7, &took, &event, &id, &code) == UA_OK, "take");
        }
    }
    need(event == wanted, "event");
}

/* The reply to a request, whose body and status are those that a call just made. */
static size_t ask(struct talk *of, uint32_t status, const uint8_t *body, size_t body_len, uint8_t *reply, size_t room) {
    uint32_t id;
    size_t reply_len;
    need(status == UA_OK && ua_client_ask(&of->client, body, body_len, &id) == UA_OK, "ask");
    pass(of, UA_EVENT_ANSWERED);
    need(ua_fetch(&of->client, reply, room, &reply_len) == UA_OK && ua_waiting(&of->client) == 0, "reply");
    return reply_len;
}

/* Nodes, a connection, a client and their session. */
static void begin(struct talk *of, uint32_t channel) {
    uint8_t body[1024], reply[4096];
    size_t line, size, got;
    uint32_t reason, code, status;
    memset(of, 0, sizeof *of);
    status = ua_nodes_new(TEXT("ns=1;s=Pump\trw\tPump\tInt32\t5\n"), TEXT(url), TEXT("urn:example:threads"), TEXT("threads"), 0,
                          &of->nodes, &line, &reason);
    need(status == UA_OK && ua_connection_new(&limits, channel, &of->connection) == UA_OK, "new");
    need(ua_client_new(&limits, TEXT(url), &of->client) == UA_OK && ua_client_hello(&of->client) == UA_OK, "hello");
    pass(of, UA_EVENT_OPEN);
    status = ua_create_session_request(TEXT(url), 7, ++of->request, body, sizeof body, &size);
    got = ask(of, status, body, size, reply, sizeof reply);
    need(ua_session_token(reply, got, of->token, sizeof of->token, &of->token_len, &code) == UA_OK, "token");
    status = ua_activate_session_request(of->token, of->token_len, 7, ++of->request, body, sizeof body, &size);
    ask(of, status, body, size, reply, sizeof reply);
}

/* A number is written to the node, and read. */
static void write_and_read(struct talk *of, int number) {
    uint8_t body[1024], reply[4096], text[128];
    char written[16], wanted[64];
    size_t size, got, index;
    uint32_t code, status, reason;
    snprintf(written, sizeof written, "%d", number);
    snprintf(wanted, sizeof wanted, "%s 00000000 Int32 %d\n", pump, number);
    status = ua_write_request(of->token, of->token_len, 7, ++of->request, TEXT(pump), TEXT("Int32"), TEXT(written), body,
                              sizeof body, &size, &reason);
    ask(of, status, body, size, reply, sizeof reply);
    status = ua_read_request(of->token, of->token_len, 7, ++of->request, TEXT(pump), NULL, 0, body, sizeof body, &size,
                             &reason, &index);
    got = ask(of, status, body, size, reply, sizeof reply);
    need(ua_response_text(TEXT(pump), reply, got, text, sizeof text, &size, &code) == UA_OK, "text");
    need(size == strlen(wanted) && memcmp(text, wanted, size) == 0, "lines");
}

static void end(struct talk *of) {
    ua_free(&of->client);
    ua_connection_free(&of->connection);
    ua_nodes_free(&of->nodes);
}

static void *alone(void *number) {
    struct talk of;
    begin(&of, *(const uint32_t *)number);
    for (int step = 0; step < STEPS; step++)
        write_and_read(&of, step);
    end(&of);
    return NULL;
}

static void *in_turn(void *number) {
    for (int step = 0; step < STEPS; step++) {
        pthread_mutex_lock(&lock);
        write_and_read(&shared, step + (int)*(const uint32_t *)number);
        pthread_mutex_unlock(&lock);
    }
    return NULL;
}

static void *begin_shared(void *number) {
    begin(&shared, *(const uint32_t *)number);
    return NULL;
}

static void *end_shared(void *number) {
    (void)number;
    end(&shared);
    return NULL;
}

/* So many threads do it at once, and end. */
static void run(void *(*what)(void *), size_t threads) {
    pthread_t started[THREADS];
    uint32_t numbers[THREADS];
    for (size_t at = 0; at < threads; at++) {
        numbers[at] = (uint32_t)at + 1;
        need(pthread_create(&started[at], NULL, what, &numbers[at]) == 0, "a thread");
    }
    for (size_t at = 0; at < threads; at++)
        pthread_join(started[at], NULL);
}

int main(void) {
    run(alone, THREADS);
    run(begin_shared, 1);
    run(in_turn, THREADS);
    run(end_shared, 1);
    puts("as wanted");
    return 0;
}
