/* A client and a server in one process, without sockets: READS Reads of one node, each taken by one step.
 *
 *     steps READS [SETS]
 *
 * With SETS the node is set so many times before, each by one ua_node_set.
 * docs/C.md says how it is built, and what a step costs. */
#include <stdio.h>
#include <stdlib.h>
#include <string.h>

#include "ua.h"

#define TEXT(t) (const uint8_t *)(t), strlen(t)

static const struct ua_limits limits = {sizeof(struct ua_limits), 65535, 65535, 1048576, 256};
static const char nodes[] = "ns=1;s=Pump\trw\tPump\tInt32\t5\n";
static const char url[] = "opc.tcp://localhost:4840";
static struct ua_nodes shared;
static struct ua_connection connection;
static struct ua_handle client;
static uint8_t request[1024], reply[8192], text[256];
static size_t size, steps;

static void check(uint32_t status, const char *what) {
    if (status != UA_OK) {
        fprintf(stderr, "steps: %s: status %u\n", what, (unsigned)status);
        exit(1);
    }
}

/* What waits at the client goes to the server, and what that answers to the client, up to this event;
 * what then waits is put into `reply`. */
static size_t talk_until(uint32_t wanted) {
    uint8_t octets[8192];
    size_t count, taken, waiting, fetched = 0;
    uint32_t code, event = UA_EVENT_NEED_MORE, id;
    do {
        check(ua_fetch(&client, octets, sizeof octets, &count), "fetch");
        for (size_t at = 0; at < count; at += taken) {
            check(ua_connection_step(&connection, &shared, octets + at, count - at, 7, &taken, &waiting, &code), "step");
            steps++;
        }
        check(ua_connection_fetch(&connection, octets, sizeof octets, &count), "fetch");
        for (size_t at = 0; at < count; at += taken)
            check(ua_client_take(&client, octets + at, count - at, 7, &taken, &event, &id, &code), "take");
    } while (event != wanted);
    check(ua_fetch(&client, reply, sizeof reply, &fetched), "fetch");
    return fetched;
}

/* Asks the request that stands in `request`, and says how many octets the body of its reply has. */
static size_t ask(uint32_t status) {
    uint32_t id;
    check(status, "request");
    check(ua_client_ask(&client, request, size, &id), "ask");
    return talk_until(UA_EVENT_ANSWERED);
}

int main(int count, char **words) {
    size_t line, token_size, count_of, pump, index;
    uint32_t code, reason;
    uint8_t token[64], value[UA_NUMBER_ROOM];
    if (count != 2 && count != 3)
        return 2;
    check(ua_nodes_new(TEXT(nodes), TEXT(url), TEXT("urn:a"), TEXT("a"), 0, &shared, &line, &reason), "nodes");
    check(ua_connection_new(&limits, 1, &connection), "connection");
    check(ua_node_find(&shared, TEXT("ns=1;s=Pump"), &pump), "find");
    for (int32_t set = count == 3 ? atoi(words[2]) : 0; set > 0; set--) {
        struct ua_reading reading = ua_reading_of(ua_put_int32(value, set), 0, 7);
        check(ua_node_set(&shared, pump, value, sizeof value, &reading), "set");
    }
    check(ua_client_new(&limits, TEXT(url), &client), "client");
    check(ua_client_hello(&client), "hello");
    talk_until(UA_EVENT_OPEN);
    count_of = ask(ua_create_session_request(TEXT(url), 7, 1, request, sizeof request, &size));
    check(ua_session_token(reply, count_of, token, sizeof token, &token_size, &code), "token");
    ask(ua_activate_session_request(token, token_size, 7, 1, request, sizeof request, &size));
    steps = 0;
    for (long read = atol(words[1]); read > 0; read--)
        count_of = ask(ua_read_request(token, token_size, 7, 1, TEXT("ns=1;s=Pump"), TEXT(""), request,
                                       sizeof request, &size, &reason, &index));
    check(ua_response_text(TEXT("ns=1;s=Pump"), reply, count_of, text, sizeof text, &size, &code), "text");
    printf("steps %zu, last: %.*s", steps, (int)size, (const char *)text);
    ua_free(&client);
    ua_connection_free(&connection);
    ua_nodes_free(&shared);
    return 0;
}
