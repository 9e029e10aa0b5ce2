/* What a program may do wrong, or ask for at the edge of what there is, and what the library then says.
 *
 * Nothing is printed but `as wanted`; else the line that differs, with the status 1. */
#include <limits.h>
#include <stdio.h>
#include <stdlib.h>
#include <string.h>

#include "ua.h"

#define TEXT(t) (const uint8_t *)(t), strlen(t)
#define NEED(holds) need(holds, #holds, __LINE__)
#define URL "opc.tcp://localhost:4840"

static const struct ua_limits limits = {sizeof(struct ua_limits), 65535, 65535, 1048576, 256};
static const char file[] = "ns=1;s=Pump\trw\tPump\tInt32\t5\nns=1;s=Name\trw\tName\tString\ta\n";
static const int64_t moment = 116444736000000000;

static void need(int holds, const char *what, int line) {
    if (!holds) {
        fprintf(stderr, "faults.c:%d: %s\n", line, what);
        exit(1);
    }
}

/* ---- a client and a connection over nodes, in one process */

struct talk {
    struct ua_connection connection;
    struct ua_handle client;
    uint8_t token[64];
    size_t token_len;
    uint32_t event, id, code;
    uint8_t reply[65536];
    size_t reply_len;
};

static uint8_t request[65536];
static size_t request_len;
static uint32_t reason;
#define REQUEST request, sizeof request, &request_len

static uint32_t make_nodes(const char *of, struct ua_nodes *out) {
    size_t line;
    return ua_nodes_new(TEXT(of), TEXT(URL), TEXT("urn:a"), TEXT("a"), 0, out, &line, &reason);
}

/* What the client says goes to the connection, and what that says back, up to an event. Nothing is told of Writes. */
static void pass(struct talk *of, struct ua_nodes *nodes) {
    static uint8_t octets[65536];
    size_t count, taken, waiting;
    do {
        NEED(ua_fetch(&of->client, octets, sizeof octets, &count) == UA_OK);
        for (size_t at = 0; at < count; at += taken)
            NEED(ua_connection_step(&of->connection, nodes, octets + at, count - at, moment, &taken, &waiting, &of->code) == UA_OK);
        NEED(ua_connection_fetch(&of->connection, octets, sizeof octets, &count) == UA_OK);
        for (size_t at = 0; at < count; at += taken)
            NEED(ua_client_take(&of->client, octets + at, count - at, moment, &taken, &of->event, &of->id, &of->code) == UA_OK);
    } while (of->event == UA_EVENT_SEND);
    of->reply_len = 0;
    if (of->event == UA_EVENT_ANSWERED)
        NEED(ua_fetch(&of->client, of->reply, sizeof of->reply, &of->reply_len) == UA_OK);
}

/* Asks what stands in `request`. */
static void ask(struct talk *of, struct ua_nodes *nodes, uint32_t status) {
    uint32_t id;
    NEED(status == UA_OK);
    NEED(ua_client_ask(&of->client, request, request_len, &id) == UA_OK);
    pass(of, nodes);
}

static void begin(struct talk *of, struct ua_nodes *nodes, uint32_t channel) {
    uint32_t code;
    NEED(ua_connection_new(&limits, channel, &of->connection) == UA_OK);
    NEED(ua_client_new(&limits, TEXT(URL), &of->client) == UA_OK);
    NEED(ua_client_hello(&of->client) == UA_OK);
    pass(of, nodes);
    ask(of, nodes, ua_create_session_request(TEXT(URL), moment, 1, REQUEST));
    NEED(ua_session_token(of->reply, of->reply_len, of->token, sizeof of->token, &of->token_len, &code) == UA_OK);
    ask(of, nodes, ua_activate_session_request(of->token, of->token_len, moment, 2, REQUEST));
}

static void end(struct talk *of) {
    ua_connection_free(&of->connection);
    ua_free(&of->client);
}

static void write_to(struct talk *of, struct ua_nodes *nodes, const char *node, const char *type, const char *text, size_t text_len) {
    ask(of, nodes, ua_write_request(of->token, of->token_len, moment, 3, TEXT(node), TEXT(type), (const uint8_t *)text,
                                    text_len, REQUEST, &reason));
}

static struct talk first;

/* ---- null pointers */

static void point_nowhere(void) {
    struct ua_nodes nodes = {{0}};
    struct ua_connection connection = {{0}};
    struct ua_handle client = {0};
    struct ua_reading reading = ua_reading_of(5, 0, 1);
    uint8_t value[5], buffer[16];
    size_t size = 7, line = 7, index = 7, taken = 7, waiting = 7;
    uint32_t code = 7, event = 7, id = 7;
    NEED(make_nodes(file, &nodes) == UA_OK);
    NEED(ua_connection_new(&limits, 1, &connection) == UA_OK);
    NEED(ua_client_new(&limits, TEXT(URL), &client) == UA_OK);
    ua_put_int32(value, 6);
    NEED(ua_node_set(&nodes, 0, NULL, 5, &reading) == UA_BAD_ARGUMENT);
    NEED(ua_node_get(&nodes, 0, NULL, 16, &size, &reading) == UA_BAD_ARGUMENT && size == 0 && !reading.has_value);
    NEED(ua_node_get(&nodes, 0, NULL, 0, &size, &reading) == UA_TOO_SMALL && size == 5);
    NEED(ua_node_get(&nodes, 0, buffer, 16, &size, &reading) == UA_OK && size == 5 && buffer[1] == 5);
    NEED(ua_node_find(&nodes, NULL, 3, &index) == UA_BAD_ARGUMENT && index == 0);
    NEED(ua_node_find(&nodes, NULL, 0, &index) == UA_BAD_TEXT);
    NEED(ua_connection_step(&connection, &nodes, NULL, 8, moment, &taken, &waiting, &code) == UA_BAD_ARGUMENT);
    NEED(taken == 0 && waiting == 0 && code == 0 && ua_connection_held(&connection) == 0);
    NEED(ua_connection_step(&connection, &nodes, NULL, 0, moment, &taken, &waiting, &code) == UA_OK);
    NEED(ua_client_take(&client, NULL, 1, moment, &taken, &event, &id, &code) == UA_BAD_ARGUMENT && event == 0 && id == 0);
    NEED(ua_client_hello(&client) == UA_OK);
    waiting = ua_waiting(&client);
    NEED(ua_fetch(&client, NULL, 4096, &size) == UA_BAD_ARGUMENT && size == 0 && ua_waiting(&client) == waiting);
    NEED(ua_fetch(&client, NULL, 0, &size) == UA_OK && size == 0);
    NEED(ua_encode_value(TEXT("Int32"), NULL, 1, buffer, 16, &size) == UA_BAD_ARGUMENT && size == 0);
    NEED(ua_encode_value(TEXT("Int32"), TEXT("6"), NULL, SIZE_MAX, &size) == UA_BAD_ARGUMENT);
    NEED(ua_readings(NULL, 4, &reading, 1, &size, &code) == UA_BAD_ARGUMENT);
    NEED(ua_readings(value, 5, NULL, 1, &size, &code) == UA_BAD_ARGUMENT && size == 0 && code == 0);
    NEED(ua_read_request(TEXT("i=1"), moment, 1, NULL, 2, TEXT(""), buffer, 16, &size, &reason, &index) == UA_BAD_ARGUMENT);
    NEED(ua_status_text(UA_BAD_ARGUMENT, NULL, 64, &size) == UA_BAD_ARGUMENT && size == 0);
    NEED(ua_nodes_new(NULL, 1, TEXT(URL), TEXT("urn:a"), TEXT("a"), 0, &nodes, &line, &reason) == UA_BAD_ARGUMENT);
    NEED(line == 0 && reason == 0);
    ua_nodes_free(&nodes);
    ua_connection_free(&connection);
    ua_free(&client);
    ua_nodes_free(NULL);
    ua_connection_free(NULL);
    ua_free(NULL);
}

/* A function's pointer, and a caller's own member of this name. */
static void name_alike(void) {
    struct { size_t ua_fetch, ua_free; } of_caller = {1, 2};
    void (*free_it)(struct ua_handle *) = ua_free;
    struct ua_handle none = {0};
    NEED(of_caller.ua_fetch + of_caller.ua_free == 3);
    free_it(&none);
}

/* ---- what clients write is told, however long it is */

static void follow_long(void) {
    static char text[5000];
    static const struct ua_connection none;
    struct ua_nodes nodes = {{0}};
    struct ua_reading reading;
    uint8_t *buffer = malloc(16);
    size_t room = 16, index = 0, size = 0, told = 0;
    uint32_t status;
    memset(text, 'x', sizeof text);
    first.connection = none;
    NEED(make_nodes(file, &nodes) == UA_OK);
    begin(&first, &nodes, 1);
    write_to(&first, &nodes, "ns=1;s=Name", "String", text, sizeof text);
    while ((status = ua_next_written(&first.connection, &nodes, &index, buffer, room, &size, &reading)) != UA_NO_MORE) {
        if (status == UA_TOO_SMALL) {
            NEED(told == 0 && size == 5005 && index == 1 && reading.value_len == size);
            buffer = realloc(buffer, room = size);
            NEED(buffer != NULL);
            continue;
        }
        NEED(status == UA_OK && buffer[0] == 12 && memcmp(buffer + 5, text, sizeof text) == 0);
        told++;
    }
    NEED(told == 1 && size == 0);
    free(buffer);
    end(&first);
    ua_nodes_free(&nodes);
}

/* ---- numbers at their ends, and arrays of none, of one, of as many as there is room for, of one more, and of far too many */

#define TRY(name, id, type, least, most)                                                                          \
    do {                                                                                                          \
        type ends[3] = {(type)(least), (type)(most), (type)1}, back[3] = {0, 0, 0};                               \
        uint8_t octets[64];                                                                                       \
        size_t size = sizeof(type), count, past = (size_t)0x80000000u;                                            \
        for (int at = 0; at < 2; at++) {                                                                          \
            NEED(ua_put_##name(octets, ends[at]) == 1 + size && octets[0] == id);                                 \
            NEED(ua_get_##name(octets, 1 + size, back) == 1 && memcmp(back, ends + at, size) == 0);               \
            NEED(ua_get_##name(octets, size, back) == 0 && ua_get_##name(octets, 2 + size, back) == 0);           \
        }                                                                                                         \
        octets[0] ^= 0x40;                                                                                        \
        NEED(ua_get_##name(octets, 1 + size, back) == 0 && ua_get_##name(NULL, 0, back) == 0);                    \
        for (size_t some = 0; some < 4; some++) {                                                                 \
            size_t needs = 5 + (some < 3 ? some : 3) * size;                                                      \
            memset(octets, 0xEE, sizeof octets);                                                                  \
            NEED(ua_put_##name##_array(octets, needs - 1, ends, some) == needs && octets[0] == 0xEE);             \
            if (some == 3)                                                                                        \
                needs = 5 + 2 * size;                                                                             \
            NEED(ua_put_##name##_array(octets, needs, ends, some < 3 ? some : 2) == needs);                       \
            NEED(octets[0] == (0x80 | id) && octets[needs] == 0xEE);                                              \
            back[some < 3 ? some : 0] = (type)1;                                                                  \
            NEED(ua_get_##name##_array(octets, needs, back, some < 3 ? some : 2, &count) == 1);                   \
            NEED(count == (some < 3 ? some : 2) && memcmp(back, ends, count * size) == 0);                        \
            NEED(ua_get_##name##_array(octets, needs, NULL, 0, &count) == 1 && count == (some < 3 ? some : 2));   \
            NEED(ua_get_##name##_array(octets, needs - 1, back, 3, &count) == 0 && count == 0);                   \
            NEED(ua_get_##name##_array(octets, needs + 1, back, 3, &count) == 0 && count == 0);                   \
        }                                                                                                         \
        memset(octets, 0xEE, sizeof octets);                                                                      \
        NEED(ua_put_##name##_array(octets, sizeof octets, NULL, past - 1) == 5 + (past - 1) * size);              \
        NEED(ua_put_##name##_array(octets, sizeof octets, NULL, past) == SIZE_MAX);                               \
        NEED(ua_put_##name##_array(octets, sizeof octets, NULL, SIZE_MAX / size) == SIZE_MAX);                    \
        NEED(ua_put_##name##_array(octets, SIZE_MAX, NULL, SIZE_MAX / size) == SIZE_MAX);                         \
        NEED(ua_put_##name##_array(octets, sizeof octets, NULL, SIZE_MAX) == SIZE_MAX && octets[0] == 0xEE);      \
        memcpy(octets, "\0\xFF\xFF\xFF\xFF", 5); /* the null array, and one that claims the most */               \
        octets[0] = 0x80 | id;                                                                                    \
        NEED(ua_get_##name##_array(octets, 5, back, 3, &count) == 1 && count == 0);                               \
        octets[4] = 0x7F;                                                                                         \
        NEED(ua_get_##name##_array(octets, 5, back, 3, &count) == 0 && count == 0);                               \
        octets[4] = 0x80;                                                                                         \
        NEED(ua_get_##name##_array(octets, 5, back, 3, &count) == 1 && count == 0);                               \
        NEED(ua_get_##name##_array(octets, 6, back, 3, &count) == 0 && count == 0);                               \
        NEED(ua_get_##name##_array(NULL, 0, back, 3, &count) == 0 && count == 0);                                 \
    } while (0)

static void number(void) {
    TRY(boolean, 1, uint8_t, 0, 1);
    TRY(sbyte, 2, int8_t, INT8_MIN, INT8_MAX);
    TRY(byte, 3, uint8_t, 0, UINT8_MAX);
    TRY(int16, 4, int16_t, INT16_MIN, INT16_MAX);
    TRY(uint16, 5, uint16_t, 0, UINT16_MAX);
    TRY(int32, 6, int32_t, INT32_MIN, INT32_MAX);
    TRY(uint32, 7, uint32_t, 0, UINT32_MAX);
    TRY(int64, 8, int64_t, INT64_MIN, INT64_MAX);
    TRY(uint64, 9, uint64_t, 0, UINT64_MAX);
    TRY(float, 10, float, -3.40282347e38f, 3.40282347e38f);
    TRY(double, 11, double, -1.7976931348623157e308, 1.7976931348623157e308);
    TRY(date_time, 13, int64_t, INT64_MIN, INT64_MAX);
    TRY(status_code, 19, uint32_t, 0, UINT32_MAX);
}

int main(void) {
    number();
    point_nowhere();
    name_alike();
    follow_long();
    printf("as wanted\n");
    return 0;
}
