/* How much of the stack the calls take that follow the levels of what they are given: stack CLIENT [LIMIT].
 *
 * CLIENT is the file of what a client says that writes a node (data/client.bin).
 * Each call runs in a thread whose stack is painted first; behind it the lowest octet that is not paint tells how deep it
 * went. One line is printed for each call, with the octets; with a LIMIT, of whole pages, the stack is of that size beside
 * what the thread itself takes, and the status is 1 where a call took more. */
#include "ua.h"

#include <pthread.h>
#include <stdio.h>
#include <stdlib.h>
#include <string.h>

#define STACK (1u << 20)
#define OWN 8192 /* more than a thread takes for itself */
#define PAINT 0xA5
#define MOST 99 /* levels of Variants around a value */

static uint8_t stack[STACK] __attribute__((aligned(4096)));
static uint8_t given[8192];
static size_t given_len;
static uint8_t made[65536];
static size_t limit, body_at;
static struct ua_nodes nodes;
static struct ua_connection connection;

/* A call of the library over what is given. */
typedef uint32_t (*call)(size_t *needed);

struct run {
    call made;
    uint32_t status;
    size_t needed;
};

static void *in_thread(void *of) {
    struct run *run = of;
    run->status = run->made ? run->made(&run->needed) : UA_OK;
    return NULL;
}

/* How many octets of the painted stack a thread wrote. */
static size_t depth_of(struct run *run) {
    pthread_attr_t how;
    pthread_t thread;
    size_t at = 0, size = limit ? limit + OWN : sizeof stack;
    memset(stack, PAINT, sizeof stack);
    if (pthread_attr_init(&how) || pthread_attr_setstack(&how, stack + sizeof stack - size, size) ||
        pthread_create(&thread, &how, in_thread, run) || pthread_join(thread, NULL))
        exit(2);
    pthread_attr_destroy(&how);
    while (at < sizeof stack && stack[at] == PAINT)
        at++;
    return sizeof stack - at;
}

static int fails;

static void say(const char *what, call made_by, uint32_t wanted) {
    struct run empty = {NULL, 0, 0}, run = {made_by, 0, 0};
    size_t depth = depth_of(&run), alone = depth_of(&empty);
    depth = depth > alone ? depth - alone : 0; /* without what the thread itself takes */
    printf("%s %zu\n", what, depth);
    if (run.status != wanted || (limit && depth > limit)) {
        printf("%s: status %u\n", what, (unsigned)run.status);
        fails = 1;
    }
}

static uint32_t decode(size_t *needed) { return ua_decode_value(given, given_len, made, sizeof made, needed); }
static uint32_t back(size_t *needed) {
    size_t size;
    return ua_value_text(given, given_len, 1, made, sizeof made, needed, &size);
}
static uint32_t dissected(size_t *needed) { return ua_dissect(given, given_len, 1, made, sizeof made, needed); }

static uint32_t viewed(size_t *needed) {
    static struct ua_reading readings[1];
    uint32_t code;
    return ua_readings(given + body_at, given_len - body_at, readings, 1, needed, &code);
}
static uint32_t lines(size_t *needed) {
    uint32_t code;
    return ua_response_text((const uint8_t *)"i=1", 3, given + body_at, given_len - body_at, made, sizeof made, needed, &code);
}
static uint32_t set(size_t *needed) {
    struct ua_reading reading = ua_reading_of(given_len, 0, 1);
    *needed = 0;
    return ua_node_set(&nodes, 0, given, given_len, &reading);
}

static uint32_t step_over(const uint8_t *piece, size_t count) {
    size_t taken, waiting;
    uint32_t code;
    return ua_connection_step(&connection, &nodes, piece, count, 116444736000000000, &taken, &waiting, &code);
}
static uint32_t stepped(size_t *needed) {
    *needed = 0;
    return step_over(given, given_len);
}

static void put(const void *octets, size_t count) {
    memcpy(given + given_len, octets, count);
    given_len += count;
}

/* A Variant of so many levels: arrays of one Variant around an Int32. */
static void nest(int levels) {
    for (int level = 1; level < levels; level++)
        put("\x98\x01\0\0\0", 5);
    put("\x06\x07\0\0\0", 5);
}

/* The same of DataValues, each of which holds a Variant. */
static void nest_values(int levels) {
    for (int level = 2; level < levels; level += 2)
        put("\x97\x01\0\0\0\x01", 6);
    put("\x06\x07\0\0\0", 5);
}

/* The same as the one result of a ReadResponse, behind what a server sends first. */
static void respond(int levels) {
    static const uint8_t hello[] = "ACKF\x1C\0\0\0" "\0\0\0\0" "\xFF\xFF\0\0" "\xFF\xFF\0\0" "\0\0\x10\0" "\0\1\0\0";
    static const uint8_t open[] = "OPNF\x87\0\0\0" "\1\0\0\0" "\x2F\0\0\0" "http://opcfoundation.org/UA/SecurityPolicy#None"
        "\xFF\xFF\xFF\xFF" "\xFF\xFF\xFF\xFF" "\1\0\0\0" "\1\0\0\0"
        "\1\0\xC1\1" "\0\0\0\0\0\0\0\0" "\1\0\0\0" "\0\0\0\0" "\0" "\0\0\0\0" "\0\0\0"
        "\0\0\0\0" "\1\0\0\0" "\1\0\0\0" "\0\0\0\0\0\0\0\0" "\x80\xEE\x36\0" "\xFF\xFF\xFF\xFF";
    size_t at;
    uint32_t size;
    given_len = 0;
    put(hello, 28);
    put(open, 135);
    at = given_len;
    put("MSGF\0\0\0\0" "\1\0\0\0" "\1\0\0\0" "\2\0\0\0" "\2\0\0\0", 24);
    body_at = given_len;
    put("\1\0\x7A\2" "\0\0\0\0\0\0\0\0" "\2\0\0\0" "\0\0\0\0" "\0" "\0\0\0\0" "\0\0\0" "\1\0\0\0" "\1", 33);
    nest(levels);
    put("\xFF\xFF\xFF\xFF", 4);
    size = (uint32_t)(given_len - at);
    for (int i = 0; i < 4; i++)
        given[at + 4 + i] = (uint8_t)(size >> 8 * i);
}

static void put_size(size_t at) {
    for (int i = 0; i < 4; i++)
        given[at + i] = (uint8_t)(given_len >> 8 * i);
}

static size_t size_of(const uint8_t *frame) { return frame[4] | (size_t)frame[5] << 8; }

/* The Write of a client with a value of so many levels in place of its Int32; the connection has its session then. */
static int write_nested(const char *file, int levels) {
    static const struct ua_limits limits = {sizeof limits, 65535, 65535, 1048576, 256};
    static uint8_t client[4096];
    FILE *from = fopen(file, "rb");
    size_t count = from ? fread(client, 1, sizeof client, from) : 0, at = 0, fetched;
    if (from)
        fclose(from);
    if (!count || ua_connection_new(&limits, 1, &connection))
        return 0;
    for (int message = 0; message < 4; message++) { /* HEL, OPN, CreateSession, ActivateSession */
        if (at + 8 > count || step_over(client + at, size_of(client + at)) ||
            ua_connection_fetch(&connection, made, sizeof made, &fetched))
            return 0;
        at += size_of(client + at);
    }
    given_len = 0;
    put(client + at, size_of(client + at) - 5);
    nest(levels);
    put_size(4);
    return 1;
}

int main(int count, char **words) {
    static const char file[] = "ns=1;s=Pump\trw\tPump\tInt32\t5\n", url[] = "opc.tcp://a", a[] = "a";
    size_t line;
    uint32_t reason;
    limit = count > 2 ? strtoul(words[2], NULL, 10) : 0;
    if (count < 2 || ua_nodes_new((const uint8_t *)file, sizeof file - 1, (const uint8_t *)url, sizeof url - 1, (const uint8_t *)a, 1,
                     (const uint8_t *)a, 1, 0, &nodes, &line, &reason))
        return 2;
    nest(1);
    say("ua_decode_value of 1 level", decode, UA_OK);
    given_len = 0;
    nest(MOST);
    say("ua_decode_value of 99 levels", decode, UA_OK);
    say("ua_value_text of 99 levels", back, UA_NO_TEXT);
    say("ua_node_set of 99 levels", set, UA_MISMATCH);
    given_len = 0;
    nest_values(MOST);
    say("ua_decode_value of 99 levels, each other one a DataValue", decode, UA_OK);
    respond(1);
    say("ua_dissect of 1 level", dissected, UA_OK);
    respond(MOST - 1);
    say("ua_dissect of 98 levels", dissected, UA_OK);
    say("ua_readings of 98 levels", viewed, UA_OK);
    say("ua_response_text of 98 levels", lines, UA_OK);
    if (!write_nested(words[1], MOST - 1))
        return 2;
    say("ua_connection_step over a Write of 98 levels", stepped, UA_OK);
    ua_connection_free(&connection);
    ua_nodes_free(&nodes);
    return fails;
}
