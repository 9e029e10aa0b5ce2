/* Every call of the library once in ample memory on each of its conditions, without sockets, and what it answers.
 *
 *     answers CLIENT SERVER
 *
 * The files hold the octets that both sides of one conversation say: a session that writes 6 to a node and reads it.
 * What is printed is compared by tools/try_c.py with lines that are written out there. */
#include <stdio.h>
#include <stdlib.h>
#include <string.h>

#include "ua.h"

#define TEXT(t) (const uint8_t *)(t), strlen(t)
#define LONG "aaaaaaaaaaaaaaaaaaaaaaaaaaaaaaa" /* 31 octets */

/* 1970-01-01 */
static const int64_t moment = 116444736000000000;
static const struct ua_limits limits = {sizeof(struct ua_limits), 65535, 65535, 1048576, 256}, small = {sizeof(struct ua_limits), 8192, 8192, 100, 1};
static const char nodes[] = "ns=1;s=Pump\trw\tPump\tInt32\t5\nns=1;s=" LONG "\trw\t" LONG "\tString\t" LONG "\n";
static const char url[] = "opc.tcp://localhost:4840", long_url[] = "opc.tcp://localhost:4840/" LONG;
static struct ua_handle server, client;
static uint8_t up[4096], down[4096], request[1024], reply[4096], text[4096];
static size_t up_count, down_count, request_count, reply_count, text_count, bad_index;
static uint32_t event, id, code, reason;

static void check(uint32_t status, const char *what) {
    if (status != UA_OK) {
        fprintf(stderr, "answers: %s: status %u\n", what, (unsigned)status);
        exit(1);
    }
}

static void say_digits(const char *what, const uint8_t *octets, size_t count) {
    printf("%s ", what);
    for (size_t at = 0; at < count; at++)
        printf("%02x", octets[at]);
    printf("\n");
}

/* What a handle has to say goes behind what its side said so far. */
static size_t fetch(struct ua_handle *from, uint8_t *said, size_t *count) {
    size_t fetched;
    check(ua_fetch(from, said + *count, 4096 - *count, &fetched), "fetch");
    *count += fetched;
    return fetched;
}

/* What waits at the client goes to the server, and what that says back to the client, until the client tells something
 * else than octets to be sent. What then waits is put into `reply`. */
static void talk(void) {
    size_t taken, waiting;
    do {
        size_t first = up_count, back = down_count;
        fetch(&client, up, &up_count);
        for (size_t at = first; at < up_count; at += taken)
            check(ua_server_step(&server, up + at, up_count - at, moment, &taken, &waiting, &code), "step");
        fetch(&server, down, &down_count);
        for (size_t at = back; at < down_count; at += taken)
            check(ua_client_take(&client, down + at, down_count - at, moment, &taken, &event, &id, &code), "take");
    } while (event == UA_EVENT_SEND);
    reply_count = 0;
    if (event == UA_EVENT_ANSWERED)
        fetch(&client, reply, &reply_count);
}

/* Which response octets are, and its ServiceResult. */
static void say_kind(const uint8_t *octets, size_t count) {
    uint32_t response, service_result;
    check(ua_response_kind(octets, count, &response, &service_result), "response_kind");
    printf(" response %u %08X", (unsigned)response, (unsigned)service_result);
}

/* Asks what stands in `request`, and says under which id it is answered, by how many octets, and by which response. */
static void ask(uint32_t status, const char *what) {
    check(status, what);
    check(ua_client_ask(&client, request, request_count, &id), "ask");
    talk();
    printf("%s %zu event %u id %u code %08X reply %zu", what, request_count, (unsigned)event, (unsigned)id,
           (unsigned)code, reply_count);
    if (event == UA_EVENT_ANSWERED)
        say_kind(reply, reply_count);
    printf("\n");
}

static void say_text(const char *what, uint32_t status) {
    check(status, what);
    printf("%s %.*s%s", what, (int)text_count, (const char *)text, text_count && text[text_count - 1] == '\n' ? "" : "\n");
}

/* Whether a file holds these octets. */
static const char *same(const char *name, const uint8_t *octets, size_t count) {
    static uint8_t found[4096];
    FILE *file = fopen(name, "rb");
    size_t size = file ? fread(found, 1, sizeof found, file) : 0;
    if (file)
        fclose(file);
    return size == count && memcmp(found, octets, count) == 0 ? "same" : "others";
}

static void open_with(const struct ua_limits *allowed, const char *at) {
    up_count = down_count = 0;
    check(ua_client_new(allowed, TEXT(at), &client), "client_new");
    check(ua_client_hello(&client), "hello");
    talk();
    printf("open event %u, %zu octets up and %zu down\n", (unsigned)event, up_count, down_count);
}

#define REQUEST request, sizeof request, &request_count
#define BY_REASON REQUEST, &reason
#define BY_INDEX REQUEST, &reason, &bad_index
#define INTO text, sizeof text, &text_count

/* The conversation of the two files. */
static void converse(char **files) {
    size_t line, taken, waiting;
    uint8_t token[64];
    size_t token_count;
    check(ua_server_new(TEXT(nodes), &limits, TEXT(url), 1, &server, &line), "server_new");
    open_with(&limits, url);
    ask(ua_create_session_request(TEXT(url), moment, 2, REQUEST), "create_session");
    say_text("token", ua_session_token(reply, reply_count, INTO, &code));
    memcpy(token, text, text_count);
    token_count = text_count;
    ask(ua_activate_session_request(token, token_count, moment, 3, REQUEST), "activate_session");
    ask(ua_write_request(token, token_count, moment, 4, TEXT("ns=1;s=Pump"), TEXT("Int32"), TEXT("6"), BY_REASON), "write");
    say_text("lines", ua_response_text(TEXT("ns=1;s=Pump"), reply, reply_count, INTO, &code));
    ask(ua_read_request(token, token_count, moment, 5, TEXT("ns=1;s=Pump"), TEXT(""), BY_INDEX), "read");
    say_text("lines", ua_response_text(TEXT("ns=1;s=Pump"), reply, reply_count, INTO, &code));
    ask(ua_close_session_request(token, token_count, moment, 6, REQUEST), "close_session");
    check(ua_client_close(&client, moment), "close");
    line = up_count;
    fetch(&client, up, &up_count);
    printf("close %u\n", (unsigned)ua_server_step(&server, up + line, up_count - line, moment, &taken, &waiting, &code));
    printf("up %s, down %s\n", same(files[1], up, up_count), same(files[2], down, down_count));
    say_text("dissect 0", ua_dissect(up, up_count, 0, INTO));
    say_text("dissect 1", ua_dissect(down, down_count, 1, INTO));
}

/* A second connection to the same nodes: endpoints, a renewal, texts of 31 octets. */
static void go_on(void) {
    check(ua_server_next_connection(&server, 2), "next_connection");
    open_with(&limits, long_url);
    ask(ua_get_endpoints_request(TEXT(url), moment, 2, REQUEST), "get_endpoints");
    say_text("lines", ua_response_text(TEXT("i=0"), reply, reply_count, INTO, &code));
    say_text("policy", ua_choose_policy(reply, reply_count, INTO, &code));
    check(ua_client_renew(&client, moment, &id), "renew");
    talk();
    printf("renew event %u id %u\n", (unsigned)event, (unsigned)id);
    ask(ua_create_session_request(TEXT(long_url), moment, 3, REQUEST), "create_session");
    say_text("token", ua_session_token(reply, reply_count, INTO, &code));
    ask(ua_activate_session_request_as(text, text_count, TEXT("other"), moment, 4, BY_REASON), "activate_session_as");
    ask(ua_read_request(TEXT("ns=2;i=2"), moment, 5, TEXT("ns=1;s=" LONG "\nns=1;s=Pump\ni=9"), TEXT(""), BY_INDEX), "read");
    say_text("lines", ua_response_text(TEXT("ns=1;s=" LONG "\nns=1;s=Pump\ni=9"), reply, reply_count, INTO, &code));
    ask(ua_write_request(TEXT("ns=2;i=2"), moment, 6, TEXT("ns=1;s=" LONG), TEXT("String"), TEXT(LONG "b"), BY_REASON), "write");
    say_text("lines", ua_response_text(TEXT("ns=1;s=" LONG), reply, reply_count, INTO, &code));
    ask(ua_close_session_request(TEXT("i=5"), moment, 7, REQUEST), "close_session"); /* the token of no session */
}

/* A reply that is given up, a stream that the server refuses, and what the client says of that. */
static void fail(void) {
    size_t taken, waiting;
    uint32_t status;
    check(ua_server_next_connection(&server, 3), "next_connection");
    open_with(&small, url);
    ask(ua_get_endpoints_request(TEXT(url), moment, 2, REQUEST), "get_endpoints");
    status = ua_server_step(&server, TEXT("HEXF8888"), moment, &taken, &waiting, &code);
    printf("step %u took %zu code %08X\n", (unsigned)status, taken, (unsigned)code);
    down_count = 0;
    fetch(&server, down, &down_count);
    say_digits("waited", down, down_count);
    status = ua_client_take(&client, down, down_count, moment, &taken, &event, &id, &code);
    printf("take %u took %zu event %u code %08X\n", (unsigned)status, taken, (unsigned)event, (unsigned)code);
}

/* A request of bad texts: which of them is told. */
static void say_bad(const char *what, uint32_t status) {
    printf("bad %s %u reason %u index %zu needs %zu\n", what, (unsigned)status, (unsigned)reason, bad_index, request_count);
    bad_index = 0;
}

static void say_spelled(const uint8_t *octets, size_t count, uint32_t plain) {
    size_t name;
    uint32_t status = ua_value_text(octets, count, plain, INTO, &name);
    printf("spelled %u name %zu %.*s\n", (unsigned)status, name, (int)text_count, (const char *)text);
}

static void say_read(const char *type, const char *spelled, uint32_t plain) {
    uint32_t status = ua_text_value(TEXT(type), TEXT(spelled), plain, BY_REASON);
    printf("read %u reason %u ", (unsigned)status, (unsigned)reason);
    say_digits(type, request, request_count);
}

/* Which text is bad, and texts that come back. */
static void tell_apart(void) {
    say_bad("token", ua_read_request(TEXT("Pump"), moment, 5, TEXT("i=1"), TEXT(""), BY_INDEX));
    say_bad("second node", ua_read_request(TEXT("i=1"), moment, 5, TEXT("i=1\nPump\nns=1;s=Row\nTank"), TEXT(""), BY_INDEX));
    say_bad("nodes", ua_read_request(TEXT("i=1"), moment, 5, TEXT("i=1\n\xFF"), TEXT(""), BY_INDEX));
    say_bad("range", ua_read_request(TEXT("i=1"), moment, 5, TEXT("i=1"), TEXT("\xFF"), BY_INDEX));
    say_bad("node", ua_write_request(TEXT("i=1"), moment, 5, TEXT("Pump"), TEXT("Int32"), TEXT("6"), BY_REASON));
    say_bad("type", ua_write_request(TEXT("i=1"), moment, 5, TEXT("i=1"), TEXT("Int"), TEXT("6"), BY_REASON));
    say_bad("value", ua_write_request(TEXT("i=1"), moment, 5, TEXT("i=1"), TEXT("Int32"), TEXT("six"), BY_REASON));
    say_bad("policy", ua_activate_session_request_as(TEXT("i=1"), TEXT("\xFF"), moment, 5, BY_REASON));
    say_spelled((const uint8_t *)"\x0B\0\0\0\0\0\x80\x35\x40", 9, 0);
    say_spelled((const uint8_t *)"\x0B\0\0\0\0\0\x80\x35\x40", 9, 1);
    say_spelled((const uint8_t *)"\x0C\3\0\0\0a,b", 8, 1);
    say_spelled((const uint8_t *)"\x8C\1\0\0\0\3\0\0\0a,b", 12, 1); /* its text is that of two Strings */
    say_spelled((const uint8_t *)"\x0C\xFF\xFF\xFF\xFF", 5, 1);           /* the null String */
    say_spelled((const uint8_t *)"\0", 1, 1);                                /* no value */
    say_spelled((const uint8_t *)"\6\7\0\0", 4, 1);
    say_read("Double", "21.5", 1);
    say_read("Double", "21.5", 0);
    say_read("Doubles", "21.5", 1);
    say_read("DateTime", "1970-01-01T00:00:00Z", 1);
}

/* Calls without a handle. */
static void make(void) {
    check(ua_read_request(TEXT("ns=2;i=1"), moment, 5, TEXT("ns=1;s=Pump\ni=9999"), TEXT("1:9"), BY_INDEX), "read");
    say_digits("read", request, request_count);
    check(ua_close_session_request(TEXT("ns=2;s=" LONG), moment, 6, REQUEST), "close_session");
    say_digits("close_session", request, request_count);
    check(ua_activate_session_request_as(TEXT("ns=2;i=1"), TEXT(LONG), moment, 3, BY_REASON), "activate_session_as");
    say_digits("activate_session_as", request, request_count);
    printf("refused"); /* a ReadResponse without results, whose ServiceResult is bad */
    say_kind((const uint8_t *)"\x01\0\x7A\x02" "\0\0\0\0\0\0\0\0" "\x05\0\0\0" "\0\0\x73\x80" "\0"
             "\xFF\xFF\xFF\xFF" "\0\0\0" "\xFF\xFF\xFF\xFF" "\xFF\xFF\xFF\xFF", 36);
    printf("\n");
    check(ua_encode_value(TEXT("Int32"), TEXT("6"), INTO), "encode");
    say_digits("encode", text, text_count);
    check(ua_encode_value(TEXT("Int32[]"), TEXT("10,20"), INTO), "encode");
    say_digits("encode", text, text_count);
    check(ua_encode_value(TEXT("ByteString"), TEXT("3q2+7w=="), INTO), "encode");
    say_digits("encode", text, text_count);
    check(ua_encode_value(TEXT("String[]"), TEXT("a," LONG), REQUEST), "encode");
    say_digits("encode", request, request_count);
    say_text("decode", ua_decode_value(request, request_count, INTO));
    say_text("decode", ua_decode_value((const uint8_t *)"\x06\x06\0\0\0", 5, INTO));
}

/* ---- nodes that two connections share */

static const char plant[] = "ns=1;s=Pump\trw\tPump\tInt32\t5\nns=1;s=Temp\tr\tTemp\tDouble\t0x0000000000000000\n"
                            "ns=1;s=Row\trw\tRow\tUInt16[]\t1,2\n";
static const char asked[] = "ns=1;s=Temp\nns=1;s=Pump";
static struct ua_nodes shared;
static struct ua_connection lines[2];
static struct ua_handle clients[2];
static uint8_t tokens[2][64];
static size_t token_counts[2];

/* The same as `talk` over one of the two connections. */
static void talk_over(int k) {
    uint8_t octets[4096];
    size_t count, taken, waiting;
    do {
        check(ua_fetch(&clients[k], octets, sizeof octets, &count), "fetch");
        for (size_t at = 0; at < count; at += taken)
            check(ua_connection_step(&lines[k], &shared, octets + at, count - at, moment, &taken, &waiting, &code), "connection_step");
        check(ua_connection_fetch(&lines[k], octets, sizeof octets, &count), "connection_fetch");
        for (size_t at = 0; at < count; at += taken)
            check(ua_client_take(&clients[k], octets + at, count - at, moment, &taken, &event, &id, &code), "take");
    } while (event == UA_EVENT_SEND);
    reply_count = 0;
    if (event == UA_EVENT_ANSWERED)
        fetch(&clients[k], reply, &reply_count);
}

static void ask_over(int k, uint32_t status, const char *what) {
    check(status, what);
    check(ua_client_ask(&clients[k], request, request_count, &id), "ask");
    talk_over(k);
}

static void open_over(int k) {
    check(ua_connection_new(&limits, (uint32_t)k + 1, &lines[k]), "connection_new");
    check(ua_client_new(&limits, TEXT(url), &clients[k]), "client_new");
    check(ua_client_hello(&clients[k]), "hello");
    talk_over(k);
    ask_over(k, ua_create_session_request(TEXT(url), moment, 1, REQUEST), "create_session");
    check(ua_session_token(reply, reply_count, tokens[k], sizeof tokens[k], &token_counts[k], &code), "session_token");
    ask_over(k, ua_activate_session_request(tokens[k], token_counts[k], moment, 2, REQUEST), "activate_session");
    printf("connection %d token %.*s\n", k, (int)token_counts[k], (const char *)tokens[k]);
}

static void read_over(int k) {
    ask_over(k, ua_read_request(tokens[k], token_counts[k], moment, 3, TEXT(asked), TEXT(""), BY_INDEX), "read");
    printf("connection %d ", k);
    say_text("reads", ua_response_text(TEXT(asked), reply, reply_count, INTO, &code));
}

static void say_nodes(const char *file, const char *uri) {
    size_t line;
    uint32_t reason, status = ua_nodes_new(TEXT(file), TEXT(url), TEXT(uri), TEXT("plant"), 1048576, &shared, &line, &reason);
    printf("nodes_new %u line %zu reason %u\n", (unsigned)status, line, (unsigned)reason);
}

static void say_find(const char *node) {
    size_t index, status = ua_node_find(&shared, TEXT(node), &index);
    printf("node_find %s %zu index %zu\n", node, status, index);
}

static void say_set(const char *what, size_t index, const uint8_t *octets, size_t count, const struct ua_reading *reading) {
    printf("node_set %s %u\n", what, (unsigned)ua_node_set(&shared, index, octets, count, reading));
}

static void say_reading(const struct ua_reading *is, const uint8_t *octets) {
    printf("at %zu size %zu status %u %08X time %u %lld picoseconds %u %u server %u %u ", is->value_at, is->value_len,
           is->has_status, (unsigned)is->status, is->has_source_time, (long long)is->source_time, is->has_source_picoseconds,
           is->source_picoseconds, is->has_server_time, is->has_server_picoseconds);
    say_digits("value", octets, octets ? is->value_len : 0);
}

static void say_get(size_t index, size_t room) {
    struct ua_reading is;
    uint8_t octets[64];
    size_t needed;
    uint32_t status = ua_node_get(&shared, index, octets, room, &needed, &is);
    printf("node_get %zu %u needs %zu ", index, (unsigned)status, needed);
    say_reading(&is, status == UA_OK ? octets : NULL);
}

static void say_written(struct ua_nodes *over, size_t room) {
    struct ua_reading is;
    uint8_t octets[64];
    size_t index, needed;
    uint32_t status = ua_next_written(&lines[0], over, &index, octets, room, &needed, &is);
    printf("next_written %u index %zu needs %zu ", (unsigned)status, index, needed);
    say_reading(&is, status == UA_OK ? octets : NULL);
}

static void say_readings(const uint8_t *body, size_t body_count, size_t room) {
    struct ua_reading are[2];
    size_t count;
    uint32_t status = ua_readings(body, body_count, are, room, &count, &code);
    printf("readings %u count %zu code %08X\n", (unsigned)status, count, (unsigned)code);
    for (size_t at = 0; status == UA_OK && at < count; at++)
        say_reading(&are[at], body + are[at].value_at);
}

/* What the program sets both clients read, and what one of them writes the program and the other one. */
static void share(void) {
    uint8_t value[32] = {0xFF, 0xFF}, no_limits[4] = {0};
    size_t size = ua_put_double(value + 2, 21.25), taken, waiting;
    struct ua_reading is = ua_reading_of(size, 0x40000000, 99);
    say_nodes("#\nns=1;s=Pump\trw\tPump\tInt32\t5x\n", "urn:a");
    say_nodes("ns=1;s=Pump\trw\tPump\tInt32\n", "urn:a");
    say_nodes("ns=1;s=Pump\trw\tPump\tInt32\t5\nns=1;s=Pump\tr\tPump\tInt32\t5", "urn:a");
    say_nodes("\xFF", "urn:a");
    say_nodes(plant, "urn:\xFF");
    printf("node_find %u\n", (unsigned)ua_node_find(&shared, TEXT("i=1"), &taken));
    say_nodes(plant, "urn:a");
    printf("connection_new %u\n", (unsigned)ua_connection_new(&(struct ua_limits){sizeof(struct ua_limits), 8191, 8192, 1, 1}, 1, &lines[0]));
    printf("connection_step %u\n", (unsigned)ua_connection_step(&lines[0], &shared, no_limits, 4, moment, &taken, &waiting, &code));
    for (int k = 0; k < 2; k++)
        open_over(k);
    say_find("ns=1;s=Temp");
    say_find("ns=1;s=Row");
    say_find("ns=1;s=None");
    say_find("Temp");
    is.value_at = 2;
    is.has_source_picoseconds = 1;
    is.source_picoseconds = 7;
    say_set("Temp", 1, value, sizeof value, &is);
    say_set("a node of another type", 0, value, sizeof value, &is);
    say_set("no node", 3, value, sizeof value, &is);
    say_set("no octets", 1, value, 10, &is);
    is.value_at = SIZE_MAX;
    say_set("octets far behind", 1, value, sizeof value, &is);
    is.value_at = 1;
    say_set("no value", 1, value, sizeof value, &is);
    is.has_source_time = 0;
    say_set("no time", 1, value, sizeof value, &is);
    for (int k = 0; k < 2; k++)
        read_over(k);
    say_written(&shared, sizeof value);
    ask_over(0, ua_write_request(tokens[0], token_counts[0], moment, 4, TEXT("ns=1;s=Pump"), TEXT("Int32"), TEXT("7"), BY_REASON), "write");
    say_readings(reply, reply_count, 2);
    read_over(1);
    say_readings(reply, reply_count, 1);
    say_readings(reply, reply_count, 2);
    say_readings(reply, reply_count - 1, 2);
    say_readings((const uint8_t *)"\x01\0\x8D\x01" "\0\0\0\0\0\0\0\0" "\x05\0\0\0" "\0\0\x02\x80" "\0"
                 "\xFF\xFF\xFF\xFF" "\0\0\0", 28, 2); /* a ServiceFault */
    say_written(&shared, 4);
    say_written((struct ua_nodes *)&lines[1], sizeof value);
    say_written(&shared, sizeof value);
    say_written(&shared, sizeof value);
    say_get(0, sizeof value);
    say_get(1, sizeof value);
    say_get(2, sizeof value);
    say_get(2, 8);
    say_get(3, sizeof value);
    printf("connection_step %u\n",
           (unsigned)ua_connection_step(&lines[0], (struct ua_nodes *)&lines[1], value, 1, moment, &taken, &waiting, &code));
    printf("held %zu bound %zu waiting %zu\n", ua_connection_held(&lines[0]), ua_connection_bound(&lines[0]), ua_connection_waiting(&lines[0]));
    for (int k = 0; k < 2; k++) {
        ua_connection_free(&lines[k]);
        ua_free(&clients[k]);
    }
    ua_nodes_free(&shared);
    printf("node_get %u\n", (unsigned)ua_node_get(&shared, 0, value, sizeof value, &size, &is));
}

/* Numbers as values: their encodings, and back. */
static void number(void) {
    uint8_t octets[32];
    int16_t one = 0, pair[2] = {-2, 258}, back[2] = {0, 0};
    uint16_t other = 0;
    float half = 0;
    size_t count;
    say_digits("boolean", octets, ua_put_boolean(octets, 1));
    say_digits("int16", octets, ua_put_int16(octets, -2));
    printf("int16 %d", ua_get_int16(octets, 3, &one));
    printf(" %d\n", one);
    printf("int16 %d, uint16 %d\n", ua_get_int16(octets, 2, &one), ua_get_uint16(octets, 3, &other));
    say_digits("float", octets, ua_put_float(octets, 0.5f));
    printf("float %d", ua_get_float(octets, 5, &half));
    printf(" %g\n", half);
    say_digits("int16_array", octets, ua_put_int16_array(octets, sizeof octets, pair, 2));
    printf("int16_array %d", ua_get_int16_array(octets, 9, back, 1, &count));
    printf(" %zu %d %d\n", count, back[0], back[1]);
    printf("int16_array %d", ua_get_int16_array(octets, 8, back, 2, &count));
    printf(" %zu, needs %zu\n", count, ua_put_int16_array(octets, 8, pair, 2));
}

/* Words for numbers, and null pointers, whose length is 0. */
static void name(void) {
    printf("version %s\n", ua_version() == UA_VERSION ? "same" : "another");
    say_text("status 18", ua_status_text(UA_TOO_SMALL, INTO));
    printf("status 99: %u\n", (unsigned)ua_status_text(99, INTO));
    say_text("code 80340000", ua_code_name(0x80340000, INTO));
    printf("code 80340001: %u\n", (unsigned)ua_code_name(0x80340001, INTO));
    check(ua_encode_value(TEXT("String"), NULL, 0, INTO), "encode");
    say_digits("encode", text, text_count);
    printf("encode %u", (unsigned)ua_encode_value(TEXT("Int32"), TEXT("6"), NULL, 0, &text_count));
    printf(" needs %zu\n", text_count);
    ua_free(NULL);
}

int main(int count, char **words) {
    if (count != 3)
        return 2;
    converse(words);
    go_on();
    fail();
    make();
    tell_apart();
    share();
    number();
    name();
    ua_free(&client);
    ua_free(&server);
    return 0;
}
