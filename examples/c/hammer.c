/* Throws pieces at servers and clients, and counts what is answered.
 *
 *     hammer PIECES SECONDS SEED STREAM..
 *
 * It stops behind PIECES pieces or SECONDS seconds, whichever comes first. A STREAM is a file of octets
 * as one end sent them; a piece is random, or a part of a stream with octets that are changed, left out
 * or said twice. A further server and a client talk to each other: the client asks, renews and closes,
 * and what passes between them is changed now and then. A machine that ended is made anew. Each server is now one of a
 * connection at a time, now a connection over nodes that both share and that are set and got between the pieces. Each server
 * has a twin, and the nodes have one: the same happens to it, but its pieces are cut elsewhere, and it has to answer the same
 * octets, to tell the same of what clients wrote and to end in the same way, and its nodes have to hold the same. Besides what
 * a sanitizer or valgrind sees, it checks what ua.h says: what is taken lies within the piece, nothing
 * is taken or waits at other statuses, no more is held than the bound, a buffer is written just where it
 * is said to be, and UA_NO_MEMORY is answered only where memory was refused. That is never, unless it is
 * built with -DREFUSE=N and linked with -Wl,--wrap=malloc,--wrap=realloc: then at one call in N, and there are no twins,
 * since memory is refused to one and not to the other. docs/C.md says how it is built, and what was seen. */
#include <stddef.h>
#include <stdio.h>
#include <stdlib.h>
#include <string.h>
#include <time.h>

#include "ua.h"

#define MOST_STREAMS 16
#define MOST_OCTETS 65536
#define TEXT(t) (const uint8_t *)(t), strlen(t)

/* A server and a client that streams are thrown at, and a server and a client that talk. */
enum { SERVER, CLIENT, TALKING_SERVER, TALKING_CLIENT, HANDLES };

static const struct ua_limits limits = {sizeof(struct ua_limits), 65535, 65535, 1048576, 256};
static const char nodes[] = "ns=1;s=Pump\trw\tPump\tInt32\t5\nns=1;s=Row\trw\tRow\tInt32[]\t1,2,3\n";
static const char url[] = "opc.tcp://localhost:4840";
static const char *const asked_nodes[] = {"ns=1;s=Pump", "ns=1;s=Row", "ns=1;s=Pump\nns=1;s=Row"};
static struct ua_connection machines[HANDLES]; /* each is a handle; a connection where `shares` says so */
static struct ua_connection twins[HANDLES];    /* those of the servers */
static int shares[HANDLES];
static struct ua_nodes shared, shared_by_twins;
static uint8_t streams[MOST_STREAMS][MOST_OCTETS], piece[MOST_OCTETS], text[2048];
static size_t sizes[MOST_STREAMS], stream_count, places[2], stream_of[2], room, needed;
static uint8_t line[HANDLES][2 * MOST_OCTETS]; /* what a talking machine was sent, and did not take yet */
static size_t line_size[HANDLES];
static char token[64] = "i=0";
static unsigned long long state, seen[HANDLES][32], events[8], put[32], asked[32], set[32], taken_in_all, fetched_in_all;
static unsigned long long refused, refused_in_all;
/* A sum of the octets that each server answered, and one of those of its twin; how many pieces both were given. */
static unsigned long long answers[HANDLES], answers_of_twin[HANDLES], compared;
static unsigned long long cuts; /* the state of the twins' random numbers: those of a seed are the same without twins */
static unsigned long long rooms; /* that of the random numbers of places for readings */
static unsigned long long items, results; /* how many items of Writes were told, and how many results of Reads */

static uint32_t next_of(unsigned long long *from, uint32_t below) {
    *from = *from * 6364136223846793005ull + 1442695040888963407ull;
    return (uint32_t)((*from >> 33) % below);
}

static uint32_t next(uint32_t below) {
    return next_of(&state, below);
}

static void add_answer(unsigned long long *sum, const uint8_t *octets, size_t size) {
    for (size_t at = 0; at < size; at++)
        *sum = (*sum ^ octets[at]) * 1099511628211ull;
}

static void fail(const char *what) {
    fprintf(stderr, "hammer: %s\n", what);
    exit(1);
}

#ifdef REFUSE
enum { HAS_TWINS = 0 };

void *__real_malloc(size_t size);
void *__real_realloc(void *block, size_t size);

static int refuses(void) {
    return next(REFUSE) == 0 && ++refused && ++refused_in_all;
}

void *__wrap_malloc(size_t size) {
    return refuses() ? NULL : __real_malloc(size);
}

void *__wrap_realloc(void *block, size_t size) {
    return refuses() ? NULL : __real_realloc(block, size);
}
#else
enum { HAS_TWINS = 1 };
#endif

/* The status of a call, which says UA_NO_MEMORY only where memory was refused. */
static uint32_t said(uint32_t status) {
    if (status == UA_NO_MEMORY && !refused)
        fail("no memory was refused");
    refused = 0;
    return status;
}

/* A piece of random octets, or of a stream that is changed here and there. */
static size_t make_piece(int kind) {
    size_t size = 1 + next(next(8) ? 64 : 4096), at = 0, *place = &places[kind];
    if (next(16) == 0) {
        while (at < size)
            piece[at++] = (uint8_t)next(256);
        return size;
    }
    while (at < size) {
        if (*place >= sizes[stream_of[kind]])
            *place = 0;
        uint32_t change = next(2048);
        if (change == 0)
            piece[at++] = (uint8_t)next(256);
        else if (change == 1)
            *place += next(64);
        else if (change == 2)
            *place -= next((uint32_t)(*place + 1));
        else
            piece[at++] = streams[stream_of[kind]][(*place)++];
    }
    return size;
}

/* The front of what a talking machine was sent. One in 256 has an octet changed, left out or said twice. */
static size_t take_piece(int kind) {
    size_t size = 1 + next(next(4) ? 64 : 4096), end;
    size = end = size < line_size[kind] ? size : line_size[kind];
    memcpy(piece, line[kind], size);
    if (next(256) == 0) {
        size_t at = next((uint32_t)size);
        if (next(3) == 0)
            piece[at] = (uint8_t)next(256);
        else if (next(2))
            memmove(piece + at, piece + at + 1, --size - at);
        else
            memmove(piece + at + 1, piece + at, size++ - at);
    }
    memmove(line[kind], line[kind] + end, line_size[kind] -= end);
    return size;
}

/* Fetches all that waits in pieces of any size, and says how many octets; hands them to the other end. */
static size_t fetch_all(int kind, uint8_t *out, size_t most) {
    uint8_t buffer[512];
    size_t waiting = ua_waiting(&machines[kind].handle), fetched, count = 0;
    while (waiting > 0) {
        size_t size = next(sizeof buffer + 1);
        uint32_t status = said(ua_fetch(&machines[kind].handle, buffer, size, &fetched));
        if (status == UA_NO_MEMORY && fetched == 0)
            continue;
        if (status != UA_OK || fetched != (size < waiting ? size : waiting))
            fail("fetch");
        waiting -= fetched;
        fetched_in_all += fetched;
        add_answer(&answers[kind], buffer, fetched);
        if (ua_waiting(&machines[kind].handle) != waiting)
            fail("waiting");
        for (size_t at = 0; at < fetched && count < most; at++)
            out[count++] = buffer[at];
    }
    return count;
}

/* What waits goes to the other talking machine; of the others it is let go. */
static void pass_on(int kind) {
    int other = TALKING_SERVER + TALKING_CLIENT - kind;
    if (kind < TALKING_SERVER)
        fetch_all(kind, NULL, 0);
    else
        line_size[other] += fetch_all(kind, line[other] + line_size[other], sizeof line[0] - line_size[other]);
}

static size_t make_room_of(size_t size) {
    memset(text, 0xA5, sizeof text);
    return room = size;
}

static size_t make_room(void) {
    return make_room_of(next(8) ? sizeof text : next(64));
}

/* The status of a call that puts `needed` octets into the first `room` of `text`. */
static uint32_t checked(uint32_t status) {
    size_t at = said(status) == UA_OK ? needed : 0;
    if (status == UA_OK ? needed > room : status == UA_TOO_SMALL ? needed <= room : needed != 0)
        fail("needed");
    for (; at < sizeof text; at++)
        if (text[at] != 0xA5)
            fail("a buffer");
    put[status]++;
    return status;
}

/* The talking client asks a request of one of the calls, or other octets, or renews or closes. */
static uint32_t ask(void) {
    struct ua_handle *client = &machines[TALKING_CLIENT].handle;
    uint32_t id, choice = next(64), status = UA_OK, reason = 0;
    size_t index = 0;
    const char *read = asked_nodes[next(3)], *written = asked_nodes[next(8) == 0], *range = next(4) ? "" : "0:1";
    needed = 0;
    if (choice < 2)
        status = checked(ua_get_endpoints_request(TEXT(url), 7, 1, text, make_room(), &needed));
    else if (choice < 6)
        status = checked(ua_create_session_request(TEXT(url), 7, 1, text, make_room(), &needed));
    else if (choice < 8)
        status = checked(ua_activate_session_request_as(TEXT(token), TEXT("anonymous"), 7, 1, text, make_room(), &needed, &reason));
    else if (choice < 12)
        status = checked(ua_activate_session_request(TEXT(token), 7, 1, text, make_room(), &needed));
    else if (choice < 14)
        status = checked(ua_close_session_request(TEXT(token), 7, 1, text, make_room(), &needed));
    else if (choice < 36)
        status = checked(ua_read_request(TEXT(token), 7, 1, TEXT(read), TEXT(range), text, make_room(), &needed,
                                         &reason, &index));
    else if (choice < 58)
        status = checked(ua_write_request(TEXT(token), 7, 1, TEXT(written), TEXT("Int32"), TEXT("6"), text,
                                          make_room(), &needed, &reason));
    else if (choice < 60)
        needed = next(64);
    if (reason != 0 && status != UA_BAD_TEXT && status != UA_NO_MEMORY)
        fail("reason");
    if (index != 0 && reason != UA_TEXT_NODE)
        fail("index");
    if (status != UA_OK)
        return UA_OK;
    if (choice < 60)
        status = ua_client_ask(client, text, needed, &id);
    else if (choice < 63 || next(8))
        status = ua_client_renew(client, 7, &id);
    else
        status = ua_client_close(client, 7);
    asked[said(status)]++;
    if ((status == UA_OK) != (ua_waiting(client) > 0))
        fail("asked");
    return status;
}

/* A value with a text is the one that the text denotes. */
static void come_back(const uint8_t *octets, size_t size) {
    static uint8_t spelled[MOST_OCTETS * 8], back[MOST_OCTETS * 8];
    uint32_t plain = next_of(&rooms, 2), reason = 7;
    size_t whole, name, count = 0;
    if (said(ua_value_text(octets, size, plain, spelled, sizeof spelled, &whole, &name)) != UA_OK)
        return;
    if (name >= whole || spelled[name] != ' ')
        fail("the text of a value");
    uint32_t status = said(ua_text_value(spelled, name, spelled + name + 1, whole - name - 1, plain, back, sizeof back, &count, &reason));
    if (status != UA_NO_MEMORY && (status != UA_OK || reason || count != size || memcmp(back, octets, size)))
        fail("a value that came back");
}

/* The results of a Read lie within its reply, and each value can be read. */
static void read_results(const uint8_t *octets, size_t size, uint32_t response) {
    static struct ua_reading readings[MOST_OCTETS];
    size_t most = next_of(&rooms, 8) ? MOST_OCTETS : next_of(&rooms, 4), count = 7;
    uint32_t code = 7, status = said(ua_readings(octets, size, readings, most, &count, &code));
    if (status == UA_OK ? count > most : status == UA_TOO_SMALL ? count <= most : count != 0)
        fail("readings");
    if (response && status != UA_NO_MEMORY && (status == UA_OK || status == UA_TOO_SMALL) != (response == UA_READ_RESPONSE))
        fail("readings of another response");
    for (size_t at = 0; status == UA_OK && at < count; at++) {
        const struct ua_reading *is = &readings[at];
        if (is->value_at > size || is->value_len > size - is->value_at || (is->has_value && is->value_len == 0))
            fail("the place of a value");
        if (is->has_value && checked(ua_decode_value(octets + is->value_at, is->value_len, text, make_room_of(sizeof text), &needed)) == UA_BAD_OCTETS)
            fail("the octets of a value");
        if (is->has_value)
            come_back(octets + is->value_at, is->value_len);
        results++;
    }
}

/* What the calls without a handle make of octets. */
static void read_octets(const uint8_t *octets, size_t size) {
    const char *read = asked_nodes[next(3)];
    uint32_t code = 7, response = 7, service_result = 7;
    if (said(ua_response_kind(octets, size, &response, &service_result)) == UA_OK ? response == 0 : response || service_result)
        fail("a response");
    read_results(octets, size, response);
    uint32_t status = checked(ua_session_token(octets, size, text, make_room(), &needed, &code));
    if (status == UA_OK && needed < sizeof token) {
        memcpy(token, text, needed);
        token[needed] = 0;
    }
    checked(ua_response_text(TEXT(read), octets, size, text, make_room(), &needed, &code));
    checked(ua_decode_value(octets, size, text, make_room(), &needed));
    checked(ua_dissect(octets, size, next(3), text, make_room(), &needed));
    checked(ua_encode_value(TEXT("String"), octets, size, text, make_room(), &needed));
}

static uint32_t new_server(int kind, uint32_t channel, struct ua_connection *out) {
    size_t bad;
    if (shares[kind])
        return ua_connection_new(&limits, channel, out);
    return ua_server_new(TEXT(nodes), &limits, TEXT(url), channel, &out->handle, &bad);
}

static uint32_t make_server(int kind) {
    uint32_t channel = (shares[kind] = next(4) > 0) ? 1 + next(1024) : 1;
    if (HAS_TWINS && new_server(kind, channel, &twins[kind]) != UA_OK)
        fail("a new twin");
    return new_server(kind, channel, &machines[kind]);
}

/* The next connection of a server of one at a time. */
static void next_connection(int kind) {
    uint32_t channel = next(1024);
    if (ua_server_next_connection(&machines[kind].handle, channel) != UA_OK)
        fail("next connection");
    if (HAS_TWINS && ua_server_next_connection(&twins[kind].handle, channel) != UA_OK)
        fail("next connection of a twin");
}

static void make(int kind) {
    uint32_t status;
    do
        status = said(kind & 1 ? ua_client_new(&limits, TEXT(url), &machines[kind].handle) : make_server(kind));
    while (status == UA_NO_MEMORY);
    while (kind & 1 && status == UA_OK && said(ua_client_hello(&machines[kind].handle)) == UA_NO_MEMORY)
        continue;
    if (status != UA_OK || (kind & 1) != (ua_waiting(&machines[kind].handle) > 0))
        fail("new");
    pass_on(kind);
}

/* A server, or its twin, takes octets. */
static uint32_t step(int kind, int is_twin, const uint8_t *octets, size_t size, size_t *taken, size_t *waiting, uint32_t *code) {
    struct ua_connection *server = is_twin ? &twins[kind] : &machines[kind];
    if (shares[kind])
        return ua_connection_step(server, is_twin ? &shared_by_twins : &shared, octets, size, 7, taken, waiting, code);
    return ua_server_step(&server->handle, octets, size, 7, taken, waiting, code);
}

/* A server, or its twin, tells what the Write that it just answered stored; the node of the last item holds its value. */
static void hear_written(int kind, int is_twin) {
    static uint8_t value[MOST_OCTETS], held[MOST_OCTETS];
    struct ua_connection *server = is_twin ? &twins[kind] : &machines[kind];
    struct ua_nodes *over = is_twin ? &shared_by_twins : &shared;
    struct ua_reading is;
    size_t index, size, last = 0, last_size = 0, of_node;
    uint32_t status = UA_NO_MEMORY;
    if (!shares[kind])
        return;
    while (status != UA_NO_MORE) {
        size_t place = status == UA_TOO_SMALL ? sizeof value : 0;
        status = said(ua_next_written(server, over, &index, value, place, &size, &is));
        if (status == UA_NO_MEMORY || (status == UA_TOO_SMALL && place == 0 && size > 0))
            continue;
        if (status == UA_NO_MORE ? index || size : status != UA_OK || index > 1 || !is.has_value || is.value_at != 0 || is.value_len != size)
            fail("written");
        if (status == UA_OK) {
            add_answer(is_twin ? &answers_of_twin[kind] : &answers[kind], value, size);
            last = index;
            last_size = size;
            items += !is_twin;
        }
    }
    if (last_size == 0)
        return;
    while (said(status = ua_node_get(over, last, held, sizeof held, &of_node, &is)) == UA_NO_MEMORY)
        continue;
    if (status != UA_OK || of_node != last_size || memcmp(held, value, last_size))
        fail("written and held");
}

/* The twin of a server takes what the server was given, cut elsewhere, and answers and ends as the server did. */
static void step_twin(int kind, size_t size, uint32_t ended, uint32_t ended_for) {
    static uint8_t buffer[4096];
    uint32_t status = UA_OK, code = 0;
    for (size_t at = 0, end = 0, taken, waiting, fetched; at < size && status == UA_OK; at += taken) {
        if (at >= end)
            end = at + 1 + next_of(&cuts, next_of(&cuts, 4) ? 64 : 4096);
        waiting = taken = 0;
        status = step(kind, 1, piece + at, (end < size ? end : size) - at, &taken, &waiting, &code);
        if (status == UA_OK && taken == 0)
            fail("taken by a twin");
        hear_written(kind, 1);
        for (; waiting > 0; waiting -= fetched) {
            if (ua_fetch(&twins[kind].handle, buffer, sizeof buffer, &fetched) != UA_OK || fetched == 0)
                fail("fetch of a twin");
            add_answer(&answers_of_twin[kind], buffer, fetched);
        }
    }
    if (status != ended || (status == UA_REFUSED && code != ended_for))
        fail("another end in other cuts");
    if (answers[kind] != answers_of_twin[kind])
        fail("another answer in other cuts");
    compared++;
}

/* The nodes of the twins hold at this index what was got of the others: the status, and the reading in `text`. */
static void get_twin(size_t index, uint32_t got, const struct ua_reading *is) {
    static uint8_t buffer[sizeof text];
    struct ua_reading of_twin;
    size_t size;
    if (ua_node_get(&shared_by_twins, index, buffer, room, &size, &of_twin) != got || size != needed)
        fail("needed in other cuts");
    /* nothing stands between the fields, but behind the last of them */
    if (got == UA_OK && (memcmp(is, &of_twin, offsetof(struct ua_reading, has_server_picoseconds) + 1) || memcmp(text, buffer, needed)))
        fail("got in other cuts");
}

/* A node is set, to what may be no reading, and got. */
static void set_and_get(void) {
    static int32_t row[64];
    static uint8_t value[300];
    int canonical = 1;                                      /* -1 is not the only count of a null array */
    size_t index = next(8) ? next(2) : next(1024), size = index ? ua_put_int32_array(value, sizeof value, row, next(64)) : ua_put_int32(value, 6);
    struct ua_reading reading = ua_reading_of(size, next(2), 7), is;
    if (next(8) == 0) {
        value[next((uint32_t)size)] = (uint8_t)next(256);
        canonical = 0;
    }
    if (next(8) == 0)
        reading.value_at = next(2) ? next(300) : (size_t)0 - next(300);
    reading.has_source_picoseconds = (uint8_t)next(2);
    uint32_t status = said(ua_node_set(&shared, index, value, sizeof value, &reading));
    if (HAS_TWINS && ua_node_set(&shared_by_twins, index, value, sizeof value, &reading) != status)
        fail("set in other cuts");
    set[status]++;
    if (status == UA_OK && index > 1)
        fail("set");
    uint32_t got = checked(ua_node_get(&shared, index, text, make_room(), &needed, &is));
    if (status == UA_OK && got == UA_OK && (is.status != reading.status || (canonical && reading.value_at == 0 && (needed != size || memcmp(text, value, size)))))
        fail("got");
    if (HAS_TWINS)
        get_twin(index, got, &is);
}

/* A machine takes one piece. Whether it ended, and the status and the code of its last step. */
static int take(int kind, size_t size, uint32_t *status_of_last, uint32_t *code_of_last) {
    struct ua_handle *handle = &machines[kind].handle;
    for (size_t at = 0, taken; at < size; at += taken) {
        size_t waiting = 0, none;
        uint32_t code = 0, event = UA_EVENT_NEED_MORE, id, other;
        uint32_t status = kind & 1 ? ua_client_take(handle, piece + at, size - at, 7, &taken, &event, &id, &code)
                                   : step(kind, 0, piece + at, size - at, &taken, &waiting, &code);
        seen[kind][said(status)]++;
        *status_of_last = status;
        *code_of_last = code;
        if (kind & 1)
            events[event]++;
        if (taken > size - at || (status == UA_OK && taken == 0))
            fail("taken");
        if (!(kind & 1) && waiting != ua_waiting(handle))
            fail("waiting");
        if (status != UA_OK && status != UA_REFUSED && status != UA_ENDED && (taken || waiting))
            fail("taken at a status");
        if (ua_held(handle) > ua_bound(handle))
            fail("bound");
        if (!(kind & 1))
            hear_written(kind, 0);
        taken_in_all += taken;
        if (status == UA_OK && ua_waiting(handle) > 0 && next(4) == 0) {
            uint32_t second = kind & 1 ? ua_client_take(handle, piece, 1, 7, &none, &other, &id, &code)
                                       : step(kind, 0, piece, 1, &none, &waiting, &code);
            if (second != UA_FETCH_FIRST || none != 0)
                fail("fetch first");
        }
        if (event == UA_EVENT_ANSWERED) {
            static uint8_t body[MOST_OCTETS];
            read_octets(body, fetch_all(kind, body, sizeof body));
        }
        pass_on(kind);
        if (status != UA_OK)
            return 1;
    }
    return 0;
}

/* Gives one piece to a machine, and to the twin of a server, and says whether it ended. */
static int give(int kind, size_t size) {
    uint32_t status = UA_OK, code = 0;
    int is_over = take(kind, size, &status, &code);
    if (HAS_TWINS && !(kind & 1))
        step_twin(kind, size, status, code);
    return is_over;
}

/* One turn of the two that talk: an end takes a piece, or the client asks. Both begin anew where one ended
 * and the other was told, or the client waits for what was left out. */
static void talk(void) {
    int kind = next(2) ? TALKING_SERVER : TALKING_CLIENT, is_over;
    if (!line_size[kind])
        kind = TALKING_SERVER + TALKING_CLIENT - kind;
    if (line_size[kind] && next(8)) {
        is_over = give(kind, take_piece(kind)) && (kind == TALKING_CLIENT || !line_size[TALKING_CLIENT]);
    } else {
        is_over = ask() == UA_NOT_OPEN && !line_size[kind];
        pass_on(TALKING_CLIENT);
    }
    if (is_over) {
        line_size[TALKING_SERVER] = line_size[TALKING_CLIENT] = 0;
        if (shares[TALKING_SERVER] || next(2))
            make(TALKING_SERVER);
        else
            next_connection(TALKING_SERVER);
        make(TALKING_CLIENT);
    }
}

/* One piece for one of the others. */
static void throw_piece(int kind) {
    if (!give(kind, make_piece(kind)))
        return;
    places[kind] = 0;
    stream_of[kind] = next((uint32_t)stream_count);
    if (kind == CLIENT || shares[kind] || next(2))
        make(kind);
    else
        next_connection(kind);
}

static void print_counts(const char *what, const unsigned long long *counts, int most) {
    for (int number = 0; number < most; number++)
        if (counts[number])
            printf("%s %d: %llu\n", what, number, counts[number]);
}

int main(int count, char **words) {
    static const char *names[HANDLES] = {"server status", "client status", "talking server status",
                                         "talking client status"};
    if (count < 5)
        return 2;
    unsigned long long pieces = strtoull(words[1], NULL, 10), done = 0;
    time_t end = time(NULL) + atol(words[2]);
    state = cuts = strtoull(words[3], NULL, 10);
    for (; stream_count < MOST_STREAMS && 4 + stream_count < (size_t)count; stream_count++) {
        FILE *file = fopen(words[4 + stream_count], "rb");
        if (!file || !(sizes[stream_count] = fread(streams[stream_count], 1, MOST_OCTETS, file)))
            fail("a stream cannot be read");
        fclose(file);
    }
    stream_of[CLIENT] = stream_count - 1;
    size_t bad;
    uint32_t reason;
    while (said(ua_nodes_new(TEXT(nodes), TEXT(url), TEXT("urn:a"), TEXT("a"), 0, &shared, &bad, &reason)) == UA_NO_MEMORY)
        continue;
    if (HAS_TWINS && ua_nodes_new(TEXT(nodes), TEXT(url), TEXT("urn:a"), TEXT("a"), 0, &shared_by_twins, &bad, &reason) != UA_OK)
        fail("nodes of twins");
    for (int kind = 0; kind < HANDLES; kind++)
        make(kind);
    for (; done < pieces && ((done & 1023) || time(NULL) < end); done++) {
        uint32_t choice = next(4);
        if (next(16) == 0)
            set_and_get();
        if (choice < TALKING_SERVER)
            throw_piece((int)choice);
        else
            talk();
    }
    printf("pieces %llu octets taken %llu octets fetched %llu times that memory was refused %llu\n", done,
           taken_in_all, fetched_in_all, refused_in_all);
    printf("pieces of servers that were given in other cuts too %llu\n", compared);
    printf("items of Writes that were told %llu results of Reads %llu\n", items, results);
    for (int kind = 0; kind < HANDLES; kind++) {
        print_counts(names[kind], seen[kind], 32);
        ua_connection_free(&machines[kind]);
        ua_connection_free(&twins[kind]);
    }
    ua_nodes_free(&shared);
    ua_nodes_free(&shared_by_twins);
    print_counts("client event", events, 8);
    print_counts("asked status", asked, 32);
    print_counts("put status", put, 32);
    print_counts("set status", set, 32);
    return 0;
}
