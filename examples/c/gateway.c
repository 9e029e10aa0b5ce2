/* A gateway: serves the nodes of a file on a port of this machine, to several connections at once, while a sensor
 * moves one node and clients write another.
 *
 *     gateway NODES PORT CONNECTIONS [SECONDS]
 *
 * It prints `listening PORT`, and one line for each connection as it ends, and ends behind the last of
 * CONNECTIONS. A connection on which nothing moved for SECONDS (60) is ended as `Idle`. No connection waits for
 * another: where a client does not read, its octets wait, and no more of it is read, until it does. All connections
 * share the nodes: what one client writes the others read.
 *
 * Where there is a node `ns=1;s=Sensor` of the type Double, it is set every 100 milliseconds, to the seconds since
 * the start. Where there is a node `ns=1;s=Setpoint` of that type, `setpoint VALUE` is printed for each value that
 * a client writes to it. docs/C.md says how it is built. */
#include <arpa/inet.h>
#include <errno.h>
#include <fcntl.h>
#include <netinet/in.h>
#include <poll.h>
#include <signal.h>
#include <stdio.h>
#include <stdlib.h>
#include <string.h>
#include <sys/socket.h>
#include <time.h>
#include <unistd.h>

#include "ua.h"

#define MOST 16
#define PIECE 4096
#define TEXT(t) (const uint8_t *)(t), strlen(t)
#define NO_INDEX ((size_t)-1)

/* A connection: what came and was not taken yet, and what was fetched and not sent yet. */
struct connection {
    struct ua_connection connection;
    unsigned number;
    time_t moved; /* when octets last went either way */
    uint8_t in[PIECE], out[PIECE];
    size_t in_at, in_count, out_at, out_count;
    const char *end; /* how it ends when all that waits was sent; NULL where it goes on */
};

static const struct ua_limits limits = {sizeof(struct ua_limits), 65535, 65535, 1048576, 256};
static struct ua_nodes nodes; /* one table for all connections, the sensor and the setpoint */
static size_t sensor = NO_INDEX, setpoint = NO_INDEX;
static struct connection connections[MOST];
static struct pollfd polled[MOST + 1];

static int64_t moment(void) {
    struct timespec now;
    clock_gettime(CLOCK_REALTIME, &now);
    return ((int64_t)now.tv_sec + 11644473600) * 10000000 + now.tv_nsec / 100;
}

static time_t seconds(void) {
    struct timespec now;
    clock_gettime(CLOCK_MONOTONIC, &now);
    return now.tv_sec;
}

/* The index of a node, if there is one. */
static size_t find(const char *node) {
    size_t index;
    return ua_node_find(&nodes, TEXT(node), &index) == UA_OK ? index : NO_INDEX;
}

static void read_nodes(const char *name, const char *url) {
    FILE *file = fopen(name, "rb");
    size_t room = 1 << 20, count, line;
    uint8_t *octets = malloc(room);
    uint32_t status, reason;
    if (!file || !octets || (count = fread(octets, 1, room, file)) == room || ferror(file)) {
        fprintf(stderr, "gateway: cannot read %s\n", name);
        exit(1);
    }
    fclose(file);
    status = ua_nodes_new(octets, count, TEXT(url), TEXT("urn:example:gateway"), TEXT("gateway"), limits.max_message_size,
                          &nodes, &line, &reason);
    free(octets);
    if (status != UA_OK) {
        fprintf(stderr, "gateway: status %u, line %zu, reason %u\n", (unsigned)status, line, (unsigned)reason);
        exit(1);
    }
    sensor = find("ns=1;s=Sensor");
    setpoint = find("ns=1;s=Setpoint");
}

/* What the sensor measures now goes into its node. */
static void measure(int64_t start) {
    uint8_t value[UA_NUMBER_ROOM];
    int64_t now = moment();
    struct ua_reading reading = ua_reading_of(ua_put_double(value, (double)(now - start) / 1e7), 0, now);
    if (sensor != NO_INDEX && ua_node_set(&nodes, sensor, value, sizeof value, &reading) != UA_OK)
        sensor = NO_INDEX;
}

/* Prints what the client wrote to the setpoint, of the items of the Write that the last step answered. */
static void follow(struct ua_connection *connection) {
    static uint8_t octets[1048576]; /* no message is larger, and so no value */
    struct ua_reading reading;
    size_t index, size;
    double value;
    while (ua_next_written(connection, &nodes, &index, octets, sizeof octets, &size, &reading) == UA_OK)
        if (index == setpoint && ua_get_double(octets, size, &value)) {
            printf("setpoint %g\n", value);
            fflush(stdout);
        }
}

static int is_later(ssize_t count) {
    return count < 0 && (errno == EAGAIN || errno == EWOULDBLOCK || errno == EINTR);
}

/* Sends what waits, as far as the line takes it: 1 where all was sent, 0 where some is left for later, -1 where it failed. */
static int send_waiting(int line, struct connection *of) {
    while (of->out_at < of->out_count || ua_connection_waiting(&of->connection) > 0) {
        if (of->out_at == of->out_count) {
            of->out_at = of->out_count = 0;
            if (ua_connection_fetch(&of->connection, of->out, sizeof of->out, &of->out_count) != UA_OK)
                return -1;
        }
        ssize_t count = write(line, of->out + of->out_at, of->out_count - of->out_at);
        if (count <= 0)
            return is_later(count) ? 0 : -1;
        of->out_at += (size_t)count;
        of->moved = seconds();
    }
    return 1;
}

/* Takes octets that came, up to the first that are answered. */
static void take(struct connection *of) {
    static char refused[MOST][32];
    size_t taken, waiting;
    uint32_t code;
    switch (ua_connection_step(&of->connection, &nodes, of->in + of->in_at, of->in_count - of->in_at, moment(), &taken,
                               &waiting, &code)) {
    case UA_OK: break;
    case UA_ENDED: of->end = "Closed"; break;
    case UA_REFUSED:
        snprintf(refused[of - connections], sizeof refused[0], "Refused %08X", (unsigned)code);
        of->end = refused[of - connections];
        break;
    default: of->end = "OutOfMemory"; break;
    }
    of->in_at += taken;
    follow(&of->connection);
}

/* Goes on with a connection as far as its line allows without waiting, and says how it ended; NULL where it goes on. */
static const char *serve(int line, struct connection *of) {
    for (int reads = 0;;) {
        int sent = send_waiting(line, of);
        if (sent <= 0)
            return sent < 0 ? "Write" : NULL;
        if (of->end)
            return of->end;
        if (of->in_at < of->in_count) {
            take(of);
            continue;
        }
        if (reads++ > 0) /* the other connections come first */
            return NULL;
        ssize_t count = read(line, of->in, sizeof of->in);
        if (count <= 0)
            return is_later(count) ? NULL : count == 0 ? "NoClose" : "Read";
        of->in_at = 0;
        of->in_count = (size_t)count;
        of->moved = seconds();
    }
}

/* Takes a connection, if there is one, into a free place: 1 where there is one. */
static int accept_line(int listener, unsigned number) {
    int place = 0;
    while (polled[place].fd >= 0)
        place++;
    int line = accept(listener, NULL, NULL);
    if (line < 0 && (is_later(line) || errno == ECONNABORTED))
        return 0;
    if (line < 0 || fcntl(line, F_SETFL, O_NONBLOCK) < 0) {
        perror("gateway: accept");
        exit(1);
    }
    connections[place] = (struct connection){.number = number, .moved = seconds()};
    if (ua_connection_new(&limits, number, &connections[place].connection) != UA_OK) {
        fprintf(stderr, "gateway: no memory\n");
        exit(1);
    }
    polled[place] = (struct pollfd){.fd = line};
    return 1;
}

/* Ends the connection of a place. */
static void end_line(int place, const char *end) {
    printf("connection %u %s\n", connections[place].number, end);
    fflush(stdout);
    close(polled[place].fd);
    ua_connection_free(&connections[place].connection);
    polled[place] = (struct pollfd){.fd = -1};
}

static int listen_at(int port) {
    struct sockaddr_in address = {.sin_family = AF_INET, .sin_port = htons((uint16_t)port)};
    int listener = socket(AF_INET, SOCK_STREAM, 0), on = 1;
    address.sin_addr.s_addr = htonl(INADDR_LOOPBACK);
    setsockopt(listener, SOL_SOCKET, SO_REUSEADDR, &on, sizeof on);
    if (bind(listener, (struct sockaddr *)&address, sizeof address) || listen(listener, MOST) || fcntl(listener, F_SETFL, O_NONBLOCK) < 0)
        exit(1);
    return listener;
}

int main(int count, char **words) {
    if (count != 4 && count != 5)
        return 2;
    int port = atoi(words[2]), idle = count == 5 ? atoi(words[4]) : 60;
    unsigned most = (unsigned)atoi(words[3]), taken = 0, ended = 0;
    char url[64];
    int64_t start = moment();
    signal(SIGPIPE, SIG_IGN);
    snprintf(url, sizeof url, "opc.tcp://localhost:%d", port);
    read_nodes(words[1], url);
    int listener = listen_at(port);
    for (int place = 0; place <= MOST; place++)
        polled[place] = (struct pollfd){.fd = -1};
    printf("listening %d\n", port);
    fflush(stdout);
    while (ended < most) {
        polled[MOST] = (struct pollfd){.fd = taken < most && taken - ended < MOST ? listener : -1, .events = POLLIN};
        for (int place = 0; place < MOST; place++) {
            struct connection *of = &connections[place];
            polled[place].events = of->out_at < of->out_count ? POLLOUT : POLLIN;
        }
        if (poll(polled, MOST + 1, sensor == NO_INDEX ? 1000 : 100) < 0) {
            if (errno == EINTR)
                continue;
            return 1;
        }
        measure(start);
        if (polled[MOST].revents)
            taken += (unsigned)accept_line(listener, taken + 1);
        for (int place = 0; place < MOST; place++) {
            const char *end = NULL;
            if (polled[place].fd < 0)
                continue;
            if (polled[place].revents)
                end = serve(polled[place].fd, &connections[place]);
            if (!end && seconds() - connections[place].moved > idle)
                end = "Idle";
            if (end) {
                end_line(place, end);
                ended++;
            }
        }
    }
    ua_nodes_free(&nodes);
    return 0;
}
