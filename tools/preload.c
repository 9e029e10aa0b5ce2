/* What a program is run with where rows ask it: calls of the C library that answer as a row says, by LD_PRELOAD.
 *
 * The clock of the day is at 1970-01-01. The environment says the rest, each by a variable ROWS_..:
 *
 * - PORT: a connection to the port 4840 goes to this one; ALONE: nothing takes a connection
 * - LISTENER: the listener on the port 4840 is this descriptor, on which connections wait already; DEAF: nothing can be listened on
 * - ACCEPTS: how each call of accept is answered: `next`, or the number of an error. At the call after the last one the
 *   program ends with the status 0. A pause takes no time
 * - OUT, ERR: standard output, standard error take so many bytes, and then fail (EIO); IN: standard input fails at its end
 * - READ: the read of connections of this number fails (ECONNRESET); ENDED: one fails at the end of a connection;
 *   ROOM: connections take so many bytes, and then fail (EPIPE)
 * - TOLD: the file to which lines are added: `near HEX` and `far HEX`, what was written to a connection that the program made,
 *   and that it took; `out N`, behind a write to standard output, how many bytes connections had taken; `pause`
 *
 * Built with ALLOCATIONS it has other calls alone: the one of number FAIL_N of malloc, realloc, posix_memalign and
 * aligned_alloc answers that there is no memory, and makes the file FAIL_TOLD. */
#define _GNU_SOURCE
#include <arpa/inet.h>
#include <dlfcn.h>
#include <errno.h>
#include <fcntl.h>
#include <stdio.h>
#include <stdlib.h>
#include <string.h>
#include <sys/socket.h>
#include <time.h>
#include <unistd.h>
#define REAL(name) static __typeof__(name) *real; if (!real) real = (__typeof__(name) *)dlsym(RTLD_NEXT, #name)
#define FAILS(code) do { errno = (code); return -1; } while (0)
#ifdef ALLOCATIONS
static long left; static int ready;
static int fails(void) {
    if (!ready) { ready = 1; const char *n = getenv("FAIL_N"); left = n ? atol(n) : 0; }
    if (left <= 0 || --left > 0) return 0;
    const char *f = getenv("FAIL_TOLD"); int d = f ? open(f, O_WRONLY | O_CREAT, 0644) : -1;
    if (d >= 0) close(d);
    errno = ENOMEM; return 1;
}
void *malloc(size_t n) { REAL(malloc); return fails() ? NULL : real(n); }
void *realloc(void *p, size_t n) { REAL(realloc); return fails() ? NULL : real(p, n); }
int posix_memalign(void **p, size_t a, size_t n) { REAL(posix_memalign); return fails() ? ENOMEM : real(p, a, n); }
void *aligned_alloc(size_t a, size_t n) { REAL(aligned_alloc); return fails() ? NULL : real(a, n); }
#else
static const char *said(const char *name) { return getenv(name); }
static long number(const char *name) { const char *text = said(name); return text ? atol(text) : -1; }
static long sent, reads, made = -1;

static int told(void) {
    static int file = -1;
    const char *name = said("ROWS_TOLD");
    if (file < 0 && name) file = open(name, O_WRONLY | O_CREAT | O_APPEND, 0644);
    return file;
}
static int is_connection(int fd) {
    int kind; socklen_t size = sizeof kind;
    return fd > 2 && !getsockopt(fd, SOL_SOCKET, SO_TYPE, &kind, &size);
}
/* How many of these bytes a writer takes that has this room; -1 where it has none. */
static long taken(long *room, const char *name, size_t size) {
    if (*room == -2) *room = number(name);
    if (*room < 0) return size;
    long most = (long)size < *room ? (long)size : *room;
    *room -= most;
    return most || !size ? most : -1;
}
static void tell_sent(int fd, const unsigned char *bytes, ssize_t size) {
    if (size <= 0) return;
    sent += size;
    if (told() < 0) return;
    char *text = malloc(2 * size + 1);
    for (ssize_t at = 0; text && at < size; at++) sprintf(text + 2 * at, "%02X", bytes[at]);
    dprintf(told(), "%s %s\n", fd == made ? "near" : "far", text ? text : "?");
    free(text);
}
ssize_t write(int fd, const void *bytes, size_t size) {
    static long rooms[3] = {-2, -2, -2}; REAL(write);
    if (is_connection(fd)) return send(fd, bytes, size, 0);
    long most = fd == 1 ? taken(&rooms[1], "ROWS_OUT", size) : fd == 2 ? taken(&rooms[2], "ROWS_ERR", size) : (long)size;
    if (most < 0) FAILS(EIO);
    ssize_t wrote = real(fd, bytes, most);
    if (fd == 1 && wrote > 0 && told() >= 0) dprintf(told(), "out %ld\n", sent);
    return wrote;
}
ssize_t send(int fd, const void *bytes, size_t size, int how) {
    static long room = -2; REAL(send);
    long most = taken(&room, "ROWS_ROOM", size);
    if (most < 0) FAILS(EPIPE);
    ssize_t wrote = real(fd, bytes, most, how);
    tell_sent(fd, bytes, wrote);
    return wrote;
}
ssize_t recv(int fd, void *bytes, size_t size, int how) {
    REAL(recv);
    if (++reads == number("ROWS_READ")) FAILS(ECONNRESET);
    ssize_t got = real(fd, bytes, size, how);
    if (!got && size && said("ROWS_ENDED")) FAILS(ECONNRESET);
    return got;
}
ssize_t read(int fd, void *bytes, size_t size) {
    REAL(read);
    if (is_connection(fd)) return recv(fd, bytes, size, 0);
    ssize_t got = real(fd, bytes, size);
    if (!got && size && fd == 0 && said("ROWS_IN")) FAILS(EIO);
    return got;
}
static int is_written_port(const struct sockaddr *address) {
    return address->sa_family == AF_INET && ntohs(((const struct sockaddr_in *)address)->sin_port) == 4840;
}
int connect(int fd, const struct sockaddr *address, socklen_t size) {
    REAL(connect);
    if (said("ROWS_ALONE")) FAILS(ECONNREFUSED);
    made = fd;
    if (!is_written_port(address) || !said("ROWS_PORT")) return real(fd, address, size);
    struct sockaddr_in other;
    memcpy(&other, address, sizeof other);
    other.sin_port = htons(number("ROWS_PORT"));
    return real(fd, (struct sockaddr *)&other, sizeof other);
}
int bind(int fd, const struct sockaddr *address, socklen_t size) {
    REAL(bind);
    if (said("ROWS_DEAF")) FAILS(EADDRINUSE);
    if (!is_written_port(address) || !said("ROWS_LISTENER")) return real(fd, address, size);
    int flags = fcntl(fd, F_GETFL);
    return dup2(number("ROWS_LISTENER"), fd) < 0 || fcntl(fd, F_SETFL, flags) < 0 ? -1 : 0;
}
int accept4(int fd, struct sockaddr *address, socklen_t *size, int how) {
    static const char *next; REAL(accept4);
    if (!said("ROWS_ACCEPTS")) return real(fd, address, size, how);
    if (!next) next = said("ROWS_ACCEPTS");
    if (!*next) _exit(0);
    const char *word = next;
    next += strcspn(next, " ");
    next += *next == ' ';
    if (strncmp(word, "next", 4)) FAILS(atoi(word));
    return real(fd, address, size, how);
}
int nanosleep(const struct timespec *time, struct timespec *rest) {
    REAL(nanosleep);
    if (!said("ROWS_ACCEPTS")) return real(time, rest);
    if (told() >= 0) dprintf(told(), "pause\n");
    return 0;
}
int clock_gettime(clockid_t clock, struct timespec *time) {
    REAL(clock_gettime);
    int status = real(clock, time);
    if (clock == CLOCK_REALTIME && !status) memset(time, 0, sizeof *time);
    return status;
}
#endif
