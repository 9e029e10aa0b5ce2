/* The OPC UA Binary stack for C, C++ and whatever can call C: the static library libua_c.a.
 *
 * A server: nodes (`struct ua_nodes`), which the program sets and gets, and any number of connections over
 * them (`struct ua_connection`), a step each time octets came. A client: a `struct ua_handle`.
 *
 * Each call is proved for every input under the rules below; docs/C.md says what is proved, and
 * crates/ua_c/specs/ has it as definitions. This file is written by hand; tools/check_c_header.py
 * compares its declarations with the exports.
 *
 * What C has to keep
 *
 * - A handle begins as `struct ua_handle h = {0};`, and nodes and a connection as `{{0}}`: they are handles of
 *   types of their own, so that a compiler tells of a step on a client. C never reads or writes what is in it, copies
 *   it, or moves it to another address while a call runs. The calls below alone change it. `ua_free` ends
 *   it; it may then be used again, as one that begins.
 * - A handle that was freed, or never made from {0}, and one of another kind are told, by UA_NO_HANDLE and
 *   UA_OTHER_HANDLE. What cannot be told: a handle that was never set; a copy of a handle that was freed; and a
 *   handle that two threads use at once.
 * - A pointer is never null, but at `ua_free` and its like, and where a length stands behind it: there a null pointer
 *   is an empty text, or a buffer without room, if the length is 0, and else UA_BAD_ARGUMENT. (What calls the
 *   library without this header, or with another compiler than GCC and Clang, hands over no null pointer there either.)
 *   `const uint8_t *p, size_t p_len` are so many octets that may be read during the call and that
 *   nothing writes meanwhile; a length is at most half the address space. `uint8_t *buffer,
 *   size_t buffer_len` are so many octets that may be read and written. Pointers of one call lead to memory
 *   that does not overlap, but where each is `const`.
 * - A handle is in one call at a time, on whichever thread: where two threads share one, a lock or a join stands
 *   between their calls. A step is a call on its connection and on its nodes. Calls on different handles may run
 *   at once.
 * - `malloc`, `realloc` and `free` are those of one allocator, which aligns a block to each power of
 *   two up to 16 that divides its size. No call is made from a signal handler, or from the child of a
 *   `fork` in a process with threads.
 *
 * What every call keeps
 *
 * - It returns, and reads and writes nothing but what it is given and what its handle owns.
 * - It takes at most UA_STACK_MEASURED octets of the stack: of octets from the network some 400 for each level
 *   of their values, of which they have at most 100. That is measured by examples/c/stack.c, not proved;
 *   docs/C.md has the numbers.
 * - A status other than UA_OK, UA_ENDED and UA_REFUSED means that nothing was taken. Such a call
 *   changes nothing but its numbers, unless its comment says more of it; a buffer is written only
 *   with UA_OK.
 * - Numbers that a call gives back through pointers are written at every status, as 0 where there is
 *   nothing to tell.
 * - A handle that holds nothing, one that holds a machine of the other kind, and one whose connection
 *   ended are statuses; only `ua_client_hello` still makes its HEL then. Where octets wait,
 *   UA_FETCH_FIRST comes in front of UA_CLOSED.
 * - UA_NO_MEMORY: `malloc` or `realloc` gave null. At `ua_connection_step`, `ua_server_step` and
 *   `ua_client_take` the connection then failed, and holds nothing; the server's nodes and session are as
 *   they were, or as the message that was being answered leaves them. At every other call nothing has changed.
 */
#ifndef UA_H
#define UA_H

#include <stddef.h>
#include <stdint.h>
#include <string.h>

#ifdef __cplusplus
extern "C" {
#endif

/* The version of this header, as `ua_version` says that of the library. */
#define UA_VERSION_MAJOR 0
#define UA_VERSION_MINOR 1
#define UA_VERSION_PATCH 0
#define UA_VERSION (UA_VERSION_MAJOR * 65536u + UA_VERSION_MINOR * 256u + UA_VERSION_PATCH)

/* The octets of stack that a call takes at most, as measured on x86-64. */
#define UA_STACK_MEASURED 65536

/* Statuses. */
enum {
    UA_OK = 0,               /* the call did what it is for */
    UA_NO_MEMORY = 1,        /* memory was refused */
    UA_BAD_LIMITS = 2,       /* a size of frames is below 8192, or messages may have no octet or chunk;
                                or `size` is not that of the structure */
    UA_BAD_NODES = 3,        /* a line of the node file is none */
    UA_NO_HANDLE = 4,        /* the handle holds nothing */
    UA_CLOSED = 5,           /* the connection ended or failed before */
    UA_REFUSED = 6,          /* the connection was refused, and has ended */
    UA_ENDED = 7,            /* the client closed the connection */
    UA_FETCH_FIRST = 8,      /* octets wait: fetch them first */
    UA_BAD_TEXT = 9,         /* a text is not UTF-8, or none of those that the call takes */
    UA_OTHER_HANDLE = 10,    /* the handle holds a machine of the other kind */
    UA_NOT_OPEN = 11,        /* the channel of the client is not open, or was closed */
    UA_TOO_MANY_PENDING = 12, /* 64 calls are unanswered */
    UA_RENEW_PENDING = 13,   /* a renewal is unanswered */
    UA_TOO_MANY_TOKENS = 14, /* 16 tokens are held */
    UA_EXHAUSTED = 15,       /* all request ids were used */
    UA_TOO_LARGE = 16,       /* the server takes no message of so many octets or chunks */
    UA_EMPTY = 17,           /* the body of a call is empty */
    UA_TOO_SMALL = 18,       /* the buffer has no room for `needed` octets */
    UA_BAD_SIDE = 19,        /* the side is neither 0 nor 1 */
    UA_BAD_OCTETS = 20,      /* the octets encode nothing that the call takes */
    UA_SERVICE = 21,         /* the service failed, with `code` */
    UA_UNKNOWN = 22,         /* the response is that of another request, or has not as many answers;
                                nothing has this number; there is no such node */
    UA_MISMATCH = 23,        /* the node takes no value of this type */
    UA_BAD_READING = 24,     /* the reading has no value within the octets, or no source time */
    UA_NO_MORE = 25,         /* nothing more is there */
    UA_NO_POLICY = 26,       /* no endpoint has a token policy that fits */
    UA_NO_TEXT = 27,         /* the value has no text that denotes it */
    UA_BAD_ARGUMENT = 28     /* a pointer is null, and the length behind it is not 0; ua_status_text has no text of it */
};

/* Why a line of a node file is none: the first of these that holds. */
enum {
    UA_LINE_FIELDS = 1,      /* it has not just five fields, with a tab between */
    UA_LINE_NODE = 2,        /* the first names no NodeId */
    UA_LINE_ACCESS = 3,      /* the second is none of `r`, `w`, `rw` and `-` */
    UA_LINE_NAME = 4,        /* the third is empty */
    UA_LINE_TYPE = 5,        /* the fourth names no type */
    UA_LINE_VALUE = 6,       /* the fifth denotes no value of the type */
    UA_LINE_DUPLICATE = 7    /* a line before it has the same NodeId */
};

/* Which of several texts is none. */
enum {
    UA_TEXT_NODES = 1,       /* the node file, or all lines of a request together: no UTF-8 */
    UA_TEXT_URL = 2,
    UA_TEXT_APPLICATION_URI = 3,
    UA_TEXT_NAME = 4,
    UA_TEXT_TOKEN = 5,
    UA_TEXT_POLICY = 6,
    UA_TEXT_NODE = 7,        /* a node; of several the one at the index */
    UA_TEXT_RANGE = 8,
    UA_TEXT_TYPE = 9,
    UA_TEXT_VALUE = 10
};

/* Events of ua_client_take. */
enum {
    UA_EVENT_NEED_MORE = 0,      /* more octets are to come */
    UA_EVENT_SEND = 1,           /* the octets that wait are to be sent */
    UA_EVENT_OPEN = 2,           /* the channel is open: calls may be asked */
    UA_EVENT_ANSWERED = 3,       /* the octets that wait are the body of the reply to the call `id` */
    UA_EVENT_ABORTED = 4,        /* the server gave up its reply to the call `id`, for `code` */
    UA_EVENT_RENEWED = 5,        /* a renewal was answered by the token `id` */
    UA_EVENT_FAILED = 6,         /* this end refused what came, for `code` (status UA_REFUSED) */
    UA_EVENT_FAILED_BY_PEER = 7  /* the server refused, for `code` (status UA_REFUSED) */
};

/* Their names without EVENT, which go with the next version. */
enum {
    UA_NEED_MORE = UA_EVENT_NEED_MORE,
    UA_SEND = UA_EVENT_SEND,
    UA_OPEN = UA_EVENT_OPEN,
    UA_ANSWERED = UA_EVENT_ANSWERED,
    UA_ABORTED = UA_EVENT_ABORTED,
    UA_RENEWED = UA_EVENT_RENEWED,
    UA_FAILED = UA_EVENT_FAILED,
    UA_FAILED_BY_PEER = UA_EVENT_FAILED_BY_PEER
};

/* Responses, by the number of their binary encoding (OPC 10000-6, A.3). */
enum {
    UA_GET_ENDPOINTS_RESPONSE = 431,
    UA_CREATE_SESSION_RESPONSE = 464,
    UA_ACTIVATE_SESSION_RESPONSE = 470,
    UA_CLOSE_SESSION_RESPONSE = 476,
    UA_READ_RESPONSE = 634,
    UA_WRITE_RESPONSE = 676,
    UA_SERVICE_FAULT = 397
};

/* A handle of a server or a client. It begins as {0}. */
struct ua_handle {
    void *at;
};

/* Nodes with their values, and what a server says of itself, for any number of connections. It begins as
 * {{0}}. `handle` is for the calls of any handle. */
struct ua_nodes {
    struct ua_handle handle;
};

/* One connection of a server: its channel and its session. It begins as {{0}}. `handle` is for the calls of
 * any handle. */
struct ua_connection {
    struct ua_handle handle;
};

/* A value by the place of its encoding in octets, with its status and times (OPC 10000-4, 7.11). A field is
 * there where its flag is not 0, and is 0 where its flag is. Picoseconds are in units of 10. */
struct ua_reading {
    size_t value_at;
    size_t value_len;
    int64_t source_time;
    int64_t server_time;
    uint32_t status;
    uint16_t source_picoseconds;
    uint16_t server_picoseconds;
    uint8_t has_value;
    uint8_t has_status;
    uint8_t has_source_time;
    uint8_t has_server_time;
    uint8_t has_source_picoseconds;
    uint8_t has_server_picoseconds;
};

/* What one end of a connection allows: the octets of frames each way (8192 at least), and for
 * messages the octets and the number of chunks (1 at least). `size` is `sizeof(struct ua_limits)`: by it a
 * library of a later version tells the structure of this one. */
struct ua_limits {
    uint32_t size;
    uint32_t receive_buffer_size;
    uint32_t send_buffer_size;
    uint32_t max_message_size;
    uint32_t max_chunk_count;
};

/* What is done with null pointers in front of the calls below. */
#include "ua_null.h"

/* Moments are in units of 100 nanoseconds since 1601-01-01 00:00 UTC. */

/* ---- any handle */

/* Lets go of what a handle holds, which then holds nothing. */
void ua_free(struct ua_handle *handle);

/* How many octets wait to be fetched; 0 where the handle holds nothing. */
size_t ua_waiting(struct ua_handle *handle);

/* Moves as many of the octets that wait as fit to the front of the buffer, and says how many; the
 * rest waits. UA_NO_MEMORY: nothing was fetched, and nothing is lost. Also UA_NO_HANDLE. */
uint32_t ua_fetch(struct ua_handle *handle, uint8_t *buffer, size_t buffer_len, size_t *fetched);

/* How many octets of unfinished frames and messages are held, never more than ua_bound says; 0 where
 * the handle holds nothing. */
size_t ua_held(struct ua_handle *handle);

/* The most octets that may be held: 8192 before sizes are agreed to, then those of a frame and of 4
 * messages of the greatest size. 0 where the handle holds nothing. */
size_t ua_bound(struct ua_handle *handle);

/* ---- nodes that connections share. Where a handle holds nothing, or not what the call takes, the status is
 * UA_NO_HANDLE or UA_OTHER_HANDLE, and no handle changes */

/* Makes the nodes of a node file (a text, as `ua serve` reads it), with what a server of them says of itself:
 * its URL, its ApplicationUri and its name, and how many octets a request may have (0 where it does not say),
 * and puts them into `out`, in the place of what that held.
 * UA_BAD_NODES: `line` is the first bad line, counted from 1, and `reason` a number UA_LINE_.. .
 * UA_BAD_TEXT: `reason` is a number UA_TEXT_.. : the node file is not UTF-8, or another text is none that can
 * be sent. UA_NO_MEMORY, with such a number at one of the other texts. After a failure `out` holds what it held. */
uint32_t ua_nodes_new(const uint8_t *file, size_t file_len, const uint8_t *url, size_t url_len,
                      const uint8_t *application_uri, size_t application_uri_len,
                      const uint8_t *name, size_t name_len, uint32_t max_message_size,
                      struct ua_nodes *out, size_t *line, uint32_t *reason);

/* The index of the node that a NodeId's text names. It is the place of the node in the node file, from 0, and
 * stays: find each once. UA_UNKNOWN: there is no such node.
 * UA_BAD_TEXT: the text names no NodeId. UA_NO_MEMORY. */
uint32_t ua_node_find(struct ua_nodes *nodes, const uint8_t *node, size_t node_len, size_t *index);

/* Sets what the node at an index holds to a reading, whose value is encoded in `octets` where `reading` says:
 * also where clients may only read. A client that reads the node from now on is answered so. The server time
 * of a reading is passed over. Nothing changes but with UA_OK.
 * UA_UNKNOWN: the nodes have no such index. UA_BAD_READING: the reading has no source time, or no value within
 * the octets. UA_BAD_OCTETS: these encode no value of at most 99 levels. UA_MISMATCH: the node takes values
 * of another type. UA_NO_MEMORY. */
uint32_t ua_node_set(struct ua_nodes *nodes, size_t index, const uint8_t *octets, size_t octets_len,
                     const struct ua_reading *reading);

/* What the node at an index holds, as the program set it or a client wrote it: the encoding of its value, at
 * the front of the buffer, with its status and source time. The reading is told with UA_TOO_SMALL, too, and
 * at every other status nothing of it is there. UA_UNKNOWN: the nodes have no such index. UA_TOO_SMALL,
 * UA_NO_MEMORY. */
uint32_t ua_node_get(struct ua_nodes *nodes, size_t index, uint8_t *buffer, size_t buffer_len,
                     size_t *needed, struct ua_reading *reading);

/* ---- connections over nodes. Each is stepped with the same nodes from its first step on: its session is one
 * of theirs */

/* Makes a connection of these limits, whose channel has this id, another one than each open connection over
 * the same nodes, and puts it into `out`, in the place of what that held.
 * UA_BAD_LIMITS, UA_NO_MEMORY: `out` holds what it held. */
uint32_t ua_connection_new(const struct ua_limits *limits, uint32_t channel,
                           struct ua_connection *out);

/* One step over nodes: takes octets of the client up to the end of the first frame that is answered or that
 * ends the connection, else the whole piece. `taken` says how many: go on with the rest. What is to be sent
 * then waits (`waiting` octets): fetch it and send it before the next step of this connection. A piece that
 * is not empty is taken in part at least. A request is answered from the nodes as the program and all
 * connections left them.
 * UA_OK: the connection goes on. UA_ENDED: the client closed it, and nothing is to be sent.
 * UA_REFUSED: what the octets that were taken end with is refused for `code`, and the ERR frame
 * waits. UA_CLOSED: it ended or failed before. UA_FETCH_FIRST: octets wait.
 * Also UA_NO_MEMORY, UA_NO_HANDLE, UA_OTHER_HANDLE. */
uint32_t ua_connection_step(struct ua_connection *connection, struct ua_nodes *nodes,
                            const uint8_t *piece, size_t piece_len, int64_t moment, size_t *taken,
                            size_t *waiting, uint32_t *code);

/* The next item of what the Write stored that the last step of the connection answered: the index of its node,
 * the encoding of its value at the front of the buffer, and the status and times that the client wrote beside it;
 * what the node holds tells ua_node_get. Each item is told once, in the order of the Write, and none of its items
 * that were refused. Ask behind each step until there is no more: the next step that takes octets lets go of
 * what was not asked for. It keeps a Write's octets until then, beside those that ua_held says. Where the step
 * answered UA_NO_MEMORY, what it stored is not told.
 * UA_NO_MORE: there is no further item. The item and its numbers are told with UA_TOO_SMALL, too, and it stays
 * the next one then, as at every other status. UA_UNKNOWN: these nodes have not its node: others than the
 * connection is stepped with. UA_BAD_OCTETS: its value cannot be encoded.
 * Also UA_NO_MEMORY, UA_NO_HANDLE, UA_OTHER_HANDLE. */
uint32_t ua_next_written(struct ua_connection *connection, struct ua_nodes *nodes, size_t *index,
                         uint8_t *buffer, size_t buffer_len, size_t *needed,
                         struct ua_reading *reading);

/* The calls of any handle, for these two. */
static inline void ua_nodes_free(struct ua_nodes *nodes) {
    if (nodes)
        ua_free(&nodes->handle);
}

static inline void ua_connection_free(struct ua_connection *connection) {
    if (connection)
        ua_free(&connection->handle);
}

static inline size_t ua_connection_waiting(struct ua_connection *connection) {
    return ua_waiting(&connection->handle);
}

static inline uint32_t ua_connection_fetch(struct ua_connection *connection, uint8_t *buffer,
                                           size_t buffer_len, size_t *fetched) {
    return ua_fetch(&connection->handle, buffer, buffer_len, fetched);
}

static inline size_t ua_connection_held(struct ua_connection *connection) {
    return ua_held(&connection->handle);
}

static inline size_t ua_connection_bound(struct ua_connection *connection) {
    return ua_bound(&connection->handle);
}

/* ---- a server of one connection at a time. These three calls go with the next version: ua_nodes_new and
 * ua_connection_new replace ua_server_new; ua_connection_step replaces ua_server_step; a ua_connection_new for
 * each connection, over the nodes that stay, replaces ua_server_next_connection */

/* Makes a server over the nodes of a node file (a text, as `ua serve` reads it), found at this URL,
 * whose channel has this id, and puts it into `out`, in the place of what that held.
 * UA_BAD_NODES: `line` is the first bad line, counted from 1. UA_BAD_LIMITS. UA_BAD_TEXT: the URL is
 * no text that can be sent, or the nodes are not UTF-8. UA_NO_MEMORY. After a failure `out` holds what
 * it held. */
uint32_t ua_server_new(const uint8_t *nodes, size_t nodes_len, const struct ua_limits *limits,
                       const uint8_t *url, size_t url_len, uint32_t channel,
                       struct ua_handle *out, size_t *line);

/* One step: takes octets of the client up to the end of the first frame that is answered or that ends
 * the connection, else the whole piece. `taken` says how many: go on with the rest. What is to be sent
 * then waits (`waiting` octets): fetch it and send it before the next step. A piece that is not empty
 * is taken in part at least.
 * UA_OK: the connection goes on. UA_ENDED: the client closed it, and nothing is to be sent.
 * UA_REFUSED: what the octets that were taken end with is refused for `code`, and the ERR frame
 * waits. UA_CLOSED: it ended or failed before. UA_FETCH_FIRST: octets wait.
 * Also UA_NO_MEMORY, UA_NO_HANDLE, UA_OTHER_HANDLE. */
uint32_t ua_server_step(struct ua_handle *handle, const uint8_t *piece, size_t piece_len,
                        int64_t moment, size_t *taken, size_t *waiting, uint32_t *code);

/* The next connection: a new channel of this id over the same nodes, as Writes left them, without a
 * session, also where the one before did not end. What still waited is let go.
 * UA_OK, UA_NO_HANDLE, UA_OTHER_HANDLE. */
uint32_t ua_server_next_connection(struct ua_handle *handle, uint32_t channel);

/* ---- a client */

/* Makes a client of these limits for the server of this URL, and puts it into `out`, in the place of
 * what that held. UA_BAD_LIMITS, UA_BAD_TEXT, UA_NO_MEMORY: `out` holds what it held. */
uint32_t ua_client_new(const struct ua_limits *limits, const uint8_t *url, size_t url_len,
                       struct ua_handle *out);

/* The HEL, which waits: send it first.
 * UA_OK, also where the client failed or was closed, UA_NO_MEMORY, UA_FETCH_FIRST, UA_NO_HANDLE,
 * UA_OTHER_HANDLE. */
uint32_t ua_client_hello(struct ua_handle *handle);

/* Takes octets of the server up to the end of the first frame at which there is something to be sent
 * or to be told, else the whole piece. `taken` says how many, `event` what came of them, `id` and
 * `code` of what it speaks.
 * UA_OK. UA_REFUSED: the connection failed for `code`, with the event UA_EVENT_FAILED or UA_EVENT_FAILED_BY_PEER.
 * UA_CLOSED: it failed or was closed before. UA_FETCH_FIRST: octets wait.
 * Also UA_NO_MEMORY, UA_NO_HANDLE, UA_OTHER_HANDLE. */
uint32_t ua_client_take(struct ua_handle *handle, const uint8_t *piece, size_t piece_len,
                        int64_t moment, size_t *taken, uint32_t *event, uint32_t *id,
                        uint32_t *code);

/* Asks a call with this body, whose chunks wait: send them. `id` is its request id, under which it is
 * answered. UA_NOT_OPEN, UA_TOO_MANY_PENDING, UA_EXHAUSTED, UA_TOO_LARGE, UA_EMPTY, UA_NO_MEMORY,
 * UA_FETCH_FIRST, UA_NO_HANDLE, UA_OTHER_HANDLE: nothing was asked, and the client stands where it
 * stood. */
uint32_t ua_client_ask(struct ua_handle *handle, const uint8_t *body, size_t body_len, uint32_t *id);

/* Asks for a further token; the OPN waits: send it. UA_NOT_OPEN, UA_RENEW_PENDING,
 * UA_TOO_MANY_TOKENS, UA_EXHAUSTED, UA_NO_MEMORY, UA_FETCH_FIRST, UA_NO_HANDLE, UA_OTHER_HANDLE. */
uint32_t ua_client_renew(struct ua_handle *handle, int64_t moment, uint32_t *id);

/* Closes the channel; the CLO waits: send it. UA_NOT_OPEN, UA_NO_MEMORY, UA_FETCH_FIRST,
 * UA_NO_HANDLE, UA_OTHER_HANDLE. */
uint32_t ua_client_close(struct ua_handle *handle, int64_t moment);

/* ---- no handle: with UA_OK the front of the buffer is written, and `needed` is how many octets that
 * are; with UA_TOO_SMALL `needed` says how many it would be, and nothing is written. So a call with a
 * buffer of no room says how much is needed. At every other status `needed` is 0. */

/* The octets that one side of a connection sent (0: the client, 1: the server), as lines of text, as
 * `ua dissect` prints them without fields and names. UA_TOO_SMALL, UA_BAD_SIDE, UA_NO_MEMORY. */
uint32_t ua_dissect(const uint8_t *octets, size_t octets_len, uint32_t side, uint8_t *buffer,
                    size_t buffer_len, size_t *needed);

/* The canonical encoding, as a Variant, of the value that a type (`Int32`, `Double[]`) and a text
 * denote, as in a node file. UA_TOO_SMALL, UA_BAD_TEXT (also where the value is too large to be
 * encoded), UA_NO_MEMORY. */
uint32_t ua_encode_value(const uint8_t *type, size_t type_len, const uint8_t *text, size_t text_len,
                         uint8_t *buffer, size_t buffer_len, size_t *needed);

/* The type and the text, with a space between, of the Variant that octets encode and nothing behind it,
 * as `ua read` prints them. Not each such text is taken by ua_encode_value, and some are taken as another value:
 * ua_value_text has the others alone. UA_TOO_SMALL, UA_BAD_OCTETS (no Variant of at most 100 levels),
 * UA_NO_MEMORY. */
uint32_t ua_decode_value(const uint8_t *octets, size_t octets_len, uint8_t *buffer,
                         size_t buffer_len, size_t *needed);

/* ---- texts that come back: what ua_value_text makes, ua_text_value takes, and gives the canonical encoding
 * of just that value. Where `plain` is not 0, both speak as `ua read --plain` and `ua write --plain` do: Float
 * and Double are decimals, times are those of RFC 3339 */

/* The type and the text, with a space between, of the Variant that octets encode, where the two denote it.
 * `name_size` is how many octets the name of the type has; the text stands behind it and the space. UA_NO_TEXT: they do
 * not; docs/C.md says of which values. UA_TOO_SMALL: `name_size` is told, too. UA_BAD_OCTETS, UA_NO_MEMORY. */
uint32_t ua_value_text(const uint8_t *octets, size_t octets_len, uint32_t plain, uint8_t *buffer,
                       size_t buffer_len, size_t *needed, size_t *name_size);

/* The canonical encoding of the value that a type and a text denote. UA_BAD_TEXT, UA_NO_MEMORY: `reason` is
 * UA_TEXT_TYPE or UA_TEXT_VALUE, and 0 at every other status. UA_TOO_SMALL. */
uint32_t ua_text_value(const uint8_t *type, size_t type_len, const uint8_t *text, size_t text_len,
                       uint32_t plain, uint8_t *buffer, size_t buffer_len, size_t *needed,
                       uint32_t *reason);

/* ---- requests from texts, as bodies for ua_client_ask: UA_TOO_SMALL, as above; UA_BAD_TEXT: a text is
 * not UTF-8, or not what it stands for, or too large to be encoded; UA_NO_MEMORY. Where a call takes several
 * texts, `reason` is with these two a number UA_TEXT_.. , or 0 where it is the request as a whole. `request` is
 * the RequestHandle, any number. A token is the text that ua_session_token gave; a node a NodeId's text, as
 * `ns=1;s=Pump`; nodes are such texts, with an LF between */

/* A GetEndpoints for the server of this URL. */
uint32_t ua_get_endpoints_request(const uint8_t *url, size_t url_len, int64_t moment,
                                  uint32_t request, uint8_t *buffer, size_t buffer_len,
                                  size_t *needed);

/* A CreateSession for the server of this URL: a session `ua` of the client `urn:ua:client`, for 120
 * seconds. */
uint32_t ua_create_session_request(const uint8_t *url, size_t url_len, int64_t moment,
                                   uint32_t request, uint8_t *buffer, size_t buffer_len,
                                   size_t *needed);

/* An ActivateSession under this token, by a user without a name, under the token policy `anonymous`. */
uint32_t ua_activate_session_request(const uint8_t *token, size_t token_len, int64_t moment,
                                     uint32_t request, uint8_t *buffer, size_t buffer_len,
                                     size_t *needed);

/* The same under the token policy with this PolicyId, as the server's endpoint names it and ua_choose_policy
 * tells it. */
uint32_t ua_activate_session_request_as(const uint8_t *token, size_t token_len,
                                        const uint8_t *policy, size_t policy_len, int64_t moment,
                                        uint32_t request, uint8_t *buffer, size_t buffer_len,
                                        size_t *needed, uint32_t *reason);

/* A CloseSession under this token. */
uint32_t ua_close_session_request(const uint8_t *token, size_t token_len, int64_t moment,
                                  uint32_t request, uint8_t *buffer, size_t buffer_len,
                                  size_t *needed);

/* A Read of the Values of nodes, in their order, or of the parts of arrays that an index range (`0:3`)
 * names, which is asked for as it stands; an empty range asks for the whole. Where `reason` is UA_TEXT_NODE,
 * `index` is which of the nodes it is, from 0: the first that is none. */
uint32_t ua_read_request(const uint8_t *token, size_t token_len, int64_t moment, uint32_t request,
                         const uint8_t *nodes, size_t nodes_len, const uint8_t *range,
                         size_t range_len, uint8_t *buffer, size_t buffer_len, size_t *needed,
                         uint32_t *reason, size_t *index);

/* A Write that sets the Value of one node to the one that a type and a text denote, as in
 * ua_encode_value, without a status and times. */
uint32_t ua_write_request(const uint8_t *token, size_t token_len, int64_t moment, uint32_t request,
                          const uint8_t *node, size_t node_len, const uint8_t *type,
                          size_t type_len, const uint8_t *text, size_t text_len, uint8_t *buffer,
                          size_t buffer_len, size_t *needed, uint32_t *reason);

/* ---- what a reply says: UA_BAD_OCTETS: the body is that of no response that this library reads;
 * UA_NO_MEMORY */

/* Which response a body is, as a number above, and its ServiceResult: that the service failed is told
 * by a `service_result` whose top bit is set, also where the response is of the request's own kind. Both
 * numbers are 0 at every status but UA_OK. */
uint32_t ua_response_kind(const uint8_t *body, size_t body_len, uint32_t *response,
                          uint32_t *service_result);

/* ---- the same with UA_TOO_SMALL, as above; UA_SERVICE: it is a ServiceFault with `code`, which is 0 at
 * every other status; UA_UNKNOWN: it is the response to another request. A bad ServiceResult of a
 * response of the request's own kind is not told: ask ua_response_kind first */

/* The PolicyId of the token policy for ua_activate_session_request_as, of the reply to a GetEndpoints: that of
 * the first policy for users without a name of the first endpoint that has one and is by UA TCP, with the
 * security policy and the mode None. It has no octet where it is null. UA_NO_POLICY: there is none. */
uint32_t ua_choose_policy(const uint8_t *body, size_t body_len, uint8_t *buffer, size_t buffer_len,
                          size_t *needed, uint32_t *code);

/* The text of the AuthenticationToken in the reply to a CreateSession. It names the token for the
 * requests above; an identifier that is null reads as an empty one there. */
uint32_t ua_session_token(const uint8_t *body, size_t body_len, uint8_t *buffer, size_t buffer_len,
                          size_t *needed, uint32_t *code);

/* The lines of the reply to a Read or a Write of these nodes, or of one to a GetEndpoints, as `ua read`,
 * `ua write` and `ua endpoints` print them without names. UA_UNKNOWN: also a reply that has not one
 * answer for each node. Also UA_BAD_TEXT: a line names no node, as where `nodes` is empty or ends with
 * an LF; so at a GetEndpoints, too, it has to name some node, as `i=0`. */
uint32_t ua_response_text(const uint8_t *nodes, size_t nodes_len, const uint8_t *body,
                          size_t body_len, uint8_t *buffer, size_t buffer_len, size_t *needed,
                          uint32_t *code);

/* The results of the Read whose reply this body is: `count` is how many they are, and each reading at the front of
 * `readings` is one of them, in order, with its status and times; its value is encoded where the reading says,
 * in the body. Nothing of the body is copied. UA_TOO_SMALL: there is no room for `count` readings, and none is
 * written; so a call with no room asks how many there are. UA_SERVICE: it is a ServiceFault with `code`.
 * UA_UNKNOWN: it is the response to another request. UA_BAD_OCTETS, UA_NO_MEMORY. Both numbers are 0 at every
 * status that tells none. */
uint32_t ua_readings(const uint8_t *body, size_t body_len, struct ua_reading *readings,
                     size_t readings_len, size_t *count, uint32_t *code);

/* ---- the library, and words for numbers: UA_TOO_SMALL, as above; UA_UNKNOWN: nothing has this number */

/* The version of the library: UA_VERSION of the header that it came with. */
uint32_t ua_version(void);

/* What a status of this header means, in a few words. */
uint32_t ua_status_text(uint32_t status, uint8_t *buffer, size_t buffer_len, size_t *needed);

/* The name of a status code of OPC UA (OPC 10000-6, A.2), as `BadNodeIdUnknown`, of those that `ua`
 * prints by name. */
uint32_t ua_code_name(uint32_t code, uint8_t *buffer, size_t buffer_len, size_t *needed);

#include "ua_values.h"

#ifdef __cplusplus
}
#endif

#endif
