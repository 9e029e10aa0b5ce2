/* The OPC UA Binary stack for C++17: ua.h with owners, views and exceptions.
 *
 * Nodes, a Connection and a Client own what they hold, and let go of it as they end; they are moved and not copied.
 * Texts come as std::string_view and octets as ua::Octets; what a call makes goes into a ua::Room, and comes back as a
 * view of the part that was written. A status that is no success is thrown as ua::Error. Nothing here takes memory, but
 * a vector or string that is handed over as a Room: it grows where a call needs more.
 *
 * Each call is one of ua.h, which says what it takes and answers, and what its caller keeps: one call at a time on an
 * object, on whichever thread; a move is a call, too. ua_server_new and what belongs to it, which go
 * with the next version, are not here. Moments are in units of 100 nanoseconds since 1601-01-01 00:00 UTC.
 * This file is written by hand; tools/check_c_header.py compares its numbers and calls with ua.h. */
#ifndef UA_HPP
#define UA_HPP

#include "ua.h"

#include <chrono>
#include <cstddef>
#include <cstdint>
#include <cstdio>
#include <cstring>
#include <exception>
#include <optional>
#include <string_view>
#include <type_traits>
#include <utility>

namespace ua {

/* Statuses, as ua.h says. */
enum class Status : std::uint32_t {
    ok = UA_OK,
    no_memory = UA_NO_MEMORY,
    bad_limits = UA_BAD_LIMITS,
    bad_nodes = UA_BAD_NODES,
    no_handle = UA_NO_HANDLE,
    closed = UA_CLOSED,
    refused = UA_REFUSED,
    ended = UA_ENDED,
    fetch_first = UA_FETCH_FIRST,
    bad_text = UA_BAD_TEXT,
    other_handle = UA_OTHER_HANDLE,
    not_open = UA_NOT_OPEN,
    too_many_pending = UA_TOO_MANY_PENDING,
    renew_pending = UA_RENEW_PENDING,
    too_many_tokens = UA_TOO_MANY_TOKENS,
    exhausted = UA_EXHAUSTED,
    too_large = UA_TOO_LARGE,
    empty = UA_EMPTY,
    too_small = UA_TOO_SMALL,
    bad_side = UA_BAD_SIDE,
    bad_octets = UA_BAD_OCTETS,
    service = UA_SERVICE,
    unknown = UA_UNKNOWN,
    mismatch = UA_MISMATCH,
    bad_reading = UA_BAD_READING,
    no_more = UA_NO_MORE,
    no_policy = UA_NO_POLICY,
    no_text = UA_NO_TEXT,
    bad_argument = UA_BAD_ARGUMENT
};

/* Why a line of a node file is none: Error::reason() of Status::bad_nodes. */
enum class BadLine : std::uint32_t {
    fields = UA_LINE_FIELDS,
    node = UA_LINE_NODE,
    access = UA_LINE_ACCESS,
    name = UA_LINE_NAME,
    type = UA_LINE_TYPE,
    value = UA_LINE_VALUE,
    duplicate = UA_LINE_DUPLICATE
};

/* Which text of several is none: Error::reason() of Status::bad_text. */
enum class BadText : std::uint32_t {
    nodes = UA_TEXT_NODES,
    url = UA_TEXT_URL,
    application_uri = UA_TEXT_APPLICATION_URI,
    name = UA_TEXT_NAME,
    token = UA_TEXT_TOKEN,
    policy = UA_TEXT_POLICY,
    node = UA_TEXT_NODE,
    range = UA_TEXT_RANGE,
    type = UA_TEXT_TYPE,
    value = UA_TEXT_VALUE
};

/* What came of octets that a client took. */
enum class Event : std::uint32_t {
    need_more = UA_EVENT_NEED_MORE,
    send = UA_EVENT_SEND,
    open = UA_EVENT_OPEN,
    answered = UA_EVENT_ANSWERED,
    aborted = UA_EVENT_ABORTED,
    renewed = UA_EVENT_RENEWED,
    failed = UA_EVENT_FAILED,
    failed_by_peer = UA_EVENT_FAILED_BY_PEER
};

/* Which response a body is. */
enum class Response : std::uint32_t {
    get_endpoints_response = UA_GET_ENDPOINTS_RESPONSE,
    create_session_response = UA_CREATE_SESSION_RESPONSE,
    activate_session_response = UA_ACTIVATE_SESSION_RESPONSE,
    close_session_response = UA_CLOSE_SESSION_RESPONSE,
    read_response = UA_READ_RESPONSE,
    write_response = UA_WRITE_RESPONSE,
    service_fault = UA_SERVICE_FAULT
};

/* Which side of a connection sent octets. */
enum class Side : std::uint32_t { client = 0, server = 1 };

/* ---- views */

/* So many elements in a row, which somebody else owns. */
template <class T>
class Span {
public:
    constexpr Span() noexcept = default;
    constexpr Span(T *data, std::size_t size) noexcept : data_(data), size_(size) {}
    template <std::size_t N>
    constexpr Span(T (&array)[N]) noexcept : data_(array), size_(N) {}
    /* A vector, an array or a string that stays where it is. */
    template <class Row, class = std::enable_if_t<std::is_convertible_v<decltype(std::declval<Row &>().data()), T *>>>
    constexpr Span(Row &row) noexcept : data_(row.data()), size_(row.size()) {}
    /* One to be written, where it is only read. */
    template <class Other, class = std::enable_if_t<std::is_same_v<const Other, T>>>
    constexpr Span(Span<Other> other) noexcept : data_(other.data()), size_(other.size()) {}

    constexpr T *data() const noexcept { return data_; }
    constexpr std::size_t size() const noexcept { return size_; }
    constexpr bool empty() const noexcept { return size_ == 0; }
    constexpr T *begin() const noexcept { return data_; }
    constexpr T *end() const noexcept { return data_ + size_; }
    constexpr T &operator[](std::size_t at) const { return data_[at]; }

    /* What stands from a place on; nothing where that lies behind the end. */
    constexpr Span from(std::size_t at) const noexcept { return at < size_ ? Span(data_ + at, size_ - at) : Span(); }
    /* The first so many elements, or all where there are fewer. */
    constexpr Span first(std::size_t count) const noexcept { return Span(data_, count < size_ ? count : size_); }

private:
    T *data_ = nullptr;
    std::size_t size_ = 0;
};

using Octets = Span<const std::uint8_t>;

/* The octets of a text, and those as a text. */
inline Octets octets_of(std::string_view text) noexcept {
    return {reinterpret_cast<const std::uint8_t *>(text.data()), text.size()};
}

inline std::string_view text_of(Octets octets) noexcept {
    return {reinterpret_cast<const char *>(octets.data()), octets.size()};
}

/* Where a call puts octets: a buffer of a fixed size, or a vector or string of them, which is made larger where a call
 * needs more, and never smaller. The view that the call hands back is the part that was written, until the room is used
 * again or ends; a vector or string that ends with the call is no room. It overlaps nothing else that the call is
 * given. */
class Room {
    /* Whether a type holds octets in a row that may be written, and is no Room itself. */
    template <class Row, class Element = std::remove_pointer_t<decltype(std::declval<Row &>().data())>>
    static constexpr bool is_row(std::nullptr_t) {
        return sizeof(Element) == 1 && !std::is_const_v<Element> && !std::is_same_v<std::remove_cv_t<Row>, Room>;
    }

public:
    Room(std::uint8_t *data, std::size_t size) noexcept : data_(data), size_(size) {}
    Room(Span<std::uint8_t> span) noexcept : data_(span.data()), size_(span.size()) {}
    template <std::size_t N>
    Room(std::uint8_t (&array)[N]) noexcept : data_(array), size_(N) {}
    template <class Row, class = std::enable_if_t<is_row<Row>(nullptr)>>
    Room(Row &row) noexcept : data_(start_of(row)), size_(row.size()) {
        if constexpr (can_grow<Row>(nullptr)) {
            row_ = &row;
            look_ = [](const Room &room, std::size_t least) -> Span<std::uint8_t> {
                auto &grown = *static_cast<Row *>(room.row_);
                if (least > grown.size())
                    grown.resize(least);
                return {start_of(grown), grown.size()};
            };
        }
    }

    /* Where the octets of a vector or string stand now, also after it grew for another call. */
    std::uint8_t *data() const noexcept { return row_ ? look_(*this, 0).data() : data_; }
    std::size_t size() const noexcept { return row_ ? look_(*this, 0).size() : size_; }

    /* Whether there is room for so many octets now. */
    bool fit(std::size_t size) { return size <= (row_ ? look_(*this, size).size() : size_); }

private:
    template <class Row>
    static std::uint8_t *start_of(Row &row) noexcept {
        return reinterpret_cast<std::uint8_t *>(row.data());
    }
    template <class Row>
    static constexpr auto can_grow(Row *row) -> decltype(row->resize(std::size_t()), true) {
        return true;
    }
    template <class Row>
    static constexpr bool can_grow(...) {
        return false;
    }

    std::uint8_t *data_;
    std::size_t size_;
    void *row_ = nullptr; /* the vector or string, which the caller owns */
    Span<std::uint8_t> (*look_)(const Room &room, std::size_t least) = nullptr;
};

/* ---- statuses that are no success */

/* `call` of ua.h answered `status`. Beside it stand the numbers that the call tells: each 0 where there is none. */
class Error : public std::exception {
public:
    struct Numbers {
        std::size_t line = 0;     /* the bad line of a node file */
        std::uint32_t reason = 0; /* a BadLine or a BadText */
        std::uint32_t code = 0;   /* the status code of OPC UA for which a service or a connection failed */
        std::size_t needed = 0;   /* how many octets the call needs room for */
        std::size_t index = 0;    /* which of several nodes is none, from 0, where the reason is BadText::node */
    };

    Error(const char *call, std::uint32_t status, const Numbers &numbers) noexcept
        : call_(call), status_(static_cast<Status>(status)), numbers_(numbers) {
        std::uint8_t text[96] = {0};
        std::size_t size = 0;
        if (ua_status_text(status, text, sizeof text, &size) != UA_OK)
            size = 0;
        std::snprintf(text_, sizeof text_, "%s: %.*s (status %u)", call, static_cast<int>(size),
                      reinterpret_cast<const char *>(text), static_cast<unsigned>(status));
        add("line %zu", numbers.line);
        add("reason %zu", numbers.reason);
        add("code %08zX", numbers.code);
        add("needed %zu", numbers.needed);
        add("index %zu", numbers.index);
    }

    const char *what() const noexcept override { return text_; }
    const char *call() const noexcept { return call_; }
    Status status() const noexcept { return status_; }
    std::size_t line() const noexcept { return numbers_.line; }
    std::uint32_t reason() const noexcept { return numbers_.reason; }
    std::uint32_t code() const noexcept { return numbers_.code; }
    std::size_t needed() const noexcept { return numbers_.needed; }
    std::size_t index() const noexcept { return numbers_.index; }

private:
    void add(const char *form, std::size_t number) noexcept {
        char word[32] = {0};
        auto at = std::strlen(text_);
        if (number != 0 && std::snprintf(word, sizeof word, form, number) > 0)
            std::snprintf(text_ + at, sizeof text_ - at, ", %s", word);
    }

    const char *call_;
    Status status_;
    Numbers numbers_;
    char text_[256];
};

namespace detail {

inline void check(const char *call, std::uint32_t status, const Error::Numbers &numbers = {}) {
    if (status != UA_OK)
        throw Error(call, status, numbers);
}

inline const std::uint8_t *at(std::string_view text) noexcept {
    return reinterpret_cast<const std::uint8_t *>(text.data());
}

/* What `made(buffer, size, &needed, &numbers)` puts into room, which is asked once more where the room has grown. */
template <class Made>
Octets put(const char *call, Room room, Made made) {
    for (;;) {
        Error::Numbers numbers;
        auto had = room.size();
        auto status = made(room.data(), had, &numbers.needed, &numbers);
        if (status == UA_OK)
            return {room.data(), numbers.needed};
        if (status != UA_TOO_SMALL || !room.fit(numbers.needed) || room.size() == had)
            throw Error(call, status, numbers);
    }
}

inline ua_handle *handle_of(ua_handle &handle) noexcept { return &handle; }
inline ua_handle *handle_of(ua_nodes &nodes) noexcept { return &nodes.handle; }
inline ua_handle *handle_of(ua_connection &connection) noexcept { return &connection.handle; }

/* The owner of what a handle of C holds. A move, between calls, takes the handle to another place and leaves one as it
 * begins: no copy of it stays. */
template <class Struct>
class Owner {
public:
    Owner(const Owner &) = delete;
    Owner &operator=(const Owner &) = delete;

    /* Lets go of what is held. */
    void reset() noexcept { ua_free(handle_of(held_)); }
    /* What the calls of ua.h take. */
    Struct *raw() noexcept { return &held_; }

protected:
    Owner() noexcept = default;
    Owner(Owner &&other) noexcept : held_(std::exchange(other.held_, Struct())) {}
    Owner &operator=(Owner &&other) noexcept {
        if (this != &other) {
            reset();
            held_ = std::exchange(other.held_, Struct());
        }
        return *this;
    }
    ~Owner() { reset(); }

    Struct held_ = Struct();
};

/* One end of a connection: octets wait in it. */
template <class Struct>
class End : public Owner<Struct> {
public:
    /* How many octets wait. */
    std::size_t waiting() noexcept { return ua_waiting(this->handle()); }
    /* The octets that wait: all of them where the room can grow, else as many as fit, and the rest waits. */
    Octets fetch(Room room) {
        std::size_t fetched = 0;
        room.fit(waiting());
        check("ua_fetch", ua_fetch(this->handle(), room.data(), room.size(), &fetched));
        return {room.data(), fetched};
    }
    /* How many octets of unfinished messages are held, and the most that may be. */
    std::size_t held() noexcept { return ua_held(this->handle()); }
    std::size_t bound() noexcept { return ua_bound(this->handle()); }

protected:
    ua_handle *handle() noexcept { return handle_of(this->held_); }
};

} /* namespace detail */

/* ---- moments */

inline std::int64_t moment_of(std::chrono::system_clock::time_point time) noexcept {
    using Ticks = std::chrono::duration<std::int64_t, std::ratio<1, 10000000>>;
    return std::chrono::duration_cast<Ticks>(time.time_since_epoch()).count() + 116444736000000000;
}

inline std::int64_t now() noexcept { return moment_of(std::chrono::system_clock::now()); }

/* ---- numbers as values */

/* The types of numbers, each with its type in C++ and its calls of ua_values.h. */
#define UA_HPP_NUMBERS(Name, name, type)                                                                              \
    struct Name {                                                                                                     \
        using Number = type;                                                                                          \
        static std::size_t put(std::uint8_t *to, type value) noexcept { return ua_put_##name(to, value); }            \
        static int get(Octets from, type *value) noexcept { return ua_get_##name(from.data(), from.size(), value); }  \
        static std::size_t put_array(Room to, Span<const type> from) noexcept {                                       \
            return ua_put_##name##_array(to.data(), to.size(), from.data(), from.size());                             \
        }                                                                                                             \
        static int get_array(Octets from, Span<type> to, std::size_t *count) noexcept {                               \
            return ua_get_##name##_array(from.data(), from.size(), to.data(), to.size(), count);                      \
        }                                                                                                             \
    };
UA_HPP_NUMBERS(Boolean, boolean, std::uint8_t)
UA_HPP_NUMBERS(SByte, sbyte, std::int8_t)
UA_HPP_NUMBERS(Byte, byte, std::uint8_t)
UA_HPP_NUMBERS(Int16, int16, std::int16_t)
UA_HPP_NUMBERS(UInt16, uint16, std::uint16_t)
UA_HPP_NUMBERS(Int32, int32, std::int32_t)
UA_HPP_NUMBERS(UInt32, uint32, std::uint32_t)
UA_HPP_NUMBERS(Int64, int64, std::int64_t)
UA_HPP_NUMBERS(UInt64, uint64, std::uint64_t)
UA_HPP_NUMBERS(Float, float, float)
UA_HPP_NUMBERS(Double, double, double)
UA_HPP_NUMBERS(DateTime, date_time, std::int64_t)
UA_HPP_NUMBERS(StatusCode, status_code, std::uint32_t)
#undef UA_HPP_NUMBERS

/* The encoding of one number: `Value<ua::Double>(21.5)`. Its octets are lent while it stands. */
template <class Type>
class Value {
public:
    explicit Value(typename Type::Number number) noexcept : size_(Type::put(octets_, number)) {}
    Octets octets() const & noexcept { return {octets_, size_}; }
    Octets octets() const && = delete;

private:
    std::uint8_t octets_[UA_NUMBER_ROOM] = {0};
    std::size_t size_;
};

/* The number that octets are the encoding of; nothing where they are that of another value. */
template <class Type>
std::optional<typename Type::Number> number_of(Octets value) noexcept {
    typename Type::Number number{};
    return Type::get(value, &number) ? std::optional(number) : std::nullopt;
}

/* The encoding of an array of numbers. */
template <class Type>
Octets put_array(Span<const typename Type::Number> numbers, Room room) {
    auto size = 5 + numbers.size() * sizeof(typename Type::Number);
    if (numbers.size() > 0x7fffffff || !room.fit(size))
        throw Error("ua_put_array", UA_TOO_SMALL, {0, 0, 0, size});
    Type::put_array(room, numbers);
    return {room.data(), size};
}

/* How many numbers the array has that octets are the encoding of, as many of which as fit are put in front; nothing
 * where they encode another value. A null array has none. */
template <class Type>
std::optional<std::size_t> get_array(Octets value, Span<typename Type::Number> numbers) noexcept {
    std::size_t count = 0;
    return Type::get_array(value, numbers, &count) ? std::optional(count) : std::nullopt;
}

/* A value by the octets of its encoding, which somebody else owns, with its status and times, each where it is
 * there. */
struct Reading {
    std::optional<Octets> value;
    std::optional<std::uint32_t> status;
    std::optional<std::int64_t> source_time;
    std::optional<std::uint16_t> source_picoseconds;
    std::optional<std::int64_t> server_time;
    std::optional<std::uint16_t> server_picoseconds;

    /* The number that the value is. */
    template <class Type>
    std::optional<typename Type::Number> number() const noexcept {
        return value ? number_of<Type>(*value) : std::nullopt;
    }

    /* The same for C: the value's octets are handed over beside it. */
    ua_reading to_c() const noexcept {
        ua_reading c = ua_reading();
        c.value_len = value ? value->size() : 0;
        c.has_value = value.has_value();
        c.status = status.value_or(0);
        c.has_status = status.has_value();
        c.source_time = source_time.value_or(0);
        c.has_source_time = source_time.has_value();
        c.source_picoseconds = source_picoseconds.value_or(0);
        c.has_source_picoseconds = source_picoseconds.has_value();
        c.server_time = server_time.value_or(0);
        c.has_server_time = server_time.has_value();
        c.server_picoseconds = server_picoseconds.value_or(0);
        c.has_server_picoseconds = server_picoseconds.has_value();
        return c;
    }

    /* What C told, of octets in which its value stands. */
    static Reading of_c(Octets octets, const ua_reading &c) noexcept {
        Reading reading;
        if (c.has_value)
            reading.value = octets.from(c.value_at).first(c.value_len);
        if (c.has_status)
            reading.status = c.status;
        if (c.has_source_time)
            reading.source_time = c.source_time;
        if (c.has_source_picoseconds)
            reading.source_picoseconds = c.source_picoseconds;
        if (c.has_server_time)
            reading.server_time = c.server_time;
        if (c.has_server_picoseconds)
            reading.server_picoseconds = c.server_picoseconds;
        return reading;
    }
};

/* ---- nodes, connections, clients */

using Limits = ua_limits;
inline constexpr Limits usual_limits = {sizeof(Limits), 65535, 65535, 1048576, 256};

/* What a server of nodes says of itself. */
struct About {
    std::string_view url;
    std::string_view application_uri = "urn:ua:server";
    std::string_view name = "ua";
    std::uint32_t max_message_size = 0;
};

/* The place of a node, which stays, among those of the Nodes that gave it. */
enum class Index : std::size_t {};

/* Nodes that connections share. */
class Nodes : public detail::Owner<ua_nodes> {
public:
    /* Holds nothing. */
    Nodes() noexcept = default;
    /* The nodes of the text of a node file. */
    Nodes(std::string_view file, const About &about) {
        Error::Numbers numbers;
        auto status = ua_nodes_new(detail::at(file), file.size(), detail::at(about.url), about.url.size(),
                                   detail::at(about.application_uri), about.application_uri.size(),
                                   detail::at(about.name), about.name.size(), about.max_message_size, &held_,
                                   &numbers.line, &numbers.reason);
        detail::check("ua_nodes_new", status, numbers);
    }

    /* The index of a node: look it up once. */
    Index find(std::string_view node) {
        std::size_t index = 0;
        detail::check("ua_node_find", ua_node_find(&held_, detail::at(node), node.size(), &index));
        return Index(index);
    }
    /* The same; nothing where there is no such node. */
    std::optional<Index> try_find(std::string_view node) {
        std::size_t index = 0;
        auto status = ua_node_find(&held_, detail::at(node), node.size(), &index);
        if (status == UA_UNKNOWN)
            return std::nullopt;
        detail::check("ua_node_find", status);
        return Index(index);
    }

    /* Sets what a node holds. The reading has a value and a source time. */
    void set(Index node, const Reading &reading) {
        auto c = reading.to_c();
        auto octets = reading.value.value_or(Octets());
        detail::check("ua_node_set", ua_node_set(&held_, std::size_t(node), octets.data(), octets.size(), &c));
    }
    /* The same to a number: `nodes.set<ua::Double>(node, 21.5, ua::now())`. A status of 0 is Good. */
    template <class Type>
    void set(Index node, typename Type::Number number, std::int64_t source_time, std::uint32_t status = 0) {
        Value<Type> value(number);
        Reading reading;
        reading.value = value.octets();
        reading.source_time = source_time;
        if (status != 0)
            reading.status = status;
        set(node, reading);
    }

    /* What a node holds; the value stands in the room. */
    Reading get(Index node, Room room) {
        ua_reading c = ua_reading();
        auto octets = detail::put("ua_node_get", room, [&](auto *to, auto size, auto *needed, auto *) {
            return ua_node_get(&held_, std::size_t(node), to, size, needed, &c);
        });
        return Reading::of_c(octets, c);
    }
};

/* One connection of a server. It is stepped with the same nodes from its first step on. */
class Connection : public detail::End<ua_connection> {
public:
    /* Holds nothing. */
    Connection() noexcept = default;
    /* Its channel's id is another one than each open connection over the same nodes has. */
    explicit Connection(std::uint32_t channel, const Limits &limits = usual_limits) {
        detail::check("ua_connection_new", ua_connection_new(&limits, channel, &held_));
    }

    /* What a step did: `status` is ok, ended or refused, the last for `code`. */
    struct Step {
        Status status = Status::ok;
        std::size_t taken = 0;
        std::size_t waiting = 0;
        std::uint32_t code = 0;
    };

    /* Takes octets of the client up to the first that are answered: fetch what waits, and go on with the rest. */
    Step step(Nodes &nodes, Octets piece, std::int64_t moment) {
        Step step;
        auto status = ua_connection_step(&held_, nodes.raw(), piece.data(), piece.size(), moment, &step.taken,
                                         &step.waiting, &step.code);
        if (status != UA_ENDED && status != UA_REFUSED)
            detail::check("ua_connection_step", status, {0, 0, step.code, 0});
        step.status = Status(status);
        return step;
    }

    /* An item that a client wrote: the value of the reading stands in the room. */
    struct Written {
        Index node;
        Reading reading;
    };

    /* The next item of what the Write stored that the last step answered, each once and in order; nothing where there
     * is no more. Ask behind each step: the next one lets go of them. */
    std::optional<Written> next_written(Nodes &nodes, Room room) {
        std::size_t index = 0;
        ua_reading c = ua_reading();
        bool none = false;
        auto octets = detail::put("ua_next_written", room, [&](auto *to, auto size, auto *needed, auto *) {
            auto status = ua_next_written(&held_, nodes.raw(), &index, to, size, needed, &c);
            none = status == UA_NO_MORE;
            return none ? std::uint32_t(UA_OK) : status;
        });
        if (none)
            return std::nullopt;
        return Written{Index(index), Reading::of_c(octets, c)};
    }
};

/* A client of the server of a URL. What each call says is to be sent waits: fetch it. */
class Client : public detail::End<ua_handle> {
public:
    /* Holds nothing. */
    Client() noexcept = default;
    explicit Client(std::string_view url, const Limits &limits = usual_limits) {
        detail::check("ua_client_new", ua_client_new(&limits, detail::at(url), url.size(), &held_));
    }

    /* What came of octets: behind `send` and `answered` octets wait. At `failed` and `failed_by_peer` the connection
     * has ended for `code`. */
    struct Told {
        Event event = Event::need_more;
        std::size_t taken = 0;
        std::uint32_t id = 0;
        std::uint32_t code = 0;
    };

    /* The HEL, which is sent first. */
    void hello() { detail::check("ua_client_hello", ua_client_hello(&held_)); }
    /* Takes octets of the server up to the first that tell something: go on with the rest. */
    Told take(Octets piece, std::int64_t moment) {
        Told told;
        std::uint32_t event = 0;
        auto status = ua_client_take(&held_, piece.data(), piece.size(), moment, &told.taken, &event, &told.id,
                                     &told.code);
        if (status != UA_REFUSED)
            detail::check("ua_client_take", status, {0, 0, told.code, 0});
        told.event = Event(event);
        return told;
    }
    /* Asks a call with this body, and says under which id it is answered. */
    std::uint32_t ask(Octets body) {
        std::uint32_t id = 0;
        detail::check("ua_client_ask", ua_client_ask(&held_, body.data(), body.size(), &id));
        return id;
    }
    /* Asks for a further token. */
    std::uint32_t renew(std::int64_t moment) {
        std::uint32_t id = 0;
        detail::check("ua_client_renew", ua_client_renew(&held_, moment, &id));
        return id;
    }
    /* The CLO. */
    void close(std::int64_t moment) { detail::check("ua_client_close", ua_client_close(&held_, moment)); }
};

/* ---- texts and octets */

inline std::string_view dissect(Octets octets, Side side, Room room) {
    return text_of(detail::put("ua_dissect", room, [&](auto *to, auto size, auto *needed, auto *) {
        return ua_dissect(octets.data(), octets.size(), std::uint32_t(side), to, size, needed);
    }));
}

inline Octets encode_value(std::string_view type, std::string_view text, Room room) {
    return detail::put("ua_encode_value", room, [&](auto *to, auto size, auto *needed, auto *) {
        return ua_encode_value(detail::at(type), type.size(), detail::at(text), text.size(), to, size, needed);
    });
}

inline std::string_view decode_value(Octets value, Room room) {
    return text_of(detail::put("ua_decode_value", room, [&](auto *to, auto size, auto *needed, auto *) {
        return ua_decode_value(value.data(), value.size(), to, size, needed);
    }));
}

/* How values are written as texts: as in a node file, or as people write them. */
enum class Style : std::uint32_t { exact = 0, plain = 1 };

/* A type and a text that denote a value. */
struct Spelling {
    std::string_view type, text;
};

/* Those of a value; nothing where it has none. */
inline std::optional<Spelling> value_text(Octets value, Style style, Room room) {
    std::size_t needed = 0, name_size = 0;
    if (ua_value_text(value.data(), value.size(), std::uint32_t(style), room.data(), 0, &needed, &name_size) == UA_NO_TEXT)
        return std::nullopt;
    auto whole = text_of(detail::put("ua_value_text", room, [&](auto *to, auto size, auto *put, auto *) {
        return ua_value_text(value.data(), value.size(), std::uint32_t(style), to, size, put, &name_size);
    }));
    return Spelling{whole.substr(0, name_size), whole.substr(name_size + 1)};
}

inline Octets text_value(std::string_view type, std::string_view text, Style style, Room room) {
    return detail::put("ua_text_value", room, [&](auto *to, auto size, auto *needed, auto *told) {
        return ua_text_value(detail::at(type), type.size(), detail::at(text), text.size(), std::uint32_t(style), to, size,
                             needed, &told->reason);
    });
}

/* ---- bodies of requests, for Client::ask; `request` is the RequestHandle */

inline Octets get_endpoints_request(std::string_view url, std::int64_t moment, std::uint32_t request, Room room) {
    return detail::put("ua_get_endpoints_request", room, [&](auto *to, auto size, auto *needed, auto *) {
        return ua_get_endpoints_request(detail::at(url), url.size(), moment, request, to, size, needed);
    });
}

inline Octets create_session_request(std::string_view url, std::int64_t moment, std::uint32_t request, Room room) {
    return detail::put("ua_create_session_request", room, [&](auto *to, auto size, auto *needed, auto *) {
        return ua_create_session_request(detail::at(url), url.size(), moment, request, to, size, needed);
    });
}

inline Octets activate_session_request(std::string_view token, std::int64_t moment, std::uint32_t request, Room room) {
    return detail::put("ua_activate_session_request", room, [&](auto *to, auto size, auto *needed, auto *) {
        return ua_activate_session_request(detail::at(token), token.size(), moment, request, to, size, needed);
    });
}

inline Octets activate_session_request_as(std::string_view token, std::string_view policy, std::int64_t moment,
                                          std::uint32_t request, Room room) {
    return detail::put("ua_activate_session_request_as", room, [&](auto *to, auto size, auto *needed, auto *told) {
        return ua_activate_session_request_as(detail::at(token), token.size(), detail::at(policy), policy.size(),
                                              moment, request, to, size, needed, &told->reason);
    });
}

inline Octets close_session_request(std::string_view token, std::int64_t moment, std::uint32_t request, Room room) {
    return detail::put("ua_close_session_request", room, [&](auto *to, auto size, auto *needed, auto *) {
        return ua_close_session_request(detail::at(token), token.size(), moment, request, to, size, needed);
    });
}

/* `nodes` are NodeIds with an LF between; an empty range asks for the whole. */
inline Octets read_request(std::string_view token, std::string_view nodes, std::string_view range, std::int64_t moment,
                           std::uint32_t request, Room room) {
    return detail::put("ua_read_request", room, [&](auto *to, auto size, auto *needed, auto *told) {
        return ua_read_request(detail::at(token), token.size(), moment, request, detail::at(nodes), nodes.size(),
                               detail::at(range), range.size(), to, size, needed, &told->reason, &told->index);
    });
}

inline Octets write_request(std::string_view token, std::string_view node, std::string_view type,
                            std::string_view text, std::int64_t moment, std::uint32_t request, Room room) {
    return detail::put("ua_write_request", room, [&](auto *to, auto size, auto *needed, auto *told) {
        return ua_write_request(detail::at(token), token.size(), moment, request, detail::at(node), node.size(),
                                detail::at(type), type.size(), detail::at(text), text.size(), to, size, needed,
                                &told->reason);
    });
}

/* ---- what a reply says */

struct Kind {
    Response response;
    std::uint32_t service_result;

    /* Whether the service did what was asked: also Uncertain is no failure. */
    bool succeeded() const noexcept { return service_result < 0x80000000; }
};

inline Kind response_kind(Octets body) {
    std::uint32_t response = 0, service_result = 0;
    detail::check("ua_response_kind", ua_response_kind(body.data(), body.size(), &response, &service_result));
    return {Response(response), service_result};
}

/* The PolicyId for activate_session_request_as, of the reply to a GetEndpoints. */
inline std::string_view choose_policy(Octets body, Room room) {
    return text_of(detail::put("ua_choose_policy", room, [&](auto *to, auto size, auto *needed, auto *told) {
        return ua_choose_policy(body.data(), body.size(), to, size, needed, &told->code);
    }));
}

inline std::string_view session_token(Octets body, Room room) {
    return text_of(detail::put("ua_session_token", room, [&](auto *to, auto size, auto *needed, auto *told) {
        return ua_session_token(body.data(), body.size(), to, size, needed, &told->code);
    }));
}

inline std::string_view response_text(std::string_view nodes, Octets body, Room room) {
    return text_of(detail::put("ua_response_text", room, [&](auto *to, auto size, auto *needed, auto *told) {
        return ua_response_text(detail::at(nodes), nodes.size(), body.data(), body.size(), to, size, needed, &told->code);
    }));
}

/* The results of a Read, as views of the body of its reply. */
class Readings {
public:
    Readings(Octets body, Span<const ua_reading> places) noexcept : body_(body), places_(places) {}

    std::size_t size() const noexcept { return places_.size(); }
    Reading operator[](std::size_t at) const { return Reading::of_c(body_, places_[at]); }

private:
    Octets body_;
    Span<const ua_reading> places_;
};

/* The results of the Read whose reply a body is, in order. `places` is a vector of ua_reading, which is made larger
 * where there are more. */
template <class Row>
Readings readings(Octets body, Row &places) {
    std::size_t count = 0;
    std::uint32_t code = 0;
    auto made = [&] { return ua_readings(body.data(), body.size(), places.data(), places.size(), &count, &code); };
    auto status = made();
    if (status == UA_TOO_SMALL) {
        places.resize(count);
        status = made();
    }
    detail::check("ua_readings", status, {0, 0, code, 0, 0});
    return {body, {places.data(), count}};
}

/* ---- the library, and words for numbers */

/* The version of the library, as UA_VERSION is that of the header. */
inline std::uint32_t version() noexcept { return ua_version(); }

inline std::string_view status_text(Status status, Room room) {
    return text_of(detail::put("ua_status_text", room, [&](auto *to, auto size, auto *needed, auto *) {
        return ua_status_text(std::uint32_t(status), to, size, needed);
    }));
}

/* The standard's name of a status code; nothing where it has none that the library knows. */
inline std::optional<std::string_view> code_name(std::uint32_t code, Room room) {
    std::size_t needed = 0;
    if (ua_code_name(code, room.data(), 0, &needed) == UA_UNKNOWN)
        return std::nullopt;
    return text_of(detail::put("ua_code_name", room, [&](auto *to, auto size, auto *put, auto *) {
        return ua_code_name(code, to, size, put);
    }));
}

} /* namespace ua */

#endif
