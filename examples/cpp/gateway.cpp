/* A gateway: serves the nodes of a file on a port of this machine, to several connections at once, while a sensor
 * moves one node and clients write another. It does what examples/c/gateway.c does, whose comment says it:
 *
 *     gateway NODES PORT CONNECTIONS [SECONDS]
 *
 * docs/CPP.md says how it is built. */
#include <fcntl.h>
#include <netinet/in.h>
#include <poll.h>
#include <sys/socket.h>
#include <unistd.h>

#include <cerrno>
#include <csignal>
#include <fstream>
#include <iostream>
#include <iterator>
#include <list>
#include <stdexcept>
#include <string>
#include <system_error>
#include <vector>

#include "ua.hpp"

using Clock = std::chrono::steady_clock;
constexpr std::size_t most = 16;

/* A descriptor, which is closed with it. */
class Line {
public:
    explicit Line(int fd) : fd_(fd) {
        if (fd < 0 || fcntl(fd, F_SETFL, O_NONBLOCK) < 0)
            throw std::system_error(errno, std::generic_category(), "gateway: a socket");
    }
    Line(const Line &) = delete;
    Line &operator=(const Line &) = delete;
    ~Line() { close(fd_); }
    int fd() const { return fd_; }

private:
    int fd_;
};

/* What a read or a write moved; nothing where it is to be tried later. */
std::optional<ssize_t> moved(ssize_t count) {
    bool later = count < 0 && (errno == EAGAIN || errno == EWOULDBLOCK || errno == EINTR || errno == ECONNABORTED);
    return later ? std::nullopt : std::optional(count);
}

/* The sensor and the setpoint, where the table has them. */
class Plant {
public:
    Plant(const std::string &file, const std::string &url)
        : nodes(file, {url, "urn:example:gateway", "gateway", ua::usual_limits.max_message_size}),
          sensor(nodes.try_find("ns=1;s=Sensor")), setpoint_(nodes.try_find("ns=1;s=Setpoint")) {}

    /* What the sensor measures now goes into its node. */
    void measure() {
        auto now = ua::now();
        if (sensor)
            nodes.set<ua::Double>(*sensor, static_cast<double>(now - start_) / 1e7, now);
    }

    /* Prints what the client wrote to the setpoint, of the items of the Write that the last step answered. */
    void follow(ua::Connection &connection) {
        while (auto item = connection.next_written(nodes, room_))
            if (auto value = item->reading.number<ua::Double>(); value && item->node == setpoint_)
                std::cout << "setpoint " << *value << std::endl;
    }

    ua::Nodes nodes; /* one table for all connections */
    std::optional<ua::Index> sensor;

private:
    std::optional<ua::Index> setpoint_;
    std::int64_t start_ = ua::now();
    std::vector<std::uint8_t> room_;
};

/* A connection: what came and was not taken yet, and what was fetched and not sent yet. */
class Served {
public:
    Served(int fd, unsigned channel) : number(channel), line_(fd), connection_(channel) {}

    /* What is waited for: where octets wait for the line, no more is read. */
    pollfd polled() const { return {line_.fd(), static_cast<short>(out_.empty() ? POLLIN : POLLOUT), 0}; }

    bool is_idle(std::chrono::seconds idle) const { return Clock::now() - moved_ > idle; }

    /* Goes on as far as the line allows without waiting: how the connection ended, empty where it goes on. */
    std::string serve(Plant &plant) {
        for (bool was_read = false;;) {
            while (!out_.empty() || connection_.waiting() > 0) {
                out_ = out_.empty() ? connection_.fetch(out_room_) : out_;
                auto count = moved(write(line_.fd(), out_.data(), out_.size()));
                if (!count || *count <= 0)
                    return count ? "Write" : "";
                out_ = out_.from(static_cast<std::size_t>(*count));
                moved_ = Clock::now();
            }
            if (!end_.empty())
                return end_;
            if (!in_.empty()) {
                take(plant);
                continue;
            }
            if (was_read) /* the other connections come first */
                return "";
            auto count = moved(read(line_.fd(), in_room_, sizeof in_room_));
            if (!count || *count <= 0)
                return !count ? "" : *count == 0 ? "NoClose" : "Read";
            in_ = ua::Octets(in_room_).first(static_cast<std::size_t>(*count));
            was_read = true;
            moved_ = Clock::now();
        }
    }

    const unsigned number;

private:
    /* Takes octets that came, up to the first that are answered. */
    void take(Plant &plant) {
        try {
            auto step = connection_.step(plant.nodes, in_, ua::now());
            in_ = in_.from(step.taken);
            plant.follow(connection_);
            if (step.status == ua::Status::ended)
                end_ = "Closed";
            char text[24];
            std::snprintf(text, sizeof text, "Refused %08X", static_cast<unsigned>(step.code));
            if (step.status == ua::Status::refused)
                end_ = text;
        } catch (const ua::Error &error) {
            end_ = error.status() == ua::Status::no_memory ? "OutOfMemory" : error.what();
        }
    }

    Line line_;
    ua::Connection connection_;
    std::uint8_t in_room_[4096], out_room_[4096];
    ua::Octets in_, out_; /* what is left of them */
    Clock::time_point moved_ = Clock::now();
    std::string end_; /* how it ends when all that waits was sent */
};

void listen_at(const Line &line, std::uint16_t port) {
    int on = 1;
    sockaddr_in address = {};
    address.sin_family = AF_INET;
    address.sin_port = htons(port);
    address.sin_addr.s_addr = htonl(INADDR_LOOPBACK);
    setsockopt(line.fd(), SOL_SOCKET, SO_REUSEADDR, &on, sizeof on);
    if (bind(line.fd(), reinterpret_cast<sockaddr *>(&address), sizeof address) < 0 || listen(line.fd(), most) < 0)
        throw std::system_error(errno, std::generic_category(), "gateway: listen");
}

void run(Plant &plant, int port, unsigned connections, std::chrono::seconds idle) {
    Line listener(socket(AF_INET, SOCK_STREAM, 0));
    listen_at(listener, static_cast<std::uint16_t>(port));
    std::list<Served> served;
    std::cout << "listening " << port << std::endl;
    for (unsigned taken = 0, ended = 0; ended < connections;) {
        std::vector<pollfd> polled;
        for (const auto &of : served)
            polled.push_back(of.polled());
        bool is_open = taken < connections && served.size() < most;
        polled.push_back({is_open ? listener.fd() : -1, POLLIN, 0});
        if (poll(polled.data(), polled.size(), plant.sensor ? 100 : 1000) < 0 && errno != EINTR)
            throw std::system_error(errno, std::generic_category(), "gateway: poll");
        plant.measure();
        auto at = polled.begin();
        for (auto of = served.begin(); of != served.end();) {
            auto end = at++->revents ? of->serve(plant) : "";
            if (end.empty() && of->is_idle(idle))
                end = "Idle";
            if (!end.empty()) {
                std::cout << "connection " << of->number << ' ' << end << std::endl;
                ended++;
            }
            of = end.empty() ? std::next(of) : served.erase(of);
        }
        if (at->revents)
            if (auto line = moved(accept(listener.fd(), nullptr, nullptr)))
                served.emplace_back(static_cast<int>(*line), ++taken);
    }
}

int main(int count, char **words) try {
    if (count != 4 && count != 5)
        return 2;
    std::signal(SIGPIPE, SIG_IGN);
    std::ifstream file(words[1], std::ios::binary);
    std::string text(std::istreambuf_iterator<char>(file), {});
    if (!file)
        throw std::runtime_error("gateway: cannot read " + std::string(words[1]));
    Plant plant(text, "opc.tcp://localhost:" + std::string(words[2]));
    run(plant, std::stoi(words[2]), static_cast<unsigned>(std::stoul(words[3])), std::chrono::seconds(count == 5 ? std::stoi(words[4]) : 60));
} catch (const std::exception &error) {
    std::cerr << error.what() << std::endl;
    return 1;
}
