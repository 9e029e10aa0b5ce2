/* Prints the Values of nodes of an OPC UA server on this machine: `read PORT NODE..`. What is printed is what
 * `ua read` prints. docs/CPP.md says how it is built. */
#include <netinet/in.h>
#include <sys/socket.h>
#include <unistd.h>

#include <iostream>
#include <stdexcept>
#include <string>
#include <vector>

#include "ua.hpp"

/* A client and the socket to its server, whose channel is open. */
class Session {
public:
    explicit Session(std::uint16_t port) : url_("opc.tcp://localhost:" + std::to_string(port)), client_(url_) {
        sockaddr_in address = {};
        address.sin_family = AF_INET;
        address.sin_port = htons(port);
        address.sin_addr.s_addr = htonl(INADDR_LOOPBACK);
        line_ = socket(AF_INET, SOCK_STREAM, 0);
        if (connect(line_, reinterpret_cast<sockaddr *>(&address), sizeof address) < 0)
            throw std::runtime_error("read: nobody listens");
        client_.hello();
        send_waiting();
        wait_for(ua::Event::open);
        token_ = ua::session_token(ask(ua::create_session_request(url_, ua::now(), ++requests_, body_)), text_);
        ask(ua::activate_session_request(token_, ua::now(), ++requests_, body_));
    }
    Session(const Session &) = delete;
    Session &operator=(const Session &) = delete;
    ~Session() { close(line_); }

    /* The lines of the Values of nodes, whose NodeIds have an LF between. */
    std::string_view read_lines(std::string_view nodes) {
        auto body = ask(ua::read_request(token_, nodes, "", ua::now(), ++requests_, body_));
        return ua::response_text(nodes, body, text_);
    }

    void end() {
        ask(ua::close_session_request(token_, ua::now(), ++requests_, body_));
        client_.close(ua::now());
        send_waiting();
    }

private:
    void send_waiting() {
        for (auto left = client_.fetch(octets_); !left.empty();) {
            auto count = write(line_, left.data(), left.size());
            if (count <= 0)
                throw std::runtime_error("read: the server takes no more");
            left = left.from(static_cast<std::size_t>(count));
        }
    }

    /* Takes what the server sends until this event. */
    void wait_for(ua::Event wanted) {
        for (auto event = ua::Event::need_more; event != wanted;) {
            if (came_.empty()) {
                auto count = read(line_, piece_, sizeof piece_);
                if (count <= 0)
                    throw std::runtime_error("read: the server ended");
                came_ = ua::Octets(piece_).first(static_cast<std::size_t>(count));
            }
            auto told = client_.take(came_, ua::now());
            came_ = came_.from(told.taken);
            event = told.event;
            if (event == ua::Event::send)
                send_waiting();
            if (told.code != 0)
                throw ua::Error("the server", UA_REFUSED, {0, 0, told.code, 0});
        }
    }

    /* The body of the reply to a request, up to the next one. */
    ua::Octets ask(ua::Octets body) {
        client_.ask(body);
        send_waiting();
        wait_for(ua::Event::answered);
        auto reply = client_.fetch(octets_);
        auto kind = ua::response_kind(reply);
        if (!kind.succeeded())
            throw ua::Error("a request", UA_SERVICE, {0, 0, kind.service_result, 0});
        return reply;
    }

    std::string url_, token_, text_;
    ua::Client client_;
    int line_;
    std::uint32_t requests_ = 0;
    std::vector<std::uint8_t> body_, octets_; /* each grows to the largest that it held */
    std::uint8_t piece_[4096];
    ua::Octets came_;
};

int main(int count, char **words) try {
    if (count < 3)
        return 2;
    std::string nodes;
    for (int at = 2; at < count; at++)
        nodes += (at > 2 ? "\n" : "") + std::string(words[at]);
    Session session(static_cast<std::uint16_t>(std::stoi(words[1])));
    std::cout << session.read_lines(nodes);
    session.end();
} catch (const std::exception &error) {
    std::cerr << error.what() << std::endl;
    return 1;
}
