/* Makes the calls of ua.hpp in one process, without sockets, and prints what they answer: answers.txt beside it, which
 * is written by hand. docs/CPP.md says how it is built. */
#include <array>
#include <cstdio>
#include <string>
#include <vector>

#include "ua.hpp"

constexpr std::string_view url = "opc.tcp://localhost:4840";
constexpr const char *table = "ns=1;s=Pump\trw\tPump\tInt32\t5\nns=1;s=Temp\tr\tTemp\tDouble\t0x0000000000000000\n";

static_assert(!std::is_copy_constructible_v<ua::Nodes> && !std::is_copy_assignable_v<ua::Nodes>);
static_assert(!std::is_copy_constructible_v<ua::Connection> && !std::is_copy_constructible_v<ua::Client>);
static_assert(std::is_nothrow_move_constructible_v<ua::Nodes> && std::is_nothrow_move_assignable_v<ua::Client>);
static_assert(!std::is_constructible_v<ua::Octets, std::vector<std::uint8_t>>, "no view of what ends at once");
static_assert(!std::is_constructible_v<ua::Room, const std::string &>, "what is constant is no room");
static_assert(sizeof(ua::Nodes) == sizeof(ua_nodes) && sizeof(ua::Client) == sizeof(ua_handle));

void say(const char *what, std::string_view text) {
    std::printf("%s: %.*s\n", what, static_cast<int>(text.size()), text.data());
}

std::string hex_of(ua::Octets octets) {
    std::string text;
    for (auto octet : octets) {
        char two[3];
        std::snprintf(two, sizeof two, "%02x", octet);
        text += two;
    }
    return text;
}

/* What a call throws. */
template <class Call>
void say_error(const char *what, Call call) {
    try {
        call();
        say(what, "no error");
    } catch (const ua::Error &error) {
        say(what, error.what());
    }
}

/* What goes between a client and a connection, up to an event of the client. */
ua::Client::Told talk(ua::Client &client, ua::Connection &connection, ua::Nodes &nodes) {
    std::vector<std::uint8_t> up, down;
    ua::Client::Told told;
    for (told.event = ua::Event::send; told.event == ua::Event::send;) {
        for (auto piece = client.fetch(up); !piece.empty();) {
            auto step = connection.step(nodes, piece, 2);
            piece = piece.from(step.taken);
            for (auto said = connection.fetch(down); !said.empty();) {
                told = client.take(said, 2);
                said = said.from(told.taken);
            }
        }
    }
    return told;
}

void values() {
    std::string text;
    std::array<std::uint8_t, 4> small{};
    std::uint8_t octets[16];
    say("encode", hex_of(ua::encode_value("Int32[]", "10,20", octets)));
    say("decode", ua::decode_value(ua::encode_value("Int32", "7", octets), text));
    say_error("too small", [&] { ua::encode_value("Int32", "5", small); });
    say_error("no number", [&] { ua::encode_value("Int32", "x", octets); });
    say_error("empty views", [&] { ua::decode_value({}, text); });
    say("dissected", ua::dissect({}, ua::Side::client, text));
    say_error("no side", [&] { ua::dissect({}, ua::Side(2), text); });

    ua::Value<ua::Int16> number(-2);
    say("Int16", hex_of(number.octets()));
    say("read as UInt16", ua::number_of<ua::UInt16>(number.octets()) ? "some" : "none");
    say("read as Int16", std::to_string(*ua::number_of<ua::Int16>(number.octets())));
    const std::vector<float> floats = {1, 2, 3};
    std::vector<std::uint8_t> row;
    auto array = ua::put_array<ua::Float>(floats, row);
    float two[2];
    say("Floats", hex_of(array) + " " + std::to_string(*ua::get_array<ua::Float>(array, two)));
    say("the second", std::to_string(two[1]));
    say_error("no room", [&] { ua::put_array<ua::Float>(floats, small); });
}

void nodes() {
    std::vector<std::uint8_t> room;
    ua::Nodes first(table, {url}), plant(std::move(first));
    auto pump = plant.find("ns=1;s=Pump"), temp = plant.find("ns=1;s=Temp");
    plant.set<ua::Double>(temp, 21.5, 7, 0x40000000);
    auto reading = plant.get(temp, room);
    say("Temp", std::to_string(*reading.number<ua::Double>()) + " " + std::to_string(*reading.status) + " " + std::to_string(*reading.source_time));
    say("Pump", std::to_string(*plant.get(pump, room).number<ua::Int32>()));
    say("i=9", plant.try_find("i=9") ? "found" : "not found");
    say_error("find", [&] { plant.find("i=9"); });
    say_error("try_find", [&] { (void)plant.try_find("9"); });
    say_error("another type", [&] { plant.set<ua::Float>(temp, 1, 7); });
    say_error("no value", [&] { plant.set(temp, {}); });
    say_error("moved from", [&] { first.find("i=9"); });
    say_error("a bad line", [] { ua::Nodes("i=1\n", {url}); });
    say_error("no text", [] { ua::Nodes("", {url, "\xff"}); });
    first = std::move(plant);
    plant = ua::Nodes();
    say("moved back", std::to_string(*first.get(pump, room).number<ua::Int32>()));
}

void conversation() {
    ua::Nodes plant(table, {url});
    ua::Connection connection(1);
    ua::Client client(url);
    std::vector<std::uint8_t> body, reply;
    std::string token, text;
    std::uint32_t request = 0;
    auto ask = [&](ua::Octets octets) {
        client.ask(octets);
        talk(client, connection, plant);
        return client.fetch(reply);
    };
    client.hello();
    say("open", talk(client, connection, plant).event == ua::Event::open ? "yes" : "no");
    say("endpoints", ua::response_text("i=0", ask(ua::get_endpoints_request(url, 2, ++request, body)), text).substr(0, url.size()));
    auto made = ask(ua::create_session_request(url, 2, ++request, body));
    say("created", ua::response_kind(made).response == ua::Response::create_session_response ? "yes" : "no");
    token = ua::session_token(made, token);
    say_error("no token", [&] { ua::session_token(ask(ua::read_request(token, "i=9", "", 2, ++request, body)), text); });
    say("activated", ua::response_kind(ask(ua::activate_session_request(token, 2, ++request, body))).succeeded() ? "yes" : "no");
    say("another policy", ua::response_kind(ask(ua::activate_session_request_as(token, "x", 2, ++request, body))).succeeded() ? "yes" : "no");
    say("written", ua::response_text("ns=1;s=Pump", ask(ua::write_request(token, "ns=1;s=Pump", "Int32", "6", 2, ++request, body)), text));
    auto item = connection.next_written(plant, body);
    say("item", std::to_string(std::size_t(item->node)) + " " + std::to_string(*item->reading.number<ua::Int32>()));
    say("no more", connection.next_written(plant, body) ? "one" : "none");
    auto read = ask(ua::read_request(token, "ns=1;s=Pump", "", 2, ++request, body));
    say("read", ua::response_text("ns=1;s=Pump", read, text));
    std::vector<ua_reading> places;
    auto results = ua::readings(read, places);
    say("results", std::to_string(results.size()) + " " + std::to_string(*results[0].number<ua::Int32>()) + " " + std::to_string(*results[0].source_time));
    say_error("no results", [&] { ua::readings({}, places); });
    client.renew(2);
    say("renewed", talk(client, connection, plant).event == ua::Event::renewed ? "yes" : "no");
    say_error("no body", [&] { client.ask({}); });
    say("held", std::to_string(connection.held()) + " of " + std::to_string(connection.bound()));
    say("closed", ua::response_kind(ask(ua::close_session_request(token, 2, ++request, body))).succeeded() ? "yes" : "no");
    client.close(2);
    auto end = connection.step(plant, client.fetch(body), 2);
    say("ended", end.status == ua::Status::ended ? "yes" : "no");
    say_error("behind the end", [&] { connection.step(plant, {}, 2); });
    const std::uint8_t strange[] = {'G', 'E', 'T', 'F', 28, 0, 0, 0};
    connection = ua::Connection(2);
    say("refused", ua::code_name(connection.step(plant, strange, 2).code, text).value_or("none"));
    say_error("first fetch", [&] { connection.step(plant, {}, 2); });
    std::array<std::uint8_t, 3> three{};
    auto front = connection.fetch(three);
    say("fetched", std::to_string(front.size()) + " " + std::string(ua::text_of(front)));
    say_error("limits", [] { ua::Client(url, {sizeof(ua::Limits), 1, 1, 1, 1}); });
    std::vector<std::uint8_t> grown(4);
    ua::Room kept(grown);
    ua::status_text(ua::Status::empty, kept);
    auto boolean = ua::encode_value("Boolean", "true", kept); /* where the vector stands since it grew */
    say("kept room", std::to_string(boolean.size()) + (boolean.data() == grown.data() ? " in it" : " elsewhere"));
}

int main() {
    std::uint8_t room[64];
    say("version", ua::version() == UA_VERSION ? "as in the header" : "another");
    say("status", ua::status_text(ua::Status::too_small, room));
    say("code", ua::code_name(0x80340000, room).value_or("none"));
    say("no code", ua::code_name(1, room).value_or("none"));
    values();
    nodes();
    conversation();
}
