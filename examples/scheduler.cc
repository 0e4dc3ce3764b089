// usage: scheduler HOST:PORT: launches a task on the first offer, and ends once the task runs.
// Like scheduler.py: c++ -std=c++17 scheduler.cc $(pkg-config --cflags --libs mesosev) -o scheduler
// A proved session checks each call. Members are found in canonical texts (docs/FORMAT.md).
#include <mesosev.hpp>

#include <cstdlib>
#include <cstring>
#include <iostream>
#include <netdb.h>
#include <string>
#include <sys/socket.h>
#include <unistd.h>

using mesosev::Decoded, mesosev::Decoder, mesosev::Result, mesosev::Session, mesosev::Status, mesosev::Type;
using std::string, std::string_view;

// What the task asks for and does: members of its TaskInfo.
static const string ASKED = R"("resources":[{"name":"cpus","type":"SCALAR","scalar":{"value":0.5}},)"
                            R"({"name":"mem","type":"SCALAR","scalar":{"value":128}}],"command":{"value":"sleep 100"})";

[[noreturn]] static void fail(const string &why) {
    std::cerr << "scheduler: " << why << std::endl;
    std::exit(1);
}

// Returns the text of a result. Ends the program if there is a fault or a refusal.
static string text_of(const Result &result) {
    if (!result) fail("status " + std::to_string(static_cast<unsigned>(result.status())) + " " + string(result.text()));
    return string(result.text());
}

// Returns the string, with its quotes, that follows the first `name` in a canonical text. A name ends
// with a quote and a colon, which no string contains: a quote in a string follows a backslash.
static string string_after(string_view text, string_view name) {
    const size_t found = text.find(name), begin = found + name.size();
    if (found == text.npos) fail("no " + string(name) + " in " + string(text));
    size_t end = begin + 1;
    while (text[end] != '"') end += text[end] == '\\' ? 2 : 1;
    return string(text.substr(begin, end + 1 - begin));
}

static string id_of(string_view offer) { return R"({"value":)" + string_after(offer, R"("id":{"value":)") + "}"; }

// A connection to the master, and the bytes that were read from it and not used yet.
struct Connection {
    string rest;
    int handle;

    explicit Connection(const string &address) {
        const size_t colon = address.rfind(':');
        addrinfo hints{}, *found = nullptr;
        hints.ai_socktype = SOCK_STREAM;
        if (colon == string::npos) fail("the address is not HOST:PORT");
        if (getaddrinfo(address.substr(0, colon).c_str(), &address[colon + 1], &hints, &found) != 0) fail("no such host");
        handle = socket(found->ai_family, found->ai_socktype, found->ai_protocol);
        const timeval silence{60, 0}; // A master sends a HEARTBEAT every 15 seconds, if not configured otherwise.
        setsockopt(handle, SOL_SOCKET, SO_RCVTIMEO, &silence, sizeof silence);
        if (connect(handle, found->ai_addr, found->ai_addrlen) != 0) fail("no master listens there");
        freeaddrinfo(found);
    }
    Connection(Connection &&) = delete;
    ~Connection() { close(handle); }

    // Sends a call, and returns the head of its response, which must have this status.
    string post(const string &fields, string_view call, const string &status) {
        string request = "POST /api/v1/scheduler HTTP/1.1\r\nContent-Type: application/json\r\n" + fields;
        request.append("Content-Length: " + std::to_string(call.size()) + "\r\n\r\n").append(call);
        const ssize_t sent = send(handle, request.data(), request.size(), MSG_NOSIGNAL);
        if (sent != static_cast<ssize_t>(request.size())) fail("a call was not sent");
        while (rest.find("\r\n\r\n") == string::npos) if (!read()) fail("no response");
        string head = rest.substr(0, rest.find("\r\n\r\n") + 4);
        if (head.find(" " + status + " ") != std::strlen("HTTP/1.1")) fail(head);
        rest.erase(0, head.size());
        return head;
    }

    // Reads more bytes. Returns false at the end.
    bool read() {
        char piece[4096];
        const ssize_t size = recv(handle, piece, sizeof piece, 0);
        if (size < 0) fail("the connection is broken");
        rest.append(piece, static_cast<size_t>(size));
        return size > 0;
    }
};

// A framework: its session, and the stream of its events.
struct Scheduler {
    string address, framework = "", fields = "Host: " + address + "\r\nAccept: application/json\r\n";
    Connection stream{address};
    Session session = *Session::create();
    Decoder decoder = *Decoder::create(mesosev::Framing::chunked);
    bool is_launched = false;

    // Subscribes, and runs until the master ends the stream.
    void run() {
        const string head = stream.post(fields, text_of(session.subscribe(R"({"user":"root","name":"proved"})")), "200");
        const char *id = strcasestr(head.c_str(), "\r\nMesos-Stream-Id:");
        if (id == nullptr) fail("no Mesos-Stream-Id");
        // Each call has a connection of its own, which ends with its response.
        fields.append("Connection: close").append(id, std::strstr(id + 2, "\r\n") + 2);
        Decoded decoded;
        do {
            string_view rest = stream.rest;
            while ((decoded = decoder.next(rest)).is_event()) hear(decoded);
            stream.rest.clear();
            if (decoded.status == Status::more && !stream.read()) decoded = decoder.finish();
        } while (decoded.status == Status::more);
        if (decoded.status != Status::end) fail("the stream is invalid: " + string(decoded.text));
    }

    void hear(const Decoded &event) {
        text_of(session.heard(event.text));
        if (event.type == Type::subscribed) framework = string_after(event.text, R"("framework_id":{"value":)");
        if (event.type == Type::offers) use_offers();
        if (event.type != Type::update) return;
        const string quoted = string_after(event.text, R"("state":)"), state = quoted.substr(1, quoted.size() - 2);
        std::cout << state << std::endl;
        while (session.owed_count() > 0) post(text_of(session.acknowledge(0)));
        if (state == "TASK_RUNNING") say("TEARDOWN", "");
    }

    // Launches the task on the first offer, once, and declines the other offers.
    void use_offers() {
        if (!is_launched && session.offer_count() > 0) launch_on(text_of(session.offer_at(0)));
        string ids;
        for (size_t i = 0; i < session.offer_count(); i++) ids += (i > 0 ? "," : "") + id_of(text_of(session.offer_at(i)));
        if (!ids.empty()) say("DECLINE", R"(,"decline":{"offer_ids":[)" + ids + "]}");
    }

    void launch_on(const string &offer) {
        is_launched = true;
        const string agent = string_after(offer, R"("agent_id":{"value":)");
        const string task = R"({"name":"t","task_id":{"value":"t"},"agent_id":{"value":)" + agent + "}," + ASKED + "}";
        const string launch = R"([{"type":"LAUNCH","launch":{"task_infos":[)" + task + "]}}]";
        say("ACCEPT", R"(,"accept":{"offer_ids":[)" + id_of(offer) + R"(],"operations":)" + launch + "}");
    }

    // Sends a call, if the session allows it.
    void say(const string &type, const string &body) {
        const string call = R"({"type":")" + type + R"(","framework_id":{"value":)" + framework + "}" + body + "}";
        post(text_of(session.said(call)));
    }

    void post(const string &call) { Connection(address).post(fields, call, "202"); }
};

int main(int count, char **arguments) {
    if (count != 2) fail("usage: scheduler HOST:PORT");
    Scheduler{arguments[1]}.run();
}
