// A client of the arena: connect, enter, look, write, depart, accuse, leave.
//
//     auto [agent, here] = arena::join("127.0.0.1", "4000", "KEY");   // here has ports, came (-1 at first) and board
//     auto swap = agent.write("", "I was here");                      // swap has written and board
//     here = agent.depart(0);                                         // waits until the agent has arrived
//     agent.accuse(1);                                                // port 1 leads to a black hole; the agent ends
#pragma once
#include <netdb.h>
#include <netinet/in.h>
#include <netinet/tcp.h>
#include <sys/socket.h>
#include <unistd.h>

#include <algorithm>
#include <chrono>
#include <memory>
#include <nlohmann/json.hpp>
#include <set>
#include <stdexcept>
#include <string>
#include <thread>
#include <utility>

namespace arena {

// The server refused a command, or is not there any more: what() is the word that it said.
struct Refused : std::runtime_error {
    using std::runtime_error::runtime_error;
};

// The match has ended. The agent can do nothing more.
struct MatchOver : Refused {
    MatchOver() : Refused("the match is over") {}
};

// A node as an agent sees it. `came` is the port by which the agent came, or -1.
struct Here {
    int ports;
    int came;
    std::string board;
};

// What a write came to: whether the text was put, and what stands on the whiteboard now.
struct Swap {
    bool written;
    std::string board;
};

// Lines to and from the server over a socket.
class Lines {
public:
    Lines(const std::string &host, const std::string &port)
    {
        addrinfo hints{}, *found = nullptr;
        hints.ai_socktype = SOCK_STREAM;
        if (getaddrinfo(host.c_str(), port.c_str(), &hints, &found) != 0)
            throw Refused("no such host: " + host);
        for (const addrinfo *it = found; it && socket_ < 0; it = it->ai_next)
            try_address(*it);
        freeaddrinfo(found);
        if (socket_ < 0)
            throw Refused("no server is listening there");
        const int on = 1;
        setsockopt(socket_, IPPROTO_TCP, TCP_NODELAY, &on, sizeof on);
    }
    Lines(const Lines &) = delete;
    Lines &operator=(const Lines &) = delete;
    ~Lines() { close(socket_); }

    void send(const std::string &line) const
    {
        const std::string whole = line + "\n";
        for (size_t sent = 0; sent < whole.size();) {
            const ssize_t more = ::send(socket_, whole.data() + sent, whole.size() - sent, MSG_NOSIGNAL);
            if (more <= 0)
                throw Refused("the server has closed the connection");
            sent += static_cast<size_t>(more);
        }
    }

    // The next line; waits for it as long as it takes.
    std::string receive()
    {
        size_t end;
        while ((end = read_.find('\n')) == std::string::npos) {
            char bytes[4096];
            const ssize_t more = recv(socket_, bytes, sizeof bytes, 0);
            if (more <= 0)
                throw Refused("the server has closed the connection");
            read_.append(bytes, static_cast<size_t>(more));
        }
        std::string line = read_.substr(0, end);
        read_.erase(0, end + 1);
        return line;
    }

private:
    void try_address(const addrinfo &address)
    {
        socket_ = socket(address.ai_family, address.ai_socktype, address.ai_protocol);
        if (socket_ >= 0 && connect(socket_, address.ai_addr, address.ai_addrlen) != 0) {
            close(socket_);
            socket_ = -1;
        }
    }

    int socket_ = -1;
    std::string read_;
};

// One agent of a match. Each call sends a line and waits for its answer.
class Agent {
public:
    Agent(const std::string &host, const std::string &port) : lines_(std::make_unique<Lines>(host, port)) {}

    // Enters the match of this key at its home base.
    Here enter(const std::string &key) { return here(ask({{"do", "enter"}, {"key", key}})); }

    // Looks at the node where the agent is.
    Here look() { return here(ask({{"do", "look"}})); }

    // Puts a text on the whiteboard if what stands there is what is expected, else changes nothing.
    Swap write(const std::string &expect, const std::string &put)
    {
        const auto answer = ask({{"do", "write"}, {"expect", expect}, {"put", put}});
        const bool written = answer.at("ok") == "written";
        return {written, written ? put : answer.at("board").get<std::string>()};
    }

    // Leaves by this port, and waits until the agent arrives. If it is destroyed, that is until the match ends.
    Here depart(int port)
    {
        ask({{"do", "depart"}, {"port", port}});
        return here(answer());
    }

    // Says that the link at this port leads to a black hole, or is dark. The agent ends.
    void accuse(int port) { ask({{"do", "accuse"}, {"port", port}}); }

    // Leaves the match.
    void leave() { ask({{"do", "leave"}}); }

private:
    nlohmann::json ask(const nlohmann::json &command)
    {
        lines_->send(command.dump());
        return answer();
    }

    nlohmann::json answer()
    {
        auto found = nlohmann::json::parse(lines_->receive());
        if (found.contains("no"))
            throw Refused(found["no"].get<std::string>());
        if (found.at("ok") == "over")
            throw MatchOver();
        return found;
    }

    static Here here(const nlohmann::json &answer)
    {
        const auto &from = answer.at("from");
        const int came = from.is_null() ? -1 : from.get<int>();
        return {answer.at("ports").get<int>(), came, answer.at("board").get<std::string>()};
    }

    std::unique_ptr<Lines> lines_;
};

// Connects and enters. Tries again if the server has no room yet: then the key is not used up.
inline std::pair<Agent, Here> join(const std::string &host, const std::string &port, const std::string &key)
{
    using std::chrono::milliseconds;
    static const std::set<std::string> try_again = {"full", "late", "memory"};
    milliseconds pause(50);
    for (int left = 20;; --left) {
        Agent agent(host, port);
        try {
            const Here home = agent.enter(key);
            return {std::move(agent), home};
        } catch (const Refused &why) {
            if (left == 0 || !try_again.count(why.what()))
                throw;
        }
        std::this_thread::sleep_for(pause);
        pause = std::min(2 * pause, milliseconds(2000));
    }
}

} // namespace arena
