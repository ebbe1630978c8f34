// A first test: make test
#include <arpa/inet.h>

#include <cassert>
#include <iostream>
#include <vector>

#include "client.hpp"

// Answers each line of one client by the next of these answers, and keeps what it hears.
static void serve(int listener, const std::vector<std::string> &answers, std::vector<std::string> &heard)
{
    const int client = accept(listener, nullptr, nullptr);
    std::string line;
    for (const auto &answer : answers) {
        char one;
        for (line.clear(); read(client, &one, 1) == 1 && one != '\n';)
            line += one;
        heard.push_back(line);
        assert(write(client, answer.data(), answer.size()) == static_cast<ssize_t>(answer.size()));
    }
    close(client);
}

int main()
{
    sockaddr_in address{};
    address.sin_family = AF_INET;
    address.sin_addr.s_addr = htonl(INADDR_LOOPBACK);
    socklen_t size = sizeof address;
    const int listener = socket(AF_INET, SOCK_STREAM, 0);
    assert(bind(listener, reinterpret_cast<sockaddr *>(&address), size) == 0 && listen(listener, 1) == 0);
    getsockname(listener, reinterpret_cast<sockaddr *>(&address), &size);
    const std::vector<std::string> answers = {
        "{\"board\":\"\",\"from\":null,\"ok\":\"here\",\"ports\":2}\n",
        "{\"ok\":\"gone\"}\n{\"board\":\"3 1\",\"from\":1,\"ok\":\"here\",\"ports\":2}\n"};
    std::vector<std::string> heard;
    std::thread server([&] { serve(listener, answers, heard); });
    auto [agent, home] = arena::join("127.0.0.1", std::to_string(ntohs(address.sin_port)), "ka");
    assert(home.ports == 2 && home.came == -1 && home.board.empty());
    // a departure is answered twice
    const arena::Here next = agent.depart(0);
    assert(next.came == 1 && next.board == "3 1");
    server.join();
    assert((heard == std::vector<std::string>{"{\"do\":\"enter\",\"key\":\"ka\"}", "{\"do\":\"depart\",\"port\":0}"}));
    std::cout << "1 test passed\n";
}
