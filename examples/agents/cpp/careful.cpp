// Searches a ring with two agents that know its number of nodes.
//
//     ./careful HOST PORT KEY NODES
//     ARENA_HOST=HOST ARENA_PORT=PORT ARENA_KEY=KEY ./careful NODES
//
// Start it twice, with the keys of both agents. The agent that writes first at the home base explores the side of
// port 0, the other the side of port 1. Each goes out to the next unexplored node of its side and comes back, and
// writes at the home base how many nodes of each side are safe, as "3 1". Once one node is left, that is the black
// hole.
#include <array>
#include <cstdlib>
#include <iostream>
#include <sstream>
#include <vector>

#include "client.hpp"

using arena::Agent;
using arena::Here;
using arena::Swap;

using Safe = std::array<int, 2>;

static Safe safe_on(const std::string &board)
{
    Safe safe{};
    std::istringstream(board) >> safe[0] >> safe[1];
    return safe;
}

static std::string board_of(const Safe &safe)
{
    return std::to_string(safe[0]) + " " + std::to_string(safe[1]);
}

// Goes on in one direction over this many links, at least one.
static Here walk(Agent &agent, int port, int links)
{
    Here here = agent.depart(port);
    for (int more = 1; more < links; ++more)
        here = agent.depart(1 - here.came);
    return here;
}

// Writes how many nodes of this side are safe; what the other agent wrote stays.
static std::string note(Agent &agent, size_t side, int mine, std::string board)
{
    for (;;) {
        Safe safe = safe_on(board);
        safe[side] = mine;
        const Swap swap = agent.write(board, board_of(safe));
        board = swap.board;
        if (swap.written)
            return board;
    }
}

// Searches until the agent has accused.
static void search(Agent &agent, const Here &home, int nodes)
{
    size_t side = 1;
    std::string board = home.board;
    if (board.empty()) {
        const Swap swap = agent.write("", board_of(Safe{}));
        side = swap.written ? 0 : 1;
        board = swap.board;
    }
    for (int mine = 0;;) {
        const int theirs = safe_on(board)[1 - side];
        const int ahead = mine == 0 ? static_cast<int>(side) : 1 - walk(agent, static_cast<int>(side), mine).came;
        if (mine + theirs == nodes - 2)
            return agent.accuse(ahead);
        const Here found = agent.depart(ahead);
        ++mine;
        board = note(agent, side, mine, walk(agent, found.came, mine).board);
    }
}

static std::string known(const char *name, const char *otherwise)
{
    const char *value = std::getenv(name);
    return value ? value : otherwise;
}

int main(int count, char **given)
{
    std::vector<std::string> words(given + 1, given + count);
    if (words.size() == 1)
        words = {known("ARENA_HOST", "127.0.0.1"), known("ARENA_PORT", "4000"), known("ARENA_KEY", ""), words[0]};
    if (words.size() != 4) {
        std::cerr << "usage: careful HOST PORT KEY NODES\n";
        return 2;
    }
    try {
        auto [agent, here] = arena::join(words[0], words[1], words[2]);
        search(agent, here, std::stoi(words[3]));
    } catch (const arena::MatchOver &over) {
        std::cerr << over.what() << "\n";
    } catch (const arena::Refused &why) {
        std::cerr << "refused: " << why.what() << "\n";
        return 1;
    }
    return 0;
}
