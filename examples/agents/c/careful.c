/* Searches a ring with two agents that know its number of nodes.
 *
 *     ./careful HOST PORT KEY NODES
 *     ARENA_HOST=HOST ARENA_PORT=PORT ARENA_KEY=KEY ./careful NODES
 *
 * Start it twice, with the keys of both agents. The agent that writes first at the home base explores the side of
 * port 0, the other the side of port 1. Each goes out to the next unexplored node of its side and comes back, and
 * writes at the home base how many nodes of each side are safe, as "3 1". Once one node is left, that is the black
 * hole.
 */
#include <stdlib.h>
#include <string.h>

#include "client.h"

enum { BOARD = 32 };

struct search {
    struct agent agent;
    struct here here;
    int side;    /* the port at the home base behind which this agent explores */
    int mine;    /* how many nodes of this side are safe */
    int safe[2]; /* the same of both sides, as it stood at the home base */
};

/* Takes what stands on the whiteboard of the home base. */
static void read_board(struct search *search, const char *board)
{
    search->safe[0] = search->safe[1] = 0;
    sscanf(board, "%d %d", &search->safe[0], &search->safe[1]);
}

/* Writes at the home base how many nodes of this side are safe; what the other agent wrote stays. */
static enum outcome note(struct search *search, const char *stands)
{
    char expect[BOARD], put[BOARD];
    bool written = false;
    snprintf(expect, sizeof expect, "%s", stands);
    while (!written) {
        read_board(search, expect);
        search->safe[search->side] = search->mine;
        snprintf(put, sizeof put, "%d %d", search->safe[0], search->safe[1]);
        enum outcome outcome = agent_write(&search->agent, expect, put, &written, &stands);
        if (outcome != DONE)
            return outcome;
        snprintf(expect, sizeof expect, "%s", stands);
    }
    return DONE;
}

/* Chooses the side of port 0, unless the other agent has chosen it before. */
static enum outcome choose_side(struct search *search)
{
    bool written = false;
    const char *board = search->here.board;
    if (!*board) {
        enum outcome outcome = agent_write(&search->agent, "", "0 0", &written, &board);
        if (outcome != DONE)
            return outcome;
    }
    search->side = written ? 0 : 1;
    read_board(search, board);
    return DONE;
}

/* Goes on in one direction over this many links. */
static enum outcome walk(struct search *search, int port, int links)
{
    for (; links > 0; links--) {
        enum outcome outcome = agent_depart(&search->agent, port, &search->here);
        if (outcome != DONE)
            return outcome;
        port = 1 - search->here.came;
    }
    return DONE;
}

/* Searches until the agent has accused. */
static enum outcome run(struct search *search, int nodes)
{
    enum outcome outcome = choose_side(search);
    while (outcome == DONE) {
        int ahead = search->side;
        if ((outcome = walk(search, ahead, search->mine)) != DONE)
            break;
        if (search->mine > 0)
            ahead = 1 - search->here.came;
        if (search->mine + search->safe[1 - search->side] == nodes - 2)
            return agent_accuse(&search->agent, ahead);
        if ((outcome = walk(search, ahead, 1)) != DONE)
            break;
        search->mine++;
        if ((outcome = walk(search, search->here.came, search->mine)) == DONE)
            outcome = note(search, search->here.board);
    }
    return outcome;
}

static const char *known(const char *name, const char *otherwise)
{
    const char *value = getenv(name);
    return value ? value : otherwise;
}

int main(int count, char **words)
{
    static struct search search;
    const char *host = known("ARENA_HOST", "127.0.0.1"), *port = known("ARENA_PORT", "4000");
    const char *key = known("ARENA_KEY", "");
    if (count == 5) {
        host = words[1];
        port = words[2];
        key = words[3];
    } else if (count != 2) {
        fputs("usage: careful HOST PORT KEY NODES\n", stderr);
        return 2;
    }
    enum outcome outcome = agent_join(&search.agent, host, port, key, &search.here);
    if (outcome == DONE)
        outcome = run(&search, atoi(words[count - 1]));
    if (outcome == OVER)
        fputs("the match is over\n", stderr);
    if (outcome == REFUSED)
        fprintf(stderr, "refused: %s\n", search.agent.why);
    agent_close(&search.agent);
    return outcome == REFUSED ? 1 : 0;
}
