/* Searches a ring with two agents that know its number of nodes, which is the module's argument.
 *
 * The agent that writes first at the home base explores the side of port 0, the other the side of port 1. Each goes
 * out to the next unexplored node of its side and comes back, and writes at the home base how many nodes of each side
 * are safe, as "3 1". Once one node is left, that is the black hole.
 */
#include "arena.h"

enum { BOARD = 16, BOTH = 2 };

static int side;       /* the port at the home base behind which this agent explores */
static int mine;       /* how many nodes of this side are safe */
static int safe[BOTH]; /* the same of both sides, as it stood at the home base */
/* what a whiteboard shows and what is written there; cleared once they are used, so that they tell no states apart */
static char shown[BOARD], put[BOARD];

static char *put_number(char *to, int number)
{
    if (number >= 10)
        to = put_number(to, number / 10);
    *to++ = (char)('0' + number % 10);
    return to;
}

/* Takes what the whiteboard of the home base shows, and answers its length. */
static int read_board(void)
{
    int length = arena_board(shown, BOARD - 1);
    const char *at = shown;
    for (int it = 0; it < BOTH; it++) {
        for (safe[it] = 0; *at >= '0' && *at <= '9'; at++)
            safe[it] = 10 * safe[it] + (*at - '0');
        if (*at)
            at++;
    }
    return length;
}

/* Writes at the home base how many nodes of each side are safe, in place of what it shows; answers the reply. */
static int write_board(int length)
{
    char *end = put_number(put, safe[0]);
    *end++ = ' ';
    end = put_number(end, safe[1]);
    int reply = arena_write(shown, length, put, (int)(end - put));
    arena_clear(shown, BOARD);
    arena_clear(put, BOARD);
    return reply;
}

/* Chooses the side of port 0, unless the other agent has chosen it before. Answers whether the match goes on. */
static int choose_side(void)
{
    int length = read_board();
    int reply = length ? ARENA_CHANGED : write_board(length);
    side = reply != ARENA_WRITTEN;
    if (side)
        read_board();
    arena_clear(shown, BOARD);
    return reply == ARENA_WRITTEN || reply == ARENA_CHANGED;
}

/* Writes how many nodes of this side are safe; what the other agent wrote stays. Answers whether the match goes on. */
static int note(void)
{
    int reply;
    do {
        int length = read_board();
        safe[side] = mine;
        reply = write_board(length);
    } while (reply == ARENA_CHANGED);
    return reply == ARENA_WRITTEN;
}

/* Goes on in one direction over this many links. Answers whether the match goes on. */
static int walk(int port, int links)
{
    for (; links > 0; links--) {
        if (arena_depart(port) != ARENA_HERE)
            return 0;
        port = 1 - arena_came();
    }
    return 1;
}

ARENA_RUN
{
    int nodes = arena_argument(0);
    if (arena_enter() != ARENA_HERE || !choose_side())
        return;
    for (;;) {
        if (!walk(side, mine))
            return;
        int ahead = mine ? 1 - arena_came() : side;
        if (mine + safe[1 - side] == nodes - 2) {
            arena_accuse(ahead);
            return;
        }
        if (!walk(ahead, 1))
            return;
        mine++;
        if (!walk(arena_came(), mine) || !note())
            return;
    }
}
