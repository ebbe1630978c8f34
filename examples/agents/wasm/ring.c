/* Searches a ring with two agents that know its number of nodes: the division by halves of ../ring.py, command for
 * command, as a WebAssembly module. Its argument is the number of nodes.
 */
#include "arena.h"

enum side { RIGHT, LEFT };
enum kind { NEW, GOING, SAFE, TOLD, HOLE };
enum { ROOM = 48 };

/* What a whiteboard says of the link on one side. */
struct field {
    int kind, number;
};

static const char *const SIDES[] = {"right ", "left "};
static const char *const KINDS[] = {"new", "going", "safe", "told ", "hole"};

static struct field board[2];
static int came, heading; /* the port by which the agent came, and the side to which it went; -1 at first */
static int nodes, side, mine, theirs, target;
static int over; /* the match is over, or the quota is used */
static char text[ROOM], other_text[ROOM];

/* ---- texts */

static void clear(char *at)
{
    for (int i = 0; i < ROOM; i++)
        at[i] = 0;
}

static char *put_text(char *to, const char *from)
{
    while (*from)
        *to++ = *from++;
    return to;
}

static char *put_number(char *to, int number)
{
    if (number >= 10)
        to = put_number(to, number / 10);
    *to++ = (char)('0' + number % 10);
    return to;
}

/* Writes what a whiteboard says, and answers the length. The text of one that says nothing is empty. */
static int put_board(char *buffer, const struct field *fields)
{
    char *to = buffer;
    if (fields[RIGHT].kind == NEW && fields[LEFT].kind == NEW)
        return 0;
    for (int it = RIGHT; it <= LEFT; it++) {
        if (it == LEFT)
            to = put_text(to, ", ");
        to = put_text(to, SIDES[it]);
        to = put_text(to, KINDS[fields[it].kind]);
        if (fields[it].kind == TOLD)
            to = put_number(to, fields[it].number);
    }
    return (int)(to - buffer);
}

static const char *skip(const char *at, const char *word)
{
    while (*word && *at == *word)
        at++, word++;
    return *word ? 0 : at;
}

/* Takes what the whiteboard says that the last reply shows. */
static void read_board(void)
{
    arena_board(text, ROOM - 1);
    const char *at = text;
    for (int it = RIGHT; it <= LEFT; it++) {
        board[it].kind = NEW;
        board[it].number = 0;
        if (!*at)
            continue;
        at = skip(at, SIDES[it]);
        if (!at)
            break;
        for (int kind = NEW; kind <= HOLE; kind++) {
            const char *behind = skip(at, KINDS[kind]);
            if (!behind)
                continue;
            board[it].kind = kind;
            at = behind;
            if (kind == TOLD)
                for (; *at >= '0' && *at <= '9'; at++)
                    board[it].number = 10 * board[it].number + (*at - '0');
            break;
        }
        if (it == RIGHT)
            at = skip(at, ", ");
        if (!at)
            break;
    }
    clear(text);
}

/* ---- walking */

static int port_of(int to)
{
    if (heading < 0)
        return to;
    return to == heading ? 1 - came : came;
}

static void walk(int to, int steps)
{
    for (; steps > 0 && !over; steps--) {
        int port = port_of(to);
        board[RIGHT].kind = board[LEFT].kind = board[RIGHT].number = board[LEFT].number = 0;
        came = 0;
        heading = to;
        if (arena_depart(port) != ARENA_HERE) {
            over = 1;
            return;
        }
        came = arena_came();
        read_board();
    }
}

/* Writes this of the link on a side, unless somebody wrote there since it was read; then reads it again. */
static int swap(int it, int kind, int number)
{
    struct field wanted[2] = {board[RIGHT], board[LEFT]};
    wanted[it].kind = kind;
    wanted[it].number = number;
    int expect_length = put_board(text, board);
    int put_length = put_board(other_text, wanted);
    int reply = arena_write(text, expect_length, other_text, put_length);
    clear(text);
    clear(other_text);
    if (reply == ARENA_WRITTEN) {
        board[RIGHT] = wanted[RIGHT];
        board[LEFT] = wanted[LEFT];
        return 1;
    }
    if (reply == ARENA_CHANGED)
        read_board();
    else
        over = 1;
    return 0;
}

/* ---- the search */

static int left(void)
{
    return nodes - 1 - mine - theirs;
}

/* Writes this of the link ahead, and takes what the other wrote there; answers whether it is not the hole. */
static int mark(int kind)
{
    while (!over) {
        struct field found = board[side];
        if (found.kind == HOLE)
            return 0;
        if (found.kind == TOLD) {
            theirs = found.number;
            target = mine + (left() + 1) / 2;
        }
        if (found.kind == kind || swap(side, kind, 0))
            return 1;
    }
    return 1;
}

/* Explores the agent's half from its last safe node on; answers whether it is still searching. */
static int explore(void)
{
    while (mine < target && !over) {
        if (!mark(GOING)) {
            arena_accuse(port_of(side));
            return 0;
        }
        walk(side, 1);
        walk(1 - side, 1);
        mark(SAFE);
        mine++;
        walk(side, 1);
    }
    return !over;
}

/* Goes to the last safe node of the other side, and divides what is left; answers whether there is more than one node.
 * Else that is the black hole, and the agent accuses the link to it. */
static int divide(void)
{
    int other = 1 - side, last = 0;
    walk(other, mine);
    theirs = 0;
    while (!over) {
        if (board[other].kind == SAFE) {
            walk(other, 1);
            theirs++;
            continue;
        }
        last = left() == 1;
        if (swap(other, last ? HOLE : TOLD, last ? 0 : mine))
            break;
    }
    if (over)
        return 0;
    if (last) {
        arena_accuse(port_of(other));
        return 0;
    }
    target = mine + left() / 2;
    walk(side, theirs + mine);
    return !over;
}

ARENA_RUN
{
    nodes = arena_argument(0);
    came = heading = -1;
    if (arena_enter() != ARENA_HERE)
        return;
    read_board();
    side = RIGHT;
    if (board[RIGHT].kind != NEW || board[LEFT].kind != NEW || !swap(RIGHT, GOING, 0))
        side = LEFT;
    target = side == RIGHT ? nodes / 2 : (nodes - 1) / 2;
    for (;;) {
        if (!explore())
            break;
        if (left() == 1) {
            arena_accuse(port_of(side));
            break;
        }
        if (!divide())
            break;
    }
    if (over)
        arena_leave();
}
